#!/usr/bin/env bash
# Runs the programs on files that never end, on long ones, and without standard input, output or
# error.
set -euo pipefail
. "$(dirname "$0")/lib.sh"
# shellcheck source=SCRIPTDIR/failing_files/setup.sh
. "$top/tests/failing_files/setup.sh"

case_endless() {
  printf 'MemAvailable:   1000000000 kB\n' > "$work/much"
  endless 'comments' <(yes 'c no clause') "$proof"
  endless 'clauses' <(yes '1 0') "$proof"
  endless 'a token' <(yes 1 | tr -d '\n') "$proof"
  endless 'NUL bytes' /dev/zero "$proof"
  endless 'steps' "$cnf" <(yes $'\x09\x40' | tr -d '\n')
  mkfifo "$work/silent"
  endless 'a pipe that no one writes' "$work/silent" "$proof"
  timeout 10 dd if="$proof" of="$work/silent" status=none 2> /dev/null &
  failing '' "$check" "$cnf" "$work/silent"
  wants 'a pipe with a proof' 0 's UNSATISFIABLE' ''
  failing '' bash -c 'ulimit -v 300000; "$0" - "$1" < <(yes 1)' "$check" "$proof"
  wants 'a clause that never ends, in little memory' 1 '' $'out of memory\nin standard input'
  printf '\x03\xff\xff\xff\x7f\x0d' > "$work/last_var"
  failing '' bash -c 'ulimit -v 300000; "$0" "$1" "$2"' "$check" "$cnf" "$work/last_var"
  refused 'the last variable there may be, in little memory' "$work/last_var" 'out of memory'
  counted 'files that never end, or ask for too much'
}

case_bounds() {
  bound_reads
  counted 'files beside free memory'
}

# 22 MB of clauses, and 101 MB of hints in one line: that a file is long is no fault.
case_long() {
  yes '1 -2 3 -4 5 -6 7 0' | head -n 1100000 > "$work/clauses" || true
  printf '\x0d' > "$work/end"
  : > "$work/nothing"
  failing '' "$check" "$work/clauses" "$work/end"
  wants 'many clauses, by varisat_check' 3 's NOT SHOWN' ''
  for program in "$hint_check" "$lrat_check" "$drat_check"; do
    failing '' "$program" "$work/clauses" "$work/nothing"
    wants "many clauses, by $program" 3 's NOT VERIFIED' ''
  done
  echo '2 -3 7 0' > "$work/seven"
  failing '' "$model_check" "$work/clauses" "$work/seven"
  wants 'many clauses, by model_check' 0 's VERIFIED SAT' ''
  printf '1 0\n-1 0\n' > "$work/units"
  {
    printf '3 0 1 2'
    head -c 101000000 /dev/zero | tr '\0' ' '
    printf '0\n'
  } > "$work/hints"
  for program in "$hint_check" "$lrat_check"; do
    failing '' "$program" "$work/units" "$work/hints"
    wants "a long line of hints, by $program" 0 's VERIFIED UNSAT' ''
  done
  counted 'long files'
}

case_closed() {
  close_streams
  counted 'streams that are closed'
}

try_cases
