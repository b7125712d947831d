#!/usr/bin/env bash
# Counts the instructions that `drat_check` and `drat_cut` take for a proof and for one of the same kind that is twice as long: at most
# three times as many. Time that grows with the square of the length gives four times as many. The kinds are of benches/drat_hostile.py.
#
#   tests/drat_growth.sh
#
# The programs must be built: `rt ci` does it, or `rt run` in their folders. Without valgrind nothing is tried.
# needs: benches/drat_hostile.py
set -euo pipefail
. "$(dirname "$0")/lib.sh"
needs drat_check drat_cut
only_with valgrind

# files KIND COUNT: a formula and a proof
files() {
  python3 -B -c 'import sys; sys.path.insert(0, sys.argv[1]); import drat_hostile
for path, text in zip(sys.argv[4:], getattr(drat_hostile, sys.argv[2])(int(sys.argv[3]))):
    open(path, "w").write(text)' "$top/benches" "$1" "$2" "$work/cnf" "$work/drat"
}

# instructions PROGRAM: what it takes for these files
instructions() {
  local arguments=()
  if [[ $1 == drat_cut ]]; then
    arguments=("$work/piece")
  fi
  valgrind --tool=callgrind --callgrind-out-file=/dev/null "$top/crates/$1_main/out/$1_main" "$work/cnf" "$work/drat" "${arguments[@]}" \
    > "$work/said" 2> "$work/err" || true
  if [[ $1 == drat_check && $(cat "$work/said") != 's VERIFIED UNSAT' ]]; then
    cat "$work/said" "$work/err" >&2
    return 1
  fi
  sed -n 's/^==[0-9]*== Collected : \([0-9]*\)$/\1/p' "$work/err"
}

# grows PROGRAM KIND COUNT OTHER: the second proof is twice as long
grows() {
  local one two
  files "$2" "$3"
  one=$(instructions "$1")
  files "$2" "$4"
  two=$(instructions "$1")
  if ((two > 3 * one)); then
    echo "$1, $2: $one instructions for $3, $two for $4"
    wrong=1
  fi
}

case_one_pivot() {
  grows drat_check one_pivot 10000 20000
}

case_false_in_turn() {
  grows drat_check false_in_turn 10000 20000
}

case_one_bucket() {
  grows drat_check one_bucket 30000 42426
}

case_lemmas_over_units() {
  grows drat_check lemmas_over_units 10000 20000
}

case_units_and_deletions() {
  grows drat_check units_and_deletions 5000 10000
}

case_long_and_units() {
  grows drat_check long_and_units 20000 40000
}

case_chain_of_lemmas() {
  grows drat_check chain_of_lemmas 10000 20000
}

case_equal() {
  grows drat_check equal 20000 40000
}

case_one_literal() {
  grows drat_check one_literal 20000 40000
}

case_far() {
  grows drat_check far 20000 40000
}

case_deletions_of_others() {
  grows drat_check deletions_of_others 20000 40000
}

case_deletions_of_units() {
  grows drat_check deletions_of_units 20000 40000
}

case_cut_false_in_turn() {
  grows drat_cut false_in_turn 10000 20000
}

case_cut_one_bucket() {
  grows drat_cut one_bucket 30000 42426
}

try_cases
