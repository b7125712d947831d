#!/usr/bin/env bash
# Every program on a formula of more than a megabyte: with a right proof or answer, and with one that is damaged in the middle. Where
# the fault has to be found is told by what makes the texts, `tests/large/blocks.py`.
#
# The programs must be built: `rt ci` does it, or `rt run` in their folders.
set -euo pipefail
. "$(dirname "$0")/lib.sh"
cd "$work"
needs drat_check lrat_check hint_check lrat_to_proof varisat_check model_check
python3 -B "$top/tests/large/blocks.py" .
read -r step line clause last < places
for file in cnf sat.cnf; do
  if (($(stat -c %s "$file") < 1048576)); then
    echo "$file has less than a megabyte"
    wrong=1
  fi
done

# wants STATUS OUTPUT ERRORS PROGRAM ARGUMENT..: the run must do this
wants() {
  local status=0
  "$top/crates/$4_main/out/$4_main" "${@:5}" > out 2> err || status=$?
  if [[ $status == "$1" && $(cat out) == "$2" && $(cat err) == "$3" ]]; then
    echo "ok    ${*:4}"
  else
    echo "WRONG ${*:4}: status $status, output '$(cat out)', errors '$(cat err)'"
    wrong=1
  fi
}

# refused FILE FAULT PROGRAM ARGUMENT..: for a fault of this file, and nothing is said
refused() {
  wants 1 '' "$2"$'\n'"in $1" "${@:3}"
}

case_drat_check() {
  wants 0 's VERIFIED UNSAT' '' drat_check cnf drat
  wants 0 's VERIFIED UNSAT' '' drat_check cnf drat --lrat made.lrat --core core
  wants 0 's VERIFIED UNSAT' '' lrat_check cnf made.lrat
  wants 0 's VERIFIED UNSAT' '' drat_check core drat
  refused damaged.drat "proof: step $step: clause is neither RUP nor RAT on its first literal" drat_check cnf damaged.drat
  refused drat "proof: step $last: clause is neither RUP nor RAT on its first literal" drat_check sat.cnf drat
}

case_hints() {
  wants 0 's VERIFIED UNSAT' '' lrat_check cnf lrat
  refused damaged.lrat "proof: line $line: hints end without a conflict" lrat_check cnf damaged.lrat
  wants 0 's VERIFIED UNSAT' '' hint_check cnf lrat
  refused damaged.lrat "line $line: hints end without a conflict" hint_check cnf damaged.lrat
}

# A line is a step there, and whether it follows is judged by `varisat_check` alone.
case_lrat_to_proof() {
  wants 0 '' '' lrat_to_proof cnf lrat proof
  wants 0 's UNSATISFIABLE' '' varisat_check cnf proof
  wants 0 '' '' lrat_to_proof cnf damaged.lrat damaged.proof
  refused damaged.proof "step $line: Checking proof failed: AT check failed" varisat_check cnf damaged.proof
  refused unnamed.lrat "proof: line $line: no clause has the id of a hint" lrat_to_proof cnf unnamed.lrat refused.proof
}

case_model_check() {
  wants 0 's VERIFIED SAT' '' model_check sat.cnf answer
  wants 3 's NOT VERIFIED' "formula: line $((clause + 1)): clause $clause has no literal of the answer" model_check sat.cnf damaged.answer
}

try_cases
