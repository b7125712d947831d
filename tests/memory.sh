#!/usr/bin/env bash
# Runs the checkers of LRAT text and of DRAT proofs on proofs and formulas with the variable of the greatest number, and looks at the memory that
# they take: variables that are named cost nothing by their number.
#
# The programs must be built: `rt ci` does it, or `rt run` in their folders.
set -euo pipefail
. "$(dirname "$0")/lib.sh"
most=20000 # kilobytes
cd "$work"
needs drat_check lrat_check hint_check

# takes_little STATUS OUTPUT ERRORS PROGRAM FORMULA PROOF: the run must do this, and take at most so much memory
takes_little() {
  local status=0 kilobytes
  printf -- "$5" > f
  printf -- "$6" > p
  python3 -c '
import resource, subprocess, sys
status = subprocess.call([sys.argv[1], "f", "p"], stdout=open("out", "wb"), stderr=open("err", "wb"))
print(resource.getrusage(resource.RUSAGE_CHILDREN).ru_maxrss)
sys.exit(status)
' "$top/crates/$4_main/out/$4_main" > took || status=$?
  kilobytes=$(cat took)
  if [[ $status == "$1" && $(cat out) == "$2" && $(cat err) == "$(printf -- "$3")" ]] && ((kilobytes <= most)); then
    echo "ok    $kilobytes kilobytes: $4 on '$5' and '$6'"
  else
    echo "WRONG $kilobytes kilobytes: $4 on '$5' and '$6': status $status, output '$(cat out)', errors '$(cat err)'"
    wrong=1
  fi
}

# 2^28 is the greatest number of a variable
units='1 0\n-1 0\n'
pairs='1 268435456 0\n1 -268435456 0\n-1 268435456 0\n-1 -268435456 0\n'
four='1 2 0\n1 -2 0\n-1 2 0\n-1 -2 0\n'

case_hints() {
  for program in lrat_check hint_check; do
    # a clause with it is added, and one with its negation is deleted again
    takes_little 0 's VERIFIED UNSAT' '' $program "$units" '3 268435456 0 1 2 0\n4 0 1 2 0'
    takes_little 3 's NOT VERIFIED' '' $program "$units" '3 268435456 -268435456 0 1 2 0\n'
    takes_little 0 's VERIFIED UNSAT' '' $program "$units" '3 -268435456 0 1 2 0\n3 d 3 0\n4 0 1 2 0\n'
    # the formula has it, and it is true, or false, while hints are followed
    takes_little 0 's VERIFIED UNSAT' '' $program "$pairs" '5 268435456 0 1 3 0\n6 0 5 2 4 0\n'
    takes_little 0 's VERIFIED UNSAT' '' $program "$pairs" '5 -268435456 0 2 4 0\n6 0 5 1 3 0\n'
  done
  # hints that lead to no conflict
  takes_little 1 '' 'line 2: clause of a hint is not unit\nin p' hint_check "$pairs" '5 268435456 0 1 3 0\n6 0 1 2 0\n'
  takes_little 1 '' 'proof: line 2: clause of a hint is not unit\nin p' lrat_check "$pairs" '5 268435456 0 1 3 0\n6 0 1 2 0\n'
}

# Clauses that are redundant by it, where no clause has its negation, or not any more, and where one has it.
case_redundant() {
  takes_little 3 's NOT VERIFIED' '' lrat_check "$units" '3 -268435456 0 0\n'
  takes_little 3 's NOT VERIFIED' '' lrat_check '268435456 0\n' '1 d 1 0\n3 -268435456 0 0\n'
  takes_little 1 '' 'proof: line 1: hints end without a conflict\nin p' lrat_check '268435456 1 0\n' '3 -268435456 0 0\n'
  takes_little 1 '' 'proof: line 2: hints end without a conflict\nin p' lrat_check '268435456 1 0\n268435456 2 0\n' \
    '1 d 1 0\n3 -268435456 0 0\n'
}

# DRAT: the formula has it; a clause that is added, needed or not; a deletion.
case_drat() {
  takes_little 0 's VERIFIED UNSAT' '' drat_check "$pairs" '268435456 0\n'
  takes_little 0 's VERIFIED UNSAT' '' drat_check "$pairs" '-268435456 0\n'
  takes_little 0 's VERIFIED UNSAT' '' drat_check "$four" '268435456 2 0\n-268435456 1 0\n1 2 0\n1 0\n'
  takes_little 0 's VERIFIED UNSAT' '' drat_check "$four" 'd 268435456 -3 0\n1 0\n'
  takes_little 3 's NOT VERIFIED' '' drat_check '1 2 0\n' '268435456 0\n-268435456 3 0\n'
}

try_cases
