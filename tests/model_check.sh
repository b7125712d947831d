#!/usr/bin/env bash
# Answers that a formula is satisfiable, and `model_check` on them: solvers' answers, as they are, by a pipe and damaged, and
# random lists of literals. What has to be said is told by the definition, in `tests/model_check/answers.py`.
# It uses the solvers that are there (Debian: cadical picosat), and says which are not.
#
#   tests/model_check.sh [COUNT [SEED]]
#
# The program must be built: `rt ci` does it, or `rt run` in its folder.
set -euo pipefail
. "$(dirname "$0")/lib.sh"
check=$(built model_check)
drawn=("${1:-200}" "${2:-1}")

answers() {
  python3 -B "$top/tests/model_check/answers.py" "$check" "$@" || wrong=1
}

# ended STATUS NAME COMMAND..: the solver writes its answer and ends with this status
ended() {
  local wanted=$1 name=$2 status=0
  shift 2
  "$@" > "$work/answer" 2> "$work/err" || status=$?
  if ((status != wanted)); then
    printf '%s: the solver ended with status %d\n' "$name" "$status"
    wrong=1
    return 1
  fi
}

# said NAME LINE STATUS CNF ANSWER: the program writes this line and ends with this status
said() {
  local line status=0
  line=$("$check" "$4" "$5" 2> "$work/err") || status=$?
  if [[ $line != "$2" ]] || ((status != $3)); then
    printf '%s: %s, status %d; %s\n' "$1" "$line" "$status" "$(cat "$work/err")"
    wrong=1
  fi
}

for seed in 1 2 3; do
  python3 -B "$top/tests/drat/formulas.py" random 200 3.5 "$seed" > "$work/satisfiable$seed.cnf"
done
python3 -B "$top/tests/drat/formulas.py" pigeons 5 > "$work/pigeons.cnf"

# solves SOLVER: formulas that can be satisfied, and one that can't
solves() {
  local solver=$1 seed cnf
  only_with "$solver"
  for seed in 1 2 3; do
    cnf=$work/satisfiable$seed.cnf
    if ended 10 "$solver, formula $seed" "$solver" "$cnf"; then
      said "$solver, formula $seed" 's VERIFIED SAT' 0 "$cnf" "$work/answer"
      said "$solver, formula $seed, by a pipe" 's VERIFIED SAT' 0 "$cnf" - < <(cat "$work/answer")
      answers solved "$cnf" "$work/answer"
    fi
  done
  if ended 20 "$solver, pigeons" "$solver" "$work/pigeons.cnf"; then
    said "$solver, pigeons" '' 1 "$work/pigeons.cnf" "$work/answer"
  fi
}

case_cadical() {
  solves cadical
}

case_picosat() {
  solves picosat
}

case_random() {
  answers random "${drawn[@]}"
}

try_cases
