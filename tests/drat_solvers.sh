#!/usr/bin/env bash
# Solvers that write DRAT, and `drat_check` on what they write: text, binary, and by a pipe; and proofs with RAT steps and with
# witnesses. Each proof is damaged, too: `tests/drat/refusal.py` then says of each refusal whether it is right.
# It uses the solvers that are there (Debian: cadical picosat cryptominisat), and says which are not.
#
# The program must be built: `rt ci` does it, or `rt run` in its folder.
set -euo pipefail
. "$(dirname "$0")/lib.sh"
check=$(built drat_check)

# says_verified NAME CNF PROOF: the program has to say so, and to end with status 0
says_verified() {
  local said status=0
  said=$("$check" "$2" "$3" 2> "$work/err") || status=$?
  if [[ $said != 's VERIFIED UNSAT' || $status != 0 ]]; then
    printf '%s: status %d, %s %s\n' "$1" "$status" "$said" "$(cat "$work/err")"
    wrong=1
  fi
}

# verified NAME CNF PROOF: the proof has to be verified, and damaged ones to be refused for a reason that can be shown
verified() {
  says_verified "$1" "$2" "$3"
  python3 -B "$top/tests/drat/damage.py" "$check" "$2" "$3" "$1" || wrong=1
}

# solved NAME COMMAND..: the solver has to answer "unsatisfiable"
solved() {
  local name=$1 status=0
  shift
  "$@" > "$work/said" 2>&1 || status=$?
  if ((status != 20)); then
    printf '%s: the solver ended with status %d\n' "$name" "$status"
    wrong=1
  fi
}

formula pigeons 6 > "$work/pigeons.cnf"
formula random 150 4.8 1 > "$work/random.cnf"
formula multiplier 5 > "$work/multiplier.cnf"
names=(pigeons random multiplier)

case_cadical() {
  only_with cadical
  for name in "${names[@]}"; do
    cnf=$work/$name.cnf
    solved "cadical $name" cadical -q --no-binary "$cnf" "$work/text"
    verified "cadical $name, text" "$cnf" "$work/text"
    solved "cadical $name" cadical -q "$cnf" "$work/binary"
    verified "cadical $name, binary" "$cnf" "$work/binary"
    says_verified "cadical $name, by a pipe" "$cnf" - < <(cat "$work/binary")
  done
}

case_picosat() {
  only_with picosat
  for name in pigeons random; do
    solved "picosat $name" picosat -R "$work/proof" "$work/$name.cnf"
    verified "picosat $name" "$work/$name.cnf" "$work/proof"
  done
}

case_cryptominisat() {
  only_with cryptominisat5
  for name in pigeons random; do
    solved "cryptominisat $name" cryptominisat5 --verb 0 "$work/$name.cnf" "$work/frat"
    awk '$1 == "a" || $1 == "d" {
      line = $1 == "d" ? "d" : ""
      for (i = 3; i <= NF; i++) { line = line " " $i; if ($i == "0") break }
      print line
    }' "$work/frat" > "$work/proof"
    verified "cryptominisat $name" "$work/$name.cnf" "$work/proof"
  done
}

case_rat() {
  for holes in 6 9; do
    formula pigeons "$holes" > "$work/rat.cnf"
    for family in extended swaps; do
      formula "$family" "$holes" > "$work/proof"
      verified "$family $holes" "$work/rat.cnf" "$work/proof"
    done
  done
  formula pigeons 9 > "$work/pr.cnf"
  formula exchanges 9 > "$work/proof"
  verified "exchanges 9" "$work/pr.cnf" "$work/proof"
  formula pairs 4 > "$work/pr.cnf"
  formula pair_exchanges 4 > "$work/proof"
  verified "pair_exchanges 4" "$work/pr.cnf" "$work/proof"
}

case_turns() {
  only_with cadical
  formula board 8 > "$work/board.cnf"
  formula turned_board 8 > "$work/turned.cnf"
  solved "cadical on a board" cadical -q --no-binary "$work/turned.cnf" "$work/rest"
  formula turns 8 > "$work/proof"
  cat "$work/rest" >> "$work/proof"
  verified "turns 8" "$work/board.cnf" "$work/proof"
}

try_cases
