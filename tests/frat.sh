#!/usr/bin/env bash
# FRAT proofs by `drat_check`: some hundred random ones, beside the same steps as DRAT; proofs of formulas made of the lines that
# `drat_check` writes, with right hints, wrong ones and none; and those of cryptominisat, where it is there (Debian: cryptominisat).
# By the options --frat and --drat each proof is read as what it does not begin as, too.
#
#   tests/frat.sh [COUNT [SEED]]
#
# The program must be built: `rt ci` does it, or `rt run` in its folder.
set -euo pipefail
. "$(dirname "$0")/lib.sh"
check=$(built drat_check)
count=${1:-400} seed=${2:-1}

# by_the_option NAME CNF FRAT TYPE: where the proof's own beginning says something else, the option decides. A text that begins with a
# long comment is no FRAT without it, nor is a binary proof that begins with a step `a`; and no FRAT is DRAT.
by_the_option() {
  if [[ $4 == text ]]; then
    { printf 'c%5000s\n' '' && cat "$3"; } > "$work/late"
  else
    { printf 'a\x02\x02\x03\x00' && cat "$3"; } > "$work/late"
  fi
  expect 0 's VERIFIED UNSAT' -- "$check" "$2" "$work/late" --frat
  expect 1 '' -- "$check" "$2" "$work/late"
  expect 1 '' -- "$check" "$2" "$work/late" --drat
  expect 1 '' -- "$check" "$2" "$3" --drat
}

# of_lines NAME CNF DRAT: the lines of the proof, as FRAT
of_lines() {
  local hints way
  expect 0 's VERIFIED UNSAT' -- "$check" "$2" "$3" --lrat "$work/lrat"
  for hints in right wrong none; do
    for way in text binary; do
      python3 -B "$top/tests/drat/frat.py" of_lrat "$2" "$work/lrat" "$hints" "$way" > "$work/frat"
      expect 0 's VERIFIED UNSAT' -- "$check" "$2" "$work/frat"
      expect 0 's VERIFIED UNSAT' -- "$check" "$2" "$work/frat" --frat
      by_the_option "$1, $hints hints, $way" "$2" "$work/frat" "$way"
      head -c "$(($(stat -c %s "$work/frat") / 2))" "$work/frat" > "$work/half"
      "$check" "$2" "$work/half" > "$work/said" 2> "$work/err" || true
      if grep -q 'internal' "$work/err" || grep -q '^s VERIFIED' "$work/said"; then
        printf '%s, %s hints, %s, a half: %s %s\n' "$1" "$hints" "$way" "$(cat "$work/said")" "$(cat "$work/err")"
        wrong=1
      fi
    done
  done
}

formula pigeons 6 > "$work/pigeons.cnf"
formula random 150 4.8 1 > "$work/random.cnf"

case_lines() {
  for family in extended swaps; do
    formula "$family" 6 > "$work/drat"
    of_lines "$family" "$work/pigeons.cnf" "$work/drat"
  done
}

case_cadical() {
  only_with cadical
  cadical -q "$work/random.cnf" "$work/drat" > "$work/said" || true
  of_lines 'cadical random' "$work/random.cnf" "$work/drat"
}

case_cryptominisat() {
  only_with cryptominisat5
  for name in pigeons random; do
    cryptominisat5 --verb 0 "$work/$name.cnf" "$work/frat" > "$work/said" || true
    expect 0 's VERIFIED UNSAT' -- "$check" "$work/$name.cnf" "$work/frat"
  done
}

case_random() {
  python3 -B "$top/tests/drat/frat.py" fuzz "$check" "$count" "$seed" || wrong=1
}

try_cases
