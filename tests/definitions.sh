#!/usr/bin/env bash
# The definitions in Python (docs/definitions.py) against `lrat_check`, over 3000 random texts: the fault and its line, or the
# verdict; and against the other checkers, over formulas that all assignments are tried on. And against those for Coq.
#
# The programs must be built: `rt ci` does it, or `rt run` in their folders.
set -euo pipefail
. "$(dirname "$0")/lib.sh"
on_path drat_check lrat_check model_check
definitions=(python3 -B "$top/docs/definitions.py")

case_lrat_check() {
  LRAT_CHECK=$work/bin/lrat_check "${definitions[@]}" --try 3000 1 || wrong=1
}

# A program that says something else is found out.
case_liar() {
  printf '#!/bin/sh\n"%s" "$@" | sed "s/NOT VERIFIED/VERIFIED UNSAT/"\n' "$work/bin/lrat_check" > "$work/liar"
  chmod +x "$work/liar"
  if LRAT_CHECK=$work/liar "${definitions[@]}" --try 50 1 > "$work/said"; then
    echo "a checker that lies is not found out"
    wrong=1
  fi
}

# For Coq, if it is there: it reads the definitions, and proves of random texts what the definitions in Python say of them; and it
# does not prove another outcome.
case_coq() {
  only_with coqc
  cp "$top/docs/definitions.v" "$work/definitions.v"
  python3 -B "$top/docs/definitions_coq.py" --rows 400 1 > "$work/rows.v"
  sed 's/Ended)/Faulty 9 BadHeader)/' "$work/rows.v" > "$work/turned.v"
  if (cd "$work" && coqc -q definitions.v && coqc -q rows.v); then
    echo "Coq proves $(grep -c '^Theorem' "$work/rows.v") rows, $(grep -c 'Ended)' "$work/rows.v") of them without a fault"
  else
    wrong=1
  fi
  if (cd "$work" && coqc -q turned.v > "$work/said" 2>&1); then
    echo "Coq proves a turned row"
    wrong=1
  fi
}

# By cadical, if it is there: each answer that a checker verifies is the one of the definitions.
case_cadical() {
  only_with cadical
  refuted=0
  for seed in {1..20}; do
    python3 -B "$top/tests/drat/formulas.py" random 10 5.2 "$seed" > "$work/cnf"
    status=0
    PATH=$work:$PATH "$top/tools/checked" cadical "$work/cnf" > "$work/said" 2>&1 || status=$?
    found=$("${definitions[@]}" "$work/cnf" | tail -n 1)
    case "$status $found" in
      '20 refuted') refuted=$((refuted + 1)) ;;
      '10 not refuted') ;;
      *)
        echo "seed $seed: $status, $found: $(cat "$work/said")"
        wrong=1
        ;;
    esac
  done
  if ((refuted == 0 || refuted == 20)); then
    echo "$refuted of 20 formulas are refuted: one answer is never tried"
    wrong=1
  fi
}

try_cases
