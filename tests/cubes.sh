#!/usr/bin/env bash
# Formulas split into cubes, by `tools/cubes`: two cubes with proofs by hand, and random ones
# against all assignments. A proof that is missing, damaged or of another cube has to be found, and
# what did not change is not done again.
#
#   tests/cubes.sh [COUNT [SEED]]    this many random formulas
set -euo pipefail
. "$(dirname "$0")/lib.sh"
# shellcheck source=SCRIPTDIR/cubes/setup.sh
. "$top/tests/cubes/setup.sh"

case_parts() {
  rm -r four
  says 0 $'1\n2\nclosing' cubes names four.cnf two.txt
  says 0 '' cubes parts four.cnf two.txt four
  clauses=$'1 2 0\n1 -2 0\n-1 2 0\n-1 -2 0'
  holds four/1.cnf "p cnf 2 5"$'\n'"$clauses"$'\n'"1 0"
  holds four/2.cnf "p cnf 2 5"$'\n'"$clauses"$'\n'"-1 0"
  holds four/closing.cnf "p cnf 2 6"$'\n'"$clauses"$'\n'"-1 0"$'\n'"1 0"
  says 1 $'1: no proof\n2: no proof\nclosing: no proof\n3 of 3 parts are not verified' cubes report four.cnf two.txt four

  # The unit is clause 5; with it two of the clauses are against each other. In the closing formula
  # the added ones are.
  echo '6 0 5 3 4 0' > four/1.lrat
  echo '6 0 5 1 2 0' > four/2.lrat
  echo '7 0 5 6 0' > four/closing.lrat
  says 0 '' cubes check four.cnf two.txt four 1 2 closing
  says 0 "$all" cubes report four.cnf two.txt four
  says 0 "$all" bash -c 'cat four/*.receipt | join_check four.cnf - --cubes <(sed "s/^a//" two.txt)'
}

# What is kept holds for this formula and these cubes alone.
case_kept() {
  kept='what is kept is of another formula or cube'
  says 1 "1: $kept"$'\n'"2: $kept"$'\n'"closing: $kept"$'\n''3 of 3 parts are not verified' cubes report three.cnf two.txt four
  printf '1 0\n-1 2 0\n' > other.txt
  says 1 "2: $kept"$'\n'"closing: $kept"$'\n''2 of 3 parts are not verified' cubes report four.cnf other.txt four
}

# The proof of another cube, one that stops early, and one that is no text; what was kept goes.
case_refused() {
  mv four/1.lrat other
  mv four/2.lrat four/1.lrat
  mv other four/2.lrat
  refused='is rejected: proof: line 1: clause of a hint is not unit'
  says 1 "1: four/1.lrat $refused; it is a proof of 2"$'\n'"2: four/2.lrat $refused; it is a proof of 1" \
    cubes check --whose four.cnf two.txt four 1 2
  says 1 $'1: not verified\n2: not verified\n2 of 3 parts are not verified' cubes report four.cnf two.txt four
  echo '6 2 0 5 3 0' > four/1.lrat
  says 1 '1: four/1.lrat is rejected: s NOT VERIFIED' cubes check four.cnf two.txt four 1
  echo 'x' > four/1.lrat
  says 1 '1: four/1.lrat is rejected: proof: line 1: malformed line; it is a proof of no part' \
    cubes check --whose four.cnf two.txt four 1
  rm four/1.lrat
  says 1 '1: no proof' cubes check four.cnf two.txt four 1
}

# One part by itself, and what is left to do. The names need no formula.
case_left() {
  rm four/1.lrat four/[12].receipt
  says 0 "$(cat four/2.cnf)" cubes part four.cnf two.txt 2
  says 0 "$(cat four/closing.cnf)" cubes part four.cnf two.txt closing
  says 2 'there is no part 3' cubes part four.cnf two.txt 3
  says 0 $'1\n2' cubes left four.cnf two.txt four
  says 0 $'1\n2\nclosing' cubes names none.cnf two.txt
}

# A part that can be satisfied: the formula can, if model_check verifies the answer for it. A proof
# of the part would be refused.
case_satisfied() {
  mkdir found
  printf 's SATISFIABLE\nv 1 2 0\n' > found/1.answer
  says 10 '1: found/1.answer satisfies the formula: s VERIFIED SAT'$'\n''2: no proof' cubes check open_at_2.cnf two.txt found 1 2
  by_1='1: found/1.answer satisfies the formula: s VERIFIED SAT'
  says 10 $'2: no proof\nclosing: no proof\n'"$by_1" cubes report open_at_2.cnf two.txt found
  says 0 $'2\nclosing' cubes left open_at_2.cnf two.txt found
  says 1 $'1: what is kept is of another formula or cube\n2: no proof\nclosing: no proof\n3 of 3 parts are not verified' \
    cubes report four.cnf two.txt found
  says 1 $'1: found/1.answer is rejected: s NOT VERIFIED\n1: no proof' cubes check four.cnf two.txt found 1
  printf 's SATISFIABLE\nv 1 -2 0\n' > found/1.answer
  says 1 $'1: found/1.answer is rejected: s NOT VERIFIED\n1: no proof' cubes check open_at_2.cnf two.txt found 1
  says 1 $'1: no proof\n2: no proof\nclosing: no proof\n3 of 3 parts are not verified' cubes report open_at_2.cnf two.txt found
}

# Parts that are as they should be are not written again.
case_unchanged() {
  touch -d 2001-01-01 four/*.cnf
  says 0 '' cubes parts four.cnf same.txt four
  says 0 '' find four -name '*.cnf' -newermt 2002-01-01
  echo 'p cnf 2 5' > four/2.cnf
  says 0 '' cubes parts four.cnf two.txt four
  says 0 'four/2.cnf' find four -name '*.cnf' -newermt 2002-01-01
}

# Formulas and cubes that can't be used: above all a last clause that would go on in what is added.
case_unusable() {
  printf '1 2 0\n1 -2\n' > open.cnf
  says 2 'open.cnf: the last clause has no 0' cubes left open.cnf two.txt four
  printf '1 2 0\nc 0\n%% 0\n-2' > cut.cnf
  says 0 $'1\n2\nclosing' cubes left cut.cnf two.txt four
  printf '1 2 0\np cnf 2 1\n' > late.cnf
  says 2 'late.cnf: line 2: bad header: p cnf 2 1' cubes left late.cnf two.txt four
  printf '1 0\n-1\n' > open.txt
  says 2 'open.txt: line 2: not literals up to a 0' cubes names four.cnf open.txt
  says 2 'there is no part 3' cubes check four.cnf two.txt four 3
  says 2 'cannot open none.cnf: No such file or directory' cubes report none.cnf two.txt four
}

case_receipt() {
  rm four/[12].receipt
  says 2 'cannot write four/1.receipt: error writing: File too large (os error 27)' bash -c 'echo "6 0 5 3 4 0" > four/1.lrat
  ulimit -f 0; cubes check four.cnf two.txt four 1; status=$?; ls four/1.receipt* 2> /dev/null; exit "$status"'
}

case_programs() {
  rm four/[12].receipt
  LRAT_CHECK=./none says 2 'cannot run ./none: No such file or directory' cubes check four.cnf two.txt four 2
  says 0 '' cubes check four.cnf two.txt four 1 2
  JOIN_CHECK=./none says 2 'cannot run ./none: No such file or directory' cubes report four.cnf two.txt four
  printf '1 0\n-1 0\n' > plain.txt
  printf '#!/bin/sh\nexec join_check three.cnf - --cubes plain.txt\n' > bin/joiner
  chmod +x bin/joiner
  JOIN_CHECK=joiner says 1 'the receipts are not joined: no receipt shows part 1' cubes report four.cnf same.txt four
}

# A checker that ends with status 2 was asked nothing, so it refuses nothing, and no later part is
# tried with it.
case_status_2() {
  rm four/*.receipt
  printf '#!/bin/sh\necho "there is no option --receipt" >&2\nexit 2\n' > bin/old
  printf '#!/bin/sh\nexit 2\n' > bin/silent
  chmod +x bin/old bin/silent
  LRAT_CHECK=old faults 'old cannot be asked: there is no option --receipt' cubes check --whose four.cnf two.txt four 1 2
  LRAT_CHECK=silent faults 'silent cannot be asked: silent ended with status 2' cubes check four.cnf two.txt four 1
  says 0 '' cubes check four.cnf two.txt four 1 2 closing
  JOIN_CHECK=old faults 'old cannot be asked: there is no option --receipt' cubes report four.cnf two.txt four
  printf 's SATISFIABLE\nv 1 2 0\n' > four/1.answer
  MODEL_CHECK=old faults 'old cannot be asked: there is no option --receipt' cubes check four.cnf two.txt four 1
}

# A receipt that was cut off in copying is named, and made again in a folder with the mark; another
# file is not.
case_cut_receipt() {
  cp four/1.receipt whole
  size=$(stat -c %s whole)
  for length in 0 1 7 8 15 40 $((size - 1)); do
    head -c "$length" whole > four/1.receipt
    says 1 $'1: four/1.receipt is cut off\n1 of 3 parts are not verified' cubes report four.cnf two.txt four
    says 0 1 cubes left four.cnf two.txt four
    says 0 '1: four/1.receipt was cut off: it is made again' cubes check four.cnf two.txt four 1
    holds four/1.receipt "$(cat whole)"
    says 0 "$all" cubes report four.cnf two.txt four
  done
  head -c 40 whole > four/1.receipt
  rm four/split
  faults 'cannot write four/1.receipt: there is a file that cubes did not write' cubes check four.cnf two.txt four 1
  holds four/1.receipt "$(head -c 40 whole)"
  cubes parts four.cnf two.txt marked
  cp four/1.lrat marked
  for text in 'refused sha256' 'refuted sha256 0x' "$(cat whole)0" 'rx'; do
    printf '%s\n' "$text" > marked/1.receipt
    faults 'cannot write marked/1.receipt: there is a file that cubes did not write' cubes check four.cnf two.txt marked 1
    says 1 $'1: what is kept is of another formula or cube\n2: no proof\nclosing: no proof\n3 of 3 parts are not verified' \
      cubes report four.cnf two.txt marked
  done
}

# Numbers that are too long to be those of a literal, in each place: the line or the word is named,
# at any length.
case_long_numbers() {
  for length in 21 4300 4301 100000; do
    long=$(head -c "$length" /dev/zero | tr '\0' 1)
    for line in "$long 0" "1 -$long 0" "a $long 0"; do
      printf '1 0\n%s\n' "$line" > long.txt
      faults 'long.txt: line 2: not literals up to a 0' cubes names four.cnf long.txt
      faults 'long.txt: line 2: not literals up to a 0' cubes check four.cnf long.txt four 1
    done
    printf '1 0\n1 -%s 0\n' "$long" > long.cnf
    ((length < 1000)) || long=${long:0:39}
    faults "long.cnf: a word that is no number: -$long" cubes left long.cnf two.txt four
    says 2 "there is no part $long" cubes part four.cnf two.txt "$long"
  done
}

case_random() {
  python3 -B "$top/tests/cubes/fuzz.py" "$count" "$seed" || wrong=1
}

# lies WHAT: in the folder `liar` one thing is not of this formula, and nothing may be told of all
# parts
lies() {
  local status=0 said
  said=$(cubes report four.cnf two.txt liar 2>&1) || status=$?
  if [[ $status != 1 || $said == *'s VERIFIED'* ]]; then
    printf '%s: status %d, it wrote: %s\n' "$1" "$status" "$said"
    wrong=1
  fi
  rm -r liar
  cp -R four liar
}

case_liars() {
  cp -R four liar
  says 0 "$all" cubes report four.cnf two.txt liar
  rm liar/2.receipt
  lies 'a receipt is missing'
  rm liar/closing.{receipt,lrat}
  lies 'the closing part is missing'
  sed -i 's/ 0\([^ ]*\)$/ 1\1/; t; s/ .\([^ ]*\)$/ 0\1/' liar/2.receipt
  lies 'a receipt was edited'
  cp liar/1.receipt liar/2.receipt
  lies 'the receipt of another part'
  for of in 'cubes part three.cnf two.txt 1' 'cubes part four.cnf two.txt 1' 'cat four.cnf' 'cat three.cnf'; do
    printf 'refuted sha256 %s\n' "$($of | sha256sum | cut -d ' ' -f 1)" > liar/1.receipt
    lies "the receipt of another text: $of"
  done
  printf 'satisfied sha256 %s\n' "$(sha256sum < three.cnf | cut -d ' ' -f 1)" > liar/1.receipt
  lies 'an answer to another formula'
  printf 'satisfied sha256 %s\n' "$(sha256sum < four.cnf | cut -d ' ' -f 1)" > liar/1.receipt
  lies 'an answer that is not there'
  # the parts of a formula that can be refuted, as those of one that can't
  for name in 1 2 closing; do
    says 1 "$name: liar/$name.lrat is rejected: $(cubes part three.cnf two.txt "$name" | lrat_check - "liar/$name.lrat" 2>&1 | head -n 1)" \
      cubes check three.cnf two.txt liar "$name"
  done
  lies 'parts of another formula'
  cubes parts three.cnf two.txt liar
  says 1 '3 of 3 parts are not verified' bash -c 'cubes report three.cnf two.txt liar | tail -n 1; exit "${PIPESTATUS[0]}"'
  says 0 "$all" cubes report four.cnf two.txt liar
}

try_cases
