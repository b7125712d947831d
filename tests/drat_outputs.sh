#!/usr/bin/env bash
# What `drat_check` writes by its options --lrat, --trim and --core: the lines are accepted by
# `lrat_check`, the steps are those of the lines, and verified after the formula and after the
# clauses that are used, and these are some of the formula's, as their header says, and refuted by
# the same proof. With --binary the lines are those of the text, in half its bytes at most.
set -euo pipefail
. "$(dirname "$0")/lib.sh"
# shellcheck source=SCRIPTDIR/drat_outputs/setup.sh
. "$top/tests/drat_outputs/setup.sh"

case_four() {
  wants 0 's VERIFIED UNSAT' '' f p --lrat l --core c
  outputs four f p
  binary_lines four f p
  [[ $(clauses core) != *'3 4 0'* ]] || fault 'a clause that is not needed stands in the core'
  printf 'o 1 1 2 0\no 2 1 -2 0\no 3 -1 2 0\no 4 -1 -2 0\na 6 1 0\nd 1 1 2 0\na 7 0\n' > four.frat
  outputs 'four as FRAT' f four.frat
}

case_random() {
  only_with cadical
  formula random 150 4.8 1 > random.cnf
  cadical -q random.cnf random.drat > said 2>&1 || true
  outputs random random.cnf random.drat
  binary_lines random random.cnf random.drat
}

case_pigeons() {
  for holes in 6 9; do
    formula pigeons "$holes" > pigeons.cnf
    for family in extended swaps exchanges; do
      formula "$family" "$holes" > pigeons.drat
      outputs "$family $holes" pigeons.cnf pigeons.drat
      binary_lines "$family $holes" pigeons.cnf pigeons.drat
    done
  done
}

# A clause that is not used, and without which alone a step is redundant.
case_away() {
  formula pigeons 4 > pigeons.cnf
  formula extended 4 > pigeons.drat
  (sed '1s/.*/p cnf 99 46/' pigeons.cnf && echo '-21 99 0') > away.cnf
  (echo 'd -21 99 0' && cat pigeons.drat) > away.drat
  outputs 'a clause that is away' away.cnf away.drat
  binary_lines 'a clause that is away' away.cnf away.drat
  [[ $(clauses core) != *'-21 99 0'* ]] || fault 'a clause that is away stands in the core'
}

case_pairs() {
  formula pairs 4 > pairs.cnf
  formula pair_exchanges 4 > pairs.dpr
  outputs 'pair_exchanges 4' pairs.cnf pairs.dpr
  binary_lines 'pair_exchanges 4' pairs.cnf pairs.dpr
}

# Where the proof shows nothing, what stood there is replaced by nothing; where it is refused, it
# stays.
case_no_verdict() {
  printf 'd 1 2 0\n1 0\n' > unfounded
  printf '' > open
  keep l c
  wants 3 's NOT VERIFIED' '' f open --lrat l --core c
  empty l c
  keep l c
  wants 1 '' $'proof: step 1: malformed\nin malformed' f malformed --lrat l --core c
  kept malformed l c
  wants 1 '' $'proof: step 2: clause is neither RUP nor RAT on its first literal\nin unfounded' \
    f unfounded --core c --lrat l
  kept unfounded l c
  wants 1 '' $'formula: line 1: bad number\nin malformed\nbad number: x' malformed p --lrat l --core c
  kept 'no formula' l c
  alone 'no verdict' l c
}

# One piece of a proof: its lines are accepted, and do not refute; a clause that is gone, one that
# is turned round, a conflict.
case_piece() {
  printf '1 0\n-1 -3 0\n' > turned
  wants 0 's VERIFIED PIECE' '' three piece --holds next --lrat l
  said=$("$lrat_check" three l 2> err) || true
  [[ $said == 's NOT VERIFIED' && $(tail -n 1 l) == '5 3 -1 0 3 0' ]] || fault "the lines of a piece: $said $(cat err l)"
  wants 0 's VERIFIED PIECE' '' three piece --holds next --lrat l --binary
  said=$("$lrat_check" three l 2> err) || true
  [[ $said == 's NOT VERIFIED' ]] || fault "the binary lines of a piece: $said $(cat err)"
  wants 3 's NOT VERIFIED' $'clause 2 is not derived by the piece: 1 2 0\nin gone' three piece --holds gone
  wants 3 's NOT VERIFIED' $'clause 2 is not derived by the piece: -1 -3 0\nin turned' three piece --holds turned --lrat l
  empty l
  wants 0 's VERIFIED UNSAT' '' f p --holds next --lrat l
  [[ $("$lrat_check" f l) == 's VERIFIED UNSAT' ]] || fault 'the lines of a piece with a conflict'
  keep l
  wants 1 '' $'wanted clauses: line 1: bad number\nin malformed\nbad number: x' three piece --holds malformed --lrat l
  wants 1 '' $'formula: line 1: bad number\nin malformed\nbad number: x' malformed piece --holds malformed --lrat l
  wants 1 '' $'proof: step 1: malformed\nin malformed' three malformed --holds next --lrat l
  kept 'a piece that is refused' l
  wants 2 '' $'cannot open nothing\nNo such file or directory (os error 2)' three piece --holds nothing --lrat l
  ln -sf next soft.next
  for output in next soft.next; do
    wants 2 '' "cannot open $output"$'\nthe output is a file that is read' three piece --holds next --lrat "$output"
  done
  kept 'a piece that is not run' l
}

# A clause that has an id is there as long as it lives: named by `o`, added, and gone by its id; a
# tautology is, and what is redundant beside it.
case_piece_ids() {
  printf '1 2 0\n' > one
  printf 'p cnf 2 0\n' > none
  printf 'o 1 1 2 0\n' > named.frat
  printf 'o 1 1 2 0\na 2 1 3 0\n' > added.frat
  printf 'o 1 1 2 0\na 2 1 3 0\nd 2 1 3 0\n' > gone.frat
  printf '2 1 3 0 0\n' > added.lpr
  printf '2 1 3 0 0\n2 d 2 0\n' > gone.lpr
  printf '2 d 1 0\n' > deleted.lpr
  printf '1 2 -2 0\n-2 0\n' > tautology
  printf '1 -2 2 0\n1 2 0\n' > opposed
  printf -- '-2 0\n' > fresh
  printf '1 -2 2 0\n-2 0\n' > both
  printf '1 3 0\n' > third
  for arguments in 'one named.frat --holds one' 'one added.frat --holds third' 'one added.lpr --lpr --holds third' 'one added.lpr --lpr --holds one' \
    'none tautology --holds tautology' 'opposed fresh --holds both'; do
    # shellcheck disable=SC2086
    wants 0 's VERIFIED PIECE' '' $arguments --lrat l
    said=$("$lrat_check" "${arguments%% *}" l --holds "${arguments##* }" 2> err) || true
    [[ $said == 's VERIFIED PIECE' ]] || fault "the lines of $arguments: $said $(cat err)"
    # shellcheck disable=SC2086
    wants 0 's VERIFIED PIECE' '' $arguments --core c
  done
  wants 3 's NOT VERIFIED' $'clause 1 is not derived by the piece: 1 3 0\nin third' one gone.frat --holds third
  wants 3 's NOT VERIFIED' $'clause 1 is not derived by the piece: 1 3 0\nin third' one gone.lpr --lpr --holds third
  wants 3 's NOT VERIFIED' $'clause 1 is not derived by the piece: 1 2 0\nin one' one deleted.lpr --lpr --holds one
  # a clause that is redundant without a group counts among those that are
  printf '3 -1 0\n' > new
  said=$("$check" one new --holds new --stats 2> err) || true
  [[ $said == 's VERIFIED PIECE' && $(head -n 4 err) == $'c steps 1\nc lemmas 1\nc rat_lemmas 1\nc hints 0' ]] || fault "a clause without a group: $said $(cat err)"
  wants 0 's VERIFIED PIECE' '' three piece --holds /dev/null --lrat /dev/null
  wants 1 '' $'error writing: No space left on device (os error 28)\nin /dev/full' three piece --holds next --lrat /dev/full
}

# The core of a piece: the clauses of the formula that are enough, over which the piece is verified
# again; nothing where a clause is missing.
case_piece_core() {
  wants 0 's VERIFIED PIECE' '' three piece --holds next --core c
  [[ $(cat c) == $'p cnf 3 3\n1 2 0\n1 -2 0\n-1 3 0' ]] || fault "the core of a piece: $(cat c)"
  printf '1 0\n' > less
  wants 0 's VERIFIED PIECE' '' three piece --holds less --core c
  [[ $(cat c) == $'p cnf 2 2\n1 2 0\n1 -2 0' ]] || fault "the core of a piece: $(cat c)"
  wants 0 's VERIFIED PIECE' '' c piece --holds less --core c2
  cmp c c2 || fault 'the core of a core'
  wants 3 's NOT VERIFIED' $'clause 2 is not derived by the piece: 1 2 0\nin gone' three piece --holds gone --core c
  empty c
  wants 0 's VERIFIED UNSAT' '' f p --holds next --core c
  [[ $("$check" c p) == 's VERIFIED UNSAT' ]] || fault 'the core of a piece with a conflict'
  keep c
  wants 1 '' $'wanted clauses: line 1: bad number\nin malformed\nbad number: x' three piece --holds malformed --core c
  wants 1 '' $'proof: step 1: malformed\nin malformed' three malformed --holds next --core c
  wants 2 '' $'cannot open next\nthe output is a file that is read' three piece --holds next --core next
  kept 'a piece that is refused' c
  wants 1 '' $'error writing: No space left on device (os error 28)\nin /dev/full' three piece --holds next --core /dev/full
  said=$("$check" three piece --holds next --stats 2> err) || true
  [[ $said == 's VERIFIED PIECE' && $(head -n 4 err) == $'c steps 2\nc lemmas 2\nc rat_lemmas 0\nc hints 3' ]] || fault "what a piece counts: $said $(cat err)"
}

# Calls that can't be read, and others of the same words.
case_words() {
  while IFS=: read -r arguments why; do
    # shellcheck disable=SC2086
    wants 2 '' "$why"$'\nusage: drat_check CNF PROOF [--drat] [--frat] [--lpr] [--lrat FILE] [--binary] [--trim FILE] [--core FILE] [--holds FILE] [--receipt FILE] [--stats] [--json] [--quiet] [--verbose]\ndrat_check --help says more' $arguments
  done << 'END'
:no file is named for CNF
f:no file is named for PROOF
f p --lrat:--lrat needs a value
f p --lrat l --core:--core needs a value
f p --lrat l --lrat c:--lrat given twice
f p --lrat=l --lrat c:--lrat given twice
f p --other l:there is no option --other
f p --lrat l --core c d:unexpected argument: d
f p --frat --drat:--drat, --frat and --lpr exclude each other
f p --lpr --drat:--drat, --frat and --lpr exclude each other
f p --quiet --verbose:--quiet and --verbose exclude each other
f p --drat=1:--drat takes no value
f p --core c --binary:--binary says how --lrat is written
f p --holds:--holds needs a value
f p --trim l --holds three:--holds excludes --trim
f p --holds three --core c --lrat l:with --holds, --lrat and --core exclude each other
f p --holds three --core c --trim l:--holds excludes --trim
f p --holds three --core c --receipt r:with --holds, --core and --receipt exclude each other
f p --example:--example takes no other argument
--example --drat:--example takes no other argument
-- --drat:no file is named for PROOF
END
  for arguments in '--lrat l --core c f p' '--lrat=l f --core=c p' 'f --drat p --core c --lrat l' '--core c --lrat l -- f p'; do
    rm -f l c
    # shellcheck disable=SC2086
    wants 0 's VERIFIED UNSAT' '' $arguments
    [[ $("$lrat_check" f l) == 's VERIFIED UNSAT' ]] || fault "the lines of $arguments"
    grep -q '^p cnf' c || fault "the core of $arguments"
  done
  rm -f -- --core
  wants 0 's VERIFIED UNSAT' '' f p --lrat --core
  [[ $("$lrat_check" -- f --core) == 's VERIFIED UNSAT' ]] || fault 'a value that begins as an option'
}

try_cases
