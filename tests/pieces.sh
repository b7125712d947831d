#!/usr/bin/env bash
# One DRAT proof in pieces, by `drat_cut`, `drat_check --holds`, `lrat_check --holds` and
# `tools/pieces`: a proof by hand, pieces that are missing, damaged, of another proof or behind
# clauses that were changed; the words of calls; and some hundred random proofs against the whole.
#
#   tests/pieces.sh [COUNT [SEED]]    this many random proofs
set -euo pipefail
. "$(dirname "$0")/lib.sh"
# shellcheck source=SCRIPTDIR/pieces/setup.sh
. "$top/tests/pieces/setup.sh"

# joins STATUS FORMULA: by the receipts of all pieces, or of too few
joins() {
  local said='s VERIFIED UNSAT BY 2 RECEIPTS'
  [[ $1 == 0 ]] || said=$'s NOT VERIFIED\nno receipts lead from the formula to one that is refuted'
  says "$1" "$said" bash -c "cat two/*.receipt | join_check $2 -"
}

case_drat_cut() {
  rm cut.*
  says 0 $'piece 1: 3 lemmas, 5 clauses live behind it\npiece 2: 2 lemmas, 7 clauses live behind it' \
    drat_cut eight.cnf eight.drat cut. --lemmas 1
  rest=$'-1 -2 3 0\n-1 -2 -3 0'
  holds cut.1.drat $'1 2 0\nd 1 2 3 0\nd 1 2 -3 0\n1 -2 0\nd -2 3 1 0\nd 1 -2 -3 0\n-1 2 0\nd -1 2 3 0\nd -1 2 -3 0'
  holds cut.2.drat $'-1 -2 0\n1 0'
  holds <(sort cut.2.cnf) "$(printf '%s\n' 'p cnf 3 5' "$rest" '1 2 0' '1 -2 0' '-1 2 0' | sort)"
  holds <(sort cut.1.cnf) "$(printf '%s\n' 'p cnf 3 8' "$(sed -n '3,10p' eight.cnf)" | sort)"
  says 0 's VERIFIED PIECE' drat_check eight.cnf cut.1.drat --holds cut.2.cnf
  says 0 's VERIFIED UNSAT' drat_check cut.2.cnf cut.2.drat
}

# The same pieces as LRAT, text and binary, and one by hand: a piece that ends with a line that is
# rejected, a clause that was deleted, that stands in another order or has a literal turned, and
# files that are not there, no formula or standard input.
case_lrat() {
  says 0 's VERIFIED PIECE' drat_check eight.cnf cut.1.drat --holds cut.2.cnf --lrat one.lrat
  says 0 's VERIFIED PIECE' drat_check eight.cnf cut.1.drat --holds cut.2.cnf --lrat one.binary --binary
  says 0 's VERIFIED UNSAT' drat_check cut.2.cnf cut.2.drat --lrat two.lrat
  for piece in one.lrat one.binary; do
    says 0 's VERIFIED PIECE' lrat_check eight.cnf "$piece" --holds cut.2.cnf
    says 3 's NOT VERIFIED' lrat_check eight.cnf "$piece"
  done
  says 0 's VERIFIED PIECE' lrat_check eight.cnf - --holds cut.2.cnf < one.lrat
  says 0 's VERIFIED UNSAT' lrat_check cut.2.cnf two.lrat --holds eight.cnf
  printf '4 1 0 1 2 0\n4 d 1 0\n' > by_hand.lrat
  printf '1 0\n-1 3 0\n1 -2 0\n' > behind.cnf
  says 0 's VERIFIED PIECE' lrat_check three.cnf by_hand.lrat --holds behind.cnf
  # lacks N CLAUSE TEXT: of the clauses of this text, that one is not there
  lacks() {
    printf -- "$3" > lacking.cnf
    says 3 $'s NOT VERIFIED\nclause '"$1 is not derived by the piece: $2"$'\nin lacking.cnf' lrat_check three.cnf by_hand.lrat --holds lacking.cnf
  }
  lacks 1 '-1 0' '-1 0\n1 2 0\n'
  lacks 2 '1 2 0' '1 0\n1 2 0\n'
  lacks 3 '3 -1 0' '1 0\n1 0\n3 -1 0\n'
  lacks 1 '0' '0\n'
  says 0 's VERIFIED PIECE' lrat_check three.cnf by_hand.lrat --holds /dev/null
  says 0 's VERIFIED UNSAT' lrat_check lacking.cnf by_hand.lrat --holds behind.cnf
  printf '4 1 0 1 2 0\n5 2 0 4 0\n' > refused.lrat
  says 1 $'proof: line 2: hints end without a conflict\nin refused.lrat' lrat_check three.cnf refused.lrat --holds behind.cnf
  says 1 $'wanted clauses: line 1: bad number\nin malformed.cnf\nbad number: x' lrat_check three.cnf by_hand.lrat --holds malformed.cnf
  says 1 $'formula: line 1: bad number\nin malformed.cnf\nbad number: x' lrat_check malformed.cnf by_hand.lrat --holds malformed.cnf
  says 1 $'wanted clauses: error reading formula: Is a directory (os error 21)\nin /' lrat_check three.cnf by_hand.lrat --holds /
  for name in none.cnf -; do
    says 2 "cannot open $name"$'\nNo such file or directory (os error 2)' lrat_check three.cnf by_hand.lrat --holds "$name"
  done
  fails 2 '--holds needs a value' lrat_check three.cnf by_hand.lrat --holds
  printf 'p cnf 4 2\n1 0\n' > lying.cnf
  fails 0 'warning: the header of lying.cnf is ' lrat_check three.cnf by_hand.lrat --holds lying.cnf
}

# Nothing is written over what is read, and what is not whole has no name.
case_names() {
  cp eight.cnf own.1.cnf
  fails 2 'the output is a file that is read' drat_cut own.1.cnf eight.drat own.
  cmp -s eight.cnf own.1.cnf || { echo 'own.1.cnf was changed'; wrong=1; }
  fails 1 'proof: step 10: malformed' drat_cut eight.cnf short own2. --lemmas 1
  says 0 'own2.1.cnf' ls own2.*
  says 3 'piece 1: 3 lemmas, 5 clauses live behind it' drat_cut eight.cnf <(head -n 11 eight.drat) open. --lemmas 1
}

# A formula that never ends, and in which no word does: the fault is that of the first byte that its
# line can't have. A comment has any bytes.
case_endless_formula() {
  { printf 'c \0\n'; cat eight.cnf; printf 'c'; head -c 100000 /dev/zero; } > zeros.cnf
  says 0 $'piece 1: 3 lemmas, 5 clauses live behind it\npiece 2: 2 lemmas, 7 clauses live behind it' \
    drat_cut zeros.cnf eight.drat zeros. --lemmas 1
  holds zeros.1.drat "$(cat cut.1.drat)"
  says 1 $'formula: line 1: bad number\nin /dev/zero' timeout 60 drat_cut /dev/zero eight.drat endless.
  # endless WHAT TEXT: the text, and NUL bytes without an end behind it
  endless() {
    fails 1 "formula: $1" timeout 60 drat_cut <(printf "$2"; exec cat /dev/zero) eight.drat endless.
  }
  endless 'line 3: bad number' 'c \0\n1 2 0\n'
  endless 'line 1: bad number' '1 2 '
  endless 'line 2: bad header' '\np cnf 3 9'
  endless 'line 2: late header' '1 0\np'
}

# Where the first literal of a lemma comes again its witness begins, which is no part of the clause;
# with --drat it is.
case_witness() {
  printf '1 2 2 1 -3 0\nd 2 1 0\n' > witness
  says 3 'piece 1: 1 lemmas, 8 clauses live behind it' drat_cut eight.cnf witness dpr.
  holds dpr.1.drat $'1 2 1 -3 0\nd 2 1 0'
  says 3 'piece 1: 1 lemmas, 9 clauses live behind it' drat_cut eight.cnf witness drat. --drat
  holds drat.1.drat '1 2 -3 0'
}

# The same by `pieces`, into a folder in which others lie: what has the name of a piece stays,
# unless an earlier cut has marked the folder.
case_folder() {
  rm -r two
  mkdir two
  touch two/notes
  for name in 12.cnf 9.drat count; do
    echo theirs > "two/$name"
    for call in "${cut[*]}" 'pieces run eight.cnf eight.drat two' 'pieces run eight.cnf eight.drat two --memory'; do
      read -r -a words <<< "$call"
      says 2 "cannot write two/$name: there is a file that pieces did not write" "${words[@]}"
    done
    says 0 "$name"$'\nnotes' ls two
    holds "two/$name" theirs
    rm "two/$name"
  done
  says 0 'cut into 2 pieces' "${cut[@]}"
  touch two/17.receipt two/9.drat two/3.cnf.new
  says 0 'cut into 2 pieces' "${cut[@]}"
  says 0 $'1.cnf\n1.drat\n2.cnf\n2.drat\ncount\ncut\nnotes' ls two
  # a cut that did not come to its end has marked it too
  fails 2 'the proof could not be cut' pieces cut eight.cnf short two --lemmas 1
  says 0 'cut into 2 pieces' "${cut[@]}"
  unverified=$'1: not verified\n2: not verified\n2 of 2 pieces are not verified'
  says 1 "$unverified" pieces report eight.cnf two
  says 0 $'1\n2' pieces left eight.cnf two
  says 0 '' pieces check eight.cnf two 1
  says 0 '2' pieces left eight.cnf two
  says 1 $'2: not verified\n1 of 2 pieces are not verified' pieces report eight.cnf two
  joins 3 eight.cnf
  says 0 '' pieces check eight.cnf two 2
  says 0 "$whole" pieces report eight.cnf two
  joins 0 eight.cnf
  says 0 '' pieces left eight.cnf two
}

# unjoined BODY WORDS: where this is in place of what joins the receipts, the report ends with these
# words
unjoined() {
  printf '#!/bin/sh\n%s\n' "$1" > bin/joiner
  chmod +x bin/joiner
  JOIN_CHECK=joiner says 1 "the receipts are not joined: $2" pieces report eight.cnf two
}

# What joins the receipts says it, or nobody does.
case_joined() {
  unjoined 'exit 0' 'joiner ended with status 0'
  unjoined 'echo s VERIFIED UNSAT' 's VERIFIED UNSAT'
  unjoined "echo $whole; echo" "$whole"
  unjoined "echo $whole; exit 3" "$whole"
  unjoined 'kill -KILL $$' 'joiner ended with status -9'
  unjoined "exec join_check three.cnf -" 'no receipts lead from the formula to one that is refuted'
  JOIN_CHECK=./none says 2 'cannot run ./none: No such file or directory' pieces report eight.cnf two
}

# What is kept is of these clauses alone: of this formula, and of the clauses that the neighbour
# has.
case_kept() {
  says 1 $'1: what is kept is of another formula\n1 of 2 pieces are not verified' pieces report seven.cnf two
  joins 3 seven.cnf
  fails 1 '1: two/1.drat is rejected' pieces check seven.cnf two 1
  says 1 $'1: not verified\n1 of 2 pieces are not verified' pieces report eight.cnf two
  says 0 '' pieces check eight.cnf two 1
  cp two/2.cnf kept
  sed -i 's/^1 -2 0$/1 2 0/' two/2.cnf
  says 0 "$whole" pieces report eight.cnf two
  fails 1 '2: two/2.drat is rejected' pieces check eight.cnf two 2
  says 1 $'2: not verified\n1 of 2 pieces are not verified' pieces report eight.cnf two
  # a literal is turned: the piece before does not hold the clause, and the one behind is of clauses
  # that can be satisfied
  sed 's/^-1 2 0$/-1 -2 0/' kept > two/2.cnf
  fails 1 '1: two/1.drat is rejected' pieces check eight.cnf two 1
  fails 1 '2: two/2.drat is rejected' pieces check eight.cnf two 2
  { sed 's/p cnf 3 5/p cnf 3 6/' kept; echo '3 0'; } > two/2.cnf
  says 0 '' pieces check eight.cnf two 2
  cp kept two/2.cnf
  says 0 '' pieces check eight.cnf two 1
  says 1 $'2: what is kept is of other clauses\n1 of 2 pieces are not verified' pieces report eight.cnf two
  joins 3 eight.cnf
  says 0 '2' pieces left eight.cnf two
  says 0 '' pieces check eight.cnf two 2
  says 0 "$whole" pieces report eight.cnf two
}

# Missing, damaged, of another proof; a last piece that comes to no conflict.
case_damaged() {
  mv two/1.drat held
  says 1 '1: no file two/1.drat' pieces check eight.cnf two 1
  says 1 $'1: no piece\n1 of 2 pieces are not verified' pieces report eight.cnf two
  mv held two/1.drat
  mv two/2.cnf held
  says 1 $'1: no file two/2.cnf\n2: no file two/2.cnf' pieces check eight.cnf two 1 2
  mv held two/2.cnf
  head -n 3 two/1.drat > held
  mv two/1.drat whole
  mv held two/1.drat
  fails 1 '1: two/1.drat is rejected' pieces check eight.cnf two 1
  mv whole two/1.drat
  says 0 '' pieces check eight.cnf two 1
  says 0 '' pieces check eight.cnf two 2
  # one that came to a conflict is enough, and nothing is told of what is behind it
  echo 3 > two/count
  says 0 "$whole" pieces report eight.cnf two
  echo 1 > two/count
  says 1 $'the last piece: it comes to no conflict\n1 of 1 pieces are not verified' pieces report eight.cnf two
  rm two/count
  fails 2 'cannot read two/count: the proof is not cut, or was not to its end' pieces report eight.cnf two
  says 0 'cut into 2 pieces' "${cut[@]}"
  says 2 'there is no piece 3' pieces check eight.cnf two 3
}

case_absent() {
  says 2 'cannot open none.cnf: it is no file' pieces cut none.cnf eight.drat three
  for call in cut run; do
    says 2 'cannot open none.drat: No such file or directory' pieces "$call" eight.cnf none.drat three
    says 2 'cannot read .: Is a directory' pieces "$call" eight.cnf . three
  done
  DRAT_CHECK=./none says 2 'cannot run ./none: No such file or directory' pieces check eight.cnf two 2
  DRAT_CUT=./none says 2 'cannot run ./none: No such file or directory' "${cut[@]}"
}

# Programs beside the script, ahead of those on PATH.
case_beside() {
  mkdir false
  as_installed pieces
  for program in drat_cut drat_check; do
    cp -L "bin/$program" alone/bin
    printf '#!/bin/sh\nexit 1\n' > "false/$program"
    chmod +x "false/$program"
  done
  PATH=$work/false:$PATH says 0 "$whole" alone/bin/pieces run eight.cnf eight.drat beside --lemmas 1
}

# A checker that can't be asked refuses nothing: its message, and status 2.
case_unasked() {
  printf '#!/bin/sh\necho "there is no option --receipt" >&2\necho usage >&2\nexit 2\n' > bin/older
  chmod +x bin/older
  export DRAT_CHECK=older
  why=': there is no option --receipt'
  faults "older cannot be asked for two/2.drat$why" pieces check eight.cnf two 2
  faults "older cannot be asked for ran/1.drat$why" pieces run eight.cnf eight.drat ran --lemmas 1
  faults "older cannot be asked for ran/2.drat$why" pieces run eight.cnf eight.drat ran --lemmas 1 --memory
}

# A receipt that was cut off in copying is named, and the next run replaces it. What no receipt
# begins with stays.
case_cut_off() {
  cp two/1.receipt carries
  cp two/2.receipt refuted
  for name in 1 2; do
    cp carries two/1.receipt
    cp refuted two/2.receipt
    size=$(wc -c < "two/$name.receipt")
    for length in 0 1 8 40 $((size - 1)); do
      head -c "$length" two/"$name".receipt > held
      cp held "two/$name.receipt"
      says 1 "$name: its receipt is cut off"$'\n1 of 2 pieces are not verified' pieces report eight.cnf two
      says 0 "$name" pieces left eight.cnf two
      says 0 '' pieces check eight.cnf two "$name"
      says 0 "$whole" pieces report eight.cnf two
    done
  done
  for text in 'carried sha256 ' 'carries sha256 0g' "$(cat carries) "; do
    printf '%s' "$text" > two/1.receipt
    faults 'cannot write two/1.receipt: there is a file that pieces did not write' pieces check eight.cnf two 1
    holds two/1.receipt "$text"
  done
}

# A number of many digits is no piece, and no number of anything.
case_digits() {
  digits=$(printf '1%.0s' {1..5000})
  faults 'there is no piece 1111' pieces check eight.cnf two "$digits"
  faults 'there is no piece 00000000000000000000' pieces check eight.cnf two 00000000000000000000
  faults ' is no number from 1 on' pieces cut eight.cnf eight.drat two --lemmas "$digits"
  says 0 '' pieces check eight.cnf two 00000000000000000002
  says 0 "$whole" pieces report eight.cnf two
}

# The words of a call: what is wrong is named, and options stand anywhere.
case_words() {
  faults 'no call is named' pieces
  faults 'there is no call chek' pieces chek eight.cnf two 1
  faults 'check: no NAME is named' pieces check eight.cnf two
  faults 'cut: no FOLDER is named' pieces cut eight.cnf eight.drat
  faults 'report: a word too many: 1' pieces report eight.cnf two 1
  faults 'there is no option --lemma' pieces cut eight.cnf eight.drat two --lemma 5
  faults 'argument --lemmas: x is no number from 1 on' pieces cut eight.cnf eight.drat two --lemmas=x
  faults 'argument --live: 0 is no number from 1 on' pieces cut eight.cnf eight.drat two --live 0
  faults 'argument --jobs: expected one argument' pieces run eight.cnf eight.drat two --jobs
  faults 'cut has no option --memory' pieces cut eight.cnf eight.drat two --memory
  faults 'check has no option --jobs' pieces check --jobs 2 eight.cnf two 1
  faults '--memory excludes --jobs and --ahead' pieces run eight.cnf eight.drat two --memory --jobs 2
  says 0 2 cat two/count
  says 0 'cut into 2 pieces' pieces --lemmas=1 cut eight.cnf --live 100 eight.drat two
  says 0 "$(pieces --help)" pieces -h
  version=$(sed -n 's/^const VERSION: &str = "\([^"]*\).*/\1/p' "$top/crates/command/src/status.rt")
  for option in -V --version; do
    says 0 "pieces $version" pieces "$option"
  done
}

# What can't be written is no success.
case_standard_output() {
  says 0 '' pieces check eight.cnf two 1 2
  says 0 "$whole" pieces report eight.cnf two
  faults 'cannot use standard output: No space left on device' bash -c 'pieces report eight.cnf two > /dev/full'
  faults 'standard output is closed' bash -c 'pieces report eight.cnf two >&-'
}

# lies WHAT: in the folder `liar` one thing is not of this proof, and nothing may be told of all
# pieces
lies() {
  local status=0 said
  said=$(pieces report eight.cnf liar 2>&1) || status=$?
  if [[ $status != 1 || $said == *'all pieces'* || $said == *'s VERIFIED'* ]]; then
    printf '%s: status %d, it wrote: %s\n' "$1" "$status" "$said"
    wrong=1
  fi
  rm -r liar
  cp -R two liar
}

case_liars() {
  cp -R two liar
  says 0 "$whole" pieces report eight.cnf liar
  sed -i 's/ 0\([^ ]*\)$/ 1\1/; t; s/ .\([^ ]*\)$/ 0\1/' liar/1.receipt
  lies 'the sum behind a piece was edited'
  sed -i 's/ 0\([^ ]*\)$/ 1\1/; t; s/ .\([^ ]*\)$/ 0\1/' liar/2.receipt
  lies 'the sum before a piece was edited'
  sed -i 's/^carries/Carries/' liar/1.receipt
  lies 'a record was edited'
  printf '\377' > liar/2.receipt
  lies 'a record that is no text'
  rm liar/1.receipt
  lies 'a record is missing'
  rm liar/2.*
  lies 'a piece is missing'
  cp liar/2.receipt liar/1.receipt
  lies 'the record of another piece'
  # pieces of another formula, all of them and some
  { sed 's/^p cnf 3 9/p cnf 3 10/' eight.cnf; echo '3 2 1 0'; } > nine.cnf
  pieces cut nine.cnf eight.drat nine --lemmas 1 > said
  says 0 '' pieces check nine.cnf nine 1 2
  cp nine/1.receipt liar/1.receipt
  lies 'the first piece of another formula'
  cp nine/2.receipt liar/2.receipt
  lies 'the last piece of another formula'
  cp nine/* liar
  lies 'all pieces of another formula'
  says 1 $'1: no file liar/1.drat\n2: no file liar/2.cnf' bash -c 'rm liar/1.drat liar/2.cnf; pieces check eight.cnf liar 1 2'
  lies 'pieces without files'
}

case_random() {
  python3 -B "$top/tests/pieces/fuzz.py" drat_cut drat_check join_check "$count" "$seed" || wrong=1
}

case_held() {
  python3 -B "$top/tests/pieces/held.py" drat_check lrat_check "$((2 * count))" "$seed" || wrong=1
}

try_cases
