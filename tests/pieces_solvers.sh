#!/usr/bin/env bash
# Pieces of a proof while a solver writes it, by `checked --while`, and of solvers' proofs: where
# cadical is there, the commands of docs/SCALE.md.
set -euo pipefail
. "$(dirname "$0")/lib.sh"
# shellcheck source=SCRIPTDIR/pieces/setup.sh
. "$top/tests/pieces/setup.sh"

# As `checked --while` has it: right and wrong answers of solvers that are written here, and nothing
# is left.
case_while() {
  solver refuter <<< "cat '$work/eight.drat' > \"\$2\"; exit 20"
  solver weak <<< "cat '$work/weak.drat' > \"\$2\"; exit 20"
  solver silent <<< 'exit 20'
  solver finder <<< 'printf "s SATISFIABLE\nv 1 2 0\n"; exit 10'
  solver lost <<< 'printf "1 0\n" > "$2"; exit 1'
  # more than a pipe holds, so that it has to be stopped
  solver garbled <<< 'yes x > "$2"; exit 20'
  printf 'p cnf 2 1\n1 2 0\n' > open.cnf
  ends 20 "$unsat BY * RECEIPTS" checked --while refuter eight.cnf
  ends 20 's UNSATISFIABLE' checked --while --answer refuter eight.cnf
  ends 0 "$unsat BY * RECEIPTS" checked --want unsat --while refuter eight.cnf
  ends 1 '' checked --while weak eight.cnf
  ends 20 "$unsat BY * RECEIPTS" checked --while --jobs 2 --verbose refuter eight.cnf
  if ! grep -q -- '--jobs 2$' err; then
    cat err
    wrong=1
  fi
  ends 1 '' checked --while silent eight.cnf
  ends 1 '' checked --while refuter open.cnf
  ends 10 's VERIFIED SAT' checked --while finder open.cnf
  ends 3 '' checked --while lost eight.cnf
  ends 1 '' checked --while garbled eight.cnf
  solver fratter <<< "cat '$work/text.frat' > \"\$2\"; exit 20"
  ends 1 '' checked --while fratter eight.cnf
  if ! grep -q 'begins as FRAT' err; then
    echo "FRAT of a solver is not named: $(cat err)"
    wrong=1
  fi
  # a solver that is ended for its proof is none that gave no answer
  solver frat <<< 'yes "o 1 1 2 0" > "$2"; exit 1'
  for name in garbled frat; do
    ends 1 '' checked --while "$name" eight.cnf
    if grep 'no answer' err || ! grep -q 'the proof that the solver wrote is not verified' err || ! grep -q 'FRAT and LRAT are read' err; then
      cat err
      wrong=1
    fi
  done
  ends 2 '' checked --while --no-proof finder open.cnf
  # without python3 nothing runs
  mkdir few
  for name in sh bash env mktemp realpath dirname setsid rm; do
    ln -s "$(type -P "$name")" few
  done
  ends 2 '' env PATH="$work/few:$work/bin" checked --while refuter eight.cnf
  if ! grep -q 'cannot run python3' err; then
    cat err
    wrong=1
  fi
  gzip -kf eight.cnf
  ends 20 "$unsat BY * RECEIPTS" checked --while refuter eight.cnf.gz
  for name in PIECES JOIN_CHECK; do
    ends 2 '' env "$name=./none" checked --while refuter eight.cnf
    grep -qx 'cannot run ./none' err || { cat err; wrong=1; }
  done
}

# An interrupt while the solver runs: nothing is left.
case_interrupted() {
  solver slow <<< 'printf "1 2 0\n" > "$2"; echo > begun; exec sleep 60'
  rm -f begun
  set -m
  checked --while slow eight.cnf > said 2> err &
  pid=$!
  set +m
  for _ in {1..600}; do
    [[ ! -e begun ]] || break
    sleep 0.05
  done
  kill -TERM "$pid"
  status=0
  wait "$pid" || status=$?
  if [[ $status != 143 || $(ls room) ]]; then
    printf 'interrupted: status %d, %s, and it left: %s\n' "$status" "$(cat err)" "$(ls room)"
    wrong=1
  fi
}

# block WORDS: the block of commands under these words, as the document has it, with pieces of few lemmas
block() {
  awk -v head="\`\`\`$1" '$0 == head { on = 1; next } /^```/ { on = 0 } on' "$top/docs/SCALE.md" |
    sed 's/^pieces cut .*/& --lemmas 2000/'
}

# solved: the proof of the pigeonhole by cadical; without it the case ends
solved() {
  only_with cadical
  cadical -q formula.cnf proof.drat > said || true
}

# runs WORDS: the commands of this block must end well, and tell that all is verified
runs() {
  block "$1" > commands
  if [[ ! -s commands ]] || ! bash -euo pipefail commands > said 2> err || [[ $(tail -n 1 said) != "$unsat BY "*' RECEIPTS' ]]; then
    printf '%s: %s %s\n' "$1" "$(cat said)" "$(cat err)"
    wrong=1
  fi
}

# The calls that are shown for one machine, word for word, and the examples of --help by a shell that ends at a fault and by make.
case_shown() {
  solved
  block 'sh while' > commands
  block 'sh memory' >> commands
  if (($(wc -l < commands) != 3)); then
    echo "docs/SCALE.md: not three calls: $(cat commands)"
    wrong=1
  fi
  while IFS= read -r line; do
    rm -rf pieces
    status=0
    bash -c "$line" > said 2> err < where || status=$?
    if [[ $line == checked* && $status != 20 ]] || [[ $line != checked* && $status != 0 ]] || [[ $(tail -n 1 said) != "$unsat BY "*' RECEIPTS' ]]; then
      printf '%s: status %d, it wrote: %s %s\n' "$line" "$status" "$(cat said)" "$(cat err)"
      wrong=1
    fi
  done < commands
  pieces --help | sed -n 's/^      //p' > shown
  { echo all:; sed 's/^/\t/' shown; } > Makefile
  for way in 'bash -e shown' 'make -s'; do
    has "${way%% *}" || continue
    rm -rf pieces
    read -r -a words <<< "$way"
    if ! "${words[@]}" > said 2> err || [[ $(tail -n 1 said) != "$unsat BY "*' RECEIPTS' ]]; then
      printf '%s: %s %s\n' "$way" "$(cat said)" "$(cat err)"
      wrong=1
    fi
  done
}

# The commands for several machines.
case_scale() {
  solved
  runs 'sh pieces'
  count=$(cat pieces/count)
  if ((count < 5)); then
    echo "too few pieces: $count"
    wrong=1
  fi

  # An interrupted run goes on: nothing is taken for verified that is not, and the rest is not checked again.
  rm pieces/*.receipt
  solver slow_check << 'END'
case $1 in */3.cnf) echo > begun; exec sleep 60 ;; esac
exec drat_check "$@"
END
  rm -f begun
  grep -v '^pieces cut' commands > rest
  set -m
  # (what is started in the background by another script may have been told to pass over interrupts)
  DRAT_CHECK=slow_check env --default-signal=INT bash -euo pipefail rest > said 2> err &
  pid=$!
  set +m
  for _ in {1..600}; do
    [[ ! -e begun ]] || break
    sleep 0.05
  done
  kill -INT -- "-$pid"
  wait "$pid" || true
  if [[ -e pieces/3.receipt ]] || ! pieces left formula.cnf pieces | grep -x 3 > where; then
    echo "not interrupted as it should be: $(ls pieces) $(cat err)"
    wrong=1
  fi
  bash -euo pipefail rest > said 2> err || true
  says 0 "$unsat BY $count RECEIPTS" pieces report formula.cnf pieces
  if has parallel; then
    rm pieces/*.receipt
    block 'sh pieces parallel' > commands
    says 0 "$unsat BY $count RECEIPTS" bash -euo pipefail commands
  fi

  # two neighbours change their places
  rm pieces/*.receipt
  mv pieces/2.drat held
  mv pieces/3.drat pieces/2.drat
  mv held pieces/3.drat
  fails 1 'is rejected' pieces check formula.cnf pieces 2 3
}

# A proof of another formula; and a solver beside its pieces.
case_solver() {
  only_with cadical
  python3 -B "$top/tests/drat/formulas.py" multiplier 5 > multiplier.cnf
  cadical -q multiplier.cnf multiplier.drat > said || true
  fails 1 '1: foreign/1.drat is rejected' pieces run formula.cnf multiplier.drat foreign --lemmas 500
  fails 0 "$unsat" pieces run multiplier.cnf multiplier.drat right --lemmas 500
  fails 1 'is rejected' pieces run formula.cnf multiplier.drat foreign --lemmas 500 --memory
  fails 0 "$unsat" pieces run multiplier.cnf multiplier.drat right --lemmas 500 --memory
  ends 20 "$unsat BY * RECEIPTS" checked --while cadical multiplier.cnf
  ends 20 "$unsat BY * RECEIPTS" checked --while cadical formula.cnf
  if has cryptominisat5; then
    ends 1 '' checked --while cryptominisat5 formula.cnf
    if ! grep -q 'without it, FRAT and LRAT are read too' err; then
      cat err
      wrong=1
    fi
  fi
}

try_cases
