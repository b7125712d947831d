#!/usr/bin/env bash
# Where cadical is there, the commands of docs/SCALE.md over a pigeonhole in 36 cubes, by xargs,
# parallel, make and Snakemake: a proof that is missing, damaged or of another cube has to be found,
# and a run that was interrupted goes on. And the examples of `cubes --help`.
set -euo pipefail
. "$(dirname "$0")/lib.sh"
# shellcheck source=SCRIPTDIR/cubes/setup.sh
. "$top/tests/cubes/setup.sh"

# The calls that --help shows, word for word, by a shell that ends at a fault and by make.
case_help() {
  shown() {
    cubes --help | sed -n 's/^      //p'
  }
  furnish() {
    rm -rf shown
    mkdir -p shown/parts
    cp four.cnf shown/formula.cnf
    cp two.txt shown/cubes.txt
    cp four/*.lrat shown/parts
  }
  furnish
  says 0 '' bash -ec 'cd shown; . <(cubes --help | sed -n "s/^      //p")'
  says 0 "$all" cubes report shown/formula.cnf shown/cubes.txt shown/parts
  if has make; then
    furnish
    { echo all:; shown | sed 's/^/\t/'; } > shown/Makefile
    says 0 '' make -s -C shown
    says 0 "$all" cubes report shown/formula.cnf shown/cubes.txt shown/parts
  fi
}

# block WORDS: the block of commands under these words, as the document has it
block() {
  awk -v head="\`\`\`$1" '$0 == head { on = 1; next } /^```/ { on = 0 } on' "$top/docs/SCALE.md"
}

# pigeons: the first pigeon in each hole, and the second one in each. The solver notes its calls,
# and can be told to be slow.
pigeons() {
  local solver first second
  only_with cadical
  solver=$(command -v cadical)
  printf '#!/bin/sh\necho "$2" >> "%s/calls"\n[ ! -e "%s/slow" ] || { echo half > "$3"; exec sleep 60; }\nexec "%s" "$@"\n' \
    "$work" "$work" "$solver" > bin/cadical
  chmod +x bin/cadical
  : > calls
  python3 -B "$top/tests/drat/formulas.py" pigeons 6 > formula.cnf
  for first in {1..6}; do
    for second in {7..12}; do
      echo "$first $second 0"
    done
  done > cubes.txt
  block 'sh solve.sh' > solve.sh
  block 'python Snakefile' > Snakefile
  block make > Makefile
  chmod +x solve.sh
}

whole='s VERIFIED UNSAT BY 37 RECEIPTS'

# runs WORDS: the commands of this block must end well, and tell that all is verified
runs() {
  block "$1" > commands
  if [[ ! -s commands ]] || ! bash -euo pipefail commands > said 2> err || [[ $(tail -n 1 said) != "$whole" ]]; then
    printf '%s: %s %s\n' "$1" "$(cat said)" "$(cat err)"
    wrong=1
  fi
}

# solved N: this many parts were solved since the last call
solved() {
  local count
  count=$(wc -l < calls)
  if [[ $count != "$1" ]]; then
    printf '%s solved, and not %s: %s\n' "$count" "$1" "$(sort calls | tr '\n' ' ')"
    wrong=1
  fi
  : > calls
}

# interrupted COMMAND..: a recipe that ends by an interrupt while the solver is slow. No proof is
# taken for a whole one.
interrupted() {
  local pid
  rm -f parts/{1,2,3,4,5,6,7,closing}.{drat,receipt}
  touch slow
  set -m
  # (what is started in the background by another script may have been told to pass over interrupts)
  env --default-signal=INT "$@" > said 2> err &
  pid=$!
  set +m
  for _ in {1..200}; do
    [[ ! -s parts/4.drat.new ]] || break
    sleep 0.05
  done
  kill -INT -- "-$pid"
  wait "$pid" || true
  # a shell that is told what its children died of may go on with what is left of its commands
  rm slow
  if [[ ! -s parts/4.drat.new || -e parts/4.drat ]]; then
    printf '%s: not interrupted as it should be: %s %s\n' "$*" "$(ls parts/*.new parts/4.*)" "$(cat err)"
    wrong=1
  fi
  : > calls
}

# makes N: make tells that all is verified, and this many parts were solved
makes() {
  make -s -j 4 > said 2> err || true
  if [[ $(tail -n 1 said) != "$whole" ]]; then
    printf 'make: %s %s\n' "$(cat said)" "$(cat err)"
    wrong=1
  fi
  solved "$1"
}

case_xargs() {
  pigeons
  runs 'sh xargs'
  solved 37
  runs 'sh xargs'
  solved 0
  runs 'sh receipts'
  check=(cubes check --whose formula.cnf cubes.txt parts)

  # one missing, one cut, two exchanged
  rm parts/20.drat
  cp parts/11.drat kept
  head -c 100 kept > parts/11.drat
  mv parts/4.drat held
  mv parts/30.drat parts/4.drat
  mv held parts/30.drat
  status=0
  cubes names formula.cnf cubes.txt | xargs -P 4 -n 8 "${check[@]}" > said 2>&1 || status=$?
  if ((status == 0)); then
    echo "what was damaged is verified"
    wrong=1
  fi
  for line in '20: no proof' '11: parts/11.drat is rejected: .*; it is a proof of no part' \
    '4: parts/4.drat is rejected: .*; it is a proof of 30' '30: parts/30.drat is rejected: .*; it is a proof of 4'; do
    if ! grep -qx "$line" said; then
      printf 'no line "%s" in:\n%s\n' "$line" "$(cat said)"
      wrong=1
    fi
  done
  says 1 $'4: not verified\n11: not verified\n20: no proof\n30: not verified\n4 of 37 parts are not verified' \
    cubes report formula.cnf cubes.txt parts

  # a cube that is left out: the closing formula has a clause less, and its proof needs each of them
  grep -vx '1 8 0' cubes.txt > fewer.txt
  mkdir fewer
  cp parts/closing.drat fewer
  if cubes check formula.cnf fewer.txt fewer closing > said || ! grep -q '^closing: fewer/closing.drat is rejected: ' said; then
    printf 'a cube that is left out: %s\n' "$(cat said)"
    wrong=1
  fi

  # What was refused stays until it is deleted; then it is solved again, and nothing else.
  block 'sh xargs' > commands
  bash commands > said 2>&1 || true
  solved 1
  says 1 $'4: not verified\n11: not verified\n30: not verified\n3 of 37 parts are not verified' cubes report formula.cnf cubes.txt parts
  rm parts/4.drat parts/11.drat parts/30.drat
  runs 'sh xargs'
  solved 3

  interrupted bash -euo pipefail commands
  runs 'sh xargs'
  solved 8
}

# By make, from nothing too: what is left, what was damaged, one cube that changed, a formula that
# did; and then by parallel and Snakemake.
case_recipes() {
  pigeons
  if has make; then
    makes 37
    makes 0
    interrupted make -s -j 4
    makes 8
    sed -i '7s/.*/2 7 2 0/' cubes.txt
    makes 2
    rm parts/20.*
    cubes parts formula.cnf cubes.txt parts
    makes 1
    echo '1 2 3 4 5 6 0' >> formula.cnf
    makes 37
    # a proof that was verified may go
    rm parts/20.drat
    makes 0
  else
    runs 'sh xargs'
    : > calls
  fi
  if has parallel; then
    rm -f parts/*.receipt parts/20.drat
    runs 'sh parallel'
    solved 1
    interrupted bash -euo pipefail <(block 'sh parallel')
    runs 'sh parallel'
    solved 8
  fi
  if has snakemake; then
    rm parts/{1,2,3}.{drat,receipt}
    snakemake -q -j 4 --keep-going > said 2> err || true
    if ! grep -qx "$whole" said; then
      printf 'snakemake: %s %s\n' "$(cat said)" "$(cat err)"
      wrong=1
    fi
    : > calls
  fi
}

# A formula that can be satisfied: one of its parts can, and the report says so.
case_satisfiable() {
  pigeons
  # (the clause of one pigeon is that of another, so that the header still says how many there are)
  sed -i '5s/.*/1 2 3 4 5 6 0/' formula.cnf
  block 'sh xargs' > commands
  status=0
  bash commands > said 2> err || status=$?
  if ((status != 10)) || ! head -n 1 said | grep -q ': parts/[0-9]*.answer satisfies the formula: s VERIFIED SAT$' ||
    ! tail -n 1 said | grep -q ': parts/[0-9]*.answer satisfies the formula: s VERIFIED SAT$'; then
    printf 'a formula that can be satisfied: status %d, %s %s\n' "$status" "$(cat said)" "$(cat err)"
    wrong=1
  fi
}

try_cases
