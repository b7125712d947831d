#!/usr/bin/env bash
# That lists which become empty are noticed, and figures that grow; and what the linters find.
# needs: test.sh tests/run tests/figures.sh tests/figures tests/documents docs tests/figures.txt tests/weak_edits.sh tests/layout.sh .shellcheckrc
set -euo pipefail
. "$(dirname "$0")/lib.sh"
# shellcheck source=SCRIPTDIR/test_run/setup.sh
. "$top/tests/test_run/setup.sh"

# copied: into a copy of what is counted
copied() {
  mkdir copy
  (cd "$top" && tar -c --exclude=./.git --exclude=out ./test.sh ./tests ./docs/TRUST.md ./crates/*/{wrong-bodies,must-fail} ./crates/{check_vectors,definition_rows}) \
    2> "$work/null" | tar -x -C copy || true
  cd copy
  # (not all scripts are there)
  tests/figures.sh --write > "$work/said"
}

# counts STATUS WHAT LINE..
counts() {
  local status=0
  tests/figures.sh > "$work/said" 2>&1 || status=$?
  same "$2: status" "$1" "$status"
  tells "${@:3}"
}

case_figures() {
  copied
  counts 0 'as it is'
  cp -r . ../whole
  sed -i '/^[^#]/d' tests/wrong_bodies/always.txt
  counts 1 'an emptied list' 'none: wrong bodies of each run'
  cp ../whole/tests/wrong_bodies/always.txt tests/wrong_bodies/
  status=0
  : > crates/command/wrong-bodies/wrong-bodies.txt
  counts 1 'an emptied list of a crate' 'none: wrong bodies, command'
  tests/figures.sh --write > "$work/said" || status=$?
  same 'the status of --write over an emptied list' 1 "$status"
  cp ../whole/tests/figures.txt tests/
  rm -r crates/command/wrong-bodies
  counts 1 'a list that is gone' "fewer: wrong bodies, command, 0 for $(sed -n 's/^wrong bodies, command: //p' tests/figures.txt)"
  cp -r ../whole/crates/command/wrong-bodies crates/command/
  sed -i '0,/^=> /s//# /' tests/rows/lrat_check.rows
  counts 1 'a row less'
  cp ../whole/tests/rows/lrat_check.rows tests/rows/
  printf 'case_more() {\n' >> tests/rows.sh
  counts 1 'a case more' 'more: cases, rows.sh, 1 for 0'
  tests/figures.sh --write > "$work/said"
  counts 0 'a case more that is written'
  sed -i 's/^scripts=(library/scripts=(/' test.sh
  counts 1 'a script less'
}

# one_more BOUND: the line that tells it
one_more() {
  local number
  number=$(sed -n "s/^at most, $1: //p" tests/figures.txt)
  echo "raised: at most, $1, $((${number:-0} + 1)) for ${number:-0}"
}

case_sizes() {
  copied
  printf '# %s\n' {1..401} > tests/long.sh
  counts 1 'a script that is too long' "$(one_more 'scripts above 400 lines')"
  { echo 'long() {' && printf '  : %s\n' {1..41} && echo '}' && printf '# %99s\n' wide; } > tests/long.sh
  counts 1 'a long function, and a wide line' \
    "$(one_more 'functions of scripts above 40 lines')" "$(one_more 'lines of scripts above 100 columns')"
  rm tests/long.sh
  printf '# %s\n' {1..1000} > tests/more.sh
  counts 1 'a thousand lines more' "$(one_more 'lines of scripts, in thousands')"
}

# What grows in the crates: each bound is exceeded by one, raised for a reason alone, and kept with
# it.
case_growth() {
  copied
  mkdir -p crates/low/{src,specs}
  # shellcheck disable=SC2016 # the name of a file in a document
  printf '\n## `s VERIFIED LOW` by `low`\n\n`crates/low/specs/Low.antt` (1 lines)\n' >> docs/TRUST.md
  echo '-- One.' > crates/low/specs/Low.antt
  printf 'fn few()\n%s{\n}\n' "$(printf '    ensures %s { low }\n' {a..j})"$'\n' > crates/low/src/lib.rt
  tests/figures.sh --write 'a new crate' > "$work/said"
  counts 0 'a reason is kept'
  grep -qx 'at most, lines to read, s VERIFIED LOW by low: 1 (a new crate)' tests/figures.txt || fault 'no reason is kept'
  sed -i 's/^{$/    ensures k { low }\n{/' crates/low/src/lib.rt
  counts 1 'a head of eleven clauses' "$(one_more 'heads above ten clauses')"
  sed -i '/^    ensures k/d' crates/low/src/lib.rt
  printf '    let a = %s(b);\n' {a..j} > crates/low/src/one.rt
  sed 's/let a/let other/' crates/low/src/one.rt > crates/low/src/two.rt
  counts 1 'ten lines twice, with other words' "$(one_more 'repeats in crates')"
  sed -i '$d' crates/low/src/two.rt
  counts 0 'nine lines twice'
  echo '-- Two.' >> crates/low/specs/Low.antt
  counts 1 'a definition that grows' 'raised: at most, lines to read, s VERIFIED LOW by low, 2 for 1'
  status=0
  cp tests/figures.txt held
  tests/figures.sh --write > "$work/said" || status=$?
  same 'the status of --write without a reason' 1 "$status"
  holds tests/figures.txt "$(cat held)"
  tests/figures.sh --write 'two is said too' > "$work/said"
  counts 0 'a bound that is raised'
  echo '-- Low.' > crates/low/specs/Low.antt
  counts 0 'what is below its bound'
  tests/figures.sh --write > "$work/said"
  grep -qx 'at most, lines to read, s VERIFIED LOW by low: 1' tests/figures.txt || fault 'the bound is not lowered'
}

# What reads a list fails over an empty one.
case_empty() {
  mkdir -p empty/tests
  cp "$top"/tests/{lib,weak_edits,layout}.sh empty/tests
  cd empty
  git init -q
  : > gate
  ends 1 "tests/weak_edits.sh" tests/weak_edits.sh gate
  echo '12 passed, 1 failed' > gate
  ends 1 "tests/weak_edits.sh" tests/weak_edits.sh gate
  echo '0 passed, 0 failed' > gate
  ends 1 "tests/weak_edits.sh" tests/weak_edits.sh gate
  echo '12 passed, 0 failed' > gate
  ends 0 "tests/weak_edits.sh" tests/weak_edits.sh gate
  printf 'rt: must-fail one: BAD EDIT\n12 passed, 0 failed\n' > gate
  ends 1 "tests/weak_edits.sh" tests/weak_edits.sh gate
  ends 1 "no sources" tests/layout.sh --case sources
  mkdir -p crates/low/src
  echo '//! Low.' > crates/low/src/lib.rt
  git add .
  ends 0 "one source" tests/layout.sh --case sources
}

# Scripts without an ending are looked at too, and where there are none, that is a fault.
case_linters() {
  only_with shellcheck pyflakes3
  mkdir -p linted/{tests,tools}
  cp "$top"/tests/{lib,layout}.sh linted/tests
  cp "$top/.shellcheckrc" linted
  cd linted
  git init -q
  ends 1 "no script in Python" tests/layout.sh --case python
  printf '#!/usr/bin/env python3\nprint()\n' > tools/one
  ends 0 "a script in Python" tests/layout.sh --case python
  printf '#!/usr/bin/env python3\nimport os\n' > tools/one
  ends 1 "an import that nothing uses" tests/layout.sh --case python
  printf '#!/bin/sh\necho "$1"\n' > tools/one
  ends 0 "a script of the shell" tests/layout.sh --case shell
  printf '#!/bin/sh\nlocal one\n' > tools/one
  ends 1 "a word that not each shell has" tests/layout.sh --case shell
}

try_cases
