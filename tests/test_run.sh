#!/usr/bin/env bash
# How ./test.sh runs scripts (tests/run): what fails makes it fail, also where nothing can be
# written; what was not tried is told and leaves no note; a script runs again where something
# changed that it depends on, and else not. And what tests/lib.sh has to compare with.
# needs: test.sh tests/run
set -euo pipefail
. "$(dirname "$0")/lib.sh"
# shellcheck source=SCRIPTDIR/test_run/setup.sh
. "$top/tests/test_run/setup.sh"

case_failures() {
  write bad <<< 'echo broken; exit 3'
  write dead <<< 'kill -9 $$'
  runs 1 good bad
  tells 'tests/bad.sh failed; its last lines:' broken
  noted good
  runs 1 dead
  tells 'tests/dead.sh failed; its last lines:'
  runs 1 good none
  tells 'tests/none.sh failed; its last lines:' 'tests/good.sh has passed on this machine over the same files'
  for status in 1 2 126 127 255; do
    write bad <<< "exit $status"
    runs 1 bad
  done
  noted good
}

# Where nothing can be written: what this run tells, a note, and the log of a script.
case_full() {
  printf 'exit 0\n' | write quiet
  runs 0 quiet
  passed=$work/nowhere runs 1 quiet
  rm -r "$passed"
  mkdir "$passed"
  unshare -rm true 2> "$work/null" || untried 'no namespaces here: a full folder'
  # shellcheck disable=SC2016 # for the script
  write filling <<< 'head -c 1000000 /dev/zero > "$told/fill" 2> /dev/null; exit 0'
  write bad <<< 'exit 1'
  for call in good quiet bad filling 'quiet filling'; do
    status=0
    # shellcheck disable=SC2016 # for the other shell
    unshare -rm env told="$told" passed="$passed" archive="$work/archive" waiting='' bash -c '
      set -euo pipefail
      mount -t tmpfs -o size=64k tmpfs "$told"
      [[ $* == *filling ]] || head -c 1000000 /dev/zero > "$told/fill" 2> /dev/null || true
      . tests/run/scripts.sh
      run_scripts 1 "$@"' - $call > "$work/said" 2>&1 || status=$?
    if [[ $status == 0 ]]; then
      fault "a full folder, $call: status 0"
      cat "$work/said"
    fi
  done
}

case_untried() {
  # (indented, since these are no cases of this script)
  sed 's/^  //' << 'END_OF_SCRIPT' | write partly
  set -euo pipefail
  . "$(dirname "$0")/lib.sh"
  case_first() {
    has wasm2c.none || true
  }
  case_second() {
    only_with wasm2c.none
  }
  case_third() {
    true
  }
  try_cases
END_OF_SCRIPT
  sed -i 's/^wasm2c /wasm2c.none /' tests/run/optional.txt
  runs 0 partly good
  tells 'Not tried:' 'tests/partly.sh: wasm2c.none is not installed (Debian: wabt)' 'Packages that are missing: wabt' 'ok    third' '-     second: not tried'
  noted good
  for line in 'said=$(has wasm2c.none || true)' 'echo "cc is too old: not tried" | cat' 'untried "no room"' '(not_tried "no room")' \
    'part_ended bash -c "exit 77"' 'only_with wasm2c.none'; do
    printf 'set -euo pipefail\n. "$(dirname "$0")/lib.sh"\n%s\n' "$line" | write partly
    runs 0 partly
    noted good
  done
  # what no package has is nothing that is missing; and what is wrong is told before what is missing
  printf '. "$(dirname "$0")/lib.sh"\nhas kissat || true\n' | write partly
  runs 0 partly
  noted good partly
  rm "$passed"/partly.*
  printf '. "$(dirname "$0")/lib.sh"\nhas wasm2c.none || true\nexit 1\n' | write partly
  runs 1 partly
  noted good
}

# again WHAT, and at_once WHAT: whether `good` runs after something changed
again() {
  runs 0 good
  if grep -q 'has passed' "$work/said"; then
    fault "$1 changed, and the script does not run again"
  fi
  runs 0 good
  tells 'tests/good.sh has passed on this machine over the same files'
}

at_once() {
  runs 0 good
  if ! grep -q 'has passed' "$work/said"; then
    fault "$1 changed, and the script runs again"
  fi
}

case_keys() {
  again 'at first something'
  for name in crates/app_main/out/app_main tools/tool tests/{lib,good}.sh tests/good/{first,second}.py tests/data/input docs/A.md \
    crates/low/src/lib.rt; do
    echo '# more' >> "$name"
    again "$name"
  done
  for name in crates/other_main/out/other_main tests/data/other docs/B.md README.md crates/low/proofs/Proof.antt; do
    echo '# more' >> "$name"
    at_once "$name"
  done
  touch tests/{new,test_run}.sh tests/data/in2 crates/new
  again 'a file that a pattern names'
  write new < /dev/null
  at_once 'another script'
  chmod 600 tests/data/input
  again 'a mode'
  (export PATH=$PATH:/nowhere && again PATH && exit "$wrong") || wrong=1
  (export TZ=Asia/Tokyo && again TZ && exit "$wrong") || wrong=1
  (ulimit -S -n 100 && again 'ulimit -n' && exit "$wrong") || wrong=1
  mkdir "$work/python"
  printf '#!/bin/sh\n[ "$1" != --version ] || { echo "Python 4"; exit; }\nexec %q "$@"\n' "$(type -P python3)" > "$work/python/python3"
  chmod +x "$work/python/python3"
  (export PATH=$work/python:$PATH && again 'python3' && sed -i 's/Python 4/Python 5/' "$work/python/python3" && again 'the version of python3' &&
    exit "$wrong") || wrong=1
  # a file that changes while the script runs: what passed is of neither
  # shellcheck disable=SC2016 # for the script
  printf '. "$(dirname "$0")/lib.sh"\necho >> "$top/docs/A.md"\n' | write writes
  runs 0 writes
  same 'a note of a script whose files changed' '' "$(find "$passed" -name 'writes.*')"
  # without git nothing is noted
  rm -rf .git "${passed:?}"/*
  GIT_CEILING_DIRECTORIES=$work runs 0 good
  noted
}

# `waiting` begins after the library, and the archive that is noted comes back.
case_archive() {
  # shellcheck disable=SC2016 # for the scripts
  {
    printf 'sleep 2\necho made > "$archive"\n' | write library
    write last <<< 'grep -q made "$archive"'
  }
  runs 0 last good library
  rm "$work/archive"
  echo '# more' >> tests/last.sh
  runs 0 last good library
  grep -q 'library.sh has passed' "$work/said" || fault 'the library is made again'
  write library <<< 'exit 1'
  runs 1 last library
}

# What tests/lib.sh has to compare with: each passes where it should, and is a fault where anything differs.
case_comparisons() {
  speak() {
    printf '%s' "$2"
    printf '%s' "$3" >&2
    return "$1"
  }
  printf 'a\nb\n' > two
  # compared RIGHT COMMAND..
  compared() {
    local found=0
    (wrong=0 && "${@:2}" > "$work/said" && exit "$wrong") || found=$?
    same "${*:2}" "$1" "$found"
  }
  compared 0 expect 0 '' -- true
  compared 0 expect 3 $'a\nb' -- speak 3 $'a\nb\n' err
  compared 0 expect 3 a err -- speak 3 a $'err\n'
  compared 0 expect 0 '' '' -- speak 0 '' ''
  compared 1 expect 0 a -- speak 3 a ''
  compared 1 expect 3 b -- speak 3 a ''
  compared 1 expect 3 a error -- speak 3 a err
  compared 1 expect 3 a '' -- speak 3 a err
  compared 0 says 1 ab speak 1 a b
  compared 1 says 1 a speak 1 a b
  compared 1 says 0 ab speak 1 a b
  compared 0 faults one speak 2 '' $'this one\n'
  for call in "2 a this_one" "2 '' this" "1 '' this_one" "2 '' ''"; do
    eval "compared 1 faults one speak $call"
  done
  compared 1 faults one speak 2 '' $'this one\nmore\n'
  compared 0 holds two $'a\nb'
  compared 1 holds two a
}

try_cases
