# shellcheck shell=bash disable=SC2034,SC2154
# What the tests of ./test.sh share: a small repository, in `tree`, with scripts that tests/run
# runs.
tree=$work/tree told=$work/told passed=$work/passed
mkdir -p "$passed" "$tree"/{tests/{run,good,data},tools,docs,crates/{app,other}_main/out}
cp "$top"/tests/run/* "$tree/tests/run"
cp "$top/tests/lib.sh" "$tree/tests"
cd "$tree" || exit

# write NAME: the script tests/NAME.sh, of these lines
write() {
  { echo '#!/usr/bin/env bash' && cat; } > "tests/$1.sh"
  chmod +x "tests/$1.sh"
}

write good << 'END_OF_SCRIPT'
# README.md is named by a comment alone, and docs/B.md too
set -euo pipefail
. "$(dirname "$0")/lib.sh"
on_path app tool
python3 -B "$top/tests/good/first.py" "$top/tests/data/in"* < "$top/docs/A.md"
# needs: crates/low
END_OF_SCRIPT
mkdir -p crates/low/{src,proofs}
echo 'import second' > tests/good/first.py
touch tests/good/second.py tests/data/{input,other} docs/{A,B}.md README.md crates/low/{src/lib.rt,proofs/Proof.antt}
for name in crates/app_main/out/app_main crates/other_main/out/other_main tools/tool; do
  printf '#!/bin/sh\n' > "$name"
  chmod +x "$name"
done
echo /crates/*/out > .gitignore
git init -q
git add .

# runs STATUS SCRIPT..: these end so, all together; what is told is in `said`
runs() {
  local status=0
  rm -rf "$told"
  mkdir "$told"
  driven "${@:2}" > "$work/said" 2>&1 || status=$?
  if [[ $status != "$1" ]]; then
    fault "${*:2}: status $status, not $1"
    cat "$work/said"
  fi
}

driven() {
  # shellcheck disable=SC2016 # for the other shell
  told=$told passed=$passed archive=$work/archive waiting=last \
    bash -c 'set -euo pipefail; . tests/run/scripts.sh; run_scripts 3 "$@"' - "$@"
}

# tells LINE..: these are among the lines that were told
tells() {
  local line
  for line; do
    grep -qxF -e "$line" "$work/said" || {
      fault "it does not tell '$line':"
      cat "$work/said"
    }
  done
}

# ends STATUS WHAT COMMAND..: the call ends so, or with 77 in place of 0; what it says is in `said`
ends() {
  local status=0
  "${@:3}" > "$work/said" 2>&1 || status=$?
  if [[ $status != "$1" && "$1 $status" != '0 77' ]]; then
    fault "$2: status $status, not $1:"
    tail -n 20 "$work/said"
  fi
}

# noted NAME ..: the scripts that are noted
noted() {
  same 'what is noted' "$*" "$(find "$passed" -mindepth 1 -printf '%f\n' | cut -d . -f 1 | sort | paste -s -d ' ')"
}
