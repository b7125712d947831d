#!/usr/bin/env bash
# Checks an LRAT proof of 16 MB with lrat_check and with a checker in C++, and counts instructions, seconds and memory: benches/lrat.sh
# With --groups the proof is one of lines with 100,000 groups each.
# It takes the program as `rt run` leaves it in its crate (another one by LRAT), or a formula and a proof of one's own by two arguments.
# It needs python3, g++ and valgrind, and about a minute.
set -euo pipefail
top=$(cd "$(dirname "$0")/.." && pwd)
program=${LRAT:-$top/crates/lrat_check_main/out/lrat_check_main}
work=$(mktemp -d)
trap 'rm -rf "$work"' EXIT
make=make.py groups=0
if [[ ${1:-} == --groups ]]; then
  make=groups.py groups=1
  shift
fi
g++ -O2 -DGROUPS=$groups -o "$work/reference" "$top/benches/lrat/reference.cc"
if (($# == 2)); then
  files=("$1" "$2")
else
  files=("$work/cnf" "$work/lrat")
  python3 "$top/benches/lrat/$make" "${files[@]}"
fi
echo "$(wc -c < "${files[1]}") bytes of proof"

# seconds PROGRAM: the least user time of seven runs
seconds() {
  local TIMEFORMAT=%U
  for _ in 1 2 3 4 5 6 7; do
    { time "$1" "${files[@]}" > "$work/line"; } 2>> "$work/times"
  done
  sort -n "$work/times" | head -1
  rm "$work/times"
}

# instructions PROGRAM: how many it runs
instructions() {
  valgrind --tool=callgrind --callgrind-out-file="$work/calls" "$1" "${files[@]}" 2>&1 > "$work/line" |
    sed -n 's/.*refs: *//p' | tr -d ,
}

# memory PROGRAM: the most bytes that it holds at a time
memory() {
  valgrind --tool=massif --massif-out-file="$work/heap" "$1" "${files[@]}" > "$work/line" 2> "$work/errors"
  sed -n 's/mem_heap_B=//p' "$work/heap" | sort -n | tail -1
}

for one in "$program" "$work/reference"; do
  echo "${one##*/}: $(instructions "$one") instructions, $(seconds "$one") s, $(memory "$one") bytes: $(cat "$work/line")"
done
