#!/usr/bin/env bash
# Processor seconds of clients of IPASIR, by CaDiCaL alone and by the layer over it, whose answers are all shown: bounded model checking of
# a circuit, and a resolver of versions; and all of this over CaDiCaL 2, if its packages are to be had.
#
#   benches/ipasir.sh [--instructions] [BITS DEPTH [PACKAGES REQUESTS]]
#
# With --instructions callgrind counts those, in place of seconds. The library is built if it is not there; it needs a C++ compiler and
# CaDiCaL (Debian: libcadical-dev). IS_CADICAL2 is set where this script runs itself over CaDiCaL 2.
set -euo pipefail

top=$(cd "$(dirname "$0")/.." && pwd)
work=$(mktemp -d)
trap 'rm -rf "$work"' EXIT
words=("$@")
counts=
if [[ ${1-} == --instructions ]]; then
  counts=1
  shift
fi
"$top/bindings/build.sh" --built "$work"
for program in circuit resolver; do
  cc -O2 -I "$top/bindings/sessions" -I "$top/tests/ipasir" -c -o "$work/$program.o" "$top/tests/sessions/$program.c"
  c++ -o "$work/$program" "$work/$program.o" -lcadical
  c++ -o "$work/${program}_checked" "$work/$program.o" "$work/libcefindrato_ipasir.a"
done

# cost COMMAND..: what it takes, in words; what it writes goes to two files
cost() {
  if [[ $counts ]]; then
    valgrind --tool=callgrind --callgrind-out-file="$work/counts" --log-file="$work/told" "$@" > "$work/said" 2> "$work/shown"
    echo "$(sed -n 's/.*Collected : //p' "$work/told") instructions"
  else
    TIMEFORMAT='%U s'
    { time "$@" > "$work/said" 2> "$work/shown"; } 2>&1
  fi
}

for call in "circuit ${1:-9} ${2:-100}" "resolver ${3:-200} ${4:-2000}"; do
  read -r program numbers <<< "$call"
  for form in "$program" "${program}_checked"; do
    # shellcheck disable=SC2086 # several words
    found=$(cost "$work/$form" $numbers)
    echo "$form $numbers: $found; $(cat "$work/said" "$work/shown" | paste -sd ';')"
  done
done
if [[ ! ${IS_CADICAL2-} ]] && "$top/tests/ipasir/cadical2.sh" "$work/two"; then
  echo 'CaDiCaL 2:'
  IS_CADICAL2=1 PATH=$work/two/bin:$PATH "$0" "${words[@]}"
fi
