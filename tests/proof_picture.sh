#!/usr/bin/env bash
# `tools/proof_picture`: what it says of proofs, counted here in another way; that the picture is whole; and files that are none.
set -euo pipefail
. "$(dirname "$0")/lib.sh"
cd "$work"
picture=$top/tools/proof_picture

# whole FILE RECTANGLES: it is XML, with this many of them at least
whole() {
  local count
  count=$(python3 -c 'import sys, xml.dom.minidom as dom; print(len(dom.parse(sys.argv[1]).getElementsByTagName("rect")))' "$1") || wrong=1
  if ((count < $2)); then
    echo "$1: $count rectangles"
    wrong=1
  fi
}

# By hand: five of six clauses, a step with a RAT hint, lengths 1, 3 and 0.
printf 'c six\np cnf 4 6\n1 2 0 1 -2 0\n-1 2 0\n-1 -2 00\n3 4 0 3 -4\n0\n%%\n0 0\n' > six.cnf
printf 'c lines\n7 1 0 1 2 0\n\n8 5 6 7 0 -2 1 3 0\n8 d 1 2 0\n9 0 7 4 6 3 0\n' > six.lrat

case_by_hand() {
  says 0 'c formula: 5 of 6 clauses are used (83 %)
c proof: 3 steps, 1 of them RAT; 2 deletions
c hints: 9, 3.0 a step, at most 4
c clauses: mean length 1.3, median 1, longest 3' "$picture" six.cnf six.lrat six.svg
  whole six.svg 100
}

case_packed() {
  "$picture" six.cnf six.lrat plain.svg > said
  for packer in 'gzip gz' 'xz xz' 'lzma lzma' 'bzip2 bz2' 'zstd zst'; do
    read -r tool end <<< "$packer"
    has "$tool" || continue
    "$tool" -qc six.cnf > "six.cnf.$end"
    "$tool" -qc six.lrat > "six.lrat.$end"
    "$picture" "six.cnf.$end" "six.lrat.$end" packed.svg > said || wrong=1
    cmp packed.svg plain.svg || wrong=1
    head -c -5 "six.lrat.$end" > "cut.lrat.$end"
    says 1 "cut.lrat.$end: $tool can't unpack it" "$picture" six.cnf "cut.lrat.$end" packed.svg
  done
}

# A proof of a solver: the numbers by another count.
case_solver() {
  data=$top/tests/data/grid5
  "$picture" "$data.cnf" "$data.lrat" grid.svg > said
  whole grid.svg 300
  lines=$(awk '$2 != "d" && $1 != "c"' "$data.lrat" | wc -l)
  hints=$(awk '$2 != "d" && $1 != "c" { on = 0; for (i = 2; i < NF; i++) { if (on) n++; if ($i == "0") on = 1 } } END { print n }' "$data.lrat")
  if ! grep -qx "c proof: $lines steps, 0 of them RAT; .*" said || ! grep -qx "c hints: $hints, .*" said; then
    printf '%s lines and %s hints, but\n%s\n' "$lines" "$hints" "$(cat said)"
    wrong=1
  fi
}

# Where nobody reads on, the picture is written, and nothing is said.
case_unread() {
  "$picture" six.cnf six.lrat six.svg > said
  for words in 'six.cnf six.lrat read.svg' --help; do
    status=0
    # shellcheck disable=SC2086
    { sleep 0.1 && "$picture" $words 2> err; } | true || status=${PIPESTATUS[0]}
    if [[ $status != 0 || -s err ]]; then
      printf 'proof_picture %s into a closed pipe: status %d, %s\n' "$words" "$status" "$(cat err)"
      wrong=1
    fi
  done
  cmp -s six.svg read.svg || wrong=1
}

# Files that are none, and wrong calls. A picture that was there stays.
case_faults() {
  "$picture" six.cnf six.lrat six.svg > said
  cp six.svg before
  says 1 'six.cnf: line 2: no line of LRAT text' "$picture" six.cnf six.cnf six.svg
  says 1 '/dev/null: no steps' "$picture" six.cnf /dev/null six.svg
  printf '7 1 0 1 2\n' > cut.lrat
  says 1 'cut.lrat: line 1: no line of LRAT text' "$picture" six.cnf cut.lrat six.svg
  says 2 'cannot open none.cnf: No such file or directory' "$picture" none.cnf six.lrat six.svg
  says 2 'cannot write six.cnf/svg: Not a directory' "$picture" six.cnf six.lrat six.cnf/svg
  more='(proof_picture --help says how it is called)'
  says 2 "it takes CNF, LRAT and SVG, and not 2 words $more" "$picture" six.cnf six.lrat
  says 2 "it takes CNF, LRAT and SVG, and not 0 words $more" "$picture"
  says 2 "there is no option --halp $more" "$picture" --halp
  says 2 "there is no option --halp $more" "$picture" six.cnf six.lrat six.svg --halp
  says 2 "it takes CNF, LRAT and SVG, and not 4 words $more" "$picture" six.cnf six.lrat six.svg more.svg
  says 2 'cannot write -: the picture is a file, and standard output has lines that say how large the proof is' "$picture" six.cnf six.lrat -
  says 2 'cannot write six.cnf: it is six.cnf, which is read' "$picture" six.cnf six.lrat six.cnf
  version=$(sed -n 's/^const VERSION: &str = "\([^"]*\).*/\1/p' "$top/crates/command/src/status.rt")
  for flag in -V --version; do
    says 0 "proof_picture $version" "$picture" "$flag"
    says 0 "proof_picture $version" "$picture" six.cnf "$flag" six.lrat
  done
  if [[ $("$picture" -h) != "$("$picture" --help)" || $("$picture" -h) != 'usage: proof_picture CNF LRAT SVG'* ]]; then
    echo "-h: $("$picture" -h)"
    wrong=1
  fi
  # a name that begins with a dash, behind --
  cp six.lrat ./-six.lrat
  says 0 "$("$picture" six.cnf six.lrat dash.svg)" "$picture" -- six.cnf -six.lrat -six.svg
  cmp -s six.svg ./-six.svg || wrong=1
  if ! cmp -s six.svg before || [[ $(find . -name '*.new' -o -name '.new-*' -o -name -) ]]; then
    echo "what was there is lost: $(ls)"
    wrong=1
  fi
}

try_cases
