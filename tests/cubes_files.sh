#!/usr/bin/env bash
# Files and words of `tools/cubes`: inputs that are outputs, standard input, packed files, files of
# cubes of other forms, and what is installed beside it.
set -euo pipefail
. "$(dirname "$0")/lib.sh"
# shellcheck source=SCRIPTDIR/cubes/setup.sh
. "$top/tests/cubes/setup.sh"

# Programs beside the script, ahead of those on PATH.
case_beside() {
  mkdir false
  as_installed cubes
  for program in drat_check join_check lrat_check model_check; do
    cp -L "bin/$program" alone/bin
    printf '#!/bin/sh\nexit 1\n' > "false/$program"
    chmod +x "false/$program"
  done
  cubes parts four.cnf two.txt beside
  echo '6 0 5 1 2 0' > beside/2.lrat
  PATH=$work/false:$PATH says 0 '' alone/bin/cubes check four.cnf two.txt beside 2
}

# No input is written over, by whatever name, and of what is there only what the script wrote
# itself.
case_overwrites() {
  python3 -B "$top/tests/pieces/overwrites.py" cubes || wrong=1
  mkdir own
  cp three.cnf own/1.cnf
  (
    cd own
    says 2 'cannot write ./1.cnf: it is a file that is read, 1.cnf' cubes parts 1.cnf ../two.txt .
    exit "$wrong"
  ) || wrong=1
  holds own/1.cnf "$(cat three.cnf)"
  mkdir theirs
  for name in 2.cnf split; do
    echo theirs > "theirs/$name"
    faults "cannot write theirs/$name: there is a file that cubes did not write" cubes parts four.cnf two.txt theirs
    says 0 "$name" ls theirs
    holds "theirs/$name" theirs
    rm "theirs/$name"
  done
  says 0 '' cubes parts three.cnf two.txt theirs
  says 0 '' cubes parts four.cnf two.txt theirs
  holds theirs/2.cnf "$(cat four/2.cnf)"
  cp four/2.lrat theirs
  echo theirs > theirs/2.receipt
  faults 'cannot write theirs/2.receipt: there is a file that cubes did not write' cubes check four.cnf two.txt theirs 1 2
  holds theirs/2.receipt theirs
  : > theirs/2.receipt
  says 0 '2: theirs/2.receipt was cut off: it is made again' cubes check four.cnf two.txt theirs 2
  faults 'cannot use own/1.cnf: File exists' cubes parts four.cnf two.txt own/1.cnf
}

# A file named - is a file, and what is on standard input is not read; nor is a folder an option.
case_dash() {
  mkdir dash dash/-f
  cp four.cnf dash/-
  printf 's SATISFIABLE\nv 1 2 0\n' > dash/1.answer
  cp four/*.lrat dash/-f
  (
    cd dash
    says 1 $'1: ./1.answer is rejected: s NOT VERIFIED\n1: no proof' cubes check - ../two.txt . 1 < ../open_at_2.cnf
    says 0 '' cubes check -- - ../two.txt -f 1 2 closing
    exit "$wrong"
  ) || wrong=1
}

# Behind the header of iCNF a line without an a is a clause. A formula is no list of cubes, nor iCNF
# a formula.
case_icnf() {
  says 0 $'1\n2\nclosing' cubes names four.cnf both.icnf
  says 0 "$(cat four/2.cnf)" cubes part four.cnf both.icnf 2
  faults 'four.cnf: line 2: bad header: p cnf 2 4' cubes names two.txt four.cnf
  faults 'both.icnf: line 1: bad header: p inccnf' cubes parts both.icnf two.txt made
  printf '1 2 0\nx1 2 0\n' > word.cnf
  faults 'word.cnf: a word that is no number: x1' cubes left word.cnf two.txt four
}

# The words of a call: what is wrong is named, and options stand anywhere.
case_words() {
  faults 'no call is named' cubes
  faults 'there is no call chek' cubes chek four.cnf two.txt four 1
  faults 'check: no NAME is named' cubes check four.cnf two.txt four
  faults 'part: no CUBES is named' cubes part four.cnf
  faults 'left: a word too many: 1' cubes left four.cnf two.txt four 1
  faults 'there is no option --who' cubes check --who four.cnf two.txt four 1
  faults 'report has no option --whose' cubes report four.cnf two.txt four --whose
  for place in '--whose check four.cnf two.txt four 1' 'check four.cnf --whose two.txt four 1' 'check four.cnf two.txt four 1 --whose'; do
    cp four/2.lrat four/1.lrat
    read -r -a words <<< "$place"
    says 1 '1: four/1.lrat is rejected: proof: line 1: clause of a hint is not unit; it is a proof of 2' cubes "${words[@]}"
  done
  echo '6 0 5 3 4 0' > four/1.lrat
  says 0 "$(cubes --help)" cubes -h
  version=$(sed -n 's/^const VERSION: &str = "\([^"]*\).*/\1/p' "$top/crates/command/src/status.rt")
  for option in -V --version; do
    says 0 "cubes $version" cubes "$option"
  done
}

# What can't be written is no success, and a name need not be UTF-8.
case_standard_output() {
  says 0 '' cubes check four.cnf two.txt four 1 2 closing
  says 0 "$all" cubes report four.cnf two.txt four
  faults 'cannot use standard output: No space left on device' bash -c 'cubes report four.cnf two.txt four > /dev/full'
  faults 'standard output is closed' bash -c 'cubes report four.cnf two.txt four >&-'
  cp -R four $'\xff'
  faults 'lrat_check cannot be asked: word 2 of the call is not UTF-8: \xff/1.lrat' cubes check four.cnf two.txt $'\xff' 1
}

# Packed files, by each packer that is there: a record is of what was unpacked, and one that is cut
# off at its end is rejected by its name. None of the packers is needed but zstd, which is named
# where it is missing.
case_packed() {
  mkdir lean
  ln -s "$(python3 -c 'import sys; print(sys.executable)')" lean/python3
  for packer in 'gzip gz' 'xz xz' 'lzma lzma' 'bzip2 bz2' 'zstd zst'; do
    read -r tool end <<< "$packer"
    has "$tool" || continue
    mkdir "$end"
    for file in four.cnf three.cnf open_at_2.cnf two.txt both.icnf; do
      "$tool" -qc "$file" > "$file.$end"
      head -c -5 "$file.$end" > "cut.$file.$end"
    done
    for name in 1 2 closing; do
      "$tool" -qc "four/$name.lrat" > "$end/$name.lrat.$end"
    done
    says 0 '' cubes check "four.cnf.$end" "two.txt.$end" "$end" 1 2 closing
    says 0 "$all" cubes report four.cnf two.txt "$end"
    says 0 "$all" cubes report "four.cnf.$end" "both.icnf.$end" four
    says 1 '3 of 3 parts are not verified' bash -c 'cubes report "$1" two.txt four | tail -n 1; exit "${PIPESTATUS[0]}"' _ "three.cnf.$end"
    says 0 $'1\n2\nclosing' cubes names four.cnf "two.txt.$end"
    says 0 "$(cat four/2.cnf)" cubes part "four.cnf.$end" "two.txt.$end" 2
    says 0 '' cubes parts "four.cnf.$end" "two.txt.$end" "$end"
    holds "$end/closing.cnf" "$(cat four/closing.cnf)"
    rm "$end/1.lrat.$end"
    echo 0 | "$tool" -qc > "$end/1.drat.$end"
    says 0 '' cubes check four.cnf two.txt "$end" 1
    printf 's SATISFIABLE\nv 1 2 0\n' | "$tool" -qc > "$end/1.answer.$end"
    satisfies="1: $end/1.answer.$end satisfies the formula: s VERIFIED SAT"
    says 10 "$satisfies" cubes check "open_at_2.cnf.$end" two.txt "$end" 1
    # a packed proof of another part, and one that is cut off
    rm "$end"/1.*
    cp "$end/2.lrat.$end" "$end/1.lrat.$end"
    says 1 "1: $end/1.lrat.$end is rejected: proof: line 1: clause of a hint is not unit; it is a proof of 2" \
      cubes check --whose four.cnf two.txt "$end" 1
    "$tool" -qc four/1.lrat | head -c -5 > "$end/1.lrat.$end"
    status=0
    cubes check four.cnf two.txt "$end" 1 2 > said 2>&1 || status=$?
    if [[ $status != 1 || $(cat said) != "1: $end/1.lrat.$end is rejected: cannot unpack $end/1.lrat.$end: "* || $(wc -l < said) != 1 || -e $end/1.receipt ]]; then
      printf '%s, a proof that is cut off: status %d, %s\n' "$end" "$status" "$(cat said)"
      wrong=1
    fi
    says 0 1 cubes left four.cnf two.txt "$end"
    for call in names left report 'check 1'; do
      read -r -a words <<< "$call"
      [[ $call == names ]] || faults "cannot unpack cut.four.cnf.$end: " cubes "${words[0]}" "cut.four.cnf.$end" two.txt "$end" "${words[@]:1}"
      [[ $call == names ]] && folder=() || folder=("$end")
      faults "cannot unpack cut.two.txt.$end: " cubes "${words[0]}" four.cnf "cut.two.txt.$end" "${folder[@]}" "${words[@]:1}"
    done
    without=(env PATH="$work/bin:$work/lean")
    if [[ $tool == zstd ]]; then
      faults "cannot run $tool, which unpacks four.cnf.$end" "${without[@]}" cubes left "four.cnf.$end" two.txt four
      faults "cannot run $tool, which unpacks $end/2.lrat.$end" "${without[@]}" cubes check four.cnf two.txt "$end" 2
    else
      says 0 '' "${without[@]}" cubes check "four.cnf.$end" two.txt "$end" 2
    fi
    faults "cannot open none.cnf.$end: No such file or directory" cubes left "none.cnf.$end" two.txt four
  done
}

try_cases
