#!/usr/bin/env bash
# Files of sessions: what `tools/sessions` writes and may write, binary and packed proofs, long
# numbers, folders of recorded sessions, and the words of its calls.
set -euo pipefail
. "$(dirname "$0")/lib.sh"
# shellcheck source=SCRIPTDIR/sessions/setup.sh
. "$top/tests/sessions/setup.sh"

# The formula is the one of the worked rows in crates/refutation_rules/specs/SessionRows.antt.
case_written() {
  checks 0 '' sessions write two.icnf two.idrup made
  holds made/session.cnf $'p cnf 7 10\n4 6 0\n-4 3 0\n-5 3 0\n-3 -1 -2 0\n-4 1 0\n-4 2 0\n-6 5 0\n-7 5 0\n-5 1 0\n-6 2 0'
  holds made/session.drat $'-4 0\n-5 -2 0\n-6 0\n0'
  holds made/models.cnf $'p cnf 5 2\n-2 -5 0\n2 0'
  holds made/models.answer '2 -3 4 -5 0'
  checks 0 's VERIFIED UNSAT' drat_check made/session.cnf made/session.drat
  checks 0 's VERIFIED SAT' model_check made/models.cnf made/models.answer
  checks 0 '' sessions write two.icnf two.lidrup made
  checks 0 's VERIFIED UNSAT' lrat_check made/session.cnf made/session.lrat
}

# Binary proofs, by hand: long numbers, statuses with a blank or a line end, and all that can be
# malformed.
case_binary() {
  printf 'p icnf\ni 64 -300 0\ni 300 0\nq -64 0\ns UNSATISFIABLE\ni -64 0\n' > long.icnf
  many='all answers are shown: 0 satisfiable, 1 unsatisfiable, 0 unknown'
  printf 'p idrup\ni\x80\x01\xd9\x04\0i\xd8\x04\0q\x81\x01\0sUNSATISFIABLEu\x81\x01\0i\x81\x01\0' > long.idrup
  checks 0 "$many" sessions check long.icnf long.idrup
  printf 'p idrup\ni\x80\x01\xd9\x04\0i\xd8\x04\0q\x81\x01\0s UNSATISFIABLE\nu\x81\x01\0i\x81\x01\0' > long.idrup
  checks 0 "$many" sessions check long.icnf long.idrup
  printf 'p lidrup\ni\x80\x01\x80\x01\xd9\x04\0i\x05\xd8\x04\0q\x81\x01\0sUNSATISFIABLEu\x81\x01\0\x05\x80\x01\0i\x06\x81\x01\0' > long.lidrup
  checks 0 "$many" sessions check long.icnf long.lidrup
  for kind in idrup lidrup; do
    sed -i 1d "long.$kind"
    checks 0 "$many" sessions check long.icnf "long.$kind"
  done
  # malformed LINE BYTES: the proof ends with these in place of its conclusion, and they are
  # malformed
  malformed() {
    printf 'p idrup\ni\x80\x01\xd9\x04\0i\xd8\x04\0q\x81\x01\0sUNSATISFIABLE%b' "$1" > long.idrup
    checks 1 $'query 1 of line 4: no answer to it: proof: line 6: malformed\n1 of 1 answers are not shown' sessions check long.icnf long.idrup
  }
  malformed 'u\x81\x01'
  malformed 'u\x81\x01\x81\0'
  malformed 'u\x01\0'
  malformed '\x01\x02\0'
  malformed 'U\x80\0'
  malformed 'U\0'
  malformed 'u'
  # nine bytes may be a number, ten may not
  nine='\xff\xff\xff\xff\xff\xff\xff\xff\x7f'
  printf 'p idrup\ni\x80\x01\xd9\x04\0i\xd8\x04\0q\x81\x01\0sUNSATISFIABLEU%bu\x81\x01\0i\x81\x01\0' "$nine" > long.idrup
  checks 0 "$many" sessions check long.icnf long.idrup
  malformed "U\x80${nine}u\x81\x01\0"
  malformed "u\x80$nine\0"
  malformed "u$(printf '\\x81%.0s' {1..3000})\x01\0"
}

# A number without end is refused at its tenth byte, and not read for as long as it goes on: twenty
# times as much takes no longer.
case_endless_number() {
  for kind in d U u; do
    printf 'p idrup\ni\x80\x01\xd9\x04\0i\xd8\x04\0q\x81\x01\0sUNSATISFIABLE%s' "$kind" > endless.idrup
    head -c 2000000 /dev/zero | tr '\0' '\201' >> endless.idrup
    printf '\1\0' >> endless.idrup
    printf 'p icnf\ni 64 -300 0\ni 300 0\nq -64 0\ns UNSATISFIABLE\n' > long.icnf
    says 1 $'query 1 of line 4: no answer to it: proof: line 6: malformed\n1 of 1 answers are not shown' \
      timeout 20 sessions check long.icnf endless.idrup
  done
}

# Numbers of texts that are too long for one: the line is malformed, at any length.
case_long_numbers() {
  for length in 21 4300 4301 100000; do
    long=$(head -c "$length" /dev/zero | tr '\0' 1)
    for line in 3 4 6 9; do
      sed "${line}s/ 0\$/ $long 0/" two.icnf > changed.icnf
      says 1 "interaction: line $line: malformed" sessions check changed.icnf two.idrup
    done
    for line in 2 3 5 8; do
      sed "${line}s/ 0\$/ -$long 0/" two.idrup > changed.idrup
      if sessions check two.icnf changed.idrup > said 2> err || [[ $? != 1 || -s err || $(head -n 1 said) != *": no answer to it: proof: line $line: malformed" ]]; then
        fault "$length digits in line $line: $(head -c 300 said err)"
      fi
    done
    sed "12s/ 0\$/ -$long 0/" two.idrup > changed.idrup
    says 1 'proof: a word of a lemma that is no number' sessions check two.icnf changed.idrup
    for edit in "8s/^/U $long\n/" "9s/i 4/i $long/" "12s/ 1 0\$/ 1 $long 0/"; do
      sed "$edit" two.lidrup > changed.lidrup
      if sessions check two.icnf changed.lidrup > said 2> err || [[ $? != 1 || -s err || $(head -n 1 said) != *': no answer to it: proof: line '*': malformed' ]]; then
        fault "$length digits by ${edit:0:10}: $(head -c 300 said err)"
      fi
    done
  done
}

# A checker that answers nothing shows nothing, and one that can't be run is no answer at all.
case_checkers() {
  DRAT_CHECK=true checks 1 $'query 2 of line 7: its core is not shown: drat_check: ended with status 0
query 4 of line 13: its core is not shown: drat_check: ended with status 0\n2 of 4 answers are not shown' \
    sessions check two.icnf two.idrup
  DRAT_CHECK=./none checks 2 'cannot run ./none: No such file or directory' sessions check two.icnf two.idrup
  printf '#!/bin/sh\necho "no such option" >&2\nexit 2\n' > bin/unasked
  chmod +x bin/unasked
  DRAT_CHECK=unasked checks 2 'unasked cannot be asked: no such option' sessions check two.icnf two.idrup
  MODEL_CHECK=unasked checks 2 'unasked cannot be asked: no such option' sessions check two.icnf two.idrup
  # programs beside the script, ahead of those on PATH
  mkdir false
  as_installed sessions
  for program in drat_check lrat_check model_check; do
    cp -L "bin/$program" alone/bin
    printf '#!/bin/sh\nexit 1\n' > "false/$program"
    chmod +x "false/$program"
  done
  PATH=$work/false:$PATH checks 0 "$all" alone/bin/sessions check two.icnf two.idrup
  checks 2 'cannot open none.icnf: No such file or directory' sessions check none.icnf two.idrup
  in_binary 5
}

# A wrong word of a call is named, in one line; and what each call of this kind says.
case_words() {
  wrong_call() {
    checks 2 "$1 (sessions --help says how it is called)" sessions "${@:2}"
  }
  wrong_call 'check takes INTERACTION and PROOF, or folders' check two.icnf
  wrong_call 'check takes INTERACTION and PROOF, or folders' check two.icnf two.idrup made
  wrong_call 'write takes INTERACTION, PROOF and FOLDER' write two.icnf two.idrup
  wrong_call 'there is no option --deletions' check two.icnf --deletions two.idrup
  wrong_call 'there is no option -x' check -x two.icnf two.idrup
  wrong_call 'there is no option --halp' --halp
  wrong_call 'there is no call chek' chek two.icnf two.idrup
  wrong_call 'no call: check or write'
  version=$(sed -n 's/^const VERSION: &str = "\([^"]*\).*/\1/p' "$top/crates/command/src/status.rt")
  for flag in -V --version; do
    checks 0 "sessions $version" sessions "$flag"
  done
  for flag in -h --help; do
    checks 0 "$(sed -n '2,/^"""$/{s/^"""//; :a; /\\$/{N; s/\\\n//; ba}; p}' "$top/tools/sessions")" sessions "$flag"
  done

  cp two.idrup ./--no-deletions
  checks 0 "$all" sessions check -- two.icnf --no-deletions
}

# A folder of recorded sessions: its index names each, and all of each is there, or it is refused.
case_folder() {
  mkdir folder made
  for name in one two; do
    cp two.icnf "folder/$name.icnf"
    echo "$name" >> folder/sessions.index
  done
  cp two.idrup folder/one.idrup
  cp two.lidrup folder/two.lidrup
  checks 0 'all answers are shown: 2 satisfiable, 4 unsatisfiable, 2 unknown, in 2 sessions' sessions check folder
  checks 0 'all answers are shown: 4 satisfiable, 8 unsatisfiable, 4 unknown, in 4 sessions' sessions check folder --no-deletions folder/
  checks 2 'cannot open made/sessions.index: No such file or directory' sessions check folder made
  sed -i 's/^v -2 0/v 2 0/' folder/one.icnf
  sed -i 's/^p lidrup/p frat/' folder/two.lidrup
  checks 1 'folder/one.icnf: query 1 of line 4: its model does not have all that was told in line 6 (proof: line 5)
folder/one.icnf: 1 of 4 answers are not shown
folder/two.icnf: proof: line 1: the header is neither p idrup nor p lidrup
2 of 2 sessions have answers that are not shown' sessions check folder

  # refused FAULT EDIT: a copy of the folder after an edit in it is refused, and nothing is said on
  # standard output
  refused() {
    rm -rf copy
    cp -R folder copy
    (cd copy && eval "$2")
    checks 1 "copy: $1" sessions check copy
    if [[ $(sessions check copy 2> err) ]]; then
      echo "$2: something is said on standard output"
      wrong=1
    fi
  }
  cp two.icnf folder/one.icnf
  cp two.lidrup folder/two.lidrup
  refused $'two.icnf is not there\ncopy: two.idrup is not there' 'rm two.*'
  refused 'one.idrup is not there' 'rm one.idrup'
  refused 'two.icnf is not there' 'rm two.icnf'
  refused $'one.icnf is of no session that sessions.index names\ncopy: one.idrup is of no session that sessions.index names' 'sed -i 1d sessions.index'
  refused 'two.lidrup is of no session that sessions.index names' 'cp two.lidrup two.idrup'
  refused 'sessions.index names one twice' 'echo one >> sessions.index'
  refused 'sessions.index is cut off: thr' 'printf thr >> sessions.index'
  refused 'sessions.index names no session' 'rm one.* two.*; : > sessions.index'
  refused $'one.icnf is not there\ncopy: one.icnf.part: '"$unfinished" 'mv one.icnf one.icnf.part'
  refused "three.icnf.part: $unfinished" ': > three.icnf.part'
  # of four sessions one has its files
  for name in three four; do
    cp two.icnf "folder/$name.icnf"
    cp two.idrup "folder/$name.idrup"
    echo "$name" >> folder/sessions.index
  done
  checks 0 'all answers are shown: 4 satisfiable, 8 unsatisfiable, 4 unknown, in 4 sessions' sessions check folder
  refused $'four.icnf is not there\ncopy: four.idrup is not there\ncopy: three.icnf is not there\ncopy: three.idrup is not there
copy: two.icnf is not there\ncopy: two.idrup is not there' 'rm two.* three.* four.*'
}

# Packed files, by each packer that is there, also those of recorded sessions: one that is cut off
# at its end is a fault and is named, and so is a packer that is missing.
case_packed() {
  mkdir folder lean
  for name in one two three four; do
    cp two.icnf "folder/$name.icnf"
    cp two.idrup "folder/$name.idrup"
    echo "$name" >> folder/sessions.index
  done
  mv folder/two.idrup folder/two.lidrup
  cp two.lidrup folder
  ln -s "$(python3 -c 'import sys; print(sys.executable)')" lean/python3
  python3 -B "$top/tests/sessions/binary.py" two.lidrup two.binary
  for packer in 'gzip gz' 'xz xz' 'lzma lzma' 'bzip2 bz2' 'zstd zst'; do
    read -r tool end <<< "$packer"
    has "$tool" || continue
    edit two.idrup 's/^m 1 -2 0/m 1 2 0/'
    for file in two.icnf two.idrup two.lidrup two.binary changed.idrup; do
      "$tool" -qc "$file" > "$file.$end"
      head -c -5 "$file.$end" > "cut.$file.$end"
    done
    for kind in idrup lidrup binary; do
      says 0 "$all" sessions check "two.icnf.$end" "two.$kind.$end"
      says 0 "$all" sessions check two.icnf "two.$kind.$end"
      if sessions check two.icnf "cut.two.$kind.$end" > said 2> err || [[ $? != 1 || -s said || $(wc -l < err) != 1 || $(cat err) != "cannot unpack cut.two.$kind.$end: "* ]]; then
        echo "$end, a proof that is cut off: $(cat said err)"
        wrong=1
      fi
    done
    says 1 $'query 1 of line 4: its model does not have all that was told in line 6 (proof: line 5)\n1 of 4 answers are not shown' \
      sessions check "two.icnf.$end" "changed.idrup.$end"
    rm -rf made
    says 0 '' sessions write "two.icnf.$end" "two.idrup.$end" made
    holds made/session.drat $'-4 0\n-5 -2 0\n-6 0\n0'
    for words in "sessions check cut.two.icnf.$end two.idrup" "sessions write cut.two.icnf.$end two.idrup none"; do
      # shellcheck disable=SC2086
      if $words > said 2> err || [[ $? != 1 || -s said || -e none || $(cat err) != "cannot unpack cut.two.icnf.$end: "* ]]; then
        echo "$words: $(cat said err)"
        wrong=1
      fi
    done
    # (a packer is needed of zstd alone)
    without=(env PATH="$work/bin:$work/lean" sessions check "two.icnf.$end" two.idrup)
    if [[ $tool == zstd ]]; then
      says 2 "cannot run $tool, which unpacks two.icnf.$end" "${without[@]}"
    else
      says 0 "$all" "${without[@]}"
    fi
    says 2 "cannot open none.$end: No such file or directory" sessions check "none.$end" two.idrup
    rm -rf packed
    cp -R folder packed
    mv "two.icnf.$end" packed/one.icnf."$end"
    mv "two.lidrup.$end" packed/two.lidrup."$end"
    rm packed/one.icnf packed/two.lidrup
    says 0 'all answers are shown: 4 satisfiable, 8 unsatisfiable, 4 unknown, in 4 sessions' sessions check packed
    cp two.icnf packed/one.icnf
    says 1 "packed: one.icnf.$end is of no session that sessions.index names" sessions check packed
    rm packed/one.icnf
    cp "cut.two.icnf.$end" "packed/one.icnf.$end"
    if sessions check packed > said 2>&1 || [[ $(head -n 1 said) != "packed/one.icnf.$end: cannot unpack packed/one.icnf.$end: "* || $(tail -n 1 said) != '1 of 4 sessions have'* ]]; then
      echo "$end, a recorded session that is cut off: $(cat said)"
      wrong=1
    fi
  done
}

# No file that is read is written over, by whatever name, here and by `proof_picture`.
case_outputs() {
  python3 -B "$top/tests/sessions/outputs.py" "$top/tools" || wrong=1
}

try_cases
