#!/usr/bin/env bash
# A DRAT proof that is cut and checked at once, by `pieces run`: many pieces at a time, or the last
# one first; pieces that wait; files that are packed, written over or no DRAT; and checkers that end
# otherwise than they should.
set -euo pipefail
. "$(dirname "$0")/lib.sh"
# shellcheck source=SCRIPTDIR/pieces/setup.sh
. "$top/tests/pieces/setup.sh"

# Cut and checked at once: a verified piece is deleted, one that is rejected stays.
case_run() {
  says 0 "$whole" pieces run eight.cnf - ran --lemmas 1 --jobs 2 < eight.drat
  says 0 $'1.receipt\n2.receipt\ncount\ncut' ls ran
  fails 1 '2: ran/2.drat is rejected' pieces run eight.cnf weak.drat ran --lemmas 1
  says 0 $'1.receipt\n2.cnf\n2.drat\ncount\ncut' ls ran
}

# What is killed, ends early or says something else is not verified, and is named.
case_lies() {
  for lie in 'kill -KILL $$' 'exit 0' 'echo s VERIFIED; exit 0' 'echo s VERIFIED PIECE; exit 1' 'echo s VERIFIED UNSAT; exit 3'; do
    printf '#!/bin/sh\ncase $2 in */1.drat) %s ;; esac\nexec drat_check "$@"\n' "$lie" > bin/lies
    chmod +x bin/lies
    DRAT_CHECK=lies fails 1 '1: ran/1.drat is rejected: ' pieces run eight.cnf eight.drat ran --lemmas 1
  done
}

# told COMMAND..: it must end well, and write these lines to standard error, in any order
told() {
  "${@:2}" > said 2> err || { cat err; wrong=1; }
  holds <(sort err) "$1"
}

# A line for a piece that is verified, where it is asked for and on a terminal.
case_verbose() {
  both=$'1: verified\n2: verified'
  told '' pieces check eight.cnf two 1 2
  told "$both" pieces check --verbose eight.cnf two 1 2
  told '' pieces run eight.cnf eight.drat ran --lemmas 1
  told "$both" pieces run eight.cnf eight.drat ran --lemmas 1 --verbose
  told "$both" pieces run eight.cnf eight.drat ran --lemmas 1 --memory --verbose
  pieces check --verbose seven.cnf two 1 2 > said 2> err || true
  holds err '2: verified'
  fails 0 '1: verified' python3 -c 'import pty, sys; sys.exit(pty.spawn(sys.argv[1:]) >> 8)' pieces run eight.cnf eight.drat ran --lemmas 1
}

# asks LEAST MOST COMMAND..: with these words the cutter is asked for so many lemmas a piece; for
# none where LEAST is -
asks() {
  rm -f asked
  DRAT_CUT=asked_cut "${@:3}" > said 2> err || true
  found=$(sed -n 's/.*--lemmas \([0-9]*\)$/\1/p' asked)
  if [[ $1 == - && $found ]] || { [[ $1 != - ]] && ! ((found >= $1 && found <= $2)); }; then
    printf '%s: the cutter was asked for %s\n' "${*:3}" "$(cat asked)"
    wrong=1
  fi
}

# The pieces are a multiple of the jobs, near to 20000 lemmas, by the size of the proof: here of
# 80000 lemmas, at the end of which only deletions follow, and in the binary form 40000. One of few
# lemmas is not cut further.
case_count() {
  solver asked_cut <<< "echo \"\$*\" > $work/asked; exit 1"
  { yes '1 2 0' | head -n 80000; yes 'd 1 2 0' | head -n 300000; } > long.drat || true
  python3 -c 'import sys; sys.stdout.buffer.write(b"a\2\4\0d\2\4\0" * 40000)' > long.binary
  asks 9400 10600 pieces run eight.cnf long.drat ran --jobs 4
  asks 19000 21000 pieces run eight.cnf long.drat ran --jobs 2
  asks 19000 21000 pieces run eight.cnf long.drat ran --jobs 1
  asks 4950 5050 pieces run eight.cnf long.binary ran --jobs 4
  asks 1000 1000 pieces run eight.cnf eight.drat ran --jobs 4
  asks 7 7 pieces run eight.cnf long.drat ran --jobs 4 --lemmas 7
  asks - - pieces run eight.cnf - ran --jobs 4 < long.drat
  asks - - pieces run eight.cnf long.drat ran --memory
  asks - - pieces cut eight.cnf long.drat ran
}

# Without --jobs no more run than the processors of the process.
case_jobs() {
  only_with taskset
  printf '#!/bin/sh\necho begin >> order\nsleep 0.3\ndrat_check "$@"\nstatus=$?\necho end >> order\nexit $status\n' > bin/in_order
  chmod +x bin/in_order
  processor=$(taskset -pc $$ | sed 's/.*: \([0-9]*\).*/\1/')
  DRAT_CHECK=in_order says 0 "$whole" taskset -c "$processor" pieces run eight.cnf eight.drat ran --lemmas 1
  holds order $'begin\nend\nbegin\nend'
}

# The last piece first: each shows what the one behind it has used, and no more. A lemma that is
# wrong and that no piece needs is rejected where all that lives is shown.
case_memory() {
  says 0 "$whole" pieces run eight.cnf eight.drat last --lemmas 1 --memory
  says 0 $'1.receipt\n2.receipt\ncount\ncut' ls last
  DRAT_CUT=./none DRAT_CHECK=./none says 0 "$whole" pieces run eight.cnf eight.drat last --lemmas 1 --memory
  says 0 "$whole" pieces run eight.cnf - last --lemmas 1 --memory < eight.drat
  fails 1 '2: last/2.drat is rejected' pieces run eight.cnf weak.drat last --lemmas 1 --memory
  says 0 $'1.cnf\n1.drat\n2.cnf\n2.drat\ncount\ncut' ls last
  { cat eight.cnf; printf '4 5 0\n4 -5 6 0\n'; } | sed 's/^p cnf 3 9/p cnf 6 11/' > more.cnf
  { echo '-4 0'; cat eight.drat; } > unneeded.drat
  fails 1 '1: ran/1.drat is rejected' pieces run more.cnf unneeded.drat ran --lemmas 1 --live 100
  says 0 "$whole" pieces run more.cnf unneeded.drat last --lemmas 1 --live 100 --memory
  says 2 'cannot open none.cnf: No such file or directory' pieces run none.cnf eight.drat last --memory
}

# What is no whole list of clauses is not taken for what a piece has used, whatever the checker says
# of it.
case_cores() {
  for damage in '$d' '1s/ [0-9]*$/ 1000/' '$s/ 0$//' 1d; do
    printf '%s\n' '#!/bin/sh' 'drat_check "$@" || exit' 'for core; do :; done' "sed -i '$damage' \"\$core\"" > bin/cuts_off
    chmod +x bin/cuts_off
    DRAT_CHECK=cuts_off says 1 $'2: last/2.drat is rejected: the clauses that it used are not whole\n1: not verified\n2: not verified\n2 of 2 pieces are not verified' \
      pieces run eight.cnf eight.drat last --lemmas 1 --memory
  done
  printf '#!/bin/sh\necho s VERIFIED UNSAT\n' > bin/cuts_off
  DRAT_CHECK=cuts_off fails 1 'the clauses that it used are not whole' pieces run eight.cnf eight.drat last --lemmas 1 --memory
}

# Of clauses that stand twice the core has one, and the steps delete one: so a piece is checked anew
# over all that lived before it.
case_twice() {
  printf '1 2 0\n1 2 0\n1 -2 0\n-1 2 0\n-1 -2 0\n' > twice.cnf
  printf '5 1 2 0\n6 1 2 0\n7 1 2 0\nd 7 1 2 0\n8 1 2 0\n9 1 2 0\n10 1 2 0\nd 1 2 0\n1 0\n0\n' > twice.drat
  printf '#!/bin/sh\n[ "$1" != twice.cnf ] || exit 9\nexec drat_check "$@"\n' > bin/not_the_first
  chmod +x bin/not_the_first
  anew=(pieces run twice.cnf twice.drat twice --lemmas 1 --live 100 --memory)
  DRAT_CHECK=not_the_first fails 1 '1: twice/1.drat is rejected: not_the_first ended with status 9' "${anew[@]}"
  rm twice/2.receipt
  says 0 's VERIFIED UNSAT BY 3 RECEIPTS' "${anew[@]}"
  says 0 $'1.receipt\n2.receipt\n3.receipt\ncount\ncut' ls twice
}

# No input is written over, by whatever name; a record is no other file; and a file named - is a
# file where a formula is named.
case_overwrites() {
  python3 -B "$top/tests/pieces/overwrites.py" pieces || wrong=1
  mkdir own
  cp eight.drat own/7.drat
  cp eight.cnf own/-
  (
    cd own
    says 2 'cannot write ./7.drat: it is a file that is read, 7.drat' pieces cut - 7.drat .
    says 2 'cannot write ./7.drat: it is a file that is read, standard input' pieces run - - . < 7.drat
    says 0 'cut into 2 pieces' pieces cut - 7.drat cut --lemmas 1
    says 0 'cut into 2 pieces' pieces cut --lemmas 1 -- - ../eight.drat -f
    says 0 '' pieces check -- - -f 1 2
    says 0 "$whole" pieces run - - ran --lemmas 1 < 7.drat
    exit "$wrong"
  ) < short || wrong=1
  holds own/7.drat "$(cat eight.drat)"
  "${cut[@]}" > said
  echo theirs > two/1.receipt
  faults 'cannot write two/1.receipt: there is a file that pieces did not write' pieces check eight.cnf two 2 1
  holds two/1.receipt theirs
  rm two/1.receipt
}

# FRAT is named, before anything is deleted or written.
case_frat() {
  printf 'c of a solver\n\n o 1 1 2 3 0\n' > comment.frat
  printf 'o\2\2\4\6\0' > bytes.frat
  for proof in text comment bytes; do
    for call in cut run; do
      faults "$proof.frat begins as FRAT: DRAT and DPR are cut, FRAT is not" pieces "$call" eight.cnf "$proof.frat" two
      faults 'standard input begins as FRAT' pieces "$call" eight.cnf - two < "$proof.frat"
    done
    faults "$proof.frat begins as FRAT" pieces run eight.cnf "$proof.frat" two --memory
  done
  says 0 2 cat two/count
}

# Packed files, by each packer that is there: records are of what was unpacked, one that is cut off
# at its end is named, and there is no verdict, also where what is cut off is behind the last step
# that is needed. None of the packers is needed but zstd, which is named where it is missing.
case_packed() {
  mkdir lean
  ln -s "$(python3 -c 'import sys; print(sys.executable)')" lean/python3
  { cat eight.drat; yes '1 0' | head -n 200000; } > eight.long || true
  for packer in 'gzip gz' 'xz xz' 'lzma lzma' 'bzip2 bz2' 'zstd zst'; do
    read -r tool end <<< "$packer"
    has "$tool" || continue
    for file in eight.cnf seven.cnf malformed.cnf eight.drat weak.drat eight.long text.frat; do
      "$tool" -qc "$file" > "$file.$end"
      head -c -5 "$file.$end" > "cut.$file.$end"
    done
    packed=("eight.cnf.$end" "eight.drat.$end" "$end" --lemmas 1)
    says 0 'cut into 2 pieces' pieces cut "${packed[@]}"
    for file in 1.cnf 1.drat 2.cnf 2.drat; do
      holds "$end/$file" "$(cat "two/$file")"
    done
    says 0 '' pieces check "eight.cnf.$end" "$end" 2 1
    says 0 "$whole" pieces report eight.cnf "$end"
    says 0 "$whole" pieces report "eight.cnf.$end" two
    says 1 $'1: what is kept is of another formula\n1 of 2 pieces are not verified' pieces report "seven.cnf.$end" two
    says 0 "$whole" pieces run "${packed[@]}"
    says 0 "$whole" pieces run eight.cnf "eight.long.$end" "$end" --lemmas 1 --jobs 1 --ahead 0
    says 0 "$whole" pieces run "${packed[@]}" --memory
    DRAT_CUT=./none DRAT_CHECK=./none says 0 "$whole" pieces run "${packed[@]}" --memory
    for way in '' --memory; do
      # shellcheck disable=SC2086
      fails 1 'is rejected' pieces run "seven.cnf.$end" "eight.drat.$end" "$end" --lemmas 1 $way
      # shellcheck disable=SC2086
      fails 1 "2: $end/2.drat is rejected" pieces run eight.cnf "weak.drat.$end" "$end" --lemmas 1 $way
      for proof in eight.drat eight.long; do
        # shellcheck disable=SC2086
        fails 2 "cannot unpack cut.$proof.$end: " pieces run eight.cnf "cut.$proof.$end" "$end" --lemmas 1 $way
        ! pieces report eight.cnf "$end" > said 2>&1 || unverified "$(cat said)"
      done
    done
    faults "cannot unpack cut.eight.drat.$end: " pieces cut eight.cnf "cut.eight.drat.$end" "$end" --lemmas 1
    # what is not packed at all, and FRAT, are found before anything is deleted
    says 0 'cut into 2 pieces' pieces cut "${packed[@]}"
    cp eight.drat "plain.drat.$end"
    faults "cannot unpack plain.drat.$end: " pieces run eight.cnf "plain.drat.$end" "$end"
    faults "text.frat.$end begins as FRAT" pieces run eight.cnf "text.frat.$end" "$end"
    says 0 2 cat "$end/count"
    for call in "cut F eight.drat $end" "run F eight.drat $end" "check F $end 1" "left F $end" "report F $end"; do
      read -r -a words <<< "${call/F/cut.eight.cnf.$end}"
      faults "cannot unpack cut.eight.cnf.$end: " pieces "${words[@]}"
    done
    fails 2 "is malformed.cnf.$end; standard input is eight.drat.$end" pieces cut "malformed.cnf.$end" "eight.drat.$end" "$end"
    without=(env PATH="$work/bin:$work/lean")
    if [[ $tool == zstd ]]; then
      faults "cannot run $tool, which unpacks eight.cnf.$end" "${without[@]}" pieces report "eight.cnf.$end" two
      faults "cannot run $tool, which unpacks eight.drat.$end" "${without[@]}" pieces run eight.cnf "eight.drat.$end" two
    else
      says 0 "$whole" "${without[@]}" pieces run "eight.cnf.$end" "eight.drat.$end" "$end" --lemmas 1
    fi
    faults "cannot open none.drat.$end: No such file or directory" pieces run eight.cnf "none.drat.$end" two
  done
  if [[ $(ls room) ]]; then
    echo "of packed files it is left: $(ls room)"
    wrong=1
  fi
}

# A proof with witnesses, in pieces: pigeons exchange their holes, and what says so is deleted once
# a pigeon has left the last hole.
case_exchanges() {
  python3 -B "$top/tests/drat/formulas.py" pigeons 6 > pigeons.cnf
  python3 -B "$top/tests/drat/formulas.py" exchanges 6 |
    awk 'NF == 7 { gone = gone "d " $1 " " $2 " 0\n" } { print } NF == 2 { printf "%s", gone; gone = "" }' > exchanges
  says 0 's VERIFIED UNSAT' drat_check pigeons.cnf exchanges
  fails 0 's VERIFIED UNSAT BY ' pieces run pigeons.cnf exchanges exchanged --lemmas 10 --live 100000
  fails 0 's VERIFIED UNSAT BY ' pieces run pigeons.cnf exchanges backward --lemmas 10 --live 100000 --memory
  if (($(cat exchanged/count) < 3)); then
    echo "the proof with witnesses is not cut"
    wrong=1
  fi
  fails 1 'is rejected' pieces run pigeons.cnf exchanges plain --lemmas 10 --live 100000 --drat
}

# A proof with definitions, in pieces: Cook's, of the pigeonhole.
case_definitions() {
  fails 0 's VERIFIED UNSAT BY ' pieces run formula.cnf cook.drat cook --lemmas 50 --live 100000
  fails 0 's VERIFIED UNSAT BY ' pieces run formula.cnf cook.drat backward --lemmas 50 --live 100000 --memory
  if (($(cat cook/count) < 3)); then
    echo "the proof by definitions is not cut"
    wrong=1
  fi
}

# With the last piece first an interrupted run goes on: what is verified stays so where the clauses
# before it are those that it has used, and a damage to clauses between two pieces is rejected by
# one of them. Of another proof or formula, or cut by other options, nothing is kept.
case_goes_on() {
  solver stops << END
case \$1 in last/\$(cat $work/stop).cnf) exit 9 ;; esac
echo "\$1" >> $work/tried
exec drat_check "\$@"
END
  backward=(pieces run formula.cnf cook.drat last --lemmas 50 --live 100000 --memory)
  # stopped: all pieces behind the third are verified
  stopped() {
    echo 3 > stop
    rm -rf last
    DRAT_CHECK=stops fails 1 '3: last/3.drat is rejected: stops ended with status 9' "${backward[@]}"
    echo 0 > stop
    rm tried
  }
  # goes_on STATUS WORDS: it ends so
  goes_on() {
    DRAT_CHECK=stops fails "$1" "$2" "${backward[@]}"
  }
  refuted='s VERIFIED UNSAT BY '
  stopped
  goes_on 0 "$refuted"
  holds tried $'last/3.cnf\nlast/2.cnf\nformula.cnf'
  # as_core: what lived before the fourth piece is damaged as its core is
  as_core() {
    cp last/4.cnf last/4.all
  }
  # turns FILE LINES: of the clauses in these lines the first literal is turned
  turns() {
    sed -i "$2s/^/-/; $2s/^--//" "$1"
  }
  stopped
  turns last/4.cnf 2
  as_core
  goes_on 1 '4: last/4.drat is rejected'
  stopped
  sed -i 2d last/4.cnf
  as_core
  goes_on 1 '4: last/4.drat is rejected'
  # where it is whole, the core is made anew
  stopped
  turns last/4.cnf 2
  goes_on 0 "$refuted"
  holds tried $'last/4.all\nlast/3.cnf\nlast/2.cnf\nformula.cnf'
  stopped
  turns last/3.cnf '2,$'
  goes_on 1 'pieces are not verified'
  # a clause too many, which piece 4 does not use
  stopped
  echo '1000 0' >> last/4.cnf
  goes_on 0 "$refuted"
  holds tried $'last/4.all\nlast/3.cnf\nlast/2.cnf\nformula.cnf'
  # the clauses have taken their place, and the record is not written, or is of others
  stopped
  rm last/4.receipt
  goes_on 0 "$refuted"
  stopped
  sed -i 's/sha256 [0-9a-f]*/sha256 0000000000000000000000000000000000000000000000000000000000000000/' last/4.receipt
  goes_on 0 "$refuted"
  holds tried $'last/4.all\nlast/3.cnf\nlast/2.cnf\nformula.cnf'
  stopped
  fails 0 "$refuted" pieces run formula.cnf cook.drat last --lemmas 100 --live 100000 --memory
  stopped
  sed '2s/ 0$/ 1000 0/' formula.cnf > wider.cnf
  fails 1 'is rejected' pieces run wider.cnf cook.drat last --lemmas 50 --live 100000 --memory
  stopped
  fails 1 'is rejected' pieces run formula.cnf eight.drat last --lemmas 50 --live 100000 --memory
}

# Where pieces wait, no more of the proof is under way than three portions of 4 kB: what is handed
# on, in the pipe, and in the cutter.
case_waiting() {
  python3 -B "$top/tests/drat/formulas.py" pigeons 20 > twenty.cnf
  python3 -B "$top/tests/drat/formulas.py" extended 20 > twenty.drat
  lengths=(--lemmas 300 --live 100000)
  pieces cut twenty.cnf twenty.drat whole "${lengths[@]}" > said
  smallest=$(find whole -name '*.drat' ! -name "$(cat whole/count).drat" -printf '%s\n' | sort -n | sed -n 1p)
  solver slow_check << END
ls $work/twenty | grep -c 'drat$' >> $work/waiting
sleep 0.1
exec drat_check "\$@"
END
  rm -f waiting
  DRAT_CHECK=slow_check fails 0 's VERIFIED UNSAT BY ' pieces run twenty.cnf twenty.drat twenty "${lengths[@]}" --jobs 1 --ahead 1
  # (one is checked and one waits; the first byte of what is under way may end a piece, and each
  # further one has as many bytes as the smallest)
  most=$((1 + 1 + 1 + 3 * 4096 / smallest))
  if (($(cat twenty/count) < 80 || $(sort -n waiting | tail -n 1) > most)); then
    printf '%d pieces, of which so many were there, at most %d: %s\n' "$(cat twenty/count)" "$most" "$(tr '\n' ' ' < waiting)"
    wrong=1
  fi
}

try_cases
