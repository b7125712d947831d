#!/usr/bin/env bash
# `dist/`: its files have the sums that its PROVED says; it is of these sources, and linked as `rt` links it gives the programs that are
# built here, byte for byte; a C compiler builds it where there is no toolchain, its programs verify and refuse, and FORMATS.md has their
# calls. In a root of its own that has a C compiler, python3 and a solver, README's installation runs word for word, and then the commands of
# README.md, docs/USING.md and docs/PORT.md. A folder that was changed, or is of an older commit, is refused.
#
#   tests/dist.sh [DIST]    with another folder that tools/dist.sh made in the place of `dist/`
#
# The programs must be built: with them are compared those of `dist/`, if both are by one toolchain.
# needs: all
set -euo pipefail
. "$(dirname "$0")/lib.sh"
dist=$(realpath "${1:-$top/dist}")
read -r -a names < <(sed -n 's/^PROGRAMS = //p' "$dist/Makefile")
commit=$(sed -n 's/^commit  *//p' "$dist/PROVED")

# unlike FOLDER: the files there that are not those of its PROVED; what `make` left there is none
unlike() {
  (cd "$1" && grep -E '^[0-9a-f]{64}  [^ ]+$' PROVED > "$work/sums" || true
  cd "$1" && sha256sum -c "$work/sums" 2> "$work/said" | sed -n 's/: FAILED.*//p'
  cd "$1" && find . -mindepth 1 -printf '%P\n' | grep -vxF -e PROVED "${names[@]/#/-e}" -f <(cut -d ' ' -f 3 "$work/sums")) || true
}

# changed_to FILE COMMAND..: in `$work/changed` a copy in which the command has rewritten this file, with its new sum in PROVED
changed_to() {
  rm -rf "$work/changed"
  cp -R "$dist" "$work/changed"
  (cd "$work/changed" && "${@:2}" < "$dist/$1" > "$1" && sed -i "s|^[0-9a-f]*  $1\$|$(sha256sum < "$1" | cut -d ' ' -f 1)  $1|" PROVED)
}

case_sums() {
  same 'files that are not those of PROVED' '' "$(unlike "$dist")"
  for file in "${names[@]/%/.S}" rt.c Makefile; do
    rm -rf "$work/changed"
    cp -R "$dist" "$work/changed"
    echo >> "$work/changed/$file"
    same 'a file that was changed' "$file" "$(unlike "$work/changed")"
    rm "$work/changed/$file"
    same 'a file that is missing' "$file" "$(unlike "$work/changed")"
  done
  cp -R "$dist/." "$work/changed"
  touch "$work/changed/more.S"
  same 'a file that is not listed' more.S "$(unlike "$work/changed")"
}

# All programs are there, and a test run that passed is said.
case_programs() {
  same 'the programs' "$(sed -n 's/^\([a-z0-9_]*\)_main:.*/\1/p' "$top/crates.txt" | sort)" "$(printf '%s\n' "${names[@]}" | sort)"
  same 'the last line of the test run' 1 "$(sed -n '/^test run/,/^$/p' "$dist/PROVED" | grep -cE '^ +[0-9]+ passed, 0 failed$' || true)"
  for file in rt.c Makefile; do
    cmp "$dist/$file" "$(find "$top/tools/release" -name "$file")" || wrong=1
  done
}

# older FOLDER: why a folder is not of the sources that are here
older() {
  local its
  its=$(sed -n 's/^commit  *//p' "$1/PROVED")
  if [[ ! $its =~ ^[0-9a-f]{40}$ ]]; then
    echo "dist/ is of no commit: $its"
  elif ! git -C "$top" merge-base --is-ancestor "$its" HEAD 2> "$work/said"; then
    echo "dist/ is of $its, which is no commit below this one"
  elif ! git -C "$top" diff --quiet "$its" -- "${sources[@]}"; then
    echo "dist/ is of $its, and the programs changed since: tools/dist.sh dist GATE, in a commit of its own"
  fi
}

# It is of a commit since which no source of a program has changed; the parent of the last one that changed some is older.
case_sources() {
  git -C "$top" rev-parse HEAD > "$work/said" 2>&1 || untried 'no history here'
  sources=(crates.txt ':(glob)crates/*/src/**' tools/release/{assembly.py,rt.c,dist})
  same 'what is older' '' "$(older "$dist")"
  before=$(git -C "$top" log -1 --format=%P -- "${sources[@]}" | cut -d ' ' -f 1)
  changed_to PROVED sed "s/^commit .*/commit      $before/"
  same 'an older dist/' "dist/ is of $before, and the programs changed since: tools/dist.sh dist GATE, in a commit of its own" "$(older "$work/changed")"
  changed_to PROVED sed 's/^commit .*/commit      0123456789012345678901234567890123456789/'
  same 'a commit that is not there' 'dist/ is of 0123456789012345678901234567890123456789, which is no commit below this one' "$(older "$work/changed")"
}

# by_which PROVED: the toolchain by which programs are proved
by_which() {
  sed -n '/^toolchain /,/^[^ ]/{ /^toolchain \|^ /p }' "$1"
}

# Each text gives the program as it is built here, which the run before this one has proved, perhaps from what was kept. One with another
# number, with its sum in PROVED, does not; nor one that has the stamp of another commit, or more than the text of its object.
case_built() {
  only_with rt
  needs "${names[@]}"
  # shellcheck source=tools/release/proved.sh
  . "$top/tools/release/proved.sh"
  record_head 0 '' > "$work/head"
  if [[ $(by_which "$dist/PROVED") != "$(by_which "$work/head")" ]]; then
    untried "dist/ is by another toolchain than $(head -n 1 "$kit/KIT-ID"), which is here: its programs are not compared"
  fi
  stamp=$(stamp_of "$commit")
  for name in "${names[@]}"; do
    is_proved_here "$name" "$(built "$name")" || wrong=1
    same "$name of dist/, compared with the program that is built here" '' "$(unlike_built "$dist/$name.S" "$(built "$name")" "$stamp")"
  done
  name=lrat_check
  number=$(grep -n '^\.quad 0x[^,]*,' "$dist/$name.S" | tail -n 1 | cut -d : -f 1)
  changed_to $name.S sed "$number s/ 0x[^,]*/ 0x1234567/"
  same 'sums of a text with another number' '' "$(unlike "$work/changed")"
  same 'a text with another number' 'it does not give the program as it is built' "$(unlike_built "$work/changed/$name.S" "$(built $name)" "$stamp")"
  changed_to $name.S sed '$a#ifdef OTHER\n.error "other"\n#endif'
  same 'a text with more' 'it is not the text of the object that it gives' "$(unlike_built "$work/changed/$name.S" "$(built $name)" "$stamp")"
  same 'a text with another stamp' "$work/text.o: 'commit 00000000000' stands there 0 times, and once is needed, for 'built from sources'" \
    "$(unlike_built "$dist/$name.S" "$(built $name)" 'commit 00000000000')"
  same 'the text of another program' 'it does not give the program as it is built' "$(unlike_built "$dist/$name.S" "$(built drat_check)" "$stamp")"
}

# What a version of it adds to the packed repository, if it has nothing in common with an earlier one.
case_size() {
  only_with git
  git init -q "$work/objects"
  for file in "$dist"/*.S; do
    echo "$(git -C "$work/objects" hash-object -w --no-filters "$file") ${file##*/}"
  done > "$work/list"
  size=$(git -C "$work/objects" pack-objects -q --stdout --window=50 < "$work/list" | wc -c)
  echo "dist/ adds at most $size bytes to the packed repository"
  ((size <= 3000000)) || fault "more than 3,000,000"
}

# Words are overwritten that stand once, by as many bytes.
case_stamp() {
  for row in '0:version' '1:one two' '2:one one'; do
    echo "${row#*:}" > "$work/text"
    says 1 "$work/text: 'one' stands there ${row%%:*} times, and once is needed, for 'four'" "$top/tools/release/stamp.py" "$work/text" one four
    same 'what is left' "${row#*:}" "$(cat "$work/text")"
  done
  echo 'one two' > "$work/text"
  says 0 '' "$top/tools/release/stamp.py" "$work/text" one six
  same 'what is written' 'six two' "$(cat "$work/text")"
}

# An object that refers to an empty section: what is assembled of its text gives the text again.
case_empty_section() {
  printf '.text\n.globl f\nf:\n.long .Lnothing-.\n.section .rodata.nothing,"a",@progbits\n.balign 8\n.Lnothing:\n' > "$work/empty.s"
  for name in empty again; do
    cc -c -o "$work/$name.o" "$work/$name.s"
    python3 -B "$top/tools/release/assembly.py" "$work/$name.o" > "$work/again.s" || wrong=1
    cp "$work/again.s" "$work/$name.text"
  done
  same 'an empty section' "$(cat "$work/empty.text")" "$(cat "$work/again.text")"
  same 'its section' 1 "$(grep -c '^\.section "\.rodata\.nothing"' "$work/again.text")"
}

# A checkout without crates/; and what its programs are given: a formula that can't be satisfied, with its proofs, and one that can be.
room=$work/room
mkdir "$room"
(cd "$top" && git ls-files -z --cached --others --exclude-standard -- install.sh README.md crates.txt docs lib tools tests | tar -c --null -T -) | tar -x -C "$room"
mkdir "$room/dist"
cp "$dist"/{*.S,rt.c,Makefile,PROVED} "$room/dist/"
mkdir "$room/files"
printf 'p cnf 2 4\n1 2 0\n1 -2 0\n-1 2 0\n-1 -2 0\n' > "$room/files/four.cnf"
printf '1 0\n0\n' > "$room/files/four.drat"
printf '5 1 0 1 2 0\n6 0 5 3 4 0\n' > "$room/files/four.lrat"
printf '\x06\x00\x01\x00\x02\xaa\x90\xd4\x94\xb0\xb2\xdd\xd7\xc4\x01\xc1\x98\x8e\x93\xc8\xea\xff\xf3\x66' > "$room/files/four.proof"
printf '\x06\x00\x00\x02\x95\x98\xae\x9a\xa8\xcb\xff\xeb\x66\xfe\x90\xf4\x9d\xd0\x93\xdd\xcf\xc4\x01\x0d' >> "$room/files/four.proof"
printf 'p cnf 2 1\n1 2 0\n' > "$room/files/one.cnf"
printf 's SATISFIABLE\nv 1 2 0\n' > "$room/files/one.answer"
printf -- '-1 -2 0\n-1 2 0\n1 -2 0\n1 2 0\n' > "$room/files/four.models"
# two circuits of one gate, and a proof that they are the same
printf 'aig 3 2 0 1 1\n6\n\2\2' | tee "$room/files/one.aig" > "$room/files/other.aig"
printf -- '-5 0\n4 0\n3 0\n2 0\n0\n' > "$room/files/same.drat"
# the receipt of the formula, by what another program says of its text
echo "refuted sha256 $(sha256sum < "$room/files/four.cnf" | cut -d ' ' -f 1)" > "$room/files/four.receipt"
printf 'p icnf\ni 1 0\nq -1 0\ns UNSATISFIABLE\n' > "$room/files/session.icnf"
printf 'p lidrup\ni 1 1 0\nq -1 0\ns UNSATISFIABLE\nu -1 0 1 0\n' > "$room/files/session.lidrup"
cat > "$work/rows" << 'END'
varisat_check: s UNSATISFIABLE 0
varisat_check four.cnf four.proof: s UNSATISFIABLE 0
varisat_check one.cnf four.proof:  1
drat_check four.cnf four.drat: s VERIFIED UNSAT 0
drat_check one.cnf four.drat:  1
lrat_check four.cnf four.lrat: s VERIFIED UNSAT 0
lrat_check one.cnf four.lrat:  1
hint_check four.cnf four.lrat: s VERIFIED UNSAT 0
hint_check one.cnf four.lrat:  1
model_check one.cnf one.answer: s VERIFIED SAT 0
model_check four.cnf one.answer: s NOT VERIFIED 3
follows_check four.cnf one.cnf four.drat: s VERIFIED FOLLOWS 20
follows_check one.cnf four.cnf four.drat:  1
minimal_check four.cnf four.drat four.models: s VERIFIED MINIMAL 0
minimal_check four.cnf four.drat one.cnf: s NOT VERIFIED 3
join_check four.cnf four.receipt: s VERIFIED UNSAT BY 1 RECEIPTS 0
join_check one.cnf four.receipt: s NOT VERIFIED 3
circuit_check same one.aig other.aig --proof same.drat: s VERIFIED SAME 0
circuit_check never one.aig --proof same.drat:  1
session_check session.icnf session.lidrup: all answers are shown: 0 satisfiable, 1 unsatisfiable, 0 unknown 0
drat_cut four.cnf four.drat cut --lemmas 1: piece 1: 1 lemmas, 5 clauses live behind it 0
lrat_to_proof four.cnf four.lrat made.proof:  0
END
verdicts=$(< "$work/rows")
sed 's/: .*//' "$work/rows" > "$room/files/list"
cat > "$room/files/calls" << 'END'
while read -r call; do
  lines=$(../dist/$call 2> said) && status=0 || status=$?
  echo "$call: $(echo "$lines" | tail -n 1) $status"
done < list
END
# a solver that claims each formula to be unsatisfiable
printf '#!/bin/sh\nprintf "1 0\\n0\\n" > "$2"\nexit 20\n' > "$room/files/solver"
chmod +x "$room/files/solver"

# In a path that has `cc` and `make`; then each program says its call as FORMATS.md has it, its version and its commit, and the scripts find
# the programs where they are built.
case_build() {
  only_with make readelf
  mkdir "$work/path"
  for name in cc as ld make; do
    ln -s "$(command -v "$name")" "$work/path/$name"
  done
  same 'the build' '' "$(cd "$room/dist" && env -i PATH="$work/path" make -s 2>&1)"
  same 'verdicts' "$verdicts" "$(cd "$room/files" && sh ./calls)"
  version=$(sed -n 's/^version  *//p' "$dist/PROVED")
  for name in "${names[@]}"; do
    same "the logic of $name" "$(sed -n "s/^$name  *\([0-9a-f]*\) [0-9a-f]*$/\1/p" "$dist/PROVED")" \
      "$(readelf -p .comment "$room/dist/$name" | sed -n 's/.*rattle logic=//p')"
    usage=$("$room/dist/$name" --help | head -n 1)
    grep -qxF -- "- \`${usage#usage: }\`" "$top/docs/reference/FORMATS.md" || fault "FORMATS.md has no program ${usage#usage: }"
    same "$name --version" "$name $version (commit ${commit:0:11})" "$("$room/dist/$name" --version)"
  done
  cd "$room/files"
  # (without programs elsewhere on the path)
  export PATH=$work/.python:/usr/bin:/bin
  says 20 's VERIFIED UNSAT' ../tools/checked ./solver four.cnf
  says 0 '1 formula: 1 s VERIFIED UNSAT, 0 s VERIFIED SAT, 0 no answer, 0 not checked, 0 rejected, 0 malformed' ../tools/checked_all four.cnf --solver ./solver
  says 20 's VERIFIED UNSAT BY 1 RECEIPTS' ../tools/checked --while ./solver four.cnf
  says 0 's VERIFIED UNSAT BY 1 RECEIPTS' ../tools/pieces run four.cnf four.drat pieces
  printf '1 0\n-1 0\n' > cubes.txt
  mkdir parts
  echo 0 | tee parts/1.drat parts/2.drat > parts/closing.drat
  says 0 '' ../tools/cubes check four.cnf cubes.txt parts 1 2 closing
  says 0 's VERIFIED UNSAT BY 3 RECEIPTS' ../tools/cubes report four.cnf cubes.txt parts
  says 0 'all answers are shown: 0 satisfiable, 1 unsatisfiable, 0 unknown' ../tools/sessions check session.icnf session.lidrup
}

# install_block: the first block of README.md below "Install"
install_block() {
  awk '/^## Install$/ { below = 1 } below && /^```/ && open { exit } below && /^```$/ { open = 1; next } open' "$top/README.md"
}

# In a root that has what Debian's essential packages have, a C compiler, python3 and a solver.
case_root() {
  only_with unshare dpkg-query cadical cc python3
  root=$work/root
  mkdir -p "$root"/{usr,etc/alternatives,tmp,dev,proc,home,path}
  for name in bin lib lib64; do
    ln -s "usr/$name" "$root/$name"
  done
  mapfile -t packages < <(dpkg-query -W -f '${Package} ${Essential}\n' | sed -n 's/ yes$//p')
  for name in $(dpkg-query -L "${packages[@]}" | sed -n 's|^\(/usr\)\?/s\?bin/||p') cc as ld strip python3 cadical; do
    [[ ! -e /usr/bin/$name ]] || ln -sf "/usr/bin/$name" "$root/path/$name"
  done
  enter=(unshare --mount --map-root-user bash -c 'for name in usr etc/alternatives dev proc; do mount --rbind "/$name" "$0/$name"; done &&
    exec chroot "$0" /usr/bin/env -i HOME=/home PATH=/path:/home/.local/bin "$@"' "$root")
  if ! "${enter[@]}" cc --version > "$work/said" 2>&1; then
    untried "no root of its own here: $(head -n 1 "$work/said")"
  fi
  mv "$room" "$root/clone"
  said=$("${enter[@]}" sh -c 'command -v make git rt' || true)
  same 'what is not there' '' "$said"
  # README's installation, word for word, on this formula
  cp "$root/clone/files/four.cnf" "$root/clone/formula.cnf"
  install_block > "$root/clone/block"
  status=0
  said=$("${enter[@]}" bash -c 'cd /clone && . ./block' 2>&1) || status=$?
  same "README's installation" "20 ${#names[@]} programs, commit ${commit:0:11}, and 9 scripts are in /home/.local/bin"$'\ns VERIFIED UNSAT' "$status $said"
  same 'scripts and programs of one version' "${commit:0:11}" "$("${enter[@]}" bash -c 'for name in /home/.local/bin/*; do
      [ "${name##*/}" = verified ] || "$name" --version; done' | sed 's/.*(commit \(.*\))$/\1/' | sort -u)"
  same 'verdicts in a root of its own' "${verdicts//../}" "$("${enter[@]}" sh -c "cd /clone/files && sed 's|\.\./dist/||' calls | sh")"
  "${enter[@]}" bash -c 'cd /clone && python3 -B tests/documents/examples.py /home/.local/bin README.md docs/USING.md docs/PORT.md' || wrong=1
  # what is printed and what is below it in a document are compared
  sed -i 's/^s VERIFIED MINIMAL$/s VERIFIED/' "$root/clone/docs/USING.md"
  status=0
  "${enter[@]}" bash -c 'cd /clone && python3 -B tests/documents/examples.py /home/.local/bin docs/USING.md' > "$work/said" || status=$?
  same 'a document with another line' "1 docs/USING.md: $(grep -c '^\$ ' "$top/docs/USING.md") commands, 1 of them print something else" "$status $(tail -n 1 "$work/said")"
}

last=$'rt: ok; handles allowed: none; every proof was done in this run\n12 passed, 0 failed'
printf 'rt: lrat_check proved\n%s\n' "$last" > "$work/gate"

# make FOLDER WORD..: makes such a folder of the programs that are built here, if there is what it takes
make_dist() {
  if ! "$top/tools/dist.sh" "$@" > "$work/said" 2>&1; then
    # (an `rt ci` that takes a program from an earlier run leaves no object)
    grep -qE '^no object of |is not on the path' "$work/said" || fault "$(cat "$work/said")"
    untried "$(tail -n 1 "$work/said")"
  fi
}

# Made twice, by other habits; with the end of a test run and without.
case_twice() {
  make_dist "$work/made" "$work/gate"
  same 'the test run' "test run    $(head -n 1 <<< "$last")"$'\n'"            ${last#*$'\n'}" "$(sed -n '/^test run/,/^$/p' "$work/made/PROVED" | sed '/^$/d')"
  (umask 077 && LANG=C.UTF-8 TZ=Asia/Tokyo "$top/tools/dist.sh" "$work/again")
  same 'made twice' '' "$(diff -r -x PROVED "$work/made" "$work/again")"
  same 'without a test run' 'test run    NONE' "$(sed -n 's/^\(test run.*\):.*/\1/p' "$work/again/PROVED")"
  sed -i '$s/0 failed/1 failed/' "$work/gate"
  says 1 "$work/gate is no whole test run: its last line is: 12 passed, 1 failed" "$top/tools/dist.sh" "$work/none" "$work/gate"
}

# Of a program that has no object of its own beside it, the text that was there before is taken, if it gives the program; else nothing is made.
case_objects() {
  make_dist "$work/made"
  other=$work/other
  git clone -q --shared "$top" "$other"
  (cd "$top" && {
    git ls-files -z -- tools
    for name in "${names[@]}"; do
      printf '%s\0' "crates/${name}_main/out/${name}_main"
    done
  } | tar -c --null -T -) | tar -x -C "$other"
  rm -rf "$other/dist"
  cp -R "$work/made" "$other/dist"
  "$other/tools/dist.sh" "$work/again" || wrong=1
  same 'made of the texts that were there' '' "$(diff -r -x PROVED -x '*.S' "$work/made" "$work/again")"
  lrat=$other/crates/lrat_check_main/out/lrat_check_main.o
  cp "$other/dist/drat_check.S" "$other/dist/lrat_check.S"
  for object in "$top/crates/drat_check_main/out/drat_check_main.o" /dev/null; do
    [[ -e $object ]] || continue
    cp "$object" "$lrat"
    status=0
    said=$("$other/tools/dist.sh" "$work/none" 2>&1) || status=$?
    same 'without its own object' "1 no object of lrat_check as it is built: \`rt run\` leaves it, or \`rt ci --anew\`" "$status ${said##*$'\n'}"
  done
  same 'what is made then' '' "$(find "$work/none" 2> "$work/said")"
}

try_cases
