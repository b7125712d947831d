#!/usr/bin/env bash
# Packs what is built, here and in another checkout, and uses each package where nothing else is: in an empty root, also by the first command
# of README.md, in a fresh Debian, in a venv of Python; and on processors that qemu-x86_64 imitates.
#
#   tests/release.sh [BOOKWORM]
#
# The programs and the library must be built. Static programs are tried of those that have their object beside them. BOOKWORM is a folder
# that debootstrap made; without it one is made, where debootstrap and its mirror are there. What is not installed is said, and the rest
# is tried.
# needs: all crates/c_library/out/libc_library.a
set -euo pipefail
. "$(dirname "$0")/lib.sh"
fresh=${1:-}
# what stays from case to case: a fresh Debian, and another checkout
beside=$(mktemp -d)

# end STATUS: at the end of the script. What works in the folder goes on where this ends early, and debootstrap has /proc mounted there.
end() {
  [[ $BASHPID == "$$" ]] || return 0
  wait
  rm -rf "$beside"
  leave "$1"
}
trap 'end "$?"' EXIT

printf '1 2 0\n1 -2 0\n-1 2 0\n-1 -2 0\n' > "$work/four.cnf"
printf '1 0\n0\n' > "$work/four.drat"
printf '5 1 0 1 2 0\n6 0 5 3 4 0\n' > "$work/four.lrat"
printf '1 2 0\n' > "$work/one.cnf"
printf 's SATISFIABLE\nv 1 2 0\n' > "$work/one.answer"
printf -- '-1 -2 0\n-1 2 0\n1 -2 0\n1 2 0\n' > "$work/four.models"
# two circuits of one gate, and a proof that they are the same
printf 'aig 3 2 0 1 1\n6\n\2\2' | tee "$work/one.aig" > "$work/other.aig"
printf -- '-5 0\n4 0\n3 0\n2 0\n0\n' > "$work/same.drat"
# calls of programs, with the verdict and the status that they have to give
table=('drat_check four.cnf four.drat:s VERIFIED UNSAT:0' 'drat_check one.cnf four.drat::1'
  'lrat_check four.cnf four.lrat:s VERIFIED UNSAT:0' 'model_check one.cnf one.answer:s VERIFIED SAT:0'
  'follows_check four.cnf one.cnf four.drat:s VERIFIED FOLLOWS:20' 'minimal_check four.cnf four.drat four.models:s VERIFIED MINIMAL:0'
  'circuit_check same one.aig other.aig --proof same.drat:s VERIFIED SAME:0')
all=(drat_check lrat_check model_check follows_check minimal_check circuit_check)

# calls NAME..: the calls of these programs, for a shell, with PREFIX before each name
calls() {
  local name
  for name; do
    printf '%s\n' "${table[@]}" | sed -n "s|^\($name [^:]*\):.*|\${PREFIX}\1 2> /dev/null; echo \"status \$?\"|p"
  done
}

# verdicts NAME..: what is printed by them
verdicts() {
  local name
  for name; do
    printf '%s\n' "${table[@]}" | sed -n "s/^$name [^:]*:\(.*\):\(.*\)/\1\nstatus \2/p" | sed '/^$/d'
  done
}

has_object() {
  [[ -f $top/crates/$1_main/out/$1_main.o ]]
}
static=()
for name in "${all[@]}"; do
  if has_object "$name"; then
    static+=("$name")
  fi
done

# A fresh Debian, beside all else, where it is asked for
is_begun=
if [[ ! $fresh && " ${cases_asked[*]:-debian} " == *' debian '* ]] && has debootstrap && ((EUID == 0)); then
  is_begun=yes
  {
    status=0
    timeout 100 debootstrap --variant=minbase bookworm "$beside/fresh" > "$beside/bootstrap" 2>&1 || status=$?
    echo "$status" > "$beside/ended"
  } &
fi

# The same checkout with what is built in it, in another place
other="$beside/another/place of it"
git clone -q --shared "$top" "$other"
(cd "$top" && {
  git ls-files -z
  find crates -path '*/out/*' -type f \( -name '*_main' -o -name '*_main.o' -o -name 'lib*.a' \) -print0
} | tar -c --null -T -) | tar -x -C "$other"

# Twice: here, and there by other habits: a mask, a language, a zone.
last=$'rt: ok; handles allowed: none; every proof was done in this run\n12 passed, 0 failed'
printf 'rt: lrat_check proved\nrt: note: one\n%s\n' "$last" > "$work/gate"
"$top/tools/release.sh" "$work/one" "$work/gate" &
here=$!
(umask 077 && LANG=C.UTF-8 TZ=Asia/Tokyo "$other/tools/release.sh" "$work/two" "$work/gate") > "$work/said"
wait "$here"
version=$(sed -n 's/^const VERSION: &str = "\([^ "]*\).*/\1/p' "$top/crates/command/src/status.rt")
name=cefindrato-$version-linux-x86_64
for bundle in "$work"/one/*.tar.gz; do
  tar -C "$work" -xzf "$bundle"
done

case_twice() {
  same 'packed twice' "$(cd "$work/one" && sha256sum -- *)" "$(cd "$work/two" && sha256sum -- *)"
  (cd "$work/one" && sha256sum --quiet -c SHA256SUMS) || wrong=1
  same 'the sums' "$(cd "$work/one" && find . -type f ! -name SHA256SUMS -printf '%P\n' | sort)" "$(cut -d ' ' -f 3 "$work/one/SHA256SUMS" | sort)"
}

# The record: a whole test run, or that there was none; and the sum and the logic of each program.
case_records() {
  for bundle in "$work"/one/*.tar.gz; do
    folder=$work/$(basename "$bundle" .tar.gz)
    same "the record of $folder" "$(cat "$work/one/PROVED")" "$(cat "$folder/share/doc/cefindrato/PROVED")"
    same "the licence of $folder" "$(cat "$top/LICENSE")" "$(cat "$folder/share/doc/cefindrato/LICENSE")"
    python3 -B "$top/tests/documents/links.py" "$folder/share/doc/cefindrato" || wrong=1
    (cd "$folder" && for file in bin/* lib/cefindrato/*.py; do
      grep -q "^$(sha256sum < "$file" | cut -d ' ' -f 1)  $file " "$work/one/PROVED" || echo "$folder/$file is not in PROVED"
    done) > "$work/missing"
    same 'what is not in the record' '' "$(cat "$work/missing")"
    there=("${all[@]}")
    if [[ $folder == *-static ]]; then
      there=("${static[@]}")
    fi
    same "the programs of $folder" "$(printf '%s\n' "${there[@]}")" "$(cd "$folder/bin" && find "${all[@]}" 2> "$work/said" || true)"
    same "verdicts of $folder" "$(verdicts "${there[@]}")" "$(cd "$work" && PREFIX=$folder/bin/ bash -c "$(calls "${there[@]}")")"
  done
  same 'the test run' "test run    rt: note: one"$'\n'"$(sed 's/^/            /' <<< "$last")" "$(sed -n '/^test run/,/^$/p' "$work/one/PROVED" | sed '/^$/d')"
  while read -r _ file logic; do
    if [[ $file == *_check && ! $logic =~ ^[0-9a-f]{64}$ ]]; then
      echo "PROVED: no logic of $file: $logic"
      wrong=1
    fi
  done < "$work/one/PROVED"
}

case_test_runs() {
  for end in '12 passed, 1 failed' '12 passed, 0 failed (lrat_check and the crates below alone: not the gate)' 'rt: lrat_check proved'; do
    sed "\$s/.*/$end/" "$work/gate" > "$work/failed"
    status=0
    said=$("$top/tools/release.sh" "$work/three" "$work/failed" 2>&1) || status=$?
    same 'a test run that is not whole' "1 $work/failed is no whole test run: its last line is: $end" "$status $said"
  done
  sed '/^rt: ok; /d' "$work/gate" > "$work/failed"
  if "$top/tools/release.sh" "$work/three" "$work/failed" > "$work/said" 2>&1; then
    echo 'a test run without its end was taken'
    wrong=1
  fi
  same 'with a test run that is not whole' '' "$(find "$work/three" 2> /dev/null || true)"
}

# packed FOLDER: what a folder has of the forms, by their ends
packed() {
  find "$1" -type f | sed -n 's/.*\(static\.tar\.gz\|x86_64\.tar\.gz\|deb\|whl\|PROVED\|SHA256SUMS\)$/\1/p' | LC_ALL=C sort | paste -s -d ' '
}

# Without a test run, that is said. Without an object, or with another program's, a program is not among the static ones.
case_objects() {
  only_with musl-gcc
  has_object lrat_check || untried 'lrat_check has no object'
  cp -R "$other" "$work/other"
  other=$work/other
  rm -f "$other"/crates/{drat_check,model_check}_main/out/*.o
  cp "$other/crates/lrat_check_main/out/lrat_check_main.o" "$other/crates/model_check_main/out/model_check_main.o" || wrong=1
  said=$("$other/tools/release.sh" "$work/three")
  if [[ $said != *'no object of '*drat_check*model_check*' as it is built'* ]]; then
    echo "without objects: $said"
    wrong=1
  fi
  same 'the static programs then' "$name-static/bin/lrat_check" \
    "$(tar -tzf "$work/three/$name-static.tar.gz" | grep -E '/bin/(drat|lrat|model)_check$')"
  same 'without a test run' 'test run    NONE' "$(sed -n 's/^\(test run.*\):.*/\1/p' "$work/three/PROVED")"
}

case_toolchain() {
  cp -R "$other" "$work/other"
  other=$work/other
  printf 'rattle logic=0123' > "$work/comment"
  objcopy --update-section ".comment=$work/comment" "$other/crates/lrat_check_main/out/lrat_check_main"
  status=0
  said=$("$other/tools/release.sh" "$work/none" 2>&1) || status=$?
  same 'a program of another toolchain' "1 lrat_check was not proved by $(rt version): build it again" "$status $said"
}

# Without compilers there are the other forms.
case_compilers() {
  mkdir "$work/bin"
  ln -s /usr/bin/* "$work/bin/"
  ln -sf /usr/local/bin/* "$work/bin/"
  rm -f "$work"/bin/{musl-gcc,dpkg-deb}
  said=$(PATH=$work/bin "$top/tools/release.sh" "$work/few" "$work/gate")
  same 'without two tools' 'musl-gcc is not installed (Debian: musl-tools): no static programs, no wheel
dpkg-deb is not installed (Debian: dpkg): no Debian package' "$said"
  same 'the other forms' 'PROVED SHA256SUMS x86_64.tar.gz' "$(packed "$work/few")"
}

# Static programs in a root that has nothing else.
case_empty_root() {
  for program in "${static[@]}"; do
    same "what $program loads" '' "$(readelf -d "$work/$name-static/bin/$program" | grep NEEDED || true)"
  done
  if [[ ${#static[@]} != 0 && -d $work/$name-static ]] && unshare --user --map-root-user true 2> "$work/said"; then
    cp "$work"/four.* "$work"/one.* "$work"/other.aig "$work"/same.drat "$work/$name-static"
    same 'in an empty root' "$(verdicts "${static[@]}")" \
      "$(PREFIX="unshare --user --map-root-user chroot $work/$name-static /bin/" bash -c "$(calls "${static[@]}")")"
  else
    not_tried 'no static programs or no namespaces here: an empty root'
  fi
}

# A processor without x86-64-v2, as docs/USING.md names them, and one that has it.
case_processors() {
  for program in "${static[@]}"; do
    if has qemu-x86_64; then
      for processor in kvm64 qemu64 phenom; do
        status=0
        said=$(cd "$work" && qemu-x86_64 -cpu "$processor" "$name-static/bin/$program" four.cnf four.lrat 2>&1) || status=$?
        same "$program on $processor" '127 this machine lacks a feature of x86-64-v2' \
          "$status $(grep -v '^qemu-x86_64: warning' <<< "$said" | cut -d , -f 1)"
      done
      same "$program on Nehalem" "$(verdicts "$program")" \
        "$(cd "$work" && PREFIX="qemu-x86_64 -cpu Nehalem $name-static/bin/" bash -c "$(calls "$program")")"
    fi
  done
}

# plain_blocks HEADING: the blocks of README.md without a language below this heading, up to the next one
plain_blocks() {
  awk -v heading="$1" '/^```/ { open = !open; plain = open && $0 == "```"; next }
    !open && /^#/ { below = $0 == heading }
    below && plain' "$top/README.md"
}

# bring PROGRAM: copies it into the root of the test, with the libraries that it loads
bring() {
  local library
  cp -L "$(type -P "$1")" "$bare/bin/$1"
  { ldd "$bare/bin/$1" || true; } 2> "$work/said" | grep -o '/[^ ]*' | while read -r library; do
    install -D "$library" "$bare$library"
  done
}

# The first command of README.md, word for word, in a root that has the static package, unpacked and with its folder of programs on the
# path, a formula, a solver, and the tools of busybox.
case_readme() {
  bare=$work/bare
  enter=(unshare --mount --map-root-user bash -c 'mount --rbind /dev "$1/dev" && shift && exec "$@"' - "$bare" chroot "$bare"
    /bin/busybox env -i "PATH=/bin:/unpacked/$name-static/bin")
  mkdir -p "$bare"/{bin,dev,unpacked,tmp}
  if [[ -f $work/one/$name-static.tar.gz && " ${static[*]} " == *' drat_check '* ]] && has busybox && has cadical; then
    bring busybox
    bring cadical
    cp "$work/one/$name-static.tar.gz" "$bare/unpacked/"
    if "${enter[@]}" /bin/busybox --install -s /bin > "$work/said" 2>&1; then
      "${enter[@]}" tar -C /unpacked -xzf "/unpacked/$name-static.tar.gz"
      for row in 'four:4:20 s VERIFIED UNSAT' 'one:1:10 s VERIFIED SAT'; do
        IFS=: read -r formula count verdict <<< "$row"
        # (cadical reads no formula without its header)
        { echo "p cnf 2 $count" && cat "$work/$formula.cnf"; } > "$bare/unpacked/formula.cnf"
        status=0
        said=$("${enter[@]}" sh -c "cd /unpacked && $(plain_blocks '# Cefindrato')" 2> "$work/said") || status=$?
        same 'the first command of README.md, in an empty root' "$verdict" "$status $said$(cat "$work/said")"
      done
    else
      not_tried "no root of its own here, $(cat "$work/said"): README's first command"
    fi
  else
    not_tried "README's first command in an empty root"
  fi
}

# The Debian package: by lintian, and in a fresh root.
case_debian() {
  package=$work/one/cefindrato_${version}_amd64.deb
  if [[ -f $package ]]; then
    dpkg-deb -x "$package" "$work/unpacked"
    python3 -B "$top/tests/documents/links.py" "$work/unpacked/usr/share/doc/cefindrato" || wrong=1
  fi
  if [[ -f $package ]] && has lintian; then
    lintian --allow-root --fail-on error,warning "$package" > "$work/lintian" 2>&1 || {
      cat "$work/lintian"
      wrong=1
    }
  fi
  if [[ $is_begun ]]; then
    fresh=$beside/fresh
    until [[ -s $beside/ended ]]; do
      sleep 1
    done
    if [[ $(< "$beside/ended") != 0 ]]; then
      not_tried "no fresh Debian, $(tail -n 1 "$beside/bootstrap")"
      fresh=
    fi
  fi
  if [[ -f $package && $fresh ]]; then
    cp "$package" "$fresh/package.deb"
    cp "$work"/four.* "$work"/one.* "$work"/other.aig "$work"/same.drat "$fresh/"
    chroot "$fresh" dpkg -i /package.deb > "$work/said" 2>&1 || {
      cat "$work/said"
      wrong=1
    }
    same 'verdicts in a fresh Debian' "$(verdicts "${all[@]}")" "$(chroot "$fresh" env -C / PREFIX='' bash -c "$(calls "${all[@]}")")"
    same 'without a compiler' '' "$(chroot "$fresh" bash -c 'command -v cc gcc clang rt python3' || true)"
    chroot "$fresh" dpkg -r cefindrato > "$work/said" 2>&1 || wrong=1
    same 'what is left of it' '' "$(find "$fresh/usr" -name '*cefindrato*' -o -name 'lrat_check*')"
  fi
}

# The wheel, in a venv.
case_wheel() {
  wheel=$(echo "$work"/one/*.whl)
  if [[ -f $wheel ]] && python3 -m venv "$work/venv" > "$work/said" 2>&1; then
    "$work/venv/bin/pip" install -q --no-index --disable-pip-version-check "$wheel"
    (cd "$work" && venv/bin/python -B "$top/tests/release/wheel.py" "$top/tests/data") || wrong=1
    same 'verdicts of the wheel' "$(verdicts "${static[@]}")" "$(cd "$work" && PREFIX=$work/venv/bin/ bash -c "$(calls "${static[@]}")")"
    if has_object drat_check; then
      # a script finds the programs beside it, also if the venv is not activated
      printf '#!/bin/sh\nprintf "1 0\\n0\\n" > "$2"\nexit 20\n' > "$work/refuter"
      chmod +x "$work/refuter"
      status=0
      said=$(cd "$work" && PATH=/usr/bin:/bin venv/bin/checked ./refuter four.cnf 2>&1) || status=$?
      same 'checked of the wheel' '20 s VERIFIED UNSAT' "$status $said"
    fi
  else
    not_tried 'no wheel or no venv here'
  fi
}

try_cases
