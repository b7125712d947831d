#!/usr/bin/env bash
# Packs what is built, for people who do not have the toolchain.
#
#   tools/release.sh OUT [GATE]
#
# OUT gets what `./install.sh --built` installs, in these forms; one that can't be made here says what is missing:
#
#   cefindrato-VERSION-linux-x86_64.tar.gz          all of it, for Linux with glibc
#   cefindrato-VERSION-linux-x86_64-static.tar.gz   the programs, which need no C library (musl-gcc)
#   cefindrato_VERSION_amd64.deb                    all of it, for Debian (dpkg-deb)
#   cefindrato-VERSION-py3-none-TAGS.whl            for Python: the programs, the library, and calls (musl-gcc)
#   PROVED, SHA256SUMS                              what was proved, by what; and the sums of the files
#
# The programs must be built, as `rt ci` or `rt run` leaves them, and `rt` be on the path. GATE is the output of `rt ci`: without it
# PROVED says that no whole test run stands behind it. Static programs are linked from the objects beside the programs. An `rt ci`
# that takes a program from an earlier run leaves no object of it: then it is said which are missing, and `rt run` or `rt ci`
# leaves them. The same sources and tools give the same bytes: all times are that of the commit, or SOURCE_DATE_EPOCH.
set -euo pipefail

if (($# < 1 || $# > 2)) || [[ -z $1 || $1 == -* ]]; then
  echo "usage: tools/release.sh OUT [GATE]" >&2
  exit 2
fi
top=$(cd "$(dirname "$0")/.." && pwd)
out=$(realpath -m "$1")
umask 022
work=$(mktemp -d)
trap 'rm -rf "$work"' EXIT
. "$top/tools/release/proved.sh"
run=
if (($# == 2)); then
  run=$(whole_run "$2")
fi
mkdir -p "$out"

# has PROGRAM PACKAGE FORM: whether a form can be made here
has() {
  command -v "$1" > "$work/where" || {
    echo "$1 is not installed (Debian: $2): no $3"
    return 1
  }
}

# What is packed, as it is installed, and what belongs to it
stage=$work/usr
"$top/install.sh" --built "$stage"
for program in "$stage"/bin/*; do
  if built "${program##*/}" > "$work/said"; then
    is_proved_here "${program##*/}" "$program"
  fi
done
rm "$stage/share/cefindrato/installed"
version=$("$stage/bin/lrat_check" --version | cut -d ' ' -f 2)
name=cefindrato-$version-linux-x86_64
documents=$work/documents
python3 -B "$own/documents.py" "$top" "$documents"
if [[ -f $stage/lib/libcefindrato_ipasir.a ]]; then
  cp "$own/LICENSE.cadical" "$documents/"
fi

# static_programs: those of which the object is there, linked with a C library in place of the toolchain's archives; and the scripts, with
# what they share
static_programs() {
  local program name lacking=()
  cp "$stage"/lib/cefindrato/*.py "$work/static/lib/cefindrato/"
  musl-gcc -O2 -c -o "$work/rt.o" "$own/rt.c"
  for program in "$stage"/bin/*; do
    name=${program##*/}
    if ! built "$name" > "$work/said"; then
      cp "$program" "$work/static/bin/"
    elif object_of "$name" "$work/program.o"; then
      musl-gcc -static -s -Wl,--gc-sections -o "$work/static/bin/$name" "$work/program.o" "$work/rt.o"
    else
      lacking+=("$name")
    fi
  done
  if ((${#lacking[@]})); then
    echo "no object of ${lacking[*]} as it is built (\`rt run\` or \`rt ci --anew\` leaves it): not among the static programs, nor in the wheel"
  fi
}

# wheel_library: the library in place of the toolchain's archives too, for any C library
wheel_library() {
  local archive folder
  archive=$("$top/bindings/build.sh" --archive)
  folder=$(dirname "$archive")
  "${CC:-cc}" -O2 -fPIC -DIS_LIBRARY -c -o "$work/library_rt.o" "$own/rt.c"
  # (others may build it at the same time, as bindings/build.sh has it)
  (flock 3 && cp "$archive" "$work/archive.a") 3> "$folder/building"
  ld -r -o "$work/whole.o" --whole-archive "$work/archive.a" --no-whole-archive "$work/library_rt.o"
  objcopy --strip-debug --wildcard --keep-global-symbol='cefindrato_*' "$work/whole.o" "$work/library.o"
  "${CC:-cc}" -shared -nostdlib -s -o "$work/wheel/libcefindrato.so" "$work/library.o"
}

is_static=
if has musl-gcc musl-tools 'static programs, no wheel'; then
  is_static=1
  mkdir -p "$work/static/bin" "$work/static/lib/cefindrato" "$work/wheel"
  static_programs
  wheel_library
fi

# sums FOLDER: the sum of each program and library there, and the logic in which it is proved
sums() {
  local file logic
  (cd "$1" && find . -path './bin/*' -o -path './lib/cefindrato/*.py' -o -type f \( -name 'lib*' -o -name '*.so' \)) | sed 's|^\./||' | sort | while read -r file; do
    logic=$(logic_of "$1/$file")
    printf '%s  %-26s %s\n' "$(sha256sum < "$1/$file" | cut -d ' ' -f 1)" "$file" "${logic:-not proved}"
  done
}

# record: what was proved, by what, and what the files say of it themselves
record() {
  record_head "$version" "$run"
  cat "$own/record.txt"
  echo
  echo 'sha256, file, and the sum of the logic in which it is proved'
  echo
  echo "$name.tar.gz, and the Debian package:"
  sums "$stage"
  if [[ $is_static ]]; then
    echo
    echo "$name-static.tar.gz, and the wheel:"
    sums "$work/static"
    echo
    echo 'the wheel alone:'
    sums "$work/wheel"
  fi
}
record > "$documents/PROVED"
cp "$documents/PROVED" "$out/PROVED"

# packed FOLDER: the folder as a tar.gz in OUT
packed() {
  find "$1" -exec touch -h -d "@$SOURCE_DATE_EPOCH" {} +
  tar -C "$(dirname "$1")" --sort=name --owner=0 --group=0 --numeric-owner --format=gnu -c "$(basename "$1")" | gzip -n -9 > "$out/$(basename "$1").tar.gz"
}

cp -R "$stage" "$work/$name"
mkdir -p "$work/$name/share/doc"
cp -R "$documents" "$work/$name/share/doc/cefindrato"
packed "$work/$name"

if [[ $is_static ]]; then
  static=$work/$name-static
  mv "$work/static" "$static"
  mkdir -p "$static/share/doc"
  cp -R "$stage/share/man" "$stage/share/bash-completion" "$static/share/"
  cp -R "$documents" "$static/share/doc/cefindrato"
  cp "$own/LICENSE.musl" "$static/share/doc/cefindrato/"
  packed "$static"
  python3 -B "$own/wheel.py" "$out" "$version" "$top" "$static" "$work/wheel/libcefindrato.so"
fi
if has dpkg-deb dpkg 'Debian package'; then
  "$own/debian.sh" "$stage" "$documents" "$version" "$out/cefindrato_${version}_amd64.deb"
fi
shopt -s nullglob
(cd "$out" && sha256sum -- "cefindrato-$version"* "cefindrato_$version"* PROVED > SHA256SUMS)
