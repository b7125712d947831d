#!/usr/bin/env bash
# Builds the library for other languages: libcefindrato.a and libcefindrato.so in a folder; and, where a C++ compiler finds CaDiCaL,
# libcefindrato_ipasir.a and libcefindrato_ipasir.so, which have the library and CaDiCaL in them, and show the names of IPASIR alone.
#
#   bindings/build.sh [--built] FOLDER
#   bindings/build.sh --archive          where `rt lib` leaves it
#
# `rt lib` proves and compiles it, in the crate that crates.txt calls a staticlib; with --built what it left there is taken, if it is
# there. What that needs of the toolchain's two archives is linked into it, and no name but those of the header is left visible, so
# that it meets no other library's. RT may name another `rt`; it needs cc and binutils.
set -euo pipefail

top=$(cd "$(dirname "$0")/.." && pwd)
crate=$(sed -n 's/^\([a-z0-9_]*\) staticlib:.*/\1/p' "$top/crates.txt")
archive=$top/crates/$crate/out/lib$crate.a
if [[ $* == --archive ]]; then
  echo "$archive"
  exit
fi
is_built=
if [[ ${1:-} == --built ]]; then
  is_built=1
  shift
fi
if (($# != 1)); then
  echo "usage: bindings/build.sh [--built] FOLDER, or --archive" >&2
  exit 2
fi
if ! rt=$(command -v "${RT:-rt}"); then
  echo "${RT:-rt} is not on the path: the library needs two archives of the toolchain" >&2
  exit 1
fi
kit=$(dirname "$(dirname "$(readlink -f "$rt")")")
work=$(mktemp -d)
trap 'rm -rf "$work"' EXIT
mkdir -p "$1"

# Others may build it at the same time, and what is there is rewritten then.
mkdir -p "${archive%/*}"
exec 3> "${archive%/*}/building"
flock 3
if [[ ! $is_built || ! -f $archive ]]; then
  (cd "$top/crates/$crate" && "${RT:-rt}" lib > "$work/said" 2>&1 3>&-) || {
    cat "$work/said" >&2
    exit 1
  }
fi
cp "$archive" "$work"
exec 3>&-

ld -r -o "$work/whole.o" --whole-archive "$work/${archive##*/}" --no-whole-archive "$kit/c/libos_c.a" "$kit/c/liblibc_c.a"
objcopy --strip-debug --wildcard --keep-global-symbol='cefindrato_*' "$work/whole.o" "$work/cefindrato.o"
rm -f "$1/libcefindrato.a"
ar rcsD "$1/libcefindrato.a" "$work/cefindrato.o"
"${CC:-cc}" -shared -Wl,-soname,libcefindrato.so.0 -o "$1/libcefindrato.so" "$work/cefindrato.o"
strip --strip-unneeded "$1/libcefindrato.so"

cxx=${CXX:-c++}
if ! command -v "$cxx" > "$work/said" || ! "$cxx" -std=c++17 -x c++ -include cadical.hpp -fsyntax-only /dev/null 2> "$work/said"; then
  echo "$cxx finds no cadical.hpp: no libcefindrato_ipasir" >&2
  exit
fi
# (g++ makes symbols of a kind that can't be hidden, unless it is told not to)
flags=(-std=c++17 -O2 -fPIC -I "$top/bindings/c")
if "$cxx" -fno-gnu-unique -x c++ -fsyntax-only /dev/null 2> "$work/said"; then
  flags+=(-fno-gnu-unique)
fi
if ! "$cxx" "${flags[@]}" -c -o "$work/layer.o" "$top/bindings/ipasir/ipasir_checked.cpp"; then
  echo "the layer does not fit this version of CaDiCaL: no libcefindrato_ipasir" >&2
  exit
fi
# (the library of CaDiCaL has functions of IPASIR too, in a part that nothing here asks for)
"$cxx" -r -nostdlib -Wl,--force-group-allocation -o "$work/whole.o" "$work/layer.o" "$work/cefindrato.o" -lcadical
objcopy --strip-debug --wildcard --keep-global-symbol='ipasir_*' "$work/whole.o" "$work/cefindrato_ipasir.o"
rm -f "$1/libcefindrato_ipasir.a"
ar rcsD "$1/libcefindrato_ipasir.a" "$work/cefindrato_ipasir.o"
echo '{ global: ipasir_*; local: *; };' > "$work/names"
"$cxx" -shared -static-libstdc++ -static-libgcc "-Wl,--version-script=$work/names" -Wl,-soname,libcefindrato_ipasir.so.0 \
  -o "$1/libcefindrato_ipasir.so" "$work/cefindrato_ipasir.o"
strip --strip-unneeded "$1/libcefindrato_ipasir.so"
