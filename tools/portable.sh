#!/usr/bin/env bash
# Makes proved programs for machines that have neither the toolchain nor Linux on x86-64.
#
#   tools/portable.sh [--built] OUT NAME..
#   tools/portable.sh --keeper FILE
#
# NAME is `drat_check`, `lrat_check`, `model_check` or `circuit_check`, or `follows_check` or `minimal_check`, which are not in the page.
# OUT gets these forms; one that can't be made here says what is missing:
#
#   NAME.wasm, cefindrato.mjs   WebAssembly, and what runs it: `node cefindrato.mjs NAME WORD..`
#   cefindrato.html             the programs in a page of one file, which needs no server
#   NAME.c                      one C file: `cc -O2 -o NAME NAME.c -lm` (wasm2c, of Debian's wabt)
#   NAME-aarch64                a program for Linux on aarch64 (gcc-aarch64-linux-gnu)
#
# All are made of the module that the proof's build hands to LLVM. A library that is preloaded into the toolchain copies it, over what is
# kept of the program's crate and those below it; with --built nothing is proved, and the module is the one that a run before has left
# beside the program, or in the user's cache under the program's sum. Each time it is compiled and linked as `rt` does, and that has to be
# the proved program, byte for byte. With --keeper that library is made as FILE, and no more: what `LD_PRELOAD=FILE rt ci` builds has its
# module beside it. RT may name another `rt`.
set -euo pipefail

usage() {
  echo "usage: tools/portable.sh [--built] OUT NAME.., or --keeper FILE (drat_check, lrat_check, model_check, circuit_check, follows_check, minimal_check)" >&2
  exit 2
}
is_built='' is_keeper=''
case ${1:-} in
  --built) is_built=1 ;;
  --keeper) is_keeper=1 ;;
esac
if [[ $is_built$is_keeper ]]; then
  shift
fi
if [[ -z ${1:-} || $1 == -* ]]; then
  usage
fi
out=$(realpath -m "$1")
shift
names=("$@")
if [[ ($is_keeper && ${#names[@]} != 0) || (! $is_keeper && ${#names[@]} == 0) ]]; then
  usage
fi
shown=()
for name in "${names[@]}"; do
  case $name in
    drat_check | lrat_check | model_check | circuit_check) shown+=("$name") ;;
    follows_check | minimal_check) ;;
    *) usage ;;
  esac
done
top=$(cd "$(dirname "$0")/.." && pwd)
own=$top/tools/portable
modules=${XDG_CACHE_HOME:-${HOME:-/nonexistent}/.cache}/cefindrato/modules
export LC_ALL=C
umask 022
work=$(mktemp -d)
trap 'rm -rf "$work"' EXIT
if ! rt=$(command -v "${RT:-rt}"); then
  echo "${RT:-rt} is not on the path: it gives the program's module, and its clang compiles it" >&2
  exit 1
fi
kit=$(dirname "$(dirname "$(readlink -f "$rt")")")
clang=$kit/toolchain/bin/clang

# has PROGRAM PACKAGE FORM: whether a form can be made here
has() {
  command -v "$1" > "$work/where" || {
    echo "$1 is not installed (Debian: $2): no $3"
    return 1
  }
}

# keeper FILE: a library that keeps the module of each program that is built while it is preloaded
keeper() {
  "${CC:-cc}" -O2 -Wall -Wextra -fPIC -shared -o "$1" "$own/keep.c" -ldl
}

# gives_program NAME: whether the module beside the program gives it
gives_program() {
  local program=$top/crates/$1_main/out/$1_main kept=$top/crates/$1_main/out/$1_main.bc words
  [[ -f $program && -f $kept && -f $kept.words ]] || return 1
  rm -rf "$work/again"
  mkdir "$work/again"
  cp "$kept" "$work/again/module.bc"
  mapfile -t words < <(sed "s|^--sysroot=.*|--sysroot=$kit/toolchain|" "$kept.words")
  (cd "$work/again" && "$clang" "${words[@]}") || return 1
  "$top/tools/release/link.sh" "$work/again/module.o" "$work/again/program"
  cmp -s "$work/again/program" "$program"
}

# is_kept NAME: whether a module is kept that gives the proved program, beside it or in the cache
is_kept() {
  local program=$top/crates/$1_main/out/$1_main stored
  [[ -f $program ]] || return 1
  stored=$modules/$(sha256sum < "$program" | cut -c 1-64)
  if gives_program "$1"; then
    # (at most forty; a cache that can't be written costs time alone)
    mkdir -p "$stored" && cp "$program".bc{,.words} "$stored/" && touch "$stored" || true
    find "$modules" -mindepth 1 -maxdepth 1 -printf '%T@ %p\0' | sort -z -n -r | tail -z -n +41 | cut -z -d ' ' -f 2- | xargs -0 -r rm -rf
  elif [[ -f $stored/$1_main.bc.words ]]; then
    cp "$stored/$1_main.bc"{,.words} "${program%/*}/"
    gives_program "$1"
  else
    return 1
  fi
}

# proved NAME [VARIABLE=VALUE]: proves and builds the program anew, over what a check has kept of its crate
proved() {
  local folder=$top/crates/$1_main
  rm -f "$folder/out/$1_main.stamp"
  (cd "$folder" && env "${@:2}" "$rt" run --jobs 1 -- --version) > "$work/said" 2>&1 < /dev/null || {
    cat "$work/said" >&2
    return 1
  }
}

# watched NAME: builds the program so that its module is kept
watched() {
  if [[ ! -f $work/keep.so ]]; then
    keeper "$work/keep.so"
  fi
  proved "$1" "LD_PRELOAD=$work/keep.so"
}

# module NAME: sees to it that the module of the proved program is there. The program that it is compared with was there before, or
# is built by the toolchain as it is.
module() {
  local program=$top/crates/$1_main/out/$1_main
  if is_kept "$1"; then
    return
  fi
  if [[ $is_built ]]; then
    echo "no module of $1 as it is built: tools/portable.sh $out $1 makes it" >&2
    return 1
  fi
  rm -f "$work/before"
  if [[ -f $program ]]; then
    cp "$program" "$work/before"
  fi
  watched "$1"
  if ! cmp -s "$work/before" "$program"; then
    proved "$1"
  fi
  if ! is_kept "$1"; then
    echo "the module of $1 does not give the proved program" >&2
    return 1
  fi
}

# aimed NAME TARGET: the module for another machine with 64 bits, low bytes first. The names of the target change, and what speaks of
# x86-64 goes; not one instruction is touched.
aimed() {
  local layout
  case $2 in
    wasm64-*) layout=e-m:e-p:64:64-p10:8:8-p20:8:8-i64:64-i128:128-n32:64-S128-ni:1:10:20 ;;
    aarch64-*) layout=e-m:e-p270:32:32-p271:32:32-p272:64:64-i8:8:32-i16:16:32-i64:64-i128:128-n32:64-S128-Fn32 ;;
  esac
  "$clang" --target=x86_64-unknown-linux-gnu -x ir "$top/crates/$1_main/out/$1_main.bc" -S -emit-llvm -Xclang -disable-llvm-passes -o "$work/module.ll"
  sed -E -e "s|^target datalayout = .*|target datalayout = \"$layout\"|" -e "s|^target triple = .*|target triple = \"$2\"|" \
    -e '/^attributes /{s/ "(target-cpu|target-features|probe-stack|stack-probe-size)"="[^"]*"//g;s/ sanitize_address//}' \
    -e 's/@main\(\)/@rattle_main()/' "$work/module.ll"
}

# wasm NAME: WebAssembly, first with addresses of 64 bits, then of 32. The stack stands below all else, so that none who runs out of it
# writes anywhere.
wasm() {
  local flags=(--target=wasm64-unknown-unknown -mcpu=mvp -mbulk-memory -mbulk-memory-opt -msign-ext)
  aimed "$1" wasm64-unknown-unknown > "$work/wasm.ll"
  "$clang" "${flags[@]}" -O3 -ffunction-sections -c -x ir "$work/wasm.ll" -o "$work/wasm.o"
  "$clang" "${flags[@]}" -O2 -ffreestanding -fno-builtin -Wall -Wextra -Werror -c "$own/rt.c" -o "$work/rt.o"
  (exec -a wasm-ld "$clang" -mwasm64 --no-entry --gc-sections --strip-debug --stack-first -z stack-size=8388608 -o "$work/64.wasm" "$work/wasm.o" "$work/rt.o")
  python3 -B "$own/lower.py" "$work/64.wasm" "$out/$1.wasm"
}

# c_file NAME: what wasm2c makes of it, with its runtime and a host, as one file
c_file() {
  wasm2c "$out/$1.wasm" -n program -o "$work/program.c"
  python3 -B "$own/c_file.py" "$1" "$work/program.c" > "$out/$1.c"
}

# aarch64 NAME: linked with all that it needs
aarch64() {
  aimed "$1" aarch64-unknown-linux-gnu > "$work/aarch64.ll"
  "$clang" --target=aarch64-unknown-linux-gnu -O3 -ffunction-sections -c -x ir "$work/aarch64.ll" -o "$work/aarch64.o"
  aarch64-linux-gnu-gcc -static -s -Wl,--gc-sections -O2 -o "$out/$1-aarch64" "$work/aarch64.o" "$top/tools/release/rt.c"
}

if [[ $is_keeper ]]; then
  keeper "$out"
  exit
fi
mkdir -p "$out"
makes_c=$(has wasm2c wabt 'C files' >&2 && echo 1 || true)
makes_aarch64=$(has aarch64-linux-gnu-gcc gcc-aarch64-linux-gnu 'programs for aarch64' >&2 && echo 1 || true)
for name in "${names[@]}"; do
  module "$name"
  wasm "$name"
  if [[ $makes_c ]]; then
    c_file "$name"
  fi
  if [[ $makes_aarch64 ]]; then
    aarch64 "$name"
  fi
done
version=$(sed -n 's/^const VERSION: &str = "\([^ "]*\).*/\1/p' "$top/crates/command/src/status.rt")
sed "s/@VERSION@/$version/" "$own/system.mjs" "$own/node.mjs" > "$out/cefindrato.mjs"
if ((${#shown[@]})); then
  python3 -B "$own/page.py" "$version" "$(git -C "$top" rev-parse HEAD 2> "$work/said" || echo 'not known')" "$out" "${shown[@]}" > "$out/cefindrato.html"
fi
