#!/usr/bin/env bash
# The forms that `tools/portable.sh` makes, beside the proved program: on forty pairs of texts they have the same status, output and
# errors; and the page is played in a browser.
#
#   tests/portable.sh [--pictures FOLDER] [NAME..]
#
# NAMEs are `lrat_check` and `circuit_check` if none is named. The programs must be built. Their modules are those that `./test.sh` leaves; where
# it took programs of an earlier run that kept none, the first alone is tried, and proved again in a copy for its module. It uses what is there of
# node, gcc, clang, tcc, qemu-aarch64 and chromium, and says what is not. FOLDER gets pictures of the page.
# needs: crates crates/lrat_check_main/out/lrat_check_main.bc crates/lrat_check_main/out/lrat_check_main.bc.words
# needs: crates/circuit_check_main/out/circuit_check_main.bc crates/circuit_check_main/out/circuit_check_main.bc.words
set -euo pipefail
. "$(dirname "$0")/lib.sh"
pictures=$work
if [[ ${1:-} == --pictures ]]; then
  pictures=$(realpath -m "$2")
  mkdir -p "$pictures"
  shift 2
fi
names=("$@")
if ((${#names[@]} == 0)); then
  names=(lrat_check circuit_check)
fi

# The toolchain, with a compiler that does not compile a module twice: forms are made here several times, and that takes nearly all of the time
rt=$(command -v "${RT:-rt}")
kit=$(dirname "$(dirname "$(readlink -f "$rt")")")
mkdir -p "$work/kit/"{bin,toolchain/bin} "$work/made"
ln -s "$kit/c" "$work/kit/"
ln -s "$kit/bin/rattle-link" "$work/kit/bin/"
ln -s "$kit/toolchain/lib" "$work/kit/toolchain/"
ln -s "$kit"/toolchain/bin/* "$work/kit/toolchain/bin/"
cp --remove-destination "$top/tests/portable/clang.sh" "$work/kit/toolchain/bin/clang"
printf '#!/bin/sh\nexec "%s" "$@"\n' "$rt" > "$work/kit/bin/rt"
chmod +x "$work/kit/bin/rt"
export RT=$work/kit/bin/rt CLANG=$kit/toolchain/bin/clang MADE=$work/made

# The modules of all programs at once
for name in "${names[@]}"; do
  "$top/tools/portable.sh" --built "$work/at_once/$name" "$name" > "$work/said.$name" 2>&1 &
done
wait

# What is here but wasm2c and the compiler for aarch64; and the forms.
out=$work/forms
mkdir "$work/bin"
ln -s /usr/bin/* "$work/bin/"
ln -sf /usr/local/bin/* "$work/bin/"
rm -f "$work"/bin/{wasm2c,aarch64-linux-gnu-gcc}
# (in a copy, since other scripts run the programs meanwhile)
if ! "$top/tools/portable.sh" --built "$out" "${names[@]}" 2> "$work/missing"; then
  names=("${names[0]}")
  mkdir "$work/copy"
  (cd "$top" && tar -c --exclude=./.git --exclude=out --exclude=target . | tar -x -C "$work/copy" &&
    find crates -mindepth 3 -maxdepth 3 \( -path '*/out/rlib' -o -path '*_main/out/*_main' \) -exec cp -a --parents {} "$work/copy" \;)
  RT=$rt "$work/copy/tools/portable.sh" "$work/first" "${names[@]}"
  "$top/tools/portable.sh" --built "$out" "${names[@]}"
fi

# Where wasm2c and the compiler for aarch64 are missing, that is said, and the other forms are made.
case_compilers() {
  PATH=$work/bin "$top/tools/portable.sh" --built "$work/few" "${names[@]}" > "$work/missing" 2>&1
  same 'without two compilers' 'wasm2c is not installed (Debian: wabt): no C files
aarch64-linux-gnu-gcc is not installed (Debian: gcc-aarch64-linux-gnu): no programs for aarch64' "$(cat "$work/missing")"
  same 'the other forms' "$(cd "$out" && sha256sum -- *.wasm cefindrato.* | sort)" "$(cd "$work/few" && sha256sum -- * | sort)"
}

# A module that does not give the program is refused, as is a program without one, also in the cache.
case_modules() {
  name=${names[0]}
  built=crates/${name}_main/out/${name}_main
  mkdir -p "$work/tree/${built%/*}"
  cp -R "$top/tools" "$work/tree/"
  cp "$top/$built"{,.bc,.bc.words} "$work/tree/${built%/*}/"
  echo >> "$work/tree/$built"
  for change in 'another program' 'no module'; do
    status=0
    said=$(XDG_CACHE_HOME=$work/cache "$work/tree/tools/portable.sh" --built "$work/none" "$name" 2>&1) || status=$?
    # (before it stands which forms can't be made here)
    same "$change" "1 no module of $name as it is built: tools/portable.sh $work/none $name makes it" "$status ${said##*$'\n'}"
    cp "$top/$built" "$work/tree/$built"
    rm -f "$work/tree/$built.bc"
  done
}

# compiles NAME FORM COMPILER WORD..: one form of the C files, while others are compiled
compiles() {
  if [[ -f $out/$1.c ]] && has "$3"; then
    "${@:3}" -o "$work/$1-$2" "$out/$1.c" -lm > "$work/$1-$2.said" 2>&1 &
    compilers[$1-$2]=$!
  fi
}

# compiled NAME FORM: adds one to the forms that are compared
compiled() {
  if [[ ${compilers[$1-$2]:-} ]]; then
    wait "${compilers[$1-$2]}" || {
      cat "$work/$1-$2.said"
      wrong=1
      return
    }
    forms+=("$2=$work/$1-$2")
  fi
}

# All forms of a program, beside it.
case_forms() {
  declare -A compilers
  has wasm2c || true
  has aarch64-linux-gnu-gcc || true
  for name in "${names[@]}"; do
    compiles "$name" gcc gcc -O1
    compiles "$name" clang clang -O0
    compiles "$name" tcc tcc
  done
  for name in "${names[@]}"; do
    forms=("proved=$top/crates/${name}_main/out/${name}_main")
    if has node; then
      forms+=("node=node $out/cefindrato.mjs $name")
    fi
    for form in gcc clang tcc; do
      compiled "$name" "$form"
    done
    if [[ -f $out/$name-aarch64 ]] && has qemu-aarch64; then
      forms+=("aarch64=qemu-aarch64 $out/$name-aarch64")
    fi
    python3 -B "$top/tests/portable/compare.py" "$name" "$top/tests/data" "${forms[@]}" || wrong=1
  done
}

# called STATUS OUTPUT WORD..: what node is called with, and that it says this on standard output or on standard error, and no more
called() {
  local status=0 said
  said=$(node "$out/cefindrato.mjs" "${@:3}" 2> "$work/err") || status=$?
  same "node cefindrato.mjs ${*:3}" "$1 $2" "$status $said$(cat "$work/err")"
}

case_node() {
  only_with node
  name=${names[-1]}
  version=$(sed -n 's/^const VERSION: &str = "\([^ "]*\).*/\1/p' "$top/crates/command/src/status.rt")
  usage=$(node "$out/cefindrato.mjs" --help)
  same 'what node names' "  NAME  the program, one of those beside this file: $(printf '%s\n' "${names[@]}" | sort | paste -s -d , | sed 's/,/, /g')" \
    "$(grep '^  NAME' <<< "$usage")"
  called 0 "$usage" -h
  for flag in -V --version; do
    called 0 "cefindrato.mjs $version" "$flag"
  done
  more='(node cefindrato.mjs --help says how it is called)'
  called 2 "there is no option --halp $more" --halp
  called 2 "there is no program none $more" none
  called 2 "there is no program ../forms/$name $more" "../forms/$name"
  called 2 "no program is named $more"
}

# The page: a verdict, a fault, and files that it can't take.
case_page() {
  only_with chromium node
  [[ -f $out/cefindrato.html ]] || untried 'there is no page'
  python3 -B "$top/tests/portable/cases.py" "$top/tests/data" "$work" "${names[@]}" > "$work/cases"
  node "$top/tests/portable/page.mjs" "$out/cefindrato.html" "$pictures" < "$work/cases" || wrong=1
}

try_cases
