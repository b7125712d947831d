#!/usr/bin/env bash
# Installs into a fresh prefix, uses what is there, and takes it away again.
#
# The programs must be built: `rt ci` does it, or `rt run` in their folders. The library is built if it is not there.
# needs: programs docs bindings lib tools debian packaging crates/c_library/out/libc_library.a
set -euo pipefail
. "$(dirname "$0")/lib.sh"
prefix="$work/a/a prefix"

(umask 077 && "$top/install.sh" --built "$prefix")
mapfile -t all < <(cd "$prefix/bin" && ls)

case_readable() {
  same 'what others may not read' '' "$(find "$prefix" ! -perm -o=r)"
}

# described NAME: what a program says of itself is whole: each operand and each option of its call has its line, in their order,
# and no other has; it has an example to run exactly if it says so
described() {
  local help call options status=0
  help=$("$prefix/bin/$1" --help)
  call=$(sed 's/^usage: [a-z_]* *//;q' <<< "$help")
  options=$(list options "$help" | grep -xvE -- '--(example|help|version)' || true)
  same "options of $1" "$(grep -oE -- '--[a-z-]+' <<< "$call" || true)" "$options"
  same "operands of $1" "$(sed 's/\[--[^]]*\]//g' <<< "$call" | grep -oE '[A-Z]+')" "$(list operands "$help")"
  same "statuses of $1" $'0\n1\n2\n3' "$(list 'exit status' "$help")"
  "$prefix/bin/$1" --example > "$work/said" 2>&1 || status=$?
  if (($(list options "$help" | grep -cx -- --example) == 1)); then
    same "the example of $1" "$(example_status "$1")" "$status"
  else
    same "$1 without an example" 2 "$status"
  fi
}

# example_status PROGRAM: follows_check ends as solvers do
example_status() {
  if [[ $1 == follows_check ]]; then
    echo 20
  else
    echo 0
  fi
}

# list HEADING HELP: the names of a list
list() {
  sed -n "/^$1:\$/,/^\$/s/^  \([^ ]*\).*/\1/p" <<< "$2"
}

case_programs() {
  mapfile -t programs < <(sed -n 's/^\([a-z0-9_]*\)_main:.*/\1/p' "$top/crates.txt")
  if ((${#programs[@]} < 5)); then
    echo "crates.txt names ${#programs[@]} programs"
    wrong=1
  fi
  for name in "${programs[@]}"; do
    said=$("$prefix/bin/$name" --version)
    same "$name --version" "$name" "${said%% *}"
    described "$name"
  done
  version=$("$prefix/bin/lrat_check" --version | cut -d ' ' -f 2-)
  for name in checked checked_all circuit_pdr circuit_sweep cubes pieces proof_picture sessions; do
    same "$name --version" "$name $version" "$("$prefix/bin/$name" --version)"
  done
}

# words NAME: the options of a program, and its calls where it has several
words() {
  local help
  help=$("$prefix/bin/$1" --help)
  list options "$help"
  list calls "$help"
}

# offered NAME: what the completions of zsh and fish offer is that too
offered() {
  local zsh=$prefix/share/zsh/site-functions/_$1 fish=$prefix/share/fish/vendor_completions.d/$1.fish
  same "completions of $1 for zsh" "#compdef $1"$'\n'"$(words "$1")" \
    "$(sed -n "1p;s/^  '\(--[a-z-]*\)\[.*/\1/p" "$zsh"; sed -n "s/^  '1:call:(\(.*\))' .*/\1/p" "$zsh" | tr ' ' '\n')"
  same "completions of $1 for fish" "$(words "$1" | sed 's/^--//')" \
    "$(sed -n "s/^complete -c $1 \(-n __fish_use_subcommand -a\|-l\) \([a-z-]*\) .*/\2/p" "$fish")"
  if [[ $has_zsh ]]; then
    zsh -n "$zsh" || wrong=1
  fi
  if [[ $has_fish ]]; then
    same "what fish offers for $1 --" "$(words "$1" | grep -- -- | sort)" \
      "$(fish -c "source '$fish'; complete -C '$1 --'" | cut -f 1 | sort)"
  fi
}

# said_beside NAME HELP: lines of a page that are not in what its program says of itself
said_beside() {
  local line all
  all=$(tr -s ' \n' ' ' <<< "$2")
  sed '/^\.SH SEE ALSO/,$d; /^\./d; s/\\f[BIR]//g; s/\\&//; s/\\-/-/g; s/\\e/\\/g' | sed "s/\\\\(aq/'/g; s/^$1 - //" | while read -r line; do
    [[ ${all,,} == *"${line,,}"* ]] || echo "$line"
  done
}

# Each page and its completions are of its program, and the pages name each other.
case_pages() {
  has_zsh='' has_fish=''
  if has zsh; then
    has_zsh=yes
  fi
  if has fish; then
    has_fish=yes
  fi
  for name in "${all[@]}"; do
    page=$prefix/share/man/man1/$name.1
    same "the page of $name" ".TH ${name^^} 1" "$(head -n 1 "$page" | cut -d ' ' -f 1-3)"
    if has man; then
      text=$(MANWIDTH=400 man --no-hyphenation --warnings -l "$page" 2> "$work/warned")
      usage=$("$prefix/bin/$name" --help)
      usage=${usage%%$'\n'*}
      if [[ $text != *"${usage#usage: }"* || -s $work/warned ]]; then
        printf 'man %s: %s\n%s\n' "$name" "$(cat "$work/warned")" "$text"
        wrong=1
      fi
    fi
    usage=$("$prefix/bin/$name" --help)
    same "sections of $name" "$(printf '%s\n' NAME SYNOPSIS DESCRIPTION; sed -n 's/^\([a-z][a-z ]*\):$/\U\1/p' <<< "$usage"; echo 'SEE ALSO')" \
      "$(sed -n 's/^\.SH //p' "$page")"
    same "sections that $name lacks" '' \
      "$(comm -23 <(printf '%s\n' OPERANDS OPTIONS 'EXIT STATUS' EXAMPLES | sort) <(sed -n 's/^\.SH //p' "$page" | sort))"
    same "what the page of $name says beside --help" '' "$(said_beside "$name" "$usage" < "$page")"
    same "what the page of $name names" "$(printf '%s\n' "${all[@]}" | grep -vx "$name")" \
      "$(sed -n '/^\.SH SEE ALSO/,$p' "$page" | grep -o 'fB[^\]*' | sed 's/^fB//')"
    # shellcheck source=/dev/null # as installed
    same "completions of $name" "complete -o default -W '$(words "$name" | tr '\n' ' ' | sed 's/ $//')' $name" \
      "$(. "$prefix/share/bash-completion/completions/$name" && complete -p "$name")"
    offered "$name"
  done
}

# As they are used: the programs from the path, and the script with them.
case_cubes() {
  printf '1 2 0\n1 -2 0\n-1 2 0\n-1 -2 0\n' > "$work/four.cnf"
  printf '1 0\n-1 0\n' > "$work/two.txt"
  mkdir "$work/parts"
  echo '0' | tee "$work/parts/1.drat" "$work/parts/2.drat" > "$work/parts/closing.drat"
  said=$(
    PATH=$prefix/bin:$PATH
    cd "$work"
    cubes check four.cnf two.txt parts 1 2 closing
    cubes report four.cnf two.txt parts
  )
  same 'cubes' 's VERIFIED UNSAT BY 3 RECEIPTS' "$said"
}

case_checked() {
  printf '#!/bin/sh\necho 0 > "$2"; exit 20\n' > "$work/solver"
  chmod +x "$work/solver"
  printf '1 0\n-1 0\n' > "$work/opposite.cnf"
  status=0
  said=$(PATH=$prefix/bin:$PATH checked "$work/solver" "$work/opposite.cnf") || status=$?
  same 'checked' '20 s VERIFIED UNSAT' "$status $said"
}

# What records sessions: as it is installed it shows the names of picosat alone, and records.
case_records() {
  only_with c++
  layer=$prefix/lib/cefindrato/picosat_preload.so
  same 'names of the layer' '' "$(nm -D --defined-only "$layer" | awk '{ print $3 }' | grep -v '^picosat_' || true)"
  same 'what the layer loads' '' "$(readelf -d "$layer" | grep NEEDED | grep -vE 'lib(c|m|dl)\.so|ld-linux' || true)"
  if [[ -e /usr/include/picosat/picosat.h ]]; then
    cc -O2 -o "$work/resolver" "$top/tests/sessions/resolver.c" -lpicosat
    mkdir "$work/recorded"
    # (LD_PRELOAD takes a blank for the end of a name)
    cp "$layer" "$work/layer.so"
    said=$(SESSION_RECORD=$work/recorded/it LD_PRELOAD=$work/layer.so "$work/resolver" 20 20)
    same 'a recorded session' "all answers are shown: $said, 0 unknown, in 1 session" \
      "$(PATH=$prefix/bin:$PATH sessions check "$work/recorded" 2>&1 || true)"
  else
    not_tried "$(missing picosat)"
  fi
}

case_sources() {
  for name in sessions ipasir; do
    same "sources of $name" "$(cd "$top/bindings/$name" && sha256sum -- *)" "$(cd "$prefix/share/cefindrato/$name" && sha256sum -- *)"
  done
}

# What checks them: the layer as it is installed, by `verified --run`, for a program that is linked with it by its place.
case_layer() {
  only_with c++
  [[ -e $prefix/lib/libcefindrato_ipasir.so ]] || untried 'no layer over CaDiCaL'
  layer=$prefix/lib/libcefindrato_ipasir.so
  same 'names of that layer' '' "$(nm -D --defined-only "$layer" | awk '{ print $3 }' | grep -v '^ipasir_' || true)"
  cc -O2 -I "$top/bindings/sessions" -o "$work/circuit" "$top/tests/sessions/circuit.c" "$layer"
  said=$("$prefix/bin/verified" --run env "LD_LIBRARY_PATH=$prefix/lib" "$work/circuit" 3 5 2>&1)
  same 'a session that is checked' $'5 satisfiable, 15 unsatisfiable\ncefindrato: 20 answers, all shown: 5 satisfiable, 15 unsatisfiable, 0 unknown' "$said"
  # (the sources as they are installed, over the library as it is installed)
  c++ -std=c++17 -I "$prefix/include" -c -o "$work/layer.o" "$prefix/share/cefindrato/ipasir/ipasir_checked.cpp"
}

# moved: the folder, to another place
moved() {
  mv "$prefix" "$work/moved to"
  prefix="$work/moved to"
}

# The library by pkg-config, in a folder that was moved: the shared one, and the static one.
case_pkg_config() {
  only_with pkg-config
  moved
  export PKG_CONFIG_PATH=$prefix/lib/pkgconfig
  same 'the version' "$("$prefix/bin/lrat_check" --version | cut -d ' ' -f 2)" "$(pkg-config --modversion cefindrato)"
  local flags=() libraries=() layer_flags=()
  eval "flags=($(pkg-config --cflags cefindrato)) libraries=($(pkg-config --libs cefindrato))"
  data=("$top/tests/data/board6.cnf" "$top/tests/data/board6.lrat")
  cc -pthread "${flags[@]}" -o "$work/shared" "$top/tests/bindings/test.c" "${libraries[@]}"
  LD_LIBRARY_PATH=$prefix/lib "$work/shared" "${data[@]}" || wrong=1
  if [[ -e $prefix/lib/libcefindrato_ipasir.so ]]; then
    eval "layer_flags=($(pkg-config --cflags --libs cefindrato_ipasir))"
    cc -I "$top/bindings/sessions" -o "$work/circuit" "$top/tests/sessions/circuit.c" "${layer_flags[@]}"
    same 'the layer by pkg-config' 'cefindrato: 8 answers, all shown: 2 satisfiable, 6 unsatisfiable, 0 unknown' \
      "$(LD_LIBRARY_PATH=$prefix/lib "$work/circuit" 3 2 2>&1 > "$work/said")"
  fi
  cc -pthread "${flags[@]}" -o "$work/static" "$top/tests/bindings/test.c" "$prefix/lib/libcefindrato.a"
  "$work/static" "${data[@]}" || wrong=1
  if has c++; then
    c++ -std=c++17 -pthread "${flags[@]}" -o "$work/cpp" "$top/tests/bindings/test.cpp" "${libraries[@]}"
    LD_LIBRARY_PATH=$prefix/lib "$work/cpp" "${data[@]}" || wrong=1
  fi
}

# A run that fails midway leaves a list, by which what it left is taken away; one that can't begin leaves nothing.
case_fails() {
  mkdir "$work/full"
  touch "$work/full/lib"
  if "$top/install.sh" --built "$work/full" > "$work/said" 2>&1; then
    echo "installed over a file in the place of a folder"
    wrong=1
  fi
  same 'the list of a run that failed' yes "$([[ -f $work/full/share/cefindrato/installed ]] && echo yes)"
  "$top/install.sh" --uninstall "$work/full"
  same 'what is left of it' "$work/full"$'\n'"$work/full/lib" "$(find "$work/full" | sort)"
  status=0
  said=$(RT=no-such-rt "$top/install.sh" --built "$work/none" 2>&1) || status=$?
  same 'without the toolchain' '1 no-such-rt is not on the path: the library needs two archives of the toolchain' "$status $said"
  same 'what it installed' '' "$(find "$work/none" 2> /dev/null || true)"
}

# Once more over itself, where it was moved, and away: nothing is left but what others put there.
case_uninstall() {
  moved
  find "$prefix" | sort > "$work/first"
  "$top/install.sh" --built "$prefix"
  same 'what is there after a second time' "$(cat "$work/first")" "$(find "$prefix" | sort)"
  touch "$prefix/bin/mine"
  "$top/install.sh" --uninstall "$prefix"
  same 'what is left' "$prefix"$'\n'"$prefix/bin"$'\n'"$prefix/bin/mine" "$(find "$prefix" | sort)"
}

case_staged() {
  DESTDIR=$work/stage "$top/install.sh" --built /usr
  same 'the list' "$(cd "$work/stage/usr" && find . ! -type d | sort)" "$(sed -n 's/^file /.\//p' "$work/stage/usr/share/cefindrato/installed" | sort)"
  DESTDIR=$work/stage "$top/install.sh" --uninstall /usr
  same 'what is left of it' '' "$(find "$work/stage/usr" 2> /dev/null || true)"
}

# What is not installed is not taken away, and a wrong call says how.
case_calls() {
  for words in "--uninstall $work/none" '' '--help' '/a /b'; do
    status=0
    # shellcheck disable=SC2086
    "$top/install.sh" $words > "$work/said" 2>&1 || status=$?
    same "install.sh $words" 2 "$status"
  done
}

try_cases
