#!/usr/bin/env bash
# Installs the programs, the library for other languages, the layers that record sessions or check them, man pages and completions, or
# takes them away again.
#
#   ./install.sh [--built | --dist] PREFIX
#   ./install.sh --uninstall PREFIX
#
# All is proved and built first, unless nothing has changed since it was. With --built the programs are taken as `rt ci` or
# `rt run` left them in crates/*/out, and the library if it is there. With --dist a C compiler builds the programs of dist/; these are
# installed with the scripts around them and the file PROVED, without the library and the layers. CC, CFLAGS and LDFLAGS may say how.
# PREFIX/share/cefindrato/installed lists what is installed, and is written first; by this list all is taken away, also after a run that
# failed. What is installed may be moved as a whole. DESTDIR, where it is set, stands before PREFIX in all that is written. RT may name
# another `rt`, and STRIP another `strip`.
set -euo pipefail
umask 022

top=$(cd "$(dirname "$0")" && pwd)
mode=build
if [[ ${1:-} == --built || ${1:-} == --dist || ${1:-} == --uninstall ]]; then
  mode=${1#--}
  shift
fi
if (($# != 1)) || [[ -z $1 || $1 == -* ]]; then
  echo "usage: ./install.sh [--built | --dist | --uninstall] PREFIX" >&2
  exit 2
fi
prefix=$(realpath -ms "$1")
root=${DESTDIR:-}$prefix
list=$root/share/cefindrato/installed

# uninstall: takes away what the list names, and the folders that were made for it and are empty now
uninstall() {
  local kind name
  while read -r kind name; do
    case $kind in
      file) rm -f "$root/$name" ;;
      folder) rmdir "$(realpath -ms "$root/$name")" 2> /dev/null || true ;;
    esac
  done < <(tac "$list")
}

if [[ $mode == uninstall ]]; then
  if [[ ! -f $list ]]; then
    echo "nothing is installed there: no $list" >&2
    exit 2
  fi
  uninstall
  exit
fi

work=$(mktemp -d)
trap 'rm -rf "$work"' EXIT
mapfile -t programs < <(sed -n 's/^\([a-z0-9_]*\)_main:.*/\1/p' "$top/crates.txt")
tools=(checked checked_all circuit_pdr circuit_sweep cubes pieces proof_picture sessions verified)
source='built from sources'
if [[ $mode == dist ]]; then
  if [[ ! -f $top/dist/PROVED ]]; then
    echo "no $top/dist/PROVED: tools/dist.sh makes dist/" >&2
    exit 1
  fi
  for name in "${CC:-cc}" python3; do
    if ! command -v "$name" > "$work/where"; then
      echo "$name is not installed: a C compiler builds the programs, and python3 makes their man pages" >&2
      exit 1
    fi
  done
  mapfile -t programs < <(sed -n 's/^PROGRAMS = //p' "$top/dist/Makefile" | tr ' ' '\n')
  commit=$(sed -n 's/^commit  *\([0-9a-f]\{40\}\)$/\1/p' "$top/dist/PROVED")
  source=${commit:+commit ${commit:0:11}}
  source=${source:-built from sources}
fi

# built CRATE: builds a program, and says where it is
built() {
  local program=$top/crates/$1/out/$1
  if [[ $mode == dist ]]; then
    program=$work/$1
    # shellcheck disable=SC2086 # several words
    "${CC:-cc}" ${CFLAGS:--O2} ${LDFLAGS:-} -o "$program" "$top/dist/${1%_main}.S" "$top/dist/rt.c" -lm
  elif [[ $mode == build ]]; then
    "$top/tools/prove_and_run" --build "$1" 2> "$work/said" || {
      cat "$work/said" >&2
      return 1
    }
  elif [[ ! -x $program ]]; then
    echo "not built: $program" >&2
    return 1
  fi
  echo "$program"
}

# put MODE FILE NAME: what is to be installed; it stands in a folder of its own until all is there
put() {
  install -D -m "$1" "$2" "$stage/$3"
}

# put_program NAME PROGRAM: puts a program or tool with its man page, and its completions for three shells
put_program() {
  local kind
  for kind in man bash zsh fish; do
    "$top/tools/pages" "$kind" "$1" "$2" "$version" "${programs[@]}" "${tools[@]}" > "$work/$1.$kind"
  done
  put 755 "$2" "bin/$1"
  put 644 "$work/$1.man" "share/man/man1/$1.1"
  put 644 "$work/$1.bash" "share/bash-completion/completions/$1"
  put 644 "$work/$1.zsh" "share/zsh/site-functions/_$1"
  put 644 "$work/$1.fish" "share/fish/vendor_completions.d/$1.fish"
}

# put_layers: puts what records sessions and what checks them: as sources, and for picosat as the library that is loaded ahead of it. No
# name of C++ is left visible in that, so that it meets no other library's.
put_layers() {
  local name
  for name in "$top"/bindings/{sessions,ipasir}/*; do
    put 644 "$name" "share/cefindrato/${name#"$top/bindings/"}"
  done
  if ! command -v "${CXX:-c++}" > "$work/said"; then
    echo "${CXX:-c++} is not installed: no picosat_preload.so" >&2
    return
  fi
  echo '{ global: picosat_*; local: *; };' > "$work/names"
  "${CXX:-c++}" -std=c++17 -O2 -shared -fPIC -s -ffunction-sections -static-libstdc++ -static-libgcc -Wl,--gc-sections \
    "-Wl,--version-script=$work/names" -o "$work/picosat_preload.so" "$top/bindings/sessions/picosat_preload.cpp" -ldl
  put 644 "$work/picosat_preload.so" lib/cefindrato/picosat_preload.so
}

# put_library: puts the library with its headers, and the layer over CaDiCaL, if that is there
put_library() {
  local header
  if [[ $mode == built ]]; then
    "$top/bindings/build.sh" --built "$work"
  else
    "$top/bindings/build.sh" "$work"
  fi
  for header in "$top"/bindings/{c,cpp}/*.h*; do
    put 644 "$header" "include/${header##*/}"
  done
  put_linked cefindrato 'Proved checkers of proofs and answers of SAT solvers'
  if [[ -f $work/libcefindrato_ipasir.so ]]; then
    put_linked cefindrato_ipasir 'IPASIR over CaDiCaL, with a proved check of each answer'
  fi
}

# put_linked NAME TEXT: puts both forms of a library, and what pkg-config reads
put_linked() {
  local name
  cat > "$work/$1.pc" << END
prefix=\${pcfiledir}/../..
includedir=\${prefix}/include
libdir=\${prefix}/lib

Name: $1
Description: $2
Version: $version
Cflags: -I\${includedir}
Libs: -L\${libdir} -l$1
END
  put 644 "$work/lib$1.a" "lib/lib$1.a"
  put 644 "$work/lib$1.so" "lib/lib$1.so.$version"
  for name in "lib$1.so.0" "lib$1.so"; do
    ln -s "lib$1.so.$version" "$stage/lib/$name"
  done
  put 644 "$work/$1.pc" "lib/pkgconfig/$1.pc"
}

stage=$work/stage
for name in "${programs[@]}"; do
  program=$(built "${name}_main")
  "${STRIP:-strip}" -o "$work/$name" "$program"
done
version=$("$work/${programs[0]}" --version | cut -d ' ' -f 2)
for name in "${programs[@]}"; do
  put_program "$name" "$work/$name"
done
for name in "${tools[@]}"; do
  put_program "$name" "$top/tools/$name"
done
for name in "$top"/lib/cefindrato/*.py; do
  # (what the tools print by --version is what the programs print)
  sed "/^VERSION = /s/built from sources/$source/" "$name" > "$work/module"
  put 644 "$work/module" "lib/cefindrato/${name##*/}"
done
if [[ $mode == dist ]]; then
  put 644 "$top/dist/PROVED" share/doc/cefindrato/PROVED
else
  put_library
  put_layers
fi
put 644 /dev/null share/cefindrato/installed

if [[ -f $list ]]; then
  uninstall
fi
export LC_ALL=C
(cd "$stage" && find . -type d -printf '%P\n' | sort) | while read -r name; do
  if [[ ! -d $root/$name ]]; then
    echo "folder ${name:-.}"
  fi
done > "$work/installed"
(cd "$stage" && find . ! -type d -printf 'file %P\n' | sort) >> "$work/installed"
put 644 "$work/installed" share/cefindrato/installed
install -D -m 644 "$work/installed" "$list"
while read -r kind name; do
  case $kind in
    folder) mkdir -p "$root/$name" ;;
    file) cp -P --remove-destination "$stage/$name" "$root/$name" ;;
  esac
done < "$work/installed"
if [[ $mode == dist ]]; then
  echo "${#programs[@]} programs, $source, and ${#tools[@]} scripts are in $root/bin"
fi
