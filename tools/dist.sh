#!/usr/bin/env bash
# Writes proved programs as text that a C compiler builds, for who clones the repository.
#
#   tools/dist.sh OUT [GATE]
#
# OUT gets a folder as `dist/` of the repository is:
#
#   NAME.S     the object of a proved program as assembly: its bytes, and what the linker puts among them
#   rt.c       what the programs call besides the C library, from tools/release
#   Makefile   `make` builds the programs, with `cc` alone
#   PROVED     what was proved, by what; and the sums of the files
#
# Where each object has the words `built from sources`, once, the text has the commit: `--version` prints it. If files differ from those of
# the commit, the words stay.
#
# The programs must be built, and `rt` be on the path. Their objects must be beside them, as `rt run` leaves them, and `rt ci` those that it
# proved in that run; of a program without one the text is taken that `dist/` of the repository has, if it gives the program. GATE is the
# output of `rt ci`: without it PROVED says that no whole test run stands behind it. The same sources and toolchain give the same bytes.
set -euo pipefail

if (($# < 1 || $# > 2)) || [[ -z $1 || $1 == -* ]]; then
  echo "usage: tools/dist.sh OUT [GATE]" >&2
  exit 2
fi
top=$(cd "$(dirname "$0")/.." && pwd)
out=$(realpath -m "$1")
umask 022
work=$(mktemp -d)
trap 'rm -rf "$work"' EXIT
. "$top/tools/release/proved.sh"
run=
if (($# == 2)); then
  run=$(whole_run "$2")
fi
mapfile -t names < <(sed -n 's/^PROGRAMS = //p' "$own/dist/Makefile" | tr ' ' '\n')
stamp=$unstamped
if git -C "$top" diff --quiet HEAD; then
  stamp=$(stamp_of "$(git -C "$top" rev-parse HEAD)")
fi

# object_of_text NAME OBJECT: the same of the text that `dist/` has, if that gives the program as it is built
object_of_text() {
  local its
  its=$(sed -n 's/^commit  *\([0-9a-f]\{40\}\)$/\1/p' "$top/dist/PROVED") && [[ -f $top/dist/$1.S ]] || return 1
  its=${its:+$(stamp_of "$its")}
  [[ ! $(unlike_built "$top/dist/$1.S" "$(built "$1")" "${its:-$unstamped}") ]] && objcopy --redefine-sym main=rattle_main "$work/text.o" "$2"
}

mkdir "$work/dist"
for name in "${names[@]}"; do
  if ! object_of "$name" "$work/$name.o" && ! object_of_text "$name" "$work/$name.o"; then
    echo "no object of $name as it is built: \`rt run\` leaves it, or \`rt ci --anew\`" >&2
    exit 1
  fi
  program=$(built "$name")
  is_proved_here "$name" "$program"
  "$own/stamp.py" "$work/$name.o" "$unstamped" "$stamp"
  python3 -B "$own/assembly.py" "$work/$name.o" > "$work/dist/$name.S"
  unlike=$(unlike_built "$work/dist/$name.S" "$program" "$stamp")
  if [[ $unlike ]]; then
    echo "the assembly of $name: $unlike" >&2
    exit 1
  fi
done
cp "$own/rt.c" "$own/dist/Makefile" "$work/dist/"

# record: what was proved, by what, and the sums
record() {
  local name
  record_head "$("$(built lrat_check)" --version | cut -d ' ' -f 2)" "$run"
  cat "$own/dist/record.txt"
  echo
  echo 'the logic in which each program is proved, and the sum of the program as the toolchain links it:'
  echo
  for name in "${names[@]}"; do
    printf '%-13s %s %s\n' "$name" "$(logic_of "$(built "$name")")" "$(sha256sum < "$(built "$name")" | cut -d ' ' -f 1)"
  done
  echo
  echo 'sha256 and file:'
  echo
  (cd "$work/dist" && sha256sum -- Makefile rt.c ./*.S | sed 's|\./||')
}
record > "$work/PROVED"
mv "$work/PROVED" "$work/dist/"
mkdir -p "$out"
cp "$work"/dist/* "$out/"
