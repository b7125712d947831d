# What is known of the programs that are proved and built here, for the scripts that pack them. They set `top`, the repository, and
# `work`, a folder of theirs, and then read this file. RT may name another `rt`.
# shellcheck shell=bash disable=SC2034,SC2154
own=$top/tools/release
if ! command -v "${RT:-rt}" > "$work/where"; then
  echo "${RT:-rt} is not on the path: by it and the archives beside it a program is compared with its object" >&2
  exit 1
fi
kit=$(dirname "$(dirname "$(readlink -f "$(< "$work/where")")")")
SOURCE_DATE_EPOCH=${SOURCE_DATE_EPOCH:-$(git -C "$top" log -1 --format=%ct)}
export SOURCE_DATE_EPOCH LC_ALL=C TZ=UTC

# whole_run GATE: what the output of `rt ci` ends with, if it is that of a whole run that passed: notes, what was done in it and what was
# kept, and the counts
whole_run() {
  local end
  end=$(sed -n '/^rt: note: /p; /^rt: ok; /p; $p' "$1")
  if [[ ! ${end##*$'\n'} =~ ^[0-9]+\ passed,\ 0\ failed$ || $'\n'$end != *$'\nrt: ok; '* ]]; then
    echo "$1 is no whole test run: its last line is: ${end##*$'\n'}" >&2
    return 1
  fi
  echo "$end"
}

# built NAME: the program of a name as it was built, if it is one of those that are proved
built() {
  local program=$top/crates/$1_main/out/$1_main
  [[ -f $program ]] && echo "$program"
}

# logic_of FILE: the sum of the logic in which a program or a library is proved, as it says itself
logic_of() {
  { readelf -p .comment "$1" 2> "$work/said" || true; } | sed -n 's/.*rattle logic=//p'
}

# is_proved_here NAME PROGRAM: whether the program, or a copy of it, was proved by the toolchain that is here
is_proved_here() {
  if [[ $(logic_of "$2") != "$(sed -n '1s/.* logic //p' "$kit/KIT-ID")"* ]]; then
    echo "$1 was not proved by $(head -n 1 "$kit/KIT-ID"): build it again" >&2
    return 1
  fi
}

# object_of NAME OBJECT: the object of a built program, for a `main` of C, if the one beside the program is its own: linked as `rt` does, it
# gives the same bytes
object_of() {
  local program
  program=$(built "$1") && [[ -f $program.o ]] && "$own/link.sh" "$program.o" "$work/again" && cmp -s "$work/again" "$program" &&
    objcopy --redefine-sym main=rattle_main "$program.o" "$2"
}

# What `--version` prints in brackets: of a program that is built from its sources, and of one of `dist/` (`stamp_of COMMIT`), in as many
# bytes.
unstamped='built from sources'
stamp_of() {
  echo "commit ${1:0:11}"
}

# unlike_built TEXT PROGRAM STAMP: how an assembly text of `dist/` differs from a program as it was built; nothing if the text is what
# tools/release/assembly.py writes of its object, and that, with `unstamped` in the place of the stamp, gives the program, linked as `rt`
# does. What the program loads is compared, byte for byte, and no names.
unlike_built() {
  local object=$work/text.o
  if ! "${CC:-cc}" -c -o "$object" "$1" 2> "$work/said" || ! python3 -B "$own/assembly.py" "$object" > "$work/text.S" 2> "$work/said"; then
    echo "it gives no object: $(head -n 1 "$work/said")"
  elif ! cmp -s "$1" "$work/text.S"; then
    echo 'it is not the text of the object that it gives'
  elif [[ $(nm -g --defined-only "$object" | cut -d ' ' -f 2-) != 'T rattle_main' ]]; then
    echo 'it defines more than rattle_main'
  elif ! "$own/stamp.py" "$object" "$3" "$unstamped" 2> "$work/said"; then
    cat "$work/said"
  elif ! objcopy --redefine-sym rattle_main=main "$object" || ! "$own/link.sh" "$object" "$work/text"; then
    echo 'it gives no program'
  elif ! loaded "$work/text" "$work/text.loaded" || ! loaded "$2" "$work/built.loaded" || ! cmp -s "$work/text.loaded" "$work/built.loaded"; then
    echo 'it does not give the program as it is built'
  fi
}

# loaded PROGRAM FILE: a program without its names, and the sum over them
loaded() {
  objcopy --strip-all --remove-section .note.gnu.build-id "$1" "$2"
}

# record_head VERSION RUN: of what commit the programs are, by what they were proved, and what passed
record_head() {
  echo "version     $1"
  echo "commit      $(git -C "$top" rev-parse HEAD)$(git -C "$top" diff --quiet HEAD || echo ', and changes that are not in it')"
  echo "date        $(date -u -d "@$SOURCE_DATE_EPOCH" +%FT%TZ)"
  sed -n '1s/^/toolchain   /p' "$kit/KIT-ID"
  sed -n 's/^\(archive\|compiler\) \(.*\)/            \1 sha256 \2/p' "$kit/WHAT"
  sed '1s/^/test run    /; 2,$s/^/            /' <<< "${2:-NONE: no output of \`rt ci\` was given; each program is proved, and nothing says that all tests passed}"
}
