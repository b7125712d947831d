# shellcheck shell=bash disable=SC2034
# What the scripts of this folder share. Each begins with
#
#   set -euo pipefail
#   . "$(dirname "$0")/lib.sh"
#
# and has then the repository's folder in `top`, a folder of its own in `work`, and `wrong`, which is 0 until something is found.
#
# Functions `case_NAME` are its cases, and its last line is then `try_cases`. Each case tests something alone: it begins with the variables
# that stand before the cases, in a shell of its own, and with the files that were in `work` then.
#
#   tests/SCRIPT.sh --cases                     the names of its cases
#   tests/SCRIPT.sh --case NAME [--case NAME]   these alone
#
# A script that left something untried, and in which nothing is wrong, ends with status 77. It says so by `untried`, `not_tried`,
# `only_with` or `has` alone. A comment `# needs: PATH ..` names files of the repository that its text does not (tests/run/keys.py).
mapfile -t case_names < <(sed -n 's/^case_\([a-z0-9_]*\)() {$/\1/p' "$0")
cases_asked=() operands=()
while (($# > 0)); do
  case $1 in
    --cases)
      ((${#case_names[@]} == 0)) || printf '%s\n' "${case_names[@]}"
      exit 0
      ;;
    --case)
      if [[ -z ${2:-} || " ${case_names[*]} " != *" $2 "* ]]; then
        echo "$0 has no case '${2:-}'; its cases: ${case_names[*]}" >&2
        exit 2
      fi
      cases_asked+=("$2")
      shift 2
      ;;
    *)
      operands+=("$1")
      shift
      ;;
  esac
done
set -- "${operands[@]}"

top=$(cd "$(dirname "${BASH_SOURCE[0]}")/.." && pwd)
work=$(mktemp -d)
trap 'leave "$?"' EXIT
wrong=0
cases_begun=0

# leave STATUS: at the end of a script, whose cases were tried if it ends well
leave() {
  local status=$1
  [[ $BASHPID == "$$" ]] || return 0
  if [[ $status == 0 && -e $work.untried ]]; then
    status=77
  fi
  rm -rf "$work" "$work.begun" "$work.untried" "$work.others"
  if [[ $status == 0 && $cases_begun == 0 && ${#case_names[@]} -gt 0 ]]; then
    echo 'WRONG the cases were not tried: try_cases is not the last line'
    status=1
  fi
  exit "$status"
}

# try_cases: runs all cases, or those that were asked for, and says of each how it ended. It fails where something is wrong in one of them,
# or was before, and where a command of a case fails, which ends that case.
try_cases() {
  local case_now case_status cases_wrong=()
  cases_begun=1
  cp -a "$work" "$work.begun"
  ((wrong == 0)) || cases_wrong+=('what is before the cases')
  ((${#cases_asked[@]} > 0)) || cases_asked=("${case_names[@]}")
  for case_now in "${cases_asked[@]}"; do
    find "$work" -mindepth 1 -delete
    cp -a "$work.begun/." "$work"
    # (in a condition, commands that fail would be passed over)
    set +e
    (try_case)
    case_status=$?
    set -e
    ((case_status == 0)) || cases_wrong+=("$case_now")
  done
  if ((${#cases_wrong[@]} > 0)); then
    echo "WRONG cases: ${cases_wrong[*]}"
    return 1
  fi
}

# try_case: in a shell of its own. What it starts in the background may be ended while it still has the traps.
try_case() {
  set -e
  case_shell=$BASHPID case_how=begun wrong=0
  trap 'end_case "$?" "$BASH_COMMAND"' EXIT
  cd "$PWD"
  "case_$case_now"
  case_how=ended
}

# end_case STATUS COMMAND: says how a case ended, which may be by this command
end_case() {
  [[ $BASHPID == "$case_shell" ]] || return 0
  if [[ $case_how == begun ]]; then
    echo "WRONG $case_now: it ended with status $1, by: $2"
    exit 1
  elif ((wrong != 0)); then
    echo "WRONG $case_now"
    exit 1
  elif [[ $case_how == untried ]]; then
    echo "-     $case_now: not tried"
  else
    echo "ok    $case_now"
  fi
}

# not_tried WHY: something is missing, and the case goes on without it. That stands in a file, since it may be said in a shell of its own.
not_tried() {
  touch "$work.untried" || exit 1
  echo "$1: not tried"
}

# untried WHY: the case ends here, since something is missing
untried() {
  not_tried "$1"
  case_how=untried cases_begun=1
  exit 0
}

# missing PROGRAM: that it is not installed, and the package that has it
missing() {
  echo "$1 is not installed$(sed -n "s/^$1 \(.*\)/ (Debian: \1)/p" "$top/tests/run/optional.txt")"
}

# With ASKED_ONLY=1 no command of tests/run/optional.txt is on the path before `has` or `only_with`
# has asked for it, though it is installed: so a script that ends well asks for all that it calls.
if [[ ${ASKED_ONLY:-} ]]; then
  export ALL_PATH=${ALL_PATH:-$PATH}
  mkdir "$work/.asked" "$work.others"
  while read -r -d : folder; do
    ln -s "$folder"/* "$work.others/" 2> "$work/where" || true
  done <<< "$ALL_PATH:"
  sed -n 's/^\([^#][^ ]*\) .*/\1/p' "$top/tests/run/optional.txt" |
    (cd "$work.others" && xargs rm -f)
  export PATH=$work/.asked:$work.others
fi

# is_there PROGRAM: whether it is installed
is_there() {
  if [[ ${ASKED_ONLY:-} && ! -e $work/.asked/$1 ]]; then
    PATH=$ALL_PATH type -P "$1" > "$work/where" || return 1
    ln -s "$(< "$work/where")" "$work/.asked/$1"
  fi
  command -v "$1" > "$work/where"
}

# only_with PROGRAM..: the case ends here if one of them is not installed
only_with() {
  local name
  for name in "$@"; do
    is_there "$name" || untried "$(missing "$name")"
  done
}

# Python is started thousands of times, and most of a start is to look for the interpreter, where `python3` is a script that does so, and to
# load what lies in site-packages, which nothing here needs that is not run by -m: this `python3` does neither.
if type -P python3 > "$work/where"; then
  mkdir "$work/.python"
  interpreter=$(python3 -S -c "import sys; print(sys.executable)")
  printf '#!/bin/sh\n[ "$1" = -m ] || set -- -S "$@"\nexec "%s" "$@"\n' "$interpreter" > "$work/.python/python3"
  chmod +x "$work/.python/python3"
  export PATH=$work/.python:$PATH
fi

# built NAME: the path of a program, which `rt ci` builds, or `rt run` in its folder. Where it is not built, that ends the script.
built() {
  local path=$top/crates/$1_main/out/$1_main
  if [[ ! -x $path ]]; then
    echo "not built: $path" >&2
    return 1
  fi
  echo "$path"
}

# needs NAME..: programs that must be built
needs() {
  local name
  for name in "$@"; do
    built "$name" > "$work/where"
  done
}

# on_path NAME..: these programs, and tools of these names, come first on the path
on_path() {
  local name path
  mkdir -p "$work/bin"
  for name in "$@"; do
    path=$top/tools/$name
    if [[ ! -f $path ]]; then
      path=$(built "$name")
    fi
    ln -s "$path" "$work/bin/$name"
  done
  export PATH=$work/bin:${PATH#"$work/bin:"}
}

# as_installed TOOL..: the folder `alone`, with these tools as they are installed, and no program
as_installed() {
  mkdir -p alone/bin alone/lib
  cp "${@/#/$top/tools/}" alone/bin
  cp -R "$top/lib/cefindrato" alone/lib
}

# has PROGRAM: whether it is installed; if not, that is said, unless no package has it
has() {
  is_there "$1" || {
    grep -qx "$1 -" "$top/tests/run/optional.txt" || not_tried "$(missing "$1")"
    return 1
  }
}

# part_ended COMMAND..: a part of this script, which is a script itself, has to end well, and may leave something untried
part_ended() {
  local status=0
  "$@" || status=$?
  case $status in
    0) ;;
    77) touch "$work.untried" || exit 1 ;;
    *) wrong=1 ;;
  esac
}

# fault WORD..: says what is wrong
fault() {
  echo "WRONG $*"
  wrong=1
}

# same WHAT WANTED FOUND
same() {
  if [[ $2 != "$3" ]]; then
    printf '%s: not\n%s\nbut\n%s\n' "$1" "$2" "$3"
    wrong=1
  fi
}

# holds FILE TEXT: the file must hold this
holds() {
  if [[ $(< "$1") != "$2" ]]; then
    printf '%s holds:\n%s\n' "$1" "$(< "$1")"
    wrong=1
  fi
}

# expect STATUS OUT [ERR] -- COMMAND..: the call must end so, and write this to standard output, and this to standard error if it is named. What
# it writes is in the files `out` and `err` of `work`.
expect() {
  local status=0 wanted=$1 out=$2 err='' is_named=''
  shift 2
  if [[ $1 != -- ]]; then
    is_named=yes err=$1
    shift
  fi
  "${@:2}" > "$work/out" 2> "$work/err" || status=$?
  if [[ $status != "$wanted" || $(< "$work/out") != "$out" || ($is_named && $(< "$work/err") != "$err") ]]; then
    printf '%s: status %d, it wrote:\n%s\n%s\n' "${*:2}" "$status" "$(< "$work/out")" "$(< "$work/err")"
    wrong=1
  fi
}

# faults WORDS COMMAND..: the call must end with status 2, say why in one line on standard error, with these words, and write nothing else
faults() {
  local status=0
  "${@:2}" > "$work/out" 2> "$work/err" || status=$?
  if [[ $status != 2 || -s $work/out || $(wc -l < "$work/err") != 1 || $(< "$work/err") != *"$1"* ]]; then
    printf '%s: status %d, without "%s" it wrote: %s %s\n' "${*:2}" "$status" "$1" "$(< "$work/out")" "$(< "$work/err")"
    wrong=1
  fi
}

# says STATUS OUTPUT COMMAND..: the call must end so, and write this to both streams together
says() {
  local status=0 said
  said=$("${@:3}" 2>&1) || status=$?
  if [[ $status != "$1" || $said != "$2" ]]; then
    printf '%s: status %d, it wrote:\n%s\n' "${*:3}" "$status" "$said"
    wrong=1
  fi
}

# formula WORD..: a formula of tests/drat/formulas.py
formula() {
  python3 -B "$top/tests/drat/formulas.py" "$@"
}
