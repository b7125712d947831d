#!/usr/bin/env bash
# That the keys of cheap scripts have all files that these open, and that each tool that not every
# machine has may be missing.
# needs: test.sh tests/run tests/records.sh tests/proof_picture.sh tests/prove_and_run.sh tests/memory.sh tests/solver_runs.sh tests/verified.sh
set -euo pipefail
. "$(dirname "$0")/lib.sh"
# shellcheck source=SCRIPTDIR/test_run/setup.sh
. "$top/tests/test_run/setup.sh"
# scripts of some seconds, of which the latter need programs
cheap=(records proof_picture prove_and_run)
with_programs=(memory solver_runs verified)

# What cheap scripts open and run of the repository is in their keys.
case_opened() {
  only_with strace
  if [[ -x $top/crates/drat_check_main/out/drat_check_main ]]; then
    cheap+=("${with_programs[@]}")
  else
    not_tried 'no programs are built'
  fi
  for name in "${cheap[@]}"; do
    ends 0 "$name" strace -f --seccomp-bpf -y -qq -e trace=open,openat,execve -o "$work/trace" "$top/tests/$name.sh"
    {
      sed -n "s|.* = [0-9]*<$top/\([^>]*\)>.*|\1|p" "$work/trace"
      sed -n 's|.*execve("\(/[^"]*\)".* = 0$|\1|p' "$work/trace" | { xargs -r realpath -q || true; } | sed -n "s|^$top/||p"
    } | sort -u > "$work/opened"
    same "what tests/$name.sh opens and its key has not" '' \
      "$(cd "$top" && comm -23 "$work/opened" <(python3 -B tests/run/keys.py --files "$name" | sort) | grep -vE '^\.git(/|$)' |
        while read -r file; do [[ ! -f $file ]] || echo "$file"; done)"
    grep -qx "tests/$name.sh" "$work/opened" || fault "tests/$name.sh does not open itself"
  done
}

# Cheap scripts where the path has only what each machine has; and where one command is missing that
# is here and that they ask for.
case_missing() {
  mkdir "$work/base" "$work/all"
  while read -r name; do
    path=$(type -P "$name") || untried "$name is not installed, which each machine has"
    ln -s "$path" "$work/base/$name"
  done < <(grep -v '^#' "$top/tests/run/base.txt")
  IFS=: read -r -a folders <<< "$PATH"
  for folder in "${folders[@]}"; do
    ln -s "$folder"/* "$work/all/" 2> "$work/null" || true
  done
  for name in "${cheap[@]}"; do
    ends 0 "$name with what each machine has" env PATH="$work/base" "$top/tests/$name.sh"
    sed '/^ *#/d' "$top/tests/$name.sh" > "$work/code"
    while read -r command _; do
      if [[ -e $work/all/$command ]] && grep -qw -e "$command" "$work/code"; then
        mv "$work/all/$command" "$work/hidden"
        ends 77 "$name without $command" env PATH="$work/all" "$top/tests/$name.sh"
        grep -q "^$command is not installed .*: not tried$" "$work/said" || fault "$name does not say that $command is missing"
        mv "$work/hidden" "$work/all/$command"
      fi
    done < <(grep -v '^#' "$top/tests/run/optional.txt")
  done
}

# Where a command of optional.txt is there only once it was asked for: a script that calls it without
# that fails, though it is installed, and cheap scripts ask for all that they call.
case_asked() {
  mkdir "$work/more"
  printf '#!/bin/sh\n' > "$work/more/a_tool"
  chmod +x "$work/more/a_tool"
  echo 'a_tool -' >> tests/run/optional.txt
  export PATH=$PATH:$work/more
  # shellcheck disable=SC2016 # for the scripts
  for line in a_tool 'has a_tool && a_tool' 'only_with a_tool; a_tool' '(only_with a_tool); a_tool' \
    'command -v a_tool'; do
    printf 'set -euo pipefail\n. "$(dirname "$0")/lib.sh"\n%s\n' "$line" | write calls
    ends 0 "$line" tests/calls.sh
    if [[ $line == *only_with* || $line == *has* ]]; then
      ends 0 "$line, which asks" env ASKED_ONLY=1 tests/calls.sh
    else
      ends "$([[ $line == a_tool ]] && echo 127 || echo 1)" "$line, which does not ask" env ASKED_ONLY=1 tests/calls.sh
    fi
  done
  if [[ -x $top/crates/drat_check_main/out/drat_check_main ]]; then
    cheap+=("${with_programs[@]}")
  else
    not_tried 'no programs are built'
  fi
  for name in "${cheap[@]}"; do
    ends 0 "$name by what it asks for" env ASKED_ONLY=1 "$top/tests/$name.sh"
  done
}

# What a script calls that not each machine has stands behind a question for it.
case_guards() {
  # (indented, since these are no cases of this script)
  sed 's/^  //' > calls.sh << 'END_OF_SCRIPT'
  only_with yosys
  said=$(valgrind true)
  run() {
    timeout 9 cadical x
  }
  case_one() {
    c++ -c x.cpp
    only_with c++ gcc
    if gcc x.c; then yosys; fi
  }
  case_two() {
    for name in picosat z3; do
      has "$name" || continue
      "$name"
    done
    has clasp && clasp x
    # node is called
    echo 'node' "node node"
    picosat x | z3
    ! minisat x
    echo 'z3: not tried'
  }
END_OF_SCRIPT
  same 'calls without a question' 'case_one calls c++
case_two calls minisat
it says itself that something is not tried
outside of functions calls valgrind
run calls cadical' "$(python3 -B "$top/tests/run/guards.py" calls.sh | sed 's/^calls.sh: //; s/, which.*//' | sort)"
}

try_cases
