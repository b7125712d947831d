#!/usr/bin/env bash
# `session_check`: a session line by line over a pipe, whose answer to each query comes before the next one is written, calls that can't
# be run, and sessions that were judged, and random ones, with and without an interaction, compared with `sessions` and by all assignments;
# and what CaDiCaL 2 writes itself, if its packages are to be had.
#
# The programs must be built: `rt ci` does it, or `rt run` in their folders.
set -euo pipefail
. "$(dirname "$0")/lib.sh"
on_path session_check drat_check lrat_check model_check
cd "$work"

printf 'p lidrup\ni 1 1 2 0\nq -1 0\ns SATISFIABLE\nm -1 2 0\n' > one.lidrup

case_alone() {
  says 0 $'q 1 satisfiable: shown\nall answers are shown: 1 satisfiable, 0 unsatisfiable, 0 unknown' session_check --alone one.lidrup
  says 0 $'q 1 satisfiable: shown\nall answers are shown: 1 satisfiable, 0 unsatisfiable, 0 unknown' session_check --alone - < one.lidrup
  sed 's/^m -1 2/m -1 -2/' one.lidrup > wrong.lidrup
  says 3 $'q 1 satisfiable: not shown: the model has no literal of a clause\n1 of 1 answers are not shown' session_check wrong.lidrup --alone
  says 2 $'cannot open none\nNo such file or directory (os error 2)' session_check --alone none
  # where descriptor 0 is closed
  closed() {
    "$@" <&-
  }
  says 2 $'cannot open -\nBad file descriptor (os error 9)' closed session_check --alone -
  usage=$'INTERACTION and PROOF, or --alone and PROOF\nusage: session_check [INTERACTION] PROOF [--alone]\nsession_check --help says more'
  says 2 "$usage" session_check one.lidrup
  says 2 "$usage" session_check --alone
  says 2 "$usage" session_check one.icnf one.lidrup --alone
  if [[ -e /dev/full ]]; then
    says 1 'error writing: No space left on device (os error 28)' bash -c 'session_check --alone one.lidrup > /dev/full'
  fi
}

case_interaction() {
  printf 'p icnf\ni 1 2 0\nq -1 0\ns SATISFIABLE\nv 2 0\n' > one.icnf
  shown=$'q 1 satisfiable: shown\nall answers are shown: 1 satisfiable, 0 unsatisfiable, 0 unknown'
  says 0 "$shown" session_check one.icnf one.lidrup
  says 0 "$shown" session_check - one.lidrup < one.icnf
  says 0 "$shown" session_check one.icnf - < one.lidrup
  says 2 '- given twice: only one file can be standard input' session_check - -
  says 2 $'cannot open none\nNo such file or directory (os error 2)' session_check none one.lidrup
  says 2 $'cannot open none\nNo such file or directory (os error 2)' session_check one.icnf none
  says 1 $'interaction: line 1: no header\nin one.lidrup' session_check one.lidrup one.lidrup
  printf 'p icnf\ni 1 2 0\nq -1 0\ns SATISFIABLE\nq 1 0\n' > longer.icnf
  says 1 $'q 1 satisfiable: shown\ninteraction: line 5: the proof ends before it\nin longer.icnf' session_check longer.icnf one.lidrup
  printf 'p icnf\nq -1 0\ns SATISFIABLE\n' > shorter.icnf
  says 1 $'proof: line 1: no header\nin standard input' session_check one.icnf - < shorter.icnf
  says 1 $'proof: line 2: the interaction does not have it here\nin one.lidrup' session_check shorter.icnf one.lidrup
  sed 's/^i 1 2/i 1 -2/' one.icnf > other.icnf
  says 3 $'q 1 satisfiable: not shown: the model has no literal of a clause\n1 of 1 answers are not shown' session_check other.icnf one.lidrup
  says 1 $'proof: line 1: no header\nin one.icnf' session_check --alone one.icnf
}

# Who writes the session waits for each answer.
case_pipe() {
  coproc checker { session_check --alone -; }
  printf 'p lidrup\ni 1 1 2 0\n' >&"${checker[1]}"
  for number in 1 2 3; do
    printf 'q -1 0\ns SATISFIABLE\nm -1 2 0\n' >&"${checker[1]}"
    if ! read -r -t 20 answer <&"${checker[0]}" || [[ $answer != "q $number satisfiable: shown" ]]; then
      echo "query $number over a pipe: ${answer-no answer}"
      wrong=1
    fi
  done
  # shellcheck disable=SC2154 # coproc sets it
  pid=$checker_PID
  eval "exec ${checker[1]}>&-"
  wait "$pid" || wrong=1
}

case_judged() {
  only_with xz
  mkdir judged
  tar -xJf "$top/tests/sessions/judged.tar.xz" -C judged
  for way in alone told; do
    python3 -B "$top/tests/sessions/$way.py" session_check "$top/tools/sessions" judged 1 "${SESSIONS:-20}" || wrong=1
  done
}

# Each query has to be shown that has no clause for it alone, by `session_check` and by `sessions`.
# traced SEED VARIABLES
traced() {
  local form kind call
  for form in 0 1; do
    for kind in lidrup idrup; do
      ./traced "$1" "$2" "$kind" "$form" traced.icnf "traced.$kind" > must
      "$top/tools/sessions" check traced.icnf "traced.$kind" > said 2> err || true
      if sed -n 's/^q \([0-9]*\) .*/^query \1 of line /p' must | grep -qf - said || ! tail -n 1 said | grep -q ' answers are '; then
        echo "sessions on seed $1, $2 variables, $kind, $form: $(cat said err)"
        wrong=1
      fi
      if [[ $kind == lidrup ]]; then
        for call in 'traced.icnf traced.lidrup' '--alone traced.lidrup'; do
          # shellcheck disable=SC2086 # two words
          session_check $call > said 2> err || true
          if grep -vxFf said must > missed || [[ -s err ]]; then
            echo "session_check $call on seed $1, $2 variables, $form: $(cat missed err)"
            wrong=1
          fi
          cat said >> all
        done
      fi
    done
  done
}

case_cadical2() {
  "$top/tests/ipasir/cadical2.sh" "$work/two" > said || untried 'CaDiCaL 2 is not to be had'
  two/bin/c++ -std=c++17 -O2 -Wall -Wextra -Werror -o traced "$top/tests/sessions/traced.cpp" -lcadical
  for seed in $(seq "${SESSIONS:-8}"); do
    for variables in 6 40 100; do
      traced "$seed" "$variables"
    done
  done
  # (some conclusions need the clause of their query)
  if ! grep -q 'not shown: a literal of the core was not assumed' all; then
    echo 'no conclusion needs the clause of its query'
    wrong=1
  fi
  if [[ -e two/bin/cadical ]]; then
    printf 'p inccnf\n1 2 0\n-1 2 0\na -2 0\na 1 0\n' > cubes.icnf
    for form in --binary --no-binary; do
      two/bin/cadical -q --lidrup "$form" cubes.icnf cubes.lidrup > said || [[ $? == 10 ]]
      says 0 $'q 1 unsatisfiable: shown\nq 2 satisfiable: shown\nall answers are shown: 1 satisfiable, 1 unsatisfiable, 0 unknown' \
        session_check --alone cubes.lidrup
    done
  fi
}

try_cases
