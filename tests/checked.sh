#!/usr/bin/env bash
# `tools/checked` with solvers that are written here: right and wrong answers to formulas and to claims, a solver that crashes, says
# nothing, writes a damaged proof or is killed, and a run that is interrupted; formulas as they are found; all its options. By each shell
# that is there, side by side: `sh`, `bash`, and that of busybox, which gets no programs but those of busybox. `tests/verified.sh` has the
# solvers that are there.
#
#   tests/checked.sh [SHELL]    its cases by this shell alone
#
# The programs must be built: `rt ci` does it, or `rt run` in their folders.
set -euo pipefail
. "$(dirname "$0")/lib.sh"

if (($# == 0)); then
  asked=() pids=()
  for name in "${cases_asked[@]}"; do
    asked+=(--case "$name")
  done
  for shell in sh bash 'busybox sh'; do
    if has "${shell% sh}"; then
      "$0" "${asked[@]}" "$shell" > "$work/$shell" 2>&1 &
      pids[$!]=$shell
    fi
  done
  for pid in "${!pids[@]}"; do
    part_ended wait "$pid"
    sed "s/^/${pids[$pid]}: /" "$work/${pids[$pid]}"
  done
  cases_begun=1
  exit "$wrong"
fi

on_path drat_check drat_cut join_check lrat_check model_check follows_check circuit_check minimal_check
mkdir "$work/room"
export TMPDIR=$work/room
cd "$work"
read -ra shell <<< "$1"
shell[0]=$(type -P "${shell[0]}")
# what `checked` finds on PATH
reach=$PATH
if [[ $1 == busybox* ]]; then
  mkdir applets
  busybox --install -s "$work/applets"
  reach=$work/bin:$work/applets
fi
for tool in checked verified; do
  printf '#!/bin/sh\nexport PATH=%q\nexec %s %q "$@"\n' "$reach" "${shell[*]}" "$top/tools/$tool" > "bin/$tool"
  chmod +x "bin/$tool"
done

# ends STATUS OUTPUT COMMAND..: it must end so, write this to standard output, a reason exactly if there is no verdict, and
# leave nothing where it works
ends() {
  local status=0 said
  said=$("${@:3}" 2> err) || status=$?
  if [[ $status != "$1" || $said != "$2" ]]; then
    printf '%s: status %d, it wrote: %s %s\n' "${*:3}" "$status" "$said" "$(cat err)"
    wrong=1
  elif [[ ! $2 && ! -s err ]]; then
    printf '%s: no reason is given\n' "${*:3}"
    wrong=1
  fi
  clean "${*:3}"
}

# clean WHAT: nothing is left where `checked` works
clean() {
  if [[ $(ls room) ]]; then
    printf '%s: it leaves %s\n' "$1" "$(find room)"
    wrong=1
    rm -rf room/*
  fi
}

# because WORDS: the reason of the last call has to have these words
because() {
  if ! grep -qF -- "$1" err; then
    printf 'no "%s" in: %s\n' "$1" "$(cat err)"
    wrong=1
  fi
}

# solver NAME: a solver that is this script. It is called with its options, a formula, and a name for its proof.
solver() {
  { echo '#!/bin/sh'; cat; } > "bin/$1"
  chmod +x "bin/$1"
}

# keeps WANTED: the kept file must hold this, or not be there, and nothing is left beside it
keeps() {
  if [[ $(cat kept* 2> null) != "$1" || $(find . -name 'kept?*') ]]; then
    printf 'kept: %s\n' "$(tail -n +1 kept* 2> null)"
    wrong=1
  fi
}

# await FILE: waits until it is there, some seconds at most
await() {
  for _ in {1..100}; do
    [[ ! -e $1 ]] || return 0
    sleep 0.05
  done
  echo "no $1"
  wrong=1
}

# gone PID: it ends within a second or so. One that has ended, and which nobody has asked for yet, is no process any more.
gone() {
  for _ in {1..20}; do
    [[ -d /proc/$1 ]] && ! grep -q '^State:.[ZX]' "/proc/$1/status" 2> null || return 0
    sleep 0.1
  done
  return 1
}

# heeding CALL..: the call in place of this process, with signals heeded also where the test was started deaf to them, as by nohup
heeding() {
  exec python3 -c '
import os, signal, sys
for it in signal.SIGHUP, signal.SIGINT, signal.SIGQUIT, signal.SIGTERM:
    signal.signal(it, signal.SIG_DFL)
os.execvp(sys.argv[1], sys.argv[1:])' "$@"
}

# stopped SIGNAL STATUS CALL..: a call that is interrupted while a solver or a checker runs, or with - that ends by itself; what it started ends too
stopped() {
  local status=0 pid began=$SECONDS
  rm -f begun
  : > pids
  # a group of its own, since a shell without one starts what stands in the background deaf to interrupts
  set -m
  heeding "${@:3}" > said 2> err &
  pid=$!
  set +m
  await begun
  [[ $1 == - ]] || kill -s "$1" "$pid"
  wait "$pid" || status=$?
  if [[ $status != "$2" || -s said ]] || ((SECONDS - began > 20)); then
    printf '%s after %s: status %d after %d s, it wrote: %s\n' "${*:3}" "$1" "$status" "$((SECONDS - began))" "$(cat said)"
    wrong=1
  fi
  while read -r pid; do
    if ! gone "$pid"; then
      echo "${*:3} after $1: $(tr '\0' ' ' < "/proc/$pid/cmdline") still runs"
      wrong=1
    fi
  done < pids
  clean "${*:3} after $1"
}

unsat='s VERIFIED UNSAT'
sat='s VERIFIED SAT'
printf 'p cnf 2 4\n1 2 0\n1 -2 0\n-1 2 0\n-1 -2 0\n' > four.cnf
printf 'p cnf 3 3\n1 2 0\n-1 3 0\n-2 -3 0\n' > other.cnf
solver refuter << 'END'
printf '1 0\n0\n' > "$2"; echo 's UNSATISFIABLE'; exit 20
END
solver finder << 'END'
printf 'c found\ns SATISFIABLE\nv 1 -2 3 0\n'; exit 10
END
# solvers that are wrong, or give no answer, and one that has LRAT
solver early << 'END'
: > "$2"; exit 20
END
solver without << 'END'
exit 20
END
solver damaged << 'END'
printf 'a\202' > "$2"; exit 20
END
solver crashing << 'END'
printf '1 0\n0\n' > "$2"; kill -SEGV $$
END
solver quiet << 'END'
printf '1 0\n0\n' > "$2"; echo 's UNKNOWN'
END
solver sleepy << 'END'
exec sleep 20
END
solver tracing << 'END'
echo > ran; exec refuter "$@"
END
solver cadical << 'END'
[ "$*" != --help ] || exec printf '  --drat=bool\n  --lrat=bool  use LRAT proof format [false]\n'
[ "$1" != --lrat ] || { cmp -s "$2" four.cnf && printf '5 1 0 1 2 0\n6 0 5 3 4 0\n' > "$3"; exit 20; }
printf '1 0\n0\n' > "$2"; exit 20
END
# one that does not end, and names the processes to be ended with it
slow='echo $$ >> pids; sleep 60 & echo $! >> pids; echo > begun; wait'
solver slow << END
printf '1 0\n0\n' > "\$2"; $slow
END

case_answers() {
  ends 20 "$unsat" checked refuter four.cnf
  ends 10 "$sat" checked finder other.cnf
  ends 20 "$unsat" checked "$work/bin/refuter" "$work/four.cnf"
  mkdir 'with blank'
  cp four.cnf 'with blank/fo ur.cnf'
  ends 20 "$unsat" checked refuter 'with blank/fo ur.cnf'
}

case_wrong_answers() {
  ends 1 '' checked refuter other.cnf
  because 'the proof that the solver wrote is not verified'
  ends 1 '' checked finder four.cnf
  because 'the answer that the solver wrote is not verified'
  ends 1 '' checked early four.cnf
  ends 1 '' checked without four.cnf
  because 'the solver wrote no proof'
  solver silent << 'END'
exit 10
END
  ends 1 '' checked silent other.cnf
  ends 1 '' checked damaged four.cnf
  solver contrary << 'END'
echo 's UNSATISFIABLE'; exit 10
END
  ends 1 '' checked contrary four.cnf
}

# An answer without its status.
case_no_status() {
  solver mild << 'END'
printf '1 0\n0\n' > "$2"; echo 's UNSATISFIABLE'
END
  ends 20 "$unsat" checked mild four.cnf
}

# No answer, though there may be a proof: it crashes, says nothing, is killed, or runs out of time.
case_no_answer() {
  ends 3 '' checked crashing four.cnf
  ends 3 '' checked quiet four.cnf
  because 'it ended with status 0'
  solver killed << 'END'
printf '1 0\n' > "$2"; kill -KILL $$
END
  ends 3 '' checked killed four.cnf
  ends 3 '' checked timeout 1 sleepy four.cnf
  because 'it ended with status 1'
}

# A checker that is none: status 0 alone is no verdict.
case_no_checker() {
  ends 1 '' env DRAT_CHECK=true checked refuter four.cnf
  ends 1 '' env MODEL_CHECK=true checked finder other.cnf
}

case_wrong_calls() {
  ends 2 '' checked
  ends 2 '' checked four.cnf
  because 'usage: checked [OPTION..] SOLVER [OPTION..] FORMULA'
  ends 2 '' checked --loud refuter four.cnf
  because 'there is no option --loud'
  ends 2 '' checked --keep
  because '--keep needs a value'
  ends 2 '' checked --while=yes refuter four.cnf
  because '--while takes no value'
  ends 2 '' checked --while --keep kept refuter four.cnf
  ends 20 "$unsat" checked --verbose -- refuter four.cnf
  because "runs: refuter $PWD/four.cnf"
  ends 2 '' checked refuter none.cnf
  because 'cannot open none.cnf'
  ends 2 '' checked refuter room
  ends 2 '' checked no_such_solver four.cnf
  because 'cannot run no_such_solver'
  ends 2 '' env DRAT_CHECK=./none checked refuter four.cnf
  ends 2 '' checked --keep none/kept refuter four.cnf
  ends 2 '' checked --keep four.cnf refuter four.cnf
  if [[ $(checked --help | head -n 1) != 'usage: checked [OPTION..] SOLVER [OPTION..] FORMULA' || $(checked -h) != "$(checked --help)" ]]; then
    echo "checked --help: $(checked --help)"
    wrong=1
  fi
  if [[ $(verified -h | head -n 1) != 'usage: verified [OPTION..] SOLVER [OPTION..] FORMULA' ]]; then
    echo "verified -h: $(verified -h)"
    wrong=1
  fi
  for option in -V --version; do
    ends 0 "$(drat_check --version | sed '1s/^drat_check/checked/')" checked "$option"
  done
}

case_calls() {
  # shellcheck source=/dev/null
  . "$top/tests/checked/calls.sh"
}

case_kept() {
  # shellcheck source=/dev/null
  . "$top/tests/checked/kept.sh"
}

case_stopped() {
  # shellcheck source=/dev/null
  . "$top/tests/checked/stopped.sh"
}

case_cores() {
  # shellcheck source=/dev/null
  . "$top/tests/checked/cores.sh"
}

case_slips() {
  # shellcheck source=/dev/null
  . "$top/tests/checked/slips.sh"
}

case_json() {
  # shellcheck source=/dev/null
  . "$top/tests/checked/json.sh"
}

case_limits() {
  # shellcheck source=/dev/null
  . "$top/tests/checked/limits.sh"
}

case_machines() {
  # shellcheck source=/dev/null
  . "$top/tests/checked/machines.sh"
}

case_minimal() {
  # shellcheck source=/dev/null
  . "$top/tests/checked/minimal.sh"
}

case_claims() {
  # shellcheck source=/dev/null
  . "$top/tests/checked/claims.sh"
}

try_cases
