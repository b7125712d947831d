#!/usr/bin/env bash
# `tools/checked_all`, which is `checked --all`: random formulas by the solvers that are there, against brute force, with an interrupt and
# an audit; solvers that are wrong, crash or hang; going on; rows that no longer fit; and files that are not written over.
#
# The programs must be built: `rt ci` does it, or `rt run` in their folders.
set -euo pipefail
. "$(dirname "$0")/lib.sh"
on_path drat_check drat_cut join_check lrat_check model_check checked checked_all pieces
mkdir "$work/room"
export TMPDIR=$work/room
cd "$work"

# ends STATUS OUTPUT COMMAND..: it must end so, and write this to standard output, perhaps with a line of PAR2; nothing is left where
# `checked` works
ends() {
  local status=0 said
  said=$("${@:3}" 2> err) || status=$?
  said=$(sed '/^PAR2: [0-9]*[.][0-9]\{3\} s, with [0-9.]* s as the limit$/d' <<< "$said")
  if [[ $status != "$1" || $said != "$2" || $(ls room) ]]; then
    printf '%s: status %d, it wrote: %s %s, it leaves %s\n' "${*:3}" "$status" "$said" "$(cat err)" "$(ls room)"
    wrong=1
    rm -rf room/*
  fi
}

# because WORDS: the reason of the last call has to have these words
because() {
  if ! grep -qF -- "$1" err; then
    printf 'no "%s" in: %s\n' "$1" "$(cat err)"
    wrong=1
  fi
}

# counts UNSAT SAT NO_ANSWER REJECTED [MALFORMED] [NOT_CHECKED]: the summary
counts() {
  local all=$(($1 + $2 + $3 + $4 + ${5:-0} + ${6:-0}))
  echo "$all formula$([[ $all == 1 ]] || echo s): $1 s VERIFIED UNSAT, $2 s VERIFIED SAT, $3 no answer, ${6:-0} not checked, $4 rejected," \
    "${5:-0} malformed"
}

# solver NAME: a solver that is this script. It is called with its options, a formula, and a name for its proof.
solver() {
  { echo '#!/bin/sh'; cat; } > "bin/$1.new"
  chmod +x "bin/$1.new"
  mv "bin/$1.new" "bin/$1"
}

judged=(python3 -B "$top/tests/checked_all/judged.py")

# ended WHAT: the processes of `pids` end within seconds
ended() {
  local pid
  while read -r pid; do
    for _ in {1..50}; do
      [[ -d /proc/$pid ]] && ! grep -q '^State:.[ZX]' "/proc/$pid/status" 2> null || continue 2
      sleep 0.1
    done
    echo "$1: $pid still runs"
    wrong=1
  done < pids
  : > pids
}

# until_so COMMAND..: waits until the command ends well, some minutes at most
until_so() {
  for _ in {1..6000}; do
    ! "$@" || return 0
    sleep 0.05
  done
  echo "not so: $*"
  wrong=1
}

# heeding CALL..: the call in place of this process. It heeds signals also if this test was started to ignore them, as by nohup
heeding() {
  exec python3 -c '
import os, signal, sys
for it in signal.SIGHUP, signal.SIGINT, signal.SIGQUIT, signal.SIGTERM:
    signal.signal(it, signal.SIG_DFL)
os.execvp(sys.argv[1], sys.argv[1:])' "$@"
}

# stopping NAME: makes a solver NAME-stopping, which is NAME, but hangs at the formula that the file `slow` names
stopping() {
  solver "$1-stopping" << END
for word; do
  [ "\${word##*/}" != "\$(cat '$work/slow')" ] || { echo \$\$ >> '$work/pids'; exec sleep 600; }
done
exec $1 "\$@"
END
}

# lines N: random.json has this many rows
lines() {
  [[ $(wc -l < random.json) == "$1" ]]
}

printf 'p cnf 2 4\n1 2 0\n1 -2 0\n-1 2 0\n-1 -2 0\n' > four.cnf
printf 'p cnf 3 3\n1 2 0\n-1 3 0\n-2 -3 0\n' > other.cnf
solver refuter << 'END'
printf '1 0\n0\n' > "$2"; exit 20
END
solver finder << 'END'
printf 's SATISFIABLE\nv 1 -2 3 0\n'; exit 10
END
solver right << 'END'
grep -q '^1 -2' "$1" && exec refuter "$@" || exec finder "$@"
END

# Random formulas, by the solvers that are there, all into one file. Each call is interrupted when one formula is left, and made again:
# then only this formula is solved. For minisat a refuted formula is a rejected answer.
case_solvers() {
  "${judged[@]}" make random "${FORMULAS:-30}" 1
  refuted=$(grep -c UNSAT random.truth)
  satisfied=$(grep -vc UNSAT random.truth)
  if ((refuted < 5 || satisfied < 5)); then
    echo "of the random formulas $refuted are refuted, and $satisfied can be satisfied"
    wrong=1
  fi
  : > random.json
  rows=0
  for name in cadical picosat cryptominisat5 minisat; do
    has "$name" || continue
    stopping "$name"
    call=(checked --all 'random/*.cnf' --solver "$name-stopping" --jobs 2 --limit 100 --json random.json)
    echo 07.cnf > slow
    : > pids
    status=0
    set -m
    heeding "${call[@]}" > said 2> err &
    pid=$!
    set +m
    until_so lines "$((rows + refuted + satisfied - 1))"
    kill -TERM "$pid"
    wait "$pid" || status=$?
    same "an interrupted call of $name" '143 ' "$status $(cat said err)"
    ended "an interrupted call of $name"
    echo none > slow
    if [[ $name == minisat ]]; then
      ends 1 "$(counts 0 "$satisfied" 0 "$refuted")" "${call[@]}"
      "${judged[@]}" rows random.json random.truth rejected "$name-stopping" || wrong=1
    else
      ends 0 "$(counts "$refuted" "$satisfied" 0 0)" "${call[@]}"
      "${judged[@]}" rows random.json random.truth 's VERIFIED UNSAT' "$name-stopping" || wrong=1
    fi
    rows=$((rows + refuted + satisfied))
    lines "$rows" || {
      echo "$name: a formula has no row, or two"
      wrong=1
    }
  done
  if ((rows)); then
    ends 0 "all rows fit: $rows" checked_all --audit random.json
  fi
  if has cadical; then
    # another call of a solver has its own rows
    head -n 5 random.truth > few.truth
    ends 0 "$(counts "$(grep -c UNSAT few.truth)" "$(grep -vc UNSAT few.truth)" 0 0)" checked_all random/0[0-4].cnf --solver 'cadical --seed=7' --json random.json
    "${judged[@]}" rows random.json few.truth 's VERIFIED UNSAT' cadical --seed=7 || wrong=1
    ends 0 "$(counts 1 0 0 0)" checked_all "$(sed -n 's/\t.*UNSAT//p' random.truth | head -n 1)" --solver cadical --while
  fi
}

case_outcomes() {
  # shellcheck source=/dev/null
  . "$top/tests/checked_all/outcomes.sh"
}

case_measured() {
  # shellcheck source=/dev/null
  . "$top/tests/checked_all/measured.sh"
}

case_paper() {
  # shellcheck source=/dev/null
  . "$top/tests/checked_all/paper.sh"
}

case_continued() {
  # shellcheck source=/dev/null
  . "$top/tests/checked_all/continued.sh"
}

case_audited() {
  # shellcheck source=/dev/null
  . "$top/tests/checked_all/audited.sh"
}

case_outputs() {
  # shellcheck source=/dev/null
  . "$top/tests/checked_all/outputs.sh"
}

case_calls() {
  # shellcheck source=/dev/null
  . "$top/tests/checked_all/calls.sh"
}

try_cases
