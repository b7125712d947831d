#!/usr/bin/env bash
# The arrays of docs/SCALE.md, by a Slurm of its own on this machine (Debian: slurm-wlm munge cadical): 64 cubes and one proof in pieces,
# word for word, and with lists of few lines, so that there are several arrays; a task that is cancelled, a solver that is killed, a
# damaged proof, and going on; and many formulas, each a job, by `checked_all --slurm`.
#
# The programs must be built: `rt ci` does it, or `rt run` in their folders. Its daemons (munged, slurmctld, slurmd) run in the
# foreground as children of this script, with ports, keys and folders of their own, and each is ended by its id.
set -euo pipefail
. "$(dirname "$0")/lib.sh"
only_with munged slurmctld slurmd sbatch cadical
daemons=()
# what the daemons have, which stays from case to case, and the group of what is submitted in the background, in `submission`
slurm=$(mktemp -d)

# withdraw: what a case that ended early has submitted
withdraw() {
  if [[ -s $slurm/submission ]]; then
    timeout 20 scancel --quiet --user="$(id -un)" || true
    kill -- "-$(< "$slurm/submission")" 2> /dev/null || true
    rm "$slurm/submission"
  fi
}

# end STATUS: at the end of the script
end() {
  local n
  [[ $BASHPID == "$$" ]] || return 0
  withdraw
  # the last one first
  for ((n = ${#daemons[@]} - 1; n >= 0; n--)); do
    kill "${daemons[n]}" 2> /dev/null || true
    wait "${daemons[n]}" 2> /dev/null || true
  done
  rm -rf "$slurm"
  leave "$1"
}
trap 'end "$?"' EXIT
mkdir "$slurm/"{state,spool}
on_path drat_check drat_cut join_check lrat_check model_check checked checked_all cubes pieces
solver=$(command -v cadical)
export SLURM_CONF=$slurm/slurm.conf
cd "$work"

# The daemons. They talk by a socket and ports that no other Slurm has. What ends lets the next task begin at once, not at the next of their
# rounds; `sbatch --wait`, which asks ever more seldom for up to half of MinJobAge, asks every two seconds; and there are places for
# several tasks a processor, of which fewer are there than an array has tasks.
host=$(hostname -s)
user=$(id -un)
port=$((20000 + $$ % 20000))
cat > "$SLURM_CONF" << END
ClusterName=test
SlurmctldHost=$host(127.0.0.1)
SlurmctldPort=$port
SlurmdPort=$((port + 1))
AuthType=auth/munge
AuthInfo=socket=$slurm/munge
CredType=cred/munge
ProctrackType=proctrack/linuxproc
TaskPlugin=task/none
SlurmUser=$user
SlurmdUser=$user
StateSaveLocation=$slurm/state
SlurmdSpoolDir=$slurm/spool
SlurmctldPidFile=$slurm/slurmctld.pid
SlurmdPidFile=$slurm/slurmd.pid
SchedulerType=sched/builtin
SchedulerParameters=batch_sched_delay=0,sched_interval=1
MinJobAge=4
SelectType=select/cons_tres
SelectTypeParameters=CR_CPU
SlurmdParameters=config_overrides
SwitchType=switch/none
MpiDefault=none
MaxArraySize=1001
ReturnToService=2
KillWait=2
NodeName=$host NodeAddr=127.0.0.1 CPUs=16 RealMemory=8000 State=UNKNOWN
PartitionName=main Nodes=ALL Default=YES MaxTime=INFINITE State=UP
END
head -c 128 /dev/urandom > "$slurm/key"
chmod 600 "$slurm/key"
chmod 755 "$work" "$slurm"

# daemon COMMAND..: starts one, which stays in the foreground
daemon() {
  "$@" > "$slurm/$1.log" 2>&1 < /dev/null &
  daemons+=("$!")
}

# until_so WHAT COMMAND..: waits until the command ends well, some minutes at most
until_so() {
  for _ in {1..1500}; do
    ! "${@:2}" > "$slurm/said" 2>&1 || return 0
    sleep 0.2
  done
  echo "not $1: $(cat "$slurm/said")"
  tail -n 5 "$slurm"/*.log
  exit 1
}

answers() {
  [[ -S $slurm/munge ]] && munge -S "$slurm/munge" -n
}

idle() {
  [[ $(sinfo -h -o %T) == idle ]]
}

daemon munged --foreground --force --key-file="$slurm/key" --socket="$slurm/munge" --pid-file="$slurm/munged.pid" \
  --log-file="$slurm/munged.log" --seed-file="$slurm/seed"
until_so 'an answer of munged' answers
daemon slurmctld -D -i -f "$SLURM_CONF"
daemon slurmd -D -f "$SLURM_CONF"
until_so 'an idle machine' idle

# block WORDS: the block of commands under these words, as the document has it
block() {
  awk -v head="\`\`\`$1" '$0 == head { on = 1; next } /^```/ { on = 0 } on' "$top/docs/SCALE.md"
}

# The solver notes its calls. A part that `slow` names is never solved.
printf '#!/bin/sh\necho "$2" >> calls\n! grep -qsx "$2" slow || { echo half > "$3"; echo "$$ ${SLURM_ARRAY_JOB_ID}_$SLURM_ARRAY_TASK_ID" > "$2.runs"; exec sleep 600; }\nexec "%s" "$@"\n' \
  "$solver" > bin/cadical
chmod +x bin/cadical
: > calls
python3 -B "$top/tests/drat/formulas.py" pigeons 8 > formula.cnf
for first in {1..8}; do
  for second in {9..16}; do
    echo "$first $second 0"
  done
done > cubes.txt
block 'sh solve.sh' > solve.sh
block 'sh part.sh' > part.sh
block 'sh submit.sh' | sed 's/-l 1000/-l 20/' > submit.sh
chmod +x solve.sh submit.sh

# submits LINES CALL..: what is left is given out, and the report at the end has these last lines; else it fails
submits() {
  local found
  timeout 900 "${@:2}" > said 2>&1 || true
  found=$(tail -n "$(wc -l <<< "$1")" said)
  if [[ $found != "$1" ]]; then
    printf '%s: it wrote\n%s\nand not\n%s\n%s\n' "${*:2}" "$(cat said)" "$1" "$(tail -n 3 slurm-*.out)"
    return 1
  fi
}

# solved N: this many parts were given to the solver since the last call
solved() {
  if [[ $(wc -l < calls) != "$1" ]]; then
    printf '%s solved, and not %s\n' "$(wc -l < calls)" "$1"
    wrong=1
  fi
  : > calls
}

# hangs PART: waits until the solver has it, and hangs
hangs() {
  until_so "the solver hangs at $1" test -s "parts/$1.cnf.runs"
}

whole='s VERIFIED UNSAT BY 65 RECEIPTS'

# Two parts hang. Of the first one the task is cancelled, of the second one the solver is killed.
case_cubes() {
  withdraw
  if [[ $(grep -c -- '-l 20 ' submit.sh) != 1 ]]; then
    echo "docs/SCALE.md: no pieces of 1000 lines"
    wrong=1
  fi
  printf 'parts/7.cnf\nparts/31.cnf\n' > slow
  set -m
  submits $'7: no proof\n31: no proof\n2 of 65 parts are not verified' ./submit.sh &
  submission=$!
  set +m
  echo "$submission" > "$slurm/submission"
  hangs 7
  hangs 31
  scancel "$(cut -d ' ' -f 2 parts/7.cnf.runs)"
  kill -KILL "$(cut -d ' ' -f 1 parts/31.cnf.runs)"
  wait "$submission" || wrong=1
  rm "$slurm/submission" slow
  solved 65
  if [[ $(ls left.* | wc -l) != 4 ]]; then
    echo "not four arrays: $(ls left.*)"
    wrong=1
  fi

  # it goes on with the two, and with one whose proof was damaged after it was verified: that one is rejected, and stays
  head -c 200 parts/20.drat > short
  mv short parts/20.drat
  rm parts/20.receipt
  submits $'20: not verified\n1 of 65 parts are not verified' ./submit.sh || wrong=1
  if ! cat slurm-*.out | grep -q '^20: parts/20.drat is rejected: '; then
    echo "part 20 is not refused"
    wrong=1
  fi
  solved 2
  rm parts/20.drat
  submits "$whole" ./submit.sh || wrong=1
  solved 1

  # nothing is left; a cube that changed is, with the closing part: both by one task; this is word for word
  submits "$whole" ./submit.sh || wrong=1
  solved 0
  block 'sh submit.sh' > submit.sh
  sed -i '7s/.*/1 15 1 0/' cubes.txt
  submits "$whole" ./submit.sh 8 || wrong=1
  solved 2
  if [[ $(cat left.*) != '7 closing' ]]; then
    echo "not one task of two parts: $(cat left.*)"
    wrong=1
  fi
}

# All parts at once, word for word.
case_one_array() {
  withdraw
  block 'sh submit.sh' > submit.sh
  submits "$whole" ./submit.sh || wrong=1
  solved 65
  if [[ $(echo left.*) != left.aaaa ]]; then
    echo "not one array of all parts: $(ls left.*)"
    wrong=1
  fi
}

# One proof in pieces, word for word; again in arrays of at most five tasks; then one piece that was damaged, and
# what is left.
case_pieces() {
  withdraw
  block 'sh piece.sh' > piece.sh
  block 'sh submit_pieces.sh' > submit_pieces.sh
  "$solver" -q formula.cnf proof.drat > said || true
  pieces cut formula.cnf proof.drat pieces --lemmas 2000 > said
  count=$(cat pieces/count)
  whole="s VERIFIED UNSAT BY $count RECEIPTS"
  submits "$whole" bash submit_pieces.sh || wrong=1
  if [[ $(echo left.*) != left.aaaa || $(cat left.aaaa) != "$(seq "$count")" ]]; then
    echo "not one array of $count pieces: $(ls left.*)"
    wrong=1
  fi
  rm pieces/*.receipt
  block 'sh submit_pieces.sh' | sed 's/-l 1000/-l 5/' > submit_pieces.sh
  submits "$whole" bash submit_pieces.sh || wrong=1
  if ((count < 6)) || [[ $(cat left.* | wc -l) != "$count" || $(ls left.* | wc -l) == 1 ]]; then
    echo "not $count pieces in several arrays: $(ls left.*)"
    wrong=1
  fi
  cp pieces/2.drat kept
  head -n 5 kept > pieces/2.drat
  rm pieces/2.receipt
  submits $'2: not verified\n'"1 of $count pieces are not verified" bash submit_pieces.sh || wrong=1
  cp kept pieces/2.drat
  submits "$whole" bash submit_pieces.sh || wrong=1
}

# Random formulas, against brute force. One hangs: its job ends at an interrupt, and at a limit; the same call goes on with it alone.
case_formulas() {
  withdraw
  judged=(python3 -B "$top/tests/checked_all/judged.py")
  "${judged[@]}" make random 30 2
  refuted=$(grep -c UNSAT random.truth)
  satisfied=$(grep -vc UNSAT random.truth)
  cat > bin/noting << END
#!/bin/sh
cd '$work'
echo "\${1##*/}" >> solved
[ "\${1##*/}" != "\$(cat slow)" ] || { echo \$\$ > hangs; exec sleep 600; }
exec '$solver' "\$@"
END
  chmod +x bin/noting

  # many STATUS LINE SOLVED GLOB SOLVER OPTION..: a call must end so, with this line, and give these formulas to the solver
  many() {
    local status=0 said
    said=$(timeout 300 checked --all "$4" --solver "$5" --slurm --json random.json "${@:6}" 2> err) || status=$?
    said=$(sed '/^PAR2: /d' <<< "$said")
    if [[ "$status $said" != "$1 $2" || $(sort solved 2> "$slurm/said" | tr '\n' ' ') != "$3" ]]; then
      printf 'checked --all --slurm %s: status %s, it wrote %s %s, and solved %s\n' "${*:4}" "$status" "$said" "$(cat err)" "$(cat solved)"
      wrong=1
    fi
    rm -f solved
  }

  # hung: the solver hangs, and all else is there
  hung() {
    [[ -s hangs && $(wc -l < random.json) == 29 ]]
  }

  # quiet: no job is left, and the solver that hung has ended
  quiet() {
    [[ ! $(squeue -h) && ! -d /proc/$(cat hangs) ]]
  }
  echo 07.cnf > slow
  set -m
  checked --all 'random/*.cnf' --solver noting --slurm --json random.json > said 2> err &
  submission=$!
  set +m
  echo "$submission" > "$slurm/submission"
  until_so 'one run that is left' hung
  kill -TERM "$submission"
  status=0
  wait "$submission" || status=$?
  rm "$slurm/submission"
  if [[ $status != 143 || -s said || $(wc -l < random.json) != 29 ]]; then
    echo "interrupted: status $status, $(cat said err), $(wc -l < random.json) rows"
    wrong=1
  fi
  until_so 'the end of the job' quiet
  rm solved
  many 3 '1 formula: 0 s VERIFIED UNSAT, 0 s VERIFIED SAT, 1 no answer, 0 not checked, 0 rejected, 0 malformed' '07.cnf ' random/07.cnf noting --limit 2
  until_so 'the end of the job' quiet
  echo none > slow
  many 0 "30 formulas: $refuted s VERIFIED UNSAT, $satisfied s VERIFIED SAT, 0 no answer, 0 not checked, 0 rejected, 0 malformed" '07.cnf ' 'random/*.cnf' noting --limit 100
  "${judged[@]}" rows random.json random.truth 's VERIFIED UNSAT' noting || wrong=1
  rows=30
  for name in picosat cryptominisat5; do
    if command -v "$name" > "$slurm/said"; then
      many 0 "30 formulas: $refuted s VERIFIED UNSAT, $satisfied s VERIFIED SAT, 0 no answer, 0 not checked, 0 rejected, 0 malformed" '' 'random/*.cnf' "$name"
      "${judged[@]}" rows random.json random.truth 's VERIFIED UNSAT' "$name" || wrong=1
      rows=$((rows + 30))
    fi
  done
  if command -v minisat > "$slurm/said"; then
    many 1 "30 formulas: 0 s VERIFIED UNSAT, $satisfied s VERIFIED SAT, 0 no answer, 0 not checked, $refuted rejected, 0 malformed" '' 'random/*.cnf' minisat
    "${judged[@]}" rows random.json random.truth rejected minisat || wrong=1
    rows=$((rows + 30))
  fi
  said=$(checked_all --audit random.json 2>&1) || wrong=1
  if [[ $said != "all rows fit: $rows" ]]; then
    echo "the audit of $rows rows: $said"
    wrong=1
  fi
}

try_cases
