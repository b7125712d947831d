# shellcheck shell=bash disable=SC2154,SC2034
# What a run can come to, and what it took. Read by tests/checked_all.sh.

# A solver that lies on either formula, one that crashes, one that says nothing, and a formula that is none.
printf 'p cnf 2 1\n1 x 0\n' > bad.cnf
ends 0 "$(counts 1 1 0 0)" checked_all four.cnf other.cnf --solver right
ends 1 "$(counts 1 0 0 1)" checked_all four.cnf other.cnf --solver refuter
ends 1 "$(counts 0 1 0 1)" checked_all four.cnf other.cnf --solver finder
solver crashing << 'END'
printf '1 0\n0\n' > "$2"; kill -SEGV $$
END
ends 3 "$(counts 0 0 2 0)" checked_all four.cnf other.cnf --solver crashing
solver quiet << 'END'
printf '1 0\n0\n' > "$2"; echo 's UNKNOWN'
END
ends 3 "$(counts 0 0 1 0)" checked_all four.cnf --solver quiet
ends 3 "$(counts 1 0 0 0 1)" checked_all four.cnf bad.cnf --solver right
solver mixed << 'END'
grep -q '^1 -2' "$1" && exec finder; exec quiet "$@"
END
ends 1 "$(counts 0 0 1 1)" checked_all four.cnf other.cnf --solver mixed
# a checker that verifies nothing, though it ends well
ends 1 "$(counts 0 0 0 2)" env DRAT_CHECK="$(type -P true)" MODEL_CHECK="$(type -P true)" checked_all four.cnf other.cnf --solver right
ends 1 "$(counts 0 0 0 1)" checked_all four.cnf --solver right --no-proof
ends 1 "$(counts 0 0 0 1)" checked_all four.cnf --solver right --call 'SOLVER FORMULA'
# with options of the solver
solver opted << 'END'
[ "$1 $2" = '--odd two words' ] && shift 2 && exec right "$@"
END
ends 0 "$(counts 1 1 0 0)" checked_all four.cnf other.cnf --solver 'opted --odd "two words"'
ends 3 "$(counts 0 0 1 0)" checked_all four.cnf --solver 'opted --odd two words'

# The table, with the reasons, by names.
ends 1 "$(counts 0 0 1 1)" checked_all other.cnf four.cnf --solver mixed --json mixed.json
ends 3 "$(counts 0 0 0 0 1)" checked_all bad.cnf --solver mixed --json mixed.json
checked_all --report --json mixed.json > said || same 'the status of a report' 1 $?
same 'the names of a report' $'formula\nbad.cnf\nfour.cnf\nother.cnf\n3' "$(sed 's/ .*//' said)"
same 'the verdicts of a report' "verdict
malformed: formula: line 2: bad number
rejected: the answer that the solver wrote is not verified
no answer: the solver gave no answer: it ended with status 0" \
  "$(head -n 4 said | sed 's/^\([^ ]*  *\)\{6\}//')"
same 'the summary of a report' "$(counts 0 0 1 1 1)" "$(tail -n 1 said)"
same 'a report after a run' "$(sed -n '1p;3,4p' said)"$'\n'"$(counts 0 0 1 1)" \
  "$(checked_all other.cnf four.cnf --solver mixed --json mixed.json --report)"

# What it took, with what the checkers took: a second of a processor, and 100 MB.
cat > bin/heavy << 'END'
#!/usr/bin/env python3
import sys, time
block = b"1" * 100_000_000
while time.process_time() < 1:
    pass
with open(sys.argv[2], "w") as proof:
    proof.write("1 0\n0\n")
sys.exit(20)
END
chmod +x bin/heavy
for name in heavy right; do
  ends 0 "$(counts 1 0 0 0)" checked_all four.cnf --solver "$name" --json took.json
  "${judged[@]}" last took.json seconds processor memory | tr '\n' ' ' > "$name.took"
done
if ! awk 'NR == 1 { if (!($1 >= 1 && $2 >= 1 && $2 < 20 && $3 >= 100000000 && $3 < 1000000000)) exit 1 }
    NR == 2 { if (!($2 < 1 && $3 < 100000000)) exit 1 }' heavy.took right.took; then
  echo "seconds, processor, memory: $(cat heavy.took right.took)"
  wrong=1
fi

# A run that takes too long is ended with all that it started.
solver hanging << END
echo \$\$ >> '$work/pids'; sleep 60 & echo \$! >> '$work/pids'; wait
END
solver stubborn << END
trap '' INT TERM HUP
echo \$\$ >> '$work/pids'; sleep 60 & echo \$! >> '$work/pids'; wait
END
: > pids
for name in hanging stubborn; do
  ends 3 "$(counts 0 0 1 0)" checked_all four.cnf --solver "$name" --limit 3 --json took.json
  same "the reason of $name" $'no answer\nlimit\n3.0' "$("${judged[@]}" last took.json outcome reason limit)"
  if [[ ! -s pids ]] || ! "${judged[@]}" last took.json seconds | awk '{ exit !($1 >= 3 && $1 < 40) }'; then
    echo "$name: it ran $("${judged[@]}" last took.json seconds) s"
    wrong=1
  fi
  ended "$name"
done

# one that `checked` itself waits for, and can't end
solver cadical-stuck << END
trap '' INT TERM HUP
echo \$\$ >> '$work/pids'
while :; do sleep 60; done
END
ends 3 "$(counts 0 0 1 0)" checked_all four.cnf --solver cadical-stuck --limit 1 --json took.json
same 'the reason of cadical-stuck' $'no answer\nlimit' "$("${judged[@]}" last took.json outcome reason)"
ended cadical-stuck

# As many at a time as it says.
mkdir side
solver side << 'END'
mkdir "side/$$"; ls side | wc -l >> most; sleep 1.5; rmdir "side/$$"; exec refuter "$@"
END
for jobs in 1 3; do
  cp four.cnf "copy$jobs.cnf"
  cp four.cnf "copy$jobs$jobs.cnf"
  : > most
  ends 0 "$(counts $((jobs + 1)) 0 0 0)" checked_all 'copy*.cnf' --solver side --jobs "$jobs"
  same "runs at a time" "$jobs" "$(sort -n most | tail -n 1)"
done

# A formula that is changed while it is solved is no longer the one of the sum.
cp four.cnf changing.cnf
solver changing << 'END'
echo 'c more' >> "$1"; exec refuter "$@"
END
ends 3 "$(counts 0 0 1 0)" checked_all changing.cnf --solver changing --json took.json
same 'a formula that changes' 'changing.cnf has changed meanwhile' "$("${judged[@]}" last took.json reason)"
rm took.json
