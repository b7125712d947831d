# shellcheck shell=bash disable=SC2154,SC2034
# One line of JSON in place of the verdict, whatever happens: its fields are those of
# docs/reference/FORMATS.md. Read by tests/checked.sh.

# fields STATUS VERDICT CAUSE REASON CALL..: it ends so, and says so; REASON is a part of a line, or
# nothing where there is no reason
fields() {
  local status=0
  "${@:5}" > said 2> err || status=$?
  same "${*:5}: the status" "$1" "$status"
  PATH=$PATH python3 -B "$top/tests/checked/json_rows.py" "$formats" said "$@" || wrong=1
  clean "${*:5}"
}
formats=$top/docs/reference/FORMATS.md
fields 20 "$unsat" '' '' checked --json refuter four.cnf
fields 10 "$sat" '' '' checked --json finder other.cnf
fields 0 "$unsat" '' '' checked --json --want unsat refuter four.cnf
fields 1 "$unsat" 'other answer' 'the other answer is verified: --want sat' \
  checked --json --want sat refuter four.cnf
fields 1 '' rejected 'the answer that the solver wrote is not verified' \
  checked --json finder four.cnf
fields 1 '' rejected 'clause is neither RUP nor RAT on its first literal' \
  checked --json refuter other.cnf
fields 1 '' 'no proof' 'was asked for no proof' checked --json --no-proof refuter four.cnf
fields 3 '' 'no answer' 'it ended with status 0' checked --json quiet four.cnf
fields 3 '' limit 'there is no verdict after 4 seconds' checked --json --limit 4 sleepy four.cnf
printf 'p cnf 2 1\n1 x 0\n' > bad.cnf
fields 2 '' malformed 'formula: line 2: bad number' checked --json refuter bad.cnf
fields 2 '' call 'cannot open none.cnf' checked --json refuter none.cnf
fields 2 '' call 'there is no option --loud' checked --json --loud refuter four.cnf
fields 2 '' call '--json and --answer exclude each other' checked --json --answer refuter four.cnf
fields 2 '' call 'cannot open odd\"name?' checked --json refuter $'odd\\"name\t'

# what stands below the verdict of a claim
printf 'aig 3 2 0 1 1\n6\n\2\2' > one.aig
solver assigns << 'END'
printf 's SATISFIABLE\nv -1 2 3 4 5 6 0\n'; exit 10
END
fields 10 's VERIFIED POSSIBLE' '' '' checked --json --never assigns one.aig
same 'the lines below' '["i 11", "o 1"]' \
  "$(python3 -c 'import json; print(json.dumps(json.load(open("said"))["lines"]))')"
printf 'p cnf 2 2\n1 2 0\n-1 2 0\n' > options.cnf
printf 'p cnf 2 2\n2 0\n1 0\n' > both.cnf
fields 10 's VERIFIED NOT FOLLOWS' '' 'claims: line 3: claim 2 fails' \
  checked --json --follows both.cnf assigns options.cnf

# where it can't be written, there is no verdict
ends 1 '' bash -c 'checked --json refuter four.cnf > /dev/full'
# a signal is a cause, and the line comes last
rm -f begun
set -m
heeding checked --json slow four.cnf > said 2> err &
pid=$!
set +m
await begun
kill -TERM "$pid"
status=0
wait "$pid" || status=$?
same 'the status of a signal' 143 "$status"
same 'the cause of a signal' signal \
  "$(python3 -c 'import json; print(json.load(open("said"))["cause"])')"
