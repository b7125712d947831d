# shellcheck shell=bash disable=SC2154,SC2034
# A call that is interrupted, and one that is made again. Read by tests/checked_all.sh.

mkdir many
for number in 1 2 3 4 5 6; do
  cp "$([[ $number == 4 ]] && echo other.cnf || echo four.cnf)" "many/$number.cnf"
done
# It notes its calls; the formula that `slow` names is never solved.
solver noting << END
cd '$work'
echo "\${1##*/}" >> solved
case \$(cat slow) in
  "\${1##*/}") echo \$\$ >> pids; sleep 60 & echo \$! >> pids; echo > begun; wait ;;
esac
exec right "\$@"
END
: > slow
: > pids

# solved NAME..: these were given to the solver since the last call
solved() {
  same 'what was solved' "$*" "$(sort solved 2> null | tr '\n' ' ' | sed 's/ $//')"
  rm -f solved
}
noting=(checked_all 'many/*.cnf' --solver noting --json many.json)

# begins_with ROWS: the solver hangs, and this many rows are there
begins_with() {
  [[ -e begun && $(wc -l < many.json) == "$1" ]]
}

# interrupted SIGNAL STATUS JOBS: a call is interrupted at the third formula, keeps the rows that are whole, and goes on
interrupted() {
  local status=0 pid
  rm -f begun many.json
  echo 3.cnf > slow
  set -m
  heeding "${noting[@]}" --jobs "$3" > said 2> err &
  pid=$!
  set +m
  until_so begins_with "$((3 * $3 - 1))"
  kill -s "$1" "$pid"
  wait "$pid" || status=$?
  same "$1: the status" "$2" "$status"
  same "$1: what it wrote" '' "$(cat said err)"
  ended "$1"
  if [[ $(ls room) ]]; then
    echo "$1: it leaves $(ls room)"
    wrong=1
    rm -rf room/*
  fi
}
for signal in 'INT 130' 'TERM 143' 'HUP 129' 'QUIT 131'; do
  # shellcheck disable=SC2086
  interrupted $signal 1
  same "$signal: rows" 2 "$(wc -l < many.json)"
  solved 1.cnf 2.cnf 3.cnf
done
: > slow
ends 0 "$(counts 5 1 0 0)" "${noting[@]}"
solved 3.cnf 4.cnf 5.cnf 6.cnf
interrupted TERM 143 2
same 'TERM: rows of two jobs' 5 "$(wc -l < many.json)"
rm -f solved
: > slow
ends 0 "$(counts 5 1 0 0)" "${noting[@]}"
solved 3.cnf

# The same call does nothing again, and by another name of the formulas it does.
cp many.json before.json
ends 0 "$(counts 5 1 0 0)" "${noting[@]}"
solved
cmp many.json before.json || wrong=1

# What changed is done again: a formula, a row that was edited, all with another solver. The last row of a formula counts.
cp other.cnf many/2.cnf
ends 0 "$(counts 4 2 0 0)" "${noting[@]}"
solved 2.cnf
same 'the report' "$(counts 4 2 0 0)" "$(checked_all --report --json many.json | tail -n 1)"
"${judged[@]}" edit many.json many/4.cnf outcome 's VERIFIED UNSAT'
ends 0 "$(counts 4 2 0 0)" "${noting[@]}"
solved 4.cnf
echo '# more' >> bin/noting
ends 0 "$(counts 4 2 0 0)" "${noting[@]}"
solved 1.cnf 2.cnf 3.cnf 4.cnf 5.cnf 6.cnf
# a copy of the same checker is no other one
cp -L "$(type -P drat_check)" copied_check
ends 0 "$(counts 4 2 0 0)" env DRAT_CHECK=./copied_check "${noting[@]}"
solved
echo >> copied_check
ends 0 "$(counts 4 2 0 0)" env DRAT_CHECK=./copied_check "${noting[@]}" 'many/1.cnf'
solved 1.cnf 2.cnf 3.cnf 4.cnf 5.cnf 6.cnf
ends 0 "$(counts 4 2 0 0)" "${noting[@]}"
solved 1.cnf 2.cnf 3.cnf 4.cnf 5.cnf 6.cnf

# A limit: what has no answer within it is tried again with a longer one, and verdicts that took no longer stay.
rm many.json
echo 5.cnf > slow
ends 3 "$(counts 3 2 1 0)" "${noting[@]}" --limit 6
rm solved
ended limit
ends 3 "$(counts 3 2 1 0)" "${noting[@]}" --limit 6
solved
: > slow
ends 0 "$(counts 4 2 0 0)" "${noting[@]}" --limit 60
solved 5.cnf
ends 3 "$(counts 0 0 6 0)" "${noting[@]}" --limit 0.001
rm -f solved

# A row that was cut off, as by a machine that stops, is dropped; and so is one for which there is no room.
rm many.json
ends 0 "$(counts 4 2 0 0)" "${noting[@]}"
rm solved
for cut in 1 30 -1; do
  head -n 4 many.json > cut.json
  sed -n 5p many.json | head -c "$cut" >> cut.json
  cp cut.json many.json
  ends 0 "$(counts 4 2 0 0)" "${noting[@]}"
  solved 5.cnf 6.cnf
  same 'the lines of the file' 6 "$(python3 -c 'import json; print(len([json.loads(it) for it in open("many.json")]))')"
done
rm many.json
ends 2 '' bash -c 'ulimit -f 1; "$@"' bash "${noting[@]}"
because 'cannot write many.json: '
if [[ -s many.json ]]; then
  echo "a row is cut off: $(cat many.json)"
  wrong=1
fi
rm -f solved

# Two calls at a time into one file
echo 1.cnf > slow
rm -f begun
"${noting[@]}" > said 2>&1 &
first=$!
until_so test -e begun
same 'the status of a second call' 2 "$("${noting[@]}" 2> err || echo $?)"
because 'cannot write many.json: another call writes it'
kill "$first"
wait "$first" || true
ended 'the first of two calls'
rm -rf room/*
: > slow
rm -f solved
