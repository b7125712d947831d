# shellcheck shell=bash disable=SC2154,SC2034
# Rows that no longer fit, and what is kept. Read by tests/checked_all.sh.

mkdir seen
cp four.cnf seen/four.cnf
cp other.cnf seen/other.cnf
cp bin/right bin/seeing
checked_all seen --solver 'nice -n 1 seeing' --json seen.json --keep-proofs kept > said 2>&1 || wrong=1
ends 0 'all rows fit: 2' checked_all --audit seen.json
ends 0 'all rows fit: 2' checked --all --audit=seen.json

# what is kept is a proof, and an answer
kept=$(echo kept/four.cnf.*)
ends 0 's VERIFIED UNSAT' drat_check seen/four.cnf "$kept"
ends 0 's VERIFIED SAT' model_check seen/other.cnf kept/other.cnf.*
same 'what is kept' 2 "$(find kept -type f | wc -l)"
mkdir seen/below
cp other.cnf seen/below/four.cnf
ends 0 "$(counts 1 2 0 0)" checked_all seen --solver 'nice -n 1 seeing' --json seen.json --keep-proofs kept
same 'what is kept' 3 "$(find kept -type f | wc -l)"
ends 1 "$(counts 0 0 0 1)" checked_all other.cnf --solver refuter --keep-proofs kept
same 'what is kept of a rejected proof' 3 "$(find kept -type f | wc -l)"

# finds LINES EDIT: a file is changed, and the audit says which rows that concerns
finds() {
  rm -rf saved
  mkdir saved
  cp -R seen seen.json kept bin/seeing saved
  eval "$2"
  ends 1 "$1" checked_all --audit seen.json
  rm -rf seen kept
  cp -R saved/seen saved/kept saved/seen.json .
  cp saved/seeing bin/seeing
  ends 0 'all rows fit: 3' checked_all --audit seen.json
}
finds $'seen/four.cnf: seen/four.cnf has another sum (formula)\n1 of 3 rows no longer fit' 'echo "1 0" >> seen/four.cnf'
finds $'seen/four.cnf: cannot open seen/four.cnf: No such file or directory\n1 of 3 rows no longer fit' 'rm seen/four.cnf'
finds "seen/four.cnf: $kept has another sum (proof)"$'\n1 of 3 rows no longer fit' 'echo 0 >> "$kept"'
finds "seen/four.cnf: $work/bin/seeing has another sum (solver)
seen/other.cnf: $work/bin/seeing has another sum (solver)
seen/below/four.cnf: $work/bin/seeing has another sum (solver)
3 of 3 rows no longer fit" 'echo "# more" >> bin/seeing'
edited=$'seen/other.cnf: the row was edited\n1 of 3 rows no longer fit'
finds "$edited" '"${judged[@]}" edit seen.json seen/other.cnf outcome "s VERIFIED UNSAT"'
finds "$edited" 'sed -i "/other.cnf/s/\"status\": 10/\"status\": 20/" seen.json'
finds "$edited" 'sed -i "/other.cnf/s/\"row\": \"/&0/" seen.json'

# an edited row claims nothing
"${judged[@]}" edit seen.json seen/other.cnf outcome 's VERIFIED UNSAT'
checked_all --report --json seen.json > said || same 'a report of an edited row' 3 $?
same 'the summary' "$(counts 1 1 1 0)" "$(tail -n 1 said)"
if ! grep -q '^seen/other.cnf .* no answer: this row was edited$' said; then
  cat said
  wrong=1
fi

# files that are no tables
for call in '--audit' '--report --json'; do
  # shellcheck disable=SC2086
  ends 2 '' checked_all $call four.cnf
  because 'four.cnf: line 1: it is no row of checked_all'
  # shellcheck disable=SC2086
  ends 2 '' checked_all $call none.json
  because 'cannot open none.json: No such file or directory'
done
: > empty.json
ends 2 '' checked_all --report --json empty.json
because 'empty.json has no row'
for line in '{}' '[]' '1' 'x' '{"row": ""}' "$(head -n 1 seen.json | sed 's/"status": 20/"status": "20"/')" \
  "$(head -n 1 seen.json | sed 's/"outcome": "[^"]*"/"outcome": "s VERIFIED"/')"; do
  echo "$line" > odd.json
  ends 2 '' checked_all --audit odd.json
  because 'odd.json: line 1: it is no row of checked_all'
done
