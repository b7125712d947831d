# shellcheck shell=bash disable=SC2154,SC2034
# A table as a paper has it: 30 small formulas by each solver that is there, its rows and sums
# against what the solvers alone say. Read by tests/checked_all.sh.

only_with cadical picosat minisat cryptominisat5
"${judged[@]}" make paper 24 3
for number in 4 5 6; do
  formula pigeons "$number" > "paper/pigeons$number.cnf"
  formula random 60 "3.$number" "$number" > "paper/random$number.cnf"
done
solvers=()
for name in cadical picosat minisat cryptominisat5 clasp; do
  ! has "$name" || solvers+=("$name")
done
for name in "${solvers[@]}"; do
  status=0
  checked_all paper --solver "$name" --json paper.json --limit 100 --check-limit 200 --jobs 2 > said 2> err || status=$?
  tail -n 1 said >> scores
  echo "$name $status" >> statuses
done
status=0
checked_all --report --json paper.json --csv paper.csv --plot paper.svg > report || status=$?
same 'the status of all' 1 "$status"
same 'the scores of a report' "$(sort scores)" "$(grep '^PAR2' report | sort)"
python3 -B "$top/tests/checked_all/paper.py" paper paper.csv paper.svg report statuses "${solvers[@]}" || wrong=1
ends 0 "all rows fit: $((30 * ${#solvers[@]}))" checked_all --audit paper.json
