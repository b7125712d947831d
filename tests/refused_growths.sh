#!/usr/bin/env bash
# Refuses the growths of programs, one after the other: first each alone, and then all from each one on.
#
# It plays calls of the checker, in `tests/refused_growths/scripts`, and runs the programs on real proofs: no verdict may stand in place
# of an error. The programs must be built: `rt ci` does it, or `rt run` in their folders. It needs `cc`.
set -euo pipefail
. "$(dirname "$0")/lib.sh"
vectors=$top/crates/check_vectors/out/check_vectors
if [[ ! -x $vectors ]]; then
  echo "not built: $vectors"
  exit 1
fi
check=$(built varisat_check)
hint_check=$(built hint_check)
lrat_check=$(built lrat_check)
lrat_to_proof=$(built lrat_to_proof)
drat_check=$(built drat_check)
model_check=$(built model_check)
follows=$(built follows_check)
minimal=$(built minimal_check)
circuit=$(built circuit_check)
data=$top/tests/data
"${CC:-cc}" -O2 -Wall -shared -fPIC -o "$work/fail.so" "$top/tests/refused_growths/fail.c" -ldl
unset RUST_LOG

# There are thousands of runs, so a run starts nothing but the program.

# refuse MODE NUMBER COMMAND..: a run with refused growths. It sets `status`, and `refused` to whether there were any.
refuse() {
  status=0
  (
    export "$1=$2" LD_PRELOAD="$work/fail.so"
    exec "${@:3}" > "$work/out" 2> "$work/err" 9> "$work/marks"
  ) || status=$?
  refused=0
  [[ ! -s $work/marks ]] || refused=1
}

# clear FILE..: removes those that are there
clear() {
  local file
  for file; do
    [[ ! -e $file ]] || rm "$file"
  done
}

misjudged() {
  echo "WRONG $1: status $status, output '$(cat "$work/out")', errors '$(cat "$work/err")'"
  wrong=1
}

want='^((Error in proof processor|formula|wanted clauses|proof|answer|claims|models|circuit|second circuit|names|stimulus|error writing): )?out of memory$'
# wants_memory: whether a line of the errors says so
wants_memory() {
  local line
  while IFS= read -r line || [[ $line ]]; do
    [[ ! $line =~ $want ]] || return 0
  done < "$work/err"
  return 1
}

# stopped: a run with a refused growth claims nothing: there is no line and no line of hints; the fault is out of memory, or the
# arguments could not be read
stopped() {
  if [[ -s $work/out || -s $work/hints ]]; then
    return 1
  elif ((status == 2)); then
    unread=$((unread + 1))
  else
    ((status == 1)) && wants_memory
  fi
}

# run NAME MODE LINE COMMAND..: a run that ends in the line, if no growth is refused
run() {
  local name=$1 mode=$2 line=$3 number unread=0 wanted=0
  [[ $line != 's VERIFIED FOLLOWS' ]] || wanted=20
  shift 3
  for ((number = 1; ; number++)); do
    clear "$work/hints"
    refuse "$mode" "$number" "$@"
    if ((refused == 0)); then
      break
    elif ! stopped; then
      misjudged "$name $mode=$number"
    fi
  done
  if [[ $status != "$wanted" || $(cat "$work/out") != "$line" ]]; then
    misjudged "$name without a refused growth"
  fi
  echo "$name $mode: $((number - 1)) runs, of which $unread met the reading of the arguments"
}

# run_logged NAME LINE LOGGED COMMAND..: where the growth of the log's setting is refused, a run goes on without a log, and does all
# else; the setting is read once, and is one text and one directive
run_logged() {
  local name=$1 line=$2 logged=$3 number unread=0 silent=0
  shift 3
  rm -f "$work/hints"
  for ((number = 1; ; number++)); do
    RUST_LOG=info refuse FAIL_AT "$number" "$@"
    if ((refused == 0)); then
      break
    elif [[ $status == 0 && ! -s $work/err && $(< "$work/out") == "$line" ]]; then
      silent=$((silent + 1))
    elif ! stopped; then
      misjudged "$name $number"
    fi
  done
  if [[ $status != 0 || $(cat "$work/out") != "$line" || $(cat "$work/err") != "$logged" || $silent != 2 ]]; then
    misjudged "$name, with $silent runs without a log"
  fi
  echo "$name: $((number - 1)) runs, of which $unread met the reading of the arguments and $silent the log's setting"
}

# run_unmet MODE CNF ANSWER PLACE: an answer that does not meet the clause at this place: a refused growth leaves no line of a verdict.
run_unmet() {
  local mode=$1 number unread=0
  for ((number = 1; ; number++)); do
    refuse "$mode" "$number" "$model_check" "$2" "$3"
    if ((refused == 0)); then
      break
    elif ! stopped; then
      misjudged "an answer that is not met $mode=$number"
    fi
  done
  if [[ $status != 3 || $(cat "$work/err") != "formula: $4 has no literal of the answer" ]]; then
    misjudged "an answer that is not met without a refused growth"
  fi
  echo "an answer that is not met $mode: $((number - 1)) runs, of which $unread met the reading of the arguments"
}

# run_kept NAME MODE LINE RECEIPT COMMAND..: a run that is to keep a receipt. Where a growth is refused, it says so, has no line and leaves no file, also
# where the receipt alone can't be written.
run_kept() {
  local name=$1 mode=$2 line=$3 receipt=$4 number unread=0 late=0
  shift 4
  for ((number = 1; ; number++)); do
    clear "$work"/kept*
    refuse "$mode" "$number" "$@" --receipt "$work/kept"
    if ((refused == 0)); then
      break
    elif [[ ! -s $work/err ]] || compgen -G "$work/kept*" > "$work/left"; then
      misjudged "$name $mode=$number: $(compgen -G "$work/kept*")"
    elif [[ $status == 1 && $(< "$work/err") == "error writing: out of memory"$'\n'"in $work/kept" && ! -s $work/out ]]; then
      late=$((late + 1))
    elif ! stopped; then
      misjudged "$name $mode=$number"
    fi
  done
  if [[ $status != 0 || $(cat "$work/out") != "$line" || $(cat "$work/kept"*) != "$receipt" || $late == 0 ]]; then
    misjudged "$name without a refused growth, with $late runs that miss the receipt alone"
  fi
  echo "$name $mode: $((number - 1)) runs, of which $unread met the reading of the arguments and $late the receipt"
}

# sum FILE: as a receipt has it
sum() {
  echo "sha256 $(sha256sum < "$1" | cut -d ' ' -f 1)"
}

# the added clauses of the LRAT proof alone
sed '/ d /d;s/^[0-9]* //;s/^0 .*/0/;s/ 0 .*/ 0/' "$data/par10.lrat" > "$work/drat"
printf '1 268435456 0\n1 -268435456 0\n-1 268435456 0\n-1 -268435456 0\n' > "$work/far.cnf"
printf '5 268435456 0 1 3 0\n6 0 5 2 4 0\n' > "$work/far.lrat"
# each variable makes the next one true
{
  echo 'p cnf 60 59'
  for ((variable = 1; variable < 60; variable++)); do
    echo "-$variable $((variable + 1)) 0"
  done
} > "$work/chain.cnf"
{
  echo 's SATISFIABLE'
  echo "v $(seq -s ' ' 60) 0"
} > "$work/answer"
echo '1 2 -3 0' > "$work/unmet"
printf '1 2 0 1 -2 0 -1 2 0 -1 -2 0' > "$work/small.cnf"
# the width of the hashes, one bit, then the unit 1 and the empty clause
printf '\x09\x01\x06\x00\x01\x00\x02\x01\x00\x06\x00\x00\x02\x00\x01\x0d' > "$work/small.proof"
printf '5 1 0 1 2 0\n6 0 5 3 4 0\n' > "$work/small.lrat"
printf 'p cnf 3 3\n1 2 0\n-1 3 0\n-2 -3 0\n' > "$work/three.cnf"
printf 's SATISFIABLE\nv 1 -2 3 0\n' > "$work/three.answer"
printf '1 2 3 0' > "$work/three.unmet"
printf 'p cnf 2 4\n1 2 0\n1 -2 0\n-1 2 0\n-1 -2 0\n' > "$work/four"
printf 'p cnf 2 2\n1 0\n2 0\n' > "$work/claims"
printf '1 0\n0\n' > "$work/refuted"
printf -- '-1 -2 0\n-1 2 0\n1 -2 0\n1 2 0\n' > "$work/models"
# a piece of a proof of the four clauses, and what holds behind it
printf '5 1 0 1 2 0\n' > "$work/piece.lrat"
printf '1 0\n' > "$work/piece"
printf '1 0\n-1 2 0\n' > "$work/next"
printf '1 2 0\n1 -2 0\n-1 2 0\n' > "$work/satisfiable"
# two inputs, and for each the conjunction of it with its negation; two circuits of one gate
printf 'aig 4 2 0 2 2\n6\n8\n\3\1\3\1' > "$work/never.aig"
printf -- '-4 0\n0\n' > "$work/never"
printf 'aig 3 2 0 1 1\n6\n\2\2' | tee "$work/one.aig" > "$work/two.aig"
printf 'aig 3 2 0 1 1\n0\n\2\2' > "$work/none.aig"
printf 'aig 2 1 1 0 0 1\n2\n4\n' > "$work/machine.aig"
printf '1\nb0\n0\n1\n0\n.\n' > "$work/stimulus"
printf -- '-5 0\n0\n' > "$work/same"

# proofs MODE: of some size, and an answer
proofs() {
  local mode=$1
  for proof in "$data"/*.proof; do
    run "$(basename "$proof")" "$mode" 's UNSATISFIABLE' "$check" "${proof%.*.proof}.cnf" "$proof"
  done
  # with hints a run has hundreds of growths: one will do
  run 'par10.whole.proof with hints' "$mode" 's UNSATISFIABLE' "$check" "$data"/par10.{cnf,whole.proof} "$work/hints"
  run 'par10.lrat' "$mode" 's VERIFIED UNSAT' "$hint_check" "$data"/par10.{cnf,lrat}
  for lrat in "$data"/*.lrat; do
    run "$(basename "$lrat") by lrat_check" "$mode" 's VERIFIED UNSAT' "$lrat_check" "${lrat%.lrat}.cnf" "$lrat"
  done
  run 'par10 by drat_check' "$mode" 's VERIFIED UNSAT' "$drat_check" "$data/par10.cnf" "$work/drat"
  # the variable of the greatest number, which has no place in a table
  run 'far literals' "$mode" 's VERIFIED UNSAT' "$hint_check" "$work"/far.{cnf,lrat}
  run 'far literals by lrat_check' "$mode" 's VERIFIED UNSAT' "$lrat_check" "$work"/far.{cnf,lrat}
  run 'par10.lrat by lrat_to_proof' "$mode" '' "$lrat_to_proof" "$data"/par10.{cnf,lrat} "$work/bytes"
  run 'an answer' "$mode" 's VERIFIED SAT' "$model_check" "$work"/{chain.cnf,answer}
  run_unmet "$mode" "$work"/{chain.cnf,unmet} 'line 3: clause 2'
}

# few_clauses MODE
few_clauses() {
  local mode=$1
  run 'four clauses' "$mode" 's UNSATISFIABLE' "$check" "$work"/small.{cnf,proof}
  run 'four clauses with hints' "$mode" 's UNSATISFIABLE' "$check" "$work"/small.{cnf,proof} "$work/hints"
  run 'four clauses by lrat_to_proof' "$mode" '' "$lrat_to_proof" "$work"/small.{cnf,lrat} "$work/bytes"
  run 'an answer to three clauses' "$mode" 's VERIFIED SAT' "$model_check" "$work"/three.{cnf,answer}
  run_unmet "$mode" "$work"/three.{cnf,unmet} 'line 4: clause 3'
}

# receipts MODE
receipts() {
  local mode=$1
  run_kept 'a receipt by lrat_check' "$mode" 's VERIFIED UNSAT' "refuted $(sum "$work/small.cnf")" "$lrat_check" "$work"/small.{cnf,lrat}
  run_kept 'a receipt by drat_check' "$mode" 's VERIFIED UNSAT' "refuted $(sum "$work/four")" "$drat_check" "$work"/{four,refuted}
  run_kept 'a receipt by model_check' "$mode" 's VERIFIED SAT' "satisfied $(sum "$work/three.cnf")" "$model_check" "$work"/three.{cnf,answer}
  run_kept 'a receipt of a piece by lrat_check' "$mode" 's VERIFIED PIECE' "carries $(sum "$work/four") $(sum "$work/next")" \
    "$lrat_check" "$work"/{four,piece.lrat} --holds "$work/next"
  run_kept 'a receipt of a piece by drat_check' "$mode" 's VERIFIED PIECE' "carries $(sum "$work/satisfiable") $(sum "$work/next")" \
    "$drat_check" "$work"/{satisfiable,piece} --holds "$work/next"
}

# claims MODE: also of circuits
claims() {
  local mode=$1
  run 'claims' "$mode" 's VERIFIED FOLLOWS' "$follows" "$work"/{four,claims,refuted}
  run 'a formula for the solver' "$mode" '' "$follows" "$work"/{four,claims} --formula "$work/hints"
  run 'a core' "$mode" 's VERIFIED MINIMAL' "$minimal" "$work"/{four,refuted,models}
  run 'a circuit' "$mode" 's VERIFIED NEVER' "$circuit" never "$work/never.aig" --proof "$work/never"
  run 'two circuits' "$mode" 's VERIFIED SAME' "$circuit" same "$work"/{one,two}.aig --proof "$work/same"
  run 'an answer of a circuit' "$mode" $'s VERIFIED POSSIBLE\ni 11\no 1' "$circuit" never "$work/one.aig" --answer "$work/answer"
  run 'an answer of two circuits' "$mode" $'s VERIFIED DIFFERENT\ni 11\no 1\no 0' "$circuit" same "$work"/{one,none}.aig --answer "$work/answer"
  run 'a stimulus' "$mode" 's VERIFIED REACHED' "$circuit" safe "$work/machine.aig" --stimulus "$work/stimulus"
  run 'a formula of circuits' "$mode" '' "$circuit" same "$work"/{one,two}.aig --formula "$work/hints"
}

case_scripts() {
  "$vectors" "$top/tests/refused_growths/scripts"
  python3 -B "$top/tests/refused_growths/scripts.py" "$vectors" "$work/fail.so" "$top/tests/refused_growths/scripts" || wrong=1
}

case_proofs_one() {
  proofs FAIL_AT
}

case_few_clauses_one() {
  few_clauses FAIL_AT
}

case_receipts_one() {
  receipts FAIL_AT
}

case_claims_one() {
  claims FAIL_AT
}

case_proofs_all() {
  proofs FAIL_FROM
}

case_few_clauses_all() {
  few_clauses FAIL_FROM
}

case_receipts_all() {
  receipts FAIL_FROM
}

case_claims_all() {
  claims FAIL_FROM
}

case_log() {
  parsed=$(awk '$1 == "p" { print "Parsed formula with " $3 " variables and " $4 " clauses" }' "$data/par10.cnf")
  run_logged 'par10.whole.proof with a log' 's UNSATISFIABLE' "[INFO  varisat_checker::checker] $parsed" "$check" "$data"/par10.{cnf,whole.proof}
}

# count_growths PROOF: sets `growths` to how many a run has that reads this proof, which ends within its first step
count_growths() {
  local number
  printf -- "$1" > "$work/short.proof"
  : > "$work/nothing.cnf"
  for ((number = 1; ; number++)); do
    refuse FAIL_AT "$number" "$check" "$work/nothing.cnf" "$work/short.proof"
    ((refused > 0)) || break
  done
  [[ $(head -n 1 "$work/err") == 'step 1: Unexpected end of proof file' ]] || misjudged "a proof that ends within its first step"
  growths=$((number - 1))
}

# Nothing is grown for the number of literals that a proof announces: there are fewer growths than where one literal follows.
case_announced() {
  count_growths '\x05\xff\xff\xff\xff\xff\xff\xff\xff\xff\x01'
  announced=$growths
  count_growths '\x05\x02\x00'
  if ((announced >= growths)); then
    echo "WRONG announced literals: $announced growths, and $growths where a literal follows"
    wrong=1
  fi
}

try_cases
