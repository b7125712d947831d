#!/usr/bin/env bash
# What programs say of a run on standard error, while it goes on and at its end: what `RUST_LOG` asks for is logged, how far
# the run has come is told as `--quiet`, `--verbose` and a terminal decide, and `--stats` counts. The verdict stays alone on its line.
#
# The programs must be built: `rt ci` does it, or `rt run` in their folders.
set -euo pipefail
. "$(dirname "$0")/lib.sh"
data=$top/tests/data
needs varisat_check drat_check lrat_check hint_check follows_check minimal_check
printf 'p cnf 2 4\n1 2 0\n1 -2 0\n-1 2 0\n-1 -2 0\n' > "$work/cnf"
printf '5 1 0 1 2 0\n6 0 5 3 4 0\n' > "$work/lrat"
printf 'd 1 2 3 0\n1 0\n' > "$work/drat"
printf 'd 1 2 3 0\n1 x 0\n' > "$work/malformed"

# logs NAME SETTING VERDICT PROGRAM FILE FILE LINE..: a run under a setting of the environment, `unset` for none, has this
# verdict and logs these lines, which are patterns of grep, behind a level and a module
logs() {
  local name=$1 setting=(env -u RUST_LOG) verdict=$3 program=$top/crates/$4_main/out/$4_main status=0
  if [[ $2 != unset ]]; then
    setting+=("RUST_LOG=$2")
  fi
  "${setting[@]}" "$program" "$5" "$6" > "$work/out" 2> "$work/err" || status=$?
  if [[ $status != 0 || $(cat "$work/out") != "$verdict" ]]; then
    echo "WRONG $name: status $status, output '$(cat "$work/out")'"
    wrong=1
  elif [[ $(wc -l < "$work/err") != $(($# - 6)) ]] || ! are_lines "${@:7}" < "$work/err"; then
    echo "WRONG $name: errors '$(cat "$work/err")'"
    wrong=1
  else
    echo "ok    $name"
  fi
}

# are_lines PATTERN..: whether the lines are of these patterns, each its own
are_lines() {
  local pattern line
  for pattern in "$@"; do
    read -r line
    grep -Eqx "\[INFO +[a-z_:]+\] $pattern" <<< "$line" || return 1
  done
}

case_log() {
  parsed="Parsed formula with $(awk '$1 == "p" { print $3 " variables and " $4 " clauses" }' "$data/par10.cnf")"
  grid=('s UNSATISFIABLE' varisat_check "$data"/par10.{cnf,whole.proof})
  logs unset unset "${grid[@]}"
  logs info info "${grid[@]}" "$parsed"
  logs warn warn "${grid[@]}"
  logs off off "${grid[@]}"
  logs of_the_checker varisat_checker=info "${grid[@]}" "$parsed"
  logs of_another_crate another=info "${grid[@]}"
}

# slow FILE: its bytes, the last one after four times the time from one report to the next: a program may begin late
slow() {
  head -c -1 "$1"
  sleep 2
  tail -c 1 "$1"
}

# tells NAME SETTING LINE VERDICT PROGRAM CNF PROOF WORD..: a run over a slow proof has this verdict, and tells once or more
# how far it has come, in lines of this pattern of grep; an empty one: it tells nothing. CNF may be several files.
tells() {
  local name=$1 program=$top/crates/$5_main/out/$5_main status=0 wanted=0
  [[ $5 != follows_check ]] || wanted=20
  # shellcheck disable=SC2086 # several words
  slow "$7" | env "RUST_LOG=$2" "$program" $6 - "${@:8}" > "$work/out" 2> "$work/err" || status=$?
  if [[ $status != "$wanted" || $(cat "$work/out") != "$4" ]]; then
    echo "WRONG $name: status $status, output '$(cat "$work/out")'"
    wrong=1
  elif [[ -z $3 && -s $work/err ]] || [[ -n $3 ]] && { [[ ! -s $work/err ]] || grep -Evqx "$3" "$work/err"; }; then
    echo "WRONG $name: errors '$(cat "$work/err")'"
    wrong=1
  else
    echo "ok    $name"
  fi
}

read='proof: 0\.0 MB read'

case_progress() {
  tells drat_unasked off '' 's VERIFIED UNSAT' drat_check "$work"/{cnf,drat}
  tells drat_quiet off '' 's VERIFIED UNSAT' drat_check "$work"/{cnf,drat} --quiet
  tells drat_verbose off "$read" 's VERIFIED UNSAT' drat_check "$work"/{cnf,drat} --verbose
  tells drat_logged info "\[INFO +drat_check\] $read" 's VERIFIED UNSAT' drat_check "$work"/{cnf,drat} --quiet
  tells drat_logged_by_name drat_check=info "\[INFO +drat_check\] $read" 's VERIFIED UNSAT' drat_check "$work"/{cnf,drat}
  tells drat_of_another_program lrat_check=info '' 's VERIFIED UNSAT' drat_check "$work"/{cnf,drat}
  tells lrat_unasked off '' 's VERIFIED UNSAT' lrat_check "$work"/{cnf,lrat}
  tells lrat_verbose off "$read" 's VERIFIED UNSAT' lrat_check "$work"/{cnf,lrat} --verbose
  tells lrat_logged info "\[INFO +lrat_check\] $read" 's VERIFIED UNSAT' lrat_check "$work"/{cnf,lrat}
  tells hint_verbose off "$read" 's VERIFIED UNSAT' hint_check "$work"/{cnf,lrat} --verbose
  printf 'p cnf 2 2\n1 0\n2 0\n' > "$work/claims"
  printf '1 2 0\n1 -2 0\n-1 2 0\n-1 -2 0\n' > "$work/core"
  printf -- '-1 -2 0\n-1 2 0\n1 -2 0\n1 2 0\n' > "$work/models"
  claims=('s VERIFIED FOLLOWS' follows_check "$work/cnf $work/claims" "$work/drat")
  core=('s VERIFIED MINIMAL' minimal_check "$work/core" "$work/drat" "$work/models")
  tells follows_unasked off '' "${claims[@]}"
  tells follows_quiet off '' "${claims[@]}" --quiet
  tells follows_verbose off "$read" "${claims[@]}" --verbose
  tells follows_logged info "\[INFO +follows_check\] $read" "${claims[@]}"
  tells minimal_unasked off '' "${core[@]}"
  tells minimal_verbose off "$read" "${core[@]}" --verbose
  tells minimal_logged info "\[INFO +minimal_check\] $read" "${core[@]}"
  tells varisat_verbose off "$read" 's UNSATISFIABLE' varisat_check "$data"/par10.{cnf,whole.proof} --verbose
}

# On a terminal one line is written anew, and taken back before the verdict's.
case_terminal() {
  back=$'\r\x1b[K'
  only_with script
  for program in drat_check lrat_check hint_check; do
    for option in '' --quiet --verbose; do
      name="$program on a terminal $option"
      proof=$work/${program%_check}
      [[ $program != hint_check ]] || proof=$work/lrat
      mkfifo "$work/pipe"
      slow "$proof" > "$work/pipe" &
      script -qec "$top/crates/${program}_main/out/${program}_main $option $work/cnf $work/pipe" /dev/null > "$work/out" < /dev/null || true
      wait
      rm "$work/pipe"
      shown=$(tr -d '\n' < "$work/out")
      case $option in
        '') pattern="(${back//[/\\[}proof: 0\.0 MB read)+${back//[/\\[}s VERIFIED UNSAT"$'\r' ;;
        --quiet) pattern=$'s VERIFIED UNSAT\r' ;;
        --verbose) pattern=$'(proof: 0\\.0 MB read\r)+s VERIFIED UNSAT\r' ;;
      esac
      if grep -Eqx "$pattern" <<< "$shown"; then
        echo "ok    $name"
      else
        printf 'WRONG %s: %q\n' "$name" "$shown"
        wrong=1
      fi
    done
  done
}

# The second phase of drat_check, over the first of these proofs that takes long enough to be told of, however fast the machine is.
case_backward() {
  only_with cadical
  for holes in 8 9 10; do
    python3 -B "$top/tests/drat/formulas.py" pigeons "$holes" > "$work/long.cnf"
    cadical -q "$work/long.cnf" "$work/long.drat" > "$work/said" 2>&1 || true
    begun=${EPOCHREALTIME/./}
    "$top/crates/drat_check_main/out/drat_check_main" --verbose "$work"/long.{cnf,drat} > "$work/out" 2> "$work/err" || true
    if ((${EPOCHREALTIME/./} - begun > 1200000)); then
      break
    fi
  done
  if [[ $(cat "$work/out") == 's VERIFIED UNSAT' ]] \
    && grep -Eqx 'proof: [0-9]{1,2} % of [0-9]+ steps gone over backward, [0-9]+ checked' "$work/err" \
    && ! grep -Evx 'proof: [0-9]+ % of [0-9]+ steps gone over backward, [0-9]+ checked|proof: [0-9.]+ of [0-9.]+ MB read, [0-9]+ %' "$work/err"; then
    echo 'ok    long'
  else
    echo "WRONG long: output '$(cat "$work/out")', errors '$(cat "$work/err")'"
    wrong=1
  fi
}

# counts NAME PROGRAM CNF PROOF VERDICT LINE..: with --stats these lines come on standard error, which are patterns of grep
counts() {
  local name=$1 program=$top/crates/$2_main/out/$2_main line
  "$program" --stats "$3" "$4" > "$work/out" 2> "$work/err" || true
  mapfile -t said < "$work/err"
  if [[ $(cat "$work/out") != "$5" || ${#said[@]} != $(($# - 5)) ]]; then
    echo "WRONG $name: output '$(cat "$work/out")', errors '$(cat "$work/err")'"
    wrong=1
    return
  fi
  for line in "${said[@]}"; do
    if ! grep -Eqx "$6" <<< "$line"; then
      echo "WRONG $name: '$line' is not '$6'"
      wrong=1
    fi
    set -- "${@:1:5}" "${@:7}"
  done
  echo "ok    $name"
}

# 1 follows from two of the clauses, and the other two are against each other with it.
case_stats() {
  cost=('c seconds [0-9]+\.[0-9]{3}' 'c memory_kb [1-9][0-9]+')
  counts stats drat_check "$work"/{cnf,drat} 's VERIFIED UNSAT' 'c steps 2' 'c lemmas 2' 'c rat_lemmas 0' 'c hints 5' \
    'c core_clauses 4' "${cost[@]}"
  printf 'd 1 2 3 0\n' > "$work/open"
  counts stats_open drat_check "$work"/{cnf,open} 's NOT VERIFIED' 'c steps 1' 'c lemmas 0' 'c rat_lemmas 0' 'c hints 0' 'c core_clauses 0' \
    "${cost[@]}"
  counts stats_malformed drat_check "$work"/{cnf,malformed} '' 'proof: step 2: malformed' "in $work/malformed" 'c steps 1' 'c lemmas 0' \
    'c rat_lemmas 0' 'c hints 0' 'c core_clauses 0' "${cost[@]}"
  counts stats_lrat lrat_check "$work"/{cnf,lrat} 's VERIFIED UNSAT' "${cost[@]}"
}

# json NAME PROGRAM CNF PROOF COUNTS OPTION..: with --json the last line on standard error is an object with these counts, a python dict, and
# what the run cost
json() {
  if ! "$top/crates/$2_main/out/$2_main" "${@:6}" --json "$3" "$4" 2> "$work/err" > /dev/null; then
    :
  fi
  if python3 - "$work/err" "$5" << 'END'; then
import ast
import json
import sys

with open(sys.argv[1], encoding="utf-8") as lines:
    *before, last = lines.read().splitlines()
said = json.loads(last)
counts = ast.literal_eval(sys.argv[2])
cost = {it: said.pop(it, -1) for it in ("seconds", "memory_kb")}
sys.exit(not (said == counts and list(said) == list(counts) and cost["seconds"] >= 0 and cost["memory_kb"] > 0))
END
    echo "ok    $1"
  else
    echo "WRONG $1: errors '$(cat "$work/err")'"
    wrong=1
  fi
}

case_json() {
  json json drat_check "$work"/{cnf,drat} "{'steps': 2, 'lemmas': 2, 'rat_lemmas': 0, 'hints': 5, 'core_clauses': 4}"
  json json_and_stats drat_check "$work"/{cnf,drat} "{'steps': 2, 'lemmas': 2, 'rat_lemmas': 0, 'hints': 5, 'core_clauses': 4}" --stats
  json json_malformed drat_check "$work"/{cnf,malformed} "{'steps': 1, 'lemmas': 0, 'rat_lemmas': 0, 'hints': 0, 'core_clauses': 0}"
  json json_lrat lrat_check "$work"/{cnf,lrat} '{}'
}

try_cases
