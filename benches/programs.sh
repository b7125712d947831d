#!/usr/bin/env bash
# Counts the instructions that each program takes for five proofs, `lrat_check` for two forms of each, and compares them with the
# table of README.md:
#
#   benches/programs.sh [NAME..]
#
# The formulas are made by seeds, their DRAT proofs by cadical, the LRAT by `drat_check --lrat`, as text and binary, and the proof
# bytes by `lrat_to_proof` of the text. A line says what a program takes for a hint of that text, with the checker in C++ of
# benches/lrat beside it. More than three parts in a hundred above the table makes the status 1. Another cadical may make other
# proofs: the table names its own. The programs are those that `rt run` left in out/, or those of PROGRAMS, a folder with the names
# that `install.sh` gives them. Formulas and proofs are kept in FOLDER, where that is set. It needs valgrind, python3, g++ and cadical.
set -euo pipefail
top=$(cd "$(dirname "$0")/.." && pwd)
work=$(mktemp -d)
trap 'rm -rf "$work"' EXIT
folder=${FOLDER:-$work}

LIST='
r250   | random 250 4.6 1
mult7  | multiplier 7
php8   | pigeons 8
urq24  | regular 24 1
col120 | colours 120 9.2 4 2
'

# program NAME: the file of a program
program() {
  if [[ $1 == reference ]]; then
    echo "$work/reference"
  elif [[ ${PROGRAMS:-} ]]; then
    echo "$PROGRAMS/$1"
  else
    echo "$top/crates/$1_main/out/$1_main"
  fi
}

# make NAME FAMILY ARGUMENT..: the formula and its proofs, where they are not there
make_files() {
  local at=$folder/$1
  if [[ -f $at.proof ]]; then
    return
  fi
  python3 -B "$top/benches/drat_formulas.py" "${@:2}" > "$at.cnf"
  cadical -q --no-binary "$at.cnf" "$at.drat" > "$work/said" || true
  "$(program drat_check)" "$at.cnf" "$at.drat" --lrat "$at.lrat" > "$work/said"
  "$(program drat_check)" "$at.cnf" "$at.drat" --lrat "$at.binary" --binary > "$work/said"
  "$(program lrat_to_proof)" "$at.cnf" "$at.lrat" "$at.proof"
}

# instructions NAME PROGRAM [binary]: what the whole program takes, which must say that the formula can't be satisfied
instructions() {
  local suffix said
  case $2 in
    drat_check) suffix=drat ;;
    varisat_check) suffix=proof ;;
    *) suffix=${3:-lrat} ;;
  esac
  said=$(valgrind --tool=callgrind --callgrind-out-file=/dev/null "$(program "$2")" "$folder/$1.cnf" "$folder/$1.$suffix" \
    2> "$work/log") || true
  if [[ $said != *UNSAT* ]]; then
    echo "$1 by $2: ${said:-no verdict}" >&2
    tail -5 "$work/log" >&2
    return 1
  fi
  sed -n 's/^==[0-9]*== Collected : \([0-9]*\)$/\1/p' "$work/log"
}

# hints NAME: how many hints the additions of the text have
hints() {
  awk '$2 != "d" { past = 0; for (i = 2; i < NF; i++) { all += past; past = past || $i == 0 } } END { print all }' \
    "$folder/$1.lrat"
}

# told NAME PROGRAM: the figure of the table, or nothing
told() {
  tr -d '`' < "$top/benches/README.md" | awk -F' *[|] *' -v name="$1" -v program="$2" '
    !/^[|]/ { split("", column) }
    $2 == "instructions a hint" { for (i = 2; i <= NF; i++) column[$i] = i; next }
    $2 == name && column[program] { print $column[program] }'
}

g++ -O2 -o "$work/reference" "$top/benches/lrat/reference.cc"
status=0
printf '%-8s %10s %-17s %8s %8s\n' proof hints program 'a hint' table
while IFS='|' read -r name formula; do
  name=${name// /}
  if [[ -z $name ]] || { (($#)) && [[ " $* " != *" $name "* ]]; }; then
    continue
  fi
  # shellcheck disable=SC2086
  make_files "$name" $formula
  count=$(hints "$name")
  for one in varisat_check lrat_check 'lrat_check binary' hint_check drat_check reference; do
    # shellcheck disable=SC2086
    took=$(($(instructions "$name" $one) / count))
    before=$(told "$name" "$one")
    printf '%-8s %10d %-17s %8d %8s\n' "$name" "$count" "$one" "$took" "$before"
    if [[ $before && $one != reference ]] && ((100 * took > 103 * before)); then
      echo "$name by $one: more than 3 % worse than $before a hint" >&2
      status=1
    fi
  done
done <<< "$LIST"
exit $status
