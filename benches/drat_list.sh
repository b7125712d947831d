#!/usr/bin/env bash
# Proofs of many kinds, verified by `drat_check`, and what they take:
#
#   benches/drat_list.sh [OTHER.cc] [NAME..]
#
# What it prints with OTHER.cc is benches/drat_list.txt: a line for each proof of LIST below, or for those that are named. It has its
# bytes as text, the seconds of a processor that the solver took to find it, where one did; then seconds and megabytes at most of
# `drat_check`, instructions in millions where the proof has at most COUNTED bytes (5,000,000 where that is not set), and the same of
# OTHER.cc, compiled by `g++ -O2` and called with a formula, a proof, and `--chains`; without it, of `drat_check` alone; and the bytes of
# the LRAT lines. Where `drat_check` takes a second or more, its seconds by the clock follow, and those of `pieces run` with two and with
# four pieces at a time.
# Text and binary must be verified, give the same LRAT lines, and `lrat_check` must accept these, and those of all pieces, two and four at
# a time, whose receipts must join: else the line says what was wrong, and the script ends with status 1. A proof of more than MOST bytes (40,000,000), or that a solver needs more than LIMIT seconds
# for (300), is left out.
#
# Formulas, proofs and the solver's seconds are kept in FOLDER, where that is set. The programs are those that `rt run` left in
# out/; PROGRAM and LRAT_CHECK may name others, except for pieces. It needs python3, valgrind, Debian's `time`, and cadical, picosat and
# cryptominisat for their proofs.
set -euo pipefail
top=$(cd "$(dirname "$0")/.." && pwd)
check=${PROGRAM:-$top/crates/drat_check_main/out/drat_check_main}
lrat_check=${LRAT_CHECK:-$top/crates/lrat_check_main/out/lrat_check_main}
work=$(mktemp -d)
trap 'rm -rf "$work"' EXIT
folder=${FOLDER:-$work}
mkdir "$work/bin"
for program in drat_check drat_cut join_check; do
  ln -s "$top/crates/${program}_main/out/${program}_main" "$work/bin/$program"
done

# A checker of pieces, called as `drat_check`: by their LRAT lines, of which `lrat_check` writes the receipt
cat > "$work/bin/by_lrat" << END
#!/usr/bin/env bash
set -euo pipefail
lines=\$(mktemp "$work/lines.XXXXXX")
trap 'rm -f "\$lines"' EXIT
held=()
if [[ \$3 == --holds ]]; then
  held=(--holds "\$4")
fi
"$check" "\$1" "\$2" "\${held[@]}" --lrat "\$lines" > /dev/null
"$lrat_check" "\$1" "\$lines" "\${@:3}"
END
chmod +x "$work/bin/by_lrat"

# name | formula | how the proof is made: by a solver with options, by a family of proofs, or by definitions and cadical
LIST='
php8     | pigeons 8            | cadical
php9     | pigeons 9            | cadical
r200     | random 200 4.8 1     | cadical
r250     | random 250 4.6 1     | cadical
r300     | random 300 4.6 1     | cadical
r200p    | random 200 4.8 1     | picosat
urq24    | regular 24 1         | cadical
par30    | chains 30 1          | cadical
cnt8     | counter 8 200        | cadical
col120   | colours 120 9.2 4 2  | cadical
col160   | colours 160 9.2 4 2  | cadical
board12  | dominoes 12          | cadical
mult7    | multiplier 7         | cadical
mult8    | multiplier 8         | cadical
grid8    | grid 8 8             | cadical
ord30    | ordering 30          | cadical
peb40    | pebbles 40           | cadical
csel64   | adders 64 8          | cadical
lfsr30   | registers 24 30 1    | cadical
mult7bc  | multiplier 7         | cadical --block --cover --condition
mult7i   | multiplier 7         | cadical --plain
php7v    | pigeons 7            | cryptominisat5 --bva 1 --bvaeveryn 1
php8v    | pigeons 8            | cryptominisat5 --bva 1 --bvaeveryn 1
col120v  | colours 120 9.2 4 2  | cryptominisat5 --bva 1 --bvaeveryn 1
mult6v   | multiplier 6         | cryptominisat5 --bva 1 --bvaeveryn 1
cook10   | pigeons 10           | extended 10
cook20   | pigeons 20           | extended 20
cook40   | pigeons 40           | extended 40
sym8     | pigeons 8            | swaps 8
sym14    | pigeons 14           | swaps 14
sym20    | pigeons 20           | swaps 20
defs200  | random 200 4.8 1     | define 400 1
defs250  | random 250 4.6 1     | define 600 1
defm7    | multiplier 7         | define 300 2
mult9    | multiplier 9         | cadical
par40    | chains 40 3          | cadical
cnt10    | counter 10 900       | cadical
'

made() {
  python3 -B "$top/benches/drat_formulas.py" "$@"
}

# solved SOLVER ARGUMENT..: whether it answers "unsatisfiable" in time. Its seconds are kept.
solved() {
  local status=0
  /usr/bin/time -o "$work/solver" -f '%U %S' timeout "${LIMIT:-300}" "$@" > "$work/said" 2>&1 || status=$?
  awk 'NF == 2 { printf "%.2f", $1 + $2 }' "$work/solver" > "$work/solved"
  ((status == 20))
}

# prove CNF HOW.. > DRAT: a proof as text
prove() {
  local cnf=$1
  shift
  case $1 in
    cadical)
      solved cadical -q --no-binary "${@:2}" "$cnf" "$work/proof" && cat "$work/proof"
      ;;
    picosat)
      solved picosat -R "$work/proof" "$cnf" && grep -v '^%' "$work/proof"
      ;;
    cryptominisat5)
      solved cryptominisat5 --verb 0 "${@:2}" "$cnf" "$work/proof" && made frat < "$work/proof"
      ;;
    define)
      made define "$cnf" "$2" "$3" "$work/left"
      solved cadical -q --no-binary "$work/left" "$work/proof" && cat "$work/proof"
      ;;
    *)
      made "$@"
      ;;
  esac
}

# taken COMMAND..: seconds and megabytes in two words
taken() {
  /usr/bin/time -o "$work/time" -f '%U %S %M' "$@" > "$work/said" 2> "$work/errors" || true
  awk 'NF == 3 { printf "%7.2f %7.1f", $1 + $2, $3 / 1024 }' "$work/time"
}

# counted COMMAND..: millions of instructions of the whole program
counted() {
  valgrind --tool=callgrind --callgrind-out-file=/dev/null "$@" > "$work/said" 2> "$work/log" || true
  awk '/Collected/ { printf "%d", $NF / 1000000 }' "$work/log"
}

# is_verified PROGRAM ARGUMENT..
is_verified() {
  [[ $("$@" 2> "$work/errors") == 's VERIFIED UNSAT' ]]
}

# measured COUNT COMMAND..: a part of a line
measured() {
  local count=-
  if (($1)); then
    count=$(counted "${@:2}")
  fi
  printf '%s %7s' "$(taken "${@:2}")" "$count"
}

# in_pieces JOBS CNF DRAT: seconds by the clock of a proof in pieces, so many at a time; if they are verified
in_pieces() {
  local start=$EPOCHREALTIME
  rm -rf "$work/pieces"
  PATH=$work/bin:$PATH "$top/tools/pieces" run "$2" "$3" "$work/pieces" --jobs "$1" > "$work/said" 2> "$work/errors" || return 1
  awk -v from="$start" -v to="$EPOCHREALTIME" 'BEGIN { printf " %7.2f", to - from }'
  grep -q '^s VERIFIED UNSAT BY ' "$work/said"
}

# on_cores CNF DRAT: seconds by the clock, of the whole and in pieces
on_cores() {
  local jobs
  /usr/bin/time -o "$work/time" -f '%e' "$check" "$1" "$2" > "$work/said" 2> "$work/errors"
  printf ' %7.2f' "$(< "$work/time")"
  for jobs in 2 4; do
    in_pieces "$jobs" "$1" "$2" || return 1
  done
}

# by_lines CNF DRAT: whether `lrat_check` shows each piece by its LRAT lines, and the receipts join
by_lines() {
  local jobs
  for jobs in 2 4; do
    DRAT_CHECK=$work/bin/by_lrat in_pieces "$jobs" "$1" "$2" > "$work/clock" || return 1
  done
}

# row NAME CNF DRAT: a line; the status says whether all was as it should be
row() {
  local cnf=$2 drat=$3 size solver=- counts=0 ours
  size=$(stat -c %s "$drat")
  if ((size <= ${COUNTED:-5000000})); then
    counts=1
  fi
  if [[ -s ${drat%.drat}.solved ]]; then
    solver=$(< "${drat%.drat}.solved")
  fi
  ours=$(measured $counts "$check" "$cnf" "$drat")
  printf '%-8s %9d %7s %s' "$1" "$size" "$solver" "$ours"
  if [[ -n $other ]]; then
    printf ' %s' "$(measured $counts "$work/other" "$cnf" "$drat" --chains)"
  fi
  made binary < "$drat" > "$work/binary"
  if ! is_verified "$check" "$cnf" "$drat" --lrat "$work/lrat"; then
    printf ' WRONG: not verified as text: %s\n' "$(head -1 "$work/errors")"
    return 1
  elif ! is_verified "$check" "$cnf" "$work/binary" --lrat "$work/lrat.binary"; then
    printf ' WRONG: not verified as binary: %s\n' "$(head -1 "$work/errors")"
    return 1
  elif ! cmp -s "$work/lrat" "$work/lrat.binary"; then
    printf ' WRONG: other lines of the binary proof\n'
    return 1
  elif ! is_verified "$lrat_check" "$cnf" "$work/lrat"; then
    printf ' WRONG: lrat_check: %s\n' "$(head -1 "$work/errors")"
    return 1
  fi
  printf ' %9d' "$(stat -c %s "$work/lrat")"
  if awk '{ exit !($1 >= 1) }' <<< "$ours" && ! on_cores "$cnf" "$drat"; then
    printf ' WRONG: in pieces: %s\n' "$(head -1 "$work/errors")"
    return 1
  elif ! by_lines "$cnf" "$drat"; then
    printf ' WRONG: by the LRAT lines of pieces: %s\n' "$(head -1 "$work/errors")"
    return 1
  fi
  echo
}

other=
if [[ ${1:-} == *.cc || ${1:-} == *.cpp ]]; then
  other=$1
  g++ -O2 -std=c++17 -o "$work/other" "$other"
  shift
fi
wrong=0
printf '# %-6s %9s %7s %7s %7s %7s %s%9s %s\n' proof bytes solver seconds MB 'Minstr' "${other:+other s      MB  Minstr }" LRAT '  clock     two    four'
while IFS='|' read -r name formula how; do
  read -r name <<< "$name"
  if [[ -z $name || ($# -gt 0 && " $* " != *" $name "*) ]]; then
    continue
  fi
  read -ra formula <<< "$formula"
  read -ra how <<< "$how"
  cnf=$folder/$name.cnf drat=$folder/$name.drat
  [[ -s $cnf ]] || made "${formula[@]}" > "$cnf"
  if [[ ! -s $drat ]]; then
    : > "$work/solved"
    if ! prove "$cnf" "${how[@]}" > "$drat"; then
      rm -f "$drat"
      printf '%-8s no proof in time\n' "$name"
      continue
    fi
    cp "$work/solved" "$folder/$name.solved"
  fi
  if (($(stat -c %s "$drat") > ${MOST:-40000000})); then
    printf '%-8s %9d left out\n' "$name" "$(stat -c %s "$drat")"
    continue
  fi
  row "$name" "$cnf" "$drat" || wrong=1
done <<< "$LIST"
exit "$wrong"
