#!/usr/bin/env bash
# Measures `circuit_check` on circuits, as rows of the table of README.md, beside ABC's own check `cec`:
#
#   benches/circuits.sh [NAME..]
#
# NAME is `random` (10^6 gates, by a seed), `alu` (two designs), `rewritten`, `sha` or `crc` (a design, and what ABC makes of it). All
# are run if none is named. Times are processor seconds. The program is the one that `rt run` left in out/; PROGRAM may name another.
# It needs python3, GNU time, cadical, yosys and berkeley-abc.
set -euo pipefail
top=$(cd "$(dirname "$0")/.." && pwd)
program=${PROGRAM:-$top/crates/circuit_check_main/out/circuit_check_main}
work=$(mktemp -d)
trap 'rm -rf "$work"' EXIT
cd "$work"

# spent WANTED COMMAND..: leaves the seconds and the largest MB of a call that must end with this status
spent() {
  local status=0 user system size
  /usr/bin/time -q -o time -f '%U %S %M' "${@:2}" > said 2> errors || status=$?
  if [[ $status != "$1" ]]; then
    echo "${*:2}: status $status, $(cat said errors)" >&2
    return 1
  fi
  read -r user system size < ./time
  seconds=$(awk "BEGIN { printf \"%.2f\", $user + $system }")
  megabytes=$(awk "BEGIN { printf \"%.0f\", $size * 1024 / 1e6 }")
}

# design FILE MODULE OUT: a circuit of a module in Verilog
design() {
  yosys -q -p "read_verilog $top/benches/circuits/$1.v; synth -flatten -top $2; aigmap; opt_clean; write_aiger $3" > said 2>&1 || cat said
}

# rewritten IN OUT: what ABC makes of a circuit
rewritten() {
  berkeley-abc -q "read_aiger $1; strash; dc2; balance; rewrite; refactor; balance; rewrite -z; balance; write_aiger $2" > said 2>&1 || cat said
}

gates() {
  head -n 1 "$1" | cut -d' ' -f6
}

# pair NAME: the row of one.aig and other.aig
pair() {
  local row
  row="$1 | $(gates one.aig) / $(gates other.aig)"
  spent 0 "$program" same one.aig other.aig --formula cnf
  row+=" | $(awk 'NR == 1 { print $4 }' cnf) | $seconds"
  spent 20 cadical -q cnf proof
  row+=" | $seconds | $(awk "BEGIN { printf \"%.1f\", $(stat -c %s proof) / 1e6 }")"
  spent 0 "$program" same one.aig other.aig --proof proof
  row+=" | $seconds s, $megabytes MB"
  [[ $(cat said) == 's VERIFIED SAME' ]]
  spent 0 berkeley-abc -q 'cec one.aig other.aig'
  grep -q 'equivalent' said
  echo "| $row | $seconds |"
}

names=("$@")
if ((${#names[@]} == 0)); then
  names=(random alu rewritten sha crc)
fi
for name in "${names[@]}"; do
  case $name in
    random)
      python3 -B "$top/benches/circuits/random.py" 1000000 1 > random.aig
      spent 0 "$program" never random.aig --formula cnf
      echo "random: $(stat -c %s random.aig) bytes to $(stat -c %s cnf), $seconds s, $megabytes MB"
      ;;
    alu)
      design alu alu one.aig
      design alu2 alu2 other.aig
      pair "$name"
      ;;
    rewritten)
      design alu alu one.aig
      rewritten one.aig other.aig
      pair "$name"
      ;;
    sha | crc)
      design "$name" "$name" one.aig
      rewritten one.aig other.aig
      pair "$name"
      ;;
    *)
      echo "no circuits of this name: $name" >&2
      exit 2
      ;;
  esac
done
