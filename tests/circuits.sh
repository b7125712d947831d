#!/usr/bin/env bash
# Circuits that yosys makes of Verilog and ABC rewrites, and `checked` on them by cadical: the example of docs/USING.md word for word, the
# designs of tests/circuits, with ABC's own check of equality as the oracle, and circuits with a wrong gate. `circuit_sweep` has to answer
# where the solver never does.
#
# The programs must be built: `rt ci` does it, or `rt run` in their folders. It needs yosys, berkeley-abc and cadical.
set -euo pipefail
. "$(dirname "$0")/lib.sh"
only_with yosys berkeley-abc cadical
on_path drat_check circuit_check checked circuit_sweep
cd "$work"

# design NAME [COMMAND]: the circuit NAME.aig of a design, and the same rewritten by ABC, NAME.new.aig
design() {
  yosys -q -p "read_verilog $top/tests/circuits/$1.v; ${2:-}; synth -flatten -top $1; aigmap; opt_clean; write_aiger $1.aig" > said
  berkeley-abc -q "read_aiger $1.aig; strash; dc2; balance; rewrite; refactor; balance; rewrite -z; balance; write_aiger $1.new.aig" > said
}

# are_equal A B: what ABC says
are_equal() {
  berkeley-abc -q "cec $1 $2" > said
  grep -q 'Networks are equivalent' said
}

# rewritten A B OPTION..: two circuits that are equal by ABC
rewritten() {
  if ! are_equal "$1" "$2"; then
    echo "$1 and $2 are not equal by ABC: $(cat said)"
    wrong=1
  fi
  expect 20 's VERIFIED SAME' -- checked "${@:3}" --limit 300 --same cadical "$1" "$2"
}

# a solver that never ends on the whole formula, and one that also writes text
printf '#!/bin/sh\ncase $* in *asked.cnf*) exec sleep 600;; esac\nexec cadical -q "$@"\n' > bin/lazy
printf '#!/bin/sh\ncase $* in *asked.cnf*) exec sleep 600;; esac\nexec cadical -q --no-binary "$@"\n' > bin/lazy_text
chmod +x bin/lazy bin/lazy_text
design sums
design multiplier 'chparam -set N 5 multiplier'

# The example: its two designs, and its commands.
case_example() {
  using=$top/docs/USING.md
  for name in before after; do
    awk -v name="$name.v" '/^```/ { open = $0 == "```verilog " name; next } open' "$using" > "$name.v"
  done
  awk '/^## / { below = $0 == "## Circuits" } /^```/ { open = below && $0 == "```bash"; next } open' "$using" > commands
  expect 20 's VERIFIED SAME' -- bash -e commands
}

case_designs() {
  designs=(alu sha)
  for name in "${designs[@]}"; do
    design "$name"
    rewritten "$name.aig" "$name.new.aig"
  done
  design alu_shared
  rewritten alu.aig alu_shared.aig
}

case_never() {
  expect 20 's VERIFIED NEVER' -- checked --never cadical sums.aig
}

# Where the solver never ends, the verdict is by way of equal gates.
case_sweep() {
  design crc
  design multiplier
  for name in crc multiplier; do
    are_equal "$name.aig" "$name.new.aig" || wrong=1
    expect 20 's VERIFIED SAME' -- checked --sweep-after 0 --keep "$name.drat" --limit 300 --same lazy "$name.aig" "$name.new.aig"
    expect 0 's VERIFIED SAME' -- circuit_check same "$name.aig" "$name.new.aig" --proof "$name.drat"
  done
}

case_sweep_text() {
  expect 20 's VERIFIED SAME' -- checked --sweep-after 0 --same lazy_text multiplier.aig multiplier.new.aig
  expect 20 's VERIFIED NEVER' -- checked --sweep-after 0 --never lazy sums.aig
}

# A wrong gate, or an output that is always false: both by the solver and by way of equal gates the verdict is that the circuits differ.
case_wrong_gates() {
  for change in 'write 1' 'write 7' 'write 40' last; do
    read -r kind number <<< "$change"
    python3 -B "$top/tests/circuits/turned.py" "$kind" multiplier.new.aig turned.aig ${number:+"$number"}
    if are_equal multiplier.aig turned.aig; then
      echo "$change does not matter"
      wrong=1
    fi
    for call in cadical '--sweep-after 0 lazy'; do
      status=0
      # shellcheck disable=SC2086 # several words
      checked --limit 300 --same $call multiplier.aig turned.aig > verdict 2> err || status=$?
      if [[ $status != 10 ]] || ! python3 -B "$top/tests/circuits/turned.py" judge multiplier.aig turned.aig < verdict; then
        echo "$change, $call: status $status, $(cat verdict err)"
        wrong=1
      fi
    done
  done
}

case_fewer_outputs() {
  python3 -B "$top/tests/circuits/turned.py" fewer multiplier.new.aig fewer.aig
  expect 2 '' -- checked --same cadical multiplier.aig fewer.aig
  if ! grep -q 'the circuits have different numbers of outputs' err; then
    echo "an output that is left out: $(cat err)"
    wrong=1
  fi
}

try_cases
