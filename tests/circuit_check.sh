#!/usr/bin/env bash
# Circuits in AIGER, and `circuit_check` on them: random circuits and texts that are nearly ones, by tests/circuit_check/circuits.py;
# names of inputs and outputs, by tests/circuit_check/names.py; random machines and invariants, by tests/circuit_check/machines.py, and
# stimuli, by tests/circuit_check/stimuli.py; and a machine in Verilog with the invariant of a model checker.
# It uses cadical, yosys and berkeley-abc, if they are installed.
#
#   tests/circuit_check.sh [COUNT [SEED]]
#
# The program must be built: `rt ci` does it, or `rt run` in its folder.
set -euo pipefail
. "$(dirname "$0")/lib.sh"
check=$(built circuit_check)
count=${1:-} seed=${2:-1}
cd "$work"
printf 'aig 3 2 0 1 1\n6\n\2\2' | tee one.aig two.aig > before
printf '%s 0\n' -5 4 3 2 '' > proof

# No circuit is written over, by whatever name.
case_outputs() {
  ln one.aig hard
  ln -s one.aig soft
  for name in one.aig ./one.aig hard soft two.aig - ''; do
    status=0
    "$check" same one.aig two.aig --formula "$name" > said 2> err || status=$?
    if [[ $status != 2 || -s said ]] || ! cmp -s one.aig before || ! cmp -s two.aig before; then
      fault "--formula '$name': status $status, $(cat said err)"
    fi
  done
}

# said STATUS TEXT WORD..: circuit_check ends so, and prints and says this
said() {
  local status=0
  "$check" "${@:3}" > said 2> err || status=$?
  if [[ "$status $(cat said err)" != "$1 $2" ]]; then
    fault "${*:3}: status $status, $(cat said err), and not $1 $2"
  fi
}

# a and not b, with the names in both orders; and b and not a
named() {
  printf 'aig 3 2 0 1 1\n6\n\1\3i0 a\ni1 b\no0 y\n' > n1.aig
  printf 'aig 3 2 0 1 1\n6\n\2\1i0 b\ni1 a\no0 y\n' > n2.aig
  printf 'aig 3 2 0 1 1\n6\n\1\3i0 b\ni1 a\no0 y\n' > n3.aig
  # the two gates are the same, if they read the same
  printf '%s 0\n' '-4 5' '4 -5' 4 '' > named.proof
  printf 's SATISFIABLE\nv 2 -3 0\n' > named.answer
}

# Inputs and outputs are paired by their names: designs with their ports in other orders are the same, and others are not.
case_by_name() {
  named
  unpaired='names: input 1 of the second circuit has a name that none of the other circuit has'
  sed 's/i1 a/i1 x/' n2.aig > n4.aig
  sed '/i1/d' n2.aig > n5.aig
  sed 's/i1 a/i1 b/' n2.aig > n6.aig
  said 0 's VERIFIED SAME' same n1.aig n2.aig --proof named.proof
  said 3 's NOT VERIFIED' same n1.aig n3.aig --proof /dev/null
  said 0 $'s VERIFIED DIFFERENT\ni 10\no 1\no 0' same n1.aig n3.aig --answer named.answer
  said 3 's NOT VERIFIED' same n1.aig n2.aig --answer named.answer
  said 0 's VERIFIED SAME' same n1.aig n3.aig --proof named.proof --by-position
  said 0 $'s VERIFIED DIFFERENT\ni 10\no 1\no 0' same n1.aig n2.aig --answer named.answer --by-position
  said 1 "$unpaired" same n1.aig n4.aig --proof named.proof
  said 1 'names: input 1 of the second circuit has no name' same n1.aig n5.aig --answer named.answer
  said 1 'names: input 1 of the second circuit has the name of an earlier one' same n1.aig n6.aig --formula formula
  said 0 's VERIFIED SAME'$'\n''warning: the circuits have no names: inputs and outputs are paired by their positions' \
    same one.aig two.aig --proof proof
  status=0
  "$check" never n1.aig --proof proof --by-position > said 2> err || status=$?
  if [[ "$status $(head -n 1 err)" != '2 --by-position is of same' || -s said ]]; then
    fault "never --by-position: status $status, $(cat said err)"
  fi
}

# Nothing is claimed of circuits without outputs.
case_no_outputs() {
  printf 'aig 0 0 0 0 0\n' > none.aig
  rm -f formula
  for option in '--proof /dev/null' '--answer answer' '--formula formula'; do
    printf 's SATISFIABLE\nv 0\n' > answer
    # shellcheck disable=SC2086 # several words
    {
      said 1 'the circuits have no outputs' never none.aig $option
      said 1 'the circuits have no outputs' same none.aig none.aig $option --by-position
    }
  done
  if [[ -e formula ]]; then
    fault 'a formula of circuits without outputs'
  fi
}

# A formula that is not whole has no name.
case_cut_off() {
  printf 'aig 3 2 0 1 1\n6\n\2' > cut.aig
  echo kept > formula
  if "$check" never cut.aig --formula formula > said 2> err || [[ $(cat formula) != kept ]]; then
    fault "the formula of a circuit that is cut off: $(cat said err formula)"
  fi
}

# An answer is not a proof, and of a machine there is none; circuits that are compared have as many inputs and outputs.
case_answers() {
  printf 's SATISFIABLE\nv 2 3 0\n' > answer
  printf 'aig 1 1 0 1 0\n2\n' > input.aig
  printf 'aig 3 2 0 2 1\n6\n2\n\2\2' > outputs.aig
  printf 'aig 1 0 1 1 0\n2\n2\n' > latch.aig
  # ends STATUS FIRST COMMAND..: it must end so, print nothing, and say this in its first line
  ends() {
    local status=0
    "${@:3}" > said 2> err || status=$?
    if [[ $status != "$1" || -s said || $(head -n 1 err) != "$2" ]]; then
      fault "${*:3}: status $status, $(cat said err)"
    fi
  }
  for claim in 'never one.aig' 'same one.aig two.aig'; do
    # shellcheck disable=SC2086 # several words
    for other in '--proof proof' '--formula formula' '--init-proof proof'; do
      ends 2 'one of --proof, --answer and --formula' "$check" $claim --answer answer $other
    done
  done
  ends 2 '--init-proof, --step-proof and --bad-proof, or --init-formula, --step-formula and --bad-formula' \
    "$check" safe one.aig two.aig --answer answer
  ends 1 'a circuit with latches, bad state properties or invariant constraints' "$check" never latch.aig --answer answer
  ends 1 'a circuit with latches, bad state properties or invariant constraints' "$check" same one.aig latch.aig --answer answer --by-position
  for option in answer formula proof; do
    option="--by-position --$option $option"
    # shellcheck disable=SC2086 # several words
    {
      ends 1 'the circuits have different numbers of inputs' "$check" same one.aig input.aig $option
      ends 1 'the circuits have different numbers of outputs' "$check" same one.aig outputs.aig $option
      ends 1 'the circuits have different numbers of outputs' "$check" same outputs.aig one.aig $option
    }
  done
  ends 2 'cannot open absent' "$check" never one.aig --answer absent
}

# An arbiter by yosys and its invariant by berkeley-abc: the machine is safe, and without any one of its cubes nothing shows it.
case_arbiter() {
  only_with yosys berkeley-abc cadical
  # shown WANTED: the three formulas of arbiter.aig and invariant.aig, their proofs, and the verdict
  shown() {
    "$check" safe arbiter.aig invariant.aig --init-formula init.cnf --step-formula step.cnf --bad-formula bad.cnf
    for part in init step bad; do
      cadical -q $part.cnf $part.proof > said || [[ $? == 10 || $? == 20 ]]
    done
    "$check" safe arbiter.aig invariant.aig --init-proof init.proof --step-proof step.proof --bad-proof bad.proof > said 2> err || true
    if [[ $(cat said) != "$1" ]]; then
      fault "arbiter: $(cat said err), and not $1"
    fi
  }
  yosys -q -p "read_verilog $top/tests/circuit_check/arbiter.v; synth -flatten -top arbiter; dffunmap; aigmap; opt_clean; write_aiger -zinit arbiter.aig" \
    > said 2>&1 || cat said
  berkeley-abc -q "read_aiger arbiter.aig; pdr -d -I cubes" > said 2>&1 || cat said
  grep '^[01-]* 1$' cubes > all
  python3 -B "$top/tests/circuit_check/invariant.py" arbiter.aig all invariant.aig
  shown "s VERIFIED SAFE"
  for number in $(seq "$(wc -l < all)"); do
    sed "${number}d" all > fewer
    python3 -B "$top/tests/circuit_check/invariant.py" arbiter.aig fewer invariant.aig
    shown "s NOT VERIFIED"
  done
  echo "arbiter: $(wc -l < all) cubes, and without each of them"
}

# Two designs that differ in the order of their ports alone: by yosys with symbols one is the same, and one is not.
case_ports() {
  only_with yosys cadical
  on_path drat_check circuit_check checked
  ports() {
    echo "module m(input [7:0] $2, $3, output [7:0] y); assign y = $4; endmodule" > "$1.v"
    yosys -q -p "read_verilog $1.v; synth -flatten -top m; aigmap; opt_clean; write_aiger -symbols $1.aig" > said 2>&1 || cat said
  }
  ports before a b 'a - b'
  ports after b a 'b - a'
  ports other b a 'a + ~b + 1'
  status=0
  checked --same cadical before.aig after.aig > said 2> err || status=$?
  if [[ $status != 10 || $(head -n 1 said) != 's VERIFIED DIFFERENT' ]]; then
    fault "ports in another order: status $status, $(cat said err)"
  fi
  expect 20 's VERIFIED SAME' -- checked --same cadical before.aig other.aig
  expect 20 's VERIFIED SAME' -- checked --by-position --same cadical before.aig after.aig
}

case_names() {
  python3 -B "$top/tests/circuit_check/names.py" "$check" "${count:-100}" "$seed" || wrong=1
}

case_machines() {
  python3 -B "$top/tests/circuit_check/machines.py" "$check" "${count:-60}" "$seed" || wrong=1
}

case_stimuli() {
  python3 -B "$top/tests/circuit_check/stimuli.py" "$check" "${count:-200}" "$seed" || wrong=1
}

case_circuits() {
  python3 -B "$top/tests/circuit_check/circuits.py" "$check" "${count:-200}" "$seed" || wrong=1
}

try_cases
