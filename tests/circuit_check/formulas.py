#!/usr/bin/env python3
"""The formulas of circuits, by another hand: as clauses over DIMACS numbers.

formulas.py never A.aig, formulas.py same A.aig B.aig      writes the formula to standard output
"""
import sys

import aiger


def number(lit):
    """The DIMACS number of a literal: variable 0 is 1."""
    return -(lit // 2 + 1) if lit % 2 else lit // 2 + 1


def gates(circuit, move=lambda lit: lit):
    for gate in circuit.gates:
        out, left, right = (number(move(lit)) for lit in gate)
        yield [-out, left]
        yield [-out, right]
        yield [out, -left, -right]


def never(circuit):
    return [[-1], *gates(circuit), [number(lit) for lit in circuit.outputs]]


def same(one, other):
    """Inputs are shared; gates of the second circuit follow those of the first one, then come the differences."""
    shift = 2 * len(one.gates)

    def move(lit):
        return lit if lit // 2 <= one.inputs else lit + shift

    first = one.inputs + 1 + len(one.gates) + len(other.gates)
    clauses = [[-1], *gates(one), *gates(other, move)]
    for k, (a, b) in enumerate(zip(one.outputs, other.outputs)):
        x, y, differs = number(a), number(move(b)), first + k + 1
        clauses += [[-differs, x, y], [-differs, -x, -y]]
    return [*clauses, [first + k + 1 for k in range(len(one.outputs))]]


def safe(machine, invariant):
    """Three formulas. Gates of the invariant follow the machine's, and the variables of the next step follow all of these."""
    states, own = machine.inputs + len(machine.latches), len(machine.gates)
    last = states + own + len(invariant.gates)

    def place(lit):
        return lit if lit // 2 <= states else lit + 2 * own

    def later(lit):
        return lit if lit < 2 else lit + 2 * last

    holds = place(invariant.outputs[0])
    circuit = [[-1], *gates(machine), *gates(invariant, place)]
    resets = [[number(lit if reset else lit ^ 1)] for lit, _, reset in machine.latches if reset is not None]
    copy = [*gates(machine, later), *gates(invariant, lambda lit: later(place(lit)))]
    latches = []
    for lit, follows, _ in machine.latches:
        x, y = number(later(lit)), number(follows)
        latches += [[-x, y], [x, -y]]
    granted = [[number(lit)] for lit in machine.constraints]
    return (
        [*circuit, *resets, [-number(holds)]],
        [*circuit, *copy, *latches, *granted, [number(holds)], [-number(later(holds))]],
        [*circuit, *granted, [number(holds)], [number(lit) for lit in machine.bad or machine.outputs]],
    )


def text(clauses):
    """The formula as DIMACS text."""
    count = max((abs(lit) for clause in clauses for lit in clause), default=0)
    lines = [" ".join(map(str, [*clause, 0])) for clause in clauses]
    return "\n".join([f"p cnf {count} {len(clauses)}", *lines]) + "\n"


def main():
    circuits = [aiger.read(open(name, "rb").read()) for name in sys.argv[2:]]
    clauses = (never if sys.argv[1] == "never" else same)(*circuits)
    sys.stdout.write(text(clauses))


if __name__ == "__main__":
    main()
