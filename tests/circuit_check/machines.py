#!/usr/bin/env python3
"""Random machines and invariants, and `circuit_check safe` on them.

machines.py PROGRAM COUNT SEED      COUNT machines, each with some invariants

The three formulas that are written are those of formulas.py, and each is refuted if no state and no input meet it, by simulation.
Where cadical is installed, its three proofs are verified if all are refuted, and else no proof shows that the machine is safe. A
machine that is verified is safe by a search of all states that a run reaches.
"""
import itertools
import os
import random
import subprocess
import sys
import tempfile

import aiger
import cases
import formulas
from circuits import SOLVER, Runs
from cefindrato.machines import invariant

PARTS = ("init", "step", "bad")


def booleans(count):
    return itertools.product((False, True), repeat=count)


class Machine:
    """A machine whose steps are simulated."""

    def __init__(self, circuit):
        self.circuit = circuit
        self.bad = circuit.bad or circuit.outputs

    def steps(self, state):
        """For each input that the constraints grant: the values, and the state after it."""
        for inputs in booleans(self.circuit.inputs):
            of = self.circuit.values(inputs, state)
            if all(of[lit] for lit in self.circuit.constraints):
                yield inputs, of, tuple(of[follows] for _, follows, _ in self.circuit.latches)

    def starts(self):
        resets = [(False, True) if reset is None else (bool(reset),) for _, _, reset in self.circuit.latches]
        return list(itertools.product(*resets))

    def reached(self):
        """The states that are reached, and whether a bad output is true in one."""
        known, more, bad = set(self.starts()), self.starts(), False
        while more:
            for _, of, after in self.steps(more.pop()):
                bad = bad or any(of[lit] for lit in self.bad)
                if after not in known:
                    known.add(after)
                    more.append(after)
        return known, bad

    def refuted(self, c):
        """Which of the three formulas are refuted for an invariant."""
        def holds(inputs, state):
            return c.values([*inputs, *state])[c.outputs[0]]

        inputs = list(booleans(self.circuit.inputs))
        first = all(holds(given, state) for state in self.starts() for given in inputs)
        stays = excludes = True
        for state in booleans(len(self.circuit.latches)):
            for given, of, after in self.steps(state):
                if holds(given, state):
                    stays = stays and all(holds(later, after) for later in inputs)
                    excludes = excludes and not any(of[lit] for lit in self.bad)
        return first, stays, excludes


def random_machine(rng):
    while True:
        c = cases.random_circuit(rng, 4)
        if c.bad or c.outputs:
            return c


def invariants(rng, circuit, known):
    """Some circuits over inputs and latches: one that excludes all states that are not reached, and others."""
    states = circuit.inputs + len(circuit.latches)
    others = [state for state in booleans(len(circuit.latches)) if state not in known]
    cubes = [list(enumerate(state)) for state in others]
    yield invariant(circuit.inputs, len(circuit.latches), cubes)
    if cubes:
        yield invariant(circuit.inputs, len(circuit.latches), cubes[1:])
    yield aiger.Circuit(states, outputs=[rng.randrange(2 * states + 2)])
    c = cases.random_circuit(rng)
    gates = []
    for k in range(len(c.gates)):
        own = 2 * (states + k + 1)
        left = rng.randrange(own)
        gates.append((own, left, rng.randrange(left + 1)))
    yield aiger.Circuit(states, gates=gates, outputs=[rng.randrange(2 * (states + len(gates)) + 2)])


def check(runs, machine, c, is_safe):
    words = ["safe", runs.put("machine.aig", aiger.write(machine.circuit)), runs.put("invariant.aig", aiger.write(c))]
    wanted = formulas.safe(machine.circuit, c)
    written, proofs = [], []
    for part in PARTS:
        written += [f"--{part}-formula", runs.path(part + ".cnf")]
        proofs += [f"--{part}-proof", runs.put(part + ".proof", b"")]
    status, _, _ = runs.run(*words, *written)
    refuted = machine.refuted(c)
    for part, clauses, is_so in zip(PARTS, wanted, refuted):
        runs.formula((words, part), status, runs.path(part + ".cnf"), clauses)
        if SOLVER:
            solved = subprocess.run([SOLVER, "-q", runs.path(part + ".cnf"), runs.path(part + ".proof")],
                                    capture_output=True, check=False).returncode
            runs.expect((words, part), solved, 20 if is_so else 10)
    status, out, _ = runs.run(*words, *proofs)
    if not all(refuted):
        runs.expect(words, (status, out), (3, "s NOT VERIFIED\n"))
        return 0
    runs.expect(words, is_safe, True)
    if SOLVER:
        runs.expect(words, (status, out), (0, "s VERIFIED SAFE\n"))
    return 1


def refuse(runs):
    """Shapes that are refused, and faults of each file."""
    machine = aiger.Circuit(1, latches=[(4, 2, 0)], outputs=[4])
    holds = aiger.Circuit(2, outputs=[1])
    shape = "an invariant has one output, and no latches, bad states and constraints\n"
    cut = b"aig 1 1 0 1 0\n"
    rows = [
        (machine, aiger.Circuit(1, outputs=[1]), "the invariant's inputs are not as many as the machine's inputs and latches\n"),
        (machine, aiger.Circuit(3, outputs=[1]), "the invariant's inputs are not as many as the machine's inputs and latches\n"),
        (machine, aiger.Circuit(2), shape),
        (machine, aiger.Circuit(2, outputs=[1, 1]), shape),
        (machine, aiger.Circuit(1, latches=[(4, 4, 0)], outputs=[1]), shape),
        (machine, aiger.Circuit(2, outputs=[1], bad=[1]), shape),
        (machine, aiger.Circuit(2, outputs=[1], constraints=[1]), shape),
        (aiger.Circuit(1, latches=[(4, 2, 0)]), holds, "the machine has no outputs that could be bad\n"),
        # where two apply, the first one is told
        (machine, aiger.Circuit(1), shape),
        (aiger.Circuit(1, latches=[(4, 2, 0)]), aiger.Circuit(1), "the machine has no outputs that could be bad\n"),
        (cut, holds, "circuit: line 2: the text ends too early\n"),
        (machine, cut, "second circuit: line 2: the text ends too early\n"),
    ]
    proofs = [f"--{part}-proof={runs.put(part + '.proof', b'')}" for part in PARTS]
    written = [f"--{part}-formula={runs.path(part + '.new')}" for part in PARTS]
    for one, other, wanted in rows:
        names = [runs.put(name, data if isinstance(data, bytes) else aiger.write(data))
                 for name, data in (("machine.aig", one), ("invariant.aig", other))]
        for options in (proofs, written):
            runs.expect(wanted, runs.run("safe", *names, *options), (1, "", wanted))
    # no formula is refuted by propagation alone, so that each proof is read
    free = aiger.Circuit(2, outputs=[2])
    names = [runs.put("machine.aig", aiger.write(machine)), runs.put("invariant.aig", aiger.write(free))]
    for part, place in zip(PARTS, ("initial states", "step", "bad states")):
        runs.put(part + ".proof", b"x\n")
        status, out, err = runs.run("safe", *names, *proofs)
        runs.expect(part, (status, out, err.split(":")[:2]), (1, "", [place, " proof"]))
        runs.put(part + ".proof", b"")
    for options in ([], proofs[:2], [*proofs, written[0]], [*written, "--proof=x"], ["--proof=x"], ["--formula=x"]):
        status, out, _ = runs.run("safe", *names, *options)
        runs.expect(options, (status, out), (2, ""))
    for name in ("machine.aig", "invariant.aig", "init.new"):
        status, out, _ = runs.run("safe", *names, *written[:2], f"--bad-formula={runs.path(name)}")
        runs.expect(name, (status, out), (2, ""))
    runs.expect("files", [os.path.exists(runs.path(part + ".new")) for part in PARTS], [False] * 3)


def main():
    program, count, seed = sys.argv[1], int(sys.argv[2]), int(sys.argv[3])
    rng = random.Random(seed)
    tried = verified = 0
    with tempfile.TemporaryDirectory() as folder:
        runs = Runs(program, folder)
        refuse(runs)
        for _ in range(count):
            machine = Machine(random_machine(rng))
            known, bad = machine.reached()
            for c in invariants(rng, machine.circuit, known):
                verified += check(runs, machine, c, not bad)
                tried += 1
        if not SOLVER:
            print("cadical is not installed: no proof tried")
        print(f"circuit_check safe: {count} machines, {tried} invariants, {verified} of them show it, {runs.wrong} wrong")
        return 1 if runs.wrong else 0


if __name__ == "__main__":
    sys.exit(main())
