#!/usr/bin/env python3
"""Random circuits, and circuit_check on them.

circuits.py PROGRAM COUNT SEED      COUNT texts, of which some are no circuits, and COUNT pairs of circuits

A text that is no circuit is rejected with its first fault, by aiger.py. The formula that is written is that of formulas.py. What is
so is found by simulation of all inputs. Where cadical is installed, its proof of a true claim is verified, no proof shows a claim
that is false, and its answer to such a claim is verified. An answer with any other input is verified if the claim fails for it.
"""
import itertools
import os
import random
import shutil
import subprocess
import sys
import tempfile

import aiger
import cases
import formulas

SOLVER = shutil.which("cadical")
# What standard error says of two circuits without names.
UNNAMED = "warning: the circuits have no names: inputs and outputs are paired by their positions\n"


def combinational(rng, inputs, outputs):
    """A random circuit without latches."""
    c = aiger.Circuit(inputs)
    for _ in range(rng.randrange(10)):
        own = 2 * (inputs + len(c.gates) + 1)
        left = rng.randrange(own)
        c.gates.append((own, left, rng.randrange(left + 1)))
    top = 2 * (inputs + len(c.gates)) + 2
    c.outputs = [rng.randrange(top) for _ in range(outputs)]
    return c


def results(c):
    """The outputs for each input."""
    for inputs in itertools.product((False, True), repeat=c.inputs):
        of = c.values(inputs)
        yield [of[lit] for lit in c.outputs]


def digits(values):
    return "".join("01"[value] for value in values)


def verdict(circuits, inputs):
    """The status and the lines for an answer with these inputs."""
    rows = []
    for c in circuits:
        of = c.values(inputs)
        rows.append([of[lit] for lit in c.outputs])
    if len(rows) == 1 and any(rows[0]):
        line = "s VERIFIED POSSIBLE"
    elif len(rows) == 2 and rows[0] != rows[1]:
        line = "s VERIFIED DIFFERENT"
    else:
        return 3, "s NOT VERIFIED\n"
    return 0, "".join(f"{it}\n" for it in [line, f"i {digits(inputs)}", *(f"o {digits(row)}" for row in rows)])


def answer(rng, inputs):
    """An answer with these inputs: input N is the variable N+1 of the formula. What is false may be left out; other variables have
    any values."""
    lits = [number + 2 if value else -number - 2 for number, value in enumerate(inputs)]
    lits = [lit for lit in lits if lit > 0 or rng.random() < 0.5]
    lits += [number * rng.choice([1, -1]) for number in range(len(inputs) + 2, len(inputs) + 5)]
    lits += rng.choice([[], [1], [-1]])
    rng.shuffle(lits)
    return "s SATISFIABLE\nv " + " ".join(str(lit) for lit in [*lits, 0]) + "\n"


class Runs:
    def __init__(self, program, folder):
        self.program, self.folder, self.wrong = program, folder, 0

    def path(self, name):
        return os.path.join(self.folder, name)

    def put(self, name, data):
        with open(self.path(name), "wb") as to:
            to.write(data)
        return self.path(name)

    def run(self, *words):
        done = subprocess.run([self.program, *words], capture_output=True, text=True, check=False)
        return done.returncode, done.stdout, done.stderr

    def expect(self, what, got, wanted):
        if got != wanted:
            print(f"{what}: {got!r}, and not {wanted!r}")
            self.wrong += 1

    def text(self, data):
        """A text is read, or rejected with its first fault."""
        name = self.put("text.aig", data)
        status, _, err = self.run("never", name, "--formula", self.path("text.cnf"))
        try:
            c = aiger.read(data)
        except aiger.Fault as fault:
            self.expect(data, (status, err), (1, f"circuit: {fault}\n"))
            return
        if c.latches or c.bad or c.constraints:
            self.expect(data, (status, err), (1, "a circuit with latches, bad state properties or invariant constraints\n"))
        elif not c.outputs:
            self.expect(data, (status, err), (1, "the circuits have no outputs\n"))
        else:
            self.formula(data, status, self.path("text.cnf"), formulas.never(c))

    def formula(self, what, status, name, clauses):
        with open(name, encoding="ascii") as text:
            got = text.read()
        self.expect(what, (status, got), (0, formulas.text(clauses)))

    def claim(self, words, clauses, is_so, line):
        """The formula of a claim is written, and refuted if the claim is true."""
        cnf, proof = self.path("claim.cnf"), self.path("claim.proof")
        status, _, _ = self.run(*words, "--formula", cnf)
        self.formula(words, status, cnf, clauses)
        self.put("claim.proof", b"")
        if SOLVER:
            solved = subprocess.run([SOLVER, "-q", cnf, proof], capture_output=True, check=False).returncode
            self.expect(words, solved, 20 if is_so else 10)
            if not is_so:
                self.solved(words, cnf)
        status, out, _ = self.run(*words, "--proof", proof)
        if not is_so:
            self.expect(words, (status, out), (3, "s NOT VERIFIED\n"))
        elif SOLVER:
            self.expect(words, (status, out), (0, line))

    def solved(self, words, cnf):
        """The answer of a solver to a claim that is false."""
        said = subprocess.run([SOLVER, "-q", cnf], capture_output=True, check=False).stdout
        status, out, _ = self.run(*words, "--answer", self.put("claim.answer", said))
        circuits = [self.read(name) for name in words[1:]]
        lines = out.splitlines()
        self.expect(words, lines[1][:2], "i ")
        self.expect(words, (status, out), verdict(circuits, [it == "1" for it in lines[1][2:]]))
        self.expect(words, status, 0)

    def read(self, name):
        with open(name, "rb") as file:
            return aiger.read(file.read())

    def answers(self, rng, words):
        """Answers with each input in turn, whatever the claim, and one that is none."""
        circuits = [self.read(name) for name in words[1:]]
        for inputs in itertools.product((False, True), repeat=circuits[0].inputs):
            said = answer(rng, inputs)
            status, out, _ = self.run(*words, "--answer", self.put("claim.answer", said.encode()))
            self.expect((words, said), (status, out), verdict(circuits, inputs))
        status, out, err = self.run(*words, "--answer", self.put("claim.answer", b"s UNSATISFIABLE\n"))
        said = UNNAMED if words[0] == "same" else ""
        self.expect(words, (status, out, err), (1, "", f"{said}answer: line 1: the answer is UNSATISFIABLE\n"))


def main():
    program, count, seed = sys.argv[1], int(sys.argv[2]), int(sys.argv[3])
    rng = random.Random(seed)
    with tempfile.TemporaryDirectory() as folder:
        runs = Runs(program, folder)
        for _ in range(count):
            c = cases.random_circuit(rng)
            data = rng.choice([aiger.write, aiger.write_text])(c, cases.random_tail(rng, c))
            runs.text(cases.spoiled(rng, data) if rng.random() < 0.6 else data)
        for _ in range(count):
            inputs, outputs = rng.randrange(5), rng.randrange(1, 3)
            one = combinational(rng, inputs, outputs)
            other = combinational(rng, inputs, outputs) if rng.random() < 0.7 else one
            names = [runs.put("one.aig", aiger.write(one)), runs.put("other.aig", aiger.write(other))]
            never = not any(any(row) for row in results(one))
            runs.claim(["never", names[0]], formulas.never(one), never, "s VERIFIED NEVER\n")
            same = list(results(one)) == list(results(other))
            runs.claim(["same", *names], formulas.same(one, other), same, "s VERIFIED SAME\n")
            runs.answers(rng, ["never", names[0]])
            runs.answers(rng, ["same", *names])
        if not SOLVER:
            print("cadical is not installed: no proof tried")
        print(f"circuit_check: {count} texts and {count} pairs of circuits, {runs.wrong} wrong")
        return 1 if runs.wrong else 0


if __name__ == "__main__":
    sys.exit(main())
