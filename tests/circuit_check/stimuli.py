#!/usr/bin/env python3
"""Random machines and stimuli, and `circuit_check safe MACHINE --stimulus STIMULUS` on them.

stimuli.py PROGRAM COUNT SEED      COUNT machines, each with some stimuli, and texts that are nearly ones

What a stimulus says, or its first fault, is found by a reader of lines, and what a machine does by the simulation of aiger.py. Where
berkeley-abc is installed, its stimuli of machines that are not safe are verified.
"""
import os
import random
import re
import shutil
import subprocess
import sys
import tempfile

import aiger
import cases
from circuits import Runs
from machines import Machine

MODEL_CHECKER = shutil.which("berkeley-abc")

REACHED = (0, "s VERIFIED REACHED\n", "")
NOWHERE = (3, "s NOT VERIFIED\n", "no bad state is reached\n")
UNFINISHED = "the stimulus ends before its last line"


def values(text, line, whole, count, of):
    """The values of a line, of which this many are wanted."""
    for index, byte in enumerate(line):
        if byte not in b"01x":
            raise text.fault("malformed")
        if index >= count:
            raise text.fault(f"not as many values as the machine has {of}")
    if not whole:
        raise text.fault(UNFINISHED)
    if len(line) != count:
        raise text.fault(f"not as many values as the machine has {of}")
    return [byte == ord("1") for byte in line]


def read(data, latches, inputs):
    """The first values of latches and the inputs of each step, or the first fault as an exception."""
    text = aiger.Text(data)
    line, whole = text.next()
    told = {b"0": "status 0, that nothing bad is reached", b"2": "status 2, that it is not known whether something bad is reached"}
    if line[:1] in told:
        raise text.fault(told[line[:1]])
    if line != b"1" and (line or whole):
        raise text.fault("malformed")
    if not whole:
        raise text.fault(UNFINISHED)
    line, whole = text.next()
    while line.startswith(b"b"):
        if not re.fullmatch(rb"(b[0-9]+ )*b[0-9]+" if whole else rb"(b[0-9]+ )*(b[0-9]*)?", line):
            raise text.fault("malformed")
        if not whole:
            raise text.fault(UNFINISHED)
        line, whole = text.next()
    first = values(text, line, whole, latches, "latches")
    steps = []
    while True:
        line, whole = text.next()
        if line.startswith(b"."):
            break
        steps.append(values(text, line, whole, inputs, "inputs"))
    if line != b".":
        raise text.fault("malformed")
    while text.at < len(data):
        line, whole = text.next()
        if not line.startswith(b"c"):
            raise text.fault("malformed")
    return first, steps


def run(c, first, steps):
    """The status and what is written for a machine that is run by a stimulus."""
    open_line = "s NOT VERIFIED\n"
    for k, (_, _, reset) in enumerate(c.latches):
        if reset is not None and first[k] != bool(reset):
            return 3, open_line, f"the first value of latch {k} is not its reset\n"
    state = first
    for k, inputs in enumerate(steps):
        of = c.values(inputs, state)
        if not all(of[lit] for lit in c.constraints):
            return 3, open_line, f"a constraint is false at step {k}\n"
        if any(of[lit] for lit in c.bad or c.outputs):
            return REACHED
        state = [of[follows] for _, follows, _ in c.latches]
    return NOWHERE


def row(rng, count):
    return "".join(rng.choice("01x" if rng.random() < 0.1 else "01") for _ in range(count))


def random_stimulus(rng, c):
    """A stimulus of this machine, whose latches mostly begin with their resets."""
    first = "".join(rng.choice("01x") if reset is None or rng.random() < 0.05 else str(reset) for _, _, reset in c.latches)
    named = rng.choice(["b0\n", "b0\n", "", "b3 b12\n", "b0\nb1\n"])
    steps = "".join(row(rng, c.inputs) + "\n" for _ in range(rng.randrange(8)))
    return f"1\n{named}{first}\n{steps}.{rng.choice(['', chr(10), chr(10) + 'c any' + chr(10), chr(10) + 'c'])}".encode()


def check(runs, c, data):
    """A stimulus is judged as by the simulation, or rejected with its first fault."""
    words = ["safe", runs.put("machine.aig", aiger.write(c)), "--stimulus", runs.put("stimulus", data)]
    try:
        wanted = run(c, *read(data, len(c.latches), c.inputs))
    except aiger.Fault as fault:
        wanted = 1, "", f"stimulus: {fault}\n"
    runs.expect((c.show(), data), runs.run(*words), wanted)
    return wanted


def counter(bits):
    """A counter that goes on where its input is true; all ones are bad."""
    c = aiger.Circuit(1)
    own = [2 * (k + 2) for k in range(bits)]

    def gate(left, right):
        lit = 2 * (1 + bits + len(c.gates) + 1)
        c.gates.append((lit, max(left, right), min(left, right)))
        return lit

    carry, follows = 2, []
    for lit in own:
        both = gate(lit, carry)
        follows.append(gate(gate(lit ^ 1, carry ^ 1) ^ 1, both ^ 1))
        carry = both
    every = own[0]
    for lit in own[1:]:
        every = gate(every, lit)
    c.latches = [(lit, after, 0) for lit, after in zip(own, follows)]
    c.bad = [every]
    return c


def known(runs):
    """Machines whose runs are known."""
    c = counter(3)
    for ones, wanted in ((7, REACHED), (6, NOWHERE)):
        rows = "1\n" * ones + "0\n"
        runs.expect(ones, check(runs, c, f"1\nb0\n000\n{rows}.\n".encode()), wanted)
        runs.expect(ones, check(runs, c, f"1\nb0\n000\n0\n{rows[:6]}x\n{rows[6:]}.\n".encode()), wanted)
    # the input has to be true at each step
    c.constraints = [2]
    runs.expect("constraint", check(runs, c, b"1\nb0\n000\n" + b"1\n" * 8 + b".\n"), REACHED)
    runs.expect("constraint", check(runs, c, b"1\nb0\n000\n1\n1\n0\n" + b"1\n" * 8 + b".\n"),
                (3, "s NOT VERIFIED\n", "a constraint is false at step 2\n"))
    # two latches that exchange their values; a bad output is preferred to other ones
    swap = aiger.Circuit(0, latches=[(2, 4, 0), (4, 2, 1)], outputs=[1], bad=[6], gates=[(6, 5, 2)])
    runs.expect("swap", check(runs, swap, b"1\nb0\n01\n\n\n.\n"), REACHED)
    runs.expect("swap", check(runs, swap, b"1\nb0\n01\n\n.\n"), NOWHERE)
    runs.expect("start", check(runs, swap, b"1\nb0\n10\n\n.\n"), (3, "s NOT VERIFIED\n", "the first value of latch 0 is not its reset\n"))
    free = aiger.Circuit(0, latches=[(2, 2, None)], outputs=[2])
    runs.expect("free", check(runs, free, b"1\n1\n\n.\n"), REACHED)
    runs.expect("free", check(runs, free, b"1\nx\n\n.\n"), NOWHERE)
    runs.expect("cut", runs.run("safe", runs.put("cut.aig", b"aig 1 1 0 1 0\n"), "--stimulus", runs.path("stimulus")),
                (1, "", "circuit: line 2: the text ends too early\n"))


def of_model_checker(runs, rng, count):
    """Machines with one output, whose latches begin with 0, and the stimuli of a model checker for those that are not safe."""
    found = 0
    machines = [counter(bits) for bits in (1, 2, 3)]
    while len(machines) < count:
        c = cases.random_circuit(rng, 4)
        if c.latches and c.inputs and c.outputs and c.gates:
            machines.append(c)
    for c in machines:
        c = aiger.Circuit(c.inputs, [(lit, follows, 0) for lit, follows, _ in c.latches], [*c.bad, *c.outputs][:1], gates=c.gates)
        machine, path = runs.put("machine.aig", aiger.write(c)), runs.path("abc.cex")
        if os.path.exists(path):
            os.remove(path)
        subprocess.run([MODEL_CHECKER, "-q", f"read_aiger {machine}; bmc3 -F 40; write_cex -a {path}"], capture_output=True, check=False)
        is_reached = os.path.exists(path)
        runs.expect(c.show(), is_reached, Machine(c).reached()[1])
        if is_reached:
            with open(path, "rb") as file:
                runs.expect(c.show(), check(runs, c, b"1\nb0\n" + file.read().replace(b"# DONE", b"\n.")), REACHED)
            found += 1
    print(f"berkeley-abc: {len(machines)} machines, {found} of them are not safe")


def calls(runs):
    """Calls that are none."""
    machine, stimulus = runs.put("machine.aig", aiger.write(counter(1))), runs.put("stimulus", b"1\nb0\n0\n1\n0\n.\n")
    runs.expect("call", runs.run("safe", machine, "--stimulus", stimulus), REACHED)
    for words in (["safe", machine], ["safe", machine, machine, "--stimulus", stimulus], ["never", machine, "--stimulus", stimulus],
                  ["same", machine, machine, "--stimulus", stimulus], ["safe", machine, "--stimulus", runs.path("absent")],
                  *(["safe", machine, "--stimulus", stimulus, f"--{other}", stimulus]
                    for other in ("proof", "answer", "formula", "init-proof", "bad-formula"))):
        status, out, _ = runs.run(*words)
        runs.expect(words, (status, out), (2, ""))


def main():
    program, count, seed = sys.argv[1], int(sys.argv[2]), int(sys.argv[3])
    rng = random.Random(seed)
    tried = reached = 0
    with tempfile.TemporaryDirectory() as folder:
        runs = Runs(program, folder)
        known(runs)
        calls(runs)
        if MODEL_CHECKER:
            of_model_checker(runs, rng, 10)
        else:
            print("berkeley-abc is not installed: no stimulus of it")
        for _ in range(count):
            c = cases.random_circuit(rng, 4)
            for _ in range(3):
                data = random_stimulus(rng, c)
                reached += check(runs, c, data) == REACHED
                check(runs, c, cases.spoiled(rng, data))
                tried += 2
        print(f"circuit_check safe --stimulus: {count} machines, {tried} stimuli, {reached} of them reach a bad output, {runs.wrong} wrong")
        return 1 if runs.wrong else 0


if __name__ == "__main__":
    sys.exit(main())
