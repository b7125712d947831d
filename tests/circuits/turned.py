"""Circuits with a wrong gate or output, and what a verdict on them says, by another hand's simulation.

turned.py write CIRCUIT OUT N       the circuit with a literal of its N-th last gate negated
turned.py last CIRCUIT OUT          the circuit with the constant as its last output
turned.py fewer CIRCUIT OUT         the circuit without its last output
turned.py judge A B < OUTPUT        whether OUTPUT is `s VERIFIED DIFFERENT`, the inputs, and the outputs of both for them, which differ
turned.py judge A < OUTPUT          the same of `s VERIFIED POSSIBLE`: some output is true
"""

import os
import sys

sys.path.insert(0, os.path.join(os.path.dirname(os.path.abspath(__file__)), "..", "circuit_check"))
import aiger  # noqa: E402


def read(name):
    with open(name, "rb") as file:
        return aiger.read(file.read())


def turned(circuit, number):
    """The same circuit, but that a gate reads the negation of its first literal, with its literals in order."""
    out, left, right = circuit.gates[-number]
    circuit.gates[-number] = (out, *sorted((left ^ 1, right), reverse=True))
    return circuit


def with_last(circuit, outputs):
    """The same circuit, but that these stand in place of its last output."""
    circuit.outputs[-1:] = outputs
    return circuit


def bits(values):
    return "".join("01"[value] for value in values)


def judged(names, lines):
    """What is wrong with the lines of a verdict, or None."""
    circuits = [read(name) for name in names]
    wanted = "s VERIFIED DIFFERENT" if len(names) == 2 else "s VERIFIED POSSIBLE"
    if lines[:1] != [wanted] or lines[1][:2] != "i " or len(lines[1]) != 2 + circuits[0].inputs:
        return f"not {wanted}, and the inputs"
    inputs = [it == "1" for it in lines[1][2:]]
    outputs = []
    for circuit in circuits:
        values = circuit.values(inputs)
        outputs.append(bits(values[lit] for lit in circuit.outputs))
    if lines[2:] != [f"o {it}" for it in outputs]:
        return f"the outputs are {outputs}"
    if len(set(outputs)) == 1 and (len(names) == 2 or "1" not in outputs[0]):
        return "that shows nothing"
    return None


def main(call, *words):
    if call in ("write", "last", "fewer"):
        name, to, *number = words
        circuit = turned(read(name), int(*number)) if number else with_last(read(name), [0] if call == "last" else [])
        with open(to, "wb") as file:
            file.write(aiger.write(circuit))
        return 0
    lines = sys.stdin.read().splitlines()
    why = judged(words, lines)
    if why:
        print(f"{' '.join(words)}: {why}: {lines}")
    return 1 if why else 0


sys.exit(main(*sys.argv[1:]))
