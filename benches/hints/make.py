"""Writes a formula and a proof of it: make.py CNF PROOF [STEPS]

The formula has a chain of implications with a side literal in each, [-y(i), y(i + 1), z(i mod SIDES)], and each of the literals y(0),
-y(LENGTH) and -z(j) in two clauses, with a and with -a. The proof derives [-y(i), y(i + SPAN), z ..] for random i, each by SPAN clauses,
and deletes every second of them again after a while. At last it derives these literals as units, and then y(i) for one i after the
other, up to the conflict.
"""
import random
import sys

LENGTH, SIDES, SPAN, KEPT = 20_000, 40, 16, 5_000
GOLDEN, MAX_VARS = 0x9E3779B97F4A7C15, 1 << 28


def code(number):
    return 2 * (abs(number) - 1) + (number < 0)


def hash_of(clause):
    total = 0
    for number in clause:
        total ^= (code(number) + 2 * MAX_VARS + 1) * GOLDEN % (1 << 64)
    return total


def number(value):
    out = bytearray()
    while value >= 128:
        out.append(value & 127 | 128)
        value >>= 7
    out.append(value)
    return bytes(out)


def literals(clause):
    return number(len(clause)) + b"".join(number(code(n)) for n in clause)


def derive(clause, hints):
    flag = 1 if clause else 0
    return bytes([0x06, flag]) + literals(clause) + number(len(hints)) + b"".join(number(hash_of(c)) for c in hints)


def y(i):
    return i + 1


def z(i):
    return LENGTH + 2 + i % SIDES


A = LENGTH + SIDES + 2
UNITS = [y(0), -y(LENGTH)] + [-z(j) for j in range(SIDES)]


def link(i):
    return [-y(i), y(i + 1), z(i)]


def window(i):
    return [-y(i), y(i + SPAN)] + sorted({z(j) for j in range(i, i + SPAN)})


def main(cnf_name, proof_name, steps=60_000):
    clauses = [link(i) for i in range(LENGTH)] + [[unit, a] for unit in UNITS for a in (A, -A)]
    with open(cnf_name, "w") as cnf:
        cnf.write(f"p cnf {A} {len(clauses)}\n")
        cnf.writelines(" ".join(map(str, c)) + " 0\n" for c in clauses)
    chosen, waiting = random.Random(1), []
    with open(proof_name, "wb") as proof:
        for _ in range(steps):
            i = chosen.randrange(LENGTH - SPAN)
            proof.write(derive(window(i), [link(j) for j in range(i, i + SPAN)]))
            waiting.append(window(i))
            if len(waiting) > KEPT:
                proof.write(bytes([0x07, 0]) + literals(waiting.pop(0)))
                waiting.pop(0)
        for unit in UNITS:
            proof.write(derive([unit], [[unit, A], [unit, -A]]))
        for i in range(1, LENGTH):
            proof.write(derive([y(i)], [link(i - 1)]))
        proof.write(derive([], [link(LENGTH - 1)]))
        proof.write(b"\x0d")


if __name__ == "__main__":
    main(*sys.argv[1:3], *map(int, sys.argv[3:4]))
