"""Writes a formula and an LRAT proof of it: make.py CNF LRAT [STEPS]

The formula has a chain of implications with a side literal in each, [-y(i), y(i + 1), z(i mod SIDES)], and each of the literals y(0),
-y(LENGTH) and -z(j) in two clauses, with a and with -a. A step of the proof derives a window [-y(i), y(k), z ..] from some i to some k,
by links and by short windows that were derived before, 4 to 52 of them, as a solver learns clauses. Every ROUND steps the older half of
the windows is deleted. At last the proof derives these literals as units, and then y(i) for one i after the other, up to the conflict.

It prints how many lines and hints there are, and how many clauses and literals of clauses are stored at most.
"""
import random
import sys

LENGTH, SIDES, ROUND, SHORT = 6_000, 10, 20_000, 12


def z(i):
    return 1 + i % SIDES


def y(i):
    return SIDES + 1 + i


A = y(LENGTH) + 1
UNITS = [y(0), -y(LENGTH)] + [-z(j) for j in range(SIDES)]


class Proof:
    """Writes lines, and counts what is stored."""

    def __init__(self, text, clauses):
        self.text, self.next = text, len(clauses) + 1
        self.lines = self.hints = 0
        self.stored, self.lits = len(clauses), sum(map(len, clauses))
        self.most = self.stored, self.lits

    def add(self, clause, hints):
        self.text.write(f"{self.next} {''.join(f'{n} ' for n in clause)}0 {' '.join(map(str, hints))} 0\n")
        self.next, self.lines, self.hints = self.next + 1, self.lines + 1, self.hints + len(hints)
        self.stored, self.lits = self.stored + 1, self.lits + len(clause)
        self.most = max(self.most, (self.stored, self.lits), key=lambda both: both[1])
        return self.next - 1

    def delete(self, id, clause):
        self.text.write(f"{self.next - 1} d {id} 0\n")
        self.lines, self.stored, self.lits = self.lines + 1, self.stored - 1, self.lits - len(clause)


def derive_windows(proof, steps, chosen):
    """Derives windows, and deletes the older half of them again and again."""
    short, kept = {}, []
    for step in range(steps):
        start = at = chosen.randrange(LENGTH - 700)
        hints = []
        for _ in range(chosen.randrange(4, 53)):
            id, end = chosen.choice(short.get(at, []) + [(at + 1, at + 1)])
            hints.append(id)
            at = end
        clause = [-y(start), y(at)] + sorted({z(j) for j in range(start, min(at, start + SIDES))})
        id = proof.add(clause, hints)
        kept.append((id, start, at, clause))
        if at - start <= SHORT:
            short.setdefault(start, []).append((id, at))
        if step % ROUND == ROUND - 1:
            half = len(kept) // 2
            for id, start, at, clause in kept[:half]:
                proof.delete(id, clause)
                if at - start <= SHORT:
                    short[start].remove((id, at))
            del kept[:half]


def main(cnf_name, lrat_name, steps=86_000):
    clauses = [[-y(i), y(i + 1), z(i)] for i in range(LENGTH)] + [[unit, a] for unit in UNITS for a in (A, -A)]
    with open(cnf_name, "w") as cnf:
        cnf.write(f"p cnf {A} {len(clauses)}\n")
        cnf.writelines(" ".join(map(str, c)) + " 0\n" for c in clauses)
    with open(lrat_name, "w") as text:
        proof = Proof(text, clauses)
        derive_windows(proof, steps, random.Random(1))
        units = {}
        for k, unit in enumerate(UNITS):
            units[unit] = proof.add([unit], [LENGTH + 2 * k + 1, LENGTH + 2 * k + 2])
        last = units[y(0)]
        for i in range(1, LENGTH):
            last = proof.add([y(i)], [last, units[-z(i - 1)], i])
        proof.add([], [last, units[-y(LENGTH)], units[-z(LENGTH - 1)], LENGTH])
    print(f"{proof.lines} lines, {proof.hints} hints; at most {proof.most[0]} clauses with {proof.most[1]} literals are stored")


if __name__ == "__main__":
    main(*sys.argv[1:3], *map(int, sys.argv[3:4]))
