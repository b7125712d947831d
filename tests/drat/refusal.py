"""Whether a refusal of `drat_check` is right: a judge that shares nothing with the program.

refusal.py CNF PROOF STEP       the clause that this step of a DRAT or DPR proof adds neither follows nor is redundant
refusal.py CNF PROOF end        the clauses come to no conflict by propagation, up to the proof's end

It shows that by a partial assignment over the clauses that are there before the step. Under it every literal of the step's
clause is false; every clause that is there has a true literal, or two others that are free; and so far the clause does not
follow. One clause that the witness makes no literal of true, and some false, has its other literals false too, so it is not redundant
either. The witness is the first literal, where no other one is given. How the assignment was found is of no matter: `refuted` looks
at every clause once more.

Deletions are honoured. Where nothing is shown so, those of clauses that can be the reason of a unit are passed over.
"""

import re
import sys


STEP_FAULTS = [
    re.compile(rf"proof: step (\d+): {it}\n")
    for it in (
        "clause is neither RUP nor RAT on its first literal",
        "clause is neither RUP nor PR by its witness",
        "witness contradicts itself",
    )
]


def refused_step(errors):
    """The number of the step that is refused, where one is."""
    found = [it[1] for it in (fault.match(errors) for fault in STEP_FAULTS) if it]
    return int(found[0]) if found else None


def parts(literals):
    """The clause of an addition and its witness, which begins where the first literal comes again; each literal once."""
    start = next((at for at, it in enumerate(literals) if at and it == literals[0]), len(literals))
    return list(dict.fromkeys(literals[:start])), list(dict.fromkeys(literals[start:] or literals[:1]))


def dpr_steps(steps):
    """Steps as whether they delete, the clause, and the witness of an addition."""
    return [(gone, literals, []) if gone else (gone, *parts(literals)) for gone, literals in steps]


def drat_steps(steps):
    """The same of steps in which a literal that comes again says nothing more."""
    return [(gone, list(dict.fromkeys(literals)), literals[:1]) for gone, literals in steps]


class Assignment:
    """Clauses, each with the count of its literals that are false, and the literals that are true."""

    def __init__(self, clauses=()):
        self.clauses, self.false, self.holders = [], [], {}
        self.true, self.trail = set(), []
        self.is_open = True
        for clause in clauses:
            self.add(clause)

    def add(self, clause):
        """Adds a clause, and follows it. Where that leads to a conflict, it is open no more."""
        key = len(self.clauses)
        self.clauses.append(clause)
        self.false.append(sum(-it in self.true for it in clause))
        for literal in clause:
            self.holders.setdefault(literal, []).append(key)
        self.is_open = self.is_open and self.extend(self.following(key) or [])
        if self.following(key) is None:
            self.is_open = False

    def remove(self, clause):
        """Removes a clause that is there. What it made true stays."""
        for key in [it for it in self.holders.get(next(iter(clause), 0), ()) if self.clauses[it] == clause]:
            for literal in clause:
                self.holders[literal].remove(key)

    def following(self, key):
        """The literals that have to be true by a clause: none, the last one that is not false, or None where all are false."""
        clause = self.clauses[key]
        if len(clause) - self.false[key] > 1 or any(it in self.true for it in clause):
            return []
        return [it for it in clause if -it not in self.true] or None

    def extend(self, literals):
        """Makes them true and follows units, and answers whether there is no conflict."""
        waiting = list(literals)
        while waiting:
            literal = waiting.pop()
            if literal in self.true:
                continue
            if -literal in self.true:
                return False
            self.true.add(literal)
            self.trail.append(literal)
            for key in self.holders.get(-literal, ()):
                self.false[key] += 1
            for key in self.holders.get(-literal, ()):
                following = self.following(key)
                if following is None:
                    return False
                waiting += following
        return True

    def back(self, count):
        while len(self.trail) > count:
            literal = self.trail.pop()
            self.true.remove(literal)
            for key in self.holders.get(-literal, ()):
                self.false[key] -= 1


def is_tautology(clause):
    return any(-it in clause for it in clause)


def at_rest(clauses, true):
    """Whether no clause is false or unit under the literals, by one look at each."""
    if any(-it in true for it in true):
        return False
    for clause in clauses:
        free = [it for it in clause if -it not in true]
        if len(free) < 2 and not any(it in true for it in free):
            return False
    return True


def left_by(witness, clause):
    """What the witness leaves of a clause, or None where it has no literal false or one true."""
    left = [it for it in clause if -it not in witness]
    return None if len(left) == len(clause) or any(it in witness for it in left) else left


def refuted(clauses, clause, witness, other, true):
    """Whether the assignment shows that the clause neither follows nor is redundant, the latter by the other clause."""
    if not at_rest(clauses, true) or any(-it not in true for it in clause):
        return False
    if not clause:
        return True
    left = left_by(witness, other)
    return other in clauses and left is not None and all(-it in true for it in left)


def is_refuted(clauses, clause, witness):
    """Whether an assignment is found that shows it, and does."""
    found = Assignment(clauses)
    if is_tautology(clause) or not found.is_open or not found.extend([-it for it in clause]):
        return False
    if not clause:
        return refuted(clauses, clause, witness, None, found.true)
    mark = len(found.trail)
    for key in sorted({key for it in witness for key in found.holders.get(-it, ())}):
        other = clauses[key]
        left = left_by(witness, other)
        if left is not None and found.extend([-it for it in left]):
            return refuted(clauses, clause, witness, other, found.true)
        found.back(mark)
    return False


class Clauses:
    """The clauses that are there, as sets of literals, and what follows from them by units."""

    def __init__(self, formula, steps, passes_over):
        self.counts, self.units, self.passes_over = {}, Assignment(), passes_over
        for gone, clause, *_ in [(False, it) for it in formula] + steps:
            self.take(gone, clause)

    def take(self, gone, clause):
        clause = frozenset(clause)
        if is_tautology(clause):
            return
        count = self.counts.get(clause, 0)
        if not gone:
            self.counts[clause] = count + 1
            if not count:
                self.units.add(clause)
        elif count and not (self.passes_over and self.can_be_a_reason(clause)):
            self.counts[clause] = count - 1
            if count == 1:
                self.units.remove(clause)

    def can_be_a_reason(self, clause):
        true = self.units.true
        return sum(it in true for it in clause) == 1 and sum(-it in true for it in clause) == len(clause) - 1

    def there(self):
        return [it for it, count in self.counts.items() if count]


def step_is_refuted(formula, steps, number):
    """Whether the step of this number, from 1 on, adds a clause that neither follows nor is redundant."""
    gone, clause, witness = steps[number - 1]
    before = steps[: number - 1]
    if is_tautology(witness):
        return not gone
    return not gone and any(is_refuted(Clauses(formula, before, it).there(), clause, witness) for it in (False, True))


def ends_open(formula, steps):
    """Whether the clauses never come to a conflict, where what once followed stays."""
    clauses = Clauses(formula, steps, True)
    return clauses.units.is_open and at_rest(clauses.there(), clauses.units.true)


def numbers(text):
    """Clauses of a text, as lists of numbers, each with whether a `d` stands before it."""
    gone, clause = False, []
    for line in text.split("\n"):
        words = line.split()
        if words and words[0] in ("c", "p", "%"):
            continue
        for word in re.findall(r"d|-?\d+", line):
            if word == "d":
                gone = True
            elif int(word):
                clause.append(int(word))
            else:
                yield gone, clause
                gone, clause = False, []
    if clause:
        yield gone, clause


def binary(data):
    gone, clause, value, shift = None, [], 0, 0
    for byte in data:
        if gone is None:
            gone = byte == ord("d")
            continue
        value |= (byte & 127) << shift
        shift += 7
        if byte < 128:
            if value:
                clause.append(-(value >> 1) if value & 1 else value >> 1)
            else:
                yield gone, clause
                gone, clause = None, []
            value = shift = 0


def read_formula(path):
    with open(path) as file:
        return [clause for _, clause in numbers(file.read())]


def read_proof(path):
    with open(path, "rb") as file:
        data = file.read()
    is_binary = data[:1] in (b"a", b"d") and any(it not in b"-0123456789cd \t\r\n" for it in data[:4096])
    return list(binary(data) if is_binary else numbers(data.decode()))


def main(cnf, proof, step):
    formula, steps = read_formula(cnf), dpr_steps(read_proof(proof))
    right = ends_open(formula, steps) if step == "end" else step_is_refuted(formula, steps, int(step))
    if not right:
        print(f"not shown: a refusal at {step} of {proof}")
    return 0 if right else 1


if __name__ == "__main__":
    sys.exit(main(*sys.argv[1:]))
