"""Random formulas in cubes: what `cubes check` and `cubes report` say of them, by all assignments.

fuzz.py COUNT [SEED]

Each part gets a proof that refutes every formula over its variables that can't be satisfied, or, if it can be satisfied, sometimes an
answer. A part must be verified exactly if no assignment satisfies it; if all are, their receipts must be joined, and the formula may
have no model. Then receipts are turned: one is missing, has another digit, or is that of another part, of the whole formula, or of a
part of another formula. No such folder may be joined. The programs and `cubes` are found on PATH.
"""

import itertools
import os
import random
import shutil
import sys
import tempfile

for folder in "join", "pieces":
    sys.path.insert(0, os.path.join(os.path.dirname(__file__), "..", folder))
from judge import dimacs, is_satisfiable, laid_out, lines, part_text, parts, random_clause, refuted, variables, verified
from overwrites import call, read, write


def proof(count):
    """Steps by which no formula over so many variables is left open: all clauses of these, the longest first."""
    return lines([name * sign for name, sign in zip(range(1, size + 1), signs)] for size in range(count, -1, -1) for signs in itertools.product((1, -1), repeat=size))


def model(clauses):
    names = range(1, variables(clauses) + 1)
    for values in itertools.product(*((name, -name) for name in names)):
        if all(any(literal in values for literal in clause) for clause in clauses):
            return values
    return None


class Case:
    """A formula in cubes, in files, and of each part whether it can be satisfied."""

    def __init__(self, folder, seed):
        self.folder, self.dice = folder, random.Random(seed)
        count = self.dice.randint(1, 4)
        self.formula = [random_clause(self.dice, count, 3) for _ in range(self.dice.randint(0, 6 * count))]
        self.cubes = [random_clause(self.dice, count + (self.dice.random() < 0.2), 3) for _ in range(self.dice.randint(0, 4))]
        if self.dice.random() < 0.5:
            self.cubes = [[name * sign for name, sign in zip(range(1, 3), signs)] for signs in itertools.product((1, -1), repeat=min(2, count))]
        write(f"{folder}/f", laid_out(self.dice, self.formula))
        write(f"{folder}/c", "".join(self.dice.choice(("", "a ", "\nc of it\n ")) + line for line in lines(self.cubes).splitlines(True)))
        os.mkdir(f"{folder}/p")
        made = list(parts(self.formula, self.cubes))
        self.names = [*map(str, range(1, len(made))), "closing"]
        self.clauses = {name: clauses for name, (_, clauses) in zip(self.names, made)}
        self.models = {name: model(clauses) for name, clauses in self.clauses.items()}

    def say(self, words):
        return call("cubes", [words[0], "f", "c", "p", *words[1:]], self.folder)

    def receipt(self, name):
        return f"{self.folder}/p/{name}.receipt"

    def solve(self):
        """Writes a proof of each part, or an answer. Gives the parts that have an answer."""
        answered = [name for name, values in self.models.items() if values and self.dice.random() < 0.2]
        for name in self.names:
            if name in answered:
                write(f"{self.folder}/p/{name}.answer", f"s SATISFIABLE\nv {' '.join(map(str, self.models[name]))} 0\n")
            else:
                write(f"{self.folder}/p/{name}.drat", proof(variables(self.clauses[name])))
        return answered

    def fault(self):
        """What is wrong of the checks and the report, if anything, and whether the receipts are joined."""
        answered = self.solve()
        checked, reported = self.say(["check", *self.names]), self.say(["report"])
        kept = [name for name in self.names if os.path.exists(self.receipt(name))]
        if kept != [name for name in self.names if name in answered or self.models[name] is None]:
            return f"verified are {kept}: {checked}", False
        refused = [name for name in self.names if name not in kept]
        is_joined = not answered and not refused
        if is_joined and is_satisfiable(self.formula):
            return f"the formula can be satisfied: {reported}", False
        if is_joined:
            wanted = 0, verified(len(self.names)), ""
        else:
            said = "".join(f"{name}: not verified\n" for name in refused)
            satisfied = f"{answered[0]}: p/{answered[0]}.answer satisfies the formula: s VERIFIED SAT\n" if answered else ""
            wanted = (10, said + satisfied, "") if answered else (1, f"{said}{len(refused)} of {len(self.names)} parts are not verified\n", "")
        if reported != wanted or checked[0] != (10 if answered else 1 if refused else 0):
            return f"{checked}, {reported}, and not {wanted}", False
        texts = [part_text(clauses) for clauses in self.clauses.values()]
        written = {read(self.receipt(name)) for name in kept if name not in answered}
        if not written <= set(map(refuted, texts)):
            return f"receipts of other texts: {written}", False
        return None, is_joined

    def turned(self):
        """Receipts of one part that are not its own."""
        at = self.dice.choice(self.names)
        right = read(self.receipt(at))
        place = self.dice.randrange(15, 79)
        others = [right[:place] + self.dice.choice(sorted(set("0123456789abcdef") - {right[place]})) + right[place + 1 :]]
        others += [read(self.receipt(self.dice.choice(self.names))), refuted(read(f"{self.folder}/f"))]
        others += [refuted(part_text([[1], *self.clauses[at]])), refuted(dimacs(self.clauses[at])), right.replace("refuted", "satisfied"), "", right[: self.dice.randrange(len(right))]]
        return at, right, [it for it in others if it != right]

    def turned_fault(self):
        """What is joined though a receipt is not that of its part, if anything."""
        at, right, others = self.turned()
        for other in others:
            write(self.receipt(at), other)
            said = self.say(["report"])
            why = f"p/{at}.receipt is cut off" if right.startswith(other) else "what is kept is of another formula or cube"
            if said != (1, f"{at}: {why}\n1 of {len(self.names)} parts are not verified\n", ""):
                return f"{at} has the receipt {other}: {said}"
        os.remove(self.receipt(at))
        said = self.say(["report"])
        return None if said[0] == 1 and said[1].startswith(f"{at}: not verified\n") else f"{at} has no receipt: {said}"


def main(count, seed="1"):
    wrong, joined = 0, 0
    with tempfile.TemporaryDirectory() as work:
        for number in range(int(seed), int(seed) + int(count)):
            os.mkdir(f"{work}/case")
            case = Case(f"{work}/case", number)
            fault, is_joined = case.fault()
            joined += is_joined
            if not fault and is_joined:
                fault = case.turned_fault()
            if fault:
                wrong += 1
                print(f"case {number}: {fault}")
            shutil.rmtree(f"{work}/case")
    print(f"{count} formulas in cubes, {joined} joined, {wrong} wrong")
    return 1 if wrong or not 0 < joined < int(count) else 0


if __name__ == "__main__":
    sys.exit(main(*sys.argv[1:]))
