"""Random formulas and DRAT proofs, by `drat_check` and by the definition of DRAT.

fuzz.py PROGRAM COUNT [SEED]

A proof that meets the definition at every step must be verified. No satisfiable formula may be, whatever its proof; and no
answer may be `internal`. Every other proof is damaged: a step goes, a literal is turned, most steps go, or the text is cut. Where
no choice of clauses and steps comes to a conflict, the proof must be refused, though the formula can't be satisfied; and what is
refused is judged by `refusal.py`.
"""

import os
import random
import subprocess
import sys
import tempfile

sys.path.append(os.path.dirname(os.path.dirname(os.path.abspath(__file__))))

import refusal  # noqa: E402
from dimacs import dimacs, is_satisfiable  # noqa: E402
from formulas import binary_drat, drat  # noqa: E402


def propagate(clauses, true):
    """The literals that follow by units, or None for a conflict."""
    true, grows = set(true), True
    while grows:
        grows = False
        for clause in clauses:
            if any(it in true for it in clause):
                continue
            left = [it for it in clause if -it not in true]
            if not left:
                return None
            if len(left) == 1:
                true.add(left[0])
                grows = True
    return true


def is_tautology(clause):
    return any(-it in clause for it in clause)


def is_redundant(clauses, clause):
    """RUP, or RAT by the first literal."""
    negated = [-it for it in clause]
    if is_tautology(clause) or propagate(clauses, negated) is None:
        return True
    for other in clauses if clause else []:
        if -clause[0] not in other:
            continue
        rest = [it for it in other if it != -clause[0]]
        if any(-it in clause for it in rest):
            continue
        if propagate(clauses, negated + [-it for it in rest]) is not None:
            return False
    return bool(clause)


def unit_reason(clauses, clause):
    """Whether the clause has one true literal under the units, the others false. A checker may keep such a clause."""
    true = propagate(clauses, [])
    return true is not None and sum(it in true for it in clause) == 1


def meets_definition(formula, steps):
    """Whether every step is redundant up to a conflict; and whether no deletion that a checker may pass over came before."""
    clauses = [list(dict.fromkeys(it)) for it in formula if not is_tautology(it)]
    plain = True
    if propagate(clauses, []) is None:
        return True, plain
    for gone, clause in steps:
        clause = list(dict.fromkeys(clause))
        if gone:
            found = next((it for it in clauses if set(it) == set(clause)), None)
            if found is not None:
                plain = plain and not unit_reason(clauses, found)
                clauses.remove(found)
        elif not is_tautology(clause):
            if not is_redundant(clauses, clause):
                return False, plain
            clauses.append(clause)
            if propagate(clauses, []) is None:
                return True, plain
    return False, plain


def stands_against(clauses, clause):
    """What keeps a clause from being redundant by its first literal: none if it follows, else those whose resolvents don't."""
    negated = [-it for it in clause]
    if propagate(clauses, negated) is None:
        return []
    holders = [it for it in clauses if clause and -clause[0] in it]
    rests = [[-it for it in other if it != -clause[0]] for other in holders]
    return [it for it, rest in zip(holders, rests) if propagate(clauses, negated + rest) is not None]


class Choices:
    """Which clauses and steps a checker may take: it may leave out what its conflict does not need, and what is deleted
    before. So a step that is not redundant is left out, or all that stands against it is."""

    def __init__(self, formula, steps):
        self.clauses = [(False, it) for it in formula] + steps
        self.clauses = [(gone, list(dict.fromkeys(it))) for gone, it in self.clauses]
        self.formula, self.last, self.tries = len(formula), len(self.clauses), 300
        self.last = self.conflict_at(lambda there, at: True)

    def conflict_at(self, is_taken):
        """The count of clauses and steps up to the first conflict of those that are taken; all, where there is none."""
        there = []
        for at, (gone, clause) in enumerate(self.clauses[: self.last]):
            if gone:
                found = [it for it in there if set(self.clauses[it][1]) == set(clause)]
                if found and unit_reason([self.clauses[it][1] for it in there], clause):
                    self.tries = 0
                there = [it for it in there if it != found[0]] if found else there
            elif not is_tautology(clause) and is_taken(there, at):
                there.append(at)
                if at + 1 >= self.formula and propagate([self.clauses[it][1] for it in there], []) is None:
                    self.has_conflict = True
                    return at + 1
        self.has_conflict = False
        return self.last

    def can_be_verified(self, out=frozenset()):
        """Whether there is a choice, without these, that comes to a conflict. Where it is not found out, there may be."""
        self.tries -= 1
        if self.tries < 0:
            return True
        wrong = []

        def is_taken(there, at):
            clause = self.clauses[at][1]
            if at in out or wrong:
                return False
            against = stands_against([self.clauses[it][1] for it in there], clause) if at >= self.formula else []
            if against or (at >= self.formula and not clause):
                wrong.append((at, [it for it in there if self.clauses[it][1] in against]))
            return not wrong

        self.conflict_at(is_taken)
        if not wrong and self.tries > 0:
            return self.has_conflict
        if not wrong:
            return True
        at, against = wrong[0]
        return self.can_be_verified(out | {at}) or bool(against) and self.can_be_verified(out | set(against))


class Case:
    """A formula over few variables, and steps that are mostly redundant, with definitions and deletions among them."""

    def __init__(self, seed):
        self.draw = random.Random(seed)
        self.variables = self.draw.randint(3, 6)
        self.formula = self.some_formula()
        self.clauses = [list(dict.fromkeys(it)) for it in self.formula if not is_tautology(it)]
        self.steps = []

    def literal(self, variables):
        return self.draw.choice((1, -1)) * self.draw.randint(1, variables)

    sizes, least = (1, 2, 3, 3, 3, 3, 4), 2

    def some_formula(self):
        count = self.draw.randint(self.least * self.variables, 8 * self.variables)
        return [[self.literal(self.variables) for _ in range(self.draw.choice(self.sizes))] for _ in range(count)]

    def add(self, clause):
        self.steps.append((False, clause))
        if not is_tautology(clause):
            self.clauses.append(list(dict.fromkeys(clause)))

    def delete(self):
        clause = self.draw.choice(self.clauses)
        self.clauses.remove(clause)
        self.steps.append((True, self.draw.sample(clause, len(clause))))

    def define(self, top):
        a, b = self.literal(top - 1), self.literal(top - 1)
        for clause in ([top, -a, -b], [-top, a], [-top, b]):
            self.add(clause)

    def derive(self, top):
        for _ in range(40):
            clause = [self.literal(top) for _ in range(self.draw.choice((1, 2, 2, 3, 3, 4)))]
            if is_redundant(self.clauses, list(dict.fromkeys(clause))):
                self.add(clause)
                return

    def grow(self):
        top = self.variables
        for _ in range(self.draw.randint(3, 40)):
            if propagate(self.clauses, []) is None:
                break
            chance = self.draw.random()
            if chance < 0.15 and len(self.clauses) > 6:
                self.delete()
            elif chance < 0.25:
                top += 1
                self.define(top)
            else:
                self.derive(top)
        self.steps.append((False, []))

    def damage(self):
        at = self.draw.randrange(len(self.steps))
        gone, clause = self.steps[at]
        if self.draw.random() < 0.5 or not clause:
            del self.steps[at]
        else:
            turned = self.draw.randrange(len(clause))
            clause = [-it if n == turned else it for n, it in enumerate(clause)]
            self.steps[at] = (gone, clause)


class Sparse(Case):
    """A formula that no units refute, and few of the steps that do."""

    sizes, least = (2, 3, 3, 3, 3), 6

    def damage(self):
        self.steps = [it for it in self.steps if self.draw.random() < 0.15 and not it[0]] + [(False, [])]


def wrong_steps(program, folder, call, steps=None):
    """What is wrong with the steps that `--trim` writes, if anything: they have to be verified after the formula and after its
    used clauses, and where the steps before are given, there are no more of them beside the empty clause."""
    trim, core = f"{folder}/trim", f"{folder}/core"
    subprocess.run([*call, "--trim", trim, "--core", core], capture_output=True, timeout=60)
    for cnf in (f"{folder}/a.cnf", core):
        ran = subprocess.run([program, cnf, trim], capture_output=True, text=True, timeout=60)
        if ran.stdout != "s VERIFIED UNSAT\n":
            return f"its needed steps after {cnf}: {ran.stdout}{ran.stderr}"
    with open(trim) as file:
        needed = sum(line != "0\n" and not line.startswith("d") for line in file)
    if steps is not None and needed > sum(bool(clause) and not gone for gone, clause in steps):
        return f"{needed} steps are needed, which are more than there are"
    return None


def try_case(program, seed, folder, counts):
    """What is wrong with the answer, if anything."""
    case = Sparse(seed) if seed % 4 == 1 else Case(seed)
    case.grow()
    if seed % 2:
        case.damage()
    binary = case.draw.random() < 0.5
    proof = binary_drat(case.steps) if binary else drat(case.steps).encode()
    is_cut = seed % 10 == 3
    if is_cut:
        proof = proof[: case.draw.randrange(len(proof) + 1)]
    with open(f"{folder}/a.cnf", "w") as file:
        file.write(dimacs(case.formula))
    with open(f"{folder}/a.drat", "wb") as file:
        file.write(proof)
    call = [program, "--drat", f"{folder}/a.cnf", f"{folder}/a.drat"]
    ran = subprocess.run(call, capture_output=True, text=True, timeout=60)
    is_verified = ran.stdout == "s VERIFIED UNSAT\n" and ran.returncode == 0
    if not is_verified and ran.returncode not in (1, 3):
        return f"status {ran.returncode}"
    if "internal" in ran.stderr:
        return ran.stderr
    if is_verified and is_satisfiable(case.formula):
        return "verified, and the formula is satisfiable"
    met, plain = meets_definition(case.formula, case.steps)
    if met and plain and not is_cut and not is_verified:
        return f"not verified: {ran.stdout}{ran.stderr}"
    if is_verified and (why := wrong_steps(program, folder, call, case.steps)):
        return why
    if not is_right(f"{folder}/a.cnf", f"{folder}/a.drat", ran, refusal.drat_steps):
        return f"refused, and it is not shown why: {ran.stdout}{ran.stderr}"
    if met or is_cut or is_satisfiable(case.formula):
        return None
    if Choices(case.formula, case.steps).can_be_verified():
        return None
    counts["must"] += 1
    return "verified by steps that are wrong" if is_verified else None


def is_right(cnf, proof, ran, read=refusal.dpr_steps):
    """Whether a refusal, if it is one of a step that is read, is right."""
    step = refusal.refused_step(ran.stderr)
    if not step and ran.stdout != "s NOT VERIFIED\n":
        return True
    formula, steps = refusal.read_formula(cnf), read(refusal.read_proof(proof))
    return refusal.step_is_refuted(formula, steps, step) if step else refusal.ends_open(formula, steps)


def main(program, count, first=1):
    wrong, counts = 0, {"must": 0}
    with tempfile.TemporaryDirectory() as folder:
        for seed in range(int(first), int(first) + int(count)):
            why = try_case(program, seed, folder, counts)
            if why:
                wrong += 1
                print(f"case {seed}: {why}")
    print(f"{count} cases, {wrong} wrong; {counts['must']} wrong proofs of formulas that can't be satisfied")
    if not counts["must"]:
        print("no proof had to be refused")
    return 1 if wrong or not counts["must"] else 0


if __name__ == "__main__":
    sys.exit(main(*sys.argv[1:]))
