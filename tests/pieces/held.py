"""Random pieces of proofs in four formats, by `drat_check --holds` and by a list of the clauses that live.

held.py DRAT_CHECK LRAT_CHECK COUNT [SEED]

The pieces are DRAT, DPR, FRAT and LPR. Their steps meet the definitions and come to no conflict by propagation; tautologies, clauses that are there
twice, clauses of the formula that get no id, new ids and deletions are among them. A clause is there where it lives behind the last step; one
that was deleted while it may have forced a literal may live or not. Where all wanted clauses live, the piece must be verified, `lrat_check`
must say the same of its lines, and the wanted clauses must be satisfiable if the formula is. Where one does not, the first such must be named.
"""

import os
import subprocess
import sys
import tempfile

sys.path.insert(0, os.path.join(os.path.dirname(__file__), "..", "drat"))
from dpr import is_redundant_by
from formulas import dimacs
from fuzz import Case, is_redundant, is_satisfiable, is_tautology, propagate, unit_reason

HELD, MISSING, REFUTED = "s VERIFIED PIECE\n", "s NOT VERIFIED\n", "s VERIFIED UNSAT\n"
FORMATS = ("drat", "dpr", "frat", "lpr")


def words(*numbers):
    return " ".join(map(str, [*numbers, 0])) + "\n"


class Piece(Case):
    """A formula, a piece in a format, and the clauses that live behind it, each with its id."""

    sizes, least = (1, 2, 2, 3, 3, 3, 4), 1

    def __init__(self, seed, form):
        super().__init__(seed)
        self.form, self.text, self.last, self.unsure = form, "", len(self.formula), set()
        self.live = [[n, clause] for n, clause in enumerate(self.formula, 1)]
        if form == "frat":
            self.name_some()

    def some_formula(self):
        while True:
            formula = [clause if self.draw.random() < 0.9 else self.opposed(clause) for clause in super().some_formula()]
            if formula and self.draw.random() < 0.4:
                formula += self.draw.choices(formula, k=2)
            if propagate([list(dict.fromkeys(it)) for it in formula if not is_tautology(it)], []) is not None:
                return formula

    def opposed(self, clause):
        """A tautology."""
        lits = list(dict.fromkeys([*clause, -clause[0]]))
        return self.draw.sample(lits, len(lits))

    def name_some(self):
        """Some clauses of the formula get ids, in any order."""
        for entry in self.draw.sample(self.live, len(self.live)):
            entry[0] = None
            if self.draw.random() < 0.8:
                self.last += self.draw.randint(1, 3)
                entry[0] = self.last
                self.text += f"o {words(entry[0], *self.draw.sample(entry[1], len(entry[1])))}"

    def clauses_there(self):
        return [list(dict.fromkeys(it)) for _, it in self.live if not is_tautology(it)]

    def hints(self):
        return [self.draw.randint(1, self.last) for _ in range(self.draw.choice((0, 0, 2)))]

    def add(self, clause, witness=()):
        self.last += self.draw.randint(1, 3)
        self.live.append([self.last, clause])
        if self.form == "frat":
            self.text += f"a {words(self.last, *clause)}" + (f"l {words(*self.hints())}" if self.draw.random() < 0.3 else "")
        elif self.form == "lpr":
            self.text += f"{self.last} {words(*clause, *witness)[:-1]} {words(*self.hints())}"
        else:
            self.text += words(*clause, *witness)

    def delete(self, entry):
        """Of clauses with the same literals that which has the id goes, or else one of them."""
        key, clause = entry
        if unit_reason(self.clauses_there(), set(clause)):
            if self.draw.random() < 0.8:
                return
            self.unsure.add(frozenset(clause))
        self.live.remove(entry)
        if self.form == "frat":
            self.text += f"d {words(key, *clause)}"
        elif self.form == "lpr":
            self.text += f"{self.last} d {words(key)}"
        else:
            self.text += f"d {words(*self.draw.sample(clause, len(clause)))}"

    def rename(self):
        named = [it for it in self.live if it[0]]
        if self.form == "frat" and named:
            entry = self.draw.choice(named)
            self.last += 1
            self.text += f"r {words(entry[0], self.last)}"
            entry[0] = self.last

    def derive(self):
        """A clause that is redundant and brings no conflict, if one is found."""
        for _ in range(40):
            clause = list(dict.fromkeys(self.literal(self.variables + 1) for _ in range(self.draw.choice((1, 2, 2, 3, 3)))))
            if self.draw.random() < 0.15:
                clause = self.opposed(clause)
            there, witness = self.clauses_there(), ()
            if self.form in ("dpr", "lpr") and self.draw.random() < 0.5 and not is_tautology(clause):
                witness = list(dict.fromkeys([clause[0], *(self.literal(self.variables) for _ in range(2))]))
                right = not is_tautology(witness) and is_redundant_by(there, clause, witness)
            else:
                right = is_redundant(there, clause)
            if right and (is_tautology(clause) or propagate([*there, clause], []) is not None):
                self.add(clause, witness)
                return

    def grow(self):
        for _ in range(self.draw.randint(0, 14)):
            chance = self.draw.random()
            known = [it for it in self.live if it[0] or self.form != "frat"]
            if chance < 0.3 and known:
                self.delete(self.draw.choice(known))
            elif chance < 0.4 and self.live:
                copy = list(dict.fromkeys(self.draw.choice(self.live)[1]))
                self.add(self.draw.sample(copy, len(copy)))
            elif chance < 0.5:
                self.rename()
            else:
                self.derive()

    def wanted(self):
        """Some clauses that live, as they may be spelled, and perhaps one at random among them; and the place of the first that does not."""
        some = self.draw.sample(self.live, self.draw.randint(0, min(4, len(self.live))))
        clauses = [self.draw.sample(clause, len(clause)) for _, clause in some]
        clauses = [clause + [clause[-1]] if self.draw.random() < 0.1 else clause for clause in clauses]
        if self.draw.random() < 0.5:
            other = [self.literal(self.variables) for _ in range(self.draw.choice((1, 2, 3)))]
            clauses.insert(self.draw.randint(0, len(clauses)), other)
        there = {frozenset(clause) for _, clause in self.live}
        first = next((n for n, it in enumerate(clauses, 1) if frozenset(it) not in there), None)
        return clauses, first


def run(*call):
    ran = subprocess.run(call, capture_output=True, text=True, timeout=60)
    return ran.returncode, ran.stdout, ran.stderr


def try_case(programs, folder, seed, counts):
    """What is wrong, if anything."""
    form = FORMATS[seed % 4]
    piece = Piece(seed, form)
    piece.grow()
    wanted, first = piece.wanted()
    cnf, proof, holds, lines = (f"{folder}/{it}" for it in ("cnf", "proof", "holds", "lines"))
    for path, text in ((cnf, dimacs(piece.formula)), (proof, piece.text), (holds, dimacs(wanted))):
        with open(path, "w") as file:
            file.write(text)
    option = [] if form == "dpr" else [f"--{form}"]
    status, said, why = run(programs[0], cnf, proof, *option, "--holds", holds, "--lrat", lines)
    core = run(programs[0], cnf, proof, *option, "--holds", holds, "--core", f"{folder}/core")
    if core[:2] != (status, said):
        return f"with a core: {core}, without: {status}, {said}{why}"
    if "internal" in why:
        return f"status {status}: {said}{why}"
    if piece.unsure and said == REFUTED:
        # a clause that was kept may bring the conflict,
        return "verified, and some assignment satisfies the formula" if is_satisfiable(piece.formula) else None
    if any(frozenset(it) in piece.unsure for it in wanted) or (piece.unsure and "neither RUP nor" in why):
        # or stand against one that is redundant by a literal
        return None
    counts[form, first is None] += 1
    if first is not None:
        if (status, said) == (3, MISSING) and f"clause {first} is not derived by the piece:" in why:
            return None
        return f"clause {first} is not there: status {status}: {said}{why}"
    if (status, said) != (0, HELD):
        return f"all are there: status {status}: {said}{why}"
    status, said, why = run(programs[1], cnf, lines, "--holds", holds)
    if (status, said) != (0, HELD):
        return f"the lines: status {status}: {said}{why}"
    if is_satisfiable(piece.formula) and not is_satisfiable(wanted):
        return "verified, and no assignment satisfies the wanted clauses"
    return None


def main(drat_check, lrat_check, count, seed=1):
    counts = {(form, there): 0 for form in FORMATS for there in (True, False)}
    with tempfile.TemporaryDirectory() as folder:
        for case in range(int(seed), int(seed) + int(count)):
            wrong = try_case((drat_check, lrat_check), folder, case, counts)
            if wrong:
                print(f"seed {case}, {FORMATS[case % 4]}: {wrong}")
                for name in ("cnf", "proof", "holds"):
                    print(f"{name}:\n{open(f'{folder}/{name}').read()}")
                return 1
    if int(count) >= 200 and min(counts.values()) == 0:
        print(f"not each kind of case came: {counts}")
        return 1
    print(f"held.py: {count} pieces, {sum(n for (_, there), n in counts.items() if there)} with all that is wanted")
    return 0


if __name__ == "__main__":
    sys.exit(main(*sys.argv[1:]))
