"""Random formulas and DPR proofs, some as LPR text, by `drat_check` and by the definition of DPR.

dpr.py PROGRAM LRAT_CHECK COUNT [SEED]

The clauses of a formula grow by steps that meet the definition: most of them neither follow nor are redundant by their first literal,
but by their witness. Such a proof must be verified, and the lines that are written of it be accepted by the checker of LRAT proofs.
No satisfiable formula may be verified, whatever its proof; and no answer may be `internal`. Half of the proofs are damaged: steps of
any kind come in, a step goes, a literal is turned, of a clause or of a witness, or a witness is cut or longer. A refusal is judged by
`refusal.py`.
"""

import subprocess
import sys
import tempfile

from formulas import binary_drat, dimacs, drat
from fuzz import Case, is_redundant, is_right, is_satisfiable, is_tautology, propagate, unit_reason, wrong_steps
from refusal import parts


def is_redundant_by(clauses, clause, witness):
    """Whether the clause follows, or the witness makes it true and what it touches follows as far as it is not made true."""
    if is_tautology(clause) or propagate(clauses, [-it for it in clause]) is None:
        return True
    if is_tautology(witness) or not any(it in witness for it in clause):
        return False
    for other in clauses:
        if not any(-it in witness for it in other) or any(it in witness for it in other):
            continue
        rest = [it for it in other if -it not in witness]
        if any(-it in clause for it in rest):
            continue
        if propagate(clauses, [-it for it in clause + rest]) is not None:
            return False
    return True


def meets_definition(formula, steps):
    """Whether every step is redundant up to a conflict; and whether no deletion that a checker may pass over came before."""
    clauses = [list(dict.fromkeys(it)) for it in formula if not is_tautology(it)]
    plain = True
    for gone, literals in [(None, None)] + steps:
        if gone:
            found = next((it for it in clauses if set(it) == set(literals)), None)
            if found is not None:
                plain = plain and not unit_reason(clauses, found)
                clauses.remove(found)
        elif gone is False:
            clause, witness = parts(literals)
            if is_tautology(witness) or not is_redundant_by(clauses, clause, witness):
                return False, plain
            if not is_tautology(clause):
                clauses.append(clause)
        if propagate(clauses, []) is None:
            return True, plain
    return False, plain


class Witnessed(Case):
    """A formula that no units refute, and steps of which most need their witness."""

    sizes, least = (2, 3, 3, 3, 4), 5

    def __init__(self, seed):
        super().__init__(seed)
        while propagate(self.clauses, []) is None:
            self.formula = self.some_formula()
            self.clauses = [list(dict.fromkeys(it)) for it in self.formula if not is_tautology(it)]

    def derive(self, top):
        for _ in range(60):
            clause = list(dict.fromkeys(self.literal(top) for _ in range(self.draw.choice((1, 2, 2, 3, 3)))))
            if is_tautology(clause) or (self.draw.random() < 0.8 and is_redundant(self.clauses, clause)):
                continue
            witness = self.some_witness(top, clause)
            if is_redundant_by(self.clauses, clause, witness):
                self.clauses.append(clause)
                self.steps.append((False, clause + witness))
                return

    def some_witness(self, top, clause):
        others = [it for it in range(1, top + 1) if it != abs(clause[0]) and self.draw.random() < 0.5]
        witness = [self.draw.choice((1, -1)) * it for it in others]
        self.draw.shuffle(witness)
        return [clause[0], *witness]

    def intrude(self):
        """Steps come in that need not be right, each strong enough to be needed."""
        for _ in range(3):
            clause = [self.literal(self.variables) for _ in range(self.draw.choice((1, 1, 2)))]
            step = False, list(dict.fromkeys(clause)) + self.some_witness(self.variables, clause)
            self.steps.insert(self.draw.randrange(len(self.steps)), step)

    def damage(self):
        at = self.draw.randrange(len(self.steps))
        gone, literals = self.steps[at]
        chance = self.draw.random()
        if self.draw.random() < 0.5:
            self.intrude()
        elif chance < 0.3 or not literals:
            del self.steps[at]
        elif chance < 0.6:
            turned = self.draw.randrange(len(literals))
            self.steps[at] = (gone, [-it if n == turned else it for n, it in enumerate(literals)])
        elif chance < 0.8:
            self.steps[at] = (gone, literals[:-1])
        else:
            self.steps[at] = (gone, literals + [self.literal(self.variables)])


def made(seed):
    case = Witnessed(seed)
    case.grow()
    if seed % 2:
        case.damage()
    return case


def lpr(formula, steps):
    """The steps as LPR text without hints. An id that no clause has is deleted where none has the literals."""
    there = [(set(it), n) for n, it in enumerate(formula, 1)]
    last, lines = len(formula), ""
    for gone, literals in steps:
        if gone:
            found = next((it for it in there if it[0] == set(literals)), (None, 10**6))
            there = [it for it in there if it != found]
            lines += f"{last} d {found[1]} 0\n"
        else:
            last += 1
            there.append((set(parts(literals)[0]), last))
            lines += " ".join(map(str, [last, *literals, 0, 0])) + "\n"
    return lines


def run(*call):
    return subprocess.run(call, capture_output=True, text=True, timeout=60)


def try_case(program, lrat_check, seed, folder, counts):
    """What is wrong with the answer, if anything."""
    case = made(seed)
    cnf, proof, lines = f"{folder}/a.cnf", f"{folder}/a.dpr", f"{folder}/a.lrat"
    with open(cnf, "w") as file:
        file.write(dimacs(case.formula))
    with open(proof, "wb") as file:
        file.write(binary_drat(case.steps) if case.draw.random() < 0.5 else drat(case.steps).encode())
    as_lpr = seed % 5 == 0
    if as_lpr:
        with open(proof, "w") as file:
            file.write(lpr(case.formula, case.steps))
    ran = run(program, cnf, proof, "--lrat", lines, *["--lpr"] * as_lpr)
    is_verified = ran.stdout == "s VERIFIED UNSAT\n" and ran.returncode == 0
    if not is_verified and (ran.returncode not in (1, 3) or "internal" in ran.stderr):
        return f"status {ran.returncode}: {ran.stderr}"
    met, plain = meets_definition(case.formula, case.steps)
    if met and plain and not is_verified:
        return f"not verified: {ran.stdout}{ran.stderr}"
    if not is_verified:
        counts["refused by a witness"] += "by its witness" in ran.stderr
        return None if as_lpr or is_right(cnf, proof, ran) else f"refused, and it is not shown why: {ran.stdout}{ran.stderr}"
    if is_satisfiable(case.formula):
        return "verified, and the formula is satisfiable"
    again = run(lrat_check, cnf, lines)
    if again.stdout != "s VERIFIED UNSAT\n":
        return f"its lines: {again.stdout}{again.stderr}"
    if why := wrong_steps(program, folder, [program, cnf, proof, *["--lpr"] * as_lpr]):
        return why
    with open(lines) as file:
        fresh = max(abs(it) for _, clause in case.steps + [(False, sum(case.formula, []))] for it in clause) + 1
        counts["verified by a witness"] += any(f" {fresh} " in line or f" -{fresh} " in line for line in (it.split(" 0 ")[0] + " " for it in file))
    return None


def main(program, lrat_check, count, first=1):
    wrong, counts = 0, {"verified by a witness": 0, "refused by a witness": 0}
    with tempfile.TemporaryDirectory() as folder:
        for seed in range(int(first), int(first) + int(count)):
            why = try_case(program, lrat_check, seed, folder, counts)
            if why:
                wrong += 1
                print(f"case {seed}: {why}")
    print(f"{count} cases, {wrong} wrong; {', '.join(f'{number} {what}' for what, number in counts.items())}")
    if not all(counts.values()):
        print("no witness was needed, or none was refused")
    return 1 if wrong or not all(counts.values()) else 0


if __name__ == "__main__":
    sys.exit(main(*sys.argv[1:]))
