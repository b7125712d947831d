"""Random DRAT proofs in pieces: by `drat_cut`, `drat_check --holds` and `join_check`, by `drat_check` on the whole, and by the definition.

fuzz.py DRAT_CUT DRAT_CHECK JOIN_CHECK COUNT [SEED]

The proofs have definitions (RAT) and deletions among their steps, of clauses that force a literal too, and every other one is damaged.
Where each piece is verified and the last one refuted, the formula may not be satisfiable. A proof that meets the definition at every
step, and of which a checker may pass over nothing, must be verified in pieces; so must one that is not damaged and is verified as a
whole. The clauses before a piece must be those that the steps before leave, and where a literal of one is turned, so that nobody has
such a clause, the piece before must be refused. With the last piece first, each shows only what the one behind it has used, which is a part of
what was before that: what is verified so can't be satisfied, and a proof that is not damaged and is verified in pieces must be verified so too.
The receipts of pieces must be joined exactly if all are verified, and not if one of them is missing, has another digit, or is that of
other clauses.
"""

import hashlib
import os
import subprocess
import sys
import tempfile

for place in "join", "drat":
    sys.path.insert(0, os.path.join(os.path.dirname(__file__), "..", place))
from formulas import binary_drat, dimacs, drat
from fuzz import Case, is_redundant, is_satisfiable, is_tautology, meets_definition, propagate
from judge import is_reached

REFUTED, HELD = "s VERIFIED UNSAT\n", "s VERIFIED PIECE\n"


def read_clauses(path):
    with open(path) as file:
        return [[int(it) for it in line.split()[:-1]] for line in file if line[0] != "p"]


def sum_of(path):
    with open(path, "rb") as file:
        return hashlib.sha256(file.read()).hexdigest()


def as_sets(clauses):
    return sorted(sorted(set(it)) for it in clauses)


class Long(Case):
    """A proof of many steps that comes to no conflict soon, with many deletions, so that it is cut."""

    sizes, least = (2, 3, 3, 3, 3, 4), 4

    def some_formula(self):
        while True:
            formula = super().some_formula()
            if propagate([it for it in formula if not is_tautology(it)], []) is not None:
                return formula

    def derive(self, top):
        for _ in range(40):
            clause = [self.literal(top) for _ in range(self.draw.choice((1, 2, 2, 3, 3, 4)))]
            if not is_redundant(self.clauses, list(dict.fromkeys(clause))):
                continue
            if self.late <= len(self.steps) or propagate([*self.clauses, clause], []) is not None:
                self.add(clause)
                return

    def grow(self):
        self.late, top = self.draw.randint(5, 40), self.variables
        for _ in range(60):
            if propagate(self.clauses, []) is None:
                break
            chance = self.draw.random()
            if chance < 0.2 and len(self.clauses) > 6:
                self.delete()
            elif chance < 0.28:
                top += 1
                self.define(top)
            else:
                self.derive(top)
        self.steps.append((False, []))


class Pieces:
    """What the cutter writes of a case, and what the checker says of it."""

    def __init__(self, cutter, checker, joiner, folder):
        self.cutter, self.checker, self.joiner, self.folder = cutter, checker, joiner, folder

    def path(self, name, ending):
        return f"{self.folder}/{name}.{ending}"

    def cut(self, lemmas):
        for name in os.listdir(self.folder):
            if name[0].isdigit():
                os.remove(f"{self.folder}/{name}")
        call = [self.cutter, f"{self.folder}/a.cnf", f"{self.folder}/a.drat", f"{self.folder}/", "--drat", "--lemmas", str(lemmas), "--live", "100000"]
        ran = subprocess.run(call, capture_output=True, text=True, timeout=60)
        self.count = sum(it.endswith(".drat") and it[0].isdigit() for it in os.listdir(self.folder))
        return ran

    def before(self, name):
        return f"{self.folder}/a.cnf" if name == 1 else self.path(name, "cnf")

    def check(self, name, behind=None):
        held = ["--holds", behind or self.path(name + 1, "cnf")] if name < self.count else []
        return subprocess.run([self.checker, "--drat", self.before(name), self.path(name, "drat"), *held], capture_output=True, text=True, timeout=60)

    def verdict(self):
        """Whether all pieces up to one that is refuted are verified; else what is said of the first other one. Keeps the receipts."""
        self.receipts = []
        for name in range(1, self.count + 1):
            ran = self.check(name)
            if ran.returncode == 0 and ran.stdout == REFUTED:
                self.receipts.append(f"refuted sha256 {sum_of(self.before(name))}\n")
                return True, ""
            if ran.returncode != 0 or ran.stdout != HELD:
                return False, f"piece {name} of {self.count}: status {ran.returncode}: {ran.stdout}{ran.stderr}"
            behind = os.devnull if name == self.count else self.before(name + 1)
            self.receipts.append(f"carries sha256 {sum_of(self.before(name))} sha256 {sum_of(behind)}\n")
        return False, f"piece {self.count} is held, and is the last one"

    def joined(self, receipts):
        """Whether receipts are joined, and what is said."""
        ran = subprocess.run([self.joiner, f"{self.folder}/a.cnf", "-"], input="".join(receipts), capture_output=True, text=True, timeout=60)
        return ran.returncode == 0, (ran.returncode, ran.stdout)

    def join_fault(self, verified, draw):
        """What is wrong of the join, if anything."""
        is_joined, said = self.joined(self.receipts)
        if is_joined != verified or (verified and said[1] != f"s VERIFIED UNSAT BY {len(self.receipts)} RECEIPTS\n"):
            return f"the receipts of {len(self.receipts)} of {self.count} pieces, verified: {verified}: {said}"
        if not verified:
            return None
        at = draw.randrange(len(self.receipts))
        right = self.receipts[at]
        # the digits of the digests
        place = draw.choice([it for it in (*range(15, 79), *range(87, 151)) if it < len(right) - 1])
        turned = right[:place] + ("0" if right[place] != "0" else "1") + right[place + 1 :]
        for other in "", turned, right.replace(right.split()[2], hashlib.sha256(b"p cnf 0 1\n0\n").hexdigest()):
            others = [*self.receipts[:at], other, *self.receipts[at + 1 :]]
            arcs = [(words[2], words[4]) for words in map(str.split, others) if words[:1] == ["carries"]]
            ends = [words[2] for words in map(str.split, others) if words[:1] == ["refuted"]]
            if self.joined(others)[0] != is_reached(sum_of(self.before(1)), arcs, ends):
                return f"receipt {at + 1} is {other}: {self.joined(others)[1]}"
        return None

    def backward(self):
        """Why the pieces are not verified with the last one first, or nothing."""
        behind, wanted = os.devnull, (REFUTED,)
        for name in range(self.count, 0, -1):
            core = self.path(name, "core")
            call = [self.checker, "--drat", self.before(name), self.path(name, "drat"), "--holds", behind, "--core", core]
            ran = subprocess.run(call, capture_output=True, text=True, timeout=60)
            if ran.returncode or ran.stdout not in wanted:
                return f"piece {name} of {self.count}: status {ran.returncode}: {ran.stdout}{ran.stderr}"
            clauses = read_clauses(self.before(name))
            if any(it not in clauses for it in read_clauses(core)):
                return f"the core of piece {name} of {self.count} is no part"
            behind, wanted = core, (REFUTED, HELD)
        return None


def turned(pieces, name, known, draw):
    """A file with the clauses before a piece, a literal of one of them turned, or nothing where each such clause is known."""
    clauses = read_clauses(pieces.path(name, "cnf"))
    at = draw.randrange(len(clauses)) if clauses else 0
    if not clauses or not clauses[at]:
        return None
    place = draw.randrange(len(clauses[at]))
    clauses[at][place] = -clauses[at][place]
    if tuple(sorted(set(clauses[at]))) in known or is_tautology(clauses[at]):
        return None
    path = f"{pieces.folder}/turned"
    with open(path, "w") as file:
        file.write(dimacs(clauses))
    return path


def try_case(pieces, seed, counts):
    """What is wrong, if anything."""
    case = Case(seed) if seed % 4 == 2 else Long(seed)
    case.grow()
    if seed % 2:
        case.damage()
    with open(f"{pieces.folder}/a.cnf", "w") as file:
        file.write(dimacs(case.formula))
    with open(f"{pieces.folder}/a.drat", "wb") as file:
        file.write(binary_drat(case.steps) if case.draw.random() < 0.5 else drat(case.steps).encode())
    cut = pieces.cut(case.draw.choice((1, 1, 1, 2, 3)))
    if cut.returncode not in (0, 3) or cut.stderr:
        return f"not cut: status {cut.returncode}: {cut.stderr}"
    counts["cut"] += pieces.count > 1
    counts["pieces"] += pieces.count
    if as_sets(it for it in case.formula if not is_tautology(it)) != as_sets(read_clauses(pieces.path(1, "cnf"))):
        return "the clauses before the first piece are not the formula's"
    verified, why = pieces.verdict()
    counts["verified"] += verified
    if verified and is_satisfiable(case.formula):
        return "verified, and the formula is satisfiable"
    if why_not := pieces.join_fault(verified, case.draw):
        return why_not
    refused = pieces.backward()
    counts["backward"] += not refused
    if not refused and is_satisfiable(case.formula):
        return "verified with the last piece first, and the formula is satisfiable"
    if refused and ("no part" in refused or (verified and not seed % 2)):
        return f"verified in pieces, and with the last one first it is rejected: {refused}"
    whole = subprocess.run([pieces.checker, "--drat", f"{pieces.folder}/a.cnf", f"{pieces.folder}/a.drat"], capture_output=True, text=True)
    met, plain = meets_definition(case.formula, case.steps)
    if not verified and met and (plain or (whole.stdout == REFUTED and not seed % 2)):
        return f"the whole is right, and in pieces it is rejected: {why}"
    known = {tuple(sorted(set(it))) for it in case.formula + [clause for _, clause in case.steps]}
    for name in range(2, pieces.count + 1):
        path = turned(pieces, name, known, case.draw)
        if path is None:
            continue
        ran = pieces.check(name - 1, path)
        counts["turned"] += 1
        if ran.stdout == HELD or (ran.returncode == 0 and ran.stdout != REFUTED):
            return f"a turned literal before piece {name} is held"
    return None


def main(cutter, checker, joiner, count, first=1):
    wrong, counts = 0, dict.fromkeys(("cut", "pieces", "verified", "backward", "turned"), 0)
    with tempfile.TemporaryDirectory() as folder:
        pieces = Pieces(cutter, checker, joiner, folder)
        for seed in range(int(first), int(first) + int(count)):
            why = try_case(pieces, seed, counts)
            if why:
                wrong += 1
                print(f"case {seed}: {why}")
    told = ", ".join(f"{number} {name}" for name, number in counts.items())
    print(f"{count} proofs, {wrong} wrong; {told}")
    return 1 if wrong or not all(counts.values()) else 0


if __name__ == "__main__":
    sys.exit(main(*sys.argv[1:]))
