"""FRAT proofs: of LRAT text, and of random formulas, by `drat_check`.

frat.py of_lrat CNF LRAT HINTS FORMAT      FRAT of LRAT text, to standard output
frat.py fuzz PROGRAM COUNT [SEED]          random proofs, as FRAT and as DRAT

HINTS is `right`, `wrong` or `none`, FORMAT `text` or `binary`.

Of the random proofs one that meets the definition of DRAT at every step must be verified, as DRAT and as FRAT. No satisfiable
formula may be, whatever its proof; and no answer may be `internal`.
"""

import random
import subprocess
import sys
import tempfile

from formulas import binary_drat, dimacs, drat
from fuzz import Case, is_satisfiable, is_tautology, meets_definition


def number(value):
    """Seven bits a byte, the low ones first."""
    out = bytearray()
    while value >= 128:
        out.append(value % 128 + 128)
        value //= 128
    out.append(value)
    return bytes(out)


def signed(value):
    return number(2 * abs(value) + (value < 0))


def text_step(letter, plain, values):
    return " ".join([letter, *map(str, plain), *map(str, values), "0"]).encode() + b"\n"


def binary_step(letter, plain, values):
    return letter.encode() + b"".join(map(number, plain)) + b"".join(map(signed, values)) + b"\0"


def words_of(path):
    with open(path) as file:
        for line in file:
            if line.strip() and line[0] not in "cp":
                yield [int(it) if it != "d" else it for it in line.split()]


def of_lrat(formula, lrat, hints, way):
    """Steps with the ids of the LRAT text; its hints as they are, others, or none."""
    step = text_step if way == "text" else binary_step
    draw, ids, clauses = random.Random(len(hints)), [], {}
    out = sys.stdout.buffer
    for n, words in enumerate(words_of(formula), 1):
        ids.append(n)
        clauses[n] = words[:-1]
        out.write(step("o", [n], clauses[n]))
    for words in words_of(lrat):
        if words[1] == "d":
            for gone in words[2:-1]:
                out.write(step("d", [gone], clauses.pop(gone, [])))
            continue
        end = words.index(0, 1)
        new, clause, chain = words[0], words[1:end], words[end + 1 : -1]
        clauses[new] = clause
        out.write(step("a", [new], clause))
        if hints == "wrong":
            chain = draw.sample(chain, len(chain))[1:] + [draw.choice(ids), new + 7]
        if hints != "none":
            out.write(step("l", [], chain))
        ids.append(new)
    for left, clause in clauses.items():
        out.write(step("f", [left], clause))


def chain_of(clauses, clause):
    """The ids by which units of the negated clause come to a conflict, in order, or none."""
    true, chain, grows = {-it for it in clause}, [], True
    while grows:
        grows = False
        for key, other in clauses.items():
            if any(it in true for it in other):
                continue
            left = [it for it in other if -it not in true]
            if len(left) < 2:
                chain.append(key)
                if not left:
                    return chain
                true.add(left[0])
                grows = True
    return []


class Steps:
    """The steps of a case, as FRAT."""

    def __init__(self, case, step, kinds):
        self.draw, self.step, self.kinds = case.draw, step, kinds
        self.last, self.clauses, self.said = 0, {}, b""
        formula = list(case.formula)
        self.draw.shuffle(formula)
        for clause in formula:
            self.store(self.name("o", self.draw.sample(clause, len(clause))), clause)

    def name(self, letter, clause):
        self.last += self.draw.randint(1, 3) if self.draw.random() < 0.98 else 10**9
        self.said += self.step(letter, [self.last], clause)
        return self.last

    def store(self, key, clause):
        self.clauses[key] = list(dict.fromkeys(clause)) if not is_tautology(clause) else clause

    def hint(self, clause, key):
        kind = self.draw.choice(self.kinds)
        if kind == "none":
            return
        usable = {it: lits for it, lits in self.clauses.items() if not is_tautology(lits)}
        chain = chain_of(usable, clause)
        if kind == "wrong":
            chain = [self.draw.choice((1, 1, -1)) * self.draw.randint(1, key + 2) for _ in range(self.draw.randint(0, 5))]
        self.said += self.step("l", [], chain)

    def rename(self):
        """Some ids go round, or one gets a new id."""
        keys = self.draw.sample(sorted(self.clauses), self.draw.randint(1, min(len(self.clauses), 3)))
        others = keys[1:] + keys[:1]
        if len(keys) == 1:
            self.last += 1
            others = [self.last]
        self.said += self.step("r", [it for pair in zip(keys, others) for it in pair], [])
        moved = [self.clauses.pop(key) for key in keys]
        self.clauses.update(zip(others, moved))

    def take(self, gone, clause):
        if gone:
            key = next((it for it, lits in self.clauses.items() if set(lits) == set(clause)), self.last + 5)
            self.clauses.pop(key, None)
            self.said += self.step("d", [key], clause)
        else:
            key = self.name("a", clause)
            self.hint(clause, key)
            self.store(key, clause)
        if self.draw.random() < 0.05 and self.clauses:
            self.rename()


def twice(case):
    """Whether a clause is there twice at once."""
    there = []
    for gone, clause in [(False, it) for it in case.formula] + case.steps:
        clause = frozenset(clause)
        if gone and clause in there:
            there.remove(clause)
        elif not gone and clause in there:
            return True
        elif not gone:
            there.append(clause)
    return False


def answer(program, folder, name, proof):
    with open(f"{folder}/{name}", "wb") as file:
        file.write(proof)
    ran = subprocess.run([program, f"{folder}/a.cnf", f"{folder}/{name}"], capture_output=True, text=True, timeout=60)
    return ran.stdout, ran.returncode, ran.stderr


def try_case(program, seed, folder):
    """What is wrong with the answers, if anything."""
    case = Case(seed)
    case.grow()
    if seed % 2:
        case.damage()
    kinds = case.draw.choice((["right"], ["none"], ["wrong"], ["right", "none", "wrong"]))
    step = case.draw.choice((text_step, binary_step))
    steps = Steps(case, step, kinds)
    for gone, clause in case.steps:
        steps.take(gone, clause)
    proof = steps.said
    if step is text_step and seed % 4 == 0:
        proof = b"c o 1 2 0 .\n" + proof
    is_cut = seed % 10 == 3
    if is_cut:
        proof = proof[: case.draw.randrange(len(proof) + 1)]
    if seed % 10 == 7:
        at = case.draw.randrange(len(proof))
        proof = proof[:at] + bytes([case.draw.randrange(256)]) + proof[at + 1 :]
        is_cut = True
    with open(f"{folder}/a.cnf", "w") as file:
        file.write(dimacs(case.formula))
    said, status, err = answer(program, folder, "a.frat", proof)
    is_verified = said == "s VERIFIED UNSAT\n" and status == 0
    if not is_verified and status not in (1, 3):
        return f"status {status}"
    if "internal" in err:
        return err
    if is_verified and is_satisfiable(case.formula):
        return "verified, and the formula is satisfiable"
    met, plain = meets_definition(case.formula, case.steps)
    if met and plain and not is_cut and not is_verified:
        return f"not verified: {said}{err}"
    # By hints other steps may be needed; so of those that are not right, or not plain, more may come to light.
    if is_cut or twice(case) or (kinds != ["none"] and (seed % 2 or not plain)):
        return None
    other = drat(case.steps).encode() if step is text_step else binary_drat(case.steps)
    as_drat = answer(program, folder, "a.drat", other)
    if (said, status) != as_drat[:2]:
        return f"as FRAT {said}{err}, as DRAT {as_drat[0]}{as_drat[2]}"
    return None


def fuzz(program, count, first=1):
    wrong = 0
    with tempfile.TemporaryDirectory() as folder:
        for seed in range(int(first), int(first) + int(count)):
            why = try_case(program, seed, folder)
            if why:
                wrong += 1
                print(f"case {seed}: {why}")
    print(f"{count} cases, {wrong} wrong")
    return 1 if wrong else 0


if __name__ == "__main__":
    sys.exit({"of_lrat": of_lrat, "fuzz": fuzz}[sys.argv[1]](*sys.argv[2:]))
