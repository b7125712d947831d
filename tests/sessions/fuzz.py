#!/usr/bin/env python3
"""Small sessions with proofs of their own, right and damaged, by `tools/sessions` and by brute force.

fuzz.py SESSIONS FROM TO

A session of seed FROM to TO - 1 is right, and all its answers have to be shown, except for those whose conclusion is left out;
then it is damaged, in the interaction or in the proof, and whatever is shown has to be true of all assignments.
"""

import itertools
import random
import re
import sys
import tempfile

from called import Called

WORDS = {"SATISFIABLE": True, "UNSATISFIABLE": False, "UNKNOWN": None}


def text(kind, *lists):
    return " ".join([kind, *(" ".join([*map(str, it), "0"]) for it in lists)])


def assignments(top):
    return [{it if sign else -it for it, sign in enumerate(signs, 1)} for signs in itertools.product((0, 1), repeat=top)]


def propagated(clauses, units):
    """The names of clauses along which a conflict is found, or nothing."""
    true, used = set(units), []
    if any(-it in true for it in true):
        return used
    while True:
        for name, clause in clauses.items():
            left = {it for it in clause if -it not in true}
            if not left:
                return [*used, name]
            if len(left) == 1 and not left <= true:
                true |= left
                used.append(name)
                break
        else:
            return None


class Maker:
    """A session, and its proof in both forms."""

    def __init__(self, seed):
        self.random, self.top = random.Random(seed), 2 + seed % 5
        self.all, self.clauses, self.lemmas, self.next = assignments(self.top), {}, [], 1
        self.said, self.plain, self.hinted = ["p icnf"], ["p idrup"], ["p lidrup"]
        self.asked, self.silent = 0, set()
        for _ in range(self.random.randint(3, 14)):
            for _ in range(self.random.randint(0, 7)):
                self.give()
            self.ask()

    def literals(self, most):
        return [self.random.choice((1, -1)) * self.random.randint(1, self.top) for _ in range(self.random.randint(0, most))]

    def put(self, *lines):
        for out, line in zip((self.said, self.plain, self.hinted), lines):
            if line is not None:
                out.append(line)

    def name(self, clause):
        name, self.next = self.next, self.next + self.random.randint(1, 3)
        self.clauses[name] = clause
        return name

    def give(self):
        clause = self.literals(4) or self.literals(3) or self.literals(3)
        name = self.name(clause)
        turned = self.random.sample(clause, len(clause))
        self.put(text("i", clause), text("i", turned), text("i", [name, *turned]))
        self.all = [it for it in self.all if any(x in it for x in clause)]

    def hints(self, units):
        return propagated(self.clauses, units)

    def lemma(self, clause):
        hints = self.hints([-it for it in clause])
        name = self.name(clause)
        self.lemmas.append(name)
        self.put(None, text("l", clause), text("l", [name, *clause], hints))

    def refute(self, core, decided):
        """Lemmas of the leaves of a tree, and then of its inner nodes, except for the root."""
        if propagated(self.clauses, [*core, *decided]) is not None:
            return
        free = [it for it in range(1, self.top + 1) if it not in map(abs, [*core, *decided])]
        for sign in (1, -1):
            below = [*decided, sign * free[0]]
            self.refute(core, below)
            self.lemma([-it for it in [*core, *below]])

    def ask(self):
        assumed = self.literals(4)
        self.asked += 1
        found = [it for it in self.all if it.issuperset(assumed)]
        status = "UNKNOWN" if self.random.random() < 0.1 else "SATISFIABLE" if found else "UNSATISFIABLE"
        self.put(*[text("q", assumed)] * 3)
        if status == "UNSATISFIABLE":
            core = list(dict.fromkeys(assumed))
            for it in self.random.sample(core, len(core)):
                if not any(one.issuperset(set(core) - {it}) for one in self.all):
                    core.remove(it)
            self.refute(core, [])
            self.put(*[f"s {status}"] * 3)
            told = self.random.choice((core, assumed, None))
            self.put(None if told is None else text("f", told), None, None)
            self.conclude(core, propagated(self.clauses, core))
        else:
            self.put(*[f"s {status}"] * 3)
        if status == "SATISFIABLE":
            model = sorted(self.random.choice(found), key=abs)
            told = self.random.sample(model, self.random.randint(0, self.top))
            self.put(text("v", told) if told else None, None, None)
            if not self.is_silent():
                self.put(None, *[text("m", model)] * 2)
        elif status == "UNKNOWN" and self.random.random() < 0.5:
            self.put(None, *[text("e", self.literals(4))] * 2)
        self.forget()

    def is_silent(self):
        """Whether this query gets no conclusion."""
        if self.random.random() < 0.1:
            self.silent.add(self.asked)
        return self.asked in self.silent

    def conclude(self, core, hints):
        """The core; or several conclusions, the core among them, the others with a literal that was not assumed."""
        if self.is_silent():
            return
        cores = [core]
        if self.random.random() < 0.2:
            cores += [[*core, self.top + 1]] * self.random.randint(1, 2)
            self.random.shuffle(cores)
            self.put(None, *[f"U {len(cores)}"] * 2)
        for it in cores:
            self.put(None, text("u", it), text("u", it, hints))

    def forget(self):
        """Some lemmas go; clauses that were given are weakened."""
        for name in [it for it in self.lemmas if self.random.random() < 0.3]:
            clause = self.clauses.pop(name)
            self.lemmas.remove(name)
            self.put(None, text("d", self.random.sample(clause, len(clause))), text("d", [name]))
        for name in [it for it in self.clauses if self.random.random() < 0.05]:
            self.put(None, text("w", self.clauses[name]), text("w", [name]))


def damaged(chance, lines):
    """One or two edits of lines behind the header."""
    lines = list(lines)
    for _ in range(chance.randint(1, 2)):
        at = chance.randrange(1, len(lines))
        words, what = lines[at].split(), chance.randrange(7)
        place = chance.randrange(1, len(words))
        if what == 0 and len(lines) > 2:
            del lines[at]
            continue
        if what == 1:
            lines.insert(at, chance.choice(lines[1:]))
            continue
        if words[0] == "s":
            words[1] = chance.choice(list(WORDS))
        elif what == 2:
            del words[place]
        elif what == 3:
            words[place] = str(-int(words[place]))
        elif what == 4:
            words.insert(place, str(chance.choice((-1, 1)) * chance.randint(1, 6)))
        elif what == 5:
            words[place] = str(int(words[place]) + chance.choice((-1, 1)))
        else:
            words[0] = chance.choice("ildwqmuvfeU")
        lines[at] = " ".join(words)
    return lines


def turned(chance, said, proof):
    """A literal of a model is turned around, of what was told, or of what was told and of the model."""
    said, proof = list(said), list(proof)
    models = [it for it, line in enumerate(proof) if line[0] == "m" and len(line.split()) > 2]
    if not models:
        return said, proof
    at = chance.choice(models)
    place = [it for it, line in enumerate(said) if line == "s SATISFIABLE"][proof[:at].count("s SATISFIABLE") - 1] + 1
    literal = chance.choice(proof[at].split()[1:-1])
    which = chance.randrange(3)

    def turn(line):
        return " ".join(str(-int(it)) if it == literal else it for it in line.split())

    if which < 2:
        proof[at] = turn(proof[at])
    if which > 0 and place < len(said) and said[place][0] == "v":
        said[place] = turn(said[place])
    return said, proof


def true_answers(lines):
    """Of each query whether its answer is true, by all assignments."""
    top = max([1, *(abs(int(it)) for line in lines for it in re.findall(r"-?\d+", line))])
    left, truths, assumed = assignments(top), [], []
    for line in lines[1:]:
        kind, *words = line.split()
        literals = [] if kind == "s" else [int(it) for it in words[:-1]]
        if kind == "i":
            left = [it for it in left if any(x in it for x in literals)]
        elif kind == "q":
            assumed = literals
            truths.append(True)
        elif kind == "s" and WORDS[words[0]] is not None:
            truths[-1] = any(it.issuperset(assumed) for it in left) == WORDS[words[0]]
        elif kind in "vm":
            truths[-1] = truths[-1] and any(it.issuperset([*assumed, *literals]) for it in left)
        elif kind in "fu":
            truths[-1] = set(literals) <= set(assumed) and not any(it.issuperset(literals) for it in left)
    return truths


class Tried:
    def __init__(self, called, folder):
        self.called, self.folder, self.wrong = called, folder, 0

    def check(self, said, proof):
        for name, lines in (("icnf", said), ("proof", proof)):
            with open(f"{self.folder}/{name}", "w", encoding="ascii") as file:
                file.write("\n".join([*lines, ""]))
        return self.called.check(f"{self.folder}/icnf", f"{self.folder}/proof")

    def report(self, seed, what, said, proof, printed):
        self.wrong += 1
        print(f"seed {seed}: {what}: {printed}", *said, *proof, sep="\n")

    def seed(self, seed):
        made = Maker(seed)
        for proof in (made.plain, made.hinted):
            status, printed = self.check(made.said, proof)
            if {int(it) for it in re.findall(r"^query (\d+) ", printed, re.M)} != made.silent or status != bool(made.silent):
                self.report(seed, "of a right session other answers are shown", made.said, proof, printed)
        chance = random.Random(-seed)
        shown = 0
        for proof in (made.plain, made.hinted):
            shown += self.spoilt(seed, damaged(chance, made.said), proof)
            shown += self.spoilt(seed, made.said, damaged(chance, proof))
            shown += self.spoilt(seed, *turned(chance, made.said, proof))
        return shown

    def spoilt(self, seed, said, proof):
        """Whether all is shown."""
        status, printed = self.check(said, proof)
        if not printed.startswith(("all", "query", "after")):
            return False
        refused = {int(it) for it in re.findall(r"^query (\d+) ", printed, re.M)}
        is_wrong = any(not it and place not in refused for place, it in enumerate(true_answers(said), 1))
        if is_wrong or (status == 0) != printed.startswith("all"):
            self.report(seed, "a wrong answer is shown", said, proof, printed)
        return status == 0


def main(path, first, last):
    with tempfile.TemporaryDirectory() as folder:
        tried = Tried(Called(path), folder)
        shown = sum(tried.seed(it) for it in range(int(first), int(last)))
    print(f"{int(last) - int(first)} sessions, both ways; {shown} damaged ones with all answers still shown; {tried.wrong} wrong")
    return tried.wrong > 0


if __name__ == "__main__":
    sys.exit(main(*sys.argv[1:]))
