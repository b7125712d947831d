"""Runs the forms of a program on the same texts as the proved program, and says where status, output or errors differ.

    compare.py NAME DATA FORM=COMMAND ..

The first form is the proved program's. DATA is tests/data. Of the forty pairs of texts some are right, most are damaged, and in some
the formula can be satisfied; a form that verifies one of these is wrong, whatever the others say. A program of claims gets a third text,
which stays right. Besides there are calls with files that are not there, and with files that are written.
"""

import os
import random
import shlex
import subprocess
import sys
import tempfile

COUNT = 40
DAMAGES = (b"", b"0", b" ", b"-", b"7", b"\n", b"x", b"99999999999999999999", b"\x00", b"p")
UNSAT = b"s VERIFIED UNSAT\n"
FOUR = b"p cnf 2 4\n1 2 0\n1 -2 0\n-1 2 0\n-1 -2 0\n"
# two inputs and their conjunction
CIRCUIT = b"aig 3 2 0 1 1\n6\n\2\2"
# How a program is called with both texts, and what its third text is.
WORDS = {
    "follows_check": ["formula", "third", "second"],
    "minimal_check": ["formula", "second", "third"],
    "circuit_check": ["same", "formula", "third", "--proof", "second"],
}
THIRD = {"follows_check": b"p cnf 1 1\n1 0\n", "minimal_check": b"-1 -2 0\n-1 2 0\n1 -2 0\n1 2 0\n", "circuit_check": CIRCUIT}


def read(name):
    with open(name, "rb") as file:
        return file.read()


def clauses_of(cnf):
    numbers = [int(it) for line in cnf.decode().splitlines() if line[:1] not in ("c", "p") for it in line.split()]
    clauses, clause = [], []
    for number in numbers:
        if number:
            clause.append(number)
        else:
            clauses, clause = [*clauses, clause], []
    return clauses


def drat_of(cnf, lrat):
    """The steps of an LRAT text, as pairs of whether it deletes and a clause."""
    known = dict(enumerate(clauses_of(cnf), 1))
    for line in lrat.decode().splitlines():
        words = line.split()
        if words[1] == "d":
            yield from ((True, known.pop(int(it))) for it in words[2:-1])
        else:
            clause = [int(it) for it in words[1 : words.index("0")]]
            known[int(words[0])] = clause
            yield False, clause


def text_drat(steps):
    return "".join("d " * gone + " ".join(map(str, [*clause, 0])) + "\n" for gone, clause in steps).encode()


def binary_drat(steps):
    out = bytearray()
    for gone, clause in steps:
        out += b"d" if gone else b"a"
        for number in (2 * abs(it) + (it < 0) for it in clause):
            while number > 127:
                out.append(number & 127 | 128)
                number >>= 7
            out.append(number)
        out.append(0)
    return bytes(out)


def planted(rng):
    """A formula with an assignment that satisfies it, and the assignment."""
    model = [rng.choice((1, -1)) * x for x in range(1, 61)]
    clauses = []
    while len(clauses) < 200:
        clause = [rng.choice((1, -1)) * x for x in rng.sample(range(1, 61), 3)]
        if any(it in model for it in clause):
            clauses.append(clause)
    text = f"p cnf 60 {len(clauses)}\n" + "".join(" ".join(map(str, [*it, 0])) + "\n" for it in clauses)
    return text.encode(), ("s SATISFIABLE\nv " + " ".join(map(str, [*model, 0])) + "\n").encode()


def whole(name, data, rng):
    """Pairs of texts that are right."""
    if name == "model_check":
        return [planted(rng) for _ in range(3)]
    if name == "minimal_check":
        return [(FOUR, b"1 0\n0\n"), (FOUR, b"a\2\0a\0"), (FOUR, b"2 0\n0\n")]
    if name == "circuit_check":
        return [(CIRCUIT, b"-5 0\n4 0\n3 0\n2 0\n0\n"), (CIRCUIT, b"-5 0\n0\n")]
    pairs = [(read(f"{data}/{it}.cnf"), read(f"{data}/{it}.lrat")) for it in ("board6", "par10", "grid5")]
    if name in ("drat_check", "follows_check"):
        steps = [list(drat_of(*pair)) for pair in pairs]
        made = [(text_drat, 0), (binary_drat, 1), (text_drat, 2), (binary_drat, 2)]
        return [(pairs[i][0], make(steps[i])) for make, i in made]
    return pairs


def damaged(pair, rng):
    which = rng.random() < 0.2
    cnf, second = pair
    text = bytearray(cnf if which else second)
    at = rng.randrange(len(text))
    text[at : at + rng.choice((0, 1, 1, 5))] = rng.choice(DAMAGES)
    return (bytes(text), second) if which else (cnf, bytes(text))


def cases(name, data, rng):
    """Pairs of texts, each with whether the formula can be satisfied for certain."""
    right = whole(name, data, rng)
    made = [(pair, name == "model_check") for pair in right]
    for cnf, second in right:
        made.append(((cnf, second[: len(second) // 2]), name == "model_check"))
        made.append(((second, cnf), False))
        made.append(((planted(rng)[0], second), name not in THIRD))
    made += [((b"", b""), name not in THIRD), (right[0][:1] * 2, False)]
    while len(made) < COUNT:
        made.append((damaged(rng.choice(right), rng), False))
    return made


def calls(name):
    """Calls that are made over a pair that is right. Where a word is `-`, standard input is the file that is meant."""
    made = [["--version"], ["--example"], [], ["formula", "none"], ["formula", "."], ["none", "second"]]
    made += [["-", "second"], ["formula", "-"], ["-", "-"], ["-", "none"]]
    if name in THIRD:
        made += [[*WORDS[name], "more"], [it if it != "third" else "none" for it in WORDS[name]]]
    if name == "follows_check":
        made += [["formula", "third", "--formula", "written"], ["formula", "third", "--formula", "third"]]
    if name == "circuit_check":
        made += [["same", "formula", "third", "--formula", "written"], ["never", "formula", "--formula", "formula"]]
    if name == "drat_check":
        made += [["formula", "second", "--lrat", "written"], ["formula", "second", "--lrat", "second"], ["formula", "second", "--lrat", "-"]]
    return made


class Forms:
    """The forms of a program, in a folder of their own."""

    def __init__(self, name, forms, work):
        self.name, self.work, self.wrong, self.statuses = name, work, 0, {}
        self.forms = [form.split("=", 1) for form in forms]

    def put(self, pair):
        for file, text in zip(("formula", "second", "third"), (*pair, THIRD.get(self.name, b""))):
            with open(f"{self.work}/{file}", "wb") as it:
                it.write(text)

    def answer(self, command, words):
        """Status, output, errors, and what is written."""
        meant = os.devnull if "-" not in words[:2] else f"{self.work}/{('formula', 'second')[words.index('-')]}"
        with open(meant, "rb") as stdin:
            ran = subprocess.run([*shlex.split(command), *words], cwd=self.work, capture_output=True, stdin=stdin)
        written = f"{self.work}/written"
        text = read(written) if os.path.exists(written) else None
        if text is not None:
            os.remove(written)
        return ran.returncode, ran.stdout, ran.stderr, text

    def compare(self, what, words, satisfiable=False):
        wanted = None
        for form, command in self.forms:
            found = self.answer(command, words)
            wanted = wanted or found
            if found != wanted or (satisfiable and found[1] == UNSAT):
                self.wrong = 1
                print(f"{self.name}, {what}, {form}: {found}, and not {wanted}")
        self.statuses[wanted[0]] = self.statuses.get(wanted[0], 0) + 1


def main(name, data, *forms):
    rng = random.Random(26)
    with tempfile.TemporaryDirectory() as work:
        all_forms = Forms(name, forms, work)
        for at, (pair, satisfiable) in enumerate(cases(name, data, rng)):
            all_forms.put(pair)
            all_forms.compare(f"text {at}", WORDS.get(name, ["formula", "second"]), satisfiable)
        if not {20 if name == "follows_check" else 0, 1} <= all_forms.statuses.keys():
            all_forms.wrong = 1
            print(f"{name}: the texts show too little, statuses {all_forms.statuses}")
        all_forms.put(whole(name, data, rng)[0])
        for words in calls(name):
            all_forms.compare(f"call {' '.join(words)}", words)
    return all_forms.wrong


sys.exit(main(*sys.argv[1:]))
