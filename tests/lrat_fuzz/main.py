"""Tries random and damaged LRAT, text and binary, on the programs, and on checkers with faults that must be noticed."""
import argparse
import itertools
import random
import subprocess
import sys
import tempfile
from concurrent.futures import ThreadPoolExecutor
from pathlib import Path

TOP = Path(__file__).resolve().parent.parent.parent
sys.path.append(str(TOP / "tests"))

import binary  # noqa: E402
import rules  # noqa: E402
import texts  # noqa: E402
from dimacs import dimacs, is_satisfiable  # noqa: E402

VERIFIED = "s VERIFIED UNSAT\n"
OPEN = "s NOT VERIFIED\n"
SHOWN = "s UNSATISFIABLE\n"
NOT_SHOWN = "s NOT SHOWN\n"
PREFIXES = (64, 256, 1024, 4096, 65536)


def built(name):
    program = TOP / "crates" / f"{name}_main" / "out" / f"{name}_main"
    if not program.exists():
        sys.exit(f"not built: {program}")
    return program


def run(program, *names):
    """The status, standard output and the first line of standard error."""
    done = subprocess.run([program, *names], capture_output=True, text=True)
    return done.returncode, done.stdout, done.stderr.split("\n", 1)[0]


def is_as(answer, ran, lines, place="proof: line"):
    """Whether a program did what an answer says. The lines are those that it writes with status 0 and 3."""
    status, output, error = ran
    if status != answer.status or output != lines.get(status, ""):
        return False
    if status != 1:
        return error == ""
    causes = rules.UNREAD if answer.cause is None else (answer.cause,)
    return error in {f"{place} {answer.line}: {cause}" for cause in causes}


class Programs:
    def __init__(self, check, convert, check_bytes, check_hints):
        self.check, self.convert, self.check_bytes, self.check_hints = check, convert, check_bytes, check_hints

    def differences(self, seed):
        """What the programs say of a text that they must not say."""
        rng = random.Random(seed)
        formula, text = texts.random_case(rng)
        with tempfile.TemporaryDirectory() as folder:
            cnf, lrat, proof = (Path(folder) / name for name in ("cnf", "lrat", "proof"))
            cnf.write_text(dimacs(formula))
            lrat.write_bytes(text)
            found = list(self.compare(formula, text, cnf, lrat, proof))
            found += self.compare_binary(rng, formula, text, cnf, lrat, proof)
        return [f"seed {seed}: {what}" for what in found]

    def compare(self, formula, text, cnf, lrat, proof):
        refutable = not is_satisfiable(formula)
        right = rules.judge(formula, text)
        checked = run(self.check, cnf, lrat)
        if "VERIFIED UNSAT" in checked[1] and not refutable:
            yield f"lrat_check has a verdict over a satisfiable formula: {checked}"
        if not is_as(right, checked, {0: VERIFIED, 3: OPEN}):
            yield f"lrat_check must answer {right}: {checked}"
        yield from self.differences_of_hints(refutable, rules.judge_hints(formula, text), [cnf, lrat])
        wanted = rules.convert(formula, text)
        converted = run(self.convert, cnf, lrat, proof)
        if not is_as(wanted, converted, {}):
            yield f"lrat_to_proof must answer {wanted}: {converted}"
        if wanted.status == 1:
            return
        shown = run(self.check_bytes, cnf, proof)
        if shown[1].startswith("s UNSATISFIABLE") and not refutable:
            yield f"varisat_check has a verdict over a satisfiable formula: {shown}"
        # the lines that were converted are those that are right, and none of them is a RAT step
        agreeing = not right.redundant and (right.status != 1 or 0 < wanted.line < right.line)
        expected = (0, SHOWN, "") if wanted.status == 0 else (3, NOT_SHOWN, "")
        if agreeing and shown != expected:
            yield f"varisat_check does not agree with {checked}: {shown}"

    def differences_of_hints(self, refutable, right, words):
        """What `hint_check` says of these files that it must not say."""
        checked = run(self.check_hints, *words)
        if "VERIFIED UNSAT" in checked[1] and not refutable:
            yield f"hint_check has a verdict over a satisfiable formula: {checked}"
        if not is_as(right, checked, {0: VERIFIED, 3: OPEN}, "line"):
            yield f"hint_check must answer {right}: {checked}"

    def compare_binary(self, rng, formula, text, cnf, lrat, proof):
        """The same of the text's lines as binary ones, some of them damaged: the form of the ids is given, and told."""
        lines = [read for _, read in rules.lines_of(text)]
        doubled = rng.random() < 0.5
        zero = rng.choice((b"\0", b"\0", b"\x80\0", b"\x80\x80\0"))
        data = binary.written([read for read in lines if read != "unread"], doubled, zero)
        if data and rng.random() < 0.4:
            data = binary.damaged(rng, data)
        lrat.write_bytes(data)
        told = binary.are_doubled(data, len(formula))
        refutable = not is_satisfiable(formula)
        for way, words in ((doubled, ["--ids", "doubled" if doubled else "plain"]), (told, [])):
            read_lines = (lambda data: binary.lines_of(data, way)) if binary.is_binary(data) else rules.lines_of
            for what in self.compare_form(refutable, formula, data, read_lines, words, cnf, lrat, proof):
                yield f"{data} {words}: {what}"

    def compare_form(self, refutable, formula, data, read_lines, words, cnf, lrat, proof):
        """What the programs say of lines that are read so, called with these words, that they must not say."""
        right = rules.judge(formula, data, read_lines=read_lines)
        checked = run(self.check, *words, cnf, lrat)
        if "VERIFIED UNSAT" in checked[1] and not refutable:
            yield f"lrat_check has a verdict over a satisfiable formula: {checked}"
        if not is_as(right, checked, {0: VERIFIED, 3: OPEN}):
            yield f"lrat_check must answer {right}: {checked}"
        yield from self.differences_of_hints(refutable, rules.judge_hints(formula, data, read_lines), [*words, cnf, lrat])
        wanted = rules.convert(formula, data, read_lines)
        converted = run(self.convert, *words, cnf, lrat, proof)
        if not is_as(wanted, converted, {}):
            yield f"lrat_to_proof must answer {wanted}: {converted}"


def read_formula(path):
    return [[int(word) for word in line.split()[:-1]] for line in path.read_text().splitlines() if line[:1] not in "cp"]


def prefix_differences(programs):
    """What the programs must not say of beginnings of the texts of solvers, as binary lines of either form."""
    for path in sorted((TOP / "tests" / "data").glob("*.lrat")):
        cnf = path.with_suffix(".cnf")
        formula = read_formula(cnf)
        lines = [read for _, read in rules.lines_of(path.read_bytes())]
        for doubled, size in itertools.product((False, True), PREFIXES):
            data = binary.written(lines, doubled)[:size]
            with tempfile.TemporaryDirectory() as folder:
                lrat, proof = Path(folder) / "lrat", Path(folder) / "proof"
                lrat.write_bytes(data)
                read_lines = lambda data: binary.lines_of(data, doubled)
                for what in programs.compare_form(True, formula, data, read_lines, [], cnf, lrat, proof):
                    yield f"{path.name}, {'doubled' if doubled else 'plain'}, {size} bytes: {what}"


def unnoticed(fault, count):
    """Whether the rules with this fault give the answers of the rules to this many texts."""
    for seed in range(count):
        formula, text = texts.random_case(random.Random(seed))
        if rules.judge(formula, text) != rules.judge(formula, text, fault):
            return False
    return True


def main():
    parser = argparse.ArgumentParser(description=__doc__)
    parser.add_argument("--texts", type=int, default=1500)
    parser.add_argument("--first", type=int, default=0, help="the first seed")
    for name in ("lrat_check", "lrat_to_proof", "varisat_check", "hint_check"):
        parser.add_argument(f"--{name.replace('_', '-')}", help="another program in place of the one that is built")
    words = parser.parse_args()
    wrong = 0
    for fault in rules.FAULTS:
        if unnoticed(fault, words.texts):
            print(f"WRONG no text notices where {fault}")
            wrong += 1
    programs = Programs(
        words.lrat_check or built("lrat_check"),
        words.lrat_to_proof or built("lrat_to_proof"),
        words.varisat_check or built("varisat_check"),
        words.hint_check or built("hint_check"),
    )
    for what in prefix_differences(programs):
        print(f"WRONG {what}")
        wrong += 1
    with ThreadPoolExecutor() as pool:
        for found in pool.map(programs.differences, range(words.first, words.first + words.texts)):
            for what in found:
                print(f"WRONG {what}")
                wrong += 1
    print(f"{words.texts} texts: {wrong} differences")
    sys.exit(wrong > 0)


if __name__ == "__main__":
    main()
