#!/usr/bin/env python3
"""What `s VERIFIED UNSAT` means, in Python: the definitions of docs/DEFINITIONS.md under their names.

    definitions.py FILE           the clauses of a DIMACS text, how it ends, and whether it is refuted
    definitions.py --try N SEED   compares N random texts with what the program LRAT_CHECK says of them

Whether it is refuted is found out by trying all assignments, so FILE may have up to 20 variables. An assignment is a function
from indexes, clauses are lists of codes, and a text is bytes. `tests/definitions.sh` makes the comparison.
"""

import itertools
import os
import random
import subprocess
import sys

# Bytes.antt


def is_lf(b):
    return b == 10


def is_blank(b):
    return b in (32, 9, 13)


def is_digit(b):
    return 48 <= b <= 57


def slice_split(passes, items):
    pieces = [[]]
    for item in items:
        if passes(item):
            pieces.append([])
        else:
            pieces[-1].append(item)
    return pieces


# Clauses.antt


def is_negative(m):
    return m % 2 == 1


def var_of(m):
    return m // 2


def lit_true(a, m):
    return not a(var_of(m)) if is_negative(m) else a(var_of(m))


def clause_true(a, c):
    return any(lit_true(a, m) for m in c)


def all_true(a, cs):
    return all(clause_true(a, c) for c in cs)


# Vars.antt, Tokens.antt. A token is `Zero`, a code, or the name of a fault.

ZERO = "Zero"


def lit_code(value, negative):
    return 2 * (value - 1) + (1 if negative else 0)


def value_token(negative, v):
    if v == 0:
        return "BadNumber" if negative else ZERO
    return "VarTooLarge" if 2**28 < v else lit_code(v, negative)


# Lines.antt


def lines_of(text):
    return slice_split(is_lf, text)


def words_of(line):
    return [word for word in slice_split(is_blank, line) if word]


def value_of(digits):
    v = 0
    for d in digits:
        if not is_digit(d):
            return None
        v = v * 10 + (d - 48)
    return v if digits else None


def judged(negative, v):
    return "BadNumber" if v is None else value_token(negative, v)


def token_of_word(word):
    return judged(True, value_of(word[1:])) if word[:1] == [45] else judged(False, value_of(word))


def is_digits(word):
    return bool(word) and all(map(is_digit, word))


def is_header(words):
    return len(words) == 4 and bytes(words[0]) == b"p" and bytes(words[1]) == b"cnf" and all(map(is_digits, words[2:]))


def kind_of_line(line):
    first = next((b for b in line if not is_blank(b)), None)
    kinds = {None: "EmptyLine", ord("c"): "CommentLine", ord("%"): "EndMark", ord("p"): "HeaderLine"}
    return kinds.get(first, "TokenLine")


def next_line(line):
    return min(line + 1, 2**64 - 1)


ENDED = "Ended"


def finish(line, begun):
    return (line, "UnterminatedClause") if begun else ENDED


def outcome_of(text):
    """The clauses, and `Ended` or the fault with its line. Here it is a loop; there it is an equation for each kind of line."""
    clauses, line, seen, begun = [], 0, False, []
    for bytes_of_line in lines_of(text):
        line, kind = next_line(line), kind_of_line(bytes_of_line)
        if kind == "EndMark":
            return clauses, finish(line, begun)
        if kind == "HeaderLine":
            if seen:
                return clauses, (line, "LateHeader")
            if not is_header(words_of(bytes_of_line)):
                return clauses, (line, "BadHeader")
            seen = True
        elif kind == "TokenLine":
            for token in map(token_of_word, words_of(bytes_of_line)):
                if token == ZERO:
                    clauses.append(begun)
                    begun = []
                elif isinstance(token, int):
                    begun = [*begun, token]
                else:
                    return clauses, (line, token)
            seen = True
    return clauses, finish(line, begun)


# Refuted.antt


def is_refuted(text):
    clauses, ending = outcome_of(text)
    indexes = sorted({var_of(m) for c in clauses for m in c})
    if ending != ENDED:
        return False
    assignments = itertools.product((False, True), repeat=len(indexes))
    return not any(all_true(dict(zip(indexes, values)).__getitem__, clauses) for values in assignments)


# The comparison: of a text and an empty proof the program says the fault and its line, or whether the empty clause is in it.

WORDS = "1 -2 0 0 3 -1 2 0 x -0 007 268435456 268435457 --1 +1 -00 1x p c % cx".split() + ["p cnf 3 4", "p cnf 3", "p cnf 1 2 3", "p\tcnf 0 0"]
SPACES = " ", " ", "\n", "\n", "\t", "\r\n", " \n", ""
TEXTS = {
    "BadNumber": "bad number",
    "VarTooLarge": "variable too large",
    "BadHeader": "bad header",
    "LateHeader": "late header",
    "UnterminatedClause": "unterminated clause",
}


def random_text(draw):
    words = WORDS[: draw.choice((8, 11, len(WORDS)))]
    return "".join(draw.choice(words) + draw.choice(SPACES) for _ in range(draw.randint(0, 9))).encode()


def expected(text):
    """The status, the line and the first words of the fault, by the definitions."""
    clauses, ending = outcome_of(text)
    if ending != ENDED:
        return 1, "", f"formula: line {ending[0]}: {TEXTS[ending[1]]}"
    return (0, "s VERIFIED UNSAT\n", "") if [] in clauses else (3, "s NOT VERIFIED\n", "")


def said(program, text):
    ran = subprocess.run([program, "-", "/dev/null"], input=text, capture_output=True)
    first = ran.stderr.decode().split("\n")[0]
    return ran.returncode, ran.stdout.decode(), first if ran.returncode == 1 else ""


def compare(program, count, seed):
    draw, wrong, seen = random.Random(seed), 0, {}
    for _ in range(count):
        text = random_text(draw)
        wanted, found = expected(text), said(program, text)
        what = wanted[1].strip() or wanted[2].split(": ")[2]
        seen[what] = seen.get(what, 0) + 1
        if wanted != found or (wanted[0] == 0) != (wanted[0] == 0 and is_refuted(text)):
            wrong += 1
            print(f"{text}: {found}, and by the definitions {wanted}")
    print(f"{count} texts, {wrong} of them differ:", ", ".join(f"{what} {seen[what]}" for what in sorted(seen)))
    # a kind of text that is never drawn is compared with nothing
    return wrong or len(seen) < len(TEXTS) + 2


def main(words):
    if len(words) == 3 and words[0] == "--try":
        return 1 if compare(os.environ.get("LRAT_CHECK", "lrat_check"), int(words[1]), int(words[2])) else 0
    if len(words) != 1 or words[0].startswith("--"):
        sys.stderr.write(__doc__)
        return 2
    with open(words[0], "rb") as file:
        text = file.read()
    clauses, ending = outcome_of(text)
    print(f"{len(clauses)} clauses, {ending}")
    if len({var_of(m) for c in clauses for m in c}) > 20:
        print("too many variables to try all assignments")
        return 2
    print("refuted" if is_refuted(text) else "not refuted")
    return 0


if __name__ == "__main__":
    sys.exit(main(sys.argv[1:]))
