"""What grows by copying or by writing more than is read, counted in the repository's folder:

    heads above ten clauses     functions of .rt files whose contract has more `ensures` and `requires`
    repeats in crates           runs of at least ten lines of .rt or .antt files that stand before, but
                                for their words
    lines to read, SECTION      of the definitions that a section of docs/TRUST.md names, with all that
                                these cite

A line `at most, NAME: NUMBER` for each. A run that stands three times is two repeats. Blank lines,
comments, imports, and lines that have brackets alone are not counted: each file has them.
"""

import os
import re
import sys

sys.dont_write_bytecode = True
sys.path.insert(0, os.path.join(os.path.dirname(os.path.abspath(__file__)), "../documents"))
from sources import FUNCTION, cited, text_of

MOST_CLAUSES, RUN = 10, 10
HEAD_CLAUSE = re.compile(r"\s+(?:ensures|requires)\b")
WORD = re.compile(r"\b[a-zA-Z_]\w*")
BOILERPLATE = re.compile(r"(?:pub |ghost )*(?:use|mod) .*|//.*|--.*|#!?\[.*|[\s{}()\[\];,]*")
READ = re.compile(r"`(crates/\w+/specs/\w+\.antt)`")


def sources(*endings):
    """The files of the crates with these endings, without what is built."""
    for folder, folders, names in os.walk("crates"):
        folders[:] = sorted(it for it in folders if it != "out")
        for name in sorted(names):
            if name.endswith(endings):
                yield os.path.join(folder, name)


def clauses_of(text):
    """Of each function the clauses of its contract."""
    count = None
    for line in text.splitlines():
        if FUNCTION.match(line):
            count = 0
        elif count is not None and HEAD_CLAUSE.match(line):
            count += 1
        elif count is not None and (line.strip() in ("{", "}") or line.rstrip().endswith(";")):
            yield count
            count = None


def lines_that_count(text):
    lines = (line.strip() for line in text.splitlines())
    return [WORD.sub("w", line) for line in lines if not BOILERPLATE.fullmatch(line)]


def repeats(texts):
    """The repeats in texts, each as the places where it begins, a text and a line: first the later
    one."""
    known = {}
    for name, text in texts:
        lines, before = lines_that_count(text), None
        for start in range(len(lines) - RUN + 1):
            run = "\n".join(lines[start : start + RUN])
            found = known.get(run)
            if found is None or (found[0] == name and found[1] > start - RUN):
                known.setdefault(run, (name, start))
                before = None
                continue
            # (what goes on with the lines of the last window is the same repeat)
            if before != (found[0], found[1] - 1):
                yield (name, start), found
            before = found


def sections(text):
    """Of each section that names definitions, its title, and the files."""
    for part in re.split(r"(?m)^## ", text)[1:]:
        title, _, body = part.partition("\n")
        named = [it for it in READ.findall(body) if os.path.exists(it)]
        if named:
            yield title.replace("`", ""), named


def main(words):
    if words == ["--repeats"]:
        texts = ((path, text_of(path)) for path in sources(".rt", ".antt"))
        for (path, _), (other, _) in repeats(texts):
            print(f"{path}: as {other}")
        return
    heads = (count for path in sources(".rt") for count in clauses_of(text_of(path)))
    print(f"at most, heads above ten clauses: {sum(count > MOST_CLAUSES for count in heads)}")
    texts = ((path, text_of(path)) for path in sources(".rt", ".antt"))
    print(f"at most, repeats in crates: {sum(1 for _ in repeats(texts))}")
    for title, named in sections(text_of("docs/TRUST.md")):
        seen = {}
        for path in named:
            cited(path, seen)
        print(f"at most, lines to read, {title}: {sum(seen.values())}")


main(sys.argv[1:])
