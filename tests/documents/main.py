"""Compares what the documents say of files with the files: `tests/documents.sh`.

What a document can say of files, and how it is written:

    [text](path), [text](path#part)     a link to a file, and to the part of a document with this heading
    `crates/x/src/y.rt`                 a file or folder, where the first word is a folder of the repository
    `path` (N lines)                    how long it is
    `path` with all that it cites (F files, N lines)
                                        the definitions that a file of definitions rests on, with itself
    `path`: `name`, `name`              what is declared there
    `f`, `x::g`: `clause`, `clause`     in a column "contract" or "contract on the code": clauses of functions
    laws `name`, `name`                 laws of some crate; so are the names in a column "law" of a table
    ```rust path                        a quotation: these words are there one after the other

In `crates.txt` each crate is below those that it uses. Of each something is said, except of programs and of tests. FORMATS has each
program as it says that it is called, the README without its options. There is one version. What is believed by reading alone is no longer
than `MOST_LINES` says. Words over which readers of technical English stumble are not used, in documents and in what programs say of
themselves; fewer are checked in comments of sources, definitions and proofs.

All documents but FORMATS have at most `MOST_WORDS` words together. Documents are the files that git has by the name `*.md`. A word is
what stands between blanks outside of fenced code blocks, as `wc -w` counts, except a bar of a table.
"""

import os
import re
import sys

from links import bad_links
from programs import source_texts, tool_texts
from sources import calls, cited, contracts, crates, laws, lines_of, listed, text_of

FOLDERS = ("benches", "bindings", "crates", "docs", "lib", "packaging", "tests", "tools")
NAMED = re.compile(r"`((?:%s)/[\w./-]+)`" % "|".join(FOLDERS))
PLACEHOLDER = re.compile(r"NAME|CRATE|SUBJECT|MODULE|/out/")
LINES = re.compile(r"`([\w./-]+)` \((\d+) lines\)")
CITED = re.compile(r"`([\w./-]+\.antt)` with all that it cites \((\d+) files, (\d+) lines\)")
DECLARED = re.compile(r"`([\w./-]+\.(?:antt|rt))`: (`\w+`(?:, `\w+`)*)")
QUOTED = re.compile(r"^```\w+ (\S+/\S+)\n(.*?)^```$", re.MULTILINE | re.DOTALL)
LAWS = re.compile(r"\b[Ll]aws? (`\w+`(?:(?:,| and) `\w+`)*)")
CONTRACT = re.compile(r"((?:`[\w:]+`(?:, | and )?)+)(?: of [^:|;]*)?: ((?:`\w+`(?: \([^)]*\))?(?:, | and )?)+)")
MOST_WORDS = 24_500
MOST_LINES = {"crates/command/src/host.rt": 60}
CRATES_PAGE = "docs/reference/ARCHITECTURE.md"
VERSION_PAGE = "crates/command/src/status.rt"
PLAIN = {
    "want of memory": "out of memory",
    "is wanting": "is missing, is out of",
    "but for": "except",
    "of another making": "written by others",
    "gives way": "fails",
    "comes of it": "follows",
}
PLAIN_COMMENTS = {**PLAIN, "so many": "this many, how many"}
PLAIN_DOCUMENTS = {
    **PLAIN,
    "besides": "also, in addition",
    "be it": "perhaps",
    "has to": "must",
    "(?:is|are) so(?=[,;:.])": "holds, is true",
    "(?:is|are) told": "is detected, reported, returned",
    "tells": "detects, reports",
    "(?:is|are) wanted": "is asked for, is a target",
    "lies? about": "mismatch",
    "goes through": "propagates, passes",
    "nothing rests on": "no verdict relies on",
    "taken away": "removed",
    "written over": "overwritten",
    "set aside": "not proved",
    "to be read first": "read first",
    "way out": "exit",
    "is said": "says, states",
    r"(?<![\w,`)] )(?:proved|trusted|tested) are": "a sentence with its subject first",
}
PLAIN_PROGRAMS = {
    **PLAIN,
    "besides": "also, in addition",
    "be it": "perhaps",
    "(?:is|are) so(?=[,;:.])": "holds, is true",
    "(?:is|are) told": "is detected, reported, returned",
    "lies? about": "mismatch",
    "taken away": "removed",
    "takes no part": "is not used",
    "comes again": "is repeated",
    "says (?:how|nothing|twice|of which)": "print, show",
    "(?:a|its) first bytes tell": "is detected",
    r"groups?\b(?! of)": "candidate",
}


def bad_names(text):
    for path in NAMED.findall(text):
        if not PLACEHOLDER.search(path) and not os.path.exists(path):
            yield f"{path} is not there"
    for path, names in DECLARED.findall(text):
        if not path.startswith("crates/") or not os.path.exists(path):
            continue
        for name in re.findall(r"\w+", names):
            if not re.search(r"\b%s\b" % name, text_of(path)):
                yield f"{path} does not have {name}"


def bad_counts(text):
    for path, count in LINES.findall(text):
        if not os.path.exists(path):
            yield f"{path} is not there"
        elif lines_of(path) != int(count):
            yield f"{path} has {lines_of(path)} lines, not {count}"
    for path, files, lines in CITED.findall(text):
        found = cited(path, {})
        if (len(found), sum(found.values())) != (int(files), int(lines)):
            yield f"{path} cites {len(found)} files, {sum(found.values())} lines, not {files} and {lines}"


def bad_quotations(text):
    for path, quoted in QUOTED.findall(text):
        if not os.path.exists(path):
            yield f"{path} is quoted and not there"
        elif " ".join(quoted.split()) not in " ".join(text_of(path).split()):
            yield f"a quotation of {path} that is not in it: {quoted.strip().splitlines()[0].strip()}"


def bad_tables(text):
    """Rows before which there is no table, and rows that are longer than the head of their table."""
    width = None
    lines = text.splitlines()
    for line, next_line in zip(lines, [*lines[1:], ""]):
        cells = len(re.sub(r"`[^`]*`", "", line).split("|"))
        if not line.startswith("|"):
            width = None
        elif width is None and re.fullmatch(r"\|(-+\|)+", next_line):
            width = cells
        elif width is None:
            yield f"a row without a table: {line[:60]}"
        elif cells != width:
            yield f"a row of another length than its table: {line[:60]}"


def bad_words(text, plain_words):
    for words, plain in plain_words.items():
        if found := re.search(r"\b%s\b" % words, text, re.IGNORECASE):
            yield f'"{found[0]}": say "{plain}"'


def bad_comments():
    """What the comments of sources, definitions and proofs say, by `PLAIN_COMMENTS`."""
    for path in listed("crates/*.rt") + listed("crates/*.antt"):
        for line, text in enumerate(text_of(path).splitlines(), 1):
            if text.lstrip().startswith(("//", "--")):
                for fault in bad_words(text, PLAIN_COMMENTS):
                    yield f"{path}:{line}: {fault}"


def bad_programs():
    """What programs say of themselves, by `PLAIN_PROGRAMS`."""
    for place, text in [*source_texts(), *tool_texts()]:
        for fault in bad_words(text, PLAIN_PROGRAMS):
            yield f"{place}: {fault}: {text[:60]}"


def prose(text):
    """The words outside of fenced code blocks, except the bars of tables."""
    fenced = False
    for line in text.splitlines():
        fence = line.lstrip().startswith("```")
        fenced ^= fence
        if not fenced and not fence:
            yield from (word for word in line.split() if word != "|")


def bad_length(documents):
    """FORMATS does not count: there a format or a fault is looked up, and each new one has its row."""
    words = sum(len(list(prose(text_of(it)))) for it in documents if not str(it).endswith("FORMATS.md"))
    if words > MOST_WORDS:
        yield f"all documents but FORMATS have {words} words together, not at most {MOST_WORDS}"


def bad_bounds():
    for path, most in MOST_LINES.items():
        if lines_of(path) > most:
            yield f"{path} has {lines_of(path)} lines, not at most {most}: it is believed by reading"


def columns(text, head):
    """The cells below a head of the tables."""
    at = None
    for line in text.splitlines():
        cells = [cell.strip() for cell in line.split("|")]
        if head in cells:
            at = cells.index(head)
        elif not line.startswith("|"):
            at = None
        elif at is not None:
            yield cells[at]


def bad_laws(text, known):
    told = [names for found in LAWS.findall(text) for names in re.findall(r"`(\w+)`", found)]
    told += [name for cell in columns(text, "law") for name in re.findall(r"`(\w+)`(?!: `)", cell)]
    for name in told:
        if name not in known and not os.path.isdir(f"crates/{name}"):
            yield f"{name} is no law"


def bad_contracts(text, clauses, relations):
    cells = [cell for head in ("contract", "contract on the code") for cell in columns(text, head)]
    for functions, names in (pair for cell in cells for pair in CONTRACT.findall(cell)):
        for function in re.findall(r"(\w+)`", functions):
            if function not in clauses:
                yield f"no function {function}"
                continue
            for name in re.findall(r"`(\w+)`", re.sub(r"\([^)]*\)", "", names)):
                if name not in clauses[function] and name not in relations and name not in clauses:
                    yield f"{function} has no clause {name}"


def bad_crates():
    known, seen = set(crates()), set()
    for crate, words in crates().items():
        seen.add(crate)
        for it in sorted(known.intersection(words) - seen):
            yield f"crates.txt: {crate} is above {it}, which it uses"
    lines = re.findall(r"^- .*", text_of(CRATES_PAGE).split("\n## ")[1], re.MULTILINE)
    told = {name for line in lines for name in re.findall(r"`(\w+)`(?:, |: )", line)}
    for crate in sorted(known - told):
        if not crate.endswith(("_main", "_tests")):
            yield f"{CRATES_PAGE}: nothing is said of the crate {crate}"
    for crate in sorted(told - known):
        yield f"{CRATES_PAGE}: {crate}, which is no crate"


def bad_calls():
    for call in calls():
        for path, words in (("docs/reference/FORMATS.md", call), ("README.md", call.split(" [--")[0])):
            if f"`{words}`" not in text_of(path):
                yield f"{path}: no program `{words}`"


def bad_versions():
    version = re.search(r'^const VERSION: &str = "([^ "]*)', text_of(VERSION_PAGE), re.MULTILINE)[1]
    for path, words in (
        ("bindings/rust/Cargo.toml", f'version = "{version}"'),
        ("CHANGELOG.md", f"## {version}"),
        ("docs/reference/FORMATS.md", f"`NAME {version} ("),
    ):
        if words not in text_of(path):
            yield f"{path}: no {words}, which is the version in {VERSION_PAGE}"


def faults(document, known_laws, known_contracts):
    text = text_of(document)
    yield from bad_links(document, text)
    yield from bad_names(text)
    yield from bad_counts(text)
    yield from bad_quotations(text)
    yield from bad_tables(text)
    yield from bad_words(text, PLAIN_DOCUMENTS)
    yield from bad_laws(text, known_laws)
    yield from bad_contracts(text, *known_contracts)


def main():
    known_laws, known_contracts = set(laws()), contracts()
    documents = sorted(set(listed("*.md")))
    found = [
        f"{document}: {fault}"
        for document in documents
        for fault in faults(document, known_laws, known_contracts)
    ]
    found += [*bad_length(documents), *bad_bounds(), *bad_crates(), *bad_calls(), *bad_versions(), *bad_comments(), *bad_programs()]
    print(*found, sep="\n", end="\n" if found else "")
    return 1 if found else 0


sys.exit(main())
