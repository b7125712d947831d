"""What documents are compared with: crates, laws, contracts, definitions and calls, as the sources have them."""

import collections
import os
import re
import subprocess

USES = re.compile(r"^use Rattle\.(\w+)\.specs\.(\w+)", re.MULTILINE)
FUNCTION = re.compile(r"^\s*(?:pub(?:\([a-z]+\))? )?(?:extern \"C\" )?fn (\w+)")
CLAUSE = re.compile(r"^\s*ensures\*? (\w+) \{", re.MULTILINE)
RELATION = re.compile(r"^\s*ghost (\w+) =")
CALL = re.compile(r'^    call: "(.*)",$', re.MULTILINE)
LAW = re.compile(r"^pub fn (\w+)", re.MULTILINE)
BARE_LAW = re.compile(r"^pub fn (\w+)\(\)$", re.MULTILINE)


def listed(pattern):
    """The files that git has by a pattern."""
    return subprocess.run(["git", "ls-files", pattern], capture_output=True, text=True, check=True).stdout.split()


def text_of(path):
    with open(path, encoding="utf-8") as file:
        return file.read()


def lines_of(path):
    return text_of(path).count("\n")


def cited(path, seen):
    """The definitions of the repository on which a file of definitions rests, with their lines."""
    if path in seen or not os.path.exists(path):
        return seen
    seen[path] = lines_of(path)
    for crate, module in USES.findall(text_of(path)):
        cited(f"crates/{crate}/specs/{module}.antt", seen)
    return seen


def laws():
    """The laws of all crates: the functions of `laws.rt` with their named clauses, and the functions elsewhere that take
    and answer nothing."""
    for path in listed("crates/*/src/*.rt"):
        for form in (LAW, CLAUSE) if path.endswith("/laws.rt") else (BARE_LAW,):
            yield from form.findall(text_of(path))


def contracts():
    """The names of functions, each with the names of the clauses of all functions of that name; and the relations that
    implementations of traits have."""
    clauses, relations = collections.defaultdict(set), set()
    for path in listed("crates/*/src/*.rt"):
        function = None
        for line in text_of(path).splitlines():
            if begun := FUNCTION.match(line):
                function = begun.group(1)
                clauses[function].update(())
            elif named := CLAUSE.match(line):
                clauses[function].add(named.group(1))
            elif related := RELATION.match(line):
                relations.add(related.group(1))
    return clauses, relations


def calls():
    """How each program says that it is called."""
    return [call for path in listed("crates/*_main/src/about.rt") for call in CALL.findall(text_of(path))]


def crates():
    """The crates of `crates.txt`, in its order, each with the words of its line."""
    return {name: words.split() for name, words in re.findall(r"^(\w+)[^#\n:]*:([^#\n]*)", text_of("crates.txt"), re.MULTILINE)}
