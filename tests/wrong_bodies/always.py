"""The wrong bodies that each test run tries: those of `always.txt`, a line `CRATE NAME` each.

The gate has proved their crates just before, and has left the libraries below. So a function that a copy calls is not proved again:
where the copies are tried its proof is a hole, and the check takes it by its contract. That an unchanged copy is proved was tried for
the record, and the record is of the same text.
"""

import concurrent.futures
import functools
import os
import re
import shutil
import tempfile

import kinds
import toolchain
from functions import NoCopy, WrongBody, functions, types_of
from judging import judge, read_judgements
from records import bodies
from sources import ROOT, files_in, sources_of

HOLE = """use Rattle.{crate}.proofs.{path}.Statement.{{statement}}

pub {name}_spec : {{M : Type 1}} → statement M
{name}_spec = ?
"""


def listed():
    """The names by crate."""
    found = {}
    with open(f"{ROOT}/tests/wrong_bodies/always.txt", encoding="utf-8") as file:
        for line in file:
            if not line.startswith("#"):
                crate, name = line.split()
                found.setdefault(crate, []).append(name)
    return found


def missing():
    """Those that no crate has."""
    there = {crate: dict(bodies(f"{ROOT}/crates/{crate}")) for crate in listed()}
    return [f"{crate}/{name}" for crate, names in listed().items() for name in names if name not in there[crate]]


def place(crate, names):
    """The wrong bodies as they are placed in the crate; those that can't be say why."""
    texts, wrongs = dict(bodies(crate)), []
    for number, name in enumerate(names):
        wrong = WrongBody(name, texts.get(name, ""), number)
        wrongs.append(wrong)
        try:
            if name not in texts:
                raise NoCopy("it is not there")
            if wrong.only:
                wrong.place_alone(crate)
            else:
                wrong.place(crate)
        except NoCopy as why:
            wrong.said, wrong.name = f"not judged: {why}", None
    return wrongs


def cited(crate, room):
    """Where proofs are of which files of other functions name more than the theorem."""
    named, found = re.compile(rf"use Rattle\.{crate}\.proofs\.([\w.+]+)\.(?:Answers|Invariants|Goals|Given|Code)\b"), set()
    for file in files_in(f"{room}/proofs"):
        own = os.path.relpath(os.path.dirname(file), f"{room}/proofs")
        with open(file, encoding="utf-8") as source:
            found.update(it.replace(".", "/") for it in named.findall(source.read()) if it.replace(".", "/") != own)
    return found


def write_holes(crate, names, room):
    """Puts a hole in place of the proof of each function except these, and except where other proofs name what is written there."""
    kept, types = cited(crate, room), types_of(room)
    for file in sources_of(room):
        with open(file, encoding="utf-8") as source:
            lines = source.read().split("\n")
        for function in functions(lines):
            if function.name in names or not function.is_plain() or function.calls_itself(lines):
                continue
            place = function.place(os.path.relpath(file, room), types)
            if place in kept:
                continue
            shutil.rmtree(f"{room}/proofs/{place}", ignore_errors=True)
            os.makedirs(f"{room}/proofs/{place}")
            with open(f"{room}/proofs/{place}/Proof.antt", "w", encoding="utf-8") as to:
                to.write(HOLE.format(crate=crate, path=place.replace("/", "."), name=function.name))


def check(crate, names, room, alone, jobs=1):
    """Checks the copies, and beside them those that are no copies, which nothing here calls: each is changed where it is."""
    asked = names + [it.name for it in alone]
    write_holes(os.path.basename(crate), {it.rpartition("::")[2] for it in asked}, room)
    for file, old, new in (edit for it in alone for edit in it.edits):
        with open(f"{room}/{file}", encoding="utf-8") as source:
            text = source.read()
        with open(f"{room}/{file}", "w", encoding="utf-8") as to:
            to.write(text.replace(old, new))
    told = toolchain.check_past_holes(crate, asked, room, jobs)
    read_judgements(told, alone)
    return told


def try_crate(name, names, jobs):
    """The wrong bodies of this crate, each with what the check says of it."""
    crate = f"{ROOT}/crates/{name}"
    toolchain.build_below(crate)
    wrongs = place(crate, names)
    copies = [it for it in wrongs if it.name and not it.only]
    alone = [it for it in wrongs if it.name and it.only]
    with tempfile.TemporaryDirectory(prefix="wrong-bodies-") as room:
        if copies:
            judge(crate, copies, room, functools.partial(check, alone=alone, jobs=jobs))
        elif alone:
            toolchain.copy_crate(crate, room)
            check(crate, [], room, alone, jobs)
    return wrongs


def try_all():
    """Tries all of the list, in one check for each crate, which has as many jobs as is its share, and answers whether each was refused."""
    jobs, asked = int(os.environ.get("RT_JOBS", os.cpu_count() or 1)), listed()
    count = sum(map(len, asked.values()))
    with concurrent.futures.ThreadPoolExecutor(jobs) as pool:
        begun = {name: pool.submit(try_crate, name, names, -(-jobs * len(names) // count)) for name, names in asked.items()}
        tried = [(name, it) for name, wrongs in begun.items() for it in wrongs.result()]
    bad = [(name, it) for name, it in tried if not kinds.is_refused_past_holes(it)]
    for name, it in bad:
        print(f"{name}/{it.label}: NOT REFUSED: {(it.said or 'no line')[:300]}")
    print(f"{len(tried) - len(bad)} of {len(tried)} wrong bodies refused")
    return not bad
