"""Tries every input of `cubes` or `pieces` as each of its outputs: each call must be refused, and no file may change.

overwrites.py cubes|pieces

An input is an output by its own name, also with `./` and by way of another folder, where the folder is `.`, by a hard link, by a symbolic
link, as a link to the output, and on standard input; and packed, by links. It is tried in a folder that an earlier call wrote, and in one that no call did.
"""

import functools
import gzip
import itertools
import multiprocessing
import os
import shutil
import sys
import tempfile

FORMULA = "c by two\np cnf 2 4\n1 2 0\n1 -2 0\n-1 2 0\n-1 -2 0\n"
# over three variables, with a proof that is cut where five clauses live
LONGER = "".join(f"{a} {b} {c} 0\n" for a in (1, -1) for b in (2, -2) for c in (3, -3))
PROOF = "1 2 0\nd 1 2 3 0\nd 1 2 -3 0\n1 -2 0\nd 1 -2 3 0\nd 1 -2 -3 0\n-1 2 0\nd -1 2 3 0\nd -1 2 -3 0\n-1 -2 0\n1 0\n0\n"
CUBES = "1 0\n-1 0\n"
# The unit is clause 5; with it two of the clauses are against each other. In the closing formula the added ones are.
PART_PROOFS = {"1.lrat": "6 0 5 3 4 0\n", "2.lrat": "6 0 5 1 2 0\n", "closing.lrat": "7 0 5 6 0\n", "1.drat": "0\n", "2.answer": "v 1 2 0\n"}

# Calls, each with its inputs, as they are named in it or found by it, and its outputs.
CUBES_CALLS = (
    ("parts formula cubes f", ("formula", "cubes"), ("1.cnf", "2.cnf", "closing.cnf", "split")),
    ("check formula cubes f 1 2", ("formula", "cubes", "f/1.lrat", "f/1.drat", "f/2.lrat", "f/2.answer"), ("1.receipt", "2.receipt")),
    ("parts formula.gz cubes.gz f", ("formula.gz", "cubes.gz"), ("1.cnf", "2.cnf", "closing.cnf", "split")),
    ("check formula.gz cubes.gz f 1 2", ("formula.gz", "cubes.gz", "f/1.answer.gz", "f/2.drat.gz"), ("1.receipt", "2.receipt")),
)
CUT = ("1.cnf", "2.all", "1.receipt", "7.drat", "count", "cut")
PIECES_CALLS = (
    ("cut formula proof f --lemmas 1", ("formula", "proof"), CUT),
    ("run formula proof f --lemmas 1", ("formula", "proof"), CUT),
    ("run formula proof f --lemmas 1 --memory", ("formula", "proof"), CUT),
    ("check formula f 1", ("formula", "f/1.drat", "f/2.cnf", "f/count"), ("1.receipt",)),
    ("cut formula.gz proof.gz f --lemmas 1", ("formula.gz", "proof.gz"), CUT),
    ("run formula.gz proof.gz f --lemmas 1", ("formula.gz", "proof.gz"), CUT),
    ("run formula.gz proof.gz f --lemmas 1 --memory", ("formula.gz", "proof.gz"), CUT),
    ("check formula.gz f 1", ("formula.gz",), ("1.receipt",)),
)
# Of an input that is found by its place in the folder, or is packed, the name can't be another one.
LINKS = ("hard link", "link")
WAYS = ("own name", "./", "another folder", "folder .", *LINKS, "link to the output")


def read(path):
    with open(path) as file:
        return file.read()


def write(path, text):
    with open(path, "w") as file:
        file.write(text)


def pack(path, into=None):
    with open(into or f"{path}.gz", "wb") as file:
        file.write(gzip.compress(read(path).encode()))


@functools.lru_cache
def script_of(tool):
    """The script of a tool, and the modules that it uses, for all calls of it."""
    script = compile(read(shutil.which(tool)), tool, "exec")
    exec(script, {"__name__": tool, "__file__": shutil.which(tool)})
    return script


def call(tool, words, folder, source=None):
    """The status of a call, and what it wrote to standard output and standard error. One Python makes many of them."""
    script_of(tool)
    with tempfile.TemporaryDirectory() as said:
        child = os.fork()
        if child == 0:
            status = 1
            try:
                for number, name in (1, "out"), (2, "err"):
                    os.dup2(os.open(f"{said}/{name}", os.O_CREAT | os.O_WRONLY), number)
                os.dup2(os.open(source or os.devnull, os.O_RDONLY), 0)
                os.chdir(folder)
                sys.argv = [tool, *words]
                exec(script_of(tool), {"__name__": "__main__", "__file__": shutil.which(tool), "__doc__": ""})
            except SystemExit as ended:
                status = ended.code
            finally:
                sys.stdout.flush()
                os._exit(status)
        status = os.waitstatus_to_exitcode(os.waitpid(child, 0)[1])
        return status, read(f"{said}/out"), read(f"{said}/err")


def furnish(tool, folder):
    """What is tried on: inputs, and what calls made of them."""
    for name, text in ("formula", FORMULA if tool == "cubes" else LONGER), ("cubes", CUBES), ("proof", PROOF):
        write(f"{folder}/{name}", text)
    os.mkdir(f"{folder}/f")
    for name in ("formula", "cubes", "proof"):
        pack(f"{folder}/{name}")
    if tool == "cubes":
        for name, text in PART_PROOFS.items():
            write(f"{folder}/f/{name}", text)
        for name, text in ("1.answer", PART_PROOFS["2.answer"]), ("2.drat", PART_PROOFS["1.drat"]):
            write(f"{folder}/{name}", text)
            pack(f"{folder}/{name}", f"{folder}/f/{name}.gz")
        words = ["parts formula cubes f"]
    else:
        words = ["cut formula proof f --lemmas 1", "check formula f 1 2"]
    for line in words:
        ran = call(tool, line.split(), folder)
        assert ran[0] == 0, ran
    # so that something has to be written
    for name in "1.cnf", "closing.cnf":
        if tool == "cubes":
            os.remove(f"{folder}/f/{name}")


def files(folder):
    """All that is there, with what it holds or where it leads."""
    found = {}
    for at, folders, names in os.walk(folder):
        for name in folders + names:
            path = os.path.join(at, name)
            found[path] = os.readlink(path) if os.path.islink(path) else os.path.isdir(path) or open(path, "rb").read()
    return found


def prepare(folder, words, name, output, way):
    """Makes an input an output. Gives the words of the call, where it is made, and what is its standard input, or nothing if it can't be so."""
    path, target, at, source = f"{folder}/{name}", f"{folder}/f/{output}", folder, None
    if os.path.lexists(target):
        os.remove(target)
    if way == "hard link":
        os.link(path, target)
    elif way == "link":
        os.symlink(path, target)
    else:
        os.rename(path, target)
        named = {"own name": f"f/{output}", "./": f"./f/{output}", "another folder": f"f/../f/{output}", "folder .": output, "standard input": "-"}.get(way)
        if way == "link to the output":
            os.symlink(target, path)
        elif way == "folder .":
            at = f"{folder}/f"
            words = [{name: named, "f": "."}.get(it, f"../{it}" if it in ("formula", "cubes", "proof") else it) for it in words]
        else:
            words = [named if it == name else it for it in words]
            source = target if way == "standard input" else None
    return words, at, source


def try_case(tool, base, line, name, output, way, is_marked):
    """What is wrong, if anything."""
    with tempfile.TemporaryDirectory() as work:
        folder = f"{work}/work"
        shutil.copytree(base, folder)
        for mark in ("split", "cut", "count") if not is_marked and not line.startswith("check") else ():
            if os.path.exists(f"{folder}/f/{mark}"):
                os.remove(f"{folder}/f/{mark}")
        words, at, source = prepare(folder, line.split(), name, output, way)
        before = files(folder)
        status, said, fault = call(tool, words, at, source)
        changed = sorted(os.path.relpath(it, folder) for it, _ in set(before.items()) ^ set(files(folder).items()))
    if status not in (1, 2) or said or fault.count("\n") != 1 or changed:
        return f"{tool} {' '.join(words)}: {name} as {output} by {way}: status {status}, changed: {changed}, it wrote: {said}{fault}"
    return None


def cases(tool):
    for line, inputs, outputs in CUBES_CALLS if tool == "cubes" else PIECES_CALLS:
        for name, output in itertools.product(inputs, outputs):
            ways = LINKS if "/" in name or name.endswith(".gz") else WAYS + (("standard input",) if name == "proof" else ())
            for way, is_marked in itertools.product(ways, (True, False)):
                yield line, name, output, way, is_marked


def main(tool):
    with tempfile.TemporaryDirectory() as base, multiprocessing.Pool(4) as workers:
        furnish(tool, base)
        found = workers.starmap(try_case, [(tool, base, *it) for it in cases(tool)])
    wrong = [it for it in found if it]
    print(*wrong, f"{len(found)} calls of {tool} that would write over an input, {len(wrong)} wrong", sep="\n")
    return 1 if wrong or not found else 0


if __name__ == "__main__":
    sys.exit(main(*sys.argv[1:]))
