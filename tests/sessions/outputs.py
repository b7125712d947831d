#!/usr/bin/env python3
"""Each file that `sessions` and `proof_picture` read, given as each file that they write, by every kind of name: none changes.

outputs.py TOOLS
"""

import gzip
import os
import subprocess
import sys
import tempfile

ICNF = "p icnf\ni 1 0\nq -1 0\ns UNSATISFIABLE\n"
IDRUP = "p idrup\ni 1 0\nq -1 0\ns UNSATISFIABLE\nu -1 0\n"
LIDRUP = "p lidrup\ni 1 1 0\nq -1 0\ns UNSATISFIABLE\nu -1 0 1 0\n"
CNF = "p cnf 1 2\n1 0\n-1 0\n"
LRAT = "3 0 1 2 0\n"
WRITTEN = ("session.cnf", "session.drat", "session.lrat", "models.cnf", "models.answer")

# Of each call the texts that it reads, packed or not, its words before and behind their names, and the names that it writes in a folder.
CALLS = {
    "sessions write, IDRUP": (["sessions", "write"], [ICNF, IDRUP], ["{0}"], [it for it in WRITTEN if it != "session.lrat"]),
    "sessions write, LIDRUP": (["sessions", "write"], [ICNF, LIDRUP], ["{0}"], [it for it in WRITTEN if it != "session.drat"]),
    "sessions write, packed": (["sessions", "write"], [gzip.compress(ICNF.encode()), gzip.compress(IDRUP.encode())], ["{0}"], [it for it in WRITTEN if it != "session.lrat"]),
    "proof_picture": (["proof_picture"], [CNF, LRAT], ["{0}/out.svg"], ["out.svg"]),
}
# What leaves a file where it is, and gives it another name.
WAYS = {
    "the name itself": None,
    "a hard link": os.link,
    "a link": lambda file, name: os.symlink(os.path.abspath(file), name),
    "a link to a link": lambda file, name: (os.symlink(os.path.abspath(file), f"{name}.link"), os.symlink(f"{os.path.abspath(name)}.link", name)),
}


def read(name):
    with open(name, "rb") as file:
        return file.read()


def bytes_of(text):
    return text if isinstance(text, bytes) else text.encode()


def put(name, text):
    with open(name, "wb") as file:
        file.write(bytes_of(text))


def names_of(texts):
    """The names of inputs: that of a packed one says so."""
    return [name + ".gz" * isinstance(text, bytes) for name, text in zip(("first", "second"), texts)]


class Tried:
    def __init__(self, tools):
        self.tools, self.wrong, self.count = tools, 0, 0

    def call(self, words):
        return subprocess.run([sys.executable, "-SB", os.path.join(self.tools, words[0]), *words[1:]], capture_output=True, text=True)

    def one(self, call, which, way, name, folder):
        """The input of this number is what the output of this name leads to."""
        words, texts, rest, _ = CALLS[call]
        os.mkdir("out")
        given = names_of(texts)
        for file, text in zip(given, texts):
            put(file, text)
        if WAYS[way] is None:
            os.rename(given[which], f"out/{name}")
            given[which] = f"out/{name}"
        else:
            WAYS[way](given[which], f"out/{name}")
        ran = self.call([*words, *given, *(it.format(folder) for it in rest)])
        self.count += 1
        kept = [read(file) == bytes_of(text) for file, text in zip(given, texts)]
        extra = sorted(set(os.listdir("out")) - {name, f"{name}.link"})
        if ran.returncode != 2 or ran.stdout or not ran.stderr.startswith("cannot write ") or not all(kept) or extra:
            self.wrong += 1
            print(f"{call}, input {which + 1} as {name}, by {way}, in {folder}: status {ran.returncode}, {ran.stderr}{kept} {extra}")

    def aside(self, call):
        """Files beside an output stay, and a device that an output leads to is written in place."""
        words, texts, rest, names = CALLS[call]
        os.mkdir("out")
        for file, text in zip(names_of(texts), texts):
            put(file, text)
        for name in names:
            put(f"out/{name}.new", "mine")
        ran = self.call([*words, *names_of(texts), *(it.format("out") for it in rest)])
        made = sorted(os.listdir("out"))
        mine = [read(f"out/{name}.new") for name in names if f"{name}.new" in made]
        if ran.returncode != 0 or set(mine) != {b"mine"} or made != sorted([*names, *(f"{it}.new" for it in names)]):
            self.wrong += 1
            print(f"{call}, files beside the output: status {ran.returncode}, {ran.stderr}{mine} {made}")
        for name in names:
            os.remove(f"out/{name}")
            os.symlink("/dev/null", f"out/{name}")
        ran = self.call([*words, *names_of(texts), *(it.format("out") for it in rest)])
        left = {os.readlink(f"out/{name}") for name in names if os.path.islink(f"out/{name}")}
        if ran.returncode != 0 or len(os.listdir("out")) != 2 * len(names) or left != {"/dev/null"}:
            self.wrong += 1
            print(f"{call}, links to a device: status {ran.returncode}, {ran.stderr}{os.listdir('out')}")


def main(tools):
    tried = Tried(os.path.abspath(tools))
    for call, (_, texts, _, names) in CALLS.items():
        ways = [it for it in WAYS if WAYS[it] or isinstance(texts[0], str)]
        rows = [(call, which, way, name, folder) for which in range(len(texts)) for way in ways for name in names for folder in ("out", "./out/../out")]
        for row in rows:
            with tempfile.TemporaryDirectory() as work:
                os.chdir(work)
                tried.one(*row)
        with tempfile.TemporaryDirectory() as work:
            os.chdir(work)
            tried.aside(call)
    os.chdir("/")
    print(f"{tried.count} inputs as outputs, {tried.wrong} wrong")
    return tried.wrong > 0 or not tried.count


sys.exit(main(*sys.argv[1:]))
