"""The key of a script: a sum of what its result depends on, by which test.sh knows that it has passed already.

    keys.py MACHINE SCRIPT       prints the key of tests/SCRIPT.sh, or nothing where there is no git to list the files
    keys.py --files SCRIPT       prints the files that are summed

It works in the folder of the repository. MACHINE is a file that tells of this machine. Summed are the script, tests/lib.sh, the folder
tests/SCRIPT, and what these name, and so on: files and folders by their path, a program by its name (`drat_check`, the one that is built),
a module of Python by its import, a header by its name. Comments name nothing, and a folder directly below the repository is named by

    # needs: PATH ..

alone, where `programs` are those that are built, and `all` is each file, with them and what the proof has left beside them. For commands of optional.txt that are named, it's summed which ones the path gives.
Proofs and wrong bodies are no file that a script reads, unless it needs `all` or names them.
"""

import hashlib
import os
import re
import shutil
import subprocess
import sys

FOLDERS = "benches|bindings|crates|debian|dist|docs|lib|packaging|tests|tools"
NAMED = re.compile(rf"(?<![\w.-])(?:{FOLDERS})/[\w./+-]*")
NEEDS = re.compile(r"(?m)^# needs: (.*)$")
PYTHON = re.compile(r"#!.*python")
IMPORT = re.compile(r"(?m)^\s*(?:import|from) ([\w., ]+)")
INCLUDE = re.compile(r'(?m)^\s*#\s*include ["<]([^">]+)')
WORD = re.compile(r"(?<![\w.])\w[\w+-]*")
UNREAD = re.compile(r"crates/[^/]+/(proofs|wrong-bodies)/")
# Tools that are named by their paths alone, since their names are common words.
BY_PATH = {"changed", "kept", "pages"}
BESIDE = ("o", "bc", "bc.words")
OPTIONAL = os.path.join(os.path.dirname(os.path.abspath(__file__)), "optional.txt")


def listed():
    """The files of the repository, without what is built; None if git can't tell."""
    call = ["git", "ls-files", "-z", "--cached", "--others", "--exclude-standard"]
    try:
        told = subprocess.run(call, capture_output=True, check=True).stdout
    except (OSError, subprocess.CalledProcessError):
        return None
    return sorted({it for it in os.fsdecode(told).split("\0") if os.path.isfile(it)})


def read(path):
    with open(path, "rb") as file:
        return file.read()


def code_of(path):
    """The text that names files: without comments, and nothing of data, whose words name none."""
    text = read(path).decode("utf-8", "replace")
    if path.endswith((".c", ".cpp", ".h", ".hpp")):
        return "\n".join(f"#include <{it}>" for it in INCLUDE.findall(text))
    if path.endswith((".sh", ".py")) or text.startswith("#!"):
        return re.sub(r"(?m)^\s*#(?! needs: ).*$", "", text)
    if path.startswith("tests/") and path.endswith((".rows", ".runs")):
        return "\n".join(re.findall(r"(?m)^call \w+", text))
    return ""


class Key:
    """The files that one script depends on, and the commands of others."""

    def __init__(self, script, files):
        self.files, self.found, self.commands = files, set(), set()
        self.programs = sorted(it[: -len("_main")] for it in os.listdir("crates") if it.endswith("_main")) if os.path.isdir("crates") else []
        with open(OPTIONAL, encoding="utf-8") as file:
            self.optional = {line.split()[0] for line in file if not line.startswith("#")}
        self.of_git = False
        self.own = f"tests/{script}.sh"
        self.todo = [self.own, "tests/lib.sh", *(it for it in files if it.startswith(f"tests/{script}/"))]
        while self.todo:
            self.take(self.todo.pop())

    def take(self, path):
        if path in self.found or not os.path.isfile(path):
            return
        self.found.add(path)
        # (test.sh names each script, and no script runs it)
        if path.startswith("crates/") or path == "test.sh":
            return
        code = code_of(path)
        for word in " ".join(NEEDS.findall(code)).split():
            # (of another script that is named, `all` is not meant)
            if word != "all" or path == self.own:
                self.need(word)
        for name in NAMED.findall(code):
            self.name(name.rstrip("./"))
        words = set(WORD.findall(code))
        self.commands |= words & self.optional
        for program in self.programs:
            if program in words or f"{program}_main" in words:
                self.program(program)
        self.todo += [it for it in self.files if "/" not in it and it in code]
        if path.startswith("tools/") or re.search(r"(?m)\bon_path |\btools\b", code):
            self.todo += [it for it in self.files if re.fullmatch(r"tools/\w+", it) and it[len("tools/") :] in words - BY_PATH]
        if path.endswith(".py") or PYTHON.match(code):
            for module in {it.strip(" .").replace(".", "/") for names in IMPORT.findall(code) for it in re.split(r",| import ", names)}:
                beside = os.path.join(os.path.dirname(path), f"{module}.py")
                others = (f"/{module}.py", f"lib/{module}/__init__.py")
                self.todo += [beside] if os.path.isfile(beside) else [it for it in self.files if it.endswith(others)]
        for header in INCLUDE.findall(code):
            self.todo += [it for it in self.files if os.path.basename(it) == os.path.basename(header)]
        self.of_git = self.of_git or re.search(r"(?<![\w./])git (?!ls-files)", code) is not None

    def name(self, name):
        """A path in a text: a file, all files of a folder, or those whose paths begin so."""
        if os.path.isfile(name):
            self.todo.append(name)
        elif "/" in name and not name.startswith("crates/") or name.count("/") > 1:
            self.todo += self.in_folder(name) or [it for it in self.files if it.startswith(name)]

    def in_folder(self, name):
        return [it for it in self.files if it.startswith(f"{name}/") and not UNREAD.match(it)]

    def need(self, word):
        if word in ("programs", "all"):
            for program in self.programs:
                self.program(program)
        if word == "all":
            self.todo += self.files + [f"crates/{it}_main/out/{it}_main.{end}" for it in self.programs for end in BESIDE]
        self.todo += [word, *self.in_folder(word)]

    def program(self, name):
        self.todo.append(f"crates/{name}_main/out/{name}_main")

    def sum(self, machine):
        key = hashlib.sha256(read(machine))
        for path in sorted(self.found):
            mode = os.stat(path).st_mode & 0o777
            key.update(f"{path} {mode:o} {hashlib.sha256(read(path)).hexdigest()}\n".encode())
        for name in sorted(self.commands):
            path = shutil.which(name)
            told = os.stat(path) if path else None
            key.update(f"{name} {path} {told and (told.st_size, told.st_mtime_ns)}\n".encode())
        if self.of_git:
            key.update(subprocess.run(["git", "rev-parse", "HEAD"], capture_output=True, check=True).stdout)
        return key.hexdigest()


def main():
    files = listed()
    if files is None:
        return 0
    key = Key(sys.argv[2], files)
    if sys.argv[1] == "--files":
        print(*sorted(key.found), sep="\n")
    else:
        print(key.sum(sys.argv[1]))
    return 0


sys.exit(main())
