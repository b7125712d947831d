"""Sources of the crates as words, without comments and layout, and what a crate's clauses and calls rest on in crates below."""

import functools
import os
import re

from functions import functions

ROOT = os.path.dirname(os.path.dirname(os.path.dirname(os.path.abspath(__file__))))
IMPORT = re.compile(r"(?:pub )?(?:ghost )?use (Rattle\.[\w.]+?)(?:\.\{([^}]*)\}| as (\w+))?;?")
NAME = re.compile(r"[^\W\d]\w*")


def text_of(path):
    with open(path, encoding="utf-8") as file:
        return file.read()


def words_of(path):
    return words_in(text_of(path))


def words_in(text):
    """The words of a text, without comments and layout. Of an import they are each name with the module that it is from."""
    imported, kept = set(), []
    for line in (it.strip() for it in text.split("\n")):
        if line in ("#[cfg(test)]", "mod tests;"):
            continue
        place = IMPORT.fullmatch(line)
        if place:
            imported.update(f"{place[1]}.{it}" for it in (place[2] or place[3] or "").split(", "))
        elif not line.startswith(("//", "--")):
            kept += line.split()
    return sorted(imported) + kept


def files_in(*folders):
    return sorted(f"{at}/{it}" for folder in folders for at, _, names in os.walk(folder) for it in names)


def sources_of(crate):
    """The files of a crate's src, without its own tests."""
    tests = f"{crate}/src/tests"
    return [it for it in files_in(f"{crate}/src") if it != f"{tests}.rt" and not it.startswith(f"{tests}/")]


@functools.lru_cache(maxsize=None)
def uses():
    """The libraries that each crate of `crates.txt` names."""
    lines = [it.split("#")[0].partition(":") for it in text_of(f"{ROOT}/crates.txt").split("\n")]
    return {head.split()[0]: rest.split() for head, _, rest in lines if head.strip()}


def crates_below(name):
    """The repository's crates that this one stands on, as `crates.txt` says."""
    below, waiting = set(), [name]
    while waiting:
        new = [it for it in uses().get(waiting.pop(), []) if it in uses() and it not in below]
        below.update(new)
        waiting += new
    return sorted(below)


def without_own_constants(text, heads):
    """The text without constants of the file's own that neither it nor a head of a function names elsewhere, as texts of messages are."""
    for line, name in re.findall(r"(?m)^((?:const|static) (\w+): .*;)$", text):
        if len(re.findall(rf"\b{name}\b", text + heads)) == 1:
            text = text.replace(f"{line}\n", "")
    return text


class Source:
    """A file of src as crates above see it: its functions that they can call, and the rest without imports and private functions."""

    def __init__(self, path):
        self.path, lines = path, text_of(path).split("\n")
        self.imports = [it.strip() for it in lines if IMPORT.fullmatch(it.strip())]
        self.functions, inside = [], set()
        for function in functions(lines):
            inside.update(range(function.first, function.end + 1))
            if function.is_of_a_trait() or re.match(r" *pub ", lines[function.at]):
                self.functions.append((function, "\n".join(lines[function.first : function.opens + 1])))
        rest, importing = [], False
        for at, line in enumerate(lines):
            importing = importing or bool(re.match(r"\s*(pub )?(ghost )?use ", line))
            if not importing and at not in inside:
                rest.append(line)
            importing = importing and not line.endswith(";")
        self.rest = without_own_constants("\n".join(rest), "".join(head for _, head in self.functions))
        self.names = set(re.findall(r"\b(?:struct|enum|union|trait|type|const|static) (\w+)", self.rest))

    def seen_from(self, called):
        """What stands here of these names, by place: heads of functions, and the types, traits and constants. Functions of a trait
        have no name where they are called, as `?` and `for` show, so they are seen where a type or a trait is."""
        found = {}
        if self.names & called:
            found[self.path] = self.rest
        for function, head in self.functions:
            if function.name in called or function.is_of_a_trait() and self.path in found:
                found[f"{self.path} {(function.block or ('', ''))[1].strip()} {function.name}"] = head
        return found

    def imports_of(self, text):
        """The imports that a text from here needs: those with a name that occurs in it."""
        words = set(re.split(r"[\s(){}\[\],;.]+", text)) | set(NAME.findall(text))
        return [it for it in self.imports if words & set(re.findall(r"[^\s◌{},.;]+", it.partition("{")[2] or it.split(".")[-1]))]


source = functools.lru_cache(maxsize=None)(Source)


def file_of(module):
    """The file of a module that an import names: a definition's, or that of src in which a type is declared. None if it is of the kit."""
    _, crate, kind, *path = module.split(".")
    folder = f"{ROOT}/crates/{crate}"
    if crate not in uses() or kind != "specs":
        return None
    if path[:1] == ["declared"]:
        tries = [f"{folder}/src/{'/'.join(path[1:n])}{end}" for n in range(len(path), 1, -1) for end in (".rt", "/mod.rt")]
        tries += [f"{folder}/src/lib.rt", f"{folder}/src/main.rt"]
    else:
        tries = [f"{folder}/specs/{'/'.join(path[:n])}.antt" for n in range(len(path), 0, -1)]
    return next((it for it in tries if os.path.exists(it)), None)


def cited_by(text):
    """The files of the repository that the imports of a text name."""
    named = (IMPORT.fullmatch(it.strip()) for it in text.split("\n"))
    return {file_of(it[1]) for it in named if it} - {None}


def definitions_below(files):
    """The files of definitions and of declared types that these cite, and those that they cite in turn, with what counts of each."""
    found, waiting = {}, set(files)
    while waiting:
        path = waiting.pop()
        if path in found:
            continue
        if path.endswith(".rt"):
            # (a type that a definition names: its fields and ghost words)
            found[path] = source(path).rest
            waiting |= cited_by("\n".join(source(path).imports_of(found[path])))
        else:
            found[path] = text_of(path)
            waiting |= cited_by(found[path])
    return found


def seen_below(crate):
    """What is below a crate that the check of its functions can see, by place: in each library that it names the contracts of functions
    whose names occur in its src, and the types and traits; and all definitions that these, its own clauses or its specs cite."""
    name = os.path.basename(crate)
    own = sources_of(crate) + files_in(f"{crate}/specs")
    called = {it for path in sources_of(crate) for it in NAME.findall(text_of(path))}
    found, cited = {}, set().union(*(cited_by(text_of(it)) for it in own))
    for library in (it for it in uses()[name] if it in uses()):
        for path in sources_of(f"{ROOT}/crates/{library}"):
            seen = source(path).seen_from(called)
            found.update(seen)
            cited |= cited_by("\n".join(source(path).imports_of("\n".join(seen.values()))))
    for path, text in definitions_below(it for it in cited if not it.startswith(f"{crate}/")).items():
        if not path.startswith(f"{crate}/"):
            found.setdefault(path, text)
    return {os.path.relpath(place, ROOT): words_in(text) for place, text in found.items()}
