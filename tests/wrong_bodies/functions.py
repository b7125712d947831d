"""Functions of a source file, and wrong bodies written as copies of them."""

import os
import re

FUNCTION = re.compile(r"^( *)(?:pub(?:\([^)]*\))? )?(?:const )?(?:unsafe )?fn (\w+)")
TYPE = re.compile(r"(?m)^(?:pub(?:\([^)]*\))? )?(?:struct|enum|union) (\w+)")
BLOCK = re.compile(r"^(?:pub(?:\([^)]*\))? )?(?:unsafe )?(impl|trait|mod)\b(.*)")


class Function:
    """A function in the layout of `rt fmt`: it ends at the first line with its own indentation and a closing brace."""

    def __init__(self, lines, at, block):
        indent, self.name = FUNCTION.match(lines[at]).groups()
        self.at, self.block = at, block
        self.end = next((n for n in range(at, len(lines)) if lines[n] == f"{indent}}}"), None)
        self.opens = None
        if self.end is not None:
            self.opens = self.find_body(lines, indent)
        self.first = at
        while self.first and re.match(rf"{indent}(#\[|//)", lines[self.first - 1]):
            self.first -= 1

    def find_body(self, lines, indent):
        """The line with which its body begins; none of a trait's method without a body, which ends with a semicolon."""
        depth = 0
        for n in range(self.at, self.end + 1):
            if self.opens_at(lines, n, indent):
                return n
            depth += len(re.findall(r"[(\[{]", lines[n])) - len(re.findall(r"[)\]}]", lines[n]))
            if depth == 0 and lines[n].endswith(";"):
                return None
        return None

    def opens_at(self, lines, n, indent):
        """Whether the body begins with this line: the brace alone, or at the end of the signature."""
        line = lines[n]
        in_one = n == self.at and line.endswith("{")
        return line == f"{indent}{{" or in_one or bool(re.match(rf"{indent}\).*\{{$", line))

    def is_of_a_trait(self):
        kind, head = self.block or ("", "")
        return kind == "trait" or kind == "impl" and bool(re.search(r"\bfor\b", head.split("{")[0]))

    def is_plain(self):
        """Whether it is a function of a file, or a method of a type alone."""
        return not self.is_of_a_trait() and (not self.block or self.block[0] != "mod")

    def place(self, file, types):
        """Where in `proofs/` its proof is: by its type, and the module of that, or by its own."""
        owner = None
        if self.block:
            head = self.block[1].split("{")[0].split("where")[0]
            head = re.sub(r"^\s*<(?:[^<>]|<[^<>]*>)*>", "", head).strip()
            owner = re.match(r"[\w:]+", head)[0].split("::")[-1]
        homes = types.get(owner, [file])
        module = re.sub(r"^src/|(/mod)?\.rt$", "", file if file in homes else homes[0])
        return "/".join(it for it in ("" if module in ("lib", "main") else module, owner, self.name) if it)

    def calls_itself(self, lines):
        body = "\n".join(lines[self.opens + 1 : self.end])
        # A plain name in a method is that of a function beside the impl.
        plain = "" if self.block and self.block[0] == "impl" else r"|(?<![\w.:])"
        return bool(re.search(rf"(self\.|Self::{plain}){self.name}\s*(::<[^(]*)?\(", body))


def functions(lines):
    """All functions, each with the block that it stands in, as ('impl', ' Reader')."""
    found, block = [], None
    for at, line in enumerate(lines):
        opened = BLOCK.match(line)
        if opened and not line.endswith(("}", ";")):
            block = (opened[1], opened[2])
        elif line == "}":
            block = None
        elif FUNCTION.match(line):
            found.append(Function(lines, at, block))
    return [it for it in found if it.opens is not None]


def types_of(crate):
    """In which files of a crate types of a name stand."""
    found = {}
    for at, _, names in sorted(os.walk(f"{crate}/src")):
        for name in (it for it in sorted(names) if it.endswith(".rt")):
            with open(f"{at}/{name}", encoding="utf-8") as file:
                for it in TYPE.findall(file.read()):
                    found.setdefault(it, []).append(os.path.relpath(f"{at}/{name}", crate))
    return found


class NoCopy(Exception):
    """Why a wrong body can't be written as a copy of its function."""


class WrongBody:
    """A wrong body: lines 'file:', 'old:' and 'new:', as in a must-fail edit.

    With a line 'only: FUNCTION' it is no copy: the text is changed where it stands, and this function has to be refused. A line
    'right:' behind 'new:' is a right body of the same shape, which has to be proved, as a copy or in place.
    """

    def __init__(self, label, text, number):
        self.label, self.number = label, number
        self.said, self.only, self.right, self.faults = None, None, None, []
        self.pairs, self.rights, file = [], [], None
        for line in text.split("\n"):
            word, _, words = line.partition(":")
            words = words.removeprefix(" ")
            if word == "file":
                file = words.strip()
            elif word == "only":
                self.only = words.strip()
            elif word == "old":
                self.pairs.append((file, words, ""))
                self.rights.append(words)
            elif word == "new":
                self.pairs[-1] = (*self.pairs[-1][:2], words)
            elif word == "right":
                self.rights[-1] = words

    def has_right(self):
        """Whether it comes with a right body of the same shape."""
        return self.rights != [old for _, old, _ in self.pairs]

    def place(self, crate, which="wrong"):
        """Finds the function in which all of it stands, and makes the copy's text: wrong, right or unchanged."""
        self.file = self.pairs[0][0]
        if {file for file, _, _ in self.pairs} != {self.file}:
            raise NoCopy("it changes more than one file")
        with open(f"{crate}/{self.file}", encoding="utf-8") as source:
            text = source.read()
        lines = text.split("\n")
        found = functions(lines)
        holders = {self.holder(text, found, old) for _, old, _ in self.pairs}
        if len(holders) != 1 or None in holders:
            raise NoCopy("it is not in the body of one function")
        function = holders.pop()
        if not function.is_plain():
            raise NoCopy(f"its function is a trait's method or stands in a {function.block[0]}")
        if function.calls_itself(lines):
            raise NoCopy("its function calls itself")
        whole = "\n".join(lines[function.first : function.end + 1])
        for (_, old, new), right in zip(self.pairs, self.rights) if which != "unchanged" else []:
            whole = whole.replace(old, new if which == "wrong" else right)
        self.function = function
        self.name = f"{function.name}_{which}{self.number}"
        head = rf"(?m)^( *(?:pub(?:\([^)]*\))? )?(?:const )?(?:unsafe )?fn ){function.name}\b"
        self.text = re.sub(head, rf"\g<1>{self.name}", whole, count=1)

    def place_alone(self, crate, which="wrong"):
        """Makes the texts of the files that it changes, pair by pair, as the gate does with an edit: wrong or right."""
        rights = [(file, old, right) for (file, old, _), right in zip(self.pairs, self.rights)]
        self.name, self.texts, self.edits = self.only, {}, self.pairs if which == "wrong" else rights
        for file, old, new in self.edits:
            if file not in self.texts:
                with open(f"{crate}/{file}", encoding="utf-8") as source:
                    self.texts[file] = source.read()
            count = self.texts[file].count(old)
            if count != 1 or which == "wrong" and old == new:
                raise NoCopy(f"an old text stands there {count} times, or is not changed")
            self.texts[file] = self.texts[file].replace(old, new)

    @staticmethod
    def holder(text, found, old):
        """The function whose body holds the text, which stands once in the file."""
        if text.count(old) != 1:
            raise NoCopy(f"an old text stands there {text.count(old)} times")
        start = text.index(old)
        first, last = text.count("\n", 0, start), text.count("\n", 0, start + len(old))
        inside = [it for it in found if it.opens <= first and last <= it.end]
        inside = [it for it in inside if it.opens != first or it.opens == it.at or "{" not in old]
        return inside[-1] if inside else None

    def proofs(self, crate):
        """The folder with what is written of the function's proof, if it has one."""
        path = f"{crate}/proofs/{self.function.place(self.file, types_of(crate))}"
        return path if os.path.isdir(path) else None
