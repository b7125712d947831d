"""Writes docs/DEFINITIONS.md: what `s VERIFIED UNSAT` means, as one page of the definitions that `IsRefuted` reaches; and what the
lines of claims mean, by the definitions that theirs reach beyond these.

    python3 docs/definitions_page.py             writes the page
    python3 docs/definitions_page.py --check     says whether the page is the one that would be written, and writes nothing

A name is looked up as its file has it: declared there, or by its lines `use`. A constructor stands for its whole data type. Of the
lines of claims, how a formula is read does not stand there again.
"""

import os
import re
import sys

os.chdir(os.path.join(os.path.dirname(os.path.abspath(__file__)), ".."))
PAGE = "docs/DEFINITIONS.md"
FIRST = ("crates/sat_formula/specs/Refuted.antt", "IsRefuted")
CLAIMS = {
    "FOLLOWS": ("crates/follows_check/specs/Texts.antt", "FollowsText"),
    "NOT FOLLOWS": ("crates/follows_check/specs/Texts.antt", "NotFollowsText"),
    "MINIMAL": ("crates/follows_check/specs/Minimal.antt", "IsMinimalText"),
    "UNSAT BY N RECEIPTS": ("crates/join_check/specs/Texts.antt", "IsRefutedByReceipts", "IsRefutedByParts"),
    "NEVER": ("crates/circuit_check/specs/Claims.antt", "IsNeverText"),
    "SAME": ("crates/circuit_check/specs/Claims.antt", "IsSameText"),
    "POSSIBLE": ("crates/circuit_check/specs/Claims.antt", "IsPossibleText"),
    "DIFFERENT": ("crates/circuit_check/specs/Claims.antt", "AreDifferentText"),
    "SAFE": ("crates/circuit_check/specs/Claims.antt", "IsSafeText"),
    "REACHED": ("crates/circuit_check/specs/Claims.antt", "IsReachedText"),
}
# What is not followed: what a formula's text is read as.
READ = "crates/sat_formula/specs/"

DECLARED = re.compile(r"(?:abbrev|unfoldable) pub (\w+) :|pub (?:data|record) (\w+)\b")
CONSTRUCTOR = re.compile(r"  (\w+) : ")
USED = re.compile(r"^use Rattle\.(\w+)\.specs\.(\w+)\.\{([^}]*)\}", re.MULTILINE)
NAME = re.compile(r"[A-Za-z_]\w*")
VARIANT = re.compile(r"^    (\w+)(\([^)]*\))?,$", re.MULTILINE)

HEAD = """# What `s VERIFIED UNSAT` means, whole

This page is all that the line claims: the {count} definitions that `IsRefuted` reaches, {lines} lines with their comments. \
`docs/definitions_page.py` makes it. What is proved about the claim, and what you trust, is in \
[TRUST.md](TRUST.md). `docs/definitions.py` has the same definitions in Python, to run on your own texts, and `docs/definitions.v` \
for Coq.

## Notation

| written | is |
|---|---|
| `f : A → B → C` | the type of a function from an `A` and a `B` to a `C`; `f x y` is its value |
| `abbrev pub f`, `unfoldable pub f` | a definition, by the equations below it, one for each form of the arguments |
| `ℕ`, `Bool`, `Option A` | the numbers 0, 1, 2 and so on; `true` or `false`; `None`, or `Some` of an `A` |
| `List A`, `[]`, `x ∷ xs`, `xs ++ ys` | lists; the empty list; `x` in front of the list `xs`; two lists, concatenated |
| `λ x. E` | the function from `x` to `E` |
| `A × B`, `(x, y)`, `o.0`, `o.1` | pairs: the type, a pair, its two parts |
| `A ⊎ B`, `⊥` | one of the two at least; what has no proof |
| `(x : A) × P` | there is an `x` with the property `P`. The proof contains it |
| `(x : A) → P` | every `x` has the property `P` |
| `x ≡ y` | a claim: both are equal. `x == y` compares two numbers and is `true` or `false` |
| `data T where A : T` | a type with only the values listed below it |
| `m / 2`, `m % 2`, `2 ^ 28`, `m - n` | quotient, remainder, power, and difference, which is 0 if `n` is greater |

From the library: `list_any p xs` and `list_all p xs`: some element, every element passes the test `p`. `filter p xs`: the elements that \
pass; `find p xs`: the first that passes. `slice_split p xs`: `xs` split at the elements that pass `p`. `codes "cnf"`: the bytes of the \
word; `bytes_eq`: both lists are equal. `nat_lt m n`, `nat_le m n`: `m < n`, `m ≤ n`. `Token` and `DimacsKind` are enums of the \
reader's code:

{enums}
A literal is a code: twice the index of its variable, plus 1 if it is negative. An assignment maps each index to `true` or `false`.

## The definitions
"""

CLAIMS_HEAD = """
# What the lines of claims mean

Each is the definition in its contract, with all that it reaches and that is not above, except how the header of a formula is read, by \
`crates/sat_formula/specs/Lies.antt`. A record holds if all its fields do; a field that is no claim, as `clauses`, exists.
"""


def text_of(path):
    with open(path, encoding="utf-8") as file:
        return file.read()


class File:
    """A file of definitions: its definitions in their order, with their comments, and where the names in it come from."""

    def __init__(self, path):
        self.path, self.definitions, self.homes, self.constructors = path, {}, {}, {}
        text = text_of(path)
        for crate, module, names in USED.findall(text):
            for name in re.split(r",\s*", names):
                self.homes[name] = f"crates/{crate}/specs/{module}.antt"
        for paragraph in re.split(r"\n\n+", text):
            declared = [it for it in map(DECLARED.match, paragraph.splitlines()) if it]
            if len(declared) > 1:
                sys.exit(f"{path}: no blank line between definitions: {paragraph}")
            if declared:
                name = declared[0][1] or declared[0][2]
                self.definitions[name] = paragraph.strip("\n")
                self.homes[name] = path
                for constructor in map(CONSTRUCTOR.match, paragraph.splitlines()):
                    if constructor and declared[0][2]:
                        self.constructors[constructor[1]] = name

    def home(self, name, files):
        """The file and the definition that a name stands for here, if it is of the repository."""
        path = self.path if name in self.constructors else self.homes.get(name)
        if path is None or not os.path.exists(path):
            return None
        if path not in files:
            files[path] = File(path)
        return path, files[path].constructors.get(name, name)


def reached(files, first, is_left_out=lambda path: False):
    """All definitions that the first one reaches, by their files in the order in which these are met."""
    found, left = [], [first]
    files.setdefault(first[0], File(first[0]))
    while left:
        at = left.pop(0)
        if at in found or is_left_out(at[0]):
            continue
        found.append(at)
        path, name = at
        code = "\n".join(line for line in files[path].definitions[name].splitlines() if not line.startswith("--"))
        left += [home for word in NAME.findall(code) if (home := files[path].home(word, files))]
    return found


def enum(path, name):
    """The variants of an enum, on one line."""
    body = re.search(rf"enum {name} \{{\n(.*?)\n\}}", text_of(path), re.DOTALL)[1]
    variants = ", ".join(variant + fields for variant, fields in VARIANT.findall(body))
    return f"- `{name}`, in `{path}`: `{variants}`\n"


def claims(files, above):
    """A part for each line of a claim, with the definitions that are not above it."""
    found = set(above)
    for line, (home, *names) in CLAIMS.items():
        yield f"\n## `s VERIFIED {line}`\n"
        every = (it for name in names for it in reached(files, (home, name), lambda path: path.startswith(READ)))
        new = [it for it in dict.fromkeys(every) if it not in found]
        found.update(new)
        for path in dict.fromkeys(path for path, _ in new):
            mine = [text for name, text in files[path].definitions.items() if (path, name) in new]
            yield f"\n`{path}`:\n\n```text\n" + "\n\n".join(mine) + "\n```\n"


def page():
    files = {}
    found = reached(files, FIRST)
    blocks = []
    lines = 0
    for path in dict.fromkeys(path for path, _ in found):
        mine = [text for name, text in files[path].definitions.items() if (path, name) in found]
        lines += sum(len(text.splitlines()) for text in mine)
        others = len(files[path].definitions) - len(mine)
        more = f" Not reached: {others} more." if others else ""
        blocks.append(f"\n`{path}`:{more}\n\n```text\n" + "\n\n".join(mine) + "\n```\n")
    blocks += [CLAIMS_HEAD, *claims(files, found)]
    enums = enum("crates/sat_formula/src/word.rt", "Token") + enum("crates/sat_formula/src/fault.rt", "DimacsKind")
    return HEAD.format(count=len(found), lines=lines, enums=enums) + "".join(blocks)


def main(words):
    made = page()
    if words == ["--check"]:
        if not os.path.exists(PAGE) or text_of(PAGE) != made:
            print(f"{PAGE} is out of date: run docs/definitions_page.py")
            return 1
        return 0
    if words:
        print(__doc__)
        return 2
    with open(PAGE, "w", encoding="utf-8") as file:
        file.write(made)
    return 0


if __name__ == "__main__":
    sys.exit(main(sys.argv[1:]))
