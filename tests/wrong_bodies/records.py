"""Records of wrong bodies: over what each was tried, and what refused it.

`wrong-bodies/REFUSED` of a crate has these lines:

    crate SUM          over the words of the crate's src and specs
    below SUM          over what the crate's check can see of crates below: contracts that its src may call, and definitions
    clause SUM NAME    a body that a clause of the contract refuses, with a sum over its own words
    proof SUM NAME     a body that only a written proof refuses

Tests of the crate's own, `src/tests.rt` and `src/tests/`, are left out, with the lines that declare them: no wrong body rests on
them. `sources.py` tells what words are, and what is seen below: no body, and of an import the name with its module.
"""

import hashlib
import os
import re

from sources import ROOT, files_in, seen_below, sources_of, text_of, words_in, words_of


def bodies(crate):
    """The wrong bodies of a crate, each with its name: a paragraph of `wrong-bodies.txt` below its heading."""
    paragraphs = re.split(r"(?m)^# ", text_of(f"{crate}/wrong-bodies/wrong-bodies.txt"))[1:]
    return sorted((head.strip(), text) for head, _, text in (it.partition("\n") for it in paragraphs))


def crates_with_wrong_bodies():
    names = sorted(os.listdir(f"{ROOT}/crates"))
    return [it for it in names if os.path.isdir(f"{ROOT}/crates/{it}/wrong-bodies")]


def sum_over(words):
    """A sum over the words of places, by their names."""
    total = hashlib.sha256()
    for place in sorted(words.items()):
        total.update(repr(place).encode())
    return total.hexdigest()


def sum_of_crate(crate):
    """A sum over what is proved of a crate, not over how, so a change of proofs alone keeps it."""
    found = sources_of(crate) + files_in(f"{crate}/specs")
    return sum_over({os.path.relpath(it, crate): words_of(it) for it in found})


def sum_below(crate):
    return sum_over(seen_below(crate))


def sums_of_bodies(crate):
    return {name: sum_over({name: words_in(text)})[:16] for name, text in bodies(crate)}


class Record:
    """What is noted of a crate's wrong bodies: a kind and a sum for each."""

    def __init__(self, crate):
        self.crate, self.own, self.below, self.noted = crate, None, None, {}
        if os.path.exists(self.path()):
            with open(self.path(), encoding="utf-8") as file:
                for line in file:
                    self.read(*line.split())

    def path(self):
        return f"{self.crate}/wrong-bodies/REFUSED"

    def read(self, kind, found, name=None):
        if kind == "crate":
            self.own = found
        elif kind == "below":
            self.below = found
        else:
            self.noted[name] = (kind, found)

    def is_of_crate(self):
        return self.own == sum_of_crate(self.crate)

    def is_of_below(self):
        return self.below == sum_below(self.crate)

    def lacking(self):
        """The names of the wrong bodies that are not noted as they are now."""
        sums = sums_of_bodies(self.crate)
        return [name for name, found in sums.items() if self.noted.get(name, ("", ""))[1] != found]

    def is_whole(self):
        """Whether it is of the crate and its wrong bodies as they are now, of each and no other."""
        return self.is_of_crate() and not self.lacking() and len(self.noted) == len(bodies(self.crate))

    def note(self, kinds):
        """Notes the kind of each body that was tried: of some where the crate is that of the record, or else of all."""
        sums = sums_of_bodies(self.crate)
        if not self.is_of_crate() or kinds.keys() == sums.keys():
            self.own, self.below, self.noted = sum_of_crate(self.crate), sum_below(self.crate), {}
        self.noted.update({name: (kind, sums[name]) for name, kind in kinds.items()})
        self.noted = {name: of for name, of in self.noted.items() if name in sums}
        self.write()

    def write(self):
        with open(self.path(), "w", encoding="utf-8") as to:
            to.write(f"crate {self.own}\nbelow {self.below}\n")
            to.writelines(f"{kind} {found} {name}\n" for name, (kind, found) in sorted(self.noted.items()))
