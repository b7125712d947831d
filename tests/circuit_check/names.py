#!/usr/bin/env python3
"""Random pairs of circuits with names, and what circuit_check says of these.

names.py PROGRAM COUNT SEED

The symbols of a text are made of a table of names, so how two circuits are paired is known without reading a text. Both are
simulated: inputs of one name have one value, and outputs of one name are compared.
"""
import os
import random
import sys
import tempfile

import aiger
import circuits

NAMES = [b"x", b"y", b"a b", b"i0 x", b"c", b"\xff", b"x y[3]", b"x ", b"0"]
WHICH = ["first", "second"]


def tail(rng, names):
    """Symbols in any order; some positions have a symbol before that does not count."""
    places = [place for place in names if names[place] or rng.random() < 0.5]
    rng.shuffle(places)
    lines = [(place, names[place]) for place in places]
    for place in places:
        if rng.random() < 0.1:
            lines.insert(0, (place, rng.choice(NAMES)))
    said = b"".join(b"%s%d %s\n" % (letter.encode(), k, name) for (letter, k), name in lines)
    return said + rng.choice([b"", b"c\n", b"c\ni0 other\no0 other\n"])


def listed(names, letter):
    """The names of inputs, or of outputs, in their order; an empty one is none."""
    return [names[place] for place in sorted(names) if place[0] == letter]


def tables(rng, inputs, outputs):
    """Names of two circuits: the same ones, in other orders, and then perhaps with one that is changed, or left out; or none."""
    chosen = {letter: rng.sample(NAMES, count) for letter, count in (("i", inputs), ("o", outputs))}
    pair = []
    for _ in WHICH:
        pair.append({(letter, k): name for letter, order in chosen.items() for k, name in enumerate(rng.sample(order, len(order)))})
    kind = rng.randrange(4)
    if kind == 0:
        pair = [dict.fromkeys(names, b"") for names in pair]
    elif kind == 1:
        names = rng.choice(pair)
        names[rng.choice(list(names))] = rng.choice([b"", *NAMES])
    return pair


def fault(pair):
    """Why two tables can't be paired, or None: of inputs the first circuit comes first, of outputs the second one."""
    for letter, kind, order in (("i", "input", (0, 1)), ("o", "output", (1, 0))):
        lists = [listed(names, letter) for names in pair]
        for which in order:
            for k, name in enumerate(lists[which]):
                what = None if name else "has no name"
                if name and name in lists[which][:k]:
                    what = "has the name of an earlier one"
                if what:
                    return f"names: {kind} {k} of the {WHICH[which]} circuit {what}\n"
        among, which = order
        for k, name in enumerate(lists[which]):
            if name not in lists[among]:
                return f"names: {kind} {k} of the {WHICH[which]} circuit has a name that none of the other circuit has\n"
    return None


def by_name(pair, other, inputs):
    """The outputs of the second circuit, in the order of the first one, for these inputs of the first one."""
    first, second = ({letter: listed(names, letter) for letter in "io"} for names in pair)
    of = other.values([inputs[first["i"].index(name)] for name in second["i"]])
    return [of[other.outputs[second["o"].index(name)]] for name in first["o"]]


def by_position(other, inputs):
    of = other.values(inputs)
    return [of[lit] for lit in other.outputs]


def verdict(one, others, inputs):
    """The status and the lines for an answer with these inputs, of which the second circuit has these outputs."""
    outputs = by_position(one, inputs)
    if outputs == others:
        return 3, "s NOT VERIFIED\n"
    shown = [f"i {circuits.digits(inputs)}", f"o {circuits.digits(outputs)}", f"o {circuits.digits(others)}"]
    return 0, "".join(f"{line}\n" for line in ["s VERIFIED DIFFERENT", *shown])


def try_pair(runs, rng):
    """A pair, and the kind of its names."""
    inputs, outputs = rng.randrange(5), rng.randrange(1, 4)
    pair = tables(rng, inputs, outputs)
    both = [circuits.combinational(rng, inputs, outputs) for _ in WHICH]
    for name, c, names in zip(("one", "other"), both, pair):
        runs.put(name, rng.choice([aiger.write, aiger.write_text])(c, tail(rng, names)))
    given = [rng.random() < 0.5 for _ in range(inputs)]
    runs.put("answer", circuits.answer(rng, given).encode())
    words = ["same", runs.path("one"), runs.path("other"), "--answer", runs.path("answer")]
    plain = verdict(both[0], by_position(both[1], given), given)
    runs.expect(f"{pair} by position", runs.run(*words, "--by-position"), (*plain, ""))
    if not any(any(names.values()) for names in pair):
        runs.expect(f"{pair} without names", runs.run(*words), (*plain, circuits.UNNAMED))
        return "unnamed"
    said = fault(pair)
    if said:
        runs.expect(pair, runs.run(*words), (1, "", said))
        formula = runs.path("formula")
        runs.expect(pair, runs.run(*words[:3], "--formula", formula), (1, "", said))
        runs.expect(f"a formula of {pair}", os.path.exists(formula), False)
        return "fault"
    wanted = verdict(both[0], by_name(pair, both[1], given), given)
    runs.expect(pair, runs.run(*words), (*wanted, ""))
    return "other" if wanted != plain else "paired"


def main():
    program, count, seed = os.path.abspath(sys.argv[1]), int(sys.argv[2]), int(sys.argv[3])
    rng = random.Random(seed)
    kinds = dict.fromkeys(["unnamed", "fault", "paired", "other"], 0)
    with tempfile.TemporaryDirectory() as folder:
        runs = circuits.Runs(program, folder)
        for _ in range(count):
            kinds[try_pair(runs, rng)] += 1
        runs.expect("kinds of pairs", [kind for kind, number in kinds.items() if not number], [])
    print(f"circuit_check: names of {count} pairs of circuits, {kinds}, {runs.wrong} wrong")
    return 1 if runs.wrong else 0


if __name__ == "__main__":
    sys.exit(main())
