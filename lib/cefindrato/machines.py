"""Machines in AIGER as a model checker takes them, and what it finds: an invariant, or a run."""

import re
from typing import Iterable, Iterator, List, Optional, Tuple

from .aiger import Circuit
from .faults import Unusable

# Latches, by their places, with a value each.
Cube = List[Tuple[int, bool]]
CUBE = re.compile(r"([01-]+) 1")
NAMES = re.compile(r"\.ilb +(.*)")


def folded(machine: Circuit) -> Circuit:
    """Returns a machine with one output and no constraint, whose latches begin with 0.

    A latch that begins with 1 is the negation of its own there. The output is true where a bad
    output is, in a run that meets all constraints so far; that it did not is the value of one latch
    more, the last one.
    """
    own = [lit for lit, _, _ in machine.latches]
    if None in (reset for _, _, reset in machine.latches):
        raise Unusable("a latch has no reset, which berkeley-abc takes for 0")
    failed = 2 * (machine.inputs + len(own) + 1)
    one = Circuit(machine.inputs, [(lit, 0, 0) for lit in [*own, failed]])
    begin_with_one = {lit for lit, _, reset in machine.latches if reset == 1}
    known = {lit: lit ^ (lit in begin_with_one) for lit in range(0, failed, 2)}

    def mapped(lit: int) -> int:
        return known[lit & ~1] ^ (lit & 1)

    for out, left, right in machine.gates:
        known[out] = one.both(mapped(left), mapped(right))
    bad, granted = 0, failed ^ 1
    for lit in machine.bad or machine.outputs:
        bad = one.either(bad, mapped(lit))
    for lit in machine.constraints:
        granted = one.both(granted, mapped(lit))
    follows = [mapped(after) ^ (lit in begin_with_one) for lit, after, _ in machine.latches]
    one.latches = [(lit, after, 0) for lit, after in zip([*own, failed], [*follows, granted ^ 1])]
    one.outputs = [one.both(bad, granted)]
    return one


def cubes_of(text: str) -> Iterator[Cube]:
    """Yields the cubes of latches in a PLA, which may name the latches of its columns by a number
    at the end of each name."""
    named = NAMES.search(text)
    names = named[1].split() if named else []
    places = [int(re.sub(r".*?([0-9]+)$", r"\1", it)) for it in names]
    for line in text.splitlines():
        if cube := CUBE.fullmatch(line.strip()):
            columns = zip(places or range(len(cube[1])), cube[1])
            yield [(place, value == "1") for place, value in columns if value != "-"]


def unfolded(machine: Circuit, cubes: Iterable[Cube]) -> Iterator[Cube]:
    """Yields the cubes of the folded machine as they are of the machine itself, where all
    constraints are met so far."""
    resets = [reset for _, _, reset in machine.latches]
    for cube in cubes:
        if (len(resets), True) not in cube:
            yield [(it, one ^ (resets[it] == 1)) for it, one in cube if it < len(resets)]


def invariant(inputs: int, latches: int, cubes: Iterable[Cube]) -> Circuit:
    """Returns the circuit that is true where no cube is; its inputs are inputs and latches."""
    c = Circuit(inputs + latches)
    holds = 1
    for cube in cubes:
        met = 1
        for place, one in cube:
            met = c.both(met, 2 * (inputs + place + 1) + (not one))
        holds = c.both(holds, met ^ 1)
    c.outputs = [holds]
    return c


def stimulus_of(machine: Circuit, text: str) -> Optional[str]:
    """Returns a run of the folded machine, as `write_cex -a` has it, as a stimulus of the machine
    itself: up to the first step at which a bad output is true. None where there is no such step.
    """
    rows = text.replace("# DONE", "").split()
    state = tuple(reset == 1 for _, _, reset in machine.latches)
    lines = ["".join(map(str, map(int, state)))]
    for row in rows[1:]:
        if len(row) != machine.inputs:
            return None
        of = machine.values([it == "1" for it in row], state)
        if not all(of[lit] for lit in machine.constraints):
            return None
        lines.append(row)
        bad = [place for place, lit in enumerate(machine.bad or machine.outputs) if of[lit]]
        if bad:
            return "\n".join(["1", f"b{bad[0]}", *lines, ".", ""])
        state = tuple(of[after] for _, after, _ in machine.latches)
    return None
