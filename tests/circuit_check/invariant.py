#!/usr/bin/env python3
"""An invariant as a circuit in AIGER, from cubes of latches.

invariant.py MACHINE.aig CUBES INVARIANT.aig      CUBES as the command `inv_print` or `pdr -d` of berkeley-abc writes them: a line
                                                  for each, with 0, 1 or - for each latch. No reached state is in a cube.
"""
import sys

import aiger
from cefindrato.machines import cubes_of, invariant


def main():
    machine, cubes, out = sys.argv[1:]
    with open(machine, "rb") as data:
        m = aiger.read(data.read())
    with open(cubes, encoding="utf-8") as text:
        c = invariant(m.inputs, len(m.latches), cubes_of(text.read()))
    with open(out, "wb") as to:
        to.write(aiger.write(c))


if __name__ == "__main__":
    main()
