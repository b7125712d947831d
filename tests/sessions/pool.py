"""Queries in processes that are forked, by python3-pycosat as it is: eight in a pool of four, each by a solver of its own.

It prints how many queries were satisfiable, and how many were not.
"""

import itertools
import multiprocessing

import pycosat

FORK = multiprocessing.get_context("fork")
ALL_ARE_THERE = FORK.Barrier(4)


def answer(colours):
    """Whether the complete graph of four nodes can be coloured so."""
    used = range(1, 1 + colours)
    name = {it: place for place, it in enumerate(itertools.product(range(4), used), 1)}
    clauses = [[name[node, it] for it in used] for node in range(4)]
    clauses += [[-name[a, it], -name[b, it]] for a, b in itertools.combinations(range(4), 2) for it in used]
    return pycosat.solve(clauses) != "UNSAT"


def answers(several):
    """Each process gets some: none begins before all four are there."""
    ALL_ARE_THERE.wait(60)
    return [answer(it) for it in several]


if __name__ == "__main__":
    with FORK.Pool(4) as pool:
        found = sum(pool.map(answers, [[1, 2], [3, 4], [5, 3], [4, 2]], chunksize=1), [])
    assert found == [False, False, False, True, True, False, True, False]
    print(f"{sum(found)} satisfiable, {len(found) - sum(found)} unsatisfiable")
