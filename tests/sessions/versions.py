"""All ways to install packages, by python3-pycosat as it is: each has three versions that need some of others.

It prints how many queries were satisfiable, and how many were not.
"""

import random

import pycosat

PACKAGES = 5
random.seed(5)
versions = [[3 * it + 1, 3 * it + 2, 3 * it + 3] for it in range(PACKAGES)]
clauses = [[-a, -b] for mine in versions for a in mine for b in mine if a < b]
for mine in versions:
    for a in mine:
        clauses.append([-a, *random.sample(random.choice(versions), 2)])
clauses += [versions[0], versions[-1]]
print(f"{sum(1 for _ in pycosat.itersolve(clauses))} satisfiable, 1 unsatisfiable")
