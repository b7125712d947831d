"""Formulas of tests as lists of clauses: their text, and whether an assignment satisfies them.

What imports this lies in folders beside it, and has this one on its path by `sys.path.append`.
"""

import itertools


def line(literals):
    return " ".join(map(str, [*literals, 0])) + "\n"


def lines(clauses):
    return "".join(map(line, clauses))


def variables(*formulas):
    """The greatest number of a variable."""
    return max((abs(it) for clauses in formulas for clause in clauses for it in clause), default=0)


def dimacs(clauses, count=None):
    """The text with a header, which says this many variables."""
    return f"p cnf {variables(clauses) if count is None else count} {len(clauses)}\n{lines(clauses)}"


def is_satisfiable(clauses):
    """By all assignments."""
    names = sorted({abs(it) for clause in clauses for it in clause})
    for signs in itertools.product((1, -1), repeat=len(names)):
        true = {sign * name for sign, name in zip(signs, names)}
        if all(any(it in true for it in clause) for clause in clauses):
            return True
    return False
