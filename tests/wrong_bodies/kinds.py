"""What refuses a wrong body: a clause of the contract, or a written proof that no longer fits.

A clause refuses it where one of these holds.

- A right body of the same shape stands beside it, in a line `right:`, and is proved.
- The check names a goal that is open, which is a clause of the contract at a return, and nothing that is written of the function's
  proof is refused, nor is a loop's invariant open. Such a goal is called `returns`, with its branch behind it.
- A written answer to such a goal is refused, and the edit keeps the function's shape: it changes operators, numbers and values alone.
  The unchanged copy is then the right body of the same shape.

All else may be refused for its shape: a loop's invariant, a call's requires, an answer that names what is there no more.
"""

import re

FAULT = re.compile(r"(?m)^\./proofs/(?:\S*/)?(\w+)/(?:Answers|Invariants|Proof)\.antt:\d+:\d+: error: (.*)$")
NAMES = re.compile(r"has no field|is not in scope|has no `|was not admitted|that can be named from here")
TOKEN = re.compile(r"b?\"[^\"]*\"|b?'(?:[^'\\]|\\.)+'|[A-Za-z_]\w*|\d\w*|\S")
WORDS = {"if", "else", "let", "match", "for", "while", "loop", "return", "break", "continue", "in", "mut", "as"}
OPERATORS = set("<>=!+-*/%&|^.")


def is_refused(wrong):
    """Whether the check looked at it and did not prove it. A body that the check does not cover was not looked at."""
    said = wrong.said or ""
    return bool(re.match("not proved|no proof", said)) and not re.search("it calls|it passes|a call of|does not cover", said)


def is_refused_past_holes(wrong):
    """Where the functions that it calls are not proved, but taken by their contracts: a goal or an answer of its own has to be refused."""
    return bool(re.match("not proved|no proof", wrong.said or "") and (open_goals(wrong) or wrong.faults))


def said_past_holes(wrong):
    """What the check says of a copy among holes, without that it calls one: `proved` where nothing else is said against it."""
    wrong.said = re.sub(r"(^|; )it calls .*?, which (is|are) not proved", "", wrong.said or "")
    says_nothing = re.match("proved|no holes|depends on a hole|not proved|no proof", wrong.said) and "does not cover" not in wrong.said
    return "proved" if says_nothing and not open_goals(wrong) and not wrong.faults else wrong.said


def faults(told, wrong):
    """What the check says against the written proof of this function."""
    return [words for name, words in FAULT.findall(told) if name == wrong.name.split("::")[-1]]


def open_goals(wrong):
    """The goals without a written answer that were not proved."""
    _, _, goals = (wrong.said or "").partition("`search` did not prove ")
    return re.findall(r"`([^`]+)`", goals)


def is_clause(goal):
    return re.match(r"returns\b", goal) is not None


def is_of_a_loop(goal):
    return re.search(r"-(init|preserved|smaller)\b", goal) is not None


def is_by_clause(wrong):
    if not is_refused(wrong):
        return False
    if wrong.right:
        return (wrong.right.said or "").startswith("proved")
    if not wrong.faults:
        goals = open_goals(wrong)
        return any(map(is_clause, goals)) and not any(map(is_of_a_loop, goals))
    goals = [re.match(r"`([^`]+)`", it) for it in wrong.faults]
    answered = [it[1] for it in goals if it]
    fits = not any(NAMES.search(it) for it in wrong.faults)
    return fits and any(map(is_clause, answered)) and all(keeps_shape(old, new) for _, old, new in wrong.pairs)


def keeps_shape(old, new):
    """Whether two texts have the same words except for operators, numbers and values: no call, no branch, no name that is given."""
    return shape_of(old) == shape_of(new)


def shape_of(text):
    tokens, shape = TOKEN.findall(text), []
    for at, token in enumerate(tokens):
        after = tokens[at + 1] if at + 1 < len(tokens) else ""
        before = tokens[at - 1] if at else ""
        if token in OPERATORS:
            if not shape or shape[-1] != "operator":
                shape.append("operator")
        elif token in WORDS or not re.match(r"[\w'\"]", token):
            shape.append(token)
        elif before in ("let", "mut", "fn") or after in ("(", "!", "{"):
            shape.append(token)
        else:
            shape.append("value")
    return shape
