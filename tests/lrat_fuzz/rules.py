"""What the programs must answer to an LRAT text: docs/reference/FORMATS.md again, in a few lines, and shared with no program.

A fault can be named, for which the rules are wrong. So it is seen that the texts of this test notice it.
"""
import re
from dataclasses import dataclass

TOP_NUMBER = 2**64 - 1
TOP_VARIABLE = 2**28
WORD = re.compile(rb"[^ \t\r]+")
UNREAD = ("malformed line", "number too large", "unfinished line")
FAULTS = (
    "a deleted clause stays",
    "a taken id is no fault",
    "an unknown hint is passed over",
    "a hint that is not unit is passed over",
    "the end of the hints is a conflict",
    "a group need not lead to a conflict",
    "a clause needs no group",
    "only the last clause needs a group",
    "a true literal counts as none",
)


@dataclass
class Answer:
    """A status; on a refusal the line and the cause, which is None for a line that can't be read."""

    status: int
    line: int = 0
    cause: str | None = None
    # whether a clause was added that does not follow, or a group was written: there are no proof bytes for it
    redundant: bool = False


class Refused(Exception):
    """The cause of a line."""


def natural(word):
    if not re.fullmatch(rb"[0-9]+", word) or int(word) > TOP_NUMBER:
        raise ValueError(word)
    return int(word)


def signed(word, top):
    if not re.fullmatch(rb"-?[0-9]+", word) or abs(int(word)) > top or (word[:1] == b"-" and int(word) == 0):
        raise ValueError(word)
    return int(word)


def until_zero(words, number):
    """The numbers before the first 0, and the words after it."""
    numbers = []
    for place, word in enumerate(words):
        value = number(word)
        if value == 0:
            return numbers, words[place + 1 :]
        numbers.append(value)
    raise ValueError("no 0")


def read_line(line):
    """What a line adds (id, clause, hints) or deletes (ids), or None; ValueError for one that can't be read."""
    words = WORD.findall(line)
    if not words or words[0].startswith(b"c"):
        return None
    number = natural(words[0])
    if words[1:2] == [b"d"]:
        ids, rest = until_zero(words[2:], natural)
        read = (ids,)
    elif number == 0:
        raise ValueError("no id")
    else:
        clause, rest = until_zero(words[1:], lambda word: signed(word, TOP_VARIABLE))
        hints, rest = until_zero(rest, lambda word: signed(word, TOP_NUMBER))
        read = (number, clause, hints)
    if rest:
        raise ValueError("words after the last 0")
    return read


def lines_of(text):
    """The lines, each with its number and what it says."""
    for number, line in enumerate(text.split(b"\n"), 1):
        try:
            read = read_line(line)
        except ValueError:
            yield number, "unread"
            return
        if read is not None:
            yield number, read


def follow(held, true, hints, fault):
    """Whether the hints lead to a conflict. What they make true is added."""
    for hint in hints:
        if hint not in held:
            if fault == "an unknown hint is passed over":
                continue
            raise Refused("no clause has the id of a hint")
        left = {lit for lit in held[hint] if -lit not in true}
        if fault == "a true literal counts as none":
            left -= true
        if not left:
            return True
        if len(left) > 1:
            if fault == "a hint that is not unit is passed over":
                continue
            raise Refused("clause of a hint is not unit")
        true |= left
    return fault == "the end of the hints is a conflict"


def groups_of(hints):
    """The leading hints, and the groups by the ids that begin them. The first of an id counts."""
    leading, groups, current = [], {}, None
    for hint in hints:
        if hint < 0:
            current = []
            groups.setdefault(-hint, current)
        else:
            (leading if current is None else current).append(hint)
    return leading, groups


def meets(held, true, others, hints, fault):
    """Whether a group meets a clause, of which these are the literals other than the negation of the pivot."""
    if any(lit in true for lit in others):
        return True
    try:
        met = follow(held, true | {-lit for lit in others}, hints, fault)
    except Refused:
        met = False
    return met or fault == "a group need not lead to a conflict"


def check_groups(held, true, clause, groups, fault):
    """Refuses a clause that is not redundant by its first literal."""
    against = {number: other for number, other in held.items() if clause and -clause[0] in other}
    if not clause or (against and not groups and fault != "a clause needs no group"):
        raise Refused("hints end without a conflict")
    if fault == "only the last clause needs a group":
        against = dict(list(against.items())[-1:])
    pivot = clause[0]
    for number, other in against.items():
        if number in groups and not meets(held, true, set(other) - {-pivot}, groups[number], fault):
            raise Refused("hints of a candidate end without a conflict")
    if fault != "a clause needs no group" and any(number not in groups for number in against):
        raise Refused("no hints for a clause with the negation of the pivot")


def judge(formula, text, fault=None, read_lines=lines_of):
    """What `lrat_check` must answer."""
    held = dict(enumerate(formula, 1))
    redundant = False
    if [] in formula:
        return Answer(0)
    for number, read in read_lines(text):
        if read == "unread":
            return Answer(1, number, None, redundant)
        if len(read) == 1:
            if fault != "a deleted clause stays":
                for gone in read[0]:
                    held.pop(gone, None)
            continue
        name, clause, hints = read
        redundant = redundant or any(hint < 0 for hint in hints)
        try:
            if name in held and fault != "a taken id is no fault":
                raise Refused("id is taken")
            leading, groups = groups_of(hints)
            true = {-lit for lit in clause}
            if not follow(held, true, leading, fault):
                redundant = True
                check_groups(held, true, clause, groups, fault)
        except Refused as refused:
            return Answer(1, number, str(refused), redundant)
        if not clause:
            return Answer(0, number, None, redundant)
        held[name] = clause
    return Answer(3, 0, None, redundant)


def refutes(clause, units):
    """Whether the clause is empty, or the opposite of a unit; a unit is noted."""
    if len(clause) == 1:
        units |= clause
        return -next(iter(clause)) in units
    return not clause


def conflict_of_hints(held, true, hints):
    """Why hints in the stricter reading of `hint_check` are refused, or None: all but the last are unit, and the last is falsified."""
    for place, hint in enumerate(hints, 1):
        if hint not in held:
            return "no clause has the id of a hint"
        left = {lit for lit in held[hint] if -lit not in true}
        if place == len(hints):
            return "hints end without a conflict" if left else None
        if len(left) != 1 or left & true:
            return "clause of a hint is not unit"
        true |= left
    return "hints end without a conflict"


def judge_hints(formula, text, read_lines=lines_of):
    """What `hint_check` must answer. It reads to the end."""
    held, greatest, refuted = dict(enumerate(formula, 1)), len(formula), False
    for number, read in read_lines(text):
        if read != "unread" and len(read) == 1:
            for gone in read[0]:
                held.pop(gone, None)
            continue
        if read == "unread" or any(hint < 0 for hint in read[2]):
            return Answer(1, number, "malformed line")
        name, clause, hints = read
        if name <= greatest:
            return Answer(1, number, "id is not greater than those before")
        cause = conflict_of_hints(held, {-lit for lit in clause}, hints)
        if cause:
            return Answer(1, number, cause)
        held[name], greatest, refuted = clause, name, refuted or not clause
    return Answer(0 if refuted else 3)


def convert(formula, text, read_lines=lines_of):
    """What `lrat_to_proof` must answer. With status 0 the line is the last one that is written."""
    held, units, refuted = set(), set(), False
    for number, clause in enumerate(formula, 1):
        held.add(number)
        refuted = refutes(set(clause), units) or refuted
    if refuted:
        return Answer(0)
    for number, read in read_lines(text):
        if read == "unread":
            return Answer(1, number)
        if len(read) == 1:
            held -= set(read[0])
            continue
        name, clause, hints = read
        if name in held:
            return Answer(1, number, "id is taken")
        for hint in hints:
            if hint < 0:
                return Answer(1, number, "RAT steps can't be converted")
            if hint not in held:
                return Answer(1, number, "no clause has the id of a hint")
        held.add(name)
        if refutes(set(clause), units):
            return Answer(0, number)
    return Answer(3)
