"""Formulas and DRAT proofs that cost as much as they can.

drat_hostile.py                   the names of the cases
drat_hostile.py CASE CNF DRAT     writes the two files of a case
"""

import itertools
import random
import sys

LAST = 1 << 28
FOUR = [[1, 2], [1, -2], [-1, 2], [-1, -2]]


def text(clauses, mark=""):
    return "".join(f"{mark}{' '.join(map(str, [*clause, 0]))}\n" for clause in clauses)


def deletions(clauses):
    return text(clauses, "d ")


def candidates():
    """1,000 clauses that are redundant by a new variable, each against 1,000 clauses, all of them needed."""
    count = 1_000
    x, ys, zs = 1, range(2, 2 + count), range(2 + count, 2 + 2 * count)
    ws = range(2 + 2 * count, 2 + 3 * count)
    formula = [clause for y, w in zip(ys, ws) for clause in ([y, w], [y, -w])]
    formula += [[-y for y in ys], [-z for z in zs]]
    proof = [[-x, y] for y in ys] + [[x, z] for z in zs] + [[x]]
    return text(formula), text(proof)


def occurrences():
    """10,000 clauses that are redundant by a new variable, which stands against them in 10,000 that nothing needs."""
    count = 10_000
    x, q, r, t, zs = 1, 2, 3, 4, range(5, 5 + count)
    formula = [[q, r], [q, -r], [-q, t], [-q, -t], [-z for z in zs]]
    idle = [[-x, q, z] for z in zs]
    return text(formula), text([*idle, [-x, q], *([x, z] for z in zs), [x]])


def last_variable():
    return text(FOUR), text([[LAST, 1], [-LAST, 1], [1]])


def far(count):
    """Variables, each far from the others."""
    names = [LAST - 2_000 * place for place in range(count)]
    return text(FOUR), text([[name, 1, 2] for name in names] + [[1]])


def far_variables():
    return far(100_000)


def deletions_of_nothing():
    return text(FOUR), deletions([[3, 4]]) * 1_000_000 + text([[1]])


def deletions_of_others(count):
    """Deletions of clauses that are not there, each beside one that is."""
    names = range(5, count + 5)
    return text(FOUR + [[3, 4, it] for it in names]), deletions([[3, -4, it] for it in names]) + text([[1]])


def deletions_of_units(count):
    """Units that are deleted one by one."""
    units = [[it] for it in range(3, count + 3)]
    return text(FOUR + units), deletions(units) + text([[1]])


def deletions_of_reasons():
    """1,000 literals that follow from the formula's units, and 1,000 times each of their clauses deleted."""
    chain = [[1]] + [[-it, it + 1] for it in range(1, 1_000)]
    four = [[it + 1_000 if it > 0 else it - 1_000 for it in clause] for clause in FOUR]
    return text(chain + four), deletions(chain) * 1_000 + text([[1_001]])


def long_clause():
    return text([*FOUR, range(1, 10_000_001)]), text([[1]])


def long_lemma():
    return text(FOUR), text([range(1, 10_000_001), [1]])


def long_deletion():
    return text(FOUR), deletions([range(1, 10_000_001)]) + text([[1]])


def repeated_literal():
    return text(FOUR), text([[1] * 10_000_000])


def equal(count):
    """One clause many times, deleted as often."""
    same = [[3, 4, 5]] * count
    return text(FOUR), text(same) + deletions(same) + text([[1]])


def equal_clauses():
    return equal(100_000)


def clauses_of_one_literal(count):
    return [[3, 4 + place] for place in range(count)]


def one_literal(count):
    """Clauses that watch one literal, the oldest deleted first."""
    some = clauses_of_one_literal(count)
    return text(FOUR), text(some) + deletions(some) + text([[1]])


def one_literal_100000():
    return one_literal(100_000)


def one_literal_200000():
    return one_literal(200_000)


def one_literal_at_random():
    """100,000 clauses that watch one literal, deleted in any order."""
    some = clauses_of_one_literal(100_000)
    return text(FOUR), text(some) + deletions(random.Random(1).sample(some, len(some))) + text([[1]])


def sums_of_one_hash():
    """20,000 clauses over the variables that a sum, a product and an exclusive or of multiples of 2^15 can't tell apart."""
    multiplier, bits = 0x9E3779B1, 15
    literals = [place << bits for place in range(1, 65)]
    values = [(it * multiplier % 2**32 >> bits) % 2**bits for it in literals]
    basis, null = [], []
    for place, value in enumerate(values):
        chosen = 1 << place
        for lead, other, mask in basis:
            if value >> lead & 1:
                value ^= other
                chosen ^= mask
        if value:
            basis.append((value.bit_length() - 1, value, chosen))
            basis.sort(reverse=True)
        else:
            null.append(chosen)
    sums = {}
    for some in itertools.chain(*(itertools.combinations(null, size) for size in (1, 2, 3))):
        mask = 0
        for it in some:
            mask ^= it
        sums.setdefault(mask)
    clauses = []
    for mask in itertools.islice(sums, 20_000):
        codes = [literal - 1 for place, literal in enumerate(literals) if mask >> place & 1]
        clauses.append([-(code // 2 + 1) if code % 2 else code // 2 + 1 for code in codes])
    named = text([range(1, (1 << 20) + 2)])
    return text(FOUR), named + text(clauses) + deletions(clauses) + text([[1]])


def mixed(number):
    spread = (number + 1) * 0x9E3779B97F4A7C15 % 2**64
    return (spread ^ spread >> 29) * 0xBF58476D1CE4E5B9 % 2**64


def one_bucket(variables=60_000, bits=17):
    """Some 14,000 clauses of two literals that fall into one bucket, of sums of mixed literals without a seed."""
    values = {it: mixed(2 * (it - 1)) for it in range(1, variables + 1)}
    places = {}
    for name, value in values.items():
        places.setdefault((value >> 32) % 2**bits, []).append(name)
    clauses = []
    for name, value in values.items():
        for carry in (0, 1):
            for other in places.get((-(value >> 32) - carry) % 2**bits, ()):
                if name < other and ((value + values[other]) % 2**64 >> 32) % 2**bits == 0:
                    clauses.append([name, other])
    return text(FOUR), text([range(1, variables + 1)]) + text(clauses) + deletions(clauses) + text([[1]])


def false_in_turn(count):
    """A clause whose literals become false one by one."""
    names = range(3, count + 3)
    return text([*FOUR, names]), text([[-it] for it in names[:-1]] + [[1]])


def false_in_turn_160000():
    return false_in_turn(160_000)


def false_in_turn_320000():
    return false_in_turn(320_000)


def one_pivot(count):
    """Needed clauses that are redundant by one variable, after as many with its negation, which are deleted."""
    x, q, r, t, m, p = range(1, 7)
    firsts, seconds, links = (range(7 + place * count, 7 + (place + 1) * count) for place in range(3))
    formula = [[q, r], [q, -r], [-q, t], [-q, -t], [m, p], [m, -p], *([-m, -second] for second in seconds)]
    formula += [[-firsts[0], links[0]], *([-links[it - 1], -firsts[it], links[it]] for it in range(1, count)), [-links[-1]]]
    idle = [[-x, q, first] for first in firsts]
    # m follows after them, so that the check of one forces nothing by the others
    needed = [[x, *pair] for pair in zip(firsts, seconds)]
    return text(formula), text(idle) + deletions(idle) + text([[-x, q], *needed, [m], [x]])


def one_pivot_20000():
    return one_pivot(20_000)


def one_pivot_40000():
    return one_pivot(40_000)


def long_trail():
    """10,000 clauses that are checked while 1,000,000 variables have values."""
    units = [[it] for it in range(1, 1_000_001)]
    x = 1_000_001
    ys = range(x + 1, x + 10_001)
    formula = units + [clause for y in ys for clause in ([x, y, y + 10_000], [x, y, -y - 10_000])]
    formula += [[-y for y in ys] + [x], [-x, ys[-1] + 20_000], [-x, -ys[-1] - 20_000]]
    return text(formula), text([[x, y] for y in ys] + [[x]])


def chain_of_lemmas(count):
    """Lemmas each of which forces a literal by the one before, and all of them needed."""
    chain = [[3]] + [[place + 3, -place - 2] for place in range(1, count)]
    return text(FOUR), text([*chain, [1, -count - 2], [1]])


def long_and_units(count):
    """A clause, and units that make each literal of it false."""
    names = range(1, count + 1)
    return text([names, *([-it] for it in names)]), text([[]])


def lemmas_over_units(count):
    """Units, and lemmas of the same two literals and the negation of one of the units each."""
    names = range(5, count + 5)
    six = [[1, 2, 3], [1, 2, -3], [1, -2, 4], [1, -2, -4], [-1, 2], [-1, -2]]
    return text([[it] for it in names] + six), text([[1, 2, -it] for it in names] + [[1, 2], [1]])


def units_and_deletions(count):
    """A unit lemma and the deletion of the oldest clause that watches one literal, in turn."""
    starts = range(10, 10 + 4 * count, 4)
    old = [[3, it, it + 1] for it in starts]
    pairs = [pair for it in starts for pair in ([it + 2, it + 3], [it + 2, -it - 3])]
    steps = [text([[it + 2]]) + deletions([clause]) for it, clause in zip(starts, old)]
    return text(FOUR + old + pairs), "".join(steps) + text([[1]])


def chain_25000():
    return chain_of_lemmas(25_000)


def chain_50000():
    return chain_of_lemmas(50_000)


def chain_100000():
    return chain_of_lemmas(100_000)


CASES = {
    it.__name__: it
    for it in (
        candidates,
        occurrences,
        last_variable,
        far_variables,
        deletions_of_nothing,
        deletions_of_reasons,
        long_clause,
        long_lemma,
        long_deletion,
        repeated_literal,
        equal_clauses,
        one_literal_100000,
        one_literal_200000,
        one_literal_at_random,
        sums_of_one_hash,
        one_bucket,
        false_in_turn_160000,
        false_in_turn_320000,
        one_pivot_20000,
        one_pivot_40000,
        long_trail,
        chain_25000,
        chain_50000,
        chain_100000,
    )
}


def main(words):
    if not words:
        print("\n".join(CASES))
        return
    name, cnf, drat = words
    for path, content in zip((cnf, drat), CASES[name]()):
        with open(path, "w") as file:
            file.write(content)


if __name__ == "__main__":
    main(sys.argv[1:])
