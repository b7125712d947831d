"""More formulas without a model, beside those of tests/drat/formulas.py, and other spellings of proofs.

drat_formulas.py FAMILY ARGUMENT..              DIMACS, or DRAT; the families are the functions of FAMILIES
drat_formulas.py define CNF COUNT SEED NEW      DRAT steps that put COUNT new variables for pairs of literals; NEW gets the
                                                formula that they leave, for a solver
drat_formulas.py binary < TEXT > BINARY         DRAT text as binary DRAT
drat_formulas.py frat < FRAT > TEXT             the steps of FRAT text as DRAT text
"""

import itertools
import os
import random
import sys

sys.path.insert(0, os.path.join(os.path.dirname(os.path.abspath(__file__)), "..", "tests", "drat"))

from formulas import Gates, binary_drat, dimacs, drat, extended, multiplier, pigeons, random_clauses, swaps  # noqa: E402


def parity_clauses(variables, is_odd):
    """As many of the variables are true as an odd number says, or an even one."""
    clauses = []
    for values in itertools.product((False, True), repeat=len(variables)):
        if sum(values) % 2 != is_odd:
            clauses.append([-it if value else it for it, value in zip(variables, values)])
    return clauses


def charges(edges, odd):
    """At each end of an edge the number of true edges is even, except for one end, which no choice of edges can meet."""
    at = {}
    for number, ends in enumerate(edges, 1):
        for end in ends:
            at.setdefault(end, []).append(number)
    return [clause for end in at for clause in parity_clauses(at[end], end == odd)]


def grid(width, height):
    places = list(itertools.product(range(width), range(height)))
    right = [((x, y), (x + 1, y)) for x, y in places if x + 1 < width]
    down = [((x, y), (x, y + 1)) for x, y in places if y + 1 < height]
    return charges(right + down, (0, 0))


def regular(places, seed):
    """A random graph with four ends of edges at each place, without loops."""
    draw = random.Random(seed)
    ends = [place for place in range(places) for _ in range(4)]
    edges = [(0, 0)]
    while any(a == b for a, b in edges):
        draw.shuffle(ends)
        edges = list(zip(ends[::2], ends[1::2]))
    return charges(edges, 0)


def chains(length, seed):
    """The parity of some variables, summed up in two orders, once even and once odd."""
    order = list(range(1, length + 1))
    last, clauses, sums = length, [], []
    shuffled = order[:]
    random.Random(seed).shuffle(shuffled)
    for row in (order, shuffled):
        total = row[0]
        for it in row[1:]:
            last += 1
            clauses += parity_clauses([total, it, last], False)
            total = last
        sums.append(total)
    return clauses + parity_clauses(sums, True)


def pebbles(height):
    """A pyramid: each stone is odd where the two below it are, the lowest row is odd, and the top is not."""
    numbers = itertools.count(1)
    stones = [[(next(numbers), next(numbers)) for _ in range(row + 1)] for row in range(height)]
    odd = lambda a, b: [[a, b], [-a, -b]]  # noqa: E731
    even = lambda a, b: [[a, -b], [-a, b]]  # noqa: E731
    clauses = [clause for stone in stones[-1] for clause in odd(*stone)]
    for above, below in zip(stones, stones[1:]):
        for place, stone in enumerate(above):
            cases = itertools.product(even(*below[place]), even(*below[place + 1]), odd(*stone))
            clauses += [a + b + c for a, b, c in cases]
    return clauses + even(*stones[0][0])


def ordering(count):
    """An order of all, each of which has another one before it."""
    number = {}
    for a, b in itertools.combinations(range(count), 2):
        number[a, b] = len(number) // 2 + 1
        number[b, a] = -number[a, b]
    clauses = [[number[b, a] for b in range(count) if b != a] for a in range(count)]
    for a, b, c in itertools.permutations(range(count), 3):
        clauses.append([-number[a, b], -number[b, c], number[a, c]])
    return clauses


def counter(bits, steps):
    """A counter that counts or stays in each step: in fewer steps than it takes it reaches its largest value."""
    gates = Gates()
    state = [gates.new() for _ in range(bits)]
    clauses = [[-bit] for bit in state]
    reached = []
    for _ in range(steps):
        carry, after = gates.new(), []
        for bit in state:
            after.append(gates.odd(bit, carry))
            carry = gates.both(bit, carry)
        clauses.append([-carry])
        state = after
        reached.append(gates.new())
        clauses += [[-reached[-1], bit] for bit in state]
    return gates.clauses + clauses + [reached]


def colours(places, degree, count, seed):
    """A random graph with edges between this many places on average, which more colours are needed for."""
    draw = random.Random(seed)
    edges = set()
    while len(edges) < places * degree / 2:
        edges.add(tuple(sorted(draw.sample(range(places), 2))))
    has = lambda place, colour: place * count + colour + 1  # noqa: E731
    clauses = [[has(place, colour) for colour in range(count)] for place in range(places)]
    for (a, b), colour in itertools.product(sorted(edges), range(count)):
        clauses.append([-has(a, colour), -has(b, colour)])
    return clauses


def dominoes(size):
    """A board without two opposite corners, covered by dominoes."""
    fields = set(itertools.product(range(size), repeat=2)) - {(0, 0), (size - 1, size - 1)}
    covers = {field: [] for field in sorted(fields)}
    number = 0
    for x, y in covers:
        for other in ((x + 1, y), (x, y + 1)):
            if other in fields:
                number += 1
                covers[x, y].append(number)
                covers[other].append(number)
    clauses = []
    for some in covers.values():
        clauses.append(some)
        clauses += [[-a, -b] for a, b in itertools.combinations(some, 2)]
    return clauses


def choose(gates, when, yes, no):
    out = gates.new()
    gates.clauses += [[-when, -out, yes], [-when, out, -yes], [when, -out, no], [when, out, -no]]
    return out


def rippled(gates, xs, ys, carry):
    total = []
    for x, y in zip(xs, ys):
        total.append(gates.odd(x, y, carry))
        carry = gates.two_of(x, y, carry)
    return total, carry


def adders(bits, block):
    """a + b by one carry after the other, and b + a by blocks that are added for both carries, told to differ."""
    gates = Gates()
    a, b = [gates.new() for _ in range(bits)], [gates.new() for _ in range(bits)]
    zero, one = gates.new(), gates.new()
    gates.clauses += [[-zero], [one]]
    plain, last = rippled(gates, a, b, zero)
    chosen, carry = [], zero
    for at in range(0, bits, block):
        part = b[at : at + block], a[at : at + block]
        without, no = rippled(gates, *part, zero)
        carried, yes = rippled(gates, *part, one)
        chosen += [choose(gates, carry, x, y) for x, y in zip(carried, without)]
        carry = choose(gates, carry, yes, no)
    differences = [gates.odd(x, y) for x, y in zip([*plain, last], [*chosen, carry])]
    return [*gates.clauses, differences]


def registers(bits, steps, seed):
    """A register that takes in the parity of four of its bits, by one gate and by three, told to differ."""
    taps = random.Random(seed).sample(range(bits), 4)
    gates = Gates()
    x = [gates.new() for _ in range(bits)]
    y = x[:]
    for _ in range(steps):
        x = [gates.odd(*(x[tap] for tap in taps)), *x[:-1]]
        total = y[taps[3]]
        for tap in (taps[2], taps[1], taps[0]):
            total = gates.odd(total, y[tap])
        y = [total, *y[:-1]]
    differences = [gates.odd(a, b) for a, b in zip(x, y)]
    return [*gates.clauses, differences]


def wide(variables, count, seed):
    """This many clauses of five literals, drawn at random."""
    draw = random.Random(seed)
    clauses = []
    for _ in range(count):
        some = draw.sample(range(1, variables + 1), 5)
        clauses.append([draw.choice((1, -1)) * it for it in some])
    return clauses


def progressions(true, false, last):
    """Of the numbers from 1 on, no arithmetic progression of one length is true throughout, and none of another length false."""
    clauses = []
    for sign, length in ((-1, true), (1, false)):
        for step in range(1, last):
            for first in range(1, last + 1 - (length - 1) * step):
                clauses.append([sign * (first + place * step) for place in range(length)])
    return clauses


def langford(top):
    """Two of each number from 1 on in a row, where as many others stand between them as the number says."""
    places = [(number, first) for number in range(1, top + 1) for first in range(2 * top - number - 1)]
    of_number, of_place = {}, {}
    for variable, (number, first) in enumerate(places, 1):
        of_number.setdefault(number, []).append(variable)
        for place in (first, first + number + 1):
            of_place.setdefault(place, []).append(variable)
    clauses = list(of_number.values())
    for some in (*of_number.values(), *of_place.values()):
        clauses += [[-a, -b] for a, b in itertools.combinations(some, 2)]
    return clauses


def sorters(inputs):
    """Bits sorted by neighbours from the front on, and by pairs of neighbours in turn, told to differ."""
    gates = Gates()
    bits = [gates.new() for _ in range(inputs)]
    bubbles = [at for end in range(inputs - 1, 0, -1) for at in range(end)]
    turns = [at for turn in range(inputs) for at in range(turn % 2, inputs - 1, 2)]
    both = [bits[:], bits[:]]
    for row, order in zip(both, (bubbles, turns)):
        for at in order:
            x, y = row[at], row[at + 1]
            row[at], row[at + 1] = -gates.both(-x, -y), gates.both(x, y)
    differences = [gates.odd(x, y) for x, y in zip(*both)]
    return [*gates.clauses, differences]


def define(clauses, count, seed):
    """Steps that name pairs of literals by new variables, and use the names; and the clauses that they leave."""
    draw = random.Random(seed)
    last = max(abs(it) for clause in clauses for it in clause)
    long = [clause for clause in clauses if len(clause) > 2]
    pairs = dict.fromkeys(tuple(sorted(draw.sample(draw.choice(long), 2))) for _ in range(count))
    added, gone = [], []
    for a, b in pairs:
        last += 1
        added += [[last, -a], [last, -b], [-last, a, b]]
        for clause in clauses:
            if a in clause and b in clause and len(clause) > 2:
                added.append([last] + [it for it in clause if it not in (a, b)])
                gone.append(clause)
    gone = [list(it) for it in dict.fromkeys(map(tuple, gone))]
    steps = [(False, it) for it in added] + [(True, it) for it in gone]
    return steps, [it for it in clauses if it not in gone] + added


def clauses_of(text):
    """The clauses of a DIMACS text with one on each line."""
    return [[int(word) for word in line.split()][:-1] for line in text if line[0] not in "cp"]


def steps_of(text):
    """The steps of a DRAT text with one on each line."""
    for line in text:
        words = line.split()
        if words and words[0][0] not in "c%":
            is_deletion = words[0] == "d"
            yield is_deletion, [int(it) for it in words[is_deletion:]][:-1]


def steps_of_frat(text):
    """The steps of a FRAT text with one on each line, without ids and hints."""
    for line in text:
        words = line.split()
        if words and words[0] in "ad":
            literals = itertools.takewhile(lambda it: it != "0", words[2:])
            yield words[0] == "d", [int(it) for it in literals]


FAMILIES = {
    "random": lambda *it: dimacs(random_clauses(*it)),
    "pigeons": lambda *it: dimacs(pigeons(*it)),
    "multiplier": lambda *it: dimacs(multiplier(*it)),
    "extended": lambda *it: drat(extended(*it)),
    "swaps": lambda *it: drat(swaps(*it)),
    "grid": lambda *it: dimacs(grid(*it)),
    "regular": lambda *it: dimacs(regular(*it)),
    "chains": lambda *it: dimacs(chains(*it)),
    "pebbles": lambda *it: dimacs(pebbles(*it)),
    "ordering": lambda *it: dimacs(ordering(*it)),
    "counter": lambda *it: dimacs(counter(*it)),
    "colours": lambda *it: dimacs(colours(*it)),
    "dominoes": lambda *it: dimacs(dominoes(*it)),
    "adders": lambda *it: dimacs(adders(*it)),
    "registers": lambda *it: dimacs(registers(*it)),
    "wide": lambda *it: dimacs(wide(*it)),
    "progressions": lambda *it: dimacs(progressions(*it)),
    "langford": lambda *it: dimacs(langford(*it)),
    "sorters": lambda *it: dimacs(sorters(*it)),
}


def main(what, *words):
    if what == "binary":
        sys.stdout.buffer.write(binary_drat(steps_of(sys.stdin)))
    elif what == "frat":
        sys.stdout.write(drat(steps_of_frat(sys.stdin)))
    elif what == "define":
        with open(words[0]) as text:
            steps, left = define(clauses_of(text), int(words[1]), int(words[2]))
        with open(words[3], "w") as file:
            file.write(dimacs(left))
        sys.stdout.write(drat(steps))
    else:
        numbers = [float(it) if "." in it else int(it) for it in words]
        sys.stdout.write(FAMILIES[what](*numbers))


if __name__ == "__main__":
    main(*sys.argv[1:])
