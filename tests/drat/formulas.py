"""Formulas, and proofs with RAT steps and with witnesses that few solvers write.

formulas.py random VARIABLES RATIO SEED    DIMACS: clauses of three literals, drawn at random
formulas.py pigeons HOLES                  DIMACS: one pigeon more than holes
formulas.py pairs HOLES                    DIMACS: two pigeons a hole, and one more
formulas.py board SIZE                     DIMACS: dominoes on a board that has lost two corners
formulas.py turned_board SIZE              DIMACS: that board, and the clauses of `turns`
formulas.py multiplier BITS                DIMACS: a * b and b * a, told to differ
formulas.py extended HOLES                 DRAT: the proof of `pigeons` by Cook's definitions
formulas.py swaps HOLES                    DRAT: the proof of `pigeons` by swapping rows, one after the other
formulas.py exchanges HOLES                DPR: the proof of `pigeons` by exchanging the holes of two
formulas.py pair_exchanges HOLES           DPR: the proof of `pairs` by exchanging the holes of two
formulas.py turns SIZE                     DPR: of `board`, no two dominoes lie side by side where they can be turned
"""

import itertools
import os
import random
import sys

sys.path.append(os.path.dirname(os.path.dirname(os.path.abspath(__file__))))

from dimacs import dimacs, line  # noqa: E402


def random_clauses(variables, ratio, seed):
    draw = random.Random(seed)
    clauses = []
    for _ in range(int(variables * ratio)):
        some = draw.sample(range(1, variables + 1), 3)
        clauses.append([draw.choice((1, -1)) * it for it in some])
    return clauses


def pigeon_places(holes):
    return {(pigeon, hole): pigeon * holes + hole + 1 for pigeon in range(holes + 1) for hole in range(holes)}


def pigeons(holes):
    at = pigeon_places(holes)
    clauses = [[at[pigeon, hole] for hole in range(holes)] for pigeon in range(holes + 1)]
    for hole in range(holes):
        clauses += [[-at[a, hole], -at[b, hole]] for a, b in itertools.combinations(range(holes + 1), 2)]
    return clauses


def pair_places(holes):
    return {(pigeon, hole): pigeon * holes + hole + 1 for pigeon in range(2 * holes + 1) for hole in range(holes)}


def pairs(holes):
    at, birds = pair_places(holes), range(2 * holes + 1)
    clauses = [[at[pigeon, hole] for hole in range(holes)] for pigeon in birds]
    for hole in range(holes):
        clauses += [[-at[it, hole] for it in three] for three in itertools.combinations(birds, 3)]
    return clauses


def board_places(size):
    """The dominoes of each square, and the variable of each pair of squares: all but two corners of a board."""
    lost = ((0, 0), (size - 1, size - 1))
    at = {it: [] for it in itertools.product(range(size), repeat=2) if it not in lost}
    dominoes = [(a, b) for a in at for b in ((a[0] + 1, a[1]), (a[0], a[1] + 1)) if b in at]
    numbers = {domino: n for n, domino in enumerate(dominoes, 1)}
    for (a, b), number in numbers.items():
        at[a].append(number)
        at[b].append(number)
    return at, numbers


def board(size):
    clauses = []
    for some in board_places(size)[0].values():
        clauses.append(some)
        clauses += [[-a, -b] for a, b in itertools.combinations(some, 2)]
    return clauses


class Gates:
    def __init__(self):
        self.last, self.clauses = 0, []

    def new(self):
        self.last += 1
        return self.last

    def both(self, a, b):
        out = self.new()
        self.clauses += [[-out, a], [-out, b], [out, -a, -b]]
        return out

    def odd(self, *ins):
        out = self.new()
        for signs in itertools.product((1, -1), repeat=len(ins) + 1):
            if signs.count(-1) % 2:
                self.clauses.append([sign * it for sign, it in zip(signs, (*ins, out))])
        return out

    def two_of(self, a, b, c):
        out = self.new()
        for x, y in ((a, b), (a, c), (b, c)):
            self.clauses += [[out, -x, -y], [-out, x, y]]
        return out

    def sum(self, ins):
        if len(ins) == 1:
            return ins[0], None
        return self.odd(*ins), self.both(*ins) if len(ins) == 2 else self.two_of(*ins)

    def product(self, xs, ys):
        rows = [[self.both(x, y) for y in ys] for x in xs]
        total, low = rows[0], []
        for row in rows[1:]:
            low.append(total[0])
            total, carry, kept = total[1:], None, []
            for n, bit in enumerate(row):
                ins = [it for it in (total[n] if n < len(total) else None, bit, carry) if it]
                out, carry = self.sum(ins)
                kept.append(out)
            total = kept + ([carry] if carry else [])
        return low + total


def multiplier(bits):
    gates = Gates()
    a, b = [gates.new() for _ in range(bits)], [gates.new() for _ in range(bits)]
    pairs = zip(gates.product(a, b), gates.product(b, a))
    differences = [gates.odd(x, y) for x, y in pairs]
    return [*gates.clauses, differences]


def extended(holes):
    """Steps (is deletion, clause): q[i, j] says p[i, j], or that pigeon i is in the last hole and the last pigeon in hole j."""
    p, top = pigeon_places(holes), holes * (holes + 1)
    old = pigeons(holes)
    for last in range(holes, 1, -1):
        q, definitions, new = {}, [], []
        for i, j in itertools.product(range(last), range(last - 1)):
            top += 1
            q[i, j] = top
            into, moved, out = p[i, j], p[i, last - 1], p[last, j]
            definitions += [[top, -into], [top, -moved, -out], [-top, into, moved], [-top, into, out]]
        yield from ((False, it) for it in definitions)
        for i in range(last):
            row = [q[i, j] for j in range(last - 1)]
            new.append(row)
            yield from ((False, row + [p[i, last - 1]]), (False, row))
        for j, (a, b) in itertools.product(range(last - 1), itertools.combinations(range(last), 2)):
            pair = [-q[a, j], -q[b, j]]
            new.append(pair)
            yield from ((False, pair + [-p[a, j]]), (False, pair), (True, pair + [-p[a, j]]))
        yield from ((True, it) for it in old + definitions)
        p, old = q, new
    yield False, []


def swaps(holes):
    """Steps: for the last hole, each row is swapped with the last one if it holds, so that only the last pigeon can be there."""
    top = holes * (holes + 1)
    at = [[i * holes + j + 1 for j in range(holes)] for i in range(holes + 1)]

    def touching(table, rows, columns, some):
        clauses = [[table[i][j] for j in columns] for i in some]
        for j, (a, b) in itertools.product(columns, itertools.combinations(rows, 2)):
            if a in some or b in some:
                clauses.append([-table[a][j], -table[b][j]])
        return clauses

    rows, columns = list(range(holes + 1)), list(range(holes))
    while len(columns) > 1:
        hole, last = columns[-1], rows[-1]
        for row in rows[:-1]:
            held, old, definitions = at[row][hole], touching(at, rows, columns, [row, last]), []
            table = [list(it) for it in at]
            for j in columns:
                for to, yes, no in ((row, last, row), (last, row, last)):
                    top += 1
                    table[to][j], x, y = top, at[yes][j], at[no][j]
                    definitions += [[top, -held, -x], [-top, -held, x], [top, held, -y], [-top, held, y]]
            yield from ((False, it) for it in definitions)
            for clause in touching(table, rows, columns, [row, last]):
                yield from ((False, clause + [held]), (False, clause), (True, clause + [held]))
            yield False, [-table[row][hole]]
            yield from ((True, it) for it in old + definitions)
            at = table
        for row in rows[:-1]:
            yield False, [at[row][j] for j in columns[:-1]]
            yield True, [at[row][j] for j in columns]
        rows, columns = rows[:-1], columns[:-1]
    yield False, []


def exchanged(clause, made_true):
    """An addition with a witness: the literals of the clause come again, and others."""
    return False, clause + clause + made_true


def exchanges(holes):
    """Steps: whoever is in the last hole, but the last pigeon, takes its hole and leaves it the last one."""
    at = pigeon_places(holes)
    for last in range(holes, 0, -1):
        for one in range(last):
            for hole in range(last - 1):
                yield exchanged([-at[one, last - 1], -at[last, hole]], [at[one, hole], at[last, last - 1]])
            yield False, [-at[one, last - 1]]
    yield False, []


def pair_exchanges(holes):
    """Steps: whoever is in the last hole exchanges holes with both of the last two pigeons, so that they are there alone."""
    at = pair_places(holes)
    for last in range(holes, 0, -1):
        for one in range(2 * last - 1):
            for other in (2 * last, 2 * last - 1):
                for hole in range(last - 1):
                    yield exchanged([-at[one, last - 1], -at[other, hole]], [at[one, hole], at[other, last - 1]])
                yield False, [-at[one, last - 1], at[other, last - 1]]
            yield False, [-at[one, last - 1]]
    yield False, []


def turns(size):
    at, numbers = board_places(size)
    for a in at:
        b, c, d = (a[0], a[1] + 1), (a[0] + 1, a[1]), (a[0] + 1, a[1] + 1)
        if all(it in at for it in (b, c, d)):
            yield exchanged([-numbers[a, b], -numbers[c, d]], [numbers[a, c], numbers[b, d]])


def turned_board(size):
    return board(size) + [clause[:2] for _, clause in turns(size)]


def drat(steps):
    return "".join(("d " if gone else "") + line(clause) for gone, clause in steps)


def binary_drat(steps):
    out = bytearray()
    for gone, clause in steps:
        out += b"d" if gone else b"a"
        for literal in [*clause, 0]:
            number = 2 * abs(literal) + (literal < 0)
            while number > 127:
                out.append(number & 127 | 128)
                number >>= 7
            out.append(number)
    return bytes(out)


def main(family, *words):
    numbers = [float(it) if "." in it else int(it) for it in words]
    made = {
        "random": lambda: dimacs(random_clauses(*numbers)),
        "pigeons": lambda: dimacs(pigeons(*numbers)),
        "pairs": lambda: dimacs(pairs(*numbers)),
        "board": lambda: dimacs(board(*numbers)),
        "turned_board": lambda: dimacs(turned_board(*numbers)),
        "multiplier": lambda: dimacs(multiplier(*numbers)),
        "extended": lambda: drat(extended(*numbers)),
        "swaps": lambda: drat(swaps(*numbers)),
        "exchanges": lambda: drat(exchanges(*numbers)),
        "pair_exchanges": lambda: drat(pair_exchanges(*numbers)),
        "turns": lambda: drat(turns(*numbers)),
    }
    sys.stdout.write(made[family]())


if __name__ == "__main__":
    main(*sys.argv[1:])
