"""Random proofs of all kinds of step over a few variables, many of whose steps are accepted."""

VARS = 5
MULTIPLIER, WORD = 0x9E3779B97F4A7C15, 2**64


def number(value):
    groups = []
    while value >= 0x80:
        groups.append(value & 0x7F | 0x80)
        value >>= 7
    return bytes([*groups, value])


def code(lit):
    return 2 * (abs(lit) - 1) + (lit < 0)


def lits(clause):
    return number(len(clause)) + b"".join(number(code(lit)) for lit in clause)


class Maker:
    """A proof that is being made. Its clauses and names need not be those that a checker has."""

    def __init__(self, chance):
        self.chance, self.bytes = chance, b""
        self.clauses, self.assumed, self.names, self.pending, self.width = [], [], {}, [], 64

    def var(self):
        return self.chance.randint(1, VARS)

    def clause(self, most=3):
        chosen = self.chance.sample(range(1, VARS + 1), self.chance.randint(1, most))
        return [var * self.chance.choice((1, -1)) for var in chosen]

    def hash(self, clause):
        value = 0
        for lit in set(clause):
            name = self.names.get(abs(lit))
            of_lit = code(name if lit > 0 else -name) if name else code(lit) + 2**29
            value ^= (of_lit + 1) * MULTIPLIER % WORD
        return value >> (64 - self.width)

    def hashes(self):
        """The hashes of all clauses, some of them twice."""
        if any(name for _, name in self.pending):
            self.apply()
        chosen = [it for it in self.clauses if len(set(it)) > 1] * 2
        self.chance.shuffle(chosen)
        found = [self.hash(it) for it in chosen]
        return number(len(found)) + b"".join(map(number, found))

    def apply(self):
        for var, name in self.pending:
            self.names.pop(var, None)
            if name:
                self.names[var] = name
        self.pending = []

    def model(self):
        """Literals that satisfy the clauses, if there are some."""
        for _ in range(40):
            chosen = [var * self.chance.choice((1, -1)) for var in range(1, VARS + 1)]
            clauses = [*self.clauses, *([lit] for lit in self.assumed)]
            if all(set(chosen) & set(it) for it in clauses):
                break
        return chosen[: self.chance.choice((VARS, VARS, VARS - 1))]

    def step(self):
        kind = self.chance.choices(range(1, 13), (3, 2, 2, 3, 6, 9, 5, 3, 3, 3, 3, 4))[0]
        name = self.chance.choice([0, self.var(), self.var()])
        if kind == 1:
            var = self.var()
            self.pending.append((var, name))
            self.bytes += bytes([1, var - 1]) + number(name)
        elif kind == 2:
            self.bytes += bytes([2, self.var() - 1]) + number(name)
        elif kind == 3:
            self.bytes += bytes([3, self.var() - 1])
        elif kind == 4:
            self.bytes += bytes([4, self.var() - 1, self.chance.randint(0, 1)])
        else:
            self.over_clauses(kind)

    def over_clauses(self, kind):
        clause = self.clause()
        if kind == 5:
            self.clauses.append(clause)
            self.bytes += b"\x05" + lits(clause + clause[: self.chance.randint(0, 1)])
        elif kind == 6:
            self.bytes += bytes([6, self.chance.randint(0, 1)]) + lits(clause) + self.hashes()
            self.clauses.append(clause)
        elif kind == 7 and self.clauses:
            gone = self.chance.choice(self.clauses)
            self.bytes += bytes([7, self.chance.randint(0, 2)]) + lits(gone)
        elif kind == 8 and self.clauses:
            unit = [clause[0]]
            reason = self.hash(self.chance.choice(self.clauses))
            self.bytes += b"\x08\x01" + number(code(unit[0])) + number(reason)
            self.clauses.append(unit)
        elif kind == 9:
            self.width = self.chance.choice((64, 64, 33, 7, 2, 1))
            self.apply()
            self.bytes += b"\x09" + number(self.width)
        elif kind == 10:
            self.bytes += b"\x0A" + lits(self.model())
        elif kind == 11:
            self.assumed = self.clause(4)
            self.bytes += b"\x0B" + lits(self.assumed)
        elif kind == 12:
            core = [lit for lit in self.assumed if self.chance.random() < 0.8]
            self.bytes += b"\x0C" + lits(core) + self.hashes()


def made(chance):
    """A formula's text, and the bytes of a proof."""
    maker = Maker(chance)
    maker.clauses = [maker.clause() for _ in range(chance.randint(1, 9))]
    text = "".join(f"{' '.join(map(str, it))} 0\n" for it in maker.clauses)
    for _ in range(chance.randint(1, 14)):
        maker.step()
    return text, maker.bytes + b"\x0D"
