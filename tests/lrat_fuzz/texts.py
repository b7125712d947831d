"""Random formulas of few variables, and LRAT texts for them: right lines, and damaged ones."""
from dimacs import is_satisfiable

MARKS = b"0123456789 -dcx\t\r\n%+."


def random_clause(rng, count, sizes):
    size = rng.choice(sizes)
    return [rng.choice((1, -1)) * rng.randint(1, count) for _ in range(size)]


def random_formula(rng, count):
    formula = [random_clause(rng, count, (1, 2, 2, 2, 3, 3)) for _ in range(rng.randint(1, 5 * count))]
    if rng.random() < 0.02:
        formula[rng.randrange(len(formula))] = []
    return formula


def hints_for(rng, held, true):
    """Ids along which the clauses come to a conflict, or None. What becomes true is added."""
    hints = []
    while True:
        for number in rng.sample(list(held), len(held)):
            left = {lit for lit in held[number] if -lit not in true}
            if not left:
                return hints + [number]
            if len(left) == 1 and not left <= true:
                true |= left
                hints.append(number)
                break
        else:
            return None


def groups_for(rng, held, clause):
    """Groups that show a clause redundant by its first literal, or None."""
    hints = []
    for number, other in held.items():
        if -clause[0] in other:
            true = {-lit for lit in clause} | {-lit for lit in other if lit != -clause[0]}
            group = hints_for(rng, held, true)
            if group is None:
                return None
            hints += [-number] + group
    return hints


def right_line(rng, held, count, next_id, groups):
    """A line that adds a clause, which is then held; or None."""
    for _ in range(12):
        clause = random_clause(rng, count, (0, 1, 1, 2, 2, 3))
        hints = hints_for(rng, held, {-lit for lit in clause})
        if hints is None and clause and groups:
            hints = groups_for(rng, held, clause)
        if hints is not None:
            held[next_id] = clause
            return [next_id, *clause, 0, *hints, 0]
    return None


def right_lines(rng, formula, count, groups):
    """Lines that are right after each other, up to the empty clause where it was come to."""
    held = dict(enumerate(formula, 1))
    lines, next_id = [], len(formula) + 1
    for _ in range(rng.randint(1, 14)):
        if held and rng.random() < 0.15:
            gone = rng.sample(list(held), min(len(held), rng.randint(1, 2)))
            for number in gone:
                del held[number]
            lines.append([next_id - 1, "d", *gone, 0])
        line = right_line(rng, held, count, next_id, groups)
        if line is not None:
            lines.append(line)
            if line[1] == 0:
                return lines
        next_id += rng.choice((1, 1, 1, 2))
    return lines


def damage_words(rng, words, top):
    place = rng.randrange(len(words))
    kind = rng.randrange(5)
    if kind == 0:
        words[place] = rng.choice((1, -1)) * rng.randint(0, top)
    elif kind == 1:
        del words[place]
    elif kind == 2:
        words.insert(place, words[rng.randrange(len(words))])
    elif kind == 3 and isinstance(words[place], int):
        words[place] = -words[place]
    else:
        other = rng.randrange(len(words))
        words[place], words[other] = words[other], words[place]


def damage_lines(rng, lines, top):
    place = rng.randrange(len(lines))
    kind = rng.randrange(6)
    if kind == 0:
        del lines[place]
    elif kind == 1:
        lines.insert(rng.randrange(len(lines) + 1), list(lines[place]))
    elif kind == 2:
        other = rng.randrange(len(lines))
        lines[place], lines[other] = lines[other], lines[place]
    elif lines[place]:
        damage_words(rng, lines[place], top)


def damage_bytes(rng, text):
    place = rng.randrange(len(text))
    kind = rng.randrange(3)
    if kind == 0:
        return text[:place]
    if kind == 1:
        return text[:place] + text[place + 1 :]
    return text[:place] + bytes([rng.choice(MARKS)]) + text[place + 1 :]


def weaken(rng, formula, count):
    """The formula with other clauses, until it can be satisfied; those before keep their ids."""
    formula = [list(clause) for clause in formula]
    while not is_satisfiable(formula):
        place = rng.randrange(len(formula))
        if rng.random() < 0.2:
            del formula[place]
        else:
            formula[place].append(rng.choice((1, -1)) * rng.randint(1, count))
    return formula


def random_case(rng):
    """A formula, and a text for it."""
    count = rng.randint(2, 5)
    formula = random_formula(rng, count)
    lines = right_lines(rng, formula, count, groups=rng.random() < 0.5)
    if rng.random() < 0.5:
        formula = weaken(rng, formula, count)
    for _ in range(rng.choice((0, 0, 1, 1, 2))):
        if lines:
            damage_lines(rng, lines, len(formula) + 8)
    text = b"".join(b" ".join(str(word).encode() for word in line) + b"\n" for line in lines)
    if text and rng.random() < 0.15:
        text = damage_bytes(rng, text)
    return formula, text
