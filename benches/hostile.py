#!/usr/bin/env python3
"""Writes formulas and proofs that cost as much as they can, and runs the program on each.

    benches/hostile.py PROGRAM [CASE..]

A line for each case: bytes of the proof, seconds of a processor, megabytes at most, what the program says. A run may take LIMIT seconds and
ROOM bytes. `benches/hostile.sh` builds the program and calls it.
"""
import os
import random
import resource
import subprocess
import sys
import tempfile

LIMIT = 120
ROOM = 12 << 30

GOLDEN = 0x9E3779B97F4A7C15
MASK = (1 << 64) - 1
LAST_VAR = (1 << 28) - 1
END = b"\x0d"


def number(value):
    """A number as the proof's bytes have it: seven bits a byte, the low ones first."""
    out = bytearray()
    while value > 127:
        out.append(value & 127 | 128)
        value >>= 7
    out.append(value)
    return bytes(out)


def numbers(values):
    values = list(values)
    return number(len(values)) + b"".join(map(number, values))


def code(lit):
    """The code of a DIMACS literal."""
    return 2 * (abs(lit) - 1) + (lit < 0)


def lits(clause):
    return numbers(map(code, clause))


def hash_of(clause, width=64):
    """The hash of a clause whose variables have no solver names."""
    value = 0
    for lit in clause:
        value ^= (code(lit) + (1 << 29) + 1) * GOLDEN & MASK
    return value >> 64 - width


def width(bits):
    return b"\x09" + number(bits)


def derive(clause, hashes, redundant=True):
    return b"\x06" + number(redundant) + lits(clause) + numbers(hashes)


def delete_satisfied(clause):
    return b"\x07\x01" + lits(clause)


def solver_name(var, name):
    return b"\x01" + number(var - 1) + number(name)


def model(clause):
    return b"\x0a" + lits(clause)


def dimacs(clauses):
    return "".join(" ".join(map(str, [*clause, 0])) + "\n" for clause in clauses)


def chain(length):
    """The clauses [-i, i + 1]."""
    return [[-i, i + 1] for i in range(1, length + 1)]


def widths_in_force():
    return dimacs(chain(50_000)), width(64) * 1_000_000 + END


def widths_in_turn():
    return dimacs(chain(50_000)), (width(63) + width(64)) * 100 + END


def renamings(clauses, named):
    # the unit 1 makes the derived clause true
    passed = derive([1], [])
    steps = b"".join(solver_name(named, 1 + place % 100) + passed for place in range(100_000))
    return dimacs([[1]] + [[-i, i + 1] for i in range(2, clauses + 2)]), steps + END


def renamings_of_100():
    return renamings(100, 110)


def renamings_of_1000():
    return renamings(1_000, 1_010)


def renamings_in_one_clause():
    return renamings(1_000, 2)


def two_buckets():
    # the last step fails after all visits, since no clause is unit
    clauses = [[-i, i + 1, i + 2] for i in range(1, 50_001)]
    return dimacs(clauses), width(1) + derive([], [0, 1] * 1_000)


def removals():
    # a removal alone is never applied, and the unit 1 makes each derived clause true
    return dimacs([[1]]), solver_name(1, 0) * 100_000 + derive([1], []) * 100_000 + END


def models():
    return dimacs([[1, 1_000_000]]), model([1]) * 100_000 + END


def models_of_one_variable():
    return dimacs([[1, 2]]), model([1]) * 100_000 + END


def last_var():
    return "", b"\x03" + number(LAST_VAR) + END


def var_of_a_quarter():
    return "", b"\x03" + number(LAST_VAR >> 2) + END


def long_clause():
    return "", b"\x05" + lits(range(1, 10_000_001)) + END


def long_clause_backwards():
    return "", b"\x05" + lits(range(10_000_000, 0, -1)) + END


def repeated_literal():
    return "", b"\x05" + lits([1] * 10_000_000) + END


def of_one_hash(count):
    # ternary clauses that the unit 1 makes true, all with the one-bit hash 0
    clauses, var = [], 2
    while len(clauses) < count:
        clause = [1, var, var + 1]
        if hash_of(clause, 1) == 0:
            clauses.append(clause)
        var += 1
    return clauses


def one_bucket(clauses, deleted):
    return dimacs([[1]] + clauses), width(1) + b"".join(map(delete_satisfied, deleted)) + END


def one_bucket_forwards():
    clauses = of_one_hash(100_000)
    return one_bucket(clauses, clauses)


def one_bucket_backwards():
    clauses = of_one_hash(100_000)
    return one_bucket(clauses, clauses[::-1])


def one_bucket_at_random():
    clauses = of_one_hash(100_000)
    return one_bucket(clauses, random.Random(1).sample(clauses, len(clauses)))


def one_bucket_grows():
    # the unit 1 makes each derived clause true
    steps = b"".join(derive(clause, []) for clause in of_one_hash(100_000))
    return dimacs([[1]]), width(1) + steps + END


def many_hashes():
    clause = [1, 2, 3]
    return dimacs([clause]), derive([4], [hash_of(clause)] * 10_000_000)


CASES = {
    it.__name__: it
    for it in (
        widths_in_force,
        widths_in_turn,
        renamings_of_100,
        renamings_of_1000,
        renamings_in_one_clause,
        two_buckets,
        removals,
        models,
        models_of_one_variable,
        var_of_a_quarter,
        last_var,
        long_clause,
        long_clause_backwards,
        repeated_literal,
        one_bucket_forwards,
        one_bucket_backwards,
        one_bucket_at_random,
        one_bucket_grows,
        many_hashes,
    )
}


def limited():
    resource.setrlimit(resource.RLIMIT_AS, (ROOM, ROOM))
    resource.setrlimit(resource.RLIMIT_CPU, (LIMIT, LIMIT))


def run(program, name, folder):
    cnf, proof = CASES[name]()
    paths = f"{folder}/{name}.cnf", f"{folder}/{name}.proof"
    with open(paths[0], "w") as file:
        file.write(cnf)
    with open(paths[1], "wb") as file:
        file.write(proof)
    with open(f"{folder}/said", "w+b") as said:
        child = subprocess.Popen([program, *paths], stdout=said, stderr=said, preexec_fn=limited)
        _, status, used = os.wait4(child.pid, 0)
        child.returncode = status
        seconds = used.ru_utime + used.ru_stime
        said.seek(0)
        text = said.read().decode().strip() or f"over {LIMIT} s"
    for path in paths:
        os.remove(path)
    print(f"| {name} | {len(proof):,} | {seconds:.2f} | {used.ru_maxrss / 1024:,.0f} | {text} |", flush=True)


def main():
    program, *names = sys.argv[1:]
    with tempfile.TemporaryDirectory() as folder:
        for name in names or CASES:
            run(program, name, folder)


if __name__ == "__main__":
    main()
