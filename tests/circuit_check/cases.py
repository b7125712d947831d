#!/usr/bin/env python3
"""Random circuits, and texts that are nearly ones.

cases.py SEED COUNT TEXTS SAID      writes COUNT texts into TEXTS, each after its length in four bytes, and what they
                                    say, by aiger.py, as lines into SAID
"""
import random
import struct
import sys

import aiger


def random_circuit(rng, most=6):
    inputs = rng.randrange(most)
    latches = rng.choice([0, 0, 1, 2, 3])
    gates = rng.randrange(12) if inputs + latches else rng.randrange(3)
    c = aiger.Circuit(inputs)
    for k in range(gates):
        own = 2 * (inputs + latches + 1 + k)
        left = rng.randrange(own)
        c.gates.append((own, left, rng.randrange(left + 1)))
    top = 2 * (inputs + latches + gates) + 2
    for k in range(latches):
        c.latches.append((2 * (inputs + 1 + k), rng.randrange(top), rng.choice([0, 0, 1, None])))
    c.outputs = [rng.randrange(top) for _ in range(rng.randrange(4))]
    c.bad = [rng.randrange(top) for _ in range(rng.choice([0, 0, 1, 2]))]
    c.constraints = [rng.randrange(top) for _ in range(rng.choice([0, 0, 0, 1, 2]))]
    return c


def random_tail(rng, c):
    tail = b""
    for letter, count in zip("ilobc", (c.inputs, len(c.latches), len(c.outputs), len(c.bad), len(c.constraints))):
        for k in range(count):
            if rng.random() < 0.3:
                tail += f"{letter}{k} {rng.choice(['x', 'a b', '', 'c', 'y[0]'])}\n".encode()
    return tail + rng.choice([b"", b"", b"c\n", b"c\nany\n", b"c\nno line feed"])


def spoiled(rng, data):
    """The text with a few bytes changed, taken away or put in."""
    data = bytearray(data)
    for _ in range(rng.choice([1, 1, 1, 2, 3])):
        at = rng.randrange(len(data) + 1)
        way = rng.randrange(4)
        new = rng.choice([rng.randrange(256), *b"0123456789 \n\r\tcigalobjf-", 128, 255])
        if way == 0:
            data.insert(at, new)
        elif at < len(data):
            if way == 1:
                del data[at]
            elif way == 2:
                data[at] = new
            else:
                del data[at:]
    return bytes(data)


def main():
    seed, count, texts, said = sys.argv[1:]
    rng = random.Random(int(seed))
    with open(texts, "wb") as out, open(said, "w") as lines:
        for _ in range(int(count)):
            c = random_circuit(rng)
            data = rng.choice([aiger.write, aiger.write_text])(c, random_tail(rng, c))
            if rng.random() < 0.6:
                data = spoiled(rng, data)
            out.write(struct.pack("<I", len(data)) + data)
            try:
                lines.write(aiger.read(data).show() + "\n")
            except aiger.Fault as fault:
                lines.write(f"{fault}\n")


if __name__ == "__main__":
    main()
