"""A random circuit in binary AIGER: random.py GATES SEED > FILE. It has a thousand inputs, and its outputs are the last eight gates."""
import random
import sys

INPUTS, OUTPUTS = 1000, 8


def leb(n):
    out = bytearray()
    while n > 127:
        out.append(n & 127 | 128)
        n >>= 7
    return bytes(out + bytes([n]))


def main():
    gates, rng = int(sys.argv[1]), random.Random(int(sys.argv[2]))
    top = INPUTS + gates
    to = sys.stdout.buffer
    to.write(b"aig %d %d 0 %d %d\n" % (top, INPUTS, OUTPUTS, gates))
    to.write(b"".join(b"%d\n" % (2 * (top - k)) for k in range(OUTPUTS)))
    for variable in range(INPUTS + 1, top + 1):
        right, left = sorted(rng.randrange(2, 2 * variable) for _ in range(2))
        to.write(leb(2 * variable - left) + leb(left - right))


main()
