"""Writes clauses of DRAT text, from standard input to standard output, as binary DRAT."""

import sys


def written(number):
    """A literal or the end of a clause: twice its variable, and 1 more where it is negative, in groups of seven bits."""
    value = 2 * abs(number) + (number < 0)
    out = []
    while value > 127:
        out.append(value % 128 + 128)
        value //= 128
    return bytes([*out, value])


for line in sys.stdin:
    sys.stdout.buffer.write(b"a" + b"".join(written(int(word)) for word in line.split()))
