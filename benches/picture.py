"""Draws benches/times.svg: the seconds of `drat_check`, of the program beside it, and by the clock of pieces on four processors, from the
proofs of benches/drat_list.txt.

    python3 benches/picture.py             writes the picture
    python3 benches/picture.py --check     says whether the picture is the one that would be written, and writes nothing
"""

import math
import os
import sys

HERE = os.path.dirname(os.path.abspath(__file__))
PICTURE = os.path.join(HERE, "times.svg")

WIDTH, HEIGHT, LEFT, TOP, RIGHT, BOTTOM = 820, 430, 70, 46, 36, 50
BYTES, SECONDS = (1e5, 1e9), (0.01, 100)
SERIES = (
    ("drat_check", "#2b6cb0"),
    ("the program in C++, which checks no line", "#c05621"),
    ("drat_check on pieces, four at a time", "#2f855a"),
)


def text_of(path):
    with open(path, encoding="utf-8") as file:
        return file.read()


def rows():
    """Each proof with its bytes and the times of each series that it has."""
    for line in text_of(os.path.join(HERE, "drat_list.txt")).splitlines():
        if not line.startswith("#"):
            name, size, _, ours, _, _, other, _, _, _, *clock = line.split()
            yield name, int(size), [float(it) for it in (ours, other, *clock[-1:])]


def along(value, ends, first, last):
    """The place of a value on a scale of logarithms. What is below the scale stands at its end."""
    low, high = map(math.log, ends)
    return first + (last - first) * (math.log(max(value, ends[0])) - low) / (high - low)


def at(size, seconds):
    return along(size, BYTES, LEFT, WIDTH - RIGHT), along(seconds, SECONDS, HEIGHT - BOTTOM, TOP)


def text(x, y, words, style="note", anchor="middle"):
    return f'<text x="{x:.1f}" y="{y:.1f}" class="{style}" text-anchor="{anchor}">{words}</text>'


def scales():
    right, bottom = WIDTH - RIGHT, HEIGHT - BOTTOM
    for size, words in ((1e5, "100 kB"), (1e6, "1 MB"), (1e7, "10 MB"), (1e8, "100 MB"), (1e9, "1 GB")):
        x = at(size, 1)[0]
        yield f'<path d="M{x:.1f} {TOP}V{bottom}" class="line"/>'
        yield text(x, bottom + 18, words)
    for seconds in (0.01, 0.1, 1, 10, 100):
        y = at(1e5, seconds)[1]
        yield f'<path d="M{LEFT} {y:.1f}H{right}" class="line"/>'
        yield text(LEFT - 8, y + 4, f"{seconds:g} s", anchor="end")
    yield text((LEFT + right) / 2, bottom + 38, "bytes of the DRAT proof")


def points():
    for name, size, times in rows():
        x, low, high = at(size, min(times))[0], at(size, min(times))[1], at(size, max(times))[1]
        yield f'<path d="M{x:.1f} {low:.1f}V{high:.1f}" stroke="#999999"/>'
        for seconds, (_, fill) in zip(times, SERIES):
            y = at(size, seconds)[1]
            yield f'<circle cx="{x:.1f}" cy="{y:.1f}" r="4" fill="{fill}"><title>{name}: {seconds:g} s</title></circle>'


def picture():
    out = [
        f'<svg xmlns="http://www.w3.org/2000/svg" width="{WIDTH}" height="{HEIGHT}" viewBox="0 0 {WIDTH} {HEIGHT}" role="img">',
        "<title>Seconds of drat_check, beside a program that makes its lines and does not check them</title>",
        "<style>text { font-family: 'DejaVu Sans', Verdana, sans-serif; fill: #222222 } .title { font-size: 13px }"
        " .note { font-size: 11.5px; fill: #444444 } .line { stroke: #dddddd }</style>",
        f'<rect width="{WIDTH}" height="{HEIGHT}" rx="6" fill="#ffffff"/>',
        *scales(),
        *points(),
    ]
    for (words, fill), x in zip(SERIES, (LEFT, 190, 520)):
        out.append(f'<circle cx="{x + 5}" cy="22" r="5" fill="{fill}"/>')
        out.append(text(x + 16, 26, words, "title", "start"))
    return "\n".join([*out, "</svg>", ""])


def main(words):
    drawn = picture()
    if words == ["--check"]:
        if not os.path.exists(PICTURE) or text_of(PICTURE) != drawn:
            print("benches/times.svg is out of date: run benches/picture.py")
            return 1
        return 0
    if words:
        print(__doc__)
        return 2
    with open(PICTURE, "w", encoding="utf-8") as file:
        file.write(drawn)
    return 0


sys.exit(main(sys.argv[1:]))
