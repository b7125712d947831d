"""A cactus plot as SVG: how many formulas each solver has solved after how many seconds."""

import math
from typing import Dict, List
from xml.sax.saxutils import escape

WIDTH, HEIGHT = 720, 440
LEFT, TOP, RIGHT, BOTTOM = 64, 20, 20, 56
# (of Okabe and Ito, which people with other sights of colors tell apart)
COLORS = ("#0072b2", "#d55e00", "#009e73", "#cc79a7", "#e69f00", "#56b4e9", "#000000")
DASHES = ("", "7 3", "2 3")
STEPS = (1, 2, 5)


def ticks_of(top: float) -> List[float]:
    """Returns round numbers from 0 up to the first one that is not below `top`, at most eight."""
    unit = 10.0 ** math.floor(math.log10(top))
    wide = [scale * step for scale in (unit / 10, unit) for step in STEPS]
    step = next(it for it in wide if top / it <= 7)
    return [round(step * it, 12) for it in range(math.ceil(top / step - 1e-9) + 1)]


class Plot:
    """A plane of formulas and seconds, both from 0 on."""

    def __init__(self, most: int, longest: float) -> None:
        self.across = [it for it in ticks_of(max(most, 1)) if it == int(it)]
        self.up = ticks_of(longest if longest > 0 else 1.0)
        self.lines: List[str] = []

    def x(self, number: float) -> float:
        return round(LEFT + number / self.across[-1] * (WIDTH - LEFT - RIGHT), 1)

    def y(self, seconds: float) -> float:
        return round(HEIGHT - BOTTOM - seconds / self.up[-1] * (HEIGHT - TOP - BOTTOM), 1)

    def add(self, line: str) -> None:
        self.lines.append(line)

    def axes(self) -> None:
        low, left = self.y(0), self.x(0)
        for number in self.across:
            x = self.x(number)
            self.add(f'<path class="grid" d="M{x} {TOP}V{low}"/>')
            self.add(f'<text x="{x}" y="{low + 18}" text-anchor="middle">{number:g}</text>')
        for seconds in self.up:
            y = self.y(seconds)
            self.add(f'<path class="grid" d="M{left} {y}H{WIDTH - RIGHT}"/>')
            self.add(f'<text x="{left - 8}" y="{y + 4}" text-anchor="end">{seconds:g}</text>')
        middle = (left + WIDTH - RIGHT) / 2
        label = "formulas with a verified answer"
        self.add(f'<text x="{middle}" y="{HEIGHT - 14}" text-anchor="middle">{label}</text>')
        turned = f'transform="translate(16 {(TOP + low) / 2}) rotate(-90)" text-anchor="middle"'
        self.add(f"<text {turned}>seconds of the solver</text>")

    def curve(self, place: int, name: str, seconds: List[float]) -> None:
        """Adds a curve, a point for each formula, and its name on the upper left."""
        color = COLORS[place % len(COLORS)]
        dash = DASHES[place // len(COLORS) % len(DASHES)]
        style = f'stroke="{color}"' + (f' stroke-dasharray="{dash}"' if dash else "")
        points = " ".join(f"{self.x(k)},{self.y(it)}" for k, it in enumerate(seconds, 1))
        self.add(f'<polyline {style} points="{points}"/>')
        for k, it in enumerate(seconds, 1):
            self.add(f'<circle cx="{self.x(k)}" cy="{self.y(it)}" r="2.5" fill="{color}"/>')
        y = TOP + 18 + 18 * place
        self.add(f'<path class="key" {style} d="M{LEFT + 12} {y - 4}h24"/>')
        self.add(f'<text x="{LEFT + 42}" y="{y}">{escape(name)} ({len(seconds)})</text>')


def svg_of(curves: Dict[str, List[float]]) -> str:
    """Returns the plot of the seconds of each solver, sorted. A point k, s of a curve says that k
    formulas took at most s seconds each."""
    found = [it for seconds in curves.values() for it in seconds]
    most = max((len(it) for it in curves.values()), default=0)
    plot = Plot(most, max(found, default=0.0))
    plot.axes()
    for place, (name, seconds) in enumerate(curves.items()):
        plot.curve(place, name, seconds)
    head = f'<svg xmlns="http://www.w3.org/2000/svg" viewBox="0 0 {WIDTH} {HEIGHT}">'
    style = "text{font:13px sans-serif;fill:#222}.grid{stroke:#ddd}"
    style += "polyline,.key{fill:none;stroke-width:1.8}"
    paper = f'<rect width="{WIDTH}" height="{HEIGHT}" fill="#fff"/>'
    return "\n".join([head, f"<style>{style}</style>", paper, *plot.lines, "</svg>", ""])
