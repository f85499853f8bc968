#!/usr/bin/env python3
"""Draws time over size: one small plot for each work that `bench/growth` times.

    bench/growth RIPLEY SCRIPT | tools/plot.py > docs/pictures/growth.svg

A line read is `WORK|SIZE|MILLISECONDS`. Each plot has its points, and the straight line from nothing through the last point:
points on that line are time in proportion to size. Both axes begin at 0.
"""

import html
import sys

WIDTH, HEIGHT, ACROSS = 300, 210, 3
LEFT, TOP, PLOT_WIDTH, PLOT_HEIGHT = 44, 40, 220, 120
STYLE = "text{font:11px sans-serif;fill:#222}.h{font-weight:bold}.a{stroke:#888}.l{stroke:#6a9fd8;stroke-dasharray:4 3}.p{fill:#1f4e8c}"


def read(lines) -> dict[str, list[tuple[int, float]]]:
    works: dict[str, list[tuple[int, float]]] = {}
    for line in lines:
        if line.count("|") == 2:
            work, size, time = line.strip().split("|")
            works.setdefault(work, []).append((int(size), float(time)))
    return works


def short(number: float) -> str:
    """A number in few letters: 1.6M, 250k, 12."""
    for factor, letter in ((1e6, "M"), (1e3, "k")):
        if number >= factor:
            return f"{number / factor:.3g}{letter}"
    return f"{number:.3g}"


def line(kind: str, x1: float, y1: float, x2: float, y2: float) -> str:
    return f'<line class="{kind}" x1="{x1:.1f}" y1="{y1:.1f}" x2="{x2:.1f}" y2="{y2:.1f}"/>'


def text(x: float, y: float, anchor: str, words: str, kind: str = "") -> str:
    return f'<text class="{kind}" x="{x:.1f}" y="{y:.1f}" text-anchor="{anchor}">{html.escape(words)}</text>'


def plot(work: str, points: list[tuple[int, float]]) -> list[str]:
    """A plot with its title, axes, points and line; a number is left out where it would touch the next one."""
    size, time = points[-1]
    right, bottom = LEFT + PLOT_WIDTH, TOP + PLOT_HEIGHT
    highest = max(time, *(taken for _, taken in points)) * 1.08
    along = lambda value: LEFT + PLOT_WIDTH * value / (size * 1.04)
    up = lambda value: bottom - PLOT_HEIGHT * value / highest
    out = [text(LEFT, 20, "start", work, "h"), line("a", LEFT, bottom, right, bottom), line("a", LEFT, TOP, LEFT, bottom)]
    out += [line("l", along(0), up(0), along(size), up(time)), text(LEFT, TOP - 6, "middle", "ms")]
    column, height = right + 99, TOP - 99
    for number, taken in reversed(points):
        out += [f'<circle class="p" cx="{along(number):.1f}" cy="{up(taken):.1f}" r="3.5"/>']
        if column - along(number) > 32:
            column = along(number)
            out.append(text(column, bottom + 15, "middle", short(number)))
        if up(taken) - height > 11:
            height = up(taken)
            out.append(text(LEFT - 5, height + 4, "end", short(taken)))
    return out


def main() -> int:
    works = read(sys.stdin)
    rows = -(-len(works) // ACROSS)
    size = f'width="{WIDTH * ACROSS}" height="{HEIGHT * rows}"'
    print(f'<svg xmlns="http://www.w3.org/2000/svg" {size} viewBox="0 0 {WIDTH * ACROSS} {HEIGHT * rows}">')
    print(f'<title>Time over size</title><style>{STYLE}</style><rect width="100%" height="100%" fill="#fff"/>')
    for number, (work, points) in enumerate(works.items()):
        x, y = WIDTH * (number % ACROSS), HEIGHT * (number // ACROSS)
        print(f'<g transform="translate({x} {y})">', *plot(work, points), "</g>", sep="\n")
    print("</svg>")
    return 0 if works else 1


if __name__ == "__main__":
    sys.exit(main())
