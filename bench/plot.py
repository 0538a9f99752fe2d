#!/usr/bin/env python3
"""Draws the numbers that `measure.py --growth --json FILE` wrote.

    plot.py FILE OUT.svg

The picture has a panel for the inputs, on a scale of powers of ten, and one for each way in which a module grows.
"""

import json
import math
import sys
from html import escape
from pathlib import Path

WIDTH, PANEL, GAP, LEFT = 720, 190, 56, 200
INK, SOFT, BAR, LINE = "#1b1b1b", "#8a8a8a", "#3b6ea5", "#b3541e"


def text(x, y, words, anchor="start", colour=INK, size=12):
    return f'<text x="{x:.1f}" y="{y:.1f}" text-anchor="{anchor}" font-size="{size}" fill="{colour}">{escape(words)}</text>'


def bars(inputs, top):
    """The instructions a tick of each input."""
    shapes = [text(20, top, "Machine instructions a tick", size=14)]
    scale = (WIDTH - LEFT - 90) / 5
    for row, (name, numbers) in enumerate(inputs.items()):
        count = numbers["instructions"]
        y = top + 20 + 22 * row
        length = scale * max(0.0, math.log10(max(count, 0.01)) + 2)
        shapes += [
            text(LEFT - 10, y + 12, name, "end"),
            f'<rect x="{LEFT}" y="{y}" width="{length:.1f}" height="16" fill="{BAR}"/>',
            text(LEFT + length + 6, y + 12, f"{count:.2f}"),
        ]
    bottom = top + 20 + 22 * len(inputs)
    for power in range(-2, 4):
        x = LEFT + scale * (power + 2)
        shapes += [f'<line x1="{x:.1f}" x2="{x:.1f}" y1="{top + 14}" y2="{bottom}" stroke="{SOFT}" stroke-width="0.5"/>']
        shapes += [text(x, bottom + 14, f"{10.0 ** power:g}", "middle", SOFT, 10)]
    return shapes, bottom + 30


def curve(title, points, top):
    """How the instructions of a tick grow."""
    width, height = WIDTH - LEFT - 60, PANEL - 50
    most = max(count for _, count in points) * 1.1 or 1
    shapes = [text(20, top, f"Instructions a tick, by {title}", size=14)]
    shapes += [f'<rect x="{LEFT}" y="{top + 14}" width="{width}" height="{height}" fill="none" stroke="{SOFT}" stroke-width="0.5"/>']
    places = []
    for place, (size, count) in enumerate(points):
        x = LEFT + width * (place + 0.5) / len(points)
        y = top + 14 + height * (1 - count / most)
        places.append(f"{x:.1f},{y:.1f}")
        shapes += [f'<circle cx="{x:.1f}" cy="{y:.1f}" r="3" fill="{LINE}"/>', text(x, y - 8, f"{count:.1f}", "middle", size=10)]
        shapes += [text(x, top + 14 + height + 14, "none" if size == 0 else str(size), "middle", SOFT, 10)]
    shapes += [f'<polyline points="{" ".join(places)}" fill="none" stroke="{LINE}" stroke-width="1.5"/>']
    return shapes, top + PANEL + GAP - 30


def main(numbers, out):
    shapes, top = bars(numbers["inputs"], 30)
    for title, points in numbers.get("growth", {}).items():
        more, top = curve(title, points, top + 20)
        shapes += more
    head = f'<svg xmlns="http://www.w3.org/2000/svg" viewBox="0 0 {WIDTH} {top}" width="{WIDTH}" height="{top}" font-family="sans-serif">'
    out.write_text("\n".join([head, f'<rect width="{WIDTH}" height="{top}" fill="white"/>', *shapes, "</svg>"]) + "\n")


if __name__ == "__main__":
    if len(sys.argv) != 3:
        sys.exit(__doc__)
    main(json.loads(Path(sys.argv[1]).read_text()), Path(sys.argv[2]))
