#!/usr/bin/env python3
"""Draws docs/solution-times.svg from the rows `a solution` of the table in docs/PERFORMANCE.md, both axes by powers of ten."""

import re
from math import log10
from pathlib import Path

DOCS = Path(__file__).resolve().parent
LEFT, RIGHT, TOP, BOTTOM = 70, 620, 30, 350
MOST = 4  # 10,000 µs, four tens above 1 µs
LINES = [("#0a6", "solution"), ("#c40", "sexp.rs, parser.rs and uncurry")]


def main():
    rows = re.findall(r"^\| a solution \| ([\d,]+) \| ([\d,.]+) µs \| ([\d,.]+) µs \|", (DOCS / "PERFORMANCE.md").read_text(), re.M)
    points = [[float(cell.replace(",", "")) for cell in row] for row in rows]
    first, last = log10(points[0][0]), log10(points[-1][0])

    def x(size):
        return LEFT + 22 + (RIGHT - LEFT - 44) * (log10(size) - first) / (last - first)

    def y(time):
        return BOTTOM - (BOTTOM - TOP) * log10(time) / MOST

    svg = ['<svg xmlns="http://www.w3.org/2000/svg" viewBox="0 0 640 400" font-family="sans-serif" font-size="12">', '<rect width="640" height="400" fill="white"/>']
    for power in range(MOST + 1):
        at = y(10**power)
        svg += [f'<line x1="{LEFT}" y1="{at:.1f}" x2="{RIGHT}" y2="{at:.1f}" stroke="#ddd"/>', f'<text x="{LEFT - 6}" y="{at + 4:.1f}" text-anchor="end">{10**power:,} µs</text>']
    for size, *_ in points:
        svg += [f'<line x1="{x(size):.1f}" y1="{TOP}" x2="{x(size):.1f}" y2="{BOTTOM}" stroke="#eee"/>', f'<text x="{x(size):.1f}" y="{BOTTOM + 18}" text-anchor="middle">{size:,.0f}</text>']
    svg.append(f'<text x="{(LEFT + RIGHT) / 2}" y="390" text-anchor="middle">bytes of the text</text>')
    for which, (colour, name) in enumerate(LINES, 1):
        path = " L".join(f"{x(row[0]):.1f},{y(row[which]):.1f}" for row in points)
        svg.append(f'<path d="M{path}" fill="none" stroke="{colour}" stroke-width="2"/>')
        svg += [f'<circle cx="{x(row[0]):.1f}" cy="{y(row[which]):.1f}" r="3" fill="{colour}"/>' for row in points]
        svg.append(f'<rect x="82" y="{16 + 20 * which}" width="14" height="4" fill="{colour}"/><text x="102" y="{22 + 20 * which}">{name}</text>')
    (DOCS / "solution-times.svg").write_text("\n".join(svg + ["</svg>"]) + "\n")


main()
