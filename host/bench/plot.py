#!/usr/bin/env python3
"""usage: plot.py < growth.txt > growth.svg: the curves that growth prints, as one picture (Python's standard library only)."""
import sys

WIDTH, HEIGHT, LEFT, TOP, WIDE, HIGH = 1020, 340, 60, 40, 250, 230
TITLES = {"changes": "changes to each item since the snapshot", "items": "items (1 change each)", "workers": "workers (256 items)"}


def curve(name, points, at):
    """One frame: a whole total in microseconds over the curve's own measure."""
    left = LEFT + at * (WIDE + 80)
    most_x, most_y = max(p[0] for p in points), max(p[1] for p in points) * 1.1
    place = lambda x, y: (left + WIDE * x / most_x, TOP + HIGH - HIGH * y / most_y)
    yield f'<rect x="{left}" y="{TOP}" width="{WIDE}" height="{HIGH}" fill="none" stroke="#888"/>'
    yield f'<text x="{left + WIDE / 2}" y="{TOP + HIGH + 36}" text-anchor="middle">{TITLES[name]}</text>'
    for share in (0, 0.5, 1):
        yield f'<text x="{left + WIDE * share}" y="{TOP + HIGH + 16}" text-anchor="middle">{most_x * share:g}</text>'
        yield f'<text x="{left - 6}" y="{TOP + HIGH - HIGH * share + 4}" text-anchor="end">{most_y * share:.3g}</text>'
    yield '<polyline fill="none" stroke="#06c" stroke-width="2" points="' + " ".join("%.1f,%.1f" % place(x, y) for x, y in points) + '"/>'
    for x, y in points:
        yield '<circle cx="%.1f" cy="%.1f" r="3" fill="#06c"/>' % place(x, y)


def main():
    curves = {}
    for text in sys.stdin:
        name, x, total = text.split()[:3]
        curves.setdefault(name, []).append((float(x), float(total) / 1000))
    print(f'<svg xmlns="http://www.w3.org/2000/svg" width="{WIDTH}" height="{HEIGHT}" font-family="sans-serif" font-size="12">')
    print(f'<rect width="{WIDTH}" height="{HEIGHT}" fill="white"/><text x="{LEFT}" y="22">A whole total, in microseconds (median)</text>')
    for at, (name, points) in enumerate(curves.items()):
        print("\n".join(curve(name, points, at)))
    print("</svg>")


main()
