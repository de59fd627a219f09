#!/usr/bin/env python3
"""Draws the crates, without the tests, as docs/crates.svg, and the speed as docs/speed.svg.

    tools/picture.py             writes the pictures
    tools/picture.py --check     fails if a picture is not what crates.txt and the tables of docs/SPEED.md and docs/OBJDUMP.md give

A crate is above those that it lists. A line leads to each of them that no other one of them lists, directly or not.
"""

from pages import speed
from shared import svg
from shared.arguments import read
from shared.crates import TOP, below, crates
from shared.written import write_or_check

PICTURE, SPEED = "docs/crates.svg", "docs/speed.svg"
PREFIX = "wasm_"
WIDTH, BOX, ROW, HEIGHT = 900, 26, 70, 20
COLOURS = {"library": "#e8f0fa", "program": "#e3f3e6", "C": "#fbeedd"}
ROUNDS = 40


def drawn():
    """Returns the crates to draw, each with the drawn crates that it lists."""
    listed = {name: uses for name, uses in crates().items() if not name.startswith(f"{PREFIX}tests_")}
    return {name: [it for it in uses if it in listed] for name, uses in listed.items()}


def lines_of(uses):
    """Returns for each crate the ones to which a line leads."""
    lower = {name: set(below(uses, name)) for name in uses}
    return {name: [it for it in those if not any(it in lower[other] for other in those)] for name, those in uses.items()}


def level_of(uses):
    found = {}
    for name in sorted(uses, key=lambda name: len(below(uses, name))):
        found[name] = 1 + max((found[it] for it in uses[name]), default=-1)
    return found


def routed(uses, lines):
    """Returns the rows, the lowest first, and the ways of the lines: a line has a bend in each row that it crosses."""
    level = level_of(uses)
    rows, ways = [[name for name in uses if level[name] == at] for at in range(max(level.values()) + 1)], []
    for name, those in lines.items():
        for other in those:
            bends = [(name, other, at) for at in range(level[name] - 1, level[other], -1)]
            for bend in bends:
                rows[bend[2]].append(bend)
            ways.append([name, *bends, other])
    return rows, ways


def placed(rows, ways):
    """Returns the middle of each crate and bend: near the middles of those that lines join to it."""
    joined = {it: [] for row in rows for it in row}
    for one, other in (pair for way in ways for pair in zip(way, way[1:])):
        joined[one].append(other)
        joined[other].append(one)
    middle = {it: WIDTH * (at + 0.5) / len(row) for row in rows for at, it in enumerate(row)}
    for _ in range(ROUNDS):
        for row in rows:
            pull = {it: sum(middle[other] for other in joined[it]) / max(1, len(joined[it])) for it in row}
            row.sort(key=lambda it: (pull[it], str(it)))
            middle |= apart(row, pull)
    return middle


def label(name):
    return name.removeprefix(PREFIX)


def width(it):
    return 16 + 6.8 * len(label(it)) if isinstance(it, str) else 2


def apart(row, pull):
    """Returns the middles of a row in order: where they are pulled, but without overlap."""
    found = dict(pull)
    for _ in range(60):
        for one, other in zip(row, row[1:]):
            overlap = (width(one) + width(other)) / 2 + 10 - (found[other] - found[one])
            if overlap > 0:
                found[one], found[other] = found[one] - overlap / 2, found[other] + overlap / 2
    return found


def kind(name):
    if (TOP / "crates" / name / "src/main.rt").exists():
        return "program"
    return "C" if name in ("wasm_view", "wasm_c", "wasm_c_exports") else "library"


def picture():
    uses = drawn()
    rows, ways = routed(uses, lines_of(uses))
    middle = placed(rows, ways)
    left = min(x - width(it) / 2 for it, x in middle.items()) - 8
    right = max(x + width(it) / 2 for it, x in middle.items()) + 8
    height = ROW * len(rows) + HEIGHT
    x_of = lambda it: f"{middle[it] - left:.0f}"
    top = {it: height - ROW * (at + 1) + (ROW - BOX) // 2 for at, row in enumerate(rows) for it in row}
    out = []
    for way in ways:
        points = " ".join(f"{x_of(it)},{top[it]} {x_of(it)},{top[it] + BOX}" for it in way)
        out.append(f'<polyline points="{points}" fill="none" stroke="#9aa5b1"/>')
    for name in uses:
        box = f'x="{middle[name] - width(name) / 2 - left:.0f}" y="{top[name]}" width="{width(name):.0f}" height="{BOX}"'
        out.append(f'<rect {box} rx="4" fill="{COLOURS[kind(name)]}" stroke="#51606e"/>')
        out.append(svg.text(x_of(name), top[name] + 17, label(name), ' text-anchor="middle"'))
    out += svg.legend(8, 6, 90, COLOURS, ' stroke="#51606e"')
    return svg.document(f"{right - left:.0f}", height, out)


def main():
    write_or_check({PICTURE: picture(), SPEED: speed.picture()}, read(__doc__, "--check").check, "tools/picture.py")


if __name__ == "__main__":
    main()
