"""Draws the times and instructions of docs/SPEED.md and docs/OBJDUMP.md, and for comparison wasmparser's and wabt's."""

import re

from shared import svg
from shared.crates import TOP

COLOURS = {"this decoder": "#1f5fa8", "wasmparser, wabt": "#b3541e"}
READERS = ("count_any", "count_some", "read", "read_vec")
MODULES = ("large", "larger")
NUMBER = re.compile(r"\d+(?:\.\d+)?")


def rows_of(page, start, names):
    """Returns the rows of the first table after a text of a page, by their names: the numbers of each cell, as they are written."""
    table = (TOP / "docs" / page).read_text(encoding="utf-8").split(start, 1)[1]
    found = {}
    for name in names:
        cells = re.search(rf"^\| ?`{name}`([^|]*)\|(.*)\|$", table, re.M)[2].split("|")
        found[name] = [NUMBER.findall(cell) for cell in cells]
    return found


def panels():
    """Returns for each panel its title, and for each row its name and two numbers."""
    times = rows_of("SPEED.md", "## Readers of operators", READERS)
    counts = rows_of("SPEED.md", "### What holds the results back", READERS)
    listings = rows_of("OBJDUMP.md", "## Figures", MODULES)
    # (a time is followed by its ratio to wasmparser's; wasmparser has one visit, whose instructions the first row has)
    time = {name: (float(cells[0][0]), float(cells[0][0]) / float(cells[0][1])) for name, cells in times.items()}
    visit = counts[READERS[0]][0][2]
    count = {name: (float(cells[0][0]), float(cells[0][2] if len(cells[0]) > 2 else visit)) for name, cells in counts.items()}
    return {
        "Nanoseconds per operator, sqlite3": time,
        "Instructions per operator, sqlite3": count,
        "Seconds to disassemble a module": {name: tuple(map(float, cells[-1])) for name, cells in listings.items()},
    }


def shown(number):
    return f"{number:.0f}" if number > 20 else f"{number:.1f}" if number > 5 else f"{number:.2f}"


def picture():
    parts, y = svg.legend(svg.LEFT, 8, 160, COLOURS), 34
    for title, rows in panels().items():
        parts.append(svg.text(svg.LEFT, y + 14, title, ' font-weight="bold"'))
        pairs = [(name, own, other) for name, (own, other) in rows.items()]
        lines = [line for name, own, other in pairs for line in ((name, (own, 0), shown(own)), ("", (0, other), shown(other)))]
        more, y = svg.bars(y + 22, lines, COLOURS)
        parts, y = parts + more, y + 8
    return svg.document(svg.WIDTH, y, parts)
