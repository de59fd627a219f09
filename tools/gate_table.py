#!/usr/bin/env python3
"""Writes docs/GATE.md and docs/gate.svg, what the crates cost in the gate, from a log of `.ci/run`.

    tools/gate_table.py LOG NOTE
    tools/gate_table.py --summary LOG

NOTE is a sentence for the page: the commit, the machine. The costs of several logs joined to one, of runs that continued
each other, are added.
`--summary` prints the figures of a log. Minutes come from tools/timed.py, functions and edits from `rt`, the edits
outside the gate from tools/more_must_fail.tsv.
"""

import re
import sys
import textwrap
from pathlib import Path

sys.path[:0] = [str(Path(__file__).resolve().parent / "generate"), str(Path(__file__).resolve().parent)]

from edits import recorded
from shared import arguments, svg
from shared.crates import TOP

PAGE = TOP / "docs" / "GATE.md"
CHART = TOP / "docs" / "gate.svg"
# The rows of a table, and the bars of the chart; the other crates are one.
ROWS = 10
COLOURS = {"proof": "#1f5fa8", "edits": "#b3541e"}

RUN, OUTSIDE = ((TOP / f"tools/pages/gate-{name}.md.txt").read_text(encoding="utf-8") for name in ("run", "outside"))


class Crate:
    def __init__(self):
        self.functions = 0
        self.tried = set()
        self.processor = {}
        self.wall = {}

    @property
    def edits(self):
        return len(self.tried)


def read(text):
    crates, whole, last, name = {}, None, "", None
    for line in text.split("\n"):
        if found := re.fullmatch(r"== (\w+)", line):
            name = found[1]
        elif (found := re.match(r"logic=proved functions=(\d+)", line)) and name:
            crates.setdefault(name, Crate()).functions = int(found[1])
        elif found := re.match(r"rt: must-fail (\w+)/(\S+): refused, as it must be", line):
            crates.setdefault(found[1], Crate()).tried.add(found[2])
        elif found := re.fullmatch(r"cost all (\d+) (\d+) (\d+)", line):
            processor, wall, count = map(int, found.groups())
            before = whole or (0, 0, 0)
            whole = before[0] + processor, before[1] + wall, count
        elif found := re.fullmatch(r"cost (\w+) (\w+) (\d+) (\d+)", line):
            crate = crates.setdefault(found[1], Crate())
            for costs, more in ((crate.processor, found[3]), (crate.wall, found[4])):
                costs[found[2]] = costs.get(found[2], 0) + int(more)
        elif re.fullmatch(r"\d+ passed, \d+ failed", line):
            last = line
    return crates, whole, last


def minutes(seconds):
    return f"{seconds / 60:.1f}" if seconds else ""


def shown(crates):
    """Returns the most expensive crates, and the sum of the others as one."""
    names = by_cost(crates)
    rest, out = [crates[name] for name in names[ROWS:]], {f"`{name}`": crates[name] for name in names[:ROWS]}
    if rest:
        others = out[f"{len(rest)} others"] = Crate()
        others.functions = sum(it.functions for it in rest)
        others.tried = {(at, edit) for at, it in enumerate(rest) for edit in it.tried}
        others.processor = {part: sum(it.processor.get(part, 0) for it in rest) for part in COLOURS}
    return out


def chart(crates):
    """Returns a bar for each shown crate: CPU minutes of its proof and of its edits."""
    costs = [(name.strip("`"), [crate.processor.get(part, 0) for part in COLOURS]) for name, crate in shown(crates).items()]
    parts, y = svg.bars(10, [(name, seconds, minutes(sum(seconds))) for name, seconds in costs], COLOURS)
    legend = {f"CPU minutes of {part}": colour for part, colour in COLOURS.items()}
    return svg.document(svg.WIDTH, y + 34, parts + svg.legend(svg.LEFT, y + 8, 160, legend))


def row(name, crate):
    costs = crate.processor.get("proof", 0), crate.wall.get("proof", 0), crate.processor.get("edits", 0)
    cells = map(minutes, costs)
    return f"| {name} | {crate.functions or ''} | {' | '.join(cells)} | {crate.edits or ''} |"


def measured(text):
    crates, whole, last = read(text)
    if whole is None or not crates:
        sys.exit("the log has no lines of costs: it is not a log of .ci/run")
    return crates, whole, last


def by_cost(crates):
    return sorted(crates, key=lambda name: (-sum(crates[name].processor.values()), name))


def summary(text):
    crates, (processor, wall, count), _ = measured(text)
    whole = f"{minutes(wall)} minutes wall-clock on {count} processors, {minutes(processor)} CPU minutes"
    parts = lambda it: "+".join(minutes(it.processor.get(part, 0)) or "0" for part in ("proof", "edits"))
    cells = [f"{name} {crates[name].functions} {parts(crates[name])}" for name in by_cost(crates)]
    head = f"rt ci took {whole}. Each crate's functions, and CPU minutes for proof and edits:"
    return "\n".join([head, *textwrap.wrap(", ".join(cells), 116)])


def run_section(text, note=""):
    crates, (processor, wall, count), last = measured(text)
    said = {"wall": minutes(wall), "processor": minutes(processor), "count": count, "last": last}
    head = RUN.format(**said, note=f" {note}" if note else "")
    functions, edits = (sum(getattr(it, word) for it in crates.values()) for word in ("functions", "edits"))
    parts = [sum(it.processor.get(part, 0) for it in crates.values()) for part in ("proof", "edits")]
    proof, tried = map(minutes, parts)
    total = f"| all | {functions} | {proof} | | {tried} | {edits} |"
    table = "\n".join([*(row(name, crate) for name, crate in shown(crates).items()), total, ""])
    return head + table


def outside_section(rows):
    if not rows:
        return ""
    total = sum(int(row["edits"]) for row in rows)
    lines = [f"| `{row['crate']}` | {row['edits']} | `{row['commit']}` | {row['date']} |" for row in rows]
    return OUTSIDE + "\n".join([*lines, f"| all | {total} | | |", ""])


def page(text, note="", rows=()):
    """Returns the page with its head and new sections."""
    head = PAGE.read_text(encoding="utf-8").split("\n## ")[0]
    return "".join([head, run_section(text, note), outside_section(rows)])


def main():
    sys.dont_write_bytecode = True
    given = arguments.read(__doc__, "--summary", "LOG", "[NOTE]")
    text = given.log.read_text(encoding="utf-8", errors="replace")
    if given.summary:
        print(summary(text))
    elif given.note:
        PAGE.write_text(page(text, given.note, recorded()), encoding="utf-8")
        CHART.write_text(chart(measured(text)[0]), encoding="utf-8")
        print("docs/GATE.md, docs/gate.svg")
    else:
        sys.exit(__doc__)


if __name__ == "__main__":
    main()
