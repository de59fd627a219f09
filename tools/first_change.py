#!/usr/bin/env python3
"""Does the first change of CONTRIBUTING.md in a fresh clone, and compares what the page shows.

    tools/first_change.py

It runs each command of that section, in the order of the page. In the output that the page shows, `..` is anything: lines,
or the rest of a line. Commands run one after another in the same folder. Steps 2 and 5 change a file first.
"""

import re
import subprocess
import sys
import tempfile
from pathlib import Path

from shared.arguments import read
from shared.crates import TOP

PAGE = TOP / "CONTRIBUTING.md"
STEP = re.compile(r"^\*\*(\d)\. ", re.M)
# The changes of the page's text: its file, and the code before and after.
BROKEN = ("crates/wasm_below/src/binary_reader.rt", "self.original_offset + self.position as u64", "self.position as u64")
CASES = "crates/wasm_dump/cases.tsv"


class Wrong(Exception):
    """The page shows something else than what happens."""


def section():
    text = PAGE.read_text(encoding="utf-8")
    return text.split("## A first change", 1)[1].split("\n## ", 1)[0]


def steps(text):
    """Returns the text of each step, by its number."""
    parts = STEP.split(text)[1:]
    return {int(number): part for number, part in zip(parts[::2], parts[1::2])}


def blocks(text):
    return ["\n".join(line[4:] for line in found.strip("\n").split("\n")) for found in re.findall(r"(?:^    .*\n?)+", text, re.M)]


def commands(block):
    """Yields the commands of a block, each with the lines that the page shows below it."""
    for part in re.split(r"^\$ ", block, flags=re.M)[1:]:
        command, *shown = part.rstrip("\n").split("\n")
        yield command, shown


def pattern(line):
    return re.escape(line.removesuffix("..").rstrip()) + (".*" if line.endswith("..") else "")


def shows(shown, output):
    """Returns the first line of the page that does not come next in the output, or None."""
    lines, at = output.split("\n"), 0
    for line in (it for it in shown if it.strip() != ".."):
        found = next((i for i in range(at, len(lines)) if re.fullmatch(pattern(line), lines[i].rstrip())), None)
        if found is None:
            return line
        at = found + 1
    return None


def replace(path, old, new):
    text = path.read_text(encoding="utf-8")
    if text.count(old) != 1:
        raise Wrong(f"{path}: `{old}` is there {text.count(old)} times")
    path.write_text(text.replace(old, new), encoding="utf-8")


def change(number, step, clone):
    """Makes the change that the text of a step describes."""
    if number == 2:
        path, old, new = BROKEN
        if f"`{old}`" not in step or f"`{new}`" not in step:
            raise Wrong("step 2 does not have the change that this tool makes")
        replace(clone / path, old, new)
    elif number == 5:
        (row,) = blocks(step)
        with open(clone / CASES, "a", encoding="utf-8") as out:
            out.write(f"{row}\n")
        subprocess.run([sys.executable, "-B", "tools/test", "wasm_dump/cases"], cwd=clone, check=True)


def follow(clone):
    folder = clone
    for number, step in steps(section()).items():
        change(number, step, clone)
        for command, shown in (it for block in blocks(step) for it in commands(block)):
            print(f"{number}. {command}", flush=True)
            ran = subprocess.run(["bash", "-c", f"{command}; pwd > {clone}/.folder"], cwd=folder, capture_output=True, text=True)
            output = ran.stdout + ran.stderr
            if (line := shows(shown, output)) is not None:
                raise Wrong(f"step {number} does not print, or not in this place:\n    {line}\nbut\n{output[-3000:]}")
            folder = Path((clone / ".folder").read_text(encoding="utf-8").strip())
        if number == 3:
            folder = clone


def main():
    read(__doc__)
    with tempfile.TemporaryDirectory(prefix="first-change-") as scratch:
        clone = Path(scratch) / "clone"
        subprocess.run(["git", "clone", "--quiet", TOP, clone], check=True)
        try:
            follow(clone)
        except Wrong as why:
            print(f"first_change: {why}")
            return 1
    print("first_change: the page shows what happens")
    return 0


if __name__ == "__main__":
    sys.exit(main())
