#!/usr/bin/env python3
"""Compares a checker of function bodies with the standard and wasmparser on small modules.

    tools/typing_cases.py                     compares the two programs wasm_validate that `rt ci` built
    tools/typing_cases.py --program PROGRAM   compares PROGRAM
    tools/typing_cases.py --messages ..       compares messages, too

PROGRAM is called with many files. It writes a line `FILE: error at 0xOFFSET (..): MESSAGE` for each file that it rejects,
and nothing for the others.

Verdicts are compared, and the offsets of errors.

The cases are in tools/original/typing_cases.tsv. A module is valid or not by the standard, or unsupported: it uses a
proposal without typing rules in this repository. Offset and message are from wasmparser 0.239 with all its features;
for unsupported modules, with its default ones. A cell with only `"` is the same as in the row before. A module is
`FIRST,LAST,HEX`: so many bytes of the module before, these, and so many of its last bytes.
"""

import re
import subprocess
import sys
import tempfile
from dataclasses import dataclass
from pathlib import Path

from shared.arguments import read
from shared.crates import TOP
from testing.built import over_programs

NAME = "wasm_validate"
TABLE = TOP / "tools" / "original" / "typing_cases.tsv"
COLUMNS = ["name", "label", "verdict", "offset", "message", "module"]
# In a cell: the same as in the row before.
SAME = '"'
BATCH = 200
SECONDS = 300
FUNCTION = r"(?: \(function \d+(?: <.*>)?\))?"
REJECTED = re.compile(rf"(?P<file>\S+): error at 0x(?P<offset>[0-9a-f]+){FUNCTION}: (?P<message>.*)")


@dataclass
class Case:
    name: str
    label: str
    verdict: str
    offset: str
    message: str
    module: bytes

    @property
    def is_valid(self):
        return self.verdict == "valid"


def unpacked(cell, before):
    first, last, middle = cell.split(",")
    return before[: int(first)] + bytes.fromhex(middle) + before[len(before) - int(last) :]


def cases_of(path=TABLE):
    lines = path.read_text(encoding="utf-8").splitlines()
    if lines[0].split("\t") != COLUMNS:
        sys.exit(f"{path}:1: the columns are {', '.join(COLUMNS)}")
    out, before, module = [], [""] * (len(COLUMNS) - 1), b""
    for line in lines[1:]:
        *cells, last = line.split("\t")
        before = [old if cell == SAME else cell for cell, old in zip(cells, before, strict=True)]
        module = unpacked(last, module)
        out.append(Case(*before, module))
    return out


def rejected(program, options, names, folder):
    """Returns the offset and the message of the error in each file that a program rejects."""
    ran = subprocess.run([program, *options, *names], cwd=folder, capture_output=True, text=True, timeout=SECONDS)
    if ran.returncode not in (0, 1):
        sys.exit(f"{program} ended with status {ran.returncode}: {ran.stderr[-300:]}")
    found = map(REJECTED.fullmatch, (ran.stdout + ran.stderr).splitlines())
    return {it["file"]: (int(it["offset"], 16), it["message"]) for it in found if it}


def compared(program, cases, messages):
    """Returns the cases of which a program says something else, a line each."""
    names, found, out = [f"{number:05}.wasm" for number in range(len(cases))], {}, []
    with tempfile.TemporaryDirectory() as folder:
        for name, it in zip(names, cases):
            (Path(folder) / name).write_bytes(it.module)
        for first in range(0, len(names), BATCH):
            found |= rejected(program, [], names[first : first + BATCH], folder)
    for name, it in zip(names, cases):
        said = (f"0x{found[name][0]:x}", found[name][1]) if name in found else ("", "")
        parts = 2 if messages else 0 if it.verdict == "unsupported" else 1
        if (name not in found) != it.is_valid or said[:parts] != (it.offset, it.message)[:parts]:
            text = " ".join(said).strip() or "ok"
            out.append(f"{it.name}, {it.label}: {it.verdict} ({it.offset} {it.message}), and {text} by the program: {it.module.hex()}")
    return out


def main():
    given, cases = read(__doc__, "--messages", "--program PROGRAM", "[NAME]"), cases_of()
    run = lambda program, _: (len(cases), compared(program, cases, given.messages))
    sys.exit(over_programs("typing_cases", [NAME], given.program, run))


if __name__ == "__main__":
    main()
