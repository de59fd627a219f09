#!/usr/bin/env python3
"""Tries wrong bodies that a test must catch.

    tools/tests_catch.py [--keep DIR] [NAME..]      tries the edits of these crates, or of all

The prover accepts most of them: no contract says, for example, which of a visitor's visits run. The edits in
`crates/NAME/tests-catch.edits` have the form that `tools/run edits` describes. A line `item: ITEM` names the item of
`tools/test` that must fail. Each edit is made in a copy of the repository, in which the item passes before. `--keep DIR` keeps the
programs that are built. An edit takes a minute or two: the program is built again.

The last line is `tests_catch: N caught, M wrong`. The status is 0 if none is wrong.
"""

import re
import shutil
import sys
import tempfile
from pathlib import Path

from edits import TESTS, TOP, BadEdit, edited, edits_of
from shared.arguments import read
from testing.outcome import tail
from testing.running import Clock
from testing.selftest import LEFT_OUT, run_tool

ITEM = re.compile(r"^item: ([\w/-]+)$", re.M)
# What a program that does not compile writes.
NOT_COMPILED = ("not compiled", "error[")


def item_of(text):
    found = ITEM.search(text)
    return found[1] if found else None


def found_edits(top, names):
    return [edit for name in names for edit in edits_of(top / "crates" / name, [TESTS])]


def run_item(copy, kept, item):
    """Returns whether the item passes, or None if it is not run; and what was written."""
    full = ["--full"] if item.endswith("/allocations") else []
    passed, failed, text = run_tool(copy, kept, *full, item)
    return (item in passed if item in passed | failed else None), text


def fault_of(copy, kept, edit, item):
    """Makes an edit in the copy and runs its item. Returns what is wrong, or None."""
    crate = copy / "crates" / edit.crate.name
    try:
        changed = edited(edit, crate)
    except BadEdit as bad:
        return f"BAD EDIT: {bad}"
    before = {name: (crate / name).read_text(encoding="utf-8") for name in changed}
    for name, text in changed.items():
        (crate / name).write_text(text, encoding="utf-8")
    try:
        passes, text = run_item(copy, kept, item)
    finally:
        for name, text_before in before.items():
            (crate / name).write_text(text_before, encoding="utf-8")
    if any(word in text for word in NOT_COMPILED):
        return "\n".join(["BAD EDIT: it does not compile", *tail(text)])
    return None if passes is False else f"NOT CAUGHT by {item}"


def tried(copy, kept, edits):
    """Tries the edits. Returns how many were caught, and how many not."""
    passes, caught = {}, 0
    for edit in edits:
        clock, item = Clock(), item_of(edit.text)
        if item and item not in passes:
            passes[item] = run_item(copy, kept, item)[0]
        if item is None:
            fault = "it names no item"
        elif not passes[item]:
            fault = f"{item} does not pass without it"
        else:
            fault = fault_of(copy, kept, edit, item)
        caught += fault is None
        what = f"{clock.seconds():.0f} s {edit}"
        print(f"FAILED {what}: {fault}" if fault else f"caught {what}", flush=True)
    return caught, len(edits) - caught


def main():
    given = read(__doc__, "--keep DIR", "NAME..")
    every = sorted({path.parent.name for path in TOP.glob(f"crates/*/{TESTS}")})
    unknown = [name for name in given.names if name not in every]
    if unknown:
        sys.exit(f"no crates/{unknown[0]}/{TESTS}")
    with tempfile.TemporaryDirectory(prefix="tests-catch-") as folder:
        copy = Path(folder) / "copy"
        shutil.copytree(TOP, copy, symlinks=True, ignore=shutil.ignore_patterns(*LEFT_OUT))
        kept = given.keep or Path(folder) / "kept"
        caught, wrong = tried(copy, kept, found_edits(TOP, given.names or every))
    print(f"tests_catch: {caught} caught, {wrong} wrong")
    sys.exit(1 if wrong or not caught else 0)


if __name__ == "__main__":
    main()
