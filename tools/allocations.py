#!/usr/bin/env python3
"""Runs programs with each of their allocations failing in turn.

    tools/allocations.py [NAME..]               runs what is built of these crates, or of all
    tools/allocations.py --program PROGRAM NAME runs PROGRAM, of a crate

`rt ci` builds `crates/NAME/out/NAME`. Each run must end in time, with an exit status. If the crate has a file `refused`, it
ends as that says:

- three lines, the status, the output and the text on standard error;
- `as ever`: as if none fails;
- `first N`: only the first N allocations fail;
- `rows`: the line `N rows, 0 differ` may end in `, 1 out of memory`, or the status is 1 and a line starts with
  `the rows could not be read`.

A crate with a file `stdout.short` runs with the last argument `short`. `refuse_allocation.c` counts the calls of `malloc`
and `realloc`.
"""

import os
import re
import resource
import subprocess
import sys
import tempfile

from shared.arguments import read
from shared.crates import TOP
from testing.built import built, missing
from testing.crates import find_kit

SECONDS = 60
# A program with more should be smaller.
MOST = 4000
AS_EVER = "as ever\n"
FIRST = re.compile(r"first (\d+)\n")
# For `rows`: the line that counts them, and the start of the line if they cannot be read.
ROWS = "rows\n"
COUNTED = re.compile(rb"^(\d+ rows, 0 differ)$", re.MULTILINE)
UNREAD = b"the rows could not be read"


def built_library(folder):
    library = f"{folder}/refuse.so"
    words = [find_kit() / "toolchain/bin/clang", "-O1", "-shared", "-fPIC", "-nostdlib", "-fuse-ld=lld", "-o", library]
    subprocess.run([*words, TOP / "tools" / "refuse_allocation.c"], check=True)
    return library


class Run:
    def __init__(self, words, given, library, number):
        reading, writing = os.pipe()
        env = {"PATH": "/usr/bin:/bin", "LD_PRELOAD": library}
        env |= {"REFUSED_ALLOCATION": str(number), "REFUSAL_TOLD": str(writing)}
        how = {"input": given, "capture_output": True, "timeout": SECONDS, "env": env}
        try:
            ran = subprocess.run(words, pass_fds=[writing], **how)
            self.status, self.wrote, self.complained = ran.returncode, ran.stdout, ran.stderr
        except subprocess.TimeoutExpired:
            self.status, self.wrote, self.complained = None, b"", b""
        os.close(writing)
        self.was_refused = os.read(reading, 1) == b"!"
        os.close(reading)

    @property
    def shape(self):
        return self.status, self.wrote, self.complained


def followed(label, words, given, library, allowed, first=None):
    """Runs a program with each allocation failing, or the first ones. Returns how many failed, and what was wrong."""
    wrong = []
    for number in range(1, (first or MOST) + 1):
        ran = Run(words, given, library, number)
        if not allowed(ran):
            said = (ran.complained or ran.wrote).decode(errors="replace").strip()[-200:]
            which = f"allocation {number} failed" if ran.was_refused else "no allocation failed"
            wrong.append(f"{label}: {which}: status {ran.status}; {said}")
        if not ran.was_refused:
            return number - 1, wrong
    if first:
        return first, wrong
    return MOST, [*wrong, f"{label}: more than {MOST} allocations"]


def is_end_of_rows(ended, plain):
    """Returns whether a program of rows may end so. `plain` is its end if no allocation fails."""
    status, wrote, complained = ended
    if status == 1:
        return any(line.startswith(UNREAD) for line in (wrote + complained).splitlines())
    one_less, lines = COUNTED.subn(rb"\1, 1 out of memory", plain[1])
    return plain[0] == 0 and lines == 1 and ended in (plain, (0, one_less, plain[2]))


def allowed_ends(refused, plain):
    """Returns whether a run may end so, by the text of the file `refused`."""
    if refused == ROWS:
        return lambda ran: is_end_of_rows(ran.shape, plain) if ran.was_refused else ran.shape == plain
    if not refused or FIRST.fullmatch(refused):
        return lambda ran: ran.status is not None and ran.status >= 0
    if refused == AS_EVER:
        return lambda ran: ran.shape == plain
    status, *texts = refused.split("\n")[:3]
    end = (int(status), *(f"{text}\n".encode() if text else b"" for text in texts))
    return lambda ran: ran.shape == (end if ran.was_refused else plain)


def follow_program(program, crate, library):
    read = lambda name: (crate / name).read_bytes() if (crate / name).exists() else b""
    words = [program, *read("args").decode().splitlines()]
    if (crate / "stdout.short").exists():
        words.append("short")
    plain = Run(words, read("stdin"), library, 0).shape
    refused = read("refused").decode()
    first = FIRST.fullmatch(refused)
    allowed = allowed_ends(refused, plain)
    count, wrong = followed(program.name, words, read("stdin"), library, allowed, first and int(first[1]))
    if refused == ROWS and not count:
        wrong = [*wrong, f"{program.name}: its file `refused` is `rows`, and it does not allocate"]
    return count, wrong


def follow_crate(crate, given, library):
    programs = built(crate.name, given)
    for program in programs:
        yield program.name, follow_program(program, crate, library)
    if not programs and (given or (crate / "refused").exists()):
        yield crate.name, (0, [missing(crate.name, given)])


def main():
    words = read(__doc__, "--program PROGRAM", "NAME..")
    given, names = words.program, words.names or sorted(path.name for path in (TOP / "crates").iterdir())
    wrong, runs = [], 0
    # a program that aborts leaves no core file
    resource.setrlimit(resource.RLIMIT_CORE, (0, 0))
    with tempfile.TemporaryDirectory() as folder:
        library = built_library(folder)
        for name in names:
            for what, (count, faults) in follow_crate(TOP / "crates" / name, given, library):
                if count:
                    print(f"{what}: {count} allocations failed in turn", flush=True)
                wrong, runs = wrong + faults, runs + count
    for fault in wrong:
        print(f"WRONG: {fault}")
    print(f"allocations: {runs} failed in turn, {len(wrong)} wrong")
    # (one program may allocate nothing, unless a file says how it ends)
    may_be_none = given and not (TOP / "crates" / names[0] / "refused").exists()
    sys.exit(1 if wrong or not (runs or may_be_none) else 0)


if __name__ == "__main__":
    main()
