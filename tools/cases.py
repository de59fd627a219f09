#!/usr/bin/env python3
"""Runs programs on the cases in `crates/NAME/cases.tsv`, and compares how each run ends.

    tools/cases.py [NAME..]               runs both builds of `rt ci` in crates/NAME/out
    tools/cases.py --program PROGRAM NAME runs PROGRAM on the cases of NAME

Each row is a run, in the folder `crates/NAME/data` if there is one. Its columns, separated by tabs:

    case       what the case shows
    words      the arguments, with spaces between them; `""` is an empty argument, and \\xNN a byte
    input      standard input, in hexadecimal, or `unreadable` for a folder
    status     the exit status
    output     what it writes, with \\n for a line feed and \\t for a tab, and `<time>` for a time in milliseconds;
               `unwritable` if the device is full, `closed` if nothing reads the pipe
    complaint  what it writes to standard error, without the last line feed
"""

import csv
import os
import re
import subprocess
import sys
import tempfile
from pathlib import Path

from shared.arguments import read
from shared.crates import TOP
from testing.built import over_programs

COLUMNS = ["case", "words", "input", "status", "output", "complaint"]
SECONDS = 60
# A time, which differs from run to run.
TIME = re.compile(r"\b[0-9]+\.[0-9]{3} ms\b")


def cases_of(path):
    with open(path, encoding="utf-8", newline="") as lines:
        rows = csv.DictReader(lines, delimiter="\t", quoting=csv.QUOTE_NONE)
        if rows.fieldnames != COLUMNS:
            sys.exit(f"{path}:1: the columns are {', '.join(COLUMNS)}")
        return list(rows)


def words_of(text):
    byte = lambda found: bytes.fromhex(found[1].decode())
    words = [b"" if word == '""' else word.encode() for word in text.split()]
    return [re.sub(rb"\\x([0-9a-f]{2})", byte, word) for word in words]


def opened(folder, case):
    if case["input"] == "unreadable":
        given = folder
    else:
        given = f"{folder}/input"
        Path(given).write_bytes(bytes.fromhex(case["input"]))
    taken = "/dev/full" if case["output"] == "unwritable" else f"{folder}/output"
    return given, taken


def closed_pipe():
    reads, writes = os.pipe()
    os.close(reads)
    return open(writes, "wb")


def ended(program, case, data=None):
    """Returns status, output and complaint."""
    with tempfile.TemporaryDirectory() as folder:
        given, taken = opened(folder, case)
        # (Python opens no folder)
        words = ["sh", "-c", 'exec "$@" < "$GIVEN"', "", program, *words_of(case["words"])]
        env = {"PATH": "/usr/bin:/bin", "GIVEN": given}
        is_closed = case["output"] == "closed"
        with closed_pipe() if is_closed else open(taken, "wb") as output:
            ran = subprocess.run(words, env=env, stdout=output, stderr=subprocess.PIPE, timeout=SECONDS, cwd=data or folder)
        is_lost = is_closed or taken == "/dev/full"
        wrote = case["output"].encode() if is_lost else Path(taken).read_bytes()
    texts = [wrote.decode(errors="replace"), ran.stderr.decode(errors="replace")]
    wrote, complained = [text.replace("\n", "\\n").replace("\t", "\\t") for text in texts]
    return str(ran.returncode), TIME.sub("<time>", wrote), complained.removesuffix("\\n")


def run_cases(program, path):
    """Returns the number of cases, and what is wrong."""
    cases, wrong, data = cases_of(path), [], path.parent / "data"
    for case in cases:
        expected = (case["status"], case["output"], case["complaint"])
        found = ended(program, case, data if data.is_dir() else None)
        if found != expected:
            wrong.append(f"{case['case']}:\n  expected {expected}\n  found    {found}")
    return len(cases), wrong


def main():
    words = read(__doc__, "--program PROGRAM", "NAME..")
    given = words.program
    if given and len(words.names) != 1:
        sys.exit("--program needs one NAME")
    paths = {path.parent.name: path for path in sorted(TOP.glob("crates/*/cases.tsv"))}
    lost = [name for name in words.names if name not in paths]
    if lost:
        sys.exit(f"no crates/{lost[0]}/cases.tsv")
    sys.exit(over_programs("cases", words.names or paths, given, lambda program, name: run_cases(program, paths[name])))


if __name__ == "__main__":
    main()
