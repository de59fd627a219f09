#!/usr/bin/env python3
"""Compares disassemblies with wabt's.

    tools/wabt.py stored [wasm_objdump]     compares the modules in crates/wasm_objdump/data, and runs on damaged ones
    tools/wabt.py objdump MODULE..          compares other modules with `wasm-objdump -d`

`--program PROGRAM` is the program that `stored` and `objdump` run, in place of those that `rt ci` or `rt run` built. Only
`stored` needs no wabt (`apt-get install wabt`; tried with 1.0.32).

`stored`: for NAME.wasm the program must write NAME.txt, which `wasm-objdump -d` of wabt wrote, with `-h`
NAME.sections.txt and, if there are such files, with `-x` NAME.details.txt and with `-s` NAME.contents.txt. Then it runs
on each proper prefix of the module, and on the module with each byte changed. Each run must end in time, with status 0
and no message, or with status 1 and messages. On a prefix with the whole code section it must list all functions, on
another none.

`objdump`: for each module it prints how many lines differ, by the kinds that docs/OBJDUMP.md explains and others, and the
CPU seconds (least of three runs) and the memory of both. The status is 1 if a line differs otherwise, or the two statuses
differ. tools/modules makes modules for it.
"""

import itertools
import os
import re
import shutil
import subprocess
import sys
import tempfile

from shared.arguments import read
from shared.crates import TOP
from testing.built import built, missing, over_programs

CRATE = TOP / "crates" / "wasm_objdump"
THEIRS = ["wasm-objdump", "-d"]
SECONDS = 10
RUNS = 3

# The lines with the offset of a function, and the offset after the code section in a list of sections.
FUNCTION = re.compile(rb"^[0-9a-f]{6,} func\[", re.M)
CODE_END = re.compile(rb"^ +Code start=0x[0-9a-f]+ end=0x([0-9a-f]+)", re.M)

# The options, the ends of the files with what wabt wrote, and how these are called.
FILES = [
    ([], ".txt", "what"),
    (["-h"], ".sections.txt", "the sections that"),
    (["-x"], ".details.txt", "the contents of sections that"),
    (["-s"], ".contents.txt", "the bytes of sections that"),
]


def spoiled(module):
    for at, byte in enumerate(module):
        yield f"byte {at} changed", module[:at] + bytes([byte ^ (0xFF if at % 2 else 0x2F)]) + module[at + 1 :]


def is_answer(status, complaint):
    lines = complaint.decode(errors="replace").split("\n")
    has_errors = len(lines) > 1 and lines[-1] == "" and all("error" in line for line in lines[:-1])
    return (status == 0 and not complaint) or (status == 1 and has_errors)


def ended(program, words, given=b"", folder=None):
    try:
        ran = subprocess.run([program, *words], input=given, capture_output=True, timeout=SECONDS, cwd=folder)
    except subprocess.TimeoutExpired:
        return None, b"", b""
    return ran.returncode, ran.stdout, ran.stderr


def stored(program, path):
    """Compares one module with the files of its name. Returns what is wrong, and the number of runs."""
    wrong, text, sections = [], path.with_suffix(".txt").read_bytes(), path.with_suffix(".sections.txt").read_bytes()
    files = [(words, end, what) for words, end, what in FILES if any(path.parent.glob(f"*{end}"))]
    for words, end, what in files:
        if ended(program, [*words, path.name], folder=path.parent) != (0, path.with_suffix(end).read_bytes(), b""):
            wrong.append(f"{path.name}: not {what} wabt wrote")
    whole, code_end, functions = path.read_bytes(), int(CODE_END.search(sections)[1], 16), len(FUNCTION.findall(text))
    for at in range(len(whole)):
        status, wrote, complained = ended(program, [], whole[:at])
        found = len(FUNCTION.findall(wrote))
        if not is_answer(status, complained) or found != (functions if at >= code_end else 0):
            wrong.append(f"{path.name}, cut after {at} bytes: status {status}, {complained!r}, {found} functions")
    for what, module in spoiled(whole):
        status, _, complained = ended(program, [], module)
        if not is_answer(status, complained):
            wrong.append(f"{path.name}, {what}: status {status}, {complained!r}")
    return wrong, len(files) + 2 * len(whole)


def stored_modules(given):
    def run(program, _):
        found = [stored(program, path) for path in sorted((CRATE / "data").glob("*.wasm"))]
        return sum(runs for _, runs in found), [fault for wrong, _ in found for fault in wrong]

    return over_programs("stored", [CRATE.name], given.program, run)


# Prints a program's status, CPU seconds and most memory. A child's memory counts from its parent's, so a small
# process starts it.
RUNNER = """\
import os, sys
child = os.posix_spawnp(sys.argv[2], sys.argv[2:], os.environ, file_actions=[(os.POSIX_SPAWN_OPEN, 1, sys.argv[1], os.O_WRONLY | os.O_CREAT | os.O_TRUNC, 0o600)])
_, status, used = os.wait4(child, 0)
print(os.waitstatus_to_exitcode(status), used.ru_utime + used.ru_stime, used.ru_maxrss)
"""
# The differences: a sign, the indices of locals, the type of a tail call.
CONSTANT = re.compile(r"^(.*\| +i(32|64)\.const )(\d+)$")
TAIL = re.compile(r"^(.*\| +return_call_indirect) (\d+) (\d+)$")
LOCALS = re.compile(r"^(.*\| local)\[(\d+)(?:\.\.(\d+))?\]( type=.*)$")


def signed(text, width):
    number = int(text)
    return str(number - (1 << width) if number >> (width - 1) else number)


def without_indices(line):
    count = lambda found: int(found[3]) - int(found[2]) + 1 if found[3] else 1
    return LOCALS.sub(lambda found: f"{found[1]}[{count(found)}]{found[4]}", line)


KINDS = {
    "signs": lambda line: CONSTANT.sub(lambda found: found[1] + signed(found[3], int(found[2])), line),
    "locals": without_indices,
    "tail calls": lambda line: TAIL.sub(r"\1 \3 (type \2)", line),
}


def kinds_of(ours, theirs):
    found = []
    for kind, plain in KINDS.items():
        if ours != theirs and (plain(ours), plain(theirs)) != (ours, theirs):
            ours, theirs = plain(ours), plain(theirs)
            found.append(kind)
    return found if ours == theirs else ["other"]


def differences(ours, theirs):
    """Returns the number of lines, of differences of each kind, and the first other ones."""
    counts, others = dict.fromkeys(["lines", *KINDS, "other"], 0), []
    for at, (line, wanted) in enumerate(itertools.zip_longest(ours, theirs), 1):
        counts["lines"] += line is not None
        if line != wanted:
            kinds = ["other"] if None in (line, wanted) else kinds_of(line, wanted)
            for kind in kinds:
                counts[kind] += 1
            if kinds == ["other"] and len(others) < 5:
                others.append(f"line {at}: {line!r}, and wabt has {wanted!r}")
    return counts, others


def ran(words, into):
    """Returns status, CPU seconds and megabytes, the least of some runs."""
    runs = []
    for _ in range(RUNS):
        words_of_runner = [sys.executable, "-I", "-S", "-c", RUNNER, into, *words]
        status, seconds, kilobytes = subprocess.run(words_of_runner, capture_output=True, text=True, check=True).stdout.split()
        runs.append((int(status), float(seconds), int(kilobytes) / 1024))
    return tuple(min(column) for column in zip(*runs))


def lines_of(path):
    with open(path, encoding="utf-8", errors="replace", newline="\n") as text:
        for line in text:
            yield line.rstrip("\n")


def compared(program, module, folder):
    """Compares one module. Returns whether only explained lines differ."""
    status, seconds, memory = ran([str(program), module], f"{folder}/ours")
    their_status, their_seconds, their_memory = ran([*THEIRS, module], f"{folder}/theirs")
    counts, others = differences(lines_of(f"{folder}/ours"), lines_of(f"{folder}/theirs"))
    said = ", ".join(f"{kind} {count:,}" for kind, count in counts.items())
    print(f"{module}: {os.path.getsize(module):,} bytes, status {status} and {their_status}; {said}")
    print(f"    {seconds:.3f} s and {their_seconds:.3f} s, {memory:.1f} MB and {their_memory:.1f} MB", flush=True)
    for other in others:
        print(f"    {other}")
    return not counts["other"] and status == their_status


def other_modules(given):
    programs = built(CRATE.name, given.program)
    if not shutil.which(THEIRS[0]):
        return f"{THEIRS[0]}: not found"
    if not programs or not given.words:
        return "name a module" if programs else missing(CRATE.name, given.program)
    with tempfile.TemporaryDirectory() as folder:
        return not all([compared(programs[0], module, folder) for module in given.words])


def main():
    given = read(__doc__, "--program PROGRAM", "COMMAND", "WORD..")
    if given.command not in ("stored", "objdump"):
        sys.exit(f"{given.command}: the commands are stored and objdump")
    sys.exit(stored_modules(given) if given.command == "stored" else other_modules(given))


if __name__ == "__main__":
    main()
