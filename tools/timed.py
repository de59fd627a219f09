#!/usr/bin/env python3
"""Runs the proofs of the gate, and measures what each crate costs.

    tools/timed.py [--] WORD..

It runs the command (`rt ci`), passes on its output, and reads the CPU time of its provers once a second. When a crate's
proof or must-fail edits begin or end, it writes the crates done, the minutes so far, and those that docs/GATE.md
lets expect:

    [12/24, 18 min of about 70] wasm_visit: proof begins

At the end it writes, in seconds,

    cost NAME PART PROCESSOR WALL    for each crate and part
    cost all PROCESSOR WALL COUNT    for the whole run, on COUNT processors

and the command's last line again. The status is the command's. tools/gate_table.py reads such a log.
"""

import os
import re
import resource
import subprocess
import sys
import threading
import time

from shared.arguments import read
from shared.crates import TOP, crates

TICKS = os.sysconf("SC_CLK_TCK")
EVERY = 1


class Process:
    def __init__(self, pid):
        with open(f"/proc/{pid}/stat", encoding="utf-8", errors="replace") as it:
            stat = it.read().rpartition(")")[2].split()
        self.parent = int(stat[1])
        self.key = (pid, stat[19])
        # with its children that have ended
        self.seconds = sum(int(it) for it in stat[11:15]) / TICKS


def work_of(pid):
    try:
        with open(f"/proc/{pid}/cmdline", "rb") as it:
            words = it.read().decode(errors="replace").split("\0")
        if "--crate-name" not in words:
            return None
        is_edit = os.path.basename(os.readlink(f"/proc/{pid}/cwd")).startswith("rt-edit-")
    except OSError:
        return None
    return words[words.index("--crate-name") + 1], "edits" if is_edit else "proof"


def below(top):
    found = {}
    for name in os.listdir("/proc"):
        if name.isdigit():
            try:
                found[int(name)] = Process(int(name))
            except (OSError, ValueError, IndexError):
                pass

    def chain(pid):
        while pid in found:
            yield pid
            pid = found[pid].parent

    return {pid: it for pid, it in found.items() if top in chain(it.parent)}


class Costs:
    def __init__(self):
        self.processor = {}
        self.first = {}
        self.last = {}
        self.of = {}

    def look(self, top):
        """Counts the provers below a process, each with its children."""
        found = below(top)
        totals = {}
        for pid, process in found.items():
            work, at = None, pid
            while at in found:
                here = work_of(at)
                if here:
                    work, prover = here, found[at].key
                at = found[at].parent
            if work:
                self.of[prover] = work
                totals[prover] = totals.get(prover, 0) + process.seconds
        now = time.monotonic()
        for key, total in totals.items():
            self.processor[key] = max(total, self.processor.get(key, 0))
            self.first.setdefault(key, now)
            self.last[key] = now

    def lines(self):
        sums = {}
        for key, of in self.of.items():
            processor, wall = sums.get(of, (0, 0))
            sums[of] = processor + self.processor[key], wall + self.last[key] - self.first[key]
        return [f"cost {crate} {part} {p:.0f} {w:.0f}" for (crate, part), (p, w) in sorted(sums.items())]


def expected_minutes(page, processors):
    """Returns the wall-clock minutes to expect by docs/GATE.md, or None."""
    found = re.findall(r"took ([\d.]+) minutes wall-clock on (\d+) processors", page)
    runs = {int(count): float(wall) for wall, count in found}
    if not runs:
        return None
    # (fewer processors have more to do)
    count = max((count for count in runs if count <= processors), default=min(runs))
    return runs[count] * max(1, count / processors)


class Progress:
    def __init__(self, crates, expected, clock=time.monotonic, out=sys.stdout):
        self.crates = crates
        self.expected = expected
        self.clock = clock
        self.out = out
        self.began = clock()
        self.through = set()
        self.seen = set()
        self.writing = threading.Lock()

    def write(self, line):
        with self.writing:
            self.out.write(line)
            self.out.flush()

    def tell(self, what):
        minutes = f"{(self.clock() - self.began) / 60:.0f} min"
        of = f" of about {self.expected:.0f}" if self.expected else ""
        self.write(f"[{len(self.through)}/{self.crates}, {minutes}{of}] {what}\n")

    def begun(self, works):
        words = {"proof": "proof begins", "edits": "must-fail edits begin"}
        for crate, part in sorted(set(works) - self.seen):
            self.seen.add((crate, part))
            self.tell(f"{crate}: {words[part]}")

    def passed_on(self, line):
        self.write(line)
        found = re.fullmatch(r"rt: (\w+) (proved|NOT PROVED)(:.*)?\n", line)
        if found and found[1] not in self.through:
            self.through.add(found[1])
            self.tell(f"{found[1]}: {found[2]}")


def watch(costs, progress, top, is_done):
    while not is_done.wait(EVERY):
        costs.look(top)
        progress.begun(list(costs.of.values()))


def progress_of_repository():
    page = TOP / "docs" / "GATE.md"
    expected = expected_minutes(page.read_text(encoding="utf-8"), len(os.sched_getaffinity(0))) if page.exists() else None
    return Progress(len(crates()), expected)


def main():
    command = read(__doc__, "WORD..").words
    if not command:
        sys.exit(__doc__)
    costs, progress, is_done, began = Costs(), progress_of_repository(), threading.Event(), time.monotonic()
    how = {"stdin": subprocess.DEVNULL, "stdout": subprocess.PIPE, "stderr": subprocess.STDOUT}
    # (so that rt's lines come at once)
    how["env"] = {**os.environ, "PYTHONUNBUFFERED": "1"}
    with subprocess.Popen(command, text=True, errors="replace", **how) as ran:
        watching = threading.Thread(target=watch, args=(costs, progress, ran.pid, is_done), daemon=True)
        watching.start()
        last = ""
        for line in ran.stdout:
            progress.passed_on(line)
            last = line
    is_done.set()
    watching.join()
    for line in costs.lines():
        print(line)
    used = resource.getrusage(resource.RUSAGE_CHILDREN)
    wall, count = time.monotonic() - began, len(os.sched_getaffinity(0))
    print(f"cost all {used.ru_utime + used.ru_stime:.0f} {wall:.0f} {count}")
    print(last, end="", flush=True)
    sys.exit(ran.returncode if ran.returncode >= 0 else 1)


if __name__ == "__main__":
    main()
