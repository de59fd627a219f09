"""Runs jobs, several at a time, the longest first."""

import os
import queue
import threading
import traceback
from pathlib import Path

from shared.tables import rows_of
from testing.running import Clock, Stopped

# In bytes, of a job.
MEMORY = 1_300_000_000
COSTS = Path(__file__).resolve().parent / "costs.tsv"


def costs():
    return {row["item"]: float(row["CPU seconds"]) for row in rows_of(COSTS)}


def store_costs(known):
    rows = sorted(known.items(), key=lambda row: (-row[1], row[0]))
    lines = ["item\tCPU seconds", *[f"{item}\t{seconds:.1f}" for item, seconds in rows]]
    COSTS.write_text("\n".join(lines) + "\n", encoding="utf-8")


def longest_first(jobs, known, wanted):
    """The first are those with an item that was never measured."""
    cost = lambda job: sum(known.get(it, float("inf")) for it in job.items if it in wanted)
    return sorted((job for job in jobs if wanted & set(job.items)), key=cost, reverse=True)


def free_memory(meminfo):
    for line in meminfo.splitlines():
        if line.startswith("MemAvailable:"):
            return 1024 * int(line.split()[1])
    return None


def group_memory(folder=Path("/sys/fs/cgroup")):
    for limit, used in (("memory.max", "memory.current"), ("memory/memory.limit_in_bytes", "memory/memory.usage_in_bytes")):
        try:
            return int((folder / limit).read_text()) - int((folder / used).read_text())
        except (OSError, ValueError):
            continue
    return None


def jobs_at_once():
    try:
        found = [free_memory(Path("/proc/meminfo").read_text(encoding="ascii")), group_memory()]
    except OSError:
        found = []
    memory = min((it for it in found if it is not None), default=MEMORY)
    return max(1, min(len(os.sched_getaffinity(0)), memory // MEMORY))


def work(left, done, context, wanted):
    while True:
        try:
            job = left.get_nowait()
        except queue.Empty:
            done.put(None)
            return
        missing = [it for it in job.items if it in wanted]
        clock = Clock()
        try:
            for item, faults, seconds in job.run(context, wanted):
                missing.remove(item)
                done.put((item, faults, clock.seconds(), seconds))
                clock = Clock()
        except Stopped:
            done.put(None)
            return
        except Exception:  # an item that the tool itself fails on has failed, and the others go on
            text = traceback.format_exc().splitlines()[-3:]
            for item in missing:
                done.put((item, text, clock.seconds(), 0))


def results(jobs, context, wanted, count):
    """Yields each item as it ends: name, what is wrong in lines, seconds and CPU seconds."""
    left, done = queue.Queue(), queue.Queue()
    for job in jobs:
        left.put(job)
    for _ in range(count):
        threading.Thread(target=work, args=(left, done, context, wanted), daemon=True).start()
    while count:
        found = done.get()
        if found is None:
            count -= 1
        else:
            yield found
