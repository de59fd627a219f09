#!/usr/bin/env python3
"""Checks that listing, visiting and validating large inputs takes linear time and memory.

    tools/large.py bodies [PROGRAM]             lists bodies by `wasm_dump`, and visits bodies by wasm_bench
    tools/large.py modules PROGRAM [NAME..]     validates modules by `wasm_validate`; NAME is one of them

Each program runs on an input of some size, and on one of half that size. Its output must be as computed here. CPU time
and memory may be at most LINEAR times those for the half.

`rt run` and `rt ci` build `crates/wasm_dump/out/wasm_dump`, the PROGRAM of bodies. Bodies are nested blocks, blocks in
sequence, large branch tables, locals, and `nop`. If `rt lib` has built crates/wasm_bench/out/libwasm_bench.a,
large_bodies.c visits bodies up to 100 MB over it. Modules have types and groups that differ, equal types, a long group,
locals without a default value, calls with many results, nested blocks, or branch tables. Each is valid.
"""

import os
import subprocess
import sys
import tempfile
from pathlib import Path

from shared.arguments import read
from shared.crates import TOP
from shared.leb128 import signed, unsigned
from shared.modules import module, sized, vector

PROGRAM = TOP / "crates" / "wasm_dump" / "out" / "wasm_dump"
LIBRARY = TOP / "crates" / "wasm_bench" / "out" / "libwasm_bench.a"
# Memory grows by doubling, and other work shares the machine.
LINEAR = 3.0
# Shorter times are not compared.
LEAST_SECONDS = 0.1
# In KiB: more than an idle process needs.
LEAST_MEMORY = 16384
ROUNDS = 3


class Ran:
    """A run: status, CPU seconds, KiB of memory, the number of lines and the start of the output, and the messages."""

    def __init__(self, words, given):
        with tempfile.TemporaryFile() as out, tempfile.TemporaryFile() as err, open(given or os.devnull, "rb") as stdin:
            child = subprocess.Popen(words, stdin=stdin, stdout=out, stderr=err)
            _, status, used = os.wait4(child.pid, 0)
            child.returncode = self.status = os.waitstatus_to_exitcode(status)
            self.seconds, self.memory = used.ru_utime + used.ru_stime, used.ru_maxrss
            out.seek(0)
            self.lines = sum(part.count(b"\n") for part in iter(lambda: out.read(1 << 20), b""))
            out.seek(0)
            err.seek(0)
            self.text, self.complaint = (it.read(200).decode(errors="replace") for it in (out, err))


def growth(whole, half):
    out = []
    if whole.seconds > LINEAR * max(half.seconds, LEAST_SECONDS):
        out.append(f"{half.seconds:.2f} s for the half, {whole.seconds:.2f} s for the whole")
    if whole.memory > LINEAR * max(half.memory, LEAST_MEMORY):
        out.append(f"{half.memory} KiB for the half, {whole.memory} KiB for the whole")
    return out


def compared(name, size, words_of, said_by, wanted_of):
    """Runs a program at both sizes. Returns what is wrong."""
    faults, runs = [], []
    for n in (size // 2, size):
        words, given = words_of(n)
        ran = min((Ran(words, given) for _ in range(ROUNDS)), key=lambda ran: ran.seconds)
        if said_by(ran) != wanted_of(n):
            faults.append(f"{n}: {said_by(ran)}; expected {wanted_of(n)}")
        runs.append(ran)
    half, whole = runs
    print(f"{name}, {size}: {whole.seconds:.2f} s, {whole.memory // 1024} MiB", flush=True)
    return [f"{name}: {it}" for it in faults + growth(whole, half)]


def written(path, make, n):
    """Writes an input in another process, whose memory would else count as the program's."""
    child = os.fork()
    if not child:
        path.write_bytes(make(n))
        os._exit(0)
    if os.waitpid(child, 0)[1]:
        raise MemoryError(n)
    return path


def nested(n):
    return b"\0" + b"\x02\x40" * n + b"\x0b" * (n + 1)


def targets(n):
    return b"\x0e" + unsigned(n) + b"\0" * (n + 1) + b"\x0b"


def listed(count):
    """Returns the end of a listing: status, messages and number of lines."""
    return lambda n: (0, "", count(n))


MOST_TARGETS = 7654321
TOO_MANY = b"\0\x0e" + unsigned(MOST_TARGETS + 1)
REFUSED = (1, "error at 2: br_table size is out of bounds\n", 0)
# Each body, its size, and how its listing ends.
BODIES = {
    "nested": (nested, 1000000, listed(lambda n: 2 * n + 1)),
    "alternating": (lambda n: b"\0" + b"\x02\x40\x0b" * n + b"\x0b", 1000000, listed(lambda n: 2 * n + 1)),
    "targets": (lambda n: b"\0" + targets(n), MOST_TARGETS, listed(lambda n: 2)),
    "too many targets": (lambda n: TOO_MANY + b"\0" * n, MOST_TARGETS, lambda n: REFUSED),
    "locals": (lambda n: unsigned(n) + b"\x01\x7f" * n + b"\x0b", 50000000, listed(lambda n: 1)),
    "nops": (lambda n: b"\0" + b"\x01" * n + b"\x0b", 5000000, listed(lambda n: n + 1)),
}
# The functions of large_bodies.c, the sizes of their bodies and the operators in a body of n.
VISITS = {
    "nested": (1000000, lambda n: 2 * n + 1),
    "alternating": (30000000, lambda n: 2 * n + 1),
    "nops": (100000000, lambda n: n + 1),
}


def built_driver(folder):
    page = subprocess.run(["rt", "doc"], capture_output=True, text=True, check=True).stdout.strip()
    driver = f"{folder}/large_bodies"
    words = [os.environ.get("CC", "cc"), "-O2", "-Wall", "-o", driver, TOP / "tools" / "large_bodies.c", LIBRARY]
    subprocess.run([*words, Path(page).parent / "c" / "liblibc_c.a", "-lm"], check=True)
    return driver


def large_bodies(program, folder):
    """Yields for each body what is wrong."""
    path = folder / "body"
    for name, (make, size, wanted) in BODIES.items():
        run = lambda n, make=make: ([program], written(path, make, n))
        yield compared(f"listed: {name}", size, run, lambda ran: (ran.status, ran.complaint, ran.lines), wanted)
    if not LIBRARY.exists():
        print(f"visited: none, {LIBRARY} is not built; run `rt lib` in crates/wasm_bench", flush=True)
        return
    driver = built_driver(folder)
    for name, (size, operators) in VISITS.items():
        run = lambda n, name=name: ([driver, name, str(n)], None)
        wanted = lambda n, operators=operators: (0, f"{operators(n)}\n")
        yield compared(f"visited: {name}", size, run, lambda ran: (ran.status, ran.text), wanted)


FUNCTION, STRUCT, GROUP = b"\x60", b"\x5f", b"\x4e"
I32, I64, F32, F64 = b"\x7f", b"\x7e", b"\x7d", b"\x7c"
NO_FUNCTION = FUNCTION + b"\0\0"
END = b"\x0b"


def of_types(types, body=None):
    """Returns a module with these groups, and a function of the first type with a body."""
    parts = {} if body is None else {3: vector([b"\0"]), 10: vector([sized(body)])}
    return module({1: vector(types), **parts})


def numbered(n):
    """Returns a function type that no other number has."""
    params = []
    while n:
        params.append((I32, I64, F32, F64)[n % 4])
        n //= 4
    return FUNCTION + vector(params) + b"\0"


def structure(index, mutability):
    """Returns a structure type with a reference to a type."""
    return STRUCT + vector([b"\x63" + signed(index) + mutability])


def with_results(count):
    return FUNCTION + b"\0" + vector([I32] * count)


def set_locals(n):
    """Locals without a default value: all are set, then the first is read."""
    many = 50000
    declared = vector([unsigned(many) + b"\x64\0"])
    body = b"".join(b"\xd2\0\x21" + unsigned(i) for i in range(many)) + b"\x20\0\x1a" * n + END
    # The function refers to itself, so an element segment declares it.
    elements, code = b"\1\3\0\1\0", vector([sized(declared + body)])
    return module({1: vector([NO_FUNCTION]), 3: vector([b"\0"]), 9: elements, 10: code})


def of_groups(group_of, first=0):
    """Returns a function of the number of types, which makes a module of so many."""
    return lambda n: of_types([group_of(i) for i in range(first, n)])


# Each module, by what its size counts, and its size.
MODULES = {
    "different types": (of_groups(numbered, 1), 400000),
    "equal types": (of_groups(lambda i: NO_FUNCTION), 900000),
    # (the second type of a group differs)
    "groups of two": (of_groups(lambda i: GROUP + vector([NO_FUNCTION, numbered(i)]), 1), 200000),
    # (structures that differ in the type that they refer to)
    "references": (lambda n: of_types([NO_FUNCTION, *(structure(i, b"\0") for i in range(n))]), 200000),
    "empty groups": (lambda n: of_types([NO_FUNCTION] * n + [GROUP + b"\0"] * n), 400000),
    # (each type refers to the next)
    "one group": (lambda n: of_types([GROUP + vector([structure((i + 1) % n, b"\1") for i in range(n)])]), 400000),
    "set locals": (set_locals, 2000000),
    # (calls of a function with 1,000 results)
    "results": (lambda n: of_types([with_results(1000)], b"\0" + b"\x10\0" * n + b"\0" + END), 20000),
    "nested": (lambda n: of_types([NO_FUNCTION], nested(n)), 1000000),
    # (with operands)
    "targets": (lambda n: of_types([with_results(10)], b"\0" + b"\x41\0" * 11 + targets(n)), 1000000),
}


def large_modules(program, names, folder):
    """Yields for each module what is wrong."""
    for name in names:
        make, size = MODULES[name]
        run = lambda n, make=make: ([program, written(folder / "module.wasm", make, n)], None)
        yield compared(name, size, run, lambda ran: (ran.status, ran.complaint), lambda n: (0, ""))


def main():
    given = read(__doc__, "KIND", "[PROGRAM]", "NAME..")
    if given.kind not in ("bodies", "modules"):
        sys.exit(f"{given.kind}: large inputs are bodies or modules")
    program = (given.program or PROGRAM).resolve()
    if not program.exists() or (given.kind == "modules" and not given.program):
        sys.exit(f"{program}: not built; `rt run` in its crate builds it" if given.program else "name a program")
    with tempfile.TemporaryDirectory() as made:
        folder, names = Path(made), given.names or MODULES
        found = list(large_bodies(program, folder) if given.kind == "bodies" else large_modules(program, names, folder))
    faults = [fault for it in found for fault in it]
    print("\n".join([*faults, f"large {given.kind}: {len(found)}, {len(faults)} wrong"]))
    sys.exit(bool(faults))


if __name__ == "__main__":
    main()
