#!/usr/bin/env python3
"""Compares `wasm_validate` with wasmparser 0.239 on modules, and on copies of them with a changed byte.

    tools/validations.py PROGRAM PEER MODULE..            compares these modules
    tools/validations.py PROGRAM PEER --engines DIR --smith N MODULE..
                                                          also N modules of `wasm-tools smith`, with all proposals
    tools/validations.py .. --changes N                   also N copies of each module (10)
    tools/validations.py .. --every-byte                  also N copies of each module for each of its bytes after the preamble

PROGRAM is wasm_validate, here with the features that wasmparser has by default. `PEER --default verdict FILE..` prints
wasmparser's verdicts, `FILE ok` or `FILE OFFSET MESSAGE`. DIR/root has the programs of wasm-tools. A copy differs from its
module in one byte, with --every-byte anywhere, else of the code section.

Of each file, both must accept it, or both must reject it at the same offset. Files that differ are printed, with both
messages, and counted by wasmparser's message.
"""

import random
import re
import subprocess
import sys
import tempfile
from collections import Counter
from pathlib import Path

from shared import modules
from shared.arguments import read
from typing_cases import SECONDS, rejected

BATCH = 100
PREAMBLE = 8
CHANGES = 10
SMITH = ["--max-memories=2", "--max-tables=3", "--gc-enabled=true", "--exceptions-enabled=true", "--simd-enabled=true"]
SMITH += ["--relaxed-simd-enabled=true", "--tail-call-enabled=true", "--memory64-enabled=true", "--threads-enabled=true"]
SMITH += ["--reference-types-enabled=true", "--bulk-memory-enabled=true", "--multi-value-enabled=true", "--extended-const-enabled=true"]
FEATURES = ["--features", "MULTI_MEMORY|MEMORY64|CALL_INDIRECT_OVERLONG"]


def places(module, count, chosen, every_byte):
    """Returns the offsets of the bytes that differ."""
    if every_byte:
        return [at for at in range(PREAMBLE, len(module)) for _ in range(count)]
    place = modules.code(module)
    if place is None or place[0] == place[1]:
        return []
    return [chosen.randrange(*place) for _ in range(count)]


def copies(module, count, seed, every_byte):
    """Returns copies of a module, each with another byte."""
    chosen = random.Random(seed)
    for at in places(module, count, chosen, every_byte):
        yield module[:at] + bytes([module[at] ^ chosen.randrange(1, 256)]) + module[at + 1 :]


def rejected_by_peer(peer, names, folder):
    ran = subprocess.run([peer, "--default", "verdict", *names], cwd=folder, capture_output=True, text=True, timeout=SECONDS)
    found = {}
    for line in ran.stdout.splitlines():
        name, _, said = line.partition(" ")
        if name in names and said != "ok":
            offset, _, message = said.partition(" ")
            found[name] = (int(offset, 16), message)
    return found


def text(verdict):
    return "ok" if verdict is None else f"0x{verdict[0]:x} {verdict[1]}"


def main():
    wanted = read(__doc__, "--engines DIR", "--smith N", "--changes N", "--every-byte", "PROGRAM", "PEER", "MODULE..")
    changes = CHANGES if wanted.changes is None else wanted.changes
    files, differ, reasons, accepted = 0, 0, Counter(), 0
    with tempfile.TemporaryDirectory() as made:
        paths = [Path(it).absolute() for it in wanted.modules]
        if wanted.smith:
            inputs = (random.Random(seed).randbytes(200 + seed % 97 * 60) for seed in range(wanted.smith))
            paths += modules.Engines(wanted.engines).smith(SMITH, inputs, Path(made))
        for first in range(0, len(paths), BATCH):
            with tempfile.TemporaryDirectory() as folder:
                names = []
                for number, path in enumerate(paths[first : first + BATCH], first):
                    module = path.read_bytes()
                    for copy, contents in enumerate([module, *copies(module, changes, number, wanted.every_byte)]):
                        names.append(f"{path.stem}-{copy}.wasm")
                        (Path(folder) / names[-1]).write_bytes(contents)
                ours = rejected(wanted.program, FEATURES, names, folder)
                theirs = rejected_by_peer(wanted.peer, names, folder)
            for name, our, their in ((name, ours.get(name), theirs.get(name)) for name in names):
                files, accepted = files + 1, accepted + (our is None)
                if (our and our[0]) != (their and their[0]):
                    differ += 1
                    reasons[re.sub(r"\d+", "N", their[1] if their else "ok")] += 1
                    print(f"{name}: {text(our)}; wasmparser: {text(their)}")
    for reason, count in reasons.most_common():
        print(f"{count:6} {reason}")
    print(f"{files} files, {accepted} accepted, {differ} differ")
    sys.exit(differ > 0)


if __name__ == "__main__":
    main()
