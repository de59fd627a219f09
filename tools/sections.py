#!/usr/bin/env python3
"""Writes the bodies of crates/wasm_tests_replay/stdin as inputs of the Rust programs in bindings.

    tools/sections.py FILE FOLDER     FILE is crates/wasm_tests_replay/stdin

FOLDER gets samples, replay and random.bodies, each body after its length in four bytes, little-endian; samples and
replay.section, code sections of the same bodies; and globals.section.
"""

import random

from c_answers import rows
from shared.arguments import read
from shared.crates import TOP
from shared.modules import sized, vector

# A type, 1 if mutable, and an expression. The last one does not end where its block does.
GLOBALS = TOP / "rust/programs/globals.txt"


# Bytes that begin operators and types.
FREQUENT = bytes.fromhex("00 01 02 03 04 05 06 07 0b 0e 12 18 19 1c 1f 28 40 41 42 52 62 63 64 65 6e 70 7e 7f 80 81 d0 e3 fb fc fd fe ff")


def random_bodies(count):
    """Returns short bodies of random bytes, the same in each run. Every second one has no locals."""
    source = random.Random(count)
    byte = lambda: source.choice(FREQUENT) if source.random() < 0.7 else source.randrange(256)
    return [bytes(at % 2) + bytes(byte() for _ in range(source.randrange(40))) for at in range(count)]


def prefixed(bodies):
    return b"".join(len(body).to_bytes(4, "little") + body for body in bodies)


def main():
    given = read(__doc__, "FILE", "FOLDER")
    replay, samples = rows(given.file.read_text(encoding="utf-8"))
    folder = given.folder
    files = {
        "replay": [bytes.fromhex(row["hex"]) for row in replay],
        "samples": [bytes.fromhex(row["before"] + row["operator"] + row["behind"]) for row in samples],
    }
    for name, bodies in files.items():
        (folder / f"{name}.bodies").write_bytes(prefixed(bodies))
        (folder / f"{name}.section").write_bytes(vector([sized(body) for body in bodies]))
    (folder / "random.bodies").write_bytes(prefixed(random_bodies(4000)))
    (folder / "globals.section").write_bytes(vector([bytes.fromhex(line) for line in GLOBALS.read_text(encoding="ascii").splitlines()]))


if __name__ == "__main__":
    main()
