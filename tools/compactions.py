#!/usr/bin/env python3
"""Compares modules that `wasm_compact` rewrites with the modules that it reads, and with other tools.

    tools/compactions.py                       runs the two programs that `rt ci` built on crates/wasm_compact/data
    tools/compactions.py --program PROGRAM     runs PROGRAM
    tools/compactions.py .. MODULE..           also on these modules; prints how much each saves
    tools/compactions.py .. --engines DIR      also compares with wasm-tools 1.239, wabt and wasm-encoder 0.239, which the
                                               programs under DIR/root are, and with 200 modules of `wasm-tools smith`

Each module is rewritten as it is and with `--drop-offsets`. A module that is not rewritten must be one with offsets in a
custom section, and the program must say so. A rewritten module must have the same sections, byte for byte, except for
the code section and the dropped sections. Rewriting it again must change nothing.

With wasm-tools: `validate` must accept what it accepted, and `print` must print the same text. With wabt, the lines of
`wasm-objdump -d` must be the same except for addresses and bytes. wasm-encoder writes each body again
(`RoundtripReencoder`): ours must have at most as many bytes.

Of the modules in data/, each proper prefix and the module with each byte changed is rewritten. Each run must end with
status 1, a message and no output, or with status 0 and a module as above.
"""

import random
import re
import shutil
import subprocess
import sys
import tempfile
import time
from pathlib import Path

from shared import leb128, modules
from shared.arguments import read
from shared.crates import TOP
from testing.built import over_programs

NAME = "wasm_compact"
DATA = TOP / "crates" / NAME / "data"
REENCODER = Path(__file__).resolve().parent / "reencoder"
SECONDS = 60
SMITH = 200
FLIPS = (0x01, 0x2F, 0x80)
CODE = 10
OFFSETS = re.compile(rb"\.debug_.*|sourceMappingURL|external_debug_info|build_id|metadata\.code\..*", re.S)
# wasm-tools 1.239 reads the bit of a multibyte array access as an alignment of 2^32 or more.
ARRAY_ACCESS = re.compile(rb"align=\d{10}")
# A line of `wasm-objdump -d` without addresses and bytes. Lines with only bytes are left out.
LINE = re.compile(rb"^ [0-9a-f]+:(?: [0-9a-f]{2})+ *\| (.*)$|^[0-9a-f]+ (func\[.*)$")


def sections_of(module):
    """Returns for each section its number, bytes and contents."""
    return [(number, module[at:end], module[start:end]) for number, at, start, end in modules.sections(module)]


def name_of(contents):
    size, start = leb128.read(contents, 0)
    return contents[start : start + size]


def code_length(module):
    start, end = modules.code(module) or (0, 0)
    return end - start


class Engines(modules.Engines):
    """Runs wasm-tools, wabt and wasm-encoder."""

    def is_valid(self, path):
        return self.run(["wasm-tools", "validate", path]).returncode == 0

    def text(self, path):
        """Returns the module as text, or None if wasm-tools can't print it."""
        ran = self.run(["wasm-tools", "print", path])
        # (custom sections may be dropped, and comments have offsets of errors in others)
        if ran.returncode:
            return None
        text = re.sub(rb"^ *\(@(?:custom|metadata).*\n| \(at offset 0x[0-9a-f]+\)", b"", ran.stdout, flags=re.M)
        return text.replace(b"(module\n)", b"(module)")

    def listing(self, path):
        ran = self.run(["wasm-objdump", "-d", path])
        lines = [LINE.match(line) for line in ran.stdout.split(b"\n")]
        return ran.returncode, [line[1] or line[2] for line in lines if line and (line[1] or line[2] or "").strip()]

    def build_reencoder(self, folder):
        """Builds the program that writes bodies by wasm-encoder."""
        shutil.copytree(REENCODER, folder)
        if why := self.build(folder):
            sys.exit(why)
        self.reencoder = folder / "target" / "debug" / "reencoder"

    def bodies(self, path):
        """Returns the bodies that wasm-encoder writes, or None if it can't read them."""
        ran = subprocess.run([self.reencoder, path], capture_output=True, timeout=SECONDS, text=True)
        return [bytes.fromhex(line) for line in ran.stdout.splitlines()] if ran.returncode == 0 else None


class Comparison:
    """What was compared, and what was wrong."""

    def __init__(self, engines):
        self.engines = engines
        self.wrong = []
        self.runs = 0
        self.same_bodies = self.shorter_bodies = 0

    def check(self, holds, what):
        if not holds:
            self.wrong.append(what)
        return holds

    def rewrite(self, program, path, out, words=()):
        """Rewrites a module. Returns the status and the message, and checks that a failure leaves nothing."""
        out.unlink(missing_ok=True)
        before = path.read_bytes()
        ran = subprocess.run([program, *words, "-o", out, path], capture_output=True, timeout=SECONDS)
        self.runs += 1
        what = f"{' '.join([path.name, *words])}"
        self.check(path.read_bytes() == before, f"{what}: the input is changed")
        self.check(not ran.stdout, f"{what}: wrote to standard output")
        self.check(not Path(f"{out}.partial").exists(), f"{what}: a partial file is left")
        if ran.returncode == 0:
            self.check(out.exists() and not ran.stderr, f"{what}: status 0, {ran.stderr!r}")
        else:
            self.check(ran.returncode == 1 and ran.stderr.startswith(b"wasm_compact: "), f"{what}: status {ran.returncode}, {ran.stderr!r}")
            self.check(not out.exists(), f"{what}: status {ran.returncode}, and an output file")
        return ran.returncode, ran.stderr

    def same_sections(self, what, old, new, is_dropping):
        """Checks that sections differ in the code section alone, and in dropped ones."""
        wanted = []
        for id, whole, contents in sections_of(old):
            is_dropped = id == 0 and is_dropping and OFFSETS.fullmatch(name_of(contents))
            if not is_dropped:
                wanted.append(None if id == CODE else whole)
        got = [None if id == CODE else whole for id, whole, _ in sections_of(new)]
        self.check(old[:8] == new[:8] and wanted == got, f"{what}: sections differ")
        self.check(len(new) <= len(old), f"{what}: longer")

    def same_by_engines(self, what, old, new, is_damaged=False):
        """Checks verdict and texts. The damage may be in a section that is dropped, or outside the code section."""
        engines = self.engines
        was_valid, is_valid = engines.is_valid(old), engines.is_valid(new)
        self.check(is_valid == was_valid or is_damaged and is_valid, f"{what}: wasm-tools validates one of them")
        text = engines.text(old)
        if not is_damaged or (text is not None and not ARRAY_ACCESS.search(text)):
            self.check(text == engines.text(new), f"{what}: wasm-tools prints another text")
        self.check(engines.listing(old) == engines.listing(new), f"{what}: wasm-objdump -d writes other lines")

    def against_encoder(self, what, old, new):
        """Checks that bodies are not longer than wasm-encoder's."""
        theirs, ours = self.engines.bodies(old), [new[start:end] for start, end in modules.bodies(new)]
        if theirs is None:
            return
        self.check(len(ours) == len(theirs), f"{what}: {len(ours)} bodies, wasm-encoder {len(theirs)}")
        for at, (one, other) in enumerate(zip(ours, theirs)):
            self.same_bodies += one == other
            self.shorter_bodies += len(one) < len(other)
            self.check(one == other or len(one) < len(other), f"{what}: body {at}: {one.hex()}, wasm-encoder {other.hex()}")

    def module(self, program, path, folder):
        """Rewrites a module in both ways, and compares. Returns the bytes of code and module, before and after."""
        old, sizes = path.read_bytes(), []
        for words in ([], ["--drop-offsets"]):
            out = folder / "out.wasm"
            status, complaint = self.rewrite(program, path, out, words)
            what = f"{' '.join([path.name, *words])}"
            if status:
                names = [name_of(contents) for id, _, contents in sections_of(old) if id == 0]
                has_offsets = any(OFFSETS.fullmatch(name) for name in names)
                self.check(not words and has_offsets and b"--drop-offsets" in complaint, f"{what}: {complaint!r}")
                sizes.append(None)
                continue
            new = out.read_bytes()
            self.same_sections(what, old, new, bool(words))
            again = folder / "again.wasm"
            self.rewrite(program, out, again, words)
            self.check(again.exists() and again.read_bytes() == new, f"{what}: rewriting again changes it")
            if self.engines:
                self.same_by_engines(what, path, out)
                self.against_encoder(what, path, new)
            sizes.append((code_length(new), len(new)))
        return (code_length(old), len(old)), sizes

    def damaged(self, program, path, folder):
        """Rewrites each proper prefix of a module, and the module with each byte changed."""
        whole = path.read_bytes()
        cuts = [(f"cut after {at}", whole[:at]) for at in range(len(whole))]
        changes = [(f"byte {at} ^ {flip:#x}", changed(whole, at, flip)) for at in range(len(whole)) for flip in FLIPS]
        kept = 0
        for what, module in cuts + changes:
            given, out = folder / "given.wasm", folder / "out.wasm"
            given.write_bytes(module)
            status, _ = self.rewrite(program, given, out, ["--drop-offsets"])
            if status == 0:
                kept += 1
                what = f"{path.name}, {what}"
                self.same_sections(what, module, out.read_bytes(), True)
                if self.engines:
                    self.same_by_engines(what, given, out, is_damaged=True)
        return len(cuts) + len(changes), kept


def changed(module, at, flip):
    return module[:at] + bytes([module[at] ^ flip]) + module[at + 1 :]


def percent(before, after):
    return f"{100 * (before - after) / before:.1f}%" if before else "0.0%"


def saved(path, before, sizes):
    """A row of the table of savings: the bytes of code and module, and what each way of rewriting saves."""
    cells = []
    for size in sizes:
        cells += ["an error", ""] if size is None else [percent(before[0], size[0]), percent(before[1], size[1])]
    return f"|{path.name}|{before[0]}|{before[1]}|{'|'.join(cells)}|"


def speed(program, path, folder):
    least = min(timed(program, path, folder) for _ in range(3))
    return path.stat().st_size / least / 1e6


def timed(program, path, folder):
    start = time.perf_counter()
    subprocess.run([program, "--drop-offsets", "-o", folder / "timed.wasm", path], capture_output=True, timeout=SECONDS)
    return time.perf_counter() - start


def main():
    given = read(__doc__, "--program PROGRAM", "--engines DIR", "WORD..")
    paths = [Path(word).resolve() for word in given.words if word != NAME]
    if lost := [str(path) for path in paths if not path.is_file()]:
        sys.exit(f"{lost[0]}: no such file")
    stored, made, engines = sorted(DATA.glob("*.wasm")), [], given.engines and Engines(given.engines)
    with tempfile.TemporaryDirectory() as temporary:
        folder = Path(temporary)
        if engines:
            engines.build_reencoder(folder / "encoder")
            made += engines.smith([], (random.Random(seed).randbytes(200 + 40 * seed) for seed in range(SMITH)), folder)

        def run(program, _):
            compared = Comparison(engines)
            for path in [*stored, *made]:
                compared.module(program, path, folder)
            for path in paths:
                before, sizes = compared.module(program, path, folder)
                print(saved(path, before, sizes), f"{speed(program, path, folder):.0f} MB/s")
            for path in stored:
                runs, kept = compared.damaged(program, path, folder)
                print(f"{program.name}, {path.name}: {runs} damaged, {kept} rewritten")
            if engines:
                print(f"wasm-encoder: {compared.same_bodies} bodies the same, {compared.shorter_bodies} shorter")
            return compared.runs, compared.wrong

        sys.exit(over_programs("compactions", [NAME], given.program, run))


if __name__ == "__main__":
    main()
