"""Reads and writes the sections of modules, and runs `wasm-tools` on them."""

import os
import subprocess

from shared.leb128 import read, unsigned

HEADER = b"\0asm\1\0\0\0"
CODE = 10
SECONDS = 300


def sections(module):
    """Yields the number of each section, where it starts, and where its contents start and end."""
    at = len(HEADER)
    while at < len(module):
        size, start = read(module, at + 1)
        yield module[at], at, start, start + size
        at = start + size


def code(module):
    """Returns where the contents of the code section start and end; None without one."""
    return next(((start, end) for number, _, start, end in sections(module) if number == CODE), None)


def bodies(module):
    """Yields where each function body starts and ends."""
    count, at = read(module, code(module)[0]) if code(module) else (0, 0)
    for _ in range(count):
        size, start = read(module, at)
        at = start + size
        yield start, at


def vector(items):
    return unsigned(len(items)) + b"".join(items)


def sized(contents):
    return unsigned(len(contents)) + contents


def section(number, contents):
    return bytes([number]) + sized(contents)


def module(parts):
    """Returns a module with these sections: their contents by number, in their order."""
    return HEADER + b"".join(section(number, contents) for number, contents in parts.items())


class Engines:
    """The programs of a Debian system, whose root is the folder `root` of a folder."""

    def __init__(self, folder):
        self.root = folder / "root"
        self.registry = self.root / "usr/share/cargo/registry"

    def run(self, words, given=None, seconds=SECONDS):
        loader = [self.root / "usr/lib64/ld-linux-x86-64.so.2", "--library-path", self.root / "usr/lib/x86_64-linux-gnu"]
        command = [*loader, self.root / "usr/bin" / words[0], *words[1:]]
        return subprocess.run(command, input=given, capture_output=True, timeout=seconds)

    def smith(self, flags, inputs, folder):
        """Writes the module that `wasm-tools smith` makes of each input into a folder, and yields its path."""
        folder.mkdir(exist_ok=True)
        for number, given in enumerate(inputs):
            ran = self.run(["wasm-tools", "smith", *flags], given)
            if ran.returncode == 0:
                path = folder / f"smith{number}.wasm"
                path.write_bytes(ran.stdout)
                yield path
            elif b"error: " in ran.stderr and b"Usage" in ran.stderr:
                raise SystemExit(ran.stderr.decode(errors="replace"))

    def build(self, folder, **environment):
        """Builds the cargo project in a folder over the registry, and returns what cargo says if it fails."""
        (folder / ".cargo").mkdir(exist_ok=True)
        config = f'[source.crates-io]\nreplace-with = "local"\n[source.local]\ndirectory = "{self.registry}"\n[net]\noffline = true\n'
        (folder / ".cargo/config.toml").write_text(config, encoding="utf-8")
        command = ["cargo", "build", "--offline", "--quiet"]
        ran = subprocess.run(command, cwd=folder, env={**os.environ, **environment}, capture_output=True, text=True)
        return ran.stderr if ran.returncode else None
