#!/usr/bin/env python3
"""Builds programs that use wasmparser over the cargo crate, and compares their output with that over wasmparser.

    tools/clients.py ENGINES [MODULES ..]   ENGINES is a folder with a cargo registry of wasmparser 0.239, wasmprinter,
                                            wasm-encoder and walrus in root/usr/share/cargo/registry, and wasm-tools in
                                            root/usr/bin. MODULES are files, or folders with files, NAME.wasm or
                                            NAME.bodies (function bodies, each with its length before it)

WASM_OPERATORS_LIBRARIES is the folder of the library, as for cargo. WORK is a folder that keeps what was built, and
SMITH the number of modules that `wasm-tools smith` makes with all its proposals (300). It makes as many with the
proposals that walrus reads.

rust/clients has the programs and `changes.tsv`, the changed lines of each client with their causes. The programs
read the modules in crates/*/data, the modules of `wasm-tools smith`, and MODULES.
"""

import itertools
import os
import random
import re
import shutil
import subprocess
import sys
import tempfile
from pathlib import Path

from shared import modules
from shared.arguments import read
from shared.crates import TOP
from shared.tables import rows_of

CLIENTS = TOP / "rust/clients"
# The program of each client: its source, the version of the client, and the client's features.
PROGRAMS = {
    "wasmparser": ("payloads", "0.239.0", ""),
    "wasmprinter": ("print", "0.239.0", "default-features = false"),
    "wasm-encoder": ("reencode", "0.239.0", 'default-features = false, features = ["std", "wasmparser"]'),
    "walrus": ("rewrite", "0.24.4", ""),
}
CAUSES = {
    "offsets": "offsets have 64 bits in 0.263",
    "memarg": "`MemArg::target` of 0.263",
    "operators": "operators of 0.263",
    "fence": "the ordering of `atomic.fence` of 0.263",
    "exact": "exact references of 0.263",
    "validator": "`Validator` checks whole modules only",
}
OURS = f'package = "wasm-operators", path = "{TOP / "rust"}"'
SIDES = ("wasmparser", "wasm-operators")
# The features of the crate that reads.
PARSER = 'default-features = false, features = ["std", "features", "simd"]'
# The proposals of `wasm-tools smith` that walrus does not read.
UNREAD = {"custom-page-sizes", "exceptions", "gc", "shared-everything-threads", "wide-arithmetic"}
SEED = 263
SEED_BYTES = 4000


def changes():
    return rows_of(CLIENTS / "changes.tsv")


def changed(text, rows):
    """Returns a source with its changed lines."""
    lines = text.split("\n")
    for row in rows:
        at = int(row["line"]) - 1
        if lines[at].strip() != row["old"]:
            sys.exit(f"{row['client']} {row['file']}:{row['line']}: another line than in changes.tsv: {lines[at].strip()}")
        lines[at] = "\n".join(row["new"].split("\\n")) if row["new"] else None
    return "\n".join(line for line in lines if line is not None)


def patch(client, source, folder):
    """Copies a client, with its changed lines and one line of Cargo.toml."""
    shutil.copytree(source, folder, dirs_exist_ok=True)
    for path in [folder, *folder.rglob("*")]:
        path.chmod(0o755 if path.is_dir() else 0o644)
    (folder / ".cargo-checksum.json").unlink(missing_ok=True)
    files = {}
    for row in changes():
        if row["client"] == client:
            files.setdefault(row["file"], []).append(row)
    for name, rows in files.items():
        text = (source / name).read_text(encoding="utf-8")
        (folder / name).write_text(changed(text, rows), encoding="utf-8")
    manifest = (folder / "Cargo.toml").read_text(encoding="utf-8")
    manifest = re.sub(r"\[dev-dependencies.*\n(?:.+\n)*", "", manifest)
    line = OURS.replace(", ", "\n")
    manifest, count = re.subn(r'(?<=\[dependencies\.wasmparser\]\n)version = ".*"', line, manifest)
    assert count == 1, f"{client} does not depend on wasmparser"
    (folder / "Cargo.toml").write_text(manifest, encoding="utf-8")


def build(engines, work):
    """Builds the programs over both crates, and returns their paths by client and side."""
    programs = {}
    for client, (source, version, features) in PROGRAMS.items():
        copy = work / "clients" / client
        if client != "wasmparser":
            patch(client, engines.registry / f"{client}-{version}", copy)
        for side in SIDES:
            is_ours = side == "wasm-operators"
            name = f"{source}-{side}"
            parser = ("wasmparser", OURS if is_ours else 'version = "0.239"', PARSER)
            wanted = [(client, f'path = "{copy}"' if is_ours else f'version = "{version}"', features), parser]
            programs[client, side] = project(engines, work, name, source, wanted[client == "wasmparser" :])
    return programs


def project(engines, work, name, source, wanted):
    """Builds a program, and returns its path."""
    folder = work / name
    folder.mkdir(exist_ok=True)
    dependencies = [f"{crate} = {{ {', '.join(filter(None, parts))} }}" for crate, *parts in wanted]
    manifest = [
        f'[package]\nname = "{name}"\nversion = "0.0.0"\nedition = "2024"\n[workspace]',
        f'[[bin]]\nname = "{name}"\npath = "{CLIENTS / source}.rs"',
        "[profile.dev]\nopt-level = 1\n[dependencies]",
        *dependencies,
    ]
    (folder / "Cargo.toml").write_text("\n".join(manifest) + "\n", encoding="utf-8")
    target = work / "target"
    if why := engines.build(folder, CARGO_TARGET_DIR=str(target)):
        sys.exit(f"{name} does not build:\n{why}")
    return target / "debug" / name


def module_of_bodies(data):
    """Returns a module whose functions have these bodies. It is not valid: the other sections are missing."""
    bodies = []
    while data:
        length = int.from_bytes(data[:4], "little")
        bodies.append(modules.sized(data[4 : 4 + length]))
        data = data[4 + length :]
    return modules.module({1: b"\x01\x60\0\0", 3: modules.vector([b"\0"] * len(bodies)), 10: modules.vector(bodies)})


def smith(engines, work, count):
    """Makes modules with all proposals that `wasm-tools smith` knows, and as many with those that walrus reads."""
    texts = engines.run(["wasm-tools", "smith", "--help"]).stdout.decode()
    proposals, made = sorted(set(re.findall(r"--([\w-]+)-enabled", texts))), []
    for part, left_out in enumerate((set(), UNREAD)):
        flags = [f"--{proposal}-enabled={str(proposal not in left_out).lower()}" for proposal in proposals]
        inputs = random.Random(SEED + part)
        found = engines.smith(flags, (inputs.randbytes(SEED_BYTES) for _ in itertools.count()), work / f"smith-{part}")
        made += itertools.islice(found, count)
    return made


def given(words, work):
    """Returns the modules that the words name. Files of bodies become modules."""
    paths = [path for word in words for path in ([Path(word)] if Path(word).is_file() else sorted(Path(word).rglob("*")))]
    found = []
    for path in paths:
        if path.suffix == ".wasm":
            found.append(path)
        elif path.suffix == ".bodies":
            module = work / f"{path.stem}.bodies.wasm"
            module.write_bytes(module_of_bodies(path.read_bytes()))
            found.append(module)
    return found


def compare(programs, modules_of_all, work):
    """Runs the programs, and returns a line for each client, and the modules at which they differ."""
    paths = work / "modules"
    paths.write_text("".join(f"{path}\n" for path in modules_of_all), encoding="utf-8")
    lines, faults = [], []
    for client in PROGRAMS:
        found = []
        for side in SIDES:
            run = subprocess.run([programs[client, side], paths], capture_output=True, text=True)
            found.append(run.stdout.splitlines())
            if run.returncode != 0 or len(found[-1]) != len(modules_of_all):
                faults.append(f"{client} over {side}: {run.stderr or 'ends early'}")
        pairs = list(zip(*found))
        # walrus validates what it reads, which it does not over this crate
        invalid = [pair for pair in pairs if client == "walrus" and "\terror\t" in pair[0]]
        different = [pair for pair in pairs if pair[0] != pair[1] and pair not in invalid]
        rest = f", {len(invalid)} modules that it does not read" if invalid else ""
        lines.append(f"{client}: {len(pairs) - len(invalid)} modules, {len(different)} differences{rest}")
        faults += [f"{client}:\n  {one}\n  {other}" for one, other in different]
    return lines, faults


def main():
    words = read(__doc__, "WORD..")
    if not words.words:
        sys.exit(__doc__)
    engines, *others = words.words
    engines = modules.Engines(Path(engines).resolve())
    with tempfile.TemporaryDirectory() as folder:
        work = Path(os.environ.get("WORK", folder)).resolve()
        work.mkdir(parents=True, exist_ok=True)
        programs = build(engines, work)
        paths = sorted((TOP / "crates").glob("*/data/*.wasm"))
        paths += smith(engines, work, int(os.environ.get("SMITH", "300"))) + given(others, work)
        lines, faults = compare(programs, paths, work)
    print("\n".join(lines + faults))
    sys.exit(bool(faults))


if __name__ == "__main__":
    main()
