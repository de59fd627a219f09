#!/usr/bin/env python3
"""Lists what a stranger has to trust: the kit, what the prover assumes, and whether a second build is the same.

    tools/trust.py              the kit, the search of the sources, and over dist/ the prover's account and a second build
    tools/trust.py --quick      without the second build, and so without the prover's account
    tools/trust.py --unproved   compares dist-unproved/ with a second build of it

- **Kit.** Its identity, by `rt version`, and the checksums in its file WHAT.
- **Assumed.** The functions whose contracts the prover assumes, for each program and the library for C: its own account
  (`rattle build --list-axioms`), from a second proof over dist/rattle. `logic=proved` means that every declaration is
  admitted, without a hole, and nothing else is assumed.
- **Searched.** What the sources declare without a proof, and where.
- **Second build.** Whether it has the checksums of dist/SHA256SUMS.

The status is 1 if a second build differs, or the search finds something.
"""

import re
import subprocess
import sys
import tempfile
from pathlib import Path

from packing import builds, texts
from shared.arguments import read
from shared.crates import TOP
from testing.crates import Crates, Missing, find_kit

# What it means, the files, and the pattern in their text without comments.
WANTED = [
    ("functions that C code defines", "rt", r'extern "C" \{'),
    ("unsafe blocks and functions", "rt", r"\bunsafe (?:\{|fn|impl)"),
    # (not the proposal of this name)
    ("the handles Abort, Wait, Threads, Net, Processes", "rt", r"^(?! *Threads,$).*(?<!Proposal::)\b(?:Abort|Wait|Threads|Net|Processes)\b"),
    ("axioms", "antt", r"^[ \t]*axiom\b|\bPrim\.Axiom\b"),
    ("holes", "antt", r"(?:^|[\s(])\?\w*(?=[\s)]|$)"),
]
COMMENTS = {"rt": re.compile(r"//.*"), "antt": re.compile(r"--.*")}


def heading(text):
    print(f"\n{text}\n{'-' * len(text)}", flush=True)


def place_of(kit, name):
    crate, *_, function = name.split("::")
    for path in sorted((kit / "rattle" / crate / "src").rglob("*.rt")):
        for number, line in enumerate(path.read_text(encoding="utf-8").splitlines(), 1):
            if re.search(rf"\bfn {function}\(", line):
                return f"{path}:{number}"
    return "not found in the kit's sources"


def account(kit, name, output):
    *assumed, verdict = builds.verdict_of(output)
    print(f"{name}: {verdict}")
    for line in assumed:
        print(f"    {line}, {place_of(kit, line.removeprefix('assumed: '))}")


def found_in(crates, names):
    for what, kind, pattern in WANTED:
        places = []
        folders = [crates.folder(name) / part for name in names for part in ("src", "specs", "proofs")]
        for path in (path for folder in folders for path in sorted(folder.rglob(f"*.{kind}"))):
            text = COMMENTS[kind].sub("", path.read_text(encoding="utf-8"))
            lines = [text[: it.start()].count("\n") + 1 for it in re.finditer(pattern, text, re.M)]
            places += [f"{path.relative_to(crates.top)}:{line}" for line in lines]
        yield what, kind, pattern, places


def search(crates, names):
    print(f"In src, specs and proofs of {len(names)} crates: {', '.join(names)}.")
    print("These are what dist/ has and all below it. The kit's libraries are not searched: their check is the kit's.")
    is_clean = True
    for what, kind, pattern, places in found_in(crates, names):
        print(f"{what} (*.{kind}, {pattern}): {', '.join(places) or 'none'}")
        is_clean = is_clean and not places
    return is_clean


def compared(sums, path, made):
    is_same = sums.get(path) == texts.sum_of(made)
    print(f"{path}: {'the same' if is_same else 'DIFFERENT'} {sums.get(path, 'no checksum')}")
    return is_same


def sums_in(folder):
    lines = (folder / "SHA256SUMS").read_text(encoding="utf-8").splitlines()
    return {path: found for found, path in (line.split("  ", 1) for line in lines)}


def build_again(kit, crates, scratch):
    """Builds what users run over dist/. Yields name, path, file and output."""
    subprocess.run(["tar", "-C", scratch, "-xf", TOP / "dist/rattle/libraries.tar.xz", "rlibs"], check=True)
    rlib_of = lambda name: scratch / "rlibs" / f"{name}.rlib"
    for name in [builds.EXPORTS, *builds.programs_of(crates)]:
        is_archive = name == builds.EXPORTS
        made = scratch / ("libwasm_c.a" if is_archive else f"{name}.o")
        output = builds.build_proved(kit, crates, name, rlib_of, made)
        if not is_archive:
            builds.link_program(kit, made, scratch / name)
        yield name, "lib/libwasm_c.a" if is_archive else f"bin/{name}", made if is_archive else scratch / name, output


def prove_again(kit):
    commit = re.search(r"^commit  (\w+)$", (TOP / "dist/PROVED").read_text(encoding="utf-8"), re.M)[1]
    sums, results = sums_in(TOP / "dist"), []
    with tempfile.TemporaryDirectory(prefix="trust-") as folder:
        crates = builds.export(TOP, commit, Path(folder) / "commit")
        heading(f"Assumed, by the prover's account, at commit {commit}")
        for name, path, made, output in build_again(kit, crates, Path(folder)):
            account(kit, name, output)
            results.append((path, made))
        heading("Second build")
        return all([compared(sums, path, made) for path, made in results])


def build_unproved_again():
    tool = [sys.executable, "-B", TOP / "tools/dist", "--unproved"]
    with tempfile.TemporaryDirectory(prefix="trust-") as folder:
        places = [Path(folder) / name for name in ("one", "two")]
        for place in places:
            subprocess.run([*tool, "--to", place], stdout=subprocess.DEVNULL, check=True)
        heading("Two builds without proofs")
        sums = sums_in(places[0])
        return all([compared(sums, path, places[1] / path) for path in sums])


def main():
    given = read(__doc__, "--quick", "--unproved")
    kit, crates = find_kit(), Crates(TOP)
    heading("Kit")
    print(builds.identity_of(kit), end="")
    heading("Searched")
    is_well = search(crates, [*builds.libraries_of(crates), *builds.programs_of(crates), builds.EXPORTS])
    if given.unproved:
        is_well = build_unproved_again() and is_well
    elif not given.quick and (TOP / "dist/rattle/libraries.tar.xz").exists():
        is_well = prove_again(kit) and is_well
    elif not given.quick:
        heading("Assumed")
        print("There is no dist/rattle: run tools/dist for the prover's account and a second build.")
    return 0 if is_well else 1


if __name__ == "__main__":
    try:
        sys.exit(main())
    except (Missing, builds.Failed, subprocess.CalledProcessError) as why:
        sys.exit(f"trust: {why}")
