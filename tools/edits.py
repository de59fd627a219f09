#!/usr/bin/env python3
"""Checks that every edit still applies to the sources, or tries the must-fail edits that the gate leaves out.

    tools/edits.py [--log LOG]
    tools/edits.py --more [--keep DIR] [--libraries FOLDER] [--record] [NAME..]

An edit replaces texts of files, which must occur once, in order: lines `file: PATH`, `old: TEXT`, `new: TEXT`. The gate
tries `crates/NAME/must-fail/X.edit`, `--more` those in `crates/NAME/more-must-fail.edits`, and `tools/run tests_catch` those
in `tests-catch.edits`. In these two, a line `edit: X` starts an edit. With `--log` the check also fails if the log of
`rt ci` has a `BAD EDIT`, which `rt ci` skips.

The gate leaves edits out, since a second edit costs another proof of the crate. `--more` copies the crates, puts these
edits in the place of the gate's, and has `rt` try them there. Without NAME it takes every crate with such edits.
The libraries below NAME are those that `rt ci` kept, if the kit keeps any (`rt help` then shows `rt ci` with names). Else
`rt must-fail` builds them. With `--libraries FOLDER` they come from a checkout in which `rt ci` has passed, and which has
the same sources of all crates below NAME. Then `RT_JOBS=N` tries the edits of N crates at a time (2), first of those with
the most edits. `--keep DIR` keeps the copy, in a folder that is new, empty or such a copy. `--record` writes the crates
whose edits were all rejected into tools/more_must_fail.tsv, with the commit and the date, for docs/GATE.md. It needs a
checkout without changes in crates/.

The last line has the numbers of edits and of wrong ones; the status is 0 if none is wrong.
"""

import csv
import datetime
import os
import re
import shutil
import subprocess
import sys
import tempfile
from concurrent.futures import ThreadPoolExecutor
from pathlib import Path

from shared.arguments import read
from shared.crates import TOP, below, crates
from shared.tables import rows_of

GATE, MORE, TESTS = "must-fail", "more-must-fail.edits", "tests-catch.edits"
KINDS = (GATE, MORE, TESTS)
PARTS = ("src/", "specs/", "proofs/")
RECORD = TOP / "tools" / "more_must_fail.tsv"
COLUMNS = ["crate", "edits", "commit", "date"]
COPIED = ["crates", "crates.txt", "HANDLES"]
REJECTED = re.compile(r"(?:rt: )?must-fail (\w+)/(\S+): refused")


class BadEdit(Exception):
    """An edit that can't be applied."""


class Edit:
    """An edit of the crate in the folder `crate`. `place` is its path below that folder."""

    def __init__(self, crate, place, text):
        self.crate, self.place, self.text = crate, place, text
        self.name = place.rpartition("/")[2].removesuffix(".edit")

    def __str__(self):
        return f"crates/{self.crate.name}/{self.place}"


def edits_of(crate, kinds=KINDS):
    """Returns the edits of a crate in the folder or the files of these names."""
    found = []
    for kind in kinds:
        if kind == GATE:
            found += [Edit(crate, f"{kind}/{it.name}", it.read_text(encoding="utf-8")) for it in sorted(crate.glob(f"{kind}/*.edit"))]
        elif (crate / kind).exists():
            parts = re.split(r"^edit: *(.*)\n", (crate / kind).read_text(encoding="utf-8"), flags=re.M)
            found += [Edit(crate, f"{kind}/{name}", text) for name, text in zip(["", *parts[1::2]], parts[::2]) if name or text.strip()]
    return found


def replacements(text):
    name, old = None, None
    for line in text.split("\n"):
        if line.startswith("file: "):
            name = line.removeprefix("file: ").strip()
        elif line.startswith("old: "):
            old = line.removeprefix("old: ")
        elif line.startswith("new:"):
            if name is None or not old:
                raise BadEdit("a 'new:' line without a 'file:' and an 'old:' line before it")
            yield name, old, line.removeprefix("new:").removeprefix(" ")
            old = None
        elif line.strip() and not line.startswith(("#", "--", "//", "item: ")):
            raise BadEdit(f"a line that is not read: {line.strip()[:60]}")


def edited(edit, crate=None):
    """Returns the files that an edit changes in its crate, or in the copy `crate`, by name, or raises BadEdit."""
    files, before, crate = {}, {}, crate or edit.crate
    for name, old, new in replacements(edit.text):
        if not name.startswith(PARTS):
            raise BadEdit(f"{name} is not below {', '.join(PARTS)}")
        if name not in files:
            if not (crate / name).is_file():
                raise BadEdit(f"there is no file {name}")
            files[name] = before[name] = (crate / name).read_text(encoding="utf-8")
        count = files[name].count(old)
        if count != 1:
            raise BadEdit(f"an 'old:' text occurs {count} times in {name}")
        files[name] = files[name].replace(old, new)
    if files == before:
        raise BadEdit("it changes nothing")
    return files


def faults(top):
    found, count = [], 0
    for crate in sorted((top / "crates").iterdir()):
        places = [edit.place for edit in edits_of(crate)]
        found += [f"crates/{crate.name}/{place}: twice" for place in sorted(set(places)) if places.count(place) > 1]
        for edit in edits_of(crate):
            count += 1
            try:
                edited(edit)
            except BadEdit as bad:
                found.append(f"{edit}: {bad}")
        strays = [path for path in crate.glob(f"{GATE}/*") if path.suffix not in (".edit", ".md")]
        strays += [path for path in crate.glob("*/*.edit") if path.parent.name != GATE]
        strays += [path for path in crate.glob("*.edits") if path.name not in KINDS]
        found += [f"{path.relative_to(top)}: not an edit" for path in strays]
    return found, count


def bad_in_log(text):
    return [line for line in text.split("\n") if "BAD EDIT" in line]


def copied(folder):
    """Copies the crates without what is built. Exits if the folder holds something else."""
    left = [path.name for path in folder.iterdir() if path.name not in COPIED] if folder.exists() else []
    if left:
        sys.exit(f"{folder} has {left[0]}, and is no copy that this tool made: choose an empty folder")
    shutil.rmtree(folder / "crates", ignore_errors=True)
    listed = subprocess.run(
        ["git", "-C", TOP, "ls-files", "-coz", "--exclude-standard", *COPIED], capture_output=True, check=True
    )
    for name in (name.decode() for name in listed.stdout.split(b"\0") if name):
        if (TOP / name).is_file():
            (folder / name).parent.mkdir(parents=True, exist_ok=True)
            shutil.copy2(TOP / name, folder / name)


def exchanged(folder, names):
    """Replaces the gate's edits by the further ones in these crates, and takes all from the others."""
    for crate in (folder / "crates").iterdir():
        shutil.rmtree(crate / GATE, ignore_errors=True)
        for edit in edits_of(crate, [MORE]) if crate.name in names else []:
            (crate / GATE).mkdir(exist_ok=True)
            (crate / GATE / f"{edit.name}.edit").write_text(edit.text, encoding="utf-8")


def rejected_in(lines):
    """Yields each line of `rt`, with the crate and the edit that it reports as rejected."""
    for line in lines:
        found = REJECTED.match(line)
        yield line, (found[1], found[2]) if found else None


def sources(crate):
    """Returns the files of a crate that its library is built from, by their paths in it."""
    return {path.relative_to(crate): path for part in PARTS for path in crate.glob(f"{part}**/*") if path.is_file()}


def is_library_of(library, crate, of_copy):
    """Returns whether a library was built from the sources of its crate after their last change, and the copy's are the same."""
    ours, theirs = sources(of_copy), sources(crate)
    is_same = ours.keys() == theirs.keys() and all(ours[it].read_bytes() == theirs[it].read_bytes() for it in ours)
    return library.is_dir() and is_same and library.stat().st_mtime >= max(it.stat().st_mtime for it in theirs.values())


def lend(libraries, folder, names):
    """Links the libraries of a checkout into the copy. Returns, by name, a crate below that has none."""
    uses, lacking = crates(folder), {}
    same = {name for name, listed in crates(libraries).items() if uses.get(name) == listed}
    for name in uses:
        place, library = (top / "crates" / name / "out/rlib" / f"{name}.rlib" for top in (folder, libraries))
        if name in same and is_library_of(library, libraries / "crates" / name, folder / "crates" / name):
            place.parent.mkdir(parents=True, exist_ok=True)
            place.symlink_to(library)
        else:
            lacking |= {above: name for above in names if name in below(uses, above)}
    return lacking


def commands(names, libraries):
    """Returns the commands that try the edits of a copy, to be run at the same time."""
    if libraries:
        return [[sys.executable, "-B", Path(__file__).parent / "testing" / "over_libraries.py", name] for name in names]
    usage = subprocess.run(["rt", "help"], capture_output=True, text=True, errors="replace")
    takes_names = re.search(r"^ *rt ci +\[?NAME", usage.stdout + usage.stderr, re.M)
    return [["rt", "ci" if takes_names else "must-fail", *names]]


def run(command, folder):
    """Passes the output of a command on. Returns the edits that it reports as rejected, and its status."""
    # (rt ci refuses names if CI is set)
    env = {name: value for name, value in os.environ.items() if name != "CI"}
    how = {"stdout": subprocess.PIPE, "stderr": subprocess.STDOUT, "text": True, "errors": "replace"}
    seen = set()
    with subprocess.Popen(command, cwd=folder, env=env, **how) as ran:
        for line, edit in rejected_in(ran.stdout):
            print(line, end="", flush=True)
            seen |= {edit} - {None}
    return seen, ran.returncode


def tried(folder, names, libraries=None):
    """Returns the number of rejected edits, and the others."""
    lacking = lend(libraries, folder, names) if libraries else {}
    wrong = [f"{name}/ ({libraries} has no library of {it} from these sources)" for name, it in lacking.items()]
    many = lambda name: -len(edits_of(folder / "crates" / name, [GATE]))
    names = sorted((name for name in names if name not in lacking), key=many)
    with ThreadPoolExecutor(int(os.environ.get("RT_JOBS") or 2)) as pool:
        runs = list(pool.map(lambda command: run(command, folder), commands(names, libraries) if names else []))
    seen = {edit for rejected, _ in runs for edit in rejected}
    wanted = {(name, f"{edit.name}.edit") for name in names for edit in edits_of(folder / "crates" / name, [GATE])}
    lost = [f"{name}/{edit}" for name, edit in sorted(wanted - seen)]
    if any(status for _, status in runs) and not lost:
        lost = [f"{name}/ (rt failed)" for name in names]
    return len(wanted & seen), wrong + lost


def recorded():
    return rows_of(RECORD) if RECORD.exists() else []


def committed():
    """Returns the commit. Exits if crates/ has uncommitted changes."""
    run = lambda *words: subprocess.run(["git", "-C", TOP, *words], capture_output=True, text=True, check=True).stdout.strip()
    if run("status", "--porcelain", "crates", "crates.txt"):
        sys.exit("crates/ has uncommitted changes: commit them before --record")
    return run("rev-parse", "--short", "HEAD")


def record(names, commit):
    rows = {row["crate"]: row for row in recorded()}
    today = datetime.date.today().isoformat()
    for name in names:
        count = len(edits_of(TOP / "crates" / name, [MORE]))
        rows[name] = {"crate": name, "edits": str(count), "commit": commit, "date": today}
    with open(RECORD, "w", encoding="utf-8", newline="") as out:
        writer = csv.DictWriter(out, COLUMNS, delimiter="\t", lineterminator="\n")
        writer.writeheader()
        writer.writerows(rows[name] for name in sorted(rows) if (TOP / "crates" / name / MORE).exists())


def try_more(names, kept, libraries, is_recorded):
    """Tries the edits that the gate leaves out. Returns how many were rejected, and the others."""
    every = [path.parent.name for path in sorted(TOP.glob(f"crates/*/{MORE}"))]
    unknown = [name for name in names if name not in every]
    if unknown:
        sys.exit(f"no crates/{unknown[0]}/{MORE}")
    names = names or every
    commit = committed() if is_recorded else None
    with tempfile.TemporaryDirectory(prefix="more-must-fail-") as scratch:
        folder = kept or Path(scratch) / "copy"
        copied(folder)
        exchanged(folder, names)
        rejected, wrong = tried(folder, names, libraries)
    if is_recorded:
        failed = {edit.split("/")[0] for edit in wrong}
        record([name for name in names if name not in failed], commit)
    return rejected, wrong


def main():
    given = read(__doc__, "--log LOG", "--more", "--keep DIR", "--libraries FOLDER", "--record", "NAME..")
    if given.more:
        count, found = try_more(given.names, given.keep, given.libraries, given.record)
        found, done = [f"NOT REJECTED: {edit}" for edit in found], "rejected"
    else:
        found, count = faults(TOP)
        found += bad_in_log(given.log.read_text(encoding="utf-8", errors="replace")) if given.log else []
        done = "checked"
    for fault in found:
        print(fault)
    print(f"edits: {count} {done}, {len(found)} wrong")
    sys.exit(1 if found or not count else 0)


if __name__ == "__main__":
    main()
