"""Tests `tools/test`: breaks one expectation at a time in a copy of the repository."""

import re
import shutil
import sys

from testing import running
from testing.items import BLOCKS, CHECKS, OVER_MODULES, REPLAY, Check, Library, Program, find_jobs, is_named
from testing.outcome import tail
from testing.running import Clock

LIMIT = 7200
LEFT_OUT = (".git", "out", "__pycache__", "target", "native")
LINE = re.compile(r"(ok|FAILED) \d+ s ([\w/-]+)")
WRONG_ROW = "wasm_below/Nothing\tNoSuchDefinition\t\tA word that nothing defines.\n"
WRONG_BLOCK = "README.md\ta block that no page has\tshell\t\n"
COMPACT = "wasm_compact"
WRONG_EDIT = "file: src/lib.rt\nold: a text that does not occur\nnew: another\n"


class Break:
    """A change of a file, the item that must fail, and others that may."""

    def __init__(self, item, path, change, others=()):
        self.item, self.path, self.change, self.others = item, path, change, set(others)


def more(text):
    return lambda old: old + text


def replaced(pattern, new):
    return lambda old: re.sub(pattern, new, old, count=1, flags=re.M)


def wrong_status(text):
    head, row, rest = text.split("\n", 2)
    cells = row.split("\t")
    cells[3] = str(int(cells[3]) + 1)
    return "\n".join([head, "\t".join(cells), rest])


def first(paths):
    return sorted(paths)[0]


def head_of_lists(top):
    return re.search(r'^HEAD = "(.*)"$', (top / "tools" / "generate" / "table.py").read_text(encoding="utf-8"), re.M)[1]


def breaks_of_checks(top):
    edit = first(top.glob("crates/*/must-fail/*.edit"))
    equal = first(path for path in top.glob("tools/tests/test_*.py") if "self.assertEqual(" in path.read_text(encoding="utf-8"))
    return [
        Break("unit-tests", equal, replaced(r"self\.assertEqual\(", "self.assertNotEqual(")),
        Break("lists", top / "crates" / "wasm_bench" / "specs" / "LeftOver.antt", more(f"-- {head_of_lists(top)}\n")),
        Break("expected", top / "crates" / "wasm_tests_lists" / "edges.txt", more("one line more\n")),
        Break("expected-reading", top / "crates" / "wasm_tests_decode" / "rows.tsv", lambda old: old + old.splitlines(True)[-1]),
        # (the program does not read the names of its rows)
        Break("expected-writing", top / "crates" / "wasm_tests_encode" / "stdin", replaced(r"^(\w+)", r"\1Other")),
        Break("definitions", top / "tools" / "definitions.tsv", more(WRONG_ROW)),
        Break("contracts", top / "crates" / "wasm_operators" / "CALLING.md", replaced(r"^  ensures: Reads", "  ensures: Read")),
        Break("edges", top / "crates.txt", replaced(r"^(uses:.*)$", r"\1 bitflags")),
        Break("picture", top / "docs" / "crates.svg", more("<!-- more -->\n")),
        Break("refused", top / "crates" / "wasm_visit_groups" / "src" / "route.rt", more("\nimpl ToOwn for ByAny {}\n")),
        Break("bindings", top / "c" / "examples" / "list.c", more('int broken = "text";\n'), [REPLAY, BLOCKS]),
        Break("edits", edit, more(WRONG_EDIT)),
        Break(BLOCKS, top / "tools" / "blocks.tsv", more(WRONG_BLOCK)),
        Break(REPLAY, top / "tools" / "bindings", replaced(r"'mvp (\d+)'", r"'mvp \g<1>0'")),
    ]


def breaks_of_program(folder, items):
    name = folder.name
    if name in items:
        stored = folder / "stdout.short"
        yield Break(name, folder / "status", lambda old: f"{int(old or 0) + 1}\n")
        # (wasm_compact writes a module, which is no text)
        if name != COMPACT:
            # (scripts check some of the files that they write)
            yield Break(name, stored if stored.exists() else folder / "stdout", more("one line more\n"), CHECKS)
    if f"{name}/cases" in items:
        yield Break(f"{name}/cases", folder / "cases.tsv", wrong_status)
    if f"{name}/modules" in items and name == COMPACT:
        tool = folder.parents[1] / "tools" / OVER_MODULES[name][0]
        yield Break(f"{name}/modules", tool, replaced(r"^CODE = 10$", "CODE = 11"))
    elif f"{name}/modules" in items:
        yield Break(f"{name}/modules", first((folder / "data").glob("*.txt")), more("one line more\n"))
    if f"{name}/types" in items:
        cases = folder.parents[1] / "tools" / "original" / "typing_cases.tsv"
        yield Break(f"{name}/types", cases, replaced(r"\tvalid\t", "\tinvalid\t"), ["unit-tests"])


def breaks(crates):
    of_checks, found = breaks_of_checks(crates.top), []
    for job in find_jobs(crates, is_full=False):
        if isinstance(job, (Check, Library)):
            found += [it for it in of_checks if it.item in job.items]
        elif isinstance(job, Program):
            found += breaks_of_program(job.folder, job.items)
    return found


def run_tool(top, kept, *words):
    ran = running.run([sys.executable, "-B", top / "tools" / "test", "--keep", kept, *words], LIMIT, top)
    lines = LINE.findall(ran.out.decode(errors="replace"))
    passed, failed = ({name for word, name in lines if word == wanted} for wanted in ("ok", "FAILED"))
    if ran.status != (1 if failed else 0):
        failed.add(f"exit status {ran.status}")
    return passed, failed, ran.text()


def fault_of(broken, top, kept):
    """Tries a break. Returns what is wrong, or None."""
    before = broken.path.read_text(encoding="utf-8") if broken.path.exists() else None
    after = broken.change(before or "")
    if after == before:
        return f"the break of {broken.path.relative_to(top)} changes nothing"
    broken.path.write_text(after, encoding="utf-8")
    try:
        _, failed, text = run_tool(top, kept)
    finally:
        if before is None:
            broken.path.unlink()
        else:
            broken.path.write_text(before, encoding="utf-8")
    if broken.item in failed and failed - {broken.item} <= broken.others:
        return None
    return "\n".join([f"these fail: {', '.join(sorted(failed)) or 'none'}", *tail(text)])


def self_test(crates_of, top, scratch, kept, names, write):
    """Returns how many breaks did what they should, and how many did not."""
    copy = scratch / "copy"
    shutil.copytree(top, copy, symlinks=True, ignore=shutil.ignore_patterns(*LEFT_OUT))
    crates = crates_of(copy)
    clock = Clock()
    passed, failed, text = run_tool(copy, kept)
    write(f"{clock.seconds():.0f} s: {len(passed)} items pass in a copy, {len(failed)} fail")
    if failed or not passed:
        write("\n".join(tail(text)))
        return 0, 1
    found = breaks(crates)
    unbroken = sorted(passed - {it.item for it in found})
    for item in unbroken:
        write(f"FAILED {item}: it has no break")
    found = [it for it in found if not names or any(is_named(it.item, name) for name in names)]
    good = 0
    for broken in found:
        clock = Clock()
        fault = fault_of(broken, copy, kept)
        good += fault is None
        what = f"{clock.seconds():.0f} s {broken.item}, by {broken.path.relative_to(copy)}"
        write(f"FAILED {what}: {fault}" if fault else f"ok {what}")
    return good, len(found) - good + len(unbroken)
