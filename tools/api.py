#!/usr/bin/env python3
"""Writes rust/API.md, the list of the cargo crate's items, from api.tsv.

    tools/api.py                     writes the tables of the page
    tools/api.py --check             fails unless the page is what api.tsv gives, and its names exist
    tools/api.py --original FOLDER   fails unless api.tsv has each public item of wasmparser's operators layer, whose
                                     crate is in FOLDER

A row is an item of wasmparser: its type, its name, whether the crate has it, the functions of the C library that it
calls, the proved functions (`crate::function`) that these call, and a note.
"""

import re
import sys
from pathlib import Path

from shared.arguments import read
from shared.crates import TOP
from shared.tables import rows_of
from shared.written import write_or_check

TABLE = TOP / "tools/api.tsv"
PAGE = TOP / "rust/API.md"
HEADER = TOP / "c/include/wasm_operators.h"
SOURCES = TOP / "rust/src"
# The files of wasmparser's operators layer.
LAYER = ["binary_reader.rs", "readers/core/code.rs", "readers/core/init.rs", "readers/core/operators.rs"]
ROWS_HEAD = "|Type|Items|C function|Proved function|Note|\n|---|---|---|---|---|\n"


def rows():
    return rows_of(TABLE)


def listed(cell):
    return [name for name in cell.split(", ") if name]


def code(names):
    return ", ".join(f"`{name}`" for name in names)


def page():
    """Returns the page with its head and a new table."""
    head, groups = PAGE.read_text(encoding="utf-8").split(ROWS_HEAD)[0], {}
    for row in rows():
        is_whole = is_type(row["type"]) and not row["item"]
        key = ("" if is_whole else row["type"], row["call"], proved(row), noted(row))
        groups.setdefault(key, []).append(row)
    lines, last = [], None
    for (owner, call, function, note), members in groups.items():
        if owner:
            first, *others = ", ".join(map(item, members)).split("for `")
            name, items = heading(owner), "for `".join([first, "`".join(others)] if others else [first])
        else:
            name, items = code(row["type"] for row in members), "type" if len(members) == 1 else "types"
        cells = ["" if name == last else name, items, code(listed(call)), code(listed(function)), note]
        last = name
        lines.append("|" + "|".join(cells) + "|")
    return head + ROWS_HEAD + "\n".join(lines) + "\n"


def proved(row):
    crate, _, function = row["proved"].partition("::")
    return f"{crate}::" if function and function == row["item"] else row["proved"]


def noted(row):
    return f"absent: {row['note']}" if row["state"] == "absent" else row["note"]


def heading(name):
    return code([name]) if is_type(name) else name[0].upper() + name[1:]


def is_type(name):
    return re.fullmatch(r"[A-Z]\w+", name) is not None


def item(row):
    name = row["item"]
    if not name:
        return "all"
    if name.startswith("for "):
        return ", ".join(f"for `{one.removeprefix('for ')}`" for one in parts(name))
    return code(parts(name)) if re.fullmatch(r"[\w<>!:, ]+", name) and is_code(name) else name


def parts(name):
    return re.split(r", (?![^(]*\))", name)


def is_code(name):
    return all(re.fullmatch(r"[\w:]+(<\w+>)?!?", one) for one in parts(name)) and name != "methods"


def faults():
    header = HEADER.read_text(encoding="utf-8")
    sources = "\n".join(path.read_text(encoding="utf-8") for path in sorted(SOURCES.glob("*.rs")))
    found = []
    for row in rows():
        place = f"tools/api.tsv: {row['type']} {row['item']}".rstrip()
        if row["state"] not in ("present", "absent"):
            found.append(f"{place}: the state is present or absent")
        if row["state"] == "absent" and not row["note"]:
            found.append(f"{place}: no reason")
        found += [f"{place}: the header has no {call}" for call in listed(row["call"]) if not re.search(rf"\b{call}\(", header)]
        found += [f"{place}: no function {name}" for name in listed(row["proved"]) if not exists(name)]
        if row["state"] == "present" and not is_here(row, sources):
            found.append(f"{place}: not in the crate")
    return found


def exists(name):
    crate, _, function = name.partition("::")
    files = (TOP / "crates" / crate / "src").rglob("*.rt")
    return any(re.search(rf"\bfn {function}\b", path.read_text(encoding="utf-8")) for path in files)


def is_here(row, sources):
    name = row["item"]
    if is_type(row["type"]) and not re.search(rf"\b(struct|enum|trait|type) {row['type']}\b", sources):
        return False
    if re.fullmatch(r"[a-z]\w*", name) and name != "methods":
        return re.search(rf"\bfn {name}\b", sources) is not None
    if name.endswith("!"):
        return f"as {name.removesuffix('!')};" in sources
    return True


def public_items(text):
    found, owner = [], ""
    for line in text.split("#[cfg(test)]\nmod tests")[0].split("\n"):
        if line.startswith("impl"):
            head = re.sub(r"^impl(<(?:[^<>]|<[^<>]*>)*>)?\s*", "", line)
            owner = re.match(r"\w*", head.split(" for ")[-1])[0] if " for " not in head else ""
        if declared := re.match(r"pub (?:struct|enum|trait|type) (\w+)", line):
            found.append((declared[1], ""))
            owner = declared[1]
        elif (method := re.match(r"    pub (?:const )?fn (\w+)", line)) and owner:
            found.append((owner, method[1]))
    return found


def missing(folder):
    has = {(row["type"], name) for row in rows() for name in [*parts(row["item"]), ""]}
    texts = [(Path(folder) / "src" / name).read_text(encoding="utf-8") for name in LAYER]
    items = [item for text in texts for item in public_items(text) if not item[1].startswith("open_")]
    return [f"tools/api.tsv: {' '.join(one).rstrip()} of wasmparser is missing" for one in items if one not in has]


def main():
    given = read(__doc__, "--check", "--original FOLDER")
    if found := missing(given.original) if given.original else faults():
        sys.exit("\n".join(found))
    if not given.original:
        write_or_check({PAGE.relative_to(TOP): page()}, given.check, "tools/api.py")


if __name__ == "__main__":
    main()
