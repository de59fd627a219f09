"""How a generated file names what the crates define.

The generators may import a type of operators from `wasm_instr`, and name a crate in its own files. `by_defined` rewrites
both: a name is imported from the crate that defines it, which is `crate` in that crate's files.
"""

import re

from shared.crates import TOP, below, crates

# A re-export of a root file, and an import of names from the root of a crate.
EXPORT = re.compile(r"^pub use (\w+)::(?:\w+::)*(?:\{([^}]*)\}|(\w+));", re.M)
IMPORT = re.compile(r"^use (wasm_\w+)::\{?([\w\s,]+?),?\s*\}?;", re.M)


def exports(text, listed):
    """Returns the names that a root file gives to its crate's own items."""
    found = [(of[1], of[2] or of[3]) for of in EXPORT.finditer(text)]
    return {name for first, names in found if first not in listed for name in re.findall(r"\w+", names)}


def homes(listed, top=TOP):
    """Returns the crate that defines each public name, of those below `wasm_operators`."""
    roots = {name: top / "crates" / name / "src/lib.rt" for name in below(listed, "wasm_operators")}
    found = {name: exports(path.read_text(encoding="utf-8"), listed) for name, path in roots.items() if path.exists()}
    return {item: name for name, items in sorted(found.items()) for item in items}


def defined(crate, text, home):

    lower = set(home.values())

    def of_import(found):
        if found[1] not in lower:
            return found[0]
        by = {}
        for name in re.findall(r"\w+", found[2]):
            by.setdefault(home.get(name, found[1]), []).append(name)
        uses = [(of, names[0] if len(names) == 1 else f"{{{', '.join(names)}}}") for of, names in sorted(by.items())]
        return "\n".join(f"use {of}::{names};" for of, names in uses)

    def of_line(line):
        return line if line.lstrip().startswith(("//", "--")) else re.sub(rf"(?<![\w:]){crate}::", "crate::", line)

    return "\n".join(of_line(line) for line in IMPORT.sub(of_import, text).split("\n"))


def by_defined(files):
    listed = crates()
    home = homes(listed)
    return {name: defined(name.split("/")[1], text, home) if name.endswith(".rt") else text for name, text in files.items()}
