#!/usr/bin/env python3
"""Writes the static library for C, crates/wasm_c_exports/src/lib.rt, from the calls of wasm_c and its sister crates.

    tools/exports.py            writes the file
    tools/exports.py --check    fails if the file is not what crates/wasm_c/src/lib.rt and .. give

No crate can depend on a static library, and no library exports to C. So these crates have the calls, which Rattle programs
can call and test, and this file an export of each, with the same clauses.
"""

import re
import sys
from pathlib import Path

TOP = Path(__file__).resolve().parent.parent
sys.path.insert(0, str(TOP / "tools" / "generate"))

from layout import laid_out
from shared.arguments import read
from shared.written import write_or_check

# The crates that have the calls, and list the structs.
LIBRARIES = ["wasm_c", "wasm_c_sections", "wasm_c_items", "wasm_c_validation"]
EXPORTS = "crates/wasm_c_exports/src/lib.rt"
HEAD = """\
//! The calls of `wasm_c`, `wasm_c_sections`, `wasm_c_items` and `wasm_c_validation`, exported to C. Each export calls the function of the same
//! name, with the same arguments.
//!
//! Written by tools/exports.py from `src/lib.rt` of these crates.
#![tactic(auto)]
"""
# The head of a public function: name, parameters, result and clauses.
CALL = re.compile(r"^pub fn (\w+)\(([^)]*)\) -> (\w+)\n((?:    .*\n)+)\{$", re.M)
PARAMETER = re.compile(r"(\w+): ")
TYPE = re.compile(r"\bWasm\w+")
LISTED = re.compile(r"^pub use ([^;]*);", re.M)


GHOST = re.compile(r"^ghost use (\S+)\.\{(.*)\};\n", re.M)


def sources():
    """Returns the root file of each crate that has calls."""
    return {name: (TOP / f"crates/{name}/src/lib.rt").read_text(encoding="utf-8") for name in LIBRARIES}


def export_of(crate, name, parameters, result, clauses):
    names = ", ".join(PARAMETER.findall(parameters))
    return f"""
/// `{crate}::{name}` for C.
#[unsafe(no_mangle)]
pub extern "C" fn {name}({parameters}) -> {result}
{clauses}{{
    {crate}::{name}({names})
}}
"""


def ghosts_of(texts):
    """Returns the imports for clauses, those from one module as one."""
    imported = {}
    for text in texts:
        for path, names in GHOST.findall(text):
            known = imported.setdefault(path, [])
            known += [name for name in names.split(", ") if name not in known]
    return "".join(f"ghost use {path}.{{{', '.join(names)}}};\n" for path, names in imported.items())


def structs_of(texts, found):
    """Returns the imports of the structs of these calls, each from the crate that lists it."""
    used = {name for call in found for name in TYPE.findall(call[2])}
    listed = {crate: used & set(TYPE.findall(" ".join(LISTED.findall(text)))) for crate, text in texts.items()}
    return "".join(f"use {crate}::{{{', '.join(sorted(names))}}};\n" for crate, names in sorted(listed.items()) if names)


def exports_of(texts):
    found = [(crate, *call.groups()) for crate, text in texts.items() for call in CALL.finditer(text)]
    uses = f"use std::alloc::Global;\n{structs_of(texts, found)}"
    calls = "".join(export_of(*call) for call in found)
    return f"{HEAD}\n{ghosts_of(texts.values())}\n{uses}{calls}"


def main():
    wanted = laid_out({EXPORTS: exports_of(sources())})
    write_or_check(wanted, read(__doc__, "--check").check, "tools/exports.py")


if __name__ == "__main__":
    main()
