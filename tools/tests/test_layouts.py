"""Compares the structs of the header for C, from which the cargo crate's are written, with the Rattle sources."""

import re
import unittest

from native import INTEGERS
from shared.crates import TOP

HEADER = re.sub(r"/\*.*?\*/", "", (TOP / "c/include/wasm_operators.h").read_text(encoding="utf-8"), flags=re.S)
CRATES = ("wasm_view", "wasm_encode_view", "wasm_c", "wasm_c_sections", "wasm_c_items", "wasm_module")
FILES = [path for name in CRATES for path in TOP.glob(f"crates/{name}/src/**/*.rt")]
RATTLE = "\n".join(path.read_text(encoding="utf-8") for path in FILES)
STRUCTS = re.findall(r"typedef struct (\w+)", HEADER)


def in_rattle(name):
    """Returns the name of a struct in the crate that defines it, from which wasm_c may re-export it by another."""
    exported = "".join(part.capitalize() for part in name.split("_"))
    found = re.search(rf"\b(\w+) as {exported}\b", RATTLE)
    return found[1] if found else exported


def within(field, fields):
    """Returns the fields of a struct that is a field itself."""
    return [(f"{field}.{name}", kind) for name, kind in fields]


def fields_of_c(name):
    body = HEADER.split(f"typedef struct {name} {{")[1].split("}")[0]
    found = re.findall(r"(\w+) (\w+)(?:\[(\d+)\])?;", body)
    out = []
    for kind, field, count in found:
        if kind in STRUCTS:
            out += within(field, fields_of_c(kind))
        else:
            out.append((field, f"[{INTEGERS[kind]}; {count}]" if count else INTEGERS[kind]))
    return out


def fields_of_rust(text, name):
    body = text.split(f"pub struct {name} {{")[1].split("\n}")[0]
    out = []
    for field, kind in re.findall(r"pub (\w+): ([^,]+),", re.sub(r"//.*", "", body)):
        out += within(field, fields_of_rust(text, kind)) if kind[0].isupper() else [(field, kind)]
    return out


class Layouts(unittest.TestCase):
    def test_structs(self):
        self.assertEqual(len(STRUCTS), 23)
        for name in STRUCTS:
            self.assertEqual(fields_of_c(name), fields_of_rust(RATTLE, in_rattle(name)), name)

    def test_no_padding(self):
        for name in STRUCTS:
            at = 0
            for field, kind in fields_of_c(name):
                width, count = re.fullmatch(r"\[?u(\d+)(?:; (\d+)\])?", kind).groups()
                self.assertEqual(at % (int(width) // 8), 0, (name, field))
                at += int(width) // 8 * int(count or 1)
            self.assertEqual(at % max(int(re.search(r"\d+", kind)[0]) // 8 for _, kind in fields_of_c(name)), 0, name)
