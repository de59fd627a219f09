#!/usr/bin/env python3
"""Writes the input and the expected output of the program wasm_tests_lists, from tools/original alone.

    tools/expected.py            writes crates/wasm_tests_lists/stdin and stdout
    tools/expected.py --check    fails if a file is not what these lists give

The README of the program says what it reads: nothing generated from the table.
"""

import re
import sys
from pathlib import Path

sys.path.insert(0, str(Path(__file__).resolve().parent / "generate"))

from expected_reading import FRAMED
from original import originals, signatures
from shared.arguments import read
from shared.leb128 import unsigned
from shared.tables import rows_of
from shared.written import write_or_check

TOP = Path(__file__).resolve().parent.parent
CRATE = TOP / "crates" / "wasm_tests_lists"

# How fields are encoded in hexadecimal, and how they print, by name or type. Numbers without a row are 9.
VALUES = {row["field"]: (row["encoding"], row["printed"]) for row in rows_of(CRATE / "values.tsv")}
NUMBER = "09", "9"
# In `MemArg` the flags are an alignment of 1 and that a memory index follows.
MEMARG = "410308"
# The types of the table of types, as `OperandType` prints.
TYPES = {
    "i32": "I32", "i64": "I64", "f32": "F32", "f64": "F64", "v128": "V128", "at": "Address", "at(x)": "Address",
    "(ref null eq)": "EqRef", "(ref null array)": "ArrayRef", "(ref null i31)": "I31Ref", "(ref i31)": "I31",
}
# Operators whose types depend on the memory alone, and operators of fixed types that name a segment, which must exist.
OF_MEMORY = ("MemorySize", "MemoryGrow", "MemoryFill")
OF_SEGMENT = ("DataDrop", "ElemDrop")
# The flags of a cast, before its fields: only the source type is nullable.
CAST = "01"
# The innermost frames of operators that need a certain one.
FRAMES = {fields.split()[0]: frames[0] for _, fields, frames, _, _ in FRAMED}


def memarg(op):
    (natural,) = [kind.split()[2] for kind in op.immediates if kind.startswith("memory ")]
    return f"MemArg {{ align: 1, max_align: {natural}, offset: 8, target: Memory(3), ordering: None }}"


def value(op, name, ty):
    """Returns how a field is encoded, and how it prints."""
    if ty == "MemArg":
        return MEMARG, memarg(op)
    if ty in ("u8", "u32"):
        return VALUES.get(name, NUMBER)
    return VALUES[name if name in VALUES else ty]


def values(op):
    return [(name, *value(op, name, ty)) for name, ty in op.fields]


def row(op):
    """Returns the line of the input: the innermost frame and the bytes."""
    code = op.prefix + unsigned(op.code).hex() if op.prefix else f"{op.code:02x}"
    flags = CAST if "cast" in op.immediates else ""
    return f"{FRAMES.get(op.name, 'Block')} {code}{flags}{''.join(encoded for _, encoded, _ in values(op))}"


def shown(op):
    text = op.name
    if op.fields:
        text = f"{op.name} {{ {', '.join(f'{name}: {printed}' for name, _, printed in values(op))} }}"
    return text if op.group == "Own" else f"{op.group}({text})"


def line_of(op, by_rule):
    prefix = f"Some({int(op.prefix, 16)})" if op.prefix else "None"
    takes, leaves = by_rule[op.name] if op.is_by_rule else (op.takes.split()[0], op.leaves)
    is_simd = "true" if op.is_simd else "false"
    is_end = "true" if op.name == "End" else "false"
    facts = f"{op.name} {op.proposal} {prefix} {op.code}"
    return f"{facts} Some(({takes}, {leaves})) {is_simd} true {is_end} true {shown(op)}"


def types(cell):
    items = re.findall(r"\(ref[^)]*\)|[^ -]\S*", cell)
    return f"[{', '.join(TYPES[it] for it in items)}]"


def typing(op, signature):
    if signature["class"] == "unsupported":
        return f"unsupported: {op.proposal}"
    is_fixed = signature["class"] == "fixed" and op.name not in OF_SEGMENT or op.name in OF_MEMORY
    return f"{types(signature['parameters'])} -> {types(signature['results'])}" if is_fixed else "by rule"


def lane(op):
    lanes = re.match(r"[IF]\d+x(\d+)", op.name)
    count = lanes[1] if lanes else 128 // int(re.fullmatch(r"V128(?:Load|Store)(\d+)Lane", op.name)[1])
    return f"lane {VALUES['lane'][1]} of {count}"


def typing_lines(op, signature):
    """Returns the lines below an operator's line: types, memory argument and lane."""
    found = [typing(op, signature)]
    found += [memarg(op) for kind in op.immediates if kind.startswith("memory ")]
    found += [lane(op) for kind in op.immediates if kind == "lane_index"]
    return "".join(f"  {line}\n" for line in found)


def files():
    by_rule = {row["name"]: (row["takes"], row["leaves"]) for row in rows_of(CRATE / "by_rule.tsv")}
    types_of = {row["name"]: row for row in signatures()}
    ops = originals()
    lost = [op.name for op in ops if op.is_by_rule and op.name not in by_rule]
    if lost:
        sys.exit(f"crates/wasm_tests_lists/by_rule.tsv has no row for {', '.join(lost)}")
    edges = (CRATE / "edges.txt").read_text(encoding="utf-8")
    return {
        "crates/wasm_tests_lists/stdin": "".join(row(op) + "\n" for op in ops),
        "crates/wasm_tests_lists/stdout": "".join(f"{line_of(op, by_rule)}\n{typing_lines(op, types_of[op.name])}" for op in ops) + edges,
    }


if __name__ == "__main__":
    write_or_check(files(), read(__doc__, "--check").check, "tools/expected.py")
