"""Writes functions that print fields in the format of tools/original/samples.tsv."""

from immediates import TYPES
from source import rust_binding, uses_of
from table import HEAD, held
from templates import filled_file

CRATE = "crates/wasm_tests_texts/src/fields"


def shape_name(fields):
    return f"write_{'_and_'.join(name for name, _ in fields)}"


def printed(name, ty):
    return f'values::{TYPES[ty].printer}(out, "{name}", {name})'


def call_of(fields):
    if len(fields) == 1:
        return printed(*fields[0])
    return f"shapes::{shape_name(fields)}(out, {', '.join(name for name, _ in fields)})"


def shapes(ops):
    found = {}
    for op in ops:
        if op.fields:
            found.setdefault(tuple(op.fields), []).append(op)
    return found


def shape_source(fields):
    given = ", ".join(f"{name}: &{ty}" for name, ty in fields).replace("'a", "'_")
    calls = [printed(name, ty) for name, ty in fields]
    return [
        "",
        f"pub fn {shape_name(fields)}(out: &mut String, {given}) -> Written {{",
        *[f"{call}?;" for call in calls[:-1]],
        calls[-1],
        "}",
    ]


def shapes_source(ops):
    those = [fields for fields in shapes(ops) if len(fields) > 1]
    out = [
        f"//! {HEAD}",
        "use crate::values::{self, Written};",
        *uses_of([ty for fields in those for _, ty in fields]),
    ]
    for fields in those:
        out += shape_source(fields)
    return "\n".join([*out, ""])


def match_arms(ops, ty):
    """Returns the arms over operators with fields. The same fields share an arm."""
    out = []
    for fields, those in shapes(ops).items():
        patterns = " | ".join(rust_binding(op, ty) for op in those)
        out.append(f"{patterns} => {call_of(fields)},")
    return out


def enum_source(name, ty, ops, held_enums=()):
    given = "Operator<'_>" if ty == "Operator" else ty
    uses = [f"use wasm_instr::{ty};", "use crate::values::{self, Written};", "use crate::fields::shapes;"]
    inner = []
    for enum in held_enums:
        if enum.group == "Numeric":
            continue
        uses.append(f"use crate::fields::{enum.module}::{enum.module};")
        inner.append(f"Operator::{enum.group}(op) => {enum.module}(out, op),")
    return filled_file("printed_fields/enum.rt", uses=sorted(uses), name=name, type=given, arms=match_arms(ops, ty) + inner)


def printed_field_files(ops):
    out = {f"{CRATE}/shapes.rt": shapes_source(ops)}
    enums = [enum for enum in held() if enum.group != "Numeric"]
    for enum in enums:
        those = [op for op in ops if op.group == enum.group]
        out[f"{CRATE}/{enum.module}.rt"] = enum_source(enum.module, enum.type, those)
    own = [op for op in ops if op.group == "Own"]
    out[f"{CRATE}/own.rt"] = enum_source("own", "Operator", own, enums)
    return out
