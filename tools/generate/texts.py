"""Writes the names of the operators in the text format, and the functions that write their operands."""

from immediates import KINDS
from source import arms, rust_binding
from table import ENUMS, held, pattern
from templates import filled, filled_file

CRATE = "crates/wasm_text"


def inner_uses(enum):
    path = f"Rattle.{enum.crate}.specs.declared.{enum.module}.{enum.type}"
    return [f"use {path}.{{{enum.type}}}", f"use {path}.TheVariants as {enum.module}"]


def call_of(op):
    """Returns the expression that writes the operands: one call, or one for each immediate."""
    names = [name for name, _ in op.fields]
    if not names:
        return "Ok(())"
    writer = op.writer or (op.combination.writer if op.combination else "")
    if writer:
        return f"operands::{writer}(out, {', '.join(names)})"
    calls = []
    for kind in (KINDS[word] for word in op.kinds):
        count = len(kind.types)
        calls.append(f"operands::{kind.writer}(out, {', '.join(names[:count])})")
        del names[:count]
    return calls[0] if len(calls) == 1 else f"{{ {'?; '.join(calls)} }}"


def name_specs(ops):
    enum_names = []
    for enum in held():
        low = enum.module
        enum_names += ["", f"abbrev pub {low}_text_name : {enum.type} → List ℕ"]
        enum_names += [f'{low}_text_name {pattern(op, low, False)} = codes "{op.text}"' for op in ops if op.group == enum.group]
    return filled_file(
        "texts/Names.antt",
        enum_uses=[line for enum in held() for line in inner_uses(enum)],
        enum_names=enum_names,
        own_names=[f'text_name {pattern(op, "operator", False)} = codes "{op.text}"' for op in ops if op.group == "Own"],
        by_enum=[f"text_name (operator.{enum.group} op) = {enum.module}_text_name op" for enum in held()],
    )


def name_arms(ops, group, ty):
    return arms([op for op in ops if op.group == group], ty, lambda op: f'"{op.text}"')


def name_source(ops):
    lines = filled(
        "texts/names.rt",
        words=", ".join(f"{enum.module}_text_name" for enum in held()),
        types=", ".join(sorted(["Operator", *(enum.type for enum in ENUMS)])),
        own_names=name_arms(ops, "Own", "Operator"),
        by_enum=[f"Operator::{enum.group}(inner) => {enum.module}_text_name(inner)," for enum in held()],
    )
    for enum in held():
        lines += ["", *filled("texts/enum_name.rt", module=enum.module, type=enum.type, names=name_arms(ops, enum.group, enum.type))]
    return "\n".join(lines) + "\n"


def operand_arms(ops, ty):
    found = {}
    for op in ops:
        found.setdefault(call_of(op), []).append(op)
    return [f"{' | '.join(rust_binding(op, ty) for op in those)} => {call}," for call, those in found.items()]


def enum_operands(enum, ops):
    low = enum.module
    has_writers = any(op.writer for op in ops)
    return filled_file(
        "texts/enum.rt",
        module=low,
        type=enum.type,
        immediates=[] if has_writers else [f"ghost use Rattle.{enum.crate}.specs.{enum.group}.{{{low}_immediates}};"],
        written=f"{low}_operands" if has_writers else "immediates_text",
        of="op.now" if has_writers else f"({low}_immediates op.now)",
        arms=operand_arms(ops, enum.type),
    )


def operand_files(ops):
    enums = [enum for enum in held() if enum.group != "Numeric"]
    out = {f"{CRATE}/src/operators/{enum.module}.rt": enum_operands(enum, [op for op in ops if op.group == enum.group]) for enum in enums}
    out[f"{CRATE}/src/operators/own.rt"] = filled_file(
        "texts/own.rt",
        modules=", ".join(sorted(enum.module for enum in enums)),
        own=operand_arms([op for op in ops if op.group == "Own"], "Operator"),
        by_enum=[f"Operator::{enum.group}(inner) => {enum.module}::{enum.module}(out, inner)," for enum in enums],
    )
    return out


def text_files(ops):
    return {
        f"{CRATE}/specs/Names.antt": name_specs(ops),
        f"{CRATE}/src/names.rt": name_source(ops),
        **operand_files(ops),
    }
