"""Writes the enums in code, each with its functions."""

import re

from immediates import TYPES
from table import ENUMS, Enum, Operator, grouped, held, variant_of
from templates import filled, filled_file

# An enum with more variants than LARGE is split into functions of PART variants.
LARGE = 128
PART = 64
# Enums with more variants with fields implement `PartialEq` and `Debug` by opcode and fields: the proofs of derived
# code grow with the square of that number.
MANY = 64
# How many operators each function of `Debug` prints.
DEBUG_PART = 24


def uses(ops, more=()):
    return uses_of([ty for op in ops for _, ty in op.fields], more)


def uses_of(types, more=()):
    """Returns the `use` lines of types of fields, and of other names with their crates."""
    found = {}
    for ty in types:
        if TYPES[ty].crate:
            found.setdefault(TYPES[ty].crate, set()).add(TYPES[ty].word)
    for crate, name in more:
        found.setdefault(crate, set()).add(name)
    return [f"use {crate}::{{{', '.join(sorted(found[crate]))}}};" for crate in sorted(found)]


def inner(op):
    return ", ".join(f"{name}: {ty}" for name, ty in op.fields)


def names_of(op):
    return ", ".join(name for name, _ in op.fields)


def variant(op, with_opcode=False):
    if op.fields:
        return f"{op.name} {{ {inner(op)} }},"
    return f"{op.name} = {op.hex()}," if with_opcode else f"{op.name},"


def rust_pattern(op, ty):
    return f"{ty}::{op.name}" + (" { .. }" if op.fields else "")


def rust_binding(op, ty):
    """Returns a pattern that binds the fields. It is also an expression."""
    return f"{ty}::{op.name}" + (f" {{ {names_of(op)} }}" if op.fields else "")


def arms(ops, ty, value):
    return [f"{rust_pattern(op, ty)} => {value(op)}," for op in ops]


def joined_arm(patterns, value):
    return f"{' | '.join(patterns)} => {value},"


def proposal_arms(ops, ty, inner_arms=()):
    *others, (most, _) = grouped(ops, lambda op: op.proposal)
    out = [joined_arm([rust_pattern(op, ty) for op in those], f"Proposal::{variant_of(it)}") for it, those in others]
    return [*out, *inner_arms, f"_ => Proposal::{variant_of(most)},"]


def shapes(ops):
    found = {}
    for op in ops:
        if op.fields:
            found.setdefault(names_of(op), []).append(op)
    return found


class Shape:
    def __init__(self, ops):
        self.is_plain = not any(op.fields for op in ops)
        self.is_large = len(ops) > LARGE
        self.holds_list = any(op.holds_list for op in ops)
        self.by_fields = sum(bool(op.fields) for op in ops) > MANY and not self.holds_list
        self.derives_debug = not (self.is_plain or self.is_large or self.by_fields)

    @property
    def derived(self):
        copied = ["Drop"] if self.holds_list else ["Clone", "Copy"]
        return ", ".join([*copied, *(["Debug"] if self.derives_debug else []), *([] if self.by_fields else ["PartialEq", "Eq"])])


def fields_name(names):
    return "".join(word.capitalize() for word in re.split(r"[, _]+", names))


def enum_uses(enum, ops, shape):
    prelude = ["◌≡◌"]
    words = [f"{enum.module}_proposal", f"{enum.module}_name", f"{enum.opcode}"]
    out = []
    if shape.is_large:
        prelude += ["◌⊎◌", "◌<◌", "◌≤◌", "MatchOption"]
    if shape.holds_list:
        prelude += ["IfOk", "IfErr"]
        words.append(f"{enum.module}_holds_list")
    if shape.by_fields:
        prelude += ["◌↔◌", "IsTrue", "nat_eq"]
        words.append(f"{enum.module}_fields")
    out.append(f"ghost use Rattle.std.specs.Prelude.{{{', '.join(prelude)}}};")
    if shape.by_fields:
        out.append("ghost use Rattle.std.specs.Ordering.{on, eq_of_both};")
    if shape.holds_list:
        out.append("ghost use Rattle.wasm_imm.specs.OutOfMemory.{IsOutOfMemoryAt};")
    out += [f"ghost use Rattle.{enum.crate}.specs.{enum.group}.{{{', '.join(words)}}};", ""]
    if shape.holds_list:
        out.append("use std::alloc::Global;")
    if not shape.derives_debug:
        out.append("use std::fmt::{self, Debug, Formatter};")
    more = [("wasm_imm", "OperatorInfo"), ("wasm_imm", "Proposal")] + ([("wasm_below", "Result")] if shape.holds_list else [])
    return out + uses(ops, more)


def info_of(enum, ops):
    prefix = ops[0].prefix
    return filled(
        "source/enum_info.rt",
        module=enum.module,
        opcode=enum.opcode,
        prefix_term=f"Some 0x{prefix}" if prefix else "None",
        prefix=f"Some(0x{prefix})" if prefix else "None",
        proposals=proposal_arms(ops, enum.type),
        names=column(enum, ops, "name", "&'static str", lambda op: f'"{op.name}"'),
        opcodes=opcode_column(enum, ops),
    )


def opcode_column(enum, ops):
    if any(op.fields for op in ops):
        return filled("source/code.rt", what="subopcode", opcode=enum.opcode, arms=[f"{rust_pattern(op, enum.type)} => {op.hex()}," for op in ops])
    return filled("source/plain_opcode.rt", opcode=enum.opcode)


def enum_source(enum, ops):
    shape = Shape(ops)
    fields = in_parts(enum, ops, "fields", f"{enum.group}Fields", lambda part, wrap: field_arms(enum, part, wrap)) if shape.by_fields else []
    return filled_file(
        "source/enum.rt",
        uses=enum_uses(enum, ops, shape),
        doc=enum.doc,
        derived=shape.derived,
        type=enum.type,
        variants=[variant(op, shape.is_plain) for op in ops],
        info=info_of(enum, ops),
        clone=["", *clone_of(enum.type, f"{enum.module}_holds_list", ops)] if shape.holds_list else [],
        fields=["", *fields] if fields else [],
        equality=[*fields_enum(enum, ops), "", *equality_of(enum), ""] if shape.by_fields else [],
        debug=[] if shape.derives_debug else debug_of(enum, ops, shape),
    )


def fields_enum(enum, ops):
    variants = [f"{fields_name(names)} {{ {inner(those[0])} }}," for names, those in shapes(ops).items()]
    return filled("source/fields.rt", group=enum.group, variants=variants)


def field_arms(enum, ops, wrap):
    fields = f"{enum.group}Fields"
    out = []
    for names, those in shapes(ops).items():
        copied = ", ".join(f"{name}: *{name}" for name in names.split(", "))
        out.append(joined_arm([rust_binding(op, enum.type) for op in those], wrap(f"{fields}::{fields_name(names)} {{ {copied} }}")))
    bare = [rust_pattern(op, enum.type) for op in ops if not op.fields]
    return [*out, joined_arm(bare, wrap(f"{fields}::Bare"))] if bare else out


def equality_of(enum):
    low, fields = enum.module, f"{enum.group}Fields"
    return filled(
        "source/equality.rt",
        type=enum.type,
        crate=enum.crate,
        module=low,
        fields=fields,
        member=f"eq_of_both (on {enum.opcode} nat_eq) (on {low}_fields ⟦<{fields} as PartialEq>⟧.eq)",
        laws=f"and_equiv (on_equiv {enum.opcode} nat_eq_equiv) (on_equiv {low}_fields laws-law)",
    )


def debug_of(enum, ops, shape):
    if shape.is_plain:
        return filled("source/debug.rt", type=enum.type, body=["f.write_str(self.name())"])
    arms = []
    for names, those in shapes(ops).items():
        if shape.by_fields:
            patterns = [f"{enum.group}Fields::{fields_name(names)} {{ {names} }}"]
        else:
            patterns = [rust_binding(op, enum.type) for op in those]
        refer = "&" if shape.by_fields else ""
        fields = "".join(f'.field("{name}", {refer}{name})' for name in names.split(", "))
        arms.append(joined_arm(patterns, f"f.debug_struct(self.name()){fields}.finish()"))
    if any(not op.fields for op in ops):
        arms.append(f"{enum.group}Fields::Bare => f.write_str(self.name())," if shape.by_fields else "_ => f.write_str(self.name()),")
    matched = "self.fields()" if shape.by_fields else "self"
    return filled("source/debug.rt", type=enum.type, body=[f"match {matched} {{", *arms, "}"])


def column(enum, ops, name, ty, value):

    def arms_of(part, wrap):
        return [f"{rust_pattern(op, enum.type)} => {wrap(value(op))}," for op in part]

    return in_parts(enum, ops, name, ty, arms_of)


def in_parts(enum, ops, name, ty, arms_of):
    of = {"name": name, "type": ty, "word": f"{enum.module}_{name}", "now": ".now" if ty.startswith("&") else ""}
    if len(ops) <= LARGE:
        return filled("source/column.rt", **of, arms=arms_of(ops, str))
    ordered = sorted(ops, key=lambda op: op.code)
    parts = [ordered[i : i + PART] for i in range(0, len(ordered), PART)]
    places = ["first", "second", "third", "fourth"][: len(parts)]
    calls = [line for place in places for line in (f"if let Some({name}) = self.{place}_{name}() {{", f"return {name};", "}")]
    out = filled("source/column_in_parts.rt", **of, parts=calls)
    for number, (place, part) in enumerate(zip(places, parts)):
        none = outside(enum, part, number == 0, number == len(parts) - 1)
        arms = arms_of(part, "Some({})".format)
        out += ["", *filled("source/column_part.rt", **of, place=place, first=part[0].hex(), last=part[-1].hex(), none=none, arms=arms)]
    return out


def outside(enum, part, is_first, is_last):
    below = f"({enum.opcode} self.now < 0x{part[0].code:02x})"
    above = f"(0x{part[-1].code + 1:02x} ≤ {enum.opcode} self.now)"
    if is_first or is_last:
        return above if is_first else below
    return f"({below} ⊎ {above})"


OWN = Enum("Own", "wasm_instr", "operator", "the other operators with a one-byte opcode")


def debug_parts(ops):
    found = {}
    for op in ops:
        if op.fields:
            found.setdefault(inner(op), []).append(op)
    parts = [[]]
    for those in found.values():
        if parts[-1] and sum(map(len, parts[-1])) + len(those) > DEBUG_PART:
            parts.append([])
        parts[-1].append(those)
    return parts


def operator_debug(ops):
    parts = debug_parts(ops)
    places = ["fmt", *(f"fmt_{place}" for place in ("second", "third", "fourth", "fifth")[: len(parts) - 1])]
    head = "<W: fmt::Write>(&self, f: &mut Formatter<W>) -> fmt::Result {"
    out = ["impl<'a> Debug for Operator<'a> {"]
    for number, (place, part) in enumerate(zip(places, parts)):
        if number == 1:
            out += ["}", "", "impl<'a> Operator<'a> {"]
        if number > 0:
            out += ["" if number > 1 else None, f"/// Prints an operator that `{places[number - 1]}` does not print."]
        out += [f"fn {place}{head}", "match self {"]
        if number == 0:
            out += [f'Operator::{enum.group}(op) => f.debug_tuple("{enum.group}").field(op).finish(),' for enum in held()]
        for those in part:
            fields = "".join(f'.field("{name}", {name})' for name, _ in those[0].fields)
            out.append(joined_arm([rust_binding(op, "Operator") for op in those], f"f.debug_struct(self.name()){fields}.finish()"))
        rest = f"self.{places[number + 1]}(f)" if number + 1 < len(parts) else "f.write_str(self.name())"
        out += [f"_ => {rest},", "}", "}"]
    return [line for line in [*out, "}", ""] if line is not None]


def operator_column(ops, name, word, ty, value):
    now = ".now" if ty.startswith("&") else ""
    return filled("source/column.rt", name=name, type=ty, word=word, now=now, arms=arms(ops, "Operator", value) + inner_arms(f"info().{name}"))


def code_column(ops):
    what = "opcode; after a prefix byte, the subopcode"
    return filled("source/code.rt", what=what, opcode="opcode_of", arms=arms(ops, "Operator", Operator.hex) + inner_arms("code()"))


def inner_arms(call):
    return [f"Operator::{enum.group}(op) => op.{call}," for enum in held()]


def operator_source(ops, owning=()):
    """Returns the file of `Operator`. `owning` are the inner enums that own lists."""
    more = [(enum.crate, enum.type) for enum in ENUMS]
    more += [("wasm_imm", "OperatorInfo"), ("wasm_imm", "Proposal"), ("wasm_below", "Result")]
    return filled_file(
        "source/operator.rt",
        uses=uses(ops, more),
        variants=[variant(op) for op in ops],
        enum_variants=[f"{enum.group}({enum.type})," for enum in held()],
        conversions=[line for enum in held() for line in [*filled("source/conversion.rt", type=enum.type, group=enum.group), ""]],
        enum_infos=inner_arms("info()"),
        proposals=proposal_arms(ops, "Operator", inner_arms("info().proposal")),
        names=operator_column(ops, "name", "name_of", "&'static str", lambda op: f'"{op.name}"'),
        codes=code_column(ops),
        clone=clone_of("Operator", "HoldsList", ops, owning),
        debug=operator_debug(ops),
    )


def clone_of(ty, holds_list, ops, owning=()):
    arms = [clone_arm(op, ty) for op in ops]
    if ty == "Operator":
        for enum in held():
            copied = "op.clone(alloc)?" if enum.group in owning else "*op"
            arms.append(f"Operator::{enum.group}(op) => Operator::{enum.group}({copied}),")
    return filled("source/clone.rt", type=f"{ty}{lifetime(ty)}", holds_list=holds_list, arms=arms)


def lifetime(ty):
    """Returns the lifetime of an enum: only `Operator` borrows, in the branch table."""
    return "<'a>" if ty == "Operator" else ""


def clone_arm(op, ty):
    copied = []
    for name, field in op.fields:
        if TYPES[field].owns_list:
            copied.append(f"{name}: {name}.clone(alloc)?")
        elif TYPES[field].borrows:
            copied.append(f"{name}: same_table({name})")
        else:
            copied.append(f"{name}: *{name}")
    made = f"{ty}::{op.name}" + (f" {{ {', '.join(copied)} }}" if copied else "")
    return f"{rust_binding(op, ty)} => {made},"
