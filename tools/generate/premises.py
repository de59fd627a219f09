"""Writes the immediates of which typing rules have premises: memory arguments and lane indices (crates/wasm_signatures)."""

import re

from immediates import KINDS
from source import joined_arm, rust_pattern
from table import enum_uses, held
from templates import filled, filled_file

CRATE = "crates/wasm_signatures"
VECTOR_BITS = 128


def lanes(op):
    """Returns the number of lanes that the lane index of an operator chooses from."""
    shape = re.match(r"[if]\d+x(\d+)\.", op.text)
    return int(shape[1]) if shape else VECTOR_BITS // int(re.search(r"(?:load|store)(\d+)_lane", op.text)[1])


def field_at(op, kind):
    return sum(len(KINDS[it].types) for it in op.kinds[: op.kinds.index(kind)])


def with_kind(ops, group, kind):
    """Returns the operators of a group with an immediate of this kind, and the position of its field."""
    return [(op, field_at(op, kind)) for op in ops if op.group == group and kind in op.kinds]


def case(function, alias, op, at, value):
    names = " ".join(name if place == at else "_" for place, (name, _) in enumerate(op.fields))
    return f"{function} ({alias}.{op.name} {names}) = Some {value(op, op.fields[at][0])}"


def joined_arms(ty, those, value):
    found = {}
    for op, at in those:
        name = op.fields[at][0]
        pattern = f"{ty}::{op.name} {{ {name}{'' if len(op.fields) == 1 else ', ..'} }}"
        found.setdefault(f"Some({value(op, f'*{name}')})", []).append(pattern)
    return [joined_arm(patterns, made) for made, patterns in found.items()]


def last_arm(ty, ops, those):
    """Returns the arm of the other operators. Proofs of a default arm fail if many operators are not in it."""
    has = {op.name for op, _ in those}
    others = [op for op in ops if op.group == those[0][0].group and op.name not in has]
    return joined_arm([rust_pattern(op, ty) for op in others] if len(others) < len(those) else ["_"], "None")


def itself(_, name):
    return name


def with_lanes(op, name):
    return f"({name}, {lanes(op)})"


def premise_files(ops):
    arguments = {enum.module: (enum, with_kind(ops, enum.group, "memory")) for enum in held()}
    arguments = {module: given for module, given in arguments.items() if given[1]}
    own = with_kind(ops, "Own", "memory")
    of_lanes = with_kind(ops, "Simd", "lane_index")
    cases, functions = [], []
    for module, (enum, those) in arguments.items():
        function = f"{module}_argument"
        cases += [f"abbrev pub {function} : {enum.type} → Option MemArg", *(case(function, module, *it, itself) for it in those), f"{function} _ = None", ""]
        functions += filled("signatures/argument.rt", module=module, type=enum.type, arms=[*joined_arms(enum.type, those, itself), last_arm(enum.type, ops, those)])
    return {
        f"{CRATE}/specs/Premises.antt": filled_file(
            "signatures/Premises.antt",
            enum_uses=[line for enum, _ in arguments.values() for line in enum_uses(enum)],
            enum_arguments=cases,
            own_arguments=[
                *(case("argument_of", "operator", *it, itself) for it in own),
                *(f"argument_of (operator.{enum.group} op) = {module}_argument op" for module, (enum, _) in arguments.items()),
            ],
            lanes=[case("lane_of", "simd", *it, with_lanes) for it in of_lanes],
        ),
        f"{CRATE}/src/premises.rt": filled_file(
            "signatures/premises.rt",
            names=", ".join(f"{module}_argument" for module in arguments),
            type_uses=[f"use {enum.crate}::{enum.type};" for enum, _ in arguments.values()],
            own_arguments=[
                *joined_arms("Operator", own, itself),
                *(f"Operator::{enum.group}(op) => {module}_memory_argument(op)," for module, (enum, _) in arguments.items()),
            ],
            enum_arguments=functions,
            lanes=joined_arms("SimdOperator", of_lanes, with_lanes),
        ),
    }
