"""Writes overridden visits, for the programs that compare visitors."""

from source import inner, rust_binding, uses
from table import held
from templates import filled_file
from visits import GROUPS, made, type_name

# A visitor that counts the visits of one group, and one that reports the visits of all groups.
COUNTED = "crates/wasm_tests_operators/src/own_misc.rt"
TOLD = "crates/wasm_tests_decode/src/own"


def own_visit(op, value, result="", call="own"):
    given = ", ".join(["&mut self", *([inner(op)] if op.fields else [])])
    return ["", f"fn {op.visit}({given}){result} {{", f"self.{call}({value})", "}"]


def counted_visits(ops):
    group = next(it for it in GROUPS if it.module == "misc")
    lines = [line for op in group.of(ops) for line in own_visit(op, rust_binding(op, type_name(group)))]
    return filled_file("own_visits/counted.rt", type=type_name(group), trait=group.trait, visits=lines[1:])


def told_visit(op):
    """Returns a visit that passes its operator on. An operator of an inner enum is passed as such: the proof is half as long."""
    value, is_inner = made(op), op.group != "Own"
    inner_value = value.removeprefix(f"Operator::{op.group}(").removesuffix(")") if is_inner else value
    return own_visit(op, inner_value, " -> Self::Output", f"own_{op.group.lower()}" if is_inner else "own")


def told_visits(ops, group):
    those = group.of(ops)
    lines = [line for op in those for line in told_visit(op)]
    named = [("wasm_instr", "Operator")] if group.enum == "Own" else []
    named += [(it.crate, it.type) for it in held() if it.group == group.enum]
    named += [("wasm_visit_groups", name) for name in (group.trait, "Visitor")]
    return filled_file(
        "own_visits/told.rt",
        short=group.short,
        uses=uses(those, named),
        trait=group.trait,
        visits=lines[1:],
    )


def own_visit_files(ops):
    return {COUNTED: counted_visits(ops), **{f"{TOLD}/{group.module}.rt": told_visits(ops, group) for group in GROUPS}}
