"""Writes the lists of operators of the cargo crate (rust/src)."""

from pathlib import Path

from arities import REACHING
from changes import rust_change, with_role
from immediates import TYPES
from plain import bound, number
from table import shared
from shared.tables import rows_of
from templates import filled, filled_file


# What the fields are, by name.
FIELDS = {row["field"]: row["what it is"] for row in rows_of(Path(__file__).with_name("fields.tsv"))}


def variant(op):
    what = lambda name: FIELDS.get(name, f"{name.replace('_', ' ').capitalize()}.")
    fields = ", ".join(f"/** {what(name)} */ {name}: {TYPES[ty].cargo_type()}" for name, ty in op.fields)
    return f"    /// `{op.text}`\n    {op.name}{f' {{ {fields} }}' if fields else ''},"


def arm(op, first):
    """Returns the pattern of an opcode, with the shape for the first of two operators that share it."""
    return f"0x{number(op):x}" + (f" if op.shape == {op.combination.number}" if op is first else "")


def made(op):
    fields = ", ".join(f"{name}: {value}" for (name, _), value in zip(op.fields, op.combination.values))
    return f"Operator::{op.name}{f' {{ {fields} }}' if fields else ''}"


# The shapes that most operators of a program have. Those with at most one number of 32 bits, by what the number `value`
# becomes, are converted by one table: a jump by their shape would be mispredicted.
SMALL = {0: "", 1: "value", 6: "value as i32", 8: "Ieee32(value)"}
MEMORY = 3
# The next shape, if it has one operator.
OF_ONE = (7,)
# The shape of blocks, after it.
BLOCKS = 17
# The functions that convert by ranks, with the shapes, and how they find the value.
BY_RANK = {
    "small": (tuple(SMALL), "op.first | op.wide as u32"),
    "memory": ((MEMORY,), "op.memory_argument()"),
    "block": ((BLOCKS,), "op.block_type()"),
}
# The rank of an opcode that is in no table.
NO_RANK = 65535


def in_tables(ops):
    """Returns the operators in tables by the function that converts them."""
    one_byte = [op for op in ops if not op.prefix]
    return {name: [op for op in one_byte if op.combination.number in shapes] for name, (shapes, _) in BY_RANK.items()}


def of_one(ops):
    """Returns the operators of these shapes that are the only ones of their shape."""
    found = [[op for op in ops if op.combination.number == shape] for shape in OF_ONE]
    return [those[0] for those in found if len(those) == 1]


def ranks(by_name):
    """Returns the rows of the table from opcodes to positions among the operators of a function."""
    table = [NO_RANK] * 256
    for those in by_name.values():
        for at, op in enumerate(those):
            table[number(op)] = at
    rows = [table[at : at + 16] for at in range(0, 256, 16)]
    return ["    " + ", ".join("NONE" if it == NO_RANK else str(it) for it in row) + "," for row in rows]


def by_rank(name, ops):
    """Returns a function that converts the operators of some shapes, which have at most one field."""

    def converted(op):
        value = SMALL.get(op.combination.number, "value")
        return f"Operator::{op.name}" + "".join(f" {{ {field}: {value} }}" for field, _ in op.fields)

    return filled(
        "cargo/by_rank.rs",
        name=name,
        value=BY_RANK[name][1],
        arms=[f"        {at} => {converted(op)}," for at, op in enumerate(ops)],
    )


def operator_source(ops):
    by_name = in_tables(ops)
    single = of_one(ops)
    frequent = {op.name for those in [*by_name.values(), single] for op in those}
    first, _ = shared(ops)
    return filled_file(
        "cargo/operator.rs",
        SMALL=" | ".join(map(str, SMALL)),
        MEMORY=MEMORY,
        BLOCKS=BLOCKS,
        NO_RANK=NO_RANK,
        variants=[variant(op) for op in ops],
        ranks=ranks(by_name),
        by_rank=[line for those in by_name.items() for line in ["", *by_rank(*those)]],
        next_shapes=[f"        {op.combination.number} => {made(op)}," for op in single],
        rare=[f"        {arm(op, first)} => {made(op)}," for op in ops if op.name not in frequent],
    )


# The types that are passed by reference.
BY_REFERENCE = ("BrTable<'a>", "SelectTypes", "TryTable", "ResumeTable")
# The shapes whose conversion may fail: a type may have an index that no bytes encode.
MAY_FAIL = ("heap", "cast", "block", "select_one", "try_table")


def plain_arm(op):
    inside = ", ".join(f"{name}: {to}" for name, _, to in bound(op))
    values = [f"0x{number(op):x}", *[to if ty in BY_REFERENCE else f"*{to}" for _, ty, to in bound(op)]]
    pattern = f"Operator::{op.name}" + (f" {{ {inside} }}" if inside else "")
    shape = op.combination.shape
    return f"        {pattern} => shapes::{shape}({', '.join(values)}){'?' if shape in MAY_FAIL else ''},"


def plain_source(ops):
    return filled_file("cargo/plain.rs", arms=[plain_arm(op) for op in ops])


def visit_source(ops):
    first, _ = shared(ops)
    return filled_file(
        "cargo/visit.rs",
        not_simd=[visit_arm(op, first) for op in ops if op.group != "Simd"],
        simd=[visit_arm(op, first) for op in ops if op.group == "Simd"],
    )


def visit_arm(op, first):
    return f"        {arm(op, first)} => visitor.{op.visit}({', '.join(op.combination.values)}),"


def arity(op):
    if op.is_by_rule:
        return "(arity custom)"
    takes = op.takes.removesuffix(REACHING)
    return f"(arity {'memarg ' if takes != op.takes else ''}{takes} -> {op.leaves})"


def entry(op):
    fields = ", ".join(f"{name}: {TYPES[ty].cargo_type('$crate::')}" for name, ty in op.fields)
    return f"            @{op.proposal} {op.name}{f' {{ {fields} }}' if fields else ''} => {op.visit} {arity(op)}"


def macros_source(ops):
    return filled_file(
        "cargo/macros.rs",
        all=[entry(op) for op in ops],
        not_simd=[entry(op) for op in ops if op.group != "Simd"],
        simd=[entry(op) for op in ops if op.group == "Simd"],
    )


def change_source(ops):
    those = sorted(with_role(ops), key=number)
    return filled_file("cargo/frame_change.rs", changes=[f"        0x{number(op):x} => {rust_change(op)}," for op in those])


def cargo_files(ops):
    """Returns the files, over the operators whose immediates have values here."""
    ops = [op for op in ops if op.combination]
    sources = {"operator": operator_source, "plain": plain_source, "visit": visit_source, "macros": macros_source, "frame_change": change_source}
    return {f"rust/src/{name}.rs": source(ops) for name, source in sources.items()}
