"""Writes what operators and opcodes do to the frames, from the column `role`."""

from source import joined_arm, rust_pattern
from table import ROLES
from templates import filled_file

# By role, what `change_of` of wasm_grammar (specs/Frames.antt) defines.
CHANGES = {
    "opens block": ("Opens", "Block"),
    "opens loop": ("Opens", "Loop"),
    "opens try_table": ("Opens", "TryTable"),
    "opens_if": ("Opens", "If"),
    "opens_try": ("Opens", "LegacyTry"),
    "turns_else": ("Turns", "Else"),
    "turns_catch": ("Turns", "LegacyCatch"),
    "turns_catch_all": ("Turns", "LegacyCatchAll"),
    "delegates": ("Closes",),
    "ends": ("Closes",),
}
# The roles that carry the operator, and those that carry its immediate.
CARRY_OPERATOR = ("opens block", "opens loop", "opens try_table", "opens_if", "opens_try")
CARRY_IMMEDIATE = ("turns_catch", "delegates")


def with_role(ops):
    """Returns the operators that change the frames, in the order of the roles."""
    return sorted((op for op in ops if op.role), key=lambda op: ROLES.index(op.role))


def bound(op):
    return f"(operator.{op.name} it)" if op.fields else f"operator.{op.name}"


def role(op):
    if op.role in CARRY_OPERATOR:
        return f"{op.role} {bound(op)}"
    return f"{op.role} it" if op.role in CARRY_IMMEDIATE else op.role


def change(op):
    word, *kinds = CHANGES[op.role]
    return " ".join([f"change.{word}", *[f"frame.{it}" for it in kinds]])


def rust_change(op):
    word, *kinds = CHANGES[op.role]
    return f"FrameChange::{word}" + "".join(f"(FrameKind::{it})" for it in kinds)


def imported_roles():
    words = {word: None for it in ROLES for word in it.split()}
    nests = [it.split()[1] for it in ROLES if " " in it]
    return ["Role", *nests, "plain", *[word for word in words if word not in nests]]


def role_specs(ops):
    those = with_role(ops)
    by_code = sorted(those, key=lambda op: op.code)
    changes = [f"    if byte == {op.hex()} then {change(op)} else (" for op in by_code]
    return filled_file(
        "changes/Roles.antt",
        roles=", ".join(imported_roles()),
        role_of=[f"role_of {bound(op)} = {role(op)}" for op in those],
        change_at=[*changes, "    change.Stays" + ")" * len(by_code)],
    )


def change_source(ops):
    those = with_role(ops)
    by_code = sorted(those, key=lambda op: op.code)
    by_change = {}
    for op in those:
        by_change.setdefault(rust_change(op), []).append(op)
    return filled_file(
        "changes/frame_changes.rt",
        by_byte=[f"{op.hex()} => {rust_change(op)}," for op in by_code],
        by_operator=[joined_arm([rust_pattern(op, "Operator") for op in each], value) for value, each in by_change.items()],
    )


def high_bytes(ops):
    codes = sorted(op.code for op in with_role(ops))
    proof = [f"    passed byte 0x{code:02x} _ _ (omega arith) from (" for code in codes]
    return filled_file("changes/HighBytes.antt", proof=[*proof, "    refl" + ")" * len(codes)])


def change_files(ops):
    return {
        "crates/wasm_instr/specs/Roles.antt": role_specs(ops),
        "crates/wasm_instr/src/frame_changes.rt": change_source(ops),
        "crates/wasm_instr/proofs/HighBytes.antt": high_bytes(ops),
    }
