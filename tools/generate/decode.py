"""Writes the decoder of the SIMD operators without immediates."""

from arms import parts
from templates import filled
from visits import GROUPS, HALF


def operators_without_immediates(part):
    """Returns the function that makes a SIMD operator without immediates."""
    return filled(
        "decode/without_immediates.rt",
        module=part.group.module,
        half=f"{'below' if part.group.module == 'simd_low' else 'at least'} {HALF}",
        condition=part.group.condition,
        mark=part.mark,
    )


def marks(ops, those):
    """Returns for each SIMD subopcode whether an operator of these parts has it."""
    codes = {op.code for part in those for op in part.ops}
    return ["true" if code in codes else "false" for code in range(max(op.code for op in ops if op.prefix == "fd") + 1)]


def simd_without_immediates(ops):
    """Returns the file of the SIMD operators without immediates."""
    those = [part for group in GROUPS for part in parts(ops, group) if part.has_table]
    table = marks(ops, those)
    lines = filled("decode/simd_without_immediates.rt", count=len(table), marks=", ".join(table))
    for part in those:
        lines += ["", *operators_without_immediates(part)]
    return "\n".join(lines) + "\n"


def decode_files(ops):
    """Returns the generated file of the decoder that has no arms, by path."""
    return {"crates/wasm_decode_groups/src/simd_without_immediates.rt": simd_without_immediates(ops)}
