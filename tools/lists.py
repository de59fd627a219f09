#!/usr/bin/env python3
"""Writes every list over the operators from one table, operators.tsv.

    tools/lists.py            writes the files
    tools/lists.py --check    fails if a file is not what the table gives, or if a page states a count of operators that
                              the table does not give

First it checks the rows (generate/rules.py), and compares them with wasmparser's (generate/original.py). `rt fmt` lays
out the files. docs/ADDING-AN-OPERATOR.md describes the columns.
"""

import sys
from pathlib import Path

sys.path.insert(0, str(Path(__file__).resolve().parent / "generate"))

from arities import fixed_arity_source, fixed_arity_specs
from arm_files import arm_files
from arms import unread
from cargo import cargo_files
from changes import change_files
from counts import wrong_counts
from decode import decode_files
from encode import encode_files
from entries import entry_files
from equality import equality_files
from header import header_files
from layout import laid_out
from native import native_files
from original import differences
from own_visits import own_visit_files
from paths import by_defined
from plain import plain_files, unshaped
from premises import premise_files
from printed_fields import printed_field_files
from proposals import proposal_files
from routes import route_files
from rows import enum_by_opcode, enum_rows, equality_answer, operator_rows, operators_by_opcode
from rules import faults
from source import Shape, enum_source, operator_source
from shared.arguments import read
from shared.written import write_or_check
from table import ENUMS, HEAD, TOP, table
from signature_rows import row_files, too_long
from signatures import signature_files
from texts import text_files
from visits import visit_files


def files(ops):
    out = {}
    for enum in ENUMS:
        those = [op for op in ops if op.group == enum.group]
        crate = f"crates/{enum.crate}"
        out[f"{crate}/src/{enum.module}.rt"] = enum_source(enum, those)
        out[f"{crate}/specs/{enum.group}.antt"] = enum_rows(enum, those)
        out[f"{crate}/proofs/{enum.group}ByOpcode.antt"] = enum_by_opcode(enum, those)
        if Shape(those).by_fields:
            out[f"{crate}/proofs/{enum.module}/{enum.type}PartialEq/eq/Answers.antt"] = equality_answer(enum)
    own = [op for op in ops if op.group == "Own"]
    out["crates/wasm_instr/src/operator.rt"] = operator_source(own, {op.group for op in ops if op.holds_list})
    out["crates/wasm_instr/specs/Row.antt"] = operator_rows(own)
    out["crates/wasm_instr/specs/FixedArity.antt"] = fixed_arity_specs(ops)
    out["crates/wasm_instr/src/fixed_arity.rt"] = fixed_arity_source(ops)
    out["crates/wasm_instr/proofs/ByOpcode.antt"] = operators_by_opcode(own)
    out |= change_files(ops)
    out |= entry_files(ops)
    out |= equality_files(ops, ENUMS)
    out |= proposal_files()
    out |= decode_files(ops)
    out |= encode_files(ops)
    out |= arm_files(ops)
    out |= visit_files(ops)
    out |= route_files()
    out |= printed_field_files(ops)
    out |= text_files(ops)
    out |= plain_files(ops)
    out |= own_visit_files(ops)
    out |= signature_files(ops)
    out |= row_files(ops)
    out |= premise_files(ops)
    out |= header_files(ops)
    out |= cargo_files(ops)
    out |= native_files()
    return laid_out(by_defined(out))


def left_over(wanted, top=TOP):
    """Returns generated files that no generator writes."""
    found = [*top.glob("crates/*/src/**/*.rt"), *top.glob("crates/*/specs/*.antt"), *top.glob("crates/*/proofs/**/*.antt")]
    names = [str(path.relative_to(top)) for path in found if HEAD in path.read_text(encoding="utf-8")[:200]]
    return sorted(name for name in names if name not in wanted)


def main():
    check = read(__doc__, "--check").check
    found = faults() or differences(table()) or unread(table()) or unshaped(table()) or too_long(table())
    if found:
        sys.exit("\n".join(found))
    wanted = files(table())
    write_or_check(wanted, check, "tools/lists.py")
    if check:
        found = [f"{name}: no generator writes this file: remove it" for name in left_over(wanted)]
        sys.exit("\n".join(found + wrong_counts(table())) or None)


if __name__ == "__main__":
    main()
