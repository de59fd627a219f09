"""Writes the types of the operators with a one-byte opcode as a static table (crates/wasm_signatures)."""

from signature import TYPES
from table import PREFIXES, pattern
from templates import filled_file

CRATE = "crates/wasm_signatures"
# A row has as many operands and results.
MOST_OPERANDS = 2
MOST_RESULTS = 1


def has_row(op):
    it = op.signature
    return it.is_fixed and not op.prefix and len(it.params) <= MOST_OPERANDS and len(it.results) <= MOST_RESULTS


def too_long(ops):
    """Returns the operators with a one-byte opcode whose types a row cannot have."""
    why = f"a row of the table by opcodes has at most {MOST_OPERANDS} operands and {MOST_RESULTS} result"
    return [f"{op.place}: {why}" for op in ops if op.signature.is_fixed and not op.prefix and not has_row(op)]


def constant(it):
    """Returns the name of a row's constant, for example I32_I32_TO_I64."""
    words = ["_".join(TYPES[ty] for ty in types) or "None" for types in (it.params, it.results)]
    return "_TO_".join(words).upper()


def value(it):
    takes = [TYPES[ty] for ty in it.params]
    below, top = (takes[0], takes[-1]) if takes else ("I32", "I32")
    result = TYPES[it.results[0]] if it.results else "I32"
    types = f"below: OperandType::{below}, top: OperandType::{top}, result: OperandType::{result}"
    return f"Row {{ takes: {len(takes)}, leaves: {len(it.results)}, {types} }}"


def proof(op):
    pat = pattern(op, "operator", False)
    return f"rows_of d {pat} none = {'refl' if op.signature.is_fixed else 'tt'}"


def row_files(ops):
    those = {op.code: op.signature for op in ops if has_row(op)}
    empty = next(op.signature for op in ops if op.name == "Nop")
    constants = {constant(it): value(it) for _, it in sorted(those.items())}
    cases = [proof(op) for op in ops if op.group == "Own"]
    cases += ["rows_of d (operator.Numeric op) none = numeric_rows d op"]
    cases += [f"rows_of d (operator.{group} op) none = absurd (cc none)" for group in PREFIXES.values()]
    return {
        f"{CRATE}/src/rows.rt": filled_file(
            "signatures/rows.rt",
            constants=[f"const {name}: Row = {row};" for name, row in constants.items()],
            rows=[f"{constant(those.get(code, empty))}," for code in range(256)],
        ),
        f"{CRATE}/proofs/RowLemmas.antt": filled_file(
            "signatures/RowLemmas.antt",
            first=next(op.name for op in ops if op.group == "Numeric"),
            cases=cases,
        ),
    }
