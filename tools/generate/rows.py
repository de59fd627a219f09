"""Writes the rows of the operators as definitions, and the lemmas that a row determines its operator."""

from immediates import ROW_WORDS, VALUE_WORDS
from source import Shape, fields_name, names_of, shapes
from table import (
    NUMERIC,
    PREFIXES,
    grouped,
    held,
    immediates_of,
    made_of,
    pattern,
    shared,
    variant_of,
)
from templates import filled, filled_file, with_uses

# In the list by opcode, an operator for the opcodes without one. Any without immediates serves.
FILLER = "operator.Nop"


def enum_rows(enum, ops):
    low = enum.module
    shape = Shape(ops)
    *others, (most, _) = grouped(ops, lambda op: op.proposal)
    proposals = [f"{low}_proposal {pattern(op, low, False)} = proposal.{variant_of(it)}" for it, those in others for op in those]
    rows = [f"{low}_immediates {pattern(op, low)} = {immediates_of(op)}" for op in ops if op.fields]
    if any(not op.fields for op in ops):
        rows.append(f"{low}_immediates _ = []")
    more = []
    if shape.by_fields:
        more += ["", f"abbrev pub {low}_fields : {enum.type} → {enum.group}Fields"]
        for op in ops:
            if op.fields:
                names = names_of(op)
                more.append(f"{low}_fields {pattern(op, low)} = fields.{fields_name(names)} {names.replace(',', '')}")
        more.append(f"{low}_fields _ = fields.Bare")
    if any(op.holds_list for op in ops):
        more += ["", "-- The operator owns a list.", f"abbrev pub {low}_holds_list : {enum.type} → Type 0"]
        more += [f"{low}_holds_list {pattern(op, low, False)} = Unit {{0}}" for op in ops if op.holds_list]
        more.append(f"{low}_holds_list _ = ⊥")
    of = {"module": low, "type": enum.type, "crate": enum.crate, "group": enum.group, "title": enum.title, "section": enum.section}
    body = filled(
        "rows/enum.antt",
        **of,
        proposals=[*proposals, f"{low}_proposal _ = proposal.{variant_of(most)}"],
        names=[f'{low}_name {pattern(op, low, False)} = codes "{op.name}"' for op in ops],
        opcode_word="subopcode" if ops[0].prefix else "opcode",
        opcode=enum.opcode,
        opcodes=[f"{enum.opcode} {pattern(op, low, False)} = {op.hex()}" for op in ops],
        rows=rows,
        more=more,
    )
    return with_uses("rows/enum_uses.antt", body, **of, immediates=", ".join(ROW_WORDS))


def makers(enum, ops, none):
    """Returns the list from which an operator is made by its opcode, and the operator from it."""
    low = enum.module
    found = {op.code: op for op in ops}
    each = [found.get(code, none) for code in range(none.code, max(found) + 1)]
    place = f"(code - {none.hex()})" if none.code else "code"
    if not any(op.fields for op in ops):
        lines = [f"abbrev operators : List {enum.type}", "operators =", *[f"    {low}.{op.name} ∷" for op in each]]
        return lines, f"get_or operators {place} {low}.{none.name}"
    lines = [f"abbrev makers : List (List Immediate → {enum.type})", "makers =", *[f"    (λ is. {made_of(op, low)}) ∷" for op in each]]
    return lines, f"get_or makers {place} (λ is. {made_of(none, low)}) is"


def enum_by_opcode(enum, ops):
    low = enum.module
    first = min(ops, key=lambda op: op.code)
    of = {"module": low, "type": enum.type, "opcode": enum.opcode, "group": enum.group, "first": pattern(first, low)}
    lines, made = makers(enum, ops, first)
    body = filled("rows/by_opcode.antt", **of, makers=lines, made=made)
    if enum.group == "Numeric":
        before, after = f"0x{NUMERIC.start - 1:02x}", f"0x{NUMERIC.stop:02x}"
        body += ["", *filled("rows/numeric_range.antt", **of, before=before, after=after)]
    if Shape(ops).by_fields:
        of_fields = [f"of_fields (fields.{fields_name(names)} {names.replace(',', '')}) = {immediates_of(those[0])}" for names, those in shapes(ops).items()]
        body += ["", *filled("rows/from_fields.antt", **of, of_fields=of_fields)]
    return with_uses("rows/by_opcode_uses.antt", body, **of, crate=enum.crate, immediates=", ".join(ROW_WORDS), values=", ".join(VALUE_WORDS))


def equality_answer(enum):
    return filled_file("rows/equality_answer.antt", crate=enum.crate, group=enum.group, module=enum.module, type=enum.type)


def operator_rows(ops):
    low = "operator"
    inner = [(enum, f"(operator.{enum.group} op)") for enum in held()]
    *others, (most, _) = grouped(ops, lambda op: op.proposal)
    proposals = [f"proposal_of {pattern(op, low, False)} = proposal.{variant_of(it)}" for it, those in others for op in those]
    rows = [f"immediates_of {pattern(op, low)} = {immediates_of(op)}" for op in ops if op.fields]
    uses = []
    for enum in held():
        columns = f"{enum.module}_proposal, {enum.module}_name, {enum.opcode}, {enum.module}_immediates"
        uses.append(f"use Rattle.{enum.crate}.specs.{enum.group}.{{{columns}}}")
    body = filled(
        "rows/operator.antt",
        proposals=[
            *proposals,
            *[f"proposal_of {pat} = {enum.module}_proposal op" for enum, pat in inner],
            f"proposal_of _ = proposal.{variant_of(most)}",
        ],
        names=[
            *[f'name_of {pattern(op, low, False)} = codes "{op.name}"' for op in ops],
            *[f"name_of {pat} = {enum.module}_name op" for enum, pat in inner],
        ],
        prefixes=[f"prefix_of (operator.{group} _) = Some 0x{prefix}" for prefix, group in PREFIXES.items()],
        opcodes=[
            *[f"opcode_of {pattern(op, low, False)} = {op.hex()}" for op in ops],
            *[f"opcode_of {pat} = {enum.opcode} op" for enum, pat in inner],
        ],
        rows=[*rows, *[f"immediates_of {pat} = {enum.module}_immediates op" for enum, pat in inner]],
    )
    return with_uses("rows/operator_uses.antt", body, enum_uses=uses, immediates=", ".join(ROW_WORDS))


def operators_by_opcode(ops):
    one, many = shared(ops)
    found = {op.code: op for op in ops if op is not many}
    makers = []
    for code in range(max(found) + 1):
        op = found.get(code)
        made = FILLER if op is None else made_of(op, "operator")
        if op is one:
            made = "select_at (select_in is)"
        makers.append(f"    (λ is. {made}) ∷")
    body = filled("rows/own_at.antt", one=one.name, many=many.name, makers=makers, filler=FILLER)
    return with_uses("rows/own_at_uses.antt", body, immediates=", ".join(ROW_WORDS), values=", ".join(VALUE_WORDS))
