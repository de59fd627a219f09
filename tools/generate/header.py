"""Writes the lists over the operators in c/include/wasm_operators.h. The rest of the header is written by hand."""

import re

from immediates import KINDS
from plain import number
from table import PROPOSALS, TOP, shared

PATH = "c/include/wasm_operators.h"
# The names of indices, if they are not those in the table.
INDICES = {
    "relative_depth": "label",
    "mem": "memory index",
    "dst_mem": "target memory index",
    "src_mem": "source memory index",
    "table": "table index",
    "dst_table": "target table index",
    "src_table": "source table index",
    "elem_index": "element segment index",
    "data_index": "data segment index",
    "array_elem_index": "element segment index",
    "array_data_index": "data segment index",
    "array_type_index_dst": "target array type index",
    "array_type_index_src": "source array type index",
    "array_size": "number of elements",
    "cont_type_index": "continuation type index",
    "argument_index": "type index of the continuation",
    "result_index": "type index of the result",
}
# The fields that hold indices, in order.
PLACES = ("first", "second", "third")


def meaning(op):
    names = [name for name, _ in op.fields]
    parts, used = [], 0
    for kind, immediate in zip(op.kinds, op.immediates):
        if KINDS[kind].is_index:
            name = names[len(parts)]
            parts.append(f"{PLACES[used]}: {INDICES.get(name, name.replace('_', ' '))}")
            used += 1
        else:
            parts.append(KINDS[kind].held.format(align=immediate.split()[-1], next=PLACES[used]))
    return "; ".join(parts)


def meanings(op, pair):
    """Returns what the fields hold for an operator, or for the two that share an opcode."""
    return "; ".join(meaning(it) for it in (pair if op in pair else [op]))


def enum(rows):
    last = len(rows) - 1
    return "".join(f"  {key} = {value}{',' if at < last else ''}{f' /* {comment} */' if comment else ''}\n" for at, (key, value, comment) in enumerate(rows))


def proposal_cases(ops):
    cases = {}
    for op in ops:
        cases.setdefault(f"WASM_PROPOSAL_{op.proposal.upper()}", []).append(f"    case 0x{number(op):x}:\n")
    return "".join(f"{''.join(those)}      return {value};\n" for value, those in cases.items())


def proposal_names():
    return "".join(f'    case WASM_PROPOSAL_{it.upper()}:\n      return "{it}";\n' for it in PROPOSALS)


def header(ops, text):
    pair = shared(ops)
    distinct = [op for op in ops if op is not pair[1]]
    opcodes = enum([(f"WASM_OP_{op.name}", f"0x{number(op):x}", meanings(op, pair)) for op in distinct])
    proposals = enum([(f"WASM_PROPOSAL_{it.upper()}", at, "") for at, it in enumerate(PROPOSALS)])
    for start, end, new in (
        ("#define WASM_LONGEST_NAME ", "\n", str(max(len(op.name) for op in ops))),
        ("#define WASM_LONGEST_TEXT_NAME ", "\n", str(max(len(op.text) for op in ops))),
        ("enum wasm_opcode {\n", "};", opcodes),
        ("enum wasm_proposal {\n", "};", proposals),
        ("switch (op->opcode) {\n", "    default:", proposal_cases(distinct)),
        ("switch (proposal) {\n", "    default:", proposal_names()),
    ):
        text, found = re.subn(f"(?s)({re.escape(start)}).*?({re.escape(end)})", lambda it: it[1] + new + it[2], text)
        assert found == 1, f"{PATH} has {found} places after {start!r}"
    return text


def header_files(ops):
    return {PATH: header(ops, (TOP / PATH).read_text(encoding="utf-8"))}
