"""Checks the rows of the table. Each fault has the file, the line and the operator."""

import re

from immediates import KINDS, LARGEST_ALIGN, MEMORY_SORTS, OWNING, ROW_WORDS, TYPES, VALUE_WORDS, WRITERS
from signature import signature_faults
from table import COLUMNS, FEATURES, INLINE, PREFIXES, PROPOSALS, ROLES, TABLE, Operator, held, named, rows_of

# Keywords of Rust, and names in the generated definitions.
TAKEN = set(
    "as box break const continue crate dyn else enum extern false fn for if impl in let loop match mod move mut"
    " pub ref return self static struct super trait true type unsafe use where while async await ghost result"
    " op code is alloc result kind select operator numeric gc misc simd atomic".split()
) | set(ROW_WORDS) | set(VALUE_WORDS)
# Limits of the toolchain: variants of an enum, and of an enum that may own or borrow.
MOST_VARIANTS = 256
MOST_OWNING = 128
# The generated lists over subopcodes are as long.
LARGEST_SUBOPCODE = 0x3FF
# The contract of `reaching` requires fewer than 8 operands.
MOST_TAKEN = 7
VECTOR_PROPOSALS = ("simd", "relaxed_simd")
# The visit of `VisitOperator`, whose argument borrows.
BORROWING_VISIT = "visit_br_table"
# The immediates of the two operators that share a code. The length of the list determines the operator.
SHARING = (("one_type",), ("types",))


def faults(path=TABLE):
    rows = rows_of(path)
    place = named(path)
    if rows.get(1) != COLUMNS:
        return [f"{place}:1: the columns are {', '.join(COLUMNS)}"]
    found, ops = [], []
    for number, cells in rows.items():
        if number == 1:
            continue
        name = cells[1] if len(cells) > 1 and cells[1] else "a row with no name"
        wrong = cell_faults(cells)
        if not wrong:
            op = Operator(cells, f"{place}:{number}")
            ops.append(op)
            wrong = row_faults(op)
        found += [f"{place}:{number}: {name}: {what}" for what in wrong]
    return found + shared_faults(ops) + enum_faults(ops)


def cell_faults(cells):
    if len(cells) != len(COLUMNS):
        return [f"{len(cells)} columns, and not {len(COLUMNS)}"]
    row = dict(zip(COLUMNS, cells))
    out = []
    if any(cell != cell.strip() for cell in cells):
        out.append("a blank at the edge of a column")
    if not re.fullmatch(r"[0-9a-f]{2,3}", row["code"]):
        out.append(f"the code {row['code']!r} is not of two or three hexadecimal digits in small letters")
    if row["prefix"] not in ("", *PREFIXES):
        out.append(f"the prefix byte {row['prefix']!r} is not one of {', '.join(PREFIXES)}")
    for field in filter(None, row["fields"].split(", ")):
        if not re.fullmatch(r"[a-z][a-z0-9_]*: \S.*", field):
            out.append(f"the field {field!r} is not a name and a type")
    return out + signature_faults(row["signature"])


def row_faults(op):
    out = []
    if not re.fullmatch(r"[A-Z][A-Za-z0-9]*", op.name):
        out.append("the name is not a variant's: letters and digits, the first a capital")
    if not re.fullmatch(r"[a-z][a-z0-9_]*(\.[a-z0-9_]+)*", op.text):
        out.append(f"the text {op.text!r} is no name of the text format: words of small letters with points between")
    if not re.fullmatch(r"visit_[a-z0-9_]+", op.visit):
        out.append(f"the visit {op.visit!r} does not begin with visit_, or has other than small letters")
    if op.proposal not in PROPOSALS:
        out.append(f"the proposal {op.proposal!r} is not known")
    if (op.prefix == "fd") != (op.proposal in VECTOR_PROPOSALS):
        out.append("an operator has the prefix byte fd if and only if its proposal is simd or relaxed_simd")
    if not op.prefix and (op.code > 0xFF or f"{op.code:02x}" in PREFIXES):
        out.append(f"{op.code:02x} is a prefix byte, or more than a byte")
    if op.code > LARGEST_SUBOPCODE:
        out.append(f"the subopcode is above {LARGEST_SUBOPCODE:x}")
    checks = (field_faults, immediate_faults, writer_faults, frame_faults, inline_faults, arity_faults)
    return out + [fault for check in checks for fault in check(op)]


def field_faults(op):
    names = [name for name, _ in op.fields]
    out = [f"two fields are named {name}" for name in sorted({it for it in names if names.count(it) > 1})]
    for name, ty in op.fields:
        if name in TAKEN:
            out.append(f"no field can be named {name}")
        if ty not in TYPES:
            out.append(f"the type {ty} of {name} is not known")
    return out


def immediate_faults(op):
    out, wanted = [], []
    for immediate in op.immediates:
        word, *more = immediate.split(" ")
        if word not in KINDS:
            out.append(f"the immediate {immediate!r} is of no known kind")
            continue
        if (word == "memory") != bool(more) or (more and not is_memory(more)):
            out.append(f"{immediate!r}: memory is followed by one of {', '.join(MEMORY_SORTS)} and a number from 0 to {LARGEST_ALIGN}, other words by nothing")
        wanted += KINDS[word].types
    types = [ty for _, ty in op.fields]
    if not out and types != wanted:
        out.append(f"the immediates need fields of {', '.join(wanted) or 'no type'}, and the fields are of {', '.join(types) or 'none'}")
    if "branch_table" in op.kinds and op.visit != BORROWING_VISIT:
        out.append(f"only the operator with {BORROWING_VISIT} may have a branch table: it borrows, and `VisitOperator` has its visit")
    return out


def writer_faults(op):
    if op.writer == "":
        return []
    if op.writer not in WRITERS:
        return [f"the writer {op.writer!r} is not one of {', '.join(WRITERS)}"]
    types = tuple(ty for _, ty in op.fields)
    if types != WRITERS[op.writer]:
        return [f"the writer {op.writer} takes {', '.join(WRITERS[op.writer])}, and the fields are of {', '.join(types) or 'none'}"]
    return []


def frame_faults(op):
    out = []
    if op.role not in ("", *ROLES):
        out.append(f"the role {op.role!r} is not one of {', '.join(ROLES)}, or empty")
    if op.feature not in ("", *FEATURES):
        out.append(f"the feature {op.feature!r} is not one of {', '.join(FEATURES)}, or empty")
    if (op.role or op.feature) and op.group != "Own":
        out.append("only an operator with a one-byte opcode that is not numeric may have a role or a feature")
    return out


def inline_faults(op):
    wrong = [it for it in op.inline if it not in INLINE]
    out = [f"{it!r} is not one of {', '.join(INLINE)}" for it in wrong]
    if not wrong and op.inline != [it for it in INLINE if it in op.inline]:
        out.append(f"the places where it is inline are not in the order {', '.join(INLINE)}")
    if op.inline and op.group != "Own":
        out.append("only an operator with a one-byte opcode that is not numeric may be inline")
    if op.is_common and op.is_alone:
        out.append("it is inline in the arm of its kinds or in a separate arm, not in both")
    if (op.is_common or op.is_alone) and (op.has_guard or op.may_hold):
        out.append("the decoder has no inline arm for an operator that needs a frame or a feature, or may own or borrow")
    return out


def is_memory(words):
    return len(words) == 2 and words[0] in MEMORY_SORTS and words[1] in map(str, range(LARGEST_ALIGN + 1))


def arity_faults(op):
    out = []
    if op.may_reach_array and op.kinds.count("memory") != 1:
        out.append("an access has exactly one memory argument")
    if op.may_reach_array and len(op.signature.params or []) > MOST_TAKEN:
        out.append(f"an access takes at most {MOST_TAKEN} operands besides the array")
    if "addr" in fixed_types(op) and not any("mem" in name for name, _ in op.fields):
        out.append("it has an address, and no field for its memory")
    return out


def fixed_types(op):
    it = op.signature
    return [*it.params, *it.results] if it.is_fixed else []


def shared_faults(ops):
    out, pairs = [], 0
    for what, key in {
        "the name": lambda op: op.name.lower(),
        "the visit": lambda op: op.visit,
        "the code": lambda op: (op.prefix, op.code),
    }.items():
        first = {}
        for op in ops:
            other = first.setdefault(key(op), op)
            is_pair = what == "the code" and (other.kinds, op.kinds) == SHARING
            pairs += is_pair
            if other is not op and not (is_pair and pairs == 1):
                out.append(f"{op.place}: {what} is already used by {other.name}, line {other.place.split(':')[-2]}")
    return out


def enum_faults(ops):
    out = []
    inner = [enum.group for enum in held()]
    for group in [*inner, "Own"]:
        those = [op for op in ops if op.group == group]
        count = len(those) + (len(inner) if group == "Own" else 0)
        owning = [op for op in those if group == "Own" or any(ty in OWNING for _, ty in op.fields)]
        if count > MOST_VARIANTS:
            out.append(f"{those[-1].place}: the enum of its group has {count} variants, and at most {MOST_VARIANTS} are possible")
        elif owning and count > MOST_OWNING:
            out.append(f"{owning[-1].place}: an enum with a list has at most {MOST_OWNING} variants, and the enum of its group has {count}")
        elif not those:
            out.append(f"no operator is of the group {group}")
    return out
