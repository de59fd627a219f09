"""Checks the counts of operators in the docs against the table."""

import re

from table import SIMD_HALF, TOP

COUNTED = re.compile(r"\b(\d+) (?:(SIMD|one-byte|numeric) )?(operators|visits|proposals)\b")


def counts(ops):
    """Returns the possible counts, by the word before and what is counted."""
    groups = {}
    for op in ops:
        groups.setdefault(op.group, []).append(op)
    each = {group: len(those) for group, those in groups.items()}
    one_byte = {each["Own"], each["Own"] + each["Numeric"]}
    # (with or without the numeric ones)
    operators = {
        "SIMD": {each["Simd"]},
        "one-byte": one_byte,
        "numeric": {each["Numeric"]},
        "": {len(ops), len(ops) - each["Simd"], *one_byte, *each.values()},
    }
    # (the branch table is in no group, and SIMD operators are in two)
    low = sum(op.code < SIMD_HALF for op in groups["Simd"])
    tables = sum(op.borrows for op in ops)
    without_table = {len(ops) - tables, len(ops) - tables - each["Simd"], each["Own"] - tables}
    found = {(word, what): given for word, given in operators.items() for what in ("operators", "visits")}
    found["", "visits"] = operators[""] | without_table | {low, each["Simd"] - low}
    found["", "proposals"] = {len({op.proposal for op in ops})}
    return found


def wrong_counts(ops, top=TOP):
    allowed = counts(ops)
    out = []
    for page in sorted([*top.glob("*.md"), *top.glob("docs/*.md"), *top.glob("crates/*/*.md")]):
        for number, line in enumerate(page.read_text(encoding="utf-8").split("\n"), 1):
            for found in COUNTED.finditer(line):
                if int(found[1]) not in allowed.get((found[2] or "", found[3]), ()):
                    out.append(f"{page.relative_to(top)}:{number}: {found[0]}: no such count in the table")
    return out
