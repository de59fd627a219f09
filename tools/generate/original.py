"""Reads the operators of wasmparser from tools/original, and from nothing else."""

import sys
from pathlib import Path

from shared.tables import rows_of

FOLDER = Path(__file__).resolve().parent.parent / "original"

# Wasmparser's words for immediates, and the table's. The field decides about `types`.
KINDS = {
    "none": "",
    "bt": "block_type",
    "u32": "unsigned",
    "s32": "signed_32",
    "s64": "signed_64",
    "4 bytes": "float_32",
    "8 bytes": "float_64",
    "16 bytes": "vector",
    "16 lanes": "lane_list",
    "lane": "lane_index",
    "memory index": "memory_index",
    "table index": "table_index",
    "ord": "ordered",
    "fence": "fence",
    "ht": "heap_type",
    "cast": "cast",
    "branch table": "branch_table",
    "try table": "try_table",
    "rt": "resume_table",
}
GROUPS = {"fb": "Gc", "fc": "Misc", "fd": "Simd", "fe": "Atomic"}


def lines_of(name):
    return rows_of(FOLDER / name)


def kind_of(word, fields):
    if word == "types":
        return "types" if "SelectTypes" in fields else "one_type"
    if word.startswith("mem "):
        return "memory " + word[len("mem "):]
    return KINDS[word]


class Original:
    def __init__(self, row, arity, text):
        self.proposal = row["proposal"]
        self.name = row["name"]
        self.text = text
        self.visit = row["visit"]
        self.prefix = row["prefix"]
        self.code = int(row["code"], 16)
        fields = row["fields"].replace("$crate::", "").replace("Vec<ValType>", "SelectTypes")
        self.fields = [tuple(field.split(": ")) for field in fields.split(", ") if field]
        kinds = [kind_of(word, fields) for word in row["immediates"].split(", ")]
        self.immediates = [kind for kind in kinds if kind]
        self.is_by_rule = arity["takes"] == "variable"
        self.takes = "by rule" if self.is_by_rule else arity["takes"]
        self.leaves = "by rule" if self.is_by_rule else arity["leaves"]
        if arity["one more with Array target"] == "yes":
            self.takes += " and an array"

    @property
    def group(self):
        if self.prefix:
            return GROUPS[self.prefix]
        return "Numeric" if 0x45 <= self.code <= 0xC4 else "Own"

    @property
    def is_simd(self):
        return self.proposal in ("simd", "relaxed_simd")


def originals():
    arities = {row["name"]: row for row in lines_of("arity.tsv")}
    texts = {row["name"]: row["text"] for row in lines_of("text_names.tsv")}
    rows = lines_of("operators.tsv")
    for file, known in (("arity.tsv", arities), ("text_names.tsv", texts)):
        if lost := [row["name"] for row in rows if row["name"] not in known]:
            sys.exit(f"tools/original/{file} has no row for {', '.join(lost)}")
    return [Original(row, arities[row["name"]], texts[row["name"]]) for row in rows]


def signatures():
    """Returns the rows of the given table of types. Its head describes them."""
    return rows_of(FOLDER / "signatures.tsv")


def proposals():
    return {row["proposal"]: int(row["operators"]) for row in lines_of("proposals.tsv")}


# The columns that are compared, and their names in errors.
COMPARED = {
    "proposal": "proposal",
    "text": "name in the text format",
    "visit": "visit",
    "prefix": "prefix byte",
    "code": "code",
    "fields": "fields",
    "immediates": "immediates",
    "takes": "operands",
    "leaves": "results",
}


def differences(ops):
    found = {op.name: op for op in ops}
    listed = originals()
    out = []
    for old in listed:
        op = found.pop(old.name, None)
        if op is None:
            out.append(f"{old.name}: an operator of the original, and not in the table")
            continue
        for column, word in COMPARED.items():
            has, wants = getattr(op, column), getattr(old, column)
            if has != wants:
                out.append(f"{op.place}: {word} {shown(has)}, and in the original {shown(wants)}")
    out += [f"{op.place}: no operator of the original" for op in found.values()]
    if not out and [op.name for op in ops] != [old.name for old in listed]:
        out.append("the operators are not in the order of the original")
    return out


def shown(value):
    if isinstance(value, int):
        return f"{value:02x}"
    if isinstance(value, list):
        return ", ".join(": ".join(part) if isinstance(part, tuple) else part for part in value) or "none"
    return value or "none"
