"""Reads the column `signature`: the types of an operator's operands and results."""

import re

# The types that an operator can fix, and their variants of `OperandType` of wasm_signatures.
TYPES = {
    "i32": "I32",
    "i64": "I64",
    "f32": "F32",
    "f64": "F64",
    "v128": "V128",
    "addr": "Address",
    "eqref": "EqRef",
    "arrayref": "ArrayRef",
    "i31ref": "I31Ref",
    "(ref i31)": "I31",
}
# A type and a reference type that a rule decides.
RULED_TYPES = ("t", "ref")
# The rules, and what they are for.
RULES = {
    "parametric": "`unreachable`, `drop` and `select`",
    "construct": "operators that open, turn or close a construct",
    "branch": "branches and `return`",
    "call": "calls and tail calls",
    "throw": "`throw` and `throw_ref`",
    "local": "accesses to a local",
    "global": "accesses to a global",
    "table": "operators with a table or an element segment",
    "memory": "operators with a data segment or two memories",
    "reference": "operators with references of any heap type",
    "structure": "operators with structures",
    "array": "operators with an array type",
}
UNSUPPORTED = "unsupported"
ITEM = r"\((?:[^()]*)\)|[^\s()]+"
LIST = rf"\[((?:(?:{ITEM})(?: (?:{ITEM}))*)?)\]"
CELL = re.compile(rf"(?:(?P<what>rule [a-z]+|{UNSUPPORTED})(?:: |$))?(?:{LIST} -> {LIST})?")


def items(text):
    return re.findall(ITEM, text)


class Signature:
    """`rule` is empty unless a rule decides. Lists are `None` if a rule decides how long they are."""

    def __init__(self, cell):
        self.text = cell
        found = CELL.fullmatch(cell)
        what = found["what"] or ""
        self.is_unsupported = what == UNSUPPORTED
        self.rule = what.removeprefix("rule ") if what.startswith("rule ") else ""
        counted = found[2] is not None
        self.params = items(found[2]) if counted else None
        self.results = items(found[3]) if counted else None

    @property
    def is_fixed(self):
        return not (self.rule or self.is_unsupported)

    @property
    def is_counted(self):
        return self.params is not None


def signature_faults(cell):
    found = CELL.fullmatch(cell)
    if found is None or cell == "":
        return [f"the signature {cell!r} is not [TYPES] -> [TYPES], alone or after `rule NAME: ` or `{UNSUPPORTED}: `, nor these words alone"]
    it = Signature(cell)
    out = []
    if it.rule and it.rule not in RULES:
        out.append(f"the rule {it.rule!r} is not one of {', '.join(RULES)}")
    known = [*TYPES] if it.is_fixed else [*TYPES, *RULED_TYPES]
    for ty in [*(it.params or []), *(it.results or [])]:
        if ty not in known:
            out.append(f"the type {ty!r} of the signature is not one of {', '.join(known)}")
    if len(it.params or []) > 9 or len(it.results or []) > 9:
        out.append("the signature has more than 9 operands or results")
    return out
