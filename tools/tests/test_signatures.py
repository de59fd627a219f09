import re
import unittest

from original import signatures
from signature import RULES, Signature
from table import PROPOSALS, table

# The proposals without typing rules here. The others are in the Core Specification 3.0, or finished.
UNSUPPORTED = {
    "custom_descriptors", "memory_control", "legacy_exceptions", "shared_everything_threads", "stack_switching",
    "acquire_release_atomics",
}
NUMBERS = ("i32", "i64", "f32", "f64", "v128")
REFERENCES = {"(ref null eq)": "eqref", "(ref null array)": "arrayref", "(ref null i31)": "i31ref", "(ref i31)": "(ref i31)"}

# The rows that differ in form from the given ones, and why the column is as it is.
DECIDED = {
    "Unreachable": ("rule parametric: [] -> []", "like the arity, it leaves out the operands that the rule allows below"),
    "ThrowRef": ("rule throw: [ref] -> []", "the same"),
    "Rethrow": ("unsupported: [] -> []", "the same"),
    "DataDrop": ("rule memory: [] -> []", "the types are fixed, and the rule says that the segment exists"),
    "ElemDrop": ("rule table: [] -> []", "the same"),
    "TableAtomicRmwCmpxchg": ("unsupported: [addr ref ref] -> [ref]", "the given type of the expected element is not certain"),
}
# A packed type unpacks to i32, and these operators are typed only at packed types.
PACKED = re.compile(r"(Struct|Array)(Atomic)?Get[SU]")


def items(text):
    """Returns the items of a sequence in the given table. Blanks separate them outside parentheses and brackets."""
    out, depth = [""], 0
    for char in text:
        depth += (char in "(<") - (char in ")>")
        if char == " " and depth == 0:
            out.append("")
        else:
            out[-1] += char
    return [it for it in out if it != "-"]


def in_our_words(item, name):
    if item in NUMBERS:
        return item
    if item in REFERENCES:
        return REFERENCES[item]
    if re.match(r"(at|tt|min)\b", item):
        return "addr"
    if item.startswith(("(ref ", "et(")):
        return "ref"
    return "i32" if PACKED.fullmatch(name) and item.startswith("unpack(") else "t"


def is_sequence(item):
    return item.endswith("*") or "^" in item or item.startswith("<") or item == "!"


def given(row):
    """Returns whether the given types follow from the immediates, and operands and results in our words."""
    lists = [items(row[column]) for column in ("parameters", "results")]
    if any(is_sequence(item) for it in lists for item in it):
        return row["class"], None, None
    return row["class"], *([in_our_words(item, row["name"]) for item in it] for it in lists)


def differs(op, row):
    """Returns what differs between the column and a given row."""
    it = op.signature
    sort, takes, leaves = given(row)
    ours = "fixed" if it.is_fixed else "rule" if it.rule else "unsupported"
    sorts = {"fixed": ("fixed", "context"), "rule": ("context", "rule"), "unsupported": ("unsupported",)}[ours]
    out = [] if sort in sorts else [f"{op.place}: {ours}, and given as {sort}"]
    if (it.params, it.results) != (takes, leaves):
        out.append(f"{op.place}: {it.params} -> {it.results}, and given as {row['parameters']} -> {row['results']}")
    return out


class Given(unittest.TestCase):
    """Compares the column with the given table, which was written from the standard by others."""

    ops = table()
    rows = signatures()

    def test_same_operators(self):
        self.assertEqual([op.name for op in self.ops], [row["name"] for row in self.rows])

    def test_each_row(self):
        found = [what for op, row in zip(self.ops, self.rows) if op.name not in DECIDED for what in differs(op, row)]
        self.assertEqual(found, [])

    def test_decided_rows(self):
        rows = {row["name"]: row for row in self.rows}
        for op in self.ops:
            if op.name in DECIDED:
                with self.subTest(op.name):
                    self.assertEqual(op.signature.text, DECIDED[op.name][0])
                    self.assertNotEqual(differs(op, rows[op.name]), [], "it need not be decided")

    def test_a_difference_is_found(self):
        rows = {row["name"]: row for row in self.rows}
        for name, cell in {
            "I32Add": "[i32 i64] -> [i32]", "I64Eqz": "[i64] -> [i64]", "I32Load": "[i32] -> [i32]",
            "F32Store": "[f32 addr] -> []", "RefEq": "[i31ref eqref] -> [i32]", "LocalGet": "[] -> [i32]",
            "ArrayFill": "rule array: [ref t i32 i32] -> []", "Pause": "[] -> []", "Call": "rule call: [] -> []",
        }.items():
            op = next(op for op in table() if op.name == name)
            op.signature = Signature(cell)
            with self.subTest(name):
                self.assertNotEqual(differs(op, rows[name]), [])


class Column(unittest.TestCase):
    ops = table()

    def test_unsupported_proposals(self):
        self.assertLess(UNSUPPORTED, set(PROPOSALS))
        for op in self.ops:
            self.assertEqual(op.signature.is_unsupported, op.proposal in UNSUPPORTED, op.place)

    def test_each_rule_is_used(self):
        self.assertEqual({op.signature.rule for op in self.ops} - {""}, set(RULES))
