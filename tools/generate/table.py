"""Reads the table of operators, and lists the enums that they are variants of."""

import re
import textwrap
from pathlib import Path

from immediates import BORROWING, COMBINATIONS, HOLDING, KINDS, OWNING
from signature import Signature

TOP = Path(__file__).resolve().parent.parent.parent
TABLE = TOP / "tools" / "operators.tsv"
HEAD = "Written by tools/lists.py from tools/operators.tsv."
WIDTH = 100
COLUMNS = [
    "proposal", "name", "text", "visit", "prefix", "code", "fields", "immediates", "writer", "role", "feature", "inline",
    "signature",
]
PREFIXES = {"fb": "Gc", "fc": "Misc", "fd": "Simd", "fe": "Atomic"}
# The opcodes of the numeric operators, and the first subopcode of the second half of the SIMD operators.
NUMERIC = range(0x45, 0xC5)
SIMD_HALF = 0x80
# The roles except `plain`, as `role_of` of wasm_instr (specs/Roles.antt) names them.
ROLES = (
    "opens block", "opens loop", "opens try_table", "opens_if", "opens_try", "turns_else", "turns_catch",
    "turns_catch_all", "delegates", "ends",
)
# The roles that need a certain innermost frame.
FRAMED_ROLES = ("turns_else", "turns_catch", "turns_catch_all", "delegates")
# The features that operators need, whatever their immediates.
FEATURES = ("LEGACY_EXCEPTIONS",)
# Where a frequent operator is handled inline: in the decoder's arm of its kinds, in a separate arm of the decoder, in
# wasm_view. A separate arm is for a code apart from the others: the arm of its kinds is inlined for each run of codes.
INLINE = ("decoder", "decoder alone", "view")


class Operator:
    def __init__(self, cells, place="tools/operators.tsv"):
        row = dict(zip(COLUMNS, cells))
        self.proposal = row["proposal"]
        self.name = row["name"]
        self.text = row["text"]
        self.visit = row["visit"]
        self.prefix = row["prefix"]
        self.code = int(row["code"], 16)
        self.fields = [tuple(f.split(": ")) for f in row["fields"].split(", ") if f]
        self.immediates = [i for i in row["immediates"].split(", ") if i]
        self.writer = row["writer"]
        self.role = row["role"]
        self.feature = row["feature"]
        self.inline = [i for i in row["inline"].split(", ") if i]
        self.signature = Signature(row["signature"])
        self.place = f"{place}: {self.name}"

    @property
    def group(self):
        if self.prefix:
            return PREFIXES[self.prefix]
        return "Numeric" if self.code in NUMERIC else "Own"

    @property
    def kinds(self):
        return tuple(it.split(" ")[0] for it in self.immediates)

    @property
    def forms(self):
        """Returns the kinds without alignment, for example `memory Rmw`."""
        return tuple(" ".join(it.split(" ")[:2]) for it in self.immediates)

    @property
    def align(self):
        """Returns the natural alignment of the memory argument as an exponent."""
        return next(it.split()[2] for it in self.immediates if it.startswith("memory "))

    @property
    def combination(self):
        return COMBINATIONS.get(self.kinds)

    @property
    def takes(self):
        """Returns the number of operands, as the original annotates it."""
        if not self.signature.is_counted:
            return "by rule"
        return f"{len(self.signature.params)}{' and an array' if self.may_reach_array else ''}"

    @property
    def leaves(self):
        return str(len(self.signature.results)) if self.signature.is_counted else "by rule"

    @property
    def may_reach_array(self):
        """Returns whether an array may be the target: of an access that is not atomic."""
        return "memory" in self.kinds and PREFIXES.get(self.prefix) != "Atomic"

    @property
    def is_by_rule(self):
        return not self.signature.is_counted

    @property
    def holds_list(self):
        return any(ty in OWNING for _, ty in self.fields)

    @property
    def borrows(self):
        return any(ty in BORROWING for _, ty in self.fields)

    @property
    def may_hold(self):
        """Returns whether the immediates may own a list, or borrow."""
        return any(kind in HOLDING for kind in self.kinds)

    @property
    def has_guard(self):
        """Returns whether frame or features are checked before the immediates."""
        return self.role in FRAMED_ROLES or self.feature != ""

    @property
    def is_common(self):
        """Returns whether the decoder's arm of its kinds is inline for this operator."""
        return "decoder" in self.inline

    @property
    def is_alone(self):
        """Returns whether the decoder has a separate inline arm for this operator."""
        return "decoder alone" in self.inline

    def hex(self):
        return f"0x{self.code:02x}"


def rows_of(path=TABLE):
    """Returns the cells of each row by line number, from 1."""
    text = path.read_text(encoding="utf-8")
    lines = text.removesuffix("\n").split("\n")
    return {number: line.split("\t") for number, line in enumerate(lines, 1)}


def table(path=TABLE):
    """Returns the operators of a table without faults (`rules.faults`)."""
    return [Operator(cells, f"{named(path)}:{n}") for n, cells in rows_of(path).items() if n > 1]


def named(path):
    return path.relative_to(TOP) if path.is_relative_to(TOP) else path


def doc(text):
    return [f"/// {line}" for line in textwrap.wrap(text, WIDTH - len("/// "))]


def prefix_of(group):
    """Returns the prefix byte of an enum's operators, or nothing."""
    return next((byte for byte, enum in PREFIXES.items() if enum == group), "")


class Enum:
    def __init__(self, group, crate, module, title, section="", more=""):
        self.group = group
        self.crate = crate
        self.module = module
        self.title = title
        self.section = section
        self.doc = doc(f"{title.capitalize()}{more}. {section[:1].upper()}{section[1:]}.")
        self.type = "Operator" if group == "Own" else f"{group}Operator"
        self.opcode = f"{module}_opcode" if group == "Numeric" else f"{module}_subopcode"
        self.prefix = prefix_of(group)


ENUMS = [
    Enum("Numeric", "wasm_instr_ops", "numeric", "the numeric operators with a one-byte opcode", "Numeric Instructions", f", 0x{NUMERIC[0]:02x} to 0x{NUMERIC[-1]:02x}, without immediates"),
    Enum("Gc", "wasm_instr_ops", "gc", "the operators with the prefix byte 0xfb", "Aggregate Instructions; proposal custom descriptors", ": structures, arrays and casts"),
    Enum("Misc", "wasm_instr_ops", "misc", "the operators with the prefix byte 0xfc", "Numeric, Memory and Table Instructions; proposals memory control and wide arithmetic"),
    Enum("Atomic", "wasm_instr_ops", "atomic", "the operators with the prefix byte 0xfe", "proposals threads, shared-everything threads and acquire-release atomics"),
    Enum("Simd", "wasm_instr_simd", "simd", "the operators with the prefix byte 0xfd", "Vector Instructions", ": SIMD, including the relaxed ones"),
]
HELD = ["Numeric", "Gc", "Misc", "Simd", "Atomic"]


def singular(title):
    """Returns for example "an operator with a one-byte opcode"."""
    for word, article in (("", "an"), ("numeric ", "a"), ("SIMD ", "a")):
        title = title.replace(f"the {word}operators", f"{article} {word}operator", 1)
    return title


def held():
    return sorted(ENUMS, key=lambda enum: HELD.index(enum.group))


PROPOSALS = (
    "mvp", "sign_extension", "gc", "custom_descriptors", "saturating_float_to_int", "bulk_memory",
    "reference_types", "tail_call", "memory_control", "threads", "simd", "relaxed_simd", "exceptions",
    "legacy_exceptions", "shared_everything_threads", "function_references", "stack_switching",
    "wide_arithmetic", "acquire_release_atomics",
)


def shared(ops):
    """Returns the two operators with the same code. The first has one type as its immediate, the second several."""
    found = {}
    for op in ops:
        other = found.setdefault((op.prefix, op.code), op)
        if other is not op:
            return other, op
    return None


def variant_of(proposal):
    return "".join(word.capitalize() for word in proposal.split("_"))


def immediates_of(op):
    names = [name for name, _ in op.fields]
    out = []
    for immediate in op.immediates:
        word, *more = immediate.split()
        kind = KINDS[word]
        count = len(kind.types)
        argument = kind.argument.format(*names[:count], **dict(zip(("sort", "align"), more)))
        out.append(f"{kind.immediate} {argument}")
        del names[:count]
    return " ∷ ".join(out + ["[]"])


def made_of(op, alias):
    """Returns the operator made from the list of immediates `is`, in antt."""
    values = []
    rest = "is"
    for kind in op.kinds:
        values += [f"({value} {rest})" for value in KINDS[kind].taken]
        rest = f"(tail_of {rest})"
    return " ".join([f"{alias}.{op.name}"] + values)


def imported(text, names):
    words = set(re.findall(r"[\w'-]+", re.sub("--.*", "", text)))
    return [name for name in names if name in words]


def pattern(op, alias, named=True):
    if not op.fields:
        return f"{alias}.{op.name}"
    names = " ".join(name if named else "_" for name, _ in op.fields)
    return f"({alias}.{op.name} {names})"


def enum_uses(enum):
    path = f"Rattle.{enum.crate}.specs.declared.{enum.module}.{enum.type}"
    return [f"use {path}.{{{enum.type}}}", f"use {path}.TheVariants as {enum.module}"]


def by_cases(lemma, first, alias, proof):
    return [f"{lemma} {pattern(first, alias)} = {proof}", f"{lemma} op = {proof}"]


def grouped(ops, value):
    """Groups the operators by a value. The largest group is last."""
    found = {}
    for op in ops:
        found.setdefault(value(op), []).append(op)
    most = max(found, key=lambda it: len(found[it]))
    return [(it, found[it]) for it in found if it != most] + [(most, found[most])]
