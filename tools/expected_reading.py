#!/usr/bin/env python3
"""Writes the input and the expected output of wasm_tests_decode and wasm_dump, from wasmparser's samples.

    tools/expected_reading.py            writes stdin and stdout in crates/wasm_tests_decode and crates/wasm_dump
    tools/expected_reading.py --check    fails if a file is not what the samples and rows give

The README of wasm_tests_decode says what the program reads: nothing generated from the table. The tool adds each
subopcode lengthened by a byte, unknown opcodes, the subopcodes next to known ones, and the operators that need a frame in
each frame. wasm_dump reads one body with all operators.
"""

import sys
from pathlib import Path

sys.path.insert(0, str(Path(__file__).resolve().parent / "generate"))

from original import FOLDER, GROUPS, originals
from shared.arguments import read
from shared.leb128 import unsigned
from shared.tables import rows_of
from shared.written import write_or_check

TOP = Path(__file__).resolve().parent.parent
CRATE = TOP / "crates" / "wasm_tests_decode"

# In the order of their bits.
FEATURES = [
    "MULTI_MEMORY", "MEMORY64", "CALL_INDIRECT_OVERLONG", "LEGACY_EXCEPTIONS", "ACQUIRE_RELEASE_ATOMICS",
    "MULTIBYTE_ARRAY_ACCESS",
]
ALL = 2 ** len(FEATURES) - 1
FRAMES = ["Block", "If", "Else", "Loop", "TryTable", "LegacyTry", "LegacyCatch", "LegacyCatchAll"]
FRAME_BEHIND = {"00": "Block", "000440": "If", "000640": "LegacyTry"}
# The operators that need a frame: bytes, fields, the frames that allow them, and their names in the error.
FRAMED = [
    ("05", "Else", ["If"], "else", "If"),
    ("0701", "Catch tag_index=1", ["LegacyTry", "LegacyCatch"], "catch", "LegacyTry"),
    ("19", "CatchAll", ["LegacyTry", "LegacyCatch"], "catch_all", "LegacyTry"),
    ("1801", "Delegate relative_depth=1", ["LegacyTry"], "delegate", "LegacyTry"),
]
# The operators that need LEGACY_EXCEPTIONS.
LEGACY = [("0640", "try"), ("0701", "catch"), ("19", "catch_all")]
# Flags of a memory argument that need a feature, in `i32.load`.
FLAGS = [
    ("MULTI_MEMORY", "28400000", "I32Load memarg=0/2/0/M0/-"),
    ("MULTIBYTE_ARRAY_ACCESS", "28200000", "I32Load memarg=0/2/0/A0/-"),
    ("ACQUIRE_RELEASE_ATOMICS", "281200", "E18 at 1: cannot specify atomic ordering on non-atomic instruction"),
]
RESERVED = "E20 at 1: malformed memop: reserved flags bits set"
# Immediates that are read as a block: if data is missing, EndOfData is at the start of the block.
BLOCKS = {"float_32": 4, "float_64": 8, "vector": 16}
# The operators that open, turn or close frames, in a body without locals that has each. The outermost frame needs no
# capacity, and the first `Block` reserves it for eight more, so none is left at `Else`, `Catch`, `CatchAll`, `Delegate` and
# the first `End`.
FRAMES_CHANGE = [
    *["Block"] * 7, "If", "Else", "End", "Try", "Catch", "CatchAll", "End", "Try", "Delegate", "Loop", "End", "TryTable",
    *["End"] * 9,
]
# The output for the visitor by reference, in a box, and by reference to the box.
OTHERS = "others same same same"
# The same for a direct call of `decode_simd_low` or `decode_simd_high`.
HALF = "; half same same same same"


class Task:
    """One operator to read, and the result: fields or an error."""

    def __init__(self, operator, answer, *, features=ALL, frame="Block", before="", behind=""):
        self.features = features
        self.frame = frame
        self.before = bytes.fromhex(before)
        self.operator = bytes.fromhex(operator)
        self.behind = bytes.fromhex(behind)
        self.answer = answer

    @property
    def start(self):
        return len(self.before)

    @property
    def is_refused(self):
        return self.answer.split(" at ")[0][1:].isdecimal()

    def line(self):
        text = (self.before + self.operator + self.behind).hex()
        return f"{self.features} {self.frame} {self.start} {text}".rstrip()


def cuts(task, kinds):
    block = sum(BLOCKS.get(kind, 0) for kind in kinds)
    last = len(task.operator) - block
    return [task.start + (size if size < last or not block else last) for size in range(len(task.operator))]


def plain_answer(task, otherwise):
    if task.operator[:1] == b"\xfd" and task.frame != "None":
        return f"E14 at {task.start}: unexpected SIMD opcode: 0xfd; at {task.start}"
    return otherwise


def half(task):
    """Returns the output of a direct call: a subopcode follows 0xfd in a frame."""
    number = (task.operator + task.behind)[1:6]
    size = next((at + 1 for at, byte in enumerate(number) if byte < 0x80), None)
    has_subopcode = size is not None and (size < 5 or number[4] < 0x10)
    return HALF if task.operator[:1] == b"\xfd" and task.frame != "None" and has_subopcode else ""


def wanted(task, kinds):
    """Returns the line that the program prints."""
    if task.is_refused:
        answer = f"{task.answer}; at {task.start}"
        plain = plain_answer(task, answer)
        return f"{answer}; factory the same; visit {answer}; {OTHERS}{half(task)}; plain {plain}; again the same; cut"
    name = task.answer.split()[0]
    call = "by Table" if name == "BrTable" else "by Own"
    offsets = "".join(f" {offset}" for offset in cuts(task, kinds[name]))
    at = task.start + len(task.operator)
    plain = plain_answer(task, call)
    visits = f"visit {call}; {OTHERS}{half(task)}; value same; plain {plain}"
    return f"{task.answer}; at {at}; factory the same; {visits}; cut{offsets}"


def samples():
    for row in rows_of(FOLDER / "samples.tsv"):
        frame = FRAME_BEHIND[row["before"]]
        yield Task(row["operator"], row["fields"] or row["name"], frame=frame, before=row["before"], behind=row["behind"])


def lengthened(task):
    text = task.operator
    last = next(at for at in range(1, len(text)) if text[at] < 0x80)
    longer = text[:last] + bytes([text[last] | 0x80, 0]) + text[last + 1 :]
    return Task(longer.hex(), task.answer, frame=task.frame, before=task.before.hex(), behind=task.behind.hex())


def unknown(ops):
    known = {op.code for op in ops if not op.prefix} | {int(prefix, 16) for prefix in GROUPS}
    for code in range(0x100):
        if code not in known:
            yield Task(f"{code:02x}", f"E12 at 1: illegal opcode: 0x{code:x}", before="00", behind="00")
    for prefix in GROUPS:
        codes = {op.code for op in ops if op.prefix == prefix}
        beside = {code + step for code in codes for step in (-1, 1)} | {2 ** 32 - 1}
        for code in sorted(beside - codes - {-1}):
            text = f"E13 at 1: unknown 0x{prefix} subopcode: 0x{code:x}"
            yield Task(prefix + unsigned(code).hex(), text, before="00", behind="00")


def framed():
    for operator, fields, frames, instruction, name in FRAMED:
        for frame in FRAMES:
            refusal = f"E7 at 2: `{instruction}` found outside `{name}` block"
            yield Task(operator, fields if frame in frames else refusal, frame=frame, before="00", behind="0b")
    without = ALL - 2 ** FEATURES.index("LEGACY_EXCEPTIONS")
    for operator, instruction in LEGACY:
        for frame in FRAMES:
            refusal = f"E2 at 1: legacy_exceptions feature required for {instruction} instruction"
            yield Task(operator, refusal, features=without, frame=frame, before="00", behind="0b")


def flagged():
    for feature, operator, answer in FLAGS:
        for features in range(ALL + 1):
            has = features >> FEATURES.index(feature) & 1
            yield Task(operator, answer if has else RESERVED, features=features, behind="0b")


def features_of(text):
    without = text.removeprefix("all but ")
    if without in FEATURES:
        return ALL - 2 ** FEATURES.index(without)
    return {"all": ALL, "none": 0}[text]


def written_by_hand():
    for row in rows_of(CRATE / "rows.tsv"):
        features = features_of(row["features"])
        yield Task(row["operator"], row["answer"], features=features, frame=row["frame"], behind=row["behind"])


def tasks():
    ops = originals()
    found = list(samples())
    longer = [lengthened(task) for task in found[::2] if f"{task.operator[0]:02x}" in GROUPS]
    return [*found, *longer, *unknown(ops), *framed(), *flagged(), *written_by_hand()]


def whole_body():
    """Returns the names and bytes of a body with all operators.

    Those that keep the frames precede the others, so no capacity for frames is left at any operator that opens none.
    """
    operators = {task.answer.split()[0]: task.operator for task in samples()}
    names = [name for name in operators if name not in FRAMES_CHANGE] + FRAMES_CHANGE
    return [(name, operators[name]) for name in names]


def dumped():
    """Returns the files of wasm_dump: the body, after a byte for no locals, and the line of each operator."""
    body, lines = b"\x00", []
    for name, operator in whole_body():
        lines.append(f"{len(body)} {name}\n")
        body += operator
    return {"crates/wasm_dump/stdin": body, "crates/wasm_dump/stdout": "".join(lines)}


def files():
    kinds = {op.name: op.immediates for op in originals()}
    asked = tasks()
    return {
        "crates/wasm_tests_decode/stdin": "".join(task.line() + "\n" for task in asked),
        "crates/wasm_tests_decode/stdout": "".join(wanted(task, kinds) + "\n" for task in asked),
        **dumped(),
    }


if __name__ == "__main__":
    write_or_check(files(), read(__doc__, "--check").check, "tools/expected_reading.py")
