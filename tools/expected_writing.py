#!/usr/bin/env python3
"""Writes the input of the program wasm_tests_encode: wasmparser's samples, and the shortest encoding of each operator.

    tools/expected_writing.py            writes crates/wasm_tests_encode/stdin
    tools/expected_writing.py --check    fails if the file is not what the samples give

The shortest encoding is made from the bytes of the sample by the rules of the standard (Binary Format, Values, Types,
Instructions). Each LEB128 number gets its fewest bytes, an abstract reference type with null its short form, and memory
0 no index. The targets of a branch table stay.
"""

from expected_reading import samples
from original import GROUPS, originals
from shared import arguments
from shared.leb128 import read, signed, unsigned
from shared.written import write_or_check

ABSTRACT = {*range(0x68, 0x76)}
SHARED, NULL, NOT_NULL, EXACT, EMPTY = 0x65, 0x63, 0x64, 0x62, 0x40
NUMBER_TYPES = {*range(0x7B, 0x80)}
# The flags of a memory argument.
ORDERED, ARRAY, MEMORY = 0x10, 0x20, 0x40
FIXED = {"float_32": 4, "float_64": 8, "vector": 16, "lane_list": 16, "lane_index": 1, "ordered": 1, "fence": 1}
INDICES = ("unsigned", "memory_index", "table_index")
# By the first byte of a catch or a handler, how many numbers follow.
CATCH = {0: 2, 1: 2, 2: 1, 3: 1}
HANDLER = {0: 2, 1: 1}


class Reader:
    def __init__(self, text):
        self.text, self.at = text, 0

    def peek(self):
        return self.text[self.at]

    def take(self, size):
        self.at += size
        return self.text[self.at - size : self.at]

    def number(self):
        """Returns the value of an unsigned number, and its count of bits."""
        start = self.at
        value, self.at = read(self.text, start)
        return value, 7 * (self.at - start)


def short_unsigned(reader):
    return unsigned(reader.number()[0])


def short_signed(reader):
    value, bits = reader.number()
    return signed(value - (1 << bits) if value >> (bits - 1) else value)


def heap_type(reader):
    if reader.peek() == SHARED:
        return reader.take(2)
    if reader.peek() == EXACT:
        return reader.take(1) + short_unsigned(reader)
    return short_signed(reader)


def value_type(reader):
    if reader.peek() == NOT_NULL:
        return reader.take(1) + heap_type(reader)
    if reader.peek() != NULL:
        return heap_type(reader)
    null, heap = reader.take(1), heap_type(reader)
    return heap if heap[0] in {*ABSTRACT, SHARED} else null + heap


def block_type(reader):
    if reader.peek() in {EMPTY, SHARED, NULL, NOT_NULL, *ABSTRACT, *NUMBER_TYPES}:
        return reader.take(1) if reader.peek() == EMPTY else value_type(reader)
    return short_signed(reader)


def memory(reader):
    flags = reader.number()[0]
    index = short_unsigned(reader) if flags & (ARRAY | MEMORY) else b""
    if flags & MEMORY and index == b"\0":
        flags, index = flags - MEMORY, b""
    ordering = reader.take(1) if flags & ORDERED else b""
    return bytes([flags]) + index + ordering + short_unsigned(reader)


def many(member):
    """Returns the reader of a list: the count of its members, and each of them."""

    def of(reader):
        count = reader.number()[0]
        return unsigned(count) + b"".join(member(reader) for _ in range(count))

    return of


def marked(counts):
    """Returns the reader of a byte, which determines how many numbers follow."""

    def of(reader):
        byte = reader.take(1)
        return byte + b"".join(short_unsigned(reader) for _ in range(counts[byte[0]]))

    return of


def targets(reader):
    count = reader.number()[0]
    start = reader.at
    for _ in range(count):
        reader.number()
    return unsigned(count) + reader.text[start : reader.at] + short_unsigned(reader)


SHORT = {
    **{kind: short_unsigned for kind in INDICES},
    **{kind: lambda reader, size=size: reader.take(size) for kind, size in FIXED.items()},
    "signed_32": short_signed,
    "signed_64": short_signed,
    "heap_type": heap_type,
    "block_type": block_type,
    "memory": memory,
    "cast": lambda reader: reader.take(1) + short_unsigned(reader) + heap_type(reader) + heap_type(reader),
    "one_type": many(value_type),
    "types": many(value_type),
    "branch_table": targets,
    "try_table": lambda reader: block_type(reader) + many(marked(CATCH))(reader),
    "resume_table": many(marked(HANDLER)),
}


def shortest(op, text):
    reader = Reader(text)
    out = reader.take(1) + (short_unsigned(reader) if op.prefix in GROUPS else b"")
    for kind in op.immediates:
        out += SHORT[kind.split()[0]](reader)
    assert reader.at == len(text), (op.name, text.hex())
    return out


def rows():
    ops = {op.name: op for op in originals()}
    for task in samples():
        name = task.answer.split()[0]
        yield name, task.before, task.operator, task.behind, shortest(ops[name], task.operator)


def files():
    lines = ("\t".join([name, *(part.hex() for part in parts)]) for name, *parts in rows())
    return {"crates/wasm_tests_encode/stdin": "".join(f"{line}\n" for line in lines)}


if __name__ == "__main__":
    write_or_check(files(), arguments.read(__doc__, "--check").check, "tools/expected_writing.py")
