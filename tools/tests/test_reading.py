import re
import unittest

import expected_reading as reading
import expected_writing as writing
from original import FOLDER, originals
from printed_fields import printed_field_files
from shared.crates import TOP
from shared.leb128 import read
from table import table

ORIGINALS = originals()
REPLAY = TOP / "crates" / "wasm_tests_replay"


def prefix_and_code(operator):
    if f"{operator[0]:02x}" not in reading.GROUPS:
        return "", operator[0]
    return f"{operator[0]:02x}", read(operator, 1)[0]


class Samples(unittest.TestCase):
    def test_two_of_each_in_order(self):
        names = [task.answer.split()[0] for task in reading.samples()]
        self.assertEqual(names, [op.name for op in originals() for _ in range(2)])

    def test_opcodes_and_fields(self):
        for number, task in enumerate(reading.samples()):
            op = ORIGINALS[number // 2]
            self.assertEqual(prefix_and_code(task.operator), (op.prefix, op.code))
            names = re.findall(r" (\w+)=", task.answer)
            self.assertEqual(names, [name for name, _ in op.fields])


class Dumped(unittest.TestCase):
    names = [name for name, _ in reading.whole_body()]

    def test_each_operator(self):
        self.assertEqual({op.name for op in ORIGINALS}, set(self.names))
        self.assertEqual(reading.dumped()["crates/wasm_dump/stdin"][:3].hex(), "000001")

    def test_no_capacity_is_left_where_no_frame_opens(self):
        frames, capacity, full = 0, 0, set()
        for name in self.names:
            if name in ("Block", "Loop", "If", "Try", "TryTable"):
                frames += 1
                capacity = max(capacity, frames, 8)
            elif frames == capacity:
                full.add(name)
            frames -= name in ("End", "Delegate")
        self.assertEqual(frames, -1)
        self.assertEqual({op.name for op in ORIGINALS} - full, {"Block", "Loop", "If", "Try", "TryTable"})


class Printed(unittest.TestCase):
    def test_each_operator_with_fields_is_printed(self):
        text = "".join(printed_field_files(table()).values())
        for op in table():
            enum = "Operator" if op.group == "Own" else f"{op.group}Operator"
            self.assertEqual(len(re.findall(rf"\b{enum}::{op.name}\b", text)), 1 if op.fields else 0)


class Written(unittest.TestCase):
    def test_shortest_of_two_of_each(self):
        rows, ops = list(writing.rows()), {op.name: op for op in ORIGINALS}
        self.assertEqual([name for name, *_ in rows], [name for name in ops for _ in range(2)])
        for name, _, given, _, short in rows:
            self.assertLessEqual(len(short), len(given), name)
            self.assertEqual(writing.shortest(ops[name], short), short)


class Replay(unittest.TestCase):
    lines = (REPLAY / "stdin").read_text(encoding="utf-8").splitlines()

    def test_columns(self):
        sizes = {len(line.split("\t")) for line in self.lines}
        self.assertEqual(sizes, {15, 6})

    def test_samples_are_those_of_the_original(self):
        samples = [line for line in self.lines if len(line.split("\t")) == 6]
        self.assertEqual(samples, (FOLDER / "samples.tsv").read_text(encoding="utf-8").splitlines())

    def test_each_line_but_the_names_of_columns_is_a_case(self):
        names = [line for line in self.lines if line.split("\t")[1] == "features"]
        self.assertEqual(len(names), 2)
        wanted = f"{len(self.lines) - len(names)} cases, 0 differ\n"
        self.assertEqual((REPLAY / "stdout").read_text(encoding="utf-8"), wanted)
