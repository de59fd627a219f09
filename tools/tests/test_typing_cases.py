import unittest
from collections import Counter

import typing_cases as typing
from shared.crates import TOP
from tests import InFolder
from typing_cases import Case

HEAD = bytes.fromhex("0061736d01000000")
CASES = [
    Case("Nop", "ok", "valid", "", "", HEAD + b"\x01\x02\x03"),
    Case("Nop", "more", "invalid", "0x9", "type mismatch: a", HEAD + b"\x01\x02\x04\x03"),
    Case("Drop", "more", "invalid", "0x9", "type mismatch: b", HEAD),
    Case("Try", "ok", "unsupported", "0x8", "not enabled", HEAD + b"\x01"),
]


class Table(unittest.TestCase):
    def test_the_cases(self):
        cases = typing.cases_of()
        self.assertEqual(Counter(it.verdict for it in cases), {"invalid": 5835, "valid": 1421, "unsupported": 68})
        for it in cases:
            self.assertTrue(it.module.startswith(HEAD))
            self.assertFalse(it.verdict == "valid" and it.offset)
            self.assertFalse(it.verdict == "invalid" and not it.message)

    def test_rows_of_the_checker(self):
        """A row of wasm_tests_check has the verdict of its case, and a body of its module."""
        cases = {f"{it.name}, {it.label}": it for it in typing.cases_of()}
        text = (TOP / "crates/wasm_tests_check/stdin").read_text(encoding="utf-8")
        rows = [line.split("\t") for line in text.splitlines()]
        by_hand = [cells for cells in rows if cells[0] not in cases]
        self.assertEqual({cells[0].split(", ")[0] for cells in by_hand}, {"locals", "constant"})
        self.assertEqual((len(rows), len(by_hand)), (6123, 26))
        for cells in (it for it in rows if it[0] in cases):
            case = cases[cells[0]]
            self.assertEqual(cells[-1], "valid" if case.is_valid else "invalid", cells[0])
            self.assertIn(bytes.fromhex(cells[-2]), case.module, cells[0])


class Compared(InFolder):
    def found(self, text, messages=False):
        return typing.compared(self.program(f"#!/usr/bin/env python3\nimport sys\n{text}"), CASES, messages)

    def test_same_and_different(self):
        says = {"00001.wasm": "0x9 (function 0): type mismatch: c", "00002.wasm": "0x8: type mismatch: b", "00003.wasm": "0x7: no"}
        said = "    if it in says: print(f'{it}: error at {says[it]}')"
        text = f"says = {says}\nfor it in sys.argv[1:]:\n{said}\nsys.exit(1)\n"
        (found,) = self.found(text)
        self.assertIn("Drop, more: invalid (0x9 type mismatch: b), and 0x8 type mismatch: b by the program", found)
        self.assertEqual([it.split(":")[0] for it in self.found(text, True)], ["Nop, more", "Drop, more", "Try, ok"])

    def test_a_wrong_verdict(self):
        self.assertEqual([it.split(":")[0] for it in self.found("")], ["Nop, more", "Drop, more", "Try, ok"])
