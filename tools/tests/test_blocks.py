import unittest

import blocks
import contracts
from pages.blocks import EXCEPTED, Block, blocks_of
from tests import InFolder, data

PAGE = data("page.txt")


class Finding(unittest.TestCase):
    def test_blocks(self):
        found, commands = blocks_of(PAGE)
        self.assertEqual([(it.line, it.text) for it in found],
                         [(3, "one\ntwo\n"), (10, "int a;\n  int b;\n"), (17, "first\n\nsecond\n")])
        self.assertEqual([it.text for it in commands], ["rt version", "tools/run edges", "tools/test"])
        self.assertTrue(EXCEPTED.match("tools/test"))
        self.assertFalse(EXCEPTED.match("tools/run edges"))

    def test_what_the_table_lacks(self):
        row = lambda first, check: blocks.Row(f"page\t{first}\t{check}\t")
        found, commands = blocks_of(PAGE)
        given = [row("one", "shell"), row("int a;", "c"), row("first", "output"), row("rt version", "command"), row("tools/run edges", "command")]
        self.assertEqual(list(blocks.unknown("page", found, commands, given)), [])
        self.assertIn("page:10: ", next(blocks.unknown("page", found, commands, [given[0], *given[2:]])))
        self.assertIn("the command rt version", next(blocks.unknown("page", found, commands, given[:3] + given[4:])))
        self.assertEqual(list(blocks.unknown("page", found[:2], commands, given)), ["page has no block first"])

    def test_what_runs_elsewhere(self):
        self.assertTrue(blocks.is_run_elsewhere("tools/test      # all"))
        self.assertTrue(blocks.is_run_elsewhere("(cd crates/wasm_objdump && rt try -- data/gcd.wasm)"))
        self.assertFalse(blocks.is_run_elsewhere("(cd crates/wasm_objdump && rt try -- data/no.wasm)"))
        self.assertFalse(blocks.is_run_elsewhere("cargo new first"))

    def test_a_part_of_the_first_program(self):
        row = blocks.Row("page\t\tpart\tcrates/wasm_operators/CALLING.md")
        self.assertIsNone(blocks.shown("page", Block(1, "use std::alloc::Global;\n\nfn main(rt: HostRuntime) -> io::Result<()> {\n"), row))
        self.assertIn("use std::fmt;", blocks.shown("page", Block(1, "use std::fmt;\n"), row))

    def test_only_proved_code_is_shown(self):
        block = Block(1, "fn no_such_function()")
        self.assertIn("does not have", blocks.shown("page", block, blocks.Row("page\t\theld\tcrates/uses/src/list.rt")))
        self.assertIn("is in no crate", blocks.shown("page", block, blocks.Row("page\t\theld\tcrates/other/src/list.rt")))


class Contracts(InFolder):
    PAGE = "<!-- contracts\nlow/src/lib.rt Reader: next\n-->\n\n```text\nold\n```\n"
    QUOTE = """\
fn Reader::next(&mut self, limit: usize) -> Result<u8> where Self: Sized
  requires: limit < 3
  ensures value: IfOk result (λ b. { b } ≡ S.bytes)
  ensures: S' ≡ S
"""

    def setUp(self):
        super().setUp()
        self.file("crates/low/src/lib.rt", data("reader.rt.txt"))

    def test_quote(self):
        text, count = contracts.with_quotes(self.PAGE, self.folder)
        self.assertEqual((text, count), (self.PAGE.replace("old\n", self.QUOTE), 1))
        self.assertEqual(contracts.with_quotes(text, self.folder)[0], text)

    def test_what_cannot_be_quoted(self):
        for names in ("low/src/lib.rt Reader: gone", "low/src/lib.rt Reader: unsaid", "low/src/gone.rt Reader: next"):
            with self.assertRaises(contracts.Wrong):
                contracts.quoted(names, self.folder)
