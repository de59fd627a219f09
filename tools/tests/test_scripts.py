import io
import os
import unittest

import allocations
import cases
import definitions
import edges
import gate_table
import timed
from pages import specs
from shared.crates import TOP
from testing.over_libraries import loaded
from tests import InFolder, data

LOG = data("gate.log")


class GateTable(unittest.TestCase):
    def test_page(self):
        page = gate_table.page(LOG, "Alone.")
        self.assertIn("| `wasm_low` | 7 | 2.0 | 1.5 | 0.5 | 1 |", page)
        self.assertIn("| all | 7 | 2.0 | | 0.5 | 1 |", page)
        self.assertIn("took 2.1 minutes wall-clock on 4 processors, and 3.1 CPU minutes", page)
        self.assertIn("`2 passed, 1 failed`. Alone.\n", page)
        self.assertEqual(page.count("| all |"), 1)

    def test_ten_rows(self):
        log = "".join(f"== low{at}\nlogic=proved functions=2 x\ncost low{at} proof {60 * (at + 1)} 60\n" for at in range(12))
        section = gate_table.run_section(f"{log}cost all 60 60 4\n2 passed, 0 failed\n")
        self.assertIn("| `low2` | 2 | 3.0 | 1.0 |  |  |\n| 2 others | 4 | 3.0 |  |  |  |\n| all | 24 | 78.0 |", section)
        self.assertEqual(gate_table.chart(gate_table.read(log)[0]).count("<text"), 2 * 11 + 2)

    def test_of_two_runs(self):
        behind = "cost wasm_low proof 60 30\ncost all 60 60 4\n3 passed, 0 failed\n"
        crates, whole, last = gate_table.read(LOG + LOG + behind)
        once, before, _ = gate_table.read(LOG)
        self.assertEqual(whole, (2 * before[0] + 60, 2 * before[1] + 60, 4))
        self.assertEqual(last, "3 passed, 0 failed")
        for name, crate in once.items():
            self.assertEqual(crates[name].edits, crate.edits)
            for part, seconds in crate.processor.items():
                more = 60 if (name, part) == ("wasm_low", "proof") else 0
                self.assertEqual(crates[name].processor[part], 2 * seconds + more)


class Timed(unittest.TestCase):
    def test_own_process_is_below_its_parent(self):
        self.assertIn(os.getpid(), timed.below(os.getppid()))
        self.assertNotIn(os.getpid(), timed.below(os.getpid()))

    def test_lines(self):
        costs = timed.Costs()
        for key, part, processor, wall in ((1, "proof", 3.2, 2), (2, "proof", 1.1, 4), (3, "edits", 5, 6)):
            costs.of[key], costs.processor[key] = ("wasm_low", part), processor
            costs.first[key], costs.last[key] = 0, wall
        self.assertEqual(costs.lines(), ["cost wasm_low edits 5 6", "cost wasm_low proof 4 6"])


class Progress(unittest.TestCase):
    def test_lines(self):
        out, now = io.StringIO(), [0]
        progress = timed.Progress(3, 70.4, clock=lambda: now[0], out=out)
        now[0] = 65
        progress.begun([("wasm_low", "proof")])
        for line in LOG.splitlines(keepends=True):
            now[0] += 60
            progress.passed_on(line)
        progress.begun([("wasm_low", "proof"), ("wasm_low", "edits")])
        told = [line for line in out.getvalue().split("\n") if line.startswith("[")]
        self.assertEqual(told, [
            "[0/3, 1 min of about 70] wasm_low: proof begins",
            "[1/3, 4 min of about 70] wasm_low: proved",
            "[1/3, 11 min of about 70] wasm_low: must-fail edits begin",
        ])
        # the command's output is unchanged, and gives the same table
        kept = "".join(line for line in out.getvalue().splitlines(keepends=True) if not line.startswith("["))
        self.assertEqual(kept, LOG)
        self.assertEqual(gate_table.run_section(out.getvalue()), gate_table.run_section(LOG))

    def test_expected_minutes(self):
        page = gate_table.page(LOG)
        self.assertAlmostEqual(timed.expected_minutes(page, 4), 2.1)
        self.assertAlmostEqual(timed.expected_minutes(page, 2), 4.2)
        self.assertAlmostEqual(timed.expected_minutes(page, 8), 2.1)
        self.assertIsNone(timed.expected_minutes("no minutes", 4))


LISTED = {"low": ["kit"], "middle": ["low"], "high": ["middle", "low"], "tests": ["high"]}


class Edges(unittest.TestCase):
    def test_unlisted(self):
        texts = {"low": "use kit::It;", "middle": "use low::It;", "high": "// kit::It\nuse Rattle.low.specs.It\n", "tests": "use high::It;"}
        listed = {"low": ["kit"], "middle": ["low"], "high": ["middle"], "tests": ["high"]}
        self.assertEqual(list(edges.unlisted(listed, texts)), [
            "crates.txt: high lists middle, which none of its files names",
            "crates.txt: high does not list low, which it names",
        ])

    def test_passed_on(self):
        texts = {"low": "pub use own::It;\n", "middle": "pub use low::It;\n", "high": "pub use Rattle.low.specs as low\n", "wasm_c": "pub use low::It;\n"}
        self.assertEqual(list(edges.passed_on(dict.fromkeys(texts, []), texts)), [
            "middle re-exports names of low: name them by low",
            "high re-exports names of low: name them by low",
        ])

    def test_cited(self):
        text = "use Rattle.low.proofs.of_kit.Words.{word}\n-- Rattle.middle.proofs.Other\nuse Rattle.std.proofs.Lists.{it}\n"
        self.assertEqual(edges.cited(text, "tests", LISTED), {"low.proofs.of_kit.Words.word"})
        self.assertEqual(edges.cited(text, "low", LISTED), set())
        several = "use Rattle.low.proofs.Words.{word, other as it}\nuse Rattle.low.proofs.Sums as sums"
        self.assertEqual(edges.cited(several, "tests", LISTED), {"low.proofs.Words.word", "low.proofs.Words.other", "low.proofs.Sums"})


class Cases(InFolder):
    def ended(self, script, **row):
        return cases.ended(self.program(f"#!/bin/sh\n{script}\n"), {"words": "", "input": "", "output": "", **row})

    def test_words(self):
        self.assertEqual(cases.words_of('all "" A|\\xff\\xc3'), [b"all", b"", b"A|\xff\xc3"])
        self.assertEqual(self.ended('printf "$# %s" "$2" | od -An -tx1', words='"" \\xff'), ("0", " 32 20 ff\\n", ""))

    def test_input(self):
        self.assertEqual(self.ended("cat", input="6f6e65"), ("0", "one", ""))
        self.assertEqual(self.ended("cat 2>/dev/null", input="unreadable")[0], "1")

    def test_full_device(self):
        status, wrote, _ = self.ended("echo one 2>/dev/null", output="unwritable")
        self.assertEqual((status != "0", wrote), (True, "unwritable"))

    def test_closed_pipe(self):
        self.assertEqual(self.ended("trap '' PIPE; echo one 2>/dev/null || exit 7", output="closed"), ("7", "closed", ""))


class Allocations(InFolder):
    def test_ends_of_rows(self):
        plain = (0, b"312 rows, 0 differ\nmore: 0 differ\n", b"")
        one_less = (0, b"312 rows, 0 differ, 1 out of memory\nmore: 0 differ\n", b"")
        unread = [(1, b"", b"the rows could not be read: out of memory\n"), (1, b"the rows could not be read\n", b"")]
        for ended in (plain, one_less, *unread):
            self.assertTrue(allocations.is_end_of_rows(ended, plain), ended)
        for wrote in (b"312 rows, 1 differ\n", b"312 rows, 0 differ, 2 out of memory\n", b"311 rows, 0 differ\n", b""):
            self.assertFalse(allocations.is_end_of_rows((0, wrote + b"more: 0 differ\n", b""), plain), wrote)
        for ended in ((1, *plain[1:]), (2, *plain[1:]), (-6, b"", b""), (None, b"", b""), (0, *unread[0][1:])):
            self.assertFalse(allocations.is_end_of_rows(ended, plain), ended)
        no_rows = (0, b"more: 0 differ\n", b"")
        self.assertFalse(allocations.is_end_of_rows(no_rows, no_rows))

    def test_program_of_rows(self):
        self.file("refused", "rows\n")
        self.file("stdout.short", "7 rows, 0 differ\n")
        # (it allocates twice if the argument is `short`, first to read the rows)
        counts_rows = data("rows.sh")
        for text, is_well in ((counts_rows, True), (counts_rows.replace("0 differ", "1 differ"), False)):
            count, wrong = allocations.follow_program(self.program(text), self.folder, "")
            self.assertEqual((count, not wrong), (2, is_well))


SOURCE = data("contracts.rt.txt")
# What the names in `specs` of two crates lead to.
NAMES = {"wasm_low": {"Words": None, "base": ("wasm_base", [])}, "wasm_base": {"Source": None}}


class Definitions(unittest.TestCase):
    def test_imports(self):
        words = definitions.imports_of(SOURCE, NAMES)
        self.assertEqual(words["Brief"], ("wasm_low", "Words", "Long"))
        self.assertEqual(words["Reader"], ("wasm_base", "Source", "Reader"))
        self.assertEqual(set(words), {"Encodes", "Hidden", "Brief", "Reader"})

    def test_contracts(self):
        found = {name: clauses for name, clauses in definitions.contracts(SOURCE)}
        self.assertEqual(set(found), {"read", "of"})
        self.assertIn("Brief", found["read"])
        self.assertIn("Encodes n", found["read"])
        self.assertNotIn("Hidden", found["read"])
        self.assertIn("Encodes", found["of"])

    def test_wanting(self):
        low = specs.File("wasm_low", "Words", "-- Words.\n\n-- The first.\nabbrev pub First : Type 0\n\nabbrev pub Second : Type 0\n")
        users = {"First": "read", "Second": "write", "Third": "end"}
        found = {("wasm_low", "Words", name): f"code.rt, {user}" for name, user in users.items()}
        files = {("wasm_low", "Words"): low}
        known, faults = definitions.wanting(files, [], found)
        own = [(low, "First")]
        self.assertEqual(known, own)
        for name, wanted in {"First": own, "wasm_low": own, "wasm_low/Words": own, "wasm_low/Other": [], "Second": [(low, "Second")]}.items():
            self.assertEqual(definitions.meant(files, known, name), wanted, name)
        self.assertEqual(faults, [
            "wasm_low/Words.antt does not define Third, used by code.rt, end",
            "no comment describes Second (wasm_low/Words.antt), used by code.rt, write",
        ])


class Run(unittest.TestCase):
    def test_each_says_what_it_does(self):
        run = loaded(TOP / "tools/run")
        found = run.commands()
        self.assertTrue({"lists", "gate", "touches", "bench"} <= set(found))
        for name, path in found.items():
            with self.subTest(name):
                self.assertTrue(os.access(path, os.X_OK))
                self.assertTrue(run.line_of(path).endswith("."))
        self.assertTrue({"edits", "lists", "cases", "compactions", "blocks"} <= run.of_gate(found))
        self.assertFalse({"large", "bench", "clients"} & run.of_gate(found))


class Touches(unittest.TestCase):
    def test_names_it(self):
        touches = loaded(TOP / "tools/touches")
        source = touches.names_it(TOP / "crates" / "wasm_below" / "specs" / "Source.antt", "wasm_below")
        for line in ("use Rattle.wasm_below.specs.Source.{rest}", "ghost use Rattle.wasm_operators.specs.below.Source.{rest};"):
            self.assertTrue(source.search(line), line)
        self.assertIsNone(source.search("use Rattle.wasm_imm.specs.Sources.{rest}"))
        steps = touches.names_it(TOP / "crates" / "wasm_below" / "proofs" / "Steps.antt", "wasm_below")
        self.assertTrue(steps.search("use Rattle.wasm_below.proofs.Steps.{unsigned_some}"))
