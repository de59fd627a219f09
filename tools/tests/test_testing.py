import time
import unittest
from unittest import mock

from shared.crates import TOP
from testing import items, outcome, pool, running, selftest
from testing.crates import Crates
from testing.programs import Builder
from tests import InFolder

CRATES = """\
# NAME: what it uses
low: bitflags
middle: low
library staticlib: middle
program: middle
"""


class InRepository(InFolder):
    def setUp(self):
        super().setUp()
        self.file("crates.txt", CRATES)
        for path in ("low/src/lib.rt", "middle/src/lib.rt", "library/src/lib.rt", "program/src/main.rt"):
            self.file(f"crates/{path}")


class Job:
    def __init__(self, name, *outcomes):
        self.items = [name, *[f"{name}/{number}" for number in range(1, len(outcomes))]]
        self.outcomes = outcomes

    def run(self, context, wanted):
        for item, found in zip(self.items, self.outcomes):
            if isinstance(found, Exception):
                raise found
            yield item, found, 1


class Finding(InRepository):
    def items(self, is_full=False):
        jobs = items.find_jobs(Crates(self.folder), is_full)
        return [it for job in jobs for it in job.items if it not in items.CHECKS]

    def test_items_by_files(self):
        self.assertEqual(self.items(), [])
        for path in ("stdout", "cases.tsv", "data/a.wasm"):
            self.file(f"crates/program/{path}")
        self.assertEqual(self.items(), ["program", "program/cases"])
        with mock.patch.dict(items.OVER_MODULES, {"program": ["wabt.py", "stored"]}):
            self.assertEqual(self.items(), ["program", "program/cases", "program/modules"])
            self.assertEqual(self.items(is_full=True)[-1], "program/allocations")

    def test_what_needs_the_library(self):
        self.file("crates.txt", CRATES + "wasm_c_exports staticlib: low\n")
        self.file("crates/wasm_c_exports/src/lib.rt")
        self.assertEqual(self.items(), [items.REPLAY, items.BLOCKS])

    def test_chosen(self):
        jobs = [Job("low", 1), Job("program", 1, 2, 3), Job("program_of_tests", 1)]
        self.assertEqual(items.chosen(jobs, [])[0], {"low", "program", "program/1", "program/2", "program_of_tests"})
        self.assertEqual(items.chosen(jobs, ["program"]), ({"program", "program/1", "program/2"}, []))
        self.assertEqual(items.chosen(jobs, ["program/2", "prog", "low"]), ({"program/2", "low"}, ["prog"]))


class Building(InRepository):
    def test_digest(self):
        digest = lambda: Builder(self.folder, Crates(self.folder), self.folder, self.folder, False).digest("program")
        first = digest()
        self.file("crates/library/src/lib.rt", "one")
        self.assertEqual(digest(), first)
        self.file("crates/low/src/lib.rt", "one")
        second = digest()
        self.assertNotEqual(second, first)
        self.file("crates.txt", CRATES.replace("low: bitflags", "low:"))
        self.assertNotEqual(digest(), second)


class Pool(unittest.TestCase):
    def test_longest_first(self):
        jobs = [Job("a", 1), Job("b", 1, 1), Job("new", 1), Job("d", 1)]
        known = {"a": 3, "b": 2, "b/1": 2, "d": 9}
        order = lambda wanted: [job.items[0] for job in pool.longest_first(jobs, known, wanted)]
        self.assertEqual(order({"a", "b", "b/1", "new", "d"}), ["new", "d", "b", "a"])
        self.assertEqual(order({"a", "b"}), ["a", "b"])

    def results(self, *jobs, count=2):
        wanted = {it for job in jobs for it in job.items}
        return {item: not faults for item, faults, _, _ in pool.results(jobs, None, wanted, count)}

    def test_results(self):
        self.assertEqual(self.results(Job("a", [], ["wrong"]), Job("b", [])), {"a": True, "a/1": False, "b": True})

    def test_a_job_that_breaks_down(self):
        found = self.results(Job("a", [], ValueError("no"), []), Job("b", []), count=1)
        self.assertEqual(found, {"a": True, "a/1": False, "a/2": False, "b": True})


class Reporting(unittest.TestCase):
    def test_cut(self):
        found = outcome.difference(b"a\nb\n", b"a", "stdout")
        self.assertEqual(found[:3], ["stdout, line 2:", "  expected 'b'", "  found    the end"])
        self.assertTrue(outcome.difference(b"a", b"a\n", "stdout"))


class Running(unittest.TestCase):
    def test_ends(self):
        ran = running.run(["sh", "-c", "cat; echo no >&2; exit 3"], 60, "/", env=running.PLAIN)
        self.assertEqual((ran.status, ran.out, ran.err, ran.failure(60)), (3, b"", b"no\n", "exit status 3"))
        self.assertIsNone(running.run(["true"], 60, "/").failure(60))
        self.assertIn("SIGSEGV", running.run(["sh", "-c", "kill -SEGV $$"], 60, "/").failure(60))

    def test_limit_ends_the_group(self):
        began = time.monotonic()
        ran = running.run(["sh", "-c", "sleep 100 & sleep 100"], 0.2, "/")
        self.assertEqual(ran.failure(0.2), "not finished after 0.2 s, killed")
        self.assertLess(time.monotonic() - began, 50)


class SelfTest(unittest.TestCase):
    def test_each_break_changes_its_file(self):
        crates = Crates(TOP)
        found = selftest.breaks(crates)
        jobs = items.find_jobs(crates, is_full=False)
        self.assertEqual({it.item for it in found}, {it for job in jobs for it in job.items})
        for broken in found:
            before = broken.path.read_text(encoding="utf-8") if broken.path.exists() else ""
            self.assertNotEqual(broken.change(before), before, broken.path)
