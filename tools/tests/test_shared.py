import contextlib
import io
import unittest
from pathlib import Path

from shared import arguments, crates

DOC = "Does it.\n\n    tools/it.py 100%\n"


class Arguments(unittest.TestCase):
    def read(self, *words):
        return arguments.read(DOC, "--check", "--count N", "--to DIR", "NAME..", words=words)

    def test_read(self):
        given = self.read("--count", "3", "--to", "a", "low", "high")
        self.assertEqual((given.check, given.count, given.to, given.names), (False, 3, Path("a").absolute(), ["low", "high"]))
        given = self.read("low", "--to", "a", "high")
        self.assertEqual((given.to, given.names), (Path("a").absolute(), ["low", "high"]))
        given = self.read("--check")
        self.assertEqual((given.check, given.count, given.names), (True, None, []))
        self.assertIsNone(arguments.read(DOC, "[FILE]", words=[]).file)

    def ended(self, *words):
        with contextlib.redirect_stdout(io.StringIO()) as out, contextlib.redirect_stderr(io.StringIO()) as err:
            with self.assertRaises(SystemExit) as end:
                self.read(*words)
        return end.exception.code, out.getvalue(), err.getvalue()

    def test_help(self):
        self.assertEqual(self.ended("--help"), (0, DOC, ""))

    def test_wrong(self):
        for word in ("--other", "--chec", "--count"):
            status, out, err = self.ended(word)
            self.assertEqual((status, out), (2, ""))
            self.assertTrue(err.startswith(DOC) and word in err)


class CratesTxt(unittest.TestCase):
    def test_listed(self):
        listed = crates.listed("# NAME: those\nlow: kit # for it\nhigh staticlib: low\ntop: high low\n\n")
        self.assertEqual(listed, {"low": ["kit"], "high": ["low"], "top": ["high", "low"]})
        self.assertEqual(crates.below(listed, "top"), ["low", "high"])
