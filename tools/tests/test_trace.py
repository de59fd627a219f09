"""Checks the functions that docs/ARCHITECTURE.md lists for one body: each is defined, and an earlier one calls it."""

import re
import unittest

from paths import TOP

PAGE = (TOP / "docs/ARCHITECTURE.md").read_text(encoding="utf-8")
SECTION = PAGE.split("## One body, function by function\n", 1)[1].split("\n## ", 1)[0]
# What the caller of the library calls, in this order.
CALLER = ["BinaryReader::new_features", "FunctionBody::new", "FunctionBody::get_operators_reader", "eof", "read", "finish"]


def steps():
    """Returns the file and the name of each function of the table, in order."""
    rows = [[cell.strip() for cell in line[1:-1].split("|")] for line in SECTION.split("\n") if ".rt`|" in line]
    return [(cells[1].strip("`"), name) for cells in rows for name in re.findall(r"`([^`]+)`", cells[2])]


def block(text, start):
    """Returns the text from `start` to the end of the block that begins there, without comments."""
    depth = 0
    for at in range(text.index("{\n", start), len(text)):
        depth += {"{": 1, "}": -1}.get(text[at], 0)
        if depth == 0:
            return re.sub(r"//[^\n]*", "", text[start : at + 1])
    return text[start:]


def definitions(file, name):
    """Returns the definitions of a function in a file: `name`, or `Type::name` in an impl of the type."""
    text = (TOP / "crates" / file).read_text(encoding="utf-8")
    kind, _, alone = name.rpartition("::")
    for found in re.finditer(rf"^( *)(?:pub(?:\(\w+\))? )?fn {alone}\b", text, re.M):
        heads = re.findall(r"^impl[^\n]*", text[: found.start()], re.M)
        if not kind or (found[1] and heads and re.search(rf"\b{kind}\b", heads[-1])):
            yield block(text, found.start())


def calls(body, name):
    kind, _, alone = name.rpartition("::")
    # a capital letter is a type parameter
    before = rf"(?:\.|\b(?:{kind}|Self|[A-Z])::|<{kind} as [^;]*>::)" if kind else r"(?:\.|::|\b)"
    return re.search(rf"{before}{alone}(?:::<[^>]*>)?\(", body.split("{\n", 1)[-1]) is not None


class Trace(unittest.TestCase):
    def test_each_function_is_defined_and_called(self):
        waiting, earlier = list(CALLER), []
        for file, name in steps():
            here = list(definitions(file, name))
            self.assertTrue(here, f"{file} does not define {name}")
            if waiting and name == waiting[0]:
                waiting.pop(0)
            else:
                self.assertTrue(any(calls(body, name) for body in earlier), f"no earlier function calls {name} ({file})")
            earlier += here
        self.assertEqual(waiting, [])

    def test_numbers_of_the_page(self):
        files = {file for file, _ in steps()}
        self.assertIn(f"{len(steps())} functions in {len(files)} files", SECTION)
