import re
import unittest

import c_answers
import exports
import unproved_library
from paths import TOP


def words(text):
    # (a list on several lines ends with a comma)
    return re.findall(r"\w+|[^\w\s]", re.sub(r",(\s*[)\]}])", r"\1", text))


class Exports(unittest.TestCase):
    sources = exports.sources()
    library = "".join(sources.values())
    written = (TOP / exports.EXPORTS).read_text(encoding="utf-8")

    def test_they_are_the_functions_of_the_library(self):
        self.assertEqual(words(self.written), words(exports.exports_of(self.sources)))

    def test_each_calls_its_function(self):
        _, *parts = self.written.split('#[unsafe(no_mangle)]\npub extern "C" fn ')
        self.assertEqual([it.split("(")[0] for it in parts], re.findall(r"^pub fn (\w+)", self.library, re.M))
        for part in parts:
            name, parameters = part.split(")")[0].split("(")
            arguments = [it.split(":")[0].strip() for it in parameters.split(",") if it.strip()]
            body = part.split("\n{\n")[1].split("\n}\n")[0]
            crate = next(crate for crate, text in self.sources.items() if f"pub fn {name}(" in text)
            self.assertEqual(words(body), words(f"{crate}::{name}({', '.join(arguments)})"), name)

    def test_the_header_declares_them(self):
        header = (TOP / "c/include/wasm_operators.h").read_text(encoding="utf-8")
        declared = re.findall(r"^(?:uint32_t|size_t) (wasm_\w+)\([^{;]*\);", header, re.M)
        self.assertEqual(sorted(declared), sorted(re.findall(r"^pub fn (\w+)", self.library, re.M)))


class Answers(unittest.TestCase):
    answers = c_answers.ANSWERS.read_text(encoding="utf-8")

    def test_files(self):
        for name, text in c_answers.files_of(self.answers).items():
            self.assertEqual((c_answers.CRATE / name).read_text(encoding="utf-8"), text, f"{name}: run tools/c_answers.py")

    def test_each_refusal_is_taken(self):
        bodies, _ = c_answers.rows(self.answers)
        self.assertEqual({row["E"] for row in c_answers.taken(bodies)}, {row["E"] for row in bodies})


class Unproved(unittest.TestCase):
    def test_program_calls_each_export(self):
        program, names = unproved_library.program_of((TOP / exports.EXPORTS).read_text(encoding="utf-8"))
        self.assertEqual(names, re.findall(r"^pub fn (\w+)", Exports.library, re.M))
        self.assertNotRegex(program, r"ensures|ghost|[≡→]")
        main = program.split("fn main")[1]
        for name in names:
            self.assertEqual(main.count(f" {name}("), 1, name)
