import unittest

from pages import rows, specs
from shared.crates import TOP
from tests import data

SPEC = data("words.antt.txt")


def file(text=SPEC, crate="wasm_low", name="Words"):
    return specs.File(crate, name, text)


def given(*lines):
    return rows.given_of("\n".join(["file\tnames\tsection\twords", *lines]))


class Specs(unittest.TestCase):
    def test_files_of_the_repository(self):
        found = specs.files_of(TOP)
        self.assertIn("Binary Format, Values, Integers", found["wasm_below", "Number"].section)
        names = specs.names_of(TOP)
        self.assertEqual(specs.file_at(names, "wasm_operators", ["below", "Source"]), ("wasm_below", "Source"))
        self.assertEqual(specs.file_at(names, "wasm_operators", ["Stack"]), ("wasm_operators", "Stack"))
        self.assertIsNone(specs.file_at(names, "wasm_operators", ["below", "declared", "error", "Error"]))
        self.assertIsNone(specs.file_at(names, "std", ["Prelude"]))


class Rows(unittest.TestCase):
    def test_comments_that_refer(self):
        self.assertEqual(rows.with_referred(file(), {"EncodesSigned"}), {"EncodesSigned", "Encodes"})
        self.assertEqual(rows.with_referred(file(), {"EncodesLong"}), {"EncodesLong", "Encodes"})
        self.assertEqual(rows.with_referred(file(), {"Kind", "Bare"}), {"Kind", "Bare"})

    def test_table(self):
        words = "wasm_low/Words\tBare, Lacks\t\tGiven words."
        lines = given(words, "wasm_low/Words\t\tStructure", "wasm_low/Words\tState\tValidation", "wasm_low/Words\tone_length\t\tas `State`")
        found = [rows.described(file(), name, lines) for name in ("Lacks", "Bare", "State", "Kind", "one_length")]
        of_state = ("The state.", "Validation")
        self.assertEqual(found, [("Given words.", "Structure")] * 2 + [of_state, ("A kind of number.", "Proposal threads."), of_state])

    def test_faults_of_the_table(self):
        long = "word " * rows.LIMIT
        texts = {"Long": long + "more.", "Fits": long[:-1] + "."}
        found = {("wasm_low", "Words"): file()}
        for name, text in texts.items():
            found["wasm_low", name] = file(f"-- Words.\n\n-- {text}\nabbrev pub It : Type 0\n", name=name)
        lines = given(
            "wasm_low/None\tBare",
            "wasm_low/Words\tBare, Lost",
            "wasm_low/Words\tBare\t\tWords.",
            "wasm_low/Words\tKind\t\tA kind of a number.",
            "wasm_low/Words\tKind\t\tA kind.",
            "wasm_low/Words\tKind\tProposal threads.",
            "wasm_low/Words\tState",
            f"wasm_low/Words\t\t{file().section}",
            "wasm_low/Long\tIt\t\tWords.",
            "wasm_low/Fits\tIt\t\tWords.",
            "wasm_low/Words\t\tStructure",
            "wasm_low/Fits\t\t",
        )
        faults = rows.faults_of(found, lines)
        words, section = "the comments have these words", "names this section"
        self.assertEqual([(it.number, what.split("; take")[0]) for it, what in faults], [
            (2, "there is no such file"),
            (3, "the file does not define Lost"),
            (6, words),
            (7, f"the file {section}"),
            (8, "it says nothing"),
            (9, f"the file {section}"),
            (11, words),
            (13, "it says nothing"),
        ])
