import re
import tempfile
import unittest
from pathlib import Path

import expected_reading as reading
from changes import CHANGES
from original import differences, originals, proposals
from rules import faults
from shared import tables
from table import COLUMNS, PROPOSALS, TOP, Operator, rows_of, shared, table

SHARED = ("TypedSelect", "TypedSelectMulti")


def faults_with(change):
    rows = [list(cells) for cells in rows_of().values()]
    change(rows)
    with tempfile.TemporaryDirectory() as folder:
        path = Path(folder) / "operators.tsv"
        path.write_text("".join("\t".join(cells) + "\n" for cells in rows), encoding="utf-8")
        return [fault.removeprefix(f"{folder}/") for fault in faults(path)]


def cells_of(**row):
    return [row.get(column, "") for column in COLUMNS]


def line_of(rows, name):
    return next(at for at, cells in enumerate(rows) if cells[1] == name)


class Original(unittest.TestCase):
    def test_counts(self):
        found = {}
        for op in originals():
            found[op.proposal] = found.get(op.proposal, 0) + 1
        self.assertEqual(found, proposals())
        self.assertEqual(len(found), 19)
        self.assertEqual(len(originals()), 628)
        self.assertEqual(sum(op.is_simd for op in originals()), 256)
        self.assertEqual(tuple(proposals()), PROPOSALS)

    def test_codes_are_distinct_but_for_one_pair(self):
        found = {}
        for op in originals():
            found.setdefault((op.prefix, op.code), []).append(op.name)
        self.assertEqual([tuple(names) for names in found.values() if len(names) > 1], [SHARED])
        self.assertEqual(tuple(op.name for op in shared(table())), SHARED)

    def test_each_column_is_compared(self):
        for column, other in {
            "proposal": "gc", "text": "none", "visit": "visit_nip", "prefix": "fc", "code": "05", "fields": "mem: u32",
            "immediates": "unsigned", "signature": "[i32] -> []",
        }.items():
            ops = table()
            row = dict(zip(COLUMNS, rows_of()[3])) | {column: other}
            ops[1] = Operator([row[name] for name in COLUMNS], "tools/operators.tsv:3")
            with self.subTest(column):
                self.assertIn("tools/operators.tsv:3: Nop: ", differences(ops)[0])

    def test_more_less_and_order(self):
        ops = table()
        self.assertEqual(differences(ops[1:]), ["Unreachable: an operator of the original, and not in the table"])
        self.assertIn("order", differences([ops[1], ops[0], *ops[2:]])[0])
        more = Operator(rows_of()[2], "tools/operators.tsv:630")
        more.name = "Unheard"
        self.assertIn("no operator of the original", differences([*ops, more])[0])

    def test_swapped_codes(self):
        ops = table()
        add = next(op for op in ops if op.name == "I32Add")
        sub = next(op for op in ops if op.name == "I32Sub")
        add.code, sub.code = sub.code, add.code
        self.assertEqual(
            [fault.split(": ", 1)[1] for fault in differences(ops)],
            ["I32Add: code 6b, and in the original 6a", "I32Sub: code 6a, and in the original 6b"],
        )


# Changes of a row's cell, and what the error says.
WRONG = Path(__file__).with_name("wrong_operators.tsv")
VECTOR = {
    "proposal": "simd", "name": "V128More", "text": "v128.more", "visit": "visit_v128_more", "prefix": "fd",
    "code": "200", "signature": "[] -> []",
}


class Rules(unittest.TestCase):
    def test_each_error(self):
        for name, column, value, wanted in map(dict.values, tables.rows_of(WRONG)):
            line = 0

            def change(rows):
                nonlocal line
                at = line_of(rows, name)
                rows[at][COLUMNS.index(column)] = value
                line = at + 1

            with self.subTest(f"{name} {column} {value}"):
                found = faults_with(change)
                now = value if column == "name" else name
                self.assertTrue(found)
                self.assertTrue(all(it.startswith(f"operators.tsv:{line}: {now}: ") for it in found[:1]), found)
                self.assertTrue(any(wanted in fault for fault in found), found)

    def test_columns(self):
        found = faults_with(lambda rows: rows[0].reverse())
        self.assertEqual(found, [f"operators.tsv:1: the columns are {', '.join(COLUMNS)}"])
        found = faults_with(lambda rows: rows[3].pop())
        self.assertEqual(found, [f"operators.tsv:4: Block: {len(COLUMNS) - 1} columns, and not {len(COLUMNS)}"])
        found = faults_with(lambda rows: rows.insert(1, []))
        self.assertIn("operators.tsv:2: a row with no name: ", found[0])

    def test_only_two_share_a_code(self):
        one = {"text": "trial", "proposal": "mvp", "code": "16", "signature": "rule branch"}
        first = one | {"name": "TrialOne", "visit": "visit_trial_one", "fields": "ty: ValType", "immediates": "one_type"}
        second = one | {"name": "Trials", "visit": "visit_trials", "fields": "tys: SelectTypes", "immediates": "types"}

        def change(rows):
            rows.extend([cells_of(**first), cells_of(**second)])

        found = faults_with(change)
        self.assertEqual(len(found), 1)
        self.assertIn("Trials: the code is already used by TrialOne, line 630", found[0])

    def test_too_many_variants(self):
        def change(rows):
            rows.append(cells_of(**VECTOR))

        self.assertIn("has 257 variants", faults_with(change)[0])

    def test_lists_in_large_enums(self):
        def change(rows):
            rows[line_of(rows, "I8x16Add")] = cells_of(**VECTOR, fields="tys: SelectTypes", immediates="types")

        self.assertIn("an enum with a list has at most 128 variants", faults_with(change)[0])

    def test_all_faults_are_told(self):
        def change(rows):
            rows[1][0] = "mpv"
            rows[2][0] = "mpv"

        self.assertEqual(len(faults_with(change)), 2)


def lines_of(path):
    return (TOP / "crates" / path).read_text(encoding="utf-8").splitlines()


def by_name(path, definition):
    """Returns what a definition by cases gives for each operator with a case."""
    cases = (re.match(rf"{definition} \(?operator\.(\w+)[^=]*= (.*)", line) for line in lines_of(path))
    return {case[1]: case[2] for case in cases if case}


class Columns(unittest.TestCase):
    """Compares columns with definitions and expectations that are written by hand."""

    ops = table()

    def test_roles(self):
        wanted = {
            "Block": "opens block", "Loop": "opens loop", "TryTable": "opens try_table", "If": "opens_if", "Try": "opens_try",
            "Else": "turns_else", "Catch": "turns_catch", "CatchAll": "turns_catch_all", "Delegate": "delegates", "End": "ends",
        }
        self.assertEqual({op.name: op.role for op in self.ops if op.role}, wanted)

    def test_changes(self):
        cases = (re.match(r"change_of \(?(opens n|\w+)[^=]*= change\.(.*)", line) for line in lines_of("wasm_grammar/specs/Frames.antt"))
        changes = {case[1]: case[2].replace("frame.", "").split() for case in cases if case}
        self.assertEqual(changes.pop("plain"), ["Stays"])
        self.assertEqual(changes.pop("opens n"), ["Opens", "(kind_of_nest", "n)"])
        for role, change in CHANGES.items():
            word, *nest = role.split()
            self.assertEqual(list(change), ["Opens", nest[0].title().replace("_", "")] if nest else changes.pop(word))
        self.assertEqual(changes, {})

    def test_guards(self):
        cases = (re.match(r"guard_of \(?(\w+)[^=]*= Some guard\.(.*)", line) for line in lines_of("wasm_decode_opcodes/specs/Entry.antt"))
        guards = {case[1]: case[2] for case in cases if case}
        self.assertEqual({op.role: op.name for op in self.ops if op.has_guard}, guards)
        framed = [fields.split()[0] for _, fields, *_ in reading.FRAMED]
        self.assertEqual({op.name for op in self.ops if op.role.startswith(("turns", "delegates"))}, set(framed))

    def test_features(self):
        enabled = by_name("wasm_instr/specs/Encoding.antt", "IsEnabled f")
        wanted = {name: claim.removeprefix("HasFeature ").removesuffix(" f").upper() for name, claim in enabled.items()}
        self.assertEqual({op.name: op.feature for op in self.ops if op.feature}, wanted)
        self.assertEqual({op.text for op in self.ops if op.feature}, {name for _, name in reading.LEGACY})
