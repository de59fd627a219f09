import re
import unittest

from arms import unread
from immediates import COMBINATIONS, FORMS, KINDS, TYPES, WRITERS
from plain import number, unshaped
from table import COLUMNS, TOP, Operator, shared, table


def trial(**row):
    row = {"name": "Trial", "code": "ff", "signature": "[] -> []"} | row
    return Operator([row.get(column, "") for column in COLUMNS], "trial.tsv:7")


class Records(unittest.TestCase):
    ops = table()

    def test_types(self):
        types = {ty for kind in KINDS.values() for ty in kind.types}
        self.assertEqual(types, set(TYPES))
        self.assertEqual({ty for op in self.ops for _, ty in op.fields}, types)

    def test_each_kind_and_form_is_used(self):
        self.assertEqual({kind for op in self.ops for kind in op.kinds}, set(KINDS))
        self.assertEqual({form for op in self.ops for form in op.forms}, set(FORMS))

    def test_each_combination_is_used(self):
        self.assertEqual({op.kinds for op in self.ops}, set(COMBINATIONS))

    def test_a_value_for_each_field(self):
        for kinds, combination in COMBINATIONS.items():
            fields = [ty for kind in kinds for ty in KINDS[kind].types]
            self.assertEqual(len(combination.values), len(fields), kinds)
        for kind in FORMS.values():
            self.assertEqual(len(kind.taken), len(kind.types), kind.word)
            self.assertEqual(len(kind.visited), len(kind.types), kind.word)

    def test_shapes_have_the_numbers_of_the_header(self):
        header = (TOP / "c" / "include" / "wasm_operators.h").read_text(encoding="utf-8")
        shapes = re.findall(r"WASM_SHAPE_\w+ = (\d+)", header)
        numbers = [combination.number for combination in COMBINATIONS.values()]
        self.assertEqual(sorted(set(numbers)), [int(number) for number in shapes])
        self.assertEqual(numbers, sorted(numbers))
        self.assertEqual(len({(it.number, it.shape) for it in COMBINATIONS.values()}), len(shapes))

    def test_a_combination_without_a_record(self):
        for kinds in ("lane_index, lane_index", "table_index", "types, unsigned"):
            (found,) = unshaped([trial(immediates=kinds)])
            self.assertTrue(found.startswith("trial.tsv:7: Trial: its immediates have no shape"), found)

    def test_a_list_that_no_arm_reads(self):
        owning = {"fields": "tys: SelectTypes", "immediates": "types"}
        self.assertEqual(unread([trial(**owning)]), [])
        (found,) = unread([trial(**owning, prefix="fc")])
        self.assertTrue(found.startswith("trial.tsv:7: Trial: wasm_decode_groups has no arm for the immediates types"), found)
        self.assertEqual(len(unread([trial(fields="table: ResumeTable", immediates="resume_table")])), 1)

    def test_functions_exist(self):
        for path, names in {
            "wasm_view/src/shapes.rt": {it.shape for it in COMBINATIONS.values()},
            "wasm_text/src/operands.rt": {
                *WRITERS, *(kind.writer for kind in KINDS.values()), *(it.writer for it in COMBINATIONS.values() if it.writer),
            },
            "wasm_tests_texts/src/values.rt": {ty.printer for ty in TYPES.values()},
        }.items():
            source = (TOP / "crates" / path).read_text(encoding="utf-8")
            self.assertEqual({name for name in names if not re.search(rf"^pub fn {name}\(", source, re.M)}, set(), path)


class Plain(unittest.TestCase):
    def test_a_number_belongs_to_one_operator_but_for_the_two_of_a_select(self):
        ops = table()
        _, second = shared(ops)
        numbers = [number(op) for op in ops if op is not second]
        self.assertEqual(len(numbers), len(set(numbers)))
