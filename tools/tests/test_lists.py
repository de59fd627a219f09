import tempfile
import unittest
from pathlib import Path

import layout
from counts import wrong_counts
from immediates import KINDS
from lists import files, left_over
from rules import faults
from shared.written import stale
from table import COLUMNS, HEAD, rows_of, table
from templates import FOLDER
from tests import InFolder

# Prefix byte and proposal of the groups that may grow. There are 256 SIMD operators already.
GROUPS = {"Own": ("", "mvp"), "Gc": ("fb", "gc"), "Misc": ("fc", "bulk_memory"), "Atomic": ("fe", "threads")}
FREE = {"Own": iter([0x16, 0x17, 0x1D, 0x1E, 0x27, *range(0xC5, 0xD0), *range(0xD7, 0xE0), *range(0xE7, 0xFB)])}


def cells_of(**row):
    row.setdefault("text", "trial")
    return [row.get(column, "") for column in COLUMNS]


def row_of(kind, group, number):
    prefix, proposal = GROUPS[group]
    types = KINDS[kind].types
    fields = ", ".join(f"{'abc'[at]}_field: {ty}" for at, ty in enumerate(types))
    code = next(FREE["Own"]) if group == "Own" else 0x100 + number
    immediate = "memory Plain 2" if kind == "memory" else kind
    name = f"Trial{group}{kind.title().replace('_', '')}"
    return cells_of(
        proposal=proposal, name=name, visit=f"visit_trial_{group.lower()}_{kind}", prefix=prefix,
        code=f"{code:02x}", fields=fields, immediates=immediate, signature="rule branch",
    )


def text_of(*rows):
    lines = [*rows_of().values(), *rows]
    return "".join("\t".join(cells) + "\n" for cells in lines)


def files_with(*rows):
    with tempfile.TemporaryDirectory() as folder:
        path = Path(folder) / "operators.tsv"
        path.write_text(text_of(*rows), encoding="utf-8")
        found = faults(path)
        assert not found, found
        return files(table(path))


@unittest.skipUnless(layout.is_here(), "rt, which lays files out, is not on this machine")
class Generated(unittest.TestCase):
    def test_each_kind_in_each_group(self):
        rows = [
            row_of(kind, group, number)
            for group in GROUPS
            for number, kind in enumerate(KINDS)
            if kind != "branch_table"
        ]
        out = files_with(*rows)
        self.assertEqual(layout.laid_out(out), out)
        for group, (prefix, _) in GROUPS.items():
            crate = "wasm_instr" if group == "Own" else "wasm_instr_ops"
            module = "operator" if group == "Own" else group.lower()
            source = out[f"crates/{crate}/src/{module}.rt"]
            specs = out[f"crates/{crate}/specs/{'Row' if group == 'Own' else group}.antt"]
            for kind in KINDS:
                if kind != "branch_table":
                    name = f"Trial{group}{kind.title().replace('_', '')}"
                    with self.subTest(name):
                        self.assertIn(f'"{name}"', source)
                        self.assertIn(f'= codes "{name}"', specs)
            self.assertIn("a_field: a_field.clone(alloc)?", source)
            self.assertIn("(select.One a_field) ∷ []", specs)
            self.assertIn("TheVariants as select", specs)
            if group != "Own":
                lemmas = out[f"crates/{crate}/proofs/{group}ByOpcode.antt"]
                self.assertIn(f"(λ is. {module}.Trial{group}Cast (depth_in is) (from_in is) (to_in is)) ∷", lemmas)
                self.assertIn(f"(λ is. {module}.Trial{group}Types (types_in is)) ∷", lemmas)

    def test_lists_in_an_inner_enum(self):
        row = row_of("types", "Misc", 0)
        out = files_with(row)
        source = out["crates/wasm_instr_ops/src/misc.rt"]
        self.assertIn("#[derive(Drop, Debug, PartialEq, Eq)]", source)
        self.assertIn("pub fn clone(&self, alloc: Global) -> Result<MiscOperator>", source)
        self.assertIn("misc_holds_list self.now × IsOutOfMemoryAt 0 e", source)
        self.assertIn("misc_holds_list (misc.TrialMiscTypes _) = Unit {0}", out["crates/wasm_instr_ops/specs/Misc.antt"])
        whole = out["crates/wasm_instr/src/operator.rt"]
        self.assertIn("Operator::Misc(op) => Operator::Misc(op.clone(alloc)?)", whole)
        self.assertIn("Operator::Gc(op) => Operator::Gc(*op)", whole)

    def test_rule_in_another_group(self):
        row = row_of("unsigned", "Misc", 0)
        out = files_with(row)
        specs = out["crates/wasm_instr/specs/FixedArity.antt"]
        self.assertIn("misc_pair : MiscOperator → Option (ℕ × ℕ)", specs)
        self.assertIn("misc_pair (misc.TrialMiscUnsigned _) = None", specs)
        self.assertIn("fixed_arity (operator.Misc op) = misc_pair op", specs)
        source = out["crates/wasm_instr/src/fixed_arity.rt"]
        self.assertIn("Operator::Misc(op) => misc_fixed_arity(op)", source)

    def test_long_names(self):
        long = "VeryLongNameOfAnOperatorThatNoLineOfOneHundredColumnsHasRoomForWithAllOfItsFields"
        row = cells_of(
            proposal="bulk_memory", name=long, visit=f"visit_{long.lower()}", prefix="fc", code="100",
            fields="first_long_field: u32, second_long_field: MemArg, third_long_field: Ordering",
            immediates="unsigned, memory Plain 2, ordered", signature="[i32] -> [i32]",
        )
        out = files_with(row)
        self.assertEqual(layout.laid_out(out), out)
        self.assertIn(f"    {long} {{\n        first_long_field: u32,\n", out["crates/wasm_instr_ops/src/misc.rt"])


class Checked(InFolder):
    def test_check_compares_bytes(self):
        (self.folder / "a.rt").write_bytes(b"one\r\ntwo\r\n")
        self.file("b.rt", "é\n")
        self.assertEqual(stale({"a.rt": "one\ntwo\n", "b.rt": "é\n", "c.rt": ""}, self.folder), ["a.rt", "c.rt"])

    def test_files_left_over(self):
        for name, text in {"new": f"// {HEAD}\n", "old": f"// {HEAD}\n", "own": "//! By hand.\n"}.items():
            self.file(f"crates/wasm_low/src/{name}.rt", text)
        self.assertEqual(left_over({"crates/wasm_low/src/new.rt": ""}, self.folder), ["crates/wasm_low/src/old.rt"])

    def test_a_count_that_is_no_more(self):
        self.file("README.md", "All 628 operators,\n255 SIMD operators of 20 proposals, 627 visits.\n")
        found = lambda ops: [it.split(": ")[1] for it in wrong_counts(ops, self.folder)]
        self.assertEqual(found(table()), ["255 SIMD operators", "20 proposals"])
        more = found([*table(), table()[0]])
        self.assertEqual(more, ["628 operators", "255 SIMD operators", "20 proposals", "627 visits"])


class Templates(unittest.TestCase):
    def test_each_is_filled_in(self):
        generators = "".join(path.read_text(encoding="utf-8") for path in FOLDER.parent.glob("*.py"))
        for path in FOLDER.rglob("*.template"):
            self.assertIn(f'"{path.relative_to(FOLDER).with_suffix("")}"', generators)

    def test_rt_ci_takes_the_names(self):
        top = FOLDER.parents[2]
        sources = [it for suffix in ("rt", "antt") for folder in ("tools", "docs") for it in (top / folder).rglob(f"*.{suffix}")]
        self.assertEqual(sources, [])
