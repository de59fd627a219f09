import re
import unittest
from pathlib import Path

import cargo
import clients
import header
from table import shared, table

TOP = Path(__file__).resolve().parent.parent.parent
HEADER = (TOP / header.PATH).read_text(encoding="utf-8")


class Bindings(unittest.TestCase):
    def test_a_program_on_wasmparser_names_no_other_crate(self):
        programs = sorted((TOP / "rust/programs").glob("*.rs"))
        self.assertGreater(len(programs), 2)
        for program in programs:
            text = program.read_text(encoding="utf-8")
            self.assertIn("use wasmparser::", text, program)
            self.assertNotIn("wasm_operators", text, program)

    def test_only_one_module_has_unsafe_code(self):
        sources = sorted((TOP / "rust/src").glob("*.rs"))
        found = [path.name for path in sources if "unsafe {" in path.read_text(encoding="utf-8")]
        self.assertEqual(found, ["native.rs"])

    def test_each_operator_is_converted_once(self):
        source = (TOP / "rust/src/operator.rs").read_text(encoding="utf-8")
        converted = re.findall(r"=> Operator::(\w+)", source)
        self.assertEqual(sorted(converted), sorted(op.name for op in table()))

    def test_each_field_is_described(self):
        self.assertEqual(cargo.FIELDS.keys(), {name for op in table() for name, _ in op.fields})

    def test_lists_replace_lists(self):
        lines = HEADER.splitlines(keepends=True)
        changed = [line for line in lines if "WASM_OP_Br" not in line and "case 0x" not in line]
        changed = "".join(changed).replace("WASM_LONGEST_NAME 29", "WASM_LONGEST_NAME 1").replace("TEXT_NAME 35", "TEXT_NAME 2")
        self.assertEqual(header.header(table(), changed), HEADER)
        with self.assertRaises(AssertionError):
            header.header(table(), HEADER.replace("enum wasm_proposal {", "enum proposal {"))

    def test_the_longest_names_have_room(self):
        self.assertIn(f"#define WASM_LONGEST_NAME {max(len(op.name) for op in table())}\n", HEADER)
        self.assertIn(f"#define WASM_LONGEST_TEXT_NAME {max(len(op.text) for op in table())}\n", HEADER)

    def test_meanings_of_fields(self):
        ops = table()
        told = {op.name: header.meanings(op, shared(ops)) for op in ops}
        self.assertEqual(told["Nop"], "")
        self.assertEqual(told["Br"], "first: label")
        self.assertEqual(told["MemoryCopy"], "first: target memory index; second: source memory index")
        self.assertEqual(told["ResumeThrow"], "first: continuation type index; second: tag index; third: number of clauses")
        self.assertIn("max_align: 3", told["I64Load"])
        self.assertIn("SELECT_MANY", told["TypedSelect"])
        without = [op.name for op in ops if op.immediates and not told[op.name]]
        self.assertEqual(without, [])

    def test_each_proposal_is_returned_once(self):
        returned = [line.strip() for line in HEADER.splitlines() if line.startswith("      return WASM_PROPOSAL_")]
        self.assertEqual(len(returned), len(set(returned)))

    def test_each_error_of_the_library_for_c_has_a_text(self):
        errors = re.findall(r"^  (WASM_REFUSED_\w+) = 1\d\d\b", HEADER, re.M)
        body = HEADER.split("wasm_c_error_text(uint32_t number) {")[1].split("\n}")[0]
        self.assertEqual(re.findall(r"case (\w+):\n      return \"", body), errors)

    def test_the_versions_are_one(self):
        library = (TOP / "crates/wasm_c/src/lib.rt").read_text(encoding="utf-8")
        crate = (TOP / "rust/src/native.rs").read_text(encoding="utf-8")
        versions = [
            HEADER.split("#define WASM_OPERATORS_VERSION ")[1].split("u\n")[0],
            library.split("const VERSION: u32 = ")[1].split(";")[0],
            crate.split("const VERSION: u32 = ")[1].split(";")[0],
        ]
        self.assertEqual(len(set(versions)), 1, versions)


class Clients(unittest.TestCase):
    def test_each_change_has_a_cause(self):
        rows = clients.changes()
        self.assertEqual({row["cause"] for row in rows} - set(clients.CAUSES), set())
        self.assertEqual({row["client"] for row in rows}, set(clients.PROGRAMS) - {"wasmparser"})

    def test_a_program_for_each_client(self):
        for source, *_ in clients.PROGRAMS.values():
            self.assertTrue((clients.CLIENTS / f"{source}.rs").is_file())
