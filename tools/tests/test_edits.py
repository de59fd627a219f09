import io
import os
from contextlib import redirect_stdout
from unittest import mock

import edits
import tests_catch
from tests import InFolder, data

SOURCE = "fn low() -> u8 {\n    1\n}\n\nfn high() -> u8 {\n    1 + 1\n}\n"


class InCrate(InFolder):
    def setUp(self):
        super().setUp()
        self.source = self.file("crates/wasm_low/src/lib.rt", SOURCE)
        self.crate = self.folder / "crates/wasm_low"


class Edits(InCrate):
    def edit(self, text, kind=edits.GATE):
        if kind == edits.GATE:
            self.file(f"crates/wasm_low/{kind}/turned.edit", text)
        else:
            self.file(f"crates/wasm_low/{kind}", f"edit: turned\n{text}")
        return edits.faults(self.folder)

    def test_edit_that_applies(self):
        for kind in edits.KINDS:
            found, count = self.edit("file: src/lib.rt\nold: 1 + 1\nnew: 2 + 1\n", kind)
            self.assertEqual(found, [])
        self.assertEqual(count, len(edits.KINDS))

    def test_edits_of_a_file(self):
        one, other = "file: src/lib.rt\nold: 1 + 1\nnew: 2\n\n", "item: low\nfile: src/lib.rt\nold: 1 + 1\nnew: 3\n"
        (self.crate / edits.TESTS).write_text(f"edit: one\n{one}edit: other\n{other}")
        found = edits.edits_of(self.crate)
        self.assertEqual([(str(it), it.name, it.text) for it in found], [
            ("crates/wasm_low/tests-catch.edits/one", "one", one), ("crates/wasm_low/tests-catch.edits/other", "other", other)])
        self.assertEqual(edits.faults(self.folder), ([], 2))
        (self.crate / edits.TESTS).write_text(f"{one}edit: other\n{other}edit: other\n{other}")
        self.assertEqual(edits.faults(self.folder), (["crates/wasm_low/tests-catch.edits/other: twice"], 3))

    def test_edits_that_do_not_apply(self):
        for text, why in [
            ("file: src/lib.rt\nold:     1\nnew:     2\n", "occurs 2 times"),
            ("file: src/lib.rt\nold: 3\nnew: 2\n", "occurs 0 times"),
            ("file: src/high.rt\nold: 1\nnew: 2\n", "there is no file"),
            ("file: README.md\nold: 1\nnew: 2\n", "is not below"),
            ("file: src/lib.rt\nold: low\nnew: low\n", "changes nothing"),
            ("old: 1\nnew: 2\n", "without a 'file:'"),
            ("file: src/lib.rt\nold: 1 + 1\nnew: 2\nand so on\n", "a line that is not read"),
        ]:
            found, _ = self.edit(text)
            self.assertEqual(len(found), 1, text)
            self.assertIn(why, found[0])

    def test_files_that_are_no_edits(self):
        self.edit("file: src/lib.rt\nold: 1 + 1\nnew: 2\n")
        names = ["must-fail/turned.txt", "more-must-fail/lost.edit"]
        for name in names:
            self.file(f"crates/wasm_low/{name}")
        self.assertEqual(edits.faults(self.folder)[0], [f"crates/wasm_low/{name}: not an edit" for name in names])

    def test_log(self):
        bad = "rt: must-fail wasm_low/turned.edit: BAD EDIT: an 'old:' text is in src/lib.rt 0 times"
        self.assertEqual(edits.bad_in_log(f"rt: wasm_low proved\n{bad}\n1 passed, 0 failed\n"), [bad])


class MoreMustFail(InFolder):
    def test_exchange(self):
        for name, has_more in {"high": True, "low": True, "other": False}.items():
            self.file(f"crates/{name}/{edits.GATE}/of_gate.edit")
            if has_more:
                self.file(f"crates/{name}/{edits.MORE}", "edit: one\nold: 1\n\nedit: two\nold: 2\n")
        edits.exchanged(self.folder, ["low"])
        left = {str(path.relative_to(self.folder / "crates")): path.read_text() for path in self.folder.glob("crates/*/must-fail/*")}
        self.assertEqual(left, {"low/must-fail/one.edit": "old: 1\n\n", "low/must-fail/two.edit": "old: 2\n"})

    def test_libraries_of_a_checkout(self):
        names = ["low", "middle", "other", "high"]
        for top in ("copy", "checkout"):
            for name in names:
                self.file(f"{top}/crates/{name}/src/lib.rt", name)
            self.file(f"{top}/crates.txt", "low: std\nmiddle: low\nother: low\nhigh: middle other\n")
        libraries = [self.folder / "checkout" / "crates" / name / "out/rlib" / f"{name}.rlib" for name in names]
        for library in libraries:
            library.mkdir(parents=True)
        place = self.folder / "copy/crates/low/out/rlib/low.rlib"
        lent = lambda: edits.lend(self.folder / "checkout", self.folder / "copy", ["middle", "high"])
        self.assertEqual(lent(), {})
        self.assertEqual(place.resolve(), libraries[0].resolve())

        def again():
            for name in names:
                (self.folder / f"copy/crates/{name}/out/rlib/{name}.rlib").unlink(missing_ok=True)
            return lent()

        (self.folder / "copy/crates/middle/src/lib.rt").write_text("changed")
        self.assertEqual(again(), {"high": "middle"})
        # (a source that changed after the library was built)
        os.utime(libraries[0], (0, 0))
        self.assertEqual(again(), {"middle": "low", "high": "middle"})

    def test_tried(self):
        for name in ("turned", "slow", "lost"):
            self.file(f"crates/wasm_low/must-fail/{name}.edit")
        self.file("log", data("must-fail.log"))
        for command, wrong in ((["cat", "log"], ["wasm_low/lost.edit"]), (["false"], [f"wasm_low/{it}.edit" for it in ("lost", "slow", "turned")])):
            with mock.patch.object(edits, "commands", lambda *_: [command]), redirect_stdout(io.StringIO()):
                self.assertEqual(edits.tried(self.folder, ["wasm_low"]), (3 - len(wrong), wrong))


class TestsCatch(InCrate):
    EDIT = "item: wasm_low\nfile: src/lib.rt\nold: 1 + 1\nnew: 2\n"

    def tried(self, run):
        """Tries an edit, with `run` in the place of `tools/test`: it gets the edited source and returns what failed."""
        edit = edits.Edit(self.crate, "tests-catch.edits/turned", self.EDIT)
        with mock.patch.object(tests_catch, "run_tool", self.tool(run)), mock.patch("builtins.print"):
            found = tests_catch.tried(self.folder, self.folder, [edit])
        self.assertEqual(self.source.read_text(), SOURCE)
        return found

    def tool(self, run):
        def run_tool(top, kept, item):
            failed, text = run(self.source.read_text())
            return {item} - failed, failed, text

        return run_tool

    def test_caught(self):
        self.assertEqual(self.tried(lambda text: (set() if "1 + 1" in text else {"wasm_low"}, "")), (1, 0))

    def test_not_caught(self):
        self.assertEqual(self.tried(lambda text: (set(), "")), (0, 1))

    def test_fails_without_the_edit(self):
        self.assertEqual(self.tried(lambda text: ({"wasm_low"}, "")), (0, 1))

    def test_does_not_compile(self):
        run = lambda text: (set(), "") if "1 + 1" in text else ({"wasm_low"}, "src/lib.rt:2:5: error[unknown-name]: ..")
        self.assertEqual(self.tried(run), (0, 1))

    def test_every_edit_names_an_item(self):
        found = tests_catch.found_edits(tests_catch.TOP, [path.name for path in (tests_catch.TOP / "crates").iterdir()])
        for edit in found:
            self.assertIsNotNone(tests_catch.item_of(edit.text), str(edit))
        self.assertTrue(found)
