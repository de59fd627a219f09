import wabt
from tests import InFolder, data


class Stored(InFolder):
    def test_spoiled(self):
        found = dict(wabt.spoiled(b"ab"))
        self.assertEqual(found["byte 0 changed"], b"Nb")
        self.assertEqual(found["byte 1 changed"], b"a\x9d")
        self.assertEqual(len(found), 2)

    def test_answers(self):
        self.assertTrue(wabt.is_answer(0, b""))
        self.assertTrue(wabt.is_answer(1, b"error at 3: no\nerror in function 1 at 4: no\n"))
        for status, complaint in ((None, b""), (0, b"error\n"), (1, b""), (1, b"error"), (1, b"error\nsee\n"), (3, b"error\n"), (-11, b"")):
            self.assertFalse(wabt.is_answer(status, complaint), (status, complaint))

    def faults(self, module, text, code_end=1):
        path = self.folder / "a.wasm"
        path.write_bytes(module)
        path.with_suffix(".txt").write_bytes(text)
        self.file("a.sections.txt", f"     Code start=0x0 end=0x{code_end:x} (size=0x1) count: 1\n")
        # (a program that writes a file, or the list of its sections: of its input, a function if that begins with 0)
        return wabt.stored(self.program(data("echoes.sh")), path)

    def test_compared(self):
        self.assertEqual(self.faults(b"xa", b"xa"), ([], 6))
        self.assertEqual(self.faults(b"xa", b"xb")[0], ["a.wasm: not what wabt wrote"])
        # a prefix that lists a function before the end of the code section
        function = b"000030 func[0]:"
        self.assertEqual(self.faults(function, function)[0], [])
        self.assertEqual(len(self.faults(function, function, 3)[0]), 2)
        # a run that ends with no complaint, and one that is killed (`y` and `z`; with `x` it fails)
        self.assertEqual(len(self.faults(b"ya", b"ya")[0]), 2)
        self.assertEqual(len(self.faults(b"za", b"za")[0]), 2)
