import unittest

import api


class Api(unittest.TestCase):
    def test_the_names_of_the_table_exist(self):
        self.assertEqual(api.faults(), [])

    def test_the_page_is_written_from_the_table(self):
        self.assertEqual(api.PAGE.read_text(encoding="utf-8"), api.page())

    def test_a_function_that_no_crate_has(self):
        self.assertTrue(api.exists("wasm_below::read_u8"))
        self.assertFalse(api.exists("wasm_below::read_u9"))

    def test_an_item_that_the_crate_does_not_have(self):
        row = {"type": "BinaryReader", "item": "read_u9"}
        self.assertFalse(api.is_here(row, "pub struct BinaryReader; fn read_u8()"))
        self.assertTrue(api.is_here({**row, "item": "read_u8"}, "pub struct BinaryReader; fn read_u8()"))

    def test_the_page_has_every_item(self):
        page = api.page()
        names = {name for row in api.rows() for name in [row["type"], *api.parts(row["item"].replace("for ", ""))]}
        self.assertEqual([name for name in names if name.lower() not in page.lower()], [])
