"""Run them by `python3 -B -m unittest discover -s tools/tests -t tools`."""

import sys
import tempfile
import unittest
from pathlib import Path

sys.path.insert(0, str(Path(__file__).resolve().parent.parent / "generate"))


def data(name):
    return (Path(__file__).parent / "data" / name).read_text(encoding="utf-8")


class InFolder(unittest.TestCase):
    """Tests that write files: each has an empty folder."""

    def setUp(self):
        folder = tempfile.TemporaryDirectory()
        self.addCleanup(folder.cleanup)
        self.folder = Path(folder.name)

    def file(self, path, text=""):
        (self.folder / path).parent.mkdir(parents=True, exist_ok=True)
        (self.folder / path).write_text(text, encoding="utf-8")
        return self.folder / path

    def program(self, text, path="program"):
        self.file(path, text).chmod(0o755)
        return self.folder / path
