"""Runs `rt must-fail NAME..` in the current folder over the libraries that are there, whatever `rt` would build again.

`rt` judges the edits. Its own command first builds each library below that it has not built itself, in hours.
"""

import importlib.util
import sys
from importlib.machinery import SourceFileLoader
from pathlib import Path

sys.path.insert(0, str(Path(__file__).resolve().parent.parent))

from testing.crates import find_kit


def loaded(path):
    loader = SourceFileLoader("rt", str(path))
    module = importlib.util.module_from_spec(importlib.util.spec_from_loader("rt", loader))
    loader.exec_module(module)
    return module


def main():
    rt = loaded(find_kit() / "bin" / "rt")
    # (it returns a status)
    rt.rtlib.Crate.build_rlib = lambda crate, flags, anew: 0 if Path(crate.rlib).is_dir() else 1
    sys.exit(rt.edits_alone(sys.argv[1:]))


if __name__ == "__main__":
    main()
