"""Lays out generated files as `rt fmt` does, which the gate checks for every file."""

import shutil
import subprocess
import sys
import tempfile
from pathlib import Path

from clauses import clauses_broken


def is_here():
    return shutil.which("rt") is not None


def laid_out(files):
    if not is_here():
        sys.exit("rt, the command of the Rattle kit, is not on this machine: it lays out the files")
    with tempfile.TemporaryDirectory() as folder:
        crate = Path(folder) / "crates" / "lists"
        (crate / "src").mkdir(parents=True)
        (crate / "specs").mkdir()
        (Path(folder) / "crates.txt").write_text("lists:\n", encoding="utf-8")
        (crate / "src" / "lib.rt").write_text("", encoding="utf-8")
        paths = {}
        for number, (name, text) in enumerate(files.items()):
            end = Path(name).suffix
            part = {".rt": "src", ".antt": "specs"}.get(end)
            if part:
                paths[name] = crate / part / f"f{number}{end}"
                paths[name].write_text(text, encoding="utf-8")
        ran = subprocess.run(["rt", "fmt"], cwd=crate, capture_output=True, text=True)
        if ran.returncode:
            wrong = ran.stdout + ran.stderr
            for name, path in paths.items():
                wrong = wrong.replace(f"{path.parent.name}/{path.name}", name)
            sys.exit(f"rt fmt cannot read the generated files:\n{wrong}")
        laid = {name: path.read_text(encoding="utf-8") for name, path in paths.items()}
        laid = {name: clauses_broken(text) if name.endswith(".rt") else text for name, text in laid.items()}
    return {name: laid.get(name, text) for name, text in files.items()}
