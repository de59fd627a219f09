"""Links the library for C as a shared library, from its archive."""

import os
import subprocess
import tempfile
from pathlib import Path

NAME = "libwasm_operators.so"
# The functions of the header alone are visible.
SYMBOLS = "{ global: wasm_*; local: *; };\n"


def make(archives, folder, version):
    """Writes NAME.version and, for the linker, NAME. Returns why it cannot be linked, or None."""
    target = folder / f"{NAME}.{version}"
    with tempfile.TemporaryDirectory() as scratch:
        symbols = Path(scratch) / "symbols"
        symbols.write_text(SYMBOLS, encoding="utf-8")
        options = ["whole-archive", archives[0], "no-whole-archive", *archives[1:]]
        words = [it if isinstance(it, Path) else f"-Wl,--{it}" for it in options]
        flags = ["-shared", f"-Wl,-soname,{target.name}", f"-Wl,--version-script={symbols}", "-Wl,-z,defs", "-o", target]
        ran = subprocess.run([os.environ.get("CC", "cc"), *flags, *words], capture_output=True, text=True)
    if ran.returncode:
        target.unlink(missing_ok=True)
        return ran.stderr.strip() or "cc failed"
    target.chmod(0o644)
    (folder / NAME).write_text(f"/* for the linker */ INPUT ( {target.name} )\n", encoding="utf-8")
    return None
