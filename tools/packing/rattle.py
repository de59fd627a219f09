"""Packs the proved libraries for Rattle programs."""

import os
import shutil
import subprocess

from packing.builds import TOP, identity_of

HERE = TOP / "tools/packing"
# What a library's folder has, if it exists.
PARTS = ["README.md", "CALLING.md", "src", "specs", "proofs"]
# Other pages and proved callers, by the library whose folder gets them.
MORE = {
    "wasm_operators": {
        "ERRORS-AND-FEATURES.md": "docs/ERRORS-AND-FEATURES.md",
        "uses": "crates/uses",
    },
}
LEFT_OUT = ("out", "must-fail", "*.edits")
# The same files give the same archive.
TAR = ["tar", "--sort=name", "--mtime=@0", "--owner=0", "--group=0", "--numeric-owner", "--mode=u=rwX,go=rX"]


def copied(source, target):
    target.parent.mkdir(parents=True, exist_ok=True)
    if source.is_dir():
        shutil.copytree(source, target, ignore=shutil.ignore_patterns(*LEFT_OUT))
    elif source.exists():
        shutil.copyfile(source, target)


def lay_out(crates, libraries, folder):
    (folder / "rlibs").mkdir(parents=True)
    for name, rlib in libraries.items():
        shutil.move(rlib, folder / "rlibs" / f"{name}.rlib")
        for part in PARTS:
            copied(crates.folder(name) / part, folder / "rattle" / name / part)
        copied(TOP / "LICENSE", folder / "rattle" / name / "LICENSE")
        for part, path in MORE.get(name, {}).items():
            copied(TOP / path, folder / "rattle" / name / part)


def pack(folder, archive):
    """Packs a folder into one archive, since `rt ci` refuses its files in a checkout."""
    words = [*TAR, "-C", folder, "--use-compress-program=xz -T0 -1", "-cf", archive, "rlibs", "rattle"]
    subprocess.run([str(it) for it in words], check=True, env={**os.environ, "LC_ALL": "C"})


def bytes_of(folder):
    return sum(it.stat().st_size for it in folder.rglob("*") if it.is_file())


def make(kit, crates, libraries, scratch, out):
    lay_out(crates, libraries, scratch)
    out.mkdir(parents=True)
    pack(scratch, out / "libraries.tar.xz")
    shutil.copy(HERE / "add-to-kit", out / "add-to-kit")
    (out / "KIT").write_text(identity_of(kit), encoding="utf-8")
    (out / "NAMES").write_text("".join(f"{name}\n" for name in libraries), encoding="utf-8")
    kind = identity_of(kit).splitlines()[0]
    names = ", ".join(f"`{name}`" for name in libraries)
    page = (HERE / "rattle.md").read_text(encoding="utf-8")
    filled = page.replace("{kit}", kind).replace("{libraries}", names).replace("{size}", f"{bytes_of(scratch) / 1e9:.1f}")
    (out / "README.md").write_text(filled, encoding="utf-8")
