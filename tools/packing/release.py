"""Packs dist/ for handing out: an archive, its checksum, and notes."""

import io
import re
import tarfile

from packing import texts
from packing.builds import TOP, Failed


def notes():
    """Returns the part of CHANGELOG.md about the release, with its title."""
    parts = rf"^## {re.escape(texts.release())}, .*?(?=^## |\Z)"
    found = re.search(parts, (TOP / "CHANGELOG.md").read_text(encoding="utf-8"), re.M | re.S)
    if not found:
        raise Failed(f"CHANGELOG.md has no part about {texts.release()}")
    return texts.relinked("CHANGELOG.md", found[0], lambda path: None).rstrip() + "\n"


def packed(folder, name, archive):
    """Writes the files of a folder, below `name`. The same files give the same bytes."""
    with tarfile.open(archive, "w:xz", format=tarfile.GNU_FORMAT) as out:
        for path in sorted(it for it in folder.rglob("*") if it.is_file()):
            info = tarfile.TarInfo(f"{name}/{path.relative_to(folder)}")
            data = path.read_bytes()
            info.size, info.mode = len(data), path.stat().st_mode & 0o755
            out.addfile(info, io.BytesIO(data))


def make(out):
    """Writes the archive, its checksum and the notes into the folder that has dist/. Returns the archive."""
    if not (out / "PROVED").exists():
        raise Failed(f"{out} is not proved: a release is made of what is")
    name = f"wasm-operators-{texts.release()}-x86_64-linux"
    archive = out.with_name(f"{name}.tar.xz")
    packed(out, name, archive)
    archive.with_name(f"{archive.name}.sha256").write_text(f"{texts.sum_of(archive)}  {archive.name}\n", encoding="utf-8")
    archive.with_name(f"{name}.md").write_text(notes(), encoding="utf-8")
    print(f"dist: wrote {archive.name}, {archive.name}.sha256 and {name}.md")
    return archive
