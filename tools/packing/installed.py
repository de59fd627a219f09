"""Copies dist/ into a prefix, and removes from there what a copy wrote."""

import shutil
from pathlib import Path

from packing import texts

DOC = Path("share/doc/wasm-operators")
# What was installed, for `sha256sum -c` in the prefix, and for uninstalling.
SUMS = DOC / "SHA256SUMS"
# Where the folders of dist/ go that are not bin, lib, include or share.
ELSEWHERE = {"rattle": "share/wasm-operators/rattle"}


class NotInstalled(Exception):
    """Nothing of this tool is in the prefix."""


def put(source, target, mode=0o644):
    target.parent.mkdir(parents=True, exist_ok=True)
    shutil.copyfile(source, target)
    target.chmod(mode)


def place_of(path):
    """Returns where a file of dist/ goes in the prefix."""
    first, *rest = path.parts
    return Path(ELSEWHERE.get(first, first if rest else DOC), *rest or [first])


def install(out, prefix):
    """Copies the files of `out`. The checksums are of the places in the prefix."""
    files = {place_of(path.relative_to(out)): path for path in sorted(out.rglob("*")) if path.is_file()}
    files.pop(SUMS, None)
    for place, path in files.items():
        put(path, prefix / place, path.stat().st_mode & 0o777)
    sums = "".join(f"{texts.sum_of(prefix / place)}  {place}\n" for place in sorted(files))
    (prefix / SUMS).write_text(sums, encoding="utf-8")
    print(f"dist: installed in {prefix}: bin, lib, include, share")


def uninstall(prefix):
    """Removes the files that `install` wrote, and the folders that are then empty."""
    if not (prefix / SUMS).is_file():
        raise NotInstalled(f"{prefix / SUMS} is missing: nothing is installed there")
    lines = (prefix / SUMS).read_text(encoding="utf-8").splitlines()
    places = [Path(line.split("  ", 1)[1]) for line in lines] + [SUMS]
    for place in places:
        (prefix / place).unlink(missing_ok=True)
    folders = {folder for place in places for folder in place.parents if folder != Path(".")}
    for folder in sorted(folders, reverse=True):
        if (prefix / folder).is_dir() and not any((prefix / folder).iterdir()):
            (prefix / folder).rmdir()
    print(f"dist: removed {len(places)} files from {prefix}")
