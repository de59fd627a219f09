"""Writes the texts of dist/."""

import hashlib
import posixpath
import re
from pathlib import PurePosixPath

from packing.builds import TOP
from shared.tables import rows_of


def packing(name):
    """Returns a text of tools/packing, for `str.format`."""
    return (TOP / "tools/packing" / name).read_text(encoding="utf-8")


PKG_CONFIG = packing("wasm_operators.pc")
PROVED, UNPROVED = packing("proved.txt"), packing("unproved.txt")
CMAKE = {path.name: path.read_text(encoding="utf-8") for path in sorted((TOP / "tools/packing").glob("*.cmake"))}


def defined(name):
    """Returns the value of a macro of the header."""
    header = (TOP / "c/include/wasm_operators.h").read_text(encoding="utf-8")
    return re.search(rf'^#define {name} "?(.*?)[u"]$', header, re.M)[1]


def release():
    return defined("WASM_OPERATORS_RELEASE")


def interface():
    """Returns the number of the structs and calls, which the shared library's name has."""
    return defined("WASM_OPERATORS_VERSION")


NOTE = """\
> From the repository. What this page says of a clone, such as commands with `crates/` or `tools/`, needs one.

"""
CALLERS = "docs/CALLERS.md"
# What the installed CALLERS.md has in place of the commands in a clone: patterns, and what replaces them.
IN_PLACE = [tuple(row.values()) for row in rows_of(TOP / "tools/packing/callers.tsv")]
LINK = re.compile(r"\[([^\]]*)\]\(([^)#\s]*)(#[^)\s]*)?\)")


def relinked(page, text, place_of):
    """Returns a page's text with the links to files of the repository that `place_of` gives. Without one, the text is plain."""

    def link(found):
        text, target, part = found[1], found[2], found[3] or ""
        if not target or re.match(r"[a-z]+:", target):
            return found[0]
        place = place_of(posixpath.normpath(posixpath.join(posixpath.dirname(page), target)))
        return f"[{text}]({place}{part})" if place else text

    return LINK.sub(link, text)


def installed_page(page, kept):
    """Returns a page of the repository for a folder with the files `kept`."""
    title, _, rest = (TOP / page).read_text(encoding="utf-8").partition("\n\n")
    names = {path: PurePosixPath(path).name for path in kept}
    if page == CALLERS:
        return f"{title}\n\n{relinked(page, for_installed(rest), names.get)}"
    return f"{title}\n\n{NOTE}{relinked(page, rest, names.get)}"


def for_installed(text):
    """Returns the text of CALLERS.md with commands for the installed files in place of those for a clone."""
    for pattern, new in IN_PLACE:
        crate = f"$prefix/share/wasm-operators/wasm-operators-{release()}"
        text, count = re.subn(pattern, new.replace("CRATE", crate), text, flags=re.S)
        assert count, f"{CALLERS} has no {pattern}"
    return text


def glibc_of(programs):
    """Returns the newest version of glibc that programs need."""
    found = {match for path in programs for match in re.findall(rb"GLIBC_(\d+(?:\.\d+)+)\0", path.read_bytes())}
    newest = max((tuple(map(int, it.split(b"."))) for it in found), default=None)
    return f", with glibc {'.'.join(map(str, newest))} or later" if newest else ""


def sum_of(path):
    found = hashlib.sha256()
    with open(path, "rb") as it:
        while block := it.read(1 << 20):
            found.update(block)
    return found.hexdigest()


def sums_of(folder):
    files = sorted(it for it in folder.rglob("*") if it.is_file() and it.name != "SHA256SUMS")
    return "".join(f"{sum_of(it)}  {it.relative_to(folder)}\n" for it in files)
