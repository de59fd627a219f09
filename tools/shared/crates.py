"""Reads crates.txt, whose lines are `NAME: CRATES` or `NAME KIND: CRATES`."""

from pathlib import Path

TOP = Path(__file__).resolve().parent.parent.parent


def listed(text):
    """Returns the crates that each crate lists, by its name, in the order of the file."""
    found = {}
    for line in text.splitlines():
        head, colon, names = line.split("#")[0].partition(":")
        if colon and head.strip():
            found[head.split()[0]] = names.split()
    return found


def crates(top=TOP):
    return listed((top / "crates.txt").read_text(encoding="utf-8"))


def below(uses, name):
    """Returns the crates of the repository below a crate, the lowest first."""
    found = []
    for used in uses.get(name, []):
        if used in uses:
            found += [it for it in [*below(uses, used), used] if it not in found]
    return found
