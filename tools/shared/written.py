"""Writes files that tools make, or checks them."""

import sys

from shared.crates import TOP


def bytes_of(text):
    return text.encode() if isinstance(text, str) else text


def stale(wanted, top=TOP):
    """Returns the paths of the files, which are texts or bytes by path, that are missing or differ."""
    return [path for path, text in wanted.items() if not (top / path).exists() or (top / path).read_bytes() != bytes_of(text)]


def write_or_check(wanted, check, tool):
    """Writes the files that are stale, and prints their paths. With `check`, fails if there are any."""
    changed = stale(wanted)
    if check and changed:
        sys.exit("\n".join(f"{path}: not what {tool} writes: run it" for path in changed))
    for path in changed:
        (TOP / path).parent.mkdir(parents=True, exist_ok=True)
        (TOP / path).write_bytes(bytes_of(wanted[path]))
        print(path)
