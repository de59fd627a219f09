"""Breaks clauses that are too long for a line. `rt fmt` leaves them as they are.

    tools/generate/clauses.py FILE..      lays out the clauses of these source files
"""

import sys
from pathlib import Path

WIDTH = 120


def places(line):
    """Returns the places for a break, each with its depth in parentheses."""
    depth, found = 0, []
    for at, char in enumerate(line):
        if char in "({":
            depth += 1
        elif char in ")}":
            depth -= 1
        if char != " ":
            continue
        rest = line[at + 1:]
        if rest.startswith("→ "):
            found.append((depth, 0, at))
        elif rest.startswith(("× ", "⊎ ", "≡ ", "↔ ")):
            found.append((depth, 1, at))
        elif rest.startswith("(") or line[:at].endswith((".", ")")):
            found.append((depth, 2, at))
    return found


def broken(line):
    out, margin = [], len(line) - len(line.lstrip()) + 4
    while len(line) > WIDTH:
        start = len(line) - len(line.lstrip()) + 8
        able = [it for it in places(line) if start < it[2] <= WIDTH]
        able = [it for it in able if it[2] > margin + 20]
        if not able:
            break
        least = min((depth, sort) for depth, sort, _ in able)
        at = max(at for depth, sort, at in able if (depth, sort) == least)
        out.append(line[:at])
        line = " " * margin + line[at + 1:]
    return "\n".join([*out, line])


def is_clause(line):
    words = line.split()
    if len(line) <= WIDTH or words[0].startswith("//"):
        return False
    is_member = words[0] == "ghost" and words[1] != "use"
    return is_member or words[0] in ("ensures", "requires") or words[0].startswith(("(", "→"))


def clauses_broken(text):
    return "\n".join(broken(line) if is_clause(line) else line for line in text.split("\n"))


def main():
    for path in map(Path, sys.argv[1:]):
        text = path.read_text(encoding="utf-8")
        laid = clauses_broken(text)
        if laid != text:
            path.write_text(laid, encoding="utf-8")
            print(path)


if __name__ == "__main__":
    sys.dont_write_bytecode = True
    main()
