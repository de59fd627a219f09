#!/usr/bin/env python3
"""Quotes contracts of src/ in the pages CALLING.md of crates, or checks the quotes.

    tools/contracts.py             checks
    tools/contracts.py --write     writes

A quote is the block after a comment

    <!-- contracts
        CRATE/src/FILE.rt TYPE: NAME ..
    -->

whose lines name functions: methods of a type, or functions outside impls if the type is `-`. A quoted contract is
shortened: `S` is what `self` points to at the call, `S'` at the return, and `x` is a parameter `x.entry`.
"""

import re
import sys

from shared.arguments import read
from shared.crates import TOP

QUOTE = re.compile(r"(<!-- contracts\n(.*?)-->\n\n```text\n)(.*?)(```\n)", re.S)
SHORTER = [(r"\bself\.old\b", "S"), (r"\bself\.new\b", "S'"), (r"\bself\.now\b", "S"), (r"\b(\w+)\.entry\b", r"\1")]


class Wrong(Exception):
    """A comment names what does not exist."""


def impls(text, type_name):
    """Returns the impls of a type that implement no trait, or for `-` the functions outside impls."""
    if type_name == "-":
        return re.sub(r"^(?:impl|pub trait)\b.*?^\}$", "", text, flags=re.M | re.S)
    return "\n".join(re.findall(rf"^impl(?:<[^{{]*?>)? {type_name}\b[^{{]*? \{{\n(.*?)^\}}$", text, re.M | re.S))


def in_braces(text, start):
    depth = 0
    for at in range(start, len(text)):
        depth += {"{": 1, "}": -1}.get(text[at], 0)
        if depth == 0:
            return text[start + 1 : at]
    raise Wrong("a brace is not closed")


def one_line(text):
    text = " ".join(text.split()).replace("( ", "(").replace(",)", ")").replace(", )", ")")
    return text.strip().rstrip(",")


def shortened(clause):
    for pattern, new in SHORTER:
        clause = re.sub(pattern, new, clause)
    return one_line(clause)


def contract(text, type_name, name):
    inside = impls(text, type_name)
    found = re.search(rf"^ *pub (?:const |unsafe )*(fn {name}\b.*?)(?=^ *(?:requires|ensures|\{{$))", inside, re.M | re.S)
    if found is None:
        raise Wrong(f"{type_name} has no public function {name}")
    head = one_line(found[1])
    lines = [head if type_name == "-" else head.replace(f"fn {name}", f"fn {type_name}::{name}", 1)]
    at = found.end()
    clause = re.compile(r"\s*(requires|ensures)\s+(\w+ )?(?=\{)")
    while of := clause.match(inside, at):
        body = in_braces(inside, of.end())
        lines.append(f"  {of[1]}{' ' + of[2].strip() if of[2] else ''}: {shortened(body)}")
        at = of.end() + len(body) + 2
    if len(lines) == 1:
        raise Wrong(f"{type_name}::{name} has no contract")
    return lines


def quoted(names, top=TOP):
    out = []
    for line in names.strip().split("\n"):
        path, type_name, *functions = line.replace(":", " ").split()
        path = top / "crates" / path
        if not path.exists():
            raise Wrong(f"{path.relative_to(top)}: no such file")
        text = re.sub(r"^ *//.*\n", "", path.read_text(encoding="utf-8"), flags=re.M)
        for name in functions:
            out += contract(text, type_name, name)
    return "".join(f"{line}\n" for line in out)


def with_quotes(page, top=TOP):
    return QUOTE.subn(lambda found: found[1] + quoted(found[2], top) + found[4], page)


def main():
    given, faults, count = read(__doc__, "--write"), [], 0
    for path in sorted(TOP.glob("crates/*/CALLING.md")):
        page, name = path.read_text(encoding="utf-8"), path.relative_to(TOP)
        try:
            text, some = with_quotes(page)
        except Wrong as what:
            faults.append(f"{name}: {what}")
            continue
        count += some
        if page.count("<!-- contracts") != some:
            faults.append(f"{name}: a comment `contracts` has no block after it")
        if given.write:
            path.write_text(text, encoding="utf-8")
        elif text != page:
            faults.append(f"{name}: a quote differs from src/; `tools/run contracts --write` writes it")
    print("".join(f"{fault}\n" for fault in faults), end="")
    print(f"contracts: {count} quotes, {len(faults)} wrong")
    sys.exit(1 if faults or not count else 0)


if __name__ == "__main__":
    main()
