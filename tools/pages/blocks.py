"""Finds the code blocks and the commands of a page."""

import re

# Commands that are not run: they take a proof, an hour, or the reader's program.
EXCEPTED = re.compile(r"(?:\.ci/run|tools/(?:test|dist)|rt (?:ci|run|check|lib|verdict|try)|cargo test)\b")
COMMAND = re.compile(r"(?:rt|cargo|cc|git|python3) \S|tools/(?!\w+/)[\w-]+(?:\.py)?(?![\w./*-])|\.ci/run")
FENCE = re.compile(r"^( *)```(\w*)\n(.*?)^\1```$", re.M | re.S)
INDENTED = re.compile(r"(?<=\n\n)((?: {4}.*\n|\n(?= {4}))+)")


class Block:
    def __init__(self, line, text):
        self.line, self.text = line, text
        self.first = text.split("\n", 1)[0].strip()


def unindented(text, indent):
    return "".join(line.removeprefix(indent) for line in text.splitlines(True))


def blocks_of(page):
    """Returns the code blocks, fenced or indented, and the other commands."""
    blocks = [(it.start(), unindented(it[3], it[1])) for it in FENCE.finditer(page)]
    prose = FENCE.sub(lambda it: re.sub(r"[^\n]", "", it[0]), page)
    # (the prose keeps the line feeds of the blocks, for line numbers)
    lines = [(page.count("\n", 0, at) + 1, text) for at, text in blocks]
    lines += [(prose.count("\n", 0, it.start()) + 1, unindented(it[1], "    ")) for it in INDENTED.finditer(prose)]
    commands = {}
    for found in re.finditer(r"`([^`\n]+)`", INDENTED.sub("", prose)):
        if COMMAND.match(found[1]):
            commands.setdefault(found[1], Block(0, found[1]))
    return [Block(line, text) for line, text in sorted(lines)], list(commands.values())


def code_of(text):
    text = re.sub(r"//.*|/\*.*?\*/|^use [^;]*;", "", text, flags=re.MULTILINE)
    lines = [line.strip().removeprefix("pub ").rstrip(" {") for line in text.splitlines()]
    return [line for line in lines if line]


def left_out(shown, whole):
    """Returns the first shown line out of order, or `None`."""
    lines = iter(whole)
    return next((line for line in shown if line not in lines), None)
