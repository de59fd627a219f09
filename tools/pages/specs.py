"""Reads the definitions of specs/, with their comments and sections."""

import re
from pathlib import Path

WORD = r"[A-Za-z_][\w'-]*"
DEFINED = re.compile(rf"^ *(?:abbrev |unfoldable )?pub (?:record |data )?({WORD})")
CONSTRUCTORS = re.compile(rf"^ +(?!pub )((?:{WORD} )+): ")
# A sentence that names a section, a proposal or a page.
REFERENCE = re.compile(
    r"(?:WebAssembly Core )?Specification(?: 3\.0)?[,:] |Proposals? |The legacy exception handling proposal: "
    r"|docs/ERRORS-AND-FEATURES\.md has |[A-Z][a-z]+ (?:Instructions|Types)\.$"
)


class Definition:
    """A definition, or a constructor of the data type `head`."""

    def __init__(self, name, comment, head=None):
        self.name, self.head = name, head
        self.words, self.section = parts_of(comment)


class File:
    """A file of specs/: its section, the files that it uses, and its definitions by name."""

    def __init__(self, crate, name, text):
        self.crate, self.name = crate, name
        lines = text.split("\n")
        head = []
        while lines[len(head)].startswith("--"):
            head.append(lines[len(head)][2:])
        self.section = parts_of(head)[1]
        self.used = re.findall(rf"^use Rattle\.{crate}\.specs\.(\w+)\b", text, re.M)
        self.definitions = {it.name: it for it in definitions_of(lines, len(head))}


def sentences_of(comment):
    text = " ".join(line.strip() for line in comment if not line.startswith("  ") and not line.startswith(" Written by "))
    return [it for it in re.split(r"(?<=[.!?])\s+(?=[A-Z`(]|docs/)", text.strip()) if it]


def parts_of(comment):
    sentences = sentences_of(comment)
    names = [it for it in sentences if REFERENCE.match(it)]
    return " ".join(it for it in sentences if it not in names), " ".join(names)


def definitions_of(lines, start):
    comment, head, outer = [], None, ""
    for line in lines[start:]:
        if line.lstrip().startswith("--"):
            comment.append(line.lstrip()[2:])
            continue
        outer = line if line[:1].strip() else outer
        defined, several = DEFINED.match(line), CONSTRUCTORS.match(line)
        # (an indented `pub` is a definition only in a mutual block)
        if defined and (line == outer or outer.endswith("mutual")):
            head = defined[1]
            yield Definition(head, comment)
        elif several:
            yield from (Definition(name, comment, head) for name in several[1].split())
        # (the comment of a mutual block is its first definition's)
        if not line.endswith("mutual"):
            comment = []


def files_of(top):
    found = {}
    for path in sorted(Path(top).glob("crates/*/specs/*.antt")):
        if path.stem != "Lib":
            crate = path.parent.parent.name
            found[crate, path.stem] = File(crate, path.stem, path.read_text(encoding="utf-8"))
    return found


def names_of(top):
    """Returns where each name in a crate's `specs` leads: None for a file, else a crate and a path."""
    found = {}
    for path in Path(top).glob("crates/*/specs/Lib.antt"):
        text = path.read_text(encoding="utf-8")
        names = dict.fromkeys(re.findall(r"^pub mod (\w+)", text, re.M))
        for target, alias in re.findall(r"^pub use Rattle\.([\w.]+)(?: as (\w+))?", text, re.M):
            crate, _, *rest = target.split(".")
            names[alias or rest[-1]] = (crate, rest)
        found[path.parent.parent.name] = names
    return found


def file_at(names, crate, path):
    """Returns the crate and the file that a path leads to, or None."""
    own = names.get(crate, {})
    if not path or path[0] not in own:
        return None
    if own[path[0]] is None:
        return (crate, path[0]) if len(path) == 1 else None
    other, rest = own[path[0]]
    return file_at(names, other, [*rest, *path[1:]])
