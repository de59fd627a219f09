#!/usr/bin/env python3
"""Checks that words describe each definition that public contracts name, or prints what definitions say.

    tools/definitions.py             checks
    tools/definitions.py NAME..      prints the words for these definitions, with their files. A NAME such as
                                     wasm_check or wasm_check/Typed means all of a crate or of a file in its specs/

A definition is described by the comment above it, and the section that this comment or the head of the file names. The
check also wants words for those that the comments refer to.

tools/definitions.tsv has what comments lack: a section, or words. Its columns are the file, the names (none: the section
of the whole file), the section and the words. The words "as `NAME`" mean the words of NAME. A comment of more than 40 words
needs words there.

The check fails if no words describe a definition (wanting), or if a line of the table is wrong or adds nothing
(misplaced).
"""

import re
import sys

from pages.rows import LIMIT, count, described, faults_of, given_of, with_referred
from pages.specs import WORD, file_at, files_of, names_of
from shared.arguments import read
from shared.crates import TOP

TABLE = TOP / "tools" / "definitions.tsv"
FUNCTION = re.compile(rf"^(?P<indent>\s*)(?P<pub>pub )?(?:const |unsafe )*fn (?P<name>{WORD})")


def imports_of(text, names):
    """Returns crate, file and name of each definition that a file imports by `ghost use`."""
    found = {}
    for path, words in re.findall(r"ghost use Rattle\.([\w.]+)\.\{([^}]*)\};", text):
        crate, *rest = path.split(".")
        place = file_at(names, crate, rest[1:]) if rest[:1] == ["specs"] else None
        # (other paths lead to types that the code declares)
        if place and place[0].startswith("wasm_"):
            for word in re.split(r",\s*", words.strip().rstrip(",")):
                own, _, alias = word.partition(" as ")
                found[alias or own] = (*place, own)
    return found


def contracts(text):
    lines = text.split("\n")
    trait_indent = None
    for at, line in enumerate(lines):
        if re.match(r"\s*pub trait ", line):
            trait_indent = len(line) - len(line.lstrip())
        elif trait_indent is not None and line == " " * trait_indent + "}":
            trait_indent = None
        found = FUNCTION.match(line)
        if found and (found["pub"] or trait_indent is not None):
            yield found["name"], clauses_after(lines, at, found["indent"])


def clauses_after(lines, at, indent):
    out = []
    for line in lines[at + 1 :]:
        inner = line.strip()
        if line == f"{indent}{{" or FUNCTION.match(line) or line == f"{indent}}}":
            break
        if out or inner.startswith(("ensures", "requires")):
            out.append(line)
        if inner.endswith(("};", "{")) and not inner.startswith(("ensures", "requires", "where")) and not out:
            break
        if inner.endswith("};"):
            break
    return re.sub("//.*", "", "\n".join(out))


def is_private(path):
    """Returns whether no module exports a file."""
    crate, _, rest = str(path.relative_to(TOP)).partition("/src/")
    top = TOP / crate / "src" / "lib.rt"
    module = rest.split("/")[0].split(".")[0]
    if module == "lib" or not top.exists():
        return False
    return not re.search(rf"^pub (?:use|mod) {module}\b", top.read_text(encoding="utf-8"), re.M)


def used(names):
    found = {}
    for path in sorted(TOP.glob("crates/*/src/**/*.rt")):
        inside = path.relative_to(TOP)
        if "tests" in inside.parts or path.name == "tests.rt" or inside.parts[1].startswith("wasm_tests_"):
            continue
        text = path.read_text(encoding="utf-8")
        if is_private(path) and "impl" not in text:
            continue
        words = imports_of(text, names)
        for name, clauses in contracts(text):
            for word in set(re.findall(WORD, clauses)) & words.keys():
                found.setdefault(words[word], f"{inside}, {name}")
    return found


def wanting(files, given, found):
    """Returns the definitions that are described, and a line for each that is not. `found` has the names in contracts."""
    known, faults = [], []
    for place in sorted({(crate, name) for crate, name, _ in found}):
        file, path, names = files[place], "/".join(place), {name for *of, name in found if tuple(of) == place}
        lost = sorted(names - file.definitions.keys())
        faults += [f"{path}.antt does not define {name}, used by {found[(*place, name)]}" for name in lost]
        lines = [it for it in given if it.file == place]
        for name in sorted(with_referred(file, names & file.definitions.keys())):
            words = described(file, name, lines)
            if words is None:
                user = found.get((*place, name), "another comment")
                faults.append(f"no comment describes {name} ({path}.antt), used by {user}")
            elif count(words[0]) > LIMIT:
                faults.append(f"more than {LIMIT} words describe {name} ({path}.antt)")
            else:
                known.append((file, name))
    return known, faults


def meant(files, known, name):
    """Returns file and name of each definition that a name of the command line means."""
    if name.startswith("wasm_"):
        return [it for it in known if name in (it[0].crate, f"{it[0].crate}/{it[0].name}")]
    return [(file, name) for file in files.values() if name in file.definitions]


def say(files, given, known, names):
    """Prints the words for the names. Returns whether one has none."""
    is_lost = False
    for name in names:
        found = [(file, it, described(file, it, [line for line in given if line.file == (file.crate, file.name)])) for file, it in meant(files, known, name)]
        for file, it, words in (it for it in found if it[2]):
            print(" ".join([f"{it} (crates/{file.crate}/specs/{file.name}.antt):", words[0], *([f"[{words[1]}]"] if words[1] else [])]))
        if not any(words for _, _, words in found):
            is_lost = True
            print(f"{name}: no words describe it")
    return is_lost


def main():
    wanted = read(__doc__, "NAME..")
    files, given = files_of(TOP), given_of(TABLE.read_text(encoding="utf-8"))
    found = used(names_of(TOP))
    known, faults = wanting(files, given, found)
    if wanted.names:
        sys.exit(say(files, given, known, wanted.names))
    misplaced = [f"tools/definitions.tsv:{it.number}: {what}" for it, what in faults_of(files, given)]
    print("".join(f"{line}\n" for line in faults + misplaced), end="")
    print(f"definitions: {len(known)} described, {len(found)} used, {len(faults)} wanting, {len(misplaced)} misplaced")
    sys.exit(bool(faults or misplaced or not found))


if __name__ == "__main__":
    main()
