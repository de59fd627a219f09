#!/usr/bin/env python3
"""Checks the entries of crates.txt, and that programs, proved callers and tests cite no lemma of another crate.

    tools/edges.py

It fails on

- a crate that a crate names and does not list, or lists and does not name;
- a `#[test]` function: tests are rows of the programs `wasm_tests_*`, since a crate with such a function is proved twice;
- a re-export of another crate's name, except in the lists of `wasm_operators`, `wasm_encode` and `wasm_c` for users;
- a lemma of another crate (`Rattle.OTHER.proofs.`) in a program, a static library, a proved caller or a test. What
  callers need is a clause or a law; tools/edges.tsv has the exceptions. Other crates may cite lemmas of the crates that
  they list.
"""

import re
import sys

from shared.arguments import read
from shared.crates import TOP, crates
from shared.tables import rows_of

# Programs, static libraries and proved callers. Tests are known by their names.
OUTSIDE = ("wasm_objdump", "wasm_validate", "wasm_dump", "wasm_compact", "wasm_c_exports", "wasm_bench", "uses")
# The crates that list names of others for users.
LISTS = ("wasm_operators", "wasm_encode", "wasm_check", "wasm_c")
# The exceptions: crate, library and file of the lemmas, their names, and why.
CITED = TOP / "tools" / "edges.tsv"


def allowed():
    """Returns why a crate may cite a lemma, for each exception."""
    found = {}
    for row in rows_of(CITED):
        for name in row["lemmas"].split():
            found[row["crate"], f"{row['library']}.proofs.{row['file']}.{name}"] = row["why"]
    return found


def is_outside(name):
    return name in OUTSIDE or name.startswith("wasm_tests_")


def files_of(name, top=TOP):
    folder = top / "crates" / name
    found = [*folder.glob("src/**/*.rt"), *folder.glob("specs/**/*.antt"), *folder.glob("proofs/**/*.antt")]
    return {path: path.read_text(encoding="utf-8") for path in sorted(found)}


def named(text):
    """Returns the crates and libraries that a crate's files may name."""
    text = re.sub(r"^\s*(?://|--).*$", "", text, flags=re.M)
    return set(re.findall(r"\bRattle\.(\w+)\.", text)) | set(re.findall(r"(?<![\w:.])(\w+)::", text)) | set(re.findall(r"\buse (\w+);", text))


def unlisted(listed, texts):
    for name, those in listed.items():
        words = named(texts[name])
        for one in those:
            if one not in words and not re.search(rf"\b{one}\b", texts[name]):
                yield f"crates.txt: {name} lists {one}, which none of its files names"
        for one in sorted(words & listed.keys() - {name, *those}):
            yield f"crates.txt: {name} does not list {one}, which it names"
        if "#[test]" in texts[name]:
            yield f"{name} has a `#[test]` function: write a row of a program wasm_tests_*"


def passed_on(listed, texts):
    """Yields what a crate re-exports of another."""
    for name, text in texts.items():
        if name not in LISTS:
            found = re.findall(r"^ *pub use (?:Rattle\.)?(\w+)\b", text, re.M)
            for one in sorted(set(found) & listed.keys() - {name}):
                yield f"{name} re-exports names of {one}: name them by {one}"


def cited(text, crate, listed):
    """Returns the lemmas of other crates that a file names, or files that it imports whole."""
    found = re.findall(r"\bRattle\.(\w+)\.proofs\.([\w.]*\w)(?:\.\{([^}]*)\})?", re.sub("--.*|//.*", "", text))
    out = set()
    for other, path, names in found:
        if other != crate and other in listed:
            own = [name.split(" as ")[0].strip() for name in names.split(",") if name.strip()]
            out |= {f"{other}.proofs.{path}.{name}" for name in own} or {f"{other}.proofs.{path}"}
    return out


def citations(listed, top=TOP):
    out = {}
    for crate in filter(is_outside, listed):
        for path, text in files_of(crate, top).items():
            for lemma in cited(text, crate, listed):
                out.setdefault((crate, lemma), []).append(str(path.relative_to(top)))
    return out


def main():
    read(__doc__)
    listed, may = crates(), allowed()
    found = citations(listed)
    texts = {name: "\n".join(files_of(name).values()) for name in listed}
    wrong = [*unlisted(listed, texts), *passed_on(listed, texts)]
    for (crate, lemma), files in sorted(found.items()):
        if (crate, lemma) in may:
            print(f"allowed: {crate} cites {lemma}: {may[crate, lemma]}")
        else:
            wrong.append(f"{files[0]}: cites {lemma}: make it a clause or a law of the layer")
    gone = sorted(set(may) - set(found))
    wrong += [f"tools/edges.tsv: {crate} does not cite {lemma}: take it out" for crate, lemma in gone]
    print("\n".join(wrong), end="\n" if wrong else "")
    print(f"edges: {len(listed)} crates, {len(found)} lemmas cited by programs, callers and tests, {len(wrong)} wrong")
    sys.exit(1 if wrong else 0)


if __name__ == "__main__":
    main()
