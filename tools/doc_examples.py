#!/usr/bin/env python3
"""Writes the examples in the documentation of wasmparser's operators layer as documentation of a Rust file.

    tools/doc_examples.py FOLDER > lib.rs     FOLDER has the sources of wasmparser

`cargo test --doc` then runs them over the crate that is the dependency `wasmparser` (tools/bindings).
"""

import re
import sys

from shared.arguments import read

FILES = ["lib.rs", "binary_reader.rs", "readers/core/code.rs", "readers/core/init.rs", "readers/core/operators.rs"]
COMMENT = re.compile(r"\s*//[/!] ?(.*)$")


def examples(text):
    """Returns the Rust blocks, each with its line number."""
    found, fence, start = [], None, 0
    block = []
    for at, line in enumerate(text.split("\n"), 1):
        comment = COMMENT.match(line)
        if comment is None:
            fence = None
        elif fence is None:
            if opened := re.fullmatch(r"\s*```(\S*)\s*", comment[1]):
                fence, block, start = opened[1].split(",")[0] or "rust", [], at
        elif comment[1].strip() == "```":
            if fence == "rust":
                found.append((start, block))
            fence = None
        else:
            block.append(comment[1])
    return found


def main():
    folder, number = read(__doc__, "FOLDER").folder, 0
    for name in FILES:
        for line, block in examples((folder / "src" / name).read_text(encoding="utf-8")):
            number += 1
            print(f"/// {name}, line {line}\n///\n/// ```")
            print("\n".join(f"/// {text}".rstrip() for text in block))
            print(f"/// ```\npub fn example_{number}() {{}}\n")
    if not number:
        sys.exit(f"doc_examples: no examples in {folder}")


if __name__ == "__main__":
    main()
