"""Fills in the templates of generated files, which are in the folder `templates`."""

import re
from pathlib import Path
from string import Template

from table import HEAD

FOLDER = Path(__file__).resolve().parent / "templates"


def filled(template, /, **values):
    """Returns the lines of a template, with the values for its `$word`s. A list of lines replaces the line `$word`.

    The file's name ends in `.template`: `rt ci` refuses other .rt and .antt files outside of crates.
    """
    lists = {f"${word}": value for word, value in values.items() if isinstance(value, list)}
    out = []
    for line in (FOLDER / f"{template}.template").read_text(encoding="utf-8").splitlines():
        word = line.strip()
        out += lists[word] if word in lists else [Template(line).substitute(values, HEAD=HEAD)]
    return out


def filled_file(template, /, **values):
    """Returns the text of a file that is one template."""
    return "\n".join(filled(template, **values)) + "\n"


def with_uses(template, body, /, **values):
    """Returns the text of a file: its `use` lines from a template, with only the names that occur in the body, and the body."""
    code = "\n".join(line for line in body if not line.lstrip().startswith(("//", "--")))
    return "\n".join([*used(filled(template, **values), code), "", *body]).rstrip("\n") + "\n"


def used(lines, text):
    out = []
    for line in lines:
        found = re.fullmatch(r"((?:ghost )?use (?:.*[ .:])?)(?:\{(.*)\}|(\w+))(;?)", line)
        if found is None:
            out.append(line)
        elif found[2]:
            names = ", ".join(it for it in found[2].split(", ") if occurs(it, text))
            out += [f"{found[1]}{{{names}}}{found[4]}"] if names else []
        elif occurs(found[3], text):
            out.append(line)
    return out


def occurs(name, text):
    if name.startswith("◌"):
        return re.search(rf" {re.escape(name.strip('◌'))}\s", text) is not None
    return re.search(rf"(?<![\w:.]){re.escape(name)}(?!\w)", text) is not None
