"""Reads the arguments of a tool. The text of its help is its docstring."""

import argparse
import re
import sys
from pathlib import Path

PATHS = ("ARCHIVE", "DIR", "FILE", "FOLDER", "LIBRARY", "LOG", "MAIN", "PATH", "PROGRAM")
FORM = re.compile(r"(--[\w-]+)?(?: ?(\[)?(\w+)\]?(\.\.)?)?")


class Reader(argparse.ArgumentParser):
    def format_help(self):
        return f"{self.description.strip()}\n"

    def error(self, message):
        sys.stderr.write(f"{self.format_help()}\n{message}\n")
        sys.exit(2)


def absolute(text):
    return Path(text).absolute()


def read(doc, *forms, words=None):
    """Returns the arguments by name. A form is `--FLAG`, `--FLAG VALUE`, `VALUE`, `[VALUE]`, or `VALUE..` for a list.

    A value is an absolute path if it is one of PATHS, a whole number if it is `N`, else a text. `--as-is` has the name `as_is`, `FILE`
    the name `file`, and `FILE..` the name `files`.
    """
    reader = Reader(description=doc, allow_abbrev=False, formatter_class=argparse.RawDescriptionHelpFormatter)
    for form in forms:
        flag, optional, value, several = FORM.fullmatch(form).groups()
        kind = absolute if value in PATHS else int if value == "N" else str
        if flag and value:
            reader.add_argument(flag, type=kind, metavar=value)
        elif flag:
            reader.add_argument(flag, action="store_true")
        else:
            name = value.lower() + "s" * bool(several)
            reader.add_argument(name, type=kind, metavar=value, nargs="*" if several else "?" if optional else None)
    return reader.parse_intermixed_args(words)
