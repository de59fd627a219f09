"""Reads tables: lines of cells with tabs between them, of which the first has the names of the columns."""

import csv
from dataclasses import fields


def rows_of(path):
    """Returns the rows of a file by the names of the columns, without lines that start with `#`."""
    lines = (line for line in path.read_text(encoding="utf-8").split("\n") if line and not line.startswith("#"))
    return list(csv.DictReader(lines, delimiter="\t", quoting=csv.QUOTE_NONE))


def records(of, path):
    """Yields the rows of a file as instances of a dataclass. An empty cell is the default, and ` | ` is between the items of a tuple."""
    types = {field.name: field.type for field in fields(of)}
    value = lambda kind, cell: tuple(cell.split(" | ")) if kind is tuple else kind(cell)
    for row in rows_of(path):
        yield of(**{name: value(types[name], cell) for name, cell in row.items() if cell})
