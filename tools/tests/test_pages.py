"""What pages name exists."""

import re
import unittest
from pathlib import Path

import first_change as it
from immediates import KINDS
from shared.crates import crates
from table import COLUMNS, FEATURES, INLINE, ROLES, table
from visits import GROUPS

TOP = Path(__file__).resolve().parent.parent.parent


def section(page, heading):
    text = (TOP / page).read_text(encoding="utf-8")
    return re.search(rf"^## {re.escape(heading)}\n(.*?)(?=^## |\Z)", text, re.DOTALL | re.MULTILINE)[1].splitlines()


def parents(lines):
    """Returns each crate with the one above it that has less indentation, if any."""
    out, above = {}, []
    for line in lines:
        indent = len(line) - len(line.lstrip())
        above = [one for one in above if one[0] < indent]
        out[line.split()[0]] = above[-1][1] if above else None
        above.append((indent, line.split()[0]))
    return out


def rows(lines):
    return [[cell.strip() for cell in line[1:-1].split("|")] for line in lines if line.startswith("|")][2:]


class Links(unittest.TestCase):
    def test_relative_links_lead_to_files(self):
        pages = [path for path in [*TOP.glob("*.md"), *TOP.glob("*/**/*.md")] if not {"out", "target"} & set(path.parts)]
        for page in pages:
            text = re.sub(r"```.*?```", "", page.read_text(encoding="utf-8"), flags=re.DOTALL)
            for target in re.findall(r"\]\(([^)#\s:]+)(?:#[^)\s]*)?\)", text):
                self.assertTrue((page.parent / target).exists(), f"{page.relative_to(TOP)}: {target}")


class Architecture(unittest.TestCase):
    page = "docs/ARCHITECTURE.md"

    def test_the_tree_has_the_crates_below_what_they_list(self):
        lines = section(self.page, "Crates")
        first = lines.index("```text")
        shown = lines[first + 1 : lines.index("```", first + 1)]
        found, listed = parents(shown), crates()
        self.assertEqual((sorted(found), len(found)), (sorted(listed), len(shown)))
        for name, above in found.items():
            self.assertEqual(above is None, not set(listed[name]) & listed.keys(), name)
            self.assertTrue(above is None or above in listed[name], name)

    def test_the_names_of_decoder_and_proofs_exist(self):
        sources = [path for end in ("rt", "antt") for path in TOP.glob(f"crates/*/s*/**/*.{end}")]
        sources += TOP.glob("crates/*/proofs/**/*.antt")
        words = set(re.findall(r"\w+", "\n".join(path.read_text(encoding="utf-8") for path in sources)))
        words |= {path.name for path in TOP.glob("crates/*")}
        for heading in ("The decoder", "Proofs"):
            for name in re.findall(r"`([^`]+)`", "\n".join(section(self.page, heading))):
                if name.startswith("tools/"):
                    self.assertTrue((TOP / name.split()[0]).exists(), name)
                elif name.endswith(".antt"):
                    self.assertTrue(any(path.match(name) for path in sources), name)
                elif not name.endswith(".md"):
                    self.assertEqual(set(re.findall(r"\w+", name)) - words, set(), name)


class Columns(unittest.TestCase):
    def test_each_column_and_kind_is_described(self):
        lines = section("docs/ADDING-AN-OPERATOR.md", "The columns of `tools/operators.tsv`")
        described = {name: row[1] for row in rows(lines) for name in re.findall(r"`(\w+)`", row[0])}
        self.assertEqual(list(described), COLUMNS)
        for column, values in {"role": ("role_of", *ROLES), "feature": FEATURES, "inline": (*INLINE, "wasm_view")}.items():
            self.assertEqual(set(re.findall(r"`([^`]+)`", described[column])), set(values))
        kinds = re.search(r"The kinds are (.*?)\. ", "\n".join(lines))[1]
        self.assertEqual(set(re.findall(r"`(\w+)`", kinds)), set(KINDS))


class Calling(unittest.TestCase):
    def test_the_table_of_groups(self):
        shown = [[re.findall(r"\w+", cell) for cell in row] for row in rows(section("crates/wasm_operators/CALLING.md", "Overriding visits"))]
        wanted = [(it.trait, str(len(it.of(table()))), f"Own{it.mark}") for it in GROUPS]
        self.assertEqual([(group[0], count[0], named[0]) for group, _, count, named in shown], wanted)


class FirstChange(unittest.TestCase):
    def test_the_change_is_on_the_page(self):
        steps = it.steps(it.section())
        path, old, new = it.BROKEN
        for text in (path, f"`{old}`", f"`{new}`"):
            self.assertIn(text, steps[2])
        self.assertEqual((it.TOP / path).read_text(encoding="utf-8").count(old), 1)
        self.assertEqual(len(it.blocks(steps[5])), 1)
