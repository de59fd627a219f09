"""Chooses the words that describe definitions."""

import re

# In words of a description.
LIMIT = 40
# A comment that refers to another definition, by its name or to the one before.
REFERS = re.compile(r"As `(\w+)`|The same\b|[^.]*\bsuch an? ")


class Given:
    """A line of tools/definitions.tsv."""

    def __init__(self, number, line):
        cells = (line.split("\t") + ["", "", ""])[:4]
        self.number = number
        self.file = tuple(cells[0].split("/"))
        self.names = [it for it in re.split(r",\s*", cells[1].strip()) if it]
        self.section, self.words = cells[2].strip(), cells[3].strip()


def given_of(text):
    return [Given(number, line) for number, line in enumerate(text.split("\n"), 1) if number > 1 and line.strip()]


def before(file, name):
    """Returns the last definition with a comment before this one, or None."""
    found = None
    for it in file.definitions.values():
        if it.name == name:
            return found
        if it.words and it.head is None:
            found = it
    return None


def commented(file, name):
    """Returns the definition whose comment describes this one, or None: itself, the data type of this constructor, or the one
    before if its comment has this name.
    """
    own = file.definitions[name]
    if own.words:
        return own
    if own.head is not None:
        return commented(file, own.head)
    other = before(file, name)
    return other if other and f"`{name}`" in other.words else None


def referred(file, name):
    found = REFERS.match(file.definitions[name].words)
    if found is None:
        return None
    return file.definitions.get(found[1]) if found[1] else before(file, name)


def with_referred(file, names):
    found, todo = set(), list(names)
    while todo:
        name = todo.pop()
        if name not in found:
            found.add(name)
            other = referred(file, name)
            todo += [other.name] if other else []
    return found


def described(file, name, given):
    """Returns the words and the section of a definition, or None. `given` has the lines of the table about its file."""
    line = next((it for it in given if name in it.names), None)
    if line and (shared := re.fullmatch(r"as `(.*)`", line.words)):
        return described(file, shared[1], given)
    of_file = next((it.section for it in given if not it.names), file.section)
    own = commented(file, name)
    section = line.section if line and line.section else own.section if own and own.section else of_file
    words = line.words if line and line.words else own.words if own else None
    return words and (words, section)


def needless(file, it):
    """Returns why a line of the table is needless, or None."""
    own = [file.definitions[name] for name in it.names]
    if it.words and own and all(count(it.words) <= count(one.words) <= LIMIT for one in own):
        return "the comments have these words"
    if it.section and not it.words and all(it.section == one.section for one in own or [file]):
        return "the file names this section"
    return None if it.words or it.section else "it says nothing"


def faults_of(files, given):
    """Yields the faults of the table."""
    for it in given:
        file = files.get(it.file)
        lost = [name for name in it.names if file and name not in file.definitions]
        if file is None:
            yield it, "there is no such file"
        elif lost:
            yield it, f"the file does not define {', '.join(lost)}"
        elif why := needless(file, it):
            yield it, f"{why}; take that out"


def count(words):
    return len(words.split())
