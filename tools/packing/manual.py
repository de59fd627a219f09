"""Writes man pages and completions for bash, from what programs print for --help, and a man page of the header for C."""

import re
import subprocess

from packing import texts
from packing.builds import TOP
from shared.tables import rows_of

# An option of a help text: what precedes two spaces, and what follows them.
OPTION = re.compile(r"^ {2,8}(-.*?)(?: {2,}(.*))?$")
STATUS = "The exit status is"
EXAMPLES = TOP / "tools/packing/examples.tsv"
COMPLETION, CASE = texts.packing("completion.bash"), texts.packing("completion-case.bash")


def purpose_of(name):
    text = (TOP / f"crates/{name}/src/main.rt").read_text(encoding="utf-8")
    return " ".join(re.match(r"(?://! .*\n)+", text)[0].replace("//!", "").split())


def help_of(program):
    return subprocess.run([program, "--help"], stdin=subprocess.DEVNULL, capture_output=True, text=True, check=True).stdout


class Help:
    """The parts of a help text: the usage line, options with their texts, paragraphs, and those about the exit status."""

    def __init__(self, name, text):
        self.usage, self.options, self.paragraphs, self.status = name, [], [], []
        for paragraph in text.strip("\n").split("\n\n"):
            lines = paragraph.split("\n")
            if lines[0].startswith("Usage: "):
                self.usage = " ".join(line.strip() for line in lines).removeprefix("Usage: ")
            elif OPTION.match(lines[0]):
                self.read_options(lines)
            elif paragraph.startswith(STATUS):
                self.status.append(paragraph)
            else:
                self.paragraphs.append(paragraph)

    def read_options(self, lines):
        for line in lines:
            if found := OPTION.match(line):
                self.options.append([found[1], found[2] or ""])
            else:
                self.options[-1][1] = f"{self.options[-1][1]} {line.strip()}".strip()


def examples(name):
    return [(row["command"], row["what it does"]) for row in rows_of(EXAMPLES) if row["program"] == name]


def escaped(text):
    return re.sub(r"^([.'])", r"\\&\1", text.replace("\\", "\\e").replace("-", "\\-"), flags=re.M)


def section(title, lines):
    return "".join(f"{line}\n" for line in [f".SH {title}", *lines]) if lines else ""


def filled(paragraphs):
    """Returns paragraphs. The lines of one that starts with a space or a hyphen stay as they are."""
    out = []
    for paragraph in paragraphs:
        is_shown = paragraph.startswith((" ", "- "))
        out += [".PP", *[".nf"] * is_shown, escaped(paragraph), *[".fi"] * is_shown]
    return out[1:]


def man_page(name, text, commit, others=()):
    help_text = Help(name, text)
    what = purpose_of(name)
    what = (what[0].lower() + what[1:]).rstrip(".").replace("`", "")
    options = [line for option, words in help_text.options for line in (".TP", f"\\fB{escaped(option)}\\fR", escaped(words))]
    shown = [line for command, words in examples(name) for line in (".TP", f"\\fB{escaped(command)}\\fR", escaped(words))]
    also = [", ".join(f"\\fB{escaped(other)}\\fR(1)" for other in others if other != name)]
    return "".join([
        f'.TH {name.upper()} 1 "" "{texts.release()} ({commit[:12]})"\n',
        section("NAME", [f"{escaped(name)} \\- {escaped(what)}"]),
        section("SYNOPSIS", [escaped(help_text.usage)]),
        section("DESCRIPTION", filled(help_text.paragraphs)),
        section("OPTIONS", options),
        section("EXIT STATUS", filled(help_text.status)),
        section("EXAMPLES", shown),
        section("SEE ALSO", also if also[0] else []),
    ])


def comment_of(block):
    """Returns the paragraphs of the comment that a part of the header starts with, and what follows it."""
    comment, _, rest = block.partition("*/\n")
    lines = [line.strip().removeprefix("*").strip() for line in comment.removeprefix("/*").rstrip().split("\n")]
    return "\n".join(lines).split("\n\n"), rest


def parts_of(header):
    """Yields name, comment and declaration of the functions and structs of the header that have a comment."""
    for block in header.split("\n\n"):
        paragraphs, rest = comment_of(block) if block.startswith("/*") else ([], "")
        if found := re.match(r"(?:static inline )?(?:uint32_t|size_t|int|const char) \*?(\w+)\([^)]*\)", rest):
            yield found[1], paragraphs, found[0].removeprefix("static inline ") + ";"
        elif found := re.match(r"typedef struct (\w+)", rest):
            yield found[1], paragraphs, rest


def header_page(header, commit, programs):
    """Returns a man page of the header, made of its comments."""
    head, _ = comment_of(header[header.index("/* The operators") :])
    described = {True: [], False: []}
    for name, paragraphs, declared in parts_of(header):
        lines = [f".SS {name}", ".nf", escaped(declared), ".fi", ".PP", *filled(paragraphs)]
        described[declared.startswith("typedef")] += lines
    also = [", ".join(f"\\fB{escaped(name)}\\fR(1)" for name in programs)]
    flags = "cc .. $(pkg-config --cflags --libs wasm_operators)"
    return "".join([
        f'.TH WASM_OPERATORS 3 "" "{texts.release()} ({commit[:12]})"\n',
        section("NAME", ["wasm_operators \\- a decoder of the operators of WebAssembly function bodies"]),
        section("SYNOPSIS", [".nf", "#include <wasm_operators.h>", escaped(flags), ".fi"]),
        section("DESCRIPTION", filled(head)),
        section("FUNCTIONS", described[False]),
        section("TYPES", described[True]),
        section("SEE ALSO", also),
    ])


def completion(name, text):
    """Returns the completion of a program for bash."""
    options, cases = [], ""
    for option, words in Help(name, text).options:
        names = re.findall(r"(?<![\w-])--?[\w-]*\w", option)
        options += names
        if "--features" in names:
            cases += CASE.format(option=" | ".join(names), words=" ".join(["all", "none", *re.split(r",\s*", words.partition(": ")[2])]))
    return COMPLETION.format(name=name, cases=cases, options=" ".join(options))
