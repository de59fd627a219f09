#!/usr/bin/env python3
"""Writes the input of the program wasm_tests_c from wasmparser's results in wasm_tests_replay.

    tools/c_answers.py            writes crates/wasm_tests_c/stdin and stdout
    tools/c_answers.py --check    fails if one of them is not what the sources below give

The lines of the input have cells with tabs between them:

    body  FEATURES  HEX  END  LINES  TEXT  PLAIN  CONST  LOCALS
                                      a function body. END is `NUMBER OFFSET COUNT`: the number of the error or 0, its
                                      offset or the end's, and the number of operators. LINES is the fingerprint of
                                      their lines, TEXT the text of the error. PLAIN is how a visitor without SIMD
                                      operators ends. CONST and LOCALS read the bytes as a constant expression and locals
    list  NAME  HEX  AT  MEMBERS      a body with an operator that has a list, its offset, and `0 COUNT:` with the members
    text  HEX  TEXT                   an operator and its text
    value  KIND  ARGUMENT  HEX  VALUE a value and its numbers in C, or the number and the offset of the error
    module  HEX  FUNCTIONS            a module and its functions: the index, the offset and the name of each
    function  HEX  FUNCTIONS          the same with the length and the type index of each
    encode  HEX  AT  SHORTEST         a body with an operator, its offset, and its shortest encoding
    validate  HEX  VERDICT            a module, and `ok` or the offset of its error, the function that it is in, the message
    code    LOCALS  HEX  SECTION      declarations of locals, the bytes of operators, and the code section with this body

The README of the program says which bodies it takes. The texts are from crates/wasm_tests_bodies/stdin and
crates/wasm_objdump/data, the encodings from crates/wasm_tests_encode/stdin. Verdicts are from the standard and
wasmparser 0.239 (tools/original/typing_cases.tsv). FUNCTIONS and the tables values.tsv, code.tsv and validations.tsv of
the program are written by hand from the standard.
"""

import re

from shared import modules
from shared.arguments import read
from shared.crates import TOP
from shared.tables import rows_of
from shared.written import write_or_check
from typing_cases import cases_of

ANSWERS = TOP / "crates/wasm_tests_replay/stdin"
ROWS = TOP / "crates/wasm_tests_bodies/stdin"
ENCODINGS = TOP / "crates/wasm_tests_encode/stdin"
MODULES = TOP / "crates/wasm_objdump/data"
CRATE = TOP / "crates/wasm_tests_c"
HEADER = TOP / "c/include/wasm_operators.h"
VERSION = re.compile(r"^#define WASM_OPERATORS_VERSION (\d+)u$", re.M)
EACH = 8
# The calls over a body, in the order of the output, and how many cases each has.
OVER_BODIES = {
    "wasm_read_body": 2,
    "wasm_operator_name": 1,
    "wasm_refusal_text": 1,
    "wasm_open_body, wasm_next, wasm_finish": 1,
    "wasm_open_body, wasm_read, wasm_finish": 1,
    "wasm_open_body, wasm_next_plain, wasm_finish": 1,
    "wasm_read_value of constant expressions": 1,
    "wasm_read_value of locals": 1,
}
LISTS = {
    "BrTable": "wasm_br_table_targets",
    "TypedSelect": "wasm_select_types",
    "TypedSelectMulti": "wasm_select_types",
    "TryTable": "wasm_try_table_catches",
    "Resume": "wasm_resume_handlers",
    "ResumeThrow": "wasm_resume_handlers",
    "ResumeThrowRef": "wasm_resume_handlers",
}
# The numbers of the C header for types, catches and clauses.
TYPES = {"I32": "127 0", "V128": "123 0", "?Func": "1648 0"}
HANDLERS = {
    "one": "0 {} {}", "oneref": "1 {} {}", "all": "2 0 {}", "allref": "3 0 {}", "label": "0 {} {}", "switch": "1 {} 0",
}
# The bytes of types, by their names in capital letters.
KIND = re.compile(r"WASM_KIND_(\w+) = (0x\w+)")
BYTES = {name: int(byte, 16) for name, byte in KIND.findall(HEADER.read_text(encoding="utf-8"))}
NUMBERS = ("I32", "I64", "F32", "F64", "V128")
# Added for a shared heap type, a nullable reference, and a reference that is a value type.
SHARED, NULLABLE, REFERENCE = 256, 512, 1024
# By the standard: kind, argument, bytes, and the numbers in C and the position after; or the error and its offset.
VALUES = CRATE / "values.tsv"
# What the text of the first module in crates/wasm_tests_bodies/stdin says of its functions.
FUNCTIONS = "1 102 6 1 main;2 109 4 2 other;"
# Bodies: for each declaration how many locals, and the kind and the index of their type; then the bytes of the
# declarations, and of the operators.
CODE = CRATE / "code.tsv"
# Every so many cases of typing_cases.tsv are validated.
EACH_CASE = 313
# Modules and their verdicts.
VALIDATIONS = CRATE / "validations.tsv"


def rows(text):
    answers, samples = text.split("\nname\t")
    tables = []
    for table in (answers, f"name\t{samples}"):
        names, *lines = table.rstrip("\n").split("\n")
        tables.append([dict(zip(names.split("\t"), line.split("\t"))) for line in lines])
    return tables


def taken(answers):
    seen = set()
    for at, row in enumerate(answers):
        refusal = row["E"], re.sub(r"0x[0-9a-f]+|\d+", "", row["text"])
        if at % EACH == 0 or refusal not in seen:
            yield row
        seen.add(refusal)


def body_line(row):
    is_read = row["status"] == "0"
    number = "0" if is_read else row["E"].removeprefix("E")
    offset = len(row["hex"]) // 2 if is_read else row["offset"]
    end = f"{number} {offset} {row['operators']}"
    given = [row["features"], row["hex"], end, row["fnv_lines"], row["text"], row["plain"], row["const"], locals_of(row["locals"])]
    return "\t".join(["body", *given])


def heap_kind(word):
    if word[0] in "#=":
        return (1 if word[0] == "#" else 2), int(word[1:])
    shared = word.startswith("shared-")
    return BYTES[word.removeprefix("shared-").upper()] + SHARED * shared, 0


def type_numbers(word):
    if word in NUMBERS:
        return BYTES[word.upper()], 0
    kind, index = heap_kind(word[1:])
    return kind + NULLABLE * (word[0] == "?") + REFERENCE, index


def locals_of(text):
    """Returns locals in C's numbers: the count, the first five declarations, and the error."""
    words = text.split(" ")
    found = [re.fullmatch(r"(\d+)([A-Z?!].*)", word) for word in words]
    told = [f"{it[1]}:{':'.join(map(str, type_numbers(it[2])))}" if it else word for it, word in zip(found, words)]
    return " ".join(told)


def member_of(word):
    kind, *numbers = word.split(":")
    return HANDLERS[kind].format(*numbers) if kind in HANDLERS else TYPES.get(word, word)


def list_line(sample):
    found = re.search(r"\[(.*)\]", sample["fields"]) or re.search(r"=(.*)", sample["fields"])
    members = [member_of(word) for word in found[1].split(",") if word]
    text = f"0 {len(members)}:" + "".join(f" {member};" for member in members)
    cells = ["list", sample["name"], "".join(sample[it] for it in ("before", "operator", "behind"))]
    return "\t".join([*cells, str(len(sample["before"]) // 2), text])


def text_lines(text):
    found = [line.split("\t") for line in text.splitlines() if line.startswith("text\t")]
    return [f"text\t{cells[2]}\t{cells[3]}" for cells in found]


def value_lines():
    return ["\t".join(["value", *row.values()]) for row in rows_of(VALUES)]


def module_lines():
    lines = []
    for path in sorted(MODULES.glob("*.wasm")):
        listing = path.with_suffix(".txt").read_text(encoding="utf-8")
        heads = re.findall(r"^([0-9a-f]+) func\[(\d+)\](?: <(.*)>)?:$", listing, re.M)
        functions = "".join(f"{index} {int(offset, 16)} {name};" for offset, index, name in heads)
        lines.append(f"module\t{path.read_bytes().hex()}\t{functions}")
    return lines


def function_lines(text):
    module = next(line.split("\t")[2] for line in text.splitlines() if line.startswith("sections\t"))
    return [f"function\t{module}\t{FUNCTIONS}"]


def encode_lines(text):
    lines = []
    for line in text.splitlines():
        _, before, operator, after, shortest = line.split("\t")
        lines.append(f"encode\t{before}{operator}{after}\t{len(before) // 2}\t{shortest}")
    return lines


def code_lines():
    lines = []
    for row in rows_of(CODE):
        entries = modules.vector([modules.sized(bytes.fromhex(row["declarations"] + row["operators"]))])
        lines.append(f"code\t{row['locals']}\t{row['operators']}\t{modules.section(modules.CODE, entries).hex()}")
    return lines


def function_at(module, offset):
    """Returns the index of the function whose body has an offset, in a module without imports, or `-` if none has it."""
    return next((index for index, (start, end) in enumerate(modules.bodies(module)) if start <= offset <= end), "-")


def verdict_of(case):
    if case.is_valid:
        return "ok"
    return f"{case.offset} {function_at(case.module, int(case.offset, 16))} {case.message}"


def validate_lines():
    taken_cases = [it for it in cases_of()[::EACH_CASE] if it.verdict != "unsupported"]
    found = [*map(dict.values, rows_of(VALIDATIONS)), *((it.module.hex(), verdict_of(it)) for it in taken_cases)]
    return [f"validate\t{module}\t{verdict}" for module, verdict in found]


def small_lines(text):
    return {
        "wasm_open_bodies, wasm_next_body, wasm_function_name": [*function_lines(text), *module_lines()],
        "wasm_operator_text, wasm_operator_text_name": text_lines(text),
        "wasm_read_value": value_lines(),
        "wasm_encode_operator": encode_lines(ENCODINGS.read_text(encoding="utf-8")),
        "wasm_encode_locals, wasm_encode_body, wasm_encode_section": code_lines(),
        "wasm_validate_module": validate_lines(),
    }


def files_of(text):
    answers, samples = rows(text)
    bodies = list(taken(answers))
    lists = [it for it in samples if it["name"] in LISTS]
    small = small_lines(ROWS.read_text(encoding="utf-8"))
    cases = {call: each * len(bodies) for call, each in OVER_BODIES.items()}
    cases["wasm_open, wasm_read, wasm_finish"] = sum(row["hex"].startswith("00") for row in bodies)
    for call in dict.fromkeys(LISTS.values()):
        cases[call] = sum(LISTS[it["name"]] == call for it in lists)
    cases |= {call: len(lines) for call, lines in small.items()}
    cases["lines of another sort"] = 0
    version = VERSION.search(HEADER.read_text(encoding="utf-8"))[1]
    counts = [f"{call}: {count} cases, 0 differ" for call, count in cases.items()]
    others = [line for lines in small.values() for line in lines]
    return {
        "stdin": "".join(f"{line}\n" for line in [*others, *map(list_line, lists), *map(body_line, bodies)]),
        "stdout": "".join(f"{line}\n" for line in [f"wasm_operators_version: {version}", *counts]),
    }


def main():
    found = files_of(ANSWERS.read_text(encoding="utf-8"))
    wanted = {CRATE.relative_to(TOP) / name: text for name, text in found.items()}
    write_or_check(wanted, read(__doc__, "--check").check, "tools/c_answers.py")


if __name__ == "__main__":
    main()
