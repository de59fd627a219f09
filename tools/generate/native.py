"""Writes the structs and calls of the header for C as Rust: rust/src/declared.rs."""

import re
import textwrap

from header import PATH
from table import TOP

FILE = "rust/src/declared.rs"
HEAD = """\
//! Structs and calls of `wasm_operators.h`. Written by tools/lists.py from that header, which describes the calls.
"""
# The structs that the cargo crate uses, with their names there. It has a parser in Rust.
STRUCTS = {
    "wasm_operator": "PlainOperator", "wasm_refusal": "Refusal", "wasm_reader": "PlainReader", "wasm_type": "PlainType",
    "wasm_handler": "PlainHandler", "wasm_value": "PlainValue", "wasm_bodies": "PlainBodies", "wasm_body": "PlainBody",
    "wasm_locals": "PlainLocals",
}
# The columns of a line, as rustfmt lays it out.
WIDTH = 101
INTEGERS = {f"uint{width}_t": f"u{width}" for width in (8, 16, 32, 64)} | {"size_t": "usize"}
# The crate has the names of operators in Rust.
LEFT_OUT = {"wasm_operator_name"}
# The calls that only a feature of the crate needs.
FEATURES = {"wasm_validate_module": "validate"}
CALL = re.compile(r"^(uint32_t|size_t) (wasm_\w+)\(([^)]*)\);", re.M)
FIELD = re.compile(r"((?:  /\*(?:[^*]|\*(?!/))*\*/\n)?)  (\w+) (\w+)(?:\[(\d+)\])?;(?: /\* ([^\n]*) \*/)?\n")
PARAMETER = re.compile(r"(const )?(\w+) (\*)?(\w+)")


def kind_of(name):
    return INTEGERS.get(name) or STRUCTS.get(name)


def field(found):
    """Returns a field with its comment, which is before it or after it in the header."""
    before, kind, name, count, after = found
    words = " ".join(line.strip().strip("/*").strip() for line in before.split("\n")).strip() or after
    lines = textwrap.wrap(f"{words[:1].upper()}{words[1:].rstrip('.')}.", 92) if words else []
    comment = "".join(f"    /// {line}\n" for line in lines)
    return f"{comment}    pub {name}: {f'[{kind_of(kind)}; {count}]' if count else kind_of(kind)},\n"


def struct(header, name):
    body = re.search(rf"^typedef struct {name} \{{\n(.*?)^\}} {name};", header, re.M | re.S)[1]
    fields = "".join(map(field, FIELD.findall(body)))
    return f"""
/// `{name}` of the header.
#[repr(C)]
#[derive(Clone, Copy, Debug, Default, PartialEq, Eq)]
pub struct {STRUCTS[name]} {{
{fields}}}
"""


def parameters_of(text):
    """Returns name and type of each parameter, or None if the crate does not have a struct of the call."""
    out = []
    for const, kind, star, name in PARAMETER.findall(" ".join(text.split())):
        if not kind_of(kind):
            return None
        pointer = f"*{const or 'mut '}" if star else ""
        out.append(f"{name}: {pointer}{kind_of(kind)}")
    return out


def call(result, name, parameters):
    feature = f'    #[cfg(feature = "{FEATURES[name]}")]\n' if name in FEATURES else ""
    is_safe = not any("*" in it for it in parameters)
    head, end = f"    pub {'safe ' * is_safe}fn {name}(", f") -> {INTEGERS[result]};\n"
    line = f"{head}{', '.join(parameters)}{end}"
    listed = "".join(f"        {it},\n" for it in parameters)
    return feature + (line if len(line) <= WIDTH else f"{head}\n{listed}    {end}")


def native_files():
    header = (TOP / PATH).read_text(encoding="utf-8")
    calls = [(result, name, parameters_of(text)) for result, name, text in CALL.findall(header) if name not in LEFT_OUT]
    listed = "".join(call(*it) for it in calls if it[2] is not None)
    return {FILE: f'{HEAD}{"".join(struct(header, name) for name in STRUCTS)}\nunsafe extern "C" {{\n{listed}}}\n'}
