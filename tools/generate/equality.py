"""Lists for each variant why the equality of its fields is exact."""

from immediates import TYPES
from source import Shape, shapes
from table import HEAD, held
from templates import filled

COUNTS = ("none", "one", "two", "three")
WIDTH = 160


def variant_exact(types):
    blanks = ["_"] * len(types)
    return " ".join([COUNTS[len(types)], *blanks, *(TYPES[ty].exact for ty in types)])


def homes():
    """Returns the lemmas by file."""
    found = {}
    for ty in TYPES.values():
        found.setdefault(ty.home, {})[ty.exact] = ty
    return found


def chain(terms):
    lines = [""]
    for term in [*terms, "tt"]:
        piece = term if term == "tt" else f"{term} ▸ "
        if lines[-1] and len(lines[-1]) + len(piece) > WIDTH:
            lines.append("")
        lines[-1] += piece
    return [line.rstrip() for line in lines]


def imports(terms, extra=()):
    """Returns the `use` lines."""
    words = {word for term in terms for word in term.split()} | set(extra)
    out = []
    for home, names in homes().items():
        used = [name for name in names if name in words]
        if used and home.startswith("lemmas"):
            out.append(f"use Rattle.std.proofs.{home}.{{{', '.join(used)}}}")
        elif used:
            place = home if "." in home else f"wasm_imm.proofs.{home}"
            out.append(f"use Rattle.{place}.{{{', '.join(used)}}}")
    helpers = [word for word in ("enum_exact", "bare_exact", "◌▸◌", *COUNTS) if word in words or word == "◌▸◌" and terms]
    out.append(f"use Rattle.wasm_below.proofs.EnumEquality.{{{', '.join(helpers)}}}")
    return [f"use Rattle.wasm_below.specs.Equality.{{IsExact}}", *out]


def contracts(crate, module, name, word):
    base = f"use Rattle.{crate}.specs.contracts.{module}.{name}"
    return [f"{base} as {word}_type", f"{base}PartialEq.TheImpl as {word}_eq"]


def exact(name, word, terms, lifetime=""):
    record = f"({word}_type.enum {lifetime})" if lifetime else f"{word}_type.enum"
    return [f"pub {name} : IsExact {word}_eq.ghosts.eq", f"{name} = enum_exact {record} _", *(f"    {line}" for line in bracketed(chain(terms)))]


def bracketed(lines):
    return [f"({lines[0]}", *lines[1:-1], f"{lines[-1]})"] if len(lines) > 1 else [f"({lines[0]})"]


def enum_equality(enum, ops):
    low = enum.module
    shape = Shape(ops)
    if shape.is_plain:
        body = [f"pub {low}_exact : IsExact {low}_eq.ghosts.eq", f"{low}_exact = bare_exact {low}_type.the_type tt"]
        return page(enum, imports([], ["bare_exact"]) + contracts(enum.crate, low, enum.type, low), body)
    if shape.by_fields:
        return by_fields_equality(enum, ops)
    terms = [variant_exact([ty for _, ty in op.fields]) for op in ops]
    return page(enum, imports(terms, ["enum_exact"]) + contracts(enum.crate, low, enum.type, low), exact(f"{low}_exact", low, terms))


def by_fields_equality(enum, ops):
    low = enum.module
    found = shapes(ops)
    terms = [variant_exact([ty for _, ty in those[0].fields]) for those in found.values()] + ["none"]
    uses = [
        "use Rattle.std.proofs.Common.{◌==◌, ap}",
        "use Rattle.std.proofs.lemmas.Bool.Decides.{Decides-and, Decides-like}",
        *imports(terms, ["enum_exact", "Decides-eqb"]),
        *contracts(enum.crate, low, f"{enum.group}Fields", f"{low}_fields"),
        f"use Rattle.{enum.crate}.specs.contracts.{low}.{enum.type}PartialEq.TheImpl as {low}_eq",
        f"use Rattle.{enum.crate}.specs.{enum.group}.{{{enum.opcode}, {low}_fields}}",
        f"use Rattle.{enum.crate}.proofs.{enum.group}ByOpcode.{{{low}_same}}",
    ]
    body = [
        *exact("fields_exact", f"{low}_fields", terms),
        "",
        *filled("equality/by_fields.antt", module=low, opcode=enum.opcode),
    ]
    return page(enum, uses, body)


def page(enum, uses, body):
    return "\n".join([f"-- {HEAD}", *uses, "", *body, ""])


def operator_equality(ops):
    inner = {enum.group: f"{enum.module}_exact" for enum in held()}
    terms = [variant_exact([ty for _, ty in op.fields]) for op in ops] + [f"one _ {name}" for name in inner.values()]
    uses = ["use denote.Signature.{static_lft}", *imports(terms, ["enum_exact"])]
    uses += [f"use Rattle.{enum.crate}.proofs.{enum.group}Equality.{{{enum.module}_exact}}" for enum in held()]
    uses += contracts("wasm_instr", "operator", "Operator", "operator")
    return "\n".join([f"-- {HEAD}", *uses, "", *exact("operator_exact", "operator", terms, "static_lft"), ""])


def equality_files(ops, enums):
    out = {f"crates/{enum.crate}/proofs/{enum.group}Equality.antt": enum_equality(enum, [op for op in ops if op.group == enum.group]) for enum in enums}
    out["crates/wasm_instr/proofs/OperatorEquality.antt"] = operator_equality([op for op in ops if op.group == "Own"])
    return out
