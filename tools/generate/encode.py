"""Writes the encoder's lists over the operators (crates/wasm_encode_operators): opcodes, immediates, and their proofs."""

from immediates import COMBINATIONS, FORMS, KINDS, ROW_WORDS
from plain import BOUND, bound
from source import joined_arm, rust_pattern
from table import ENUMS, held, imported
from templates import filled, filled_file, with_uses

CRATE = "crates/wasm_encode_operators"
# The prover's search finds no proof of an arm of this many operators or more, nor of an arm with immediates of these
# kinds, except for one heap type of one operator.
MANY = 22
UNFOUND = {"memory", "ordered", "heap_type", "cast", "signed_32", "signed_64"}
UNFOUND_KINDS = {("unsigned", "unsigned", "resume_table")}


def most(ops):
    """Returns the greatest number of bytes of the immediates of these operators, without lists."""
    return max(sum(KINDS[kind].most for kind in op.kinds) for op in ops)


def pattern(op, ty):
    fields = ", ".join(f"{name}: {to}" for name, _, to in bound(op))
    return f"{ty}::{op.name}" + (f" {{ {fields} }}" if fields else "")


# ---- sources


def pair(parts):
    if len(parts) < 2:
        return parts[0] if parts else "()"
    return f"({parts[0]}, {pair(parts[1:])})"


def value(op, by_reference):
    """Returns the value of the type that the decoder reads, over the fields."""
    names = [f"*{to}" if by_reference else to for to in BOUND[: len(op.fields)]]
    parts = []
    for form in (FORMS[it] for it in op.forms):
        here, names = names[: len(form.types)], names[len(form.types) :]
        if form.parts:
            members = [part.format("").lstrip(".") for part in form.parts]
            parts.append(f"{form.read} {{ {', '.join(f'{to}: {it}' for to, it in zip(members, here))} }}")
        else:
            parts.append(f"{form.read}({here[0]})" if form.is_wrapped else here[0])
    return pair(parts)


def call(op, by_reference):
    """Returns the expression that writes the immediates."""
    if op.combination and op.combination.encoder:
        return op.combination.encoder
    if not op.kinds:
        return "Ok(())"
    it = value(op, by_reference)
    return f"{f'({it})' if it.startswith('*') else it}.write(out, features, {op.align if 'memory' in op.kinds else 0})"


def alike(ops, by_reference):
    """Returns the operators of each arm, and its call."""
    found = {}
    for op in ops:
        found.setdefault((call(op, by_reference), op.forms), []).append(op)
    return [(those, it) for (it, _), those in found.items()]


def arms(ops, ty, by_reference):
    return [joined_arm([pattern(op, ty) for op in those], it) for those, it in alike(ops, by_reference)]


def enums():
    return [enum for enum in held() if enum.group != "Numeric"]


def writers():
    """Returns the names of the functions that write immediates with a list, or a single type."""
    return sorted({it.encoder.split("(")[0] for it in COMBINATIONS.values() if it.encoder})


def immediates_source(enum, ops):
    # (the templates of `use` lines have `Writes` on a line apart: its method is called, and the trait is not named)
    body = filled(
        "encode/immediates.rt",
        article="an" if enum.group == "Atomic" else "a",
        module=enum.module,
        type=enum.type,
        most=most(ops),
        arms=arms(ops, enum.type, False),
    )
    return with_uses("encode/immediates_uses.rt", body, **names_of(enum), type=enum.type, module=enum.module)


def own_source(ops, all_ops):
    body = filled(
        "encode/own.rt",
        most=most(all_ops),
        arms=arms(ops, "Operator", True),
        by_enum=[f"Operator::{enum.group}(inner) => write_{enum.module}(out, features, *inner)," for enum in enums()],
    )
    calls = sorted(f"use crate::immediates::{enum.module}::write_{enum.module};" for enum in enums())
    return with_uses("encode/own_uses.rt", body, calls=calls, writers=", ".join(writers()), **read_types())


def read_types():
    """Returns the types that the decoder reads, by crate, for `use` lines."""
    found = {}
    for form in FORMS.values():
        if form.read_crate:
            found.setdefault(form.read_crate, set()).add(form.read)
    return {crate.removeprefix("wasm_"): ", ".join(sorted(names)) for crate, names in found.items()}


def names_of(enum):
    return {"crate": enum.crate, "group": enum.group, **read_types()}


def tail_arms(ops, ty, of):
    return [f"{rust_pattern(op, ty)} => {of(op.hex())}," for op in ops]


def codes_source(ops):
    own = [op for op in ops if op.group == "Own"]
    lines = filled(
        "encode/codes.rt",
        enum_uses=[f"ghost use Rattle.{enum.crate}.specs.{enum.group}.{{{enum.opcode}}};" for enum in ENUMS],
        arms=tail_arms(own, "Operator", lambda code: f"Opcode::Byte({code})"),
        by_enum=[f"Operator::{enum.group}(inner) => Opcode::Prefixed(0x{enum.prefix}, {enum.module}(*inner))," for enum in enums()],
    )
    for enum in held():
        of_enum = [op for op in ops if op.group == enum.group]
        lines += ["", *filled(
            "encode/enum_codes.rt",
            visibility="" if enum.prefix else "pub ",
            module=enum.module,
            what="subopcode" if enum.prefix else "opcode",
            type=enum.type,
            number="u32" if enum.prefix else "u8",
            opcode=enum.opcode,
            arms=tail_arms(of_enum, enum.type, str),
        )]
    return "\n".join(lines) + "\n"


# The variant of `Form` by kinds of immediates.
COMMON = {
    (): "Byte", ("unsigned",): "Unsigned", ("signed_32",): "Signed32", ("signed_64",): "Signed64", ("block_type",): "Block",
    ("memory",): "Access",
}


def form(op):
    """Returns the operator's common form over its bound fields, or None."""
    if op.feature or op.kinds not in COMMON:
        return None
    fields = [f"*{to}" for _, _, to in bound(op)]
    align = [op.align] if "memory" in op.kinds else []
    return f"Form::{COMMON[op.kinds]}({', '.join([op.hex(), *fields, *align])})"


def forms_source(own):
    arms = [f"{pattern(op, 'Operator')} => {form(op)}," for op in own if form(op)]
    return filled_file("encode/forms.rt", arms=arms)


# ---- proofs


def is_found(those):
    """Returns whether the prover's search finds the proof of an arm."""
    kinds = those[0].kinds
    if len(those) >= MANY or kinds in UNFOUND_KINDS:
        return False
    return kinds == ("heap_type",) and len(those) == 1 or not UNFOUND.intersection(kinds)


def listed(op, at):
    """Returns the immediates over the bound fields of an arm, in antt."""
    names, parts = [f"{at}.{to}" for to in BOUND[: len(op.fields)]], []
    for it in op.immediates:
        word, *more = it.split()
        kind = KINDS[word]
        here, names = names[: len(kind.types)], names[len(kind.types) :]
        if kind.width:
            here = [f"(to_z {kind.width} (of_z {kind.width} {here[0]}))"]
        parts.append(f"{kind.immediate} {kind.argument.format(*here, **dict(zip(('sort', 'align'), more)))}")
    return " ∷ ".join([*parts, "[]"])


def by_pattern(immediates, count, at):
    """Returns the proof that the operator has the immediates of the arm, by cases on its patterns."""
    if count == 1:
        return f"ap {immediates} {at}"
    return f"elim {at} [ inl h ↦ ap {immediates} h | inr m ↦ {by_pattern(immediates, count - 1, 'm')} ]"


def called(those, it, found):
    """Returns the call of an arm as its goal names it, and its clause.

    A function that several arms call is named alone in the first arm of one pattern, else in the last arm.
    """
    name = it.split("(")[0]
    if it.startswith(name) and name in writers():
        return f"c.{name}", "ensures"
    calls = [ops for ops, other in found if ".write(" in other]
    alone = next((ops for ops in calls if len(ops) == 1), calls[-1])
    return ("c.write" if those is alone else f"c.write-in-{those[0].name}"), "ensures.written"


def answer(those, it, found, immediates, op):
    first, at = those[0], f"c.in-{those[0].name}"
    equal = by_pattern(immediates, len(those), f"{at}.is")
    if not first.kinds:
        return filled("encode/answer_of_none.antt", name=first.name, immediates=immediates, op=op, equal=equal)
    call, clause = called(those, it, found)
    width = next((KINDS[kind].width for kind in first.kinds if KINDS[kind].width), "")
    fits = []
    if width:
        fits = [f"    let fits : SFits {width} {at}.a = search rules in"]
        equal += f" ∙ ap (λ v. {KINDS[first.kinds[0]].immediate} v ∷ []) (sym (to_z-of_z {width} {at}.a fits))"
    return filled(
        "encode/answer.antt", name=first.name, immediates=immediates, op=op, listed=listed(first, at), equal=equal,
        call=call, clause=clause, fits=fits,
    )


def answers(ops, module, function, spec, op, by_reference):
    immediates, body = spec.split(".")[-1], []
    found = alike(ops, by_reference)
    for those, it in found:
        if not is_found(those):
            body += [*answer(those, it, found, immediates, op), ""]
    return with_uses(
        "encode/Answers.antt", body, immediates=immediates, spec=spec.removesuffix(f".{immediates}"),
        words=", ".join(imported("\n".join(body), ROW_WORDS)), path=f"{module}.{function}",
    )


def encode_files(ops):
    own = [op for op in ops if op.group == "Own"]
    proofs = f"{CRATE}/proofs/immediates"
    out = {
        f"{CRATE}/src/codes.rt": codes_source(ops),
        f"{CRATE}/src/forms.rt": forms_source(own),
        f"{CRATE}/src/immediates/own.rt": own_source(own, ops),
        f"{proofs}/own/write_immediates/Answers.antt": answers(
            own, "own", "write_immediates", "wasm_instr.specs.Row.immediates_of", "c.args.op.now", True,
        ),
    }
    for enum in enums():
        those, low = [op for op in ops if op.group == enum.group], enum.module
        out[f"{CRATE}/src/immediates/{low}.rt"] = immediates_source(enum, those)
        if not all(is_found(arm) for arm, _ in alike(those, False)):
            out[f"{proofs}/{low}/write_{low}/Answers.antt"] = answers(
                those, low, f"write_{low}", f"{enum.crate}.specs.{enum.group}.{low}_immediates", "c.args.op", False,
            )
    return out
