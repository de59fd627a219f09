"""Writes the conversion of operators to a C struct (crates/wasm_view)."""

from immediates import COMBINATIONS, TYPES
from table import held, shared
from templates import filled, filled_file

# The names of a shape's fields in patterns.
BOUND = ["a", "b", "c"]


def unshaped(ops):
    lacks = "its immediates have no shape: give them one in tools/generate/combinations.tsv, crates/wasm_view/src/shapes.rt and specs/View.antt"
    return [f"{op.place}: {lacks}" for op in ops if op.combination is None]


def number(op):
    return op.code + (int(op.prefix, 16) << 16 if op.prefix else 0)


def opcodes_source():
    arms = [f"Operator::{enum.group}(op) => 0x{enum.prefix}0000 + op.code()," for enum in held() if enum.prefix]
    return filled_file("plain/opcodes.rt", arms=arms)


def bound(op):
    names = BOUND[: len(op.fields)]
    return [(name, ty, to) for (name, ty), to in zip(op.fields, names)]


def shape_arms(ops, ty, by_reference):
    groups = {}
    for op in ops:
        groups.setdefault(op.kinds, []).append(op)
    arms = []
    for kinds in [it for it in COMBINATIONS if it in groups]:
        those = groups[kinds]
        fields = bound(those[0])
        patterns = []
        for op in those:
            inside = ", ".join(f"{name}: {to}" for name, _, to in bound(op))
            patterns.append(f"{ty}::{op.name}" + (f" {{ {inside} }}" if inside else ""))
        values = [to if TYPES[kind].by_reference or not by_reference else f"*{to}" for _, kind, to in fields]
        arms.append(f"{' | '.join(patterns)} => {', '.join([f'shapes::{COMBINATIONS[kinds].shape}(offset', 'opcode', *values])}),")
    return arms


def common_source(ops):
    common = [op for op in ops if "view" in op.inline]
    return filled_file("plain/common.rt", arms=shape_arms(common, "Operator", True))


def views_source(ops):
    own = [op for op in ops if op.group == "Own"]
    enums = [enum for enum in held() if enum.group != "Numeric"]
    lines = filled(
        "plain/views.rt",
        enum_uses=[f"ghost use Rattle.{enum.crate}.specs.{enum.group}.{{{enum.module}_immediates}};" for enum in enums],
        types=", ".join(sorted(enum.type for enum in enums)),
        arms=shape_arms(own, "Operator", True),
        enum_arms=[f"Operator::{enum.group}(op) => {enum.module}(offset, opcode, *op)," for enum in enums],
    )
    for enum in enums:
        arms = shape_arms([op for op in ops if op.group == enum.group], enum.type, False)
        lines += ["", *filled("plain/enum_view.rt", module=enum.module, type=enum.type, arms=arms)]
    return "\n".join(lines) + "\n"


# The names in each function.
NAMES_EACH = 48


def names_in_parts(ops):
    """Splits the names by number into named parts, each with the first of two that share a number."""
    parts = []
    _, second = shared(ops)
    for group in ["Own", *[enum.group for enum in held()]]:
        those = [op for op in ops if op.group == group and op is not second]
        for at in range(0, len(those), NAMES_EACH):
            parts.append((f"{group.lower()}_names_{at // NAMES_EACH}", those[at : at + NAMES_EACH]))
    return parts


def two_names(ops):
    """Returns the values of the templates for the two operators that share a number."""
    first, second = shared(ops)
    return {"number": f"0x{number(first):x}", "shape": first.combination.number, "first": first.name, "second": second.name}


def names_spec(ops):
    parts = names_in_parts(ops)
    lines = []
    for at in range(len(parts) - 1, -1, -1):
        name, those = parts[at]
        lines += [f"abbrev pub {name} : ℕ → List ℕ", f"{name} number ="]
        lines += [f'    if number == 0x{number(op):x} then codes "{op.name}" else (' for op in those]
        others = f"{parts[at + 1][0]} number" if at + 1 < len(parts) else "[]"
        lines[-1] += others + ")" * len(those)
        lines.append("")
    return filled_file("plain/names.antt", parts=lines, first_part=parts[0][0], **two_names(ops))


def names_source(ops):
    parts = names_in_parts(ops)
    words = ", ".join(sorted(name for name, _ in parts))
    lines = filled("plain/names.rt", parts=words, first_part=parts[0][0], **two_names(ops))
    for at, (name, those) in enumerate(parts):
        others = f"{parts[at + 1][0]}(number)" if at + 1 < len(parts) else '""'
        arms = [f'0x{number(op):x} => "{op.name}",' for op in those]
        lines += ["", *filled("plain/name_part.rt", part=name, others=others, arms=arms)]
    return "\n".join(lines) + "\n"


def plain_files(ops):
    ops = [op for op in ops if op.combination]
    return {
        "crates/wasm_view/src/names.rt": names_source(ops),
        "crates/wasm_view/specs/Names.antt": names_spec(ops),
        "crates/wasm_view/src/opcodes.rt": opcodes_source(),
        "crates/wasm_view/src/common.rt": common_source(ops),
        "crates/wasm_view/src/views.rt": views_source(ops),
    }
