"""Writes the arities of the operators that have a fixed arity."""

from source import joined_arm
from table import ENUMS, enum_uses, grouped, held, pattern
from templates import filled, filled_file

REACHING = " and an array"


def argument_of(op):
    return next((name for name, ty in op.fields if ty == "MemArg"), None)


def pair_of(op):
    takes = op.takes.removesuffix(REACHING)
    if op.takes == takes:
        return (f"({takes}, {op.leaves})",) * 2
    name = argument_of(op)
    return f"(reaching {name} {takes}, {op.leaves})", f"(reaching({name}, {takes}), {op.leaves})"


def by_pair(ops):
    """Groups the operators by their fixed arity. The largest group is last."""
    return grouped([op for op in ops if not op.is_by_rule], pair_of)


def argument_pattern(op, alias):
    names = " ".join(name if name == argument_of(op) else "_" for name, _ in op.fields)
    return f"({alias}.{op.name} {names})" if op.fields else f"{alias}.{op.name}"


def enum_pairs(enum, ops):
    """Returns the definition of an inner enum's arities: options if one depends on the module."""
    ruled = [op for op in ops if op.is_by_rule]
    low, ty = enum.module, "ℕ × ℕ"
    made = lambda pair: pair
    if ruled:
        ty, made = f"Option ({ty})", lambda pair: f"Some {pair}"
    body = [f"abbrev pub {low}_pair : {enum.type} → {ty}"]
    *others, ((most, _), _) = by_pair(ops)
    for (pair, _), those in others:
        body += [f"{low}_pair {argument_pattern(op, low)} = {made(pair)}" for op in those]
    body += [f"{low}_pair {pattern(op, low, False)} = None" for op in ruled]
    return [*body, f"{low}_pair _ = {made(most)}", ""]


def is_ruled(enum, ops):
    return any(op.is_by_rule for op in ops if op.group == enum.group)


def fixed_arity_specs(ops):
    own_pairs = []
    for (pair, _), those in by_pair([op for op in ops if op.group == "Own"]):
        own_pairs += [f"fixed_arity {argument_pattern(op, 'operator')} = Some {pair}" for op in those]
    by_enum = []
    for enum in held():
        pair = f"{enum.module}_pair op"
        made = pair if is_ruled(enum, ops) else f"Some ({pair})"
        by_enum.append(f"fixed_arity (operator.{enum.group} op) = {made}")
    return filled_file(
        "arities/FixedArity.antt",
        enum_uses=[line for enum in held() for line in enum_uses(enum)],
        enum_pairs=[line for enum in held() for line in enum_pairs(enum, [op for op in ops if op.group == enum.group])],
        own_pairs=own_pairs,
        by_enum=by_enum,
    )


def argument_binding(op, ty):
    if not op.fields:
        return f"{ty}::{op.name}"
    if op.takes.endswith(REACHING):
        more = "" if len(op.fields) == 1 else ", .."
        return f"{ty}::{op.name} {{ {argument_of(op)}{more} }}"
    return f"{ty}::{op.name} {{ .. }}"


def pair_arm(ty, ops, value):
    return joined_arm([argument_binding(op, ty) for op in ops], value)


def enum_arity(enum, ops):
    ruled = [op for op in ops if op.is_by_rule]
    ty, made = "(u32, u32)", lambda pair: pair
    if ruled:
        ty, made = f"Option<{ty}>", lambda pair: f"Some({pair})"
    *others, ((_, most), _) = by_pair(ops)
    arms = [pair_arm(enum.type, those, made(pair)) for (_, pair), those in others]
    if ruled:
        arms.append(pair_arm(enum.type, ruled, "None"))
    return filled("arities/enum_arity.rt", module=enum.module, type=enum.type, result=ty, arms=arms, most=made(most))


def fixed_arity_source(ops):
    own = [op for op in ops if op.group == "Own"]
    by_enum = []
    for enum in held():
        call = f"{enum.module}_fixed_arity(op)"
        by_enum.append(f"Operator::{enum.group}(op) => {call if is_ruled(enum, ops) else f'Some({call})'},")
    return filled_file(
        "arities/fixed_arity.rt",
        pairs=", ".join(f"{enum.module}_pair" for enum in held()),
        types=", ".join(sorted(enum.type for enum in ENUMS if enum.group != "Simd")),
        enum_arities=[line for enum in held() for line in ["", *enum_arity(enum, [op for op in ops if op.group == enum.group])]],
        own_arms=[pair_arm("Operator", those, f"Some({pair})") for (_, pair), those in by_pair(own)],
        by_enum=by_enum,
        ruled=[pair_arm("Operator", [op for op in own if op.is_by_rule], "None")],
    )
