"""Writes the types of the operators (crates/wasm_signatures)."""

from signature import RULES, TYPES
from source import joined_arm, rust_pattern
from table import Enum, doc, held, pattern, singular, variant_of
from templates import filled, filled_file, with_uses

CRATE = "crates/wasm_signatures"
OWN = Enum("Own", "wasm_instr", "operator", "any operator", "Instructions", "")


def types_in_antt(types):
    return " ∷ ".join([*(f"t.{TYPES[ty]}" for ty in types), "[]"])


def types_in_rust(types):
    return f"&[{', '.join(f'OperandType::{TYPES[ty]}' for ty in types)}]"


class Form:
    """How an enum's types are written: as signatures if each operator has one, otherwise as typings."""

    def __init__(self, enum, ops):
        self.all_fixed = all(op.signature.is_fixed for op in ops)
        self.word = f"{enum.module}_{'type' if self.all_fixed else 'typing'}"
        self.function = f"{enum.module}_{'signature' if self.all_fixed else 'typing'}"
        self.spec_result = "InstructionType" if self.all_fixed else "OperatorTyping"
        self.result = f"{'Signature' if self.all_fixed else 'Typing'}<'static>"
        self.view = "type_of" if self.all_fixed else "typing_of"
        self.what = "the types" if self.all_fixed else "the typing"
        self.is_copied = all(not op.fields for op in ops)

    def in_antt(self, op):
        it = op.signature
        if it.is_fixed:
            record = f"record {{ takes = {types_in_antt(it.params)}; leaves = {types_in_antt(it.results)} }}"
            return record if self.all_fixed else f"fixed ({record})"
        if it.rule:
            return f"by_rule rule.{variant_of(it.rule)}"
        return f"unsupported proposal.{variant_of(op.proposal)}"

    def in_rust(self, op):
        it = op.signature
        if it.is_fixed:
            made = f"Signature {{ takes: {types_in_rust(it.params)}, leaves: {types_in_rust(it.results)} }}"
            return made if self.all_fixed else f"Typing::Fixed({made})"
        if it.rule:
            return f"Typing::ByRule(Rule::{variant_of(it.rule)})"
        return f"Typing::Unsupported(Proposal::{variant_of(op.proposal)})"

    def named(self, of):
        """Returns a call for an inner enum, as a typing."""
        return f"fixed ({self.word} {of})" if self.all_fixed else f"{self.word} {of}"

    def called(self, of):
        call = f"{self.function}({'*' if self.is_copied else ''}{of})"
        return f"Typing::Fixed({call})" if self.all_fixed else call


def definition(enum, form, ops, more=()):
    rows = [f"{form.word} {pattern(op, enum.module, False)} = {form.in_antt(op)}" for op in ops]
    of = {"section": enum.section, "module": enum.module, "type": enum.type, "crate": enum.crate}
    body = filled("signatures/definition.antt", **of, what=form.what.capitalize(), title=enum.title, word=form.word, result=form.spec_result, rows=[*rows, *more])
    return of, body


def arms(enum, form, ops):
    found = {}
    for op in ops:
        found.setdefault(form.in_rust(op), []).append(rust_pattern(op, enum.type))
    return [joined_arm(patterns, value) for value, patterns in found.items()]


def enum_specs(enum, form, ops, more=(), uses=()):
    of, body = definition(enum, form, ops, more)
    declared = f"use Rattle.{enum.crate}.specs.declared.{enum.module}.{enum.type}"
    uses = [f"{declared}.{{{enum.type}}}", f"{declared}.TheVariants as {enum.module}", *uses]
    return with_uses("signatures/uses.antt", body, uses=uses, **of)


def enum_source(enum, form, ops, more=(), uses=()):
    argument = enum.type if form.is_copied else f"&{enum.type}{chr(60) + chr(39) + '_>' if enum.group == 'Own' else ''}"
    body = filled(
        "signatures/function.rt",
        what=form.what,
        title=singular(enum.title),
        function=form.function,
        argument=argument,
        result=form.result,
        view=form.view,
        word=form.word,
        now="" if form.is_copied else ".now",
        arms=[*arms(enum, form, ops), *more],
    )
    return with_uses("signatures/uses.rt", body, group=enum.group, word=form.word, crate=enum.crate, type=enum.type, crate_uses=[*uses])


def rule_source():
    variants = [line for name, what in RULES.items() for line in (*doc(f"For {what}."), f"{variant_of(name)},")]
    return filled_file("signatures/rule.rt", variants=variants)


def signature_files(ops):
    of = {enum.group: [op for op in ops if op.group == enum.group] for enum in [*held(), OWN]}
    forms = {enum.group: Form(enum, of[enum.group]) for enum in [*held(), OWN]}
    out = {f"{CRATE}/src/rule.rt": rule_source()}
    for enum in held():
        out[f"{CRATE}/specs/{enum.group}.antt"] = enum_specs(enum, forms[enum.group], of[enum.group])
        out[f"{CRATE}/src/{enum.module}.rt"] = enum_source(enum, forms[enum.group], of[enum.group])
    named = [f"{forms['Own'].word} (operator.{enum.group} op) = {forms[enum.group].named('op')}" for enum in held()]
    words = [f"use Rattle.wasm_signatures.specs.{enum.group}.{{{forms[enum.group].word}}}" for enum in held()]
    out[f"{CRATE}/specs/Own.antt"] = enum_specs(OWN, forms["Own"], of["Own"], named, words)
    called = [f"Operator::{enum.group}(op) => {forms[enum.group].called('op')}," for enum in held()]
    calls = [f"use crate::{enum.module}::{forms[enum.group].function};" for enum in held()]
    out[f"{CRATE}/src/operator.rt"] = enum_source(OWN, forms["Own"], of["Own"], called, calls)
    return out
