"""Writes the entry of each opcode and subopcode, and lemmas that the entries agree with the rows."""

from immediates import KIND_WORDS, kinds_term
from table import PREFIXES, by_cases, held, imported, pattern
from templates import filled_file
from texts import inner_uses


def entry(op):
    inner = f"({kinds_term(op.immediates)})" if op.immediates else "[]"
    return f"guarded guard.{op.name} {inner}" if op.has_guard else f"free {inner}"


def entries(name, those, prefixes=()):
    found = {op.code: entry(op) for op in those} | {code: "prefixes" for code in prefixes}
    each = [found.get(code, "unknown") for code in range(max(found) + 1)]
    lines = [f"    {it} ∷" if " " not in it else f"    ({it}) ∷" for it in each]
    return [f"abbrev pub {name} : List Entry", f"{name} =", *lines, "    []", ""]


def names():
    return {prefix: f"{group.lower()}_entries" for prefix, group in PREFIXES.items()}


def entry_lists(ops):
    opcode_entries = entries("opcode_entries", [op for op in ops if not op.prefix], [int(it, 16) for it in PREFIXES])
    prefix_entries = []
    for prefix, name in names().items():
        prefix_entries.append(f"-- The entry of each subopcode after the prefix byte 0x{prefix}, at the index of its number.")
        prefix_entries += entries(name, [op for op in ops if op.prefix == prefix])
    by_prefix = [f"    if prefix == 0x{prefix} then {name} else (" for prefix, name in names().items()]
    return filled_file(
        "entries/Entries.antt",
        kinds=", ".join(imported("\n".join(opcode_entries + prefix_entries), KIND_WORDS)),
        opcode_entries=opcode_entries,
        prefix_entries=prefix_entries,
        by_prefix=[*by_prefix, "    []" + ")" * len(names())],
    )


def entries_agree(ops):
    enum_uses, of_enums = [], []
    for enum in held():
        those = [op for op in ops if op.group == enum.group]
        prefix = f"(Some 0x{enum.prefix})" if enum.prefix else "None"
        low = enum.module
        of_enums.append(f"{low}_agrees : (op : {enum.type}) → entry_at {prefix} ({enum.opcode} op) ≡ free (map kind_of ({low}_immediates op))")
        of_enums += [*by_cases(f"{low}_agrees", those[0], low, "refl"), ""]
        enum_uses += [*inner_uses(enum), f"use Rattle.{enum.crate}.specs.{enum.group}.{{{enum.opcode}, {low}_immediates}}"]
    prefixed = [enum for enum in held() if enum.prefix]
    return filled_file(
        "entries/EntriesAgree.antt",
        enum_uses=enum_uses,
        of_enums=of_enums,
        by_enum=[f"entry_agrees (operator.{enum.group} op) = {enum.module}_agrees op" for enum in held()],
        by_prefix=[f"prefix_agrees (operator.{enum.group} op) p e = let h : 0x{enum.prefix} ≡ p = cc e in ap (entry_at None) (sym h)" for enum in prefixed],
        first_own=pattern(next(op for op in ops if op.group == "Own"), "operator"),
    )


def entry_files(ops):
    return {
        "crates/wasm_decode_opcodes/specs/Entries.antt": entry_lists(ops),
        "crates/wasm_decode_opcodes/proofs/EntriesAgree.antt": entries_agree(ops),
    }
