"""Writes the files of the groups whose codes have arms, with their proofs."""

import re

from arms import (
    BELOW_CALL, EVERY_CALL, ONE_CALL, by_alignment, group_lines, has_list_arm, is_below, kinds, listed, parts, places,
)
from immediates import FORMS, KIND_WORDS, ROW_WORDS, kinds_term
from parts import runs
from table import ENUMS, SIMD_HALF
from templates import filled, filled_file, with_uses
from visits import GROUPS, HALF, type_name

CRATE = "crates/wasm_decode_groups"


# ---- sources


def names(crate, *more):
    """Returns the types that are read and that this crate defines, and further names, as in a `use` line."""
    return ", ".join(sorted({kind.read for kind in FORMS.values() if kind.read_crate == crate} | set(more)))


def source(ops, group):
    is_own = group.enum == "Own"
    return with_uses(
        "arm_files/source.rt",
        group_lines(ops, group),
        short=group.short.removeprefix("the "),
        prefix="Some" if group.prefix else "None",
        ghost_operator=["ghost use Rattle.wasm_instr.specs.declared.operator.Operator.{Operator};"] if group.is_returned else [],
        words=", ".join(it for it in dict.fromkeys(ROW_WORDS + KIND_WORDS) if it.startswith("is_")),
        marks=", ".join(sorted(it.mark for it in GROUPS if it.module != "one_byte")),
        frame_kind=["use wasm_grammar::FrameKind;"] if is_own else [],
        below=names("wasm_below", "BinaryReader", "Result"),
        imm=names("wasm_imm", "MemArgKind"),
        type=type_name(group),
        opcodes=names("wasm_decode_opcodes", "Guard", "Only", "unknown_opcode", "unknown_subopcode"),
        trait=group.trait,
    )


# ---- codes


def test_name(key):
    words = [f"{it.split()[1].lower()}_memory" if it.startswith("memory ") else it for it in key]
    return "are_" + ("_".join(words) or "none")


def test(name, these):
    return [f"abbrev {name} : Option (List Kind) → Bool", f"{name} (Some ({these})) = true", f"{name} _ = false", ""]


def ranges(codes):
    return " ∷ ".join([f"(0x{first:02x}, 0x{last:02x})" for first, last in runs(codes)] + ["[]"])


def entries_name(part):
    return "opcode_entries" if part.place == "None" else f"{type_name(part.group).removesuffix('Operator').lower()}_entries"


def codes_lemma(part):
    """Returns the lemma that only the codes of a part have its kinds."""
    return [*filled(
        "arm_files/codes_of_kinds.antt",
        lemma=part.lemma,
        place=part.place,
        kinds=kinds(part.key, "bound"),
        codes=ranges([op.code for op in part.alike]),
        test=test_name(part.key),
        entries=entries_name(part),
    ), ""]


def arm_lemmas(part):
    """Returns the lemmas that the codes of a part have its kinds."""
    if part.has_table:
        return [*filled("arm_files/arm_in_table.antt", lemma=part.lemma, place=part.place), ""]
    bound = f"(align_at {part.place} code)" if part.has_align else "0"
    has = f"HasArm {part.place} code ({kinds(part.key, bound)}) {bound}"
    found = [run for run in runs([op.code for op in part.free]) if run[0] < run[1]]
    out = [f"abbrev {part.lemma}_at : ℕ → Type 0", f"{part.lemma}_at code = {has}", ""] if found else []
    for first, last in found:
        every = "tt"
        for _ in range(first, last + 1):
            every = f"((refl, refl), {every})"
        out += filled(
            "arm_files/arm_of_run.antt",
            lemma=part.lemma,
            number=f"{first:02x}",
            first=f"0x{first:02x}",
            last=f"0x{last:02x}",
            has=has,
            count=last - first + 1,
            every=every,
        )
        out.append("")
    return out


def unknown_lemma(ops, group):
    """Returns the lemma that other codes have no operator."""
    part = parts(ops, group)[0]
    known = ranges([op.code for op in ops if op.prefix == part.prefix])
    if part.is_own:
        return [*filled("arm_files/unknown_own.antt", known=known), ""]
    return [*filled("arm_files/unknown.antt", module=group.module, known=known, place=part.place, entries=entries_name(part)), ""]


def list_lemmas(ops):
    out, found = [], {}
    for op in filter(has_list_arm, ops):
        found.setdefault((op.combination.list_arm, kinds_term(op.immediates)), set()).add(op.code)
    for (arm, those), codes in found.items():
        out += test(f"are_{arm}", those)
        out += [*filled("arm_files/codes_with_list.antt", arm=arm, kinds=those, codes=ranges(codes)), ""]
    return out


def simd_lemmas(ops):
    """Returns the lemmas on the codes of SIMD operators with immediates, and on the codes below `SIMD_HALF`, which all have an operator."""
    those = [part for group in GROUPS if group.enum == "Simd" for part in parts(ops, group)]
    each = "tt"
    for _ in range(SIMD_HALF):
        each = f"(refl, {each})"
    others = ranges([op.code for part in those if not part.has_table for op in part.ops])
    return filled("arm_files/simd.antt", others=others, half=HALF, each=each)


def codes_file(ops):
    body = []
    for key in dict.fromkeys(part.key for group in GROUPS for part in parts(ops, group)):
        body += test(test_name(key), kinds(key, "align"))
    for group in GROUPS:
        for part in parts(ops, group):
            # a numeric operator is known by its opcode's range
            body += (codes_lemma(part) if group.enum != "Numeric" else []) + arm_lemmas(part)
        if group.enum not in ("Simd", "Numeric"):
            body += unknown_lemma(ops, group)
        if group.enum == "Own":
            body += list_lemmas(ops)
    body += simd_lemmas(ops)
    return with_uses("arm_files/Codes.antt", body, kinds=", ".join(KIND_WORDS))


# ---- proofs


def made(part, op, value):
    operands = "".join(f" ({it})" for it in [each.format(at) for kind, at in places(part.key, value) for each in kind.visited])
    return f"operator.{op.name}{operands}" if part.is_own else f"operator.{op.group} ({op.group.lower()}.{op.name}{operands})"


def last_code(part, given):
    """Returns the start of the proof for the last code of a part."""
    goal = "returns" if part.is_one else "returns-in_default"
    if part.group.enum == "Numeric":
        return [f"pub {goal} : goal.{goal}", f"{goal} {given} =", f"    let same : {part.ops[-1].hex()} ≡ c.args.code = omega (arith, c.requires.group.0, c.requires.group.1) in"]
    # a maker or a visit of one operator does not use the code
    code = "c.args._code" if part.is_one else "c.args.code"
    bound, also = [], ""
    if part.is_bounded:
        condition = part.group.condition.replace("code", code)
        bound, also = [f"    let bound : {condition} = c.requires.group in"], ", bound"
    omega = "" if part.is_own else also
    return [
        f"pub {goal} : goal.{goal}",
        f"{goal} {given} =",
        f"    let h = {part.lemma}_codes {code} c.requires.kinds in",
        *bound,
        f"    let same : {part.ops[-1].hex()} ≡ {code} = first_of (omega (arith, h{omega}), grind (arith, h{also})) in",
    ]


def proof(part, path, lines):
    enum = part.ops[0].group
    return with_uses(
        "arm_files/proof_of_part.antt",
        lines,
        crate=next((it.crate for it in ENUMS if it.group == enum), ""),
        module=enum.lower(),
        enum=enum,
        words=", ".join(ROW_WORDS),
        lemma=part.lemma,
        path=path,
    )


def is_signed(part):
    """Returns whether the visits of a part take a number's bits."""
    return bool(part.key) and FORMS[part.key[0]].width != ""


def of_bits(part, value):
    """Returns the operand of an operator whose visit takes a number's bits, the proof that it is the number, and the line before."""
    kind = FORMS[part.key[0]]
    width = kind.width
    number = f"to_z {width} (of_z {width} {value})"
    return number, f"ap (λ z. {kind.immediate} z ∷ []) (to_z-of_z {width} {value} fits)", f"    let fits : SFits {width} {value} = search rules in"


def visits_proof(part, path):
    visit = f"c.{part.ops[-1].visit}"
    term = listed(part.key, "c.args.it", f"(align_at {part.place} k)")
    relation = f"VisitsRow g.V.Visitor.visits {part.place} k ({term}) c.args.v.now {visit}.result {visit}.new.self"
    lines, op, same = last_code(part, "g c"), made(part, part.ops[-1], "c.args.it"), "refl"
    if is_signed(part):
        number, same, fits = of_bits(part, "c.args.it")
        lines, op = [*lines, fits], op.replace("c.args.it", number)
    return proof(part, path, [*lines, f"    subst (λ k. {relation}) same ({op}, refl, refl, {same}, {visit}.ensures)"])


def makes_proof(part, path):
    term = listed(part.key, "c.args.it", f"(align_at {part.place} k)")
    op, same, lines = made(part, part.ops[-1], "c.args.it"), "refl", last_code(part, "c")
    if is_signed(part):
        number, same, fits = of_bits(part, "c.args.it")
        lines, op = [*lines, fits], op.replace("c.args.it", number)
    return proof(part, path, [*lines, f"    subst (λ k. IsRow {part.place} k ({term}) ({op})) same (refl, refl, {same})"])


def alignment_proof(part, path):
    last = by_alignment(part)[-1]
    return filled_file(
        "arm_files/alignment.antt",
        prefix="Some" if part.prefix else "None",
        lemma=part.lemma,
        path=path,
        goal="returns" if part.is_one else "returns-in_default",
        last=last.hex(),
        align=last.align,
        place=part.place,
    )


def proved(goal, given, proof):
    return [f"pub {goal} : goal.{goal}", f"{goal} {given} = {proof}", ""]


def run_name(run):
    first, last = run
    return f"in-{first}" if first == last else f"in-{first}-to-{last}"


def run_proofs(those, takes, bare):
    """Returns the proofs that the runs have their kinds. `bare`: the first goal of `arm` is for a single code."""
    out, names = [], []
    aligned = set()
    for part in those:
        for run in runs([op.code for op in part.free if takes(op)]):
            if run[0] == run[1]:
                continue
            (whole,) = [it for it in runs([op.code for op in part.free]) if it[0] <= run[0] and run[1] <= it[1]]
            names.append(f"{part.lemma}_{whole[0]:02x}")
            here = f"c.{run_name(run)}"
            found = f"{names[-1]} c.args.code (omega (arith, {here})) (omega (arith, {here}))"
            place = f"-{run_name(run)}" if bare else ""
            bare = True
            if part.has_align:
                align = f"align_of_{part.title}"
                first = "" if align not in aligned else f"-{run_name(run)}"
                aligned.add(align)
                out += proved(f"{align}-requires{first}", "g c", f"ap entry_kinds ({found}).0")
                has = f"HasArm {part.place} c.args.code ({kinds(part.key, 'z')}) z"
                found = f"subst (λ z. {has}) (sym c.{align}{first}.ensures) ({found})"
            out += proved(f"arm-requires{place}-clause-kinds", "g c", found)
    return out, names


def group_proof(path, body, names):
    return with_uses("arm_files/proof_of_group.antt", body, kinds=", ".join(KIND_WORDS), lemmas=", ".join(dict.fromkeys(names)), path=path)


def has_single(those):
    return any(run[0] == run[1] for part in those for run in runs([op.code for op in part.free]))


def prefixed_proof(ops, group):
    those = [part for part in parts(ops, group) if not part.has_table]
    body, names = run_proofs(those, lambda op: True, has_single(those) or group.enum == "Simd")
    path = f"{group.module}_operators.{group.module}_by"
    unknown = "unknown_subopcode-requires-clause-unknown"
    if group.enum != "Simd":
        names.append(f"{group.module}_unknown")
        body += proved(unknown, "g c", f"{names[-1]} c.args.code (λ h. grind (arith, h))")
        body += proved("returns-in_default", "g c k", "(refl, c.unknown_subopcode.ensures k)")
        return group_proof(path, body, names)
    (bare,) = [part for part in parts(ops, group) if part.has_table]
    names.append(f"{bare.lemma}_arm")
    if those:
        # the last arm has the codes that no other arm has
        left = "outside c.args.code (omega (arith, c.requires.half)) (λ h. grind (arith, h))"
        body += proved("arm-requires-in_default-clause-kinds", "g c", f"{names[-1]} c.args.code ({left})")
        return group_proof(path, body, names)
    asked = "c.has_no_immediates.ensures"
    body += proved("arm-requires-clause-kinds", "g c", f"{names[-1]} c.args.code ({asked}.without c.if-has_no_immediates.true)")
    body += proved(unknown, "g c", f"no_operator c.args.code c.requires.half (sym {asked}.exact ∙ c.if-has_no_immediates.false)")
    body += proved("returns", "g c k", "(refl, c.unknown_subopcode.ensures k)")
    return group_proof(path, body, names)


def returned_proof(ops, group):
    """Returns the proof of the function that returns the operator: the goals of `prefixed_proof`, without type parameters."""
    of, to = f"{group.module}_operators.{group.module}_by", f"{group.module}_operators.read_{group.module}_operator"
    text = prefixed_proof(ops, group).replace(of, to)
    text = re.sub(r"\barm-requires", "read_arm-requires", text)
    return {to: re.sub(r"^([\w-]+) g c", r"\1 c", text, flags=re.M)}


def one_byte_proofs(ops, group):
    those = parts(ops, group)
    body, names = run_proofs(those, lambda op: True, True)
    apart = "c.requires.apart"
    body += proved("unknown_opcode-requires-clause-unknown", "g c", f"one_byte_unknown c.args.code {apart}.apart (λ h. grind (arith, h, {apart}.table, {apart}.numeric))")
    body += proved("returns-in_default", "g c", "(refl, c.unknown_opcode.ensures c.args.frame)")
    module = "one_byte_operators"
    out = {}
    for name, below in ((ONE_CALL, False), (BELOW_CALL, True)):
        few, few_names = run_proofs(those, lambda op: op.is_common and is_below(op) == below, below)
        out[f"{module}.{name}_by"] = group_proof(f"{module}.{name}_by", few, few_names)
    return {
        **out,
        f"{module}.{EVERY_CALL}_by": group_proof(f"{module}.{EVERY_CALL}_by", body, [*names, "one_byte_unknown"]),
    }


def numeric_proof(part):
    """Returns the proof that numeric opcodes have no immediates."""
    path = "numeric_operators.numeric_by"
    lemma = f"{part.lemma}_{part.ops[0].hex()[2:]}"
    body = proved("at-requires-clause-group", "g c", "(c.requires.from, c.requires.to)")
    body += proved("at-requires-clause-kinds", "g c", f"ap entry_kinds ({lemma} c.args.code c.requires.from c.requires.to).0")
    return {path: group_proof(path, body, [lemma])}


def folder_of(key):
    if not key:
        return "Unit"
    if len(key) > 1:
        return "Tuple2" + folder_of(key[:1]) + folder_of(key[1:])
    ty = FORMS[key[0]].read
    return {"[u8; 16]": "ArrayU816"}.get(ty, ty[0].upper() + ty[1:])


def proofs(ops, group):
    module, mark = f"{group.module}_operators", group.mark
    if group.enum == "Numeric":
        out = numeric_proof(parts(ops, group)[0])
    else:
        out = one_byte_proofs(ops, group) if group.enum == "Own" else {f"{module}.{group.module}_by": prefixed_proof(ops, group)}
    out |= returned_proof(ops, group) if group.is_returned else {}
    for part in parts(ops, group):
        at = f"{module}.OwnAt{mark}{folder_of(part.key)}.at"
        make = f"{module}.MakerMakes{mark}{folder_of(part.key)}.make"
        out[at] = visits_proof(part, at)
        out[make] = makes_proof(part, make)
        if part.has_align:
            align = f"{module}.align_of_{part.title}"
            out[align] = alignment_proof(part, align)
    return out


def arm_files(ops):
    out = {f"{CRATE}/proofs/Codes.antt": codes_file(ops)}
    for group in GROUPS:
        out[f"{CRATE}/src/{group.module}_operators.rt"] = source(ops, group)
        out |= {f"{CRATE}/proofs/{path.replace('.', '/')}/Answers.antt": text for path, text in proofs(ops, group).items()}
    return out
