"""Writes the groups of visits, and the dispatch of each group."""

from immediates import FOLDER
from shared.tables import rows_of
from source import uses
from table import NUMERIC, SIMD_HALF, WIDTH, doc, held, prefix_of, singular
from templates import filled, filled_file


class Group:
    """A group of visits. `condition` is on the code, if the same list of entries has operators of other groups without immediates."""

    def __init__(self, module, trait, enum, short, title, section, condition):
        self.module = module
        self.trait = trait
        self.enum = enum
        self.short = short
        self.title = title
        self.section = section
        self.condition = condition
        # its type in the decoder, and its prefix byte
        self.mark = trait.removeprefix("Visit")
        self.prefix = prefix_of(enum)

    @property
    def predicate(self):
        """Returns the name of the predicate that holds for its operators, if other operators have the same type."""
        return f"Is{self.mark}" if self.enum in ("Own", "Simd") else ""

    @property
    def is_returned(self):
        """Returns whether a call returns its operators in the type of the group: those of 0xfb have many fewer bytes than an `Operator`."""
        return self.enum == "Gc"

    def has(self, op):
        if op.group != self.enum or op.borrows:
            return False
        if self.enum == "Simd":
            return (op.code < SIMD_HALF) == (self.module == "simd_low")
        return True

    def of(self, ops):
        return [op for op in ops if self.has(op)]


FROM, TO = f"0x{NUMERIC[0]:02x}", f"0x{NUMERIC[-1]:02x}"
HALF = f"0x{SIMD_HALF:02x}"
GROUPS = [
    Group(**{name: cell.format(FROM=FROM, TO=TO, HALF=HALF) for name, cell in row.items()}) for row in rows_of(FOLDER / "groups.tsv")
]
FIXED = [group for group in GROUPS if group.enum != "Simd"]
VECTORS = [group for group in GROUPS if group.enum == "Simd"]


def type_name(group):
    return "Operator" if group.enum == "Own" else f"{group.enum}Operator"


def term(op):
    inner = " ".join([f"{op.group}Operator.{op.name}" if op.group != "Own" else f"Operator.{op.name}"] + [name for name, _ in op.fields])
    if op.group == "Own":
        return f"({inner})" if op.fields else inner
    return f"(Operator.{op.group} ({inner}))" if op.fields else f"(Operator.{op.group} {inner})"


def made(op):
    ty = "Operator" if op.group == "Own" else f"{op.group}Operator"
    names = ", ".join(name for name, _ in op.fields)
    inner = f"{ty}::{op.name} {{ {names} }}" if names else f"{ty}::{op.name}"
    return inner if op.group == "Own" else f"Operator::{op.group}({inner})"


def braced(names):
    return names[0] if len(names) == 1 else f"{{{', '.join(sorted(names))}}}"


def visit(op):
    parameters = ", ".join(["&mut self", *[f"{name}: {ty}" for name, ty in op.fields]])
    return filled("visits/visit.rt", visit=op.visit, parameters=parameters, term=term(op), made=made(op))


def group_trait(ops, group):
    those = group.of(ops)
    section = group.section if group.section.startswith("Proposal") else f"Specification: {group.section}"
    return filled_file(
        "visits/trait.rt",
        ghost_uses=[f"ghost use Rattle.{it.crate}.specs.declared.{it.module}.{it.type}.{{{it.type}}};" for it in held() if it.group == group.enum],
        uses=uses(those),
        types=braced(sorted({"Operator", type_name(group)})),
        doc=doc(f"Visits of {group.title}. {section} By default they call `visit_any`. A visitor that overrides visits names `Own{group.mark}` in its `Visits`."),
        trait=group.trait,
        mark=group.mark,
        visits=[line for op in those for line in ["", *visit(op)]][1:],
    )


def arm(op):
    ty = "Operator" if op.group == "Own" else f"{op.group}Operator"
    names = ", ".join(name for name, _ in op.fields)
    pattern = f"{ty}::{op.name} {{ {names} }}" if names else f"{ty}::{op.name}"
    call = f"v.{op.visit}({names})"
    # rt fmt puts a call that does not fit after its pattern into a block, if the pattern fits on one line
    has_room = len(names) > 18 or len(f"        {pattern} => {call},") <= WIDTH
    return f"        {pattern} => {call}," if has_room else f"        {pattern} => {{ {call} }}"


def one_byte_others(ops):
    """Returns the patterns of the operators that are not in the group of one-byte operators."""
    fields = [(op.name, ", ".join(f"{name}: _" for name, _ in op.fields)) for op in ops if op.borrows]
    return " | ".join([f"Operator::{name} {{ {inner} }}" for name, inner in fields] + [f"Operator::{enum.group}(_)" for enum in held()])


def group_dispatch(ops, group):
    is_own = group.enum == "Own"
    others = one_byte_others(ops) if is_own else "_"
    return filled(
        "visits/dispatch_group.rt",
        operator=singular(group.short).replace("SIMD operator", "SIMD operator with a subopcode"),
        module=group.module,
        trait=group.trait,
        type="Operator<'_>" if is_own else type_name(group),
        requires=[f"    requires {{ {group.predicate} op }}"] if group.predicate else [],
        term="op.entry" if is_own else f"(Operator.{group.enum} op)",
        arms=[*[arm(op) for op in group.of(ops)], *([f"        {others} => unreachable!(),"] if group.predicate else [])],
    )


def dispatch(ops, groups):
    types = sorted({"Operator"} | {type_name(group) for group in groups}) if groups is FIXED else ["SimdOperator"]
    return filled_file(
        "visits/dispatch.rt",
        predicates=", ".join(sorted(group.predicate for group in groups if group.predicate)),
        types=braced(types),
        traits=braced([group.trait for group in groups]),
        functions=[line for group in groups for line in ["", *group_dispatch(ops, group)]],
    )


def visit_files(ops):
    out = {}
    for group in GROUPS:
        out[f"crates/wasm_visit_groups/src/{group.module}.rt"] = group_trait(ops, group)
    out["crates/wasm_visit/src/dispatch/groups.rt"] = dispatch(ops, FIXED)
    out["crates/wasm_visit/src/dispatch/vectors.rt"] = dispatch(ops, VECTORS)
    return out
