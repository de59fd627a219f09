"""Writes the routes: which route a visitor has for each group of visits, and what each route calls."""

import textwrap

from arms import BELOW_CALL
from table import WIDTH, doc
from templates import filled, filled_file, with_uses
from visits import FROM, GROUPS, TO, type_name

CRATE = "crates/wasm_visit"


def listed_in_words(items):
    """Returns the items with commas, and with `and` before the last."""
    return f"{', '.join(items[:-1])} and {items[-1]}"


def inner(text):
    """Returns the text as a comment of an item in a trait."""
    return [f"    /// {line}" for line in textwrap.wrap(text, WIDTH - len("    /// "))]


# ---- the routes of all groups


def routes_of(name, parameters, of):
    head = f"impl<{parameters}> Routes for {name}" if parameters else f"impl Routes for {name}"
    lines = [[f"    type {group.mark} = {of(group)};"] for group in GROUPS]
    return [f"{head} {{", *[line for number, one in enumerate(lines) for line in ([""] if number else []) + one], "}", ""]


def chosen(routes):
    """Returns the type of these routes, one for each group."""
    return ["ByRoutes<", *[f"    {route}," for route in routes], ">"]


def by_routes():
    """Returns the type of any routes."""
    marks = ", ".join(group.mark for group in GROUPS)
    head = f"ByRoutes<{marks}>"
    return [
        *filled("routes/by_routes.rt", head=head, routes=marks),
        "",
        *routes_of(head, marks, lambda group: group.mark),
    ]


def named(group, route, text):
    """Returns the type by which a visitor names a route for a group."""
    first, *others = chosen([route if it is group else f"<R as Routes>::{it.mark}" for it in GROUPS])
    return [*doc(text), f"pub type {route}{group.mark}<R> = {first}", *others[:-1], f"{others[-1]};", ""]


def routes_file():
    groups = []
    for group in GROUPS:
        groups += ["", *inner(f"For {group.title}."), f"    type {group.mark};"]
    routes = routes_of("ByAny", "", lambda group: "ByAny")
    routes += routes_of("Through<R>", "R: Routes", lambda group: f"Through<R::{group.mark}>")
    routes += by_routes()
    for group in GROUPS:
        routes += named(group, "Own", f"The visits of `{group.trait}`, and for other groups the routes `R`.")
    for group in GROUPS:
        routes += named(group, "Once", f"The calls of `Call{group.mark}`, and for other groups the routes `R`.")
    return filled_file("routes/routes.rt", groups=groups[1:], routes=routes[:-1])


# ---- what each route calls


def of_bytes(group):
    """Returns the values of the template for the call that decodes an operator of the group: parameters, result and contract."""
    if group.enum == "Numeric":
        return {
            "alloc": "", "alloc_given": "", "parameters": "code: u8", "given": "code", "result": "V::Output",
            "requires": [f"requires from {{ {FROM} ≤ code }}", f"requires to {{ code ≤ {TO} }}"],
            "decodes": "VisitsRow V.visits None code [] v.old result v.new",
        }
    reader = "reader: &mut BinaryReader<'_>, start: usize"
    decodes = "DecodesAt V.visits frame start result reader.old reader.new v.old v.new"
    if group.enum == "Own":
        return {
            "alloc": "alloc: Global, ", "alloc_given": "alloc, ", "parameters": f"{reader}, frame: FrameKind, code: u8",
            "given": "reader, start, frame, code", "result": "Result<V::Output>",
            "requires": ["requires after { IsAfterCode start None code reader.old }", "requires apart { IsOneByteCode code }"],
            "decodes": decodes,
        }
    half = [f"requires half {{ {group.condition} }}"] if group.condition else []
    return {
        "alloc": "", "alloc_given": "", "parameters": f"{reader}, code: u32", "given": "reader, start, code", "result": "Result<V::Output>",
        "requires": [f"requires after {{ IsAfterCode start (Some 0x{group.prefix}) code reader.old }}", *half],
        "decodes": f"(frame : FrameKind) → {decodes}",
    }


class Decoder:
    """A call that decodes an operator of a group: `name` in a route, `own` in a visitor."""

    def __init__(self, group, module, suffix=""):
        self.name = f"decode{suffix}"
        self.own = f"decode_{module}"
        self.module = module
        self.is_low = suffix != ""
        self.group = group


def decoders(group):
    """Returns the calls that decode: for the operators with a one-byte opcode, one for those below 0x20 besides."""
    low = [Decoder(group, BELOW_CALL, f"_{BELOW_CALL}")] if group.enum == "Own" else []
    return [Decoder(group, group.module), *low]


def decoding(it, of):
    """Returns what a decoder adds to the template: its declarations, and its body in each route."""
    requires = [*of["requires"], *(["requires low { code < 0x20 }"] if it.is_low else [])]
    alloc, given, mark = of["alloc"], of["given"], it.group.mark

    def declared(name, parameters, to_self):
        result, decodes = of["result"], of["decodes"]
        if to_self:
            result, decodes = result.replace("V::", "Self::"), decodes.replace("V.visits", "Self.visits").replace("v.", "self.")
        return filled("routes/decode_declared.rt", comment=comment_of_bytes(it, f"decode_{it.group.module}" if to_self else "decode"), name=name, parameters=parameters, result=result, requires=requires, decodes=decodes)

    def body(receiver, call):
        return filled("routes/decode.rt", name=it.name, parameters=f"{alloc}v: {receiver}, {of['parameters']}", result=of["result"], call=call)

    passed = f"(**v).{it.own}({of['alloc_given']}{given})"
    of_self = f"&mut self, {alloc}{of['parameters']}"
    return {
        "declared": declared(it.name, f"{alloc}v: &mut V, {of['parameters']}", False),
        "self_declared": declared(it.own, of_self, True),
        "by_any": body("&mut V", f"decode::{it.module}_by::<V, ByAny>({of['alloc_given']}v, {given})"),
        "by_own": body("&mut V", f"decode::{it.module}({of['alloc_given']}v, {given})"),
        "by_once": body("&mut V", f"<V as Call{mark}>::{it.own}(v, {of['alloc_given']}{given})"),
        "by_reference": body("&mut &mut V", passed),
        "by_box": body("&mut Box<V>", passed),
        "by_group": filled("routes/decode.rt", name=it.own, parameters=of_self, result=of["result"], call=f"<V::Visits as Routes>::{mark}::{it.name}({of['alloc_given']}self, {given})"),
    }


def comment_of_bytes(it, first):
    """Returns what a decoder does, as a comment. `first` is the name of the group's first decoder."""
    group = it.group
    if group.enum == "Numeric":
        return inner("Visits the operator with this opcode.")
    if it.is_low:
        return inner(f"As `{first}`, for an opcode below 0x20.")
    word, place, more = ("opcode", "opcode", ", and `frame` the innermost frame") if group.enum == "Own" else ("subopcode", "prefix byte", "")
    return [
        *inner(f"Reads the immediates of the operator with the {word} `code` and visits it."),
        "    ///",
        *inner(f"`start` is the position of the {place}, to which the reader goes back on an error{more}."),
    ]


def group_file(group):
    own, low, mark = group.enum == "Own", group.module, group.mark
    of = of_bytes(group)
    decoded = [decoding(it, of) for it in decoders(group)]
    bodies = [f"`decode::{it.module}({of['alloc_given']}self, {of['given']})`" for it in decoders(group)]
    body = filled(
        "routes/group.rt",
        **{key: [line for it in decoded for line in it[key]] for key in decoded[0]},
        module=low,
        mark=mark,
        trait=group.trait,
        operator="Operator<'_>" if own else type_name(group),
        term="op.entry" if own else f"(Operator.{group.enum} op)",
        converted="owned(op)" if own else f"Operator::{group.enum}(op)",
        requires_operator=[f"requires {{ {group.predicate} op }}"] if group.predicate else [],
        doc=doc(f"A route for {group.short}."),
        doc_call=[
            *doc(f"The calls of a visitor that names `Once{mark}`."),
            "///",
            *doc(f"Their bodies are {listed_in_words([f'`dispatch::{low}(self, op)`', *bodies])}. What they call is proved once for the visitor, and not for each function that passes the visitor on."),
        ],
        doc_group=doc(f"Visits {group.short} by the route that the visitor names. Every visitor with such a route implements it."),
    )
    return with_uses(
        "routes/uses.rt",
        body,
        short=group.short,
        ghost_operator=[] if own else ["ghost use Rattle.wasm_instr.specs.declared.operator.Operator.{Operator};"],
        frame_kind=["use wasm_grammar::FrameKind;"] if own else [],
        types=", ".join(sorted({"Operator", type_name(group)})),
        trait=group.trait,
    )


# ---- proofs


def passed_proof(group, it, kind):
    """Returns the proof that decoding through a reference or a box is decoding by the visitor, or nothing where none is needed."""
    own = group.enum == "Own"
    if group.enum == "Numeric" or own and kind == "RefMut":
        return {}
    frame, given = ("c.args.frame", "g c") if own else ("k", "g c k")
    call = f"c.{it.own}"
    if kind == "Box":
        template, decoded = "routes/through_box.antt", f"{call}.ensures" if own else f"({call}.ensures k)"
    else:
        template, decoded = "routes/through_reference.antt", f"{call}.ensures k"
    path = f"routes.{group.module}.ThroughRoute{group.mark}{kind}.{it.name}"
    relation = f"g.V.Visitor.visits (EncodesAllowed r.features {frame}) (OperatorFault r.features {frame}) {call}.result (at_position r c.args.start) {call}.new.reader"
    return {f"{CRATE}/proofs/{path.replace('.', '/')}/Answers.antt": filled_file(template, path=path, given=given, relation=relation, call=call, decoded=decoded)}


def route_files():
    out = {"crates/wasm_visit_groups/src/routes.rt": routes_file()}
    for group in GROUPS:
        out[f"{CRATE}/src/routes/{group.module}.rt"] = group_file(group)
        for it in decoders(group):
            out |= passed_proof(group, it, "RefMut") | passed_proof(group, it, "Box")
    return out
