"""Writes the decoders of the groups of visits: an arm for each run of codes, which names the type of their immediates."""

from immediates import FORMS, kinds_term
from parts import run_pattern, runs, title
from table import doc, singular
from templates import filled
from visits import FROM, TO, type_name

# The common operators with a one-byte opcode are inlined; the others are decoded by one call.
# Those below 0x20 are apart: a driver has one call for them, and one for the others. With all in
# one function it would have two calls of that one, and the kit would inline neither.
ONE_CALL = "one_byte"
BELOW_CALL = "below_0x20"
BELOW = 0x20
OTHERS_CALL = "other_one_byte"
EVERY_CALL = "any_one_byte"


def has_list_arm(op):
    """Returns whether an arm reads immediates that may own a list."""
    return op.group == "Own" and op.combination is not None and op.combination.list_arm != ""


def unread(ops):
    """Returns an error for each operator that the decoder would omit."""
    wanting = [op for op in ops if op.may_hold and not op.borrows and not has_list_arm(op)]
    return [
        f"{op.place}: wasm_decode_groups has no arm for the immediates {', '.join(op.immediates)}: write it in src/one_byte_arms.rt, and name it in tools/generate/combinations.tsv"
        for op in wanting
    ]


class Part:
    """The operators of a group with the same kinds of immediates. Those in `free` have no guard."""

    def __init__(self, group, key, ops, every):
        self.group = group
        self.key = key
        self.ops = sorted(ops, key=lambda op: op.code)
        self.free = [op for op in self.ops if not op.has_guard]
        self.title = title(key)
        self.is_one = len(self.ops) == 1
        self.prefix = self.ops[0].prefix
        # the operators of all groups with the same kinds of immediates
        self.alike = [op for op in every if op.prefix == self.prefix and op.forms == key]

    @property
    def is_own(self):
        return self.group.enum == "Own"

    @property
    def mark(self):
        return self.group.mark

    @property
    def type(self):
        return type_of(self.key)

    @property
    def lemma(self):
        """Returns the prefix of the lemmas' names."""
        return f"{self.group.module}_{self.title}"

    @property
    def is_bounded(self):
        """Returns whether operators of other groups with the same prefix have the same kinds of immediates."""
        return not self.key and self.group.condition != ""

    @property
    def has_align(self):
        return bool(self.key) and self.key[0].startswith("memory ")

    @property
    def has_table(self):
        """Returns whether a table identifies the operators."""
        return self.group.enum == "Simd" and not self.key

    @property
    def place(self):
        return f"(Some 0x{self.prefix})" if self.prefix else "None"


def parts(ops, group):
    found = {}
    for op in group.of(ops):
        if not op.may_hold:
            found.setdefault(op.forms, []).append(op)
    return [Part(group, key, those, ops) for key, those in found.items()]


def alone(ops, group):
    """Returns a part for each common operator with a separate arm."""
    return [Part(group, op.forms, [op], ops) for op in group.of(ops) if op.is_alone]


def by_alignment(part):
    """Returns a part's operators. The last one, if possible, differs in alignment from those at both ends: else the
    compiler keeps a jump, which `i32.load` takes."""
    ends = {part.ops[0].align, part.ops[-1].align}
    last = next((op for op in reversed(part.ops) if op.align not in ends), part.ops[-1])
    return [*[op for op in part.ops if op is not last], last]


def places(key, value="it"):
    """Returns for each immediate its kind, and its value in the nested pairs."""
    if len(key) < 2:
        return [(FORMS[it], value) for it in key]
    return [(FORMS[key[0]], f"{value}.0"), *places(key[1:], f"{value}.1")]


def type_of(key):
    """Returns the type of immediates: a nested pair for several."""
    if not key:
        return "()"
    first = FORMS[key[0]].read
    return first if len(key) == 1 else f"({first}, {type_of(key[1:])})"


def values_of(key, value="it"):
    return [it.format(at) for kind, at in places(key, value) for it in kind.visited]


def listed(key, value, align):
    """Returns the immediates with their values, in antt."""
    return " ∷ ".join([kind.read_term(at, align) for kind, at in places(key, value)] + ["[]"])


def kinds(key, bound):
    """Returns the kinds of the immediates, in antt."""
    return kinds_term(f"{it} {bound}" if FORMS[it].sort else it for it in key)


def made_type(group):
    return "Operator<'static>" if group.enum == "Own" else type_name(group)


# ---- makers and visits


def closed(results):
    """Returns a match on the code, or the only result. The last code has the arm `_`: an unreachable arm would be compiled like the others."""
    if len(results) == 1:
        return [results[0][1]]
    return ["match code {", *[f"{code} => {it}," for code, it in results[:-1]], f"_ => {results[-1][1]},", "}"]


def operator(part, op):
    fields = ", ".join(f"{name}: {value}" for (name, _), value in zip(op.fields, values_of(part.key)))
    made = f"{type_name(part.group)}::{op.name}"
    return f"{made} {{ {fields} }}" if fields else made


def makes(part):
    return [*filled(
        "arms/makes.rt",
        mark=part.mark,
        type=part.type,
        code="_code" if part.is_one else "code",
        it="it" if part.key else "_it",
        made=made_type(part.group),
        results=closed([(op.hex(), operator(part, op)) for op in part.ops]),
    ), ""]


def visit(part, ty, code, results):
    it = "it" if part.key else "_it"
    return [*filled("arms/visits.rt", trait=part.group.trait, mark=part.mark, type=ty, code=code, it=it, results=results), ""]


def visits(part):
    values = ", ".join(values_of(part.key))
    results = [(op.hex(), f"v.{op.visit}({values})") for op in part.ops]
    return visit(part, part.type, "_code" if part.is_one else "code", closed(results))


def only(part):
    return f"Only<{part.ops[0].hex()}, {part.type}>"


def only_visit(part):
    return visit(part, only(part), "_code", [f"v.{part.ops[0].visit}({', '.join(values_of(part.key, 'it.0'))})"])


def alignment(part):
    return [*filled(
        "arms/alignment.rt",
        title=part.title,
        place=part.place,
        kinds=kinds(part.key, "bound").replace("kind.", "MemArgKind."),
        aligns=closed([(op.hex(), op.align) for op in by_alignment(part)]),
    ), ""]


# ---- arms


def call(part, code, ty=None):
    bound = f"align_of_{part.title}({code})" if part.has_align else "0"
    return f"arm::<V, {part.mark}, {ty or part.type}, R>(v, reader, start, {code}, {bound})"


def read_call(part, code):
    bound = f"align_of_{part.title}({code})" if part.has_align else "0"
    return f"read_arm::<{part.mark}, {part.type}>(reader, start, {code}, {bound})"


def arms(those, code="code", takes=lambda op: True, call=call):
    """Returns an arm for each run of codes of the operators that `takes` accepts."""
    out = []
    for part in those:
        for run in runs([op.code for op in part.free if takes(op)]):
            pattern = run_pattern(run)
            out.append(f"{pattern} => {call(part, pattern if run[0] == run[1] else code)},")
    return out


def alias(group, types, lists=()):
    """Returns the trait of the routes through a group, and the two routes."""
    every = " + ".join([f"At<V, {group.mark}, {ty}>" for ty in types] + [f"AtList<V, {ty}>" for ty in lists])
    return [*filled("arms/alias.rt", doc=doc(f"A route for {group.short}."), mark=group.mark, trait=group.trait, every=every), ""]


def prefixed_function(group, name, parameters, does, body):
    """Returns a function of a group with a prefix byte."""
    return [*filled(
        "arms/prefixed.rt",
        doc=doc(f"Reads the immediates of {singular(group.short)} and {does}."),
        name=name,
        parameters=parameters,
        prefix=group.prefix,
        half=[f"    requires half {{ {group.condition} }}"] if group.condition else [],
        body=body,
    ), ""]


def returned(those, group):
    """Returns the function that returns the operator in the type of its group."""
    return [*filled(
        "arms/returned.rt",
        doc=doc(f"Reads the immediates of {singular(group.short)} and returns the operator."),
        module=group.module,
        type=type_name(group),
        prefix=group.prefix,
        enum=group.enum,
        arms=arms(those, call=read_call),
    ), ""]


def prefixed_body(those, group):
    unknown = f"Err(unknown_subopcode(reader, start, 0x{group.prefix}, code))"
    if group.enum != "Simd":
        return ["match code {", *arms(those), f"_ => {unknown},", "}"]
    (bare,) = [part for part in those if part.has_table]
    others = arms([part for part in those if not part.has_table])
    if others:
        # each code of this half has an operator
        return ["match code {", *others, f"_ => {call(bare, 'code')},", "}"]
    return ["if has_no_immediates(code) {", f"return {call(bare, 'code')};", "}", unknown]


def prefixed(those, group):
    """Returns the functions of a group with a prefix byte: by the visitor's visits, and by any route."""
    name = group.module
    return [
        *prefixed_function(group, name, f"V: {group.trait}", "visits it", [f"{name}_by::<V, Own>(v, reader, start, code)"]),
        *prefixed_function(group, f"{name}_by", f"V: Visitor, R: At{group.mark}<V>", "passes them to `R`", prefixed_body(those, group)),
        *(returned(those, group) if group.is_returned else []),
        *alias(group, [part.type for part in those]),
    ]


def own_function(group, name, parameters, does, body):
    is_low = name.startswith(BELOW_CALL)
    text = f"Reads the immediates of {'an operator with an opcode below 0x20' if is_low else singular(group.short)} and {does}"
    below = ["    requires low { code < 0x20 }"] if is_low else []
    return [*filled("arms/own.rt", doc=doc(text), name=name, parameters=parameters, below=below, body=body), ""]


def is_below(op):
    return op.code < BELOW


def common(ops, group, below):
    """Returns the body of the function for the common operators below 0x20, or for those from 0x20 on."""

    def takes(op):
        return op.is_common and is_below(op) == below

    those = [part for part in parts(ops, group) if any(takes(op) for op in part.free)]
    singles = [part for part in alone(ops, group) if is_below(part.ops[0]) == below]
    first, *more = arms(those, "code as u32", takes)
    more += [f"{part.ops[0].hex()} => {call(part, part.ops[0].hex(), only(part))}," for part in singles]
    more.append(f"_ => {OTHERS_CALL}_by::<V, R>(alloc, v, reader, start, frame, code),")
    if below:
        return ["match code {", first, *more, "}"]
    # In one match, the compiler would test single codes before ranges.
    return ["match code {", first, "_ => match code {", *more, "},", "}"]


def one_byte(ops, those, group):
    """Returns the functions of the operators with a one-byte opcode: with the common ones inlined, and with an arm for each."""
    singles = alone(ops, group)
    with_lists = {op.code: type_of(op.forms) for op in group.of(ops) if has_list_arm(op)}
    guarded = [op for op in group.of(ops) if op.has_guard]
    every_arm = [
        *arms(those, "code as u32"),
        *[f"{op.hex()} => guarded_arm::<V, {type_of(op.forms)}, R>(v, reader, start, frame, {op.hex()}, Guard::{op.name})," for op in guarded],
        *[f"0x{code:02x} => list_arm::<V, {ty}, R>(alloc, v, reader, start, 0x{code:02x})," for code, ty in with_lists.items()],
        "_ => Err(unknown_opcode(reader, start, code)),",
    ]
    by_route = "V: Visitor, R: AtOneByte<V>"
    out = []
    for name, where, below in ((ONE_CALL, "from 0x20 on ", False), (BELOW_CALL, "", True)):
        inlined = f"Common operators {where}are inlined."
        by_visits = [f"{name}_by::<V, Own>(alloc, v, reader, start, frame, code)"]
        out += own_function(group, name, f"V: {group.trait}", f"visits it. {inlined}", by_visits)
        first = "" if below else " The most frequent, 0x20 to 0x26, are compared first."
        out += own_function(group, f"{name}_by", by_route, f"passes them to `R`. {inlined}{first}", common(ops, group, below))
    return [
        *out,
        *own_function(group, f"{EVERY_CALL}_by", by_route, "passes them to `R`. Every operator has an arm here.", ["match code {", *every_arm, "}"]),
        *alias(group, [*[part.type for part in those], *map(only, singles)], dict.fromkeys(with_lists.values())),
    ]


def numeric(group):
    """Returns the functions of the numeric operators, which have no immediates."""
    return [*filled("arms/numeric.rt", trait=group.trait, mark=group.mark, first=FROM, last=TO), ""]


def group_lines(ops, group):
    those = parts(ops, group)
    if group.enum == "Numeric":
        out = numeric(group)
    else:
        out = one_byte(ops, those, group) if group.enum == "Own" else prefixed(those, group)
    for part in those:
        out += alignment(part) if part.has_align else []
        out += [*makes(part), *visits(part)]
    for part in alone(ops, group):
        out += only_visit(part)
    return out
