"""The immediates: a record for each type of fields, for each kind of immediates, and for each combination of kinds.

The tables field_types.tsv, kinds.tsv and combinations.tsv have the records. An operator's `fields` have types, its
`immediates` have kinds, and all its immediates together are a combination.
"""

from dataclasses import dataclass, replace
from pathlib import Path

from shared.tables import records

FOLDER = Path(__file__).resolve().parent


@dataclass(frozen=True, kw_only=True)
class FieldType:
    name: str  # in Rust
    crate: str = ""  # the crate that defines it, unless it is primitive
    exact: str  # the lemma that `==` of this type is exact
    home: str  # the file of that lemma
    printer: str  # the function of wasm_tests_texts (src/values.rt) that prints a value
    by_reference: bool = False  # whether wasm_view (src/shapes.rt) takes it by reference
    owns_list: bool = False
    cargo: str = ""  # the type in the cargo crate, if it has another name there. `{path}` is before names of that crate

    @property
    def word(self):
        return self.name.split("<")[0]

    @property
    def borrows(self):
        return "'a" in self.name

    def cargo_type(self, path=""):
        if self.cargo:
            return self.cargo.format(path=path)
        return f"{path}{self.name}" if self.crate else self.name


# By name, in the order in which proofs import the files of the lemmas.
TYPES = {ty.name: ty for ty in records(FieldType, FOLDER / "field_types.tsv")}
OWNING = {name for name, ty in TYPES.items() if ty.owns_list}
BORROWING = {name for name, ty in TYPES.items() if ty.borrows}


@dataclass(frozen=True, kw_only=True)
class Kind:
    word: str  # in the table
    types: tuple  # of the fields
    immediate: str  # the constructor of `Immediate`
    argument: str = "{0}"  # its argument over the fields; of a memory argument also over `sort` and `align`
    kind_name: str = ""  # the constructor of `Kind`, if it is not `is_` and `immediate`
    taken: tuple  # the functions that take the fields from a list of immediates (proofs/Values.antt of wasm_imm)
    read: str = ""  # the type that wasm_decode_groups reads: nothing if it borrows, and for `memory` in `FORMS`
    read_crate: str = ""  # the crate that defines that type, unless it is primitive
    is_wrapped: bool = False  # whether that type has the value as its only field
    parts: tuple = ()  # the fields over a value of that type, if the value is no field
    may_own: bool = False  # whether a value of that type may own a list
    width: str = ""  # of a signed number in definitions
    writer: str  # the function of wasm_text (src/operands.rt)
    held: str = ""  # what the fields of the C struct hold; nothing for an index
    most: int  # the capacity that its writer in wasm_encode_immediates requires. A list reserves more itself
    sort: str = ""  # of a memory argument, only in `FORMS`

    @property
    def kind(self):
        return self.kind_name or f"is_{self.immediate}"

    @property
    def borrows(self):
        return any(TYPES[ty].borrows for ty in self.types)

    @property
    def is_index(self):
        return not self.held

    @property
    def value(self):
        """Returns the value of an immediate over a value of the type that is read."""
        return "{0}.0" if self.is_wrapped else "{0}"

    @property
    def visited(self):
        """Returns the fields over a value of the type that is read."""
        return self.parts or (self.value,)

    def read_term(self, value, align):
        """Returns the immediate over a value of the type that is read, in antt."""
        sort = f" kind.{self.sort} {align}" if self.sort else ""
        return f"{self.immediate}{sort} {self.value.format(value)}"


# By word, in the order in which definitions and lemmas are imported.
KINDS = {kind.word: kind for kind in records(Kind, FOLDER / "kinds.tsv")}
# The kinds whose values may own a list, or borrow.
HOLDING = {word for word, kind in KINDS.items() if kind.may_own or kind.borrows}
# The sorts of memory arguments, and the largest natural alignment.
MEMORY_SORTS = ("Plain", "Op", "Rmw")
LARGEST_ALIGN = 4
# The kinds without alignment: each sort of memory arguments is one, for example `memory Rmw`.
FORMS = {word: kind for word, kind in KINDS.items() if word != "memory"}
for each in MEMORY_SORTS:
    FORMS[f"memory {each}"] = replace(KINDS["memory"], read=f"{each}MemArg", sort=each)


def moved(words, word, other):
    """Returns the words with one of them moved before another."""
    out = [it for it in words if it != word]
    out.insert(out.index(other), word)
    return out


# The definitions that generated files import, in the order of the imports: of `Immediate`, of `Kind`, of Values.antt.
ROW_WORDS = moved(dict.fromkeys(kind.immediate for kind in KINDS.values()), "vector", "one_lane")
KIND_WORDS = [*dict.fromkeys(kind.kind for kind in KINDS.values() if kind.word != "memory"), KINDS["memory"].kind]
VALUE_WORDS = ["tail_of", *dict.fromkeys(it for kind in KINDS.values() for it in kind.taken)]
VALUE_WORDS.insert(VALUE_WORDS.index("one_type_in"), "select_in")


def kind_term(immediate):
    """Returns the kind of an immediate, in antt. A memory argument is followed by its sort and alignment."""
    word, *more = immediate.split(maxsplit=2)
    if not more:
        return KINDS[word].kind
    sort, align = more
    return f"{KINDS[word].kind} kind.{sort} {align}"


def kinds_term(immediates):
    return " ∷ ".join([*map(kind_term, immediates), "[]"])


# The functions of wasm_text (src/operands.rt) for operands that are not written as their kinds are, and the types that
# they take.
WRITERS = {"indirect": ("u32", "u32"), "reference_with_null": ("HeapType",), "reference_without_null": ("HeapType",)}


@dataclass(frozen=True, kw_only=True)
class Combination:
    kinds: tuple = ()
    number: int  # the number of its shape (`wasm_shape` in c/include/wasm_operators.h)
    shape: str  # the function of wasm_view (src/shapes.rt)
    values: tuple = ()  # the fields in the cargo crate, from the C struct `op` and its `source`
    writer: str = ""  # the function of wasm_text (src/operands.rt), if one writes all operands
    list_arm: str = ""  # if it may own a list, the name of its arms in lemmas
    encoder: str = ""  # the call that writes it, if it has a list or a single type. A field that owns or borrows is passed by reference


# By kinds, in the order of the shapes.
COMBINATIONS = {it.kinds: it for it in records(Combination, FOLDER / "combinations.tsv")}
