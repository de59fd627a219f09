//! Value types, reference types and heap types. Specification: Types.

use crate::{PackedIndex, UnpackedIndex};
use std::fmt;

/// A value type.
#[derive(Clone, Copy, Debug, PartialEq, Eq, PartialOrd, Ord, Hash)]
pub enum ValType {
    /// Integers of 32 bits.
    I32,
    /// Integers of 64 bits.
    I64,
    /// Floats of 32 bits.
    F32,
    /// Floats of 64 bits.
    F64,
    /// Vectors of 128 bits.
    V128,
    /// References.
    Ref(RefType),
}

impl ValType {
    /// `(ref null func)`
    pub const FUNCREF: ValType = ValType::Ref(RefType::FUNCREF);
    /// `(ref null extern)`
    pub const EXTERNREF: ValType = ValType::Ref(RefType::EXTERNREF);
    /// `(ref null exn)`
    pub const EXNREF: ValType = ValType::Ref(RefType::EXNREF);
    /// `(ref null cont)`
    pub const CONTREF: ValType = ValType::Ref(RefType::CONTREF);

    /// Returns whether this is a reference type.
    pub const fn is_reference_type(&self) -> bool {
        matches!(self, ValType::Ref(_))
    }

    /// Returns the reference type, if this is one.
    pub const fn as_reference_type(&self) -> Option<RefType> {
        match self {
            ValType::Ref(ty) => Some(*ty),
            _ => None,
        }
    }

    /// Returns whether a local of the type has a default value, which a reference without null does not have.
    pub const fn is_defaultable(&self) -> bool {
        match self {
            ValType::Ref(ty) => ty.is_nullable(),
            _ => true,
        }
    }
}

/// The type in the text format, except that an index is printed like [`UnpackedIndex`].
impl fmt::Display for ValType {
    fn fmt(&self, f: &mut fmt::Formatter<'_>) -> fmt::Result {
        f.write_str(match self {
            ValType::I32 => "i32",
            ValType::I64 => "i64",
            ValType::F32 => "f32",
            ValType::F64 => "f64",
            ValType::V128 => "v128",
            ValType::Ref(ty) => return ty.fmt(f),
        })
    }
}

impl From<RefType> for ValType {
    fn from(ty: RefType) -> ValType {
        ValType::Ref(ty)
    }
}

/// A reference type, in 26 bits. The order of types has no meaning.
#[derive(Clone, Copy, PartialEq, Eq, PartialOrd, Ord, Hash)]
pub struct RefType(u32);

// The bits of a reference type. Bits 0 to 21 are an index, or the number of an abstract heap type.
const INDEX: u32 = (1 << 22) - 1;
const CONCRETE: u32 = 1 << 22;
const EXACT: u32 = 1 << 23;
const IS_SHARED: u32 = 1 << 24;
const IS_NULLABLE: u32 = 1 << 25;

/// Defines reference types to unshared abstract heap types.
macro_rules! reference_types {
    ($($ty:ident, $plain:ident, $nullable:ident, $is:ident, $what:literal;)*) => {
        impl RefType {
            $(
                #[doc = concat!("References to ", $what, ", without null.")]
                pub const $plain: RefType = RefType::of(false, HeapType::$plain);
                #[doc = concat!("References to ", $what, ", with null.")]
                pub const $nullable: RefType = RefType::of(true, HeapType::$plain);

                #[doc = concat!("Returns whether the type refers to ", $what, ".")]
                pub const fn $is(&self) -> bool {
                    let ty = self.heap_type();
                    matches!(ty, HeapType::Abstract { ty: AbstractHeapType::$ty, shared: false })
                }
            )*
        }

        impl HeapType {
            $(
                #[doc = concat!("The heap type of ", $what, ".")]
                pub const $plain: HeapType =
                    HeapType::Abstract { shared: false, ty: AbstractHeapType::$ty };
            )*
        }
    };
}

reference_types! {
    Func, FUNC, FUNCREF, is_func_ref, "functions";
    Extern, EXTERN, EXTERNREF, is_extern_ref, "objects of the host";
    Any, ANY, ANYREF, is_any_ref, "all values of the module";
    None, NONE, NULLREF, is_none_ref, "no value of the module";
    NoExtern, NOEXTERN, NULLEXTERNREF, is_noextern_ref, "no object of the host";
    NoFunc, NOFUNC, NULLFUNCREF, is_nofunc_ref, "no function";
    Eq, EQ, EQREF, is_eq_ref, "values that can be compared";
    Struct, STRUCT, STRUCTREF, is_struct_ref, "structs";
    Array, ARRAY, ARRAYREF, is_array_ref, "arrays";
    I31, I31, I31REF, is_i31_ref, "integers of 31 bits";
    Exn, EXN, EXNREF, is_exn_ref, "exceptions";
    NoExn, NOEXN, NULLEXNREF, is_noexn_ref, "no exception";
    Cont, CONT, CONTREF, is_cont_ref, "continuations";
    NoCont, NOCONT, NULLCONTREF, is_nocont_ref, "no continuation";
}

impl RefType {
    /// Creates a reference type, or returns `None` if its index is above 1048575.
    pub const fn new(nullable: bool, heap_type: HeapType) -> Option<RefType> {
        match heap_type {
            HeapType::Concrete(index) | HeapType::Exact(index) if index.pack().is_none() => None,
            _ => Some(RefType::of(nullable, heap_type)),
        }
    }

    /// Creates a reference type whose index is at most 1048575.
    const fn of(nullable: bool, heap_type: HeapType) -> RefType {
        let bits = match heap_type {
            HeapType::Abstract { shared, ty } => ty as u32 | if shared { IS_SHARED } else { 0 },
            HeapType::Concrete(index) => CONCRETE | packed(index),
            HeapType::Exact(index) => EXACT | packed(index),
        };
        RefType(bits | if nullable { IS_NULLABLE } else { 0 })
    }

    /// Creates a reference to the type with this index.
    pub const fn concrete(nullable: bool, index: PackedIndex) -> RefType {
        RefType::of(nullable, HeapType::Concrete(index.unpack()))
    }

    /// Returns the type of the references of `a` that are not in `b`, if the heap types are the same.
    ///
    /// Specification: Instructions, Type difference.
    pub const fn difference(a: RefType, b: RefType) -> RefType {
        if b.is_nullable() { a.as_non_null() } else { a }
    }

    /// Returns the index of the heap type, if it has one.
    pub const fn type_index(&self) -> Option<PackedIndex> {
        if self.0 & (CONCRETE | EXACT) == 0 {
            return None;
        }
        Some(PackedIndex::of_bits(self.0 & INDEX))
    }

    /// Returns whether null belongs to the type.
    pub const fn is_nullable(&self) -> bool {
        self.0 & IS_NULLABLE != 0
    }

    /// Returns the heap type.
    pub const fn heap_type(&self) -> HeapType {
        let bits = self.0 & INDEX;
        if self.0 & CONCRETE != 0 {
            HeapType::Concrete(PackedIndex::of_bits(bits).unpack())
        } else if self.0 & EXACT != 0 {
            HeapType::Exact(PackedIndex::of_bits(bits).unpack())
        } else {
            HeapType::Abstract {
                shared: self.0 & IS_SHARED != 0,
                ty: AbstractHeapType::ALL[bits as usize],
            }
        }
    }

    /// Returns the type with null.
    pub const fn nullable(&self) -> RefType {
        RefType(self.0 | IS_NULLABLE)
    }

    /// Returns the type without null.
    pub const fn as_non_null(&self) -> RefType {
        RefType(self.0 & !IS_NULLABLE)
    }

    /// Returns the type that is shared between threads, if the heap type is abstract.
    pub const fn shared(&self) -> Option<RefType> {
        if self.0 & (CONCRETE | EXACT) != 0 {
            return None;
        }
        Some(RefType(self.0 | IS_SHARED))
    }

    /// Returns whether the heap type has an index, and is not exact.
    pub const fn is_concrete_type_ref(&self) -> bool {
        self.0 & CONCRETE != 0
    }

    /// Returns whether the heap type is exact.
    pub const fn is_exact_type_ref(&self) -> bool {
        self.0 & EXACT != 0
    }
}

/// Returns the bits of an index that is at most 1048575.
const fn packed(index: UnpackedIndex) -> u32 {
    match index.pack() {
        Some(index) => index.bits(),
        None => panic!("an index above 1048575"),
    }
}

/// The short form of a nullable abstract type, such as `funcref`, or the long form, such as `(ref (module 5))`.
impl fmt::Display for RefType {
    fn fmt(&self, f: &mut fmt::Formatter<'_>) -> fmt::Result {
        let null = if self.is_nullable() { "null " } else { "" };
        match self.heap_type() {
            HeapType::Concrete(index) => write!(f, "(ref {null}{index})"),
            HeapType::Exact(index) => write!(f, "(ref {null}(exact {index}))"),
            HeapType::Abstract { shared, ty } => {
                let name = ty.name(self.is_nullable());
                match (self.is_nullable(), shared) {
                    (true, true) => write!(f, "(shared {name}ref)"),
                    (true, false) => write!(f, "{name}ref"),
                    (false, true) => write!(f, "(ref (shared {name}))"),
                    (false, false) => write!(f, "(ref {name})"),
                }
            }
        }
    }
}

/// The same text as `Display`.
impl fmt::Debug for RefType {
    fn fmt(&self, f: &mut fmt::Formatter<'_>) -> fmt::Result {
        fmt::Display::fmt(self, f)
    }
}

/// A heap type.
#[derive(Clone, Copy, Debug, PartialEq, Eq, Hash)]
pub enum HeapType {
    /// An abstract heap type.
    Abstract {
        /// Whether it is shared between threads.
        shared: bool,
        /// The type.
        ty: AbstractHeapType,
    },
    /// The type with this index, or a subtype.
    Concrete(UnpackedIndex),
    /// The type with this index, without its subtypes.
    Exact(UnpackedIndex),
}

/// Defines the abstract heap types with their names in `(ref ..)`, and before `ref` in a nullable type.
macro_rules! abstract_heap_types {
    ($($(#[$doc:meta])* $name:ident, $plain:literal, $nullable:literal;)*) => {
        /// An abstract heap type.
        #[derive(Clone, Copy, Debug, PartialEq, Eq, Hash)]
        pub enum AbstractHeapType {
            $($(#[$doc])* $name,)*
        }

        impl AbstractHeapType {
            /// The types by their numbers.
            const ALL: &[AbstractHeapType] = &[$(AbstractHeapType::$name),*];

            /// Returns the name in a type with or without null.
            const fn name(self, is_nullable: bool) -> &'static str {
                let (plain, nullable) = match self {
                    $(AbstractHeapType::$name => ($plain, $nullable),)*
                };
                if is_nullable { nullable } else { plain }
            }
        }
    };
}

abstract_heap_types! {
    /// Functions.
    Func, "func", "func";
    /// Objects of the host.
    Extern, "extern", "extern";
    /// All values of the module.
    Any, "any", "any";
    /// No value of the module.
    None, "none", "null";
    /// No object of the host.
    NoExtern, "noextern", "nullextern";
    /// No function.
    NoFunc, "nofunc", "nullfunc";
    /// Values that can be compared.
    Eq, "eq", "eq";
    /// Structs.
    Struct, "struct", "struct";
    /// Arrays.
    Array, "array", "array";
    /// Integers of 31 bits.
    I31, "i31", "i31";
    /// Exceptions.
    Exn, "exn", "exn";
    /// No exception.
    NoExn, "noexn", "nullexn";
    /// Continuations.
    Cont, "cont", "cont";
    /// No continuation.
    NoCont, "nocont", "nullcont";
}

// The library's flags of a heap type: shared, nullable, a reference type as a value type.
const SHARED: u32 = 256;
const NULLABLE: u32 = 512;
const REFERENCE: u32 = 1024;

/// Returns the abstract heap type of this byte of the library.
fn abstract_heap_type(byte: u32) -> AbstractHeapType {
    match byte {
        0x68 => AbstractHeapType::Cont,
        0x69 => AbstractHeapType::Exn,
        0x6a => AbstractHeapType::Array,
        0x6b => AbstractHeapType::Struct,
        0x6c => AbstractHeapType::I31,
        0x6d => AbstractHeapType::Eq,
        0x6e => AbstractHeapType::Any,
        0x6f => AbstractHeapType::Extern,
        0x70 => AbstractHeapType::Func,
        0x71 => AbstractHeapType::None,
        0x72 => AbstractHeapType::NoExtern,
        0x73 => AbstractHeapType::NoFunc,
        0x74 => AbstractHeapType::NoExn,
        _ => AbstractHeapType::NoCont,
    }
}

impl AbstractHeapType {
    /// Returns the byte of the library.
    pub(crate) fn byte(self) -> u32 {
        match self {
            AbstractHeapType::Cont => 0x68,
            AbstractHeapType::Exn => 0x69,
            AbstractHeapType::Array => 0x6a,
            AbstractHeapType::Struct => 0x6b,
            AbstractHeapType::I31 => 0x6c,
            AbstractHeapType::Eq => 0x6d,
            AbstractHeapType::Any => 0x6e,
            AbstractHeapType::Extern => 0x6f,
            AbstractHeapType::Func => 0x70,
            AbstractHeapType::None => 0x71,
            AbstractHeapType::NoExtern => 0x72,
            AbstractHeapType::NoFunc => 0x73,
            AbstractHeapType::NoExn => 0x74,
            AbstractHeapType::NoCont => 0x75,
        }
    }
}

/// Returns the heap type of a kind and an index of the library.
pub(crate) fn heap_type(kind: u32, index: u32) -> HeapType {
    match kind {
        1 => HeapType::Concrete(UnpackedIndex::Module(index)),
        2 => HeapType::Exact(UnpackedIndex::Module(index)),
        _ => HeapType::Abstract {
            shared: kind & SHARED != 0,
            ty: abstract_heap_type(kind % SHARED),
        },
    }
}

/// Returns the reference type of a kind and an index of the library.
pub(crate) fn ref_type(kind: u32, index: u32) -> RefType {
    let kind = kind % REFERENCE;
    RefType::of(kind & NULLABLE != 0, heap_type(kind % NULLABLE, index))
}

/// Returns the value type of a kind and an index of the library.
pub(crate) fn val_type(kind: u32, index: u32) -> ValType {
    match kind {
        0x7f => ValType::I32,
        0x7e => ValType::I64,
        0x7d => ValType::F32,
        0x7c => ValType::F64,
        0x7b => ValType::V128,
        _ => ValType::Ref(ref_type(kind, index)),
    }
}
