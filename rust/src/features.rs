//! The features of WebAssembly.

use std::fmt;
use std::ops::{
    BitAnd, BitAndAssign, BitOr, BitOrAssign, BitXor, BitXorAssign, Not, Sub, SubAssign,
};

/// Defines the features: their constants and methods, and the struct with a field for each.
macro_rules! features {
    ($($(#[$doc:meta])* $name:ident, $method:ident, $bits:expr, $default:literal;)*) => {
        /// A set of features.
        ///
        /// Six features change what is read. Each other feature is carried: readers return it, and nothing depends on it.
        /// The bits are this crate's.
        #[derive(Clone, Copy, PartialEq, Eq, PartialOrd, Ord, Hash)]
        pub struct WasmFeatures(u64);

        impl WasmFeatures {
            $(
                $(#[$doc])*
                pub const $name: WasmFeatures = WasmFeatures($bits);
            )*

            /// The names of the features.
            const NAMED: &[(&'static str, WasmFeatures)] =
                &[$((stringify!($name), WasmFeatures::$name)),*];

            /// The bits of all features.
            const ALL: u64 = 0 $(| $bits)*;

            $(
                /// Returns whether the set has this feature.
                #[inline]
                pub const fn $method(&self) -> bool {
                    self.contains(WasmFeatures::$name)
                }
            )*

            /// Returns the set of the fields that are true.
            pub fn from_inflated(inflated: WasmFeaturesInflated) -> WasmFeatures {
                let mut features = WasmFeatures::empty();
                $(features.set(WasmFeatures::$name, inflated.$method);)*
                features
            }

            /// Returns the set as a struct with a field for each feature.
            pub fn inflate(&self) -> WasmFeaturesInflated {
                WasmFeaturesInflated { $($method: self.$method()),* }
            }
        }

        /// The features that wasmparser 0.239 has on by default, which are at phase 4 or 5.
        impl Default for WasmFeatures {
            fn default() -> WasmFeatures {
                let mut features = WasmFeatures::empty();
                $(features.set(WasmFeatures::$name, $default);)*
                features
            }
        }

        /// A set of features as a struct with a field for each.
        #[derive(Clone, Copy, Debug, PartialEq, Eq)]
        pub struct WasmFeaturesInflated {
            $(
                $(#[$doc])*
                pub $method: bool,
            )*
        }
    };
}

// The library's bits are 0 to 5.
features! {
    /// Globals that are imported or exported may be mutable.
    MUTABLE_GLOBAL, mutable_global, 1 << 6, true;
    /// Conversions of floats to integers that do not trap.
    SATURATING_FLOAT_TO_INT, saturating_float_to_int, 1 << 7, true;
    /// Operators that extend the sign of an integer.
    SIGN_EXTENSION, sign_extension, 1 << 8, true;
    /// Reference types, with [`CALL_INDIRECT_OVERLONG`](WasmFeatures::CALL_INDIRECT_OVERLONG).
    REFERENCE_TYPES, reference_types, 1 << 9 | 1 << 2, true;
    /// Blocks and functions with several results, and blocks with parameters.
    MULTI_VALUE, multi_value, 1 << 10, true;
    /// Bulk memory operators, with [`BULK_MEMORY_OPT`](WasmFeatures::BULK_MEMORY_OPT).
    BULK_MEMORY, bulk_memory, 1 << 11 | 1 << 12, true;
    /// SIMD operators.
    SIMD, simd, 1 << 13, true;
    /// Relaxed SIMD operators.
    RELAXED_SIMD, relaxed_simd, 1 << 14, true;
    /// Threads: shared memories and atomic operators.
    THREADS, threads, 1 << 15, true;
    /// Threads that share types, functions, tables and globals.
    SHARED_EVERYTHING_THREADS, shared_everything_threads, 1 << 16, false;
    /// Tail calls.
    TAIL_CALL, tail_call, 1 << 17, true;
    /// Floats, which are no proposal.
    FLOATS, floats, 1 << 18, true;
    /// A memory argument may have a memory index, and `memory.size` and `memory.grow` have one.
    MULTI_MEMORY, multi_memory, 1 << 0, true;
    /// Exceptions with `try_table`.
    EXCEPTIONS, exceptions, 1 << 19, true;
    /// The offset of a memory argument has 64 bits, as do the limits of memories and tables.
    MEMORY64, memory64, 1 << 1, true;
    /// Additions and multiplications in constant expressions.
    EXTENDED_CONST, extended_const, 1 << 20, true;
    /// The component model.
    COMPONENT_MODEL, component_model, 1 << 21, true;
    /// References to functions with a type.
    FUNCTION_REFERENCES, function_references, 1 << 22, true;
    /// Memory control: `memory.discard`.
    MEMORY_CONTROL, memory_control, 1 << 23, false;
    /// Garbage collection: structs, arrays and `i31`.
    GC, gc, 1 << 24, true;
    /// Memories with other page sizes.
    CUSTOM_PAGE_SIZES, custom_page_sizes, 1 << 25, false;
    /// The operators `try`, `catch` and `catch_all` are read.
    LEGACY_EXCEPTIONS, legacy_exceptions, 1 << 3, false;
    /// Types of values that a collector owns, which are no proposal.
    GC_TYPES, gc_types, 1 << 26, true;
    /// Stack switching: continuations.
    STACK_SWITCHING, stack_switching, 1 << 27, false;
    /// Wide arithmetic: sums and products of 128 bits.
    WIDE_ARITHMETIC, wide_arithmetic, 1 << 28, false;
    /// Custom descriptors of structs, and exact references.
    CUSTOM_DESCRIPTORS, custom_descriptors, 1 << 29, false;
    /// Values in components.
    CM_VALUES, cm_values, 1 << 30, false;
    /// Nested names in components.
    CM_NESTED_NAMES, cm_nested_names, 1 << 31, false;
    /// Asynchronous functions in components.
    CM_ASYNC, cm_async, 1 << 32, false;
    /// Asynchronous functions with a stack in components.
    CM_ASYNC_STACKFUL, cm_async_stackful, 1 << 33, false;
    /// Asynchronous built-in functions in components.
    CM_ASYNC_BUILTINS, cm_async_builtins, 1 << 34, false;
    /// Threads in components.
    CM_THREADING, cm_threading, 1 << 35, false;
    /// Error contexts in components.
    CM_ERROR_CONTEXT, cm_error_context, 1 << 36, false;
    /// Lists of a fixed size in components.
    CM_FIXED_SIZE_LIST, cm_fixed_size_list, 1 << 37, false;
    /// Garbage collection in components.
    CM_GC, cm_gc, 1 << 38, false;
    /// The table index of `call_indirect` may have more than one byte.
    CALL_INDIRECT_OVERLONG, call_indirect_overlong, 1 << 2, true;
    /// The operators `memory.copy` and `memory.fill`.
    BULK_MEMORY_OPT, bulk_memory_opt, 1 << 12, true;
    /// Atomic operators may have a memory ordering.
    ACQUIRE_RELEASE_ATOMICS, acquire_release_atomics, 1 << 4, false;
    /// A memory argument may have the type index of an array.
    MULTIBYTE_ARRAY_ACCESS, multibyte_array_access, 1 << 5, false;
}

/// The bits of the features that the library knows.
const LIBRARY: u64 = 63;

/// The sets of versions of the specification.
impl WasmFeatures {
    /// The first release of WebAssembly.
    pub const MVP: WasmFeatures = WasmFeatures::FLOATS.union(WasmFeatures::GC_TYPES);

    /// Version 1.0 of the specification.
    pub const WASM1: WasmFeatures = WasmFeatures::MVP.union(WasmFeatures::MUTABLE_GLOBAL);

    /// Version 2.0 of the specification.
    pub const WASM2: WasmFeatures = WasmFeatures::WASM1
        .union(WasmFeatures::BULK_MEMORY)
        .union(WasmFeatures::REFERENCE_TYPES)
        .union(WasmFeatures::SIGN_EXTENSION)
        .union(WasmFeatures::SATURATING_FLOAT_TO_INT)
        .union(WasmFeatures::MULTI_VALUE)
        .union(WasmFeatures::SIMD);

    /// Version 3.0 of the specification.
    pub const WASM3: WasmFeatures = WasmFeatures::WASM2
        .union(WasmFeatures::GC)
        .union(WasmFeatures::TAIL_CALL)
        .union(WasmFeatures::EXTENDED_CONST)
        .union(WasmFeatures::FUNCTION_REFERENCES)
        .union(WasmFeatures::MULTI_MEMORY)
        .union(WasmFeatures::RELAXED_SIMD)
        .union(WasmFeatures::THREADS)
        .union(WasmFeatures::EXCEPTIONS)
        .union(WasmFeatures::MEMORY64);

    /// The first version of the features for linear memory, which tools agree on.
    pub const LIME1: WasmFeatures = WasmFeatures::WASM1
        .union(WasmFeatures::MULTI_VALUE)
        .union(WasmFeatures::SIGN_EXTENSION)
        .union(WasmFeatures::SATURATING_FLOAT_TO_INT)
        .union(WasmFeatures::BULK_MEMORY_OPT)
        .union(WasmFeatures::EXTENDED_CONST)
        .union(WasmFeatures::CALL_INDIRECT_OVERLONG);

    /// Returns the library's bits of the features that change what is read.
    #[inline]
    pub(crate) const fn library_bits(&self) -> u32 {
        (self.0 & LIBRARY) as u32
    }
}

impl WasmFeatures {
    /// Returns the set of all features.
    pub const fn all() -> WasmFeatures {
        WasmFeatures(WasmFeatures::ALL)
    }

    /// Returns the empty set.
    pub const fn empty() -> WasmFeatures {
        WasmFeatures(0)
    }

    /// Returns the bits of the features.
    pub const fn bits(&self) -> u64 {
        self.0
    }

    /// Returns the set with these bits, or `None` if a bit belongs to no feature.
    pub const fn from_bits(bits: u64) -> Option<WasmFeatures> {
        if bits & !WasmFeatures::ALL == 0 {
            Some(WasmFeatures(bits))
        } else {
            None
        }
    }

    /// Returns the set with these bits, without bits that belong to no feature.
    pub const fn from_bits_truncate(bits: u64) -> WasmFeatures {
        WasmFeatures(bits & WasmFeatures::ALL)
    }

    /// Returns the set of the feature with this name, such as `MEMORY64`.
    pub fn from_name(name: &str) -> Option<WasmFeatures> {
        let found = WasmFeatures::NAMED.iter().find(|(one, _)| *one == name);
        found.map(|(_, features)| *features)
    }

    /// Returns the set with these bits.
    pub const fn from_bits_retain(bits: u64) -> WasmFeatures {
        WasmFeatures(bits)
    }

    /// Returns the features in the set with their names. A feature that earlier ones include is left out.
    pub fn iter_names(&self) -> impl Iterator<Item = (&'static str, WasmFeatures)> + use<> {
        let (features, mut left) = (*self, *self);
        let named = WasmFeatures::NAMED.iter().copied();
        named.filter(move |(_, one)| {
            let is_next = features.contains(*one) && left.intersects(*one);
            if is_next {
                left.remove(*one);
            }
            is_next
        })
    }

    /// Returns the features in the set.
    pub fn iter(&self) -> impl Iterator<Item = WasmFeatures> + use<> {
        self.iter_names().map(|(_, one)| one)
    }

    /// Returns whether the set is empty.
    pub const fn is_empty(&self) -> bool {
        self.0 == 0
    }

    /// Returns whether the set has all features.
    pub const fn is_all(&self) -> bool {
        self.0 == WasmFeatures::ALL
    }

    /// Returns whether the set has all features of the other set.
    pub const fn contains(&self, other: WasmFeatures) -> bool {
        self.0 & other.0 == other.0
    }

    /// Returns whether the sets have a feature in common.
    pub const fn intersects(&self, other: WasmFeatures) -> bool {
        self.0 & other.0 != 0
    }

    /// Adds the features of the other set.
    pub const fn insert(&mut self, other: WasmFeatures) {
        self.0 |= other.0;
    }

    /// Removes the features of the other set.
    pub const fn remove(&mut self, other: WasmFeatures) {
        self.0 &= !other.0;
    }

    /// Adds or removes each feature of the other set.
    pub const fn toggle(&mut self, other: WasmFeatures) {
        self.0 ^= other.0;
    }

    /// Adds the features of the other set, or removes them.
    pub const fn set(&mut self, other: WasmFeatures, value: bool) {
        if value {
            self.insert(other);
        } else {
            self.remove(other);
        }
    }

    /// Returns the features of either set.
    pub const fn union(self, other: WasmFeatures) -> WasmFeatures {
        WasmFeatures(self.0 | other.0)
    }

    /// Returns the features of both sets.
    pub const fn intersection(self, other: WasmFeatures) -> WasmFeatures {
        WasmFeatures(self.0 & other.0)
    }

    /// Returns the features that only this set has.
    pub const fn difference(self, other: WasmFeatures) -> WasmFeatures {
        WasmFeatures(self.0 & !other.0)
    }

    /// Returns the features of exactly one set.
    pub const fn symmetric_difference(self, other: WasmFeatures) -> WasmFeatures {
        WasmFeatures(self.0 ^ other.0)
    }

    /// Returns the features that the set does not have.
    pub const fn complement(self) -> WasmFeatures {
        WasmFeatures(!self.0 & WasmFeatures::ALL)
    }
}

/// Defines operators by a method.
macro_rules! operators {
    ($($trait:ident, $call:ident, $assign_trait:ident, $assign:ident, $method:ident;)*) => {
        $(
            impl $trait for WasmFeatures {
                type Output = WasmFeatures;

                fn $call(self, other: WasmFeatures) -> WasmFeatures {
                    self.$method(other)
                }
            }

            impl $assign_trait for WasmFeatures {
                fn $assign(&mut self, other: WasmFeatures) {
                    *self = self.$method(other);
                }
            }
        )*
    };
}

operators! {
    BitOr, bitor, BitOrAssign, bitor_assign, union;
    BitAnd, bitand, BitAndAssign, bitand_assign, intersection;
    BitXor, bitxor, BitXorAssign, bitxor_assign, symmetric_difference;
    Sub, sub, SubAssign, sub_assign, difference;
}

impl Not for WasmFeatures {
    type Output = WasmFeatures;

    fn not(self) -> WasmFeatures {
        self.complement()
    }
}

impl Extend<WasmFeatures> for WasmFeatures {
    fn extend<I: IntoIterator<Item = WasmFeatures>>(&mut self, others: I) {
        others.into_iter().for_each(|one| self.insert(one));
    }
}

impl FromIterator<WasmFeatures> for WasmFeatures {
    fn from_iter<I: IntoIterator<Item = WasmFeatures>>(features: I) -> WasmFeatures {
        let mut all = WasmFeatures::empty();
        all.extend(features);
        all
    }
}

impl From<WasmFeaturesInflated> for WasmFeatures {
    fn from(inflated: WasmFeaturesInflated) -> WasmFeatures {
        WasmFeatures::from_inflated(inflated)
    }
}

impl From<WasmFeatures> for WasmFeaturesInflated {
    fn from(features: WasmFeatures) -> WasmFeaturesInflated {
        features.inflate()
    }
}

/// The names of the features, such as `WasmFeatures(MEMORY64 | GC)`.
impl fmt::Debug for WasmFeatures {
    fn fmt(&self, f: &mut fmt::Formatter<'_>) -> fmt::Result {
        let names: Vec<&str> = self.iter_names().map(|(name, _)| name).collect();
        if names.is_empty() {
            write!(f, "WasmFeatures(0x{:x})", self.0)
        } else {
            write!(f, "WasmFeatures({})", names.join(" | "))
        }
    }
}
