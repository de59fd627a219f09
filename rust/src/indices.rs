//! Indices of types.

use std::fmt;

/// The number of bits of an index.
const INDEX_BITS: u32 = 20;
/// The greatest index of a type.
const GREATEST_INDEX: u32 = (1 << INDEX_BITS) - 1;
/// The bit of an index into a recursion group.
const REC_GROUP: u32 = 1 << INDEX_BITS;

/// The index of a type in 22 bits. [`unpack`](PackedIndex::unpack) returns it as an enum.
#[derive(Clone, Copy, PartialEq, Eq, PartialOrd, Ord, Hash)]
pub struct PackedIndex(u32);

impl PackedIndex {
    /// Packs an index into the types of the module, or returns `None` if it is above 1048575.
    #[inline]
    pub const fn from_module_index(index: u32) -> Option<PackedIndex> {
        UnpackedIndex::Module(index).pack()
    }

    /// Packs an index into the recursion group, or returns `None` if it is above 1048575.
    #[inline]
    pub const fn from_rec_group_index(index: u32) -> Option<PackedIndex> {
        UnpackedIndex::RecGroup(index).pack()
    }

    /// Returns the index as an enum.
    #[inline]
    pub const fn unpack(&self) -> UnpackedIndex {
        let index = self.0 & GREATEST_INDEX;
        if self.0 & REC_GROUP == 0 {
            UnpackedIndex::Module(index)
        } else {
            UnpackedIndex::RecGroup(index)
        }
    }

    /// Returns the index into the types of the module, if this is one.
    #[inline]
    pub const fn as_module_index(&self) -> Option<u32> {
        self.unpack().as_module_index()
    }

    /// Returns the index into the recursion group, if this is one.
    #[inline]
    pub const fn as_rec_group_index(&self) -> Option<u32> {
        self.unpack().as_rec_group_index()
    }

    /// Returns the bits, which are below `1 << 22`.
    pub(crate) const fn bits(self) -> u32 {
        self.0
    }

    /// Returns the index with these bits.
    pub(crate) const fn of_bits(bits: u32) -> PackedIndex {
        PackedIndex(bits & (REC_GROUP | GREATEST_INDEX))
    }
}

/// A struct with the kind and the number, as in wasmparser.
impl fmt::Debug for PackedIndex {
    fn fmt(&self, f: &mut fmt::Formatter<'_>) -> fmt::Result {
        let (kind, index) = match self.unpack() {
            UnpackedIndex::Module(index) => ("module", index),
            UnpackedIndex::RecGroup(index) => ("recgroup", index),
        };
        f.debug_struct("CoreTypeIndex")
            .field("kind", &kind)
            .field("index", &index)
            .finish()
    }
}

impl fmt::Display for PackedIndex {
    fn fmt(&self, f: &mut fmt::Formatter<'_>) -> fmt::Result {
        self.unpack().fmt(f)
    }
}

/// The index of a type. Reading returns indices into the types of the module.
#[derive(Clone, Copy, Debug, PartialEq, Eq, PartialOrd, Ord, Hash)]
pub enum UnpackedIndex {
    /// An index into the types of the module.
    Module(u32),
    /// An index into the recursion group of the type.
    RecGroup(u32),
}

impl UnpackedIndex {
    /// Packs the index, or returns `None` if its number is above 1048575.
    pub const fn pack(&self) -> Option<PackedIndex> {
        let (kind, index) = match *self {
            UnpackedIndex::Module(index) => (0, index),
            UnpackedIndex::RecGroup(index) => (REC_GROUP, index),
        };
        if index > GREATEST_INDEX {
            return None;
        }
        Some(PackedIndex(kind | index))
    }

    /// Returns the index into the types of the module, if this is one.
    #[inline]
    pub const fn as_module_index(&self) -> Option<u32> {
        match *self {
            UnpackedIndex::Module(index) => Some(index),
            UnpackedIndex::RecGroup(_) => None,
        }
    }

    /// Returns the index into the recursion group, if this is one.
    #[inline]
    pub const fn as_rec_group_index(&self) -> Option<u32> {
        match *self {
            UnpackedIndex::Module(_) => None,
            UnpackedIndex::RecGroup(index) => Some(index),
        }
    }
}

/// The kind and the number in parentheses, such as `(module 5)`.
impl fmt::Display for UnpackedIndex {
    fn fmt(&self, f: &mut fmt::Formatter<'_>) -> fmt::Result {
        match self {
            UnpackedIndex::Module(index) => write!(f, "(module {index})"),
            UnpackedIndex::RecGroup(index) => write!(f, "(recgroup {index})"),
        }
    }
}
