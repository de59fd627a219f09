//! Immediates of operators, except types and lists.

use crate::native::{PlainOperator, PlainValue};
use crate::value_types::{ValType, val_type};

/// The type of a block.
#[derive(Clone, Copy, Debug, PartialEq, Eq, Hash)]
pub enum BlockType {
    /// No parameters and no results.
    Empty,
    /// No parameters, and one result of this type.
    Type(ValType),
    /// The parameters and results of the function type with this index.
    FuncType(u32),
}

/// A memory argument.
#[derive(Clone, Copy, Debug, PartialEq, Eq, Hash)]
pub struct MemArg {
    /// The alignment, as the exponent of a power of two.
    pub align: u8,
    /// The operator's natural alignment, as such an exponent. It is not in the bytes.
    pub max_align: u8,
    /// The static offset in bytes.
    pub offset: u64,
    /// What is accessed.
    pub target: MemArgTarget,
    /// The memory ordering, if the operator has one.
    pub ordering: Option<MemArgOrdering>,
}

/// What an operator with a memory argument accesses.
#[derive(Clone, Copy, Debug, PartialEq, Eq, Hash)]
pub enum MemArgTarget {
    /// The memory with this index.
    Memory(u32),
    /// An array whose type has this index.
    Array(u32),
}

impl Default for MemArgTarget {
    fn default() -> MemArgTarget {
        MemArgTarget::Memory(0)
    }
}

/// The memory ordering in a memory argument.
#[derive(Clone, Copy, Debug, PartialEq, Eq, Hash)]
pub enum MemArgOrdering {
    /// The ordering of an atomic load or store.
    Op(Ordering),
    /// The ordering of an atomic read-modify-write.
    Rmw(Ordering),
}

/// A memory ordering.
#[derive(Clone, Copy, Debug, PartialEq, Eq, Hash)]
pub enum Ordering {
    /// Acquire-release.
    AcqRel,
    /// Sequentially consistent.
    SeqCst,
}

/// The bits of a float of 32 bits.
#[derive(Clone, Copy, Debug, PartialEq, Eq, Hash)]
pub struct Ieee32(pub(crate) u32);

impl Ieee32 {
    /// Returns the bits.
    pub fn bits(self) -> u32 {
        self.0
    }
}

impl From<f32> for Ieee32 {
    fn from(value: f32) -> Ieee32 {
        Ieee32(value.to_bits())
    }
}

impl From<Ieee32> for f32 {
    fn from(bits: Ieee32) -> f32 {
        f32::from_bits(bits.0)
    }
}

/// The bits of a float of 64 bits.
#[derive(Clone, Copy, Debug, PartialEq, Eq, Hash)]
pub struct Ieee64(pub(crate) u64);

impl Ieee64 {
    /// Returns the bits.
    pub fn bits(self) -> u64 {
        self.0
    }
}

impl From<f64> for Ieee64 {
    fn from(value: f64) -> Ieee64 {
        Ieee64(value.to_bits())
    }
}

impl From<Ieee64> for f64 {
    fn from(bits: Ieee64) -> f64 {
        f64::from_bits(bits.0)
    }
}

/// A vector of 128 bits.
#[derive(Clone, Copy, Debug, PartialEq, Eq, Hash)]
pub struct V128(pub(crate) [u8; 16]);

impl V128 {
    /// Returns the bytes, little-endian.
    pub fn bytes(&self) -> &[u8; 16] {
        &self.0
    }

    /// Returns the vector as a signed integer.
    pub fn i128(&self) -> i128 {
        i128::from_le_bytes(self.0)
    }
}

impl From<V128> for i128 {
    fn from(vector: V128) -> i128 {
        vector.i128()
    }
}

impl From<V128> for u128 {
    fn from(vector: V128) -> u128 {
        u128::from_le_bytes(vector.0)
    }
}

impl From<i128> for V128 {
    fn from(value: i128) -> V128 {
        V128(value.to_le_bytes())
    }
}

impl From<u128> for V128 {
    fn from(value: u128) -> V128 {
        V128(value.to_le_bytes())
    }
}

/// The library's kind of a block type without a type.
const EMPTY: u32 = 0x40;

/// Returns the block type of a kind and an index of the library.
fn block_type(kind: u32, index: u32) -> BlockType {
    match kind {
        EMPTY => BlockType::Empty,
        0 => BlockType::FuncType(index),
        kind => BlockType::Type(val_type(kind, index)),
    }
}

impl PlainValue {
    /// Returns its block type.
    pub(crate) fn block_type(&self) -> BlockType {
        block_type(self.kind, self.index)
    }
}

impl PlainOperator {
    /// Returns its block type.
    pub(crate) fn block_type(&self) -> BlockType {
        block_type(self.kind, self.first)
    }

    /// Returns its memory argument.
    pub(crate) fn memory_argument(&self) -> MemArg {
        MemArg {
            align: self.align,
            max_align: self.max_align,
            offset: self.wide,
            target: if self.target == 0 {
                MemArgTarget::Memory(self.first)
            } else {
                MemArgTarget::Array(self.first)
            },
            ordering: match self.ordering {
                1 => Some(MemArgOrdering::Op(Ordering::SeqCst)),
                2 => Some(MemArgOrdering::Op(Ordering::AcqRel)),
                3 => Some(MemArgOrdering::Rmw(Ordering::SeqCst)),
                4 => Some(MemArgOrdering::Rmw(Ordering::AcqRel)),
                _ => None,
            },
        }
    }

    /// Returns its memory ordering.
    pub(crate) fn order(&self) -> Ordering {
        if self.ordering == 2 {
            Ordering::AcqRel
        } else {
            Ordering::SeqCst
        }
    }

    /// Returns whether this is an `end`.
    pub(crate) fn is_end(&self) -> bool {
        self.opcode == END
    }

    /// Returns whether this is a SIMD operator.
    #[inline]
    pub(crate) fn is_simd(&self) -> bool {
        self.opcode >> 16 == SIMD_PREFIX
    }
}

/// The library's opcode of an `end`.
const END: u32 = 0x0b;
/// The byte before the code of a SIMD operator.
const SIMD_PREFIX: u32 = 0xfd;
