//! Lists that operators have. The library reads their members.

use crate::native::{self, PlainHandler, PlainOperator};
use crate::value_types::val_type;
use crate::{BinaryReader, BlockType, Result, ValType, WasmFeatures};
use std::fmt;
use std::marker::PhantomData;
use std::vec;

/// The bytes that operators are read from.
#[derive(Clone, Copy, Debug)]
pub(crate) struct Source<'a> {
    pub(crate) bytes: &'a [u8],
    /// The offset of the first byte.
    pub(crate) offset: u64,
    pub(crate) features: WasmFeatures,
}

impl<'a> Source<'a> {
    /// Returns the bytes from an operator on.
    fn from(&self, op: &PlainOperator) -> &'a [u8] {
        &self.bytes[(op.offset - self.offset) as usize..]
    }
}

/// The labels of a `br_table`, which stay in the bytes.
#[derive(Clone)]
pub struct BrTable<'a> {
    /// Starts with the operator.
    bytes: &'a [u8],
    features: u32,
    count: u32,
    default: u32,
}

impl<'a> BrTable<'a> {
    pub(crate) fn of(op: &PlainOperator, source: &Source<'a>) -> BrTable<'a> {
        BrTable {
            bytes: source.from(op),
            features: source.features.library_bits(),
            count: op.first,
            default: op.second,
        }
    }

    /// Returns the bytes from the operator on, and the library's bits of the features.
    pub(crate) fn source(&self) -> (&'a [u8], u32) {
        (self.bytes, self.features)
    }

    /// Returns the number of targets, without the default one.
    pub fn len(&self) -> u32 {
        self.count
    }

    /// Returns whether the default target is the only one.
    pub fn is_empty(&self) -> bool {
        self.count == 0
    }

    /// Returns the default target.
    pub fn default(&self) -> u32 {
        self.default
    }

    /// Returns the targets, without the default one.
    ///
    /// ```
    /// use wasm_operators::{BinaryReader, Operator, OperatorsReader, Result};
    ///
    /// let mut reader = OperatorsReader::new(BinaryReader::new(&[0x0e, 2, 7, 8, 0], 0));
    /// let Operator::BrTable { targets } = reader.read()? else { unreachable!() };
    /// assert_eq!(targets.targets().collect::<Result<Vec<_>>>()?, [7, 8]);
    /// # Ok::<(), wasm_operators::Error>(())
    /// ```
    pub fn targets(&self) -> BrTableTargets<'_> {
        let targets = native::branch_targets(self.bytes, self.features, self.count);
        BrTableTargets {
            targets: targets.into_iter(),
            table: PhantomData,
        }
    }

    /// Returns the bytes of the targets.
    fn target_bytes(&self) -> Result<&'a [u8]> {
        let features = WasmFeatures::from_bits_truncate(u64::from(self.features));
        let mut reader = BinaryReader::new_features(self.bytes, 0, features);
        reader.read_u8()?;
        reader.read_var_u32()?;
        let targets = reader.skip(|reader| {
            for _ in 0..self.count {
                reader.read_var_u32()?;
            }
            Ok(())
        })?;
        Ok(targets.remaining_buffer())
    }
}

/// Compares counts, default targets and the bytes of the targets.
impl PartialEq for BrTable<'_> {
    fn eq(&self, other: &BrTable<'_>) -> bool {
        self.count == other.count
            && self.default == other.default
            && self.target_bytes() == other.target_bytes()
    }
}

impl Eq for BrTable<'_> {}

impl fmt::Debug for BrTable<'_> {
    fn fmt(&self, f: &mut fmt::Formatter<'_>) -> fmt::Result {
        let targets = native::branch_targets(self.bytes, self.features, self.count);
        f.debug_struct("BrTable")
            .field("count", &self.count)
            .field("default", &self.default)
            .field("targets", &targets)
            .finish()
    }
}

/// An iterator over the targets of a [`BrTable`]. Each is `Ok`.
pub struct BrTableTargets<'a> {
    targets: vec::IntoIter<u32>,
    table: PhantomData<&'a BrTable<'a>>,
}

impl Iterator for BrTableTargets<'_> {
    type Item = Result<u32>;

    fn next(&mut self) -> Option<Result<u32>> {
        self.targets.next().map(Ok)
    }

    fn size_hint(&self) -> (usize, Option<usize>) {
        self.targets.size_hint()
    }
}

/// The immediates of a `try_table`.
#[derive(Clone, Debug, PartialEq, Eq)]
pub struct TryTable {
    /// The type of the block.
    pub ty: BlockType,
    /// The clauses.
    pub catches: Vec<Catch>,
}

/// A clause of a `try_table`.
#[derive(Clone, Copy, Debug, PartialEq, Eq, Hash)]
pub enum Catch {
    /// `catch`
    One {
        /// The index of the tag.
        tag: u32,
        /// The label that the exception branches to.
        label: u32,
    },
    /// `catch_ref`
    OneRef {
        /// The index of the tag.
        tag: u32,
        /// The label that the exception branches to.
        label: u32,
    },
    /// `catch_all`
    All {
        /// The label that the exception branches to.
        label: u32,
    },
    /// `catch_all_ref`
    AllRef {
        /// The label that the exception branches to.
        label: u32,
    },
}

impl Catch {
    /// Creates a clause from the library's numbers.
    pub(crate) fn of(kind: u32, tag: u32, label: u32) -> Catch {
        match kind {
            0 => Catch::One { tag, label },
            1 => Catch::OneRef { tag, label },
            2 => Catch::All { label },
            _ => Catch::AllRef { label },
        }
    }
}

/// The clauses of a `resume`, `resume_throw` or `resume_throw_ref`.
#[derive(Clone, Debug, PartialEq, Eq)]
pub struct ResumeTable {
    /// The clauses.
    pub handlers: Vec<Handle>,
}

impl ResumeTable {
    /// Returns the number of clauses.
    #[allow(clippy::len_without_is_empty)] // wasmparser has only this one
    pub fn len(&self) -> usize {
        self.handlers.len()
    }
}

/// A clause of a [`ResumeTable`].
#[derive(Clone, Copy, Debug, PartialEq, Eq, Hash)]
pub enum Handle {
    /// A suspension with this tag branches to the label.
    OnLabel {
        /// The index of the tag.
        tag: u32,
        /// The label that the suspension branches to.
        label: u32,
    },
    /// A suspension with this tag switches to another continuation.
    OnSwitch {
        /// The index of the tag.
        tag: u32,
    },
}

impl Handle {
    /// Creates a clause from the library's numbers.
    pub(crate) fn of(kind: u32, tag: u32, label: u32) -> Handle {
        match kind {
            0 => Handle::OnLabel { tag, label },
            _ => Handle::OnSwitch { tag },
        }
    }
}

/// Reads the types of a `select`.
pub(crate) fn select_types(op: &PlainOperator, source: &Source<'_>) -> Vec<ValType> {
    let types = native::select_types(source.from(op), source.features.library_bits(), op.first);
    types.iter().map(|ty| val_type(ty.kind, ty.index)).collect()
}

/// Reads a `try_table`.
pub(crate) fn try_table(op: &PlainOperator, source: &Source<'_>) -> TryTable {
    let catches = native::catches(source.from(op), source.features.library_bits(), op.second);
    let catch = |&PlainHandler { kind, tag, label }: &PlainHandler| Catch::of(kind, tag, label);
    TryTable {
        ty: op.block_type(),
        catches: catches.iter().map(catch).collect(),
    }
}

/// Reads the clauses of a `resume` and its like.
pub(crate) fn resume_table(op: &PlainOperator, source: &Source<'_>, count: u32) -> ResumeTable {
    let handlers = native::handlers(source.from(op), source.features.library_bits(), count);
    let handle = |&PlainHandler { kind, tag, label }: &PlainHandler| Handle::of(kind, tag, label);
    ResumeTable {
        handlers: handlers.iter().map(handle).collect(),
    }
}
