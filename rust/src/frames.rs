//! The kinds of frames, and stacks of them.

use crate::native::PlainOperator;
use std::fmt;

/// The kind of a frame.
#[derive(Clone, Copy, Debug, PartialEq, Eq)]
pub enum FrameKind {
    /// A `block`, a function body or an expression.
    Block,
    /// An `if`.
    If,
    /// An `else`.
    Else,
    /// A `loop`.
    Loop,
    /// A `try_table`.
    TryTable,
    /// A legacy `try`.
    LegacyTry,
    /// A legacy `catch`.
    LegacyCatch,
    /// A legacy `catch_all`.
    LegacyCatchAll,
}

impl FrameKind {
    /// The kinds by their bytes in the library: `wasm_frame` of the header.
    const KINDS: [FrameKind; 8] = [
        FrameKind::Block,
        FrameKind::If,
        FrameKind::Else,
        FrameKind::Loop,
        FrameKind::TryTable,
        FrameKind::LegacyTry,
        FrameKind::LegacyCatch,
        FrameKind::LegacyCatchAll,
    ];

    /// Returns the library's byte of the kind.
    #[inline]
    pub(crate) fn byte(self) -> u8 {
        self as u8
    }

    /// Returns the kind of this byte of the library.
    #[inline]
    pub(crate) fn of_byte(byte: u8) -> FrameKind {
        FrameKind::KINDS[usize::from(byte % 8)]
    }
}

/// A stack whose innermost frame decides which operators may follow.
pub trait FrameStack {
    /// Returns the kind of the innermost frame, or `None` after the last `end`.
    fn current_frame(&self) -> Option<FrameKind>;
}

/// A stack of frames.
#[derive(Clone, Default)]
pub struct ControlStack {
    frames: Vec<FrameKind>,
}

/// The innermost frame is a separate field, as in wasmparser.
impl fmt::Debug for ControlStack {
    fn fmt(&self, f: &mut fmt::Formatter<'_>) -> fmt::Result {
        let outer = self.frames.len().saturating_sub(1);
        f.debug_struct("ControlStack")
            .field("frames", &&self.frames[..outer])
            .field("top", &self.last())
            .finish()
    }
}

impl ControlStack {
    /// Removes all frames, and keeps the allocation.
    pub fn clear(&mut self) {
        self.frames.clear();
    }

    /// Returns whether no frame is open.
    #[inline]
    pub fn is_empty(&self) -> bool {
        self.frames.is_empty()
    }

    /// Opens a frame.
    #[inline]
    pub fn push(&mut self, frame: FrameKind) {
        self.frames.push(frame);
    }

    /// Closes the innermost frame, and returns its kind.
    pub fn pop(&mut self) -> Option<FrameKind> {
        self.frames.pop()
    }

    /// Returns the kind of the innermost frame.
    #[inline]
    pub fn last(&self) -> Option<FrameKind> {
        self.frames.last().copied()
    }
}

/// The memory of an [`OperatorsReader`](crate::OperatorsReader), for another reader.
#[derive(Default)]
pub struct OperatorsReaderAllocations {
    // The contents of both have no meaning.
    pub(crate) frames: Vec<u8>,
    pub(crate) operators: Vec<PlainOperator>,
}
