//! Operators that the library has read ahead of a reader.

use crate::frame_change::{FrameChange, frame_change};
use crate::frames::FrameKind;
use crate::native::{self, Place, PlainOperator, PlainReader, Refusal};

/// The numbers of operators in the first batch and in later ones. Each is read twice as far ahead as the last one.
const FIRST: usize = 8;
const LARGEST: usize = 64;

/// A batch of operators that the library has read, and the place of the next one.
///
/// The library's reader and frames are those after the whole batch.
#[derive(Clone, Default)]
pub(crate) struct Batch {
    operators: Vec<PlainOperator>,
    /// At most the length of `operators`.
    next: usize,
    before: OpenFrames,
}

/// The innermost of the frames that were open before a batch.
#[derive(Clone, Copy)]
struct OpenFrames {
    /// Outermost first. Each operator of the batch closes at most one.
    kinds: [u8; LARGEST],
    count: usize,
}

impl Default for OpenFrames {
    fn default() -> OpenFrames {
        OpenFrames {
            kinds: [0; LARGEST],
            count: 0,
        }
    }
}

impl OpenFrames {
    /// Copies the innermost of these frames.
    fn of(open: &[u8]) -> OpenFrames {
        let count = open.len().min(LARGEST);
        let mut kinds = [0; LARGEST];
        kinds[..count].copy_from_slice(&open[open.len() - count..]);
        OpenFrames { kinds, count }
    }
}

impl Batch {
    /// Creates an empty batch in the memory of an earlier one.
    pub(crate) fn in_memory(mut operators: Vec<PlainOperator>) -> Batch {
        operators.clear();
        Batch {
            operators,
            ..Batch::default()
        }
    }

    /// Returns the memory, for another batch.
    pub(crate) fn into_memory(self) -> Vec<PlainOperator> {
        self.operators
    }

    /// Returns whether all operators were taken.
    #[inline]
    pub(crate) fn is_empty(&self) -> bool {
        self.next >= self.operators.len()
    }

    /// Returns the next operator, which stays.
    #[inline]
    pub(crate) fn first(&self) -> Option<&PlainOperator> {
        self.operators.get(self.next)
    }

    /// Takes the next operator, which must exist.
    #[inline]
    pub(crate) fn take(&mut self) -> &PlainOperator {
        let op = &self.operators[self.next];
        self.next += 1;
        op
    }

    /// Puts back the operator that was taken last.
    pub(crate) fn put_back(&mut self) {
        self.next -= 1;
    }

    /// Takes all operators that are left.
    pub(crate) fn take_all(&mut self) -> &[PlainOperator] {
        let rest = &self.operators[self.next..];
        self.next = self.operators.len();
        rest
    }

    /// Replaces the operators, which were all taken, by the next ones, of which there is at least one. On failure, no
    /// operator can be read.
    pub(crate) fn fill(
        &mut self,
        bytes: &[u8],
        frames: &mut [u8],
        reader: &mut PlainReader,
    ) -> Result<(), Refusal> {
        let left = bytes.len() - reader.position as usize;
        let wanted = (2 * self.operators.len()).clamp(FIRST, LARGEST);
        self.before = OpenFrames::of(&frames[..reader.depth as usize]);
        self.next = 0;
        self.operators.clear();
        if left == 0 {
            // At the end, a batch is empty without an error.
            let mut place = Place::uninit();
            let op = native::next(bytes, frames, reader, &mut place)?;
            self.operators.push(*op);
            return Ok(());
        }
        // An operator has at least one byte.
        self.operators.reserve(LARGEST.min(left));
        let refusal = native::read(bytes, frames, reader, &mut self.operators, wanted);
        if self.operators.is_empty() {
            Err(refusal)
        } else {
            // The next batch begins at the error, and fails.
            Ok(())
        }
    }

    /// Returns the innermost frame before the next operator of the batch, inside which the library has read it.
    pub(crate) fn innermost(&self) -> FrameKind {
        // The number of frames that are closed after the operators that follow in this loop.
        let mut closed = 0;
        for op in self.operators[..self.next].iter().rev() {
            match frame_change(op.opcode) {
                FrameChange::Opens(kind) | FrameChange::Turns(kind) if closed == 0 => return kind,
                FrameChange::Opens(_) => closed -= 1,
                FrameChange::Closes => closed += 1,
                FrameChange::Turns(_) | FrameChange::Stays => {}
            }
        }
        FrameKind::of_byte(self.before.kinds[self.before.count - 1 - closed])
    }
}
