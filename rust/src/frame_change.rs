//! What operators do to the open frames. Written by tools/lists.py from tools/operators.tsv.

use crate::frames::FrameKind;

/// What an operator does to the open frames.
#[derive(Clone, Copy, Debug, PartialEq, Eq)]
pub(crate) enum FrameChange {
    /// Nothing.
    Stays,
    /// It opens a frame.
    Opens(FrameKind),
    /// The innermost frame becomes one of this kind.
    Turns(FrameKind),
    /// It closes the innermost frame.
    Closes,
}

/// Returns what the operator with this opcode does to the open frames.
pub(crate) fn frame_change(opcode: u32) -> FrameChange {
    match opcode {
        0x2 => FrameChange::Opens(FrameKind::Block),
        0x3 => FrameChange::Opens(FrameKind::Loop),
        0x4 => FrameChange::Opens(FrameKind::If),
        0x5 => FrameChange::Turns(FrameKind::Else),
        0x6 => FrameChange::Opens(FrameKind::LegacyTry),
        0x7 => FrameChange::Turns(FrameKind::LegacyCatch),
        0xb => FrameChange::Closes,
        0x18 => FrameChange::Closes,
        0x19 => FrameChange::Turns(FrameKind::LegacyCatchAll),
        0x1f => FrameChange::Opens(FrameKind::TryTable),
        _ => FrameChange::Stays,
    }
}
