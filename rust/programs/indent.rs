//! Lists the operators of a code section, indented by the open frames, which the visitor keeps.

use std::fmt::Debug;
use wasmparser::{
    BinaryReader, CodeSectionReader, ControlStack, FrameKind, FrameStack, Result, VisitOperator,
    VisitSimdOperator, for_each_visit_operator, for_each_visit_simd_operator,
};

/// Keeps the kinds of the open frames, and counts them.
#[derive(Default)]
struct Lister {
    frames: ControlStack,
    depth: usize,
}

impl FrameStack for Lister {
    fn current_frame(&self) -> Option<FrameKind> {
        self.frames.last()
    }
}

impl Lister {
    /// Prints an operator, and changes the frames.
    fn list(&mut self, name: &str, fields: &[&dyn Debug]) {
        if matches!(name, "Else" | "Catch" | "CatchAll" | "End" | "Delegate") {
            self.depth -= usize::from(self.frames.pop().is_some());
        }
        println!("{:indent$}{name} {fields:?}", "", indent = 2 * self.depth);
        self.frames.push(match name {
            "Block" => FrameKind::Block,
            "Loop" => FrameKind::Loop,
            "If" => FrameKind::If,
            "Else" => FrameKind::Else,
            "Try" => FrameKind::LegacyTry,
            "Catch" => FrameKind::LegacyCatch,
            "CatchAll" => FrameKind::LegacyCatchAll,
            "TryTable" => FrameKind::TryTable,
            _ => return,
        });
        self.depth += 1;
    }
}

macro_rules! list {
    ($(@$proposal:ident $op:ident $({ $($field:ident: $ty:ty),* })? => $visit:ident ($($ann:tt)*))*) => {
        $(fn $visit(&mut self $($(, $field: $ty)*)?) {
            self.list(stringify!($op), &[$($(&$field),*)?]);
        })*
    };
}

impl<'a> VisitOperator<'a> for Lister {
    type Output = ();

    fn simd_visitor(&mut self) -> Option<&mut dyn VisitSimdOperator<'a, Output = ()>> {
        Some(self)
    }

    for_each_visit_operator!(list);
}

impl VisitSimdOperator<'_> for Lister {
    for_each_visit_simd_operator!(list);
}

/// Lists the operators that are left.
fn list(mut reader: BinaryReader<'_>) -> Result<()> {
    let mut lister = Lister::default();
    lister.frames.push(FrameKind::Block);
    lister.depth = 1;
    while !reader.eof() {
        let next = reader.peek_operator(&lister)?;
        reader.visit_operator(&mut lister)?;
        if reader.is_end_then_eof() {
            println!("{next:?} is the last but one of {:?}", reader.range());
        }
    }
    reader.finish_expression(&lister)
}

fn run(bytes: &[u8]) -> Result<()> {
    for body in CodeSectionReader::new(BinaryReader::new(bytes, 0))? {
        let operators = body?.get_binary_reader_for_operators();
        if let Err(error) = operators.and_then(list) {
            println!("{error}");
        }
    }
    Ok(())
}

fn main() {
    let path = std::env::args_os()
        .nth(1)
        .expect("a file with a code section");
    let bytes = std::fs::read(path).expect("a file that can be read");
    if let Err(error) = run(&bytes) {
        println!("{error}");
    }
}
