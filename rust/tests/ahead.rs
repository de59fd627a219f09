//! Readers that read ahead behave as if they read one operator at a time.
//!
//! The reference is a [`BinaryReader`] with the caller's frames, which reads one operator by one call of the library.

mod changed;

use wasm_operators::{
    BinaryReader, ControlStack, EachVisit, FrameKind, FrameStack, FunctionBody, Operator,
    OperatorsReader, Result, VisitAny, VisitOperator, VisitSimdOperator, WasmFeatures,
    for_each_visit_operator, for_each_visit_simd_operator,
};

/// Returns the operators that it visits. It has the open frames, and may support SIMD operators.
struct OneByOne {
    frames: ControlStack,
    has_simd: bool,
}

macro_rules! same {
    ($(@$proposal:ident $op:ident $({ $($field:ident: $ty:ty),* })? => $visit:ident ($($ann:tt)*))*) => {
        $(fn $visit(&mut self $($(, $field: $ty)*)?) -> Operator<'a> {
            Operator::$op $({ $($field),* })?
        })*
    };
}

impl<'a> VisitOperator<'a> for OneByOne {
    type Output = Operator<'a>;

    fn simd_visitor(&mut self) -> Option<&mut dyn VisitSimdOperator<'a, Output = Operator<'a>>> {
        if self.has_simd { Some(self) } else { None }
    }

    for_each_visit_operator!(same);
}

impl<'a> VisitSimdOperator<'a> for OneByOne {
    for_each_visit_simd_operator!(same);
}

impl FrameStack for OneByOne {
    fn current_frame(&self) -> Option<FrameKind> {
        self.frames.last()
    }
}

impl OneByOne {
    /// Creates a visitor in which the frame of the expression is open.
    fn new(has_simd: bool) -> OneByOne {
        let mut frames = ControlStack::default();
        frames.push(FrameKind::Block);
        OneByOne { frames, has_simd }
    }

    /// Changes the frames by an operator.
    fn follow(&mut self, operator: &Operator<'_>) {
        let kind = match operator {
            Operator::Block { .. } => FrameKind::Block,
            Operator::Loop { .. } => FrameKind::Loop,
            Operator::If { .. } => FrameKind::If,
            Operator::Try { .. } => FrameKind::LegacyTry,
            Operator::TryTable { .. } => FrameKind::TryTable,
            Operator::Else => FrameKind::Else,
            Operator::Catch { .. } => FrameKind::LegacyCatch,
            Operator::CatchAll => FrameKind::LegacyCatchAll,
            Operator::End | Operator::Delegate { .. } => {
                self.frames.pop();
                return;
            }
            _ => return,
        };
        let turns = [
            FrameKind::Else,
            FrameKind::LegacyCatch,
            FrameKind::LegacyCatchAll,
        ];
        if turns.contains(&kind) {
            self.frames.pop();
        }
        self.frames.push(kind);
    }
}

/// Checks what a reader returns before its next operator.
fn look_at(operators: &OperatorsReader<'_>, reader: &BinaryReader<'_>, visitor: &OneByOne) {
    assert_eq!(operators.eof(), reader.eof());
    assert_eq!(operators.original_position(), reader.original_position());
    assert_eq!(operators.current_frame(), visitor.current_frame());
    assert_eq!(operators.is_end_then_eof(), reader.is_end_then_eof());
    assert_eq!(operators.finish(), reader.finish_expression(visitor));
    let rest = operators.get_binary_reader();
    assert_eq!(rest.range(), reader.range());
    assert_eq!(rest.remaining_range(), reader.remaining_range());
    assert_eq!(rest.features(), reader.features());
}

/// Reads operators by each of these calls in turn, and compares with the reference.
fn compare(body: &[u8], features: WasmFeatures, has_simd: bool, turn: usize) {
    let body = FunctionBody::new(BinaryReader::new_features(body, 7, features));
    let Ok(mut reader) = body.get_binary_reader_for_operators() else {
        return;
    };
    let mut operators = body.get_operators_reader().unwrap();
    let mut visitor = OneByOne::new(has_simd);
    for step in turn.. {
        look_at(&operators, &reader, &visitor);
        let offset = reader.original_position();
        let wanted = reader.visit_operator(&mut visitor);
        let found = match step % 4 {
            _ if !has_simd => operators.visit_operator(&mut visitor),
            0 => operators.read(),
            1 => operators.read_with_offset().map(|(operator, at)| {
                assert_eq!(at, offset);
                operator
            }),
            2 => operators.visit_operator(&mut EachVisit(Same)),
            _ => {
                let mut other = operators.clone();
                std::mem::swap(&mut operators, &mut other);
                operators.read()
            }
        };
        assert_eq!(found, wanted);
        match wanted {
            Ok(operator) => visitor.follow(&operator),
            Err(error) => {
                // The reader is where it was, and fails again.
                look_at(&operators, &reader, &visitor);
                let again = operators.visit_operator(&mut visitor);
                assert_eq!(again, Err(error));
                return;
            }
        }
    }
}

/// Returns the operators that it visits.
struct Same;

impl<'a> VisitAny<'a> for Same {
    type Output = Operator<'a>;

    fn visit_any(&mut self, op: Operator<'a>) -> Operator<'a> {
        op
    }
}

#[test]
fn as_one_by_one() {
    let mut turn = 0;
    changed::for_each(|body| {
        compare(body, WasmFeatures::all(), true, turn);
        turn += 1;
    });
    assert!(turn > 5000, "{turn} bodies");
}

#[test]
fn as_one_by_one_without_simd() {
    changed::for_each(|body| compare(body, WasmFeatures::all(), false, 0));
}

#[test]
fn as_one_by_one_without_features() {
    changed::for_each(|body| compare(body, WasmFeatures::empty(), true, 1));
}

/// Reads the operators that are left with their offsets, up to an error.
fn rest_of<'a>(operators: &mut OperatorsReader<'a>) -> Vec<Result<(Operator<'a>, u64)>> {
    let mut found = Vec::new();
    while !operators.eof() && found.last().is_none_or(Result::is_ok) {
        found.push(operators.read_with_offset());
    }
    found
}

#[test]
fn iterators_begin_at_the_next_operator() {
    let mut taken = 0;
    changed::for_each(|body| {
        let body = FunctionBody::new(BinaryReader::new(body, 0));
        let Ok(mut operators) = body.get_operators_reader() else {
            return;
        };
        // A different number of operators is read before each iterator.
        taken = (taken + 1) % 131;
        for _ in 0..taken {
            if operators.eof() || operators.read().is_err() {
                break;
            }
        }
        let mut reader = operators.clone();
        let rest = rest_of(&mut reader);
        let items: Vec<_> = operators.clone().into_iter_with_offsets().collect();
        assert_eq!(items, rest);
        let mut folded = Vec::new();
        let with_offsets = operators.clone().into_iter_with_offsets();
        with_offsets.for_each(|item| folded.push(item));
        assert_eq!(folded, rest);
        let without = operators.clone().into_iter();
        assert!(without.eq(rest.iter().cloned().map(|item| item.map(|it| it.0))));
        let all: Result<Vec<_>> = rest.into_iter().collect();
        let wanted = all.and_then(|all| reader.finish().map(|()| all));
        assert_eq!(operators.read_all(), wanted);
    });
}

#[test]
fn allocations_serve_another_reader() -> Result<()> {
    for body in changed::whole() {
        let body = FunctionBody::new(BinaryReader::new(&body, 0));
        let wanted = body.get_operators_reader()?.read_all()?;
        // More than two of the longest batches.
        assert!(wanted.len() > 128);
        let mut first = body.get_operators_reader()?;
        for _ in 0..11 {
            first.read()?;
        }
        let reader = body.get_binary_reader_for_operators()?;
        let second = OperatorsReader::new_with_allocs(reader.clone(), first.into_allocations());
        assert_eq!(second.clone().read_all()?, wanted);
        let memory = second.into_iter().into_allocations();
        let third = OperatorsReader::new_with_allocs(reader, memory);
        assert_eq!(third.read_all()?, wanted);
    }
    Ok(())
}

#[test]
fn readers_may_be_sent_and_shared() {
    fn is_both<T: Send + Sync>(_: &T) {}
    is_both(&OperatorsReader::new(BinaryReader::new(&[0x0b], 0)));
}
