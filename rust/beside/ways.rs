// The ways to read operators that both libraries have. `beside.rs` includes this file once for each, as `library`.

use self::library::*;
use std::hint::black_box;

fn operators(bytes: &[u8]) -> OperatorsReader<'_> {
    let body = FunctionBody::new(BinaryReader::new(bytes, 0));
    body.get_operators_reader().expect("a body")
}

pub fn list(bytes: &[u8]) -> usize {
    let mut operators = operators(bytes);
    let mut found = Vec::new();
    while !operators.eof() {
        found.push(operators.read_with_offset().expect("a body"));
    }
    black_box(&found).len()
}

pub fn reads(bytes: &[u8]) -> usize {
    let mut operators = operators(bytes);
    let mut count = 0;
    while !operators.eof() {
        black_box(&operators.read_with_offset().expect("a body"));
        count += 1;
    }
    count
}

pub fn iterator(bytes: &[u8]) -> usize {
    let operators = operators(bytes).into_iter_with_offsets();
    let offsets = operators.map(|it| black_box(&it.expect("a body")).1);
    offsets.filter(|offset| *offset > 0).count()
}

/// Counts the operators, and adds up the constants.
#[derive(Default)]
struct Tally {
    count: usize,
    sum: u64,
}

macro_rules! tally {
    ($(@$proposal:ident $op:ident $({ $($field:ident: $ty:ty),* })? => $visit:ident ($($ann:tt)*))*) => {
        $(tally!(@one $visit($($($field: $ty),*)?));)*
    };
    (@one visit_i32_const($value:ident: $ty:ty)) => {
        fn visit_i32_const(&mut self, $value: $ty) {
            self.sum = self.sum.wrapping_add($value as u64);
            self.count += 1;
        }
    };
    (@one $visit:ident($($field:ident: $ty:ty),*)) => {
        fn $visit(&mut self $(, _: $ty)*) {
            self.count += 1;
        }
    };
}

impl<'a> VisitOperator<'a> for Tally {
    type Output = ();

    fn simd_visitor(&mut self) -> Option<&mut dyn VisitSimdOperator<'a, Output = ()>> {
        Some(self)
    }

    for_each_visit_operator!(tally);
}

impl VisitSimdOperator<'_> for Tally {
    for_each_visit_simd_operator!(tally);
}

pub fn visits(bytes: &[u8]) -> usize {
    let mut operators = operators(bytes);
    let mut tally = Tally::default();
    while !operators.eof() {
        operators.visit_operator(&mut tally).expect("a body");
    }
    black_box(&tally).count
}
