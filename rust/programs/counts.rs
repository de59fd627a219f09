//! Counts the operators of a code section by proposal, and the operands of those whose number of operands is fixed.

use std::collections::BTreeMap;
use wasmparser::{
    BinaryReader, CodeSectionReader, FunctionBody, Operator, Result, VisitOperator,
    VisitSimdOperator, for_each_operator, for_each_visit_operator, for_each_visit_simd_operator,
};

/// The number of operators, and the number of their operands.
type Counts = BTreeMap<&'static str, (u64, u64)>;

#[derive(Default)]
struct Counter {
    counts: Counts,
}

impl Counter {
    fn count(&mut self, proposal: &'static str, operands: u64) {
        let (operators, sum) = self.counts.entry(proposal).or_default();
        *operators += 1;
        *sum += operands;
    }
}

/// Defines the methods.
macro_rules! define {
    ($(@$proposal:ident $op:ident $({ $($field:ident: $ty:ty),* })? => $visit:ident ($($ann:tt)*))*) => {
        $(fn $visit(&mut self $($(, _: $ty)*)?) {
            self.count(stringify!($proposal), define!(@operands ($($ann)*)));
        })*
    };
    (@operands (arity custom)) => { 0 };
    (@operands (arity memarg $takes:literal -> $leaves:literal)) => { $takes };
    (@operands (arity $takes:literal -> $leaves:literal)) => { $takes };
}

impl<'a> VisitOperator<'a> for Counter {
    type Output = ();

    fn simd_visitor(&mut self) -> Option<&mut dyn VisitSimdOperator<'a, Output = ()>> {
        Some(self)
    }

    for_each_visit_operator!(define);
}

impl VisitSimdOperator<'_> for Counter {
    for_each_visit_simd_operator!(define);
}

/// Returns the name of an operator's method.
fn method_of(operator: &Operator<'_>) -> &'static str {
    macro_rules! methods {
        ($(@$proposal:ident $op:ident $({ $($field:ident: $ty:ty),* })? => $visit:ident ($($ann:tt)*))*) => {
            match operator {
                $(Operator::$op $({ $($field: _),* })? => stringify!($visit),)*
                _ => unreachable!(),
            }
        };
    }
    for_each_operator!(methods)
}

/// Visits the operators of a body, each once by the reader and once after it was read.
fn visit<'a, V>(body: &FunctionBody<'a>, visitor: &mut V) -> Result<()>
where
    V: VisitOperator<'a, Output = ()>,
{
    let mut operators = body.get_operators_reader()?;
    while !operators.eof() {
        let operator = operators.clone().read()?;
        visitor.visit_operator(&operator);
        operators.visit_operator(visitor)?;
        if operators.is_end_then_eof() {
            println!("{} before the last end", method_of(&operator));
        }
    }
    operators.finish()
}

fn run(bytes: &[u8]) -> Result<()> {
    let mut counter = Box::new(Counter::default());
    for body in CodeSectionReader::new(BinaryReader::new(bytes, 0))? {
        if let Err(error) = visit(&body?, &mut &mut counter) {
            println!("{error}");
        }
    }
    println!("{:?}", counter.counts);
    Ok(())
}

fn main() {
    let path = std::env::args_os()
        .nth(1)
        .expect("a file with a code section");
    let bytes = std::fs::read(path).expect("a file that can be read");
    if let Err(error) = run(&bytes) {
        println!("{error}");
    }
}
