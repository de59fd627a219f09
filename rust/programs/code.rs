//! Lists a code section: the locals and the operators of each body, with their offsets.

use std::process::ExitCode;
use wasmparser::{
    BinaryReader, CodeSectionReader, FunctionBody, Operator, OperatorsReader,
    OperatorsReaderAllocations, Result,
};

/// Returns the names of the labels and targets of an operator, if it has any.
fn targets_of(operator: &Operator<'_>) -> Result<String> {
    Ok(match operator {
        Operator::Br { relative_depth } | Operator::BrIf { relative_depth } => {
            format!(" -> {relative_depth}")
        }
        Operator::BrTable { targets } => {
            let list = targets.targets().collect::<Result<Vec<_>>>()?;
            format!(
                " -> {list:?} of {}, else {}",
                targets.len(),
                targets.default()
            )
        }
        _ => String::new(),
    })
}

/// Lists a body, and returns the memory for the frames of the next one.
fn list(
    body: &FunctionBody<'_>,
    allocations: OperatorsReaderAllocations,
) -> Result<OperatorsReaderAllocations> {
    println!("body {:?}, {} bytes", body.range(), body.as_bytes().len());
    let locals = body.get_locals_reader()?;
    println!("  {} declarations of locals", locals.get_count());
    let mut locals = locals.into_iter();
    for local in locals.by_ref() {
        let (count, ty) = local?;
        println!("  {count} locals of {ty:?}");
    }
    let start = locals.into_binary_reader_for_operators();
    let operators = OperatorsReader::new_with_allocs(start, allocations);
    // A clone does not advance the reader that it was made from.
    let count = operators
        .clone()
        .into_iter()
        .take_while(Result::is_ok)
        .count();
    println!("  {count} operators from {}", operators.original_position());
    let end = operators.get_binary_reader().range().end;
    let mut operators = operators.into_iter_with_offsets();
    for operator in operators.by_ref() {
        let (operator, offset) = operator?;
        println!("  {offset:6} {operator:?}{}", targets_of(&operator)?);
    }
    println!("  end {end}");
    Ok(operators.into_allocations())
}

fn run(bytes: &[u8]) -> Result<()> {
    let section = CodeSectionReader::new(BinaryReader::new(bytes, 0x100))?;
    println!("{} bodies", section.count());
    let mut allocations = OperatorsReaderAllocations::default();
    for body in section {
        allocations = match list(&body?, allocations) {
            Ok(allocations) => allocations,
            Err(error) => {
                println!("  error: {error}");
                OperatorsReaderAllocations::default()
            }
        };
    }
    Ok(())
}

fn main() -> ExitCode {
    let path = std::env::args_os()
        .nth(1)
        .expect("a file with a code section");
    let bytes = std::fs::read(path).expect("a file that can be read");
    if let Err(error) = run(&bytes) {
        println!("error at {:#x}: {}", error.offset(), error.message());
        return ExitCode::FAILURE;
    }
    ExitCode::SUCCESS
}
