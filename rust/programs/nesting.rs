//! Prints how deep the blocks of a function body nest, or which label no open block has.

use std::process::ExitCode;
use wasmparser::{BinaryReader, BlockType, Catch, Error, FunctionBody, Operator};

/// What is wrong in a body.
enum Fault {
    /// The bytes do not encode a body.
    Bytes(Error),
    /// The operator at this offset has a label that no open block has.
    NoBlock { offset: u64, label: u32 },
}

impl From<Error> for Fault {
    fn from(error: Error) -> Fault {
        Fault::Bytes(error)
    }
}

/// Returns the labels that an operator branches to.
fn labels_of(operator: &Operator<'_>) -> Result<Vec<u32>, Error> {
    Ok(match operator {
        Operator::Br { relative_depth }
        | Operator::BrIf { relative_depth }
        | Operator::BrOnNull { relative_depth }
        | Operator::BrOnNonNull { relative_depth }
        | Operator::BrOnCast { relative_depth, .. }
        | Operator::BrOnCastFail { relative_depth, .. }
        | Operator::Rethrow { relative_depth }
        | Operator::Delegate { relative_depth } => vec![*relative_depth],
        Operator::BrTable { targets } => {
            let mut labels = targets.targets().collect::<Result<Vec<_>, _>>()?;
            labels.push(targets.default());
            labels
        }
        Operator::TryTable { try_table } => {
            let label_of = |catch: &Catch| match *catch {
                Catch::One { label, .. } | Catch::OneRef { label, .. } => label,
                Catch::All { label } | Catch::AllRef { label } => label,
            };
            try_table.catches.iter().map(label_of).collect()
        }
        _ => Vec::new(),
    })
}

/// Returns the block type of an operator that opens a block.
fn opened_by(operator: &Operator<'_>) -> Option<BlockType> {
    match operator {
        Operator::Block { blockty }
        | Operator::Loop { blockty }
        | Operator::If { blockty }
        | Operator::Try { blockty } => Some(*blockty),
        Operator::TryTable { try_table } => Some(try_table.ty),
        _ => None,
    }
}

/// Returns the greatest number of blocks that are open at once. The function is one.
fn deepest(bytes: &[u8]) -> Result<u32, Fault> {
    let body = FunctionBody::new(BinaryReader::new(bytes, 0));
    let mut operators = body.get_operators_reader()?;
    let mut open: u32 = 1;
    let mut most = 1;
    while !operators.eof() {
        let (operator, offset) = operators.read_with_offset()?;
        // The label of a `delegate` counts from outside its own block.
        let reach = if matches!(operator, Operator::Delegate { .. }) {
            open - 1
        } else {
            open
        };
        if let Some(&label) = labels_of(&operator)?.iter().find(|label| **label >= reach) {
            return Err(Fault::NoBlock { offset, label });
        }
        match operator {
            Operator::End | Operator::Delegate { .. } => open -= 1,
            _ if opened_by(&operator).is_some() => open += 1,
            _ => {}
        }
        most = most.max(open);
    }
    operators.finish()?;
    Ok(most)
}

fn main() -> ExitCode {
    let Some(bytes) = std::env::args_os()
        .nth(1)
        .and_then(|path| std::fs::read(path).ok())
    else {
        eprintln!("usage: nesting BODY");
        return ExitCode::from(2);
    };
    match deepest(&bytes) {
        Ok(most) => {
            println!("{most}");
            return ExitCode::SUCCESS;
        }
        Err(Fault::Bytes(error)) => eprintln!("error at {}: {}", error.offset(), error.message()),
        Err(Fault::NoBlock { offset, label }) => {
            eprintln!("error at {offset}: no block has the label {label}")
        }
    }
    ExitCode::FAILURE
}
