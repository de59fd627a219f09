//! Lists the functions of a module in a file, each with the texts of its operators.

use std::process::ExitCode;
use wasm_operators::{Function, Functions, Result, WasmFeatures, function_name, operator_text};

/// Prints a function: its index, its type, its name, and the texts of its operators.
fn list(module: &[u8], function: &Function<'_>) -> Result<()> {
    let name = function_name(module, function.index)?.unwrap_or_default();
    println!("{} type {} <{name}>", function.index, function.type_index);
    let operators = function.body.get_operators_reader()?;
    for operator in operators.into_iter_with_offsets() {
        let (_, offset) = operator?;
        let text = operator_text(module, 0, WasmFeatures::all(), offset)?;
        println!("  {offset} {text}");
    }
    Ok(())
}

fn run(module: &[u8]) -> Result<()> {
    for function in Functions::new(module, WasmFeatures::all())? {
        list(module, &function?)?;
    }
    Ok(())
}

fn main() -> ExitCode {
    let Some(path) = std::env::args_os().nth(1) else {
        eprintln!("usage: functions MODULE");
        return ExitCode::from(2);
    };
    let module = match std::fs::read(&path) {
        Ok(module) => module,
        Err(error) => {
            eprintln!("{}: {error}", std::path::Path::new(&path).display());
            return ExitCode::from(2);
        }
    };
    if let Err(error) = run(&module) {
        eprintln!("error: {error}");
        return ExitCode::FAILURE;
    }
    ExitCode::SUCCESS
}
