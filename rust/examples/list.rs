//! Lists the operators of a function body that a file holds: an offset and a name a line.

use std::process::ExitCode;
use wasm_operators::{Body, WasmFeatures};

fn main() -> ExitCode {
    let Some(bytes) = std::env::args_os()
        .nth(1)
        .and_then(|path| std::fs::read(path).ok())
    else {
        eprintln!("usage: list BODY");
        return ExitCode::from(2);
    };
    for operator in Body::read(&bytes, 0, WasmFeatures::all()).iter() {
        match operator {
            Ok((operator, offset)) => println!("{offset} {}", operator.name()),
            Err(error) => {
                eprintln!("error at {}: {}", error.offset(), error.message());
                return ExitCode::FAILURE;
            }
        }
    }
    ExitCode::SUCCESS
}
