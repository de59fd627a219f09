//! Reads and writes modules by wasm-encoder.

mod each_file;

use wasm_encoder::Module;
use wasm_encoder::reencode::{Reencode, RoundtripReencoder};

fn convert(bytes: &[u8]) -> Result<Vec<u8>, String> {
    let mut module = Module::new();
    let parser = wasmparser::Parser::new(0);
    let converted = RoundtripReencoder.parse_core_module(&mut module, parser, bytes);
    converted.map_err(|error| format!("{error:?}"))?;
    Ok(module.finish())
}

fn main() {
    each_file::convert_all(convert);
}
