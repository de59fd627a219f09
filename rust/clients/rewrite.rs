//! Reads and writes modules by walrus.

mod each_file;

fn convert(bytes: &[u8]) -> Result<Vec<u8>, String> {
    let mut module = walrus::Module::from_buffer(bytes).map_err(|error| format!("{error:#}"))?;
    Ok(module.emit_wasm())
}

fn main() {
    each_file::convert_all(convert);
}
