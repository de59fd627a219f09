//! Prints modules by wasmprinter, plain and with folded operators.

mod each_file;

fn convert(bytes: &[u8]) -> Result<Vec<u8>, String> {
    let mut text = String::new();
    for fold in [false, true] {
        let mut config = wasmprinter::Config::new();
        config.fold_instructions(fold).print_offsets(!fold);
        let printed = config.print(bytes, &mut wasmprinter::PrintFmtWrite(&mut text));
        if let Err(error) = printed {
            text.push_str(&format!("error: {error:#}"));
        }
    }
    Ok(text.into_bytes())
}

fn main() {
    each_file::convert_all(convert);
}
