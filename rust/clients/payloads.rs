//! Lists the parts and items of modules, which needs no other crate.
//!
//!     payloads LIST           a line for each module that the list names, like the programs of the clients
//!     payloads --rows FILE..  a row of `rust/tests/data/payloads.tsv` for each module
//!     payloads --lines FILE   the lines of a module

mod each_file;
#[path = "../tests/payloads/mod.rs"]
mod payloads;
/// The crate that reads.
mod library {
    pub use wasmparser::*;
}

fn convert(bytes: &[u8]) -> Result<Vec<u8>, String> {
    let mut text = payloads::items(bytes).join("\n");
    text.push_str(&payloads::row(bytes));
    Ok(text.into_bytes())
}

fn main() {
    let arguments: Vec<String> = std::env::args().skip(1).collect();
    let (word, files) = arguments.split_first().expect("arguments");
    let read = |path: &String| std::fs::read(path).expect("a module");
    match word.as_str() {
        "--rows" => {
            for path in files {
                let bytes = read(path);
                let hex: String = bytes.iter().map(|byte| format!("{byte:02x}")).collect();
                println!("{hex}\t{}", payloads::row(&bytes));
            }
        }
        "--lines" => println!("{}", payloads::items(&read(&files[0])).join("\n")),
        "--changes" => {
            for bytes in payloads::changes(&read(&files[0])) {
                println!("{bytes:02x?} {:?}", payloads::framing(&bytes));
            }
        }
        _ => each_file::convert_all(convert),
    }
}
