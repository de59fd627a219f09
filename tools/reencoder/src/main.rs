// Writes each body of a module as wasm-encoder does: a line of hexadecimal digits each.
use wasm_encoder::reencode::{Reencode, RoundtripReencoder};
use wasm_encoder::{CodeSection, Encode};
use wasmparser::{Parser, Payload};

fn number(bytes: &[u8]) -> (usize, usize) {
    let (mut value, mut shift) = (0usize, 0);
    for (at, byte) in bytes.iter().enumerate() {
        value |= usize::from(byte & 0x7f) << shift;
        shift += 7;
        if *byte < 0x80 {
            return (value, at + 1);
        }
    }
    (0, 0)
}

fn main() {
    let path = std::env::args().nth(1).unwrap();
    let bytes = std::fs::read(path).unwrap();
    let mut lines = String::new();
    for payload in Parser::new(0).parse_all(&bytes) {
        let Ok(payload) = payload else { std::process::exit(1) };
        if let Payload::CodeSectionEntry(body) = payload {
            let mut section = CodeSection::new();
            if RoundtripReencoder.parse_function_body(&mut section, body).is_err() {
                std::process::exit(1);
            }
            // The size of the section, the number of bodies, the size of the body, the body.
            let mut encoded = Vec::new();
            section.encode(&mut encoded);
            let (_, first) = number(&encoded);
            let (_, second) = number(&encoded[first..]);
            let (size, third) = number(&encoded[first + second..]);
            let start = first + second + third;
            for byte in &encoded[start..start + size] {
                lines.push_str(&format!("{byte:02x}"));
            }
            lines.push('\n');
        }
    }
    print!("{lines}");
}
