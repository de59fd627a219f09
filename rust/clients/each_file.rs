// What each program of a client does with its arguments. `print.rs` and the others include this file.

use std::panic;

/// Converts the modules in the files that the list names, a path a line. Prints a line for each: the path, the number
/// of bytes of the result and their checksum, or the error.
pub fn convert_all(convert: fn(&[u8]) -> Result<Vec<u8>, String>) {
    let list = std::env::args().nth(1).expect("a list of paths");
    panic::set_hook(Box::new(|_| ()));
    for path in std::fs::read_to_string(list).expect("the list").lines() {
        let bytes = std::fs::read(path).expect(path);
        match panic::catch_unwind(|| convert(&bytes)) {
            Ok(Ok(result)) => println!("{path}\t{}\t{:016x}", result.len(), checksum(&result)),
            Ok(Err(error)) => println!("{path}\terror\t{}", error.replace('\n', " ")),
            Err(_) => println!("{path}\tpanic"),
        }
    }
}

fn checksum(bytes: &[u8]) -> u64 {
    bytes.iter().fold(14695981039346656037, |sum, byte| {
        (sum ^ u64::from(*byte)).wrapping_mul(1099511628211)
    })
}
