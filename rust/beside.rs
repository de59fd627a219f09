//! Compares this crate with wasmparser over function bodies, and times both.
//!
//!     beside [--time ROUNDS] [BODIES..]
//!
//! In a file of BODIES, each body is a length in four bytes, little-endian, and its bytes. Both libraries list operators
//! and locals, call visitors, and read values at the first positions. Values must have the same `Debug`, errors the same
//! `Display`. Without BODIES, it compares two bodies, cut and changed at every byte (`rust/tests/changed`).
//!
//! `--time` prints the best of ROUNDS for each way, in nanoseconds per operator: the same calls in both crates with their
//! ratio, then the calls that only this crate has.

use std::cell::RefCell;
use std::hint::black_box;
use std::process::ExitCode;
use std::time::Instant;
use wasm_operators as proved;
use wasmparser as original;

#[path = "tests/changed/mod.rs"]
mod changed;

/// Returns the bodies of a file.
fn bodies_of(path: &str) -> std::io::Result<Vec<Vec<u8>>> {
    let bytes = std::fs::read(path)?;
    let mut bodies = Vec::new();
    let mut rest = bytes.as_slice();
    while let Some((head, after)) = rest.split_first_chunk::<4>() {
        let (body, others) = after.split_at(u32::from_le_bytes(*head) as usize);
        bodies.push(body.to_vec());
        rest = others;
    }
    Ok(bodies)
}

/// What wasmparser finds.
mod by_original {
    use wasmparser as library;
    include!("beside/found.rs");
}

/// What this crate finds.
mod by_proved {
    use wasm_operators as library;
    include!("beside/found.rs");
}

/// Lists a body by this crate's own ways.
fn whole(bytes: &[u8]) -> Vec<String> {
    let body = proved::Body::read(bytes, 7, proved::WasmFeatures::all());
    let mut out = Vec::new();
    for operator in body.iter() {
        match operator {
            Ok((operator, offset)) => out.push(format!("{offset} {operator:?}")),
            Err(error) => out.push(error.to_string()),
        }
    }
    out
}

/// Lists a body by wasmparser's iterator, to compare with [`whole`].
fn iterated(bytes: &[u8]) -> Vec<String> {
    let body = original::FunctionBody::new(original::BinaryReader::new(bytes, 7));
    let mut out = Vec::new();
    let mut read = || {
        let mut operators = body.get_operators_reader()?;
        while !operators.eof() {
            let (operator, offset) = operators.read_with_offset()?;
            out.push(format!("{offset} {operator:?}"));
        }
        operators.finish()
    };
    let end = read();
    out.extend(end.err().map(|error| error.to_string()));
    out
}

/// Feature sets with which both libraries read the same.
const FEATURES: [u32; 4] = [63, 62, 61, 63 - 4 - 8];

/// Returns the name of the first way in which the libraries differ.
fn difference(bytes: &[u8]) -> Option<&'static str> {
    for bits in FEATURES {
        let features = proved::WasmFeatures::from_bits_truncate(u64::from(bits));
        let found = by_proved::operators(bytes, features);
        if found != by_original::operators(bytes, original_features(bits)) {
            return Some("operators");
        }
    }
    let ways = [
        ("whole body", whole(bytes) == iterated(bytes)),
        (
            "locals",
            by_proved::locals(bytes) == by_original::locals(bytes),
        ),
        (
            "values",
            by_proved::values(bytes) == by_original::values(bytes),
        ),
        (
            "visits",
            by_proved::visits(bytes, true) == by_original::visits(bytes, true),
        ),
        (
            "plain visits",
            by_proved::visits(bytes, false) == by_original::visits(bytes, false),
        ),
        (
            "frames",
            by_proved::framed(bytes, true) == by_original::framed(bytes, true),
        ),
        (
            "plain frames",
            by_proved::framed(bytes, false) == by_original::framed(bytes, false),
        ),
    ];
    let wrong = ways.into_iter().find(|(_, is_equal)| !is_equal);
    wrong.map(|(way, _)| way)
}

/// Returns wasmparser's features with the bits that this crate has for them.
fn original_features(bits: u32) -> original::WasmFeatures {
    use original::WasmFeatures;
    let all = [
        WasmFeatures::MULTI_MEMORY,
        WasmFeatures::MEMORY64,
        WasmFeatures::CALL_INDIRECT_OVERLONG,
        WasmFeatures::LEGACY_EXCEPTIONS,
        WasmFeatures::ACQUIRE_RELEASE_ATOMICS,
        WasmFeatures::MULTIBYTE_ARRAY_ACCESS,
    ];
    let mut features = WasmFeatures::all();
    for (at, feature) in all.into_iter().enumerate() {
        if bits & 1 << at == 0 {
            features.remove(feature);
        }
    }
    features
}

/// Returns the number of operators of a body.
fn count(bytes: &[u8]) -> usize {
    proved::Body::read(bytes, 0, proved::WasmFeatures::all()).len()
}

/// A way to go over the operators of a body, which returns how many there are.
type Way = (&'static str, fn(&[u8]) -> usize);

/// The ways of wasmparser.
mod original_ways {
    use wasmparser as library;
    include!("beside/ways.rs");
}

/// The same ways of this crate.
mod proved_ways {
    use wasm_operators as library;
    include!("beside/ways.rs");
}

thread_local! {
    /// The array that C structs are read into.
    static OUT: RefCell<Vec<proved::PlainOperator>> = const { RefCell::new(Vec::new()) };
}

fn plain(bytes: &[u8]) -> usize {
    OUT.with_borrow_mut(|out| {
        proved::read_plain(bytes, 0, proved::WasmFeatures::all(), out).expect("a body");
        black_box(&out).len()
    })
}

fn body_iterator(bytes: &[u8]) -> usize {
    let body = proved::Body::read(bytes, 0, proved::WasmFeatures::all());
    body.iter()
        .map(|operator| black_box(&operator.expect("a body")).1)
        .filter(|offset| *offset > 0)
        .count()
}

fn body_list(bytes: &[u8]) -> usize {
    let found = proved::Body::read(bytes, 0, proved::WasmFeatures::all())
        .read_all()
        .expect("a body");
    black_box(&found).len()
}

/// The ways that both crates have: wasmparser's, then this crate's.
const SAME: [(Way, Way); 4] = [
    (
        ("visits", original_ways::visits),
        ("visits", proved_ways::visits),
    ),
    (("read", original_ways::reads), ("read", proved_ways::reads)),
    (
        ("into a list", original_ways::list),
        ("into a list", proved_ways::list),
    ),
    (
        ("iterator", original_ways::iterator),
        ("iterator", proved_ways::iterator),
    ),
];

/// The ways that only this crate has.
const ADDED: [Way; 3] = [
    ("a body, into one array", plain),
    ("a body, by its iterator", body_iterator),
    ("a body, into a list", body_list),
];

/// Returns the nanoseconds per operator of a way, or an earlier result if it is less.
fn time(bodies: &[Vec<u8>], (name, way): Way, earlier: f64) -> f64 {
    let start = Instant::now();
    let count: usize = bodies.iter().map(|body| way(body)).sum();
    let each = start.elapsed().as_nanos() as f64 / count as f64;
    assert!(count > 0, "{name}: no operators");
    earlier.min(each)
}

/// Prints the best of this many rounds of each way.
fn time_all(bodies: &[Vec<u8>], rounds: usize) {
    let mut same = [(f64::INFINITY, f64::INFINITY); SAME.len()];
    let mut added = [f64::INFINITY; ADDED.len()];
    for _ in 0..rounds {
        for ((original, proved), best) in SAME.into_iter().zip(&mut same) {
            *best = (time(bodies, original, best.0), time(bodies, proved, best.1));
        }
        for (way, best) in ADDED.into_iter().zip(&mut added) {
            *best = time(bodies, way, *best);
        }
    }
    println!("  ns per operator             wasmparser  this crate  ratio");
    for ((original, proved), ((name, _), _)) in same.into_iter().zip(SAME) {
        let ratio = proved / original;
        println!("  {name:26}  {original:10.2}  {proved:10.2}  {ratio:5.2}");
    }
    for (each, (name, _)) in added.into_iter().zip(ADDED) {
        println!("  {name:26}              {each:10.2}");
    }
}

/// Compares bodies, and returns how many differ.
fn compare(name: &str, bodies: &[Vec<u8>]) -> usize {
    let operators: usize = bodies.iter().map(|body| count(body)).sum();
    let mut different = 0;
    for (at, body) in bodies.iter().enumerate() {
        if let Some(way) = difference(body) {
            println!("{name}: body {at}: different {way}");
            different += 1;
        }
    }
    println!(
        "{name}: {} bodies, {operators} operators, {different} bodies otherwise than wasmparser",
        bodies.len()
    );
    different
}

fn main() -> ExitCode {
    let mut words = std::env::args().skip(1).peekable();
    let mut rounds = 0;
    if words.next_if_eq("--time").is_some() {
        rounds = words
            .next()
            .and_then(|word| word.parse().ok())
            .expect("--time ROUNDS");
    }
    let paths: Vec<String> = words.collect();
    let mut wrong = 0;
    if paths.is_empty() {
        let mut bodies = Vec::new();
        changed::for_each(|body| bodies.push(body.to_vec()));
        wrong += compare("changed bodies", &bodies);
    }
    for path in paths {
        let bodies = bodies_of(&path).expect("a file of bodies");
        wrong += compare(&path, &bodies);
        if rounds > 0 {
            time_all(&bodies, rounds);
        }
    }
    ExitCode::from(u8::from(wrong > 0))
}
