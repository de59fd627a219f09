//! Validation of whole modules.
#![cfg(feature = "validate")]

use wasm_operators::types::Types;
use wasm_operators::{Error, Result, Validator, WasmFeatures, validate};

/// Cases with the standard's verdicts, and the offsets of wasmparser 0.239. `tools/typing_cases.py` describes the table.
const CASES: &str = include_str!("../../tools/original/typing_cases.tsv");

const EMPTY: &[u8] = b"\0asm\x01\0\0\0";

fn bytes_of(hex: &str) -> Vec<u8> {
    let pairs = hex.as_bytes().chunks(2);
    let byte = |pair: &[u8]| u8::from_str_radix(str::from_utf8(pair).unwrap(), 16).unwrap();
    pairs.map(byte).collect()
}

/// A case: the verdict, the offset of the error, and the module.
struct Case {
    verdict: String,
    offset: String,
    module: Vec<u8>,
}

/// Reads the cases. A `"` is the cell of the row before; a module has so many first and last bytes of the one before.
fn cases() -> Vec<Case> {
    let mut before: Vec<&str> = vec![""; 5];
    let mut module: Vec<u8> = Vec::new();
    let mut found = Vec::new();
    for line in CASES.lines().skip(1) {
        let (rest, packed) = line.rsplit_once('\t').unwrap();
        for (cell, old) in rest.split('\t').zip(&mut before) {
            if cell != "\"" {
                *old = cell;
            }
        }
        let [first, last, middle]: [&str; 3] =
            packed.split(',').collect::<Vec<_>>().try_into().unwrap();
        let end = module.split_off(module.len() - last.parse::<usize>().unwrap());
        module.truncate(first.parse().unwrap());
        module.extend(bytes_of(middle));
        module.extend(end);
        found.push(Case {
            verdict: before[2].to_owned(),
            offset: before[3].to_owned(),
            module: module.clone(),
        });
    }
    found
}

#[test]
fn cases_of_the_standard() {
    let mut counts = [0, 0, 0];
    for Case {
        verdict,
        offset,
        module,
    } in cases()
    {
        let features = match verdict.as_str() {
            "unsupported" => WasmFeatures::default(),
            _ => WasmFeatures::all(),
        };
        let found = Validator::new_with_features(features).validate_all(&module);
        match verdict.as_str() {
            "valid" => {
                counts[0] += 1;
                assert!(found.is_ok(), "{found:?}: {module:02x?}");
            }
            "invalid" => {
                counts[1] += 1;
                let found = found.err().map(|it| format!("0x{:x}", it.offset()));
                assert_eq!(found.as_ref(), Some(&offset), "{module:02x?}");
            }
            _ => {
                counts[2] += 1;
                assert!(found.is_err(), "{module:02x?}");
            }
        }
    }
    assert_eq!(counts.iter().sum::<u32>(), 7324);
    assert!(counts.iter().all(|it| *it > 60), "{counts:?}");
}

fn error_of(hex: &str) -> (String, u64) {
    let error = validate(&bytes_of(hex)).unwrap_err();
    (error.message().to_owned(), error.offset())
}

#[test]
fn messages() {
    assert_eq!(error_of(""), ("unexpected end-of-file".to_owned(), 0));
    assert_eq!(
        error_of("0061736d01000000010401600000030201000a05010300ff0b"),
        ("illegal opcode: 0xff".to_owned(), 0x17)
    );
    assert_eq!(
        error_of("0061736d010000000108026000006000017f03030200010a090202000b040042000b"),
        ("type mismatch: expected i32, found i64".to_owned(), 0x21)
    );
}

/// Checks a module with features. Returns the error's text.
fn text_with(features: WasmFeatures, hex: &str) -> Option<String> {
    let checked = Validator::new_with_features(features).validate_all(&bytes_of(hex));
    checked.err().map(|it| it.to_string())
}

#[test]
fn features_that_are_off() {
    let default = WasmFeatures::default();
    // (func (param i64 i64 i64 i64) (result i64 i64) local.get 0 .. local.get 3 i64.add128)
    let wide =
        "0061736d01000000 010a0160047e7e7e7e027e7e 03020100 0a0e010c00 2000200120022003 fc13 0b";
    let wide = wide.replace(' ', "");
    assert_eq!(
        text_with(default | WasmFeatures::WIDE_ARITHMETIC, &wide),
        None
    );
    assert_eq!(
        text_with(default, &wide).unwrap(),
        "wide arithmetic support is not enabled (at offset 0x25)"
    );
    // a memory with pages of one byte
    let pages = "0061736d01000000050401080100";
    assert_eq!(
        text_with(default | WasmFeatures::CUSTOM_PAGE_SIZES, pages),
        None
    );
    assert_eq!(
        text_with(default, pages).unwrap(),
        "the custom page sizes proposal must be enabled to customize a memory's page size (at offset 0xb)"
    );
    // two memories, and one of 64 bits
    let memories = "0061736d01000000050502 0000 0000".replace(' ', "");
    assert_eq!(text_with(default, &memories), None);
    let single = default.difference(WasmFeatures::MULTI_MEMORY);
    assert_eq!(
        text_with(single, &memories).unwrap(),
        "multiple memories (at offset 0xa)"
    );
    let bits32 = default.difference(WasmFeatures::MEMORY64);
    let memory64 = "0061736d010000000503010400";
    assert_eq!(text_with(default, memory64), None);
    assert_eq!(
        text_with(bits32, memory64).unwrap(),
        "memory64 must be enabled for 64-bit memories (at offset 0xb)"
    );
    // an imported table of 64 bits
    let table64 = "0061736d01000000 020901 0161 0162 01700400".replace(' ', "");
    assert_eq!(text_with(default, &table64), None);
    assert_eq!(
        text_with(bits32, &table64).unwrap(),
        "memory64 must be enabled for 64-bit tables (at offset 0xb)"
    );
}

#[test]
fn features_that_must_be_on() {
    for features in [
        WasmFeatures::WASM1,
        WasmFeatures::WASM2,
        WasmFeatures::empty(),
    ] {
        let error = Validator::new_with_features(features)
            .validate_all(EMPTY)
            .unwrap_err();
        assert!(error.message().contains("not supported"), "{error}");
    }
    let checked = Validator::new_with_features(WasmFeatures::WASM3).validate_all(EMPTY);
    assert!(checked.is_ok());
}

#[test]
fn signatures() {
    let _: fn(&[u8]) -> Result<Types> = validate;
    let _: fn() -> Validator = Validator::new;
    let _: fn(WasmFeatures) -> Validator = Validator::new_with_features;
    let _: fn(&Validator) -> &WasmFeatures = Validator::features;
    let _: fn(&mut Validator, &[u8]) -> Result<Types> = Validator::validate_all;
    assert_eq!(*Validator::default().features(), WasmFeatures::default());
    let mut validator = Validator::new();
    let first: Error = validator.validate_all(b"").unwrap_err();
    assert_eq!(first.offset(), 0);
    assert!(validator.validate_all(EMPTY).is_ok());
}
