//! Tests of the functions of a module, and of operators in the text format.

use wasm_operators::{
    Functions, Operator, Result, WasmFeatures, function_name, operator_text, operator_text_name,
};

/// A module with an imported function and two others. The second one is exported with the name `f`.
const MODULE: [u8; 56] = [
    0, 0x61, 0x73, 0x6d, 1, 0, 0, 0, // magic number and version
    1, 8, 2, 0x60, 0, 0, 0x60, 1, 0x7f, 0, // two types
    2, 7, 1, 1, b'm', 1, b'i', 0, 0, // an imported function
    3, 3, 2, 1, 0, // two functions
    7, 5, 1, 1, b'f', 0, 2, // an export
    10, 15, 2, 5, 1, 1, 0x7f, 1, 0x0b, // the first body
    7, 0, 0x41, 0x80, 0x80, 0x04, 0x1a, 0x0b, // the second body
];

#[test]
fn functions() -> Result<()> {
    let functions = Functions::new(&MODULE, WasmFeatures::all())?;
    assert_eq!(functions.size_hint(), (0, Some(3)));
    let functions = functions.collect::<Result<Vec<_>>>()?;
    let types: Vec<_> = functions
        .iter()
        .map(|it| (it.index, it.type_index))
        .collect();
    assert_eq!(types, [(1, 1), (2, 0)]);
    assert_eq!(functions[0].body.range(), 43..48);
    let operators = functions[1].body.get_operators_reader()?.read_all()?;
    assert_eq!(operators[0], (Operator::I32Const { value: 65536 }, 50));
    Ok(())
}

#[test]
fn names() -> Result<()> {
    assert_eq!(function_name(&MODULE, 1)?, None);
    assert_eq!(function_name(&MODULE, 2)?.as_deref(), Some("f"));
    assert_eq!(function_name(&MODULE, 3).unwrap_err().number(), 110);
    Ok(())
}

#[test]
fn modules_with_errors() {
    let error = |bytes: &[u8]| {
        let functions = Functions::new(bytes, WasmFeatures::all());
        functions
            .and_then(|it| it.collect::<Result<Vec<_>>>())
            .unwrap_err()
    };
    assert_eq!(
        error(b"no module").to_string(),
        "not a WebAssembly module (at offset 0x0)"
    );
    for length in 9..MODULE.len() {
        let prefix = &MODULE[..length];
        let is_whole_sections = [18, 27].contains(&length);
        let functions = Functions::new(prefix, WasmFeatures::all());
        let all = functions.and_then(|it| it.collect::<Result<Vec<_>>>());
        assert_eq!(all.is_ok(), is_whole_sections, "{length}");
    }
}

#[test]
fn texts() -> Result<()> {
    let all = WasmFeatures::all();
    assert_eq!(operator_text(&MODULE, 0, all, 50)?, "i32.const 65536");
    assert_eq!(operator_text_name(&MODULE, 100, all, 150)?, "i32.const");
    assert_eq!(
        operator_text(&MODULE, 0, all, 100).unwrap_err().number(),
        104
    );
    // A long text: a branch table with many targets.
    let bytes = [vec![0x0e, 0x64], vec![7; 100], vec![9]].concat();
    assert_eq!(
        operator_text(&bytes, 0, all, 0)?,
        format!("br_table {}9", "7 ".repeat(100))
    );
    Ok(())
}
