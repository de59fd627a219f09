//! Tests of the encoder: the samples of `wasm_tests_encode`, and values that no bytes encode.

use wasm_operators::{
    BinaryReader, BlockType, Catch, CodeSection, CodeSectionReader, Encode, FunctionBody,
    FunctionBuilder, Handle, HeapType, MemArg, MemArgTarget, Operator, Ordering, Parser, Payload,
    RefType, Result, ResumeTable, TryTable, UnpackedIndex, ValType,
};

/// The samples: name, bytes before the operator, the operator, bytes after it, and the shortest encoding.
const SAMPLES: &str = include_str!("../../crates/wasm_tests_encode/stdin");

fn bytes_of(hex: &str) -> Vec<u8> {
    let digits = hex.as_bytes().chunks(2);
    let byte = |pair: &[u8]| u8::from_str_radix(std::str::from_utf8(pair).unwrap(), 16).unwrap();
    digits.map(byte).collect()
}

fn encoded(value: &impl Encode) -> Result<Vec<u8>> {
    let mut bytes = vec![0xaa];
    value.encode(&mut bytes)?;
    assert_eq!(bytes.remove(0), 0xaa);
    Ok(bytes)
}

#[test]
fn samples() -> Result<()> {
    let mut count = 0;
    for row in SAMPLES.lines() {
        let cells: Vec<&str> = row.split('\t').collect();
        let [name, before, operator, after, shortest] = cells[..] else {
            continue;
        };
        let (before, bytes) = (bytes_of(before), bytes_of(operator));
        let at = before.len() as u64;
        let whole = [before, bytes, bytes_of(after)].concat();
        let body = FunctionBody::new(BinaryReader::new(&whole, 0));
        let operators = body.get_operators_reader()?.into_iter_with_offsets();
        let (found, _) = operators
            .map(|it| it.unwrap())
            .find(|(_, offset)| *offset == at)
            .unwrap();
        assert_eq!(encoded(&found)?, bytes_of(shortest), "{name} {found:?}");
        count += 1;
    }
    assert_eq!(count, 1256);
    Ok(())
}

/// Returns the text of the error of an operator that no bytes encode.
fn refused(operator: &Operator<'_>) -> String {
    let mut sink = vec![7];
    let error = operator.encode(&mut sink).unwrap_err();
    assert_eq!(sink, [7]);
    error.message().to_owned()
}

#[test]
fn no_encoding() {
    let memarg = MemArg {
        align: 2,
        max_align: 2,
        offset: 0,
        target: MemArgTarget::Memory(0),
        ordering: None,
    };
    let load = |memarg| Operator::I32Load { memarg };
    let none = "no bytes encode the operator";
    assert_eq!(
        refused(&load(MemArg {
            align: 16,
            ..memarg
        })),
        none
    );
    assert_eq!(
        refused(&load(MemArg {
            max_align: 3,
            ..memarg
        })),
        none
    );
    let ordered = wasm_operators::MemArgOrdering::Op(Ordering::SeqCst);
    assert_eq!(
        refused(&load(MemArg {
            ordering: Some(ordered),
            ..memarg
        })),
        none
    );
    let large = HeapType::Concrete(UnpackedIndex::Module(1_048_576));
    assert_eq!(refused(&Operator::RefNull { hty: large }), none);
    let grouped = HeapType::Concrete(UnpackedIndex::RecGroup(0));
    assert_eq!(
        refused(&Operator::RefNull { hty: grouped }),
        "a type index of a recursion group has no encoding"
    );
    // One type is a `TypedSelect`, and eleven are too many.
    assert!(
        !refused(&Operator::TypedSelectMulti {
            tys: vec![ValType::I32]
        })
        .is_empty()
    );
    assert!(
        !refused(&Operator::TypedSelectMulti {
            tys: vec![ValType::I32; 11]
        })
        .is_empty()
    );
}

#[test]
fn lists() -> Result<()> {
    let tys = vec![ValType::I32, ValType::Ref(RefType::FUNCREF)];
    assert_eq!(
        encoded(&Operator::TypedSelectMulti { tys })?,
        [0x1c, 2, 0x7f, 0x70]
    );
    let try_table = TryTable {
        ty: BlockType::FuncType(200),
        catches: vec![
            Catch::One { tag: 300, label: 1 },
            Catch::AllRef { label: 2 },
        ],
    };
    assert_eq!(
        encoded(&Operator::TryTable { try_table })?,
        [0x1f, 0xc8, 0x01, 2, 0, 0xac, 0x02, 1, 3, 2]
    );
    let handlers = vec![
        Handle::OnLabel { tag: 1, label: 0 },
        Handle::OnSwitch { tag: 5 },
    ];
    let resume_table = ResumeTable { handlers };
    let resume = Operator::ResumeThrow {
        cont_type_index: 9,
        tag_index: 8,
        resume_table,
    };
    assert_eq!(encoded(&resume)?, [0xe4, 9, 8, 2, 0, 1, 0, 1, 5]);
    // Longer than the space for an operator without a list.
    let catches = vec![Catch::One { tag: 1, label: 1 }; 10_000];
    let long = Operator::TryTable {
        try_table: TryTable {
            ty: BlockType::Empty,
            catches,
        },
    };
    assert_eq!(encoded(&long)?.len(), 4 + 3 * 10_000);
    Ok(())
}

/// A module with padded numbers, as linkers write them.
const PADDED: &[u8] = include_bytes!("../../crates/wasm_compact/data/padded.wasm");

/// Writes a code section again.
fn rewritten(code: &CodeSectionReader<'_>) -> Result<CodeSection> {
    let mut section = CodeSection::new();
    for body in code.clone() {
        let body: FunctionBody<'_> = body?;
        let locals = body
            .get_locals_reader()?
            .into_iter()
            .collect::<Result<Vec<_>>>()?;
        let mut function = FunctionBuilder::new(locals)?;
        for operator in body.get_operators_reader()? {
            function.instruction(&operator?)?;
        }
        section.function(&function)?;
    }
    Ok(section)
}

#[test]
fn a_module_with_padded_numbers() -> Result<()> {
    let mut sections = 0;
    for payload in Parser::new(0).parse_all(PADDED) {
        let Payload::CodeSectionStart { range, .. } = payload? else {
            continue;
        };
        let bytes = &PADDED[range.start as usize..range.end as usize];
        let code = CodeSectionReader::new(BinaryReader::new(bytes, 0))?;
        let section = rewritten(&code)?;
        let written = encoded(&section)?;
        assert!(written.len() < bytes.len());
        // What is written has the same bodies, and is written as it is.
        let at = written.iter().position(|byte| byte & 0x80 == 0).unwrap() + 1;
        let again = CodeSectionReader::new(BinaryReader::new(&written[at..], 0))?;
        assert_eq!(again.count(), code.count());
        for (new, old) in again.clone().into_iter().zip(code) {
            let (new, old) = (new?.get_operators_reader()?, old?.get_operators_reader()?);
            let new = new.into_iter().collect::<Result<Vec<_>>>()?;
            assert_eq!(new, old.into_iter().collect::<Result<Vec<_>>>()?);
        }
        assert_eq!(encoded(&rewritten(&again)?)?, written);
        sections += 1;
    }
    assert_eq!(sections, 1);
    Ok(())
}

#[test]
fn a_body_with_its_locals() -> Result<()> {
    assert_eq!(encoded(&FunctionBuilder::default())?, [1, 0]);
    let mut function = FunctionBuilder::new([(200, ValType::V128)])?;
    function.instruction(&Operator::End)?;
    assert_eq!(function.bytes(), [1, 0xc8, 1, 0x7b, 0x0b]);
    assert_eq!(encoded(&function)?, [5, 1, 0xc8, 1, 0x7b, 0x0b]);
    Ok(())
}
