//! Tests of whole modules. The expected rows are of wasmparser 0.239: `tests/data/README.md` says how they are made.

use wasm_operators::{
    BinaryReader, Chunk, CompositeInnerType, CustomSectionReader, Encoding, ExternalKind, Parser,
    Payload, RefType, Result, SectionLimited, TypeRef, TypeSectionReader, UnpackedIndex, ValType,
    WasmFeatures,
};

mod payloads;
/// The crate that reads.
mod library {
    pub use wasm_operators::*;
}

const ROWS: &str = include_str!("data/payloads.tsv");
const PREAMBLE: [u8; 8] = [0, 0x61, 0x73, 0x6d, 1, 0, 0, 0];

/// Returns the modules of the rows, each with its row.
fn modules() -> impl Iterator<Item = (Vec<u8>, &'static str)> {
    ROWS.lines().map(|line| {
        let (hex, row) = line.split_once('\t').unwrap();
        let digits = (0..hex.len()).step_by(2);
        let bytes = digits.map(|at| u8::from_str_radix(&hex[at..at + 2], 16).unwrap());
        (bytes.collect(), row)
    })
}

/// The contents of sections, each with its id.
type Sections<'a> = &'a [(u8, &'a [u8])];

/// Returns the module of these sections.
fn module(sections: Sections<'_>) -> Vec<u8> {
    let mut bytes = PREAMBLE.to_vec();
    for (id, contents) in sections {
        bytes.extend([*id, contents.len() as u8]);
        bytes.extend(*contents);
    }
    bytes
}

/// Returns the last line about the parts of a module.
fn last_line(bytes: &[u8]) -> String {
    payloads::framing(bytes).pop().unwrap()
}

#[test]
fn parts_and_items_of_modules_their_cuts_and_changes() {
    let rows = modules().map(|(bytes, row)| assert_eq!(payloads::row(&bytes), row));
    assert_eq!(rows.count(), 7);
}

#[test]
fn in_pieces_and_whole_are_the_same() {
    for (bytes, _) in modules() {
        for size in [1, 2, 7, 64, bytes.len()] {
            let whole = payloads::framing(&bytes);
            assert_eq!(payloads::in_pieces(&bytes, size, false), whole, "{size}");
            for end in 0..bytes.len() {
                let (cut, whole) = (&bytes[..end], payloads::framing(&bytes[..end]));
                assert_eq!(payloads::in_pieces(cut, size, false), whole, "{size} {end}");
            }
        }
    }
}

#[test]
fn all_sections() {
    let (bytes, _) = modules().next().unwrap();
    let parts = Parser::new(0).parse_all(&bytes);
    let found: Vec<u8> = parts
        .filter_map(|part| Some(part.unwrap().as_section()?.0))
        .collect();
    let custom: Vec<u8> = found.iter().copied().filter(|id| *id == 0).collect();
    let others: Vec<u8> = found.iter().copied().filter(|id| *id != 0).collect();
    assert_eq!(others, [1, 2, 3, 4, 5, 13, 6, 7, 8, 9, 12, 10, 11]);
    assert_eq!(custom.len(), 4);
}

#[test]
fn more_data() -> Result<()> {
    let mut parser = Parser::new(100);
    for (length, needed) in [(0, 4), (3, 1), (4, 4), (7, 1)] {
        let chunk = parser.parse(&PREAMBLE[..length], false)?;
        assert!(
            matches!(chunk, Chunk::NeedMoreData(n) if n == needed),
            "{length}"
        );
    }
    let Chunk::Parsed { consumed, payload } = parser.parse(&PREAMBLE, false)? else {
        panic!("the preamble is there");
    };
    assert_eq!((consumed, parser.offset()), (8, 108));
    let Payload::Version {
        num,
        encoding,
        range,
    } = payload
    else {
        panic!("{payload:?}");
    };
    assert_eq!((num, encoding, range), (1, Encoding::Module, 100..108));
    for (bytes, needed) in [(&[][..], 1), (&[1], 1), (&[1, 5, 0], 4)] {
        let chunk = parser.parse(bytes, false)?;
        assert!(matches!(chunk, Chunk::NeedMoreData(n) if n == needed));
    }
    assert_eq!(parser.parse(&[1, 5, 0], true).unwrap_err().offset(), 110);
    assert!(matches!(
        parser.parse(&[], true)?,
        Chunk::Parsed {
            consumed: 0,
            payload: Payload::End(108)
        }
    ));
    Ok(())
}

#[test]
fn skipped_bodies() -> Result<()> {
    let bytes = module(&[
        (1, &[1, 0x60, 0, 0]),
        (3, &[2, 0, 0]),
        (10, &[2, 2, 0, 11, 2, 0, 11]),
        (11, &[0]),
    ]);
    let (mut parser, mut at, mut seen) = (Parser::default(), 0, Vec::new());
    loop {
        let Chunk::Parsed { consumed, payload } = parser.parse(&bytes[at..], true)? else {
            panic!("all bytes are there");
        };
        at += consumed;
        seen.extend(payload.as_section().map(|(id, _)| id));
        match payload {
            Payload::CodeSectionStart { count, size, .. } => {
                assert_eq!((count, size), (2, 6));
                parser.skip_section();
                at += size as usize;
            }
            Payload::End(end) => {
                assert_eq!((end, at), (bytes.len() as u64, bytes.len()));
                break;
            }
            _ => assert_eq!(parser.offset(), at as u64),
        }
    }
    assert_eq!(seen, [1, 3, 10, 11]);
    Ok(())
}

#[test]
#[should_panic = "not in a code section"]
fn nothing_to_skip() {
    Parser::new(0).skip_section();
}

#[test]
fn errors() {
    let magic = "3: magic header not detected: bad magic number - expected=[\n    0x0,\n    0x61,\n    \
        0x73,\n    0x6d,\n] actual=[\n    0x0,\n    0x61,\n    0x73,\n    0x6e,\n]";
    assert_eq!(last_line(b"\0asn\x01\0\0\0"), magic);
    assert_eq!(
        last_line(b"\0asm\x02\0\0\0"),
        "7: unknown binary version:        0x2"
    );
    let body = [1, 2, 0, 11];
    let rows: [(Sections<'_>, &str); 12] = [
        (&[(0x80, &[])], "11: malformed section id"),
        (&[(3, &[0]), (1, &[0])], "16: section out of order"),
        (&[(1, &[0]), (1, &[0])], "16: section out of order"),
        (
            &[(8, &[1, 2])],
            "14: unexpected content in the start section",
        ),
        (
            &[(12, &[0, 2])],
            "14: unexpected content in the data count section",
        ),
        (
            &[(3, &[1, 0])],
            "15: function section has non-zero count but code section is absent",
        ),
        (
            &[(10, &body)],
            "13: function section is absent but code section has non-zero count",
        ),
        (
            &[(3, &[2, 0, 0]), (10, &body)],
            "18: function and code section have inconsistent lengths",
        ),
        (
            &[(12, &[1])],
            "14: data count is non-zero but data section is absent",
        ),
        (
            &[(12, &[1]), (11, &[0])],
            "17: data count and data section have inconsistent lengths",
        ),
        (
            &[(3, &[1, 0]), (10, &[1, 2, 0, 11, 0])],
            "21: trailing bytes at end of section",
        ),
        (
            &[(3, &[1, 0]), (10, &[1, 3, 0, 11]), (0, &[0])],
            "18: unexpected end-of-file",
        ),
    ];
    for (sections, line) in rows {
        assert_eq!(last_line(&module(sections)), line);
    }
    let two = [&PREAMBLE[..], &PREAMBLE[..]].concat();
    assert_eq!(
        last_line(&two),
        "11: expected section, got wasm magic number"
    );
    assert_eq!(
        Parser::new(0).parse(b"wasm", true).unwrap_err().number(),
        27
    );
}

#[test]
fn headers() {
    assert!(Parser::is_core_wasm(&PREAMBLE) && !Parser::is_component(&PREAMBLE));
    assert!(Parser::is_component(b"\0asm\x0d\0\x01\0") && !Parser::is_core_wasm(b"\0asm"));
}

#[test]
fn features_reach_the_sections() -> Result<()> {
    let bytes = module(&[(5, &[1, 0, 0x80, 0x80, 0x80, 0x80, 0x10])]);
    for (features, is_read) in [(WasmFeatures::all(), true), (WasmFeatures::WASM2, false)] {
        let mut parser = Parser::new(0);
        parser.set_features(features);
        assert_eq!(parser.features(), features);
        let part = parser.parse_all(&bytes).nth(1).unwrap()?;
        let Payload::MemorySection(memories) = part else {
            panic!("{part:?}");
        };
        assert_eq!(memories.into_iter().all(|memory| memory.is_ok()), is_read);
    }
    let default = WasmFeatures::default();
    assert!(default.contains(WasmFeatures::WASM3) && !default.stack_switching());
    assert!(WasmFeatures::REFERENCE_TYPES.call_indirect_overlong());
    assert_eq!(WasmFeatures::from(default.inflate()), default);
    assert_eq!(
        WasmFeatures::WASM1.iter().collect::<WasmFeatures>(),
        WasmFeatures::WASM1
    );
    let text = format!("{:?}", WasmFeatures::GC | WasmFeatures::BULK_MEMORY);
    assert_eq!(text, "WasmFeatures(BULK_MEMORY | GC)");
    Ok(())
}

#[test]
fn carried_features() -> Result<()> {
    let features = WasmFeatures::GC | WasmFeatures::MEMORY64;
    let reader = BinaryReader::new_features(&[0x41, 5, 0x0b], 0, features);
    let operators = wasm_operators::OperatorsReader::new(reader);
    assert_eq!(operators.get_binary_reader().features(), features);
    Ok(())
}

#[test]
fn types_as_text() {
    let concrete = |nullable| RefType::concrete(nullable, UnpackedIndex::Module(5).pack().unwrap());
    let rows = [
        (RefType::FUNCREF, "funcref"),
        (RefType::NULLREF, "nullref"),
        (RefType::NOEXN, "(ref noexn)"),
        (RefType::ANY.shared().unwrap(), "(ref (shared any))"),
        (RefType::ANYREF.shared().unwrap(), "(shared anyref)"),
        (concrete(true), "(ref null (module 5))"),
        (
            RefType::difference(concrete(true), RefType::ANYREF),
            "(ref (module 5))",
        ),
    ];
    for (ty, text) in rows {
        assert_eq!(
            (ty.to_string(), format!("{ty:?}")),
            (text.into(), text.into())
        );
        assert_eq!(RefType::new(ty.is_nullable(), ty.heap_type()), Some(ty));
    }
    assert_eq!(concrete(false).shared(), None);
    assert!(ValType::I32 < ValType::V128 && ValType::V128 < ValType::FUNCREF);
    assert!(ValType::I64.is_defaultable() && !ValType::Ref(RefType::EQ).is_defaultable());
    assert_eq!(UnpackedIndex::RecGroup(1 << 20).pack(), None);
    let index = UnpackedIndex::RecGroup(7).pack().unwrap();
    assert_eq!(
        (index.as_module_index(), index.as_rec_group_index()),
        (None, Some(7))
    );
}

#[test]
fn imports_and_types() -> Result<()> {
    let reader = BinaryReader::new(&[1, 1, b'm', 1, b'f', 0x20, 9], 0);
    let mut imports = SectionLimited::<wasm_operators::Import<'_>>::new(reader)?.into_iter();
    assert_eq!(imports.len(), 1);
    assert_eq!(imports.next().unwrap()?.ty, TypeRef::FuncExact(9));
    assert_eq!(
        BinaryReader::new(&[4], 0).read::<ExternalKind>()?,
        ExternalKind::Tag
    );
    let error = BinaryReader::new(&[5], 7)
        .read::<ExternalKind>()
        .unwrap_err();
    let text = "invalid leading byte (0x5) for external kind (at offset 0x7)";
    assert_eq!(error.to_string(), text);

    let types = [3, 0x60, 0, 0, 0x5e, 0x78, 1, 0x60, 0, 0];
    let types = TypeSectionReader::new(BinaryReader::new(&types, 0))?;
    let functions: Vec<_> = types.clone().into_iter_err_on_gc_types().collect();
    assert!(functions[0].is_ok());
    assert_eq!(
        functions[1].as_ref().unwrap_err().message(),
        "gc proposal not supported"
    );
    let groups = types.into_iter().collect::<Result<Vec<_>>>()?;
    assert!(groups[0] == groups[2] && groups[0] != groups[1]);
    let array = groups[1].types().next().unwrap();
    assert!(matches!(
        array.composite_type.inner,
        CompositeInnerType::Array(_)
    ));
    assert_eq!(array.unwrap_array().0.element_type.unpack(), ValType::I32);
    Ok(())
}

#[test]
fn custom_sections() -> Result<()> {
    let section = CustomSectionReader::new(BinaryReader::new(b"\x01nab", 10))?;
    assert_eq!(
        (section.name(), section.data(), section.data_offset()),
        ("n", &b"ab"[..], 12)
    );
    assert_eq!(section.range(), 10..14);
    assert!(CustomSectionReader::new(BinaryReader::new(b"\x02n", 0)).is_err());
    Ok(())
}
