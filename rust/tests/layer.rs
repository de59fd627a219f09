//! Tests of the items that wasmparser's operators layer has.

use wasm_operators::{
    AbstractHeapType, BinaryReader, BlockType, BrTable, Catch, CodeSectionReader, ConstExpr,
    ControlStack, Error, FrameKind, FrameStack, FunctionBody, Handle, HeapType, Ieee32, Ieee64,
    MemArg, MemArgTarget, Operator, OperatorsReader, OperatorsReaderAllocations, Ordering, RefType,
    Result, ResumeTable, SectionLimited, TryTable, UnpackedIndex, V128, ValType, WasmFeatures,
};

/// Returns the text of an error, with its offset.
fn text_of<T>(result: Result<T>) -> String {
    result.err().expect("an error").to_string()
}

/// Reads the operators of an expression, up to an error.
fn read_expression(bytes: &[u8]) -> (Vec<(Operator<'_>, u64)>, Option<Error>) {
    let operators = OperatorsReader::new(BinaryReader::new(bytes, 0)).into_iter_with_offsets();
    let (mut found, mut error) = (Vec::new(), None);
    for operator in operators {
        match operator {
            Ok(operator) => found.push(operator),
            Err(end) => error = Some(end),
        }
    }
    (found, error)
}

/// Reads one operator.
fn read_one(bytes: &[u8], features: WasmFeatures) -> Result<Operator<'_>> {
    OperatorsReader::new(BinaryReader::new_features(bytes, 0, features)).read()
}

#[test]
fn numbers() -> Result<()> {
    let mut reader = BinaryReader::new(&[0x80, 0x01, 0x7f, 1, 0, 0, 0, 0xff], 20);
    assert_eq!(reader.read_var_u32()?, 128);
    assert_eq!(reader.read_var_i32()?, -1);
    assert_eq!(reader.read_u32()?, 1);
    assert_eq!(
        (reader.original_position(), reader.current_position()),
        (27, 7)
    );
    assert_eq!((reader.range(), reader.remaining_range()), (20..28, 27..28));
    assert_eq!(
        text_of(reader.read_var_u64()),
        "unexpected end-of-file (at offset 0x1c)"
    );
    assert_eq!((reader.bytes_remaining(), reader.read_u8()?), (1, 255));
    assert!(reader.eof());
    Ok(())
}

#[test]
fn signed_numbers_of_33_bits() -> Result<()> {
    let rows: [(&[u8], i64); 7] = [
        (&[0x00], 0),
        (&[0x7f], -1),
        (&[0xc0, 0xff, 0xff, 0x7f], -64),
        (&[0xff, 0xff, 0xff, 0xff, 0x7f], -1),
        (&[0xff, 0xff, 0xff, 0xff, 0x0f], 4294967295),
        (&[0x80, 0x80, 0x80, 0x80, 0x70], -4294967296),
        (&[0x80, 0x80, 0x80, 0x80, 0x00], 0),
    ];
    for (bytes, wanted) in rows {
        let mut reader = BinaryReader::new(bytes, 0);
        assert_eq!(
            (reader.read_var_s33()?, reader.eof()),
            (wanted, true),
            "{bytes:?}"
        );
    }
    Ok(())
}

#[test]
fn floats_and_vectors() -> Result<()> {
    let mut reader = BinaryReader::new(&[0, 0, 0xc0, 0x7f, 0, 0, 0, 0, 0, 0, 0xf0, 0x3f], 0);
    assert_eq!(reader.read_f32()?.bits(), 2143289344);
    assert_eq!(f64::from(reader.read_f64()?), 1.0);
    assert_eq!(Ieee32::from(1.5_f32).bits(), 1.5_f32.to_bits());
    assert_eq!(Ieee64::from(1.5_f64).bits(), 1.5_f64.to_bits());
    assert_eq!(V128::from(-2_i128).i128(), -2);
    assert_eq!(u128::from(V128::from(3_u128)), 3);
    assert_eq!(V128::from(1_u128).bytes()[0], 1);
    Ok(())
}

#[test]
fn strings() -> Result<()> {
    let mut reader = BinaryReader::new(b"\x02ok\x01\xff\x03abc", 0);
    assert_eq!(reader.read_string()?, "ok");
    assert_eq!(
        text_of(reader.read_string()),
        "malformed UTF-8 encoding (at offset 0x4)"
    );
    reader.skip_string()?;
    assert_eq!(reader.clone().read::<&str>()?, "abc");
    assert_eq!(reader.read_unlimited_string()?, "abc");
    let mut long = BinaryReader::new(&[0xa1, 0x8d, 0x06], 0);
    assert_eq!(
        text_of(long.skip_string()),
        "string size out of bounds (at offset 0x2)"
    );
    assert_eq!(
        text_of(long.read_unlimited_string()),
        "unexpected end-of-file (at offset 0x3)"
    );
    Ok(())
}

#[test]
fn parts_and_items() -> Result<()> {
    let mut reader = BinaryReader::new(&[2, 7, 8, 3, 1, 2, 3, 9], 10);
    let part = reader.read_reader()?;
    assert_eq!((part.range(), reader.original_position()), (11..13, 13));
    let items = reader
        .clone()
        .read_iter::<u32>(3, "items")?
        .collect::<Result<Vec<_>>>()?;
    assert_eq!(items, [1, 2, 3]);
    assert_eq!(
        reader.clone().read_iter::<u32>(3, "items")?.size_hint(),
        (3, Some(3))
    );
    let skipped = reader.skip(|reader| reader.read_iter::<u32>(3, "items").map(drop))?;
    assert_eq!((skipped.range(), reader.bytes_remaining()), (13..17, 1));
    assert_eq!(
        text_of(reader.read_size(8, "things")),
        "things size is out of bounds (at offset 0x11)"
    );
    assert_eq!(reader.read_bytes(1)?, [9]);
    Ok(())
}

#[test]
#[should_panic = "too large"]
fn data_past_the_last_offset() {
    assert_eq!(BinaryReader::max_data_len(u64::MAX), 0);
    BinaryReader::new(&[0], u64::MAX);
}

#[test]
fn sections() -> Result<()> {
    let code = CodeSectionReader::new(BinaryReader::new(&[1, 3, 0, 1, 0x0b], 20))?;
    assert_eq!(
        (code.count(), code.range(), code.original_position()),
        (1, 20..25, 21)
    );
    let bodies = code.clone().into_iter().collect::<Result<Vec<_>>>()?;
    let operators = bodies[0].get_operators_reader()?.read_all()?;
    assert_eq!(operators, [(Operator::Nop, 23), (Operator::End, 24)]);
    let (offset, body) = code.into_iter_with_offsets().next().unwrap()?;
    assert_eq!(
        (offset, body.range(), body.as_bytes()),
        (21, 22..25, &[0, 1, 0x0b][..])
    );

    let items = SectionLimited::<u32>::new(BinaryReader::new(&[2, 5, 6, 7], 0))?;
    let mut items = items.into_iter();
    assert_eq!((items.next().unwrap()?, items.next().unwrap()?), (5, 6));
    let text = "unexpected data at the end of the section (at offset 0x3)";
    assert_eq!(text_of(items.next().unwrap()), text);
    assert!(items.next().is_none());
    Ok(())
}

#[test]
fn locals() -> Result<()> {
    let bytes = [2, 0xff, 0xff, 0xff, 0xff, 0x0f, 0x7f, 1, 0x7f];
    let body = FunctionBody::new(BinaryReader::new(&bytes, 0));
    let mut locals = body.get_locals_reader()?;
    assert_eq!(
        (locals.get_count(), locals.read()?),
        (2, (u32::MAX, ValType::I32))
    );
    assert_eq!(text_of(locals.read()), "too many locals (at offset 0x8)");
    assert_eq!(
        body.get_binary_reader_for_operators()?.current_position(),
        9
    );

    let body = FunctionBody::new(BinaryReader::new(&[1, 2, 0x70, 0x0b], 0));
    let mut locals = body.get_locals_reader()?.into_iter();
    assert_eq!(
        locals.by_ref().collect::<Result<Vec<_>>>()?,
        [(2, ValType::FUNCREF)]
    );
    assert!(locals.into_operators_reader().is_end_then_eof());
    Ok(())
}

#[test]
fn constant_expressions() -> Result<()> {
    let mut reader = BinaryReader::new(&[0x41, 0x2a, 0x0b, 0xff], 0);
    let expression = reader.read::<ConstExpr<'_>>()?;
    assert_eq!(
        (
            expression.get_binary_reader().range(),
            reader.current_position()
        ),
        (0..3, 3)
    );
    let operators = expression.get_operators_reader().read_all()?;
    assert_eq!(operators[0].0, Operator::I32Const { value: 42 });
    assert_eq!(
        expression,
        ConstExpr::new(BinaryReader::new(&[0x41, 0x2a, 0x0b], 9))
    );
    let mut reader = BinaryReader::new(&[0x02, 0x40, 0x0b, 0x0b], 0);
    let text = "control frames remain at end of expression (at offset 0x3)";
    assert_eq!(text_of(reader.read::<ConstExpr<'_>>()), text);
    assert_eq!(reader.current_position(), 0);
    Ok(())
}

#[test]
fn types() -> Result<()> {
    let mut reader = BinaryReader::new(&[0x7b, 0x63, 5, 0x64, 0x62, 6, 0x65, 0x6e], 0);
    assert_eq!(reader.read::<ValType>()?, ValType::V128);
    let nullable = RefType::new(true, HeapType::Concrete(UnpackedIndex::Module(5))).unwrap();
    assert_eq!(reader.read::<ValType>()?, ValType::Ref(nullable));
    let exact = reader.read::<RefType>()?;
    assert_eq!(
        (exact.is_nullable(), exact.heap_type()),
        (false, HeapType::Exact(UnpackedIndex::Module(6)))
    );
    let shared = HeapType::Abstract {
        shared: true,
        ty: AbstractHeapType::Any,
    };
    assert_eq!(reader.read::<HeapType>()?, shared);
    assert_eq!(
        RefType::new(false, HeapType::Exact(UnpackedIndex::Module(1_048_576))),
        None
    );
    assert_eq!(RefType::FUNC.nullable(), RefType::FUNCREF);
    assert!(RefType::NULLREF.is_none_ref() && !RefType::NULLREF.as_non_null().is_nullable());
    let mut reader = BinaryReader::new(&[0x01], 3);
    assert_eq!(
        text_of(reader.read::<ValType>()),
        "invalid value type (at offset 0x3)"
    );
    Ok(())
}

#[test]
fn clauses() -> Result<()> {
    let mut reader = BinaryReader::new(&[0x40, 2, 0, 5, 1, 3, 9, 1, 1, 7, 4], 0);
    let catches = vec![Catch::One { tag: 5, label: 1 }, Catch::AllRef { label: 9 }];
    let table = TryTable {
        ty: BlockType::Empty,
        catches,
    };
    assert_eq!(reader.read::<TryTable>()?, table);
    let table = reader.read::<ResumeTable>()?;
    assert_eq!(
        (table.len(), table.handlers[0]),
        (1, Handle::OnSwitch { tag: 7 })
    );
    assert_eq!(
        text_of(reader.read::<Catch>()),
        "invalid leading byte (0x4) for catch (at offset 0xa)"
    );
    // A call that fails leaves the reader where the call began.
    assert_eq!(reader.bytes_remaining(), 1);
    Ok(())
}

#[test]
fn branch_tables() -> Result<()> {
    fn table<'a>(bytes: &'a [u8]) -> BrTable<'a> {
        match read_one(bytes, WasmFeatures::all()) {
            Ok(Operator::BrTable { targets }) => targets,
            other => panic!("{other:?}"),
        }
    }
    let short = table(&[0x0e, 1, 1, 0]);
    let padded = table(&[0x0e, 1, 0x81, 0, 0]);
    assert_eq!(short.targets().size_hint(), (1, Some(1)));
    assert_eq!(short.targets().collect::<Result<Vec<_>>>()?, [1]);
    assert_eq!(padded.targets().collect::<Result<Vec<_>>>()?, [1]);
    assert!(short != padded && short == table(&[0x0e, 1, 1, 0, 0xff]));
    assert!(short != table(&[0x0e, 1, 1, 1]) && table(&[0x0e, 0, 0]).is_empty());
    for length in 0..4 {
        let error = read_one(&[0x0e, 1, 1, 0][..length], WasmFeatures::all()).unwrap_err();
        assert_eq!((error.number(), error.offset()), (1, length as u64));
    }
    Ok(())
}

#[test]
fn frames() {
    let (found, error) = read_expression(&[0x04, 0x40, 0x05, 0x05]);
    assert_eq!(
        found,
        [
            (
                Operator::If {
                    blockty: BlockType::Empty
                },
                0
            ),
            (Operator::Else, 2)
        ]
    );
    assert_eq!(
        error.unwrap().to_string(),
        "`else` found outside `If` block (at offset 0x4)"
    );
    let (found, error) = read_expression(&[0x0b, 0x01]);
    assert_eq!((found.len(), error.unwrap().number()), (1, 8));

    let mut stack = ControlStack::default();
    stack.push(FrameKind::Block);
    stack.push(FrameKind::Loop);
    assert_eq!(
        (stack.last(), stack.clone().pop()),
        (Some(FrameKind::Loop), Some(FrameKind::Loop))
    );
    stack.clear();
    assert!(stack.is_empty() && stack.pop().is_none());

    let kinds = [
        (0x02, FrameKind::Block),
        (0x03, FrameKind::Loop),
        (0x04, FrameKind::If),
        (0x06, FrameKind::LegacyTry),
    ];
    for (opcode, kind) in kinds {
        let bytes = [opcode, 0x40, 0x0b, 0x0b];
        let mut reader = OperatorsReader::new(BinaryReader::new(&bytes, 0));
        let mut open = Vec::new();
        while reader.read().is_ok() {
            open.push(reader.current_frame());
        }
        assert_eq!(open, [Some(kind), Some(FrameKind::Block), None]);
        assert!(reader.finish().is_ok());
    }
}

#[test]
fn allocations() -> Result<()> {
    let mut allocations = OperatorsReaderAllocations::default();
    for depth in 1..100 {
        let bytes = [[0x02, 0x40].repeat(depth), vec![0x0b; depth + 1]].concat();
        let reader = OperatorsReader::new_with_allocs(BinaryReader::new(&bytes, 0), allocations);
        let mut operators = reader.into_iter();
        assert_eq!(
            operators.by_ref().collect::<Result<Vec<_>>>()?.len(),
            2 * depth + 1
        );
        allocations = operators.into_allocations();
    }
    // A reader that starts at a later position reads from there.
    let mut reader = BinaryReader::new(&[0xff, 0xff, 0x01, 0x0b], 5);
    reader.read_bytes(2)?;
    let mut operators = OperatorsReader::new_with_allocs(reader, allocations);
    assert_eq!(operators.read_with_offset()?, (Operator::Nop, 7));
    assert_eq!(operators.get_binary_reader().remaining_range(), 8..9);
    assert!(operators.is_end_then_eof());
    Ok(())
}

#[test]
fn memory_arguments() -> Result<()> {
    let memarg = MemArg {
        align: 2,
        max_align: 2,
        offset: 0,
        target: MemArgTarget::default(),
        ordering: None,
    };
    let bytes = [0x28, 2, 0x80, 0x80, 0x80, 0x80, 0x80, 0];
    assert_eq!(
        read_one(&bytes, WasmFeatures::all())?,
        Operator::I32Load { memarg }
    );
    let without = read_one(&bytes, !WasmFeatures::MEMORY64).unwrap_err();
    assert_eq!((without.number(), without.offset()), (4, 6));
    assert_eq!(
        read_one(&[0xfe, 3, 1], WasmFeatures::all())?,
        Operator::AtomicFence {
            ordering: Ordering::AcqRel
        }
    );
    Ok(())
}

#[test]
fn features() {
    let mut features = WasmFeatures::all();
    features.remove(WasmFeatures::MEMORY64);
    assert!(!features.memory64() && features.multi_memory() && !features.is_all());
    features.set(WasmFeatures::MEMORY64, true);
    assert_eq!(features, WasmFeatures::all());
    assert_eq!(
        WasmFeatures::from_name("MEMORY64"),
        Some(WasmFeatures::MEMORY64)
    );
    assert_eq!(WasmFeatures::from_bits(1 << 63), None);
    let two = WasmFeatures::MEMORY64 | WasmFeatures::LEGACY_EXCEPTIONS;
    assert_eq!(
        two.iter_names().map(|(name, _)| name).collect::<Vec<_>>(),
        ["MEMORY64", "LEGACY_EXCEPTIONS"]
    );
    assert_eq!(
        (two - WasmFeatures::MEMORY64, two.iter().count()),
        (WasmFeatures::LEGACY_EXCEPTIONS, 2)
    );
    assert!(two.intersects(WasmFeatures::MEMORY64) && (two & !two).is_empty());
}

#[test]
fn errors() {
    let error = read_one(&[0xff], WasmFeatures::all()).unwrap_err();
    assert_eq!(
        (error.message(), error.offset(), error.number()),
        ("illegal opcode: 0xff", 0, 12)
    );
    let error: Box<dyn std::error::Error> = Box::new(error);
    assert_eq!(error.to_string(), "illegal opcode: 0xff (at offset 0x0)");
}
