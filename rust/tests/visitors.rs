//! Tests of visitors and of arities.

use wasm_operators::{
    BinaryReader, BlockType, CompositeInnerType, CompositeType, ContType, ControlStack, EachVisit,
    FieldType, FrameKind, FrameStack, FuncType, MemArg, MemArgTarget, ModuleArity, Operator,
    OperatorsReader, PackedIndex, RefType, Result, StorageType, StructType, SubType, ValType,
    VisitAny, VisitOperator, VisitSimdOperator, for_each_operator, for_each_visit_operator,
    for_each_visit_simd_operator,
};

/// A visitor that returns the names of its methods, and does not support SIMD operators.
#[derive(Default)]
struct Plain {
    frames: ControlStack,
}

macro_rules! name {
    ($(@$proposal:ident $op:ident $({ $($field:ident: $ty:ty),* })? => $visit:ident ($($ann:tt)*))*) => {
        $(fn $visit(&mut self $($(, _: $ty)*)?) -> &'static str { stringify!($visit) })*
    };
}

impl<'a> VisitOperator<'a> for Plain {
    type Output = &'static str;
    for_each_visit_operator!(name);
}

impl FrameStack for Plain {
    fn current_frame(&self) -> Option<FrameKind> {
        self.frames.last()
    }
}

/// The same, with support of SIMD operators.
struct Simd;

impl<'a> VisitOperator<'a> for Simd {
    type Output = &'static str;

    fn simd_visitor(&mut self) -> Option<&mut dyn VisitSimdOperator<'a, Output = &'static str>> {
        Some(self)
    }

    for_each_visit_operator!(name);
}

impl VisitSimdOperator<'_> for Simd {
    for_each_visit_simd_operator!(name);
}

/// An `i8x16.swizzle` and an `end`.
const SWIZZLE: [u8; 3] = [0xfd, 0x0e, 0x0b];

#[test]
fn a_visitor_without_simd() -> Result<()> {
    let mut operators = OperatorsReader::new(BinaryReader::new(&SWIZZLE, 0));
    let error = operators.visit_operator(&mut Plain::default()).unwrap_err();
    assert_eq!(
        error.to_string(),
        "unexpected SIMD opcode: 0xfd (at offset 0x0)"
    );
    // Nothing has changed.
    assert_eq!(operators.visit_operator(&mut Simd)?, "visit_i8x16_swizzle");
    assert_eq!(
        operators.visit_operator(&mut Plain::default())?,
        "visit_end"
    );
    operators.finish()?;
    // The byte 0xfd is the error, whatever follows.
    let mut operators = OperatorsReader::new(BinaryReader::new(&[0xfd], 0));
    assert_eq!(
        operators
            .visit_operator(&mut Plain::default())
            .unwrap_err()
            .number(),
        14
    );
    assert_eq!(operators.visit_operator(&mut Simd).unwrap_err().number(), 1);
    Ok(())
}

#[test]
fn a_visitor_with_frames() -> Result<()> {
    let mut visitor = Plain::default();
    let mut reader = BinaryReader::new(&[0x05, 0x01, 0xfd, 0x0b], 0);
    assert_eq!(reader.visit_operator(&mut visitor).unwrap_err().number(), 8);
    visitor.frames.push(FrameKind::Block);
    let text = "`else` found outside `If` block (at offset 0x1)";
    assert_eq!(
        reader.peek_operator(&visitor).unwrap_err().to_string(),
        text
    );
    visitor.frames.push(FrameKind::If);
    assert_eq!(reader.peek_operator(&visitor)?, Operator::Else);
    assert_eq!(reader.visit_operator(&mut visitor)?, "visit_else");
    assert_eq!(reader.visit_operator(&mut visitor)?, "visit_nop");
    assert_eq!(
        reader.visit_operator(&mut visitor).unwrap_err().number(),
        14
    );
    assert_eq!(reader.finish_expression(&visitor).unwrap_err().number(), 9);
    visitor.frames.clear();
    assert_eq!(reader.finish_expression(&visitor).unwrap_err().number(), 11);
    reader.read_bytes(2)?;
    reader.finish_expression(&visitor)
}

#[test]
fn pointers_to_visitors() -> Result<()> {
    let mut boxed: Box<dyn VisitSimdOperator<'_, Output = &'static str>> = Box::new(Simd);
    let mut operators = OperatorsReader::new(BinaryReader::new(&SWIZZLE, 0));
    assert_eq!(operators.visit_operator(&mut boxed)?, "visit_i8x16_swizzle");
    assert_eq!(operators.visit_operator(&mut &mut Simd)?, "visit_end");
    assert_eq!(
        boxed.visit_operator(&Operator::I8x16Swizzle),
        "visit_i8x16_swizzle"
    );
    assert_eq!(Simd.visit_operator(&Operator::Nop), "visit_nop");
    Ok(())
}

#[test]
#[should_panic = "I8x16Swizzle"]
fn a_simd_operator_without_its_visitor() {
    Plain::default().visit_operator(&Operator::I8x16Swizzle);
}

/// Returns the operators that it visits.
struct Same;

impl<'a> VisitAny<'a> for Same {
    type Output = Operator<'a>;

    fn visit_any(&mut self, op: Operator<'a>) -> Operator<'a> {
        op
    }
}

#[test]
fn one_method_for_all_operators() -> Result<()> {
    let bytes = [0x41, 5, 0xfd, 0x0e, 0x0e, 1, 2, 3, 0x0b];
    let mut by_visits = OperatorsReader::new(BinaryReader::new(&bytes, 0));
    let operators = OperatorsReader::new(BinaryReader::new(&bytes, 0)).read_all()?;
    for (operator, _) in operators {
        assert_eq!(EachVisit(Same).visit_operator(&operator), operator);
        assert_eq!(by_visits.visit_operator(&mut EachVisit(Same))?, operator);
    }
    Ok(())
}

/// Counts the entries of the macros.
macro_rules! count {
    ($(@$proposal:ident $op:ident $({ $($field:ident: $ty:ty),* })? => $visit:ident ($($ann:tt)*))*) => {
        [$(stringify!($proposal)),*].len()
    };
}

#[test]
fn macros() {
    let (all, simd) = (
        for_each_operator!(count),
        for_each_visit_simd_operator!(count),
    );
    assert_eq!(for_each_visit_operator!(count) + simd, all);
    assert_eq!((all, simd), (628, 256));
}

/// A module whose types 0 to 8 have the arity (2, 3), except 4 and 5. One frame is open: a loop.
struct Module {
    function: SubType,
    structure: SubType,
    continuation: SubType,
}

/// Creates a final type.
fn final_type(inner: CompositeInnerType) -> SubType {
    SubType {
        is_final: true,
        supertype_idx: None,
        composite_type: CompositeType {
            inner,
            shared: false,
        },
    }
}

impl Module {
    fn new() -> Module {
        let to_itself = PackedIndex::from_module_index(5).unwrap();
        let last = ValType::Ref(RefType::concrete(true, to_itself));
        let signature = FuncType::new([ValType::I32, last], [ValType::I64; 3]);
        let field = FieldType {
            element_type: StorageType::I8,
            mutable: true,
        };
        Module {
            function: SubType::func(signature, false),
            structure: final_type(CompositeInnerType::Struct(StructType {
                fields: Box::new([field; 4]),
            })),
            continuation: final_type(CompositeInnerType::Cont(ContType(to_itself))),
        }
    }
}

impl ModuleArity for Module {
    fn sub_type_at(&self, type_idx: u32) -> Option<&SubType> {
        match type_idx {
            4 => Some(&self.structure),
            5 => Some(&self.continuation),
            0..9 => Some(&self.function),
            _ => None,
        }
    }

    fn tag_type_arity(&self, _at: u32) -> Option<(u32, u32)> {
        Some((2, 3))
    }

    fn type_index_of_function(&self, function_idx: u32) -> Option<u32> {
        Some(function_idx)
    }

    fn func_type_of_cont_type(&self, _c: &ContType) -> Option<&FuncType> {
        Some(self.function.unwrap_func())
    }

    fn sub_type_of_ref_type(&self, rt: &RefType) -> Option<&SubType> {
        self.sub_type_at(rt.type_index()?.as_module_index()?)
    }

    fn control_stack_height(&self) -> u32 {
        1
    }

    fn label_block(&self, depth: u32) -> Option<(BlockType, FrameKind)> {
        (depth == 0).then_some((BlockType::FuncType(0), FrameKind::Loop))
    }
}

#[test]
fn arities() {
    let blockty = BlockType::FuncType(1);
    let memarg = |target| MemArg {
        align: 0,
        max_align: 0,
        offset: 0,
        target,
        ordering: None,
    };
    let (memory, array) = (
        memarg(MemArgTarget::Memory(0)),
        memarg(MemArgTarget::Array(0)),
    );
    let rows = [
        (Operator::I32Add, Some((2, 1))),
        (Operator::I32Store8 { memarg: memory }, Some((2, 0))),
        (Operator::I32Store8 { memarg: array }, Some((3, 0))),
        (Operator::Block { blockty }, Some((2, 2))),
        (Operator::If { blockty }, Some((3, 2))),
        (
            Operator::If {
                blockty: BlockType::Type(ValType::I32),
            },
            Some((1, 0)),
        ),
        (Operator::Else, Some((3, 2))),
        (Operator::Catch { tag_index: 0 }, Some((3, 2))),
        (Operator::CatchAll, Some((3, 0))),
        (Operator::End, Some((3, 3))),
        (Operator::Return, Some((3, 0))),
        (Operator::Br { relative_depth: 0 }, Some((2, 0))),
        (Operator::Br { relative_depth: 1 }, None),
        (Operator::BrIf { relative_depth: 0 }, Some((3, 2))),
        (Operator::BrOnNull { relative_depth: 0 }, Some((3, 3))),
        (Operator::BrOnNonNull { relative_depth: 0 }, Some((2, 1))),
        (Operator::Call { function_index: 8 }, Some((2, 3))),
        (Operator::Call { function_index: 9 }, None),
        (Operator::ReturnCallRef { type_index: 0 }, Some((3, 0))),
        (
            Operator::TypedSelectMulti {
                tys: vec![ValType::I32; 2],
            },
            Some((5, 2)),
        ),
        (
            Operator::ContBind {
                argument_index: 5,
                result_index: 5,
            },
            Some((1, 1)),
        ),
        (
            Operator::Switch {
                cont_type_index: 5,
                tag_index: 0,
            },
            Some((2, 2)),
        ),
        (
            Operator::StructNewDesc {
                struct_type_index: 4,
            },
            Some((5, 1)),
        ),
        (
            Operator::ArrayNewFixed {
                array_type_index: 0,
                array_size: 7,
            },
            Some((7, 1)),
        ),
    ];
    let module = Module::new();
    for (operator, arity) in rows {
        assert_eq!(operator.operator_arity(&module), arity, "{operator:?}");
    }
}
