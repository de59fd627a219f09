//! The operators. Written by tools/lists.py from tools/operators.tsv.

use crate::immediates::{BlockType, Ieee32, Ieee64, MemArg, Ordering, V128};
use crate::lists::{self, BrTable, ResumeTable, Source, TryTable};
use crate::native::PlainOperator;
use crate::value_types::{HeapType, RefType, ValType, heap_type, ref_type, val_type};

/// An operator with its immediates. The comment of each is its name in the text format.
#[derive(Clone, Debug, PartialEq, Eq)]
#[non_exhaustive]
#[rustfmt::skip]
pub enum Operator<'a> {
    /// `unreachable`
    Unreachable,
    /// `nop`
    Nop,
    /// `block`
    Block { /** The type of the block. */ blockty: BlockType },
    /// `loop`
    Loop { /** The type of the block. */ blockty: BlockType },
    /// `if`
    If { /** The type of the block. */ blockty: BlockType },
    /// `else`
    Else,
    /// `end`
    End,
    /// `br`
    Br { /** The label: how many open frames are further in. */ relative_depth: u32 },
    /// `br_if`
    BrIf { /** The label: how many open frames are further in. */ relative_depth: u32 },
    /// `br_table`
    BrTable { /** The labels. */ targets: BrTable<'a> },
    /// `return`
    Return,
    /// `call`
    Call { /** The index of the function. */ function_index: u32 },
    /// `call_indirect`
    CallIndirect { /** The index of the type. */ type_index: u32, /** The index of the table. */ table_index: u32 },
    /// `drop`
    Drop,
    /// `select`
    Select,
    /// `local.get`
    LocalGet { /** The index of the local. */ local_index: u32 },
    /// `local.set`
    LocalSet { /** The index of the local. */ local_index: u32 },
    /// `local.tee`
    LocalTee { /** The index of the local. */ local_index: u32 },
    /// `global.get`
    GlobalGet { /** The index of the global. */ global_index: u32 },
    /// `global.set`
    GlobalSet { /** The index of the global. */ global_index: u32 },
    /// `i32.load`
    I32Load { /** The memory argument. */ memarg: MemArg },
    /// `i64.load`
    I64Load { /** The memory argument. */ memarg: MemArg },
    /// `f32.load`
    F32Load { /** The memory argument. */ memarg: MemArg },
    /// `f64.load`
    F64Load { /** The memory argument. */ memarg: MemArg },
    /// `i32.load8_s`
    I32Load8S { /** The memory argument. */ memarg: MemArg },
    /// `i32.load8_u`
    I32Load8U { /** The memory argument. */ memarg: MemArg },
    /// `i32.load16_s`
    I32Load16S { /** The memory argument. */ memarg: MemArg },
    /// `i32.load16_u`
    I32Load16U { /** The memory argument. */ memarg: MemArg },
    /// `i64.load8_s`
    I64Load8S { /** The memory argument. */ memarg: MemArg },
    /// `i64.load8_u`
    I64Load8U { /** The memory argument. */ memarg: MemArg },
    /// `i64.load16_s`
    I64Load16S { /** The memory argument. */ memarg: MemArg },
    /// `i64.load16_u`
    I64Load16U { /** The memory argument. */ memarg: MemArg },
    /// `i64.load32_s`
    I64Load32S { /** The memory argument. */ memarg: MemArg },
    /// `i64.load32_u`
    I64Load32U { /** The memory argument. */ memarg: MemArg },
    /// `i32.store`
    I32Store { /** The memory argument. */ memarg: MemArg },
    /// `i64.store`
    I64Store { /** The memory argument. */ memarg: MemArg },
    /// `f32.store`
    F32Store { /** The memory argument. */ memarg: MemArg },
    /// `f64.store`
    F64Store { /** The memory argument. */ memarg: MemArg },
    /// `i32.store8`
    I32Store8 { /** The memory argument. */ memarg: MemArg },
    /// `i32.store16`
    I32Store16 { /** The memory argument. */ memarg: MemArg },
    /// `i64.store8`
    I64Store8 { /** The memory argument. */ memarg: MemArg },
    /// `i64.store16`
    I64Store16 { /** The memory argument. */ memarg: MemArg },
    /// `i64.store32`
    I64Store32 { /** The memory argument. */ memarg: MemArg },
    /// `memory.size`
    MemorySize { /** The index of the memory. */ mem: u32 },
    /// `memory.grow`
    MemoryGrow { /** The index of the memory. */ mem: u32 },
    /// `i32.const`
    I32Const { /** The constant. */ value: i32 },
    /// `i64.const`
    I64Const { /** The constant. */ value: i64 },
    /// `f32.const`
    F32Const { /** The constant. */ value: Ieee32 },
    /// `f64.const`
    F64Const { /** The constant. */ value: Ieee64 },
    /// `i32.eqz`
    I32Eqz,
    /// `i32.eq`
    I32Eq,
    /// `i32.ne`
    I32Ne,
    /// `i32.lt_s`
    I32LtS,
    /// `i32.lt_u`
    I32LtU,
    /// `i32.gt_s`
    I32GtS,
    /// `i32.gt_u`
    I32GtU,
    /// `i32.le_s`
    I32LeS,
    /// `i32.le_u`
    I32LeU,
    /// `i32.ge_s`
    I32GeS,
    /// `i32.ge_u`
    I32GeU,
    /// `i64.eqz`
    I64Eqz,
    /// `i64.eq`
    I64Eq,
    /// `i64.ne`
    I64Ne,
    /// `i64.lt_s`
    I64LtS,
    /// `i64.lt_u`
    I64LtU,
    /// `i64.gt_s`
    I64GtS,
    /// `i64.gt_u`
    I64GtU,
    /// `i64.le_s`
    I64LeS,
    /// `i64.le_u`
    I64LeU,
    /// `i64.ge_s`
    I64GeS,
    /// `i64.ge_u`
    I64GeU,
    /// `f32.eq`
    F32Eq,
    /// `f32.ne`
    F32Ne,
    /// `f32.lt`
    F32Lt,
    /// `f32.gt`
    F32Gt,
    /// `f32.le`
    F32Le,
    /// `f32.ge`
    F32Ge,
    /// `f64.eq`
    F64Eq,
    /// `f64.ne`
    F64Ne,
    /// `f64.lt`
    F64Lt,
    /// `f64.gt`
    F64Gt,
    /// `f64.le`
    F64Le,
    /// `f64.ge`
    F64Ge,
    /// `i32.clz`
    I32Clz,
    /// `i32.ctz`
    I32Ctz,
    /// `i32.popcnt`
    I32Popcnt,
    /// `i32.add`
    I32Add,
    /// `i32.sub`
    I32Sub,
    /// `i32.mul`
    I32Mul,
    /// `i32.div_s`
    I32DivS,
    /// `i32.div_u`
    I32DivU,
    /// `i32.rem_s`
    I32RemS,
    /// `i32.rem_u`
    I32RemU,
    /// `i32.and`
    I32And,
    /// `i32.or`
    I32Or,
    /// `i32.xor`
    I32Xor,
    /// `i32.shl`
    I32Shl,
    /// `i32.shr_s`
    I32ShrS,
    /// `i32.shr_u`
    I32ShrU,
    /// `i32.rotl`
    I32Rotl,
    /// `i32.rotr`
    I32Rotr,
    /// `i64.clz`
    I64Clz,
    /// `i64.ctz`
    I64Ctz,
    /// `i64.popcnt`
    I64Popcnt,
    /// `i64.add`
    I64Add,
    /// `i64.sub`
    I64Sub,
    /// `i64.mul`
    I64Mul,
    /// `i64.div_s`
    I64DivS,
    /// `i64.div_u`
    I64DivU,
    /// `i64.rem_s`
    I64RemS,
    /// `i64.rem_u`
    I64RemU,
    /// `i64.and`
    I64And,
    /// `i64.or`
    I64Or,
    /// `i64.xor`
    I64Xor,
    /// `i64.shl`
    I64Shl,
    /// `i64.shr_s`
    I64ShrS,
    /// `i64.shr_u`
    I64ShrU,
    /// `i64.rotl`
    I64Rotl,
    /// `i64.rotr`
    I64Rotr,
    /// `f32.abs`
    F32Abs,
    /// `f32.neg`
    F32Neg,
    /// `f32.ceil`
    F32Ceil,
    /// `f32.floor`
    F32Floor,
    /// `f32.trunc`
    F32Trunc,
    /// `f32.nearest`
    F32Nearest,
    /// `f32.sqrt`
    F32Sqrt,
    /// `f32.add`
    F32Add,
    /// `f32.sub`
    F32Sub,
    /// `f32.mul`
    F32Mul,
    /// `f32.div`
    F32Div,
    /// `f32.min`
    F32Min,
    /// `f32.max`
    F32Max,
    /// `f32.copysign`
    F32Copysign,
    /// `f64.abs`
    F64Abs,
    /// `f64.neg`
    F64Neg,
    /// `f64.ceil`
    F64Ceil,
    /// `f64.floor`
    F64Floor,
    /// `f64.trunc`
    F64Trunc,
    /// `f64.nearest`
    F64Nearest,
    /// `f64.sqrt`
    F64Sqrt,
    /// `f64.add`
    F64Add,
    /// `f64.sub`
    F64Sub,
    /// `f64.mul`
    F64Mul,
    /// `f64.div`
    F64Div,
    /// `f64.min`
    F64Min,
    /// `f64.max`
    F64Max,
    /// `f64.copysign`
    F64Copysign,
    /// `i32.wrap_i64`
    I32WrapI64,
    /// `i32.trunc_f32_s`
    I32TruncF32S,
    /// `i32.trunc_f32_u`
    I32TruncF32U,
    /// `i32.trunc_f64_s`
    I32TruncF64S,
    /// `i32.trunc_f64_u`
    I32TruncF64U,
    /// `i64.extend_i32_s`
    I64ExtendI32S,
    /// `i64.extend_i32_u`
    I64ExtendI32U,
    /// `i64.trunc_f32_s`
    I64TruncF32S,
    /// `i64.trunc_f32_u`
    I64TruncF32U,
    /// `i64.trunc_f64_s`
    I64TruncF64S,
    /// `i64.trunc_f64_u`
    I64TruncF64U,
    /// `f32.convert_i32_s`
    F32ConvertI32S,
    /// `f32.convert_i32_u`
    F32ConvertI32U,
    /// `f32.convert_i64_s`
    F32ConvertI64S,
    /// `f32.convert_i64_u`
    F32ConvertI64U,
    /// `f32.demote_f64`
    F32DemoteF64,
    /// `f64.convert_i32_s`
    F64ConvertI32S,
    /// `f64.convert_i32_u`
    F64ConvertI32U,
    /// `f64.convert_i64_s`
    F64ConvertI64S,
    /// `f64.convert_i64_u`
    F64ConvertI64U,
    /// `f64.promote_f32`
    F64PromoteF32,
    /// `i32.reinterpret_f32`
    I32ReinterpretF32,
    /// `i64.reinterpret_f64`
    I64ReinterpretF64,
    /// `f32.reinterpret_i32`
    F32ReinterpretI32,
    /// `f64.reinterpret_i64`
    F64ReinterpretI64,
    /// `i32.extend8_s`
    I32Extend8S,
    /// `i32.extend16_s`
    I32Extend16S,
    /// `i64.extend8_s`
    I64Extend8S,
    /// `i64.extend16_s`
    I64Extend16S,
    /// `i64.extend32_s`
    I64Extend32S,
    /// `ref.eq`
    RefEq,
    /// `struct.new`
    StructNew { /** The index of the structure type. */ struct_type_index: u32 },
    /// `struct.new_default`
    StructNewDefault { /** The index of the structure type. */ struct_type_index: u32 },
    /// `struct.get`
    StructGet { /** The index of the structure type. */ struct_type_index: u32, /** The index of the field. */ field_index: u32 },
    /// `struct.get_s`
    StructGetS { /** The index of the structure type. */ struct_type_index: u32, /** The index of the field. */ field_index: u32 },
    /// `struct.get_u`
    StructGetU { /** The index of the structure type. */ struct_type_index: u32, /** The index of the field. */ field_index: u32 },
    /// `struct.set`
    StructSet { /** The index of the structure type. */ struct_type_index: u32, /** The index of the field. */ field_index: u32 },
    /// `array.new`
    ArrayNew { /** The index of the array type. */ array_type_index: u32 },
    /// `array.new_default`
    ArrayNewDefault { /** The index of the array type. */ array_type_index: u32 },
    /// `array.new_fixed`
    ArrayNewFixed { /** The index of the array type. */ array_type_index: u32, /** The number of elements. */ array_size: u32 },
    /// `array.new_data`
    ArrayNewData { /** The index of the array type. */ array_type_index: u32, /** The index of the data segment. */ array_data_index: u32 },
    /// `array.new_elem`
    ArrayNewElem { /** The index of the array type. */ array_type_index: u32, /** The index of the element segment. */ array_elem_index: u32 },
    /// `array.get`
    ArrayGet { /** The index of the array type. */ array_type_index: u32 },
    /// `array.get_s`
    ArrayGetS { /** The index of the array type. */ array_type_index: u32 },
    /// `array.get_u`
    ArrayGetU { /** The index of the array type. */ array_type_index: u32 },
    /// `array.set`
    ArraySet { /** The index of the array type. */ array_type_index: u32 },
    /// `array.len`
    ArrayLen,
    /// `array.fill`
    ArrayFill { /** The index of the array type. */ array_type_index: u32 },
    /// `array.copy`
    ArrayCopy { /** The index of the array type that is written. */ array_type_index_dst: u32, /** The index of the array type that is read. */ array_type_index_src: u32 },
    /// `array.init_data`
    ArrayInitData { /** The index of the array type. */ array_type_index: u32, /** The index of the data segment. */ array_data_index: u32 },
    /// `array.init_elem`
    ArrayInitElem { /** The index of the array type. */ array_type_index: u32, /** The index of the element segment. */ array_elem_index: u32 },
    /// `ref.test`
    RefTestNonNull { /** The heap type. */ hty: HeapType },
    /// `ref.test`
    RefTestNullable { /** The heap type. */ hty: HeapType },
    /// `ref.cast`
    RefCastNonNull { /** The heap type. */ hty: HeapType },
    /// `ref.cast`
    RefCastNullable { /** The heap type. */ hty: HeapType },
    /// `br_on_cast`
    BrOnCast { /** The label: how many open frames are further in. */ relative_depth: u32, /** The type of the operand. */ from_ref_type: RefType, /** The type that is tested for. */ to_ref_type: RefType },
    /// `br_on_cast_fail`
    BrOnCastFail { /** The label: how many open frames are further in. */ relative_depth: u32, /** The type of the operand. */ from_ref_type: RefType, /** The type that is tested for. */ to_ref_type: RefType },
    /// `any.convert_extern`
    AnyConvertExtern,
    /// `extern.convert_any`
    ExternConvertAny,
    /// `ref.i31`
    RefI31,
    /// `i31.get_s`
    I31GetS,
    /// `i31.get_u`
    I31GetU,
    /// `struct.new_desc`
    StructNewDesc { /** The index of the structure type. */ struct_type_index: u32 },
    /// `struct.new_default_desc`
    StructNewDefaultDesc { /** The index of the structure type. */ struct_type_index: u32 },
    /// `ref.get_desc`
    RefGetDesc { /** The index of the type. */ type_index: u32 },
    /// `ref.cast_desc_eq`
    RefCastDescEqNonNull { /** The heap type. */ hty: HeapType },
    /// `ref.cast_desc_eq`
    RefCastDescEqNullable { /** The heap type. */ hty: HeapType },
    /// `br_on_cast_desc_eq`
    BrOnCastDescEq { /** The label: how many open frames are further in. */ relative_depth: u32, /** The type of the operand. */ from_ref_type: RefType, /** The type that is tested for. */ to_ref_type: RefType },
    /// `br_on_cast_desc_eq_fail`
    BrOnCastDescEqFail { /** The label: how many open frames are further in. */ relative_depth: u32, /** The type of the operand. */ from_ref_type: RefType, /** The type that is tested for. */ to_ref_type: RefType },
    /// `i32.trunc_sat_f32_s`
    I32TruncSatF32S,
    /// `i32.trunc_sat_f32_u`
    I32TruncSatF32U,
    /// `i32.trunc_sat_f64_s`
    I32TruncSatF64S,
    /// `i32.trunc_sat_f64_u`
    I32TruncSatF64U,
    /// `i64.trunc_sat_f32_s`
    I64TruncSatF32S,
    /// `i64.trunc_sat_f32_u`
    I64TruncSatF32U,
    /// `i64.trunc_sat_f64_s`
    I64TruncSatF64S,
    /// `i64.trunc_sat_f64_u`
    I64TruncSatF64U,
    /// `memory.init`
    MemoryInit { /** The index of the data segment. */ data_index: u32, /** The index of the memory. */ mem: u32 },
    /// `data.drop`
    DataDrop { /** The index of the data segment. */ data_index: u32 },
    /// `memory.copy`
    MemoryCopy { /** The index of the memory that is written. */ dst_mem: u32, /** The index of the memory that is read. */ src_mem: u32 },
    /// `memory.fill`
    MemoryFill { /** The index of the memory. */ mem: u32 },
    /// `table.init`
    TableInit { /** The index of the element segment. */ elem_index: u32, /** The index of the table. */ table: u32 },
    /// `elem.drop`
    ElemDrop { /** The index of the element segment. */ elem_index: u32 },
    /// `table.copy`
    TableCopy { /** The index of the table that is written. */ dst_table: u32, /** The index of the table that is read. */ src_table: u32 },
    /// `select`
    TypedSelect { /** The type of the operands. */ ty: ValType },
    /// `select`
    TypedSelectMulti { /** The types of the operands. */ tys: Vec<ValType> },
    /// `ref.null`
    RefNull { /** The heap type. */ hty: HeapType },
    /// `ref.is_null`
    RefIsNull,
    /// `ref.func`
    RefFunc { /** The index of the function. */ function_index: u32 },
    /// `table.fill`
    TableFill { /** The index of the table. */ table: u32 },
    /// `table.get`
    TableGet { /** The index of the table. */ table: u32 },
    /// `table.set`
    TableSet { /** The index of the table. */ table: u32 },
    /// `table.grow`
    TableGrow { /** The index of the table. */ table: u32 },
    /// `table.size`
    TableSize { /** The index of the table. */ table: u32 },
    /// `return_call`
    ReturnCall { /** The index of the function. */ function_index: u32 },
    /// `return_call_indirect`
    ReturnCallIndirect { /** The index of the type. */ type_index: u32, /** The index of the table. */ table_index: u32 },
    /// `memory.discard`
    MemoryDiscard { /** The index of the memory. */ mem: u32 },
    /// `memory.atomic.notify`
    MemoryAtomicNotify { /** The memory argument. */ memarg: MemArg },
    /// `memory.atomic.wait32`
    MemoryAtomicWait32 { /** The memory argument. */ memarg: MemArg },
    /// `memory.atomic.wait64`
    MemoryAtomicWait64 { /** The memory argument. */ memarg: MemArg },
    /// `atomic.fence`
    AtomicFence { /** The memory ordering. */ ordering: Ordering },
    /// `i32.atomic.load`
    I32AtomicLoad { /** The memory argument. */ memarg: MemArg },
    /// `i64.atomic.load`
    I64AtomicLoad { /** The memory argument. */ memarg: MemArg },
    /// `i32.atomic.load8_u`
    I32AtomicLoad8U { /** The memory argument. */ memarg: MemArg },
    /// `i32.atomic.load16_u`
    I32AtomicLoad16U { /** The memory argument. */ memarg: MemArg },
    /// `i64.atomic.load8_u`
    I64AtomicLoad8U { /** The memory argument. */ memarg: MemArg },
    /// `i64.atomic.load16_u`
    I64AtomicLoad16U { /** The memory argument. */ memarg: MemArg },
    /// `i64.atomic.load32_u`
    I64AtomicLoad32U { /** The memory argument. */ memarg: MemArg },
    /// `i32.atomic.store`
    I32AtomicStore { /** The memory argument. */ memarg: MemArg },
    /// `i64.atomic.store`
    I64AtomicStore { /** The memory argument. */ memarg: MemArg },
    /// `i32.atomic.store8`
    I32AtomicStore8 { /** The memory argument. */ memarg: MemArg },
    /// `i32.atomic.store16`
    I32AtomicStore16 { /** The memory argument. */ memarg: MemArg },
    /// `i64.atomic.store8`
    I64AtomicStore8 { /** The memory argument. */ memarg: MemArg },
    /// `i64.atomic.store16`
    I64AtomicStore16 { /** The memory argument. */ memarg: MemArg },
    /// `i64.atomic.store32`
    I64AtomicStore32 { /** The memory argument. */ memarg: MemArg },
    /// `i32.atomic.rmw.add`
    I32AtomicRmwAdd { /** The memory argument. */ memarg: MemArg },
    /// `i64.atomic.rmw.add`
    I64AtomicRmwAdd { /** The memory argument. */ memarg: MemArg },
    /// `i32.atomic.rmw8.add_u`
    I32AtomicRmw8AddU { /** The memory argument. */ memarg: MemArg },
    /// `i32.atomic.rmw16.add_u`
    I32AtomicRmw16AddU { /** The memory argument. */ memarg: MemArg },
    /// `i64.atomic.rmw8.add_u`
    I64AtomicRmw8AddU { /** The memory argument. */ memarg: MemArg },
    /// `i64.atomic.rmw16.add_u`
    I64AtomicRmw16AddU { /** The memory argument. */ memarg: MemArg },
    /// `i64.atomic.rmw32.add_u`
    I64AtomicRmw32AddU { /** The memory argument. */ memarg: MemArg },
    /// `i32.atomic.rmw.sub`
    I32AtomicRmwSub { /** The memory argument. */ memarg: MemArg },
    /// `i64.atomic.rmw.sub`
    I64AtomicRmwSub { /** The memory argument. */ memarg: MemArg },
    /// `i32.atomic.rmw8.sub_u`
    I32AtomicRmw8SubU { /** The memory argument. */ memarg: MemArg },
    /// `i32.atomic.rmw16.sub_u`
    I32AtomicRmw16SubU { /** The memory argument. */ memarg: MemArg },
    /// `i64.atomic.rmw8.sub_u`
    I64AtomicRmw8SubU { /** The memory argument. */ memarg: MemArg },
    /// `i64.atomic.rmw16.sub_u`
    I64AtomicRmw16SubU { /** The memory argument. */ memarg: MemArg },
    /// `i64.atomic.rmw32.sub_u`
    I64AtomicRmw32SubU { /** The memory argument. */ memarg: MemArg },
    /// `i32.atomic.rmw.and`
    I32AtomicRmwAnd { /** The memory argument. */ memarg: MemArg },
    /// `i64.atomic.rmw.and`
    I64AtomicRmwAnd { /** The memory argument. */ memarg: MemArg },
    /// `i32.atomic.rmw8.and_u`
    I32AtomicRmw8AndU { /** The memory argument. */ memarg: MemArg },
    /// `i32.atomic.rmw16.and_u`
    I32AtomicRmw16AndU { /** The memory argument. */ memarg: MemArg },
    /// `i64.atomic.rmw8.and_u`
    I64AtomicRmw8AndU { /** The memory argument. */ memarg: MemArg },
    /// `i64.atomic.rmw16.and_u`
    I64AtomicRmw16AndU { /** The memory argument. */ memarg: MemArg },
    /// `i64.atomic.rmw32.and_u`
    I64AtomicRmw32AndU { /** The memory argument. */ memarg: MemArg },
    /// `i32.atomic.rmw.or`
    I32AtomicRmwOr { /** The memory argument. */ memarg: MemArg },
    /// `i64.atomic.rmw.or`
    I64AtomicRmwOr { /** The memory argument. */ memarg: MemArg },
    /// `i32.atomic.rmw8.or_u`
    I32AtomicRmw8OrU { /** The memory argument. */ memarg: MemArg },
    /// `i32.atomic.rmw16.or_u`
    I32AtomicRmw16OrU { /** The memory argument. */ memarg: MemArg },
    /// `i64.atomic.rmw8.or_u`
    I64AtomicRmw8OrU { /** The memory argument. */ memarg: MemArg },
    /// `i64.atomic.rmw16.or_u`
    I64AtomicRmw16OrU { /** The memory argument. */ memarg: MemArg },
    /// `i64.atomic.rmw32.or_u`
    I64AtomicRmw32OrU { /** The memory argument. */ memarg: MemArg },
    /// `i32.atomic.rmw.xor`
    I32AtomicRmwXor { /** The memory argument. */ memarg: MemArg },
    /// `i64.atomic.rmw.xor`
    I64AtomicRmwXor { /** The memory argument. */ memarg: MemArg },
    /// `i32.atomic.rmw8.xor_u`
    I32AtomicRmw8XorU { /** The memory argument. */ memarg: MemArg },
    /// `i32.atomic.rmw16.xor_u`
    I32AtomicRmw16XorU { /** The memory argument. */ memarg: MemArg },
    /// `i64.atomic.rmw8.xor_u`
    I64AtomicRmw8XorU { /** The memory argument. */ memarg: MemArg },
    /// `i64.atomic.rmw16.xor_u`
    I64AtomicRmw16XorU { /** The memory argument. */ memarg: MemArg },
    /// `i64.atomic.rmw32.xor_u`
    I64AtomicRmw32XorU { /** The memory argument. */ memarg: MemArg },
    /// `i32.atomic.rmw.xchg`
    I32AtomicRmwXchg { /** The memory argument. */ memarg: MemArg },
    /// `i64.atomic.rmw.xchg`
    I64AtomicRmwXchg { /** The memory argument. */ memarg: MemArg },
    /// `i32.atomic.rmw8.xchg_u`
    I32AtomicRmw8XchgU { /** The memory argument. */ memarg: MemArg },
    /// `i32.atomic.rmw16.xchg_u`
    I32AtomicRmw16XchgU { /** The memory argument. */ memarg: MemArg },
    /// `i64.atomic.rmw8.xchg_u`
    I64AtomicRmw8XchgU { /** The memory argument. */ memarg: MemArg },
    /// `i64.atomic.rmw16.xchg_u`
    I64AtomicRmw16XchgU { /** The memory argument. */ memarg: MemArg },
    /// `i64.atomic.rmw32.xchg_u`
    I64AtomicRmw32XchgU { /** The memory argument. */ memarg: MemArg },
    /// `i32.atomic.rmw.cmpxchg`
    I32AtomicRmwCmpxchg { /** The memory argument. */ memarg: MemArg },
    /// `i64.atomic.rmw.cmpxchg`
    I64AtomicRmwCmpxchg { /** The memory argument. */ memarg: MemArg },
    /// `i32.atomic.rmw8.cmpxchg_u`
    I32AtomicRmw8CmpxchgU { /** The memory argument. */ memarg: MemArg },
    /// `i32.atomic.rmw16.cmpxchg_u`
    I32AtomicRmw16CmpxchgU { /** The memory argument. */ memarg: MemArg },
    /// `i64.atomic.rmw8.cmpxchg_u`
    I64AtomicRmw8CmpxchgU { /** The memory argument. */ memarg: MemArg },
    /// `i64.atomic.rmw16.cmpxchg_u`
    I64AtomicRmw16CmpxchgU { /** The memory argument. */ memarg: MemArg },
    /// `i64.atomic.rmw32.cmpxchg_u`
    I64AtomicRmw32CmpxchgU { /** The memory argument. */ memarg: MemArg },
    /// `v128.load`
    V128Load { /** The memory argument. */ memarg: MemArg },
    /// `v128.load8x8_s`
    V128Load8x8S { /** The memory argument. */ memarg: MemArg },
    /// `v128.load8x8_u`
    V128Load8x8U { /** The memory argument. */ memarg: MemArg },
    /// `v128.load16x4_s`
    V128Load16x4S { /** The memory argument. */ memarg: MemArg },
    /// `v128.load16x4_u`
    V128Load16x4U { /** The memory argument. */ memarg: MemArg },
    /// `v128.load32x2_s`
    V128Load32x2S { /** The memory argument. */ memarg: MemArg },
    /// `v128.load32x2_u`
    V128Load32x2U { /** The memory argument. */ memarg: MemArg },
    /// `v128.load8_splat`
    V128Load8Splat { /** The memory argument. */ memarg: MemArg },
    /// `v128.load16_splat`
    V128Load16Splat { /** The memory argument. */ memarg: MemArg },
    /// `v128.load32_splat`
    V128Load32Splat { /** The memory argument. */ memarg: MemArg },
    /// `v128.load64_splat`
    V128Load64Splat { /** The memory argument. */ memarg: MemArg },
    /// `v128.load32_zero`
    V128Load32Zero { /** The memory argument. */ memarg: MemArg },
    /// `v128.load64_zero`
    V128Load64Zero { /** The memory argument. */ memarg: MemArg },
    /// `v128.store`
    V128Store { /** The memory argument. */ memarg: MemArg },
    /// `v128.load8_lane`
    V128Load8Lane { /** The memory argument. */ memarg: MemArg, /** The index of the lane. */ lane: u8 },
    /// `v128.load16_lane`
    V128Load16Lane { /** The memory argument. */ memarg: MemArg, /** The index of the lane. */ lane: u8 },
    /// `v128.load32_lane`
    V128Load32Lane { /** The memory argument. */ memarg: MemArg, /** The index of the lane. */ lane: u8 },
    /// `v128.load64_lane`
    V128Load64Lane { /** The memory argument. */ memarg: MemArg, /** The index of the lane. */ lane: u8 },
    /// `v128.store8_lane`
    V128Store8Lane { /** The memory argument. */ memarg: MemArg, /** The index of the lane. */ lane: u8 },
    /// `v128.store16_lane`
    V128Store16Lane { /** The memory argument. */ memarg: MemArg, /** The index of the lane. */ lane: u8 },
    /// `v128.store32_lane`
    V128Store32Lane { /** The memory argument. */ memarg: MemArg, /** The index of the lane. */ lane: u8 },
    /// `v128.store64_lane`
    V128Store64Lane { /** The memory argument. */ memarg: MemArg, /** The index of the lane. */ lane: u8 },
    /// `v128.const`
    V128Const { /** The constant. */ value: V128 },
    /// `i8x16.shuffle`
    I8x16Shuffle { /** The index of the lane of both operands for each lane of the result. */ lanes: [u8; 16] },
    /// `i8x16.extract_lane_s`
    I8x16ExtractLaneS { /** The index of the lane. */ lane: u8 },
    /// `i8x16.extract_lane_u`
    I8x16ExtractLaneU { /** The index of the lane. */ lane: u8 },
    /// `i8x16.replace_lane`
    I8x16ReplaceLane { /** The index of the lane. */ lane: u8 },
    /// `i16x8.extract_lane_s`
    I16x8ExtractLaneS { /** The index of the lane. */ lane: u8 },
    /// `i16x8.extract_lane_u`
    I16x8ExtractLaneU { /** The index of the lane. */ lane: u8 },
    /// `i16x8.replace_lane`
    I16x8ReplaceLane { /** The index of the lane. */ lane: u8 },
    /// `i32x4.extract_lane`
    I32x4ExtractLane { /** The index of the lane. */ lane: u8 },
    /// `i32x4.replace_lane`
    I32x4ReplaceLane { /** The index of the lane. */ lane: u8 },
    /// `i64x2.extract_lane`
    I64x2ExtractLane { /** The index of the lane. */ lane: u8 },
    /// `i64x2.replace_lane`
    I64x2ReplaceLane { /** The index of the lane. */ lane: u8 },
    /// `f32x4.extract_lane`
    F32x4ExtractLane { /** The index of the lane. */ lane: u8 },
    /// `f32x4.replace_lane`
    F32x4ReplaceLane { /** The index of the lane. */ lane: u8 },
    /// `f64x2.extract_lane`
    F64x2ExtractLane { /** The index of the lane. */ lane: u8 },
    /// `f64x2.replace_lane`
    F64x2ReplaceLane { /** The index of the lane. */ lane: u8 },
    /// `i8x16.swizzle`
    I8x16Swizzle,
    /// `i8x16.splat`
    I8x16Splat,
    /// `i16x8.splat`
    I16x8Splat,
    /// `i32x4.splat`
    I32x4Splat,
    /// `i64x2.splat`
    I64x2Splat,
    /// `f32x4.splat`
    F32x4Splat,
    /// `f64x2.splat`
    F64x2Splat,
    /// `i8x16.eq`
    I8x16Eq,
    /// `i8x16.ne`
    I8x16Ne,
    /// `i8x16.lt_s`
    I8x16LtS,
    /// `i8x16.lt_u`
    I8x16LtU,
    /// `i8x16.gt_s`
    I8x16GtS,
    /// `i8x16.gt_u`
    I8x16GtU,
    /// `i8x16.le_s`
    I8x16LeS,
    /// `i8x16.le_u`
    I8x16LeU,
    /// `i8x16.ge_s`
    I8x16GeS,
    /// `i8x16.ge_u`
    I8x16GeU,
    /// `i16x8.eq`
    I16x8Eq,
    /// `i16x8.ne`
    I16x8Ne,
    /// `i16x8.lt_s`
    I16x8LtS,
    /// `i16x8.lt_u`
    I16x8LtU,
    /// `i16x8.gt_s`
    I16x8GtS,
    /// `i16x8.gt_u`
    I16x8GtU,
    /// `i16x8.le_s`
    I16x8LeS,
    /// `i16x8.le_u`
    I16x8LeU,
    /// `i16x8.ge_s`
    I16x8GeS,
    /// `i16x8.ge_u`
    I16x8GeU,
    /// `i32x4.eq`
    I32x4Eq,
    /// `i32x4.ne`
    I32x4Ne,
    /// `i32x4.lt_s`
    I32x4LtS,
    /// `i32x4.lt_u`
    I32x4LtU,
    /// `i32x4.gt_s`
    I32x4GtS,
    /// `i32x4.gt_u`
    I32x4GtU,
    /// `i32x4.le_s`
    I32x4LeS,
    /// `i32x4.le_u`
    I32x4LeU,
    /// `i32x4.ge_s`
    I32x4GeS,
    /// `i32x4.ge_u`
    I32x4GeU,
    /// `i64x2.eq`
    I64x2Eq,
    /// `i64x2.ne`
    I64x2Ne,
    /// `i64x2.lt_s`
    I64x2LtS,
    /// `i64x2.gt_s`
    I64x2GtS,
    /// `i64x2.le_s`
    I64x2LeS,
    /// `i64x2.ge_s`
    I64x2GeS,
    /// `f32x4.eq`
    F32x4Eq,
    /// `f32x4.ne`
    F32x4Ne,
    /// `f32x4.lt`
    F32x4Lt,
    /// `f32x4.gt`
    F32x4Gt,
    /// `f32x4.le`
    F32x4Le,
    /// `f32x4.ge`
    F32x4Ge,
    /// `f64x2.eq`
    F64x2Eq,
    /// `f64x2.ne`
    F64x2Ne,
    /// `f64x2.lt`
    F64x2Lt,
    /// `f64x2.gt`
    F64x2Gt,
    /// `f64x2.le`
    F64x2Le,
    /// `f64x2.ge`
    F64x2Ge,
    /// `v128.not`
    V128Not,
    /// `v128.and`
    V128And,
    /// `v128.andnot`
    V128AndNot,
    /// `v128.or`
    V128Or,
    /// `v128.xor`
    V128Xor,
    /// `v128.bitselect`
    V128Bitselect,
    /// `v128.any_true`
    V128AnyTrue,
    /// `i8x16.abs`
    I8x16Abs,
    /// `i8x16.neg`
    I8x16Neg,
    /// `i8x16.popcnt`
    I8x16Popcnt,
    /// `i8x16.all_true`
    I8x16AllTrue,
    /// `i8x16.bitmask`
    I8x16Bitmask,
    /// `i8x16.narrow_i16x8_s`
    I8x16NarrowI16x8S,
    /// `i8x16.narrow_i16x8_u`
    I8x16NarrowI16x8U,
    /// `i8x16.shl`
    I8x16Shl,
    /// `i8x16.shr_s`
    I8x16ShrS,
    /// `i8x16.shr_u`
    I8x16ShrU,
    /// `i8x16.add`
    I8x16Add,
    /// `i8x16.add_sat_s`
    I8x16AddSatS,
    /// `i8x16.add_sat_u`
    I8x16AddSatU,
    /// `i8x16.sub`
    I8x16Sub,
    /// `i8x16.sub_sat_s`
    I8x16SubSatS,
    /// `i8x16.sub_sat_u`
    I8x16SubSatU,
    /// `i8x16.min_s`
    I8x16MinS,
    /// `i8x16.min_u`
    I8x16MinU,
    /// `i8x16.max_s`
    I8x16MaxS,
    /// `i8x16.max_u`
    I8x16MaxU,
    /// `i8x16.avgr_u`
    I8x16AvgrU,
    /// `i16x8.extadd_pairwise_i8x16_s`
    I16x8ExtAddPairwiseI8x16S,
    /// `i16x8.extadd_pairwise_i8x16_u`
    I16x8ExtAddPairwiseI8x16U,
    /// `i16x8.abs`
    I16x8Abs,
    /// `i16x8.neg`
    I16x8Neg,
    /// `i16x8.q15mulr_sat_s`
    I16x8Q15MulrSatS,
    /// `i16x8.all_true`
    I16x8AllTrue,
    /// `i16x8.bitmask`
    I16x8Bitmask,
    /// `i16x8.narrow_i32x4_s`
    I16x8NarrowI32x4S,
    /// `i16x8.narrow_i32x4_u`
    I16x8NarrowI32x4U,
    /// `i16x8.extend_low_i8x16_s`
    I16x8ExtendLowI8x16S,
    /// `i16x8.extend_high_i8x16_s`
    I16x8ExtendHighI8x16S,
    /// `i16x8.extend_low_i8x16_u`
    I16x8ExtendLowI8x16U,
    /// `i16x8.extend_high_i8x16_u`
    I16x8ExtendHighI8x16U,
    /// `i16x8.shl`
    I16x8Shl,
    /// `i16x8.shr_s`
    I16x8ShrS,
    /// `i16x8.shr_u`
    I16x8ShrU,
    /// `i16x8.add`
    I16x8Add,
    /// `i16x8.add_sat_s`
    I16x8AddSatS,
    /// `i16x8.add_sat_u`
    I16x8AddSatU,
    /// `i16x8.sub`
    I16x8Sub,
    /// `i16x8.sub_sat_s`
    I16x8SubSatS,
    /// `i16x8.sub_sat_u`
    I16x8SubSatU,
    /// `i16x8.mul`
    I16x8Mul,
    /// `i16x8.min_s`
    I16x8MinS,
    /// `i16x8.min_u`
    I16x8MinU,
    /// `i16x8.max_s`
    I16x8MaxS,
    /// `i16x8.max_u`
    I16x8MaxU,
    /// `i16x8.avgr_u`
    I16x8AvgrU,
    /// `i16x8.extmul_low_i8x16_s`
    I16x8ExtMulLowI8x16S,
    /// `i16x8.extmul_high_i8x16_s`
    I16x8ExtMulHighI8x16S,
    /// `i16x8.extmul_low_i8x16_u`
    I16x8ExtMulLowI8x16U,
    /// `i16x8.extmul_high_i8x16_u`
    I16x8ExtMulHighI8x16U,
    /// `i32x4.extadd_pairwise_i16x8_s`
    I32x4ExtAddPairwiseI16x8S,
    /// `i32x4.extadd_pairwise_i16x8_u`
    I32x4ExtAddPairwiseI16x8U,
    /// `i32x4.abs`
    I32x4Abs,
    /// `i32x4.neg`
    I32x4Neg,
    /// `i32x4.all_true`
    I32x4AllTrue,
    /// `i32x4.bitmask`
    I32x4Bitmask,
    /// `i32x4.extend_low_i16x8_s`
    I32x4ExtendLowI16x8S,
    /// `i32x4.extend_high_i16x8_s`
    I32x4ExtendHighI16x8S,
    /// `i32x4.extend_low_i16x8_u`
    I32x4ExtendLowI16x8U,
    /// `i32x4.extend_high_i16x8_u`
    I32x4ExtendHighI16x8U,
    /// `i32x4.shl`
    I32x4Shl,
    /// `i32x4.shr_s`
    I32x4ShrS,
    /// `i32x4.shr_u`
    I32x4ShrU,
    /// `i32x4.add`
    I32x4Add,
    /// `i32x4.sub`
    I32x4Sub,
    /// `i32x4.mul`
    I32x4Mul,
    /// `i32x4.min_s`
    I32x4MinS,
    /// `i32x4.min_u`
    I32x4MinU,
    /// `i32x4.max_s`
    I32x4MaxS,
    /// `i32x4.max_u`
    I32x4MaxU,
    /// `i32x4.dot_i16x8_s`
    I32x4DotI16x8S,
    /// `i32x4.extmul_low_i16x8_s`
    I32x4ExtMulLowI16x8S,
    /// `i32x4.extmul_high_i16x8_s`
    I32x4ExtMulHighI16x8S,
    /// `i32x4.extmul_low_i16x8_u`
    I32x4ExtMulLowI16x8U,
    /// `i32x4.extmul_high_i16x8_u`
    I32x4ExtMulHighI16x8U,
    /// `i64x2.abs`
    I64x2Abs,
    /// `i64x2.neg`
    I64x2Neg,
    /// `i64x2.all_true`
    I64x2AllTrue,
    /// `i64x2.bitmask`
    I64x2Bitmask,
    /// `i64x2.extend_low_i32x4_s`
    I64x2ExtendLowI32x4S,
    /// `i64x2.extend_high_i32x4_s`
    I64x2ExtendHighI32x4S,
    /// `i64x2.extend_low_i32x4_u`
    I64x2ExtendLowI32x4U,
    /// `i64x2.extend_high_i32x4_u`
    I64x2ExtendHighI32x4U,
    /// `i64x2.shl`
    I64x2Shl,
    /// `i64x2.shr_s`
    I64x2ShrS,
    /// `i64x2.shr_u`
    I64x2ShrU,
    /// `i64x2.add`
    I64x2Add,
    /// `i64x2.sub`
    I64x2Sub,
    /// `i64x2.mul`
    I64x2Mul,
    /// `i64x2.extmul_low_i32x4_s`
    I64x2ExtMulLowI32x4S,
    /// `i64x2.extmul_high_i32x4_s`
    I64x2ExtMulHighI32x4S,
    /// `i64x2.extmul_low_i32x4_u`
    I64x2ExtMulLowI32x4U,
    /// `i64x2.extmul_high_i32x4_u`
    I64x2ExtMulHighI32x4U,
    /// `f32x4.ceil`
    F32x4Ceil,
    /// `f32x4.floor`
    F32x4Floor,
    /// `f32x4.trunc`
    F32x4Trunc,
    /// `f32x4.nearest`
    F32x4Nearest,
    /// `f32x4.abs`
    F32x4Abs,
    /// `f32x4.neg`
    F32x4Neg,
    /// `f32x4.sqrt`
    F32x4Sqrt,
    /// `f32x4.add`
    F32x4Add,
    /// `f32x4.sub`
    F32x4Sub,
    /// `f32x4.mul`
    F32x4Mul,
    /// `f32x4.div`
    F32x4Div,
    /// `f32x4.min`
    F32x4Min,
    /// `f32x4.max`
    F32x4Max,
    /// `f32x4.pmin`
    F32x4PMin,
    /// `f32x4.pmax`
    F32x4PMax,
    /// `f64x2.ceil`
    F64x2Ceil,
    /// `f64x2.floor`
    F64x2Floor,
    /// `f64x2.trunc`
    F64x2Trunc,
    /// `f64x2.nearest`
    F64x2Nearest,
    /// `f64x2.abs`
    F64x2Abs,
    /// `f64x2.neg`
    F64x2Neg,
    /// `f64x2.sqrt`
    F64x2Sqrt,
    /// `f64x2.add`
    F64x2Add,
    /// `f64x2.sub`
    F64x2Sub,
    /// `f64x2.mul`
    F64x2Mul,
    /// `f64x2.div`
    F64x2Div,
    /// `f64x2.min`
    F64x2Min,
    /// `f64x2.max`
    F64x2Max,
    /// `f64x2.pmin`
    F64x2PMin,
    /// `f64x2.pmax`
    F64x2PMax,
    /// `i32x4.trunc_sat_f32x4_s`
    I32x4TruncSatF32x4S,
    /// `i32x4.trunc_sat_f32x4_u`
    I32x4TruncSatF32x4U,
    /// `f32x4.convert_i32x4_s`
    F32x4ConvertI32x4S,
    /// `f32x4.convert_i32x4_u`
    F32x4ConvertI32x4U,
    /// `i32x4.trunc_sat_f64x2_s_zero`
    I32x4TruncSatF64x2SZero,
    /// `i32x4.trunc_sat_f64x2_u_zero`
    I32x4TruncSatF64x2UZero,
    /// `f64x2.convert_low_i32x4_s`
    F64x2ConvertLowI32x4S,
    /// `f64x2.convert_low_i32x4_u`
    F64x2ConvertLowI32x4U,
    /// `f32x4.demote_f64x2_zero`
    F32x4DemoteF64x2Zero,
    /// `f64x2.promote_low_f32x4`
    F64x2PromoteLowF32x4,
    /// `i8x16.relaxed_swizzle`
    I8x16RelaxedSwizzle,
    /// `i32x4.relaxed_trunc_f32x4_s`
    I32x4RelaxedTruncF32x4S,
    /// `i32x4.relaxed_trunc_f32x4_u`
    I32x4RelaxedTruncF32x4U,
    /// `i32x4.relaxed_trunc_f64x2_s_zero`
    I32x4RelaxedTruncF64x2SZero,
    /// `i32x4.relaxed_trunc_f64x2_u_zero`
    I32x4RelaxedTruncF64x2UZero,
    /// `f32x4.relaxed_madd`
    F32x4RelaxedMadd,
    /// `f32x4.relaxed_nmadd`
    F32x4RelaxedNmadd,
    /// `f64x2.relaxed_madd`
    F64x2RelaxedMadd,
    /// `f64x2.relaxed_nmadd`
    F64x2RelaxedNmadd,
    /// `i8x16.relaxed_laneselect`
    I8x16RelaxedLaneselect,
    /// `i16x8.relaxed_laneselect`
    I16x8RelaxedLaneselect,
    /// `i32x4.relaxed_laneselect`
    I32x4RelaxedLaneselect,
    /// `i64x2.relaxed_laneselect`
    I64x2RelaxedLaneselect,
    /// `f32x4.relaxed_min`
    F32x4RelaxedMin,
    /// `f32x4.relaxed_max`
    F32x4RelaxedMax,
    /// `f64x2.relaxed_min`
    F64x2RelaxedMin,
    /// `f64x2.relaxed_max`
    F64x2RelaxedMax,
    /// `i16x8.relaxed_q15mulr_s`
    I16x8RelaxedQ15mulrS,
    /// `i16x8.relaxed_dot_i8x16_i7x16_s`
    I16x8RelaxedDotI8x16I7x16S,
    /// `i32x4.relaxed_dot_i8x16_i7x16_add_s`
    I32x4RelaxedDotI8x16I7x16AddS,
    /// `try_table`
    TryTable { /** The type of the block and the clauses for exceptions. */ try_table: TryTable },
    /// `throw`
    Throw { /** The index of the tag. */ tag_index: u32 },
    /// `throw_ref`
    ThrowRef,
    /// `try`
    Try { /** The type of the block. */ blockty: BlockType },
    /// `catch`
    Catch { /** The index of the tag. */ tag_index: u32 },
    /// `rethrow`
    Rethrow { /** The label: how many open frames are further in. */ relative_depth: u32 },
    /// `delegate`
    Delegate { /** The label: how many open frames are further in. */ relative_depth: u32 },
    /// `catch_all`
    CatchAll,
    /// `global.atomic.get`
    GlobalAtomicGet { /** The memory ordering. */ ordering: Ordering, /** The index of the global. */ global_index: u32 },
    /// `global.atomic.set`
    GlobalAtomicSet { /** The memory ordering. */ ordering: Ordering, /** The index of the global. */ global_index: u32 },
    /// `global.atomic.rmw.add`
    GlobalAtomicRmwAdd { /** The memory ordering. */ ordering: Ordering, /** The index of the global. */ global_index: u32 },
    /// `global.atomic.rmw.sub`
    GlobalAtomicRmwSub { /** The memory ordering. */ ordering: Ordering, /** The index of the global. */ global_index: u32 },
    /// `global.atomic.rmw.and`
    GlobalAtomicRmwAnd { /** The memory ordering. */ ordering: Ordering, /** The index of the global. */ global_index: u32 },
    /// `global.atomic.rmw.or`
    GlobalAtomicRmwOr { /** The memory ordering. */ ordering: Ordering, /** The index of the global. */ global_index: u32 },
    /// `global.atomic.rmw.xor`
    GlobalAtomicRmwXor { /** The memory ordering. */ ordering: Ordering, /** The index of the global. */ global_index: u32 },
    /// `global.atomic.rmw.xchg`
    GlobalAtomicRmwXchg { /** The memory ordering. */ ordering: Ordering, /** The index of the global. */ global_index: u32 },
    /// `global.atomic.rmw.cmpxchg`
    GlobalAtomicRmwCmpxchg { /** The memory ordering. */ ordering: Ordering, /** The index of the global. */ global_index: u32 },
    /// `table.atomic.get`
    TableAtomicGet { /** The memory ordering. */ ordering: Ordering, /** The index of the table. */ table_index: u32 },
    /// `table.atomic.set`
    TableAtomicSet { /** The memory ordering. */ ordering: Ordering, /** The index of the table. */ table_index: u32 },
    /// `table.atomic.rmw.xchg`
    TableAtomicRmwXchg { /** The memory ordering. */ ordering: Ordering, /** The index of the table. */ table_index: u32 },
    /// `table.atomic.rmw.cmpxchg`
    TableAtomicRmwCmpxchg { /** The memory ordering. */ ordering: Ordering, /** The index of the table. */ table_index: u32 },
    /// `struct.atomic.get`
    StructAtomicGet { /** The memory ordering. */ ordering: Ordering, /** The index of the structure type. */ struct_type_index: u32, /** The index of the field. */ field_index: u32 },
    /// `struct.atomic.get_s`
    StructAtomicGetS { /** The memory ordering. */ ordering: Ordering, /** The index of the structure type. */ struct_type_index: u32, /** The index of the field. */ field_index: u32 },
    /// `struct.atomic.get_u`
    StructAtomicGetU { /** The memory ordering. */ ordering: Ordering, /** The index of the structure type. */ struct_type_index: u32, /** The index of the field. */ field_index: u32 },
    /// `struct.atomic.set`
    StructAtomicSet { /** The memory ordering. */ ordering: Ordering, /** The index of the structure type. */ struct_type_index: u32, /** The index of the field. */ field_index: u32 },
    /// `struct.atomic.rmw.add`
    StructAtomicRmwAdd { /** The memory ordering. */ ordering: Ordering, /** The index of the structure type. */ struct_type_index: u32, /** The index of the field. */ field_index: u32 },
    /// `struct.atomic.rmw.sub`
    StructAtomicRmwSub { /** The memory ordering. */ ordering: Ordering, /** The index of the structure type. */ struct_type_index: u32, /** The index of the field. */ field_index: u32 },
    /// `struct.atomic.rmw.and`
    StructAtomicRmwAnd { /** The memory ordering. */ ordering: Ordering, /** The index of the structure type. */ struct_type_index: u32, /** The index of the field. */ field_index: u32 },
    /// `struct.atomic.rmw.or`
    StructAtomicRmwOr { /** The memory ordering. */ ordering: Ordering, /** The index of the structure type. */ struct_type_index: u32, /** The index of the field. */ field_index: u32 },
    /// `struct.atomic.rmw.xor`
    StructAtomicRmwXor { /** The memory ordering. */ ordering: Ordering, /** The index of the structure type. */ struct_type_index: u32, /** The index of the field. */ field_index: u32 },
    /// `struct.atomic.rmw.xchg`
    StructAtomicRmwXchg { /** The memory ordering. */ ordering: Ordering, /** The index of the structure type. */ struct_type_index: u32, /** The index of the field. */ field_index: u32 },
    /// `struct.atomic.rmw.cmpxchg`
    StructAtomicRmwCmpxchg { /** The memory ordering. */ ordering: Ordering, /** The index of the structure type. */ struct_type_index: u32, /** The index of the field. */ field_index: u32 },
    /// `array.atomic.get`
    ArrayAtomicGet { /** The memory ordering. */ ordering: Ordering, /** The index of the array type. */ array_type_index: u32 },
    /// `array.atomic.get_s`
    ArrayAtomicGetS { /** The memory ordering. */ ordering: Ordering, /** The index of the array type. */ array_type_index: u32 },
    /// `array.atomic.get_u`
    ArrayAtomicGetU { /** The memory ordering. */ ordering: Ordering, /** The index of the array type. */ array_type_index: u32 },
    /// `array.atomic.set`
    ArrayAtomicSet { /** The memory ordering. */ ordering: Ordering, /** The index of the array type. */ array_type_index: u32 },
    /// `array.atomic.rmw.add`
    ArrayAtomicRmwAdd { /** The memory ordering. */ ordering: Ordering, /** The index of the array type. */ array_type_index: u32 },
    /// `array.atomic.rmw.sub`
    ArrayAtomicRmwSub { /** The memory ordering. */ ordering: Ordering, /** The index of the array type. */ array_type_index: u32 },
    /// `array.atomic.rmw.and`
    ArrayAtomicRmwAnd { /** The memory ordering. */ ordering: Ordering, /** The index of the array type. */ array_type_index: u32 },
    /// `array.atomic.rmw.or`
    ArrayAtomicRmwOr { /** The memory ordering. */ ordering: Ordering, /** The index of the array type. */ array_type_index: u32 },
    /// `array.atomic.rmw.xor`
    ArrayAtomicRmwXor { /** The memory ordering. */ ordering: Ordering, /** The index of the array type. */ array_type_index: u32 },
    /// `array.atomic.rmw.xchg`
    ArrayAtomicRmwXchg { /** The memory ordering. */ ordering: Ordering, /** The index of the array type. */ array_type_index: u32 },
    /// `array.atomic.rmw.cmpxchg`
    ArrayAtomicRmwCmpxchg { /** The memory ordering. */ ordering: Ordering, /** The index of the array type. */ array_type_index: u32 },
    /// `ref.i31_shared`
    RefI31Shared,
    /// `call_ref`
    CallRef { /** The index of the type. */ type_index: u32 },
    /// `return_call_ref`
    ReturnCallRef { /** The index of the type. */ type_index: u32 },
    /// `ref.as_non_null`
    RefAsNonNull,
    /// `br_on_null`
    BrOnNull { /** The label: how many open frames are further in. */ relative_depth: u32 },
    /// `br_on_non_null`
    BrOnNonNull { /** The label: how many open frames are further in. */ relative_depth: u32 },
    /// `cont.new`
    ContNew { /** The index of the continuation type. */ cont_type_index: u32 },
    /// `cont.bind`
    ContBind { /** The index of the old continuation type. */ argument_index: u32, /** The index of the new continuation type. */ result_index: u32 },
    /// `suspend`
    Suspend { /** The index of the tag. */ tag_index: u32 },
    /// `resume`
    Resume { /** The index of the continuation type. */ cont_type_index: u32, /** The clauses for suspensions. */ resume_table: ResumeTable },
    /// `resume_throw`
    ResumeThrow { /** The index of the continuation type. */ cont_type_index: u32, /** The index of the tag. */ tag_index: u32, /** The clauses for suspensions. */ resume_table: ResumeTable },
    /// `resume_throw_ref`
    ResumeThrowRef { /** The index of the continuation type. */ cont_type_index: u32, /** The clauses for suspensions. */ resume_table: ResumeTable },
    /// `switch`
    Switch { /** The index of the continuation type. */ cont_type_index: u32, /** The index of the tag. */ tag_index: u32 },
    /// `i64.add128`
    I64Add128,
    /// `i64.sub128`
    I64Sub128,
    /// `i64.mul_wide_s`
    I64MulWideS,
    /// `i64.mul_wide_u`
    I64MulWideU,
    /// `pause`
    Pause,
}

/// The rank of an opcode that no table has.
const NONE: u16 = 65535;

/// The ranks of opcodes of one byte: positions in one of the tables `small`, `memory` and `block`.
/// In eight bits, the compiler would take ranks above 127 for negative numbers, and see a gap.
#[rustfmt::skip]
static RANKS: [u16; 256] = [
    0, 1, 0, 1, 2, 2, 3, 155, 153, 156, 154, 3, 4, 5, NONE, 6,
    7, NONE, 152, NONE, 159, 160, NONE, NONE, 157, 158, 8, 9, NONE, NONE, NONE, NONE,
    10, 11, 12, 13, 14, 150, 151, NONE, 0, 1, 2, 3, 4, 5, 6, 7,
    8, 9, 10, 11, 12, 13, 14, 15, 16, 17, 18, 19, 20, 21, 22, 15,
    16, 17, NONE, 18, NONE, 19, 20, 21, 22, 23, 24, 25, 26, 27, 28, 29,
    30, 31, 32, 33, 34, 35, 36, 37, 38, 39, 40, 41, 42, 43, 44, 45,
    46, 47, 48, 49, 50, 51, 52, 53, 54, 55, 56, 57, 58, 59, 60, 61,
    62, 63, 64, 65, 66, 67, 68, 69, 70, 71, 72, 73, 74, 75, 76, 77,
    78, 79, 80, 81, 82, 83, 84, 85, 86, 87, 88, 89, 90, 91, 92, 93,
    94, 95, 96, 97, 98, 99, 100, 101, 102, 103, 104, 105, 106, 107, 108, 109,
    110, 111, 112, 113, 114, 115, 116, 117, 118, 119, 120, 121, 122, 123, 124, 125,
    126, 127, 128, 129, 130, 131, 132, 133, 134, 135, 136, 137, 138, 139, 140, 141,
    142, 143, 144, 145, 146, NONE, NONE, NONE, NONE, NONE, NONE, NONE, NONE, NONE, NONE, NONE,
    NONE, 148, 149, 147, 161, 162, 163, NONE, NONE, NONE, NONE, NONE, NONE, NONE, NONE, NONE,
    164, NONE, 165, NONE, NONE, NONE, NONE, NONE, NONE, NONE, NONE, NONE, NONE, NONE, NONE, NONE,
    NONE, NONE, NONE, NONE, NONE, NONE, NONE, NONE, NONE, NONE, NONE, NONE, NONE, NONE, NONE, NONE,
];

/// Converts the C struct of an operator of this source.
///
/// Operators of one table differ by a constant. As their ranks have no gaps, the compiler loads it from an array. A jump
/// by the opcode would be mispredicted.
#[inline]
#[rustfmt::skip]
pub(crate) fn operator_of<'a>(op: &PlainOperator, source: &Source<'a>) -> Operator<'a> {
    if let Some(&rank) = RANKS.get(op.opcode as usize) {
        match op.shape {
            0 | 1 | 6 | 8 => if let Some(operator) = small(op, rank) { return operator; },
            3 => if let Some(operator) = memory(op, rank) { return operator; },
            _ => {}
        }
    }
    of_next_shape(op, source)
}

/// Converts an operator of the table `small` by its rank.
#[inline(always)]
#[rustfmt::skip]
fn small<'a>(op: &PlainOperator, rank: u16) -> Option<Operator<'a>> {
    let value = op.first | op.wide as u32;
    Some(match rank {
        0 => Operator::Unreachable,
        1 => Operator::Nop,
        2 => Operator::Else,
        3 => Operator::End,
        4 => Operator::Br { relative_depth: value },
        5 => Operator::BrIf { relative_depth: value },
        6 => Operator::Return,
        7 => Operator::Call { function_index: value },
        8 => Operator::Drop,
        9 => Operator::Select,
        10 => Operator::LocalGet { local_index: value },
        11 => Operator::LocalSet { local_index: value },
        12 => Operator::LocalTee { local_index: value },
        13 => Operator::GlobalGet { global_index: value },
        14 => Operator::GlobalSet { global_index: value },
        15 => Operator::MemorySize { mem: value },
        16 => Operator::MemoryGrow { mem: value },
        17 => Operator::I32Const { value: value as i32 },
        18 => Operator::F32Const { value: Ieee32(value) },
        19 => Operator::I32Eqz,
        20 => Operator::I32Eq,
        21 => Operator::I32Ne,
        22 => Operator::I32LtS,
        23 => Operator::I32LtU,
        24 => Operator::I32GtS,
        25 => Operator::I32GtU,
        26 => Operator::I32LeS,
        27 => Operator::I32LeU,
        28 => Operator::I32GeS,
        29 => Operator::I32GeU,
        30 => Operator::I64Eqz,
        31 => Operator::I64Eq,
        32 => Operator::I64Ne,
        33 => Operator::I64LtS,
        34 => Operator::I64LtU,
        35 => Operator::I64GtS,
        36 => Operator::I64GtU,
        37 => Operator::I64LeS,
        38 => Operator::I64LeU,
        39 => Operator::I64GeS,
        40 => Operator::I64GeU,
        41 => Operator::F32Eq,
        42 => Operator::F32Ne,
        43 => Operator::F32Lt,
        44 => Operator::F32Gt,
        45 => Operator::F32Le,
        46 => Operator::F32Ge,
        47 => Operator::F64Eq,
        48 => Operator::F64Ne,
        49 => Operator::F64Lt,
        50 => Operator::F64Gt,
        51 => Operator::F64Le,
        52 => Operator::F64Ge,
        53 => Operator::I32Clz,
        54 => Operator::I32Ctz,
        55 => Operator::I32Popcnt,
        56 => Operator::I32Add,
        57 => Operator::I32Sub,
        58 => Operator::I32Mul,
        59 => Operator::I32DivS,
        60 => Operator::I32DivU,
        61 => Operator::I32RemS,
        62 => Operator::I32RemU,
        63 => Operator::I32And,
        64 => Operator::I32Or,
        65 => Operator::I32Xor,
        66 => Operator::I32Shl,
        67 => Operator::I32ShrS,
        68 => Operator::I32ShrU,
        69 => Operator::I32Rotl,
        70 => Operator::I32Rotr,
        71 => Operator::I64Clz,
        72 => Operator::I64Ctz,
        73 => Operator::I64Popcnt,
        74 => Operator::I64Add,
        75 => Operator::I64Sub,
        76 => Operator::I64Mul,
        77 => Operator::I64DivS,
        78 => Operator::I64DivU,
        79 => Operator::I64RemS,
        80 => Operator::I64RemU,
        81 => Operator::I64And,
        82 => Operator::I64Or,
        83 => Operator::I64Xor,
        84 => Operator::I64Shl,
        85 => Operator::I64ShrS,
        86 => Operator::I64ShrU,
        87 => Operator::I64Rotl,
        88 => Operator::I64Rotr,
        89 => Operator::F32Abs,
        90 => Operator::F32Neg,
        91 => Operator::F32Ceil,
        92 => Operator::F32Floor,
        93 => Operator::F32Trunc,
        94 => Operator::F32Nearest,
        95 => Operator::F32Sqrt,
        96 => Operator::F32Add,
        97 => Operator::F32Sub,
        98 => Operator::F32Mul,
        99 => Operator::F32Div,
        100 => Operator::F32Min,
        101 => Operator::F32Max,
        102 => Operator::F32Copysign,
        103 => Operator::F64Abs,
        104 => Operator::F64Neg,
        105 => Operator::F64Ceil,
        106 => Operator::F64Floor,
        107 => Operator::F64Trunc,
        108 => Operator::F64Nearest,
        109 => Operator::F64Sqrt,
        110 => Operator::F64Add,
        111 => Operator::F64Sub,
        112 => Operator::F64Mul,
        113 => Operator::F64Div,
        114 => Operator::F64Min,
        115 => Operator::F64Max,
        116 => Operator::F64Copysign,
        117 => Operator::I32WrapI64,
        118 => Operator::I32TruncF32S,
        119 => Operator::I32TruncF32U,
        120 => Operator::I32TruncF64S,
        121 => Operator::I32TruncF64U,
        122 => Operator::I64ExtendI32S,
        123 => Operator::I64ExtendI32U,
        124 => Operator::I64TruncF32S,
        125 => Operator::I64TruncF32U,
        126 => Operator::I64TruncF64S,
        127 => Operator::I64TruncF64U,
        128 => Operator::F32ConvertI32S,
        129 => Operator::F32ConvertI32U,
        130 => Operator::F32ConvertI64S,
        131 => Operator::F32ConvertI64U,
        132 => Operator::F32DemoteF64,
        133 => Operator::F64ConvertI32S,
        134 => Operator::F64ConvertI32U,
        135 => Operator::F64ConvertI64S,
        136 => Operator::F64ConvertI64U,
        137 => Operator::F64PromoteF32,
        138 => Operator::I32ReinterpretF32,
        139 => Operator::I64ReinterpretF64,
        140 => Operator::F32ReinterpretI32,
        141 => Operator::F64ReinterpretI64,
        142 => Operator::I32Extend8S,
        143 => Operator::I32Extend16S,
        144 => Operator::I64Extend8S,
        145 => Operator::I64Extend16S,
        146 => Operator::I64Extend32S,
        147 => Operator::RefEq,
        148 => Operator::RefIsNull,
        149 => Operator::RefFunc { function_index: value },
        150 => Operator::TableGet { table: value },
        151 => Operator::TableSet { table: value },
        152 => Operator::ReturnCall { function_index: value },
        153 => Operator::Throw { tag_index: value },
        154 => Operator::ThrowRef,
        155 => Operator::Catch { tag_index: value },
        156 => Operator::Rethrow { relative_depth: value },
        157 => Operator::Delegate { relative_depth: value },
        158 => Operator::CatchAll,
        159 => Operator::CallRef { type_index: value },
        160 => Operator::ReturnCallRef { type_index: value },
        161 => Operator::RefAsNonNull,
        162 => Operator::BrOnNull { relative_depth: value },
        163 => Operator::BrOnNonNull { relative_depth: value },
        164 => Operator::ContNew { cont_type_index: value },
        165 => Operator::Suspend { tag_index: value },
        _ => return None,
    })
}

/// Converts an operator of the table `memory` by its rank.
#[inline(always)]
#[rustfmt::skip]
fn memory<'a>(op: &PlainOperator, rank: u16) -> Option<Operator<'a>> {
    let value = op.memory_argument();
    Some(match rank {
        0 => Operator::I32Load { memarg: value },
        1 => Operator::I64Load { memarg: value },
        2 => Operator::F32Load { memarg: value },
        3 => Operator::F64Load { memarg: value },
        4 => Operator::I32Load8S { memarg: value },
        5 => Operator::I32Load8U { memarg: value },
        6 => Operator::I32Load16S { memarg: value },
        7 => Operator::I32Load16U { memarg: value },
        8 => Operator::I64Load8S { memarg: value },
        9 => Operator::I64Load8U { memarg: value },
        10 => Operator::I64Load16S { memarg: value },
        11 => Operator::I64Load16U { memarg: value },
        12 => Operator::I64Load32S { memarg: value },
        13 => Operator::I64Load32U { memarg: value },
        14 => Operator::I32Store { memarg: value },
        15 => Operator::I64Store { memarg: value },
        16 => Operator::F32Store { memarg: value },
        17 => Operator::F64Store { memarg: value },
        18 => Operator::I32Store8 { memarg: value },
        19 => Operator::I32Store16 { memarg: value },
        20 => Operator::I64Store8 { memarg: value },
        21 => Operator::I64Store16 { memarg: value },
        22 => Operator::I64Store32 { memarg: value },
        _ => return None,
    })
}

/// Converts an operator of the table `block` by its rank.
#[inline(always)]
#[rustfmt::skip]
fn block<'a>(op: &PlainOperator, rank: u16) -> Option<Operator<'a>> {
    let value = op.block_type();
    Some(match rank {
        0 => Operator::Block { blockty: value },
        1 => Operator::Loop { blockty: value },
        2 => Operator::If { blockty: value },
        3 => Operator::Try { blockty: value },
        _ => return None,
    })
}

/// Converts an `i64.const`, a block or an operator of another shape.
#[inline(never)]
#[rustfmt::skip]
fn of_next_shape<'a>(op: &PlainOperator, source: &Source<'a>) -> Operator<'a> {
    match op.shape {
        7 => Operator::I64Const { value: op.wide as i64 },
        17 => block_of(op, source),
        _ => rare_operator_of(op, source),
    }
}

/// Converts a block.
#[inline(never)]
#[rustfmt::skip]
fn block_of<'a>(op: &PlainOperator, source: &Source<'a>) -> Operator<'a> {
    let rank = RANKS.get(op.opcode as usize);
    let found = rank.and_then(|&rank| block(op, rank));
    match found {
        Some(operator) => operator,
        None => rare_operator_of(op, source),
    }
}

/// Converts the C struct of any other operator.
#[inline(never)]
#[rustfmt::skip]
fn rare_operator_of<'a>(op: &PlainOperator, source: &Source<'a>) -> Operator<'a> {
    match op.opcode {
        0xe => Operator::BrTable { targets: BrTable::of(op, source) },
        0x11 => Operator::CallIndirect { type_index: op.first, table_index: op.second },
        0x44 => Operator::F64Const { value: Ieee64(op.wide) },
        0xfb0000 => Operator::StructNew { struct_type_index: op.first },
        0xfb0001 => Operator::StructNewDefault { struct_type_index: op.first },
        0xfb0002 => Operator::StructGet { struct_type_index: op.first, field_index: op.second },
        0xfb0003 => Operator::StructGetS { struct_type_index: op.first, field_index: op.second },
        0xfb0004 => Operator::StructGetU { struct_type_index: op.first, field_index: op.second },
        0xfb0005 => Operator::StructSet { struct_type_index: op.first, field_index: op.second },
        0xfb0006 => Operator::ArrayNew { array_type_index: op.first },
        0xfb0007 => Operator::ArrayNewDefault { array_type_index: op.first },
        0xfb0008 => Operator::ArrayNewFixed { array_type_index: op.first, array_size: op.second },
        0xfb0009 => Operator::ArrayNewData { array_type_index: op.first, array_data_index: op.second },
        0xfb000a => Operator::ArrayNewElem { array_type_index: op.first, array_elem_index: op.second },
        0xfb000b => Operator::ArrayGet { array_type_index: op.first },
        0xfb000c => Operator::ArrayGetS { array_type_index: op.first },
        0xfb000d => Operator::ArrayGetU { array_type_index: op.first },
        0xfb000e => Operator::ArraySet { array_type_index: op.first },
        0xfb000f => Operator::ArrayLen,
        0xfb0010 => Operator::ArrayFill { array_type_index: op.first },
        0xfb0011 => Operator::ArrayCopy { array_type_index_dst: op.first, array_type_index_src: op.second },
        0xfb0012 => Operator::ArrayInitData { array_type_index: op.first, array_data_index: op.second },
        0xfb0013 => Operator::ArrayInitElem { array_type_index: op.first, array_elem_index: op.second },
        0xfb0014 => Operator::RefTestNonNull { hty: heap_type(op.kind, op.first) },
        0xfb0015 => Operator::RefTestNullable { hty: heap_type(op.kind, op.first) },
        0xfb0016 => Operator::RefCastNonNull { hty: heap_type(op.kind, op.first) },
        0xfb0017 => Operator::RefCastNullable { hty: heap_type(op.kind, op.first) },
        0xfb0018 => Operator::BrOnCast { relative_depth: op.first, from_ref_type: ref_type(op.kind, op.second), to_ref_type: ref_type(op.other_kind, op.third) },
        0xfb0019 => Operator::BrOnCastFail { relative_depth: op.first, from_ref_type: ref_type(op.kind, op.second), to_ref_type: ref_type(op.other_kind, op.third) },
        0xfb001a => Operator::AnyConvertExtern,
        0xfb001b => Operator::ExternConvertAny,
        0xfb001c => Operator::RefI31,
        0xfb001d => Operator::I31GetS,
        0xfb001e => Operator::I31GetU,
        0xfb0020 => Operator::StructNewDesc { struct_type_index: op.first },
        0xfb0021 => Operator::StructNewDefaultDesc { struct_type_index: op.first },
        0xfb0022 => Operator::RefGetDesc { type_index: op.first },
        0xfb0023 => Operator::RefCastDescEqNonNull { hty: heap_type(op.kind, op.first) },
        0xfb0024 => Operator::RefCastDescEqNullable { hty: heap_type(op.kind, op.first) },
        0xfb0025 => Operator::BrOnCastDescEq { relative_depth: op.first, from_ref_type: ref_type(op.kind, op.second), to_ref_type: ref_type(op.other_kind, op.third) },
        0xfb0026 => Operator::BrOnCastDescEqFail { relative_depth: op.first, from_ref_type: ref_type(op.kind, op.second), to_ref_type: ref_type(op.other_kind, op.third) },
        0xfc0000 => Operator::I32TruncSatF32S,
        0xfc0001 => Operator::I32TruncSatF32U,
        0xfc0002 => Operator::I32TruncSatF64S,
        0xfc0003 => Operator::I32TruncSatF64U,
        0xfc0004 => Operator::I64TruncSatF32S,
        0xfc0005 => Operator::I64TruncSatF32U,
        0xfc0006 => Operator::I64TruncSatF64S,
        0xfc0007 => Operator::I64TruncSatF64U,
        0xfc0008 => Operator::MemoryInit { data_index: op.first, mem: op.second },
        0xfc0009 => Operator::DataDrop { data_index: op.first },
        0xfc000a => Operator::MemoryCopy { dst_mem: op.first, src_mem: op.second },
        0xfc000b => Operator::MemoryFill { mem: op.first },
        0xfc000c => Operator::TableInit { elem_index: op.first, table: op.second },
        0xfc000d => Operator::ElemDrop { elem_index: op.first },
        0xfc000e => Operator::TableCopy { dst_table: op.first, src_table: op.second },
        0x1c if op.shape == 19 => Operator::TypedSelect { ty: val_type(op.kind, op.first) },
        0x1c => Operator::TypedSelectMulti { tys: lists::select_types(op, source) },
        0xd0 => Operator::RefNull { hty: heap_type(op.kind, op.first) },
        0xfc0011 => Operator::TableFill { table: op.first },
        0xfc000f => Operator::TableGrow { table: op.first },
        0xfc0010 => Operator::TableSize { table: op.first },
        0x13 => Operator::ReturnCallIndirect { type_index: op.first, table_index: op.second },
        0xfc0012 => Operator::MemoryDiscard { mem: op.first },
        0xfe0000 => Operator::MemoryAtomicNotify { memarg: op.memory_argument() },
        0xfe0001 => Operator::MemoryAtomicWait32 { memarg: op.memory_argument() },
        0xfe0002 => Operator::MemoryAtomicWait64 { memarg: op.memory_argument() },
        0xfe0003 => Operator::AtomicFence { ordering: op.order() },
        0xfe0010 => Operator::I32AtomicLoad { memarg: op.memory_argument() },
        0xfe0011 => Operator::I64AtomicLoad { memarg: op.memory_argument() },
        0xfe0012 => Operator::I32AtomicLoad8U { memarg: op.memory_argument() },
        0xfe0013 => Operator::I32AtomicLoad16U { memarg: op.memory_argument() },
        0xfe0014 => Operator::I64AtomicLoad8U { memarg: op.memory_argument() },
        0xfe0015 => Operator::I64AtomicLoad16U { memarg: op.memory_argument() },
        0xfe0016 => Operator::I64AtomicLoad32U { memarg: op.memory_argument() },
        0xfe0017 => Operator::I32AtomicStore { memarg: op.memory_argument() },
        0xfe0018 => Operator::I64AtomicStore { memarg: op.memory_argument() },
        0xfe0019 => Operator::I32AtomicStore8 { memarg: op.memory_argument() },
        0xfe001a => Operator::I32AtomicStore16 { memarg: op.memory_argument() },
        0xfe001b => Operator::I64AtomicStore8 { memarg: op.memory_argument() },
        0xfe001c => Operator::I64AtomicStore16 { memarg: op.memory_argument() },
        0xfe001d => Operator::I64AtomicStore32 { memarg: op.memory_argument() },
        0xfe001e => Operator::I32AtomicRmwAdd { memarg: op.memory_argument() },
        0xfe001f => Operator::I64AtomicRmwAdd { memarg: op.memory_argument() },
        0xfe0020 => Operator::I32AtomicRmw8AddU { memarg: op.memory_argument() },
        0xfe0021 => Operator::I32AtomicRmw16AddU { memarg: op.memory_argument() },
        0xfe0022 => Operator::I64AtomicRmw8AddU { memarg: op.memory_argument() },
        0xfe0023 => Operator::I64AtomicRmw16AddU { memarg: op.memory_argument() },
        0xfe0024 => Operator::I64AtomicRmw32AddU { memarg: op.memory_argument() },
        0xfe0025 => Operator::I32AtomicRmwSub { memarg: op.memory_argument() },
        0xfe0026 => Operator::I64AtomicRmwSub { memarg: op.memory_argument() },
        0xfe0027 => Operator::I32AtomicRmw8SubU { memarg: op.memory_argument() },
        0xfe0028 => Operator::I32AtomicRmw16SubU { memarg: op.memory_argument() },
        0xfe0029 => Operator::I64AtomicRmw8SubU { memarg: op.memory_argument() },
        0xfe002a => Operator::I64AtomicRmw16SubU { memarg: op.memory_argument() },
        0xfe002b => Operator::I64AtomicRmw32SubU { memarg: op.memory_argument() },
        0xfe002c => Operator::I32AtomicRmwAnd { memarg: op.memory_argument() },
        0xfe002d => Operator::I64AtomicRmwAnd { memarg: op.memory_argument() },
        0xfe002e => Operator::I32AtomicRmw8AndU { memarg: op.memory_argument() },
        0xfe002f => Operator::I32AtomicRmw16AndU { memarg: op.memory_argument() },
        0xfe0030 => Operator::I64AtomicRmw8AndU { memarg: op.memory_argument() },
        0xfe0031 => Operator::I64AtomicRmw16AndU { memarg: op.memory_argument() },
        0xfe0032 => Operator::I64AtomicRmw32AndU { memarg: op.memory_argument() },
        0xfe0033 => Operator::I32AtomicRmwOr { memarg: op.memory_argument() },
        0xfe0034 => Operator::I64AtomicRmwOr { memarg: op.memory_argument() },
        0xfe0035 => Operator::I32AtomicRmw8OrU { memarg: op.memory_argument() },
        0xfe0036 => Operator::I32AtomicRmw16OrU { memarg: op.memory_argument() },
        0xfe0037 => Operator::I64AtomicRmw8OrU { memarg: op.memory_argument() },
        0xfe0038 => Operator::I64AtomicRmw16OrU { memarg: op.memory_argument() },
        0xfe0039 => Operator::I64AtomicRmw32OrU { memarg: op.memory_argument() },
        0xfe003a => Operator::I32AtomicRmwXor { memarg: op.memory_argument() },
        0xfe003b => Operator::I64AtomicRmwXor { memarg: op.memory_argument() },
        0xfe003c => Operator::I32AtomicRmw8XorU { memarg: op.memory_argument() },
        0xfe003d => Operator::I32AtomicRmw16XorU { memarg: op.memory_argument() },
        0xfe003e => Operator::I64AtomicRmw8XorU { memarg: op.memory_argument() },
        0xfe003f => Operator::I64AtomicRmw16XorU { memarg: op.memory_argument() },
        0xfe0040 => Operator::I64AtomicRmw32XorU { memarg: op.memory_argument() },
        0xfe0041 => Operator::I32AtomicRmwXchg { memarg: op.memory_argument() },
        0xfe0042 => Operator::I64AtomicRmwXchg { memarg: op.memory_argument() },
        0xfe0043 => Operator::I32AtomicRmw8XchgU { memarg: op.memory_argument() },
        0xfe0044 => Operator::I32AtomicRmw16XchgU { memarg: op.memory_argument() },
        0xfe0045 => Operator::I64AtomicRmw8XchgU { memarg: op.memory_argument() },
        0xfe0046 => Operator::I64AtomicRmw16XchgU { memarg: op.memory_argument() },
        0xfe0047 => Operator::I64AtomicRmw32XchgU { memarg: op.memory_argument() },
        0xfe0048 => Operator::I32AtomicRmwCmpxchg { memarg: op.memory_argument() },
        0xfe0049 => Operator::I64AtomicRmwCmpxchg { memarg: op.memory_argument() },
        0xfe004a => Operator::I32AtomicRmw8CmpxchgU { memarg: op.memory_argument() },
        0xfe004b => Operator::I32AtomicRmw16CmpxchgU { memarg: op.memory_argument() },
        0xfe004c => Operator::I64AtomicRmw8CmpxchgU { memarg: op.memory_argument() },
        0xfe004d => Operator::I64AtomicRmw16CmpxchgU { memarg: op.memory_argument() },
        0xfe004e => Operator::I64AtomicRmw32CmpxchgU { memarg: op.memory_argument() },
        0xfd0000 => Operator::V128Load { memarg: op.memory_argument() },
        0xfd0001 => Operator::V128Load8x8S { memarg: op.memory_argument() },
        0xfd0002 => Operator::V128Load8x8U { memarg: op.memory_argument() },
        0xfd0003 => Operator::V128Load16x4S { memarg: op.memory_argument() },
        0xfd0004 => Operator::V128Load16x4U { memarg: op.memory_argument() },
        0xfd0005 => Operator::V128Load32x2S { memarg: op.memory_argument() },
        0xfd0006 => Operator::V128Load32x2U { memarg: op.memory_argument() },
        0xfd0007 => Operator::V128Load8Splat { memarg: op.memory_argument() },
        0xfd0008 => Operator::V128Load16Splat { memarg: op.memory_argument() },
        0xfd0009 => Operator::V128Load32Splat { memarg: op.memory_argument() },
        0xfd000a => Operator::V128Load64Splat { memarg: op.memory_argument() },
        0xfd005c => Operator::V128Load32Zero { memarg: op.memory_argument() },
        0xfd005d => Operator::V128Load64Zero { memarg: op.memory_argument() },
        0xfd000b => Operator::V128Store { memarg: op.memory_argument() },
        0xfd0054 => Operator::V128Load8Lane { memarg: op.memory_argument(), lane: op.lane },
        0xfd0055 => Operator::V128Load16Lane { memarg: op.memory_argument(), lane: op.lane },
        0xfd0056 => Operator::V128Load32Lane { memarg: op.memory_argument(), lane: op.lane },
        0xfd0057 => Operator::V128Load64Lane { memarg: op.memory_argument(), lane: op.lane },
        0xfd0058 => Operator::V128Store8Lane { memarg: op.memory_argument(), lane: op.lane },
        0xfd0059 => Operator::V128Store16Lane { memarg: op.memory_argument(), lane: op.lane },
        0xfd005a => Operator::V128Store32Lane { memarg: op.memory_argument(), lane: op.lane },
        0xfd005b => Operator::V128Store64Lane { memarg: op.memory_argument(), lane: op.lane },
        0xfd000c => Operator::V128Const { value: V128(op.bytes) },
        0xfd000d => Operator::I8x16Shuffle { lanes: op.bytes },
        0xfd0015 => Operator::I8x16ExtractLaneS { lane: op.lane },
        0xfd0016 => Operator::I8x16ExtractLaneU { lane: op.lane },
        0xfd0017 => Operator::I8x16ReplaceLane { lane: op.lane },
        0xfd0018 => Operator::I16x8ExtractLaneS { lane: op.lane },
        0xfd0019 => Operator::I16x8ExtractLaneU { lane: op.lane },
        0xfd001a => Operator::I16x8ReplaceLane { lane: op.lane },
        0xfd001b => Operator::I32x4ExtractLane { lane: op.lane },
        0xfd001c => Operator::I32x4ReplaceLane { lane: op.lane },
        0xfd001d => Operator::I64x2ExtractLane { lane: op.lane },
        0xfd001e => Operator::I64x2ReplaceLane { lane: op.lane },
        0xfd001f => Operator::F32x4ExtractLane { lane: op.lane },
        0xfd0020 => Operator::F32x4ReplaceLane { lane: op.lane },
        0xfd0021 => Operator::F64x2ExtractLane { lane: op.lane },
        0xfd0022 => Operator::F64x2ReplaceLane { lane: op.lane },
        0xfd000e => Operator::I8x16Swizzle,
        0xfd000f => Operator::I8x16Splat,
        0xfd0010 => Operator::I16x8Splat,
        0xfd0011 => Operator::I32x4Splat,
        0xfd0012 => Operator::I64x2Splat,
        0xfd0013 => Operator::F32x4Splat,
        0xfd0014 => Operator::F64x2Splat,
        0xfd0023 => Operator::I8x16Eq,
        0xfd0024 => Operator::I8x16Ne,
        0xfd0025 => Operator::I8x16LtS,
        0xfd0026 => Operator::I8x16LtU,
        0xfd0027 => Operator::I8x16GtS,
        0xfd0028 => Operator::I8x16GtU,
        0xfd0029 => Operator::I8x16LeS,
        0xfd002a => Operator::I8x16LeU,
        0xfd002b => Operator::I8x16GeS,
        0xfd002c => Operator::I8x16GeU,
        0xfd002d => Operator::I16x8Eq,
        0xfd002e => Operator::I16x8Ne,
        0xfd002f => Operator::I16x8LtS,
        0xfd0030 => Operator::I16x8LtU,
        0xfd0031 => Operator::I16x8GtS,
        0xfd0032 => Operator::I16x8GtU,
        0xfd0033 => Operator::I16x8LeS,
        0xfd0034 => Operator::I16x8LeU,
        0xfd0035 => Operator::I16x8GeS,
        0xfd0036 => Operator::I16x8GeU,
        0xfd0037 => Operator::I32x4Eq,
        0xfd0038 => Operator::I32x4Ne,
        0xfd0039 => Operator::I32x4LtS,
        0xfd003a => Operator::I32x4LtU,
        0xfd003b => Operator::I32x4GtS,
        0xfd003c => Operator::I32x4GtU,
        0xfd003d => Operator::I32x4LeS,
        0xfd003e => Operator::I32x4LeU,
        0xfd003f => Operator::I32x4GeS,
        0xfd0040 => Operator::I32x4GeU,
        0xfd00d6 => Operator::I64x2Eq,
        0xfd00d7 => Operator::I64x2Ne,
        0xfd00d8 => Operator::I64x2LtS,
        0xfd00d9 => Operator::I64x2GtS,
        0xfd00da => Operator::I64x2LeS,
        0xfd00db => Operator::I64x2GeS,
        0xfd0041 => Operator::F32x4Eq,
        0xfd0042 => Operator::F32x4Ne,
        0xfd0043 => Operator::F32x4Lt,
        0xfd0044 => Operator::F32x4Gt,
        0xfd0045 => Operator::F32x4Le,
        0xfd0046 => Operator::F32x4Ge,
        0xfd0047 => Operator::F64x2Eq,
        0xfd0048 => Operator::F64x2Ne,
        0xfd0049 => Operator::F64x2Lt,
        0xfd004a => Operator::F64x2Gt,
        0xfd004b => Operator::F64x2Le,
        0xfd004c => Operator::F64x2Ge,
        0xfd004d => Operator::V128Not,
        0xfd004e => Operator::V128And,
        0xfd004f => Operator::V128AndNot,
        0xfd0050 => Operator::V128Or,
        0xfd0051 => Operator::V128Xor,
        0xfd0052 => Operator::V128Bitselect,
        0xfd0053 => Operator::V128AnyTrue,
        0xfd0060 => Operator::I8x16Abs,
        0xfd0061 => Operator::I8x16Neg,
        0xfd0062 => Operator::I8x16Popcnt,
        0xfd0063 => Operator::I8x16AllTrue,
        0xfd0064 => Operator::I8x16Bitmask,
        0xfd0065 => Operator::I8x16NarrowI16x8S,
        0xfd0066 => Operator::I8x16NarrowI16x8U,
        0xfd006b => Operator::I8x16Shl,
        0xfd006c => Operator::I8x16ShrS,
        0xfd006d => Operator::I8x16ShrU,
        0xfd006e => Operator::I8x16Add,
        0xfd006f => Operator::I8x16AddSatS,
        0xfd0070 => Operator::I8x16AddSatU,
        0xfd0071 => Operator::I8x16Sub,
        0xfd0072 => Operator::I8x16SubSatS,
        0xfd0073 => Operator::I8x16SubSatU,
        0xfd0076 => Operator::I8x16MinS,
        0xfd0077 => Operator::I8x16MinU,
        0xfd0078 => Operator::I8x16MaxS,
        0xfd0079 => Operator::I8x16MaxU,
        0xfd007b => Operator::I8x16AvgrU,
        0xfd007c => Operator::I16x8ExtAddPairwiseI8x16S,
        0xfd007d => Operator::I16x8ExtAddPairwiseI8x16U,
        0xfd0080 => Operator::I16x8Abs,
        0xfd0081 => Operator::I16x8Neg,
        0xfd0082 => Operator::I16x8Q15MulrSatS,
        0xfd0083 => Operator::I16x8AllTrue,
        0xfd0084 => Operator::I16x8Bitmask,
        0xfd0085 => Operator::I16x8NarrowI32x4S,
        0xfd0086 => Operator::I16x8NarrowI32x4U,
        0xfd0087 => Operator::I16x8ExtendLowI8x16S,
        0xfd0088 => Operator::I16x8ExtendHighI8x16S,
        0xfd0089 => Operator::I16x8ExtendLowI8x16U,
        0xfd008a => Operator::I16x8ExtendHighI8x16U,
        0xfd008b => Operator::I16x8Shl,
        0xfd008c => Operator::I16x8ShrS,
        0xfd008d => Operator::I16x8ShrU,
        0xfd008e => Operator::I16x8Add,
        0xfd008f => Operator::I16x8AddSatS,
        0xfd0090 => Operator::I16x8AddSatU,
        0xfd0091 => Operator::I16x8Sub,
        0xfd0092 => Operator::I16x8SubSatS,
        0xfd0093 => Operator::I16x8SubSatU,
        0xfd0095 => Operator::I16x8Mul,
        0xfd0096 => Operator::I16x8MinS,
        0xfd0097 => Operator::I16x8MinU,
        0xfd0098 => Operator::I16x8MaxS,
        0xfd0099 => Operator::I16x8MaxU,
        0xfd009b => Operator::I16x8AvgrU,
        0xfd009c => Operator::I16x8ExtMulLowI8x16S,
        0xfd009d => Operator::I16x8ExtMulHighI8x16S,
        0xfd009e => Operator::I16x8ExtMulLowI8x16U,
        0xfd009f => Operator::I16x8ExtMulHighI8x16U,
        0xfd007e => Operator::I32x4ExtAddPairwiseI16x8S,
        0xfd007f => Operator::I32x4ExtAddPairwiseI16x8U,
        0xfd00a0 => Operator::I32x4Abs,
        0xfd00a1 => Operator::I32x4Neg,
        0xfd00a3 => Operator::I32x4AllTrue,
        0xfd00a4 => Operator::I32x4Bitmask,
        0xfd00a7 => Operator::I32x4ExtendLowI16x8S,
        0xfd00a8 => Operator::I32x4ExtendHighI16x8S,
        0xfd00a9 => Operator::I32x4ExtendLowI16x8U,
        0xfd00aa => Operator::I32x4ExtendHighI16x8U,
        0xfd00ab => Operator::I32x4Shl,
        0xfd00ac => Operator::I32x4ShrS,
        0xfd00ad => Operator::I32x4ShrU,
        0xfd00ae => Operator::I32x4Add,
        0xfd00b1 => Operator::I32x4Sub,
        0xfd00b5 => Operator::I32x4Mul,
        0xfd00b6 => Operator::I32x4MinS,
        0xfd00b7 => Operator::I32x4MinU,
        0xfd00b8 => Operator::I32x4MaxS,
        0xfd00b9 => Operator::I32x4MaxU,
        0xfd00ba => Operator::I32x4DotI16x8S,
        0xfd00bc => Operator::I32x4ExtMulLowI16x8S,
        0xfd00bd => Operator::I32x4ExtMulHighI16x8S,
        0xfd00be => Operator::I32x4ExtMulLowI16x8U,
        0xfd00bf => Operator::I32x4ExtMulHighI16x8U,
        0xfd00c0 => Operator::I64x2Abs,
        0xfd00c1 => Operator::I64x2Neg,
        0xfd00c3 => Operator::I64x2AllTrue,
        0xfd00c4 => Operator::I64x2Bitmask,
        0xfd00c7 => Operator::I64x2ExtendLowI32x4S,
        0xfd00c8 => Operator::I64x2ExtendHighI32x4S,
        0xfd00c9 => Operator::I64x2ExtendLowI32x4U,
        0xfd00ca => Operator::I64x2ExtendHighI32x4U,
        0xfd00cb => Operator::I64x2Shl,
        0xfd00cc => Operator::I64x2ShrS,
        0xfd00cd => Operator::I64x2ShrU,
        0xfd00ce => Operator::I64x2Add,
        0xfd00d1 => Operator::I64x2Sub,
        0xfd00d5 => Operator::I64x2Mul,
        0xfd00dc => Operator::I64x2ExtMulLowI32x4S,
        0xfd00dd => Operator::I64x2ExtMulHighI32x4S,
        0xfd00de => Operator::I64x2ExtMulLowI32x4U,
        0xfd00df => Operator::I64x2ExtMulHighI32x4U,
        0xfd0067 => Operator::F32x4Ceil,
        0xfd0068 => Operator::F32x4Floor,
        0xfd0069 => Operator::F32x4Trunc,
        0xfd006a => Operator::F32x4Nearest,
        0xfd00e0 => Operator::F32x4Abs,
        0xfd00e1 => Operator::F32x4Neg,
        0xfd00e3 => Operator::F32x4Sqrt,
        0xfd00e4 => Operator::F32x4Add,
        0xfd00e5 => Operator::F32x4Sub,
        0xfd00e6 => Operator::F32x4Mul,
        0xfd00e7 => Operator::F32x4Div,
        0xfd00e8 => Operator::F32x4Min,
        0xfd00e9 => Operator::F32x4Max,
        0xfd00ea => Operator::F32x4PMin,
        0xfd00eb => Operator::F32x4PMax,
        0xfd0074 => Operator::F64x2Ceil,
        0xfd0075 => Operator::F64x2Floor,
        0xfd007a => Operator::F64x2Trunc,
        0xfd0094 => Operator::F64x2Nearest,
        0xfd00ec => Operator::F64x2Abs,
        0xfd00ed => Operator::F64x2Neg,
        0xfd00ef => Operator::F64x2Sqrt,
        0xfd00f0 => Operator::F64x2Add,
        0xfd00f1 => Operator::F64x2Sub,
        0xfd00f2 => Operator::F64x2Mul,
        0xfd00f3 => Operator::F64x2Div,
        0xfd00f4 => Operator::F64x2Min,
        0xfd00f5 => Operator::F64x2Max,
        0xfd00f6 => Operator::F64x2PMin,
        0xfd00f7 => Operator::F64x2PMax,
        0xfd00f8 => Operator::I32x4TruncSatF32x4S,
        0xfd00f9 => Operator::I32x4TruncSatF32x4U,
        0xfd00fa => Operator::F32x4ConvertI32x4S,
        0xfd00fb => Operator::F32x4ConvertI32x4U,
        0xfd00fc => Operator::I32x4TruncSatF64x2SZero,
        0xfd00fd => Operator::I32x4TruncSatF64x2UZero,
        0xfd00fe => Operator::F64x2ConvertLowI32x4S,
        0xfd00ff => Operator::F64x2ConvertLowI32x4U,
        0xfd005e => Operator::F32x4DemoteF64x2Zero,
        0xfd005f => Operator::F64x2PromoteLowF32x4,
        0xfd0100 => Operator::I8x16RelaxedSwizzle,
        0xfd0101 => Operator::I32x4RelaxedTruncF32x4S,
        0xfd0102 => Operator::I32x4RelaxedTruncF32x4U,
        0xfd0103 => Operator::I32x4RelaxedTruncF64x2SZero,
        0xfd0104 => Operator::I32x4RelaxedTruncF64x2UZero,
        0xfd0105 => Operator::F32x4RelaxedMadd,
        0xfd0106 => Operator::F32x4RelaxedNmadd,
        0xfd0107 => Operator::F64x2RelaxedMadd,
        0xfd0108 => Operator::F64x2RelaxedNmadd,
        0xfd0109 => Operator::I8x16RelaxedLaneselect,
        0xfd010a => Operator::I16x8RelaxedLaneselect,
        0xfd010b => Operator::I32x4RelaxedLaneselect,
        0xfd010c => Operator::I64x2RelaxedLaneselect,
        0xfd010d => Operator::F32x4RelaxedMin,
        0xfd010e => Operator::F32x4RelaxedMax,
        0xfd010f => Operator::F64x2RelaxedMin,
        0xfd0110 => Operator::F64x2RelaxedMax,
        0xfd0111 => Operator::I16x8RelaxedQ15mulrS,
        0xfd0112 => Operator::I16x8RelaxedDotI8x16I7x16S,
        0xfd0113 => Operator::I32x4RelaxedDotI8x16I7x16AddS,
        0x1f => Operator::TryTable { try_table: lists::try_table(op, source) },
        0xfe004f => Operator::GlobalAtomicGet { ordering: op.order(), global_index: op.first },
        0xfe0050 => Operator::GlobalAtomicSet { ordering: op.order(), global_index: op.first },
        0xfe0051 => Operator::GlobalAtomicRmwAdd { ordering: op.order(), global_index: op.first },
        0xfe0052 => Operator::GlobalAtomicRmwSub { ordering: op.order(), global_index: op.first },
        0xfe0053 => Operator::GlobalAtomicRmwAnd { ordering: op.order(), global_index: op.first },
        0xfe0054 => Operator::GlobalAtomicRmwOr { ordering: op.order(), global_index: op.first },
        0xfe0055 => Operator::GlobalAtomicRmwXor { ordering: op.order(), global_index: op.first },
        0xfe0056 => Operator::GlobalAtomicRmwXchg { ordering: op.order(), global_index: op.first },
        0xfe0057 => Operator::GlobalAtomicRmwCmpxchg { ordering: op.order(), global_index: op.first },
        0xfe0058 => Operator::TableAtomicGet { ordering: op.order(), table_index: op.first },
        0xfe0059 => Operator::TableAtomicSet { ordering: op.order(), table_index: op.first },
        0xfe005a => Operator::TableAtomicRmwXchg { ordering: op.order(), table_index: op.first },
        0xfe005b => Operator::TableAtomicRmwCmpxchg { ordering: op.order(), table_index: op.first },
        0xfe005c => Operator::StructAtomicGet { ordering: op.order(), struct_type_index: op.first, field_index: op.second },
        0xfe005d => Operator::StructAtomicGetS { ordering: op.order(), struct_type_index: op.first, field_index: op.second },
        0xfe005e => Operator::StructAtomicGetU { ordering: op.order(), struct_type_index: op.first, field_index: op.second },
        0xfe005f => Operator::StructAtomicSet { ordering: op.order(), struct_type_index: op.first, field_index: op.second },
        0xfe0060 => Operator::StructAtomicRmwAdd { ordering: op.order(), struct_type_index: op.first, field_index: op.second },
        0xfe0061 => Operator::StructAtomicRmwSub { ordering: op.order(), struct_type_index: op.first, field_index: op.second },
        0xfe0062 => Operator::StructAtomicRmwAnd { ordering: op.order(), struct_type_index: op.first, field_index: op.second },
        0xfe0063 => Operator::StructAtomicRmwOr { ordering: op.order(), struct_type_index: op.first, field_index: op.second },
        0xfe0064 => Operator::StructAtomicRmwXor { ordering: op.order(), struct_type_index: op.first, field_index: op.second },
        0xfe0065 => Operator::StructAtomicRmwXchg { ordering: op.order(), struct_type_index: op.first, field_index: op.second },
        0xfe0066 => Operator::StructAtomicRmwCmpxchg { ordering: op.order(), struct_type_index: op.first, field_index: op.second },
        0xfe0067 => Operator::ArrayAtomicGet { ordering: op.order(), array_type_index: op.first },
        0xfe0068 => Operator::ArrayAtomicGetS { ordering: op.order(), array_type_index: op.first },
        0xfe0069 => Operator::ArrayAtomicGetU { ordering: op.order(), array_type_index: op.first },
        0xfe006a => Operator::ArrayAtomicSet { ordering: op.order(), array_type_index: op.first },
        0xfe006b => Operator::ArrayAtomicRmwAdd { ordering: op.order(), array_type_index: op.first },
        0xfe006c => Operator::ArrayAtomicRmwSub { ordering: op.order(), array_type_index: op.first },
        0xfe006d => Operator::ArrayAtomicRmwAnd { ordering: op.order(), array_type_index: op.first },
        0xfe006e => Operator::ArrayAtomicRmwOr { ordering: op.order(), array_type_index: op.first },
        0xfe006f => Operator::ArrayAtomicRmwXor { ordering: op.order(), array_type_index: op.first },
        0xfe0070 => Operator::ArrayAtomicRmwXchg { ordering: op.order(), array_type_index: op.first },
        0xfe0071 => Operator::ArrayAtomicRmwCmpxchg { ordering: op.order(), array_type_index: op.first },
        0xfe0072 => Operator::RefI31Shared,
        0xe1 => Operator::ContBind { argument_index: op.first, result_index: op.second },
        0xe3 => Operator::Resume { cont_type_index: op.first, resume_table: lists::resume_table(op, source, op.second) },
        0xe4 => Operator::ResumeThrow { cont_type_index: op.first, tag_index: op.second, resume_table: lists::resume_table(op, source, op.third) },
        0xe5 => Operator::ResumeThrowRef { cont_type_index: op.first, resume_table: lists::resume_table(op, source, op.second) },
        0xe6 => Operator::Switch { cont_type_index: op.first, tag_index: op.second },
        0xfc0013 => Operator::I64Add128,
        0xfc0014 => Operator::I64Sub128,
        0xfc0015 => Operator::I64MulWideS,
        0xfc0016 => Operator::I64MulWideU,
        0xfe0004 => Operator::Pause,
        opcode => panic!("the library has an operator that this crate has not: {opcode:#x}"),
    }
}
