//! The C structs of operators, by shape (`enum wasm_shape` of the header).

use crate::lists::{BrTable, ResumeTable, TryTable};
use crate::native::PlainOperator;
use crate::{
    BlockType, Error, HeapType, Ieee32, Ieee64, MemArg, MemArgOrdering, MemArgTarget, Ordering,
    RefType, Result, UnpackedIndex, V128, ValType,
};

/// Creates the C struct with this opcode and shape, and 0 in all other fields.
fn bare(opcode: u32, shape: u8) -> PlainOperator {
    PlainOperator {
        opcode,
        shape,
        ..PlainOperator::default()
    }
}

/// Returns the length of a list, at most the largest `u32`.
fn count(length: usize) -> u32 {
    u32::try_from(length).unwrap_or(u32::MAX)
}

pub(crate) fn nothing(opcode: u32) -> PlainOperator {
    bare(opcode, 0)
}

pub(crate) fn index(opcode: u32, first: u32) -> PlainOperator {
    PlainOperator {
        first,
        ..bare(opcode, 1)
    }
}

pub(crate) fn two_indices(opcode: u32, first: u32, second: u32) -> PlainOperator {
    PlainOperator {
        first,
        second,
        ..bare(opcode, 2)
    }
}

/// Returns the number of the ordering of a memory argument.
fn ordering_number(ordering: Option<MemArgOrdering>) -> u16 {
    match ordering {
        None => 0,
        Some(MemArgOrdering::Op(ordering)) => order_number(ordering),
        Some(MemArgOrdering::Rmw(ordering)) => order_number(ordering) + 2,
    }
}

fn order_number(ordering: Ordering) -> u16 {
    match ordering {
        Ordering::SeqCst => 1,
        Ordering::AcqRel => 2,
    }
}

/// Fills in a memory argument.
fn with_memory(argument: MemArg, op: PlainOperator) -> PlainOperator {
    let (target, first) = match argument.target {
        MemArgTarget::Memory(index) => (0, index),
        MemArgTarget::Array(index) => (1, index),
    };
    PlainOperator {
        wide: argument.offset,
        first,
        align: argument.align,
        max_align: argument.max_align,
        target,
        ordering: ordering_number(argument.ordering),
        ..op
    }
}

pub(crate) fn memory(opcode: u32, argument: MemArg) -> PlainOperator {
    with_memory(argument, bare(opcode, 3))
}

pub(crate) fn memory_lane(opcode: u32, argument: MemArg, lane: u8) -> PlainOperator {
    PlainOperator {
        lane,
        ..with_memory(argument, bare(opcode, 4))
    }
}

pub(crate) fn lane(opcode: u32, lane: u8) -> PlainOperator {
    PlainOperator {
        lane,
        ..bare(opcode, 5)
    }
}

fn wide(opcode: u32, shape: u8, wide: u64) -> PlainOperator {
    PlainOperator {
        wide,
        ..bare(opcode, shape)
    }
}

pub(crate) fn integer_32(opcode: u32, value: i32) -> PlainOperator {
    wide(opcode, 6, i64::from(value) as u64)
}

pub(crate) fn integer_64(opcode: u32, value: i64) -> PlainOperator {
    wide(opcode, 7, value as u64)
}

pub(crate) fn float_32(opcode: u32, value: Ieee32) -> PlainOperator {
    wide(opcode, 8, u64::from(value.bits()))
}

pub(crate) fn float_64(opcode: u32, value: Ieee64) -> PlainOperator {
    wide(opcode, 9, value.bits())
}

pub(crate) fn vector(opcode: u32, value: V128) -> PlainOperator {
    PlainOperator {
        bytes: *value.bytes(),
        ..bare(opcode, 10)
    }
}

pub(crate) fn lanes(opcode: u32, lanes: [u8; 16]) -> PlainOperator {
    PlainOperator {
        bytes: lanes,
        ..bare(opcode, 11)
    }
}

pub(crate) fn ordered(opcode: u32, ordering: Ordering, first: u32) -> PlainOperator {
    PlainOperator {
        first,
        ordering: order_number(ordering),
        ..bare(opcode, 12)
    }
}

pub(crate) fn ordered_two(
    opcode: u32,
    ordering: Ordering,
    first: u32,
    second: u32,
) -> PlainOperator {
    PlainOperator {
        first,
        second,
        ordering: order_number(ordering),
        ..bare(opcode, 13)
    }
}

pub(crate) fn fence(opcode: u32, ordering: Ordering) -> PlainOperator {
    PlainOperator {
        ordering: order_number(ordering),
        ..bare(opcode, 14)
    }
}

/// Returns the kind and the index of a heap type. Fails for an index that is not of the module.
fn heap_numbers(ty: HeapType) -> Result<(u32, u32)> {
    match ty {
        HeapType::Abstract { shared, ty } => Ok((ty.byte() + if shared { 256 } else { 0 }, 0)),
        HeapType::Concrete(UnpackedIndex::Module(index)) => Ok((1, index)),
        HeapType::Exact(UnpackedIndex::Module(index)) => Ok((2, index)),
        _ => Err(Error::new(
            "a type index of a recursion group has no encoding",
            0,
        )),
    }
}

fn reference_numbers(ty: RefType) -> Result<(u32, u32)> {
    let (kind, index) = heap_numbers(ty.heap_type())?;
    Ok((kind + if ty.is_nullable() { 512 } else { 0 }, index))
}

pub(crate) fn value_numbers(ty: ValType) -> Result<(u32, u32)> {
    Ok(match ty {
        ValType::I32 => (0x7f, 0),
        ValType::I64 => (0x7e, 0),
        ValType::F32 => (0x7d, 0),
        ValType::F64 => (0x7c, 0),
        ValType::V128 => (0x7b, 0),
        ValType::Ref(ty) => {
            let (kind, index) = reference_numbers(ty)?;
            (kind + 1024, index)
        }
    })
}

fn block_numbers(ty: BlockType) -> Result<(u32, u32)> {
    match ty {
        BlockType::Empty => Ok((0x40, 0)),
        BlockType::Type(ty) => value_numbers(ty),
        BlockType::FuncType(index) => Ok((0, index)),
    }
}

pub(crate) fn heap(opcode: u32, ty: HeapType) -> Result<PlainOperator> {
    let (kind, first) = heap_numbers(ty)?;
    Ok(PlainOperator {
        first,
        kind,
        ..bare(opcode, 15)
    })
}

pub(crate) fn cast(opcode: u32, first: u32, from: RefType, to: RefType) -> Result<PlainOperator> {
    let (kind, second) = reference_numbers(from)?;
    let (other_kind, third) = reference_numbers(to)?;
    Ok(PlainOperator {
        first,
        second,
        third,
        kind,
        other_kind,
        ..bare(opcode, 16)
    })
}

pub(crate) fn block(opcode: u32, ty: BlockType) -> Result<PlainOperator> {
    let (kind, first) = block_numbers(ty)?;
    Ok(PlainOperator {
        first,
        kind,
        ..bare(opcode, 17)
    })
}

pub(crate) fn table(opcode: u32, targets: &BrTable<'_>) -> PlainOperator {
    PlainOperator {
        first: targets.len(),
        second: targets.default(),
        ..bare(opcode, 18)
    }
}

pub(crate) fn select_one(opcode: u32, ty: ValType) -> Result<PlainOperator> {
    let (kind, first) = value_numbers(ty)?;
    Ok(PlainOperator {
        first,
        kind,
        ..bare(opcode, 19)
    })
}

pub(crate) fn select_many(opcode: u32, tys: &[ValType]) -> PlainOperator {
    PlainOperator {
        first: count(tys.len()),
        ..bare(opcode, 20)
    }
}

pub(crate) fn try_table(opcode: u32, table: &TryTable) -> Result<PlainOperator> {
    let (kind, first) = block_numbers(table.ty)?;
    Ok(PlainOperator {
        first,
        second: count(table.catches.len()),
        kind,
        ..bare(opcode, 21)
    })
}

pub(crate) fn resume(opcode: u32, first: u32, table: &ResumeTable) -> PlainOperator {
    PlainOperator {
        first,
        second: count(table.len()),
        ..bare(opcode, 22)
    }
}

pub(crate) fn resume_throw(
    opcode: u32,
    first: u32,
    second: u32,
    table: &ResumeTable,
) -> PlainOperator {
    PlainOperator {
        first,
        second,
        third: count(table.len()),
        ..bare(opcode, 23)
    }
}
