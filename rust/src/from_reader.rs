//! Types that are read from bytes.

use crate::native::ValueKind;
use crate::value_types::{heap_type, ref_type, val_type};
use crate::{
    BinaryReader, Catch, Error, Handle, HeapType, RefType, Result, ResumeTable, TryTable, ValType,
};

/// The greatest number of catches of a `try_table`.
const MOST_CATCHES: usize = 10_000;
/// The greatest number of clauses of a `resume`.
const MOST_HANDLERS: usize = 10_000;

/// A type whose values [`BinaryReader::read`] and [`SectionLimited`](crate::SectionLimited) read.
pub trait FromReader<'a>: Sized {
    /// Reads a value.
    fn from_reader(reader: &mut BinaryReader<'a>) -> Result<Self>;
}

impl<'a> FromReader<'a> for bool {
    fn from_reader(reader: &mut BinaryReader<'a>) -> Result<Self> {
        let at = reader.original_position();
        let byte = reader.peek()?;
        if byte > 1 {
            return Err(Error::new("invalid boolean value", at));
        }
        reader.read_u8()?;
        Ok(byte == 1)
    }
}

impl<'a> FromReader<'a> for u32 {
    fn from_reader(reader: &mut BinaryReader<'a>) -> Result<Self> {
        reader.read_var_u32()
    }
}

impl<'a> FromReader<'a> for &'a str {
    fn from_reader(reader: &mut BinaryReader<'a>) -> Result<Self> {
        reader.read_string()
    }
}

impl<'a, T, U> FromReader<'a> for (T, U)
where
    T: FromReader<'a>,
    U: FromReader<'a>,
{
    fn from_reader(reader: &mut BinaryReader<'a>) -> Result<Self> {
        whole(reader, |reader| Ok((reader.read()?, reader.read()?)))
    }
}

impl<'a> FromReader<'a> for ValType {
    fn from_reader(reader: &mut BinaryReader<'a>) -> Result<Self> {
        let value = reader.read_value(ValueKind::ValType, 0)?;
        Ok(val_type(value.kind, value.index))
    }
}

impl<'a> FromReader<'a> for RefType {
    fn from_reader(reader: &mut BinaryReader<'a>) -> Result<Self> {
        let value = reader.read_value(ValueKind::RefType, 0)?;
        Ok(ref_type(value.kind, value.index))
    }
}

impl<'a> FromReader<'a> for HeapType {
    fn from_reader(reader: &mut BinaryReader<'a>) -> Result<Self> {
        let value = reader.read_value(ValueKind::HeapType, 0)?;
        Ok(heap_type(value.kind, value.index))
    }
}

impl<'a> FromReader<'a> for Catch {
    fn from_reader(reader: &mut BinaryReader<'a>) -> Result<Self> {
        let value = reader.read_value(ValueKind::Catch, 0)?;
        Ok(Catch::of(value.kind, value.number as u32, value.index))
    }
}

impl<'a> FromReader<'a> for Handle {
    fn from_reader(reader: &mut BinaryReader<'a>) -> Result<Self> {
        let value = reader.read_value(ValueKind::Clause, 0)?;
        Ok(Handle::of(value.kind, value.number as u32, value.index))
    }
}

impl<'a> FromReader<'a> for TryTable {
    fn from_reader(reader: &mut BinaryReader<'a>) -> Result<Self> {
        whole(reader, |reader| {
            Ok(TryTable {
                ty: reader.read_block_type()?,
                catches: read_list(reader, MOST_CATCHES, "catches")?,
            })
        })
    }
}

impl<'a> FromReader<'a> for ResumeTable {
    fn from_reader(reader: &mut BinaryReader<'a>) -> Result<Self> {
        whole(reader, |reader| {
            Ok(ResumeTable {
                handlers: read_list(reader, MOST_HANDLERS, "resume table")?,
            })
        })
    }
}

/// Reads a count of at most `limit` and as many items.
fn read_list<'a, T: FromReader<'a>>(
    reader: &mut BinaryReader<'a>,
    limit: usize,
    desc: &str,
) -> Result<Vec<T>> {
    reader.read_iter(limit, desc)?.collect()
}

/// Reads by several calls. If one fails, the reader stays where the first began.
pub(crate) fn whole<'a, T>(
    reader: &mut BinaryReader<'a>,
    read: impl FnOnce(&mut BinaryReader<'a>) -> Result<T>,
) -> Result<T> {
    let mut after = reader.clone();
    let value = read(&mut after)?;
    *reader = after;
    Ok(value)
}
