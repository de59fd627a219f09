//! Function bodies and their locals.

use crate::native::ValueKind;
use crate::value_types::val_type;
use crate::{BinaryReader, FromReader, OperatorsReader, Result, SectionLimited, ValType};
use std::ops::Range;

/// A code section.
pub type CodeSectionReader<'a> = SectionLimited<'a, FunctionBody<'a>>;

/// A function body: its locals, then its operators.
#[derive(Clone, Debug)]
pub struct FunctionBody<'a> {
    reader: BinaryReader<'a>,
}

impl<'a> FunctionBody<'a> {
    /// Creates a body of the bytes that are left in the reader.
    pub fn new(reader: BinaryReader<'a>) -> Self {
        FunctionBody { reader }
    }

    /// Returns a reader of the body.
    pub fn get_binary_reader(&self) -> BinaryReader<'a> {
        self.reader.clone()
    }

    /// Reads the count of declarations of locals, and returns a reader of them.
    pub fn get_locals_reader(&self) -> Result<LocalsReader<'a>> {
        let mut reader = self.reader.clone();
        let declaration_count = reader.read_var_u32()?;
        Ok(LocalsReader {
            reader,
            declaration_count,
            total_count: 0,
        })
    }

    /// Reads the locals, and returns a reader of the bytes after them.
    pub fn get_binary_reader_for_operators(&self) -> Result<BinaryReader<'a>> {
        let mut reader = self.reader.clone();
        reader.read_value(ValueKind::Locals, 0)?;
        Ok(reader)
    }

    /// Reads the locals, and returns a reader of the operators after them.
    pub fn get_operators_reader(&self) -> Result<OperatorsReader<'a>> {
        let reader = self.get_binary_reader_for_operators()?;
        Ok(OperatorsReader::new(reader))
    }

    /// Returns the offsets of the reader's bytes.
    pub fn range(&self) -> Range<u64> {
        self.reader.range()
    }

    /// Returns the bytes of the body, with its locals.
    pub fn as_bytes(&self) -> &'a [u8] {
        self.reader.remaining_buffer()
    }
}

impl<'a> FromReader<'a> for FunctionBody<'a> {
    fn from_reader(reader: &mut BinaryReader<'a>) -> Result<Self> {
        Ok(FunctionBody::new(reader.read_reader()?))
    }
}

/// A reader of the declarations of locals.
pub struct LocalsReader<'a> {
    reader: BinaryReader<'a>,
    declaration_count: u32,
    total_count: u32,
}

impl<'a> LocalsReader<'a> {
    /// Returns the number of all declarations.
    pub fn get_count(&self) -> u32 {
        self.declaration_count
    }

    /// Returns the offset of the next byte.
    pub fn original_position(&self) -> u64 {
        self.reader.original_position()
    }

    /// Reads a declaration: a number of locals, and their type. Fails if their total exceeds 32 bits.
    pub fn read(&mut self) -> Result<(u32, ValType)> {
        let total = u64::from(self.total_count);
        let value = self.reader.read_value(ValueKind::Local, total)?;
        let count = value.number as u32;
        self.total_count += count;
        Ok((count, val_type(value.kind, value.index)))
    }

    /// Returns a reader of the bytes that are left.
    pub fn get_binary_reader(self) -> BinaryReader<'a> {
        self.reader
    }
}

impl<'a> IntoIterator for LocalsReader<'a> {
    type Item = Result<(u32, ValType)>;
    type IntoIter = LocalsIterator<'a>;

    fn into_iter(self) -> Self::IntoIter {
        LocalsIterator {
            left: self.declaration_count,
            reader: self,
            is_over: false,
        }
    }
}

/// An iterator over the declarations of locals. It ends after an error.
pub struct LocalsIterator<'a> {
    reader: LocalsReader<'a>,
    left: u32,
    is_over: bool,
}

impl<'a> Iterator for LocalsIterator<'a> {
    type Item = Result<(u32, ValType)>;

    fn next(&mut self) -> Option<Self::Item> {
        if self.is_over || self.left == 0 {
            return None;
        }
        let declaration = self.reader.read();
        self.is_over = declaration.is_err();
        self.left -= 1;
        Some(declaration)
    }

    fn size_hint(&self) -> (usize, Option<usize>) {
        let left = if self.is_over { 0 } else { self.left as usize };
        (0, Some(left))
    }
}

impl<'a> LocalsIterator<'a> {
    /// Returns a reader of the bytes after the locals. All declarations must have been taken.
    pub fn into_binary_reader_for_operators(self) -> BinaryReader<'a> {
        debug_assert!(self.is_over || self.left == 0);
        self.reader.get_binary_reader()
    }

    /// Returns a reader of the operators after the locals. All declarations must have been taken.
    pub fn into_operators_reader(self) -> OperatorsReader<'a> {
        OperatorsReader::new(self.reader.get_binary_reader())
    }
}
