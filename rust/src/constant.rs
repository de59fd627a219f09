//! Constant expressions.

use crate::native::ValueKind;
use crate::{BinaryReader, FromReader, OperatorsReader, Result};
use std::fmt;

/// A constant expression.
#[derive(Clone)]
pub struct ConstExpr<'a> {
    reader: BinaryReader<'a>,
}

impl<'a> ConstExpr<'a> {
    /// Creates an expression of the bytes that are left in the reader.
    pub fn new(reader: BinaryReader<'a>) -> ConstExpr<'a> {
        ConstExpr { reader }
    }

    /// Returns a reader of the expression.
    pub fn get_binary_reader(&self) -> BinaryReader<'a> {
        self.reader.clone()
    }

    /// Returns a reader of the operators.
    pub fn get_operators_reader(&self) -> OperatorsReader<'a> {
        OperatorsReader::new(self.get_binary_reader())
    }
}

impl<'a> FromReader<'a> for ConstExpr<'a> {
    fn from_reader(reader: &mut BinaryReader<'a>) -> Result<Self> {
        let expression = reader.skip(|reader| {
            reader.read_value(ValueKind::ConstExpr, 0)?;
            Ok(())
        })?;
        Ok(ConstExpr::new(expression))
    }
}

/// Two expressions are equal if their bytes are equal.
impl PartialEq for ConstExpr<'_> {
    fn eq(&self, other: &Self) -> bool {
        self.reader.remaining_buffer() == other.reader.remaining_buffer()
    }
}

impl Eq for ConstExpr<'_> {}

impl fmt::Debug for ConstExpr<'_> {
    fn fmt(&self, f: &mut fmt::Formatter<'_>) -> fmt::Result {
        f.debug_struct("ConstExpr")
            .field("offset", &self.reader.original_position())
            .field("data", &self.reader.remaining_buffer())
            .finish()
    }
}
