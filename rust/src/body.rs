//! Whole bodies by one call, which wasmparser does not have.

use crate::lists::Source;
use crate::native::{self, PlainOperator};
use crate::operator::{Operator, operator_of};
use crate::{Error, Result, WasmFeatures};

/// Replaces the elements of `out` by the operators of a body. `offset` is the offset of the first byte.
///
/// On failure, `out` is the longest prefix that begins a body; it may be shorter if allocation fails.
pub fn read_plain(
    bytes: &[u8],
    offset: u64,
    features: WasmFeatures,
    out: &mut Vec<PlainOperator>,
) -> Result<()> {
    let refusal = native::read_body(bytes, offset, features.library_bits(), out);
    if refusal.number == 0 {
        Ok(())
    } else {
        Err(Error::from(refusal))
    }
}

/// A function body that was read.
#[derive(Clone, Debug)]
pub struct Body<'a> {
    source: Source<'a>,
    operators: Vec<PlainOperator>,
    end: Option<Error>,
}

impl<'a> Body<'a> {
    /// Reads a body. `offset` is the offset of the first byte. [`error`](Body::error) returns the error, if there is one.
    pub fn read(bytes: &'a [u8], offset: u64, features: WasmFeatures) -> Body<'a> {
        let mut operators = Vec::new();
        let end = read_plain(bytes, offset, features, &mut operators).err();
        Body {
            source: Source {
                bytes,
                offset,
                features,
            },
            operators,
            end,
        }
    }

    /// Returns the number of operators.
    pub fn len(&self) -> usize {
        self.operators.len()
    }

    /// Returns whether there is no operator.
    pub fn is_empty(&self) -> bool {
        self.operators.is_empty()
    }

    /// Returns the error after the operators, if the bytes do not encode a body.
    pub fn error(&self) -> Option<&Error> {
        self.end.as_ref()
    }

    /// Returns the operators as C structs.
    pub fn plain(&self) -> &[PlainOperator] {
        &self.operators
    }

    /// Returns the operators with their offsets, and then the error, if there is one.
    pub fn iter(&self) -> impl Iterator<Item = Result<(Operator<'a>, u64)>> + '_ {
        let found = self.operators.iter().map(|op| {
            let operator = operator_of(op, &self.source);
            Ok((operator, op.offset))
        });
        found.chain(self.end.iter().cloned().map(Err))
    }

    /// Returns all operators with their offsets, or the error.
    pub fn read_all(&self) -> Result<Vec<(Operator<'a>, u64)>> {
        if let Some(error) = &self.end {
            return Err(error.clone());
        }
        let found = self.operators.iter();
        Ok(found
            .map(|op| (operator_of(op, &self.source), op.offset))
            .collect())
    }
}
