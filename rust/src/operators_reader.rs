//! Readers of operators, and iterators over operators.

use crate::batch::Batch;
use crate::frames::{FrameKind, FrameStack, OperatorsReaderAllocations};
use crate::lists::Source;
use crate::native::{self, Place, PlainOperator, PlainReader};
use crate::operator::{Operator, operator_of};
use crate::visit::{visit_not_simd, visit_simd};
use crate::{BinaryReader, Error, Result, VisitOperator, WasmFeatures};

/// A reader of the operators of an expression. The library reads them in batches, and keeps the open frames.
#[derive(Clone)]
pub struct OperatorsReader<'a> {
    source: Source<'a>,
    /// The library's reader, after the operators of the batch.
    reader: PlainReader,
    /// The frames of that reader.
    frames: Vec<u8>,
    batch: Batch,
}

impl<'a> OperatorsReader<'a> {
    /// Creates a reader of the expression at the position of `reader`.
    pub fn new(reader: BinaryReader<'a>) -> Self {
        OperatorsReader::new_with_allocs(reader, OperatorsReaderAllocations::default())
    }

    /// Creates a reader with the memory of an earlier reader.
    pub fn new_with_allocs(reader: BinaryReader<'a>, allocs: OperatorsReaderAllocations) -> Self {
        let OperatorsReaderAllocations {
            mut frames,
            operators,
        } = allocs;
        let bytes = reader.buffer();
        let opened = native::open(
            bytes,
            reader.current_position(),
            reader.range().start,
            reader.features().library_bits(),
            &mut frames,
        );
        // The features are known, the end fits in 64 bits, and a frame fits.
        let opened = opened.unwrap_or_else(|refusal| panic!("no expression opens: {refusal:?}"));
        let source = Source {
            bytes,
            offset: opened.offset,
            features: reader.features(),
        };
        OperatorsReader::of(source, opened, frames, Batch::in_memory(operators))
    }

    /// Creates a reader of an expression that is open.
    fn of(source: Source<'a>, reader: PlainReader, frames: Vec<u8>, batch: Batch) -> Self {
        OperatorsReader {
            source,
            reader,
            frames,
            batch,
        }
    }

    /// Creates a reader of the operators of a body. `offset` is the offset of the first byte.
    pub fn of_body(
        bytes: &'a [u8],
        offset: u64,
        features: WasmFeatures,
    ) -> Result<OperatorsReader<'a>> {
        let mut frames = Vec::new();
        let reader = native::open_body(bytes, offset, features.library_bits(), &mut frames)?;
        let source = Source {
            bytes,
            offset,
            features,
        };
        Ok(OperatorsReader::of(
            source,
            reader,
            frames,
            Batch::default(),
        ))
    }

    /// Returns the library's reader before the next operator, except its frames: one is open if any is.
    #[inline]
    fn here(&self) -> PlainReader {
        match self.batch.first() {
            // The library has read this operator inside a frame.
            Some(op) => PlainReader {
                position: op.offset - self.source.offset,
                depth: 1,
                ..self.reader
            },
            None => self.reader,
        }
    }

    /// Returns a reader of the bytes at this position.
    pub fn get_binary_reader(&self) -> BinaryReader<'a> {
        BinaryReader::at(&self.source, &self.here())
    }

    /// Returns whether no byte is left.
    #[inline]
    pub fn eof(&self) -> bool {
        self.batch.is_empty() && self.reader.position == self.source.bytes.len() as u64
    }

    /// Returns the offset of the next byte.
    #[inline]
    pub fn original_position(&self) -> u64 {
        let reader = self.here();
        reader.offset + reader.position
    }

    /// Returns whether the bytes that are left are one `end`.
    pub fn is_end_then_eof(&self) -> bool {
        self.get_binary_reader().is_end_then_eof()
    }

    /// Returns the memory, for another reader.
    pub fn into_allocations(self) -> OperatorsReaderAllocations {
        OperatorsReaderAllocations {
            frames: self.frames,
            operators: self.batch.into_memory(),
        }
    }

    /// Reads the next batch, whose first operator is the next one. On failure, nothing changes.
    #[cold]
    #[inline(never)]
    fn fill(&mut self) -> Result<()> {
        let (frames, reader) = (&mut self.frames, &mut self.reader);
        Ok(self.batch.fill(self.source.bytes, frames, reader)?)
    }

    /// Takes the C struct of the next operator, and returns it with its source.
    #[inline]
    fn advance(&mut self) -> Result<(&PlainOperator, &Source<'a>)> {
        if self.batch.is_empty() {
            self.fill()?;
        }
        Ok((self.batch.take(), &self.source))
    }

    /// Reads the next operator.
    #[inline]
    pub fn read(&mut self) -> Result<Operator<'a>> {
        let (op, source) = self.advance()?;
        Ok(operator_of(op, source))
    }

    /// Reads the next operator, and returns it with its offset.
    #[inline]
    pub fn read_with_offset(&mut self) -> Result<(Operator<'a>, u64)> {
        let (op, source) = self.advance()?;
        Ok((operator_of(op, source), op.offset))
    }

    /// Reads the next operator, and calls the visitor's method for it.
    ///
    /// ```
    /// use wasm_operators::{BinaryReader, OperatorsReader, VisitOperator, for_each_visit_operator};
    ///
    /// /// Prints the name of each method.
    /// struct Names;
    ///
    /// macro_rules! print_name {
    ///     ($(@$proposal:ident $op:ident $({ $($field:ident: $ty:ty),* })? => $visit:ident ($($ann:tt)*))*) => {
    ///         $(fn $visit(&mut self $($(, $field: $ty)*)?) { println!(stringify!($visit)) })*
    ///     };
    /// }
    ///
    /// impl<'a> VisitOperator<'a> for Names {
    ///     type Output = ();
    ///     for_each_visit_operator!(print_name);
    /// }
    ///
    /// let mut operators = OperatorsReader::new(BinaryReader::new(&[0x01, 0x0b], 0));
    /// while !operators.eof() {
    ///     operators.visit_operator(&mut Names)?;
    /// }
    /// # Ok::<(), wasm_operators::Error>(())
    /// ```
    pub fn visit_operator<T>(&mut self, visitor: &mut T) -> Result<<T as VisitOperator<'a>>::Output>
    where
        T: VisitOperator<'a>,
    {
        if self.batch.is_empty() {
            if let Err(error) = self.fill() {
                return Err(match visitor.simd_visitor() {
                    Some(_) => error,
                    None => self.error_without_simd(),
                });
            }
        }
        let op = self.batch.take();
        if !op.is_simd() {
            return Ok(visit_not_simd(visitor, op, &self.source));
        }
        if let Some(visitor) = visitor.simd_visitor() {
            return Ok(visit_simd(visitor, op));
        }
        self.batch.put_back();
        Err(self.error_without_simd())
    }

    /// Returns the error of a visitor without SIMD at the next operator.
    #[cold]
    fn error_without_simd(&mut self) -> Error {
        let mut reader = self.here();
        let mut place = Place::uninit();
        match native::next_plain(self.source.bytes, &mut self.frames, &mut reader, &mut place) {
            Ok(op) => panic!("the library reads {op:?} for a visitor without SIMD"),
            Err(refusal) => Error::from(refusal),
        }
    }

    /// Returns an iterator over the operators with their offsets.
    pub fn into_iter_with_offsets(self) -> OperatorsIteratorWithOffsets<'a> {
        OperatorsIteratorWithOffsets {
            reader: self,
            is_over: false,
        }
    }

    /// Reads all operators with their offsets. Fails unless the expression ends after them.
    pub fn read_all(mut self) -> Result<Vec<(Operator<'a>, u64)>> {
        let mut found = Vec::new();
        while !self.eof() {
            if self.batch.is_empty() {
                self.fill()?;
            }
            let source = &self.source;
            let operators = self.batch.take_all().iter();
            found.extend(operators.map(|op| (operator_of(op, source), op.offset)));
        }
        self.finish()?;
        Ok(found)
    }

    /// Checks that no frame is open and no byte is left.
    pub fn finish(&self) -> Result<()> {
        let bytes = self.source.bytes;
        Ok(native::finish(bytes, &self.frames, &self.here())?)
    }
}

impl FrameStack for OperatorsReader<'_> {
    fn current_frame(&self) -> Option<FrameKind> {
        if !self.batch.is_empty() {
            return Some(self.batch.innermost());
        }
        let innermost = (self.reader.depth as usize).checked_sub(1)?;
        Some(FrameKind::of_byte(self.frames[innermost]))
    }
}

impl<'a> IntoIterator for OperatorsReader<'a> {
    type Item = Result<Operator<'a>>;
    type IntoIter = OperatorsIterator<'a>;

    fn into_iter(self) -> Self::IntoIter {
        OperatorsIterator {
            operators: self.into_iter_with_offsets(),
        }
    }
}

/// An iterator over operators, which ends after an error.
pub struct OperatorsIterator<'a> {
    operators: OperatorsIteratorWithOffsets<'a>,
}

impl OperatorsIterator<'_> {
    /// Returns the memory, for another reader.
    pub fn into_allocations(self) -> OperatorsReaderAllocations {
        self.operators.into_allocations()
    }
}

impl<'a> Iterator for OperatorsIterator<'a> {
    type Item = Result<Operator<'a>>;

    #[inline]
    fn next(&mut self) -> Option<Self::Item> {
        match self.operators.advance() {
            Ok(Some((op, source))) => Some(Ok(operator_of(op, source))),
            Ok(None) => None,
            Err(error) => Some(Err(error)),
        }
    }

    #[inline]
    fn fold<B, F: FnMut(B, Self::Item) -> B>(self, init: B, mut f: F) -> B {
        let mut without = |folded, item: Result<_>| f(folded, item.map(|(operator, _)| operator));
        self.operators.fold(init, &mut without)
    }
}

/// An iterator over operators with their offsets, which ends after an error.
pub struct OperatorsIteratorWithOffsets<'a> {
    reader: OperatorsReader<'a>,
    is_over: bool,
}

impl<'a> OperatorsIteratorWithOffsets<'a> {
    /// Returns the memory, for another reader.
    pub fn into_allocations(self) -> OperatorsReaderAllocations {
        self.reader.into_allocations()
    }

    /// Reads the next batch. Returns whether there is one, and an error once.
    #[cold]
    #[inline(never)]
    fn fill(&mut self) -> Result<bool> {
        if self.is_over || self.reader.eof() {
            return Ok(false);
        }
        let filled = self.reader.fill();
        self.is_over = filled.is_err();
        filled.map(|()| true)
    }

    /// Takes the C struct of the next operator, if there is one, and returns it with its source.
    #[inline]
    fn advance(&mut self) -> Result<Option<(&PlainOperator, &Source<'a>)>> {
        if self.reader.batch.is_empty() && !self.fill()? {
            return Ok(None);
        }
        Ok(Some((self.reader.batch.take(), &self.reader.source)))
    }
}

impl<'a> Iterator for OperatorsIteratorWithOffsets<'a> {
    type Item = Result<(Operator<'a>, u64)>;

    #[inline]
    fn next(&mut self) -> Option<Self::Item> {
        match self.advance() {
            Ok(Some((op, source))) => Some(Ok((operator_of(op, source), op.offset))),
            Ok(None) => None,
            Err(error) => Some(Err(error)),
        }
    }

    /// Converts each batch in one loop.
    #[inline]
    fn fold<B, F: FnMut(B, Self::Item) -> B>(mut self, init: B, mut f: F) -> B {
        let mut folded = init;
        loop {
            for op in self.reader.batch.take_all() {
                let operator = operator_of(op, &self.reader.source);
                folded = f(folded, Ok((operator, op.offset)));
            }
            match self.fill() {
                Ok(true) => {}
                Ok(false) => return folded,
                Err(error) => return f(folded, Err(error)),
            }
        }
    }
}
