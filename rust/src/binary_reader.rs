//! Readers of bytes.

use crate::error::Malformed;
use crate::frames::{FrameKind, FrameStack};
use crate::lists::Source;
use crate::native::{self, Place, PlainOperator, PlainReader, PlainValue, ValueKind};
use crate::operator::{Operator, operator_of};
use crate::visit::{visit_not_simd, visit_simd};
use crate::{BlockType, Error, FromReader, Ieee32, Ieee64, Result, VisitOperator, WasmFeatures};
use std::marker::PhantomData;
use std::ops::Range;

/// The limit of `read_string` and `skip_string`.
const LONGEST_STRING: usize = 100_000;

/// A reader of values at a position in bytes.
///
/// A call that fails leaves the reader where the call began.
#[derive(Clone, Debug, Hash)]
pub struct BinaryReader<'a> {
    buffer: &'a [u8],
    position: usize,
    original_offset: u64,
    features: WasmFeatures,
}

impl<'a> BinaryReader<'a> {
    /// Creates a reader over `data`, with all features. `original_offset` is the offset of the first byte.
    ///
    /// # Panics
    ///
    /// Panics if the offset of the end does not fit in 64 bits, which [`max_data_len`](Self::max_data_len) tests.
    pub fn new(data: &[u8], original_offset: u64) -> BinaryReader<'_> {
        BinaryReader::new_features(data, original_offset, WasmFeatures::all())
    }

    /// Creates a reader over `data` with these features, like [`new`](Self::new).
    pub fn new_features(
        data: &[u8],
        original_offset: u64,
        features: WasmFeatures,
    ) -> BinaryReader<'_> {
        native::check_version();
        assert!(
            data.len() <= BinaryReader::max_data_len(original_offset),
            "the data is too large: {} bytes from the offset {original_offset} on",
            data.len()
        );
        BinaryReader {
            buffer: data,
            position: 0,
            original_offset,
            features,
        }
    }

    /// Creates a reader at a position that a [`PlainReader`] has reached.
    pub(crate) fn at(source: &Source<'a>, reader: &PlainReader) -> BinaryReader<'a> {
        BinaryReader {
            buffer: source.bytes,
            position: reader.position as usize,
            original_offset: reader.offset,
            features: source.features,
        }
    }

    /// Returns a reader of the bytes that are left, whose range does not have those that were read.
    pub(crate) fn shrink(&self) -> BinaryReader<'a> {
        BinaryReader {
            buffer: self.remaining_buffer(),
            position: 0,
            original_offset: self.original_position(),
            features: self.features,
        }
    }

    /// Returns the next byte without reading it.
    pub(crate) fn peek(&self) -> Result<u8> {
        self.clone().read_u8()
    }

    /// Returns the greatest length of data at this offset.
    pub fn max_data_len(original_offset: u64) -> usize {
        usize::try_from(u64::MAX - original_offset).unwrap_or(usize::MAX)
    }

    /// Returns the offset of the next byte.
    #[inline]
    pub fn original_position(&self) -> u64 {
        self.original_offset + self.position as u64
    }

    /// Returns the features.
    pub fn features(&self) -> WasmFeatures {
        self.features
    }

    /// Sets the features.
    pub fn set_features(&mut self, features: WasmFeatures) {
        self.features = features;
    }

    /// Returns the offsets of all bytes.
    pub fn range(&self) -> Range<u64> {
        self.original_offset..self.original_offset + self.buffer.len() as u64
    }

    /// Returns the offsets of the bytes that are left.
    pub fn remaining_range(&self) -> Range<u64> {
        self.original_position()..self.original_offset + self.buffer.len() as u64
    }

    /// Returns the bytes that are left.
    pub(crate) fn remaining_buffer(&self) -> &'a [u8] {
        &self.buffer[self.position..]
    }

    /// Returns all bytes.
    pub(crate) fn buffer(&self) -> &'a [u8] {
        self.buffer
    }

    /// Returns whether no byte is left.
    #[inline]
    pub fn eof(&self) -> bool {
        self.position >= self.buffer.len()
    }

    /// Returns the number of bytes that were read.
    #[inline]
    pub fn current_position(&self) -> usize {
        self.position
    }

    /// Returns the number of bytes that are left.
    #[inline]
    pub fn bytes_remaining(&self) -> usize {
        self.buffer.len() - self.position
    }

    /// Returns whether the bytes that are left are one `end`.
    pub fn is_end_then_eof(&self) -> bool {
        if self.bytes_remaining() != 1 {
            return false;
        }
        let mut place = Place::uninit();
        let mut last = self.clone();
        let op = last.read_in_frame(Some(FrameKind::Block), &mut place);
        op.is_ok_and(|op| op.is_end())
    }

    /// Returns the source of its operators.
    #[inline]
    fn source(&self) -> Source<'a> {
        Source {
            bytes: self.buffer,
            offset: self.original_offset,
            features: self.features,
        }
    }

    /// Returns a C struct with this many open frames.
    fn plain(&self, depth: u64) -> PlainReader {
        PlainReader {
            offset: self.original_offset,
            position: self.position as u64,
            depth,
            features: self.features.library_bits(),
            reserved: 0,
        }
    }

    /// Reads a value. `argument` is what the kind needs, else 0.
    #[inline]
    pub(crate) fn read_value(&mut self, kind: ValueKind, argument: u64) -> Result<PlainValue> {
        let mut reader = self.plain(0);
        let value = native::read_value(self.buffer, &mut reader, kind, argument)?;
        self.position = reader.position as usize;
        Ok(value)
    }

    /// Reads a number.
    #[inline]
    fn read_number(&mut self, kind: ValueKind) -> Result<u64> {
        Ok(self.read_value(kind, 0)?.number)
    }

    /// Reads a value of a type that can be read.
    #[inline]
    pub fn read<T>(&mut self) -> Result<T>
    where
        T: FromReader<'a>,
    {
        T::from_reader(self)
    }

    /// Reads a number of at most `limit`. `desc` says in an error what it counts.
    pub fn read_size(&mut self, limit: usize, desc: &str) -> Result<usize> {
        let size = self.read_value(ValueKind::Size, limit as u64);
        Ok(size.map_err(|error| error.of_size(desc))?.number as usize)
    }

    /// Reads a count of at most `limit`, and returns an iterator over as many values. Dropping it reads the rest.
    pub fn read_iter<'me, T>(
        &'me mut self,
        limit: usize,
        desc: &str,
    ) -> Result<BinaryReaderIter<'a, 'me, T>>
    where
        T: FromReader<'a>,
    {
        let remaining = self.read_size(limit, desc)?;
        Ok(BinaryReaderIter {
            remaining,
            reader: self,
            items: PhantomData,
        })
    }

    /// Reads this many bytes.
    pub fn read_bytes(&mut self, size: usize) -> Result<&'a [u8]> {
        self.read_value(ValueKind::Bytes, size as u64)?;
        Ok(&self.buffer[self.position - size..self.position])
    }

    /// Reads a length, and returns a reader of that many bytes.
    pub fn read_reader(&mut self) -> Result<BinaryReader<'a>> {
        let length = self.read_number(ValueKind::Sized)? as usize;
        Ok(self.part(self.position - length))
    }

    /// Returns a reader of the bytes from this position to the current one.
    fn part(&self, start: usize) -> BinaryReader<'a> {
        BinaryReader {
            buffer: &self.buffer[start..self.position],
            position: 0,
            original_offset: self.original_offset + start as u64,
            features: self.features,
        }
    }

    /// Returns a reader of the bytes that `f` reads. Panics if `f` goes back.
    pub fn skip(&mut self, f: impl FnOnce(&mut Self) -> Result<()>) -> Result<Self> {
        let mut after = self.clone();
        f(&mut after)?;
        let start = self.position;
        *self = after;
        Ok(self.part(start))
    }

    /// Reads four bytes, little-endian.
    pub fn read_u32(&mut self) -> Result<u32> {
        Ok(self.read_number(ValueKind::U32)? as u32)
    }

    /// Reads eight bytes, little-endian.
    pub fn read_u64(&mut self) -> Result<u64> {
        self.read_number(ValueKind::U64)
    }

    /// Reads a byte.
    #[inline]
    pub fn read_u8(&mut self) -> Result<u8> {
        Ok(self.read_number(ValueKind::U8)? as u8)
    }

    /// Reads an unsigned LEB128 number of 32 bits.
    #[inline]
    pub fn read_var_u32(&mut self) -> Result<u32> {
        Ok(self.read_number(ValueKind::VarU32)? as u32)
    }

    /// Reads an unsigned LEB128 number of 64 bits.
    #[inline]
    pub fn read_var_u64(&mut self) -> Result<u64> {
        self.read_number(ValueKind::VarU64)
    }

    /// Reads a signed LEB128 number of 32 bits.
    #[inline]
    pub fn read_var_i32(&mut self) -> Result<i32> {
        Ok(self.read_number(ValueKind::VarI32)? as i32)
    }

    /// Reads a signed LEB128 number of 33 bits.
    pub fn read_var_s33(&mut self) -> Result<i64> {
        Ok(self.read_number(ValueKind::VarS33)? as i64)
    }

    /// Reads a signed LEB128 number of 64 bits.
    pub fn read_var_i64(&mut self) -> Result<i64> {
        Ok(self.read_number(ValueKind::VarI64)? as i64)
    }

    /// Reads the four bytes of a float.
    pub fn read_f32(&mut self) -> Result<Ieee32> {
        Ok(Ieee32(self.read_u32()?))
    }

    /// Reads the eight bytes of a float.
    pub fn read_f64(&mut self) -> Result<Ieee64> {
        Ok(Ieee64(self.read_u64()?))
    }

    /// Reads a block type.
    pub(crate) fn read_block_type(&mut self) -> Result<BlockType> {
        Ok(self.read_value(ValueKind::BlockType, 0)?.block_type())
    }

    /// Reads a length of at most 100000 and a string of that many bytes.
    pub fn read_string(&mut self) -> Result<&'a str> {
        self.read_text(LONGEST_STRING)
    }

    /// Reads a length and a string of that many bytes.
    pub fn read_unlimited_string(&mut self) -> Result<&'a str> {
        self.read_text(usize::MAX)
    }

    /// Reads a length of at most 100000, and skips that many bytes.
    pub fn skip_string(&mut self) -> Result<()> {
        (_, *self) = self.string_bytes(LONGEST_STRING)?;
        Ok(())
    }

    /// Returns a length-prefixed string's bytes, and a reader after them.
    fn string_bytes(&self, limit: usize) -> Result<(&'a [u8], BinaryReader<'a>)> {
        let mut after = self.clone();
        let length = after.read_var_u32()? as usize;
        if length > limit {
            let last = after.original_position() - 1;
            return Err(Error::malformed(Malformed::StringSize, last));
        }
        let bytes = after.read_bytes(length)?;
        Ok((bytes, after))
    }

    /// Reads a string of at most `limit` bytes.
    fn read_text(&mut self, limit: usize) -> Result<&'a str> {
        let (bytes, after) = self.string_bytes(limit)?;
        let last = after.original_position() - 1;
        let text =
            std::str::from_utf8(bytes).map_err(|_| Error::malformed(Malformed::Utf8, last))?;
        *self = after;
        Ok(text)
    }
}

/// The iterator of [`BinaryReader::read_iter`]. It ends after an error.
pub struct BinaryReaderIter<'a, 'me, T: FromReader<'a>> {
    remaining: usize,
    reader: &'me mut BinaryReader<'a>,
    items: PhantomData<T>,
}

impl<'a, T> Iterator for BinaryReaderIter<'a, '_, T>
where
    T: FromReader<'a>,
{
    type Item = Result<T>;

    fn next(&mut self) -> Option<Result<T>> {
        self.remaining = self.remaining.checked_sub(1)?;
        let item = self.reader.read();
        if item.is_err() {
            self.remaining = 0;
        }
        Some(item)
    }

    fn size_hint(&self) -> (usize, Option<usize>) {
        (self.remaining, Some(self.remaining))
    }
}

impl<'a, T> Drop for BinaryReaderIter<'a, '_, T>
where
    T: FromReader<'a>,
{
    fn drop(&mut self) {
        while self.next().is_some() {}
    }
}

/// The frames for one operator: the caller's, and one that it may open.
type TwoFrames = [u8; 2];

impl<'a> BinaryReader<'a> {
    /// Checks that no frame of the stack is open and no byte is left.
    pub fn finish_expression(&self, stack: &impl FrameStack) -> Result<()> {
        let (frames, reader) = self.in_frame(stack.current_frame());
        Ok(native::finish(self.buffer, &frames, &reader)?)
    }

    /// Returns the C structs for one operator inside this frame.
    fn in_frame(&self, frame: Option<FrameKind>) -> (TwoFrames, PlainReader) {
        let innermost = frame.unwrap_or(FrameKind::Block).byte();
        ([innermost, 0], self.plain(u64::from(frame.is_some())))
    }

    /// Reads the operator inside this frame.
    fn read_in_frame<'o>(
        &mut self,
        frame: Option<FrameKind>,
        place: &'o mut Place,
    ) -> Result<&'o PlainOperator> {
        let (mut frames, mut reader) = self.in_frame(frame);
        let op = native::next(self.buffer, &mut frames, &mut reader, place)?;
        self.position = reader.position as usize;
        Ok(op)
    }

    /// Returns the error of a visitor without SIMD.
    #[cold]
    fn error_without_simd(&self, frame: Option<FrameKind>) -> Error {
        let (mut frames, mut reader) = self.in_frame(frame);
        let mut place = Place::uninit();
        match native::next_plain(self.buffer, &mut frames, &mut reader, &mut place) {
            Ok(op) => panic!("the library reads {op:?} for a visitor without SIMD"),
            Err(refusal) => Error::from(refusal),
        }
    }

    /// Reads an operator in the visitor's current frame, and calls the visitor's method.
    pub fn visit_operator<T>(&mut self, visitor: &mut T) -> Result<<T as VisitOperator<'a>>::Output>
    where
        T: VisitOperator<'a> + FrameStack,
    {
        let frame = visitor.current_frame();
        let start = self.position;
        let mut place = Place::uninit();
        let op = match self.read_in_frame(frame, &mut place) {
            Ok(op) if !op.is_simd() => return Ok(visit_not_simd(visitor, op, &self.source())),
            read => read,
        };
        if let Some(visitor) = visitor.simd_visitor() {
            return Ok(visit_simd(visitor, op?));
        }
        self.position = start;
        Err(self.error_without_simd(frame))
    }

    /// Returns the next operator in the stack's current frame, without advancing.
    pub fn peek_operator<T: FrameStack>(&self, stack: &T) -> Result<Operator<'a>> {
        let mut place = Place::uninit();
        let mut next = self.clone();
        let op = next.read_in_frame(stack.current_frame(), &mut place)?;
        Ok(operator_of(op, &self.source()))
    }
}
