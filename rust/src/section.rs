//! Sections: counted items that fill their bytes.

use crate::{BinaryReader, Error, FromReader, Result};
use std::fmt;
use std::marker::PhantomData;
use std::ops::Range;

/// A section: a count, and as many items of type `T`.
pub struct SectionLimited<'a, T> {
    reader: BinaryReader<'a>,
    count: u32,
    items: PhantomData<T>,
}

impl<'a, T> SectionLimited<'a, T> {
    /// Reads the count of a section whose bytes are left in the reader.
    pub fn new(mut reader: BinaryReader<'a>) -> Result<Self> {
        let count = reader.read_var_u32()?;
        Ok(SectionLimited {
            reader,
            count,
            items: PhantomData,
        })
    }

    /// Returns the count.
    pub fn count(&self) -> u32 {
        self.count
    }

    /// Returns the offset of the first item.
    pub fn original_position(&self) -> u64 {
        self.reader.original_position()
    }

    /// Returns the offsets of the reader's bytes, with the count.
    pub fn range(&self) -> Range<u64> {
        self.reader.range()
    }

    /// Returns an iterator over the items with their offsets.
    pub fn into_iter_with_offsets(self) -> SectionLimitedIntoIterWithOffsets<'a, T>
    where
        T: FromReader<'a>,
    {
        SectionLimitedIntoIterWithOffsets {
            items: self.into_iter(),
        }
    }
}

// By hand, because a derive would require `T: Clone` and `T: Debug`.
impl<T> Clone for SectionLimited<'_, T> {
    fn clone(&self) -> Self {
        SectionLimited {
            reader: self.reader.clone(),
            count: self.count,
            items: PhantomData,
        }
    }
}

impl<T> fmt::Debug for SectionLimited<'_, T> {
    fn fmt(&self, f: &mut fmt::Formatter<'_>) -> fmt::Result {
        f.debug_struct("SectionLimited")
            .field("count", &self.count)
            .field("range", &self.range())
            .finish()
    }
}

impl<'a, T> IntoIterator for SectionLimited<'a, T>
where
    T: FromReader<'a>,
{
    type Item = Result<T>;
    type IntoIter = SectionLimitedIntoIter<'a, T>;

    fn into_iter(self) -> Self::IntoIter {
        SectionLimitedIntoIter {
            remaining: self.count,
            section: self,
            is_over: false,
        }
    }
}

/// An iterator over the items of a section, which must fill it. It ends after an error.
pub struct SectionLimitedIntoIter<'a, T> {
    section: SectionLimited<'a, T>,
    remaining: u32,
    is_over: bool,
}

impl<T> SectionLimitedIntoIter<'_, T> {
    /// Returns the offset of the next item.
    pub fn original_position(&self) -> u64 {
        self.section.reader.original_position()
    }

    /// Checks that no byte is left.
    fn finish(&self) -> Result<()> {
        if self.section.reader.eof() {
            Ok(())
        } else {
            Err(Error::data_after_section(self.original_position()))
        }
    }
}

impl<'a, T> Iterator for SectionLimitedIntoIter<'a, T>
where
    T: FromReader<'a>,
{
    type Item = Result<T>;

    fn next(&mut self) -> Option<Result<T>> {
        if self.is_over {
            return None;
        }
        if self.remaining == 0 {
            self.is_over = true;
            return self.finish().err().map(Err);
        }
        let item = self.section.reader.read();
        self.is_over = item.is_err();
        self.remaining -= 1;
        Some(item)
    }

    /// Returns the number of items left as both bounds. An error about data after the items is one more.
    fn size_hint(&self) -> (usize, Option<usize>) {
        (self.remaining as usize, Some(self.remaining as usize))
    }
}

impl<'a, T> ExactSizeIterator for SectionLimitedIntoIter<'a, T> where T: FromReader<'a> {}

/// An iterator over the items of a section with their offsets.
pub struct SectionLimitedIntoIterWithOffsets<'a, T> {
    items: SectionLimitedIntoIter<'a, T>,
}

impl<'a, T> Iterator for SectionLimitedIntoIterWithOffsets<'a, T>
where
    T: FromReader<'a>,
{
    type Item = Result<(u64, T)>;

    fn next(&mut self) -> Option<Self::Item> {
        let offset = self.items.original_position();
        Some(self.items.next()?.map(|item| (offset, item)))
    }

    fn size_hint(&self) -> (usize, Option<usize>) {
        self.items.size_hint()
    }
}

impl<'a, T> ExactSizeIterator for SectionLimitedIntoIterWithOffsets<'a, T> where T: FromReader<'a> {}
