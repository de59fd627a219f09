//! Subsections, and the custom section `name`. Specification: Custom Sections, Name Section.

use crate::error::Malformed;
use crate::from_reader::whole;
use crate::{BinaryReader, Error, FromReader, Result, SectionLimited};
use std::fmt;
use std::marker::PhantomData;
use std::ops::Range;

/// A subsection of a section.
pub trait Subsection<'a>: Sized {
    /// Reads the subsection with this id, whose bytes are left in the reader.
    fn from_reader(id: u8, reader: BinaryReader<'a>) -> Result<Self>;
}

/// A section that consists of subsections: an iterator over them. It ends at a subsection without an end.
pub struct Subsections<'a, T> {
    reader: BinaryReader<'a>,
    items: PhantomData<T>,
}

impl<'a, T> Subsections<'a, T> {
    /// Creates an iterator over the subsections in the bytes that are left in the reader.
    pub fn new(reader: BinaryReader<'a>) -> Self {
        Subsections {
            reader,
            items: PhantomData,
        }
    }

    /// Returns the offset of the next subsection.
    pub fn original_position(&self) -> u64 {
        self.reader.original_position()
    }

    /// Returns the offsets of all bytes.
    pub fn range(&self) -> Range<u64> {
        self.reader.range()
    }

    /// Reads the id and the contents of the next subsection.
    fn advance(&mut self) -> Result<(u8, BinaryReader<'a>)> {
        whole(&mut self.reader, |reader| {
            let at = reader.original_position();
            let id = reader.read_u8()?;
            if id > 127 {
                return Err(Error::new("invalid u7", at));
            }
            Ok((id, reader.read_reader()?))
        })
    }
}

// By hand, because a derive would require `T: Clone` and `T: Debug`.
impl<T> Clone for Subsections<'_, T> {
    fn clone(&self) -> Self {
        Subsections {
            reader: self.reader.clone(),
            items: PhantomData,
        }
    }
}

impl<T> fmt::Debug for Subsections<'_, T> {
    fn fmt(&self, f: &mut fmt::Formatter<'_>) -> fmt::Result {
        f.debug_struct("Subsections")
            .field("range", &self.range())
            .finish()
    }
}

impl<'a, T> Iterator for Subsections<'a, T>
where
    T: Subsection<'a>,
{
    type Item = Result<T>;

    fn next(&mut self) -> Option<Result<T>> {
        if self.reader.eof() {
            return None;
        }
        let part = self.advance();
        if part.is_err() {
            // There is nothing to go on with.
            let left = self.reader.bytes_remaining();
            let _ = self.reader.read_bytes(left);
        }
        Some(part.and_then(|(id, reader)| T::from_reader(id, reader)))
    }
}

/// The custom section `name`.
pub type NameSectionReader<'a> = Subsections<'a, Name<'a>>;
/// Names by their indices.
pub type NameMap<'a> = SectionLimited<'a, Naming<'a>>;
/// Maps of names by the index of what they belong to.
pub type IndirectNameMap<'a> = SectionLimited<'a, IndirectNaming<'a>>;

/// A name.
#[derive(Clone, Copy, Debug)]
pub struct Naming<'a> {
    /// The index of what has the name.
    pub index: u32,
    /// The name.
    pub name: &'a str,
}

impl<'a> FromReader<'a> for Naming<'a> {
    fn from_reader(reader: &mut BinaryReader<'a>) -> Result<Self> {
        whole(reader, |reader| {
            Ok(Naming {
                index: reader.read_var_u32()?,
                name: reader.read_unlimited_string()?,
            })
        })
    }
}

/// The names of what belongs to a function or type.
#[derive(Clone, Debug)]
pub struct IndirectNaming<'a> {
    /// The index of the function or type.
    pub index: u32,
    /// The names.
    pub names: NameMap<'a>,
}

impl<'a> FromReader<'a> for IndirectNaming<'a> {
    fn from_reader(reader: &mut BinaryReader<'a>) -> Result<Self> {
        whole(reader, |reader| {
            let index = reader.read_var_u32()?;
            let names = reader.skip(|reader| {
                for _ in 0..reader.read_var_u32()? {
                    reader.read_var_u32()?;
                    reader.skip_string()?;
                }
                Ok(())
            })?;
            Ok(IndirectNaming {
                index,
                names: NameMap::new(names)?,
            })
        })
    }
}

/// A subsection of the custom section `name`.
#[derive(Clone)]
pub enum Name<'a> {
    /// The name of the module.
    Module {
        /// The name.
        name: &'a str,
        /// The offsets of its bytes, with the length.
        name_range: Range<u64>,
    },
    /// Names of functions.
    Function(NameMap<'a>),
    /// Names of the locals of functions.
    Local(IndirectNameMap<'a>),
    /// Names of the labels of functions.
    Label(IndirectNameMap<'a>),
    /// Names of types.
    Type(NameMap<'a>),
    /// Names of tables.
    Table(NameMap<'a>),
    /// Names of memories.
    Memory(NameMap<'a>),
    /// Names of globals.
    Global(NameMap<'a>),
    /// Names of element segments.
    Element(NameMap<'a>),
    /// Names of data segments.
    Data(NameMap<'a>),
    /// Names of the fields of types.
    Field(IndirectNameMap<'a>),
    /// Names of tags.
    Tag(NameMap<'a>),
    /// A subsection with another id.
    Unknown {
        /// The id.
        ty: u8,
        /// The contents.
        data: &'a [u8],
        /// The offsets of the contents.
        range: Range<u64>,
    },
}

impl<'a> Subsection<'a> for Name<'a> {
    fn from_reader(id: u8, mut reader: BinaryReader<'a>) -> Result<Self> {
        Ok(match id {
            0 => {
                let name = reader.read_string()?;
                if !reader.eof() {
                    let left = reader.original_position();
                    return Err(Error::malformed(Malformed::NameContent, left));
                }
                let name_range = reader.range();
                Name::Module { name, name_range }
            }
            1 => Name::Function(NameMap::new(reader)?),
            2 => Name::Local(IndirectNameMap::new(reader)?),
            3 => Name::Label(IndirectNameMap::new(reader)?),
            4 => Name::Type(NameMap::new(reader)?),
            5 => Name::Table(NameMap::new(reader)?),
            6 => Name::Memory(NameMap::new(reader)?),
            7 => Name::Global(NameMap::new(reader)?),
            8 => Name::Element(NameMap::new(reader)?),
            9 => Name::Data(NameMap::new(reader)?),
            10 => Name::Field(IndirectNameMap::new(reader)?),
            11 => Name::Tag(NameMap::new(reader)?),
            ty => Name::Unknown {
                ty,
                data: reader.remaining_buffer(),
                range: reader.range(),
            },
        })
    }
}
