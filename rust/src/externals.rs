//! Imports, exports, and the types of tables, memories, globals and tags. Specification: Types, External types.

use crate::error::{LeadingByte, Malformed};
use crate::from_reader::whole;
use crate::{BinaryReader, Error, FromReader, RefType, Result, SectionLimited, ValType};

/// An import section.
pub type ImportSectionReader<'a> = SectionLimited<'a, Import<'a>>;
/// A function section: the indices of the functions' types.
pub type FunctionSectionReader<'a> = SectionLimited<'a, u32>;
/// A memory section.
pub type MemorySectionReader<'a> = SectionLimited<'a, MemoryType>;
/// A tag section.
pub type TagSectionReader<'a> = SectionLimited<'a, TagType>;
/// An export section.
pub type ExportSectionReader<'a> = SectionLimited<'a, Export<'a>>;

/// The type of a table. Limits have 64 bits if the reader has the feature memory64, whatever the address type.
#[derive(Clone, Copy, Debug, PartialEq, Eq, Hash)]
pub struct TableType {
    /// The type of the elements.
    pub element_type: RefType,
    /// Whether indices are `i64`.
    pub table64: bool,
    /// The least size in elements.
    pub initial: u64,
    /// The greatest size in elements, if there is one.
    pub maximum: Option<u64>,
    /// Whether the table is shared between threads.
    pub shared: bool,
}

impl TableType {
    /// Returns the type of the indices.
    pub fn index_type(&self) -> ValType {
        address_type(self.table64)
    }
}

/// The type of a memory. Limits have 64 bits if the reader has the feature memory64, whatever the address type.
#[derive(Clone, Copy, Debug, PartialEq, Eq, Hash)]
pub struct MemoryType {
    /// Whether addresses are `i64`.
    pub memory64: bool,
    /// Whether the memory is shared between threads.
    pub shared: bool,
    /// The least size in pages.
    pub initial: u64,
    /// The greatest size in pages, if there is one.
    pub maximum: Option<u64>,
    /// The binary logarithm of the size of a page in bytes, if it is in the bytes. Otherwise it is 16.
    pub page_size_log2: Option<u32>,
}

impl MemoryType {
    /// Returns the type of the addresses.
    pub fn index_type(&self) -> ValType {
        address_type(self.memory64)
    }
}

/// Returns the type of addresses with 64 or 32 bits.
fn address_type(is_64: bool) -> ValType {
    if is_64 { ValType::I64 } else { ValType::I32 }
}

/// The bits of the flags byte of limits.
const HAS_MAXIMUM: u8 = 1;
const SHARED: u8 = 2;
const IS_64: u8 = 4;
const HAS_PAGE_SIZE: u8 = 8;

/// The binary logarithm of a page's size is smaller.
const PAGE_SIZES: u32 = 64;

/// Reads a limit.
fn read_limit(reader: &mut BinaryReader<'_>) -> Result<u64> {
    if reader.features().memory64() {
        reader.read_var_u64()
    } else {
        Ok(u64::from(reader.read_var_u32()?))
    }
}

/// Reads the limits after their flags.
fn read_limits(reader: &mut BinaryReader<'_>, flags: u8) -> Result<(u64, Option<u64>)> {
    let initial = read_limit(reader)?;
    let maximum = if flags & HAS_MAXIMUM == 0 {
        None
    } else {
        Some(read_limit(reader)?)
    };
    Ok((initial, maximum))
}

/// Reads a byte, and returns it with its offset.
fn read_flags(reader: &mut BinaryReader<'_>) -> Result<(u8, u64)> {
    let offset = reader.original_position();
    Ok((reader.read_u8()?, offset))
}

impl<'a> FromReader<'a> for TableType {
    fn from_reader(reader: &mut BinaryReader<'a>) -> Result<Self> {
        whole(reader, |reader| {
            let element_type = reader.read()?;
            let (flags, at) = read_flags(reader)?;
            if flags & !(HAS_MAXIMUM | SHARED | IS_64) != 0 {
                return Err(Error::malformed(Malformed::TableFlags, at));
            }
            let (initial, maximum) = read_limits(reader, flags)?;
            Ok(TableType {
                element_type,
                table64: flags & IS_64 != 0,
                initial,
                maximum,
                shared: flags & SHARED != 0,
            })
        })
    }
}

impl<'a> FromReader<'a> for MemoryType {
    fn from_reader(reader: &mut BinaryReader<'a>) -> Result<Self> {
        whole(reader, |reader| {
            let (flags, at) = read_flags(reader)?;
            if flags & !(HAS_MAXIMUM | SHARED | IS_64 | HAS_PAGE_SIZE) != 0 {
                return Err(Error::malformed(Malformed::MemoryFlags, at));
            }
            let (initial, maximum) = read_limits(reader, flags)?;
            let mut page_size_log2 = None;
            if flags & HAS_PAGE_SIZE != 0 {
                let logarithm = reader.read_var_u32()?;
                if logarithm >= PAGE_SIZES {
                    return Err(Error::malformed(Malformed::PageSize, at));
                }
                page_size_log2 = Some(logarithm);
            }
            Ok(MemoryType {
                memory64: flags & IS_64 != 0,
                shared: flags & SHARED != 0,
                initial,
                maximum,
                page_size_log2,
            })
        })
    }
}

/// The type of a global.
#[derive(Clone, Copy, Debug, PartialEq, Eq, Hash)]
pub struct GlobalType {
    /// The type of the value.
    pub content_type: ValType,
    /// Whether the value can be changed.
    pub mutable: bool,
    /// Whether the global is shared between threads.
    pub shared: bool,
}

impl<'a> FromReader<'a> for GlobalType {
    fn from_reader(reader: &mut BinaryReader<'a>) -> Result<Self> {
        whole(reader, |reader| {
            let content_type = reader.read()?;
            let (flags, at) = read_flags(reader)?;
            if flags > 3 {
                return Err(Error::malformed(Malformed::GlobalFlags, at));
            }
            Ok(GlobalType {
                content_type,
                mutable: flags & 1 != 0,
                shared: flags & 2 != 0,
            })
        })
    }
}

/// The kind of a tag.
#[derive(Clone, Copy, Debug, PartialEq, Eq)]
pub enum TagKind {
    /// Exceptions.
    Exception,
}

/// The type of a tag.
#[derive(Clone, Copy, Debug, PartialEq, Eq)]
pub struct TagType {
    /// The kind.
    pub kind: TagKind,
    /// The index of the function type.
    pub func_type_idx: u32,
}

impl<'a> FromReader<'a> for TagType {
    fn from_reader(reader: &mut BinaryReader<'a>) -> Result<Self> {
        whole(reader, |reader| {
            let (attribute, at) = read_flags(reader)?;
            if attribute != 0 {
                return Err(Error::malformed(Malformed::TagAttributes, at));
            }
            Ok(TagType {
                kind: TagKind::Exception,
                func_type_idx: reader.read_var_u32()?,
            })
        })
    }
}

/// What is imported or exported.
#[derive(Clone, Copy, Debug, PartialEq, Eq)]
pub enum ExternalKind {
    /// A function.
    Func,
    /// A table.
    Table,
    /// A memory.
    Memory,
    /// A global.
    Global,
    /// A tag.
    Tag,
    /// A function whose type is exact.
    FuncExact,
}

impl<'a> FromReader<'a> for ExternalKind {
    fn from_reader(reader: &mut BinaryReader<'a>) -> Result<Self> {
        whole(reader, |reader| {
            let (byte, at) = read_flags(reader)?;
            Ok(match byte {
                0x00 => ExternalKind::Func,
                0x01 => ExternalKind::Table,
                0x02 => ExternalKind::Memory,
                0x03 => ExternalKind::Global,
                0x04 => ExternalKind::Tag,
                0x20 => ExternalKind::FuncExact,
                _ => return Err(Error::leading_byte(LeadingByte::ExternalKind, byte, at)),
            })
        })
    }
}

/// The type of what is imported.
#[derive(Clone, Copy, Debug, PartialEq, Eq)]
pub enum TypeRef {
    /// A function, by the index of its type.
    Func(u32),
    /// A table.
    Table(TableType),
    /// A memory.
    Memory(MemoryType),
    /// A global.
    Global(GlobalType),
    /// A tag.
    Tag(TagType),
    /// A function with exactly the type of this index.
    FuncExact(u32),
}

impl<'a> FromReader<'a> for TypeRef {
    fn from_reader(reader: &mut BinaryReader<'a>) -> Result<Self> {
        whole(reader, |reader| {
            Ok(match reader.read()? {
                ExternalKind::Func => TypeRef::Func(reader.read_var_u32()?),
                ExternalKind::Table => TypeRef::Table(reader.read()?),
                ExternalKind::Memory => TypeRef::Memory(reader.read()?),
                ExternalKind::Global => TypeRef::Global(reader.read()?),
                ExternalKind::Tag => TypeRef::Tag(reader.read()?),
                ExternalKind::FuncExact => TypeRef::FuncExact(reader.read_var_u32()?),
            })
        })
    }
}

/// An import.
#[derive(Clone, Copy, Debug, PartialEq, Eq)]
pub struct Import<'a> {
    /// The name of the module.
    pub module: &'a str,
    /// The name in that module.
    pub name: &'a str,
    /// The type.
    pub ty: TypeRef,
}

impl<'a> FromReader<'a> for Import<'a> {
    fn from_reader(reader: &mut BinaryReader<'a>) -> Result<Self> {
        whole(reader, |reader| {
            Ok(Import {
                module: reader.read()?,
                name: reader.read()?,
                ty: reader.read()?,
            })
        })
    }
}

/// An export.
#[derive(Clone, Copy, Debug, PartialEq, Eq)]
pub struct Export<'a> {
    /// The name.
    pub name: &'a str,
    /// What is exported.
    pub kind: ExternalKind,
    /// Its index.
    pub index: u32,
}

impl<'a> FromReader<'a> for Export<'a> {
    fn from_reader(reader: &mut BinaryReader<'a>) -> Result<Self> {
        whole(reader, |reader| {
            Ok(Export {
                name: reader.read()?,
                kind: reader.read()?,
                index: reader.read_var_u32()?,
            })
        })
    }
}
