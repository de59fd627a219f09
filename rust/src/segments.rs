//! Tables, globals, element segments and data segments. Specification: Modules.

use crate::error::Malformed;
use crate::from_reader::whole;
use crate::{
    BinaryReader, ConstExpr, Error, ExternalKind, FromReader, GlobalType, RefType, Result,
    SectionLimited, TableType,
};
use std::ops::Range;

/// A table section.
pub type TableSectionReader<'a> = SectionLimited<'a, Table<'a>>;
/// A global section.
pub type GlobalSectionReader<'a> = SectionLimited<'a, Global<'a>>;
/// An element section.
pub type ElementSectionReader<'a> = SectionLimited<'a, Element<'a>>;
/// A data section.
pub type DataSectionReader<'a> = SectionLimited<'a, Data<'a>>;

/// A table.
#[derive(Clone, Debug)]
pub struct Table<'a> {
    /// The type.
    pub ty: TableType,
    /// The first value of the elements.
    pub init: TableInit<'a>,
}

/// The first value of a table's elements.
#[derive(Clone, Debug)]
pub enum TableInit<'a> {
    /// Null.
    RefNull,
    /// The value of an expression.
    Expr(ConstExpr<'a>),
}

impl<'a> FromReader<'a> for Table<'a> {
    fn from_reader(reader: &mut BinaryReader<'a>) -> Result<Self> {
        whole(reader, |reader| {
            if reader.peek()? != 0x40 {
                return Ok(Table {
                    ty: reader.read()?,
                    init: TableInit::RefNull,
                });
            }
            reader.read_u8()?;
            let at = reader.original_position();
            if reader.read_u8()? != 0 {
                return Err(Error::malformed(Malformed::TableEncoding, at));
            }
            Ok(Table {
                ty: reader.read()?,
                init: TableInit::Expr(reader.read()?),
            })
        })
    }
}

/// A global.
#[derive(Clone, Debug)]
pub struct Global<'a> {
    /// The type.
    pub ty: GlobalType,
    /// The first value.
    pub init_expr: ConstExpr<'a>,
}

impl<'a> FromReader<'a> for Global<'a> {
    fn from_reader(reader: &mut BinaryReader<'a>) -> Result<Self> {
        whole(reader, |reader| {
            Ok(Global {
                ty: reader.read()?,
                init_expr: reader.read()?,
            })
        })
    }
}

/// An element segment.
#[derive(Clone)]
pub struct Element<'a> {
    /// How it is used.
    pub kind: ElementKind<'a>,
    /// The elements.
    pub items: ElementItems<'a>,
    /// The offsets of its bytes.
    pub range: Range<u64>,
}

/// How an element segment is used.
#[derive(Clone)]
pub enum ElementKind<'a> {
    /// By `table.init`.
    Passive,
    /// Copied to a table when the module is instantiated.
    Active {
        /// The index of the table, if it is in the bytes. Otherwise it is 0.
        table_index: Option<u32>,
        /// The first index in the table.
        offset_expr: ConstExpr<'a>,
    },
    /// To declare functions for `ref.func`.
    Declared,
}

/// The elements of a segment.
#[derive(Clone)]
pub enum ElementItems<'a> {
    /// The indices of functions.
    Functions(SectionLimited<'a, u32>),
    /// A type, and expressions of this type.
    Expressions(RefType, SectionLimited<'a, ConstExpr<'a>>),
}

// The bits of the flags of an element segment.
const NOT_ACTIVE: u32 = 1;
/// The segment is declared, or has the index of a table.
const DECLARED: u32 = 2;
const EXPRESSIONS: u32 = 4;

impl<'a> FromReader<'a> for Element<'a> {
    fn from_reader(reader: &mut BinaryReader<'a>) -> Result<Self> {
        whole(reader, |reader| {
            let start = reader.original_position();
            let flags = reader.read_var_u32()?;
            if flags & !(NOT_ACTIVE | DECLARED | EXPRESSIONS) != 0 {
                let last = reader.original_position() - 1;
                return Err(Error::malformed(Malformed::ElementFlags, last));
            }
            let kind = read_element_kind(reader, flags)?;
            let items = read_element_items(reader, flags)?;
            let range = start..reader.original_position();
            Ok(Element { kind, items, range })
        })
    }
}

fn read_element_kind<'a>(reader: &mut BinaryReader<'a>, flags: u32) -> Result<ElementKind<'a>> {
    if flags & NOT_ACTIVE != 0 {
        return Ok(if flags & DECLARED != 0 {
            ElementKind::Declared
        } else {
            ElementKind::Passive
        });
    }
    let table_index = if flags & DECLARED != 0 {
        Some(reader.read_var_u32()?)
    } else {
        None
    };
    Ok(ElementKind::Active {
        table_index,
        offset_expr: reader.read()?,
    })
}

/// Reads the type or kind of the elements, which the first form of each sort lacks, and the elements.
fn read_element_items<'a>(reader: &mut BinaryReader<'a>, flags: u32) -> Result<ElementItems<'a>> {
    let has_type = flags & (NOT_ACTIVE | DECLARED) != 0;
    if flags & EXPRESSIONS != 0 {
        let ty = if has_type {
            reader.read()?
        } else {
            RefType::FUNCREF
        };
        let items = reader.skip(skip_items::<ConstExpr<'_>>)?;
        return Ok(ElementItems::Expressions(ty, SectionLimited::new(items)?));
    }
    if has_type && reader.read::<ExternalKind>()? != ExternalKind::Func {
        let at = reader.original_position() - 1;
        return Err(Error::malformed(Malformed::ElementKind, at));
    }
    let items = reader.skip(skip_items::<u32>)?;
    Ok(ElementItems::Functions(SectionLimited::new(items)?))
}

/// Reads a count and as many items.
pub(crate) fn skip_items<'a, T: FromReader<'a>>(reader: &mut BinaryReader<'a>) -> Result<()> {
    for _ in 0..reader.read_var_u32()? {
        reader.read::<T>()?;
    }
    Ok(())
}

/// A data segment.
#[derive(Clone, Debug)]
pub struct Data<'a> {
    /// How it is used.
    pub kind: DataKind<'a>,
    /// The data.
    pub data: &'a [u8],
    /// The offsets of its bytes.
    pub range: Range<u64>,
}

/// How a data segment is used.
#[derive(Clone, Debug)]
pub enum DataKind<'a> {
    /// By `memory.init` and by operators of arrays.
    Passive,
    /// Copied to a memory when the module is instantiated.
    Active {
        /// The index of the memory.
        memory_index: u32,
        /// The first address in the memory.
        offset_expr: ConstExpr<'a>,
    },
}

impl<'a> FromReader<'a> for Data<'a> {
    fn from_reader(reader: &mut BinaryReader<'a>) -> Result<Self> {
        whole(reader, |reader| {
            let start = reader.original_position();
            let flags = reader.read_var_u32()?;
            let kind = match flags {
                1 => DataKind::Passive,
                0 | 2 => DataKind::Active {
                    memory_index: if flags == 2 {
                        reader.read_var_u32()?
                    } else {
                        0
                    },
                    offset_expr: reader.read()?,
                },
                _ => return Err(Error::malformed(Malformed::DataFlags, start)),
            };
            let data = reader.read_reader()?.remaining_buffer();
            let range = start..reader.original_position();
            Ok(Data { kind, data, range })
        })
    }
}
