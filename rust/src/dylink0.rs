//! The custom section `dylink.0`. Tool conventions, `DynamicLinking.md`.

use crate::from_reader::whole;
use crate::{BinaryReader, FromReader, Result, Subsection, Subsections};
use std::fmt;
use std::ops::Range;

/// The custom section `dylink.0`.
pub type Dylink0SectionReader<'a> = Subsections<'a, Dylink0Subsection<'a>>;

/// A subsection of the section `dylink.0`.
#[derive(Debug)]
pub enum Dylink0Subsection<'a> {
    /// The memory and the table that the module needs.
    MemInfo(MemInfo),
    /// The names of the modules that are loaded first.
    Needed(Vec<&'a str>),
    /// The flags of exports.
    ExportInfo(Vec<ExportInfo<'a>>),
    /// The flags of imports.
    ImportInfo(Vec<ImportInfo<'a>>),
    /// The folders in which modules are looked for.
    RuntimePath(Vec<&'a str>),
    /// A subsection with another id.
    Unknown {
        /// The id.
        ty: u8,
        /// The contents.
        data: &'a [u8],
        /// The offsets of the contents.
        range: Range<u64>,
    },
}

/// The memory and the table that a module needs.
#[derive(Clone, Copy, Debug)]
pub struct MemInfo {
    /// The size of the memory in bytes.
    pub memory_size: u32,
    /// The alignment of the memory, as the exponent of a power of two.
    pub memory_alignment: u32,
    /// The size of the table in elements.
    pub table_size: u32,
    /// The alignment of the table, as the exponent of a power of two.
    pub table_alignment: u32,
}

/// The flags of an export.
#[derive(Debug)]
pub struct ExportInfo<'a> {
    /// The name of the export.
    pub name: &'a str,
    /// The flags.
    pub flags: SymbolFlags,
}

/// The flags of an import.
#[derive(Debug)]
pub struct ImportInfo<'a> {
    /// The name of the module.
    pub module: &'a str,
    /// The name in that module.
    pub field: &'a str,
    /// The flags.
    pub flags: SymbolFlags,
}

/// The flags of a symbol.
#[derive(Clone, Copy, Default, PartialEq, Eq, PartialOrd, Ord, Hash)]
pub struct SymbolFlags(u32);

/// The names of the flags by their bits.
const NAMES: [(u32, &str); 9] = [
    (1 << 0, "BINDING_WEAK"),
    (1 << 1, "BINDING_LOCAL"),
    (1 << 2, "VISIBILITY_HIDDEN"),
    (1 << 4, "UNDEFINED"),
    (1 << 5, "EXPORTED"),
    (1 << 6, "EXPLICIT_NAME"),
    (1 << 7, "NO_STRIP"),
    (1 << 8, "TLS"),
    (1 << 9, "ABSOLUTE"),
];

impl SymbolFlags {
    /// A weak symbol.
    pub const BINDING_WEAK: SymbolFlags = SymbolFlags(1 << 0);
    /// A symbol of this object.
    pub const BINDING_LOCAL: SymbolFlags = SymbolFlags(1 << 1);
    /// A symbol that is not exported from the linked module.
    pub const VISIBILITY_HIDDEN: SymbolFlags = SymbolFlags(1 << 2);
    /// A symbol without a definition.
    pub const UNDEFINED: SymbolFlags = SymbolFlags(1 << 4);
    /// A symbol that the linked module exports.
    pub const EXPORTED: SymbolFlags = SymbolFlags(1 << 5);
    /// A symbol with another name than the import.
    pub const EXPLICIT_NAME: SymbolFlags = SymbolFlags(1 << 6);
    /// A symbol that the linker keeps.
    pub const NO_STRIP: SymbolFlags = SymbolFlags(1 << 7);
    /// A symbol in the memory of a thread.
    pub const TLS: SymbolFlags = SymbolFlags(1 << 8);
    /// An absolute address.
    pub const ABSOLUTE: SymbolFlags = SymbolFlags(1 << 9);

    /// Returns the bits.
    pub const fn bits(&self) -> u32 {
        self.0
    }

    /// Returns the flags with these bits.
    pub const fn from_bits_retain(bits: u32) -> SymbolFlags {
        SymbolFlags(bits)
    }

    /// Returns whether no flag is set.
    pub const fn is_empty(&self) -> bool {
        self.0 == 0
    }

    /// Returns whether the other flags are set.
    pub const fn contains(&self, other: SymbolFlags) -> bool {
        self.0 & other.0 == other.0
    }

    /// Sets the other flags.
    pub const fn insert(&mut self, other: SymbolFlags) {
        self.0 |= other.0;
    }

    /// Unsets the other flags.
    pub const fn remove(&mut self, other: SymbolFlags) {
        self.0 &= !other.0;
    }
}

/// The names of the flags, and the other bits as a number.
impl fmt::Debug for SymbolFlags {
    fn fmt(&self, f: &mut fmt::Formatter<'_>) -> fmt::Result {
        let named = NAMES.iter().filter(|(bit, _)| self.0 & bit != 0);
        let mut names: Vec<String> = named.map(|(_, name)| name.to_string()).collect();
        let others = NAMES.iter().fold(self.0, |bits, (bit, _)| bits & !bit);
        if others != 0 || names.is_empty() {
            names.push(format!("0x{others:x}"));
        }
        write!(f, "SymbolFlags({})", names.join(" | "))
    }
}

impl fmt::LowerHex for SymbolFlags {
    fn fmt(&self, f: &mut fmt::Formatter<'_>) -> fmt::Result {
        fmt::LowerHex::fmt(&self.0, f)
    }
}

impl<'a> FromReader<'a> for SymbolFlags {
    fn from_reader(reader: &mut BinaryReader<'a>) -> Result<Self> {
        Ok(SymbolFlags(reader.read_var_u32()?))
    }
}

impl<'a> FromReader<'a> for MemInfo {
    fn from_reader(reader: &mut BinaryReader<'a>) -> Result<Self> {
        whole(reader, |reader| {
            Ok(MemInfo {
                memory_size: reader.read_var_u32()?,
                memory_alignment: reader.read_var_u32()?,
                table_size: reader.read_var_u32()?,
                table_alignment: reader.read_var_u32()?,
            })
        })
    }
}

impl<'a> FromReader<'a> for ExportInfo<'a> {
    fn from_reader(reader: &mut BinaryReader<'a>) -> Result<Self> {
        let (name, flags) = reader.read()?;
        Ok(ExportInfo { name, flags })
    }
}

impl<'a> FromReader<'a> for ImportInfo<'a> {
    fn from_reader(reader: &mut BinaryReader<'a>) -> Result<Self> {
        let (module, (field, flags)) = reader.read()?;
        Ok(ImportInfo {
            module,
            field,
            flags,
        })
    }
}

/// Reads a count and as many items.
fn read_list<'a, T: FromReader<'a>>(reader: &mut BinaryReader<'a>) -> Result<Vec<T>> {
    let mut list = Vec::new();
    for _ in 0..reader.read_var_u32()? {
        list.push(reader.read()?);
    }
    Ok(list)
}

impl<'a> Subsection<'a> for Dylink0Subsection<'a> {
    fn from_reader(id: u8, mut reader: BinaryReader<'a>) -> Result<Self> {
        Ok(match id {
            1 => Dylink0Subsection::MemInfo(reader.read()?),
            2 => Dylink0Subsection::Needed(read_list(&mut reader)?),
            3 => Dylink0Subsection::ExportInfo(read_list(&mut reader)?),
            4 => Dylink0Subsection::ImportInfo(read_list(&mut reader)?),
            5 => Dylink0Subsection::RuntimePath(read_list(&mut reader)?),
            ty => Dylink0Subsection::Unknown {
                ty,
                data: reader.remaining_buffer(),
                range: reader.range(),
            },
        })
    }
}
