//! Custom sections. Specification: Custom Sections.

use crate::from_reader::whole;
use crate::segments::skip_items;
use crate::{
    BinaryReader, Dylink0SectionReader, Error, FromReader, NameSectionReader, Result,
    SectionLimited,
};
use std::fmt;
use std::ops::Range;

/// A custom section.
#[derive(Clone)]
pub struct CustomSectionReader<'a> {
    name: &'a str,
    reader: BinaryReader<'a>,
}

impl<'a> CustomSectionReader<'a> {
    /// Reads the name of a section whose bytes are left in the reader.
    pub fn new(mut reader: BinaryReader<'a>) -> Result<CustomSectionReader<'a>> {
        let name = reader.read_string()?;
        Ok(CustomSectionReader { name, reader })
    }

    /// Returns the name.
    pub fn name(&self) -> &'a str {
        self.name
    }

    /// Returns the offset of the first byte after the name.
    pub fn data_offset(&self) -> u64 {
        self.reader.original_position()
    }

    /// Returns the bytes after the name.
    pub fn data(&self) -> &'a [u8] {
        self.reader.remaining_buffer()
    }

    /// Returns the offsets of the contents, with the name.
    pub fn range(&self) -> Range<u64> {
        self.reader.range()
    }

    /// Returns a reader of the section if this crate has one for its name, and if its first number can be read.
    pub fn as_known(&self) -> KnownCustom<'a> {
        let data = self.reader.shrink();
        match self.name {
            "name" => KnownCustom::Name(NameSectionReader::new(data)),
            "dylink.0" => KnownCustom::Dylink0(Dylink0SectionReader::new(data)),
            "metadata.code.branch_hint" => BranchHintSectionReader::new(data)
                .map_or(KnownCustom::Unknown, KnownCustom::BranchHints),
            "producers" => ProducersSectionReader::new(data)
                .map_or(KnownCustom::Unknown, KnownCustom::Producers),
            _ => KnownCustom::Unknown,
        }
    }
}

/// The data is left out.
impl fmt::Debug for CustomSectionReader<'_> {
    fn fmt(&self, f: &mut fmt::Formatter<'_>) -> fmt::Result {
        f.debug_struct("CustomSectionReader")
            .field("name", &self.name)
            .field("data_offset", &self.data_offset())
            .field("data", &"...")
            .field("range", &self.range())
            .finish()
    }
}

/// A custom section by its name.
#[non_exhaustive]
pub enum KnownCustom<'a> {
    /// `name`
    Name(NameSectionReader<'a>),
    /// `metadata.code.branch_hint`
    BranchHints(BranchHintSectionReader<'a>),
    /// `producers`
    Producers(ProducersSectionReader<'a>),
    /// `dylink.0`
    Dylink0(Dylink0SectionReader<'a>),
    /// Another name, or a count that cannot be read.
    Unknown,
}

/// The custom section `producers`: the tools that made the module. Tool conventions, `ProducersSection.md`.
pub type ProducersSectionReader<'a> = SectionLimited<'a, ProducersField<'a>>;

/// A field of the section `producers`.
#[derive(Clone, Debug)]
pub struct ProducersField<'a> {
    /// The name: `language`, `sdk` or `processed-by`.
    pub name: &'a str,
    /// The values.
    pub values: SectionLimited<'a, ProducersFieldValue<'a>>,
}

/// A value of a field.
#[derive(Clone, Copy, Debug)]
pub struct ProducersFieldValue<'a> {
    /// The name of a language or tool.
    pub name: &'a str,
    /// Its version.
    pub version: &'a str,
}

impl<'a> FromReader<'a> for ProducersField<'a> {
    fn from_reader(reader: &mut BinaryReader<'a>) -> Result<Self> {
        whole(reader, |reader| {
            let at = reader.original_position();
            let name = reader.read_string()?;
            if !["language", "sdk", "processed-by"].contains(&name) {
                let text = format!("invalid producers field name: `{name}`");
                return Err(Error::new(text, at));
            }
            let values = reader.skip(|reader| {
                for _ in 0..reader.read_var_u32()? {
                    reader.skip_string()?;
                    reader.skip_string()?;
                }
                Ok(())
            })?;
            Ok(ProducersField {
                name,
                values: SectionLimited::new(values)?,
            })
        })
    }
}

impl<'a> FromReader<'a> for ProducersFieldValue<'a> {
    fn from_reader(reader: &mut BinaryReader<'a>) -> Result<Self> {
        let (name, version) = reader.read()?;
        Ok(ProducersFieldValue { name, version })
    }
}

/// The custom section `metadata.code.branch_hint`. Specification: Custom Sections, Branch hints.
pub type BranchHintSectionReader<'a> = SectionLimited<'a, BranchHintFunction<'a>>;

/// The hints of a function.
#[derive(Clone, Debug)]
pub struct BranchHintFunction<'a> {
    /// The index of the function.
    pub func: u32,
    /// The hints.
    pub hints: SectionLimited<'a, BranchHint>,
}

/// The hint of a branch.
#[derive(Clone, Copy, Debug)]
pub struct BranchHint {
    /// The offset of the branch from the start of the function body.
    pub func_offset: u32,
    /// Whether the branch is likely.
    pub taken: bool,
}

impl<'a> FromReader<'a> for BranchHintFunction<'a> {
    fn from_reader(reader: &mut BinaryReader<'a>) -> Result<Self> {
        whole(reader, |reader| {
            let func = reader.read_var_u32()?;
            let hints = reader.skip(skip_items::<BranchHint>)?;
            Ok(BranchHintFunction {
                func,
                hints: SectionLimited::new(hints)?,
            })
        })
    }
}

impl<'a> FromReader<'a> for BranchHint {
    fn from_reader(reader: &mut BinaryReader<'a>) -> Result<Self> {
        whole(reader, |reader| {
            let func_offset = reader.read_var_u32()?;
            read_hint_byte(reader, 1..=1, "invalid branch hint byte")?;
            let taken = read_hint_byte(reader, 0..=1, "invalid branch hint taken byte")?;
            Ok(BranchHint {
                func_offset,
                taken: taken == 1,
            })
        })
    }
}

/// Reads a byte in a range.
fn read_hint_byte(
    reader: &mut BinaryReader<'_>,
    range: std::ops::RangeInclusive<u8>,
    desc: &str,
) -> Result<u8> {
    let at = reader.original_position();
    let byte = reader.read_u8()?;
    if range.contains(&byte) {
        Ok(byte)
    } else {
        let text = format!("invalid leading byte (0x{byte:x}) for {desc}");
        Err(Error::new(text, at))
    }
}
