//! The parts of a module.

use crate::{
    CustomSectionReader, DataSectionReader, ElementSectionReader, ExportSectionReader,
    FunctionBody, FunctionSectionReader, GlobalSectionReader, ImportSectionReader,
    MemorySectionReader, TableSectionReader, TagSectionReader, TypeSectionReader,
};
use std::fmt;
use std::ops::Range;

/// What a preamble begins.
#[derive(Clone, Copy, Debug, PartialEq, Eq)]
pub enum Encoding {
    /// A module.
    Module,
    /// A component, whose sections this crate does not read.
    Component,
}

/// A part of a module. Specification: Modules.
///
/// A section is framed, and its count is read. Its reader reads the items.
#[non_exhaustive]
pub enum Payload<'a> {
    /// The preamble.
    Version {
        /// The version.
        num: u16,
        /// What the preamble begins.
        encoding: Encoding,
        /// The offsets of the preamble.
        range: Range<u64>,
    },
    /// The type section.
    TypeSection(TypeSectionReader<'a>),
    /// The import section.
    ImportSection(ImportSectionReader<'a>),
    /// The function section.
    FunctionSection(FunctionSectionReader<'a>),
    /// The table section.
    TableSection(TableSectionReader<'a>),
    /// The memory section.
    MemorySection(MemorySectionReader<'a>),
    /// The tag section.
    TagSection(TagSectionReader<'a>),
    /// The global section.
    GlobalSection(GlobalSectionReader<'a>),
    /// The export section.
    ExportSection(ExportSectionReader<'a>),
    /// The start section.
    StartSection {
        /// The index of the function.
        func: u32,
        /// The offsets of the contents.
        range: Range<u64>,
    },
    /// The element section.
    ElementSection(ElementSectionReader<'a>),
    /// The data count section.
    DataCountSection {
        /// The number of data segments.
        count: u32,
        /// The offsets of the contents.
        range: Range<u64>,
    },
    /// The data section.
    DataSection(DataSectionReader<'a>),
    /// The start of the code section. `count` bodies follow, each as a `CodeSectionEntry`.
    CodeSectionStart {
        /// The number of bodies.
        count: u32,
        /// The offsets of the contents.
        range: Range<u64>,
        /// The size in bytes of the contents after the count.
        size: u32,
    },
    /// A function body.
    CodeSectionEntry(FunctionBody<'a>),
    /// A custom section.
    CustomSection(CustomSectionReader<'a>),
    /// A section with another id.
    UnknownSection {
        /// The id.
        id: u8,
        /// The contents.
        contents: &'a [u8],
        /// The offsets of the contents.
        range: Range<u64>,
    },
    /// The end, with its offset.
    End(u64),
}

/// The ids of sections.
pub(crate) mod id {
    pub(crate) const CUSTOM: u8 = 0;
    pub(crate) const TYPE: u8 = 1;
    pub(crate) const IMPORT: u8 = 2;
    pub(crate) const FUNCTION: u8 = 3;
    pub(crate) const TABLE: u8 = 4;
    pub(crate) const MEMORY: u8 = 5;
    pub(crate) const GLOBAL: u8 = 6;
    pub(crate) const EXPORT: u8 = 7;
    pub(crate) const START: u8 = 8;
    pub(crate) const ELEMENT: u8 = 9;
    pub(crate) const CODE: u8 = 10;
    pub(crate) const DATA: u8 = 11;
    pub(crate) const DATA_COUNT: u8 = 12;
    pub(crate) const TAG: u8 = 13;
}

impl Payload<'_> {
    /// Returns the id of the section and the offsets of its contents, unless this is no whole section.
    pub fn as_section(&self) -> Option<(u8, Range<u64>)> {
        Some(match self {
            Payload::TypeSection(section) => (id::TYPE, section.range()),
            Payload::ImportSection(section) => (id::IMPORT, section.range()),
            Payload::FunctionSection(section) => (id::FUNCTION, section.range()),
            Payload::TableSection(section) => (id::TABLE, section.range()),
            Payload::MemorySection(section) => (id::MEMORY, section.range()),
            Payload::TagSection(section) => (id::TAG, section.range()),
            Payload::GlobalSection(section) => (id::GLOBAL, section.range()),
            Payload::ExportSection(section) => (id::EXPORT, section.range()),
            Payload::StartSection { range, .. } => (id::START, range.clone()),
            Payload::ElementSection(section) => (id::ELEMENT, section.range()),
            Payload::DataCountSection { range, .. } => (id::DATA_COUNT, range.clone()),
            Payload::DataSection(section) => (id::DATA, section.range()),
            Payload::CodeSectionStart { range, .. } => (id::CODE, range.clone()),
            Payload::CustomSection(section) => (id::CUSTOM, section.range()),
            Payload::UnknownSection { id, range, .. } => (*id, range.clone()),
            Payload::Version { .. } | Payload::CodeSectionEntry(_) | Payload::End(_) => {
                return None;
            }
        })
    }

    /// Returns the name of a variant whose contents are not printed.
    fn name(&self) -> &'static str {
        match self {
            Payload::TypeSection(_) => "TypeSection",
            Payload::ImportSection(_) => "ImportSection",
            Payload::FunctionSection(_) => "FunctionSection",
            Payload::TableSection(_) => "TableSection",
            Payload::MemorySection(_) => "MemorySection",
            Payload::TagSection(_) => "TagSection",
            Payload::GlobalSection(_) => "GlobalSection",
            Payload::ExportSection(_) => "ExportSection",
            Payload::ElementSection(_) => "ElementSection",
            Payload::DataSection(_) => "DataSection",
            _ => "CodeSectionEntry",
        }
    }
}

/// The readers of sections and bodies are left out.
impl fmt::Debug for Payload<'_> {
    fn fmt(&self, f: &mut fmt::Formatter<'_>) -> fmt::Result {
        match self {
            Payload::Version {
                num,
                encoding,
                range,
            } => f
                .debug_struct("Version")
                .field("num", num)
                .field("encoding", encoding)
                .field("range", range)
                .finish(),
            Payload::StartSection { func, range } => f
                .debug_struct("StartSection")
                .field("func", func)
                .field("range", range)
                .finish(),
            Payload::DataCountSection { count, range } => f
                .debug_struct("DataCountSection")
                .field("count", count)
                .field("range", range)
                .finish(),
            Payload::CodeSectionStart { count, range, size } => f
                .debug_struct("CodeSectionStart")
                .field("count", count)
                .field("range", range)
                .field("size", size)
                .finish(),
            Payload::CustomSection(section) => {
                f.debug_tuple("CustomSection").field(section).finish()
            }
            Payload::UnknownSection { id, range, .. } => f
                .debug_struct("UnknownSection")
                .field("id", id)
                .field("range", range)
                .finish(),
            Payload::End(offset) => f.debug_tuple("End").field(offset).finish(),
            section => f.debug_tuple(section.name()).field(&"...").finish(),
        }
    }
}
