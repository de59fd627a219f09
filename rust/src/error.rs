//! Errors.

use crate::native::{self, Refusal};
use std::fmt;

/// A result whose error is an [`Error`] in the bytes.
pub type Result<T, E = Error> = std::result::Result<T, E>;

/// Another name of [`Error`].
pub type BinaryReaderError = Error;

/// An error in the bytes: its text, and the offset where the bytes are wrong.
#[derive(Clone, Debug, PartialEq, Eq)]
pub struct Error {
    // Boxed, so that a `Result` is not larger than its value.
    inner: Box<Inner>,
}

#[derive(Clone, Debug, PartialEq, Eq)]
struct Inner {
    message: String,
    offset: u64,
    number: u32,
}

/// The library's number of a size above its limit.
const SIZE_OUT_OF_BOUNDS: u32 = 5;
/// The library's number of missing bytes.
const END_OF_DATA: u32 = 1;
/// The library's number of a first byte that begins no such thing.
const INVALID_LEADING_BYTE: u32 = 22;
/// The library's number of data after the last item of a section.
const DATA_AFTER_SECTION: u32 = 25;
/// The library's number of a malformed part of a module.
const MALFORMED: u32 = 26;
/// The library's number of four bytes that begin no module.
const BAD_MAGIC: u32 = 27;
/// The library's number of a module's unknown version.
const UNKNOWN_VERSION: u32 = 28;

/// A malformed part of a module, by the library's name. `docs/ERRORS-AND-FEATURES.md` has the texts.
#[derive(Clone, Copy)]
pub(crate) enum Malformed {
    Utf8 = 0,
    StringSize = 1,
    FieldMutability = 2,
    ContinuationType = 3,
    TypeIndex = 4,
    TableEncoding = 5,
    TableFlags = 6,
    MemoryFlags = 7,
    PageSize = 8,
    GlobalFlags = 9,
    TagAttributes = 10,
    ElementFlags = 11,
    ElementKind = 12,
    DataFlags = 13,
    SectionId = 14,
    SecondModule = 15,
    SectionOrder = 17,
    StartContent = 18,
    DataCountContent = 19,
    CodeContent = 20,
    NameContent = 21,
    FunctionCounts = 22,
    NoCode = 23,
    NoFunctions = 24,
    DataCounts = 25,
    NoData = 26,
}

/// What a first byte begins, by the library's name.
#[derive(Clone, Copy)]
pub(crate) enum LeadingByte {
    Type = 2,
    ExternalKind = 3,
}

impl Error {
    #[cold]
    fn with_number(message: String, offset: u64, number: u32) -> Error {
        Error {
            inner: Box::new(Inner {
                message,
                offset,
                number,
            }),
        }
    }

    /// Creates an error that the library does not have.
    pub(crate) fn new(message: impl Into<String>, offset: u64) -> Error {
        Error::with_number(message.into(), offset, 0)
    }

    /// Creates the error of a module that is not valid. The message may be missing, after an allocation failure.
    #[cfg(feature = "validate")]
    pub(crate) fn of_module(refusal: Refusal, message: String) -> Error {
        if message.is_empty() {
            return Error::from(refusal);
        }
        Error::with_number(message, refusal.offset, refusal.number)
    }

    /// Names what a size counts, if this is the error of a size above its limit.
    pub(crate) fn of_size(mut self, desc: &str) -> Error {
        if self.inner.number == SIZE_OUT_OF_BOUNDS {
            self.inner.message = format!("{desc} size is out of bounds");
        }
        self
    }

    /// Creates an error about a part of a module.
    pub(crate) fn malformed(what: Malformed, offset: u64) -> Error {
        Error::from(Refusal {
            offset,
            number: MALFORMED,
            name: what as u32,
            ..Refusal::default()
        })
    }

    /// Creates the error of a first byte that begins no such thing.
    pub(crate) fn leading_byte(what: LeadingByte, byte: u8, offset: u64) -> Error {
        Error::from(Refusal {
            offset,
            number: INVALID_LEADING_BYTE,
            name: what as u32,
            value: u32::from(byte),
            ..Refusal::default()
        })
    }

    /// Creates the error of bytes that are missing.
    pub(crate) fn end_of_data(offset: u64) -> Error {
        Error::from(Refusal {
            offset,
            number: END_OF_DATA,
            ..Refusal::default()
        })
    }

    /// Creates the error of the first four bytes of a module, little-endian.
    pub(crate) fn bad_magic(value: u32, offset: u64) -> Error {
        Error::from(Refusal {
            offset,
            number: BAD_MAGIC,
            value,
            ..Refusal::default()
        })
    }

    /// Creates the error of the version of a module.
    pub(crate) fn unknown_version(value: u32, offset: u64) -> Error {
        Error::from(Refusal {
            offset,
            number: UNKNOWN_VERSION,
            value,
            ..Refusal::default()
        })
    }

    /// Creates the error of data after the last item of a section.
    pub(crate) fn data_after_section(offset: u64) -> Error {
        Error::from(Refusal {
            offset,
            number: DATA_AFTER_SECTION,
            ..Refusal::default()
        })
    }

    /// Returns the text.
    pub fn message(&self) -> &str {
        &self.inner.message
    }

    /// Returns the offset.
    pub fn offset(&self) -> u64 {
        self.inner.offset
    }

    /// Returns the library's number of the error, or 0 for an error that only this crate has. wasmparser has no numbers.
    pub fn number(&self) -> u32 {
        self.inner.number
    }
}

impl From<Refusal> for Error {
    #[cold]
    fn from(refusal: Refusal) -> Error {
        Error::with_number(text_of(&refusal), refusal.offset, refusal.number)
    }
}

/// Returns the text of the library's error.
fn text_of(refusal: &Refusal) -> String {
    let value = refusal.value;
    match refusal.number {
        101 => String::from("offsets do not fit in 64 bits"),
        104 => String::from("no operator begins there"),
        106 => String::from(match value {
            1 => "not a module, but a component",
            2 => "not a module of version 1",
            _ => "not a WebAssembly module",
        }),
        107 => format!("invalid kind of an import: 0x{value:x}"),
        108 => format!("invalid kind of a type: 0x{value:x}"),
        109 => String::from("the numbers of functions and bodies differ"),
        110 => String::from("the module does not define a function with this index"),
        113 => String::from("the module is not valid"),
        _ => native::refusal_text(refusal),
    }
}

impl fmt::Display for Error {
    fn fmt(&self, f: &mut fmt::Formatter<'_>) -> fmt::Result {
        let Inner {
            message, offset, ..
        } = &*self.inner;
        write!(f, "{message} (at offset 0x{offset:x})")
    }
}

impl std::error::Error for Error {}
