//! Modules, whole and in pieces. Specification: Modules.

use crate::error::Malformed;
use crate::payload::id;
use crate::{
    BinaryReader, CustomSectionReader, Encoding, Error, FunctionBody, Payload, Result,
    SectionLimited, WasmFeatures,
};
use std::iter;
use std::ops::Range;

/// The bytes `\0asm`.
const MAGIC: [u8; 4] = *b"\0asm";
/// The version of a module.
const MODULE: u32 = 1;
/// The version of a component.
const COMPONENT: u32 = 0x0001_000d;
/// The greatest id of a section.
const MAX_ID: u8 = 127;

/// A reader of a module's parts. The bytes may arrive in pieces.
///
/// ```
/// use wasm_operators::{Parser, Payload, Result};
///
/// let module = [
///     0, 0x61, 0x73, 0x6d, 1, 0, 0, 0, // magic number and version
///     1, 5, 1, 0x60, 0, 1, 0x7f, // a type: no parameters, and the result i32
/// ];
/// for payload in Parser::new(0).parse_all(&module) {
///     if let Payload::TypeSection(types) = payload? {
///         let types = types.into_iter().collect::<Result<Vec<_>>>()?;
///         let signature = types[0].types().next().map(ToString::to_string);
///         assert_eq!(signature.as_deref(), Some("(func (result i32))"));
///     }
/// }
/// # Ok::<(), wasm_operators::Error>(())
/// ```
#[derive(Clone, Debug)]
pub struct Parser {
    state: State,
    offset: u64,
    encoding: Encoding,
    features: WasmFeatures,
    last: u8,
    counts: Counts,
}

/// What comes next.
#[derive(Clone, Copy, Debug)]
enum State {
    Preamble,
    Section,
    /// This many bodies, in this many bytes.
    Bodies {
        count: u32,
        size: u32,
    },
}

/// The counts of the sections that were read.
#[derive(Clone, Copy, Debug, Default)]
struct Counts {
    functions: Option<u32>,
    bodies: Option<u32>,
    data: Option<u32>,
    data_count: Option<u32>,
}

/// What [`Parser::parse`] returns.
#[derive(Debug)]
pub enum Chunk<'a> {
    /// No byte was read. At least this many more are needed.
    NeedMoreData(u64),
    /// A part was read.
    Parsed {
        /// The number of its bytes.
        consumed: usize,
        /// The part.
        payload: Payload<'a>,
    },
}

/// Why no part was read.
enum Stop {
    /// The data ends before the part does.
    Short {
        needed: u64,
        error: Error,
    },
    Wrong(Error),
}

impl From<Error> for Stop {
    fn from(error: Error) -> Stop {
        Stop::Wrong(error)
    }
}

/// Creates the reason that a part is malformed.
fn malformed(what: Malformed, offset: u64) -> Stop {
    Stop::Wrong(Error::malformed(what, offset))
}

impl Default for Parser {
    fn default() -> Parser {
        Parser::new(0)
    }
}

impl Parser {
    /// Creates a parser with all features. `offset` is the offset of the first byte.
    pub fn new(offset: u64) -> Parser {
        Parser {
            state: State::Preamble,
            offset,
            encoding: Encoding::Module,
            features: WasmFeatures::all(),
            last: 0,
            counts: Counts::default(),
        }
    }

    /// Returns whether the bytes start with the preamble of a module.
    pub fn is_core_wasm(bytes: &[u8]) -> bool {
        starts_with(bytes, MODULE)
    }

    /// Returns whether the bytes start with the preamble of a component.
    pub fn is_component(bytes: &[u8]) -> bool {
        starts_with(bytes, COMPONENT)
    }

    /// Returns the features with which sections are read.
    pub fn features(&self) -> WasmFeatures {
        self.features
    }

    /// Sets the features with which sections are read.
    pub fn set_features(&mut self, features: WasmFeatures) {
        self.features = features;
    }

    /// Returns the offset of the next byte.
    pub fn offset(&self) -> u64 {
        self.offset
    }

    /// Reads the next part from `data`, which starts at [`offset`](Parser::offset). `eof` says whether `data` has all
    /// bytes that are left.
    ///
    /// A section other than the code section is read whole, and so is a function body.
    pub fn parse<'a>(&mut self, data: &'a [u8], eof: bool) -> Result<Chunk<'a>> {
        let mut reader = BinaryReader::new_features(data, self.offset, self.features);
        match self.read_part(&mut reader, eof) {
            Ok(payload) => {
                self.offset = reader.original_position();
                Ok(Chunk::Parsed {
                    consumed: reader.current_position(),
                    payload,
                })
            }
            Err(Stop::Short { needed, .. }) if !eof => Ok(Chunk::NeedMoreData(needed)),
            Err(Stop::Short { error, .. } | Stop::Wrong(error)) => Err(error),
        }
    }

    /// Returns an iterator over the parts of a whole module. It ends after an error.
    pub fn parse_all(mut self, mut data: &[u8]) -> impl Iterator<Item = Result<Payload<'_>>> {
        let mut is_over = false;
        iter::from_fn(move || {
            if is_over {
                return None;
            }
            let part = self.parse(data, true).map(|chunk| match chunk {
                Chunk::Parsed { consumed, payload } => {
                    data = &data[consumed..];
                    payload
                }
                Chunk::NeedMoreData(_) => unreachable!("all bytes are there"),
            });
            is_over = matches!(part, Err(_) | Ok(Payload::End(_)));
            Some(part)
        })
    }

    /// Skips the bodies that are left in the code section. The caller skips `size` bytes of its `CodeSectionStart`, or
    /// those that are left of them.
    ///
    /// # Panics
    ///
    /// Panics unless the last part was a `CodeSectionStart` or a `CodeSectionEntry`.
    pub fn skip_section(&mut self) {
        let State::Bodies { size, .. } = self.state else {
            panic!("the parser is not in a code section");
        };
        self.offset += u64::from(size);
        self.state = State::Section;
    }

    /// Reads the next part. If it fails, nothing changes.
    fn read_part<'a>(
        &mut self,
        reader: &mut BinaryReader<'a>,
        eof: bool,
    ) -> Result<Payload<'a>, Stop> {
        match self.state {
            State::Preamble => self.read_preamble(reader),
            State::Bodies {
                count: 0,
                size: 1..,
            } => Err(malformed(
                Malformed::CodeContent,
                reader.original_position(),
            )),
            State::Bodies {
                count: 1..,
                size: left,
            } => self.read_body(reader, left),
            State::Section | State::Bodies { .. } if eof && reader.eof() => {
                let end = reader.original_position();
                self.counts.check_functions(end)?;
                self.counts.check_data(end)?;
                self.state = State::Section;
                Ok(Payload::End(end))
            }
            State::Section | State::Bodies { .. } => self.read_section(reader),
        }
    }

    fn read_preamble<'a>(&mut self, reader: &mut BinaryReader<'a>) -> Result<Payload<'a>, Stop> {
        let start = reader.original_position();
        let magic = read_word(reader)?;
        if magic != u32::from_le_bytes(MAGIC) {
            return Err(Stop::Wrong(Error::bad_magic(magic, start)));
        }
        let version = read_word(reader)?;
        self.encoding = match version {
            MODULE => Encoding::Module,
            COMPONENT => Encoding::Component,
            _ => return Err(Stop::Wrong(Error::unknown_version(version, start + 4))),
        };
        self.state = State::Section;
        Ok(Payload::Version {
            num: version as u16,
            encoding: self.encoding,
            range: start..reader.original_position(),
        })
    }

    fn read_section<'a>(&mut self, reader: &mut BinaryReader<'a>) -> Result<Payload<'a>, Stop> {
        let start = reader.original_position();
        if reader.remaining_buffer().starts_with(&MAGIC) {
            return Err(malformed(Malformed::SecondModule, start));
        }
        let id = short_by_one(reader.read_u8())?;
        if id > MAX_ID {
            return Err(malformed(Malformed::SectionId, start));
        }
        let size = short_by_one(reader.read_var_u32())?;
        let place = match self.encoding {
            Encoding::Module => place_of(id),
            Encoding::Component => 0,
        };
        if place != 0 && place <= self.last {
            let contents = reader.original_position();
            return Err(malformed(Malformed::SectionOrder, contents));
        }
        let payload = if id == id::CODE && place != 0 {
            self.read_code(reader, size)?
        } else {
            let payload = self.read_contents(reader, id, size, place != 0)?;
            self.state = State::Section;
            payload
        };
        self.last = self.last.max(place);
        Ok(payload)
    }

    /// Reads the contents of a section that is not the code section.
    fn read_contents<'a>(
        &mut self,
        reader: &mut BinaryReader<'a>,
        id: u8,
        size: u32,
        is_known: bool,
    ) -> Result<Payload<'a>, Stop> {
        let contents = read_block(reader, size)?;
        Ok(match id {
            id::CUSTOM => Payload::CustomSection(CustomSectionReader::new(contents)?),
            _ if !is_known => Payload::UnknownSection {
                id,
                range: contents.range(),
                contents: contents.remaining_buffer(),
            },
            id::TYPE => Payload::TypeSection(SectionLimited::new(contents)?),
            id::IMPORT => Payload::ImportSection(SectionLimited::new(contents)?),
            id::TABLE => Payload::TableSection(SectionLimited::new(contents)?),
            id::MEMORY => Payload::MemorySection(SectionLimited::new(contents)?),
            id::TAG => Payload::TagSection(SectionLimited::new(contents)?),
            id::GLOBAL => Payload::GlobalSection(SectionLimited::new(contents)?),
            id::EXPORT => Payload::ExportSection(SectionLimited::new(contents)?),
            id::ELEMENT => Payload::ElementSection(SectionLimited::new(contents)?),
            id::START => {
                let (func, range) = read_single(contents, Malformed::StartContent)?;
                Payload::StartSection { func, range }
            }
            _ => self.read_counted(contents, id, reader.original_position())?,
        })
    }

    /// Reads a section whose count is compared with the count of another section.
    fn read_counted<'a>(
        &mut self,
        contents: BinaryReader<'a>,
        id: u8,
        end: u64,
    ) -> Result<Payload<'a>> {
        let mut counts = self.counts;
        let payload = match id {
            id::FUNCTION => {
                let section = SectionLimited::new(contents)?;
                counts.functions = Some(section.count());
                Payload::FunctionSection(section)
            }
            id::DATA => {
                let section = SectionLimited::new(contents)?;
                counts.data = Some(section.count());
                counts.check_data(end)?;
                Payload::DataSection(section)
            }
            _ => {
                let (count, range) = read_single(contents, Malformed::DataCountContent)?;
                counts.data_count = Some(count);
                Payload::DataCountSection { count, range }
            }
        };
        self.counts = counts;
        Ok(payload)
    }

    /// Reads the count of the code section.
    fn read_code<'a>(
        &mut self,
        reader: &mut BinaryReader<'a>,
        size: u32,
    ) -> Result<Payload<'a>, Stop> {
        let start = reader.original_position();
        let count = short_by_one(reader.read_var_u32())?;
        let left = left_after(reader, start, size)?;
        let mut counts = self.counts;
        counts.bodies = Some(count);
        counts.check_functions(start)?;
        self.counts = counts;
        self.state = State::Bodies { count, size: left };
        Ok(Payload::CodeSectionStart {
            count,
            range: start..start + u64::from(size),
            size: left,
        })
    }

    /// Reads a function body. `size` bytes of the code section are left.
    fn read_body<'a>(
        &mut self,
        reader: &mut BinaryReader<'a>,
        size: u32,
    ) -> Result<Payload<'a>, Stop> {
        let State::Bodies { count, .. } = self.state else {
            unreachable!("the parser is in a code section");
        };
        let start = reader.original_position();
        let length = short_by_one(reader.read_var_u32())?;
        let body = read_block(reader, length)?;
        let left = left_after(reader, start, size)?;
        self.state = State::Bodies {
            count: count - 1,
            size: left,
        };
        Ok(Payload::CodeSectionEntry(FunctionBody::new(body)))
    }
}

impl Counts {
    /// Checks that the counts of the function section and of the code section are equal, as far as they are known.
    fn check_functions(&self, offset: u64) -> Result<()> {
        let fault = match (self.functions, self.bodies) {
            (Some(functions), Some(bodies)) if functions != bodies => Malformed::FunctionCounts,
            (Some(1..), None) => Malformed::NoCode,
            (None, Some(1..)) => Malformed::NoFunctions,
            _ => return Ok(()),
        };
        Err(Error::malformed(fault, offset))
    }

    /// Checks that the data count is the count of the data section, as far as they are known.
    fn check_data(&self, offset: u64) -> Result<()> {
        let fault = match (self.data_count, self.data) {
            (Some(announced), Some(count)) if announced != count => Malformed::DataCounts,
            (Some(1..), None) => Malformed::NoData,
            _ => return Ok(()),
        };
        Err(Error::malformed(fault, offset))
    }
}

/// Returns the place of a section in a module, from 1, or 0 for custom sections and unknown ids.
fn place_of(id: u8) -> u8 {
    match id {
        id::TYPE..=id::MEMORY => id,
        id::TAG => 6,
        id::GLOBAL..=id::ELEMENT => id + 1,
        id::DATA_COUNT => 11,
        id::CODE | id::DATA => id + 2,
        _ => 0,
    }
}

fn starts_with(bytes: &[u8], version: u32) -> bool {
    bytes.starts_with(&MAGIC) && bytes[4..].starts_with(&version.to_le_bytes())
}

/// The library's number of missing bytes.
const END_OF_DATA: u32 = 1;

/// Reports that a byte is missing if the data ends inside a number.
fn short_by_one<T>(number: Result<T>) -> Result<T, Stop> {
    number.map_err(|error| {
        if error.number() == END_OF_DATA {
            Stop::Short { needed: 1, error }
        } else {
            Stop::Wrong(error)
        }
    })
}

/// Reads this many bytes, and returns a reader of them.
fn read_block<'a>(reader: &mut BinaryReader<'a>, size: u32) -> Result<BinaryReader<'a>, Stop> {
    let left = reader.bytes_remaining() as u64;
    if u64::from(size) > left {
        return Err(Stop::Short {
            needed: u64::from(size) - left,
            error: Error::end_of_data(reader.original_position()),
        });
    }
    let block = reader.skip(|reader| reader.read_bytes(size as usize).map(|_| ()))?;
    Ok(block)
}

/// Reads four bytes, little-endian.
fn read_word(reader: &mut BinaryReader<'_>) -> Result<u32, Stop> {
    let mut word = read_block(reader, 4)?;
    Ok(word.read_u32()?)
}

/// Reads a number that fills a section.
fn read_single(mut contents: BinaryReader<'_>, what: Malformed) -> Result<(u32, Range<u64>)> {
    let number = contents.read_var_u32()?;
    if !contents.eof() {
        return Err(Error::malformed(what, contents.original_position()));
    }
    Ok((number, contents.range()))
}

/// Returns how many bytes of `size` are left after those that were read from the offset `start` on.
fn left_after(reader: &BinaryReader<'_>, start: u64, size: u32) -> Result<u32, Stop> {
    let consumed = reader.original_position() - start;
    u32::try_from(consumed)
        .ok()
        .and_then(|consumed| size.checked_sub(consumed))
        .ok_or_else(|| Stop::Wrong(Error::end_of_data(start)))
}
