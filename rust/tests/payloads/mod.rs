//! The parts and items of a module as lines. `tests/parser.rs` and `rust/clients/payloads.rs` have this module, and
//! name in `library` the crate that reads.

use crate::library::*;
use std::fmt::Debug;

/// The number of bytes that a module may have for its changes to be read.
pub const SMALL: usize = 700;

/// Returns the line of an error. wasmparser 0.239 has two words more in one of the texts.
fn error_line(error: &BinaryReaderError) -> String {
    let text = error.message().replace("section size mismatch: ", "");
    format!("{}: {text}", error.offset())
}

/// Returns a line for each part, and one for the error.
pub fn framing(bytes: &[u8]) -> Vec<String> {
    let parts = Parser::new(3).parse_all(bytes);
    let lines = parts.map(|part| match part {
        Ok(part) => format!("{part:?} {:?}", part.as_section()),
        Err(error) => error_line(&error),
    });
    lines.collect()
}

/// Returns the lines of `framing` if `size` bytes more arrive when bytes are missing, and with `asked` the numbers of
/// bytes that the parser asks for.
pub fn in_pieces(bytes: &[u8], size: usize, asked: bool) -> Vec<String> {
    let (mut parser, mut lines) = (Parser::new(3), Vec::new());
    let (mut start, mut end) = (0, 0);
    loop {
        match parser.parse(&bytes[start..end], end == bytes.len()) {
            Ok(Chunk::NeedMoreData(needed)) => {
                if asked {
                    lines.push(format!("{needed} more"));
                }
                end = bytes.len().min(end + size);
            }
            Ok(Chunk::Parsed { consumed, payload }) => {
                lines.push(format!("{payload:?} {:?}", payload.as_section()));
                start += consumed;
                if let Payload::End(_) = payload {
                    return lines;
                }
            }
            Err(error) => {
                lines.push(error_line(&error));
                return lines;
            }
        }
    }
}

/// Lists the items of a section with their offsets.
fn list<'a, T: FromReader<'a>>(
    out: &mut Vec<String>,
    section: SectionLimited<'a, T>,
    line: impl Fn(&mut Vec<String>, T) -> String,
) {
    out.push(format!(
        "{} items in {:?}",
        section.count(),
        section.range()
    ));
    for item in section.into_iter_with_offsets() {
        let text = match item {
            Ok((offset, item)) => format!("  {offset} {}", line(out, item)),
            Err(error) => error_line(&error),
        };
        out.push(text);
    }
}

fn plain<T: Debug>(_: &mut Vec<String>, item: T) -> String {
    format!("{item:?}")
}

fn element(out: &mut Vec<String>, element: Element<'_>) -> String {
    let kind = match element.kind {
        ElementKind::Passive => "passive".to_string(),
        ElementKind::Declared => "declared".to_string(),
        ElementKind::Active {
            table_index,
            offset_expr,
        } => format!("{table_index:?} {offset_expr:?}"),
    };
    let ty = match element.items {
        ElementItems::Functions(items) => {
            list(out, items, plain);
            None
        }
        ElementItems::Expressions(ty, items) => {
            list(out, items, plain);
            Some(ty)
        }
    };
    format!("{kind} {ty:?} {:?}", element.range)
}

fn group(out: &mut Vec<String>, group: RecGroup) -> String {
    let is_explicit = group.is_explicit_rec_group();
    for (offset, ty) in group.into_types_and_offsets() {
        out.push(format!("    {offset} {ty} {ty:?}"));
    }
    format!("{is_explicit}")
}

fn names(out: &mut Vec<String>, section: NameSectionReader<'_>) {
    for name in section {
        match name {
            Ok(Name::Module { name, name_range }) => out.push(format!("{name} {name_range:?}")),
            Ok(Name::Unknown { ty, data, range }) => out.push(format!("{ty} {data:?} {range:?}")),
            Ok(Name::Local(map) | Name::Label(map) | Name::Field(map)) => {
                list(out, map, |out, names| {
                    list(out, names.names, plain);
                    names.index.to_string()
                });
            }
            Ok(
                Name::Function(map)
                | Name::Type(map)
                | Name::Table(map)
                | Name::Memory(map)
                | Name::Global(map)
                | Name::Element(map)
                | Name::Data(map)
                | Name::Tag(map),
            ) => list(out, map, plain),
            Err(error) => return out.push(error_line(&error)),
        }
    }
}

fn custom(out: &mut Vec<String>, section: &CustomSectionReader<'_>) {
    match section.as_known() {
        KnownCustom::Name(section) => names(out, section),
        KnownCustom::BranchHints(section) => list(out, section, |out, function| {
            list(out, function.hints, plain);
            function.func.to_string()
        }),
        KnownCustom::Producers(section) => list(out, section, |out, field| {
            list(out, field.values, plain);
            field.name.to_string()
        }),
        KnownCustom::Dylink0(section) => {
            let lines = section.map(|part| match part {
                Ok(part) => format!("{part:?}"),
                Err(error) => error_line(&error),
            });
            out.extend(lines.take(10));
        }
        _ => out.push(format!("{:?}", section.data())),
    }
}

fn body(out: &mut Vec<String>, body: &FunctionBody<'_>) {
    let Ok(locals) = body.get_locals_reader() else {
        return out.push("no locals".to_string());
    };
    for local in locals {
        out.push(match local {
            Ok((count, ty)) => format!("{count} {ty} {ty:?}"),
            Err(error) => error_line(&error),
        });
    }
}

/// Returns the lines of all parts and of their items, up to an error of a part.
pub fn items(bytes: &[u8]) -> Vec<String> {
    let mut out = Vec::new();
    for part in Parser::new(0).parse_all(bytes) {
        match part {
            Ok(part) => {
                out.push(format!("{part:?} {:?}", part.as_section()));
                contents(&mut out, part);
            }
            Err(error) => out.push(error_line(&error)),
        }
    }
    out
}

fn contents(out: &mut Vec<String>, part: Payload<'_>) {
    match part {
        Payload::TypeSection(section) => list(out, section, group),
        Payload::ImportSection(section) => list(out, section, plain),
        Payload::FunctionSection(section) => list(out, section, plain),
        Payload::TableSection(section) => list(out, section, plain),
        Payload::MemorySection(section) => list(out, section, plain),
        Payload::TagSection(section) => list(out, section, plain),
        Payload::GlobalSection(section) => list(out, section, plain),
        Payload::ExportSection(section) => list(out, section, plain),
        Payload::ElementSection(section) => list(out, section, element),
        Payload::DataSection(section) => list(out, section, plain),
        Payload::CodeSectionEntry(entry) => body(out, &entry),
        Payload::CustomSection(section) => custom(out, &section),
        Payload::UnknownSection { contents, .. } => out.push(format!("{contents:?}")),
        _ => (),
    }
}

/// Returns the changes of a module: a byte is replaced.
pub fn changes(bytes: &[u8]) -> impl Iterator<Item = Vec<u8>> + '_ {
    let bits = [0x01, 0x02, 0x04, 0x40, 0x80, 0xff];
    (0..bytes.len()).flat_map(move |at| {
        bits.into_iter().map(move |bits| {
            let mut changed = bytes.to_vec();
            changed[at] ^= bits;
            changed
        })
    })
}

/// Adds lines to a checksum.
pub fn add(sum: u64, lines: &[String]) -> u64 {
    let bytes = lines.iter().flat_map(|line| line.bytes().chain([b'\n']));
    bytes.fold(sum, |sum, byte| {
        (sum ^ u64::from(byte)).wrapping_mul(1099511628211)
    })
}

/// The checksum of no lines.
pub const START: u64 = 14695981039346656037;

/// Returns a row of checksums: of the lines of a module, of its framing in single bytes, of all its cuts, and of the
/// framing of its changes. The last two are 0 for a module that is not small.
pub fn row(bytes: &[u8]) -> String {
    let is_small = bytes.len() <= SMALL;
    let (mut cuts, mut changed) = (0, 0);
    if is_small {
        cuts = (0..bytes.len()).fold(START, |sum, end| add(sum, &items(&bytes[..end])));
        changed = changes(bytes).fold(START, |sum, bytes| add(sum, &framing(&bytes)));
    }
    let whole = add(START, &items(bytes));
    let pieces = add(START, &in_pieces(bytes, 1, true));
    format!("{whole:016x}\t{pieces:016x}\t{cuts:016x}\t{changed:016x}")
}
