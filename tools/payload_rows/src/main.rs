//! Writes the expected output of the program wasm_tests_payloads, from wasmparser 0.239.
//!
//!     cargo run --offline <crates/wasm_tests_payloads/stdin >crates/wasm_tests_payloads/stdout
//!
//! Input is a module in hexadecimal on each line; lines that start with `#` are copied.
use std::io::BufRead;
use std::ops::Range;
use wasmparser::{
    BinaryReaderError, ConstExpr, Data, DataKind, Element, ElementItems, ElementKind, FromReader,
    Global, Parser, Payload, SectionLimited, Table, TableInit,
};

fn verdict(bytes: &[u8]) -> String {
    let mut n = 0;
    for item in Parser::new(0).parse_all(bytes) {
        match item {
            Ok(_) => n += 1,
            Err(e) => return format!("{n} {}", error(&e)),
        }
    }
    format!("{n} ok")
}

fn error(e: &BinaryReaderError) -> String {
    let m = e.message();
    let m = ["magic header not detected", "unknown binary version"]
        .into_iter()
        .find(|p| m.starts_with(p))
        .unwrap_or(m);
    format!("0x{:x} {m}", e.offset())
}

fn at(r: &Range<usize>) -> String {
    format!("{:x}..{:x}", r.start, r.end)
}

fn line(p: &Payload) -> String {
    use Payload::*;
    macro_rules! section {
        ($name:literal, $s:expr) => {
            format!("{} {} {}", $name, $s.count(), at(&$s.range()))
        };
    }
    match p {
        Version { num, range, .. } => format!("Version {num} {}", at(range)),
        TypeSection(s) => section!("TypeSection", s),
        ImportSection(s) => section!("ImportSection", s),
        FunctionSection(s) => section!("FunctionSection", s),
        TableSection(s) => section!("TableSection", s),
        MemorySection(s) => section!("MemorySection", s),
        TagSection(s) => section!("TagSection", s),
        GlobalSection(s) => section!("GlobalSection", s),
        ExportSection(s) => section!("ExportSection", s),
        StartSection { func, range } => format!("StartSection {func} {}", at(range)),
        ElementSection(s) => section!("ElementSection", s),
        DataCountSection { count, range } => format!("DataCountSection {count} {}", at(range)),
        DataSection(s) => section!("DataSection", s),
        CodeSectionStart { count, range, size } => {
            format!("CodeSectionStart {count} {} {size}", at(range))
        }
        CodeSectionEntry(b) => format!("CodeSectionEntry {}", at(&b.range())),
        CustomSection(s) => format!(
            "CustomSection {} {} {:x}",
            s.name(),
            at(&s.range()),
            s.data_offset()
        ),
        UnknownSection { id, range, .. } => format!("UnknownSection {id} {}", at(range)),
        End(o) => format!("End {o:x}"),
        _ => "other".into(),
    }
}

fn constant(c: &ConstExpr) -> String {
    at(&c.get_binary_reader().range())
}

fn table(t: Table) -> Result<String, BinaryReaderError> {
    Ok(match t.init {
        TableInit::RefNull => "null".into(),
        TableInit::Expr(c) => constant(&c),
    })
}

fn global(g: Global) -> Result<String, BinaryReaderError> {
    Ok(constant(&g.init_expr))
}

fn data(d: Data) -> Result<String, BinaryReaderError> {
    let kind = match d.kind {
        DataKind::Passive => "passive".into(),
        DataKind::Active {
            memory_index,
            offset_expr,
        } => format!("active {memory_index} {}", constant(&offset_expr)),
    };
    Ok(format!("{kind}; {} bytes", d.data.len()))
}

fn element(e: Element) -> Result<String, BinaryReaderError> {
    let mut text = match e.kind {
        ElementKind::Passive => "passive;".into(),
        ElementKind::Declared => "declared;".into(),
        ElementKind::Active {
            table_index,
            offset_expr,
        } => format!("active {table_index:?} {};", constant(&offset_expr)),
    };
    match e.items {
        ElementItems::Functions(list) => {
            text += " functions";
            for index in list {
                text += &format!(" {}", index?);
            }
        }
        ElementItems::Expressions(_, list) => {
            text += " expressions";
            for value in list {
                text += &format!(" {}", constant(&value?));
            }
        }
    }
    Ok(text)
}

fn print_each<'a, T: FromReader<'a>>(
    list: &SectionLimited<'a, T>,
    text: fn(T) -> Result<String, BinaryReaderError>,
) {
    for item in list.clone().into_iter_with_offsets() {
        match item.and_then(|(offset, value)| Ok((offset, text(value)?))) {
            Ok((offset, text)) => println!("    {offset:x} {text}"),
            Err(e) => println!("    {e}"),
        }
    }
}

/// Prints the items that hold constant expressions.
fn print_items(p: &Payload) {
    match p {
        Payload::TableSection(s) => print_each(s, table),
        Payload::GlobalSection(s) => print_each(s, global),
        Payload::ElementSection(s) => print_each(s, element),
        Payload::DataSection(s) => print_each(s, data),
        _ => {}
    }
}

fn main() {
    for l in std::io::stdin().lock().lines() {
        let l = l.unwrap();
        if l.is_empty() || l.starts_with('#') {
            println!("{l}");
            continue;
        }
        let mut b: Vec<u8> = (0..l.len() / 2)
            .map(|i| u8::from_str_radix(&l[2 * i..2 * i + 2], 16).unwrap())
            .collect();
        for item in Parser::new(0).parse_all(&b) {
            match item {
                Ok(p) => {
                    println!("  {}", line(&p));
                    print_items(&p);
                }
                Err(e) => println!("  {}", error(&e)),
            }
        }
        for end in 0..b.len() {
            println!("cut {end:x}: {}", verdict(&b[..end]));
        }
        for place in 0..b.len() {
            let old = b[place];
            b[place] = 0;
            let (mut first, mut run) = (0u8, verdict(&b));
            for value in 1..=255u8 {
                b[place] = value;
                let next = verdict(&b);
                if next != run {
                    println!("at {place:x}: {first:x}..{:x}: {run}", value - 1);
                    first = value;
                    run = next;
                }
            }
            println!("at {place:x}: {first:x}..ff: {run}");
            b[place] = old;
        }
    }
}
