//! Writes the expected output of the program wasm_tests_context, from wasmparser 0.239.
//!
//!     cargo run --offline <crates/wasm_tests_context/stdin >crates/wasm_tests_context/stdout
//!
//! Input is a module in hexadecimal on each line; lines that start with `#` are copied. Types are
//! those that the sections have. The validator says which functions are declared, which types match,
//! what element segments and data segments there are, and where the first error is. So each module
//! without an error has a body.
use std::io::BufRead;
use wasmparser::*;

#[derive(Default)]
struct Sections {
    types: Vec<SubType>,
    functions: Vec<u32>,
    tables: Vec<TableType>,
    memories: Vec<MemoryType>,
    globals: Vec<GlobalType>,
    tags: Vec<TagType>,
    elements: Vec<Option<RefType>>,
    data: u32,
}

fn heap(t: HeapType) -> String {
    match t {
        HeapType::Abstract { shared, ty } => format!("Abstract {{ shared: {shared}, ty: {ty:?} }}"),
        HeapType::Concrete(x) => format!("Concrete({})", x.as_module_index().unwrap()),
    }
}

fn reference(t: RefType) -> String {
    let (nullable, heap) = (t.is_nullable(), heap(t.heap_type()));
    format!("RefType {{ nullable: {nullable}, heap_type: {heap} }}")
}

fn value(t: ValType) -> String {
    match t {
        ValType::Ref(t) => format!("Ref({})", reference(t)),
        t => format!("{t:?}"),
    }
}

fn field(t: FieldType) -> String {
    let element = match t.element_type {
        StorageType::Val(t) => format!("Val({})", value(t)),
        t => format!("{t:?}"),
    };
    format!("FieldType {{ element_type: {element}, mutable: {} }}", t.mutable)
}

fn list<T>(items: impl IntoIterator<Item = T>, text: impl Fn(T) -> String) -> String {
    let items: Vec<String> = items.into_iter().map(text).collect();
    format!("[{}]", items.join(", "))
}

fn function(t: &FuncType) -> String {
    let params = list(t.params().iter().copied(), value);
    let results = list(t.results().iter().copied(), value);
    format!("{params} {results}")
}

impl Sections {
    fn add(&mut self, payload: Payload) -> Result<()> {
        match payload {
            Payload::TypeSection(s) => {
                for group in s {
                    self.types.extend(group?.types().cloned());
                }
            }
            Payload::ImportSection(s) => {
                for import in s {
                    match import?.ty {
                        TypeRef::Func(x) => self.functions.push(x),
                        TypeRef::Table(t) => self.tables.push(t),
                        TypeRef::Memory(t) => self.memories.push(t),
                        TypeRef::Global(t) => self.globals.push(t),
                        TypeRef::Tag(t) => self.tags.push(t),
                    }
                }
            }
            Payload::FunctionSection(s) => {
                self.functions.extend(s.into_iter().collect::<Result<Vec<_>>>()?)
            }
            Payload::TableSection(s) => {
                for table in s {
                    self.tables.push(table?.ty);
                }
            }
            Payload::MemorySection(s) => {
                self.memories.extend(s.into_iter().collect::<Result<Vec<_>>>()?)
            }
            Payload::TagSection(s) => self.tags.extend(s.into_iter().collect::<Result<Vec<_>>>()?),
            Payload::GlobalSection(s) => {
                for global in s {
                    self.globals.push(global?.ty);
                }
            }
            Payload::ElementSection(s) => {
                for segment in s {
                    self.elements.push(match segment?.items {
                        ElementItems::Functions(_) => None,
                        ElementItems::Expressions(t, _) => Some(t),
                    });
                }
            }
            Payload::DataCountSection { count, .. } => self.data = count,
            _ => {}
        }
        Ok(())
    }

    fn function(&self, index: u32) -> String {
        function(self.types[index as usize].unwrap_func())
    }

    fn print_types(&self, types: types::TypesRef, module: &impl WasmModuleResources) {
        let value = |x: usize| {
            let id = types.core_type_at_in_module(x as u32);
            let heap = HeapType::Concrete(UnpackedIndex::Id(id));
            ValType::Ref(RefType::new(true, heap).unwrap())
        };
        for (index, ty) in self.types.iter().enumerate() {
            print!("type {index}:");
            for of in 0..self.types.len() {
                if module.is_subtype(value(index), value(of)) {
                    print!(" {of}");
                }
            }
            println!();
            match &ty.composite_type.inner {
                CompositeInnerType::Func(t) => println!("  function {}", function(t)),
                CompositeInnerType::Struct(t) => {
                    println!("  structure {}", list(t.fields.iter().copied(), field))
                }
                CompositeInnerType::Array(t) => println!("  array {}", field(t.0)),
                _ => panic!(),
            }
        }
    }

    fn print(&self, types: types::TypesRef, module: &impl WasmModuleResources) {
        self.print_types(types, module);
        for index in 0..200 {
            if let Some(x) = self.functions.get(index) {
                let declared = module.is_function_referenced(index as u32);
                println!("function {index}: {x} {declared}\n  {}", self.function(*x));
            }
            if let Some(t) = self.tags.get(index) {
                println!("tag {index}: {}", self.function(t.func_type_idx));
            }
        }
        for index in 0..200 {
            if let Some(t) = self.tables.get(index) {
                println!("table {index}: {} {}", reference(t.element_type), t.table64);
            }
            if let Some(t) = self.memories.get(index) {
                println!("memory {index}: {}", t.memory64);
            }
            if let Some(t) = self.globals.get(index) {
                println!("global {index}: {} {}", value(t.content_type), t.mutable);
            }
            if let Some(t) = self.elements.get(index) {
                let t = t.unwrap_or_else(|| types.element_at(index as u32));
                println!("element {index}: {}", reference(t));
            }
            if index < self.data as usize {
                println!("data {index}");
            }
        }
    }
}

/// The name of the error, of which the message has the number.
fn error(e: &BinaryReaderError) -> String {
    let m = e.message();
    let number = m.split(|c: char| !c.is_ascii_digit()).find(|w| !w.is_empty()).unwrap_or("");
    if let Some((what, _)) = m.split_once(" count exceeds") {
        return match what {
            "tables" => "error: Tables".into(),
            "data segments" => "error: DataSegments".into(),
            _ => m.into(),
        };
    }
    if m.ends_with("too many data segments") {
        return "error: DataSegments".into();
    }
    let name = if m.starts_with("unknown type") {
        format!("UnknownType({number})")
    } else if m.ends_with("is not a function type") {
        format!("NotFunction({number})")
    } else if m.contains("non-empty tag result type") {
        "TagResults".into()
    } else if m.contains("non-defaultable element type") {
        "NoInitialValue".into()
    } else if m.starts_with("invalid start function type") {
        "StartType".into()
    } else if m.starts_with("malformed section id") {
        format!("UnknownSection({number})")
    } else if m.starts_with("duplicate export name") {
        "DuplicateExport".into()
    } else if m.starts_with("shared composite types require") {
        "Unsupported(SharedType)".into()
    } else if m.starts_with("shared reference types require") {
        "Unsupported(SharedReference)".into()
    } else if m.starts_with("shared tables require") {
        "Unsupported(SharedTable)".into()
    } else if m.starts_with("shared globals require") {
        "Unsupported(SharedGlobal)".into()
    } else if m.starts_with("cannot define continuation types") {
        "Unsupported(ContinuationType)".into()
    } else if m.starts_with("continuation refs not supported") {
        "Unsupported(ContinuationReference)".into()
    } else if m.contains("invalid element type") {
        "ElementType".into()
    } else if m.starts_with("type mismatch") {
        "Untyped".into()
    } else if m.starts_with("constant expression required") {
        "NotConstant".into()
    } else if m.starts_with("unknown") {
        let kinds = ["function", "table", "memory", "global", "tag"];
        let kind = kinds.iter().position(|k| m.contains(k)).unwrap();
        format!("Unknown({}, {number})", ["Func", "Table", "Memory", "Global", "Tag"][kind])
    } else if m.starts_with("size minimum") {
        "MinimumAboveMaximum".into()
    } else if m.starts_with("shared memory must have maximum") {
        "SharedWithoutMaximum".into()
    } else if let Some(sizes) = m.strip_prefix("memory size must be at most ") {
        let words: Vec<&str> = sizes.split(['x', ' ', '-']).collect();
        let pages = u64::from_str_radix(words[1], 16).unwrap();
        format!("MemorySize({pages}, {})", words[2])
    } else if let Some(size) = m.strip_prefix("table size must be at most 0x") {
        let size = size.split(' ').next().unwrap();
        format!("TableSize({})", u64::from_str_radix(size, 16).unwrap())
    } else {
        m.into()
    };
    format!("error at 0x{:x}: {name}", e.offset())
}

fn print(bytes: &[u8]) -> Result<()> {
    let mut sections = Sections::default();
    let mut validator = Validator::new();
    let mut resources = None;
    for payload in Parser::new(0).parse_all(bytes) {
        let payload = payload?;
        let constants = matches!(payload, Payload::GlobalSection(_) | Payload::DataSection(_));
        let valid = match validator.payload(&payload) {
            // An operator of a constant expression has no type.
            Err(e) if constants && e.message().starts_with("unknown global") => {
                println!("error at 0x{:x}: Untyped", e.offset());
                return Ok(());
            }
            Err(e) if constants && e.message().starts_with("undeclared function") => {
                println!("error at 0x{:x}: Untyped", e.offset());
                return Ok(());
            }
            valid => valid?,
        };
        match valid {
            ValidPayload::Func(f, _) => resources = Some(f.resources),
            ValidPayload::End(types) => sections.print(types.as_ref(), resources.as_ref().unwrap()),
            _ => {}
        }
        sections.add(payload)?;
    }
    Ok(())
}

fn main() {
    for line in std::io::stdin().lock().lines() {
        let line = line.unwrap();
        if line.is_empty() || line.starts_with('#') {
            println!("{line}");
            continue;
        }
        let bytes: Vec<u8> = (0..line.len() / 2)
            .map(|i| u8::from_str_radix(&line[2 * i..2 * i + 2], 16).unwrap())
            .collect();
        if let Err(e) = print(&bytes) {
            println!("{}", error(&e));
        }
    }
}
