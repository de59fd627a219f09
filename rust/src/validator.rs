//! Validation of whole modules, by the library.

use crate::types::Types;
use crate::{
    Error, FunctionBody, Import, MemorySectionReader, MemoryType, Operator, Parser, Payload,
    Result, TableType, TypeRef, WasmFeatures, native,
};

/// Checks that bytes are a valid module, with the features that are on by default.
///
/// ```
/// assert!(wasm_operators::validate(b"\0asm\x01\0\0\0").is_ok());
/// assert!(wasm_operators::validate(b"\0asm\x02\0\0\0").is_err());
/// ```
pub fn validate(bytes: &[u8]) -> Result<Types> {
    Validator::new().validate_all(bytes)
}

/// A validator of modules.
///
/// The library checks every module by WebAssembly 3.0 with threads, wide arithmetic and other page sizes. If
/// [`WIDE_ARITHMETIC`](WasmFeatures::WIDE_ARITHMETIC), [`CUSTOM_PAGE_SIZES`](WasmFeatures::CUSTOM_PAGE_SIZES),
/// [`MULTI_MEMORY`](WasmFeatures::MULTI_MEMORY) or [`MEMORY64`](WasmFeatures::MEMORY64) is off, this crate rejects what
/// needs it. No other feature of 3.0 can be turned off: without one, every module is an error.
#[derive(Default)]
pub struct Validator {
    features: WasmFeatures,
}

/// The features that must be on.
const REQUIRED: WasmFeatures = WasmFeatures::WASM3
    .difference(WasmFeatures::MULTI_MEMORY)
    .difference(WasmFeatures::MEMORY64);

impl Validator {
    /// Creates a validator with the features that are on by default.
    pub fn new() -> Validator {
        Validator::default()
    }

    /// Creates a validator with these features.
    pub fn new_with_features(features: WasmFeatures) -> Validator {
        Validator { features }
    }

    /// Returns the features.
    pub fn features(&self) -> &WasmFeatures {
        &self.features
    }

    /// Checks that bytes are a valid module. The error is the first in the order of the bytes.
    ///
    /// Fails for every module if a feature is off that can't be turned off.
    pub fn validate_all(&mut self, bytes: &[u8]) -> Result<Types> {
        let missing = REQUIRED.difference(self.features);
        if !missing.is_empty() {
            let text = format!("validation without these features is not supported: {missing:?}");
            return Err(Error::new(text, 0));
        }
        let checked = native::validate_module(bytes, self.features.library_bits());
        let end = match &checked {
            Ok(()) => u64::MAX,
            Err((refusal, _)) => refusal.offset,
        };
        if let Some(error) = first_turned_off(bytes, self.features).filter(|it| it.offset() < end) {
            return Err(error);
        }
        match checked {
            Ok(()) => Ok(Types::new()),
            Err((refusal, message)) => Err(Error::of_module(refusal, message)),
        }
    }
}

/// Returns the error of the first part of a module that features turn off, up to the first error of another kind.
fn first_turned_off(bytes: &[u8], features: WasmFeatures) -> Option<Error> {
    let mut parser = Parser::new(0);
    parser.set_features(features);
    let mut limits = Limits {
        features,
        memories: 0,
    };
    for payload in parser.parse_all(bytes) {
        let found = match payload.ok()? {
            Payload::ImportSection(section) => {
                let mut imports = section.into_iter_with_offsets();
                imports.find_map(|item| limits.import(item.ok()?))
            }
            Payload::TableSection(section) => {
                let mut tables = section.into_iter_with_offsets();
                tables.find_map(|item| item.ok().and_then(|(at, it)| limits.table(at, &it.ty)))
            }
            Payload::MemorySection(section) => limits.memory_section(section),
            Payload::CodeSectionEntry(body) if !features.wide_arithmetic() => wide_operator(&body),
            _ => None,
        };
        if found.is_some() {
            return found;
        }
    }
    None
}

/// The tables and memories that features allow, and how many memories there are so far.
struct Limits {
    features: WasmFeatures,
    memories: u32,
}

impl Limits {
    /// Returns the error of an import at an offset, if features turn it off.
    fn import(&mut self, (offset, import): (u64, Import<'_>)) -> Option<Error> {
        match import.ty {
            TypeRef::Table(ty) => self.table(offset, &ty),
            TypeRef::Memory(ty) => {
                let found = self.memory(offset, &ty);
                found.or_else(|| self.more_memories(1, offset))
            }
            _ => None,
        }
    }

    fn table(&self, offset: u64, ty: &TableType) -> Option<Error> {
        let is_off = ty.table64 && !self.features.memory64();
        is_off.then(|| Error::new("memory64 must be enabled for 64-bit tables", offset))
    }

    fn memory_section(&mut self, section: MemorySectionReader<'_>) -> Option<Error> {
        let found = self.more_memories(section.count(), section.range().start);
        let mut types = section.into_iter_with_offsets();
        found.or_else(|| types.find_map(|item| item.ok().and_then(|(at, ty)| self.memory(at, &ty))))
    }

    fn memory(&self, offset: u64, ty: &MemoryType) -> Option<Error> {
        if ty.memory64 && !self.features.memory64() {
            return Some(Error::new(
                "memory64 must be enabled for 64-bit memories",
                offset,
            ));
        }
        if ty.page_size_log2.is_some() && !self.features.custom_page_sizes() {
            let text =
                "the custom page sizes proposal must be enabled to customize a memory's page size";
            return Some(Error::new(text, offset));
        }
        None
    }

    fn more_memories(&mut self, count: u32, offset: u64) -> Option<Error> {
        self.memories = self.memories.saturating_add(count);
        let is_off = self.memories > 1 && !self.features.multi_memory();
        is_off.then(|| Error::new("multiple memories", offset))
    }
}

/// Returns whether bytes may encode an operator of wide arithmetic. The subopcodes are 0x13 to 0x16.
fn may_be_wide(bytes: &[u8]) -> bool {
    let mut pairs = bytes.windows(2);
    pairs.any(|it| it[0] == 0xfc && (0x13..=0x16).contains(&(it[1] & 0x7f)))
}

/// Returns the error of the first operator of wide arithmetic.
fn wide_operator(body: &FunctionBody<'_>) -> Option<Error> {
    if !may_be_wide(body.as_bytes()) {
        return None;
    }
    let operators = body.get_operators_reader().ok()?;
    let mut operators = operators.into_iter_with_offsets().map_while(Result::ok);
    let (_, offset) = operators.find(|(op, _)| {
        matches!(
            op,
            Operator::I64Add128
                | Operator::I64Sub128
                | Operator::I64MulWideS
                | Operator::I64MulWideU
        )
    })?;
    Some(Error::new("wide arithmetic support is not enabled", offset))
}
