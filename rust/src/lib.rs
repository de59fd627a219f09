//! The operators of WebAssembly function bodies, by a decoder that is proved (`libwasm_c.a`).
//!
//! A program on the operators layer of `wasmparser` 0.263 compiles unchanged with this line in its `Cargo.toml`:
//!
//! ```toml
//! wasmparser = { package = "wasm-operators", path = ".." }
//! ```
//!
//! ```
//! use wasm_operators::{BinaryReader, FunctionBody, Operator, Result};
//!
//! let body = FunctionBody::new(BinaryReader::new(&[0x00, 0x41, 0x05, 0x0b], 0));
//! let operators = body.get_operators_reader()?.into_iter_with_offsets();
//! let operators = operators.collect::<Result<Vec<_>>>()?;
//! assert_eq!(operators, [(Operator::I32Const { value: 5 }, 1), (Operator::End, 3)]);
//! # Ok::<(), wasm_operators::Error>(())
//! ```
//!
//! [`Parser`] reads whole modules, with the names of `wasmparser` 0.239, and [`validate`] checks them.
//!
//! The library is proved; this crate converts its C structs, finds sections and their items, and is tested. `API.md`
//! lists what proves each item.

#![deny(missing_docs, unsafe_code)]

#[cfg(feature = "component-model")]
compile_error!("wasm-operators does not read components: turn the feature `component-model` off");

mod arity;
mod batch;
mod binary_reader;
mod body;
mod code;
mod composite;
mod constant;
mod custom;
#[allow(unsafe_code)]
mod declared;
mod dylink0;
mod encode;
mod error;
mod externals;
mod features;
mod frame_change;
mod frames;
mod from_reader;
mod immediates;
mod indices;
mod lists;
mod macros;
mod module;
mod names;
#[allow(unsafe_code)]
mod native;
mod operator;
mod operators_reader;
mod parser;
mod payload;
mod plain;
mod section;
mod segments;
mod shapes;
mod text;
#[cfg(feature = "validate")]
pub mod types;
#[cfg(feature = "validate")]
mod validator;
mod value_types;
mod visit;
mod visitor;

pub use arity::ModuleArity;
pub use binary_reader::{BinaryReader, BinaryReaderIter};
pub use body::{Body, read_plain};
pub use code::{CodeSectionReader, FunctionBody, LocalsIterator, LocalsReader};
pub use composite::{
    ArrayType, CompositeInnerType, CompositeType, ContType, FieldType, FuncType, RecGroup,
    StorageType, StructType, SubType, TypeSectionReader,
};
pub use constant::ConstExpr;
pub use custom::{
    BranchHint, BranchHintFunction, BranchHintSectionReader, CustomSectionReader, KnownCustom,
    ProducersField, ProducersFieldValue, ProducersSectionReader,
};
pub use dylink0::{
    Dylink0SectionReader, Dylink0Subsection, ExportInfo, ImportInfo, MemInfo, SymbolFlags,
};
pub use encode::{CodeSection, Encode, FunctionBuilder};
pub use error::{BinaryReaderError, Error, Result};
pub use externals::{
    Export, ExportSectionReader, ExternalKind, FunctionSectionReader, GlobalType, Import,
    ImportSectionReader, MemorySectionReader, MemoryType, TableType, TagKind, TagSectionReader,
    TagType, TypeRef,
};
pub use features::{WasmFeatures, WasmFeaturesInflated};
pub use frames::{ControlStack, FrameKind, FrameStack, OperatorsReaderAllocations};
pub use from_reader::FromReader;
pub use immediates::{
    BlockType, Ieee32, Ieee64, MemArg, MemArgOrdering, MemArgTarget, Ordering, V128,
};
pub use indices::{PackedIndex, UnpackedIndex};
pub use lists::{BrTable, BrTableTargets, Catch, Handle, ResumeTable, TryTable};
pub use module::{Function, Functions, function_name};
pub use names::{
    IndirectNameMap, IndirectNaming, Name, NameMap, NameSectionReader, Naming, Subsection,
    Subsections,
};
pub use native::PlainOperator;
pub use operator::Operator;
pub use operators_reader::{OperatorsIterator, OperatorsIteratorWithOffsets, OperatorsReader};
pub use parser::{Chunk, Parser};
pub use payload::{Encoding, Payload};
pub use section::{SectionLimited, SectionLimitedIntoIter, SectionLimitedIntoIterWithOffsets};
pub use segments::{
    Data, DataKind, DataSectionReader, Element, ElementItems, ElementKind, ElementSectionReader,
    Global, GlobalSectionReader, Table, TableInit, TableSectionReader,
};
pub use text::{operator_text, operator_text_name};
#[cfg(feature = "validate")]
pub use validator::{Validator, validate};
pub use value_types::{AbstractHeapType, HeapType, RefType, ValType};
pub use visitor::{EachVisit, VisitAny, VisitOperator, VisitSimdOperator};

#[doc(inline)]
pub use crate::_for_each_operator_impl as for_each_operator;
#[doc(inline)]
pub use crate::_for_each_visit_operator_impl as for_each_visit_operator;
#[doc(inline)]
pub use crate::_for_each_visit_simd_operator_impl as for_each_visit_simd_operator;
