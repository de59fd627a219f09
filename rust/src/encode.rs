//! Operators, function bodies and code sections as bytes, in the style of `wasm-encoder`.

use crate::native::{self, PlainLocals, PlainType};
use crate::plain::plain_of;
use crate::shapes::value_numbers;
use crate::{BlockType, Catch, Error, Handle, Operator, Result, ValType, WasmFeatures};

/// More bytes than an operator without a list has.
const WITHOUT_LIST: usize = 64;

/// A value that is written as bytes.
pub trait Encode {
    /// Appends the shortest encoding. On an error, `sink` is unchanged.
    fn encode(&self, sink: &mut Vec<u8>) -> Result<()>;
}

impl Encode for u32 {
    fn encode(&self, sink: &mut Vec<u8>) -> Result<()> {
        write_u32(*self, sink);
        Ok(())
    }
}

/// Writes an operator by the library's encoder, with all features. Fails for a value that no bytes encode, such as an
/// alignment above 2^15.
///
/// A list is first written by this crate; the library reads it again.
///
/// ```
/// use wasm_operators::{Encode, Operator};
///
/// let mut bytes = Vec::new();
/// Operator::I32Const { value: -1 }.encode(&mut bytes)?;
/// assert_eq!(bytes, [0x41, 0x7f]);
/// # Ok::<(), wasm_operators::Error>(())
/// ```
impl Encode for Operator<'_> {
    fn encode(&self, sink: &mut Vec<u8>) -> Result<()> {
        let op = plain_of(self)?;
        let mut listed = Vec::new();
        let features = WasmFeatures::all().library_bits();
        let (source, features) = match self {
            Operator::BrTable { targets } => targets.source(),
            _ => {
                write_listed(self, op.opcode, &mut listed)?;
                (listed.as_slice(), features)
            }
        };
        let start = sink.len();
        sink.resize(start + WITHOUT_LIST, 0);
        let mut result = native::encode_operator(&op, source, 0, features, &mut sink[start..]);
        if let Ok(length @ WITHOUT_LIST..) = result {
            sink.resize(start + length, 0);
            result = native::encode_operator(&op, source, 0, features, &mut sink[start..]);
        }
        match result {
            Ok(length) => {
                sink.truncate(start + length);
                Ok(())
            }
            Err(refusal) => {
                sink.truncate(start);
                Err(error_of(refusal, "no bytes encode the operator"))
            }
        }
    }
}

/// The library's number of a value that no bytes encode.
const NOT_WRITABLE: u32 = 112;

/// Returns the error with this text if no bytes encode the value, else the library's.
fn error_of(refusal: native::Refusal, not_writable: &'static str) -> Error {
    if refusal.number == NOT_WRITABLE {
        return Error::new(not_writable, 0);
    }
    Error::from(refusal)
}

fn write_u32(value: u32, sink: &mut Vec<u8>) {
    let mut rest = value;
    while rest >= 128 {
        sink.push(rest as u8 | 128);
        rest >>= 7;
    }
    sink.push(rest as u8);
}

/// Appends the encoding of an operator that starts with a byte, without it.
fn write_after_opcode(op: &Operator<'_>, opcode_length: usize, sink: &mut Vec<u8>) -> Result<()> {
    let mut bytes = Vec::new();
    op.encode(&mut bytes)?;
    sink.extend_from_slice(&bytes[opcode_length..]);
    Ok(())
}

impl Encode for ValType {
    fn encode(&self, sink: &mut Vec<u8>) -> Result<()> {
        // The opcode and the number of types precede it.
        write_after_opcode(&Operator::TypedSelect { ty: *self }, 2, sink)
    }
}

impl Encode for BlockType {
    fn encode(&self, sink: &mut Vec<u8>) -> Result<()> {
        write_after_opcode(&Operator::Block { blockty: *self }, 1, sink)
    }
}

fn write_catch(catch: &Catch, sink: &mut Vec<u8>) {
    let (kind, tag, label) = match *catch {
        Catch::One { tag, label } => (0, Some(tag), label),
        Catch::OneRef { tag, label } => (1, Some(tag), label),
        Catch::All { label } => (2, None, label),
        Catch::AllRef { label } => (3, None, label),
    };
    sink.push(kind);
    if let Some(tag) = tag {
        write_u32(tag, sink);
    }
    write_u32(label, sink);
}

fn write_handle(handle: &Handle, sink: &mut Vec<u8>) {
    match *handle {
        Handle::OnLabel { tag, label } => {
            sink.push(0);
            write_u32(tag, sink);
            write_u32(label, sink);
        }
        Handle::OnSwitch { tag } => {
            sink.push(1);
            write_u32(tag, sink);
        }
    }
}

fn count_of(length: usize) -> Result<u32> {
    u32::try_from(length).map_err(|_| Error::new("a list is too long", 0))
}

fn write_count(length: usize, sink: &mut Vec<u8>) -> Result<()> {
    count_of(length)?.encode(sink)
}

/// Appends an operator that owns a list, from which the library reads the list. Appends nothing for other operators.
fn write_listed(op: &Operator<'_>, opcode: u32, sink: &mut Vec<u8>) -> Result<()> {
    let handlers = match op {
        Operator::TypedSelectMulti { tys } => {
            sink.push(opcode as u8);
            write_count(tys.len(), sink)?;
            return tys.iter().try_for_each(|ty| ty.encode(sink));
        }
        Operator::TryTable { try_table } => {
            sink.push(opcode as u8);
            try_table.ty.encode(sink)?;
            write_count(try_table.catches.len(), sink)?;
            try_table
                .catches
                .iter()
                .for_each(|catch| write_catch(catch, sink));
            return Ok(());
        }
        Operator::Resume {
            cont_type_index,
            resume_table,
        }
        | Operator::ResumeThrowRef {
            cont_type_index,
            resume_table,
        } => {
            sink.push(opcode as u8);
            write_u32(*cont_type_index, sink);
            resume_table
        }
        Operator::ResumeThrow {
            cont_type_index,
            tag_index,
            resume_table,
        } => {
            sink.push(opcode as u8);
            write_u32(*cont_type_index, sink);
            write_u32(*tag_index, sink);
            resume_table
        }
        _ => return Ok(()),
    };
    write_count(handlers.len(), sink)?;
    handlers
        .handlers
        .iter()
        .for_each(|handle| write_handle(handle, sink));
    Ok(())
}

/// A function body that is being written: declarations of locals, and operators.
///
/// ```
/// use wasm_operators::{CodeSection, Encode, FunctionBuilder, Operator, ValType};
///
/// let mut function = FunctionBuilder::new([(1, ValType::I64)])?;
/// function.instruction(&Operator::LocalGet { local_index: 0 })?.instruction(&Operator::End)?;
/// let mut code = CodeSection::new();
/// code.function(&function)?;
/// let mut bytes = Vec::new();
/// code.encode(&mut bytes)?;
/// assert_eq!(bytes, [8, 1, 6, 1, 1, 0x7e, 0x20, 0, 0x0b]);
/// # Ok::<(), wasm_operators::Error>(())
/// ```
#[derive(Clone, Debug)]
pub struct FunctionBuilder {
    locals: Vec<PlainLocals>,
    /// The declarations of locals, and from `start` on the operators.
    bytes: Vec<u8>,
    start: usize,
}

/// A body without locals and operators.
impl Default for FunctionBuilder {
    fn default() -> FunctionBuilder {
        FunctionBuilder {
            locals: Vec::new(),
            bytes: vec![0],
            start: 1,
        }
    }
}

impl FunctionBuilder {
    /// Creates a body with these locals: how many, and their type. The library writes them.
    pub fn new<L>(locals: L) -> Result<FunctionBuilder>
    where
        L: IntoIterator<Item = (u32, ValType)>,
        L::IntoIter: ExactSizeIterator,
    {
        let locals = locals
            .into_iter()
            .map(|(count, ty)| {
                let (kind, index) = value_numbers(ty)?;
                let ty = PlainType { kind, index };
                Ok(PlainLocals { count, ty })
            })
            .collect::<Result<Vec<_>>>()?;
        let mut bytes = Vec::new();
        native::encode_locals(&locals, &mut bytes)
            .map_err(|refusal| error_of(refusal, "no bytes encode the locals"))?;
        let start = bytes.len();
        Ok(FunctionBuilder {
            locals,
            bytes,
            start,
        })
    }

    /// Appends an operator. The last one has to be an `end`.
    pub fn instruction(&mut self, operator: &Operator<'_>) -> Result<&mut FunctionBuilder> {
        operator.encode(&mut self.bytes)?;
        Ok(self)
    }

    /// Appends bytes as they are.
    pub fn raw(&mut self, bytes: &[u8]) -> &mut FunctionBuilder {
        self.bytes.extend_from_slice(bytes);
        self
    }

    /// Returns the body without its size.
    pub fn bytes(&self) -> &[u8] {
        &self.bytes
    }
}

/// Writes the size and the body, by the library.
impl Encode for FunctionBuilder {
    fn encode(&self, sink: &mut Vec<u8>) -> Result<()> {
        native::encode_body(&self.locals, &self.bytes[self.start..], sink)
            .map_err(|refusal| error_of(refusal, "a function body is too long"))
    }
}

/// A code section that is being written.
#[derive(Clone, Debug, Default)]
pub struct CodeSection {
    bytes: Vec<u8>,
    count: usize,
}

impl CodeSection {
    /// Creates a section without bodies.
    pub fn new() -> CodeSection {
        CodeSection::default()
    }

    /// Appends a body.
    pub fn function(&mut self, function: &FunctionBuilder) -> Result<&mut CodeSection> {
        function.encode(&mut self.bytes)?;
        self.count += 1;
        Ok(self)
    }

    /// Returns the number of bodies.
    pub fn len(&self) -> usize {
        self.count
    }

    /// Returns whether no body was appended.
    pub fn is_empty(&self) -> bool {
        self.count == 0
    }
}

/// The number of a code section.
const CODE: u8 = 10;

/// Writes the size, the number of bodies, and the bodies, by the library. The section's number, 10, precedes them.
impl Encode for CodeSection {
    fn encode(&self, sink: &mut Vec<u8>) -> Result<()> {
        let count = count_of(self.count)?;
        let start = sink.len();
        native::encode_section(CODE, count, &self.bytes, sink)
            .map_err(|refusal| error_of(refusal, "a code section is too long"))?;
        sink.remove(start);
        Ok(())
    }
}
