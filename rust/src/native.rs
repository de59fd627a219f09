//! Safe calls of the functions of `wasm_operators.h`, which `declared.rs` declares. No other module has `unsafe` blocks.
//!
//! Each `unsafe` block is one call, safe for these reasons:
//!
//! - The library is proved to stay within its inputs and outputs, and to keep no pointer.
//! - Pointers come from live borrows, with their lengths, and are never null.
//! - The structs are `repr(C)`, as in the library's version (`check_version`), and hold only integers.

use crate::declared::*;
pub use crate::declared::{
    PlainBodies, PlainBody, PlainHandler, PlainLocals, PlainOperator, PlainReader, PlainType,
    PlainValue, Refusal,
};
use std::mem::MaybeUninit;

/// The version of the structs and functions.
const VERSION: u32 = 5;

/// `wasm_value_kind` of the header.
#[repr(u32)]
#[derive(Clone, Copy, Debug, PartialEq, Eq)]
pub enum ValueKind {
    U8 = 0,
    U32 = 1,
    U64 = 2,
    VarU32 = 3,
    VarU64 = 4,
    VarI32 = 5,
    VarS33 = 6,
    VarI64 = 7,
    Size = 8,
    Bytes = 9,
    Sized = 10,
    Locals = 11,
    ConstExpr = 12,
    ValType = 13,
    RefType = 14,
    HeapType = 15,
    BlockType = 16,
    Local = 17,
    Catch = 18,
    Clause = 19,
}

/// Opens an expression.
type Open = unsafe extern "C" fn(
    *const u8,
    usize,
    u64,
    u32,
    *mut u8,
    usize,
    *mut PlainReader,
    *mut Refusal,
) -> u32;

/// Reads the next operator.
type Next = unsafe extern "C" fn(
    *const u8,
    usize,
    *mut u8,
    usize,
    *mut PlainReader,
    *mut PlainOperator,
    *mut Refusal,
) -> u32;

/// Writes the members of a list.
type List<T> = unsafe extern "C" fn(
    *const u8,
    usize,
    u64,
    u32,
    u64,
    usize,
    *mut T,
    usize,
    *mut usize,
    *mut Refusal,
) -> u32;

/// Writes the text of an operator.
type Text = unsafe extern "C" fn(
    *const u8,
    usize,
    u64,
    u32,
    u64,
    *mut u8,
    usize,
    *mut usize,
    *mut Refusal,
) -> u32;

/// Panics unless the library has this version.
pub fn check_version() {
    assert_eq!(
        wasm_operators_version(),
        VERSION,
        "libwasm_c.a has another version than this crate"
    );
}

/// Reads a body into `out`, whose elements are replaced. Returns how reading ended.
pub fn read_body(
    bytes: &[u8],
    offset: u64,
    features: u32,
    out: &mut Vec<PlainOperator>,
) -> Refusal {
    check_version();
    // An operator has at least one byte.
    out.clear();
    out.reserve(bytes.len());
    let mut count = 0;
    let mut refusal = Refusal::default();
    // SAFETY: see the head. `count` elements are written, as far as they fit.
    unsafe {
        wasm_read_body(
            bytes.as_ptr(),
            bytes.len(),
            offset,
            features,
            out.as_mut_ptr(),
            out.capacity(),
            &mut count,
            &mut refusal,
        );
        out.set_len(count.min(out.capacity()));
    }
    refusal
}

/// Opens an expression. `frames` becomes long enough for `ahead` bytes.
fn open_by(
    open: Open,
    bytes: &[u8],
    ahead: usize,
    offset: u64,
    features: u32,
    frames: &mut Vec<u8>,
) -> Result<PlainReader, Refusal> {
    check_version();
    let needed = wasm_frames_needed(ahead);
    if frames.capacity() == 0 {
        // Zeroed memory is free until it is used.
        *frames = vec![0; needed];
    } else if frames.len() < needed {
        frames.resize(needed, 0);
    }
    let mut reader = PlainReader::default();
    let mut refusal = Refusal::default();
    // SAFETY: see the head.
    let number = unsafe {
        open(
            bytes.as_ptr(),
            bytes.len(),
            offset,
            features,
            frames.as_mut_ptr(),
            frames.len(),
            &mut reader,
            &mut refusal,
        )
    };
    if number == 0 {
        Ok(reader)
    } else {
        Err(refusal)
    }
}

/// Opens the expression at a position. The contents of `frames` are replaced.
pub fn open(
    bytes: &[u8],
    position: usize,
    offset: u64,
    features: u32,
    frames: &mut Vec<u8>,
) -> Result<PlainReader, Refusal> {
    let ahead = bytes.len() - position;
    let mut reader = open_by(wasm_open, bytes, ahead, offset, features, frames)?;
    reader.position = position as u64;
    Ok(reader)
}

pub fn open_body(
    bytes: &[u8],
    offset: u64,
    features: u32,
    frames: &mut Vec<u8>,
) -> Result<PlainReader, Refusal> {
    open_by(wasm_open_body, bytes, bytes.len(), offset, features, frames)
}

/// Memory for an operator, into which the library writes.
pub type Place = MaybeUninit<PlainOperator>;

/// Reads the next operator by a function. The operator stays where the library writes it: a copy would wait for the
/// library's narrower stores.
#[inline]
fn next_by<'o>(
    next: Next,
    bytes: &[u8],
    frames: &mut [u8],
    reader: &mut PlainReader,
    place: &'o mut Place,
) -> Result<&'o PlainOperator, Refusal> {
    let mut refusal = MaybeUninit::<Refusal>::uninit();
    // SAFETY: see the head. The refusal is written, and the operator if the number is 0.
    unsafe {
        let number = next(
            bytes.as_ptr(),
            bytes.len(),
            frames.as_mut_ptr(),
            frames.len(),
            reader,
            place.as_mut_ptr(),
            refusal.as_mut_ptr(),
        );
        if number == 0 {
            Ok(place.assume_init_ref())
        } else {
            Err(refusal.assume_init())
        }
    }
}

/// Reads the next operator.
#[inline]
pub fn next<'o>(
    bytes: &[u8],
    frames: &mut [u8],
    reader: &mut PlainReader,
    place: &'o mut Place,
) -> Result<&'o PlainOperator, Refusal> {
    next_by(wasm_next, bytes, frames, reader, place)
}

/// Reads the next operator for a visitor without SIMD.
pub fn next_plain<'o>(
    bytes: &[u8],
    frames: &mut [u8],
    reader: &mut PlainReader,
    place: &'o mut Place,
) -> Result<&'o PlainOperator, Refusal> {
    next_by(wasm_next_plain, bytes, frames, reader, place)
}

/// Replaces the elements of `out` by operators, at most `limit` and its capacity, up to the end or an error, which is
/// returned.
pub fn read(
    bytes: &[u8],
    frames: &mut [u8],
    reader: &mut PlainReader,
    out: &mut Vec<PlainOperator>,
    limit: usize,
) -> Refusal {
    out.clear();
    let length = out.capacity().min(limit);
    let mut count = 0;
    let mut refusal = Refusal::default();
    // SAFETY: see the head. The library writes the first `count` of `length` elements, which the list has memory for.
    unsafe {
        wasm_read(
            bytes.as_ptr(),
            bytes.len(),
            frames.as_mut_ptr(),
            frames.len(),
            reader,
            out.as_mut_ptr(),
            length,
            &mut count,
            &mut refusal,
        );
        out.set_len(count.min(length));
    }
    refusal
}

/// Checks that an expression ends here.
pub fn finish(bytes: &[u8], frames: &[u8], reader: &PlainReader) -> Result<(), Refusal> {
    let mut refusal = Refusal::default();
    // SAFETY: see the head.
    let number = unsafe {
        wasm_finish(
            bytes.as_ptr(),
            bytes.len(),
            frames.as_ptr(),
            frames.len(),
            reader,
            &mut refusal,
        )
    };
    if number == 0 { Ok(()) } else { Err(refusal) }
}

/// Reads a value at the reader's position.
#[inline]
pub fn read_value(
    bytes: &[u8],
    reader: &mut PlainReader,
    what: ValueKind,
    argument: u64,
) -> Result<PlainValue, Refusal> {
    let mut value = PlainValue::default();
    let mut refusal = Refusal::default();
    // SAFETY: see the head.
    let number = unsafe {
        wasm_read_value(
            bytes.as_ptr(),
            bytes.len(),
            reader,
            what as u32,
            argument,
            &mut value,
            &mut refusal,
        )
    };
    if number == 0 { Ok(value) } else { Err(refusal) }
}

/// Reads the members of the list of the operator at the start of `bytes`.
fn members<T: Copy + Default>(list: List<T>, bytes: &[u8], features: u32, count: u32) -> Vec<T> {
    let mut out = vec![T::default(); count as usize];
    let mut found = 0;
    let mut refusal = Refusal::default();
    // SAFETY: see the head.
    let number = unsafe {
        list(
            bytes.as_ptr(),
            bytes.len(),
            0,
            features,
            0,
            0,
            out.as_mut_ptr(),
            out.len(),
            &mut found,
            &mut refusal,
        )
    };
    assert!(
        number == 0 && found == out.len(),
        "the library has read this list before: {refusal:?}"
    );
    out
}

pub fn branch_targets(bytes: &[u8], features: u32, count: u32) -> Vec<u32> {
    members(wasm_br_table_targets, bytes, features, count)
}

pub fn select_types(bytes: &[u8], features: u32, count: u32) -> Vec<PlainType> {
    members(wasm_select_types, bytes, features, count)
}

pub fn catches(bytes: &[u8], features: u32, count: u32) -> Vec<PlainHandler> {
    members(wasm_try_table_catches, bytes, features, count)
}

pub fn handlers(bytes: &[u8], features: u32, count: u32) -> Vec<PlainHandler> {
    members(wasm_resume_handlers, bytes, features, count)
}

/// The error of an array that is too short.
const NO_ROOM: u32 = 102;

/// Returns the text that a function writes, in a second call if it is long.
fn text_of(
    mut write: impl FnMut(&mut [u8], &mut usize, &mut Refusal) -> u32,
) -> Result<String, Refusal> {
    let mut text = vec![0; LONGEST_TEXT];
    let mut length = 0;
    let mut refusal = Refusal::default();
    let mut number = write(&mut text, &mut length, &mut refusal);
    if number == NO_ROOM {
        text.resize(length, 0);
        number = write(&mut text, &mut length, &mut refusal);
    }
    if number != 0 {
        return Err(refusal);
    }
    Ok(String::from_utf8_lossy(&text[..length]).into_owned())
}

/// Returns the text of the operator at an offset, by a function.
fn operator_text_by(
    text_by: Text,
    bytes: &[u8],
    offset: u64,
    features: u32,
    at: u64,
) -> Result<String, Refusal> {
    check_version();
    text_of(|text, length, refusal| {
        // SAFETY: see the head.
        unsafe {
            text_by(
                bytes.as_ptr(),
                bytes.len(),
                offset,
                features,
                at,
                text.as_mut_ptr(),
                text.len(),
                length,
                refusal,
            )
        }
    })
}

pub fn operator_text(bytes: &[u8], offset: u64, features: u32, at: u64) -> Result<String, Refusal> {
    operator_text_by(wasm_operator_text, bytes, offset, features, at)
}

pub fn operator_text_name(
    bytes: &[u8],
    offset: u64,
    features: u32,
    at: u64,
) -> Result<String, Refusal> {
    operator_text_by(wasm_operator_text_name, bytes, offset, features, at)
}

/// Writes the shortest encoding of an operator to `out`. Returns its length, which may be greater
/// than the length of `out`. Then nothing is written.
pub fn encode_operator(
    operator: &PlainOperator,
    bytes: &[u8],
    offset: u64,
    features: u32,
    out: &mut [u8],
) -> Result<usize, Refusal> {
    let mut length = 0;
    let mut refusal = Refusal::default();
    // SAFETY: see the head.
    let number = unsafe {
        wasm_encode_operator(
            operator,
            bytes.as_ptr(),
            bytes.len(),
            offset,
            features,
            out.as_mut_ptr(),
            out.len(),
            &mut length,
            &mut refusal,
        )
    };
    if number == 0 || number == NO_ROOM {
        Ok(length)
    } else {
        Err(refusal)
    }
}

/// Appends the bytes of a call to `sink`. The call writes to the space that it gets, if the bytes fit. It sets the number
/// of bytes, and returns 0 or the number of its error.
fn append(
    sink: &mut Vec<u8>,
    call: impl Fn(&mut [u8], &mut usize, &mut Refusal) -> u32,
) -> Result<(), Refusal> {
    let start = sink.len();
    let mut length = 0;
    let mut refusal = Refusal::default();
    if call(&mut [], &mut length, &mut refusal) == NO_ROOM {
        sink.resize(start + length, 0);
        call(&mut sink[start..], &mut length, &mut refusal);
    }
    if refusal.number == 0 {
        Ok(())
    } else {
        sink.truncate(start);
        Err(refusal)
    }
}

/// Appends declarations of locals: how many, and each of them.
pub fn encode_locals(locals: &[PlainLocals], sink: &mut Vec<u8>) -> Result<(), Refusal> {
    append(sink, |out, length, refusal| {
        // SAFETY: see the head.
        unsafe {
            wasm_encode_locals(
                locals.as_ptr(),
                locals.len(),
                out.as_mut_ptr(),
                out.len(),
                length,
                refusal,
            )
        }
    })
}

/// Appends the size of a body, its declarations of locals and the bytes of its operators.
pub fn encode_body(
    locals: &[PlainLocals],
    operators: &[u8],
    sink: &mut Vec<u8>,
) -> Result<(), Refusal> {
    append(sink, |out, length, refusal| {
        // SAFETY: see the head.
        unsafe {
            wasm_encode_body(
                locals.as_ptr(),
                locals.len(),
                operators.as_ptr(),
                operators.len(),
                out.as_mut_ptr(),
                out.len(),
                length,
                refusal,
            )
        }
    })
}

/// Appends a section: its number, its size, the number of its entries, and the bytes of these.
pub fn encode_section(
    id: u8,
    count: u32,
    entries: &[u8],
    sink: &mut Vec<u8>,
) -> Result<(), Refusal> {
    append(sink, |out, length, refusal| {
        // SAFETY: see the head.
        unsafe {
            wasm_encode_section(
                id,
                count,
                entries.as_ptr(),
                entries.len(),
                out.as_mut_ptr(),
                out.len(),
                length,
                refusal,
            )
        }
    })
}

pub fn open_bodies(bytes: &[u8]) -> Result<PlainBodies, Refusal> {
    check_version();
    let mut bodies = PlainBodies::default();
    let mut refusal = Refusal::default();
    // SAFETY: see the head.
    let number =
        unsafe { wasm_open_bodies(bytes.as_ptr(), bytes.len(), &mut bodies, &mut refusal) };
    if number == 0 {
        Ok(bodies)
    } else {
        Err(refusal)
    }
}

pub fn next_body(bytes: &[u8], bodies: &mut PlainBodies) -> Result<PlainBody, Refusal> {
    let mut body = PlainBody::default();
    let mut refusal = Refusal::default();
    // SAFETY: see the head.
    let number =
        unsafe { wasm_next_body(bytes.as_ptr(), bytes.len(), bodies, &mut body, &mut refusal) };
    if number == 0 { Ok(body) } else { Err(refusal) }
}

/// Returns the name of a defined function, or an empty text.
pub fn function_name(bytes: &[u8], index: u32) -> Result<String, Refusal> {
    check_version();
    text_of(|name, length, refusal| {
        // SAFETY: see the head.
        unsafe {
            wasm_function_name(
                bytes.as_ptr(),
                bytes.len(),
                index,
                name.as_mut_ptr(),
                name.len(),
                length,
                refusal,
            )
        }
    })
}

/// Checks a module. Returns the error and its message.
#[cfg(feature = "validate")]
pub fn validate_module(bytes: &[u8], features: u32) -> Result<(), (Refusal, String)> {
    check_version();
    let mut message = [0; LONGEST_TEXT_OF_ERROR];
    let (mut function, mut length) = (0, 0);
    let mut refusal = Refusal::default();
    // SAFETY: see the head.
    let number = unsafe {
        wasm_validate_module(
            bytes.as_ptr(),
            bytes.len(),
            features,
            &mut function,
            message.as_mut_ptr(),
            message.len(),
            &mut length,
            &mut refusal,
        )
    };
    if number == 0 {
        return Ok(());
    }
    let written = &message[..length.min(message.len())];
    Err((refusal, String::from_utf8_lossy(written).into_owned()))
}

/// The first length that a text of an operator gets.
const LONGEST_TEXT: usize = 128;

/// The longest text of an error is shorter. The text of `BadMagic` has about 150 bytes.
const LONGEST_TEXT_OF_ERROR: usize = 256;

/// Returns the text of an error, which is empty for the library's numbers.
pub fn refusal_text(refusal: &Refusal) -> String {
    let mut text = [0; LONGEST_TEXT_OF_ERROR];
    // SAFETY: see the head.
    let length = unsafe { wasm_refusal_text(refusal, text.as_mut_ptr(), text.len()) };
    String::from_utf8_lossy(&text[..length.min(text.len())]).into_owned()
}
