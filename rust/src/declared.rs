//! Structs and calls of `wasm_operators.h`. Written by tools/lists.py from that header, which describes the calls.

/// `wasm_operator` of the header.
#[repr(C)]
#[derive(Clone, Copy, Debug, Default, PartialEq, Eq)]
pub struct PlainOperator {
    /// The offset of its first byte.
    pub offset: u64,
    /// An integer, sign-extended; the bits of a float; the static offset of a memory argument in
    /// bytes.
    pub wide: u64,
    /// The opcode, or the subopcode plus 65536 times the prefix byte: enum wasm_opcode.
    pub opcode: u32,
    /// Indices, in the order of the binary format, or the number of elements of a list.
    pub first: u32,
    /// The second index.
    pub second: u32,
    /// The third index.
    pub third: u32,
    /// A type: enum wasm_kind. Its index, if any, is in the field that the opcode names.
    pub kind: u32,
    /// The target type of a cast.
    pub other_kind: u32,
    /// Which fields have a meaning: enum wasm_shape.
    pub shape: u8,
    /// The alignment of a memory argument, as the exponent of a power of two.
    pub align: u8,
    /// The natural alignment, as the exponent of a power of two.
    pub max_align: u8,
    /// The index of a lane.
    pub lane: u8,
    /// 0 if a memory argument accesses the memory `first`, 1 if an array of type `first`.
    pub target: u16,
    /// The memory ordering: 0 none, 1 sequentially consistent, 2 acquire and release; 3, 4 in a
    /// read-modify-write.
    pub ordering: u16,
    /// A vector, little-endian, or the lane indices of a shuffle.
    pub bytes: [u8; 16],
}

/// `wasm_refusal` of the header.
#[repr(C)]
#[derive(Clone, Copy, Debug, Default, PartialEq, Eq)]
pub struct Refusal {
    /// The offset of the error. It is the offset of the first byte for
    /// WASM_REFUSED_UNKNOWN_FEATURES, WASM_REFUSED_PAST_OFFSETS, WASM_REFUSED_NOT_A_READER and
    /// WASM_REFUSED_NO_VALUE_KIND, and `at` for WASM_REFUSED_NO_LIST and a text that does not fit.
    /// Without an error it is the offset of the end of the bytes, the reader's offset, `at`, or the
    /// offset of the body. Otherwise it is 0.
    pub offset: u64,
    /// 0 without an error, else enum wasm_refused.
    pub number: u32,
    /// The number of the name in its text.
    pub name: u32,
    /// The byte, code or flags in its text, or what enum wasm_refused says.
    pub value: u32,
    /// 0.
    pub reserved: u32,
}

/// `wasm_reader` of the header.
#[repr(C)]
#[derive(Clone, Copy, Debug, Default, PartialEq, Eq)]
pub struct PlainReader {
    /// Of the first byte.
    pub offset: u64,
    /// The number of bytes read.
    pub position: u64,
    /// The number of open frames.
    pub depth: u64,
    pub features: u32,
    /// 0.
    pub reserved: u32,
}

/// `wasm_type` of the header.
#[repr(C)]
#[derive(Clone, Copy, Debug, Default, PartialEq, Eq)]
pub struct PlainType {
    /// Enum wasm_kind, with flags.
    pub kind: u32,
    /// The type index of a reference type, else 0.
    pub index: u32,
}

/// `wasm_handler` of the header.
#[repr(C)]
#[derive(Clone, Copy, Debug, Default, PartialEq, Eq)]
pub struct PlainHandler {
    /// Enum wasm_catch or enum wasm_clause.
    pub kind: u32,
    /// Its index, or 0 if it has none.
    pub tag: u32,
    /// 0 if it has none.
    pub label: u32,
}

/// `wasm_value` of the header.
#[repr(C)]
#[derive(Clone, Copy, Debug, Default, PartialEq, Eq)]
pub struct PlainValue {
    pub number: u64,
    pub kind: u32,
    pub index: u32,
}

/// `wasm_bodies` of the header.
#[repr(C)]
#[derive(Clone, Copy, Debug, Default, PartialEq, Eq)]
pub struct PlainBodies {
    /// Bytes read of the code section's contents.
    pub code: u64,
    /// Bytes read of the function section's contents.
    pub types: u64,
    /// The number of imported functions.
    pub imported: u32,
    /// The number of bodies read.
    pub read: u32,
    /// The number of bodies left.
    pub left: u32,
    /// 0.
    pub reserved: u32,
}

/// `wasm_body` of the header.
#[repr(C)]
#[derive(Clone, Copy, Debug, Default, PartialEq, Eq)]
pub struct PlainBody {
    /// Of the first byte in the module.
    pub offset: u64,
    /// In bytes.
    pub length: u64,
    /// Of the function; imported functions have the lowest indices.
    pub index: u32,
    pub type_index: u32,
}

/// `wasm_locals` of the header.
#[repr(C)]
#[derive(Clone, Copy, Debug, Default, PartialEq, Eq)]
pub struct PlainLocals {
    /// How many locals.
    pub count: u32,
    /// Their type.
    pub ty: PlainType,
}

unsafe extern "C" {
    pub safe fn wasm_operators_version() -> u32;
    pub fn wasm_read_body(
        bytes: *const u8,
        bytes_length: usize,
        offset: u64,
        features: u32,
        out: *mut PlainOperator,
        out_length: usize,
        count: *mut usize,
        refusal: *mut Refusal,
    ) -> u32;
    pub fn wasm_refusal_text(refusal: *const Refusal, text: *mut u8, text_length: usize) -> usize;
    pub safe fn wasm_frames_needed(bytes_length: usize) -> usize;
    pub fn wasm_open(
        bytes: *const u8,
        bytes_length: usize,
        offset: u64,
        features: u32,
        frames: *mut u8,
        frames_length: usize,
        reader: *mut PlainReader,
        refusal: *mut Refusal,
    ) -> u32;
    pub fn wasm_open_body(
        bytes: *const u8,
        bytes_length: usize,
        offset: u64,
        features: u32,
        frames: *mut u8,
        frames_length: usize,
        reader: *mut PlainReader,
        refusal: *mut Refusal,
    ) -> u32;
    pub fn wasm_next(
        bytes: *const u8,
        bytes_length: usize,
        frames: *mut u8,
        frames_length: usize,
        reader: *mut PlainReader,
        op: *mut PlainOperator,
        refusal: *mut Refusal,
    ) -> u32;
    pub fn wasm_next_plain(
        bytes: *const u8,
        bytes_length: usize,
        frames: *mut u8,
        frames_length: usize,
        reader: *mut PlainReader,
        op: *mut PlainOperator,
        refusal: *mut Refusal,
    ) -> u32;
    pub fn wasm_read_value(
        bytes: *const u8,
        bytes_length: usize,
        reader: *mut PlainReader,
        kind: u32,
        argument: u64,
        value: *mut PlainValue,
        refusal: *mut Refusal,
    ) -> u32;
    pub fn wasm_read(
        bytes: *const u8,
        bytes_length: usize,
        frames: *mut u8,
        frames_length: usize,
        reader: *mut PlainReader,
        out: *mut PlainOperator,
        out_length: usize,
        count: *mut usize,
        refusal: *mut Refusal,
    ) -> u32;
    pub fn wasm_finish(
        bytes: *const u8,
        bytes_length: usize,
        frames: *const u8,
        frames_length: usize,
        reader: *const PlainReader,
        refusal: *mut Refusal,
    ) -> u32;
    pub fn wasm_br_table_targets(
        bytes: *const u8,
        bytes_length: usize,
        offset: u64,
        features: u32,
        at: u64,
        index: usize,
        out: *mut u32,
        out_length: usize,
        count: *mut usize,
        refusal: *mut Refusal,
    ) -> u32;
    pub fn wasm_select_types(
        bytes: *const u8,
        bytes_length: usize,
        offset: u64,
        features: u32,
        at: u64,
        index: usize,
        out: *mut PlainType,
        out_length: usize,
        count: *mut usize,
        refusal: *mut Refusal,
    ) -> u32;
    pub fn wasm_try_table_catches(
        bytes: *const u8,
        bytes_length: usize,
        offset: u64,
        features: u32,
        at: u64,
        index: usize,
        out: *mut PlainHandler,
        out_length: usize,
        count: *mut usize,
        refusal: *mut Refusal,
    ) -> u32;
    pub fn wasm_resume_handlers(
        bytes: *const u8,
        bytes_length: usize,
        offset: u64,
        features: u32,
        at: u64,
        index: usize,
        out: *mut PlainHandler,
        out_length: usize,
        count: *mut usize,
        refusal: *mut Refusal,
    ) -> u32;
    pub fn wasm_operator_text(
        bytes: *const u8,
        bytes_length: usize,
        offset: u64,
        features: u32,
        at: u64,
        text: *mut u8,
        text_length: usize,
        length: *mut usize,
        refusal: *mut Refusal,
    ) -> u32;
    pub fn wasm_operator_text_name(
        bytes: *const u8,
        bytes_length: usize,
        offset: u64,
        features: u32,
        at: u64,
        name: *mut u8,
        name_length: usize,
        length: *mut usize,
        refusal: *mut Refusal,
    ) -> u32;
    pub fn wasm_encode_operator(
        op: *const PlainOperator,
        bytes: *const u8,
        bytes_length: usize,
        offset: u64,
        features: u32,
        out: *mut u8,
        out_length: usize,
        length: *mut usize,
        refusal: *mut Refusal,
    ) -> u32;
    pub fn wasm_encode_locals(
        locals: *const PlainLocals,
        locals_length: usize,
        out: *mut u8,
        out_length: usize,
        length: *mut usize,
        refusal: *mut Refusal,
    ) -> u32;
    pub fn wasm_encode_body(
        locals: *const PlainLocals,
        locals_length: usize,
        operators: *const u8,
        operators_length: usize,
        out: *mut u8,
        out_length: usize,
        length: *mut usize,
        refusal: *mut Refusal,
    ) -> u32;
    pub fn wasm_encode_section(
        id: u8,
        count: u32,
        entries: *const u8,
        entries_length: usize,
        out: *mut u8,
        out_length: usize,
        length: *mut usize,
        refusal: *mut Refusal,
    ) -> u32;
    pub fn wasm_open_bodies(
        bytes: *const u8,
        bytes_length: usize,
        bodies: *mut PlainBodies,
        refusal: *mut Refusal,
    ) -> u32;
    pub fn wasm_next_body(
        bytes: *const u8,
        bytes_length: usize,
        bodies: *mut PlainBodies,
        body: *mut PlainBody,
        refusal: *mut Refusal,
    ) -> u32;
    pub fn wasm_function_name(
        bytes: *const u8,
        bytes_length: usize,
        index: u32,
        name: *mut u8,
        name_length: usize,
        length: *mut usize,
        refusal: *mut Refusal,
    ) -> u32;
    #[cfg(feature = "validate")]
    pub fn wasm_validate_module(
        bytes: *const u8,
        bytes_length: usize,
        features: u32,
        function: *mut u64,
        message: *mut u8,
        message_length: usize,
        length: *mut usize,
        refusal: *mut Refusal,
    ) -> u32;
}
