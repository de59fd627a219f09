/* SPDX-License-Identifier: Apache-2.0 WITH LLVM-exception OR Apache-2.0 OR MIT */
/* The operators of WebAssembly function bodies: the header of libwasm_c.a, a decoder that is proved. C99 and C++.
 * docs/CALLERS.md has a first program. tools/lists.py writes the lists over the operators.
 *
 * The caller provides all memory. A pointer to an array may be null if the length is 0, and no other may. Calls may run
 * on several threads at once if each uses its own memory.
 *
 * A call that sets `*refusal` returns 0, or the number of the refusal. Then nothing else changes, unless the call says
 * otherwise. `offset` is the offset of the first byte of `bytes`. A call with `features` fails with
 * WASM_REFUSED_UNKNOWN_FEATURES if a bit is not in `enum wasm_feature`, and with WASM_REFUSED_PAST_OFFSETS if
 * `offset + bytes_length` does not fit in 64 bits. Texts have no terminating 0. */
#ifndef WASM_OPERATORS_H
#define WASM_OPERATORS_H

#include <stddef.h>
#include <stdint.h>

#ifdef __cplusplus
extern "C" {
#endif

/* The number of this header's structs and calls. wasm_operators_version() returns the library's. */
#define WASM_OPERATORS_VERSION 5u

/* The release, by semantic versioning. It follows wasmparser 0.263.0. */
#define WASM_OPERATORS_RELEASE "0.1.0"

/* The lengths in bytes of the longest names that wasm_operator_name and wasm_operator_text_name write. */
#define WASM_LONGEST_NAME 29
#define WASM_LONGEST_TEXT_NAME 35

/* The index of no function: wasm_validate_module sets it. */
#define WASM_NO_FUNCTION UINT64_MAX

/* May be combined with |. */
enum wasm_feature {
  WASM_FEATURE_MULTI_MEMORY = 1,
  WASM_FEATURE_MEMORY64 = 2,
  WASM_FEATURE_CALL_INDIRECT_OVERLONG = 4,
  WASM_FEATURE_LEGACY_EXCEPTIONS = 8,
  WASM_FEATURE_ACQUIRE_RELEASE_ATOMICS = 16,
  WASM_FEATURE_MULTIBYTE_ARRAY_ACCESS = 32,
  WASM_FEATURES_ALL = 63
};

/* The fields of an operator that have a meaning; `enum wasm_opcode` says what they hold. */
enum wasm_shape {
  WASM_SHAPE_NONE = 0, /* no immediates */
  WASM_SHAPE_INDEX = 1, /* first */
  WASM_SHAPE_TWO_INDICES = 2, /* first, second */
  WASM_SHAPE_MEMORY = 3, /* a memory argument: wide, align, max_align, target, first, ordering */
  WASM_SHAPE_MEMORY_LANE = 4, /* a memory argument; lane */
  WASM_SHAPE_LANE = 5, /* lane */
  WASM_SHAPE_I32 = 6, /* wide */
  WASM_SHAPE_I64 = 7, /* wide */
  WASM_SHAPE_F32 = 8, /* wide */
  WASM_SHAPE_F64 = 9, /* wide */
  WASM_SHAPE_V128 = 10, /* bytes */
  WASM_SHAPE_LANES = 11, /* bytes */
  WASM_SHAPE_ORDERED = 12, /* ordering, first */
  WASM_SHAPE_ORDERED_TWO = 13, /* ordering, first, second */
  WASM_SHAPE_FENCE = 14, /* ordering */
  WASM_SHAPE_HEAP_TYPE = 15, /* kind, first */
  WASM_SHAPE_CAST = 16, /* first; kind, second; other_kind, third */
  WASM_SHAPE_BLOCK = 17, /* kind, first */
  WASM_SHAPE_BRANCH_TABLE = 18, /* first, second */
  WASM_SHAPE_SELECT_ONE = 19, /* kind, first */
  WASM_SHAPE_SELECT_MANY = 20, /* first */
  WASM_SHAPE_TRY_TABLE = 21, /* kind, first; second */
  WASM_SHAPE_RESUME = 22, /* first, second */
  WASM_SHAPE_RESUME_THROW = 23 /* first, second, third */
};

/* Types. WASM_KIND_SHARED may be added to an abstract heap type. WASM_KIND_NULLABLE is added to the heap type of a
 * nullable reference type, and WASM_KIND_REFERENCE if a reference type is a value type. */
enum wasm_kind {
  WASM_KIND_FUNC_TYPE = 0, /* of a block: a function type */
  WASM_KIND_CONCRETE = 1,  /* a type or a subtype */
  WASM_KIND_EXACT = 2,     /* exactly a type */
  WASM_KIND_EMPTY = 0x40,  /* of a block: no result */
  WASM_KIND_CONT = 0x68,
  WASM_KIND_EXN = 0x69,
  WASM_KIND_ARRAY = 0x6a,
  WASM_KIND_STRUCT = 0x6b,
  WASM_KIND_I31 = 0x6c,
  WASM_KIND_EQ = 0x6d,
  WASM_KIND_ANY = 0x6e,
  WASM_KIND_EXTERN = 0x6f,
  WASM_KIND_FUNC = 0x70,
  WASM_KIND_NONE = 0x71,
  WASM_KIND_NOEXTERN = 0x72,
  WASM_KIND_NOFUNC = 0x73,
  WASM_KIND_NOEXN = 0x74,
  WASM_KIND_NOCONT = 0x75,
  WASM_KIND_V128 = 0x7b,
  WASM_KIND_F64 = 0x7c,
  WASM_KIND_F32 = 0x7d,
  WASM_KIND_I64 = 0x7e,
  WASM_KIND_I32 = 0x7f,
  WASM_KIND_SHARED = 256,
  WASM_KIND_NULLABLE = 512,
  WASM_KIND_REFERENCE = 1024
};

/* What a catch catches, one tag or all; REF also passes the exception. */
enum wasm_catch {
  WASM_CATCH_ONE = 0,
  WASM_CATCH_ONE_REF = 1,
  WASM_CATCH_ALL = 2,
  WASM_CATCH_ALL_REF = 3
};

/* The forms of a clause of a resume. */
enum wasm_clause {
  WASM_CLAUSE_ON_LABEL = 0,
  WASM_CLAUSE_ON_SWITCH = 1
};

/* The bytes of the array `frames`, outermost first. Any other byte counts as a block. */
enum wasm_frame {
  WASM_FRAME_BLOCK = 0,
  WASM_FRAME_IF = 1,
  WASM_FRAME_ELSE = 2,
  WASM_FRAME_LOOP = 3,
  WASM_FRAME_TRY_TABLE = 4,
  WASM_FRAME_LEGACY_TRY = 5,
  WASM_FRAME_LEGACY_CATCH = 6,
  WASM_FRAME_LEGACY_CATCH_ALL = 7
};

/* What wasm_read_value reads. Unless the comment says otherwise, `number` is the number, sign-extended if signed. */
enum wasm_value_kind {
  WASM_VALUE_U8 = 0,
  WASM_VALUE_U32 = 1, /* four bytes, little-endian */
  WASM_VALUE_U64 = 2, /* eight bytes, little-endian */
  WASM_VALUE_VAR_U32 = 3, /* LEB128 */
  WASM_VALUE_VAR_U64 = 4,
  WASM_VALUE_VAR_I32 = 5, /* signed LEB128 */
  WASM_VALUE_VAR_S33 = 6,
  WASM_VALUE_VAR_I64 = 7,
  WASM_VALUE_SIZE = 8, /* a VAR_U32 of at most `argument`, else WASM_REFUSED_SIZE_OUT_OF_BOUNDS */
  WASM_VALUE_BYTES = 9, /* `argument` bytes; number: how many */
  WASM_VALUE_SIZED = 10, /* a VAR_U32 and that many bytes, such as a function body; number: how many */
  WASM_VALUE_LOCALS = 11, /* the locals of a body, up to its operators */
  WASM_VALUE_CONST_EXPR = 12, /* a constant expression; number: its length in bytes */
  WASM_VALUE_VAL_TYPE = 13, /* kind, index: as in wasm_type */
  WASM_VALUE_REF_TYPE = 14, /* kind, index: as a value type */
  WASM_VALUE_HEAP_TYPE = 15, /* kind, index */
  WASM_VALUE_BLOCK_TYPE = 16, /* kind, index */
  WASM_VALUE_LOCAL = 17, /* number: how many locals; kind, index: their type. `argument` locals were declared before */
  WASM_VALUE_CATCH = 18, /* of a try_table; kind: its form; number: its tag; index: its label */
  WASM_VALUE_CLAUSE = 19 /* of a resume; kind: its form; number: its tag; index: its label */
};

/* docs/ERRORS-AND-FEATURES.md lists the texts and offsets of 1 to 28. */
enum wasm_refused {
  WASM_REFUSED_END_OF_DATA = 1,
  WASM_REFUSED_FEATURE_REQUIRED = 2,
  WASM_REFUSED_OUT_OF_MEMORY = 3,
  WASM_REFUSED_INTEGER = 4,
  WASM_REFUSED_SIZE_OUT_OF_BOUNDS = 5,
  WASM_REFUSED_INVALID_FUNCTION_TYPE = 6,
  WASM_REFUSED_WRONG_FRAME = 7,
  WASM_REFUSED_OPERATORS_REMAINING = 8,
  WASM_REFUSED_FRAMES_REMAIN = 9,
  WASM_REFUSED_FRAMES_REMAIN_CONST = 10,
  WASM_REFUSED_UNEXPECTED_DATA = 11,
  WASM_REFUSED_ILLEGAL_OPCODE = 12,
  WASM_REFUSED_UNKNOWN_SUBOPCODE = 13,
  WASM_REFUSED_UNEXPECTED_SIMD = 14,
  WASM_REFUSED_ZERO_BYTE_EXPECTED = 15,
  WASM_REFUSED_NONZERO_AFTER_FENCE = 16,
  WASM_REFUSED_MEMORY_AND_ARRAY = 17,
  WASM_REFUSED_ORDERING_ON_PLAIN = 18,
  WASM_REFUSED_INVALID_ORDERING = 19,
  WASM_REFUSED_RESERVED_FLAGS = 20,
  WASM_REFUSED_INVALID_CAST_FLAGS = 21,
  WASM_REFUSED_INVALID_LEADING_BYTE = 22,
  WASM_REFUSED_TOO_MANY_LOCALS = 23,
  WASM_REFUSED_INVALID_TYPE = 24,
  WASM_REFUSED_DATA_AFTER_SECTION = 25,
  WASM_REFUSED_MALFORMED = 26, /* name: which part of a module */
  WASM_REFUSED_BAD_MAGIC = 27, /* value: the first four bytes, little-endian */
  WASM_REFUSED_UNKNOWN_VERSION = 28, /* value: the version */
  WASM_REFUSED_UNKNOWN_FEATURES = 100,
  WASM_REFUSED_PAST_OFFSETS = 101,
  WASM_REFUSED_NO_ROOM = 102, /* an array is too short */
  WASM_REFUSED_NOT_A_READER = 103,
  WASM_REFUSED_NO_LIST = 104,
  WASM_REFUSED_NO_VALUE_KIND = 105,
  WASM_REFUSED_NOT_A_MODULE = 106, /* value: 1 a component, 2 another version, 3 no WebAssembly */
  WASM_REFUSED_IMPORT_KIND = 107, /* value: the byte of the kind */
  WASM_REFUSED_TYPE_KIND = 108, /* value: the byte of the type */
  WASM_REFUSED_COUNTS_DIFFER = 109, /* of bodies and functions */
  WASM_REFUSED_NO_FUNCTION = 110, /* the module defines none with the index */
  WASM_REFUSED_NO_BODY = 111, /* all bodies were read */
  WASM_REFUSED_NOT_WRITABLE = 112, /* no bytes encode a value with these fields */
  WASM_REFUSED_INVALID = 113, /* the module is not valid */
  WASM_REFUSED_NO_ITEM = 114 /* all parts of a module, or all items of a list, were read */
};

/* The parts of a module. Up to 127 it is the id of a section; an id that is not listed has no meaning. */
enum wasm_payload_kind {
  WASM_PAYLOAD_CUSTOM_SECTION = 0, /* name: its name; items: its data */
  WASM_PAYLOAD_TYPE_SECTION = 1, /* items: groups of types */
  WASM_PAYLOAD_IMPORT_SECTION = 2, /* items: imports */
  WASM_PAYLOAD_FUNCTION_SECTION = 3, /* items: indices of types */
  WASM_PAYLOAD_TABLE_SECTION = 4, /* items: tables */
  WASM_PAYLOAD_MEMORY_SECTION = 5, /* items: memories */
  WASM_PAYLOAD_GLOBAL_SECTION = 6, /* items: globals */
  WASM_PAYLOAD_EXPORT_SECTION = 7, /* items: exports */
  WASM_PAYLOAD_START_SECTION = 8, /* number: the index of the function */
  WASM_PAYLOAD_ELEMENT_SECTION = 9, /* items: element segments */
  WASM_PAYLOAD_CODE_SECTION = 10, /* number: how many bodies there are, which are the next parts */
  WASM_PAYLOAD_DATA_SECTION = 11, /* items: data segments */
  WASM_PAYLOAD_DATA_COUNT_SECTION = 12, /* number: how many data segments there are */
  WASM_PAYLOAD_TAG_SECTION = 13, /* items: tags */
  WASM_PAYLOAD_VERSION = 256, /* the preamble; number: the version, 1 */
  WASM_PAYLOAD_BODY = 257, /* a function body, without its size */
  WASM_PAYLOAD_END = 258 /* the end of the module */
};

/* The subsections of the custom section `name`, by what they name. Locals, labels and fields are named in maps of maps. */
enum wasm_names_kind {
  WASM_NAMES_MODULE = 0,
  WASM_NAMES_FUNCTIONS = 1,
  WASM_NAMES_LOCALS = 2,
  WASM_NAMES_LABELS = 3,
  WASM_NAMES_TYPES = 4,
  WASM_NAMES_TABLES = 5,
  WASM_NAMES_MEMORIES = 6,
  WASM_NAMES_GLOBALS = 7,
  WASM_NAMES_ELEMENTS = 8,
  WASM_NAMES_DATA = 9,
  WASM_NAMES_FIELDS = 10,
  WASM_NAMES_TAGS = 11
};

/* What a module imports or exports. */
enum wasm_external_kind {
  WASM_EXTERNAL_FUNC = 0,
  WASM_EXTERNAL_TABLE = 1,
  WASM_EXTERNAL_MEMORY = 2,
  WASM_EXTERNAL_GLOBAL = 3,
  WASM_EXTERNAL_TAG = 4
};

/* When a segment is copied. */
enum wasm_segment_kind {
  WASM_SEGMENT_PASSIVE = 0, /* by an operator */
  WASM_SEGMENT_ACTIVE = 1, /* at the start */
  WASM_SEGMENT_DECLARATIVE = 2 /* never: the functions may be referred to */
};

/* May be combined with |. */
enum wasm_external_flag {
  WASM_EXTERNAL_MAXIMUM = 1, /* a table or memory has a maximum */
  WASM_EXTERNAL_SHARED = 2, /* between threads */
  WASM_EXTERNAL_64 = 4, /* indices of a table or addresses of a memory are of type i64 */
  WASM_EXTERNAL_PAGE_SIZE = 8, /* a memory has a page size */
  WASM_EXTERNAL_MUTABLE = 16 /* a global is mutable */
};

/* The opcode, or the subopcode plus 65536 times the prefix byte. TypedSelect has the shape SELECT_MANY if it has no
 * type or several. A comment says what the fields of `struct wasm_operator` hold; fields that it does not name are 0.
 * memarg, a memory argument, is wide: offset; align; target, first: memory or array type; ordering. */
enum wasm_opcode {
  WASM_OP_Unreachable = 0x0,
  WASM_OP_Nop = 0x1,
  WASM_OP_Block = 0x2, /* kind, first: block type */
  WASM_OP_Loop = 0x3, /* kind, first: block type */
  WASM_OP_If = 0x4, /* kind, first: block type */
  WASM_OP_Else = 0x5,
  WASM_OP_End = 0xb,
  WASM_OP_Br = 0xc, /* first: label */
  WASM_OP_BrIf = 0xd, /* first: label */
  WASM_OP_BrTable = 0xe, /* first: number of targets; second: default target */
  WASM_OP_Return = 0xf,
  WASM_OP_Call = 0x10, /* first: function index */
  WASM_OP_CallIndirect = 0x11, /* first: type index; second: table index */
  WASM_OP_Drop = 0x1a,
  WASM_OP_Select = 0x1b,
  WASM_OP_LocalGet = 0x20, /* first: local index */
  WASM_OP_LocalSet = 0x21, /* first: local index */
  WASM_OP_LocalTee = 0x22, /* first: local index */
  WASM_OP_GlobalGet = 0x23, /* first: global index */
  WASM_OP_GlobalSet = 0x24, /* first: global index */
  WASM_OP_I32Load = 0x28, /* memarg; max_align: 2 */
  WASM_OP_I64Load = 0x29, /* memarg; max_align: 3 */
  WASM_OP_F32Load = 0x2a, /* memarg; max_align: 2 */
  WASM_OP_F64Load = 0x2b, /* memarg; max_align: 3 */
  WASM_OP_I32Load8S = 0x2c, /* memarg; max_align: 0 */
  WASM_OP_I32Load8U = 0x2d, /* memarg; max_align: 0 */
  WASM_OP_I32Load16S = 0x2e, /* memarg; max_align: 1 */
  WASM_OP_I32Load16U = 0x2f, /* memarg; max_align: 1 */
  WASM_OP_I64Load8S = 0x30, /* memarg; max_align: 0 */
  WASM_OP_I64Load8U = 0x31, /* memarg; max_align: 0 */
  WASM_OP_I64Load16S = 0x32, /* memarg; max_align: 1 */
  WASM_OP_I64Load16U = 0x33, /* memarg; max_align: 1 */
  WASM_OP_I64Load32S = 0x34, /* memarg; max_align: 2 */
  WASM_OP_I64Load32U = 0x35, /* memarg; max_align: 2 */
  WASM_OP_I32Store = 0x36, /* memarg; max_align: 2 */
  WASM_OP_I64Store = 0x37, /* memarg; max_align: 3 */
  WASM_OP_F32Store = 0x38, /* memarg; max_align: 2 */
  WASM_OP_F64Store = 0x39, /* memarg; max_align: 3 */
  WASM_OP_I32Store8 = 0x3a, /* memarg; max_align: 0 */
  WASM_OP_I32Store16 = 0x3b, /* memarg; max_align: 1 */
  WASM_OP_I64Store8 = 0x3c, /* memarg; max_align: 0 */
  WASM_OP_I64Store16 = 0x3d, /* memarg; max_align: 1 */
  WASM_OP_I64Store32 = 0x3e, /* memarg; max_align: 2 */
  WASM_OP_MemorySize = 0x3f, /* first: memory index */
  WASM_OP_MemoryGrow = 0x40, /* first: memory index */
  WASM_OP_I32Const = 0x41, /* wide: value */
  WASM_OP_I64Const = 0x42, /* wide: value */
  WASM_OP_F32Const = 0x43, /* wide: bits */
  WASM_OP_F64Const = 0x44, /* wide: bits */
  WASM_OP_I32Eqz = 0x45,
  WASM_OP_I32Eq = 0x46,
  WASM_OP_I32Ne = 0x47,
  WASM_OP_I32LtS = 0x48,
  WASM_OP_I32LtU = 0x49,
  WASM_OP_I32GtS = 0x4a,
  WASM_OP_I32GtU = 0x4b,
  WASM_OP_I32LeS = 0x4c,
  WASM_OP_I32LeU = 0x4d,
  WASM_OP_I32GeS = 0x4e,
  WASM_OP_I32GeU = 0x4f,
  WASM_OP_I64Eqz = 0x50,
  WASM_OP_I64Eq = 0x51,
  WASM_OP_I64Ne = 0x52,
  WASM_OP_I64LtS = 0x53,
  WASM_OP_I64LtU = 0x54,
  WASM_OP_I64GtS = 0x55,
  WASM_OP_I64GtU = 0x56,
  WASM_OP_I64LeS = 0x57,
  WASM_OP_I64LeU = 0x58,
  WASM_OP_I64GeS = 0x59,
  WASM_OP_I64GeU = 0x5a,
  WASM_OP_F32Eq = 0x5b,
  WASM_OP_F32Ne = 0x5c,
  WASM_OP_F32Lt = 0x5d,
  WASM_OP_F32Gt = 0x5e,
  WASM_OP_F32Le = 0x5f,
  WASM_OP_F32Ge = 0x60,
  WASM_OP_F64Eq = 0x61,
  WASM_OP_F64Ne = 0x62,
  WASM_OP_F64Lt = 0x63,
  WASM_OP_F64Gt = 0x64,
  WASM_OP_F64Le = 0x65,
  WASM_OP_F64Ge = 0x66,
  WASM_OP_I32Clz = 0x67,
  WASM_OP_I32Ctz = 0x68,
  WASM_OP_I32Popcnt = 0x69,
  WASM_OP_I32Add = 0x6a,
  WASM_OP_I32Sub = 0x6b,
  WASM_OP_I32Mul = 0x6c,
  WASM_OP_I32DivS = 0x6d,
  WASM_OP_I32DivU = 0x6e,
  WASM_OP_I32RemS = 0x6f,
  WASM_OP_I32RemU = 0x70,
  WASM_OP_I32And = 0x71,
  WASM_OP_I32Or = 0x72,
  WASM_OP_I32Xor = 0x73,
  WASM_OP_I32Shl = 0x74,
  WASM_OP_I32ShrS = 0x75,
  WASM_OP_I32ShrU = 0x76,
  WASM_OP_I32Rotl = 0x77,
  WASM_OP_I32Rotr = 0x78,
  WASM_OP_I64Clz = 0x79,
  WASM_OP_I64Ctz = 0x7a,
  WASM_OP_I64Popcnt = 0x7b,
  WASM_OP_I64Add = 0x7c,
  WASM_OP_I64Sub = 0x7d,
  WASM_OP_I64Mul = 0x7e,
  WASM_OP_I64DivS = 0x7f,
  WASM_OP_I64DivU = 0x80,
  WASM_OP_I64RemS = 0x81,
  WASM_OP_I64RemU = 0x82,
  WASM_OP_I64And = 0x83,
  WASM_OP_I64Or = 0x84,
  WASM_OP_I64Xor = 0x85,
  WASM_OP_I64Shl = 0x86,
  WASM_OP_I64ShrS = 0x87,
  WASM_OP_I64ShrU = 0x88,
  WASM_OP_I64Rotl = 0x89,
  WASM_OP_I64Rotr = 0x8a,
  WASM_OP_F32Abs = 0x8b,
  WASM_OP_F32Neg = 0x8c,
  WASM_OP_F32Ceil = 0x8d,
  WASM_OP_F32Floor = 0x8e,
  WASM_OP_F32Trunc = 0x8f,
  WASM_OP_F32Nearest = 0x90,
  WASM_OP_F32Sqrt = 0x91,
  WASM_OP_F32Add = 0x92,
  WASM_OP_F32Sub = 0x93,
  WASM_OP_F32Mul = 0x94,
  WASM_OP_F32Div = 0x95,
  WASM_OP_F32Min = 0x96,
  WASM_OP_F32Max = 0x97,
  WASM_OP_F32Copysign = 0x98,
  WASM_OP_F64Abs = 0x99,
  WASM_OP_F64Neg = 0x9a,
  WASM_OP_F64Ceil = 0x9b,
  WASM_OP_F64Floor = 0x9c,
  WASM_OP_F64Trunc = 0x9d,
  WASM_OP_F64Nearest = 0x9e,
  WASM_OP_F64Sqrt = 0x9f,
  WASM_OP_F64Add = 0xa0,
  WASM_OP_F64Sub = 0xa1,
  WASM_OP_F64Mul = 0xa2,
  WASM_OP_F64Div = 0xa3,
  WASM_OP_F64Min = 0xa4,
  WASM_OP_F64Max = 0xa5,
  WASM_OP_F64Copysign = 0xa6,
  WASM_OP_I32WrapI64 = 0xa7,
  WASM_OP_I32TruncF32S = 0xa8,
  WASM_OP_I32TruncF32U = 0xa9,
  WASM_OP_I32TruncF64S = 0xaa,
  WASM_OP_I32TruncF64U = 0xab,
  WASM_OP_I64ExtendI32S = 0xac,
  WASM_OP_I64ExtendI32U = 0xad,
  WASM_OP_I64TruncF32S = 0xae,
  WASM_OP_I64TruncF32U = 0xaf,
  WASM_OP_I64TruncF64S = 0xb0,
  WASM_OP_I64TruncF64U = 0xb1,
  WASM_OP_F32ConvertI32S = 0xb2,
  WASM_OP_F32ConvertI32U = 0xb3,
  WASM_OP_F32ConvertI64S = 0xb4,
  WASM_OP_F32ConvertI64U = 0xb5,
  WASM_OP_F32DemoteF64 = 0xb6,
  WASM_OP_F64ConvertI32S = 0xb7,
  WASM_OP_F64ConvertI32U = 0xb8,
  WASM_OP_F64ConvertI64S = 0xb9,
  WASM_OP_F64ConvertI64U = 0xba,
  WASM_OP_F64PromoteF32 = 0xbb,
  WASM_OP_I32ReinterpretF32 = 0xbc,
  WASM_OP_I64ReinterpretF64 = 0xbd,
  WASM_OP_F32ReinterpretI32 = 0xbe,
  WASM_OP_F64ReinterpretI64 = 0xbf,
  WASM_OP_I32Extend8S = 0xc0,
  WASM_OP_I32Extend16S = 0xc1,
  WASM_OP_I64Extend8S = 0xc2,
  WASM_OP_I64Extend16S = 0xc3,
  WASM_OP_I64Extend32S = 0xc4,
  WASM_OP_RefEq = 0xd3,
  WASM_OP_StructNew = 0xfb0000, /* first: struct type index */
  WASM_OP_StructNewDefault = 0xfb0001, /* first: struct type index */
  WASM_OP_StructGet = 0xfb0002, /* first: struct type index; second: field index */
  WASM_OP_StructGetS = 0xfb0003, /* first: struct type index; second: field index */
  WASM_OP_StructGetU = 0xfb0004, /* first: struct type index; second: field index */
  WASM_OP_StructSet = 0xfb0005, /* first: struct type index; second: field index */
  WASM_OP_ArrayNew = 0xfb0006, /* first: array type index */
  WASM_OP_ArrayNewDefault = 0xfb0007, /* first: array type index */
  WASM_OP_ArrayNewFixed = 0xfb0008, /* first: array type index; second: number of elements */
  WASM_OP_ArrayNewData = 0xfb0009, /* first: array type index; second: data segment index */
  WASM_OP_ArrayNewElem = 0xfb000a, /* first: array type index; second: element segment index */
  WASM_OP_ArrayGet = 0xfb000b, /* first: array type index */
  WASM_OP_ArrayGetS = 0xfb000c, /* first: array type index */
  WASM_OP_ArrayGetU = 0xfb000d, /* first: array type index */
  WASM_OP_ArraySet = 0xfb000e, /* first: array type index */
  WASM_OP_ArrayLen = 0xfb000f,
  WASM_OP_ArrayFill = 0xfb0010, /* first: array type index */
  WASM_OP_ArrayCopy = 0xfb0011, /* first: target array type index; second: source array type index */
  WASM_OP_ArrayInitData = 0xfb0012, /* first: array type index; second: data segment index */
  WASM_OP_ArrayInitElem = 0xfb0013, /* first: array type index; second: element segment index */
  WASM_OP_RefTestNonNull = 0xfb0014, /* kind, first: heap type */
  WASM_OP_RefTestNullable = 0xfb0015, /* kind, first: heap type */
  WASM_OP_RefCastNonNull = 0xfb0016, /* kind, first: heap type */
  WASM_OP_RefCastNullable = 0xfb0017, /* kind, first: heap type */
  WASM_OP_BrOnCast = 0xfb0018, /* first: label; kind, second: source type; other_kind, third: target type */
  WASM_OP_BrOnCastFail = 0xfb0019, /* first: label; kind, second: source type; other_kind, third: target type */
  WASM_OP_AnyConvertExtern = 0xfb001a,
  WASM_OP_ExternConvertAny = 0xfb001b,
  WASM_OP_RefI31 = 0xfb001c,
  WASM_OP_I31GetS = 0xfb001d,
  WASM_OP_I31GetU = 0xfb001e,
  WASM_OP_StructNewDesc = 0xfb0020, /* first: struct type index */
  WASM_OP_StructNewDefaultDesc = 0xfb0021, /* first: struct type index */
  WASM_OP_RefGetDesc = 0xfb0022, /* first: type index */
  WASM_OP_RefCastDescEqNonNull = 0xfb0023, /* kind, first: heap type */
  WASM_OP_RefCastDescEqNullable = 0xfb0024, /* kind, first: heap type */
  WASM_OP_BrOnCastDescEq = 0xfb0025, /* first: label; kind, second: source type; other_kind, third: target type */
  WASM_OP_BrOnCastDescEqFail = 0xfb0026, /* first: label; kind, second: source type; other_kind, third: target type */
  WASM_OP_I32TruncSatF32S = 0xfc0000,
  WASM_OP_I32TruncSatF32U = 0xfc0001,
  WASM_OP_I32TruncSatF64S = 0xfc0002,
  WASM_OP_I32TruncSatF64U = 0xfc0003,
  WASM_OP_I64TruncSatF32S = 0xfc0004,
  WASM_OP_I64TruncSatF32U = 0xfc0005,
  WASM_OP_I64TruncSatF64S = 0xfc0006,
  WASM_OP_I64TruncSatF64U = 0xfc0007,
  WASM_OP_MemoryInit = 0xfc0008, /* first: data segment index; second: memory index */
  WASM_OP_DataDrop = 0xfc0009, /* first: data segment index */
  WASM_OP_MemoryCopy = 0xfc000a, /* first: target memory index; second: source memory index */
  WASM_OP_MemoryFill = 0xfc000b, /* first: memory index */
  WASM_OP_TableInit = 0xfc000c, /* first: element segment index; second: table index */
  WASM_OP_ElemDrop = 0xfc000d, /* first: element segment index */
  WASM_OP_TableCopy = 0xfc000e, /* first: target table index; second: source table index */
  WASM_OP_TypedSelect = 0x1c, /* SELECT_ONE: kind, first: type; SELECT_MANY: first: number of types */
  WASM_OP_RefNull = 0xd0, /* kind, first: heap type */
  WASM_OP_RefIsNull = 0xd1,
  WASM_OP_RefFunc = 0xd2, /* first: function index */
  WASM_OP_TableFill = 0xfc0011, /* first: table index */
  WASM_OP_TableGet = 0x25, /* first: table index */
  WASM_OP_TableSet = 0x26, /* first: table index */
  WASM_OP_TableGrow = 0xfc000f, /* first: table index */
  WASM_OP_TableSize = 0xfc0010, /* first: table index */
  WASM_OP_ReturnCall = 0x12, /* first: function index */
  WASM_OP_ReturnCallIndirect = 0x13, /* first: type index; second: table index */
  WASM_OP_MemoryDiscard = 0xfc0012, /* first: memory index */
  WASM_OP_MemoryAtomicNotify = 0xfe0000, /* memarg; max_align: 2 */
  WASM_OP_MemoryAtomicWait32 = 0xfe0001, /* memarg; max_align: 2 */
  WASM_OP_MemoryAtomicWait64 = 0xfe0002, /* memarg; max_align: 3 */
  WASM_OP_AtomicFence = 0xfe0003, /* ordering */
  WASM_OP_I32AtomicLoad = 0xfe0010, /* memarg; max_align: 2 */
  WASM_OP_I64AtomicLoad = 0xfe0011, /* memarg; max_align: 3 */
  WASM_OP_I32AtomicLoad8U = 0xfe0012, /* memarg; max_align: 0 */
  WASM_OP_I32AtomicLoad16U = 0xfe0013, /* memarg; max_align: 1 */
  WASM_OP_I64AtomicLoad8U = 0xfe0014, /* memarg; max_align: 0 */
  WASM_OP_I64AtomicLoad16U = 0xfe0015, /* memarg; max_align: 1 */
  WASM_OP_I64AtomicLoad32U = 0xfe0016, /* memarg; max_align: 2 */
  WASM_OP_I32AtomicStore = 0xfe0017, /* memarg; max_align: 2 */
  WASM_OP_I64AtomicStore = 0xfe0018, /* memarg; max_align: 3 */
  WASM_OP_I32AtomicStore8 = 0xfe0019, /* memarg; max_align: 0 */
  WASM_OP_I32AtomicStore16 = 0xfe001a, /* memarg; max_align: 1 */
  WASM_OP_I64AtomicStore8 = 0xfe001b, /* memarg; max_align: 0 */
  WASM_OP_I64AtomicStore16 = 0xfe001c, /* memarg; max_align: 1 */
  WASM_OP_I64AtomicStore32 = 0xfe001d, /* memarg; max_align: 2 */
  WASM_OP_I32AtomicRmwAdd = 0xfe001e, /* memarg; max_align: 2 */
  WASM_OP_I64AtomicRmwAdd = 0xfe001f, /* memarg; max_align: 3 */
  WASM_OP_I32AtomicRmw8AddU = 0xfe0020, /* memarg; max_align: 0 */
  WASM_OP_I32AtomicRmw16AddU = 0xfe0021, /* memarg; max_align: 1 */
  WASM_OP_I64AtomicRmw8AddU = 0xfe0022, /* memarg; max_align: 0 */
  WASM_OP_I64AtomicRmw16AddU = 0xfe0023, /* memarg; max_align: 1 */
  WASM_OP_I64AtomicRmw32AddU = 0xfe0024, /* memarg; max_align: 2 */
  WASM_OP_I32AtomicRmwSub = 0xfe0025, /* memarg; max_align: 2 */
  WASM_OP_I64AtomicRmwSub = 0xfe0026, /* memarg; max_align: 3 */
  WASM_OP_I32AtomicRmw8SubU = 0xfe0027, /* memarg; max_align: 0 */
  WASM_OP_I32AtomicRmw16SubU = 0xfe0028, /* memarg; max_align: 1 */
  WASM_OP_I64AtomicRmw8SubU = 0xfe0029, /* memarg; max_align: 0 */
  WASM_OP_I64AtomicRmw16SubU = 0xfe002a, /* memarg; max_align: 1 */
  WASM_OP_I64AtomicRmw32SubU = 0xfe002b, /* memarg; max_align: 2 */
  WASM_OP_I32AtomicRmwAnd = 0xfe002c, /* memarg; max_align: 2 */
  WASM_OP_I64AtomicRmwAnd = 0xfe002d, /* memarg; max_align: 3 */
  WASM_OP_I32AtomicRmw8AndU = 0xfe002e, /* memarg; max_align: 0 */
  WASM_OP_I32AtomicRmw16AndU = 0xfe002f, /* memarg; max_align: 1 */
  WASM_OP_I64AtomicRmw8AndU = 0xfe0030, /* memarg; max_align: 0 */
  WASM_OP_I64AtomicRmw16AndU = 0xfe0031, /* memarg; max_align: 1 */
  WASM_OP_I64AtomicRmw32AndU = 0xfe0032, /* memarg; max_align: 2 */
  WASM_OP_I32AtomicRmwOr = 0xfe0033, /* memarg; max_align: 2 */
  WASM_OP_I64AtomicRmwOr = 0xfe0034, /* memarg; max_align: 3 */
  WASM_OP_I32AtomicRmw8OrU = 0xfe0035, /* memarg; max_align: 0 */
  WASM_OP_I32AtomicRmw16OrU = 0xfe0036, /* memarg; max_align: 1 */
  WASM_OP_I64AtomicRmw8OrU = 0xfe0037, /* memarg; max_align: 0 */
  WASM_OP_I64AtomicRmw16OrU = 0xfe0038, /* memarg; max_align: 1 */
  WASM_OP_I64AtomicRmw32OrU = 0xfe0039, /* memarg; max_align: 2 */
  WASM_OP_I32AtomicRmwXor = 0xfe003a, /* memarg; max_align: 2 */
  WASM_OP_I64AtomicRmwXor = 0xfe003b, /* memarg; max_align: 3 */
  WASM_OP_I32AtomicRmw8XorU = 0xfe003c, /* memarg; max_align: 0 */
  WASM_OP_I32AtomicRmw16XorU = 0xfe003d, /* memarg; max_align: 1 */
  WASM_OP_I64AtomicRmw8XorU = 0xfe003e, /* memarg; max_align: 0 */
  WASM_OP_I64AtomicRmw16XorU = 0xfe003f, /* memarg; max_align: 1 */
  WASM_OP_I64AtomicRmw32XorU = 0xfe0040, /* memarg; max_align: 2 */
  WASM_OP_I32AtomicRmwXchg = 0xfe0041, /* memarg; max_align: 2 */
  WASM_OP_I64AtomicRmwXchg = 0xfe0042, /* memarg; max_align: 3 */
  WASM_OP_I32AtomicRmw8XchgU = 0xfe0043, /* memarg; max_align: 0 */
  WASM_OP_I32AtomicRmw16XchgU = 0xfe0044, /* memarg; max_align: 1 */
  WASM_OP_I64AtomicRmw8XchgU = 0xfe0045, /* memarg; max_align: 0 */
  WASM_OP_I64AtomicRmw16XchgU = 0xfe0046, /* memarg; max_align: 1 */
  WASM_OP_I64AtomicRmw32XchgU = 0xfe0047, /* memarg; max_align: 2 */
  WASM_OP_I32AtomicRmwCmpxchg = 0xfe0048, /* memarg; max_align: 2 */
  WASM_OP_I64AtomicRmwCmpxchg = 0xfe0049, /* memarg; max_align: 3 */
  WASM_OP_I32AtomicRmw8CmpxchgU = 0xfe004a, /* memarg; max_align: 0 */
  WASM_OP_I32AtomicRmw16CmpxchgU = 0xfe004b, /* memarg; max_align: 1 */
  WASM_OP_I64AtomicRmw8CmpxchgU = 0xfe004c, /* memarg; max_align: 0 */
  WASM_OP_I64AtomicRmw16CmpxchgU = 0xfe004d, /* memarg; max_align: 1 */
  WASM_OP_I64AtomicRmw32CmpxchgU = 0xfe004e, /* memarg; max_align: 2 */
  WASM_OP_V128Load = 0xfd0000, /* memarg; max_align: 4 */
  WASM_OP_V128Load8x8S = 0xfd0001, /* memarg; max_align: 3 */
  WASM_OP_V128Load8x8U = 0xfd0002, /* memarg; max_align: 3 */
  WASM_OP_V128Load16x4S = 0xfd0003, /* memarg; max_align: 3 */
  WASM_OP_V128Load16x4U = 0xfd0004, /* memarg; max_align: 3 */
  WASM_OP_V128Load32x2S = 0xfd0005, /* memarg; max_align: 3 */
  WASM_OP_V128Load32x2U = 0xfd0006, /* memarg; max_align: 3 */
  WASM_OP_V128Load8Splat = 0xfd0007, /* memarg; max_align: 0 */
  WASM_OP_V128Load16Splat = 0xfd0008, /* memarg; max_align: 1 */
  WASM_OP_V128Load32Splat = 0xfd0009, /* memarg; max_align: 2 */
  WASM_OP_V128Load64Splat = 0xfd000a, /* memarg; max_align: 3 */
  WASM_OP_V128Load32Zero = 0xfd005c, /* memarg; max_align: 2 */
  WASM_OP_V128Load64Zero = 0xfd005d, /* memarg; max_align: 3 */
  WASM_OP_V128Store = 0xfd000b, /* memarg; max_align: 4 */
  WASM_OP_V128Load8Lane = 0xfd0054, /* memarg; max_align: 0; lane */
  WASM_OP_V128Load16Lane = 0xfd0055, /* memarg; max_align: 1; lane */
  WASM_OP_V128Load32Lane = 0xfd0056, /* memarg; max_align: 2; lane */
  WASM_OP_V128Load64Lane = 0xfd0057, /* memarg; max_align: 3; lane */
  WASM_OP_V128Store8Lane = 0xfd0058, /* memarg; max_align: 0; lane */
  WASM_OP_V128Store16Lane = 0xfd0059, /* memarg; max_align: 1; lane */
  WASM_OP_V128Store32Lane = 0xfd005a, /* memarg; max_align: 2; lane */
  WASM_OP_V128Store64Lane = 0xfd005b, /* memarg; max_align: 3; lane */
  WASM_OP_V128Const = 0xfd000c, /* bytes: value */
  WASM_OP_I8x16Shuffle = 0xfd000d, /* bytes: lanes */
  WASM_OP_I8x16ExtractLaneS = 0xfd0015, /* lane */
  WASM_OP_I8x16ExtractLaneU = 0xfd0016, /* lane */
  WASM_OP_I8x16ReplaceLane = 0xfd0017, /* lane */
  WASM_OP_I16x8ExtractLaneS = 0xfd0018, /* lane */
  WASM_OP_I16x8ExtractLaneU = 0xfd0019, /* lane */
  WASM_OP_I16x8ReplaceLane = 0xfd001a, /* lane */
  WASM_OP_I32x4ExtractLane = 0xfd001b, /* lane */
  WASM_OP_I32x4ReplaceLane = 0xfd001c, /* lane */
  WASM_OP_I64x2ExtractLane = 0xfd001d, /* lane */
  WASM_OP_I64x2ReplaceLane = 0xfd001e, /* lane */
  WASM_OP_F32x4ExtractLane = 0xfd001f, /* lane */
  WASM_OP_F32x4ReplaceLane = 0xfd0020, /* lane */
  WASM_OP_F64x2ExtractLane = 0xfd0021, /* lane */
  WASM_OP_F64x2ReplaceLane = 0xfd0022, /* lane */
  WASM_OP_I8x16Swizzle = 0xfd000e,
  WASM_OP_I8x16Splat = 0xfd000f,
  WASM_OP_I16x8Splat = 0xfd0010,
  WASM_OP_I32x4Splat = 0xfd0011,
  WASM_OP_I64x2Splat = 0xfd0012,
  WASM_OP_F32x4Splat = 0xfd0013,
  WASM_OP_F64x2Splat = 0xfd0014,
  WASM_OP_I8x16Eq = 0xfd0023,
  WASM_OP_I8x16Ne = 0xfd0024,
  WASM_OP_I8x16LtS = 0xfd0025,
  WASM_OP_I8x16LtU = 0xfd0026,
  WASM_OP_I8x16GtS = 0xfd0027,
  WASM_OP_I8x16GtU = 0xfd0028,
  WASM_OP_I8x16LeS = 0xfd0029,
  WASM_OP_I8x16LeU = 0xfd002a,
  WASM_OP_I8x16GeS = 0xfd002b,
  WASM_OP_I8x16GeU = 0xfd002c,
  WASM_OP_I16x8Eq = 0xfd002d,
  WASM_OP_I16x8Ne = 0xfd002e,
  WASM_OP_I16x8LtS = 0xfd002f,
  WASM_OP_I16x8LtU = 0xfd0030,
  WASM_OP_I16x8GtS = 0xfd0031,
  WASM_OP_I16x8GtU = 0xfd0032,
  WASM_OP_I16x8LeS = 0xfd0033,
  WASM_OP_I16x8LeU = 0xfd0034,
  WASM_OP_I16x8GeS = 0xfd0035,
  WASM_OP_I16x8GeU = 0xfd0036,
  WASM_OP_I32x4Eq = 0xfd0037,
  WASM_OP_I32x4Ne = 0xfd0038,
  WASM_OP_I32x4LtS = 0xfd0039,
  WASM_OP_I32x4LtU = 0xfd003a,
  WASM_OP_I32x4GtS = 0xfd003b,
  WASM_OP_I32x4GtU = 0xfd003c,
  WASM_OP_I32x4LeS = 0xfd003d,
  WASM_OP_I32x4LeU = 0xfd003e,
  WASM_OP_I32x4GeS = 0xfd003f,
  WASM_OP_I32x4GeU = 0xfd0040,
  WASM_OP_I64x2Eq = 0xfd00d6,
  WASM_OP_I64x2Ne = 0xfd00d7,
  WASM_OP_I64x2LtS = 0xfd00d8,
  WASM_OP_I64x2GtS = 0xfd00d9,
  WASM_OP_I64x2LeS = 0xfd00da,
  WASM_OP_I64x2GeS = 0xfd00db,
  WASM_OP_F32x4Eq = 0xfd0041,
  WASM_OP_F32x4Ne = 0xfd0042,
  WASM_OP_F32x4Lt = 0xfd0043,
  WASM_OP_F32x4Gt = 0xfd0044,
  WASM_OP_F32x4Le = 0xfd0045,
  WASM_OP_F32x4Ge = 0xfd0046,
  WASM_OP_F64x2Eq = 0xfd0047,
  WASM_OP_F64x2Ne = 0xfd0048,
  WASM_OP_F64x2Lt = 0xfd0049,
  WASM_OP_F64x2Gt = 0xfd004a,
  WASM_OP_F64x2Le = 0xfd004b,
  WASM_OP_F64x2Ge = 0xfd004c,
  WASM_OP_V128Not = 0xfd004d,
  WASM_OP_V128And = 0xfd004e,
  WASM_OP_V128AndNot = 0xfd004f,
  WASM_OP_V128Or = 0xfd0050,
  WASM_OP_V128Xor = 0xfd0051,
  WASM_OP_V128Bitselect = 0xfd0052,
  WASM_OP_V128AnyTrue = 0xfd0053,
  WASM_OP_I8x16Abs = 0xfd0060,
  WASM_OP_I8x16Neg = 0xfd0061,
  WASM_OP_I8x16Popcnt = 0xfd0062,
  WASM_OP_I8x16AllTrue = 0xfd0063,
  WASM_OP_I8x16Bitmask = 0xfd0064,
  WASM_OP_I8x16NarrowI16x8S = 0xfd0065,
  WASM_OP_I8x16NarrowI16x8U = 0xfd0066,
  WASM_OP_I8x16Shl = 0xfd006b,
  WASM_OP_I8x16ShrS = 0xfd006c,
  WASM_OP_I8x16ShrU = 0xfd006d,
  WASM_OP_I8x16Add = 0xfd006e,
  WASM_OP_I8x16AddSatS = 0xfd006f,
  WASM_OP_I8x16AddSatU = 0xfd0070,
  WASM_OP_I8x16Sub = 0xfd0071,
  WASM_OP_I8x16SubSatS = 0xfd0072,
  WASM_OP_I8x16SubSatU = 0xfd0073,
  WASM_OP_I8x16MinS = 0xfd0076,
  WASM_OP_I8x16MinU = 0xfd0077,
  WASM_OP_I8x16MaxS = 0xfd0078,
  WASM_OP_I8x16MaxU = 0xfd0079,
  WASM_OP_I8x16AvgrU = 0xfd007b,
  WASM_OP_I16x8ExtAddPairwiseI8x16S = 0xfd007c,
  WASM_OP_I16x8ExtAddPairwiseI8x16U = 0xfd007d,
  WASM_OP_I16x8Abs = 0xfd0080,
  WASM_OP_I16x8Neg = 0xfd0081,
  WASM_OP_I16x8Q15MulrSatS = 0xfd0082,
  WASM_OP_I16x8AllTrue = 0xfd0083,
  WASM_OP_I16x8Bitmask = 0xfd0084,
  WASM_OP_I16x8NarrowI32x4S = 0xfd0085,
  WASM_OP_I16x8NarrowI32x4U = 0xfd0086,
  WASM_OP_I16x8ExtendLowI8x16S = 0xfd0087,
  WASM_OP_I16x8ExtendHighI8x16S = 0xfd0088,
  WASM_OP_I16x8ExtendLowI8x16U = 0xfd0089,
  WASM_OP_I16x8ExtendHighI8x16U = 0xfd008a,
  WASM_OP_I16x8Shl = 0xfd008b,
  WASM_OP_I16x8ShrS = 0xfd008c,
  WASM_OP_I16x8ShrU = 0xfd008d,
  WASM_OP_I16x8Add = 0xfd008e,
  WASM_OP_I16x8AddSatS = 0xfd008f,
  WASM_OP_I16x8AddSatU = 0xfd0090,
  WASM_OP_I16x8Sub = 0xfd0091,
  WASM_OP_I16x8SubSatS = 0xfd0092,
  WASM_OP_I16x8SubSatU = 0xfd0093,
  WASM_OP_I16x8Mul = 0xfd0095,
  WASM_OP_I16x8MinS = 0xfd0096,
  WASM_OP_I16x8MinU = 0xfd0097,
  WASM_OP_I16x8MaxS = 0xfd0098,
  WASM_OP_I16x8MaxU = 0xfd0099,
  WASM_OP_I16x8AvgrU = 0xfd009b,
  WASM_OP_I16x8ExtMulLowI8x16S = 0xfd009c,
  WASM_OP_I16x8ExtMulHighI8x16S = 0xfd009d,
  WASM_OP_I16x8ExtMulLowI8x16U = 0xfd009e,
  WASM_OP_I16x8ExtMulHighI8x16U = 0xfd009f,
  WASM_OP_I32x4ExtAddPairwiseI16x8S = 0xfd007e,
  WASM_OP_I32x4ExtAddPairwiseI16x8U = 0xfd007f,
  WASM_OP_I32x4Abs = 0xfd00a0,
  WASM_OP_I32x4Neg = 0xfd00a1,
  WASM_OP_I32x4AllTrue = 0xfd00a3,
  WASM_OP_I32x4Bitmask = 0xfd00a4,
  WASM_OP_I32x4ExtendLowI16x8S = 0xfd00a7,
  WASM_OP_I32x4ExtendHighI16x8S = 0xfd00a8,
  WASM_OP_I32x4ExtendLowI16x8U = 0xfd00a9,
  WASM_OP_I32x4ExtendHighI16x8U = 0xfd00aa,
  WASM_OP_I32x4Shl = 0xfd00ab,
  WASM_OP_I32x4ShrS = 0xfd00ac,
  WASM_OP_I32x4ShrU = 0xfd00ad,
  WASM_OP_I32x4Add = 0xfd00ae,
  WASM_OP_I32x4Sub = 0xfd00b1,
  WASM_OP_I32x4Mul = 0xfd00b5,
  WASM_OP_I32x4MinS = 0xfd00b6,
  WASM_OP_I32x4MinU = 0xfd00b7,
  WASM_OP_I32x4MaxS = 0xfd00b8,
  WASM_OP_I32x4MaxU = 0xfd00b9,
  WASM_OP_I32x4DotI16x8S = 0xfd00ba,
  WASM_OP_I32x4ExtMulLowI16x8S = 0xfd00bc,
  WASM_OP_I32x4ExtMulHighI16x8S = 0xfd00bd,
  WASM_OP_I32x4ExtMulLowI16x8U = 0xfd00be,
  WASM_OP_I32x4ExtMulHighI16x8U = 0xfd00bf,
  WASM_OP_I64x2Abs = 0xfd00c0,
  WASM_OP_I64x2Neg = 0xfd00c1,
  WASM_OP_I64x2AllTrue = 0xfd00c3,
  WASM_OP_I64x2Bitmask = 0xfd00c4,
  WASM_OP_I64x2ExtendLowI32x4S = 0xfd00c7,
  WASM_OP_I64x2ExtendHighI32x4S = 0xfd00c8,
  WASM_OP_I64x2ExtendLowI32x4U = 0xfd00c9,
  WASM_OP_I64x2ExtendHighI32x4U = 0xfd00ca,
  WASM_OP_I64x2Shl = 0xfd00cb,
  WASM_OP_I64x2ShrS = 0xfd00cc,
  WASM_OP_I64x2ShrU = 0xfd00cd,
  WASM_OP_I64x2Add = 0xfd00ce,
  WASM_OP_I64x2Sub = 0xfd00d1,
  WASM_OP_I64x2Mul = 0xfd00d5,
  WASM_OP_I64x2ExtMulLowI32x4S = 0xfd00dc,
  WASM_OP_I64x2ExtMulHighI32x4S = 0xfd00dd,
  WASM_OP_I64x2ExtMulLowI32x4U = 0xfd00de,
  WASM_OP_I64x2ExtMulHighI32x4U = 0xfd00df,
  WASM_OP_F32x4Ceil = 0xfd0067,
  WASM_OP_F32x4Floor = 0xfd0068,
  WASM_OP_F32x4Trunc = 0xfd0069,
  WASM_OP_F32x4Nearest = 0xfd006a,
  WASM_OP_F32x4Abs = 0xfd00e0,
  WASM_OP_F32x4Neg = 0xfd00e1,
  WASM_OP_F32x4Sqrt = 0xfd00e3,
  WASM_OP_F32x4Add = 0xfd00e4,
  WASM_OP_F32x4Sub = 0xfd00e5,
  WASM_OP_F32x4Mul = 0xfd00e6,
  WASM_OP_F32x4Div = 0xfd00e7,
  WASM_OP_F32x4Min = 0xfd00e8,
  WASM_OP_F32x4Max = 0xfd00e9,
  WASM_OP_F32x4PMin = 0xfd00ea,
  WASM_OP_F32x4PMax = 0xfd00eb,
  WASM_OP_F64x2Ceil = 0xfd0074,
  WASM_OP_F64x2Floor = 0xfd0075,
  WASM_OP_F64x2Trunc = 0xfd007a,
  WASM_OP_F64x2Nearest = 0xfd0094,
  WASM_OP_F64x2Abs = 0xfd00ec,
  WASM_OP_F64x2Neg = 0xfd00ed,
  WASM_OP_F64x2Sqrt = 0xfd00ef,
  WASM_OP_F64x2Add = 0xfd00f0,
  WASM_OP_F64x2Sub = 0xfd00f1,
  WASM_OP_F64x2Mul = 0xfd00f2,
  WASM_OP_F64x2Div = 0xfd00f3,
  WASM_OP_F64x2Min = 0xfd00f4,
  WASM_OP_F64x2Max = 0xfd00f5,
  WASM_OP_F64x2PMin = 0xfd00f6,
  WASM_OP_F64x2PMax = 0xfd00f7,
  WASM_OP_I32x4TruncSatF32x4S = 0xfd00f8,
  WASM_OP_I32x4TruncSatF32x4U = 0xfd00f9,
  WASM_OP_F32x4ConvertI32x4S = 0xfd00fa,
  WASM_OP_F32x4ConvertI32x4U = 0xfd00fb,
  WASM_OP_I32x4TruncSatF64x2SZero = 0xfd00fc,
  WASM_OP_I32x4TruncSatF64x2UZero = 0xfd00fd,
  WASM_OP_F64x2ConvertLowI32x4S = 0xfd00fe,
  WASM_OP_F64x2ConvertLowI32x4U = 0xfd00ff,
  WASM_OP_F32x4DemoteF64x2Zero = 0xfd005e,
  WASM_OP_F64x2PromoteLowF32x4 = 0xfd005f,
  WASM_OP_I8x16RelaxedSwizzle = 0xfd0100,
  WASM_OP_I32x4RelaxedTruncF32x4S = 0xfd0101,
  WASM_OP_I32x4RelaxedTruncF32x4U = 0xfd0102,
  WASM_OP_I32x4RelaxedTruncF64x2SZero = 0xfd0103,
  WASM_OP_I32x4RelaxedTruncF64x2UZero = 0xfd0104,
  WASM_OP_F32x4RelaxedMadd = 0xfd0105,
  WASM_OP_F32x4RelaxedNmadd = 0xfd0106,
  WASM_OP_F64x2RelaxedMadd = 0xfd0107,
  WASM_OP_F64x2RelaxedNmadd = 0xfd0108,
  WASM_OP_I8x16RelaxedLaneselect = 0xfd0109,
  WASM_OP_I16x8RelaxedLaneselect = 0xfd010a,
  WASM_OP_I32x4RelaxedLaneselect = 0xfd010b,
  WASM_OP_I64x2RelaxedLaneselect = 0xfd010c,
  WASM_OP_F32x4RelaxedMin = 0xfd010d,
  WASM_OP_F32x4RelaxedMax = 0xfd010e,
  WASM_OP_F64x2RelaxedMin = 0xfd010f,
  WASM_OP_F64x2RelaxedMax = 0xfd0110,
  WASM_OP_I16x8RelaxedQ15mulrS = 0xfd0111,
  WASM_OP_I16x8RelaxedDotI8x16I7x16S = 0xfd0112,
  WASM_OP_I32x4RelaxedDotI8x16I7x16AddS = 0xfd0113,
  WASM_OP_TryTable = 0x1f, /* kind, first: block type; second: number of catches */
  WASM_OP_Throw = 0x8, /* first: tag index */
  WASM_OP_ThrowRef = 0xa,
  WASM_OP_Try = 0x6, /* kind, first: block type */
  WASM_OP_Catch = 0x7, /* first: tag index */
  WASM_OP_Rethrow = 0x9, /* first: label */
  WASM_OP_Delegate = 0x18, /* first: label */
  WASM_OP_CatchAll = 0x19,
  WASM_OP_GlobalAtomicGet = 0xfe004f, /* ordering; first: global index */
  WASM_OP_GlobalAtomicSet = 0xfe0050, /* ordering; first: global index */
  WASM_OP_GlobalAtomicRmwAdd = 0xfe0051, /* ordering; first: global index */
  WASM_OP_GlobalAtomicRmwSub = 0xfe0052, /* ordering; first: global index */
  WASM_OP_GlobalAtomicRmwAnd = 0xfe0053, /* ordering; first: global index */
  WASM_OP_GlobalAtomicRmwOr = 0xfe0054, /* ordering; first: global index */
  WASM_OP_GlobalAtomicRmwXor = 0xfe0055, /* ordering; first: global index */
  WASM_OP_GlobalAtomicRmwXchg = 0xfe0056, /* ordering; first: global index */
  WASM_OP_GlobalAtomicRmwCmpxchg = 0xfe0057, /* ordering; first: global index */
  WASM_OP_TableAtomicGet = 0xfe0058, /* ordering; first: table index */
  WASM_OP_TableAtomicSet = 0xfe0059, /* ordering; first: table index */
  WASM_OP_TableAtomicRmwXchg = 0xfe005a, /* ordering; first: table index */
  WASM_OP_TableAtomicRmwCmpxchg = 0xfe005b, /* ordering; first: table index */
  WASM_OP_StructAtomicGet = 0xfe005c, /* ordering; first: struct type index; second: field index */
  WASM_OP_StructAtomicGetS = 0xfe005d, /* ordering; first: struct type index; second: field index */
  WASM_OP_StructAtomicGetU = 0xfe005e, /* ordering; first: struct type index; second: field index */
  WASM_OP_StructAtomicSet = 0xfe005f, /* ordering; first: struct type index; second: field index */
  WASM_OP_StructAtomicRmwAdd = 0xfe0060, /* ordering; first: struct type index; second: field index */
  WASM_OP_StructAtomicRmwSub = 0xfe0061, /* ordering; first: struct type index; second: field index */
  WASM_OP_StructAtomicRmwAnd = 0xfe0062, /* ordering; first: struct type index; second: field index */
  WASM_OP_StructAtomicRmwOr = 0xfe0063, /* ordering; first: struct type index; second: field index */
  WASM_OP_StructAtomicRmwXor = 0xfe0064, /* ordering; first: struct type index; second: field index */
  WASM_OP_StructAtomicRmwXchg = 0xfe0065, /* ordering; first: struct type index; second: field index */
  WASM_OP_StructAtomicRmwCmpxchg = 0xfe0066, /* ordering; first: struct type index; second: field index */
  WASM_OP_ArrayAtomicGet = 0xfe0067, /* ordering; first: array type index */
  WASM_OP_ArrayAtomicGetS = 0xfe0068, /* ordering; first: array type index */
  WASM_OP_ArrayAtomicGetU = 0xfe0069, /* ordering; first: array type index */
  WASM_OP_ArrayAtomicSet = 0xfe006a, /* ordering; first: array type index */
  WASM_OP_ArrayAtomicRmwAdd = 0xfe006b, /* ordering; first: array type index */
  WASM_OP_ArrayAtomicRmwSub = 0xfe006c, /* ordering; first: array type index */
  WASM_OP_ArrayAtomicRmwAnd = 0xfe006d, /* ordering; first: array type index */
  WASM_OP_ArrayAtomicRmwOr = 0xfe006e, /* ordering; first: array type index */
  WASM_OP_ArrayAtomicRmwXor = 0xfe006f, /* ordering; first: array type index */
  WASM_OP_ArrayAtomicRmwXchg = 0xfe0070, /* ordering; first: array type index */
  WASM_OP_ArrayAtomicRmwCmpxchg = 0xfe0071, /* ordering; first: array type index */
  WASM_OP_RefI31Shared = 0xfe0072,
  WASM_OP_CallRef = 0x14, /* first: type index */
  WASM_OP_ReturnCallRef = 0x15, /* first: type index */
  WASM_OP_RefAsNonNull = 0xd4,
  WASM_OP_BrOnNull = 0xd5, /* first: label */
  WASM_OP_BrOnNonNull = 0xd6, /* first: label */
  WASM_OP_ContNew = 0xe0, /* first: continuation type index */
  WASM_OP_ContBind = 0xe1, /* first: type index of the continuation; second: type index of the result */
  WASM_OP_Suspend = 0xe2, /* first: tag index */
  WASM_OP_Resume = 0xe3, /* first: continuation type index; second: number of clauses */
  WASM_OP_ResumeThrow = 0xe4, /* first: continuation type index; second: tag index; third: number of clauses */
  WASM_OP_ResumeThrowRef = 0xe5, /* first: continuation type index; second: number of clauses */
  WASM_OP_Switch = 0xe6, /* first: continuation type index; second: tag index */
  WASM_OP_I64Add128 = 0xfc0013,
  WASM_OP_I64Sub128 = 0xfc0014,
  WASM_OP_I64MulWideS = 0xfc0015,
  WASM_OP_I64MulWideU = 0xfc0016,
  WASM_OP_Pause = 0xfe0004
};

enum wasm_proposal {
  WASM_PROPOSAL_MVP = 0,
  WASM_PROPOSAL_SIGN_EXTENSION = 1,
  WASM_PROPOSAL_GC = 2,
  WASM_PROPOSAL_CUSTOM_DESCRIPTORS = 3,
  WASM_PROPOSAL_SATURATING_FLOAT_TO_INT = 4,
  WASM_PROPOSAL_BULK_MEMORY = 5,
  WASM_PROPOSAL_REFERENCE_TYPES = 6,
  WASM_PROPOSAL_TAIL_CALL = 7,
  WASM_PROPOSAL_MEMORY_CONTROL = 8,
  WASM_PROPOSAL_THREADS = 9,
  WASM_PROPOSAL_SIMD = 10,
  WASM_PROPOSAL_RELAXED_SIMD = 11,
  WASM_PROPOSAL_EXCEPTIONS = 12,
  WASM_PROPOSAL_LEGACY_EXCEPTIONS = 13,
  WASM_PROPOSAL_SHARED_EVERYTHING_THREADS = 14,
  WASM_PROPOSAL_FUNCTION_REFERENCES = 15,
  WASM_PROPOSAL_STACK_SWITCHING = 16,
  WASM_PROPOSAL_WIDE_ARITHMETIC = 17,
  WASM_PROPOSAL_ACQUIRE_RELEASE_ATOMICS = 18
};

/* An operator: 64 bytes without padding. */
typedef struct wasm_operator {
  uint64_t offset; /* the offset of its first byte */
  uint64_t wide; /* an integer, sign-extended; the bits of a float; the static offset of a memory argument in bytes */
  uint32_t opcode; /* the opcode, or the subopcode plus 65536 times the prefix byte: enum wasm_opcode */
  uint32_t first; /* indices, in the order of the binary format, or the number of elements of a list */
  uint32_t second; /* the second index */
  uint32_t third; /* the third index */
  uint32_t kind; /* a type: enum wasm_kind. Its index, if any, is in the field that the opcode names */
  uint32_t other_kind; /* the target type of a cast */
  uint8_t shape; /* which fields have a meaning: enum wasm_shape */
  uint8_t align; /* the alignment of a memory argument, as the exponent of a power of two */
  uint8_t max_align; /* the natural alignment, as the exponent of a power of two */
  uint8_t lane; /* the index of a lane */
  uint16_t target; /* 0 if a memory argument accesses the memory `first`, 1 if an array of type `first` */
  uint16_t ordering; /* the memory ordering: 0 none, 1 sequentially consistent, 2 acquire and release; 3, 4 in a read-modify-write */
  uint8_t bytes[16]; /* a vector, little-endian, or the lane indices of a shuffle */
} wasm_operator;

/* A reader of operators: 32 bytes without padding. wasm_open fills it in, and the calls that read advance it. A copy
 * of it and of the frames allows reading again from there. */
typedef struct wasm_reader {
  uint64_t offset; /* of the first byte */
  uint64_t position; /* the number of bytes read */
  uint64_t depth; /* the number of open frames */
  uint32_t features;
  uint32_t reserved; /* 0 */
} wasm_reader;

/* A refusal: 24 bytes without padding. */
typedef struct wasm_refusal {
  /* The offset of the error. It is the offset of the first byte for WASM_REFUSED_UNKNOWN_FEATURES,
   * WASM_REFUSED_PAST_OFFSETS, WASM_REFUSED_NOT_A_READER and WASM_REFUSED_NO_VALUE_KIND, and `at` for
   * WASM_REFUSED_NO_LIST and a text that does not fit. Without an error it is the offset of the end of the bytes, the
   * reader's offset, `at`, or the offset of the body. Otherwise it is 0. */
  uint64_t offset;
  uint32_t number; /* 0 without an error, else enum wasm_refused */
  uint32_t name; /* the number of the name in its text */
  uint32_t value; /* the byte, code or flags in its text, or what enum wasm_refused says */
  uint32_t reserved; /* 0 */
} wasm_refusal;

/* A value type: 8 bytes without padding. */
typedef struct wasm_type {
  uint32_t kind; /* enum wasm_kind, with flags */
  uint32_t index; /* the type index of a reference type, else 0 */
} wasm_type;

/* A declaration of locals: 12 bytes without padding. */
typedef struct wasm_locals {
  uint32_t count; /* how many locals */
  wasm_type ty; /* their type */
} wasm_locals;

/* A catch of a try_table, or a clause of a resume: 12 bytes without padding. */
typedef struct wasm_handler {
  uint32_t kind; /* enum wasm_catch or enum wasm_clause */
  uint32_t tag; /* its index, or 0 if it has none */
  uint32_t label; /* 0 if it has none */
} wasm_handler;

/* A value: 16 bytes without padding. `enum wasm_value_kind` says what the fields hold; the others are 0. */
typedef struct wasm_value {
  uint64_t number;
  uint32_t kind;
  uint32_t index;
} wasm_value;

/* A place between the bodies of a module: 32 bytes without padding. wasm_open_bodies fills it in, and wasm_next_body
 * advances it. It may be copied. */
typedef struct wasm_bodies {
  uint64_t code; /* bytes read of the code section's contents */
  uint64_t types; /* bytes read of the function section's contents */
  uint32_t imported; /* the number of imported functions */
  uint32_t read; /* the number of bodies read */
  uint32_t left; /* the number of bodies left */
  uint32_t reserved; /* 0 */
} wasm_bodies;

/* The body of a function: 24 bytes without padding. */
typedef struct wasm_body {
  uint64_t offset; /* of the first byte in the module */
  uint64_t length; /* in bytes */
  uint32_t index; /* of the function; imported functions have the lowest indices */
  uint32_t type_index;
} wasm_body;

/* Some bytes of a module: 16 bytes without padding. */
typedef struct wasm_range {
  uint64_t offset; /* of the first byte in the module */
  uint64_t length; /* in bytes */
} wasm_range;

/* The items of a list that are left: 24 bytes without padding. A call that reads an item advances it. It may be copied. */
typedef struct wasm_items {
  uint64_t offset; /* of the next item in the module */
  uint64_t length; /* the number of bytes left */
  uint32_t count; /* the number of items left */
  uint32_t features; /* by which they are read */
} wasm_items;

/* A place between the parts of a module: 40 bytes without padding. Before the first part, all fields are 0 but
 * `features`; wasm_next_payload advances it. It may be copied. */
typedef struct wasm_parser {
  uint64_t position; /* the number of bytes read */
  uint32_t features;
  uint32_t bodies; /* the number of bodies left */
  uint32_t size; /* their size in bytes */
  uint32_t function_count; /* what was read of the counts that must agree */
  uint32_t body_count;
  uint32_t segment_count;
  uint32_t data_count;
  uint8_t state; /* next is: 0 the preamble, 1 a section, 2 a body, 3 nothing */
  uint8_t last; /* the place of the last section in the order of sections */
  uint8_t counted; /* which counts were read: 1, 2, 4, 8 in the order above */
  uint8_t reserved; /* 0 */
} wasm_parser;

/* A part of a module: 64 bytes without padding. `enum wasm_payload_kind` says which fields have a meaning; the others
 * are 0. */
typedef struct wasm_payload {
  wasm_range range; /* the contents of a section, or the bytes of another part */
  wasm_range name; /* of a custom section, in UTF-8 */
  wasm_items items; /* of a section: the calls that read items take a pointer to it, or to a copy */
  uint32_t kind; /* enum wasm_payload_kind */
  uint32_t number;
} wasm_payload;

/* The type of a function, table, memory, global or tag: 40 bytes without padding. Fields without a meaning are 0. */
typedef struct wasm_external {
  uint64_t initial; /* the number of elements of a table, or of pages of a memory, at the start */
  uint64_t maximum; /* their greatest number, with the flag */
  wasm_type ty; /* of a table's elements, or of a global's value */
  uint32_t kind; /* enum wasm_external_kind */
  uint32_t index; /* of a function or tag: the index of its type */
  uint32_t flags; /* enum wasm_external_flag */
  uint32_t page_size_log2; /* the logarithm to base 2 of the page size in bytes, with the flag */
} wasm_external;

/* An import: 72 bytes without padding. The names are UTF-8. */
typedef struct wasm_import {
  wasm_range module;
  wasm_range name;
  wasm_external ty;
} wasm_import;

/* An export: 24 bytes without padding. */
typedef struct wasm_export {
  wasm_range name; /* in UTF-8 */
  uint32_t kind; /* enum wasm_external_kind */
  uint32_t index; /* of what is exported */
} wasm_export;

/* An item of a type section: 64 bytes without padding. Fields without a meaning are 0. */
typedef struct wasm_group {
  wasm_items params; /* of a function type: the types of its parameters, for wasm_next_value_type */
  wasm_items results;
  uint64_t types; /* the number of types in a group, else 1 */
  uint32_t form; /* 0x60: a function type, final and without a supertype; 0: another type, or a group */
  uint32_t reserved; /* 0 */
} wasm_group;

/* A table: 56 bytes without padding. */
typedef struct wasm_table {
  wasm_external ty;
  wasm_range value; /* the constant expression of its elements at the start; no bytes without one */
} wasm_table;

/* A global: 56 bytes without padding. */
typedef struct wasm_global {
  wasm_external ty;
  wasm_range value; /* the constant expression of its value at the start */
} wasm_global;

/* An element segment: 64 bytes without padding. Fields without a meaning are 0. */
typedef struct wasm_element {
  wasm_range start; /* active: the constant expression of the first index in the table */
  wasm_items items; /* for wasm_next_index, or for wasm_next_expression */
  wasm_type ty; /* of constant expressions */
  uint32_t kind; /* enum wasm_segment_kind */
  uint32_t table; /* active: the index of the table */
  uint32_t form; /* 0: indices of functions; 1: constant expressions */
  uint32_t reserved; /* 0 */
} wasm_element;

/* A data segment: 40 bytes without padding. Fields without a meaning are 0. */
typedef struct wasm_data {
  wasm_range start; /* active: the constant expression of the first address */
  wasm_range bytes;
  uint32_t kind; /* enum wasm_segment_kind */
  uint32_t memory; /* active: the index of the memory */
} wasm_data;

/* A subsection of the custom section `name`: 48 bytes without padding. */
typedef struct wasm_names {
  wasm_range range; /* WASM_NAMES_MODULE: the name; a kind that is not listed: the contents; else no bytes */
  wasm_items items; /* the names of a map */
  uint32_t kind; /* enum wasm_names_kind */
  uint32_t reserved; /* 0 */
} wasm_names;

/* A name of a map of names: 24 bytes without padding. */
typedef struct wasm_naming {
  wasm_range name; /* in UTF-8 */
  uint32_t index; /* of what is named */
  uint32_t reserved; /* 0 */
} wasm_naming;

/* Returns the version of the library, which is WASM_OPERATORS_VERSION in its header. */
uint32_t wasm_operators_version(void);

/* Reads all operators of the function body `bytes`, which starts with its locals. Writes at most `out_length` of them
 * to `out`; the rest of `out` is unchanged. `*count` is the number of operators found. If it is greater than
 * `out_length`, a second call with that capacity gets all.
 *
 * On failure the operators are the longest prefix that begins a body, or a shorter one if allocation fails. For
 * WASM_REFUSED_UNKNOWN_FEATURES and WASM_REFUSED_PAST_OFFSETS `*count` is 0. */
uint32_t wasm_read_body(const uint8_t *bytes, size_t bytes_length, uint64_t offset, uint32_t features,
                        wasm_operator *out, size_t out_length, size_t *count, wasm_refusal *refusal);

/* Writes the text of a refusal in ASCII, truncated to `text_length` bytes. Returns the length of the whole text in
 * bytes, or 0 if it has none: not a refusal, or one from 100 on, which wasm_c_error_text describes. */
size_t wasm_refusal_text(const wasm_refusal *refusal, uint8_t *text, size_t text_length);

/* Writes the name of an operator in ASCII, truncated to `name_length` bytes. Returns the length of the whole name in
 * bytes, or 0 if no operator has its number. */
size_t wasm_operator_name(const wasm_operator *op, uint8_t *name, size_t name_length);

/* Returns the number of frames that may be open at once in `bytes_length` bytes: a sufficient `frames_length`. */
size_t wasm_frames_needed(size_t bytes_length);

/* Opens the expression `bytes`. `frames` has one byte for each open frame. Fails with WASM_REFUSED_NO_ROOM if
 * `frames_length` is 0. */
uint32_t wasm_open(const uint8_t *bytes, size_t bytes_length, uint64_t offset, uint32_t features,
                   uint8_t *frames, size_t frames_length, wasm_reader *reader, wasm_refusal *refusal);

/* Reads the locals of the function body `bytes` and opens the expression after them. Fails like wasm_open, and with
 * the refusal of the locals. */
uint32_t wasm_open_body(const uint8_t *bytes, size_t bytes_length, uint64_t offset, uint32_t features,
                        uint8_t *frames, size_t frames_length, wasm_reader *reader, wasm_refusal *refusal);

/* Reads the next operator, with the `bytes` and `frames` with which the reader was opened. Fails with
 * WASM_REFUSED_NO_ROOM if the operator opens a frame and `frames` is full, and with WASM_REFUSED_NOT_A_READER if the
 * reader cannot be one of these bytes and frames, whatever their contents. */
uint32_t wasm_next(const uint8_t *bytes, size_t bytes_length, uint8_t *frames, size_t frames_length,
                   wasm_reader *reader, wasm_operator *op, wasm_refusal *refusal);

/* Reads the next operator like wasm_next, but fails with WASM_REFUSED_UNEXPECTED_SIMD before the byte 0xfd, whatever
 * follows it. */
uint32_t wasm_next_plain(const uint8_t *bytes, size_t bytes_length, uint8_t *frames, size_t frames_length,
                         wasm_reader *reader, wasm_operator *op, wasm_refusal *refusal);

/* Reads a value of `kind`, one of `enum wasm_value_kind`, which says what `argument` is. No frame may be open. The
 * bytes that `number` counts end at the new position. Fails with WASM_REFUSED_NO_VALUE_KIND if there is no such kind,
 * and with WASM_REFUSED_NOT_A_READER like wasm_next. */
uint32_t wasm_read_value(const uint8_t *bytes, size_t bytes_length, wasm_reader *reader, uint32_t kind,
                         uint64_t argument, wasm_value *value, wasm_refusal *refusal);

/* Calls wasm_next until `out` is full, all bytes are read, or a call fails. `*count` is the number of operators read;
 * the rest of `out` is unchanged. */
uint32_t wasm_read(const uint8_t *bytes, size_t bytes_length, uint8_t *frames, size_t frames_length,
                   wasm_reader *reader, wasm_operator *out, size_t out_length, size_t *count,
                   wasm_refusal *refusal);

/* Returns 0 if the expression ends at the reader's position: no frame is open and all bytes are read. */
uint32_t wasm_finish(const uint8_t *bytes, size_t bytes_length, const uint8_t *frames, size_t frames_length,
                     const wasm_reader *reader, wasm_refusal *refusal);

/* Writes the targets of the br_table at the offset `at`, without the default target: at most `out_length`, from the
 * index `index` on; the rest of `out` is unchanged. `*count` is the number of all targets.
 *
 * The operator is read as if inside a block, and reading fails as wasm_next does: `else`, `catch`,
 * `catch_all` and `delegate` fail there, and at the end of the bytes the call fails with WASM_REFUSED_END_OF_DATA.
 * Fails with WASM_REFUSED_NO_LIST if any other operator begins there, or if `at` is before the first byte or past the
 * end. */
uint32_t wasm_br_table_targets(const uint8_t *bytes, size_t bytes_length, uint64_t offset, uint32_t features,
                               uint64_t at, size_t index, uint32_t *out, size_t out_length, size_t *count,
                               wasm_refusal *refusal);

/* Writes the types of a typed select, like wasm_br_table_targets. */
uint32_t wasm_select_types(const uint8_t *bytes, size_t bytes_length, uint64_t offset, uint32_t features,
                           uint64_t at, size_t index, wasm_type *out, size_t out_length, size_t *count,
                           wasm_refusal *refusal);

/* Writes the catches of a try_table, like wasm_br_table_targets. */
uint32_t wasm_try_table_catches(const uint8_t *bytes, size_t bytes_length, uint64_t offset, uint32_t features,
                                uint64_t at, size_t index, wasm_handler *out, size_t out_length, size_t *count,
                                wasm_refusal *refusal);

/* Writes the clauses of a resume, resume_throw or resume_throw_ref, like wasm_br_table_targets. */
uint32_t wasm_resume_handlers(const uint8_t *bytes, size_t bytes_length, uint64_t offset, uint32_t features,
                              uint64_t at, size_t index, wasm_handler *out, size_t out_length, size_t *count,
                              wasm_refusal *refusal);

/* Writes the operator at the offset `at` as in a disassembly, such as `i32.const 5`, in UTF-8. `*length` is the length
 * of the text in bytes. If it is greater than `text_length`, the call fails with WASM_REFUSED_NO_ROOM, and only
 * `*length` and `*refusal` change.
 *
 * The operator is read inside a frame that allows it, if any. Fails like wasm_br_table_targets;
 * WASM_REFUSED_NO_LIST means that `at` is before the first byte or past the end. */
uint32_t wasm_operator_text(const uint8_t *bytes, size_t bytes_length, uint64_t offset, uint32_t features,
                            uint64_t at, uint8_t *text, size_t text_length, size_t *length,
                            wasm_refusal *refusal);

/* Writes the operator's name in the text format, such as `i32.const`, like wasm_operator_text. */
uint32_t wasm_operator_text_name(const uint8_t *bytes, size_t bytes_length, uint64_t offset, uint32_t features,
                                 uint64_t at, uint8_t *name, size_t name_length, size_t *length,
                                 wasm_refusal *refusal);

/* Writes an operator in its shortest encoding under the features. `*length` is the length of the encoding in bytes, at
 * most 44 unless the operator has a list. If it is greater than `out_length`, the call fails with WASM_REFUSED_NO_ROOM,
 * and only `*length` and `*refusal` change.
 *
 * The fields of `*op` are written, so a program may set them itself. They must be as a reading call sets them: fields
 * without a meaning are 0. Fails with WASM_REFUSED_NOT_WRITABLE if no bytes encode an operator with these fields: no
 * operator has the opcode or its shape is another, a field is out of range, or a feature is off.
 *
 * Does not allocate, unless the opcode is of an operator with a list. With the shape WASM_SHAPE_BRANCH_TABLE,
 * WASM_SHAPE_SELECT_MANY, WASM_SHAPE_TRY_TABLE, WASM_SHAPE_RESUME or WASM_SHAPE_RESUME_THROW, the operator at the
 * offset `op->offset` in `bytes` is written. The bytes of branch targets are copied. Fails like wasm_br_table_targets,
 * and with WASM_REFUSED_NO_LIST if that operator has other fields. For other operators, `bytes_length` may be 0. The
 * refusal has the offset `op->offset`. */
uint32_t wasm_encode_operator(const wasm_operator *op, const uint8_t *bytes, size_t bytes_length, uint64_t offset,
                              uint32_t features, uint8_t *out, size_t out_length, size_t *length,
                              wasm_refusal *refusal);

/* Writes declarations of locals in their shortest encoding: how many declarations there are, and each of them. So begins
 * a function body. `*length` is the length of the encoding in bytes. If it is greater than `out_length`, the call fails
 * with WASM_REFUSED_NO_ROOM, and only `*length` and `*refusal` change. Fails with WASM_REFUSED_NOT_WRITABLE if no value
 * type has the fields of a `ty`, or there are 2^32 declarations or more. Does not check how many locals there are in
 * all. Does not allocate. */
uint32_t wasm_encode_locals(const wasm_locals *locals, size_t locals_length, uint8_t *out, size_t out_length,
                            size_t *length, wasm_refusal *refusal);

/* Writes an entry of a code section in its shortest encoding: the size of a body, and the body, which is declarations of
 * locals and the bytes of its operators. `operators` are copied and not checked; wasm_encode_operator writes them. Fails
 * like wasm_encode_locals, and with WASM_REFUSED_NOT_WRITABLE for a size of 2^32 or more. Does not allocate. */
uint32_t wasm_encode_body(const wasm_locals *locals, size_t locals_length, const uint8_t *operators,
                          size_t operators_length, uint8_t *out, size_t out_length, size_t *length,
                          wasm_refusal *refusal);

/* Writes a section in its shortest encoding: its number (10 of a code section), its size, the number of its entries, and
 * `entries`, which are copied and not checked. Fails like wasm_encode_body. Does not allocate. */
uint32_t wasm_encode_section(uint8_t id, uint32_t count, const uint8_t *entries, size_t entries_length, uint8_t *out,
                             size_t out_length, size_t *length, wasm_refusal *refusal);

/* Opens the bodies of the module `bytes`: `*bodies` is the place before the first. Fails with
 * WASM_REFUSED_NOT_A_MODULE, WASM_REFUSED_IMPORT_KIND, WASM_REFUSED_TYPE_KIND, WASM_REFUSED_COUNTS_DIFFER, or the
 * refusal of a section. May allocate. */
uint32_t wasm_open_bodies(const uint8_t *bytes, size_t bytes_length, wasm_bodies *bodies, wasm_refusal *refusal);

/* Reads the next body of the module with which `bodies` was opened. Does not allocate. Fails with
 * WASM_REFUSED_NO_BODY if all bodies were read, and with WASM_REFUSED_DATA_AFTER_SECTION if data is left after them.
 * Fails with WASM_REFUSED_NOT_A_READER if `bodies` cannot be a place in this module. Otherwise the length of the body
 * is in error, or the data ends within the body. */
uint32_t wasm_next_body(const uint8_t *bytes, size_t bytes_length, wasm_bodies *bodies, wasm_body *body,
                        wasm_refusal *refusal);

/* Writes the name of the function `index`, which the module defines: from the custom section `name`, else of an export.
 * `*length` is its length in bytes, or 0 if it has none or the name is not UTF-8. Each call reads the sections that
 * describe functions.
 *
 * Fails with WASM_REFUSED_NO_ROOM like wasm_operator_text, with WASM_REFUSED_NO_FUNCTION, and like wasm_open_bodies.
 * May allocate. */
uint32_t wasm_function_name(const uint8_t *bytes, size_t bytes_length, uint32_t index, uint8_t *name,
                            size_t name_length, size_t *length, wasm_refusal *refusal);

/* Reads the next part of the module `bytes`: its preamble, then each section, each body after the start of a code
 * section, and its end. Checks the preamble, the sizes of sections and bodies, the order of sections, and the counts of
 * functions, bodies and data segments, which must agree; not the items. Does not allocate.
 *
 * Fails with WASM_REFUSED_NO_ITEM after the end, with WASM_REFUSED_NOT_A_READER if `parser` cannot be a place in these
 * bytes or has an unknown feature, and like wasmparser's Parser, mostly with WASM_REFUSED_MALFORMED or
 * WASM_REFUSED_END_OF_DATA. */
uint32_t wasm_next_payload(const uint8_t *bytes, size_t bytes_length, wasm_parser *parser, wasm_payload *payload,
                           wasm_refusal *refusal);

/* Reads the next import of an import section, whose `items` wasm_next_payload has set. `bytes` are the module, as for all
 * calls with `items`. Does not allocate.
 *
 * Fails with WASM_REFUSED_NO_ITEM after the last item, with WASM_REFUSED_DATA_AFTER_SECTION if data is left after it,
 * with WASM_REFUSED_NOT_A_READER if `items` cannot be in these bytes or have an unknown feature, and with the error of the
 * item. */
uint32_t wasm_next_import(const uint8_t *bytes, size_t bytes_length, wasm_items *items, wasm_import *import,
                          wasm_refusal *refusal);

/* Reads the next export of an export section, like wasm_next_import. */
uint32_t wasm_next_export(const uint8_t *bytes, size_t bytes_length, wasm_items *items, wasm_export *exported,
                          wasm_refusal *refusal);

/* Reads the next index of a list, like wasm_next_import: in the function section, the index of a function's type. */
uint32_t wasm_next_index(const uint8_t *bytes, size_t bytes_length, wasm_items *items, uint32_t *index,
                         wasm_refusal *refusal);

/* Reads the next item of a type section, like wasm_next_import: a type, or a group of types that may refer to each other.
 * May allocate, but not for a function type. */
uint32_t wasm_next_group(const uint8_t *bytes, size_t bytes_length, wasm_items *items, wasm_group *group,
                         wasm_refusal *refusal);

/* Reads the next type of the parameters or results of a function type, like wasm_next_import. */
uint32_t wasm_next_value_type(const uint8_t *bytes, size_t bytes_length, wasm_items *items, wasm_type *ty,
                              wasm_refusal *refusal);

/* Reads the next table of a table section, like wasm_next_import. May allocate for its constant expression. */
uint32_t wasm_next_table(const uint8_t *bytes, size_t bytes_length, wasm_items *items, wasm_table *table,
                         wasm_refusal *refusal);

/* Reads the next memory of a memory section, like wasm_next_import. */
uint32_t wasm_next_memory(const uint8_t *bytes, size_t bytes_length, wasm_items *items, wasm_external *memory,
                          wasm_refusal *refusal);

/* Reads the next global of a global section, like wasm_next_table. */
uint32_t wasm_next_global(const uint8_t *bytes, size_t bytes_length, wasm_items *items, wasm_global *global,
                          wasm_refusal *refusal);

/* Reads the next tag of a tag section, like wasm_next_import. */
uint32_t wasm_next_tag(const uint8_t *bytes, size_t bytes_length, wasm_items *items, wasm_external *tag,
                       wasm_refusal *refusal);

/* Reads the next element segment of an element section, like wasm_next_table. Its elements are read to find its end. */
uint32_t wasm_next_element(const uint8_t *bytes, size_t bytes_length, wasm_items *items, wasm_element *segment,
                           wasm_refusal *refusal);

/* Reads the next data segment of a data section, like wasm_next_table. */
uint32_t wasm_next_data(const uint8_t *bytes, size_t bytes_length, wasm_items *items, wasm_data *segment,
                        wasm_refusal *refusal);

/* Reads the next constant expression of an element segment, like wasm_next_table. wasm_open and wasm_next read its
 * operators. */
uint32_t wasm_next_expression(const uint8_t *bytes, size_t bytes_length, wasm_items *items, wasm_range *expression,
                              wasm_refusal *refusal);

/* Reads the next subsection of the custom section `name`, whose data are `items`. Does not allocate. Fails with
 * WASM_REFUSED_NO_ITEM after the last subsection, with the error of the subsection, and with WASM_REFUSED_NOT_A_READER
 * like wasm_next_import. */
uint32_t wasm_next_names(const uint8_t *bytes, size_t bytes_length, wasm_items *items, wasm_names *names,
                         wasm_refusal *refusal);

/* Reads the next name of a map, such as the names of functions, like wasm_next_import. */
uint32_t wasm_next_name(const uint8_t *bytes, size_t bytes_length, wasm_items *items, wasm_naming *naming,
                        wasm_refusal *refusal);

/* Checks the module `bytes`, and returns 0 if it is valid. docs/VALIDATION.md says what is checked. Otherwise `*refusal`
 * is its first error, in the order of the bytes: an error of the bytes, as other calls return it, or
 * WASM_REFUSED_INVALID. `*function` is the index of the function whose body has the error, else WASM_NO_FUNCTION.
 *
 * As much of a message as fits is written to `message`. `*length` is its whole length in bytes: 0 without an error, for
 * WASM_REFUSED_UNKNOWN_FEATURES, and if allocation fails. May allocate. */
uint32_t wasm_validate_module(const uint8_t *bytes, size_t bytes_length, uint32_t features, uint64_t *function,
                              uint8_t *message, size_t message_length, size_t *length, wasm_refusal *refusal);

/* Returns the proposal that added an operator, or -1 if no operator has its number. */
static inline int wasm_operator_proposal(const wasm_operator *op) {
  switch (op->opcode) {
    case 0x0:
    case 0x1:
    case 0x2:
    case 0x3:
    case 0x4:
    case 0x5:
    case 0xb:
    case 0xc:
    case 0xd:
    case 0xe:
    case 0xf:
    case 0x10:
    case 0x11:
    case 0x1a:
    case 0x1b:
    case 0x20:
    case 0x21:
    case 0x22:
    case 0x23:
    case 0x24:
    case 0x28:
    case 0x29:
    case 0x2a:
    case 0x2b:
    case 0x2c:
    case 0x2d:
    case 0x2e:
    case 0x2f:
    case 0x30:
    case 0x31:
    case 0x32:
    case 0x33:
    case 0x34:
    case 0x35:
    case 0x36:
    case 0x37:
    case 0x38:
    case 0x39:
    case 0x3a:
    case 0x3b:
    case 0x3c:
    case 0x3d:
    case 0x3e:
    case 0x3f:
    case 0x40:
    case 0x41:
    case 0x42:
    case 0x43:
    case 0x44:
    case 0x45:
    case 0x46:
    case 0x47:
    case 0x48:
    case 0x49:
    case 0x4a:
    case 0x4b:
    case 0x4c:
    case 0x4d:
    case 0x4e:
    case 0x4f:
    case 0x50:
    case 0x51:
    case 0x52:
    case 0x53:
    case 0x54:
    case 0x55:
    case 0x56:
    case 0x57:
    case 0x58:
    case 0x59:
    case 0x5a:
    case 0x5b:
    case 0x5c:
    case 0x5d:
    case 0x5e:
    case 0x5f:
    case 0x60:
    case 0x61:
    case 0x62:
    case 0x63:
    case 0x64:
    case 0x65:
    case 0x66:
    case 0x67:
    case 0x68:
    case 0x69:
    case 0x6a:
    case 0x6b:
    case 0x6c:
    case 0x6d:
    case 0x6e:
    case 0x6f:
    case 0x70:
    case 0x71:
    case 0x72:
    case 0x73:
    case 0x74:
    case 0x75:
    case 0x76:
    case 0x77:
    case 0x78:
    case 0x79:
    case 0x7a:
    case 0x7b:
    case 0x7c:
    case 0x7d:
    case 0x7e:
    case 0x7f:
    case 0x80:
    case 0x81:
    case 0x82:
    case 0x83:
    case 0x84:
    case 0x85:
    case 0x86:
    case 0x87:
    case 0x88:
    case 0x89:
    case 0x8a:
    case 0x8b:
    case 0x8c:
    case 0x8d:
    case 0x8e:
    case 0x8f:
    case 0x90:
    case 0x91:
    case 0x92:
    case 0x93:
    case 0x94:
    case 0x95:
    case 0x96:
    case 0x97:
    case 0x98:
    case 0x99:
    case 0x9a:
    case 0x9b:
    case 0x9c:
    case 0x9d:
    case 0x9e:
    case 0x9f:
    case 0xa0:
    case 0xa1:
    case 0xa2:
    case 0xa3:
    case 0xa4:
    case 0xa5:
    case 0xa6:
    case 0xa7:
    case 0xa8:
    case 0xa9:
    case 0xaa:
    case 0xab:
    case 0xac:
    case 0xad:
    case 0xae:
    case 0xaf:
    case 0xb0:
    case 0xb1:
    case 0xb2:
    case 0xb3:
    case 0xb4:
    case 0xb5:
    case 0xb6:
    case 0xb7:
    case 0xb8:
    case 0xb9:
    case 0xba:
    case 0xbb:
    case 0xbc:
    case 0xbd:
    case 0xbe:
    case 0xbf:
      return WASM_PROPOSAL_MVP;
    case 0xc0:
    case 0xc1:
    case 0xc2:
    case 0xc3:
    case 0xc4:
      return WASM_PROPOSAL_SIGN_EXTENSION;
    case 0xd3:
    case 0xfb0000:
    case 0xfb0001:
    case 0xfb0002:
    case 0xfb0003:
    case 0xfb0004:
    case 0xfb0005:
    case 0xfb0006:
    case 0xfb0007:
    case 0xfb0008:
    case 0xfb0009:
    case 0xfb000a:
    case 0xfb000b:
    case 0xfb000c:
    case 0xfb000d:
    case 0xfb000e:
    case 0xfb000f:
    case 0xfb0010:
    case 0xfb0011:
    case 0xfb0012:
    case 0xfb0013:
    case 0xfb0014:
    case 0xfb0015:
    case 0xfb0016:
    case 0xfb0017:
    case 0xfb0018:
    case 0xfb0019:
    case 0xfb001a:
    case 0xfb001b:
    case 0xfb001c:
    case 0xfb001d:
    case 0xfb001e:
      return WASM_PROPOSAL_GC;
    case 0xfb0020:
    case 0xfb0021:
    case 0xfb0022:
    case 0xfb0023:
    case 0xfb0024:
    case 0xfb0025:
    case 0xfb0026:
      return WASM_PROPOSAL_CUSTOM_DESCRIPTORS;
    case 0xfc0000:
    case 0xfc0001:
    case 0xfc0002:
    case 0xfc0003:
    case 0xfc0004:
    case 0xfc0005:
    case 0xfc0006:
    case 0xfc0007:
      return WASM_PROPOSAL_SATURATING_FLOAT_TO_INT;
    case 0xfc0008:
    case 0xfc0009:
    case 0xfc000a:
    case 0xfc000b:
    case 0xfc000c:
    case 0xfc000d:
    case 0xfc000e:
      return WASM_PROPOSAL_BULK_MEMORY;
    case 0x1c:
    case 0xd0:
    case 0xd1:
    case 0xd2:
    case 0xfc0011:
    case 0x25:
    case 0x26:
    case 0xfc000f:
    case 0xfc0010:
      return WASM_PROPOSAL_REFERENCE_TYPES;
    case 0x12:
    case 0x13:
      return WASM_PROPOSAL_TAIL_CALL;
    case 0xfc0012:
      return WASM_PROPOSAL_MEMORY_CONTROL;
    case 0xfe0000:
    case 0xfe0001:
    case 0xfe0002:
    case 0xfe0003:
    case 0xfe0010:
    case 0xfe0011:
    case 0xfe0012:
    case 0xfe0013:
    case 0xfe0014:
    case 0xfe0015:
    case 0xfe0016:
    case 0xfe0017:
    case 0xfe0018:
    case 0xfe0019:
    case 0xfe001a:
    case 0xfe001b:
    case 0xfe001c:
    case 0xfe001d:
    case 0xfe001e:
    case 0xfe001f:
    case 0xfe0020:
    case 0xfe0021:
    case 0xfe0022:
    case 0xfe0023:
    case 0xfe0024:
    case 0xfe0025:
    case 0xfe0026:
    case 0xfe0027:
    case 0xfe0028:
    case 0xfe0029:
    case 0xfe002a:
    case 0xfe002b:
    case 0xfe002c:
    case 0xfe002d:
    case 0xfe002e:
    case 0xfe002f:
    case 0xfe0030:
    case 0xfe0031:
    case 0xfe0032:
    case 0xfe0033:
    case 0xfe0034:
    case 0xfe0035:
    case 0xfe0036:
    case 0xfe0037:
    case 0xfe0038:
    case 0xfe0039:
    case 0xfe003a:
    case 0xfe003b:
    case 0xfe003c:
    case 0xfe003d:
    case 0xfe003e:
    case 0xfe003f:
    case 0xfe0040:
    case 0xfe0041:
    case 0xfe0042:
    case 0xfe0043:
    case 0xfe0044:
    case 0xfe0045:
    case 0xfe0046:
    case 0xfe0047:
    case 0xfe0048:
    case 0xfe0049:
    case 0xfe004a:
    case 0xfe004b:
    case 0xfe004c:
    case 0xfe004d:
    case 0xfe004e:
      return WASM_PROPOSAL_THREADS;
    case 0xfd0000:
    case 0xfd0001:
    case 0xfd0002:
    case 0xfd0003:
    case 0xfd0004:
    case 0xfd0005:
    case 0xfd0006:
    case 0xfd0007:
    case 0xfd0008:
    case 0xfd0009:
    case 0xfd000a:
    case 0xfd005c:
    case 0xfd005d:
    case 0xfd000b:
    case 0xfd0054:
    case 0xfd0055:
    case 0xfd0056:
    case 0xfd0057:
    case 0xfd0058:
    case 0xfd0059:
    case 0xfd005a:
    case 0xfd005b:
    case 0xfd000c:
    case 0xfd000d:
    case 0xfd0015:
    case 0xfd0016:
    case 0xfd0017:
    case 0xfd0018:
    case 0xfd0019:
    case 0xfd001a:
    case 0xfd001b:
    case 0xfd001c:
    case 0xfd001d:
    case 0xfd001e:
    case 0xfd001f:
    case 0xfd0020:
    case 0xfd0021:
    case 0xfd0022:
    case 0xfd000e:
    case 0xfd000f:
    case 0xfd0010:
    case 0xfd0011:
    case 0xfd0012:
    case 0xfd0013:
    case 0xfd0014:
    case 0xfd0023:
    case 0xfd0024:
    case 0xfd0025:
    case 0xfd0026:
    case 0xfd0027:
    case 0xfd0028:
    case 0xfd0029:
    case 0xfd002a:
    case 0xfd002b:
    case 0xfd002c:
    case 0xfd002d:
    case 0xfd002e:
    case 0xfd002f:
    case 0xfd0030:
    case 0xfd0031:
    case 0xfd0032:
    case 0xfd0033:
    case 0xfd0034:
    case 0xfd0035:
    case 0xfd0036:
    case 0xfd0037:
    case 0xfd0038:
    case 0xfd0039:
    case 0xfd003a:
    case 0xfd003b:
    case 0xfd003c:
    case 0xfd003d:
    case 0xfd003e:
    case 0xfd003f:
    case 0xfd0040:
    case 0xfd00d6:
    case 0xfd00d7:
    case 0xfd00d8:
    case 0xfd00d9:
    case 0xfd00da:
    case 0xfd00db:
    case 0xfd0041:
    case 0xfd0042:
    case 0xfd0043:
    case 0xfd0044:
    case 0xfd0045:
    case 0xfd0046:
    case 0xfd0047:
    case 0xfd0048:
    case 0xfd0049:
    case 0xfd004a:
    case 0xfd004b:
    case 0xfd004c:
    case 0xfd004d:
    case 0xfd004e:
    case 0xfd004f:
    case 0xfd0050:
    case 0xfd0051:
    case 0xfd0052:
    case 0xfd0053:
    case 0xfd0060:
    case 0xfd0061:
    case 0xfd0062:
    case 0xfd0063:
    case 0xfd0064:
    case 0xfd0065:
    case 0xfd0066:
    case 0xfd006b:
    case 0xfd006c:
    case 0xfd006d:
    case 0xfd006e:
    case 0xfd006f:
    case 0xfd0070:
    case 0xfd0071:
    case 0xfd0072:
    case 0xfd0073:
    case 0xfd0076:
    case 0xfd0077:
    case 0xfd0078:
    case 0xfd0079:
    case 0xfd007b:
    case 0xfd007c:
    case 0xfd007d:
    case 0xfd0080:
    case 0xfd0081:
    case 0xfd0082:
    case 0xfd0083:
    case 0xfd0084:
    case 0xfd0085:
    case 0xfd0086:
    case 0xfd0087:
    case 0xfd0088:
    case 0xfd0089:
    case 0xfd008a:
    case 0xfd008b:
    case 0xfd008c:
    case 0xfd008d:
    case 0xfd008e:
    case 0xfd008f:
    case 0xfd0090:
    case 0xfd0091:
    case 0xfd0092:
    case 0xfd0093:
    case 0xfd0095:
    case 0xfd0096:
    case 0xfd0097:
    case 0xfd0098:
    case 0xfd0099:
    case 0xfd009b:
    case 0xfd009c:
    case 0xfd009d:
    case 0xfd009e:
    case 0xfd009f:
    case 0xfd007e:
    case 0xfd007f:
    case 0xfd00a0:
    case 0xfd00a1:
    case 0xfd00a3:
    case 0xfd00a4:
    case 0xfd00a7:
    case 0xfd00a8:
    case 0xfd00a9:
    case 0xfd00aa:
    case 0xfd00ab:
    case 0xfd00ac:
    case 0xfd00ad:
    case 0xfd00ae:
    case 0xfd00b1:
    case 0xfd00b5:
    case 0xfd00b6:
    case 0xfd00b7:
    case 0xfd00b8:
    case 0xfd00b9:
    case 0xfd00ba:
    case 0xfd00bc:
    case 0xfd00bd:
    case 0xfd00be:
    case 0xfd00bf:
    case 0xfd00c0:
    case 0xfd00c1:
    case 0xfd00c3:
    case 0xfd00c4:
    case 0xfd00c7:
    case 0xfd00c8:
    case 0xfd00c9:
    case 0xfd00ca:
    case 0xfd00cb:
    case 0xfd00cc:
    case 0xfd00cd:
    case 0xfd00ce:
    case 0xfd00d1:
    case 0xfd00d5:
    case 0xfd00dc:
    case 0xfd00dd:
    case 0xfd00de:
    case 0xfd00df:
    case 0xfd0067:
    case 0xfd0068:
    case 0xfd0069:
    case 0xfd006a:
    case 0xfd00e0:
    case 0xfd00e1:
    case 0xfd00e3:
    case 0xfd00e4:
    case 0xfd00e5:
    case 0xfd00e6:
    case 0xfd00e7:
    case 0xfd00e8:
    case 0xfd00e9:
    case 0xfd00ea:
    case 0xfd00eb:
    case 0xfd0074:
    case 0xfd0075:
    case 0xfd007a:
    case 0xfd0094:
    case 0xfd00ec:
    case 0xfd00ed:
    case 0xfd00ef:
    case 0xfd00f0:
    case 0xfd00f1:
    case 0xfd00f2:
    case 0xfd00f3:
    case 0xfd00f4:
    case 0xfd00f5:
    case 0xfd00f6:
    case 0xfd00f7:
    case 0xfd00f8:
    case 0xfd00f9:
    case 0xfd00fa:
    case 0xfd00fb:
    case 0xfd00fc:
    case 0xfd00fd:
    case 0xfd00fe:
    case 0xfd00ff:
    case 0xfd005e:
    case 0xfd005f:
      return WASM_PROPOSAL_SIMD;
    case 0xfd0100:
    case 0xfd0101:
    case 0xfd0102:
    case 0xfd0103:
    case 0xfd0104:
    case 0xfd0105:
    case 0xfd0106:
    case 0xfd0107:
    case 0xfd0108:
    case 0xfd0109:
    case 0xfd010a:
    case 0xfd010b:
    case 0xfd010c:
    case 0xfd010d:
    case 0xfd010e:
    case 0xfd010f:
    case 0xfd0110:
    case 0xfd0111:
    case 0xfd0112:
    case 0xfd0113:
      return WASM_PROPOSAL_RELAXED_SIMD;
    case 0x1f:
    case 0x8:
    case 0xa:
      return WASM_PROPOSAL_EXCEPTIONS;
    case 0x6:
    case 0x7:
    case 0x9:
    case 0x18:
    case 0x19:
      return WASM_PROPOSAL_LEGACY_EXCEPTIONS;
    case 0xfe004f:
    case 0xfe0050:
    case 0xfe0051:
    case 0xfe0052:
    case 0xfe0053:
    case 0xfe0054:
    case 0xfe0055:
    case 0xfe0056:
    case 0xfe0057:
    case 0xfe0058:
    case 0xfe0059:
    case 0xfe005a:
    case 0xfe005b:
    case 0xfe005c:
    case 0xfe005d:
    case 0xfe005e:
    case 0xfe005f:
    case 0xfe0060:
    case 0xfe0061:
    case 0xfe0062:
    case 0xfe0063:
    case 0xfe0064:
    case 0xfe0065:
    case 0xfe0066:
    case 0xfe0067:
    case 0xfe0068:
    case 0xfe0069:
    case 0xfe006a:
    case 0xfe006b:
    case 0xfe006c:
    case 0xfe006d:
    case 0xfe006e:
    case 0xfe006f:
    case 0xfe0070:
    case 0xfe0071:
    case 0xfe0072:
      return WASM_PROPOSAL_SHARED_EVERYTHING_THREADS;
    case 0x14:
    case 0x15:
    case 0xd4:
    case 0xd5:
    case 0xd6:
      return WASM_PROPOSAL_FUNCTION_REFERENCES;
    case 0xe0:
    case 0xe1:
    case 0xe2:
    case 0xe3:
    case 0xe4:
    case 0xe5:
    case 0xe6:
      return WASM_PROPOSAL_STACK_SWITCHING;
    case 0xfc0013:
    case 0xfc0014:
    case 0xfc0015:
    case 0xfc0016:
      return WASM_PROPOSAL_WIDE_ARITHMETIC;
    case 0xfe0004:
      return WASM_PROPOSAL_ACQUIRE_RELEASE_ATOMICS;
    default:
      return -1;
  }
}

/* Returns the name of a proposal of `enum wasm_proposal`, such as "bulk_memory", or NULL for another number. */
static inline const char *wasm_proposal_name(int proposal) {
  switch (proposal) {
    case WASM_PROPOSAL_MVP:
      return "mvp";
    case WASM_PROPOSAL_SIGN_EXTENSION:
      return "sign_extension";
    case WASM_PROPOSAL_GC:
      return "gc";
    case WASM_PROPOSAL_CUSTOM_DESCRIPTORS:
      return "custom_descriptors";
    case WASM_PROPOSAL_SATURATING_FLOAT_TO_INT:
      return "saturating_float_to_int";
    case WASM_PROPOSAL_BULK_MEMORY:
      return "bulk_memory";
    case WASM_PROPOSAL_REFERENCE_TYPES:
      return "reference_types";
    case WASM_PROPOSAL_TAIL_CALL:
      return "tail_call";
    case WASM_PROPOSAL_MEMORY_CONTROL:
      return "memory_control";
    case WASM_PROPOSAL_THREADS:
      return "threads";
    case WASM_PROPOSAL_SIMD:
      return "simd";
    case WASM_PROPOSAL_RELAXED_SIMD:
      return "relaxed_simd";
    case WASM_PROPOSAL_EXCEPTIONS:
      return "exceptions";
    case WASM_PROPOSAL_LEGACY_EXCEPTIONS:
      return "legacy_exceptions";
    case WASM_PROPOSAL_SHARED_EVERYTHING_THREADS:
      return "shared_everything_threads";
    case WASM_PROPOSAL_FUNCTION_REFERENCES:
      return "function_references";
    case WASM_PROPOSAL_STACK_SWITCHING:
      return "stack_switching";
    case WASM_PROPOSAL_WIDE_ARITHMETIC:
      return "wide_arithmetic";
    case WASM_PROPOSAL_ACQUIRE_RELEASE_ATOMICS:
      return "acquire_release_atomics";
    default:
      return NULL;
  }
}

/* Returns the text of an error from 100 on, which says nothing of its value, or NULL for another number.
 * wasm_refusal_text writes the texts of the others. */
static inline const char *wasm_c_error_text(uint32_t number) {
  switch (number) {
    case WASM_REFUSED_UNKNOWN_FEATURES:
      return "a bit of the features has no meaning";
    case WASM_REFUSED_PAST_OFFSETS:
      return "offsets do not fit in 64 bits";
    case WASM_REFUSED_NO_ROOM:
      return "an array is too short";
    case WASM_REFUSED_NOT_A_READER:
      return "no reader or place of these bytes";
    case WASM_REFUSED_NO_LIST:
      return "no operator begins there, or none with such a list";
    case WASM_REFUSED_NO_VALUE_KIND:
      return "no kind of value has this number";
    case WASM_REFUSED_NOT_A_MODULE:
      return "not a module of version 1";
    case WASM_REFUSED_IMPORT_KIND:
      return "invalid kind of an import";
    case WASM_REFUSED_TYPE_KIND:
      return "invalid kind of a type";
    case WASM_REFUSED_COUNTS_DIFFER:
      return "the numbers of functions and bodies differ";
    case WASM_REFUSED_NO_FUNCTION:
      return "the module does not define a function with this index";
    case WASM_REFUSED_NO_BODY:
      return "all bodies were read";
    case WASM_REFUSED_NOT_WRITABLE:
      return "no bytes encode a value with these fields";
    case WASM_REFUSED_INVALID:
      return "the module is not valid";
    case WASM_REFUSED_NO_ITEM:
      return "all parts or items were read";
    default:
      return NULL;
  }
}

#ifdef __cplusplus
}
#endif

#endif
