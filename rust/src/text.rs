//! Operators as text, which wasmparser does not have.

use crate::{Result, WasmFeatures, native};

/// Returns the text of the operator at the offset `at`. `offset` is the offset of the first byte.
///
/// ```
/// use wasm_operators::{WasmFeatures, operator_text};
///
/// let text = operator_text(&[0x41, 0x05, 0x0b], 0, WasmFeatures::all(), 0)?;
/// assert_eq!(text, "i32.const 5");
/// # Ok::<(), wasm_operators::Error>(())
/// ```
pub fn operator_text(bytes: &[u8], offset: u64, features: WasmFeatures, at: u64) -> Result<String> {
    Ok(native::operator_text(
        bytes,
        offset,
        features.library_bits(),
        at,
    )?)
}

/// Returns the name of the operator at the offset `at`, such as `i32.const`.
pub fn operator_text_name(
    bytes: &[u8],
    offset: u64,
    features: WasmFeatures,
    at: u64,
) -> Result<String> {
    Ok(native::operator_text_name(
        bytes,
        offset,
        features.library_bits(),
        at,
    )?)
}
