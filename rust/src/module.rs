//! The functions of a module, which wasmparser's operators layer does not have.

use crate::native::{self, PlainBodies, PlainBody};
use crate::{BinaryReader, Error, FunctionBody, Result, WasmFeatures};

/// A function that a module defines.
#[derive(Clone, Debug)]
pub struct Function<'a> {
    /// The index of the function.
    pub index: u32,
    /// The index of its type.
    pub type_index: u32,
    /// Its body. Offsets count from the start of the module.
    pub body: FunctionBody<'a>,
}

/// An iterator over the functions that a module defines. It ends after an error.
///
/// ```
/// use wasm_operators::{Functions, Operator, Result, WasmFeatures};
///
/// let module = [
///     0, 0x61, 0x73, 0x6d, 1, 0, 0, 0, // magic number and version
///     1, 4, 1, 0x60, 0, 0, // a type: no parameters, no results
///     3, 2, 1, 0, // a function of this type
///     10, 4, 1, 2, 0, 0x0b, // its body
/// ];
/// for function in Functions::new(&module, WasmFeatures::all())? {
///     let function = function?;
///     let operators = function.body.get_operators_reader()?.read_all()?;
///     assert_eq!((function.index, function.type_index), (0, 0));
///     assert_eq!(operators, [(Operator::End, 23)]);
/// }
/// # Ok::<(), wasm_operators::Error>(())
/// ```
#[derive(Clone, Debug)]
pub struct Functions<'a> {
    bytes: &'a [u8],
    features: WasmFeatures,
    bodies: PlainBodies,
    is_over: bool,
}

/// The library's number after the last body.
const NO_BODY: u32 = 111;

impl<'a> Functions<'a> {
    /// Reads a module's sections about functions. Bodies are read with these features.
    pub fn new(bytes: &'a [u8], features: WasmFeatures) -> Result<Functions<'a>> {
        Ok(Functions {
            bytes,
            features,
            bodies: native::open_bodies(bytes)?,
            is_over: false,
        })
    }

    /// Creates the function of a body.
    fn function(&self, body: &PlainBody) -> Function<'a> {
        let start = body.offset as usize;
        let bytes = &self.bytes[start..start + body.length as usize];
        let reader = BinaryReader::new_features(bytes, body.offset, self.features);
        Function {
            index: body.index,
            type_index: body.type_index,
            body: FunctionBody::new(reader),
        }
    }
}

impl<'a> Iterator for Functions<'a> {
    type Item = Result<Function<'a>>;

    fn next(&mut self) -> Option<Self::Item> {
        if self.is_over {
            return None;
        }
        match native::next_body(self.bytes, &mut self.bodies) {
            Ok(body) => Some(Ok(self.function(&body))),
            Err(refusal) => {
                self.is_over = true;
                (refusal.number != NO_BODY).then(|| Err(Error::from(refusal)))
            }
        }
    }

    fn size_hint(&self) -> (usize, Option<usize>) {
        (0, Some(self.bodies.left as usize + 1))
    }
}

/// Returns the name of a function that a module defines, or `None` if it has none or if the name is not UTF-8.
///
/// A name in the section `name` precedes an export. Each call reads the sections again.
pub fn function_name(module: &[u8], index: u32) -> Result<Option<String>> {
    let name = native::function_name(module, index)?;
    Ok((!name.is_empty()).then_some(name))
}
