//! Evaluates the globals of a global section.

use std::process::ExitCode;
use wasmparser::{
    BinaryReader, BinaryReaderError, ConstExpr, FromReader, HeapType, Operator, Result,
    SectionLimited, ValType, WasmFeatures,
};

/// A global: its type, and the expression that gives its first value.
#[derive(Debug)]
struct Global<'a> {
    ty: ValType,
    mutable: bool,
    init: ConstExpr<'a>,
}

impl<'a> FromReader<'a> for Global<'a> {
    fn from_reader(reader: &mut BinaryReader<'a>) -> Result<Self> {
        Ok(Global {
            ty: reader.read()?,
            mutable: reader.read_u8()? != 0,
            init: reader.read()?,
        })
    }
}

/// A value of a global.
#[derive(Clone, Copy, Debug, PartialEq)]
enum Value {
    Int(i64),
    Float(f64),
    Vector(i128),
    Null(HeapType),
    Function(u32),
}

/// Returns the value of an expression, or `None` if it uses other operators. `globals` has the values of earlier globals.
fn evaluate(init: &ConstExpr<'_>, globals: &[Option<Value>]) -> Result<Option<Value>> {
    let mut stack: Vec<Value> = Vec::new();
    let mut operators = init.get_operators_reader();
    while !operators.eof() {
        let value = match operators.read()? {
            Operator::I32Const { value } => Value::Int(value.into()),
            Operator::I64Const { value } => Value::Int(value),
            Operator::F32Const { value } => Value::Float(f32::from(value).into()),
            Operator::F64Const { value } => Value::Float(value.into()),
            Operator::V128Const { value } => Value::Vector(value.into()),
            Operator::RefNull { hty } => Value::Null(hty),
            Operator::RefFunc { function_index } => Value::Function(function_index),
            Operator::GlobalGet { global_index } => {
                match globals.get(global_index as usize).copied().flatten() {
                    Some(value) => value,
                    None => return Ok(None),
                }
            }
            Operator::I32Add | Operator::I64Add => match (stack.pop(), stack.pop()) {
                (Some(Value::Int(right)), Some(Value::Int(left))) => {
                    Value::Int(left.wrapping_add(right))
                }
                _ => return Ok(None),
            },
            Operator::End => break,
            _ => return Ok(None),
        };
        stack.push(value);
    }
    operators.finish()?;
    Ok(stack.pop())
}

fn run(bytes: &[u8], features: WasmFeatures) -> Result<(), BinaryReaderError> {
    let reader = BinaryReader::new_features(bytes, 0x20, features);
    let mut globals = Vec::new();
    for global in SectionLimited::<Global<'_>>::new(reader)? {
        let global = global?;
        let value = evaluate(&global.init, &globals)?;
        let range = global.init.get_binary_reader().remaining_range();
        println!("{:?} {} {range:?} = {value:?}", global.ty, global.mutable);
        globals.push(value);
    }
    Ok(())
}

fn main() -> ExitCode {
    let path = std::env::args_os()
        .nth(1)
        .expect("a file with a global section");
    let bytes = std::fs::read(path).expect("a file that can be read");
    let mut features = WasmFeatures::all();
    features.remove(WasmFeatures::LEGACY_EXCEPTIONS);
    if let Err(error) = run(&bytes, features) {
        println!("{error}");
        return ExitCode::FAILURE;
    }
    ExitCode::SUCCESS
}
