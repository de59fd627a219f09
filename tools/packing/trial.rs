use wasm_operators::{BinaryReader, FunctionBody, Result};

fn main() -> Result<()> {
    let body = FunctionBody::new(BinaryReader::new(&[0x00, 0x01, 0x0b], 0));
    for operator in body.get_operators_reader()?.into_iter_with_offsets() {
        let (operator, offset) = operator?;
        println!("{offset} {operator:?}");
    }
    Ok(())
}
