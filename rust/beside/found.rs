// What a library finds in a body. `beside.rs` includes this file for each, as `library`.

use self::library::*;

/// The number of positions of a body at which each kind of value is read.
const POSITIONS: usize = 48;

/// Lists the text of a value or of the error.
fn line<T: std::fmt::Debug>(out: &mut Vec<String>, value: Result<T>) {
    out.push(match value {
        Ok(value) => format!("{value:?}"),
        Err(error) => format!("{error} | {} | {}", error.message(), error.offset()),
    });
}

/// Lists the operators with their offsets, and how the body ends.
pub fn operators(bytes: &[u8], features: WasmFeatures) -> Vec<String> {
    let mut out = Vec::new();
    let body = FunctionBody::new(BinaryReader::new_features(bytes, 7, features));
    let mut read = || {
        let mut operators = body.get_operators_reader()?;
        while !operators.eof() {
            let frame = operators.current_frame();
            let rest = operators.get_binary_reader().remaining_range();
            let is_last = operators.is_end_then_eof();
            let (operator, offset) = operators.read_with_offset()?;
            out.push(format!("{offset} {frame:?} {rest:?} {is_last} {operator:?}"));
        }
        operators.finish()
    };
    let end = read();
    line(&mut out, end);
    out
}

/// Lists the locals, and what follows them.
pub fn locals(bytes: &[u8]) -> Vec<String> {
    let mut out = Vec::new();
    let body = FunctionBody::new(BinaryReader::new(bytes, 7));
    out.push(format!("{:?} {:?}", body.range(), body.as_bytes()));
    let Ok(reader) = body.get_locals_reader() else {
        return out;
    };
    out.push(format!(
        "{} {}",
        reader.get_count(),
        reader.original_position()
    ));
    let mut locals = reader.into_iter();
    for local in locals.by_ref().take(1000) {
        line(&mut out, local);
    }
    if out.last().is_some_and(|last| !last.contains('|')) && out.len() < 1000 {
        let after = locals.into_binary_reader_for_operators();
        out.push(format!("{:?}", after.remaining_range()));
    }
    out
}

/// A visitor that lists the calls of its methods. It may support SIMD operators.
struct Calls {
    out: Vec<String>,
    has_simd: bool,
    frames: ControlStack,
}

macro_rules! list {
    ($(@$proposal:ident $op:ident $({ $($field:ident: $ty:ty),* })? => $visit:ident ($($ann:tt)*))*) => {
        $(fn $visit(&mut self $($(, $field: $ty)*)?) {
            let fields: &[String] = &[$($(format!("{:?}", $field)),*)?];
            self.out.push(format!(
                "{} {} {} {fields:?}",
                stringify!($proposal),
                stringify!($visit),
                stringify!($($ann)*),
            ));
        })*
    };
}

impl<'a> VisitOperator<'a> for Calls {
    type Output = ();

    fn simd_visitor(&mut self) -> Option<&mut dyn VisitSimdOperator<'a, Output = ()>> {
        if self.has_simd { Some(self) } else { None }
    }

    for_each_visit_operator!(list);
}

impl VisitSimdOperator<'_> for Calls {
    for_each_visit_simd_operator!(list);
}

impl FrameStack for Calls {
    fn current_frame(&self) -> Option<FrameKind> {
        self.frames.last()
    }
}

impl Calls {
    fn new(has_simd: bool) -> Calls {
        Calls {
            out: Vec::new(),
            has_simd,
            frames: ControlStack::default(),
        }
    }
}

/// Lists the calls of a visitor by a reader that keeps the frames.
pub fn visits(bytes: &[u8], has_simd: bool) -> Vec<String> {
    let mut calls = Calls::new(has_simd);
    let body = FunctionBody::new(BinaryReader::new(bytes, 7));
    let mut read = || {
        let mut operators = body.get_operators_reader()?;
        while !operators.eof() {
            operators.visit_operator(&mut Box::new(&mut calls))?;
        }
        operators.finish()
    };
    let end = read();
    line(&mut calls.out, end);
    calls.out
}

/// Lists the calls of a visitor that keeps its frames.
pub fn framed(bytes: &[u8], has_simd: bool) -> Vec<String> {
    let mut calls = Calls::new(has_simd);
    let body = FunctionBody::new(BinaryReader::new(bytes, 7));
    let mut read = || {
        let mut reader = body.get_binary_reader_for_operators()?;
        calls.frames.push(FrameKind::Block);
        while !reader.eof() {
            let next = reader.peek_operator(&calls);
            reader.visit_operator(&mut calls)?;
            follow(&mut calls.frames, &next?);
            let line = format!("{:?} {:?}", reader.remaining_range(), calls.frames);
            calls.out.push(line);
        }
        reader.finish_expression(&calls)
    };
    let end = read();
    line(&mut calls.out, end);
    calls.out
}

/// Changes the frames by an operator.
fn follow(frames: &mut ControlStack, operator: &Operator<'_>) {
    let kind = match operator {
        Operator::Block { .. } => FrameKind::Block,
        Operator::Loop { .. } => FrameKind::Loop,
        Operator::If { .. } => FrameKind::If,
        Operator::Try { .. } => FrameKind::LegacyTry,
        Operator::TryTable { .. } => FrameKind::TryTable,
        Operator::Else => FrameKind::Else,
        Operator::Catch { .. } => FrameKind::LegacyCatch,
        Operator::CatchAll => FrameKind::LegacyCatchAll,
        Operator::End | Operator::Delegate { .. } => {
            frames.pop();
            return;
        }
        _ => return,
    };
    if matches!(
        kind,
        FrameKind::Else | FrameKind::LegacyCatch | FrameKind::LegacyCatchAll
    ) {
        frames.pop();
    }
    frames.push(kind);
}

/// The only frame of an expression.
struct Only(Option<FrameKind>);

impl FrameStack for Only {
    fn current_frame(&self) -> Option<FrameKind> {
        self.0
    }
}

/// Lists a read of each kind of value at the first positions.
pub fn values(bytes: &[u8]) -> Vec<String> {
    let mut out = Vec::new();
    for at in 0..bytes.len().min(POSITIONS) {
        let mut start = BinaryReader::new(bytes, 7);
        start.read_bytes(at).expect("the bytes are there");
        numbers(&mut out, &start);
        parts(&mut out, &start);
        types(&mut out, &start);
        frames(&mut out, &start);
    }
    out
}

/// Lists a read, and where the reader is after it if it has not failed.
fn read<'a, T: std::fmt::Debug>(
    out: &mut Vec<String>,
    start: &BinaryReader<'a>,
    call: impl FnOnce(&mut BinaryReader<'a>) -> Result<T>,
) {
    let mut reader = start.clone();
    let value = call(&mut reader);
    let is_ok = value.is_ok();
    line(out, value);
    if is_ok {
        out.push(format!("{:?} {:?}", reader.remaining_range(), reader.eof()));
    }
}

fn numbers(out: &mut Vec<String>, start: &BinaryReader<'_>) {
    read(out, start, |reader| reader.read_u8());
    read(out, start, |reader| reader.read_u32());
    read(out, start, |reader| reader.read_u64());
    read(out, start, |reader| reader.read_var_u32());
    read(out, start, |reader| reader.read_var_u64());
    read(out, start, |reader| reader.read_var_i32());
    read(out, start, |reader| reader.read_var_s33());
    read(out, start, |reader| reader.read_var_i64());
    read(out, start, |reader| reader.read_f32());
    read(out, start, |reader| reader.read_f64());
    read(out, start, |reader| reader.read_size(100, "things"));
}

fn parts(out: &mut Vec<String>, start: &BinaryReader<'_>) {
    read(out, start, |reader| reader.read_bytes(3));
    read(out, start, |reader| reader.read_string());
    read(out, start, |reader| reader.read_unlimited_string());
    read(out, start, |reader| reader.skip_string());
    read(out, start, |reader| {
        Ok(reader.read_reader()?.remaining_range())
    });
    read(out, start, |reader| {
        let part = reader.skip(|reader| reader.skip_string())?;
        Ok((part.range(), part.is_end_then_eof(), part.bytes_remaining()))
    });
    read(out, start, |reader| {
        let items = reader.read_iter::<u32>(5, "items")?;
        let size = items.size_hint();
        Ok((size, items.collect::<Result<Vec<_>>>()?))
    });
    read(out, start, |reader| reader.read::<ConstExpr<'_>>());
    read(out, start, |reader| {
        Ok(reader.read::<FunctionBody<'_>>()?.range())
    });
    let section = SectionLimited::<u32>::new(start.clone());
    read(out, start, |_| Ok(section.clone()?.count()));
    for item in section.into_iter().flatten().take(20) {
        line(out, item);
    }
}

fn types(out: &mut Vec<String>, start: &BinaryReader<'_>) {
    read(out, start, |reader| reader.read::<u32>());
    read(out, start, |reader| reader.read::<ValType>());
    read(out, start, |reader| reader.read::<RefType>());
    read(out, start, |reader| reader.read::<HeapType>());
    read(out, start, |reader| reader.read::<Catch>());
    read(out, start, |reader| reader.read::<Handle>());
    read(out, start, |reader| reader.read::<TryTable>());
    read(out, start, |reader| reader.read::<ResumeTable>());
}

/// Lists the operator at a position in frames of each kind.
fn frames(out: &mut Vec<String>, start: &BinaryReader<'_>) {
    let kinds = [
        FrameKind::Block,
        FrameKind::If,
        FrameKind::Else,
        FrameKind::Loop,
        FrameKind::TryTable,
        FrameKind::LegacyTry,
        FrameKind::LegacyCatch,
        FrameKind::LegacyCatchAll,
    ];
    for frame in kinds.map(Some).into_iter().chain([None]) {
        line(out, start.peek_operator(&Only(frame)));
        line(out, start.finish_expression(&Only(frame)));
    }
    for has_simd in [false, true] {
        let mut calls = Calls::new(has_simd);
        calls.frames.push(FrameKind::Block);
        let mut reader = start.clone();
        let end = reader.visit_operator(&mut calls);
        line(&mut calls.out, end);
        out.append(&mut calls.out);
    }
}
