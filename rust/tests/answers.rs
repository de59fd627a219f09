//! Compares with wasmparser's output on 8,561 bodies, and with two samples of each operator.

use wasm_operators::{
    BinaryReader, Body, Catch, Error, FunctionBody, Handle, Operator, OperatorsReader, Result,
    ValType, VisitOperator, VisitSimdOperator, WasmFeatures, for_each_visit_operator,
    for_each_visit_simd_operator,
};

const OUTPUT: &str = include_str!("../../crates/wasm_tests_replay/stdin");

/// Returns the rows of the output, in cells.
fn rows() -> impl Iterator<Item = Vec<&'static str>> {
    let rows = OUTPUT
        .lines()
        .skip(1)
        .take_while(|line| !line.starts_with("name\t"));
    rows.map(|row| row.split('\t').collect())
}

/// Returns the features of a row.
fn features_of(cells: &[&str]) -> WasmFeatures {
    WasmFeatures::from_bits(cells[1].parse().unwrap()).unwrap()
}

fn bytes_of(hex: &str) -> Vec<u8> {
    (0..hex.len() / 2)
        .map(|at| u8::from_str_radix(&hex[2 * at..2 * at + 2], 16).unwrap())
        .collect()
}

fn fingerprint(sum: u64, text: &str) -> u64 {
    text.bytes().fold(sum, |sum, byte| {
        (sum ^ u64::from(byte)).wrapping_mul(1099511628211)
    })
}

/// Checks a body by the cells: status, number, offset and text of the error, number of operators, fingerprint of lines.
fn look_at(body: &Body<'_>, cells: &[&str]) {
    let mut lines = 14695981039346656037;
    let mut found = 0;
    for operator in body.iter().flatten() {
        lines = fingerprint(lines, &format!("{} {}\n", operator.1, operator.0.name()));
        found += 1;
    }
    assert_eq!(found.to_string(), cells[4], "{cells:?}");
    assert_eq!(format!("{lines:016x}"), cells[5], "{cells:?}");
    match body.error() {
        None => assert_eq!(cells[0], "0", "{cells:?}"),
        Some(error) => {
            assert_eq!(
                error.number().to_string(),
                cells[1].trim_start_matches('E'),
                "{cells:?}"
            );
            assert_eq!(error.offset().to_string(), cells[2], "{cells:?}");
            assert_eq!(error.message(), cells[3], "{cells:?}");
        }
    }
}

/// Checks all rows, by one call for each body.
fn look_at_all() -> usize {
    rows()
        .map(|cells| {
            look_at(
                &Body::read(&bytes_of(cells[2]), 0, features_of(&cells)),
                &cells[3..],
            )
        })
        .count()
}

#[test]
fn bodies() {
    assert_eq!(look_at_all(), 8561);
}

#[test]
fn threads() {
    let others = [
        std::thread::spawn(look_at_all),
        std::thread::spawn(look_at_all),
    ];
    assert!(
        others
            .into_iter()
            .all(|other| other.join().unwrap() == 8561)
    );
}

#[test]
#[ignore = "wants WASM_OPERATORS_BODIES: a folder of NAME.bodies and NAME.expected.tsv"]
fn files_of_bodies() {
    let folder = std::env::var("WASM_OPERATORS_BODIES").expect("the folder");
    let paths = std::fs::read_dir(folder)
        .unwrap()
        .map(|entry| entry.unwrap().path());
    let mut count = 0;
    for path in paths.filter(|path| path.extension().is_some_and(|end| end == "bodies")) {
        let bytes = std::fs::read(&path).unwrap();
        let expected = std::fs::read_to_string(path.with_extension("expected.tsv")).unwrap();
        let mut rest = bytes.as_slice();
        for row in expected.lines() {
            let (head, behind) = rest.split_first_chunk::<4>().unwrap();
            let (body, others) = behind.split_at(u32::from_le_bytes(*head) as usize);
            let cells: Vec<&str> = row.split('\t').collect();
            look_at(&Body::read(body, 0, WasmFeatures::all()), &cells[2..]);
            rest = others;
            count += 1;
        }
        assert!(rest.is_empty());
    }
    assert!(count > 0);
}

/// Creates a reader of the operators of a body.
fn operators_of(bytes: &[u8], features: WasmFeatures) -> Result<OperatorsReader<'_>> {
    let reader = BinaryReader::new_features(bytes, 0, features);
    FunctionBody::new(reader).get_operators_reader()
}

/// Reads operators one by one, each also from a clone of the reader.
fn one_by_one(bytes: &[u8], features: WasmFeatures) -> (Vec<String>, Result<()>) {
    let mut found = Vec::new();
    let mut read = || {
        let mut reader = operators_of(bytes, features)?;
        while !reader.eof() {
            let offset = reader.original_position();
            let again = reader.clone().read();
            let operator = reader.read();
            assert_eq!(operator, again);
            found.push(format!("{offset} {:?}", operator?));
        }
        reader.finish()
    };
    let end = read();
    (found, end)
}

/// Counts the operators that are visited, and the constants among them.
#[derive(Default)]
struct Tally {
    all: usize,
    constants: usize,
}

macro_rules! tally {
    ($(@$proposal:ident $op:ident $({ $($field:ident: $ty:ty),* })? => $visit:ident ($($ann:tt)*))*) => {
        $(fn $visit(&mut self $($(, _: $ty)*)?) {
            self.all += 1;
            self.constants += usize::from(stringify!($op) == "I32Const");
        })*
    };
}

impl<'a> VisitOperator<'a> for Tally {
    type Output = ();

    fn simd_visitor(&mut self) -> Option<&mut dyn VisitSimdOperator<'a, Output = ()>> {
        Some(self)
    }

    for_each_visit_operator!(tally);
}

impl VisitSimdOperator<'_> for Tally {
    for_each_visit_simd_operator!(tally);
}

/// Visits all operators of a body.
fn visited(bytes: &[u8], features: WasmFeatures) -> Tally {
    let mut tally = Tally::default();
    if let Ok(mut reader) = operators_of(bytes, features) {
        while !reader.eof() && reader.visit_operator(&mut tally).is_ok() {}
    }
    tally
}

#[test]
fn readers() {
    for cells in rows() {
        let bytes = bytes_of(cells[2]);
        let features = features_of(&cells);
        let body = Body::read(&bytes, 0, features);
        let all: Vec<_> = body.iter().flatten().collect();
        let wanted: Vec<String> = all
            .iter()
            .map(|(operator, offset)| format!("{offset} {operator:?}"))
            .collect();
        let (found, end) = one_by_one(&bytes, features);
        assert_eq!(found, wanted, "{cells:?}");
        assert_eq!(end.err().as_ref(), body.error(), "{cells:?}");

        let tally = visited(&bytes, features);
        let constants = all
            .iter()
            .filter(|(operator, _)| matches!(operator, Operator::I32Const { .. }))
            .count();
        assert_eq!(
            (tally.all, tally.constants),
            (all.len(), constants),
            "{cells:?}"
        );
    }
}

#[test]
fn iterators() {
    for cells in rows() {
        let bytes = bytes_of(cells[2]);
        let features = features_of(&cells);
        let body = Body::read(&bytes, 0, features);
        let Ok(reader) = operators_of(&bytes, features) else {
            assert!(body.is_empty() && body.error().is_some(), "{cells:?}");
            continue;
        };
        let mut operators = reader.clone().into_iter_with_offsets();
        let found: Vec<_> = operators
            .by_ref()
            .take_while(|operator| operator.is_ok())
            .flatten()
            .collect();
        assert_eq!(
            found,
            body.iter().flatten().collect::<Vec<_>>(),
            "{cells:?}"
        );
        assert_eq!(operators.next(), None, "{cells:?}");
        match reader.read_all() {
            Ok(operators) => assert_eq!((operators, body.error()), (found, None), "{cells:?}"),
            Err(error) => assert_eq!(Some(&error), body.error(), "{cells:?}"),
        }
    }
}

/// Returns the items of this many calls, and then those that are folded.
fn items_of<I: Iterator>(mut items: I, calls: usize) -> Vec<I::Item> {
    let mut found: Vec<_> = items.by_ref().take(calls).collect();
    items.for_each(|item| found.push(item));
    found
}

#[test]
fn iterators_fold_what_they_return() {
    for cells in rows() {
        let bytes = bytes_of(cells[2]);
        let Ok(reader) = operators_of(&bytes, features_of(&cells)) else {
            continue;
        };
        // An item has a byte, or is the error.
        let all = bytes.len() + 1;
        let returned = items_of(reader.clone().into_iter(), all);
        let with_offsets = items_of(reader.clone().into_iter_with_offsets(), all);
        for calls in [0, 1, 65] {
            let folded = items_of(reader.clone().into_iter(), calls);
            assert_eq!(folded, returned, "{cells:?}");
            let folded = items_of(reader.clone().into_iter_with_offsets(), calls);
            assert_eq!(folded, with_offsets, "{cells:?}");
        }
    }
}

/// Returns the members of an operator's list as in the samples.
fn list_of(operator: &Operator<'_>) -> Option<String> {
    let type_of = |ty: &ValType| match ty {
        ValType::Ref(ty) => format!("{}Func", if ty.is_nullable() { "?" } else { "!" }),
        ty => format!("{ty:?}"),
    };
    let catch_of = |catch: &Catch| match *catch {
        Catch::One { tag, label } => format!("one:{tag}:{label}"),
        Catch::OneRef { tag, label } => format!("oneref:{tag}:{label}"),
        Catch::All { label } => format!("all:{label}"),
        Catch::AllRef { label } => format!("allref:{label}"),
    };
    let handle_of = |handle: &Handle| match *handle {
        Handle::OnLabel { tag, label } => format!("label:{tag}:{label}"),
        Handle::OnSwitch { tag } => format!("switch:{tag}"),
    };
    let members: Vec<String> = match operator {
        Operator::BrTable { targets } => targets
            .targets()
            .map(|target| target.unwrap().to_string())
            .collect(),
        Operator::TypedSelect { ty } => return Some(format!("={}", type_of(ty))),
        Operator::TypedSelectMulti { tys } => tys.iter().map(type_of).collect(),
        Operator::TryTable { try_table } => try_table.catches.iter().map(catch_of).collect(),
        Operator::Resume { resume_table, .. }
        | Operator::ResumeThrow { resume_table, .. }
        | Operator::ResumeThrowRef { resume_table, .. } => {
            resume_table.handlers.iter().map(handle_of).collect()
        }
        _ => return None,
    };
    Some(format!("[{}]", members.join(",")))
}

#[test]
fn samples() {
    let rows = OUTPUT
        .lines()
        .skip_while(|line| !line.starts_with("name\t"))
        .skip(1);
    let (mut count, mut lists) = (0, 0);
    for row in rows {
        let cells: Vec<&str> = row.split('\t').collect();
        let bytes = bytes_of(&[cells[2], cells[3], cells[4]].concat());
        let body = Body::read(&bytes, 0, WasmFeatures::all());
        let at = cells[2].len() as u64 / 2;
        let operators = body.read_all().unwrap();
        let (operator, _) = operators.iter().find(|(_, offset)| *offset == at).unwrap();
        assert_eq!(operator.name(), cells[0], "{row}");
        if let Some(list) = list_of(operator) {
            assert!(cells[5].contains(&list), "{row}: {list}");
            lists += 1;
        }
        count += 1;
    }
    assert_eq!((count, lists), (1256, 14));
}

#[test]
fn offsets() {
    let at = u64::MAX - 3;
    let body = Body::read(&[0, 1, 11], at, WasmFeatures::empty());
    let offsets: Vec<u64> = body
        .read_all()
        .unwrap()
        .iter()
        .map(|(_, offset)| *offset)
        .collect();
    assert_eq!(offsets, [at + 1, at + 2]);
    let past = Body::read(&[0, 1, 11], at + 1, WasmFeatures::empty());
    assert_eq!(
        past.error().unwrap().message(),
        "offsets do not fit in 64 bits"
    );
    let past: Result<OperatorsReader<'_>, Error> =
        OperatorsReader::of_body(&[0, 11], at + 2, WasmFeatures::empty());
    assert_eq!(past.err().unwrap().offset(), at + 2);
}
