//! Two bodies, and what becomes of them if they are cut or a byte is changed. `tests/ahead.rs` and `../beside.rs` use them.

/// The number of blocks around the others: more than are read ahead, so that no batch has them all.
const AROUND: usize = 70;

/// Returns a body with frames of all kinds, without locals.
fn frames() -> Vec<u8> {
    let mut body = vec![0x00];
    for _ in 0..AROUND {
        body.extend([0x02, 0x40]);
    }
    for _ in 0..3 {
        // loop, if, nop, else, br, end, end
        body.extend([
            0x03, 0x40, 0x41, 0x00, 0x04, 0x40, 0x01, 0x05, 0x0c, 0x00, 0x0b, 0x0b,
        ]);
        // try, nop, catch, catch_all, end; try, delegate
        body.extend([
            0x06, 0x40, 0x01, 0x07, 0x00, 0x19, 0x01, 0x0b, 0x06, 0x40, 0x01, 0x18, 0x00,
        ]);
        // try_table with two clauses, end
        body.extend([0x1f, 0x40, 0x02, 0x00, 0x01, 0x02, 0x02, 0x03, 0x0b]);
        body.extend([0x01; 20]);
    }
    body.extend([0x0b; AROUND + 1]);
    body
}

/// Returns a body with two declarations of locals and immediates of all kinds.
fn immediates() -> Vec<u8> {
    let mut body = vec![0x02, 0x03, 0x7f, 0x01, 0x7e];
    for _ in 0..4 {
        body.extend([
            0x20, 0x00, 0x21, 0x81, 0x01, 0x41, 0xff, 0x7e, 0x42, 0x80, 0x80, 0x7f,
        ]);
        body.extend([0x43, 0, 0, 0x80, 0x3f, 0x44, 0, 0, 0, 0, 0, 0, 0xf0, 0x3f]);
        // memory arguments, one with an index
        body.extend([
            0x28, 0x02, 0x04, 0x36, 0x42, 0x01, 0x08, 0x3f, 0x00, 0x6a, 0x45,
        ]);
        body.extend([0x0e, 0x03, 0x00, 0x01, 0x80, 0x01, 0x00]);
        body.extend([
            0x1c, 0x01, 0x7f, 0x1c, 0x02, 0x70, 0x7e, 0x10, 0x03, 0x11, 0x01, 0x00,
        ]);
        // a block with a type, references
        body.extend([0x02, 0x7f, 0xd0, 0x70, 0xd1, 0xd2, 0x05, 0x0b]);
        // 0xfb: struct.get, ref.test, br_on_cast; 0xfc: saturating conversion, memory.copy
        body.extend([
            0xfb, 0x02, 0x01, 0x02, 0xfb, 0x14, 0x6b, 0xfb, 0x18, 0x01, 0x00, 0x6e, 0x6b,
        ]);
        body.extend([0xfc, 0x01, 0xfc, 0x0a, 0x00, 0x00]);
        // 0xfd: load, lane, constant, addition; 0xfe: load, read-modify-write, fence
        body.extend([0xfd, 0x00, 0x04, 0x10, 0xfd, 0x15, 0x03, 0xfd, 0x0c]);
        body.extend([0x5a; 16]);
        body.extend([
            0xfd, 0xae, 0x01, 0xfe, 0x10, 0x02, 0x00, 0xfe, 0x1e, 0x02, 0x00, 0xfe, 0x03, 0x00,
        ]);
        // resume with two clauses
        body.extend([0xe3, 0x00, 0x02, 0x00, 0x01, 0x02, 0x01, 0x03]);
    }
    body.push(0x0b);
    body
}

/// Returns both bodies.
pub fn whole() -> [Vec<u8>; 2] {
    [frames(), immediates()]
}

/// Returns what a byte is changed to: other bits, and bytes that change the frames or begin a number or a prefix.
fn others(byte: u8) -> impl Iterator<Item = u8> {
    let all = [
        byte ^ 0x01,
        byte ^ 0x40,
        byte ^ 0x80,
        0x02,
        0x05,
        0x0b,
        0xfd,
        0xff,
    ];
    all.into_iter().filter(move |other| *other != byte)
}

/// Calls a function with each body, whole, cut before each byte, and with each byte changed.
pub fn for_each(mut call: impl FnMut(&[u8])) {
    for body in whole() {
        call(&body);
        for at in 0..body.len() {
            call(&body[..at]);
            let mut changed = body.clone();
            for other in others(body[at]) {
                changed[at] = other;
                call(&changed);
            }
        }
    }
}
