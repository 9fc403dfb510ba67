//! Damaged lines: one fault or a few put into a good line, and bytes that are no line at all.

use crate::random::Random;

/// Bytes that are worth putting in.
#[rustfmt::skip]
const BYTES: [u8; 20] = [
    b'\r', 0, b'\t', b' ', b'\n', 0xFF, 0x80, 0x7F, b'0', b'9', b'-', b'+', b'.', b'a', b'F', b'G', b'X',
    b'x', b'_', 0x0B,
];

/// Fields that are worth putting in the place of another.
#[rustfmt::skip]
const FIELDS: [&str; 44] = [
    "", "0", "00", "01", "1", "2", "7", "8", "15", "16", "17", "255", "256", "65535", "65536", "999999", "1000000",
    "1000001", "4294967294", "4294967295", "4294967296", "9999999999", "10000000000", "18446744073709551615",
    "18446744073709551616", "18446744073709551617", "340282366920938463463374607431768211457", "0000", "0001",
    "FFFF", "ffff", "00FF", "00fF", "0000000000000000", "8000000000000000", "7FF0000000000000",
    "7FF8000000000000", "FFF8000000000001", "FFFFFFFFFFFFFFFF", "4130C8E000000000", "4130C8E000000001",
    "41CDCD6500000000", "41CDCD6500000001", "1.0000",
];

#[rustfmt::skip]
const KINDS: [&str; 20] = [
    "M", "Q", "R", "A", "U", "D", "S", "C", "E", "V", "F", "B", "X", "G", "N", "K", "", "m", "MM", "Z",
];

/// A line with one to three faults.
pub fn damaged(random: &mut Random, line: &[u8]) -> Vec<u8> {
    let mut line = line.to_vec();
    for _ in 0..1 + random.weighted(&[80, 15, 5]) {
        line = damaged_once(random, line);
    }
    line
}

fn damaged_once(random: &mut Random, line: Vec<u8>) -> Vec<u8> {
    match random.weighted(&[8, 8, 8, 10, 8, 20, 6, 8, 3, 4, 3, 2, 6]) {
        0 => with_byte_replaced(random, line),
        1 => with_byte_put_in(random, line),
        2 => with_byte_taken_out(random, line),
        3 => with_field_taken_out(random, line),
        4 => with_field_put_in(random, line),
        5 => with_field_replaced(random, line),
        6 => with_kind_replaced(random, line),
        7 => with_field_changed(random, line),
        8 => with_lower_case(line),
        9 => cut_short(random, line),
        10 => before_line_feed(line, b"\r"),
        11 => cut_line_feed(line),
        _ => stretched(random, line),
    }
}

fn place(random: &mut Random, line: &[u8]) -> usize {
    random.below(line.len().max(1) as u64) as usize
}

fn with_byte_replaced(random: &mut Random, mut line: Vec<u8>) -> Vec<u8> {
    let at = place(random, &line);
    if let Some(byte) = line.get_mut(at) {
        *byte = any_byte(random);
    }
    line
}

fn any_byte(random: &mut Random) -> u8 {
    if random.chance(60) {
        random.pick(&BYTES)
    } else {
        random.next() as u8
    }
}

fn with_byte_put_in(random: &mut Random, mut line: Vec<u8>) -> Vec<u8> {
    let at = place(random, &line);
    line.insert(at, any_byte(random));
    line
}

fn with_byte_taken_out(random: &mut Random, mut line: Vec<u8>) -> Vec<u8> {
    let at = place(random, &line);
    if at < line.len() {
        line.remove(at);
    }
    line
}

/// The fields of a line, and whether its line feed is there.
fn fields(line: &[u8]) -> (Vec<Vec<u8>>, bool) {
    let body = line.strip_suffix(b"\n").unwrap_or(line);
    (body.split(|b| *b == b'\t').map(<[u8]>::to_vec).collect(), body.len() < line.len())
}

fn joined(fields: &[Vec<u8>], ended: bool) -> Vec<u8> {
    let mut line = fields.join(&b'\t');
    if ended {
        line.push(b'\n');
    }
    line
}

fn with_field_taken_out(random: &mut Random, line: Vec<u8>) -> Vec<u8> {
    let (mut fields, ended) = fields(&line);
    let at = random.below(fields.len() as u64) as usize;
    fields.remove(at);
    joined(&fields, ended)
}

fn with_field_put_in(random: &mut Random, line: Vec<u8>) -> Vec<u8> {
    let (mut fields, ended) = fields(&line);
    let at = random.between(1, fields.len() as u64) as usize;
    let field = if random.chance(50) { fields[at - 1].clone() } else { random.pick(&FIELDS).into() };
    fields.insert(at, field);
    joined(&fields, ended)
}

fn with_field_replaced(random: &mut Random, line: Vec<u8>) -> Vec<u8> {
    let (mut fields, ended) = fields(&line);
    if fields.len() > 1 {
        let at = random.between(1, fields.len() as u64 - 1) as usize;
        fields[at] = random.pick(&FIELDS).into();
    }
    joined(&fields, ended)
}

fn with_kind_replaced(random: &mut Random, line: Vec<u8>) -> Vec<u8> {
    let (mut fields, ended) = fields(&line);
    fields[0] = random.pick(&KINDS).into();
    joined(&fields, ended)
}

/// One field with a leading zero, a sign, a space, a further digit or two others changed.
fn with_field_changed(random: &mut Random, line: Vec<u8>) -> Vec<u8> {
    let (mut fields, ended) = fields(&line);
    let at = random.below(fields.len() as u64) as usize;
    let field = &mut fields[at];
    match random.below(6) {
        0 => field.insert(0, b'0'),
        1 => field.insert(0, b'+'),
        2 => field.insert(0, b'-'),
        3 => field.push(b' '),
        4 => field.push(b'0'),
        _ => field.reverse(),
    }
    joined(&fields, ended)
}

fn with_lower_case(line: Vec<u8>) -> Vec<u8> {
    let mut line = line;
    let end = line.len();
    line[1.min(end)..].make_ascii_lowercase();
    line
}

fn cut_short(random: &mut Random, mut line: Vec<u8>) -> Vec<u8> {
    let at = place(random, &line);
    line.truncate(at);
    line.push(b'\n');
    line
}

fn before_line_feed(mut line: Vec<u8>, bytes: &[u8]) -> Vec<u8> {
    let ended = line.pop() == Some(b'\n');
    line.extend_from_slice(bytes);
    if ended {
        line.push(b'\n');
    }
    line
}

fn cut_line_feed(mut line: Vec<u8>) -> Vec<u8> {
    line.pop();
    line
}

/// A line stretched to about the longest length, by one byte, over and over, before its line feed.
fn stretched(random: &mut Random, line: Vec<u8>) -> Vec<u8> {
    let length = random.pick(&[599, 600, 600, 601, 601, 602, 800]);
    let byte = random.pick(&[b'0', b'9', b'\t', b' ', b'F', 0xFF]);
    let missing = usize::saturating_sub(length, line.len());
    before_line_feed(line, &vec![byte; missing])
}

/// A line of a length around the longest, mostly filler.
pub fn long_line(random: &mut Random) -> Vec<u8> {
    let length = random.pick(&[599, 600, 600, 600, 601, 601, 601, 602, 1200, 1201, 5000, 70_000]);
    let start = random.pick(&["M\t1", "M\t1\t0\t1", "Z", "\t", "R\t0\t1\t0001\t1", "X\t1", "K\t0\t", "", "U\t1\t9"]);
    let mut line = start.as_bytes().to_vec();
    let byte = random.pick(&[b'0', b'5', b'\t', b'A', b'\r']);
    line.resize(length - 1, byte);
    line.push(b'\n');
    line
}

/// Any bytes at all.
pub fn any_bytes(random: &mut Random, length: u64) -> Vec<u8> {
    (0..length).map(|_| if random.chance(70) { random.next() as u8 } else { random.pick(&BYTES) }).collect()
}

/// Bytes of the lines' own alphabet.
pub fn any_text(random: &mut Random, length: u64) -> Vec<u8> {
    const TEXT: &[u8] = b"MQRAUDSCEVFBXGNK0123456789ABCDEF\t\t\t\t\t\t\n\n";
    (0..length).map(|_| random.pick(TEXT)).collect()
}
