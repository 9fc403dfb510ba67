//! Drawn exports with a day and serials: a good one first, then faults put into it, none or several.

use crate::random::Random;
use std::collections::BTreeSet;

/// An export by its lines, each with its line feed where it has one, and the words given to the program.
#[derive(Clone)]
pub struct Drawn {
    pub lines: Vec<Vec<u8>>,
    pub day: Option<Vec<u8>>,
    pub serials: Vec<Vec<u8>>,
}

impl Drawn {
    pub fn export(&self) -> Vec<u8> {
        self.lines.concat()
    }

    pub fn words(&self) -> Vec<Vec<u8>> {
        self.day.iter().chain(&self.serials).cloned().collect()
    }
}

/// Serials that begin alike, differ in case, are longest or shortest, or look like other fields.
#[rustfmt::skip]
const SERIALS: [&str; 24] = [
    "MTR-1", "MTR-2", "MTR-3", "MTR-10", "MTR-11", "MTR-", "MTR", "mtr-1", "Mtr-1", "MTR-1!", "!MTR-1", "M", "!", "~",
    "ABCDEFGHIJKLMNOP", "ABCDEFGHIJKLMNO", "ABCDEFGHIJKLMNOp", "BBCDEFGHIJKLMNOP", "1", "01", "20260801", "1.0000", "K",
    "~~~~~~~~~~~~~~~~",
];

const CERTIFICATES: [&str; 6] = ["C-101", "C-102", "!", "~", "QRSTUVWXYZabcdef", "1.0047"];

const FACTORS: [&str; 8] = ["0.9000", "0.9001", "0.9999", "1.0000", "1.0047", "1.0990", "1.0999", "1.1000"];

/// Dates around the turns of months and years, leap days, and the first and the last.
#[rustfmt::skip]
const DATES: [&str; 24] = [
    "20260731", "20260801", "20260802", "20251231", "20260101", "20240228", "20240229", "20240301", "20000229", "20000301",
    "19000228", "19000301", "16000229", "15821010", "00010101", "00010102", "00040229", "99991231", "99991230", "20230228",
    "20230301", "20260430", "21000228", "04000229",
];

/// Days that are none: not in form, or no date.
#[rustfmt::skip]
pub const BAD_DAYS: [&[u8]; 36] = [
    b"20230229", b"19000229", b"21000229", b"01000229", b"00000101", b"00000229", b"00000000", b"00001301", b"20260431",
    b"20260631", b"20260931", b"20261131", b"20260132", b"20260100", b"20260001", b"20261301", b"20249999", b"99999999",
    b"20240230", b"20001231x", b"", b"2", b"2026080", b"202608011", b"020260801", b"2026-8-1", b"20260 01", b"-2026080",
    b"+2026080", b"2026080a", b"2026080\x7F", b"2026080\xFF", b"\xEF\xBC\x92", b"20260801\r", b" 20260801", b"2026080:",
];

/// Fields that are worth putting in the place of another.
#[rustfmt::skip]
const FIELDS: [&[u8]; 30] = [
    b"", b"A B", b" ", b"\x7F", b"\xFF", b"\x20A", b"ABCDEFGHIJKLMNOPQ", b"ABCDEFGHIJKLMNOP", b"\0", b"MTR-1\0", b"\r",
    b"0.8999", b"1.1001", b"0.0000", b"9.9999", b"1.00", b"1.00470", b"1,0047", b"10047", b"01.004", b".0047", b"1.004a",
    b"1.004", b"-1.004", b"1.0047 ", b"1/0047", b"1.004:", b"K", b"20260801", b"1",
];

const BYTES: &[u8] = b"\r\0\t\n \xFF\x80\x7F!~09./:aA-\x0B\x01";

fn some_bytes(random: &mut Random) -> Vec<u8> {
    (0..random.between(1, 16)).map(|_| random.between(0x21, 0x7E) as u8).collect()
}

fn serial(random: &mut Random) -> Vec<u8> {
    if random.chance(80) {
        random.pick(&SERIALS).into()
    } else {
        some_bytes(random)
    }
}

fn certificate(random: &mut Random) -> Vec<u8> {
    if random.chance(70) {
        random.pick(&CERTIFICATES).into()
    } else {
        some_bytes(random)
    }
}

fn factor(random: &mut Random) -> Vec<u8> {
    if random.chance(50) {
        return random.pick(&FACTORS).into();
    }
    let factor = random.between(9000, 11000);
    format!("{}.{:04}", factor / 10000, factor % 10000).into_bytes()
}

/// A date; no month has fewer than 28 days.
fn date(random: &mut Random) -> Vec<u8> {
    if random.chance(50) {
        return random.pick(&DATES).into();
    }
    let years = random.pick(&[(2020, 2030), (1, 9999)]);
    let (year, month, day) = (random.between(years.0, years.1), random.between(1, 12), random.between(1, 28));
    format!("{year:04}{month:02}{day:02}").into_bytes()
}

fn line(serial: &[u8], day: &[u8], certificate: &[u8], factor: &[u8]) -> Vec<u8> {
    [serial, b"\t", day, b"\t", certificate, b"\t", factor, b"\n"].concat()
}

/// Good lines of which no two share a meter and a day. Where many are drawn some meters are of these alone.
fn good_lines(random: &mut Random, count: usize) -> Vec<Vec<u8>> {
    let (mut seen, mut lines) = (BTreeSet::new(), Vec::new());
    let own = random.between(1, 99);
    while lines.len() < count {
        let meter = if count > 40 && random.chance(80) {
            format!("L{own}-{}", lines.len()).into_bytes()
        } else {
            serial(random)
        };
        let day = date(random);
        if seen.insert((meter.clone(), day.clone())) {
            lines.push(line(&meter, &day, &certificate(random), &factor(random)));
        }
    }
    lines
}

fn field(line: &[u8], place: usize) -> Vec<u8> {
    line.split(|byte| *byte == b'\t').nth(place).unwrap_or(&[]).to_vec()
}

/// Serials of lines that are in force on the day, or, seldom, of any.
fn asked(random: &mut Random, lines: &[Vec<u8>], day: &[u8]) -> Vec<Vec<u8>> {
    let in_force: Vec<Vec<u8>> = lines.iter().filter(|l| field(l, 1)[..] <= *day).map(|l| field(l, 0)).collect();
    let count = random.pick(&[1, 1, 2, 2, 3, 4, 6, 15, 16, 16]);
    let one = |random: &mut Random| {
        if in_force.is_empty() || random.chance(1) {
            serial(random)
        } else {
            in_force[random.below(in_force.len() as u64) as usize].clone()
        }
    };
    (0..count).map(|_| one(random)).collect()
}

fn good(random: &mut Random) -> Drawn {
    let count = random.pick(&[0, 1, 1, 2, 3, 3, 5, 5, 8, 8, 12, 20, 40, 100, 511, 512]);
    let lines = good_lines(random, count);
    let day = if lines.is_empty() || random.chance(30) {
        date(random)
    } else {
        field(&lines[random.below(count as u64) as usize], 1)
    };
    let serials = asked(random, &lines, &day);
    Drawn { lines, day: Some(day), serials }
}

/// A place in the export: any line, the first or the last, or behind it.
fn place(random: &mut Random, drawn: &Drawn) -> usize {
    let count = drawn.lines.len();
    match random.below(4) {
        0 => 0,
        1 => count,
        _ => random.below(count as u64 + 1) as usize,
    }
}

/// More than 512 lines, by good ones or by blank ones, or just as many.
fn fill(random: &mut Random, drawn: &mut Drawn) {
    let count = random.pick(&[512, 513, 513, 513, 514, 700]);
    let missing = usize::saturating_sub(count, drawn.lines.len());
    let more = if random.chance(80) { good_lines(random, missing) } else { vec![b"\n".to_vec(); missing] };
    let at = if random.chance(50) { 0 } else { drawn.lines.len() };
    drawn.lines.splice(at..at, more);
    if random.chance(30) {
        drawn.lines.push(b"MTR-1\t2026".to_vec());
    }
}

/// A line of 599 to 601 bytes, by a long field or many, with or without its line feed.
fn long_line(random: &mut Random) -> Vec<u8> {
    let mut line = line(&serial(random), &date(random), &certificate(random), &factor(random));
    line.pop();
    let length = random.pick(&[599, 600, 600, 601, 601, 602, 2000]);
    let at = random.pick(&[0, line.len(), line.iter().position(|b| *b == b'\t').unwrap_or(0)]);
    let filler = vec![random.pick(b"A0\t "); length - 1 - line.len()];
    line.splice(at..at, filler);
    line.push(if random.chance(80) { b'\n' } else { b'x' });
    line
}

fn put_long_line(random: &mut Random, drawn: &mut Drawn) {
    let at = place(random, drawn);
    drawn.lines.insert(at, long_line(random));
}

fn with_field(random: &mut Random, line: &[u8], field: &[u8]) -> Vec<u8> {
    let body = line.strip_suffix(b"\n").unwrap_or(line);
    let mut fields: Vec<&[u8]> = body.split(|byte| *byte == b'\t').collect();
    let at = random.below(fields.len() as u64) as usize;
    match random.below(8) {
        0 => fields.insert(at, field),
        1 => drop(fields.remove(at)),
        _ => fields[at] = field,
    }
    [&fields.join(&b'\t'), &b"\n"[..]].concat()
}

/// A line with a fault, or with what may be none.
fn damaged(random: &mut Random, mut line: Vec<u8>) -> Vec<u8> {
    let at = random.below(line.len().max(1) as u64) as usize;
    let byte = random.pick(BYTES);
    match random.below(12) {
        0 if at < line.len() => line[at] = byte,
        1 if at < line.len() => drop(line.remove(at)),
        2 => line.insert(at, byte),
        3 => drop(line.pop()),
        4 => line.insert(line.len().saturating_sub(1), b'\r'),
        5 => line = b"\n".to_vec(),
        6 => line.push(b'\n'),
        7 => line.truncate(at),
        8 | 9 => line = with_field(random, &line, random_day(at)),
        _ => {
            let field = random.pick(&FIELDS);
            line = with_field(random, &line, field);
        }
    }
    line
}

fn random_day(at: usize) -> &'static [u8] {
    BAD_DAYS[at % BAD_DAYS.len()]
}

fn damage_line(random: &mut Random, drawn: &mut Drawn) {
    if drawn.lines.is_empty() {
        drawn.lines = good_lines(random, 1);
    }
    let at = place(random, drawn).min(drawn.lines.len() - 1);
    let line = std::mem::take(&mut drawn.lines[at]);
    drawn.lines[at] = damaged(random, line);
}

/// A line whose day is no date.
fn damage_date(random: &mut Random, drawn: &mut Drawn) {
    let day = random.pick(&BAD_DAYS);
    let line = line(&serial(random), day, &certificate(random), &factor(random));
    let at = place(random, drawn);
    drawn.lines.insert(at, line);
}

fn damage_day(random: &mut Random, drawn: &mut Drawn) {
    drawn.day = match random.below(12) {
        0 => Some(vec![b'2'; random.pick(&[9, 16, 17, 64, 600, 5000])]),
        1 => {
            drawn.serials.clear();
            None
        }
        _ => Some(random.pick(&BAD_DAYS).to_vec()),
    };
}

fn damage_count(random: &mut Random, drawn: &mut Drawn) {
    let count = random.pick(&[0, 0, 17, 17, 18, 40]);
    let one = drawn.serials.first().cloned().unwrap_or(b"MTR-1".to_vec());
    drawn.serials.resize(count, one);
}

fn damage_serial(random: &mut Random, drawn: &mut Drawn) {
    let bad: [&[u8]; 12] = [
        b"",
        b" ",
        b"A B",
        b"MTR-1 ",
        b"MTR-1\t",
        b"MTR-1\n",
        b"\x7F",
        b"\xFFMTR",
        b"MTR-\x80",
        b"ABCDEFGHIJKLMNOPQ",
        &[b'A'; 32],
        &[b'A'; 5000],
    ];
    let at = random.below(drawn.serials.len() as u64 + 1) as usize;
    let serial = random.pick(&bad).to_vec();
    if at < drawn.serials.len() {
        drawn.serials[at] = serial;
    } else if drawn.serials.len() < 16 {
        drawn.serials.push(serial);
    }
}

/// A meter and a day a second time, of any line, or twice of a meter that is not asked for; the certificate may be another.
fn repeat(random: &mut Random, drawn: &mut Drawn) {
    if drawn.lines.is_empty() || random.chance(20) {
        let (meter, day) = (b"NOT-ASKED-FOR".to_vec(), date(random));
        drawn.lines.push(line(&meter, &day, &certificate(random), &factor(random)));
    }
    let from = drawn.lines[random.below(drawn.lines.len() as u64) as usize].clone();
    let again = match random.below(2) {
        0 => from,
        _ => line(&field(&from, 0), &field(&from, 1), &certificate(random), &factor(random)),
    };
    let at = place(random, drawn);
    drawn.lines.insert(at, again);
}

/// A serial that may have none in force, or a day before most.
fn unknown(random: &mut Random, drawn: &mut Drawn) {
    if random.chance(30) {
        drawn.day = Some(random.pick(&["00010101", "20000101", "20240229"]).into());
    } else if drawn.serials.len() < 16 {
        let at = random.below(drawn.serials.len() as u64 + 1) as usize;
        drawn.serials.insert(at, serial(random));
    }
}

type Fault = fn(&mut Random, &mut Drawn);

/// The faults; damaged lines come in more ways than others.
const FAULTS: [(u64, Fault); 9] = [
    (6, fill),
    (8, put_long_line),
    (20, damage_line),
    (8, damage_date),
    (9, damage_day),
    (8, damage_count),
    (8, damage_serial),
    (16, repeat),
    (12, unknown),
];

fn with_faults(random: &mut Random, mut drawn: Drawn) -> Drawn {
    for _ in 0..random.weighted(&[34, 40, 14, 8, 4]) {
        let weights: Vec<u64> = FAULTS.iter().map(|(weight, _)| *weight).collect();
        let (_, fault) = FAULTS[random.weighted(&weights)];
        fault(random, &mut drawn);
    }
    drawn
}

/// The bytes that a program needs to keep: 512 lines of 600 bytes, and one more.
pub const KEPT: usize = 307_201;

/// An export of more bytes than are kept, or just as many: a line that reaches there, good ones before it, and lines behind it
/// up to 512 in all, or past that.
fn large(random: &mut Random) -> Drawn {
    let before = random.pick(&[0, 1, 7, 100, 510, 511, 512]);
    let mut lines = good_lines(random, before);
    let size = lines.concat().len();
    let end = random.pick(&[KEPT - 2, KEPT - 1, KEPT, KEPT + 1, KEPT + 2, 350_000, 700_000]);
    let mut long = vec![random.pick(b"A\t0"); end - size - 1];
    long.push(if random.chance(70) { b'\n' } else { b'x' });
    lines.push(long);
    let after = random.pick(&[0, 0, 1, 511 - before.min(511), 512 - before, 600]);
    lines.extend(good_lines(random, after));
    let day = date(random);
    let serials = asked(random, &lines[..before], &day);
    Drawn { lines, day: Some(day), serials }
}

/// Many lines, long ones or blank ones.
fn crowd(random: &mut Random) -> Drawn {
    let (count, length) =
        random.pick(&[(512, 600), (513, 600), (511, 602), (1000, 599), (310_000, 1), (512, 1), (513, 1)]);
    let mut line = vec![random.pick(b"A\t"); length - 1];
    line.push(b'\n');
    let mut lines = vec![line; count];
    if random.chance(30) {
        let last = lines.len() - 1;
        lines[last].pop();
    }
    Drawn { lines, day: Some(date(random)), serials: vec![serial(random)] }
}

/// Any bytes of the export's own alphabet, or any at all.
fn any_bytes(random: &mut Random) -> Drawn {
    let length = random.between(1, 200);
    let text = random.chance(60);
    let byte = |random: &mut Random| if text { random.pick(b"MTR-120260801.\t\t\t\n") } else { random.next() as u8 };
    let export: Vec<u8> = (0..length).map(|_| byte(random)).collect();
    Drawn { lines: vec![export], day: Some(date(random)), serials: vec![serial(random)] }
}

pub fn drawn(seed: u64, number: u64) -> Drawn {
    let mut random = Random::new(seed, number);
    let drawn = match random.weighted(&[90, 5, 2, 3]) {
        0 => good(&mut random),
        1 => large(&mut random),
        2 => crowd(&mut random),
        _ => any_bytes(&mut random),
    };
    with_faults(&mut random, drawn)
}
