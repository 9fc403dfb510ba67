//! The store of document 02, request 1: from an export of certificates, a day and the serials of the meters in run order,
//! the K lines of the settings. Written from that request alone.

use crate::line::{certificate, factor, FIELDS, FORM, LINE, LONG, RANGE, RUNS, UNENDED};
use crate::wrong;
use std::collections::BTreeMap;
use std::fmt;

pub const ROOM: u8 = 16;
pub const SAME_DAY: u8 = 17;
pub const NONE_IN_FORCE: u8 = 18;
pub const FULL: u8 = 19;

/// The most lines of an export.
const LINES: usize = 512;

/// Where a refusal found its fault. Lines are counted from 1, runs from 0.
#[derive(Clone, Copy, PartialEq, Debug)]
pub enum Place {
    Nowhere,
    Line(usize),
    Day,
    Serials,
    Run(usize),
}

impl fmt::Display for Place {
    fn fmt(&self, f: &mut fmt::Formatter) -> fmt::Result {
        match self {
            Place::Nowhere => write!(f, "nowhere"),
            Place::Line(line) => write!(f, "line {line}"),
            Place::Day => write!(f, "day"),
            Place::Serials => write!(f, "serials"),
            Place::Run(run) => write!(f, "run {run}"),
        }
    }
}

/// The number of a refusal, and where.
pub type Refusal = (u8, Place);

/// A serial handed over as a value: how many bytes it has, and sixteen places for them.
pub type Serial = (usize, [u8; 16]);

/// A date of the Gregorian calendar; dates are ordered as they come.
#[derive(Clone, Copy, PartialEq, Eq, PartialOrd, Ord)]
struct Date {
    year: u32,
    month: u32,
    day: u32,
}

/// A certificate of the export, with the number of its line.
struct Certificate<'a> {
    line: usize,
    serial: &'a [u8],
    date: Date,
    name: &'a [u8],
    factor: u32,
}

/// The certificates of one meter by their dates.
type Dates<'a> = BTreeMap<Date, &'a Certificate<'a>>;

fn is_leap(year: u32) -> bool {
    let century = year % 100 == 0 && !wrong::is("leap-1900");
    year % if century { 400 } else { 4 } == 0
}

/// How many days each month of a year has.
fn months(year: u32) -> [u32; 12] {
    [31, if is_leap(year) { 29 } else { 28 }, 31, 30, 31, 30, 31, 31, 30, 31, 30, 31]
}

/// Reads YYYYMMDD: not eight digits is 5, no such date or the year 0000 is 6.
fn date(field: &[u8]) -> Result<Date, u8> {
    if field.len() != 8 || !field.iter().all(u8::is_ascii_digit) {
        return Err(FORM);
    }
    let number = |digits: &[u8]| digits.iter().fold(0, |value, digit| 10 * value + u32::from(digit - b'0'));
    let date = Date { year: number(&field[..4]), month: number(&field[4..6]), day: number(&field[6..]) };
    let lengths = months(date.year);
    let length = (date.month as usize).checked_sub(1).and_then(|month| lengths.get(month));
    match length {
        Some(length) if date.year > 0 && (1..=*length).contains(&date.day) => Ok(date),
        _ => Err(RANGE),
    }
}

/// Reads a line of the export: 1, 2 and 4, then field by field 5 and 6.
fn read_line(number: usize, line: &[u8]) -> Result<Certificate<'_>, u8> {
    if line.len() > LINE {
        return Err(LONG);
    }
    let body = line.strip_suffix(b"\n").ok_or(UNENDED)?;
    let fields: Vec<&[u8]> = body.split(|byte| *byte == b'\t').collect();
    let [serial, day, name, last] = fields[..] else {
        return Err(FIELDS);
    };
    certificate(serial)?;
    let date = date(day)?;
    certificate(name)?;
    Ok(Certificate { line: number, serial, date, name, factor: factor(last)? })
}

fn must(holds: bool, refusal: Refusal) -> Result<(), Refusal> {
    if holds {
        Ok(())
    } else {
        Err(refusal)
    }
}

/// More than 512 lines, else the first bad line from the top, else the certificates.
fn read_export(export: &[u8]) -> Result<Vec<Certificate<'_>>, Refusal> {
    let lines: Vec<&[u8]> = export.split_inclusive(|byte| *byte == b'\n').collect();
    let few = must(lines.len() <= LINES, (FULL, Place::Nowhere));
    let read = (1..).zip(lines).map(|(number, line)| {
        let line = read_line(number, line);
        line.map_err(|refusal| (refusal, Place::Line(number)))
    });
    let read = read.collect::<Result<Vec<_>, Refusal>>();
    if wrong::is("full-late") {
        return read.and_then(|certificates| few.map(|()| certificates));
    }
    few.and(read)
}

/// The certificates by meter; 17 at the first line whose meter and day stood in an earlier one.
fn by_meter<'a>(certificates: &'a [Certificate<'a>]) -> Result<BTreeMap<&'a [u8], Dates<'a>>, Refusal> {
    let mut meters: BTreeMap<&[u8], Dates> = BTreeMap::new();
    for certificate in certificates {
        let before = meters.entry(certificate.serial).or_default().insert(certificate.date, certificate);
        must(before.is_none(), (SAME_DAY, Place::Line(certificate.line)))?;
    }
    Ok(meters)
}

/// The newest certificate of a meter that is not after a day.
fn newest<'a>(dates: &Dates<'a>, day: Date) -> Option<&'a Certificate<'a>> {
    if wrong::is("after-the-day") {
        return dates.values().next_back().copied();
    }
    let mut in_force = dates.range(..=day).map(|(_, certificate)| *certificate);
    if wrong::is("last-line") {
        return in_force.max_by_key(|certificate| certificate.line);
    }
    in_force.next_back()
}

/// Judges the day, the number of serials, then the serials.
fn judge(day: &[u8], count: usize, serials: &[&[u8]]) -> Result<Date, Refusal> {
    let day = date(day).map_err(|refusal| (refusal, Place::Day))?;
    must((1..=RUNS).contains(&count), (RANGE, Place::Serials))?;
    for (run, serial) in serials.iter().enumerate() {
        certificate(serial).map_err(|refusal| (refusal, Place::Run(run)))?;
    }
    Ok(day)
}

fn k_line(run: usize, certificate: &Certificate) -> Vec<u8> {
    let (whole, parts) = (certificate.factor / 10000, certificate.factor % 10000);
    let (start, end) = (format!("K\t{run}\t"), format!("\t{whole}.{parts:04}\t1\n"));
    [start.as_bytes(), certificate.name, end.as_bytes()].concat()
}

/// The K lines for a day and the serials in run order, or the refusal. `count` is how many serials were given.
pub fn k_lines(export: &[u8], day: &[u8], count: usize, serials: &[&[u8]]) -> Result<Vec<Vec<u8>>, Refusal> {
    let mut certificates = read_export(export)?;
    let day = judge(day, count, serials)?;
    if wrong::is("asked-meters") {
        certificates.retain(|certificate| serials.contains(&certificate.serial));
    }
    let meters = by_meter(&certificates)?;
    let found = serials.iter().enumerate().map(|(run, serial)| {
        let newest = meters.get(serial).and_then(|dates| newest(dates, day));
        newest.ok_or((NONE_IN_FORCE, Place::Run(run)))
    });
    let mut found = found.collect::<Result<Vec<_>, Refusal>>()?;
    if wrong::is("export-order") {
        found.sort_by_key(|certificate| certificate.line);
    }
    Ok(found.into_iter().enumerate().map(|(run, certificate)| k_line(run, certificate)).collect())
}

/// The bytes of a serial handed over as a value; none where it is not the one spelling of any.
fn serial_bytes((length, bytes): &Serial) -> &[u8] {
    match bytes.split_at_checked(*length) {
        Some((serial, rest)) if rest.iter().all(|byte| *byte == 0) => serial,
        _ => &[],
    }
}

/// The library's call: the number (0 where it is done), the place, and how many bytes of the buffer are K lines. On a
/// refusal the buffer keeps what it held, and past the K lines too. Serials at `m` and above are not looked at.
pub fn stored(export: &[u8], day: &[u8], serials: &[Serial; 16], m: usize, buffer: &mut [u8]) -> (u8, Place, usize) {
    let given: Vec<&[u8]> = serials.iter().take(m).map(serial_bytes).collect();
    let lines = match k_lines(export, day, m, &given) {
        Ok(lines) => lines,
        Err((number, place)) => return (number, place, 0),
    };
    let text = lines.concat();
    if let Some(room) = buffer.get_mut(..text.len()) {
        room.copy_from_slice(&text);
        return (0, Place::Nowhere, text.len());
    }
    if wrong::is("half-lines") {
        let half = lines[..lines.len() / 2].concat();
        buffer.iter_mut().zip(half).for_each(|(byte, new)| *byte = new);
    }
    (ROOM, Place::Nowhere, 0)
}
