//! A second reading of factors, from document 01's text alone, on the fields that crates/factor_vectors reads.
//! It makes the stdout that crate is held to:
//!     rustc --edition 2021 -O -o target/factor-vectors tests/factor/vectors.rs && target/factor-vectors > crates/factor_vectors/stdout
//! It doesn't read: "one digit, a point and exactly four digits" is the list of all that are so written, and a field is one of them or none.
#![allow(dead_code)]
#[path = "../second/filter.rs"]
mod filter;
#[path = "../second/line.rs"]
mod line;
#[path = "../second/vote.rs"]
mod vote;

use std::collections::HashMap;
use std::fmt::Write;

const MADE_OF: &[u8; 8] = b"019.4Aa\t";
const FORM: u8 = 5;
const RANGE: u8 = 6;

/// The field at a place, which a tab or the text's end ends.
fn field_at(text: &[u8], at: usize) -> &[u8] {
    text.get(at..).unwrap_or(&[]).split(|&b| b == b'\t').next().unwrap()
}

struct Factors {
    written: HashMap<Vec<u8>, u32>,
}

impl Factors {
    /// Each factor that can be written, "1.0047 .. held as 10047".
    fn new() -> Factors {
        let written = |n: u32| (format!("{}.{:04}", n / 10000, n % 10000).into_bytes(), n);
        Factors { written: (0..100_000).map(written).collect() }
    }

    /// What the field at a place is: its factor and the place of the next field, or its refusal.
    fn read(&self, text: &[u8], at: usize, low: u32, high: u32) -> Result<(u32, usize), u8> {
        let field = field_at(text, at);
        let n = *self.written.get(field).ok_or(FORM)?;
        if (low..=high).contains(&n) {
            Ok((n, at + field.len() + 1))
        } else {
            Err(RANGE)
        }
    }

    /// The answer in a station's range, which the second program's reader must give too.
    fn station(&self, text: &[u8], at: usize) -> Result<(u32, usize), u8> {
        let said = self.read(text, at, 9000, 11000);
        let field = field_at(text, at);
        assert_eq!(line::factor(field), said.map(|(n, _)| n), "the second program reads {field:?} otherwise");
        said
    }

    /// The answers in the widest range and in a station's.
    fn both(&self, text: &[u8], at: usize) -> String {
        [self.read(text, at, 0, u32::MAX), self.station(text, at)]
            .map(|said| match said {
                Ok((n, next)) => format!("\t{n} {next}"),
                Err(why) => format!("\t{why}"),
            })
            .concat()
    }

    /// A line on the field at its four places, where it is in form at any.
    fn shown(&self, field: &[u8]) -> Option<String> {
        let behind = [b"9\t", field].concat();
        let between = [b"9\t", field, b"\t4"].concat();
        let places = [(field, 0), (&between[2..], 0), (&behind[..], 2), (&between[..], 2)];
        if places.iter().all(|&(text, at)| self.station(text, at) == Err(FORM)) {
            return None;
        }
        let name = String::from_utf8_lossy(field).replace('\t', "_");
        Some(name + &places.map(|(text, at)| self.both(text, at)).concat() + "\n")
    }
}

fn main() {
    let factors = Factors::new();
    let mut out = String::new();
    for k in 0..=7 {
        let count = 8usize.pow(k);
        let field = |number: usize| (0..k).map(|i| MADE_OF[number / 8usize.pow(i) % 8]).collect::<Vec<u8>>();
        let lines: Vec<String> = (0..count).filter_map(|number| factors.shown(&field(number))).collect();
        out += &lines.concat();
        writeln!(out, "{k} bytes\t{count} fields\t{} shown", lines.len()).unwrap();
    }
    let text = b"1.0047";
    for at in 0..9 {
        writeln!(out, "{at}{}", factors.both(text, at)).unwrap();
    }
    let far = [18446744073709551610, usize::MAX].map(|at| factors.both(text, at)).concat();
    writeln!(out, "far{far}").unwrap();
    print!("{out}");
}
