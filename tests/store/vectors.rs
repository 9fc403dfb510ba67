//! Exports, days, serials as values and lent buffers, and what document 02's request 1 makes of each: the list that
//! crates/store_vectors reads, and the answers that it is held to. The judging is the second program's (tests/second/store.rs).
//!     rustc --edition 2021 -O -o target/tests/store-vectors tests/store/vectors.rs
//! `store-vectors stdin` prints the list, `store-vectors stdout` the answers.
//!
//! A case is a header `EEEEE DD MM BBB` and a line feed (how many bytes the export has, the day has, how many serials are given, how
//! long the buffer is), the export, the day, and sixteen serials: two digits for the length and sixteen bytes. Its answer is the
//! number, how many bytes are K lines, the place, a line feed, then the whole buffer, which held `~`, and a line feed.
#![allow(dead_code)]
#[path = "../second/filter.rs"]
mod filter;
#[path = "../second/line.rs"]
mod line;
#[path = "../second/store.rs"]
mod store;
#[path = "../second/vote.rs"]
mod vote;
#[path = "../second/wrong.rs"]
mod wrong;

use std::collections::BTreeSet;
use std::io::Write;
use store::{stored, Serial};

const EXPORT: &str = "MTR-1 20240110 C-099 1.0031\nMTR-1 20260801 C-101 1.0047\nMTR-2 20250615 C-102 1.0000\n";

/// The length of the K lines for that export, and of the longest K lines that there are.
const TWO: usize = 38;
const LONGEST: usize = 486;

/// The most bytes of the whole list.
const LIST: usize = 60_000;

#[derive(Clone)]
struct Case {
    export: Vec<u8>,
    day: Vec<u8>,
    serials: [Serial; 16],
    m: usize,
    room: usize,
}

impl Case {
    fn input(&self) -> Vec<u8> {
        let lengths = (self.export.len(), self.day.len(), self.m, self.room);
        assert!(lengths.0 <= 99_999 && lengths.1 <= 99 && lengths.2 <= 99 && lengths.3 <= 999);
        let header = format!("{:05} {:02} {:02} {:03}\n", lengths.0, lengths.1, lengths.2, lengths.3);
        let mut input = [header.as_bytes(), &self.export, &self.day].concat();
        for (length, bytes) in &self.serials {
            input.extend(format!("{length:02}").as_bytes());
            input.extend(bytes);
        }
        input
    }

    /// The number and the place, and the answer's text.
    fn answer(&self) -> (u8, String, Vec<u8>) {
        let mut buffer = vec![b'~'; self.room];
        let (number, place, len) = stored(&self.export, &self.day, &self.serials, self.m, &mut buffer);
        let mut text = format!("{number} {len} {place}\n").into_bytes();
        text.extend(&buffer);
        text.push(b'\n');
        (number, place.to_string(), text)
    }
}

fn tabbed(text: &str) -> Vec<u8> {
    text.replace(' ', "\t").into_bytes()
}

fn serial(text: &str) -> Serial {
    let mut bytes = [0; 16];
    bytes[..text.len()].copy_from_slice(text.as_bytes());
    (text.len(), bytes)
}

/// The list: each case is a good one with something changed.
#[derive(Default)]
struct List {
    cases: Vec<Case>,
}

impl List {
    /// A case made of two serials that have a certificate in force; a place that is not given holds nothing of use.
    fn add(&mut self, change: impl FnOnce(&mut Case)) {
        let mut serials = [(0, [0; 16]), (99, [b'X'; 16]), (5, [0xFF; 16]), (17, [0; 16])].repeat(4);
        serials[0] = serial("MTR-1");
        serials[1] = serial("MTR-2");
        let serials = serials.try_into().expect("sixteen");
        let mut case = Case { export: tabbed(EXPORT), day: b"20260801".to_vec(), serials, m: 2, room: 60 };
        change(&mut case);
        self.cases.push(case);
    }

    /// More lines behind the good ones.
    fn lines(&mut self, more: &str) {
        self.add(|case| case.export.extend(tabbed(more)));
    }

    /// These serials and no more.
    fn asked(&mut self, export: &str, day: &str, serials: &[&str]) {
        self.add(|case| {
            case.export = tabbed(export);
            case.day = day.into();
            case.m = serials.len();
            serials.iter().enumerate().for_each(|(run, text)| case.serials[run] = serial(text));
        });
    }
}

/// The examples, the buffers around what is needed, and the numbers of serials.
fn examples(list: &mut List) {
    for room in [0, 19, TWO - 1, TWO, TWO + 1, 600] {
        list.add(|case| case.room = room);
    }
    list.add(|case| case.day = b"20250101".to_vec());
    list.add(|case| case.day = b"20230229".to_vec());
    list.lines("MTR-1 20240110 C-099 1.0031\n");
    list.add(|case| case.export = b"\n".repeat(513));
    for m in [0, 1, 3, 17, 99] {
        list.add(|case| case.m = m);
    }
    let names: Vec<String> = (0..16).map(|run| format!("{run:016}")).collect();
    let export: String = names.iter().rev().map(|name| format!("{name} 99991231 {name} 1.1000\n")).collect();
    for room in [LONGEST - 1, LONGEST] {
        list.add(|case| {
            (case.export, case.day) = (tabbed(&export), b"99991231".to_vec());
            names.iter().enumerate().for_each(|(run, name)| case.serials[run] = serial(name));
            (case.m, case.room) = (16, room);
        });
    }
}

/// Serials as values: lengths, bytes at the ends of their range, bytes past the length.
fn serials(list: &mut List) {
    let meter = serial("MTR-1").1;
    for bad in [(0, [0; 16]), (0, meter), (17, [b'A'; 16]), (99, [b'A'; 16]), (4, meter), (6, meter)] {
        list.add(|case| case.serials[1] = bad);
    }
    for byte in [0x21, 0x7E] {
        list.add(|case| case.serials[0] = (16, [byte; 16]));
    }
    for (place, byte) in [(0, 0x20), (4, 0x7F)] {
        list.add(|case| case.serials[0].1[place] = byte);
    }
    for given in [&["MTR-2", "MTR-1", "MTR-2"][..], &["MTR-1", "mtr-1"], &["MTR-"]] {
        list.asked(EXPORT, "20260801", given);
    }
}

/// Lines, each with its first refusal: alone, and before the one that would come next.
fn lines(list: &mut List) {
    let long = |bytes: usize| "A".repeat(bytes - 22) + " 20260801 C-1 1.0000xx";
    for more in [long(599) + "\n", long(600) + "\n", long(601)] {
        list.lines(&more);
    }
    #[rustfmt::skip]
    let pieces = [
        "\n", "MTR-3", "MTR-3 20250615 C-1 1.0000", "\u{7F} 20250615 C-1\n", "MTR-3 20250615 C-1 1.0000 \n",
        " 20250631 C-1 1.0000\n", "ABCDEFGHIJKLMNOPQ 20250615 C-1 1.0000\n",
        "MTR-3 2025061x C-1 1.1001\n", "MTR-3 20250631 \u{7F} 1.0000\n", "MTR-3 20250615  1.1001\n",
        "MTR-3 20250615 C-1 1.00\n", "MTR-3 20250615 C-1 1.0000\r\n", "MTR-3 20250615 C-1 0.8999\n",
        "MTR-3 20250615 C-1 1.1001\n\n", "\nMTR-3 20250615 C-1 1.1001\n",
    ];
    for more in pieces {
        list.lines(more);
    }
}

/// Dates and what is none, in a line and as the given day.
fn days(list: &mut List) {
    let line = |day: &str| format!("A {day} C-1 0.9000\n");
    for day in ["20000229", "00010101", "19000229", "00000101", "20260431"] {
        list.asked(&line(day), "99991231", &["A"]);
        list.asked(&line("00010101"), day, &["A"]);
    }
    for day in ["", "2026080", "202608010", "2026080:", &"2".repeat(99)] {
        list.add(|case| case.day = day.into());
    }
}

/// Which certificate is the newest, and which two share a day.
fn choices(list: &mut List) {
    list.asked("", "20260801", &["A"]);
    let export = "A 20240301 C-2 1.0002\nB 20240301 C-5 1.0005\nA 20240302 C-3 1.0003\nA 20240229 C-1 1.0001\n";
    for day in ["20240228", "20240301", "20240302"] {
        list.asked(export, day, &["A"]);
    }
    for again in ["A 20240302 C-4 1.0004\n", "B 20240301 C-5 1.0005\nA 20240229 C-1 1.0001\n"] {
        list.asked(&(export.to_string() + again), "20240301", &["A"]);
    }
    let many: String = (0..512).map(|line| format!("{line} 2026080{} C 1.0000\n", 1 + line % 9)).collect();
    list.asked(&many, "20260809", &["0", "511"]);
}

/// Two refusals at once that follow each other, and all from one on.
fn orders(list: &mut List) {
    type Fault = fn(&mut Case);
    let faults: [Fault; 8] = [
        |case| case.export.extend(b"\n".repeat(513)),
        |case| case.export.extend(b"MTR-2\t20250615\tC-102\n"),
        |case| case.day = b"20260832".to_vec(),
        |case| case.m = 17,
        |case| case.serials[1].1[15] = b'A',
        |case| case.export.extend(tabbed("MTR-2 20250615 C-102 1.0000\n")),
        |case| case.serials[0] = serial("MTR-0"),
        |case| case.room = 7,
    ];
    for pair in faults.windows(2) {
        list.add(|case| pair.iter().rev().for_each(|fault| fault(case)));
    }
    for all in [0, 2, 4] {
        list.add(|case| faults[all..].iter().rev().for_each(|fault| fault(case)));
    }
}

fn list() -> List {
    let mut list = List::default();
    examples(&mut list);
    serials(&mut list);
    lines(&mut list);
    days(&mut list);
    choices(&mut list);
    orders(&mut list);
    list
}

/// That every number and every kind of place is there.
fn check(list: &List) {
    let answers: Vec<_> = list.cases.iter().map(Case::answer).collect();
    let numbers: BTreeSet<u8> = answers.iter().map(|(number, _, _)| *number).collect();
    assert!(numbers.into_iter().eq([0, 1, 2, 4, 5, 6, 16, 17, 18, 19]));
    for place in ["nowhere", "line", "day", "serials", "run"] {
        assert!(answers.iter().any(|(_, told, _)| told.starts_with(place)), "{place}");
    }
    assert!(list.cases.iter().map(|case| case.input().len()).sum::<usize>() <= LIST);
}

fn main() -> std::io::Result<()> {
    let list = list();
    let mut words = std::env::args().skip(1);
    let what = words.next().unwrap_or_default();
    #[cfg(wrong)]
    words.next().iter().for_each(|name| wrong::choose(name));
    #[cfg(not(wrong))]
    check(&list);
    let text: Vec<Vec<u8>> = match &what[..] {
        "stdin" => list.cases.iter().map(Case::input).collect(),
        "stdout" => list.cases.iter().map(|case| case.answer().2).collect(),
        _ => {
            eprintln!("store-vectors stdin|stdout");
            std::process::exit(2)
        }
    };
    std::io::stdout().write_all(&text.concat())
}
