//! The examples of document 02's request 1, the calendar, the order of refusals, and the lent buffer.

use crate::certificates::answer;
use crate::selftest::{tabbed, Tally};
use crate::store::{stored, Place, Serial, FULL, NONE_IN_FORCE, ROOM, SAME_DAY};

const EXPORT: &str = "MTR-1 20240110 C-099 1.0031\nMTR-1 20260801 C-101 1.0047\nMTR-2 20250615 C-102 1.0000\n";

/// More lines, the words, and what is written for them behind that export: standard output, then standard error.
#[rustfmt::skip]
const ANSWERS: [(&str, &str, &str, &str); 45] = [
    ("", "20260801 MTR-1 MTR-2", "K 0 C-101 1.0047 1\nK 1 C-102 1.0000 1\n", ""),
    ("", "20260731 MTR-1 MTR-2", "K 0 C-099 1.0031 1\nK 1 C-102 1.0000 1\n", ""),
    ("", "99991231 MTR-2 MTR-1 MTR-2", "K 0 C-102 1.0000 1\nK 1 C-101 1.0047 1\nK 2 C-102 1.0000 1\n", ""),
    ("", "20250101 MTR-1 MTR-2", "X 18\n", "run 1\n"),
    ("", "20240109 MTR-2 MTR-1", "X 18\n", "run 0\n"),
    ("", "20230229 MTR-1 MTR-2", "X 6\n", "day\n"),
    ("", "20260801", "X 6\n", "serials\n"),
    ("", "", "X 5\n", "day\n"),
    ("", "2026-801 MTR-1", "X 5\n", "day\n"),
    ("", "2026080 MTR-1", "X 5\n", "day\n"),
    ("", "202608011 MTR-1", "X 5\n", "day\n"),
    ("", "20260801 mtr-1", "X 18\n", "run 0\n"),
    ("", "20260801 MTR-1 MTR-", "X 18\n", "run 1\n"),
    ("", "20260801 MTR-1 MTR-11", "X 18\n", "run 1\n"),
    ("", "20260801 MTR-1 ", "X 5\n", "run 1\n"),
    ("", "20260801 MTR-1 \u{7F}", "X 5\n", "run 1\n"),
    ("", "20260801 ABCDEFGHIJKLMNOP", "X 18\n", "run 0\n"),
    ("", "20260801 ABCDEFGHIJKLMNOPQ", "X 5\n", "run 0\n"),
    ("", "20260801 A B C D E F G H I J K L M N O P", "X 18\n", "run 0\n"),
    ("", "20260801 A B C D E F G H I J K L M N O P Q", "X 6\n", "serials\n"),
    // lines of other meters, and two certificates that share a day
    ("MTR-3 20250615 ! 0.9000\n~ 20250615 ~ 1.1000\n", "20260801 ~ MTR-3", "K 0 ~ 1.1000 1\nK 1 ! 0.9000 1\n", ""),
    ("mtr-1 20260801 C-1 1.0000\nMTR-11 20260801 C-1 1.0000\n", "20260801 MTR-1", "K 0 C-101 1.0047 1\n", ""),
    ("MTR-1 20250101 C-1 1.0000\n", "20260801 MTR-1", "K 0 C-101 1.0047 1\n", ""),
    ("MTR-1 20260802 C-1 1.0000\n", "20260801 MTR-1", "K 0 C-101 1.0047 1\n", ""),
    ("MTR-1 20240110 C-099 1.0031\n", "20260801 MTR-1", "X 17\n", "line 4\n"),
    ("MTR-2 20250615 C-103 1.0001\nMTR-1 20240110 C-099 1.0031\n", "20260801 MTR-1", "X 17\n", "line 4\n"),
    ("A 20300101 C-1 1.0000\nB 20300101 C-1 1.0000\nA 20300101 C-2 1.0000\n", "20260801 MTR-1", "X 17\n", "line 6\n"),
    // bad lines, each with the first refusal that it has
    ("\n", "20260801 MTR-1", "X 4\n", "line 4\n"),
    ("MTR-3 20250615 C-1 1.0000", "20260801 MTR-1", "X 2\n", "line 4\n"),
    ("MTR-3", "20260801 MTR-1", "X 2\n", "line 4\n"),
    ("MTR-3 20250615 C-1\n", "20260801 MTR-1", "X 4\n", "line 4\n"),
    ("MTR-3 20250615 C-1 1.0000 \n", "20260801 MTR-1", "X 4\n", "line 4\n"),
    ("\u{7F} 20250615 C-1\n", "20260801 MTR-1", "X 4\n", "line 4\n"),
    (" 20250631 C-1 1.0000\n", "20260801 MTR-1", "X 5\n", "line 4\n"),
    ("MTR-3  C-1 1.0000\n", "20260801 MTR-1", "X 5\n", "line 4\n"),
    ("MTR-3 20250631  1.0000\n", "20260801 MTR-1", "X 6\n", "line 4\n"),
    ("MTR-3 2025063x C-1 1.2000\n", "20260801 MTR-1", "X 5\n", "line 4\n"),
    ("MTR-3 20250615 ABCDEFGHIJKLMNOPQ 1.2000\n", "20260801 MTR-1", "X 5\n", "line 4\n"),
    ("MTR-3 20250615 C-1 1.00\n", "20260801 MTR-1", "X 5\n", "line 4\n"),
    ("MTR-3 20250615 C-1 1.0000\r\n", "20260801 MTR-1", "X 5\n", "line 4\n"),
    ("MTR-3 20250615 C-1 1.1001\n", "20260801 MTR-1", "X 6\n", "line 4\n"),
    ("MTR-3 20250615 C-1 0.8999\n", "20260801 MTR-1", "X 6\n", "line 4\n"),
    ("MTR-3 20250615 C-1 1.1001\n\n", "20260801 MTR-1", "X 6\n", "line 4\n"),
    ("\nMTR-3 20250615 C-1 1.1001\n", "20260801 MTR-1", "X 4\n", "line 4\n"),
    ("MTR-1 20240110 C-099 1.0031\n\n", "20260801 MTR-1", "X 4\n", "line 5\n"),
];

/// Whether an export with these words is answered so.
fn answered(export: &[u8], words: &str, output: &str, place: &str) -> bool {
    let words: Vec<&[u8]> = words.split(' ').map(str::as_bytes).collect();
    let given = answer(export, &words);
    let holds = given == (tabbed(output), place.to_string());
    if !holds {
        println!("{}{}", String::from_utf8_lossy(&given.0), given.1);
    }
    holds
}

fn check_answers(tally: &mut Tally) {
    for (number, (lines, words, output, place)) in ANSWERS.iter().enumerate() {
        let export = tabbed(&(EXPORT.to_string() + lines));
        tally.check(&format!("export {number}"), answered(&export, words, output, place));
    }
    tally.check("no line", answered(b"", "20260801 MTR-1", "X 18\n", "run 0\n"));
    tally.check("no word", answer(b"", &[]) == (b"X\t5\n".to_vec(), "day\n".to_string()));
}

/// So many good lines, no two alike.
fn lines(count: usize) -> String {
    (0..count).map(|line| format!("A-{line} 20260801 C-1 1.0000\n")).collect()
}

/// 511 to 513 lines, an unended piece among them, and lines of 600 and 601 bytes.
fn check_limits(tally: &mut Tally) {
    let done = "K 0 C-1 1.0000 1\n";
    let mut check = |name: &str, export: String, output: &str, place: &str| {
        tally.check(name, answered(&tabbed(&export), "20260801 A-7", output, place));
    };
    check("511 lines", lines(511), done, "");
    check("512 lines", lines(512), done, "");
    check("513 lines", lines(513), "X 19\n", "");
    check("512 lines and a byte", lines(512) + "A", "X 19\n", "");
    check("511 lines and a byte", lines(511) + "A", "X 2\n", "line 512\n");
    check("a blank line and 512", "\n".to_string() + &lines(512), "X 19\n", "");
    let long = |bytes: usize| "A".repeat(bytes - 24) + " 20260801 C-1 1.0000xxxx";
    check("600 bytes", lines(9) + &long(599) + "\n", "X 5\n", "line 10\n");
    check("601 bytes", lines(9) + &long(600) + "\n", "X 1\n", "line 10\n");
    check("600 bytes unended", lines(9) + &long(600), "X 2\n", "line 10\n");
    check("601 bytes unended", lines(9) + &long(601), "X 1\n", "line 10\n");
    check("600 fields", lines(9) + &" ".repeat(599) + "\n", "X 4\n", "line 10\n");
    check("601 fields", lines(9) + &" ".repeat(600) + "\n", "X 1\n", "line 10\n");
}

/// Days and what they are refused with, 0 for a date.
#[rustfmt::skip]
const DAYS: [(&str, u8); 35] = [
    ("20260801", 0), ("20000229", 0), ("00010101", 0), ("99991231", 0), ("20240229", 0), ("04000229", 0), ("15821010", 0),
    ("00040229", 0), ("20261231", 0), ("20260131", 0), ("20260430", 0), ("12000229", 0),
    ("20230229", 6), ("19000229", 6), ("00000101", 6), ("20260431", 6), ("21000229", 6), ("00000229", 6), ("00000000", 6),
    ("20260001", 6), ("20261301", 6), ("20260100", 6), ("20260132", 6), ("20240230", 6), ("20260631", 6), ("99999999", 6),
    ("01000229", 6), ("00001399", 6),
    ("", 5), ("2026080", 5), ("202608010", 5), ("+2026080", 5), ("2026080a", 5), ("2026.8.1", 5), ("\u{662}026080", 5),
];

/// Each day in a line and as the given one; and as many dates as 400 years have.
fn check_days(tally: &mut Tally) {
    for (day, number) in DAYS {
        let refusal = format!("X {number}\n");
        let line = format!("A {day} C-1 1.0000\n");
        let (output, place) = if number == 0 { ("K 0 C-1 1.0000 1\n", "") } else { (&refusal[..], "line 1\n") };
        tally.check(&format!("day {day} in a line"), answered(&tabbed(&line), "99991231 A", output, place));
        let (output, place) = if number == 0 { ("K 0 C-1 1.0000 1\n", "") } else { (&refusal[..], "day\n") };
        let export = tabbed("A 00010101 C-1 1.0000\n");
        tally.check(&format!("day {day}"), answered(&export, &format!("{day} A"), output, place));
    }
    let is_date = |number: &u32| answer(b"", &[format!("{number:08}").as_bytes(), b"A"]).0 == b"X\t18\n";
    tally.check("400 years", (1600 * 10000..2000 * 10000).filter(is_date).count() == 146_097);
}

/// The faults in the order in which they are refused: a bit of `faults` for each.
fn faulty(faults: u32) -> (String, String, (u8, Place)) {
    let has = |bit: u32| faults >> bit & 1 == 1;
    let mut export = EXPORT.to_string();
    if has(5) {
        export += "MTR-1 20240110 C-098 1.0031\n";
    }
    let bad = if has(1) { "MTR-1 20240110 C-098\n" } else { "" };
    let at = export.matches('\n').count();
    export += bad;
    if has(0) {
        export += &lines(513);
    }
    let day = if has(2) { "20260832" } else { "20260801" };
    let run = if has(6) { "MTR-9" } else { "MTR-2" };
    let second = if has(4) { "\u{7F}" } else { "MTR-1" };
    let more = if has(3) { " MTR-1".repeat(15) } else { String::new() };
    let refusals = [
        (FULL, Place::Nowhere),
        (4, Place::Line(at + 1)),
        (6, Place::Day),
        (6, Place::Serials),
        (5, Place::Run(1)),
        (SAME_DAY, Place::Line(4)),
        (NONE_IN_FORCE, Place::Run(0)),
    ];
    (export, format!("{day} {run} {second}{more}"), refusals[faults.trailing_zeros() as usize])
}

/// Whatever faults come together, the first of them is told.
fn check_order(tally: &mut Tally) {
    for faults in 1..1 << 7 {
        let (export, words, (number, place)) = faulty(faults);
        let place = if place == Place::Nowhere { String::new() } else { format!("{place}\n") };
        let holds = answered(&tabbed(&export), &words, &format!("X {number}\n"), &place);
        tally.check(&format!("faults {faults:07b}"), holds);
    }
}

fn serial(text: &str) -> Serial {
    let mut bytes = [0; 16];
    bytes[..text.len()].copy_from_slice(text.as_bytes());
    (text.len(), bytes)
}

/// The call on values: what comes back, and the buffer, which held `~` before.
fn lent(first: Serial, m: usize, room: usize) -> (u8, Place, usize, String) {
    let mut serials = [(99, [9; 16]); 16];
    (serials[0], serials[1]) = (first, serial("MTR-2"));
    let mut buffer = vec![b'~'; room];
    let (number, place, len) = stored(&tabbed(EXPORT), b"20260801", &serials, m, &mut buffer);
    (number, place, len, String::from_utf8_lossy(&buffer).into_owned())
}

/// Buffers around the length that is needed, serials that are no serials, numbers of serials out of range.
fn check_values(tally: &mut Tally) {
    let meter = serial("MTR-1");
    let text = "K\t0\tC-101\t1.0047\t1\nK\t1\tC-102\t1.0000\t1\n";
    for room in [text.len(), text.len() + 1, 600] {
        let expected = (0, Place::Nowhere, text.len(), format!("{text}{}", "~".repeat(room - text.len())));
        tally.check(&format!("room {room}"), lent(meter, 2, room) == expected);
    }
    for room in [0, 1, text.len() / 2, text.len() - 1] {
        tally.check(&format!("room {room}"), lent(meter, 2, room) == (ROOM, Place::Nowhere, 0, "~".repeat(room)));
    }
    let kept = |number, place| (number, place, 0, "~".repeat(9));
    for m in [0, 17, 99, usize::MAX] {
        tally.check(&format!("{m} serials"), lent(meter, m, 9) == kept(6, Place::Serials));
    }
    tally.check("3 serials", lent(meter, 3, 9) == kept(5, Place::Run(2)));
    let mut tailed = meter;
    tailed.1[15] = b' ';
    for bad in [(0, [0; 16]), (0, [b'A'; 16]), (17, [b'A'; 16]), (99, [b'A'; 16]), (6, meter.1), (4, meter.1), tailed] {
        tally.check(&format!("serial {bad:?}"), lent(bad, 2, 9) == kept(5, Place::Run(0)));
    }
    for byte in [0x21, 0x7E] {
        tally.check(&format!("byte {byte}"), lent((16, [byte; 16]), 2, 9) == kept(NONE_IN_FORCE, Place::Run(0)));
    }
    for byte in [0, 9, 10, 0x20, 0x7F, 0xFF] {
        tally.check(&format!("byte {byte}"), lent((16, [byte; 16]), 2, 9) == kept(5, Place::Run(0)));
    }
}

pub fn check(tally: &mut Tally) {
    check_answers(tally);
    check_limits(tally);
    check_days(tally);
    check_order(tally);
    check_values(tally);
}
