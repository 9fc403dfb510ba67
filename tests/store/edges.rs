//! Exports that are always tried: request 1's examples, two faults at once, days that are none, and exports around the bytes
//! that a program needs to keep.

use crate::draw::{Drawn, BAD_DAYS, KEPT};

const EXPORT: &str = "MTR-1 20240110 C-099 1.0031\nMTR-1 20260801 C-101 1.0047\nMTR-2 20250615 C-102 1.0000\n";

/// The examples, whose answers are known: more lines behind that export, how often they stand there, the words, standard output
/// and standard error. Spaces stand for tabs.
#[rustfmt::skip]
const EXAMPLES: [(&str, usize, &str, &str, &str); 6] = [
    ("", 0, "20260801 MTR-1 MTR-2", "K 0 C-101 1.0047 1\nK 1 C-102 1.0000 1\n", ""),
    ("", 0, "20250101 MTR-1 MTR-2", "X 18\n", "run 1\n"),
    ("", 0, "20230229 MTR-1 MTR-2", "X 6\n", "day\n"),
    ("MTR-1 20240110 C-099 1.0031\n", 1, "20260801 MTR-1 MTR-2", "X 17\n", "line 4\n"),
    ("", 0, "20260801", "X 6\n", "serials\n"),
    ("MTR-2 20250615 C-102 1.0000\n", 510, "20260801 MTR-1 MTR-2", "X 19\n", ""),
];

/// Lines with two faults, the second of which is not told.
#[rustfmt::skip]
const LINES: [&str; 12] = [
    "MTR-3", "MTR-3 20250615 C-1", " 20250615 C-1\n", " 20250631 C-1 1.0000\n", " 20250615 C-1 1.1001\n",
    "MTR-3 2025061 C-1 1.1001\n", "MTR-3 20250631  1.0000\n", "MTR-3 20250631 C-1 1.00\n", "MTR-3 20250615  1.1001\n",
    "MTR-3 20250615 C-1 1.1001\n\n", "\nMTR-3 20250615 C-1 1.1001\n", "MTR-3 20250615 C-1 1.0000\r\n",
];

fn tabbed(text: &str) -> Vec<u8> {
    text.replace(' ', "\t").into_bytes()
}

fn drawn(export: Vec<u8>, words: &str) -> Drawn {
    let mut words = words.split(' ').map(|word| word.as_bytes().to_vec());
    Drawn { lines: vec![export], day: words.next(), serials: words.collect() }
}

/// The answer to an export that has a known one: standard output and standard error.
pub fn known(number: usize) -> Option<(Vec<u8>, Vec<u8>)> {
    EXAMPLES.get(number).map(|(_, _, _, output, errors)| (tabbed(output), errors.as_bytes().to_vec()))
}

/// So many good lines, each of a meter of its own.
fn lines(count: usize) -> Vec<u8> {
    tabbed(&(0..count).map(|line| format!("A-{line} 20260801 C-1 1.0000\n")).collect::<String>())
}

type Fault = fn(&mut Drawn);

/// What is refused, in that order.
#[rustfmt::skip]
const FAULTS: [Fault; 7] = [
    |drawn| drawn.lines.push(lines(513)),
    |drawn| drawn.lines.insert(1, b"MTR-1\t20240110\tC-098\n".to_vec()),
    |drawn| drawn.day = Some(b"20260832".to_vec()),
    |drawn| drawn.serials.resize(17, b"MTR-1".to_vec()),
    |drawn| drawn.serials[1] = b"\x7F".to_vec(),
    |drawn| drawn.lines.push(tabbed("MTR-1 20240110 C-098 1.0031\n")),
    |drawn| drawn.serials[0] = b"MTR-9".to_vec(),
];

/// Each fault alone, and each two of them.
fn faults() -> Vec<Drawn> {
    let pairs = (0..FAULTS.len()).flat_map(|first| (first..FAULTS.len()).map(move |second| [first, second]));
    let faulty = |pair: [usize; 2]| {
        let mut faulty = drawn(tabbed(EXPORT), "20260801 MTR-1 MTR-2");
        pair.iter().for_each(|fault| FAULTS[*fault](&mut faulty));
        faulty
    };
    pairs.map(faulty).collect()
}

/// A day that is none, in a line and as the given one.
fn days() -> Vec<Drawn> {
    let in_line = |day: &&[u8]| drawn([b"A\t", *day, b"\tC-1\t1.0000\n"].concat(), "99991231 A");
    let given = |day: &&[u8]| Drawn {
        lines: vec![tabbed("A 00010101 C-1 1.0000\n")],
        day: Some(day.to_vec()),
        serials: vec![b"A".to_vec()],
    };
    BAD_DAYS.iter().map(in_line).chain(BAD_DAYS.iter().map(given)).collect()
}

/// A long line that ends about where a program may stop keeping bytes, or never, behind none or many good lines, and as many
/// lines behind it as make 512 or 513.
fn large() -> Vec<Drawn> {
    let mut all = Vec::new();
    for (before, end) in [(0, KEPT - 1), (0, KEPT), (0, KEPT + 1), (300, KEPT), (511, KEPT - 1), (511, KEPT + 1)] {
        for after in [511 - before, 512 - before] {
            let start = lines(before);
            let long = vec![b'A'; end - start.len() - 1];
            all.push(drawn([&start, &long[..], b"\n", &lines(after)].concat(), "20260801 A-0"));
        }
    }
    for (before, end) in [(0, KEPT), (511, KEPT), (511, 2 * KEPT), (512, KEPT), (512, KEPT + 1)] {
        let start = lines(before);
        let long = vec![b'A'; end - start.len()];
        all.push(drawn([start, long].concat(), "20260801 A-0"));
    }
    all
}

/// The examples first, so that `known` has their numbers.
pub fn edges() -> Vec<Drawn> {
    let example = |(more, times, words, _, _): &(&str, usize, &str, &str, &str)| {
        drawn(tabbed(&(EXPORT.to_string() + &more.repeat(*times))), words)
    };
    let mut all: Vec<Drawn> = EXAMPLES.iter().map(example).collect();
    let two = |more: &&str| drawn(tabbed(&(EXPORT.to_string() + more)), "20260801 MTR-1");
    all.extend(LINES.iter().map(two));
    all.extend(faults());
    all.extend(days());
    all.extend(large());
    all
}
