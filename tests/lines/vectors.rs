//! Lines good and bad, and what document 01 makes of each: the list that crates/line_vectors reads, and the answers that it is held to.
//! The judging is the second program's (tests/second/line.rs), written from document 01 alone.
//!     rustc --edition 2021 -O -o target/line-vectors tests/lines/vectors.rs && target/line-vectors crates/line_vectors
//! writes both into that folder as stdin and stdout.
#![allow(dead_code)]
#[path = "../second/filter.rs"]
mod filter;
#[path = "../second/line.rs"]
mod line;
#[path = "../random.rs"]
mod random;
#[path = "../second/vote.rs"]
mod vote;

use line::{Message, Settings, RUNS};
use random::Random;
use std::collections::BTreeSet;
use std::fmt::Write;

const RANGE: u8 = 6;
const SETTINGS: u8 = 15;
const ROOM: u8 = 16;

/// Fields that are put in the place of each field in turn: in form or not, in range or not.
const FIELDS: &[&[u8]] = &[
    b"",
    b"0",
    b"1",
    b"2",
    b"3",
    b"6",
    b"7",
    b"8",
    b"16",
    b"17",
    b"999",
    b"1000",
    b"1001",
    b"00",
    b"01",
    b"007",
    b"-1",
    b"+1",
    b"1.0",
    b" 1",
    b"1 ",
    b"1\r",
    b"\0",
    b"1\0",
    b"a",
    b"\xFF",
    b"999999",
    b"1000000",
    b"1000001",
    b"1000000000",
    b"1000000001",
    b"4294967294",
    b"4294967295",
    b"4294967296",
    b"42949672950",
    b"9223372036854775808",
    b"18446744073709551615",
    b"18446744073709551616",
    b"99999999999999999999999999999999999999",
    b"0000",
    b"0001",
    b"0002",
    b"0003",
    b"0004",
    b"000A",
    b"000a",
    b"00G0",
    b"FFFF",
    b"ffff",
    b"8000",
    b"001",
    b"00001",
    b"0x01",
    b"0000000000000000",
    b"0000000000000001",
    b"8000000000000000",
    b"8000000000000001",
    b"3FF0000000000000",
    b"3ff0000000000000",
    b"4130C8E000000000",
    b"4130C8E000000001",
    b"41CDCD6500000000",
    b"41CDCD6500000001",
    b"4170C8E000000000",
    b"4170C8E000000001",
    b"7FEFFFFFFFFFFFFF",
    b"7FF0000000000000",
    b"7FF0000000000001",
    b"7FF8000000000000",
    b"FFF0000000000000",
    b"FFF8000000000000",
    b"FFFFFFFFFFFFFFFF",
    b"3FF000000000000",
    b"03FF0000000000000",
    b"3FF00000 0000000",
    b"1.0047",
    b"1.00",
    b"1.0000",
    b"0.9000",
    b"0.8999",
    b"1.1000",
    b"1.1001",
    b"9.9999",
    b"1,0047",
    b"1.00470",
    b"01.004",
    b".0047",
    b"1.004",
    b"1.004a",
    b"10047",
    b"-1.004",
    b"!",
    b"~",
    b"\x7F",
    b"a b",
    b"NMI-2019/0047-abc",
    b"NMI-2019/0047-ab",
];

/// Good lines of every kind for 3 controllers and 2 runs.
const LINES: &[&str] = &[
    "M\t7\t1\t123456",
    "Q\t2\t7\t0003",
    "R\t2\t7\t0003\t5\t1000000",
    "R\t0\t4294967295\t0002\t0",
    "A\t1\t9",
    "U\t1\t9\t40F86A0000000000\t40C3880000000000\t0000000000000000\t41CDCD6500000000",
    "D\t1\t7\t6\t0001",
    "S\t1\t7\t6\t0003\t40F86A0000000000\t0000000000000000",
    "C\t7",
    "E\t7",
    "V\t7",
    "F\t7",
    "B\t2\t4",
];

/// Texts that are no line of any kind here, or of one that is only written or only in the settings.
const OTHERS: &[&[u8]] = &[
    b"",
    b"\t",
    b"\t\t\t",
    b"X\t5",
    b"G\t3\t2",
    b"N\t4\t100\t10000",
    b"K\t0\tNMI-0047\t1.0047\t100",
    b"m\t7\t1\t5",
    b"MM\t7\t1\t5",
    b" M\t7\t1\t5",
    b"M \t7\t1\t5",
    b"\tM\t7\t1\t5",
    b"M",
    b"M\t",
    b"M7\t1\t5",
    b"\0\t7",
    b"\xCD\t7\t1\t5",
    b"Z\t7",
    b"7",
    b"\r",
];

/// R is judged in an order of its own: four fields, its head, the number of its values, the values.
const REPLIES: &[&str] = &[
    "R",
    "R\t2",
    "R\t2\t7",
    "R\tx\t7",
    "R\t3\t7\t0003",
    "R\tx\t7\t0003",
    "R\t2\t0\t0003",
    "R\t2\t7\t0004\t1\t2\t3\t4",
    "R\t2\t7\t000x\t1",
    "R\t2\t7\t0003",
    "R\t2\t7\t0003\t1",
    "R\t2\t7\t0003\tx",
    "R\t2\t7\t0003\t1\t2\t3",
    "R\t2\t7\t0003\tx\t2\t3",
    "R\t2\t7\t0001\t1\t2",
    "R\t2\t7\t0002\t1000001",
    "R\t2\t7\t0003\t1000001\tx",
    "R\t2\t7\t0003\tx\t1000001",
];

struct List {
    input: Vec<u8>,
    answers: Vec<u8>,
    count: usize,
    /// The answers to each first byte of a line: 0 where it was taken.
    seen: BTreeSet<(u8, u8)>,
}

impl List {
    fn entry(&mut self, what: u8, runs: u32, line: &[u8]) {
        assert!(line.len() < 1000);
        self.input.push(what);
        self.input.extend(format!("{runs:02}{:03}\n", line.len()).into_bytes());
        self.input.extend(line);
        self.count += 1;
    }

    fn say(&mut self, text: &str) {
        self.answers.extend(text.as_bytes());
    }

    /// A line for a group, and what it is.
    fn line(&mut self, controllers: u32, runs: u32, line: &[u8]) {
        self.entry(b'0' + controllers as u8, runs, line);
        let settings = Settings { controllers, runs, ..Settings::default() };
        let answer = line::read(&settings, line);
        self.seen.insert((line.first().copied().unwrap_or(0), answer.as_ref().err().copied().unwrap_or(0)));
        match answer {
            Ok(message) => {
                let mut back = Vec::new();
                line::write(&settings, &message, &mut back);
                assert!(back == line, "the second program has two spellings");
                self.say(&told(&message));
                self.written(&back);
            }
            Err(number) => {
                let mut back = Vec::new();
                line::write_refusal(number, &mut back);
                self.say(&format!("refused {number}\n"));
                self.written(&back);
            }
        }
    }

    /// A line as it is written, the byte past it as it was, and no room in a shorter buffer.
    fn written(&mut self, back: &[u8]) {
        self.answers.extend(back);
        self.say(&format!("#\nrefused {ROOM}\n"));
    }

    fn ended(&mut self, controllers: u32, runs: u32, text: &[u8]) {
        self.line(controllers, runs, &[text, b"\n"].concat());
    }

    /// A group that is out of range: any line is out of range, and so is its refusal.
    fn no_group(&mut self, controllers: u32, runs: u32, line: &[u8]) {
        self.entry(b'0' + controllers as u8, runs, line);
        self.say(&format!("refused {RANGE}\nrefused {RANGE}\n"));
    }

    /// Settings, line after line, until they are whole or refused, or input ends.
    fn settings(&mut self, lines: &[Vec<u8>]) {
        self.entry(b'Z', 0, b"");
        let mut settings = Settings::default();
        let mut certificates: Vec<String> = Vec::new();
        for (k, text) in lines.iter().enumerate() {
            let number = k as u32 + 1;
            self.entry(b'S', 0, text);
            if let Err(reason) = settings.read(number, text) {
                self.say(&format!("refused {SETTINGS} {number} {reason}\n"));
                return;
            }
            if number > 2 {
                let field = text.split(|b| *b == b'\t').nth(2).unwrap();
                certificates.push(String::from_utf8(field.to_vec()).unwrap());
            }
            if number > 2 && number == settings.lines() {
                self.say(&told_settings(&settings, &certificates));
                self.settings_back(&lines[..number as usize]);
                return;
            }
            self.say("more\n");
        }
        self.entry(b'T', 0, b"");
        self.say(&format!("refused {SETTINGS} {} 2\n", lines.len() + 1));
    }

    /// The settings' lines as they are written, and no others, of 20 that are asked for from 0 on, and of the last number that can be.
    fn settings_back(&mut self, lines: &[Vec<u8>]) {
        for k in (0..20).chain([u32::MAX as usize]) {
            match k.checked_sub(1).and_then(|k| lines.get(k)) {
                Some(line) => self.written(line),
                None => self.say(&format!("refused {RANGE}\n")),
            }
        }
    }

    /// A message X of a number, handed over as a value, written as a message and from its head alone.
    fn refusal(&mut self, number: u32) {
        self.entry(b'X', 2, number.to_string().as_bytes());
        for _ in 0..2 {
            match number {
                1..=16 => {
                    let mut back = Vec::new();
                    line::write_refusal(number as u8, &mut back);
                    self.written(&back);
                }
                _ => self.say(&format!("refused {RANGE}\n")),
            }
        }
    }

    /// The settings read last with one place of them changed, handed over as a value.
    fn changed(&mut self, settings: &Values, place: u8, i: usize, j: usize, n: u32) {
        self.entry(b'W', 0, format!("{}{i:02}{j:02}{n}", place as char).as_bytes());
        let mut next = settings.clone();
        match place {
            b'g' => next.g = n,
            b'm' => next.m = n,
            b'q' => next.q = n,
            b'r' => next.r = n,
            b'p' => next.p = n,
            b'f' => next.factors[i] = n,
            b'w' => next.weights[i] = n,
            b'l' => next.certificates[i].0 = n as usize,
            _ => next.certificates[i].1[j] = n as u8,
        }
        let lines = if next.in_range() { next.lines() } else { Vec::new() };
        self.settings_back(&lines);
    }
}

/// Settings as a value, certificates with them: how many bytes, and sixteen places for them.
#[derive(Clone)]
struct Values {
    g: u32,
    m: u32,
    q: u32,
    r: u32,
    p: u32,
    factors: [u32; RUNS],
    weights: [u32; RUNS],
    certificates: [(usize, [u8; RUNS]); RUNS],
}

impl Values {
    /// The values of `settings_of` these numbers.
    fn of(g: u32, m: u32) -> Values {
        let mut all = Values {
            g,
            m,
            q: 4,
            r: 100,
            p: 10000,
            factors: [0; RUNS],
            weights: [0; RUNS],
            certificates: [(0, [0; RUNS]); RUNS],
        };
        for run in 0..m as usize {
            let certificate = format!("NMI-{run:04}");
            all.factors[run] = [10047, 9000, 11000][run % 3];
            all.weights[run] = 1000 - run as u32;
            all.certificates[run].0 = certificate.len();
            all.certificates[run].1[..certificate.len()].copy_from_slice(certificate.as_bytes());
        }
        all
    }

    /// Document 01's table of quantities, and its certificates; a place that is no run, and a byte that is none of a certificate, is blank.
    fn in_range(&self) -> bool {
        let numbers = (1..=7).contains(&self.g)
            && (1..=16).contains(&self.m)
            && (1..=1_000_000).contains(&self.q)
            && (1..=1_000_000).contains(&self.r)
            && (1..=1_000_000_000).contains(&self.p);
        numbers && (0..RUNS).all(|run| if run < self.m as usize { self.run_in_range(run) } else { self.blank(run) })
    }

    fn run_in_range(&self, run: usize) -> bool {
        let (len, bytes) = self.certificates[run];
        (9000..=11000).contains(&self.factors[run])
            && (1..=1000).contains(&self.weights[run])
            && (1..=16).contains(&len)
            && (0..RUNS).all(|j| if j < len { (0x21..=0x7E).contains(&bytes[j]) } else { bytes[j] == 0 })
    }

    fn blank(&self, run: usize) -> bool {
        self.factors[run] == 0 && self.weights[run] == 0 && self.certificates[run] == (0, [0; RUNS])
    }

    fn lines(&self) -> Vec<Vec<u8>> {
        let mut texts = vec![
            format!("G\t{}\t{}\n", self.g, self.m).into_bytes(),
            format!("N\t{}\t{}\t{}\n", self.q, self.r, self.p).into_bytes(),
        ];
        for run in 0..self.m as usize {
            let (len, bytes) = self.certificates[run];
            let factor = format!("{}.{:04}", self.factors[run] / 10000, self.factors[run] % 10000);
            let last = format!("\t{factor}\t{}\n", self.weights[run]);
            texts.push([format!("K\t{run}\t").as_bytes(), &bytes[..len], last.as_bytes()].concat());
        }
        texts
    }
}

fn told(message: &Message) -> String {
    let (mut raws, mut estimates, mut targets) = ([0; RUNS], filter::State::default(), [0.0f64; RUNS]);
    let mut text = match message {
        Message::M { label, run, raw } => format!("reading {label} {run} {raw}\n"),
        Message::Q { sender, label, mask } => format!("query {sender} {label} {mask}\n"),
        Message::R { sender, label, mask, raws: all } => {
            raws = *all;
            format!("reply {sender} {label} {mask}\n")
        }
        Message::A { sender, state } => format!("advert {sender} {state}\n"),
        Message::U { sender, state, estimates: all } => {
            estimates = *all;
            format!("update {sender} {state}\n")
        }
        Message::D { sender, label, digest } => format!("vote {sender} {label} {} {}\n", digest.mask, digest.state),
        Message::S { sender, label, digest, targets: all } => {
            targets = *all;
            format!("setpoints {sender} {label} {} {}\n", digest.mask, digest.state)
        }
        Message::C { label } => format!("due {label}\n"),
        Message::E { label } => format!("collecting ends {label}\n"),
        Message::V { label } => format!("voting ends {label}\n"),
        Message::F { label } => format!("floor {label}\n"),
        Message::B { own, floor } => format!("start {own} {floor}\n"),
    };
    for run in 0..RUNS {
        let e = &estimates[run];
        let (x, p, target) = (e.x.to_bits(), e.p.to_bits(), targets[run].to_bits());
        write!(text, " {} {x:x} {p:x} {target:x}", raws[run]).unwrap();
    }
    text + "\n"
}

fn told_settings(s: &Settings, certificates: &[String]) -> String {
    let mut text = format!("settings {} {} {} {} {}", s.controllers, s.runs, s.q, s.r, s.p);
    for run in 0..RUNS {
        let certificate = certificates.get(run).map_or("", String::as_str);
        write!(text, " {certificate} {} {}", s.factors[run], s.weights[run]).unwrap();
    }
    text + "\n"
}

/// The text with its field `place` put aside for another.
fn with_field(text: &[u8], place: usize, field: &[u8]) -> Vec<u8> {
    let mut fields: Vec<&[u8]> = text.split(|b| *b == b'\t').collect();
    fields[place] = field;
    fields.join(&b'\t')
}

fn fields_of(text: &[u8]) -> usize {
    text.split(|b| *b == b'\t').count()
}

/// A good text as one that lacks a field, has one more, ends otherwise, or has other bytes in it.
fn misshapen(text: &[u8]) -> Vec<Vec<u8>> {
    let without = text.iter().rposition(|b| *b == b'\t').unwrap();
    [
        &[text][..],
        &[text, b"\n\n"],
        &[b"\n", text, b"\n"],
        &[&text[..without], b"\n", &text[without..], b"\n"],
        &[&text[..without], b"\n"],
        &[text, b"\t\n"],
        &[text, b"\t1\n"],
        &[text, b"\r\n"],
        &[text, b"\0\n"],
        &[text, b" \n"],
        &[b" ", text, b"\n"],
        &[&text[..1], text, b"\n"],
        &[b"\t", text, b"\n"],
    ]
    .iter()
    .map(|parts| parts.concat())
    .collect()
}

/// A text with its last field made so long that the line has this many bytes.
fn stretched(text: &[u8], bytes: usize) -> Vec<u8> {
    let mut line = text.to_vec();
    line.resize(bytes - 1, b'1');
    line.push(b'\n');
    line
}

fn messages(list: &mut List) {
    for text in LINES.iter().map(|text| text.as_bytes()) {
        list.ended(3, 2, text);
        for place in 0..fields_of(text) {
            for field in FIELDS {
                list.ended(3, 2, &with_field(text, place, field));
            }
        }
        for line in misshapen(text) {
            list.line(3, 2, &line);
        }
        for bytes in [599, 600, 601, 700] {
            list.line(3, 2, &stretched(text, bytes));
            list.line(3, 2, &stretched(text, bytes)[..bytes - 1]);
        }
    }
    for text in OTHERS {
        list.ended(3, 2, text);
        list.line(3, 2, text);
    }
    for text in REPLIES {
        list.ended(3, 2, text.as_bytes());
    }
}

/// A number that is often at an end of its range, or just past it.
fn drawn(random: &mut Random, low: u64, high: u64) -> u64 {
    match random.below(8) {
        0 => low,
        1 => high,
        2 if random.chance(20) => high + 1,
        3 if low > 0 && random.chance(20) => low - 1,
        _ => random.between(low, high),
    }
}

fn float(random: &mut Random, limit: f64) -> String {
    format!("\t{:016X}", drawn(random, 0, limit.to_bits()))
}

/// A line of a random kind for a group, most often good.
fn any_line(random: &mut Random, g: u32, m: u32) -> String {
    let all = u64::from(vote::all_runs(m));
    let label = drawn(random, 1, u32::MAX.into());
    let sender = drawn(random, 0, u64::from(g) - 1);
    let mask = drawn(random, 1, all);
    let state = drawn(random, 0, label.max(1) - 1);
    let kind = random.pick(b"MQRAUDSCEVFB") as char;
    let head = match kind {
        'M' => format!("\t{label}\t{}\t{}", drawn(random, 0, u64::from(m) - 1), drawn(random, 0, 1_000_000)),
        'Q' | 'R' => format!("\t{sender}\t{label}\t{mask:04X}"),
        'A' | 'U' | 'B' => format!("\t{sender}\t{label}"),
        'D' | 'S' => format!("\t{sender}\t{label}\t{state}\t{mask:04X}"),
        _ => format!("\t{label}"),
    };
    let values: String = match kind {
        'R' => (0..mask.count_ones()).map(|_| format!("\t{}", drawn(random, 0, 1_000_000))).collect(),
        'U' => (0..m).map(|_| float(random, filter::X_LIMIT) + &float(random, filter::P_LIMIT)).collect(),
        'S' => (0..m).map(|_| float(random, filter::TARGET_LIMIT)).collect(),
        _ => String::new(),
    };
    format!("{kind}{head}{values}")
}

fn drawn_messages(list: &mut List, random: &mut Random) {
    for _ in 0..400 {
        let (g, m) = (random.between(1, 7) as u32, random.between(1, 16) as u32);
        let text = any_line(random, g, m);
        list.ended(g, m, text.as_bytes());
    }
    for _ in 0..200 {
        let long = random.below(40);
        let line: Vec<u8> = (0..long).map(|_| random.pick(b"\t\t\n0123456789ABCDEFMQRSUVX\r\0 .-\xFF")).collect();
        list.line(3, 2, &line);
    }
    for (g, m) in [(0, 2), (8, 2), (3, 0), (3, 17), (0, 0), (9, 99)] {
        list.no_group(g, m, b"C\t7\n");
        list.no_group(g, m, b"");
    }
}

/// Good settings of g controllers and m runs.
fn settings_of(g: u32, m: u32) -> Vec<Vec<u8>> {
    let mut texts = vec![format!("G\t{g}\t{m}"), "N\t4\t100\t10000".to_string()];
    texts.extend((0..m).map(|run| {
        let factor = ["1.0047", "0.9000", "1.1000"][run as usize % 3];
        format!("K\t{run}\tNMI-{run:04}\t{factor}\t{}", 1000 - run)
    }));
    texts.into_iter().map(|text| (text + "\n").into_bytes()).collect()
}

fn with_line(lines: &[Vec<u8>], place: usize, line: Vec<u8>) -> Vec<Vec<u8>> {
    let mut lines = lines.to_vec();
    lines[place] = line;
    lines
}

fn settings(list: &mut List) {
    for (g, m) in [(1, 1), (3, 2), (7, 16), (5, 6)] {
        list.settings(&settings_of(g, m));
    }
    let good = settings_of(3, 2);
    for count in 0..good.len() {
        list.settings(&good[..count]);
    }
    for place in 0..good.len() {
        let text = &good[place][..good[place].len() - 1];
        for field in 0..fields_of(text) {
            for other in FIELDS {
                list.settings(&with_line(&good, place, [&with_field(text, field, other)[..], b"\n"].concat()));
            }
        }
        for line in misshapen(text) {
            list.settings(&with_line(&good, place, line));
        }
        for bytes in [599, 600, 601] {
            list.settings(&with_line(&good, place, stretched(text, bytes)));
        }
        for other in &good {
            list.settings(&with_line(&good, place, other.clone()));
        }
        for other in OTHERS.iter().copied().chain(LINES.iter().map(|text| text.as_bytes())) {
            list.settings(&with_line(&good, place, [other, b"\n"].concat()));
        }
    }
}

/// Settings handed over as values: each rule at its ends and broken alone, in places that are used and in places that are not.
fn values(list: &mut List) {
    for (g, m) in [(3, 2), (7, 16)] {
        let good = settings_of(g, m);
        let values = Values::of(g, m);
        assert!(values.in_range() && values.lines() == good);
        list.settings(&good);
        for n in [0, 1, 2, 7, 8, u32::MAX] {
            list.changed(&values, b'g', 0, 0, n);
        }
        for n in [0, 1, m, 3, 16, 17, u32::MAX] {
            list.changed(&values, b'm', 0, 0, n);
        }
        for place in *b"qrp" {
            for n in [0, 1, 1_000_000, 1_000_001, 1_000_000_000, 1_000_000_001, u32::MAX] {
                list.changed(&values, place, 0, 0, n);
            }
        }
        for run in [0, 1, 2, 15] {
            for n in [0, 1, 8999, 9000, 10000, 11000, 11001, u32::MAX] {
                list.changed(&values, b'f', run, 0, n);
            }
            for n in [0, 1, 1000, 1001, u32::MAX] {
                list.changed(&values, b'w', run, 0, n);
            }
            for n in [0, 1, 7, 8, 9, 16, 17] {
                list.changed(&values, b'l', run, 0, n);
            }
            for place in [0, 7, 8, 15] {
                for n in [0, 0x20, 0x21, 0x7E, 0x7F, 0xFF] {
                    list.changed(&values, b'b', run, place, n);
                }
            }
        }
    }
}

fn refusals(list: &mut List) {
    for number in (0..=20).chain([255, 256, 65536 + 5, u32::MAX]) {
        list.refusal(number);
    }
}

fn main() -> std::io::Result<()> {
    let folder = std::env::args().nth(1).unwrap_or("crates/line_vectors".to_string());
    let mut list = List { input: Vec::new(), answers: Vec::new(), count: 0, seen: BTreeSet::new() };
    messages(&mut list);
    drawn_messages(&mut list, &mut Random::new(1, 0));
    settings(&mut list);
    refusals(&mut list);
    values(&mut list);
    for kind in *b"MQRAUDSCEVFB" {
        for answer in 0..=6 {
            assert!(list.seen.contains(&(kind, answer)), "no line of kind {} is answered with {answer}", kind as char);
        }
    }
    std::fs::write(format!("{folder}/stdin"), &list.input)?;
    std::fs::write(format!("{folder}/stdout"), &list.answers)?;
    println!("{} entries", list.count);
    Ok(())
}
