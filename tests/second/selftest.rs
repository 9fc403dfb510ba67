//! The session and the cases of document 01, the two ways of deciding against the definition, and the store's cases.

use crate::filter::{compute, Estimate, State};
use crate::line::{Settings, RUNS};
use crate::selftest_store;
use crate::session::Station;
use crate::vote::{all_runs, decided, decided_among, decided_by_count, legal, Decide, Digest, Vote};
use std::process::ExitCode;

const SESSION: &str = "G 2 2\nN 1 300 99\nK 0 C-101 1.0047 3\nK 1 C-102 1.0000 1\nB 0 0\n\
    M 1 0 200000\nM 1 1 199060\nE 1\nF 1\nA 1 0\nM 1 0 5\n";
const ANSWERS: &str = "F 1\nD 0 1 0 0003\nS 0 1 0 0003 40F24F8000000000 40D86A0000000000\n\
    U 0 1 40E8876000000000 4052C00000000000 40E84CA000000000 4052C00000000000\nX 8\n";

/// Counts what passed and says what failed.
#[derive(Default)]
pub struct Tally {
    passed: u32,
    failed: u32,
}

impl Tally {
    pub fn check(&mut self, name: &str, holds: bool) {
        if holds {
            self.passed += 1;
        } else {
            self.failed += 1;
            println!("{name} failed");
        }
    }
}

pub fn tabbed(text: &str) -> Vec<u8> {
    text.replace(' ', "\t").into_bytes()
}

/// The answers to a whole input.
fn answers(input: &[u8]) -> Vec<u8> {
    let (mut station, mut out) = (Station::new(decided), Vec::new());
    let mut lines = input.split_inclusive(|b| *b == b'\n').peekable();
    while let Some(line) = lines.next() {
        if lines.peek().is_none() && line.last() != Some(&b'\n') {
            station.end(line, &mut out);
            return out;
        }
        station.take(line, &mut out);
    }
    station.end(&[], &mut out);
    out
}

/// Rounds that a tie decides for the fresher state, and their answers.
const TIES: [(&str, &[u8], &[u8]); 2] = [
    ("v5", include_bytes!("../v5.txt"), include_bytes!("../v5.expected")),
    ("v10", include_bytes!("../v10.txt"), include_bytes!("../v10.expected")),
];

fn check_session(tally: &mut Tally) {
    tally.check("session", answers(&tabbed(SESSION)) == tabbed(ANSWERS));
    for (name, input, expected) in TIES {
        tally.check(&format!("session {name}"), answers(input) == expected);
    }
}

/// Whole inputs and their answers, mostly refusals; each begins with the session's settings and B.
#[rustfmt::skip]
const INPUTS: [(&str, &str); 20] = [
    ("\n", "X 3\n"),
    (" 1\n", "X 3\n"),
    ("X 1\nG 2 2\nN 1 300 99\nK 0 C-101 1.0047 3\n", "X 3\nX 3\nX 3\nX 3\n"),
    ("M 1 0\nM 1 0 5 \nM 01 0 5\nM 1  5\nM 0 0 5\nM 1 2 5\nM 1 0 1000001\n", "X 4\nX 4\nX 5\nX 5\nX 6\nX 6\nX 6\n"),
    ("M 4294967296 0 5\nM 99999999999999999999999 0 5\n", "X 6\nX 6\n"),
    ("D 1 1 1 zz\nD 1 1 0 zz\nD 1 1 0 000a\nD 1 1 0 0004\nD 1 1 0 0000\n", "X 6\nX 5\nX 5\nX 6\nX 6\n"),
    ("R 1 1\nR 1 1 0004\nR 1 1 0003 5\nR 1 1 0003 05 1\nR 2 1 0003\n", "X 4\nX 6\nX 4\nX 5\nX 6\n"),
    ("U 1 1 8000000000000000 z 0 0\nU 1 1 7FF8000000000000 z 0 0\n", "X 6\nX 6\n"),
    ("U 1 0 0000000000000000 4058C00000000000 0000000000000000 4058C00000000000\n", ""),
    ("U 1 0 0000000000000000 4058C00000000000 0000000000000000 4058C00000000001\n", "X 11\n"),
    ("S 0 1 0 0001 0000000000000000 0000000000000000\nS 1 1 0 0001 0000000000000000 0000000000000000\n", "X 7\nX 9\n"),
    ("Q 0 1 0001\nQ 1 1 0001\nM 1 0 5\nQ 1 1 0003\nQ 1 1 0002\nQ 1 2 0001\n", "X 7\nX 10\nR 0 1 0001 5\nX 10\n"),
    ("M 3 0 5\nC 3\n", "Q 0 3 0002\nA 0 0\n"),
    ("M 1 0 5\nM 1 1 6\nC 1\nR 1 1 0003 5 7\nR 1 1 0003 5 6\nM 1 0 6\n", "X 11\nX 11\n"),
    ("M 1 0 5\nE 1\nM 1 0 6\nU 1 0 0000000000000000 4058C00000000000 0000000000000000 4058C00000000000\nE 1\n", "F 1\nX 9\nX 9\nX 9\n"),
    ("M 2 0 5\nE 2\nF 2\nV 2\nV 2\n", "F 2\nD 0 2 0 0001\nX 12\nX 9\n"),
    ("M 2 0 5\nE 2\nF 2\nD 1 2 1 0001\nD 1 2 1 0001\n", "F 2\nD 0 2 0 0001\nX 13\nX 9\n"),
    ("M 2 0 5\nD 1 2 1 0003\nE 2\nF 2\nM 2 1 6\n", "F 2\nD 0 2 0 0001\nX 13\nX 8\n"),
    ("M 2 0 5\nD 1 2 0 0001\nD 1 2 0 0001\nD 1 2 0 0002\nB 1 2\nM 2 0 5\nC 2\nM 3 0 5\nC 3", "X 11\nX 8\nX 9\nX 2\n"),
    ("B 0 4294967295\nM 4294967295 0 5\nB 0 4294967294\nM 4294967295 0 5\nE 4294967295\n", "X 8\nF 4294967295\n"),
];

fn check_inputs(tally: &mut Tally) {
    let start = SESSION.split_inclusive('\n').take(5).collect::<String>();
    for (number, (input, expected)) in INPUTS.iter().enumerate() {
        let given = answers(&tabbed(&(start.clone() + input)));
        let holds = given == tabbed(expected);
        if !holds {
            println!("{}", String::from_utf8_lossy(&given));
        }
        tally.check(&format!("input {number}"), holds);
    }
}

/// Settings and the line and reason of their refusal.
const REFUSED: [(&str, u32, u8); 14] = [
    ("", 1, 2),
    ("G 2 2", 1, 2),
    ("\n", 1, 3),
    ("N 1 300 99\n", 1, 3),
    ("G 2\n", 1, 4),
    ("G 8 x\n", 1, 6),
    ("G x 99\n", 1, 5),
    ("G 2 1\n", 2, 2),
    ("G 2 1\nN 1 300 1000000001\n", 2, 6),
    ("G 2 1\nN 1 300 99\nK 1 C-101 1.00 3\n", 3, 6),
    ("G 2 1\nN 1 300 99\nK 0 C-101 1.00 3\n", 3, 5),
    ("G 2 1\nN 1 300 99\nK 0 C-101 1.1001 3\n", 3, 6),
    ("G 2 1\nN 1 300 99\nK 0 12345678901234567 1.0000 3\n", 3, 5),
    ("G 2 2\nN 1 300 99\nK 0 C-101 1.0047 3\nB 0 0\n", 4, 3),
];

fn check_settings(tally: &mut Tally) {
    for (input, line, reason) in REFUSED {
        let (mut station, mut out) = (Station::new(decided), Vec::new());
        let input = tabbed(input);
        for piece in input.split_inclusive(|b| *b == b'\n').filter(|p| p.ends_with(b"\n")) {
            station.take(piece, &mut out);
        }
        let rest = input.rsplit(|b| *b == b'\n').next().unwrap_or(&[]);
        station.end(rest, &mut out);
        let holds = station.refused == Some((line, reason)) && out == b"X\t15\n";
        tally.check(&format!("settings {line} {reason}"), holds);
    }
}

fn case_settings() -> Settings {
    let mut settings = Settings { controllers: 1, runs: 1, q: 1, r: 300, p: 96, ..Settings::default() };
    settings.factors[0] = 10047;
    settings.weights[0] = 1;
    settings
}

fn check_computing(tally: &mut Tally) {
    let settings = case_settings();
    let before: State = [Estimate { x: 200_000.0, p: 96.0 }; RUNS];
    let c1 = compute(&settings, &before, 4, 1, &[200_000; RUNS])[0];
    let expected = (0x4108_7158_0000_0000, 0x4052_C000_0000_0000);
    tally.check("c1", (c1.x.to_bits(), c1.p.to_bits()) == expected);
    let c2 = compute(&settings, &before, 4, 0, &[200_000; RUNS])[0];
    tally.check("c2", c2.same_bits(&Estimate { x: 200_000.0, p: 100.0 }));
}

fn digest((mask, state): (u16, u32)) -> Digest {
    Digest { mask, state }
}

/// A case of the vote: votes, how many are missing, and what is decided.
type Case = (&'static [(u16, u32)], usize, Option<(u16, u32)>);

/// v1 to v11, with m = 2 and label 5.
const CASES: [Case; 11] = [
    (&[(3, 4)], 2, None),
    (&[(3, 4)], 1, Some((3, 4))),
    (&[(1, 4)], 1, None),
    (&[(1, 4), (1, 4)], 1, Some((1, 4))),
    (&[(1, 4), (2, 4), (3, 2)], 0, Some((2, 4))),
    (&[(3, 4), (3, 4)], 2, Some((3, 4))),
    (&[(3, 3), (3, 3)], 2, None),
    (&[(3, 4), (1, 4)], 1, None),
    (&[(3, 3), (3, 3), (1, 4)], 1, None),
    (&[(1, 4), (1, 4), (3, 2)], 1, Some((1, 4))),
    (&[(1, 4), (2, 4)], 0, Some((2, 4))),
];

fn case_holds(case: Case, runs: u32, label: u32, decide: Decide) -> bool {
    let (given, missing, expected) = case;
    let mut votes: Vec<Vote> = given.iter().map(|d| Some(digest(*d))).collect();
    votes.resize(given.len() + missing, None);
    decide(&votes, runs, label) == expected.map(digest)
}

fn check_cases(tally: &mut Tally) {
    for decide in [decided as Decide, decided_by_count, decided_by_all] {
        for (number, case) in CASES.iter().enumerate() {
            tally.check(&format!("v{}", number + 1), case_holds(*case, 2, 5, decide));
        }
        tally.check("v12", case_holds((&[(1, 0)], 2, Some((1, 0))), 1, 1, decide));
    }
}

/// The definition with nothing left out: each missing controller gives no vote or any legal digest.
fn decided_by_all(votes: &[Vote], runs: u32, label: u32) -> Vote {
    let options: Vec<Vote> = [None].into_iter().chain(legal(runs, label).map(Some)).collect();
    decided_among(votes, &options)
}

/// Whether both ways of deciding agree with the definition for all votes from place `at` on.
fn agree(votes: &mut Vec<Vote>, at: usize, runs: u32, label: u32) -> bool {
    if at == votes.len() {
        let expected = decided_by_all(votes, runs, label);
        return decided(votes, runs, label) == expected && decided_by_count(votes, runs, label) == expected;
    }
    let options: Vec<Vote> = [None].into_iter().chain(legal(runs, label).map(Some)).collect();
    options.iter().all(|option| {
        votes[at] = *option;
        agree(votes, at + 1, runs, label)
    })
}

/// All votes of small groups: controllers, runs, label.
#[rustfmt::skip]
const SMALL: [(usize, u32, u32); 14] = [
    (1, 3, 3), (2, 3, 3), (3, 1, 1), (3, 1, 3), (3, 2, 1), (3, 2, 2), (3, 3, 1), (4, 1, 1), (4, 1, 2),
    (4, 1, 3), (4, 2, 1), (5, 1, 2), (6, 1, 2), (7, 1, 1),
];

fn check_small_groups(tally: &mut Tally) {
    for (controllers, runs, label) in SMALL {
        let holds = agree(&mut vec![None; controllers], 0, runs, label);
        tally.check(&format!("all votes of {controllers} for {runs} runs, label {label}"), holds);
    }
}

/// Whether the legal digests are all there, each once, the largest first.
fn check_legal(tally: &mut Tally) {
    for (runs, label) in [(1, 1), (1, 5), (2, 5), (3, 4), (5, 3), (16, 1), (16, 3)] {
        let digests: Vec<Digest> = legal(runs, label).collect();
        let whole = digests.len() == ((1 << runs) - 1) * label as usize;
        let ordered = digests.windows(2).all(|pair| pair[0] > pair[1]);
        let full = digests[0] == Digest { mask: all_runs(runs), state: label - 1 };
        let in_range = digests.iter().all(|d| d.mask & !all_runs(runs) == 0 && d.state < label);
        tally.check(&format!("digests of {runs} runs, label {label}"), whole && ordered && full && in_range);
    }
}

pub fn run() -> ExitCode {
    let mut tally = Tally::default();
    check_session(&mut tally);
    check_inputs(&mut tally);
    check_settings(&mut tally);
    check_computing(&mut tally);
    check_cases(&mut tally);
    check_small_groups(&mut tally);
    check_legal(&mut tally);
    selftest_store::check(&mut tally);
    println!("{} passed, {} failed", tally.passed, tally.failed);
    ExitCode::from(u8::from(tally.failed > 0))
}
