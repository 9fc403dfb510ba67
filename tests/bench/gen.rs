//! Writes an input for measuring the speed of `station`, of about a million lines.
//!
//! `gen MIX [LINES [CONTROLLERS [RUNS]]]`, where MIX is `m` (readings alone), `rounds` (whole rounds,
//! each to its S), `u` (states handed in and asked for) or `mixed` (rounds, in every second of which all
//! readings are M, and one line in ten is refused). The own number is 0. But for `mixed` no line is refused.

#[allow(dead_code)]
#[path = "../random.rs"]
mod random;

use random::Random;
use std::io::{self, BufWriter, Write};
use std::process::ExitCode;

const MIXES: [&str; 4] = ["m", "rounds", "u", "mixed"];

struct Plan {
    mix: String,
    lines: u64,
    controllers: u64,
    runs: u64,
}

/// The input being written, with the number of its lines.
struct Input<W: Write> {
    to: W,
    lines: u64,
    /// The label whose lines are written, and whether refused ones come between them.
    label: u64,
    refused: bool,
    random: Random,
    controllers: u64,
    runs: u64,
}

impl<W: Write> Input<W> {
    fn line(&mut self, line: &str) -> io::Result<()> {
        self.lines += 1;
        writeln!(self.to, "{line}")?;
        if self.refused && self.lines % 10 == 9 {
            let line = self.refused_line(self.lines / 10);
            self.line(&line)?;
        }
        Ok(())
    }

    /// A line that is refused in every phase, by turns with 3 to 8 and 10.
    fn refused_line(&self, turn: u64) -> String {
        let label = self.label;
        match turn % 7 {
            0 => format!("Z\t{label}\t0\t200000"),
            1 => format!("M\t{label}\t0"),
            2 => format!("M\t0{label}\t0\t200000"),
            3 => format!("M\t{label}\t0\t1000001"),
            4 => format!("Q\t0\t{label}\t0001"),
            5 => format!("M\t{}\t0\t200000", label - 1),
            _ => format!("E\t{}", label + 1),
        }
    }

    fn settings(&mut self) -> io::Result<()> {
        self.line(&format!("G\t{}\t{}", self.controllers, self.runs))?;
        self.line("N\t50\t300\t1000000")?;
        for run in 0..self.runs {
            let (factor, weight) = (self.random.between(9000, 11000), self.random.between(1, 1000));
            self.line(&format!("K\t{run}\tC-{}\t{}.{:04}\t{weight}", 101 + run, factor / 10000, factor % 10000))?;
        }
        self.line("B\t0\t0")
    }

    fn raw(&mut self) -> u64 {
        self.random.between(150_000, 250_000)
    }

    fn reading(&mut self, label: u64, run: u64) -> io::Result<()> {
        let raw = self.raw();
        self.line(&format!("M\t{label}\t{run}\t{raw}"))
    }

    fn all_runs(&self) -> u64 {
        (1 << self.runs) - 1
    }

    /// The readings of one label.
    fn readings(&mut self, label: u64) -> io::Result<()> {
        (0..self.runs).try_for_each(|run| self.reading(label, run))
    }

    /// One whole round: the last reading is asked for and comes from another, the vote is decided.
    fn round(&mut self, label: u64) -> io::Result<()> {
        let last = self.runs - 1;
        (0..last.max(1)).try_for_each(|run| self.reading(label, run))?;
        self.line(&format!("C\t{label}"))?;
        if self.controllers > 1 {
            self.answers(label, last)?;
        }
        self.ballot(label)
    }

    /// The end of a round: collecting ends, the floor is stored, the vote is decided.
    fn ballot(&mut self, label: u64) -> io::Result<()> {
        self.line(&format!("E\t{label}"))?;
        self.line(&format!("F\t{label}"))?;
        self.votes(label)
    }

    /// Another has the last reading, and asks for all.
    fn answers(&mut self, label: u64, last: u64) -> io::Result<()> {
        if last > 0 {
            let raw = self.raw();
            self.line(&format!("R\t1\t{label}\t{:04X}\t{raw}", 1 << last))?;
        }
        self.line(&format!("Q\t{}\t{label}\t{:04X}", self.controllers - 1, self.all_runs()))
    }

    /// Votes of others up to the decision: number 1 of a larger group lacks a reading.
    fn votes(&mut self, label: u64) -> io::Result<()> {
        let (mut full, mut other) = (1, 0);
        for sender in 1..self.controllers {
            let missing = self.controllers - full - other;
            if other + missing <= full {
                break;
            }
            let lacks = sender == 1 && self.controllers > 3 && self.runs > 1;
            let mask = if lacks { self.all_runs() - 1 } else { self.all_runs() };
            self.line(&format!("D\t{sender}\t{label}\t{}\t{mask:04X}", label - 1))?;
            *(if lacks { &mut other } else { &mut full }) += 1;
        }
        Ok(())
    }

    /// A newer state, the same again, an older one, and two who ask for it.
    fn states(&mut self, label: u64) -> io::Result<()> {
        let mut values = String::new();
        for _ in 0..self.runs {
            let (x, p) = (self.raw() as f64 / 3.0, self.raw() as f64 / 7000.0);
            values += &format!("\t{:016X}\t{:016X}", x.to_bits(), p.to_bits());
        }
        self.line(&format!("U\t1\t{label}{values}"))?;
        self.line(&format!("U\t1\t{label}{values}"))?;
        self.line(&format!("U\t1\t{}{values}", label - 1))?;
        self.line(&format!("A\t1\t{}", label - 1))?;
        self.line(&format!("A\t1\t{label}"))
    }
}

fn write_all(plan: &Plan) -> io::Result<()> {
    let to = BufWriter::with_capacity(1 << 16, io::stdout().lock());
    let (controllers, runs) = (plan.controllers, plan.runs);
    let mut input = Input { to, lines: 0, label: 0, refused: false, random: Random::new(1, 0), controllers, runs };
    input.settings()?;
    input.refused = plan.mix == "mixed";
    for label in 1.. {
        if input.lines >= plan.lines {
            break;
        }
        input.label = label;
        match plan.mix.as_str() {
            "m" => input.readings(label)?,
            "u" => input.states(label)?,
            "mixed" if label % 2 == 0 => input.readings(label).and_then(|()| input.ballot(label))?,
            _ => input.round(label)?,
        }
    }
    input.to.flush()
}

fn plan() -> Option<Plan> {
    let mut arguments = std::env::args().skip(1);
    let mix = arguments.next().filter(|mix| MIXES.contains(&mix.as_str()))?;
    let mut number = |default: u64| arguments.next().map_or(Some(default), |text| text.parse().ok());
    let (lines, controllers, runs) = (number(1_000_000)?, number(5)?, number(6)?);
    let good = (1..=7).contains(&controllers) && (1..=16).contains(&runs) && (mix != "u" || controllers > 1);
    good.then_some(Plan { mix, lines, controllers, runs })
}

fn main() -> ExitCode {
    let Some(plan) = plan() else {
        eprintln!("gen {} [LINES [CONTROLLERS [RUNS]]]", MIXES.join("|"));
        return ExitCode::from(2);
    };
    match write_all(&plan) {
        Ok(()) => ExitCode::SUCCESS,
        Err(e) => {
            eprintln!("{e}");
            ExitCode::FAILURE
        }
    }
}
