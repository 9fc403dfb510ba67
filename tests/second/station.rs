//! A second `station`, written from documents 01 and 02 alone, to compare the proved one with.
//!
//! `station` reads standard input; `station --fast` does the same and decides the vote by counting;
//! `station certificates DAY SERIAL...` is a second `certificates`, written from document 02 alone;
//! `station --selftest` checks the session and the cases of document 01, and the store's.

mod certificates;
mod controller;
mod filter;
mod line;
mod selftest;
mod selftest_store;
mod session;
mod store;
mod vote;
mod wrong;

use session::Station;
use std::io::{self, Read, Write};
use std::os::unix::ffi::OsStringExt;
use std::process::ExitCode;

/// The size of the blocks that are read, and of the answers that are kept before they are written.
const BLOCK: usize = 1 << 16;

/// Takes the bytes of the input and hands lines on. Of a line it holds 601 bytes at most.
struct Cutter {
    station: Station,
    begun: Vec<u8>,
    answers: Vec<u8>,
}

impl Cutter {
    fn new(station: Station) -> Cutter {
        Cutter { station, begun: Vec::new(), answers: Vec::new() }
    }

    /// Keeps the start of a line. One byte over the longest line is enough to know it as long.
    fn keep(&mut self, bytes: &[u8]) {
        let room = line::LINE + 1 - self.begun.len();
        self.begun.extend_from_slice(&bytes[..bytes.len().min(room)]);
    }

    /// Takes the rest of a line, its line feed included.
    fn take_line(&mut self, bytes: &[u8]) {
        if self.begun.is_empty() {
            self.station.take(bytes, &mut self.answers);
        } else {
            self.keep(bytes);
            self.station.take(&self.begun, &mut self.answers);
            self.begun.clear();
        }
    }

    fn take_block(&mut self, block: &[u8], output: &mut impl Write) -> io::Result<()> {
        let mut rest = block;
        while let Some(at) = rest.iter().position(|b| *b == b'\n') {
            self.take_line(&rest[..=at]);
            rest = &rest[at + 1..];
            if self.answers.len() > BLOCK {
                self.write_answers(output)?;
            }
        }
        self.keep(rest);
        self.write_answers(output)
    }

    fn take_end(&mut self, output: &mut impl Write) -> io::Result<()> {
        self.station.end(&self.begun, &mut self.answers);
        self.write_answers(output)
    }

    fn write_answers(&mut self, output: &mut impl Write) -> io::Result<()> {
        if !self.answers.is_empty() {
            let written = output.write_all(&self.answers).and_then(|()| output.flush());
            self.answers.clear();
            if !wrong::is("glues-lines") {
                return written;
            }
        }
        Ok(())
    }
}

/// Serves the input to its end, or to refused settings, or says which end failed.
fn serve(station: Station, input: &mut impl Read, output: &mut impl Write) -> Result<(), &'static str> {
    let mut cutter = Cutter::new(station);
    let mut block = vec![0; BLOCK];
    let mut reads = 0;
    while cutter.station.refused.is_none() {
        let length = match input.read(&mut block) {
            Ok(length) => length,
            Err(e) if e.kind() == io::ErrorKind::Interrupted => continue,
            Err(_) if wrong::is("failed-read-ends") => 0,
            Err(_) => return Err("input failed"),
        };
        reads += 1;
        if length == 0 || (reads > 10_000 && wrong::is("ten-thousand-reads")) {
            return cutter.take_end(output).map_err(|_| "output failed");
        }
        let taken = length - usize::from(length == BLOCK && wrong::is("drops-block-end"));
        cutter.take_block(&block[..taken], output).map_err(|_| "output failed")?;
    }
    Ok(())
}

/// After a failure nothing more is read or written; the status is 0 as that of the first program, which has no other.
fn run(decide: vote::Decide) -> ExitCode {
    let served = serve(Station::new(decide), &mut io::stdin().lock(), &mut io::stdout().lock());
    if let Err(failure) = served {
        eprintln!("station: {failure}");
    }
    ExitCode::SUCCESS
}

/// With `--wrong NAME` in front, the program with that fault.
#[cfg(wrong)]
fn run_wrong(name: &[u8], words: &[&[u8]]) -> ExitCode {
    wrong::choose(&String::from_utf8_lossy(name));
    match words {
        [] if wrong::is("shortcut") => run(vote::decided_by_shortcut),
        words => run_words(words),
    }
}

fn run_words(words: &[&[u8]]) -> ExitCode {
    match words {
        [] => run(vote::decided),
        [b"--fast"] => run(vote::decided_by_count),
        [b"--selftest"] => selftest::run(),
        [b"certificates", words @ ..] => certificates::run(words),
        #[cfg(wrong)]
        [b"--wrong", name, words @ ..] => run_wrong(name, words),
        _ => {
            eprintln!("station [--fast | --selftest | certificates DAY SERIAL...]");
            ExitCode::from(2)
        }
    }
}

fn main() -> ExitCode {
    let words: Vec<Vec<u8>> = std::env::args_os().skip(1).map(OsStringExt::into_vec).collect();
    run_words(&words.iter().map(Vec::as_slice).collect::<Vec<_>>())
}
