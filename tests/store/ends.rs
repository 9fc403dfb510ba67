//! The ends of a `certificates` program: outputs and inputs that fail.
//!
//! `ends COMMAND`: the command is run by `sh`, with a day and serials as further words. In each case the program ends and
//! standard error has the one line that is due.

#[path = "../ends/os.rs"]
#[allow(dead_code)]
mod os;
#[path = "../ends/program.rs"]
#[allow(dead_code)]
mod program;

use program::{must_be, told, Around, Program, Verdict};
use std::fs::File;
use std::io::{pipe, Read, Write};
use std::process::{ExitCode, Stdio};

const OUTPUT_FAILED: &str = "certificates: output failed\n";
const INPUT_FAILED: &str = "certificates: input failed\n";

const LINE: &str = "MTR-1\t20260801\tC-101\t1.0047\n";
const WORDS: &str = "20260801 MTR-1";

const DEAF: Around = Around { before: "trap '' PIPE; ", after: "" };
const OUTPUT_CLOSED: Around = Around { before: "", after: ">&-" };
const INPUT_CLOSED: Around = Around { before: "", after: "<&-" };

/// An input that has these bytes and then its end.
fn whole(export: &str) -> Result<Stdio, String> {
    let (theirs, mut input) = pipe().map_err(told)?;
    input.write_all(export.as_bytes()).map_err(told)?;
    Ok(theirs.into())
}

/// The output fails: that is all that is said.
fn nothing_taken(command: &str, around: &Around, export: &str, output: Stdio) -> Verdict {
    Program::start_in(around, &format!("{command} {WORDS}"), whole(export)?, output)?.must_end(OUTPUT_FAILED)
}

fn full() -> Result<Stdio, String> {
    File::options().write(true).open("/dev/full").map(Stdio::from).map_err(told)
}

fn full_device(command: &str) -> Verdict {
    nothing_taken(command, &Around::default(), LINE, full()?)
}

/// A refusal that has no place.
fn full_device_refused(command: &str) -> Verdict {
    nothing_taken(command, &Around::default(), &LINE.repeat(513), full()?)
}

fn output_closed(command: &str) -> Verdict {
    nothing_taken(command, &OUTPUT_CLOSED, LINE, Stdio::null())
}

fn reader_gone(command: &str) -> Verdict {
    let (output, ours) = pipe().map_err(told)?;
    drop(output);
    nothing_taken(command, &DEAF, LINE, ours.into())
}

/// The input fails: nothing is written, though what came was a good export.
fn nothing_written(command: &str, around: &Around, input: Stdio) -> Verdict {
    let (mut output, ours) = pipe().map_err(told)?;
    let program = Program::start_in(around, &format!("{command} {WORDS}"), input, ours)?;
    let mut came = Vec::new();
    output.read_to_end(&mut came).map_err(told)?;
    must_be(&came, b"")?;
    program.must_end(INPUT_FAILED)
}

fn directory(command: &str) -> Verdict {
    nothing_written(command, &Around::default(), File::open("/").map_err(told)?.into())
}

fn input_closed(command: &str) -> Verdict {
    nothing_written(command, &INPUT_CLOSED, Stdio::null())
}

/// An input that does not wait, behind a whole line.
fn never_waits(command: &str) -> Verdict {
    let (theirs, mut input) = pipe().map_err(told)?;
    os::never_wait(&theirs).map_err(told)?;
    input.write_all(LINE.as_bytes()).map_err(told)?;
    nothing_written(command, &Around::default(), theirs.into())
}

type Case = fn(&str) -> Verdict;

const CASES: [(&str, Case); 7] = [
    ("output to a full device", full_device),
    ("a refusal to a full device", full_device_refused),
    ("output closed", output_closed),
    ("the reader gone", reader_gone),
    ("a directory as input", directory),
    ("input closed", input_closed),
    ("an input that does not wait", never_waits),
];

fn main() -> ExitCode {
    let Some(command) = std::env::args().nth(1) else {
        eprintln!("ends COMMAND");
        return ExitCode::from(2);
    };
    let mut failed = 0;
    for (name, case) in CASES {
        let verdict = case(&command);
        println!("{name}: {}", verdict.as_ref().err().map_or("as it should", String::as_str));
        failed += usize::from(verdict.is_err());
    }
    println!("{} passed, {failed} failed", CASES.len() - failed);
    ExitCode::from(u8::from(failed > 0))
}
