//! Outputs that take nothing, or not all, or only slowly.

use crate::inputs::{round, rounds, BLOCK};
use crate::os;
use crate::program::{must, must_be, must_begin, told, Around, Program, Verdict, OUTPUT_FAILED};
use crate::Case;
use std::fs::File;
use std::io::{pipe, PipeReader, PipeWriter, Read, Seek, Write};
use std::process::Stdio;
use std::thread;
use std::time::Duration;

/// The least that a pipe holds.
const PIPE: i32 = 4096;

/// Enough rounds for answers of several pipes and inputs of several blocks.
const ROUNDS: u64 = 1000;

/// Longer than a program takes to end that was told to.
const LONG: Duration = Duration::from_secs(5);

const DEAF: Around = Around { before: "trap '' PIPE; ", after: "" };
const CLOSED: Around = Around { before: "", after: ">&-" };

/// The first write fails: nothing more is read than the block that it answers.
fn nothing_taken(case: &Case, around: &Around, output: Stdio) -> Verdict {
    let mut file = case.kept(rounds(ROUNDS).as_bytes())?;
    let program = Program::start_in(around, case.command, file.try_clone().map_err(told)?, output)?;
    program.must_end(OUTPUT_FAILED)?;
    let read = file.stream_position().map_err(told)?;
    must(read <= BLOCK as u64, || format!("{read} bytes were read"))
}

pub fn full_device(case: &Case) -> Verdict {
    let device = File::options().write(true).open("/dev/full").map_err(told)?;
    nothing_taken(case, &Around::default(), device.into())
}

pub fn closed(case: &Case) -> Verdict {
    nothing_taken(case, &CLOSED, Stdio::null())
}

/// The settings and a round are answered, then the reader goes; the input stays open.
pub fn reader_gone(case: &Case) -> Verdict {
    let truth = case.truth(rounds(1).as_bytes())?;
    let (theirs, mut input) = pipe().map_err(told)?;
    let (mut output, ours) = pipe().map_err(told)?;
    let program = Program::start_in(&DEAF, case.command, theirs, ours)?;
    input.write_all(rounds(1).as_bytes()).map_err(told)?;
    let mut came = vec![0; truth.len()];
    output.read_exact(&mut came).map_err(told)?;
    must_be(&came, &truth)?;
    drop(output);
    input.write_all(round(2).as_bytes()).map_err(told)?;
    program.must_end(OUTPUT_FAILED)
}

/// The reader goes in the middle of a write of which a part was taken.
pub fn reader_gone_within(case: &Case) -> Verdict {
    let input = rounds(ROUNDS);
    let truth = case.truth(input.as_bytes())?;
    let mut file = case.kept(input.as_bytes())?;
    let (mut output, ours) = pipe().map_err(told)?;
    os::resize(&ours, PIPE).map_err(told)?;
    let program = Program::start_in(&DEAF, case.command, file.try_clone().map_err(told)?, ours)?;
    let mut came = vec![0; 5000];
    output.read_exact(&mut came).map_err(told)?;
    drop(output);
    must_begin(&came, &truth)?;
    program.must_end(OUTPUT_FAILED)?;
    let read = file.stream_position().map_err(told)?;
    must(read <= BLOCK as u64, || format!("{read} bytes were read"))
}

/// An output that does not wait takes a part, and the program ends. The pipe is emptied and more is handed over: nothing
/// more comes.
pub fn never_waits(case: &Case) -> Verdict {
    let first = rounds(ROUNDS);
    let rest: String = (ROUNDS + 1..=2 * ROUNDS).map(round).collect();
    let truth = case.truth((first.clone() + &rest).as_bytes())?;
    let (theirs, input) = pipe().map_err(told)?;
    let (mut output, ours) = pipe().map_err(told)?;
    os::resize(&ours, PIPE).map_err(told)?;
    os::never_wait(&ours).map_err(told)?;
    let mut program = Program::start(case.command, theirs, ours)?;
    let handing = hand(input, first);
    let ended = program.ends_within(LONG)?;
    let mut came = vec![0; PIPE as usize];
    output.read_exact(&mut came).map_err(told)?;
    let input = handing.join().map_err(|_| "the input can't be handed over")?;
    drop(hand(input, rest));
    came.extend(slowly(output)?);
    must_begin(&came, &truth)?;
    must(ended, || "it goes on after a write that failed".to_string())?;
    program.must_end(OUTPUT_FAILED)
}

/// Hands an input over beside the test. A program that has ended takes no more, which is no fault.
fn hand(mut to: PipeWriter, input: String) -> thread::JoinHandle<PipeWriter> {
    thread::spawn(move || {
        let _ = to.write_all(input.as_bytes());
        to
    })
}

/// Reads to the end, a little at a time.
fn slowly(mut output: PipeReader) -> Result<Vec<u8>, String> {
    let (mut came, mut some) = (Vec::new(), [0; 512]);
    loop {
        match output.read(&mut some).map_err(told)? {
            0 => return Ok(came),
            count => came.extend_from_slice(&some[..count]),
        }
        thread::sleep(Duration::from_micros(100));
    }
}

/// An output that waits, and a write that is stopped when a part was taken: it goes on where it stopped.
pub fn goes_on(case: &Case) -> Verdict {
    let input = rounds(ROUNDS);
    let truth = case.truth(input.as_bytes())?;
    let (mut output, ours) = pipe().map_err(told)?;
    os::resize(&ours, PIPE).map_err(told)?;
    let program = Program::start(case.command, case.kept(input.as_bytes())?, ours)?;
    let mut came = Vec::new();
    for _ in 0..20 {
        let mut some = [0; 1500];
        output.read_exact(&mut some).map_err(told)?;
        came.extend_from_slice(&some);
        thread::sleep(Duration::from_millis(2));
        os::signal(program.number(), os::SIGSTOP).map_err(told)?;
        thread::sleep(Duration::from_millis(1));
        os::signal(program.number(), os::SIGCONT).map_err(told)?;
    }
    came.extend(slowly(output)?);
    must_be(&came, &truth)?;
    program.must_end("")
}
