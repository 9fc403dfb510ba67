//! Inputs that end, and inputs that fail.

use crate::inputs::{rounds, settings};
use crate::os;
use crate::program::{must, must_be, told, Around, Program, Verdict, INPUT_FAILED};
use crate::Case;
use std::fs::File;
use std::io::{pipe, Read, Write};
use std::os::fd::OwnedFd;
use std::os::unix::net::UnixStream;
use std::process::Stdio;

const CLOSED: Around = Around { before: "", after: "<&-" };

/// A program writes the true output to the end, and nothing on standard error.
pub fn whole(case: &Case, input: &[u8]) -> Verdict {
    let truth = case.truth(input)?;
    let (mut output, ours) = pipe().map_err(told)?;
    let program = Program::start(case.command, case.kept(input)?, ours)?;
    let mut came = Vec::new();
    output.read_to_end(&mut came).map_err(told)?;
    must_be(&came, &truth)?;
    program.must_end("")
}

/// The input ends in the middle of a line, or of the settings: that is an end, and has its answer.
pub fn ends_within(case: &Case) -> Verdict {
    let line = rounds(1) + "M\t2\t0";
    must(case.truth(line.as_bytes())?.ends_with(b"X\t2\n"), || "the second program lacks X 2".to_string())?;
    whole(case, line.as_bytes())?;
    whole(case, &settings().as_bytes()[..30])
}

/// Refused settings are answered by X 15 and the end, though the input stays open.
pub fn refused_settings(case: &Case) -> Verdict {
    let settings = settings();
    let (_, without) = settings.split_once('\n').ok_or("no settings")?;
    let truth = case.truth(without.as_bytes())?;
    let (theirs, mut to) = pipe().map_err(told)?;
    let (mut output, ours) = pipe().map_err(told)?;
    let program = Program::start(case.command, theirs, ours)?;
    to.write_all(without.as_bytes()).map_err(told)?;
    let mut came = Vec::new();
    output.read_to_end(&mut came).map_err(told)?;
    must_be(&came, &truth)?;
    program.must_end("")
}

/// No byte can be read at all: nothing is answered, and X 15 is not.
fn nothing_read(case: &Case, around: &Around, input: Stdio) -> Verdict {
    let (mut output, ours) = pipe().map_err(told)?;
    let program = Program::start_in(around, case.command, input, ours)?;
    let mut came = Vec::new();
    output.read_to_end(&mut came).map_err(told)?;
    must_be(&came, b"")?;
    program.must_end(INPUT_FAILED)
}

pub fn closed(case: &Case) -> Verdict {
    nothing_read(case, &CLOSED, Stdio::null())
}

pub fn directory(case: &Case) -> Verdict {
    nothing_read(case, &Around::default(), File::open(case.folder).map_err(told)?.into())
}

/// An input that does not wait has these bytes, and more may come: what is whole is answered, a piece is not.
fn never_waits_after(case: &Case, input: &str, lines: &str) -> Verdict {
    let truth = case.truth(lines.as_bytes())?;
    let (theirs, mut to) = pipe().map_err(told)?;
    os::never_wait(&theirs).map_err(told)?;
    to.write_all(input.as_bytes()).map_err(told)?;
    let (mut output, ours) = pipe().map_err(told)?;
    let program = Program::start(case.command, theirs, ours)?;
    let mut came = Vec::new();
    output.read_to_end(&mut came).map_err(told)?;
    must_be(&came, &truth)?;
    program.must_end(INPUT_FAILED)
}

pub fn never_waits(case: &Case) -> Verdict {
    let (theirs, _to) = pipe().map_err(told)?;
    os::never_wait(&theirs).map_err(told)?;
    nothing_read(case, &Around::default(), theirs.into())
}

/// Within a line, and between two lines.
pub fn never_waits_within(case: &Case) -> Verdict {
    never_waits_after(case, &(rounds(3) + "M\t4\t0"), &rounds(3))?;
    never_waits_after(case, &rounds(3), &rounds(3))
}

/// Within the settings: they are not refused, since the rest may come.
pub fn never_waits_settings(case: &Case) -> Verdict {
    let (theirs, mut to) = pipe().map_err(told)?;
    os::never_wait(&theirs).map_err(told)?;
    to.write_all(&settings().as_bytes()[..30]).map_err(told)?;
    nothing_read(case, &Around::default(), theirs.into())
}

/// A socket is both ends; the other side goes with answers unread, which makes the next read fail.
pub fn reset(case: &Case) -> Verdict {
    let input = rounds(1) + "M\t2\t0";
    let truth = case.truth(rounds(1).as_bytes())?;
    let (mut ours, theirs) = UnixStream::pair().map_err(told)?;
    let theirs: OwnedFd = theirs.into();
    let program = Program::start(case.command, theirs.try_clone().map_err(told)?, theirs)?;
    ours.write_all(input.as_bytes()).map_err(told)?;
    let mut came = vec![0; truth.len() - 1];
    ours.read_exact(&mut came).map_err(told)?;
    must_be(&came, &truth[..truth.len() - 1])?;
    drop(ours);
    program.must_end(INPUT_FAILED)
}
