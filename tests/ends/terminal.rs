//! A pseudo-terminal as input and output: lines are typed there and answered as everywhere else.

use crate::inputs::rounds;
use crate::os;
use crate::program::{must, must_be, told, Program, Verdict};
use crate::Case;
use std::fs::File;
use std::io::{Read, Write};
use std::sync::mpsc::{channel, Receiver};
use std::thread;
use std::time::Duration;

/// How long a program is given to say something by itself.
const QUIET: Duration = Duration::from_millis(300);

/// How long an answer may take, where the program is built first too.
const ANSWER: Duration = Duration::from_secs(20);

/// What comes out at the terminal, piece by piece.
fn heard(mut typed: File) -> Receiver<Vec<u8>> {
    let (said, heard) = channel();
    thread::spawn(move || {
        let mut some = [0; 4096];
        // When the program's side is closed the read fails.
        while let Ok(count) = typed.read(&mut some) {
            if count == 0 || said.send(some[..count].to_vec()).is_err() {
                return;
            }
        }
    });
    heard
}

/// So many bytes of what comes out.
fn answer(heard: &Receiver<Vec<u8>>, length: usize) -> Result<Vec<u8>, String> {
    let mut came = Vec::new();
    while came.len() < length {
        came.extend(heard.recv_timeout(ANSWER).map_err(|_| format!("{} of {length} bytes came out", came.len()))?);
    }
    Ok(came)
}

/// Nothing comes before lines are typed; each of them has its answer; then the input ends, if it is to.
fn typed_lines(case: &Case, ending: bool) -> Verdict {
    let lines = rounds(3);
    let truth = case.truth(lines.as_bytes())?;
    let (mut typed, side) = os::terminal(ending).map_err(told)?;
    let program = Program::start(case.command, side.try_clone().map_err(told)?, side)?;
    let heard = heard(typed.try_clone().map_err(told)?);
    if let Ok(came) = heard.recv_timeout(QUIET) {
        return Err(format!("{:?} comes by itself", String::from_utf8_lossy(&came)));
    }
    for line in lines.split_inclusive('\n') {
        typed.write_all(line.as_bytes()).map_err(told)?;
    }
    must_be(&answer(&heard, truth.len())?, &truth)?;
    if !ending {
        return Ok(());
    }
    typed.write_all(&[4]).map_err(told)?;
    program.must_end("")?;
    must(heard.recv_timeout(QUIET).is_err(), || "more comes than was asked for".to_string())
}

/// A terminal that hands over whole lines, and can end the input.
pub fn of_lines(case: &Case) -> Verdict {
    typed_lines(case, true)
}

/// A terminal that hands over each byte.
pub fn of_bytes(case: &Case) -> Verdict {
    typed_lines(case, false)
}
