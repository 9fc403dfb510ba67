//! A second `certificates`: the export by standard input, a day and the serials as words, the K lines or one X by standard
//! output, and where the fault is by standard error.

use crate::line::write_refusal;
use crate::store::{k_lines, Place};
use std::io::{self, Read, Write};
use std::process::ExitCode;

/// What goes to standard output, and to standard error. A missing day is an empty one.
pub fn answer(export: &[u8], words: &[&[u8]]) -> (Vec<u8>, String) {
    let (day, serials) = match words {
        [] => (&[][..], words),
        [day, serials @ ..] => (*day, serials),
    };
    match k_lines(export, day, serials.len(), serials) {
        Ok(lines) => (lines.concat(), String::new()),
        Err((number, place)) => {
            let mut refusal = Vec::new();
            write_refusal(number, &mut refusal);
            (refusal, if place == Place::Nowhere { String::new() } else { format!("{place}\n") })
        }
    }
}

/// Where the input or the output fails nothing more is written but that; the status is 0 as that of the first program.
fn serve(words: &[&[u8]]) -> Result<String, &'static str> {
    let mut export = Vec::new();
    io::stdin().lock().read_to_end(&mut export).map_err(|_| "input failed")?;
    let (output, place) = answer(&export, words);
    let mut stdout = io::stdout().lock();
    stdout.write_all(&output).and_then(|()| stdout.flush()).map_err(|_| "output failed")?;
    Ok(place)
}

pub fn run(words: &[&[u8]]) -> ExitCode {
    match serve(words) {
        Ok(place) => eprint!("{place}"),
        Err(failure) => eprintln!("certificates: {failure}"),
    }
    ExitCode::SUCCESS
}
