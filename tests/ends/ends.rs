//! The ends of a `station` program: outputs and inputs that fail, wait or stop, a terminal, and how input is cut.
//!
//! `ends COMMAND SECOND [FOLDER [SCRIPT]]`: commands are run by `sh`. In each case what came out is a beginning of what
//! the second program writes, cut at one place and nowhere else, and the program ends or goes on as documented.

mod blocks;
mod inputs;
mod os;
mod program;
mod reading;
mod terminal;
mod writing;

use program::Verdict;
use std::process::ExitCode;
use std::time::Instant;

/// What a case is tried on.
pub struct Case<'a> {
    command: &'a str,
    second: &'a str,
    folder: &'a str,
}

#[rustfmt::skip]
const CASES: [(&str, fn(&Case) -> Verdict); 18] = [
    ("output to a full device", writing::full_device),
    ("output closed", writing::closed),
    ("the reader gone", writing::reader_gone),
    ("the reader gone within a write", writing::reader_gone_within),
    ("an output that does not wait", writing::never_waits),
    ("a write in parts", writing::goes_on),
    ("input ends within a line, or the settings", reading::ends_within),
    ("refused settings, and the input stays open", reading::refused_settings),
    ("input closed", reading::closed),
    ("a directory as input", reading::directory),
    ("an input that does not wait", reading::never_waits),
    ("the same within lines", reading::never_waits_within),
    ("the same within the settings", reading::never_waits_settings),
    ("a connection reset", reading::reset),
    ("a terminal that hands over lines", terminal::of_lines),
    ("a terminal that hands over bytes", terminal::of_bytes),
    ("line ends around the edges of full blocks", blocks::at_edges),
    ("15,000 lines one by one", blocks::one_by_one),
];

/// Runs a case and says what came of it.
fn passes(case: &Case, name: &str, run: fn(&Case) -> Verdict) -> bool {
    let began = Instant::now();
    let verdict = run(case);
    match &verdict {
        Ok(()) => println!("{name}: as it should ({} ms)", began.elapsed().as_millis()),
        Err(fault) => println!("{name}: {fault}"),
    }
    verdict.is_ok()
}

fn main() -> ExitCode {
    let arguments: Vec<String> = std::env::args().skip(1).collect();
    let [command, second, more @ ..] = &arguments[..] else {
        eprintln!("ends COMMAND SECOND [FOLDER [SCRIPT]]");
        return ExitCode::from(2);
    };
    let folder = more.first().map_or(".", String::as_str);
    let mut passed =
        CASES.iter().map(|(name, run)| passes(&Case { command, second, folder }, name, *run)).collect::<Vec<_>>();
    if let Some(script) = more.get(1) {
        passed.push(passes(&Case { command: script, second, folder }, "the script at a terminal", terminal::of_lines));
    }
    let failed = passed.iter().filter(|passed| !**passed).count();
    println!("{} passed, {failed} failed", passed.len() - failed);
    ExitCode::from(u8::from(failed > 0))
}
