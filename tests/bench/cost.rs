//! Prints the nanoseconds of processor time that a command takes for an input, the best of some runs.
//!
//! `cost TIMES INPUT PROGRAM [WORDS]`. What else the machine runs lengthens this less than the time that passes.

use std::ffi::c_int;
use std::fs::File;
use std::process::{Command, ExitCode, Stdio};

/// What a process used: seconds and microseconds for itself and for the system, and more that is not asked for.
#[repr(C)]
#[derive(Default)]
struct Used {
    times: [i64; 4],
    rest: [i64; 28],
}

extern "C" {
    fn wait4(process: c_int, status: *mut c_int, options: c_int, used: *mut Used) -> c_int;
}

fn once(input: &str, words: &[String]) -> Option<i64> {
    let mut command = Command::new(&words[0]);
    command.args(&words[1..]).stdin(File::open(input).ok()?).stdout(Stdio::null());
    let child = command.spawn().ok()?;
    let (mut status, mut used) = (0, Used::default());
    let ended = unsafe { wait4(child.id() as c_int, &mut status, 0, &mut used) };
    let [own_s, own_us, system_s, system_us] = used.times;
    (ended > 0 && status == 0).then_some(((own_s + system_s) * 1_000_000 + own_us + system_us) * 1000)
}

fn main() -> ExitCode {
    let words: Vec<String> = std::env::args().skip(1).collect();
    let [times, input, command @ ..] = &words[..] else {
        eprintln!("cost TIMES INPUT PROGRAM [WORDS]");
        return ExitCode::from(2);
    };
    let runs: Option<Vec<i64>> = (0..times.parse().unwrap_or(1).max(1)).map(|_| once(input, command)).collect();
    match runs.and_then(|runs| runs.into_iter().min()) {
        Some(best) => {
            println!("{best}");
            ExitCode::SUCCESS
        }
        None => {
            eprintln!("{command:?} can't be measured");
            ExitCode::FAILURE
        }
    }
}
