//! A program that runs, with ends of the test's choice, and how it ended.

use crate::os;
use std::io::{self, Read};
use std::os::unix::process::ExitStatusExt;
use std::process::{Child, Command, Stdio};
use std::sync::mpsc::{channel, Sender};
use std::thread;
use std::time::Duration;

/// How long a program may take for one case.
const PATIENCE: Duration = Duration::from_secs(30);

/// What standard error says where the program stopped for a failure.
pub const OUTPUT_FAILED: &str = "station: output failed\n";
pub const INPUT_FAILED: &str = "station: input failed\n";

pub type Verdict = Result<(), String>;

pub struct Program {
    child: Child,
    watched: Sender<()>,
}

/// Text of the shell around a command.
#[derive(Default)]
pub struct Around {
    pub before: &'static str,
    pub after: &'static str,
}

impl Program {
    pub fn start(command: &str, input: impl Into<Stdio>, output: impl Into<Stdio>) -> Result<Program, String> {
        Program::start_in(&Around::default(), command, input, output)
    }

    /// Starts a command. It is ended where it takes too long.
    pub fn start_in(
        around: &Around,
        command: &str,
        input: impl Into<Stdio>,
        output: impl Into<Stdio>,
    ) -> Result<Program, String> {
        let mut shell = Command::new("sh");
        shell.arg("-c").arg(format!("{}exec {command} {}", around.before, around.after));
        shell.stdin(input).stdout(output).stderr(Stdio::piped());
        let child = shell.spawn().map_err(told)?;
        let (watched, end) = channel();
        let number = child.id();
        thread::spawn(move || {
            if end.recv_timeout(PATIENCE).is_err_and(|e| e == std::sync::mpsc::RecvTimeoutError::Timeout) {
                let _ = os::signal(number, os::SIGKILL);
            }
        });
        Ok(Program { child, watched })
    }

    pub fn number(&self) -> u32 {
        self.child.id()
    }

    /// Whether the program ends within a time.
    pub fn ends_within(&mut self, time: Duration) -> Result<bool, String> {
        let step = Duration::from_millis(2);
        let mut waited = Duration::ZERO;
        while waited < time {
            if self.child.try_wait().map_err(told)?.is_some() {
                return Ok(true);
            }
            thread::sleep(step);
            waited += step;
        }
        Ok(false)
    }

    /// Waits for the end, which has status 0 and exactly these words on standard error.
    pub fn must_end(mut self, words: &str) -> Verdict {
        let status = self.child.wait().map_err(told)?;
        let _ = self.watched.send(());
        let mut said = String::new();
        let errors = self.child.stderr.as_mut().ok_or("no standard error")?;
        errors.read_to_string(&mut said).map_err(told)?;
        match status.signal() {
            Some(os::SIGKILL) => return Err("it doesn't end".to_string()),
            Some(signal) => return Err(format!("it was ended by signal {signal}")),
            None => {}
        }
        must(said == words, || format!("standard error says {said:?} and not {words:?}"))?;
        must(status.success(), || format!("its status is {status}"))
    }
}

impl Drop for Program {
    fn drop(&mut self) {
        let _ = self.watched.send(());
        let _ = self.child.kill();
        let _ = self.child.wait();
    }
}

pub fn told(error: io::Error) -> String {
    error.to_string()
}

pub fn must(holds: bool, fault: impl FnOnce() -> String) -> Verdict {
    if holds {
        Ok(())
    } else {
        Err(fault())
    }
}

/// What came out is a beginning of the true output.
pub fn must_begin(came: &[u8], truth: &[u8]) -> Verdict {
    let same = came.iter().zip(truth).take_while(|(a, b)| a == b).count();
    must(same == came.len(), || {
        format!("of {} bytes that came out byte {same} is not that of the true output", came.len())
    })
}

/// What came out is the true output.
pub fn must_be(came: &[u8], truth: &[u8]) -> Verdict {
    must_begin(came, truth)?;
    must(came.len() == truth.len(), || format!("{} of {} bytes came out", came.len(), truth.len()))
}
