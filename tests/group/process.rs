//! A station process and the pipes to it.

use std::io::{BufRead, BufReader, Write};
use std::process::{Child, ChildStdin, ChildStdout, Command, Stdio};

/// A line of no kind, and its answer: whatever comes before is the answer to the line before it.
const PROBE: &str = "Z\n";
const PROBE_ANSWER: &str = "X\t3\n";

pub struct Process {
    child: Child,
    to: ChildStdin,
    from: BufReader<ChildStdout>,
}

impl Process {
    /// Starts the command and hands it the settings, which have no answer.
    pub fn start(command: &str, settings: &str) -> Result<Process, String> {
        let mut shell = Command::new("sh");
        shell.arg("-c").arg(format!("exec {command}")).stdin(Stdio::piped()).stdout(Stdio::piped());
        let mut child = shell.spawn().map_err(|e| e.to_string())?;
        let to = child.stdin.take().expect("a pipe");
        let from = BufReader::new(child.stdout.take().expect("a pipe"));
        let mut process = Process { child, to, from };
        process.write(settings)?;
        Ok(process)
    }

    fn write(&mut self, text: &str) -> Result<(), String> {
        self.to.write_all(text.as_bytes()).map_err(|e| format!("a process takes no lines: {e}"))
    }

    /// Hands a line over and gives the answers to it.
    pub fn hand(&mut self, line: &str) -> Result<Vec<String>, String> {
        self.write(&format!("{line}{PROBE}"))?;
        let mut answers = Vec::new();
        loop {
            let mut answer = String::new();
            let length = self.from.read_line(&mut answer).map_err(|e| e.to_string())?;
            if length == 0 {
                return Err(format!("a process ended at {line:?}"));
            }
            if answer == PROBE_ANSWER {
                return Ok(answers);
            }
            answers.push(answer);
        }
    }
}

impl Drop for Process {
    fn drop(&mut self) {
        let _ = self.child.kill();
        let _ = self.child.wait();
    }
}
