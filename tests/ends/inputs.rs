//! The inputs that are handed over, and where they are kept.

use crate::program::told;
use crate::Case;
use std::fs::File;
use std::io::{Seek, Write};
use std::process::{Command, Stdio};

/// How many bytes `station` reads at once, at most.
pub const BLOCK: usize = 1 << 16;

pub const RUNS: u64 = 16;

/// The settings of two controllers and 16 runs, and a start.
pub fn settings() -> String {
    let runs: String = (0..RUNS).map(|run| format!("K\t{run}\tC-{}\t1.0000\t1\n", 101 + run)).collect();
    format!("G\t2\t{RUNS}\nN\t1\t300\t99\n{runs}B\t0\t0\n")
}

/// A round up to its F, with other answers for each label: Q and A, R, F, and a refusal.
pub fn round(label: u64) -> String {
    let raw = |run: u64| (label * 7919 + run * 104_729) % 1_000_001;
    let readings: String = (3..RUNS).map(|run| format!("M\t{label}\t{run}\t{}\n", raw(run))).collect();
    format!("{readings}C\t{label}\nQ\t1\t{label}\tFFFF\nZ\nE\t{label}\n")
}

/// Settings and rounds.
pub fn rounds(labels: u64) -> String {
    settings() + &(1..=labels).map(round).collect::<String>()
}

/// A state, and lines that ask for it.
pub fn state(label: u64) -> String {
    let estimates = "\t40E8876000000000\t4052C00000000000".repeat(RUNS as usize);
    format!("U\t1\t{label}{estimates}\n")
}

impl Case<'_> {
    /// Keeps an input in a file and opens it at its start: how far it was read can be asked of it.
    pub fn kept(&self, input: &[u8]) -> Result<File, String> {
        let name = format!("{}/ends.in", self.folder);
        let mut options = File::options();
        let options = options.read(true).write(true).create(true).truncate(true);
        let mut file = options.open(name).map_err(told)?;
        file.write_all(input).map_err(told)?;
        file.rewind().map_err(told)?;
        Ok(file)
    }

    /// The true output: what the second program writes for an input.
    pub fn truth(&self, input: &[u8]) -> Result<Vec<u8>, String> {
        let mut shell = Command::new("sh");
        shell.arg("-c").arg(format!("exec {}", self.second)).stdin(self.kept(input)?);
        Ok(shell.stderr(Stdio::inherit()).output().map_err(told)?.stdout)
    }
}
