//! What the comparisons of two commands share: what is compared and by how many, and how an input is handed over.

use crate::random::Random;
use std::io::Write;
use std::process::ExitCode;
use std::sync::atomic::{AtomicU64, Ordering};
use std::thread;
use std::time::Duration;

/// Two commands, and so many inputs of a seed; what differs is kept in a folder.
pub struct Plan {
    pub commands: [String; 2],
    pub seed: u64,
    pub count: u64,
    workers: u64,
    pub folder: String,
}

/// The plan that the arguments say.
fn plan(count: u64) -> Option<Plan> {
    let mut arguments = std::env::args().skip(1);
    let commands = [arguments.next()?, arguments.next()?];
    let mut number = |default: u64| arguments.next().map_or(Some(default), |text| text.parse().ok());
    let (seed, count, workers) = (number(1)?, number(count)?, number(2)?);
    let folder = arguments.next().unwrap_or_else(|| ".".to_string());
    Some(Plan { commands, seed, count, workers, folder })
}

/// Runs a comparison by the plan that the arguments say, with so many inputs where they say nothing else.
pub fn by_arguments(count: u64, run: impl FnOnce(&Plan) -> ExitCode) -> ExitCode {
    match plan(count) {
        Some(plan) => run(&plan),
        None => {
            eprintln!("compare FIRST SECOND [SEED [COUNT [WORKERS [FOLDER]]]]");
            ExitCode::from(2)
        }
    }
}

/// Has each input looked at once, by all workers together, up to the first look that says to stop.
pub fn each(plan: &Plan, look: impl Fn(u64) -> bool + Sync) {
    let next = AtomicU64::new(0);
    let work = || while Some(next.fetch_add(1, Ordering::Relaxed)).filter(|n| *n < plan.count).is_some_and(&look) {};
    thread::scope(|scope| {
        for _ in 0..plan.workers.max(1) {
            scope.spawn(work);
        }
    });
}

/// An input cut anywhere, in pieces of at most so many bytes; after thirty of them comes all that is left.
pub fn cut<'a>(input: &'a [u8], random: &mut Random, longest: usize) -> Vec<&'a [u8]> {
    let (mut rest, mut pieces) = (input, Vec::new());
    while !rest.is_empty() && pieces.len() < 30 {
        let (piece, further) = rest.split_at(random.between(1, rest.len().min(longest) as u64) as usize);
        pieces.push(piece);
        rest = further;
    }
    pieces.push(rest);
    pieces
}

/// Hands an input's pieces over. A program that has ended takes no more, which is no fault.
pub fn hand_over(mut to: impl Write, pieces: &[&[u8]]) {
    for piece in pieces {
        if to.write_all(piece).and_then(|()| to.flush()).is_err() {
            return;
        }
        if pieces.len() > 1 {
            thread::sleep(Duration::from_micros(300));
        }
    }
}
