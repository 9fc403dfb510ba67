//! Runs two station programs on the same seeded inputs and compares what they write, byte by byte.
//!
//! `compare FIRST SECOND [SEED [COUNT [WORKERS [FOLDER]]]]`: commands are run by `sh`. At the first
//! difference the input and both outputs are written to the folder.

mod damage;
mod generate;

#[path = "../drawn.rs"]
mod drawn;
#[path = "../random.rs"]
mod random;

// The model that steers the inputs is the second program's own.
#[path = "../second/controller.rs"]
mod controller;
#[path = "../second/filter.rs"]
mod filter;
#[path = "../second/line.rs"]
mod line;
#[path = "../second/session.rs"]
mod session;
#[allow(dead_code)]
#[path = "../second/vote.rs"]
mod vote;
#[path = "../second/wrong.rs"]
mod wrong;

use drawn::Plan;
use generate::Events;
use random::Random;
use std::collections::BTreeMap;
use std::io::Read;
use std::process::{Child, Command, ExitCode, Stdio};
use std::sync::mpsc::channel;
use std::sync::Mutex;
use std::thread;
use std::time::Duration;

/// The answers to the session of document 01, which is input 0.
const ANSWERS: &str = "F\t1\nD\t0\t1\t0\t0003\nS\t0\t1\t0\t0003\t40F24F8000000000\t40D86A0000000000\n\
    U\t0\t1\t40E8876000000000\t4052C00000000000\t40E84CA000000000\t4052C00000000000\nX\t8\n";

/// What lines can lead to: 14 needs a vote that no line can bring, 16 a shorter buffer.
#[rustfmt::skip]
const REACHABLE: [&str; 21] = [
    "A", "D", "F", "Q", "R", "S", "U", "X 1", "X 2", "X 3", "X 4", "X 5", "X 6", "X 7", "X 8", "X 9", "X 10", "X 11",
    "X 12", "X 13", "X 15",
];

/// From so many inputs on, all that lines can lead to must have been covered.
const ENOUGH: u64 = 1000;

/// How long a program may take for one input.
const PATIENCE: Duration = Duration::from_secs(60);

/// What the inputs compared so far came to.
#[derive(Default)]
struct Coverage {
    inputs: u64,
    lines: u64,
    answers: BTreeMap<String, u64>,
    events: Events,
}

/// An input on which the programs differ.
struct Difference {
    number: u64,
    what: String,
    input: Vec<u8>,
    outputs: [Vec<u8>; 2],
}

fn start(command: &str) -> Child {
    let mut shell = Command::new("sh");
    shell.arg("-c").arg(format!("exec {command}"));
    shell.stdin(Stdio::piped()).stdout(Stdio::piped());
    shell.spawn().expect("the command can't be started")
}

/// The pieces in which an input is handed over: mostly one, else cut anywhere.
fn pieces(input: &[u8], number: u64) -> Vec<&[u8]> {
    if number % 16 != 5 {
        return vec![input];
    }
    drawn::cut(input, &mut Random::new(number, 0), 700)
}

/// What a command writes for an input, or why it has no answer.
fn output(command: &str, input: &[u8], number: u64) -> (Vec<u8>, Option<String>) {
    let mut child = start(command);
    let (stdin, mut stdout) = (child.stdin.take().unwrap(), child.stdout.take().unwrap());
    let (done, result) = channel();
    thread::scope(|scope| {
        scope.spawn(move || drawn::hand_over(stdin, &pieces(input, number)));
        scope.spawn(move || {
            let mut bytes = Vec::new();
            let read = stdout.read_to_end(&mut bytes);
            let _ = done.send(read.map(|_| bytes));
        });
        let result = result.recv_timeout(PATIENCE);
        if result.is_err() {
            let _ = child.kill();
        }
        let status = child.wait().expect("the command was started");
        match result {
            Err(_) => (Vec::new(), Some(format!("doesn't end: {command}"))),
            Ok(Err(e)) => (Vec::new(), Some(format!("{command}: {e}"))),
            Ok(Ok(bytes)) if status.code().is_none() => (bytes, Some(format!("was ended by a signal: {command}"))),
            Ok(Ok(bytes)) => (bytes, None),
        }
    })
}

/// The answers in an output by kind, refusals by number too.
fn count_answers(output: &[u8], answers: &mut BTreeMap<String, u64>) {
    for line in output.split(|b| *b == b'\n').filter(|line| !line.is_empty()) {
        let text = String::from_utf8_lossy(line);
        let mut fields = text.split('\t');
        let kind = fields.next().unwrap_or("").to_string();
        let name = if kind == "X" { format!("X {}", fields.next().unwrap_or("")) } else { kind };
        *answers.entry(name).or_insert(0) += 1;
    }
}

fn first_difference(outputs: &[Vec<u8>; 2]) -> usize {
    let same = outputs[0].iter().zip(&outputs[1]).take_while(|(a, b)| a == b).count();
    outputs[0][..same].iter().filter(|b| **b == b'\n').count() + 1
}

/// What is wrong with two outputs, if anything.
fn judge(number: u64, outputs: &[Vec<u8>; 2], troubles: [Option<String>; 2]) -> Option<String> {
    if let Some(trouble) = troubles.into_iter().flatten().next() {
        return Some(trouble);
    }
    if number == 0 && outputs[0] != ANSWERS.as_bytes() {
        return Some("not the answers of document 01's session".to_string());
    }
    (outputs[0] != outputs[1]).then(|| format!("line {} of the outputs", first_difference(outputs)))
}

fn compare(plan: &Plan, number: u64, coverage: &Mutex<Coverage>) -> Option<Difference> {
    let input = generate::input(plan.seed, number);
    let (first, first_trouble) = output(&plan.commands[0], &input.bytes, number);
    let (second, second_trouble) = output(&plan.commands[1], &input.bytes, number);
    let outputs = [first, second];
    if let Some(what) = judge(number, &outputs, [first_trouble, second_trouble]) {
        return Some(Difference { number, what, input: input.bytes, outputs });
    }
    let mut coverage = coverage.lock().unwrap();
    coverage.inputs += 1;
    coverage.lines += input.bytes.iter().filter(|b| **b == b'\n').count() as u64;
    count_answers(&outputs[1], &mut coverage.answers);
    for (event, count) in input.events {
        *coverage.events.entry(event).or_insert(0) += count;
    }
    None
}

/// Compares an input, unless one differs already: then there is nothing more to compare.
fn look(plan: &Plan, number: u64, coverage: &Mutex<Coverage>, found: &Mutex<Option<Difference>>) -> bool {
    if found.lock().unwrap().is_some() {
        return false;
    }
    if let Some(difference) = compare(plan, number, coverage) {
        let mut found = found.lock().unwrap();
        if found.as_ref().is_none_or(|other| difference.number < other.number) {
            *found = Some(difference);
        }
    }
    true
}

fn keep(plan: &Plan, difference: &Difference) {
    let name = format!("{}/compare-{}-{}", plan.folder, plan.seed, difference.number);
    println!("input {} of seed {} differs: {}", difference.number, plan.seed, difference.what);
    let files = [("in", &difference.input), ("first", &difference.outputs[0]), ("second", &difference.outputs[1])];
    for (ending, bytes) in files {
        let file = format!("{name}.{ending}");
        match std::fs::write(&file, bytes) {
            Ok(()) => println!("{ending}: {file}"),
            Err(e) => println!("{ending}: {file}: {e}"),
        }
    }
}

fn print_coverage(coverage: &Coverage) {
    println!("{} inputs, {} lines", coverage.inputs, coverage.lines);
    let mut answers: Vec<_> = coverage.answers.iter().collect();
    answers.sort_by_key(|(name, _)| REACHABLE.iter().position(|r| r == name));
    let answers: Vec<String> = answers.iter().map(|(name, count)| format!("{name}: {count}")).collect();
    println!("answers: {}", answers.join(", "));
    let faults: [&str; 2] = ["settings refused at line ", "settings refused for "];
    for fault in faults {
        println!("{fault}{}", told(&coverage.events, |event| event.strip_prefix(fault)));
    }
    let others =
        told(&coverage.events, |event| Some(event).filter(|e| !faults.iter().any(|fault| e.starts_with(fault))));
    println!("{others}");
}

/// The events that have a name, with their counts.
fn told(events: &Events, name: impl Fn(&str) -> Option<&str>) -> String {
    let named = events.iter().filter_map(|(event, count)| Some(format!("{}: {count}", name(event)?.trim_start())));
    named.collect::<Vec<String>>().join(", ")
}

/// What lines can lead to and these inputs did not.
fn uncovered(coverage: &Coverage) -> Vec<&'static str> {
    REACHABLE.into_iter().filter(|name| !coverage.answers.contains_key(*name)).collect()
}

fn run(plan: &Plan) -> ExitCode {
    let (coverage, found) = (Mutex::default(), Mutex::new(None));
    drawn::each(plan, |number| look(plan, number, &coverage, &found));
    let coverage: Coverage = coverage.into_inner().unwrap();
    print_coverage(&coverage);
    let uncovered = uncovered(&coverage);
    println!("not covered: {}", if uncovered.is_empty() { "nothing".to_string() } else { uncovered.join(", ") });
    let difference = found.into_inner().unwrap();
    if let Some(difference) = &difference {
        keep(plan, difference);
    }
    let lacking = plan.count >= ENOUGH && !uncovered.is_empty();
    let failed = u8::from(difference.is_some() || lacking);
    println!("{} passed, {failed} failed", coverage.inputs);
    ExitCode::from(failed)
}

fn main() -> ExitCode {
    drawn::by_arguments(3000, run)
}
