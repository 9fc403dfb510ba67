//! Runs two `certificates` programs on the same exports, days and serials, fixed ones and seeded ones, and compares what they
//! write, by standard output and by standard error.
//!
//! `compare FIRST SECOND [SEED [COUNT [WORKERS [FOLDER]]]]`: commands are run by `sh`, with a day and serials as further words.
//! Of the first three differences the export, the words and both answers are told; the exports are written to the folder.

mod draw;
mod edges;

#[path = "../drawn.rs"]
mod drawn;
#[path = "../random.rs"]
mod random;

use draw::Drawn;
use drawn::Plan;
use random::Random;
use std::collections::BTreeMap;
use std::ffi::OsStr;
use std::io::Read;
use std::os::unix::ffi::OsStrExt;
use std::process::{Child, Command, ExitCode, Stdio};
use std::sync::mpsc::{channel, RecvTimeoutError};
use std::sync::Mutex;
use std::thread;
use std::time::Duration;

/// What can be answered: 0 is K lines. The program's own buffer is never too short, so 16 is not there.
const REACHABLE: [u32; 9] = [0, 1, 2, 4, 5, 6, 17, 18, 19];

/// From so many exports on, all that can be answered must have been.
const ENOUGH: u64 = 500;

/// How long a program may take for one export.
const PATIENCE: Duration = Duration::from_secs(60);

/// How many differences are told.
const TOLD: usize = 3;

/// What a program wrote: standard output and standard error, or why there is no answer.
struct Answer {
    output: Vec<u8>,
    errors: Vec<u8>,
    trouble: Option<String>,
}

struct Difference {
    number: u64,
    what: String,
    drawn: Drawn,
    answers: [Answer; 2],
}

/// What the exports compared so far came to.
#[derive(Default)]
struct Found {
    same: u64,
    bytes: usize,
    numbers: BTreeMap<u32, u64>,
    differences: Vec<Difference>,
}

fn start(command: &str, words: &[Vec<u8>]) -> Child {
    let mut shell = Command::new("sh");
    shell.arg("-c").arg(format!("exec {command} \"$@\"")).arg("sh");
    shell.args(words.iter().map(|word| OsStr::from_bytes(word)));
    shell.stdin(Stdio::piped()).stdout(Stdio::piped()).stderr(Stdio::piped());
    shell.spawn().expect("the command can't be started")
}

/// The pieces in which an export is handed over: mostly one, else cut anywhere.
fn pieces(export: &[u8], number: u64) -> Vec<&[u8]> {
    if number % 8 != 5 {
        return vec![export];
    }
    let mut random = Random::new(number, 0);
    let longest = random.pick(&[10, 700, 70_000]);
    drawn::cut(export, &mut random, longest)
}

fn read_all(mut from: impl Read) -> Vec<u8> {
    let mut bytes = Vec::new();
    let _ = from.read_to_end(&mut bytes);
    bytes
}

fn answer(command: &str, drawn: &Drawn, number: u64) -> Answer {
    let mut child = start(command, &drawn.words());
    let export = drawn.export();
    let (stdin, stdout, stderr) = (child.stdin.take(), child.stdout.take(), child.stderr.take());
    let (done, result) = channel();
    thread::scope(|scope| {
        scope.spawn(|| drawn::hand_over(stdin.unwrap(), &pieces(&export, number)));
        let errors = scope.spawn(|| read_all(stderr.unwrap()));
        scope.spawn(move || done.send(read_all(stdout.unwrap())));
        let output = result.recv_timeout(PATIENCE);
        if output == Err(RecvTimeoutError::Timeout) {
            let _ = child.kill();
        }
        let status = child.wait().expect("the command was started");
        let trouble = match &output {
            Err(_) => Some("doesn't end".to_string()),
            Ok(_) => (!status.success()).then(|| status.to_string()),
        };
        Answer { output: output.unwrap_or_default(), errors: errors.join().unwrap_or_default(), trouble }
    })
}

/// What is wrong with two answers, if anything.
fn judge(number: u64, answers: &[Answer; 2]) -> Option<String> {
    if let Some(answer) = answers.iter().find(|answer| answer.trouble.is_some()) {
        return answer.trouble.clone();
    }
    let [first, second] = answers;
    if edges::known(number as usize).is_some_and(|(output, errors)| first.output != output || first.errors != errors) {
        return Some("not the answer of request 1's example".to_string());
    }
    if first.output != second.output {
        return Some(format!("line {} of the output", first_difference(first, second) + 1));
    }
    (first.errors != second.errors).then(|| "standard error".to_string())
}

fn output_lines(answer: &Answer) -> Vec<&[u8]> {
    answer.output.split_inclusive(|byte| *byte == b'\n').collect()
}

/// The first line of the outputs that is not the same, from 0.
fn first_difference(first: &Answer, second: &Answer) -> usize {
    output_lines(first).iter().zip(output_lines(second)).take_while(|(a, b)| **a == *b).count()
}

/// The number of an output: that of its X, and 0 for K lines.
fn number_of(output: &[u8]) -> Option<u32> {
    match output {
        [b'K', b'\t', ..] => Some(0),
        [b'X', b'\t', digits @ .., b'\n'] => String::from_utf8_lossy(digits).parse().ok(),
        _ => None,
    }
}

fn compare(plan: &Plan, edges: &[Drawn], number: u64, found: &Mutex<Found>) {
    let drawn = edges.get(number as usize).cloned().unwrap_or_else(|| draw::drawn(plan.seed, number));
    let answers = [0, 1].map(|which| answer(&plan.commands[which], &drawn, number));
    let what = judge(number, &answers);
    let mut found = found.lock().unwrap();
    found.bytes += drawn.lines.iter().map(Vec::len).sum::<usize>();
    if let Some(number) = number_of(&answers[1].output) {
        *found.numbers.entry(number).or_insert(0) += 1;
    }
    match what {
        Some(what) => found.differences.push(Difference { number, what, drawn, answers }),
        None => found.same += 1,
    }
}

/// Bytes as they can be typed, cut where they are many.
fn shown(bytes: &[u8]) -> String {
    let cut = &bytes[..bytes.len().min(400)];
    let rest = if cut.len() < bytes.len() { format!("... ({} bytes)", bytes.len()) } else { String::new() };
    format!("'{}'{rest}", cut.escape_ascii())
}

fn tell(plan: &Plan, difference: &Difference) {
    println!("input {} of seed {} differs: {}", difference.number, plan.seed, difference.what);
    let file = format!("{}/store-{}-{}.in", plan.folder, plan.seed, difference.number);
    let export = difference.drawn.export();
    match std::fs::write(&file, &export) {
        Ok(()) => println!("  export: {file}: {} bytes", export.len()),
        Err(e) => println!("  export: {file}: {e}"),
    }
    let words: Vec<String> = difference.drawn.words().iter().map(|word| shown(word)).collect();
    println!("  words: {}", words.join(" "));
    let line = first_difference(&difference.answers[0], &difference.answers[1]);
    for (name, answer) in ["first", "second"].iter().zip(&difference.answers) {
        let lines = output_lines(answer);
        let line = lines.get(line).or(lines.last()).copied().unwrap_or(&[]);
        println!("  {name}: {}, standard error {}", shown(line), shown(&answer.errors));
    }
}

fn run(plan: &Plan) -> ExitCode {
    let (edges, found) = (edges::edges(), Mutex::default());
    drawn::each(plan, |number| {
        compare(plan, &edges, number, &found);
        true
    });
    let mut found: Found = found.into_inner().unwrap();
    println!("{} exports, {} bytes", plan.count, found.bytes);
    let numbers: Vec<String> = found.numbers.iter().map(|(number, count)| format!("{number}: {count}")).collect();
    println!("answers: {}", numbers.join(", "));
    let uncovered: Vec<String> =
        REACHABLE.iter().filter(|n| !found.numbers.contains_key(n)).map(u32::to_string).collect();
    println!("not covered: {}", if uncovered.is_empty() { "nothing".to_string() } else { uncovered.join(", ") });
    found.differences.sort_by_key(|difference| difference.number);
    found.differences.iter().take(TOLD).for_each(|difference| tell(plan, difference));
    let lacking = plan.count >= ENOUGH && !uncovered.is_empty();
    let failed = found.differences.len() + usize::from(lacking);
    println!("{} passed, {failed} failed", found.same);
    ExitCode::from(u8::from(failed > 0))
}

fn main() -> ExitCode {
    drawn::by_arguments(500, run)
}
