//! Runs groups of real station processes over an unreliable network and judges all that they send.
//!
//! `group COMMAND [SEED [GROUPS [LABELS [WORKERS [FIRST]]]]]`: the command is run by `sh`, GROUPS
//! groups of 2 to 5 controllers, from number FIRST on, go through about LABELS labels each.

mod check;
mod process;
mod world;

#[path = "../random.rs"]
mod random;

// What is computed and who wins is taken from the second program.
#[path = "../second/filter.rs"]
mod filter;
#[allow(dead_code)]
#[path = "../second/line.rs"]
mod line;
#[allow(dead_code)]
#[path = "../second/vote.rs"]
mod vote;

use random::Random;
use std::process::ExitCode;
use std::sync::atomic::{AtomicU64, Ordering};
use std::sync::Mutex;
use std::thread;
use std::time::Duration;
use world::{Outcome, World, TEMPERS};

/// How long nothing may happen at all.
const PATIENCE: Duration = Duration::from_secs(60);

/// How many faults are told with their schedules, and how much of each.
const TOLD: u64 = 3;
const TOLD_STEPS: usize = 80;

struct Plan {
    command: String,
    seed: u64,
    groups: u64,
    labels: u64,
    workers: u64,
    first: u64,
}

/// What the groups came to: all, and by temper labels and labels issued.
#[derive(Default)]
struct Sum {
    passed: u64,
    failed: u64,
    steps: u64,
    restarts: u64,
    labels: [u64; TEMPERS.len()],
    issued: [u64; TEMPERS.len()],
}

fn temper_of(number: u64) -> usize {
    (number / 4) as usize % TEMPERS.len()
}

fn run_group(plan: &Plan, number: u64, steps: &AtomicU64) -> Outcome {
    let random = Random::new(plan.seed, number);
    let controllers = 2 + (number % 4) as u32;
    let world = World::new(&plan.command, controllers, TEMPERS[temper_of(number)], plan.labels, random);
    world.run(|| {
        steps.fetch_add(1, Ordering::Relaxed);
    })
}

fn tell(number: u64, outcome: &Outcome) {
    let Some(fault) = &outcome.fault else {
        return;
    };
    let (controllers, temper) = (2 + number % 4, TEMPERS[temper_of(number)].name);
    println!("group {number} ({controllers} controllers, {temper}), label {}: {}", fault.label, fault.what);
    let skipped = outcome.schedule.len().saturating_sub(TOLD_STEPS);
    for step in &outcome.schedule[skipped..] {
        println!("    {step}");
    }
}

impl Sum {
    fn add(&mut self, number: u64, outcome: &Outcome) {
        let temper = temper_of(number);
        self.steps += outcome.steps;
        self.restarts += outcome.restarts;
        self.labels[temper] += outcome.labels;
        self.issued[temper] += outcome.issued;
        if outcome.fault.is_none() {
            self.passed += 1;
            return;
        }
        self.failed += 1;
        if self.failed <= TOLD {
            tell(number, outcome);
        } else if let Some(fault) = &outcome.fault {
            println!("group {number}, label {}: {}", fault.label, fault.what);
        }
    }

    fn print(&self) {
        let share = |issued: u64, labels: u64| format!("{:.1} %", 100.0 * issued as f64 / labels.max(1) as f64);
        for (temper, (issued, labels)) in TEMPERS.iter().zip(self.issued.iter().zip(self.labels)) {
            println!("{}: {issued} of {labels} labels issued, {}", temper.name, share(*issued, labels));
        }
        let (issued, labels) = (self.issued.iter().sum(), self.labels.iter().sum());
        println!(
            "{} steps, {} restarts, {issued} of {labels} labels issued, {}",
            self.steps,
            self.restarts,
            share(issued, labels)
        );
        println!("{} passed, {} failed", self.passed, self.failed);
    }
}

fn work(plan: &Plan, next: &AtomicU64, steps: &AtomicU64, sum: &Mutex<Sum>) {
    loop {
        let number = next.fetch_add(1, Ordering::Relaxed);
        if number >= plan.first + plan.groups {
            return;
        }
        let outcome = run_group(plan, number, steps);
        sum.lock().unwrap().add(number, &outcome);
    }
}

/// Ends everything where a process doesn't answer.
fn watch(steps: &AtomicU64) {
    let mut before = u64::MAX;
    loop {
        let now = steps.load(Ordering::Relaxed);
        if now == before {
            println!("a process doesn't answer\n0 passed, 1 failed");
            std::process::exit(1);
        }
        before = now;
        thread::sleep(PATIENCE);
    }
}

fn run(plan: &Plan) -> ExitCode {
    static STEPS: AtomicU64 = AtomicU64::new(0);
    let (next, sum) = (AtomicU64::new(plan.first), Mutex::<Sum>::default());
    thread::spawn(|| watch(&STEPS));
    thread::scope(|scope| {
        for _ in 0..plan.workers.max(1) {
            scope.spawn(|| work(plan, &next, &STEPS, &sum));
        }
    });
    let sum = sum.into_inner().unwrap();
    sum.print();
    ExitCode::from(u8::from(sum.failed > 0))
}

fn plan() -> Option<Plan> {
    let mut arguments = std::env::args().skip(1);
    let command = arguments.next()?;
    let mut number = |default: u64| arguments.next().map_or(Some(default), |text| text.parse().ok());
    let (seed, groups, labels) = (number(1)?, number(120)?, number(120)?);
    Some(Plan { command, seed, groups, labels, workers: number(2)?, first: number(0)? })
}

fn main() -> ExitCode {
    match plan() {
        Some(plan) => run(&plan),
        None => {
            eprintln!("group COMMAND [SEED [GROUPS [LABELS [WORKERS [FIRST]]]]]");
            ExitCode::from(2)
        }
    }
}
