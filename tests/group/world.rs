//! One group in a world of its own: meters, an unreliable network, timers, storage and crashes.

use crate::check::{Fault, Record};
use crate::line::{Settings, LABEL_LIMIT};
use crate::process::Process;
use crate::random::Random;
use std::cmp::Reverse;
use std::collections::BinaryHeap;

/// The time from one round to the next.
const ROUND: u64 = 100;

/// How unreliable a world is, in percent.
#[derive(Clone, Copy, Debug)]
pub struct Temper {
    pub name: &'static str,
    /// Lines lost: those of meters, Q and R, and all others.
    unread: u64,
    unasked: u64,
    lost: u64,
    repeated: u64,
    late: u64,
    /// Timers at any moment.
    wild: u64,
    /// Rounds in which some controllers hear nothing of the others.
    cut: u64,
    /// Crashes of a controller in a round, and right after its F or D line.
    crash: u64,
    /// Crashes that end the process instead of handing it B.
    kill: u64,
    /// The share of labels that must be issued.
    pub least: u64,
}

const CALM: Temper = Temper {
    name: "calm",
    unread: 1,
    unasked: 1,
    lost: 1,
    repeated: 2,
    late: 1,
    wild: 0,
    cut: 0,
    crash: 0,
    kill: 0,
    least: 90,
};

/// Controllers that hold different readings, so that their votes differ.
const SPLIT: Temper = Temper { name: "split", unread: 30, unasked: 85, repeated: 5, late: 4, least: 10, ..CALM };

const LOSSY: Temper = Temper {
    name: "lossy",
    unread: 15,
    unasked: 15,
    lost: 15,
    repeated: 10,
    late: 5,
    wild: 3,
    cut: 5,
    crash: 1,
    kill: 10,
    least: 20,
};

const LATE: Temper =
    Temper { name: "late", unread: 5, unasked: 5, lost: 5, repeated: 20, late: 25, crash: 3, least: 0, ..LOSSY };

const CRASHING: Temper = Temper { name: "crashing", repeated: 15, late: 8, crash: 15, kill: 5, ..LATE };

const WILD: Temper = Temper {
    name: "wild",
    unread: 20,
    unasked: 20,
    lost: 20,
    repeated: 25,
    late: 20,
    wild: 25,
    cut: 15,
    crash: 8,
    kill: 5,
    least: 0,
};

pub const TEMPERS: [Temper; 6] = [CALM, SPLIT, LOSSY, LATE, CRASHING, WILD];

#[derive(Clone, Debug, PartialEq, Eq, PartialOrd, Ord)]
enum Event {
    /// The meters give the readings of a label.
    Round(u32),
    /// A line comes to a number.
    Line(usize, String),
    /// The floor of a number's label is stored, where its start is still the same or storing outlives it.
    Store {
        number: usize,
        label: u32,
        start: u64,
    },
    /// The floor comes back.
    Confirm(usize, u32),
    Crash(usize),
    /// The number of a process that was ended starts again.
    Start(usize),
}

/// A controller's host.
#[derive(Default)]
struct Host {
    process: Option<Process>,
    /// How often it was started.
    starts: u64,
    stored: u32,
    confirmed: u32,
}

/// A line handed to a number, with the answers.
struct Entry {
    number: usize,
    line: String,
    answers: Vec<String>,
}

pub struct World {
    command: String,
    settings: Settings,
    settings_text: String,
    temper: Temper,
    random: Random,
    time: u64,
    sequence: u64,
    events: BinaryHeap<Reverse<(u64, u64, Event)>>,
    hosts: Vec<Host>,
    record: Record,
    trace: Vec<Entry>,
    /// The label of the last round, and of the last one to come.
    label: u32,
    last: u32,
    rounds: u64,
    /// Numbers that hear nothing of the others in this round.
    apart: u64,
}

/// What a world came to.
pub struct Outcome {
    pub steps: u64,
    pub labels: u64,
    pub issued: u64,
    pub restarts: u64,
    pub fault: Option<Fault>,
    pub schedule: Vec<String>,
}

impl World {
    pub fn new(command: &str, controllers: u32, temper: Temper, rounds: u64, mut random: Random) -> World {
        let (settings, settings_text) = settings(&mut random, controllers);
        let near_end = LABEL_LIMIT - rounds as u32 / 2;
        let floor = random.pick(&[0, 0, 0, 0, 1000, near_end]);
        let hosts = (0..controllers).map(|_| Host { stored: floor, confirmed: floor, ..Host::default() }).collect();
        World {
            command: command.to_string(),
            record: Record::new(&settings),
            settings,
            settings_text,
            temper,
            random,
            time: 0,
            sequence: 0,
            events: BinaryHeap::new(),
            hosts,
            trace: Vec::new(),
            label: floor,
            last: floor.saturating_add(rounds as u32),
            rounds: 0,
            apart: 0,
        }
    }

    /// Runs the world to its end or to the first fault.
    pub fn run(mut self, steps: impl Fn()) -> Outcome {
        let fault = self.run_all(&steps).and_then(|()| self.record.judge_end()).and_then(|()| self.judge_share()).err();
        let schedule = fault.as_ref().map_or(Vec::new(), |fault| self.schedule_of(fault.label));
        Outcome {
            steps: self.trace.len() as u64,
            labels: self.rounds,
            issued: self.record.issued(),
            restarts: self.hosts.iter().map(|host| host.starts.saturating_sub(1)).sum(),
            fault,
            schedule,
        }
    }

    fn run_all(&mut self, steps: &impl Fn()) -> Result<(), Fault> {
        for number in 0..self.hosts.len() {
            self.start(number)?;
        }
        self.after(0, Event::Round(self.label + 1));
        while let Some(Reverse((time, _, event))) = self.events.pop() {
            self.time = time;
            self.act(event)?;
            steps();
        }
        Ok(())
    }

    fn judge_share(&self) -> Result<(), Fault> {
        let (issued, least) = (self.record.issued(), self.temper.least);
        if issued * 100 >= self.rounds * least {
            return Ok(());
        }
        Err(Fault { label: self.label, what: format!("only {issued} of {} labels issued", self.rounds) })
    }

    fn after(&mut self, delay: u64, event: Event) {
        self.sequence += 1;
        self.events.push(Reverse((self.time + delay, self.sequence, event)));
    }

    fn act(&mut self, event: Event) -> Result<(), Fault> {
        match event {
            Event::Round(label) => {
                self.round(label);
                Ok(())
            }
            Event::Line(number, line) => self.hand(number, &line),
            Event::Store { number, label, start } => {
                self.store(number, label, start);
                Ok(())
            }
            Event::Confirm(number, label) => self.confirm(number, label),
            Event::Crash(number) => self.crash(number),
            Event::Start(number) => self.start(number),
        }
    }

    // Rounds, meters and timers.

    fn round(&mut self, label: u32) {
        self.label = label;
        self.rounds += 1;
        self.apart = if self.random.chance(self.temper.cut) { self.random.next() } else { 0 };
        for run in 0..self.settings.runs as usize {
            if !self.random.chance(self.temper.lost / 3) {
                let raw = self.random.pick(&[0, 1_000_000, 200_000, 199_060, 200_100, 7]);
                let raw = if self.random.chance(80) { self.random.below(1_000_001) as u32 } else { raw };
                self.record.note_reading(label, run, raw);
                self.spread(&format!("M\t{label}\t{run}\t{raw}\n"), None);
            }
        }
        for number in 0..self.hosts.len() {
            self.set_timers(number, label);
            if self.random.chance(self.temper.crash) {
                let delay = self.random.below(ROUND);
                self.after(delay, Event::Crash(number));
            }
        }
        self.set_next_round(label);
    }

    fn set_next_round(&mut self, label: u32) {
        let step = self.random.pick(&[1, 1, 1, 1, 1, 1, 1, 1, 2, 3]);
        let length = if self.random.chance(self.temper.wild) { self.random.between(20, ROUND) } else { ROUND };
        if label < self.last && step <= self.last - label {
            self.after(length, Event::Round(label + step));
        }
    }

    /// The timers of a round: now and then at any moment, and again.
    fn set_timers(&mut self, number: usize, label: u32) {
        for (kind, early, latest) in [("C", 14, 20), ("C", 26, 32), ("E", 45, 55), ("V", 88, 98)] {
            let wild = self.random.chance(self.temper.wild);
            let delay = if wild { self.random.below(3 * ROUND) } else { self.random.between(early, latest) };
            self.after(delay, Event::Line(number, format!("{kind}\t{label}\n")));
        }
    }

    // The network.

    /// How often a line is lost, by its kind.
    fn lost(&self, line: &str) -> u64 {
        match &line[..1] {
            "M" => self.temper.unread,
            "Q" | "R" => self.temper.unasked,
            _ => self.temper.lost,
        }
    }

    /// The time a line takes; none where it is lost.
    fn delay(&mut self, line: &str) -> Option<u64> {
        if self.random.chance(self.lost(line)) {
            return None;
        }
        let late = self.random.chance(self.temper.late);
        Some(if late { self.random.between(5, 3 * ROUND) } else { self.random.between(1, 6) })
    }

    /// Sends a line to one number: lost, once, or more than once.
    fn send(&mut self, number: usize, line: &str) {
        loop {
            if let Some(delay) = self.delay(line) {
                self.after(delay, Event::Line(number, line.to_string()));
            }
            if !self.random.chance(self.temper.repeated) {
                return;
            }
        }
    }

    /// Sends a line to all numbers but its sender, and rarely to that one too.
    fn spread(&mut self, line: &str, sender: Option<usize>) {
        for number in 0..self.hosts.len() {
            let apart = sender.is_some_and(|sender| (self.apart >> sender ^ self.apart >> number) & 1 == 1);
            let own = sender == Some(number);
            if (!apart && !own) || (own && self.random.chance(1)) {
                self.send(number, line);
            }
        }
    }

    // Controllers.

    /// Hands a line over, judges the answers and lets the world go on with them.
    fn hand(&mut self, number: usize, line: &str) -> Result<(), Fault> {
        let label = self.label;
        let Some(process) = &mut self.hosts[number].process else {
            return Ok(());
        };
        let answers = process.hand(line).map_err(|what| Fault { label, what })?;
        self.trace.push(Entry { number, line: line.to_string(), answers: answers.clone() });
        for answer in &answers {
            self.record.judge(number as u32, label, line, answer)?;
        }
        for answer in &answers {
            self.take_answer(number, answer);
        }
        Ok(())
    }

    fn take_answer(&mut self, number: usize, answer: &str) {
        match &answer[..1] {
            "X" => {}
            "F" => self.take_floor(number, answer),
            "S" if !self.random.chance(2) => {}
            _ => self.spread(answer, Some(number)),
        }
        if (answer.starts_with('F') || answer.starts_with('D')) && self.random.chance(self.temper.crash) {
            self.after(0, Event::Crash(number));
        }
    }

    fn take_floor(&mut self, number: usize, answer: &str) {
        let label = answer[2..].trim_end().parse().expect("judged before");
        let start = self.hosts[number].starts;
        let delay =
            if self.random.chance(self.temper.late) { self.random.below(ROUND) } else { self.random.between(1, 5) };
        self.after(delay, Event::Store { number, label, start });
    }

    /// Stores a floor. What was on its way at a crash is stored or lost.
    fn store(&mut self, number: usize, label: u32, start: u64) {
        if start != self.hosts[number].starts && self.random.chance(50) {
            return;
        }
        let host = &mut self.hosts[number];
        host.stored = host.stored.max(label);
        while let Some(delay) = self.delay("F") {
            self.after(delay, Event::Confirm(number, label));
            if !self.random.chance(self.temper.repeated) {
                return;
            }
        }
    }

    fn confirm(&mut self, number: usize, label: u32) -> Result<(), Fault> {
        let host = &mut self.hosts[number];
        if host.process.is_some() {
            host.confirmed = host.confirmed.max(label);
        }
        self.hand(number, &format!("F\t{label}\n"))
    }

    fn crash(&mut self, number: usize) -> Result<(), Fault> {
        if !self.random.chance(self.temper.kill) {
            return self.start(number);
        }
        self.hosts[number].process = None;
        let delay = self.random.below(ROUND);
        self.after(delay, Event::Start(number));
        Ok(())
    }

    /// Starts or restarts a number: with the highest floor that was confirmed to it, or a higher one.
    fn start(&mut self, number: usize) -> Result<(), Fault> {
        let label = self.label;
        let host = &mut self.hosts[number];
        let higher = host.stored.max(host.confirmed);
        let further = higher.max(label.saturating_sub(2)).saturating_add(1);
        let floor = match self.random.weighted(&[60, 37, if host.starts == 0 { 0 } else { 3 }]) {
            0 => host.confirmed,
            1 => higher,
            _ => further,
        };
        if host.process.is_none() {
            let process = Process::start(&self.command, &self.settings_text);
            host.process = Some(process.map_err(|what| Fault { label, what })?);
        }
        host.starts += 1;
        self.hand(number, &format!("B\t{number}\t{floor}\n"))?;
        self.after_start(number);
        Ok(())
    }

    /// The host of a restarted controller sets its timers again, and meters repeat what they gave.
    fn after_start(&mut self, number: usize) {
        let label = self.label;
        if self.hosts[number].starts == 1 || self.random.chance(30) {
            return;
        }
        for run in 0..self.settings.runs as usize {
            if let Some(raw) = self.record.reading(label, run).filter(|_| self.random.chance(70)) {
                self.send(number, &format!("M\t{label}\t{run}\t{raw}\n"));
            }
        }
        for (kind, latest) in [("C", 15), ("E", 30), ("V", 90)] {
            let delay = self.random.between(latest / 2, latest);
            self.after(delay, Event::Line(number, format!("{kind}\t{label}\n")));
        }
    }

    // What went before a fault.

    /// The steps that named a label, and all restarts in between.
    fn schedule_of(&self, label: u32) -> Vec<String> {
        let named = |line: &str| line.split('\t').skip(1).take(2).any(|field| field.trim_end() == label.to_string());
        let names = |entry: &Entry| named(&entry.line) || entry.answers.iter().any(|answer| named(answer));
        let Some(first) = self.trace.iter().position(names) else {
            return Vec::new();
        };
        let told =
            self.trace.iter().enumerate().skip(first).filter(|(_, entry)| names(entry) || entry.line.starts_with('B'));
        told.map(|(step, entry)| told_entry(step, entry)).collect()
    }
}

fn told_entry(step: usize, entry: &Entry) -> String {
    let plain = |line: &str| line.trim_end().replace('\t', " ");
    let answers: Vec<String> = entry.answers.iter().map(|answer| plain(answer)).collect();
    format!("step {step}, {}: {} -> {}", entry.number, plain(&entry.line), answers.join(" | "))
}

/// Settings of a group, and their text.
fn settings(random: &mut Random, controllers: u32) -> (Settings, String) {
    let runs = random.pick(&[1, 2, 2, 3, 4, 16]);
    let (q, r, p) =
        (random.pick(&[1, 50, 1_000_000]), random.pick(&[1, 300, 1_000_000]), random.pick(&[1, 99, 1_000_000_000]));
    let mut text = format!("G\t{controllers}\t{runs}\nN\t{q}\t{r}\t{p}\n");
    for run in 0..runs {
        let (factor, weight) = (random.between(9000, 11000), random.between(1, 1000));
        text += &format!("K\t{run}\tC-{}\t{}.{:04}\t{weight}\n", 101 + run, factor / 10000, factor % 10000);
    }
    let mut settings = Settings::default();
    for (number, line) in (1..).zip(text.split_inclusive('\n')) {
        settings.read(number, line.as_bytes()).expect("good settings");
    }
    (settings, text)
}
