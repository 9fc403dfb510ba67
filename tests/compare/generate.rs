//! Inputs for the comparison: sessions of one controller, steered by a model of what it holds.

use crate::controller::{Controller, Phase};
use crate::damage::{any_bytes, any_text, damaged, long_line};
use crate::filter::{P_LIMIT, X_LIMIT};
use crate::line::{Settings, LABEL_LIMIT, RAW_LIMIT};
use crate::random::Random;
use crate::session::Station;
use crate::vote::{all_runs, decided_by_count, Digest};
use std::collections::BTreeMap;

/// What happened in inputs, by name.
pub type Events = BTreeMap<String, u64>;

/// An input, and what the model saw while it was made.
pub struct Input {
    pub bytes: Vec<u8>,
    pub events: Events,
}

/// How an input is made: percentages, and how many lines come after the settings.
struct Temper {
    damage: u64,
    agreement: u64,
    restarts: u64,
    lines: u64,
    floor: u32,
}

struct Maker {
    random: Random,
    temper: Temper,
    model: Station,
    begun: Vec<u8>,
    bytes: Vec<u8>,
    answers: Vec<u8>,
    events: Events,
}

/// The session of document 01, which is also the first input.
pub const SESSION: &str = "G\t2\t2\nN\t1\t300\t99\nK\t0\tC-101\t1.0047\t3\nK\t1\tC-102\t1.0000\t1\nB\t0\t0\n\
    M\t1\t0\t200000\nM\t1\t1\t199060\nE\t1\nF\t1\nA\t1\t0\nM\t1\t0\t5\n";

/// Short inputs that are always compared.
const FIXED: [&str; 17] = [
    SESSION,
    "",
    "\n",
    "\n\n",
    "G\t1\t1",
    "G\t1\t1\n",
    "G\t1\t1\nN\t1\t1\t1\n",
    "G\t1\t1\nN\t1\t1\t1\nK\t0\t!\t0.9000\t1",
    "G\t1\t1\nN\t1\t1\t1\nK\t0\t!\t0.9000\t1\n",
    "G\t1\t1\nN\t1\t1\t1\nK\t0\t!\t0.9000\t1\nB\t0\t0",
    "G\t7\t1\nN\t1000000\t1000000\t1000000000\nK\t0\t~~~~~~~~~~~~~~~~\t1.1000\t1000\nB\t6\t4294967295\nM\t4294967295\t0\t0\n",
    "G\t1\t1\r\nN\t1\t1\t1\r\nK\t0\ta\t1.0000\t1\r\n",
    // A weight just past its limit.
    "G\t1\t1\nN\t1\t1\t1\nK\t0\ta\t1.0000\t1001\nB\t0\t0\nM\t1\t0\t5\nE\t1\nF\t1\n",
    // The state label comes before the number of measurements, so (2,4) and (1,4) win over (3,2).
    include_str!("../v5.txt"),
    include_str!("../v10.txt"),
    // From one state: the number of measurements comes before the mask, so (3,0) wins over (4,0), and is not here.
    "G\t2\t3\nN\t1\t300\t99\nK\t0\ta\t1.0000\t1\nK\t1\tb\t1.0000\t1\nK\t2\tc\t1.0000\t1\nB\t0\t4\n\
    M\t5\t2\t7\nE\t5\nF\t5\nD\t1\t5\t0\t0003\n",
    // One run, whose target by its quotient would be past the total.
    "G\t2\t1\nN\t1\t300\t99\nK\t0\ta\t1.0047\t3\nB\t0\t0\nU\t1\t4\t4108876809A02752\t0000000000000000\n\
    M\t5\t0\t200001\nE\t5\nF\t5\n",
];

/// The input of a number. Every tenth has refused settings, some are no lines at all.
pub fn input(seed: u64, number: u64) -> Input {
    if let Some(fixed) = FIXED.get(number as usize) {
        return Input { bytes: fixed.as_bytes().to_vec(), events: Events::new() };
    }
    let mut maker = Maker::new(Random::new(seed, number));
    match number % 50 {
        7 => maker.make_any(),
        11 | 36 => maker.make_any_after_settings(),
        3 | 13 | 23 | 33 | 43 => maker.make_refused_settings(number / 10),
        _ => maker.make_session(),
    }
    Input { bytes: maker.bytes, events: maker.events }
}

fn temper(random: &mut Random) -> Temper {
    let near_end = random.chance(12);
    let floor = if near_end { LABEL_LIMIT - random.below(12) as u32 } else { random.pick(&[0, 0, 0, 1, 5, 1000]) };
    Temper {
        damage: random.pick(&[0, 3, 3, 8, 15, 40]),
        agreement: random.pick(&[10, 40, 70, 90]),
        restarts: random.pick(&[0, 1, 1, 4]),
        lines: random.between(50, 400),
        floor,
    }
}

impl Maker {
    fn new(mut random: Random) -> Maker {
        Maker {
            temper: temper(&mut random),
            random,
            model: Station::new(decided_by_count),
            begun: Vec::new(),
            bytes: Vec::new(),
            answers: Vec::new(),
            events: Events::new(),
        }
    }

    fn count(&mut self, event: impl Into<String>) {
        *self.events.entry(event.into()).or_insert(0) += 1;
    }

    /// Adds bytes to the input, and hands the model each line that they end.
    fn give(&mut self, bytes: &[u8]) {
        self.bytes.extend_from_slice(bytes);
        self.begun.extend_from_slice(bytes);
        while let Some(at) = self.begun.iter().position(|b| *b == b'\n') {
            let line: Vec<u8> = self.begun.drain(..=at).collect();
            self.hand(&line);
        }
    }

    /// Hands the model a line and counts what it led to.
    fn hand(&mut self, line: &[u8]) {
        let before = self.model.controller.clone();
        self.answers.clear();
        self.model.take(line, &mut self.answers);
        let after = self.model.controller.clone();
        if let (Some(before), Some(after)) = (before, after) {
            self.count_step(line[0], &before, &after);
        }
    }

    fn count_step(&mut self, kind: u8, before: &Controller, after: &Controller) {
        let open = before.phase != Phase::Idle;
        let issued = self.answers.split_inclusive(|b| *b == b'\n').any(|answer| answer[0] == b'S');
        let missing = after.votes[..self.model.settings.controllers as usize].iter().any(Option::is_none);
        let own = after.votes[after.own as usize];
        let named = (before.phase, kind);
        if named == (Phase::Collecting, b'U') && after.phase == Phase::Idle {
            self.count("round overtaken by U");
        }
        if kind == b'M' && open && after.label > before.label {
            self.count("unfinished round dropped");
        }
        if kind == b'B' {
            self.count("restart");
        }
        if issued {
            self.count("issued");
            if missing {
                self.count("issued with votes missing");
            }
            if after.label == LABEL_LIMIT {
                self.count("issued for the last label");
            }
            if own.is_some_and(|own| own.mask != self.chosen_mask()) {
                self.count("issued for another's digest");
            }
        }
    }

    /// The mask in the S line of the last answers.
    fn chosen_mask(&self) -> u16 {
        let line = self.answers.split(|b| *b == b'\n').find(|line| line.first() == Some(&b'S'));
        let mask = line.and_then(|line| line.split(|b| *b == b'\t').nth(4)).unwrap_or(b"0");
        u16::from_str_radix(&String::from_utf8_lossy(mask), 16).unwrap_or(0)
    }

    fn settings(&self) -> &Settings {
        &self.model.settings
    }

    // Whole inputs.

    fn make_any(&mut self) {
        let length = self.random.between(0, 3000);
        let bytes = if self.random.chance(50) {
            any_bytes(&mut self.random, length)
        } else {
            any_text(&mut self.random, length)
        };
        self.give(&bytes);
    }

    fn make_any_after_settings(&mut self) {
        self.give_settings();
        self.give_start();
        for _ in 0..self.random.between(1, 6) {
            let length = self.random.between(0, 1500);
            let bytes = match self.random.below(3) {
                0 => any_bytes(&mut self.random, length),
                _ => any_text(&mut self.random, length),
            };
            self.give(&bytes);
            self.give(b"\n");
            self.give_lines(20);
        }
    }

    fn make_session(&mut self) {
        self.give_settings();
        for _ in 0..self.random.below(5) {
            let line = self.line_before_start();
            self.give(&line);
        }
        self.give_start();
        self.give_lines(self.temper.lines);
        self.give_end();
    }

    /// Settings with a fault in one line, then lines that nothing answers.
    fn make_refused_settings(&mut self, number: u64) {
        match number % 3 {
            0 => self.make_fault_of_line(number / 3),
            1 => self.make_fault_of_field(number / 3),
            _ => self.make_damaged_settings(number / 3),
        }
        self.count_refused_settings();
    }

    /// A fault of each reason in each line, by number.
    fn make_fault_of_line(&mut self, number: u64) {
        let (at, reason) = ((number % 18) as usize, 1 + number / 18 % 6);
        let mut lines = self.settings_lines_to(at);
        lines[at] = self.settings_fault(&lines[at].clone(), reason);
        if reason == 2 {
            lines.truncate(if self.random.chance(50) { at } else { at + 1 });
        }
        self.give_refused_settings(&lines, reason != 2);
    }

    /// One field with one value that is refused, or just not, by number.
    fn make_fault_of_field(&mut self, number: u64) {
        let (kind, field, value) = SETTINGS_FIELDS[number as usize % SETTINGS_FIELDS.len()];
        let at = match kind {
            "G" => 0,
            "N" => 1,
            _ => self.random.between(2, 17) as usize,
        };
        let mut lines = self.settings_lines_to(at);
        lines[at] = with_field(&lines[at], field, value);
        self.give_refused_settings(&lines, true);
    }

    fn make_damaged_settings(&mut self, number: u64) {
        let at = (number % 18) as usize;
        let mut lines = self.settings_lines_to(at);
        lines[at] = damaged(&mut self.random, &lines[at]);
        self.give_refused_settings(&lines, true);
    }

    fn give_refused_settings(&mut self, lines: &[Vec<u8>], further: bool) {
        for line in lines {
            self.give(line);
        }
        if further {
            self.give(b"B\t0\t0\nM\t1\t0\t5\nC\t1\nE\t1\n");
        }
    }

    /// Good settings that have a line of that index.
    fn settings_lines_to(&mut self, at: usize) -> Vec<Vec<u8>> {
        self.settings_lines(at.max(2) as u64 - 1)
    }

    fn count_refused_settings(&mut self) {
        let rest = std::mem::take(&mut self.begun);
        self.model.end(&rest, &mut self.answers);
        if let Some((line, reason)) = self.model.refused {
            self.count(format!("settings refused at line {line:>2}"));
            self.count(format!("settings refused for {reason}"));
        }
    }

    // Settings.

    /// Good settings of so many runs at least.
    fn settings_lines(&mut self, least: u64) -> Vec<Vec<u8>> {
        let random = &mut self.random;
        let controllers = random.between(1, 7);
        let most = random.pick(&[4, 16]).max(least);
        let runs = random.between(least, most);
        let mut lines = vec![format!("G\t{controllers}\t{runs}\n").into_bytes(), filter_line(random)];
        for run in 0..runs {
            lines.push(run_line(random, run));
        }
        lines
    }

    fn give_settings(&mut self) {
        for line in self.settings_lines(1) {
            self.give(&line);
        }
    }

    /// A line of the settings with a fault of its own for each reason.
    fn settings_fault(&mut self, line: &[u8], reason: u64) -> Vec<u8> {
        let text = String::from_utf8_lossy(line).trim_end().to_string();
        let mut fields: Vec<String> = text.split('\t').map(str::to_string).collect();
        let random = &mut self.random;
        let at = random.between(1, fields.len() as u64 - 1) as usize;
        match reason {
            1 => fields[at] = "9".repeat(random.pick(&[601, 700, 2000])),
            2 => return text.into_bytes(),
            3 => fields[0] = random.pick(&["B", "M", "X", "", "g", "GG", "KK", "NN", "k"]).to_string(),
            4 if random.chance(50) => fields.push(random.pick(&["", "1"]).to_string()),
            4 => drop(fields.remove(at)),
            5 => fields[at] = random.pick(&["", "\u{7F}", " 1", "12345678901234567", "\r"]).to_string(),
            _ => {
                let last = fields.len() - 1;
                fields[last] = random.pick(&["0", "1000000001", "99999999999"]).to_string();
            }
        }
        (fields.join("\t") + "\n").into_bytes()
    }

    // The lines of a session.

    fn give_start(&mut self) {
        let own = self.random.below(u64::from(self.settings().controllers.max(1)));
        let line = format!("B\t{own}\t{}\n", self.temper.floor);
        self.give(line.as_bytes());
    }

    fn give_lines(&mut self, lines: u64) {
        for _ in 0..lines {
            let line = self.next_line();
            self.give(&line);
        }
    }

    /// The last bytes: often nothing more, else a piece without its line feed.
    fn give_end(&mut self) {
        let random = &mut self.random;
        let piece = match random.below(12) {
            0 => b"C\t1".to_vec(),
            1 => vec![b'9'; random.pick(&[1, 599, 600, 601, 602, 3000])],
            2 => {
                let length = random.between(1, 50);
                any_bytes(random, length)
            }
            _ => Vec::new(),
        };
        self.give(&piece);
    }

    fn line_before_start(&mut self) -> Vec<u8> {
        let line =
            self.random.pick(&["C\t1\n", "A\t0\t0\n", "M\t1\t0\t5\n", "Q\t0\t1\t0001\n", "F\t0\n", "B\t7\t0\n", "\n"]);
        line.as_bytes().to_vec()
    }

    fn next_line(&mut self) -> Vec<u8> {
        if self.random.chance(1) && self.random.chance(50) {
            return long_line(&mut self.random);
        }
        let line = match self.model.controller.clone() {
            Some(controller) => self.line_for(&controller).into_bytes(),
            None => self.line_before_start(),
        };
        if self.random.chance(self.temper.damage) {
            return damaged(&mut self.random, &line);
        }
        line
    }

    /// A line for a controller, most often one that leads its round on.
    fn line_for(&mut self, c: &Controller) -> String {
        if self.random.chance(self.temper.restarts) {
            return self.b_line(c);
        }
        if self.random.chance(8) {
            return self.odd_line(c);
        }
        match c.phase {
            Phase::Idle => self.line_when_idle(c),
            Phase::Collecting => self.line_when_collecting(c),
            Phase::Pending => self.line_when_pending(c),
            Phase::Voting => self.line_when_voting(c),
        }
    }

    fn line_when_idle(&mut self, c: &Controller) -> String {
        if c.label.max(c.state_label) == LABEL_LIMIT && self.random.chance(40) {
            return self.b_line(c);
        }
        match self.random.weighted(&[70, 6, 6, 2]) {
            0 => self.m_next(c),
            1 => self.u_line(c),
            2 => self.a_line(c),
            _ => self.timer(c),
        }
    }

    fn line_when_collecting(&mut self, c: &Controller) -> String {
        let all = c.held == all_runs(self.settings().runs);
        let further = if all { 4 } else { 50 };
        match self.random.weighted(&[further, 4, 6, 5, 8, 7, 3, 3, if all { 30 } else { 4 }]) {
            0 => self.m_line(c, c.label),
            1 => format!("C\t{}\n", c.label),
            2 => self.q_line(c),
            3 | 4 => self.r_line(c),
            5 => self.d_line(c),
            6 => self.a_line(c),
            7 => self.u_line(c),
            _ => format!("E\t{}\n", c.label),
        }
    }

    fn line_when_pending(&mut self, c: &Controller) -> String {
        match self.random.weighted(&[50, 25, 6, 4]) {
            0 => format!("F\t{}\n", c.label),
            1 => self.d_line(c),
            2 => self.q_line(c),
            _ => self.a_line(c),
        }
    }

    fn line_when_voting(&mut self, c: &Controller) -> String {
        match self.random.weighted(&[80, 4, 4, 3]) {
            0 => self.d_line(c),
            1 => self.q_line(c),
            2 => self.a_line(c),
            _ => format!("V\t{}\n", c.label),
        }
    }

    /// A line of any kind at any time.
    fn odd_line(&mut self, c: &Controller) -> String {
        match self.random.below(11) {
            0 => {
                let label = self.label_near(c.label.max(c.state_label));
                self.m_line(c, label)
            }
            1 => self.m_line(c, c.label.max(1)),
            2 => self.timer(c),
            3 => self.q_line(c),
            4 => self.r_line(c),
            5 => self.d_line(c),
            6 => self.a_line(c),
            7 => self.s_line(c),
            8 => self.b_line(c),
            9 => self.m_next(c),
            _ => self.u_line(c),
        }
    }

    fn label_near(&mut self, label: u32) -> u32 {
        let label = u64::from(label);
        let near =
            [label, label + 1, label.saturating_sub(1), label + 2, label.saturating_sub(5), u64::from(LABEL_LIMIT)];
        self.random.pick(&near).clamp(1, u64::from(LABEL_LIMIT)) as u32
    }

    /// The current label, or now and then another.
    fn label(&mut self, c: &Controller) -> u32 {
        if self.random.chance(4) {
            self.label_near(c.label)
        } else {
            c.label.max(1)
        }
    }

    /// Another's number, or now and then the own one.
    fn sender(&mut self, c: &Controller) -> u32 {
        let controllers = u64::from(self.settings().controllers);
        if self.random.chance(3) || controllers == 1 {
            return c.own;
        }
        ((u64::from(c.own) + self.random.between(1, controllers - 1)) % controllers) as u32
    }

    fn run(&mut self) -> u32 {
        self.random.below(u64::from(self.model.settings.runs)) as u32
    }

    fn raw(&mut self) -> u32 {
        let any = self.random.between(0, u64::from(RAW_LIMIT)) as u32;
        self.random.pick(&[any, any, any, any, any / 1000, 0, RAW_LIMIT])
    }

    /// The held value of a run, or now and then another; a new one for a run that isn't held.
    fn raw_for(&mut self, c: &Controller, run: u32, label: u32) -> u32 {
        if label == c.label && c.held >> run & 1 == 1 && !self.random.chance(8) {
            return c.raws[run as usize];
        }
        self.raw()
    }

    fn m_line(&mut self, c: &Controller, label: u32) -> String {
        let missing: Vec<u32> = (0..self.settings().runs).filter(|run| c.held >> run & 1 == 0).collect();
        let run = if missing.is_empty() || label != c.label || self.random.chance(15) {
            self.run()
        } else {
            self.random.pick(&missing)
        };
        format!("M\t{label}\t{run}\t{}\n", self.raw_for(c, run, label))
    }

    /// The first reading of a further round.
    fn m_next(&mut self, c: &Controller) -> String {
        let last = c.label.max(c.state_label);
        let rest = LABEL_LIMIT - last;
        let step = match self.random.weighted(&[80, 12, 6, 1]) {
            0 => 1,
            1 => self.random.between(1, 6) as u32,
            2 => self.random.between(1, 100_000) as u32,
            _ => rest.saturating_sub(self.random.below(9) as u32),
        };
        let label = last + step.min(rest);
        self.m_line(c, label)
    }

    fn timer(&mut self, c: &Controller) -> String {
        let kind = self.random.pick(&["C", "E", "V", "F"]);
        format!("{kind}\t{}\n", self.label(c))
    }

    fn mask(&mut self) -> u16 {
        let all = all_runs(self.settings().runs);
        let mask = self.random.next() as u16 & all;
        let one = 1 << self.run();
        self.random.pick(&[mask, mask, all, one]).max(1)
    }

    fn q_line(&mut self, c: &Controller) -> String {
        format!("Q\t{}\t{}\t{:04X}\n", self.sender(c), self.label(c), self.mask())
    }

    fn r_line(&mut self, c: &Controller) -> String {
        let (label, mask) = (self.label(c), self.mask());
        let mut line = format!("R\t{}\t{label}\t{mask:04X}", self.sender(c));
        for run in (0..16).filter(|run| mask >> run & 1 == 1) {
            line += &format!("\t{}", self.raw_for(c, run, label));
        }
        line + "\n"
    }

    fn a_line(&mut self, c: &Controller) -> String {
        let state = u64::from(c.state_label);
        let any = self.random.below(u64::from(LABEL_LIMIT) + 1);
        let state = self.random.pick(&[state, state.saturating_sub(1), state + 1, 0, any]).min(u64::from(LABEL_LIMIT));
        format!("A\t{}\t{state}\n", self.sender(c))
    }

    /// A digest that is legal for a label: often the own one or one that was voted.
    fn digest(&mut self, c: &Controller, label: u32) -> Digest {
        let all = all_runs(self.settings().runs);
        let state = if c.state_label < label { c.state_label } else { label - 1 };
        let own = Digest { mask: c.held.max(1), state };
        if self.random.chance(self.temper.agreement) {
            return Digest { mask: favourite(own.mask, label), state };
        }
        let part = c.held & self.random.next() as u16;
        let below = self.random.below(u64::from(label)) as u32;
        match self.random.below(7) {
            0 => Digest { mask: all, state: label - 1 },
            1 => Digest { mask: if part == 0 { own.mask } else { part }, state },
            2 => Digest { mask: all, state: below },
            3 => Digest { mask: all, state },
            4 => Digest { mask: self.mask(), state: (label - 1).min(state + 1) },
            5 => Digest { mask: self.mask(), state: below },
            _ => {
                let voted: Vec<Digest> = c.votes.iter().flatten().copied().filter(|d| d.state < label).collect();
                if voted.is_empty() {
                    own
                } else {
                    self.random.pick(&voted)
                }
            }
        }
    }

    fn d_line(&mut self, c: &Controller) -> String {
        let label = self.label(c);
        let digest = self.digest(c, label);
        let mut sender = self.sender(c);
        let absent: Vec<u32> =
            (0..self.settings().controllers).filter(|n| *n != c.own && c.votes[*n as usize].is_none()).collect();
        if !absent.is_empty() && self.random.chance(85) {
            sender = self.random.pick(&absent);
        }
        format!("D\t{sender}\t{label}\t{}\t{:04X}\n", digest.state, digest.mask)
    }

    /// Bits of a float from +0 to a limit, and rarely just above it.
    fn float(&mut self, limit: f64) -> u64 {
        let top = limit.to_bits();
        let any = self.random.between(0, top);
        let whole = (self.random.below(limit as u64 + 1) as f64).to_bits();
        let part = (limit * (self.random.below(1 << 30) as f64 / (1u64 << 30) as f64)).to_bits();
        let above = top + u64::from(self.random.chance(5));
        self.random.pick(&[any, whole, whole, part, part, part, 0, 1, above, top - 1])
    }

    fn u_line(&mut self, c: &Controller) -> String {
        let (state, label) = (u64::from(c.state_label), u64::from(c.label));
        let limit = u64::from(LABEL_LIMIT);
        let choices = [state, state, (state + 1).min(limit), label.saturating_sub(1), label, (label + 1).min(limit), 0];
        let chosen = if self.random.chance(2) { limit - self.random.below(5) } else { self.random.pick(&choices) };
        let mut line = format!("U\t{}\t{chosen}", self.sender(c));
        let equal = chosen == state;
        let other = if self.random.chance(30) { self.run() as usize } else { usize::MAX };
        for (run, held) in c.state[..self.settings().runs as usize].iter().enumerate() {
            let (x, p) =
                if equal { (held.x.to_bits(), held.p.to_bits()) } else { (self.float(X_LIMIT), self.float(P_LIMIT)) };
            let flip = u64::from(run == other && equal);
            let (x, p) = if self.random.chance(50) { (x ^ flip, p) } else { (x, p ^ flip) };
            line += &format!("\t{x:016X}\t{p:016X}");
        }
        line + "\n"
    }

    fn s_line(&mut self, c: &Controller) -> String {
        let label = self.label(c);
        let digest = self.digest(c, label);
        let sender = if self.random.chance(30) { c.own } else { self.sender(c) };
        let mut line = format!("S\t{sender}\t{label}\t{}\t{:04X}", digest.state, digest.mask);
        for _ in 0..self.settings().runs {
            line += &format!("\t{:016X}", self.float(17_600_000.0));
        }
        line + "\n"
    }

    /// A restart: mostly of the same number, with a floor around the current label.
    fn b_line(&mut self, c: &Controller) -> String {
        let other = self.random.below(u64::from(self.settings().controllers)) as u32;
        let own = if self.random.chance(75) { c.own } else { other };
        let near = self.label_near(c.label);
        let floor = self.random.pick(&[c.label, c.label, near, 0, self.temper.floor, LABEL_LIMIT - 2]);
        format!("B\t{own}\t{floor}\n")
    }
}

/// The mask that most of the others vote for: the held one, or with some labels one run less.
fn favourite(held: u16, label: u32) -> u16 {
    let less = held & (held - 1);
    if label % 4 == 1 && less != 0 {
        less
    } else {
        held
    }
}

fn filter_line(random: &mut Random) -> Vec<u8> {
    let mut number = |limit: u64| {
        let any = random.between(1, limit);
        random.pick(&[1, 300.min(limit), 99, limit, any, any % 1000 + 1])
    };
    let (q, r, p) = (number(1_000_000), number(1_000_000), number(1_000_000_000));
    format!("N\t{q}\t{r}\t{p}\n").into_bytes()
}

fn run_line(random: &mut Random, run: u64) -> Vec<u8> {
    let length = random.pick(&[1, 5, 5, 16]);
    let certificate: String = (0..length).map(|_| random.between(0x21, 0x7E) as u8 as char).collect();
    let any = random.between(9000, 11000);
    let factor = random.pick(&[9000, 10000, 10047, 11000, any, any]);
    let any = random.between(1, 1000);
    let weight = random.pick(&[1, 1000, any, any]);
    format!("K\t{run}\t{certificate}\t{}.{:04}\t{weight}\n", factor / 10000, factor % 10000).into_bytes()
}

/// A line with one field replaced.
fn with_field(line: &[u8], at: usize, value: &str) -> Vec<u8> {
    let mut fields: Vec<&[u8]> = line.strip_suffix(b"\n").unwrap_or(line).split(|b| *b == b'\t').collect();
    fields[at] = value.as_bytes();
    let mut line = fields.join(&b'\t');
    line.push(b'\n');
    line
}

/// Values for the fields of the settings, around what is refused for its form or its range.
#[rustfmt::skip]
const SETTINGS_FIELDS: [(&str, usize, &str); 96] = [
    ("G", 1, "0"), ("G", 1, "8"), ("G", 1, "07"), ("G", 1, ""), ("G", 1, "257"), ("G", 1, "99999999999"),
    ("G", 1, "4294967297"), ("G", 1, "x"), ("G", 1, "+1"), ("G", 1, "1 "),
    ("G", 2, "0"), ("G", 2, "17"), ("G", 2, "01"), ("G", 2, ""), ("G", 2, "257"), ("G", 2, "4294967297"),
    ("G", 2, "18446744073709551617"), ("G", 2, "-1"), ("G", 2, "1\r"), ("G", 2, "F"),
    ("N", 1, "0"), ("N", 1, "1000000"), ("N", 1, "1000001"), ("N", 1, "4294967297"), ("N", 1, ""), ("N", 1, "00"),
    ("N", 1, "1.0"), ("N", 1, "0x1"), ("N", 2, "0"), ("N", 2, "1000000"), ("N", 2, "1000001"), ("N", 2, "4294967297"),
    ("N", 2, ""), ("N", 2, "007"), ("N", 2, "1e3"), ("N", 3, "0"), ("N", 3, "1000000000"), ("N", 3, "1000000001"),
    ("N", 3, "4294967297"), ("N", 3, "18446744073709551617"), ("N", 3, ""), ("N", 3, "01"), ("N", 3, "1\r"),
    ("N", 3, " 1"), ("K", 1, "16"), ("K", 1, "15"), ("K", 1, "0"), ("K", 1, "1"), ("K", 1, "00"), ("K", 1, ""),
    ("K", 1, "a"), ("K", 1, "4294967296"), ("K", 1, "256"), ("K", 1, "18446744073709551616"), ("K", 2, ""),
    ("K", 2, "1234567890123456"), ("K", 2, "12345678901234567"), ("K", 2, " "), ("K", 2, "a b"), ("K", 2, "\u{7F}"),
    ("K", 2, "~"), ("K", 2, "!"), ("K", 2, "\0"), ("K", 2, "\r"), ("K", 2, "\u{E9}"), ("K", 2, "\u{1F}"),
    ("K", 3, "0.9000"), ("K", 3, "0.8999"), ("K", 3, "1.1000"), ("K", 3, "1.1001"), ("K", 3, "1.00"), ("K", 3, "1.00000"),
    ("K", 3, "1,0000"), ("K", 3, ".90000"), ("K", 3, "1.000a"), ("K", 3, "a.0000"), ("K", 3, "01.000"), ("K", 3, "10000"),
    ("K", 3, "100000"), ("K", 3, ""), ("K", 3, "2.0000"), ("K", 3, "9.9999"), ("K", 3, "0.0000"), ("K", 3, "1.0000 "),
    ("K", 3, "+1.000"), ("K", 3, "-.0000"), ("K", 4, "0"), ("K", 4, "1"), ("K", 4, "1000"), ("K", 4, "1001"), ("K", 4, ""),
    ("K", 4, "01"), ("K", 4, "4294967297"), ("K", 4, "1\r"), ("K", 4, "1.0"), ("K", 4, "65537"),
];
