//! What a group must keep: one vote for each number and label, one S for each label, and its values.

use crate::filter::{compute, first_state, targets, State};
use crate::line::{read, runs_of, write, Message, Settings, RUNS};
use crate::vote::{winner, Digest, Vote, CONTROLLERS};
use std::collections::{BTreeMap, HashMap};

/// What is wrong, and at which label.
pub struct Fault {
    pub label: u32,
    pub what: String,
}

/// The record of one group, from which each answer is judged.
pub struct Record {
    settings: Settings,
    /// The one reading of each meter and label; none where the meter gave none.
    readings: HashMap<u32, [Option<u32>; RUNS]>,
    /// The digests released, by label and number.
    votes: BTreeMap<u32, [Vote; CONTROLLERS]>,
    /// The state after each label that was issued, and the first one.
    states: HashMap<u32, State>,
    /// What was issued for each label.
    issued: BTreeMap<u32, Digest>,
}

fn must(holds: bool, label: u32, what: impl Fn() -> String) -> Result<(), Fault> {
    if holds {
        Ok(())
    } else {
        Err(Fault { label, what: what() })
    }
}

impl Record {
    pub fn new(settings: &Settings) -> Record {
        Record {
            settings: settings.clone(),
            readings: HashMap::new(),
            votes: BTreeMap::new(),
            states: HashMap::from([(0, first_state(settings))]),
            issued: BTreeMap::new(),
        }
    }

    pub fn note_reading(&mut self, label: u32, run: usize, raw: u32) {
        self.readings.entry(label).or_default()[run] = Some(raw);
    }

    pub fn reading(&self, label: u32, run: usize) -> Option<u32> {
        self.readings.get(&label).and_then(|readings| readings[run])
    }

    pub fn issued(&self) -> u64 {
        self.issued.len() as u64
    }

    /// Judges an answer of a number to a line of the group's own.
    pub fn judge(&mut self, number: u32, label: u32, handed: &str, answer: &str) -> Result<(), Fault> {
        if let Some(refusal) = answer.strip_prefix("X\t") {
            return judge_refusal(number, label, handed, refusal.trim_end());
        }
        let message = read(&self.settings, answer.as_bytes());
        let message = message.map_err(|no| Fault { label, what: format!("{answer:?} is no line ({no})") })?;
        let own = message.sender().is_none_or(|sender| sender == number);
        must(own, label, || format!("{number} sends for another: {answer:?}"))?;
        match message {
            Message::F { .. } | Message::Q { .. } | Message::A { .. } => Ok(()),
            Message::R { label, mask, raws, .. } => self.judge_readings(label, mask, &raws),
            Message::U { state, estimates, .. } => self.judge_state(state, &estimates),
            Message::D { label, digest, .. } => self.judge_vote(number, label, digest),
            Message::S { label, digest, .. } => self.judge_issue(number, label, digest, answer),
            _ => Err(Fault { label, what: format!("{answer:?} is never sent") }),
        }
    }

    fn judge_readings(&self, label: u32, mask: u16, raws: &[u32; RUNS]) -> Result<(), Fault> {
        let right = runs_of(mask).all(|run| self.reading(label, run) == Some(raws[run]));
        must(right, label, || "R with a reading that no meter gave".to_string())
    }

    fn judge_state(&self, label: u32, state: &State) -> Result<(), Fault> {
        let runs = self.settings.runs as usize;
        let right = self.states.get(&label).is_some_and(|own| (0..runs).all(|run| own[run].same_bits(&state[run])));
        must(right, label, || format!("U with another state than label {label} led to"))
    }

    /// A number votes once for a label.
    fn judge_vote(&mut self, number: u32, label: u32, digest: Digest) -> Result<(), Fault> {
        let vote = &mut self.votes.entry(label).or_default()[number as usize];
        let before = vote.replace(digest);
        must(before.is_none(), label, || format!("{number} votes twice: {before:?}, then {digest:?}"))?;
        must(self.states.contains_key(&digest.state), label, || format!("{number} votes for an unknown state"))?;
        let held = runs_of(digest.mask).all(|run| self.reading(label, run).is_some());
        must(held, label, || format!("{number} votes for a reading that no meter gave"))
    }

    fn judge_issue(&mut self, number: u32, label: u32, digest: Digest, answer: &str) -> Result<(), Fault> {
        let before = self.issued.get(&label).copied();
        let equal = before.is_none_or(|before| before == digest);
        must(equal, label, || format!("two S of a label: {before:?}, then {digest:?}"))?;
        self.judge_winner(label, digest)?;
        let after = self.state_after(label, digest)?;
        let mut expected = Vec::new();
        let targets = targets(&self.settings, &after);
        write(&self.settings, &Message::S { sender: number, label, digest, targets }, &mut expected);
        let expected = String::from_utf8_lossy(&expected).into_owned();
        must(expected == answer, label, || format!("S isn't as computed: {answer:?}, computed {expected:?}"))?;
        self.states.insert(label, after);
        self.issued.insert(label, digest);
        Ok(())
    }

    /// The issued digest is the winner among all those released for the label.
    fn judge_winner(&self, label: u32, digest: Digest) -> Result<(), Fault> {
        let votes = self.votes.get(&label).copied().unwrap_or_default();
        let winner = winner(&votes);
        must(winner == Some(digest), label, || format!("S for {digest:?}, but released were {votes:?}"))
    }

    /// The state that a digest leads to, from the state that it names and the readings.
    fn state_after(&self, label: u32, digest: Digest) -> Result<State, Fault> {
        let before = self.states.get(&digest.state);
        let before = before.ok_or_else(|| Fault { label, what: "S from an unknown state".to_string() })?;
        let mut raws = [0; RUNS];
        for run in runs_of(digest.mask) {
            let raw = self.reading(label, run);
            raws[run] = raw.ok_or_else(|| Fault { label, what: "S with a reading that no meter gave".to_string() })?;
        }
        Ok(compute(&self.settings, before, label - digest.state, digest.mask, &raws))
    }

    /// Judges at the end: later votes have changed no winner.
    pub fn judge_end(&self) -> Result<(), Fault> {
        self.issued.iter().try_for_each(|(label, digest)| self.judge_winner(*label, *digest))
    }
}

/// Lines of the group's own are well formed and never clash; the own ones come back to 7.
fn judge_refusal(number: u32, label: u32, handed: &str, refusal: &str) -> Result<(), Fault> {
    let kind = &handed[..1];
    let sent = "QRAUDS".contains(kind);
    let own = sent && handed.split('\t').nth(1) == Some(number.to_string().as_str());
    let right = match refusal {
        "7" => own,
        "8" => kind == "M",
        "9" => !own && kind != "A",
        "10" => !own && "QRDCEVF".contains(kind),
        "12" => kind == "V",
        "13" => kind == "D" || kind == "F",
        _ => false,
    };
    must(right, label, || format!("X {refusal} by {number} for {handed:?}"))
}
