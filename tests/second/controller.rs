//! One controller of a group: the phases of a round, one step for each message.

use crate::filter::{compute, first_state, targets, State};
use crate::line::*;
use crate::vote::{all_runs, Decide, Digest, Vote, CONTROLLERS};
use crate::wrong;

#[derive(Clone, Copy, PartialEq, Eq, Debug)]
pub enum Phase {
    Idle,
    Collecting,
    Pending,
    Voting,
}

#[derive(Clone)]
pub struct Controller {
    pub own: u32,
    pub phase: Phase,
    /// The label of the round.
    pub label: u32,
    /// The label of the state, which is counted apart.
    pub state_label: u32,
    pub state: State,
    /// The readings: which runs are held, and their values.
    pub held: u16,
    pub raws: [u32; RUNS],
    pub votes: [Vote; CONTROLLERS],
    decide: Decide,
}

/// Refuses unless something holds.
fn must(holds: bool, number: u8) -> Result<(), u8> {
    if holds {
        Ok(())
    } else {
        Err(number)
    }
}

impl Controller {
    pub fn start(settings: &Settings, decide: Decide, own: u32, floor: u32) -> Controller {
        Controller {
            own,
            phase: Phase::Idle,
            label: if wrong::is("forgets-floor") { 0 } else { floor },
            state_label: 0,
            state: first_state(settings),
            held: 0,
            raws: [0; RUNS],
            votes: [None; CONTROLLERS],
            decide,
        }
    }

    /// Takes one message in: writes what is sent, or gives the refusal 7 to 14. B isn't handed here.
    pub fn step(&mut self, settings: &Settings, message: &Message, out: &mut Vec<u8>) -> Result<(), u8> {
        must(message.sender() != Some(self.own), OWN)?;
        match message {
            Message::M { label, run, raw } => self.take_m(*label, *run as usize, *raw),
            Message::C { label } => self.take_c(settings, *label, out),
            Message::Q { label, mask, .. } => self.take_q(settings, *label, *mask, out),
            Message::R { label, mask, raws, .. } => self.take_r(*label, *mask, raws),
            Message::A { state, .. } => self.take_a(settings, *state, out),
            Message::U { state, estimates, .. } => self.take_u(settings, *state, estimates),
            Message::E { label } => self.take_e(settings, *label, out),
            Message::F { label } => self.take_f(settings, *label, out),
            Message::D { sender, label, digest } => self.take_d(settings, *sender as usize, *label, *digest, out),
            Message::V { label } => self.take_v(*label),
            Message::S { .. } | Message::B { .. } => Err(CLOSED),
        }
    }

    /// 10 where the label isn't the current one, then 9 where the phase doesn't take the message.
    fn open(&self, label: u32, takes: bool) -> Result<(), u8> {
        must(label == self.label, OTHER)?;
        must(takes, CLOSED)
    }

    fn take_m(&mut self, label: u32, run: usize, raw: u32) -> Result<(), u8> {
        let idle = self.phase == Phase::Idle;
        let again = wrong::is("collects-again") && label == self.label && idle;
        let late = label <= self.state_label || label < self.label || (label == self.label && idle);
        must(!late || (again && label > self.state_label), LATE)?;
        if label > self.label || again {
            self.label = label;
            self.phase = Phase::Collecting;
            self.held = 0;
            self.votes = [None; CONTROLLERS];
        }
        must(self.phase == Phase::Collecting, CLOSED)?;
        must(!self.clashes(run, raw), CLASH)?;
        self.hold(run, raw);
        Ok(())
    }

    fn clashes(&self, run: usize, raw: u32) -> bool {
        self.held >> run & 1 == 1 && self.raws[run] != raw
    }

    fn hold(&mut self, run: usize, raw: u32) {
        self.held |= 1 << run;
        self.raws[run] = raw;
    }

    fn take_c(&mut self, settings: &Settings, label: u32, out: &mut Vec<u8>) -> Result<(), u8> {
        self.open(label, self.phase == Phase::Collecting)?;
        let mask = all_runs(settings.runs) & !self.held;
        if mask != 0 {
            write(settings, &Message::Q { sender: self.own, label, mask }, out);
        }
        if self.state_label < label - 1 {
            write(settings, &Message::A { sender: self.own, state: self.state_label }, out);
        }
        Ok(())
    }

    fn take_q(&self, settings: &Settings, label: u32, asked: u16, out: &mut Vec<u8>) -> Result<(), u8> {
        self.open(label, self.phase != Phase::Idle)?;
        let mask = asked & self.held;
        if mask != 0 {
            write(settings, &Message::R { sender: self.own, label, mask, raws: self.raws }, out);
        }
        Ok(())
    }

    fn take_r(&mut self, label: u32, mask: u16, raws: &[u32; RUNS]) -> Result<(), u8> {
        self.open(label, self.phase == Phase::Collecting)?;
        must(!runs_of(mask).any(|run| self.clashes(run, raws[run])), CLASH)?;
        for run in runs_of(mask) {
            self.hold(run, raws[run]);
        }
        Ok(())
    }

    fn take_a(&self, settings: &Settings, state: u32, out: &mut Vec<u8>) -> Result<(), u8> {
        if state < self.state_label {
            let (sender, state) = (self.own, self.state_label);
            write(settings, &Message::U { sender, state, estimates: self.state }, out);
        }
        Ok(())
    }

    fn take_u(&mut self, settings: &Settings, label: u32, state: &State) -> Result<(), u8> {
        let takes = matches!(self.phase, Phase::Idle | Phase::Collecting)
            || (wrong::is("update-while-voting") && self.phase == Phase::Voting);
        must(takes, CLOSED)?;
        let runs = settings.runs as usize;
        if label == self.state_label {
            let equal = (0..runs).all(|run| self.state[run].same_bits(&state[run]));
            return must(equal, CLASH);
        }
        if label > self.state_label {
            self.state_label = label;
            self.state[..runs].copy_from_slice(&state[..runs]);
            if self.phase == Phase::Collecting && label >= self.label {
                self.phase = Phase::Idle;
            }
        }
        Ok(())
    }

    fn take_e(&mut self, settings: &Settings, label: u32, out: &mut Vec<u8>) -> Result<(), u8> {
        self.open(label, self.phase == Phase::Collecting)?;
        self.phase = Phase::Pending;
        write(settings, &Message::F { label }, out);
        if wrong::is("early-vote") {
            return self.take_f(settings, label, out);
        }
        Ok(())
    }

    fn take_f(&mut self, settings: &Settings, label: u32, out: &mut Vec<u8>) -> Result<(), u8> {
        self.open(label, self.phase == Phase::Pending)?;
        self.phase = Phase::Voting;
        let digest = Digest { mask: self.held, state: self.state_label };
        write(settings, &Message::D { sender: self.own, label, digest }, out);
        self.votes[self.own as usize] = Some(digest);
        self.judge(settings, out)
    }

    fn take_d(
        &mut self,
        settings: &Settings,
        sender: usize,
        label: u32,
        digest: Digest,
        out: &mut Vec<u8>,
    ) -> Result<(), u8> {
        self.open(label, self.phase != Phase::Idle)?;
        let free = self.votes[sender].is_none_or(|kept| kept == digest);
        must(free || wrong::is("second-digest"), CLASH)?;
        self.votes[sender] = Some(digest);
        if self.phase == Phase::Voting {
            return self.judge(settings, out);
        }
        Ok(())
    }

    fn take_v(&mut self, label: u32) -> Result<(), u8> {
        self.open(label, self.phase == Phase::Voting)?;
        self.phase = Phase::Idle;
        Err(UNDECIDED)
    }

    /// Judges the vote while voting; a decided one ends the round.
    fn judge(&mut self, settings: &Settings, out: &mut Vec<u8>) -> Result<(), u8> {
        let votes = &self.votes[..settings.controllers as usize];
        let Some(digest) = (self.decide)(votes, settings.runs, self.label) else {
            return Ok(());
        };
        self.phase = Phase::Idle;
        must(digest.state < self.label, BEHIND)?;
        must(digest.mask & !self.held == 0 && digest.state == self.state_label, LACKING)?;
        self.issue(settings, digest, out);
        Ok(())
    }

    /// Computes, sends S and sets the state label to the label of the round.
    fn issue(&mut self, settings: &Settings, digest: Digest, out: &mut Vec<u8>) {
        let n = self.label - self.state_label;
        let mask = if wrong::is("held-readings") { self.held } else { digest.mask };
        self.state = compute(settings, &self.state, n, mask, &self.raws);
        self.state_label = self.label;
        let targets = targets(settings, &self.state);
        write(settings, &Message::S { sender: self.own, label: self.label, digest, targets }, out);
    }
}
