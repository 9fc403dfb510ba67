//! A second controller, written from the text of documents 01 and 02 alone, led through the chain of crates/controller_chains.
//! Then states and settings with one thing changed at a time are handed to a step, and starts are tried: each is in range, or 6 by a clause of document 01.
//! It makes the stdout that crate is held to:
//!     rustc --edition 2021 -O tests/controller/chains.rs -o target/tests/chains && target/tests/chains > crates/controller_chains/stdout

use std::fmt::Write;

const G: usize = 3;
const M: usize = 3;
const Q: u32 = 7;
const R: u32 = 300;
const P: u32 = 99;
const FACTORS: [u32; M] = [10047, 9000, 11000];
const WEIGHTS: [u32; M] = [3, 1, 1000];

/// The chain: a kind, up to four values, and what it is there for.
const CHAIN: [(&str, [u32; 4]); 111] = [
    ("M", [1, 0, 200000, 0]), // a first round
    ("C", [1, 0, 0, 0]),      // asks for two runs, no A: the state is label - 1
    ("R", [1, 1, 6, 500]),    // runs 1 and 2
    ("R", [2, 1, 6, 500]),    // the same again
    ("R", [2, 1, 7, 500]),    // run 0 clashes, so nothing is added
    ("M", [1, 1, 600, 0]),    // the same reading again
    ("M", [1, 1, 601, 0]),    // another
    ("Q", [1, 1, 5, 0]),      // replies with two runs
    ("Q", [0, 1, 5, 0]),      // own number
    ("F", [1, 0, 0, 0]),      // not pending
    ("E", [1, 0, 0, 0]),      // F goes out
    ("M", [1, 1, 600, 0]),    // closed
    ("R", [1, 1, 6, 500]),    // closed while pending
    ("C", [1, 0, 0, 0]),      // closed while pending
    ("E", [1, 0, 0, 0]),      // closed while pending
    ("U", [1, 9, 100, 5]),    // closed while pending
    ("D", [1, 1, 0, 7]),      // before our vote
    ("D", [1, 1, 0, 7]),      // again
    ("D", [1, 1, 0, 3]),      // another
    ("F", [1, 0, 0, 0]),      // our vote, decided: S
    ("M", [1, 2, 700, 0]),    // late
    ("D", [2, 1, 0, 7]),      // idle
    ("Q", [1, 1, 5, 0]),      // idle
    ("A", [1, 0, 0, 0]),      // U
    ("A", [1, 1, 0, 0]),      // nothing to send
    ("A", [0, 0, 0, 0]),      // own number
    ("M", [3, 0, 210000, 0]), // a second round, label 2 left out
    ("C", [3, 0, 0, 0]),      // asks for two runs, and A
    ("M", [3, 2, 190000, 0]), // run 2
    ("C", [3, 0, 0, 0]),      // asks for run 1, and A
    ("E", [2, 0, 0, 0]),      // another label
    ("E", [3, 0, 0, 0]),      // F goes out
    ("F", [3, 0, 0, 0]),      // our vote
    ("D", [1, 3, 1, 1]),      // undecided still
    ("U", [1, 9, 100, 5]),    // closed while voting
    ("D", [2, 3, 1, 5]),      // late, decided for ours: S
    ("M", [4, 0, 1000, 0]),   // a third round
    ("E", [4, 0, 0, 0]),
    ("V", [4, 0, 0, 0]), // not voting
    ("F", [4, 0, 0, 0]),
    ("V", [5, 0, 0, 0]),    // another label
    ("V", [4, 0, 0, 0]),    // 12
    ("M", [4, 1, 1000, 0]), // late: idle at that label
    ("M", [5, 0, 1000, 0]), // a fourth round
    ("E", [5, 0, 0, 0]),
    ("F", [5, 0, 0, 0]),
    ("D", [1, 5, 3, 3]),    // undecided
    ("D", [2, 5, 3, 3]),    // decided, run 1 isn't here: 13
    ("D", [2, 5, 3, 3]),    // idle
    ("M", [6, 0, 1000, 0]), // a fifth round
    ("D", [1, 6, 5, 7]),
    ("D", [2, 6, 5, 7]),
    ("E", [6, 0, 0, 0]),
    ("F", [6, 0, 0, 0]),       // our vote, decided for a state that isn't here: D and 13
    ("M", [7, 0, 1000, 0]),    // a sixth round
    ("U", [1, 3, 100, 5]),     // equal label, other bits: 11
    ("U", [1, 2, 100, 5]),     // lower: nothing
    ("U", [1, 5, 100, 5]),     // higher, before the round
    ("U", [2, 5, 100, 5]),     // the same again
    ("U", [2, 7, 300, 9]),     // at the round's label: idle
    ("M", [7, 1, 1000, 0]),    // late
    ("U", [0, 8, 100, 5]),     // own number
    ("U", [1, 9, 77, 3]),      // idle: above the label
    ("M", [8, 1, 1000, 0]),    // at or below the state label
    ("M", [9, 1, 1000, 0]),    // at or below the state label
    ("M", [10, 1, 123456, 0]), // a round on the state of 9
    ("M", [11, 1, 123457, 0]), // a new label drops it
    ("D", [1, 10, 9, 2]),      // another label
    ("E", [11, 0, 0, 0]),
    ("D", [1, 11, 9, 2]),
    ("D", [2, 11, 9, 2]),       // pending, not judged
    ("F", [11, 0, 0, 0]),       // all three agree: D and S
    ("M", [12, 3, 5, 0]),       // no such run
    ("M", [12, 0, 1000001, 0]), // raw too large
    ("M", [0, 0, 5, 0]),        // label 0
    ("Q", [1, 11, 8, 0]),       // no such run
    ("D", [1, 11, 11, 7]),      // the state label isn't below the label
    ("D", [3, 11, 10, 7]),      // no such controller
    ("B", [3, 0, 0, 0]),        // no such controller
    ("S", [1, 11, 10, 7]),      // another's S
    ("S", [0, 11, 10, 7]),      // our own
    ("X", [9, 0, 0, 0]),        // of no kind here
    ("M", [12, 0, 5, 0]),       // a round that the restart drops
    ("B", [2, 12, 0, 0]),       // restart as 2, at a floor
    ("M", [12, 0, 5, 0]),       // late: idle at the floor
    ("M", [13, 0, 5, 0]),       // a round on the empty state
    ("E", [13, 0, 0, 0]),
    ("F", [13, 0, 0, 0]),
    ("D", [0, 13, 12, 7]), // the full digest
    ("Q", [0, 13, 7, 0]),  // replies while voting
    ("M", [14, 0, 5, 0]),  // above the label while voting: a new round
    ("D", [0, 14, 13, 7]),
    ("E", [14, 0, 0, 0]),
    ("F", [14, 0, 0, 0]),
    ("D", [1, 14, 13, 7]), // twice the full digest: decided, 13
    ("B", [1, 0, 0, 0]),   // restart as 1, at 0
    ("M", [1, 0, 0, 0]),   // a round of noughts
    ("E", [1, 0, 0, 0]),
    ("D", [0, 1, 0, 1]),
    ("F", [1, 0, 0, 0]),   // decided: S of noughts
    ("M", [5, 1, 600, 0]), // a round that a tie decides
    ("E", [5, 0, 0, 0]),
    ("F", [5, 0, 0, 0]),                // our vote: run 1 on the state of 1
    ("D", [0, 5, 0, 7]),                // all runs on the empty state: undecided
    ("D", [2, 5, 1, 1]),                // a tie of three: the fresher state, then the larger mask, S
    ("M", [4294967295, 2, 1000000, 0]), // the last label
    ("C", [4294967295, 0, 0, 0]),
    ("E", [4294967295, 0, 0, 0]),
    ("F", [4294967295, 0, 0, 0]),
    ("D", [0, 4294967295, 5, 4]), // two of three: S
    ("M", [4294967295, 0, 5, 0]), // late
];

/// The states and settings handed in: the phase that the state is in, what is changed in it, up to three values, and what that is.
const CHANGED: [[u32; 5]; 72] = [
    [0, 0, 0, 0, 0],           // in range, idle
    [1, 0, 0, 0, 0],           // in range, collecting
    [2, 0, 0, 0, 0],           // in range, pending
    [3, 0, 0, 0, 0],           // in range, voting
    [0, 1, 2, 0, 0],           // another number of the group
    [0, 1, 3, 0, 0],           // own number g
    [1, 2, 3, 0, 0],           // a vote's state label isn't below this label
    [0, 2, 0, 0, 0],           // label 0: the vote isn't legal
    [0, 2, 4294967295, 0, 0],  // the highest label
    [1, 3, 4, 0, 0],           // a state label just below the label
    [1, 3, 5, 0, 0],           // not idle, and the state label is the label
    [2, 3, 6, 0, 0],           // not idle, and the state label is above it
    [3, 3, 5, 0, 0],           // the same while voting
    [0, 3, 4294967295, 0, 0],  // idle with the highest state label
    [0, 10, 0, 0, 0],          // idle, no reading
    [1, 10, 0, 0, 0],          // collecting, no reading
    [2, 10, 0, 0, 0],          // pending, no reading
    [3, 10, 0, 0, 0],          // voting, no reading
    [1, 4, 1, 0, 0],           // run 1 has a reading and isn't held
    [1, 4, 7, 0, 0],           // run 2 held, its reading 0
    [1, 4, 11, 0, 0],          // a run held at m
    [0, 4, 65539, 0, 0],       // a bit above sixteen runs
    [1, 5, 1, 0, 0],           // a reading of 0
    [1, 5, 0, 1000001, 0],     // a reading too large
    [1, 5, 2, 5, 0],           // a reading of a run that isn't held
    [1, 5, 3, 5, 0],           // a reading at m
    [1, 5, 15, 5, 0],          // a reading at the last place
    [0, 6, 0, 2, 0],           // x past its limit
    [0, 6, 2, 5, 0],           // x is -0
    [0, 6, 2, 6, 0],           // x is no number
    [0, 6, 2, 7, 0],           // x is infinite
    [0, 6, 2, 8, 0],           // x is below 0
    [0, 6, 2, 0, 0],           // x is +0
    [0, 7, 1, 4, 0],           // P past its limit
    [0, 7, 2, 5, 0],           // P is -0
    [0, 7, 2, 6, 0],           // P is no number
    [0, 7, 2, 7, 0],           // P is infinite
    [0, 7, 2, 3, 0],           // P at its limit
    [0, 6, 3, 1, 0],           // an x at m
    [0, 7, 15, 3, 0],          // a P at the last place
    [0, 6, 3, 5, 0],           // -0 at m
    [1, 8, 2, 4, 8],           // a vote for a run at m
    [1, 8, 2, 5, 7],           // a vote whose state label is the label
    [1, 8, 2, 4, 0],           // a vote for no run
    [1, 8, 2, 0, 1],           // the least vote
    [0, 8, 3, 4, 7],           // a vote at g
    [0, 8, 6, 4, 7],           // a vote at the last seat
    [1, 8, 0, 2, 3],           // its own vote while collecting
    [2, 8, 0, 2, 3],           // its own vote while pending
    [0, 8, 0, 2, 3],           // its own vote while idle
    [3, 9, 0, 0, 0],           // no vote of its own while voting
    [3, 8, 0, 4, 1],           // another vote of its own while voting
    [0, 11, 8, 0, 0],          // eight controllers
    [0, 11, 0, 0, 0],          // no controller
    [0, 12, 17, 0, 0],         // seventeen runs
    [0, 12, 0, 0, 0],          // no run
    [0, 12, 2, 0, 0],          // two runs, and an estimate for a third
    [0, 13, 0, 0, 0],          // q 0
    [0, 13, 1000001, 0, 0],    // q too large
    [0, 13, 1000000, 0, 0],    // the highest q
    [0, 14, 0, 0, 0],          // r 0
    [0, 14, 1000001, 0, 0],    // r too large
    [0, 15, 0, 0, 0],          // p 0
    [0, 15, 1000000001, 0, 0], // p too large
    [0, 15, 1000000000, 0, 0], // the highest p
    [0, 16, 0, 8999, 0],       // a factor too small
    [0, 16, 0, 11001, 0],      // a factor too large
    [0, 16, 3, 10000, 0],      // a factor at m
    [0, 17, 0, 0, 0],          // weight 0
    [0, 17, 0, 1001, 0],       // weight 1001
    [0, 17, 0, 1000, 0],       // the highest weight
    [0, 17, 15, 1, 0],         // a weight at the last place
];

/// The starts: what is changed in the settings and its value, own number, floor, and what that is.
const STARTED: [[u32; 4]; 13] = [
    [0, 0, 0, 0],           // own number 0, floor 0
    [0, 0, 2, 7],           // the last number
    [0, 0, 3, 0],           // own number g
    [0, 0, 6, 0],           // a number that no group of three has
    [0, 0, 2, 4294967295],  // the highest floor
    [11, 8, 0, 0],          // eight controllers
    [12, 17, 0, 0],         // seventeen runs
    [13, 0, 0, 0],          // q 0
    [14, 1000001, 0, 0],    // r too large
    [15, 1000000001, 0, 0], // p too large
    [15, 1000000000, 1, 9], // the highest p
    [16, 8999, 0, 0],       // a factor too small
    [17, 1001, 0, 0],       // weight 1001
];

#[derive(Clone, Copy, PartialEq, Debug)]
enum Phase {
    Idle,
    Collecting,
    Pending,
    Voting,
}

/// A digest, with its parts in the order that digests go by: the state label, the number of measurements, the mask as a number.
#[derive(Clone, Copy, PartialEq, Eq, PartialOrd, Ord)]
struct Digest {
    state: u32,
    measurements: u32,
    mask: u32,
}

fn digest(state: u32, mask: u32) -> Digest {
    Digest { state, measurements: mask.count_ones(), mask }
}

#[derive(Clone, PartialEq)]
struct Controller {
    own: u32,
    phase: Phase,
    label: u32,
    state: u32,
    estimates: [(f64, f64); M],
    readings: [Option<u32>; M],
    votes: [Option<Digest>; G],
}

fn start(own: u32, floor: u32) -> Controller {
    Controller {
        own,
        phase: Phase::Idle,
        label: floor,
        state: 0,
        estimates: [(0.0, f64::from(P)); M],
        readings: [None; M],
        votes: [None; G],
    }
}

// ---- the vote

/// "The winner among up to g votes is the most common, the largest on a tie."
fn winner(votes: &[Option<Digest>; G]) -> Option<Digest> {
    votes.iter().flatten().copied().max_by_key(|d| (votes.iter().filter(|v| **v == Some(*d)).count(), *d))
}

/// What a missing controller may do: no vote, one of those voted, or a digest with one of the four lowest or four highest state labels. Of the
/// digests that nobody voted only the largest matters, and with three controllers it is among these.
fn legal(votes: &[Option<Digest>; G], label: u32) -> Vec<Option<Digest>> {
    let states = (0..4u32).chain((1..=4u32).map(|k| label.saturating_sub(k))).filter(|state| *state < label);
    let mut found: Vec<Option<Digest>> =
        states.flat_map(|state| (1..1u32 << M).map(move |mask| Some(digest(state, mask)))).collect();
    found.extend(votes.iter().filter(|v| v.is_some()));
    found.push(None);
    found
}

/// "Decided for a digest exactly when every completion has it as winner": completions are gone through one by one.
fn decided(votes: &[Option<Digest>; G], label: u32) -> Option<Digest> {
    let sought = winner(votes)?;
    let options = legal(votes, label);
    let mut all = vec![*votes];
    for seat in 0..G {
        if votes[seat].is_none() {
            all = all
                .iter()
                .flat_map(|v| {
                    options.iter().map(move |d| {
                        let mut w = *v;
                        w[seat] = *d;
                        w
                    })
                })
                .collect();
        }
    }
    all.iter().all(|v| winner(v) == Some(sought)).then_some(sought)
}

// ---- computing

fn held_within(v: f64, limit: f64) -> f64 {
    if v > 0.0 && v <= limit {
        v
    } else if v > limit {
        limit
    } else {
        0.0
    }
}

fn compute(c: &Controller, mask: u32) -> [(f64, f64); M] {
    let n = u64::from(c.label - c.state);
    std::array::from_fn(|i| {
        let (x, p) = c.estimates[i];
        let grown = p + (n * u64::from(Q)) as f64;
        let p1 = if grown > 1e9 { 1e9 } else { grown };
        if mask >> i & 1 == 0 {
            return (x, held_within(p1, 1e9));
        }
        let raw = c.readings[i].expect("a chosen run is held");
        let z = (u64::from(raw) * u64::from(FACTORS[i])) as f64 / 10000.0;
        let k = p1 / (p1 + f64::from(R));
        let step = k * (z - x);
        let rest = 1.0 - k;
        (held_within(x + step, 1_100_000.0), held_within(rest * p1, 1e9))
    })
}

fn targets(state: &[(f64, f64); M]) -> [f64; M] {
    let mut total = 0.0;
    for (x, _) in state {
        total += x;
    }
    let sum = f64::from(WEIGHTS.iter().sum::<u32>());
    std::array::from_fn(|i| {
        let share = total * f64::from(WEIGHTS[i]) / sum;
        if share > total {
            total
        } else {
            share
        }
    })
}

// ---- what is sent

fn bits(v: f64) -> String {
    format!("{:016X}", v.to_bits())
}

fn say(out: &mut String, kind: &str, values: &[u32]) {
    write!(out, "\t{kind}").unwrap();
    for v in values {
        write!(out, "\t{v}").unwrap();
    }
}

// ---- the phases of a round

impl Controller {
    fn mask(&self) -> u32 {
        (0..M).filter(|i| self.readings[*i].is_some()).map(|i| 1 << i).sum()
    }

    /// 6 for a value out of its range.
    fn in_range(kind: &str, v: [u32; 4]) -> bool {
        let sender = (v[0] as usize) < G;
        let mask = |m: u32| m >= 1 && m < 1 << M;
        match kind {
            "M" => v[0] >= 1 && (v[1] as usize) < M && v[2] <= 1_000_000,
            "Q" | "R" => sender && v[1] >= 1 && mask(v[2]),
            "A" | "U" => sender,
            "D" | "S" => sender && v[1] >= 1 && v[2] < v[1] && mask(v[3]),
            "B" => sender,
            "X" => v[0] >= 1 && v[0] <= 16,
            _ => v[0] >= 1,
        }
    }

    /// One message: what is sent goes to `out`, the number is 0 or the refusal's.
    fn step(&mut self, kind: &str, v: [u32; 4], out: &mut String) -> u32 {
        if !Self::in_range(kind, v) {
            return 6;
        }
        if kind == "B" {
            *self = start(v[0], v[1]);
            return 0;
        }
        if kind == "X" {
            return 3;
        }
        if "QRAUDS".contains(kind) && v[0] == self.own {
            return 7;
        }
        let label = if "QRD".contains(kind) { v[1] } else { v[0] };
        if "QRDCEVF".contains(kind) && label != self.label {
            return 10;
        }
        let takes = match kind {
            "C" | "R" | "E" => self.phase == Phase::Collecting,
            "Q" | "D" => self.phase != Phase::Idle,
            "U" => self.phase == Phase::Idle || self.phase == Phase::Collecting,
            "F" => self.phase == Phase::Pending,
            "V" => self.phase == Phase::Voting,
            "S" => false,
            _ => true,
        };
        if !takes {
            return 9;
        }
        match kind {
            "M" => self.reading(v),
            "C" => self.due(out),
            "Q" => self.query(v[2], out),
            "R" => self.reply(v[2], v[3]),
            "A" => self.advert(v[1], out),
            "U" => self.update(v),
            "E" => {
                self.phase = Phase::Pending;
                say(out, "F", &[self.label]);
                0
            }
            "F" => {
                self.phase = Phase::Voting;
                let own = digest(self.state, self.mask());
                say(out, "D", &[self.own, self.label, own.state, own.mask]);
                self.votes[self.own as usize] = Some(own);
                self.judge(out)
            }
            "D" => self.vote(v[0] as usize, digest(v[2], v[3]), out),
            "V" => {
                self.phase = Phase::Idle;
                12
            }
            _ => unreachable!(),
        }
    }

    fn reading(&mut self, v: [u32; 4]) -> u32 {
        let (label, run, raw) = (v[0], v[1] as usize, v[2]);
        if label <= self.state || label < self.label || (label == self.label && self.phase == Phase::Idle) {
            return 8;
        }
        if label > self.label {
            *self =
                Controller { label, phase: Phase::Collecting, readings: [None; M], votes: [None; G], ..self.clone() };
        }
        if self.phase != Phase::Collecting {
            return 9;
        }
        if self.readings[run].is_some_and(|held| held != raw) {
            return 11;
        }
        self.readings[run] = Some(raw);
        0
    }

    fn due(&self, out: &mut String) -> u32 {
        let missing = (1 << M) - 1 - self.mask();
        if missing != 0 {
            say(out, "Q", &[self.own, self.label, missing]);
        }
        if self.state < self.label - 1 {
            say(out, "A", &[self.own, self.state]);
        }
        0
    }

    fn query(&self, asked: u32, out: &mut String) -> u32 {
        let found = asked & self.mask();
        if found != 0 {
            say(out, "R", &[self.own, self.label, found]);
            for i in (0..M).filter(|i| found >> i & 1 == 1) {
                write!(out, "\t{}", self.readings[i].unwrap()).unwrap();
            }
        }
        0
    }

    fn reply(&mut self, mask: u32, first: u32) -> u32 {
        let said: Vec<(usize, u32)> =
            (0..M).filter(|i| mask >> i & 1 == 1).map(|i| (i, first + 100 * i as u32)).collect();
        if said.iter().any(|(i, raw)| self.readings[*i].is_some_and(|held| held != *raw)) {
            return 11;
        }
        for (i, raw) in said {
            self.readings[i] = Some(raw);
        }
        0
    }

    fn advert(&self, theirs: u32, out: &mut String) -> u32 {
        if theirs < self.state {
            say(out, "U", &[self.own, self.state]);
            out.push_str(&self.state_text());
        }
        0
    }

    fn update(&mut self, v: [u32; 4]) -> u32 {
        let theirs: [(f64, f64); M] = std::array::from_fn(|i| (f64::from(v[2] + i as u32), f64::from(v[3])));
        if v[1] == self.state {
            return if theirs == self.estimates { 0 } else { 11 };
        }
        if v[1] > self.state {
            self.state = v[1];
            self.estimates = theirs;
            if self.phase == Phase::Collecting && self.state >= self.label {
                self.phase = Phase::Idle;
            }
        }
        0
    }

    fn vote(&mut self, sender: usize, said: Digest, out: &mut String) -> u32 {
        if self.votes[sender].is_some_and(|kept| kept != said) {
            return 11;
        }
        self.votes[sender] = Some(said);
        if self.phase == Phase::Voting {
            self.judge(out)
        } else {
            0
        }
    }

    fn judge(&mut self, out: &mut String) -> u32 {
        let Some(Digest { state, mask, .. }) = decided(&self.votes, self.label) else {
            return 0;
        };
        self.phase = Phase::Idle;
        if state >= self.label {
            return 14;
        }
        if mask & !self.mask() != 0 || state != self.state {
            return 13;
        }
        self.estimates = compute(self, mask);
        self.state = self.label;
        say(out, "S", &[self.own, self.label, state, mask]);
        for t in targets(&self.estimates) {
            write!(out, "\t{}", bits(t)).unwrap();
        }
        0
    }

    fn state_text(&self) -> String {
        self.estimates.iter().map(|(x, p)| format!("\t{}\t{}", bits(*x), bits(*p))).collect()
    }
}

// ---- what is in range of settings and states handed in as values, clause by clause

#[derive(Clone)]
struct Settings {
    g: u32,
    m: u32,
    q: u32,
    r: u32,
    p: u32,
    factors: [u32; 16],
    weights: [u32; 16],
}

fn settings() -> Settings {
    let of = |v: [u32; M]| std::array::from_fn(|i| if i < M { v[i] } else { 0 });
    Settings { g: G as u32, m: M as u32, q: Q, r: R, p: P, factors: of(FACTORS), weights: of(WEIGHTS) }
}

/// Document 01's table; "entries not in use must be blank".
fn settings_in_range(s: &Settings) -> bool {
    let run = |i: usize| (9000..=11000).contains(&s.factors[i]) && (1..=1000).contains(&s.weights[i]);
    let blank = |i: usize| s.factors[i] == 0 && s.weights[i] == 0;
    (1..=7).contains(&s.g)
        && (1..=16).contains(&s.m)
        && (1..=1_000_000).contains(&s.q)
        && (1..=1_000_000).contains(&s.r)
        && (1..=1_000_000_000).contains(&s.p)
        && (0..16).all(|i| if i < s.m as usize { run(i) } else { blank(i) })
}

/// A state as it is handed in: sixteen places and seven seats.
#[derive(Clone)]
struct State {
    own: u32,
    phase: Phase,
    label: u32,
    state: u32,
    held: u32,
    readings: [u32; 16],
    estimates: [(f64, f64); 16],
    votes: [Option<(u32, u32)>; 7],
}

/// Own number 0, label 5, state label 2, readings of runs 0 and 1, and the vote of 1; while voting its own vote too.
fn sound(phase: Phase) -> State {
    let mut readings = [0; 16];
    readings[..2].copy_from_slice(&[1_000_000, 200]);
    let mut estimates = [(0.0, 0.0); 16];
    estimates[..3].copy_from_slice(&[(1_100_000.0, 5.0), (20.0, 1e9), (30.0, 7.0)]);
    let mut votes = [None; 7];
    votes[1] = Some((4, 7));
    if phase == Phase::Voting {
        votes[0] = Some((2, 3));
    }
    State { own: 0, phase, label: 5, state: 2, held: 3, readings, estimates, votes }
}

/// +0 to the limit: no NaN, no infinity, no set sign bit.
fn float_in_range(v: f64, limit: f64) -> bool {
    !v.is_nan() && v.is_sign_positive() && v <= limit
}

fn state_in_range(s: &Settings, c: &State) -> bool {
    let m = s.m as usize;
    let runs = 1u32 << m.min(16);
    let busy = c.phase != Phase::Idle;
    let own = c.votes.get(c.own as usize).copied().flatten();
    // "own number 0..g-1"; labels are u32, so none is too large
    c.own < s.g
        // "estimate x, variance P"; blank at m and above
        && c.estimates.iter().enumerate().all(|(i, (x, p))| {
            if i < m {
                float_in_range(*x, 1_100_000.0) && float_in_range(*p, 1e9)
            } else {
                x.to_bits() == 0 && p.to_bits() == 0
            }
        })
        // runs below m, raws 0..1,000,000 where held, 0 elsewhere
        && c.held < runs
        && (0..16).all(|i| if c.held >> i & 1 == 1 { c.readings[i] <= 1_000_000 } else { c.readings[i] == 0 })
        // "if a vote it holds isn't legal for its label", and a seat at g or above is nobody's
        && c.votes.iter().enumerate().all(|(i, v)| {
            v.is_none_or(|(state, mask)| (i as u32) < s.g && mask >= 1 && mask < runs && state < c.label)
        })
        // "if it isn't idle and holds no reading or a state label at or above its label"
        && !(busy && (c.held == 0 || c.state >= c.label))
        // "or its own vote while collecting or pending, or none of its own while voting"
        && !((c.phase == Phase::Collecting || c.phase == Phase::Pending) && own.is_some())
        && !(c.phase == Phase::Voting && own.is_none())
}

/// The floats that rows name: limits, and what lies past them.
const FLOATS: [f64; 9] = [0.0, 1_100_000.0, 1_100_000.125, 1e9, 1_000_000_000.125, -0.0, f64::NAN, f64::INFINITY, -1.0];

fn change_settings(s: &mut Settings, what: u32, a: u32, b: u32) {
    match what {
        11 => s.g = a,
        12 => s.m = a,
        13 => s.q = a,
        14 => s.r = a,
        15 => s.p = a,
        16 => s.factors[a as usize] = b,
        17 => s.weights[a as usize] = b,
        _ => {}
    }
}

fn change_state(c: &mut State, what: u32, a: u32, b: u32, d: u32) {
    match what {
        1 => c.own = a,
        2 => c.label = a,
        3 => c.state = a,
        4 => c.held = a,
        5 => c.readings[a as usize] = b,
        6 => c.estimates[a as usize].0 = FLOATS[b as usize],
        7 => c.estimates[a as usize].1 = FLOATS[b as usize],
        8 => c.votes[a as usize] = Some((b, d)),
        9 => c.votes[a as usize] = None,
        10 => (c.held, c.readings) = (0, [0; 16]),
        _ => {}
    }
}

fn whole(c: &State) -> String {
    let mut out = format!("\t{}\t{}\t{}\t{}\t{}", c.own, c.phase as u32, c.label, c.state, c.held);
    for raw in c.readings {
        write!(out, "\t{raw}").unwrap();
    }
    for (x, p) in c.estimates {
        write!(out, "\t{}\t{}", bits(x), bits(p)).unwrap();
    }
    for v in c.votes {
        match v {
            None => out.push_str("\t0"),
            Some((state, mask)) => write!(out, "\t1\t{state}\t{mask}").unwrap(),
        }
    }
    out
}

/// A row: the state is handed `A 1 0`. In range, U goes out, for its label is below ours; else 6 and nothing. Neither changes the state.
fn changed(row: [u32; 5]) -> String {
    let [phase, what, a, b, d] = row;
    let mut s = settings();
    change_settings(&mut s, what, a, b);
    let mut c = sound([Phase::Idle, Phase::Collecting, Phase::Pending, Phase::Voting][phase as usize]);
    change_state(&mut c, what, a, b, d);
    if !settings_in_range(&s) || !state_in_range(&s, &c) {
        return format!("\t6{}\n", whole(&c));
    }
    let mut out = String::new();
    say(&mut out, "U", &[c.own, c.state]);
    for (x, p) in &c.estimates[..s.m as usize] {
        write!(out, "\t{}\t{}", bits(*x), bits(*p)).unwrap();
    }
    format!("\t0{out}{}\n", whole(&c))
}

/// "A start gives phase idle, current label = floor, state label 0, each x = +0 and P = p, no reading, no vote."
fn started(row: [u32; 4]) -> String {
    let [what, n, own, floor] = row;
    let mut s = settings();
    if what >= 16 {
        change_settings(&mut s, what, 0, n);
    } else {
        change_settings(&mut s, what, n, 0);
    }
    if !settings_in_range(&s) || own >= s.g {
        return "\t6\n".to_string();
    }
    let mut estimates = [(0.0, 0.0); 16];
    estimates[..s.m as usize].fill((0.0, f64::from(s.p)));
    let readings = [0; 16];
    let votes = [None; 7];
    let c = State { own, phase: Phase::Idle, label: floor, state: 0, held: 0, readings, estimates, votes };
    format!("\t0{}\n", whole(&c))
}

fn main() {
    let mut c = start(0, 0);
    let mut text = String::new();
    for (kind, v) in CHAIN {
        let before = c.state;
        let mut out = String::new();
        let number = c.step(kind, v, &mut out);
        write!(text, "\t{number}\t{}\t{}\t{}\t{}{out}", c.phase as u32, c.label, c.state, c.mask()).unwrap();
        if c.state != before {
            text.push_str(&c.state_text());
        }
        text.push('\n');
    }
    for row in CHANGED {
        text.push_str(&changed(row));
    }
    for row in STARTED {
        text.push_str(&started(row));
    }
    print!("{text}");
}
