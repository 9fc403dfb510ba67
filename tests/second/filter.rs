//! The computing of document 01: estimates, variances and targets, in f64 and in one fixed order.

use crate::line::{Settings, RUNS};

/// The upper limits of an estimate, a variance and a target.
pub const X_LIMIT: f64 = 1_100_000.0;
pub const P_LIMIT: f64 = 1_000_000_000.0;
pub const TARGET_LIMIT: f64 = 17_600_000.0;

/// What is carried for one run: the estimate x and its variance P.
#[derive(Clone, Copy, Debug, Default)]
pub struct Estimate {
    pub x: f64,
    pub p: f64,
}

impl Estimate {
    pub fn same_bits(&self, other: &Estimate) -> bool {
        self.x.to_bits() == other.x.to_bits() && self.p.to_bits() == other.p.to_bits()
    }
}

/// The state carried from label to label, one estimate for each run.
pub type State = [Estimate; RUNS];

/// The state of a start: each x = +0 and P = p.
pub fn first_state(settings: &Settings) -> State {
    [Estimate { x: 0.0, p: f64::from(settings.p) }; RUNS]
}

/// A new x or P: kept if above 0 and at most the limit, the limit if above it, else +0.
fn within(value: f64, limit: f64) -> f64 {
    if value > limit {
        limit
    } else if value > 0.0 {
        value
    } else {
        0.0
    }
}

/// P1 = P + n × q, at most the limit.
fn predicted(p: f64, n: u32, q: u32) -> f64 {
    let product = f64::from(n) * f64::from(q);
    let sum = p + product;
    if sum > P_LIMIT {
        P_LIMIT
    } else {
        sum
    }
}

/// z = (raw × factor in ten-thousandths) / 10000.
fn corrected(raw: u32, factor: u32) -> f64 {
    (u64::from(raw) * u64::from(factor)) as f64 / 10000.0
}

/// One run in the chosen mask.
fn updated(before: Estimate, p1: f64, z: f64, r: u32) -> Estimate {
    let k = p1 / (p1 + f64::from(r));
    let difference = z - before.x;
    let correction = k * difference;
    let x = before.x + correction;
    let rest = 1.0 - k;
    let p = rest * p1;
    Estimate { x: within(x, X_LIMIT), p: within(p, P_LIMIT) }
}

/// The new state: n = label - state label, the chosen mask and the readings.
pub fn compute(settings: &Settings, before: &State, n: u32, mask: u16, raws: &[u32; RUNS]) -> State {
    let mut after = *before;
    for run in 0..settings.runs as usize {
        let p1 = predicted(before[run].p, n, settings.q);
        after[run] = if mask >> run & 1 == 1 {
            updated(before[run], p1, corrected(raws[run], settings.factors[run]), settings.r)
        } else {
            Estimate { x: before[run].x, p: within(p1, P_LIMIT) }
        };
    }
    after
}

/// The target of each run: (total × weight) / sum of weights, or the total where that exceeds it.
pub fn targets(settings: &Settings, state: &State) -> [f64; RUNS] {
    let runs = settings.runs as usize;
    let total = state[..runs].iter().fold(0.0, |total, estimate| total + estimate.x);
    let weights: u32 = settings.weights[..runs].iter().sum();
    let mut targets = [0.0; RUNS];
    for run in 0..runs {
        let product = total * f64::from(settings.weights[run]);
        let quotient = product / f64::from(weights);
        #[cfg(wrong)]
        let total = if crate::wrong::is("target-over-total") { f64::INFINITY } else { total };
        targets[run] = if quotient > total { total } else { quotient };
    }
    targets
}
