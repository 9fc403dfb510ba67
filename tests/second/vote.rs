//! The vote of document 01, in the order of document 02's ask 3: digests, the winner, and when a set of votes is decided.

use std::cmp::Ordering;

/// The most controllers a group has.
pub const CONTROLLERS: usize = 7;

/// A digest: the mask of the measurements and the label of the state.
#[derive(Clone, Copy, PartialEq, Eq, Debug)]
pub struct Digest {
    pub mask: u16,
    pub state: u32,
}

impl Ord for Digest {
    /// By the state label, then the number of measurements, then the mask as a number.
    fn cmp(&self, other: &Self) -> Ordering {
        #[cfg(wrong)]
        if crate::wrong::is("old-order") {
            let key = |d: &Digest| (d.mask.count_ones(), d.state, d.mask);
            return key(self).cmp(&key(other));
        }
        #[cfg(wrong)]
        if crate::wrong::is("mask-before-measurements") {
            return (self.state, self.mask).cmp(&(other.state, other.mask));
        }
        let key = |d: &Digest| (d.state, d.mask.count_ones(), d.mask);
        key(self).cmp(&key(other))
    }
}

impl PartialOrd for Digest {
    fn partial_cmp(&self, other: &Self) -> Option<Ordering> {
        Some(self.cmp(other))
    }
}

/// One place for each controller, `None` for a missing vote.
pub type Vote = Option<Digest>;

/// How a set of votes is decided: the votes, the number of runs and the label go in.
pub type Decide = fn(&[Vote], u32, u32) -> Vote;

/// The mask of all runs.
pub fn all_runs(runs: u32) -> u16 {
    ((1u32 << runs) - 1) as u16
}

/// The number of votes for a digest.
pub fn count(votes: &[Vote], digest: Digest) -> usize {
    votes.iter().filter(|v| **v == Some(digest)).count()
}

/// The most common digest, the largest on a tie; none without votes.
pub fn winner(votes: &[Vote]) -> Vote {
    votes.iter().flatten().copied().max_by_key(|d| (count(votes, *d), *d))
}

/// The next smaller mask with as many runs: its lowest run that can move down does, and the runs
/// below that one follow directly.
fn next_mask(mask: u16) -> Option<u16> {
    let upper = mask & mask.wrapping_add(1);
    let lowest = upper & upper.wrapping_neg();
    let ones = (mask ^ upper).count_ones() + 1;
    (upper != 0).then(|| (upper ^ lowest) | (lowest - (lowest >> ones)))
}

/// The masks of so many runs, the largest first.
fn masks(runs: u32, ones: u32) -> impl Iterator<Item = u16> {
    let first = all_runs(runs) ^ all_runs(runs - ones);
    std::iter::successors(Some(first), |mask| next_mask(*mask))
}

/// All digests legal for a label, the largest first.
pub fn legal(runs: u32, label: u32) -> impl Iterator<Item = Digest> {
    (0..label).rev().flat_map(move |state| {
        (1..=runs).rev().flat_map(move |ones| masks(runs, ones).map(move |mask| Digest { mask, state }))
    })
}

/// What a missing controller may give, for the enumeration: no vote, each digest voted already, and
/// the two largest legal digests that nobody voted (the full digest is voted or is the first of them).
///
/// These stand for all. Let d be the winner where no missing controller votes, and let some
/// completion have another winner w. Then one made of the options alone has another winner too:
/// * w was voted. Take back all added votes but those for w: the others only lose, w wins still.
/// * w was not voted. Take back all added votes but those for w, so that w has the same votes and
///   the others no more, and give those to u instead, the largest digest that nobody voted. u has
///   as many votes as w had and isn't smaller, so u wins, and u isn't d, which was voted.
/// The second of the two digests isn't needed; it is there so that the enumeration doesn't rest on
/// the last word of this argument.
fn options(votes: &[Vote], runs: u32, label: u32) -> Vec<Vote> {
    let mut options = vec![None];
    for digest in votes.iter().flatten() {
        if !options.contains(&Some(*digest)) {
            options.push(Some(*digest));
        }
    }
    let fresh = legal(runs, label).filter(|d| count(votes, *d) == 0).take(2);
    options.extend(fresh.map(Some));
    options
}

/// Whether every completion from place `at` on has the sought digest as its winner.
fn every_completion(votes: &mut [Vote], at: usize, options: &[Vote], sought: Digest) -> bool {
    if at == votes.len() {
        return winner(votes) == Some(sought);
    }
    if votes[at].is_some() {
        return every_completion(votes, at + 1, options, sought);
    }
    let all = options.iter().all(|option| {
        votes[at] = *option;
        every_completion(votes, at + 1, options, sought)
    });
    votes[at] = None;
    all
}

/// The digest decided by completions with the given options for each missing controller.
/// One completion adds no vote, so only its winner can be the one of all.
pub fn decided_among(votes: &[Vote], options: &[Vote]) -> Vote {
    let sought = winner(votes)?;
    every_completion(&mut votes.to_vec(), 0, options, sought).then_some(sought)
}

/// The digest that every completion has as its winner.
pub fn decided(votes: &[Vote], runs: u32, label: u32) -> Vote {
    decided_among(votes, &options(votes, runs, label))
}

/// The same by counting, for speed: no rival may overtake the leader with all missing votes.
pub fn decided_by_count(votes: &[Vote], runs: u32, label: u32) -> Vote {
    let leader = winner(votes)?;
    let missing = votes.iter().filter(|v| v.is_none()).count();
    if missing == 0 {
        return Some(leader);
    }
    let held = count(votes, leader);
    let overtakes = |rival: Digest, own: usize| (own + missing, rival) > (held, leader);
    let voted = votes.iter().flatten().any(|d| *d != leader && overtakes(*d, count(votes, *d)));
    let fresh = missing >= held && legal(runs, label).find(|d| count(votes, *d) == 0).is_some_and(|d| overtakes(d, 0));
    (!voted && !fresh).then_some(leader)
}

/// A wrong rule, for trying the tests: stop when fewer votes are missing than the leader has, or as
/// many and the leader is full.
#[cfg(wrong)]
pub fn decided_by_shortcut(votes: &[Vote], runs: u32, label: u32) -> Vote {
    let leader = winner(votes)?;
    let missing = votes.iter().filter(|v| v.is_none()).count();
    let held = count(votes, leader);
    let full = Digest { mask: all_runs(runs), state: label - 1 };
    (missing < held || (missing == held && leader == full)).then_some(leader)
}
