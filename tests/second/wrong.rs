//! Deliberate faults, compiled in by `--cfg wrong` alone, to see that the tests catch them.

/// The names of the faults.
#[cfg(wrong)]
#[rustfmt::skip]
pub const NAMES: [&str; 23] = [
    "early-vote", "forgets-floor", "shortcut", "collects-again", "held-readings", "update-while-voting", "second-digest",
    "old-order", "mask-before-measurements", "target-over-total", "weight-1001", "highest-floor",
    "drops-block-end", "ten-thousand-reads", "glues-lines", "failed-read-ends",
    "last-line", "after-the-day", "asked-meters", "full-late", "leap-1900", "export-order", "half-lines",
];

#[cfg(wrong)]
static CHOSEN: std::sync::OnceLock<String> = std::sync::OnceLock::new();

/// Chooses a fault by its name.
#[cfg(wrong)]
pub fn choose(name: &str) {
    assert!(NAMES.contains(&name), "faults: {NAMES:?}");
    CHOSEN.set(name.to_string()).expect("one fault");
}

/// Whether a fault was chosen.
#[cfg(wrong)]
pub fn is(name: &str) -> bool {
    CHOSEN.get().is_some_and(|chosen| chosen == name)
}

#[cfg(not(wrong))]
pub const fn is(_name: &str) -> bool {
    false
}
