// A second computation of document 01's 'Computing', written from its text alone, on the inputs that crates/filter_vectors draws.
// It makes the stdout that crate is held to:
//     rustc -O -o target/filter-vectors tests/filter/vectors.rs && target/filter-vectors > crates/filter_vectors/stdout
use std::io::Write;

// ---- what document 01 says

const LABEL_TOP: u64 = 4_294_967_295;
const RAW_TOP: u32 = 1_000_000;
const X_TOP: f64 = 1_100_000.0;
const P_TOP: f64 = 1_000_000_000.0;

struct Station {
    g: usize,
    m: usize,
    q: u32,
    r: u32,
    p: u32,
    factors: [u32; 16], // in ten-thousandths
    weights: [u32; 16],
}

#[derive(Clone, Copy, PartialEq)]
struct Carried {
    x: f64,
    p: f64,
}

struct Round {
    label: u64,
    base: u64,
    mask: u32,
    raws: [u32; 16],
}

// "+0..limit": finite, no sign bit, not above the limit
fn float_in_range(v: f64, limit: f64) -> bool {
    v.is_finite() && v.is_sign_positive() && v <= limit
}

// every value in its range, and nothing where there is no run
fn in_range(st: &Station, state: &[Carried; 16], round: &Round) -> bool {
    let m = st.m;
    let settings = (1..=7).contains(&st.g)
        && (1..=16).contains(&m)
        && (1..=1_000_000).contains(&st.q)
        && (1..=1_000_000).contains(&st.r)
        && (1..=1_000_000_000).contains(&st.p)
        && (0..16).all(|i| {
            if i < m {
                (9000..=11000).contains(&st.factors[i]) && (1..=1000).contains(&st.weights[i])
            } else {
                st.factors[i] == 0 && st.weights[i] == 0
            }
        });
    let carried = state.iter().enumerate().all(|(i, c)| {
        if i < m {
            float_in_range(c.x, X_TOP) && float_in_range(c.p, P_TOP)
        } else {
            c.x.to_bits() == 0 && c.p.to_bits() == 0
        }
    });
    let labels = round.label >= 1 && round.label <= LABEL_TOP && round.base < round.label;
    let mask = round.mask != 0 && (round.mask as u64) < (1u64 << m);
    let raws = round.raws.iter().enumerate().all(|(i, &raw)| if i < m { raw <= RAW_TOP } else { raw == 0 });
    settings && carried && labels && mask && raws
}

// "kept if above 0 and at most its upper limit, is the limit if above it, and is +0 in every other case"
fn kept(v: f64, limit: f64) -> f64 {
    match v.partial_cmp(&0.0) {
        Some(std::cmp::Ordering::Greater) if v > limit => limit,
        Some(std::cmp::Ordering::Greater) => v,
        _ => 0.0,
    }
}

// one round: the new x and P of each run, then the targets
fn computing(st: &Station, state: &mut [Carried; 16], round: &Round) -> Vec<f64> {
    let n = round.label - round.base;
    for i in 0..st.m {
        let Carried { x, p } = state[i];
        // n × q is at most 4,294,967,295,000,000, which a double holds
        let sum = p + (n * st.q as u64) as f64;
        let p1 = if sum > P_TOP { P_TOP } else { sum };
        state[i] = if round.mask >> i & 1 == 1 {
            let z = (round.raws[i] as u64 * st.factors[i] as u64) as f64 / 10_000.0;
            let k = p1 / (p1 + st.r as f64);
            let difference = z - x;
            let correction = k * difference;
            let moved = x + correction;
            let rest = 1.0 - k;
            Carried { x: kept(moved, X_TOP), p: kept(rest * p1, P_TOP) }
        } else {
            Carried { x, p: kept(p1, P_TOP) }
        };
    }
    let mut total = 0.0f64;
    for c in &state[..st.m] {
        total += c.x;
    }
    let weights: u32 = st.weights[..st.m].iter().sum();
    st.weights[..st.m]
        .iter()
        .map(|&weight| {
            let quotient = quotient(total, weight, weights);
            if quotient > total { total } else { quotient }
        })
        .collect()
}

// "(total × weight i) / sum of weights"
fn quotient(total: f64, weight: u32, weights: u32) -> f64 {
    let part = total * weight as f64;
    part / weights as f64
}

// ---- the inputs, drawn as crates/filter_vectors draws them

fn draw(n: u32, k: u32) -> u64 {
    let mut s = (n as u64 * 128 + k as u64 + 1) * 0x9e_3779_b97f;
    for _ in 0..3 {
        s ^= s << 13;
        s ^= s >> 7;
        s ^= s << 17;
    }
    s
}

fn number(d: u64, low: u32, top: u32) -> u32 {
    let wide = (top - low) as u64;
    match d % 8 {
        0 => low,
        1 => top,
        2 | 3 => low + (d / 8 % (99 % (wide + 1) + 1)) as u32,
        _ => low + (d / 8 % (wide + 1)) as u32,
    }
}

fn magnitude(d: u64, limit: u64) -> f64 {
    f64::from_bits(match d % 8 {
        0 => 0,
        1 => limit,
        2 => d / 8 % limit,
        _ => limit - d / 8 % (1 << 56),
    })
}

fn settings(station: u32) -> Station {
    let n = station * 16;
    let m = 1 + station as usize % 16;
    let mut st = Station {
        g: 3,
        m,
        q: if station % 64 == 63 { 0 } else { number(draw(n, 80), 1, 1_000_000) },
        r: number(draw(n, 81), 1, 1_000_000),
        p: number(draw(n, 82), 1, 1_000_000_000),
        factors: [0; 16],
        weights: [0; 16],
    };
    for i in 0..m {
        st.factors[i] = number(draw(n, i as u32), 9000, 11000);
        st.weights[i] = number(draw(n, i as u32 + 16), 1, 1000);
    }
    st
}

fn start(station: u32, st: &Station) -> [Carried; 16] {
    let n = station * 16;
    let mut state = [Carried { x: 0.0, p: 0.0 }; 16];
    for i in 0..st.m {
        state[i] = if station % 4 == 0 {
            Carried { x: 0.0, p: st.p as f64 }
        } else {
            Carried {
                x: magnitude(draw(n, i as u32 + 48), X_TOP.to_bits()),
                p: magnitude(draw(n, i as u32 + 64), P_TOP.to_bits()),
            }
        };
    }
    state
}

fn round(n: u32, m: usize) -> Round {
    let d = draw(n, 83);
    let low = d / 16 % (1 << 31);
    let far = d >> 35;
    let (base, label) = match d % 16 {
        0 => (0, LABEL_TOP),
        1 => (low, low),
        2 | 3 => (low, low + 1 + far),
        _ => (low, low + 1 + far % 4),
    };
    let c = draw(n, 84);
    let full = (1u32 << m) - 1;
    let mask = match c % 64 {
        0 => 0,
        1 => full + 1,
        2..=15 => full,
        16..=23 => 1 << (c / 64 % 16) & full,
        _ => match (c / 64 % 65536) as u32 & full {
            0 => full,
            any => any,
        },
    };
    let mut raws = [0u32; 16];
    for (i, raw) in raws.iter_mut().enumerate() {
        let d = draw(n, i as u32 + 32);
        let odd = d >> 20 & 255 == 0;
        *raw = match (i < m, odd) {
            (true, true) => RAW_TOP + 1,
            (true, false) => number(d, 0, RAW_TOP),
            (false, true) => 1,
            (false, false) => 0,
        };
    }
    Round { label, base, mask, raws }
}

// what is answered to a round
fn answer(out: &mut dyn Write, st: &Station, state: &mut [Carried; 16], round: &Round) {
    if !in_range(st, state, round) {
        writeln!(out, "6").unwrap();
        return;
    }
    let targets = computing(st, state, round);
    writeln!(out, "0").unwrap();
    for (c, t) in state.iter().zip(&targets) {
        writeln!(out, "{:016X}\t{:016X}\t{:016X}", c.x.to_bits(), c.p.to_bits(), t.to_bits()).unwrap();
    }
}

// a round in range of a station of three runs, and the same with one clause broken; 2 is of a station of sixteen runs, since its m is 17
const BROKEN: u32 = 36;

fn broken(k: u32) -> (Station, [Carried; 16], Round) {
    let station = if k == 2 { 15 } else { 2 };
    let mut st = settings(station);
    let mut state = start(station, &st);
    let m = st.m;
    let mut round = Round { label: 5, base: 4, mask: 5, raws: [0; 16] };
    round.raws[0] = 200_000;
    round.raws[2] = 1_000_000;
    match k {
        1 => st.g = 0,
        2 => st.m = 17,
        3 => st.g = 8,
        4 => st.q = 0,
        5 => st.q = 1_000_001,
        6 => st.r = 0,
        7 => st.r = 1_000_001,
        8 => st.p = 0,
        9 => st.p = 1_000_000_001,
        10 => st.factors[0] = 8999,
        11 => st.factors[2] = 11001,
        12 => st.weights[0] = 0,
        13 => st.weights[2] = 1001,
        14 => st.factors[3] = 10000,
        15 => st.weights[15] = 1,
        16 => state[0].x = f64::from_bits(X_TOP.to_bits() + 1),
        17 => state[2].p = f64::from_bits(P_TOP.to_bits() + 1),
        18 => state[2].x = f64::NAN,
        19 => state[0].p = f64::NAN,
        20 => state[0].x = -0.0,
        21 => state[2].p = -0.0,
        22 => state[2].x = f64::INFINITY,
        23 => state[0].p = f64::INFINITY,
        24 => state[3].x = f64::from_bits(1),
        25 => state[3].p = 1.0,
        26 => state[15].x = -0.0,
        27 => state[15].p = f64::NAN,
        28 => round.base = 5,
        29 => round.label = 3,
        30 => round.mask = 0,
        31 => round.mask = 1 << m,
        32 => round.mask = 1 << 16,
        33 => round.raws[0] = 1_000_001,
        34 => round.raws[3] = 1,
        35 => round.raws[15] = 1,
        _ => {}
    }
    (st, state, round)
}

// one run alone: (total × weight) / weight, which exceeds the total now and then
fn alone(j: u32) -> (Station, [Carried; 16], Round) {
    let mut st = settings(0);
    st.weights[0] = 670 + j % 100;
    let mut state = start(0, &st);
    state[0] = Carried { x: magnitude(draw(j, 90), X_TOP.to_bits()), p: 1.0 };
    let mut round = Round { label: 2, base: 1, mask: 1, raws: [0; 16] };
    round.raws[0] = (draw(j, 91) % 1_000_001) as u32;
    (st, state, round)
}

fn main() {
    let mut out = std::io::BufWriter::new(std::io::stdout());
    for station in 0..144 {
        let st = settings(station);
        let mut state = start(station, &st);
        for i in 0..16 {
            let round = round(station * 16 + i, st.m);
            answer(&mut out, &st, &mut state, &round);
        }
    }
    for k in 0..BROKEN {
        let (st, mut state, round) = broken(k);
        assert_eq!(in_range(&st, &state, &round), k == 0);
        answer(&mut out, &st, &mut state, &round);
    }
    let mut held = 0;
    for j in 0..200 {
        let (st, mut state, round) = alone(j);
        answer(&mut out, &st, &mut state, &round);
        let total = state[0].x;
        held += (quotient(total, st.weights[0], st.weights[0]) > total) as u32;
    }
    assert!(held >= 10, "targets held at the total: {held}");
    eprintln!("targets held at the total: {held}");
}
