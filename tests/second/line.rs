//! The text lines of document 01: settings and messages, read with the refusals 1 to 6, and written.

use crate::filter::{Estimate, State, P_LIMIT, TARGET_LIMIT, X_LIMIT};
use crate::vote::{all_runs, Digest};

/// The most runs, and the longest line with its line feed.
pub const RUNS: usize = 16;
pub const LINE: usize = 600;

pub const LABEL_LIMIT: u32 = u32::MAX;
pub const RAW_LIMIT: u32 = 1_000_000;

/// The refusal numbers.
pub const LONG: u8 = 1;
pub const UNENDED: u8 = 2;
pub const KIND: u8 = 3;
pub const FIELDS: u8 = 4;
pub const FORM: u8 = 5;
pub const RANGE: u8 = 6;
pub const OWN: u8 = 7;
pub const LATE: u8 = 8;
pub const CLOSED: u8 = 9;
pub const OTHER: u8 = 10;
pub const CLASH: u8 = 11;
pub const UNDECIDED: u8 = 12;
pub const LACKING: u8 = 13;
pub const BEHIND: u8 = 14;
pub const SETTINGS: u8 = 15;

/// What the first 2 + m lines set. Certificates are judged and not kept: nothing uses them.
#[derive(Clone, Default, Debug)]
pub struct Settings {
    pub controllers: u32,
    pub runs: u32,
    pub q: u32,
    pub r: u32,
    pub p: u32,
    pub factors: [u32; RUNS],
    pub weights: [u32; RUNS],
}

/// A line after the settings.
#[derive(Clone, Debug)]
pub enum Message {
    M { label: u32, run: u32, raw: u32 },
    Q { sender: u32, label: u32, mask: u16 },
    R { sender: u32, label: u32, mask: u16, raws: [u32; RUNS] },
    A { sender: u32, state: u32 },
    U { sender: u32, state: u32, estimates: State },
    D { sender: u32, label: u32, digest: Digest },
    S { sender: u32, label: u32, digest: Digest, targets: [f64; RUNS] },
    C { label: u32 },
    E { label: u32 },
    V { label: u32 },
    F { label: u32 },
    B { own: u32, floor: u32 },
}

impl Message {
    pub fn sender(&self) -> Option<u32> {
        match self {
            Message::Q { sender, .. }
            | Message::R { sender, .. }
            | Message::A { sender, .. }
            | Message::U { sender, .. }
            | Message::D { sender, .. }
            | Message::S { sender, .. } => Some(*sender),
            _ => None,
        }
    }
}

/// The runs of a mask, lowest first.
pub fn runs_of(mask: u16) -> impl Iterator<Item = usize> {
    (0..RUNS).filter(move |run| mask >> run & 1 == 1)
}

/// The fields of a line that are still to be judged, from the left.
struct Fields<'a> {
    rest: &'a [u8],
}

impl<'a> Fields<'a> {
    /// The next field; the number of fields was judged before, so there is one.
    fn next(&mut self) -> &'a [u8] {
        let end = self.rest.iter().position(|b| *b == b'\t').unwrap_or(self.rest.len());
        let field = &self.rest[..end];
        self.rest = self.rest.get(end + 1..).unwrap_or(&[]);
        field
    }

    fn decimal(&mut self, low: u32, high: u32) -> Result<u32, u8> {
        decimal(self.next(), low, high)
    }

    fn label(&mut self) -> Result<u32, u8> {
        self.decimal(1, LABEL_LIMIT)
    }

    fn state_label(&mut self) -> Result<u32, u8> {
        self.decimal(0, LABEL_LIMIT)
    }

    fn floor(&mut self) -> Result<u32, u8> {
        #[cfg(wrong)]
        return self.decimal(0, LABEL_LIMIT - u32::from(crate::wrong::is("highest-floor")));
        #[cfg(not(wrong))]
        self.state_label()
    }

    fn sender(&mut self, settings: &Settings) -> Result<u32, u8> {
        self.decimal(0, settings.controllers - 1)
    }

    fn mask(&mut self, settings: &Settings) -> Result<u16, u8> {
        let mask = hex(self.next(), 4)? as u16;
        in_range(mask != 0 && mask & !all_runs(settings.runs) == 0)?;
        Ok(mask)
    }

    /// A state label below the label, then a mask.
    fn digest(&mut self, settings: &Settings, label: u32) -> Result<Digest, u8> {
        let state = self.decimal(0, label - 1)?;
        Ok(Digest { mask: self.mask(settings)?, state })
    }

    /// A float from +0 to its limit. Bits of floats without sign are ordered as their values, and
    /// those of infinity, of NaN and with the sign set are above all others.
    fn float(&mut self, limit: f64) -> Result<f64, u8> {
        let bits = hex(self.next(), 16)?;
        in_range(bits <= limit.to_bits())?;
        Ok(f64::from_bits(bits))
    }
}

fn in_range(holds: bool) -> Result<(), u8> {
    if holds {
        Ok(())
    } else {
        Err(RANGE)
    }
}

fn in_form(holds: bool) -> Result<(), u8> {
    if holds {
        Ok(())
    } else {
        Err(FORM)
    }
}

/// A decimal number: digits, no leading zero but 0 itself, of any length; then its range.
fn decimal(field: &[u8], low: u32, high: u32) -> Result<u32, u8> {
    in_form(!field.is_empty() && field.iter().all(u8::is_ascii_digit))?;
    in_form(field[0] != b'0' || field.len() == 1)?;
    in_range(field.len() <= 10)?;
    let value = field.iter().fold(0u64, |v, b| v * 10 + u64::from(b - b'0'));
    in_range(u64::from(low) <= value && value <= u64::from(high))?;
    Ok(value as u32)
}

/// A number of exactly so many upper-case hex digits.
fn hex(field: &[u8], digits: usize) -> Result<u64, u8> {
    in_form(field.len() == digits)?;
    field.iter().try_fold(0u64, |value, b| match b {
        b'0'..=b'9' => Ok(value << 4 | u64::from(b - b'0')),
        b'A'..=b'F' => Ok(value << 4 | u64::from(b - b'A' + 10)),
        _ => Err(FORM),
    })
}

/// One digit, a point and exactly four digits, held in ten-thousandths.
pub fn factor(field: &[u8]) -> Result<u32, u8> {
    in_form(field.len() == 6 && field[1] == b'.')?;
    let digits = |part: &[u8]| part.iter().all(u8::is_ascii_digit);
    in_form(digits(&field[..1]) && digits(&field[2..]))?;
    let value = |part: &[u8]| part.iter().fold(0, |v, b| v * 10 + u32::from(b - b'0'));
    let factor = value(&field[..1]) * 10000 + value(&field[2..]);
    in_range((9000..=11000).contains(&factor))?;
    Ok(factor)
}

pub fn certificate(field: &[u8]) -> Result<(), u8> {
    in_form((1..=16).contains(&field.len()) && field.iter().all(u8::is_ascii_graphic))
}

/// Judges the length and the line feed, and takes the line feed off.
fn ended(line: &[u8]) -> Result<&[u8], u8> {
    if line.len() > LINE {
        return Err(LONG);
    }
    match line.split_last() {
        Some((b'\n', body)) if !body.contains(&b'\n') => Ok(body),
        _ => Err(UNENDED),
    }
}

/// The first field where it is a single byte, else 0, which is no kind.
fn kind(fields: &mut Fields) -> u8 {
    match fields.next() {
        [kind] => *kind,
        _ => 0,
    }
}

fn field_count(body: &[u8]) -> usize {
    body.iter().filter(|b| **b == b'\t').count() + 1
}

fn fields_are(holds: bool) -> Result<(), u8> {
    if holds {
        Ok(())
    } else {
        Err(FIELDS)
    }
}

impl Settings {
    /// How many lines the settings have, as far as is known.
    pub fn lines(&self) -> u32 {
        2 + self.runs
    }

    /// Reads the settings line of a number from 1.
    pub fn read(&mut self, number: u32, line: &[u8]) -> Result<(), u8> {
        let body = ended(line)?;
        let mut fields = Fields { rest: body };
        let (expected, count) = match number {
            1 => (b'G', 3),
            2 => (b'N', 4),
            _ => (b'K', 5),
        };
        if kind(&mut fields) != expected {
            return Err(KIND);
        }
        fields_are(field_count(body) == count)?;
        match number {
            1 => self.read_g(&mut fields),
            2 => self.read_n(&mut fields),
            _ => self.read_k(number - 3, &mut fields),
        }
    }

    fn read_g(&mut self, fields: &mut Fields) -> Result<(), u8> {
        let controllers = fields.decimal(1, 7)?;
        self.runs = fields.decimal(1, RUNS as u32)?;
        self.controllers = controllers;
        Ok(())
    }

    fn read_n(&mut self, fields: &mut Fields) -> Result<(), u8> {
        self.q = fields.decimal(1, 1_000_000)?;
        self.r = fields.decimal(1, 1_000_000)?;
        self.p = fields.decimal(1, 1_000_000_000)?;
        Ok(())
    }

    fn read_k(&mut self, turn: u32, fields: &mut Fields) -> Result<(), u8> {
        let run = fields.decimal(turn, turn)? as usize;
        certificate(fields.next())?;
        self.factors[run] = factor(fields.next())?;
        #[cfg(wrong)]
        let top = 1000 + u32::from(crate::wrong::is("weight-1001"));
        #[cfg(not(wrong))]
        let top = 1000;
        self.weights[run] = fields.decimal(1, top)?;
        Ok(())
    }
}

/// The number of fields of each kind, where it is one number; R's is judged with its mask.
fn expected_fields(kind: u8, runs: usize) -> Result<Option<usize>, u8> {
    match kind {
        b'C' | b'E' | b'V' | b'F' => Ok(Some(2)),
        b'A' | b'B' => Ok(Some(3)),
        b'M' | b'Q' => Ok(Some(4)),
        b'D' => Ok(Some(5)),
        b'U' => Ok(Some(3 + 2 * runs)),
        b'S' => Ok(Some(5 + runs)),
        b'R' => Ok(None),
        _ => Err(KIND),
    }
}

/// Reads a line after the settings, its line feed included, or gives the refusal 1 to 6.
pub fn read(settings: &Settings, line: &[u8]) -> Result<Message, u8> {
    let body = ended(line)?;
    let mut fields = Fields { rest: body };
    let kind = kind(&mut fields);
    let expected = expected_fields(kind, settings.runs as usize)?;
    let count = field_count(body);
    fields_are(expected.map_or(count >= 4, |expected| count == expected))?;
    read_fields(settings, kind, count, &mut fields)
}

fn read_fields(settings: &Settings, kind: u8, count: usize, fields: &mut Fields) -> Result<Message, u8> {
    Ok(match kind {
        b'M' => Message::M {
            label: fields.label()?,
            run: fields.decimal(0, settings.runs - 1)?,
            raw: fields.decimal(0, RAW_LIMIT)?,
        },
        b'Q' => Message::Q { sender: fields.sender(settings)?, label: fields.label()?, mask: fields.mask(settings)? },
        b'R' => read_r(settings, count, fields)?,
        b'A' => Message::A { sender: fields.sender(settings)?, state: fields.state_label()? },
        b'U' => read_u(settings, fields)?,
        b'D' => {
            let (sender, label) = (fields.sender(settings)?, fields.label()?);
            Message::D { sender, label, digest: fields.digest(settings, label)? }
        }
        b'S' => read_s(settings, fields)?,
        b'C' => Message::C { label: fields.label()? },
        b'E' => Message::E { label: fields.label()? },
        b'V' => Message::V { label: fields.label()? },
        b'F' => Message::F { label: fields.label()? },
        _ => Message::B { own: fields.sender(settings)?, floor: fields.floor()? },
    })
}

fn read_r(settings: &Settings, count: usize, fields: &mut Fields) -> Result<Message, u8> {
    let sender = fields.sender(settings)?;
    let label = fields.label()?;
    let mask = fields.mask(settings)?;
    fields_are(count == 4 + mask.count_ones() as usize)?;
    let mut raws = [0; RUNS];
    for run in runs_of(mask) {
        raws[run] = fields.decimal(0, RAW_LIMIT)?;
    }
    Ok(Message::R { sender, label, mask, raws })
}

fn read_u(settings: &Settings, fields: &mut Fields) -> Result<Message, u8> {
    let sender = fields.sender(settings)?;
    let state = fields.state_label()?;
    let mut estimates = [Estimate::default(); RUNS];
    for estimate in &mut estimates[..settings.runs as usize] {
        estimate.x = fields.float(X_LIMIT)?;
        estimate.p = fields.float(P_LIMIT)?;
    }
    Ok(Message::U { sender, state, estimates })
}

fn read_s(settings: &Settings, fields: &mut Fields) -> Result<Message, u8> {
    let sender = fields.sender(settings)?;
    let label = fields.label()?;
    let digest = fields.digest(settings, label)?;
    let mut targets = [0.0; RUNS];
    for target in &mut targets[..settings.runs as usize] {
        *target = fields.float(TARGET_LIMIT)?;
    }
    Ok(Message::S { sender, label, digest, targets })
}

/// A line being written.
struct Line<'a> {
    out: &'a mut Vec<u8>,
}

impl<'a> Line<'a> {
    fn start(out: &'a mut Vec<u8>, kind: u8) -> Line<'a> {
        out.push(kind);
        Line { out }
    }

    fn decimal(self, value: u32) -> Self {
        let mut digits = [0u8; 10];
        let mut at = digits.len();
        let mut rest = value;
        loop {
            at -= 1;
            digits[at] = b'0' + (rest % 10) as u8;
            rest /= 10;
            if rest == 0 {
                break;
            }
        }
        self.out.push(b'\t');
        self.out.extend_from_slice(&digits[at..]);
        self
    }

    fn hex(self, value: u64, digits: u32) -> Self {
        self.out.push(b'\t');
        for digit in (0..digits).rev() {
            self.out.push(b"0123456789ABCDEF"[(value >> (4 * digit) & 15) as usize]);
        }
        self
    }

    fn mask(self, mask: u16) -> Self {
        self.hex(u64::from(mask), 4)
    }

    fn float(self, value: f64) -> Self {
        self.hex(value.to_bits(), 16)
    }

    fn end(self) {
        self.out.push(b'\n');
    }
}

/// Writes the line of a refusal.
pub fn write_refusal(number: u8, out: &mut Vec<u8>) {
    Line::start(out, b'X').decimal(u32::from(number)).end();
}

/// Writes the line of a message.
pub fn write(settings: &Settings, message: &Message, out: &mut Vec<u8>) {
    let runs = settings.runs as usize;
    match message {
        Message::M { label, run, raw } => Line::start(out, b'M').decimal(*label).decimal(*run).decimal(*raw).end(),
        Message::Q { sender, label, mask } => Line::start(out, b'Q').decimal(*sender).decimal(*label).mask(*mask).end(),
        Message::R { sender, label, mask, raws } => {
            let line = Line::start(out, b'R').decimal(*sender).decimal(*label).mask(*mask);
            runs_of(*mask).fold(line, |line, run| line.decimal(raws[run])).end()
        }
        Message::A { sender, state } => Line::start(out, b'A').decimal(*sender).decimal(*state).end(),
        Message::U { sender, state, estimates } => {
            let line = Line::start(out, b'U').decimal(*sender).decimal(*state);
            estimates[..runs].iter().fold(line, |line, e| line.float(e.x).float(e.p)).end()
        }
        Message::D { sender, label, digest } => {
            let line = Line::start(out, b'D').decimal(*sender).decimal(*label);
            line.decimal(digest.state).mask(digest.mask).end()
        }
        Message::S { sender, label, digest, targets } => {
            let line = Line::start(out, b'S').decimal(*sender).decimal(*label);
            let line = line.decimal(digest.state).mask(digest.mask);
            targets[..runs].iter().fold(line, |line, target| line.float(*target)).end()
        }
        Message::C { label } => Line::start(out, b'C').decimal(*label).end(),
        Message::E { label } => Line::start(out, b'E').decimal(*label).end(),
        Message::V { label } => Line::start(out, b'V').decimal(*label).end(),
        Message::F { label } => Line::start(out, b'F').decimal(*label).end(),
        Message::B { own, floor } => Line::start(out, b'B').decimal(*own).decimal(*floor).end(),
    }
}
