//! Lines (docs/LINES.md): payloads drawn as luma samples, and samples read as payloads.

use crate::{refused, Refusal};

/// Every line has so many symbols, of as many samples each.
pub const SYMBOLS: usize = 240;
/// The most samples that a symbol has.
pub const WIDEST: usize = 16;
/// What every payload begins with.
pub const RUN_IN: [u8; 2] = [0xEB, 0x52];
/// The least room into which a payload is read.
pub const PAYLOAD_ROOM: usize = 60;
/// The length of a 1X payload.
pub const ONE_X_BYTES: usize = 30;
/// The length of a 2X payload.
pub const TWO_X_BYTES: usize = 60;

/// Bits of one sample.
#[derive(Clone, Copy, Debug, PartialEq, Eq)]
pub enum Depth {
    Eight,
    Ten,
    Twelve,
}

impl Depth {
    pub fn from_bits(bits: u32) -> Result<Depth, Refusal> {
        match bits {
            8 => Ok(Depth::Eight),
            10 => Ok(Depth::Ten),
            12 => Ok(Depth::Twelve),
            _ => refused(11, 0),
        }
    }

    /// The unit q in which levels are given.
    pub fn unit(self) -> u16 {
        match self {
            Depth::Eight => 1,
            Depth::Ten => 4,
            Depth::Twelve => 16,
        }
    }

    /// Samples lie below this.
    pub fn limit(self) -> u16 {
        256 * self.unit()
    }

    /// The level of a 2X value.
    pub fn level(self, value: u8) -> u16 {
        (16 + 73 * u16::from(value)) * self.unit()
    }
}

/// An allowed pair of 1X levels.
#[derive(Clone, Copy, Debug, PartialEq, Eq)]
pub struct Levels {
    depth: Depth,
    zero: u16,
    one: u16,
}

impl Levels {
    pub fn new(depth: Depth, zero: u16, one: u16) -> Result<Levels, Refusal> {
        let q = u32::from(depth.unit());
        let (z, o) = (u32::from(zero), u32::from(one));
        let allowed =
            (4 * q..=16 * q).contains(&z) && (20 * q..=100 * q).contains(&o) && o >= z + 16 * q;
        if allowed {
            Ok(Levels { depth, zero, one })
        } else {
            refused(5, 0)
        }
    }

    /// Some pair, for systems that only read.
    pub fn any(depth: Depth) -> Levels {
        Levels { depth, zero: 4 * depth.unit(), one: 40 * depth.unit() }
    }
}

/// How payloads become lines and back.
#[derive(Clone, Copy, Debug, PartialEq, Eq)]
pub enum System {
    OneX(Levels),
    TwoX(Depth),
    OneElseTwo(Levels),
}

impl System {
    pub fn depth(&self) -> Depth {
        match *self {
            System::OneX(levels) | System::OneElseTwo(levels) => levels.depth,
            System::TwoX(depth) => depth,
        }
    }

    /// Fills the line with the drawing of a payload.
    pub fn draw(&self, payload: &[u8], line: &mut [u16]) -> Result<(), Refusal> {
        let n = symbol_width(line.len())?;
        if !payload.starts_with(&RUN_IN) {
            return refused(12, 0);
        }
        match (*self, payload.len()) {
            (System::OneX(levels) | System::OneElseTwo(levels), ONE_X_BYTES) => {
                draw_symbols(payload, 1, &[levels.zero, levels.one], line, n);
            }
            (System::TwoX(_) | System::OneElseTwo(_), TWO_X_BYTES) => {
                let depth = self.depth();
                draw_symbols(payload, 2, &[0, 1, 2, 3].map(|v| depth.level(v)), line, n);
            }
            _ => return refused(12, 0),
        }
        Ok(())
    }

    /// Reads a line into the front of a buffer: the payload's length, or none without a run-in.
    pub fn read(&self, line: &[u16], out: &mut [u8]) -> Result<Option<usize>, Refusal> {
        let n = self.test(line)?;
        if out.len() < PAYLOAD_ROOM {
            return refused(4, out.len());
        }
        Ok(self.found(line, n, out))
    }

    /// The tests that a line must pass; the samples of its symbols.
    pub fn test(&self, line: &[u16]) -> Result<usize, Refusal> {
        let n = symbol_width(line.len())?;
        let limit = self.depth().limit();
        // The largest sample first: that goes over many samples at once.
        if line.iter().fold(0, |most, &s| s.max(most)) >= limit {
            let first = line.iter().position(|&s| s >= limit).unwrap_or(0);
            return refused(2, first);
        }
        Ok(n)
    }

    /// Reads a line that has passed the tests, with n samples a symbol.
    pub fn found(&self, line: &[u16], n: usize, out: &mut [u8]) -> Option<usize> {
        let levels = symbol_levels(line, n);
        let q = u32::from(self.depth().unit());
        let n = n as u32;
        match self {
            System::OneX(_) => read_one_x(&levels, n, q, out),
            System::TwoX(depth) => read_two_x(&levels, n, *depth, out),
            System::OneElseTwo(one) => read_one_x(&levels, n, q, out)
                .or_else(|| read_two_x(&levels, n, one.depth, out)),
        }
    }
}

/// The samples of one symbol in a line of so many.
fn symbol_width(count: usize) -> Result<usize, Refusal> {
    let n = count / SYMBOLS;
    if count % SYMBOLS == 0 && (1..=WIDEST).contains(&n) {
        Ok(n)
    } else {
        refused(1, count)
    }
}

/// The sum of each symbol's samples.
fn symbol_levels(line: &[u16], n: usize) -> [u32; SYMBOLS] {
    fn sums<const N: usize>(line: &[u16]) -> [u32; SYMBOLS] {
        let mut levels = [0; SYMBOLS];
        for (level, samples) in levels.iter_mut().zip(line.chunks_exact(N)) {
            *level = samples.iter().map(|&s| u32::from(s)).sum();
        }
        levels
    }
    match n {
        1 => sums::<1>(line),
        2 => sums::<2>(line),
        3 => sums::<3>(line),
        4 => sums::<4>(line),
        5 => sums::<5>(line),
        6 => sums::<6>(line),
        7 => sums::<7>(line),
        8 => sums::<8>(line),
        9 => sums::<9>(line),
        10 => sums::<10>(line),
        11 => sums::<11>(line),
        12 => sums::<12>(line),
        13 => sums::<13>(line),
        14 => sums::<14>(line),
        15 => sums::<15>(line),
        _ => sums::<16>(line),
    }
}

/// The largest level at a zero of the run-in, and the smallest at a one.
fn measure(levels: &[u32; SYMBOLS]) -> (u32, u32) {
    let bits = u16::from_be_bytes(RUN_IN);
    let (mut z, mut o) = (0, u32::MAX);
    for (k, &s) in levels[..16].iter().enumerate() {
        if bits >> (15 - k) & 1 == 1 {
            o = s.min(o);
        } else {
            z = s.max(z);
        }
    }
    (z, o)
}

fn read_one_x(levels: &[u32; SYMBOLS], n: u32, q: u32, out: &mut [u8]) -> Option<usize> {
    let (z, o) = measure(levels);
    if o < z || 2 * (o - z) <= 16 * q * n {
        return None;
    }
    let cut = z + o;
    for (byte, symbols) in out[..ONE_X_BYTES].iter_mut().zip(levels.chunks_exact(8)) {
        *byte = symbols.iter().fold(0, |byte, &s| byte << 1 | u8::from(2 * s >= cut));
    }
    Some(ONE_X_BYTES)
}

fn read_two_x(levels: &[u32; SYMBOLS], n: u32, depth: Depth, out: &mut [u8]) -> Option<usize> {
    let cuts = [0, 1, 2].map(|v| n * u32::from(depth.level(v) + depth.level(v + 1)));
    let value = |&s: &u32| cuts.iter().map(|&cut| u8::from(2 * s >= cut)).sum::<u8>();
    let byte = |symbols: &[u32]| symbols.iter().fold(0, |byte, s| byte << 2 | value(s));
    if [byte(&levels[..4]), byte(&levels[4..8])] != RUN_IN {
        return None;
    }
    for (place, symbols) in out[..TWO_X_BYTES].iter_mut().zip(levels.chunks_exact(4)) {
        *place = byte(symbols);
    }
    Some(TWO_X_BYTES)
}

/// Draws each run of so many bits at its level, on n samples.
fn draw_symbols(payload: &[u8], bits: usize, levels: &[u16], line: &mut [u16], n: usize) {
    let each = 8 / bits;
    for (k, samples) in line.chunks_exact_mut(n).enumerate() {
        let value = payload[k / each] >> (8 - bits - bits * (k % each)) & ((1 << bits) - 1);
        samples.fill(levels[usize::from(value)]);
    }
}

/// What the C call does: one line of two-byte samples, low byte first, read by 1X, else 2X.
pub fn read_bytes(depth: u32, bytes: &[u8], out: &mut [u8]) -> Result<Option<usize>, Refusal> {
    let system = System::OneElseTwo(Levels::any(Depth::from_bits(depth)?));
    let count = bytes.len() / 2;
    if bytes.len() % 2 != 0 || count > SYMBOLS * WIDEST {
        return refused(1, count);
    }
    let mut line = [0; SYMBOLS * WIDEST];
    for (sample, pair) in line.iter_mut().zip(bytes.chunks_exact(2)) {
        *sample = u16::from_le_bytes([pair[0], pair[1]]);
    }
    system.read(&line[..count], out)
}
