// Reads drawn and spoiled lines through the library's C call, and holds every answer to a second reading of the rules, written
// here with no code of the library. Ends with status 1 at the first difference.

const SYMBOLS: usize = 240;
const READINGS: u32 = 20_000;

// What the call tells, as include/rueladle.h declares it.
#[repr(C)]
struct Reading {
    refusal: u32,
    place: u64,
    length: u64,
}

unsafe extern "C" {
    fn rueladle_read_line(
        depth: u32,
        samples: *const u8,
        sample_bytes: usize,
        payload: *mut u8,
        payload_room: usize,
    ) -> Reading;
}

// A refusal's number and place.
type Refused = (u32, u64);

// Reads one line: the payload's length, none where there is no run-in. Safe, since a slice's pointer and length are right.
fn read_line(depth: u32, samples: &[u8], payload: &mut [u8]) -> Result<Option<usize>, Refused> {
    let r = unsafe {
        rueladle_read_line(
            depth,
            samples.as_ptr(),
            samples.len(),
            payload.as_mut_ptr(),
            payload.len(),
        )
    };
    match (r.refusal, r.length) {
        (0, 0) => Ok(None),
        (0, length) => Ok(Some(length as usize)),
        (number, _) => Err((number, r.place)),
    }
}

// The rules once more: the payload that the samples carry, or the refusal.
fn expected(depth: u32, bytes: &[u8], room: usize) -> Result<Option<Vec<u8>>, Refused> {
    let q: u64 = match depth {
        8 => 1,
        10 => 4,
        12 => 16,
        _ => return Err((11, 0)),
    };
    let samples: Vec<u64> = bytes
        .chunks_exact(2)
        .map(|b| u64::from(b[0]) + 256 * u64::from(b[1]))
        .collect();
    let n = samples.len() / SYMBOLS;
    if bytes.len() % 2 == 1 || samples.len() != n * SYMBOLS || n == 0 || n > 16 {
        return Err((1, samples.len() as u64));
    }
    if let Some(i) = samples.iter().position(|s| *s >= 256 * q) {
        return Err((2, i as u64));
    }
    if room < 60 {
        return Err((4, room as u64));
    }
    let sums: Vec<u64> = samples.chunks(n).map(|s| s.iter().sum()).collect();
    Ok(one_x(q * n as u64, &sums).or_else(|| two_x(q * n as u64, &sums)))
}

// 1X, over the sums of the symbols; u is the unit times the samples of a symbol.
fn one_x(u: u64, sums: &[u64]) -> Option<Vec<u8>> {
    let run: Vec<bool> = (0..16).map(|k| 0xEB52u32 >> (15 - k) & 1 == 1).collect();
    let zero = (0..16).filter(|k| !run[*k]).map(|k| sums[k]).max()?;
    let one = (0..16).filter(|k| run[*k]).map(|k| sums[k]).min()?;
    if one <= zero || 2 * (one - zero) <= 16 * u {
        return None;
    }
    let bits: Vec<u32> = sums
        .iter()
        .map(|s| u32::from(2 * s >= zero + one))
        .collect();
    Some(bytes_of(1, &bits))
}

// 2X likewise.
fn two_x(u: u64, sums: &[u64]) -> Option<Vec<u8>> {
    let reaches = |s: u64, v: u64| 2 * s >= u * (16 + 73 * v + 16 + 73 * (v + 1));
    let values: Vec<u32> = sums
        .iter()
        .map(|s| (0..3).filter(|v| reaches(*s, *v)).count() as u32)
        .collect();
    let payload = bytes_of(2, &values);
    (payload[..2] == [0xEB, 0x52]).then_some(payload)
}

fn bytes_of(bits: usize, values: &[u32]) -> Vec<u8> {
    values
        .chunks(8 / bits)
        .map(|c| c.iter().fold(0u32, |all, v| (all << bits) + v) as u8)
        .collect()
}

// Numbers that look like chance, the same in every run.
struct Chance(u64);

impl Chance {
    fn below(&mut self, n: u64) -> u64 {
        self.0 ^= self.0 << 13;
        self.0 ^= self.0 >> 7;
        self.0 ^= self.0 << 17;
        (self.0 >> 16) % n
    }
}

// A line drawn in 1X or 2X with some payload, each sample off by at most e; most often within the tolerance.
fn drawn(c: &mut Chance, q: u64, n: usize) -> (Vec<u64>, Vec<u8>, bool) {
    let bits = 1 + c.below(2) as usize;
    let mut payload: Vec<u8> = (0..30 * bits).map(|_| c.below(256) as u8).collect();
    payload[..2].copy_from_slice(&[0xEB, 0x52]);
    let zero = 4 * q + c.below(12 * q + 1);
    let one = (zero + 16 * q).max(20 * q) + c.below(60 * q);
    let (levels, most) = if bits == 1 {
        (vec![zero, one], (one - zero - 1) / 4)
    } else {
        (
            (0..4).map(|v| (16 + 73 * v) * q).collect(),
            (73 * q - 1) / 2,
        )
    };
    let e = if c.below(4) == 0 {
        c.below(2 * most + 1)
    } else {
        c.below(most + 1)
    };
    let line = (0..SYMBOLS * n)
        .map(|i| {
            let (k, per) = (i / n, 8 / bits);
            let v = payload[k / per] >> (8 - bits * (k % per + 1)) & ((1 << bits) - 1);
            let level = levels[v as usize];
            let to = if c.below(2) == 0 {
                level + e
            } else {
                level.saturating_sub(e)
            };
            to.min(256 * q - 1)
        })
        .collect();
    (line, payload, e <= most)
}

// One line, every second one spoiled; whether a payload was found.
fn one_reading(c: &mut Chance) -> Result<bool, String> {
    let (mut depth, q) = [(8, 1), (10, 4), (12, 16)][c.below(3) as usize];
    let n = 1 + c.below(16) as usize;
    let (mut line, payload, tolerated) = drawn(c, q, n);
    let mut room = 60 + c.below(10) as usize;
    let mut cut = 0;
    let spoiled = c.below(12);
    match spoiled {
        0 => depth = c.below(20) as u32,
        1 => line.truncate(c.below(4000) as usize),
        2 => line.resize(c.below(4100) as usize, 0),
        3 => cut = 1,
        4 => line[c.below((SYMBOLS * n) as u64) as usize] = c.below(65536),
        5 => room = c.below(60) as usize,
        _ => {}
    }
    let bytes: Vec<u8> = line
        .iter()
        .flat_map(|s| (*s as u16).to_le_bytes())
        .collect();
    let bytes = &bytes[..bytes.len() - cut];
    let old: Vec<u8> = (0..room).map(|_| c.below(256) as u8).collect();
    let mut buffer = old.clone();
    let got = read_line(depth, bytes, &mut buffer);
    let want = expected(depth, bytes, room);
    let mut left = old;
    if let Ok(Some(p)) = &want {
        left[..p.len()].copy_from_slice(p);
    }
    if got != want.clone().map(|p| p.map(|p| p.len())) || buffer != left {
        return Err(format!(
            "depth {depth}, {} bytes, room {room}: {got:?}, expected {want:?}",
            bytes.len()
        ));
    }
    if spoiled > 5 && tolerated && want != Ok(Some(payload)) {
        return Err(format!(
            "depth {depth}, {} bytes: a line within the tolerance was lost",
            bytes.len()
        ));
    }
    Ok(matches!(want, Ok(Some(_))))
}

fn main() {
    let mut c = Chance(0x9E37_79B9_7F4A_7C15);
    let mut found = 0;
    for i in 0..READINGS {
        match one_reading(&mut c) {
            Ok(payload) => found += u32::from(payload),
            Err(why) => {
                println!("capture: Rust program, reading {i}: {why}");
                std::process::exit(1);
            }
        }
    }
    println!("capture: Rust program, {READINGS} readings right, {found} of them with a payload");
}
