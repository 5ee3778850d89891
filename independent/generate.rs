//! Writes the stored test cases (crates/vectors/stdin) to standard output, the same on every run.
//! How many of each kind there are goes to standard error.

use independent::blocks::{crc, Room, Sending};
use independent::lines::{Depth, Levels, System};
use independent::words::{show_hex, show_hex_list, show_samples};
use std::collections::BTreeMap;
use std::io::{self, BufWriter, Write};

const DEPTHS: [u8; 3] = [8, 10, 12];
const SYSTEMS: [&str; 3] = ["1x", "2x", "1x-else-2x"];
const TRAY: usize = 1630;

/// Numbers that look random and are the same on every run.
struct Dice(u64);

impl Dice {
    fn roll(&mut self) -> u64 {
        self.0 = self.0.wrapping_add(0x9E37_79B9_7F4A_7C15);
        let mut z = self.0;
        z = (z ^ z >> 30).wrapping_mul(0xBF58_476D_1CE4_E5B9);
        z = (z ^ z >> 27).wrapping_mul(0x94D0_49BB_1331_11EB);
        z ^ z >> 31
    }

    fn below(&mut self, bound: usize) -> usize {
        (self.roll() % bound as u64) as usize
    }

    /// From the first to the last, both included.
    fn from(&mut self, first: i64, last: i64) -> i64 {
        first + (self.roll() % (last - first + 1) as u64) as i64
    }

    fn one_in(&mut self, chances: usize) -> bool {
        self.below(chances) == 0
    }

    fn bytes(&mut self, count: usize) -> Vec<u8> {
        (0..count).map(|_| self.roll() as u8).collect()
    }

    fn pick<'a, T>(&mut self, list: &'a [T]) -> &'a T {
        &list[self.below(list.len())]
    }
}

struct Cases {
    dice: Dice,
    lines: Vec<String>,
}

fn unit(depth: u8) -> u16 {
    match depth {
        8 => 1,
        10 => 4,
        _ => 16,
    }
}

fn limit(depth: u8) -> i64 {
    256 * i64::from(unit(depth))
}

fn depth_of(bits: u8) -> Depth {
    Depth::from_bits(bits.into()).unwrap()
}

/// A line of n samples a symbol that carries a payload, 1X or 2X by the payload's length.
fn drawn(depth: u8, zero: u16, one: u16, n: usize, payload: &[u8]) -> Vec<u16> {
    let levels = Levels::new(depth_of(depth), zero, one).unwrap();
    let mut line = vec![0; 240 * n];
    System::OneElseTwo(levels).draw(payload, &mut line).unwrap();
    line
}

/// A 1X or 2X line with levels 4q and 40q.
fn plainly(depth: u8, n: usize, payload: &[u8]) -> Vec<u16> {
    drawn(depth, 4 * unit(depth), 40 * unit(depth), n, payload)
}

/// EB 52, some bytes, zeros.
fn payload(length: usize, bytes: &[u8]) -> Vec<u8> {
    let mut payload = vec![0xEB, 0x52];
    payload.extend_from_slice(bytes);
    payload.resize(length, 0);
    payload
}

/// A block with right CRC_32 and any fields; `rest` is what stands between the third byte and CRC_32.
fn raw_block(number: u8, version: u8, part: u8, last: u8, rest: &[u8]) -> Vec<u8> {
    let mut block = vec![number, rest.len() as u8 + 5, version << 4 | part << 2 | last];
    block.extend_from_slice(rest);
    block.extend(crc(&block).to_be_bytes());
    block
}

/// The wire forms of a sending of given parts.
fn blocks(number: u8, version: u8, parts: &[Vec<u8>]) -> Vec<Vec<u8>> {
    let sending = Sending::given(number, version, parts).unwrap();
    (0..parts.len()).map(|i| sending.block(i).unwrap()).collect()
}

/// Each sample moved by a deviation, and kept within the depth.
fn moved(depth: u8, line: &[u16], mut by: impl FnMut(usize, u16) -> i64) -> Vec<u16> {
    let most = limit(depth) - 1;
    let shift = |(i, &s): (usize, &u16)| (i64::from(s) + by(i, s)).clamp(0, most) as u16;
    line.iter().enumerate().map(shift).collect()
}

/// A symbol's samples so that they add up to a sum.
fn set_symbol(line: &mut [u16], n: usize, k: usize, sum: u32) {
    for i in 0..n {
        let behind = (n - i) as u32;
        let set: u32 = line[k * n..k * n + i].iter().map(|&s| u32::from(s)).sum();
        line[k * n + i] = ((sum - set) / behind) as u16;
    }
    let total: u32 = line[k * n..(k + 1) * n].iter().map(|&s| u32::from(s)).sum();
    assert_eq!(total, sum);
}

impl Cases {
    fn say(&mut self, line: impl Into<String>) {
        self.lines.push(line.into());
    }

    fn read(&mut self, system: &str, depth: u8, line: &[u16]) {
        self.say(format!("read {system} {depth} {}", show_samples(line)));
    }

    /// A random payload.
    fn any_payload(&mut self, length: usize) -> Vec<u8> {
        let bytes = self.dice.bytes(length - 2);
        payload(length, &bytes)
    }

    fn random_parts(&mut self, count: usize, most: usize) -> Vec<Vec<u8>> {
        (0..count)
            .map(|i| {
                let most = if i > 0 && i + 1 == count { most.saturating_sub(4) } else { most };
                let length = self.dice.below(most + 1);
                self.dice.bytes(length)
            })
            .collect()
    }

    // ---- CRC and levels

    fn crcs(&mut self) {
        self.say("crc 313233343536373839");
        self.say("crc -");
        self.say("crc ");
        for byte in [0x00, 0x01, 0x7F, 0x80, 0xFF] {
            self.say(format!("crc {byte:02X}"));
        }
        for length in [2, 3, 4, 8, 20, 51, 60, 200, 300, 1000] {
            self.say(format!("crc {}", "00".repeat(length)));
            self.say(format!("crc {}", "ff".repeat(length)));
        }
        for length in 1..60 {
            let bytes = self.dice.bytes(length);
            self.say(format!("crc {}", show_hex(&bytes)));
        }
        for length in [200, 1000, 4000] {
            let bytes = self.dice.bytes(length);
            self.say(format!("crc {}", show_hex(&bytes)));
        }
        // Bytes with their CRC behind them leave an empty register.
        for length in [0, 1, 9, 40] {
            let mut bytes = self.dice.bytes(length);
            bytes.extend(crc(&bytes).to_be_bytes());
            self.say(format!("crc {}", show_hex(&bytes)));
        }
        for bit in 0..32 {
            self.say(format!("crc {:08X}", 1u32 << bit));
        }
    }

    fn levels(&mut self) {
        for (zero, one) in [(4, 20), (16, 32), (3, 40), (4, 40)] {
            self.say(format!("levels 8 {zero} {one}"));
        }
        for depth in DEPTHS {
            let q = unit(depth);
            for zero in [0, 4 * q - 1, 4 * q, 4 * q + 1, 10 * q, 16 * q - 1, 16 * q, 16 * q + 1, 65535] {
                let near = zero.saturating_add(16 * q);
                let mut ones = vec![0, 20 * q - 1, 20 * q, 100 * q, 100 * q + 1, 65535];
                ones.extend([near.saturating_sub(1), near, near.saturating_add(1)]);
                for one in ones {
                    self.say(format!("levels {depth} {zero} {one}"));
                }
            }
        }
        for depth in [0, 1, 7, 9, 11, 13, 16, 255, 256, 264, 266, 268, 65544, 4294967295u32] {
            self.say(format!("levels {depth} 4 40"));
            self.say(format!("levels {depth} 0 0"));
        }
    }

    // ---- Lines

    /// The symbol at which a value or bit changes, at its edge and below it.
    fn line_edges(&mut self) {
        for (depth, n) in [(8, 8), (10, 8), (12, 8), (8, 1), (10, 3), (12, 16), (8, 16), (12, 1)] {
            let (q, weight) = (u32::from(unit(depth)), n as u32);
            let (z, o) = (4 * q * weight, 40 * q * weight);
            let base = plainly(depth, n, &payload(30, &[]));
            for sum in [(z + o).div_ceil(2), (z + o).div_ceil(2) - 1] {
                for k in [16, 17, 100, 239] {
                    let mut line = base.clone();
                    set_symbol(&mut line, n, k, sum);
                    self.read("1x", depth, &line);
                }
            }
            let base = plainly(depth, n, &payload(60, &[]));
            for value in 0..3 {
                let level = |v: u32| (16 + 73 * v) * q;
                let cut = (weight * (level(value) + level(value + 1))).div_ceil(2);
                for sum in [cut, cut - 1] {
                    let k = 8 + self.dice.below(232);
                    let mut line = base.clone();
                    set_symbol(&mut line, n, k, sum);
                    self.read("2x", depth, &line);
                }
            }
        }
        for (k, sum) in [(8, 419), (9, 420), (10, 1003), (11, 1004), (12, 1587), (239, 1588)] {
            let mut line = plainly(8, 8, &payload(60, &[]));
            set_symbol(&mut line, 8, k, sum);
            self.read("2x", 8, &line);
        }
    }

    /// Every depth and sample count, by every system, drawn and read.
    fn every_line(&mut self) {
        for depth in DEPTHS {
            for n in 1..=16 {
                for (i, system) in SYSTEMS.into_iter().enumerate() {
                    let length = if i == 0 || (i == 2 && n % 2 == 0) { 30 } else { 60 };
                    // Long runs in the widest lines keep the cases short.
                    let bytes = if n > 8 { vec![0x3C; length - 2] } else { self.dice.bytes(length - 2) };
                    let payload = payload(length, &bytes);
                    let q = unit(depth);
                    let zero = self.dice.from(i64::from(4 * q), i64::from(16 * q)) as u16;
                    let least = (zero + 16 * q).max(20 * q);
                    let one = self.dice.from(i64::from(least), i64::from(100 * q)) as u16;
                    let hex = show_hex(&payload);
                    self.say(format!("draw {system} {depth} {zero} {one} {} {hex}", 240 * n));
                    let line = drawn(depth, zero, one, n, &payload);
                    self.read(system, depth, &line);
                    if i == 2 {
                        let other = if length == 30 { "2x" } else { "1x" };
                        self.read(other, depth, &line);
                    }
                }
            }
        }
    }

    fn line_refusals(&mut self) {
        for system in SYSTEMS {
            for count in [0, 1, 2, 239, 241, 479, 481, 720, 1280, 3839, 3841, 4080, 7680, 100_000] {
                self.say(format!("read {system} 8 16*{count}"));
                self.say(format!("draw {system} 8 4 40 {count} {}", show_hex(&payload(30, &[1]))));
            }
            self.say(format!("read {system} 8 -"));
            for depth in [0, 7, 9, 11, 13, 14, 255, 264] {
                self.say(format!("read {system} {depth} 16*240"));
                self.say(format!("read {system} {depth} 65535*7 0"));
                self.say(format!("draw {system} {depth} 0 0 7 -"));
            }
            for depth in DEPTHS {
                let limit = limit(depth) as u16;
                for at in [0, 1, 119, 238, 239] {
                    let mut line = vec![16u16; 240];
                    line[at] = limit;
                    self.read(system, depth, &line);
                    line[at] = limit - 1;
                    self.read(system, depth, &line);
                    line[at..].fill(65535);
                    self.read(system, depth, &line);
                    self.say(format!("read {system} {depth} {} 59", show_samples(&line)));
                    self.say(format!("read {system} {depth} {},3 0", show_samples(&line)));
                }
            }
            for room in [0, 1, 29, 30, 31, 58, 59, 60, 61, 100, 1_000_000] {
                let length = if system == "1x" { 30 } else { 60 };
                let line = plainly(8, 1, &payload(length, &[room as u8]));
                self.say(format!("read {system} 8 {} {room}", show_samples(&line)));
                self.say(format!("read {system} 8 16*480 {room}"));
                self.say(format!("read {system} 8 300*480 {room}"));
                self.say(format!("read {system} 8 300*481 {room}"));
            }
            for length in [0, 1, 2, 3, 29, 30, 31, 32, 58, 59, 60, 61, 62, 120, 240] {
                let payload = payload(length.max(2), &[])[..length].to_vec();
                self.say(format!("draw {system} 8 4 40 240 {}", show_hex(&payload)));
            }
            for bytes in ["EB53", "EA52", "52EB", "0000", "EBD2", "6B52"] {
                for length in [30, 60] {
                    self.say(format!("draw {system} 8 4 40 240 {bytes}{}", "00".repeat(length - 2)));
                }
            }
            for (zero, one) in [(3, 40), (4, 19), (16, 31), (17, 60), (4, 101), (40, 4), (65535, 65535)] {
                self.say(format!("draw {system} 8 {zero} {one} 240 {}", show_hex(&payload(30, &[7]))));
                self.say(format!("draw {system} 8 {zero} {one} 241 {}", show_hex(&payload(60, &[7]))));
            }
        }
    }

    /// Lines at the edge of the tolerance, and one past it.
    fn tolerance(&mut self) {
        for depth in DEPTHS {
            let q = i64::from(unit(depth));
            for (zero, one) in [(4 * q, 20 * q), (16 * q, 32 * q), (4 * q, 40 * q), (16 * q, 100 * q), (7 * q, 23 * q + 1)] {
                let e = (one - zero - 1) / 4;
                for e in [e, e + 1] {
                    let n = if depth == 8 { 8 } else { 1 };
                    let payload = self.any_payload(30);
                    let line = drawn(depth, zero as u16, one as u16, n, &payload);
                    // Zeros up and ones down, the worst there is.
                    let worst = moved(depth, &line, |_, s| if i64::from(s) == zero { e } else { -e });
                    self.read("1x", depth, &worst);
                    self.read("1x-else-2x", depth, &worst);
                    self.read("1x", depth, &moved(depth, &line, |_, _| e));
                    self.read("1x", depth, &moved(depth, &line, |_, _| -e));
                    let line = drawn(depth, zero as u16, one as u16, 1, &payload);
                    let dice = &mut self.dice;
                    let noisy = moved(depth, &line, |_, _| dice.from(-e, e));
                    self.read("1x-else-2x", depth, &noisy);
                    let dice = &mut self.dice;
                    let either = moved(depth, &line, |_, _| if dice.one_in(2) { e } else { -e });
                    self.read("1x", depth, &either);
                }
            }
            let e = (73 * q - 1) / 2;
            for e in [e, e + 1] {
                for n in [1, 4] {
                    let payload = self.any_payload(60);
                    let line = plainly(depth, n, &payload);
                    self.read("2x", depth, &moved(depth, &line, |_, _| e));
                    self.read("2x", depth, &moved(depth, &line, |_, _| -e));
                    self.read("1x-else-2x", depth, &moved(depth, &line, |_, _| -e));
                    self.read("1x-else-2x", depth, &moved(depth, &line, |i, _| if i / n % 2 == 0 { e } else { -e }));
                    if n == 1 {
                        let dice = &mut self.dice;
                        let noisy = moved(depth, &line, |_, _| dice.from(-e, e));
                        self.read("2x", depth, &noisy);
                        self.read("1x-else-2x", depth, &noisy);
                    }
                }
            }
        }
    }

    /// The run-in at the edge of being found, and with each of its symbols wrong.
    fn run_ins(&mut self) {
        for (depth, n) in [(8, 1), (8, 8), (10, 2), (12, 3), (10, 16), (12, 7)] {
            let (q, weight) = (u32::from(unit(depth)), n as u32);
            for more in [0, 1, 2] {
                // Zeros at 20q and ones so high that twice the difference is 16q times the weight and a little.
                let mut line = vec![(20 * q) as u16; 240 * n];
                let z = 20 * q * weight;
                for k in 0..240 {
                    let bit = if k < 16 { 0xEB52u16 >> (15 - k) & 1 == 1 } else { k % 3 == 0 };
                    let o = z + 8 * q * weight + more;
                    set_symbol(&mut line, n, k, if bit { o } else { z });
                }
                self.read("1x", depth, &line);
                self.read("1x-else-2x", depth, &line);
            }
        }
        let one = plainly(8, 2, &payload(30, &[0xA5; 28]));
        for k in 0..16 {
            let bit = 0xEB52u16 >> (15 - k) & 1 == 1;
            for level in [if bit { 4 } else { 40 }, 22, 21, 24, 30] {
                let mut line = one.clone();
                line[2 * k..2 * k + 2].fill(level);
                self.read("1x", 8, &line);
            }
            let mut line = one.clone();
            line[2 * k] = if bit { 0 } else { 255 };
            self.read("1x-else-2x", 8, &line);
        }
        let two = plainly(8, 1, &payload(60, &[0x1B; 58]));
        for k in 0..8 {
            for level in [0, 16, 52, 53, 89, 125, 126, 162, 198, 199, 235, 255] {
                let mut line = two.clone();
                line[k] = level;
                self.read(if level % 2 == 0 { "2x" } else { "1x-else-2x" }, 8, &line);
            }
        }
    }

    fn other_lines(&mut self) {
        for system in SYSTEMS {
            for depth in DEPTHS {
                for level in [0, 4, 16, 40, 128, 255] {
                    self.say(format!("read {system} {depth} {}*{}", level * unit(depth), 240 * (level as usize % 16 + 1)));
                }
            }
            for _ in 0..8 {
                let depth = *self.dice.pick(&DEPTHS);
                let most = limit(depth) - 1;
                let line: Vec<u16> = (0..240).map(|_| self.dice.from(0, most) as u16).collect();
                self.read(system, depth, &line);
                // Random behind a good run-in.
                let mut found = plainly(depth, 1, &payload(if system == "2x" { 60 } else { 30 }, &[]));
                found[16..].copy_from_slice(&line[16..]);
                self.read(system, depth, &found);
            }
        }
        // Extremes: the sums are as large as they come.
        for depth in DEPTHS {
            let most = (limit(depth) - 1) as u16;
            let mut line = vec![0; 3840];
            for k in 0..240 {
                if k > 15 || 0xEB52u16 >> (15 - k) & 1 == 1 {
                    line[16 * k..16 * k + 16].fill(most);
                }
            }
            self.read("1x", depth, &line);
            self.read("1x-else-2x", depth, &line);
        }
    }

    fn c_calls(&mut self) {
        let hex = |line: &[u16]| {
            let bytes: Vec<u8> = line.iter().flat_map(|s| s.to_le_bytes()).collect();
            show_hex(&bytes)
        };
        for depth in DEPTHS {
            for length in [30, 60] {
                for n in [1, 2, 3] {
                    let payload = self.any_payload(length);
                    let line = plainly(depth, n, &payload);
                    self.say(format!("c {depth} {} {}", hex(&line), 60 + n * 10 - 10));
                }
            }
            let most = limit(depth) as u16;
            for at in [0, 3, 239] {
                let mut line = vec![16; 240];
                line[at] = most;
                self.say(format!("c {depth} {} 60", hex(&line)));
                self.say(format!("c {depth} {} 59", hex(&line)));
                line[at] = most - 1;
                self.say(format!("c {depth} {} 60", hex(&line)));
                line[at] = 1; // 01 00: were the high byte first, 256.
                self.say(format!("c {depth} {} 59", hex(&line)));
                line[at] = 0xFFFF;
                self.say(format!("c {depth} {}AA 60", hex(&line)));
            }
            for bytes in [0, 1, 2, 3, 479, 480, 481, 482, 7680, 7681, 7682] {
                self.say(format!("c {depth} {} 60", if bytes == 0 { "-".into() } else { "10".repeat(bytes) }));
            }
        }
        for depth in [0, 9, 11, 16, 255, 264, 65544, 4294967295u32] {
            self.say(format!("c {depth} FFFFFF 0"));
            self.say(format!("c {depth} {} 60", "1000".repeat(240)));
        }
        for room in [0, 1, 30, 59, 60, 61, 64, 1000] {
            let payload = self.any_payload(30);
            let line = plainly(8, 1, &payload);
            self.say(format!("c 8 {} {room}", hex(&line)));
            self.say(format!("c 8 {} {room}", "1000".repeat(480)));
        }
        for e in [3, 4] {
            let payload = self.any_payload(30);
            let line = drawn(8, 4, 20, 1, &payload);
            let dice = &mut self.dice;
            let noisy = moved(8, &line, |_, _| dice.from(-e, e));
            self.say(format!("c 8 {} 60", hex(&noisy)));
        }
    }

    // ---- Blocks

    fn cuts(&mut self) {
        for (room, most) in [(28, 80), (58, 200)] {
            for length in 0..=most + 2 {
                let bytes = self.dice.bytes(length);
                let number = 1 + self.dice.below(255);
                let version = self.dice.below(16);
                self.say(format!("cut {room} {number} {version} {}", show_hex(&bytes)));
            }
            for length in [0, 21, most, most + 1, 300, 1000] {
                for (number, version) in [(0, 0), (0, 16), (5, 15), (5, 16), (255, 255)] {
                    self.say(format!("cut {room} {number} {version} {}", show_hex(&vec![0x5A; length])));
                }
            }
        }
        for room in ["0", "27", "29", "30", "57", "59", "60", "1x"] {
            self.say(format!("cut {room} 5 0 AABB"));
        }
        // Lengths of published examples, cut for 1X.
        for length in [20, 36, 56, 88] {
            let bytes: Vec<u8> = (0..length).collect();
            self.say(format!("cut 28 {length} 0 {}", show_hex(&bytes)));
        }
    }

    fn parts(&mut self) {
        self.say("parts 5 15 AA,BB,CC");
        self.say("parts 5 0 .");
        self.say("parts 0 0 .");
        self.say("parts 5 16 -");
        for count in 1..=4 {
            self.say(format!("parts {count} 3 {}", vec!["-"; count].join(",")));
            for _ in 0..12 {
                let parts = self.random_parts(count, 51);
                let number = 1 + self.dice.below(255);
                let version = self.dice.below(16);
                self.say(format!("parts {number} {version} {}", show_hex_list(&parts)));
            }
        }
        for count in 1..=6usize {
            for long in 0..count {
                for length in [46, 47, 48, 50, 51, 52, 53, 255, 300] {
                    let mut parts = vec![vec![0x11; 3]; count];
                    parts[long] = vec![0x22; length];
                    self.say(format!("parts 9 1 {}", show_hex_list(&parts)));
                }
            }
        }
        for (number, version) in [(0, 0), (0, 16), (1, 16), (255, 255), (255, 15), (1, 0)] {
            for parts in ["-", "AA,BB", ".", "A1,A2,A3,A4,A5"] {
                self.say(format!("parts {number} {version} {parts}"));
            }
            self.say(format!("parts {number} {version} {},{}", "33".repeat(60), "44".repeat(52)));
        }
    }

    fn walks(&mut self) {
        for bytes in ["-", "EB", "EB52", "0000", "FFFF", "EB5200", "EB5205", "EB520500", "EB520504", "EB520505", "EB5200AA"] {
            self.say(format!("walk {bytes}"));
        }
        // Blocks one behind the other.
        for _ in 0..60 {
            let mut bytes = Vec::new();
            loop {
                let count = 1 + self.dice.below(4);
                let parts = self.random_parts(count, 12);
                let number = 1 + self.dice.below(255) as u8;
                let version = self.dice.below(16) as u8;
                let block = blocks(number, version, &parts)[self.dice.below(count)].clone();
                if bytes.len() + block.len() > 58 {
                    break;
                }
                bytes.extend(block);
                if self.dice.one_in(4) {
                    break;
                }
            }
            let mut payload = payload(60, &bytes);
            if self.dice.one_in(3) {
                payload[0] = 0x12;
            }
            self.say(format!("walk {}", show_hex(&payload)));
        }
        // Eight empty blocks, with and without a fault behind them.
        let eight: Vec<u8> = (1..=8).flat_map(|number| raw_block(number, 0, 0, 0, &[])).collect();
        for tail in [[0, 0], [9, 0], [9, 5], [9, 255], [0, 9], [0, 255]] {
            let mut bytes = eight.clone();
            bytes.extend(tail);
            self.say(format!("walk {}", show_hex(&payload(60, &bytes))));
        }
        // One bit of a good payload turned.
        let parts = vec![vec![1, 2, 3], vec![4, 5]];
        let good = payload(30, &[blocks(5, 9, &parts)[1].clone(), blocks(7, 2, &[vec![0x77]])[0].clone()].concat());
        for bit in 0..8 * good.len() {
            if bit % 8 == (bit / 8) % 8 || bit < 64 {
                let mut bad = good.clone();
                bad[bit / 8] ^= 0x80 >> (bit % 8);
                self.say(format!("walk {}", show_hex(&bad)));
            }
        }
        for length in 0..good.len() {
            self.say(format!("walk {}", show_hex(&good[..length])));
        }
        // Every part and last, with room for a message CRC and without, and a good block behind.
        for names in 0..16u8 {
            for length in [0, 1, 3, 4, 5, 12] {
                let rest = self.dice.bytes(length);
                let mut bytes = raw_block(200 + names, 6, names >> 2, names & 3, &rest);
                bytes.extend(raw_block(3, 15, 0, 0, &[0xCD]));
                self.say(format!("walk {}", show_hex(&payload(60, &bytes))));
            }
        }
        // Counts of every size, with a right CRC.
        for length in [0, 50, 51, 52, 53, 100, 199, 200, 249, 250] {
            for (part, last) in [(0, 0), (1, 3), (3, 3), (2, 1)] {
                let rest = vec![0xB7; length];
                let block = raw_block(128, 1, part, last, &rest);
                for total in [block.len() + 1, block.len() + 2, block.len() + 10] {
                    let mut bytes = vec![0xEB, 0x52];
                    bytes.extend_from_slice(&block);
                    bytes.resize(total, 0);
                    self.say(format!("walk {}", show_hex(&bytes)));
                }
            }
        }
        for length in [3, 5, 9, 10, 30, 60, 90, 255, 600] {
            for _ in 0..4 {
                let bytes = self.dice.bytes(length);
                self.say(format!("walk {}", show_hex(&bytes)));
            }
        }
        // Random bytes with a right count and CRC.
        for _ in 0..30 {
            let mut bytes = vec![0xEB, 0x52];
            for _ in 0..1 + self.dice.below(5) {
                let length = self.dice.below(16);
                let rest = self.dice.bytes(length);
                let names = self.dice.roll() as u8;
                bytes.extend(raw_block(1 + self.dice.below(255) as u8, names >> 4, names >> 2 & 3, names & 3, &rest));
            }
            self.say(format!("walk {}", show_hex(&bytes)));
        }
    }

    // ---- Trays

    fn trays(&mut self) {
        for bytes in ["-", "00", "0000", "000000", "01", "09", "FF", "0009", "000A", "08", "0001"] {
            self.say(format!("tray {bytes}"));
        }
        let empties = |count: usize| (1..=count).flat_map(|n| [n as u8, 0, 0]).collect::<Vec<u8>>();
        for messages in [0, 1, 7, 8, 9] {
            for faults in 0..=10 {
                let mut bytes = vec![messages as u8];
                bytes.extend(empties(messages));
                bytes.push(faults as u8);
                for i in 0..faults {
                    bytes.extend([1, 1 + i as u8 % 4, 200, 2 + i as u8]);
                }
                self.say(format!("tray {}", show_hex(&bytes)));
            }
        }
        let small = vec![2, 5, 15, 2, 0xAA, 0xBB, 255, 0, 0, 2, 1, 4, 9, 2, 2, 1, 1, 59];
        for length in 0..small.len() {
            self.say(format!("tray {}", show_hex(&small[..length])));
        }
        for place in 0..small.len() {
            for value in [0, 1, 2, 3, 4, 5, 8, 9, 15, 16, 59, 60, 200, 201, 255] {
                let mut bytes = small.clone();
                bytes[place] = value;
                self.say(format!("tray {}", show_hex(&bytes)));
            }
        }
        for tail in [0, 1, 255] {
            let mut bytes = small.clone();
            bytes.push(tail);
            self.say(format!("tray {}", show_hex(&bytes)));
        }
        for (layer, most) in [(0, 0), (1, 4), (2, 1), (3, 1)] {
            for cause in 0..=most + 1 {
                self.say(format!("tray 0001{layer:02X}{cause:02X}0502"));
            }
        }
        for length in [0, 1, 199, 200, 201, 255] {
            let mut bytes = vec![1, 77, 3, length];
            bytes.extend(self.dice.bytes(length.into()));
            bytes.push(0);
            self.say(format!("tray {}", show_hex(&bytes)));
        }
        for _ in 0..40 {
            let tray = self.random_tray();
            self.say(format!("tray {}", show_hex(&tray)));
            let mut wrong = tray.clone();
            let place = self.dice.below(wrong.len());
            wrong[place] = self.dice.roll() as u8;
            self.say(format!("tray {}", show_hex(&wrong)));
            wrong.truncate(self.dice.below(tray.len()));
            self.say(format!("tray {}", show_hex(&wrong)));
        }
        let mut full = vec![8];
        for number in 1..=8 {
            full.extend([number, 15, 200]);
            full.extend(self.dice.bytes(200));
        }
        full.extend([1, 1, 1, 9, 59]);
        self.say(format!("tray {}", show_hex(&full)));
        full.push(0);
        self.say(format!("tray {}", show_hex(&full)));
        for length in [1, 2, 7, 30, 100] {
            for _ in 0..4 {
                let bytes = self.dice.bytes(length);
                self.say(format!("tray {}", show_hex(&bytes)));
            }
        }
    }

    fn random_tray(&mut self) -> Vec<u8> {
        let messages = self.dice.below(9);
        let mut bytes = vec![messages as u8];
        for _ in 0..messages {
            let length = if self.dice.one_in(5) { 200 } else { self.dice.below(30) };
            bytes.extend([1 + self.dice.below(255) as u8, self.dice.below(16) as u8, length as u8]);
            bytes.extend(self.dice.bytes(length));
        }
        let faults = self.dice.below(10 - messages);
        bytes.push(faults as u8);
        for _ in 0..faults {
            let layer = 1 + self.dice.below(2) as u8;
            let cause = if layer == 1 { 1 + self.dice.below(4) as u8 } else { 1 };
            bytes.extend([layer, cause, 1 + self.dice.below(255) as u8, 2 + self.dice.below(58) as u8]);
        }
        bytes
    }

    // ---- Bodies

    fn times(&mut self) {
        for bytes in ["00000001FFE7", "0000000103E7", "00000001FFE8", "FFFFFFFFFFFF", "000000000000", "000000000400"] {
            self.say(format!("time {bytes}"));
        }
        for length in 0..9 {
            self.say(format!("time {}", show_hex(&[0xFF, 0xFF, 0xFF, 0xFF, 0xFD, 0x00, 0x01, 0x02][..length.min(8)])));
            self.say(format!("time {}", show_hex(&vec![0xFF; length])));
        }
        for millis in [0u16, 1, 255, 256, 511, 512, 998, 999, 1000, 1001, 1023] {
            for reserved in [0u16, 1, 32, 63] {
                self.say(format!("time 12345678{:04X}", reserved << 10 | millis));
            }
            for room in [0, 5, 6, 7, 100] {
                self.say(format!("writetime 305419896 {millis} {room}"));
            }
        }
        for millis in [1024, 9999, 65535] {
            self.say(format!("writetime 1 {millis} 6"));
            self.say(format!("writetime 1 {millis} 5"));
        }
        for seconds in [0u32, 1, 255, 256, 65535, 65536, 0x80000000, u32::MAX] {
            self.say(format!("writetime {seconds} 999 6"));
        }
        for _ in 0..20 {
            let bytes = self.dice.bytes(6);
            self.say(format!("time {}", show_hex(&bytes)));
        }
    }

    fn plains(&mut self) {
        for number in [0, 1, 2, 3, 4, 127, 128, 254, 255] {
            self.say(format!("plain {number} -"));
            let length = self.dice.below(40);
            let bytes = self.dice.bytes(length);
            self.say(format!("plain {number} {}", show_hex(&bytes)));
        }
        self.say(format!("plain 9 {}", "ab".repeat(300)));
    }

    fn contents(&mut self) {
        let goods = [
            "7F0102F01401",
            "BF810C1478779185342C2390308610",
            "BFC20B00000001FFE7414243443031323378797A",
            "FF820C41424344303132334142434401020FFFFF",
            "FFC10C00000001FFE71478779185342C2390308610FFFFF00000",
            "FFFF00FFFFFFFF000000000000000000",
            "BF8300",
            "BF8005AABBCCDDEE",
            "FFC503000000000000FFFEFD12340FFC01",
            "BF820B3041395A617A4D6D354B6B",
        ];
        for good in goods {
            let bytes: Vec<u8> = (0..good.len() / 2).map(|i| u8::from_str_radix(&good[2 * i..2 * i + 2], 16).unwrap()).collect();
            self.say(format!("content {good}"));
            for length in 0..bytes.len() {
                self.say(format!("content {}", show_hex(&bytes[..length])));
            }
            for tail in [0u8, 0xFF] {
                let mut longer = bytes.clone();
                longer.push(tail);
                self.say(format!("content {}", show_hex(&longer)));
            }
            for place in 0..bytes.len() {
                for value in [0x00, 0x2F, 0x3A, 0x40, 0x5B, 0x60, 0x7B, 0x80, 0xFF] {
                    if value < 0x80 && (value as usize + place) % 3 != 0 {
                        continue;
                    }
                    let mut other = bytes.clone();
                    other[place] = value;
                    self.say(format!("content {}", show_hex(&other)));
                }
            }
        }
        // Every first two bytes that matter, over enough bytes and over few.
        for first in [0x00, 0x3F, 0x40, 0x80, 0xC0, 0xFF] {
            for second in [0x00, 0x01, 0x02, 0x03, 0x3F, 0x40, 0x41, 0x42, 0x7F, 0x80, 0xC2, 0xFF] {
                for length in [0, 10, 11, 12, 13] {
                    let mut bytes = vec![first, second, length];
                    bytes.extend([0x30; 24]);
                    self.say(format!("content {}", show_hex(&bytes)));
                }
            }
        }
        // Characters at the edges of what an identifier may have.
        for character in [0x00, 0x20, 0x2D, 0x2F, 0x30, 0x39, 0x3A, 0x40, 0x41, 0x5A, 0x5B, 0x60, 0x61, 0x7A, 0x7B, 0x7F, 0x80, 0xB0, 0xC1, 0xFF] {
            for place in [0, 5, 10] {
                let mut bytes = vec![0xBF, 0x82, 11];
                bytes.extend([0x41; 11]);
                bytes[3 + place] = character;
                self.say(format!("content {}", show_hex(&bytes)));
                bytes.truncate(4 + place);
                self.say(format!("content {}", show_hex(&bytes)));
            }
        }
        for bytes in ["BF820B412D", "BF820B4142", "BFC20B00000001FFE82D", "BFC20B00000001FF", "BFC20B00000001FFE8"] {
            self.say(format!("content {bytes}"));
        }
        for length in [0, 1, 100, 200, 254, 255] {
            let mut bytes = vec![0xFF, 0xBF, length];
            bytes.extend(self.dice.bytes(length.into()));
            bytes.extend([1, 2, 3, 4, 5]);
            self.say(format!("content {}", show_hex(&bytes)));
        }
        for length in [1, 3, 6, 9, 15, 30] {
            for _ in 0..5 {
                let bytes = self.dice.bytes(length);
                self.say(format!("content {}", show_hex(&bytes)));
            }
        }
    }

    fn write_contents(&mut self) {
        let eidr = "1478779185342C2390308610";
        let ad = "4142434430313233587A39";
        let cases = [
            "- - - - 258 5 1".to_string(),
            format!("1 - - {eidr} - - -"),
            "2 1 999 414243443031323378797A - - -".to_string(),
            format!("2 - - {ad} 65535 1023 1023"),
            format!("1 4294967295 0 {eidr} 0 0 0"),
            "63 5 7 - 1 2 3".to_string(),
            "0 - 0 - - 0 0".to_string(),
            "3 0 0 AABBCC - - -".to_string(),
            "- - - - - - -".to_string(),
            "- 5 1200 2D2D - 9999 9999".to_string(),
        ];
        for case in &cases {
            let length = self.content_length(case);
            for room in [0, 1, length.saturating_sub(1), length, length + 1, 300] {
                self.say(format!("writecontent {case} {room}"));
            }
        }
        // Wrong values, alone and together, in enough room and in too little.
        let wrong = [
            format!("64 - - {eidr} - - -"),
            format!("255 1 1000 {eidr} 1 2000 2000"),
            "66 - - 2D2D2D2D2D2D2D2D2D2D2D - - -".to_string(),
            "1 - - 14787791853 - - -".to_string(),
            "1 - - 1478779185342C23903086 - - -".to_string(),
            format!("1 - - {eidr}00 - - -"),
            "2 - - 41424344303132335841 - - -".to_string(),
            "2 - - 41424344303132335841414141 - - -".to_string(),
            "2 5 1000 4142434430313233582D39 - - -".to_string(),
            "2 5 999 4142434430313233582D39 1 1024 1024".to_string(),
            "2 - - 2D42434430313233582D39 1 1024 1024".to_string(),
            "2 - - 4142434430313233587A3940 - - -".to_string(),
            format!("2 5 999 {ad} 1 1024 1024"),
            format!("2 - - {ad} 1 1023 1024"),
            format!("2 - - {ad} 1 65535 0"),
            "- - - - 1 1024 5".to_string(),
            "- - - - 1 5 1024".to_string(),
            format!("5 1 1000 {} - - -", "00".repeat(256)),
            format!("5 1 999 {} - - -", "00".repeat(256)),
            format!("5 - - {} 1 1024 0", "01".repeat(255)),
            format!("64 1 1000 {} 1 1024 0", "01".repeat(300)),
            "1 - - - - - -".to_string(),
            "2 1 1000 - 1 1024 0".to_string(),
        ];
        for case in &wrong {
            let length = self.content_length(case);
            for room in [0, length.saturating_sub(1), length, 400] {
                self.say(format!("writecontent {case} {room}"));
            }
        }
        for _ in 0..60 {
            let kind = self.dice.below(70);
            let length = match kind {
                1 => 12,
                2 => 11 + self.dice.below(2),
                _ => self.dice.below(40),
            };
            let identifier = self.dice.bytes(length);
            let until = if self.dice.one_in(2) { "- -".into() } else { format!("{} {}", self.dice.roll() as u32, self.dice.below(1030)) };
            let channel = if self.dice.one_in(2) { "- - -".into() } else { format!("{} {} {}", self.dice.below(65536), self.dice.below(1030), self.dice.below(1030)) };
            self.say(format!("writecontent {kind} {until} {} {channel} 60", show_hex(&identifier)));
        }
        for malformed in ["5 1 - AA - - -", "5 - - AA 1 - 2", "5 - - AA 1 2 -", "5 1 AA - - -", "- - - A - - -", "- - - - - - - -", "256 - - - - - -", "5 4294967296 0 - - - -", "5 0 65536 - - - -", "5 - - - 65536 0 0"] {
            self.say(format!("writecontent {malformed} 60"));
        }
    }

    /// The length of the body that a writecontent case asks for.
    fn content_length(&self, case: &str) -> usize {
        let words: Vec<&str> = case.split(' ').collect();
        let mut length = 1;
        if words[0] != "-" {
            length += 2 + if words[1] != "-" { 6 } else { 0 };
            length += if words[3] != "-" { words[3].len() / 2 } else { 0 };
        }
        length + if words[4] != "-" { 5 } else { 0 }
    }

    // ---- Frames

    fn frames(&mut self) {
        for line in ["put", "seal", "put 5/0/-/0", "drawframe 1x 8 4 40 240", "drawframe", "seal 1", "open", "open -1"] {
            self.say(line);
        }
        for length in [0, 1, 61, 62, 255, 256, 1_000_000] {
            self.say(format!("open {length}"));
        }
        for length in 2..=60usize {
            self.say(format!("open {length}"));
            if length % 7 == 0 {
                self.say("put");
            }
            self.say(format!("put 5/1/{}/0", show_hex(&vec![0xC5; length.saturating_sub(9).min(51)])));
            if length % 3 == 0 {
                self.say("put 6/2/-/0 7/3/-,AA/1");
            }
            self.say("seal");
            if length % 5 == 0 {
                let system = SYSTEMS[length / 5 % 3];
                self.say(format!("drawframe {system} 10 16 80 480"));
                self.say("seal");
            }
        }
        for _ in 0..40 {
            let length = *self.dice.pick(&[30, 60, 60, 45, 12]);
            self.say(format!("open {length}"));
            for _ in 0..1 + self.dice.below(5) {
                let group = self.group();
                self.say(format!("put{group}"));
            }
            self.say("seal");
            let system = *self.dice.pick(&SYSTEMS);
            let depth = *self.dice.pick(&DEPTHS);
            let n = 1 + self.dice.below(3);
            let q = unit(depth);
            self.say(format!("drawframe {system} {depth} {} {} {}", 5 * q, 33 * q, 240 * n));
        }
        self.say("open 30");
        for line in [
            // 8 before 6, and the first refusal of a group counts.
            "put 5/0/AA/1", "put 5/0/AA/1000000", "put 5/0/AA,BB/2 5/0/-/0", "put 5/0/AA/0 5/0/AA,BB/2",
            "put 5/0/-/0 5/0/-/0 5/0/-/0 5/0/-/0 5/0/-/0 5/0/AA/1", "put 5/0/-/0 5/0/-/0 5/0/-/0 5/0/-/0 5/0/-/0",
            "put 5/0/-/0 5/0/-/0 5/0/-/0 5/0/-/1 5/0/-/0",
            // Sendings that don't exist.
            "put 0/0/AA/0", "put 5/16/AA/0", "put 5/0/./0", "put 5/0/-,-,-,-,-/0", "put 5/0/AA/1 0/0/AA/0",
            // Words that fit no form.
            "put 5/0/AA", "put 5/0/AA/0/0", "put 256/0/AA/0", "put 5/0/A/0", "put 5/0/AA/", "put ", "put 5/0/AA/0 ", "put /", "put 5/0/AA/1000001",
        ] {
            self.say(line);
        }
        self.say(format!("put 5/0/{}/0", "11".repeat(52)));
        self.say(format!("put 5/0/AA,{}/0", "11".repeat(48)));
        self.say(format!("put 5/0/{}/0", "11".repeat(22)));
        self.say(format!("put 5/0/{}/0", "11".repeat(21)));
        self.say("put 5/0/-/0");
        self.say("put");
        self.say("open 1");
        self.say("put 6/0/-/0");
        self.say("seal");
        for line in [
            "drawframe 1x 8 4 40 240", "drawframe 2x 8 4 40 240", "drawframe 1x 9 4 40 240", "drawframe 1x 8 3 40 240", "drawframe 1x 8 3 40 241",
            "drawframe 1x 8 4 40 241", "drawframe 2x 8 0 0 241", "drawframe 2x 8 0 0 480", "drawframe 1x-else-2x 12 64 320 3840", "drawframe 1x-else-2x 8 4 40 0",
            "drawframe 3x 8 4 40 240", "drawframe 1x 8 4 40", "drawframe 1x 8 4 40 240 60",
        ] {
            self.say(line);
        }
        self.say("open 60");
        self.say("drawframe 1x 8 16 100 720");
        self.say("open 59");
        self.say("seal");
        self.say("drawframe 1x-else-2x 8 16 100 240");
        self.say("seal");
        self.say("put");
    }

    /// A group of wants, some of which don't fit.
    fn group(&mut self) -> String {
        let mut group = String::new();
        for _ in 0..self.dice.below(4) {
            let count = 1 + self.dice.below(4);
            let parts = self.random_parts(count, 14);
            let index = if self.dice.one_in(12) { count } else { self.dice.below(count) };
            let number = 1 + self.dice.below(255);
            let version = if self.dice.one_in(25) { 16 } else { self.dice.below(16) };
            group += &format!(" {number}/{version}/{}/{index}", show_hex_list(&parts));
        }
        group
    }

    // ---- Readers

    fn offer(&mut self, frame: u64, line: &[u16]) {
        self.say(format!("offer {frame} {} {TRAY}", show_samples(line)));
    }

    /// An offer of a 1X line with these blocks.
    fn offer_blocks(&mut self, frame: u64, blocks: &[Vec<u8>]) {
        let line = plainly(8, 1, &payload(30, &blocks.concat()));
        self.offer(frame, &line);
    }

    fn watch_lists(&mut self) {
        for line in ["offer 1 16*240 1630", "restart", "held 5", "held 0"] {
            self.say(line);
        }
        for list in ["-", ".", "", "0", "1", "255", "1,0", "0,1", "5,5", "1,2,3,4,5,6,7,8", "1,2,3,4,5,6,7,8,9", "1,2,3,4,5,6,7,8,0", "1,2,3,4,5,6,7,8,8",
            "1,2,3,4,5,6,7,8,9,10,1", "1,2,3,4,5,6,7,8,9,10,11,12,13,14", "9,8,7,6,5,4,3,2,9", "1,2,1,0", "256", "1,256", "1,,2", ",", "1,", "1;2", "-,1"] {
            self.say(format!("reader 1x 8 {list}"));
        }
        for depth in [0, 8, 9, 10, 11, 12, 13, 255] {
            for system in SYSTEMS {
                self.say(format!("reader {system} {depth} 7,9"));
            }
            self.say(format!("reader 2x {depth} -"));
        }
        for line in ["reader 3x 8 1", "reader 1X 8 1", "reader 1x 8", "reader 1x 8 1 2", "reader", "held", "held 256", "held 7 7", "restart 1", "held 7", "held 8", "held 0"] {
            self.say(line);
        }
    }

    fn worked_run(&mut self) {
        let parts = [vec![0xA1, 0xA2], vec![0xB1]];
        let both = blocks(5, 3, &parts);
        for (first, second) in [(1000, 1255), (1000, 1256), (0, 255), (0, 256), (0, 0), (u64::MAX - 255, u64::MAX), (u64::MAX - 256, u64::MAX), (1 << 63, (1 << 63) + 255)] {
            self.say("reader 1x-else-2x 8 5");
            self.offer_blocks(first, &both[..1]);
            self.say("held 5");
            self.offer_blocks(second, &both[1..]);
            self.say("held 5");
            self.offer_blocks(second, &both[..1]);
            self.say("held 5");
        }
        // A part that is read again is as new as its last reading.
        for last in [1455, 1456] {
            self.say("reader 1x 8 5");
            self.offer_blocks(1000, &both[..1]);
            self.offer_blocks(1200, &both[..1]);
            self.say("held 5");
            self.offer_blocks(last, &both[1..]);
            self.say("held 5");
        }
        // A part in the middle grows old alone.
        let three = blocks(5, 3, &[vec![1], vec![2], vec![3]]);
        for last in [1255, 1256, 1300, 1355, 1356, 1400, 1455, 1456] {
            self.say("reader 1x 8 5,6");
            self.offer_blocks(1000, &three[1..2]);
            self.offer_blocks(1100, &three[2..]);
            self.offer_blocks(1200, &blocks(6, 0, &[vec![9]]));
            self.say("held 5");
            self.offer_blocks(last, &three[..1]);
            self.say("held 5");
            self.offer_blocks(last, &three[1..]);
            self.say("held 5");
        }
    }

    fn offer_refusals(&mut self) {
        for system in SYSTEMS {
            let line = plainly(10, 1, &payload(if system == "2x" { 60 } else { 30 }, &raw_block(9, 1, 0, 0, &[0xEE])));
            let good = show_samples(&line);
            self.say(format!("reader {system} 10 9"));
            self.say(format!("offer 100 {good} 1629"));
            for room in [0, 1, 2, 100, 1600, 1628, 1629, 1630, 1631, 1632, 5000, 1_000_000] {
                self.say(format!("offer 100 {good} {room}"));
                self.say(format!("offer 100 64*480 {room}"));
                self.say(format!("offer 99 {good} {room}"));
                self.say(format!("offer 99 1024*240 {room}"));
                self.say(format!("offer 99 1024*241 {room}"));
            }
            for count in [0, 1, 239, 241, 1280, 3841, 4080] {
                self.say(format!("offer 200 64*{count} 1630"));
                self.say(format!("offer 200 1024*{count} 10"));
            }
            // A frame number below the last and a short tray together.
            for frame in [99, 100, 101] {
                for room in [0, 1629] {
                    self.say(format!("offer {frame} {good} {room}"));
                    self.say(format!("offer {frame} 64*240 {room}"));
                }
            }
            self.say(format!("offer 100 {good} 1630"));
            self.say(format!("offer 300 {good} 1630"));
            self.say(format!("offer 299 {good} 1630"));
            self.say("restart");
            self.say(format!("offer 299 {good} 1630"));
            self.say("restart");
            self.say(format!("offer 7 64*240,1024 {TRAY}"));
            self.say(format!("offer 3 {good} {TRAY}"));
            for frame in [u64::MAX - 1, u64::MAX, u64::MAX, u64::MAX - 1, 0] {
                self.say(format!("offer {frame} {good} {TRAY}"));
            }
            self.say("restart");
            self.say(format!("offer 0 {good} {TRAY}"));
            // No run-in sets the frame number too.
            self.say(format!("offer 50 64*240 {TRAY}"));
            self.say(format!("offer 49 {good} {TRAY}"));
            for line in ["offer 18446744073709551616 64*240 1630", "offer -1 64*240 1630", "offer 60 64*240", "offer 60 64*240 1630 1", "offer 60 64*240,70000 1630", "offer 60 64*240 1000001", "offer 60 64*1000001 1630"] {
                self.say(line);
            }
        }
    }

    /// Trays as full as they come: eight messages, nine entries, the longest messages.
    fn full_trays(&mut self) {
        let numbers = [1u8, 2, 3, 50, 100, 128, 200, 255];
        for depth in DEPTHS {
            self.say(format!("reader 1x-else-2x {depth} 1,2,3,50,100,128,200,255"));
            let empties: Vec<u8> = numbers.iter().flat_map(|&number| raw_block(number, 4, 0, 0, &[])).collect();
            for tail in [[0, 0], [0, 7], [7, 0], [7, 200]] {
                let mut bytes = empties.clone();
                bytes.extend(tail);
                let line = plainly(depth, 1, &payload(60, &bytes));
                self.offer(10, &line);
            }
        }
        self.say("reader 2x 8 255,200,128,100,50,3,2,1");
        let bodies: Vec<Vec<Vec<u8>>> = numbers.iter().map(|_| vec![vec![], self.dice.bytes(51), self.dice.bytes(51), self.dice.bytes(47)]).collect();
        let sent: Vec<Vec<Vec<u8>>> = numbers.iter().zip(&bodies).map(|(&number, parts)| blocks(number, 15, parts)).collect();
        for part in 1..4 {
            for sending in &sent {
                let line = plainly(8, 1, &payload(60, &sending[part]));
                self.offer(part as u64, &line);
            }
        }
        self.say("held 128");
        let firsts: Vec<u8> = sent.iter().flat_map(|sending| sending[0].clone()).collect();
        for tail in [[0, 0], [9, 4]] {
            let mut bytes = firsts.clone();
            bytes.extend(tail);
            let line = plainly(8, 1, &payload(60, &bytes));
            self.offer(4, &line);
            self.say("held 128");
        }
        // Two hundred bytes, in order and backwards.
        let parts = vec![self.dice.bytes(51), self.dice.bytes(51), self.dice.bytes(51), self.dice.bytes(47)];
        let whole = blocks(3, 0, &parts);
        for order in [[0, 1, 2, 3], [3, 2, 1, 0], [2, 0, 3, 1]] {
            for part in order {
                let line = plainly(8, 1, &payload(60, &whole[part]));
                self.offer(9, &line);
                self.say("held 3");
            }
        }
    }

    /// Blocks of every fault, watched and not, and message faults.
    fn faulty_runs(&mut self) {
        self.say("reader 1x 8 5,6,7");
        let good = blocks(5, 1, &[vec![0x55]])[0].clone();
        let other = blocks(9, 1, &[vec![0x99]])[0].clone();
        for number in [5u8, 9] {
            let mut spoiled = blocks(number, 2, &[vec![1, 2]])[0].clone();
            spoiled[4] ^= 4;
            let faults = [
                vec![number],
                vec![number, 4, 0, 0, 0, 0, 0],
                vec![number, 40, 0, 0, 0, 0, 0],
                spoiled,
                raw_block(number, 3, 3, 1, &[7]),
                raw_block(number, 3, 1, 1, &[7, 7, 7]),
                raw_block(number, 3, 1, 0, &[]),
            ];
            for (i, fault) in faults.iter().enumerate() {
                self.offer_blocks(i as u64, &[good.clone(), fault.clone()]);
                self.offer_blocks(i as u64, &[fault.clone(), good.clone()]);
                self.offer_blocks(i as u64, &[other.clone(), fault.clone()]);
            }
            self.say(format!("held {number}"));
            self.say("restart");
        }
        // A wrong message CRC, completed by each part.
        for completes in [0, 1] {
            let parts = [raw_block(6, 2, 0, 1, &[0xAA]), raw_block(6, 2, 1, 1, &[0xBB, 0xDE, 0xAD, 0xBE, 0xEF])];
            self.offer_blocks(20, &[parts[1 - completes].clone()]);
            self.say("held 6");
            self.offer_blocks(21, &[good.clone(), parts[completes].clone()]);
            self.say("held 6");
            self.offer_blocks(21, &[parts[0].clone(), parts[1].clone()]);
            self.say("held 6");
        }
        // One number twice in a line, versions and lasts that change within a line.
        let both = blocks(7, 4, &[vec![1], vec![2]]);
        let newer = blocks(7, 5, &[vec![1], vec![2]]);
        let longer = blocks(7, 4, &[vec![1], vec![2], vec![3]]);
        for line in [
            vec![both[0].clone(), both[0].clone()],
            vec![both[0].clone(), both[1].clone()],
            vec![both[1].clone(), both[0].clone()],
            vec![both[0].clone(), newer[1].clone()],
            vec![both[0].clone()],
            vec![longer[1].clone(), both[1].clone()],
            vec![newer[0].clone()],
            vec![both[1].clone()],
            vec![newer[1].clone()],
            vec![blocks(7, 5, &[vec![0xDD]])[0].clone()],
        ] {
            self.offer_blocks(30, &line);
            self.say("held 7");
        }
        // Parts of two wordings under one version: the later one stays, and the CRC tells.
        let one = blocks(6, 8, &[vec![1, 1], vec![2, 2]]);
        let two = blocks(6, 8, &[vec![3, 3], vec![4, 4]]);
        for (a, b, c) in [(&one[0], &two[0], &one[1]), (&two[0], &one[0], &one[1]), (&one[1], &two[1], &two[0]), (&one[1], &two[1], &one[0])] {
            for block in [a, b, c] {
                self.offer_blocks(40, std::slice::from_ref(block));
            }
            self.say("held 6");
        }
    }

    /// A long run: sendings of several numbers over frames that are lost, repeated, blanked and spoiled.
    fn run(&mut self, system: &str, depth: u8, watch: &[u8], offers: usize) {
        let list: Vec<String> = watch.iter().map(u8::to_string).collect();
        self.say(format!("reader {system} {depth} {}", list.join(",")));
        let mut queue: Vec<Vec<u8>> = Vec::new();
        let mut frame = self.dice.below(1000) as u64;
        let mut before: Option<Vec<u16>> = None;
        for _ in 0..offers {
            let two = match system {
                "1x" => false,
                "2x" => true,
                _ => self.dice.one_in(4),
            };
            let room = if two { 58 } else { 28 };
            while queue.iter().map(Vec::len).sum::<usize>() < room {
                let new = self.next_sending(watch, if system == "2x" { Room::TwoX } else { Room::OneX });
                queue.extend(new);
            }
            let mut bytes = Vec::new();
            while !queue.is_empty() && bytes.len() + queue[0].len() <= room {
                bytes.extend(queue.remove(0));
            }
            if self.dice.one_in(12) && !bytes.is_empty() {
                let place = self.dice.below(bytes.len());
                bytes[place] ^= 1 << self.dice.below(8);
            }
            let q = unit(depth);
            let zero = self.dice.from(i64::from(4 * q), i64::from(16 * q)) as u16;
            let one = self.dice.from(i64::from(zero + 16 * q).max(i64::from(20 * q)), i64::from(100 * q)) as u16;
            let mut line = drawn(depth, zero, one, 1, &payload(room + 2, &bytes));
            if self.dice.one_in(6) {
                let e = if two { (73 * i64::from(q) - 1) / 2 } else { i64::from(one - zero - 1) / 4 };
                let dice = &mut self.dice;
                line = moved(depth, &line, |_, _| dice.from(-e, e));
            }
            frame += match self.dice.below(20) {
                0 => 0,
                1 => self.dice.from(2, 40) as u64,
                2 => self.dice.from(100, 300) as u64,
                _ => 1,
            };
            match self.dice.below(24) {
                // Lost.
                0 => {}
                // Repeated, at the same frame or the next.
                1 => {
                    self.offer(frame, &line);
                    frame += self.dice.below(2) as u64;
                    self.offer(frame, &line);
                }
                // The line of the offer before, again.
                2 if before.is_some() => self.offer(frame, &before.clone().unwrap()),
                // Blanked.
                3 => {
                    let n = 1 + self.dice.below(16);
                    self.offer(frame, &vec![16 * q; 240 * n]);
                }
                // Spoiled in a run of symbols.
                4 => {
                    let from = self.dice.below(240);
                    let end = (from + 1 + self.dice.below(20)).min(240);
                    let level = self.dice.from(0, limit(depth) - 1) as u16;
                    line[from..end].fill(level);
                    self.offer(frame, &line);
                }
                5 => {
                    let below = frame.saturating_sub(1 + self.dice.below(3) as u64);
                    self.offer(below, &line);
                    self.offer(frame, &line);
                }
                6 => {
                    let room = self.dice.from(0, 1629);
                    self.say(format!("offer {frame} {} {room}", show_samples(&line)));
                    self.offer(frame, &line);
                }
                7 => {
                    let at = self.dice.below(240);
                    let kept = line[at];
                    line[at] = limit(depth) as u16;
                    self.offer(frame + 5, &line);
                    line[at] = kept;
                    self.offer(frame, &line);
                }
                8 => {
                    let extra = self.dice.below(300);
                    self.say(format!("offer {frame} {},5*{} {TRAY}", show_samples(&line), extra));
                }
                9 if self.dice.one_in(3) => {
                    self.say("restart");
                    frame = self.dice.below(2000) as u64;
                    self.offer(frame, &line);
                }
                _ => self.offer(frame, &line),
            }
            before = Some(line);
            if self.dice.one_in(6) {
                let number = if self.dice.one_in(8) { self.dice.roll() as u8 } else { *self.dice.pick(watch) };
                self.say(format!("held {number}"));
            }
        }
    }

    /// The blocks of a new sending, in order or not, some of them twice, or a single stray.
    fn next_sending(&mut self, watch: &[u8], room: Room) -> Vec<Vec<u8>> {
        let number = if self.dice.one_in(6) { 1 + self.dice.below(255) as u8 } else { *self.dice.pick(watch) };
        let version = self.dice.below(3) as u8;
        let most = if room == Room::OneX { 80 } else { 200 };
        let length = self.dice.below(most + 1);
        let message = self.dice.bytes(length);
        let sending = if self.dice.one_in(2) {
            Sending::cut(number, version, &message, room).unwrap()
        } else {
            let count = 1 + self.dice.below(4);
            let parts = self.random_parts(count, if room == Room::OneX { 12 } else { 30 });
            Sending::given(number, version, &parts).unwrap()
        };
        let count = sending.parts().len();
        let mut out: Vec<Vec<u8>> = (0..count).map(|i| sending.block(i).unwrap()).collect();
        if self.dice.one_in(4) {
            let (a, b) = (self.dice.below(count), self.dice.below(count));
            out.swap(a, b);
        }
        if self.dice.one_in(5) {
            let again = out[self.dice.below(count)].clone();
            out.push(again);
        }
        if self.dice.one_in(10) {
            let lost = self.dice.below(out.len());
            out.remove(lost);
        }
        if self.dice.one_in(20) {
            let rest = self.dice.bytes(6);
            out.push(raw_block(number, version, self.dice.below(4) as u8, self.dice.below(4) as u8, &rest));
        }
        out
    }

    fn runs(&mut self) {
        self.watch_lists();
        self.worked_run();
        self.offer_refusals();
        self.full_trays();
        self.faulty_runs();
        self.run("1x", 8, &[5, 6, 7], 250);
        self.run("1x-else-2x", 8, &[1, 2, 3, 4, 5, 6, 7, 8], 250);
        self.run("2x", 8, &[255, 128, 1], 180);
        self.run("1x-else-2x", 10, &[9], 150);
        self.run("1x", 12, &[33, 44], 100);
        self.run("2x", 12, &[200, 100, 50, 25], 80);
        self.run("1x-else-2x", 12, &[1, 2], 80);
        self.run("2x", 10, &[77, 78], 80);
        self.run("1x", 10, &[11, 12, 13, 14, 15, 16, 17], 100);
    }

    // ---- Lines that fit no form

    fn malformed(&mut self) {
        for line in [
            "", " ", "  ", "crc", "CRC 00", "crc 0", "crc 000", "crc 0G", "crc 00 00", " crc 00", "crc  00", "crc 00 ", "crc\t00", "crc 0x00", "crc .", "crc --", "crc -0", "Crc 00", "crc é",
            "levels", "levels 8", "levels 8 4", "levels 8 4 40 5", "levels 8  40", "levels 8 -4 40", "levels 8 +4 40", "levels 8 4.0 40", "levels 8 4 65536", "levels 256 4 40", "levels 4294967296 4 40", "levels 18446744073709551624 4 40", "levels 8 4 99999999999999999999", "levels 8 4 0x28",
            "levels 008 004 040", "levels 8 4 00000000000000000000000000000000040", "levels 8 4 4294967336", "levels 8 4 18446744073709551656", "levels 264 4 40", "levels 8 4 40x", "levels a 4 40", "levels 8 4 -",
            "read", "read 1x", "read 1x 8", "read 1x 8 16*240 60 60", "read 1X 8 16*240", "read 3x 8 16*240", "read 1x-else-2 8 16*240", "read 2x-else-1x 8 16*240", "read 1x 8 16*", "read 1x 8 *240", "read 1x 8 16*240*1",
            "read 1x 8 16*240,", "read 1x 8 ,16*240", "read 1x 8 16,,16", "read 1x 8 16*1000001", "read 1x 8 16*1000000", "read 1x 8 16*1000000,16", "read 1x 8 16*1000000,16*0", "read 1x 8 65536*240", "read 1x 8 65535*240", "read 1x 8 -1*240", "read 1x 8 16x240", "read 1x 8 16*-1",
            "read 1x 8 16*240 -", "read 1x 8 16*240 1000001", "read 1x 8 16*240 1000000", "read 1x 8 .", "read 1x 8 ", "read 1x 8 0*0", "read 1x 8 0*0,16*240", "read 1x 8 16*00240", "read 1x 256 16*240", "read 1x 8  60", "read 1x 8 16*99999999999999999999", "read 1x 8 16*18446744073709551615,16*2",
            "draw", "draw 1x 8 4 40 240", "draw 1x 8 4 40 240 EB52 1", "draw 1x 8 4 40 1000001 EB52", "draw 1x 8 4 40 1000000 EB52", "draw 1x 8 4 40 240 EB5", "draw 2x 8 - - 240 EB52", "draw 2x 8 65536 0 240 EB52", "draw 1x 8 4 40 -240 EB52",
            "cut", "cut 28 5 0", "cut 28 5 0 AA BB", "cut 28 256 0 AA", "cut 28 5 256 AA", "cut 028 5 0 AA", "cut 28 5 0 -", "cut 28 5 0 ", "cut 28 -5 0 AA",
            "parts", "parts 5 0", "parts 5 0 ", "parts 5 0 ,", "parts 5 0 AA,", "parts 5 0 AA,B", "parts 5 0 AA.BB", "parts 5 0 ..", "parts 5 0 .,AA", "parts 256 0 AA", "parts 5 0 aa,Bb", "parts 5 0 AA BB", "parts 5 256 .",
            "walk", "walk EB52 00", "walk EB5", "walk ", "walk -", "walk eb520506f2aaee20e7ed", "tray", "tray ", "tray 0", "tray 00 00", "content", "content ", "content 7f0102f01401", "time", "time ", "time 00 00", "plain", "plain 5", "plain 5 ", "plain 256 AA", "plain -1 AA", "plain 5 A", "plain 5 AA BB",
            "writetime", "writetime 1 999", "writetime 1 999 6 6", "writetime 4294967296 0 6", "writetime 1 65536 6", "writetime -1 0 6", "writetime 1 0 1000001", "writetime 1 0 1000000", "writetime - 0 6",
            "writecontent", "writecontent 1 2 3", "c", "c 8", "c 8 00", "c 8 00 60 60", "c 256 00 60", "c 8 0 60", "c 8 - 60", "c 8  60", "c 8 00 -", "C 8 00 60",
            "seal ", "restart ", "Restart", "hello", "what?", "what? crc", "# crc 00", "-", "0", "crc 00\r", "crc,00",
        ] {
            self.say(line);
        }
        self.say(format!("nothing {}", "x".repeat(3000)));
        self.say(format!("crc {}", "A".repeat(3001)));
        self.say(format!("levels 8 {}4 40", "0".repeat(500)));
        self.say(format!("levels 8 {} 40", "9".repeat(500)));
    }
}

fn main() -> io::Result<()> {
    let mut cases = Cases { dice: Dice(20_261_118), lines: Vec::new() };
    cases.crcs();
    cases.levels();
    cases.line_edges();
    cases.every_line();
    cases.line_refusals();
    cases.tolerance();
    cases.run_ins();
    cases.other_lines();
    cases.cuts();
    cases.parts();
    cases.walks();
    cases.trays();
    cases.times();
    cases.plains();
    cases.contents();
    cases.write_contents();
    cases.frames();
    cases.runs();
    cases.c_calls();
    cases.malformed();
    let mut out = BufWriter::new(io::stdout().lock());
    let mut kinds: BTreeMap<&str, (usize, usize)> = BTreeMap::new();
    for line in &cases.lines {
        writeln!(out, "{line}")?;
        let kind = kinds.entry(line.split(' ').next().unwrap_or("")).or_default();
        kind.0 += 1;
        kind.1 += line.len() + 1;
    }
    for (kind, (count, bytes)) in kinds.iter().filter(|(_, (count, _))| *count > 3) {
        eprintln!("{kind:<14}{count:>6} cases{bytes:>10} bytes");
    }
    eprintln!("{} cases", cases.lines.len());
    out.flush()
}
