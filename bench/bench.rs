//! Nanoseconds a line: the proved library beside the independent implementation in Rust and plain C, in one run.
//!
//! Each row is measured in short batches, one implementation after the other, many times over, and the fastest batch counts: so
//! what else runs on the machine hits all alike. Every implementation must answer alike on the lines measured, or nothing is
//! measured.

use independent::blocks::{Room, Sending};
use independent::lines::{read_bytes, Depth, Levels, System};
use independent::reader::Reader;
use std::hint::black_box;
use std::time::Instant;

const DEPTH: u32 = 10;
const COUNTS: [usize; 3] = [1440, 1920, 3840];
const TRAY: usize = 1630;
/// Batches for each implementation and row, and the calls in one.
const BATCHES: usize = 1500;
const CALLS: u32 = 100;

#[repr(C)]
#[derive(Clone, Copy, Debug, PartialEq)]
struct LineReading {
    refusal: u32,
    place: u64,
    length: u64,
}

#[repr(C)]
#[derive(Clone, Copy, Debug, PartialEq)]
struct OfferReading {
    refusal: u32,
    place: u64,
    length: u64,
    used: u64,
    skipped: u64,
}

type ReadLine = unsafe extern "C" fn(u32, *const u8, usize, *mut u8, usize) -> LineReading;
type OfferRounds = unsafe extern "C" fn(u32, *const u16, usize, u32, *mut u8, usize) -> OfferReading;

#[rustfmt::skip]
unsafe extern "C" {
    fn rueladle_read_line(depth: u32, samples: *const u8, bytes: usize, payload: *mut u8, room: usize) -> LineReading;
    fn rueladle_offer_rounds(depth: u32, line: *const u16, count: usize, rounds: u32, tray: *mut u8, room: usize) -> OfferReading;
    fn c_read_line_gcc(depth: u32, samples: *const u8, bytes: usize, payload: *mut u8, room: usize) -> LineReading;
    fn c_offer_rounds_gcc(depth: u32, line: *const u16, count: usize, rounds: u32, tray: *mut u8, room: usize) -> OfferReading;
    #[cfg(clang)]
    fn c_read_line_clang(depth: u32, samples: *const u8, bytes: usize, payload: *mut u8, room: usize) -> LineReading;
    #[cfg(clang)]
    fn c_offer_rounds_clang(depth: u32, line: *const u16, count: usize, rounds: u32, tray: *mut u8, room: usize) -> OfferReading;
}

/// The implementations, ours first; the independent one is second.
enum Made {
    Foreign(ReadLine, OfferRounds),
    Independent,
}

fn implementations() -> Vec<(&'static str, Made)> {
    vec![
        ("Rueladle", Made::Foreign(rueladle_read_line, rueladle_offer_rounds)),
        ("Rust", Made::Independent),
        ("C, gcc", Made::Foreign(c_read_line_gcc, c_offer_rounds_gcc)),
        #[cfg(clang)]
        ("C, clang", Made::Foreign(c_read_line_clang, c_offer_rounds_clang)),
    ]
}

/// Reads a line off its bytes, as the independent implementation does.
fn read_independent(samples: &[u8], payload: &mut [u8]) -> LineReading {
    match read_bytes(DEPTH, samples, payload) {
        Ok(length) => LineReading { refusal: 0, place: 0, length: length.unwrap_or(0) as u64 },
        Err(e) => LineReading { refusal: e.number.into(), place: e.place, length: 0 },
    }
}

/// Makes a reader and offers it a line so many times.
fn offer_independent(line: &[u16], rounds: u32, tray: &mut [u8]) -> OfferReading {
    let mut last = OfferReading { refusal: 0, place: 0, length: 0, used: 0, skipped: 0 };
    let system = System::OneElseTwo(Levels::any(Depth::from_bits(DEPTH).unwrap()));
    let mut reader = Reader::new(system, &[1, 2, 3]).unwrap();
    for frame in 0..rounds {
        last = match reader.offer(frame.into(), line, tray) {
            Ok(a) => OfferReading {
                refusal: 0,
                place: 0,
                length: a.length as u64,
                used: a.used as u64,
                skipped: a.skipped as u64,
            },
            Err(e) => OfferReading { refusal: e.number.into(), place: e.place, length: 0, used: 0, skipped: 0 },
        };
    }
    last
}

impl Made {
    fn read(&self, samples: &[u8], payload: &mut [u8]) -> LineReading {
        match self {
            // Safe: the pointers and lengths are those of two slices that don't overlap.
            Made::Foreign(read, _) => unsafe {
                read(DEPTH, samples.as_ptr(), samples.len(), payload.as_mut_ptr(), payload.len())
            },
            Made::Independent => read_independent(samples, payload),
        }
    }

    fn offer(&self, line: &[u16], rounds: u32, tray: &mut [u8]) -> OfferReading {
        match self {
            // Safe: the pointers and lengths are those of two slices that don't overlap.
            Made::Foreign(_, offer) => unsafe {
                offer(DEPTH, line.as_ptr(), line.len(), rounds, tray.as_mut_ptr(), tray.len())
            },
            Made::Independent => offer_independent(line, rounds, tray),
        }
    }
}

/// The kinds of lines measured.
const KINDS: [&str; 3] = ["1X", "2X", "unmarked"];

/// A payload of blocks: in 1X one message of a watched number; in 2X two of watched numbers and one of another.
fn payload(kind: &str) -> Vec<u8> {
    let block = |number, text: &[u8], room| Sending::cut(number, 3, text, room).unwrap().block(0).unwrap();
    let mut bytes = vec![0xEB, 0x52];
    if kind == "1X" {
        bytes.extend(block(1, b"twenty-one bytes here", Room::OneX));
        bytes.resize(30, 0);
    } else {
        bytes.extend(block(2, b"fifteen of them", Room::TwoX));
        bytes.extend(block(9, b"unwatched 10", Room::TwoX));
        bytes.extend(block(3, b"another 10", Room::TwoX));
        bytes.resize(60, 0);
    }
    bytes
}

/// A line of a kind: drawn, or a ramp of luma that carries nothing.
fn line(kind: &str, count: usize) -> Vec<u16> {
    let mut line: Vec<u16> = (0..count).map(|i| (64 + i * 7919 % 877) as u16).collect();
    if kind != "unmarked" {
        let system = System::OneElseTwo(Levels::any(Depth::from_bits(DEPTH).unwrap()));
        system.draw(&payload(kind), &mut line).unwrap();
    }
    line
}

/// Nanoseconds for one of the calls of a batch.
fn batch(calls: impl FnOnce()) -> f64 {
    let from = Instant::now();
    calls();
    from.elapsed().as_nanos() as f64 / f64::from(CALLS)
}

/// The fastest batch of each implementation, in turns.
fn fastest(all: &[(&str, Made)], mut calls: impl FnMut(&Made)) -> Vec<f64> {
    let mut best = vec![f64::MAX; all.len()];
    for _ in 0..BATCHES {
        for (best, (_, made)) in best.iter_mut().zip(all) {
            *best = best.min(batch(|| calls(made)));
        }
    }
    best
}

/// Every implementation must answer and write alike.
fn alike<T: PartialEq + std::fmt::Debug>(what: &str, all: &[(&str, Made)], run: impl Fn(&Made) -> T) -> T {
    let want = run(&all[0].1);
    for (name, made) in &all[1..] {
        let got = run(made);
        assert!(got == want, "{what}: {name} answers {got:?}, Rueladle {want:?}");
    }
    want
}

fn print_row(what: &str, times: &[f64]) {
    let cells: Vec<String> = times.iter().map(|t| format!("{t:.0}")).collect();
    let ratios: Vec<String> = times[1..].iter().map(|t| format!("{:.2}", times[0] / t)).collect();
    println!("| {what} | {} | {} |", cells.join(" | "), ratios.join(" | "));
}

fn main() {
    let all = implementations();
    let names: Vec<&str> = all.iter().map(|(name, _)| *name).collect();
    let ratios: Vec<String> = names[1..].iter().map(|name| format!("to {name}")).collect();
    println!("| Nanoseconds a line | {} | {} |", names.join(" | "), ratios.join(" | "));
    println!("|---|{}", "---|".repeat(names.len() + ratios.len()));
    for kind in KINDS {
        for count in COUNTS {
            let samples: Vec<u8> = line(kind, count).iter().flat_map(|s| s.to_le_bytes()).collect();
            let answer = alike(&format!("read {kind} {count}"), &all, |made| {
                let mut out = [0xA5; 60];
                (made.read(&samples, &mut out), out.to_vec())
            });
            assert_eq!(answer.0.length as usize, if kind == "unmarked" { 0 } else { payload(kind).len() });
            let mut out = [0; 60];
            let times = fastest(&all, |made| {
                for _ in 0..CALLS {
                    black_box(made.read(black_box(&samples), black_box(&mut out)));
                }
            });
            print_row(&format!("read, {kind}, {count} samples"), &times);
        }
    }
    for kind in KINDS {
        for count in COUNTS {
            let line = line(kind, count);
            for rounds in [0, 1, 3] {
                alike(&format!("offer {kind} {count}"), &all, |made| {
                    let mut tray = [0xA5; TRAY];
                    (made.offer(&line, rounds, &mut tray), tray.to_vec())
                });
            }
            let mut tray = [0; TRAY];
            let times = fastest(&all, |made| {
                black_box(made.offer(black_box(&line), CALLS, black_box(&mut tray)));
            });
            print_row(&format!("offer, {kind}, {count} samples"), &times);
        }
    }
}
