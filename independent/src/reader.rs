//! The reader (docs/READER.md): takes lines frame by frame, gathers parts, hands whole messages over.

use crate::blocks::{crc, Block, Entry, Walk, MESSAGE_MOST, PART_MOST};
use crate::lines::{System, PAYLOAD_ROOM};
use crate::tray::{Fault, Writer, TRAY_LEAST};
use crate::{refused, Refusal};

const WATCH_MOST: usize = 8;
/// A part stays for so many frames.
const STAYS: u64 = 255;

#[derive(Clone, Copy)]
struct Part {
    frame: u64,
    length: u8,
    bytes: [u8; PART_MOST],
    message_crc: u32,
}

/// What is gathered for one watched number.
struct Slot {
    number: u8,
    version: u8,
    last: u8,
    parts: [Option<Part>; 4],
}

/// What a block comes to.
enum Came {
    Silent,
    Message { bytes: [u8; MESSAGE_MOST], length: usize },
    Faulty,
}

impl Slot {
    fn new(number: u8) -> Slot {
        Slot { number, version: 0, last: 0, parts: [None; 4] }
    }

    fn held(&self) -> usize {
        self.parts.iter().flatten().count()
    }

    /// Takes a block of this slot's number, read at a frame.
    fn take(&mut self, block: &Block, frame: u64) -> Came {
        if block.version != self.version || block.last != self.last {
            self.parts = [None; 4];
            self.version = block.version;
            self.last = block.last;
        }
        for part in &mut self.parts {
            if part.is_some_and(|part| frame - part.frame > STAYS) {
                *part = None;
            }
        }
        let mut bytes = [0; PART_MOST];
        bytes[..block.body.len()].copy_from_slice(block.body);
        self.parts[usize::from(block.part)] = Some(Part {
            frame,
            length: block.body.len() as u8,
            bytes,
            message_crc: block.message_crc.unwrap_or(0),
        });
        if self.held() <= usize::from(self.last) {
            return Came::Silent;
        }
        self.join()
    }

    /// Joins and drops all parts.
    fn join(&mut self) -> Came {
        let mut bytes = [0; MESSAGE_MOST];
        let mut length = 0;
        let mut message_crc = 0;
        for part in self.parts.iter().flatten() {
            let end = length + usize::from(part.length);
            bytes[length..end].copy_from_slice(&part.bytes[..usize::from(part.length)]);
            length = end;
            message_crc = part.message_crc;
        }
        self.parts = [None; 4];
        if self.last > 0 && crc(&bytes[..length]) != message_crc {
            return Came::Faulty;
        }
        Came::Message { bytes, length }
    }
}

/// What a taken offer came to.
#[derive(Clone, Copy, Debug, PartialEq, Eq)]
pub struct Answer {
    /// The payload's length, 0 without a run-in.
    pub length: usize,
    /// The bytes used in the tray.
    pub used: usize,
    /// Blocks that were read and are not watched.
    pub skipped: usize,
}

pub struct Reader {
    system: System,
    slots: Vec<Slot>,
    frame: Option<u64>,
}

impl Reader {
    pub fn new(system: System, watch: &[u8]) -> Result<Reader, Refusal> {
        if watch.is_empty() {
            return refused(10, 0);
        }
        for (i, number) in watch.iter().enumerate() {
            if *number == 0 || watch[..i].contains(number) {
                return refused(10, i);
            }
        }
        if watch.len() > WATCH_MOST {
            return refused(10, WATCH_MOST);
        }
        let slots = watch.iter().map(|&number| Slot::new(number)).collect();
        Ok(Reader { system, slots, frame: None })
    }

    /// Takes the line of a frame, and hands what became whole over in the tray.
    pub fn offer(&mut self, frame: u64, line: &[u16], tray: &mut [u8]) -> Result<Answer, Refusal> {
        let n = self.system.test(line)?;
        if self.frame.is_some_and(|last| frame < last) {
            return refused(3, 0);
        }
        if tray.len() < TRAY_LEAST {
            return refused(4, tray.len());
        }
        self.frame = Some(frame);
        let mut payload = [0; PAYLOAD_ROOM];
        let length = self.system.found(line, n, &mut payload).unwrap_or(0);
        let mut writer = Writer::new(tray);
        let skipped = self.follow(&payload[..length], frame, &mut writer);
        Ok(Answer { length, used: writer.finish(), skipped })
    }

    /// Follows the entries of a payload; how many blocks are not watched.
    fn follow(&mut self, payload: &[u8], frame: u64, tray: &mut Writer) -> usize {
        let mut skipped = 0;
        for entry in Walk::new(payload) {
            let (block, place) = match entry {
                Entry::Block { block, place } => (block, place as u8),
                Entry::Fault { cause, number, place } => {
                    tray.fault(Fault { layer: 1, cause, number, place: place as u8 });
                    continue;
                }
            };
            let number = block.number;
            let Some(slot) = self.slots.iter_mut().find(|slot| slot.number == number) else {
                skipped += 1;
                continue;
            };
            match slot.take(&block, frame) {
                Came::Silent => {}
                Came::Message { bytes, length } => {
                    tray.message(number, block.version, length).copy_from_slice(&bytes[..length]);
                }
                Came::Faulty => tray.fault(Fault { layer: 2, cause: 1, number, place }),
            }
        }
        skipped
    }

    /// Drops every part, and forgets the frame number.
    pub fn restart(&mut self) {
        for slot in &mut self.slots {
            slot.parts = [None; 4];
        }
        self.frame = None;
    }

    /// How many parts are held for a number, none where it isn't watched.
    pub fn held(&self, number: u8) -> Option<usize> {
        self.slots.iter().find(|slot| slot.number == number).map(Slot::held)
    }
}
