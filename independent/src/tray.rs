//! Trays (docs/TRAY.md): what an offer hands over, written and read back.

use crate::{refused, Refusal};

/// The least room that an offer takes.
pub const TRAY_LEAST: usize = 1630;
const MESSAGES_MOST: usize = 8;
const ENTRIES_MOST: usize = 9;

#[derive(Clone, Copy, Debug, Default, PartialEq, Eq)]
pub struct Fault {
    pub layer: u8,
    pub cause: u8,
    pub number: u8,
    /// Where the block begins in its payload.
    pub place: u8,
}

/// An entry of a tray; `at` is the place of its first byte there.
#[derive(Clone, Copy, Debug, PartialEq, Eq)]
pub enum Entry<'a> {
    Message { number: u8, version: u8, bytes: &'a [u8], at: usize },
    Fault { fault: Fault, at: usize },
}

/// Writes one offer's entries into a tray of at least `TRAY_LEAST` bytes.
pub struct Writer<'a> {
    tray: &'a mut [u8],
    messages: u8,
    end: usize,
    faults: [Fault; ENTRIES_MOST],
    fault_count: usize,
}

impl<'a> Writer<'a> {
    pub fn new(tray: &'a mut [u8]) -> Writer<'a> {
        Writer { tray, messages: 0, end: 1, faults: [Fault::default(); ENTRIES_MOST], fault_count: 0 }
    }

    /// Begins a message of so many bytes, and lends the room for them.
    pub fn message(&mut self, number: u8, version: u8, length: usize) -> &mut [u8] {
        let from = self.end + 3;
        self.tray[self.end..from].copy_from_slice(&[number, version, length as u8]);
        self.messages += 1;
        self.end = from + length;
        &mut self.tray[from..self.end]
    }

    pub fn fault(&mut self, fault: Fault) {
        self.faults[self.fault_count] = fault;
        self.fault_count += 1;
    }

    /// Writes the counts and the faults; the bytes used.
    pub fn finish(self) -> usize {
        self.tray[0] = self.messages;
        self.tray[self.end] = self.fault_count as u8;
        let mut end = self.end + 1;
        for fault in &self.faults[..self.fault_count] {
            let bytes = [fault.layer, fault.cause, fault.number, fault.place];
            self.tray[end..end + 4].copy_from_slice(&bytes);
            end += 4;
        }
        end
    }
}

/// Goes over the bytes of a tray from the left.
struct Cursor<'a> {
    bytes: &'a [u8],
    at: usize,
}

impl<'a> Cursor<'a> {
    /// The next byte, if it passes a test.
    fn byte(&mut self, right: impl Fn(u8) -> bool) -> Result<u8, Refusal> {
        match self.bytes.get(self.at) {
            Some(&byte) if right(byte) => {
                self.at += 1;
                Ok(byte)
            }
            // A lacking byte has the length as its place, which is where the cursor stands.
            _ => refused(13, self.at),
        }
    }

    fn take(&mut self, count: usize) -> Result<&'a [u8], Refusal> {
        match self.bytes.get(self.at..self.at + count) {
            Some(bytes) => {
                self.at += count;
                Ok(bytes)
            }
            None => refused(13, self.bytes.len()),
        }
    }

    fn message(&mut self) -> Result<Entry<'a>, Refusal> {
        let at = self.at;
        let number = self.byte(|b| b > 0)?;
        let version = self.byte(|b| b <= 15)?;
        let length = self.byte(|b| b <= 200)?;
        let bytes = self.take(usize::from(length))?;
        Ok(Entry::Message { number, version, bytes, at })
    }

    fn fault(&mut self) -> Result<Entry<'a>, Refusal> {
        let at = self.at;
        let layer = self.byte(|b| b == 1 || b == 2)?;
        let cause_most = if layer == 1 { 4 } else { 1 };
        let cause = self.byte(|b| (1..=cause_most).contains(&b))?;
        let number = self.byte(|b| b > 0)?;
        let place = self.byte(|b| (2..=59).contains(&b))?;
        Ok(Entry::Fault { fault: Fault { layer, cause, number, place }, at })
    }
}

/// Reads the used part of a tray.
pub fn read_tray(bytes: &[u8]) -> Result<Vec<Entry<'_>>, Refusal> {
    let mut cursor = Cursor { bytes, at: 0 };
    let mut entries = Vec::new();
    let messages = usize::from(cursor.byte(|b| usize::from(b) <= MESSAGES_MOST)?);
    for _ in 0..messages {
        entries.push(cursor.message()?);
    }
    let faults = cursor.byte(|b| messages + usize::from(b) <= ENTRIES_MOST)?;
    for _ in 0..faults {
        entries.push(cursor.fault()?);
    }
    if cursor.at < bytes.len() {
        return refused(13, cursor.at);
    }
    Ok(entries)
}
