//! Blocks (docs/BLOCKS.md): the CRC, sendings, their wire form, and the walk over a payload.

use crate::{refused, Refusal};

/// The most bytes that a part has.
pub const PART_MOST: usize = 51;
/// The most bytes that the last of several parts has.
pub const LAST_MOST: usize = 47;
/// The most bytes of a message.
pub const MESSAGE_MOST: usize = 200;
/// The bytes of a block beside its body.
const FRAMING: usize = 7;
/// The bytes of one CRC.
const CRC_BYTES: usize = 4;

const POLYNOMIAL: u32 = 0x04C1_1DB7;

/// What eight steps of the register do to each byte shifted out of it.
const STEPS: [u32; 256] = {
    let mut steps = [0; 256];
    let mut byte = 0;
    while byte < 256 {
        let mut register = (byte as u32) << 24;
        let mut bit = 0;
        while bit < 8 {
            let carry = register >> 31;
            register = register << 1 ^ carry * POLYNOMIAL;
            bit += 1;
        }
        steps[byte] = register;
        byte += 1;
    }
    steps
};

/// The CRC of some bytes.
pub fn crc(bytes: &[u8]) -> u32 {
    bytes.iter().fold(u32::MAX, |register, &byte| {
        register << 8 ^ STEPS[((register >> 24) as u8 ^ byte) as usize]
    })
}

/// The room that a payload has for blocks.
#[derive(Clone, Copy, Debug, PartialEq, Eq)]
pub enum Room {
    OneX,
    TwoX,
}

impl Room {
    pub fn bytes(self) -> usize {
        match self {
            Room::OneX => 28,
            Room::TwoX => 58,
        }
    }
}

/// A message in its parts, as they go out.
#[derive(Clone, Debug, PartialEq, Eq)]
pub struct Sending {
    number: u8,
    version: u8,
    parts: Vec<Vec<u8>>,
}

impl Sending {
    /// Cuts a message for a room.
    pub fn cut(number: u8, version: u8, message: &[u8], room: Room) -> Result<Sending, Refusal> {
        let part_most = room.bytes() - FRAMING;
        let last_most = part_most - CRC_BYTES;
        let count = if message.len() <= part_most {
            1
        } else {
            let enough = |&n: &usize| message.len() <= (n - 1) * part_most + last_most;
            match (2..=4).find(enough) {
                Some(n) => n,
                None => return refused(7, message.len()),
            }
        };
        test_names(number, version)?;
        let mut parts = Vec::with_capacity(count);
        let mut rest = message;
        for _ in 1..count {
            let (part, behind) = rest.split_at(rest.len().min(part_most));
            parts.push(part.to_vec());
            rest = behind;
        }
        parts.push(rest.to_vec());
        Ok(Sending { number, version, parts })
    }

    /// Takes given parts as they are.
    pub fn given(number: u8, version: u8, parts: &[Vec<u8>]) -> Result<Sending, Refusal> {
        for (i, part) in parts.iter().enumerate() {
            let last_of_several = i > 0 && i + 1 == parts.len();
            if part.len() > if last_of_several { LAST_MOST } else { PART_MOST } {
                return refused(7, part.len());
            }
        }
        test_names(number, version)?;
        if !(1..=4).contains(&parts.len()) {
            return refused(8, 0);
        }
        Ok(Sending { number, version, parts: parts.to_vec() })
    }

    pub fn parts(&self) -> &[Vec<u8>] {
        &self.parts
    }

    /// The wire form of a block.
    pub fn block(&self, index: usize) -> Result<Vec<u8>, Refusal> {
        let last = self.parts.len() - 1;
        let Some(body) = self.parts.get(index) else {
            return refused(8, 0);
        };
        let message_crc = index == last && last > 0;
        let count = body.len() + FRAMING - 2 + if message_crc { CRC_BYTES } else { 0 };
        let mut bytes = vec![
            self.number,
            count as u8,
            self.version << 4 | (index as u8) << 2 | last as u8,
        ];
        bytes.extend_from_slice(body);
        if message_crc {
            bytes.extend(crc(&self.parts.concat()).to_be_bytes());
        }
        bytes.extend(crc(&bytes).to_be_bytes());
        Ok(bytes)
    }
}

fn test_names(number: u8, version: u8) -> Result<(), Refusal> {
    if number == 0 || version > 15 {
        return refused(8, 0);
    }
    Ok(())
}

/// A block that was read, without its CRC_32.
#[derive(Clone, Copy, Debug, PartialEq, Eq)]
pub struct Block<'a> {
    pub number: u8,
    pub version: u8,
    pub part: u8,
    pub last: u8,
    pub body: &'a [u8],
    pub message_crc: Option<u32>,
}

/// What the walk finds at a place of a payload.
#[derive(Clone, Copy, Debug, PartialEq, Eq)]
pub enum Entry<'a> {
    Block { block: Block<'a>, place: usize },
    Fault { cause: u8, number: u8, place: usize },
}

/// The walk over a payload.
pub struct Walk<'a> {
    payload: &'a [u8],
    place: usize,
}

impl<'a> Walk<'a> {
    pub fn new(payload: &'a [u8]) -> Walk<'a> {
        Walk { payload, place: 2 }
    }

    /// The block at the front of some bytes and its length, or a fault's cause and where the next begins.
    fn block(bytes: &'a [u8]) -> Result<(Block<'a>, usize), (u8, Option<usize>)> {
        let count = match bytes.get(1) {
            Some(&count) if count >= 5 => usize::from(count),
            _ => return Err((1, None)),
        };
        let end = 2 + count;
        if end > bytes.len() {
            return Err((1, None));
        }
        let (covered, sum) = bytes[..end].split_at(end - CRC_BYTES);
        if crc(covered) != big_endian(sum) {
            return Err((2, None));
        }
        let (number, names, mut body) = (bytes[0], bytes[2], &covered[3..]);
        let (version, part, last) = (names >> 4, names >> 2 & 3, names & 3);
        if part > last {
            return Err((3, Some(end)));
        }
        let mut message_crc = None;
        if last > 0 && part == last {
            if count < 9 {
                return Err((4, Some(end)));
            }
            let (front, sum) = body.split_at(body.len() - CRC_BYTES);
            body = front;
            message_crc = Some(big_endian(sum));
        }
        Ok((Block { number, version, part, last, body, message_crc }, end))
    }
}

impl<'a> Iterator for Walk<'a> {
    type Item = Entry<'a>;

    fn next(&mut self) -> Option<Entry<'a>> {
        let place = self.place;
        let bytes = self.payload.get(place..)?;
        let number = *bytes.first()?;
        if number == 0 {
            return None;
        }
        match Walk::block(bytes) {
            Ok((block, length)) => {
                self.place += length;
                Some(Entry::Block { block, place })
            }
            Err((cause, next)) => {
                // Without a next block the walk goes to the end.
                self.place += next.unwrap_or(bytes.len());
                Some(Entry::Fault { cause, number, place })
            }
        }
    }
}

fn big_endian(bytes: &[u8]) -> u32 {
    bytes.iter().fold(0, |value, &byte| value << 8 | u32::from(byte))
}
