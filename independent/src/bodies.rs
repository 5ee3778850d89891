//! Message bodies (docs/BODIES.md): content IDs and presentation times, read and written; plain bytes.

use crate::{refused, Refusal};

/// A moment.
#[derive(Clone, Copy, Debug, PartialEq, Eq)]
pub struct Time {
    pub seconds: u32,
    pub millis: u16,
}

/// A content by its identifier.
#[derive(Clone, Copy, Debug, PartialEq, Eq)]
pub struct Content<'a> {
    pub kind: u8,
    pub valid_until: Option<Time>,
    pub identifier: &'a [u8],
}

/// A broadcast channel.
#[derive(Clone, Copy, Debug, PartialEq, Eq)]
pub struct Channel {
    pub bsid: u16,
    pub major: u16,
    pub minor: u16,
}

/// What stands on the screen.
#[derive(Clone, Copy, Debug, PartialEq, Eq)]
pub struct ContentId<'a> {
    pub content: Option<Content<'a>>,
    pub channel: Option<Channel>,
}

const EIDR: u8 = 1;
const AD_ID: u8 = 2;
const TYPE_MOST: u8 = 63;
const MILLIS_MOST: u16 = 999;
const CHANNEL_MOST: u16 = 1023;
const TIME_BYTES: usize = 6;
const CHANNEL_BYTES: usize = 5;

/// Numbers whose bodies are plain bytes.
pub fn is_plain(number: u8) -> bool {
    number > 2
}

/// Some neighbouring bytes of a body, or a refusal where one of them lacks.
fn bytes(body: &[u8], from: usize, count: usize) -> Result<&[u8], Refusal> {
    match body.get(from..from + count) {
        Some(bytes) => Ok(bytes),
        None => refused(9, body.len()),
    }
}

/// The six bytes of a moment at a place: seconds, six reserved bits, milliseconds.
fn time_at(body: &[u8], at: usize) -> Result<Time, Refusal> {
    let b = bytes(body, at, TIME_BYTES)?;
    let millis = u16::from_be_bytes([b[4], b[5]]) & 0x3FF;
    if millis > MILLIS_MOST {
        return refused(9, at + 4);
    }
    Ok(Time { seconds: u32::from_be_bytes([b[0], b[1], b[2], b[3]]), millis })
}

fn ends_at(body: &[u8], end: usize) -> Result<(), Refusal> {
    if body.len() > end {
        return refused(9, end);
    }
    Ok(())
}

/// Reads the body of a presentation time.
pub fn read_time(body: &[u8]) -> Result<Time, Refusal> {
    let time = time_at(body, 0)?;
    ends_at(body, TIME_BYTES)?;
    Ok(time)
}

fn length_fits(kind: u8, length: usize) -> bool {
    match kind {
        EIDR => length == 12,
        AD_ID => length == 11 || length == 12,
        _ => length <= 255,
    }
}

/// The index of the first byte that an identifier of this type may not have.
fn wrong_character(kind: u8, identifier: &[u8]) -> Option<usize> {
    if kind != AD_ID {
        return None;
    }
    identifier.iter().position(|b| !b.is_ascii_alphanumeric())
}

/// The content of a body, and where it ends.
fn content_in(body: &[u8]) -> Result<(Content<'_>, usize), Refusal> {
    let first = bytes(body, 1, 1)?[0];
    let kind = first & 0x3F;
    let length = usize::from(bytes(body, 2, 1)?[0]);
    if !length_fits(kind, length) {
        return refused(9, 2);
    }
    let (valid_until, from) = if first & 0x40 != 0 {
        (Some(time_at(body, 3)?), 3 + TIME_BYTES)
    } else {
        (None, 3)
    };
    let there = &body[from..body.len().min(from + length)];
    if let Some(index) = wrong_character(kind, there) {
        return refused(9, from + index);
    }
    let identifier = bytes(body, from, length)?;
    Ok((Content { kind, valid_until, identifier }, from + length))
}

fn channel_at(body: &[u8], at: usize) -> Result<Channel, Refusal> {
    let b = bytes(body, at, CHANNEL_BYTES)?;
    let numbers = u32::from_be_bytes([0, b[2], b[3], b[4]]);
    Ok(Channel {
        bsid: u16::from_be_bytes([b[0], b[1]]),
        major: (numbers >> 10 & 0x3FF) as u16,
        minor: (numbers & 0x3FF) as u16,
    })
}

/// Reads the body of a content ID.
pub fn read_content(body: &[u8]) -> Result<ContentId<'_>, Refusal> {
    let flags = bytes(body, 0, 1)?[0];
    if flags & 0xC0 == 0 {
        return refused(9, 0);
    }
    let mut end = 1;
    let mut content = None;
    if flags & 0x80 != 0 {
        let (found, behind) = content_in(body)?;
        content = Some(found);
        end = behind;
    }
    let mut channel = None;
    if flags & 0x40 != 0 {
        channel = Some(channel_at(body, end)?);
        end += CHANNEL_BYTES;
    }
    ends_at(body, end)?;
    Ok(ContentId { content, channel })
}

fn time_bytes(time: Time) -> [u8; TIME_BYTES] {
    let [s0, s1, s2, s3] = time.seconds.to_be_bytes();
    let [m0, m1] = time.millis.to_be_bytes();
    [s0, s1, s2, s3, 0xFC | m0, m1]
}

/// Writes the body of a presentation time to the front of an output; its length.
pub fn write_time(time: Time, out: &mut [u8]) -> Result<usize, Refusal> {
    if out.len() < TIME_BYTES {
        return refused(4, out.len());
    }
    if time.millis > MILLIS_MOST {
        return refused(9, 4);
    }
    out[..TIME_BYTES].copy_from_slice(&time_bytes(time));
    Ok(TIME_BYTES)
}

/// Where the parts of a content ID's body lie: the identifier, the channel, the end.
fn places(message: &ContentId) -> (usize, usize, usize) {
    let (identifier, channel) = match &message.content {
        Some(content) => {
            let from = if content.valid_until.is_some() { 3 + TIME_BYTES } else { 3 };
            (from, from + content.identifier.len())
        }
        None => (1, 1),
    };
    let end = if message.channel.is_some() { channel + CHANNEL_BYTES } else { channel };
    (identifier, channel, end)
}

/// The smallest place at which a content has a value that no body can have.
fn wrong_content(content: &Content, identifier_at: usize) -> Option<usize> {
    if content.kind > TYPE_MOST {
        return Some(1);
    }
    if !length_fits(content.kind, content.identifier.len()) {
        return Some(2);
    }
    if content.valid_until.is_some_and(|time| time.millis > MILLIS_MOST) {
        return Some(7);
    }
    wrong_character(content.kind, content.identifier).map(|index| identifier_at + index)
}

fn wrong_channel(channel: &Channel, at: usize) -> Option<usize> {
    if channel.major > CHANNEL_MOST {
        return Some(at + 2);
    }
    (channel.minor > CHANNEL_MOST).then_some(at + 3)
}

/// Writes the body of a content ID to the front of an output; its length.
pub fn write_content(message: &ContentId, out: &mut [u8]) -> Result<usize, Refusal> {
    let (identifier_at, channel_at, end) = places(message);
    if out.len() < end {
        return refused(4, out.len());
    }
    let wrong = match (&message.content, &message.channel) {
        (None, None) => Some(0),
        (content, channel) => content
            .as_ref()
            .and_then(|content| wrong_content(content, identifier_at))
            .or_else(|| channel.as_ref().and_then(|channel| wrong_channel(channel, channel_at))),
    };
    if let Some(place) = wrong {
        return refused(9, place);
    }
    out[0] = 0x3F;
    if let Some(content) = &message.content {
        out[0] |= 0x80;
        out[1] = 0x80 | content.kind;
        out[2] = content.identifier.len() as u8;
        if let Some(time) = content.valid_until {
            out[1] |= 0x40;
            out[3..3 + TIME_BYTES].copy_from_slice(&time_bytes(time));
        }
        out[identifier_at..channel_at].copy_from_slice(content.identifier);
    }
    if let Some(channel) = &message.channel {
        out[0] |= 0x40;
        let numbers = 0xF0_0000 | u32::from(channel.major) << 10 | u32::from(channel.minor);
        out[channel_at..channel_at + 2].copy_from_slice(&channel.bsid.to_be_bytes());
        out[channel_at + 2..end].copy_from_slice(&numbers.to_be_bytes()[1..]);
    }
    Ok(end)
}
