//! Answers test cases: one a line on standard input, one answer a line (docs/VECTORS.md).

use independent::blocks::{crc, Entry, Room, Sending, Walk};
use independent::bodies::{
    is_plain, read_content, read_time, write_content, write_time, Channel, Content, ContentId, Time,
};
use independent::frame::{OpenFrame, SealedFrame};
use independent::lines::{read_bytes, Depth, Levels, System, PAYLOAD_ROOM};
use independent::reader::Reader;
use independent::tray::{self, read_tray};
use independent::words::{
    byte, count, hex, hex_list, long, number, numbers, optional, samples, short, show_hex,
    show_hex_list, show_refusal, show_samples,
};
use independent::Refusal;
use std::io::{self, BufRead, Write};

/// What an answer says, or the refusal.
type Said = Result<String, Refusal>;

/// What a tray or an output holds before a call.
const FILLING: u8 = 0xAA;

/// The three line systems of the cases.
#[derive(Clone, Copy)]
enum Name {
    OneX,
    TwoX,
    OneElseTwo,
}

impl Name {
    fn parse(word: &[u8]) -> Option<Name> {
        match word {
            b"1x" => Some(Name::OneX),
            b"2x" => Some(Name::TwoX),
            b"1x-else-2x" => Some(Name::OneElseTwo),
            _ => None,
        }
    }

    /// A system that draws with these levels.
    fn with_levels(self, bits: u32, zero: u16, one: u16) -> Result<System, Refusal> {
        let depth = Depth::from_bits(bits)?;
        match self {
            Name::OneX => Levels::new(depth, zero, one).map(System::OneX),
            Name::TwoX => Ok(System::TwoX(depth)),
            Name::OneElseTwo => Levels::new(depth, zero, one).map(System::OneElseTwo),
        }
    }

    /// A system that is only read by.
    fn reading(self, bits: u32) -> Result<System, Refusal> {
        let depth = Depth::from_bits(bits)?;
        Ok(match self {
            Name::OneX => System::OneX(Levels::any(depth)),
            Name::TwoX => System::TwoX(depth),
            Name::OneElseTwo => System::OneElseTwo(Levels::any(depth)),
        })
    }
}

/// What cases leave to those behind them.
#[derive(Default)]
struct Session {
    open: Option<OpenFrame>,
    sealed: Option<SealedFrame>,
    reader: Option<Reader>,
}

impl Session {
    /// The answer to a line.
    fn answer(&mut self, line: &[u8]) -> Vec<u8> {
        let words: Vec<&[u8]> = line.split(|&byte| byte == b' ').collect();
        match self.case(words[0], &words[1..]) {
            Some(Ok(said)) => said.into_bytes(),
            Some(Err(refusal)) => show_refusal(refusal).into_bytes(),
            None => [b"what? ", line].concat(),
        }
    }

    /// The answer to a case, none where the words fit no form.
    fn case(&mut self, name: &[u8], words: &[&[u8]]) -> Option<Said> {
        match (name, words) {
            (b"crc", [bytes]) => Some(Ok(format!("crc {:08X}", crc(&hex(bytes)?)))),
            (b"levels", [depth, zero, one]) => levels(long(depth)?, short(zero)?, short(one)?),
            (b"read", [system, depth, line]) => {
                read(Name::parse(system)?, long(depth)?, &samples(line)?, PAYLOAD_ROOM)
            }
            (b"read", [system, depth, line, room]) => {
                read(Name::parse(system)?, long(depth)?, &samples(line)?, count(room)?)
            }
            (b"draw", [system, depth, zero, one, length, payload]) => {
                let payload = hex(payload)?;
                let draw = |system: &System, line: &mut [u16]| system.draw(&payload, line);
                drawing(system, depth, zero, one, length, draw)
            }
            (b"cut", [room, number, version, message]) => {
                cut(room, byte(number)?, byte(version)?, &hex(message)?)
            }
            (b"parts", [number, version, parts]) => {
                Some(parts_blocks(byte(number)?, byte(version)?, &hex_list(parts)?))
            }
            (b"walk", [payload]) => Some(Ok(walk(&hex(payload)?))),
            (b"tray", [tray]) => Some(show_tray(&hex(tray)?)),
            (b"content", [body]) => Some(show_content(&hex(body)?)),
            (b"time", [body]) => Some(
                read_time(&hex(body)?).map(|time| format!("time {} {}", time.seconds, time.millis)),
            ),
            (b"plain", [number, body]) => {
                let (number, body) = (byte(number)?, hex(body)?);
                Some(Ok(if is_plain(number) {
                    format!("plain {}", show_hex(&body))
                } else {
                    "not-plain".to_string()
                }))
            }
            (b"writetime", [seconds, millis, room]) => {
                let time = Time { seconds: long(seconds)?, millis: short(millis)? };
                written(room, |out| write_time(time, out))
            }
            (b"writecontent", words) => write_content_case(words),
            (b"c", [depth, bytes, room]) => {
                let mut out = vec![FILLING; count(room)?];
                let read = read_bytes(long(depth)?, &hex(bytes)?, &mut out);
                Some(read.map(|found| show_found(found, &out)))
            }
            (b"open" | b"put" | b"seal" | b"drawframe", _) => self.frame_case(name, words),
            (b"reader" | b"offer" | b"restart" | b"held", _) => self.reader_case(name, words),
            _ => None,
        }
    }

    fn frame_case(&mut self, name: &[u8], words: &[&[u8]]) -> Option<Said> {
        match (name, words) {
            (b"open", [length]) => {
                let opened = OpenFrame::open(count(length)?);
                Some(opened.map(|frame| {
                    self.open = Some(frame);
                    "ok".to_string()
                }))
            }
            (b"put", wants) => {
                let wants = wants.iter().map(|want| Want::parse(want)).collect::<Option<Vec<_>>>()?;
                let frame = self.open.as_mut()?;
                Some(put(frame, &wants))
            }
            (b"seal", []) => {
                let sealed = self.open.take()?.seal();
                let said = format!("frame {}", show_hex(sealed.payload()));
                self.sealed = Some(sealed);
                Some(Ok(said))
            }
            (b"drawframe", [system, depth, zero, one, length]) => {
                let sealed = self.sealed.as_ref()?;
                let draw = |system: &System, line: &mut [u16]| sealed.draw(system, line);
                drawing(system, depth, zero, one, length, draw)
            }
            _ => None,
        }
    }

    fn reader_case(&mut self, name: &[u8], words: &[&[u8]]) -> Option<Said> {
        match (name, words) {
            (b"reader", [system, depth, watch]) => {
                let (name, depth, watch) = (Name::parse(system)?, long(depth)?, numbers(watch)?);
                let made = name.reading(depth).and_then(|system| Reader::new(system, &watch));
                Some(made.map(|reader| {
                    self.reader = Some(reader);
                    "ok".to_string()
                }))
            }
            (b"offer", [frame, line, room]) => {
                let (frame, line, room) = (number(frame, u64::MAX)?, samples(line)?, count(room)?);
                Some(offer(self.reader.as_mut()?, frame, &line, room))
            }
            (b"restart", []) => {
                self.reader.as_mut()?.restart();
                Some(Ok("ok".to_string()))
            }
            (b"held", [number]) => {
                let number = byte(number)?;
                Some(Ok(match self.reader.as_ref()?.held(number) {
                    Some(parts) => format!("held {parts}"),
                    None => "not-watched".to_string(),
                }))
            }
            _ => None,
        }
    }
}

fn levels(depth: u32, zero: u16, one: u16) -> Option<Said> {
    let made = Depth::from_bits(depth).and_then(|depth| Levels::new(depth, zero, one));
    Some(made.map(|_| "ok".to_string()))
}

fn show_found(found: Option<usize>, out: &[u8]) -> String {
    match found {
        Some(length) => format!("found {length} {}", show_hex(&out[..length])),
        None => "none".to_string(),
    }
}

fn read(name: Name, depth: u32, line: &[u16], room: usize) -> Option<Said> {
    let mut out = vec![FILLING; room];
    let read = name.reading(depth).and_then(|system| system.read(line, &mut out));
    Some(read.map(|found| show_found(found, &out)))
}

/// Makes the system, and draws something by it into a line of so many samples.
fn drawing(
    system: &[u8],
    depth: &[u8],
    zero: &[u8],
    one: &[u8],
    length: &[u8],
    draw: impl Fn(&System, &mut [u16]) -> Result<(), Refusal>,
) -> Option<Said> {
    let (name, depth) = (Name::parse(system)?, long(depth)?);
    let (zero, one) = (short(zero)?, short(one)?);
    let mut line = vec![0; count(length)?];
    let drawn = name.with_levels(depth, zero, one).and_then(|system| draw(&system, &mut line));
    Some(drawn.map(|()| format!("line {}", show_samples(&line))))
}

fn cut(room: &[u8], number: u8, version: u8, message: &[u8]) -> Option<Said> {
    let room = match count(room)? {
        28 => Room::OneX,
        58 => Room::TwoX,
        _ => return None,
    };
    let sending = Sending::cut(number, version, message, room);
    Some(sending.map(|sending| format!("parts {}", show_hex_list(sending.parts()))))
}

fn parts_blocks(number: u8, version: u8, parts: &[Vec<u8>]) -> Said {
    let sending = Sending::given(number, version, parts)?;
    let blocks = (0..parts.len()).map(|i| sending.block(i)).collect::<Result<Vec<_>, _>>()?;
    Ok(format!("blocks {}", show_hex_list(&blocks)))
}

fn join_entries(entries: Vec<String>) -> String {
    if entries.is_empty() {
        "empty".to_string()
    } else {
        entries.join(" ")
    }
}

fn walk(payload: &[u8]) -> String {
    let show = |entry: Entry| match entry {
        Entry::Fault { cause, number, place } => format!("fault:{cause}:{number}:{place}"),
        Entry::Block { block: b, place } => {
            let sum = b.message_crc.map_or("-".to_string(), |sum| format!("{sum:08X}"));
            let body = show_hex(b.body);
            format!("block:{}:{}:{}:{}:{body}:{sum}:{place}", b.number, b.version, b.part, b.last)
        }
    };
    join_entries(Walk::new(payload).map(show).collect())
}

fn show_tray(bytes: &[u8]) -> Said {
    let show = |entry: &tray::Entry| match entry {
        tray::Entry::Message { number, version, bytes, at } => {
            format!("message:{number}:{version}:{}:{at}", show_hex(bytes))
        }
        tray::Entry::Fault { fault: f, at } => {
            format!("fault:{}:{}:{}:{}:{at}", f.layer, f.cause, f.number, f.place)
        }
    };
    Ok(join_entries(read_tray(bytes)?.iter().map(show).collect()))
}

fn show_content(body: &[u8]) -> Said {
    let message = read_content(body)?;
    let content = match message.content {
        Some(Content { kind, valid_until, identifier }) => {
            let until = match valid_until {
                Some(time) => format!("{}.{}", time.seconds, time.millis),
                None => "-".to_string(),
            };
            format!("{kind}:{until}:{}", show_hex(identifier))
        }
        None => "-".to_string(),
    };
    let channel = match message.channel {
        Some(c) => format!("{}:{}:{}", c.bsid, c.major, c.minor),
        None => "-".to_string(),
    };
    Ok(format!("content {content} channel {channel}"))
}

/// Writes a body into an output of so many bytes.
fn written(
    room: &[u8],
    write: impl Fn(&mut [u8]) -> Result<usize, Refusal>,
) -> Option<Said> {
    let mut out = vec![FILLING; count(room)?];
    let length = write(&mut out);
    Some(length.map(|length| format!("body {}", show_hex(&out[..length]))))
}

fn write_content_case(words: &[&[u8]]) -> Option<Said> {
    let [kind, seconds, millis, identifier, bsid, major, minor, room] = words else {
        return None;
    };
    let identifier = hex(identifier)?;
    let valid_until = match (optional(seconds, long)?, optional(millis, short)?) {
        (None, _) => None,
        (Some(seconds), millis) => Some(Time { seconds, millis: millis? }),
    };
    let channel = match (optional(bsid, short)?, optional(major, short)?, optional(minor, short)?) {
        (None, _, _) => None,
        (Some(bsid), major, minor) => Some(Channel { bsid, major: major?, minor: minor? }),
    };
    let content = optional(kind, byte)?
        .map(|kind| Content { kind, valid_until, identifier: &identifier });
    written(room, |out| write_content(&ContentId { content, channel }, out))
}

/// A block that a group wants: a sending of given parts, not made yet, and an index.
struct Want {
    number: u8,
    version: u8,
    parts: Vec<Vec<u8>>,
    index: usize,
}

impl Want {
    fn parse(word: &[u8]) -> Option<Want> {
        let fields: Vec<&[u8]> = word.split(|&byte| byte == b'/').collect();
        let [number, version, parts, index] = fields[..] else {
            return None;
        };
        Some(Want {
            number: byte(number)?,
            version: byte(version)?,
            parts: hex_list(parts)?,
            index: count(index)?,
        })
    }
}

fn put(frame: &mut OpenFrame, wants: &[Want]) -> Said {
    let mut group = Vec::with_capacity(wants.len());
    for want in wants {
        group.push((Sending::given(want.number, want.version, &want.parts)?, want.index));
    }
    frame.put(&group)?;
    Ok("ok".to_string())
}

fn offer(reader: &mut Reader, frame: u64, line: &[u16], room: usize) -> Said {
    let mut tray = vec![FILLING; room];
    let answer = reader.offer(frame, line, &mut tray)?;
    let (used, rest) = tray.split_at(answer.used);
    let rest = if rest.iter().all(|&byte| byte == FILLING) { "stays" } else { "changed" };
    let (length, skipped) = (answer.length, answer.skipped);
    Ok(format!("took {length} {} {skipped} {} {rest}", answer.used, show_hex(used)))
}

fn main() -> io::Result<()> {
    let mut input = io::stdin().lock();
    let mut output = io::BufWriter::new(io::stdout().lock());
    let mut session = Session::default();
    let mut line = Vec::new();
    while input.read_until(b'\n', &mut line)? > 0 {
        if line.last() == Some(&b'\n') {
            line.pop();
        }
        output.write_all(&session.answer(&line))?;
        output.write_all(b"\n")?;
        line.clear();
    }
    output.flush()
}
