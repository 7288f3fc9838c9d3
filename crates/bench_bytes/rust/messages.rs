//! Messages: cut from a stream and read, and written again with a sender.

use crate::report::Report;
use crate::codec::{Argument, arguments, check, is_signature};
use crate::names;
use crate::samples::{HELLO, many_bytes, strings};
use crate::samples;

const MAX_MESSAGE: usize = 1 << 27;
const MAX_FIELDS: usize = 1 << 26;

/// The place of a header field: its code, and where it begins and ends.
#[derive(Clone, Copy)]
struct Field {
    code: u8,
    from: usize,
    to: usize,
}

/// What rules and routing look at in a message.
#[allow(dead_code)]
pub struct Facts<'a> {
    pub kind: u8,
    pub auto_start: bool,
    pub path: Option<&'a str>,
    pub interface: Option<&'a str>,
    pub member: Option<&'a str>,
    pub destination: Option<&'a str>,
    pub arguments: [Argument<'a>; 64],
    pub count: usize,
}

fn weight(facts: &Facts<'_>) -> u64 {
    let texts = facts.member.map_or(0, str::len) + facts.destination.map_or(0, str::len);
    (texts + std::hint::black_box(facts).count) as u64
}

pub struct Message {
    bytes: Vec<u8>,
    fields: Vec<Field>,
}

fn number(bytes: &[u8], at: usize) -> usize {
    u32::from_le_bytes([bytes[at], bytes[at + 1], bytes[at + 2], bytes[at + 3]]) as usize
}

/// The length that the first sixteen bytes announce.
fn announced(bytes: &[u8]) -> Option<usize> {
    if bytes[0] != b'l' || bytes[3] != 1 || bytes[1] == 0 || number(bytes, 8) == 0 {
        return None;
    }
    let (body, fields) = (number(bytes, 4), number(bytes, 12));
    if fields > MAX_FIELDS || body > MAX_MESSAGE {
        return None;
    }
    let length = (16 + fields).next_multiple_of(8) + body;
    (length <= MAX_MESSAGE).then_some(length)
}

fn text(bytes: &[u8]) -> Option<&str> {
    if bytes.contains(&0) { None } else { std::str::from_utf8(bytes).ok() }
}

impl Message {
    fn read(bytes: Vec<u8>) -> Option<Message> {
        let end = 16 + number(&bytes, 12);
        let mut fields = Vec::new();
        let mut at = 16;
        let mut signature = 0..0;
        while at < end {
            while at % 8 != 0 {
                if bytes[at] != 0 {
                    return None;
                }
                at += 1;
            }
            let from = at;
            let (code, size) = (*bytes.get(at)?, *bytes.get(at + 1)? as usize);
            let kind = bytes.get(at + 2..at + 2 + size)?;
            if bytes.get(at + 2 + size) != Some(&0) || !is_signature(kind) {
                return None;
            }
            let value = at + 3 + size;
            let to = value + check(value, kind, bytes.get(value..end)?).ok()?;
            let wanted: &[u8] = match code {
                1 => b"o",
                2 | 3 | 4 | 6 | 7 => b"s",
                5 | 9 => b"u",
                8 => b"g",
                0 => return None,
                _ => kind,
            };
            if kind != wanted || fields.iter().any(|field: &Field| field.code == code) {
                return None;
            }
            match code {
                2 => { names::interface(text(&bytes[value + 4..to - 1])?)?; }
                3 => { names::member(text(&bytes[value + 4..to - 1])?)?; }
                4 => { names::interface(text(&bytes[value + 4..to - 1])?)?; }
                6 | 7 => { names::bus_name(text(&bytes[value + 4..to - 1])?)?; }
                8 => signature = value + 1..to - 1,
                _ => {}
            }
            // By rising code, as they are written again.
            let rank = fields.partition_point(|field| field.code <= code);
            fields.insert(rank, Field { code, from, to });
            at = to;
        }
        while at % 8 != 0 {
            if bytes[at] != 0 {
                return None;
            }
            at += 1;
        }
        let has = |code| fields.iter().any(|field| field.code == code);
        let whole = match bytes[1] {
            1 => has(1) && has(3),
            2 => has(5),
            3 => has(4) && has(5),
            4 => has(1) && has(2) && has(3),
            _ => true,
        };
        if !whole || check(0, &bytes[signature], &bytes[at..]) != Ok(bytes.len() - at) {
            return None;
        }
        Some(Message { bytes, fields })
    }

    fn body(&self) -> &[u8] {
        &self.bytes[(16 + number(&self.bytes, 12)).next_multiple_of(8)..]
    }

    fn serial(&self) -> usize {
        number(&self.bytes, 8)
    }

    /// The text of a field that was checked.
    fn text_of(&self, code: u8) -> Option<&str> {
        let field = self.fields.iter().find(|field| field.code == code)?;
        let skipped = if code == 8 { 5 } else { 8 };
        // SAFETY: the field was checked.
        Some(unsafe { std::str::from_utf8_unchecked(&self.bytes[field.from + skipped..field.to - 1]) })
    }

    /// What rules and routing look at.
    fn facts(&self) -> Facts<'_> {
        let mut found = [Argument::Other; 64];
        let types = self.text_of(8).unwrap_or("");
        let count = arguments(types.as_bytes(), self.body(), &mut found);
        Facts {
            kind: self.bytes[1],
            auto_start: self.bytes[2] & 2 == 0,
            path: self.text_of(1),
            interface: self.text_of(2),
            member: self.text_of(3),
            destination: self.text_of(6),
            arguments: found,
            count,
        }
    }

    /// Appends the message with a sender, its fields by rising code. Where it is too long, or there is no memory, the output is
    /// as before.
    fn with_sender(&self, sender: &str, output: &mut Vec<u8>) -> Option<()> {
        let (before, rest) = self.fields.split_at(self.fields.partition_point(|field| field.code < 7));
        let after = &rest[rest.partition_point(|field| field.code == 7)..];
        let behind = |end: usize, field: &Field| end.next_multiple_of(8) + field.to - field.from;
        let end = before.iter().fold(16, behind).next_multiple_of(8) + 9 + sender.len();
        let end = after.iter().fold(end, behind);
        let length = end.next_multiple_of(8) + self.body().len();
        if end - 16 > MAX_FIELDS || length > MAX_MESSAGE {
            return None;
        }
        output.try_reserve(length).ok()?;
        let start = output.len();
        let pad = |output: &mut Vec<u8>| while (output.len() - start) % 8 != 0 { output.push(0) };
        output.extend_from_slice(&self.bytes[..12]);
        output.extend_from_slice(&((end - 16) as u32).to_le_bytes());
        for field in before {
            pad(output);
            output.extend_from_slice(&self.bytes[field.from..field.to]);
        }
        pad(output);
        output.extend_from_slice(b"\x07\x01s\0");
        output.extend_from_slice(&(sender.len() as u32).to_le_bytes());
        output.extend_from_slice(sender.as_bytes());
        output.push(0);
        for field in after {
            pad(output);
            output.extend_from_slice(&self.bytes[field.from..field.to]);
        }
        pad(output);
        output.extend_from_slice(self.body());
        Some(())
    }
}

struct Framer {
    buffer: Vec<u8>,
    from: usize,
}

impl Framer {
    fn feed(&mut self, piece: &[u8]) {
        if self.from == 0 || self.from < self.buffer.len() / 2 {
            self.buffer.extend_from_slice(piece);
            return;
        }
        let mut fresh = self.buffer[self.from..].to_vec();
        fresh.extend_from_slice(piece);
        self.buffer = fresh;
        self.from = 0;
    }

    fn next(&mut self) -> Option<Message> {
        let unread = &self.buffer[self.from..];
        if unread.len() < 16 {
            return None;
        }
        let whole = unread.get(..announced(unread)?)?.to_vec();
        self.from += whole.len();
        Message::read(whole)
    }
}

/// A signal with this body.
fn signal(signature: &str, body: &[u8]) -> Vec<u8> {
    let mut bytes = b"l\x04\0\x01".to_vec();
    bytes.extend_from_slice(&(body.len() as u32).to_le_bytes());
    bytes.extend_from_slice(b"\x07\0\0\0\0\0\0\0");
    for (code, kind, text) in [
        (1, b'o', "/org/freedesktop/login1"),
        (2, b's', "org.freedesktop.login1.Manager"),
        (3, b's', "SessionNew"),
    ] {
        bytes.resize(bytes.len().next_multiple_of(8), 0);
        bytes.extend_from_slice(&[code, 1, kind, 0]);
        bytes.extend_from_slice(&(text.len() as u32).to_le_bytes());
        bytes.extend_from_slice(text.as_bytes());
        bytes.push(0);
    }
    bytes.resize(bytes.len().next_multiple_of(8), 0);
    bytes.extend_from_slice(&[8, 1, b'g', 0, signature.len() as u8]);
    bytes.extend_from_slice(signature.as_bytes());
    bytes.push(0);
    let length = (bytes.len() - 16) as u32;
    bytes[12..16].copy_from_slice(&length.to_le_bytes());
    bytes.resize(bytes.len().next_multiple_of(8), 0);
    bytes.extend_from_slice(body);
    bytes
}

fn frame(report: &Report, name: &str, bytes: &[u8]) {
    let mut framer = Framer { buffer: Vec::new(), from: 0 };
    report.tell(name, |_| {
        framer.feed(std::hint::black_box(bytes));
        match framer.next() {
            Some(message) => (message.serial() + message.body().len()) as u64,
            None => 1,
        }
    });
}

fn look(report: &Report, name: &str, bytes: &[u8]) {
    let message = Message::read(bytes.to_vec()).expect("it is a message");
    report.tell(name, |_| weight(&std::hint::black_box(&message).facts()));
}

fn relay(report: &Report, name: &str, bytes: &[u8]) {
    let message = Message::read(bytes.to_vec()).expect("it is a message");
    let mut output = Vec::new();
    report.tell(name, |_| {
        output.clear();
        match message.with_sender(std::hint::black_box(":1.42"), &mut output) {
            Some(()) => output.len() as u64,
            None => 0,
        }
    });
}

fn pass(report: &Report, name: &str, bytes: &[u8]) {
    let mut framer = Framer { buffer: Vec::new(), from: 0 };
    let mut output = Vec::new();
    report.tell(name, |_| {
        output.clear();
        framer.feed(std::hint::black_box(bytes));
        let Some(message) = framer.next() else {
            return 1;
        };
        let weight = weight(&message.facts());
        match message.with_sender(std::hint::black_box(":1.42"), &mut output) {
            Some(()) => weight + output.len() as u64,
            None => 2,
        }
    });
}

pub fn measure(report: &Report) {
    let strings = signal("as", &strings());
    let arguments = signal("ssssssssssssssssssss", &samples::arguments());
    let many_bytes = signal("ay", &many_bytes());
    frame(report, "messages: frame and read a Hello", HELLO);
    frame(report, "messages: frame and read a signal with 20 strings", &strings);
    frame(report, "messages: frame and read a signal with 65,536 bytes", &many_bytes);
    look(report, "messages: look at a Hello", HELLO);
    look(report, "messages: look at a signal with 20 string arguments", &arguments);
    look(report, "messages: look at a signal with 65,536 bytes", &many_bytes);
    relay(report, "messages: write a Hello with its sender", HELLO);
    relay(report, "messages: write a signal with 20 strings with its sender", &strings);
    relay(report, "messages: write a signal with 65,536 bytes with its sender", &many_bytes);
    pass(report, "messages: frame, read, look at and write a signal with 20 string arguments", &arguments);
}
