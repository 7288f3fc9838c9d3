//! Match rules, kept as `match_rules` keeps them: in one run of bytes, by rising key.

use crate::names;
use crate::report::Report;

const MAX: usize = 1024;

#[derive(Clone, Copy, PartialEq)]
pub struct Rule {
    bytes: [u8; MAX],
    length: usize,
}

#[derive(Clone, Copy, PartialEq)]
enum Key {
    Type,
    Member,
    Interface,
    Path,
    PathNamespace,
    Sender,
    Destination,
    Argument(u8),
    ArgumentPath(u8),
    Argument0Namespace,
    Eavesdrop,
}

impl Key {
    fn place(self) -> u8 {
        match self {
            Key::Type => 0,
            Key::Member => 1,
            Key::Interface => 2,
            Key::Path => 3,
            Key::PathNamespace => 4,
            Key::Sender => 5,
            Key::Destination => 6,
            Key::Argument(number) => 7 + number,
            Key::ArgumentPath(number) => 71 + number,
            Key::Argument0Namespace => 135,
            Key::Eavesdrop => 136,
        }
    }

    fn at(place: u8) -> Key {
        match place {
            0 => Key::Type,
            1 => Key::Member,
            2 => Key::Interface,
            3 => Key::Path,
            4 => Key::PathNamespace,
            5 => Key::Sender,
            6 => Key::Destination,
            7..=70 => Key::Argument(place - 7),
            71..=134 => Key::ArgumentPath(place - 71),
            135 => Key::Argument0Namespace,
            _ => Key::Eavesdrop,
        }
    }

    fn named(text: &str) -> Option<Key> {
        Some(match text {
            "type" => Key::Type,
            "sender" => Key::Sender,
            "interface" => Key::Interface,
            "member" => Key::Member,
            "path" => Key::Path,
            "path_namespace" => Key::PathNamespace,
            "destination" => Key::Destination,
            "eavesdrop" => Key::Eavesdrop,
            "arg0namespace" => Key::Argument0Namespace,
            _ => {
                let rest = text.strip_prefix("arg")?;
                let (digits, path) = match rest.strip_suffix("path") {
                    Some(digits) => (digits, true),
                    None => (rest, false),
                };
                if digits.len() > 1 && digits.starts_with('0') || digits.starts_with('+') {
                    return None;
                }
                let number = digits.parse::<u8>().ok().filter(|number| *number < 64)?;
                if path { Key::ArgumentPath(number) } else { Key::Argument(number) }
            }
        })
    }

    fn takes(self, value: &str) -> bool {
        match self {
            Key::Type => matches!(value, "signal" | "method_call" | "method_return" | "error"),
            Key::Sender => names::bus_name(value).is_some(),
            Key::Interface => names::interface(value).is_some(),
            Key::Member => names::member(value).is_some(),
            Key::Path | Key::PathNamespace => names::path(value).is_some(),
            Key::Destination => names::unique(value).is_some(),
            Key::Argument(_) | Key::ArgumentPath(_) => true,
            Key::Argument0Namespace => names::well_known(value).is_some() || names::member(value).is_some(),
            Key::Eavesdrop => matches!(value, "true" | "false"),
        }
    }
}

struct Entries<'a>(&'a [u8]);

impl<'a> Iterator for Entries<'a> {
    type Item = (Key, &'a str);

    fn next(&mut self) -> Option<Self::Item> {
        let (head, rest) = self.0.split_at_checked(3)?;
        let length = head[1] as usize + 256 * head[2] as usize;
        let (value, rest) = rest.split_at_checked(length)?;
        self.0 = rest;
        Some((Key::at(head[0]), unsafe { std::str::from_utf8_unchecked(value) }))
    }
}

/// Where the first item of a text ends.
fn item_length(text: &[u8]) -> usize {
    let (mut inside, mut escaped) = (false, false);
    for (i, &byte) in text.iter().enumerate() {
        if inside {
            inside = byte != b'\'';
            continue;
        }
        match byte {
            b',' => return i,
            b'\'' if escaped => escaped = false,
            b'\'' => inside = true,
            _ => escaped = byte == b'\\',
        }
    }
    text.len()
}

/// The value that is written, where it is not one text between two apostrophes.
fn value_of(text: &str) -> Option<String> {
    let mut value = String::new();
    let (mut inside, mut escaped) = (false, false);
    for c in text.chars() {
        if inside {
            if c == '\'' { inside = false } else { value.push(c) }
            continue;
        }
        match c {
            '\'' if escaped => {
                value.pop();
                value.push('\'');
                escaped = false;
            }
            '\'' => inside = true,
            _ => {
                value.push(c);
                escaped = c == '\\';
            }
        }
    }
    (!inside).then_some(value)
}

impl Rule {
    fn entries(&self) -> Entries<'_> {
        Entries(&self.bytes[..self.length])
    }

    fn has(&self, key: Key) -> bool {
        self.entries().any(|(other, _)| other == key)
    }

    fn put(&mut self, key: Key, value: &str) -> Option<()> {
        if !key.takes(value) {
            return None;
        }
        let mut at = 0;
        for (other, value) in self.entries() {
            if other.place() > key.place() {
                break;
            }
            at += 3 + value.len();
        }
        let size = 3 + value.len();
        self.bytes.copy_within(at..self.length, at + size);
        self.bytes[at] = key.place();
        self.bytes[at + 1] = value.len() as u8;
        self.bytes[at + 2] = (value.len() >> 8) as u8;
        self.bytes[at + 3..at + size].copy_from_slice(value.as_bytes());
        self.length += size;
        Some(())
    }

    pub fn parse(text: &str) -> Option<Rule> {
        if text.len() > MAX {
            return None;
        }
        let mut rule = Rule { bytes: [0; MAX], length: 0 };
        let mut rest = text;
        if rest.is_empty() {
            return Some(rule);
        }
        loop {
            let end = item_length(rest.as_bytes());
            let (name, written) = rest[..end].split_once('=')?;
            let key = Key::named(name)?;
            let excluded = match key {
                Key::Path => rule.has(Key::PathNamespace),
                Key::PathNamespace => rule.has(Key::Path),
                _ => false,
            };
            if rule.has(key) || excluded {
                return None;
            }
            match written.strip_prefix('\'').and_then(|text| text.strip_suffix('\'')) {
                Some(value) if !value.contains('\'') => rule.put(key, value)?,
                _ => rule.put(key, &value_of(written)?)?,
            }
            if end == rest.len() {
                return Some(rule);
            }
            rest = &rest[end + 1..];
        }
    }

    fn member(&self) -> Option<&str> {
        self.entries().find(|(key, _)| *key == Key::Member).map(|(_, value)| value)
    }

    pub fn fits(&self, facts: &Facts, head: impl Fn(&str) -> Option<u64>) -> bool {
        self.entries().all(|(key, value)| holds(key, value, facts, &head))
    }
}

pub enum Argument {
    String(&'static str),
    ObjectPath(&'static str),
}

pub struct Facts {
    pub kind: Option<&'static str>,
    pub sender: u64,
    pub path: Option<&'static str>,
    pub interface: Option<&'static str>,
    pub member: Option<&'static str>,
    pub destination: Option<&'static str>,
    pub arguments: Vec<Argument>,
}

fn is_sender(name: &str, sender: u64, head: &impl Fn(&str) -> Option<u64>) -> bool {
    if name == "org.freedesktop.DBus" {
        return sender == 0;
    }
    if sender == 0 {
        return false;
    }
    match name.strip_prefix(":1.") {
        Some(digits) => digits.parse() == Ok(sender) && !(digits.len() > 1 && digits.starts_with('0')),
        None => !name.starts_with(':') && head(name) == Some(sender),
    }
}

fn paths_alike(a: &str, b: &str) -> bool {
    a == b || a.ends_with('/') && b.starts_with(a) || b.ends_with('/') && a.starts_with(b)
}

fn holds(key: Key, value: &str, facts: &Facts, head: &impl Fn(&str) -> Option<u64>) -> bool {
    match key {
        Key::Type => facts.kind == Some(value),
        Key::Member => facts.member == Some(value),
        Key::Interface => facts.interface == Some(value),
        Key::Path => facts.path == Some(value),
        Key::PathNamespace => facts.path.is_some_and(|path| {
            value == "/" || path.strip_prefix(value).is_some_and(|rest| rest.is_empty() || rest.starts_with('/'))
        }),
        Key::Sender => is_sender(value, facts.sender, head),
        Key::Destination => facts.destination.is_some_and(|name| head(value).is_some() && head(value) == head(name)),
        Key::Argument(number) => matches!(facts.arguments.get(number as usize), Some(Argument::String(text)) if *text == value),
        Key::ArgumentPath(number) => match facts.arguments.get(number as usize) {
            Some(Argument::String(text) | Argument::ObjectPath(text)) => paths_alike(value, text),
            None => false,
        },
        Key::Argument0Namespace => match facts.arguments.first() {
            Some(Argument::String(text)) => text.strip_prefix(value).is_some_and(|rest| rest.is_empty() || rest.starts_with('.')),
            _ => false,
        },
        Key::Eavesdrop => true,
    }
}

const TEXTS: [&str; 2] = [
    "type='signal',sender='org.freedesktop.DBus',interface='org.freedesktop.DBus',member='NameOwnerChanged',path='/org/freedesktop/DBus',arg0='com.example.A'",
    "type='signal',sender='org.freedesktop.DBus',interface='org.freedesktop.DBus',member='NameOwnerChanged',path='/org/freedesktop/DBus',arg0='com.example.A'",
];

const OTHERS: [&str; 2] = [
    "type='signal',interface='org.freedesktop.DBus',member='NameAcquired'",
    "type='signal',sender='org.freedesktop.DBus',interface='org.freedesktop.DBus',member='NameOwnerChanged',arg0='com.example.X'",
];

fn signal() -> Facts {
    Facts {
        kind: Some("signal"),
        sender: 0,
        path: Some("/org/freedesktop/DBus"),
        interface: Some("org.freedesktop.DBus"),
        member: Some("NameOwnerChanged"),
        destination: None,
        arguments: vec![
            Argument::String("com.example.A"),
            Argument::String(""),
            Argument::String(":1.42"),
            Argument::ObjectPath("/"),
        ],
    }
}

pub fn measure(report: &Report) {
    report.tell("match rules: parse", |round| {
        match Rule::parse(std::hint::black_box(TEXTS[(round % 2) as usize])) {
            Some(rule) => rule.member().map_or(0, |name| name.len() as u64),
            None => 1,
        }
    });
    let facts = std::hint::black_box(signal());
    for (name, texts) in [("match rules: a rule that does not fit", OTHERS), ("match rules: a rule that fits", TEXTS)] {
        let rules = texts.map(|text| Rule::parse(text).expect("it is a rule"));
        report.tell(name, |round| if rules[(round % 2) as usize].fits(&facts, |_| None) { 1 } else { 2 });
    }
}
