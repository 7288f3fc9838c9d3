//! Names.

use crate::report::Report;

#[derive(Clone, Copy)]
pub struct ShortText {
    bytes: [u8; 255],
    length: u8,
}

impl ShortText {
    fn new(text: &str) -> Option<Self> {
        let mut bytes = [0; 255];
        bytes.get_mut(..text.len())?.copy_from_slice(text.as_bytes());
        Some(ShortText { bytes, length: text.len() as u8 })
    }

    pub fn as_str(&self) -> &str {
        unsafe { std::str::from_utf8_unchecked(&self.bytes[..self.length as usize]) }
    }
}

#[derive(Clone, Copy)]
struct Style {
    separator: u8,
    hyphen: bool,
    digit_first: bool,
    most: usize,
}

/// Elements joined by a separator: how many, if the text is such.
fn elements(style: Style, text: &[u8]) -> Option<usize> {
    let mut count = 1;
    let mut first = true;
    for &byte in text {
        if byte == style.separator {
            if first {
                return None;
            }
            first = true;
            count += 1;
            continue;
        }
        let good = match byte {
            b'a'..=b'z' | b'A'..=b'Z' | b'_' => true,
            b'0'..=b'9' => style.digit_first || !first,
            b'-' => style.hyphen,
            _ => false,
        };
        if !good {
            return None;
        }
        first = false;
    }
    if first { None } else { Some(count) }
}

pub fn unique(text: &str) -> Option<ShortText> {
    let style = Style { separator: b'.', hyphen: true, digit_first: true, most: 255 };
    if text.len() > style.most {
        return None;
    }
    let rest = text.strip_prefix(':')?;
    (elements(style, rest.as_bytes())? >= 2).then(|| ShortText::new(text))?
}

pub fn dotted(text: &str, hyphen: bool) -> Option<ShortText> {
    let style = Style { separator: b'.', hyphen, digit_first: false, most: 255 };
    if text.len() > style.most {
        return None;
    }
    (elements(style, text.as_bytes())? >= 2).then(|| ShortText::new(text))?
}

pub fn well_known(text: &str) -> Option<ShortText> {
    dotted(text, true)
}

pub fn bus_name(text: &str) -> Option<ShortText> {
    if text.starts_with(':') { unique(text) } else { well_known(text) }
}

pub fn interface(text: &str) -> Option<ShortText> {
    dotted(text, false)
}

pub fn member(text: &str) -> Option<ShortText> {
    let style = Style { separator: b'.', hyphen: false, digit_first: false, most: 255 };
    if text.len() > style.most {
        return None;
    }
    (elements(style, text.as_bytes())? == 1).then(|| ShortText::new(text))?
}

pub fn path(text: &str) -> Option<&str> {
    if text == "/" {
        return Some(text);
    }
    let style = Style { separator: b'/', hyphen: false, digit_first: true, most: usize::MAX };
    elements(style, text.strip_prefix('/')?.as_bytes()).map(|_| text)
}

pub fn measure(report: &Report) {
    report.tell("names: parse a unique name", |round| {
        let texts = [":1.42", ":1.100042"];
        unique(texts[(round % 2) as usize]).map_or(0, |name| name.as_str().len() as u64)
    });
    report.tell("names: parse a well-known name", |round| {
        let texts = ["org.freedesktop.DBus", "org.freedesktop.login1"];
        well_known(texts[(round % 2) as usize]).map_or(0, |name| name.as_str().len() as u64)
    });
    report.tell("names: parse an object path", |round| {
        let texts = ["/org/freedesktop/DBus", "/org/freedesktop/login1"];
        path(texts[(round % 2) as usize]).map_or(0, |path| path.len() as u64)
    });
}
