//! Values in their bytes, little-endian: checked where they lie, decoded, and encoded.

use crate::names;
use crate::samples::{HELLO, many_bytes, strings};
use crate::report::Report;
use std::hint::black_box;

const MAX_ARRAY: usize = 1 << 26;
const MAX_DEPTH: u32 = 64;

#[derive(Clone, Copy, Debug, PartialEq)]
pub enum Fault {
    Truncated,
    Padding,
    Boolean,
    Utf8,
    NulInText,
    Path,
    Signature,
    ArrayLength,
    Depth,
}

use Fault::*;

fn alignment(letter: u8) -> usize {
    match letter {
        b'n' | b'q' => 2,
        b'b' | b'i' | b'u' | b's' | b'o' | b'a' => 4,
        b'x' | b't' | b'd' | b'(' | b'{' => 8,
        _ => 1,
    }
}

fn fixed_size(letter: u8) -> Option<usize> {
    match letter {
        b'y' => Some(1),
        b'n' | b'q' => Some(2),
        b'i' | b'u' => Some(4),
        b'x' | b't' | b'd' => Some(8),
        _ => None,
    }
}

fn is_basic(letter: u8) -> bool {
    matches!(letter, b'y' | b'b' | b'n' | b'q' | b'i' | b'u' | b'x' | b't' | b'd' | b's' | b'o' | b'g')
}

/// What stands behind the first type of a text, if it is a type.
fn behind_type(text: &[u8], arrays: u32, structs: u32) -> Option<&[u8]> {
    let (&letter, rest) = text.split_first()?;
    match letter {
        b'v' => Some(rest),
        b'a' if arrays < 32 => match rest.split_first() {
            Some((b'{', pair)) => {
                let (&key, value) = pair.split_first()?;
                if !is_basic(key) || structs == 32 {
                    return None;
                }
                behind_type(value, arrays + 1, structs + 1)?.strip_prefix(b"}")
            }
            _ => behind_type(rest, arrays + 1, structs),
        },
        b'(' if structs < 32 => {
            let mut rest = behind_type(rest, arrays, structs + 1)?;
            loop {
                if let Some(rest) = rest.strip_prefix(b")") {
                    return Some(rest);
                }
                rest = behind_type(rest, arrays, structs + 1)?;
            }
        }
        _ => is_basic(letter).then_some(rest),
    }
}

pub fn is_signature(text: &[u8]) -> bool {
    let mut rest = text;
    while !rest.is_empty() {
        match behind_type(rest, 0, 0) {
            Some(behind) => rest = behind,
            None => return false,
        }
    }
    text.len() <= 255
}

/// A place in bytes that begin at an offset of the message.
pub struct Reader<'a> {
    pub bytes: &'a [u8],
    pub at: usize,
    pub offset: usize,
}

impl<'a> Reader<'a> {
    fn pad(&mut self, align: usize) -> Result<(), Fault> {
        let gap = (align - (self.offset + self.at) % align) % align;
        for &byte in self.take(gap)? {
            if byte != 0 {
                return Err(Padding);
            }
        }
        Ok(())
    }

    fn take(&mut self, count: usize) -> Result<&'a [u8], Fault> {
        let taken = self.bytes.get(self.at..).and_then(|rest| rest.get(..count)).ok_or(Truncated)?;
        self.at += count;
        Ok(taken)
    }

    fn number(&mut self) -> Result<u32, Fault> {
        self.pad(4)?;
        let four = self.take(4)?;
        Ok(u32::from_le_bytes([four[0], four[1], four[2], four[3]]))
    }

    fn text(&mut self, length: usize) -> Result<&'a str, Fault> {
        let text = self.take(length)?;
        if self.take(1)? != [0] || text.contains(&0) {
            return Err(NulInText);
        }
        std::str::from_utf8(text).map_err(|_| Utf8)
    }

    fn string(&mut self) -> Result<&'a str, Fault> {
        let length = self.number()? as usize;
        self.text(length)
    }

    fn signature(&mut self) -> Result<&'a str, Fault> {
        let length = self.take(1)?[0] as usize;
        let text = self.text(length).map_err(|fault| if fault == Utf8 { Signature } else { fault })?;
        if is_signature(text.as_bytes()) { Ok(text) } else { Err(Signature) }
    }

    /// The end of an array whose elements begin here.
    fn array(&mut self, element: u8) -> Result<usize, Fault> {
        let length = self.number()? as usize;
        if length > MAX_ARRAY {
            return Err(ArrayLength);
        }
        self.pad(alignment(element))?;
        if self.at + length > self.bytes.len() {
            return Err(Truncated);
        }
        Ok(self.at + length)
    }

    /// Checks a value of the first type of a text, and gives back what stands behind that type.
    fn check<'t>(&mut self, types: &'t [u8], depth: u32) -> Result<&'t [u8], Fault> {
        let (&letter, rest) = types.split_first().ok_or(Signature)?;
        match letter {
            b's' => self.string().map(|_| rest),
            b'o' => names::path(self.string()?).map(|_| rest).ok_or(Path),
            b'g' => self.signature().map(|_| rest),
            b'b' => if self.number()? < 2 { Ok(rest) } else { Err(Boolean) },
            b'v' => {
                if depth == 0 {
                    return Err(Depth);
                }
                let signature = self.signature()?.as_bytes();
                if behind_type(signature, 0, 0) != Some(b"") {
                    return Err(Signature);
                }
                self.check(signature, depth - 1)?;
                Ok(rest)
            }
            b'a' => {
                if depth == 0 {
                    return Err(Depth);
                }
                let behind = behind_type(types, 0, 0).ok_or(Signature)?;
                let element = rest[0];
                let end = self.array(element)?;
                if let Some(size) = fixed_size(element) {
                    if (end - self.at) % size != 0 {
                        return Err(ArrayLength);
                    }
                    self.at = end;
                    return Ok(behind);
                }
                let whole = self.bytes;
                self.bytes = &whole[..end];
                while self.at < end {
                    self.check(rest, depth - 1).map_err(|fault| if fault == Truncated { ArrayLength } else { fault })?;
                }
                self.bytes = whole;
                Ok(behind)
            }
            b'(' | b'{' => {
                if depth == 0 {
                    return Err(Depth);
                }
                self.pad(8)?;
                let mut rest = rest;
                while !matches!(rest.first(), Some(b')' | b'}')) {
                    rest = self.check(rest, depth - 1)?;
                }
                Ok(&rest[1..])
            }
            _ => {
                let size = fixed_size(letter).ok_or(Signature)?;
                self.pad(size)?;
                self.take(size).map(|_| rest)
            }
        }
    }
}

pub fn check(offset: usize, types: &[u8], bytes: &[u8]) -> Result<usize, Fault> {
    let mut reader = Reader { bytes, at: 0, offset: offset % 8 };
    let mut rest = types;
    while !rest.is_empty() {
        rest = reader.check(rest, MAX_DEPTH)?;
    }
    Ok(reader.at)
}

/// An argument of a message as match rules look at it.
#[derive(Clone, Copy)]
#[allow(dead_code)]
pub enum Argument<'a> {
    String(&'a str),
    ObjectPath(&'a str),
    Other,
}

impl<'a> Reader<'a> {
    /// A text of a body that was checked.
    fn checked_text(&mut self) -> &'a str {
        let length = self.number().unwrap_or(0) as usize;
        let text = &self.bytes[self.at..self.at + length];
        self.at += length + 1;
        // SAFETY: the body was checked.
        unsafe { std::str::from_utf8_unchecked(text) }
    }
}

/// Lends the first 64 arguments of a checked body, and tells how many they are.
pub fn arguments<'a>(types: &[u8], body: &'a [u8], found: &mut [Argument<'a>; 64]) -> usize {
    let mut reader = Reader { bytes: body, at: 0, offset: 0 };
    let mut rest = types;
    let mut count = 0;
    while count < 64 {
        match rest.first() {
            None => return count,
            Some(b's') => {
                found[count] = Argument::String(reader.checked_text());
                rest = &rest[1..];
            }
            Some(b'o') => {
                found[count] = Argument::ObjectPath(reader.checked_text());
                rest = &rest[1..];
            }
            Some(_) => {
                found[count] = Argument::Other;
                match reader.check(rest, MAX_DEPTH) {
                    Ok(behind) => rest = behind,
                    Err(_) => return count,
                }
            }
        }
        count += 1;
    }
    count
}

#[derive(Clone)]
enum Type {
    Basic(u8),
    Variant,
    Array(Box<Type>),
    Dictionary(u8, Box<Type>),
    Struct(Vec<Type>),
}

impl Type {
    fn letter(&self) -> u8 {
        match self {
            Type::Basic(letter) => *letter,
            Type::Variant => b'v',
            Type::Array(_) | Type::Dictionary(..) => b'a',
            Type::Struct(_) => b'(',
        }
    }

    fn text(&self) -> String {
        match self {
            Type::Basic(letter) => (*letter as char).to_string(),
            Type::Variant => "v".to_string(),
            Type::Array(element) => format!("a{}", element.text()),
            Type::Dictionary(key, value) => format!("a{{{}{}}}", *key as char, value.text()),
            Type::Struct(fields) => format!("({})", fields.iter().map(Type::text).collect::<String>()),
        }
    }
}

/// The types of a signature that was recognized.
fn types(text: &[u8]) -> Vec<Type> {
    let mut found = Vec::new();
    let mut rest = text;
    while !rest.is_empty() {
        let (one, behind) = first_type(rest);
        found.push(one);
        rest = behind;
    }
    found
}

fn first_type(text: &[u8]) -> (Type, &[u8]) {
    match text[0] {
        b'v' => (Type::Variant, &text[1..]),
        b'a' if text[1] == b'{' => {
            let (value, rest) = first_type(&text[3..]);
            (Type::Dictionary(text[2], Box::new(value)), &rest[1..])
        }
        b'a' => {
            let (element, rest) = first_type(&text[1..]);
            (Type::Array(Box::new(element)), rest)
        }
        b'(' => {
            let mut fields = Vec::new();
            let mut rest = &text[1..];
            while rest[0] != b')' {
                let (field, behind) = first_type(rest);
                fields.push(field);
                rest = behind;
            }
            (Type::Struct(fields), &rest[1..])
        }
        letter => (Type::Basic(letter), &text[1..]),
    }
}

enum Value {
    Byte(u8),
    Boolean(bool),
    Number16(u16),
    Number32(u32),
    Number64(u64),
    String(String),
    ObjectPath(String),
    Signature(String),
    Variant(Box<(Type, Value)>),
    Array(Type, Vec<Value>),
    Dictionary(Vec<(Value, Value)>),
    Struct(Vec<Value>),
}

impl Reader<'_> {
    fn decode(&mut self, one: &Type, depth: u32) -> Result<Value, Fault> {
        if depth == 0 && !matches!(one, Type::Basic(_)) {
            return Err(Depth);
        }
        Ok(match one {
            Type::Basic(letter) => self.basic(*letter)?,
            Type::Variant => {
                let signature = self.signature()?.as_bytes();
                if behind_type(signature, 0, 0) != Some(b"") {
                    return Err(Signature);
                }
                let inner = first_type(signature).0;
                let value = self.decode(&inner, depth - 1)?;
                Value::Variant(Box::new((inner, value)))
            }
            Type::Array(element) => {
                let end = self.array(element.letter())?;
                let mut values = Vec::new();
                let whole = self.bytes;
                self.bytes = &whole[..end];
                while self.at < end {
                    values.push(self.decode(element, depth - 1)?);
                }
                self.bytes = whole;
                Value::Array((**element).clone(), values)
            }
            Type::Dictionary(key, value) => {
                let end = self.array(b'{')?;
                let mut pairs = Vec::new();
                while self.at < end {
                    self.pad(8)?;
                    pairs.push((self.basic(*key)?, self.decode(value, depth - 1)?));
                }
                Value::Dictionary(pairs)
            }
            Type::Struct(fields) => {
                self.pad(8)?;
                Value::Struct(fields.iter().map(|field| self.decode(field, depth - 1)).collect::<Result<_, _>>()?)
            }
        })
    }

    fn basic(&mut self, letter: u8) -> Result<Value, Fault> {
        Ok(match letter {
            b's' => Value::String(self.string()?.to_owned()),
            b'o' => Value::ObjectPath(names::path(self.string()?).ok_or(Path)?.to_owned()),
            b'g' => Value::Signature(self.signature()?.to_owned()),
            b'b' => match self.number()? {
                number @ 0..=1 => Value::Boolean(number == 1),
                _ => return Err(Boolean),
            },
            b'y' => Value::Byte(self.take(1)?[0]),
            b'n' | b'q' => {
                self.pad(2)?;
                Value::Number16(u16::from_le_bytes(self.take(2)?.try_into().unwrap()))
            }
            b'i' | b'u' => Value::Number32(self.number()?),
            _ => {
                self.pad(8)?;
                Value::Number64(u64::from_le_bytes(self.take(8)?.try_into().unwrap()))
            }
        })
    }
}

fn decode(offset: usize, types: &[Type], bytes: &[u8]) -> Result<(Vec<Value>, usize), Fault> {
    let mut reader = Reader { bytes, at: 0, offset: offset % 8 };
    let mut values = Vec::new();
    for one in types {
        values.push(reader.decode(one, MAX_DEPTH)?);
    }
    Ok((values, reader.at))
}

fn pad(offset: usize, align: usize, output: &mut Vec<u8>) {
    while (offset + output.len()) % align != 0 {
        output.push(0);
    }
}

fn put_text(offset: usize, text: &str, output: &mut Vec<u8>) -> Result<(), Fault> {
    if text.as_bytes().contains(&0) {
        return Err(NulInText);
    }
    pad(offset, 4, output);
    output.extend_from_slice(&(text.len() as u32).to_le_bytes());
    output.extend_from_slice(text.as_bytes());
    output.push(0);
    Ok(())
}

fn put_signature(text: &str, output: &mut Vec<u8>) {
    output.push(text.len() as u8);
    output.extend_from_slice(text.as_bytes());
    output.push(0);
}

fn encode(offset: usize, value: &Value, depth: u32, output: &mut Vec<u8>) -> Result<(), Fault> {
    match value {
        Value::Byte(byte) => output.push(*byte),
        Value::Boolean(value) => {
            pad(offset, 4, output);
            output.extend_from_slice(&u32::from(*value).to_le_bytes());
        }
        Value::Number16(number) => {
            pad(offset, 2, output);
            output.extend_from_slice(&number.to_le_bytes());
        }
        Value::Number32(number) => {
            pad(offset, 4, output);
            output.extend_from_slice(&number.to_le_bytes());
        }
        Value::Number64(number) => {
            pad(offset, 8, output);
            output.extend_from_slice(&number.to_le_bytes());
        }
        Value::String(text) => put_text(offset, text, output)?,
        Value::ObjectPath(text) => {
            names::path(text).ok_or(Path)?;
            put_text(offset, text, output)?;
        }
        Value::Signature(text) => put_signature(text, output),
        _ if depth == 0 => return Err(Depth),
        Value::Variant(inner) => {
            put_signature(&inner.0.text(), output);
            encode(offset, &inner.1, depth - 1, output)?;
        }
        Value::Array(element, values) => {
            let place = begin_array(offset, alignment(element.letter()), output);
            let start = output.len();
            for value in values {
                encode(offset, value, depth - 1, output)?;
            }
            end_array(place, start, output)?;
        }
        Value::Dictionary(pairs) => {
            let place = begin_array(offset, 8, output);
            let start = output.len();
            for (key, value) in pairs {
                pad(offset, 8, output);
                encode(offset, key, depth - 1, output)?;
                encode(offset, value, depth - 1, output)?;
            }
            end_array(place, start, output)?;
        }
        Value::Struct(fields) => {
            pad(offset, 8, output);
            for field in fields {
                encode(offset, field, depth - 1, output)?;
            }
        }
    }
    Ok(())
}

fn begin_array(offset: usize, align: usize, output: &mut Vec<u8>) -> usize {
    pad(offset, 4, output);
    let place = output.len();
    output.extend_from_slice(&[0; 4]);
    pad(offset, align, output);
    place
}

fn end_array(place: usize, start: usize, output: &mut [u8]) -> Result<(), Fault> {
    let length = output.len() - start;
    if length > MAX_ARRAY {
        return Err(ArrayLength);
    }
    output[place..place + 4].copy_from_slice(&(length as u32).to_le_bytes());
    Ok(())
}

fn sample(report: &Report, what: &str, text: &str, offset: usize, bytes: &[u8]) {
    let bytes = black_box(bytes);
    let text = black_box(text);
    assert!(is_signature(text.as_bytes()));
    report.tell(&format!("codec: check {what}"), |_| check(offset, text.as_bytes(), bytes).map_or(0, |length| length as u64));
    let types = types(text.as_bytes());
    report.tell(&format!("codec: decode {what}"), |_| match decode(offset, &types, bytes) {
        Ok((values, length)) => (values.len() + length) as u64,
        Err(_) => 0,
    });
    let (values, _) = decode(offset, &types, bytes).expect("they are spelled");
    let mut output = Vec::new();
    report.tell(&format!("codec: encode {what}"), |_| {
        output.clear();
        for value in &values {
            if encode(offset % 8, value, MAX_DEPTH, &mut output).is_err() {
                return 0;
            }
        }
        output.len() as u64
    });
}

pub fn measure(report: &Report) {
    sample(report, "the header fields of a Hello", "a(yv)", 12, &HELLO[12..125]);
    sample(report, "20 strings", "as", 0, &strings());
    sample(report, "65,536 bytes", "ay", 0, &many_bytes());
}
