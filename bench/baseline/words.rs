//! The words of bundles: values, names, GTIDs and sets. docs/FORMATS.md, sections 1 and 2.
use std::collections::HashMap;

#[derive(Clone, Debug, PartialEq, Eq, Hash, PartialOrd, Ord)]
pub enum Value {
    Null,
    Int(i64),
    Bytes(Box<[u8]>),
}

#[derive(Clone, Copy, Debug, PartialEq, Eq, Hash, PartialOrd, Ord)]
pub struct Gtid {
    pub source: u128,
    pub number: u64,
}

pub const GREATEST: u64 = 9_223_372_036_854_775_807;
pub const MOST_BYTES: usize = 65_535;
pub const MOST_SOURCES: usize = 65_536;

/// What comes before the first blank, and what follows it.
pub fn cut(text: &[u8]) -> (&[u8], Option<&[u8]>) {
    match text.iter().position(|b| *b == b' ') {
        Some(at) => (&text[..at], Some(&text[at + 1..])),
        None => (text, None),
    }
}

fn is_digits(word: &[u8]) -> bool {
    !word.is_empty() && word.iter().all(u8::is_ascii_digit)
}

/// Decimal digits without a leading zero, of any length.
pub fn is_count(word: &[u8]) -> bool {
    is_digits(word) && (word.len() == 1 || word[0] != b'0')
}

/// A count below 2^64.
pub fn count(word: &[u8]) -> Option<u64> {
    if !is_count(word) {
        return None;
    }
    let mut number = 0u64;
    for digit in word {
        number = number.checked_mul(10)?.checked_add(u64::from(digit - b'0'))?;
    }
    Some(number)
}

fn int(word: &[u8]) -> Option<i64> {
    let digits = word.strip_prefix(b"-").unwrap_or(word);
    if !is_count(digits) || word == b"-0" {
        return None;
    }
    std::str::from_utf8(word).ok()?.parse().ok()
}

fn nibble(digit: u8) -> Option<u8> {
    match digit {
        b'0'..=b'9' => Some(digit - b'0'),
        b'a'..=b'f' => Some(digit - b'a' + 10),
        _ => None,
    }
}

fn bytes(digits: &[u8]) -> Option<Box<[u8]>> {
    if digits.len() % 2 != 0 {
        return None;
    }
    let mut out = Vec::with_capacity(digits.len() / 2);
    for pair in digits.chunks_exact(2) {
        out.push(nibble(pair[0])? << 4 | nibble(pair[1])?);
    }
    Some(out.into_boxed_slice())
}

pub fn value(word: &[u8]) -> Option<Value> {
    match word.first()? {
        b'x' => bytes(&word[1..]).map(Value::Bytes),
        b'n' => (word == b"null").then_some(Value::Null),
        _ => int(word).map(Value::Int),
    }
}

pub fn is_name(word: &[u8]) -> bool {
    let fits = |b: &u8| b.is_ascii_lowercase() || b.is_ascii_digit() || *b == b'_';
    (1..=64).contains(&word.len()) && !word[0].is_ascii_digit() && word.iter().all(fits)
}

/// The number of each name that has come.
#[derive(Default)]
pub struct Names {
    numbers: HashMap<Box<[u8]>, u32>,
}

impl Names {
    pub fn add(&mut self, name: &[u8]) -> Option<u32> {
        let number = self.numbers.len() as u32;
        match self.numbers.insert(name.into(), number) {
            None => Some(number),
            Some(_) => None,
        }
    }

    pub fn find(&self, name: &[u8]) -> Option<u32> {
        self.numbers.get(name).copied()
    }
}

/// A UUID in lower case.
pub fn source(word: &[u8]) -> Option<u128> {
    if word.len() != 36 {
        return None;
    }
    let mut bits = 0u128;
    for (at, digit) in word.iter().enumerate() {
        if matches!(at, 8 | 13 | 18 | 23) {
            if *digit != b'-' {
                return None;
            }
        } else {
            bits = bits << 4 | u128::from(nibble(*digit)?);
        }
    }
    Some(bits)
}

fn number(word: &[u8]) -> Option<u64> {
    count(word).filter(|n| (1..=GREATEST).contains(n))
}

pub fn gtid(word: &[u8]) -> Option<Gtid> {
    if word.len() < 38 || word[36] != b':' {
        return None;
    }
    Some(Gtid {
        source: source(&word[..36])?,
        number: number(&word[37..])?,
    })
}

/// Intervals by source and start, with none that touch.
#[derive(Clone, Debug, Default, PartialEq)]
pub struct Set {
    pub spans: Vec<(u128, u64, u64)>,
}

impl Set {
    pub fn contains(&self, gtid: Gtid) -> bool {
        let after = self
            .spans
            .partition_point(|s| (s.0, s.1) <= (gtid.source, gtid.number));
        after > 0 && self.spans[after - 1].0 == gtid.source && self.spans[after - 1].2 >= gtid.number
    }

    pub fn of_sorted(gtids: &[Gtid]) -> Set {
        let mut spans: Vec<(u128, u64, u64)> = Vec::new();
        for g in gtids {
            match spans.last_mut() {
                Some(last) if last.0 == g.source && last.2 + 1 == g.number => last.2 = g.number,
                _ => spans.push((g.source, g.number, g.number)),
            }
        }
        Set { spans }
    }

    pub fn sources(&self) -> usize {
        self.spans.chunk_by(|a, b| a.0 == b.0).count()
    }

    /// `-` for the empty set.
    pub fn write(&self, out: &mut Vec<u8>) {
        if self.spans.is_empty() {
            out.push(b'-');
        }
        let mut before = None;
        for (source, low, high) in &self.spans {
            if before != Some(*source) {
                if before.is_some() {
                    out.push(b',');
                }
                write_source(out, *source);
                before = Some(*source);
            }
            out.push(b':');
            write_number(out, *low);
            if low < high {
                out.push(b'-');
                write_number(out, *high);
            }
        }
    }
}

fn interval(word: &[u8]) -> Option<(u64, u64)> {
    match word.iter().position(|b| *b == b'-') {
        None => number(word).map(|n| (n, n)),
        Some(at) => {
            let (low, high) = (number(&word[..at])?, number(&word[at + 1..])?);
            (low < high).then_some((low, high))
        }
    }
}

/// The canonical text of a set, or `-`.
pub fn set(word: &[u8]) -> Option<Set> {
    let mut spans: Vec<(u128, u64, u64)> = Vec::new();
    if word == b"-" {
        return Some(Set { spans });
    }
    for element in word.split(|b| *b == b',') {
        if element.len() < 38 || element[36] != b':' {
            return None;
        }
        let from = source(&element[..36])?;
        if spans.last().is_some_and(|last| last.0 >= from) {
            return None;
        }
        for part in element[37..].split(|b| *b == b':') {
            let (low, high) = interval(part)?;
            if spans.last().is_some_and(|last| last.0 == from && last.2 + 1 >= low) {
                return None;
            }
            spans.push((from, low, high));
        }
    }
    Some(Set { spans })
}

pub fn write_number(out: &mut Vec<u8>, number: u64) {
    let mut digits = [0u8; 20];
    let mut at = 20;
    let mut left = number;
    while at == 20 || left > 0 {
        at -= 1;
        digits[at] = b'0' + (left % 10) as u8;
        left /= 10;
    }
    out.extend_from_slice(&digits[at..]);
}

const DIGITS: &[u8; 16] = b"0123456789abcdef";

pub fn write_source(out: &mut Vec<u8>, source: u128) {
    for place in 0..32 {
        if matches!(place, 8 | 12 | 16 | 20) {
            out.push(b'-');
        }
        out.push(DIGITS[(source >> (124 - 4 * place)) as usize & 15]);
    }
}

pub fn write_gtid(out: &mut Vec<u8>, gtid: Gtid) {
    write_source(out, gtid.source);
    out.push(b':');
    write_number(out, gtid.number);
}

pub fn write_value(out: &mut Vec<u8>, value: &Value) {
    match value {
        Value::Null => out.extend_from_slice(b"null"),
        Value::Int(number) => {
            if *number < 0 {
                out.push(b'-');
            }
            write_number(out, number.unsigned_abs());
        }
        Value::Bytes(bytes) => {
            out.push(b'x');
            for byte in bytes.iter() {
                out.push(DIGITS[usize::from(byte >> 4)]);
                out.push(DIGITS[usize::from(byte & 15)]);
            }
        }
    }
}
