//! Simpler forms of a record, for the smallest list of calls that shows a difference. A record is taken apart by its form, so
//! that this knows as little as it can of what the records say.
use std::ops::Range;

use crate::message::{self, HEADER};
use crate::read::form;

/// The hardware address that takes the place of another.
const HARDWARE: &str = "020000000001";

/// A value in a line: the kind of its gap, what stands before it, and where it is.
#[derive(Clone, Debug)]
pub struct Value {
    gap: u8,
    key: &'static str,
    place: Range<usize>,
}

/// The values of a line, which has been read by its form before.
pub fn values(line: &[u8]) -> Vec<Value> {
    let word = line.split(|c| *c == b' ').next().unwrap();
    let Some(mut rest) = form(word) else { return vec![] };
    let (mut values, mut at) = (vec![], 0);
    while let Some(gap) = rest.find('%') {
        let key = rest[..gap].trim_end_matches('=').rsplit(' ').next().unwrap();
        at += gap;
        let begin = at;
        let kind = rest.as_bytes()[gap + 1];
        let within = |c: &u8| match kind {
            b'a' => c.is_ascii_digit() || *c == b'.',
            b'x' => c.is_ascii_hexdigit(),
            _ => c.is_ascii_digit(),
        };
        at += line[at..].iter().take_while(|c| within(c)).count();
        values.push(Value { gap: kind, key, place: begin..at });
        rest = &rest[gap + 2..];
    }
    values
}

impl Value {
    pub fn text<'a>(&self, line: &'a [u8]) -> &'a str {
        std::str::from_utf8(&line[self.place.clone()]).unwrap()
    }

    /// The number that it is, if it is one.
    pub fn number(&self, line: &[u8]) -> Option<u64> {
        if b"ax".contains(&self.gap) { None } else { self.text(line).parse().ok() }
    }

    pub fn is_step(&self) -> bool {
        self.key == "step"
    }

    /// Whether it is a moment at which something is due.
    pub fn is_due(&self) -> bool {
        self.key.ends_with("_at")
    }

    /// The line with another value here.
    pub fn with(&self, line: &[u8], text: &str) -> Vec<u8> {
        [&line[..self.place.start], text.as_bytes(), &line[self.place.end..]].concat()
    }

    /// Simpler values, the simplest first; a number has none here but 0, since the least that will do is looked for.
    pub fn simpler(&self, line: &[u8]) -> Vec<String> {
        let text = self.text(line);
        match self.gap {
            b'x' if self.key == "hardware" => unlike(text, HARDWARE),
            b'x' => shorter(self.key, &bytes(text)).iter().map(|bytes| hex(bytes)).collect(),
            b'a' => unlike(text, "0.0.0.0"),
            _ => unlike(text, "0"),
        }
    }
}

fn unlike(text: &str, simplest: &str) -> Vec<String> {
    if text == simplest { vec![] } else { vec![simplest.into()] }
}

fn bytes(hex: &str) -> Vec<u8> {
    (0..hex.len() / 2).map(|i| u8::from_str_radix(&hex[2 * i..2 * i + 2], 16).unwrap()).collect()
}

fn hex(bytes: &[u8]) -> String {
    bytes.iter().map(|byte| format!("{byte:02x}")).collect()
}

/// Shorter runs of bytes: none, half of them, one item left out, one byte less.
fn shorter(key: &str, bytes: &[u8]) -> Vec<Vec<u8>> {
    let Some(last) = bytes.len().checked_sub(1) else { return vec![] };
    let mut found = vec![vec![], bytes[..bytes.len() / 2].to_vec()];
    if key == "reply" && bytes.len() > HEADER {
        found.push(bytes[..HEADER].to_vec());
    }
    let from = if key == "reply" { HEADER } else { 0 };
    for item in items(bytes, from).into_iter().rev() {
        found.push([&bytes[..item.start], &bytes[item.end..]].concat());
    }
    found.push(bytes[..last].to_vec());
    found
}

/// Where the options are in a run of bytes.
fn items(bytes: &[u8], from: usize) -> Vec<Range<usize>> {
    let mut padded = vec![0; HEADER];
    padded.extend_from_slice(bytes.get(from..).unwrap_or(&[]));
    let start = padded.as_ptr() as usize + HEADER;
    message::options(&padded)
        .into_iter()
        .map(|(_, data)| {
            let begin = from + data.as_ptr() as usize - start - 2;
            begin..begin + 2 + data.len()
        })
        .collect()
}
