//! The answers that a device gave, held to the Rust's. A device leaves out the lines that it cannot give; docs/TRACE.md says
//! how its answers are told apart then.
use std::fs::File;
use std::io::{BufRead, BufReader, Read};

use crate::record::LONGEST_LINE;

/// The words that an answer begins with, and the calls that have such an answer.
const HEADS: [(&[u8], &[&str]); 8] = [
    (b"created", &["new"]),
    (b"polled", &["poll"]),
    (b"processed", &["process"]),
    (b"was_reset", &["reset"]),
    (b"changed", &["add_address", "drop_address", "add_route", "drop_route"]),
    (b"got", &["get"]),
    (b"masked", &["mask"]),
    (b"optioned", &["option"]),
];

pub struct Device {
    input: BufReader<File>,
    /// The line that is next, and its number from 1; none at the end.
    line: Vec<u8>,
    number: usize,
    /// Calls that the record has an answer to, calls that it has none to, and lines that were compared.
    pub answered: u64,
    pub silent: u64,
    pub lines: u64,
}

fn word(line: &[u8]) -> &[u8] {
    line.split(|c| *c == b' ').next().unwrap()
}

/// The calls that an answer with this first line may be to, if it is a first line.
fn head(line: &[u8]) -> Option<&'static [&'static str]> {
    HEADS.iter().find(|(head, _)| *head == word(line)).map(|(_, calls)| *calls)
}

impl Device {
    pub fn open(path: &str) -> Result<Device, String> {
        let file = File::open(path).map_err(|e| format!("{path}: {e}"))?;
        let input = BufReader::with_capacity(1 << 16, file);
        let mut device = Device { input, line: vec![], number: 0, answered: 0, silent: 0, lines: 0 };
        device.next()?;
        Ok(device)
    }

    /// Goes on to the next line that is no comment and not empty.
    fn next(&mut self) -> Result<(), String> {
        loop {
            self.number += 1;
            self.line.clear();
            let most = LONGEST_LINE as u64 + 1;
            let read = (&mut self.input).take(most).read_until(b'\n', &mut self.line).map_err(|e| e.to_string())?;
            if self.line.last() == Some(&b'\n') {
                self.line.pop();
            } else if self.line.len() > LONGEST_LINE {
                return Err(self.wrong(&format!("longer than {LONGEST_LINE} characters")));
            }
            if read == 0 || !self.line.is_empty() && self.line[0] != b'#' {
                return Ok(());
            }
        }
    }

    fn wrong(&self, why: &str) -> String {
        format!("the device's answers, line {}: {why}", self.number)
    }

    /// Holds the next answer to the Rust's: the line of it that does not stand there, if one does not.
    pub fn hold(&mut self, call: &'static str, answer: &[u8]) -> Result<Option<Vec<u8>>, String> {
        if self.line.is_empty() {
            self.silent += 1;
            return Ok(None);
        }
        let first = String::from_utf8_lossy(word(&self.line)).into_owned();
        match head(&self.line) {
            None => return Err(self.wrong(&format!("no answer begins with `{}`", first.escape_debug()))),
            Some(calls) if !calls.contains(&call) => return Err(self.wrong(&format!("`{first}`, where the call is `{call}`"))),
            Some(_) => {}
        }
        let mut ours = answer.split(|c| *c == b'\n');
        // A first line that is a word alone says only that an answer begins here.
        let mut left_out = word(&self.line) == self.line;
        let mut lines = 0;
        loop {
            if !std::mem::take(&mut left_out) {
                lines += 1;
                if !ours.any(|line| line == self.line) {
                    return Ok(Some(self.line.clone()));
                }
            }
            self.next()?;
            if self.line.is_empty() || head(&self.line).is_some() {
                break;
            }
        }
        self.lines += lines;
        if lines > 0 {
            self.answered += 1
        } else {
            self.silent += 1
        }
        Ok(None)
    }

    /// Whether all answers were used up.
    pub fn end(&self) -> Result<(), String> {
        if self.line.is_empty() { Ok(()) } else { Err(self.wrong("an answer more than there are calls")) }
    }
}
