//! Lines of a text, of bounded length.
use std::io::{BufRead, Read};

use crate::record::LONGEST_LINE;

/// The lines of an input, one after the other.
pub struct Lines<R> {
    input: R,
    pub line: Vec<u8>,
    /// The number of the line that was last read, from 1.
    pub number: usize,
    /// Whether it ended in LF; the last one of a text that was cut does not.
    pub ended: bool,
}

impl<R: BufRead> Lines<R> {
    pub fn new(input: R) -> Self {
        Lines { input, line: vec![], number: 0, ended: true }
    }

    /// The next line, without its LF.
    pub fn next(&mut self) -> Result<Option<&[u8]>, String> {
        self.line.clear();
        let most = LONGEST_LINE as u64 + 1;
        let read = (&mut self.input).take(most).read_until(b'\n', &mut self.line).map_err(|e| e.to_string())?;
        if read == 0 {
            return Ok(None);
        }
        self.number += 1;
        self.ended = self.line.last() == Some(&b'\n');
        if self.ended {
            self.line.pop();
        } else if self.line.len() > LONGEST_LINE {
            return Err(format!("line {}: longer than {LONGEST_LINE} characters", self.number));
        }
        Ok(Some(&self.line))
    }
}
