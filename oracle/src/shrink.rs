//! Looks for the smallest list of calls that shows a difference: records are left out, and values made simpler, as long as a
//! fresh process of the other program still differs from the Rust in the same manner.
use std::process::Stdio;
use std::time::{Duration, Instant};

use crate::other::{self, Found};
use crate::post::Post;
use crate::read::Fields;
use crate::record::Call;
use crate::run::Run;
use crate::simpler::{Value, values};
use crate::write::Writer;

/// How long it looks, at most, and how many lists it tries.
const LONGEST: Duration = Duration::from_secs(60);
const MOST_TRIES: u32 = 20_000;

/// How long a program may take over a list: one that hangs is waited for at each try.
const PATIENCE: Duration = Duration::from_secs(2);

/// A record of the list. A reply to the client stays one when an earlier record changes: its id and hardware address follow
/// those that the client has when it comes.
#[derive(Clone)]
pub struct Step {
    pub line: Vec<u8>,
    id: bool,
    hardware: bool,
}

/// A list as it was given to both, cut off after the call that shows the difference, and both answers to that call.
pub struct Shown {
    pub steps: Vec<Step>,
    pub rust: Vec<u8>,
    pub ours: Vec<u8>,
}

pub struct Shrink<'a> {
    program: &'a str,
    found: Found,
    run: Run<Post>,
    fields: Fields,
    pub tries: u32,
    begun: Instant,
}

impl<'a> Shrink<'a> {
    pub fn new(program: &'a str, found: Found) -> Self {
        let run = Run::new(Post::new());
        Shrink { program, found, run, fields: Fields::default(), tries: 0, begun: Instant::now() }
    }

    /// Whether it stopped looking before it had tried all.
    pub fn spent(&self) -> bool {
        self.tries >= MOST_TRIES || self.begun.elapsed() >= LONGEST
    }

    /// The records of a list, with what each reply follows.
    pub fn steps(&mut self, lines: &[Vec<u8>]) -> Option<Vec<Step>> {
        self.run.call(&Call::Start { moment: 0, generator: 0 }).ok()?;
        let mut steps = vec![];
        for line in lines {
            let call = self.fields.call(line).ok()?;
            let (mut id, mut hardware) = (false, false);
            if let Call::Process { reply, .. } = &call {
                let client = &self.run.post.plain.client;
                id = reply.get(4..8) == Some(&client.id.to_be_bytes());
                hardware = reply.get(28..34) == Some(&client.settings.hardware);
            }
            self.run.call(&call).ok()?;
            steps.push(Step { line: line.clone(), id, hardware });
        }
        Some(steps)
    }

    /// The same, if the list shows the difference.
    pub fn shown(&mut self, lines: &[Vec<u8>]) -> Option<Vec<Step>> {
        let steps = self.steps(lines)?;
        Some(self.shows(&steps, Stdio::null())?.steps)
    }

    /// Gives a list to both, and cuts it off where they differ, if they do so in the manner that is looked for. A list with a
    /// record that the Rust's side refuses is none.
    pub fn shows(&mut self, steps: &[Step], errors: Stdio) -> Option<Shown> {
        let last = steps.len().checked_sub(1)?;
        self.tries += 1;
        self.run.call(&Call::Start { moment: 0, generator: 0 }).ok()?;
        let mut steps = steps.to_vec();
        let mut answers = Writer { out: vec![] };
        let mut ends = vec![];
        for step in &mut steps {
            let mut call = self.fields.call(&step.line).ok()?;
            if let Call::Process { reply, .. } = &mut call {
                let client = &self.run.post.plain.client;
                let mut follow = |place: std::ops::Range<usize>, bytes: &[u8], wanted: bool| {
                    if let Some(there) = reply.get_mut(place).filter(|_| wanted) {
                        there.copy_from_slice(bytes);
                    }
                };
                follow(4..8, &client.id.to_be_bytes(), step.id);
                follow(28..34, &client.settings.hardware, step.hardware);
                step.line = line(&call);
            }
            let answer = self.run.call(&call).ok()?;
            answers.answer(&call, &answer, &self.run.post.plain);
            ends.push(answers.out.len());
        }
        let text = text(&steps);
        let (got, found) = other::once(self.program, &text, &answers.out, PATIENCE, errors).ok()?;
        if found != self.found {
            return None;
        }
        let same = got.iter().zip(&answers.out).take_while(|(a, b)| a == b).count();
        let at = match found {
            Found::Differs => ends.iter().position(|end| *end > same).unwrap_or(last),
            _ => last,
        };
        let from = if at == 0 { 0 } else { ends[at - 1] };
        steps.truncate(at + 1);
        let ours = got.get(from..).unwrap_or(&[]).to_vec();
        Some(Shown { steps, rust: answers.out[from..ends[at]].to_vec(), ours })
    }

    fn still(&mut self, steps: &[Step]) -> Option<Vec<Step>> {
        if self.spent() { None } else { Some(self.shows(steps, Stdio::null())?.steps) }
    }

    /// The smallest list that it comes to from one that shows the difference.
    pub fn shrink(&mut self, mut steps: Vec<Step>) -> Vec<Step> {
        loop {
            let before = text(&steps);
            steps = self.fewer(steps);
            steps = self.rebased(steps);
            for at in 0..steps.len() {
                if at < steps.len() {
                    steps = self.plainer(steps, at);
                }
            }
            if text(&steps) == before || self.spent() {
                return steps;
            }
        }
    }

    /// The shortest beginning that shows it, if all that are longer do; without what comes before its last `start`, if it can.
    pub fn shortest(&mut self, mut steps: Vec<Step>) -> Vec<Step> {
        let (mut low, mut high) = (0, steps.len());
        while high > low + 1 && !self.spent() {
            let middle = low + (high - low) / 2;
            match self.still(&steps[..middle]) {
                Some(_) => high = middle,
                None => low = middle,
            }
        }
        steps.truncate(high);
        let begun = steps.iter().rposition(|step| step.line.starts_with(b"start ")).unwrap_or(0);
        self.still(&steps[begun..]).unwrap_or(steps)
    }

    /// Leaves records out, many at once and then fewer. The first stays where it is a `start`.
    fn fewer(&mut self, mut steps: Vec<Step>) -> Vec<Step> {
        let first = steps[0].line.starts_with(b"start ") as usize;
        let mut size = steps.len().div_ceil(2);
        loop {
            let (mut at, before) = (first, steps.len());
            while at < steps.len() && !self.spent() {
                match self.without(&steps, at, size.min(steps.len() - at)) {
                    Some(fewer) => steps = fewer,
                    None => at += size,
                }
            }
            if size == 1 && steps.len() == before || self.spent() {
                return steps;
            }
            size = size.div_ceil(2);
        }
    }

    /// Without some records: those behind them come at the moments at which they came, or, failing that, earlier.
    fn without(&mut self, steps: &[Step], at: usize, count: usize) -> Option<Vec<Step>> {
        let fewer = [&steps[..at], &steps[at + count..]].concat();
        if fewer.is_empty() {
            return None;
        }
        let passed = steps[at..at + count].iter().filter_map(|step| step_of(&step.line)).map(|(_, n)| n as u32);
        let passed = passed.fold(0u32, |sum, n| sum.wrapping_add(n));
        let mut later = fewer.clone();
        if passed > 0
            && let Some(next) = later[at..].iter_mut().find(|step| step_of(&step.line).is_some())
        {
            let (value, own) = step_of(&next.line).unwrap();
            next.line = value.with(&next.line, &passed.wrapping_add(own as u32).to_string());
            if let Some(shown) = self.still(&later) {
                return Some(shown);
            }
        }
        self.still(&fewer)
    }

    /// From the moment 0, with all that is due moved along.
    fn rebased(&mut self, steps: Vec<Step>) -> Vec<Step> {
        let Some(moment) = values(&steps[0].line).first().and_then(|value| value.number(&steps[0].line)) else { return steps };
        if moment == 0 || !steps[0].line.starts_with(b"start ") {
            return steps;
        }
        let mut moved = steps.clone();
        moved[0].line = values(&steps[0].line)[0].with(&steps[0].line, "0");
        for step in &mut moved[1..] {
            for place in 0..values(&step.line).len() {
                let value = &values(&step.line)[place];
                if value.is_due() {
                    let due = value.number(&step.line).unwrap() as u32;
                    step.line = value.with(&step.line, &due.wrapping_sub(moment as u32).to_string());
                }
            }
        }
        self.still(&moved).unwrap_or(steps)
    }

    /// The list with another line at a place, if that still shows it.
    fn with_line(&mut self, steps: &[Step], at: usize, line: Vec<u8>) -> Option<Vec<Step>> {
        let mut changed = steps.to_vec();
        changed.get_mut(at)?.line = line;
        self.still(&changed)
    }

    /// Makes the values of one record simpler, each as far as it goes.
    fn plainer(&mut self, mut steps: Vec<Step>, at: usize) -> Vec<Step> {
        let mut place = 0;
        while !self.spent()
            && let Some(line) = steps.get(at).map(|step| step.line.clone())
            && let Some(value) = values(&line).into_iter().nth(place)
        {
            let simpler = value.simpler(&line);
            let plain = simpler.iter().find_map(|text| self.with_line(&steps, at, value.with(&line, text)));
            // Bytes that were made fewer may be made fewer still.
            place += (plain.is_none() || value.number(&line).is_some()) as usize;
            match plain {
                Some(plain) => steps = plain,
                None => steps = self.least(steps, at, &value),
            }
        }
        steps
    }

    /// The least number that will do in a value's place, where 0 does not: if all above it do.
    fn least(&mut self, mut steps: Vec<Step>, at: usize, value: &Value) -> Vec<Step> {
        let line = steps[at].line.clone();
        let Some(number) = value.number(&line) else { return steps };
        let (mut low, mut high) = (0, number);
        while high > low + 1 && !self.spent() {
            let middle = low + (high - low) / 2;
            match self.with_line(&steps, at, value.with(&line, &middle.to_string())) {
                Some(plain) => (steps, high) = (plain, middle),
                None => low = middle,
            }
        }
        steps
    }
}

/// The number of a record's step, if it has one.
fn step_of(line: &[u8]) -> Option<(Value, u64)> {
    let value = values(line).into_iter().find(Value::is_step)?;
    let number = value.number(line)?;
    Some((value, number))
}

/// A call as it is written down, without the end of the line.
pub fn line(call: &Call) -> Vec<u8> {
    let mut writer = Writer { out: vec![] };
    writer.call(call);
    writer.out.pop();
    writer.out
}

/// A list as it is written down.
pub fn text(steps: &[Step]) -> Vec<u8> {
    steps.iter().flat_map(|step| step.line.iter().copied().chain([b'\n'])).collect()
}
