//! Reads a list of calls beside the answers to it, call by call, and holds the two to each other: an answer is of its call's
//! kind, at the moment that the steps give, and the post stands whole behind it. The list has to be one run of one post.
use std::io::BufRead;

use crate::lines::Lines;
use crate::message;
use crate::plain::*;
use crate::read::Fields;
use crate::record::{Answer, Call};
use crate::season::UDP;

/// A call with its answer, and the post as it stood then.
pub struct Observed {
    pub call: Call,
    pub answer: Answer,
    /// The type of the message that a poll sent.
    pub sent: Option<u8>,
    pub state: State,
    /// In Renewing.
    pub lease: Option<Box<Lease>>,
    /// Before the call's step was added.
    pub moment: u32,
}

pub struct Both<L, A> {
    list: Lines<L>,
    answers: Lines<A>,
    fields: Fields,
    moment: u32,
    started: bool,
    created: bool,
    pub settings: Settings,
}

impl<L: BufRead, A: BufRead> Both<L, A> {
    pub fn new(list: L, answers: A) -> Self {
        let (list, answers, settings) = (Lines::new(list), Lines::new(answers), Settings::zero());
        Both { list, answers, fields: Fields::default(), moment: 0, started: false, created: false, settings }
    }

    /// The next call on the post, with its answer; none at the end of both texts.
    pub fn next(&mut self) -> Result<Option<Observed>, String> {
        while let Some(line) = self.list.next().map_err(|why| format!("the list: {why}"))? {
            if line.is_empty() || line[0] == b'#' {
                continue;
            }
            let call = self.fields.call(line).and_then(|call| self.one_run(call));
            let call = call.map_err(|why| format!("the list, line {}: {why}", self.list.number))?;
            if call.word() == "set" {
                continue;
            }
            let observed = self.answer(call).map_err(|why| {
                format!("the answers, line {}, to line {} of the list: {why}", self.answers.number, self.list.number)
            })?;
            if !matches!(observed.call, Call::Mask(_) | Call::Option { .. }) {
                return Ok(Some(observed));
            }
        }
        if !self.created {
            return Err("the list: no post is created in it".into());
        }
        match self.answers.next()? {
            None => Ok(None),
            Some(_) => Err(format!("the answers, line {}: the list has no call for it", self.answers.number)),
        }
    }

    /// A run is `start`, then what the post is created with, `new`, and calls.
    fn one_run(&mut self, call: Call) -> Result<Call, String> {
        match &call {
            Call::Start { .. } if self.started => return Err("a second `start`: a picture is of one run".into()),
            Call::Start { moment, .. } => (self.started, self.moment) = (true, *moment),
            _ if !self.started => return Err("a list begins with `start`".into()),
            Call::New if self.created => return Err("a second `new`: a picture is of one post".into()),
            Call::New => self.created = true,
            Call::Reply { .. } => return Err("a list of calls has `process`; expand this one first".into()),
            _ if call.word() == "set" && self.created => return Err("sets the post: a picture is of calls alone".into()),
            Call::Settings(settings) => self.settings = settings.clone(),
            _ if call.word() != "set" && !self.created => return Err("a call before `new`: no post to draw".into()),
            _ => {}
        }
        Ok(call)
    }

    fn answer(&mut self, call: Call) -> Result<Observed, String> {
        let (moment, mut answer) = self.fields.answer(wanted(&mut self.answers)?)?;
        if !fits(&call, &answer) {
            return Err(format!("this is no answer to `{}`", call.word()));
        }
        let before = self.moment;
        let mut observed =
            Observed { call, answer: Answer::Nothing, sent: None, state: State::Init, lease: None, moment: before };
        if let Answer::Masked { .. } | Answer::Optioned(_) = answer {
            return Ok(observed);
        }
        self.moment = before.wrapping_add(observed.call.step());
        if moment != self.moment {
            return Err(format!("the moment is {moment}, and by the steps it is {}", self.moment));
        }
        if let Answer::Created { number } = answer {
            self.fields.call(wanted(&mut self.answers)?).map(|_| ())?;
            if number != 0 {
                return Err(format!("the settings are refused by {number}: no post to draw"));
            }
        }
        if let Answer::Polled(polled) = &mut answer {
            (polled.length, polled.source, polled.destination) = self.fields.sent(wanted(&mut self.answers)?)?;
            let buffer = self.fields.buffer(wanted(&mut self.answers)?)?;
            let message = if polled.length == 0 { &[] } else { buffer.get(UDP..).unwrap_or(&[]) };
            observed.sent = message::message_type(message);
            if polled.length > 0 && !matches!(observed.sent, Some(message::DISCOVER | message::REQUEST)) {
                return Err("what was sent is neither a Discover nor a Request".into());
            }
        }
        observed.answer = answer;
        self.post(&mut observed)?;
        Ok(observed)
    }

    /// The records of the post, behind an answer.
    fn post(&mut self, observed: &mut Observed) -> Result<(), String> {
        let mut record = |what: &str| {
            let call = self.fields.call(wanted(&mut self.answers)?)?;
            let is = match call {
                Call::State { .. } => "the state",
                Call::Lease(_) => "lease",
                Call::Tables { .. } => "tables",
                Call::Address(_) => "address",
                Call::Route(_) => "route",
                Call::Generator(_) => "generator",
                _ => "another record",
            };
            if is == what { Ok(call) } else { Err(format!("{is} stands where {what} was expected")) }
        };
        if let Call::State { state, .. } = record("the state")? {
            observed.state = state;
        }
        if observed.state.renewing()
            && let Call::Lease(lease) = record("lease")?
        {
            observed.lease = Some(lease);
        }
        let Call::Tables { addresses, routes, .. } = record("tables")? else { unreachable!() };
        for _ in 0..addresses.min(MOST_ENTRIES as u8) {
            record("address")?;
        }
        for _ in 0..routes.min(MOST_ENTRIES as u8) {
            record("route")?;
        }
        record("generator").map(|_| ())
    }
}

/// The next line of the answers, which has to be there and whole.
fn wanted<A: BufRead>(answers: &mut Lines<A>) -> Result<&[u8], String> {
    if answers.next()?.is_none() {
        return Err("the answers end here, in the middle of the list".into());
    }
    if !answers.ended {
        return Err("the answers are cut off here".into());
    }
    Ok(&answers.line)
}

fn fits(call: &Call, answer: &Answer) -> bool {
    match answer {
        Answer::Nothing => false,
        Answer::Created { .. } => *call == Call::New,
        Answer::Polled(_) => matches!(call, Call::Poll { .. }),
        Answer::Processed(_) => matches!(call, Call::Process { .. }),
        Answer::WasReset(_) => matches!(call, Call::Reset { .. }),
        Answer::Changed { .. } => call.word().starts_with("add_") || call.word().starts_with("drop_"),
        Answer::Got { .. } => matches!(call, Call::Get { .. }),
        Answer::Masked { .. } => matches!(call, Call::Mask(_)),
        Answer::Optioned(_) => matches!(call, Call::Option { .. }),
    }
}
