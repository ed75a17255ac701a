//! One pitch's season as a list of calls: a post on a campsite, from 1 April to the end of October, for a picture of it.
//! The replies are made for the ids of the Rust's client as it stands.
//!
//! What happens on the site stands in the tables below, each thing at a day and, by the seed, some hours later and of some
//! length. Between them every twentieth message or so is lost, and now and then a reply comes that is not for the post.
//! A poll comes at each waking moment and right behind each reply.
use std::collections::VecDeque;

use crate::generate::Random;
use crate::message::{self, ACK, DISCOVER, NAK, OFFER, REQUEST};
use crate::number;
use crate::plain::*;
use crate::post::Post;
use crate::record::{Answer, Call};
use crate::run::Run;
use crate::season::{BROADCAST, FIRST_MOMENT, HARDWARE, HOUR, IDENTIFIER, NAME, SERVER, UDP};
use crate::words::MINUTE;
use crate::write::Writer;

/// From 1 April to 31 October, both of them.
const SEASON: u64 = 214 * 24 * HOUR;

/// The spare router, which hears broadcasts alone.
const SPARE: Address = [10, 0, 0, 8];
/// 255.255.252.0, router 10.0.0.1, DNS servers 10.0.0.2 and 10.0.0.3.
const TERMS: [u8; 22] = [1, 4, 255, 255, 252, 0, 3, 4, 10, 0, 0, 1, 6, 8, 10, 0, 0, 2, 10, 0, 0, 3];
/// What a technician enters by hand.
const SERVICE: Address = [192, 168, 88, 2];
const SERVICE_NETWORK: Address = [192, 168, 0, 0];
const SERVICE_ROUTER: Address = [192, 168, 88, 1];

#[derive(Clone, Copy, PartialEq)]
enum What {
    /// No message is answered.
    RouterOff,
    /// Nor here, and in the end the post is reset.
    LinkDown,
    /// Only the spare router answers.
    OnSpare,
    /// Discovers are answered, Requests are not.
    NoAcks,
}
use What::*;

/// Day, hours that the seed may add, minutes at least and at most.
const INCIDENTS: [(u64, u64, u64, u64, What); 13] = [
    (0, 0, 25, 50, RouterOff),
    (11, 20, 7 * 60, 9 * 60, RouterOff),
    (23, 20, 22 * 60, 26 * 60, RouterOff),
    (37, 30, 10, 40, LinkDown),
    (65, 20, 13 * 60, 15 * 60, RouterOff),
    (79, 30, 5, 20, LinkDown),
    (97, 20, 2 * 60, 3 * 60, RouterOff),
    (110, 20, 45, 55, RouterOff),
    // By the end of this one the router has forgotten whom it lent what.
    (118, 2, 4 * 60, 6 * 60, RouterOff),
    (134, 30, 4 * 60, 8 * 60, OnSpare),
    (170, 20, 8 * 60, 9 * 60, RouterOff),
    (197, 20, 5, 10, LinkDown),
    (205, 10, 90, 200, RouterOff),
];

/// From which hour on which address is lent, for how many hours. Who asks for another one gets a NAK: when the router is
/// replaced, and when its pool moves.
const LENT: [(u64, Address, u64); 6] = [
    (0, [10, 0, 0, 50], 24),
    (48 * 24, [10, 0, 1, 77], 12),
    (91 * 24, [10, 0, 1, 77], 1),
    (118 * 24 + 3, [10, 0, 1, 112], 1),
    (153 * 24, [10, 0, 1, 112], 24),
    (187 * 24, [10, 0, 2, 31], 6),
];

struct Incident {
    from: u64,
    until: u64,
    what: What,
}

struct Pitch {
    run: Run<Post>,
    writer: Writer,
    random: Random,
    /// Milliseconds since creation.
    elapsed: u64,
    incidents: Vec<Incident>,
    /// What is neither a poll nor a reply, and when.
    due: VecDeque<(u64, Call)>,
}

pub fn calls(seed: &str) -> Result<(), String> {
    let seed = number(seed)?;
    let mut random = Random::new(seed);
    let mut incidents: Vec<Incident> = INCIDENTS.iter().map(|row| incident(row, &mut random)).collect();
    // After the last reset the server is slow: its OFFERs come, its ACKs don't.
    let slow = incidents.iter().rev().find(|i| i.what == LinkDown).map_or(0, |i| i.until);
    incidents.push(Incident { from: slow, until: slow + (4 + random.below(6)) * MINUTE, what: NoAcks });
    let due = by_hand(&incidents, &mut random);
    let moment = FIRST_MOMENT - random.below(1 << 28) as u32;
    let mut pitch = Pitch { run: Run::new(Post::new()), writer: Writer { out: vec![] }, random, elapsed: 0, incidents, due };
    pitch.writer.out.extend(format!("# One pitch's season, 1 April to 31 October: oracle season calls {seed}.\n").bytes());
    pitch.call(&Call::Start { moment, generator: seed })?;
    pitch.call(&Call::Settings(Settings { mtu: 1500, hardware: HARDWARE, name: NAME.to_vec(), ..Settings::zero() }))?;
    pitch.call(&Call::New)?;
    pitch.season()?;
    pitch.writer.flush(true)
}

fn incident(&(day, hours, least, most, what): &(u64, u64, u64, u64, What), random: &mut Random) -> Incident {
    let from = day * 24 * HOUR + random.upto(hours * 60) * MINUTE;
    Incident { from, until: from + (least + random.upto(most - least)) * MINUTE, what }
}

/// The resets, and a technician's visit in September: entries for four days.
fn by_hand(incidents: &[Incident], random: &mut Random) -> VecDeque<(u64, Call)> {
    let resets = incidents.iter().filter(|i| i.what == LinkDown).map(|i| (i.until, Call::Reset { step: 0 }));
    let mut due: Vec<(u64, Call)> = resets.collect();
    let come = 162 * 24 * HOUR + (8 * 60 + random.below(300)) * MINUTE;
    let gone = come + (95 * 60 + random.below(300)) * MINUTE;
    let (network, router) = (SERVICE_NETWORK, SERVICE_ROUTER);
    due.push((come, Call::AddAddress { step: 0, address: SERVICE, prefix: 24 }));
    due.push((come + MINUTE, Call::AddRoute { step: 0, network, prefix: 16, router }));
    due.push((gone, Call::DropRoute { step: 0, network, prefix: 16, router }));
    due.push((gone + MINUTE, Call::DropAddress { step: 0, address: SERVICE, prefix: 24 }));
    due.sort_by_key(|thing| thing.0);
    due.into()
}

impl Pitch {
    fn call(&mut self, call: &Call) -> Result<Answer, String> {
        self.writer.call(call);
        self.writer.flush(false)?;
        self.elapsed += call.step() as u64;
        self.run.call(call)
    }

    fn season(&mut self) -> Result<(), String> {
        let mut step = 0;
        while self.elapsed + step as u64 <= SEASON {
            if let Some((at, call)) = self.due.pop_front_if(|thing| thing.0 <= self.elapsed + step as u64) {
                let wait = at.saturating_sub(self.elapsed) as u32;
                self.call(&after(wait, call.clone()))?;
                step = if matches!(call, Call::Reset { .. }) { 0 } else { step - wait };
                continue;
            }
            let Answer::Polled(polled) = self.call(&Call::Poll { step, length: 600, fill: 0xa5 })? else { unreachable!() };
            if polled.number != 0 {
                return Err(format!("a poll is refused by {}", polled.number));
            }
            step = polled.wake.wrapping_sub(self.run.post.plain.moment);
            if polled.length > 0 && self.answered(polled.destination == BROADCAST)? {
                step = 0;
            }
        }
        Ok(())
    }

    fn goes_on(&self, what: What) -> bool {
        self.incidents.iter().any(|i| i.what == what && (i.from..i.until).contains(&self.elapsed))
    }

    /// Makes the replies to the message that stands in the buffer; whether one was meant for the post.
    fn answered(&mut self, broadcast: bool) -> Result<bool, String> {
        let sent = self.run.post.plain.buffer[UDP..].to_vec();
        let kind = message::message_type(&sent);
        if self.goes_on(RouterOff) || self.goes_on(LinkDown) {
            return Ok(false);
        }
        if self.random.percent(2) {
            self.stray(&sent)?;
        }
        let spare = self.goes_on(OnSpare);
        let silent = spare && !broadcast || self.goes_on(NoAcks) && kind == Some(REQUEST);
        if silent || self.random.percent(5) {
            return Ok(false);
        }
        let (lent, hours) = self.lent();
        let asked = message::option(&sent, 50).unwrap_or(&sent[12..16]);
        let kind = match kind {
            Some(DISCOVER) => OFFER,
            _ if asked == lent => ACK,
            _ => NAK,
        };
        let mut options = vec![53, 1, kind];
        options.extend(IDENTIFIER);
        if spare {
            let at = options.len() - SPARE.len();
            options[at..].copy_from_slice(&SPARE);
        }
        if kind != NAK {
            options.extend([51, 4]);
            options.extend((hours as u32 * 3600).to_be_bytes());
            options.extend(TERMS);
        }
        options.push(255);
        let id = u32::from_be_bytes(sent[4..8].try_into().unwrap());
        let reply = message::reply(id, &HARDWARE, if kind == NAK { [0; 4] } else { lent }, &options);
        let step = 15 + self.random.below(40) as u32;
        self.call(&Call::Process { step, source: if spare { SPARE } else { SERVER }, reply })?;
        Ok(true)
    }

    /// Which address is lent now, and for how many hours.
    fn lent(&self) -> (Address, u64) {
        let row = LENT.iter().rev().find(|row| row.0 * HOUR <= self.elapsed).unwrap();
        (row.1, row.2)
    }

    /// A reply to someone else, or to an earlier message, or an OFFER of a visitor's own router.
    fn stray(&mut self, sent: &[u8]) -> Result<(), String> {
        let id = u32::from_be_bytes(sent[4..8].try_into().unwrap());
        let mut options = vec![53, 1, ACK];
        options.extend(IDENTIFIER);
        options.extend(TERMS);
        options.push(255);
        let neighbour = [2, 0, 0, 0, 0, 0x12];
        let reply = match self.random.below(3) {
            0 => message::reply(id, &neighbour, [10, 0, 0, 51], &options),
            1 => message::reply(id ^ 1, &HARDWARE, [10, 0, 0, 50], &options),
            // A Discover might be served by it.
            _ if message::message_type(sent) == Some(DISCOVER) => return Ok(()),
            _ => message::reply(id, &HARDWARE, [192, 168, 1, 20], &[53, 1, OFFER, 54, 4, 192, 168, 1, 1, 255]),
        };
        let step = 3 + self.random.below(9) as u32;
        self.call(&Call::Process { step, source: SERVER, reply }).map(|_| ())
    }
}

/// The same call, so much later.
fn after(wait: u32, call: Call) -> Call {
    match call {
        Call::AddAddress { address, prefix, .. } => Call::AddAddress { step: wait, address, prefix },
        Call::DropAddress { address, prefix, .. } => Call::DropAddress { step: wait, address, prefix },
        Call::AddRoute { network, prefix, router, .. } => Call::AddRoute { step: wait, network, prefix, router },
        Call::DropRoute { network, prefix, router, .. } => Call::DropRoute { step: wait, network, prefix, router },
        _ => Call::Reset { step: wait },
    }
}
