//! One whole season: a post that is created on 1 April and polled at each waking moment to the end of October, with leases of
//! an hour, through every wrap of the clock. crates/worked_season is the same with our client, and is held to this output.
//!
//! The server hears message k, counted from 0, in hour h of the season. It is silent where h % 29 is 7 or 8. Else, where
//! k % 61 is 60, a Request gets a NAK and a Discover nothing; where k % 13 is 12 the message is lost; and any other Discover
//! gets an OFFER, any other Request an ACK. A reply comes after 20 + k % 7 ms, with a poll right behind it. Without one the
//! next poll is at the waking moment. The season ends before the first call that would come later than its last day.
use crate::message::{self, ACK, DISCOVER, NAK, OFFER, REQUEST};
use crate::plain::*;
use crate::post::{Polled, Post};
use crate::record::{Answer, Call};
use crate::run::Run;
use crate::show::dotted;

pub const FIRST_MOMENT: u32 = 4_000_000_000;
const SEED: u64 = 20_260_401;
pub const HARDWARE: [u8; 6] = [2, 0, 0, 0, 0, 0x11];
pub const NAME: &[u8] = b"pitch-17";

/// What the lent buffer holds before each poll.
const LENT: [u8; 600] = [0xa5; 600];

/// The months, and the days from the first of April to the end of each.
const MONTHS: [(&str, u64); 7] =
    [("April", 30), ("May", 61), ("June", 91), ("July", 122), ("August", 153), ("September", 183), ("October", 214)];
pub const HOUR: u64 = 3_600_000;

/// Where the replies come from; the identifier in them is another address.
pub const SERVER: Address = [10, 0, 0, 9];
pub const IDENTIFIER: [u8; 6] = [54, 4, 10, 0, 0, 1];
/// An hour, 255.255.255.0, router 10.0.0.1, DNS servers 10.0.0.2 and 10.0.0.3.
const TERMS: [u8; 28] = [51, 4, 0, 0, 14, 16, 1, 4, 255, 255, 255, 0, 3, 4, 10, 0, 0, 1, 6, 8, 10, 0, 0, 2, 10, 0, 0, 3];
pub const BROADCAST: Address = [255; 4];
/// The UDP header, before a message.
pub const UDP: usize = 8;

/// What is counted, in the order in which a line has it.
const POLLS: usize = 0;
const SILENT: usize = 1;
const DISCOVERS: usize = 2;
const REQUESTS: usize = 3;
const RENEWALS: usize = 4;
const BROADCASTS: usize = 5;
const OFFERS: usize = 6;
const ACKS: usize = 7;
const NAKS: usize = 8;
const EXPIRED: usize = 9;
const WRAPS: usize = 10;
const WORDS: [&str; 11] = [
    "polls,",
    "silent |",
    "Discovers,",
    "Requests,",
    "renewals to the server,",
    "broadcast |",
    "OFFERs,",
    "ACKs,",
    "NAKs |",
    "leases expired,",
    "wraps | digest",
];

/// Adler-32, over all that the post answers.
struct Digest {
    a: u32,
    b: u32,
}

impl Digest {
    fn add(&mut self, octets: &[u8]) {
        for octet in octets {
            self.a = (self.a + *octet as u32) % 65521;
            self.b = (self.b + self.a) % 65521;
        }
    }
}

struct Season {
    post: Post,
    /// Milliseconds since creation.
    elapsed: u64,
    /// How many months are over.
    months: usize,
    month: [u32; 11],
    whole: [u32; 11],
    digest: Digest,
    /// How many messages were sent, and how many NAKs.
    messages: u32,
    naks: u32,
}

pub fn season() -> Result<(), String> {
    let mut run = Run::new(Post::new());
    run.call(&Call::Start { moment: FIRST_MOMENT, generator: SEED })?;
    run.call(&Call::Settings(Settings { mtu: 1500, hardware: HARDWARE, name: NAME.to_vec(), ..Settings::zero() }))?;
    if run.call(&Call::New)? != (Answer::Created { number: 0 }) {
        return Err("no post was created".into());
    }
    let (post, digest) = (run.post, Digest { a: 1, b: 0 });
    let mut season = Season { post, elapsed: 0, months: 0, month: [0; 11], whole: [0; 11], digest, messages: 0, naks: 0 };
    if let Err(refusal) = season.run() {
        println!("{refusal}");
    }
    season.say("season", &season.whole);
    season.say_post();
    Ok(())
}

impl Season {
    fn run(&mut self) -> Result<(), String> {
        let mut step = 0;
        while self.reaches(step) {
            let polled = self.poll(step)?;
            step = polled.wake.wrapping_sub(self.post.plain.moment);
            if polled.length == 0 {
                continue;
            }
            let number = self.messages;
            self.messages += 1;
            if let Some(kind) = self.reply_to(number) {
                let delay = 20 + number % 7;
                if !self.reaches(delay) {
                    break;
                }
                self.reply(delay, kind)?;
                step = 0;
            }
        }
        Ok(())
    }

    /// Whether a call so much later is still in the season; if so it is made then. Says the month that is over.
    fn reaches(&mut self, step: u32) -> bool {
        self.elapsed += step as u64;
        let (name, days) = MONTHS[self.months];
        if self.elapsed > days * DAY as u64 {
            self.say(name, &self.month);
            self.month = [0; 11];
            self.months += 1;
            if self.months == MONTHS.len() {
                return false;
            }
        }
        if self.post.plain.moment.checked_add(step).is_none() {
            self.count(WRAPS);
        }
        true
    }

    fn count(&mut self, what: usize) {
        self.month[what] += 1;
        self.whole[what] += 1;
    }

    fn poll(&mut self, step: u32) -> Result<Polled, String> {
        self.post.plain.buffer = LENT.to_vec();
        let polled = self.post.poll_lent(step);
        if polled.number != 0 {
            return Err(format!("a poll is refused by {}", polled.number));
        }
        self.digest.add(&(polled.length as u32).to_be_bytes());
        self.digest.add(&polled.source);
        self.digest.add(&polled.destination);
        self.digest.add(&polled.wake.to_be_bytes());
        self.digest.add(&[polled.purge as u8]);
        self.digest.add(&self.post.plain.buffer);
        self.count(POLLS);
        if polled.purge {
            self.count(EXPIRED);
        }
        match self.heard() {
            _ if polled.length == 0 => self.count(SILENT),
            Some(DISCOVER) => self.count(DISCOVERS),
            Some(REQUEST) if polled.source == [0; 4] => self.count(REQUESTS),
            Some(REQUEST) if polled.destination != BROADCAST => self.count(RENEWALS),
            Some(REQUEST) => self.count(BROADCASTS),
            _ => {}
        }
        Ok(polled)
    }

    /// The message type of what stands in the buffer.
    fn heard(&self) -> Option<u8> {
        message::message_type(&self.post.plain.buffer[UDP..])
    }

    /// What the server makes of a message, by its number.
    fn reply_to(&self, number: u32) -> Option<u8> {
        let hour = self.elapsed / HOUR % 29;
        match self.heard()? {
            _ if hour == 7 || hour == 8 => None,
            kind if number % 61 == 60 => (kind == REQUEST).then_some(NAK),
            _ if number % 13 == 12 => None,
            DISCOVER => Some(OFFER),
            REQUEST => Some(ACK),
            _ => None,
        }
    }

    /// A reply to the message that stands in the buffer.
    fn reply(&mut self, step: u32, kind: u8) -> Result<(), String> {
        let sent = &self.post.plain.buffer[UDP..];
        let id = u32::from_be_bytes(sent[4..8].try_into().unwrap());
        let hardware = sent[28..34].try_into().unwrap();
        let mut options = vec![53, 1, kind];
        options.extend(IDENTIFIER);
        let mut your = [0; 4];
        if kind == NAK {
            self.naks += 1;
        } else {
            options.extend(TERMS);
            your = [10, 0, 0, 50 + (self.naks % 100) as u8];
        }
        options.push(255);
        let reply = message::reply(id, &hardware, your, &options);
        let taken = self.post.process(step, SERVER, &reply);
        if taken.number == 9 {
            return Err(format!("a reply is refused by {}", taken.number));
        }
        self.digest.add(&[taken.number, taken.purge as u8]);
        match (taken.number, kind) {
            (0, OFFER) => self.count(OFFERS),
            (0, ACK) => self.count(ACKS),
            (0, _) => self.count(NAKS),
            _ => {}
        }
        Ok(())
    }

    fn say(&self, name: &str, counts: &[u32; 11]) {
        print!("{name}:");
        for (count, words) in counts.iter().zip(WORDS) {
            print!(" {count} {words}");
        }
        println!(" {:08x}", self.digest.b << 16 | self.digest.a);
    }

    fn say_post(&self) {
        let Plain { client, tables, generator, moment, .. } = &self.post.plain;
        let lease = &client.lease;
        let state = match client.state {
            State::Init => "Init".into(),
            State::Discovering { retry_at } => format!("Discovering, due {retry_at}"),
            State::Requesting { retry_at, retry, server, identifier, requested } => {
                let (server, identifier) = (dotted(&server), dotted(&identifier));
                format!("Requesting {} from {server} {identifier}, due {retry_at}, retry {retry}", dotted(&requested))
            }
            State::Renewing { renew_at, rebind_at, expires_at, rebinding } => {
                format!("Renewing {renew_at} {rebind_at} {expires_at}{}", if rebinding { " rebinding" } else { "" })
            }
        };
        print!("post: moment {moment} | {state}, id {} | generator {generator} | ", client.id);
        print!("{}/{} | ", dotted(&lease.address), lease.prefix);
        println!("generation {}, {} addresses, {} routes", tables.generation, tables.addresses, tables.routes);
    }
}
