//! What the picture of a season is drawn from, gathered call by call. It has a bound, however many calls there are: time in
//! each state and marks by half-hours of at most a year, and what is told one by one as far as there is room for it.
use crate::answers::Observed;
use crate::episode::{Episode, Kind};
use crate::message::{self, ACK, DISCOVER, NAK, OFFER};
use crate::plain::*;
use crate::post::Polled;
use crate::record::{Answer, Call};
use crate::season::{BROADCAST, HOUR};
use crate::words;

pub const BIN: u64 = HOUR / 2;
const LONGEST_RUN: u64 = 365 * words::DAY;
const MOST_HELD: usize = 400;
const MOST_EPISODES: usize = 100;
const MOST_BY_HAND: usize = 40;

// What the post is at, the worst first.
pub const DISCOVERING: usize = 0;
pub const REQUESTING: usize = 1;
pub const REBINDING: usize = 2;
/// A lease, and a renewal that has no answer yet.
pub const UNANSWERED: usize = 3;
pub const LEASE: usize = 4;
pub const BANDS: usize = 5;

// What happens at a moment: messages, replies, and the rest.
pub const DISCOVERS: usize = 0;
pub const REQUESTS: usize = 1;
pub const RENEWALS: usize = 2;
pub const REBINDINGS: usize = 3;
pub const OFFERS: usize = 4;
pub const ACKS: usize = 5;
pub const NAKS: usize = 6;
pub const PASSED_OVER: usize = 7;
pub const EXPIRIES: usize = 8;
pub const RESETS: usize = 9;
pub const BY_HAND: usize = 10;
pub const MARKS: usize = 11;

#[derive(Clone, Copy, Default)]
pub struct Bin {
    /// Milliseconds in each band.
    pub held: [u32; BANDS],
    pub marks: [u32; MARKS],
}

/// A stretch of time with leases of one address and one length.
#[derive(Clone, PartialEq)]
pub struct Held {
    pub from: u64,
    pub until: u64,
    pub address: Address,
    pub prefix: u8,
    pub length: u64,
}

#[derive(Default)]
pub struct History {
    /// Milliseconds since creation.
    pub elapsed: u64,
    pub bins: Vec<Bin>,
    pub totals: [u64; MARKS],
    pub polls: u64,
    pub silent: u64,
    pub refused: u64,
    pub purges: u64,
    /// How many ACKs brought a lease to a post without one.
    pub leases: u64,
    pub wraps: Vec<u64>,
    pub held: Vec<Held>,
    /// What is worth a word, without details, and the one of each kind with them that has most to show.
    pub episodes: Vec<Episode>,
    pub close: [Option<Episode>; 5],
    pub by_hand: Vec<(u64, String)>,
    /// Whether there was more than there is room for.
    pub more: bool,
    band: usize,
    unanswered: bool,
    lease: Option<Held>,
    /// Where the last ACK that was taken came from; a lease names the OFFER's server for good.
    source: Option<Address>,
    open: Option<Episode>,
}

impl History {
    pub fn take(&mut self, seen: &Observed) -> Result<(), String> {
        self.pass(seen.moment, seen.call.step())?;
        let number = seen.answer.number();
        self.refused += (1..20).contains(&number) as u64;
        match (&seen.call, &seen.answer) {
            (_, Answer::Polled(polled)) => self.polled(seen, polled),
            (Call::Process { reply, source, .. }, Answer::Processed(taken)) => {
                self.purges += taken.purge as u64;
                self.processed(message::message_type(reply), *source, number);
            }
            (_, Answer::WasReset(taken)) if number == 0 => {
                self.purges += taken.purge as u64;
                self.unanswered = false;
                self.begin();
                self.mark(RESETS);
            }
            (call, Answer::Changed { .. }) if number == 0 => self.changed(call),
            _ => {}
        }
        self.stand(seen);
        Ok(())
    }

    /// Time goes by, with the post as it stood.
    fn pass(&mut self, moment: u32, step: u32) -> Result<(), String> {
        if moment.checked_add(step).is_none() {
            self.wraps.push(self.elapsed + (1 << 32) - moment as u64);
        }
        let until = self.elapsed + step as u64;
        if until > LONGEST_RUN {
            return Err("the run is longer than 365 days, and a picture has no room for more".into());
        }
        if let Some(open) = &mut self.open {
            open.bands[self.band].add(self.elapsed, until);
            open.gap += if self.band <= REQUESTING { step as u64 } else { 0 };
        }
        while self.elapsed < until {
            let end = until.min((self.elapsed / BIN + 1) * BIN);
            let held = (end - self.elapsed) as u32;
            let band = self.band;
            self.bin().held[band] += held;
            self.elapsed = end;
        }
        Ok(())
    }

    fn bin(&mut self) -> &mut Bin {
        let place = (self.elapsed / BIN) as usize;
        if self.bins.len() <= place {
            self.bins.resize(place + 1, Bin::default());
        }
        &mut self.bins[place]
    }

    fn mark(&mut self, mark: usize) {
        self.bin().marks[mark] += 1;
        self.totals[mark] += 1;
        if let Some(open) = &mut self.open {
            open.marks[mark].add(self.elapsed, self.elapsed);
        }
    }

    /// Opens an episode where none is: each message, NAK or reset begins one, and an ACK ends it.
    fn begin(&mut self) {
        if self.open.is_none() {
            let address = self.lease.as_ref().map(|held| held.address);
            let first = self.leases == 0;
            let source = self.source;
            self.open = Some(Episode { from: self.elapsed, address, source, first, ..Episode::default() });
        }
    }

    fn end_episode(&mut self, ended: bool) {
        let Some(mut open) = self.open.take() else { return };
        open.until = self.elapsed;
        open.ended = ended;
        open.other = ended && open.source.is_some_and(|source| Some(source) != self.source);
        open.source = self.source;
        if let Some(held) = &self.lease {
            open.moved = open.address.is_some_and(|address| address != held.address);
            open.address = Some(held.address);
        }
        let Some(kind) = open.kind() else { return };
        let room = self.episodes.len() < MOST_EPISODES;
        self.more |= !room;
        if room {
            self.episodes.push(open.without_details());
        }
        let best = &mut self.close[kind as usize];
        if best.as_ref().is_none_or(|best| best.score() < open.score()) {
            *best = Some(open);
        }
    }

    fn polled(&mut self, seen: &Observed, polled: &Polled) {
        self.polls += 1;
        self.purges += polled.purge as u64;
        self.silent += seen.sent.is_none() as u64;
        if seen.sent.is_some() {
            self.begin();
        }
        if self.lease.is_some() && !seen.state.renewing() {
            self.unanswered = false;
            self.mark(EXPIRIES);
        }
        let Some(kind) = seen.sent else { return };
        self.mark(match kind {
            DISCOVER => DISCOVERS,
            _ if polled.source == [0; 4] => REQUESTS,
            _ if polled.destination == BROADCAST => REBINDINGS,
            _ => RENEWALS,
        });
        self.unanswered = true;
    }

    fn processed(&mut self, kind: Option<u8>, source: Address, number: u8) {
        match (number, kind) {
            (20.., _) => self.mark(PASSED_OVER),
            (0, Some(OFFER)) => self.mark(OFFERS),
            (0, Some(ACK)) => {
                self.unanswered = false;
                self.source = Some(source);
                self.mark(ACKS);
            }
            (0, Some(NAK)) => {
                self.unanswered = false;
                self.begin();
                self.mark(NAKS);
            }
            _ => {}
        }
    }

    fn changed(&mut self, call: &Call) {
        self.mark(BY_HAND);
        let text = match call {
            Call::AddAddress { address, prefix, .. } => format!("+ {}", words::with_prefix(address, *prefix)),
            Call::DropAddress { address, prefix, .. } => format!("− {}", words::with_prefix(address, *prefix)),
            Call::AddRoute { network, prefix, .. } => format!("+ route {}", words::with_prefix(network, *prefix)),
            Call::DropRoute { network, prefix, .. } => format!("− route {}", words::with_prefix(network, *prefix)),
            _ => return,
        };
        if self.by_hand.len() < MOST_BY_HAND {
            self.by_hand.push((self.elapsed, text));
        } else {
            self.more = true;
        }
    }

    /// How the post stands from now on.
    fn stand(&mut self, seen: &Observed) {
        self.band = match seen.state {
            State::Init | State::Discovering { .. } => DISCOVERING,
            State::Requesting { .. } => REQUESTING,
            State::Renewing { rebinding: true, .. } => REBINDING,
            State::Renewing { .. } if self.unanswered => UNANSWERED,
            State::Renewing { .. } => LEASE,
        };
        let acked = matches!((&seen.call, &seen.answer), (Call::Process { .. }, Answer::Processed(t)) if t.number == 0);
        match (&seen.lease, seen.state) {
            (Some(lease), State::Renewing { expires_at, .. }) if acked => {
                let length = expires_at.wrapping_sub(seen.moment.wrapping_add(seen.call.step())) as u64;
                self.bind(lease, length);
                self.end_episode(true);
            }
            (None, _) => self.unbind(),
            _ => {}
        }
    }

    fn bind(&mut self, lease: &Lease, length: u64) {
        let Lease { address, prefix, .. } = *lease;
        self.leases += self.lease.is_none() as u64;
        match &self.lease {
            Some(held) if (held.address, held.prefix, held.length) == (address, prefix, length) => {}
            _ => {
                self.unbind();
                self.lease = Some(Held { from: self.elapsed, until: 0, address, prefix, length });
            }
        }
    }

    fn unbind(&mut self) {
        let Some(mut held) = self.lease.take() else { return };
        held.until = self.elapsed;
        if self.held.len() < MOST_HELD {
            self.held.push(held);
        } else {
            self.more = true;
        }
    }

    /// The list is over: what is still open is closed.
    pub fn end(&mut self) {
        self.end_episode(false);
        self.unbind();
    }

    /// Milliseconds with a lease, in a part of the bins.
    pub fn with_lease(bins: &[Bin]) -> u64 {
        bins.iter().flat_map(|bin| &bin.held[REBINDING..]).map(|held| *held as u64).sum()
    }

    /// The episodes that are drawn close up, in the order of time: at most four, one of a kind.
    pub fn closest(&self) -> Vec<&Episode> {
        let kinds = [Kind::Expired, Kind::Refused, Kind::Rebound, Kind::Reset, Kind::First];
        let mut chosen: Vec<&Episode> = kinds.iter().filter_map(|kind| self.close[*kind as usize].as_ref()).take(4).collect();
        chosen.sort_by_key(|episode| episode.from);
        chosen
    }
}
