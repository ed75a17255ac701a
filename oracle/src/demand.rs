//! Demand 3, asked of the Rust: after each poll that is not refused the waking moment is the latest that will do, a lease
//! is in force exactly if the history holds an ACK, and after every call DHCP's entries in the tables are exactly the held
//! ACK's, less any lost. The history is kept from settings, arguments, steps and answers alone.
use crate::message::{self, Ack};
use crate::plain::*;
use crate::post::{Polled, Post};
use crate::record::{Answer, Call};
use crate::run::Answers;

/// An expectation that is wrong on purpose, to see that a wrong one is found.
#[derive(Clone, Copy, Debug, PartialEq, Eq)]
pub enum Fault {
    None,
    /// A lease ends one millisecond after its L.
    LateExpiry,
    /// An ACK with the held address enters a lost address again.
    LostReturns,
    /// The message comes one millisecond before the waking moment.
    EarlyWaking,
}

pub struct Demand {
    fault: Fault,
    held: Option<(Ack, u64)>,
    lost_address: bool,
    lost_route: bool,
    pub probes: u64,
    pub leases: u64,
    pub losses: u64,
}

/// A buffer that any message fits: the MTU is at most 1,500, and 20 bytes are the IP header's.
const ROOM: u16 = 1480;
const FILL: u8 = 165;

impl Demand {
    pub fn new(fault: Fault) -> Self {
        Demand { fault, held: None, lost_address: false, lost_route: false, probes: 0, leases: 0, losses: 0 }
    }

    /// Takes in one call, with the tables before it, and says what of the demand does not hold after it.
    pub fn check(&mut self, call: &Call, answer: &Answer, before: &Tables, post: &mut Post) -> Result<(), String> {
        if let Call::New = call {
            self.held = None;
        }
        if let Some((_, age)) = &mut self.held {
            *age += call.step() as u64;
        }
        match (call, answer) {
            (Call::Process { reply, .. }, Answer::Processed(taken)) if taken.number == 0 => self.accepted(reply, before, post)?,
            (Call::Reset { .. }, Answer::WasReset(taken)) if taken.number == 0 => self.held = None,
            (Call::Poll { .. }, Answer::Polled(polled)) if polled.number == 0 => {
                let late = (self.fault == Fault::LateExpiry) as u64;
                if self.held.is_some_and(|(ack, age)| age >= ack.l + late) {
                    self.held = None;
                }
                if post.plain.client.state.renewing() != self.held.is_some() {
                    return Err(format!(
                        "lease in force: {}, but the history holds {:?}",
                        post.plain.client.state.renewing(),
                        self.held
                    ));
                }
                self.leases += self.held.is_some() as u64;
                self.waking(polled, post)?;
            }
            _ => {}
        }
        self.tables(&post.plain.tables)
    }

    fn accepted(&mut self, reply: &[u8], before: &Tables, post: &Post) -> Result<(), String> {
        match message::message_type(reply) {
            Some(message::ACK) => {
                let maximum = post.plain.client.settings.maximum;
                let ack = message::ack(reply, maximum);
                // Document 01's own claim on the order of the moments.
                let (renew, rebind, l) = message::times(reply, maximum);
                if maximum.is_none_or(|maximum| maximum >= 8) && !(renew <= rebind && rebind <= l) {
                    return Err(format!("renew after {renew} ms, rebind after {rebind}, expiry after {l}"));
                }
                let held = self.held.map(|(ack, _)| ack);
                if held.map(|h| (h.address, h.prefix)) != Some((ack.address, ack.prefix)) || self.fault == Fault::LostReturns {
                    self.lost_address = before.address_entries().iter().filter(|entry| !entry.dhcp).count() == MOST_ENTRIES;
                    self.losses += self.lost_address as u64;
                }
                if held.and_then(|h| h.router) != ack.router {
                    self.lost_route = before.route_entries().iter().filter(|entry| !entry.dhcp).count() == MOST_ENTRIES;
                    self.losses += (self.lost_route && ack.router.is_some()) as u64;
                }
                self.held = Some((ack, 0));
            }
            Some(message::NAK) => self.held = None,
            _ => {}
        }
        Ok(())
    }

    fn tables(&self, tables: &Tables) -> Result<(), String> {
        let held = self.held.map(|(ack, _)| ack);
        let address = held.filter(|_| !self.lost_address).map(|ack| (ack.address, ack.prefix));
        let mut there = tables.address_entries().iter().filter(|entry| entry.dhcp).map(|entry| (entry.address, entry.prefix));
        if (there.next(), there.next()) != (address, None) {
            return Err(format!("DHCP's addresses are not {address:?}: {:?}", tables.address_entries()));
        }
        let route = held.filter(|_| !self.lost_route).and_then(|ack| ack.router).map(|router| ([0; 4], 0, router));
        let mut there =
            tables.route_entries().iter().filter(|entry| entry.dhcp).map(|entry| (entry.network, entry.prefix, entry.router));
        if (there.next(), there.next()) != (route, None) {
            return Err(format!("DHCP's routes are not {route:?}: {:?}", tables.route_entries()));
        }
        Ok(())
    }

    /// Polls the post as it stands at later moments, and puts it back each time.
    fn waking(&mut self, polled: &Polled, post: &mut Post) -> Result<(), String> {
        let d = polled.wake.wrapping_sub(post.plain.moment);
        if d == 0 || d > DAY {
            return Err(format!("the waking moment {} lies {d} ms on", polled.wake));
        }
        let shift = (self.fault == Fault::EarlyWaking) as u32;
        let d = (d - shift).max(1);
        for step in [0, d / 2, d - 1] {
            let (answer, changed) = self.probe(post, step, ROOM);
            // 24 hours on is the furthest that a poll looks, so a later one may see further.
            let wake = if d == DAY { answer.wake } else { polled.wake };
            if answer != (Polled { wake, ..Polled::default() }) || changed {
                return Err(format!("a poll {step} ms on, before {d}, answers {answer:?}, changing: {changed}"));
            }
        }
        if d == DAY - shift {
            return Ok(());
        }
        let (answer, _) = self.probe(post, d, ROOM);
        let n = answer.length;
        if answer.number != 0 || n == 0 || n > post.plain.client.settings.mtu - 20 {
            return Err(format!("the poll at the waking moment, {d} ms on, answers {answer:?}"));
        }
        for (length, expected) in [(n, (0, n)), (0, (0, 0)), (n - 1, (8, 0))] {
            let (answer, changed) = self.probe(post, d, length);
            if (answer.number, answer.length) != expected || changed != (expected.0 == 0) {
                return Err(format!("a buffer of {length} at the waking moment gives {answer:?}, changing: {changed}"));
            }
        }
        Ok(())
    }

    fn probe(&mut self, post: &mut Post, step: u32, length: u16) -> (Polled, bool) {
        self.probes += 1;
        let (id, state, lease) = (post.plain.client.id, post.plain.client.state, post.plain.client.lease);
        let (tables, generator, moment) = (post.plain.tables, post.plain.generator, post.plain.moment);
        let answer = post.poll(step, length, FILL);
        let changed = post.plain.client.id != id
            || post.plain.client.state != state
            || post.plain.client.lease != lease
            || post.plain.tables != tables
            || post.plain.generator != generator
            || post.plain.buffer.iter().enumerate().any(|(place, byte)| *byte != lent(FILL, place));
        post.plain.moment = moment;
        if changed {
            post.set(false, |plain| {
                (plain.client.id, plain.client.state, plain.client.lease) = (id, state, lease);
                (plain.tables, plain.generator) = (tables, generator);
            });
        }
        (answer, changed)
    }
}
