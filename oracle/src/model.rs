//! The client as document 01 and the RFCs have it, in code of its own: `check` compares each answer and each state of the
//! Rust's with it, so that our reading of the papers is tried before anything is proved of it. Where document 01 makes the
//! Rust the measure (the generator, moments exactly 2^31 apart, the order in which the waking moment is put together) it says
//! what the Rust does. Number 9 is judged here and in `post` by the same functions of `plain`.
use crate::message::{self, ACK, DISCOVER, NAK, OFFER, REQUEST};
use crate::plain::*;
use crate::post::{Polled, Taken};
use crate::record::{Answer, Call};
use crate::run::Answers;

const SECOND: u32 = 1000;
const BROADCAST: Address = [255; 4];
const NOWHERE: Address = [0; 4];

// Moments.

fn before(a: u32, b: u32) -> bool {
    a.wrapping_sub(b) >= 1 << 31
}

fn due(deadline: u32, now: u32) -> bool {
    deadline == now || before(deadline, now)
}

/// What is left to a moment: nothing where it has passed, at most the longest duration.
fn rest(to: u32, now: u32) -> u32 {
    if before(to, now) { 0 } else { to.wrapping_sub(now).min(LONGEST) }
}

fn earlier(a: u32, b: u32) -> u32 {
    if before(b, a) { b } else { a }
}

// The generator: sPCG32.

const FACTOR: u64 = 0xbb2e_fcec_3c39_611d;
const SUMMAND: u64 = 0x7590_ef39;

fn draw(generator: &mut u64) -> u32 {
    *generator = generator.wrapping_mul(FACTOR).wrapping_add(SUMMAND);
    (*generator >> (29 - (*generator >> 61))) as u32
}

/// The state from which a draw comes to this one.
pub fn before_draw(state: u64) -> u64 {
    // The factor is its own inverse in the lowest three bits, and each round doubles their number.
    let round = |inverse: u64, _| inverse.wrapping_mul(2u64.wrapping_sub(FACTOR.wrapping_mul(inverse)));
    state.wrapping_sub(SUMMAND).wrapping_mul((0..5).fold(FACTOR, round))
}

/// What creation says of settings.
fn creation(s: &Settings) -> u8 {
    let longest = s.datagram(true) - 8;
    match s {
        _ if s.medium != ETHERNET => 1,
        _ if s.mtu < 576 || s.mtu > 1500 => 2,
        _ if s.name.len() > 63 => 3,
        _ if s.list.as_ref().is_some_and(|list| list.len() > 64) => 4,
        _ if s.extra.len() > 255 || !whole_items(&s.extra) => 5,
        _ if s.maximum.is_some_and(|maximum| maximum > 1_073_741_824) => 6,
        _ if longest > s.mtu as usize - 28 => 7,
        _ => 0,
    }
}

/// What a lease brings into the tables.
type Brought = Option<(Address, u8, Option<Address>)>;

fn brought(lease: &Lease) -> Brought {
    Some((lease.address, lease.prefix, lease.router))
}

impl Answers for Plain {
    fn plain(&self) -> &Plain {
        self
    }

    fn set(&mut self, _: bool, change: impl FnOnce(&mut Plain)) {
        change(self);
    }

    fn answer(&mut self, call: &Call) -> Answer {
        self.buffer.clear();
        match call {
            Call::New => {
                let number = creation(&self.client.settings);
                if number != 0 {
                    self.client.settings = Settings::zero();
                }
                self.client.id = if number == 0 { 1 } else { 0 };
                self.client.state = State::Init;
                self.client.lease = Lease::ZERO;
                Answer::Created { number }
            }
            Call::Poll { step, length, fill } => {
                self.moment = self.moment.wrapping_add(*step);
                self.buffer.extend((0..*length as usize).map(|place| fill.wrapping_add(place as u8)));
                let number = if self.whole() { 0 } else { 9 };
                Answer::Polled(if number == 0 { self.poll() } else { Polled { number, ..Polled::default() } })
            }
            Call::Process { step, source, reply } => {
                self.moment = self.moment.wrapping_add(*step);
                let mut purge = false;
                let number = match self.whole() {
                    false => 9,
                    true => match self.judge(*source, reply) {
                        Ok(kind) => {
                            purge = self.apply_reply(kind, *source, reply);
                            0
                        }
                        Err(number) => number,
                    },
                };
                Answer::Processed(Taken { number, purge })
            }
            Call::Reset { step } => {
                self.moment = self.moment.wrapping_add(*step);
                let whole = self.whole();
                Answer::WasReset(Taken { number: if whole { 0 } else { 9 }, purge: whole && self.reset() })
            }
            Call::AddAddress { step, address, prefix } => self.manual(*step, *prefix, |tables| {
                if tables.addresses == 4 {
                    return 11;
                }
                tables.address[tables.addresses as usize] = Entry { address: *address, prefix: *prefix, dhcp: false };
                tables.addresses += 1;
                0
            }),
            Call::AddRoute { step, network, prefix, router } => self.manual(*step, *prefix, |tables| {
                if !message::unicast(*router) {
                    return 10;
                }
                if tables.routes == 4 {
                    return 11;
                }
                let entry = RouteEntry { network: *network, prefix: *prefix, router: *router, dhcp: false };
                tables.route[tables.routes as usize] = entry;
                tables.routes += 1;
                0
            }),
            Call::DropAddress { step, address, prefix } => self.manual(*step, *prefix, |tables| {
                keep_addresses(tables, |entry| entry.dhcp || (entry.address, entry.prefix) != (*address, *prefix));
                0
            }),
            Call::DropRoute { step, network, prefix, router } => self.manual(*step, *prefix, |tables| {
                keep_routes(tables, |entry| {
                    entry.dhcp || (entry.network, entry.prefix, entry.router) != (*network, *prefix, *router)
                });
                0
            }),
            Call::Get { step, kind } => {
                self.moment = self.moment.wrapping_add(*step);
                let lease = &self.client.lease;
                let (number, found) = match self.client.state.renewing() {
                    true if !lease.store_whole() => (9, None),
                    true => (0, stored(&lease.options[..lease.used as usize], *kind)),
                    false => (0, None),
                };
                Answer::Got { number, found }
            }
            Call::Mask(address) => Answer::Masked { unicast: message::unicast(*address), prefix: message::prefix(*address) },
            Call::Option { kind, reply } => Answer::Optioned(message::option(reply, *kind).map(<[u8]>::to_vec)),
            _ => Answer::Nothing,
        }
    }
}

impl Plain {
    fn whole(&self) -> bool {
        creation(&self.client.settings) == 0 && self.client.whole() && self.tables.whole()
    }

    fn manual(&mut self, step: u32, prefix: u8, change: impl FnOnce(&mut Tables) -> u8) -> Answer {
        self.moment = self.moment.wrapping_add(step);
        let number = if !self.tables.whole() || prefix > 32 { 9 } else { change(&mut self.tables) };
        Answer::Changed { number }
    }

    // Reading a reply.

    /// The type of a reply that is taken, or the number with which it is passed over.
    fn judge(&self, source: Address, reply: &[u8]) -> Result<u8, u8> {
        let client = &self.client;
        if reply.len() < 240 {
            return Err(20);
        }
        if reply[236..240] != message::COOKIE || reply[1] != 1 || reply[2] != 6 || reply[0] != 2 {
            return Err(21);
        }
        let kind = message::message_type(reply).ok_or(22)?;
        if reply[28..34] != client.settings.hardware {
            return Err(23);
        }
        if reply[4..8] != client.id.to_be_bytes() {
            return Err(24);
        }
        message::option(reply, 54).and_then(message::address).ok_or(25)?;
        let yours = message::address(&reply[16..20]).unwrap();
        match (&client.state, kind) {
            (State::Discovering { .. }, OFFER) => {
                if message::unicast(yours) && message::unicast(source) {
                    Ok(kind)
                } else {
                    Err(27)
                }
            }
            (State::Requesting { .. } | State::Renewing { .. }, ACK) => {
                let mask = message::option(reply, 1).and_then(message::address).ok_or(28)?;
                message::prefix(mask).ok_or(29)?;
                if message::unicast(yours) { Ok(kind) } else { Err(30) }
            }
            (State::Requesting { .. } | State::Renewing { .. }, NAK) if !client.settings.ignore_naks => Ok(kind),
            _ => Err(26),
        }
    }

    /// Does what a reply that is taken says: whether link state is to be purged.
    fn apply_reply(&mut self, kind: u8, source: Address, reply: &[u8]) -> bool {
        let now = self.moment;
        let yours = message::address(&reply[16..20]).unwrap();
        let (server, identifier) = match self.client.state {
            State::Requesting { server, identifier, .. } => (server, identifier),
            _ => (self.client.lease.server, self.client.lease.identifier),
        };
        match kind {
            OFFER => {
                let identifier = message::option(reply, 54).and_then(message::address).unwrap();
                self.client.state = State::Requesting { retry_at: now, retry: 0, server: source, identifier, requested: yours };
                false
            }
            NAK => self.reset(),
            _ => {
                let (renew, rebind, l) = message::times(reply, self.client.settings.maximum);
                let mut lease = Lease { server, identifier, address: yours, ..Lease::ZERO };
                let ack = message::ack(reply, self.client.settings.maximum);
                lease.prefix = ack.prefix;
                lease.router = ack.router;
                let groups = message::option(reply, 6).unwrap_or(&[]).chunks_exact(4);
                for address in groups.filter_map(message::address).filter(|address| message::unicast(*address)).take(MOST_DNS) {
                    lease.dns[lease.dns_count as usize] = address;
                    lease.dns_count += 1;
                }
                for (code, data) in message::options(reply) {
                    let used = lease.used as usize;
                    if used + 2 + data.len() <= STORE {
                        lease.options[used] = code;
                        lease.options[used + 1] = data.len() as u8;
                        lease.options[used + 2..used + 2 + data.len()].copy_from_slice(data);
                        lease.used += 2 + data.len() as u16;
                    }
                }
                let held = self.client.state.renewing().then_some(self.client.lease);
                self.client.state = State::Renewing {
                    renew_at: now.wrapping_add(renew as u32),
                    rebind_at: now.wrapping_add(rebind as u32),
                    expires_at: now.wrapping_add(l as u32),
                    rebinding: false,
                };
                if held.is_some_and(|held| same(&held, &lease)) {
                    return false;
                }
                self.client.lease = lease;
                self.apply(held.as_ref().and_then(brought), brought(&lease))
            }
        }
    }

    fn apply(&mut self, old: Brought, new: Brought) -> bool {
        let tables = &mut self.tables;
        tables.generation = tables.generation.wrapping_add(1);
        let (before, after) = (old.map(|b| (b.0, b.1)), new.map(|b| (b.0, b.1)));
        if before != after {
            keep_addresses(tables, |entry| !entry.dhcp);
            if let Some((address, prefix)) = after
                && tables.addresses < 4
            {
                tables.address[tables.addresses as usize] = Entry { address, prefix, dhcp: true };
                tables.addresses += 1;
            }
        }
        let (router, next) = (old.and_then(|b| b.2), new.and_then(|b| b.2));
        if router != next {
            keep_routes(tables, |entry| !entry.dhcp);
            if let Some(router) = next
                && tables.routes < 4
            {
                tables.route[tables.routes as usize] = RouteEntry { network: NOWHERE, prefix: 0, router, dhcp: true };
                tables.routes += 1;
            }
        }
        before != after
    }

    fn reset(&mut self) -> bool {
        let held = self.client.state.renewing().then_some(self.client.lease);
        self.client.state = State::Init;
        self.client.lease = Lease::ZERO;
        held.is_some_and(|lease| self.apply(brought(&lease), None))
    }

    // Polling.

    fn poll(&mut self) -> Polled {
        let kept = self.clone();
        let now = self.moment;
        let mut answer = Polled { wake: now.wrapping_add(DAY), ..Polled::default() };
        // Giving up on a server, or the end of the lease, comes first; the Discover is then due in this poll.
        match self.client.state {
            State::Requesting { retry_at, retry, .. } if due(retry_at, now) && retry >= 5 => {
                self.reset();
            }
            State::Renewing { expires_at, .. } if due(expires_at, now) => answer.purge = self.reset(),
            _ => {}
        }
        let message = match self.client.state {
            State::Discovering { retry_at } | State::Requesting { retry_at, .. } if !due(retry_at, now) => {
                answer.wake = earlier(answer.wake, retry_at);
                return answer;
            }
            State::Init | State::Discovering { .. } => {
                let retry_at = now.wrapping_add(10 * SECOND);
                answer.wake = earlier(answer.wake, retry_at);
                self.client.id = draw(&mut self.generator);
                self.client.state = State::Discovering { retry_at };
                answer.destination = BROADCAST;
                self.message(DISCOVER, NOWHERE, &[])
            }
            State::Requesting { retry, server, identifier, requested, .. } => {
                let wait = [5, 5, 10, 10, 20][retry as usize] * SECOND;
                let retry_at = now.wrapping_add(wait);
                answer.wake = earlier(answer.wake, retry_at);
                self.client.state = State::Requesting { retry_at, retry: retry + 1, server, identifier, requested };
                answer.destination = BROADCAST;
                self.message(REQUEST, NOWHERE, &[(50, requested), (54, identifier)])
            }
            State::Renewing { mut renew_at, mut rebind_at, expires_at, mut rebinding } => {
                answer.wake = earlier(answer.wake, expires_at);
                let next = if rebinding { rebind_at } else { earlier(renew_at, rebind_at) };
                if !due(next, now) {
                    answer.wake = earlier(answer.wake, next);
                    return answer;
                }
                rebinding = rebinding || !before(now, rebind_at);
                let least = 60 * SECOND;
                let wait = if rebinding {
                    least.max(rest(expires_at, now) / 2)
                } else {
                    least.max(rest(rebind_at, now) / 2).min(rest(rebind_at, now))
                };
                let retry_at = now.wrapping_add(wait);
                answer.wake = earlier(answer.wake, retry_at);
                if rebinding {
                    rebind_at = retry_at;
                } else {
                    renew_at = retry_at;
                }
                self.client.id = draw(&mut self.generator);
                self.client.state = State::Renewing { renew_at, rebind_at, expires_at, rebinding };
                answer.source = self.client.lease.address;
                answer.destination = if rebinding { BROADCAST } else { self.client.lease.server };
                self.message(REQUEST, self.client.lease.address, &[])
            }
        };
        if self.buffer.is_empty() {
            answer.source = NOWHERE;
            answer.destination = NOWHERE;
            return answer;
        }
        let datagram = datagram(answer.source, answer.destination, !self.client.settings.offload, &message);
        if self.buffer.len() < datagram.len() {
            *self = kept;
            return Polled { number: 8, ..Polled::default() };
        }
        self.buffer[..datagram.len()].copy_from_slice(&datagram);
        answer.length = datagram.len() as u16;
        answer
    }

    /// RFC 2131's message with document 01's options in their order.
    fn message(&self, kind: u8, client_address: Address, addresses: &[(u8, Address)]) -> Vec<u8> {
        let s = &self.client.settings;
        let mut m = vec![1, 1, 6, 0];
        m.extend(self.client.id.to_be_bytes());
        m.extend([0; 4]);
        m.extend(client_address);
        m.extend([0; 12]);
        m.extend(s.hardware);
        m.extend([0; 10 + 64 + 128]);
        m.extend(message::COOKIE);
        let mut option = |code: u8, data: &[u8]| {
            m.extend([code, data.len() as u8]);
            m.extend(data);
        };
        option(53, &[kind]);
        option(61, &[&[1], &s.hardware[..]].concat());
        if !s.name.is_empty() {
            option(12, &s.name);
        }
        for (code, address) in addresses {
            option(*code, address);
        }
        option(57, &(s.mtu - 68).to_be_bytes());
        option(55, s.list.as_deref().unwrap_or(&[1, 3, 6]));
        m.extend(&s.extra);
        m.push(255);
        m
    }
}

/// RFC 768: the header, and the checksum over the pseudo header, the header and the data.
fn datagram(source: Address, destination: Address, sums: bool, message: &[u8]) -> Vec<u8> {
    let length = (8 + message.len()) as u16;
    let header = [[0, 68], [0, 67], length.to_be_bytes(), [0, 0]].concat();
    let mut datagram = [&header, message].concat();
    if sums {
        let mut all = [&source[..], &destination, &[0, 17], &length.to_be_bytes(), &datagram].concat();
        all.resize(all.len().next_multiple_of(2), 0);
        let sum: u64 = all.chunks(2).map(|word| u16::from_be_bytes([word[0], word[1]]) as u64).sum();
        // In one's complement 2^16 counts as 1, so that the sum is what is left of it by 65,535, a positive one of 0 being 65,535.
        let left = (sum - 1) % 65_535 + 1;
        let checksum = if left == 65_535 { 65_535 } else { 65_535 - left as u16 };
        datagram[6..8].copy_from_slice(&checksum.to_be_bytes());
    }
    datagram
}

/// Equal but for what is not in use.
fn same(a: &Lease, b: &Lease) -> bool {
    let main = |l: &Lease| (l.server, l.identifier, l.address, l.prefix, l.router);
    main(a) == main(b)
        && a.dns[..a.dns_count as usize] == b.dns[..b.dns_count as usize]
        && a.options[..a.used as usize] == b.options[..b.used as usize]
}

/// The place and length of the data of the first such item.
fn stored(items: &[u8], kind: u8) -> Option<(usize, usize)> {
    let mut at = 0;
    while at < items.len() {
        let length = items[at + 1] as usize;
        if items[at] == kind {
            return Some((at + 2, length));
        }
        at += 2 + length;
    }
    None
}

fn keep_addresses(tables: &mut Tables, keep: impl Fn(&Entry) -> bool) {
    let kept: Vec<Entry> = tables.address_entries().iter().copied().filter(|entry| keep(entry)).collect();
    tables.address = Default::default();
    tables.address[..kept.len()].copy_from_slice(&kept);
    tables.addresses = kept.len() as u8;
}

fn keep_routes(tables: &mut Tables, keep: impl Fn(&RouteEntry) -> bool) {
    let kept: Vec<RouteEntry> = tables.route_entries().iter().copied().filter(|entry| keep(entry)).collect();
    tables.route = Default::default();
    tables.route[..kept.len()].copy_from_slice(&kept);
    tables.routes = kept.len() as u8;
}
