//! Lists of calls from a seed. Each next call is chosen by how the post stands, so that replies carry the right id and
//! polls come at, just before and just after the moments that matter.
use crate::message::{self, ACK};
use crate::model;
use crate::plain::*;
use crate::post::Post;
use crate::record::{Answer, Call};
use crate::values::ADDRESSES;

/// SplitMix64, and whether it keeps to the fewer values of the recorded lists: what the wider choice alone needs is not drawn then.
#[derive(Clone, Copy)]
pub struct Random {
    pub state: u64,
    pub narrow: bool,
}

impl Random {
    pub fn new(state: u64) -> Self {
        Random { state, narrow: false }
    }
    pub fn next(&mut self) -> u64 {
        self.state = self.state.wrapping_add(0x9e37_79b9_7f4a_7c15);
        let z = (self.state ^ self.state >> 30).wrapping_mul(0xbf58_476d_1ce4_e5b9);
        let z = (z ^ z >> 27).wrapping_mul(0x94d0_49bb_1331_11eb);
        z ^ z >> 31
    }
    pub fn below(&mut self, n: u64) -> u64 {
        self.next() % n
    }
    pub fn upto(&mut self, n: u64) -> u64 {
        self.below(n + 1)
    }
    pub fn percent(&mut self, p: u64) -> bool {
        self.below(100) < p
    }
    pub fn pick<T: Copy>(&mut self, from: &[T]) -> T {
        from[self.below(from.len() as u64) as usize]
    }
    /// One of them; of the narrow choice one of the first `few`.
    pub fn among<T: Copy>(&mut self, few: usize, from: &[T]) -> T {
        self.pick(if self.narrow { &from[..few] } else { from })
    }
    /// One of them; of the narrow choice the first.
    pub fn wider<T: Copy>(&mut self, from: &[T]) -> T {
        if self.narrow { from[0] } else { self.pick(from) }
    }
    /// Yes so many times of a hundred; of the narrow choice never.
    pub fn wide(&mut self, p: u64) -> bool {
        !self.narrow && self.percent(p)
    }
    /// Any octet; of the narrow choice 0.
    pub fn wide_byte(&mut self) -> u8 {
        if self.narrow { 0 } else { self.byte() }
    }
    pub fn byte(&mut self) -> u8 {
        self.next() as u8
    }
    pub fn bytes(&mut self, count: usize) -> Vec<u8> {
        (0..count).map(|_| self.byte()).collect()
    }
    /// A number of up to 32 bits, small ones as likely as large ones.
    pub fn any_size(&mut self) -> u32 {
        let bits = self.upto(32);
        (self.next() & ((1u64 << bits) - 1)) as u32
    }
}

/// Which lists: runs of a fresh client under the premises of demand 3, calls on whole states of any kind, calls on states
/// that are not whole, or manual calls alone.
#[derive(Clone, Copy, PartialEq, Eq, Debug)]
pub enum Kind {
    Runs,
    States,
    Broken,
    Tables,
}

/// The most that lies between two polls that are not refused.
const PREMISE: u64 = 1 << 30;

pub struct Generator {
    pub random: Random,
    kind: Kind,
    queue: std::collections::VecDeque<Call>,
    /// How many calls the run still has.
    left: u64,
    /// How likely a server answers, in percent, in this run.
    pub talkative: u64,
    /// Whether its replies are mostly good ones, and polls mostly in time.
    pub sober: bool,
    /// Where its server sends from, what it calls itself, and the address that it gives, most of the time.
    pub source: Address,
    pub identifier: Address,
    pub your: Address,
    /// What has passed since the last poll that was not refused, if there was one.
    since: Option<u64>,
    pub wake: Option<u32>,
    /// Whether the last call was a poll that built a message, to which a server may answer at once.
    asked: bool,
    /// The options of the ACK that was last taken.
    pub taken: Option<Vec<u8>>,
    /// The options of the ACK that was last sent.
    pub sent: Vec<u8>,
}

impl Generator {
    pub fn new(seed: u64, kind: Kind) -> Self {
        Generator {
            random: Random::new(seed),
            kind,
            queue: Default::default(),
            left: 0,
            talkative: 50,
            sober: false,
            source: ADDRESSES[0],
            identifier: ADDRESSES[0],
            your: ADDRESSES[0],
            since: None,
            wake: None,
            asked: false,
            taken: None,
            sent: vec![],
        }
    }

    /// The next call on the post as it stands.
    pub fn next(&mut self, post: &Post) -> Call {
        if let Some(call) = self.queue.pop_front() {
            return call;
        }
        if self.left == 0 {
            self.begin();
            return self.queue.pop_front().unwrap();
        }
        self.left -= 1;
        if std::mem::take(&mut self.asked) && self.random.percent(self.talkative) {
            return self.process(post);
        }
        match self.random.below(100) {
            _ if self.kind == Kind::Tables => self.manual(post),
            _ if self.left == 0 && self.kind == Kind::Runs && self.random.percent(10) => self.tail(post),
            0..=2 => Call::Reset { step: self.short_step() },
            3..=12 => self.manual(post),
            13..=14 => self.get(post),
            15..=44 if self.random.percent(self.talkative) => self.process(post),
            _ => self.poll(post),
        }
    }

    /// What the call gave.
    pub fn note(&mut self, call: &Call, answer: &Answer) {
        if let Some(since) = &mut self.since {
            *since += call.step() as u64;
        }
        match answer {
            Answer::Created { number } if *number != 0 => self.left = self.left.min(4),
            Answer::Polled(polled) if polled.number == 0 => {
                self.since = Some(0);
                self.wake = Some(polled.wake);
                self.asked = polled.length > 0;
            }
            Answer::Processed(taken) if taken.number == 0 => {
                if let Call::Process { reply, .. } = call
                    && message::message_type(reply) == Some(ACK)
                    && reply.len() <= MOST_MTU as usize
                {
                    self.taken = Some(reply[message::HEADER..].to_vec());
                }
                self.wake = None;
            }
            Answer::WasReset(_) => self.wake = None,
            _ => {}
        }
    }

    fn begin(&mut self) {
        self.since = None;
        self.wake = None;
        self.taken = None;
        self.talkative = self.random.pick(&[10, 40, 60, 80]);
        self.sober = self.random.percent(50);
        (self.source, self.identifier) = self.random.server();
        let r = &mut self.random;
        self.your = match r.wider(&[0, 0, 0, 0, 0, 0, 1, 2, 2, 2]) {
            0 => ADDRESSES[0],
            1 => r.any_address(),
            _ => r.pick(&ADDRESSES),
        };
        let moment = match r.below(6) {
            0 => r.pick(&[0, 1, 1 << 31, (1 << 31) - 1, u32::MAX]),
            1..=3 => 0u32.wrapping_sub(r.any_size() >> 4),
            _ => r.next() as u32,
        };
        // The last two draw an id of 0, and of all ones.
        let ends = [0, 0, u64::MAX, model::before_draw(0), model::before_draw(u64::MAX)];
        let generator = if r.percent(if r.narrow { 10 } else { 20 }) { r.wider(&ends) } else { r.next() };
        self.queue.push_back(Call::Start { moment, generator });
        match self.kind {
            Kind::Runs => {
                let settings = self.settings();
                self.queue.push_back(Call::Settings(settings));
                self.manual_tables();
                self.queue.push_back(Call::New);
                self.left = 5 + self.random.below(if self.random.state & 7 == 0 { 400 } else { 60 });
            }
            Kind::States => {
                let settings = self.good_settings();
                self.queue.push_back(Call::Settings(settings));
                self.state(moment);
                self.any_tables();
                self.left = 1 + self.random.below(3);
            }
            Kind::Broken => {
                self.broken(moment);
                self.left = 1 + self.random.below(3);
            }
            Kind::Tables => {
                self.any_tables();
                self.left = 2 + self.random.below(8);
            }
        }
    }

    // Settings.

    fn good_settings(&mut self) -> Settings {
        let r = &mut self.random;
        let mut s = Settings::zero();
        s.mtu = match r.below(4) {
            0 => r.pick(&[576, 577, 1500, 1499]),
            1 => 576 + r.below(925) as u16,
            _ => 1500,
        };
        s.hardware = r.hardware();
        s.offload = r.percent(20);
        if r.percent(if r.narrow { 40 } else { 60 }) {
            s.name = r.name();
        }
        if r.percent(40) {
            s.list = Some(r.request_list());
        }
        if r.percent(30) {
            let room = r.pick(&[2, 3, 10, 20, 60, 254, 255]);
            s.extra = self.items(room);
        }
        let r = &mut self.random;
        if r.percent(35) {
            s.maximum = Some(match r.below(3) {
                0 => r.pick(&[0, 1, 2, 3, 7, 8, 9, 1000, 1003, 60_000, 100_000, 200_001, LONGEST - 1, LONGEST]),
                1 => r.any_size().min(LONGEST),
                _ => 1000 * r.below(100_000) as u32,
            });
        }
        s.ignore_naks = r.percent(25);
        let full = r.wide(4);
        if full {
            s.extra = [vec![43, 253], r.bytes(253)].concat();
            let length = r.upto(64) as usize;
            s.list = Some(r.bytes(length));
        }
        // The least MTU for the longest message, or one more.
        let least = (s.datagram(true) as u16 + 20).max(LEAST_MTU);
        if full || r.wide(5) {
            s.mtu = least + r.below(2) as u16;
        } else if s.mtu < least {
            s.mtu = MOST_MTU;
        }
        s
    }

    fn settings(&mut self) -> Settings {
        let mut s = self.good_settings();
        let r = &mut self.random;
        if r.percent(6) {
            match r.below(7) {
                0 => s.medium = r.wider(&[1, 2, 255]),
                1 => s.mtu = r.pick(&[0, 575, 1501, 65535]),
                2 => s.name = r.bytes(64),
                3 => s.list = Some(r.bytes(65)),
                4 => s.extra = if r.percent(50) { vec![12, 2, 65] } else { vec![7; 256] },
                5 => s.maximum = Some(r.pick(&[LONGEST + 1, u32::MAX])),
                _ => {
                    s.mtu = r.pick(&[576, 682, 683]);
                    s.name = r.bytes(63);
                    s.list = Some(r.bytes(64));
                    s.extra = vec![43, 253];
                    s.extra.extend(r.bytes(253));
                }
            }
        }
        s
    }

    /// Whole items of at most that many bytes together.
    fn items(&mut self, room: usize) -> Vec<u8> {
        let mut items = vec![];
        while items.len() + 2 <= room && (items.is_empty() || self.random.percent(70)) {
            let most = (room - items.len() - 2).min(255);
            let length = if self.random.percent(30) { most } else { self.random.upto(most.min(12) as u64) as usize };
            let any = self.random.wide_byte();
            items.push(self.random.among(13, &[0, 1, 3, 6, 12, 43, 51, 53, 54, 60, 77, 100, 255, any, any]));
            items.push(length as u8);
            items.extend(self.random.bytes(length));
        }
        items
    }

    // Tables.

    fn manual_tables(&mut self) {
        let addresses = self.random.pick(&[0, 0, 0, 1, 2, 3, 4, 4]);
        let routes = self.random.pick(&[0, 0, 0, 1, 2, 3, 4, 4]);
        // Tables that are not whole are among those that a run may begin with: all is refused then.
        let over = self.random.percent(1);
        self.tables(if over { 5 } else { addresses }, routes, false);
    }

    fn any_tables(&mut self) {
        let (addresses, routes) = (self.random.upto(4) as u8, self.random.upto(4) as u8);
        self.tables(addresses, routes, true);
    }

    fn tables(&mut self, addresses: u8, routes: u8, dhcp: bool) {
        let r = &mut self.random;
        let generation = match r.wider(&[0, 1]) {
            0 if r.narrow => r.pick(&[0, 0, 1, 77, u32::MAX, u32::MAX - 1]),
            0 => r.word(),
            _ => r.pick(&[u32::MAX, u32::MAX - 1, u32::MAX - 2]),
        };
        self.queue.push_back(Call::Tables { generation, addresses, routes });
        for _ in 0..addresses.min(4) {
            let (address, prefix) = self.random.cidr();
            let dhcp = dhcp && self.random.percent(40);
            self.queue.push_back(Call::Address(Entry { address, prefix, dhcp }));
        }
        for _ in 0..routes.min(4) {
            let (network, prefix) = self.random.cidr();
            let router = self.random.router(10);
            let dhcp = dhcp && self.random.percent(40);
            self.queue.push_back(Call::Route(RouteEntry { network, prefix, router, dhcp }));
        }
    }

    /// Half of what is dropped stands in the table, as DHCP's or not.
    fn manual(&mut self, post: &Post) -> Call {
        let step = self.short_step();
        let tables = &post.plain.tables;
        let r = &mut self.random;
        let (mut address, mut prefix) = r.cidr();
        let odd = if r.percent(8) { Some(r.among(3, &[32, 33, 255, 31])) } else { None };
        let mut router = r.router(15);
        let which = r.below(4);
        if r.wide(50) {
            if which == 1 && !tables.address_entries().is_empty() {
                let entry = r.pick(tables.address_entries());
                (address, prefix) = (entry.address, entry.prefix);
            } else if which == 3 && !tables.route_entries().is_empty() {
                let entry = r.pick(tables.route_entries());
                (address, prefix, router) = (entry.network, entry.prefix, entry.router);
            }
        }
        let prefix = odd.unwrap_or(prefix);
        match which {
            0 => Call::AddAddress { step, address, prefix },
            1 => Call::DropAddress { step, address, prefix },
            2 => Call::AddRoute { step, network: address, prefix, router },
            _ => Call::DropRoute { step, network: address, prefix, router },
        }
    }

    /// A third of the codes is one that the store has, if it has any.
    fn get(&mut self, post: &Post) -> Call {
        let step = self.short_step();
        let lease = &post.plain.client.lease;
        let r = &mut self.random;
        let any = r.wide_byte();
        let mut kind = r.among(10, &[1, 3, 6, 51, 53, 54, 58, 100, 0, 255, any, any]);
        if lease.store_whole() && lease.used > 0 && r.wide(35) {
            let (mut kinds, mut rest) = (vec![], &lease.options[..lease.used as usize]);
            while let [kind, length, after @ ..] = rest {
                kinds.push(*kind);
                rest = &after[*length as usize..];
            }
            kind = r.pick(&kinds);
        }
        Call::Get { step, kind }
    }

    // Any whole state, and states that are not.

    fn deadline(&mut self, moment: u32) -> u32 {
        let r = &mut self.random;
        let distance = match r.below(4) {
            0 => r.pick(&[0, 1, u32::MAX, 1 << 31, (1 << 31) - 1, (1 << 31) + 1, 1 << 30, (1 << 30) + 1, DAY, DAY - 1, DAY + 1]),
            1 => r.any_size(),
            2 => 0u32.wrapping_sub(r.any_size()),
            _ => r.below(200_000) as u32,
        };
        moment.wrapping_add(distance)
    }

    fn state(&mut self, moment: u32) {
        let id = if self.random.narrow && self.random.percent(20) { 1 } else { self.random.word() };
        let state = match self.random.below(7) {
            0 => State::Init,
            1 => State::Discovering { retry_at: self.deadline(moment) },
            2..=3 => State::Requesting {
                retry_at: self.deadline(moment),
                retry: self.random.pick(&[0, 1, 2, 3, 4, 5, 6, 900, 65535]),
                server: self.random.address(),
                identifier: self.random.address(),
                requested: self.random.address(),
            },
            _ => {
                let renew_at = self.deadline(moment);
                let far = self.random.percent(30);
                let rebind_at = if far { renew_at.wrapping_add(1 << 31) } else { self.deadline(moment) };
                State::Renewing { renew_at, rebind_at, expires_at: self.deadline(moment), rebinding: self.random.percent(40) }
            }
        };
        self.queue.push_back(Call::State { id, state });
        if state.renewing() {
            let lease = self.lease();
            self.queue.push_back(Call::Lease(Box::new(lease)));
        }
    }

    fn lease(&mut self) -> Lease {
        let mut lease = Lease::ZERO;
        let r = &mut self.random;
        lease.server = r.address();
        lease.identifier = if r.wide(20) { lease.server } else { r.address() };
        lease.address = r.address();
        lease.prefix = r.upto(32) as u8;
        lease.router = r.percent(60).then(|| if r.wide(20) { r.odd() } else { r.address() });
        lease.dns_count = r.upto(3) as u8;
        for place in 0..lease.dns_count as usize {
            lease.dns[place] = r.address();
        }
        let room = r.pick(&[0, 10, 40, 255, 256]);
        let stored = self.items(room);
        lease.used = stored.len() as u16;
        lease.options[..stored.len()].copy_from_slice(&stored);
        lease
    }

    /// A whole state with one thing in it that is not whole.
    fn broken(&mut self, moment: u32) {
        let mut settings = self.good_settings();
        let what = self.random.below(14);
        let r = &mut self.random;
        match what {
            0 => settings.medium = r.wider(&[1, 2, 255]),
            1 => settings.mtu = r.among(3, &[0, 575, 1501, 65535]),
            2 => settings.name = r.bytes(64),
            3 => settings.list = Some(r.bytes(65)),
            4 => settings.extra = r.among(2, &[&[12, 2, 65][..], &[12, 3, 65], &[12], &[0, 0, 255]]).to_vec(),
            5 => settings.extra = if r.wide(50) { [vec![43, 254], r.bytes(254)].concat() } else { vec![9; 257] },
            6 => settings.maximum = Some(r.wider(&[LONGEST + 1, u32::MAX])),
            _ => {}
        }
        self.queue.push_back(Call::Settings(settings));
        let mut lease = self.lease();
        match what {
            7 => lease.prefix = self.random.pick(&[33, 255]),
            8 => lease.dns_count = self.random.pick(&[4, 255]),
            9 => lease.used = self.random.pick(&[257, 300]),
            10 => {
                lease.used = 3;
                lease.options[1] = 2;
            }
            _ => {}
        }
        let expires_at = self.deadline(moment);
        if !(7..=10).contains(&what) && self.random.wide(50) {
            self.state(moment);
        } else {
            let state = State::Renewing { renew_at: moment, rebind_at: moment, expires_at, rebinding: false };
            self.queue.push_back(Call::State { id: 5, state });
            self.queue.push_back(Call::Lease(Box::new(lease)));
        }
        match what {
            11 => self.tables(5, 1, true),
            12 => self.tables(1, 255, true),
            13 => {
                self.queue.push_back(Call::Tables { generation: 3, addresses: 1, routes: 1 });
                let over = self.random.percent(50);
                let (a, b) = if over { (33, 0) } else { (0, 33) };
                self.queue.push_back(Call::Address(Entry { address: [10, 0, 0, 1], prefix: a, dhcp: false }));
                self.queue.push_back(Call::Route(RouteEntry { network: [0; 4], prefix: b, router: [10, 0, 0, 1], dhcp: true }));
            }
            _ => self.any_tables(),
        }
    }

    // Polls.

    fn short_step(&mut self) -> u32 {
        let r = &mut self.random;
        let step = match r.below(10) {
            0..=4 => 0,
            5..=7 => r.below(3000) as u32,
            8 => r.any_size() >> 6,
            _ => 1,
        };
        self.within(step)
    }

    /// A step that keeps the premise, which says nothing of the time before the first poll.
    pub fn within(&mut self, step: u32) -> u32 {
        match self.since {
            None => step,
            Some(passed) => (step as u64).min(PREMISE.saturating_sub(passed)) as u32,
        }
    }

    fn poll(&mut self, post: &Post) -> Call {
        let now = post.plain.moment;
        let mut target = self.wake.unwrap_or(now);
        if self.random.percent(25) {
            let r = &mut self.random;
            target = match post.plain.client.state {
                State::Init => now,
                State::Discovering { retry_at } | State::Requesting { retry_at, .. } => retry_at,
                State::Renewing { renew_at, rebind_at, expires_at, .. } => r.pick(&[renew_at, rebind_at, expires_at]),
            };
        }
        let to = target.wrapping_sub(now);
        let to = if to > 1 << 31 { 0 } else { to };
        let r = &mut self.random;
        let in_time = self.sober && r.percent(80);
        let step = match r.below(if in_time { 16 } else { 20 }) {
            0..=9 => to,
            10..=11 => to.saturating_sub(1),
            12..=13 => to + 1,
            14 => r.upto(to as u64) as u32,
            15 => 0,
            16 => to.saturating_add(r.any_size()),
            17 => to.saturating_add(r.below(100_000) as u32),
            18 => PREMISE as u32,
            _ => r.pick(&[DAY, DAY - 1, DAY + 1, 10_000, 9_999, 60_000]),
        };
        let step = self.within(step);
        let length = self.length(post);
        Call::Poll { step, length, fill: self.random.byte() }
    }

    /// The lent buffer: mostly long enough, and round the lengths that count.
    fn length(&mut self, post: &Post) -> u16 {
        let requesting = matches!(post.plain.client.state, State::Requesting { .. }) != self.random.percent(10);
        let need = post.plain.client.settings.datagram(requesting) as u64;
        let r = &mut self.random;
        let length = match r.below(25) {
            0..=13 => need + r.below(9),
            14..=16 => need,
            17..=18 => need - 1,
            19..=20 => 0,
            21 => r.pick(&[1, 7, 8, 9, 27, 28, 100, 239, 240, 247, 248, 249]),
            22 if r.wide(8) => u16::MAX as u64,
            22 => r.wider(&[1480, 1472, 1500]),
            23 => r.below(700),
            _ => need + 1,
        };
        length as u16
    }

    /// What may follow the last poll: calls as late as one likes.
    fn tail(&mut self, post: &Post) -> Call {
        for _ in 0..2 {
            let step = self.random.next() as u32;
            let call = if self.random.percent(50) { Call::Reset { step } } else { self.manual(post) };
            self.queue.push_back(call);
        }
        match self.process(post) {
            Call::Process { source, reply, .. } => Call::Process { step: self.random.next() as u32, source, reply },
            call => call,
        }
    }
}
