//! A post: the Rust's client on its interface, with tables, generator and moment, called as document 01 has the calls.
//! Its state is read out after each call, and put in before one where a record has set it.
use std::cell::RefCell;
use std::collections::BTreeMap;
use std::panic::{self, AssertUnwindSafe};

use crate::driver::{Capabilities, Checksum, ChecksumCapabilities, Device, LinkState};
use crate::iface::dhcpv4::{self, DhcpConfig};
use crate::iface::{AddrOrigin, Iface, IfaceAddr, IfaceHandle, IfaceState, Medium, Preferred};
use crate::plain::*;
use crate::pool::{PoolRef, StaticPool};
use crate::rand::Rand;
use crate::record::{Answer, Call};
use crate::route::{Route, RouteError, RouteOrigin, Routes};
use crate::run::Answers;
use crate::stack::StackInner;
use crate::storage::{MaybeBox, Slab, Vec as Bounded};
use crate::time::{Clock, Duration, Instant};
use crate::wire::{DhcpOption, DhcpPacket, EthernetAddress, HardwareAddress, IpAddr, IpCidr, Ipv4Addr, Ipv4AddrExt, Ipv4Cidr};

/// What stands before the datagram in a packet: the link's header and the IP header.
const LINK: usize = 14;
pub const HEADROOM: usize = LINK + 20;

#[derive(Clone, Copy, Debug, Default, PartialEq, Eq)]
pub struct Polled {
    pub number: u8,
    pub length: u16,
    pub source: Address,
    pub destination: Address,
    pub wake: u32,
    pub purge: bool,
}

#[derive(Clone, Copy, Debug, PartialEq, Eq)]
pub struct Taken {
    pub number: u8,
    pub purge: bool,
}

pub struct Post {
    pub plain: Plain,
    /// How often each of the Rust's log lines came.
    pub seen: BTreeMap<&'static str, u64>,

    /// What creation says of the client's settings: 0, or 1 to 7.
    settings_number: u8,
    /// Set by a record, or by a call that broke off: the Rust's own state is put in anew before the next call.
    stale: bool,
    pub ifaces: Slab<IfaceState<'static>, 1>,
    pub inner: StackInner,
    pub pool: &'static StaticPool,
    /// What the Rust's configuration points to, while it is the client's.
    list: Vec<u8>,
    extra: Vec<u8>,
    extra_options: Vec<DhcpOption<'static>>,
}

thread_local! {
    /// The message of a panic of the Rust's, while one is awaited.
    static PANIC: RefCell<Option<String>> = const { RefCell::new(None) };
}

/// From here on the Rust's panics are kept for `caught`; any other is printed.
pub fn keep_panics() {
    let printed = panic::take_hook();
    panic::set_hook(Box::new(move |info| {
        let awaited = PANIC.with_borrow_mut(|panic| panic.as_mut().map(|text| *text = info.to_string()).is_some());
        if !awaited {
            printed(info);
        }
    }));
}

/// A call whose panics are kept.
pub fn awaited(call: impl FnOnce()) {
    PANIC.set(Some(String::new()));
    call();
    PANIC.take();
}

/// Whether the Rust panics because a message does not fit.
fn caught(call: impl FnOnce()) -> bool {
    PANIC.set(Some(String::new()));
    let broke = panic::catch_unwind(AssertUnwindSafe(call)).is_err();
    let text = PANIC.take().unwrap();
    let fits_not = text.contains("does not fit") || text.contains("out of range");
    assert!(!broke || fits_not, "the Rust broke off: {text}");
    broke
}

pub fn cidr(address: Address, prefix: u8) -> IpCidr {
    IpCidr::V4(Ipv4Cidr::new(address.into(), prefix))
}

fn parts(cidr: &IpCidr) -> (Address, u8) {
    let IpCidr::V4(cidr) = cidr;
    (cidr.address().octets(), cidr.prefix_len())
}

/// A slice as the Rust's configuration wants it.
///
/// SAFETY: what it points to has to stay until the configuration is replaced.
unsafe fn forever<T>(slice: &[T]) -> &'static [T] {
    unsafe { core::slice::from_raw_parts(slice.as_ptr(), slice.len()) }
}

impl Post {
    pub fn new() -> Self {
        let pool: &'static StaticPool = Box::leak(Box::new(StaticPool::new()));
        let iface = IfaceState {
            handle: IfaceHandle::new(0),
            driver: MaybeBox(Box::leak(Box::new(Device))),
            medium: Medium::Ethernet,
            caps: Capabilities::default(),
            ip_mtu: 0,
            ip_headroom: LINK,
            hardware_addr: HardwareAddress::Ethernet(EthernetAddress([0; 6])),
            ip_addrs: Bounded::new(),
            config_generation: 0,
            dhcpv4: None,
            last_link_state: LinkState::Up,
        };
        let inner = StackInner {
            rand: Rand::new(0),
            pool: PoolRef::new(pool),
            routes: Routes::new(),
            name: vec![],
            sent: None,
            purged: false,
        };
        let mut post = Post {
            plain: Plain::zero(),
            seen: BTreeMap::new(),
            settings_number: 0,
            stale: true,
            ifaces: Slab(iface),
            inner,
            pool,
            list: vec![],
            extra: vec![],
            extra_options: vec![],
        };
        post.settings_number = post.judge_settings();
        post
    }

    /// What creation says of the settings. 1 is the Rust's own refusal, and 7 its panic when it builds the longest message; 2
    /// to 6 are limits of ours, which the Rust does not have.
    fn judge_settings(&mut self) -> u8 {
        if !self.make() {
            return 1;
        }
        let settings = &self.plain.client.settings;
        match settings {
            s if s.mtu < LEAST_MTU || s.mtu > MOST_MTU => 2,
            s if s.name.len() > MOST_NAME => 3,
            s if s.list.as_ref().is_some_and(|list| list.len() > MOST_LIST) => 4,
            s if s.extra.len() > MOST_EXTRA || !whole_items(&s.extra) => 5,
            s if s.maximum.is_some_and(|maximum| maximum > LONGEST) => 6,
            _ if self.longest_message_panics() => 7,
            _ => 0,
        }
    }

    /// Makes the Rust's client from the settings: whether it took them.
    fn make(&mut self) -> bool {
        let settings = &self.plain.client.settings;
        self.ifaces.0.dhcpv4 = None;
        self.list = settings.list.clone().unwrap_or_default();
        self.extra = settings.extra.clone();
        self.extra_options.clear();
        let mut rest = &self.extra[..];
        while let [kind, length, tail @ ..] = rest {
            let Some((data, after)) = tail.split_at_checked(*length as usize) else { break };
            // SAFETY: `extra` is replaced above, after the client that points to it is gone.
            self.extra_options.push(DhcpOption { kind: *kind, data: unsafe { forever(data) } });
            rest = after;
        }
        let mut config = DhcpConfig::default();
        // SAFETY: as for `extra`.
        config.outgoing_options = unsafe { forever(&self.extra_options) };
        config.parameter_request_list = settings.list.as_ref().map(|_| unsafe { forever(&self.list) });
        config.max_lease_duration = settings.maximum.map(Duration::from_millis);
        config.ignore_naks = settings.ignore_naks;

        let iface = &mut self.ifaces.0;
        let ethernet = settings.medium == ETHERNET;
        iface.medium = if ethernet { Medium::Ethernet } else { Medium::Ip };
        iface.hardware_addr =
            if ethernet { HardwareAddress::Ethernet(EthernetAddress(settings.hardware)) } else { HardwareAddress::Ip };
        iface.caps = Capabilities {
            max_transmission_unit: settings.mtu as usize + LINK,
            tx_headroom: 0,
            checksum: ChecksumCapabilities { udp: Checksum { tx: settings.offload, rx: settings.offload } },
        };
        iface.ip_mtu = settings.mtu as usize;
        self.inner.name.clone_from(&settings.name);
        Iface { inner: &mut self.inner, ifaces: &mut self.ifaces, index: 0 }.set_dhcpv4(Some(config)).is_ok()
    }

    /// A Request of Requesting, the longest message, in a buffer that is long enough for any.
    fn longest_message_panics(&mut self) -> bool {
        let due = State::Requesting { retry_at: 0, retry: 0, server: [0; 4], identifier: [0; 4], requested: [0; 4] };
        self.ifaces.0.dhcpv4.as_mut().unwrap().set(0, &due, &Lease::ZERO);
        self.pool.put(Some(vec![0; 4096]));
        let broke = caught(|| self.ifaces.0.dhcpv4_poll(&mut self.inner, &mut Clock::new(Instant::ZERO)));
        self.inner.sent = None;
        self.pool.put(None);
        broke
    }

    /// Puts a whole state into the Rust.
    pub fn load(&mut self) {
        if !self.stale {
            return;
        }
        self.stale = false;
        let iface = &mut self.ifaces.0;
        iface.dhcpv4.as_mut().unwrap().set(self.plain.client.id, &self.plain.client.state, &self.plain.client.lease);
        self.load_tables();
        self.inner.rand = Rand::new(self.plain.generator);
    }

    fn load_tables(&mut self) {
        let iface = &mut self.ifaces.0;
        iface.config_generation = self.plain.tables.generation;
        iface.ip_addrs.clear();
        for entry in self.plain.tables.address_entries() {
            let origin = if entry.dhcp { AddrOrigin::Dhcpv4 } else { AddrOrigin::Manual };
            let address = IfaceAddr { cidr: cidr(entry.address, entry.prefix), origin, preferred: Preferred::Always };
            iface.ip_addrs.push(address).unwrap();
        }
        self.inner.routes.clear();
        for entry in self.plain.tables.route_entries() {
            // The table takes no router that is not unicast, but one can be written into it.
            let mut route = Route::new_ipv4_gateway(Ipv4Addr::new(10, 0, 0, 1), iface.handle);
            route.cidr = cidr(entry.network, entry.prefix);
            route.origin = if entry.dhcp { RouteOrigin::Dhcpv4 } else { RouteOrigin::Manual };
            self.inner.routes.add(route).unwrap();
            self.inner.routes.iter_mut().last().unwrap().via_router = IpAddr::V4(entry.router.into());
        }
    }

    /// Reads the state out of the Rust.
    fn unload(&mut self) {
        let (id, state, lease) = self.ifaces.0.dhcpv4.as_ref().unwrap().plain();
        self.plain.client.id = id;
        self.plain.client.state = state;
        self.plain.client.lease = lease.unwrap_or(Lease::ZERO);
        self.plain.generator = self.inner.rand.state();
        self.unload_tables();
    }

    fn unload_tables(&mut self) {
        let iface = &self.ifaces.0;
        let mut tables = Tables { generation: iface.config_generation, ..Tables::default() };
        for (place, entry) in tables.address.iter_mut().zip(iface.ip_addrs.iter()) {
            let (address, prefix) = parts(&entry.cidr);
            *place = Entry { address, prefix, dhcp: entry.origin == AddrOrigin::Dhcpv4 };
        }
        tables.addresses = iface.ip_addrs.len() as u8;
        for (place, route) in tables.route.iter_mut().zip(self.inner.routes.iter()) {
            let (network, prefix) = parts(&route.cidr);
            let IpAddr::V4(router) = route.via_router;
            *place = RouteEntry { network, prefix, router: router.octets(), dhcp: route.origin == RouteOrigin::Dhcpv4 };
        }
        tables.routes = self.inner.routes.len() as u8;
        self.plain.tables = tables;
    }

    /// Number 9: the Rust cannot hold a state that is not whole, so this is judged by its definition.
    pub fn whole(&self) -> bool {
        self.settings_number == 0 && self.plain.client.whole() && self.plain.tables.whole()
    }

    // The calls.

    /// Creates a client from the settings; tables and generator stay. A refused client is all zero.
    fn create(&mut self) -> u8 {
        let number = self.settings_number;
        self.plain.client.lease = Lease::ZERO;
        if number == 0 {
            assert!(self.make());
            let (id, state, _) = self.ifaces.0.dhcpv4.as_ref().unwrap().plain();
            self.set(false, |plain| (plain.client.id, plain.client.state) = (id, state));
        } else {
            self.set(true, |plain| plain.client = Plain::zero().client);
        }
        number
    }

    pub fn poll(&mut self, step: u32, length: u16, fill: u8) -> Polled {
        self.plain.buffer.clear();
        self.plain.buffer.extend((0..length as usize).map(|place| lent(fill, place)));
        self.poll_lent(step)
    }

    /// A poll that is lent the buffer as it stands in `plain`.
    pub fn poll_lent(&mut self, step: u32) -> Polled {
        self.plain.moment = self.plain.moment.wrapping_add(step);
        if !self.whole() {
            return Polled { number: 9, ..Polled::default() };
        }
        self.load();
        self.begin();
        self.pool.put((!self.plain.buffer.is_empty()).then(|| {
            let mut storage = vec![0; HEADROOM];
            storage.extend_from_slice(&self.plain.buffer);
            storage
        }));
        let mut clock = Clock::new(Instant::from_millis(self.plain.moment));
        let broke = caught(|| self.ifaces.0.dhcpv4_poll(&mut self.inner, &mut clock));
        self.pool.put(None);
        self.count();
        if broke {
            self.stale = true;
            return Polled { number: 8, ..Polled::default() };
        }
        self.unload();
        let mut answer = Polled { wake: clock.next().as_millis(), purge: self.inner.purged, ..Polled::default() };
        if let Some(sent) = self.inner.sent.take() {
            answer.length = sent.packet.len() as u16;
            answer.source = sent.source.octets();
            answer.destination = sent.destination.octets();
            self.plain.buffer.copy_from_slice(&sent.packet.storage[HEADROOM..]);
        }
        answer
    }

    pub fn process(&mut self, step: u32, source: Address, reply: &[u8]) -> Taken {
        self.plain.moment = self.plain.moment.wrapping_add(step);
        if !self.whole() {
            return Taken { number: 9, purge: false };
        }
        self.load();
        self.begin();
        let mut payload = reply.to_vec();
        let now = Instant::from_millis(self.plain.moment);
        self.ifaces.0.dhcpv4_process(&mut self.inner, source.into(), &mut payload, now);
        self.count();
        let number = outcome(&self.plain.client.settings.hardware, reply);
        self.unload();
        Taken { number, purge: self.inner.purged }
    }

    fn reset(&mut self, step: u32) -> Taken {
        self.plain.moment = self.plain.moment.wrapping_add(step);
        if !self.whole() {
            return Taken { number: 9, purge: false };
        }
        self.load();
        self.begin();
        let mut iface = Iface { inner: &mut self.inner, ifaces: &mut self.ifaces, index: 0 };
        iface.restart_dhcpv4();
        self.count();
        self.unload();
        Taken { number: 0, purge: self.inner.purged }
    }

    // The manual calls: ours, on the Rust's tables.

    fn manual(&mut self, step: u32, prefix: u8, change: impl FnOnce(&mut IfaceState<'static>, &mut Routes) -> u8) -> u8 {
        self.plain.moment = self.plain.moment.wrapping_add(step);
        if !self.plain.tables.whole() || prefix > 32 {
            return 9;
        }
        // The client may not be whole; the tables are.
        self.load_tables();
        let number = change(&mut self.ifaces.0, &mut self.inner.routes);
        self.unload_tables();
        number
    }

    fn add_address(&mut self, step: u32, address: Address, prefix: u8) -> u8 {
        self.manual(step, prefix, |iface, _| {
            let address = IfaceAddr { cidr: cidr(address, prefix), origin: AddrOrigin::Manual, preferred: Preferred::Always };
            if iface.ip_addrs.push(address).is_err() { 11 } else { 0 }
        })
    }

    fn drop_address(&mut self, step: u32, address: Address, prefix: u8) -> u8 {
        self.manual(step, prefix, |iface, _| {
            iface.ip_addrs.retain(|a| !(a.origin == AddrOrigin::Manual && a.cidr == cidr(address, prefix)));
            0
        })
    }

    fn add_route(&mut self, step: u32, network: Address, prefix: u8, router: Address) -> u8 {
        self.manual(step, prefix, |iface, routes| {
            let mut route = Route::new_ipv4_gateway(router.into(), iface.handle);
            route.cidr = cidr(network, prefix);
            match routes.add(route) {
                Ok(()) => 0,
                Err(RouteError::NotUnicast) => 10,
                Err(RouteError::Full) => 11,
            }
        })
    }

    fn drop_route(&mut self, step: u32, network: Address, prefix: u8, router: Address) -> u8 {
        self.manual(step, prefix, |_, routes| {
            routes.retain(|r| {
                !(r.origin == RouteOrigin::Manual && r.cidr == cidr(network, prefix) && r.via_router == IpAddr::V4(router.into()))
            });
            0
        })
    }

    // Look-ups.

    /// The place and length of an option's data in the lease's store, or 9 where that is not whole.
    fn get(&mut self, step: u32, kind: u8) -> Result<Option<(usize, usize)>, u8> {
        self.plain.moment = self.plain.moment.wrapping_add(step);
        let lease = &self.plain.client.lease;
        match self.plain.client.state.renewing() {
            false => Ok(None),
            true if !lease.store_whole() => Err(9),
            true => Ok(dhcpv4::place(lease.used, &lease.options, kind)),
        }
    }

    fn begin(&mut self) {
        log::clear();
        self.inner.purged = false;
        self.inner.sent = None;
    }

    fn count(&mut self) {
        log::LINES.with_borrow(|lines| {
            for text in &lines.texts {
                *self.seen.entry(text).or_default() += 1;
            }
        });
    }
}

impl Answers for Post {
    fn plain(&self) -> &Plain {
        &self.plain
    }

    fn set(&mut self, settings: bool, change: impl FnOnce(&mut Plain)) {
        change(&mut self.plain);
        self.stale = true;
        if settings {
            self.settings_number = self.judge_settings();
        }
    }

    fn answer(&mut self, call: &Call) -> Answer {
        self.plain.buffer.clear();
        match call {
            Call::New => Answer::Created { number: self.create() },
            Call::Poll { step, length, fill } => Answer::Polled(self.poll(*step, *length, *fill)),
            Call::Process { step, source, reply } => Answer::Processed(self.process(*step, *source, reply)),
            Call::Reset { step } => Answer::WasReset(self.reset(*step)),
            Call::AddAddress { step, address, prefix } => Answer::Changed { number: self.add_address(*step, *address, *prefix) },
            Call::DropAddress { step, address, prefix } => {
                Answer::Changed { number: self.drop_address(*step, *address, *prefix) }
            }
            Call::AddRoute { step, network, prefix, router } => {
                Answer::Changed { number: self.add_route(*step, *network, *prefix, *router) }
            }
            Call::DropRoute { step, network, prefix, router } => {
                Answer::Changed { number: self.drop_route(*step, *network, *prefix, *router) }
            }
            Call::Get { step, kind } => match self.get(*step, *kind) {
                Ok(found) => Answer::Got { number: 0, found },
                Err(number) => Answer::Got { number, found: None },
            },
            Call::Mask(address) => mask(*address),
            Call::Option { kind, reply } => Answer::Optioned(option(reply, *kind)),
            _ => Answer::Nothing,
        }
    }
}

/// The number of a reply's outcome, by what the Rust logged of it. It logs nothing of a reply to another hardware address
/// or with another id, and of a NAK that it ignores only that it came.
pub fn outcome(hardware: &[u8; 6], reply: &[u8]) -> u8 {
    log::LINES.with_borrow(|lines| {
        let Some(first) = lines.texts.first() else {
            return if reply[28..34] != *hardware { 23 } else { 24 };
        };
        match *first {
            s if s.contains("invalid pkt") && s.contains(": {:?}") => 20,
            s if s.contains("invalid pkt") => 21,
            s if s.contains("has no message type") => 22,
            s if s.contains("missing server_identifier") => 25,
            s if s.contains("recv") => match lines.texts.get(1).copied() {
                Some(s) if s.contains("unexpected in current state") => 26,
                Some(s) if s.contains("ignoring OFFER") => 27,
                Some(s) if s.contains("missing subnet_mask") => 28,
                Some(s) if s.contains("not a valid mask") => 29,
                Some(s) if s.contains("ignoring ACK because your_ip") => 30,
                None if lines.first == "Nak" => 26,
                None => 0,
                Some(s) if s.contains("reset") || s.contains("buffer full") || s.contains("default T1 and T2") => 0,
                Some(s) if s.contains("table full") => 0,
                Some(s) => unreachable!("a line of the Rust's that is not known here: {}", s),
            },
            s => unreachable!("a line of the Rust's that is not known here: {}", s),
        }
    })
}

// The Rust's own readers, for the layers below the client.

/// Whether the address is unicast, and the prefix length that it gives as a mask.
fn mask(address: Address) -> Answer {
    let address = Ipv4Addr::from(address);
    Answer::Masked { unicast: address.x_is_unicast(), prefix: address.prefix_len() }
}

/// The data of the first such option of a reply, which may be too short to have any.
fn option(reply: &[u8], kind: u8) -> Option<Vec<u8>> {
    let mut reply = reply.to_vec();
    let packet = DhcpPacket::new_checked(&mut reply).ok()?;
    packet.option(kind).map(<[u8]>::to_vec)
}
