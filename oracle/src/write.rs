//! Writes records.
use std::io::{self, Write};

use crate::plain::*;
use crate::record::*;

/// Writes lines: each gap of the form is filled in turn.
pub struct Writer {
    pub out: Vec<u8>,
}

struct Filling<'a> {
    out: &'a mut Vec<u8>,
    form: &'static [u8],
}

impl Filling<'_> {
    fn text(&mut self) {
        let end = self.form.iter().position(|c| *c == b'%').unwrap_or(self.form.len());
        self.out.extend_from_slice(&self.form[..end]);
        self.form = &self.form[end..];
    }

    fn gap(&mut self) -> u8 {
        self.text();
        let gap = self.form[1];
        self.form = &self.form[2..];
        gap
    }

    fn n(mut self, n: u64) -> Self {
        let gap = self.gap();
        debug_assert!(n <= most(gap));
        decimal(self.out, n);
        self
    }

    fn yes(self, yes: bool) -> Self {
        self.n(yes as u64)
    }

    fn address(mut self, address: Address) -> Self {
        self.gap();
        for (i, part) in address.iter().enumerate() {
            if i > 0 {
                self.out.push(b'.');
            }
            decimal(self.out, *part as u64);
        }
        self
    }

    /// The first `used` bytes, zeros where there are not so many.
    fn padded(mut self, bytes: &[u8], used: usize) -> Self {
        self = self.bytes(&bytes[..used.min(bytes.len())]);
        self.out.extend(std::iter::repeat_n(b'0', 2 * used.saturating_sub(bytes.len())));
        self
    }

    fn bytes(mut self, bytes: &[u8]) -> Self {
        self.gap();
        const DIGITS: &[u8; 16] = b"0123456789abcdef";
        let pair = |byte: &u8| [DIGITS[(byte >> 4) as usize], DIGITS[(byte & 15) as usize]];
        let begin = self.out.len();
        self.out.resize(begin + 2 * bytes.len(), 0);
        for (place, byte) in self.out[begin..].chunks_exact_mut(2).zip(bytes) {
            place.copy_from_slice(&pair(byte));
        }
        self
    }

    fn end(mut self) {
        self.text();
        assert!(self.form.is_empty());
        self.out.push(b'\n');
    }
}

fn decimal(out: &mut Vec<u8>, n: u64) {
    let mut digits = [0; 20];
    let mut at = 20;
    let mut rest = n;
    while rest >= 10 {
        at -= 1;
        // Most numbers have 32 bits, and are divided faster as such.
        let (next, digit) = match u32::try_from(rest) {
            Ok(small) => ((small / 10) as u64, (small % 10) as u8),
            Err(_) => (rest / 10, (rest % 10) as u8),
        };
        digits[at] = b'0' + digit;
        rest = next;
    }
    at -= 1;
    digits[at] = b'0' + rest as u8;
    out.extend_from_slice(&digits[at..]);
}

impl Writer {
    /// Hands on to standard output what has gathered, where it is much or all is wanted.
    pub fn flush(&mut self, all: bool) -> Result<(), String> {
        if all || self.out.len() > 1 << 16 {
            io::stdout().write_all(&self.out).map_err(|e| e.to_string())?;
            self.out.clear();
        }
        Ok(())
    }

    fn fill(&mut self, form: &'static str) -> Filling<'_> {
        Filling { out: &mut self.out, form: form.as_bytes() }
    }

    pub fn settings(&mut self, s: &Settings) {
        let none = vec![];
        self.fill(SETTINGS)
            .n(s.medium as u64)
            .n(s.mtu as u64)
            .bytes(&s.hardware)
            .yes(s.offload)
            .bytes(&s.name)
            .yes(s.list.is_some())
            .bytes(s.list.as_ref().unwrap_or(&none))
            .bytes(&s.extra)
            .yes(s.maximum.is_some())
            .n(s.maximum.unwrap_or(0) as u64)
            .yes(s.ignore_naks)
            .end()
    }

    pub fn state(&mut self, id: u32, state: &State) {
        let id = id as u64;
        match *state {
            State::Init => self.fill(INIT).n(id).end(),
            State::Discovering { retry_at } => self.fill(DISCOVERING).n(id).n(retry_at as u64).end(),
            State::Requesting { retry_at, retry, server, identifier, requested } => self
                .fill(REQUESTING)
                .n(id)
                .n(retry_at as u64)
                .n(retry as u64)
                .address(server)
                .address(identifier)
                .address(requested)
                .end(),
            State::Renewing { renew_at, rebind_at, expires_at, rebinding } => {
                self.fill(RENEWING).n(id).n(renew_at as u64).n(rebind_at as u64).n(expires_at as u64).yes(rebinding).end()
            }
        }
    }

    pub fn lease(&mut self, l: &Lease) {
        self.fill(LEASE)
            .address(l.server)
            .address(l.identifier)
            .address(l.address)
            .n(l.prefix as u64)
            .yes(l.router.is_some())
            .address(l.router.unwrap_or([0; 4]))
            .n(l.dns_count as u64)
            .address(l.dns[0])
            .address(l.dns[1])
            .address(l.dns[2])
            .padded(&l.options, l.used as usize)
            .end()
    }

    fn address(&mut self, e: &Entry) {
        self.fill(ADDRESS).address(e.address).n(e.prefix as u64).yes(e.dhcp).end()
    }

    fn route(&mut self, e: &RouteEntry) {
        self.fill(ROUTE).address(e.network).n(e.prefix as u64).address(e.router).yes(e.dhcp).end()
    }

    pub fn tables(&mut self, t: &Tables) {
        self.fill(TABLES).n(t.generation as u64).n(t.addresses as u64).n(t.routes as u64).end();
        t.address_entries().iter().for_each(|entry| self.address(entry));
        t.route_entries().iter().for_each(|entry| self.route(entry));
    }

    pub fn call(&mut self, call: &Call) {
        match call {
            Call::Start { moment, generator } => self.fill(START).n(*moment as u64).n(*generator).end(),
            Call::Settings(settings) => self.settings(settings),
            Call::State { id, state } => self.state(*id, state),
            Call::Lease(lease) => self.lease(lease),
            Call::Tables { generation, addresses, routes } => {
                self.fill(TABLES).n(*generation as u64).n(*addresses as u64).n(*routes as u64).end()
            }
            Call::Address(entry) => self.address(entry),
            Call::Route(entry) => self.route(entry),
            Call::Generator(state) => self.fill(GENERATOR).n(*state).end(),
            Call::New => self.fill(NEW).end(),
            Call::Poll { step, length, fill } => self.fill(POLL).n(*step as u64).n(*length as u64).n(*fill as u64).end(),
            Call::Process { step, source, reply } => self.fill(PROCESS).n(*step as u64).address(*source).bytes(reply).end(),
            Call::Reset { step } => self.fill(RESET).n(*step as u64).end(),
            Call::AddAddress { step, address, prefix } => {
                self.fill(ADD_ADDRESS).n(*step as u64).address(*address).n(*prefix as u64).end()
            }
            Call::DropAddress { step, address, prefix } => {
                self.fill(DROP_ADDRESS).n(*step as u64).address(*address).n(*prefix as u64).end()
            }
            Call::AddRoute { step, network, prefix, router } => {
                self.fill(ADD_ROUTE).n(*step as u64).address(*network).n(*prefix as u64).address(*router).end()
            }
            Call::DropRoute { step, network, prefix, router } => {
                self.fill(DROP_ROUTE).n(*step as u64).address(*network).n(*prefix as u64).address(*router).end()
            }
            Call::Get { step, kind } => self.fill(GET).n(*step as u64).n(*kind as u64).end(),
            Call::Mask(address) => self.fill(MASK).address(*address).end(),
            Call::Option { kind, reply } => self.fill(OPTION).n(*kind as u64).bytes(reply).end(),
            Call::Reply { step, source, kind, your, options } => {
                self.fill(REPLY).n(*step as u64).address(*source).n(*kind as u64).address(*your).bytes(options).end()
            }
        }
    }

    /// The answer, and where a call may have changed it the post as it stands then.
    pub fn answer(&mut self, call: &Call, answer: &Answer, post: &Plain) {
        let moment = post.moment as u64;
        match answer {
            Answer::Nothing => return,
            Answer::Created { number } => {
                self.fill(CREATED).n(moment).n(*number as u64).end();
                self.settings(&post.client.settings);
            }
            Answer::Polled(p) => {
                self.fill(POLLED).n(moment).n(p.number as u64).n(p.wake as u64).yes(p.purge).end();
                self.fill(SENT).n(p.length as u64).address(p.source).address(p.destination).end();
                let Call::Poll { fill, .. } = call else { unreachable!() };
                self.fill(BUFFER).bytes(written(&post.buffer, p.length as usize, *fill)).end();
            }
            Answer::Processed(t) => self.fill(PROCESSED).n(moment).n(t.number as u64).yes(t.purge).end(),
            Answer::WasReset(t) => self.fill(WAS_RESET).n(moment).n(t.number as u64).yes(t.purge).end(),
            Answer::Changed { number } => self.fill(CHANGED).n(moment).n(*number as u64).end(),
            Answer::Got { number, found } => {
                let (place, length) = found.unwrap_or((0, 0));
                self.fill(GOT).n(moment).n(*number as u64).yes(found.is_some()).n(place as u64).n(length as u64).end()
            }
            Answer::Masked { unicast, prefix } => {
                return self.fill(MASKED).yes(*unicast).yes(prefix.is_some()).n(prefix.unwrap_or(0) as u64).end();
            }
            Answer::Optioned(data) => {
                return self.fill(OPTIONED).yes(data.is_some()).bytes(data.as_deref().unwrap_or(&[])).end();
            }
        }
        self.state(post.client.id, &post.client.state);
        if post.client.state.renewing() {
            self.lease(&post.client.lease);
        }
        self.tables(&post.tables);
        self.fill(GENERATOR).n(post.generator).end();
    }
}

/// The datagram and, past it, the buffer up to the last byte that is not as it was lent.
fn written(buffer: &[u8], length: usize, fill: u8) -> &[u8] {
    let end = (0..buffer.len()).rev().find(|place| buffer[*place] != lent(fill, *place)).map_or(0, |place| place + 1);
    &buffer[..end.max(length)]
}
