//! Calls made over and over, to be counted and timed: crates/bench is the same with our client, reads the same cases and prints
//! the same lines. Here each turn puts client, tables and interface back as they were, by a plain copy, and calls the Rust's own
//! functions; the lent buffer and the generator go on from turn to turn.
//!
//! `oracle/bench` counts these in a build without the Rust's log lines. There the number of a reply's outcome is not known, and is
//! the case's own; in the build with them it is read off the lines.
use std::hint::black_box;
use std::io;
use std::mem::ManuallyDrop;
use std::panic::{self, AssertUnwindSafe};
use std::ptr;

use crate::iface::dhcpv4::DhcpConfig;
use crate::iface::{AddrOrigin, Iface, IfaceAddr, IfaceState, Preferred};
use crate::message::{ACK, OFFER};
use crate::plain::*;
use crate::post::{HEADROOM, Post, cidr, outcome};
use crate::rand::Rand;
use crate::record::{Answer, Call};
use crate::route::{Route, RouteOrigin, Routes};
use crate::run::Run;
use crate::time::{Clock, Instant};
use crate::wire::IpAddr;

const FIRST_MOMENT: u32 = 4_000_000_000;
const SEED: u64 = 20_260_401;
const HARDWARE: [u8; 6] = [2, 0, 0, 0, 0, 0x11];
const NAME: &[u8] = b"pitch-17";
const LENT: u8 = 0xa5;

/// Where the replies come from; the identifier in them is 10.0.0.1.
const SERVER: Address = [10, 0, 0, 9];
const YOUR: Address = [10, 0, 0, 50];
const TERMS: &[u8] = b"\x33\x04\x00\x00\x0e\x10\x3a\x04\x00\x00\x07\x08\x3b\x04\x00\x00\x0c\x4e\x01\x04\xff\xff\xff\x00\x03\x04\x0a\x00\x00\x01\x06\x08\x0a\x00\x00\x02\x0a\x00\x00\x03\x0f\x08camp.lan\xff";
/// Octets of the short reply, and of the longest.
const SHORT: usize = 300;
const MOST: usize = 540;

pub fn bench() -> Result<(), String> {
    let text = io::read_to_string(io::stdin()).map_err(|e| e.to_string())?;
    for line in text.lines() {
        let words: Vec<&str> = line.split(' ').collect();
        match words[..] {
            ["poll", "stage", stage, "step", step, "room", room, "number", number, "turns", turns] => {
                polls(at(stage)?, n(step)?, n(room)? as usize, n(number)?, n(turns)?)
            }
            [
                "process",
                "stage",
                stage,
                "kind",
                kind,
                "length",
                length,
                "from",
                from,
                "fill",
                count,
                value,
                "number",
                number,
                "turns",
                turns,
            ] => {
                let post = at(stage)?;
                let mut reply = made(post.plain.client.id, n(kind)? as u8, n(length)? as usize);
                let (from, count) = (n(from)? as usize, n(count)? as usize);
                reply[from..from + count].fill(n(value)? as u8);
                reply.truncate(n(length)? as usize);
                replies(post, reply, n(number)?, n(turns)?)
            }
            ["call", kind, "stage", stage, "number", _, "turns", turns] => others(at(stage)?, n(kind)?, n(turns)?),
            _ => println!("{line}"),
        }
    }
    Ok(())
}

fn n(text: &str) -> Result<u32, String> {
    text.parse().map_err(|_| format!("`{text}` is not a number"))
}

/// A reply as our side makes it.
fn made(id: u32, kind: u8, length: usize) -> Vec<u8> {
    let mut reply = vec![0; MOST];
    let mut put = |at: usize, octets: &[u8]| reply[at..at + octets.len()].copy_from_slice(octets);
    put(0, &[2, 1, 6]);
    put(4, &id.to_be_bytes());
    put(16, &YOUR);
    put(28, &HARDWARE);
    put(236, &[99, 130, 83, 99, 53, 1, kind, 54, 4, 10, 0, 0, 1]);
    if length <= SHORT {
        put(249, TERMS);
    } else {
        for i in 0..20 {
            put(249 + 12 * i, &[128 + i as u8, 10, 1, 2, 3, 4, 5, 6, 7, 8, 9, 10]);
        }
        put(489, TERMS);
    }
    reply
}

/// A fresh post after so many of these calls: a poll, an OFFER, a poll, an ACK.
fn at(stage: &str) -> Result<Post, String> {
    let mut run = Run::new(Post::new());
    run.call(&Call::Start { moment: FIRST_MOMENT, generator: SEED })?;
    run.call(&Call::Settings(Settings { mtu: 1500, hardware: HARDWARE, name: NAME.to_vec(), ..Settings::zero() }))?;
    if run.call(&Call::New)? != (Answer::Created { number: 0 }) {
        return Err("no post was created".into());
    }
    let mut post = run.post;
    post.load();
    for call in 0..n(stage)?.min(4) {
        match call {
            0 | 2 => {
                post.poll(0, 600, 0);
            }
            1 => {
                post.process(0, SERVER, &made(post.plain.client.id, OFFER, SHORT)[..SHORT]);
            }
            _ => {
                post.process(0, SERVER, &made(post.plain.client.id, ACK, SHORT)[..SHORT]);
            }
        }
    }
    Ok(post)
}

struct Sum {
    a: u32,
    b: u32,
    number: u32,
}

impl Sum {
    fn new() -> Self {
        Sum { a: 1, b: 0, number: 0 }
    }

    fn with(&mut self, word: u32) {
        self.a = self.a.wrapping_add(word);
        self.b = self.b.wrapping_add(self.a);
    }

    fn numbered(&mut self, number: u32) {
        self.number = number;
        self.with(number);
    }

    /// What the calls can change of client and tables.
    fn left(&mut self, iface: &IfaceState<'_>, routes: &Routes) {
        let (deadlines, id, address, used) = iface.dhcpv4.as_ref().map_or((0, 0, 0, 0), |client| client.glimpse());
        self.with(deadlines);
        self.with(id.wrapping_add(address));
        self.with(used as u32);
        self.with(iface.config_generation);
        self.with(iface.ip_addrs.len() as u32 * 256 + routes.len() as u32);
    }

    fn print(&self) {
        println!("  number {}, digest {:08x}{:08x}", self.number, self.a, self.b);
    }
}

/// Client, interface and tables as they are at the stage.
struct Held {
    iface: ManuallyDrop<IfaceState<'static>>,
    routes: ManuallyDrop<Routes>,
    moment: u32,
}

impl Held {
    fn of(post: &Post) -> Self {
        // SAFETY: neither owns memory, and neither copy is dropped.
        unsafe {
            Held {
                iface: ManuallyDrop::new(ptr::read(&post.ifaces.0)),
                routes: ManuallyDrop::new(ptr::read(&post.inner.routes)),
                moment: post.plain.moment,
            }
        }
    }

    /// Puts all back for a turn, and gives its moment.
    #[inline(always)]
    fn put_back(&self, post: &mut Post, turn: u32) -> u32 {
        // SAFETY: as for `of`.
        unsafe {
            ptr::copy_nonoverlapping(&*self.iface, &mut post.ifaces.0, 1);
            ptr::copy_nonoverlapping(&*self.routes, &mut post.inner.routes, 1);
        }
        post.inner.purged = false;
        black_box(self.moment).wrapping_add(turn % 8)
    }
}

fn lent(room: usize) -> Vec<u8> {
    vec![LENT; HEADROOM + room]
}

fn polls(mut post: Post, step: u32, room: usize, number: u32, turns: u32) {
    let (held, mut sum) = (Held::of(&post), Sum::new());
    post.pool.put((room > 0).then(|| lent(room)));
    let untouched = if room < 8 { 0 } else { LENT as u32 * 257 };
    for turn in 0..turns {
        let moment = held.put_back(&mut post, turn);
        let mut clock = Clock::new(Instant::from_millis(moment.wrapping_add(step)));
        if number == 8 {
            // A panic unwinds here, and takes the buffer with it.
            let rand = post.inner.rand.state();
            let call = AssertUnwindSafe(|| post.ifaces.0.dhcpv4_poll(&mut post.inner, &mut clock));
            crate::post::awaited(|| assert!(panic::catch_unwind(call).is_err()));
            held.put_back(&mut post, turn);
            post.inner.rand = Rand::new(rand);
            post.pool.put(Some(lent(room)));
            sum.left(&post.ifaces.0, &post.inner.routes);
            sum.numbered(8);
            sum.with(untouched);
            continue;
        }
        post.ifaces.0.dhcpv4_poll(&mut post.inner, &mut clock);
        sum.left(&post.ifaces.0, &post.inner.routes);
        sum.numbered(0);
        let wake = clock.next().as_millis();
        match post.inner.sent.take() {
            Some(sent) => {
                sum.with(wake.wrapping_add(sent.packet.len() as u32));
                sum.with(sent.source.to_bits().wrapping_add(sent.destination.to_bits()));
                sum.with(post.inner.purged as u32);
                sum.with((sent.packet[6] as u32) << 8 | sent.packet[7] as u32);
                post.pool.put(Some(sent.packet.storage));
            }
            None => {
                sum.with(wake);
                sum.with(0);
                sum.with(post.inner.purged as u32);
                if room >= 8 {
                    sum.with(untouched);
                }
            }
        }
    }
    sum.print();
}

fn replies(mut post: Post, mut reply: Vec<u8>, number: u32, turns: u32) {
    let (held, mut sum) = (Held::of(&post), Sum::new());
    for turn in 0..turns {
        let moment = held.put_back(&mut post, turn);
        reply[8] = turn as u8;
        log::clear();
        let now = Instant::from_millis(moment.wrapping_add(20));
        post.ifaces.0.dhcpv4_process(&mut post.inner, SERVER.into(), &mut reply, now);
        sum.left(&post.ifaces.0, &post.inner.routes);
        let number = if cfg!(feature = "log") { outcome(&HARDWARE, &reply) as u32 } else { number };
        sum.numbered(number);
        if number == 0 {
            sum.with(post.inner.purged as u32);
        }
    }
    sum.print();
}

fn others(mut post: Post, kind: u32, turns: u32) {
    if kind == 1 {
        post.ifaces.0.dhcpv4 = None;
    }
    let (held, mut sum) = (Held::of(&post), Sum::new());
    for turn in 0..turns {
        let moment = held.put_back(&mut post, turn);
        let purges = match kind {
            0 => false,
            1 => {
                let mut iface = Iface { inner: &mut post.inner, ifaces: &mut post.ifaces, index: 0 };
                iface.set_dhcpv4(Some(black_box(DhcpConfig::default()))).unwrap();
                false
            }
            2 => {
                Iface { inner: &mut post.inner, ifaces: &mut post.ifaces, index: 0 }.restart_dhcpv4();
                true
            }
            _ => {
                change(&mut post.ifaces.0, &mut post.inner.routes, kind, [192, 168, 0, turn as u8]);
                false
            }
        };
        sum.left(&post.ifaces.0, &post.inner.routes);
        if kind == 0 {
            sum.with(moment);
            continue;
        }
        sum.numbered(0);
        if purges {
            sum.with(post.inner.purged as u32);
        }
    }
    sum.print();
}

/// The manual calls, as `post` has them.
fn change(iface: &mut IfaceState<'static>, routes: &mut Routes, kind: u32, address: Address) {
    let router = [10, 0, 0, 1];
    match kind {
        3 => {
            let entry = IfaceAddr { cidr: cidr(address, 24), origin: AddrOrigin::Manual, preferred: Preferred::Always };
            iface.ip_addrs.push(entry).ok().unwrap();
        }
        4 => iface.ip_addrs.retain(|a| !(a.origin == AddrOrigin::Manual && a.cidr == cidr(address, 24))),
        5 => {
            let mut route = Route::new_ipv4_gateway(router.into(), iface.handle);
            route.cidr = cidr(address, 24);
            routes.add(route).unwrap();
        }
        _ => routes.retain(|r| {
            !(r.origin == RouteOrigin::Manual && r.cidr == cidr(address, 24) && r.via_router == IpAddr::V4(router.into()))
        }),
    }
}
