//! Calls at the boundaries of every length and count, each on a state that is set before it, so that a reader may leave
//! out the calls that it does not have.
use crate::message::{self, ACK, NAK, OFFER};
use crate::plain::*;
use crate::record::Call;

const HARDWARE: [u8; 6] = [2, 0, 0, 0, 0, 1];
const ID: u32 = 7;
const NOW: u32 = 4_294_900_000;
const SERVER: Address = [10, 0, 0, 9];
const IDENTIFIER: Address = [10, 0, 0, 1];
const YOURS: Address = [10, 0, 0, 50];
/// Round the two ends of what is unicast.
const ADDRESSES: [Address; 12] = [
    [0, 0, 0, 0],
    [0, 0, 0, 1],
    [1, 0, 0, 0],
    [127, 0, 0, 1],
    [223, 255, 255, 255],
    [224, 0, 0, 0],
    [224, 0, 0, 1],
    [239, 255, 255, 255],
    [240, 0, 0, 0],
    [255, 255, 255, 0],
    [255, 255, 255, 254],
    [255, 255, 255, 255],
];

fn standard() -> Settings {
    Settings { mtu: 1500, hardware: HARDWARE, ..Settings::zero() }
}

fn item(code: u8, data: &[u8]) -> Vec<u8> {
    let mut bytes = vec![code, data.len() as u8];
    bytes.extend_from_slice(data);
    bytes
}

fn seconds(code: u8, n: u32) -> Vec<u8> {
    item(code, &n.to_be_bytes())
}

fn discovering() -> State {
    State::Discovering { retry_at: NOW.wrapping_add(9000) }
}

fn requesting() -> State {
    State::Requesting { retry_at: NOW.wrapping_add(5000), retry: 1, server: SERVER, identifier: IDENTIFIER, requested: YOURS }
}

fn renewing() -> State {
    State::Renewing {
        renew_at: NOW.wrapping_add(60_000),
        rebind_at: NOW.wrapping_add(105_000),
        expires_at: NOW.wrapping_add(120_000),
        rebinding: false,
    }
}

/// The options of a plain ACK, without the end.
fn plain_ack() -> Vec<u8> {
    [item(53, &[ACK]), item(54, &IDENTIFIER), item(1, &[255, 255, 255, 0])].concat()
}

/// The lease that an ACK with these options and no router or DNS server gives, where all of them fit the store.
fn lease(options: &[u8]) -> Lease {
    let mut lease = Lease::ZERO;
    lease.server = SERVER;
    lease.identifier = IDENTIFIER;
    lease.address = YOURS;
    lease.prefix = 24;
    lease.used = options.len() as u16;
    lease.options[..options.len()].copy_from_slice(options);
    lease
}

pub struct List {
    pub calls: Vec<Call>,
}

impl List {
    fn at(&mut self, settings: Settings, state: State) {
        self.calls.push(Call::Start { moment: NOW, generator: 36_490 });
        self.calls.push(Call::Settings(settings));
        self.calls.push(Call::State { id: ID, state });
        if state.renewing() {
            self.calls.push(Call::Lease(Box::new(lease(&plain_ack()))));
        }
    }

    fn reply(&mut self, source: Address, reply: Vec<u8>) {
        self.calls.push(Call::Process { step: 0, source, reply });
    }

    /// The options as a reply in a state.
    fn on(&mut self, settings: Settings, state: State, options: &[u8]) {
        self.at(settings, state);
        self.reply(SERVER, message::reply(ID, &HARDWARE, YOURS, options));
    }

    fn ack(&mut self, more: &[u8]) {
        self.on(standard(), requesting(), &[plain_ack(), more.to_vec(), vec![255]].concat());
    }
}

/// Creation, round each limit and with several things wrong at once.
pub fn creations() -> Vec<Call> {
    let mut list = vec![standard()];
    let mut with = |change: &dyn Fn(&mut Settings)| {
        let mut settings = standard();
        change(&mut settings);
        list.push(settings);
    };
    for medium in [1, 2, 255] {
        with(&|s| s.medium = medium);
    }
    for mtu in [0, 1, 68, 575, 576, 577, 1499, 1500, 1501, 65535] {
        with(&|s| s.mtu = mtu);
    }
    for length in [1, 62, 63, 64, 255] {
        with(&|s| s.name = (0..length).map(|i| i as u8 ^ 0x80).collect());
    }
    for length in [0, 1, 63, 64, 65, 255] {
        with(&|s| s.list = Some((0..length).map(|i| i as u8).collect()));
    }
    let long = |n: usize| item(43, &vec![9; n]);
    let extras = [
        vec![12],
        vec![12, 0],
        vec![12, 1],
        vec![12, 2, 65],
        vec![0, 0],
        vec![255, 0],
        vec![0, 1, 7, 255, 0],
        vec![12, 2, 65, 66, 3],
        long(252),
        long(253),
        long(254),
        long(255),
        [long(100), long(151)].concat(),
        [long(100), long(152)].concat(),
    ];
    for extra in &extras {
        with(&|s| s.extra = extra.clone());
    }
    for maximum in [0, 1, 2, 7, 8, LONGEST - 1, LONGEST, LONGEST + 1, u32::MAX] {
        with(&|s| s.maximum = Some(maximum));
    }
    with(&|s| s.offload = true);
    with(&|s| s.ignore_naks = true);
    let full = |s: &mut Settings| {
        s.name = vec![b'n'; 63];
        s.list = Some(vec![3; 64]);
        s.extra = long(253);
    };
    for mtu in [576, 682, 683, 684, 1500] {
        with(&|s| {
            full(s);
            s.mtu = mtu;
        });
    }
    // At MTU 576 a message has room for 548 bytes; with name and list full, 148 are left for the extra options.
    for extra in [145, 146, 147] {
        with(&|s| {
            full(s);
            s.mtu = 576;
            s.extra = long(extra);
        });
    }
    // The first number counts.
    for wrong in 1..7 {
        with(&|s| {
            full(s);
            s.mtu = 576;
            if wrong <= 1 {
                s.medium = 1;
            }
            if wrong <= 2 {
                s.mtu = 1501;
            }
            if wrong <= 3 {
                s.name = vec![b'n'; 64];
            }
            if wrong <= 4 {
                s.list = Some(vec![3; 65]);
            }
            if wrong <= 5 {
                s.extra = vec![12, 2, 65];
            }
            s.maximum = Some(LONGEST + 1);
        });
    }
    let mut calls = vec![];
    for settings in list {
        calls.push(Call::Start { moment: NOW, generator: 1 });
        calls.push(Call::Settings(settings));
        calls.push(Call::New);
    }
    calls
}

/// Replies, round each length and count.
pub fn replies() -> Vec<Call> {
    let mut list = List { calls: vec![] };
    let end = vec![255];

    // Cut at every place from before the options on.
    let options = [plain_ack(), seconds(51, 3600), end.clone()].concat();
    let whole = message::reply(ID, &HARDWARE, YOURS, &options);
    for length in [0, 1, 27, 33, 34].into_iter().chain(236..=whole.len()) {
        list.at(standard(), requesting());
        list.reply(SERVER, whole[..length].to_vec());
    }
    // One byte of the header changed, at each field.
    for at in [0, 1, 2, 3, 4, 7, 8, 10, 12, 20, 24, 28, 33, 34, 44, 108, 235, 236, 237, 238, 239] {
        list.at(standard(), requesting());
        let mut reply = whole.clone();
        reply[at] ^= 0x10;
        list.reply(SERVER, reply);
    }
    // Each type in each state, NAKs ignored or not.
    for state in [State::Init, discovering(), requesting(), renewing()] {
        for kind in [0, 1, OFFER, 3, 4, ACK, NAK, 7, 8, 255] {
            let options = [item(53, &[kind]), plain_ack()[3..].to_vec(), end.clone()].concat();
            list.on(standard(), state, &options);
            if kind == NAK {
                list.on(Settings { ignore_naks: true, ..standard() }, state, &options);
            }
        }
    }
    // Each option that is read, with too few bytes and with too many; absent; and with another one after it.
    let data = [0, 0, 14, 16, 10, 0, 0, 2, 0, 0, 0, 0, 1, 1, 1, 1, 2, 2, 2, 2];
    let known = [(53, vec![ACK]), (54, IDENTIFIER.to_vec()), (1, vec![255, 255, 255, 0]), (51, data[..4].to_vec())];
    for code in [53, 54, 1, 51, 58, 59, 3, 6] {
        let others: Vec<u8> = known.iter().filter(|k| k.0 != code).flat_map(|k| item(k.0, &k.1)).collect();
        let good = known.iter().find(|k| k.0 == code).map_or(data[4..].to_vec(), |k| k.1.clone());
        list.on(standard(), requesting(), &[others.clone(), end.clone()].concat());
        for length in [0, 1, 2, 3, 4, 5, 7, 8, 12, 13, 16] {
            let mut bytes = good.clone();
            bytes.resize(length, 5);
            list.on(standard(), requesting(), &[others.clone(), item(code, &bytes), end.clone()].concat());
        }
        let (short, long) = (item(code, &good[..good.len() - 1]), item(code, &good));
        for pair in [[short.clone(), long.clone()], [long, short]] {
            list.on(standard(), requesting(), &[pair.concat(), others.clone(), end.clone()].concat());
        }
    }
    // Padding, and options behind the end.
    list.on(standard(), requesting(), &[vec![0; 5], plain_ack(), vec![0, 0], seconds(51, 9), vec![0]].concat());
    list.on(standard(), requesting(), &[plain_ack(), end.clone(), seconds(51, 9)].concat());
    list.on(standard(), requesting(), &[end.clone(), plain_ack()].concat());
    list.on(standard(), requesting(), &[plain_ack(), vec![51]].concat());
    list.on(standard(), requesting(), &[plain_ack(), vec![102, 0]].concat());
    list.on(standard(), requesting(), &[plain_ack(), vec![51, 4, 0, 0, 0]].concat());
    // Masks.
    for ones in 0..=32u32 {
        let mask = u32::MAX.checked_shl(32 - ones).unwrap_or(0);
        list.on(
            standard(),
            requesting(),
            &[item(53, &[ACK]), item(54, &IDENTIFIER), item(1, &mask.to_be_bytes()), end.clone()].concat(),
        );
    }
    for mask in [[255, 0, 255, 0], [127, 255, 255, 255], [255, 255, 255, 253], [0, 0, 0, 1], [255, 255, 254, 255]] {
        list.on(standard(), requesting(), &[item(53, &[ACK]), item(54, &IDENTIFIER), item(1, &mask), end.clone()].concat());
    }
    // Addresses that are unicast and that are not.
    for address in ADDRESSES {
        let offer = [item(53, &[OFFER]), item(54, &IDENTIFIER), end.clone()].concat();
        list.at(standard(), discovering());
        list.reply(SERVER, message::reply(ID, &HARDWARE, address, &offer));
        list.at(standard(), discovering());
        list.reply(address, message::reply(ID, &HARDWARE, YOURS, &offer));
        list.at(standard(), requesting());
        list.reply(address, message::reply(ID, &HARDWARE, address, &[plain_ack(), end.clone()].concat()));
        list.ack(&item(3, &address));
        list.ack(&item(6, &[address, [1, 1, 1, 1], address, [2, 2, 2, 2], [3, 3, 3, 3], [4, 4, 4, 4]].concat()));
    }
    // L, with and without a maximum; then T1 and T2 round it and round each other.
    for l in [
        None,
        Some(0),
        Some(1),
        Some(7),
        Some(8),
        Some(119),
        Some(1_073_741),
        Some(1_073_742),
        Some(4_294_967),
        Some(4_294_968),
        Some(u32::MAX),
    ] {
        for maximum in [None, Some(2), Some(8), Some(1003), Some(LONGEST)] {
            let more = l.map_or(vec![], |l| seconds(51, l));
            list.on(Settings { maximum, ..standard() }, requesting(), &[plain_ack(), more, end.clone()].concat());
        }
    }
    for l in [3600u32, 7, 1_073_742] {
        let t1s = [None, Some(0), Some(l / 4), Some(l - 1), Some(l), Some(l + 1)];
        for t1 in t1s {
            let first = t1.unwrap_or(l / 2);
            for t2 in [None, Some(0), Some(first), Some(first + 1), Some(l - 1), Some(l)] {
                let times = [(51, Some(l)), (58, t1), (59, t2)];
                let more: Vec<u8> = times.iter().flat_map(|(code, t)| t.map_or(vec![], |t| seconds(*code, t))).collect();
                list.ack(&more);
            }
        }
    }
    // The store: 15 bytes of it are taken by 53, 54 and 1.
    for length in [236, 237, 238, 239, 240, 241, 255] {
        list.ack(&[item(100, &vec![7; length]), item(101, &[1])].concat());
        list.ack(&[item(100, &vec![7; length]), seconds(51, 3600)].concat());
    }
    list.ack(&[item(100, &[7; 100]), item(101, &[8; 135]), item(102, &[]), item(103, &[])].concat());
    // An ACK against the held lease: equal, and with one thing changed; tables with room and without, stale entries of
    // DHCP's among them.
    let changes = [
        vec![],
        seconds(51, 120),
        item(3, &[10, 0, 0, 1]),
        item(6, &[1, 1, 1, 1]),
        item(100, &[1]),
        [item(3, &[10, 0, 0, 2]), item(6, &[1, 1, 1, 1])].concat(),
    ];
    for state in [requesting(), renewing()] {
        for manual in [0u8, 2, 4] {
            for (yours, mask) in [(YOURS, 0), (YOURS, 254), ([10, 0, 0, 51], 0)] {
                for change in &changes {
                    if manual == 2 && (mask != 0 || yours != YOURS) {
                        continue;
                    }
                    list.at(standard(), state);
                    let stale = (state.renewing() || manual == 2) && manual < 4;
                    let count = manual + stale as u8;
                    list.calls.push(Call::Tables { generation: u32::MAX, addresses: count, routes: count });
                    if stale {
                        list.calls.push(Call::Address(Entry { address: YOURS, prefix: 24, dhcp: true }));
                        let router = [10, 0, 0, 3];
                        list.calls.push(Call::Route(RouteEntry { network: [0; 4], prefix: 0, router, dhcp: true }));
                    }
                    for n in 0..manual {
                        list.calls.push(Call::Address(Entry { address: [172, 16, 0, n], prefix: 16, dhcp: false }));
                        let router = [172, 16, 0, 1];
                        list.calls.push(Call::Route(RouteEntry { network: [172, n, 0, 0], prefix: 16, router, dhcp: false }));
                    }
                    let mut options = plain_ack();
                    options[14] = mask;
                    let options = [options, change.clone(), end.clone()].concat();
                    list.calls.push(Call::Process {
                        step: 7,
                        source: SERVER,
                        reply: message::reply(ID, &HARDWARE, yours, &options),
                    });
                }
            }
        }
    }
    // An ACK that differs from the lease in a stored byte alone, and one that is equal up to its identifier's length.
    let mut options = plain_ack();
    options[8] ^= 1;
    list.on(standard(), renewing(), &[options, end.clone()].concat());
    list.on(
        standard(),
        renewing(),
        &[item(53, &[ACK]), item(54, &[10, 0, 0, 1, 0]), plain_ack()[9..].to_vec(), end.clone()].concat(),
    );
    // A reset in each state, and look-ups in the store.
    for state in [State::Init, discovering(), requesting(), renewing()] {
        list.at(standard(), state);
        list.calls.push(Call::Reset { step: 3 });
        for kind in [53, 54, 1, 51, 0, 255] {
            list.at(standard(), state);
            list.calls.push(Call::Get { step: 0, kind });
        }
    }
    list.calls
}

/// Polls, round each deadline and each length of a buffer.
pub fn polls() -> Vec<Call> {
    let mut list = List { calls: vec![] };
    const HALF: u32 = 1 << 31;
    let poll = |list: &mut List, settings: Settings, state: State, length: u16| {
        list.at(settings, state);
        list.calls.push(Call::Poll { step: 0, length, fill: 165 });
    };
    let enough = 300;
    // Buffers, for each message.
    for state in [State::Init, requesting_due(0), renewing_due(true, false), renewing_due(true, true)] {
        let n = standard().datagram(matches!(state, State::Requesting { .. })) as u16;
        for length in [0, 1, 7, 8, 9, 100, 247, 248, 249, n - 1, n, n + 1, n + 40, 1480, 1500, 65535] {
            if length < 2000 || state == State::Init {
                poll(&mut list, standard(), state, length);
            }
        }
    }
    // Settings, in each message.
    let full = Settings { name: vec![b'n'; 63], list: Some(vec![3; 64]), extra: item(43, &[9; 253]), ..standard() };
    let settings = [
        Settings { name: b"pitch-17".to_vec(), ..standard() },
        Settings { name: vec![0xff, 0x00, 0xc3], ..standard() },
        Settings { list: Some(vec![]), ..standard() },
        Settings { list: Some(vec![1, 28, 3]), offload: true, ..standard() },
        Settings { extra: vec![60, 3, 1, 2, 3, 0, 0, 255, 1, 9], ..standard() },
        Settings { mtu: 576, ..standard() },
        Settings { mtu: 683, ..full.clone() },
        full,
        Settings { hardware: [0xfe, 0xff, 0x80, 0x7f, 0, 1], ..standard() },
    ];
    for settings in settings {
        for state in [State::Init, requesting_due(0), renewing_due(true, false)] {
            poll(&mut list, settings.clone(), state, settings.datagram(true) as u16);
        }
    }
    // Deadlines, at every distance that counts.
    let distances = [0, 1, u32::MAX, HALF - 1, HALF, HALF + 1, 1 << 30, DAY, DAY - 1, DAY + 1, 10_000];
    for distance in distances {
        let at = NOW.wrapping_add(distance);
        poll(&mut list, standard(), State::Discovering { retry_at: at }, enough);
        for retry in [0, 4, 5] {
            let due = State::Requesting { retry_at: at, retry, server: SERVER, identifier: IDENTIFIER, requested: YOURS };
            poll(&mut list, standard(), due, enough);
        }
    }
    for retry in [0, 1, 2, 3, 4, 5, 6, 900, 65535] {
        for length in [0, enough] {
            poll(&mut list, standard(), requesting_due(retry), length);
        }
    }
    let offsets = [0, 1, u32::MAX, 59_999, 119_999, 121_000, HALF];
    for renew in offsets {
        for rebind in offsets {
            for expiry in [0, 1, u32::MAX, 60_000, 240_000, HALF, HALF + 1, DAY + 7] {
                let odd = renew ^ rebind ^ expiry;
                // All with rebinding one way, some the other way too.
                for rebinding in [odd & 1 == 0, odd & 1 != 0] {
                    if rebinding != (odd & 1 == 0) && (expiry & 1 == 1 || renew % 7 > 1) {
                        continue;
                    }
                    let state = State::Renewing {
                        renew_at: NOW.wrapping_add(renew),
                        rebind_at: NOW.wrapping_add(rebind),
                        expires_at: NOW.wrapping_add(expiry),
                        rebinding,
                    };
                    poll(&mut list, standard(), state, if odd % 3 == 0 { enough } else { 0 });
                }
            }
        }
    }
    // What is left until rebinding, or until expiry, counts as at most 2^30, and half of that is waited.
    for left in [(1 << 30) - 2, 1 << 30, (1 << 30) + 2, HALF - 1] {
        let end = NOW.wrapping_add(left);
        for rebind_at in [end, NOW] {
            let state = State::Renewing { renew_at: NOW, rebind_at, expires_at: end, rebinding: false };
            poll(&mut list, standard(), state, enough);
        }
    }
    list.calls
}

fn requesting_due(retry: u16) -> State {
    State::Requesting { retry_at: NOW, retry, server: SERVER, identifier: IDENTIFIER, requested: YOURS }
}

fn renewing_due(renew: bool, rebinding: bool) -> State {
    let at = |due: bool, later: u32| NOW.wrapping_add(if due { 0 } else { later });
    State::Renewing {
        renew_at: at(renew, 60_000),
        rebind_at: at(rebinding, 105_000),
        expires_at: NOW.wrapping_add(120_000),
        rebinding,
    }
}

/// Masks and addresses, and options of replies at every length.
pub fn wire() -> Vec<Call> {
    let mut calls = vec![];
    for ones in 0..=32u32 {
        let mask = u32::MAX.checked_shl(32 - ones).unwrap_or(0);
        for flipped in [0, 1, 1u32 << (31 - ones.min(31)), 0x8000_0000, 0x0001_0000] {
            calls.push(Call::Mask((mask ^ flipped).to_be_bytes()));
        }
    }
    calls.extend(ADDRESSES.map(Call::Mask));
    let mut option = |kind: u8, options: &[u8]| {
        let reply = message::reply(ID, &HARDWARE, YOURS, options);
        calls.push(Call::Option { kind, reply });
    };
    let items =
        [item(3, &[1, 2, 3, 4]), item(3, &[9]), item(6, &[]), vec![0, 0], item(200, &[5; 255]), vec![255], item(51, &[1])]
            .concat();
    for kind in [0, 1, 3, 6, 51, 200, 254, 255] {
        option(kind, &items);
    }
    for cut in 0..9 {
        option(3, &items[..cut]);
    }
    for length in 0..=6 {
        option(53, &[53, length, 5, 5, 5, 5, 5]);
        option(0, &[0, length, 5, 5, 5, 5, 5]);
    }
    option(6, &[6, 0]);
    for length in [0, 1, 239, 240, 241] {
        calls.push(Call::Option { kind: 53, reply: message::reply(ID, &HARDWARE, YOURS, &[53, 1, 5])[..length].to_vec() });
    }
    calls
}
