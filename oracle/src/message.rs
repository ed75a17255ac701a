//! DHCP messages from RFC 2131 and 2132 and document 01, apart from the Rust's code: replies are made with it, and the
//! checker of demand 3 reads them with it.
use crate::plain::{Address, LONGEST};

pub const DISCOVER: u8 = 1;
pub const OFFER: u8 = 2;
pub const REQUEST: u8 = 3;
pub const ACK: u8 = 5;
pub const NAK: u8 = 6;

pub const COOKIE: [u8; 4] = [99, 130, 83, 99];
pub const HEADER: usize = 240;

/// A reply to the client with that id and hardware address, with the options as they are.
pub fn reply(id: u32, hardware: &[u8; 6], your: Address, options: &[u8]) -> Vec<u8> {
    let mut reply = vec![0; HEADER];
    reply[..3].copy_from_slice(&[2, 1, 6]);
    reply[4..8].copy_from_slice(&id.to_be_bytes());
    reply[16..20].copy_from_slice(&your);
    reply[28..34].copy_from_slice(hardware);
    reply[236..].copy_from_slice(&COOKIE);
    reply.extend_from_slice(options);
    reply
}

/// The options field: 0 is padding, 255 ends it, and so does an option that is cut short.
pub fn options(reply: &[u8]) -> Vec<(u8, &[u8])> {
    let mut items = vec![];
    let mut rest = reply.get(HEADER..).unwrap_or(&[]);
    loop {
        match rest {
            [0, after @ ..] => rest = after,
            [] | [255, ..] | [_] => return items,
            [code, length, after @ ..] => match after.split_at_checked(*length as usize) {
                None => return items,
                Some((data, after)) => {
                    items.push((*code, data));
                    rest = after;
                }
            },
        }
    }
}

/// The data of the first option with that code.
pub fn option(reply: &[u8], code: u8) -> Option<&[u8]> {
    options(reply).into_iter().find(|item| item.0 == code).map(|item| item.1)
}

pub fn address(data: &[u8]) -> Option<Address> {
    data.get(..4)?.try_into().ok()
}

fn seconds(data: &[u8]) -> Option<u32> {
    Some(u32::from_be_bytes(data.try_into().ok()?))
}

pub fn unicast(a: Address) -> bool {
    a != [0; 4] && a != [255; 4] && !(224..=239).contains(&a[0])
}

/// The length of the prefix that an address is the mask of: ones, then zeros.
pub fn prefix(mask: Address) -> Option<u8> {
    let bits = u32::from_be_bytes(mask);
    let ones = bits.leading_ones();
    (bits.count_ones() == ones).then_some(ones as u8)
}

/// Seconds as a duration: milliseconds, at most the longest.
fn duration(seconds: u32) -> u64 {
    (seconds as u64 * 1000).min(LONGEST as u64)
}

/// What an ACK says that demand 3 is about.
#[derive(Clone, Copy, Debug, PartialEq)]
pub struct Ack {
    pub l: u64,
    pub address: Address,
    pub prefix: u8,
    pub router: Option<Address>,
}

pub fn message_type(reply: &[u8]) -> Option<u8> {
    match option(reply, 53)? {
        [kind] => Some(*kind),
        _ => None,
    }
}

/// Reads an ACK that was accepted, so with a contiguous mask.
pub fn ack(reply: &[u8], maximum: Option<u32>) -> Ack {
    let l = option(reply, 51).and_then(seconds).map_or(120_000, duration);
    Ack {
        l: maximum.map_or(l, |maximum| l.min(maximum as u64)),
        address: address(&reply[16..20]).unwrap(),
        prefix: option(reply, 1).and_then(address).and_then(prefix).unwrap(),
        router: option(reply, 3).and_then(address).filter(|router| unicast(*router)),
    }
}

/// How long after an ACK to renew, to rebind and to give the lease up: document 01's table, after the clamp.
pub fn times(reply: &[u8], maximum: Option<u32>) -> (u64, u64, u64) {
    let l = ack(reply, maximum).l;
    let t1 = option(reply, 58).and_then(seconds).map(duration);
    let t2 = option(reply, 59).and_then(seconds).map(duration);
    match (t1, t2) {
        (Some(t1), Some(t2)) if t1 < t2 && t2 < l => (t1, t2, l),
        (Some(t1), None) if t1 < l => (t1, t1 + (l - t1) / 4 * 3, l),
        (None, Some(t2)) if t2 < l => ((l / 2).min(t2), t2, l),
        _ => (l / 2, l / 8 * 7, l),
    }
}
