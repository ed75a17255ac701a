//! Replies from a seed: good ones, odd ones and damaged ones.
use crate::generate::{Generator, Random};
use crate::message::{self, ACK, DISCOVER, NAK, OFFER, REQUEST};
use crate::plain::*;
use crate::post::Post;
use crate::record::Call;
use crate::values::{ADDRESSES, MASKS};

impl Generator {
    pub fn process(&mut self, post: &Post) -> Call {
        let state = post.plain.client.state;
        let r = &mut self.random;
        let roll = r.below(100);
        let kind = match state {
            State::Discovering { .. } if roll < 80 => OFFER,
            State::Requesting { .. } if roll < 75 => ACK,
            State::Requesting { .. } if roll < 83 => NAK,
            State::Renewing { .. } if roll < 75 => ACK,
            State::Renewing { .. } if roll < 83 => NAK,
            _ => r.pick(&[OFFER, ACK, NAK, DISCOVER, REQUEST, 0, 4, 7, 8, 9, 255]),
        };
        let step = match r.below(8) {
            0..=3 => 0,
            4..=5 => r.below(5000) as u32,
            6 => self.wake.map_or(0, |wake| wake.wrapping_sub(post.plain.moment)).min(DAY),
            _ if self.sober => 1,
            _ => r.any_size(),
        };
        let step = self.within(step);
        let r = &mut self.random;
        let source = match r.below(12) {
            0 => r.odd(),
            1 => r.address(),
            _ => self.source,
        };
        let held = post.plain.client.id;
        let id = match r.below(25) {
            0 => r.wider(&[held.wrapping_add(1), held.wrapping_sub(1), held.swap_bytes(), !held]),
            1 => r.word(),
            _ => held,
        };
        let mut hardware = post.plain.client.settings.hardware;
        if r.percent(3) {
            hardware[r.below(6) as usize] ^= 1 << r.below(8);
        }
        let your = match r.below(20) {
            0 => r.odd(),
            1..=4 => r.pick(&ADDRESSES),
            _ => self.your,
        };
        let options = self.options(kind);
        let mut reply = message::reply(id, &hardware, your, &options);
        if self.random.wide(25) {
            self.not_read(&mut reply);
        }
        if !self.sober || self.random.percent(10) {
            self.damage(&mut reply);
        }
        if self.random.wide(12) {
            self.lengthen(&mut reply);
        }
        Call::Process { step, source, reply }
    }

    fn options(&mut self, kind: u8) -> Vec<u8> {
        if kind == ACK {
            if self.random.percent(40)
                && let Some(options) = self.taken.clone()
            {
                return options;
            }
            if self.random.percent(10) && !self.sent.is_empty() {
                return self.sent.clone();
            }
        }
        let mut items: Vec<Vec<u8>> = vec![];
        let item = |code: u8, data: &[u8]| {
            let mut bytes = vec![code, data.len() as u8];
            bytes.extend_from_slice(data);
            bytes
        };
        let plain = self.random.percent(if self.sober { 80 } else { 40 });
        let r = &mut self.random;
        let kinds = if plain || r.percent(95) { vec![kind] } else { r.pick(&[&[][..], &[5, 5], &[2, 0]]).to_vec() };
        items.push(item(53, &kinds));
        // Mostly the run's, so that an OFFER and the ACK after it agree; four octets of it are read.
        let identifier = if r.wide(20) { r.address() } else { self.identifier };
        let length: usize = match plain {
            true => r.wider(&[4, 4, 4, 4, 4, 4, 4, 4, 4, 5, 8]),
            false => r.among(11, &[4, 4, 4, 4, 4, 4, 4, 4, 5, 3, 0, 4, 4, 4, 8, 255, 3, 2, 1]),
        };
        if plain || r.percent(96) {
            let mut data = identifier.to_vec();
            data.extend(if r.narrow { vec![7] } else { r.bytes(length.saturating_sub(4)) });
            items.push(item(54, &data[..length]));
        }
        if kind == ACK || r.percent(30) {
            let r = &mut self.random;
            if plain || r.percent(95) {
                let mask = if plain { MASKS[0] } else { r.pick(&MASKS) };
                let length = if plain { 4 } else { r.pick(&[4, 4, 4, 4, 4, 4, 5, 3, 0]) };
                let long = [mask[0], mask[1], mask[2], mask[3], 0];
                items.push(item(1, &long[..length]));
            }
            let l: u32 = match r.below(6) {
                0 => r.pick(&[0, 1, 2, 3, 7, 8, 10, 59, 60, 61, 119, 120, 121]),
                1 => r.pick(&[1_073_741, 1_073_742, 4_294_967, 4_294_968, u32::MAX, 86_400, 86_401, 172_800, 98_743]),
                2 => r.any_size(),
                _ => r.pick(&[3600, 3600, 600, 240]),
            };
            if r.percent(75) {
                items.push(self.seconds(51, l, plain));
            }
            // T1 and T2 round L, and round each other.
            let r = &mut self.random;
            let near = |r: &mut Random, n: u32| match r.below(6) {
                0 => n,
                1 => n.saturating_sub(1),
                2 => n.saturating_add(1),
                3 => n / 2,
                4 => n / 8 * 7,
                _ => r.any_size(),
            };
            let t1 = near(r, l);
            let t2 = if r.percent(50) { near(r, t1) } else { near(r, l) };
            if r.percent(35) {
                items.push(self.seconds(58, t1, plain));
            }
            if self.random.percent(35) {
                items.push(self.seconds(59, t2, plain));
            }
            let r = &mut self.random;
            if r.percent(60) {
                let count = r.among(4, &[1, 1, 1, 2, 1, 1, 1, 2, 63]);
                let mut data: Vec<u8> = (0..count)
                    .flat_map(|_| if r.percent(80) { r.pick(&[[10, 0, 0, 1], [10, 0, 0, 2]]) } else { r.other() })
                    .collect();
                data.truncate(r.among(8, &[252, 8, 8, 8, 5, 4, 3, 0, 252]));
                items.push(item(3, &data));
            }
            if r.percent(50) {
                let count = if r.wide(4) { 63 } else { r.upto(5) };
                let mut data: Vec<u8> = (0..count)
                    .flat_map(|_| if r.percent(75) { r.pick(&[[1, 1, 1, 1], [2, 2, 2, 2], [8, 8, 8, 8]]) } else { r.other() })
                    .collect();
                let stray = r.pick(&[0, 0, 0, 1, 3]);
                data.extend(r.bytes(stray));
                items.push(item(6, &data));
            }
            if r.percent(15) {
                let length = r.pick(&[0, 1, 200, 222, 230, 235, 238, 239, 240, 241, 250, 254, 255]);
                let data = r.bytes(length);
                items.push(item(100, &data));
                if r.percent(50) {
                    let length = r.upto(4) as usize;
                    let data = r.bytes(length);
                    items.push(item(101, &data));
                }
            }
        }
        let r = &mut self.random;
        // Options that are only stored: some, or so many that they fill the store.
        if r.wide(20) {
            let count = if r.percent(10) { r.below(130) } else { 1 + r.below(3) };
            for _ in 0..count {
                let (any, length) = (r.byte(), r.pick(&[0, 0, 1, 2, 4, 11]));
                let code = r.pick(&[12, 15, 28, 50, 52, 61, 66, 82, 121, 252, 254, any.clamp(102, 254)]);
                items.push(item(code, &r.bytes(length)));
            }
        }
        if !plain {
            if r.percent(12) {
                // A code sent twice, the second one not as the first.
                let at = r.below(items.len() as u64) as usize;
                let mut again = items[at].clone();
                if again.len() > 2 {
                    *again.last_mut().unwrap() ^= 1;
                }
                items.push(again);
            }
            if r.percent(40) {
                for i in (1..items.len()).rev() {
                    items.swap(i, r.upto(i as u64) as usize);
                }
            }
        }
        let mut options = vec![];
        for item in items {
            if !plain && r.percent(8) {
                options.extend(std::iter::repeat_n(0, r.upto(4) as usize));
            }
            options.extend(item);
        }
        match r.below(12) {
            0 => {}
            1 => options.push(r.pick(&[51, 3, 255])),
            2 => options.extend([51, 4, 0, 0]),
            3 => options.extend([255, 51, 4, 0, 0, 0, 9, 255]),
            4 => options.extend(std::iter::repeat_n(0, 7)),
            _ => options.push(255),
        }
        if kind == ACK {
            self.sent = options.clone();
        }
        options
    }

    fn seconds(&mut self, code: u8, n: u32, plain: bool) -> Vec<u8> {
        let bytes = n.to_be_bytes();
        let long = [bytes[0], bytes[1], bytes[2], bytes[3], 0];
        let length = if plain { 4 } else { self.random.pick(&[4, 4, 4, 4, 4, 4, 4, 5, 3, 0]) };
        let mut item = vec![code, length as u8];
        item.extend_from_slice(&long[..length]);
        item
    }

    /// What the client does not read of a reply: hops, seconds, flags, the other addresses, what follows the hardware address,
    /// the two names, and options in these, where option 52 would have them.
    fn not_read(&mut self, reply: &mut [u8]) {
        let r = &mut self.random;
        for place in [3..4, 8..10, 12..16, 20..24, 24..28, 34..44, 44..108, 108..236] {
            if r.percent(40) {
                let more = r.bytes(place.len());
                reply[place].copy_from_slice(&more);
            }
        }
        if r.percent(40) {
            reply[10..12].copy_from_slice(&[128, 0]);
        }
        if r.percent(20) {
            let place = r.pick(&[44, 108]);
            reply[place..place + 16].copy_from_slice(&[51, 4, 0, 0, 0, 9, 3, 4, 10, 0, 0, 3, 53, 1, 6, 255]);
        }
    }

    /// Zeros, or any octets, up to a length that servers have: BOOTP's least, the least that every client takes, the most on the
    /// medium; one of forty is longer.
    fn lengthen(&mut self, reply: &mut Vec<u8>) {
        let r = &mut self.random;
        let length: usize =
            if r.below(40) == 0 { r.pick(&[1473, 4096, 65_535]) } else { r.pick(&[300, 300, 300, 301, 548, 1472]) };
        let more = length.saturating_sub(reply.len());
        let more = if r.percent(70) { vec![0; more] } else { r.bytes(more) };
        reply.extend(more);
    }

    fn damage(&mut self, reply: &mut Vec<u8>) {
        let r = &mut self.random;
        match r.below(40) {
            0 => reply.truncate(r.below(reply.len() as u64 + 1) as usize),
            1 => reply.truncate(r.pick(&[0, 1, 239, 240, 241, 242])),
            2 => {
                let at = r.below(reply.len() as u64) as usize;
                reply[at] ^= 1 << r.below(8);
            }
            3 => reply[0] = r.pick(&[0, 1, 3]),
            4 => reply[1] = r.pick(&[0, 2, 6]),
            5 => reply[2] = r.pick(&[0, 5, 16]),
            6 => reply[236 + r.below(4) as usize] ^= 1,
            7 => {
                let at = 240 + r.below((reply.len() - 240) as u64 + 1) as usize;
                let more = r.bytes(3);
                reply.splice(at..at, more);
            }
            8 if !r.narrow => {
                reply.remove(r.below(reply.len() as u64) as usize);
            }
            _ => {}
        }
    }
}
