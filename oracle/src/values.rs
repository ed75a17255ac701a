//! Values for the fields of calls, from a seed: usual ones most of the time, then those round a limit, then any at all. How
//! often each kind comes stands here; `variety` counts them in a list, and oracle/test asks for each.
use crate::generate::Random;
use crate::plain::Address;

pub const ADDRESSES: [Address; 6] =
    [[10, 0, 0, 50], [10, 0, 0, 51], [192, 168, 1, 7], [172, 16, 0, 1], [1, 0, 0, 0], [223, 255, 255, 255]];
/// Round the ends of what is unicast, more than half of them not.
const ODD: [Address; 9] = [
    [0, 0, 0, 0],
    [255, 255, 255, 255],
    [224, 0, 0, 0],
    [239, 255, 255, 255],
    [240, 0, 0, 0],
    [255, 255, 255, 254],
    [0, 0, 0, 1],
    [127, 0, 0, 1],
    [224, 0, 0, 1],
];
/// Where servers send from.
const SERVERS: [Address; 4] = [[10, 0, 0, 9], [10, 0, 0, 9], [10, 0, 0, 1], [192, 168, 1, 1]];
pub const MASKS: [Address; 12] = [
    [255, 255, 255, 0],
    [255, 255, 255, 0],
    [255, 255, 0, 0],
    [255, 0, 0, 0],
    [255, 255, 255, 252],
    [255, 255, 255, 255],
    [0, 0, 0, 0],
    [128, 0, 0, 0],
    [255, 0, 255, 0],
    [255, 255, 255, 253],
    [127, 255, 255, 255],
    [0, 0, 0, 1],
];
/// Entries that are added and dropped by hand: few, so that one meets the other, and DHCP's.
const MANUAL: [(Address, u8); 5] =
    [([10, 1, 2, 3], 8), ([10, 0, 0, 0], 8), ([192, 168, 7, 1], 24), ([0, 0, 0, 0], 0), ([10, 0, 0, 50], 24)];

/// Characters of one octet to four.
const CHARACTERS: [&str; 6] = ["z", "\u{e9}", "\u{7ff}", "\u{20ac}", "\u{ffff}", "\u{10ffff}"];

impl Random {
    /// Three of four from a few that are unicast, a sixth from `ODD`, and else any.
    pub fn address(&mut self) -> Address {
        match self.wider(&[11, 0, 1, 2, 3, 4, 5, 6, 7, 8, 9, 10]) {
            0..=1 => self.odd(),
            2 => self.any_address(),
            _ => self.pick(&ADDRESSES),
        }
    }

    pub fn odd(&mut self) -> Address {
        self.among(8, &ODD)
    }

    /// An address where one is mostly from a few others: of the narrow choice one from `ODD`.
    pub fn other(&mut self) -> Address {
        if self.narrow { self.odd() } else { self.address() }
    }

    /// An address; of the narrow choice one from `ODD` so many times of a hundred.
    pub fn router(&mut self, odd: u64) -> Address {
        if self.narrow && self.percent(odd) { self.odd() } else { self.address() }
    }

    pub fn any_address(&mut self) -> Address {
        (self.next() as u32).to_be_bytes()
    }

    /// Where a run's server sends from, and what it calls itself: the same in a third of the runs, or behind a relay; one of
    /// ten or so is not unicast. Of the narrow choice the same two always.
    pub fn server(&mut self) -> (Address, Address) {
        if self.narrow {
            return (SERVERS[0], [10, 0, 0, 1]);
        }
        let source = if self.percent(80) { self.pick(&SERVERS) } else { self.pick(&ADDRESSES) };
        let identifier = match self.below(12) {
            0..=3 => source,
            4..=6 => [10, 0, 0, 1],
            7..=8 => self.odd(),
            9 => self.any_address(),
            _ => self.pick(&ADDRESSES),
        };
        (source, identifier)
    }

    /// An entry of a table, with a prefix that is whole.
    pub fn cidr(&mut self) -> (Address, u8) {
        match self.wider(&[9, 0, 1, 2, 3, 4, 5, 6, 7, 8]) {
            0 => (self.address(), self.upto(32) as u8),
            1 => (self.pick(&MANUAL).0, self.pick(&[0, 1, 8, 24, 25, 31, 32])),
            _ => self.pick(&MANUAL),
        }
    }

    /// A name of at most 63 octets: of ten four in ASCII, two in UTF-8 with characters of up to four octets, one such that is
    /// cut anywhere, two of any octets, one of zeros or of 255 alone.
    pub fn name(&mut self) -> Vec<u8> {
        let length = if self.wide(40) { self.upto(63) as usize } else { self.pick(&[0, 1, 4, 9, 62, 63]) };
        match self.wider(&[0, 1, 2, 3, 4, 5, 6, 7, 8, 9]) {
            0..=3 => (0..length).map(|i| b'a' + (i % 26) as u8).collect(),
            kind @ 4..=6 => {
                let mut name = vec![];
                loop {
                    let character = self.pick(&CHARACTERS);
                    if name.len() + character.len() > length {
                        if kind == 6 {
                            name.extend_from_slice(&character.as_bytes()[..length - name.len()]);
                        }
                        return name;
                    }
                    name.extend_from_slice(character.as_bytes());
                }
            }
            7..=8 => self.bytes(length),
            _ => vec![self.pick(&[0, 255]); length],
        }
    }

    pub fn hardware(&mut self) -> [u8; 6] {
        match self.among(5, &[0, 0, 1, 2, 3, 0, 4, 4]) {
            0 => [2, 0, 0, 0, 0, 1],
            1 => [0; 6],
            2 => [255; 6],
            3 => [0x52, 0x54, 0, 0x12, 0x34, 0x56],
            _ => std::array::from_fn(|_| self.byte()),
        }
    }

    /// At most 64 codes: any, or usual ones over and over, or one alone.
    pub fn request_list(&mut self) -> Vec<u8> {
        let length = if self.wide(20) { self.upto(64) as usize } else { self.pick(&[0, 0, 1, 2, 3, 9, 63, 64]) };
        match self.wider(&[2, 3, 4, 5, 0, 1]) {
            0 => vec![self.pick(&[0, 3, 255]); length],
            1 => (0..length).map(|_| self.pick(&[1, 3, 6, 28, 51, 54])).collect(),
            _ => self.bytes(length),
        }
    }

    /// A count, or an id: any, or one at an end.
    pub fn word(&mut self) -> u32 {
        if self.wide(25) { self.pick(&[0, 1, u32::MAX - 1, u32::MAX, 1 << 31]) } else { self.next() as u32 }
    }
}
