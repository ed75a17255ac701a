//! Stand-in for UDP, from RFC 768: the header's four fields, and the checksum over the pseudo header, the header and the
//! data. A computed 0 is sent as 65,535, since a 0 says that there is no checksum.
use crate::wire::{IpAddr, IpProtocol, Ipv4Addr, checksum};

/// Source port, destination port, length, checksum: two bytes each.
pub const HEADER_LEN: usize = 8;

/// The number of UDP among the internet protocols.
const PROTOCOL: u32 = 17;

pub struct Packet<'a> {
    buffer: &'a mut [u8],
}

impl<'a> Packet<'a> {
    pub fn new_unchecked(buffer: &'a mut [u8]) -> Self {
        Packet { buffer }
    }

    fn set(&mut self, at: usize, value: u16) {
        self.buffer[at..at + 2].copy_from_slice(&value.to_be_bytes());
    }

    pub fn set_src_port(&mut self, value: u16) {
        self.set(0, value);
    }
    pub fn set_dst_port(&mut self, value: u16) {
        self.set(2, value);
    }
    pub fn set_len(&mut self, value: u16) {
        self.set(4, value);
    }
    pub fn set_checksum(&mut self, value: u16) {
        self.set(6, value);
    }

    pub fn fill_checksum(&mut self, source: &IpAddr, destination: &IpAddr) {
        self.set_checksum(0);
        let (IpAddr::V4(source), IpAddr::V4(destination)) = (*source, *destination);
        if cfg!(not(feature = "log")) {
            // The build that is counted and timed: once, by the Rust.
            self.set_checksum(by_the_rust(source, destination, self.buffer));
            return;
        }
        let sum =
            words(&source.octets()) + words(&destination.octets()) + PROTOCOL + self.buffer.len() as u32 + words(self.buffer);
        let sum = ones_complement(sum);
        let checksum = if sum == 0xffff { 0xffff } else { !sum };
        assert_eq!(checksum, by_the_rust(source, destination, self.buffer), "the Rust's own sum differs");
        self.set_checksum(checksum);
    }
}

/// The same checksum, put together from the Rust's functions on sums in wire/ip.rs, so that the two check each other.
fn by_the_rust(source: Ipv4Addr, destination: Ipv4Addr, datagram: &[u8]) -> u16 {
    let (source, destination) = (IpAddr::V4(source), IpAddr::V4(destination));
    let pseudo = checksum::pseudo_header(&source, &destination, IpProtocol::Udp, datagram.len() as u32);
    match !checksum::combine(&[pseudo, checksum::data(datagram)]) {
        0 => 0xffff,
        sum => sum,
    }
}

/// The sum of the 16-bit words, an odd last byte being padded with zero on the right.
fn words(bytes: &[u8]) -> u32 {
    bytes.chunks(2).map(|pair| (pair[0] as u32) << 8 | *pair.get(1).unwrap_or(&0) as u32).sum()
}

/// Adds what is carried out of 16 bits back in, until nothing is.
fn ones_complement(mut sum: u32) -> u16 {
    while sum > 0xffff {
        sum = (sum & 0xffff) + (sum >> 16);
    }
    sum as u16
}
