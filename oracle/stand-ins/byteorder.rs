//! Stand-in for the crate byteorder: numbers in network order.
pub trait ByteOrder {
    fn read_u16(from: &[u8]) -> u16;
    fn read_u32(from: &[u8]) -> u32;
    fn write_u16(to: &mut [u8], n: u16);
    fn write_u32(to: &mut [u8], n: u32);
}

pub struct NetworkEndian;

impl ByteOrder for NetworkEndian {
    fn read_u16(from: &[u8]) -> u16 {
        u16::from_be_bytes([from[0], from[1]])
    }
    fn read_u32(from: &[u8]) -> u32 {
        u32::from_be_bytes([from[0], from[1], from[2], from[3]])
    }
    fn write_u16(to: &mut [u8], n: u16) {
        to[..2].copy_from_slice(&n.to_be_bytes());
    }
    fn write_u32(to: &mut [u8], n: u32) {
        to[..4].copy_from_slice(&n.to_be_bytes());
    }
}
