//! Stand-in for ARP: its hardware types (RFC 826), the one thing that DHCP takes from it.
open_enum! {
    pub enum Hardware(u16) {
        Ethernet = 1,
    }
}

open_enum! {
    pub enum Operation(u16) {
        Request = 1,
        Reply = 2,
    }
}

pub const BUFFER_LEN: usize = 28;
pub struct Packet;
