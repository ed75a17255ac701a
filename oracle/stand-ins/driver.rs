//! Stand-ins for the driver's side: the device and its capabilities. The Rust looks here for the packet buffer, too.
pub use crate::packet_buf::{PacketBuf, RawPacketBuf};

#[derive(Debug, Clone, Copy, PartialEq, Eq)]
pub enum Medium {
    Ethernet,
    Ip,
    Ieee802154,
}

#[derive(Debug, Clone, Copy, PartialEq, Eq)]
pub enum HardwareAddress {
    Ethernet([u8; 6]),
    Ip,
    Ieee802154([u8; 8]),
}

#[derive(Debug, Clone, Copy, PartialEq, Eq)]
pub enum LinkState {
    Up,
    Down,
}

/// Whether the device works a checksum out itself, when it sends and when it receives.
#[derive(Debug, Clone, Copy, Default)]
pub struct Checksum {
    pub tx: bool,
    pub rx: bool,
}

#[derive(Debug, Clone, Copy, Default)]
pub struct ChecksumCapabilities {
    pub udp: Checksum,
}

#[derive(Debug, Clone, Default)]
pub struct Capabilities {
    pub max_transmission_unit: usize,
    pub tx_headroom: usize,
    pub checksum: ChecksumCapabilities,
}

pub trait Driver {
    fn link_state(&mut self) -> LinkState;
    fn can_transmit(&mut self) -> bool;
    fn set_multicast_filter(&mut self, addresses: &[[u8; 6]]);
}

/// A device that is always up, and whose multicast filter is nobody's concern here.
pub struct Device;

impl Driver for Device {
    fn link_state(&mut self) -> LinkState {
        LinkState::Up
    }
    fn can_transmit(&mut self) -> bool {
        true
    }
    fn set_multicast_filter(&mut self, _: &[[u8; 6]]) {}
}
