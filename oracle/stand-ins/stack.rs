//! Stand-in for the stack: what the client and its interface reach of it. What it is told to send, and that link state is
//! to be purged, it keeps for the answer.
use crate::iface::{Iface, IfaceHandle, IfaceState};
use crate::packet_buf::PacketBuf;
use crate::pool::PoolRef;
use crate::rand::Rand;
use crate::route::Routes;
use crate::wire::Ipv4Addr;

#[derive(Debug, Clone, Copy, PartialEq, Eq)]
pub enum Blocked {
    DeviceBusy,
    NoBuffer,
}

#[derive(Debug, Clone, Copy)]
pub enum IfaceBinding {
    Any,
}

impl IfaceBinding {
    pub fn iface(&self) -> Option<IfaceHandle> {
        None
    }
}

pub struct Sent {
    pub source: Ipv4Addr,
    pub destination: Ipv4Addr,
    pub packet: PacketBuf,
}

pub struct StackInner {
    pub(crate) rand: Rand,
    pub(crate) pool: PoolRef,
    pub(crate) routes: Routes,
    pub name: Vec<u8>,
    pub sent: Option<Sent>,
    pub purged: bool,
}

impl StackInner {
    /// The name, an empty one being none. Its bytes are handed on as they are: the client only copies them.
    pub fn hostname(&self) -> Option<&str> {
        // SAFETY: nothing looks at the text as characters.
        (!self.name.is_empty()).then(|| unsafe { core::str::from_utf8_unchecked(&self.name) })
    }

    pub fn purge_iface_link_state(&mut self, _: IfaceHandle) {
        self.purged = true;
    }

    pub(crate) fn transmit_ipv4_on(
        &mut self,
        _: &mut IfaceState<'_>,
        source: Ipv4Addr,
        destination: Ipv4Addr,
        packet: PacketBuf,
    ) {
        self.sent = Some(Sent { source, destination, packet });
    }
}

/// Named by the interface's iterator alone, which is not used here.
pub struct Stack<'d> {
    pub(crate) ifaces: crate::storage::Slab<IfaceState<'d>, 1>,
}

impl<'d> Stack<'d> {
    pub fn iface(&mut self, _: IfaceHandle) -> Iface<'_, 'd> {
        unimplemented!()
    }
}
