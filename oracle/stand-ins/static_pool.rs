//! Stand-in for the pool: it lends the caller's buffer, once, with room before it for the link's and the IP header. An
//! empty buffer stands for an exhausted pool.
use super::Pool;
use crate::packet_buf::PacketBuf;
use std::cell::RefCell;

pub struct StaticPool {
    next: RefCell<Option<Vec<u8>>>,
}

// SAFETY: the program has one thread.
unsafe impl Sync for StaticPool {}

impl StaticPool {
    pub const fn new() -> Self {
        StaticPool { next: RefCell::new(None) }
    }

    /// Puts the storage in that the next `alloc` gives out, or takes it out again.
    pub fn put(&self, storage: Option<Vec<u8>>) {
        self.next.replace(storage);
    }
}

impl Pool for StaticPool {
    fn alloc(&'static self) -> Option<PacketBuf> {
        self.next.take().map(PacketBuf::new)
    }

    fn buf_capacity(&self) -> usize {
        self.next.borrow().as_ref().map_or(0, Vec::len)
    }
}
