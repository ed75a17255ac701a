//! Stand-in for the driver's packet buffer.
pub struct RawPacketBuf;

/// Storage with a packet in it: `start` bytes before the packet are headroom, what follows it is tailroom.
pub struct PacketBuf {
    pub storage: Vec<u8>,
    start: usize,
    len: usize,
}

impl PacketBuf {
    pub fn new(storage: Vec<u8>) -> Self {
        PacketBuf { storage, start: 0, len: 0 }
    }

    /// Makes that much headroom, in an empty buffer. Headroom that does not fit leaves no tailroom.
    pub fn reserve(&mut self, headroom: usize) {
        self.start = headroom;
    }

    pub fn tailroom(&self) -> usize {
        self.storage.len().saturating_sub(self.start + self.len)
    }

    pub fn set_len(&mut self, len: usize) {
        self.len = len;
    }

    /// Puts the last `n` bytes of headroom in front of the packet.
    pub fn push_front(&mut self, n: usize) {
        self.start -= n;
        self.len += n;
    }
}

impl core::ops::Deref for PacketBuf {
    type Target = [u8];
    fn deref(&self) -> &[u8] {
        &self.storage[self.start..self.start + self.len]
    }
}

impl core::ops::DerefMut for PacketBuf {
    fn deref_mut(&mut self) -> &mut [u8] {
        &mut self.storage[self.start..self.start + self.len]
    }
}
