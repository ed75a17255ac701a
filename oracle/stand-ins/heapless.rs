//! Stand-in for the crate heapless: a vector of at most N items, kept in place. What xarxa's storage/vec.rs and its DHCP
//! client call of it, and no more.
use core::fmt;
use core::mem::MaybeUninit;
use core::ops::{Deref, DerefMut};

pub struct Vec<T, const N: usize> {
    items: [MaybeUninit<T>; N],
    len: usize,
}

impl<T, const N: usize> Vec<T, N> {
    pub const fn new() -> Self {
        Vec { items: [const { MaybeUninit::uninit() }; N], len: 0 }
    }

    /// Appends the item, or hands it back where N are there.
    pub fn push(&mut self, item: T) -> Result<(), T> {
        if self.len == N {
            return Err(item);
        }
        self.items[self.len].write(item);
        self.len += 1;
        Ok(())
    }

    pub fn is_full(&self) -> bool {
        self.len == N
    }

    pub fn clear(&mut self) {
        while self.len > 0 {
            self.remove(self.len - 1);
        }
    }

    pub fn remove(&mut self, index: usize) -> T {
        assert!(index < self.len, "no item at {index}");
        // SAFETY: the items below len are initialised, and the one that is read is moved past the end.
        let item = unsafe { self.items[index].assume_init_read() };
        for i in index + 1..self.len {
            self.items.swap(i - 1, i);
        }
        self.len -= 1;
        item
    }

    pub fn swap_remove(&mut self, index: usize) -> T {
        let last = self.len - 1;
        self[..].swap(index, last);
        self.remove(last)
    }

    /// Keeps the items that pass, in their order.
    pub fn retain(&mut self, mut keep: impl FnMut(&T) -> bool) {
        let mut i = 0;
        while i < self.len {
            if keep(&self[i]) {
                i += 1;
            } else {
                self.remove(i);
            }
        }
    }
}

impl<T, const N: usize> Deref for Vec<T, N> {
    type Target = [T];
    fn deref(&self) -> &[T] {
        // SAFETY: the items below len are initialised.
        unsafe { core::slice::from_raw_parts(self.items.as_ptr().cast(), self.len) }
    }
}

impl<T, const N: usize> DerefMut for Vec<T, N> {
    fn deref_mut(&mut self) -> &mut [T] {
        // SAFETY: as for deref.
        unsafe { core::slice::from_raw_parts_mut(self.items.as_mut_ptr().cast(), self.len) }
    }
}

impl<T, const N: usize> Drop for Vec<T, N> {
    fn drop(&mut self) {
        self.clear();
    }
}

impl<T: Clone, const N: usize> Clone for Vec<T, N> {
    fn clone(&self) -> Self {
        let mut copy = Vec::new();
        for item in self.iter() {
            copy.push(item.clone()).ok();
        }
        copy
    }
}

impl<T: PartialEq, const N: usize> PartialEq for Vec<T, N> {
    fn eq(&self, other: &Self) -> bool {
        self[..] == other[..]
    }
}

impl<T: Eq, const N: usize> Eq for Vec<T, N> {}

impl<T: fmt::Debug, const N: usize> fmt::Debug for Vec<T, N> {
    fn fmt(&self, f: &mut fmt::Formatter<'_>) -> fmt::Result {
        self[..].fmt(f)
    }
}

pub struct IntoIter<T, const N: usize>(Vec<T, N>);

impl<T, const N: usize> Iterator for IntoIter<T, N> {
    type Item = T;
    fn next(&mut self) -> Option<T> {
        if self.0.is_empty() { None } else { Some(self.0.remove(0)) }
    }
}

impl<T, const N: usize> IntoIterator for Vec<T, N> {
    type Item = T;
    type IntoIter = IntoIter<T, N>;
    fn into_iter(self) -> IntoIter<T, N> {
        IntoIter(self)
    }
}
