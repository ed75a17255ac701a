//! Stand-ins for two of xarxa's containers; vec.rs beside them is its own.
mod vec;
pub(crate) use vec::Vec;

use core::ops::{Deref, DerefMut};

/// The device: always borrowed here.
pub struct MaybeBox<'d, T: ?Sized>(pub &'d mut T);

impl<T: ?Sized> Deref for MaybeBox<'_, T> {
    type Target = T;
    fn deref(&self) -> &T {
        self.0
    }
}

impl<T: ?Sized> DerefMut for MaybeBox<'_, T> {
    fn deref_mut(&mut self) -> &mut T {
        self.0
    }
}

/// The one interface.
pub struct Slab<T, const N: usize>(pub T);

impl<T, const N: usize> Slab<T, N> {
    pub fn get(&self, _: usize) -> &T {
        &self.0
    }
    pub fn get_mut(&mut self, _: usize) -> &mut T {
        &mut self.0
    }
    pub fn next_occupied(&self, from: usize) -> Option<usize> {
        (from == 0).then_some(0)
    }
}
