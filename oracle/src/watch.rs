//! Looks after the processes of the other program: says how far they are, and ends one that is silent for too long.
use std::sync::Arc;
use std::sync::atomic::Ordering::Relaxed;
use std::time::{Duration, Instant};

use crate::other::Slot;

/// How often it looks.
pub const TICK: Duration = Duration::from_millis(100);

/// After how many looks it says how far it is, and after how many at which nothing had moved it ends a process. Looks, not
/// seconds: where this program is stopped for a while, so is their count.
const SAID: u32 = 20;
const STILL: u32 = 200;

pub struct Watch<'a> {
    slots: &'a [Arc<Slot>],
    /// For each what had moved at the last look, and at how many looks it was the same.
    seen: Vec<(u64, u32)>,
    looks: u32,
    begun: Instant,
    last: Instant,
}

impl<'a> Watch<'a> {
    pub fn new(slots: &'a [Arc<Slot>]) -> Self {
        let now = Instant::now();
        Watch { slots, seen: vec![(0, 0); slots.len()], looks: 0, begun: now, last: now }
    }

    /// Looks, once it is time to. Gives the part that hangs and the bytes of it that were equal, where not even the end of its
    /// process moved it: something else has its pipes then.
    pub fn look(&mut self, total: Option<u64>) -> Option<(u64, u64)> {
        if self.last.elapsed() < TICK {
            return None;
        }
        self.last = Instant::now();
        self.looks += 1;
        if self.looks % SAID == 0 {
            self.progress(total);
        }
        for (slot, (seen, still)) in self.slots.iter().zip(&mut self.seen) {
            let moved = slot.moved.load(Relaxed);
            *still = if moved == *seen && slot.running() { *still + 1 } else { 0 };
            *seen = moved;
            if *still == STILL {
                slot.give_up();
            }
            if *still == STILL + SAID {
                return Some((slot.part.load(Relaxed), slot.equal.load(Relaxed)));
            }
        }
        None
    }

    fn progress(&self, total: Option<u64>) {
        let calls: u64 = self.slots.iter().map(|slot| slot.calls.load(Relaxed)).sum();
        let rate = (calls as f64 / self.begun.elapsed().as_secs_f64()) as u64;
        let of = total.map_or(String::new(), |total| format!(" of {total}"));
        eprintln!("{calls}{of} calls, {rate} a second, 0 differences so far");
    }
}
