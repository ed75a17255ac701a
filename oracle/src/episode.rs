//! What lies between a message and the ACK that ends it, where it is worth a word.
use crate::history::*;
use crate::plain::Address;
use crate::show::dotted;
use crate::words::span;

/// How many stretches a track has room for.
const MOST_STRETCHES: usize = 120;

#[derive(Clone, Copy, Default)]
pub struct Stretch {
    pub from: u64,
    pub until: u64,
    pub count: u32,
}

/// Stretches of time in their order. Those that lie near each other become one; where there is no room they are taken for
/// near more and more easily.
#[derive(Clone, Default)]
pub struct Track {
    pub stretches: Vec<Stretch>,
    near: u64,
}

impl Track {
    pub fn add(&mut self, from: u64, until: u64) {
        self.join(Stretch { from, until, count: 1 });
        while self.stretches.len() > MOST_STRETCHES {
            self.near = (self.near * 2).max(1);
            for stretch in std::mem::take(&mut self.stretches) {
                self.join(stretch);
            }
        }
    }

    fn join(&mut self, next: Stretch) {
        match self.stretches.last_mut() {
            Some(last) if next.from <= last.until + self.near => {
                last.until = next.until;
                last.count += next.count;
            }
            _ => self.stretches.push(next),
        }
    }
}

#[derive(Clone, Copy, PartialEq, Eq)]
pub enum Kind {
    First,
    Expired,
    Refused,
    Reset,
    Rebound,
}

#[derive(Clone, Default)]
pub struct Episode {
    pub from: u64,
    pub until: u64,
    /// No lease was there before.
    pub first: bool,
    /// Whether an ACK ended it, and not the list.
    pub ended: bool,
    /// Milliseconds without a lease.
    pub gap: u64,
    /// The leased address, before it and then after it, and whether the two differ.
    pub address: Option<Address>,
    pub moved: bool,
    /// Likewise where the ACK came from.
    pub source: Option<Address>,
    pub other: bool,
    pub bands: [Track; BANDS],
    pub marks: [Track; MARKS],
    /// Which marks there were.
    pub seen: [bool; MARKS],
}

impl Episode {
    fn has(&self, mark: usize) -> bool {
        self.seen[mark] || !self.marks[mark].stretches.is_empty()
    }

    /// None where it is a renewal, if a late one, and nothing more.
    pub fn kind(&self) -> Option<Kind> {
        match () {
            _ if self.first => Some(Kind::First),
            _ if self.has(EXPIRIES) => Some(Kind::Expired),
            _ if self.has(NAKS) => Some(Kind::Refused),
            _ if self.has(RESETS) => Some(Kind::Reset),
            _ if self.has(REBINDINGS) => Some(Kind::Rebound),
            _ => None,
        }
    }

    /// The more different things and the longer, the better worth a closer look, and another server before all. Of NAKs the
    /// quickest shows the exchange.
    pub fn score(&self) -> (bool, usize, u64) {
        let (marks, length) = ((0..MARKS).filter(|mark| self.has(*mark)).count(), self.until - self.from);
        if self.kind() == Some(Kind::Refused) { (false, 0, u64::MAX - length) } else { (self.other, marks, length) }
    }

    pub fn without_details(&self) -> Episode {
        let seen = std::array::from_fn(|mark| self.has(mark));
        Episode { bands: Default::default(), marks: Default::default(), seen, ..self.clone() }
    }

    pub fn caption(&self) -> String {
        let gap = span(self.gap);
        let then = match self.address {
            Some(address) if self.moved => format!(", then {}", dotted(&address)),
            _ => String::new(),
        };
        match self.kind() {
            _ if !self.ended => format!("no lease for {gap}, to the end"),
            Some(Kind::First) => format!("first lease after {gap}"),
            Some(Kind::Expired) => format!("lease expired, none for {gap}{then}"),
            Some(Kind::Refused) => format!("NAK, no lease for {gap}{then}"),
            Some(Kind::Reset) => format!("reset, no lease for {gap}{then}"),
            _ if self.other => format!("rebound, by {}", self.source.map_or(String::new(), |a| dotted(&a))),
            _ => "rebound".into(),
        }
    }
}
