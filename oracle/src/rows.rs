//! The rows of the picture, one for each month: what the post is at as a band, messages above it, replies below, and under
//! them the lease in force.
use crate::draw::{DAY_WIDTH, LEFT, PLOT, RIGHT};
use crate::episode::{Episode, Kind};
use crate::history::*;
use crate::svg::{Svg, boxed, n, width};
use crate::words::{self, DAY, MONTHS};

pub const PITCH: f64 = 73.0;
/// Where things stand in a row, from its top: two lines of captions, messages, the band, replies, the lease.
const CAPTIONS: [f64; 2] = [9.0, 19.0];
const BAND: f64 = 36.0;
const BAND_HEIGHT: f64 = 11.0;
const REPLIES: f64 = BAND + BAND_HEIGHT + 0.5;
const SYMBOLS: f64 = REPLIES + 5.0;
/// How wide a symbol is.
const SYMBOL: f64 = 8.0;
const HELD: f64 = 58.5;
const HELD_HEIGHT: f64 = 10.5;
/// The narrowest tick that is seen on paper.
const THINNEST: f64 = 1.0;
const BIN_WIDTH: f64 = BIN as f64 / DAY as f64 * DAY_WIDTH;
/// From so many milliseconds on a state gives a half-hour its colour; the worst one does.
const LEAST: u32 = 1000;

struct Row<'a> {
    history: &'a History,
    month: usize,
    from: u64,
    until: u64,
    top: f64,
}

/// The day's numbers, for all rows.
pub fn axis(svg: &mut Svg, y: f64) {
    for day in 0..31 {
        svg.text("quiet mid", PLOT + (day as f64 + 0.5) * DAY_WIDTH, y, &(day + 1).to_string());
    }
}

pub fn rows(svg: &mut Svg, history: &History, top: f64) {
    let mut from = 0;
    for (month, (_, days)) in MONTHS.iter().enumerate().take(count(history)) {
        let until = history.elapsed.min(from + days * DAY);
        let row = Row { history, month, from, until, top: top + month as f64 * PITCH };
        row.ground(svg, *days);
        row.bands(svg);
        row.marks(svg);
        row.held(svg);
        row.symbols(svg);
        row.captions(svg);
        from += days * DAY;
    }
}

/// How many months the run has.
pub fn count(history: &History) -> usize {
    words::month(history.elapsed.saturating_sub(1)).0 + 1
}

impl Row<'_> {
    fn x(&self, elapsed: u64) -> f64 {
        PLOT + (elapsed as f64 - self.from as f64) / DAY as f64 * DAY_WIDTH
    }

    fn has(&self, elapsed: u64) -> bool {
        (self.from..self.until).contains(&elapsed)
    }

    fn bins(&self) -> &[Bin] {
        let end = (self.until.div_ceil(BIN) as usize).min(self.history.bins.len());
        &self.history.bins[((self.from / BIN) as usize).min(end)..end]
    }

    fn ground(&self, svg: &mut Svg, days: u64) {
        let (name, _) = MONTHS[self.month];
        let y = self.top + BAND;
        svg.rect("ground", PLOT, y, days as f64 * DAY_WIDTH, BAND_HEIGHT);
        for day in 0..=days {
            let x = PLOT + day as f64 * DAY_WIDTH;
            svg.line("grid", (x, self.top + 24.0), (x, self.top + HELD + HELD_HEIGHT));
        }
        svg.text("month", LEFT, y + 6.0, name);
        svg.text("quiet", LEFT, y + 17.0, &format!("from day {}", self.from / DAY));
        let share = words::percent(History::with_lease(self.bins()), self.until - self.from);
        svg.text("head end", RIGHT, y + 6.0, &share);
        svg.text("quiet end", RIGHT, y + 16.0, "with lease");
    }

    /// Stretches of bins for which a value is the same, as places in the row and that value.
    fn stretches<T: PartialEq>(&self, of: impl Fn(&Bin) -> Option<T>) -> Vec<(f64, f64, T)> {
        let mut found: Vec<(f64, f64, T)> = vec![];
        for (place, bin) in self.bins().iter().enumerate() {
            let from = self.from + place as u64 * BIN;
            let (x, end) = (self.x(from), self.x((from + BIN).min(self.until)));
            match (of(bin), found.last_mut()) {
                (Some(value), Some(last)) if last.2 == value && x - last.1 < 0.01 => last.1 = end,
                (Some(value), _) => found.push((x, end, value)),
                _ => {}
            }
        }
        found
    }

    fn bands(&self, svg: &mut Svg) {
        let worst = |bin: &Bin| {
            let longest = (0..BANDS).max_by_key(|band| bin.held[*band]).filter(|band| bin.held[*band] > 0);
            (0..BANDS).find(|band| bin.held[*band] >= LEAST).or(longest)
        };
        // The worse ones last: their least width may cover a neighbour.
        let mut stretches = self.stretches(worst);
        stretches.sort_by_key(|stretch| std::cmp::Reverse(stretch.2));
        for (x, end, band) in stretches {
            svg.rect(&format!("b{band}"), x, self.top + BAND, (end - x).max(THINNEST), BAND_HEIGHT);
        }
    }

    /// Messages rise from the band, replies hang from it. Discovers rise with their number, for there may be 180 in a bin.
    fn marks(&self, svg: &mut Svg) {
        let discovers = |count: u32| (5.0 + (count as f64).log2() * 1.1).min(13.0);
        let lanes: [(usize, &dyn Fn(u32) -> f64); 7] = [
            (DISCOVERS, &discovers),
            (REBINDINGS, &|_| 9.0),
            (REQUESTS, &|_| 7.0),
            (RENEWALS, &|_| 5.0),
            (OFFERS, &|_| 8.0),
            (PASSED_OVER, &|_| 9.0),
            (ACKS, &|_| 5.0),
        ];
        for (mark, height) in lanes {
            let stretches = self.stretches(|bin| (bin.marks[mark] > 0).then(|| height(bin.marks[mark])));
            let (mut single, mut many) = (String::new(), String::new());
            for (x, end, height) in stretches {
                let y = if mark < OFFERS { BAND - 0.5 - height } else { REPLIES };
                let (y, height) = if mark == PASSED_OVER { (y + 6.0, height - 6.0) } else { (y, height) };
                let steady = (mark == RENEWALS || mark == ACKS) && end - x > 3.0 * BIN_WIDTH;
                let shapes = if steady { &mut many } else { &mut single };
                shapes.push_str(&boxed(x, self.top + y, (end - x).max(THINNEST), height));
            }
            svg.path(&format!("m{mark}"), &single);
            svg.path(&format!("many m{mark}"), &many);
        }
    }

    /// One for all that would lie on it.
    fn symbols(&self, svg: &mut Svg) {
        for mark in [BY_HAND, NAKS, RESETS, EXPIRIES] {
            let mut free = PLOT;
            for (x, _, _) in self.stretches(|bin| (bin.marks[mark] > 0).then_some(bin.marks[mark])) {
                if x >= free {
                    symbol(svg, mark, x + BIN_WIDTH / 2.0, self.top + SYMBOLS);
                    free = x + SYMBOL / 2.0;
                }
            }
        }
    }

    fn held(&self, svg: &mut Svg) {
        let mut other = false;
        for (place, held) in self.history.held.iter().enumerate() {
            other ^= place > 0 && self.history.held[place - 1].address != held.address;
            let (from, until) = (held.from.max(self.from), held.until.min(self.until));
            if from >= until {
                continue;
            }
            let (x, end, y) = (self.x(from), self.x(until), self.top + HELD);
            svg.rect(if other { "other" } else { "held" }, x, y, (end - x).max(THINNEST), HELD_HEIGHT);
            let address = words::with_prefix(&held.address, held.prefix);
            let whole = format!("{address}, leases of {}", words::span(held.length));
            if let Some(label) = [whole, address].iter().find(|label| width(label) + 6.0 < end - x) {
                svg.text("", x + 4.0, y + 8.3, label);
            }
        }
    }

    /// What is to be said over the band, each at its place.
    fn said(&self) -> Vec<Said> {
        let close = self.history.closest();
        let mut said = vec![];
        for episode in &self.history.episodes {
            let place = close.iter().position(|close| close.from == episode.from);
            let letter = place.map(|place| (b'A' + place as u8) as char);
            said.push(Said { at: episode.from, text: episode.caption(), letter, class: "lead" });
        }
        let wraps = self.history.wraps.iter();
        said.extend(wraps.map(|at| Said { at: *at, text: "the clock wraps".into(), letter: None, class: "wrap" }));
        let by_hand = self.history.by_hand.iter();
        said.extend(by_hand.map(|(at, text)| Said { at: *at, text: text.clone(), letter: None, class: "lead" }));
        said.retain(|said| self.has(said.at));
        said.sort_by_key(|said| said.at);
        said
    }

    /// Says it in two lines, as far as there is room.
    fn captions(&self, svg: &mut Svg) {
        let (mut free, mut last) = ([LEFT; 2], LEFT);
        for said in self.said() {
            let x = self.x(said.at);
            let room = width(&said.text) + if said.letter.is_some() { 16.5 } else { 4.0 };
            let begin = x.min(RIGHT - room);
            // The line from a caption down to the band must not cross the caption under it.
            let line = match () {
                _ if begin >= free[0] && begin >= free[1] => Some(0),
                _ if begin >= free[1].max(last) && (said.text != "rebound" || said.letter.is_some()) => Some(1),
                _ => None,
            };
            let y = self.top + line.map_or(BAND - 5.0, |line| CAPTIONS[line]);
            // It begins beside the caption, or under one that the page's edge has pushed back.
            let lead = if begin < x { y + 2.0 } else { y - 7.5 };
            // A wrap goes on down to the lease.
            let bottom = if said.class == "wrap" { HELD } else { BAND };
            if line.is_some() || said.class == "wrap" {
                svg.line(said.class, (x, lead), (x, self.top + bottom));
                last = x;
            }
            if let Some(line) = line {
                free[line] = begin + room + 4.0;
                said.write(svg, begin + 3.0, y);
            }
        }
    }
}

struct Said {
    at: u64,
    text: String,
    letter: Option<char>,
    /// Of the line to its place.
    class: &'static str,
}

impl Said {
    fn write(&self, svg: &mut Svg, x: f64, y: f64) {
        if let Some(letter) = self.letter {
            svg.badge(x + 5.0, y - 3.0, letter);
        }
        svg.text("", if self.letter.is_some() { x + 12.5 } else { x }, y, &self.text);
    }
}

/// A symbol round a point: each has a shape of its own, and a white rim that parts it from what is under it.
pub fn symbol(svg: &mut Svg, mark: usize, x: f64, y: f64) {
    let at = format!("M{} {}", n(x), n(y));
    let shape = match mark {
        NAKS => "m0 -5l4.6 8.4h-9.2z",
        EXPIRIES => "m-4 -4l2 -1 2 3 2 -3 2 1 -2.6 4 2.6 4 -2 1 -2 -3 -2 3 -2 -1 2.6 -4z",
        RESETS => "m-3.6 -3.6h7.2v7.2h-7.2z",
        _ => "m0 -4.6l3.4 4.6 -3.4 4.6 -3.4 -4.6z",
    };
    svg.path(&format!("symbol m{mark}"), &(at + shape));
}

/// What stands over an episode that is drawn close up.
pub fn heading(episode: &Episode) -> String {
    let kind = match episode.kind() {
        Some(Kind::First) if !episode.ended => "no lease comes",
        Some(Kind::First) => "first lease",
        Some(Kind::Expired) => "a lease expires",
        Some(Kind::Refused) => "a NAK",
        Some(Kind::Reset) => "a reset",
        _ => "rebinding",
    };
    format!("{}, {}: {kind}", words::date(episode.from), words::time(episode.from))
}
