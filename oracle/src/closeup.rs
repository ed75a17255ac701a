//! Single episodes close up, each on its own scale of time, with a lane for each message and reply.
use crate::episode::{Episode, Stretch};
use crate::history::*;
use crate::rows::{heading, symbol};
use crate::svg::{Svg, width};
use crate::words::{DAY, grouped, span};

pub const HEIGHT: f64 = 146.0;
const LABELS: f64 = 58.0;
const LANE: f64 = 11.5;
/// Marks that lie closer than this are drawn as one, with their number.
const NEAR: f64 = 2.2;
/// How many as one have their number beside them.
const FEW: u32 = 4;
const LANES: [(usize, &str); 8] = [
    (DISCOVERS, "Discover"),
    (REQUESTS, "Request"),
    (RENEWALS, "renewal"),
    (REBINDINGS, "rebinding"),
    (OFFERS, "OFFER"),
    (ACKS, "ACK"),
    (NAKS, "NAK"),
    (PASSED_OVER, "passed over"),
];

/// Steps of a scale of time, in milliseconds; five of the longest are more than a year.
const STEPS: [u64; 32] = [
    1,
    2,
    5,
    10,
    20,
    50,
    100,
    200,
    500,
    1000,
    2000,
    5000,
    10_000,
    20_000,
    30_000,
    60_000,
    120_000,
    300_000,
    600_000,
    1_200_000,
    1_800_000,
    3_600_000,
    7_200_000,
    10_800_000,
    21_600_000,
    43_200_000,
    DAY,
    2 * DAY,
    5 * DAY,
    10 * DAY,
    20 * DAY,
    100 * DAY,
];

struct Panel<'a> {
    episode: &'a Episode,
    left: f64,
    right: f64,
    top: f64,
    /// Units for each millisecond, and what is shown before and after the episode.
    scale: f64,
    margin: f64,
}

pub fn panel(svg: &mut Svg, episode: &Episode, letter: char, x: f64, y: f64, w: f64) {
    let margin = ((episode.until - episode.from) as f64 * 0.05).max(2.0);
    let scale = (w - LABELS) / ((episode.until - episode.from) as f64 + 2.0 * margin);
    let panel = Panel { episode, left: x + LABELS, right: x + w, top: y + 18.0, scale, margin };
    svg.badge(x + 6.0, y + 7.0, letter);
    svg.text("head", x + 15.0, y + 11.0, &heading(episode));
    panel.axis(svg);
    panel.bands(svg);
    panel.lanes(svg, x);
}

/// The band lies between the lanes of messages and those of replies.
fn lane_top(place: usize) -> f64 {
    place as f64 * LANE + if place >= 4 { LANE + 2.0 } else { 0.0 }
}

impl Panel<'_> {
    fn x(&self, elapsed: u64) -> f64 {
        self.left + ((elapsed as f64 - self.episode.from as f64) + self.margin) * self.scale
    }

    fn axis(&self, svg: &mut Svg) {
        let bottom = self.top + lane_top(8);
        let whole = self.episode.until - self.episode.from;
        let step = STEPS.into_iter().find(|step| whole / step <= 5).unwrap();
        svg.rect("frame", self.left, self.top, self.right - self.left, bottom - self.top);
        for tick in 0..=whole / step {
            let x = self.x(self.episode.from + tick * step);
            svg.line("grid", (x, self.top), (x, bottom + 2.0));
            let label = if tick == 0 { "0".into() } else { span(tick * step) };
            if x + width(&label) / 2.0 <= self.right + 4.0 {
                svg.text("quiet mid", x, bottom + 10.5, &label);
            }
        }
    }

    fn bands(&self, svg: &mut Svg) {
        let y = self.top + 4.0 * LANE + 1.0;
        if !self.episode.first {
            svg.rect("b4", self.left, y, self.margin * self.scale, LANE);
        }
        if self.episode.ended {
            svg.rect("b4", self.x(self.episode.until), y, self.margin * self.scale, LANE);
        }
        for band in (0..BANDS).rev() {
            for stretch in &self.episode.bands[band].stretches {
                let (x, end) = (self.x(stretch.from), self.x(stretch.until));
                svg.rect(&format!("b{band}"), x, y, (end - x).max(0.6), LANE);
            }
        }
        for mark in [EXPIRIES, RESETS] {
            for stretch in &self.episode.marks[mark].stretches {
                symbol(svg, mark, self.x(stretch.from), y + LANE / 2.0);
            }
        }
    }

    fn lanes(&self, svg: &mut Svg, x: f64) {
        for (place, (mark, name)) in LANES.into_iter().enumerate() {
            let y = self.top + lane_top(place);
            svg.text("end", x + LABELS - 4.0, y + 8.8, name);
            let class = format!("m{mark}");
            let drawn = self.drawn(&self.episode.marks[mark].stretches);
            for (at, stretch) in drawn.iter().enumerate() {
                let (from, until) = (self.x(stretch.from), self.x(stretch.until));
                svg.rect(&class, from - 0.9, y + 1.5, until - from + 1.8, LANE - 3.0);
                let label = grouped(stretch.count as u64);
                let before = if at > 0 { self.x(drawn[at - 1].until) } else { self.left };
                let after = drawn.get(at + 1).map_or(self.right, |next| self.x(next.from));
                match () {
                    _ if stretch.count < FEW => {}
                    _ if after - until > width(&label) + 5.0 => svg.text("", until + 3.0, y + 9.0, &label),
                    _ if until - from > width(&label) + 5.0 => svg.text("inside", from + 4.0, y + 9.0, &label),
                    _ if from - before > width(&label) + 5.0 => svg.text("end", from - 3.0, y + 9.0, &label),
                    _ => {}
                }
            }
        }
        svg.text("end quiet", x + LABELS - 4.0, self.top + 4.0 * LANE + 9.8, "the post");
    }

    fn drawn(&self, stretches: &[Stretch]) -> Vec<Stretch> {
        let mut drawn: Vec<Stretch> = vec![];
        for stretch in stretches {
            match drawn.last_mut() {
                Some(last) if self.x(stretch.from) - self.x(last.until) < NEAR => {
                    last.until = stretch.until;
                    last.count += stretch.count;
                }
                _ => drawn.push(*stretch),
            }
        }
        drawn
    }
}
