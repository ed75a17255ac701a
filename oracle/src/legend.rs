//! The words of the picture: its title, what colours and marks mean, and the totals.
use crate::draw::{LEFT, RIGHT};
use crate::history::*;
use crate::plain::Settings;
use crate::rows::symbol;
use crate::svg::{Svg, width};
use crate::words::{date, grouped, percent, span};

const BAND_NAMES: [(usize, &str); BANDS] = [
    (LEASE, "lease held"),
    (UNANSWERED, "lease held, renewal unanswered"),
    (REBINDING, "lease held, rebinding"),
    (REQUESTING, "no lease, Requesting"),
    (DISCOVERING, "no lease, Discovering"),
];
const TICK_NAMES: [(usize, &str); 7] = [
    (RENEWALS, "renewal (bar: each half-hour)"),
    (REBINDINGS, "rebinding"),
    (REQUESTS, "Request"),
    (DISCOVERS, "Discover (higher: more of them)"),
    (ACKS, "ACK"),
    (OFFERS, "OFFER"),
    (PASSED_OVER, "reply passed over"),
];
const SYMBOL_NAMES: [(usize, &str); 4] =
    [(NAKS, "NAK"), (EXPIRIES, "lease expired"), (RESETS, "reset"), (BY_HAND, "entry changed by hand")];

pub fn title(settings: &Settings, history: &History) -> String {
    let name = String::from_utf8_lossy(&settings.name);
    let hardware: Vec<String> = settings.hardware.iter().map(|byte| format!("{byte:02x}")).collect();
    let name = if name.is_empty() { format!("Post {}", hardware.join(":")) } else { format!("Post {name}") };
    format!("{name}: {} to {}", date(0), date(history.elapsed.saturating_sub(1)))
}

pub fn head(svg: &mut Svg, title: &str, history: &History) {
    svg.text("title", LEFT, 36.0, title);
    let share = percent(History::with_lease(&history.bins), history.elapsed);
    svg.text("title end", RIGHT, 36.0, &format!("{share} of the time with a lease"));
    let mut x = LEFT;
    for (band, name) in BAND_NAMES {
        svg.rect(&format!("b{band}"), x, 46.0, 22.0, 10.0);
        svg.text("", x + 26.0, 54.5, name);
        x += width(name) + 46.0;
    }
    svg.rect("held", x, 46.0, 22.0, 10.0);
    svg.rect("other", x + 22.0, 46.0, 22.0, 10.0);
    svg.text("", x + 48.0, 54.5, "leased address; the tone changes with it");
    x = LEFT;
    for (mark, name) in TICK_NAMES {
        svg.rect(&format!("m{mark}"), x + 2.0, 62.0, 3.0, 10.0);
        svg.text("", x + 9.0, 70.5, name);
        x += width(name) + 24.0;
    }
    for (mark, name) in SYMBOL_NAMES {
        symbol(svg, mark, x + 4.0, 67.0);
        svg.text("", x + 12.0, 70.5, name);
        x += width(name) + 27.0;
    }
    svg.line("wrap", (x, 61.0), (x, 73.0));
    svg.text("", x + 5.0, 70.5, "32-bit clock wraps");
}

/// Four columns: time, messages, replies, the rest.
pub fn totals(svg: &mut Svg, history: &History, top: f64) {
    let count = |mark: usize| grouped(history.totals[mark]);
    let sum = |marks: std::ops::Range<usize>| grouped(history.totals[marks].iter().sum());
    let held = |band: usize| history.bins.iter().map(|bin| bin.held[band] as u64).sum::<u64>();
    let (with, whole) = (History::with_lease(&history.bins), history.elapsed);
    let columns = [
        [
            format!("Time: {}", span(whole)),
            format!("with a lease {} ({})", span(with), percent(with, whole)),
            format!("without {} ({})", span(whole - with), percent(whole - with, whole)),
            format!("renewal unanswered {}, rebinding {}", span(held(UNANSWERED)), span(held(REBINDING))),
        ],
        [
            format!("Messages sent: {}", sum(DISCOVERS..OFFERS)),
            format!("Discover {}", count(DISCOVERS)),
            format!("Request {}", count(REQUESTS)),
            format!("renewal {}, rebinding {}", count(RENEWALS), count(REBINDINGS)),
        ],
        [
            format!("Replies: {}", sum(OFFERS..EXPIRIES)),
            format!("OFFER {}, ACK {} taken", count(OFFERS), count(ACKS)),
            format!("NAK {} taken", count(NAKS)),
            format!("passed over {}", count(PASSED_OVER)),
        ],
        [
            format!("Leases: {}", grouped(history.leases)),
            format!("expired {}, resets {}", count(EXPIRIES), count(RESETS)),
            format!("told to purge {}", grouped(history.purges)),
            format!("entries changed by hand {}", count(BY_HAND)),
        ],
        [
            format!("Polls: {}", grouped(history.polls)),
            format!("silent {}", grouped(history.silent)),
            format!("calls refused {}", grouped(history.refused)),
            format!("wraps of the clock {}", history.wraps.len()),
        ],
    ];
    let places = [0.0, 300.0, 520.0, 740.0, 960.0];
    for (place, column) in places.iter().zip(columns) {
        for (line, text) in column.iter().enumerate() {
            svg.text(if line == 0 { "head" } else { "" }, LEFT + place, top + line as f64 * 11.5, text);
        }
    }
    if history.more {
        svg.text("quiet end", RIGHT, top + 46.0, "more happened than is told one by one; the bands and totals have all of it");
    }
}
