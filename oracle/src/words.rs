//! Days, spans of time and numbers in words.
use crate::plain::{self, Address};
use crate::season::HOUR;
use crate::show::dotted;

pub const DAY: u64 = plain::DAY as u64;
pub const MINUTE: u64 = 60_000;
const SECOND: u64 = 1000;

/// The months from April on, and their days: a year that begins with a season, February short.
pub const MONTHS: [(&str, u64); 12] = [
    ("April", 30),
    ("May", 31),
    ("June", 30),
    ("July", 31),
    ("August", 31),
    ("September", 30),
    ("October", 31),
    ("November", 30),
    ("December", 31),
    ("January", 31),
    ("February", 28),
    ("March", 31),
];

/// The month's place in the table, and what has passed of it. Past the year's end it is the last one.
pub fn month(elapsed: u64) -> (usize, u64) {
    let mut rest = elapsed;
    for (place, (_, days)) in MONTHS.iter().enumerate() {
        if rest < days * DAY || place + 1 == MONTHS.len() {
            return (place, rest);
        }
        rest -= days * DAY;
    }
    unreachable!()
}

pub fn date(elapsed: u64) -> String {
    let (place, rest) = month(elapsed);
    format!("{} {}", rest / DAY + 1, MONTHS[place].0)
}

pub fn time(elapsed: u64) -> String {
    format!("{:02}:{:02}", elapsed % DAY / HOUR, elapsed % HOUR / MINUTE)
}

pub fn span(ms: u64) -> String {
    let minutes = |ms: u64| ms % HOUR / MINUTE;
    match ms {
        0 => "0".into(),
        1..SECOND => format!("{ms} ms"),
        SECOND..MINUTE => format!("{} s", ms / SECOND),
        MINUTE..HOUR => format!("{} min", ms / MINUTE),
        _ if ms < 2 * DAY && minutes(ms) == 0 => format!("{} h", ms / HOUR),
        _ if ms < 2 * DAY => format!("{} h {} min", ms / HOUR, minutes(ms)),
        _ if ms % DAY < HOUR => format!("{} days", ms / DAY),
        _ => format!("{} days {} h", ms / DAY, ms % DAY / HOUR),
    }
}

/// With a comma before each three digits.
pub fn grouped(n: u64) -> String {
    let digits = n.to_string();
    let mut text = String::new();
    for (place, digit) in digits.chars().enumerate() {
        if place > 0 && (digits.len() - place) % 3 == 0 {
            text.push(',');
        }
        text.push(digit);
    }
    text
}

/// A share in per cent. All of it and nothing of it are said only where they are so.
pub fn percent(part: u64, whole: u64) -> String {
    match part {
        0 => "0 %".into(),
        _ if part == whole => "100 %".into(),
        _ => format!("{:.1} %", (part as f64 * 100.0 / whole as f64).clamp(0.1, 99.9)),
    }
}

pub fn with_prefix(address: &Address, prefix: u8) -> String {
    format!("{}/{prefix}", dotted(address))
}
