// The lines of crates/limits/src/grid.rt, answered by the Rust: oracle/clock builds this beside src/time.rs and src/rand.rs.
use rand::Rand;
use std::fmt::Write;
use time::{Clock, Duration, Instant};

const NUMBERS: [u32; 15] = [
    0, 1, 999, 1000, 1001, 9999, 86400000, 1073741823, 1073741824, 1073741825, 2147483647, 2147483648, 2147483649,
    4294967294, 4294967295,
];

fn line(a: u32, b: u32) -> String {
    let mut out = format!("{a},{b}");
    let mut cell = |n: u64| write!(out, ",{n}").unwrap();
    let (i, j) = (Instant::from_millis(a), Instant::from_millis(b));
    let (d, e) = (Duration::from_millis(a), Duration::from_millis(b));
    let none = u64::MAX;
    let maybe = |d: Option<Duration>| d.map_or(none, |d| d.as_millis() as u64);

    cell(Instant::from_secs(a).as_millis() as u64);
    cell(i.as_secs() as u64);
    cell(i.subsec_millis() as u64);
    cell((i + e).as_millis() as u64);
    cell((i - e).as_millis() as u64);
    cell((i < j) as u64);
    cell((i <= j) as u64);
    cell(maybe(i.checked_duration_since(j)));
    cell(i.duration_since(j).as_millis() as u64);
    assert_eq!(i.duration_since(j), i.saturating_duration_since(j));
    cell(i.min(j).as_millis() as u64);
    cell(i.max(j).as_millis() as u64);

    cell(Duration::from_secs(d.as_millis()).as_millis() as u64);
    cell(d.as_secs() as u64);
    cell(d.subsec_millis() as u64);
    cell(d.is_zero() as u64);
    cell(maybe(d.checked_add(e)));
    cell(maybe(d.checked_sub(e)));
    cell(d.saturating_add(e).as_millis() as u64);
    cell(d.saturating_sub(e).as_millis() as u64);
    cell(maybe(d.checked_mul(b)));
    cell(maybe(d.checked_div(b)));
    cell(d.saturating_mul(b).as_millis() as u64);
    cell(d.abs_diff(e).as_millis() as u64);
    cell(d.min(e).as_millis() as u64);
    cell(d.max(e).as_millis() as u64);

    let mut clock = Clock::new(i);
    cell(clock.now().as_millis() as u64);
    cell(clock.next().as_millis() as u64);
    clock.schedule(j);
    cell(clock.next().as_millis() as u64);
    let mut clock = Clock::new(i);
    cell(clock.expired(j) as u64);
    cell(clock.next().as_millis() as u64);
    let mut clock = Clock::new(i);
    cell(clock.after(e).as_millis() as u64);
    cell(clock.next().as_millis() as u64);

    let mut rand = Rand::new((a as u64) << 32 | b as u64);
    cell(rand.rand_u32() as u64);
    cell(rand.rand_u16() as u64);
    // The state is private; what is printed of it is its number.
    let state: String = format!("{rand:?}").chars().filter(char::is_ascii_digit).collect();
    cell(state.parse().unwrap());

    out.replace(&format!(",{none}"), ",none")
}

fn main() {
    for a in NUMBERS {
        for b in NUMBERS {
            println!("{}", line(a, b));
        }
    }
}
