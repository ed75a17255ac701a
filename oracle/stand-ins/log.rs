//! Stand-in for the crate log: keeps the lines that the Rust logs during a call, so that the outcome is read off them.
//! A line is kept as the text it was written with; what stood in its first gap is kept for the lines that name a message
//! type.
use std::cell::RefCell;
use std::fmt::{Debug, Write};

pub struct Lines {
    pub texts: Vec<&'static str>,
    pub first: String,
}

thread_local! {
    pub static LINES: RefCell<Lines> = const { RefCell::new(Lines { texts: Vec::new(), first: String::new() }) };
}

/// Forgets the lines of the call before.
pub fn clear() {
    LINES.with_borrow_mut(|lines| lines.texts.clear());
}

pub fn keep(text: &'static str) {
    LINES.with_borrow_mut(|lines| lines.texts.push(text));
}

pub fn keep_with(text: &'static str, first: &dyn Debug) {
    LINES.with_borrow_mut(|lines| {
        lines.texts.push(text);
        if text.starts_with("DHCP recv") {
            lines.first.clear();
            write!(lines.first, "{first:?}").unwrap();
        }
    });
}

#[macro_export]
macro_rules! debug {
    ($s:literal) => { $crate::keep($s) };
    ($s:literal, $first:expr $(, $x:expr)*) => {{
        $(let _ = &$x;)*
        $crate::keep_with($s, &$first)
    }};
}
#[macro_export]
macro_rules! trace { ($($x:tt)*) => { $crate::debug!($($x)*) }; }
#[macro_export]
macro_rules! info { ($($x:tt)*) => { $crate::debug!($($x)*) }; }
#[macro_export]
macro_rules! warn { ($($x:tt)*) => { $crate::debug!($($x)*) }; }
#[macro_export]
macro_rules! error { ($($x:tt)*) => { $crate::debug!($($x)*) }; }
