//! Draws a season: one post's run as a picture for A4, from a list of calls and the answers to it, whoever gave them.
use std::fs::{self, File};
use std::io::{self, BufReader};

use crate::answers::Both;
use crate::closeup;
use crate::history::History;
use crate::legend;
use crate::rows;
use crate::svg::Svg;

/// Units are quarters of a millimetre. Seven months fill the page; with more of them it gets longer.
const WIDTH: f64 = 1188.0;
const HEIGHT: f64 = 840.0;
pub const LEFT: f64 = 28.0;
pub const RIGHT: f64 = WIDTH - LEFT;
/// Where the days begin, and how wide one is.
pub const PLOT: f64 = 108.0;
pub const DAY_WIDTH: f64 = (1104.0 - PLOT) / 31.0;
/// The line of the day's numbers, and the first row.
const AXIS: f64 = 87.0;
const ROWS: f64 = 91.0;
const GAP: f64 = 18.0;

/// Reads the list and, from standard input, the answers. The file is written when the picture is complete.
pub fn draw(list: &str, file: &str) -> Result<(), String> {
    let calls = File::open(list).map_err(|e| format!("{list}: {e}"))?;
    let mut both = Both::new(BufReader::new(calls), io::stdin().lock());
    let mut history = History::default();
    while let Some(observed) = both.next()? {
        history.take(&observed)?;
    }
    history.end();
    if history.elapsed == 0 {
        return Err("the list: no time passes in it, so there is nothing to draw".into());
    }
    let picture = picture(&legend::title(&both.settings, &history), &history);
    fs::write(file, picture).map_err(|e| format!("{file}: {e}"))
}

fn picture(title: &str, history: &History) -> String {
    let end = ROWS + rows::count(history) as f64 * rows::PITCH;
    let below = end + 18.0;
    let height = (below + closeup::HEIGHT + 62.0).max(HEIGHT);
    let mut svg = Svg::new(WIDTH, height, title);
    legend::head(&mut svg, title, history);
    rows::axis(&mut svg, AXIS);
    rows::axis(&mut svg, end + 6.0);
    rows::rows(&mut svg, history, ROWS);
    let width = (RIGHT - LEFT + GAP) / 4.0;
    for (place, episode) in history.closest().into_iter().enumerate() {
        let letter = (b'A' + place as u8) as char;
        closeup::panel(&mut svg, episode, letter, LEFT + place as f64 * width, below, width - GAP);
    }
    legend::totals(&mut svg, history, below + closeup::HEIGHT + 14.0);
    svg.end()
}
