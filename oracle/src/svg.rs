//! Elements of an SVG picture. The styles stand once, at its head; nothing is taken from elsewhere.
use std::fmt::Write;

pub struct Svg {
    out: String,
}

/// The bands' colours are those of Okabe and Ito in hue, and each is darker than the one before it, from a lease at rest to
/// none at all, so that they differ in print and to every eye. Marks have the colour of the band that they belong to.
const STYLE: &str = "
text{font-family:sans-serif;font-size:9px;fill:#222}
.title{font-size:21px;font-weight:bold}
.head{font-size:11px;font-weight:bold}
.month{font-size:12px;font-weight:bold}
.quiet{fill:#666}
.end{text-anchor:end}
.mid{text-anchor:middle}
.paper{fill:#fff}
.ground{fill:#f1f1f1}
.grid{stroke:#ccc;stroke-width:.5}
.frame{fill:none;stroke:#999;stroke-width:.7}
.b4{fill:#d3ecf9}.b3{fill:#8ccbef}.b2{fill:#de8f05}.b1{fill:#b0568a}.b0{fill:#7f2704}
.m0{fill:#7f2704}.m1{fill:#b0568a}.m2{fill:#0072b2}.m3{fill:#de8f05}
.many{fill-opacity:.6}
.m4{fill:#e377b0}.m5{fill:#009e73}.m6,.m8,.m9,.m10{fill:#000}.m7{fill:#888}
.held{fill:#fff;stroke:#0072b2;stroke-width:.8}
.other{fill:#e4e4e4;stroke:#444;stroke-width:.8}
.wrap{stroke:#000;stroke-width:1;stroke-dasharray:2.5 2}
.lead{stroke:#555;stroke-width:.6}
.symbol{stroke:#fff;stroke-width:.7}
.badge{fill:#222}
.inside{fill:#fff}
.letter{fill:#fff;font-weight:bold;text-anchor:middle}
";

/// At most two digits behind the point: a hundredth of a unit is nothing on paper.
pub fn n(x: f64) -> String {
    let text = format!("{x:.2}");
    text.trim_end_matches('0').trim_end_matches('.').into()
}

fn escaped(text: &str) -> String {
    let mut out = String::new();
    for c in text.chars() {
        match c {
            '&' => out.push_str("&amp;"),
            '<' => out.push_str("&lt;"),
            '>' => out.push_str("&gt;"),
            // XML has no place for control characters and these two.
            c if c.is_control() || c == '\u{fffe}' || c == '\u{ffff}' => out.push('\u{fffd}'),
            c => out.push(c),
        }
    }
    out
}

/// About how wide a text is in the size of labels.
pub fn width(text: &str) -> f64 {
    text.chars().count() as f64 * 5.1
}

impl Svg {
    /// A picture so wide and high, in quarters of a millimetre.
    pub fn new(width: f64, height: f64, title: &str) -> Self {
        let mut svg = Svg { out: String::new() };
        let (w, h) = (n(width / 4.0), n(height / 4.0));
        let head = format!("width=\"{w}mm\" height=\"{h}mm\" viewBox=\"0 0 {} {}\"", n(width), n(height));
        let _ = writeln!(svg.out, "<?xml version=\"1.0\" encoding=\"UTF-8\"?>");
        let _ = writeln!(svg.out, "<svg xmlns=\"http://www.w3.org/2000/svg\" {head}>");
        let _ = writeln!(svg.out, "<title>{}</title>\n<style>{STYLE}</style>", escaped(title));
        svg.rect("paper", 0.0, 0.0, width, height);
        svg
    }

    pub fn rect(&mut self, class: &str, x: f64, y: f64, w: f64, h: f64) {
        let (x, y, w, h) = (n(x), n(y), n(w), n(h));
        let _ = writeln!(self.out, "<rect class=\"{class}\" x=\"{x}\" y=\"{y}\" width=\"{w}\" height=\"{h}\"/>");
    }

    pub fn line(&mut self, class: &str, from: (f64, f64), to: (f64, f64)) {
        let _ = writeln!(self.out, "<path class=\"{class}\" d=\"M{} {}L{} {}\"/>", n(from.0), n(from.1), n(to.0), n(to.1));
    }

    /// Text with its baseline at y.
    pub fn text(&mut self, class: &str, x: f64, y: f64, text: &str) {
        let class = if class.is_empty() { String::new() } else { format!(" class=\"{class}\"") };
        let _ = writeln!(self.out, "<text{class} x=\"{}\" y=\"{}\">{}</text>", n(x), n(y), escaped(text));
    }

    /// Filled shapes, one behind the other.
    pub fn path(&mut self, class: &str, shapes: &str) {
        if !shapes.is_empty() {
            let _ = writeln!(self.out, "<path class=\"{class}\" d=\"{shapes}\"/>");
        }
    }

    /// A letter in a disc.
    pub fn badge(&mut self, x: f64, y: f64, letter: char) {
        let _ = writeln!(self.out, "<circle class=\"badge\" cx=\"{}\" cy=\"{}\" r=\"5.5\"/>", n(x), n(y));
        self.text("letter", x, y + 3.2, &letter.to_string());
    }

    pub fn end(mut self) -> String {
        self.out.push_str("</svg>\n");
        self.out
    }
}

/// A box as part of a path.
pub fn boxed(x: f64, y: f64, w: f64, h: f64) -> String {
    format!("M{} {}h{}v{}h{}z", n(x), n(y), n(w), n(h), n(-w))
}
