//! Tables in markdown, and charts in SVG.

use std::fmt::Write;

/// A table: its heads, and its lines.
pub struct Table {
    pub heads: Vec<&'static str>,
    pub lines: Vec<Vec<String>>,
}

impl Table {
    pub fn new(heads: &[&'static str]) -> Table {
        Table { heads: heads.to_vec(), lines: Vec::new() }
    }

    pub fn markdown(&self) -> String {
        let mut text = format!("| {} |\n|{}\n", self.heads.join(" | "), "---|".repeat(self.heads.len()));
        for line in &self.lines {
            let _ = writeln!(text, "| {} |", line.join(" | "));
        }
        text
    }
}

/// A bar: its name, its length, and what stands behind it.
pub struct Bar {
    pub name: String,
    pub length: f64,
    pub told: String,
}

const BAR: f64 = 18.0;
const NAMES: f64 = 250.0;
const ROOM: f64 = 420.0;

/// Bars side by side, with a line at 1.
pub fn bars(title: &str, bars: &[Bar]) -> String {
    let most = bars.iter().map(|b| b.length).fold(1.0, f64::max);
    let height = BAR * bars.len() as f64 + 44.0;
    let mut svg = head(NAMES + ROOM + 90.0, height, title);
    for (i, bar) in bars.iter().enumerate() {
        let y = 34.0 + BAR * i as f64;
        let length = bar.length / most * ROOM;
        let _ = writeln!(svg, "<text x=\"{}\" y=\"{}\" text-anchor=\"end\">{}</text>", NAMES - 8.0, y + 12.0, bar.name);
        let _ = writeln!(svg, "<rect x=\"{NAMES}\" y=\"{}\" width=\"{length:.1}\" height=\"12\" fill=\"#4a7a8c\"/>", y + 2.0);
        let _ = writeln!(svg, "<text x=\"{:.1}\" y=\"{}\">{}</text>", NAMES + length.max(ROOM / most) + 6.0, y + 12.0, bar.told);
    }
    let one = NAMES + ROOM / most;
    let _ = writeln!(svg, "<line x1=\"{one:.1}\" y1=\"30\" x2=\"{one:.1}\" y2=\"{:.1}\" stroke=\"#a33\"/>", height - 8.0);
    svg + "</svg>\n"
}

/// Some plots of points side by side, each from the origin to its greatest values.
pub fn plots(title: &str, plots: &[(&str, Vec<(f64, f64)>)]) -> String {
    let (side, gap) = (200.0, 70.0);
    let mut svg = head((side + gap) * plots.len() as f64 + 30.0, side + 90.0, title);
    for (i, (name, points)) in plots.iter().enumerate() {
        let left = 56.0 + (side + gap) * i as f64;
        let (top, foot) = (36.0, 36.0 + side);
        let most_x = points.iter().map(|p| p.0).fold(f64::MIN_POSITIVE, f64::max);
        let most_y = points.iter().map(|p| p.1).fold(f64::MIN_POSITIVE, f64::max);
        let _ = writeln!(svg, "<path d=\"M{left} {top}V{foot}H{}\" fill=\"none\" stroke=\"#888\"/>", left + side);
        let mut path = String::new();
        for (k, (x, y)) in points.iter().enumerate() {
            let (px, py) = (left + x / most_x * side, foot - y / most_y * side);
            let _ = write!(path, "{}{px:.1} {py:.1}", if k == 0 { "M" } else { "L" });
            let _ = writeln!(svg, "<circle cx=\"{px:.1}\" cy=\"{py:.1}\" r=\"3\" fill=\"#4a7a8c\"/>");
        }
        let _ = writeln!(svg, "<path d=\"{path}\" fill=\"none\" stroke=\"#4a7a8c\"/>");
        let _ = writeln!(svg, "<text x=\"{}\" y=\"{}\" text-anchor=\"middle\">{name}, to {most_x}</text>", left + side / 2.0, foot + 22.0);
        let _ = writeln!(svg, "<text x=\"{}\" y=\"{}\" text-anchor=\"end\">{most_y:.1}</text>", left - 5.0, top + 6.0);
        let _ = writeln!(svg, "<text x=\"{}\" y=\"{}\" text-anchor=\"end\">ms</text>", left - 5.0, top + 20.0);
    }
    svg + "</svg>\n"
}

fn head(width: f64, height: f64, title: &str) -> String {
    format!(
        "<svg xmlns=\"http://www.w3.org/2000/svg\" width=\"{width}\" height=\"{height}\" font-family=\"sans-serif\" font-size=\"12\">\n\
         <rect width=\"100%\" height=\"100%\" fill=\"white\"/>\n<text x=\"10\" y=\"20\" font-size=\"14\">{title}</text>\n"
    )
}
