//! The plot of the measured rows as SVG: a panel for each call with its time by bytes, both axes in logarithms, and a panel of
//! the ratios library / ordinary.

use crate::report::{of, pairs, Pair, CALLS, OF_ONE_LENGTH};
use notebook_hosts::timing::Row;
use std::fmt::Write;

const WIDTH: f64 = 1_080.0;
const HEIGHT: f64 = 808.0;
const COLUMNS: usize = 3;
/// Of the inside of a panel.
const PANEL: (f64, f64) = (262.0, 250.0);
const FIRST_PANEL: (f64, f64) = (66.0, 118.0);
const PANEL_STEP: (f64, f64) = (346.0, 342.0);

const BYTES: (f64, f64) = (600.0, 130_000.0);
const BYTE_TICKS: [(f64, &str); 4] = [(1e3, "1 KB"), (4e3, "4 KB"), (16e3, "16 KB"), (60e3, "60 KB")];

const LIBRARY: &str = "#0b5394";
const ORDINARY: &str = "#c2410c";
const CSV_CORE: &str = "#4d7c0f";
const ENCODING_RS: &str = "#7e22ce";
/// Colours of the calls in the panel of ratios, in the order of `CALLS`.
const RATIO_COLOURS: [&str; 5] = ["#0b5394", "#c2410c", "#4d7c0f", "#7e22ce", "#0e7490"];

const ENTRIES: [(&str, &str, &str); 4] = [
    ("library", LIBRARY, ""),
    ("ordinary Rust", ORDINARY, "7 4"),
    ("csv-core (splits)", CSV_CORE, "2 3"),
    ("encoding_rs (decodes)", ENCODING_RS, "9 3 2 3"),
];

/// One panel: its place on the page and the values at its edges.
struct Panel {
    left: f64,
    top: f64,
    low: f64,
    high: f64,
    logarithmic: bool,
}

impl Panel {
    fn new(place: usize, low: f64, high: f64, logarithmic: bool) -> Self {
        let (column, line) = ((place % COLUMNS) as f64, (place / COLUMNS) as f64);
        let (left, top) = (FIRST_PANEL.0 + column * PANEL_STEP.0, FIRST_PANEL.1 + line * PANEL_STEP.1);
        Panel { left, top, low, high, logarithmic }
    }

    /// An input with more bytes than the axis has stands at its right end.
    fn x(&self, bytes: f64) -> f64 {
        self.left + PANEL.0 * (bytes.min(BYTES.1) / BYTES.0).ln() / (BYTES.1 / BYTES.0).ln()
    }

    fn y(&self, value: f64) -> f64 {
        let part = if self.logarithmic {
            (value / self.low).ln() / (self.high / self.low).ln()
        } else {
            (value - self.low) / (self.high - self.low)
        };
        self.top + PANEL.1 * (1.0 - part)
    }

    fn frame(&self, title: &str, y_label: &str, ticks: &[f64]) -> String {
        let (left, top, right, bottom) = (self.left, self.top, self.left + PANEL.0, self.top + PANEL.1);
        let middle = left + PANEL.0 / 2.0;
        let mut svg = text(middle, top - 12.0, "middle", "font-weight=\"bold\" font-size=\"15\"", title);
        for &tick in ticks {
            let y = self.y(tick);
            svg += &line((left, y), (right, y), "stroke=\"#d4d4d4\"");
            svg += &text(left - 7.0, y + 4.0, "end", "", &grouped(tick));
        }
        for (bytes, name) in BYTE_TICKS {
            let x = self.x(bytes);
            svg += &line((x, top), (x, bottom), "stroke=\"#d4d4d4\"");
            svg += &text(x, bottom + 17.0, "middle", "", name);
        }
        let (width, height) = PANEL;
        let _ = writeln!(
            svg,
            "<rect x=\"{left}\" y=\"{top}\" width=\"{width}\" height=\"{height}\" fill=\"none\" stroke=\"#525252\"/>"
        );
        svg += &text(middle, bottom + 35.0, "middle", "", "bytes of the input");
        let (x, y) = (left - 47.0, top + PANEL.1 / 2.0);
        svg + &text(x, y, "middle", &format!("transform=\"rotate(-90 {x} {y})\""), y_label)
    }

    /// A line through points, with a mark on each.
    fn curve(&self, points: &[(f64, f64)], colour: &str, dashes: &str) -> String {
        let places: Vec<(f64, f64)> = points.iter().map(|&(bytes, value)| (self.x(bytes), self.y(value))).collect();
        let path: Vec<String> = places.iter().map(|(x, y)| format!("{x:.1},{y:.1}")).collect();
        let path = path.join(" ");
        let style = format!("fill=\"none\" stroke=\"{colour}\" stroke-width=\"2\" stroke-dasharray=\"{dashes}\"");
        let mut svg = format!("<polyline points=\"{path}\" {style}/>\n");
        for (x, y) in places {
            let _ = writeln!(svg, "<circle cx=\"{x:.1}\" cy=\"{y:.1}\" r=\"3.5\" fill=\"{colour}\"/>");
        }
        svg
    }

    /// A mark for a call that is measured at one length.
    fn mark(&self, mark: Mark, bytes: f64, value: f64, colour: &str) -> String {
        mark(self.x(bytes), self.y(value), colour)
    }
}

/// A mark at a place in a colour.
type Mark = fn(f64, f64, &str) -> String;

/// What is measured at one length, by what its name has after the call's: its mark, and what the legend says of it.
const MARKS: [(&str, Mark, &str); 2] = [
    ("-999", diamond, "cut into 999 pieces, or joined out of order"),
    ("-used", square, "cut with 1.4 MB of used IDs, beyond the axis"),
];

pub fn svg(machine: &str, rows: &[Row]) -> String {
    let mut svg = format!(
        "<svg xmlns=\"http://www.w3.org/2000/svg\" viewBox=\"0 0 {WIDTH} {HEIGHT}\" width=\"{WIDTH}\" height=\"{HEIGHT}\" \
         font-family=\"DejaVu Sans, Arial, sans-serif\" font-size=\"12\" fill=\"#171717\">\n\
         <rect width=\"{WIDTH}\" height=\"{HEIGHT}\" fill=\"white\"/>\n"
    );
    svg += &text(20.0, 26.0, "start", "font-size=\"16\" font-weight=\"bold\"", "Time of one call by bytes (medians)");
    svg += &text(20.0, HEIGHT - 14.0, "start", "fill=\"#525252\"", machine);
    svg += &legend(!others(rows, "csv-core").is_empty());
    let medians = || rows.iter().map(|row| row.times.median);
    let low = medians().fold(f64::MAX, f64::min) / 1.6;
    let high = medians().fold(0.0, f64::max) * 1.6;
    for (place, call) in CALLS.into_iter().enumerate() {
        svg += &times(&Panel::new(place, low, high, true), call, rows);
    }
    svg += &ratios(CALLS.len(), rows);
    svg + "</svg>\n"
}

fn legend(with_others: bool) -> String {
    let mut svg = String::new();
    let mut x = 20.0;
    for (name, colour, dashes) in &ENTRIES[..if with_others { 4 } else { 2 }] {
        let style = format!("stroke=\"{colour}\" stroke-width=\"2\" stroke-dasharray=\"{dashes}\"");
        svg += &line((x, 52.0), (x + 38.0, 52.0), &style);
        let _ = writeln!(svg, "<circle cx=\"{}\" cy=\"52\" r=\"3.5\" fill=\"{colour}\"/>", x + 19.0);
        svg += &text(x + 46.0, 56.0, "start", "", name);
        x += 64.0 + 7.6 * name.len() as f64;
    }
    for (y, (_, mark, name)) in [52.0, 72.0].into_iter().zip(MARKS) {
        svg += &mark(x + 8.0, y, "#525252");
        svg += &text(x + 22.0, y + 4.0, "start", "", name);
    }
    svg
}

/// The panel of a call; that of check has the others beside it.
fn times(panel: &Panel, call: &str, rows: &[Row]) -> String {
    let ticks: Vec<f64> =
        (-3..7).map(|power| 10_f64.powi(power)).filter(|tick| (panel.low..panel.high).contains(tick)).collect();
    let mut svg = panel.frame(call, "microseconds", &ticks);
    svg += &guides(panel);
    let pairs = pairs(rows, call);
    if call == "check" {
        svg += &panel.curve(&others(rows, "csv-core"), CSV_CORE, ENTRIES[2].2);
        svg += &panel.curve(&others(rows, "encoding_rs"), ENCODING_RS, ENTRIES[3].2);
    }
    svg += &panel.curve(&points(&pairs, |pair| pair.ordinary.times.median), ORDINARY, ENTRIES[1].2);
    svg += &panel.curve(&points(&pairs, |pair| pair.library.times.median), LIBRARY, ENTRIES[0].2);
    for (ending, mark, _) in MARKS {
        for row in rows.iter().filter(|row| row.call == format!("{call}{ending}")) {
            let colour = if row.code == "library" { LIBRARY } else { ORDINARY };
            svg += &panel.mark(mark, row.bytes as f64, row.times.median, colour);
        }
    }
    svg
}

/// Lines along which time is in proportion to the bytes.
fn guides(panel: &Panel) -> String {
    let mut svg = String::new();
    // Each name stands on the side of its line that the measured times leave free.
    for (nanoseconds, named, side) in [(1.0, 2_500.0, 14.0), (10.0, 820.0, -7.0)] {
        let time = |bytes: f64| nanoseconds * bytes / 1_000.0;
        let from = BYTES.0.max(1_000.0 * panel.low / nanoseconds);
        let to = BYTES.1.min(1_000.0 * panel.high / nanoseconds);
        let ends = [from, to].map(|bytes| (panel.x(bytes), panel.y(time(bytes))));
        svg += &line(ends[0], ends[1], "stroke=\"#a3a3a3\" stroke-dasharray=\"1 3\"");
        let (x, y) = (panel.x(named), panel.y(time(named)) + side);
        let turn = (ends[1].1 - ends[0].1).atan2(ends[1].0 - ends[0].0).to_degrees();
        let style = format!("font-size=\"10\" fill=\"#737373\" transform=\"rotate({turn:.1} {x:.1} {y:.1})\"");
        svg += &text(x, y, "start", &style, &format!("{nanoseconds} ns a byte"));
    }
    svg
}

fn ratios(place: usize, rows: &[Row]) -> String {
    let all = CALLS.into_iter().chain(OF_ONE_LENGTH);
    let greatest = all.flat_map(|call| pairs(rows, call)).map(|pair| pair.ratio()).fold(1.0, f64::max);
    let panel = Panel::new(place, 0.0, greatest.ceil().max(2.0), false);
    let half_steps = (2.0 * panel.high) as u32;
    let ticks: Vec<f64> = (0..=half_steps).map(|step| f64::from(step) / 2.0).collect();
    let ticks: Vec<f64> = if half_steps > 8 { (0..=half_steps / 2).map(f64::from).collect() } else { ticks };
    let mut svg = panel.frame("ratio library / ordinary", "ratio of medians", &ticks);
    svg +=
        &line((panel.left, panel.y(1.0)), (panel.left + PANEL.0, panel.y(1.0)), "stroke=\"#171717\" stroke-width=\"1.5\"");
    let mut names: Vec<(f64, &str, &str)> = Vec::new();
    for (call, colour) in CALLS.into_iter().zip(RATIO_COLOURS) {
        let curve = points(&pairs(rows, call), Pair::ratio);
        svg += &panel.curve(&curve, colour, "");
        for (ending, mark, _) in MARKS {
            for pair in pairs(rows, &format!("{call}{ending}")) {
                svg += &panel.mark(mark, pair.bytes() as f64, pair.ratio(), colour);
            }
        }
        if let Some(&(_, ratio)) = curve.last() {
            names.push((panel.y(ratio), call, colour));
        }
    }
    // Each name stands right of its line's end, below the name above it.
    names.sort_by(|a, b| a.0.total_cmp(&b.0));
    let mut free = panel.top;
    for (y, name, colour) in names {
        let y = y.max(free);
        svg += &text(panel.left + PANEL.0 + 6.0, y + 4.0, "start", &format!("font-size=\"11\" fill=\"{colour}\""), name);
        free = y + 13.0;
    }
    svg
}

fn points(pairs: &[Pair], value: impl Fn(&Pair) -> f64) -> Vec<(f64, f64)> {
    pairs.iter().map(|pair| (pair.bytes() as f64, value(pair))).collect()
}

fn others(rows: &[Row], code: &str) -> Vec<(f64, f64)> {
    of(rows, "parts", code).iter().map(|row| (row.bytes as f64, row.times.median)).collect()
}

fn line(from: (f64, f64), to: (f64, f64), style: &str) -> String {
    format!("<line x1=\"{:.1}\" y1=\"{:.1}\" x2=\"{:.1}\" y2=\"{:.1}\" {style}/>\n", from.0, from.1, to.0, to.1)
}

fn diamond(x: f64, y: f64, colour: &str) -> String {
    let corners = format!("{:.1},{y:.1} {x:.1},{:.1} {:.1},{y:.1} {x:.1},{:.1}", x - 6.0, y - 6.0, x + 6.0, y + 6.0);
    format!("<polygon points=\"{corners}\" fill=\"white\" stroke=\"{colour}\" stroke-width=\"2\"/>\n")
}

fn square(x: f64, y: f64, colour: &str) -> String {
    let (left, top) = (x - 5.0, y - 5.0);
    format!(
        "<rect x=\"{left:.1}\" y=\"{top:.1}\" width=\"10\" height=\"10\" fill=\"white\" stroke=\"{colour}\" stroke-width=\"2\"/>\n"
    )
}

fn text(x: f64, y: f64, anchor: &str, style: &str, content: &str) -> String {
    let content = content.replace('&', "&amp;").replace('<', "&lt;");
    format!("<text x=\"{x:.1}\" y=\"{y:.1}\" text-anchor=\"{anchor}\" {style}>{content}</text>\n")
}

/// A number with a comma before each three digits of its whole part.
fn grouped(number: f64) -> String {
    let shown = number.to_string();
    match shown.len() {
        4.. if number.fract() == 0.0 => format!("{},{}", &shown[..shown.len() - 3], &shown[shown.len() - 3..]),
        _ => shown,
    }
}
