//! The tables of docs/BENCHMARKS.md, from measured rows.

use notebook_hosts::timing::{Row, Times};
use std::fmt::Write;

pub const CALLS: [&str; 5] = ["check", "index", "canonical", "cut", "join"];

/// Measured at one length: the calls on files for 999 pieces, which lie out of order for `join-999`, cut with a run of 100,000
/// used IDs, and check with a kana name of the most characters. The bytes of the run and of the file are counted together.
pub const OF_ONE_LENGTH: [&str; 6] =
    ["cut-999", "join-999", "join-999-in-order", "join-999-reversed", "cut-used", "check-kana"];

/// The greatest ratio that is asked of a call at its least length, as docs/BENCHMARKS.md says.
const LEAST_LENGTH_BOUNDS: [(&str, f64); 1] = [("join", 1.3)];

/// The same at its greatest length. With 999 pieces joining looks 499,500 times for them, however they lie; the ordinary one
/// goes by place.
const BOUNDS: [(&str, f64); 11] = [
    ("check", 2.0),
    ("index", 1.1),
    ("canonical", 1.2),
    ("cut", 2.0),
    ("join", 2.0),
    ("cut-999", 2.0),
    ("join-999", 3.5),
    ("join-999-in-order", 3.5),
    ("join-999-reversed", 3.5),
    ("cut-used", 1.2),
    ("check-kana", 2.0),
];

const BEGIN: &str = "<!-- begin: hosts/rust/benchmark writes from here -->\n";
const END: &str = "<!-- end: hosts/rust/benchmark writes to here -->\n";

/// Rows of one call on one input.
pub struct Pair {
    pub ordinary: Row,
    pub library: Row,
}

impl Pair {
    pub fn bytes(&self) -> usize {
        self.library.bytes
    }

    pub fn ratio(&self) -> f64 {
        self.library.times.median / self.ordinary.times.median
    }
}

/// The pairs of a call by length.
pub fn pairs(rows: &[Row], call: &str) -> Vec<Pair> {
    let pairs = of(rows, call, "ordinary").into_iter().zip(of(rows, call, "library"));
    pairs
        .filter(|(ordinary, library)| ordinary.bytes == library.bytes)
        .map(|(ordinary, library)| Pair { ordinary, library })
        .collect()
}

/// The rows of one code in a call; `parts` is the call of the others.
pub fn of(rows: &[Row], call: &str, code: &str) -> Vec<Row> {
    rows.iter().filter(|row| row.call == call && row.code == code).cloned().collect()
}

/// The document with its tables written anew, or what it lacks.
pub fn renewed(document: &str, machine: &str, plot: &str, rows: &[Row]) -> Result<String, String> {
    let lacking = || format!("it lacks the lines\n{BEGIN}{END}");
    let (before, rest) = document.split_once(BEGIN).ok_or_else(lacking)?;
    let (_, after) = rest.split_once(END).ok_or_else(lacking)?;
    let tables = [times(rows), growth(rows), bounds(rows), added(rows), parts(rows)].concat();
    Ok(format!("{before}{BEGIN}\n{machine}.\n\n![Time of each call by bytes, and ratios]({plot})\n{tables}\n{END}{after}"))
}

fn table(title: &str, head: &str, lines: &[String]) -> String {
    let rule = "|---".repeat(head.matches('|').count() - 1);
    format!("\n{title}\n\n{head}\n{rule}|\n{}", lines.concat())
}

fn times(rows: &[Row]) -> String {
    let mut lines = Vec::new();
    for call in CALLS.into_iter().chain(OF_ONE_LENGTH) {
        for pair in pairs(rows, call) {
            let Pair { ordinary, library } = &pair;
            let Times { minimum, median } = ordinary.times;
            lines.push(format!(
                "| {call} | {} | {median:.2} | {:.2} | {:.2} | {:.2} | {:.2} | {:.2} |\n",
                pair.bytes(),
                library.times.median,
                pair.ratio(),
                library.times.minimum / minimum,
                ordinary.per_byte(),
                library.per_byte(),
            ));
        }
    }
    let head = "| call | bytes | ordinary, us | library, us | ratio of medians | ratio of minima | ordinary, ns/byte | library, ns/byte |";
    table(
        "Median times of a call in microseconds, ratios library / ordinary, and nanoseconds a byte at the median:",
        head,
        &lines,
    )
}

fn growth(rows: &[Row]) -> String {
    let mut lines = Vec::new();
    for call in CALLS {
        let [ordinary, library] = ["ordinary", "library"].map(|code| power(&of(rows, call, code)));
        lines.push(format!("| {call} | {ordinary:.2} | {library:.2} |\n"));
    }
    let title = "How time grows: the power of the bytes that fits the medians at the four lengths best; 1 is in proportion to the bytes:";
    table(title, "| call | ordinary | library |", &lines)
}

/// The slope of the straight line nearest to the medians, both axes in logarithms (least squares).
fn power(rows: &[Row]) -> f64 {
    let points: Vec<(f64, f64)> = rows.iter().map(|row| ((row.bytes as f64).ln(), row.times.median.ln())).collect();
    let count = points.len() as f64;
    let mean_x = points.iter().map(|point| point.0).sum::<f64>() / count;
    let mean_y = points.iter().map(|point| point.1).sum::<f64>() / count;
    let both: f64 = points.iter().map(|(x, y)| (x - mean_x) * (y - mean_y)).sum();
    both / points.iter().map(|(x, _)| (x - mean_x).powi(2)).sum::<f64>()
}

fn bounds(rows: &[Row]) -> String {
    let mut lines = Vec::new();
    for call in CALLS.into_iter().chain(OF_ONE_LENGTH) {
        let of_call = |bounds: &[(&str, f64)]| bounds.iter().find(|(name, _)| *name == call).map(|(_, bound)| *bound);
        let pairs = pairs(rows, call);
        if let (Some(bound), [least, _, ..]) = (of_call(&LEAST_LENGTH_BOUNDS), &pairs[..]) {
            lines.push(bound_line(least, Some(bound)));
        }
        lines.extend(pairs.last().map(|greatest| bound_line(greatest, of_call(&BOUNDS))));
    }
    table(
        "Where that stands at the greatest length, and for join at the least:",
        "| call | bytes | ratio of medians | bound |",
        &lines,
    )
}

fn bound_line(pair: &Pair, bound: Option<f64>) -> String {
    let ratio = pair.ratio();
    let mut line = format!("| {} | {} | {ratio:.2} | ", pair.library.call, pair.bytes());
    let _ = match bound {
        None => writeln!(line, "none |"),
        Some(bound) if ratio <= bound => writeln!(line, "{bound:.1}: met |"),
        Some(bound) => writeln!(line, "{bound:.1}: not met |"),
    };
    line
}

/// The time of index less that of check on the same file: every index has a check in it.
fn added(rows: &[Row]) -> String {
    let mut lines = Vec::new();
    for index in pairs(rows, "index") {
        let Some(check) = pairs(rows, "check").into_iter().find(|check| check.bytes() == index.bytes()) else { continue };
        let less = |index: &Row, check: &Row| index.times.median - check.times.median;
        let (ordinary, library) = (less(&index.ordinary, &check.ordinary), less(&index.library, &check.library));
        lines.push(format!("| {} | {ordinary:.2} | {library:.2} |\n", index.bytes()));
    }
    if lines.is_empty() {
        return String::new();
    }
    let title = "What index adds to check: the median of index less that of check on the same file, both of this run:";
    table(title, "| bytes | ordinary, us | library, us |", &lines)
}

/// The others' times, each beside the check that was measured in the same rounds.
fn parts(rows: &[Row]) -> String {
    let [splits, decodes, checks] = ["csv-core", "encoding_rs", "check"].map(|code| of(rows, "parts", code));
    let mut lines = Vec::new();
    for ((split, decode), check) in splits.iter().zip(&decodes).zip(&checks) {
        let [split_us, decode_us, check_us] = [split, decode, check].map(|row| row.times.median);
        let both = split_us + decode_us;
        let (bytes, ratio) = (check.bytes, check_us / both);
        lines.push(format!("| {bytes} | {split_us:.2} | {decode_us:.2} | {both:.2} | {check_us:.2} | {ratio:.2} |\n"));
    }
    if lines.is_empty() {
        return String::new();
    }
    let head = "| bytes | csv-core splits, us | encoding_rs decodes, us | both | the library's check, us | check / both |";
    table(
        "Parts of the work by others, on the files of check; all three measured in the same rounds, medians:",
        head,
        &lines,
    )
}

#[cfg(test)]
mod tests {
    use super::*;

    fn row(call: &str, bytes: usize, code: &str, median: f64) -> Row {
        Row::new(call, bytes, code, Times { minimum: median / 2.0, median })
    }

    #[test]
    fn power_of_a_proportional_and_of_a_square_time() {
        for power_asked in [1.0, 2.0] {
            let rows = [1_000, 4_000, 60_000].map(|bytes| row("check", bytes, "library", (bytes as f64).powf(power_asked)));
            assert!((power(&rows) - power_asked).abs() < 1e-9);
        }
    }

    #[test]
    fn the_text_around_the_tables_stays() {
        let rows = [
            row("check", 1_000, "ordinary", 1.0),
            row("check", 1_000, "library", 1.5),
            row("cut-used", 1_400_799, "ordinary", 100.0),
            row("cut-used", 1_400_799, "library", 125.0),
        ];
        let document = format!("before\n{BEGIN}old\n{END}after\n");
        let once = renewed(&document, "today, here", "plot.svg", &rows).expect("it has the marks");
        assert!(once.starts_with("before\n") && once.ends_with("after\n") && !once.contains("old"));
        assert!(once.contains("| check | 1000 | 1.00 | 1.50 | 1.50 | 1.50 | 1.00 | 1.50 |\n"));
        assert!(once.contains("| check | 1000 | 1.50 | 2.0: met |\n"));
        assert!(once.contains("| cut-used | 1400799 | 100.00 | 125.00 | 1.25 |"));
        assert!(once.contains("| cut-used | 1400799 | 1.25 | 1.2: not met |\n"));
        assert!(!once.contains("What index adds"));
        assert_eq!(renewed(&once, "today, here", "plot.svg", &rows).as_ref(), Ok(&once));
        assert!(renewed("no marks\n", "", "", &rows).is_err());
    }

    #[test]
    fn join_has_a_bound_at_its_least_length_too() {
        let at =
            |bytes: usize, ratio: f64| [row("join", bytes, "ordinary", 2.0), row("join", bytes, "library", 2.0 * ratio)];
        let rows = [at(900, 1.35), at(4_000, 2.5), at(60_000, 1.75)].concat();
        assert!(bounds(&rows).ends_with("|\n| join | 900 | 1.35 | 1.3: not met |\n| join | 60000 | 1.75 | 2.0: met |\n"));
        // One length alone may be any: its bound is the one for the greatest.
        assert!(bounds(&rows[..2]).ends_with("|---|\n| join | 900 | 1.35 | 2.0: met |\n"));
    }

    #[test]
    fn what_index_adds_to_check() {
        let at = |bytes: usize, times: [f64; 4]| {
            let [check, index, library_check, library_index] = times;
            [
                row("check", bytes, "ordinary", check),
                row("check", bytes, "library", library_check),
                row("index", bytes, "ordinary", index),
                row("index", bytes, "library", library_index),
            ]
        };
        let rows = [at(1_000, [1.0, 1.25, 2.0, 3.5]), at(4_000, [4.0, 4.5, 8.0, 12.0])].concat();
        assert!(added(&rows).ends_with(
            "| bytes | ordinary, us | library, us |\n|---|---|---|\n| 1000 | 0.25 | 1.50 |\n| 4000 | 0.50 | 4.00 |\n"
        ));
        assert!(bounds(&rows).contains("| index | 4000 | 2.67 | 1.1: not met |\n"));
        // An index without a check on the same file tells nothing.
        assert_eq!(added(&rows[2..4]), "");
    }
}
