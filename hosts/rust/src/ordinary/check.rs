//! Check: the first refusal of a file, or its counts.

use super::characters::{line_ends_well, scan, MOST_PARTS};
use super::order::Order;
use super::records::read;
use super::{without_line, Counts, Direction, Refusal, Watcher};
use super::{LARGE, LINE_END, MOST_BYTES, TO_PATIENT, TO_PROVIDER, VERSION};

/// The first refusal by line, and within the line by number; or the counts.
pub fn check(file: &[u8]) -> Result<Counts, Refusal> {
    pass(file, &mut ())
}

/// Checks a file while a watcher looks on. What the watcher has seen is of use only if the file is accepted.
#[inline]
pub(super) fn pass<W: Watcher>(file: &[u8], watcher: &mut W) -> Result<Counts, Refusal> {
    if file.len() > MOST_BYTES {
        return Err(without_line(LARGE));
    }
    let (direction, mut rest) = first_line(file).map_err(|number| Refusal { number, line: 1 })?;
    let mut order = Order::new(direction);
    let mut ends = [0; MOST_PARTS];
    let mut line = 2;
    while !matches!(rest, [] | [0x1A]) {
        let from = file.len() - rest.len();
        rest = record(rest, from, &mut ends, &mut order, watcher).map_err(|number| Refusal { number, line })?;
        line += 1;
    }
    order.close().map_err(|number| Refusal { number, line })?;
    Ok(Counts { records: line - 2, groups: order.groups, drugs: order.drugs })
}

/// Judges the record at the start of `rest` and hands back what follows its line end.
#[inline(always)]
fn record<'a, W: Watcher>(
    rest: &'a [u8],
    from: usize,
    ends: &mut [usize; MOST_PARTS],
    order: &mut Order,
    watcher: &mut W,
) -> Result<&'a [u8], u8> {
    let (parts, after) = scan(rest, ends)?;
    let record = read(rest, parts, ends, order.direction, from, watcher)?;
    order.step(record)?;
    watcher.record(record.number, from);
    Ok(after)
}

/// Line 1 can be refused by 2 or 3, never by 4.
fn first_line(file: &[u8]) -> Result<(Direction, &[u8]), u8> {
    if let Some(rest) = file.strip_prefix(TO_PATIENT) {
        Ok((Direction::ToPatient, rest))
    } else if let Some(rest) = file.strip_prefix(TO_PROVIDER) {
        Ok((Direction::ToProvider, rest))
    } else {
        Err(if line_ends_well(file) { VERSION } else { LINE_END })
    }
}
