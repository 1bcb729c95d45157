//! One line of bytes: its characters, its end and the places of its commas.

use super::{CHARACTER, LINE_END};

/// Whether the first 0Dh, 0Ah or 1Ah is the beginning of 0Dh 0Ah. Asked only of a line with a fault: 2 comes before 3 and 4.
#[cold]
pub(super) fn line_ends_well(rest: &[u8]) -> bool {
    match rest.iter().position(|byte| matches!(byte, 0x0D | 0x0A | 0x1A)) {
        Some(at) => rest[at..].starts_with(b"\r\n"),
        None => false,
    }
}

/// The script of a character, as far as kana names tell scripts apart.
#[derive(Clone, Copy, Debug, PartialEq, Eq)]
pub(super) enum Script {
    /// A character of one byte, whichever.
    OneByte,
    /// Row 4.
    Hiragana,
    /// Row 5.
    Katakana,
    /// 8140h and 815Bh, the wide space and the mark of a long vowel, which both scripts have.
    Either,
    /// Any other character of two bytes.
    Other,
}

/// The characters of one byte: "20h–7Eh or A1h–DFh".
static SINGLE: [bool; 256] = singles();

/// The characters of two bytes, by lead and trail.
pub(super) static PAIRS: [[Option<Script>; 256]; 256] = pairs();

const fn singles() -> [bool; 256] {
    let mut table = [false; 256];
    let mut byte = 0;
    while byte < 256 {
        table[byte] = matches!(byte, 0x20..=0x7E | 0xA1..=0xDF);
        byte += 1;
    }
    table
}

const fn pairs() -> [[Option<Script>; 256]; 256] {
    let mut table = [[None; 256]; 256];
    let mut lead = 0;
    while lead < 256 {
        let mut trail = 0;
        while trail < 256 {
            table[lead][trail] = script(lead, trail);
            trail += 1;
        }
        lead += 1;
    }
    table
}

/// Row and cell of a lead and a trail, and the script of the character that JIS X 0208-1983 has there, if any.
const fn script(lead: usize, trail: usize) -> Option<Script> {
    let row = match lead {
        0x81..=0x9F => 2 * (lead - 0x81) + 1,
        0xE0..=0xEF => 2 * (lead - 0xC1) + 1,
        _ => return None,
    };
    let (row, cell) = match trail {
        0x40..=0x7E => (row, trail - 0x3F),
        0x80..=0x9E => (row, trail - 0x40),
        0x9F..=0xFC => (row + 1, trail - 0x9E),
        _ => return None,
    };
    let allowed = match row {
        1 | 16..=46 | 48..=83 => true,
        2 => matches!(cell, 1..=14 | 26..=33 | 42..=48 | 60..=74 | 82..=89 | 94),
        3 => matches!(cell, 16..=25 | 33..=58 | 65..=90),
        4 => matches!(cell, 1..=83),
        5 => matches!(cell, 1..=86),
        6 => matches!(cell, 1..=24 | 33..=56),
        7 => matches!(cell, 1..=33 | 49..=81),
        8 => matches!(cell, 1..=32),
        47 => matches!(cell, 1..=51),
        84 => matches!(cell, 1..=4),
        _ => false,
    };
    match (lead, trail) {
        _ if !allowed => None,
        (0x81, 0x40 | 0x5B) => Some(Script::Either),
        _ if row == 4 => Some(Script::Hiragana),
        _ if row == 5 => Some(Script::Katakana),
        _ => Some(Script::Other),
    }
}

/// The script of the two-byte character at `at`, if there is one.
#[inline]
fn pair_at(bytes: &[u8], at: usize) -> Option<Script> {
    let trail = *bytes.get(at + 1)?;
    PAIRS[bytes[at] as usize][trail as usize]
}

/// The number and the items of the longest record, 1.
pub(super) const MOST_PARTS: usize = 11;

/// Scans one line: counts its parts (number and items), puts their ends into `ends` as far as these reach, and hands
/// back the bytes after the line end. A comma is never a trail, nor is 0Dh.
#[inline(always)]
pub(super) fn scan<'a>(rest: &'a [u8], ends: &mut [usize; MOST_PARTS]) -> Result<(usize, &'a [u8]), u8> {
    let mut at = 0;
    let mut parts = 0;
    while at < rest.len() {
        let byte = rest[at];
        // The two tables are asked apart: one reading of either width, with its script, takes the check a tenth more time.
        if SINGLE[byte as usize] {
            if byte == b',' {
                if parts < MOST_PARTS {
                    ends[parts] = at;
                }
                parts += 1;
            }
            at += 1;
        } else if pair_at(rest, at).is_some() {
            // Two-byte characters come in runs.
            at += 2;
            while pair_at(rest, at).is_some() {
                at += 2;
            }
        } else if rest[at..].starts_with(b"\r\n") {
            if parts < MOST_PARTS {
                ends[parts] = at;
            }
            return Ok((parts + 1, &rest[at + 2..]));
        } else {
            return Err(if line_ends_well(&rest[at..]) { CHARACTER } else { LINE_END });
        }
    }
    Err(LINE_END)
}

/// The scripts of the characters of an item without fault 4.
pub(super) fn scripts(item: &[u8]) -> impl Iterator<Item = Script> + '_ {
    let mut at = 0;
    std::iter::from_fn(move || {
        if SINGLE[usize::from(*item.get(at)?)] {
            at += 1;
            return Some(Script::OneByte);
        }
        at += 2;
        pair_at(item, at - 2)
    })
}
