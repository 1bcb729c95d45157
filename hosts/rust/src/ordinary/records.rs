//! A record: its number, its items, its pairs.

use super::characters::MOST_PARTS;
use super::days::Day;
use super::items::{digits, Items};
use super::{rule, Direction, Watcher, FORM, ITEMS, PAIR, PIECE, RECORD};

/// What the order of records and the rules across records ask of a record; 0 or false where the record has no such item.
#[derive(Clone, Copy, Default)]
pub(super) struct Record {
    pub(super) number: u16,
    /// The first item of 201 to 391.
    pub(super) rp: u16,
    /// The day of a 5.
    pub(super) day: Day,
    /// The third item of an 11: its kind, as a byte.
    pub(super) kind: u8,
    /// A 301 without usage name, and whether its form is 9 or 10.
    pub(super) no_usage_name: bool,
    pub(super) material: bool,
}

/// Reads the line of `parts` parts at the start of `rest`, which begins at `line` in the file: 5 or 6, 7, then its items,
/// then its pairs.
#[inline(always)]
pub(super) fn read<W: Watcher>(
    rest: &[u8],
    parts: usize,
    ends: &[usize; MOST_PARTS],
    direction: Direction,
    line: usize,
    watcher: &mut W,
) -> Result<Record, u8> {
    let number = record_number(&rest[..ends[0]]);
    let items = move |count: usize| rule(parts == count + 1, ITEMS).map(move |()| Items::new(rest, ends, line, watcher));
    // `!`, `?` and `+`: "required in direction 1".
    let (must, may) = (true, false);
    let provider = direction == Direction::ToPatient;
    let mut record = Record { number, ..Record::default() };
    match number {
        1 => {
            let mut items = items(10)?;
            items.one_width(40, must)?;
            items.digit(b"12", must)?;
            items.day(must)?;
            items.postal_code(may)?;
            items.text(800, may)?;
            items.code(13, may)?;
            items.text(800, may)?;
            items.text(20, may)?;
            items.decimal(3, 3, may)?;
            items.kana_name(40, may)?;
        }
        2 => {
            let mut items = items(3)?;
            items.digit(b"1239", must)?;
            items.text(120, must)?;
            items.author()?;
        }
        3 => {
            let mut items = items(4)?;
            items.text(120, must)?;
            items.day(may)?;
            items.day(may)?;
            items.author()?;
        }
        4 => {
            let mut items = items(3)?;
            items.text(400, must)?;
            items.day(may)?;
            items.author()?;
        }
        5 => {
            let mut items = items(2)?;
            record.day = items.day(must)?;
            items.author()?;
        }
        11 => {
            let mut items = items(8)?;
            items.text(120, must)?;
            items.prefecture(provider)?;
            record.kind = items.digit(b"134", provider)?;
            items.institution(may)?;
            items.postal_code(may)?;
            items.text(800, may)?;
            items.code(13, may)?;
            items.author()?;
        }
        15 => {
            let mut items = items(3)?;
            items.text(40, must)?;
            items.text(800, may)?;
            items.author()?;
        }
        51 => {
            let mut items = items(5)?;
            items.text(120, must)?;
            items.prefecture(provider)?;
            items.digit(b"13", provider)?;
            items.institution(may)?;
            items.author()?;
        }
        55 => {
            let mut items = items(3)?;
            items.text(40, must)?;
            items.text(80, may)?;
            items.author()?;
        }
        201 => {
            let mut items = items(7)?;
            record.rp = items.number(must)?;
            items.text(120, must)?;
            items.decimal(6, 5, must)?;
            items.text(12, must)?;
            let kind = items.digit(b"12346", provider)?;
            let code = items.code(13, may)?;
            items.author()?;
            coded(kind, code)?;
        }
        281 | 311 => {
            let mut items = items(3)?;
            record.rp = items.number(must)?;
            items.text(100, must)?;
            items.author()?;
        }
        291 | 391 => {
            let mut items = items(3)?;
            record.rp = items.number(must)?;
            items.text(400, must)?;
            items.author()?;
        }
        301 => {
            let mut items = items(8)?;
            record.rp = items.number(must)?;
            record.no_usage_name = items.text(100, may)?.is_empty();
            let quantity = items.number(provider)?;
            let unit = items.text(100, provider)?;
            let form = items.form(provider)?;
            let kind = items.digit(b"12", provider)?;
            let code = items.code(16, may)?;
            items.author()?;
            coded(kind, code)?;
            measured(form, quantity, unit)?;
            record.material = matches!(form, 9 | 10);
        }
        401 | 501 => {
            let mut items = items(2)?;
            items.text(400, must)?;
            items.author()?;
        }
        411 => {
            let mut items = items(3)?;
            items.text(400, must)?;
            if !matches!(items.required()?, b"30" | b"31" | b"99") {
                return Err(FORM);
            }
            items.author()?;
        }
        601 => {
            let mut items = items(2)?;
            items.text(400, must)?;
            items.day(may)?;
        }
        701 => {
            let mut items = items(6)?;
            items.text(40, must)?;
            items.text(120, must)?;
            items.text(800, must)?;
            items.day(may)?;
            items.day(may)?;
            items.author()?;
        }
        911 => return Err(PIECE),
        _ => return Err(RECORD),
    }
    Ok(record)
}

/// The value of one to three digits without a leading zero; 0 for any other spelling.
#[inline(always)]
fn record_number(part: &[u8]) -> u16 {
    match part {
        [b'1'..=b'9', ..] => digits(part, 3).unwrap_or(0) as u16,
        _ => 0,
    }
}

/// "the code (X) is empty exactly when its kind, the item before it, is empty or 1".
#[inline(always)]
fn coded(kind: u8, code: &[u8]) -> Result<(), u8> {
    rule(code.is_empty() == matches!(kind, 0 | b'1'), PAIR)
}

/// The pairs of form, quantity and unit in 301; each may be empty.
#[inline(always)]
fn measured(form: u32, quantity: u16, unit: &[u8]) -> Result<(), u8> {
    const DISPENSING: &[u8] = b"\x92\xB2\x8D\xDC";
    const DAYS: &[u8] = b"\x93\xFA\x95\xAA";
    const TIMES: &[u8] = b"\x89\xF1\x95\xAA";
    let fits = match form {
        2 | 4 | 5 | 9 | 10 => quantity <= 1 && (unit.is_empty() || unit == DISPENSING),
        1 => unit.is_empty() || unit == DAYS,
        3 => unit.is_empty() || unit == TIMES,
        6 | 7 => unit.is_empty() || unit == DAYS || unit == TIMES,
        _ => true,
    };
    rule(fits, PAIR)
}
