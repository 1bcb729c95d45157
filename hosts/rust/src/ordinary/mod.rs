//! The five calls on medication notebook files (JAHIS 15-106 version 2.1) by document 01, in ordinary Rust: no unsafe code,
//! no allocation, results in buffers of the caller. A refusal leaves the caller's buffer as lent.
//!
//! Check, index and canonical are one pass over the bytes. A line is scanned once: its characters, its end and the places of
//! its commas. Its items are then read by the record's number, and the record takes its step in the order of records. Each
//! stage answers a refusal number, lowest first. Cutting packs the canonical file; joining puts a file together and checks it.

mod canonical;
#[cfg(test)]
mod cases;
mod characters;
mod check;
mod cut;
pub(crate) mod days;
mod index;
mod items;
mod join;
mod order;
mod records;
#[cfg(test)]
mod reference;
mod stack;
#[cfg(test)]
mod tests;

pub use canonical::canonical;
pub use check::check;
pub use cut::cut;
pub use index::{index, ENTRY_NUMBERS, MOST_NUMBERS};
pub use join::join;

/// What check counts in an accepted file: records after line 1, groups (5) and drugs (201).
#[derive(Clone, Copy, Debug, PartialEq, Eq)]
pub struct Counts {
    pub records: u64,
    pub groups: u64,
    pub drugs: u64,
}

/// What cutting has written: the count of pieces and their total length.
#[derive(Clone, Copy, Debug, PartialEq, Eq)]
pub struct Pieces {
    pub count: u64,
    pub bytes: u64,
}

/// A refusal number of document 01 and its line.
#[derive(Clone, Copy, Debug, PartialEq, Eq)]
pub struct Refusal {
    pub number: u8,
    pub line: u64,
}

const LARGE: u8 = 1;
const LINE_END: u8 = 2;
const VERSION: u8 = 3;
const CHARACTER: u8 = 4;
const RECORD: u8 = 5;
const PIECE: u8 = 6;
const ITEMS: u8 = 7;
const EMPTY: u8 = 8;
const LONG: u8 = 9;
const EDGE: u8 = 10;
const FORM: u8 = 11;
const PAIR: u8 = 12;
const PLACE: u8 = 13;
const MISSING: u8 = 14;
const RP: u8 = 15;
const DATE_ORDER: u8 = 16;
const ID: u8 = 17;
const NO_CUTTING: u8 = 18;
const SET: u8 = 19;
const SHORT: u8 = 20;
const USED: u8 = 24;

/// "A file has at most 65,536 bytes".
const MOST_BYTES: usize = 65_536;

/// Line 1 with its line end says the direction.
const TO_PATIENT: &[u8] = b"JAHISTC04,1\r\n";
const TO_PROVIDER: &[u8] = b"JAHISTC04,2\r\n";

#[derive(Clone, Copy, PartialEq, Eq)]
enum Direction {
    ToPatient,
    ToProvider,
}

/// What a call takes from the pass over a file beside the counts.
trait Watcher {
    /// Whether `respell` is wanted; spellings are looked at only then.
    const RESPELLS: bool = false;

    /// A record that has been read and has taken its step, and where its line begins in the file.
    fn record(&mut self, _number: u16, _line: usize) {}

    /// An item of the file, and how the canonical file spells it. Items come in the order of the file.
    fn respell(&mut self, _from: usize, _to: usize, _spelling: &[u8]) {}
}

/// Check asks for the counts alone.
impl Watcher for () {}

#[inline]
fn rule(holds: bool, number: u8) -> Result<(), u8> {
    if holds {
        Ok(())
    } else {
        Err(number)
    }
}

/// "Numbers 17–20 have line 0", as have 1 and 24.
fn without_line(number: u8) -> Refusal {
    Refusal { number, line: 0 }
}
