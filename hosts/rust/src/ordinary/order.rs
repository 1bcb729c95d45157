//! The order of records.

use super::days::Day;
use super::records::Record;
use super::{rule, Direction, DATE_ORDER, MISSING, PAIR, PLACE, RP};

/// Where the reader stands: the number of the last record (0 before the first) says the place in the pattern, since the
/// numbers of records rise in the order of their places.
pub(super) struct Order {
    pub(super) direction: Direction,
    last: u16,
    pub(super) groups: u64,
    pub(super) drugs: u64,
    /// Of the last group.
    day: Day,
    /// Of the open group: what it has had. `kind` is that of its 11, 0 without.
    kind: u8,
    has_11: bool,
    has_51: bool,
    has_55: bool,
    has_411: bool,
    /// The value of its last RP, 0 before the first; whether that has had a 301.
    rp: u16,
    has_301: bool,
}

impl Order {
    pub(super) fn new(direction: Direction) -> Self {
        Order {
            direction,
            last: 0,
            groups: 0,
            drugs: 0,
            day: Day::MAX,
            kind: 0,
            has_11: false,
            has_51: false,
            has_55: false,
            has_411: false,
            rp: 0,
            has_301: false,
        }
    }

    fn to_patient(&self) -> bool {
        self.direction == Direction::ToPatient
    }

    /// One record: 12 (the usage name), 13, 14, 15, 16.
    #[inline]
    pub(super) fn step(&mut self, record: Record) -> Result<(), u8> {
        let number = record.number;
        rule(!(record.no_usage_name && self.asks_usage_name(record.material)), PAIR)?;
        rule(self.may_stand(number), PLACE)?;
        match number {
            201 => {
                let same = matches!(self.last, 201 | 281 | 291) && record.rp == self.rp;
                if !same {
                    self.close_rp()?;
                    rule(record.rp == self.rp + 1, RP)?;
                    self.rp = record.rp;
                    self.has_301 = false;
                }
                self.drugs += 1;
            }
            281 | 291 | 301 | 311 | 391 => {
                rule(record.rp == self.rp, RP)?;
                self.has_301 |= number == 301;
            }
            5 => {
                self.close_record_1()?;
                self.close_group()?;
                rule(record.day <= self.day, DATE_ORDER)?;
                self.groups += 1;
                self.day = record.day;
                self.kind = 0;
                self.has_11 = false;
                self.has_51 = false;
                self.has_55 = false;
                self.has_411 = false;
                self.rp = 0;
            }
            2..=4 => self.close_record_1()?,
            11 => {
                self.has_11 = true;
                self.kind = record.kind;
            }
            51 => self.has_51 = true,
            55 => {
                self.close_rp()?;
                self.has_55 = true;
            }
            401 | 501 | 601 => self.close_rp()?,
            411 => {
                self.close_rp()?;
                self.has_411 = true;
            }
            701 => {
                self.close_record_1()?;
                self.close_groups()?;
                self.kind = 0;
            }
            _ => {}
        }
        self.last = number;
        Ok(())
    }

    /// The end: "a 55, or in direction 1 a 51, at the end" is 14, as is what the open parts lack.
    pub(super) fn close(&self) -> Result<(), u8> {
        rule(self.last != 55 && !(self.last == 51 && self.to_patient()), MISSING)?;
        self.close_record_1()?;
        self.close_groups()
    }

    /// "The usage name stands in direction 2 always, and in direction 1 when the open group has had an 11 with 4 and the
    /// form isn't 9 or 10."
    fn asks_usage_name(&self, material: bool) -> bool {
        !self.to_patient() || (self.kind == b'4' && !material)
    }

    /// Whether a record can stand after the last one.
    #[inline]
    fn may_stand(&self, number: u16) -> bool {
        let to_patient = self.to_patient();
        match self.last {
            55 if number != 201 => return false,
            51 if to_patient && !matches!(number, 55 | 201) => return false,
            _ => {}
        }
        // "after an 11 with 1 or 3, no 51 or 55".
        let no_prescriber = to_patient && matches!(self.kind, b'1' | b'3');
        match number {
            1 => self.last == 0,
            2 => matches!(self.last, 0..=2),
            3 => matches!(self.last, 0..=3),
            4 => matches!(self.last, 0..=4),
            5 => self.last != 701,
            11 => self.last == 5,
            15 => matches!(self.last, 5..=11),
            51 => matches!(self.last, 5..=15) && !no_prescriber,
            // "all without doctors, or the first is preceded by 55".
            55 => matches!(self.last, 5..=391) && (self.rp == 0 || self.has_55) && !no_prescriber,
            201 => matches!(self.last, 5..=391),
            281 => matches!(self.last, 201..=281),
            291 | 301 => matches!(self.last, 201..=291),
            311 => matches!(self.last, 301..=311),
            391 => matches!(self.last, 201..=391),
            // In direction 1 "a group without RP has a 411 and no 401".
            401 => matches!(self.last, 5..=401) && !(to_patient && self.rp == 0),
            411 => matches!(self.last, 5..=411),
            501 => matches!(self.last, 5..=501),
            601 => matches!(self.last, 5..=601),
            _ => true,
        }
    }

    /// "Direction 2: record 1 stands."
    fn close_record_1(&self) -> Result<(), u8> {
        rule(self.last != 0 || self.to_patient(), MISSING)
    }

    /// Direction 1: "each RP has 301".
    fn close_rp(&self) -> Result<(), u8> {
        let open = matches!(self.last, 201..=391);
        rule(!(open && self.to_patient() && !self.has_301), MISSING)
    }

    /// Direction 1: each group has 11; with an RP and an 11 with 4 it has 51; without RP it has 411.
    fn close_group(&self) -> Result<(), u8> {
        self.close_rp()?;
        let open = matches!(self.last, 5..=601);
        let has_its_records = if self.rp == 0 { self.has_411 } else { self.kind != b'4' || self.has_51 };
        rule(!(open && self.to_patient()) || (self.has_11 && has_its_records), MISSING)
    }

    /// Direction 1: "at least one group".
    fn close_groups(&self) -> Result<(), u8> {
        rule(self.groups > 0 || !self.to_patient(), MISSING)?;
        self.close_group()
    }
}
