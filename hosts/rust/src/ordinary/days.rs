//! Days: YYYYMMDD and the era forms read, the era form written.

use super::items::digits;

/// A day as YYYYMMDD in decimal, so that a newer day is a greater number.
pub(crate) type Day = u32;

/// "The day type has first day 1 January 1873 and last day 31 December 2087".
pub(crate) const FIRST: Day = 1873_01_01;
pub(crate) const LAST: Day = 2087_12_31;

/// An era: its letter, the year before its year 1, its first day, and the last day that is read under its letter.
pub(crate) struct Era {
    pub(crate) letter: u8,
    year_before: u32,
    pub(crate) first: Day,
    last: Day,
}

/// An era is a row, the newest first: a day is written under the first of them that has begun. "A later day under H, from
/// older phones, is still read and is written under R."
pub(crate) const ERAS: &[Era] = &[
    Era { letter: b'R', year_before: 2018, first: 2019_05_01, last: 2087_12_31 },
    Era { letter: b'H', year_before: 1988, first: 1989_01_08, last: 2087_12_31 },
    Era { letter: b'S', year_before: 1925, first: 1926_12_25, last: 1989_01_07 },
    Era { letter: b'T', year_before: 1911, first: 1912_07_30, last: 1926_12_24 },
    Era { letter: b'M', year_before: 1867, first: 1873_01_01, last: 1912_07_29 },
];

/// YYYYMMDD, or era letter and YYMMDD: "a real Gregorian day", within the range and its era.
pub(crate) fn read(item: &[u8]) -> Option<Day> {
    let (year_before, first, last, digits_of_day) = match ERAS.iter().find(|era| item.first() == Some(&era.letter)) {
        Some(era) => (era.year_before, era.first, era.last, &item[1..]),
        None => (0, FIRST, LAST, item),
    };
    let length = if year_before == 0 { 8 } else { 6 };
    if digits_of_day.len() != length {
        return None;
    }
    let day = year_before * 1_00_00 + digits(digits_of_day, 8)?;
    let (year, month, of_month) = (day / 1_00_00, day / 1_00 % 1_00, day % 1_00);
    let leap = year % 4 == 0 && (year % 100 != 0 || year % 400 == 0);
    let month_length = match month {
        1 | 3 | 5 | 7 | 8 | 10 | 12 => 31,
        4 | 6 | 9 | 11 => 30,
        2 => 28 + u32::from(leap),
        _ => 0,
    };
    ((first..=last).contains(&day) && (1..=month_length).contains(&of_month)).then_some(day)
}

/// The era that a day is written under: the newest that has begun. No day is older than the oldest.
#[inline]
pub(crate) fn era(day: Day) -> &'static Era {
    ERAS.iter().find(|era| era.first <= day).unwrap_or(&ERAS[ERAS.len() - 1])
}

impl Era {
    /// A day under this era: its letter and YYMMDD.
    pub(crate) fn form(&self, day: Day) -> [u8; 7] {
        let mut form = [self.letter; 7];
        let mut rest = day - self.year_before * 1_00_00;
        for digit in form[1..].iter_mut().rev() {
            *digit = b'0' + (rest % 10) as u8;
            rest /= 10;
        }
        form
    }
}
