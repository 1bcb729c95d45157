//! Days of inputs, in all their spellings. The eras are the rows of the ordinary implementation, so that a further era is in
//! the inputs by its row there.

use crate::ordinary::days::{self, era, Era, ERAS};
use crate::random::Random;

/// A day as YYYYMMDD in decimal; one outside the range of days too.
#[derive(Clone, Copy, Debug, PartialEq, Eq, PartialOrd, Ord)]
pub struct Day(u32);

/// The last day of the range.
pub const LAST: Day = Day(days::LAST);

impl Day {
    pub const fn new(year: u32, month: u32, of_month: u32) -> Day {
        Day(year * 1_00_00 + month * 1_00 + of_month)
    }

    /// The day that an item spells.
    pub fn read(item: &[u8]) -> Option<Day> {
        days::read(item).map(Day)
    }

    pub fn year(self) -> u32 {
        self.0 / 1_00_00
    }

    pub fn before(self) -> Day {
        let (year, month, of_month) = self.parts();
        match (month, of_month) {
            (1, 1) => Day::new(year - 1, 12, 31),
            (_, 1) => Day::new(year, month - 1, month_length(year, month - 1)),
            _ => Day(self.0 - 1),
        }
    }

    pub fn after(self) -> Day {
        let (year, month, of_month) = self.parts();
        match month {
            _ if of_month < month_length(year, month) => Day(self.0 + 1),
            12 => Day::new(year + 1, 1, 1),
            _ => Day::new(year, month + 1, 1),
        }
    }

    fn parts(self) -> (u32, u32, u32) {
        (self.0 / 1_00_00, self.0 / 1_00 % 1_00, self.0 % 1_00)
    }

    /// YYYYMMDD.
    pub fn in_digits(self) -> Vec<u8> {
        self.0.to_string().into_bytes()
    }

    /// Under the era that it is written under.
    pub fn in_its_era(self) -> Vec<u8> {
        era(self.0).form(self.0).to_vec()
    }

    /// Under the newest of the older eras whose letter is still read on this day, if there is one.
    pub fn in_an_older_era(self) -> Option<Vec<u8>> {
        let older = ERAS.iter().filter(|older| older.first < era(self.0).first);
        older.map(|older| older.form(self.0).to_vec()).find(|form| Day::read(form) == Some(self))
    }

    /// In one of its spellings: every second time in digits, once in eight under an older era if it can be.
    pub fn spelled(self, random: &mut Random) -> Vec<u8> {
        match random.below(8) {
            0..=3 => self.in_digits(),
            4 => self.in_an_older_era().unwrap_or_else(|| self.in_its_era()),
            _ => self.in_its_era(),
        }
    }

    /// In the spelling that follows its own: digits, its era, an older era, digits.
    pub fn respelled(self, item: &[u8]) -> Vec<u8> {
        let (digits, form) = (self.in_digits(), self.in_its_era());
        match item {
            _ if item == digits => form,
            _ if item == form => self.in_an_older_era().unwrap_or(digits),
            _ => digits,
        }
    }
}

fn month_length(year: u32, month: u32) -> u32 {
    match month {
        4 | 6 | 9 | 11 => 30,
        2 if year.is_multiple_of(4) && (!year.is_multiple_of(100) || year.is_multiple_of(400)) => 29,
        2 => 28,
        _ => 31,
    }
}

/// The first days of the eras, the newest first; that of the oldest is the first of the range.
pub fn beginnings() -> impl Iterator<Item = Day> {
    ERAS.iter().map(|era| Day(era.first))
}

/// A day up to five days after one where an era begins, mostly the newest; or the last of all.
pub fn near_a_beginning(random: &mut Random) -> Day {
    let begun = match random.below(16) {
        0 => return LAST,
        1..=8 => 0,
        _ => random.below(ERAS.len()),
    };
    (0..random.below(6)).fold(Day(ERAS[begun].first), |day, _| day.after())
}

/// The letters of the eras.
pub fn letters() -> impl Iterator<Item = u8> {
    ERAS.iter().map(|era| era.letter)
}

/// Items on both sides of every beginning and of the range's end, under both eras and in digits, and others that are nearly days.
pub fn edges() -> Vec<Vec<u8>> {
    let mut items = Vec::new();
    for (place, begun) in ERAS.iter().enumerate() {
        let first = Day(begun.first);
        let eras: Vec<&Era> = [begun].into_iter().chain(ERAS.get(place + 1)).collect();
        for day in [first.before(), first] {
            items.push(day.in_digits());
            items.extend(eras.iter().map(|era| era.form(day.0).to_vec()));
        }
        // A year too early, and a small letter.
        items.push(begun.form(begun.first - 1_00_00).to_vec());
        items.push(first.in_its_era().to_ascii_lowercase());
    }
    for day in [LAST, LAST.after()] {
        items.extend([day.in_digits(), day.in_its_era()]);
    }
    items.extend(LAST.in_an_older_era());
    // Leap days, and days that are none.
    for day in [2016_02_29, 2017_02_29, 2024_02_29, 2023_02_29, 2024_04_31] {
        items.push(era(day).form(day).to_vec());
    }
    items
}

#[cfg(test)]
mod tests {
    use super::*;

    /// All days of the range, each after the one before; 78,527 of them.
    #[test]
    fn days_go_forth_and_back_and_are_read_in_every_spelling() {
        let (mut day, mut days, mut late) = (Day(days::FIRST), 0, 0);
        while day <= LAST {
            assert_eq!(day.after().before(), day);
            for spelling in [Some(day.in_digits()), Some(day.in_its_era()), day.in_an_older_era()].into_iter().flatten() {
                assert_eq!(Day::read(&spelling), Some(day), "{day:?}");
                assert_eq!(Day::read(&day.respelled(&spelling)), Some(day), "{day:?}");
                assert_ne!(day.respelled(&spelling), spelling, "{day:?}");
            }
            late += u32::from(day.in_an_older_era().is_some());
            days += 1;
            day = day.after();
        }
        // 1 January 1873 is day 0 and the last is 78,526; 1 May 2019 to 31 December 2087 are 25,082 days.
        assert_eq!((days, late), (78_527, 25_082));
    }

    #[test]
    fn the_edges_of_the_newest_era() {
        let items = edges();
        let day = Day::new(2019, 5, 1);
        for item in [
            "20190430", "20190501", "H310430", "H310501", "R010430", "R010501", "R000501", "r010501", "20871231",
            "R691231", "H991231", "20880101", "R700101",
        ] {
            assert!(items.iter().any(|edge| edge == item.as_bytes()), "{item}");
        }
        assert_eq!(day.in_an_older_era().as_deref(), Some(&b"H310501"[..]));
        assert_eq!(day.before().in_an_older_era(), None);
    }
}
