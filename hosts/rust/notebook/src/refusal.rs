//! What the gateway says when it won't.

use crate::raw::Reply;
use std::error::Error;
use std::fmt;

/// Why an input is refused. The number of each is its value: `Reason::Form as u8` is 11.
#[derive(Clone, Copy, Debug, PartialEq, Eq, Hash, PartialOrd, Ord)]
#[repr(u8)]
pub enum Reason {
    /// Over the byte limit.
    Large = 1,
    /// The rule of line ends is broken, or there is no line.
    LineEnd,
    /// Line 1 is neither JAHISTC04,1 nor JAHISTC04,2.
    Version,
    /// A byte or pair is no character.
    Character,
    /// The record number is not listed.
    Record,
    /// A record 911 in a whole file.
    Piece,
    /// Wrong number of items.
    Items,
    /// A required item is empty.
    Empty,
    /// An item has too many bytes.
    Long,
    /// An item begins or ends with a space, or is in quotes.
    Edge,
    /// An item is not of its kind. A kana name of more than one script is such an item.
    Form,
    /// Two items, or an item and the group, do not agree.
    Pair,
    /// The record cannot stand here.
    Place,
    /// A required record is missing in what this line or the end closes.
    Missing,
    /// The prescription's value is wrong.
    Rp,
    /// A group is newer than the one before it.
    DateOrder,
    /// The ID is not 14 digits.
    Id,
    /// The file cannot be cut for this capacity.
    NoCutting,
    /// The pieces do not make a file.
    Set,
    /// The output cannot hold the result.
    Short,
    /// The ID has been used, or the length of the run of used IDs is not a multiple of 14. No call gives 21 to 23.
    Used = 24,
    /// The library has given a number that this crate does not know.
    Unknown = 255,
}

impl Reason {
    /// All reasons that the library gives, by number.
    pub const ALL: [Reason; 21] = [
        Reason::Large,
        Reason::LineEnd,
        Reason::Version,
        Reason::Character,
        Reason::Record,
        Reason::Piece,
        Reason::Items,
        Reason::Empty,
        Reason::Long,
        Reason::Edge,
        Reason::Form,
        Reason::Pair,
        Reason::Place,
        Reason::Missing,
        Reason::Rp,
        Reason::DateOrder,
        Reason::Id,
        Reason::NoCutting,
        Reason::Set,
        Reason::Short,
        Reason::Used,
    ];

    /// The number, 1 to 20 or 24; 255 for [`Reason::Unknown`].
    pub fn number(self) -> u8 {
        self as u8
    }

    /// The word for it.
    pub fn word(self) -> &'static str {
        match self {
            Reason::Large => "large",
            Reason::LineEnd => "line end",
            Reason::Version => "version",
            Reason::Character => "character",
            Reason::Record => "record",
            Reason::Piece => "piece",
            Reason::Items => "items",
            Reason::Empty => "empty",
            Reason::Long => "long",
            Reason::Edge => "edge",
            Reason::Form => "form",
            Reason::Pair => "pair",
            Reason::Place => "place",
            Reason::Missing => "missing",
            Reason::Rp => "RP",
            Reason::DateOrder => "date order",
            Reason::Id => "ID",
            Reason::NoCutting => "no cutting",
            Reason::Set => "set",
            Reason::Short => "short",
            Reason::Used => "used",
            Reason::Unknown => "unknown",
        }
    }

    /// Whether it refuses what was asked for, and not the file: the ID (17, 24), the capacity (18), the room for the result
    /// (20), or a number that this crate does not know. The file may be a good one, so its sender is not to blame.
    pub fn is_operators(self) -> bool {
        matches!(self, Reason::Id | Reason::NoCutting | Reason::Short | Reason::Used | Reason::Unknown)
    }
}

/// A refusal: shown as `no 11 3: form`, that is its number, its line and its word.
#[derive(Clone, Copy, Debug, PartialEq, Eq, Hash)]
pub struct Refusal {
    /// Why.
    pub reason: Reason,
    /// The line that it is about, from 1 on; 0 if it is about the whole. One more than the lines if something is missing
    /// at the end.
    pub line: u64,
}

impl Refusal {
    /// The refusal in a reply, if it is one.
    pub(crate) fn of(reply: Reply) -> Option<Refusal> {
        if reply.refusal == 0 {
            return None;
        }
        let known = Reason::ALL.into_iter().find(|reason| u64::from(reason.number()) == reply.refusal);
        Some(Refusal { reason: known.unwrap_or(Reason::Unknown), line: reply.line })
    }
}

impl fmt::Display for Refusal {
    fn fmt(&self, f: &mut fmt::Formatter<'_>) -> fmt::Result {
        write!(f, "no {} {}: {}", self.reason.number(), self.line, self.reason.word())
    }
}

impl Error for Refusal {}

#[cfg(test)]
mod tests {
    use super::*;

    #[test]
    fn reasons_by_number() {
        assert!(Reason::ALL.into_iter().map(Reason::number).eq((1..=20).chain([24])));
        let refusal = Refusal::of(Reply { refusal: 24, ..Reply::default() });
        assert_eq!(refusal.expect("24 is a refusal").to_string(), "no 24 0: used");
        let refusal = Refusal::of(Reply { refusal: 15, line: 9, ..Reply::default() });
        assert_eq!(refusal.expect("15 is a refusal").to_string(), "no 15 9: RP");
        assert_eq!(Refusal::of(Reply::default()), None);
    }

    #[test]
    fn a_number_that_is_not_known_is_no_acceptance() {
        for number in [21, 22, 23, 25, 255, 256, 256 + 24, 1 << 32, (1 << 32) + 11, u64::MAX] {
            let refusal = Refusal::of(Reply { refusal: number, line: 3, ..Reply::default() });
            assert_eq!(refusal, Some(Refusal { reason: Reason::Unknown, line: 3 }), "{number}");
        }
        assert_eq!(Refusal { reason: Reason::Unknown, line: 3 }.to_string(), "no 255 3: unknown");
        assert!(!Reason::ALL.contains(&Reason::Unknown));
    }

    #[test]
    fn refusals_of_what_was_asked_for() {
        let operators: Vec<u8> =
            Reason::ALL.into_iter().filter(|reason| reason.is_operators()).map(Reason::number).collect();
        assert_eq!(operators, [17, 18, 20, 24]);
        assert!(Reason::Unknown.is_operators());
    }
}
