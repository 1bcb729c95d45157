//! The proved static library, through the crate `notebook`: its replies, and the ordinary answers in the same form.

use crate::ordinary::{Counts, Pieces, Refusal};

pub use notebook::raw as replies;
pub use notebook::raw::Reply;

/// An answer as the library would reply it; fields that a reply does not use are 0.
pub trait Told {
    fn reply(self) -> Reply;
}

fn accepted(a: u64, b: u64, c: u64) -> Reply {
    Reply { refusal: 0, line: 0, a, b, c }
}

impl Told for Refusal {
    fn reply(self) -> Reply {
        Reply { refusal: u64::from(self.number), line: self.line, ..Reply::default() }
    }
}

/// Check: records, groups, drugs.
impl Told for Counts {
    fn reply(self) -> Reply {
        accepted(self.records, self.groups, self.drugs)
    }
}

/// Index: the count of records; canonical and join: bytes.
impl Told for u64 {
    fn reply(self) -> Reply {
        accepted(self, 0, 0)
    }
}

/// Cut: the count of pieces and their total length.
impl Told for Pieces {
    fn reply(self) -> Reply {
        accepted(self.count, self.bytes, 0)
    }
}

impl<T: Told> Told for Result<T, Refusal> {
    fn reply(self) -> Reply {
        self.map_or_else(Refusal::reply, T::reply)
    }
}
