//! The IDs that have been used.

use crate::ID_BYTES;
use std::error::Error;
use std::fmt;

/// The IDs that have been used, for [`cut`](crate::cut): pieces of two cuttings with one ID can be confused, so an ID that is
/// among them is refused as [`Reason::Used`](crate::Reason::Used).
///
/// They are a run: 14 bytes for each, one after another.
///
/// ```
/// use notebook::Used;
///
/// let file = b"JAHISTC04,2\r\n1,A,1,19890108,,,,,,,\r\n";
/// let mut used = Used::from_ids(["20161115000001", "20161115000002"])?;
/// let refusal = notebook::cut(file, 300, "20161115000002", &used).unwrap_err();
/// assert_eq!(refusal.to_string(), "no 24 0: used");
///
/// let cut = notebook::cut(file, 300, "20161115000003", &used)?;
/// // The caller keeps it, on a disk, before the pieces go anywhere.
/// used.push("20161115000003")?;
/// assert_eq!((cut.len(), used.count()), (1, 3));
///
/// let error = Used::from_ids(["20161115000001", "2016111500002"]).unwrap_err();
/// assert_eq!(error.to_string(), "ID 2 is not 14 digits");
/// # Ok::<(), Box<dyn std::error::Error>>(())
/// ```
#[derive(Clone, Debug, Default, PartialEq, Eq, Hash)]
pub struct Used {
    run: Vec<u8>,
}

impl Used {
    /// No IDs: none is refused as used.
    pub const fn new() -> Self {
        Used { run: Vec::new() }
    }

    /// These IDs; an error is the first that is not 14 digits.
    pub fn from_ids(ids: impl IntoIterator<Item = impl AsRef<[u8]>>) -> Result<Self, NotAnId> {
        let mut used = Used::new();
        for id in ids {
            used.push(id)?;
        }
        Ok(used)
    }

    /// A run as it lies, whatever its bytes are: the call refuses one whose length is not a multiple of 14, and an ID that
    /// stands at a multiple of 14. A run has no line ends: with them, IDs that are there would not be found.
    pub fn from_bytes(run: impl Into<Vec<u8>>) -> Self {
        Used { run: run.into() }
    }

    /// Adds an ID; an error is one that is not 14 digits, and adds nothing.
    pub fn push(&mut self, id: impl AsRef<[u8]>) -> Result<(), NotAnId> {
        let id = id.as_ref();
        if id.len() != ID_BYTES || !id.iter().all(u8::is_ascii_digit) {
            return Err(NotAnId { ordinal: self.count().saturating_add(1) });
        }
        self.run.extend_from_slice(id);
        Ok(())
    }

    /// The count of IDs. Bytes after the last whole one, which only [`Used::from_bytes`] can leave, are none.
    pub fn count(&self) -> usize {
        self.run.len() / ID_BYTES
    }

    /// The run.
    pub fn as_bytes(&self) -> &[u8] {
        &self.run
    }

    /// The run itself.
    pub fn into_bytes(self) -> Vec<u8> {
        self.run
    }
}

/// What is given as an ID and is not 14 digits: shown as `ID 3 is not 14 digits`.
#[derive(Clone, Copy, Debug, PartialEq, Eq, Hash)]
pub struct NotAnId {
    /// Its place among the IDs, from 1 on.
    pub ordinal: usize,
}

impl fmt::Display for NotAnId {
    fn fmt(&self, f: &mut fmt::Formatter<'_>) -> fmt::Result {
        write!(f, "ID {} is not {ID_BYTES} digits", self.ordinal)
    }
}

impl Error for NotAnId {}

#[cfg(test)]
mod tests {
    use super::*;
    use crate::{cut, cut_into, Reason, Refusal};

    const FILE: &[u8] = b"JAHISTC04,2\r\n1,A,1,19890108,,,,,,,\r\n4,x,,2\r\n";
    const IDS: [&str; 3] = ["12345678901234", "00000000000000", "99999999999999"];

    fn refused(reason: Reason) -> Option<Refusal> {
        Some(Refusal { reason, line: 0 })
    }

    #[test]
    fn ids_make_a_run() {
        let mut used = Used::from_ids(IDS).expect("they are IDs");
        assert_eq!((used.count(), used.as_bytes()), (3, IDS.concat().as_bytes()));
        for wrong in ["", "1234567890123", "123456789012345", "1234567890123x", "1234567890123\n", "１２３４12"] {
            assert_eq!(used.push(wrong), Err(NotAnId { ordinal: 4 }), "{wrong}");
        }
        used.push(b"12345678901234").expect("an ID may repeat");
        assert_eq!((used.count(), used.clone().into_bytes().len()), (4, 56));
        assert_eq!(Used::from_bytes(used.as_bytes()), used);
        assert_eq!(Used::from_ids(["1"]), Err(NotAnId { ordinal: 1 }));
        assert_eq!(Used::from_ids([""; 0]), Ok(Used::new()));
        assert_eq!((Used::from_bytes(&b"123456789012345"[..]).count(), Used::from_bytes(vec![]).count()), (1, 0));
    }

    #[test]
    fn an_id_is_used_once() {
        let cut_with = |id: &str, used: &Used| cut(FILE, 300, id, used).err();
        let used = Used::from_ids(IDS).expect("they are IDs");
        assert_eq!(IDS.map(|id| cut_with(id, &used)), [refused(Reason::Used); 3]);
        assert_eq!(cut_with("12345678901235", &used), None);
        assert_eq!(IDS.map(|id| cut_with(id, &Used::new())), [None; 3]);
        // Across two IDs of the run, and at its end.
        let run = Used::from_bytes(format!("0{}0000000000000", IDS[0]));
        assert_eq!(cut_with(IDS[0], &run), None);
        assert_eq!(
            cut_with(IDS[0], &Used::from_bytes([&[0xff; 14][..], IDS[0].as_bytes()].concat())),
            refused(Reason::Used)
        );
        for length in [1, 13, 15, 27, 29] {
            assert_eq!(cut_with(IDS[0], &Used::from_bytes(vec![b'x'; length])), refused(Reason::Used), "{length}");
        }
    }

    #[test]
    fn a_used_id_is_told_after_a_wrong_id_and_before_the_capacity() {
        let used = Used::from_ids(IDS).expect("they are IDs");
        let mut out = [b'?'; 100];
        let mut cut_with = |file, capacity, id: &str, used: &Used, room| {
            let refusal = cut_into(file, capacity, id, used, &mut out[..room]).err();
            assert!(refusal.is_none() || out == [b'?'; 100]);
            refusal
        };
        assert_eq!(cut_with(b"x\r\n", 3, IDS[0], &used, 0), Some(Refusal { reason: Reason::Version, line: 1 }));
        assert_eq!(cut_with(FILE, 3, "1", &Used::from_bytes(vec![b'1']), 0), refused(Reason::Id));
        assert_eq!(cut_with(FILE, 3, IDS[0], &used, 0), refused(Reason::Used));
        assert_eq!(cut_with(FILE, 3, IDS[0], &Used::new(), 0), refused(Reason::NoCutting));
        assert_eq!(cut_with(FILE, 300, IDS[0], &used, 0), refused(Reason::Used));
        assert_eq!(cut_with(FILE, 300, IDS[0], &Used::new(), 0), refused(Reason::Short));
        assert_eq!(cut_with(FILE, 300, IDS[0], &Used::new(), 100), None);
    }
}
