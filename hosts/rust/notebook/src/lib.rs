//! Medication notebook files (JAHIS 15-106 version 2.1) through the gateway's proved static library.
//!
//! Five calls take the bytes of a file and answer with a result or with one [`Refusal`]: a reason and the line that it is
//! about.
//!
//! ```
//! let file = b"JAHISTC04,2\r\n1,A,1,19890108,,,,,,,\r\n\x1A";
//! let checked = notebook::check(file)?;
//! assert_eq!((checked.records, checked.groups, checked.drugs), (1, 0, 0));
//! assert_eq!(notebook::canonical(file)?, b"JAHISTC04,2\r\n1,A,1,H010108,,,,,,,\r\n");
//!
//! let refusal = notebook::check(b"JAHISTC04,2\r\n1,A,1,S640108,,,,,,,\r\n").unwrap_err();
//! assert_eq!(refusal.to_string(), "no 11 2: form");
//! # Ok::<(), notebook::Refusal>(())
//! ```
//!
//! [`index`], [`canonical`], [`cut`] and [`join`] allocate what their results need. Each has a form that writes into a
//! buffer of the caller (`.._into`): it writes from the buffer's front on, keeps what lies after the result, and leaves the
//! whole buffer as it was if it refuses; a buffer that can't hold the whole result is refused as [`Reason::Short`].

#![deny(unsafe_code)]
#![warn(missing_docs)]
// Nothing that an input or a limit of the system reaches may panic. `clippy.toml` lists macros and functions that panic too.
#![cfg_attr(
    not(test),
    forbid(
        clippy::disallowed_macros,
        clippy::disallowed_methods,
        clippy::expect_used,
        clippy::indexing_slicing,
        clippy::panic,
        clippy::print_stderr,
        clippy::print_stdout,
        clippy::string_slice,
        clippy::todo,
        clippy::unimplemented,
        clippy::unreachable,
        clippy::unwrap_used
    )
)]

#[allow(unsafe_code, missing_docs)]
pub mod raw;
mod refusal;
mod used;

pub use refusal::{Reason, Refusal};
pub use used::{NotAnId, Used};

/// The most bytes of a file; a longer one is refused as [`Reason::Large`].
pub const MOST_FILE_BYTES: usize = 65_536;

/// The most bytes that [`join`] takes.
pub const MOST_JOIN_BYTES: usize = 131_072;

/// The most pieces that [`cut`] makes.
pub const MOST_PIECES: usize = 999;

/// The digits of an ID.
pub const ID_BYTES: usize = 14;

/// The most bytes of a piece beside its records: line 1 and 911,ID,n,k with its line end, n and k of three digits.
const MOST_FRAME_BYTES: usize = 41;

/// What [`check`] counts in an accepted file.
#[derive(Clone, Copy, Debug, PartialEq, Eq, Hash)]
pub struct Checked {
    /// Records after line 1.
    pub records: u64,
    /// Groups: records 5.
    pub groups: u64,
    /// Drugs: records 201.
    pub drugs: u64,
}

/// What [`index`] says of a record.
#[repr(C)]
#[derive(Clone, Copy, Debug, Default, PartialEq, Eq, Hash)]
pub struct Entry {
    /// The record's number, as 201.
    pub record: u32,
    /// Where its line begins in the file, from 0.
    pub offset: u32,
    /// Its bytes without the line end.
    pub bytes: u32,
    /// The group that it belongs to, from 1; 0 outside groups.
    pub group: u32,
    /// For 201 to 391 the line of the last 55 before it in its group, the doctor; 0 if there is none.
    pub doctor: u32,
    /// For 281 and 291 the line of the last 201 before it, the drug; else 0.
    pub drug: u32,
    /// From the group's 51 on, itself included, the line of that 51, the clinic; 0 where none has yet stood in the group,
    /// and outside groups.
    pub clinic: u32,
}

impl Entry {
    /// The record's bytes in the file that was indexed, without the line end; `None` if another file is given and the
    /// record would lie outside.
    pub fn of<'a>(&self, file: &'a [u8]) -> Option<&'a [u8]> {
        let from = usize::try_from(self.offset).ok()?;
        file.get(from..from.checked_add(usize::try_from(self.bytes).ok()?)?)
    }
}

/// The pieces that [`cut`] has made, one after another in one buffer.
#[derive(Clone, Debug, PartialEq, Eq)]
pub struct Cut {
    bytes: Vec<u8>,
    /// Where each piece ends.
    ends: Vec<usize>,
}

impl Cut {
    /// The count of pieces, at least 1.
    #[allow(clippy::len_without_is_empty)]
    pub fn len(&self) -> usize {
        self.ends.len()
    }

    /// The pieces in order.
    pub fn pieces(&self) -> impl ExactSizeIterator<Item = &[u8]> + '_ {
        (0..self.len()).map(|piece| self.get(piece).unwrap_or_default())
    }

    /// A piece by its place from 0 on, if there are so many.
    pub fn get(&self, piece: usize) -> Option<&[u8]> {
        let from = match piece.checked_sub(1) {
            Some(before) => *self.ends.get(before)?,
            None => 0,
        };
        self.bytes.get(from..*self.ends.get(piece)?)
    }

    /// The bytes of all pieces, as [`join`] takes them.
    pub fn as_bytes(&self) -> &[u8] {
        &self.bytes
    }

    /// The buffer itself.
    pub fn into_bytes(self) -> Vec<u8> {
        self.bytes
    }
}

/// What [`cut_into`] has written.
#[derive(Clone, Copy, Debug, PartialEq, Eq, Hash)]
pub struct Written {
    /// The count of pieces.
    pub pieces: usize,
    /// Their total length.
    pub bytes: usize,
}

/// Checks a file.
#[inline]
pub fn check(file: &[u8]) -> Result<Checked, Refusal> {
    let reply = raw::check(file);
    Refusal::of(reply).map_or(Ok(Checked { records: reply.a, groups: reply.b, drugs: reply.c }), Err)
}

/// The entries of a file's records, in order.
///
/// ```
/// // A dispensing for the clinic of line 4, and one that names no clinic.
/// let file = b"JAHISTC04,2\r\n1,A,1,19890108,,,,,,,\r\n\
///     5,R060411,1\r\n51,B,13,1,7654321,1\r\n201,1,C,1,g,,,1\r\n501,D,1\r\n\
///     5,R060410,1\r\n201,1,E,1,g,,,1\r\n";
/// let entries = notebook::index(file)?;
/// assert_eq!(entries.iter().map(|entry| entry.clinic).collect::<Vec<_>>(), [0, 0, 4, 4, 4, 0, 0]);
///
/// // The drugs of that clinic.
/// let drugs = entries.iter().filter(|entry| entry.record == 201 && entry.clinic == 4);
/// assert_eq!(drugs.filter_map(|drug| drug.of(file)).collect::<Vec<_>>(), [b"201,1,C,1,g,,,1"]);
///
/// // The clinic's own record.
/// let clinic = notebook::at_line(&entries, 4).and_then(|clinic| clinic.of(file));
/// assert_eq!(clinic, Some(&b"51,B,13,1,7654321,1"[..]));
/// # Ok::<(), notebook::Refusal>(())
/// ```
pub fn index(file: &[u8]) -> Result<Vec<Entry>, Refusal> {
    // A file has fewer records than line ends.
    let mut entries = vec![Entry::default(); lines(file)];
    let records = index_into(file, &mut entries)?;
    entries.truncate(records);
    Ok(entries)
}

/// Writes the entries of a file's records to the front of `out` and answers their count.
pub fn index_into(file: &[u8], out: &mut [Entry]) -> Result<usize, Refusal> {
    written(raw::index(file, raw::numbers(out)))
}

/// The entry of the record in a line, as [`Entry::doctor`], [`Entry::drug`] and [`Entry::clinic`] name it, out of all entries
/// of a file; `None` for 0 and for line 1, which is no record.
pub fn at_line(entries: &[Entry], line: u32) -> Option<&Entry> {
    entries.get(usize::try_from(line).ok()?.checked_sub(2)?)
}

/// The canonical file: days in the form of the newest era that has begun, postal codes without hyphen, RP numbers and
/// quantities without leading zeros, no 1Ah.
///
/// ```
/// // One day, as an older phone spells it, and as it is written.
/// let file = b"JAHISTC04,2\r\n1,A,1,H310501,,,,,,,\r\n";
/// assert_eq!(notebook::canonical(file)?, b"JAHISTC04,2\r\n1,A,1,R010501,,,,,,,\r\n");
/// # Ok::<(), notebook::Refusal>(())
/// ```
pub fn canonical(file: &[u8]) -> Result<Vec<u8>, Refusal> {
    // No canonical spelling is longer than another.
    let mut out = vec![0; file.len().min(MOST_FILE_BYTES)];
    let bytes = canonical_into(file, &mut out)?;
    out.truncate(bytes);
    Ok(out)
}

/// Writes the canonical file to the front of `out` and answers its bytes.
pub fn canonical_into(file: &[u8], out: &mut [u8]) -> Result<usize, Refusal> {
    written(raw::canonical(file, out))
}

/// Cuts a file into pieces of at most `capacity` bytes. `id` is the 14 digits that the pieces have in common; one that has been
/// used is refused, also where one piece serves.
///
/// ```
/// use notebook::{Reason, Used};
///
/// let file = b"JAHISTC04,2\r\n1,A,1,19890108,,,,,,,\r\n4,x,,2\r\n4,y,,2\r\n4,z,,2\r\n4,u,,2\r\n4,v,,2\r\n";
/// let cut = notebook::cut(file, 69, "20161115000001", &Used::new())?;
/// assert_eq!(cut.pieces().map(<[u8]>::len).collect::<Vec<_>>(), [67, 69]);
/// assert!(cut.get(1).unwrap_or_default().ends_with(b"911,20161115000001,2,2\r\n"));
///
/// let used = Used::from_ids(["20161115000001"]).expect("an ID");
/// let refusal = notebook::cut(file, 69, "20161115000001", &used).unwrap_err();
/// assert_eq!(refusal.reason, Reason::Used);
/// # Ok::<(), notebook::Refusal>(())
/// ```
pub fn cut(file: &[u8], capacity: u64, id: impl AsRef<[u8]>, used: &Used) -> Result<Cut, Refusal> {
    // Every piece has a record, so there are no more pieces than lines.
    let frames = lines(file).min(MOST_PIECES) * MOST_FRAME_BYTES;
    let mut bytes = vec![0; file.len().min(MOST_FILE_BYTES) + frames];
    let written = cut_into(file, capacity, id, used, &mut bytes)?;
    bytes.truncate(written.bytes);
    let mut ends = Vec::with_capacity(written.pieces);
    let mut at = 0;
    for line in bytes.split_inclusive(|&byte| byte == b'\n') {
        // Only line 1 of a piece begins so: a record begins with its number.
        if at > 0 && line.starts_with(b"JAHISTC04,") {
            ends.push(at);
        }
        at += line.len();
    }
    ends.push(at);
    if ends.len() != written.pieces {
        // The library is proved to begin each piece so. Whatever else this is, it is no set of pieces.
        return Err(Refusal { reason: Reason::Unknown, line: 0 });
    }
    Ok(Cut { bytes, ends })
}

/// Writes the pieces one after another from the front of `out` on and answers their count and total length.
pub fn cut_into(file: &[u8], capacity: u64, id: impl AsRef<[u8]>, used: &Used, out: &mut [u8]) -> Result<Written, Refusal> {
    let reply = raw::cut(file, capacity, id.as_ref(), used.as_bytes(), out);
    Refusal::of(reply).map_or(Ok(Written { pieces: reply.a as usize, bytes: reply.b as usize }), Err)
}

/// Joins pieces, given one after another in any order, to one file.
pub fn join(pieces: &[u8]) -> Result<Vec<u8>, Refusal> {
    let mut out = vec![0; pieces.len().min(MOST_FILE_BYTES)];
    let bytes = join_into(pieces, &mut out)?;
    out.truncate(bytes);
    Ok(out)
}

/// Writes the joined file to the front of `out` and answers its bytes.
pub fn join_into(pieces: &[u8], out: &mut [u8]) -> Result<usize, Refusal> {
    written(raw::join(pieces, out))
}

/// The version of the library that is linked, as 10,000 times the major, 100 times the minor, and the patch: 601 is 0.6.1.
#[inline]
pub fn version() -> u64 {
    raw::version()
}

fn written(reply: raw::Reply) -> Result<usize, Refusal> {
    Refusal::of(reply).map_or(Ok(reply.a as usize), Err)
}

/// The line ends of a file; 0 if it is too large to be looked at.
fn lines(file: &[u8]) -> usize {
    if file.len() > MOST_FILE_BYTES {
        return 0;
    }
    file.iter().filter(|&&byte| byte == b'\n').count()
}

#[cfg(test)]
mod tests {
    use super::*;

    const FILE: &[u8] = b"JAHISTC04,2\r\n1,A,1,19890108,,,,,,,\r\n4,x,,2\r\n4,y,,2\r\n4,z,,2\r\n";
    const ID: &str = "12345678901234";

    #[test]
    fn pieces_are_slices_of_one_buffer() {
        let file = [FILE, b"4,u,,2\r\n4,v,,2\r\n4,w,,2\r\n"].concat();
        let cut = cut(&file, 67, ID, &Used::new()).expect("the file can be cut");
        assert_eq!(cut.pieces().map(<[u8]>::len).collect::<Vec<_>>(), [67, 61, 53]);
        assert_eq!(cut.get(2), Some(&b"JAHISTC04,2\r\n4,v,,2\r\n4,w,,2\r\n911,12345678901234,3,3\r\n"[..]));
        assert_eq!((cut.len(), cut.get(3)), (3, None));
        assert_eq!(cut.pieces().collect::<Vec<_>>().concat(), cut.as_bytes());
        let turned: Vec<&[u8]> = [2, 0, 1].into_iter().filter_map(|piece| cut.get(piece)).collect();
        assert_eq!(join(&turned.concat()), canonical(&file));
        assert_eq!(join(cut.as_bytes()), canonical(&file));
    }

    #[test]
    fn entries_name_their_records() {
        let entries = index(FILE).expect("the file is accepted");
        assert_eq!(entries.len(), 4);
        assert_eq!(entries[3], Entry { record: 4, offset: 52, bytes: 6, group: 0, doctor: 0, drug: 0, clinic: 0 });
        assert_eq!(entries[3].of(FILE), Some(&b"4,z,,2"[..]));
        assert_eq!(entries[3].of(b""), None);
        let mut three = [Entry { record: 7, ..Entry::default() }; 3];
        assert_eq!(index_into(FILE, &mut three).unwrap_err().reason, Reason::Short);
        assert!(three.iter().all(|entry| entry.record == 7));
    }

    #[test]
    fn entries_lead_to_doctors_drugs_and_clinics() {
        let file = b"JAHISTC04,2\r\n1,A,1,19890108,,,,,,,\r\n5,20160411,2\r\n51,B,,,,2\r\n55,C,,2\r\n201,1,D,1,g,,,2\r\n\
                     281,1,E,2\r\n5,20160411,2\r\n501,F,2\r\n701,G,H,I,,,2\r\n";
        let entries = index(file).expect("the file is accepted");
        let numbers: Vec<[u32; 4]> =
            entries.iter().map(|entry| [entry.record, entry.doctor, entry.drug, entry.clinic]).collect();
        let expected = [
            [1, 0, 0, 0],
            [5, 0, 0, 0],
            [51, 0, 0, 4],
            [55, 0, 0, 4],
            [201, 5, 0, 4],
            [281, 5, 6, 4],
            [5, 0, 0, 0],
            [501, 0, 0, 0],
            [701, 0, 0, 0],
        ];
        assert_eq!(numbers, expected);
        let record = |line| at_line(&entries, line).and_then(|entry| entry.of(file));
        let Entry { doctor, drug, clinic, .. } = entries[5];
        assert_eq!(record(doctor), Some(&b"55,C,,2"[..]));
        assert_eq!(record(drug), Some(&b"201,1,D,1,g,,,2"[..]));
        assert_eq!(record(clinic), Some(&b"51,B,,,,2"[..]));
        assert_eq!([0, 1, 11, u32::MAX].map(record), [None; 4]);
        assert_eq!((record(2), record(10)), (Some(&b"1,A,1,19890108,,,,,,,"[..]), Some(&b"701,G,H,I,,,2"[..])));
    }

    #[test]
    fn lent_buffers_keep_what_lies_after() {
        let mut out = [b'?'; 70];
        let bytes = canonical_into(FILE, &mut out).expect("the file is accepted");
        assert_eq!((bytes, &out[bytes..]), (59, &[b'?'; 11][..]));
        let mut out = [b'?'; 58];
        assert_eq!(canonical_into(FILE, &mut out), Err(Refusal { reason: Reason::Short, line: 0 }));
        assert_eq!(out, [b'?'; 58]);
        assert_eq!(canonical_into(FILE, &mut []), Err(Refusal { reason: Reason::Short, line: 0 }));
    }

    #[test]
    fn empty_and_large_inputs() {
        assert_eq!(check(b"").unwrap_err().to_string(), "no 2 1: line end");
        assert_eq!(index(b"").unwrap_err().to_string(), "no 2 1: line end");
        assert_eq!(cut(b"", 0, "", &Used::new()).unwrap_err().to_string(), "no 2 1: line end");
        assert_eq!(join(b"").unwrap_err().to_string(), "no 2 1: line end");
        let large = vec![b'\n'; MOST_FILE_BYTES + 1];
        assert_eq!(index(&large).unwrap_err().to_string(), "no 1 0: large");
        assert_eq!(cut(&large, 0, "", &Used::new()).unwrap_err().to_string(), "no 1 0: large");
        assert_eq!(join(&vec![0; MOST_JOIN_BYTES + 1]).unwrap_err().to_string(), "no 1 0: large");
    }

    #[test]
    fn library_and_crate_are_of_one_version() {
        let parts = env!("CARGO_PKG_VERSION").split('.').map(|part| part.parse::<u64>().expect("a number"));
        assert_eq!(version(), parts.fold(0, |number, part| number * 100 + part));
    }

    #[test]
    fn a_file_of_the_most_pieces() {
        // 999 pieces of one record each: the buffer that `cut` allocates holds them.
        let mut file = b"JAHISTC04,2\r\n1,A,1,19890108,,,,,,,\r\n".to_vec();
        file.extend_from_slice(&b"4,xxxxxxxxxxx,,2\r\n".repeat(998));
        let cut = cut(&file, 61, ID, &Used::new()).expect("the file can be cut");
        assert_eq!(cut.len(), 999);
        assert_eq!(join(cut.as_bytes()), canonical(&file));
    }
}
