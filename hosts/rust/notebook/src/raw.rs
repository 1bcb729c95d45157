//! The library's calls as they are exported: numbers in, numbers out. [`crate`] has the same calls in types of their own.
//!
//! These functions are safe. A slice is passed as pointer and length; the calls are proved for every input, so they read
//! and write within the lengths and ask nothing of the contents. They keep no pointer and have no state, so any number of
//! threads may call them at once.

use crate::Entry;

/// What a call returns. `refusal` is 0 if the input is accepted; fields that a reply does not use are 0.
#[repr(C)]
#[derive(Clone, Copy, Debug, Default, PartialEq, Eq)]
pub struct Reply {
    pub refusal: u64,
    pub line: u64,
    pub a: u64,
    pub b: u64,
    pub c: u64,
}

extern "C" {
    fn notebook_check(file: *const u8, file_len: usize) -> Reply;
    fn notebook_index(file: *const u8, file_len: usize, out: *mut u32, out_len: usize) -> Reply;
    fn notebook_canonical(file: *const u8, file_len: usize, out: *mut u8, out_len: usize) -> Reply;
    fn notebook_cut(
        file: *const u8,
        file_len: usize,
        capacity: u64,
        id: *const u8,
        id_len: usize,
        used: *const u8,
        used_len: usize,
        out: *mut u8,
        out_len: usize,
    ) -> Reply;
    fn notebook_join(pieces: *const u8, pieces_len: usize, out: *mut u8, out_len: usize) -> Reply;
    fn notebook_version() -> u64;
}

/// `a` records, `b` groups, `c` drugs.
#[inline]
pub fn check(file: &[u8]) -> Reply {
    // SAFETY: the pointer is good for reading the length.
    unsafe { notebook_check(file.as_ptr(), file.len()) }
}

/// The numbers of an index for one record, in the order of the fields of [`Entry`].
pub const ENTRY_NUMBERS: usize = 7;

/// `a` records; [`ENTRY_NUMBERS`] numbers of each in `out`.
#[inline]
pub fn index(file: &[u8], out: &mut [u32]) -> Reply {
    // SAFETY: the pointers are good for reading and writing their lengths, and a `&mut` overlaps with nothing.
    unsafe { notebook_index(file.as_ptr(), file.len(), out.as_mut_ptr(), out.len()) }
}

/// `a` bytes in `out`.
#[inline]
pub fn canonical(file: &[u8], out: &mut [u8]) -> Reply {
    // SAFETY: as in `index`.
    unsafe { notebook_canonical(file.as_ptr(), file.len(), out.as_mut_ptr(), out.len()) }
}

/// `a` pieces, `b` bytes in `out`. `used` is a run of IDs, 14 bytes each.
#[inline]
pub fn cut(file: &[u8], capacity: u64, id: &[u8], used: &[u8], out: &mut [u8]) -> Reply {
    let (file, file_len, id, id_len) = (file.as_ptr(), file.len(), id.as_ptr(), id.len());
    let (used, used_len) = (used.as_ptr(), used.len());
    // SAFETY: as in `index`.
    unsafe { notebook_cut(file, file_len, capacity, id, id_len, used, used_len, out.as_mut_ptr(), out.len()) }
}

/// `a` bytes in `out`.
#[inline]
pub fn join(pieces: &[u8], out: &mut [u8]) -> Reply {
    // SAFETY: as in `index`.
    unsafe { notebook_join(pieces.as_ptr(), pieces.len(), out.as_mut_ptr(), out.len()) }
}

/// 10,000 times the major, 100 times the minor, and the patch.
#[inline]
pub fn version() -> u64 {
    // SAFETY: the call takes nothing and answers a number.
    unsafe { notebook_version() }
}

/// Entries as the numbers that they consist of.
pub(crate) fn numbers(entries: &mut [Entry]) -> &mut [u32] {
    let length = entries.len() * ENTRY_NUMBERS;
    // SAFETY: an entry is seven u32 without padding (`repr(C)`), and any seven numbers are an entry. A slice of entries has
    // at most isize::MAX bytes, so the length does not overflow.
    unsafe { std::slice::from_raw_parts_mut(entries.as_mut_ptr().cast(), length) }
}

// It does not compile where an entry is anything else than seven numbers.
const _: [(); ENTRY_NUMBERS * size_of::<u32>()] = [(); size_of::<Entry>()];
const _: [(); align_of::<u32>()] = [(); align_of::<Entry>()];
