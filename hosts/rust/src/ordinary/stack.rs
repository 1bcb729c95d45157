//! Local arrays no larger than the input asks for: clearing 64 KiB would take longer than checking a short file.

/// Lends a cleared array of at least `bytes` bytes; `bytes` is at most 65,536.
pub(super) fn with_bytes<R>(bytes: usize, work: impl FnOnce(&mut [u8]) -> R) -> R {
    match bytes {
        0..=2_048 => lend::<2_048, u8, R>(work),
        2_049..=16_384 => lend::<16_384, u8, R>(work),
        _ => lend::<65_536, u8, R>(work),
    }
}

/// Lends a cleared array of at least `numbers` numbers; `numbers` is at most 8,192.
pub(super) fn with_numbers<R>(numbers: usize, work: impl FnOnce(&mut [u32]) -> R) -> R {
    match numbers {
        0..=256 => lend::<256, u32, R>(work),
        257..=2_048 => lend::<2_048, u32, R>(work),
        _ => lend::<8_192, u32, R>(work),
    }
}

#[inline(never)]
fn lend<const N: usize, T: Copy + Default, R>(work: impl FnOnce(&mut [T]) -> R) -> R {
    work(&mut [T::default(); N])
}
