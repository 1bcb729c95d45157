//! One input given to two implementations of a call that writes into a lent buffer: their replies and every number of their
//! buffers must agree, with buffers too short, just long enough and longer.

use crate::library::Reply;
use crate::random::Random;

/// What stands in a buffer before a call, and around it.
pub trait Filling: Copy + PartialEq + Default {
    fn filling(number: u64) -> Self;
}

impl Filling for u8 {
    fn filling(number: u64) -> Self {
        (number.wrapping_mul(0x9E37_79B9_7F4A_7C15) >> 56) as u8
    }
}

impl Filling for u32 {
    fn filling(number: u64) -> Self {
        (number.wrapping_mul(0x9E37_79B9_7F4A_7C15) >> 32) as u32
    }
}

/// Lengths on both sides of a buffer that no call may touch.
const GUARD: usize = 64;

/// How two implementations differ: the buffer's length, both replies, and the first place where the buffers differ, counted
/// from the buffer's start, so that it is negative before it.
#[derive(Debug, Default)]
pub struct Difference {
    pub length: usize,
    pub ours: Reply,
    pub theirs: Reply,
    pub place: Option<isize>,
}

/// The lengths to try. `needed` is the length of the result, `None` if the input is refused whatever the buffer.
pub fn lengths(random: &mut Random, needed: Option<usize>) -> Vec<usize> {
    let mut lengths = match needed {
        None => vec![0, 1 + random.below(300)],
        Some(needed) => vec![0, needed.saturating_sub(1), needed, needed + 1 + random.below(40), random.below(needed + 1)],
    };
    lengths.sort_unstable();
    lengths.dedup();
    lengths
}

/// Lends buffers of one length and one filling to both implementations, and hands back the reply of ours.
pub fn compare<T: Filling>(
    length: usize,
    filling: u64,
    ours: impl FnOnce(&mut [T]) -> Reply,
    theirs: impl FnOnce(&mut [T]) -> Reply,
) -> Result<Reply, Difference> {
    let (our_reply, our_buffer) = lend(length, filling, ours);
    let (their_reply, their_buffer) = lend(length, filling, theirs);
    let place = our_buffer.iter().zip(&their_buffer).position(|(our, their)| our != their);
    if our_reply == their_reply && place.is_none() {
        return Ok(our_reply);
    }
    let place = place.map(|at| at as isize - GUARD as isize);
    Err(Difference { length, ours: our_reply, theirs: their_reply, place })
}

/// The reply to a call, and its buffer with the guards.
fn lend<T: Filling>(length: usize, filling: u64, call: impl FnOnce(&mut [T]) -> Reply) -> (Reply, Vec<T>) {
    let mut buffer: Vec<T> = (0..(length + 2 * GUARD) as u64).map(|at| T::filling(filling.wrapping_add(at))).collect();
    let reply = call(&mut buffer[GUARD..GUARD + length]);
    (reply, buffer)
}

#[cfg(test)]
mod tests {
    use super::*;
    use crate::library::Told;

    fn write(length: usize) -> impl FnOnce(&mut [u8]) -> Reply {
        move |out| {
            out[..length].fill(b'x');
            (length as u64).reply()
        }
    }

    #[test]
    fn differences_are_seen() {
        assert_eq!(compare(5, 1, write(5), write(5)).expect("alike").a, 5);
        let difference = compare(5, 1, write(5), write(4)).expect_err("another reply, and one byte less");
        assert_eq!((difference.ours.a, difference.theirs.a, difference.place), (5, 4, Some(4)));
        let silent = |out: &mut [u8]| {
            out[2] ^= 1;
            0.reply()
        };
        let difference = compare(5, 1, |_: &mut [u8]| 0.reply(), silent).expect_err("a byte has changed");
        assert_eq!((difference.ours, difference.place), (difference.theirs, Some(2)));
    }

    #[test]
    fn lengths_around_what_is_needed() {
        let mut random = Random::new(1);
        for needed in [0, 1, 2, 100] {
            let lengths = lengths(&mut random, Some(needed));
            assert!(lengths.contains(&0) && lengths.contains(&needed) && lengths.iter().any(|&length| length > needed));
            assert!(needed == 0 || lengths.contains(&(needed - 1)));
        }
    }
}
