//! Times of calls on one input, and the rows in which the programs `bench` and `others` print them.

use std::hint::black_box;
use std::time::Instant;

const ROUNDS: usize = 1_001;
const WARM_UP_ROUNDS: usize = 100;

/// The lengths of the files that are measured: 1, 4, 16 and 60 KB.
pub const TARGETS: [usize; 4] = [1_000, 4_000, 16_000, 60_000];

/// Microseconds of one call.
#[derive(Clone, Copy, Debug, PartialEq)]
pub struct Times {
    pub minimum: f64,
    pub median: f64,
}

/// A call that is timed: it is lent an input and a buffer.
pub type Timed<'a, T, R> = &'a mut dyn FnMut(&[u8], &mut [T]) -> R;

/// Times each call in turn, round after round. A round repeats the call on a small input, so that the clock's own time
/// stays small beside it.
pub fn measure<T, R, const N: usize>(input: &[u8], out: &mut [T], mut calls: [Timed<T, R>; N]) -> [Times; N] {
    let repeats = 60_000_usize.div_ceil(input.len());
    let mut times = [(); N].map(|()| Vec::with_capacity(ROUNDS));
    for round in 0..WARM_UP_ROUNDS + ROUNDS {
        for (call, times) in calls.iter_mut().zip(&mut times) {
            let start = Instant::now();
            for _ in 0..repeats {
                black_box(call(black_box(input), black_box(&mut *out)));
            }
            let time = start.elapsed().as_secs_f64() * 1e6 / repeats as f64;
            if round >= WARM_UP_ROUNDS {
                times.push(time);
            }
        }
    }
    times.map(|mut times| {
        times.sort_by(f64::total_cmp);
        Times { minimum: times[0], median: times[times.len() / 2] }
    })
}

/// The times of one code in a call on an input of so many bytes.
#[derive(Clone, Debug, PartialEq)]
pub struct Row {
    pub call: String,
    pub bytes: usize,
    pub code: String,
    pub times: Times,
}

impl Row {
    pub const HEAD: &str = "call                 bytes  code         minimum us   median us  ns/byte";

    pub fn new(call: &str, bytes: usize, code: &str, times: Times) -> Self {
        Row { call: call.to_string(), bytes, code: code.to_string(), times }
    }

    /// Nanoseconds for a byte of the input, at the median.
    pub fn per_byte(&self) -> f64 {
        1_000.0 * self.times.median / self.bytes as f64
    }

    pub fn line(&self) -> String {
        let Row { call, bytes, code, times: Times { minimum, median } } = self;
        format!("{call:<17}  {bytes:>7}  {code:<11}  {minimum:>10.3}  {median:>10.3}  {:>7.2}", self.per_byte())
    }

    /// The row that a line shows; nothing for the head. What stands after the median follows from the rest.
    pub fn parse(line: &str) -> Option<Self> {
        let mut words = line.split_whitespace();
        let (call, bytes, code) = (words.next()?, words.next()?.parse().ok()?, words.next()?);
        let times = Times { minimum: words.next()?.parse().ok()?, median: words.next()?.parse().ok()? };
        Some(Row::new(call, bytes, code, times))
    }
}

#[cfg(test)]
mod tests {
    use super::*;

    #[test]
    fn rows_are_read_as_written() {
        let row = Row::new("cut-999", 59_915, "library", Times { minimum: 303.091, median: 365.17 });
        assert_eq!(Row::parse(&row.line()), Some(row));
        assert_eq!(Row::parse(Row::HEAD), None);
    }
}
