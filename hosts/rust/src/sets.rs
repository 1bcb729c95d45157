//! Sets of pieces: made near the search for piece k, and counted by what that search has met. 02 (iv): "the hunt for piece k
//! is to go through them as they lie and end at the piece found", and "Answers are as today".

use crate::division::pieces_of;
use crate::faults::Fault;
use crate::random::Random;
use crate::runs::good_id;
use std::collections::BTreeSet;

const LINE_1: &[u8] = b"JAHISTC04,2\r\n";
const RECORD_1: &[u8] = b"1,A,1,19890108,,,,,,,\r\n";

/// The most bytes of a joined file.
const MOST_BYTES: usize = 65_536;

/// The longest record 4: a text of 400 bytes.
const LONGEST_NOTE: usize = 407;

/// What joining takes: pieces that lie in every sort of order, half of them a set, of which few join to about 65,536 bytes or
/// more. In the others one k is there again, too often, missing or out of range.
pub fn searched_input(seed: u64, index: u64) -> Vec<u8> {
    let mut random = Random::of(seed ^ 0x911, index);
    let n = match random.below(8) {
        0..5 => 2 + random.below(5),
        5 => 7 + random.below(60),
        6 => [63, 64, 65, 99, 100, 255, 256, 257][random.below(8)],
        _ => [101, 998, 999][random.below(3)],
    };
    let mut pieces = laid(&mut random, n);
    if random.once_in(2) {
        spoil(&mut random, n, &mut pieces);
    }
    let id = good_id(&mut random);
    let zeros = random.once_in(4);
    let one_in = [1, 2, 1_000][random.below(3)];
    let mut input = Vec::new();
    for (k, records) in pieces {
        let width = if zeros { 1 + random.below(3) } else { 1 };
        let mark = [b"911,", &id[..], format!(",{n},{k:0width$}\r\n").as_bytes()].concat();
        input.extend([LINE_1, &records, &mark].concat());
        if random.once_in(one_in) {
            input.push(0x1A);
        }
    }
    input
}

/// The pieces of a set as they lie: k and records. In a large set two of them, or one, have nearly all the bytes.
fn laid(random: &mut Random, n: usize) -> Vec<(usize, Vec<u8>)> {
    let large = n < 101 && random.once_in(6);
    let mut sizes: Vec<usize> = (0..n).map(|_| if large || random.once_in(4) { 0 } else { 8 + random.below(20) }).collect();
    if large {
        let total = [MOST_BYTES, MOST_BYTES + 1, MOST_BYTES + 500 + random.below(30_000)][random.below(3)];
        let notes = total - LINE_1.len() - RECORD_1.len();
        sizes[random.below(n)] += notes / 2;
        sizes[random.below(n)] += notes - notes / 2;
    }
    let mut pieces: Vec<(usize, Vec<u8>)> = (1..).zip(sizes.into_iter().map(|size| notes(random, size))).collect();
    pieces[0].1.splice(..0, RECORD_1.iter().copied());
    match random.below(8) {
        0 => {}
        1 => pieces.reverse(),
        way => {
            random.shuffle(&mut pieces);
            // 1 or n is swapped to the front or to the end; after some draws neither is.
            if let 2..6 = way {
                let (k, end) = ([1, n][way / 2 - 1], [0, n - 1][way % 2]);
                let at = pieces.iter().position(|piece| piece.0 == k).expect("every k is there");
                pieces.swap(at, end);
            }
        }
    }
    pieces
}

/// Records 4 of so many bytes in all: none, or at least 8.
fn notes(random: &mut Random, mut bytes: usize) -> Vec<u8> {
    let letter = b'a' + random.below(26) as u8;
    let mut records = Vec::new();
    while bytes > 0 {
        let note = if bytes <= LONGEST_NOTE { bytes } else { LONGEST_NOTE.min(bytes - 8) };
        records.extend([b"4,", &vec![letter; note - 7][..], b",,2\r\n"].concat());
        bytes -= note;
    }
    records
}

fn spoil(random: &mut Random, n: usize, pieces: &mut Vec<(usize, Vec<u8>)>) {
    // The last piece is where a search ends that has found nothing.
    let at = if random.once_in(2) { n - 1 } else { random.below(n) };
    let other = random.below(n);
    match random.below(8) {
        0 | 1 => pieces[at] = pieces[other].clone(),
        2 => pieces[at].0 = pieces[other].0,
        3 => {
            pieces.remove(other);
        }
        4 => pieces.insert(at, pieces[other].clone()),
        5 => pieces.push(pieces[other].clone()),
        6 => pieces[at].0 = 0,
        _ => pieces[at].0 = [n + 1, pieces[at].0 + 256][random.below(2)],
    }
}

/// How often the search has met each sort of pieces.
#[derive(Default)]
pub struct Sets {
    /// Sets that were joined, by the digits of n: in order, reversed, otherwise.
    orders: [[u64; 3]; 3],
    /// Those otherwise, by what lies first and last: 1 first, 1 last, n first, n last.
    ends: [u64; 4],
    /// Sets that were joined with zeros before k: before 1, before n, before another.
    zeros: [u64; 3],
    /// No sets for one k alone. There again while another is missing, and there again beside all: in the piece that lies last,
    /// and in an earlier one.
    again: [u64; 2],
    too_many: [u64; 2],
    /// Those where the k that is there again has zeros once and not the other time.
    respelled: u64,
    /// All but one of a set, by the one: 1, n, another.
    missing: [u64; 3],
    /// n pieces of which one has k 0, and those with one over n.
    range: [u64; 2],
    /// Records of 65,536 bytes with line 1, joined; of more, with every k; of more, with a k missing; and of more before that k.
    large: [u64; 4],
}

/// A piece as it lies.
struct Piece {
    k: usize,
    digits: usize,
    records: usize,
}

impl Sets {
    /// Counts an input whose pieces can be told apart, with its reasons for 19 and the number of its refusal.
    pub fn count(&mut self, input: &[u8], faults: &BTreeSet<Fault>, refusal: u64) {
        if !faults.iter().all(|fault| matches!(fault, Fault::KTwice | Fault::KMissing | Fault::KRange)) {
            return;
        }
        let Some((n, pieces)) = read(input) else { return };
        let bytes = LINE_1.len() + pieces.iter().map(|piece| piece.records).sum::<usize>();
        if !faults.is_empty() {
            self.count_wrong(n, &pieces, bytes);
        } else if refusal == 0 {
            self.count_joined(n, &pieces);
            self.large[0] += u64::from(bytes == MOST_BYTES);
        } else if refusal == 1 {
            self.large[1] += 1;
        }
    }

    fn count_joined(&mut self, n: usize, pieces: &[Piece]) {
        let rises = |one: &Piece, next: &Piece| one.k < next.k;
        let order = if pieces.is_sorted_by(rises) {
            0
        } else if pieces.iter().rev().is_sorted_by(|one, next| rises(one, next)) {
            1
        } else {
            let (first, last) = (pieces[0].k, pieces[n - 1].k);
            for (count, met) in self.ends.iter_mut().zip([first == 1, last == 1, first == n, last == n]) {
                *count += u64::from(met);
            }
            2
        };
        self.orders[digits(n) - 1][order] += 1;
        for piece in pieces.iter().filter(|piece| piece.digits > digits(piece.k)) {
            self.zeros[place(piece.k, n)] += 1;
        }
    }

    fn count_wrong(&mut self, n: usize, pieces: &[Piece], bytes: usize) {
        // k has at most three digits.
        let mut first_places = [None; 1_000];
        for (at, piece) in pieces.iter().enumerate().rev() {
            first_places[piece.k] = Some(at);
        }
        let first = |k: usize| first_places[k];
        let missing: Vec<usize> = (1..=n).filter(|&k| first(k).is_none()).collect();
        let again: Vec<usize> = (0..pieces.len()).filter(|&at| first(pieces[at].k) != Some(at)).collect();
        let out_of_range: Vec<usize> = pieces.iter().map(|piece| piece.k).filter(|&k| k == 0 || k > n).collect();
        match (&again[..], &missing[..], &out_of_range[..]) {
            (&[at], [] | [_], []) => {
                let counts = if missing.is_empty() { &mut self.too_many } else { &mut self.again };
                counts[usize::from(at + 1 < pieces.len())] += 1;
                let earlier = first(pieces[at].k).map(|at| pieces[at].digits);
                self.respelled += u64::from(earlier != Some(pieces[at].digits));
            }
            ([], &[k], []) => self.missing[place(k, n)] += 1,
            ([], [_], &[k]) => self.range[usize::from(k > n)] += 1,
            _ => {}
        }
        if let Some(&missing) = missing.first() {
            let found = (1..missing).filter_map(first).map(|at| pieces[at].records).sum::<usize>();
            self.large[2] += u64::from(bytes > MOST_BYTES);
            self.large[3] += u64::from(LINE_1.len() + found > MOST_BYTES);
        }
    }

    /// What is counted, and each count with its name. All of them can occur.
    fn rows(&self) -> [(&'static str, Vec<(&'static str, u64)>); 11] {
        let named = |names: &[&'static str], counts: &[u64]| names.iter().copied().zip(counts.iter().copied()).collect();
        const ORDERS: [&str; 3] = ["in order", "reversed", "otherwise"];
        const LAST: [&str; 2] = ["last", "earlier"];
        const K: [&str; 3] = ["1", "n", "another"];
        [
            ("up to 9 pieces joined", named(&ORDERS, &self.orders[0])),
            ("up to 99 pieces joined", named(&ORDERS, &self.orders[1])),
            ("up to 999 pieces joined", named(&ORDERS, &self.orders[2])),
            ("pieces out of order joined with", named(&["1 first", "1 last", "n first", "n last"], &self.ends)),
            ("pieces joined with zeros before", named(&K, &self.zeros)),
            ("19 by a k again for another", named(&LAST, &self.again)),
            ("19 by a k again beside all", named(&LAST, &self.too_many)),
            ("19 by a k again", named(&["in another spelling"], &[self.respelled])),
            ("19 by no piece", named(&K, &self.missing)),
            ("19 by one piece with k", named(&["0", "over n"], &self.range)),
            (
                "pieces for a file",
                named(&["of 65536 bytes", "of more", "of more but for a k", "of more before that k"], &self.large),
            ),
        ]
    }

    /// What has not occurred though it can.
    pub fn missing(&self) -> impl Iterator<Item = String> {
        self.rows().into_iter().flat_map(|(what, counts)| {
            let absent = counts.into_iter().filter(|(_, count)| *count == 0);
            absent.map(move |(name, _)| format!("join: {what} {name}: none"))
        })
    }

    /// A line for each row.
    pub fn summary(&self) -> String {
        let line = |(what, counts): (&str, Vec<(&str, u64)>)| {
            let counts: Vec<String> = counts.iter().map(|(name, count)| format!("{name}: {count}")).collect();
            format!("{what:<32}  {}\n", counts.join(", "))
        };
        self.rows().into_iter().map(line).collect()
    }
}

/// Which k it is: 1, n or another.
fn place(k: usize, n: usize) -> usize {
    [1, n].iter().position(|&end| end == k).unwrap_or(2)
}

fn digits(number: usize) -> usize {
    number.to_string().len()
}

/// n and the pieces of an input in which each piece has one good 911, its last line; none for a whole file.
fn read(input: &[u8]) -> Option<(usize, Vec<Piece>)> {
    let text: Vec<u8> = input.iter().copied().filter(|&byte| byte != 0x1A).collect();
    let mut n = None;
    let mut pieces = Vec::new();
    for piece in pieces_of(&text) {
        let mark = piece.strip_suffix(b"\r\n")?.rsplit(|&byte| byte == b'\n').next()?;
        let mut items = mark.strip_prefix(b"911,")?.split(|&byte| byte == b',').skip(1);
        let mut number = || -> Option<(usize, usize)> {
            let item = std::str::from_utf8(items.next()?).ok()?;
            Some((item.parse().ok()?, item.len()))
        };
        n = Some(number()?.0);
        let (k, digits) = number()?;
        pieces.push(Piece { k, digits, records: piece.len() - LINE_1.len() - mark.len() - 2 });
    }
    Some((n?, pieces))
}

#[cfg(test)]
mod tests {
    use super::*;
    use crate::faults::faults;
    use crate::library::Told;
    use crate::ordinary::join;

    fn count(sets: &mut Sets, input: &[u8]) {
        sets.count(input, &faults(input), join(input, &mut vec![0; MOST_BYTES]).reply().refusal);
    }

    #[test]
    fn sets_that_have_not_occurred_are_missing() {
        let mut sets = Sets::default();
        let all: BTreeSet<String> = sets.missing().collect();
        assert_eq!(all.len(), 9 + 4 + 3 + 2 + 2 + 1 + 3 + 2 + 4);
        let y = String::from_utf8(notes(&mut Random::new(1), 40_000)).expect("it is ASCII");
        let mut new = |laid: &[(&str, &str)]| {
            let piece = |(k, records): &(&str, &str)| format!("JAHISTC04,2\r\n{records}911,12345678901234,3,{k}\r\n");
            let before: BTreeSet<String> = sets.missing().collect();
            count(&mut sets, laid.iter().map(piece).collect::<String>().as_bytes());
            let after: BTreeSet<String> = sets.missing().collect();
            let met = before.difference(&after).map(|what| what.replace("join: ", "").replace(": none", ""));
            met.collect::<Vec<_>>()
        };
        let one = "1,A,1,19890108,,,,,,,\r\n";
        assert_eq!(new(&[("1", one), ("2", ""), ("3", "")]), ["up to 9 pieces joined in order"]);
        assert_eq!(new(&[("3", ""), ("2", ""), ("1", one)]), ["up to 9 pieces joined reversed"]);
        assert_eq!(
            new(&[("1", one), ("003", ""), ("02", "")]),
            [
                "pieces joined with zeros before another",
                "pieces joined with zeros before n",
                "pieces out of order joined with 1 first",
                "up to 9 pieces joined otherwise"
            ]
        );
        assert_eq!(new(&[("1", one), ("2", ""), ("2", "")]), ["19 by a k again for another last"]);
        assert_eq!(
            new(&[("1", one), ("01", ""), ("2", "")]),
            ["19 by a k again for another earlier", "19 by a k again in another spelling"]
        );
        assert_eq!(new(&[("1", one), ("3", ""), ("2", ""), ("1", one)]), ["19 by a k again beside all last"]);
        assert_eq!(new(&[("1", one), ("3", "")]), ["19 by no piece another"]);
        assert_eq!(new(&[("3", ""), ("2", ""), ("0", one)]), ["19 by one piece with k 0"]);
        assert_eq!(new(&[("3", &y), ("2", &y), ("1", one)]), ["pieces for a file of more"]);
        assert_eq!(new(&[("3", &y), ("2", &y)]), ["19 by no piece 1", "pieces for a file of more but for a k"]);
        assert_eq!(new(&[("1", &y), ("2", &y)]), ["19 by no piece n", "pieces for a file of more before that k"]);
        // Another reason for 19 tells nothing of the search.
        assert_eq!(new(&[("1", one), ("2", ""), ("x", "")]), [""; 0]);
    }

    #[test]
    fn inputs_meet_every_sort() {
        let mut sets = Sets::default();
        for index in 0..1_500 {
            count(&mut sets, &searched_input(1, index));
        }
        assert_eq!(sets.missing().collect::<Vec<_>>(), [""; 0], "\n{}", sets.summary());
    }
}
