//! Inputs for cutting and joining: files with capacities, IDs and runs of used IDs near every rule, and pieces that are
//! mixed, respelled and damaged. The draws decide everything, so a seed gives the same inputs on every machine.

use crate::damage::{damage, Damage};
use crate::ordinary::{self, Pieces};
use crate::random::Random;
use crate::runs::{good_id, run};

/// The most bytes that joining takes; no cutting writes more.
pub const MOST_PIECES_BYTES: usize = 131_072;

/// What cutting takes.
#[derive(Clone)]
pub struct CutInput {
    pub file: Vec<u8>,
    pub capacity: u64,
    pub id: Vec<u8>,
    /// The run of used IDs.
    pub used: Vec<u8>,
}

/// What stands between a file and a run of used IDs in the bytes of a fuzzer. No accepted file has a byte 00h.
const BEFORE_RUN: &[u8] = b"\0used";

/// The ID with which the bytes of a fuzzer are cut.
const FUZZED_ID: &[u8] = b"12345678901234";

impl CutInput {
    /// The input of this seed and index. `damaged` is the file that the other calls are given.
    pub fn new(seed: u64, index: u64, damaged: &[u8], damage: &Damage) -> Self {
        let mut random = Random::of(seed ^ 0xC07, index);
        let file = match random.below(4) {
            0 => damaged.to_vec(),
            1 => notes(&mut random),
            _ => damage.sample(&mut random),
        };
        let capacity = capacity(&mut random, &file);
        let id = if random.once_in(8) { bad_id(&mut random) } else { good_id(&mut random) };
        let used = run(&mut random, &id);
        CutInput { file, capacity, id, used }
    }

    /// An input whose bytes are the file and, after the first mark, the run of used IDs. The file decides the capacity: often
    /// one near the canonical file's length, else any up to a little more.
    pub fn of_bytes(bytes: &[u8]) -> Self {
        let mark = bytes.windows(BEFORE_RUN.len()).position(|bytes| bytes == BEFORE_RUN);
        let (bytes, used) = mark.map_or((bytes, &[][..]), |at| (&bytes[..at], &bytes[at + BEFORE_RUN.len()..]));
        let sum = bytes.iter().fold(7_u64, |sum, &byte| sum.wrapping_mul(31).wrapping_add(u64::from(byte)));
        let length = ordinary::canonical(bytes, &mut vec![0; bytes.len()]).unwrap_or(bytes.len() as u64);
        let capacity = match sum % 8 {
            near @ 0..3 => (length + near).saturating_sub(1),
            _ => (sum >> 3) % (length + 40),
        };
        CutInput { file: bytes.to_vec(), capacity, id: FUZZED_ID.to_vec(), used: used.to_vec() }
    }
}

/// Bytes that a fuzzer may begin with: a file and a run of used IDs, of this seed and index.
pub fn bytes_with_run(seed: u64, index: u64, file: &[u8]) -> Vec<u8> {
    let mut random = Random::of(seed ^ 0x24, index);
    [file, BEFORE_RUN, &run(&mut random, FUZZED_ID)].concat()
}

/// Direction 2: record 1 and records 4 of few bytes, most of them short; once in eight near the limit of 65,536 bytes.
fn notes(random: &mut Random) -> Vec<u8> {
    let target = if random.once_in(8) { 65_533 + random.below(6) } else { 60 + random.below(20_000) };
    notes_of(random, target)
}

/// Such a file of exactly `target` bytes, which are at least 60.
fn notes_of(random: &mut Random, target: usize) -> Vec<u8> {
    let longest = 1 + random.below(30);
    let mut file = b"JAHISTC04,2\r\n1,A,1,19890108,,,,,,,\r\n".to_vec();
    while file.len() < target {
        let left = target - file.len();
        let text = if left < 60 { left - 7 } else { 1 + random.below(longest) };
        file.extend_from_slice(b"4,");
        file.extend((0..text).map(|_| b'x'));
        file.extend_from_slice(b",,2\r\n");
    }
    file
}

fn bad_id(random: &mut Random) -> Vec<u8> {
    let mut id = good_id(random);
    match random.below(5) {
        0 => id.truncate(random.below(14)),
        1 => id.extend_from_slice(&b"00000000000000"[..1 + random.below(14)]),
        _ => id[random.below(14)] = b"/:a ,\x1A\r\xB1"[random.below(8)],
    }
    id
}

/// Capacities of any size, near the canonical file's length, and near those where a count of pieces begins.
fn capacity(random: &mut Random, file: &[u8]) -> u64 {
    let mut out = vec![0; MOST_PIECES_BYTES];
    let length = ordinary::canonical(file, &mut out).unwrap_or(100);
    let near = random.below(5) as u64;
    match random.below(10) {
        0 => random.below(120) as u64,
        1 => [u64::MAX, u64::MAX - 36, 1 << 63, 1 << 32, (1 << 32) + 200, 1 << 16][random.below(6)],
        2 | 3 => (length + near).saturating_sub(2),
        4 | 5 => random.below(length as usize) as u64,
        6 => 36 + random.below(1_000) as u64,
        _ => {
            let count = [2, 9, 10, 11, 99, 100, 101, 999, 1_000][random.below(9)];
            (least_capacity(file, length, count, &mut out) + near).saturating_sub(2)
        }
    }
}

/// The least capacity that gives fewer pieces than `count`. A capacity that is refused gives too many.
fn least_capacity(file: &[u8], length: u64, count: u64, out: &mut [u8]) -> u64 {
    let (mut low, mut high) = (0, length);
    while low < high {
        let middle = (low + high) / 2;
        let fewer =
            matches!(ordinary::cut(file, middle, b"00000000000000", b"", out), Ok(Pieces { count: n, .. }) if n < count);
        if fewer {
            high = middle;
        } else {
            low = middle + 1;
        }
    }
    low
}

/// Two cuttings that give pieces. The second has the ID of the first in its run of used IDs.
pub struct TwoCuttings {
    pub first: CutInput,
    pub second: CutInput,
}

impl TwoCuttings {
    /// Those of this seed and index. Often the files have equal lengths, line by line, and the pieces equal places in them.
    pub fn new(seed: u64, index: u64, files: &Damage) -> Self {
        let mut random = Random::of(seed ^ 0x2C7, index);
        let target = 60 + random.below(2_000);
        let file = notes_of(&mut random, target);
        let id = good_id(&mut random);
        let mut other_id = if random.once_in(2) { good_id(&mut random) } else { id.clone() };
        let digit = &mut other_id[random.below(14)];
        *digit = b'0' + (*digit - b'0' + 1 + random.below(9) as u8) % 10;
        let mut used: Vec<Vec<u8>> = (0..random.below(5)).map(|_| good_id(&mut random)).collect();
        used.insert(random.below(used.len() + 1), id.clone());

        let capacity = capacity_that_serves(&mut random, &file);
        let first = CutInput { file, capacity, id, used: Vec::new() };
        let (file, capacity) = if random.once_in(2) {
            let file = files.sample(&mut random);
            let capacity = capacity_that_serves(&mut random, &file);
            (file, capacity)
        } else {
            (first.file.iter().map(|&byte| if byte == b'x' { b'y' } else { byte }).collect(), capacity)
        };
        TwoCuttings { first, second: CutInput { file, capacity, id: other_id, used: used.concat() } }
    }
}

fn capacity_that_serves(random: &mut Random, file: &[u8]) -> u64 {
    let mut out = vec![0; MOST_PIECES_BYTES];
    let length = ordinary::canonical(file, &mut out).expect("the file is accepted");
    let count = [2, 3, 4, 6, 10, 11, 101][random.below(7)];
    least_capacity(file, length, count, &mut out) + random.below(20) as u64
}

/// The pieces that a cutting wrote, one by one.
pub fn pieces_of(bytes: &[u8]) -> Vec<Vec<u8>> {
    let lines: Vec<&[u8]> = bytes.split_inclusive(|&byte| byte == b'\n').collect();
    lines.chunk_by(|_, next| !next.starts_with(b"JAHISTC04,")).map(|piece| piece.concat()).collect()
}

/// Some pieces of two lists of so many, at least one of each, in any order: the list, 0 or 1, and the place in it. Where the
/// lists are equally long, often one piece for each place; few are there twice.
pub fn mixture(random: &mut Random, counts: [usize; 2]) -> Vec<(usize, usize)> {
    let mut chosen: Vec<(usize, usize)> = if counts[0] == counts[1] && counts[0] > 1 && !random.once_in(4) {
        let first = random.below(2);
        (0..counts[0]).map(|place| (if place < 2 { (first + place) % 2 } else { random.below(2) }, place)).collect()
    } else {
        let mut chosen = Vec::new();
        for (list, count) in counts.into_iter().enumerate() {
            let one_in = [1, 2, 4][random.below(3)];
            let others = (0..count).filter(|_| random.once_in(one_in)).map(|place| (list, place));
            chosen.extend(others);
            chosen.push((list, random.below(count)));
        }
        if random.once_in(2) {
            chosen.sort_unstable();
            chosen.dedup();
        }
        chosen
    };
    if random.once_in(2) {
        random.shuffle(&mut chosen);
    }
    chosen
}

/// What joining takes: the input of this seed and index.
pub fn join_input(seed: u64, index: u64, damaged: &[u8], files: &Damage) -> Vec<u8> {
    let mut random = Random::of(seed ^ 0x101, index);
    let file = match random.below(8) {
        0 | 1 => damaged.to_vec(),
        2 => notes(&mut random),
        3 if random.once_in(8) => {
            let target = 65_530 + random.below(12);
            notes_of(&mut random, target)
        }
        _ => files.sample(&mut random),
    };
    let mut pieces = split(&mut random, &file);
    if random.once_in(2) {
        spoil(&mut random, &mut pieces);
    }
    let mut input = write(&mut random, pieces);
    if random.once_in(6) {
        damage(&mut random, &mut input);
    }
    match random.below(128) {
        0 => input.resize(MOST_PIECES_BYTES + random.below(3) - 1, b'x'),
        1 => input.extend_from_slice(&b"JAHISTC04,1\r\n".repeat(1 + random.below(1_100))),
        _ => {}
    }
    input
}

/// A piece in parts, so that each part can be damaged.
#[derive(Clone)]
struct Piece {
    first_line: Vec<u8>,
    records: Vec<Vec<u8>>,
    /// The 911 line: its items after the number; none in a file that is one piece.
    mark: Option<Vec<Vec<u8>>>,
}

/// The lines of a file in runs, each with its 911; most sets have few pieces.
fn split(random: &mut Random, file: &[u8]) -> Vec<Piece> {
    let mut lines: Vec<Vec<u8>> = file
        .split_inclusive(|&byte| byte == b'\n')
        .map(|line| line.strip_suffix(b"\r\n").unwrap_or(line).to_vec())
        .collect();
    if lines.last().is_some_and(|line| line == b"\x1A") {
        lines.pop();
    }
    let first_line = if lines.is_empty() { Vec::new() } else { lines.remove(0) };
    let count = match random.below(16) {
        0 | 1 => 1,
        2 => 2 + random.below(120),
        3 => [9, 10, 99, 100, 998, 999, 1_000][random.below(7)],
        _ => 2 + random.below(9),
    };
    let mut ends: Vec<usize> = (1..count).map(|_| random.below(lines.len() + 1)).collect();
    ends.push(lines.len());
    ends.sort_unstable();
    let id = good_id(random);
    let zeros = random.once_in(4);
    let mut from = 0;
    let mut pieces = Vec::new();
    for (k, end) in (1..).zip(ends) {
        let mark = (count > 1).then(|| vec![id.clone(), spelled(random, count, zeros), spelled(random, k, zeros)]);
        pieces.push(Piece { first_line: first_line.clone(), records: lines[from..end].to_vec(), mark });
        from = end;
    }
    match random.below(4) {
        0 => {}
        1 => pieces.reverse(),
        _ => random.shuffle(&mut pieces),
    }
    pieces
}

/// A number, with leading zeros up to three digits if wanted.
fn spelled(random: &mut Random, number: usize, zeros: bool) -> Vec<u8> {
    let width = if zeros { 1 + random.below(3) } else { 1 };
    format!("{number:0width$}").into_bytes()
}

/// Spoils a set once: a piece, its line 1, its 911, or the set as a whole.
fn spoil(random: &mut Random, pieces: &mut Vec<Piece>) {
    let count = pieces.len();
    let at = random.below(count);
    let other = random.below(count);
    match random.below(24) {
        0 | 1 if count > 1 => {
            pieces.remove(at);
        }
        2 | 3 => pieces.insert(other, pieces[at].clone()),
        4 => pieces[at].mark = None,
        5 => pieces[at].records.push(b"911".to_vec()),
        6 => pieces[at].records.push(b"911,00000000000000,2,1".to_vec()),
        7 => pieces[at].first_line = random.pick(LINES_1).to_vec(),
        8 => {
            // The 911 and the last record change places.
            let mark = mark_line(&pieces[at]);
            let last = pieces[at].records.len().saturating_sub(1);
            pieces[at].records.splice(last..last, mark);
            pieces[at].mark = None;
        }
        9 => pieces[at].mark = Some(vec![b"00000000000000".to_vec(), b"1".to_vec(), b"1".to_vec()]),
        10 => {
            let id = bad_id(random);
            pieces.iter_mut().filter_map(|piece| piece.mark.as_mut()).for_each(|mark| mark[0] = id.clone());
        }
        11 => {
            let n = random.pick(NUMBERS).to_vec();
            pieces.iter_mut().filter_map(|piece| piece.mark.as_mut()).for_each(|mark| mark[1] = n.clone());
        }
        _ => {
            let Some(mark) = &mut pieces[at].mark else { return };
            match random.below(10) {
                0 => mark[0] = good_id(random),
                1 => mark[0] = bad_id(random),
                2 => mark.push(Vec::new()),
                3 => {
                    mark.pop();
                }
                4 => mark.clear(),
                5 => mark.swap(1, 2),
                6 => mark[2] = (count + 1).to_string().into_bytes(),
                7 => mark[1] = random.pick(NUMBERS).to_vec(),
                _ => mark[2] = random.pick(NUMBERS).to_vec(),
            }
        }
    }
}

const LINES_1: &[&[u8]] =
    &[b"JAHISTC04,1", b"JAHISTC04,2", b"JAHISTC04,3", b"JAHISTC04,1 ", b"JAHISTC04,", b"jahistc04,1", b""];
const NUMBERS: &[&[u8]] = &[
    b"0", b"00", b"1", b"01", b"2", b"002", b"0002", b"3", b"9", b"10", b"999", b"1000", b"", b"x", b"2 ", b" 2", b"+2",
    b"-1",
];

fn mark_line(piece: &Piece) -> Option<Vec<u8>> {
    piece.mark.as_ref().map(|mark| [&[b"911".to_vec()], &mark[..]].concat().join(&b','))
}

/// The bytes of the pieces, with 1Ah after none, some or all of them; a few also where none may stand, or a line before.
fn write(random: &mut Random, pieces: Vec<Piece>) -> Vec<u8> {
    let mut input = Vec::new();
    if random.once_in(30) {
        input.extend_from_slice(random.pick(&[
            &b"\r\n"[..],
            b"4,x,,2\r\n",
            b"\x1A",
            b"JAHISTC04,9\r\n",
            b"x",
            b"x\r\n\x1A",
        ]));
    }
    let one_in = [1, 2, 1_000][random.below(3)];
    let misplaced = if random.once_in(10) { random.below(pieces.len()) } else { usize::MAX };
    for (number, piece) in pieces.into_iter().enumerate() {
        let mark = mark_line(&piece);
        let mut lines: Vec<Vec<u8>> = [piece.first_line].into_iter().chain(piece.records).chain(mark).collect();
        if number == misplaced {
            let line = random.below(lines.len());
            let at = random.below(lines[line].len() + 1) * random.below(2);
            lines[line].insert(at, 0x1A);
        }
        for line in lines {
            input.extend_from_slice(&line);
            input.extend_from_slice(b"\r\n");
        }
        if random.once_in(one_in) {
            input.push(0x1A);
        }
    }
    input
}

#[cfg(test)]
mod tests {
    use super::*;

    #[test]
    fn inputs_reach_every_refusal_of_cut_and_join() {
        let files = Damage::default();
        let (mut cut, mut join) = ([0; 25], [0; 25]);
        let (mut large_joined, mut large_input) = (false, false);
        let mut out = vec![0; MOST_PIECES_BYTES];
        for index in 0..20_000 {
            let damaged = files.file(1, index);
            let input = CutInput::new(1, index, &damaged, &files);
            let answer = ordinary::cut(&input.file, input.capacity, &input.id, &input.used, &mut out);
            cut[answer.map_or_else(|refusal| usize::from(refusal.number), |_| 0)] += 1;
            let input = join_input(1, index, &damaged, &files);
            let answer = ordinary::join(&input, &mut out[..65_536]);
            let number = answer.map_or_else(|refusal| usize::from(refusal.number), |_| 0);
            join[number] += 1;
            large_joined |= number == 1 && input.len() <= MOST_PIECES_BYTES;
            large_input |= number == 1 && input.len() > MOST_PIECES_BYTES;
        }
        // The buffers are long enough, so 20 is left out. A joined file has a line 1 and no 911: never 3 and 6.
        assert!((0..=18).chain([24]).all(|number| cut[number] > 0), "{cut:?}");
        assert!([0, 1, 2, 4, 5, 19].into_iter().chain(7..=16).all(|number| join[number] > 0), "{join:?}");
        assert!(join[3] == 0 && join[6] == 0);
        assert!(large_joined && large_input);
    }

    #[test]
    fn two_cuttings_give_pieces_of_both() {
        let files = Damage::default();
        let mut out = vec![0; MOST_PIECES_BYTES];
        for index in 0..200 {
            let TwoCuttings { first, second } = TwoCuttings::new(1, index, &files);
            assert!(second.id != first.id && second.used.chunks(14).any(|used| used == first.id));
            let counts = [first, second].map(|CutInput { file, capacity, id, used }| {
                let cut = ordinary::cut(&file, capacity, &id, &used, &mut out).expect("the capacity serves");
                assert_eq!(pieces_of(&out[..cut.bytes as usize]).len() as u64, cut.count);
                cut.count as usize
            });
            let mixture = mixture(&mut Random::of(1, index), counts);
            assert!([0, 1].iter().all(|list| mixture.iter().any(|(chosen, _)| chosen == list)), "{mixture:?}");
            assert!(mixture.iter().all(|(list, place)| *place < counts[*list]), "{mixture:?}");
        }
    }
}
