//! Index, canonical, cut and join once more, word by word after documents 01 and 02 and without regard to time or space, to
//! find errors of the fast ones. Both take acceptance of a file from check.

use super::{canonical, check, cut, index, join, Pieces, Refusal};
use crate::damage::Damage;
use crate::division::{join_input, CutInput, MOST_PIECES_BYTES};
use std::sync::LazyLock;

type Lines = Vec<Vec<u8>>;

/// Document 01's records, with document 02's kind of kana names; only D, P and R matter here.
const TABLE: &str = "\
1: U40! {1,2}! D! P? N800? X13? N800? N20? W? K40?
2: {1,2,3,9}! N120! A!
3: N120! D? D? A! · 4: N400! D? A! · 5: D! A!
11: N120! F+ {1,3,4}+ C? P? N800? X13? A!
15: N40! N800? A! · 51: N120! F+ {1,3}+ C? A! · 55: N40! N80? A!
201: R! N120! Q! N12! {1,2,3,4,6}+ X13? A!
281, 311: R! N100! A! · 291, 391: R! N400! A!
301: R! N100? R+ N100+ {1,2,3,4,5,6,7,9,10}+ {1,2}+ X16? A!
401, 501: N400! A! · 411: N400! {30,31,99}! A! · 601: N400! D?
701: N40! N120! N800! D? D? A!";

/// The first letters of the kinds of a record's items.
fn kinds(number: &str) -> Vec<char> {
    let rows = TABLE.split(['\n', '·']).filter_map(|row| row.split_once(": "));
    let mut found = rows.filter(|(numbers, _)| numbers.trim().split(", ").any(|listed| listed == number));
    let (_, kinds) = found.next().expect("the record is listed");
    kinds.split_whitespace().map(|kind| kind.chars().next().expect("a kind has a letter")).collect()
}

/// The lines of an accepted file or of a canonical one, without line ends and 1Ah.
fn lines_of(file: &[u8]) -> Lines {
    let text = file.strip_suffix(b"\x1A").unwrap_or(file);
    text.split_inclusive(|&byte| byte == b'\n').map(|line| line[..line.len() - 2].to_vec()).collect()
}

fn bytes_of(lines: &[Vec<u8>]) -> Vec<u8> {
    lines.iter().flat_map(|line| [line, &b"\r\n"[..]].concat()).collect()
}

fn number_of(line: &[u8]) -> u32 {
    let number = line.split(|&byte| byte == b',').next().expect("a line has a first part");
    String::from_utf8_lossy(number).parse().expect("a record has a number")
}

fn ends_with_check<T>(file: &[u8], value: impl FnOnce() -> T) -> Result<T, Refusal> {
    check(file).map(|_| value())
}

fn reference_index(file: &[u8]) -> Result<Vec<u32>, Refusal> {
    ends_with_check(file, || {
        let lines = lines_of(file);
        let numbers: Vec<u32> = lines.iter().skip(1).map(|line| number_of(line)).collect();
        let mut entries = Vec::new();
        for (at, &number) in numbers.iter().enumerate() {
            let before = &numbers[..at];
            let last = |wanted: u32| before.iter().rposition(|&number| number == wanted);
            let group = if matches!(number, 5..=601) { numbers[..=at].iter().filter(|&&n| n == 5).count() } else { 0 };
            // The record with index 0 stands on line 2.
            let line_of = |found: Option<usize>| found.map_or(0, |at| at as u32 + 2);
            let doctor = line_of(last(55).filter(|&doctor| last(5).is_some_and(|group| group < doctor)));
            let drug = line_of(last(201));
            // "the line of the group's 51, or 0 where none has yet stood in that group": this record is counted too.
            let so_far = &numbers[..=at];
            let in_group = |place: &usize| group > 0 && !so_far[*place..].contains(&5);
            let clinic = line_of(so_far.iter().rposition(|&number| number == 51).filter(in_group));
            let offset: usize = lines[..=at].iter().map(|line| line.len() + 2).sum();
            entries.extend([
                number,
                offset as u32,
                lines[at + 1].len() as u32,
                group as u32,
                if (201..=391).contains(&number) { doctor } else { 0 },
                if number == 281 || number == 291 { drug } else { 0 },
                clinic,
            ]);
        }
        entries
    })
}

fn reference_canonical(file: &[u8]) -> Result<Vec<u8>, Refusal> {
    ends_with_check(file, || {
        let mut lines = lines_of(file);
        lines.iter_mut().skip(1).for_each(|line| {
            let mut items: Lines = line.split(|&byte| byte == b',').map(<[u8]>::to_vec).collect();
            let kinds = kinds(&String::from_utf8_lossy(&items[0]));
            assert_eq!(kinds.len() + 1, items.len());
            for (item, kind) in items.iter_mut().skip(1).zip(kinds) {
                match kind {
                    'D' if !item.is_empty() => *item = era_form(&gregorian(item)),
                    'P' => item.retain(|&byte| byte != b'-'),
                    'R' => *item = item.iter().copied().skip_while(|&byte| byte == b'0').collect(),
                    _ => {}
                }
            }
            *line = items.join(&b',');
        });
        bytes_of(&lines)
    })
}

/// A day, however it is spelled, as YYYYMMDD.
fn gregorian(day: &[u8]) -> Vec<u8> {
    let Some((_, year_before)) = YEARS_BEFORE.iter().find(|(letter, _)| *letter == day[0]) else { return day.to_vec() };
    [(year_before + era_year(day)).to_string().as_bytes(), &day[3..]].concat()
}

/// Letters and the years before their years 1, read off the last day of every year.
static YEARS_BEFORE: LazyLock<Vec<(u8, u32)>> = LazyLock::new(|| {
    let ends = (1873..=2087).map(|year| (year, era_form(format!("{year}1231").as_bytes())));
    ends.map(|(year, form)| (form[0], year - era_year(&form))).collect()
});

fn era_year(form: &[u8]) -> u32 {
    String::from_utf8_lossy(&form[1..3]).parse().expect("an era form has a year")
}

/// A day under the newest era that has begun by it.
fn era_form(day: &[u8]) -> Vec<u8> {
    let (era, year_1) = match day {
        _ if day <= b"19120729" => ('M', 1868),
        _ if day <= b"19261224" => ('T', 1912),
        _ if day <= b"19890107" => ('S', 1926),
        _ if day <= b"20190430" => ('H', 1989),
        _ => ('R', 2019),
    };
    let text = String::from_utf8_lossy(day);
    let year: u32 = text[..4].parse().expect("a day has a year");
    format!("{era}{:02}{}", year - year_1 + 1, &text[4..]).into_bytes()
}

/// The IDs of a run, from its start on; the last one is shorter where the run's length is no multiple of 14.
fn ids_of(run: &[u8]) -> Lines {
    let mut ids = Lines::new();
    for (place, &byte) in run.iter().enumerate() {
        if place % 14 == 0 {
            ids.push(Vec::new());
        }
        ids.last_mut().expect("there is an ID").push(byte);
    }
    ids
}

fn reference_cut(file: &[u8], capacity: u64, id: &[u8], used: &[u8]) -> Result<Lines, Refusal> {
    let canonical = reference_canonical(file)?;
    if id.len() != 14 || id.iter().any(|byte| !byte.is_ascii_digit()) {
        return Err(Refusal { number: 17, line: 0 });
    }
    if ids_of(used).iter().any(|used| used.len() < 14 || used == id) {
        return Err(Refusal { number: 24, line: 0 });
    }
    if canonical.len() as u64 <= capacity {
        return Ok(vec![canonical]);
    }
    let lines = lines_of(&canonical);
    let piece = |records: &[Vec<u8>], n: usize, k: usize| {
        let mark = [b"911,", id, format!(",{n},{k}").as_bytes()].concat();
        bytes_of(&[&lines[..1], records, &[mark]].concat())
    };
    for n_of_width in [9, 99, 999] {
        let fits = |run: usize, k: usize| (piece(&[], n_of_width, k).len() + run) as u64 <= capacity;
        let mut runs: Vec<Lines> = vec![Vec::new()];
        let (mut bytes, mut all_found) = (0, true);
        for record in &lines[1..] {
            if !fits(bytes + record.len() + 2, runs.len()) && bytes > 0 {
                runs.push(Vec::new());
                bytes = 0;
            }
            bytes += record.len() + 2;
            all_found &= fits(bytes, runs.len());
            runs.last_mut().expect("there is a run").push(record.clone());
        }
        let n = runs.len();
        if all_found && n <= n_of_width && n.to_string().len() == n_of_width.to_string().len() {
            return Ok((1..).zip(&runs).map(|(k, run)| piece(run, n, k)).collect());
        }
    }
    Err(Refusal { number: 18, line: 0 })
}

fn is_line_1(line: &[u8]) -> bool {
    line == b"JAHISTC04,1" || line == b"JAHISTC04,2"
}

fn is_911(line: &[u8]) -> bool {
    line == b"911" || line.starts_with(b"911,")
}

/// The lines of joining's input without 1Ah, or the first line that breaks the rule of line ends.
fn lines_of_pieces(input: &[u8]) -> Result<Lines, u64> {
    let mut parts: Vec<Vec<u8>> = vec![Vec::new()];
    for &byte in input {
        let part = parts.last_mut().expect("there is a part");
        part.push(byte);
        if part.ends_with(b"\r\n") {
            part.truncate(part.len() - 2);
            parts.push(Vec::new());
        }
    }
    let (mut lines, mut in_piece) = (Vec::new(), false);
    let last = parts.len() as u64;
    for (number, mut part) in (1..).zip(parts) {
        if in_piece && part.first() == Some(&0x1A) {
            let next_is_good = if number == last { part.len() == 1 } else { is_line_1(&part[1..]) };
            if next_is_good {
                part.remove(0);
            }
        }
        let stray = part.iter().any(|byte| matches!(byte, 0x0D | 0x0A | 0x1A));
        let unended = number == last && (!part.is_empty() || number == 1);
        if stray || unended {
            return Err(number);
        }
        if number < last {
            in_piece |= is_line_1(&part);
            lines.push(part);
        }
    }
    Ok(lines)
}

/// ID, n and k of a 911.
fn items_of_911(line: &[u8]) -> Option<(Vec<u8>, usize, usize)> {
    let items: Lines = line.split(|&byte| byte == b',').map(<[u8]>::to_vec).collect();
    let [_, id, n, k] = &items[..] else { return None };
    let digits = |item: &[u8]| item.iter().all(u8::is_ascii_digit);
    let number = |item: &[u8]| String::from_utf8_lossy(item).parse::<usize>().ok();
    let good = id.len() == 14 && digits(id) && [n, k].iter().all(|item| matches!(item.len(), 1..=3) && digits(item));
    if !good {
        return None;
    }
    Some((id.clone(), number(n)?, number(k)?))
}

/// The joined lines if the lines are a set of pieces.
fn joined_lines(lines: &[Vec<u8>]) -> Option<Lines> {
    if !is_line_1(&lines[0]) {
        return None;
    }
    let pieces: Vec<&[Vec<u8>]> = lines.chunk_by(|_, next| !is_line_1(next)).collect();
    if pieces.len() == 1 && !pieces[0].iter().any(|line| is_911(line)) {
        return Some(pieces[0].to_vec());
    }
    let mut by_k: Vec<(usize, &[Vec<u8>])> = Vec::new();
    let (first_id, first_n, _) = items_of_911(pieces[0].last()?)?;
    for piece in &pieces {
        let marks = piece.iter().filter(|line| is_911(line)).count();
        let (last, records) = piece[1..].split_last()?;
        let (id, n, k) = items_of_911(last).filter(|_| is_911(last) && marks == 1)?;
        if piece[0] != pieces[0][0] || id != first_id || n != first_n {
            return None;
        }
        by_k.push((k, records));
    }
    by_k.sort_by_key(|(k, _)| *k);
    let counted = by_k.iter().map(|(k, _)| *k).eq(1..=first_n);
    if !counted || !(2..=999).contains(&first_n) {
        return None;
    }
    let records = by_k.iter().flat_map(|(_, records)| records.iter().cloned());
    Some([lines[0].clone()].into_iter().chain(records).collect())
}

fn reference_join(input: &[u8]) -> Result<Vec<u8>, Refusal> {
    if input.len() > 131_072 {
        return Err(Refusal { number: 1, line: 0 });
    }
    let lines = lines_of_pieces(input).map_err(|line| Refusal { number: 2, line })?;
    let file = bytes_of(&joined_lines(&lines).ok_or(Refusal { number: 19, line: 0 })?);
    ends_with_check(&file, || file.clone())
}

/// What a call leaves in a buffer of `length`: the result, and after it what stood there.
fn left<T: Copy>(result: &[T], length: usize, filling: T) -> Vec<T> {
    result.iter().copied().chain(std::iter::repeat_n(filling, length - result.len())).collect()
}

#[test]
fn the_fast_calls_agree_with_the_reference() {
    let files = Damage::default();
    for number in 0..2_000 {
        let file = files.file(11, number);

        let (expected, mut out) = (reference_index(&file), vec![9; 7 * 8_192]);
        assert_eq!(index(&file, &mut out), expected.clone().map(|entries| entries.len() as u64 / 7), "index {number}");
        assert!(out == left(&expected.unwrap_or_default(), out.len(), 9), "index {number}");

        let (expected, mut out) = (reference_canonical(&file), vec![b'?'; 65_536]);
        assert_eq!(canonical(&file, &mut out), expected.clone().map(|bytes| bytes.len() as u64), "canonical {number}");
        assert!(out == left(&expected.unwrap_or_default(), out.len(), b'?'), "canonical {number}");

        let CutInput { file: cut_file, capacity, id, used } = CutInput::new(11, number, &file, &files);
        let (expected, mut out) = (reference_cut(&cut_file, capacity, &id, &used), vec![b'?'; MOST_PIECES_BYTES]);
        let answer = expected.as_ref().map(|list| Pieces { count: list.len() as u64, bytes: list.concat().len() as u64 });
        assert_eq!(cut(&cut_file, capacity, &id, &used, &mut out), answer.map_err(|refusal| *refusal), "cut {number}");
        assert!(out == left(&expected.unwrap_or_default().concat(), out.len(), b'?'), "cut {number}");

        let input = join_input(11, number, &file, &files);
        let (expected, mut out) = (reference_join(&input), vec![b'?'; 65_536]);
        assert_eq!(join(&input, &mut out), expected.clone().map(|bytes| bytes.len() as u64), "join {number}");
        assert!(out == left(&expected.unwrap_or_default(), out.len(), b'?'), "join {number}");
    }
}
