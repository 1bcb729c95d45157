//! Kana names, the last item of record 1: made near the rule of their script, and counted by what they have come near. The
//! rule: "all one-byte, or all hiragana (row 4), or all katakana (row 5). The characters 8140h and 815Bh are allowed with
//! either two-byte script, or by themselves."

use crate::ordinary::{check, Counts, Refusal};
use crate::random::Random;
use std::collections::{BTreeMap, BTreeSet};
use std::ops::Range;

/// Characters that the rule tells apart, or that lie near those in the tables of characters.
#[derive(Clone, Copy, Debug, PartialEq, Eq, PartialOrd, Ord)]
enum Sort {
    Narrow,
    Hiragana,
    Katakana,
    /// 8140h.
    Space,
    /// 815Bh.
    Long,
    /// The other characters of row 1, with the lead of 8140h and 815Bh.
    Mark,
    /// Digits and letters, with the lead of hiragana.
    Row3,
    /// Greek letters, with the lead of katakana.
    Row6,
    Kanji,
}

use Sort::*;

impl Sort {
    const ALL: [Sort; 9] = [Narrow, Hiragana, Katakana, Space, Long, Mark, Row3, Row6, Kanji];

    /// The sort of a character by its bytes; all others count as kanji.
    fn of(character: &[u8]) -> Sort {
        match character {
            [_] => Narrow,
            [0x81, 0x40] => Space,
            [0x81, 0x5B] => Long,
            [0x81, ..=0x9E] => Mark,
            [0x82, ..=0x9E] => Row3,
            [0x82, _] => Hiragana,
            [0x83, ..=0x9E] => Katakana,
            [0x83, _] => Row6,
            _ => Kanji,
        }
    }

    fn word(self) -> &'static str {
        match self {
            Narrow => "one-byte",
            Hiragana => "hiragana",
            Katakana => "katakana",
            Space => "8140h",
            Long => "815Bh",
            Mark => "row 1",
            Row3 => "row 3",
            Row6 => "row 6",
            Kanji => "kanji",
        }
    }

    /// A character of the sort: often the first or the last of its row, or one beside another sort.
    fn character(self, random: &mut Random) -> Vec<u8> {
        let near = random.once_in(4);
        match self {
            Narrow => vec![b"Aa0-[ \xA1\xA6\xB0\xB1\xDF"[random.below(11)]],
            Space => b"\x81\x40".to_vec(),
            Long => b"\x81\x5B".to_vec(),
            Hiragana if near => random.pick(&[b"\x82\x9F", b"\x82\xF1"]).to_vec(),
            Hiragana => vec![0x82, 0x9F + random.below(83) as u8],
            Katakana if near => random.pick(&[b"\x83\x40", b"\x83\x5B", b"\x83\x7E", b"\x83\x80", b"\x83\x96"]).to_vec(),
            // 7Fh is no trail.
            Katakana => vec![0x83, [0x40 + random.below(63), 0x80 + random.below(23)][random.below(2)] as u8],
            // The middle dot, the sound marks and those of repetition; what stands beside 8140h and 815Bh, and the last.
            Mark => {
                let trail =
                    [0x45, 0x4A, 0x4B, 0x52, 0x53, 0x54, 0x55, 0x41, 0x5A, 0x5C, 0x7E, 0x80, 0x9E][random.below(13)];
                vec![0x81, trail]
            }
            Row3 => random.pick(&[b"\x82\x4F", b"\x82\x58", b"\x82\x60", b"\x82\x79", b"\x82\x81", b"\x82\x9A"]).to_vec(),
            Row6 => random.pick(&[b"\x83\x9F", b"\x83\xB6", b"\x83\xBF", b"\x83\xD6"]).to_vec(),
            // Some with a trail that is a lead, 40h or 5Bh; and one of row 2, with the lead of row 1.
            Kanji => {
                let kanji: &[&[u8; 2]] = &[
                    b"\x88\x9F",
                    b"\x8A\x81",
                    b"\x8A\x82",
                    b"\x8A\x83",
                    b"\x8B\x40",
                    b"\x8B\x5B",
                    b"\xEA\xA2",
                    b"\x81\x9F",
                ];
                random.pick(kanji).to_vec()
            }
        }
    }
}

/// Sorts of which names of one script consist.
const GOOD: [&[Sort]; 9] = [
    &[Narrow],
    &[Hiragana],
    &[Hiragana, Space],
    &[Hiragana, Hiragana, Long, Space],
    &[Katakana],
    &[Katakana, Space],
    &[Katakana, Katakana, Long, Space],
    &[Long],
    &[Long, Space],
];

/// A kana name: one in eight is mixed, the others are of one script and have up to twenty characters.
pub fn name(random: &mut Random) -> Vec<u8> {
    if random.once_in(8) {
        return mixed(random);
    }
    let sorts = random.pick(&GOOD);
    let count = [1, 2, 3, 20, 1 + random.below(20)][random.below(5)];
    let name: Vec<Sort> = (0..count).map(|_| sorts[random.below(sorts.len())]).collect();
    spelled(random, &name)
}

/// A name of any one or two sorts, often with one character alone of the first; or of hiragana and katakana with 8140h or 815Bh
/// between them. A few are too long.
pub fn mixed(random: &mut Random) -> Vec<u8> {
    let count = [2, 3, 5, 20, 2 + random.below(19)][random.below(5)];
    let count = if random.once_in(16) { 21 } else { count };
    let first = [1, 1 + random.below(count - 1)][random.below(2)];
    if random.once_in(8) {
        let [one, other] = [[Hiragana, Katakana], [Katakana, Hiragana]][random.below(2)];
        let between = [Space, Long][random.below(2)];
        return spelled(random, &[vec![one; first], vec![between, other]].concat());
    }
    let [one, other] = [(); 2].map(|()| Sort::ALL[random.below(Sort::ALL.len())]);
    let other = if random.once_in(8) { one } else { other };
    let mut name = [vec![one; first], vec![other; count - first]].concat();
    match (other, first) {
        (Space, _) => name.push(one),
        (_, 1) => name.rotate_left([0, 1, random.below(count)][random.below(3)]),
        _ => random.shuffle(&mut name),
    }
    spelled(random, &name)
}

/// Characters of these sorts. 10 comes before 11: fifteen in sixteen have no space at their ends.
fn spelled(random: &mut Random, name: &[Sort]) -> Vec<u8> {
    let characters: Vec<Vec<u8>> = name.iter().map(|sort| sort.character(random)).collect();
    if random.once_in(16) {
        return [&characters.concat()[..], random.pick(&[&b" "[..], b"\x81\x40"])].concat();
    }
    let space = |character: &Vec<u8>| matches!(&character[..], b" " | b"\x81\x40");
    let ended = characters.iter().rposition(|character| !space(character)).map_or(0, |last| last + 1);
    characters[..ended].iter().skip_while(|character| space(character)).flatten().copied().collect()
}

/// Gives a file another kana name, if its second line is a record 1.
pub fn rename(file: &mut Vec<u8>, name: &[u8]) {
    if let Some(place) = name_in(file) {
        file.splice(place, name.iter().copied());
    }
}

/// Where the kana name lies in a file whose second line is a record 1.
fn name_in(file: &[u8]) -> Option<Range<usize>> {
    const LINE_1: usize = "JAHISTC04,1\r\n".len();
    let record = file.get(LINE_1..)?.split(|&byte| byte == b'\r').next().filter(|record| record.starts_with(b"1,"))?;
    let last = record.iter().rposition(|&byte| byte == b',')? + 1;
    Some(LINE_1 + last..LINE_1 + record.len())
}

/// How often names of each set of sorts have been accepted and refused.
#[derive(Default)]
pub struct Kana {
    accepted: BTreeMap<BTreeSet<Sort>, u64>,
    /// Refused with 11, and not so without the name.
    refused: BTreeMap<BTreeSet<Sort>, u64>,
    /// Of these, with one character alone of another sort than all the others: where it stands.
    lone: [u64; PLACES.len()],
    /// Refused with 9 and 10, which come before 11, though their sorts do not go together.
    earlier: [u64; EARLIER.len()],
}

const PLACES: [&str; 4] = ["first", "between others", "last", "last of twenty"];
const EARLIER: [u8; 2] = [9, 10];

/// Sorts that go together in a name.
fn go_together(sorts: &BTreeSet<Sort>) -> bool {
    let scripts: [&[Sort]; 3] = [&[Narrow], &[Hiragana, Space, Long], &[Katakana, Space, Long]];
    scripts.iter().any(|script| sorts.iter().all(|sort| script.contains(sort)))
}

/// The sorts of the characters of a name, each of which is one.
fn sorts_of(name: &[u8]) -> Vec<Sort> {
    let mut sorts = Vec::new();
    let mut rest = name;
    while let [byte, ..] = rest {
        let width = if matches!(byte, 0x20..=0x7E | 0xA1..=0xDF) { 1 } else { 2 };
        let (character, after) = rest.split_at(width);
        sorts.push(Sort::of(character));
        rest = after;
    }
    sorts
}

impl Kana {
    /// Counts the name of a file with check's answer to it.
    pub fn count(&mut self, file: &[u8], answer: Result<Counts, Refusal>) {
        // A record 1 that is accepted stands in line 2; 4 comes before what is counted here, so the name has characters.
        let number = match answer {
            Ok(_) => 0,
            Err(Refusal { number: number @ 9..=11, line: 2 }) => number,
            Err(_) => return,
        };
        let Some(place) = name_in(file) else { return };
        let sorts = sorts_of(&file[place.clone()]);
        let set: BTreeSet<Sort> = sorts.iter().copied().collect();
        if number == 0 {
            *self.accepted.entry(set).or_default() += 1;
            return;
        }
        let without = [&file[..place.start], &file[place.end..]].concat();
        if check(&without) == answer {
            return;
        }
        if let Some(place) = EARLIER.iter().position(|&earlier| earlier == number) {
            self.earlier[place] += u64::from(!go_together(&set));
            return;
        }
        *self.refused.entry(set).or_default() += 1;
        if let Some(place) = lone(&sorts) {
            self.lone[place] += 1;
        }
    }

    /// What is counted, and each count with its name. All of them can occur.
    fn rows(&self) -> Vec<(String, Vec<(String, u64)>)> {
        let all = || Sort::ALL.into_iter();
        let named = |sets: Vec<Vec<Sort>>, counts: &BTreeMap<BTreeSet<Sort>, u64>| -> Vec<(String, u64)> {
            let count = |sorts: &[Sort]| counts.get(&sorts.iter().copied().collect()).copied().unwrap_or_default();
            sets.into_iter().map(|sorts| (words(&sorts), count(&sorts))).collect()
        };
        let with_both = |kana| vec![vec![kana], vec![kana, Space], vec![kana, Long], vec![kana, Space, Long]];
        let good = [vec![vec![], vec![Narrow], vec![Long], vec![Space, Long]], with_both(Hiragana), with_both(Katakana)];
        let others = all().filter(|&sort| !go_together(&[sort].into())).map(|sort| vec![sort]);
        let hidden = [Space, Long].map(|between| vec![Hiragana, Katakana, between]);
        let mut rows = vec![
            ("kana name accepted of".to_string(), named(good.concat(), &self.accepted)),
            ("kana name refused of".to_string(), named(others.chain(hidden).collect(), &self.refused)),
        ];
        for one in Sort::ALL {
            let pairs = all().filter(|&other| one < other && !go_together(&[one, other].into()));
            let pairs: Vec<Vec<Sort>> = pairs.map(|other| vec![one, other]).collect();
            if !pairs.is_empty() {
                rows.push(("kana name refused of".to_string(), named(pairs, &self.refused)));
            }
        }
        let places = PLACES.iter().map(|place| place.to_string()).zip(self.lone);
        rows.push(("kana name refused for one character".to_string(), places.collect()));
        let earlier = EARLIER.iter().map(|number| number.to_string()).zip(self.earlier);
        rows.push(("kana name of sorts for 11 refused with".to_string(), earlier.collect()));
        rows
    }

    /// What has not occurred though it can.
    pub fn missing(&self) -> impl Iterator<Item = String> {
        let rows = self.rows().into_iter();
        rows.flat_map(|(what, counts)| {
            let absent = counts.into_iter().filter(|(_, count)| *count == 0);
            absent.map(move |(name, _)| format!("check: {what} {name}: none"))
        })
    }

    /// A line for each row.
    pub fn summary(&self) -> String {
        let line = |(what, counts): (String, Vec<(String, u64)>)| {
            let counts: Vec<String> = counts.iter().map(|(name, count)| format!("{name}: {count}")).collect();
            format!("{what}  {}\n", counts.join(", "))
        };
        self.rows().into_iter().map(line).collect()
    }
}

/// Where the only character of another sort than all the others stands.
fn lone(sorts: &[Sort]) -> Option<usize> {
    let [first, middle @ .., last] = sorts else { return None };
    let same = |sorts: &[Sort]| sorts.windows(2).all(|pair| pair[0] == pair[1]);
    let others = |place: usize| [&sorts[..place], &sorts[place + 1..]].concat();
    match middle {
        [] => None,
        [one, ..] if first != one && same(&sorts[1..]) => Some(0),
        [one, ..] if last != one && same(&sorts[..sorts.len() - 1]) => Some(if sorts.len() == 20 { 3 } else { 2 }),
        _ => (1..=middle.len()).any(|place| sorts[place] != *first && same(&others(place))).then_some(1),
    }
}

fn words(sorts: &[Sort]) -> String {
    if sorts.is_empty() {
        return "nothing".to_string();
    }
    sorts.iter().map(|sort| sort.word()).collect::<Vec<_>>().join(" and ")
}

#[cfg(test)]
mod tests {
    use super::*;

    fn with_name(name: &[u8]) -> Vec<u8> {
        [b"JAHISTC04,2\r\n1,A,1,19890108,,,,,,,", name, b"\r\n"].concat()
    }

    #[test]
    fn names_that_have_not_occurred_are_missing() {
        let mut kana = Kana::default();
        assert_eq!(kana.missing().count(), 12 + (4 + 2) + 31 + 4 + 2);
        let mut count = |file: &[u8]| {
            kana.count(file, check(file));
            kana.missing().collect::<Vec<_>>()
        };
        let lacks = |missing: &[String], what: &str| missing.contains(&format!("check: kana name {what}: none"));

        let missing = count(&with_name(b""));
        assert!(!lacks(&missing, "accepted of nothing") && lacks(&missing, "accepted of one-byte"));
        let missing = count(&with_name(b"\x82\xA0\x81\x40\x82\xA0"));
        assert!(!lacks(&missing, "accepted of hiragana and 8140h") && lacks(&missing, "accepted of hiragana"));
        let missing = count(&with_name(b"\x83\x41\x81\x5B"));
        assert!(!lacks(&missing, "accepted of katakana and 815Bh"));

        let missing = count(&with_name(b"\x82\xA0\x83\x41"));
        assert!(!lacks(&missing, "refused of hiragana and katakana"));
        assert!(lacks(&missing, "refused of hiragana and katakana and 815Bh"));
        assert!(PLACES.iter().all(|place| lacks(&missing, &format!("refused for one character {place}"))));
        let missing = count(&with_name(b"\x82\xA0\x81\x5B\x83\x41"));
        assert!(!lacks(&missing, "refused of hiragana and katakana and 815Bh"));
        let missing = count(&with_name(b"\x82\xA0\x82\x4F\x82\xA0"));
        assert!(!lacks(&missing, "refused of hiragana and row 3"));
        assert!(!lacks(&missing, "refused for one character between others"));
        let missing = count(&with_name(b"\x83\x9F\x82\xA0\x82\xA0"));
        assert!(!lacks(&missing, "refused for one character first"));
        let missing = count(&with_name(b"AA\x81\x45"));
        assert!(!lacks(&missing, "refused for one character last"));
        assert!(lacks(&missing, "refused for one character last of twenty"));
        let missing = count(&with_name(&[&b"\x82\xA0".repeat(19)[..], b"\x83\x41"].concat()));
        assert!(!lacks(&missing, "refused for one character last of twenty"));

        // What is refused for something else is no name of its own.
        let missing = count(b"JAHISTC04,2\r\n1,A,3,19890108,,,,,,,\x8A\xBF\r\n");
        assert!(lacks(&missing, "refused of kanji"));
        assert!(!lacks(&count(&with_name(b"\x8A\xBF")), "refused of kanji"));
        let missing = count(&with_name(&b"\x83\x41".repeat(21)));
        assert!(lacks(&missing, "of sorts for 11 refused with 9"));
        let missing = count(&with_name(&b"A\x83\x41".repeat(14)));
        assert!(!lacks(&missing, "of sorts for 11 refused with 9") && lacks(&missing, "of sorts for 11 refused with 10"));
        assert!(!lacks(&count(&with_name(b" \x83\x41")), "of sorts for 11 refused with 10"));
    }

    #[test]
    fn names_come_near_every_part_of_the_rule() {
        let (mut kana, mut random) = (Kana::default(), Random::new(1));
        let mut good = 0;
        for _ in 0..8_000 {
            let file = with_name(&name(&mut random));
            let answer = check(&file);
            good += u32::from(answer.is_ok());
            kana.count(&file, answer);
        }
        assert_eq!(kana.missing().collect::<Vec<_>>(), Vec::<String>::new());
        assert!((5_500..7_000).contains(&good), "{good} of 8000 are accepted");
    }
}
