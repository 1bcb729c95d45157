//! Files to compare implementations on: samples with damage of many kinds, and random walks through the order of records.
//! Seed and index give the same file on every machine.

use crate::calendar::{beginnings, edges, letters, near_a_beginning, Day};
use crate::kana;
use crate::random::Random;
use crate::sample::{self, sized_from};
use std::sync::LazyLock;

/// The samples that are damaged.
pub struct Damage {
    small: Vec<Vec<u8>>,
    large: Vec<u8>,
}

impl Default for Damage {
    fn default() -> Self {
        // The newest groups of a sample are some days after an era begins, its other groups mostly before that. No day is
        // before the oldest era. The groups of the large one reach back five years, from about two years after the newest
        // era begins to the time before it.
        let starts = beginnings().map(|first| (0..12).fold(first, |day, _| day.after()));
        let newest: Vec<Day> = [sample::NEWEST].into_iter().chain(starts.take(beginnings().count() - 1)).collect();
        let sizes = [1_000, 1_500, 2_500, 4_000];
        let mut small: Vec<Vec<u8>> = newest.iter().flat_map(|&day| sizes.map(|size| sized_from(day, size))).collect();
        for (file, name) in small.iter_mut().zip(KANA_NAMES.iter().cycle()) {
            kana::rename(file, name);
        }
        let begun = beginnings().next().expect("there is an era");
        Damage { small, large: sized_from(Day::new(begun.year() + 2, 4, 11), 60_000) }
    }
}

impl Damage {
    /// The file of this seed and index: one time in eight without damage, else with one to three damages. Patients alone, with
    /// kana names near the rule, are left as they are.
    pub fn file(&self, seed: u64, index: u64) -> Vec<u8> {
        let mut random = Random::of(seed, index);
        let mut file = match random.below(64) {
            0 => return random_bytes(&mut random, 200),
            1 => self.large.clone(),
            2..=9 => groups(&mut random),
            10..=31 => walk(&mut random),
            32..=36 => clinics(&mut random),
            37..=39 => return kana_name(&mut random),
            _ => self.small[random.below(self.small.len())].clone(),
        };
        if random.once_in(3) {
            file[10] = random.pick(&[b"1", b"2"])[0];
        }
        if !random.once_in(8) {
            for _ in 0..[1, 1, 1, 2, 3][random.below(5)] {
                damage(&mut random, &mut file);
            }
        }
        file
    }

    /// A sample without damage; once in thirty-two the large one.
    pub fn sample(&self, random: &mut Random) -> Vec<u8> {
        let large = random.once_in(32);
        if large { &self.large } else { &self.small[random.below(self.small.len())] }.clone()
    }
}

/// Kana names of the samples: half-width, hiragana, katakana, the mark of a long vowel alone, and none.
const KANA_NAMES: &[&[u8]] = &[
    b"\xC0\xB6\xC2 \xBB\xC1\xBA",
    b"\x82\xBD\x82\xA9\x82\xC2\x81\x40\x82\xB3\x81\x5B",
    b"\x83\x5E\x83\x4A\x83\x63\x81\x40\x83\x54\x81\x5B",
    b"\x81\x5B",
    b"",
];

/// Bytes and items that the rules speak of, beside letters of eras and days.
const BYTES: &[u8] =
    b"\r\n\x1A ,\"'.-0123489@\x7E\x7F\x80\x81\x40\x82\x84\x85\x88\x98\x9F\xA0\xA1\xDF\xE0\xEA\xEB\xEF\xF0\xFC\xFD\x00\x1F";
#[rustfmt::skip]
const ITEMS: &[&[u8]] = &[
    b"0", b"1", b"2", b"3", b"4", b"5", b"6", b"7", b"8", b"9", b"10", b"11", b"01", b"001", b"0001", b"002", b"000", b"999", b"1000",
    b"30", b"31", b"99", b"00", b"47", b"48", b"0.25", b"1.50", b".5", b"1.", b"0.0", b"00.5", b"123456.12345", b"1234567.1", b"999.125",
    b"1050001", b"105-0001", b"105-00011", b"10-50001", b"123456", b"0412345", b"12345678",
    b"20160411", b"20160431", b"19000229", b"20000229", b"20160412", b"20150101",
    b"A", b"a.b-c", b"a_b", b"a b", b" ", b"\"", b"'", b"\"\"", b"''", b"'x'", b"\"x'", b"2171022F1010", b"12345678901234", b"1013044400000000", b"10130444000000001",
    b"\x92\xB2\x8D\xDC", b"\x93\xFA\x95\xAA", b"\x89\xF1\x95\xAA", b"\x81\x40", b"\x8A\x81\x40", b"\x8A\x81\x81\x40", b"\x83\x41", b"\x83\x41A", b"A\x83\x41", b"\xB1\xB2",
    b"\x82\xA0", b"\x82\xA0\x83\x41", b"\x83\x41\x81\x5B", b"\x82\xF2", b"\x83\x97",
    b"911", b"", b"",
];

static ALL_BYTES: LazyLock<Vec<u8>> = LazyLock::new(|| BYTES.iter().copied().chain(letters()).collect());
static ALL_ITEMS: LazyLock<Vec<Vec<u8>>> =
    LazyLock::new(|| ITEMS.iter().map(|item| item.to_vec()).chain(edges()).collect());

fn some_byte(random: &mut Random) -> u8 {
    ALL_BYTES[random.below(ALL_BYTES.len())]
}

fn some_item(random: &mut Random) -> Vec<u8> {
    ALL_ITEMS[random.below(ALL_ITEMS.len())].clone()
}

/// Damages the file once. A file without lines stays as it is under damages of lines.
pub fn damage(random: &mut Random, file: &mut Vec<u8>) {
    match random.below(23) {
        0 => change(random, file, |random| random.below(256) as u8),
        1 => change(random, file, some_byte),
        2 => {
            let at = random.below(file.len() + 1);
            file.insert(at, some_byte(random));
        }
        3 if !file.is_empty() => {
            let at = random.below(file.len());
            file.remove(at);
        }
        4 => {
            let at = random.below(file.len() + 1);
            file.truncate(at);
        }
        5 => {
            let at = random.below(file.len() + 1);
            let bytes = random_bytes(random, 6);
            file.splice(at..at, bytes);
        }
        6 => file.extend_from_slice(random.pick(&[
            &b"\x1A"[..],
            b"\x1A\x1A",
            b"\r\n",
            b"\r\n\x1A",
            b"\x1A\r\n",
            b"5",
            b"911\r\n",
        ])),
        7 if random.once_in(4) => file.resize(65_537 - random.below(3), b'x'),
        8..=12 => with_lines(file, |lines| damage_lines(random, lines)),
        13 => kana::rename(file, &kana::name(random)),
        _ => with_lines(file, |lines| {
            let line = 1 + random.below(lines.len().max(2) - 1);
            if let Some(line) = lines.get_mut(line) {
                damage_items(random, line);
            }
        }),
    }
}

fn change(random: &mut Random, file: &mut [u8], byte: impl Fn(&mut Random) -> u8) {
    if !file.is_empty() {
        let at = random.below(file.len());
        file[at] = byte(random);
    }
}

/// Deletes, duplicates, swaps or moves lines. Line 1 is left in place, but once in twenty.
fn damage_lines(random: &mut Random, lines: &mut Vec<Vec<u8>>) {
    let first = if random.once_in(20) { 0 } else { 1 };
    if lines.len() <= first {
        return;
    }
    let from = first + random.below(lines.len() - first);
    let to = first + random.below(lines.len() - first);
    match random.below(5) {
        0 => {
            lines.remove(from);
        }
        1 => {
            let line = lines[from].clone();
            lines.insert(to, line);
        }
        2 => lines.swap(from, to),
        3 => {
            let next = (from + 1).min(lines.len() - 1);
            lines.swap(from, next);
        }
        _ => {
            let line = lines.remove(from);
            lines.insert(to.min(lines.len()), line);
        }
    }
}

/// Empties, lengthens, respells, replaces, adds or takes away items of a line.
fn damage_items(random: &mut Random, line: &mut Vec<u8>) {
    let mut items: Vec<Vec<u8>> = line.split(|&byte| byte == b',').map(<[u8]>::to_vec).collect();
    let at = random.below(items.len());
    match random.below(12) {
        0 => items[at].clear(),
        1 => {
            let more = random.pick(&[&b"x"[..], b"\xB1", b"\x8A\x81", b"0"]);
            // To the most bytes that some item may have, or one character more.
            let most = [12, 13, 16, 20, 40, 80, 100, 120, 400, 800][random.below(10)];
            let most = if random.once_in(2) { most } else { most + more.len() };
            while items[at].len() + more.len() <= most {
                items[at].extend_from_slice(more);
            }
        }
        2 => items[at].splice(0..0, random.pick(EDGES).iter().copied()).for_each(drop),
        3 => items[at].extend_from_slice(random.pick(EDGES)),
        4 => {
            let edge = random.pick(EDGES);
            items[at] = [edge, &items[at], edge].concat();
        }
        5 => items.insert(at, some_item(random)),
        6 => {
            items.remove(at);
        }
        7 => items.iter_mut().for_each(respell),
        8 => {
            let pair = [0x80 + random.below(0x74) as u8, 0x3F + random.below(0xBF) as u8];
            items[at].extend_from_slice(&pair);
        }
        _ => items[at] = some_item(random),
    }
    *line = items.join(&b',');
}

const EDGES: &[&[u8]] = &[b" ", b"\x81\x40", b"\"", b"'", b"@", b"\x8A\x81\x40", b"0"];

/// Writes a day or a postal code in another spelling.
fn respell(item: &mut Vec<u8>) {
    if let Some(day) = Day::read(item) {
        *item = day.respelled(item);
    } else if item.len() == 8 && item[3] == b'-' {
        item.remove(3);
    } else if item.len() == 7 && item.iter().all(u8::is_ascii_digit) {
        item.insert(3, b'-');
    }
}

/// Hands the lines without their ends to `edit` and writes them back; what follows the last line end stays.
fn with_lines(file: &mut Vec<u8>, edit: impl FnOnce(&mut Vec<Vec<u8>>)) {
    let mut lines = Vec::new();
    let mut from = 0;
    while let Some(length) = file[from..].windows(2).position(|pair| pair == b"\r\n") {
        lines.push(file[from..from + length].to_vec());
        from += length + 2;
    }
    let rest = file.split_off(from);
    edit(&mut lines);
    file.clear();
    for line in lines {
        file.extend_from_slice(&line);
        file.extend_from_slice(b"\r\n");
    }
    file.extend_from_slice(&rest);
}

fn random_bytes(random: &mut Random, most: usize) -> Vec<u8> {
    (0..random.below(most)).map(|_| random.below(256) as u8).collect()
}

/// The numbers that often follow a number; 0 stands for the beginning.
#[rustfmt::skip]
const FOLLOWERS: &[(u16, &[u16])] = &[
    (0, &[1, 1, 1, 1, 2, 3, 4, 5, 5]), (1, &[2, 3, 4, 5, 5, 5, 5, 701]), (2, &[2, 3, 4, 5, 5]), (3, &[3, 4, 5, 5]), (4, &[4, 5, 5, 5]),
    (5, &[11, 11, 11, 11, 11, 15, 51, 55, 201, 411]), (11, &[15, 51, 51, 51, 55, 201, 201, 411]), (15, &[51, 51, 55, 201, 411]),
    (51, &[55, 201, 201]), (55, &[201]),
    (201, &[201, 281, 291, 301, 301, 301, 301, 391]), (281, &[281, 291, 201, 301, 301]), (291, &[291, 201, 301, 301]),
    (301, &[311, 391, 201, 201, 55, 401, 411, 501, 601, 5, 5, 5, 701]), (311, &[311, 391, 201, 55, 401, 5]), (391, &[391, 201, 55, 401, 5, 701]),
    (401, &[401, 411, 501, 601, 5, 5, 701]), (411, &[411, 501, 601, 5, 5, 701]), (501, &[501, 601, 5, 701]), (601, &[601, 5, 701]), (701, &[701]),
];

/// A file of up to thirty short records, most of them where they can stand, with RP values and days mostly as they should be.
fn walk(random: &mut Random) -> Vec<u8> {
    let mut file = random.pick(&[b"JAHISTC04,1\r\n", b"JAHISTC04,2\r\n"]).to_vec();
    let kinds: &[&str] = if random.once_in(2) { &["4"] } else { &["1", "3", "4", "4", ""] };
    let stray = 10 + random.below(100);
    let (mut last, mut rp, mut day) = (0, 0, near_a_beginning(random));
    for _ in 0..random.below(30) {
        let usual = FOLLOWERS.iter().find(|(number, _)| *number == last).map_or(&[5][..], |(_, followers)| followers);
        let number =
            if random.once_in(stray) { FOLLOWERS[1 + random.below(20)].0 } else { usual[random.below(usual.len())] };
        match number {
            5 => {
                rp = 0;
                day = next_day(random, day);
            }
            201 if matches!(last, 201 | 281 | 291) && !random.once_in(3) => {}
            201 => rp += 1,
            _ => {}
        }
        let value = if random.once_in(stray) { random.below(4) } else { rp };
        file.extend_from_slice(&short_record(random, number, value, day, kinds));
        file.extend_from_slice(b"\r\n");
        last = number;
    }
    file
}

/// Direction 2: a patient, and groups of nothing but their days.
fn groups(random: &mut Random) -> Vec<u8> {
    let numbers = [&[1][..], &[5].repeat(2 + random.below(9))].concat();
    in_direction_2(random, &numbers)
}

/// Direction 2: a patient, groups with and without a clinic and any other record, and notes after them.
fn clinics(random: &mut Random) -> Vec<u8> {
    let mut numbers = vec![1];
    for _ in 0..2 + random.below(5) {
        numbers.push(5);
        numbers.extend(some_of(random, &[11, 15, 51]));
        if random.once_in(2) {
            numbers.extend(some_of(random, &[55]));
            numbers.push(201);
            numbers.extend(some_of(random, &[281, 291]));
            // A 311 stands only after a 301.
            numbers.extend([&[][..], &[301], &[301, 311]][random.below(3)]);
            numbers.extend(some_of(random, &[391]));
        }
        numbers.extend(some_of(random, &[401, 411, 501, 601]));
    }
    numbers.extend([701].repeat(random.below(3)));
    in_direction_2(random, &numbers)
}

fn some_of(random: &mut Random, numbers: &[u16]) -> Vec<u16> {
    numbers.iter().copied().filter(|_| random.once_in(2)).collect()
}

/// The records of these numbers in direction 2; the groups' days follow each other, and every RP is its group's first.
fn in_direction_2(random: &mut Random, numbers: &[u16]) -> Vec<u8> {
    let mut day = near_a_beginning(random);
    let mut file = b"JAHISTC04,2\r\n".to_vec();
    for &number in numbers {
        if number == 5 {
            day = next_day(random, day);
        }
        file.extend_from_slice(&short_record(random, number, 1, day, &["1", "3", "4", ""]));
        file.extend_from_slice(b"\r\n");
    }
    file
}

/// The day of the next group: the same or up to two days older, and once in fifteen a day newer.
fn next_day(random: &mut Random, day: Day) -> Day {
    if random.once_in(15) {
        return day.after();
    }
    (0..random.below(3)).fold(day, |day, _| day.before())
}

/// A record with few bytes that is good by itself, most of the time.
fn short_record(random: &mut Random, number: u16, rp: usize, day: Day, kinds: &[&str]) -> Vec<u8> {
    let rp = if random.once_in(10) { format!("{rp:03}") } else { rp.to_string() };
    let text = match number {
        1 => return patient(random),
        2 => "2,1,x,1".to_string(),
        3 => format!("3,x,{},8", two_days(random)),
        4 => format!("4,x,{},2", some_day_or_none(random)),
        5 => format!("5,{},1", String::from_utf8_lossy(&day.spelled(random))),
        11 => format!("11,a,13,{},,,,,1", random.pick(kinds)),
        15 => "15,a,,1".to_string(),
        51 => "51,b,13,1,,1".to_string(),
        55 => "55,c,,1".to_string(),
        201 => format!("201,{rp},d,1,e,{},1", random.pick(&["1,", "1,", "4,X", "1,"])),
        301 => return usage(random, &rp),
        281 | 291 | 311 | 391 => format!("{number},{rp},x,1"),
        401 | 501 => format!("{number},x,1"),
        411 => "411,x,30,1".to_string(),
        601 => format!("601,x,{}", some_day_or_none(random)),
        _ => "701,a,b,c,".to_string() + &two_days(random) + ",1",
    };
    text.into_bytes()
}

fn some_day(random: &mut Random) -> String {
    String::from_utf8_lossy(&near_a_beginning(random).spelled(random)).into_owned()
}

/// A record 1, with a kana name half of the time.
fn patient(random: &mut Random) -> Vec<u8> {
    let mut record = format!("1,A,1,{},,,,,,,", some_day(random)).into_bytes();
    if random.once_in(2) {
        record.extend(kana::name(random));
    }
    record
}

/// Direction 2: a patient alone with a kana name, half of the time a mixed one.
fn kana_name(random: &mut Random) -> Vec<u8> {
    let name = if random.once_in(2) { kana::name(random) } else { kana::mixed(random) };
    [b"JAHISTC04,2\r\n1,A,1,19890108,,,,,,,", &name[..], b"\r\n"].concat()
}

/// For an item that may be empty.
fn some_day_or_none(random: &mut Random) -> String {
    if random.once_in(2) {
        String::new()
    } else {
        some_day(random)
    }
}

fn two_days(random: &mut Random) -> String {
    format!("{},{}", some_day_or_none(random), some_day_or_none(random))
}

/// A 301 with any form, and its quantity and unit mostly as the form asks.
fn usage(random: &mut Random, rp: &str) -> Vec<u8> {
    let (dispensing, days, times) = (&b"1,\x92\xB2\x8D\xDC"[..], &b"7,\x93\xFA\x95\xAA"[..], &b"3,\x89\xF1\x95\xAA"[..]);
    let form = ["1", "2", "3", "4", "5", "6", "7", "9", "10", ""][random.below(10)];
    let measure = match form {
        _ if random.once_in(30) => {
            random.pick(&[dispensing, days, times, b"1,", b",", b"01,\x92\xB2\x8D\xDC", b"2,\x92\xB2\x8D\xDC"])
        }
        "1" => days,
        "3" => times,
        "6" | "7" => random.pick(&[days, times]),
        _ => dispensing,
    };
    let form = if form.is_empty() && !random.once_in(5) { "5" } else { form };
    let name = if random.once_in(20) { "" } else { "f" };
    let code = random.pick(&["1,", "2,X"]);
    [format!("301,{rp},{name},").as_bytes(), measure, format!(",{form},{code},1").as_bytes()].concat()
}

#[cfg(test)]
mod tests {
    use super::*;
    use crate::ordinary::check;
    use std::iter::repeat;

    #[test]
    fn damage_reaches_every_refusal_and_leaves_some_files_good() {
        let damage = Damage::default();
        let mut counts = [0; 17];
        for index in 0..20_000 {
            let answer = check(&damage.file(1, index));
            counts[answer.map_or_else(|refusal| usize::from(refusal.number), |_| 0)] += 1;
        }
        assert!(counts.iter().all(|&count| count > 0), "{counts:?}");
    }

    /// Two days of groups that follow each other, as spelled, and whether the file is accepted or refused as 16.
    fn neighbours(files: u64) -> Vec<([Vec<u8>; 2], bool)> {
        let damage = Damage::default();
        let mut found = Vec::new();
        for file in (0..files).map(|index| damage.file(1, index)) {
            let accepted = match check(&file) {
                Ok(_) => true,
                Err(refusal) if refusal.number == 16 => false,
                Err(_) => continue,
            };
            let groups = file.split(|&byte| byte == b'\n').filter_map(|line| line.strip_prefix(b"5,"));
            let days: Vec<&[u8]> = groups.filter_map(|group| group.split(|&byte| byte == b',').next()).collect();
            found.extend(days.windows(2).map(|pair| ([pair[0].to_vec(), pair[1].to_vec()], accepted)));
        }
        found
    }

    #[test]
    fn groups_fall_stay_and_rise_where_eras_begin() {
        let neighbours = neighbours(12_000);
        let newer = beginnings().count() - 1;
        for (first, least) in beginnings().zip([20].into_iter().chain(repeat(2))).take(newer) {
            let [mut falls, mut rises] = [0, 0];
            for ([one, next], accepted) in &neighbours {
                let (Some(one), Some(next)) = (Day::read(one), Day::read(next)) else { continue };
                falls += u32::from(*accepted && one >= first && next < first);
                rises += u32::from(!*accepted && one < first && next >= first);
            }
            assert!(falls >= least && rises >= least, "{first:?}: {falls} and {rises} of {}", neighbours.len());
        }
        // One day under two letters, each before the other.
        let letter = |day: &[u8]| day[0].is_ascii_uppercase();
        let same = neighbours.iter().filter(|([one, next], accepted)| {
            *accepted && letter(one) && letter(next) && one[0] != next[0] && Day::read(one) == Day::read(next)
        });
        let first_is_older = same.map(|([one, next], _)| Day::read(one).is_some_and(|day| day.in_its_era() == *next));
        let (older, newer): (Vec<bool>, Vec<bool>) = first_is_older.partition(|&older| older);
        assert!(older.len() >= 3 && newer.len() >= 3, "{} and {}", older.len(), newer.len());
    }

    #[test]
    fn samples_have_kana_names_of_each_script() {
        let samples = Damage::default().small;
        assert!(samples.iter().all(|file| check(file).is_ok()));
        for name in KANA_NAMES {
            let record_end = [b",", *name, b"\r\n2,"].concat();
            assert!(samples.iter().any(|file| file.windows(record_end.len()).any(|part| part == record_end)), "{name:X?}");
        }
    }

    #[test]
    fn a_file_is_the_same_each_time() {
        assert_eq!(Damage::default().file(7, 1_234), Damage::default().file(7, 1_234));
    }
}
