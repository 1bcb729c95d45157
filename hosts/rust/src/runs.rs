//! Runs of used IDs: made near the rule of refusal 24, and counted by what they have come near. The rule: "the run's length
//! isn't a multiple of 14 or one of its IDs is the one given".

use crate::library::Reply;
use crate::random::Random;

/// Bytes of an ID in a run.
const ID_BYTES: usize = 14;

pub fn good_id(random: &mut Random) -> Vec<u8> {
    (0..ID_BYTES).map(|_| b'0' + random.below(10) as u8).collect()
}

/// A run for a cutting with this ID, once in four an empty one. It may have the ID as one of its own, across two of them, or
/// in all bytes but one; its length may be no multiple of 14. Most have some dozens of IDs, few more than 65,536 bytes.
pub fn run(random: &mut Random, id: &[u8]) -> Vec<u8> {
    if random.once_in(4) {
        return Vec::new();
    }
    // An ID that is too short or too long is refused with 17, whatever the run has.
    let mut id = id.to_vec();
    id.resize(ID_BYTES, b'0');
    let long = random.once_in(128);
    let count = match random.below(4) {
        _ if long => 5_000 + random.below(1_000),
        0 => 1 + random.below(3),
        _ => 1 + random.below(40),
    };
    let mut run = Vec::new();
    for _ in 0..count {
        run.extend(other_id(random, &id));
    }
    if count > 1 && random.once_in(3) {
        let at = ID_BYTES * random.below(count - 1) + 1 + random.below(ID_BYTES - 1);
        run[at..at + ID_BYTES].copy_from_slice(&id);
    }
    if random.once_in(if long { 2 } else { 5 }) {
        let first = if long { count - 1 } else { 0 };
        let place = [first, count - 1, random.below(count)][random.below(3)];
        run[ID_BYTES * place..][..ID_BYTES].copy_from_slice(&id);
    }
    if random.once_in(10) {
        let bytes = 1 + random.below(ID_BYTES - 1);
        match random.below(3) {
            0 => run.extend_from_slice(&id[..bytes]),
            1 => run.extend_from_slice(&other_id(random, &id)[..bytes]),
            _ => run.truncate(run.len() - bytes),
        }
    }
    run
}

/// 14 bytes that are not the ID: it with one byte changed, other digits, or any bytes.
fn other_id(random: &mut Random, id: &[u8]) -> Vec<u8> {
    match random.below(8) {
        0..3 => {
            let mut near = id.to_vec();
            let byte = &mut near[random.below(ID_BYTES)];
            *byte = match random.below(3) {
                0 => *byte ^ 1 << random.below(8),
                1 => byte.wrapping_add(1 + random.below(255) as u8),
                _ => b'0' + byte.wrapping_sub(b'0').wrapping_add(1 + random.below(9) as u8) % 10,
            };
            near
        }
        3 => (0..ID_BYTES).map(|_| random.below(256) as u8).collect(),
        _ => good_id(random),
    }
}

/// What a run of 24 keeps from being cut, by what the same cutting gives with the empty run.
const WITHOUT_THE_RUN: [&str; 5] = ["1 to 16", "17", "18", "one piece", "more pieces"];

/// Where the ID stands in a run that has it.
const PLACES: [&str; 4] = ["alone", "first", "last", "between others"];

/// More bytes than a file may have: a run has no limit.
const LONG: usize = 65_536;

/// How often runs have come near the rule.
#[derive(Default)]
pub struct Runs {
    /// Runs with which the file was cut: those without an ID, and those with a byte that is no digit.
    empty: u64,
    not_digits: u64,
    /// Those with an ID that differs from the one given in this byte alone.
    near: [u64; ID_BYTES],
    /// Those with the one given across two of theirs, so many bytes after the start of the first, less one.
    across: [u64; ID_BYTES - 1],
    /// Long runs: those with which the file was cut, and those refused with 24 that have the ID last alone.
    long: [u64; 2],
    /// Runs refused with 24: where the ID stands in them, each of its places counted, if their length is a multiple of 14.
    places: [u64; PLACES.len()],
    /// Those whose length is so many bytes more than a multiple of 14, less one: without the ID, and with it.
    rests: [[u64; ID_BYTES - 1]; 2],
    /// Runs that 24 does not let pass, by what comes without them: two refusals before it, and three answers after it.
    before: [u64; WITHOUT_THE_RUN.len()],
}

impl Runs {
    /// Counts a run, with the reply to the cutting and what it would be with the empty run, both with outputs that can hold it.
    pub fn count(&mut self, id: &[u8], used: &[u8], reply: Reply, without: Reply) {
        let (ids, rest) = used.as_chunks::<ID_BYTES>();
        let has_it = ids.iter().any(|used| used == id);
        if has_it || !rest.is_empty() {
            let answer = match (without.refusal, without.a) {
                (1..=16, _) => 0,
                (17, _) => 1,
                (18, _) => 2,
                (_, 1) => 3,
                _ => 4,
            };
            self.before[answer] += 1;
        }
        match reply.refusal {
            0 => self.count_passed(id, used),
            24 if rest.is_empty() => {
                let last = ids.len() - 1;
                let only_last = ids.iter().position(|used| used == id) == Some(last);
                self.long[1] += u64::from(used.len() > LONG && only_last);
                for (place, _) in ids.iter().enumerate().filter(|(_, used)| *used == id) {
                    self.places[match place {
                        0 if last == 0 => 0,
                        0 => 1,
                        _ if place == last => 2,
                        _ => 3,
                    }] += 1;
                }
            }
            24 => self.rests[usize::from(has_it)][rest.len() - 1] += 1,
            _ => {}
        }
    }

    fn count_passed(&mut self, id: &[u8], used: &[u8]) {
        self.empty += u64::from(used.is_empty());
        self.long[0] += u64::from(used.len() > LONG);
        self.not_digits += u64::from(!used.iter().all(u8::is_ascii_digit));
        for used in used.chunks(ID_BYTES) {
            let mut places = (0..ID_BYTES).filter(|&place| used[place] != id[place]);
            if let (Some(place), None) = (places.next(), places.next()) {
                self.near[place] += 1;
            }
        }
        for (at, _) in used.windows(ID_BYTES).enumerate().filter(|(_, bytes)| *bytes == id) {
            self.across[at % ID_BYTES - 1] += 1;
        }
    }

    /// What is counted, and each count with its name. All of them can occur.
    fn rows(&self) -> Vec<(&'static str, Vec<(String, u64)>)> {
        let named = |names: &[&str], counts: &[u64]| -> Vec<(String, u64)> {
            names.iter().map(|name| name.to_string()).zip(counts.iter().copied()).collect()
        };
        let numbered = |counts: &[u64]| -> Vec<(String, u64)> {
            (1..).map(|number: usize| number.to_string()).zip(counts.iter().copied()).collect()
        };
        vec![
            ("cut with a run", named(&["without IDs", "with other bytes than digits"], &[self.empty, self.not_digits])),
            ("cut with an ID near in byte", numbered(&self.near)),
            ("cut with the ID across two by", numbered(&self.across)),
            ("a long run", named(&["that passed", "with the ID last"], &self.long)),
            ("24 by the ID", named(&PLACES, &self.places)),
            ("24 by bytes more", numbered(&self.rests[0])),
            ("24 by the ID and bytes more", numbered(&self.rests[1])),
            ("a run for 24 where without it is", named(&WITHOUT_THE_RUN, &self.before)),
        ]
    }

    /// What has not occurred though it can.
    pub fn missing(&self) -> impl Iterator<Item = String> {
        let rows = self.rows().into_iter();
        rows.flat_map(|(what, counts)| {
            let absent = counts.into_iter().filter(|(_, count)| *count == 0);
            absent.map(move |(name, _)| format!("cut: {what} {name}: none"))
        })
    }

    /// A line for each row.
    pub fn summary(&self) -> String {
        let line = |(what, counts): (&str, Vec<(String, u64)>)| {
            let counts: Vec<String> = counts.iter().map(|(name, count)| format!("{name}: {count}")).collect();
            format!("{what:<32}  {}\n", counts.join(", "))
        };
        self.rows().into_iter().map(line).collect()
    }
}

#[cfg(test)]
mod tests {
    use super::*;
    use crate::library::Told;
    use crate::ordinary::cut;

    const ID: &[u8; ID_BYTES] = b"12345678901234";
    const OTHER: &[u8; ID_BYTES] = b"00000000000000";

    #[test]
    fn runs_that_have_not_occurred_are_missing() {
        let mut runs = Runs::default();
        let all = runs.missing().count();
        assert_eq!(all, 2 + 14 + 13 + 2 + 4 + 13 + 13 + 5);
        let file = b"JAHISTC04,2\r\n1,A,1,19890108,,,,,,,\r\n4,x,,2\r\n4,x,,2\r\n";
        let mut count = |capacity: u64, id: &[u8], used: &[&[u8]]| {
            let answer = |used: &[u8]| cut(file, capacity, id, used, &mut [0; 200]).reply();
            let used = used.concat();
            runs.count(id, &used, answer(&used), answer(b""));
            runs.missing().collect::<Vec<_>>()
        };
        let lacks = |missing: &[String], what: &str| missing.contains(&format!("cut: {what}: none"));

        let missing = count(51, ID, &[]);
        assert!(!lacks(&missing, "cut with a run without IDs"));
        assert!(lacks(&missing, "cut with a run with other bytes than digits"));

        let missing = count(51, ID, &[OTHER, b"1234567890123x"]);
        assert!(!lacks(&missing, "cut with a run with other bytes than digits"));
        assert!(!lacks(&missing, "cut with an ID near in byte 14") && lacks(&missing, "cut with an ID near in byte 1"));

        let missing = count(51, ID, &[&OTHER[..3], ID, &OTHER[3..]]);
        assert!(!lacks(&missing, "cut with the ID across two by 3"));
        assert!(lacks(&missing, "cut with the ID across two by 4"));

        // What 18 or 24 refuses is no run that passed.
        assert_eq!(count(50, ID, &[b"x2345678901234"]), missing);
        let missing = count(51, ID, &[ID]);
        assert!(lacks(&missing, "cut with an ID near in byte 1"));
        assert!(!lacks(&missing, "24 by the ID alone") && lacks(&missing, "24 by the ID first"));
        assert!(!lacks(&missing, "a run for 24 where without it is one piece"));
        assert!(lacks(&missing, "a run for 24 where without it is 18"));

        let missing = count(50, ID, &[ID, ID, ID]);
        assert!(!["first", "last", "between others"].iter().any(|place| lacks(&missing, &format!("24 by the ID {place}"))));
        assert!(!lacks(&missing, "a run for 24 where without it is 18"));

        let missing = count(51, ID, &[ID, b"1"]);
        assert!(!lacks(&missing, "24 by the ID and bytes more 1") && lacks(&missing, "24 by bytes more 1"));
        assert!(!lacks(&count(51, ID, &[OTHER, b"1"]), "24 by bytes more 1"));
        assert!(!lacks(&count(51, b"x", &[b"x"]), "a run for 24 where without it is 17"));

        let long = OTHER.repeat(5_000);
        let missing = count(51, ID, &[ID, &long, ID]);
        assert!(lacks(&missing, "a long run that passed") && lacks(&missing, "a long run with the ID last"));
        assert!(!lacks(&count(51, ID, &[&long]), "a long run that passed"));
        assert!(!lacks(&count(51, ID, &[&long, ID]), "a long run with the ID last"));
    }

    #[test]
    fn runs_come_near_every_part_of_the_rule() {
        let mut random = Random::new(1);
        let runs: Vec<Vec<u8>> = (0..4_000).map(|_| run(&mut random, ID)).collect();
        let has = |kind: &dyn Fn(&[u8]) -> bool| runs.iter().any(|run| kind(run));
        assert!(has(&|run| run.is_empty()) && has(&|run| run.len() > LONG));
        assert!((1..14).all(|rest| has(&|run| run.len() % 14 == rest)));
        assert!(has(&|run| run.len() == 14 && run == ID));
        assert!(has(&|run| run.len() > 28 && run.starts_with(ID)) && has(&|run| run.len() > 28 && run.ends_with(ID)));
    }
}
