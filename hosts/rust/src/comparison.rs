//! The comparison of the ordinary implementation with the gateway library: both are given the same inputs near every rule,
//! in every call, with buffers of every kind of length, and must reply and write alike.

use crate::damage::Damage;
use crate::division::{join_input, mixture, pieces_of, CutInput, TwoCuttings, MOST_PIECES_BYTES};
use crate::faults::{faults, Fault};
use crate::kana::Kana;
use crate::library::{replies, Reply, Told};
use crate::ordinary::{self, ENTRY_NUMBERS};
use crate::random::Random;
use crate::runs::Runs;
use crate::sets::{searched_input, Sets};
use crate::trial::{self, Difference, Filling};
use std::collections::{BTreeMap, BTreeSet};
use std::fmt::Write;
use std::hint::black_box;

/// One more than the greatest number of a refusal.
const NUMBERS: usize = 25;

/// A call, the refusals that it can give, and how often it has given each; 0 counts the inputs that are accepted.
struct Tally {
    call: &'static str,
    possible: &'static [usize],
    counts: [u64; NUMBERS],
}

const FILE: &[usize] = &[0, 1, 2, 3, 4, 5, 6, 7, 8, 9, 10, 11, 12, 13, 14, 15, 16];
const FILE_AND_BUFFER: &[usize] = &[0, 1, 2, 3, 4, 5, 6, 7, 8, 9, 10, 11, 12, 13, 14, 15, 16, 20];
const CUT: &[usize] = &[0, 1, 2, 3, 4, 5, 6, 7, 8, 9, 10, 11, 12, 13, 14, 15, 16, 17, 18, 20, 24];
/// A joined file begins with a line 1 and has no 911: neither 3 nor 6.
const JOIN: &[usize] = &[0, 1, 2, 4, 5, 7, 8, 9, 10, 11, 12, 13, 14, 15, 16, 19, 20];

/// A comparison as far as it has come.
pub struct Comparison {
    seed: u64,
    inputs: u64,
    tallies: [Tally; 5],
    /// How often each reason for 19 has stood alone; beside another one, a missing k does not count.
    faults: [u64; Fault::ALL.len()],
    days: Days,
    kana: Kana,
    clinics: Clinics,
    runs: Runs,
    mixtures: Mixtures,
    sets: Sets,
    differences: u64,
    /// The first differences in words, with the whole inputs.
    pub shown: Vec<String>,
    files: Damage,
    large: Vec<u8>,
    entries: Vec<u32>,
}

/// Differences that are kept in words.
const MOST_SHOWN: usize = 5;

impl Comparison {
    pub fn new(seed: u64) -> Self {
        let tally = |call, possible| Tally { call, possible, counts: [0; NUMBERS] };
        Comparison {
            seed,
            inputs: 0,
            tallies: [
                tally("check", FILE),
                tally("index", FILE_AND_BUFFER),
                tally("canonical", FILE_AND_BUFFER),
                tally("cut", CUT),
                tally("join", JOIN),
            ],
            faults: [0; Fault::ALL.len()],
            days: Days::default(),
            kana: Kana::default(),
            clinics: Clinics::default(),
            runs: Runs::default(),
            mixtures: Mixtures::default(),
            sets: Sets::default(),
            differences: 0,
            shown: Vec::new(),
            files: Damage::default(),
            large: vec![0; MOST_PIECES_BYTES],
            entries: vec![0; ordinary::MOST_NUMBERS],
        }
    }

    pub fn inputs(&self) -> u64 {
        self.inputs
    }

    pub fn differences(&self) -> u64 {
        self.differences
    }

    /// Compares every call on the next input.
    pub fn step(&mut self) {
        let index = self.inputs;
        let file = self.files.file(self.seed, index);
        let cut = CutInput::new(self.seed, index, &file, &self.files);
        let pieces = join_input(self.seed, index, &file, &self.files);
        self.compare(&file, &cut, &pieces);
        if index.is_multiple_of(ONE_IN_MIXED) {
            let two = TwoCuttings::new(self.seed, index, &self.files);
            self.mix(&two);
        }
        if index % ONE_IN_SEARCHED == 1 {
            let mut random = Random::of(self.seed ^ 0x4B, index);
            self.join(&searched_input(self.seed, index), &mut random);
        }
    }

    /// Compares every call on these bytes, as a file and as pieces; of bytes with a run of used IDs after a file the run is
    /// for cut alone. All that is chosen follows from the bytes, so that an input found by a fuzzer gives the same again.
    pub fn compare_bytes(&mut self, bytes: &[u8]) {
        let cut = CutInput::of_bytes(bytes);
        self.seed = cut.capacity;
        self.inputs = 0;
        self.compare(&cut.file, &cut, &cut.file);
    }

    /// Compares every call: check, index and canonical on `file`.
    pub fn compare(&mut self, file: &[u8], cut: &CutInput, pieces: &[u8]) {
        let mut random = Random::of(self.seed ^ 0xBFF, self.inputs);
        self.inputs += 1;
        let answer = ordinary::check(file);
        self.kana.count(file, answer);
        let (ours, theirs) = (answer.reply(), replies::check(file));
        self.tallies[0].counts[ours.refusal as usize] += 1;
        if ours != theirs {
            self.tell("check", &[file], &Difference { length: 0, ours, theirs, place: None });
        }

        let records = ordinary::index(file, &mut self.entries).ok();
        let needed = records.map(|records| ENTRY_NUMBERS * records as usize);
        if let Some(numbers) = needed {
            self.clinics.count(self.entries[..numbers].as_chunks().0);
        }
        self.call(
            (1, &mut random, needed),
            &[file],
            |out: &mut [u32]| ordinary::index(file, out).reply(),
            |out: &mut [u32]| replies::index(file, out),
        );

        let needed = ordinary::canonical(file, &mut self.large).ok().map(|bytes| bytes as usize);
        if let Some(bytes) = needed {
            self.days.count(file, &self.large[..bytes]);
        }
        self.call(
            (2, &mut random, needed),
            &[file],
            |out: &mut [u8]| ordinary::canonical(file, out).reply(),
            |out: &mut [u8]| replies::canonical(file, out),
        );

        self.cut(cut, &mut random);
        self.join(pieces, &mut random);
    }

    fn join(&mut self, pieces: &[u8], random: &mut Random) {
        let answer = ordinary::join(pieces, &mut self.large);
        let needed = answer.ok().map(|bytes| bytes as usize);
        self.call(
            (4, random, needed),
            &[pieces],
            |out: &mut [u8]| ordinary::join(pieces, out).reply(),
            |out: &mut [u8]| replies::join(pieces, out),
        );
        self.name_faults(pieces, answer.reply());
    }

    /// Compares cut. The buffers are as long as the pieces need with the empty run: 24 comes before 20.
    fn cut(&mut self, input: &CutInput, random: &mut Random) {
        let CutInput { file, capacity, id, used } = input;
        let answer = ordinary::cut(file, *capacity, id, used, &mut self.large);
        let without = ordinary::cut(file, *capacity, id, b"", &mut self.large);
        self.runs.count(id, used, answer.reply(), without.reply());
        // The library's run lies between two copies of the ID, which it would find if it read further.
        let around = [id, &used[..], id].concat();
        let lent = &around[id.len()..id.len() + used.len()];
        let capacity_in_digits = capacity.to_string();
        let told: &[&[u8]] = &[file, capacity_in_digits.as_bytes(), id, used];
        self.call(
            (3, random, without.ok().map(|pieces| pieces.bytes as usize)),
            told,
            |out: &mut [u8]| ordinary::cut(file, *capacity, id, used, out).reply(),
            |out: &mut [u8]| replies::cut(file, *capacity, id, lent, out),
        );
        let written = black_box(&around).iter().zip([id, &used[..], id].into_iter().flatten()).position(|(a, b)| a != b);
        if let Some(place) = written {
            let place = Some(place as isize - id.len() as isize);
            self.tell("cut writes into its run", told, &Difference { place, ..Difference::default() });
        }
    }

    /// "Pieces of two cuttings with one ID can be confused": with the first one's ID in the run of the second they have two
    /// IDs, and any mixture with a piece of each is 19. The pieces are the ordinary ones, which are compared before that.
    fn mix(&mut self, two: &TwoCuttings) {
        let mut random = Random::of(self.seed ^ 0x19, self.inputs);
        let TwoCuttings { first, second } = two;
        let confused = CutInput { id: first.id.clone(), ..second.clone() };
        for input in [first, second, &confused] {
            self.cut(input, &mut random);
        }
        let mut lists = [first, second].map(|input| self.pieces(input));
        let chosen = mixture(&mut random, [lists[0].len(), lists[1].len()]);
        let one_piece = lists.iter().any(|pieces| pieces.len() == 1);
        let mixed = |lists: &[Vec<Vec<u8>>]| chosen.iter().flat_map(|&(list, place)| lists[list][place].clone()).collect();
        let pieces: Vec<u8> = mixed(&lists);
        if pieces.len() > MOST_PIECES_BYTES {
            return;
        }
        self.call(
            (4, &mut random, None),
            &[&pieces],
            |out: &mut [u8]| ordinary::join(&pieces, out).reply(),
            |out: &mut [u8]| replies::join(&pieces, out),
        );
        let ours = Reply { refusal: 19, ..Reply::default() };
        let theirs = replies::join(&pieces, &mut self.large);
        if ours != theirs {
            self.tell("a mixture of two cuttings", &[&pieces], &Difference { ours, theirs, ..Difference::default() });
        }
        // What the run has prevented.
        lists[1] = self.pieces(&CutInput { used: Vec::new(), ..confused });
        let joined = ordinary::join(&mixed(&lists), &mut self.large).is_ok();
        self.mixtures.count(one_piece, joined);
    }

    /// The pieces of a cutting with a capacity that serves.
    fn pieces(&mut self, CutInput { file, capacity, id, used }: &CutInput) -> Vec<Vec<u8>> {
        let cut = ordinary::cut(file, *capacity, id, used, &mut self.large).expect("the capacity serves");
        pieces_of(&self.large[..cut.bytes as usize])
    }

    /// Gives one input to both implementations with each length of buffer.
    fn call<T: Filling>(
        &mut self,
        (call, random, needed): (usize, &mut Random, Option<usize>),
        input: &[&[u8]],
        ours: impl Fn(&mut [T]) -> Reply,
        theirs: impl Fn(&mut [T]) -> Reply,
    ) {
        for length in trial::lengths(random, needed) {
            let result = trial::compare(length, self.seed.wrapping_add(self.inputs), &ours, &theirs);
            let reply = result.as_ref().map_or_else(|difference| difference.ours, |reply| *reply);
            self.tallies[call].counts[reply.refusal as usize] += 1;
            if let Err(difference) = result {
                self.tell(self.tallies[call].call, input, &difference);
            }
        }
    }

    /// Refusal 19 must have a reason, and what has a reason must be refused with 19 unless 1 or 2 comes first.
    fn name_faults(&mut self, pieces: &[u8], ours: Reply) {
        if ours.refusal == 2 || pieces.len() > MOST_PIECES_BYTES {
            return;
        }
        let found = faults(pieces);
        if found.is_empty() == (ours.refusal == 19) {
            let theirs = Reply { refusal: 19 * u64::from(!found.is_empty()), ..Reply::default() };
            self.tell("the reasons for 19", &[pieces], &Difference { length: 0, ours, theirs, place: None });
        }
        let alone = |fault: Fault| found.iter().all(|&other| other == fault || other == Fault::KMissing);
        for (fault, count) in Fault::ALL.into_iter().zip(&mut self.faults) {
            *count += u64::from(found.contains(&fault) && alone(fault));
        }
        self.sets.count(pieces, &found, ours.refusal);
    }

    fn tell(&mut self, call: &str, input: &[&[u8]], difference: &Difference) {
        self.differences += 1;
        if self.shown.len() == MOST_SHOWN {
            return;
        }
        let Difference { length, ours, theirs, place } = difference;
        let mut text = format!("{call}: seed {}, input {}, buffer of {length}\n", self.seed, self.inputs - 1);
        let place = place.map_or(String::new(), |place| format!("  buffers differ first at {place}\n"));
        let _ = write!(text, "  ordinary {ours:?}\n  library  {theirs:?}\n{place}");
        for part in input {
            let _ = writeln!(text, "  input of {} bytes", part.len());
            hexadecimal(&mut text, part);
        }
        self.shown.push(text);
    }

    /// What has not occurred though it can: refusals of a call, reasons for 19, spellings of days, kana names near the rule,
    /// records and groups with and without a clinic, runs of used IDs near the rule, mixtures of two cuttings, and pieces for
    /// the search of piece k.
    pub fn missing(&self) -> Vec<String> {
        let mut missing = Vec::new();
        for tally in &self.tallies {
            let absent = tally.possible.iter().filter(|&&number| tally.counts[number] == 0);
            missing.extend(absent.map(|number| format!("{}: {number} has not occurred", tally.call)));
        }
        let faults = Fault::ALL.iter().zip(self.faults).filter(|(_, count)| *count == 0);
        missing.extend(faults.map(|(fault, _)| format!("join: 19 has not occurred by {fault:?} alone")));
        missing.extend(self.days.missing());
        missing.extend(self.kana.missing());
        missing.extend(self.clinics.missing());
        missing.extend(self.runs.missing());
        missing.extend(self.mixtures.missing());
        missing.extend(self.sets.missing());
        missing
    }

    /// Tables of refusals by call, of the reasons for 19, of pieces for the search, of days by letter, of kana names, of clinics,
    /// of runs of used IDs and of mixtures, and the last line: inputs and differences.
    pub fn summary(&self) -> String {
        let names: String = self.tallies.iter().map(|tally| format!("{:>10}", tally.call)).collect();
        let mut text = format!("{:<10}{names}\n", "");
        let given = |number: &usize| self.tallies.iter().any(|tally| tally.possible.contains(number));
        for number in (0..NUMBERS).filter(given) {
            let name = if number == 0 { "accepted".to_string() } else { format!("refused {number}") };
            let counts: String = self.tallies.iter().map(|tally| format!("{:>10}", tally.counts[number])).collect();
            let _ = writeln!(text, "{name:<10}{counts}");
        }
        for (fault, count) in Fault::ALL.iter().zip(self.faults) {
            let _ = writeln!(text, "19 by {:<14}{count:>10}", format!("{fault:?}"));
        }
        text += &self.sets.summary();
        for (letter, [kept, changed]) in ('A'..='Z').zip(self.days.0).filter(|(_, counts)| *counts != [0; 2]) {
            let _ = writeln!(text, "days under {letter} {kept:>17}, and {changed} that are written under another letter");
        }
        text += &self.kana.summary();
        for (what, [without, with], _) in self.clinics.rows() {
            let _ = writeln!(text, "{what:<32}{without:>6} without a clinic, {with} with one");
        }
        text += &self.runs.summary();
        for (what, count) in self.mixtures.rows() {
            let _ = writeln!(text, "{what:<44}{count:>6}");
        }
        for missing in self.missing() {
            let _ = writeln!(text, "{missing}");
        }
        let _ = write!(text, "files {}, differences {}", self.inputs, self.differences);
        text
    }
}

/// How often each letter has stood before the day of a group in an accepted file: where the canonical file keeps it, and where
/// that has another one, as it has for a day after the end of the letter's era.
#[derive(Default)]
struct Days([[u64; 2]; 26]);

impl Days {
    fn count(&mut self, file: &[u8], canonical: &[u8]) {
        let lines = |file| <[u8]>::split(file, |&byte| byte == b'\n');
        for both in lines(file).zip(lines(canonical)) {
            if let ([b'5', b',', letter @ b'A'..=b'Z', ..], [b'5', b',', written, ..]) = both {
                self.0[usize::from(letter - b'A')][usize::from(letter != written)] += 1;
            }
        }
    }

    /// What the library reads and no group had.
    fn missing(&self) -> impl Iterator<Item = String> + '_ {
        let absent = letters_of_library().into_iter();
        let absent = absent.filter(|(letter, changed)| self.0[usize::from(letter - b'A')][usize::from(*changed)] == 0);
        absent.map(|(letter, changed)| {
            let written = if changed { "another letter" } else { "it" };
            format!("no group's day under {} that is written under {written}", char::from(letter))
        })
    }
}

/// The letters under which the library reads the last day of some year, and whether it writes that under another letter. It
/// tells them itself, so that no list of eras stands here.
fn letters_of_library() -> BTreeSet<(u8, bool)> {
    const BEFORE: &str = "JAHISTC04,2\r\n1,A,1,";
    let mut found = BTreeSet::new();
    for (letter, year) in (b'A'..=b'Z').flat_map(|letter| (0..100).map(move |year| (letter, year))) {
        let file = format!("{BEFORE}{}{year:02}1231,,,,,,,\r\n", char::from(letter));
        let mut out = [0; 35];
        if replies::canonical(file.as_bytes(), &mut out).refusal == 0 {
            found.insert((letter, out[BEFORE.len()] != letter));
        }
    }
    found
}

/// How often the index has shown no clinic, and one.
#[derive(Default)]
struct Clinics {
    /// Records of groups, by number.
    records: BTreeMap<u32, [u64; 2]>,
    /// Groups after one without a clinic, and after one with a clinic.
    groups: [[u64; 2]; 2],
    /// Files with 701s, by what their last group had.
    notes: [u64; 2],
}

/// The records of a group: those before its 51 have no clinic.
const BEFORE_51: [u32; 3] = [5, 11, 15];
const AFTER_51: [u32; 11] = [55, 201, 281, 291, 301, 311, 391, 401, 411, 501, 601];

impl Clinics {
    /// Counts what the index of an accepted file shows.
    fn count(&mut self, entries: &[[u32; ENTRY_NUMBERS]]) {
        let (group_of, has_clinic) = (|entry: &[u32; ENTRY_NUMBERS]| entry[3], |entry: &[u32; ENTRY_NUMBERS]| entry[6] > 0);
        for entry in entries.iter().filter(|entry| group_of(entry) > 0) {
            self.records.entry(entry[0]).or_default()[usize::from(has_clinic(entry))] += 1;
        }
        let groups = entries.chunk_by(|one, next| group_of(one) == group_of(next)).filter_map(<[_]>::last);
        let groups: Vec<usize> =
            groups.filter(|last| group_of(last) > 0).map(|last| usize::from(has_clinic(last))).collect();
        for pair in groups.windows(2) {
            self.groups[pair[0]][pair[1]] += 1;
        }
        if let (Some(&last), Some([701, ..])) = (groups.last(), entries.last()) {
            self.notes[last] += 1;
        }
    }

    /// What has been counted, without a clinic and with one, and whether each of the two can occur.
    fn rows(&self) -> Vec<(String, [u64; 2], [bool; 2])> {
        let records = |numbers: &[u32], possible| -> Vec<_> {
            let counts = |number| self.records.get(number).copied().unwrap_or_default();
            numbers.iter().map(|number| (format!("{number} in groups"), counts(number), possible)).collect()
        };
        let [after_none, after_one] = self.groups;
        let others = [
            ("group after one without a clinic".to_string(), after_none, [true; 2]),
            ("group after one with a clinic".to_string(), after_one, [true; 2]),
            ("701 after groups".to_string(), self.notes, [true; 2]),
        ];
        let before = records(&BEFORE_51, [true, false]);
        [before, records(&[51], [false, true]), records(&AFTER_51, [true; 2]), others.to_vec()].concat()
    }

    fn missing(&self) -> impl Iterator<Item = String> + '_ {
        self.rows().into_iter().flat_map(|(what, counts, possible)| {
            let absent = [0, 1].into_iter().filter(move |&clinic| possible[clinic] && counts[clinic] == 0);
            absent.map(move |clinic| format!("index: {what}: none {} a clinic", ["without", "with"][clinic]))
        })
    }
}

/// One in so many inputs is followed by a mixture of two cuttings, and one in so many by pieces for the search of piece k.
const ONE_IN_MIXED: u64 = 16;
const ONE_IN_SEARCHED: u64 = 8;

/// How often pieces of two cuttings were mixed: by whether one ID would let them join, and with one that is a single piece.
#[derive(Default)]
struct Mixtures {
    confusable: u64,
    others: u64,
    one_piece: u64,
}

impl Mixtures {
    fn count(&mut self, one_piece: bool, confusable: bool) {
        self.confusable += u64::from(confusable);
        self.others += u64::from(!confusable);
        self.one_piece += u64::from(one_piece);
    }

    fn rows(&self) -> [(&'static str, u64); 3] {
        [
            ("mixtures that one ID would let join", self.confusable),
            ("mixtures that it would not", self.others),
            ("mixtures with a cutting into one piece", self.one_piece),
        ]
    }

    fn missing(&self) -> impl Iterator<Item = String> {
        self.rows().into_iter().filter(|(_, count)| *count == 0).map(|(what, _)| format!("join: {what}: none"))
    }
}

/// Bytes in hexadecimal, each row after its offset.
fn hexadecimal(text: &mut String, bytes: &[u8]) {
    for (row, bytes) in bytes.chunks(16).enumerate() {
        let hexadecimal: Vec<String> = bytes.iter().map(|byte| format!("{byte:02X}")).collect();
        let letters: String =
            bytes.iter().map(|&byte| if (0x20..0x7F).contains(&byte) { char::from(byte) } else { '.' }).collect();
        let _ = writeln!(text, "  {:>6}  {:<47}  {letters}", 16 * row, hexadecimal.join(" "));
    }
}

#[cfg(test)]
mod tests {
    use super::{Clinics, Comparison, Days};
    use crate::ordinary::{index, MOST_NUMBERS};
    use std::collections::BTreeSet;
    use std::fs;
    use std::path::Path;

    const SEED: u64 = 5;
    const INPUTS: u64 = 12_000;

    /// The gate's bounded comparison. Every refusal that a call can give, every reason for 19 and every era's letter must occur,
    /// and one that is read after its era's end must occur there; so must kana names of each script, and such that 11 refuses
    /// for each two sorts of characters that do not go together, every record of a group with and without a clinic, groups with
    /// and without one after each other, every kind of run near the rule of 24, mixtures of two cuttings, and pieces in every
    /// sort of order with a k again, missing and out of range: a comparison that misses one shows nothing of it.
    #[test]
    fn the_library_and_the_ordinary_implementation_answer_alike() {
        let mut comparison = Comparison::new(SEED);
        while comparison.inputs() < INPUTS {
            comparison.step();
        }
        println!("{}", comparison.summary());
        assert_eq!(comparison.differences(), 0, "\n{}", comparison.shown.concat());
        assert_eq!(comparison.missing(), Vec::<String>::new());
    }

    #[test]
    fn letters_that_have_not_occurred_are_missing() {
        let mut days = Days::default();
        let missing =
            |days: &Days, day: &str| days.missing().any(|missing| missing == format!("no group's day under {day}"));
        let (newest, late) = ("R that is written under it", "H that is written under another letter");
        assert!(missing(&days, newest) && missing(&days, late));
        days.count(b"5,R010501,1\r\n5,H310430,1\r\n", b"5,R010501,1\r\n5,H310430,1\r\n");
        assert!(!missing(&days, newest) && missing(&days, late));
        days.count(b"5,H310501,1\r\n", b"5,R010501,1\r\n");
        assert!(!missing(&days, late));
    }

    #[test]
    fn clinics_that_have_not_occurred_are_missing() {
        let mut clinics = Clinics::default();
        let mut missing_after = |records: &[&str]| {
            let file = ["JAHISTC04,2", "1,A,1,19890108,,,,,,,"].iter().chain(records).map(|line| format!("{line}\r\n"));
            let mut out = vec![0; MOST_NUMBERS];
            let records = index(file.collect::<String>().as_bytes(), &mut out).expect("the file is accepted") as usize;
            clinics.count(&out.as_chunks().0[..records]);
            clinics.missing().map(|missing| missing.replace("index: ", "")).collect::<Vec<_>>()
        };
        let (day, clinic, report, note) = ("5,20160411,1", "51,b,,,,1", "501,x,1", "701,a,b,c,,,1");
        let [own, same, other, none, last] = [
            "51 in groups: none with a clinic",
            "501 in groups: none with a clinic",
            "group after one with a clinic: none with a clinic",
            "group after one with a clinic: none without a clinic",
            "701 after groups: none with a clinic",
        ]
        .map(String::from);

        let missing = missing_after(&[day, report, note]);
        assert!([&own, &same, &other, &none, &last].iter().all(|what| missing.contains(what)), "{missing:?}");
        assert!(!missing.iter().any(|what| what == "501 in groups: none without a clinic"));

        let missing = missing_after(&[day, clinic, report, day, clinic, note]);
        assert!(![&own, &same, &other, &last].iter().any(|what| missing.contains(what)), "{missing:?}");
        assert!(missing.contains(&none));

        let missing = missing_after(&[day, clinic, day]);
        assert!(!missing.contains(&none) && missing.iter().any(|what| what == "601 in groups: none with a clinic"));
    }

    /// The inputs that `fuzz/run` starts with.
    #[test]
    fn both_answer_alike_on_the_corpus() {
        let folder = Path::new(env!("CARGO_MANIFEST_DIR")).join("fuzz/corpus");
        let mut missing_in_all: Option<BTreeSet<String>> = None;
        for entry in fs::read_dir(folder).expect("the corpus is there") {
            let path = entry.expect("the corpus can be read").path();
            let mut comparison = Comparison::new(SEED);
            comparison.compare_bytes(&fs::read(&path).expect("a file of the corpus"));
            assert_eq!(comparison.differences(), 0, "{}\n{}", path.display(), comparison.shown.concat());
            let missing: BTreeSet<String> = comparison.missing().into_iter().collect();
            missing_in_all = Some(missing_in_all.map_or(missing.clone(), |before| &before & &missing));
        }
        let missing = missing_in_all.expect("the corpus has files");
        for wanted in [
            "cut: 24 has not occurred",
            "cut: cut with an ID near in byte 14: none",
            "cut: cut with the ID across two by 5: none",
            "cut: 24 by the ID last: none",
            "cut: 24 by bytes more 13: none",
            "check: kana name accepted of one-byte: none",
            "check: kana name accepted of hiragana and 8140h and 815Bh: none",
            "check: kana name accepted of katakana and 8140h and 815Bh: none",
            "check: kana name accepted of 815Bh: none",
            "check: kana name refused of hiragana and katakana: none",
            "check: kana name refused of hiragana and row 3: none",
            "check: kana name refused of katakana and row 6: none",
            "check: kana name refused of one-byte and 815Bh: none",
            "join: up to 9 pieces joined otherwise: none",
            "join: 19 by a k again for another last: none",
            "join: 19 by a k again beside all last: none",
            "join: 19 by a k again in another spelling: none",
            "join: 19 by no piece n: none",
        ] {
            assert!(!missing.contains(wanted), "the corpus: {wanted}");
        }
    }
}
