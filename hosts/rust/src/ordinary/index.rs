//! Index: seven numbers per record after line 1.

use super::check::pass;
use super::{stack, without_line, Refusal, Watcher, SHORT};

/// Numbers per record: record number, offset, bytes without line end, group, and the lines of the doctor, the drug and the
/// clinic.
pub const ENTRY_NUMBERS: usize = 7;

/// "4,x,,2" with its line end: no accepted record is shorter.
const SHORTEST_RECORD: usize = 8;

/// The numbers of the longest index.
pub const MOST_NUMBERS: usize = ENTRY_NUMBERS * (super::MOST_BYTES / SHORTEST_RECORD);

/// Writes the entries of an accepted file from the front of `out` on and answers the count of records; after the entries
/// and on a refusal `out` keeps its contents.
pub fn index(file: &[u8], out: &mut [u32]) -> Result<u64, Refusal> {
    // A longer file is refused before its first record.
    let most_records = file.len().min(super::MOST_BYTES) / SHORTEST_RECORD;
    stack::with_numbers(most_records, |seen| index_with(file, seen, out))
}

#[inline(never)]
fn index_with(file: &[u8], seen: &mut [u32], out: &mut [u32]) -> Result<u64, Refusal> {
    let mut records = Records { seen, count: 0 };
    let counts = pass(file, &mut records)?;
    let count = records.count;
    let out = out.get_mut(..ENTRY_NUMBERS * count).ok_or(without_line(SHORT))?;
    let end = file.len() - usize::from(file.ends_with(&[0x1A]));
    write(&seen[..count], end as u32, out);
    Ok(counts.records)
}

/// The records of a file: number and offset, sixteen bits each.
struct Records<'a> {
    seen: &'a mut [u32],
    count: usize,
}

impl Watcher for Records<'_> {
    #[inline(always)]
    fn record(&mut self, number: u16, line: usize) {
        self.seen[self.count] = u32::from(number) << 16 | line as u32;
        self.count += 1;
    }
}

/// Writes one entry for each record seen; the last line end is before `end`.
fn write(seen: &[u32], end: u32, out: &mut [u32]) {
    let (mut groups, mut group, mut doctor, mut drug, mut clinic) = (0, 0, 0, 0, 0);
    let next_offsets = seen.iter().skip(1).map(|next| next & 0xFFFF).chain([end]);
    let (entries, _) = out.as_chunks_mut::<ENTRY_NUMBERS>();
    for (((&record, next), line), entry) in seen.iter().zip(next_offsets).zip(2..).zip(entries) {
        let (number, offset) = (record >> 16, record & 0xFFFF);
        match number {
            5 => {
                groups += 1;
                group = groups;
                doctor = 0;
                clinic = 0;
            }
            51 => clinic = line,
            55 => doctor = line,
            201 => drug = line,
            701 => {
                group = 0;
                clinic = 0;
            }
            _ => {}
        }
        let doctor_of = if matches!(number, 201..=391) { doctor } else { 0 };
        let drug_of = if matches!(number, 281 | 291) { drug } else { 0 };
        *entry = [number, offset, next - offset - 2, group, doctor_of, drug_of, clinic];
    }
}

#[cfg(test)]
mod tests {
    use super::*;
    use crate::sample;

    fn file(direction: u8, records: &[&str]) -> Vec<u8> {
        let lines: String = records.iter().map(|record| format!("{record}\r\n")).collect();
        format!("JAHISTC04,{direction}\r\n{lines}").into_bytes()
    }

    #[test]
    fn groups_doctors_and_drugs() {
        let file = file(
            2,
            &[
                "1,A,1,19890108,,,,,,,",
                "4,x,,1",
                "5,20160411,1",
                "55,c,,1",
                "201,1,d,1,e,,,1",
                "281,1,x,1",
                "201,1,dd,1,e,,,1",
                "291,1,x,1",
                "301,1,f,,,,,,1",
                "311,1,x,1",
                "391,1,x,1",
                "55,c,,1",
                "201,2,d,1,e,,,1",
                "401,x,1",
                "5,20160411,1",
                "201,1,d,1,e,,,1",
                "281,1,x,1",
                "701,a,b,c,,,1",
            ],
        );
        let expected = [
            [1, 13, 21, 0, 0, 0, 0],
            [4, 36, 6, 0, 0, 0, 0],
            [5, 44, 12, 1, 0, 0, 0],
            [55, 58, 7, 1, 0, 0, 0],
            [201, 67, 15, 1, 5, 0, 0],
            [281, 84, 9, 1, 5, 6, 0],
            [201, 95, 16, 1, 5, 0, 0],
            [291, 113, 9, 1, 5, 8, 0],
            [301, 124, 14, 1, 5, 0, 0],
            [311, 140, 9, 1, 5, 0, 0],
            [391, 151, 9, 1, 5, 0, 0],
            [55, 162, 7, 1, 0, 0, 0],
            [201, 171, 15, 1, 13, 0, 0],
            [401, 188, 7, 1, 0, 0, 0],
            [5, 197, 12, 2, 0, 0, 0],
            [201, 211, 15, 2, 0, 0, 0],
            [281, 228, 9, 2, 0, 17, 0],
            [701, 239, 13, 0, 0, 0, 0],
        ];
        for end in [&b""[..], b"\x1A"] {
            let mut out = [7; 7 * 18 + 2];
            assert_eq!(index(&[&file, end].concat(), &mut out), Ok(18));
            assert_eq!(out[..7 * 18], expected.concat());
            assert_eq!(out[7 * 18..], [7, 7]);
        }
    }

    /// "the line of the group's 51, or 0 where none has yet stood in that group. The record 51 itself shows its own line."
    #[test]
    fn clinics() {
        // Each record with its group and the lines of its doctor, its drug and its clinic; the first stands on line 2.
        let records: [(&str, [u32; 4]); 29] = [
            ("1,A,1,19890108,,,,,,,", [0, 0, 0, 0]),
            ("4,x,,1", [0, 0, 0, 0]),
            ("5,20160411,1", [1, 0, 0, 0]),
            ("11,a,,,,,,,1", [1, 0, 0, 0]),
            ("15,a,,1", [1, 0, 0, 0]),
            ("51,b,,,,1", [1, 0, 0, 7]),
            ("55,c,,1", [1, 0, 0, 7]),
            ("201,1,d,1,e,,,1", [1, 8, 0, 7]),
            ("281,1,x,1", [1, 8, 9, 7]),
            ("291,1,x,1", [1, 8, 9, 7]),
            ("301,1,f,,,,,,1", [1, 8, 0, 7]),
            ("311,1,x,1", [1, 8, 0, 7]),
            ("391,1,x,1", [1, 8, 0, 7]),
            ("55,c,,1", [1, 0, 0, 7]),
            ("201,2,d,1,e,,,1", [1, 15, 0, 7]),
            ("401,x,1", [1, 0, 0, 7]),
            ("411,x,30,1", [1, 0, 0, 7]),
            ("501,x,1", [1, 0, 0, 7]),
            ("601,x,", [1, 0, 0, 7]),
            // A group without a 51 after one with it, then two with their own.
            ("5,20160411,1", [2, 0, 0, 0]),
            ("201,1,d,1,e,,,1", [2, 0, 0, 0]),
            ("401,x,1", [2, 0, 0, 0]),
            ("5,20160411,1", [3, 0, 0, 0]),
            ("51,b,,,,1", [3, 0, 0, 25]),
            ("5,20160410,1", [4, 0, 0, 0]),
            ("51,b,,,,1", [4, 0, 0, 27]),
            ("601,x,", [4, 0, 0, 27]),
            ("701,a,b,c,,,1", [0, 0, 0, 0]),
            ("701,a,b,c,,,1", [0, 0, 0, 0]),
        ];
        let (texts, expected): (Vec<&str>, Vec<[u32; 4]>) = records.into_iter().unzip();
        let mut out = [0; 7 * 29];
        assert_eq!(index(&file(2, &texts), &mut out), Ok(29));
        for ((entry, expected), text) in out.chunks(7).zip(expected).zip(texts) {
            assert_eq!(entry[3..], expected, "{text}");
        }
    }

    #[test]
    fn refusals_leave_the_buffer() {
        let good = file(2, &["1,A,1,19890108,,,,,,,"]);
        let mut out = [7; 7];
        for length in 0..7 {
            assert_eq!(index(&good, &mut out[..length]), Err(without_line(20)));
        }
        assert_eq!(index(&file(2, &["1,A,1,19890108,,,,,,,", "5"]), &mut out), Err(Refusal { number: 7, line: 3 }));
        assert_eq!(index(&[b'x'; 65_537], &mut out), Err(without_line(1)));
        assert_eq!(out, [7; 7]);
        assert_eq!(index(&good, &mut out), Ok(1));
        assert_eq!(out, [1, 13, 21, 0, 0, 0, 0]);
    }

    #[test]
    fn entries_lead_to_the_lines_of_a_full_file() {
        // The most records that a file can have, and the full sample.
        let short = [&file(2, &["1,A,1,19890108,,,,,,,"])[..], &b"4,x,,2\r\n".repeat(8_187)].concat();
        assert_eq!(short.len(), 65_532);
        for file in [short, sample::full()] {
            let mut out = vec![0; MOST_NUMBERS];
            let records = index(&file, &mut out).expect("the file is accepted") as usize;
            let lines: Vec<&[u8]> = file.split_inclusive(|&byte| byte == b'\n').skip(1).collect();
            assert_eq!(lines.len(), records);
            for (line, entry) in lines.iter().zip(out.chunks(7)) {
                let (offset, bytes) = (entry[1] as usize, entry[2] as usize);
                assert_eq!(&file[offset..offset + bytes + 2], *line);
                assert!(line.starts_with(format!("{},", entry[0]).as_bytes()));
            }
        }
    }
}
