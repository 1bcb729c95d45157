//! The reasons for refusal 19, taken one by one from document 01's sentences on joining.

use std::collections::BTreeSet;

/// Why pieces are no set.
#[derive(Clone, Copy, Debug, PartialEq, Eq, PartialOrd, Ord)]
pub enum Fault {
    /// A line stands before the first piece, or there is none.
    LineBefore,
    /// One of several pieces, or a piece beside marked ones, has no 911.
    Unmarked,
    /// A piece has more than one 911.
    TwoMarks,
    /// A 911 is not the last line of its piece.
    NotLast,
    /// A 911 has other than three items.
    ItemCount,
    /// The ID is not 14 digits.
    Id,
    /// n has other than one to three digits.
    NDigits,
    /// k has other than one to three digits.
    KDigits,
    /// n is 0 or 1.
    NRange,
    /// k is 0 or more than n.
    KRange,
    /// Two pieces have different lines 1.
    FirstLine,
    /// Two pieces have different IDs.
    OtherId,
    /// Two pieces have different n.
    OtherN,
    /// Two pieces have the same k.
    KTwice,
    /// A k from 1 to n is missing.
    KMissing,
}

impl Fault {
    pub const ALL: [Fault; 15] = [
        Fault::LineBefore,
        Fault::Unmarked,
        Fault::TwoMarks,
        Fault::NotLast,
        Fault::ItemCount,
        Fault::Id,
        Fault::NDigits,
        Fault::KDigits,
        Fault::NRange,
        Fault::KRange,
        Fault::FirstLine,
        Fault::OtherId,
        Fault::OtherN,
        Fault::KTwice,
        Fault::KMissing,
    ];
}

fn is_line_1(line: &[u8]) -> bool {
    line == b"JAHISTC04,1" || line == b"JAHISTC04,2"
}

fn is_911(line: &[u8]) -> bool {
    line == b"911" || line.starts_with(b"911,")
}

/// The value of one to three digits.
fn number(item: &[u8]) -> Option<usize> {
    let good = matches!(item.len(), 1..=3) && item.iter().all(u8::is_ascii_digit);
    good.then(|| item.iter().fold(0, |value, digit| 10 * value + usize::from(digit - b'0')))
}

/// Every fault of an input that keeps the rule of line ends; none if its pieces are a set.
pub fn faults(input: &[u8]) -> BTreeSet<Fault> {
    let mut found = BTreeSet::new();
    let text: Vec<u8> = input.iter().copied().filter(|&byte| byte != 0x1A).collect();
    let lines: Vec<&[u8]> =
        text.split_inclusive(|&byte| byte == b'\n').map(|line| line.strip_suffix(b"\r\n").unwrap_or(line)).collect();
    let mut pieces: Vec<&[&[u8]]> = lines.chunk_by(|_, next| !is_line_1(next)).collect();
    if !pieces.first().is_some_and(|piece| is_line_1(piece[0])) {
        found.insert(Fault::LineBefore);
        pieces = pieces.split_off(pieces.len().min(1));
    }
    if pieces.iter().any(|piece| piece[0] != pieces[0][0]) {
        found.insert(Fault::FirstLine);
    }
    let marked = pieces.iter().any(|piece| piece.iter().any(|line| is_911(line)));
    if pieces.len() < 2 && !marked {
        return found;
    }
    let (mut ids, mut ns, mut ks) = (BTreeSet::new(), BTreeSet::new(), Vec::new());
    for piece in &pieces {
        let marks: Vec<&[u8]> = piece.iter().copied().filter(|line| is_911(line)).collect();
        match marks.len() {
            0 => found.insert(Fault::Unmarked),
            1 => !is_911(piece[piece.len() - 1]) && found.insert(Fault::NotLast),
            _ => found.insert(Fault::TwoMarks),
        };
        for mark in marks {
            let items: Vec<&[u8]> = mark.split(|&byte| byte == b',').skip(1).collect();
            let [id, n, k] = items[..] else {
                found.insert(Fault::ItemCount);
                continue;
            };
            if id.len() != 14 || !id.iter().all(u8::is_ascii_digit) {
                found.insert(Fault::Id);
            }
            ids.insert(id);
            if number(n).is_none() {
                found.insert(Fault::NDigits);
            }
            if number(k).is_none() {
                found.insert(Fault::KDigits);
            }
            if let Some(n) = number(n) {
                ns.insert(n);
                if n < 2 {
                    found.insert(Fault::NRange);
                }
                if number(k).is_some_and(|k| k == 0 || k > n) {
                    found.insert(Fault::KRange);
                }
            }
            ks.extend(number(k));
        }
    }
    if ids.len() > 1 {
        found.insert(Fault::OtherId);
    }
    if ns.len() > 1 {
        found.insert(Fault::OtherN);
    }
    let different: BTreeSet<usize> = ks.iter().copied().collect();
    if different.len() < ks.len() {
        found.insert(Fault::KTwice);
    }
    if ns.iter().any(|&n| (1..=n).any(|k| !different.contains(&k))) {
        found.insert(Fault::KMissing);
    }
    found
}

#[cfg(test)]
mod tests {
    use super::*;

    #[test]
    fn one_fault_each() {
        let piece = |n: &str, k: &str| format!("JAHISTC04,2\r\n4,x,,2\r\n911,12345678901234,{n},{k}\r\n");
        let good = piece("2", "1") + "\x1A" + &piece("002", "02");
        let only = |fault: Fault| BTreeSet::from([fault]);
        assert_eq!(faults(good.as_bytes()), BTreeSet::new());
        assert_eq!(faults(b"JAHISTC04,1\r\n\x1A"), BTreeSet::new());
        assert_eq!(faults(format!("4,x,,2\r\n{good}").as_bytes()), only(Fault::LineBefore));
        assert_eq!(faults(b"4,x,,2\r\n"), only(Fault::LineBefore));
        assert_eq!(faults(format!("{good}JAHISTC04,2\r\n").as_bytes()), only(Fault::Unmarked));
        assert_eq!(faults(format!("{good}4,x,,2\r\n").as_bytes()), only(Fault::NotLast));
        assert_eq!(faults(good.replace("02\r", "02,\r").as_bytes()), BTreeSet::from([Fault::ItemCount, Fault::KMissing]));
        assert_eq!(faults(good.replace("34,", "3a,").as_bytes()), only(Fault::Id));
        assert_eq!(faults(good.replace("34,2", "35,2").as_bytes()), only(Fault::OtherId));
        assert_eq!(faults(good.replace("34,002", "34,0002").as_bytes()), only(Fault::NDigits));
        assert_eq!(faults(piece("1", "1").as_bytes()), only(Fault::NRange));
        assert_eq!(faults((good.clone() + &piece("2", "3")).as_bytes()), only(Fault::KRange));
        assert_eq!(faults((good.clone() + &piece("2", "0002")).as_bytes()), only(Fault::KDigits));
        assert_eq!(faults((good.clone() + &piece("2", "2")).as_bytes()), only(Fault::KTwice));
        assert_eq!(faults(piece("2", "2").as_bytes()), only(Fault::KMissing));
        assert_eq!(faults(good.replacen("JAHISTC04,2", "JAHISTC04,1", 1).as_bytes()), only(Fault::FirstLine));
    }
}
