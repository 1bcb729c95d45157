//! Joining: pieces in any order back to one file.

use super::check::check;
use super::items::digits;
use super::{stack, without_line, Refusal, LARGE, LINE_END, MOST_BYTES, SET, SHORT, TO_PATIENT, TO_PROVIDER};
use std::io::BufRead;

/// "Joining takes such bytes, at most 131,072".
const MOST_INPUT: usize = 131_072;

/// "n (2–999, value)".
const MOST_PIECES: usize = 999;

/// Writes the joined file from the front of `out` on and answers its bytes; after it and on a refusal `out` keeps its
/// contents.
pub fn join(input: &[u8], out: &mut [u8]) -> Result<u64, Refusal> {
    if input.len() > MOST_INPUT {
        return Err(without_line(LARGE));
    }
    let mut set = Set::default();
    // 2 is judged over the whole input before 19.
    let Some(end_marks) = set.read(input) else {
        return Err(Refusal { number: LINE_END, line: first_broken_line(input) });
    };
    if set.is_one_whole_file() {
        return hand_over(&input[..input.len() - end_marks], out);
    }
    if !set.is_complete() {
        return Err(without_line(SET));
    }
    let spans = &set.spans[..set.pieces];
    let length = set.first_line.len() + spans.iter().map(Span::bytes).sum::<usize>();
    if length > MOST_BYTES {
        return Err(without_line(LARGE));
    }
    stack::with_bytes(length, |file| {
        let file = &mut file[..length];
        let (first_line, mut rest) = file.split_at_mut(set.first_line.len());
        first_line.copy_from_slice(set.first_line);
        for span in spans {
            let (records, after) = rest.split_at_mut(span.bytes());
            records.copy_from_slice(&input[span.from as usize..span.to as usize]);
            rest = after;
        }
        hand_over(file, out)
    })
}

/// "it is then checked as a file".
fn hand_over(file: &[u8], out: &mut [u8]) -> Result<u64, Refusal> {
    check(file)?;
    let out = out.get_mut(..file.len()).ok_or(without_line(SHORT))?;
    out.copy_from_slice(file);
    Ok(file.len() as u64)
}

// ---- The set of pieces

/// Where the records of a piece lie in the input, without line 1, 911 and 1Ah.
#[derive(Clone, Copy)]
struct Span {
    from: u32,
    to: u32,
}

impl Span {
    /// No piece has an end of 0: its line 1 stands before.
    const NONE: Span = Span { from: 0, to: 0 };

    fn bytes(&self) -> usize {
        (self.to - self.from) as usize
    }
}

/// The pieces of an input as far as they have been read.
struct Set<'a> {
    /// Of the pieces with a 911: the records by k, from 1 on.
    spans: [Span; MOST_PIECES],
    pieces: usize,
    /// Of the first piece. The ID is empty until a 911 has been read.
    first_line: &'a [u8],
    id: &'a [u8],
    n: u32,
    /// Whether a piece has had no 911, and whether something has been seen that no set can have.
    unmarked: bool,
    wrong: bool,
}

/// A piece whose end has not been read yet.
struct Open<'a> {
    first_line: &'a [u8],
    /// Where its records begin.
    from: usize,
    /// Its first 911 line and where that begins.
    mark: Option<(&'a [u8], usize)>,
}

impl Default for Set<'_> {
    fn default() -> Self {
        Set { spans: [Span::NONE; MOST_PIECES], pieces: 0, first_line: &[], id: &[], n: 0, unmarked: false, wrong: false }
    }
}

impl<'a> Set<'a> {
    /// Reads the pieces of an input and answers its count of 1Ah; `None` if it breaks the rule of line ends.
    fn read(&mut self, input: &'a [u8]) -> Option<usize> {
        let mut piece: Option<Open> = None;
        let (mut at, mut lines, mut end_marks) = (0, 0, 0);
        while at < input.len() {
            if piece.is_some() && end_mark_stands(&input[at..]) {
                end_marks += 1;
                at += 1;
                continue;
            }
            let line = &input[at..at + line_length(&input[at..])];
            if !line.ends_with(b"\r\n") {
                return None;
            }
            lines += 1;
            if is_first_line(line) {
                self.close(piece.take());
                piece = Some(Open { first_line: line, from: at + line.len(), mark: None });
            } else if let Some(piece) = &mut piece {
                // A 911 is the last line of its piece.
                self.wrong |= piece.mark.is_some();
                if is_mark(line) {
                    piece.mark = Some((line, at));
                }
            } else {
                self.wrong = true;
            }
            at += line.len();
        }
        self.close(piece);
        // Each line has one 0Dh, at its end, and no 1Ah.
        (lines > 0 && count(input, b'\r') == lines && count(input, 0x1A) == end_marks).then_some(end_marks)
    }

    fn close(&mut self, piece: Option<Open<'a>>) {
        let Some(piece) = piece else { return };
        self.pieces += 1;
        if self.pieces == 1 {
            self.first_line = piece.first_line;
        }
        match piece.mark {
            None => self.unmarked = true,
            Some((line, to)) => {
                let placed = piece.first_line == self.first_line
                    && self.place(line, Span { from: piece.from as u32, to: to as u32 });
                self.wrong |= !placed;
            }
        }
    }

    /// Places the records of a piece by its 911; false if that is not as the others, or k has been before.
    fn place(&mut self, mark: &'a [u8], records: Span) -> bool {
        let Some((id, n, k)) = read_mark(mark) else { return false };
        if self.id.is_empty() {
            (self.id, self.n) = (id, n);
        }
        let span = &mut self.spans[k as usize - 1];
        let placed = id == self.id && n == self.n && k <= n && span.to == 0;
        *span = records;
        placed
    }

    /// "Joining accepts one piece without a record 911".
    fn is_one_whole_file(&self) -> bool {
        self.pieces == 1 && self.unmarked && !self.wrong
    }

    /// "or n pieces": each k has been at most once, so n pieces have them all.
    fn is_complete(&self) -> bool {
        !self.wrong && !self.unmarked && self.pieces == self.n as usize
    }
}

// ---- Lines

fn is_first_line(line: &[u8]) -> bool {
    line == TO_PATIENT || line == TO_PROVIDER
}

/// Whether a 1Ah stands at the start of `rest`, a line's start, before the end or the next piece.
fn end_mark_stands(rest: &[u8]) -> bool {
    match rest {
        [0x1A] => true,
        [0x1A, next @ ..] => next.starts_with(TO_PATIENT) || next.starts_with(TO_PROVIDER),
        _ => false,
    }
}

/// The bytes to the first 0Ah, with it, or all. This search of the standard library looks at many bytes at a time.
#[inline]
fn line_length(mut rest: &[u8]) -> usize {
    rest.skip_until(b'\n').unwrap_or(0)
}

/// How often a byte occurs. Sums that fit a byte let the compiler compare many bytes at a time.
fn count(input: &[u8], wanted: u8) -> usize {
    let in_chunk = |chunk: &[u8]| chunk.iter().map(|&byte| u8::from(byte == wanted)).sum::<u8>();
    input.chunks(240).map(|chunk| usize::from(in_chunk(chunk))).sum()
}

/// "A record 911 is a line that is 911 or begins with 911 and a comma."
fn is_mark(line: &[u8]) -> bool {
    line.starts_with(b"911,") || line == b"911\r\n"
}

/// ID, n and k of a 911 line: 14 digits, 2 to 999, 1 to 999, the last two of one to three digits.
fn read_mark(line: &[u8]) -> Option<(&[u8], u32, u32)> {
    let items = line.strip_prefix(b"911,")?.strip_suffix(b"\r\n")?;
    let (id, numbers) = items.split_at_checked(14)?;
    let numbers = numbers.strip_prefix(b",")?;
    let comma = numbers.iter().position(|&byte| byte == b',')?;
    let (n, k) = (digits(&numbers[..comma], 3)?, digits(&numbers[comma + 1..], 3)?);
    (id.iter().all(u8::is_ascii_digit) && n >= 2 && k >= 1).then_some((id, n, k))
}

/// The line in which the rule of line ends is first broken, in an input where it is.
#[cold]
fn first_broken_line(input: &[u8]) -> u64 {
    let (mut at, mut start, mut line, mut in_piece) = (0, 0, 1, false);
    while at < input.len() {
        match input[at] {
            b'\r' if input[at..].starts_with(b"\r\n") => {
                at += 2;
                in_piece |= is_first_line(&input[start..at]);
                start = at;
                line += 1;
            }
            0x1A if at == start && in_piece && end_mark_stands(&input[at..]) => {
                at += 1;
                start = at;
            }
            b'\r' | b'\n' | 0x1A => return line,
            _ => at += 1,
        }
    }
    line
}

#[cfg(test)]
mod tests {
    use super::*;

    const ONE: &str = "JAHISTC04,2\r\n";
    const PATIENT: &str = "1,A,1,19890108,,,,,,,\r\n";
    const NOTE: &str = "4,x,,2\r\n";

    fn joined(input: &str) -> Result<String, (u8, u64)> {
        let mut out = vec![b'?'; 65_536];
        let result = join(input.as_bytes(), &mut out);
        let kept = result.map_or(0, |bytes| bytes as usize);
        assert!(out[kept..].iter().all(|&byte| byte == b'?'));
        result
            .map(|bytes| String::from_utf8(out[..bytes as usize].to_vec()).expect("the cases are ASCII"))
            .map_err(|refusal| (refusal.number, refusal.line))
    }

    fn mark(n: &str, k: &str) -> String {
        format!("911,12345678901234,{n},{k}\r\n")
    }

    fn piece(records: &str, n: &str, k: &str) -> String {
        format!("{ONE}{records}{}", mark(n, k))
    }

    #[test]
    fn one_piece_without_911() {
        let file = format!("{ONE}{PATIENT}");
        assert_eq!(joined(&file), Ok(file.clone()));
        assert_eq!(joined(&format!("{file}\x1A")), Ok(file.clone()));
        let mut out = [b'?'; 36];
        assert_eq!(join(file.as_bytes(), &mut out[..35]), Err(without_line(20)));
        assert_eq!(out, [b'?'; 36]);
        assert_eq!(joined(&format!("{ONE}{NOTE}")), Err((14, 2)));
        assert_eq!(joined(&format!("{ONE}{PATIENT}4,,,2\r\n\x1A")), Err((8, 3)));
    }

    #[test]
    fn pieces_in_any_order_with_end_marks_and_zeros() {
        let whole = format!("{ONE}{PATIENT}{NOTE}{NOTE}");
        let (a, b, c) = (piece(PATIENT, "3", "1"), piece(NOTE, "003", "02"), piece(NOTE, "03", "3"));
        for (x, y, z) in [(&a, &b, &c), (&a, &c, &b), (&b, &a, &c), (&b, &c, &a), (&c, &a, &b), (&c, &b, &a)] {
            for end in ["", "\x1A"] {
                assert_eq!(joined(&format!("{x}\x1A{y}{end}{z}\x1A")), Ok(whole.clone()));
                assert_eq!(joined(&format!("{x}{y}{end}{z}")), Ok(whole.clone()));
            }
        }
        // A piece without a record.
        assert_eq!(
            joined(&format!("{}{a}{}", piece("", "3", "2"), piece(NOTE, "3", "3"))),
            Ok(format!("{ONE}{PATIENT}{NOTE}"))
        );
    }

    #[test]
    fn no_set() {
        let (a, b) = (piece(PATIENT, "2", "1"), piece(NOTE, "2", "2"));
        assert!(joined(&format!("{a}{b}")).is_ok());
        let other_line = b.replace("JAHISTC04,2", "JAHISTC04,1");
        let other_id = b.replace("12345678901234", "12345678901235");
        let letter = "1234567890123a";
        let letters = format!("{a}{b}").replace("12345678901234", letter);
        let not_last = format!("{ONE}{}{NOTE}", mark("2", "2"));
        let doubled = format!("{b}{}", mark("2", "2"));
        let wrong = [
            a.clone(),
            b.clone(),
            format!("{a}{a}"),
            format!("{a}{b}{b}"),
            format!("{a}{other_line}"),
            format!("{a}{other_id}"),
            letters,
            format!("{a}{not_last}"),
            format!("{a}{doubled}"),
            format!("{a}{ONE}{NOTE}"),
            format!("{ONE}{PATIENT}{ONE}{NOTE}"),
            format!("{NOTE}{a}{b}"),
            format!("\r\n{a}{b}"),
            NOTE.to_string(),
            "\r\n".to_string(),
            piece(PATIENT, "1", "1"),
            format!("{a}{}", piece(NOTE, "3", "2")),
            format!("{a}{}", piece(NOTE, "2", "0")),
            format!("{a}{}", piece(NOTE, "2", "3")),
            format!("{a}{}", piece(NOTE, "2", "0002")),
            format!("{a}{}", piece(NOTE, "0002", "2")),
            format!("{a}{}", piece(NOTE, "2", "")),
            format!("{a}{}", piece(NOTE, "", "2")),
            format!("{a}{}", piece(NOTE, "2", "2,")),
            format!("{a}{}", piece(NOTE, "2", "2 ")),
            format!("{a}{ONE}{NOTE}911\r\n"),
            format!("{a}{ONE}{NOTE}911,\r\n"),
        ];
        for input in wrong {
            assert_eq!(joined(&input), Err((19, 0)), "{input:?}");
        }
        // 9110 is no 911: the piece has none, or the joined file has a bad record.
        assert_eq!(joined(&format!("{ONE}{PATIENT}9110\r\n")), Err((5, 3)));
        assert_eq!(joined(&format!("{ONE}{PATIENT}JAHISTC04,3\r\n")), Err((5, 3)));
    }

    #[test]
    fn line_ends_before_sets() {
        let (a, b) = (piece(PATIENT, "2", "1"), piece(NOTE, "2", "2"));
        let broken = [
            (String::new(), 1),
            ("\x1A".to_string(), 1),
            (format!("\x1A{a}{b}"), 1),
            (format!("{NOTE}\x1A{a}{b}"), 2),
            (format!("{NOTE}\x1A"), 2),
            (format!("{a}\x1A\x1A{b}"), 4),
            (format!("{a}{b}\x1A\x1A"), 7),
            (format!("{a}{b}\x1A\r\n"), 7),
            (format!("{a}{b}\x1A{NOTE}"), 7),
            (format!("{a}\x1AJAHISTC04,3\r\n{NOTE}"), 4),
            (format!("{a}\x1AJAHISTC04,2"), 4),
            (format!("{a}{b}JAHISTC04,2"), 7),
            (format!("{a}{b}x"), 7),
            (format!("{a}{b}\r"), 7),
            (format!("{a}{b}\n"), 7),
            (format!("{a}4,\x1Ax,,2\r\n{b}"), 4),
            (format!("{a}4,\rx,,2\r\n{b}"), 4),
            (format!("{a}4,\nx,,2\r\n{b}"), 4),
            (format!("{ONE}{PATIENT}\x1A{}", mark("2", "1")), 3),
            (format!("{NOTE}{a}{a}{NOTE}\r\r\n"), 9),
        ];
        for (input, line) in broken {
            assert_eq!(joined(&input), Err((2, line)), "{input:?}");
        }
    }

    #[test]
    fn sizes() {
        assert_eq!(join(&[b'x'; 131_073], &mut []), Err(without_line(1)));
        assert_eq!(join(&[b'x'; 131_072], &mut []), Err(Refusal { number: 2, line: 1 }));
        // A joined file of 65,536 bytes is checked, one of a byte more is not.
        let pieces_of = |long_note: &str| {
            let first = format!("{PATIENT}{long_note}{}", NOTE.repeat(4_093));
            format!("{}{}", piece(&NOTE.repeat(4_093), "2", "2"), piece(&first, "2", "1"))
        };
        assert_eq!(joined(&pieces_of("4,12345,,2\r\n")).map(|file| file.len()), Ok(65_536));
        assert_eq!(joined(&pieces_of("4,123456,,2\r\n")), Err((1, 0)));
        // 999 pieces are a set, 1,000 are not.
        let pieces = |count: usize| -> String {
            (1..=count).map(|k| piece(if k == 1 { PATIENT } else { "" }, "999", &k.to_string())).collect()
        };
        assert_eq!(joined(&pieces(999)), Ok(format!("{ONE}{PATIENT}")));
        assert_eq!(joined(&pieces(998)), Err((19, 0)));
        assert_eq!(joined(&format!("{}{}", pieces(999), piece("", "999", "1"))), Err((19, 0)));
        assert_eq!(joined(&format!("{}{}", pieces(999), piece("", "1000", "1000"))), Err((19, 0)));
    }
}
