//! The items of a record by their kinds.

use super::characters::{scripts, Script, MOST_PARTS};
use super::days::{self, Day};
use super::{rule, Watcher, EDGE, EMPTY, FORM, LONG};

/// The items of a line from the left. Each method takes one item and refuses it by the lowest of 8 to 11. The short ones
/// are worth inlining: a tenth of the whole time.
pub(super) struct Items<'a, W> {
    bytes: &'a [u8],
    ends: &'a [usize; MOST_PARTS],
    next: usize,
    /// Where the line begins in the file, and who is told of items that canonical files spell otherwise.
    line: usize,
    watcher: &'a mut W,
}

impl<'a, W: Watcher> Items<'a, W> {
    #[inline(always)]
    pub(super) fn new(bytes: &'a [u8], ends: &'a [usize; MOST_PARTS], line: usize, watcher: &'a mut W) -> Self {
        Items { bytes, ends, next: 1, line, watcher }
    }

    #[inline(always)]
    fn item(&mut self) -> &'a [u8] {
        let item = &self.bytes[self.ends[self.next - 1] + 1..self.ends[self.next]];
        self.next += 1;
        item
    }

    /// Tells of the item that was taken last.
    #[inline(always)]
    fn respell(&mut self, spelling: &[u8]) {
        let (from, to) = (self.ends[self.next - 2] + 1, self.ends[self.next - 1]);
        self.watcher.respell(self.line + from, self.line + to, spelling);
    }

    #[inline(always)]
    pub(super) fn required(&mut self) -> Result<&'a [u8], u8> {
        let item = self.item();
        rule(!item.is_empty(), EMPTY)?;
        Ok(item)
    }

    /// The next item if it is not empty.
    #[inline(always)]
    fn some(&mut self, must: bool) -> Result<Option<&'a [u8]>, u8> {
        let item = self.item();
        match item {
            [] if must => Err(EMPTY),
            [] => Ok(None),
            _ => Ok(Some(item)),
        }
    }

    /// Kind N: text.
    #[inline(always)]
    pub(super) fn text(&mut self, most: usize, must: bool) -> Result<&'a [u8], u8> {
        let Some(item) = self.some(must)? else {
            return Ok(&[]);
        };
        rule(item.len() <= most, LONG)?;
        rule(!has_bad_edge(item), EDGE)?;
        Ok(item)
    }

    /// Kind U: text, all one-byte or all two-byte characters.
    pub(super) fn one_width(&mut self, most: usize, must: bool) -> Result<(), u8> {
        let item = self.text(most, must)?;
        let mut narrow = scripts(item).map(|script| script == Script::OneByte);
        let first = narrow.next();
        rule(narrow.all(|narrow| Some(narrow) == first), FORM)
    }

    /// Kind K: a name in kana, "all one-byte, or all hiragana (row 4), or all katakana (row 5)".
    pub(super) fn kana_name(&mut self, most: usize, must: bool) -> Result<(), u8> {
        let item = self.text(most, must)?;
        let all = |of_script: fn(Script) -> bool| scripts(item).all(of_script);
        let of_one_script = all(|script| script == Script::OneByte)
            || all(|script| matches!(script, Script::Hiragana | Script::Either))
            || all(|script| matches!(script, Script::Katakana | Script::Either));
        rule(of_one_script, FORM)
    }

    /// Kind X: letters, digits, period, hyphen.
    #[inline(always)]
    pub(super) fn code(&mut self, most: usize, must: bool) -> Result<&'a [u8], u8> {
        let item = self.text(most, must)?;
        rule(item.iter().all(|byte| matches!(byte, b'A'..=b'Z' | b'a'..=b'z' | b'0'..=b'9' | b'.' | b'-')), FORM)?;
        Ok(item)
    }

    /// Braces of one-digit values: the digit, or 0 for an empty item.
    #[inline(always)]
    pub(super) fn digit<const N: usize>(&mut self, values: &[u8; N], must: bool) -> Result<u8, u8> {
        match self.some(must)? {
            None => Ok(0),
            Some(&[digit]) if values.contains(&digit) => Ok(digit),
            Some(_) => Err(FORM),
        }
    }

    /// Kind A: author.
    #[inline(always)]
    pub(super) fn author(&mut self) -> Result<(), u8> {
        self.digit(b"1289", true).map(|_| ())
    }

    /// The form of a 301, or 0: 1 to 7, 9, 10.
    #[inline(always)]
    pub(super) fn form(&mut self, must: bool) -> Result<u32, u8> {
        match self.some(must)? {
            None => Ok(0),
            Some(&[digit @ (b'1'..=b'7' | b'9')]) => Ok(u32::from(digit - b'0')),
            Some(b"10") => Ok(10),
            Some(_) => Err(FORM),
        }
    }

    /// Kind F: prefecture, 01 to 47.
    #[inline(always)]
    pub(super) fn prefecture(&mut self, must: bool) -> Result<(), u8> {
        match self.some(must)? {
            None => Ok(()),
            Some(item) => rule(item.len() == 2 && matches!(digits(item, 2), Some(1..=47)), FORM),
        }
    }

    /// Kind C: seven digits.
    #[inline(always)]
    pub(super) fn institution(&mut self, must: bool) -> Result<(), u8> {
        match self.some(must)? {
            None => Ok(()),
            Some(item) => rule(item.len() == 7 && digits(item, 7).is_some(), FORM),
        }
    }

    /// Kind P: seven digits, or three, hyphen, four.
    #[inline(always)]
    pub(super) fn postal_code(&mut self, must: bool) -> Result<(), u8> {
        match self.some(must)? {
            None => Ok(()),
            Some([a, b, c, b'-', rest @ ..]) => {
                let good = digits(&[*a, *b, *c], 3).is_some() && rest.len() == 4 && digits(rest, 4).is_some();
                rule(good, FORM)?;
                if W::RESPELLS {
                    self.respell(&[*a, *b, *c, rest[0], rest[1], rest[2], rest[3]]);
                }
                Ok(())
            }
            Some(item) => rule(item.len() == 7 && digits(item, 7).is_some(), FORM),
        }
    }

    /// Kind R: one to three digits with value 1 to 999; 0 for an empty item.
    #[inline(always)]
    pub(super) fn number(&mut self, must: bool) -> Result<u16, u8> {
        match self.some(must)? {
            None => Ok(0),
            Some(item) => match digits(item, 3) {
                Some(value @ 1..) => {
                    if W::RESPELLS && item[0] == b'0' {
                        let zeros = item.iter().take_while(|&&digit| digit == b'0').count();
                        self.respell(&item[zeros..]);
                    }
                    Ok(value as u16)
                }
                _ => Err(FORM),
            },
        }
    }

    /// Kinds W and Q: "No extra leading zero, no trailing zero in the fraction, no bare period; 0 is good."
    #[inline(always)]
    pub(super) fn decimal(&mut self, most_whole: usize, most_fraction: usize, must: bool) -> Result<(), u8> {
        let Some(item) = self.some(must)? else {
            return Ok(());
        };
        let whole_length = item.iter().position(|&byte| byte == b'.').unwrap_or(item.len());
        let (whole, fraction) = item.split_at(whole_length);
        let whole_good = digits(whole, most_whole).is_some() && (whole.len() == 1 || whole[0] != b'0');
        let fraction_good = match fraction {
            [] => true,
            [_, fraction @ ..] => digits(fraction, most_fraction).is_some() && !fraction.ends_with(b"0"),
        };
        rule(whole_good && fraction_good, FORM)
    }

    /// Kind D: the day, or 0 for an empty item.
    #[inline(always)]
    pub(super) fn day(&mut self, must: bool) -> Result<Day, u8> {
        match self.some(must)? {
            None => Ok(0),
            Some(item) => {
                let day = days::read(item).ok_or(FORM)?;
                if W::RESPELLS {
                    // Neither YYYYMMDD nor the form of an era that had ended begins with the letter of the day's own era.
                    let era = days::era(day);
                    if item[0] != era.letter {
                        self.respell(&era.form(day));
                    }
                }
                Ok(day)
            }
        }
    }
}

/// The value of one to `most` digits and nothing else; `most` is at most 8.
#[inline]
pub(super) fn digits(bytes: &[u8], most: usize) -> Option<u32> {
    if bytes.is_empty() || bytes.len() > most {
        return None;
    }
    let mut value = 0;
    for byte in bytes {
        if !byte.is_ascii_digit() {
            return None;
        }
        value = 10 * value + u32::from(byte - b'0');
    }
    Some(value)
}

/// "item begins or ends with 20h or the character 8140h, or has two or more bytes, the first and last both 22h or both
/// 27h".
#[inline]
fn has_bad_edge(item: &[u8]) -> bool {
    match item {
        [b' ', ..] | [.., b' '] | [0x81, 0x40, ..] => true,
        [b'"', .., b'"'] | [b'\'', .., b'\''] => true,
        // 81h may be the trail of a kanji and 40h an @, as in 8Ah 81h 40h.
        [.., 0x81, 0x40] => scripts(item).last() != Some(Script::OneByte),
        _ => false,
    }
}
