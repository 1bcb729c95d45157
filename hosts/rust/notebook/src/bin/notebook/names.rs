//! Names in text: one line of output stays one answer, whatever a name holds.

use std::ffi::OsStr;
use std::fmt::Write;
use std::os::unix::ffi::OsStrExt;

/// Characters of Unicode that a terminal obeys, or that hide or turn around what is near them.
const UNSEEN: [(char, char); 10] = [
    ('\u{80}', '\u{9f}'),
    ('\u{ad}', '\u{ad}'),
    ('\u{61c}', '\u{61c}'),
    ('\u{180e}', '\u{180e}'),
    ('\u{200b}', '\u{200f}'),
    ('\u{2028}', '\u{202e}'),
    ('\u{2060}', '\u{206f}'),
    ('\u{feff}', '\u{feff}'),
    ('\u{fff9}', '\u{fffb}'),
    ('\u{e0000}', '\u{e007f}'),
];

/// A name, or a word of the command line, as text shows it. It has no colon before a blank: the first of these ends the name.
pub fn shown(name: &OsStr) -> String {
    let mut text = String::new();
    for chunk in name.as_bytes().utf8_chunks() {
        chunk.valid().chars().for_each(|character| show(&mut text, character));
        for byte in chunk.invalid() {
            let _ = write!(text, "\\x{byte:02x}");
        }
    }
    text.replace(": ", "\\x3a ")
}

fn show(text: &mut String, character: char) {
    let code = u32::from(character);
    let _ = match character {
        '\\' => text.write_str("\\\\"),
        '\n' => text.write_str("\\n"),
        '\r' => text.write_str("\\r"),
        '\t' => text.write_str("\\t"),
        '\0'..' ' | '\x7f' => write!(text, "\\x{code:02x}"),
        _ if UNSEEN.iter().any(|&(first, last)| (first..=last).contains(&character)) => write!(text, "\\u{{{code:04x}}}"),
        _ => text.write_char(character),
    };
}

#[cfg(test)]
mod tests {
    use super::*;

    #[test]
    fn names_are_one_line_of_visible_characters() {
        let cases: [(&[u8], &str); 10] = [
            (b"a: ok 1 0 0: b:c", "a\\x3a ok 1 0 0\\x3a b:c"),
            ("\u{61c}\u{ad}\u{180e}\u{fffb}\u{e0041}".as_bytes(), "\\u{061c}\\u{00ad}\\u{180e}\\u{fffb}\\u{e0041}"),
            (b"a b-\xc3\xa9\xe8\x96\xac.csv", "a b-\u{e9}\u{85ac}.csv"),
            (b"a\\n", "a\\\\n"),
            (b"\n\r\t\x00\x1b[2J\x7f", "\\n\\r\\t\\x00\\x1b[2J\\x7f"),
            (b"\xff\xc3\xe8\x96x", "\\xff\\xc3\\xe8\\x96x"),
            ("\u{80}\u{9b}\u{9f}\u{a0}".as_bytes(), "\\u{0080}\\u{009b}\\u{009f}\u{a0}"),
            ("\u{200a}\u{200b}\u{200f}\u{2010}".as_bytes(), "\u{200a}\\u{200b}\\u{200f}\u{2010}"),
            ("\u{2027}\u{2028}\u{202e}\u{202f}".as_bytes(), "\u{2027}\\u{2028}\\u{202e}\u{202f}"),
            ("\u{205f}\u{2060}\u{206f}\u{2070}\u{feff}".as_bytes(), "\u{205f}\\u{2060}\\u{206f}\u{2070}\\u{feff}"),
        ];
        for (name, text) in cases {
            assert_eq!(shown(OsStr::from_bytes(name)), text);
        }
    }
}
