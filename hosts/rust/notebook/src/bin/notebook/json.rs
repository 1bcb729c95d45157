//! JSON, written by hand.

use std::ffi::{OsStr, OsString};
use std::fmt::Write;

/// An object in the making.
pub struct Object(String);

impl Object {
    pub fn new() -> Self {
        Object(String::from("{"))
    }

    /// An object about a file.
    pub fn of(file: &OsStr) -> Self {
        Object::new().name("file", file)
    }

    fn key(mut self, key: &str) -> Self {
        if self.0.len() > 1 {
            self.0.push(',');
        }
        let _ = write!(self.0, "\"{key}\":");
        self
    }

    /// A value that is JSON already.
    pub fn raw(self, key: &str, value: &str) -> Self {
        let mut object = self.key(key);
        object.0.push_str(value);
        object
    }

    pub fn flag(self, key: &str, value: bool) -> Self {
        self.raw(key, if value { "true" } else { "false" })
    }

    pub fn number(self, key: &str, value: u64) -> Self {
        self.raw(key, &value.to_string())
    }

    pub fn object(self, key: &str, value: Object) -> Self {
        self.raw(key, &(value.0 + "}"))
    }

    pub fn text(self, key: &str, value: &str) -> Self {
        self.raw(key, &string(value))
    }

    /// A file's name. JSON has no bytes: a name that is not UTF-8 is given with replacement characters, and its bytes in
    /// hexadecimal under a key of their own.
    pub fn name(self, key: &str, value: &OsStr) -> Self {
        let object = self.raw(key, &string(&value.to_string_lossy()));
        match value.to_str() {
            Some(_) => object,
            None => object.raw(&format!("{key}_hex"), &hexadecimal(value)),
        }
    }

    /// Names of files, in the same manner.
    pub fn names(self, key: &str, values: &[OsString]) -> Self {
        let list = |of: &dyn Fn(&OsString) -> String| format!("[{}]", values.iter().map(of).collect::<Vec<_>>().join(","));
        let object = self.raw(key, &list(&|value| string(&value.to_string_lossy())));
        if values.iter().all(|value| value.to_str().is_some()) {
            return object;
        }
        object.raw(&format!("{key}_hex"), &list(&|value| hexadecimal(value)))
    }

    /// The object on a line.
    pub fn line(self) -> Vec<u8> {
        (self.0 + "}\n").into_bytes()
    }
}

fn hexadecimal(value: &OsStr) -> String {
    let digits: String = value.as_encoded_bytes().iter().map(|byte| format!("{byte:02x}")).collect();
    string(&digits)
}

/// A string in quotes.
fn string(text: &str) -> String {
    let mut quoted = String::from("\"");
    for character in text.chars() {
        match character {
            '"' => quoted.push_str("\\\""),
            '\\' => quoted.push_str("\\\\"),
            '\n' => quoted.push_str("\\n"),
            '\r' => quoted.push_str("\\r"),
            '\t' => quoted.push_str("\\t"),
            // The last of these are controls of a terminal too.
            '\0'..' ' | '\x7f'..='\u{9f}' => {
                let _ = write!(quoted, "\\u{:04x}", u32::from(character));
            }
            other => quoted.push(other),
        }
    }
    quoted.push('"');
    quoted
}

/// Base64 with the usual letters and padding.
pub fn base64(bytes: &[u8]) -> String {
    const LETTERS: &[u8; 64] = b"ABCDEFGHIJKLMNOPQRSTUVWXYZabcdefghijklmnopqrstuvwxyz0123456789+/";
    let mut text = String::with_capacity(bytes.len().div_ceil(3) * 4);
    for chunk in bytes.chunks(3) {
        let byte = |at: usize| u32::from(chunk.get(at).copied().unwrap_or(0));
        let bits = byte(0) << 16 | byte(1) << 8 | byte(2);
        for place in 0..4 {
            let letter = LETTERS.get((bits >> (18 - 6 * place)) as usize % 64).filter(|_| place <= chunk.len());
            text.push(letter.map_or('=', |&letter| char::from(letter)));
        }
    }
    text
}

#[cfg(test)]
mod tests {
    use super::*;

    #[test]
    fn strings_are_escaped() {
        assert_eq!(string("a\"b\\c\n\r\t\u{1}é"), "\"a\\\"b\\\\c\\n\\r\\t\\u0001é\"");
        assert_eq!(string("\u{7e}\u{7f}\u{80}\u{9f}\u{a0}"), "\"\u{7e}\\u007f\\u0080\\u009f\u{a0}\"");
        let object = Object::of(OsStr::new("a\"b")).flag("ok", true).number("n", 3).names("to", &["x".into()]);
        assert_eq!(object.line(), b"{\"file\":\"a\\\"b\",\"ok\":true,\"n\":3,\"to\":[\"x\"]}\n");
    }

    #[test]
    fn names_that_are_not_utf_8() {
        use std::os::unix::ffi::OsStrExt;
        let name = OsStr::from_bytes(b"a\xff.csv");
        assert_eq!(Object::of(name).line(), "{\"file\":\"a\u{fffd}.csv\",\"file_hex\":\"61ff2e637376\"}\n".as_bytes());
        let names = Object::of(OsStr::new("x")).names("to", &[name.into(), "b".into()]).line();
        assert_eq!(
            names,
            "{\"file\":\"x\",\"to\":[\"a\u{fffd}.csv\",\"b\"],\"to_hex\":[\"61ff2e637376\",\"62\"]}\n".as_bytes()
        );
    }

    #[test]
    fn base64_of_every_remainder() {
        let cases = [("", ""), ("f", "Zg=="), ("fo", "Zm8="), ("foo", "Zm9v"), ("foob", "Zm9vYg=="), ("\0\u{7f}~", "AH9+")];
        for (bytes, text) in cases {
            assert_eq!(base64(bytes.as_bytes()), text);
        }
    }
}
