//! What is said about an input: the lines, the stream that they go to, and the exit status that it asks for.

use crate::json::Object;
use crate::names;
use crate::system::Standard;
use notebook::{Reason, Refusal};
use std::ffi::OsStr;
use std::io::{self, Write};

/// The exit statuses; of several files the highest counts.
pub const ACCEPTED: u8 = 0;
pub const REFUSED: u8 = 1;
pub const FAILED: u8 = 2;

#[derive(Clone, Copy, PartialEq, Eq)]
pub enum Outcome {
    Accepted,
    Refused(Reason),
    Failed,
    Skipped,
}

impl Outcome {
    pub fn status(self) -> u8 {
        match self {
            Outcome::Accepted | Outcome::Skipped => ACCEPTED,
            Outcome::Refused(_) => REFUSED,
            Outcome::Failed => FAILED,
        }
    }
}

pub struct Told {
    pub outcome: Outcome,
    pub out: Vec<u8>,
    pub err: Vec<u8>,
}

impl Told {
    pub fn accepted(out: Vec<u8>) -> Self {
        Told { outcome: Outcome::Accepted, out, err: Vec::new() }
    }

    /// Writes it and answers the exit status.
    pub fn write(&self) -> io::Result<u8> {
        write_err(&self.err);
        write_out(&self.out)?;
        Ok(self.outcome.status())
    }
}

/// How the lines are written.
#[derive(Clone, Copy)]
pub struct Teller {
    pub json: bool,
    /// Whether refusals are results, on standard output: the other calls have files there.
    pub results: bool,
}

impl Teller {
    pub fn refused(self, name: &OsStr, refusal: Refusal) -> Told {
        let reason = refusal.reason;
        let outcome = if reason.is_operators() { Outcome::Failed } else { Outcome::Refused(reason) };
        if !self.json {
            return self.on_a_stream(outcome, self.results, line(name, &refusal.to_string()));
        }
        let object = Object::of(name).flag("ok", false).number("number", u64::from(reason.number()));
        let object = object.text("word", reason.word()).number("line", refusal.line);
        self.on_a_stream(outcome, self.results, object.line())
    }

    /// An input that could not be read, or an output that could not be written.
    pub fn failed(self, name: &OsStr, error: &io::Error) -> Told {
        self.aside(Outcome::Failed, name, "error", "", &error.to_string())
    }

    /// Something in a folder that is no input.
    pub fn skipped(self, name: &OsStr, reason: &str) -> Told {
        self.aside(Outcome::Skipped, name, "skipped", "skipped: ", reason)
    }

    /// What is no answer of a call: in text on standard error, as an object among the results, if there are any.
    fn aside(self, outcome: Outcome, name: &OsStr, key: &str, before: &str, message: &str) -> Told {
        if self.json {
            return self.on_a_stream(outcome, self.results, Object::of(name).text(key, message).line());
        }
        let line = line(name, &format!("{before}{message}"));
        self.on_a_stream(outcome, false, [b"notebook: ", &line[..]].concat())
    }

    fn on_a_stream(self, outcome: Outcome, out: bool, line: Vec<u8>) -> Told {
        let (out, err) = if out { (line, Vec::new()) } else { (Vec::new(), line) };
        Told { outcome, out, err }
    }
}

/// `NAME: TEXT` and a line end.
pub fn line(name: &OsStr, text: &str) -> Vec<u8> {
    format!("{}: {text}\n", names::shown(name)).into_bytes()
}

/// A message that is about no file, on standard error.
pub fn complain(json: bool, message: &str) {
    let line =
        if json { Object::new().text("error", message).line() } else { format!("notebook: {message}\n").into_bytes() };
    write_err(&line);
}

pub fn write_out(bytes: &[u8]) -> io::Result<()> {
    match bytes {
        [] => Ok(()),
        bytes => Standard::Output.file()?.write_all(bytes),
    }
}

/// Standard error may be closed or full: that changes nothing.
pub fn write_err(bytes: &[u8]) {
    let _ = Standard::Error.file().and_then(|mut file| file.write_all(bytes));
}
