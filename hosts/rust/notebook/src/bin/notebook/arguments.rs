//! The command line.

use crate::names;
use notebook::MOST_FILE_BYTES;
use std::collections::BTreeMap;
use std::ffi::{OsStr, OsString};
use std::ops::RangeInclusive;
use std::os::unix::ffi::OsStrExt;
use std::path::PathBuf;

pub const HELP: &str = include_str!("help.txt");

pub enum Call {
    Many(Many, Paths),
    One(One, OsString),
    Join { output: Option<PathBuf>, paths: Paths },
}

/// The calls on any number of files.
pub enum Many {
    Check,
    Index(Wanted),
    CanonicalTo(PathBuf),
}

/// The entries of an index that are asked for.
pub enum Wanted {
    All,
    /// Those whose clinic is the 51 of this line.
    Clinic(u32),
    /// Those whose clinic's 51 has this institution code.
    ClinicCode(OsString),
}

/// The calls on one file.
pub enum One {
    Canonical { output: Option<PathBuf> },
    Cut(Cutting),
}

pub struct Cutting {
    pub capacity: u64,
    pub id: OsString,
    /// The file with IDs that have been used; `-` is standard input.
    pub used: Option<OsString>,
    /// The file with more of them, which the ID is recorded in.
    pub record: Option<OsString>,
    pub prefix: Option<OsString>,
}

pub struct Arguments {
    pub call: Call,
    pub json: bool,
    pub quiet: bool,
    pub summary: bool,
    pub jobs: usize,
    /// What is shown in place of the one path.
    pub name: Option<OsString>,
}

pub enum Paths {
    Given(Vec<OsString>),
    /// The file that lists them.
    Listed(OsString),
}

pub enum Parsed {
    Run(Arguments),
    Say(String),
}

const SUBCOMMANDS: [&str; 5] = ["check", "index", "canonical", "cut", "join"];

/// The options, whether they have a value, and the subcommands that take each.
const OPTIONS: [(&str, bool, &[&str]); 15] = [
    ("--json", false, &SUBCOMMANDS),
    ("--quiet", false, &["check", "index", "canonical"]),
    ("--summary", false, &["check", "index", "canonical"]),
    ("--jobs", true, &["check", "index", "canonical"]),
    ("--files0-from", true, &["check", "index", "canonical", "join"]),
    ("--name", true, &["check", "index", "canonical", "cut"]),
    ("--clinic", true, &["index"]),
    ("--clinic-code", true, &["index"]),
    ("--to", true, &["canonical"]),
    ("--output", true, &["canonical", "join"]),
    ("--capacity", true, &["cut"]),
    ("--id", true, &["cut"]),
    ("--used", true, &["cut"]),
    ("--record-used", true, &["cut"]),
    ("--prefix", true, &["cut"]),
];

/// The options that canonical has only for many files, and those that it has only for one.
const FOR_MANY: [&str; 3] = ["--quiet", "--summary", "--files0-from"];
const FOR_ONE: [&str; 2] = ["--name", "--output"];

/// Of a file's records the first stands on line 2. There are at most 8,192: none is shorter than 8 bytes.
const RECORD_LINES: RangeInclusive<u64> = 2..=(MOST_FILE_BYTES as u64 / 8 + 1);

pub const STDIN_TWICE: &str = "standard input can be read only once";

pub fn parse(words: Vec<OsString>) -> Result<Parsed, String> {
    let mut words = words.into_iter();
    let word = words.next().ok_or("a subcommand is missing")?;
    if let Some(text) = asked_text(&word).or((word == "help").then_some(HELP.to_string())) {
        return Ok(Parsed::Say(text));
    }
    let subcommand = SUBCOMMANDS.into_iter().find(|known| word == *known);
    let subcommand = subcommand.ok_or_else(|| format!("there is no subcommand {}", names::shown(&word)))?;
    let mut given = Given { subcommand, values: BTreeMap::new(), paths: Vec::new() };
    while let Some(word) = words.next() {
        if word == "--" {
            given.paths.extend(words);
            break;
        }
        if let Some(text) = asked_text(&word) {
            return Ok(Parsed::Say(text));
        }
        if word == "-" || !word.as_bytes().starts_with(b"-") {
            given.paths.push(word);
        } else {
            given.option(&word, &mut words)?;
        }
    }
    given.arguments().map(Parsed::Run)
}

fn asked_text(word: &OsStr) -> Option<String> {
    match word.as_bytes() {
        b"--help" | b"-h" => Some(HELP.to_string()),
        b"--version" | b"-V" => Some(format!("notebook {}\n", env!("CARGO_PKG_VERSION"))),
        _ => None,
    }
}

/// What the words have said so far.
struct Given {
    subcommand: &'static str,
    /// The values of the options; that of one without a value is empty.
    values: BTreeMap<&'static str, OsString>,
    paths: Vec<OsString>,
}

impl Given {
    /// Takes an option, and its value from the same word or from the next.
    fn option(&mut self, word: &OsStr, words: &mut impl Iterator<Item = OsString>) -> Result<(), String> {
        let mut parts = word.as_bytes().splitn(2, |&byte| byte == b'=');
        let option = OsStr::from_bytes(parts.next().unwrap_or_default());
        let value = parts.next().map(|value| OsStr::from_bytes(value).to_owned());
        let known = OPTIONS.into_iter().find(|(known, _, of)| option == *known && of.contains(&self.subcommand));
        let Some((option, has_value, _)) = known else {
            return Err(format!("{} has no option {}", self.subcommand, names::shown(option)));
        };
        if !has_value {
            self.values.insert(option, OsString::new());
            return value.map_or(Ok(()), |_| Err(format!("{option} takes no value")));
        }
        let value = value.or_else(|| words.next()).ok_or_else(|| format!("{option} needs a value"))?;
        self.values.insert(option, value).map_or(Ok(()), |_| Err(format!("{option} is given twice")))
    }

    fn has(&self, option: &str) -> bool {
        self.values.contains_key(option)
    }

    fn value(&mut self, option: &str) -> Option<OsString> {
        self.values.remove(option)
    }

    fn arguments(mut self) -> Result<Arguments, String> {
        self.agree()?;
        let name = self.value("--name");
        let [json, quiet, summary] = ["--json", "--quiet", "--summary"].map(|flag| self.has(flag));
        let jobs = self.jobs()?;
        Ok(Arguments { call: self.call()?, json, quiet, summary, jobs, name })
    }

    /// Whether the options and paths go together.
    fn agree(&self) -> Result<(), String> {
        let listed = self.has("--files0-from");
        if listed && !self.paths.is_empty() {
            return Err("--files0-from stands in place of files".to_string());
        }
        if !listed && self.paths.is_empty() {
            return Err(format!("{} needs a file, or - for standard input", self.subcommand));
        }
        if self.has("--name") && (listed || self.paths.len() > 1) {
            return Err("--name is for one file".to_string());
        }
        if self.subcommand == "canonical" {
            let to = self.has("--to");
            let (how, wrong) = if to { ("with", &FOR_ONE[..]) } else { ("without", &FOR_MANY[..]) };
            let wrong = wrong.iter().find(|option| self.has(option));
            return wrong.map_or(Ok(()), |option| Err(format!("canonical {how} --to has no option {option}")));
        }
        Ok(())
    }

    fn call(mut self) -> Result<Call, String> {
        let output = self.value("--output").map(PathBuf::from);
        Ok(match (self.subcommand, self.value("--to")) {
            ("check", _) => Call::Many(Many::Check, self.paths()?),
            ("index", _) => Call::Many(Many::Index(self.wanted()?), self.paths()?),
            ("join", _) => Call::Join { output, paths: self.paths()? },
            ("canonical", Some(folder)) => Call::Many(Many::CanonicalTo(folder.into()), self.paths()?),
            ("canonical", None) => Call::One(One::Canonical { output }, self.path("canonical without --to")?),
            _ => {
                let (cutting, path) = (self.cutting()?, self.path("cut")?);
                if path == "-" && cutting.used.as_ref().is_some_and(|used| used == "-") {
                    return Err(STDIN_TWICE.to_string());
                }
                Call::One(One::Cut(cutting), path)
            }
        })
    }

    fn wanted(&mut self) -> Result<Wanted, String> {
        match (self.value("--clinic"), self.value("--clinic-code")) {
            (None, None) => Ok(Wanted::All),
            (Some(_), Some(_)) => Err("--clinic and --clinic-code do not go together".to_string()),
            (Some(line), None) => clinic_line(&line).map(Wanted::Clinic),
            (None, Some(code)) if is_code(&code) => Ok(Wanted::ClinicCode(code)),
            (None, Some(_)) => Err("--clinic-code is seven digits".to_string()),
        }
    }

    fn cutting(&mut self) -> Result<Cutting, String> {
        let capacity = self.value("--capacity").ok_or("cut needs --capacity")?;
        let capacity = number(&capacity).ok_or("--capacity is a number of bytes")?;
        let id = self.value("--id").ok_or("cut needs --id")?;
        let (used, record) = (self.file_of_ids("--used")?, self.file_of_ids("--record-used")?);
        if record.as_ref().is_some_and(|record| record == "-") {
            return Err("--record-used is a file, not standard input".to_string());
        }
        Ok(Cutting { capacity, id, used, record, prefix: self.value("--prefix") })
    }

    /// An empty name is no file's: a script has forgotten it, and must not be told that a file is missing.
    fn file_of_ids(&mut self, option: &str) -> Result<Option<OsString>, String> {
        match self.value(option) {
            Some(file) if file.is_empty() => Err(format!("{option} needs a value")),
            file => Ok(file),
        }
    }

    fn path(self, call: &str) -> Result<OsString, String> {
        match <[OsString; 1]>::try_from(self.paths) {
            Ok([path]) => Ok(path),
            Err(_) => Err(format!("{call} takes one file")),
        }
    }

    fn paths(mut self) -> Result<Paths, String> {
        match self.value("--files0-from") {
            Some(list) => Ok(Paths::Listed(list)),
            None if self.paths.iter().filter(|path| *path == "-").count() > 1 => Err(STDIN_TWICE.to_string()),
            None => Ok(Paths::Given(self.paths)),
        }
    }

    fn jobs(&mut self) -> Result<usize, String> {
        let Some(jobs) = self.value("--jobs") else {
            return Ok(std::thread::available_parallelism().map_or(1, |jobs| jobs.get().min(64)));
        };
        let jobs = number(&jobs).and_then(|jobs| usize::try_from(jobs).ok()).filter(|jobs| (1..=64).contains(jobs));
        jobs.ok_or_else(|| "--jobs is a number from 1 to 64".to_string())
    }
}

fn clinic_line(word: &OsStr) -> Result<u32, String> {
    let line = number(word).filter(|line| RECORD_LINES.contains(line)).and_then(|line| u32::try_from(line).ok());
    line.ok_or_else(|| format!("--clinic is a line from {} to {}", RECORD_LINES.start(), RECORD_LINES.end()))
}

/// Whether a word is of kind C of document 01, as institution codes are.
fn is_code(word: &OsStr) -> bool {
    word.len() == 7 && word.as_bytes().iter().all(u8::is_ascii_digit)
}

/// A number in digits alone.
fn number(word: &OsStr) -> Option<u64> {
    let text = word.to_str()?;
    (!text.is_empty() && text.bytes().all(|byte| byte.is_ascii_digit())).then(|| text.parse().ok())?
}
