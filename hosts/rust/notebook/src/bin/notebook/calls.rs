//! The calls on one file, and join.

use crate::arguments::{Cutting, Wanted};
use crate::inputs::{self, Found, Input};
use crate::json::{self, Object};
use crate::targets;
use crate::tell::{line, Teller, Told};
use crate::used::{self, Stop};
use crate::whole;
use notebook::{Cut, Entry, MOST_JOIN_BYTES};
use std::ffi::{OsStr, OsString};
use std::fmt::Write;
use std::os::unix::ffi::OsStrExt;
use std::path::Path;

pub fn check(teller: Teller, name: &OsStr, file: &[u8]) -> Told {
    match notebook::check(file) {
        Err(refusal) => teller.refused(name, refusal),
        Ok(counts) if teller.json => {
            let told = Object::of(name).flag("ok", true).number("records", counts.records).number("groups", counts.groups);
            Told::accepted(told.number("drugs", counts.drugs).line())
        }
        Ok(counts) => Told::accepted(line(name, &format!("ok {} {} {}", counts.records, counts.groups, counts.drugs))),
    }
}

/// The count of all records, and the entries that are wanted.
pub fn index(teller: Teller, name: &OsStr, file: &[u8], wanted: &Wanted) -> Told {
    let entries = match notebook::index(file) {
        Err(refusal) => return teller.refused(name, refusal),
        Ok(entries) => entries,
    };
    let chosen = entries.iter().filter(|entry| match wanted {
        Wanted::All => true,
        Wanted::Clinic(line) => entry.clinic == *line,
        Wanted::ClinicCode(code) => clinic_code(&entries, entry, file) == Some(code.as_bytes()),
    });
    if !teller.json {
        let mut out = line(name, &format!("ok {}", entries.len()));
        out.extend_from_slice(rows(chosen, ["", " ", "\n", ""]).as_bytes());
        return Told::accepted(out);
    }
    let told = Object::of(name).flag("ok", true).number("records", entries.len() as u64);
    Told::accepted(told.raw("index", &format!("[{}]", rows(chosen, ["[", ",", "]", ","]))).line())
}

/// The institution code of an entry's clinic, if it has a clinic: the fourth item of that record 51, which may be empty.
fn clinic_code<'a>(entries: &[Entry], entry: &Entry, file: &'a [u8]) -> Option<&'a [u8]> {
    // No character's second byte is a comma.
    notebook::at_line(entries, entry.clinic)?.of(file)?.split(|&byte| byte == b',').nth(4)
}

/// The numbers of the entries, with what stands before, between and after those of one, and between two entries.
fn rows<'a>(entries: impl Iterator<Item = &'a Entry>, [before, comma, after, between]: [&str; 4]) -> String {
    let mut rows = String::new();
    for Entry { record, offset, bytes, group, doctor, drug, clinic } in entries {
        if !rows.is_empty() {
            rows.push_str(between);
        }
        let _ = write!(rows, "{before}{record}{comma}{offset}{comma}{bytes}{comma}{group}{comma}");
        let _ = write!(rows, "{doctor}{comma}{drug}{comma}{clinic}{after}");
    }
    rows
}

/// The canonical file to standard output, or to a new file.
pub fn canonical(teller: Teller, name: &OsStr, file: &[u8], to: Option<&Path>) -> Told {
    match notebook::canonical(file) {
        Err(refusal) => teller.refused(name, refusal),
        Ok(canonical) => written(teller, name, canonical, to),
    }
}

/// A file that a call has made.
pub fn written(teller: Teller, name: &OsStr, file: Vec<u8>, to: Option<&Path>) -> Told {
    let object = || Object::of(name).flag("ok", true).number("bytes", file.len() as u64);
    let Some(to) = to else {
        return Told::accepted(if teller.json { object().text("base64", &json::base64(&file)).line() } else { file });
    };
    if let Err((path, error)) = whole::write(&[(to, &file)]) {
        return teller.failed(path.as_os_str(), &error);
    }
    if teller.json {
        return Told::accepted(object().name("to", to.as_os_str()).line());
    }
    Told::accepted(line(name, &format!("ok {}", file.len())))
}

/// The pieces to standard output, or to new files. Where the ID is recorded, it is so before either.
pub fn cut(teller: Teller, name: &OsStr, file: &[u8], cutting: &Cutting) -> Told {
    let cut = match used::cut(file, cutting) {
        Err(Stop::Refused(refusal)) => return teller.refused(name, refusal),
        Err(Stop::Failed(path, error)) => return teller.failed(&path, &error),
        Ok(cut) => cut,
    };
    if let Some(prefix) = &cutting.prefix {
        return cut_into_files(teller, name, &cut, prefix);
    }
    if !teller.json {
        return Told::accepted(cut.into_bytes());
    }
    let pieces: Vec<String> = cut.pieces().map(|piece| format!("\"{}\"", json::base64(piece))).collect();
    Told::accepted(counted(name, &cut).raw("base64", &format!("[{}]", pieces.join(","))).line())
}

fn cut_into_files(teller: Teller, name: &OsStr, cut: &Cut, prefix: &OsStr) -> Told {
    let paths = targets::of_pieces(cut, prefix);
    let files: Vec<(&Path, &[u8])> = paths.iter().map(Path::new).zip(cut.pieces()).collect();
    if let Err((path, error)) = whole::write(&files) {
        return teller.failed(path.as_os_str(), &error);
    }
    if teller.json {
        return Told::accepted(counted(name, cut).names("to", &paths).line());
    }
    let mut out = line(name, &format!("ok {} {}", cut.len(), cut.as_bytes().len()));
    for (path, piece) in files {
        out.extend_from_slice(&line(path.as_os_str(), &piece.len().to_string()));
    }
    Told::accepted(out)
}

fn counted(name: &OsStr, cut: &Cut) -> Object {
    let object = Object::of(name).flag("ok", true).number("pieces", cut.len() as u64);
    object.number("bytes", cut.as_bytes().len() as u64)
}

/// The files' bytes, one after another, are the pieces.
pub fn join(teller: Teller, paths: &[OsString], to: Option<&Path>) -> Told {
    let mut skipped = Vec::new();
    let mut told = match pieces(teller, paths, to, &mut skipped) {
        Ok(pieces) => joined(teller, &pieces, to),
        Err(failure) => failure,
    };
    told.err = [skipped, told.err].concat();
    told
}

fn joined(teller: Teller, pieces: &[u8], to: Option<&Path>) -> Told {
    let label = OsStr::new("join");
    match notebook::join(pieces) {
        Err(refusal) => teller.refused(label, refusal),
        Ok(file) => written(teller, label, file, to),
    }
}

/// The bytes, no more than one above what the call takes: it refuses them as it would with the rest.
fn pieces(teller: Teller, paths: &[OsString], to: Option<&Path>, skipped: &mut Vec<u8>) -> Result<Vec<u8>, Told> {
    let mut pieces = Vec::new();
    for found in inputs::expand(paths, None, to) {
        let room = (MOST_JOIN_BYTES + 1).saturating_sub(pieces.len());
        match found {
            Found::Input(_) if room == 0 => break,
            Found::Input(input) => pieces.extend(read(teller, &input, room)?),
            Found::Failed(name, error) => return Err(teller.failed(&name, &error)),
            Found::Skipped(name, reason) => skipped.extend(teller.skipped(&name, reason).err),
        }
    }
    Ok(pieces)
}

/// An input's bytes, or what is said of it.
pub fn read(teller: Teller, input: &Input, most: usize) -> Result<Vec<u8>, Told> {
    input.read(most).map_err(|error| teller.failed(&input.name, &error))
}
