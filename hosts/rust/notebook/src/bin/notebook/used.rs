//! Cutting with the IDs that have been used: files of IDs, and the one of them that a run records its own ID in.

use crate::arguments::Cutting;
use crate::inputs::{self, Input};
use crate::system::{self, Standard, O_NONBLOCK};
use crate::targets;
use crate::whole;
use notebook::{Cut, Refusal, Used, ID_BYTES};
use std::ffi::{OsStr, OsString};
use std::fs::{self, File, Metadata, OpenOptions};
use std::io::{self, ErrorKind, Write};
use std::os::unix::ffi::OsStrExt;
use std::os::unix::fs::OpenOptionsExt;
use std::path::Path;

/// The most bytes of a file of IDs.
const MOST_BYTES: usize = 64 << 20;

/// How often a file that others put in the place of the one that was locked is opened again.
const TRIES: usize = 100;

/// Why there are no pieces: a refusal, or a failure of a file of IDs or of a file that a piece would be written to.
pub enum Stop {
    Refused(Refusal),
    Failed(OsString, io::Error),
}

/// Cuts a file. Where the ID is to be recorded, it is on the disk when this answers the pieces.
pub fn cut(file: &[u8], cutting: &Cutting) -> Judged {
    let used = match &cutting.used {
        Some(path) => Used::from_bytes(read(path).map_err(|error| Stop::Failed(path.clone(), error))?),
        None => Used::new(),
    };
    let id = cutting.id.as_bytes();
    let cut = |used: &Used| notebook::cut(file, cutting.capacity, id, used).map_err(Stop::Refused);
    let Some(path) = &cutting.record else { return cut(&used) };
    // An ID is not used up for pieces that could not be written anyway.
    let cut_and_look = |used: &Used| cut(used).and_then(|cut| look(&cut, cutting).map(|()| cut));
    record(Path::new(path), id, &used, &cut_and_look).map_err(|error| Stop::Failed(path.clone(), error))?
}

/// An error where writing the pieces would fail.
fn look(cut: &Cut, cutting: &Cutting) -> Result<(), Stop> {
    let Some(prefix) = &cutting.prefix else { return Ok(()) };
    let paths = targets::of_pieces(cut, prefix);
    let files: Vec<(&Path, &[u8])> = paths.iter().map(Path::new).zip(cut.pieces()).collect();
    whole::look(&files).map_err(|(path, error)| Stop::Failed(path.into(), error))
}

/// The run of IDs that a file has.
fn read(path: &OsStr) -> io::Result<Vec<u8>> {
    let found = if path == "-" { Standard::Input.file().and_then(|input| input.metadata()) } else { fs::metadata(path) };
    // What can't be looked at can't be read either.
    found.map_or(Ok(()), |found| not_the_output(&found))?;
    let bytes = Input::alone(path, None).read(MOST_BYTES + 1)?;
    run_of(bytes).map(|(run, _)| run)
}

/// Pieces written to a file of IDs would stand among its IDs, or in their place.
fn not_the_output(ids: &Metadata) -> io::Result<()> {
    let output = Standard::Output.file().and_then(|output| output.metadata());
    if ids.is_file() && output.is_ok_and(|output| whole::identity(&output) == whole::identity(ids)) {
        return Err(invalid("standard output leads to this file".to_string()));
    }
    Ok(())
}

// ---- The two forms

/// How a file goes on with one more ID.
#[derive(Clone, Copy, Debug, PartialEq, Eq)]
enum Form {
    /// `end` is the line end that the last ended line has; the last line may lack one.
    Lines { end: &'static [u8], is_ended: bool },
    /// No line ends.
    Run,
}

impl Form {
    /// What is written after the file's bytes.
    fn next(self, id: &[u8]) -> Vec<u8> {
        match self {
            Form::Lines { end, is_ended: true } => [id, end].concat(),
            Form::Lines { end, is_ended: false } => [end, id, end].concat(),
            Form::Run => id.to_vec(),
        }
    }
}

/// The run of IDs that a file's bytes have, and their form: lines where there is a 0Ah, or nothing.
fn run_of(mut bytes: Vec<u8>) -> io::Result<(Vec<u8>, Form)> {
    if bytes.len() > MOST_BYTES {
        return Err(invalid(format!("more than {MOST_BYTES} bytes")));
    }
    let form = if bytes.is_empty() || bytes.contains(&b'\n') { lines(&bytes)? } else { run(&bytes)? };
    // Whatever else is in the lines are their ends.
    bytes.retain(u8::is_ascii_digit);
    Ok((bytes, form))
}

fn lines(bytes: &[u8]) -> io::Result<Form> {
    let (mut end, mut is_ended): (&[u8], bool) = (b"\n", true);
    for (number, line) in (1_u64..).zip(bytes.split_inclusive(|&byte| byte == b'\n')) {
        let (id, its_end): (&[u8], Option<&[u8]>) = match line {
            [id @ .., b'\r', b'\n'] => (id, Some(b"\r\n")),
            [id @ .., b'\n'] => (id, Some(b"\n")),
            id => (id, None),
        };
        if !is_id(id) {
            return Err(invalid(format!("line {number} is not {ID_BYTES} digits")));
        }
        (end, is_ended) = (its_end.unwrap_or(end), its_end.is_some());
    }
    Ok(Form::Lines { end, is_ended })
}

fn run(bytes: &[u8]) -> io::Result<Form> {
    match (1_u64..).zip(bytes.chunks(ID_BYTES)).find(|(_, id)| !is_id(id)) {
        Some((number, _)) => Err(invalid(format!("ID {number} is not {ID_BYTES} digits"))),
        None => Ok(Form::Run),
    }
}

fn is_id(bytes: &[u8]) -> bool {
    bytes.len() == ID_BYTES && bytes.iter().all(u8::is_ascii_digit)
}

fn invalid(message: String) -> io::Error {
    io::Error::new(ErrorKind::InvalidData, message)
}

// ---- Recording

/// The pieces, unless the call refuses or a file is in their way.
type Judged = Result<Cut, Stop>;
type Cutter<'a> = &'a dyn Fn(&Used) -> Judged;

/// Cuts with the IDs of a file and with `used`, and records the ID in the file if there are pieces. The file is locked from
/// before its IDs are read until the new one is on the disk: of two runs with one ID the second finds it there.
fn record(path: &Path, id: &[u8], used: &Used, cut: Cutter) -> io::Result<Judged> {
    whole::no_part(path)?;
    for _ in 0..TRIES {
        let (file, is_new) = match open(path) {
            Ok(file) => (file, false),
            Err(error) if error.kind() != ErrorKind::NotFound => return Err(error),
            Err(_) => {
                // A run that is stopped makes no file.
                if let Err(stop) = cut(used) {
                    return Ok(Err(stop));
                }
                let Some(file) = make(path)? else { continue };
                (file, true)
            }
        };
        let found = file.metadata()?;
        if !found.is_file() {
            return Err(invalid("not a regular file".to_string()));
        }
        not_the_output(&found)?;
        uninterrupted(|| file.lock())?;
        // Who has waited for a file that was replaced would record in one that nobody finds.
        if !leads_to(path, &file)? {
            continue;
        }
        let judged = record_locked(path, &file, is_new, id, used, cut);
        if is_new && file.metadata().is_ok_and(|found| found.len() == 0) {
            whole::remove_ours(&file, path);
        }
        return judged;
    }
    Err(io::Error::new(ErrorKind::ResourceBusy, "replaced again and again by others"))
}

/// What is there, to be read and to be written at its end. It may be anything: opening it must not wait.
fn open(path: &Path) -> io::Result<File> {
    OpenOptions::new().read(true).append(true).custom_flags(O_NONBLOCK).open(path)
}

/// A new file, unless another run has made it meanwhile.
fn make(path: &Path) -> io::Result<Option<File>> {
    match OpenOptions::new().read(true).append(true).create_new(true).mode(0o600).open(path) {
        Ok(file) => Ok(Some(file)),
        Err(error) if error.kind() != ErrorKind::AlreadyExists => Err(error),
        // It would be neither found nor made, however often.
        Err(_) if fs::symlink_metadata(path).is_ok_and(|found| found.is_symlink()) && !fs::exists(path)? => {
            Err(io::Error::new(ErrorKind::NotFound, "a symbolic link that leads to no file"))
        }
        Err(_) => Ok(None),
    }
}

fn uninterrupted<T>(mut call: impl FnMut() -> io::Result<T>) -> io::Result<T> {
    loop {
        match call() {
            Err(error) if error.kind() == ErrorKind::Interrupted => {}
            result => return result,
        }
    }
}

/// Whether the path, or the link that it is, still leads to this file.
fn leads_to(path: &Path, file: &File) -> io::Result<bool> {
    match fs::metadata(path) {
        Ok(found) => Ok(whole::identity(&found) == whole::identity(&file.metadata()?)),
        Err(error) if error.kind() == ErrorKind::NotFound => Ok(false),
        Err(error) => Err(error),
    }
}

fn record_locked(path: &Path, file: &File, is_new: bool, id: &[u8], used: &Used, cut: Cutter) -> io::Result<Judged> {
    let bytes = inputs::read_most(file, MOST_BYTES + 1)?;
    let length = bytes.len();
    let (mut run, form) = run_of(bytes)?;
    system::may_fail(|| run.try_reserve_exact(used.as_bytes().len()))?;
    run.extend_from_slice(used.as_bytes());
    let pieces = match cut(&Used::from_bytes(run)) {
        Err(stop) => return Ok(Err(stop)),
        Ok(pieces) => pieces,
    };
    let next = form.next(id);
    if length.saturating_add(next.len()) > MOST_BYTES {
        return Err(invalid(format!("no room for one more ID in {MOST_BYTES} bytes")));
    }
    let folder = match whole::open_folder(whole::folder_and_name(path)?.0) {
        // Who must not read the folder was given the file by others, who answer for its name.
        Err(error) if error.kind() == ErrorKind::PermissionDenied && !is_new => None,
        folder => Some(folder?),
    };
    append(file, &next)?;
    file.sync_all()?;
    // Also where the file has IDs: the run that has made it may have been killed before this.
    folder.map_or(Ok(()), |folder| whole::sync_names(&folder))?;
    Ok(Ok(pieces))
}

/// Writes all bytes at once to the end of a file, or leaves it as it was.
fn append(mut file: &File, bytes: &[u8]) -> io::Result<()> {
    // A write that fails has written nothing.
    let written = uninterrupted(|| file.write(bytes))?;
    if written == bytes.len() {
        return Ok(());
    }
    let message = format!("only {written} of {} bytes could be written", bytes.len());
    // Only these bytes go: before them may be IDs that another program has added without the lock.
    let cut_back = file.metadata().and_then(|found| file.set_len(found.len().saturating_sub(written as u64)));
    let more = cut_back.map_or_else(|error| format!("; they could not be cut off again: {error}"), |()| String::new());
    Err(io::Error::new(ErrorKind::StorageFull, message + &more))
}

#[cfg(test)]
mod tests {
    use super::*;

    /// Each digit as an ID that ends with it.
    fn in_full(short: &str) -> String {
        let one = |c: char| if c.is_ascii_digit() { format!("2016111500000{c}") } else { c.to_string() };
        short.chars().map(one).collect()
    }

    #[test]
    fn both_forms_are_read_and_go_on() {
        let lines = |end: &'static str, is_ended| Form::Lines { end: end.as_bytes(), is_ended };
        let cases = [
            ("", lines("\n", true), "", "3\n"),
            ("1", Form::Run, "1", "3"),
            ("121", Form::Run, "121", "3"),
            ("1\n", lines("\n", true), "1", "3\n"),
            ("1\r\n", lines("\r\n", true), "1", "3\r\n"),
            ("1\n2\n", lines("\n", true), "12", "3\n"),
            ("1\n2", lines("\n", false), "12", "\n3\n"),
            ("1\r\n2", lines("\r\n", false), "12", "\r\n3\r\n"),
            ("1\n2\r\n", lines("\r\n", true), "12", "3\r\n"),
            ("1\r\n2\n", lines("\n", true), "12", "3\n"),
            ("1\n2\r\n1", lines("\r\n", false), "121", "\r\n3\r\n"),
        ];
        for (bytes, form, run, next) in cases {
            let found = run_of(in_full(bytes).into_bytes()).expect("a file of IDs");
            assert_eq!(found, (in_full(run).into_bytes(), form), "{bytes:?}");
            assert_eq!(form.next(in_full("3").as_bytes()), in_full(next).as_bytes(), "{bytes:?}");
        }
    }

    #[test]
    fn anything_else_is_told_with_its_place() {
        let cases = [
            ("\n", "line 1"),
            ("\r\n", "line 1"),
            ("1\n\n2\n", "line 2"),
            ("1\n2\n\n", "line 3"),
            ("1\n2\n ", "line 3"),
            ("1 \n", "line 1"),
            ("1\n\t2\n", "line 2"),
            ("1\n# 2\n", "line 2"),
            ("1\n12\n", "line 2"),
            ("1\n2\r", "line 2"),
            ("1\n2\r\r\n", "line 2"),
            ("1\r2\n", "line 1"),
            ("1\n\u{feff}2\n", "line 2"),
            ("\u{feff}1\n", "line 1"),
            ("1\n\x1a", "line 2"),
            ("1,\n", "line 1"),
            ("x", "ID 1"),
            ("1\r", "ID 2"),
            ("12\x1a", "ID 3"),
            ("1 2", "ID 2"),
            ("\u{feff}1", "ID 1"),
        ];
        let told = |bytes: String| run_of(bytes.into_bytes()).map_err(|error| error.to_string());
        for (bytes, place) in cases {
            assert_eq!(told(in_full(bytes)), Err(format!("{place} is not 14 digits")), "{bytes:?}");
        }
        for (bytes, place) in [("1234567890123\n", "line 1"), ("123456789012345\n", "line 1"), ("1234567890123", "ID 1")] {
            assert_eq!(told(bytes.into()), Err(format!("{place} is not 14 digits")), "{bytes:?}");
        }
        assert_eq!(told("1".repeat(29)), Err("ID 3 is not 14 digits".into()));
        assert_eq!(told("1234567890123x\n".into()), Err("line 1 is not 14 digits".into()));
    }

    #[test]
    fn the_most_bytes() {
        // Whole IDs, the last one of them above the limit or not.
        let count = MOST_BYTES / ID_BYTES;
        assert!(run_of(vec![b'0'; count * ID_BYTES]).is_ok());
        let more = run_of(vec![b'0'; (count + 1) * ID_BYTES]).map_err(|error| error.to_string());
        assert_eq!(more, Err("more than 67108864 bytes".into()));
    }
}
