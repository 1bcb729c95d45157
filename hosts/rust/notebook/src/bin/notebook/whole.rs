//! Files that are written whole or not at all.

use crate::inputs;
use crate::names;
use crate::system::{self, EINVAL, ENOSYS, O_DIRECTORY, O_NOFOLLOW, O_NONBLOCK};
use std::collections::BTreeSet;
use std::ffi::OsStr;
use std::fs::{self, DirBuilder, File, OpenOptions, TryLockError};
use std::io::{self, ErrorKind, Write};
use std::os::unix::ffi::OsStrExt;
use std::os::unix::fs::{DirBuilderExt, MetadataExt, OpenOptionsExt};
use std::path::{Path, PathBuf};
use std::sync::{Mutex, PoisonError};

/// The name and the bytes of a file.
type Named<'a> = (&'a Path, &'a [u8]);

/// The file that could not be written, and why.
pub type Failure<'a> = (&'a Path, io::Error);

/// How often a part that other runs make and remove is tried.
const TRIES: usize = 8;

/// A file in the making.
struct Part<'a> {
    path: &'a Path,
    bytes: &'a [u8],
    /// Its name until all parts are whole.
    part: PathBuf,
    /// It holds the lock that tells other runs that the part is in use.
    file: File,
    state: State,
}

#[derive(Clone, Copy)]
enum State {
    Part,
    Named,
    /// Another run has written the same file meanwhile.
    NotOurs,
}

/// Writes new files, all or none. A name that has exactly its bytes already counts as written; any other name that is there
/// is refused before anything is made, and so is the name of a part.
pub fn write<'a>(files: &[Named<'a>]) -> Result<(), Failure<'a>> {
    let (there, missing) = look_up(files)?;
    let mut parts = Vec::new();
    let written = make_parts(&missing, &mut parts)
        .and_then(|()| name_parts(&mut parts))
        .and_then(|()| in_folders(files, sync_folder));
    if written.is_err() {
        parts.iter().for_each(remove);
        return written;
    }
    for (path, bytes) in there {
        // A killed run may have left a part beside it.
        let _ = part_name(path).and_then(|part| remove_left(&part, bytes));
    }
    Ok(())
}

/// Fails where `write` would, as far as that can be told without making anything.
pub fn look<'a>(files: &[Named<'a>]) -> Result<(), Failure<'a>> {
    let (_, missing) = look_up(files)?;
    for &(path, bytes) in &missing {
        part_name(path).and_then(|part| left(&part, bytes)).map_err(|error| (path, error))?;
    }
    in_folders(&missing, system::may_make_in)?;
    in_folders(files, |folder| open_folder(folder).map(drop))
}

/// The files that are there already, and those that are to be made.
fn look_up<'a>(files: &[Named<'a>]) -> Result<(Vec<Named<'a>>, Vec<Named<'a>>), Failure<'a>> {
    let (mut there, mut missing) = (Vec::new(), Vec::new());
    for &(path, bytes) in files {
        let there_already = no_part(path).and_then(|()| is_there(path, bytes)).map_err(|error| (path, error))?;
        if there_already { &mut there } else { &mut missing }.push((path, bytes));
    }
    Ok((there, missing))
}

/// Whether the name is a regular file with exactly these bytes; an error if it is anything else.
fn is_there(path: &Path, bytes: &[u8]) -> io::Result<bool> {
    let found = match fs::symlink_metadata(path) {
        Ok(found) => found,
        Err(error) if error.kind() == ErrorKind::NotFound => return Ok(false),
        Err(error) => return Err(error),
    };
    if found.is_file() && found.len() == bytes.len() as u64 {
        let file = OpenOptions::new().read(true).custom_flags(O_NOFOLLOW | O_NONBLOCK).open(path)?;
        // A run that is not done with it may still remove it.
        let is_in_use = matches!(file.try_lock_shared(), Err(TryLockError::WouldBlock));
        if inputs::read_most(&file, bytes.len() + 1)? == bytes {
            return if is_in_use { Err(in_use()) } else { Ok(true) };
        }
    }
    Err(io::Error::new(ErrorKind::AlreadyExists, "already exists"))
}

fn make_parts<'a>(files: &[Named<'a>], parts: &mut Vec<Part<'a>>) -> Result<(), Failure<'a>> {
    for &(path, bytes) in files {
        let made = part_name(path).and_then(|part| Ok((new_part(&part, bytes)?, part)));
        let (file, part) = made.map_err(|error| (path, error))?;
        parts.push(Part { path, bytes, part, file, state: State::Part });
    }
    // All names are taken before the first byte is written.
    for part in parts {
        part.file.write_all(part.bytes).and_then(|()| part.file.sync_all()).map_err(|error| (part.path, error))?;
    }
    Ok(())
}

fn name_parts<'a>(parts: &mut [Part<'a>]) -> Result<(), Failure<'a>> {
    for part in parts {
        part.state = name_part(part).map_err(|error| (part.path, error))?;
    }
    Ok(())
}

fn name_part(part: &Part) -> io::Result<State> {
    let error = match system::rename_new(&part.part, part.path) {
        Ok(()) => return Ok(State::Named),
        Err(error) => error,
    };
    let unknown = matches!(error.raw_os_error(), Some(EINVAL | ENOSYS));
    if !unknown && error.kind() != ErrorKind::AlreadyExists {
        return Err(error);
    }
    if is_there(part.path, part.bytes)? {
        fs::remove_file(&part.part)?;
        return Ok(State::NotOurs);
    }
    if !unknown {
        return Err(error);
    }
    // The file system does not know renaming without replacing, and nothing is there. A second name never replaces either.
    match fs::hard_link(&part.part, part.path) {
        Ok(()) => {
            let _ = fs::remove_file(&part.part);
        }
        Err(error) if error.kind() == ErrorKind::AlreadyExists => return Err(error),
        // It does not know second names.
        Err(_) => fs::rename(&part.part, part.path)?,
    }
    Ok(State::Named)
}

/// Does something once for each folder that files lie in.
fn in_folders<'a>(files: &[Named<'a>], act: impl Fn(&Path) -> io::Result<()>) -> Result<(), Failure<'a>> {
    let mut done = BTreeSet::new();
    for &(path, _) in files {
        let folder = folder_and_name(path).map_err(|error| (path, error))?.0;
        if done.insert(folder) {
            act(folder).map_err(|error| (path, error))?;
        }
    }
    Ok(())
}

/// Has the system keep a folder's names.
pub fn sync_folder(folder: &Path) -> io::Result<()> {
    sync_names(&open_folder(folder)?)
}

pub fn open_folder(folder: &Path) -> io::Result<File> {
    OpenOptions::new().read(true).custom_flags(O_DIRECTORY).open(folder)
}

pub fn sync_names(folder: &File) -> io::Result<()> {
    match folder.sync_all() {
        // Some file systems can't.
        Err(error) if error.raw_os_error() == Some(EINVAL) => Ok(()),
        result => result,
    }
}

/// Removes what was made of a part.
fn remove(part: &Part) {
    match part.state {
        State::Part => remove_ours(&part.file, &part.part),
        State::Named => remove_ours(&part.file, part.path),
        State::NotOurs => {}
    }
}

/// Removes a name if it still is this file.
pub fn remove_ours(file: &File, name: &Path) {
    if is_named(file, name).unwrap_or(false) {
        let _ = fs::remove_file(name);
    }
}

// ---- Parts

/// Makes a part of a file with these bytes that no other run has, open for writing and locked.
fn new_part(part: &Path, bytes: &[u8]) -> io::Result<File> {
    for _ in 0..TRIES {
        let file = match OpenOptions::new().read(true).write(true).create_new(true).mode(0o600).open(part) {
            Ok(file) => file,
            Err(error) if error.kind() == ErrorKind::AlreadyExists => {
                remove_left(part, bytes)?;
                continue;
            }
            Err(error) => return Err(error),
        };
        match hold(&file, part) {
            Ok(true) => return Ok(file),
            Ok(false) => {}
            Err(error) => {
                remove_ours(&file, part);
                return Err(error);
            }
        }
    }
    Err(in_use())
}

/// Locks a part. False if another run has taken it, before it was locked, for one that was left.
fn hold(file: &File, part: &Path) -> io::Result<bool> {
    match file.try_lock() {
        // A file system without locks: nobody takes this part for one that was left, as that needs a lock.
        Ok(()) | Err(TryLockError::Error(_)) => is_named(file, part),
        Err(TryLockError::WouldBlock) => Ok(false),
    }
}

/// Removes a part of a file with these bytes that a run has left.
fn remove_left(part: &Path, bytes: &[u8]) -> io::Result<()> {
    match left(part, bytes)? {
        Some(_locked) => fs::remove_file(part),
        None => Ok(()),
    }
}

/// A part of a file with these bytes that a run has left, locked. One that a run has locked is an error, and so is anything
/// else in its place: a killed run leaves a beginning of the bytes, and nothing but that is removed.
fn left(part: &Path, bytes: &[u8]) -> io::Result<Option<File>> {
    let in_the_way =
        |error: io::Error| io::Error::new(error.kind(), format!("{}: {error}", names::shown(part.as_os_str())));
    let file = match OpenOptions::new().read(true).custom_flags(O_NOFOLLOW | O_NONBLOCK).open(part) {
        Ok(file) => file,
        Err(error) if error.kind() == ErrorKind::NotFound => return Ok(None),
        Err(error) => return Err(in_the_way(error)),
    };
    match file.try_lock() {
        // Another run may have removed or renamed it meanwhile.
        Ok(()) if !is_named(&file, part)? => Ok(None),
        Ok(()) if is_beginning(&file, bytes).map_err(in_the_way)? => Ok(Some(file)),
        Ok(()) => Err(in_the_way(io::Error::new(ErrorKind::AlreadyExists, "in the way, and no part of this file"))),
        Err(TryLockError::WouldBlock) => Err(in_use()),
        Err(TryLockError::Error(error)) => Err(in_the_way(error)),
    }
}

fn is_beginning(file: &File, bytes: &[u8]) -> io::Result<bool> {
    Ok(file.metadata()?.is_file() && bytes.starts_with(&inputs::read_most(file, bytes.len() + 1)?))
}

fn in_use() -> io::Error {
    io::Error::new(ErrorKind::ResourceBusy, "in use by another run")
}

/// Whether the name is this file.
fn is_named(file: &File, name: &Path) -> io::Result<bool> {
    match fs::symlink_metadata(name) {
        Ok(found) => Ok(identity(&found) == identity(&file.metadata()?)),
        Err(error) if error.kind() == ErrorKind::NotFound => Ok(false),
        Err(error) => Err(error),
    }
}

/// Device and inode.
pub fn identity(file: &fs::Metadata) -> (u64, u64) {
    (file.dev(), file.ino())
}

/// The name of the part: in the same folder, and the same every time, so that the next run finds what a killed one left.
fn part_name(path: &Path) -> io::Result<PathBuf> {
    let (folder, name) = folder_and_name(path)?;
    // FNV-1a.
    let hash = |hash: u64, byte: &u8| (hash ^ u64::from(*byte)).wrapping_mul(0x0000_0100_0000_01b3);
    let hash = name.as_bytes().iter().fold(0xcbf2_9ce4_8422_2325, hash);
    Ok(folder.join(format!(".notebook-{hash:016x}.part")))
}

/// A file that is named like a part is no input and no output: what a killed run has left must not be taken for a file, nor a
/// file for what it has left.
pub fn no_part(path: &Path) -> io::Result<()> {
    let name = path.file_name().unwrap_or_default().as_bytes();
    let hash = name.strip_prefix(b".notebook-").and_then(|name| name.strip_suffix(b".part")).unwrap_or_default();
    if hash.len() == 16 && hash.iter().all(|byte| matches!(byte, b'0'..=b'9' | b'a'..=b'f')) {
        return Err(io::Error::new(ErrorKind::InvalidInput, "named like a part that a run has left"));
    }
    Ok(())
}

pub fn folder_and_name(path: &Path) -> io::Result<(&Path, &OsStr)> {
    let bytes = path.as_os_str().as_bytes();
    let name = bytes.rsplit(|&byte| byte == b'/').next().unwrap_or_default();
    if matches!(name, b"" | b"." | b"..") {
        return Err(io::Error::new(ErrorKind::InvalidInput, "not the name of a file"));
    }
    let folder = bytes.strip_suffix(name).unwrap_or_default();
    let folder: &[u8] = if folder.is_empty() { b"." } else { folder };
    Ok((Path::new(OsStr::from_bytes(folder)), OsStr::from_bytes(name)))
}

// ---- Folders

/// The folders that a run has made.
#[derive(Default)]
pub struct Folders(Mutex<Vec<PathBuf>>);

impl Folders {
    /// Makes a folder and those that it lies in, if they are not there.
    pub fn make(&self, folder: &Path) -> io::Result<()> {
        let is_missing = |folder: &&Path| !folder.as_os_str().is_empty() && !folder.is_dir();
        let missing: Vec<&Path> = folder.ancestors().take_while(is_missing).collect();
        for folder in missing.into_iter().rev() {
            match DirBuilder::new().mode(0o700).create(folder) {
                Ok(()) => self.0.lock().unwrap_or_else(PoisonError::into_inner).push(folder.into()),
                // Another thread was first; what is no folder fails later.
                Err(error) if error.kind() == ErrorKind::AlreadyExists => continue,
                Err(error) => return Err(error),
            }
            let outer = folder.parent().filter(|outer| !outer.as_os_str().is_empty());
            sync_folder(outer.unwrap_or(Path::new(".")))?;
        }
        Ok(())
    }

    /// Removes those that have stayed empty.
    pub fn remove_empty(&self) {
        for folder in self.0.lock().unwrap_or_else(PoisonError::into_inner).iter().rev() {
            let _ = fs::remove_dir(folder);
        }
    }
}

#[cfg(test)]
mod tests {
    use super::*;

    #[test]
    fn parts_lie_beside_their_files() {
        let name = |path: &str| part_name(Path::new(path)).map(|part| part.display().to_string()).ok();
        // FNV-1a of "a", from its authors' table.
        assert_eq!(name("x/a").as_deref(), Some("x/.notebook-af63dc4c8601ec8c.part"));
        assert_eq!(name("/a").as_deref(), Some("/.notebook-af63dc4c8601ec8c.part"));
        assert_eq!(name("a").as_deref(), Some("./.notebook-af63dc4c8601ec8c.part"));
        for path in ["", "x/", "x/.", "..", "/"] {
            assert_eq!(name(path), None, "{path}");
        }
        assert!(no_part(Path::new("x/.notebook-af63dc4c8601ec8c.part")).is_err());
        for path in [".notebook-1.part", "notebook-af63dc4c8601ec8c.part", ".notebook-AF63DC4C8601EC8C.part", "x/"] {
            assert!(no_part(Path::new(path)).is_ok(), "{path}");
        }
    }
}
