//! What the arguments name: files, folders, standard input.

use crate::arguments::{Paths, STDIN_TWICE};
use crate::folder;
use crate::system::{self, Standard};
use crate::whole;
use std::borrow::Cow;
use std::ffi::{OsStr, OsString};
use std::fs::File;
use std::io::{self, ErrorKind, Read};
use std::os::unix::ffi::OsStrExt;
use std::path::{Path, PathBuf};

pub struct Input {
    /// `-` is standard input.
    path: PathBuf,
    /// The path below the argument that led to it.
    pub below: PathBuf,
    /// What is shown in place of the path.
    pub name: OsString,
}

/// Something that the arguments lead to. What can't be listed stands in its place with the error.
pub enum Found {
    Input(Input),
    Failed(OsString, io::Error),
    Skipped(OsString, &'static str),
}

impl Input {
    /// An argument that is one file.
    pub fn alone(path: &OsStr, name: Option<&OsStr>) -> Self {
        let below = if path == "-" { OsStr::new("stdin") } else { Path::new(path).file_name().unwrap_or(path) };
        Input { path: path.into(), below: below.into(), name: name.unwrap_or(path).into() }
    }

    pub fn in_folder(path: PathBuf, below: PathBuf) -> Self {
        Input { name: path.clone().into(), path, below }
    }

    /// The bytes, but no more than `most`: one more than a call takes is enough to refuse them, and no file is too large to
    /// be read.
    pub fn read(&self, most: usize) -> io::Result<Vec<u8>> {
        if self.path.as_os_str() == "-" {
            return read_most(&*Standard::Input.file()?, most);
        }
        whole::no_part(&self.path)?;
        read_most(&File::open(&self.path)?, most)
    }
}

/// Reads no more than `most` bytes. Where there is no memory for them it is a failure to read them.
pub fn read_most(source: impl Read, most: usize) -> io::Result<Vec<u8>> {
    /// It holds most files, so that they are read at once.
    const FIRST: usize = 16 << 10;
    let mut bytes = Vec::new();
    system::may_fail(|| {
        bytes.try_reserve(FIRST.min(most))?;
        source.take(most as u64).read_to_end(&mut bytes)
    })?;
    Ok(bytes)
}

/// The inputs that the arguments name, in their order; `output` is the file or the folder that this run writes.
pub fn expand(paths: &[OsString], name: Option<&OsStr>, output: Option<&Path>) -> Vec<Found> {
    let mut found = Vec::new();
    for path in paths {
        // A name of its own is for one file: a folder is then one that can't be read.
        if path == "-" || name.is_some() || !Path::new(path).is_dir() {
            found.push(Found::Input(Input::alone(path, name)));
            continue;
        }
        let before = found.len();
        folder::list(path, output, &mut found);
        if found.iter().skip(before).all(|found| matches!(found, Found::Skipped(..))) {
            let error = io::Error::new(ErrorKind::NotFound, "no regular file in this folder");
            found.push(Found::Failed(path.clone(), error));
        }
    }
    found
}

/// The paths that are given, or those that a list has: names each ended by a 0 byte.
pub fn paths(paths: &Paths) -> Result<Cow<'_, [OsString]>, (&OsStr, io::Error)> {
    match paths {
        Paths::Given(paths) => Ok(Cow::Borrowed(paths)),
        Paths::Listed(list) => listed(list).map(Cow::Owned).map_err(|error| (list.as_os_str(), error)),
    }
}

fn listed(list: &OsStr) -> io::Result<Vec<OsString>> {
    let bytes = Input::alone(list, None).read(usize::MAX)?;
    let wrong = |message| Err(io::Error::new(ErrorKind::InvalidData, message));
    let names = match bytes.strip_suffix(b"\0") {
        Some(names) => names.split(|&byte| byte == 0).map(OsStr::from_bytes),
        None if bytes.is_empty() => return wrong("no name in this list"),
        None => return wrong("the last name in this list is not ended by a 0 byte"),
    };
    if names.clone().chain([list]).filter(|name| *name == "-").count() > 1 {
        return wrong(STDIN_TWICE);
    }
    Ok(names.map(OsStr::to_owned).collect())
}
