//! Every regular file of a folder and of its folders, sorted by name.

use crate::inputs::{Found, Input};
use crate::system::Standard;
use crate::whole;
use std::ffi::OsStr;
use std::fs::{self, DirEntry};
use std::io::{self, ErrorKind};
use std::os::unix::fs::DirEntryExt;
use std::path::{Path, PathBuf};

enum Waiting {
    Folder { path: PathBuf, below: PathBuf },
    Found(Found),
}

pub fn list(folder: &OsStr, output: Option<&Path>, found: &mut Vec<Found>) {
    let outputs = match outputs(output) {
        Ok(outputs) => outputs,
        Err(error) => return found.push(Found::Failed(folder.into(), error)),
    };
    // What waits is kept here and not on the call stack, which deep folders would fill.
    let mut waiting = vec![Waiting::Folder { path: folder.into(), below: PathBuf::new() }];
    while let Some(next) = waiting.pop() {
        match next {
            Waiting::Found(one) => found.push(one),
            Waiting::Folder { path, below } => match entries(&path, &below, &outputs) {
                Ok(entries) => waiting.extend(entries.into_iter().rev()),
                Err(error) => found.push(Found::Failed(path.into(), error)),
            },
        }
    }
}

fn entries(folder: &Path, below: &Path, outputs: &[(u64, u64)]) -> io::Result<Vec<Waiting>> {
    let mut entries = fs::read_dir(folder)?.collect::<io::Result<Vec<_>>>()?;
    entries.sort_by_key(DirEntry::file_name);
    let judged = entries.iter().map(|entry| {
        let (path, below) = (entry.path(), below.join(entry.file_name()));
        match kind(entry, outputs) {
            Ok(Kind::Folder) => Waiting::Folder { path, below },
            Ok(Kind::File) => Waiting::Found(Found::Input(Input::in_folder(path, below))),
            Ok(Kind::Skipped(reason)) => Waiting::Found(Found::Skipped(path.into(), reason)),
            Err(error) => Waiting::Found(Found::Failed(path.into(), error)),
        }
    });
    Ok(judged.collect())
}

enum Kind {
    Folder,
    File,
    Skipped(&'static str),
}

fn kind(entry: &DirEntry, outputs: &[(u64, u64)]) -> io::Result<Kind> {
    let kind = entry.file_type()?;
    Ok(if kind.is_symlink() {
        // It may lead in circles.
        Kind::Skipped("a symbolic link")
    } else if !kind.is_file() && !kind.is_dir() {
        Kind::Skipped("not a regular file")
    } else if is_output(entry, outputs)? {
        Kind::Skipped("the output of this run")
    } else if kind.is_dir() {
        Kind::Folder
    } else {
        Kind::File
    })
}

fn is_output(entry: &DirEntry, outputs: &[(u64, u64)]) -> io::Result<bool> {
    if outputs.iter().all(|&(_, inode)| inode != entry.ino()) {
        return Ok(false);
    }
    Ok(outputs.contains(&whole::identity(&entry.metadata()?)))
}

/// The files that standard output and standard error go to, and the file or folder that the run writes, if it is there: a run
/// that is made again must not read what the first has written.
fn outputs(output: Option<&Path>) -> io::Result<Vec<(u64, u64)>> {
    let mut outputs = Vec::new();
    match output.map(fs::metadata) {
        Some(Ok(found)) => outputs.push(whole::identity(&found)),
        Some(Err(error)) if error.kind() != ErrorKind::NotFound => return Err(error),
        _ => {}
    }
    for stream in [Standard::Output, Standard::Error] {
        let Ok(file) = stream.file() else { continue };
        let file = file.metadata()?;
        if file.is_file() {
            outputs.push(whole::identity(&file));
        }
    }
    Ok(outputs)
}
