//! Check, index and canonical with --to: any number of files.

use crate::arguments::{Arguments, Many};
use crate::calls;
use crate::inputs::{self, Found, Input};
use crate::ordered;
use crate::screen::Screen;
use crate::summary::Summary;
use crate::targets;
use crate::tell::{self, Outcome, Teller, Told};
use crate::whole::Folders;
use notebook::MOST_FILE_BYTES;
use std::ffi::OsString;
use std::io;
use std::path::Path;

pub fn run(arguments: &Arguments, teller: Teller, call: &Many, paths: &[OsString]) -> io::Result<u8> {
    let to = if let Many::CanonicalTo(folder) = call { Some(&**folder) } else { None };
    let mut found = inputs::expand(paths, arguments.name.as_deref(), to);
    if let Some(folder) = to {
        targets::claim(folder, &mut found);
    }
    let folders = Folders::default();
    let (mut screen, mut summary, mut status) = (Screen::new(found.len()), Summary::default(), tell::ACCEPTED);
    let told = ordered::run(
        arguments.jobs,
        &found,
        |one| match one {
            Found::Input(input) => tell(teller, call, input, &folders),
            Found::Failed(name, error) => teller.failed(name, error),
            Found::Skipped(name, reason) => teller.skipped(name, reason),
        },
        |at, told| {
            status = status.max(told.outcome.status());
            summary.count(told.outcome);
            if !(arguments.quiet && told.outcome == Outcome::Accepted) {
                screen.write(&told.out)?;
            }
            screen.warn(&told.err)?;
            screen.progress(at + 1)
        },
    );
    if status == tell::FAILED {
        folders.remove_empty();
    }
    told?;
    if arguments.summary {
        screen.write(&summary.told(arguments.json))?;
    }
    screen.finish()?;
    Ok(status)
}

fn tell(teller: Teller, call: &Many, input: &Input, folders: &Folders) -> Told {
    let file = match calls::read(teller, input, MOST_FILE_BYTES + 1) {
        Ok(file) => file,
        Err(failure) => return failure,
    };
    match call {
        Many::Check => calls::check(teller, &input.name, &file),
        Many::Index(wanted) => calls::index(teller, &input.name, &file, wanted),
        Many::CanonicalTo(folder) => canonical_to(teller, input, &file, &folder.join(&input.below), folders),
    }
}

fn canonical_to(teller: Teller, input: &Input, file: &[u8], target: &Path, folders: &Folders) -> Told {
    let canonical = match notebook::canonical(file) {
        Err(refusal) => return teller.refused(&input.name, refusal),
        Ok(canonical) => canonical,
    };
    if let Err(error) = target.parent().map_or(Ok(()), |folder| folders.make(folder)) {
        return teller.failed(target.as_os_str(), &error);
    }
    calls::written(teller, &input.name, canonical, Some(target))
}
