//! The names of the files that are written: of `canonical --to` one for each input, of `cut --prefix` one for each piece.

use crate::inputs::Found;
use crate::names;
use notebook::Cut;
use std::collections::BTreeSet;
use std::ffi::{OsStr, OsString};
use std::io::{self, ErrorKind};
use std::path::{Path, PathBuf};

/// Turns each input into a failure whose file an earlier input has, or needs as a folder: which of the two came first must
/// not depend on the threads.
pub fn claim(to: &Path, found: &mut [Found]) {
    let (mut files, mut folders) = (BTreeSet::new(), BTreeSet::new());
    for one in found {
        let Found::Input(input) = one else { continue };
        let target = to.join(&input.below);
        let outer: Vec<PathBuf> = target.ancestors().skip(1).map(Path::to_path_buf).collect();
        if files.contains(&target) || folders.contains(&target) || outer.iter().any(|folder| files.contains(folder)) {
            let message = format!("another input is written to {}", names::shown(target.as_os_str()));
            *one = Found::Failed(input.name.clone(), io::Error::new(ErrorKind::AlreadyExists, message));
            continue;
        }
        files.insert(target);
        folders.extend(outer);
    }
}

/// The names that the pieces of a cut have after a prefix.
pub fn of_pieces(cut: &Cut, prefix: &OsStr) -> Vec<OsString> {
    // k has as many digits as the count, so that the names sort as the pieces do.
    let width = cut.len().to_string().len();
    (1..=cut.len()).map(|k| [prefix, OsStr::new(&format!("{k:0width$}"))].into_iter().collect()).collect()
}
