//! `visit FILE`: checks a file, lists its drugs, makes it canonical, cuts it into pieces of 160 bytes, asks for a second cutting
//! with the same ID, which is refused, and joins the pieces from the last to the first.

use notebook::{Entry, Used};
use std::error::Error;
use std::io::{self, Write};
use std::process::ExitCode;

fn main() -> ExitCode {
    let mut out = io::stdout().lock();
    visit(&mut out).map_or_else(
        |error| {
            // A refusal shows itself as `no 11 10: form`. Nobody is left to tell where this fails too; `println!` would panic.
            let _ = writeln!(out, "{error}");
            ExitCode::FAILURE
        },
        |()| ExitCode::SUCCESS,
    )
}

fn visit(out: &mut impl Write) -> Result<(), Box<dyn Error>> {
    let path = std::env::args_os().nth(1).ok_or("usage: visit FILE")?;
    let file = std::fs::read(&path)?;

    let checked = notebook::check(&file)?;
    let (records, groups) = (counted(checked.records, "record"), counted(checked.groups, "group"));
    writeln!(out, "check: {records}, {groups}, {}", counted(checked.drugs, "drug"))?;

    // Record i stands in line i + 2: line 1 is the version.
    for (line, entry) in (2..).zip(notebook::index(&file)?).filter(|(_, entry)| entry.record == 201) {
        let Entry { group, doctor, clinic, .. } = entry;
        writeln!(out, "index: a drug in line {line}, group {group}, doctor's line {doctor}, clinic's line {clinic}")?;
    }

    let canonical = notebook::canonical(&file)?;
    writeln!(out, "canonical: {} bytes, from {}", canonical.len(), file.len())?;

    // A host keeps the IDs that have been used where they stay, and the new one before it hands the pieces over.
    let mut used = Used::new();
    let id = "20261115000001";
    let cut = notebook::cut(&file, 160, id, &used)?;
    used.push(id)?;
    writeln!(out, "cut: {}, {} bytes in all", counted(cut.len() as u64, "piece"), cut.as_bytes().len())?;
    match notebook::cut(&file, 160, id, &used) {
        Err(refusal) => writeln!(out, "cut with the same ID: {refusal}")?,
        Ok(_) => writeln!(out, "cut with the same ID: TWO SETS OF PIECES")?,
    }

    let mut pieces: Vec<&[u8]> = cut.pieces().collect();
    pieces.reverse();
    let joined = notebook::join(&pieces.concat())?;
    let found = if joined == canonical { "the canonical file" } else { "ANOTHER FILE" };
    writeln!(out, "join: {} bytes, {found}", joined.len())?;
    Ok(())
}

/// 1 group, 2 groups.
fn counted(count: u64, word: &str) -> String {
    format!("{count} {word}{}", if count == 1 { "" } else { "s" })
}
