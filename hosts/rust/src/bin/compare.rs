//! Runs the ordinary checker on frames, or compares the ordinary implementation with the gateway library.
//!
//! `compare` reads the frames of `crates/cases` from standard input to their end (tests/README.md) and prints
//! `label: ok R G D` or `label: no N L` for each frame of check; it passes over those of other calls.
//! `compare --against-library SEED COUNT` gives inputs near every rule to both, in every call, and prints the first
//! differences. A run of 20,000 inputs or more fails too if a call has not given a refusal that it can give, or a reason for
//! 19, a spelling of days, a kana name near the rule, a record or group with or without a clinic, a kind of run of used IDs,
//! a mixture of two cuttings or a sort of pieces for the search of piece k has not occurred.
//! `compare --minutes SEED MINUTES` is the same for so many minutes. Both tell their progress on standard error.
//! `compare --seeds FOLDER` writes short inputs into a folder, for `fuzz/run` to begin with.
//! `compare --frames SEED COUNT` writes the files of such a run as frames of check to standard output.

use notebook_hosts::comparison::Comparison;
use notebook_hosts::damage::Damage;
use notebook_hosts::division::{bytes_with_run, join_input};
use notebook_hosts::ordinary::{self, Counts, Refusal};
use std::fs;
use std::io::{self, BufWriter, IsTerminal, Read, Write};
use std::path::Path;
use std::process::ExitCode;
use std::time::Instant;

const USAGE: &str = "usage: compare \
    [--against-library SEED COUNT | --minutes SEED MINUTES | --frames SEED COUNT | --seeds FOLDER]";

fn main() -> ExitCode {
    let arguments: Vec<String> = std::env::args().skip(1).collect();
    let arguments: Vec<&str> = arguments.iter().map(String::as_str).collect();
    let result = match arguments[..] {
        [] => check_frames(),
        ["--against-library", seed, count] => {
            numbers(seed, count).map(|(seed, count)| against_library(seed, |inputs, _| inputs >= count))
        }
        ["--minutes", seed, minutes] => {
            numbers(seed, minutes).map(|(seed, minutes)| against_library(seed, |_, seconds| seconds >= 60 * minutes))
        }
        ["--frames", seed, count] => numbers(seed, count).and_then(|(seed, count)| write_frames(seed, count)),
        ["--seeds", folder] => write_seeds(Path::new(folder)),
        _ => Err(USAGE.to_string()),
    };
    result.unwrap_or_else(|message| {
        eprintln!("compare: {message}");
        ExitCode::from(2)
    })
}

fn numbers(seed: &str, count: &str) -> Result<(u64, u64), String> {
    let number = |text: &str| text.parse().map_err(|_| format!("not a number: {text}"));
    Ok((number(seed)?, number(count)?))
}

// ---- Frames

fn check_frames() -> Result<ExitCode, String> {
    let failed = |error: io::Error| error.to_string();
    let mut input = Vec::new();
    io::stdin().lock().read_to_end(&mut input).map_err(failed)?;
    let mut output = BufWriter::new(io::stdout().lock());
    let mut rest = &input[..];
    while !rest.is_empty() {
        let (call, label, content, after) = frame(rest).ok_or("the last frame is cut short")?;
        if call == CHECK {
            let label = String::from_utf8_lossy(label);
            writeln!(output, "{label}: {}", told(ordinary::check(content))).map_err(failed)?;
        }
        rest = after;
    }
    output.flush().map_err(failed)?;
    Ok(ExitCode::SUCCESS)
}

fn told(answer: Result<Counts, Refusal>) -> String {
    match answer {
        Ok(Counts { records, groups, drugs }) => format!("ok {records} {groups} {drugs}"),
        Err(Refusal { number, line }) => format!("no {number} {line}"),
    }
}

/// The letter of check in a frame.
const CHECK: u8 = b'v';

/// Call, label and input of the first frame, and the bytes after it.
fn frame(bytes: &[u8]) -> Option<(u8, &[u8], &[u8], &[u8])> {
    let (&call, rest) = bytes.split_first()?;
    let (&length, rest) = rest.split_first()?;
    let (label, rest) = rest.split_at_checked(usize::from(length))?;
    // The buffer's length and the capacity, which check does not take; nor does it take an ID or a run of used IDs.
    let (_, rest) = rest.split_at_checked(4 + 8)?;
    let (&length, rest) = rest.split_first()?;
    let (_, rest) = rest.split_at_checked(usize::from(length))?;
    let (_, rest) = long_run(rest)?;
    let (input, rest) = long_run(rest)?;
    Some((call, label, input, rest))
}

/// The bytes after a length of four bytes, and what follows them.
fn long_run(bytes: &[u8]) -> Option<(&[u8], &[u8])> {
    let (length, rest) = bytes.split_first_chunk::<4>()?;
    rest.split_at_checked(u32::from_be_bytes(*length) as usize)
}

fn write_frames(seed: u64, count: u64) -> Result<ExitCode, String> {
    let failed = |error: io::Error| error.to_string();
    let damage = Damage::default();
    let mut output = BufWriter::new(io::stdout().lock());
    for index in 0..count {
        let file = damage.file(seed, index);
        let label = format!("{seed}-{index}");
        output.write_all(&[CHECK, label.len() as u8]).map_err(failed)?;
        output.write_all(label.as_bytes()).map_err(failed)?;
        output.write_all(&[0; 4 + 8 + 1 + 4]).map_err(failed)?;
        output.write_all(&(file.len() as u32).to_be_bytes()).map_err(failed)?;
        output.write_all(&file).map_err(failed)?;
    }
    output.flush().map_err(failed)?;
    Ok(ExitCode::SUCCESS)
}

fn write_seeds(folder: &Path) -> Result<ExitCode, String> {
    let files = Damage::default();
    for index in 0..200 {
        let file = files.file(1, index);
        let pieces = join_input(1, index, &file, &files);
        let with_run = bytes_with_run(1, index, &file);
        for (name, bytes) in [("file", &file), ("pieces", &pieces), ("run", &with_run)] {
            if bytes.len() <= 4_096 {
                fs::write(folder.join(format!("{name}-{index}")), bytes).map_err(|error| error.to_string())?;
            }
        }
    }
    Ok(ExitCode::SUCCESS)
}

// ---- Against the library

/// A run of this many inputs must miss nothing that can occur.
const WHOLE_RUN: u64 = 20_000;

/// Compares until `done` says so of the inputs and the seconds.
fn against_library(seed: u64, done: impl Fn(u64, u64) -> bool) -> ExitCode {
    let (start, mut told) = (Instant::now(), Instant::now());
    let terminal = io::stderr().is_terminal();
    let mut comparison = Comparison::new(seed);
    while !done(comparison.inputs(), start.elapsed().as_secs()) {
        comparison.step();
        let pause = if terminal { 1 } else { 60 };
        if told.elapsed().as_secs() >= pause {
            told = Instant::now();
            let line = format!(
                "compare: seed {seed}, {} files in {} s, differences {}",
                comparison.inputs(),
                start.elapsed().as_secs(),
                comparison.differences()
            );
            if terminal {
                eprint!("\r{line} ");
            } else {
                eprintln!("{line}");
            }
        }
    }
    if terminal {
        eprint!("\r{:78}\r", "");
    }
    for difference in &comparison.shown {
        print!("{difference}");
    }
    println!("{}", comparison.summary());
    let complete = comparison.inputs() < WHOLE_RUN || comparison.missing().is_empty();
    if comparison.differences() == 0 && complete {
        ExitCode::SUCCESS
    } else {
        ExitCode::FAILURE
    }
}
