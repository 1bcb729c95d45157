//! Document 01's cases through the crate and through the command.

#[path = "shared/frames.rs"]
mod frames;

use frames::{cases, Calls};
use notebook::raw;
use std::fs;
use std::path::{Path, PathBuf};
use std::process::Command;

#[test]
fn check_every_case() {
    let cases = cases(b"v");
    assert!(cases.len() >= 5_145);
    for case in cases {
        let told = match notebook::check(&case.input) {
            Ok(counts) => format!("ok {} {} {}", counts.records, counts.groups, counts.drugs),
            Err(refusal) => format!("no {} {}", refusal.reason.number(), refusal.line),
        };
        assert_eq!(format!("{}: {told}", case.label), case.answer);
    }
}

#[test]
fn check_every_case_by_the_command() {
    let cases = cases(b"v");
    let folder: PathBuf = Path::new(env!("CARGO_TARGET_TMPDIR")).join("cases");
    let _ = fs::remove_dir_all(&folder);
    fs::create_dir_all(&folder).expect("the folder is made");
    for (number, case) in cases.iter().enumerate() {
        fs::write(folder.join(format!("{number:05}")), &case.input).expect("the case is written");
    }
    let output = Command::new(env!("CARGO_BIN_EXE_notebook")).args(["check", "."]).current_dir(&folder).output();
    let output = output.expect("the command runs");
    assert_eq!(output.status.code(), Some(1));
    let told = String::from_utf8(output.stdout).expect("the answers are UTF-8");
    assert_eq!(told.lines().count(), cases.len());
    for (number, (told, case)) in told.lines().zip(&cases).enumerate() {
        let (_, answer) = case.answer.rsplit_once(": ").expect("an answer stands after its label");
        let told = told.strip_prefix(&format!("./{number:05}: ")).expect("the files are in order");
        assert_eq!(told.split(':').next(), Some(answer));
    }
    let _ = fs::remove_dir_all(&folder);
}

#[test]
fn every_call_on_every_case() {
    let calls = Calls { check: raw::check, index: raw::index, canonical: raw::canonical, cut: raw::cut, join: raw::join };
    let cases = cases(b"vickj");
    assert!(cases.len() >= 5_145 + 4_459);
    for case in cases {
        assert_eq!(case.told_by(&calls), case.answer);
    }
}
