//! What the tests of the command have in common.

// No test file uses all of it.
#![allow(dead_code)]

use std::ffi::OsStr;
use std::fs;
use std::io::Write;
use std::path::{Path, PathBuf};
use std::process::{Command, Output, Stdio};

pub const SMALL: &[u8] = b"JAHISTC04,2\r\n1,A,1,19890108,,,,,,,\r\n\x1A";
pub const SMALL_CANONICAL: &[u8] = b"JAHISTC04,2\r\n1,A,1,H010108,,,,,,,\r\n";
pub const ID: &str = "12345678901234";

/// Runs the command in a folder with bytes on standard input.
pub fn run_in<S: AsRef<OsStr>>(folder: &Path, input: &[u8], words: &[S]) -> Output {
    let mut child = Command::new(env!("CARGO_BIN_EXE_notebook"))
        .args(words)
        .current_dir(folder)
        .stdin(Stdio::piped())
        .stdout(Stdio::piped())
        .stderr(Stdio::piped())
        .spawn()
        .expect("the command starts");
    // A command that does not read its input may be gone before.
    let _ = child.stdin.take().expect("the input is a pipe").write_all(input);
    child.wait_with_output().expect("the command ends")
}

pub fn root() -> PathBuf {
    Path::new(env!("CARGO_MANIFEST_DIR")).join("../../..")
}

/// Status, standard output and standard error, in the repository's root.
pub fn run(words: &[&str], input: &[u8]) -> (i32, String, String) {
    told(run_in(&root(), input, words))
}

pub fn told(output: Output) -> (i32, String, String) {
    let text = |bytes: Vec<u8>| String::from_utf8(bytes).expect("the answer is UTF-8");
    (output.status.code().expect("the command ends by itself"), text(output.stdout), text(output.stderr))
}

/// A new folder for a test.
pub fn folder(name: &str) -> PathBuf {
    let folder = Path::new(env!("CARGO_TARGET_TMPDIR")).join(name);
    let _ = fs::remove_dir_all(&folder);
    fs::create_dir_all(&folder).expect("the folder is made");
    folder
}

/// The small file with records 4.
pub fn notes(count: usize) -> Vec<u8> {
    [&SMALL[..SMALL.len() - 1], &b"4,x,,2\r\n".repeat(count)].concat()
}

/// The answer of a shell's line in a folder, in which `notebook` is the command.
pub fn shell(folder: &Path, line: &str) -> (i32, String, String) {
    let function = format!("notebook() {{ '{}' \"$@\"; }}; {line}", env!("CARGO_BIN_EXE_notebook"));
    told(Command::new("sh").args(["-c", &function]).current_dir(folder).output().expect("the shell runs"))
}

pub fn write(path: impl AsRef<Path>, bytes: impl AsRef<[u8]>) {
    fs::write(path, bytes).expect("a file is written");
}

/// The names in a folder, sorted.
pub fn names(folder: &Path) -> Vec<String> {
    let entries = fs::read_dir(folder).expect("the folder is listed");
    let mut names: Vec<String> =
        entries.map(|entry| entry.expect("an entry").file_name().to_string_lossy().into_owned()).collect();
    names.sort();
    names
}
