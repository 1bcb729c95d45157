//! How the command ends, whatever fails: with 0, 1 or 2, and with no verdict that comes from a failure.

mod shared;

use shared::*;
use std::fs;
use std::process::{Command, Stdio};

/// Lines of a shell in the repository's root, the status, and what is on standard output.
fn hold(cases: &[(&str, i32, &str)]) {
    for (line, status, out) in cases {
        let (told_status, told_out, err) = shell(&root(), line);
        assert_eq!((told_status, &told_out[..]), (*status, *out), "{line}: {err}");
    }
}

const VISIT: &str = "samples/visit.csv: ok 15 1 3\n";

#[test]
fn standard_error_may_fail() {
    hold(&[
        ("notebook canonical samples/refused.csv 2>/dev/full", 1, ""),
        ("notebook canonical samples/refused.csv 2>&-", 1, ""),
        ("notebook check samples/nothing.csv samples/visit.csv 2>/dev/full", 2, VISIT),
        ("notebook check samples/nothing.csv samples/visit.csv 2>&-", 2, VISIT),
        ("notebook check --json samples/visit.csv extra 2>/dev/full >/dev/null", 2, ""),
        ("notebook frob 2>/dev/full", 2, ""),
        ("notebook join samples/nothing.csv 2</dev/null", 2, ""),
    ]);
    for (call, status) in [("frob", 2), ("check samples/nothing.csv", 2), ("canonical samples/refused.csv", 1)] {
        let ended = command(call).stderr(nobody_reads()).status().expect("the command runs");
        assert_eq!(ended.code(), Some(status), "{call}");
    }
}

/// The command in the repository's root.
fn command(words: &str) -> Command {
    let mut command = Command::new(env!("CARGO_BIN_EXE_notebook"));
    command.args(words.split(' ')).current_dir(root());
    command
}

/// A pipe whose reader has gone.
fn nobody_reads() -> std::io::PipeWriter {
    std::io::pipe().expect("a pipe").1
}

#[test]
fn standard_output_must_not_fail() {
    let full = "notebook: standard output: No space left on device (os error 28)\n";
    let closed = "notebook: standard output: Bad file descriptor (os error 9)\n";
    let calls = [
        "--help",
        "--version",
        "check samples/visit.csv",
        "index samples/visit.csv",
        "canonical samples/visit.csv",
        "cut --capacity 300 --id 12345678901234 samples/visit.csv",
        "join samples/visit.csv",
    ];
    for call in calls {
        for (output, message) in [(">/dev/full", full), (">&-", closed), ("1</dev/null", closed)] {
            let line = format!("notebook {call} {output}");
            assert_eq!(shell(&root(), &line), (2, "".into(), message.into()), "{line}");
            assert_eq!(shell(&root(), &format!("{line} 2>/dev/full")), (2, "".into(), "".into()), "{line}");
        }
        // A reader that has gone is no reason for a line.
        let child = command(call).stdout(nobody_reads()).stderr(Stdio::piped()).output();
        assert_eq!(told(child.expect("the command runs")), (2, "".into(), "".into()), "{call}");
    }
    let object = "{\"error\":\"standard output: No space left on device (os error 28)\"}\n";
    let line = "notebook check --json samples/visit.csv >/dev/full";
    assert_eq!(shell(&root(), line), (2, "".into(), object.into()));
}

#[test]
fn a_failed_read_is_no_verdict() {
    let inputs = [
        ("<&-", "Bad file descriptor (os error 9)"),
        ("< samples", "Is a directory (os error 21)"),
        ("0>/dev/null", "Bad file descriptor (os error 9)"),
        ("< /proc/self/mem", "Input/output error (os error 5)"),
    ];
    let calls = ["check", "index", "canonical", "cut --capacity 300 --id 12345678901234", "join"];
    for call in calls {
        for (input, message) in inputs {
            let line = format!("notebook {call} - {input}");
            assert_eq!(shell(&root(), &line), (2, "".into(), format!("notebook: -: {message}\n")), "{line}");
        }
    }
    for path in ["/dev/stdin", "/dev/fd/0", "/proc/self/fd/0"] {
        let error = format!("notebook: {path}: No such device or address (os error 6)\n");
        assert_eq!(shell(&root(), &format!("notebook check {path} <&-")), (2, "".into(), error));
    }
    let object = "{\"file\":\"-\",\"error\":\"Bad file descriptor (os error 9)\"}\n";
    assert_eq!(shell(&root(), "notebook check --json - <&-"), (2, object.into(), "".into()));
    assert_eq!(shell(&root(), "notebook join --json - <&-"), (2, "".into(), object.into()));
    let list = "notebook: -: Bad file descriptor (os error 9)\n";
    assert_eq!(shell(&root(), "notebook check --files0-from - <&-"), (2, "".into(), list.into()));
}

/// A folder of 200 copies of the sample, and what check says of it.
fn copies(name: &str) -> (std::path::PathBuf, String) {
    let folder = folder(name);
    let visit = fs::read(root().join("samples/visit.csv")).expect("the sample is there");
    let mut expected = String::new();
    for number in 0..200 {
        write(folder.join(format!("{number:03}")), &visit);
        expected += &format!("./{number:03}: ok 15 1 3\n");
    }
    (folder, expected)
}

#[test]
fn threads_that_have_no_memory() {
    let (folder, expected) = copies("threads");
    for kilobytes in [4_500, 6_000, 10_000, 20_000, 40_000] {
        let line = format!("ulimit -v {kilobytes}; notebook check --jobs 64 .");
        assert_eq!(shell(&folder, &line), (0, expected.clone(), "".into()), "{kilobytes}");
    }
}

#[test]
fn limits_of_the_system() {
    let (folder, _) = copies("limits");
    for line in [
        "ulimit -n 3; notebook check --jobs 8 .",
        "ulimit -n 4; notebook check --jobs 8 .",
        "ulimit -s 24; notebook check --jobs 2 .",
        "ulimit -v 3700; notebook index --jobs 8 .",
        "ulimit -f 0; notebook canonical --to out .",
    ] {
        let (status, _, err) = shell(&folder, &format!("({line}); status=$?; test $status != 127 && exit $status; exit 2"));
        assert!((0..=2).contains(&status), "{line}: {status} {err}");
    }
    assert!(!folder.join("out").exists(), "a run that has failed leaves no folder");
}

#[test]
fn no_core() {
    let child = command("check -").stdin(Stdio::piped()).stdout(Stdio::piped()).spawn();
    let mut child = child.expect("the command starts");
    let mut input = child.stdin.take().expect("the input is a pipe");
    let limits = || fs::read_to_string(format!("/proc/{}/limits", child.id())).expect("it waits for its input");
    let is_none = |limits: String| {
        let core = limits.lines().find_map(|line| line.strip_prefix("Max core file size"));
        core.is_some_and(|core| core.split_whitespace().eq(["0", "0", "bytes"]))
    };
    let waited = (0..2000).any(|_| {
        std::thread::sleep(std::time::Duration::from_millis(10));
        is_none(limits())
    });
    assert!(waited, "{}", limits());
    std::io::Write::write_all(&mut input, SMALL).expect("it still reads");
    drop(input);
    assert_eq!(told(child.wait_with_output().expect("it ends")).0, 0);
}

#[test]
fn the_highest_status_counts() {
    hold(&[
        ("notebook check samples/visit.csv", 0, VISIT),
        ("notebook check samples/refused.csv samples/visit.csv >/dev/null", 1, ""),
        ("notebook check samples/nothing.csv samples/refused.csv 2>/dev/null >/dev/null", 2, ""),
        ("notebook cut --capacity 300 --id 1 samples/visit.csv", 2, ""),
        ("notebook cut --capacity 3 --id 12345678901234 samples/visit.csv", 2, ""),
        ("notebook cut --capacity 300 --id 12345678901234 samples/refused.csv", 1, ""),
    ]);
}
