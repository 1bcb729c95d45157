//! --quiet, --summary, and errors as objects.

mod shared;

use shared::*;
use std::path::PathBuf;

/// A folder with an accepted file and two that are refused.
fn place(name: &str) -> PathBuf {
    let folder = folder(name);
    write(folder.join("good"), SMALL);
    write(folder.join("no-day"), "JAHISTC04,2\r\n1,A,1,S640108,,,,,,,\r\n");
    write(folder.join("no-version"), "JAHISTC03,2\r\n");
    folder
}

#[test]
fn quiet_and_summary() {
    let folder = place("quiet");
    let refused = "no-day: no 11 2: form\nno-version: no 3 1: version\n";
    let counts = "3 files: 1 accepted, 2 refused, 0 failed\nno 3: version: 1\nno 11: form: 1\n";
    let object = "{\"summary\":{\"files\":3,\"accepted\":1,\"refused\":2,\"failed\":0,\"skipped\":0,\"refusals\":{\"3\":1,\"11\":1}}}\n";
    let all = "good no-day no-version";
    let cases: [(String, i32, String); 7] = [
        (format!("check --quiet {all}"), 1, refused.into()),
        (format!("index --quiet {all}"), 1, refused.into()),
        ("check --quiet good".into(), 0, "".into()),
        (format!("check --summary {all}"), 1, format!("good: ok 1 0 0\n{refused}{counts}")),
        (format!("check --quiet --summary {all}"), 1, format!("{refused}{counts}")),
        ("check --quiet --summary good".into(), 0, "1 file: 1 accepted, 0 refused, 0 failed\n".into()),
        (format!("check --quiet --summary --json {all} | tail -n 1; exit 1"), 1, object.into()),
    ];
    for (call, status, out) in cases {
        assert_eq!(shell(&folder, &format!("notebook {call}")), (status, out, "".into()), "{call}");
    }
    let to = shell(&folder, &format!("notebook canonical --to out --quiet --summary {all} nothing"));
    let failed = "notebook: nothing: No such file or directory (os error 2)\n";
    let counts = counts.replace("3 files", "4 files").replace("0 failed", "1 failed");
    assert_eq!(to, (2, counts, format!("{refused}{failed}")));
    assert_eq!(names(&folder.join("out")), ["good"]);
    // What is left out of a folder is counted apart.
    std::os::unix::fs::symlink("good", folder.join("link")).expect("a link is made");
    let (_, out, _) = shell(&folder, "rm -r out; notebook check --summary --quiet .");
    assert!(out.contains("3 files: 1 accepted, 2 refused, 0 failed; 1 skipped\n"), "{out}");
}

#[test]
fn errors_as_objects() {
    let folder = place("errors");
    let cases = [
        ("--json", "there is no subcommand --json"),
        ("frob --json", "there is no subcommand frob"),
        ("check --json", "check needs a file, or - for standard input"),
        ("check --jobs 0 --json good", "--jobs is a number from 1 to 64"),
        ("check --json=1 good", ""),
        ("cut --json --capacity 3 good", "cut needs --id"),
    ];
    for (call, message) in cases {
        let expected = match message {
            "" => "notebook: --json takes no value\nTry `notebook --help`.\n".to_string(),
            _ => format!("{{\"error\":\"{message}\"}}\n"),
        };
        assert_eq!(shell(&folder, &format!("notebook {call}")), (2, "".into(), expected), "{call}");
    }
    let missing = "{\"file\":\"x\",\"error\":\"No such file or directory (os error 2)\"}\n";
    assert_eq!(shell(&folder, "notebook index --json x"), (2, missing.into(), "".into()));
    assert_eq!(shell(&folder, "notebook canonical --to out --json x"), (2, "".into(), missing.into()));
    assert_eq!(shell(&folder, "notebook check --json --files0-from x"), (2, missing.into(), "".into()));
    assert_eq!(shell(&folder, "notebook join --json --files0-from x"), (2, "".into(), missing.into()));
}

#[test]
fn options_that_do_not_go_together() {
    let folder = place("together");
    for call in [
        "canonical --quiet good",
        "canonical --summary good",
        "canonical --files0-from good",
        "canonical --to out --output x good",
        "check --output x good",
        "cut --summary --capacity 100 --id 12345678901234 good",
        "join --quiet good",
    ] {
        let (status, out, err) = shell(&folder, &format!("notebook {call}"));
        let usage = err.starts_with("notebook: c") || err.starts_with("notebook: join has no option");
        assert!(status == 2 && out.is_empty() && usage && err.ends_with("\nTry `notebook --help`.\n"), "{call}: {err}");
    }
    assert_eq!(names(&folder), ["good", "no-day", "no-version"]);
}
