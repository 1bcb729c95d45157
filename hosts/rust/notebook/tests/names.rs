//! Inputs by name: what a folder or a list leads to, and how names are shown.

mod shared;

use shared::*;
use std::ffi::{OsStr, OsString};
use std::fs;
use std::os::unix::ffi::{OsStrExt, OsStringExt};
use std::os::unix::fs::symlink;
use std::os::unix::net::UnixListener;

/// Names that would forge lines or move the cursor, and how text shows them.
const FORGING: [(&[u8], &str); 5] = [
    (b"a: ok 1 0 0\nb", "a\\x3a ok 1 0 0\\nb"),
    (b"c\x1b[2K\rd\t\x7f", "c\\x1b[2K\\rd\\t\\x7f"),
    (b"e\\n\xff\xe8\x96", "e\\\\n\\xff\\xe8\\x96"),
    ("f\u{9b}2J\u{85}".as_bytes(), "f\\u{009b}2J\\u{0085}"),
    ("g\u{202e}vsc.\u{200b}\u{feff}\u{2066}".as_bytes(), "g\\u{202e}vsc.\\u{200b}\\u{feff}\\u{2066}"),
];

#[test]
fn a_line_is_an_answer() {
    let folder = folder("forging");
    let mut expected = String::new();
    for (name, shown) in FORGING {
        write(folder.join(OsStr::from_bytes(name)), SMALL);
        expected += &format!("./{shown}: ok 1 0 0\n");
    }
    assert_eq!(told(run_in(&folder, b"", &["check", "."])), (0, expected, "".into()));
    for (name, shown) in FORGING {
        let missing = OsString::from_vec([b"x", name].concat());
        for call in ["check", "canonical", "join"] {
            let words = [OsStr::new(call), &missing];
            let error = format!("notebook: x{shown}: No such file or directory (os error 2)\n");
            assert_eq!(told(run_in(&folder, b"", &words)), (2, "".into(), error));
        }
        // Words that a message repeats.
        let error = format!("notebook: there is no subcommand x{shown}\nTry `notebook --help`.\n");
        assert_eq!(told(run_in(&folder, b"", &[&missing])), (2, "".into(), error));
        let option = OsString::from_vec([b"--x", name].concat());
        let error = format!("notebook: check has no option --x{shown}\nTry `notebook --help`.\n");
        assert_eq!(told(run_in(&folder, b"", &[OsStr::new("check"), &option])), (2, "".into(), error));
        // Names of outputs.
        let words = [OsStr::new("canonical"), OsStr::new("--output"), OsStr::from_bytes(name), OsStr::new("-")];
        let error = format!("notebook: {shown}: already exists\n");
        assert_eq!(told(run_in(&folder, &notes(1), &words)), (2, "".into(), error));
    }
}

#[test]
fn names_in_objects() {
    let folder = folder("objects");
    write(folder.join(OsStr::from_bytes(b"a\xFF\"\n\x7f.csv")), SMALL);
    let object = "{\"file\":\"./a\u{fffd}\\\"\\n\\u007f.csv\",\"file_hex\":\"2e2f61ff220a7f2e637376\",\"ok\":true,\"records\":1,\"groups\":0,\"drugs\":0}\n";
    assert_eq!(told(run_in(&folder, b"", &["check", "--json", "."])), (0, object.into(), "".into()));
    write(folder.join("-x"), SMALL);
    assert_eq!(run_in(&folder, b"", &["check", "--", "-x"]).stdout, b"-x: ok 1 0 0\n");
}

#[test]
fn what_a_folder_leaves_out_is_told() {
    let folder = folder("skipped");
    for name in ["a.csv", "z.csv"] {
        write(folder.join(name), SMALL);
    }
    symlink(".", folder.join("circle")).expect("a link is made");
    let _socket = UnixListener::bind(folder.join("socket")).expect("a socket is made");
    let reasons = [("circle", "a symbolic link"), ("socket", "not a regular file")];
    let lines: String = reasons.iter().map(|(name, why)| format!("notebook: ./{name}: skipped: {why}\n")).collect();
    let out = "./a.csv: ok 1 0 0\n./z.csv: ok 1 0 0\n";
    assert_eq!(told(run_in(&folder, b"", &["check", "."])), (0, out.into(), lines.clone()));
    // Standard output and error are files in the folder.
    let (status, _, _) = shell(&folder, "notebook check . >report 2>errors");
    assert_eq!((status, fs::read_to_string(folder.join("report")).expect("it is there")), (0, out.into()));
    let errors = fs::read_to_string(folder.join("errors")).expect("it is there");
    for name in ["errors", "report"] {
        assert!(errors.contains(&format!("notebook: ./{name}: skipped: the output of this run\n")), "{errors}");
        fs::remove_file(folder.join(name)).expect("it is removed");
    }
    let objects = reasons.map(|(name, why)| format!("{{\"file\":\"./{name}\",\"skipped\":\"{why}\"}}\n"));
    let (status, out, err) = told(run_in(&folder, b"", &["check", "--json", "."]));
    assert!(status == 0 && err.is_empty() && objects.iter().all(|object| out.contains(object)), "{out}");
    fs::remove_file(folder.join("a.csv")).expect("it is removed");
    let joined = String::from_utf8_lossy(SMALL_CANONICAL).replace("H010108", "19890108");
    assert_eq!(told(run_in(&folder, b"", &["join", "."])), (0, joined.clone(), lines));
    assert_eq!(told(run_in(&folder, b"", &["join", "--json", "."])).2, objects.concat());
}

#[test]
fn a_file_named_like_a_part_is_never_passed_over() {
    const PART: &str = ".notebook-af63dc4c8601ec8c.part"; // that of `a`
    let folder = folder("like-a-part");
    fs::create_dir(folder.join("in")).expect("a folder is made");
    write(folder.join("in/a"), SMALL);
    write(folder.join("in").join(PART), SMALL);
    let line = format!("notebook: in/{PART}: named like a part that a run has left\n");
    let (status, out, err) = shell(&folder, "notebook check --summary in");
    assert_eq!((status, err), (2, line.clone()));
    assert_eq!(out, "in/a: ok 1 0 0\n2 files: 1 accepted, 0 refused, 1 failed\n");
    assert_eq!(shell(&folder, &format!("notebook canonical --output in/b in/{PART}")), (2, "".into(), line));
    let call = format!("notebook canonical --output out/{PART} in/a");
    let line = format!("notebook: out/{PART}: named like a part that a run has left\n");
    assert_eq!(shell(&folder, &call), (2, "".into(), line));
    // The part of `a` is in the way, and is kept.
    fs::remove_file(folder.join("in/a")).expect("it is removed");
    write(folder.join("b"), SMALL);
    assert_eq!(shell(&folder, "notebook canonical --output in/a b").0, 2);
    assert_eq!(fs::read(folder.join("in").join(PART)).expect("it is there"), SMALL);
}

#[test]
fn a_run_does_not_read_what_it_has_written() {
    let folder = folder("again");
    fs::create_dir(folder.join("d")).expect("a folder is made");
    write(folder.join("d/a.csv"), SMALL);
    for _ in 0..2 {
        assert_eq!(shell(&folder, "notebook canonical --to d/out d").0, 0);
        assert_eq!(shell(&folder, "notebook join --output d/out/joined d/out").0, 0);
    }
    assert!(!folder.join("d/out/out").exists());
    let told = "notebook: d/out/joined: skipped: the output of this run\n";
    assert_eq!(shell(&folder, "notebook join --output d/out/joined d/out").2, told);
}

#[test]
fn deep_folders() {
    let folder = folder("deep");
    let deep = folder.join("d/".repeat(700));
    fs::create_dir_all(&deep).expect("folders are made");
    write(deep.join("x.csv"), SMALL);
    // A stack on which a call for each folder has no room.
    let (status, out, err) = shell(&folder, "ulimit -s 128; notebook check d");
    assert_eq!((status, &err[..]), (0, ""));
    assert_eq!(out, format!("{}x.csv: ok 1 0 0\n", "d/".repeat(700)));
    let _ = fs::remove_dir_all(&folder);
}

#[test]
fn a_name_in_place_of_the_path() {
    let folder = folder("shown");
    write(folder.join("secret-path"), SMALL);
    let canonical = String::from_utf8_lossy(SMALL_CANONICAL);
    let cases: [(&str, i32, &str, &str); 8] = [
        ("check --name sent.csv secret-path", 0, "sent.csv: ok 1 0 0\n", ""),
        (
            "check --name=sent.csv --json secret-path",
            0,
            "{\"file\":\"sent.csv\",\"ok\":true,\"records\":1,\"groups\":0,\"drugs\":0}\n",
            "",
        ),
        ("index --name sent.csv secret-path", 0, "sent.csv: ok 1\n1 13 21 0 0 0 0\n", ""),
        ("canonical --name sent.csv secret-path", 0, &canonical, ""),
        ("canonical --name sent.csv secret-pat", 2, "", "notebook: sent.csv: No such file or directory (os error 2)\n"),
        ("check --name sent.csv .", 2, "", "notebook: sent.csv: Is a directory (os error 21)\n"),
        ("check --name 'a\nb' -", 1, "a\\nb: no 2 1: line end\n", ""),
        ("cut --capacity 3 --id 12345678901234 --name sent.csv secret-path", 2, "", "sent.csv: no 18 0: no cutting\n"),
    ];
    for (call, status, out, err) in cases {
        assert_eq!(shell(&folder, &format!("notebook {call} </dev/null")), (status, out.into(), err.into()), "{call}");
    }
    for call in
        ["check --name x a b", "check --name x --files0-from list", "join --name x a", "canonical --to o --name x a"]
    {
        let (status, out, err) = shell(&folder, &format!("notebook {call}"));
        assert!(status == 2 && out.is_empty() && err.ends_with("Try `notebook --help`.\n"), "{call}: {err}");
    }
}

#[test]
fn names_from_a_list() {
    let folder = folder("listed");
    fs::create_dir(folder.join("in")).expect("a folder is made");
    for name in ["a b", "c\nd", "in/e"] {
        write(folder.join(name), SMALL);
    }
    let all = "a b: ok 1 0 0\nc\\nd: ok 1 0 0\nin/e: ok 1 0 0\n";
    let list = b"a b\0c\nd\0in\0";
    write(folder.join("list"), list);
    assert_eq!(told(run_in(&folder, list, &["check", "--files0-from", "-"])), (0, all.into(), "".into()));
    assert_eq!(told(run_in(&folder, b"", &["check", "--files0-from=list"])), (0, all.into(), "".into()));
    let (status, out, _) = told(run_in(&folder, b"a b\0", &["join", "--files0-from", "-"]));
    assert_eq!((status, out.len()), (0, SMALL_CANONICAL.len() + 1));
    assert_eq!(told(run_in(&folder, list, &["canonical", "--to", "out", "--files0-from", "-"])).0, 0);
    assert_eq!(names(&folder.join("out")), ["a b", "c\nd", "e"]);
    write(folder.join("with-stdin"), "-\0");
    let stdin = told(run_in(&folder, SMALL, &["check", "--files0-from", "with-stdin"]));
    assert_eq!(stdin, (0, "-: ok 1 0 0\n".into(), "".into()));
    let wrong: [(&[u8], &str); 4] = [
        (b"", "no name in this list"),
        (b"a b\0c", "the last name in this list is not ended by a 0 byte"),
        (b"a b\0-\0", "standard input can be read only once"),
        (b"a b", "the last name in this list is not ended by a 0 byte"),
    ];
    for (list, message) in wrong {
        let told = told(run_in(&folder, list, &["check", "--files0-from", "-"]));
        assert_eq!(told, (2, "".into(), format!("notebook: -: {message}\n")));
    }
    let both = run_in(&folder, list, &["check", "--files0-from", "-", "a b"]);
    assert_eq!(told(both).2, "notebook: --files0-from stands in place of files\nTry `notebook --help`.\n");
    let words = ["check", "--files0-from", "nothing"].map(OsString::from);
    let missing = "notebook: nothing: No such file or directory (os error 2)\n";
    assert_eq!(told(run_in(&folder, b"", &words)), (2, "".into(), missing.into()));
}
