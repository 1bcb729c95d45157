//! Files that the command writes: whole or not at all, and never over another.

mod shared;

use shared::*;
use std::fs::{self, File};
use std::os::unix::fs::{symlink, PermissionsExt};
use std::path::{Path, PathBuf};

const CUT: &str = "notebook cut --capacity 69 --id 12345678901234 --prefix p- ../six.csv";

/// The records of the pieces that CUT makes of 20 notes, worked out by hand: each piece has 13 bytes of line 1, 24 of
/// 911 and at most 32 of records.
const SIX: [&str; 6] = [
    "1,A,1,H010108,,,,,,,\r\n4,x,,2\r\n",
    "4,x,,2\r\n4,x,,2\r\n4,x,,2\r\n4,x,,2\r\n",
    "4,x,,2\r\n4,x,,2\r\n4,x,,2\r\n4,x,,2\r\n",
    "4,x,,2\r\n4,x,,2\r\n4,x,,2\r\n4,x,,2\r\n",
    "4,x,,2\r\n4,x,,2\r\n4,x,,2\r\n4,x,,2\r\n",
    "4,x,,2\r\n4,x,,2\r\n4,x,,2\r\n",
];

fn piece(k: usize) -> String {
    format!("JAHISTC04,2\r\n{}911,12345678901234,6,{k}\r\n", SIX[k - 1])
}

/// A new folder `out` beside six.csv.
fn place(name: &str) -> PathBuf {
    let folder = folder(name);
    write(folder.join("six.csv"), notes(20));
    fs::create_dir(folder.join("out")).expect("a folder is made");
    folder.join("out")
}

/// Whether the folder has the six pieces, with mode 0600 if this run made them, and nothing else.
fn has_six(folder: &Path) -> bool {
    let right = |k: &usize| fs::read_to_string(folder.join(format!("p-{k}"))).is_ok_and(|bytes| bytes == piece(*k));
    names(folder) == ["p-1", "p-2", "p-3", "p-4", "p-5", "p-6"] && (1..=6).all(|k| right(&k))
}

fn mode(path: &Path) -> u32 {
    fs::metadata(path).expect("it is there").permissions().mode() & 0o7777
}

/// The name under which a file of this name is written: FNV-1a of it.
fn part(name: &str) -> String {
    let hash = name.bytes().fold(0xcbf29ce484222325_u64, |hash, byte| (hash ^ u64::from(byte)).wrapping_mul(0x100000001b3));
    format!(".notebook-{hash:016x}.part")
}

#[test]
fn a_limit_leaves_nothing() {
    let out = place("limit");
    // Two blocks of 512 bytes are enough for each piece but not for the canonical file of many notes.
    write(out.join("../large.csv"), notes(1_000));
    for (call, name) in [
        ("notebook canonical --output c.csv ../large.csv", "c.csv"),
        ("notebook canonical --to new/folder ../large.csv", "new/folder/large.csv"),
        ("notebook join --output j.csv ../large.csv", "j.csv"),
        ("notebook cut --capacity 4000 --id 12345678901234 --prefix q- ../large.csv", "q-1"),
    ] {
        let before = names(&out);
        let (status, told, err) = shell(&out, &format!("ulimit -f 2; {call}"));
        assert_eq!((status, &told[..]), (2, ""), "{call}");
        assert_eq!(err, format!("notebook: {name}: File too large (os error 27)\n"));
        assert_eq!(names(&out), before, "{call}");
        assert_eq!(shell(&out, call).0, 0, "{call} again");
    }
    assert_eq!(mode(&out.join("new/folder")), 0o700);
    for name in ["c.csv", "new/folder/large.csv", "j.csv", "q-1", "q-2"] {
        assert_eq!(mode(&out.join(name)), 0o600, "{name}");
    }
}

#[test]
fn a_limit_at_a_later_piece_leaves_nothing() {
    let out = place("later");
    // Descriptors for some of the parts.
    let (status, told, err) = shell(&out, &format!("ulimit -n 7; {CUT}"));
    assert_eq!((status, &told[..]), (2, ""));
    assert!(err.ends_with(": Too many open files (os error 24)\n") && !err.contains("p-1"), "{err}");
    assert_eq!(names(&out), [""; 0]);
    assert_eq!(shell(&out, CUT).0, 0);
    assert!(has_six(&out));
}

#[test]
fn what_is_there_is_asked_first() {
    let out = place("there");
    let (status, told, err) = shell(&out, CUT);
    let expected = "../six.csv: ok 6 404\np-1: 67\np-2: 69\np-3: 69\np-4: 69\np-5: 69\np-6: 61\n";
    assert_eq!((status, &told[..], &err[..]), (0, expected, ""));
    assert!(has_six(&out) && mode(&out.join("p-6")) == 0o600);
    // As after a kill between two renames.
    for k in [2, 5] {
        fs::rename(out.join(format!("p-{k}")), out.join(part(&format!("p-{k}")))).expect("it is renamed");
    }
    // A part beside its file: a run that was second, and was killed.
    write(out.join(part("p-1")), "J");
    assert_eq!(shell(&out, CUT), (0, expected.into(), "".into()));
    assert!(has_six(&out), "{:?}", names(&out));
    // A run that has given its name and is not done may still fail, and remove it.
    let in_use = File::open(out.join("p-4")).expect("it is there");
    in_use.lock().expect("it is locked");
    assert_eq!(shell(&out, CUT), (2, "".into(), "notebook: p-4: in use by another run\n".into()));
    in_use.unlock().expect("it is unlocked");
    assert_eq!(shell(&out, CUT).0, 0);
}

#[test]
fn nothing_is_written_over() {
    let others: [(&str, fn(&Path)); 5] = [
        ("other bytes", |path| write(path, piece(3))),
        ("fewer bytes", |path| write(path, &piece(4)[..60])),
        ("a folder", |path| fs::create_dir(path).expect("a folder is made")),
        ("a link to the right bytes", |path| symlink("../right", path).expect("a link is made")),
        ("a link to nothing", |path| symlink("../nothing", path).expect("a link is made")),
    ];
    for (number, (what, make)) in others.into_iter().enumerate() {
        let out = place(&format!("over-{number}"));
        write(out.join("../right"), piece(4));
        make(&out.join("p-4"));
        assert_eq!(shell(&out, CUT), (2, "".into(), "notebook: p-4: already exists\n".into()), "{what}");
        assert_eq!(names(&out), ["p-4"], "{what}");
        assert!(!out.join("../nothing").exists(), "{what}");
        let call = "notebook join --output p-4 ../six.csv";
        assert_eq!(shell(&out, call), (2, "".into(), "notebook: p-4: already exists\n".into()), "{what}");
        let call = "notebook canonical --json --output p-4 ../six.csv";
        let object = "{\"file\":\"p-4\",\"error\":\"already exists\"}\n";
        assert_eq!(shell(&out, call), (2, "".into(), object.into()), "{what}");
    }
}

#[test]
fn a_part_is_taken_over_unless_a_run_has_it() {
    let out = place("part");
    // A beginning of each piece.
    write(out.join(part("p-3")), "JAHISTC04,2\r\n");
    fs::set_permissions(out.join(part("p-3")), fs::Permissions::from_mode(0o644)).expect("the mode is set");
    let in_use = File::create(out.join(part("p-5"))).expect("a file is made");
    in_use.lock().expect("it is locked");
    assert_eq!(shell(&out, CUT), (2, "".into(), "notebook: p-5: in use by another run\n".into()));
    assert_eq!(names(&out), [part("p-5")]);
    // A child of another test may still hold the descriptor.
    in_use.unlock().expect("it is unlocked");
    drop(in_use);
    assert_eq!(shell(&out, CUT).0, 0);
    assert!(has_six(&out) && (1..=6).all(|k| mode(&out.join(format!("p-{k}"))) == 0o600));
    // What is no beginning of the piece is nobody's part, nor is a link.
    let out = place("part-other");
    write(out.join(part("p-3")), "another file");
    let (status, _, err) = shell(&out, CUT);
    assert_eq!((status, err), (2, format!("notebook: p-3: ./{}: in the way, and no part of this file\n", part("p-3"))));
    assert_eq!(names(&out), [part("p-3")]);
    assert_eq!(fs::read(out.join(part("p-3"))).expect("it is there"), b"another file");
    let out = place("part-link");
    write(out.join("../other"), "another file");
    symlink("../other", out.join(part("p-1"))).expect("a link is made");
    assert_eq!(shell(&out, CUT).0, 2);
    assert_eq!(names(&out), [part("p-1")]);
    assert_eq!(fs::read(out.join("../other")).expect("it is there"), b"another file");
}

#[test]
fn two_runs_at_once() {
    let out = place("two");
    for round in 0..10 {
        let line = format!("{CUT} >a 2>&1 & {CUT} >b 2>&1 & wait; cat a b; rm a b");
        let (_, told, _) = shell(&out, &line);
        assert!(has_six(&out), "{round}: {told} {:?}", names(&out));
        (1..=6).for_each(|k| fs::remove_file(out.join(format!("p-{k}"))).expect("it is removed"));
    }
}

#[test]
fn one_target_is_one_input() {
    let out = place("target");
    for (name, bytes) in [("a/x/n.csv", notes(1)), ("b/x/n.csv", notes(2)), ("b/n.csv", notes(3)), ("c/n.csv/y", notes(4))]
    {
        let path = out.join("..").join(name);
        fs::create_dir_all(path.parent().expect("it has a folder")).expect("folders are made");
        write(path, bytes);
    }
    for jobs in [1, 8] {
        let to = format!("to-{jobs}");
        let call = format!("notebook canonical --jobs {jobs} --to {to} ../a ../b ../c");
        let (status, told, err) = shell(&out, &call);
        assert_eq!((status, &told[..]), (2, "../a/x/n.csv: ok 43\n../b/n.csv: ok 59\n"));
        let same = format!("notebook: ../b/x/n.csv: another input is written to {to}/x/n.csv\n");
        let within = format!("notebook: ../c/n.csv/y: another input is written to {to}/n.csv/y\n");
        assert_eq!(err, same + &within);
        assert_eq!(fs::read(out.join(&to).join("x/n.csv")).expect("it is written").len(), 43);
    }
}

#[test]
fn names_of_outputs() {
    let out = place("outputs");
    let (_, canonical, _) = shell(&out, "notebook canonical ../six.csv");
    let call = "notebook canonical --output c.csv --name sent.csv ../six.csv";
    assert_eq!(shell(&out, call), (0, "sent.csv: ok 195\n".into(), "".into()));
    assert_eq!(fs::read_to_string(out.join("c.csv")).expect("it is written"), canonical);
    let object = "{\"file\":\"../six.csv\",\"ok\":true,\"bytes\":195,\"to\":\"c.csv\"}\n";
    assert_eq!(shell(&out, "notebook canonical --output c.csv --json ../six.csv"), (0, object.into(), "".into()));
    for name in ["", "x/", "x/.", "..", "x/y"] {
        let (status, told, err) = shell(&out, &format!("notebook join --output '{name}' ../six.csv"));
        assert_eq!((status, &told[..]), (2, ""), "{name}");
        assert!(err.starts_with(&format!("notebook: {name}: ")), "{name} {err}");
        assert_eq!(names(&out), ["c.csv"]);
    }
}
