//! The file that cut records its ID in: before any piece appears, once, and whatever else runs at the same time.

mod shared;

use shared::*;
use std::fs::{self, File, OpenOptions};
use std::os::unix::fs::{symlink, MetadataExt, PermissionsExt};
use std::path::{Path, PathBuf};
use std::process::{Child, Command, Stdio};

const OTHER: &str = "12345678901235";

/// A folder with a file a.csv that is cut into six pieces of at most 69 bytes.
fn place(name: &str) -> PathBuf {
    let folder = folder(name);
    write(folder.join("a.csv"), notes(20));
    folder
}

/// The answer of a cut that records in `ids`, with these words more.
fn cut(folder: &Path, words: &str) -> (i32, String, String) {
    shell(folder, &format!("notebook cut --capacity 69 --id {ID} --record-used ids {words} a.csv"))
}

fn text(path: impl AsRef<Path>) -> String {
    fs::read_to_string(path).expect("it is there")
}

fn used() -> (i32, String, String) {
    (2, "".into(), "a.csv: no 24 0: used\n".into())
}

#[test]
fn a_new_file() {
    let folder = place("recorded-new");
    let pieces = shell(&folder, &format!("notebook cut --capacity 69 --id {ID} a.csv"));
    assert_eq!(cut(&folder, ""), pieces);
    assert_eq!(text(folder.join("ids")), format!("{ID}\n"));
    assert_eq!(fs::metadata(folder.join("ids")).expect("it is there").mode() & 0o7777, 0o600);
    assert_eq!(cut(&folder, ""), used());
    assert_eq!(cut(&folder, "--json"), (2, "".into(), json_used()));
    assert_eq!(text(folder.join("ids")), format!("{ID}\n"));
    // Also where one piece serves, where there are others of --used, and with files.
    let line = "notebook cut --capacity 65536 --id 00000000000001 --used more --record-used ids --prefix p- --json a.csv";
    write(folder.join("more"), OTHER);
    let object = "{\"file\":\"a.csv\",\"ok\":true,\"pieces\":1,\"bytes\":195,\"to\":[\"p-1\"]}\n";
    assert_eq!(shell(&folder, line), (0, object.into(), "".into()));
    assert_eq!(text(folder.join("ids")), format!("{ID}\n00000000000001\n"));
    // One file for both is read twice.
    let line = "notebook cut --capacity 69 --id 00000000000002 --used ids --record-used ids a.csv";
    assert_eq!(shell(&folder, line).0, 0);
    assert_eq!(text(folder.join("ids")), format!("{ID}\n00000000000001\n00000000000002\n"));
    assert_eq!(names(&folder), ["a.csv", "ids", "more", "p-1"]);
}

fn json_used() -> String {
    "{\"file\":\"a.csv\",\"ok\":false,\"number\":24,\"word\":\"used\",\"line\":0}\n".into()
}

#[test]
fn a_file_keeps_its_form_and_its_bytes() {
    let folder = place("recorded-forms");
    let cases = [
        ("".to_string(), format!("{ID}\n")),
        (format!("{OTHER}\n"), format!("{ID}\n")),
        (format!("{OTHER}\n{OTHER}"), format!("\n{ID}\n")),
        (format!("{OTHER}\r\n"), format!("{ID}\r\n")),
        (format!("{OTHER}\r\n{OTHER}"), format!("\r\n{ID}\r\n")),
        (format!("{OTHER}\r\n{OTHER}\n"), format!("{ID}\n")),
        (format!("{OTHER}\n{OTHER}\r\n"), format!("{ID}\r\n")),
        (format!("{OTHER}\n{OTHER}\r\n{OTHER}"), format!("\r\n{ID}\r\n")),
        (OTHER.to_string(), ID.to_string()),
        (OTHER.repeat(3), ID.to_string()),
    ];
    for (before, added) in cases {
        write(folder.join("ids"), &before);
        fs::set_permissions(folder.join("ids"), fs::Permissions::from_mode(0o640)).expect("the mode is set");
        let inode = fs::metadata(folder.join("ids")).expect("it is there").ino();
        assert_eq!(cut(&folder, "").0, 0, "{before:?}");
        assert_eq!(text(folder.join("ids")), format!("{before}{added}"), "{before:?}");
        assert_eq!(cut(&folder, ""), used(), "{before:?}");
        let found = fs::metadata(folder.join("ids")).expect("it is there");
        assert_eq!((found.ino(), found.mode() & 0o7777), (inode, 0o640), "{before:?}");
    }
}

#[test]
fn a_refused_run_leaves_no_trace() {
    let folder = place("recorded-refused");
    write(folder.join("wrong.csv"), "JAHISTC03,2\r\n");
    write(folder.join("more"), ID);
    let runs = [
        (format!("--capacity 69 --id {ID} wrong.csv"), 1, "wrong.csv: no 3 1: version\n"),
        ("--capacity 69 --id 1 a.csv".into(), 2, "a.csv: no 17 0: ID\n"),
        (format!("--capacity 3 --id {ID} a.csv"), 2, "a.csv: no 18 0: no cutting\n"),
        (format!("--capacity 69 --id {ID} --used more a.csv"), 2, "a.csv: no 24 0: used\n"),
        (
            format!("--capacity 69 --id {OTHER} nothing.csv"),
            2,
            "notebook: nothing.csv: No such file or directory (os error 2)\n",
        ),
    ];
    for before in [None, Some(""), Some(OTHER), Some("00000000000001\n00000000000002")] {
        let _ = fs::remove_file(folder.join("ids"));
        if let Some(before) = before {
            write(folder.join("ids"), before);
        }
        for (words, status, err) in &runs {
            let told = shell(&folder, &format!("notebook cut --record-used ids --prefix p- {words}"));
            assert_eq!(told, (*status, "".into(), err.to_string()), "{before:?} {words}");
            assert_eq!(fs::read_to_string(folder.join("ids")).ok().as_deref(), before, "{words}");
        }
    }
    // Nor is it asked whether the file could be made.
    for (words, status, err) in &runs {
        let told = shell(&folder, &format!("notebook cut --record-used no/ids --prefix p- {words}"));
        assert_eq!(told, (*status, "".into(), err.to_string()), "{words}");
    }
    assert_eq!(names(&folder), ["a.csv", "ids", "more", "wrong.csv"]);
}

#[test]
fn an_id_whose_pieces_could_not_be_written_is_burnt() {
    let folder = place("recorded-burnt");
    // There is room for the ID, and for no piece.
    write(folder.join("ids"), "");
    write(folder.join("long.csv"), notes(200));
    let line = format!("notebook cut --capacity 65536 --id {ID} --record-used ids --prefix p- long.csv");
    let error = "notebook: p-1: File too large (os error 27)\n";
    assert_eq!(shell(&folder, &format!("ulimit -f 1; {line}")), (2, "".into(), error.into()));
    assert_eq!(shell(&folder, &line), (2, "".into(), "long.csv: no 24 0: used\n".into()));
    for (at, output) in [">/dev/full", ">&-"].into_iter().enumerate() {
        let line = format!("notebook cut --capacity 69 --id 0000000000000{at} --record-used ids a.csv");
        let (status, out, err) = shell(&folder, &format!("{line} {output}"));
        assert_eq!((status, &out[..]), (2, ""), "{output}");
        assert!(err.starts_with("notebook: standard output: "), "{err}");
        assert_eq!(shell(&folder, &line), used(), "{output}");
    }
    assert_eq!(text(folder.join("ids")), format!("{ID}\n00000000000000\n00000000000001\n"));
    assert_eq!(names(&folder), ["a.csv", "ids", "long.csv"]);
}

/// The name that p-3 has until it is whole.
const PART: &str = ".notebook-787b2319570ce4af.part";

/// A run that a file stops before its ID is recorded: nothing is made, and the ID serves for other names.
fn stopped(folder: &Path, prefix: &str, error: &str) {
    for before in [None, Some(""), Some("12345678901235\n"), Some(OTHER)] {
        let _ = fs::remove_file(folder.join("ids"));
        if let Some(before) = before {
            write(folder.join("ids"), before);
        }
        let there = names(folder);
        let told = cut(folder, &format!("--prefix {prefix}"));
        assert_eq!(told, (2, "".into(), format!("notebook: {error}\n")), "{before:?}");
        assert_eq!(fs::read_to_string(folder.join("ids")).ok().as_deref(), before, "{error}");
        assert_eq!(names(folder), there, "{error}");
    }
    assert_eq!(cut(folder, "--prefix q-").0, 0, "{error}");
    assert_eq!(cut(folder, "--prefix r-"), used(), "{error}");
    names(folder).iter().filter(|name| name.starts_with("q-")).for_each(|name| {
        fs::remove_file(folder.join(name)).expect("it is removed");
    });
}

#[test]
fn names_in_the_way_use_up_no_id() {
    let folder = place("recorded-names");
    write(folder.join("p-4"), "another file");
    stopped(&folder, "p-", "p-4: already exists");
    fs::remove_file(folder.join("p-4")).expect("it is removed");
    symlink("nowhere", folder.join("p-4")).expect("a link is made");
    stopped(&folder, "p-", "p-4: already exists");
    fs::remove_file(folder.join("p-4")).expect("it is removed");
    stopped(&folder, "no/p-", "no/p-1: No such file or directory (os error 2)");
    stopped(&folder, "a.csv/p-", "a.csv/p-1: Not a directory (os error 20)");
    write(folder.join(PART), "another file");
    stopped(&folder, "p-", &format!("p-3: ./{PART}: in the way, and no part of this file"));
    write(folder.join(PART), "");
    let held = locked(folder.join(PART));
    stopped(&folder, "p-", "p-3: in use by another run");
    drop(held);
    // What a killed run has left is taken over, and names that have the bytes already count as written.
    fs::remove_file(folder.join("ids")).expect("it is removed");
    assert_eq!(cut(&folder, "--prefix p-").0, 0);
    assert_eq!(names(&folder), ["a.csv", "ids", "p-1", "p-2", "p-3", "p-4", "p-5", "p-6"]);
    fs::remove_file(folder.join("ids")).expect("it is removed");
    assert_eq!(cut(&folder, "--prefix p-").0, 0);
    assert_eq!(text(folder.join("ids")), format!("{ID}\n"));
    // Pieces of another ID never do, but for the one piece that has no ID.
    let again = |words: &str| shell(&folder, &format!("notebook cut --record-used ids --id {OTHER} {words} a.csv"));
    let error = "{\"file\":\"p-1\",\"error\":\"already exists\"}\n";
    assert_eq!(again("--capacity 69 --prefix p- --json"), (2, "".into(), error.into()));
    assert_eq!(text(folder.join("ids")), format!("{ID}\n"));
    assert_eq!(shell(&folder, "notebook cut --capacity 999 --id 00000000000001 --prefix one- a.csv").0, 0);
    assert_eq!(again("--capacity 999 --prefix one-").0, 0);
    assert_eq!(text(folder.join("ids")), format!("{ID}\n{OTHER}\n"));
}

#[test]
fn folders_that_must_not_be_written_use_up_no_id() {
    let folder = place("recorded-folders");
    fs::create_dir(folder.join("sub")).expect("a folder is made");
    // One that must not be read can't be synced.
    for mode in [0o500, 0o300, 0o600] {
        fs::set_permissions(folder.join("sub"), fs::Permissions::from_mode(mode)).expect("the mode is set");
        let line = format!("'{}' cut --capacity 69 --id {ID} a.csv --prefix sub/p-", env!("CARGO_BIN_EXE_notebook"));
        let without = "setpriv --bounding-set=-dac_override,-dac_read_search";
        for words in ["", "--record-used ids"] {
            let told = shell(&folder, &format!("test $(id -u) = 0 && without='{without}'; $without {line} {words}"));
            let error = "notebook: sub/p-1: Permission denied (os error 13)\n";
            assert_eq!(told, (2, "".into(), error.into()), "{mode:o} {words}");
        }
        fs::set_permissions(folder.join("sub"), fs::Permissions::from_mode(0o700)).expect("the mode is set");
        assert_eq!(names(&folder), ["a.csv", "sub"], "{mode:o}");
        assert_eq!(names(&folder.join("sub")), [""; 0], "{mode:o}");
    }
    assert_eq!(cut(&folder, "--prefix sub/p-").0, 0);
}

#[test]
fn a_file_that_a_piece_would_be() {
    let folder = place("recorded-piece");
    // The last is as long as the piece.
    let long = format!("{OTHER}\n{OTHER}\n{OTHER}\n{OTHER}\r\n");
    for before in [None, Some(""), Some("12345678901235\n"), Some(&long[..])] {
        for name in ["p-1", "p-6"] {
            if let Some(before) = before {
                write(folder.join(name), before);
            }
            let line = format!("notebook cut --capacity 69 --id {ID} --record-used {name} --prefix p- a.csv");
            let told = (2, "".into(), format!("notebook: {name}: already exists\n"));
            assert_eq!([shell(&folder, &line), shell(&folder, &line)], [told.clone(), told], "{before:?}");
            assert_eq!(fs::read_to_string(folder.join(name)).ok().as_deref(), before, "{name}");
            let _ = fs::remove_file(folder.join(name));
            assert_eq!(names(&folder), ["a.csv"], "{name}");
        }
    }
}

#[test]
fn an_id_that_can_not_be_written_leaves_the_file_as_it_was() {
    let folder = place("recorded-full");
    // The shell counts blocks of 512 bytes: there is room for a part of the ID, for its line end alone, or for nothing.
    let run = OTHER.repeat(36);
    let cases = [
        (format!("{OTHER}\n").repeat(34), "only 2 of 15 bytes could be written"),
        (run.clone(), "only 8 of 14 bytes could be written"),
        (format!("{OTHER}\n").repeat(33) + OTHER, "only 3 of 16 bytes could be written"),
        (format!("{OTHER}\r\n").repeat(32), "File too large (os error 27)"),
    ];
    for (before, error) in cases {
        write(folder.join("ids"), &before);
        for words in ["", "--prefix p-"] {
            let expected = (2, "".into(), format!("notebook: ids: {error}\n"));
            assert_eq!(limited(&folder, 1, words), expected, "{words}");
            assert_eq!(text(folder.join("ids")), before);
            assert_eq!(names(&folder), ["a.csv", "ids"]);
        }
        assert_eq!(limited(&folder, 2, "").0, 0, "there is room");
        assert_eq!(cut(&folder, ""), used());
    }
    // A file that was made for it goes.
    fs::remove_file(folder.join("ids")).expect("it is removed");
    assert_eq!(limited(&folder, 0, ""), (2, "".into(), "notebook: ids: File too large (os error 27)\n".into()));
    assert_eq!(names(&folder), ["a.csv"]);
    write(folder.join("ids"), "");
    assert_eq!(limited(&folder, 0, "").0, 2);
    assert_eq!(text(folder.join("ids")), "");
}

#[test]
fn no_memory_for_the_ids() {
    let folder = place("recorded-memory");
    write(folder.join("ids"), OTHER.repeat(2_000_000));
    let cases = [
        (20_000, "--record-used ids", "ids"),
        (20_000, "--used ids --record-used new", "ids"),
        // There is memory for the IDs once, and the new file goes.
        (50_000, "--used ids --record-used new", "new"),
    ];
    for (kilobytes, words, name) in cases {
        let line = format!("ulimit -v {kilobytes}; notebook cut --capacity 69 --id {ID} {words} --prefix p- a.csv");
        assert_eq!(shell(&folder, &line), (2, "".into(), format!("notebook: {name}: out of memory\n")), "{line}");
        assert_eq!(names(&folder), ["a.csv", "ids"], "{line}");
    }
    assert_eq!(fs::metadata(folder.join("ids")).expect("it is there").len(), 28_000_000);
    fs::remove_file(folder.join("ids")).expect("it is removed");
}

/// A cut where files have at most so many blocks.
fn limited(folder: &Path, blocks: usize, words: &str) -> (i32, String, String) {
    shell(folder, &format!("ulimit -f {blocks}; notebook cut --capacity 69 --id {ID} --record-used ids {words} a.csv"))
}

#[test]
fn a_full_file_is_not_made_longer() {
    let folder = place("recorded-most");
    // 67,108,860 bytes: one more ID would make a file that can't be read.
    write(folder.join("ids"), vec![b'0'; 67_108_860]);
    let error = "notebook: ids: no room for one more ID in 67108864 bytes\n";
    assert_eq!(cut(&folder, ""), (2, "".into(), error.into()));
    assert_eq!(fs::metadata(folder.join("ids")).expect("it is there").len(), 67_108_860);
    fs::remove_file(folder.join("ids")).expect("it is removed");
}

#[test]
fn files_that_can_not_be_recorded_in() {
    let folder = place("recorded-failures");
    fs::create_dir(folder.join("sub")).expect("a folder is made");
    symlink("nowhere", folder.join("lost")).expect("a link is made");
    symlink("circle", folder.join("circle")).expect("a link is made");
    assert_eq!(shell(&folder, "mkfifo pipe").0, 0);
    let before = names(&folder);
    let cases = [
        ("sub", "sub: Is a directory (os error 21)"),
        (".", ".: Is a directory (os error 21)"),
        ("no/ids", "no/ids: No such file or directory (os error 2)"),
        ("a.csv/ids", "a.csv/ids: Not a directory (os error 20)"),
        ("lost", "lost: a symbolic link that leads to no file"),
        ("circle", "circle: Too many levels of symbolic links (os error 40)"),
        ("pipe", "pipe: not a regular file"),
        ("/dev/full", "/dev/full: not a regular file"),
        (".notebook-af63dc4c8601ec8c.part", ".notebook-af63dc4c8601ec8c.part: named like a part that a run has left"),
        ("a.csv", "a.csv: line 1 is not 14 digits"),
    ];
    for (path, error) in cases {
        let told = shell(&folder, &format!("notebook cut --capacity 69 --id {ID} --record-used {path} --prefix p- a.csv"));
        assert_eq!(told, (2, "".into(), format!("notebook: {error}\n")), "{path}");
        assert_eq!(names(&folder), before, "{path}");
    }
    assert_eq!(fs::read(folder.join("a.csv")).expect("it is there"), notes(20));
}

#[test]
fn files_that_must_not_be_written() {
    let folder = place("recorded-permissions");
    let read_only = |name: &str, mode| {
        fs::set_permissions(folder.join(name), fs::Permissions::from_mode(mode)).expect("the mode is set");
    };
    fs::create_dir(folder.join("sub")).expect("a folder is made");
    write(folder.join("ids"), OTHER);
    read_only("ids", 0o400);
    read_only("sub", 0o500);
    for path in ["ids", "sub/ids"] {
        // Modes bind the superuser too without this capability.
        let line = format!("'{}' cut --capacity 69 --id {ID} --record-used {path} a.csv", env!("CARGO_BIN_EXE_notebook"));
        let line = format!("test $(id -u) = 0 && without='setpriv --bounding-set=-dac_override'; $without {line}");
        let error = format!("notebook: {path}: Permission denied (os error 13)\n");
        assert_eq!(shell(&folder, &line), (2, "".into(), error));
    }
    // It may be read all the same.
    assert_eq!(shell(&folder, &format!("notebook cut --capacity 69 --id {ID} --used ids a.csv")).0, 0);
    assert_eq!(text(folder.join("ids")), OTHER);
    read_only("sub", 0o700);
    assert_eq!(names(&folder.join("sub")), [""; 0]);
}

#[test]
fn files_in_folders_that_must_not_be_read() {
    let folder = place("recorded-unread");
    let sub = folder.join("sub");
    fs::create_dir(&sub).expect("a folder is made");
    write(sub.join("ids"), "");
    fs::set_permissions(&sub, fs::Permissions::from_mode(0o300)).expect("the mode is set");
    let cut = |id: &str, path: &str| {
        let line = format!("'{}' cut --capacity 69 --id {id} --record-used {path} a.csv", env!("CARGO_BIN_EXE_notebook"));
        let without = "setpriv --bounding-set=-dac_override,-dac_read_search";
        shell(&folder, &format!("test $(id -u) = 0 && without='{without}'; $without {line}"))
    };
    // The folder can't be synced. A file that others have made is as good as they have made it; a new one would not be kept.
    assert_eq!([ID, OTHER].map(|id| cut(id, "sub/ids").0), [0, 0]);
    assert_eq!(cut(ID, "sub/new"), (2, "".into(), "notebook: sub/new: Permission denied (os error 13)\n".into()));
    fs::set_permissions(&sub, fs::Permissions::from_mode(0o700)).expect("the mode is set");
    assert_eq!(text(sub.join("ids")), format!("{ID}\n{OTHER}\n"));
    assert_eq!(names(&sub), ["ids"]);
}

#[test]
fn a_file_that_standard_output_leads_to() {
    let folder = place("recorded-output");
    let before = format!("{OTHER}\n");
    write(folder.join("ids"), &before);
    symlink("ids", folder.join("link")).expect("a link is made");
    let cases = [
        ("--record-used ids >> ids", "ids"),
        ("--record-used ids 1<> ids", "ids"),
        ("--record-used ids --prefix p- >> ids", "ids"),
        ("--record-used link --json >> ids", "link"),
        ("--record-used /dev/stdout 1<> ids", "/dev/stdout"),
        ("--used ids >> ids", "ids"),
        ("--used - < ids >> ids", "-"),
        ("--used ids --record-used new 1<> ids", "ids"),
    ];
    for (words, name) in cases {
        let (status, _, err) = shell(&folder, &format!("notebook cut --capacity 69 --id {ID} a.csv {words}"));
        assert_eq!(status, 2, "{words}");
        assert!(err.contains(name) && err.contains("standard output leads to this file"), "{words}: {err}");
        assert_eq!(text(folder.join("ids")), before, "{words}");
    }
    assert_eq!(names(&folder), ["a.csv", "ids", "link"]);
    // Other files may be one.
    assert_eq!(shell(&folder, &format!("notebook cut --capacity 69 --id {ID} a.csv --used - </dev/null >/dev/null")).0, 0);
}

#[test]
fn a_link_to_a_file() {
    let folder = place("recorded-link");
    write(folder.join("other"), format!("{OTHER}\n"));
    symlink("other", folder.join("ids")).expect("a link is made");
    assert_eq!(cut(&folder, "").0, 0);
    assert_eq!(text(folder.join("other")), format!("{OTHER}\n{ID}\n"));
    assert!(fs::symlink_metadata(folder.join("ids")).expect("it is there").is_symlink());
    assert_eq!(cut(&folder, ""), used());
}

// ---- At the same time

/// A cut that goes on by itself.
fn start(folder: &Path, id: &str) -> Child {
    Command::new(env!("CARGO_BIN_EXE_notebook"))
        .args(["cut", "--capacity", "69", "--id", id, "--record-used", "ids", "a.csv"])
        .current_dir(folder)
        .stdout(Stdio::piped())
        .stderr(Stdio::piped())
        .spawn()
        .expect("the command starts")
}

fn ended(child: Child) -> (i32, String, String) {
    told(child.wait_with_output().expect("the command ends"))
}

#[test]
fn one_id_is_cut_with_once() {
    let folder = place("recorded-one");
    let pieces = shell(&folder, &format!("notebook cut --capacity 69 --id {ID} a.csv"));
    for before in [None, Some(format!("{OTHER}\n")), Some(OTHER.to_string())] {
        for round in 0..40 {
            let _ = fs::remove_file(folder.join("ids"));
            if let Some(before) = &before {
                write(folder.join("ids"), before);
            }
            let runs: Vec<Child> = (0..2 + round % 3).map(|_| start(&folder, ID)).collect();
            let (won, lost): (Vec<_>, Vec<_>) = runs.into_iter().map(ended).partition(|told| told.0 == 0);
            assert_eq!(won, [pieces.clone()], "{before:?} {round}");
            assert!(lost.iter().all(|told| *told == used()), "{lost:?}");
            let ids = text(folder.join("ids"));
            assert_eq!(ids.matches(ID).count(), 1, "{ids:?}");
            assert!(ids.starts_with(before.as_deref().unwrap_or("")) && ids.len() < 31, "{ids:?}");
        }
    }
}

#[test]
fn many_ids_are_all_recorded() {
    let folder = place("recorded-many");
    let all: Vec<String> = (0..120).map(|number| format!("{number:014}")).collect();
    for end in ["\n", "\r\n", ""] {
        let first = format!("{OTHER}{end}");
        write(folder.join("ids"), &first);
        if end == "\n" {
            fs::remove_file(folder.join("ids")).expect("it is removed");
        }
        for some in all.chunks(20) {
            let runs: Vec<Child> = some.iter().map(|id| start(&folder, id)).collect();
            runs.into_iter().for_each(|run| assert_eq!(ended(run).0, 0));
        }
        let ids = text(folder.join("ids"));
        let recorded = ids.strip_prefix(&first).unwrap_or(&ids);
        let mut found: Vec<String> =
            recorded.as_bytes().chunks(14 + end.len()).map(|id| String::from_utf8_lossy(id).into()).collect();
        found.sort();
        let expected: Vec<String> = all.iter().map(|id| format!("{id}{end}")).collect();
        assert_eq!(found, expected, "{end:?}");
    }
}

#[test]
fn runs_that_fail_take_no_id_of_others_away() {
    let folder = place("recorded-among");
    // Every second run makes the file, can't write, and removes it, if no other has recorded in it.
    let line = |k| {
        let limit = if k % 2 == 0 { "ulimit -f 0; " } else { "" };
        format!("({limit}notebook cut --capacity 69 --id {k:014} --record-used ids a.csv >/dev/null 2>&1) &")
    };
    let lines: String = (0..8).map(line).collect();
    for round in 0..20 {
        let _ = fs::remove_file(folder.join("ids"));
        assert_eq!(shell(&folder, &format!("{lines} wait")).0, 0);
        let mut ids: Vec<String> = text(folder.join("ids")).lines().map(str::to_string).collect();
        ids.sort();
        assert_eq!(ids, ["00000000000001", "00000000000003", "00000000000005", "00000000000007"], "{round}");
    }
}

/// Waits until a run has opened the file `ids`, which another has locked.
fn wait_for_lock(folder: &Path, run: &Child) {
    let ids = fs::canonicalize(folder.join("ids")).expect("it is there");
    let has_it = || {
        let open = fs::read_dir(format!("/proc/{}/fd", run.id())).into_iter().flatten().flatten();
        open.map(|entry| fs::read_link(entry.path())).any(|target| target.is_ok_and(|target| target == ids))
    };
    let mut waits = (0..2_000).map(|_| std::thread::sleep(std::time::Duration::from_millis(10)));
    assert!(waits.any(|()| has_it()), "the run opens the file");
}

fn locked(path: PathBuf) -> File {
    let file = OpenOptions::new().append(true).open(path).expect("it is there");
    file.lock().expect("it is locked");
    file
}

#[test]
fn a_run_waits_for_the_lock() {
    let folder = place("recorded-wait");
    for id_of_other in ["00000000000001", ID] {
        write(folder.join("ids"), format!("{OTHER}\n"));
        let held = locked(folder.join("ids"));
        let mut run = start(&folder, ID);
        wait_for_lock(&folder, &run);
        assert!(run.try_wait().expect("it can be asked").is_none(), "it waits");
        // What was recorded while it waited counts.
        write(folder.join("ids"), format!("{OTHER}\n{id_of_other}\n"));
        held.unlock().expect("it is unlocked");
        let told = ended(run);
        if id_of_other == ID {
            assert_eq!(told, used());
        } else {
            assert_eq!(told.0, 0);
            assert_eq!(text(folder.join("ids")), format!("{OTHER}\n{id_of_other}\n{ID}\n"));
        }
    }
}

#[test]
fn a_file_that_is_replaced_while_a_run_waits() {
    let folder = place("recorded-replaced");
    // What stands in the place of the file, and what it has in the end; nothing where it was removed.
    let cases = [
        (Some("00000000000001".to_string()), Ok(format!("00000000000001{ID}"))),
        (Some(format!("{OTHER}\n{ID}\n")), Err(())),
        (None, Ok(format!("{ID}\n"))),
    ];
    for (new, expected) in cases {
        write(folder.join("ids"), format!("{OTHER}\n"));
        fs::hard_link(folder.join("ids"), folder.join("old")).expect("it has a second name");
        let held = locked(folder.join("ids"));
        let run = start(&folder, ID);
        wait_for_lock(&folder, &run);
        match &new {
            Some(new) => {
                write(folder.join("new"), new);
                fs::rename(folder.join("new"), folder.join("ids")).expect("it is replaced");
            }
            None => fs::remove_file(folder.join("ids")).expect("it is removed"),
        }
        held.unlock().expect("it is unlocked");
        let told = ended(run);
        assert_eq!(text(folder.join("old")), format!("{OTHER}\n"), "{new:?}");
        match expected {
            Ok(ids) => assert_eq!((told.0, text(folder.join("ids"))), (0, ids)),
            Err(()) => assert_eq!((told, Some(text(folder.join("ids")))), (used(), new)),
        }
        fs::remove_file(folder.join("old")).expect("it is removed");
    }
}
