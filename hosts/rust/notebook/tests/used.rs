//! Files of IDs that have been used: the command reads them in both forms, and refuses an ID that is among them.

mod shared;

use shared::*;
use std::fs::{self, File};
use std::path::{Path, PathBuf};

const OTHER: &str = "12345678901235";
const LAST: &str = "00000000000000";

/// `{file}: no 24 0: used` and so on: what a refused run tells.
fn refused(refusal: &str) -> (i32, String, String) {
    (2, "".into(), format!("a.csv: no {refusal}\n"))
}

/// A folder with a file a.csv that is cut into six pieces of at most 69 bytes.
fn place(name: &str) -> PathBuf {
    let folder = folder(name);
    write(folder.join("a.csv"), notes(20));
    folder
}

/// The answer of cut with these words more.
fn cut(folder: &Path, words: &str) -> (i32, String, String) {
    shell(folder, &format!("notebook cut --capacity 69 --id {ID} {words} a.csv"))
}

#[test]
fn both_forms_are_read() {
    let folder = place("used-forms");
    let pieces = cut(&folder, "");
    assert_eq!((pieces.0, pieces.1.len(), &pieces.2[..]), (0, 404, ""));
    // What the file has, and whether the ID is among it.
    let cases = [
        ("".to_string(), false),
        (format!("{OTHER}\n{LAST}\n"), false),
        (format!("{OTHER}\n{ID}\n"), true),
        (format!("{ID}\n{OTHER}\n"), true),
        (format!("{OTHER}\n{ID}"), true),
        (format!("{OTHER}\r\n{ID}\r\n{LAST}\r\n"), true),
        (format!("{OTHER}\r\n{ID}"), true),
        (format!("{OTHER}\n{ID}\r\n{LAST}"), true),
        (format!("{OTHER}\n{OTHER}\n{OTHER}"), false),
        (OTHER.to_string(), false),
        (ID.to_string(), true),
        (format!("{OTHER}{LAST}{ID}"), true),
        (format!("{ID}{LAST}{ID}{ID}"), true),
        // Across two IDs: of the run, and of the lines.
        (format!("0{ID}0000000000000"), false),
        ("00000001234567\n89012340000000\n".to_string(), false),
        // 14 lines are 15 times 14 bytes, so that the bytes themselves would be a run.
        (format!("{OTHER}\n").repeat(13) + &format!("{ID}\n"), true),
    ];
    for (bytes, is_used) in cases {
        write(folder.join("ids"), &bytes);
        let expected = if is_used { refused("24 0: used") } else { pieces.clone() };
        assert_eq!(cut(&folder, "--used ids"), expected, "{bytes:?}");
        assert_eq!(cut(&folder, "--used - < ids"), expected, "{bytes:?}");
        assert_eq!(cut(&folder, "--used /dev/stdin < ids"), expected, "{bytes:?}");
        assert_eq!(cut(&folder, "--record-used ids").0, expected.0, "{bytes:?}");
        if is_used {
            assert_eq!(fs::read_to_string(folder.join("ids")).expect("it is there"), bytes);
        }
    }
}

#[test]
fn a_file_of_used_ids_is_not_written() {
    let folder = place("used-kept");
    write(folder.join("ids"), OTHER);
    let before = fs::metadata(folder.join("ids")).and_then(|found| found.modified()).expect("it is there");
    assert_eq!(cut(&folder, "--used ids --prefix p-").0, 0);
    assert_eq!(cut(&folder, "--used ids --prefix q- --record-used more").0, 0);
    assert_eq!(fs::read_to_string(folder.join("ids")).expect("it is there"), OTHER);
    let after = fs::metadata(folder.join("ids")).and_then(|found| found.modified()).expect("it is there");
    assert_eq!(before, after);
    // Another run may hold it.
    let held = File::open(folder.join("ids")).expect("it is there");
    held.lock().expect("it is locked");
    assert_eq!(cut(&folder, "--used ids").0, 0);
}

#[test]
fn lines_that_are_no_ids() {
    let folder = place("used-lines");
    let cases = [
        ("\n".to_string(), "line 1"),
        (format!("{OTHER}\n\n"), "line 2"),
        (format!("{OTHER}\n\n{ID}\n"), "line 2"),
        (format!("{OTHER}\n \n"), "line 2"),
        (format!("{OTHER}\n{ID} \n"), "line 2"),
        (format!(" {OTHER}\n{ID}\n"), "line 1"),
        (format!("{OTHER}\n# used\n"), "line 2"),
        (format!("{OTHER}\n{LAST}\n1234567890123\n{ID}\n"), "line 3"),
        (format!("{OTHER}\n{LAST}\n{ID}5\n"), "line 3"),
        (format!("{OTHER}\n1234567890123x\n"), "line 2"),
        (format!("\u{feff}{OTHER}\n"), "line 1"),
        (format!("{OTHER}\n\x1a"), "line 2"),
        (format!("{OTHER}\n{ID}\r"), "line 2"),
        (format!("{OTHER}\n{ID}\r\r\n"), "line 2"),
        (format!("{OTHER}\n１２345678\n"), "line 2"),
        (format!("{OTHER}{ID}\n"), "line 1"),
        (format!("{OTHER} {ID}"), "ID 2"),
        (format!("{OTHER}\r{ID}"), "ID 2"),
        (format!("{OTHER}{ID}1"), "ID 3"),
        ("1234567890123".to_string(), "ID 1"),
        (format!("{OTHER}1234567890123x"), "ID 2"),
        (format!("\u{feff}{OTHER}"), "ID 1"),
        (format!("{OTHER}{LAST}\x1a"), "ID 3"),
    ];
    for (bytes, at) in cases {
        write(folder.join("ids"), &bytes);
        let error = format!("{at} is not 14 digits");
        for words in ["--used ids", "--record-used ids", "--used ids --prefix p-", "--record-used ids --prefix p-"] {
            let expected = (2, "".into(), format!("notebook: ids: {error}\n"));
            assert_eq!(cut(&folder, words), expected, "{bytes:?} {words}");
            let object = format!("{{\"file\":\"ids\",\"error\":\"{error}\"}}\n");
            assert_eq!(cut(&folder, &format!("--json {words}")), (2, "".into(), object), "{bytes:?} {words}");
        }
        assert_eq!(cut(&folder, "--used - < ids").2, format!("notebook: -: {error}\n"), "{bytes:?}");
        assert_eq!(cut(&folder, "--used ids --record-used new").0, 2);
        assert_eq!(names(&folder), ["a.csv", "ids"], "{bytes:?}");
        assert_eq!(fs::read_to_string(folder.join("ids")).expect("it is there"), bytes);
    }
}

#[test]
fn files_that_can_not_be_read_give_no_verdict() {
    let folder = place("used-failures");
    write(folder.join("wrong.csv"), "JAHISTC03,2\r\n");
    write(folder.join("bad"), "x\n");
    write(folder.join(".notebook-af63dc4c8601ec8c.part"), "");
    fs::create_dir(folder.join("sub")).expect("a folder is made");
    // It has no bytes on the disk.
    File::create(folder.join("large")).and_then(|file| file.set_len(67_108_865)).expect("a file is made");
    let cases = [
        ("--used nothing", "nothing: No such file or directory (os error 2)"),
        ("--used sub", "sub: Is a directory (os error 21)"),
        ("--used a.csv/ids", "a.csv/ids: Not a directory (os error 20)"),
        ("--used large", "large: more than 67108864 bytes"),
        ("--used /dev/zero", "/dev/zero: more than 67108864 bytes"),
        ("--used bad", "bad: line 1 is not 14 digits"),
        ("--used -  <&-", "-: Bad file descriptor (os error 9)"),
        ("--used - < sub", "-: Is a directory (os error 21)"),
        (
            "--used .notebook-af63dc4c8601ec8c.part",
            ".notebook-af63dc4c8601ec8c.part: named like a part that a run has left",
        ),
        ("--record-used sub", "sub: Is a directory (os error 21)"),
        ("--record-used large", "large: more than 67108864 bytes"),
        ("--record-used bad", "bad: line 1 is not 14 digits"),
        ("--record-used /dev/null", "/dev/null: not a regular file"),
    ];
    let before = names(&folder);
    for (words, error) in cases {
        // Neither the file, nor the ID, nor the capacity is judged.
        for (capacity, id, file) in [(69, ID, "a.csv"), (69, ID, "wrong.csv"), (3, "1", "a.csv")] {
            let line = format!("notebook cut --capacity {capacity} --id {id} --prefix p- {file} {words}");
            assert_eq!(shell(&folder, &line), (2, "".into(), format!("notebook: {error}\n")), "{line}");
        }
    }
    let line = format!("notebook cut --capacity 69 --id {ID} --used bad nothing.csv");
    assert_eq!(shell(&folder, &line).0, 2);
    assert_eq!(names(&folder), before);
}

#[test]
fn the_order_of_refusals() {
    let folder = place("used-order");
    write(folder.join("wrong.csv"), "JAHISTC03,2\r\n");
    write(folder.join("small.csv"), SMALL);
    write(folder.join("ids"), format!("{OTHER}\n{ID}\n"));
    write(folder.join("others"), format!("{OTHER}\n"));
    let cases = [
        ("3", ID, "wrong.csv", "3 1: version", 1),
        ("3", "1", "a.csv", "17 0: ID", 2),
        ("3", "1234567890123x", "a.csv", "17 0: ID", 2),
        ("3", ID, "a.csv", "24 0: used", 2),
        ("69", ID, "a.csv", "24 0: used", 2),
        // One piece serves.
        ("65536", ID, "a.csv", "24 0: used", 2),
        ("3", "00000000000001", "a.csv", "18 0: no cutting", 2),
        ("60", ID, "small.csv", "24 0: used", 2),
    ];
    for (capacity, id, file, refusal, status) in cases {
        for words in
            ["--used ids", "--record-used ids", "--used others --record-used ids", "--used ids --record-used others"]
        {
            let line = format!("notebook cut --capacity {capacity} --id {id} {words} {file}");
            assert_eq!(shell(&folder, &line), (status, "".into(), format!("{file}: no {refusal}\n")), "{line}");
        }
        // The ID is known before the file is made.
        let line = format!("notebook cut --capacity {capacity} --id {id} --used ids --record-used new {file}");
        assert_eq!(shell(&folder, &line), (status, "".into(), format!("{file}: no {refusal}\n")), "{line}");
    }
    assert_eq!(names(&folder), ["a.csv", "ids", "others", "small.csv", "wrong.csv"]);
    assert_eq!(fs::read_to_string(folder.join("ids")).expect("it is there"), format!("{OTHER}\n{ID}\n"));
    assert_eq!(fs::read_to_string(folder.join("others")).expect("it is there"), format!("{OTHER}\n"));
    let object = "{\"file\":\"sent.csv\",\"ok\":false,\"number\":24,\"word\":\"used\",\"line\":0}\n";
    assert_eq!(cut(&folder, "--json --name sent.csv --used ids"), (2, "".into(), object.into()));
}

#[test]
fn options_of_used_ids() {
    let folder = place("used-options");
    let cases = [
        ("--used - -", "standard input can be read only once"),
        ("--record-used - a.csv", "--record-used is a file, not standard input"),
        ("--record-used=- a.csv", "--record-used is a file, not standard input"),
        ("--used ids --used ids a.csv", "--used is given twice"),
        ("--record-used ids --record-used ids a.csv", "--record-used is given twice"),
        ("a.csv --used", "--used needs a value"),
        ("a.csv --record-used", "--record-used needs a value"),
        ("--used '' a.csv", "--used needs a value"),
        ("--record-used= a.csv", "--record-used needs a value"),
    ];
    for (words, message) in cases {
        let told = shell(&folder, &format!("notebook cut --capacity 69 --id {ID} {words}"));
        assert_eq!(told, (2, "".into(), format!("notebook: {message}\nTry `notebook --help`.\n")), "{words}");
    }
    for call in ["check", "index", "canonical", "join"] {
        for option in ["--used", "--record-used"] {
            let message = format!("notebook: {call} has no option {option}\nTry `notebook --help`.\n");
            assert_eq!(shell(&folder, &format!("notebook {call} {option} ids a.csv")), (2, "".into(), message));
        }
    }
    assert_eq!(names(&folder), ["a.csv"]);
    let (_, help, _) = shell(&folder, "notebook --help");
    assert!(help.contains("[--used FILE] [--record-used FILE]") && help.contains("24 used"), "{help}");
}
