//! Document 02's rule of kana names, through the crate and through the command: "Files refused for this have no canonical file
//! and no cutting."

mod shared;

use notebook::{Reason, Refusal, Used};
use shared::*;
use std::fs;

/// あー　あ, アー　ア, half-width kana with letters, and ー alone.
const GOOD: [&[u8]; 6] = [
    b"",
    b"\x82\xA0\x81\x5B\x81\x40\x82\xA0",
    b"\x83\x41\x81\x5B\x81\x40\x83\x41",
    b"\xB1\xB0 Aa",
    b"\x81\x5B",
    b"\x81\x5B\x81\x40\x81\x5B",
];

/// Hiragana with katakana, also with ー between; kana with letters, with a full-width digit, with a Greek letter, with the
/// middle dot, with a kanji; ー with half-width kana; a kanji alone.
const MIXED: [&[u8]; 9] = [
    b"\x82\xA0\x83\x41",
    b"\x83\x41\x81\x5B\x82\xA0",
    b"\x82\xA0A",
    b"\x82\xA0\x82\x4F",
    b"\x83\x41\x83\x9F",
    b"\x83\x41\x81\x45\x83\x41",
    b"\x83\x41\x8A\xBF",
    b"\xB1\x81\x5B",
    b"\x8A\xBF",
];

/// A patient with this kana name, the last item, and eight notes.
fn with_name(name: &[u8]) -> Vec<u8> {
    [b"JAHISTC04,2\r\n1,A,1,H010108,,,,,,,", name, b"\r\n", &b"4,x,,2\r\n".repeat(8)].concat()
}

/// The same as pieces, the one with the patient behind the other: its record 1 is line 2 of the joined file.
fn in_pieces(name: &[u8]) -> Vec<u8> {
    let mark = |k| format!("911,{ID},2,{k}\r\n");
    let first = [b"JAHISTC04,2\r\n1,A,1,H010108,,,,,,,", name, b"\r\n", mark(1).as_bytes()].concat();
    [b"JAHISTC04,2\r\n", &b"4,x,,2\r\n".repeat(8)[..], mark(2).as_bytes(), &first].concat()
}

#[test]
fn the_crate_takes_names_of_one_script() {
    for name in GOOD {
        let file = with_name(name);
        assert_eq!(notebook::check(&file).map(|counts| counts.records), Ok(9), "{name:X?}");
        assert_eq!(notebook::canonical(&file), Ok(file.clone()), "{name:X?}");
        assert_eq!(notebook::join(&in_pieces(name)), Ok(file.clone()), "{name:X?}");
        // The patient and three notes fill the first piece.
        let cut = notebook::cut(&file, 83 + name.len() as u64, ID, &Used::new()).expect("the file can be cut");
        assert_eq!((cut.len(), notebook::join(cut.as_bytes())), (2, Ok(file)), "{name:X?}");
    }
}

#[test]
fn the_crate_refuses_mixed_names_in_every_call() {
    let refusal = Refusal { reason: Reason::Form, line: 2 };
    for name in MIXED {
        let file = with_name(name);
        assert_eq!(notebook::check(&file).unwrap_err(), refusal, "{name:X?}");
        assert_eq!(notebook::index(&file).unwrap_err(), refusal, "{name:X?}");
        assert_eq!(notebook::canonical(&file).unwrap_err(), refusal, "{name:X?}");
        // Before the ID and the capacity, too.
        for (capacity, id) in [(1_000, ID), (69, ID), (0, ""), (0, ID)] {
            assert_eq!(notebook::cut(&file, capacity, id, &Used::new()).unwrap_err(), refusal, "{name:X?}");
        }
        assert_eq!(notebook::join(&file).unwrap_err(), refusal, "{name:X?}");
        assert_eq!(notebook::join(&in_pieces(name)).unwrap_err(), refusal, "{name:X?}");
        let mut out = [b'?'; 300];
        assert_eq!(notebook::canonical_into(&file, &mut out), Err(refusal), "{name:X?}");
        assert!(notebook::cut_into(&file, 1_000, ID, &Used::new(), &mut out).is_err(), "{name:X?}");
        assert_eq!(notebook::join_into(&file, &mut out), Err(refusal), "{name:X?}");
        assert_eq!(out, [b'?'; 300], "{name:X?}");
    }
}

#[test]
fn length_and_ends_come_before_the_script() {
    let refusal = |name: &[u8]| notebook::check(&with_name(name)).map_err(|refusal| refusal.to_string()).err();
    assert_eq!(refusal(&b"\x83\x41".repeat(20)), None);
    assert_eq!(refusal(&b"\x83\x41".repeat(21)), Some("no 9 2: long".to_string()));
    assert_eq!(refusal(&b"\x82\xA0\x83\x41\xB1".repeat(9)), Some("no 9 2: long".to_string()));
    assert_eq!(refusal(b"\x81\x40"), Some("no 10 2: edge".to_string()));
    assert_eq!(refusal(b"\x82\xA0\x83\x41\x81\x40"), Some("no 10 2: edge".to_string()));
    assert_eq!(refusal(b"\x82\xA0\x83\x41\x82\xF2"), Some("no 4 2: character".to_string()));
    // The name itself, the first item, may have both.
    assert!(notebook::check(b"JAHISTC04,2\r\n1,\x82\xA0\x83\x41,1,H010108,,,,,,,\r\n").is_ok());
}

#[test]
fn the_command_refuses_a_mixed_name_and_writes_nothing() {
    let folder = folder("kana");
    fs::create_dir(folder.join("in")).expect("a folder is made");
    let good = with_name(GOOD[2]);
    write(folder.join("in/good.csv"), &good);
    write(folder.join("in/mixed.csv"), with_name(MIXED[0]));
    write(folder.join("pieces"), in_pieces(MIXED[0]));
    let line = "in/mixed.csv: no 11 2: form\n";
    let told_of = |words: &[&str]| told(run_in(&folder, b"", words));

    assert_eq!(told_of(&["check", "in"]), (1, format!("in/good.csv: ok 9 0 0\n{line}"), "".into()));
    let object = "{\"file\":\"in/mixed.csv\",\"ok\":false,\"number\":11,\"word\":\"form\",\"line\":2}\n";
    assert_eq!(told_of(&["check", "--json", "in/mixed.csv"]), (1, object.into(), "".into()));
    assert_eq!(told_of(&["index", "in/mixed.csv"]), (1, line.into(), "".into()));
    assert_eq!(told_of(&["canonical", "in/mixed.csv"]), (1, "".into(), line.into()));
    assert_eq!(told_of(&["canonical", "--json", "in/mixed.csv"]), (1, "".into(), object.into()));
    let cut = ["cut", "--capacity", "69", "--id", ID];
    assert_eq!(told_of(&[&cut[..], &["in/mixed.csv"]].concat()), (1, "".into(), line.into()));
    assert_eq!(told_of(&["join", "in/mixed.csv"]), (1, "".into(), "join: no 11 2: form\n".into()));
    assert_eq!(told_of(&["join", "pieces"]), (1, "".into(), "join: no 11 2: form\n".into()));

    let before = names(&folder);
    assert_eq!(told_of(&["canonical", "--output", "c.csv", "in/mixed.csv"]), (1, "".into(), line.into()));
    let into_files = ["--record-used", "ids", "--prefix", "p-", "in/mixed.csv"];
    assert_eq!(told_of(&[&cut[..], &into_files].concat()), (1, "".into(), line.into()));
    assert_eq!(told_of(&["join", "--output", "j.csv", "pieces"]), (1, "".into(), "join: no 11 2: form\n".into()));
    assert_eq!(names(&folder), before);
    let answer = format!("in/good.csv: ok {}\n", good.len());
    assert_eq!(told_of(&["canonical", "--to", "out", "in"]), (1, answer, line.into()));
    assert_eq!(names(&folder.join("out")), ["good.csv"]);
    assert_eq!(fs::read(folder.join("out/good.csv")).expect("it is written"), good);
}
