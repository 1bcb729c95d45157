//! The command `notebook`, run on the samples and on small files.

mod shared;

use shared::*;
use std::fs;

#[test]
fn check_the_samples() {
    let answer = "samples/refused.csv: no 11 10: form\nsamples/visit.csv: ok 15 1 3\n";
    assert_eq!(run(&["check", "samples"], b""), (1, answer.into(), "".into()));
    assert_eq!(run(&["check", "samples/visit.csv"], b""), (0, "samples/visit.csv: ok 15 1 3\n".into(), "".into()));
    assert_eq!(run(&["check", "-"], SMALL), (0, "-: ok 1 0 0\n".into(), "".into()));
    assert_eq!(run(&["check", "-"], b""), (1, "-: no 2 1: line end\n".into(), "".into()));
    let json = concat!(
        "{\"file\":\"samples/refused.csv\",\"ok\":false,\"number\":11,\"word\":\"form\",\"line\":10}\n",
        "{\"file\":\"samples/visit.csv\",\"ok\":true,\"records\":15,\"groups\":1,\"drugs\":3}\n"
    );
    assert_eq!(run(&["check", "--json", "samples"], b""), (1, json.into(), "".into()));
}

#[test]
fn check_reads_no_more_than_it_needs() {
    let most = [notes(8_187), b"\x1A".to_vec()].concat();
    assert_eq!(most.len(), 65_533);
    assert_eq!(run(&["check", "-"], &most), (0, "-: ok 8188 0 0\n".into(), "".into()));
    let endless = run(&["check", "/dev/zero"], b"");
    assert_eq!(endless, (1, "/dev/zero: no 1 0: large\n".into(), "".into()));
    assert_eq!(run(&["join", "/dev/zero"], b""), (1, "".into(), "join: no 1 0: large\n".into()));
}

#[test]
fn index_a_file() {
    let (status, out, err) = run(&["index", "-"], &notes(1));
    assert_eq!((status, &out[..], &err[..]), (0, "-: ok 2\n1 13 21 0 0 0 0\n4 36 6 0 0 0 0\n", ""));
    let json = "{\"file\":\"-\",\"ok\":true,\"records\":2,\"index\":[[1,13,21,0,0,0,0],[4,36,6,0,0,0,0]]}\n";
    assert_eq!(run(&["index", "--json", "-"], &notes(1)), (0, json.into(), "".into()));
    let refused = "samples/refused.csv: no 11 10: form\n";
    assert_eq!(run(&["index", "samples/refused.csv"], b""), (1, refused.into(), "".into()));
}

/// Groups of the clinics in the lines 4, 11, 13 and 16, two of them with one institution code and the last without, and a
/// group without a clinic.
const CLINICS: &str = "JAHISTC04,2
1,A,1,19890108,,,,,,,
5,20160411,2
51,B,13,1,7654321,2
55,C,,2
201,1,D,1,g,,,2
501,E,2
5,20160410,2
201,1,F,1,g,,,2
5,20160409,2
51,G,27,1,0412345,2
5,20160408,2
51,H,13,1,7654321,2
401,I,2
5,20160407,2
51,J,,,,2
701,K,L,M,,,2
";

const INDEX_OF_CLINICS: [&str; 16] = [
    "1 13 21 0 0 0 0",
    "5 36 12 1 0 0 0",
    "51 50 19 1 0 0 4",
    "55 71 7 1 0 0 4",
    "201 80 15 1 5 0 4",
    "501 97 7 1 0 0 4",
    "5 106 12 2 0 0 0",
    "201 120 15 2 0 0 0",
    "5 137 12 3 0 0 0",
    "51 151 19 3 0 0 11",
    "5 172 12 4 0 0 0",
    "51 186 19 4 0 0 13",
    "401 207 7 4 0 0 13",
    "5 216 12 5 0 0 0",
    "51 230 9 5 0 0 16",
    "701 241 13 0 0 0 0",
];

#[test]
fn index_of_a_clinic() {
    let file = CLINICS.replace('\n', "\r\n");
    // The entries that each choice leaves, by their places.
    let cases: [(&[&str], &[usize]); 11] = [
        (&[], &[0, 1, 2, 3, 4, 5, 6, 7, 8, 9, 10, 11, 12, 13, 14, 15]),
        (&["--clinic", "4"], &[2, 3, 4, 5]),
        (&["--clinic=004"], &[2, 3, 4, 5]),
        (&["--clinic", "13"], &[11, 12]),
        (&["--clinic", "16"], &[14]),
        (&["--clinic", "3"], &[]),
        (&["--clinic", "8193"], &[]),
        (&["--clinic-code", "7654321"], &[2, 3, 4, 5, 11, 12]),
        (&["--clinic-code=0412345"], &[9]),
        (&["--clinic-code", "0000000"], &[]),
        (&["--clinic-code", "7654320"], &[]),
    ];
    for (options, places) in cases {
        let entries: Vec<&str> = places.iter().map(|&place| INDEX_OF_CLINICS[place]).collect();
        let text: String = entries.iter().map(|entry| format!("{entry}\n")).collect();
        let words = [&["index"], options, &["-"]].concat();
        assert_eq!(run(&words, file.as_bytes()), (0, format!("-: ok 16\n{text}"), "".into()), "{options:?}");
        let arrays: Vec<String> = entries.iter().map(|entry| format!("[{}]", entry.replace(' ', ","))).collect();
        let json = format!("{{\"file\":\"-\",\"ok\":true,\"records\":16,\"index\":[{}]}}\n", arrays.join(","));
        assert_eq!(run(&[&words[..], &["--json"]].concat(), file.as_bytes()), (0, json, "".into()), "{options:?}");
    }
}

#[test]
fn index_of_a_clinic_in_many_files() {
    let folder = folder("clinics");
    write(folder.join("a.csv"), CLINICS.replace('\n', "\r\n"));
    write(folder.join("b.csv"), SMALL);
    write(folder.join("c.csv"), "JAHISTC03,2\r\n");
    let told_of = |words: &[&str]| told(run_in(&folder, b"", &[&["index"], words, &["."]].concat()));
    let answer = "./a.csv: ok 16\n51 151 19 3 0 0 11\n./b.csv: ok 1\n./c.csv: no 3 1: version\n";
    assert_eq!(told_of(&["--clinic-code", "0412345"]), (1, answer.into(), "".into()));
    assert_eq!(told_of(&["--clinic", "11"]), (1, answer.into(), "".into()));
    let (status, out, _) = told_of(&["--clinic", "11", "--quiet", "--summary"]);
    assert_eq!(status, 1);
    assert!(out.starts_with("./c.csv: no 3 1: version\n3 files: 2 accepted, 1 refused, 0 failed\n"), "{out}");
}

#[test]
fn clinics_that_can_not_be_asked_for() {
    let lines = "--clinic is a line from 2 to 8193";
    let code = "--clinic-code is seven digits";
    let together = "--clinic and --clinic-code do not go together";
    let cases: [(&[&str], &str); 19] = [
        (&["index", "--clinic", "0"], lines),
        (&["index", "--clinic", "1"], lines),
        (&["index", "--clinic", "8194"], lines),
        (&["index", "--clinic", "18446744073709551620"], lines),
        (&["index", "--clinic", ""], lines),
        (&["index", "--clinic", "+4"], lines),
        (&["index", "--clinic=4x"], lines),
        (&["index", "--clinic-code="], code),
        (&["index", "--clinic-code", "765432"], code),
        (&["index", "--clinic-code", "76543210"], code),
        (&["index", "--clinic-code", "+654321"], code),
        (&["index", "--clinic-code", "765432x"], code),
        // Seven bytes, the last three of which are a digit of another script.
        (&["index", "--clinic-code", "7654１"], code),
        (&["index", "--clinic", "4", "--clinic-code", "7654321"], together),
        (&["index", "--clinic-code", "7", "--clinic", "4"], together),
        (&["index", "--clinic", "4", "--clinic", "4"], "--clinic is given twice"),
        (&["check", "--clinic", "4"], "check has no option --clinic"),
        (&["canonical", "--clinic-code", "7654321"], "canonical has no option --clinic-code"),
        (&["join", "--clinic-code", "7654321"], "join has no option --clinic-code"),
    ];
    for (words, message) in cases {
        let expected = format!("notebook: {message}\nTry `notebook --help`.\n");
        assert_eq!(run(&[words, &["-"]].concat(), SMALL), (2, "".into(), expected), "{words:?}");
    }
    assert_eq!(run(&["index", "-", "--clinic"], SMALL).0, 2);
}

#[test]
fn canonical_of_a_file() {
    assert_eq!(run(&["canonical", "-"], SMALL), (0, String::from_utf8_lossy(SMALL_CANONICAL).into(), "".into()));
    let json =
        "{\"file\":\"-\",\"ok\":true,\"bytes\":35,\"base64\":\"SkFISVNUQzA0LDINCjEsQSwxLEgwMTAxMDgsLCwsLCwsDQo=\"}\n";
    assert_eq!(run(&["canonical", "--json", "-"], SMALL), (0, json.into(), "".into()));
    let born = |day: &str| format!("JAHISTC04,2\r\n1,A,1,{day},,,,,,,\r\n");
    for (day, written) in [("20190430", "H310430"), ("20190501", "R010501"), ("H310501", "R010501"), ("R010501", "R010501")]
    {
        assert_eq!(run(&["canonical", "-"], born(day).as_bytes()), (0, born(written), "".into()), "{day}");
    }
    let refused = "samples/refused.csv: no 11 10: form\n";
    assert_eq!(run(&["canonical", "samples/refused.csv"], b""), (1, "".into(), refused.into()));
    let json = "{\"file\":\"-\",\"ok\":false,\"number\":3,\"word\":\"version\",\"line\":1}\n";
    assert_eq!(run(&["canonical", "--json", "-"], b"JAHISTC03,1\r\n"), (1, "".into(), json.into()));
}

#[test]
fn canonical_files_of_a_folder() {
    let folder = folder("canonical");
    fs::create_dir_all(folder.join("in/b")).expect("a folder is made");
    write(folder.join("in/a.csv"), SMALL);
    write(folder.join("in/b/a.csv"), notes(1));
    write(folder.join("in/b/no.csv"), b"x\r\n");
    let (status, out, err) = told(run_in(&folder, b"", &["canonical", "--to", "out", "in"]));
    assert_eq!((status, &out[..]), (1, "in/a.csv: ok 35\nin/b/a.csv: ok 43\n"));
    assert_eq!(err, "in/b/no.csv: no 3 1: version\n");
    assert_eq!(fs::read(folder.join("out/a.csv")).expect("it is written"), SMALL_CANONICAL);
    assert_eq!(fs::read(folder.join("out/b/a.csv")).expect("it is written").len(), 43);
    assert!(!folder.join("out/b/no.csv").exists());
    // What is there already counts as written; nothing is written over.
    let again = told(run_in(&folder, b"", &["canonical", "--to", "out", "in/a.csv"]));
    assert_eq!(again, (0, "in/a.csv: ok 35\n".into(), "".into()));
    write(folder.join("out/a.csv"), "another file");
    let again = told(run_in(&folder, b"", &["canonical", "--to", "out", "in/a.csv"]));
    assert_eq!(again, (2, "".into(), "notebook: out/a.csv: already exists\n".into()));
    assert_eq!(fs::read(folder.join("out/a.csv")).expect("it is there"), b"another file");
}

#[test]
fn cut_and_join() {
    let cut = |file: &[u8], words: &[&str]| run(&[&["cut", "--id", ID], words, &["-"]].concat(), file);
    let (status, pieces, err) = cut(&notes(20), &["--capacity", "69"]);
    assert_eq!((status, pieces.len(), &err[..]), (0, 404, ""));
    let (_, whole, _) = run(&["canonical", "-"], &notes(20));
    assert_eq!(run(&["join", "-"], pieces.as_bytes()), (0, whole, "".into()));
    assert_eq!(cut(&notes(18), &["--capacity=60"]).1.len(), 547);
    assert_eq!(cut(&notes(18), &["--capacity", "59"]), (2, "".into(), "-: no 18 0: no cutting\n".into()));
    assert_eq!(cut(&notes(2), &["--capacity", "51"]).1.len(), 51);
    assert_eq!(cut(&notes(2), &["--capacity", "50"]), (2, "".into(), "-: no 18 0: no cutting\n".into()));
    let (status, json, _) = cut(&notes(20), &["--capacity", "69", "--json"]);
    assert_eq!(status, 0);
    assert!(json.starts_with("{\"file\":\"-\",\"ok\":true,\"pieces\":6,\"bytes\":404,\"base64\":[\"SkFI"), "{json}");
    let wrong_id = run(&["cut", "--capacity", "69", "--id", "1", "-"], &notes(20));
    assert_eq!(wrong_id, (2, "".into(), "-: no 17 0: ID\n".into()));
}

#[test]
fn pieces_in_files() {
    let folder = folder("pieces");
    let words = ["cut", "--capacity", "60", "--id", ID, "--prefix", "p-", "-"];
    let (status, out, err) = told(run_in(&folder, &notes(18), &words));
    assert_eq!((status, &err[..]), (0, ""));
    assert!(out.starts_with("-: ok 10 547\np-01: 60\np-02: 54\n") && out.ends_with("p-10: 55\n"), "{out}");
    let canonical = run(&["canonical", "-"], &notes(18)).1;
    assert_eq!(told(run_in(&folder, b"", &["join", "."])), (0, canonical.clone(), "".into()));
    let mut names: Vec<String> = (1..=10).rev().map(|k| format!("p-{k:02}")).collect();
    names.insert(0, "join".to_string());
    assert_eq!(told(run_in(&folder, b"", &names)), (0, canonical, "".into()));
    names.pop();
    assert_eq!(told(run_in(&folder, b"", &names)), (1, "".into(), "join: no 19 0: set\n".into()));
    // A second cutting finds everything there.
    assert_eq!(told(run_in(&folder, &notes(18), &words)), (0, out, "".into()));
}

#[test]
fn pieces_are_the_bytes_of_the_files() {
    let folder = folder("bytes");
    let head = "JAHISTC04,2\r\n1,A,1,19890108,,,,,,,\r\n5,20160411,1\r\n";
    write(folder.join("a"), format!("{head}55,x,"));
    write(folder.join("b"), "JAHISTC04,2\r\n201,1,x,1,x,,,2\r\n");
    write(folder.join("empty"), "");
    // Line 4 goes on in the next file: 55,x,JAHISTC04,2.
    let file = format!("{head}55,x,JAHISTC04,2\r\n201,1,x,1,x,,,2\r\n");
    let joined = told(run_in(&folder, b"", &["join", "empty", "a", "empty", "b", "empty"]));
    assert_eq!(joined, told(run_in(&folder, file.as_bytes(), &["join", "-"])));
    assert_eq!(joined, (0, file, "".into()));
    assert_eq!(told(run_in(&folder, b"", &["join", "a"])), (1, "".into(), "join: no 2 4: line end\n".into()));
    // Without a line end the next line 1 is part of a record 911.
    let pieces = run(&["cut", "--capacity", "69", "--id", ID, "-"], &notes(20)).1;
    let (first, second) = pieces.split_at(pieces.rfind("JAHIS").expect("a piece begins so"));
    write(folder.join("1"), &first[..first.len() - 2]);
    write(folder.join("2"), second);
    let together = [&first[..first.len() - 2], second].concat();
    let told_of_files = told(run_in(&folder, b"", &["join", "1", "2"]));
    assert_eq!(told_of_files, run(&["join", "-"], together.as_bytes()));
    assert_eq!(told_of_files, (1, "".into(), "join: no 19 0: set\n".into()));
}

#[test]
fn join_reads_no_more_than_it_needs() {
    let folder = folder("join-reads");
    write(folder.join("most"), vec![b'x'; 131_072]);
    write(folder.join("more"), vec![b'x'; 131_073]);
    let large = (1, "".into(), "join: no 1 0: large\n".into());
    assert_eq!(told(run_in(&folder, b"", &["join", "more", "nothing"])), large);
    assert_eq!(told(run_in(&folder, b"", &["join", "most", "/dev/zero", "nothing"])), large);
    assert_eq!(told(run_in(&folder, b"", &["join", "most", "nothing"])).0, 2);
}

#[test]
fn many_files_in_order() {
    let folder = folder("many");
    let mut expected = String::new();
    for number in 0..500 {
        let name = format!("{number:03}.csv");
        let notes_in_it = number * 37 % 200;
        write(folder.join(&name), notes(notes_in_it));
        expected += &format!("./{name}: ok {} 0 0\n", notes_in_it + 1);
    }
    for jobs in ["1", "2", "8"] {
        let answer = told(run_in(&folder, b"", &["check", "--jobs", jobs, "."]));
        assert_eq!(answer, (0, expected.clone(), "".into()), "{jobs}");
    }
}

#[test]
fn usage_and_failures() {
    let (status, help, _) = run(&["--help"], b"");
    assert!(status == 0 && help.contains("Exit status"));
    assert_eq!(run(&["--version"], b"").1, format!("notebook {}\n", env!("CARGO_PKG_VERSION")));
    let bad: [&[&str]; 13] = [
        &[],
        &["chek", "-"],
        &["check"],
        &["check", "--capacity", "3", "-"],
        &["check", "--jobs", "0", "-"],
        &["check", "--jobs"],
        &["check", "-", "-"],
        &["canonical", "a", "b"],
        &["cut", "-"],
        &["cut", "--capacity", "60", "-"],
        &["cut", "--capacity", "+60", "--id", ID, "-"],
        &["cut", "--capacity", "18446744073709551616", "--id", ID, "-"],
        &["cut", "--capacity", "60", "--capacity", "60", "--id", ID, "-"],
    ];
    for words in bad {
        let (status, out, err) = run(words, SMALL);
        assert!(status == 2 && out.is_empty() && err.starts_with("notebook: "), "{words:?} {err}");
    }
}

#[test]
fn files_that_are_not_there() {
    let (status, out, err) = run(&["check", "samples/nothing.csv", "samples/visit.csv"], b"");
    assert_eq!((status, &out[..]), (2, "samples/visit.csv: ok 15 1 3\n"));
    assert!(err.starts_with("notebook: samples/nothing.csv: "), "{err}");
    let (status, out, _) = run(&["check", "--json", "samples/nothing.csv"], b"");
    assert!(status == 2 && out.starts_with("{\"file\":\"samples/nothing.csv\",\"error\":\""), "{out}");
    let empty = folder("empty");
    let (status, out, err) = told(run_in(&empty, b"", &["check", "."]));
    assert_eq!((status, &out[..], &err[..]), (2, "", "notebook: .: no regular file in this folder\n"));
    for call in ["canonical", "cut", "join"] {
        let words: Vec<&str> = match call {
            "cut" => vec!["cut", "--capacity", "60", "--id", ID, "samples/nothing.csv"],
            _ => vec![call, "samples/nothing.csv"],
        };
        let (status, out, _) = run(&words, b"");
        assert_eq!((status, &out[..]), (2, ""), "{call}");
        let (status, out, err) = run(&[&words[..], &["--json"]].concat(), b"");
        assert_eq!((status, &out[..]), (2, ""), "{call}");
        assert!(err.starts_with("{\"file\":\"samples/nothing.csv\",\"error\":\""), "{err}");
    }
}
