//! Check, with the cases of documents 01 and 02.

use super::characters::{scripts as scripts_of, Script, PAIRS};
use super::days;
use super::{canonical, check, cut, index, join, Counts, Refusal};

const PATIENT: &str = "1,A,1,19890108,,,,,,,";
const PHARMACY: &str = "11,a,13,4,,,,,1";
const SURGERY: &str = "11,a,13,1,,,,,1";
const HOSPITAL: &str = "51,b,13,1,,1";
const DOCTOR: &str = "55,c,,1";
const DRUG: &str = "201,1,d,1,e,1,,1";

/// A 301 of form 1 with its usage name; the unit is days.
const USAGE: &[u8] = b"301,1,f,7,\x93\xFA\x95\xAA,1,1,,1";

/// A file of the direction and the records, each of bytes.
fn file<T: AsRef<[u8]>>(direction: u8, records: &[T]) -> Vec<u8> {
    let mut file = format!("JAHISTC04,{direction}\r\n").into_bytes();
    for record in records {
        file.extend_from_slice(record.as_ref());
        file.extend_from_slice(b"\r\n");
    }
    file
}

fn no(number: u8, line: u64) -> Result<Counts, Refusal> {
    Err(Refusal { number, line })
}

fn ok(records: u64, groups: u64, drugs: u64) -> Result<Counts, Refusal> {
    Ok(Counts { records, groups, drugs })
}

/// Direction 2: record 1, then the records; their first stands on line 3.
fn two<T: AsRef<[u8]>>(records: &[T]) -> Result<Counts, Refusal> {
    let mut all: Vec<&[u8]> = vec![PATIENT.as_bytes()];
    all.extend(records.iter().map(AsRef::as_ref));
    check(&file(2, &all))
}

/// Direction 1: the records from line 2.
fn one<T: AsRef<[u8]>>(records: &[T]) -> Result<Counts, Refusal> {
    check(&file(1, records))
}

fn b(text: &str) -> &[u8] {
    text.as_bytes()
}

#[test]
fn the_file_of_37_bytes() {
    let mut bytes = file(2, &[PATIENT]);
    bytes.push(0x1A);
    assert_eq!(bytes.len(), 37);
    assert_eq!(check(&bytes), ok(1, 0, 0));
}

#[test]
fn dates() {
    let same = [
        ("M060101", 1873_01_01),
        ("M450729", 1912_07_29),
        ("T010730", 1912_07_30),
        ("T151224", 1926_12_24),
        ("S011225", 1926_12_25),
        ("S640107", 1989_01_07),
        ("H010108", 1989_01_08),
        ("H280411", 2016_04_11),
        ("H310430", 2019_04_30),
        ("H310501", 2019_05_01),
        ("R010501", 2019_05_01),
        ("R020229", 2020_02_29),
        ("H320229", 2020_02_29),
        ("H991231", 2087_12_31),
        ("R691231", 2087_12_31),
    ];
    for (era, number) in same {
        assert_eq!(days::read(era.as_bytes()), Some(number), "{era}");
        assert_eq!(days::read(number.to_string().as_bytes()), Some(number), "{number}");
    }
    let bad = [
        "M051231",
        "M450730",
        "T010729",
        "T151225",
        "S011224",
        "S640108",
        "H010107",
        "H290229",
        "20880101",
        "18721231",
        "20160431",
        "20160400",
        "20161301",
        "20160001",
        "19000229",
        "H000101",
        "h280411",
        "2016041",
        "H2804111",
        "H28041",
        "201604111",
        "2016 411",
        "H280 11",
        "R010430",
        "R010229",
        "R000501",
        "R691232",
        "R700101",
        "r010501",
        "R01050",
        "R0105011",
        "H310431",
        "H991232",
        "H",
        "M",
        "R",
    ];
    for text in bad {
        assert_eq!(days::read(text.as_bytes()), None, "{text}");
    }
    assert!(days::read(b"20000229").is_some() && days::read(b"H280229").is_some());
}

/// "H310501 and R010501 are one day and get one spelling."
#[test]
fn the_era_that_a_day_is_written_under() {
    let written = [
        (1873_01_01, "M060101"),
        (1912_07_29, "M450729"),
        (1912_07_30, "T010730"),
        (1926_12_24, "T151224"),
        (1926_12_25, "S011225"),
        (1989_01_07, "S640107"),
        (1989_01_08, "H010108"),
        (2016_04_11, "H280411"),
        (2019_04_30, "H310430"),
        (2019_05_01, "R010501"),
        (2020_02_29, "R020229"),
        (2087_12_31, "R691231"),
    ];
    for (day, form) in written {
        assert_eq!(days::era(day).form(day), form.as_bytes(), "{day}");
    }
    assert!(days::ERAS.windows(2).all(|pair| pair[0].first > pair[1].first), "the newest era stands first");
}

#[test]
fn doses_and_weights() {
    let dose = |dose: &str| two(&["5,20160411,1", &format!("201,1,d,{dose},e,,,1")]);
    for text in ["0.25", "0", "1", "10", "123456.12345", "0.00001"] {
        assert_eq!(dose(text), ok(3, 1, 1), "{text}");
    }
    for text in ["1.50", ".5", "1.", ".", "00", "01", "0.0", "1234567", "1.123456", "1.2.3", "-1", "1,5", " 1"] {
        let number = if text.contains(',') { 7 } else { 11 };
        assert_eq!(dose(text), no(number, 4), "{text}");
    }
    let weight = |weight: &str| check(&file(2, &[format!("1,A,1,19890108,,,,,,{weight},")]));
    assert_eq!(weight("999.125"), ok(1, 0, 0));
    assert_eq!(weight("1000"), no(11, 2));
    assert_eq!(weight("1.1234"), no(11, 2));
}

#[test]
fn characters_by_row_and_cell() {
    assert_eq!(PAIRS.iter().flatten().flatten().count(), 6_877);
    let note = |bytes: &[u8]| two(&[[b"4,", bytes, b",,1"].concat()]);
    assert_eq!(note(b"\x81\x41\xEA\xA2\xDF"), ok(2, 0, 0));
    for bytes in [
        &b"\x7F"[..],
        b"\x80",
        b"\xA0",
        b"\xF0\x40",
        b"\x81\x7F",
        b"\x81\xAD",
        b"\xEA\xA3",
        b"\x88\x9E",
        b"\x81",
        b"\x00",
        b"\t",
    ] {
        assert_eq!(note(bytes), no(4, 3), "{bytes:X?}");
    }
    // A kanji and @, not a final wide space.
    assert_eq!(note(b"\x8A\x81\x40"), ok(2, 0, 0));
    assert_eq!(note(b"\x8A\x81\x81\x40"), no(10, 3));
    // A trail below 7Fh does not make a name mixed.
    let name = |bytes: &[u8]| check(&file(2, &[[b"1,", bytes, b",1,19890108,,,,,,,"].concat()]));
    assert_eq!(name(b"\x83\x41\x83\x41"), ok(1, 0, 0));
    assert_eq!(name(b"\xB1 A"), ok(1, 0, 0));
    assert_eq!(name(b"\x83\x41A"), no(11, 2));
}

/// A file whose record 1 has this kana name, its last item.
fn with_kana_name(name: &[u8]) -> Vec<u8> {
    file(2, &[[b"1,A,1,19890108,,,,,,,", name].concat()])
}

/// Every character but the comma, with its script by where it lies among the bytes.
fn characters_with_scripts() -> Vec<(Vec<u8>, Script)> {
    let singles = (0x20..=0x7E).chain(0xA1..=0xDF).filter(|&byte| byte != b',');
    let pairs = (0x81..=0xEF).flat_map(|lead| (0x40..=0xFC).map(move |trail| [lead, trail]));
    let pairs = pairs.filter(|pair| PAIRS[usize::from(pair[0])][usize::from(pair[1])].is_some());
    let script_of = |pair: [u8; 2]| match u16::from_be_bytes(pair) {
        0x8140 | 0x815B => Script::Either,
        0x829F..=0x82F1 => Script::Hiragana,
        0x8340..=0x8396 => Script::Katakana,
        _ => Script::Other,
    };
    let narrow = singles.map(|byte| (vec![byte], Script::OneByte));
    narrow.chain(pairs.map(|pair| (pair.to_vec(), script_of(pair)))).collect()
}

#[test]
fn the_script_of_every_character() {
    let characters = characters_with_scripts();
    let count = |script: Script| characters.iter().filter(|(_, of)| *of == script).count();
    let scripts = [Script::OneByte, Script::Hiragana, Script::Katakana, Script::Either, Script::Other];
    assert_eq!(scripts.map(count), [94 + 63, 83, 86, 2, 6_877 - 83 - 86 - 2]);
    for (character, script) in &characters {
        assert_eq!(scripts_of(character).collect::<Vec<_>>(), [*script], "{character:X?}");
    }
    assert_eq!(scripts_of(b"\x8A\x81\x5B\x81\x5B").collect::<Vec<_>>(), [Script::Other, Script::OneByte, Script::Either]);
}

/// Each character between two of each script that a name can have.
#[test]
fn every_character_in_a_kana_name() {
    let names: [(&[u8], &[Script]); 4] = [
        (b"A", &[Script::OneByte]),
        (b"\x82\xA0", &[Script::Hiragana, Script::Either]),
        (b"\x83\x41", &[Script::Katakana, Script::Either]),
        (b"\x81\x5B", &[Script::Hiragana, Script::Katakana, Script::Either]),
    ];
    for (character, script) in characters_with_scripts() {
        for (around, scripts) in names {
            let name = [around, &character, around].concat();
            let expected = if scripts.contains(&script) { ok(1, 0, 0) } else { no(11, 2) };
            assert_eq!(check(&with_kana_name(&name)), expected, "{name:X?}");
        }
    }
}

#[test]
fn kana_names_of_one_script() {
    let name = |name: &[u8]| check(&with_kana_name(name));
    let (hiragana, katakana, wide_space, long) = (b"\x82\xA0", b"\x83\x41", b"\x81\x40", b"\x81\x5B");
    let good: [&[&[u8]]; 13] = [
        &[],
        &[b"\xBD\xBD\xDE\xB7 \xC0\xDB\xB3"],
        &[b"Aa1\xB1\xDF"],
        &[hiragana],
        &[katakana],
        &[long],
        &[long, wide_space, long],
        &[hiragana, wide_space, hiragana, long],
        &[long, hiragana],
        &[katakana, wide_space, katakana, long],
        &[long, katakana],
        // The first and the last cell of each row; in row 5 also those beside 7Fh, which is no trail.
        &[b"\x82\x9F\x82\xF1"],
        &[b"\x83\x40\x83\x7E\x83\x80\x83\x96"],
    ];
    for parts in good {
        assert_eq!(name(&parts.concat()), ok(1, 0, 0), "{parts:X?}");
    }
    let bad: [&[&[u8]]; 13] = [
        &[hiragana, katakana],
        &[katakana, hiragana],
        &[hiragana, long, katakana],
        &[long, hiragana, wide_space, katakana],
        &[hiragana, b"A"],
        &[b"\xB1", katakana],
        &[b"\xB1", long],
        &[long, b"-"],
        &[hiragana, b" ", hiragana],
        &[b"A", wide_space, b"A"],
        // 8Ah 81h is a kanji, and the [ after it is no part of 815Bh.
        &[b"\x8A\x81\x5B"],
        // 82h and 83h also lead the digits of row 3 and the Greek letters of row 6.
        &[b"\x82\x4F"],
        &[b"\x83\x9F"],
    ];
    for parts in bad {
        assert_eq!(name(&parts.concat()), no(11, 2), "{parts:X?}");
    }
    // Row 1's other marks: the comma, the middle dot, the voiced sound mark, the marks of repetition.
    for mark in [b"\x81\x41", b"\x81\x45", b"\x81\x4A", b"\x81\x52", b"\x81\x53", b"\x81\x54", b"\x81\x55"] {
        assert_eq!(name(mark), no(11, 2), "{mark:X?}");
        assert_eq!(name(&[&katakana[..], mark].concat()), no(11, 2), "{mark:X?}");
    }
}

#[test]
fn what_comes_before_the_script_of_a_kana_name() {
    let name = |name: &[u8]| check(&with_kana_name(name));
    let mixed = b"\x82\xA0\x83\x41";
    assert_eq!(name(&katakana_of(20)), ok(1, 0, 0));
    assert_eq!(name(&katakana_of(21)), no(9, 2));
    assert_eq!(name(&mixed.repeat(10)), no(11, 2));
    assert_eq!(name(&[&mixed.repeat(10)[..], b"A"].concat()), no(9, 2));
    assert_eq!(name(&[&mixed[..], b"\x82\xF2"].concat()), no(4, 2));
    for edge in [&b"\x81\x40"[..], b" "] {
        assert_eq!(name(edge), no(10, 2), "{edge:X?}");
        assert_eq!(name(&[edge, mixed].concat()), no(10, 2), "{edge:X?}");
        assert_eq!(name(&[mixed, edge].concat()), no(10, 2), "{edge:X?}");
    }
    assert_eq!(name(b"'\x82\xA0'"), no(10, 2));
    // Items before it are judged first; the next line is not reached.
    let refused = |records: &[&[u8]]| check(&file(2, records));
    assert_eq!(refused(&[b"1,A,1,19890108,,, x,,,,\x82\xA0\x83\x41"]), no(10, 2));
    assert_eq!(refused(&[b"1,A,1,19890108,,,,,,,\x82\xA0\x83\x41", b"x"]), no(11, 2));
    // The name itself may mix scripts of two bytes, as may every other text.
    assert_eq!(refused(&[b"1,\x82\xA0\x83\x41\x8A\xBF,1,19890108,,,,,,,", b"4,\x82\xA0\x83\x41A,,1"]), ok(2, 0, 0));
}

fn katakana_of(characters: usize) -> Vec<u8> {
    b"\x83\x41".repeat(characters)
}

#[test]
fn a_file_refused_for_its_kana_name_has_no_canonical_file_and_no_cutting() {
    let mixed = with_kana_name(b"\x82\xA0\x83\x41");
    let refusal = Refusal { number: 11, line: 2 };
    let mut out = [b'?'; 200];
    assert_eq!(canonical(&mixed, &mut out), Err(refusal));
    assert_eq!(cut(&mixed, 1_000, b"12345678901234", b"", &mut out), Err(refusal));
    assert_eq!(join(&mixed, &mut out), Err(refusal));
    assert_eq!(out, [b'?'; 200]);
    assert_eq!(index(&mixed, &mut [0; 7]), Err(refusal));
}

#[test]
fn line_ends_and_line_1() {
    assert_eq!(check(&[b'x'; 65_537]), no(1, 0));
    assert_eq!(check(&[b'x'; 65_536]), no(2, 1));
    assert_eq!(check(b""), no(2, 1));
    assert_eq!(check(b"\x1A"), no(2, 1));
    assert_eq!(check(b"JAHISTC04,2"), no(2, 1));
    assert_eq!(check(b"JAHISTC04,2\n"), no(2, 1));
    assert_eq!(check(b"JAHISTC04,3\r\n"), no(3, 1));
    assert_eq!(check(b"JAHISTC04,1 \r\n"), no(3, 1));
    assert_eq!(check(b"\x80\r\n"), no(3, 1));
    assert_eq!(check(b"\r\n"), no(3, 1));
    assert_eq!(check(b"JAHISTC04,2\r\n\x1A\x1A"), no(2, 2));
    assert_eq!(check(b"JAHISTC04,2\r\n\x80\n\r\n"), no(2, 2));
    assert_eq!(check(b"JAHISTC04,2\r\n1,A\r\r\n"), no(2, 2));
    assert_eq!(check(b"JAHISTC04,2\r\n1,\x81\r\n5\n"), no(4, 2));
    assert_eq!(check(b"JAHISTC04,2\r\n\r\n"), no(5, 2));
    assert_eq!(check(b"JAHISTC04,2\r\n"), no(14, 2));
    assert_eq!(check(b"JAHISTC04,1\r\n\x1A"), no(14, 2));
}

#[test]
fn numbers_and_items() {
    for line in ["0", "01,x", "6,x", "1 ,x", "x", "", ",", "9110", "281x,1,a,1"] {
        assert_eq!(two(&[line]), no(5, 3), "{line}");
    }
    for line in ["911", "911,", "911,12345678901234,2,1"] {
        assert_eq!(two(&[line]), no(6, 3), "{line}");
    }
    for line in ["4", "4,x,1", "4,x,,1,", "1,A,1,19890108,,,,,,,,", "701,a,b,c,,,1,1,1,1,1,1,1"] {
        assert_eq!(two(&[line]), no(7, 3), "{line}");
    }
    let long = format!("4,{},,1", "x".repeat(401));
    let full = format!("4,{},,1", "x".repeat(400));
    let items = [
        ("4,,,1", 8),
        ("4,x,,", 8),
        (&long, 9),
        ("4, x,,1", 10),
        ("4,x ,,1", 10),
        ("4,\"x\",,1", 10),
        ("4,'',,1", 10),
        ("4,x,20160230,1", 11),
        ("4,x,,3", 11),
        ("4, ,20160230,3", 10),
        ("2,4,x,1", 11),
        ("2,10,x,1", 11),
    ];
    for (line, number) in items {
        assert_eq!(two(&[line]), no(number, 3), "{line}");
    }
    for line in ["4,\",,1", "4,',,1", "4,\"x',,1", "2,9,x,9", &full] {
        assert_eq!(two(&[line]), ok(2, 0, 0), "{line}");
    }
    let postal_code = |code: &str| check(&file(2, &[format!("1,A,1,19890108,{code},,,,,,")]));
    for code in ["1050001", "105-0001"] {
        assert_eq!(postal_code(code), ok(1, 0, 0), "{code}");
    }
    for code in ["105-001", "10-50001", "105--001", "1050-001", "105000", "10500011", "105-00011", "123-4567 "] {
        assert_eq!(postal_code(code), no(11, 2), "{code}");
    }
    for (line, number) in [
        ("11,a,48,4,,,,,1", 11),
        ("11,a,00,4,,,,,1", 11),
        ("11,a,1,4,,,,,1", 11),
        ("11,a,13,2,,,,,1", 11),
        ("11,a,13,4,123456,,,,1", 11),
        ("11,a,,4,,,,,1", 8),
        ("11,a,13,,,,,,1", 8),
        ("11,a,13,4,,,,12345678901234,1", 9),
        ("11,a,13,4,,,,0 3,1", 11),
        ("11,a,13,4,,,,03 ,1", 10),
    ] {
        assert_eq!(one(&["5,20160411,1", line]), no(number, 3), "{line}");
    }
    for rp in ["0", "000", "0001", "1000", "x", "1x", ""] {
        let number = if rp.is_empty() { 8 } else { 11 };
        assert_eq!(two(&["5,20160411,1", &format!("201,{rp},d,1,e,,,1")]), no(number, 4), "{rp}");
    }
}

#[test]
fn pairs_of_201_and_301() {
    let drug = |kind: &str, code: &str| two(&["5,20160411,1", &format!("201,1,d,1,e,{kind},{code},1")]);
    assert_eq!(drug("", ""), ok(3, 1, 1));
    assert_eq!(drug("4", "2171022F1010"), ok(3, 1, 1));
    assert_eq!(drug("4", ""), no(12, 4));
    assert_eq!(drug("1", "x"), no(12, 4));
    assert_eq!(drug("", "x"), no(12, 4));
    let (dispensing, days, times) = (b"\x92\xB2\x8D\xDC", b"\x93\xFA\x95\xAA", b"\x89\xF1\x95\xAA");
    let usage = |quantity: &str, unit: &[u8], form: &str| {
        let usage = [b"301,1,f,", b(quantity), b",", unit, b",", b(form), b",,,1"].concat();
        two(&[b("5,20160411,1"), b(DRUG), &usage])
    };
    let good = ok(4, 1, 1);
    for form in ["2", "4", "5", "9", "10"] {
        assert_eq!(usage("001", dispensing, form), good);
        assert_eq!(usage("", b"", form), good);
        assert_eq!(usage("2", dispensing, form), no(12, 5));
        assert_eq!(usage("1", days, form), no(12, 5));
    }
    for (form, by_days, by_times) in [("1", true, false), ("3", false, true), ("6", true, true), ("7", true, true)] {
        assert_eq!(usage("7", days, form) == good, by_days);
        assert_eq!(usage("7", times, form) == good, by_times);
        assert_eq!(usage("7", dispensing, form), no(12, 5));
        assert_eq!(usage("7", b"", form), good);
    }
    assert_eq!(usage("7", b"x", ""), good);
    assert_eq!(usage("7", days, "8"), no(11, 5));
    // The usage name in direction 2, even in a bad place.
    assert_eq!(two(&["301,1,,,,,,,1"]), no(12, 3));
    assert_eq!(two(&["301,1,f,,,,,,1"]), no(13, 3));
    // In direction 1 with an 11 of 4, but for forms 9 and 10, and never after a 701.
    let nameless = [b"301,1,,7,", &days[..], b",1,1,,1"].concat();
    let material = [b"301,1,,1,", &dispensing[..], b",9,1,,1"].concat();
    let group = [b("5,20160411,1"), b(PHARMACY), b(HOSPITAL), b(DRUG)];
    assert_eq!(one(&[&group[..], &[&nameless]].concat()), no(12, 6));
    assert_eq!(one(&[&group[..], &[&material]].concat()), ok(5, 1, 1));
    assert_eq!(one(&[&group[..], &[USAGE, b("701,a,b,c,,,1"), &nameless]].concat()), no(13, 8));
    assert_eq!(one(&[b("5,20160411,1"), b(SURGERY), b(DRUG), &nameless]), ok(4, 1, 1));
}

#[test]
fn places() {
    let (day, drug) = ("5,20160411,1", "201,1,d,1,e,,,1");
    assert_eq!(two(&[PATIENT]), no(13, 3));
    assert_eq!(two(&["3,x,,,1", "2,1,x,1"]), no(13, 4));
    assert_eq!(two(&["11,a,,,,,,,1"]), no(13, 3));
    assert_eq!(two(&[day, "15,a,,1", "11,a,,,,,,,1"]), no(13, 5));
    assert_eq!(two(&[day, "11,a,,,,,,,1", "11,a,,,,,,,1"]), no(13, 5));
    assert_eq!(two(&[day, "281,1,x,1"]), no(13, 4));
    assert_eq!(two(&[day, drug, "291,1,x,1", "281,1,x,1"]), no(13, 6));
    assert_eq!(two(&[day, drug, "311,1,x,1"]), no(13, 5));
    assert_eq!(two(&[day, drug, "391,1,x,1", "301,1,f,,,,,,1"]), no(13, 6));
    assert_eq!(two(&[day, drug, "391,1,x,1", "201,2,d,1,e,,,1"]), ok(5, 1, 2));
    assert_eq!(two(&[day, drug, DOCTOR]), no(13, 5));
    assert_eq!(two(&[day, DOCTOR, drug, DOCTOR, "201,2,d,1,e,,,1"]), ok(6, 1, 2));
    assert_eq!(two(&[day, DOCTOR, drug, day, drug, DOCTOR]), no(13, 8));
    assert_eq!(two(&[day, DOCTOR, day]), no(13, 5));
    assert_eq!(two(&[day, DOCTOR, "701,a,b,c,,,1"]), no(13, 5));
    assert_eq!(two(&[day, HOSPITAL, day]), ok(4, 2, 0));
    assert_eq!(two(&[day, "501,x,1", "411,x,30,1"]), no(13, 5));
    assert_eq!(two(&["701,a,b,c,,,1", day]), no(13, 4));
    assert_eq!(two(&["701,a,b,c,,,1", "701,a,b,c,,,1"]), ok(3, 0, 0));
    assert_eq!(one(&[day, PHARMACY, HOSPITAL, "411,x,30,1"]), no(13, 5));
    assert_eq!(one(&[day, PHARMACY, HOSPITAL, day]), no(13, 5));
    assert_eq!(one(&[day, SURGERY, HOSPITAL]), no(13, 4));
    assert_eq!(one(&[day, SURGERY, DOCTOR]), no(13, 4));
    assert_eq!(one(&[day, PHARMACY, "401,x,1"]), no(13, 4));
}

#[test]
fn missing_records() {
    let day = b("5,20160411,1");
    let good = [day, b(PHARMACY), b(HOSPITAL), b(DOCTOR), b(DRUG), USAGE];
    assert_eq!(one(&good), ok(6, 1, 1));
    assert_eq!(check(&file(2, &["4,x,,1"])), no(14, 2));
    assert_eq!(check(&file(2, &["701,a,b,c,,,1"])), no(14, 2));
    assert_eq!(check(&file(2, &["15,a,,1"])), no(13, 2));
    assert_eq!(one(&["701,a,b,c,,,1"]), no(14, 2));
    assert_eq!(one(&["4,x,,1"]), no(14, 3));
    assert_eq!(one(&[&good[..3]].concat()), no(14, 5));
    assert_eq!(one(&[&good[..4]].concat()), no(14, 6));
    assert_eq!(one(&[&good[..5]].concat()), no(14, 7));
    assert_eq!(one(&[&good[..5], &[b("391,1,x,1"), b("401,x,1")]].concat()), no(14, 8));
    assert_eq!(one(&[&good[..5], &[b(DOCTOR)]].concat()), no(14, 7));
    // A group without its 11, its 51, its 411: at the line that closes it.
    assert_eq!(one(&[day, b(DRUG), USAGE, b("401,x,1"), day]), no(14, 6));
    assert_eq!(one(&[day, b(PHARMACY), b(DRUG), USAGE, b("701,a,b,c,,,1")]), no(14, 6));
    assert_eq!(one(&[day, b(SURGERY), b("501,x,1")]), no(14, 5));
    assert_eq!(one(&[day, b(SURGERY), b("411,x,30,1")]), ok(3, 1, 0));
    assert_eq!(two(&[day, b(DOCTOR)]), no(14, 5));
}

#[test]
fn rp_values_and_date_order() {
    let drug = |rp: &str| format!("201,{rp},d,1,e,,,1");
    let (day, first, usage) = ("5,20160411,1".to_string(), drug("1"), "301,1,f,,,,,,1".to_string());
    assert_eq!(two(&[&day, &drug("2")]), no(15, 4));
    assert_eq!(two(&[&day, &first, &drug("01"), &drug("002")]), ok(5, 1, 3));
    assert_eq!(two(&[&day, &first, &drug("3")]), no(15, 5));
    assert_eq!(two(&[&day, &first, &usage, &first]), no(15, 6));
    assert_eq!(two(&[&day, &first, "391,2,x,1"]), no(15, 5));
    assert_eq!(two(&[&day, &first, &day, &first]), ok(5, 2, 2));
    let in_direction_1 = [&day[..], SURGERY, DRUG, "201,3,d,1,e,1,,1"];
    assert_eq!(one(&in_direction_1), no(14, 5));
    assert_eq!(two(&[&day, "5,H280411,1", "5,20160410,1"]), ok(4, 3, 0));
    assert_eq!(two(&[&day, "5,H280412,1"]), no(16, 4));
    assert_eq!(one(&[&day, SURGERY, "5,H280412,1"]), no(14, 4));
}

#[test]
fn groups_are_compared_as_days() {
    let groups = |days: [&str; 2]| two(&days.map(|day| format!("5,{day},1")));
    for days in [
        ["H310501", "R010501"],
        ["R010501", "H310501"],
        ["20190501", "R010501"],
        ["R010501", "20190430"],
        ["R010501", "H310430"],
        ["H310501", "H310430"],
        ["R010502", "H310501"],
        ["H991231", "R691231"],
    ] {
        assert_eq!(groups(days), ok(3, 2, 0), "{days:?}");
    }
    for days in [
        ["20190430", "R010501"],
        ["H310430", "R010501"],
        ["H310430", "H310501"],
        ["R010501", "20190502"],
        ["R010501", "H310502"],
        ["H310501", "R010502"],
        ["H991230", "R691231"],
    ] {
        assert_eq!(groups(days), no(16, 4), "{days:?}");
    }
}
