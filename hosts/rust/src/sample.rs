//! Accepted files as a pharmacy would send them: direction 1, groups of older and older days, much kanji, all spellings
//! of dates and both of postal codes. The same target and newest day give the same bytes; the newest day changes dates alone.

use crate::calendar::Day;
use crate::random::Random;

/// The day of the newest group: the file is sent in 2026.
pub const NEWEST: Day = Day::new(2026, 4, 11);

/// An accepted file of 59,000 to 60,000 bytes.
pub fn full() -> Vec<u8> {
    sized(60_000)
}

/// An accepted file of at most `target` bytes, and near it. The target is 1,000 to 65,536.
pub fn sized(target: usize) -> Vec<u8> {
    sized_from(NEWEST, target)
}

/// Such a file whose first group is of the day `newest`.
pub fn sized_from(newest: Day, target: usize) -> Vec<u8> {
    assert!((1_000..=65_536).contains(&target), "no sample of {target} bytes");
    let mut random = Random::new(15_106);
    let mut file = head(newest.year());
    let tail = closing_note(newest.year());
    let mut day = newest;
    let mut prescriptions = 3;
    while prescriptions > 0 {
        let group = group(&mut random, day, prescriptions);
        if file.len() + group.len() + tail.len() <= target {
            file.extend_from_slice(&group);
            for _ in 0..random.below(40) {
                day = day.before();
            }
            prescriptions = if target < 2_000 { 1 } else { 1 + random.below(3) };
        } else {
            prescriptions -= 1;
        }
    }
    file.extend_from_slice(&tail);
    file
}

/// Line 1 and what stands before the groups; its dates but the birth's are of this year.
fn head(year: u32) -> Vec<u8> {
    let mut file = b"JAHISTC04,1\r\n".to_vec();
    let (name, kana) = (b"\x8D\x82\x92\xC3\x81\x40\x8D\x4B\x8E\x71", b"\xC0\xB6\xC2 \xBB\xC1\xBA"); // 高津　幸子, half-width kana
    let home = ADDRESSES[0];
    record(&mut file, &[b"1", name, b"2", b"S330105", b"105-0001", home, b"03-3506-8010", b"", b"A+", b"52.5", kana]);
    record(&mut file, &[b"2", b"1", NOTES[4], b"1"]);
    let (from, to) = (Day::new(year, 3, 1).in_its_era(), Day::new(year, 3, 10).in_digits());
    record(&mut file, &[b"3", DRUGS[5], &from, &to, b"8"]);
    record(&mut file, &[b"4", NOTES[5], &Day::new(year, 4, 11).in_digits(), b"1"]);
    file
}

/// The pharmacist's words after the groups.
fn closing_note(year: u32) -> Vec<u8> {
    let mut file = Vec::new();
    let (from, to) = (Day::new(year, 4, 1).in_its_era(), Day::new(year, 4, 30).in_digits());
    record(&mut file, &[b"701", PHARMACISTS[0], PHARMACIES[0], NOTES[3], &from, &to, b"1"]);
    file
}

/// A group of one dispensing: its pharmacy, hospital, doctor and prescriptions.
fn group(random: &mut Random, day: Day, prescriptions: usize) -> Vec<u8> {
    let mut file = Vec::new();
    record(&mut file, &[b"5", &day.spelled(random), b"1"]);
    let (telephone, chemist) = (random.pick(TELEPHONES), random.pick(PHARMACISTS));
    let (pharmacy, address, postal_code) = (random.pick(PHARMACIES), random.pick(ADDRESSES), random.pick(POSTAL_CODES));
    record(&mut file, &[b"11", pharmacy, b"13", b"4", b"1234567", postal_code, address, telephone, b"1"]);
    if random.once_in(4) {
        record(&mut file, &[b"15", chemist, telephone, b"1"]);
    }
    record(&mut file, &[b"51", random.pick(HOSPITALS), random.pick(&[b"13", b"27", b"01"]), b"1", b"0412345", b"1"]);
    record(&mut file, &[b"55", random.pick(DOCTORS), random.pick(DEPARTMENTS), b"1"]);
    for rp in 1..=prescriptions {
        if rp > 1 && random.once_in(3) {
            record(&mut file, &[b"55", random.pick(DOCTORS), b"", b"1"]);
        }
        prescription(random, &mut file, rp);
    }
    if random.once_in(8) {
        record(&mut file, &[b"401", random.pick(NOTES), b"1"]);
    }
    if random.once_in(8) {
        record(&mut file, &[b"411", random.pick(NOTES), random.pick(&[b"30", b"31", b"99"]), b"1"]);
    }
    if random.once_in(10) {
        record(&mut file, &[b"501", random.pick(NOTES), b"1"]);
    }
    if random.once_in(10) {
        record(&mut file, &[b"601", random.pick(NOTES), &day.spelled(random)]);
    }
    file
}

/// A prescription (RP): its drugs and its usage.
fn prescription(random: &mut Random, file: &mut Vec<u8>, rp: usize) {
    let rp = if random.once_in(8) { format!("{rp:02}") } else { rp.to_string() };
    let rp = rp.as_bytes();
    for _ in 0..1 + random.below(4) {
        let names = if random.once_in(2) { NARROW_DRUGS } else { DRUGS };
        let name = random.pick(names);
        let code = format!("{}{}F{}", 1 + random.below(8), 100_000 + random.below(900_000), 1_000 + random.below(9_000));
        let (kind, code): (&[u8], &[u8]) = match random.below(8) {
            0 => (b"1", b""),
            1 => (b"2", &code.as_bytes()[..7]),
            2 => (b"6", &code.as_bytes()[..7]),
            _ => (b"4", code.as_bytes()),
        };
        record(file, &[b"201", rp, name, random.pick(DOSES), random.pick(DOSE_UNITS), kind, code, b"1"]);
        if random.once_in(6) {
            record(file, &[b"281", rp, random.pick(SUPPLEMENTS), b"1"]);
        }
        if random.once_in(15) {
            record(file, &[b"291", rp, random.pick(NOTES), b"1"]);
        }
    }
    let (quantity, unit, form): (&[u8], &[u8], &[u8]) = match random.below(6) {
        0 => (b"1", DISPENSING, b"5"),
        1 => (b"10", TIMES, b"3"),
        2 => (b"05", DAYS, b"1"),
        3 => (b"28", DAYS, b"1"),
        _ => (b"14", DAYS, b"1"),
    };
    let (kind, code): (&[u8], &[u8]) = if random.once_in(2) { (b"1", b"") } else { (b"2", b"1013044400000000") };
    record(file, &[b"301", rp, random.pick(USAGES), quantity, unit, form, kind, code, b"1"]);
    if random.once_in(5) {
        record(file, &[b"311", rp, random.pick(SUPPLEMENTS), b"1"]);
    }
    if random.once_in(15) {
        record(file, &[b"391", rp, random.pick(NOTES), b"1"]);
    }
}

/// Writes one record.
fn record(file: &mut Vec<u8>, parts: &[&[u8]]) {
    file.extend_from_slice(&parts.join(&b','));
    file.extend_from_slice(b"\r\n");
}

const DOSES: &[&[u8]] = &[b"1", b"2", b"3", b"0.5", b"1.5", b"0.25", b"7.5", b"63", b"100"];
const POSTAL_CODES: &[&[u8]] = &[b"1050001", b"105-0001", b"220-0011", b"3300854"];
const TELEPHONES: &[&[u8]] = &[b"03-3506-8010", b"045-441-1234", b"0486451234"];

/// The units of a 301.
const DISPENSING: &[u8] = b"\x92\xB2\x8D\xDC"; // 調剤
const DAYS: &[u8] = b"\x93\xFA\x95\xAA"; // 日分
const TIMES: &[u8] = b"\x89\xF1\x95\xAA"; // 回分

/// Drug names in half-width katakana.
const NARROW_DRUGS: &[&[u8]] = &[
    b"\xC9\xD9\xCA\xDE\xBD\xB8\xBC\xDE\xAE\xB3 5mg", // ノルバスクジョウ 5mg
    b"\xCA\xDE\xB2\xB1\xBD\xCB\xDF\xD8\xDD\xBC\xDE\xAE\xB3 100mg", // バイアスピリンジョウ 100mg
    b"\xD2\xBA\xCA\xDE\xD7\xD0\xDD\xBC\xDE\xAE\xB3 500ug", // メコバラミンジョウ 500ug
];

/// Drug names, two-byte.
const DRUGS: &[&[u8]] = &[
    b"\x83\x41\x83\x80\x83\x8D\x83\x57\x83\x73\x83\x93\x8F\xF9\x82\x54\x82\x8D\x82\x87\x81\x75\x83\x67\x81\x5B\x83\x8F\x81\x76", // アムロジピン錠５ｍｇ「トーワ」
    b"\x83\x8D\x83\x4C\x83\x5C\x83\x76\x83\x8D\x83\x74\x83\x46\x83\x93\x83\x69\x83\x67\x83\x8A\x83\x45\x83\x80\x8F\xF9\x82\x55\x82\x4F\x82\x8D\x82\x87\x81\x75\x93\xFA\x88\xE3\x8D\x48\x81\x76", // ロキソプロフェンナトリウム錠６０ｍｇ「日医工」
    b"\x83\x81\x83\x67\x83\x7A\x83\x8B\x83\x7E\x83\x93\x89\x96\x8E\x5F\x89\x96\x8F\xF9\x82\x51\x82\x54\x82\x4F\x82\x8D\x82\x87\x82\x6C\x82\x73\x81\x75\x8E\x4F\x98\x61\x81\x76", // メトホルミン塩酸塩錠２５０ｍｇＭＴ「三和」
    b"\x83\x89\x83\x93\x83\x5C\x83\x76\x83\x89\x83\x5D\x81\x5B\x83\x8B\x82\x6E\x82\x63\x8F\xF9\x82\x50\x82\x54\x82\x8D\x82\x87\x81\x75\x95\x90\x93\x63\x83\x65\x83\x6F\x81\x76", // ランソプラゾールＯＤ錠１５ｍｇ「武田テバ」
    b"\x83\x80\x83\x52\x83\x58\x83\x5E\x8F\xF9\x82\x50\x82\x4F\x82\x4F\x82\x8D\x82\x87", // ムコスタ錠１００ｍｇ
    b"\x83\x4A\x83\x8D\x83\x69\x81\x5B\x83\x8B\x8F\xF9\x82\x51\x82\x4F\x82\x4F", // カロナール錠２００
    b"\x83\x4E\x83\x89\x83\x72\x83\x62\x83\x67\x8F\xF9\x82\x54\x82\x4F\x82\x4F\x82\x8D\x82\x87", // クラビット錠５００ｍｇ
    b"\x83\x76\x83\x8C\x83\x68\x83\x6A\x83\x5D\x83\x8D\x83\x93\x8F\xF9\x82\x54\x82\x8D\x82\x87\x81\x75\x83\x5E\x83\x50\x83\x5F\x81\x76", // プレドニゾロン錠５ｍｇ「タケダ」
    b"\x83\x63\x83\x80\x83\x89\x8A\x8B\x8D\xAA\x93\x92\x83\x47\x83\x4C\x83\x58\xE8\xF7\x97\xB1\x81\x69\x88\xE3\x97\xC3\x97\x70\x81\x6A", // ツムラ葛根湯エキス顆粒（医療用）
    b"\x83\x82\x81\x5B\x83\x89\x83\x58\x83\x65\x81\x5B\x83\x76\x82\x51\x82\x4F\x82\x8D\x82\x87", // モーラステープ２０ｍｇ
    b"\x83\x71\x83\x8B\x83\x68\x83\x43\x83\x68\x83\x5C\x83\x74\x83\x67\x93\xEE\x8D\x70\x82\x4F\x81\x44\x82\x52\x81\x93", // ヒルドイドソフト軟膏０．３％
    b"\x8E\x5F\x89\xBB\x83\x7D\x83\x4F\x83\x6C\x83\x56\x83\x45\x83\x80\x8F\xF9\x82\x52\x82\x52\x82\x4F\x82\x8D\x82\x87\x81\x75\x83\x88\x83\x56\x83\x5F\x81\x76", // 酸化マグネシウム錠３３０ｍｇ「ヨシダ」
    b"\x83\x8D\x83\x58\x83\x6F\x83\x58\x83\x5E\x83\x60\x83\x93\x8F\xF9\x82\x51\x81\x44\x82\x54\x82\x8D\x82\x87", // ロスバスタチン錠２．５ｍｇ
    b"\x83\x74\x83\x46\x83\x4C\x83\x5C\x83\x74\x83\x46\x83\x69\x83\x57\x83\x93\x89\x96\x8E\x5F\x89\x96\x8F\xF9\x82\x55\x82\x4F\x82\x8D\x82\x87\x81\x75\x82\x72\x82\x60\x82\x6D\x82\x63\x82\x6E\x82\x79\x81\x76", // フェキソフェナジン塩酸塩錠６０ｍｇ「ＳＡＮＤＯＺ」
];

/// Units of a dose.
const DOSE_UNITS: &[&[u8]] = &[
    b"\x8F\xF9",                         // 錠
    b"\x82\x87",                         // ｇ
    b"\x95\xEF",                         // 包
    b"\x96\x87",                         // 枚
    b"\x82\x8D\x82\x6B",                 // ｍＬ
    b"\x83\x4A\x83\x76\x83\x5A\x83\x8B", // カプセル
    b"\x96\x7B",                         // 本
    b"\x83\x4C\x83\x62\x83\x67",         // キット
];

/// Usage names.
const USAGES: &[&[u8]] = &[
    b"\x82\x50\x93\xFA\x82\x50\x89\xF1\x92\xA9\x90\x48\x8C\xE3\x95\x9E\x97\x70", // １日１回朝食後服用
    b"\x82\x50\x93\xFA\x82\x51\x89\xF1\x92\xA9\x97\x5B\x90\x48\x8C\xE3\x95\x9E\x97\x70", // １日２回朝夕食後服用
    b"\x82\x50\x93\xFA\x82\x52\x89\xF1\x96\x88\x90\x48\x8C\xE3\x95\x9E\x97\x70", // １日３回毎食後服用
    b"\x82\x50\x93\xFA\x82\x50\x89\xF1\x8F\x41\x90\x51\x91\x4F\x95\x9E\x97\x70", // １日１回就寝前服用
    b"\x94\xAD\x94\x4D\x8E\x9E\x95\x9E\x97\x70",                                 // 発熱時服用
    b"\xE1\x75\x92\xC9\x8E\x9E\x95\x9E\x97\x70",                                 // 疼痛時服用
    b"\x82\x50\x93\xFA\x82\x50\x89\xF1\x93\x5C\x95\x74",                         // １日１回貼付
    b"\x82\x50\x93\xFA\x90\x94\x89\xF1\x8A\xB3\x95\x94\x82\xC9\x93\x68\x95\x7A", // １日数回患部に塗布
];

/// Supplements of a drug (281) and of a usage (311).
const SUPPLEMENTS: &[&[u8]] = &[
    b"\x95\xB2\x8D\xD3",                                                         // 粉砕
    b"\x88\xEA\x95\xEF\x89\xBB",                                                 // 一包化
    b"\x94\xBC\x8F\xF9",                                                         // 半錠
    b"\x8C\xE3\x94\xAD\x95\x69\x82\xD6\x82\xCC\x95\xCF\x8D\x58\x95\x73\x89\xC2", // 後発品への変更不可
    b"\x90\x48\x8A\xD4",                                                         // 食間
    b"\x8B\xF3\x95\xA0\x8E\x9E",                                                 // 空腹時
    b"\x90\x85\x82\xC5\x97\x6E\x82\xA9\x82\xB5\x82\xC4",                         // 水で溶かして
    b"\x8A\x75\x93\xFA",                                                         // 隔日
];

/// Notes in words.
const NOTES: &[&[u8]] = &[
    b"\x96\xB0\x8B\x43\x82\xF0\x8D\xC3\x82\xB7\x82\xB1\x82\xC6\x82\xAA\x82\xA0\x82\xE8\x82\xDC\x82\xB7\x82\xCC\x82\xC5\x81\x41\x8E\xD4\x82\xCC\x89\x5E\x93\x5D\x82\xCD\x82\xA8\x8D\x54\x82\xA6\x82\xAD\x82\xBE\x82\xB3\x82\xA2\x81\x42", // 眠気を催すことがありますので、車の運転はお控えください。
    b"\x83\x4F\x83\x8C\x81\x5B\x83\x76\x83\x74\x83\x8B\x81\x5B\x83\x63\x83\x57\x83\x85\x81\x5B\x83\x58\x82\xC6\x88\xEA\x8F\x8F\x82\xC9\x88\xF9\x82\xDC\x82\xC8\x82\xA2\x82\xC5\x82\xAD\x82\xBE\x82\xB3\x82\xA2\x81\x42", // グレープフルーツジュースと一緒に飲まないでください。
    b"\x94\xAD\x90\x5D\x82\xE2\x82\xA9\x82\xE4\x82\xDD\x82\xAA\x82\xA0\x82\xE7\x82\xED\x82\xEA\x82\xBD\x8F\xEA\x8D\x87\x82\xCD\x81\x41\x95\x9E\x97\x70\x82\xF0\x92\x86\x8E\x7E\x82\xB5\x82\xC4\x88\xE3\x8E\x74\x82\xDC\x82\xBD\x82\xCD\x96\xF2\x8D\xDC\x8E\x74\x82\xC9\x91\x8A\x92\x6B\x82\xB5\x82\xC4\x82\xAD\x82\xBE\x82\xB3\x82\xA2\x81\x42", // 発疹やかゆみがあらわれた場合は、服用を中止して医師または薬剤師に相談してください。
    b"\x8E\x63\x96\xF2\x82\xAA\x82\xA0\x82\xE8\x82\xDC\x82\xB7\x81\x42\x8E\x9F\x89\xF1\x82\xCC\x8E\xF3\x90\x66\x82\xCC\x82\xC6\x82\xAB\x82\xC9\x88\xE3\x8E\x74\x82\xD6\x82\xA8\x93\x60\x82\xA6\x82\xAD\x82\xBE\x82\xB3\x82\xA2\x81\x42", // 残薬があります。次回の受診のときに医師へお伝えください。
    b"\x91\xBC\x82\xCC\x88\xE3\x97\xC3\x8B\x40\x8A\xD6\x82\xC5\x8F\x88\x95\xFB\x82\xB3\x82\xEA\x82\xBD\x96\xF2\x82\xC6\x8F\x64\x95\xA1\x82\xB5\x82\xC4\x82\xA2\x82\xC8\x82\xA2\x82\xB1\x82\xC6\x82\xF0\x8A\x6D\x94\x46\x82\xB5\x82\xDC\x82\xB5\x82\xBD\x81\x42", // 他の医療機関で処方された薬と重複していないことを確認しました。
    b"\x97\xE2\x8F\x8A\x82\xC9\x95\xDB\x91\xB6\x82\xB5\x82\xC4\x82\xAD\x82\xBE\x82\xB3\x82\xA2\x81\x42", // 冷所に保存してください。
    b"\x88\xF9\x82\xDD\x96\x59\x82\xEA\x82\xBD\x82\xC6\x82\xAB\x82\xCD\x81\x41\x8B\x43\x82\xC3\x82\xA2\x82\xBD\x82\xC6\x82\xAB\x82\xC9\x82\x50\x89\xF1\x95\xAA\x82\xF0\x88\xF9\x82\xF1\x82\xC5\x82\xAD\x82\xBE\x82\xB3\x82\xA2\x81\x42", // 飲み忘れたときは、気づいたときに１回分を飲んでください。
];

/// Pharmacies.
const PHARMACIES: &[&[u8]] = &[
    b"\x82\xB3\x82\xAD\x82\xE7\x92\xB2\x8D\xDC\x96\xF2\x8B\xC7", // さくら調剤薬局
    b"\x93\xFA\x96\x7B\x8B\xB4\x82\xD0\x82\xDC\x82\xED\x82\xE8\x96\xF2\x8B\xC7", // 日本橋ひまわり薬局
    b"\x8C\x92\x8D\x4E\x93\xB0\x96\xF2\x8B\xC7\x96\x7B\x93\x58", // 健康堂薬局本店
    b"\x92\x86\x89\x9B\x82\xDD\x82\xC7\x82\xE8\x96\xF2\x8B\xC7", // 中央みどり薬局
];

/// Pharmacists.
const PHARMACISTS: &[&[u8]] = &[
    b"\x96\xF2\x8D\xDC", // 薬剤
    b"\x89\xD4\x8E\x71", // 花子
    b"\x97\xE9\x96\xD8", // 鈴木
    b"\x88\xEA\x98\x59", // 一郎
    b"\x8D\x82\x8B\xB4", // 高橋
    b"\x8C\x92\x93\xF1", // 健二
];

/// Hospitals and surgeries.
const HOSPITALS: &[&[u8]] = &[
    b"\x93\x8C\x8B\x9E\x92\x86\x89\x9B\x91\x8D\x8D\x87\x95\x61\x89\x40", // 東京中央総合病院
    b"\x8D\xB2\x93\xA1\x93\xE0\x89\xC8\x83\x4E\x83\x8A\x83\x6A\x83\x62\x83\x4E", // 佐藤内科クリニック
    b"\x8E\x52\x93\x63\x90\xAE\x8C\x60\x8A\x4F\x89\xC8\x88\xE3\x89\x40", // 山田整形外科医院
    b"\x8D\x91\x97\xA7\x90\xAC\x88\xE7\x88\xE3\x97\xC3\x8C\xA4\x8B\x86\x95\x61\x89\x40", // 国立成育医療研究病院
];

/// Doctors.
const DOCTORS: &[&[u8]] = &[
    b"\x8D\xB2\x93\xA1",         // 佐藤
    b"\x91\xBE\x98\x59",         // 太郎
    b"\x93\x63\x92\x86",         // 田中
    b"\x94\xFC\x8D\xE7",         // 美咲
    b"\x88\xC9\x93\xA1",         // 伊藤
    b"\x90\xBD",                 // 誠
    b"\x93\x6E\x95\xD3",         // 渡辺
    b"\x97\x52\x94\xFC\x8E\x71", // 由美子
];

/// Departments.
const DEPARTMENTS: &[&[u8]] = &[
    b"\x93\xE0\x89\xC8",                         // 内科
    b"\x90\xAE\x8C\x60\x8A\x4F\x89\xC8",         // 整形外科
    b"\x8F\x7A\x8A\xC2\x8A\xED\x93\xE0\x89\xC8", // 循環器内科
    b"\x94\xE7\x95\x86\x89\xC8",                 // 皮膚科
    b"\x8E\xA8\x95\x40\x88\xF4\x8D\x41\x89\xC8", // 耳鼻咽喉科
];

/// Addresses.
const ADDRESSES: &[&[u8]] = &[
    b"\x93\x8C\x8B\x9E\x93\x73\x8D\x60\x8B\xE6\x8C\xD5\x83\x6D\x96\xE5\x82\x50\x92\x9A\x96\xDA\x82\x50\x82\x58\x81\x7C\x82\x58", // 東京都港区虎ノ門１丁目１９−９
    b"\x90\x5F\x93\xDE\x90\xEC\x8C\xA7\x89\xA1\x95\x6C\x8E\x73\x90\xBC\x8B\xE6\x8D\x82\x93\x87\x82\x51\x81\x7C\x82\x50\x82\x58\x81\x7C\x82\x50\x82\x51", // 神奈川県横浜市西区高島２−１９−１２
    b"\x8D\xE9\x8B\xCA\x8C\xA7\x82\xB3\x82\xA2\x82\xBD\x82\xDC\x8E\x73\x91\xE5\x8B\x7B\x8B\xE6\x8D\xF7\x96\xD8\x92\xAC\x82\x52\x81\x7C\x82\x50", // 埼玉県さいたま市大宮区桜木町３−１
];

#[cfg(test)]
mod tests {
    use super::*;
    use crate::ordinary::{canonical, check};

    #[test]
    fn samples_are_accepted_and_near_their_size() {
        assert!((59_000..=60_000).contains(&full().len()), "{} bytes", full().len());
        for target in [1_000, 4_000, 16_000, 60_000, 65_536] {
            let file = sized(target);
            assert!(file.len() <= target && file.len() + 1_000 > target, "{} bytes for {target}", file.len());
            let counts = check(&file).expect("the sample is accepted");
            let lines = file.iter().filter(|&&byte| byte == b'\n').count() as u64;
            assert_eq!(counts.records, lines - 1);
            assert!(counts.groups >= 1 && counts.drugs >= counts.groups);
        }
    }

    /// The days of the groups, as spelled, and as a canonical file spells them.
    fn days_of(file: &[u8]) -> (Vec<Vec<u8>>, Vec<Vec<u8>>) {
        let mut out = vec![0; file.len()];
        let bytes = canonical(file, &mut out).expect("the sample is accepted") as usize;
        let days = |file: &[u8]| {
            let groups = file.split(|&byte| byte == b'\n').filter(|line| line.starts_with(b"5,"));
            groups.map(|line| line[2..].split(|&byte| byte == b',').next().unwrap_or_default().to_vec()).collect()
        };
        (days(file), days(&out[..bytes]))
    }

    #[test]
    fn the_full_sample_has_its_days_in_three_spellings_and_one_when_canonical() {
        let (days, canonical) = days_of(&full());
        for start in ["R", "H", "20"] {
            let count = days.iter().filter(|day| day.starts_with(start.as_bytes())).count();
            assert!(count >= 5, "{count} days begin with {start}");
        }
        assert!(canonical.iter().all(|day| day.starts_with(b"R")));
    }

    /// What is measured on it can be compared with figures of the time before 1 May 2019 had an era of its own.
    #[test]
    fn a_sample_of_older_days_has_the_same_length() {
        let older = sized_from(Day::new(2016, 4, 11), 60_000);
        assert_eq!(older.len(), full().len());
        let (days, canonical) = days_of(&older);
        let in_era = |days: &[Vec<u8>]| days.iter().filter(|day| day.starts_with(b"H")).count();
        assert_eq!(in_era(&canonical), canonical.len());
        assert!(days.iter().zip(&canonical).all(|(day, canonical)| day.len() == 8 || day == canonical));
    }

    #[test]
    fn the_full_sample_has_every_record_number() {
        let file = full();
        for number in [1, 2, 3, 4, 5, 11, 15, 51, 55, 201, 281, 291, 301, 311, 391, 401, 411, 501, 601, 701] {
            let start = format!("\n{number},");
            assert!(file.windows(start.len()).any(|part| part == start.as_bytes()), "no {number}");
        }
    }

    #[test]
    fn much_of_the_full_sample_is_two_byte() {
        let file = full();
        let (mut at, mut two_byte) = (0, 0);
        while at < file.len() {
            let lead = matches!(file[at], 0x81..=0x9F | 0xE0..=0xEF);
            two_byte += if lead { 2 } else { 0 };
            at += if lead { 2 } else { 1 };
        }
        let percent = 100 * two_byte / file.len();
        assert!((36..=45).contains(&percent), "{percent} percent");
    }
}
