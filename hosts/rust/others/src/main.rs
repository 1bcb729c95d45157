//! Measures what a user would pick instead for a part of check's work, over the same bytes: csv-core splits the file into
//! records and fields, encoding_rs decodes it from Shift_JIS. The library's check is measured in the same rounds. Each is
//! used as its manual says, with buffers lent to it and nothing allocated in a call.

use csv_core::{ReadRecordResult, Reader};
use encoding_rs::{DecoderResult, SHIFT_JIS};
use notebook_hosts::library::replies;
use notebook_hosts::sample;
use notebook_hosts::timing::{measure, Row, TARGETS};

/// More than the items of any record.
const MOST_FIELDS: usize = 64;

fn main() {
    println!("{}", Row::HEAD);
    let mut reader = Reader::new();
    for file in TARGETS.map(sample::sized) {
        let mut text = vec![0; 3 * file.len()];
        verify(&mut reader, &file, &mut text);
        let mut split = |file: &[u8], out: &mut [u8]| fields(&mut reader, file, out);
        let [split, decode, check] = measure(&file, &mut text, [&mut split, &mut decoded, &mut records]);
        for (code, times) in [("csv-core", split), ("encoding_rs", decode), ("check", check)] {
            println!("{}", Row::new("parts", file.len(), code, times).line());
        }
    }
}

/// All three do their work on the file: it is accepted, every item is found, and the text is the file's.
fn verify(reader: &mut Reader, file: &[u8], text: &mut [u8]) {
    assert_eq!(replies::check(file).refusal, 0, "the sample is accepted");
    let items = file.iter().filter(|&&byte| byte == b',' || byte == b'\n').count();
    assert_eq!(fields(reader, file, text), items, "csv-core finds every item");
    let length = decoded(file, text);
    let decoded = std::str::from_utf8(&text[..length]).expect("encoding_rs writes UTF-8");
    assert_eq!(*SHIFT_JIS.encode(decoded).0, *file, "encoding_rs reads every character");
}

/// Splits every record of the file into its fields, one record at a time, and counts them. No second byte of a Shift_JIS
/// pair is a comma, a quote or a line end, so the bytes can be split as they are.
fn fields(reader: &mut Reader, mut file: &[u8], out: &mut [u8]) -> usize {
    let mut ends = [0; MOST_FIELDS];
    let mut count = 0;
    reader.reset();
    loop {
        let (result, read, _, fields) = reader.read_record(file, out, &mut ends);
        file = &file[read..];
        match result {
            ReadRecordResult::Record => count += fields,
            // The file is at its end: the next call with no bytes says so.
            ReadRecordResult::InputEmpty if file.is_empty() => {}
            ReadRecordResult::End => return count,
            other => panic!("a record does not fit: {other:?}"),
        }
    }
}

/// Decodes the file to UTF-8 and gives the length of that.
fn decoded(file: &[u8], out: &mut [u8]) -> usize {
    let mut decoder = SHIFT_JIS.new_decoder_without_bom_handling();
    let (result, _, written) = decoder.decode_to_utf8_without_replacement(file, out, true);
    assert_eq!(result, DecoderResult::InputEmpty, "every pair is a character, and the text fits");
    written
}

/// Checks the file and gives the count of its records.
fn records(file: &[u8], _: &mut [u8]) -> usize {
    replies::check(file).a as usize
}
