//! Measures the calls of the gateway library against the ordinary implementation on the same inputs, in turn, and prints a
//! table: minimum and median time of a call, nanoseconds per byte of its input at the median, and the ratios library /
//! ordinary. `bench CALL..` measures the named calls alone. `bench --from DAY CALL..` takes files whose newest group is of
//! this day; their dates differ, nothing else. From 20160411 they are byte for byte what was measured before days were
//! written under R.
//!
//! `bench --report DOCUMENT PLOT MACHINE ROWS..` measures nothing: it reads such tables from files and writes them into the
//! document between its two marks, with the date and machine given, and a plot of them as SVG beside it.

mod plot;
mod report;

use notebook_hosts::calendar::Day;
use notebook_hosts::division::{pieces_of, MOST_PIECES_BYTES};
use notebook_hosts::library::{replies, Reply, Told};
use notebook_hosts::timing::{measure, Row, TARGETS};
use notebook_hosts::{kana, ordinary, sample};
use report::{CALLS, OF_ONE_LENGTH};
use std::fs;
use std::path::Path;
use std::process::ExitCode;

/// Bytes of a piece: some 130 pieces for the largest sample.
const CAPACITY: u64 = 500;
const ID: &[u8] = b"20161115000001";

/// IDs in the run of `cut-used`, and its bytes.
const USED: usize = 100_000;
const USED_BYTES: usize = 14 * USED;

/// A piece of this capacity holds one record of `fine`, so that the file makes 999 pieces.
const FINE_CAPACITY: u64 = 101;

const USAGE: &str = "usage: bench [--from DAY] [CALL..] | bench --report DOCUMENT PLOT MACHINE ROWS..";

fn main() -> ExitCode {
    let arguments: Vec<String> = std::env::args().skip(1).collect();
    let arguments: Vec<&str> = arguments.iter().map(String::as_str).collect();
    let result = match arguments[..] {
        ["--report", document, plot, machine, ref rows @ ..] => report(document, plot, machine, rows),
        ["--from", day, ref calls @ ..] => match Day::read(day.as_bytes()) {
            Some(newest) => measure_calls(newest, calls),
            None => Err(format!("not a day: {day}")),
        },
        ref calls => measure_calls(sample::NEWEST, calls),
    };
    result.map_or_else(
        |message| {
            eprintln!("bench: {message}");
            ExitCode::from(2)
        },
        |()| ExitCode::SUCCESS,
    )
}

fn report(document: &str, plot: &str, machine: &str, files: &[&str]) -> Result<(), String> {
    let read = |file: &str| fs::read_to_string(file).map_err(|error| format!("{file}: {error}"));
    let write = |file: &str, text: String| fs::write(file, text).map_err(|error| format!("{file}: {error}"));
    let mut rows = Vec::new();
    for file in files {
        rows.extend(read(file)?.lines().filter_map(Row::parse));
    }
    if rows.is_empty() {
        return Err("no rows".to_string());
    }
    let name = Path::new(plot).file_name().map_or(plot.into(), |name| name.to_string_lossy());
    let renewed = report::renewed(&read(document)?, machine, &name, &rows);
    write(document, renewed.map_err(|message| format!("{document}: {message}"))?)?;
    write(plot, plot::svg(machine, &rows))
}

fn measure_calls(newest: Day, wanted: &[&str]) -> Result<(), String> {
    if !wanted.iter().all(|call| CALLS.contains(call) || OF_ONE_LENGTH.contains(call)) {
        return Err(USAGE.to_string());
    }
    let measured = |call: &&str| wanted.is_empty() || wanted.contains(call);
    println!("{}  ratio of minima  ratio of medians", Row::HEAD);
    for call in OF_ONE_LENGTH.into_iter().filter(measured) {
        match call {
            "cut-999" => compare(
                call,
                &fine(),
                MOST_PIECES_BYTES,
                |file, out: &mut [u8]| ordinary::cut(file, FINE_CAPACITY, ID, b"", out).reply(),
                |file, out| replies::cut(file, FINE_CAPACITY, ID, b"", out),
            ),
            "cut-used" => compare(
                call,
                &[used(), sample::sized_from(newest, TARGETS[0])].concat(),
                MOST_PIECES_BYTES,
                |input, out: &mut [u8]| {
                    let (used, file) = input.split_at(USED_BYTES);
                    ordinary::cut(file, CAPACITY, ID, used, out).reply()
                },
                |input, out| {
                    let (used, file) = input.split_at(USED_BYTES);
                    replies::cut(file, CAPACITY, ID, used, out)
                },
            ),
            "check-kana" => compare(
                call,
                &with_kana_name(sample::sized_from(newest, TARGETS[0])),
                0,
                |file, _: &mut [u8]| ordinary::check(file).reply(),
                |file, _| replies::check(file),
            ),
            _ => compare(
                call,
                &laid(call, cut_pieces(&fine(), FINE_CAPACITY)),
                65_536,
                |input, out: &mut [u8]| ordinary::join(input, out).reply(),
                replies::join,
            ),
        }
    }
    for call in CALLS.into_iter().filter(measured) {
        for target in TARGETS {
            let file = sample::sized_from(newest, target);
            match call {
                "check" => compare(
                    call,
                    &file,
                    0,
                    |file, _: &mut [u8]| ordinary::check(file).reply(),
                    |file, _| replies::check(file),
                ),
                "index" => compare(
                    call,
                    &file,
                    ordinary::MOST_NUMBERS,
                    |file, out: &mut [u32]| ordinary::index(file, out).reply(),
                    replies::index,
                ),
                "canonical" => compare(
                    call,
                    &file,
                    65_536,
                    |file, out: &mut [u8]| ordinary::canonical(file, out).reply(),
                    replies::canonical,
                ),
                "cut" => compare(
                    call,
                    &file,
                    MOST_PIECES_BYTES,
                    |file, out: &mut [u8]| ordinary::cut(file, CAPACITY, ID, b"", out).reply(),
                    |file, out| replies::cut(file, CAPACITY, ID, b"", out),
                ),
                _ => compare(
                    call,
                    &reversed(cut_pieces(&file, CAPACITY)),
                    65_536,
                    |input, out: &mut [u8]| ordinary::join(input, out).reply(),
                    replies::join,
                ),
            }
        }
    }
    Ok(())
}

/// A file of some 60,000 bytes that cuts into 999 pieces: record 1, and 998 notes of 60 bytes, mostly kanji.
fn fine() -> Vec<u8> {
    let mut file = b"JAHISTC04,2\r\n1,A,1,H010108,,,,,,,\r\n".to_vec();
    for _ in 0..998 {
        file.extend(b"4,");
        for _ in 0..26 {
            file.extend([0x8a, 0xbf]);
        }
        file.extend(b"x,,2\r\n");
    }
    file
}

/// The run of a host that makes an ID of the day and a running number: the IDs after `ID`, which begin as it does.
fn used() -> Vec<u8> {
    let ids = (2..).take(USED).map(|number: usize| [&ID[..8], format!("{number:06}").as_bytes()].concat());
    let run = ids.collect::<Vec<_>>().concat();
    assert_eq!(run.len(), USED_BYTES, "an ID has 14 bytes");
    run
}

/// The file with a kana name of twenty katakana characters, 40 bytes, in place of its short half-width one.
fn with_kana_name(mut file: Vec<u8>) -> Vec<u8> {
    kana::rename(&mut file, &b"\x83\x41".repeat(20));
    file
}

fn cut_pieces(file: &[u8], capacity: u64) -> Vec<Vec<u8>> {
    let mut out = vec![0; MOST_PIECES_BYTES];
    let cut = ordinary::cut(file, capacity, ID, b"", &mut out).expect("the sample can be cut");
    pieces_of(&out[..cut.bytes as usize])
}

/// The 999 pieces in the order that the row's name says: a search for piece k goes by how they lie.
fn laid(call: &str, pieces: Vec<Vec<u8>>) -> Vec<u8> {
    assert_eq!(pieces.len(), 999, "the file makes 999 pieces");
    match call {
        "join-999-in-order" => pieces.concat(),
        "join-999-reversed" => reversed(pieces),
        _ => shuffled(&pieces),
    }
}

/// From the last piece to the first.
fn reversed(mut pieces: Vec<Vec<u8>>) -> Vec<u8> {
    pieces.reverse();
    pieces.concat()
}

/// The pieces in an order that jumps about: every 371st, modulo their number, which has no factor in common with it.
fn shuffled(pieces: &[Vec<u8>]) -> Vec<u8> {
    (0..pieces.len()).flat_map(|k| pieces[k * 371 % pieces.len()].iter().copied()).collect()
}

/// A call with its input and its buffer.
type Call<T> = fn(&[u8], &mut [T]) -> Reply;

/// Measures one call on one input and prints its rows.
fn compare<T: Copy + Default + PartialEq>(
    call: &str,
    input: &[u8],
    length: usize,
    mut ordinary: Call<T>,
    mut library: Call<T>,
) {
    let mut buffer = vec![T::default(); length];
    let reply = ordinary(input, &mut buffer);
    assert_eq!(reply.refusal, 0, "the sample is accepted");
    let mut library_buffer = vec![T::default(); length];
    assert_eq!(reply, library(input, &mut library_buffer), "both answer alike");
    assert!(buffer == library_buffer, "both write alike");
    let [ours, theirs] = measure(input, &mut buffer, [&mut ordinary, &mut library]);
    println!("{}", Row::new(call, input.len(), "ordinary", ours).line());
    let ratios = format!("{:>15.2}  {:>16.2}", theirs.minimum / ours.minimum, theirs.median / ours.median);
    println!("{}  {ratios}", Row::new(call, input.len(), "library", theirs).line());
}
