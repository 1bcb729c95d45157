//! Document 01's cases: the frames that the gate's test program `cases` is given, and the answers that it must write
//! (tests/README.md describes both). The tests of the ordinary implementation take this file too.

use notebook::raw::Reply;
use std::fs;
use std::path::Path;

/// The calls of an implementation, each with the reply that the library gives.
pub struct Calls {
    pub check: fn(&[u8]) -> Reply,
    pub index: fn(&[u8], &mut [u32]) -> Reply,
    pub canonical: fn(&[u8], &mut [u8]) -> Reply,
    pub cut: fn(&[u8], u64, &[u8], &[u8], &mut [u8]) -> Reply,
    pub join: fn(&[u8], &mut [u8]) -> Reply,
}

/// A frame and the line that answers it.
pub struct Case {
    pub call: u8,
    pub label: String,
    room: usize,
    capacity: u64,
    id: Vec<u8>,
    used: Vec<u8>,
    pub input: Vec<u8>,
    pub answer: String,
}

/// Takes numbers and runs of bytes from the front.
struct Frames<'a>(&'a [u8]);

impl<'a> Frames<'a> {
    fn bytes(&mut self, count: usize) -> &'a [u8] {
        let (front, rest) = self.0.split_at(count);
        self.0 = rest;
        front
    }

    fn number(&mut self, bytes: usize) -> u64 {
        self.bytes(bytes).iter().fold(0, |value, &byte| value << 8 | u64::from(byte))
    }

    /// A run of bytes after its length.
    fn run(&mut self, length: usize) -> &'a [u8] {
        let count = self.number(length) as usize;
        self.bytes(count)
    }
}

/// A file of `crates/cases`; the crate that is tested is in a folder below the repository's root.
fn read(name: &str) -> Vec<u8> {
    let mut folders = Path::new(env!("CARGO_MANIFEST_DIR")).ancestors().map(|folder| folder.join("crates/cases"));
    let folder = folders.find(|folder| folder.is_dir()).expect("the repository is around this crate");
    fs::read(folder.join(name)).expect("the cases are there")
}

/// The cases of these calls.
pub fn cases(calls: &[u8]) -> Vec<Case> {
    let (stdin, stdout) = (read("stdin"), String::from_utf8(read("stdout")).expect("the answers are UTF-8"));
    let (mut frames, mut lines, mut found) = (Frames(&stdin), stdout.lines(), Vec::new());
    while !frames.0.is_empty() {
        found.push(Case {
            call: frames.number(1) as u8,
            label: String::from_utf8_lossy(frames.run(1)).into_owned(),
            room: frames.number(4) as usize,
            capacity: frames.number(8),
            id: frames.run(1).to_vec(),
            used: frames.run(4).to_vec(),
            input: frames.run(4).to_vec(),
            answer: lines.next().expect("every frame has its answer").to_string(),
        });
    }
    assert!(found.iter().all(|case| b"vickjp".contains(&case.call)), "every frame is of a call that is tested");
    assert_eq!(lines.count(), 256, "the table of all pairs of bytes is what stands after the last frame's line");
    found.retain(|case| calls.contains(&case.call));
    found
}

impl Case {
    /// The line that the program would write if it had these calls.
    pub fn told_by(&self, calls: &Calls) -> String {
        let told = match self.call {
            b'v' => told((calls.check)(&self.input), 3),
            b'i' => self.told_with_numbers(|out| (calls.index)(&self.input, out)),
            b'c' => self.told_with_bytes(1, |out| (calls.canonical)(&self.input, out)),
            b'k' => self.told_with_bytes(2, |out| (calls.cut)(&self.input, self.capacity, &self.id, &self.used, out)),
            _ => self.told_with_bytes(1, |out| (calls.join)(&self.input, out)),
        };
        format!("{}: {told}", self.label).trim_end().to_string()
    }

    fn told_with_numbers(&self, call: impl Fn(&mut [u32]) -> Reply) -> String {
        let mut out: Vec<u32> = (0..self.room as u64).map(|at| ((7_919 * at + 13) % 1_000_003) as u32).collect();
        let told = told(call(&mut out), 1);
        format!("{told}; {}", shown(&out, |number| number.to_string(), " ", |number| number.to_be_bytes().to_vec()))
    }

    fn told_with_bytes(&self, values: usize, call: impl Fn(&mut [u8]) -> Reply) -> String {
        let mut out: Vec<u8> = (0..self.room).map(|at| ((7 * at + 3) % 251) as u8).collect();
        let told = told(call(&mut out), values);
        format!("{told}; {}", shown(&out, |byte| format!("{byte:02x}"), "", |byte| vec![byte]))
    }
}

/// The reply in words: so many values, or the refusal. What a reply does not use is 0.
fn told(reply: Reply, values: usize) -> String {
    let all = [reply.a, reply.b, reply.c];
    let (used, unused) = all.split_at(if reply.refusal > 0 { 0 } else { values });
    assert!(unused.iter().all(|&value| value == 0), "{reply:?}");
    if reply.refusal > 0 {
        return format!("no {} {}", reply.refusal, reply.line);
    }
    used.iter().fold("ok".to_string(), |text, value| format!("{text} {value}"))
}

/// The buffer as `cases` shows it; `bytes` are those of one element.
fn shown<T: Copy>(buffer: &[T], one: impl Fn(T) -> String, between: &str, bytes: impl Fn(T) -> Vec<u8>) -> String {
    if buffer.len() > 200 {
        let (mut low, mut high) = (1_u32, 0_u32);
        for byte in buffer.iter().flat_map(|&element| bytes(element)) {
            low = (low + u32::from(byte)) % 65_521;
            high = (high + low) % 65_521;
        }
        return format!("{} {:08x}", buffer.len(), high << 16 | low);
    }
    buffer.iter().map(|&element| one(element)).collect::<Vec<_>>().join(between)
}
