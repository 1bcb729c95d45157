//! Canonical: "D in the era form, P without hyphen, R without leading zeros, no 1Ah, all else kept."

use super::check::pass;
use super::{stack, without_line, Refusal, Watcher, MOST_BYTES, SHORT};

/// Writes the canonical file from the front of `out` on and answers its bytes; after it and on a refusal `out` keeps its
/// contents.
pub fn canonical(file: &[u8], out: &mut [u8]) -> Result<u64, Refusal> {
    with_canonical(file, |canonical| {
        let out = out.get_mut(..canonical.len()).ok_or(without_line(SHORT))?;
        out.copy_from_slice(canonical);
        Ok(canonical.len() as u64)
    })
}

/// Lends the canonical file of an accepted file. It is written while the file is checked, and is never longer.
pub(super) fn with_canonical<R>(file: &[u8], work: impl FnOnce(&[u8]) -> Result<R, Refusal>) -> Result<R, Refusal> {
    stack::with_bytes(file.len().min(MOST_BYTES), |out| {
        let length = write(file, out)?;
        work(&out[..length])
    })
}

#[inline(never)]
fn write(file: &[u8], out: &mut [u8]) -> Result<usize, Refusal> {
    let mut writer = Writer { file, taken: 0, out, written: 0 };
    pass(file, &mut writer)?;
    writer.take_to(file.len() - usize::from(file.ends_with(&[0x1A])));
    Ok(writer.written)
}

/// Copies runs of bytes that stay as they are: a file in canonical form is one run.
struct Writer<'a> {
    file: &'a [u8],
    /// The bytes of the file that have been copied or respelled.
    taken: usize,
    out: &'a mut [u8],
    written: usize,
}

impl Writer<'_> {
    fn take_to(&mut self, to: usize) {
        let file = self.file;
        self.put(&file[self.taken..to]);
        self.taken = to;
    }

    fn put(&mut self, bytes: &[u8]) {
        self.out[self.written..][..bytes.len()].copy_from_slice(bytes);
        self.written += bytes.len();
    }
}

impl Watcher for Writer<'_> {
    const RESPELLS: bool = true;

    #[inline(never)]
    fn respell(&mut self, from: usize, to: usize, spelling: &[u8]) {
        self.take_to(from);
        self.put(spelling);
        self.taken = to;
    }
}

#[cfg(test)]
mod tests {
    use super::*;
    use crate::sample;

    fn canonical_of(file: &[u8]) -> Result<Vec<u8>, Refusal> {
        let mut out = vec![b'?'; 65_600];
        let bytes = canonical(file, &mut out)? as usize;
        assert!(out[bytes..].iter().all(|&byte| byte == b'?'));
        out.truncate(bytes);
        Ok(out)
    }

    #[test]
    fn the_file_of_37_bytes() {
        let file = b"JAHISTC04,2\r\n1,A,1,19890108,,,,,,,\r\n\x1A";
        let canonical_file = b"JAHISTC04,2\r\n1,A,1,H010108,,,,,,,\r\n";
        assert_eq!((file.len(), canonical_file.len()), (37, 35));
        assert_eq!(canonical_of(file), Ok(canonical_file.to_vec()));
        assert_eq!(canonical_of(canonical_file), Ok(canonical_file.to_vec()));
        let mut out = [b'?'; 35];
        assert_eq!(canonical(file, &mut out[..34]), Err(without_line(20)));
        assert_eq!(canonical(b"JAHISTC04,2\r\n1,A,1,19890108,,,,,,\r\n", &mut out), Err(Refusal { number: 7, line: 2 }));
        assert_eq!(out, [b'?'; 35]);
    }

    #[test]
    fn every_item_that_is_respelled() {
        let before = [
            "1,A,1,18730101,105-0001,x,,,,,",
            "3,x,19120729,19120730,1",
            "3,x,19261224,19261225,1",
            "3,x,,19890107,1",
            "3,x,20190430,20190501,1",
            "3,x,H310430,H310501,1",
            "4,x,20871231,1",
            "4,x,H991231,1",
            "5,H320229,1",
            "5,20190501,1",
            "5,R010501,1",
            "5,H310501,1",
            "5,20190430,1",
            "5,20160411,1",
            "11,20160411,13,4,1234567,105-0001,105-0001,105-0001,1",
            "201,001,d,1,e,,,1",
            "281,01,01,1",
            "291,01,20160411,1",
            "301,001,f,010,01,,,,1",
            "311,01,x,1",
            "391,01,x,1",
            "201,002,d,1,e,,,1",
            "601,105-0001,20160229",
            "601,R010501,H310501",
            "701,a,b,c,20160411,19890108,1",
            "701,H310501,H310501,H310501,R010501,H310501,1",
        ];
        let after = [
            "1,A,1,M060101,1050001,x,,,,,",
            "3,x,M450729,T010730,1",
            "3,x,T151224,S011225,1",
            "3,x,,S640107,1",
            "3,x,H310430,R010501,1",
            "3,x,H310430,R010501,1",
            "4,x,R691231,1",
            "4,x,R691231,1",
            "5,R020229,1",
            "5,R010501,1",
            "5,R010501,1",
            "5,R010501,1",
            "5,H310430,1",
            "5,H280411,1",
            "11,20160411,13,4,1234567,1050001,105-0001,105-0001,1",
            "201,1,d,1,e,,,1",
            "281,1,01,1",
            "291,1,20160411,1",
            "301,1,f,10,01,,,,1",
            "311,1,x,1",
            "391,1,x,1",
            "201,2,d,1,e,,,1",
            "601,105-0001,H280229",
            "601,R010501,R010501",
            "701,a,b,c,H280411,H010108,1",
            "701,H310501,H310501,H310501,R010501,R010501,1",
        ];
        let file = |records: &[&str]| format!("JAHISTC04,2\r\n{}\r\n", records.join("\r\n")).into_bytes();
        assert_eq!(canonical_of(&file(&before)), Ok(file(&after)));
        assert_eq!(canonical_of(&file(&after)), Ok(file(&after)));
    }

    #[test]
    fn a_canonical_file_is_its_own() {
        for target in [1_000, 2_100, 16_000, 16_500, 60_000, 65_536] {
            let file = sample::sized(target);
            let once = canonical_of(&file).expect("the sample is accepted");
            assert!(once.len() < file.len());
            assert_eq!(canonical_of(&once), Ok(once.clone()));
        }
    }
}
