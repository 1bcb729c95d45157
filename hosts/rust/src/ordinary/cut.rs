//! Cutting: the canonical file in pieces of at most a capacity.

use super::canonical::with_canonical;
use super::{without_line, Pieces, Refusal, ID, NO_CUTTING, SHORT, TO_PATIENT, USED};

/// "A valid ID is 14 digits and nothing else."
const ID_BYTES: usize = 14;

/// Writes the pieces one after another from the front of `out` on and answers their count and total length; after them and
/// on a refusal `out` keeps its contents. `used` is the run of IDs that have been used.
pub fn cut(file: &[u8], capacity: u64, id: &[u8], used: &[u8], out: &mut [u8]) -> Result<Pieces, Refusal> {
    with_canonical(file, |canonical| {
        let id: &[u8; ID_BYTES] = id.try_into().map_err(|_| without_line(ID))?;
        if !id.iter().all(u8::is_ascii_digit) {
            return Err(without_line(ID));
        }
        if is_used(id, used) {
            return Err(without_line(USED));
        }
        // No piece is longer than the whole, so a capacity beyond it is as good as the whole.
        let capacity = usize::try_from(capacity).unwrap_or(usize::MAX);
        if canonical.len() <= capacity {
            let out = out.get_mut(..canonical.len()).ok_or(without_line(SHORT))?;
            out.copy_from_slice(canonical);
            return Ok(Pieces { count: 1, bytes: canonical.len() as u64 });
        }
        cut_in_pieces(canonical, capacity, id, out)
    })
}

/// "the run's length isn't a multiple of 14 or one of its IDs is the one given".
fn is_used(id: &[u8; ID_BYTES], used: &[u8]) -> bool {
    let (ids, rest) = used.as_chunks();
    !rest.is_empty() || ids.contains(id)
}

fn cut_in_pieces(canonical: &[u8], capacity: usize, id: &[u8; ID_BYTES], out: &mut [u8]) -> Result<Pieces, Refusal> {
    let (first_line, records) = canonical.split_at(TO_PATIENT.len());
    // "Numbers n of one, two, three digits are tried in turn until one width serves".
    let (count, bytes) = (1..=3).find_map(|width| pack(records, capacity, width)).ok_or(without_line(NO_CUTTING))?;
    let mut out = out.get_mut(..bytes).ok_or(without_line(SHORT))?;
    let mut rest = records;
    for k in 1..=count {
        let Some(run) = first_run(rest, capacity, digits_in(count), k) else { break };
        out = put(out, first_line);
        out = put(out, &rest[..run]);
        out = put(out, b"911,");
        out = put(out, id);
        out = put_number(out, count, b",");
        out = put_number(out, k, b",");
        out = put(out, b"\r\n");
        rest = &rest[run..];
    }
    Ok(Pieces { count: count as u64, bytes: bytes as u64 })
}

/// Count and total length of the pieces if a count of `width` digits serves: "every record finds a piece and the count of
/// pieces has that many digits".
fn pack(records: &[u8], capacity: usize, width: usize) -> Option<(usize, usize)> {
    let most = 10_usize.pow(width as u32) - 1;
    let (mut rest, mut count, mut bytes) = (records, 0, 0);
    while !rest.is_empty() && count < most {
        let run = first_run(rest, capacity, width, count + 1)?;
        count += 1;
        bytes += run + frame(width, count);
        rest = &rest[run..];
    }
    (rest.is_empty() && digits_in(count) == width).then_some((count, bytes))
}

/// The bytes of as many records from the front of `rest` as fit into piece `k`; `None` if not even one does. Only the last
/// of them is looked for, from the back.
#[inline]
fn first_run(rest: &[u8], capacity: usize, width: usize, k: usize) -> Option<usize> {
    let room = capacity.checked_sub(frame(width, k))?.min(rest.len());
    rest[..room].iter().rposition(|&byte| byte == b'\n').map(|end| end + 1)
}

/// The bytes of piece `k` beside its records: line 1 and 911,ID,n,k with its line end.
fn frame(width: usize, k: usize) -> usize {
    TO_PATIENT.len() + b"911,".len() + ID_BYTES + 1 + width + 1 + digits_in(k) + 2
}

/// Digits of a number from 1 to 999; 1 for 0 too.
fn digits_in(number: usize) -> usize {
    match number {
        0..=9 => 1,
        10..=99 => 2,
        _ => 3,
    }
}

/// Writes bytes at the front and hands back what follows them.
#[inline]
fn put<'a>(out: &'a mut [u8], bytes: &[u8]) -> &'a mut [u8] {
    let (front, rest) = out.split_at_mut(bytes.len());
    front.copy_from_slice(bytes);
    rest
}

/// Writes `before` and a number from 1 to 999 without leading zeros.
#[inline]
fn put_number<'a>(out: &'a mut [u8], number: usize, before: &[u8]) -> &'a mut [u8] {
    let digit = |power: usize| b'0' + (number / power % 10) as u8;
    let digits = [digit(100), digit(10), digit(1)];
    put(put(out, before), &digits[3 - digits_in(number)..])
}

#[cfg(test)]
mod tests {
    use super::super::{canonical, join};
    use super::*;
    use crate::sample;

    const FILE_ID: &[u8] = b"12345678901234";

    /// Direction 2: record 1 of document 01's small file and `notes` records 4.
    fn with_notes(notes: usize) -> Vec<u8> {
        let mut file = b"JAHISTC04,2\r\n1,A,1,19890108,,,,,,,\r\n".to_vec();
        file.extend_from_slice(&b"4,x,,2\r\n".repeat(notes));
        file
    }

    fn counted(notes: usize, capacity: u64) -> Result<(u64, u64), (u8, u64)> {
        let mut out = vec![0; 131_072];
        cut(&with_notes(notes), capacity, FILE_ID, b"", &mut out)
            .map(|pieces| (pieces.count, pieces.bytes))
            .map_err(|refusal| (refusal.number, refusal.line))
    }

    /// The pieces that cutting writes, one by one.
    fn pieces(file: &[u8], capacity: u64) -> Vec<Vec<u8>> {
        let mut out = vec![b'?'; 131_072];
        let cut = cut(file, capacity, FILE_ID, b"", &mut out).expect("the file can be cut");
        assert!(out[cut.bytes as usize..].iter().all(|&byte| byte == b'?'));
        let mut pieces: Vec<Vec<u8>> = Vec::new();
        for line in out[..cut.bytes as usize].split_inclusive(|&byte| byte == b'\n') {
            if line.starts_with(b"JAHISTC04,") {
                pieces.push(Vec::new());
            }
            pieces.last_mut().expect("a piece is open").extend_from_slice(line);
        }
        assert_eq!(pieces.len() as u64, cut.count);
        pieces
    }

    fn joined(pieces: &[&[u8]]) -> Vec<u8> {
        let mut out = vec![0; 65_536];
        let bytes = join(&pieces.concat(), &mut out).expect("the pieces are joined");
        out.truncate(bytes as usize);
        out
    }

    fn canonical_of(file: &[u8]) -> Vec<u8> {
        let mut out = vec![0; 65_536];
        let bytes = canonical(file, &mut out).expect("the file is accepted");
        out.truncate(bytes as usize);
        out
    }

    #[test]
    fn cases_of_document_01() {
        assert_eq!(counted(20, 69), Ok((6, 404)));
        assert_eq!(counted(18, 60), Ok((10, 547)));
        assert_eq!(counted(18, 59), Err((18, 0)));
        assert_eq!(counted(2, 51), Ok((1, 51)));
        assert_eq!(counted(2, 50), Err((18, 0)));
    }

    #[test]
    fn a_piece_byte_by_byte() {
        let pieces = pieces(&with_notes(20), 69);
        assert_eq!(pieces[0], b"JAHISTC04,2\r\n1,A,1,H010108,,,,,,,\r\n4,x,,2\r\n911,12345678901234,6,1\r\n",);
        assert_eq!(pieces[5], b"JAHISTC04,2\r\n4,x,,2\r\n4,x,,2\r\n4,x,,2\r\n911,12345678901234,6,6\r\n",);
    }

    #[test]
    fn capacities_and_ids_of_any_kind() {
        for capacity in [0, 1, 36, 37, 50] {
            assert_eq!(counted(2, capacity), Err((18, 0)), "{capacity}");
        }
        for capacity in [u64::MAX, u64::MAX - 36, 1 << 32, 52] {
            assert_eq!(counted(2, capacity), Ok((1, 51)), "{capacity}");
        }
        let no = |number, line| Err(Refusal { number, line });
        for id in [&b""[..], b"1234567890123", b"123456789012345", b"1234567890123a", b"1234567890123:", b" 1234567890123"]
        {
            assert_eq!(cut(&with_notes(2), 51, id, b"", &mut []), no(17, 0));
            assert_eq!(cut(&with_notes(2), 0, id, b"", &mut []), no(17, 0));
            assert_eq!(cut(b"JAHISTC04,2\r\n5\r\n", 0, id, b"", &mut []), no(7, 2));
        }
        assert_eq!(cut(&with_notes(2), 50, FILE_ID, b"", &mut []), no(18, 0));
        let mut out = [b'?'; 404];
        assert_eq!(cut(&with_notes(20), 69, FILE_ID, b"", &mut out[..403]), no(20, 0));
        assert_eq!(cut(&with_notes(2), 51, FILE_ID, b"", &mut out[..50]), no(20, 0));
        assert_eq!(out, [b'?'; 404]);
        assert_eq!(cut(&with_notes(20), 69, FILE_ID, b"", &mut out), Ok(Pieces { count: 6, bytes: 404 }));
    }

    #[test]
    fn runs_of_used_ids() {
        const OTHER: &[u8] = b"00000000000000";
        let file = with_notes(20);
        let mut out = [b'?'; 404];
        let mut answer = |capacity: u64, id: &[u8], used: &[&[u8]], room: usize| {
            let answer = cut(&file, capacity, id, &used.concat(), &mut out[..room]);
            if answer.is_err() {
                assert_eq!(out, [b'?'; 404]);
            }
            out = [b'?'; 404];
            answer.map(|pieces| pieces.count).map_err(|refusal| (refusal.number, refusal.line))
        };

        let used = Err((24, 0));
        for run in [&[FILE_ID][..], &[FILE_ID, OTHER], &[OTHER, FILE_ID], &[OTHER, FILE_ID, OTHER], &[FILE_ID, FILE_ID]] {
            // After 17 and before 18 and 20; also where one piece serves.
            assert_eq!(answer(69, FILE_ID, run, 404), used);
            assert_eq!(answer(69, FILE_ID, run, 0), used);
            assert_eq!(answer(0, FILE_ID, run, 404), used);
            assert_eq!(answer(u64::MAX, FILE_ID, run, 404), used);
            assert_eq!(answer(0, &FILE_ID[1..], run, 404), Err((17, 0)));
            assert_eq!(answer(69, OTHER, &[FILE_ID], 404), Ok(6));
            assert_eq!(cut(b"JAHISTC04,2\r\n5\r\n", 0, b"", &run.concat(), &mut []).map_err(|no| no.number), Err(7));
        }
        for length in (0..=42).filter(|length| length % 14 != 0) {
            assert_eq!(answer(69, FILE_ID, &[&OTHER.repeat(3)[..length]], 404), used, "{length}");
            assert_eq!(answer(69, FILE_ID, &[&FILE_ID.repeat(3)[..length]], 404), used, "{length}");
            assert_eq!(answer(0, b"", &[&FILE_ID.repeat(3)[..length]], 404), Err((17, 0)), "{length}");
        }

        assert_eq!(answer(69, FILE_ID, &[], 404), Ok(6));
        assert_eq!(answer(69, FILE_ID, &[OTHER, OTHER, b"\0\r\n,..........", &[0xFF; 14]], 404), Ok(6));
        assert_eq!(answer(0, FILE_ID, &[OTHER], 404), Err((18, 0)));
        assert_eq!(answer(69, FILE_ID, &[OTHER], 403), Err((20, 0)));
        for place in 0..14 {
            let mut near = FILE_ID.to_vec();
            near[place] ^= 1;
            assert_eq!(answer(69, FILE_ID, &[OTHER, &near], 404), Ok(6), "{place}");
            // The ID lies across two IDs of the run, but for the first place.
            let across = [&OTHER[..place], FILE_ID, &OTHER[place..]];
            assert_eq!(answer(69, FILE_ID, &across, 404), if place == 0 { used } else { Ok(6) }, "{place}");
        }
    }

    /// All orders of the numbers below `count`.
    fn orders(count: usize) -> Vec<Vec<usize>> {
        if count == 0 {
            return vec![Vec::new()];
        }
        let mut orders_of_count = Vec::new();
        for order in orders(count - 1) {
            for at in 0..count {
                let mut order = order.clone();
                order.insert(at, count - 1);
                orders_of_count.push(order);
            }
        }
        orders_of_count
    }

    #[test]
    fn pieces_in_every_order_give_the_canonical_file_back() {
        let file = with_notes(20);
        let (pieces, canonical) = (pieces(&file, 69), canonical_of(&file));
        let orders = orders(pieces.len());
        assert_eq!(orders.len(), 720);
        for order in orders {
            let pieces: Vec<&[u8]> = order.iter().map(|&piece| &pieces[piece][..]).collect();
            assert_eq!(joined(&pieces), canonical, "{order:?}");
        }
    }

    #[test]
    fn pieces_turned_and_reversed_give_the_canonical_file_back() {
        let small = (with_notes(18), vec![60, 61, 70, 100]);
        let full = (sample::full(), vec![287, 288, 300, 999, 6_000, 20_000, 40_000]);
        for (file, capacities) in [small, full] {
            let canonical = canonical_of(&file);
            for capacity in capacities {
                let pieces = pieces(&file, capacity);
                let mut pieces: Vec<&[u8]> = pieces.iter().map(|piece| &piece[..]).collect();
                assert!(pieces.iter().all(|piece| piece.len() as u64 <= capacity));
                let turns = pieces.len().min(20);
                for _ in 0..turns {
                    pieces.rotate_left(1);
                    assert_eq!(joined(&pieces), canonical);
                }
                pieces.reverse();
                assert_eq!(joined(&pieces), canonical);
            }
        }
    }
}
