//! Document 02's append, No. 1, written from its text and document 01's alone: which offers of records are
//! refused, which are already in, what changes in a file that takes them, and in which stores.
//!
//! The Rust has no such call, so that the port is compared with this. It shares nothing with the port
//! but the text. The file check is the one of `file_model`; all else is taken from the bytes here, in
//! 128 bits, in which no sum or product wraps.

use crate::{
    answer::Answer,
    capi::{BoundsNumbers, Span, Sweep},
    file_model::Found,
};

/// "Stores are whole 512-byte sectors (the last may be less)".
pub const SECTOR: u128 = 512;

/// Where the header has the numbers that an append looks at or changes.
const POINT_OFFSET: usize = 96;
const RECORD_LENGTH: usize = 105;
const COUNTS: usize = 107;
const BOUNDS: usize = 179;

/// What is offered: the first n of the records, to a file in which so many points are believed to stand.
#[derive(Clone, Copy)]
pub struct Offer<'a> {
    pub allowance: u64,
    pub records: &'a [u8],
    pub n: u64,
    pub believed: u64,
}

/// The little-endian number of `width` bytes at `at`.
fn number(file: &[u8], at: usize, width: usize) -> u128 {
    let bytes = &file[at..][..width];
    bytes.iter().rev().fold(0, |n, &b| n << 8 | u128::from(b))
}

/// "bytes wanted in all, 0 if over 2^64-1".
fn wanted<T>(number: u64, bytes: u128) -> Result<T, Answer> {
    refused(number, u64::try_from(bytes).unwrap_or(0))
}

/// A refusal that names no record.
fn refused<T>(number: u64, value: u64) -> Result<T, Answer> {
    Err(Answer::refusal(number, value))
}

/// What is to be done with an offer: the sweep that is to be added, or none where the records are already
/// in; or the first refusal.
pub fn judge(found: &mut Found, file: &[u8], offer: Offer) -> Result<Option<Sweep>, Answer> {
    let Offer {
        allowance,
        records,
        n,
        believed,
    } = offer;
    // "Refusals, after 01's file check: not 1.2; n is zero; records short (1)"
    let check = found.check(file, allowance);
    if check.number != 0 {
        return Err(check);
    }
    if file[24..26] != [1, 2] {
        return refused(28, 0);
    }
    if n == 0 {
        return refused(29, 0);
    }
    let length = number(file, RECORD_LENGTH, 2);
    let bytes = u128::from(n) * length;
    if (records.len() as u128) < bytes {
        return wanted(1, bytes);
    }
    let records = &records[..bytes as usize];

    // "Count higher by exactly n with those same bytes last: 'already in'"; "count neither"
    let count = number(file, COUNTS, 4);
    let end = number(file, POINT_OFFSET, 4) + count * length;
    if count != u128::from(believed) {
        let higher = count == u128::from(believed) + u128::from(n);
        return match higher && file[..end as usize].ends_with(records) {
            true => Ok(None),
            false => refused(30, 0),
        };
    }

    // "a count over 2^32-1"; "returns 0, 6 and 7 are counted nowhere"
    let mut counts = [0, 1, 2, 3, 4, 5].map(|k| number(file, COUNTS + 4 * k, 4));
    counts[0] += u128::from(n);
    for record in records.chunks(length as usize) {
        let return_number = usize::from(record[14] & 7);
        if (1..=5).contains(&return_number) {
            counts[return_number] += 1;
        }
    }
    if counts.iter().any(|&count| count > 0xffff_ffff) {
        return refused(31, 0);
    }

    // "no room for the records"
    if (file.len() as u128) < end + bytes {
        return wanted(22, end + bytes);
    }
    let [points, first, second, third, fourth, fifth] = counts;
    let sweep = [end, bytes, points, first, second, third, fourth, fifth];
    Ok(Some(sweep.map(|n| n as u64)))
}

/// The whole append: the value is 0 where the records are added and 1 where they are already in.
pub fn append(found: &mut Found, file: &mut [u8], offer: Offer, bounds: &BoundsNumbers) -> Answer {
    match judge(found, file, offer) {
        Ok(Some(sweep)) => {
            // "the records go after the points, then the header's count, the five counts by return
            // and the bounds change"
            let [at, bytes] = [sweep[0], sweep[1]].map(|n| n as usize);
            file[at..at + bytes].copy_from_slice(&offer.records[..bytes]);
            write_header(file, &sweep, bounds);
            Answer::result(0u8)
        }
        Ok(None) => Answer::result(1u8),
        Err(refusal) => refusal,
    }
}

/// The six counts of a sweep, 32 bits of each, and the bounds, at their places in the header; what would
/// stand past the end of the file is nowhere.
fn write_header(file: &mut [u8], sweep: &Sweep, bounds: &BoundsNumbers) {
    let counts = sweep[2..]
        .iter()
        .flat_map(|n| n.to_le_bytes()[..4].to_vec());
    let bounds = bounds.iter().flat_map(|n| n.to_le_bytes());
    for (at, byte) in (COUNTS..).zip(counts).chain((BOUNDS..).zip(bounds)) {
        if let Some(place) = file.get_mut(at) {
            *place = byte;
        }
    }
}

/// The sectors from the one in which a sweep begins to where its records end: the first, and the one
/// after the last.
fn sectors(sweep: &Sweep) -> [u128; 2] {
    let [at, bytes] = [sweep[0], sweep[1]].map(u128::from);
    [at / SECTOR, (at + bytes).div_ceil(SECTOR)]
}

/// How many stores a sweep takes: "point sectors ascending .. then sector 0".
pub fn stores(sweep: &Sweep) -> u64 {
    let [first, after] = sectors(sweep);
    (after - first + 1) as u64
}

/// The `k`-th store, counted from 0: the sector that is stored, and its bytes are the value; past the last
/// store two zeros and 0. A refusal tells no sector.
pub fn store(
    file: &mut [u8],
    sweep: &Sweep,
    records: &[u8],
    bounds: &BoundsNumbers,
    k: u64,
) -> (Answer, Option<Span>) {
    match stored(file, sweep, records, bounds, k) {
        Ok(sector) => (Answer::result(sector[1]), Some(sector)),
        Err(refusal) => (refusal, None),
    }
}

fn stored(
    file: &mut [u8],
    sweep: &Sweep,
    records: &[u8],
    bounds: &BoundsNumbers,
    k: u64,
) -> Result<Span, Answer> {
    let size = file.len() as u128;
    let [at, bytes] = [sweep[0], sweep[1]].map(u128::from);
    if (records.len() as u128) < bytes {
        return wanted(1, bytes);
    }
    if size < at + bytes {
        return wanted(22, at + bytes);
    }
    let [first, after] = sectors(sweep);
    let number = first + u128::from(k);
    if number > after {
        return Ok([0, 0]);
    }
    // "then sector 0 with the new"
    if number == after {
        write_header(file, sweep, bounds);
        return Ok([0, size.min(SECTOR) as u64]);
    }
    // "point sectors ascending, each with the old header"
    let start = number * SECTOR;
    let end = size.min(start + SECTOR);
    for place in start..end {
        if (at..at + bytes).contains(&place) {
            file[place as usize] = records[(place - at) as usize];
        }
    }
    Ok([start as u64, (end - start) as u64])
}
