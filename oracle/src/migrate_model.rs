//! Document 02's whole files, old to new and back, No. 3, written from its text and document 01's alone:
//! which files are refused on their way up or down, with what, how many bytes the others need, and what is
//! written of them.
//!
//! The Rust has no such calls, so that the port is compared with this. It shares nothing with the port
//! but the text. The file check is the one of `file_model`, and the points go by `convert_model`; all else
//! is taken from the bytes here, in 128 bits, in which no sum or product wraps.

use crate::{
    answer::Answer,
    convert_model::{ask_new, ask_old, to_new, to_old},
    file_model::{Found, POINT_BYTES},
};
use std::ops::Range;

/// Which of the two ways.
#[derive(Clone, Copy, Debug, PartialEq, Eq)]
pub enum Way {
    Up,
    Down,
}
use Way::*;

/// The header of each version without padding: "227 for 1.0 to 1.2 [...] 375 for 1.4". "The header grows or
/// shrinks by 148 bytes."
const OLD: usize = 227;
const NEW: usize = 375;

/// Where the header has the numbers that are looked at or changed.
const VERSION: Range<usize> = 24..26;
const HEADER_SIZE: usize = 94;
const POINT_OFFSET: usize = 96;
const FORMAT: usize = 104;
const RECORD_LENGTH: usize = 105;
const LEGACY: usize = 107;
const WAVEFORM: usize = 227;
const EVLR_START: usize = 235;
const EVLRS: usize = 243;
const LARGE: usize = 247;

const MOST: u128 = 0xffff_ffff;

/// The little-endian number of `width` bytes at `at`.
fn number(file: &[u8], at: usize, width: usize) -> u128 {
    let bytes = &file[at..][..width];
    bytes.iter().rev().fold(0, |n, &b| n << 8 | u128::from(b))
}

/// What is known of a file that goes.
pub struct Plan {
    way: Way,
    header_size: u128,
    offset: u128,
    format: u8,
    record_length: u128,
    /// The count of points, and those by return from 1 to 5, as the new file says them.
    counts: [u128; 6],
    points: Range<usize>,
    /// The bytes of the new file.
    pub bytes: u64,
}

fn refused<T>(number: u64, value: u128) -> Result<T, Answer> {
    Err(Answer::refusal(number, value as u64))
}

/// The format of the other version, if the file is of a version and a format that go this way: "an accepted
/// 1.2 file of format 1 or 3 into 1.4 with format 6 or 7, and such a 1.4 file into 1.2".
fn target(file: &[u8], way: Way) -> Option<u8> {
    match (way, &file[VERSION], file[FORMAT]) {
        (Up, [1, 2], 1) => Some(6),
        (Up, [1, 2], 3) => Some(7),
        (Down, [1, 4], 6) => Some(1),
        (Down, [1, 4], 7) => Some(3),
        _ => None,
    }
}

/// A header size or point offset in the other version.
fn moved(field: u128, way: Way) -> u128 {
    let by = (NEW - OLD) as u128;
    match way {
        Up => field + by,
        // Of an accepted 1.4 file neither is below 375.
        Down => field - by,
    }
}

/// The first refusal other than 22, or what is to be done.
pub fn judge(found: &mut Found, file: &[u8], allowance: u64, way: Way) -> Result<Plan, Answer> {
    // "Refusals after the file check: other version or format"
    let check = found.check(file, allowance);
    if check.number != 0 {
        return Err(check);
    }
    let Some(format) = target(file, way) else {
        return refused(32, 0);
    };

    // "EVLRs or a waveform start present". 1.2 has neither, and "an EVLR pair of which either is zero reads
    // as none".
    if way == Down {
        let [waveform, start] = [WAVEFORM, EVLR_START].map(|at| number(file, at, 8));
        let evlrs = number(file, EVLRS, 4);
        if waveform != 0 || start != 0 && evlrs != 0 {
            return refused(33, 0);
        }
    }

    // "Going up, the legacy counts become zero and the large ones hold them. Going down, the counts by return
    // are the legacy ones if the legacy count isn't zero, else the large ones." So with the count itself:
    // "Effective count: the legacy count if it isn't zero, else the large count".
    let legacy = [0, 1, 2, 3, 4, 5].map(|k| number(file, LEGACY + 4 * k, 4));
    let large = |k: usize| number(file, LARGE + 8 * k, 8);
    let counts = match way {
        Down if legacy[0] == 0 => [0, 1, 2, 3, 4, 5].map(large),
        _ => legacy,
    };
    // "going down, effective count or one of the five counts by return over 2^32-1, or any large count of
    // returns 6 to 15 not zero"
    if way == Down {
        let too_large = counts.iter().any(|&count| count > MOST);
        if too_large || (6..=15).any(|k| large(k) != 0) {
            return refused(34, 0);
        }
    }

    // "header size, then point offset not fitting its field"
    let [size, offset] = [number(file, HEADER_SIZE, 2), number(file, POINT_OFFSET, 4)];
    if moved(size, way) > 0xffff {
        return refused(4, size);
    }
    if moved(offset, way) > MOST {
        return refused(9, offset);
    }

    // "then the conversion's"
    let length = number(file, RECORD_LENGTH, 2);
    let own = file[FORMAT];
    let extra = length - POINT_BYTES[usize::from(own)];
    let end = offset + counts[0] * length;
    let points = offset as usize..end as usize;
    let ask = match way {
        Up => ask_new,
        Down => ask_old,
    };
    let asked = ask(&file[points.clone()], own, extra as u16, counts[0] as u64);
    if asked.number != 0 {
        return Err(asked);
    }
    let rest = file.len() - points.len();
    let bytes = moved(rest as u128, way) + u128::from(asked.value);
    Ok(Plan {
        way,
        header_size: moved(size, way),
        offset: moved(offset, way),
        format,
        record_length: POINT_BYTES[usize::from(format)] + extra,
        counts,
        points,
        bytes: bytes as u64,
    })
}

impl Plan {
    /// The header of the new file without its padding.
    pub fn header(&self, file: &[u8]) -> Vec<u8> {
        let (minor, size) = match self.way {
            Up => (4, NEW),
            Down => (2, OLD),
        };
        // What only 1.4 has stands behind what both have, and is zeros but for the large counts.
        let mut header = file[..OLD].to_vec();
        header.resize(size, 0);
        let mut put = |at: usize, width: usize, value: u128| {
            header[at..at + width].copy_from_slice(&value.to_le_bytes()[..width]);
        };
        put(VERSION.start, 1, 1);
        put(VERSION.start + 1, 1, minor);
        put(HEADER_SIZE, 2, self.header_size);
        put(POINT_OFFSET, 4, self.offset);
        put(FORMAT, 1, self.format.into());
        put(RECORD_LENGTH, 2, self.record_length);
        for (k, &count) in self.counts.iter().enumerate() {
            match self.way {
                Up => {
                    put(LEGACY + 4 * k, 4, 0);
                    put(LARGE + 8 * k, 8, count);
                }
                Down => put(LEGACY + 4 * k, 4, count),
            }
        }
        header
    }

    /// Where the file's own bytes behind the header without padding are, up to the points: "VLRs, padding and
    /// gaps are copied".
    pub fn before(&self) -> Range<usize> {
        match self.way {
            Up => OLD..self.points.start,
            Down => NEW..self.points.start,
        }
    }

    /// Where its points are.
    pub fn points(&self) -> Range<usize> {
        self.points.clone()
    }

    /// Writes the points as they are in the new file: "point bytes follow document 01's upgrade or strict
    /// conversion".
    pub fn write_points(&self, file: &[u8], dst: &mut [u8]) {
        let own = file[FORMAT];
        let extra = number(file, RECORD_LENGTH, 2) - POINT_BYTES[usize::from(own)];
        let convert = match self.way {
            Up => to_new,
            Down => to_old,
        };
        let points = &file[self.points()];
        let written = convert(points, own, extra as u16, self.counts[0] as u64, dst);
        assert!(written.number == 0, "a run that was asked about goes");
    }
}

/// The question: the first refusal other than 22, or the bytes needed.
pub fn ask(found: &mut Found, file: &[u8], allowance: u64, way: Way) -> Answer {
    match judge(found, file, allowance, way) {
        Ok(plan) => Answer::result(plan.bytes),
        Err(refusal) => refusal,
    }
}

/// The call that writes the new file at the front of the destination: "no room last".
pub fn convert(found: &mut Found, file: &[u8], allowance: u64, way: Way, dst: &mut [u8]) -> Answer {
    let plan = match judge(found, file, allowance, way) {
        Ok(plan) if (dst.len() as u64) < plan.bytes => return Answer::refusal(22, plan.bytes),
        Ok(plan) => plan,
        Err(refusal) => return refusal,
    };
    let mut rest = dst;
    let mut take = |n: usize| {
        let (front, back) = std::mem::take(&mut rest).split_at_mut(n);
        rest = back;
        front
    };
    let header = plan.header(file);
    take(header.len()).copy_from_slice(&header);
    let before = &file[plan.before()];
    take(before.len()).copy_from_slice(before);
    let points = plan.counts[0] * plan.record_length;
    plan.write_points(file, take(points as usize));
    let after = &file[plan.points().end..];
    take(after.len()).copy_from_slice(after);
    Answer::result(plan.bytes)
}
