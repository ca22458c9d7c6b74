//! Document 01's rules about files, with document 02's on waveform packets, written from their text
//! alone: which files are accepted, of what parts they are, what their points hold and what is written
//! back.
//!
//! The Rust has no such calls, so that the port is compared with this. It shares nothing with the
//! port but the text, and only the points are the Rust's own, but for near infrared 0. All numbers are
//! taken as 128 bits, in which no sum or product of theirs wraps.

use crate::{
    answer::Answer,
    capi::{Cursor, PointNumbers},
    point,
};
use las::{point::Format, raw::Point};

/// Kind, start and length of a part. The kinds are numbered as the part table does.
pub type Part = [u64; 3];

pub const HEADER: u64 = 0;
pub const VLR: u64 = 1;
pub const GAP: u64 = 2;
pub const POINTS: u64 = 3;
pub const EVLR: u64 = 4;
pub const WAVEFORM: u64 = 5;

/// "Point record bytes, formats 0 to 10".
pub const POINT_BYTES: [u128; 11] = [20, 28, 26, 34, 57, 63, 30, 36, 38, 59, 67];

/// The little-endian number of `width` bytes at `at`.
fn number(file: &[u8], at: u128, width: usize) -> u128 {
    let bytes = &file[at as usize..][..width];
    bytes.iter().rev().fold(0, |n, &b| n << 8 | u128::from(b))
}

fn part(kind: u64, start: u128, length: u128) -> Part {
    [kind, start as u64, length as u64]
}

/// A refusal that names no record. Only the bytes wanted can be too large for a value, and those of
/// a header are not.
fn refused<T>(number: u64, value: u128) -> Result<T, Answer> {
    Err(Answer::refusal(number, value as u64))
}

/// "Fewer than": the file has at least so many bytes.
fn wants(file: &[u8], bytes: u128) -> Result<(), Answer> {
    if (file.len() as u128) < bytes {
        return refused(1, bytes);
    }
    Ok(())
}

/// "Header sizes, from the standard": by the minor number of versions 1.0 to 1.4.
pub fn standard_size(minor: u128) -> u128 {
    match minor {
        0..=2 => 227,
        3 => 235,
        _ => 375,
    }
}

/// A kind of record: how long its head is, how wide the length in it, and what is answered where it
/// does not end in time.
struct Record {
    kind: u64,
    head: u128,
    width: usize,
    extent: u64,
}

const VLRS: Record = Record {
    kind: VLR,
    head: 54,
    width: 2,
    extent: 11,
};

const EVLRS: Record = Record {
    kind: EVLR,
    head: 60,
    width: 8,
    extent: 13,
};

/// "The waveform packets are a record with a 60-byte head", refused with "10 or 13".
const PACKETS: Record = Record {
    kind: WAVEFORM,
    ..EVLRS
};

/// What the rules found in a file, as far as they came. It is used again from file to file.
#[derive(Default)]
pub struct Found {
    /// The VLRs and then the EVLRs, or the waveform packets, that were found whole.
    records: Vec<Part>,
    header_size: u128,
    format: u8,
    record_length: u128,
    point_offset: u128,
    points: u128,
}

impl Found {
    /// An answer with "the number of records found whole before it".
    pub fn row(&self, answer: Answer) -> [u64; 4] {
        [answer.number, answer.value, answer.record, self.whole()]
    }

    fn whole(&self) -> u64 {
        self.records.len() as u64
    }

    /// The effective count of points.
    pub fn points(&self) -> u64 {
        self.points as u64
    }

    /// The file check: number 0, or the first refusal of rules 1 to 8 in their order.
    pub fn check(&mut self, file: &[u8], allowance: u64) -> Answer {
        self.records.clear();
        match self.judge(file, allowance) {
            Ok(()) => Answer::result(0u8),
            Err(refusal) => refusal,
        }
    }

    fn judge(&mut self, file: &[u8], allowance: u64) -> Result<(), Answer> {
        let end = file.len() as u128;

        // Rule 1.
        wants(file, 4)?;
        if &file[..4] != b"LASF" {
            return refused(2, number(file, 0, 4));
        }
        wants(file, 26)?;
        let (major, minor) = (number(file, 24, 1), number(file, 25, 1));
        if major != 1 || minor > 4 {
            return refused(3, major * 256 + minor);
        }
        let standard = standard_size(minor);
        wants(file, standard)?;
        self.header_size = number(file, 94, 2);
        wants(file, self.header_size)?;

        // Rule 2.
        if self.header_size < standard {
            return refused(4, self.header_size);
        }

        // Rule 3.
        let format = number(file, 104, 1);
        if (11..=127).contains(&format) {
            return refused(5, format);
        }
        if format >= 128 {
            return refused(6, format);
        }
        let highest = match minor {
            0 | 1 => 1,
            2 => 3,
            3 => 5,
            _ => 10,
        };
        if format > highest {
            return refused(7, format);
        }
        self.format = format as u8;

        // Rule 4.
        self.record_length = number(file, 105, 2);
        if self.record_length < POINT_BYTES[format as usize] {
            return refused(8, self.record_length);
        }

        // Rule 5.
        self.point_offset = number(file, 96, 4);
        if self.point_offset < self.header_size || self.point_offset > end {
            return refused(9, self.point_offset);
        }

        // Rule 6.
        let vlrs = number(file, 100, 4);
        self.records(
            file,
            VLRS,
            self.header_size,
            vlrs,
            self.point_offset,
            allowance,
        )?;

        // Rule 7.
        let legacy = number(file, 107, 4);
        self.points = match (legacy, minor) {
            (0, 4) => number(file, 247, 8),
            (legacy, _) => legacy,
        };
        let end_of_points = self.point_offset + self.points * self.record_length;
        if end_of_points > end {
            return refused(12, self.points);
        }

        // Document 02, No. 11: "after 12: start before the end of points or beyond the file", which is 35
        // with the value 0, as a later refusal is that no table names, "then 10 or 13".
        if let Some(start) = packets_start(file) {
            if start < end_of_points || start > end {
                return refused(35, 0);
            }
            return self.records(file, PACKETS, start, 1, end, allowance);
        }

        // Rule 8.
        match evlr_pair(file) {
            None | Some((0, _) | (_, 0)) => Ok(()),
            Some((start, _)) if start < end_of_points || start > end => refused(14, start),
            Some((start, evlrs)) => self.records(file, EVLRS, start, evlrs, end, allowance),
        }
    }

    /// Rules 6 and 8 on `count` records, one directly after another from `at` on, that have to end
    /// at or before `end`. Record numbers and the allowance go through all kinds.
    fn records(
        &mut self,
        file: &[u8],
        of: Record,
        mut at: u128,
        count: u128,
        end: u128,
        allowance: u64,
    ) -> Result<(), Answer> {
        for _ in 0..count {
            let record = self.whole() + 1;
            let refused = |number, value: u128| {
                let value = value as u64;
                Err(Answer {
                    number,
                    value,
                    record,
                })
            };
            if self.whole() == allowance {
                return refused(10, u128::from(allowance));
            }
            if at + of.head > end {
                return refused(of.extent, 0);
            }
            let length = number(file, at + 20, of.width);
            let next = at + of.head + length;
            if next > end {
                return refused(of.extent, length);
            }
            self.records.push(part(of.kind, at, next - at));
            at = next;
        }
        Ok(())
    }

    /// The parts of the accepted file that was checked last, in file order: "header with its padding
    /// first, empty gaps omitted, points always present". "Bytes between parts, and after the last,
    /// are gaps."
    pub fn parts(&self, file: &[u8], parts: &mut Vec<Part>) {
        let header = part(HEADER, 0, self.header_size);
        let points = part(POINTS, self.point_offset, self.points * self.record_length);
        let end_of_file = part(GAP, file.len() as u128, 0);
        let of_kind = |kind| self.records.iter().filter(move |record| record[0] == kind);

        parts.clear();
        let mut at = 0;
        for &[kind, start, length] in [header]
            .iter()
            .chain(of_kind(VLR))
            .chain(&[points])
            .chain(of_kind(EVLR))
            .chain(of_kind(WAVEFORM))
            .chain(&[end_of_file])
        {
            if at < start {
                parts.push([GAP, at, start - at]);
            }
            if kind != GAP {
                parts.push([kind, start, length]);
            }
            at = start + length;
        }
    }

    /// The cursor before the first part of the accepted file that was checked last.
    pub fn cursor(&self, file: &[u8]) -> Cursor {
        let end_of_points = self.point_offset + self.points * self.record_length;
        let packets = packets_start(file);
        let (start, later) = match (packets, evlr_pair(file)) {
            (Some(start), _) => (start, 1),
            (None, None | Some((0, _) | (_, 0))) => (end_of_points, 0),
            (None, Some(pair)) => pair,
        };
        [
            0,
            0,
            0,
            self.header_size,
            number(file, 100, 4),
            self.point_offset,
            end_of_points,
            start,
            later,
            u128::from(packets.is_some()),
        ]
        .map(|n| n as u64)
    }

    /// What is to be read of the `k`-th point record, counted from 0, of the accepted file that was
    /// checked last: what the Rust reads, or near infrared 0, and then true. The record length that
    /// goes beyond the format's is extra bytes.
    pub fn point(&self, file: &[u8], k: u64) -> (PointNumbers, bool) {
        let mut format = match Format::new(self.format) {
            Ok(format) => format,
            Err(error) => panic!("the Rust has no format {}: {error}", self.format),
        };
        format.extra_bytes = (self.record_length - POINT_BYTES[usize::from(self.format)]) as u16;
        let at = self.point_offset + u128::from(k) * self.record_length;
        let record = &file[at as usize..][..self.record_length as usize];
        match Point::read_from(record, &format) {
            Ok(point) => point::numbers_read(&format, &point),
            Err(error) => panic!("the Rust does not read a whole record: {error}"),
        }
    }

    /// Where the `k`-th point record ends.
    pub fn point_end(&self, k: u64) -> u64 {
        (self.point_offset + u128::from(k + 1) * self.record_length) as u64
    }

    /// Where the `k`-th point record starts, and how many bytes it has.
    pub fn point_span(&self, k: u64) -> [u64; 2] {
        let length = self.record_length as u64;
        [self.point_end(k) - length, length]
    }
}

/// The part at a cursor, and the cursor after it, whatever the cursor holds: stage, the first byte that
/// is next, how many records are left of the stage, and the plan, of which the counts are 32 bits, and
/// of which the last number says that the record after the points is the waveform packets, whatever it is
/// but 0. None "after the last part, and at a record that is not all there".
pub fn step(file: &[u8], cursor: Cursor) -> Option<(Part, Cursor)> {
    let [
        stage,
        at,
        left,
        header_size,
        vlrs,
        offset,
        end_of_points,
        start,
        later,
        is_packets,
    ] = cursor;
    let [left, vlrs, later] = [left, vlrs, later].map(|count| count & 0xffff_ffff);
    let is_packets = u64::from(is_packets != 0);
    let end = file.len() as u64;
    let moved = |stage, at, left| {
        let plan = [
            header_size,
            vlrs,
            offset,
            end_of_points,
            start,
            later,
            is_packets,
        ];
        let mut cursor = [stage, at, left, 0, 0, 0, 0, 0, 0, 0];
        cursor[3..].copy_from_slice(&plan);
        cursor
    };
    let record = |of: Record, stage, end: u64| {
        let (at, end) = (u128::from(at), u128::from(end));
        if at + of.head > end {
            return None;
        }
        let next = at + of.head + number(file, at + 20, of.width);
        let told = part(of.kind, at, next - at);
        (next <= end).then(|| (told, moved(stage, next as u64, left - 1)))
    };
    let points = (
        [POINTS, offset, end_of_points.saturating_sub(offset)],
        moved(3, end_of_points, 0),
    );
    match stage {
        0 => Some(([HEADER, 0, header_size], moved(1, header_size, vlrs))),
        1 if left > 0 => record(VLRS, 1, offset.min(end)),
        1 if at < offset => Some(([GAP, at, offset - at], moved(2, offset, 0))),
        1 | 2 => Some(points),
        3 if at < start => Some(([GAP, at, start - at], moved(4, start, later))),
        3 => step(file, moved(4, start, later)),
        _ if left > 0 && is_packets == 1 => record(PACKETS, 4, end),
        _ if left > 0 => record(EVLRS, 4, end),
        _ if at < end => Some(([GAP, at, end - at], moved(4, end, 0))),
        _ => None,
    }
}

/// The EVLR start and count, which "only 1.4 has", as they stand in a file with a whole header.
fn evlr_pair(file: &[u8]) -> Option<(u128, u128)> {
    (number(file, 25, 1) == 4).then(|| (number(file, 235, 8), number(file, 243, 4)))
}

/// Where the waveform packets start: "in 1.3 with bit 1 of global encoding set and a waveform start that
/// isn't zero", in a file with a whole header.
fn packets_start(file: &[u8]) -> Option<u128> {
    let inside = number(file, 25, 1) == 3 && number(file, 6, 2) >> 1 & 1 == 1;
    let start = inside.then(|| number(file, 227, 8));
    start.filter(|&start| start != 0)
}

/// The bytes that an accepted file is written back with: its own, but "none is written as two
/// zeros", and a pair "of which either is zero reads as none".
pub fn rewritten(file: &[u8], written: &mut Vec<u8>) {
    written.clear();
    written.extend_from_slice(file);
    if let Some((0, _) | (_, 0)) = evlr_pair(file) {
        written[235..247].fill(0);
    }
}
