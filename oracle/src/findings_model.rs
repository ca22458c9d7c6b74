//! Document 02's No. 12, a checker for other people's files, written from its text and document 01's alone: what
//! is wrong with an accepted file, a function for each rule, and what is answered where there is no room for it.
//!
//! The Rust has no such call, so that the port is compared with this. It shares nothing with the port but the
//! text. The file check, the effective count and the part table are those of `file_model`; all else is taken from
//! the bytes here, in 128 bits, in which no sum or product wraps.

use crate::{
    answer::Answer,
    file_model::{EVLR, Found, HEADER, POINTS, Part, VLR, WAVEFORM},
};

/// Rule, part (from 1), point (or 0) and first byte.
pub type Finding = [u64; 4];

/// The little-endian number of `width` bytes at `at`.
fn number(bytes: &[u8], at: usize, width: usize) -> u128 {
    let bytes = &bytes[at..][..width];
    bytes.iter().rev().fold(0, |n, &b| n << 8 | u128::from(b))
}

fn minor(file: &[u8]) -> u128 {
    number(file, 25, 1)
}

fn format(file: &[u8]) -> u128 {
    number(file, 104, 1)
}

/// "Counters": where those of points are, the legacy ones and in 1.4 the large ones.
const LEGACY: usize = 107;
const LARGE: usize = 247;

/// Where the five legacy counts by return are, and the 15 large ones.
fn legacy_by_return() -> impl Iterator<Item = usize> {
    (0..5).map(|i| 111 + 4 * i)
}

fn large_by_return() -> impl Iterator<Item = usize> {
    (0..15).map(|i| 255 + 8 * i)
}

/// Rule 1: "nonzero legacy counts in formats 6 to 10". The count of points is one of them.
fn legacy_not_zero(file: &[u8]) -> Vec<usize> {
    let counters = [LEGACY].into_iter().chain(legacy_by_return());
    counters
        .filter(|&at| (6..=10).contains(&format(file)) && number(file, at, 4) != 0)
        .collect()
}

/// Rule 2: "legacy count not zero and unlike the large one", which only 1.4 has.
fn legacy_unlike(file: &[u8]) -> Vec<usize> {
    let counter = [LEGACY].into_iter();
    counter
        .filter(|&at| {
            let legacy = number(file, at, 4);
            minor(file) == 4 && legacy != 0 && legacy != number(file, LARGE, 8)
        })
        .collect()
}

/// Rule 3: "counts by return unlike the records". "In 1.4 the 15 large counters are compared; in 1.0 to 1.3 the
/// five counters speak only of returns 1 to 5."
fn returns_unlike(file: &[u8], records: &[Record]) -> Vec<usize> {
    let with = |own| records.iter().filter(|record| record.own == own).count() as u128;
    let counters: Vec<(usize, u128)> = match minor(file) {
        4 => large_by_return()
            .map(|at| (at, number(file, at, 8)))
            .collect(),
        _ => legacy_by_return()
            .map(|at| (at, number(file, at, 4)))
            .collect(),
    };
    let unlike = (1..).zip(counters).filter(|&(own, (_, n))| n != with(own));
    unlike.map(|(_, (at, _))| at).collect()
}

/// Rule 4: "a return number of zero or above the number of returns". Points, "from 1", and where their records
/// begin.
fn return_number(records: &[Record]) -> Vec<(u64, usize)> {
    let wrong = |record: &Record| record.own == 0 || record.own > record.of;
    (1..)
        .zip(records)
        .filter(|(_, record)| wrong(record))
        .map(|(point, record)| (point, record.at))
        .collect()
}

/// Rule 5: "text fields with bytes after their first zero that aren't zero".
fn text(field: &[u8]) -> bool {
    let mut from_the_first_zero = field.iter().skip_while(|&&byte| byte != 0);
    from_the_first_zero.any(|&byte| byte != 0)
}

/// The text fields of a part, where they begin in it and how long they are: system identifier and generating
/// software of the header; user id and description of a VLR, whose head has 54 bytes, and of an EVLR or the
/// waveform packets, whose length is eight bytes wide.
fn texts(kind: u64) -> &'static [(usize, usize)] {
    match kind {
        HEADER => &[(26, 32), (58, 32)],
        VLR => &[(2, 16), (22, 32)],
        EVLR | WAVEFORM => &[(2, 16), (28, 32)],
        _ => &[],
    }
}

/// A point's record: where it begins, its return number and its number of returns.
pub struct Record {
    at: usize,
    own: u8,
    of: u8,
}

/// The records of the accepted file that was checked last. "Old flags: byte one has return number (bits 0-2),
/// number of returns (3-5)"; "extended: byte one, return number (0-3), number of returns (4-7)".
fn records(found: &Found, file: &[u8]) -> Vec<Record> {
    let places = (0..found.points()).map(|k| found.point_span(k)[0] as usize);
    places
        .map(|at| {
            let byte = file[at + 3 * 4 + 2];
            let (own, of) = match format(file) {
                0..=5 => (byte % 8, byte / 8 % 8),
                _ => (byte % 16, byte / 16),
            };
            Record { at, own, of }
        })
        .collect()
}

/// Every finding of the accepted file that was checked last: "in file order", and "findings at the same place
/// follow the order of this list".
pub fn findings(found: &Found, file: &[u8], parts: &mut Vec<Part>) -> Vec<Finding> {
    found.parts(file, parts);
    let records = records(found, file);
    let mut findings: Vec<Finding> = Vec::new();
    let of_header = [
        (1, legacy_not_zero(file)),
        (2, legacy_unlike(file)),
        (3, returns_unlike(file, &records)),
    ];
    // "Part (from 1)", of which gaps are some too.
    for (part, &[kind, start, _]) in (1..).zip(&*parts) {
        let start = start as usize;
        if kind == HEADER {
            for (rule, counters) in &of_header {
                findings.extend(counters.iter().map(|&at| [*rule, part, 0, at as u64]));
            }
        }
        if kind == POINTS {
            let points = return_number(&records);
            findings.extend(
                points
                    .iter()
                    .map(|&(point, at)| [4, part, point, at as u64]),
            );
        }
        for &(at, length) in texts(kind) {
            if text(&file[start + at..][..length]) {
                findings.push([5, part, 0, (start + at) as u64]);
            }
        }
    }
    findings.sort_by_key(|&[rule, _, _, at]| (at, rule));
    findings
}

/// What the call answers and writes. "Refusals, in order: the file's own; no room for the findings, giving how
/// many there are." Room is numbers, four a finding.
pub fn answer(
    found: &mut Found,
    file: &[u8],
    allowance: u64,
    parts: &mut Vec<Part>,
    out: &mut [u64],
) -> (Answer, Vec<Finding>) {
    let check = found.check(file, allowance);
    if check.number != 0 {
        return (check, Vec::new());
    }
    let findings = findings(found, file, parts);
    let numbers = findings.as_flattened();
    let many = findings.len() as u64;
    if out.len() < numbers.len() {
        return (Answer::refusal(22, many), findings);
    }
    out[..numbers.len()].copy_from_slice(numbers);
    (Answer::result(many), findings)
}
