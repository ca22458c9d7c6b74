//! Findings, against a second formulation of the rules, in this file's own words: files are made byte by byte, each rule looks at them for
//! itself, and what it says is sorted afterwards.

mod common;

use common::{plain, Chance};
use inscjarol::{File, Finding, PartKind, Rule};
use std::{collections::BTreeSet, iter};

/// A file, with what was put where.
struct Made {
    bytes: Vec<u8>,
    minor: u8,
    code: u8,
    /// First byte and kind of every part.
    parts: Vec<(usize, PartKind)>,
    /// First byte and length of every text field.
    texts: Vec<(usize, usize)>,
    /// First byte of every point's record.
    points: Vec<usize>,
}

/// What a finding says, byte first, so that sets of them are in file order.
type Said = (u64, u64, u64, u64);

fn put(bytes: &mut [u8], at: usize, number: u64, len: usize) {
    bytes[at..at + len].copy_from_slice(&number.to_le_bytes()[..len]);
}

fn get(bytes: &[u8], at: usize, len: usize) -> u64 {
    let mut wide = [0; 8];
    wide[..len].copy_from_slice(&bytes[at..at + len]);
    u64::from_le_bytes(wide)
}

/// The bytes of a record of a format, by the standard's table.
fn record_length(code: u8) -> usize {
    [20, 28, 26, 34, 57, 63, 30, 36, 38, 59, 67][usize::from(code)]
}

/// The highest format of each version from 1.0 to 1.4.
const HIGHEST: [u8; 5] = [1, 1, 3, 5, 10];

/// Every version with every format that it has.
fn kinds() -> impl Iterator<Item = (u8, u8)> {
    (0..=4).flat_map(|minor| (0..=HIGHEST[usize::from(minor)]).map(move |code| (minor, code)))
}

/// A file with padding, two VLRs, a gap and this many points of three extra bytes, all the first of one return; then, in LAS 1.3 and 1.4, a
/// gap, the waveform packets or two EVLRs, and another gap. Nothing is wrong with it.
fn made(minor: u8, code: u8, count: usize) -> Made {
    let header = [227, 227, 227, 235, 375][usize::from(minor)] + 5;
    let mut bytes = vec![0; header];
    let mut parts = vec![(0, PartKind::Header)];
    let mut texts = vec![(26, 32), (58, 32)];
    for data in [7, 0] {
        let at = bytes.len();
        parts.push((at, PartKind::Vlr));
        texts.extend([(at + 2, 16), (at + 22, 32)]);
        bytes.resize(at + 54 + data, 0);
        put(&mut bytes, at + 20, data as u64, 2);
        bytes[at + 54..].fill(0xda);
    }
    parts.push((bytes.len(), PartKind::Gap));
    bytes.extend([0xee; 9]);
    let (offset, length) = (bytes.len(), record_length(code) + 3);
    let points: Vec<usize> = (0..count).map(|point| offset + point * length).collect();
    parts.push((offset, PartKind::Points));
    for at in &points {
        bytes.resize(at + length, 0xbb);
        bytes[at + 14] = if code < 6 { 0x09 } else { 0x11 };
    }
    let records = match minor {
        3 => 1,
        4 => 2,
        _ => 0,
    };
    if records > 0 {
        parts.push((bytes.len(), PartKind::Gap));
        bytes.extend([0xee; 6]);
    }
    let later = bytes.len();
    for _ in 0..records {
        let at = bytes.len();
        let kind = [PartKind::Waveform, PartKind::Evlr][records - 1];
        parts.push((at, kind));
        texts.extend([(at + 2, 16), (at + 28, 32)]);
        bytes.resize(at + 60 + 11, 0);
        put(&mut bytes, at + 20, 11, 8);
        bytes[at + 60..].fill(0xda);
    }
    parts.push((bytes.len(), PartKind::Gap));
    bytes.extend([0xee; 4]);

    bytes[..4].copy_from_slice(b"LASF");
    bytes[24..26].copy_from_slice(&[1, minor]);
    put(&mut bytes, 94, header as u64, 2);
    put(&mut bytes, 96, offset as u64, 4);
    put(&mut bytes, 100, 2, 4);
    bytes[104] = code;
    put(&mut bytes, 105, length as u64, 2);
    if code < 6 {
        put(&mut bytes, 107, count as u64, 4);
        put(&mut bytes, 111, count as u64, 4);
    }
    if minor == 3 {
        bytes[6] = 2;
        put(&mut bytes, 227, later as u64, 8);
    }
    if minor == 4 {
        put(&mut bytes, 235, later as u64, 8);
        put(&mut bytes, 243, 2, 4);
        put(&mut bytes, 247, count as u64, 8);
        put(&mut bytes, 255, count as u64, 8);
    }
    Made {
        bytes,
        minor,
        code,
        parts,
        texts,
        points,
    }
}

impl Made {
    /// Return number and number of returns of a point.
    fn returns(&self, at: usize) -> (u8, u8) {
        let byte = self.bytes[at + 14];
        match self.code {
            0..=5 => (byte % 8, byte / 8 % 8),
            _ => (byte % 16, byte / 16),
        }
    }

    fn set_returns(&mut self, point: usize, number: u8, of: u8) {
        let byte = &mut self.bytes[self.points[point] + 14];
        *byte = match self.code {
            // Direction and edge are not of interest, and stay.
            0..=5 => *byte & 0xc0 | of << 3 | number,
            _ => of << 4 | number,
        };
    }

    /// Every counter by return that is looked at: where it is, its bytes, and the return number that it counts.
    fn counters(&self) -> Vec<(usize, usize, u8)> {
        match self.minor {
            4 => (1..=15)
                .map(|n| (255 + 8 * (usize::from(n) - 1), 8, n))
                .collect(),
            _ => (1..=5)
                .map(|n| (111 + 4 * (usize::from(n) - 1), 4, n))
                .collect(),
        }
    }

    /// What should be said, by each rule for itself.
    fn expected(&self) -> BTreeSet<Said> {
        let bytes = &self.bytes;
        let mut places = Vec::new();
        // 1. Formats 6 to 10 have no use for the six counters of 32 bits.
        let legacy = [107, 111, 115, 119, 123, 127];
        places.extend(
            legacy
                .into_iter()
                .filter(|&at| self.code >= 6 && bytes[at..at + 4] != [0; 4])
                .map(|at| (at, 1, 0)),
        );
        // 2. Who keeps both counts has to keep them alike.
        let count = get(bytes, 107, 4);
        if self.minor == 4 && ![0, get(bytes, 247, 8)].contains(&count) {
            places.push((107, 2, 0));
        }
        // 3. So many points of each return.
        for (at, len, number) in self.counters() {
            let of_it = self
                .points
                .iter()
                .filter(|&&at| self.returns(at).0 == number);
            if of_it.count() as u64 != get(bytes, at, len) {
                places.push((at, 3, 0));
            }
        }
        // 4. The k-th of n, k from 1 to n.
        for (point, &at) in self.points.iter().enumerate() {
            let (number, of) = self.returns(at);
            if !(1..=of).contains(&number) {
                places.push((at, 4, point + 1));
            }
        }
        // 5. Split at its zeros, a text has one piece, the first, that is not empty, if any.
        for &(at, len) in &self.texts {
            let mut pieces = bytes[at..at + len].split(|&byte| byte == 0).skip(1);
            if pieces.any(|piece| !piece.is_empty()) {
                places.push((at, 5, 0));
            }
        }
        let said = places.into_iter().map(|(at, rule, point)| {
            let part = self.parts.iter().filter(|(start, _)| *start <= at).count();
            (at as u64, rule, part as u64, point as u64)
        });
        said.collect()
    }

    fn findings(&self) -> Vec<Finding> {
        let file = File::check(&self.bytes).unwrap();
        let findings = file.findings();
        assert_eq!(findings.len() as u64, file.finding_count());
        let findings: Vec<Finding> = findings.collect();
        for finding in &findings {
            let part = file.parts().nth(finding.part as usize - 1).unwrap();
            assert_eq!(finding.kind, part.kind);
            assert!((part.start..part.start + part.len).contains(&finding.byte));
        }
        findings
    }

    /// That just the findings that should be are there, in their order, each once; and answers how many.
    fn holds(&self) -> usize {
        let expected: Vec<Said> = self.expected().into_iter().collect();
        let found: Vec<Said> = self.findings().iter().map(said).collect();
        assert_eq!(
            found, expected,
            "LAS 1.{}, format {}",
            self.minor, self.code
        );
        found.len()
    }

    fn sentences(&self) -> Vec<String> {
        self.findings().iter().map(Finding::to_string).collect()
    }
}

fn said(finding: &Finding) -> Said {
    let Finding {
        rule,
        part,
        point,
        byte,
        ..
    } = *finding;
    (byte, rule.number(), part, point)
}

#[test]
fn nothing_is_wrong_with_these() {
    for (minor, code) in kinds() {
        for points in [0, 1, 5] {
            let made = made(minor, code, points);
            assert_eq!(made.holds(), 0);
            let file = File::check(&made.bytes).unwrap();
            let parts = file.parts().map(|part| (part.start as usize, part.kind));
            assert!(parts.eq(made.parts.iter().copied()));
        }
    }
}

#[test]
fn every_counter() {
    for (minor, code) in kinds() {
        let clean = made(minor, code, 5);
        for (at, len, _) in clean.counters() {
            let right = get(&clean.bytes, at, len);
            for wrong in [right + 1, right.wrapping_sub(1), 1 << (8 * len - 1)] {
                let mut made = made(minor, code, 5);
                put(&mut made.bytes, at, wrong, len);
                assert_eq!(made.holds(), 1, "{at}");
            }
        }
        // The legacy ones of LAS 1.4: by return they are not compared, but have to be 0 in formats 6 to 10.
        for at in [111, 115, 119, 123, 127] {
            let mut made = made(minor, code, 5);
            put(&mut made.bytes, at, 77, 4);
            assert_eq!(made.holds(), usize::from(minor < 4 || code >= 6));
        }
    }
}

#[test]
fn both_counts_of_points() {
    for code in 0..=10 {
        for (legacy, large) in [(0, 5), (5, 5), (5, 0), (5, 4), (5, 6), (5, 5 + (1 << 32))] {
            let mut made = made(4, code, 5);
            put(&mut made.bytes, 107, legacy, 4);
            put(&mut made.bytes, 247, large, 8);
            let both = usize::from(legacy > 0 && code >= 6) + usize::from(legacy > 0 && large != 5);
            assert_eq!(made.holds(), both);
        }
    }
}

#[test]
fn every_return_number_of_every_number_of_returns() {
    for (minor, code) in [(0, 0), (1, 1), (2, 3), (3, 4), (4, 5), (4, 6), (4, 10)] {
        let end = if code < 6 { 8 } else { 16 };
        for (number, of) in (0..end).flat_map(|number| (0..end).map(move |of| (number, of))) {
            for point in [0, 2, 4] {
                let mut made = made(minor, code, 5);
                made.set_returns(point, number, of);
                // The counter of return 1, and that of the other one if there is such a counter.
                let counted = usize::from(made.counters().iter().any(|&(.., n)| n == number));
                let counters = if number == 1 { 0 } else { 1 + counted };
                let wrong = usize::from(number == 0 || number > of);
                assert_eq!(made.holds(), counters + wrong, "{number} of {of}");
                let points = made.findings().into_iter().filter(|found| found.point > 0);
                let told: Vec<u64> = points.map(|found| found.point).collect();
                assert_eq!(told, vec![point as u64 + 1; wrong]);
            }
        }
    }
}

#[test]
fn every_byte_of_every_text_field() {
    for (minor, code) in [(0, 0), (1, 1), (2, 2), (3, 5), (4, 0), (4, 7)] {
        let clean = made(minor, code, 3);
        assert_eq!(clean.texts.len(), [6, 6, 6, 8, 10][usize::from(minor)]);
        for &(at, len) in &clean.texts {
            for last in 0..len {
                let mut made = made(minor, code, 3);
                // A text without a zero, and with one that is its last byte.
                made.bytes[at..at + len].fill(b'x');
                assert_eq!(made.holds(), 0);
                made.bytes[at + len - 1] = 0;
                assert_eq!(made.holds(), 0);
                // A zero, and one byte after it.
                made.bytes[at..at + len].fill(0);
                made.bytes[at + last] = 1;
                assert_eq!(made.holds(), usize::from(last > 0));
                // A zero in between.
                made.bytes[at..at + len].fill(0xff);
                made.bytes[at + last] = 0;
                assert_eq!(made.holds(), usize::from(last < len - 1));
            }
        }
    }
}

#[test]
fn files_that_are_wrong_by_chance() {
    let mut chance = Chance(12);
    let (mut files, mut found) = (0, [0; 6]);
    for (minor, code) in kinds() {
        for _ in 0..60 {
            let count = chance.below(12);
            let mut made = made(minor, code, count);
            for point in 0..count {
                if chance.below(3) == 0 {
                    let at = made.points[point] + 14;
                    made.bytes[at] = chance.next() as u8;
                }
            }
            for (at, len) in made.texts.clone() {
                for place in at..at + len {
                    made.bytes[place] =
                        [0, b'x', 0, 0][chance.below(4)] * (chance.below(5) == 0) as u8;
                }
            }
            for (at, len, _) in made.counters() {
                put(&mut made.bytes, at, chance.below(3) as u64, len);
            }
            if minor == 4 {
                for at in [111, 115, 119, 123, 127] {
                    put(&mut made.bytes, at, chance.below(2) as u64, 4);
                }
                // The one that isn't 0 counts, the legacy one first.
                let legacy = chance.below(2) * count;
                put(&mut made.bytes, 107, legacy as u64, 4);
                if legacy > 0 && chance.below(2) == 0 {
                    put(&mut made.bytes, 247, chance.next(), 8);
                }
            }
            made.holds();
            files += 1;
            for (_, rule, ..) in made.expected() {
                found[rule as usize] += 1;
            }
        }
    }
    assert_eq!(files, 60 * 25);
    assert!(found[1..].iter().all(|&times| times > 100), "{found:?}");
}

#[test]
fn each_has_its_sentence() {
    let mut new = made(4, 6, 5);
    for (at, legacy) in [(107, 5), (123, 9)] {
        put(&mut new.bytes, at, legacy, 4);
    }
    put(&mut new.bytes, 247, 4, 8);
    new.set_returns(1, 0, 1);
    new.set_returns(3, 3, 2);
    new.bytes[26..58]
        .copy_from_slice(b"ALS\0x\0\0\0\0\0\0\0\0\0\0\0\0\0\0\0\0\0\0\0\0\0\0\0\0\0\0\0");
    let texts = new.texts.clone();
    for (at, len) in &texts[1..] {
        new.bytes[at + len - 1] = b'!';
    }
    assert_eq!(new.holds(), 17);
    assert_eq!(
        new.sentences(),
        [
            "byte 26, part 1 (header): the system identifier ends with a zero at byte 29, and byte 30 after it is not zero; the standard \
             wants zeros from there to the end of the field",
            "byte 58, part 1 (header): the generating software ends with a zero at byte 58, and byte 89 after it is not zero; the standard \
             wants zeros from there to the end of the field",
            "byte 107, part 1 (header): the legacy count of points is 5; the standard wants 0 there in point formats 6 to 10",
            "byte 107, part 1 (header): the legacy count of points is 5, and the large one, at byte 247, is 4; the standard wants the same \
             number there, or 0",
            "byte 123, part 1 (header): the legacy count of return 4 is 9; the standard wants 0 there in point formats 6 to 10",
            "byte 255, part 1 (header): the count of return 1 is 5, and 3 points are of that return; the standard wants the number of \
             points of that return",
            "byte 271, part 1 (header): the count of return 3 is 0, and 1 point is of that return; the standard wants the number of points \
             of that return",
            "byte 382, part 2 (vlr): the user id ends with a zero at byte 382, and byte 397 after it is not zero; the standard wants zeros \
             from there to the end of the field",
            "byte 402, part 2 (vlr): the description ends with a zero at byte 402, and byte 433 after it is not zero; the standard wants \
             zeros from there to the end of the field",
            "byte 443, part 3 (vlr): the user id ends with a zero at byte 443, and byte 458 after it is not zero; the standard wants zeros \
             from there to the end of the field",
            "byte 463, part 3 (vlr): the description ends with a zero at byte 463, and byte 494 after it is not zero; the standard wants \
             zeros from there to the end of the field",
            "byte 537, part 5 (points), point 2: the return number is 0, and the number of returns is 1; the standard wants returns counted \
             from 1 to the number of returns",
            "byte 603, part 5 (points), point 4: the return number is 3, and the number of returns is 2; the standard wants returns counted \
             from 1 to the number of returns",
            "byte 677, part 7 (evlr): the user id ends with a zero at byte 677, and byte 692 after it is not zero; the standard wants zeros \
             from there to the end of the field",
            "byte 703, part 7 (evlr): the description ends with a zero at byte 703, and byte 734 after it is not zero; the standard wants \
             zeros from there to the end of the field",
            "byte 748, part 8 (evlr): the user id ends with a zero at byte 748, and byte 763 after it is not zero; the standard wants zeros \
             from there to the end of the field",
            "byte 774, part 8 (evlr): the description ends with a zero at byte 774, and byte 805 after it is not zero; the standard wants \
             zeros from there to the end of the field",
        ]
    );

    // Before LAS 1.4 the five counters are no legacy, and the waveform packets have texts too.
    let mut old = made(3, 4, 5);
    put(&mut old.bytes, 115, 2, 4);
    let (at, len) = old.texts[6];
    old.bytes[at + len - 1] = b'!';
    assert_eq!(old.holds(), 2);
    let sentences = old.sentences();
    assert_eq!(
        sentences[0],
        "byte 115, part 1 (header): the count of return 2 is 2, and 0 points are of that return; the standard wants the number of points of \
         that return"
    );
    assert!(sentences[1].contains("part 7 (waveform): the user id"));
}

#[test]
fn they_are_counted_and_come_one_by_one() {
    // Every point of a scanner that leaves the returns at 0.
    let bytes = plain(70_000);
    let file = File::check(&bytes).unwrap();
    let mut findings = file.findings();
    assert_eq!((findings.len(), file.finding_count()), (70_000, 70_000));
    let first = findings.next().unwrap();
    assert_eq!(
        (first.rule, first.part, first.point, first.byte),
        (Rule::ReturnNumber, 2, 1, 227)
    );
    assert_eq!(findings.len(), 69_999);
    assert!(findings
        .clone()
        .zip(2..)
        .all(|(found, point)| found.point == point));
    assert_eq!(
        findings.by_ref().last().map(|found| found.point),
        Some(70_000)
    );
    assert!(iter::repeat_with(|| findings.next())
        .take(3)
        .all(|none| none.is_none()));

    let clean = made(4, 6, 5);
    let file = File::check(&clean.bytes).unwrap();
    assert_eq!((file.finding_count(), file.findings().count()), (0, 0));
    // The allowance is that of the check.
    assert!(File::check_within(&clean.bytes, 4).is_ok());
    assert_eq!(
        File::check_within(&clean.bytes, 3).unwrap_err().number(),
        10
    );
}
