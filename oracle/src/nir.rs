//! Near infrared as document 02's No. 5 has it: records of every attribute set, with 0, 1 and 65,535,
//! read, walked, written, rewritten and converted.
//!
//! What was read before the request and what is read since are both written out here, from the documents'
//! text alone: the first must be the Rust's, the second the port's. What is written, and what strict
//! conversion refuses, must be as it was: the Rust's bytes, and document 01's rules.

use crate::{
    answer::Answer,
    capi::{self, Place, PointNumbers, Row},
    convert::{Shape, Way, fit, set_nir},
    convert_model::{DOWN, UP, to_new},
    convert_plain::target,
    format::{self, ATTRIBUTES},
    nir_wrong::{ERRORS, StandIn},
    point::{self, HAS_NIR, NIR, Writing, rust_read},
    records::{self, FEW, Lcg, record_len},
    report::{self, Report, Tally, stretches},
};
use las::raw::Point;

/// The calls that see near infrared. The port has them, and so have the stand-ins that test the
/// comparison itself.
pub trait Library: Sync {
    fn read(&self, record: &[u8], word: u32, row: &mut Row, numbers: &mut PointNumbers);
    fn next(&self, file: &[u8], place: &mut Place, row: &mut Row, numbers: &mut PointNumbers);
    fn write(&self, numbers: &PointNumbers, extra: &[u8], word: u32, dst: &mut [u8], row: &mut Row);
    fn rewrite(&self, file: &[u8], dst: &mut [u8], row: &mut Row);
    fn check(&self, numbers: &PointNumbers, row: &mut Row);
    fn upgraded(&self, numbers: &mut PointNumbers);
    fn to_old(&self, src: &[u8], run: (u8, u16, u64), dst: &mut [u8], row: &mut Row);
    fn to_new(&self, src: &[u8], run: (u8, u16, u64), dst: &mut [u8], row: &mut Row);
}

struct Port;

impl Library for Port {
    fn read(&self, record: &[u8], word: u32, row: &mut Row, numbers: &mut PointNumbers) {
        capi::las_point_read(record, word, row, numbers)
    }

    fn next(&self, file: &[u8], place: &mut Place, row: &mut Row, numbers: &mut PointNumbers) {
        capi::las_file_next(file, place, row, numbers)
    }

    fn write(
        &self,
        numbers: &PointNumbers,
        extra: &[u8],
        word: u32,
        dst: &mut [u8],
        row: &mut Row,
    ) {
        capi::las_point_write(numbers, extra, word, dst, row)
    }

    fn rewrite(&self, file: &[u8], dst: &mut [u8], row: &mut Row) {
        capi::las_file_rewrite(file, 0, dst, row)
    }

    fn check(&self, numbers: &PointNumbers, row: &mut Row) {
        capi::las_strict_check(numbers, row)
    }

    fn upgraded(&self, numbers: &mut PointNumbers) {
        capi::las_strict_upgraded(numbers)
    }

    fn to_old(&self, src: &[u8], run: (u8, u16, u64), dst: &mut [u8], row: &mut Row) {
        capi::las_convert_to_old(src, run, dst, row)
    }

    fn to_new(&self, src: &[u8], run: (u8, u16, u64), dst: &mut [u8], row: &mut Row) {
        capi::las_convert_to_new(src, run, dst, row)
    }
}

/// What lent memory holds before a call.
const BEFORE: u64 = 0xa5a5_a5a5_a5a5_a5a5;
const BEFORE_BYTE: u8 = 0xa5;

/// The numbers that records have as near infrared, where their format has that.
const NIRS: [u16; 3] = [0, 1, 65_535];

/// What was read of a number that stands in the record, or that the format lacks: "NIR 0 reads as
/// missing" (document 01).
fn read_before(stored: Option<u16>) -> Option<u16> {
    stored.filter(|&nir| nir != 0)
}

/// What is read since: "Reading a format 8 or 10 record must give zero as a value; missing remains for
/// formats without the field" (document 02), of every attribute set that has the field.
fn read_since(stored: Option<u16>) -> Option<u16> {
    stored
}

/// What is written of it: "On writing, a missing time, colour, NIR or waveform is zero bits."
fn written(read: Option<u16>) -> u16 {
    read.unwrap_or(0)
}

/// Where a record of a format has its near infrared, if it has it: after X, Y, Z, intensity, flags, angle,
/// user data and source id, of which extended flags and angle have a byte more each, "then what the format
/// has of time (f64), colour (three u16), NIR (u16)".
fn place(word: u32) -> Option<usize> {
    let format = format::format(word);
    let head = if format.is_extended { 22 } else { 20 };
    let time = 8 * usize::from(format.has_gps_time);
    let colour = 6 * usize::from(format.has_color);
    format.has_nir.then_some(head + time + colour)
}

/// The number that stands there.
fn stored(word: u32, record: &[u8]) -> Option<u16> {
    place(word).map(|at| u16::from_le_bytes([record[at], record[at + 1]]))
}

/// How much is compared: records of each format with each number, and runs and files.
#[derive(Clone, Copy)]
struct Lot {
    records: u64,
    runs: u64,
}

const FULL: Lot = Lot {
    records: 256,
    runs: 1_000,
};

/// Few enough for each stand-in to take a blink.
const SOME: Lot = Lot {
    records: 3,
    runs: 10,
};

/// What comparing all calls came to.
type Outcome = report::Outcome<6, 0>;

/// The calls, and the places of their reports.
const CALLS: [&str; 6] = [
    "NIR: las_point_read",
    "NIR: las_file_next",
    "NIR: las_point_write",
    "NIR: las_file_rewrite",
    "NIR: las_convert_to_old, strict",
    "NIR: las_convert_to_new, upgraded",
];
const READ: usize = 0;
const NEXT: usize = 1;
const WRITE: usize = 2;
const REWRITE: usize = 3;
const DOWNWARD: usize = 4;
const UPWARD: usize = 5;

/// Compares a library with the rules and with the Rust on one record after another.
struct Comparison<'a, L> {
    port: &'a L,
    outcome: Outcome,
}

impl<L: Library> Comparison<'_, L> {
    /// Counts one input of the `call`-th call, and tells of it unless all is as it should be.
    fn count(&mut self, call: usize, same: bool, by_rule: bool, told: impl FnOnce() -> String) {
        self.outcome.reports[call].check(same, told);
        self.outcome.reports[call].by_rule(by_rule);
    }

    /// What the library reads of a record.
    fn numbers(&self, word: u32, record: &[u8]) -> (Answer, PointNumbers) {
        let mut numbers = [BEFORE; 24];
        let row = capi::row(|row| self.port.read(record, word, row, &mut numbers));
        (row, numbers)
    }

    /// What the library writes of numbers, into just enough room.
    fn bytes(&self, word: u32, numbers: &PointNumbers, extra: &[u8]) -> (Answer, Vec<u8>) {
        let mut dst = vec![BEFORE_BYTE; record_len(word)];
        let row = capi::row(|row| self.port.write(numbers, extra, word, &mut dst, row));
        (row, dst)
    }

    /// Compares what is read of a record, alone and from a place in a file, and gives back what the Rust
    /// read of it.
    fn reads(&mut self, word: u32, record: &[u8]) -> Point {
        let mut point = match rust_read(word, record) {
            Ok(point) => point,
            Err(refusal) => panic!("the Rust does not read a whole record: {refusal}"),
        };
        let stored = stored(word, record);
        let (before, since) = (read_before(stored), read_since(stored));
        let published = point.nir;
        point.nir = since;
        let expected = point::numbers(&point);
        point.nir = published;
        let told = |port: &(Answer, PointNumbers)| {
            let (row, numbers) = port;
            let found = [numbers[HAS_NIR], numbers[NIR]];
            format!(
                "({word:#010x}, {record:02x?}): {stored:?} stands there, Rust {published:?}, port {row} {found:x?}"
            )
        };

        let alone = self.numbers(word, record);
        let same = published == before && alone == (Answer::result(0u8), expected);
        self.count(READ, same, before != since, || told(&alone));

        const AT: u64 = 3;
        let file = [&[BEFORE_BYTE; AT as usize], record].concat();
        let format = format::word(format::format(word)).into();
        let after = [format, file.len() as u64, 0, 1, 0, 0, 0];
        let (mut place, mut numbers) = ([word.into(), AT, 1, 1, 0, 0, 0], [BEFORE; 24]);
        let row = capi::row(|row| self.port.next(&file, &mut place, row, &mut numbers));
        let same = (row, numbers) == (Answer::result(0u8), expected) && place == after;
        self.count(NEXT, same, before != since, || told(&(row, numbers)));
        point
    }

    /// Compares what is written of a record that was read: by the library, of what it read itself and of
    /// what was read before the request, and by the Rust. In its own format the bytes are those of the
    /// record, in every other the Rust's.
    fn writes(&mut self, word: u32, record: &[u8], point: &Point) {
        let extra = &point.extra_bytes;
        let (_, since) = self.numbers(word, record);
        let mut before = since;
        if read_before(stored(word, record)).is_none() {
            (before[HAS_NIR], before[NIR]) = (0, 0);
        }
        let mut rust = Vec::new();
        for set in 0..=ATTRIBUTES {
            let target = word & 0xffff_0000 | set;
            let writing = Writing {
                word: target,
                point,
                numbers: &since,
                room: record_len(target),
            };
            let answer = writing.rust(&mut rust);
            let both = [since, before].map(|numbers| self.bytes(target, &numbers, extra));
            let nir = written(read_since(stored(word, record)));
            let same = both.iter().all(|(row, dst)| (row, dst) == (&answer, &rust))
                && (target != word || rust == record)
                && (answer.number != 0 || stored(target, &rust).is_none_or(|found| found == nir));
            self.count(WRITE, same, false, || {
                format!("({word:#010x}, {record:02x?}) into {target:#010x}: Rust {answer} {rust:02x?}, port {both:02x?}")
            });
        }
    }

    /// Compares a file of format `code` whose points have all three numbers, in some order: walked, they
    /// are those, and rewritten the bytes are the file's.
    fn rewrites(&mut self, code: u8, extra: u16, i: u64) {
        const HEADER: usize = 375;
        let word = Shape::word(code, extra);
        let length = record_len(word);
        let mut file = vec![0; HEADER];
        file[..4].copy_from_slice(b"LASF");
        file[24..26].copy_from_slice(&[1, 4]);
        file[94..96].copy_from_slice(&(HEADER as u16).to_le_bytes());
        file[96..98].copy_from_slice(&(HEADER as u16).to_le_bytes());
        file[104] = code;
        file[105..107].copy_from_slice(&(length as u16).to_le_bytes());
        file[107] = 3;
        for k in 0..3 {
            let nir = NIRS[((i / 3u64.pow(k)) % 3) as usize];
            file.extend(record(word, 3 * i + u64::from(k), Some(nir)));
        }
        let mut place = [word.into(), HEADER as u64, 3, 3, 0, 0, 0];
        let mut numbers = [BEFORE; 24];
        let walked = file[HEADER..].chunks_exact(length).all(|record| {
            let row = capi::row(|row| self.port.next(&file, &mut place, row, &mut numbers));
            row.number == 0 && shows(&numbers, read_since(stored(word, record)))
        });
        let mut dst = vec![BEFORE_BYTE; file.len()];
        let row = capi::row(|row| self.port.rewrite(&file, &mut dst, row));
        let same = walked && row == Answer::result(file.len() as u64) && dst == file;
        self.count(REWRITE, same, true, || {
            format!("format {code}, {extra} extra bytes, file {i}: {row}, walked {walked}")
        });
    }

    /// Compares strict conversion of three records that fit but for the near infrared of one: "Strict
    /// conversion still refuses only an NIR that isn't zero." What is written is what the Rust writes,
    /// and near infrared, missing or there, is as much in the old record as in the new: "demand 3 reads
    /// a missing NIR, in the old record or the new, as zero."
    fn strictly(&mut self, shape: Shape, i: u64, nir: u16) {
        let [from, to] = shape.lengths();
        let (word, target) = (Shape::word(shape.format, shape.extra), target(shape));
        let (at, mut random) = ((i % 3) as usize, Lcg::new(i));
        let mut src = vec![0; 3 * from];
        shape.fill(i, &mut src);
        for record in src.chunks_exact_mut(from) {
            fit(record, shape.format, &mut random);
        }
        set_nir(&mut src[at * from..][..from], shape.format, nir);

        let mut answer = Answer::result(3 * to as u64);
        let mut expected = Vec::new();
        let mut each = true;
        for (k, record) in (1..).zip(src.chunks_exact(from)) {
            let point = match rust_read(word, record) {
                Ok(point) => point,
                Err(refusal) => panic!("the Rust does not read a whole record: {refusal}"),
            };
            let writing = Writing {
                word: target,
                point: &point,
                numbers: &[0; 24],
                room: to,
            };
            let mut dst = Vec::new();
            writing.rust(&mut dst);
            // The check of what was read, and near infrared before and after.
            let (read, numbers) = self.numbers(word, record);
            let checked = capi::row(|row| self.port.check(&numbers, row));
            let rule = match stored(word, record) {
                Some(nir @ 1..) => Answer::refusal(20, nir),
                None | Some(0) => Answer::result(0u8),
            };
            let (old, shown) = self.numbers(target, &dst);
            each &= [read.number, old.number] == [0, 0] && checked == rule;
            each &= rule.number != 0 || numbers[NIR] == shown[NIR];
            if answer.number == 0 && rule.number != 0 {
                answer = Answer { record: k, ..rule };
            }
            expected.extend(dst);
        }
        if answer.number != 0 {
            expected.fill(BEFORE_BYTE);
        }
        let mut dst = vec![BEFORE_BYTE; 3 * to];
        let run = (shape.format, shape.extra, 3);
        let row = capi::row(|row| self.port.to_old(&src, run, &mut dst, row));
        let same = each && row == answer && dst == expected;
        self.count(DOWNWARD, same, true, || {
            format!("{shape:?}, run {i}, NIR {nir}: {answer}, port {row}, checks {each}")
        });
    }

    /// Compares an upgrade: the upgraded point has no near infrared, and the record, where its format has
    /// the field, shows 0.
    fn upgrades(&mut self, shape: Shape, i: u64) {
        let [from, to] = shape.lengths();
        let (word, target) = (Shape::word(shape.format, shape.extra), target(shape));
        let mut src = vec![0; from];
        shape.fill(i, &mut src);
        let mut expected = vec![BEFORE_BYTE; to];
        let answer = to_new(&src, shape.format, shape.extra, 1, &mut expected);
        let mut dst = vec![BEFORE_BYTE; to];
        let run = (shape.format, shape.extra, 1);
        let row = capi::row(|row| self.port.to_new(&src, run, &mut dst, row));

        let (_, mut numbers) = self.numbers(word, &src);
        self.port.upgraded(&mut numbers);
        let extra = &src[from - usize::from(shape.extra)..];
        let alone = self.bytes(target, &numbers, extra);
        let (_, shown) = self.numbers(target, &dst);
        let same = (row, &dst) == (answer, &expected)
            && shows(&numbers, None)
            && alone == (answer, expected)
            && shows(&shown, place(target).map(|_| 0));
        self.count(UPWARD, same, true, || {
            format!("{shape:?}, record {i}: {answer}, port {row}, alone {alone:02x?}")
        });
    }
}

/// Whether a point has this near infrared, and a zero beside it if it has none.
fn shows(numbers: &PointNumbers, nir: Option<u16>) -> bool {
    let nir = (u64::from(nir.is_some()), u64::from(nir.unwrap_or(0)));
    (numbers[HAS_NIR], numbers[NIR]) == nir
}

/// The `i`-th record of a format: zeros, ones, and then others; with this near infrared, if the format
/// has it.
fn record(word: u32, i: u64, nir: Option<u16>) -> Vec<u8> {
    let mut record = vec![if i == 1 { 0xff } else { 0 }; record_len(word)];
    if i > 1 {
        records::fill(word, i, &mut record);
    }
    if let (Some(at), Some(nir)) = (place(word), nir) {
        record[at..at + 2].copy_from_slice(&nir.to_le_bytes());
    }
    record
}

/// What `part` comes to over the numbers below `size`.
fn over<L: Library>(
    library: &L,
    size: u64,
    part: impl Fn(&mut Comparison<L>, u64) + Sync,
) -> Outcome {
    let outcomes = stretches(size, |stretch| {
        let mut comparison = Comparison {
            port: library,
            outcome: Outcome::new(CALLS),
        };
        stretch.for_each(|i| part(&mut comparison, i));
        comparison.outcome
    });
    outcomes.into_iter().fold(Outcome::new(CALLS), Outcome::and)
}

/// Every attribute set, uncompressed and compressed, with few extra bytes: records with each of the three
/// numbers, read and written; every number of those that have the field, read; files of every format with a
/// code; and every pair, down with each of the numbers and up.
fn compare_with(library: &impl Library, lot: Lot) -> Outcome {
    let words = records::formats(|_| FEW);
    let of = words.len() as u64;
    let records = over(library, of * 3 * lot.records, |comparison, i| {
        let (k, i) = (i % of, i / of);
        let word = records::with_ignored(words[k as usize], i / 3);
        let record = record(word, i / 3, Some(NIRS[(i % 3) as usize]));
        let point = comparison.reads(word, &record);
        comparison.writes(word & !format::IGNORED, &record, &point);
    });
    let having: Vec<u32> = words.into_iter().filter(|&w| place(w).is_some()).collect();
    let numbers = over(
        library,
        (1 << 16) * lot.records / FULL.records,
        |comparison, i| {
            for (k, &word) in (2..).zip(&having) {
                comparison.reads(word, &record(word, k + i, Some(i as u16)));
            }
        },
    );
    let files = over(library, 27 * 44, |comparison, i| {
        let (code, extra) = ((i / 4 % 11) as u8, FEW[(i % 4) as usize] as u16);
        comparison.rewrites(code, extra, i / 44);
    });
    let down = over(library, 5 * 4 * 3 * lot.runs, |comparison, i| {
        let (format, extra) = (DOWN[(i % 5) as usize].0, FEW[(i / 5 % 4) as usize] as u16);
        let way = Way::Down;
        let shape = Shape { way, format, extra };
        comparison.strictly(shape, i / 60, NIRS[(i / 20 % 3) as usize]);
    });
    let up = over(library, 4 * 4 * lot.runs, |comparison, i| {
        let (format, extra) = (UP[(i % 4) as usize].0, FEW[(i / 4 % 4) as usize] as u16);
        let way = Way::Up;
        comparison.upgrades(Shape { way, format, extra }, i / 16);
    });
    [numbers, files, down, up]
        .into_iter()
        .fold(records, Outcome::and)
}

/// The comparison itself is tested: a stand-in that follows the rules agrees with them, and one with an
/// error put in doesn't, whichever error it is.
pub fn compare_stand_ins() -> Report {
    let mut report = Report::new("NIR with an error, told apart");
    let agrees = |error| compare_with(&StandIn { error }, SOME).agrees();
    report.check(agrees(None), || "the one without an error differs".into());
    for &error in ERRORS {
        report.check(!agrees(Some(error)), || format!("{error:?} isn't seen"));
    }
    report
}

pub fn compare(tally: &mut Tally) {
    tally.add(compare_stand_ins());
    for report in compare_with(&Port, FULL).reports {
        tally.add(report);
    }
}
