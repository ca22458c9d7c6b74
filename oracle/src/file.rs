//! Files: checked, taken apart, walked and rewritten, by the port and by the rules of documents 01 and 02
//! as `file_model` has them.

use crate::{
    answer::Answer,
    capi::{self, Cursor, Place, PointNumbers, Row, Span},
    file_model::{self, Found, Part},
    file_wrong::{ERRORS, StandIn},
    files::{KINDS, MANY, OF_1_3, Patch, Whole},
    format::{self, LONGEST},
    point,
    records::{self, Lcg, most_extra, record_len},
    report::{self, Report, Tally, stretches},
};
use las::raw::Point;

/// The calls on files. The port has them, and so have the stand-ins that test the comparison itself.
pub trait Library: Sync {
    fn check(&self, file: &[u8], allowance: u64, row: &mut [u64; 4]);
    fn parts(&self, file: &[u8], allowance: u64, table: &mut [u64], row: &mut Row);
    fn cursor(&self, file: &[u8], allowance: u64, cursor: &mut Cursor, row: &mut Row);
    fn tell(&self, file: &[u8], cursor: &mut Cursor, part: &mut Part) -> u8;
    fn walker(&self, file: &[u8], allowance: u64, place: &mut Place);
    fn record(&self, file: &[u8], place: &Place, part: &mut Span);
    fn next(&self, file: &[u8], place: &mut Place, row: &mut Row, numbers: &mut PointNumbers);
    fn rewrite(&self, file: &[u8], allowance: u64, dst: &mut [u8], row: &mut Row);
}

struct Port;

impl Library for Port {
    fn check(&self, file: &[u8], allowance: u64, row: &mut [u64; 4]) {
        capi::las_file_check(file, allowance, row)
    }

    fn parts(&self, file: &[u8], allowance: u64, table: &mut [u64], row: &mut Row) {
        capi::las_file_parts(file, allowance, table, row)
    }

    fn cursor(&self, file: &[u8], allowance: u64, cursor: &mut Cursor, row: &mut Row) {
        capi::las_cursor_start(file, allowance, cursor, row)
    }

    fn tell(&self, file: &[u8], cursor: &mut Cursor, part: &mut Part) -> u8 {
        capi::las_cursor_next(file, cursor, part)
    }

    fn record(&self, file: &[u8], place: &Place, part: &mut Span) {
        capi::las_file_record(file, place, part)
    }

    fn walker(&self, file: &[u8], allowance: u64, place: &mut Place) {
        capi::las_file_walker(file, allowance, place)
    }

    fn next(&self, file: &[u8], place: &mut Place, row: &mut Row, numbers: &mut PointNumbers) {
        capi::las_file_next(file, place, row, numbers)
    }

    fn rewrite(&self, file: &[u8], allowance: u64, dst: &mut [u8], row: &mut Row) {
        capi::las_file_rewrite(file, allowance, dst, row)
    }
}

/// What lent memory holds before a call, so that what is written where nothing may be shows.
const BEFORE: u64 = 0xa5a5_a5a5_a5a5_a5a5;
const BEFORE_BYTE: u8 = 0xa5;

/// What a table or a destination may have too much.
const SPARE: usize = 9;

/// How many files are made whole, and how many damaged ones of each, besides those for each of its
/// boundaries and bytes.
#[derive(Clone, Copy)]
struct Lot {
    long: bool,
    whole: u64,
    several: u64,
    random: u64,
}

const SMALL: Lot = Lot {
    long: false,
    whole: 54_000,
    several: 250,
    random: 300,
};

const LONG: Lot = Lot {
    long: true,
    whole: 200,
    several: 20,
    random: 20,
};

/// How many 1.3 files are made whole for their waveform packets to be moved about: 20 million are made of
/// them.
const PACKETS: u64 = 52_000;

/// Few enough for each stand-in to take a blink.
const FEW: Lot = Lot {
    whole: 100,
    ..SMALL
};
const FEW_PACKETS: u64 = 12;

/// Every number that the calls can answer with. The others are those of conversion, of appending and of
/// single records.
const NUMBERS: [usize; 18] = [0, 1, 2, 3, 4, 5, 6, 7, 8, 9, 10, 11, 12, 13, 14, 22, 27, 35];

/// How often each must have been answered, or else the run has not tested it.
const OFTEN: u64 = 100_000;

/// What is counted: the files by the way in which they are made, all of them, and the points that the
/// walkers gave.
const COUNTED: [&str; 9] = [
    "files made whole",
    "files with a number at a boundary",
    "files with several, or cut besides",
    "files cut at every byte",
    "files with bytes changed at random",
    "1.3 files, packets around every edge",
    "files in all",
    "points",
    "points with near infrared 0",
];
const FILES: usize = 6;
const POINTS: usize = 7;
const ZEROS: usize = 8;

/// What comparing all calls on files came to.
type Outcome = report::Outcome<6, 9>;

/// The calls, and the places of their reports.
const CALLS: [&str; 6] = [
    "las_file_check",
    "las_file_parts",
    "las_cursor_start, las_cursor_next",
    "las_file_walker, las_file_next",
    "las_file_record",
    "las_file_rewrite",
];
const CHECK: usize = 0;
const PARTS: usize = 1;
const CURSOR: usize = 2;
const WALK: usize = 3;
const RECORD: usize = 4;
const REWRITE: usize = 5;

/// Compares a library with the rules on one file after another. Everything is used again.
struct Comparison<'a, L> {
    port: &'a L,
    outcome: Outcome,
    /// The number of the whole file, itself, and a copy of its bytes in which the damage is done.
    index: u64,
    whole: Whole,
    file: Vec<u8>,
    patches: Vec<Patch>,
    packets: Vec<[Patch; 3]>,
    random: Lcg,
    found: Found,
    /// What should be in the table and in the destination, which hold `BEFORE` between calls, and
    /// something to compare with that always does.
    parts: Vec<Part>,
    table: Vec<u64>,
    table_before: Vec<u64>,
    written: Vec<u8>,
    dst: Vec<u8>,
    dst_before: Vec<u8>,
}

/// What is lent to the calls: a file with its damage, which names it, and an allowance.
#[derive(Clone, Copy)]
struct Lent<'a> {
    damage: &'a [Patch],
    file: &'a [u8],
    allowance: u64,
}

impl Lent<'_> {
    /// The input as it is shown in a difference: from its number, the file can be made again.
    fn shown(&self, index: u64, whole: &Whole) -> String {
        let mut shown = format!("file {index} ({whole})");
        for patch in self.damage {
            shown += &format!(", {patch}");
        }
        if self.file.len() < whole.bytes.len() {
            shown += &format!(", cut to {}", self.file.len());
        }
        shown + &format!(", allowance {}", self.allowance)
    }
}

impl<'a, L: Library> Comparison<'a, L> {
    fn new(port: &'a L) -> Comparison<'a, L> {
        Comparison {
            port,
            outcome: Outcome::new(CALLS),
            index: 0,
            whole: Whole::default(),
            file: Vec::new(),
            patches: Vec::new(),
            packets: Vec::new(),
            random: Lcg::new(0),
            found: Found::default(),
            parts: Vec::new(),
            table: Vec::new(),
            table_before: Vec::new(),
            written: Vec::new(),
            dst: Vec::new(),
            dst_before: Vec::new(),
        }
    }

    /// The `index`-th whole file as it is, with every allowance that tells; how many bytes it has.
    fn whole(&mut self, index: u64, long: bool, kinds: &[(u8, u8)]) -> usize {
        self.index = index;
        self.random = Lcg::new(!index);
        self.whole.make_of(index, long, kinds);
        self.file.clone_from(&self.whole.bytes);
        let end = self.file.len();
        // A record has 54 bytes or more, and at most five parts are none.
        let entries = 3 * (end / 54 + 5) + SPARE;
        self.table.resize(entries, BEFORE);
        self.table_before.resize(entries, BEFORE);
        self.dst.resize(end + SPARE, BEFORE_BYTE);
        self.dst_before.resize(end + SPARE, BEFORE_BYTE);

        self.made(0);
        for allowance in self.whole.allowances() {
            self.compare(&[], end, allowance);
        }
        end
    }

    /// The `index`-th whole file of version 1.3, with its waveform packets moved about.
    fn packets_of(&mut self, index: u64) {
        let end = self.whole(index, false, &KINDS[OF_1_3]);
        self.whole.packets(&mut self.random, &mut self.packets);
        for k in 0..self.packets.len() {
            let damage = self.packets[k];
            self.damaged(5, &damage, end);
        }
    }

    /// The `index`-th whole file of a lot and everything that is made of it.
    fn all_of(&mut self, lot: Lot, index: u64) {
        let end = self.whole(index, lot.long, &KINDS);
        self.whole.boundaries(&mut self.patches);
        for k in 0..self.patches.len() {
            self.damaged(1, &[self.patches[k]], end);
        }
        for _ in 0..lot.several {
            let several = [(); 3].map(|()| {
                let k = self.random.below(self.patches.len() as u64);
                self.patches[k as usize]
            });
            let count = 1 + self.random.below(3) as usize;
            let cut = match (count, self.random.below(4)) {
                (1, _) | (_, 0) => self.random.below(end as u64) as usize,
                _ => end,
            };
            self.damaged(2, &several[..count], cut);
        }
        // Every second file of each version and format, for there would be little else.
        if !lot.long && (index / 25).is_multiple_of(2) {
            for cut in 0..end {
                self.damaged(3, &[], cut);
            }
        }
        for _ in 0..lot.random {
            let bytes = [(); 4].map(|()| {
                let at = self.whole.any_place(&mut self.random);
                Patch::byte(at, self.random.byte())
            });
            let count = 1 + self.random.below(4) as usize;
            self.damaged(4, &bytes[..count], end);
        }
        assert!(
            self.file == self.whole.bytes,
            "a call changed file {index}, which it was only shown"
        );
    }

    /// Counts a file made in one of the ways.
    fn made(&mut self, way: usize) {
        self.outcome.counted.counts[way] += 1;
        self.outcome.counted.counts[FILES] += 1;
    }

    /// Does the damage, compares and undoes it.
    fn damaged(&mut self, way: usize, damage: &[Patch], cut: usize) {
        self.made(way);
        let allowances = self.whole.allowances();
        let allowance = match self.random.below(2) {
            0 => allowances[self.random.below(7) as usize],
            _ => allowances[5],
        };
        for patch in damage {
            patch.apply(&mut self.file);
        }
        self.compare(damage, cut, allowance);
        for patch in damage {
            patch.undo(&mut self.file, &self.whole.bytes);
        }
    }

    /// Compares all calls on the first `cut` bytes of the file.
    fn compare(&mut self, damage: &[Patch], cut: usize, allowance: u64) {
        let file = std::mem::take(&mut self.file);
        let lent = Lent {
            damage,
            file: &file[..cut],
            allowance,
        };
        let answer = self.found.check(lent.file, allowance);
        self.outcome.counted.answered(answer.number);
        self.compare_check(lent, answer);
        self.compare_parts(lent, answer);
        self.compare_cursor(lent, answer);
        self.compare_walk(lent, answer);
        self.compare_rewrite(lent, answer);
        self.file = file;
    }

    /// Counts one input of the `call`-th call, and tells of it unless all is as it should be.
    fn count(&mut self, call: usize, same: bool, lent: Lent, told: impl FnOnce() -> String) {
        self.outcome.reports[call].check(same, || {
            format!("{}: {}", lent.shown(self.index, &self.whole), told())
        });
    }

    fn compare_check(&mut self, lent: Lent, answer: Answer) {
        let rules = self.found.row(answer);
        let mut port = [u64::MAX; 4];
        self.port.check(lent.file, lent.allowance, &mut port);
        self.count(CHECK, rules == port, lent, || {
            format!("the rules {rules:?}, port {port:?}")
        });
    }

    /// Compares the row and the whole table, which may have too few entries, enough, or more.
    fn compare_parts(&mut self, lent: Lent, answer: Answer) {
        self.parts.clear();
        if answer.number == 0 {
            self.found.parts(lent.file, &mut self.parts);
        }
        let wanted = 3 * self.parts.len();
        let size = match self.random.below(8) {
            _ if answer.number != 0 => self.random.below(self.table.len() as u64) as usize,
            0 => wanted - 1,
            1 => wanted - 3,
            2 => self.random.below(wanted as u64) as usize,
            3 => wanted,
            _ => wanted + self.random.below(SPARE as u64 + 1) as usize,
        };
        let rules = match answer.number {
            0 if size < wanted => Answer::refusal(22, self.parts.len() as u64),
            0 => Answer::result(self.parts.len() as u64),
            _ => answer,
        };
        if rules.number == 22 {
            self.outcome.counted.answered(22);
        }
        let filled = if rules.number == 0 { wanted } else { 0 };
        let table = &mut self.table[..size];
        let port = capi::row(|row| self.port.parts(lent.file, lent.allowance, table, row));
        let same = rules == port
            && self.table[..filled] == self.parts.as_flattened()[..filled]
            && self.table[filled..] == self.table_before[filled..];
        let at = (!same).then(|| {
            let parts = &self.parts.as_flattened()[..filled];
            first_difference(parts, &self.table_before, &self.table)
        });
        self.count(PARTS, same, lent, || {
            format!("table of {size} numbers, {rules}, port {port}, first differing number {at:?}")
        });
        match same {
            true => self.table[..filled].fill(BEFORE),
            false => self.table.fill(BEFORE),
        }
    }

    /// Compares the cursor: where it starts, which is nowhere in a refused file; the parts that it tells
    /// one by one, which are those of the table; where it stands after each; and that it stays after the
    /// last, asked twice.
    fn compare_cursor(&mut self, lent: Lent, answer: Answer) {
        let mut should = match answer.number {
            0 => self.found.cursor(lent.file),
            _ => [BEFORE; 10],
        };
        let mut cursor = [BEFORE; 10];
        let row = capi::row(|row| {
            self.port
                .cursor(lent.file, lent.allowance, &mut cursor, row)
        });
        let mut told = 0;
        let mut same = row == answer && cursor == should;
        while same && answer.number == 0 && told < self.parts.len() + 2 {
            let rules = tell(lent.file, &mut should);
            let mut part = [BEFORE; 3];
            let has = self.port.tell(lent.file, &mut cursor, &mut part);
            let listed = self.parts.get(told).copied();
            same = (has, part) == rules
                && cursor == should
                && rules == listed.map_or((0, [BEFORE; 3]), |part| (1, part));
            told += 1;
        }
        self.count(CURSOR, same, lent, || {
            format!("{answer}, port {row}, part {told}, cursor {should:?}, port {cursor:?}")
        });
    }

    /// Compares a walk to its end and one step past it: each row and all 24 numbers of each point
    /// with what the Rust reads. A walk that gives near infrared 0, which the Rust reads as none, is by
    /// rule. Now and then the walker is shown less than the file it was made of.
    fn compare_walk(&mut self, lent: Lent, answer: Answer) {
        let shown = match self.random.below(8) {
            0 => self.random.below(lent.file.len() as u64 + 1) as usize,
            _ => lent.file.len(),
        };
        let mut place = [BEFORE; 7];
        self.port.walker(lent.file, lent.allowance, &mut place);
        if answer.number == 0 {
            self.outcome.counted.answered(27);
        }
        let mut past = 0;
        let mut zeros = 0;
        let mut difference = None;
        let mut record = None;
        for k in 0.. {
            let rules = match answer.number {
                0 if k < self.found.points() && self.found.point_end(k) <= shown as u64 => {
                    let (numbers, zero) = self.found.point(lent.file, k);
                    zeros += u64::from(zero);
                    (Answer::result(0u8), numbers)
                }
                0 => (Answer::refusal(27, self.found.points()), [BEFORE; 24]),
                _ => (answer, [BEFORE; 24]),
            };
            // The record's bytes, if there is one.
            let span = match rules.0.number {
                0 => self.found.point_span(k),
                _ => [0, 0],
            };
            let told = capi::span(|part| self.port.record(&lent.file[..shown], &place, part));
            if told != span && record.is_none() {
                record = Some((k, span, told));
            }
            let mut numbers = [BEFORE; 24];
            let row = capi::row(|row| {
                self.port
                    .next(&lent.file[..shown], &mut place, row, &mut numbers)
            });
            if rules != (row, numbers) {
                difference = Some((k, rules, (row, numbers)));
                break;
            }
            match row.number {
                0 => self.outcome.counted.counts[POINTS] += 1,
                _ => past += 1,
            }
            if past == 2 {
                break;
            }
        }
        self.count(RECORD, record.is_none(), lent, || {
            format!("shown {shown} bytes, step, span, port: {record:?}")
        });
        self.count(WALK, difference.is_none(), lent, || {
            let Some((k, (rules, expected), (row, numbers))) = difference else {
                return String::new();
            };
            let at = expected.iter().zip(numbers).position(|(a, b)| *a != b);
            format!(
                "shown {shown} bytes, step {k}, {rules}, port {row}, first differing number {at:?}"
            )
        });
        self.outcome.reports[WALK].by_rule(zeros > 0);
        self.outcome.counted.counts[ZEROS] += zeros;
    }

    /// Compares the row and the whole destination, which may be too short, enough, or more.
    fn compare_rewrite(&mut self, lent: Lent, answer: Answer) {
        let wanted = lent.file.len();
        let size = match self.random.below(8) {
            0 => wanted.saturating_sub(1),
            1 => self.random.below(wanted as u64 + 1) as usize,
            2 => wanted,
            _ => wanted + self.random.below(SPARE as u64 + 1) as usize,
        };
        let rules = match answer.number {
            0 if size < wanted => Answer::refusal(22, wanted as u64),
            0 => Answer::result(wanted as u64),
            _ => answer,
        };
        if rules.number == 22 {
            self.outcome.counted.answered(22);
        }
        self.written.clear();
        if rules.number == 0 {
            file_model::rewritten(lent.file, &mut self.written);
        }
        let filled = self.written.len();
        let dst = &mut self.dst[..size];
        let port = capi::row(|row| self.port.rewrite(lent.file, lent.allowance, dst, row));
        let same = rules == port
            && self.dst[..filled] == self.written
            && self.dst[filled..] == self.dst_before[filled..];
        let at = (!same).then(|| first_difference(&self.written, &self.dst_before, &self.dst));
        self.count(REWRITE, same, lent, || {
            format!("room {size}, {rules}, port {port}, first differing byte {at:?}")
        });
        match same {
            true => self.dst[..filled].fill(BEFORE_BYTE),
            false => self.dst.fill(BEFORE_BYTE),
        }
    }
}

/// What a cursor tells by the rules, and moves it on; where it tells nothing it stays.
fn tell(file: &[u8], cursor: &mut Cursor) -> (u8, Part) {
    match file_model::step(file, *cursor) {
        Some((part, next)) => {
            *cursor = next;
            (1, part)
        }
        None => (0, [BEFORE; 3]),
    }
}

/// Where `found` is first neither what was to be written nor, past that, what was there before.
fn first_difference<T: PartialEq>(written: &[T], before: &[T], found: &[T]) -> Option<usize> {
    let expected = written.iter().chain(&before[written.len()..]);
    expected.zip(found).position(|(a, b)| a != b)
}

/// Compares a library with the rules on a lot of whole files and all that is made of them.
fn compare_with(library: &impl Library, lot: Lot) -> Outcome {
    let outcomes = stretches(lot.whole, |stretch| {
        let mut comparison = Comparison::new(library);
        stretch.for_each(|index| comparison.all_of(lot, index));
        comparison.outcome
    });
    outcomes.into_iter().fold(Outcome::new(CALLS), Outcome::and)
}

/// The same on so many whole files of version 1.3 and what is made of them by moving their waveform packets.
fn compare_packets(library: &impl Library, whole: u64) -> Outcome {
    let outcomes = stretches(whole, |stretch| {
        let mut comparison = Comparison::new(library);
        stretch.for_each(|index| comparison.packets_of(index));
        comparison.outcome
    });
    outcomes.into_iter().fold(Outcome::new(CALLS), Outcome::and)
}

/// The comparison itself is tested: a stand-in that follows the rules agrees with them, and one with
/// an error put in doesn't, whichever error it is.
pub fn compare_stand_ins() -> Report {
    let mut report = Report::new("stand-ins with an error, told apart");
    let agrees = |error| {
        let library = &StandIn { error };
        compare_with(library, FEW).agrees()
            && compare_packets(library, FEW_PACKETS).agrees()
            && compare_places(library).agrees()
            && compare_cursors(library, 100).agrees()
    };
    report.check(agrees(None), || "the one without an error differs".into());
    for &error in ERRORS {
        report.check(!agrees(Some(error)), || format!("{error:?} isn't seen"));
    }
    report
}

/// A 1.2 file of format 0 without padding: zeros but for its header and its first
/// VLR's length.
pub fn plain(size: usize, vlrs: u8, point_offset: u16, points: u8) -> Vec<u8> {
    let mut file = vec![0; size];
    file[..4].copy_from_slice(b"LASF");
    file[24..26].copy_from_slice(&[1, 2]);
    file[94] = 227;
    file[96..98].copy_from_slice(&point_offset.to_le_bytes());
    file[100] = vlrs;
    file[105] = 20;
    file[107] = points;
    if vlrs > 0 {
        file[227 + 20] = 4;
    }
    file
}

/// The files that document 01 describes one by one: both the rules and a library must answer what
/// stands there.
fn compare_described(library: &impl Library) -> Report {
    let mut report = Report::new("files that document 01 describes");
    let files: [(_, _, &[Part]); 5] = [
        (vec![], [1, 4, 0, 0], &[]),
        (plain(227, 0, 227, 0), [0; 4], &[[0, 0, 227], [3, 227, 0]]),
        (plain(247, 0, 227, 1), [0; 4], &[[0, 0, 227], [3, 227, 20]]),
        (plain(246, 0, 227, 1), [12, 1, 0, 0], &[]),
        (
            plain(327, 1, 287, 2),
            [0, 0, 0, 1],
            &[[0, 0, 227], [1, 227, 58], [2, 285, 2], [3, 287, 40]],
        ),
    ];
    for (file, stated, parts) in files {
        let mut found = Found::default();
        let answer = found.check(&file, MANY);
        let rules = found.row(answer);
        let mut listed = Vec::new();
        if answer.number == 0 {
            found.parts(&file, &mut listed);
        }
        let (mut port, mut row) = ([u64::MAX; 4], [u64::MAX; 3]);
        let mut table = vec![BEFORE; 3 * parts.len()];
        library.check(&file, MANY, &mut port);
        library.parts(&file, MANY, &mut table, &mut row);
        let same = [rules, port] == [stated; 2]
            && [listed.as_flattened(), &table[..]] == [parts.as_flattened(); 2];
        report.check(same, || {
            let size = file.len();
            format!("{size} bytes: {stated:?} {parts:?}, rules {rules:?} {listed:?}, port {port:?} {table:?}")
        });
    }
    report
}

/// What a step from a place comes to, whatever the place holds: the row, the point and the place after.
/// "A walker with an overlong format or a next record outside its file answers 27 too, with the count it
/// holds." A refused one repeats its refusal. And whether the point has near infrared 0.
fn step(file: &[u8], place: Place) -> ((Row, PointNumbers, Place), bool) {
    let [word, at, left, count, number, value, record] = place;
    if number != 0 {
        return (([number, value, record], [BEFORE; 24], place), false);
    }
    // a refusal leaves the place as it is; a step keeps no bits that mean nothing
    let format = format::format(word as u32);
    let word = format::word(format);
    let length = record_len(word);
    let end = u128::from(at) + length as u128;
    if left == 0 || length > LONGEST || end > file.len() as u128 {
        return (([27, count, 0], [BEFORE; 24], place), false);
    }
    match Point::read_from(&file[at as usize..], &format) {
        Ok(point) => {
            let moved = [word.into(), end as u64, left - 1, count, 0, 0, 0];
            let (numbers, zero) = point::numbers_read(&format, &point);
            (([0; 3], numbers, moved), zero)
        }
        Err(error) => panic!("the Rust does not read a whole record: {error}"),
    }
}

/// Compares steps from places that no file check gives, but that a caller can make: every overlong
/// format, places on both sides of the last record's and where sums wrap, any count, any refusal.
fn compare_places(library: &impl Library) -> Report {
    let mut report = Report::new("las_file_next from made places");
    let mut file = vec![0; 2 * LONGEST];
    Lcg::new(0).fill(&mut file);
    let mut compare = |place: Place| {
        let (rules, zero) = step(&file, place);
        let record = match rules.0 {
            [0, ..] => [place[1], rules.2[1] - place[1]],
            _ => [0, 0],
        };
        let span = capi::span(|part| library.record(&file, &place, part));
        let (mut row, mut numbers, mut after) = ([u64::MAX; 3], [BEFORE; 24], place);
        library.next(&file, &mut after, &mut row, &mut numbers);
        let same = rules == (row, numbers, after) && span == record;
        report.check(same, || {
            let (told, _, moved) = rules;
            format!("{place:?}: {told:?} {moved:?}, port {row:?} {after:?} {span:?}")
        });
        report.by_rule(zero);
    };

    let end = file.len() as u64;
    for (i, word) in (0..).zip(records::overlong()) {
        let word = records::with_ignored(word, i).into();
        for at in [0, 1, end] {
            compare([word, at, 1 + i, 7 * i, 0, 0, 0]);
        }
    }
    let longest = records::formats(|set| [most_extra(set) - 1, most_extra(set)]);
    for (i, word) in (0..).zip(records::coded().into_iter().chain(longest)) {
        let length = record_len(word) as u64;
        let word = records::with_ignored(word, i).into();
        let wraps = 0u64.wrapping_sub(length);
        let near = [end - length, end, wraps].map(|n| [n - 1, n, n + 1]);
        for &at in near
            .as_flattened()
            .iter()
            .chain(&[0, 1 << 32, 1 << 63, u64::MAX])
        {
            for left in [0, 1, 2, u64::MAX] {
                for count in [0, left, u64::MAX] {
                    compare([word, at, left, count, 0, 0, 0]);
                }
            }
        }
        for number in [1, 14, u64::MAX] {
            compare([word, 0, 1, 1, number, i, !i]);
        }
    }
    report
}

/// Compares steps from cursors that no file check gives, but that a caller can make, in so many whole
/// files: each number is the file's own, or beside it, or one of the file's others, or wider than its
/// field, or anything.
fn compare_cursors(library: &impl Library, files: u64) -> Report {
    const TIMES: u64 = 400;
    Report::over(
        "las_cursor_next from made cursors",
        files,
        |report, stretch| {
            let (mut whole, mut found) = (Whole::default(), Found::default());
            for index in stretch {
                whole.make(index, false);
                let file = &whole.bytes[..];
                found.check(file, u64::MAX);
                let own = found.cursor(file);
                let mut parts = Vec::new();
                found.parts(file, &mut parts);
                let mut random = Lcg::new(index);
                for _ in 0..TIMES {
                    let mut cursor = own;
                    cursor[0] =
                        [random.below(5), random.below(7), u64::MAX][random.below(3) as usize];
                    let part = parts[random.below(parts.len() as u64) as usize];
                    (cursor[1], cursor[2]) = (part[1], random.below(3));
                    for number in &mut cursor[1..] {
                        *number = match random.below(16) {
                            0 => number.wrapping_add(1),
                            1 => number.wrapping_sub(1),
                            2 => file.len() as u64 + random.below(3) - 1,
                            3 => *number | random.long() << 32,
                            4 => 1 << 32,
                            5 => random.long() >> random.below(64),
                            6 => own[3 + random.below(7) as usize],
                            _ => *number,
                        };
                    }
                    let (mut should, mut after, mut part) = (cursor, cursor, [BEFORE; 3]);
                    let rules = tell(file, &mut should);
                    let has = library.tell(file, &mut after, &mut part);
                    report.check((has, part) == rules && after == should, || {
                        format!(
                            "file {index} ({whole}), {cursor:?}: {rules:?} {should:?}, \
                         port {has} {part:?} {after:?}"
                        )
                    });
                }
            }
        },
    )
}

/// Compares a library and prints what came of it: the calls, the files by the way in which they were
/// made, and how often each number was answered.
pub fn compare_library(tally: &mut Tally, library: &impl Library) {
    tally.add(compare_described(library));
    let outcome = compare_with(library, SMALL)
        .and(compare_with(library, LONG))
        .and(compare_packets(library, PACKETS));
    let [check, parts, cursor, walk, record, rewrite] = outcome.reports;
    tally.add(check);
    tally.add(parts);
    tally.add(cursor);
    tally.add(compare_cursors(library, 20_000));
    tally.add(walk);
    tally.add(record);
    tally.add(compare_places(library));
    tally.add(rewrite);
    tally.add(
        outcome
            .counted
            .tell("file answers, each many times", COUNTED, &NUMBERS, OFTEN),
    );
}

pub fn compare(tally: &mut Tally) {
    tally.add(compare_stand_ins());
    compare_library(tally, &Port);
}
