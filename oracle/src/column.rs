//! One field of many points: by the port, and by document 02's rules as `column_model` has them; and what was
//! filled, held against the walker, against the Rust's columns and against the Rust's points. Of each stretch of
//! X, Y or Z all three are asked for besides in one pass.

use crate::{
    answer::Answer,
    call::noise,
    capi::{self, PointNumbers, Row},
    column_model::{
        self, COLUMNS,
        Column::{self, *},
        Pass, Stretch, compared,
    },
    column_wrong::{ERRORS, StandIn},
    file_model::{Found, POINT_BYTES, standard_size},
    files::{KINDS, Patch, Whole},
    format,
    migrate::{plain, put_header},
    records::{self, Lcg},
    report::{self, Report, Tally, stretches},
    sparse::Sparse,
};
use las::{PointData, PointDataBuilder, point::Format};

/// Where a column goes: entries of its own kind, as many as the stretch has room for.
pub enum Dst<'a> {
    Coordinate(&'a mut [i32]),
    Time(&'a mut [f64]),
    TimeBits(&'a mut [u64]),
    Colour(&'a mut [u16]),
}

/// The nine columns, and three of them in one pass. The port has them, and so have the stand-ins that test the
/// comparison itself.
pub trait Library: Sync {
    fn column(&self, file: &[u8], stretch: Stretch, dst: Dst, row: &mut Row);
    fn xyz(&self, file: &[u8], pass: Pass, to: [&mut [i32]; 3], row: &mut Row);
}

struct Port;

impl Library for Port {
    fn column(&self, file: &[u8], stretch: Stretch, dst: Dst, row: &mut Row) {
        let Stretch {
            column,
            allowance,
            first,
            count,
            room: _,
        } = stretch;
        match dst {
            Dst::Coordinate(dst) => {
                let call = match column {
                    X => capi::las_column_x,
                    Y => capi::las_column_y,
                    _ => capi::las_column_z,
                };
                call(file, allowance, first, count, dst, row)
            }
            Dst::Time(dst) => capi::las_column_time(file, allowance, first, count, dst, row),
            Dst::TimeBits(dst) => {
                capi::las_column_time_bits(file, allowance, first, count, dst, row)
            }
            Dst::Colour(dst) => {
                let call = match column {
                    Red => capi::las_column_red,
                    Green => capi::las_column_green,
                    Blue => capi::las_column_blue,
                    _ => capi::las_column_nir,
                };
                call(file, allowance, first, count, dst, row)
            }
        }
    }

    fn xyz(&self, file: &[u8], pass: Pass, [xs, ys, zs]: [&mut [i32]; 3], row: &mut Row) {
        let stretch = (pass.first, pass.count);
        capi::las_columns_xyz(file, pass.allowance, stretch, (xs, ys, zs), row)
    }
}

/// What entries hold before a call, so that what is written where nothing may be shows.
const BEFORE: u64 = 0xa5a5_a5a5_a5a5_a5a5;

/// How many entries there are past the room.
const SPARE: usize = 3;

/// What an entry of a column holds before a call, by its bits.
fn before(column: Column) -> u64 {
    match column {
        X | Y | Z => BEFORE >> 32,
        Time | TimeBits => BEFORE,
        Red | Green | Blue | Nir => BEFORE >> 48,
    }
}

/// Asks a library for a stretch. What the entries hold then, the spare ones too, is told by the bits that are
/// compared.
fn ask(library: &impl Library, file: &[u8], stretch: Stretch, held: &mut Vec<u64>) -> Answer {
    fn lend<T: Copy>(
        room: usize,
        before: T,
        bits: fn(T) -> u64,
        held: &mut Vec<u64>,
        call: impl FnOnce(&mut [T]) -> Answer,
    ) -> Answer {
        let mut entries = vec![before; room + SPARE];
        let row = call(&mut entries[..room]);
        held.clear();
        held.extend(entries.into_iter().map(bits));
        row
    }
    let call = |dst: Dst| capi::row(|row| library.column(file, stretch, dst, row));
    let room = stretch.room;
    let before = before(stretch.column);
    match stretch.column {
        X | Y | Z => {
            let bits = |n: i32| u64::from(n as u32);
            lend(room, before as i32, bits, held, |dst| {
                call(Dst::Coordinate(dst))
            })
        }
        Time => {
            let bits = |n: f64| compared(Time, n.to_bits());
            lend(room, f64::from_bits(before), bits, held, |dst| {
                call(Dst::Time(dst))
            })
        }
        TimeBits => lend(room, before, |n| n, held, |dst| call(Dst::TimeBits(dst))),
        Red | Green | Blue | Nir => lend(room, before as u16, u64::from, held, |dst| {
            call(Dst::Colour(dst))
        }),
    }
}

/// Whether entries are those that were to be filled and, past them, as they were.
fn as_filled(column: Column, entries: &[u64], held: &[u64]) -> bool {
    let before = before(column);
    held.starts_with(entries) && held[entries.len()..].iter().all(|&bits| bits == before)
}

/// The pass over a stretch of X, Y or Z, if it is one: the column's own room is the shortest of three that differ.
fn pass_of(stretch: Stretch) -> Option<Pass> {
    let Stretch {
        column,
        allowance,
        first,
        count,
        room,
    } = stretch;
    let rooms = match column {
        X => [room, room + 1, room + 2],
        Y => [room + 2, room, room + 1],
        Z => [room + 1, room + 2, room],
        _ => return None,
    };
    Some(Pass {
        allowance,
        first,
        count,
        rooms,
    })
}

/// What came of a pass: both answers, and of X, Y and Z the entries as they should be and as the library leaves
/// them, the spare ones too.
struct Passed {
    rules: Answer,
    port: Answer,
    entries: [Vec<u64>; 3],
    held: [Vec<u64>; 3],
}

impl Passed {
    /// Asks the rules and a library for X, Y and Z in one pass.
    fn new(library: &impl Library, found: &mut Found, file: &[u8], pass: Pass) -> Passed {
        let mut entries = [const { Vec::new() }; 3];
        let rules = column_model::xyz(found, file, pass, &mut entries);
        let mut lent = pass.rooms.map(|room| vec![before(X) as i32; room + SPARE]);
        let [x, y, z] = pass.rooms;
        let [xs, ys, zs] = &mut lent;
        let to = [&mut xs[..x], &mut ys[..y], &mut zs[..z]];
        let port = capi::row(|row| library.xyz(file, pass, to, row));
        let bits = |n: i32| u64::from(n as u32);
        let held = lent.map(|entries| entries.into_iter().map(bits).collect());
        Passed {
            rules,
            port,
            entries,
            held,
        }
    }

    /// Whether the answer is the rules', and all three buffers are as they should be.
    fn agrees(&self) -> bool {
        let mut buffers = self.entries.iter().zip(&self.held);
        self.rules == self.port && buffers.all(|(entries, held)| as_filled(X, entries, held))
    }

    /// Whether each column by itself answers the same and leaves the same.
    fn as_alone(&self, library: &impl Library, file: &[u8], pass: Pass) -> bool {
        let mut alone = Vec::new();
        [X, Y, Z].into_iter().zip(&self.held).all(|(column, held)| {
            let answer = ask(library, file, pass.stretch(column), &mut alone);
            answer == self.port && alone == *held
        })
    }
}

/// How many files are made.
#[derive(Clone, Copy)]
struct Lot {
    /// Files of every version and format, each asked for every stretch around the edges.
    whole: u64,
    /// Files in which what a u16 states is at its end, or with hundreds of VLRs, each asked so often.
    long: u64,
    /// Files of up to a thousand points, each asked so often.
    many: u64,
    times: u64,
    /// Files of every version, each with every number at its boundaries and with bytes changed at random.
    damaged: u64,
    random: u64,
}

const FULL: Lot = Lot {
    whole: 4_000,
    long: 400,
    many: 10_000,
    times: 50,
    damaged: 8_000,
    random: 100,
};

/// Few enough for each stand-in to take a blink.
const FEW: Lot = Lot {
    whole: 50,
    long: 20,
    many: 200,
    damaged: 75,
    ..FULL
};

/// Every number that the calls can answer with.
const NUMBERS: [usize; 19] = [
    0, 1, 2, 3, 4, 5, 6, 7, 8, 9, 10, 11, 12, 13, 14, 22, 27, 35, 36,
];

/// How often each must have been answered, or else the run has not tested it.
const OFTEN: u64 = 2_000;

/// What is counted.
const COUNTED: [&str; 13] = [
    "files with columns asked for",
    "stretches",
    "stretches filled",
    "stretches filled with no entry, right behind the last point",
    "entries filled",
    "entries that are NaNs",
    "entries that are near infrared 0",
    "fields lacking, of files without points",
    "passes",
    "passes filled",
    "passes refused for the room of X alone",
    "passes refused for the room of Y alone",
    "passes refused for the room of Z alone",
];
const FILES: usize = 0;
const STRETCHES: usize = 1;
const FILLED: usize = 2;
const BEHIND: usize = 3;
const ENTRIES: usize = 4;
const NANS: usize = 5;
const ZEROS: usize = 6;
const LACKING: usize = 7;
const PASSES: usize = 8;
const PASSES_FILLED: usize = 9;
const ONE_SHORT: usize = 10;

/// What comparing the calls came to.
type Outcome = report::Outcome<14, 13>;

/// The calls, each at the place of its column, the one pass, and the places of the other reports.
const CALLS: [&str; 14] = [
    "las_column_x",
    "las_column_y",
    "las_column_z",
    "las_column_time",
    "las_column_time_bits",
    "las_column_red",
    "las_column_green",
    "las_column_blue",
    "las_column_nir",
    "las_columns_xyz",
    "columns as las_file_next tells",
    "columns as PointData has them",
    "columns as the Rust reads points",
    "las_columns_xyz as each by itself",
];
const XYZ: usize = 9;
const WALKED: usize = 10;
const DATA: usize = 11;
const POINTS: usize = 12;
const ALONE: usize = 13;

/// What others tell of the points of an accepted file.
struct Others {
    /// What the walker gives.
    walked: Vec<PointNumbers>,
    /// The Rust's columns, each where its format has it.
    data: [Option<Vec<u64>>; 9],
    /// What the Rust reads of each record, and whether it reads near infrared 0 as none.
    points: Vec<(PointNumbers, bool)>,
}

impl Others {
    /// Asks them all, of a file that `found` has just accepted.
    fn new(found: &Found, file: &[u8]) -> Others {
        let count = found.points();
        let mut place = [BEFORE; 7];
        capi::las_file_walker(file, u64::MAX, &mut place);
        let walked = (0..count).map(|_| {
            let mut numbers = [BEFORE; 24];
            let row = capi::row(|row| capi::las_file_next(file, &mut place, row, &mut numbers));
            assert!(row.number == 0, "the walker gives fewer points: {row}");
            numbers
        });
        let walked = walked.collect();
        let points = (0..count).map(|k| found.point(file, k)).collect();
        let data = columns(&point_data(found, file));
        Others {
            walked,
            data,
            points,
        }
    }
}

/// The Rust's columns of the points.
fn point_data(found: &Found, file: &[u8]) -> PointData {
    let start = u32::from_le_bytes([file[96], file[97], file[98], file[99]]) as usize;
    let length = u16::from_le_bytes([file[105], file[106]]);
    let mut format = Format::new(file[104]).expect("a format from 0 to 10");
    format.extra_bytes = length - POINT_BYTES[usize::from(file[104])] as u16;
    let bytes = file[start..][..found.points() as usize * usize::from(length)].to_vec();
    let data = PointDataBuilder::new().with_format(format);
    data.build_from_bytes(bytes).expect("whole records")
}

/// All entries of each, by the bits that are compared.
fn columns(data: &PointData) -> [Option<Vec<u64>>; 9] {
    let coordinate = |n: i32| u64::from(n as u32);
    let colour = |of: fn((u16, u16, u16)) -> u16| {
        let rgb = data.rgb()?;
        Some(rgb.map(of).map(u64::from).collect())
    };
    let time = |column| {
        let times = data.gps_time()?;
        Some(times.map(|n| compared(column, n.to_bits())).collect())
    };
    [
        Some(data.x_raw().map(coordinate).collect()),
        Some(data.y_raw().map(coordinate).collect()),
        Some(data.z_raw().map(coordinate).collect()),
        time(Time),
        time(TimeBits),
        colour(|(red, _, _)| red),
        colour(|(_, green, _)| green),
        colour(|(_, _, blue)| blue),
        data.nir().map(|nir| nir.map(u64::from).collect()),
    ]
}

/// What the numbers of a point have of a column, by the bits that are compared, if they have it.
fn field(numbers: &PointNumbers, column: Column) -> Option<u64> {
    let part = |has: usize, at: usize| (numbers[has] != 0).then_some(numbers[at]);
    match column {
        X => Some(numbers[0]),
        Y => Some(numbers[1]),
        Z => Some(numbers[2]),
        Time | TimeBits => part(8, 9).map(|bits| compared(column, bits)),
        Red => part(10, 11),
        Green => part(10, 12),
        Blue => part(10, 13),
        Nir => part(14, 15),
    }
}

/// Compares a library with the rules on one stretch after another. Everything is used again.
struct Comparison<'a, L> {
    port: &'a L,
    outcome: Outcome,
    found: Found,
    /// The file that is asked about, what the library is shown of it and has to leave, and what others tell of
    /// it, where it is accepted.
    file: Vec<u8>,
    shown: Vec<u8>,
    others: Option<Others>,
    /// The entries as they should be and as the library leaves them.
    entries: Vec<u64>,
    held: Vec<u64>,
}

impl<'a, L: Library> Comparison<'a, L> {
    fn new(port: &'a L) -> Comparison<'a, L> {
        Comparison {
            port,
            outcome: Outcome::new(CALLS),
            found: Found::default(),
            file: Vec::new(),
            shown: Vec::new(),
            others: None,
            entries: Vec::new(),
            held: Vec::new(),
        }
    }

    /// Takes up a file, of which stretches are asked from then on, and tells how many points it has, if it is
    /// accepted.
    fn take(&mut self, file: &[u8]) -> Option<u64> {
        for copy in [&mut self.file, &mut self.shown] {
            copy.clear();
            copy.extend_from_slice(file);
        }
        self.outcome.counted.counts[FILES] += 1;
        let accepted = self.found.check(file, u64::MAX).number == 0;
        self.others = accepted.then(|| Others::new(&self.found, file));
        accepted.then(|| self.found.points())
    }

    /// Compares one stretch: the row, every entry, what is past them, and the file, which stays.
    fn stretch(&mut self, stretch: Stretch, shown: &dyn Fn() -> String) {
        let (found, entries) = (&mut self.found, &mut self.entries);
        let rules = column_model::column(found, &self.file, stretch, entries);
        let port = ask(self.port, &self.shown, stretch, &mut self.held);
        let kept = self.shown == self.file;
        let same = rules == port && as_filled(stretch.column, &self.entries, &self.held) && kept;
        self.outcome.reports[stretch.column as usize].check(same, || {
            let (size, filled) = (self.file.len(), self.entries.len());
            let expected = (0..).map(|k| match self.entries.get(k) {
                Some(&entry) => entry,
                None => before(stretch.column),
            });
            let at = expected.zip(&self.held).position(|(a, b)| a != *b);
            format!(
                "{}, {size} bytes, {stretch:?}: {rules}, port {port}, first differing entry {at:?} of {filled}, \
                 file kept {kept}",
                shown()
            )
        });
        self.count(stretch, rules);
        if rules == port {
            self.others(stretch, rules, shown);
        }
        if !kept {
            self.shown.clone_from(&self.file);
        }
        if let Some(pass) = pass_of(stretch) {
            self.pass(pass, shown);
        }
    }

    /// Compares X, Y and Z in one pass: the row, every entry of all three, what is past them, and the file, which
    /// stays; and where it is filled each of the three by itself.
    fn pass(&mut self, pass: Pass, shown: &dyn Fn() -> String) {
        let passed = Passed::new(self.port, &mut self.found, &self.shown, pass);
        let kept = self.shown == self.file;
        self.outcome.reports[XYZ].check(passed.agrees() && kept, || {
            let Passed { rules, port, .. } = passed;
            let size = self.file.len();
            format!(
                "{}, {size} bytes, {pass:?}: {rules}, port {port}, file kept {kept}",
                shown()
            )
        });
        if passed.rules.number == 0 {
            let same = passed.as_alone(self.port, &self.file, pass);
            self.outcome.reports[ALONE].check(same, || format!("{}, {pass:?}", shown()));
        }
        let counts = &mut self.outcome.counted.counts;
        counts[PASSES] += 1;
        counts[PASSES_FILLED] += u64::from(passed.rules.number == 0);
        if passed.rules.number == 22 {
            let short = pass.rooms.map(|room| (room as u64) < pass.count);
            match short {
                [true, false, false] => counts[ONE_SHORT] += 1,
                [false, true, false] => counts[ONE_SHORT + 1] += 1,
                [false, false, true] => counts[ONE_SHORT + 2] += 1,
                _ => {}
            }
        }
        if !kept {
            self.shown.clone_from(&self.file);
        }
    }

    fn count(&mut self, stretch: Stretch, rules: Answer) {
        let counted = &mut self.outcome.counted;
        counted.answered(rules.number);
        let counts = &mut counted.counts;
        counts[STRETCHES] += 1;
        let points = self.found.points();
        match (rules.number, stretch.column) {
            (0, column) => {
                let bits = self.entries.iter();
                counts[FILLED] += 1;
                counts[BEHIND] += u64::from(stretch.first == points + 1);
                counts[ENTRIES] += bits.len() as u64;
                match column {
                    Time | TimeBits => {
                        let nans = bits.filter(|&&bits| f64::from_bits(bits).is_nan());
                        counts[NANS] += nans.count() as u64;
                    }
                    Nir => counts[ZEROS] += bits.filter(|&&nir| nir == 0).count() as u64,
                    _ => {}
                }
            }
            (36, _) => counts[LACKING] += u64::from(points == 0),
            _ => {}
        }
    }

    /// "Exactly what the walker gives for each point", and what the Rust's columns and its points have: each
    /// entry of a stretch that was filled, and nothing where the field is lacking. Where the Rust reads near
    /// infrared 0 as none, the entry is 0 by rule; and of an f64 that is a NaN the bits are not the Rust's.
    fn others(&mut self, stretch: Stretch, answer: Answer, shown: &dyn Fn() -> String) {
        let Some(others) = &self.others else {
            return;
        };
        let column = stretch.column;
        let data = &others.data[column as usize];
        let (walked, as_data, points, zeros) = match answer.number {
            0 => {
                let from = stretch.first as usize - 1;
                let range = from..from + stretch.count as usize;
                let filled = &self.held[..range.len()];
                let walked = others.walked[range.clone()].iter();
                let points = others.points[range.clone()].iter();
                (
                    walked
                        .zip(filled)
                        .all(|(numbers, &bits)| field(numbers, column) == Some(bits)),
                    data.as_ref().is_some_and(|data| &data[range] == filled),
                    points
                        .clone()
                        .zip(filled)
                        .all(|((numbers, _), &bits)| field(numbers, column) == Some(bits)),
                    column == Nir && points.clone().any(|&(_, zero)| zero),
                )
            }
            36 => {
                let lacks = |numbers| field(numbers, column).is_none();
                (
                    others.walked.iter().all(lacks),
                    data.is_none(),
                    others.points.iter().all(|(numbers, _)| lacks(numbers)),
                    false,
                )
            }
            _ => return,
        };
        for (report, same) in [(WALKED, walked), (DATA, as_data), (POINTS, points)] {
            self.outcome.reports[report].check(same, || format!("{}, {stretch:?}", shown()));
        }
        let nan = |&bits: &u64| f64::from_bits(bits).is_nan();
        let nans = column == Time && self.entries.iter().any(nan);
        self.outcome.reports[DATA].by_rule(nans);
        self.outcome.reports[POINTS].by_rule(nans || zeros);
    }

    /// Stretches of every column.
    fn every_column(
        &mut self,
        allowance: u64,
        (first, count): (u64, u64),
        room: usize,
        shown: &dyn Fn() -> String,
    ) {
        for column in COLUMNS {
            let stretch = Stretch {
                column,
                allowance,
                first,
                count,
                room,
            };
            self.stretch(stretch, shown);
        }
    }
}

/// First points on both sides of every edge: none, the first and the second, one amid, the last, and those
/// past it.
fn firsts(points: u64) -> [u64; 8] {
    [
        0,
        1,
        2,
        points / 2 + 1,
        points,
        points + 1,
        points + 2,
        u64::MAX,
    ]
}

/// Counts from a first point on, on both sides of every edge: none, one, all that are left and one more, all
/// and one more, and those with which the sum would wrap to none, to one, or to what there is.
fn counts(points: u64, first: u64) -> [u64; 9] {
    let left = points.wrapping_sub(first.wrapping_sub(1));
    let wraps = 1u64.wrapping_sub(first);
    [
        0,
        1,
        left,
        left.wrapping_add(1),
        points,
        points + 1,
        wraps,
        wraps.wrapping_add(1),
        u64::MAX,
    ]
}

/// Entries on both sides of a count, and none. Where there are not so many points, as many as would hold all.
fn rooms(points: u64, count: u64) -> [usize; 4] {
    [count.saturating_sub(1), count, count.saturating_add(3), 0]
        .map(|room| room.min(points + 4) as usize)
}

/// First points and counts of which 8, 16 or 32 bits would be within the points, or whose place or whose
/// bytes would wrap in 64 bits to what is there.
fn far(points: u64, length: u64) -> [(u64, u64); 20] {
    let wraps = u64::MAX / length + 2;
    [
        (1 + (1 << 8), 1),
        (1 + (1 << 16), 1),
        (1 + (1 << 32), 1),
        (1 + (1 << 32), 0),
        (points + (1 << 32), 1),
        (1 + (1 << 63), points),
        (1 + (1 << 63), 0),
        (wraps, 1),
        (wraps - 1, 1),
        (u64::MAX - 1, 2),
        (u64::MAX - 1, 3),
        (1, 1 << 8),
        (1, 1 << 16),
        (1, 1 << 32),
        (1, points + (1 << 32)),
        (1, 1 << 61),
        (1, points + (1 << 62)),
        (1, points + (1 << 63)),
        (2, (1 << 32) - 1),
        (1, u64::MAX / length + 1),
    ]
}

/// Any of those, more often one that is there, into any room, more often enough.
fn some_stretch(random: &mut Lcg, points: u64, length: u64, allowance: u64) -> Stretch {
    let column = COLUMNS[random.below(9) as usize];
    let (first, count) = match random.below(12) {
        0 => {
            let first = firsts(points)[random.below(8) as usize];
            (first, counts(points, first)[random.below(9) as usize])
        }
        1 => far(points, length)[random.below(20) as usize],
        2 => (1, points),
        _ => {
            let first = 1 + random.below(points + 1);
            let left = points + 1 - first;
            let any = random.below(left + 1);
            (
                first,
                [left, any, any, left.min(3)][random.below(4) as usize],
            )
        }
    };
    let room = match random.below(6) {
        0 => rooms(points, count)[random.below(4) as usize],
        1 => random.below(points + 4) as usize,
        _ => count.min(points + 4) as usize,
    };
    Stretch {
        column,
        allowance,
        first,
        count,
        room,
    }
}

/// The record length that a whole header states.
fn record_length(file: &[u8]) -> u64 {
    u16::from_le_bytes([file[105], file[106]]).into()
}

/// Files of every version with every format, asked for every column: every first point with every count
/// around the edges, into every room around them; and those far beyond.
fn whole<L: Library>(library: &L, lot: Lot) -> Outcome {
    over(library, lot.whole, |comparison, i| {
        let mut whole = Whole::default();
        whole.make(i, false);
        let points = comparison.take(&whole.bytes).expect("a whole file");
        let allowance = whole.allowances()[3 + i as usize % 4];
        let told = || format!("file {i} ({whole})");
        for first in firsts(points) {
            for count in counts(points, first) {
                for room in rooms(points, count) {
                    comparison.every_column(allowance, (first, count), room, &told);
                }
            }
        }
        for (first, count) in far(points, record_length(&whole.bytes)) {
            let room = (points + 3) as usize;
            comparison.every_column(allowance, (first, count), room, &told);
        }
    })
}

/// Files in which what a u16 states is often at its end, or with hundreds of VLRs.
fn long<L: Library>(library: &L, lot: Lot) -> Outcome {
    over(library, lot.long, |comparison, i| {
        let mut random = Lcg::new(!i);
        let mut whole = Whole::default();
        whole.make(i, true);
        let points = comparison.take(&whole.bytes).expect("a whole file");
        let length = record_length(&whole.bytes);
        for _ in 0..lot.times {
            let allowance = whole.allowances()[2 + random.below(5) as usize];
            let stretch = some_stretch(&mut random, points, length, allowance);
            comparison.stretch(stretch, &|| format!("long file {i} ({whole})"));
        }
    })
}

/// Files of up to a thousand points, with extra bytes or without, behind a gap or not.
fn many<L: Library>(library: &L, lot: Lot) -> Outcome {
    over(library, lot.many, |comparison, i| {
        let mut random = Lcg::new(i ^ 1 << 42);
        let (minor, format) = KINDS[(i % KINDS.len() as u64) as usize];
        let header_size = standard_size(minor.into()) as u64 + random.below(3);
        let offset = header_size + [0, 0, random.below(40)][random.below(3) as usize];
        let extra = [0, 0, 0, 1, 2, 7, 31, 300][random.below(8) as usize];
        let length = POINT_BYTES[usize::from(format)] as u64 + extra;
        let points = match random.below(4) {
            0 => 6 + random.below(12),
            1 => 16 * (1 + random.below(16)) + random.below(3) - 1,
            _ => 6 + random.below(995),
        };
        let end = (offset + points * length) as usize;
        let mut file = vec![0; (end + random.below(20) as usize).max(375)];
        let numbers = [
            minor.into(),
            header_size,
            offset,
            format.into(),
            length,
            points,
        ];
        put_header(&mut file, numbers);
        let word = format::word(Format {
            extra_bytes: extra as u16,
            ..Format::new(format).expect("a format from 0 to 10")
        });
        for record in file[offset as usize..end].chunks_mut(length as usize) {
            records::fill(word, random.long(), record);
        }
        comparison.take(&file).expect("a whole file");
        for _ in 0..lot.times {
            let stretch = some_stretch(&mut random, points, length, 0);
            comparison.stretch(stretch, &|| format!("file {i} of many points, {numbers:?}"));
        }
    })
}

/// Every number of 16 bits in each colour and near infrared, and as each half and quarter of the others, in
/// every format: 65,536 points, all of them as one stretch and all but the first and the last.
fn every_number<L: Library>(library: &L) -> Outcome {
    over(library, 22, |comparison, i| {
        const POINTS: u64 = 1 << 16;
        let (format, extra) = (i / 2, i % 2 * 6);
        let length = POINT_BYTES[format as usize] as u64 + extra;
        let numbers = [4, 375, 375, format, length, POINTS];
        let mut file = vec![0; (375 + POINTS * length) as usize];
        put_header(&mut file, numbers);
        for (i, record) in (0u16..=u16::MAX).zip(file[375..].chunks_mut(length as usize)) {
            // A product with an odd number is every number once.
            for (k, two) in (0..).zip(record.chunks_mut(2)) {
                let number = i.wrapping_mul(2 * noise(k) as u16 + 1) ^ noise(!k) as u16;
                two.copy_from_slice(&number.to_le_bytes()[..two.len()]);
            }
        }
        comparison.take(&file).expect("a whole file");
        for (first, count) in [(1, POINTS), (2, POINTS - 2)] {
            comparison.every_column(0, (first, count), count as usize, &|| {
                format!("every number, {numbers:?}")
            });
        }
    })
}

/// Files of every version and format, whole and damaged: each number that the file check looks at at its
/// boundaries, and bytes changed at random.
fn damaged<L: Library>(library: &L, lot: Lot) -> Outcome {
    over(library, lot.damaged, |comparison, i| {
        let mut random = Lcg::new(!i);
        let mut whole = Whole::default();
        whole.make(i, false);
        let points = comparison.take(&whole.bytes).expect("a whole file");
        let mut patches = Vec::new();
        whole.boundaries(&mut patches);
        let mut file = whole.bytes.clone();
        for k in 0..patches.len() as u64 + lot.random {
            let damage: Vec<Patch> = match patches.get(k as usize) {
                Some(&patch) => vec![patch],
                None => (0..random.below(4))
                    .map(|_| Patch::byte(whole.any_place(&mut random), random.byte()))
                    .collect(),
            };
            damage.iter().for_each(|patch| patch.apply(&mut file));
            let end = match random.one_in(8) {
                true => random.below(file.len() as u64 + 1) as usize,
                false => file.len(),
            };
            // The edges are those of the points that there are now.
            let points = comparison.take(&file[..end]).unwrap_or(points);
            let length = record_length(&file).max(1);
            for _ in 0..2 {
                let allowance = whole.allowances()[random.below(7) as usize];
                let stretch = some_stretch(&mut random, points, length, allowance);
                comparison.stretch(stretch, &|| {
                    let shown: Vec<String> = damage.iter().map(Patch::to_string).collect();
                    format!("file {i} ({whole}), {}", shown.join(", "))
                });
            }
            damage
                .iter()
                .for_each(|patch| patch.undo(&mut file, &whole.bytes));
        }
    })
}

/// What `part` comes to over the numbers below `size`.
fn over<L: Library>(
    library: &L,
    size: u64,
    part: impl Fn(&mut Comparison<L>, u64) + Sync,
) -> Outcome {
    let outcomes = stretches(size, |stretch| {
        let mut comparison = Comparison::new(library);
        stretch.for_each(|i| part(&mut comparison, i));
        comparison.outcome
    });
    outcomes.into_iter().fold(Outcome::new(CALLS), Outcome::and)
}

const TWO_32: u64 = 1 << 32;

/// Files too large to be made, in memory that nobody has touched: places on both sides of 2^32 and far beyond
/// it, and counts on both sides of what 32 bits can count. The points around those that tell hold anything,
/// all others zeros. Counts that 32 bits do not hold are asked for with room for what 32 bits of them say.
fn beyond<L: Library>(library: &L) -> Report {
    const AROUND: u64 = 3;
    let mut report = Report::new("columns beyond 2^32");
    let files = [
        [2, 227, 227, 0, 20, TWO_32 - 1],
        [2, 300, TWO_32 - 40, 3, 37, 5],
        [3, 235, TWO_32 - 1, 5, 65_535, 70_000],
        [4, 375, 375, 1, 28, TWO_32 + 3],
        [4, 375, 400, 6, 30, TWO_32 + 3],
        [4, 375, TWO_32 - 391, 8, 38, 9],
        [4, 375, 375, 10, 65_535, 1 << 20],
    ];
    let size = |[_, _, offset, _, length, points]: [u64; 6]| offset + points * length + 9;
    let most = files.into_iter().map(size).max().unwrap_or_default();
    let mut memory = Sparse::new(most as usize);
    let (mut found, mut entries, mut held) = (Found::default(), Vec::new(), Vec::new());
    for numbers in files {
        let [_, _, offset, _, length, points] = numbers;
        let file = &mut memory[..size(numbers) as usize];
        put_header(file, numbers);
        let first_beyond = TWO_32.saturating_sub(offset).div_ceil(length) + 1;
        let near = [1, first_beyond, 1 << 16, 1 << 31, TWO_32, points];
        let around = near.map(|point| point.saturating_sub(AROUND).max(1)..point + AROUND);
        let there = around.clone().into_iter().flatten();
        let there: Vec<u64> = there.filter(|&point| point <= points).collect();
        for &point in &there {
            let at = (offset + (point - 1) * length) as usize;
            Lcg::new(point).fill(&mut file[at..][..length.min(70) as usize]);
        }
        let mut compare = |stretch: Stretch| {
            let rules = column_model::column(&mut found, file, stretch, &mut entries);
            let port = ask(library, file, stretch, &mut held);
            let same = rules == port && as_filled(stretch.column, &entries, &held);
            report.check(same, || {
                format!("{numbers:?}, {stretch:?}: {rules}, port {port}, {entries:x?}, {held:x?}")
            });
            if let Some(pass) = pass_of(stretch) {
                let passed = Passed::new(library, &mut found, file, pass);
                report.check(passed.agrees(), || {
                    let Passed { rules, port, .. } = passed;
                    format!("{numbers:?}, {pass:?}: {rules}, port {port}")
                });
            }
        };
        let few = around
            .into_iter()
            .flatten()
            .flat_map(|first| [0, 1, 2, 5].map(|count| (first, count, count as usize)));
        let large = [
            (1, TWO_32, 0),
            (1, TWO_32 + 1, 1),
            (2, TWO_32 + 1, 1),
            (1, TWO_32 + 3, 3),
            (2, TWO_32 + 3, 3),
            (TWO_32 + 1, 2, 2),
            (TWO_32 + 1, TWO_32 + 2, 2),
            (1, points, points as u32 as usize % 9),
            (1, points + 1, 9),
        ];
        let far = far(points, length).map(|(first, count)| (first, count, 2));
        for (first, count, room) in few.chain(large).chain(far) {
            for column in COLUMNS {
                compare(Stretch {
                    column,
                    allowance: 0,
                    first,
                    count,
                    room,
                });
            }
        }
        for &point in &there {
            let at = (offset + (point - 1) * length) as usize;
            file[at..][..length.min(70) as usize].fill(0);
        }
        file[..375].fill(0);
    }
    report
}

/// A file of more than 4 GB, whose records are as long as their field allows: every point's every column, in
/// one stretch each, what the walker gives of each point, and X, Y and Z in one pass.
fn gigabytes<L: Library>(library: &L) -> Report {
    const LENGTH: u64 = 65_535;
    const POINTS: u64 = TWO_32 / LENGTH + 40;
    let mut report = Report::new("columns of a file of 4 GB");
    let mut file = Sparse::new((375 + POINTS * LENGTH) as usize);
    put_header(&mut file, [4, 375, 375, 10, LENGTH, POINTS]);
    for (k, record) in (0..).zip(file[375..].chunks_mut(LENGTH as usize)) {
        Lcg::new(k).fill(&mut record[..67]);
    }
    let mut place = [BEFORE; 7];
    capi::las_file_walker(&file, 0, &mut place);
    let walked: Vec<PointNumbers> = (0..POINTS)
        .map(|_| {
            let mut numbers = [BEFORE; 24];
            capi::las_file_next(&file, &mut place, &mut [0; 3], &mut numbers);
            numbers
        })
        .collect();
    let (mut found, mut entries, mut held) = (Found::default(), Vec::new(), Vec::new());
    for column in COLUMNS {
        let stretch = Stretch {
            column,
            allowance: 0,
            first: 1,
            count: POINTS,
            room: POINTS as usize,
        };
        let rules = column_model::column(&mut found, &file, stretch, &mut entries);
        let port = ask(library, &file, stretch, &mut held);
        let as_walked = |(numbers, &bits)| field(numbers, column) == Some(bits);
        let same = rules == port
            && as_filled(column, &entries, &held)
            && walked.iter().zip(&held).all(as_walked);
        report.check(same, || format!("{column:?}: {rules}, port {port}"));
        if let Some(pass) = pass_of(stretch) {
            let passed = Passed::new(library, &mut found, &file, pass);
            let same = passed.agrees() && passed.as_alone(library, &file, pass);
            report.check(same, || format!("{pass:?}: {rules}, port {}", passed.port));
        }
    }
    report
}

/// A stretch of a file with the row and the entries that follow from the documents' text, worked by hand: the
/// column, its first point, how many, and the room.
type Described = (Vec<u8>, (Column, u64, u64, usize), Row, Vec<u64>);

/// Stretches that are filled. The record of the first ones has the bytes 0, 1, 2 and so on.
fn filled_by_hand() -> Vec<Described> {
    let one = |format: u64, besides: &[(usize, u8)]| {
        let length = POINT_BYTES[format as usize] as u64;
        let numbers = [4, 375, 375, format, length, 1];
        plain(375 + length as usize, numbers, besides)
    };
    let mut list = Vec::new();
    // "goes straight to each field's place in the record", little-endian
    for (format, column, entry) in [
        (0, X, 0x0302_0100),
        (0, Y, 0x0706_0504),
        (0, Z, 0x0b0a_0908),
        (10, X, 0x0302_0100),
        (10, Z, 0x0b0a_0908),
        (1, Time, 0x1b1a_1918_1716_1514),
        (3, TimeBits, 0x1b1a_1918_1716_1514),
        (4, TimeBits, 0x1b1a_1918_1716_1514),
        (6, Time, 0x1d1c_1b1a_1918_1716),
        (9, TimeBits, 0x1d1c_1b1a_1918_1716),
        (2, Red, 0x1514),
        (2, Green, 0x1716),
        (2, Blue, 0x1918),
        (3, Red, 0x1d1c),
        (3, Blue, 0x2120),
        (5, Green, 0x1f1e),
        (7, Red, 0x1f1e),
        (7, Blue, 0x2322),
        (8, Green, 0x2120),
        (8, Nir, 0x2524),
        (10, Blue, 0x2322),
        (10, Nir, 0x2524),
    ] {
        let length = POINT_BYTES[format as usize] as usize;
        let counted: Vec<_> = (0..length).map(|k| (375 + k, k as u8)).collect();
        let file = one(format, &counted);
        list.push((file, (column, 1, 1, 1), [0, 1, 0], vec![entry]));
    }
    // signs, NaNs that are quiet and that signal, minus zero; No. 5: near infrared 0 is a number
    let last: &[(usize, u8)] = &[(375 + 27, 0x80)];
    let quiet = &[(375 + 20, 1), (375 + 26, 0xf8), (375 + 27, 0xff)];
    let signals = &[(375 + 20, 1), (375 + 26, 0xf0), (375 + 27, 0x7f)];
    for (format, besides, column, entry) in [
        (0, &[(375 + 3, 0x80)][..], X, 0x8000_0000),
        (1, quiet, TimeBits, 0xfff8_0000_0000_0001),
        (1, quiet, Time, f64::NAN.to_bits()),
        (1, signals, TimeBits, 0x7ff0_0000_0000_0001),
        (1, last, Time, 1 << 63),
        (8, &[], Nir, 0),
        (10, &[], Nir, 0),
    ] {
        let file = one(format, besides);
        list.push((file, (column, 1, 1, 3), [0, 1, 0], vec![entry]));
    }
    // "for a stretch of points", each at the record length that the header states
    for (first, room, entries) in [
        (1, 3, vec![1, 2, 3]),
        (1, 5, vec![1, 2, 3]),
        (1, 3, vec![1]),
        (2, 1, vec![2]),
        (2, 2, vec![2, 3]),
        (3, 9, vec![3]),
        (4, 0, vec![]),
        (2, 2, vec![]),
    ] {
        let places = &[(300, 1), (322, 2), (344, 3)];
        let file = plain(366, [2, 230, 300, 0, 22, 3], places);
        let count = entries.len() as u64;
        list.push((file, (X, first, count, room), [0, count, 0], entries));
    }
    list
}

/// Stretches that are refused, and some that just aren't.
fn refused_by_hand() -> Vec<Described> {
    let mut list = Vec::new();
    // "Where the format lacks a field the call is refused", points or not
    for (format, column) in [
        (0, Time),
        (0, Red),
        (0, Nir),
        (1, Green),
        (2, TimeBits),
        (3, Nir),
        (4, Blue),
        (5, Nir),
        (6, Red),
        (7, Nir),
        (9, Green),
        (9, Nir),
    ] {
        for (count, room) in [(0, 0), (1, 1), (1, 0)] {
            let length = POINT_BYTES[format as usize] as u64;
            let numbers = [4, 375, 375, format, length, count];
            let file = plain(375 + 67, numbers, &[]);
            list.push((file, (column, 1, count, room), [36, 0, 0], Vec::new()));
        }
    }
    let none: &[(usize, u8)] = &[];
    let empty = [2, 227, 227, 0, 20, 0];
    let one = [2, 227, 227, 0, 20, 1];
    let three = [2, 227, 227, 0, 22, 3];
    let two = [4, 375, 375, 6, 30, 2];
    let packets = [3, 235, 235, 4, 57, 1];
    let last = u64::MAX;
    for (size, numbers, besides, asked, row) in [
        // "stretch not within the points (27)", and its value is the point count
        (247, one, none, (X, 0, 0, 3), [27, 1, 0]),
        (247, one, none, (X, 0, 1, 3), [27, 1, 0]),
        (247, one, none, (X, 1, 2, 3), [27, 1, 0]),
        (247, one, none, (X, 2, 0, 0), [0, 0, 0]),
        (247, one, none, (X, 2, 1, 3), [27, 1, 0]),
        (267, one, none, (X, 2, 1, 3), [27, 1, 0]),
        (247, one, none, (X, 3, 0, 3), [27, 1, 0]),
        (247, one, none, (X, last, 0, 3), [27, 1, 0]),
        (247, one, none, (X, 2, last, 3), [27, 1, 0]),
        (247, one, none, (X, last, 2, 3), [27, 1, 0]),
        (293, three, none, (X, 3, 2, 3), [27, 3, 0]),
        (227, empty, none, (X, 1, 0, 0), [0, 0, 0]),
        (227, empty, none, (X, 0, 0, 0), [27, 0, 0]),
        (227, empty, none, (X, 2, 0, 0), [27, 0, 0]),
        (227, empty, none, (X, 1, 1, 1), [27, 0, 0]),
        // "no room", and its value is the entries wanted
        (247, one, none, (X, 1, 1, 0), [22, 1, 0]),
        (293, three, none, (Z, 1, 3, 2), [22, 3, 0]),
        (293, three, none, (Z, 2, 2, 1), [22, 2, 0]),
        // "in order: file check; field lacking; stretch not within the points (27); no room"
        (246, one, none, (Nir, 0, last, 0), [12, 1, 0]),
        (0, one, none, (Nir, 0, last, 0), [1, 4, 0]),
        (247, one, &[(100, 1)], (Nir, 0, last, 0), [11, 0, 1]),
        (247, one, none, (Nir, 0, last, 0), [36, 0, 0]),
        (247, one, none, (Nir, 1, 1, 0), [36, 0, 0]),
        (247, one, none, (X, 1, 2, 0), [27, 1, 0]),
        (247, one, none, (X, 0, 1, 0), [27, 1, 0]),
        // "the legacy count if it isn't zero, else the large count"
        (435, two, none, (Y, 2, 2, 2), [27, 2, 0]),
        (435, two, &[(107, 1)], (Y, 1, 2, 2), [27, 1, 0]),
        // an EVLR, or in 1.3 waveform packets, that start before the end of the points
        (435, two, &[(235, 1), (243, 1)], (Y, 1, 2, 2), [14, 1, 0]),
        (292, packets, &[(6, 2), (227, 1)], (X, 1, 1, 1), [35, 0, 0]),
    ] {
        list.push((plain(size, numbers, besides), asked, row, Vec::new()));
    }
    list
}

/// Both the rules and a library must answer what was worked by hand, fill these entries and leave the others.
fn compare_described(library: &impl Library) -> Report {
    let mut report = Report::new("columns described");
    let (mut found, mut entries, mut held) = (Found::default(), Vec::new(), Vec::new());
    for (file, asked, stated, filled) in filled_by_hand().into_iter().chain(refused_by_hand()) {
        let (column, first, count, room) = asked;
        let [number, value, record] = stated;
        let stated = Answer {
            number,
            value,
            record,
        };
        let stretch = Stretch {
            column,
            allowance: 9,
            first,
            count,
            room,
        };
        let rules = column_model::column(&mut found, &file, stretch, &mut entries);
        let port = ask(library, &file, stretch, &mut held);
        let same =
            [rules, port] == [stated; 2] && entries == filled && as_filled(column, &filled, &held);
        report.check(same, || {
            let size = file.len();
            format!(
                "{size} bytes, {asked:?}: {stated} {filled:x?}, rules {rules} {entries:x?}, \
                 port {port} {held:x?}"
            )
        });
    }
    report
}

/// Passes with their row and, of those that are filled, the entries of X, Y and Z, worked by hand: over a file of
/// two records of 20 bytes, 1 to 20 and 21 to 40.
type DescribedPass = ((u64, u64), [usize; 3], Row, [Vec<u64>; 3]);

fn passes_by_hand() -> Vec<DescribedPass> {
    let none = || [const { Vec::new() }; 3];
    let both = [
        vec![0x0403_0201, 0x1817_1615],
        vec![0x0807_0605, 0x1c1b_1a19],
        vec![0x0c0b_0a09, 0x201f_1e1d],
    ];
    let second = both.clone().map(|entries| vec![entries[1]]);
    vec![
        ((1, 2), [2, 2, 2], [0, 2, 0], both.clone()),
        ((1, 2), [2, 3, 4], [0, 2, 0], both),
        ((2, 1), [5, 1, 3], [0, 1, 0], second),
        ((3, 0), [0, 0, 0], [0, 0, 0], none()),
        // "no room", where any of the three is short, and its value is the entries wanted
        ((1, 2), [1, 2, 2], [22, 2, 0], none()),
        ((1, 2), [2, 1, 2], [22, 2, 0], none()),
        ((1, 2), [2, 2, 1], [22, 2, 0], none()),
        ((2, 1), [0, 9, 9], [22, 1, 0], none()),
        ((2, 1), [9, 0, 9], [22, 1, 0], none()),
        ((2, 1), [9, 9, 0], [22, 1, 0], none()),
        // "stretch not within the points (27); no room"
        ((2, 2), [2, 2, 2], [27, 2, 0], none()),
        ((0, 2), [0, 1, 2], [27, 2, 0], none()),
        ((4, 0), [0, 0, 0], [27, 2, 0], none()),
    ]
}

/// Both the rules and a library must answer what was worked by hand, fill these entries and leave the others.
fn compare_described_passes(library: &impl Library) -> Report {
    let mut report = Report::new("passes described");
    let besides: Vec<_> = (0..40).map(|k| (227 + k, k as u8 + 1)).collect();
    let file = plain(267, [2, 227, 227, 0, 20, 2], &besides);
    for ((first, count), rooms, stated, filled) in passes_by_hand() {
        let [number, value, record] = stated;
        let stated = Answer {
            number,
            value,
            record,
        };
        let pass = Pass {
            allowance: 0,
            first,
            count,
            rooms,
        };
        let passed = Passed::new(library, &mut Found::default(), &file, pass);
        let same = passed.agrees() && passed.rules == stated && passed.entries == filled;
        report.check(same, || {
            let Passed {
                rules, port, held, ..
            } = passed;
            format!("{pass:?}: {stated} {filled:x?}, rules {rules}, port {port} {held:x?}")
        });
    }
    report
}

/// The comparison itself is tested: a stand-in that follows the rules agrees with them, and one with an error
/// put in doesn't, whichever error it is.
pub fn compare_stand_ins() -> Report {
    let mut report = Report::new("columns with an error, told apart");
    let agrees = |error| {
        let library = &StandIn { error };
        whole(library, FEW).agrees()
            && damaged(library, FEW).agrees()
            && many(library, FEW).agrees()
            && long(library, FEW).agrees()
            && beyond(library).agrees()
    };
    report.check(agrees(None), || "the one without an error differs".into());
    for &error in ERRORS {
        report.check(!agrees(Some(error)), || format!("{error:?} isn't seen"));
    }
    report
}

/// Compares a library and prints what came of it: the calls, and how often each number was answered.
pub fn compare_library(tally: &mut Tally, library: &impl Library) {
    tally.add(compare_described(library));
    tally.add(compare_described_passes(library));
    let outcome = whole(library, FULL)
        .and(long(library, FULL))
        .and(many(library, FULL))
        .and(every_number(library))
        .and(damaged(library, FULL));
    for (k, report) in (0..).zip(outcome.reports) {
        match k {
            WALKED.. => tally.aside(report),
            _ => tally.add(report),
        }
    }
    tally.add(beyond(library));
    tally.add(gigabytes(library));
    tally.add(
        outcome
            .counted
            .tell("column answers, each many times", COUNTED, &NUMBERS, OFTEN),
    );
}

pub fn compare(tally: &mut Tally) {
    tally.add(compare_stand_ins());
    compare_library(tally, &Port);
}
