//! The class of one point, set in place: by the port and by document 02's rules as `reclassify_model` has
//! them; and what came of it, held against the file written afresh, read again, and set back.

use crate::{
    answer::Answer,
    call::{Call, noise},
    capi::{self, Row},
    file_model::{Found, POINT_BYTES, Part},
    files::{Patch, Whole},
    flags,
    migrate::{plain, put_header},
    reclassify_model::{self, Change, Wish},
    reclassify_wrong::{ERRORS, StandIn},
    records::Lcg,
    report::{self, Report, Tally, stretches},
    sparse::Sparse,
};
use las::{
    point::Format,
    raw::{Point, point::Flags},
};
use std::ops::Range;

/// The calls that set a class. The port has them, and so have the stand-ins that test the comparison itself.
pub trait Library: Sync {
    fn reclassify(&self, file: &mut [u8], wish: Wish, row: &mut Row);
    fn ask(&self, file: &[u8], wish: Wish, change: &mut Change, row: &mut Row);
}

struct Port;

impl Library for Port {
    fn reclassify(&self, file: &mut [u8], wish: Wish, row: &mut Row) {
        let Wish {
            allowance,
            point,
            class,
        } = wish;
        capi::las_reclassify(file, allowance, point, class, row)
    }

    fn ask(&self, file: &[u8], wish: Wish, change: &mut Change, row: &mut Row) {
        let Wish {
            allowance,
            point,
            class,
        } = wish;
        capi::las_reclassify_ask(file, allowance, point, class, change, row)
    }
}

/// What lent memory holds before a call, so that what is written where nothing may be shows.
const BEFORE: u64 = 0xa5a5_a5a5_a5a5_a5a5;
const BEFORE_BYTE: u8 = 0xa5;

/// How many files are made.
#[derive(Clone, Copy)]
struct Lot {
    /// Files of every version and format, each asked for every class of the points that tell.
    whole: u64,
    /// Files in which what a u16 states is at its end, or with hundreds of VLRs, each asked so often.
    long: u64,
    times: u64,
    /// Files of every version, each with every number at its boundaries and with bytes changed at random.
    damaged: u64,
    random: u64,
    /// Of the pairs of a byte with the class and a class that it is to have, each so many-th.
    step: usize,
}

const FULL: Lot = Lot {
    whole: 5_000,
    long: 200,
    times: 20,
    damaged: 8_000,
    random: 100,
    step: 1,
};

/// Few enough for each stand-in to take a blink.
const FEW: Lot = Lot {
    whole: 50,
    long: 4,
    damaged: 75,
    step: 97,
    ..FULL
};

/// Every number that the calls can answer with.
const NUMBERS: [usize; 18] = [0, 1, 2, 3, 4, 5, 6, 7, 8, 9, 10, 11, 12, 13, 14, 17, 27, 35];

/// How often each must have been answered, or else the run has not tested it.
const OFTEN: u64 = 2_000;

/// What is counted.
const COUNTED: [&str; 6] = [
    "classes asked for",
    "classes set in formats 0 to 5",
    "classes set in formats 6 to 10",
    "classes set that were there already",
    "classes set beside half an EVLR pair",
    "points read again",
];
const WISHES: usize = 0;
const SET: usize = 1;
const SAME: usize = 3;
const BESIDE_HALF: usize = 4;
const POINTS: usize = 5;

/// What comparing the calls came to.
type Outcome = report::Outcome<5, 6>;

/// The calls, and the places of their reports.
const CALLS: [&str; 5] = [
    "las_reclassify",
    "las_reclassify_ask",
    "classes set as if written afresh",
    "classes set and all else the same",
    "classes set and set back",
];
const RECLASSIFY: usize = 0;
const ASK: usize = 1;
const AFRESH: usize = 2;
const ELSE: usize = 3;
const BACK: usize = 4;

/// Compares a library with the rules on one wish after another. Everything is used again.
struct Comparison<'a, L> {
    port: &'a L,
    outcome: Outcome,
    found: Found,
    /// The file as it should be and as the library leaves it, what the library is only shown, and the file
    /// written afresh.
    rules: Vec<u8>,
    by_port: Vec<u8>,
    shown: Vec<u8>,
    afresh: Vec<u8>,
    parts: Vec<Part>,
    table: Vec<u64>,
}

impl<'a, L: Library> Comparison<'a, L> {
    fn new(port: &'a L) -> Comparison<'a, L> {
        Comparison {
            port,
            outcome: Outcome::new(CALLS),
            found: Found::default(),
            rules: Vec::new(),
            by_port: Vec::new(),
            shown: Vec::new(),
            afresh: Vec::new(),
            parts: Vec::new(),
            table: Vec::new(),
        }
    }

    /// Compares both calls on one wish: the rows, the change, and the whole file.
    fn wish(&mut self, file: &[u8], wish: Wish, shown: &dyn Fn() -> String) {
        let told = || {
            let (size, allowance) = (file.len(), wish.allowance);
            let (point, class) = (wish.point, wish.class);
            format!(
                "{}, {size} bytes, allowance {allowance}, class {class} for point {point}",
                shown()
            )
        };
        for copy in [&mut self.rules, &mut self.by_port, &mut self.shown] {
            copy.clear();
            copy.extend_from_slice(file);
        }
        let rules = reclassify_model::reclassify(&mut self.found, &mut self.rules, wish);
        let port = capi::row(|row| self.port.reclassify(&mut self.by_port, wish, row));
        let same = rules == port && self.rules == self.by_port;
        self.outcome.reports[RECLASSIFY].check(same, || {
            let at = first_difference(&self.rules, &self.by_port);
            format!(
                "{}: {rules}, port {port}, first differing byte {at:?}",
                told()
            )
        });
        self.outcome.counted.counts[WISHES] += 1;
        self.outcome.counted.answered(rules.number);

        let (answer, change) = reclassify_model::ask(&mut self.found, file, wish);
        let (change, mut told_by_port) = (change.unwrap_or([BEFORE; 2]), [BEFORE; 2]);
        let asked = capi::row(|row| self.port.ask(&self.shown, wish, &mut told_by_port, row));
        let kept = self.shown == file;
        let alike = answer == asked && change == told_by_port && kept;
        self.outcome.reports[ASK].check(alike, || {
            format!(
                "{}: {answer} {change:?}, port {asked} {told_by_port:?}, file kept {kept}",
                told()
            )
        });
        if same && rules.number == 0 {
            self.look(file, wish, rules.value as u8, &told);
        }
    }

    /// What is to be seen of a file in which a class was set.
    fn look(&mut self, file: &[u8], wish: Wish, had: u8, told: &dyn Fn() -> String) {
        let counts = &mut self.outcome.counted.counts;
        counts[SET + usize::from(file[104] > 5)] += 1;
        counts[SAME] += u64::from(had == wish.class);
        counts[BESIDE_HALF] += u64::from(half_a_pair(file).is_some());

        let row = self.write_afresh(file, wish);
        let same = row == Answer::result(file.len() as u64) && self.afresh == self.by_port;
        self.outcome.reports[AFRESH].check(same, || {
            let at = first_difference(&self.afresh, &self.by_port);
            format!("{}: {row}, first differing byte {at:?}", told())
        });

        let difference = self
            .other_parts(file, wish.allowance)
            .or_else(|| self.other_points(file, wish));
        self.outcome.reports[ELSE].check(difference.is_none(), || {
            format!("{}: {}", told(), difference.unwrap_or_default())
        });

        let back = Wish { class: had, ..wish };
        let port = capi::row(|row| self.port.reclassify(&mut self.by_port, back, row));
        let same = port == Answer::result(wish.class) && self.by_port == file;
        self.outcome.reports[BACK].check(same, || {
            let at = first_difference(file, &self.by_port);
            format!("{}: back {port}, first differing byte {at:?}", told())
        });
    }

    /// "The state after equals reading everything, changing that one class and writing afresh, but an EVLR
    /// pair with one zero stays as it is": the port writes the file, the Rust reads the point and writes it
    /// with other flags.
    fn write_afresh(&mut self, file: &[u8], wish: Wish) -> Answer {
        self.afresh.clear();
        self.afresh.resize(file.len(), BEFORE_BYTE);
        let afresh = &mut self.afresh;
        let row = capi::row(|row| capi::las_file_rewrite(file, wish.allowance, afresh, row));
        let format = format_of(file);
        let [at, length] = self.found.point_span(wish.point - 1).map(|n| n as usize);
        let mut point = read(&file[at..at + length], &format);
        point.flags = with_class(point.flags, wish.class);
        let written = point.write_to(&mut self.afresh[at..at + length], &format);
        written.expect("a record has room for itself");
        if let Some(pair) = half_a_pair(file) {
            self.afresh[235..247].copy_from_slice(pair);
        }
        row
    }

    /// What is otherwise in the file as the library left it than it was, if anything: "every part [...] are
    /// the same", the file check's answer among them.
    fn other_parts(&mut self, file: &[u8], allowance: u64) -> Option<String> {
        let answer = self.found.check(file, allowance);
        let check = self.found.row(answer);
        self.found.parts(file, &mut self.parts);
        let mut found = [BEFORE; 4];
        capi::las_file_check(&self.by_port, allowance, &mut found);
        if found != check {
            return Some(format!("check {check:?}, now {found:?}"));
        }
        self.table.clear();
        self.table.resize(3 * self.parts.len(), BEFORE);
        let table = &mut self.table;
        let listed = capi::row(|row| capi::las_file_parts(&self.by_port, allowance, table, row));
        let count = Answer::result(self.parts.len() as u64);
        let same = listed == count && self.table == self.parts.as_flattened();
        let (parts, table) = (&self.parts, &self.table);
        (!same).then(|| format!("parts {parts:?}, now {listed} {table:?}"))
    }

    /// The same of the points, which the walker and the Rust must read alike: "every other point's readings",
    /// and of the point itself all but the class.
    fn other_points(&mut self, file: &[u8], wish: Wish) -> Option<String> {
        let mut places = [[BEFORE; 7]; 2];
        capi::las_file_walker(file, wish.allowance, &mut places[0]);
        capi::las_file_walker(&self.by_port, wish.allowance, &mut places[1]);
        for k in 1..=self.found.points() {
            self.outcome.counted.counts[POINTS] += 1;
            let [before, after] = [(file, 0), (&self.by_port[..], 1)].map(|(file, i)| {
                let mut numbers = [BEFORE; 24];
                let place = &mut places[i];
                let row = capi::row(|row| capi::las_file_next(file, place, row, &mut numbers));
                let rust = self.found.point(file, k - 1).0;
                (row == Answer::result(0u8) && rust == numbers).then_some(numbers)
            });
            let (Some(before), Some(mut after)) = (before, after) else {
                return Some(format!("the Rust and the walker differ on point {k}"));
            };
            if k == wish.point {
                let [had, has] = [before, after].map(|numbers| numbers[FLAGS] as u32);
                if !same_but_for_class(had, has, wish.class) {
                    return Some(format!("flags {had:#x}, now {has:#x}"));
                }
                after[FLAGS] = before[FLAGS];
            }
            if before != after {
                return Some(format!("point {k}: {before:?}, now {after:?}"));
            }
        }
        None
    }
}

/// Where the numbers of a point have its flags.
const FLAGS: usize = 4;

fn first_difference(expected: &[u8], found: &[u8]) -> Option<usize> {
    expected.iter().zip(found).position(|(a, b)| a != b)
}

/// The bytes of an EVLR pair of which one is zero and the other isn't, in a file with a whole header.
fn half_a_pair(file: &[u8]) -> Option<&[u8]> {
    let zero = |bytes: &[u8]| bytes.iter().all(|&byte| byte == 0);
    let half = file[25] == 4 && zero(&file[235..243]) != zero(&file[243..247]);
    half.then(|| &file[235..247])
}

/// The Rust's format of an accepted file, with the record length's extra bytes.
fn format_of(file: &[u8]) -> Format {
    let format = Format::new(file[104]).expect("a format from 0 to 10");
    Format {
        extra_bytes: u16::from_le_bytes([file[105], file[106]]) - format.len(),
        ..format
    }
}

fn read(record: &[u8], format: &Format) -> Point {
    Point::read_from(record, format).expect("a whole record")
}

/// The flags that the Rust reads as it reads these, but for the class.
fn with_class(flags: Flags, class: u8) -> Flags {
    let fit =
        |&changed: &Flags| same_but_for_class(flags::word(flags), flags::word(changed), class);
    let mut all = (0..=255).map(|byte| match flags {
        Flags::TwoByte(a, _) => Flags::TwoByte(a, byte),
        Flags::ThreeByte(a, b, _) => Flags::ThreeByte(a, b, byte),
    });
    all.find(fit).expect("flags with this class")
}

/// Whether the Rust reads this class of the second of two flags, and all else of both alike. Overlap is a bit
/// in extended flags; in old ones the Rust reads it from the class.
fn same_but_for_class(had: u32, has: u32, class: u8) -> bool {
    let alike = |call: &Call| (call.rust)(had, 0) == (call.rust)(has, 0);
    let old = matches!(flags::flags(had), Flags::TwoByte(..));
    (flags::CLASS.rust)(has, 0) == Answer::result(class)
        && had >> 24 == has >> 24
        && alike(&flags::IS_SYNTHETIC)
        && alike(&flags::IS_KEY_POINT)
        && alike(&flags::IS_WITHHELD)
        && alike(&flags::RETURN_NUMBER)
        && alike(&flags::NUMBER_OF_RETURNS)
        && alike(&flags::SCAN_DIRECTION)
        && alike(&flags::IS_EDGE_OF_FLIGHT_LINE)
        && alike(&flags::SCANNER_CHANNEL)
        && (old || alike(&flags::IS_OVERLAP))
}

/// Classes on both sides of what tells: the ends, overlap and what the Rust takes for it, the limit of old
/// flags, and what would be their other bits.
const TELLING: [u8; 12] = [0, 1, 2, 12, 28, 30, 31, 32, 33, 64, 128, 255];

/// The points for which every class is asked: first, middle and last, none, and two past the last.
fn points(count: u64) -> [u64; 6] {
    [1, count / 2 + 1, count, 0, count + 1, u64::MAX]
}

/// Points that there are not, though 8, 16 or 32 bits of them would be, or their place in 64 bits.
fn far_points(count: u64, length: u64) -> [u64; 10] {
    let wraps = u64::MAX / length + 1;
    [
        count + 2,
        count + (1 << 8),
        count + (1 << 16),
        1 + (1 << 32),
        count + (1 << 32),
        1 + (1 << 62),
        1 + (1 << 63),
        wraps,
        wraps + 1,
        u64::MAX - 1,
    ]
}

/// Any of those, more often one that there is; and any class, more often one that old flags hold.
fn some_wish(random: &mut Lcg, count: u64, length: u64, allowance: u64) -> Wish {
    let point = match random.below(12) {
        0 => points(count)[random.below(6) as usize],
        1 => far_points(count, length)[random.below(10) as usize],
        _ => 1 + random.below(count.max(1)),
    };
    let class = match random.below(6) {
        0 => TELLING[random.below(12) as usize],
        1 => random.byte(),
        _ => random.byte() & 31,
    };
    Wish {
        allowance,
        point,
        class,
    }
}

/// The count and the record length of a whole file.
fn measured(found: &mut Found, file: &[u8]) -> (u64, u64) {
    let answer = found.check(file, u64::MAX);
    assert!(answer.number == 0, "a whole file is refused: {answer}");
    let length = u16::from_le_bytes([file[105], file[106]]);
    (found.points(), length.into())
}

/// Files of every version with every format: of each every class is asked for the first, the middle and the
/// last point, for none and past the last; and some for points far beyond.
fn whole<L: Library>(library: &L, lot: Lot) -> Outcome {
    over(library, lot.whole, |comparison, i| {
        let mut whole = Whole::default();
        whole.make(i, false);
        let (count, length) = measured(&mut comparison.found, &whole.bytes);
        let allowance = whole.allowances()[3 + i as usize % 4];
        let near = (0..=255).flat_map(|class| points(count).map(|point| (point, class)));
        let far = TELLING
            .into_iter()
            .flat_map(|class| far_points(count, length).map(|point| (point, class)));
        for (point, class) in near.chain(far) {
            let wish = Wish {
                allowance,
                point,
                class,
            };
            comparison.wish(&whole.bytes, wish, &|| format!("file {i} ({whole})"));
        }
    })
}

/// Files in which what a u16 states is often at its end, or with hundreds of VLRs.
fn long<L: Library>(library: &L, lot: Lot) -> Outcome {
    over(library, lot.long, |comparison, i| {
        let mut random = Lcg::new(!i);
        let mut whole = Whole::default();
        whole.make(i, true);
        let (count, length) = measured(&mut comparison.found, &whole.bytes);
        for _ in 0..lot.times {
            let allowance = whole.allowances()[2 + random.below(5) as usize];
            let wish = some_wish(&mut random, count, length, allowance);
            comparison.wish(&whole.bytes, wish, &|| format!("long file {i} ({whole})"));
        }
    })
}

/// Every byte that a class can stand in, with every class that it is to have, in every format: of the second
/// of three points, in the lowest version that has the format and in 1.4.
fn bytes<L: Library>(library: &L, lot: Lot) -> Outcome {
    over(library, 11, |comparison, format| {
        for i in (0..1 << 16).step_by(lot.step) {
            let [byte, class] = (i as u16).to_le_bytes();
            let mut random = Lcg::new(i as u64 | format << 16);
            let (minor, offset) = match (format, random.one_in(2)) {
                (0..=1, true) => (random.below(3), 227),
                (0..=3, true) => (2, 227),
                (0..=5, true) => (3, 235),
                _ => (4, 375),
            };
            let length = POINT_BYTES[format as usize] as u64 + random.below(4);
            let mut file = vec![0; (offset + 3 * length).max(375) as usize];
            put_header(&mut file, [minor, offset, offset, format, length, 3]);
            random.fill(&mut file[offset as usize..]);
            let place = if format < 6 { 15 } else { 16 };
            file[(offset + length + place) as usize] = byte;
            let wish = Wish {
                allowance: 0,
                point: 2,
                class,
            };
            comparison.wish(&file, wish, &|| {
                format!("format {format}, byte {byte:#04x}")
            });
        }
    })
}

/// Files of every version and format, whole and damaged: each number that the file check looks at at its
/// boundaries, and bytes changed at random.
fn damaged<L: Library>(library: &L, lot: Lot) -> Outcome {
    over(library, lot.damaged, |comparison, i| {
        let mut random = Lcg::new(!i);
        let mut whole = Whole::default();
        whole.make(i, false);
        let (count, length) = measured(&mut comparison.found, &whole.bytes);
        let mut patches = Vec::new();
        whole.boundaries(&mut patches);
        let mut file = whole.bytes.clone();
        for k in 0..patches.len() as u64 + lot.random {
            let damage: Vec<Patch> = match patches.get(k as usize) {
                Some(&patch) => vec![patch],
                None => (0..random.below(4))
                    .map(|_| Patch::byte(whole.any_place(&mut random), random.byte()))
                    .collect(),
            };
            damage.iter().for_each(|patch| patch.apply(&mut file));
            let end = match random.one_in(8) {
                true => random.below(file.len() as u64 + 1) as usize,
                false => file.len(),
            };
            let allowance = whole.allowances()[random.below(7) as usize];
            let wish = some_wish(&mut random, count, length, allowance);
            comparison.wish(&file[..end], wish, &|| {
                let shown: Vec<String> = damage.iter().map(Patch::to_string).collect();
                format!("file {i} ({whole}), {}", shown.join(", "))
            });
            damage
                .iter()
                .for_each(|patch| patch.undo(&mut file, &whole.bytes));
        }
    })
}

/// What `part` comes to over the numbers below `size`.
fn over<L: Library>(
    library: &L,
    size: u64,
    part: impl Fn(&mut Comparison<L>, u64) + Sync,
) -> Outcome {
    let outcomes = stretches(size, |stretch| {
        let mut comparison = Comparison::new(library);
        stretch.for_each(|i| part(&mut comparison, i));
        comparison.outcome
    });
    outcomes.into_iter().fold(Outcome::new(CALLS), Outcome::and)
}

const TWO_32: u64 = 1 << 32;

/// The bytes that are looked at before a place in a file too large to be made; behind it four times as many.
const AROUND: u64 = 100;

/// Compares a library with the rules on files too large to be made: as they should be and as the library
/// leaves them, in memory that nobody has touched.
struct Far<'a, L> {
    port: &'a L,
    report: Report,
    found: Found,
    rules: Sparse,
    by_port: Sparse,
}

impl<L: Library> Far<'_, L> {
    /// Compares both calls on one wish in a file of zeros with these numbers in its header, of which the byte
    /// that has the class is this one: the rows, the change, and what is around the file's beginning, its
    /// end, the byte, and the places that 32 bits of the byte's or of the point's would be.
    fn wish(&mut self, numbers: [u64; 6], wish: Wish, byte: u8) {
        let [_, _, offset, format, length, count] = numbers;
        let flags = offset + if format < 6 { 15 } else { 16 };
        let before = wish.point.wrapping_sub(1);
        let at = match before < count {
            true => flags + before * length,
            false => flags,
        };
        let end = size(numbers);
        let low = offset + before.wrapping_mul(length) % TWO_32;
        let windows = [0, at, at % TWO_32, low, end].map(|place| {
            let [from, to] = [place.saturating_sub(AROUND), place + 4 * AROUND];
            from.min(end) as usize..to.min(end) as usize
        });
        let (at, end) = (at as usize, end as usize);
        let beside = noise(at as u64) as u8;
        for file in [&mut self.rules, &mut self.by_port] {
            put_header(file, numbers);
            file[at - 1..][..3].copy_from_slice(&[beside, byte, beside]);
        }

        let [rules, by_port] = [&mut self.rules[..end], &mut self.by_port[..end]];
        let (asked, change) = reclassify_model::ask(&mut self.found, by_port, wish);
        let answer = reclassify_model::reclassify(&mut self.found, rules, wish);
        let (change, mut told) = (change.unwrap_or([BEFORE; 2]), [BEFORE; 2]);
        let port = [
            capi::row(|row| self.port.ask(by_port, wish, &mut told, row)),
            capi::row(|row| self.port.reclassify(by_port, wish, row)),
        ];
        let alike = |window: &Range<usize>| rules[window.clone()] == by_port[window.clone()];
        let same = [asked, answer] == port && change == told && windows.iter().all(alike);
        self.report.check(same, || {
            let Wish { point, class, .. } = wish;
            format!(
                "{numbers:?}, class {class} for point {point}: {asked} {change:?} {answer}, \
                 port {port:?} {told:?}"
            )
        });
        for file in [rules, by_port] {
            windows.iter().for_each(|at| file[at.clone()].fill(0));
        }
    }
}

/// The bytes of such a file, with some behind its points.
fn size([_, _, offset, _, length, count]: [u64; 6]) -> u64 {
    offset + count * length + 9
}

/// Files with places on both sides of 2^32 and far beyond it, and with counts on both sides of what 32 bits
/// can count.
fn far<L: Library>(library: &L) -> Report {
    let files = [
        [2, 227, 227, 0, 20, TWO_32 - 1],
        [2, 300, TWO_32 - 40, 3, 37, 5],
        [3, 235, TWO_32 - 1, 5, 65_535, 70_000],
        [4, 375, 375, 1, 28, TWO_32 + 3],
        [4, 375, 400, 6, 30, TWO_32 + 3],
        [4, 375, TWO_32 - 391, 7, 36, 3],
        [4, 375, 375, 10, 65_535, 1 << 20],
    ];
    let most = files.into_iter().map(size).max().unwrap_or_default();
    let [rules, by_port] = [(); 2].map(|()| Sparse::new(most as usize));
    let mut far = Far {
        port: library,
        report: Report::new("classes set beyond 2^32"),
        found: Found::default(),
        rules,
        by_port,
    };
    for numbers in files {
        let [_, _, offset, _, length, count] = numbers;
        let beyond = TWO_32.saturating_sub(offset + 16).div_ceil(length) + 1;
        let near = [0, 1, 2, beyond - 1, beyond, 1 << 16, 1 << 31];
        let ends = [TWO_32 - 1, TWO_32, TWO_32 + 1, count - 1, count, count + 1];
        let others = far_points(count, length);
        for &point in near.iter().chain(&ends).chain(&others) {
            for (byte, class) in [(0, 31), (0xff, 0), (0x6c, 32), (0x85, 1)] {
                let wish = Wish {
                    allowance: 0,
                    point,
                    class,
                };
                far.wish(numbers, wish, byte);
            }
        }
    }
    far.report
}

/// A file of more than 4 GB, in which classes of points on both sides of 2^32 are set. All of it is looked
/// at.
fn gigabytes<L: Library>(library: &L) -> Report {
    const LENGTH: u64 = 30 + 2;
    const COUNT: u64 = TWO_32 / LENGTH + 9;
    let mut report = Report::new("classes set in a file of 4 GB");
    let size = 375 + COUNT * LENGTH + 5;
    let [mut rules, mut by_port] = [(); 2].map(|()| Sparse::new(size as usize));
    let mut found = Found::default();
    for file in [&mut rules, &mut by_port] {
        put_header(file, [4, 375, 375, 6, LENGTH, COUNT]);
    }
    let middle = TWO_32 / LENGTH - 11;
    for point in (1..4).chain(middle - 3..=COUNT + 1) {
        let wish = Wish {
            allowance: 0,
            point,
            class: point as u8 | 1,
        };
        let answer = reclassify_model::reclassify(&mut found, &mut rules, wish);
        let port = capi::row(|row| library.reclassify(&mut by_port, wish, row));
        report.check(answer == port, || format!("{point}: {answer}, port {port}"));
    }
    report.check(rules[..] == by_port[..], || "the files differ".into());
    report
}

/// Files with rows that follow from document 02's text, worked by hand, with the byte that changes: both the
/// rules and a library must answer what stands here, and leave the file as it was but for that byte.
fn compare_described(library: &impl Library) -> Report {
    let mut report = Report::new("classes described");
    let one = [2, 227, 227, 0, 20, 1];
    let new = [4, 375, 375, 6, 30, 1];
    let none: &[(usize, u8)] = &[];
    let last = u64::MAX;
    type Described<'a> = (usize, [u64; 6], &'a [(usize, u8)], u64, u8, Row, Change);
    const LEFT: Change = [BEFORE; 2];
    let described: [Described; 38] = [
        // the smallest: byte 15 of the record, whose low five bits are the class
        (247, one, none, 1, 2, [0, 0, 0], [242, 2]),
        (247, one, &[(242, 5)], 1, 2, [0, 5, 0], [242, 2]),
        (247, one, &[(242, 5)], 1, 5, [0, 5, 0], [242, 5]),
        // "including this point's three flags in the old class byte"
        (247, one, &[(242, 0xe5)], 1, 2, [0, 5, 0], [242, 0xe2]),
        (247, one, &[(242, 0xff)], 1, 0, [0, 31, 0], [242, 0xe0]),
        (247, one, &[(242, 0x80)], 1, 31, [0, 0, 0], [242, 0x9f]),
        (247, one, &[(242, 0x4c)], 1, 28, [0, 12, 0], [242, 0x5c]),
        // "class above 31 in formats 0 to 5"
        (247, one, none, 1, 32, [17, 32, 0], LEFT),
        (247, one, none, 1, 255, [17, 255, 0], LEFT),
        (
            438,
            [4, 375, 375, 5, 63, 1],
            none,
            1,
            31,
            [0, 0, 0],
            [390, 31],
        ),
        (438, [4, 375, 375, 5, 63, 1], none, 1, 32, [17, 32, 0], LEFT),
        // "index", and its value is the point count
        (247, one, none, 0, 2, [27, 1, 0], LEFT),
        (247, one, none, 2, 2, [27, 1, 0], LEFT),
        (247, one, none, last, 2, [27, 1, 0], LEFT),
        (267, one, none, 2, 2, [27, 1, 0], LEFT),
        (227, [2, 227, 227, 0, 20, 0], none, 1, 2, [27, 0, 0], LEFT),
        (227, [2, 227, 227, 0, 20, 0], none, 0, 2, [27, 0, 0], LEFT),
        // "in order: file check; index; class"
        (247, one, none, 0, 32, [27, 1, 0], LEFT),
        (247, one, none, 2, 255, [27, 1, 0], LEFT),
        (246, one, none, 1, 2, [12, 1, 0], LEFT),
        (246, one, none, 0, 32, [12, 1, 0], LEFT),
        (0, one, none, 0, 32, [1, 4, 0], LEFT),
        (247, one, &[(100, 1)], 0, 32, [11, 0, 1], LEFT),
        // the record length is the header's, and the points begin at the offset
        (
            271,
            [2, 227, 227, 0, 22, 2],
            none,
            2,
            7,
            [0, 0, 0],
            [264, 7],
        ),
        (
            400,
            [2, 230, 300, 1, 28, 3],
            none,
            3,
            7,
            [0, 0, 0],
            [371, 7],
        ),
        // formats 6 to 10: byte 16, all of it, whatever the overlap bit and the class are
        (405, new, none, 1, 2, [0, 0, 0], [391, 2]),
        (405, new, &[(391, 0xff)], 1, 0, [0, 255, 0], [391, 0]),
        (405, new, &[(391, 32)], 1, 255, [0, 32, 0], [391, 255]),
        (405, new, &[(390, 8), (391, 12)], 1, 2, [0, 12, 0], [391, 2]),
        (405, new, &[(391, 2)], 1, 12, [0, 2, 0], [391, 12]),
        (
            442,
            [4, 375, 375, 10, 67, 1],
            none,
            1,
            32,
            [0, 0, 0],
            [391, 32],
        ),
        // "the legacy count if it isn't zero, else the large count"
        (
            435,
            [4, 375, 375, 6, 30, 2],
            none,
            2,
            2,
            [0, 0, 0],
            [421, 2],
        ),
        (
            435,
            [4, 375, 375, 6, 30, 2],
            &[(107, 1)],
            2,
            2,
            [27, 1, 0],
            LEFT,
        ),
        (
            435,
            [4, 375, 375, 6, 30, 1],
            &[(107, 2)],
            2,
            2,
            [0, 0, 0],
            [421, 2],
        ),
        // "an EVLR pair with one zero stays as it is"; a whole one is the file check's
        (405, new, &[(235, 1)], 1, 2, [0, 0, 0], [391, 2]),
        (405, new, &[(246, 9)], 1, 2, [0, 0, 0], [391, 2]),
        (405, new, &[(235, 1), (243, 1)], 1, 2, [14, 1, 0], LEFT),
        // waveform packets that start before the end of the points, in 1.3
        (
            292,
            [3, 235, 235, 4, 57, 1],
            &[(6, 2), (227, 1)],
            1,
            2,
            [35, 0, 0],
            LEFT,
        ),
    ];
    for (size, numbers, besides, point, class, stated, change) in described {
        let file = plain(size, numbers, besides);
        let mut after = file.clone();
        if change != LEFT {
            after[change[0] as usize] = change[1] as u8;
        }
        let [number, value, record] = stated;
        let stated = Answer {
            number,
            value,
            record,
        };
        let wish = Wish {
            allowance: 9,
            point,
            class,
        };
        let mut found = Found::default();
        let [mut by_rules, mut by_port] = [&file, &file].map(Vec::clone);
        let (asked, changes) = reclassify_model::ask(&mut found, &file, wish);
        let rules = reclassify_model::reclassify(&mut found, &mut by_rules, wish);
        let mut told = LEFT;
        let port = [
            capi::row(|row| library.ask(&file, wish, &mut told, row)),
            capi::row(|row| library.reclassify(&mut by_port, wish, row)),
        ];
        let same = [[asked, rules], port] == [[stated; 2]; 2]
            && [changes.unwrap_or(LEFT), told] == [change; 2]
            && [&by_rules, &by_port] == [&after; 2];
        report.check(same, || {
            format!(
                "{size} bytes, {numbers:?}, {besides:?}, class {class} for point {point}: {stated}, \
                 rules {asked} {rules} {changes:?}, port {port:?} {told:?}"
            )
        });
    }
    report
}

/// The comparison itself is tested: a stand-in that follows the rules agrees with them, and one with an error
/// put in doesn't, whichever error it is.
pub fn compare_stand_ins() -> Report {
    let mut report = Report::new("classes with an error, told apart");
    let agrees = |error| {
        let library = &StandIn { error };
        whole(library, FEW).agrees()
            && damaged(library, FEW).agrees()
            && bytes(library, FEW).agrees()
            && long(library, FEW).agrees()
            && far(library).agrees()
    };
    report.check(agrees(None), || "the one without an error differs".into());
    for &error in ERRORS {
        report.check(!agrees(Some(error)), || format!("{error:?} isn't seen"));
    }
    report
}

/// Compares a library and prints what came of it: the calls, and how often each number was answered.
pub fn compare_library(tally: &mut Tally, library: &impl Library) {
    tally.add(compare_described(library));
    let outcome = whole(library, FULL)
        .and(long(library, FULL))
        .and(bytes(library, FULL))
        .and(damaged(library, FULL));
    let [reclassify, ask, afresh, all_else, back] = outcome.reports;
    tally.add(reclassify);
    tally.add(ask);
    tally.aside(afresh);
    tally.aside(all_else);
    tally.aside(back);
    tally.add(far(library));
    tally.add(gigabytes(library));
    tally.add(
        outcome
            .counted
            .tell("class answers, each many times", COUNTED, &NUMBERS, OFTEN),
    );
}

pub fn compare(tally: &mut Tally) {
    tally.add(compare_stand_ins());
    compare_library(tally, &Port);
}
