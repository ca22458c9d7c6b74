//! One sheet for many files: by the port and by document 02's rules as `sheet_model` has them; and what came of
//! it, held against the points as the Rust reads them, against the sums that must come out, and against the
//! same files in another order.

use crate::{
    answer::Answer,
    call::{Call, noise},
    capi::{self, Row, SheetNumbers},
    file_model::{Found, POINT_BYTES},
    files::{KINDS, Patch, Plan, Whole},
    flags,
    migrate::{plain, put_header},
    records::Lcg,
    report::{self, Report, Tally, stretches},
    sheet_model::{self, BOUNDS, CLASSES, FILES, HAS_BOUNDS, POINTS, RETURNS, Sheet},
    sheet_wrong::{ERRORS, StandIn},
    sparse::Sparse,
};

/// The call that adds a file to a sheet. The port has it, and so have the stand-ins that test the comparison
/// itself.
pub trait Library: Sync {
    fn add(&self, file: &[u8], allowance: u64, sheet: &mut SheetNumbers, row: &mut Row);
}

struct Port;

impl Library for Port {
    fn add(&self, file: &[u8], allowance: u64, sheet: &mut SheetNumbers, row: &mut Row) {
        capi::las_sheet_add(file, allowance, sheet, row)
    }
}

/// The sheet of no files.
const EMPTY: SheetNumbers = [0; 281];

/// How many files are made.
#[derive(Clone, Copy)]
struct Lot {
    /// Sites of up to eight files each, put on a sheet one after the other.
    sites: u64,
    /// Files put on sheets made by hand, whose totals are at their ends.
    by_hand: u64,
    /// Files in which what a u16 states is at its end, or with hundreds of VLRs.
    long: u64,
    /// Files of every version, each with every number at its boundaries and with bytes changed at random.
    damaged: u64,
    random: u64,
    /// Of the pairs of the byte with the return number and the byte with the class, each so many-th.
    step: usize,
}

const FULL: Lot = Lot {
    sites: 250_000,
    by_hand: 40_000,
    long: 400,
    damaged: 4_000,
    random: 60,
    step: 1,
};

/// Few enough for each stand-in to take a blink.
const FEW: Lot = Lot {
    sites: 250,
    by_hand: 50,
    long: 4,
    damaged: 25,
    step: 97,
    ..FULL
};

/// Every number that the call can answer with.
const NUMBERS: [usize; 17] = [0, 1, 2, 3, 4, 5, 6, 7, 8, 9, 10, 11, 12, 13, 14, 35, 50];

/// How often each must have been answered, or else the run has not tested it.
const OFTEN: u64 = 1_000;

/// What is counted.
const COUNTED: [&str; 11] = [
    "sites",
    "files added",
    "files added without points",
    "files refused",
    "points on the sheets",
    "withheld points among them",
    "times 50 for the files alone",
    "times 50 for the points alone",
    "times 50 for one class alone",
    "times 50 for one return number alone",
    "times 50 for more than one total",
];
const SITES: usize = 0;
const ADDED: usize = 1;
const WITHOUT_POINTS: usize = 2;
const REFUSED: usize = 3;
const READ: usize = 4;
const WITHHELD: usize = 5;
const ALONE: usize = 6;

/// What comparing the call came to.
type Outcome = report::Outcome<4, 11>;

/// The call, what is seen of its sheets, and the places of their reports.
const CALLS: [&str; 4] = [
    "las_sheet_add",
    "sheets as the Rust reads the points",
    "sheets whose totals add up",
    "sheets in another order",
];
const ADD: usize = 0;
const RUST: usize = 1;
const SUMS: usize = 2;
const ORDER: usize = 3;

/// Compares a library with the rules on one file after another. Everything is used again.
struct Comparison<'a, L> {
    port: &'a L,
    outcome: Outcome,
    found: Found,
    shown: Vec<u8>,
}

impl<'a, L: Library> Comparison<'a, L> {
    fn new(port: &'a L) -> Comparison<'a, L> {
        Comparison {
            port,
            outcome: Outcome::new(CALLS),
            found: Found::default(),
            shown: Vec::new(),
        }
    }

    /// Adds a file to a sheet by both: the row, all 281 numbers, and the file, which must stay. The sheet goes
    /// on as the rules have it.
    fn add(
        &mut self,
        file: &[u8],
        allowance: u64,
        sheet: &mut SheetNumbers,
        shown: &dyn Fn() -> String,
    ) -> Answer {
        let told = || {
            let size = file.len();
            let on = differing(&EMPTY, sheet);
            format!("{}, {size} bytes, allowance {allowance}, on {on}", shown())
        };
        self.shown.clear();
        self.shown.extend_from_slice(file);
        let (rules, after, over) = sheet_model::add(&mut self.found, file, allowance, sheet);
        let mut by_port = *sheet;
        let port = capi::row(|row| self.port.add(&self.shown, allowance, &mut by_port, row));
        let same = rules == port && after == by_port && self.shown == file;
        self.outcome.reports[ADD].check(same, || {
            let numbers = differing(&after, &by_port);
            format!("{}: {rules}, port {port}, numbers {numbers}", told())
        });
        self.outcome.counted.answered(rules.number);
        let counts = &mut self.outcome.counted.counts;
        match (rules.number, &over[..]) {
            (0, _) => counts[ADDED] += 1,
            (50, [FILES]) => counts[ALONE] += 1,
            (50, [POINTS]) => counts[ALONE + 1] += 1,
            (50, [place]) if CLASSES.contains(place) => counts[ALONE + 2] += 1,
            (50, [_]) => counts[ALONE + 3] += 1,
            (50, _) => counts[ALONE + 4] += 1,
            _ => counts[REFUSED] += 1,
        }
        if rules.number == 0 {
            self.read(file, sheet, &by_port, &told);
        }
        *sheet = after;
        rules
    }

    /// The same points as the Rust reads them of their records, put on the sheet.
    fn read(
        &mut self,
        file: &[u8],
        before: &SheetNumbers,
        by_port: &SheetNumbers,
        told: &dyn Fn() -> String,
    ) {
        let mut read = Sheet::empty();
        read.files = 1;
        let counts = &mut self.outcome.counted.counts;
        counts[WITHOUT_POINTS] += u64::from(self.found.points() == 0);
        for k in 0..self.found.points() {
            let (numbers, _) = self.found.point(file, k);
            let of = |call: &Call| (call.rust)(numbers[FLAGS] as u32, 0).value;
            let xyz = [0, 1, 2].map(|axis| numbers[axis] as i32);
            read.point(
                of(&flags::CLASS) as u8,
                of(&flags::RETURN_NUMBER) as u8,
                xyz,
            );
            counts[READ] += 1;
            counts[WITHHELD] += of(&flags::IS_WITHHELD);
        }
        let rust = Sheet::of(before).and(&read).numbers();
        self.outcome.reports[RUST].check(rust == *by_port, || {
            let numbers = differing(&rust, by_port);
            format!("{}: Rust, and port: {numbers}", told())
        });
    }

    /// "Classes must add up to the points, and so must returns, over all files together." "With no points at
    /// all there are no smallest and largest."
    fn sums(&mut self, sheet: &SheetNumbers, files: u64, shown: &dyn Fn() -> String) {
        let sum = |numbers: &[u64]| numbers.iter().sum::<u64>();
        let points = sheet[POINTS];
        let bounds = &sheet[BOUNDS];
        let none = sheet[HAS_BOUNDS] == 0;
        let holds = sheet[FILES] == files
            && sum(&sheet[CLASSES]) == points
            && sum(&sheet[RETURNS]) == points
            && none == (points == 0)
            && (!none || bounds.iter().all(|&bound| bound == 0))
            && bounds
                .chunks(2)
                .all(|ends| ends[0] as i32 <= ends[1] as i32);
        self.outcome.reports[SUMS].check(holds, || {
            format!("{}: {}", shown(), differing(&EMPTY, sheet))
        });
    }

    /// The sheet that the library makes of files.
    fn sheet<'f>(&self, files: impl Iterator<Item = &'f (Vec<u8>, u64)>) -> SheetNumbers {
        let mut sheet = EMPTY;
        for (file, allowance) in files {
            self.port.add(file, *allowance, &mut sheet, &mut [0; 3]);
        }
        sheet
    }
}

/// Where the numbers of a point have its flags.
const FLAGS: usize = 4;

/// The numbers of two sheets that differ, by their places.
fn differing(expected: &SheetNumbers, found: &SheetNumbers) -> String {
    let both = expected.iter().zip(found).enumerate();
    let differing = both.filter(|(_, (a, b))| a != b);
    let shown: Vec<String> = differing
        .take(12)
        .map(|(place, (a, b))| format!("[{place}] {a} {b}"))
        .collect();
    format!("{{{}}}", shown.join(", "))
}

/// Coordinates on both sides of what tells.
const ENDS: [i32; 9] = [
    i32::MIN,
    i32::MIN + 1,
    -65_536,
    -1,
    0,
    1,
    65_535,
    i32::MAX - 1,
    i32::MAX,
];

/// What the coordinates of a site are.
#[derive(Clone, Copy)]
enum Ground {
    Any,
    Above,
    Below,
    AtTheEnds,
}

const GROUNDS: [Ground; 4] = [Ground::Any, Ground::Above, Ground::Below, Ground::AtTheEnds];

/// Gives a record coordinates on a ground, and flags of which every bit is anything.
fn dress(random: &mut Lcg, ground: Ground, record: &mut [u8]) {
    for axis in 0..3 {
        let any = random.word();
        let coordinate = match ground {
            Ground::Any => any as i32,
            Ground::Above => 1 + (any % 100_000) as i32,
            Ground::Below => -1 - (any % 100_000) as i32,
            Ground::AtTheEnds => ENDS[any as usize % 9],
        };
        record[4 * axis..][..4].copy_from_slice(&coordinate.to_le_bytes());
    }
    random.fill(&mut record[14..17]);
}

/// How many points a file has: often none, now and then many.
fn some_points(random: &mut Lcg) -> u64 {
    match random.below(16) {
        0..=2 => 0,
        3..=13 => 1 + random.below(6),
        14 => random.below(40),
        _ => random.below(300),
    }
}

/// Makes some file of a ground, with padding, VLRs, gaps, extra bytes and records after the points, or none.
fn make(whole: &mut Whole, random: &mut Lcg, ground: Ground) {
    let kind = KINDS[random.below(KINDS.len() as u64) as usize];
    let few = |random: &mut Lcg| [0, 0, 0, 1, 2, 9][random.below(6) as usize];
    let lengths = |random: &mut Lcg, most| -> Vec<usize> {
        (0..random.below(most)).map(|_| few(random)).collect()
    };
    let plan = Plan {
        kind,
        padding: few(random),
        vlrs: lengths(random, 3),
        before_points: few(random),
        extra: few(random),
        points: some_points(random),
        after_points: few(random),
        later: match kind.0 {
            3 => lengths(random, 2),
            4 => lengths(random, 3),
            _ => Vec::new(),
        },
        after: few(random),
    };
    whole.make_as(&plan, random);
    whole
        .records()
        .for_each(|record| dress(random, ground, record));
}

/// Damages a file, so that most are refused: cut, with a number at a boundary or with bytes changed.
fn damage(whole: &Whole, random: &mut Lcg, file: &mut Vec<u8>) {
    match random.below(4) {
        0 => file.truncate(random.below(file.len() as u64 + 1) as usize),
        1 => {
            let mut patches = Vec::new();
            whole.boundaries(&mut patches);
            patches[random.below(patches.len() as u64) as usize].apply(file);
        }
        _ => {
            for _ in 0..1 + random.below(4) {
                Patch::byte(whole.any_place(random), random.byte()).apply(file);
            }
        }
    }
}

/// Sites of up to eight files, of every version and format, refused ones in between, put on a sheet one after
/// the other, and by the library once more from the last to the first.
fn sites<L: Library>(library: &L, lot: Lot) -> Outcome {
    over(library, lot.sites, |comparison, i| {
        let mut random = Lcg::new(i);
        let ground = GROUNDS[random.below(4) as usize];
        let mut whole = Whole::default();
        let files: Vec<(Vec<u8>, u64)> = (0..1 + random.below(8))
            .map(|_| {
                make(&mut whole, &mut random, ground);
                let mut file = whole.bytes.clone();
                let mut allowance = whole.allowances()[3 + random.below(4) as usize];
                match random.below(12) {
                    0 | 1 => damage(&whole, &mut random, &mut file),
                    2 => allowance = whole.allowances()[random.below(3) as usize],
                    _ => {}
                }
                (file, allowance)
            })
            .collect();
        let (mut sheet, mut added) = (EMPTY, 0);
        for (k, (file, allowance)) in files.iter().enumerate() {
            let shown = || format!("site {i}, file {k}");
            let answer = comparison.add(file, *allowance, &mut sheet, &shown);
            added += u64::from(answer.number == 0);
        }
        comparison.outcome.counted.counts[SITES] += 1;
        let [forth, back] = [
            comparison.sheet(files.iter()),
            comparison.sheet(files.iter().rev()),
        ];
        comparison.sums(&forth, added, &|| format!("site {i}"));
        comparison.outcome.reports[ORDER].check(forth == back, || {
            format!("site {i}: {}", differing(&forth, &back))
        });
    })
}

/// A sheet that no files made: numbers that leave room, and bounds that are there or not, at their ends, wider
/// than their fields or any.
fn made_by_hand(random: &mut Lcg) -> SheetNumbers {
    let small = random.one_in(2);
    let mut sheet = [0; 281].map(|_: u64| match small {
        true => random.below(3),
        false => random.long() >> 1,
    });
    sheet[HAS_BOUNDS] = [0, 0, 1, 1, 2, 1 << 8, 1 << 32, u64::MAX][random.below(8) as usize];
    for bound in &mut sheet[BOUNDS] {
        *bound = match random.below(3) {
            0 => random.long(),
            1 => u64::from(random.word()),
            _ => u64::from(ENDS[random.below(9) as usize] as u32),
        };
    }
    sheet
}

/// Files put on sheets made by hand, in which each total by itself is such that the file just finds room, or
/// just finds none: the files, the points, a class and a return number that the file has, and those that it
/// has not.
fn by_hand<L: Library>(library: &L, lot: Lot) -> Outcome {
    over(library, lot.by_hand, |comparison, i| {
        let mut random = Lcg::new(!i);
        let ground = GROUNDS[random.below(4) as usize];
        let mut whole = Whole::default();
        make(&mut whole, &mut random, ground);
        // Often a point has the last class and the last return number that there are.
        if let Some(record) = whole.records().next().filter(|_| i % 2 == 0) {
            record[14..17].fill(0xff);
        }
        let check = comparison.found.check(&whole.bytes, u64::MAX);
        assert!(check.number == 0, "a whole file is refused: {check}");
        let own = sheet_model::of_file(&comparison.found, &whole.bytes).numbers();
        let some = |random: &mut Lcg, mut places: Vec<usize>| match places.len() as u64 {
            0 => None,
            n => Some(places.swap_remove(random.below(n) as usize)),
        };
        let classes: (Vec<usize>, Vec<usize>) = CLASSES.partition(|&place| own[place] > 0);
        let returns: (Vec<usize>, Vec<usize>) = RETURNS.partition(|&place| own[place] > 0);
        let last = [CLASSES.end - 1, RETURNS.end - 1];
        let places = [FILES, POINTS, last[0], last[1]]
            .into_iter()
            .chain(some(&mut random, classes.0))
            .chain(some(&mut random, classes.1))
            .chain(some(&mut random, returns.0))
            .chain(some(&mut random, returns.1));
        let shown = |what: &str| format!("{what} by hand {i} ({whole})");
        for place in places {
            let room = u64::MAX - own[place];
            for number in [room, room.saturating_add(1), room - 1, u64::MAX] {
                let mut sheet = made_by_hand(&mut random);
                sheet[place] = number;
                comparison.add(&whole.bytes, u64::MAX, &mut sheet, &|| shown("one total"));
            }
        }
        // All of them at once: each finds room, and but one each.
        let counts = || [FILES, POINTS].into_iter().chain(CLASSES).chain(RETURNS);
        let tight = counts().nth(random.below(274) as usize);
        for (full, over) in [(None, false), (tight, false), (None, true)] {
            let mut sheet = made_by_hand(&mut random);
            for place in counts() {
                let more = u64::from(over || full == Some(place));
                sheet[place] = (u64::MAX - own[place]).saturating_add(more);
            }
            comparison.add(&whole.bytes, u64::MAX, &mut sheet, &|| shown("every total"));
            // What the file check refuses is refused so, whatever the totals are.
            let cut = random.below(whole.bytes.len() as u64) as usize;
            comparison.add(&whole.bytes[..cut], 1, &mut sheet, &|| shown("cut"));
        }
        // And a sheet of any numbers.
        let mut sheet = [0; 281].map(|_: u64| random.long());
        comparison.add(&whole.bytes, u64::MAX, &mut sheet, &|| shown("any numbers"));
    })
}

/// Files in which what a u16 states is often at its end, or with hundreds of VLRs, on one sheet.
fn long<L: Library>(library: &L, lot: Lot) -> Outcome {
    over(library, lot.long, |comparison, i| {
        let mut random = Lcg::new(!i);
        let mut whole = Whole::default();
        whole.make(i, true);
        let mut sheet = EMPTY;
        for &allowance in &whole.allowances()[2..] {
            comparison.add(&whole.bytes, allowance, &mut sheet, &|| {
                format!("long file {i} ({whole})")
            });
            let end = random.below(whole.bytes.len() as u64) as usize;
            comparison.add(&whole.bytes[..end], allowance, &mut sheet, &|| {
                format!("long file {i} ({whole})")
            });
        }
    })
}

/// Every byte that a return number can stand in with every one that a class can stand in, in every format:
/// one point each, in the lowest version that has the format and in 1.4. And all of them in one file.
fn bytes<L: Library>(library: &L, lot: Lot) -> Outcome {
    over(library, 11, |comparison, format| {
        let place = if format < 6 { 15 } else { 16 };
        for i in (0..1 << 16).step_by(lot.step) {
            let [first, byte] = (i as u16).to_le_bytes();
            let mut random = Lcg::new(i as u64 | format << 16);
            let (minor, offset) = lowest(format, &mut random);
            let length = POINT_BYTES[format as usize] as u64 + random.below(4);
            let mut file = vec![0; (offset + length).max(375) as usize];
            put_header(&mut file, [minor, offset, offset, format, length, 1]);
            let record = &mut file[offset as usize..][..length as usize];
            random.fill(record);
            record[14] = first;
            record[place] = byte;
            let shown = || format!("format {format}, bytes {first:#04x} and {byte:#04x}");
            comparison.add(&file, 0, &mut EMPTY.clone(), &shown);
        }

        let mut random = Lcg::new(format);
        let (minor, offset) = lowest(format, &mut random);
        let length = POINT_BYTES[format as usize] as u64 + 3;
        let count = (1 << 16) / lot.step as u64;
        let mut file = vec![0; (offset + count * length).max(375) as usize];
        put_header(&mut file, [minor, offset, offset, format, length, count]);
        let mut sheet = EMPTY;
        for (i, record) in file[offset as usize..]
            .chunks_exact_mut(length as usize)
            .take(count as usize)
            .enumerate()
        {
            random.fill(record);
            [record[14], record[place]] = (i as u16).to_le_bytes();
        }
        for _ in 0..2 {
            comparison.add(&file, 0, &mut sheet, &|| {
                format!("format {format}, all bytes")
            });
        }
    })
}

/// A version that has a format, and the size of its header.
fn lowest(format: u64, random: &mut Lcg) -> (u64, u64) {
    match (format, random.one_in(2)) {
        (0..=1, true) => (random.below(3), 227),
        (0..=3, true) => (2, 227),
        (0..=5, true) => (3, 235),
        _ => (4, 375),
    }
}

/// Files of every version and format, damaged: each number that the file check looks at at its boundaries, and
/// bytes changed at random; all on the sheet of their file.
fn damaged<L: Library>(library: &L, lot: Lot) -> Outcome {
    over(library, lot.damaged, |comparison, i| {
        let mut random = Lcg::new(!i);
        let mut whole = Whole::default();
        whole.make(i, false);
        let mut patches = Vec::new();
        whole.boundaries(&mut patches);
        let mut file = whole.bytes.clone();
        let mut sheet = EMPTY;
        for k in 0..patches.len() as u64 + lot.random {
            let damage: Vec<Patch> = match patches.get(k as usize) {
                Some(&patch) => vec![patch],
                None => (0..random.below(4))
                    .map(|_| Patch::byte(whole.any_place(&mut random), random.byte()))
                    .collect(),
            };
            damage.iter().for_each(|patch| patch.apply(&mut file));
            let end = match random.one_in(8) {
                true => random.below(file.len() as u64 + 1) as usize,
                false => file.len(),
            };
            let allowance = whole.allowances()[random.below(7) as usize];
            comparison.add(&file[..end], allowance, &mut sheet, &|| {
                let shown: Vec<String> = damage.iter().map(Patch::to_string).collect();
                format!("file {i} ({whole}), {}", shown.join(", "))
            });
            damage
                .iter()
                .for_each(|patch| patch.undo(&mut file, &whole.bytes));
        }
    })
}

/// What `part` comes to over the numbers below `size`.
fn over<L: Library>(
    library: &L,
    size: u64,
    part: impl Fn(&mut Comparison<L>, u64) + Sync,
) -> Outcome {
    let outcomes = stretches(size, |stretch| {
        let mut comparison = Comparison::new(library);
        stretch.for_each(|i| part(&mut comparison, i));
        comparison.outcome
    });
    outcomes.into_iter().fold(Outcome::new(CALLS), Outcome::and)
}

/// Files of more than 4 GB with records of 65,535 bytes, in memory that nobody has touched: zeros, but for some
/// points on both sides of 2^32, which must be told apart.
fn gigabytes<L: Library>(library: &L) -> Report {
    const TWO_32: u64 = 1 << 32;
    const LENGTH: u64 = 65_535;
    const COUNT: u64 = TWO_32 / LENGTH + 9;
    let mut report = Report::new("sheets of files of 4 GB");
    let mut found = Found::default();
    let mut file = Sparse::new((375 + COUNT * LENGTH + 5) as usize);
    let (mut rules, mut by_port) = (EMPTY, EMPTY);
    for (minor, format) in [(2, 0), (4, 5), (4, 6), (4, 10)] {
        put_header(&mut file, [minor, 375, 375, format, LENGTH, COUNT]);
        let middle = TWO_32 / LENGTH;
        for k in [0, 1, middle - 2, middle - 1, middle, middle + 1, COUNT - 1] {
            let at = (375 + k * LENGTH) as usize;
            for axis in 0..3 {
                let coordinate = noise(k << 2 | axis).to_le_bytes();
                file[at + 4 * axis as usize..][..4].copy_from_slice(&coordinate);
            }
            file[at + 14..at + 17].fill(noise(k) as u8);
        }
        let (answer, after, _) = sheet_model::add(&mut found, &file, 0, &rules);
        let port = capi::row(|row| library.add(&file, 0, &mut by_port, row));
        rules = after;
        report.check(answer == port && rules == by_port, || {
            let numbers = differing(&rules, &by_port);
            format!("format {format}: {answer}, port {port}, numbers {numbers}")
        });
    }
    report
}

/// Numbers of a sheet by their places; all others are 0.
type Stated<'a> = &'a [(usize, u64)];

/// Files with rows and sheets that follow from document 02's text, worked by hand: both the rules and a library
/// must answer what stands here.
fn compare_described(library: &impl Library) -> Report {
    let mut report = Report::new("sheets described");
    let one = [2, 227, 227, 0, 20, 1];
    let two = [2, 227, 227, 0, 20, 2];
    let new = [4, 375, 375, 6, 30, 1];
    let none = [2, 227, 227, 0, 20, 0];
    let all = u64::MAX;
    let minus = 0xffff_ffff;
    // The sheet of one point of zeros, and of two.
    const ZEROS: Stated = &[(0, 1), (1, 1), (2, 1), (9, 1), (265, 1)];
    const TWO: Stated = &[(0, 1), (1, 2), (2, 1), (9, 2), (265, 2)];
    type Described<'a> = (
        usize,
        [u64; 6],
        &'a [(usize, u8)],
        Stated<'a>,
        Row,
        Stated<'a>,
    );
    let described: [Described; 44] = [
        // the smallest: class 0, "return number including zero", and X, Y and Z that are 0
        (247, one, &[], &[], [0, 0, 0], ZEROS),
        (267, two, &[], &[], [0, 0, 0], TWO),
        // five bits of the class byte in old formats, whatever its three flags say: withheld points count
        (
            247,
            one,
            &[(242, 0xe5)],
            &[],
            [0, 0, 0],
            &[(0, 1), (1, 1), (2, 1), (14, 1), (265, 1)],
        ),
        (247, one, &[(242, 0x80)], &[], [0, 0, 0], ZEROS),
        (
            247,
            one,
            &[(242, 0xff)],
            &[],
            [0, 0, 0],
            &[(0, 1), (1, 1), (2, 1), (40, 1), (265, 1)],
        ),
        // three bits of the return number, whatever the number of returns is
        (
            247,
            one,
            &[(241, 0xff)],
            &[],
            [0, 0, 0],
            &[(0, 1), (1, 1), (2, 1), (9, 1), (272, 1)],
        ),
        (247, one, &[(241, 0xf8)], &[], [0, 0, 0], ZEROS),
        // formats 6 to 10: four bits, and byte 16 whole
        (405, new, &[], &[], [0, 0, 0], ZEROS),
        (
            405,
            new,
            &[(389, 0xff), (391, 0xff)],
            &[],
            [0, 0, 0],
            &[(0, 1), (1, 1), (2, 1), (264, 1), (280, 1)],
        ),
        (
            405,
            new,
            &[(389, 0xf8), (390, 0xff), (391, 12)],
            &[],
            [0, 0, 0],
            &[(0, 1), (1, 1), (2, 1), (21, 1), (273, 1)],
        ),
        // "smallest and largest X, Y and Z as the stored whole numbers"
        (
            247,
            one,
            &[(227, 7), (231, 8), (235, 9)],
            &[],
            [0, 0, 0],
            &[
                (0, 1),
                (1, 1),
                (2, 1),
                (3, 7),
                (4, 7),
                (5, 8),
                (6, 8),
                (7, 9),
                (8, 9),
                (9, 1),
                (265, 1),
            ],
        ),
        (
            267,
            two,
            &[(230, 0x80)],
            &[],
            [0, 0, 0],
            &[(0, 1), (1, 2), (2, 1), (3, 1 << 31), (9, 2), (265, 2)],
        ),
        (
            267,
            two,
            &[(247, 255), (248, 255), (249, 255), (250, 255)],
            &[],
            [0, 0, 0],
            &[(0, 1), (1, 2), (2, 1), (3, minus), (9, 2), (265, 2)],
        ),
        (
            267,
            two,
            &[(247, 255), (248, 255), (249, 255), (250, 127)],
            &[],
            [0, 0, 0],
            &[(0, 1), (1, 2), (2, 1), (4, (1 << 31) - 1), (9, 2), (265, 2)],
        ),
        (
            267,
            two,
            &[(239, 0x80)],
            &[],
            [0, 0, 0],
            &[(0, 1), (1, 2), (2, 1), (9, 2), (265, 2)],
        ),
        // "with no points at all there are no smallest and largest"
        (227, none, &[], &[], [0, 0, 0], &[(0, 1)]),
        (227, none, &[], &[(0, 1)], [0, 0, 0], &[(0, 2)]),
        (
            227,
            none,
            &[],
            &[(2, 1), (3, 5), (4, 6)],
            [0, 0, 0],
            &[(0, 1), (2, 1), (3, 5), (4, 6)],
        ),
        (227, none, &[], &[(3, 5), (4, 6)], [0, 0, 0], &[(0, 1)]),
        // "one sheet for many files"
        (
            247,
            one,
            &[],
            ZEROS,
            [0, 0, 0],
            &[(0, 2), (1, 2), (2, 1), (9, 2), (265, 2)],
        ),
        (
            247,
            one,
            &[],
            &[(0, 1), (1, 1), (2, 1), (3, 5), (4, 5), (14, 1), (266, 1)],
            [0, 0, 0],
            &[
                (0, 2),
                (1, 2),
                (2, 1),
                (4, 5),
                (9, 1),
                (14, 1),
                (265, 1),
                (266, 1),
            ],
        ),
        (
            247,
            one,
            &[],
            &[(2, 1), (7, minus), (8, minus)],
            [0, 0, 0],
            &[(0, 1), (1, 1), (2, 1), (7, minus), (9, 1), (265, 1)],
        ),
        // numbers made by hand: bounds without the number that says so are none; any but 0 says so; low bits
        (247, one, &[], &[(3, 5), (4, 6)], [0, 0, 0], ZEROS),
        (
            247,
            one,
            &[],
            &[(2, 1 << 40), (4, 6)],
            [0, 0, 0],
            &[(0, 1), (1, 1), (2, 1), (4, 6), (9, 1), (265, 1)],
        ),
        (
            247,
            one,
            &[],
            &[(2, 1), (3, 1 << 32 | minus), (4, 1 << 63)],
            [0, 0, 0],
            &[(0, 1), (1, 1), (2, 1), (3, minus), (9, 1), (265, 1)],
        ),
        // "a total over 2^64-1", each by itself
        (247, one, &[], &[(0, all)], [50, 0, 0], &[(0, all)]),
        (247, one, &[], &[(1, all)], [50, 0, 0], &[(1, all)]),
        (247, one, &[], &[(9, all)], [50, 0, 0], &[(9, all)]),
        (247, one, &[], &[(265, all)], [50, 0, 0], &[(265, all)]),
        (267, two, &[], &[(1, all - 1)], [50, 0, 0], &[(1, all - 1)]),
        (
            267,
            two,
            &[],
            &[(265, all - 1)],
            [50, 0, 0],
            &[(265, all - 1)],
        ),
        (
            247,
            one,
            &[],
            &[(0, all - 1), (1, all - 1), (9, all - 1), (265, all - 1)],
            [0, 0, 0],
            &[(0, all), (1, all), (2, 1), (9, all), (265, all)],
        ),
        // and not where nothing is added to it
        (
            247,
            one,
            &[],
            &[(10, all), (266, all)],
            [0, 0, 0],
            &[
                (0, 1),
                (1, 1),
                (2, 1),
                (9, 1),
                (10, all),
                (265, 1),
                (266, all),
            ],
        ),
        (
            227,
            none,
            &[],
            &[(1, all), (9, all), (265, all)],
            [0, 0, 0],
            &[(0, 1), (1, all), (9, all), (265, all)],
        ),
        (227, none, &[], &[(0, all)], [50, 0, 0], &[(0, all)]),
        // "a refused file [...] adds nothing": the file's own first
        (246, one, &[], &[], [12, 1, 0], &[]),
        (246, one, &[], ZEROS, [12, 1, 0], ZEROS),
        (
            246,
            one,
            &[],
            &[(0, all), (2, 9), (3, all)],
            [12, 1, 0],
            &[(0, all), (2, 9), (3, all)],
        ),
        (0, one, &[], &[(5, 5)], [1, 4, 0], &[(5, 5)]),
        (247, one, &[(100, 1)], &[], [11, 0, 1], &[]),
        // "never from header sums": counts by return, and the large count beside a legacy one
        (247, one, &[(111, 1), (115, 9)], &[], [0, 0, 0], ZEROS),
        (435, new, &[(107, 2)], &[], [0, 0, 0], TWO),
        (405, new, &[(255, 1), (263, 1)], &[], [0, 0, 0], ZEROS),
        // the record length is the header's
        (
            271,
            [2, 227, 227, 0, 22, 2],
            &[(264, 4)],
            &[],
            [0, 0, 0],
            &[(0, 1), (1, 2), (2, 1), (9, 1), (13, 1), (265, 2)],
        ),
    ];
    let sheet = |numbers: Stated| {
        let mut sheet = EMPTY;
        numbers.iter().for_each(|&(at, n)| sheet[at] = n);
        sheet
    };
    for (size, numbers, besides, before, stated, after) in described {
        let file = plain(size, numbers, besides);
        let [number, value, record] = stated;
        let stated = Answer {
            number,
            value,
            record,
        };
        let (before, after) = (sheet(before), sheet(after));
        let (rules, by_rules, _) = sheet_model::add(&mut Found::default(), &file, 9, &before);
        let mut by_port = before;
        let port = capi::row(|row| library.add(&file, 9, &mut by_port, row));
        let same = [rules, port] == [stated; 2] && [by_rules, by_port] == [after; 2];
        report.check(same, || {
            let [rules_numbers, numbers_by_port] =
                [by_rules, by_port].map(|numbers| differing(&after, &numbers));
            format!(
                "{size} bytes, {numbers:?}, {besides:?}: {stated}, rules {rules} {rules_numbers}, \
                 port {port} {numbers_by_port}"
            )
        });
    }
    report
}

/// The comparison itself is tested: a stand-in that follows the rules agrees with them, and one with an error
/// put in doesn't, whichever error it is.
pub fn compare_stand_ins() -> Report {
    let mut report = Report::new("sheets with an error, told apart");
    let agrees = |error| {
        let library = &StandIn { error };
        sites(library, FEW).agrees()
            && by_hand(library, FEW).agrees()
            && bytes(library, FEW).agrees()
            && damaged(library, FEW).agrees()
            && long(library, FEW).agrees()
    };
    report.check(agrees(None), || "the one without an error differs".into());
    for &error in ERRORS {
        report.check(!agrees(Some(error)), || format!("{error:?} isn't seen"));
    }
    report
}

/// Compares a library and prints what came of it: the call, and how often each number was answered.
pub fn compare_library(tally: &mut Tally, library: &impl Library) {
    tally.add(compare_described(library));
    let outcome = sites(library, FULL)
        .and(by_hand(library, FULL))
        .and(long(library, FULL))
        .and(bytes(library, FULL))
        .and(damaged(library, FULL));
    let [add, rust, sums, order] = outcome.reports;
    tally.add(add);
    tally.aside(rust);
    tally.aside(sums);
    tally.aside(order);
    tally.add(gigabytes(library));
    let counts = outcome.counted.counts;
    let mut report =
        outcome
            .counted
            .tell("sheet answers, each many times", COUNTED, &NUMBERS, OFTEN);
    for (name, count) in COUNTED.iter().zip(counts) {
        report.check(count >= OFTEN, || format!("only {count} {name}"));
    }
    tally.add(report);
}

pub fn compare(tally: &mut Tally) {
    tally.add(compare_stand_ins());
    compare_library(tally, &Port);
}
