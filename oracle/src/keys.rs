//! Coordinate keys: by the port and by document 02's rules as `keys_model` has them.

use crate::{
    answer::Answer,
    capi::{self, Row},
    file_model::Found,
    files::Patch,
    keys_files::{Four, Made, Record, directory, made_up, one, real, small, some_byte, some_place},
    keys_model::{self as model, DIRECTORY, DOUBLES, Key, Keys, MOST, TEXT},
    keys_wrong::{ERRORS, StandIn},
    records::Lcg,
    report::{self, Report, Tally, stretches},
    sparse::Sparse,
};

/// The calls on coordinate keys. The port has them, and so have the stand-ins that test the comparison itself.
pub trait Library: Sync {
    fn keys(&self, file: &[u8], allowance: u64, keys: &mut Keys, row: &mut Row);
    fn at(&self, file: &[u8], keys: &Keys, k: u16, key: &mut Key) -> u8;
    fn find(&self, file: &[u8], keys: &Keys, wanted: u16, key: &mut Key) -> u8;
    fn key(&self, file: &[u8], allowance: u64, wanted: u16, key: &mut Key, row: &mut Row);
    fn write(&self, numbers: &[u16], dst: &mut [u8], row: &mut Row);
}

struct Port;

impl Library for Port {
    fn keys(&self, file: &[u8], allowance: u64, keys: &mut Keys, row: &mut Row) {
        capi::las_keys(file, allowance, keys, row)
    }

    fn at(&self, file: &[u8], keys: &Keys, k: u16, key: &mut Key) -> u8 {
        capi::las_keys_at(file, keys, k, key)
    }

    fn find(&self, file: &[u8], keys: &Keys, wanted: u16, key: &mut Key) -> u8 {
        capi::las_keys_find(file, keys, wanted, key)
    }

    fn key(&self, file: &[u8], allowance: u64, wanted: u16, key: &mut Key, row: &mut Row) {
        capi::las_key(file, allowance, wanted, key, row)
    }

    fn write(&self, numbers: &[u16], dst: &mut [u8], row: &mut Row) {
        capi::las_keys_write(numbers, dst, row)
    }
}

/// What lent memory holds before a call, so that what is written where nothing may be shows.
const BEFORE: u64 = 0xa5a5_a5a5_a5a5_a5a5;
const BEFORE_BYTE: u8 = 0xa5;

/// Five numbers as they are lent, between two others that no call has any business with.
struct Lent([u64; 7]);

impl Lent {
    fn new() -> Lent {
        Lent([BEFORE; 7])
    }

    /// As they are to be when a call has told these.
    fn told([a, b, c, d, e]: [u64; 5]) -> [u64; 7] {
        [BEFORE, a, b, c, d, e, BEFORE]
    }

    fn numbers(&mut self) -> &mut [u64; 5] {
        let [_, numbers @ .., _] = &mut self.0;
        numbers
    }
}

/// How many bytes there are past a room.
const SPARE: usize = 3;

/// How many files are made.
#[derive(Clone, Copy)]
struct Lot {
    /// Files of every version and format, each asked everything.
    whole: u64,
    /// Files as common programs write them.
    real: u64,
    /// Files with thousands of keys, and records as long as their field allows.
    long: u64,
    /// Files, each with every number of the file check at its boundaries, with so much other damage, and shown numbers
    /// of keys that no call gives so often.
    damaged: u64,
    random: u64,
    made_up: u64,
    /// Of all locations each so many-th.
    step: u64,
    /// Directories written.
    written: u64,
}

const FULL: Lot = Lot {
    whole: 600_000,
    real: 100_000,
    long: 400,
    damaged: 6_000,
    random: 150,
    made_up: 200,
    step: 1,
    written: 300_000,
};

/// Few enough for each stand-in to take a blink.
const FEW: Lot = Lot {
    whole: 1_500,
    real: 100,
    long: 12,
    damaged: 20,
    step: 16,
    written: 1_500,
    ..FULL
};

/// Every number that the calls can answer with.
const NUMBERS: [usize; 25] = [
    0, 1, 2, 3, 4, 5, 6, 7, 8, 9, 10, 11, 12, 13, 14, 22, 35, 42, 43, 44, 45, 46, 47, 48, 49,
];

/// How often each must have been answered, or else the run has not tested it.
const OFTEN: u64 = 2_000;

/// What is counted.
const COUNTED: [&str; 11] = [
    "files",
    "files with keys",
    "files whose directory has no key",
    "files with a second directory, doubles or text",
    "files with such a record after the points",
    "keys",
    "keys whose value is a number",
    "keys whose value is doubles",
    "keys whose value is text",
    "parts that end with their record",
    "directories written",
];
const FILES: usize = 0;
const WITH: usize = 1;
const NONE: usize = 2;
const SECOND: usize = 3;
const LATER: usize = 4;
const KEYS: usize = 5;
const NUMBER: usize = 6;
const AS_DOUBLES: usize = 7;
const AS_TEXT: usize = 8;
const ENDS: usize = 9;
const WRITTEN: usize = 10;

/// What comparing the calls came to.
type Outcome = report::Outcome<7, 11>;

/// The calls, and the places of their reports.
const CALLS: [&str; 7] = [
    "las_keys",
    "las_keys_at",
    "las_keys_find",
    "las_key",
    "las_keys_write",
    "directories written and read back",
    "files with keys that the calls leave",
];
const OPEN: usize = 0;
const AT: usize = 1;
const FIND: usize = 2;
const KEY: usize = 3;
const WRITE: usize = 4;
const BACK: usize = 5;
const LEFT: usize = 6;

/// What a result is, with what is lent: it is filled where the call is answered and stays where it is refused.
fn lent(result: Result<(u64, [u64; 5]), Answer>) -> (Answer, [u64; 7]) {
    match result {
        Ok((value, told)) => (Answer::result(value), Lent::told(told)),
        Err(refusal) => (refusal, [BEFORE; 7]),
    }
}

/// The same of whether a key is there.
fn there_by(key: Option<Key>) -> (u8, [u64; 7]) {
    (u8::from(key.is_some()), key.map_or([BEFORE; 7], Lent::told))
}

/// Compares a library with the rules on one input after another. Everything is used again.
struct Comparison<'a, L> {
    port: &'a L,
    outcome: Outcome,
    found: Found,
    /// The file that is asked about, and what the library is shown of it and has to leave.
    file: Vec<u8>,
    shown: Vec<u8>,
}

impl<'a, L: Library> Comparison<'a, L> {
    fn new(port: &'a L) -> Comparison<'a, L> {
        Comparison {
            port,
            outcome: Outcome::new(CALLS),
            found: Found::default(),
            file: Vec::new(),
            shown: Vec::new(),
        }
    }

    /// Takes up a file, of which is asked from then on.
    fn take(&mut self, file: &[u8]) {
        for copy in [&mut self.file, &mut self.shown] {
            copy.clear();
            copy.extend_from_slice(file);
        }
        self.outcome.counted.counts[FILES] += 1;
    }

    /// What was taken up is as it was.
    fn leave(&mut self, told: &dyn Fn() -> String) {
        let kept = self.file == self.shown;
        self.outcome.reports[LEFT].check(kept, told);
    }

    fn check<T: PartialEq + std::fmt::Debug>(
        &mut self,
        call: usize,
        rules: T,
        port: T,
        asked: impl FnOnce() -> String,
    ) {
        self.outcome.reports[call].check(rules == port, || {
            let size = self.file.len();
            format!("{}, {size} bytes: {rules:?}, port {port:?}", asked())
        });
    }

    /// The keys of the file: the row and the numbers. Those of the rules, where it is not refused.
    fn keys(&mut self, allowance: u64, told: &dyn Fn() -> String) -> Option<Keys> {
        let rules = model::keys(&mut self.found, &self.file, allowance);
        let expected = lent(rules);
        let mut numbers = Lent::new();
        let row = capi::row(|row| {
            self.port
                .keys(&self.shown, allowance, numbers.numbers(), row)
        });
        self.outcome.counted.answered(expected.0.number);
        self.check(OPEN, expected, (row, numbers.0), || {
            format!("{}, allowance {allowance}", told())
        });
        rules.ok().map(|(_, numbers)| numbers)
    }

    /// A key by its number, of keys that were told or made up.
    fn at(&mut self, keys: Keys, k: u16, told: &dyn Fn() -> String) -> Option<Key> {
        let rules = model::at(&self.file, keys, k);
        let mut key = Lent::new();
        let by_port = self.port.at(&self.shown, &keys, k, key.numbers());
        self.check(AT, there_by(rules), (by_port, key.0), || {
            format!("{}, {keys:?}, key {k}", told())
        });
        rules
    }

    /// A key by itself, in the same way.
    fn find(&mut self, keys: Keys, wanted: u16, told: &dyn Fn() -> String) {
        let rules = model::find(&self.file, keys, wanted);
        let mut key = Lent::new();
        let by_port = self.port.find(&self.shown, &keys, wanted, key.numbers());
        self.check(FIND, there_by(rules), (by_port, key.0), || {
            format!("{}, {keys:?}, wanted {wanted}", told())
        });
    }

    /// A key of the file: the row and its numbers.
    fn key(&mut self, allowance: u64, wanted: u16, told: &dyn Fn() -> String) {
        let rules = model::key(&mut self.found, &self.file, allowance, wanted);
        let expected = lent(rules.map(|key| (0, key)));
        let mut key = Lent::new();
        let row = capi::row(|row| {
            self.port
                .key(&self.shown, allowance, wanted, key.numbers(), row)
        });
        self.outcome.counted.answered(expected.0.number);
        self.check(KEY, expected, (row, key.0), || {
            format!("{}, allowance {allowance}, wanted {wanted}", told())
        });
    }

    /// A directory written: the row, and every byte of the destination and of what is past it. What was written is
    /// then read back in a file.
    fn write(&mut self, numbers: &[u16], room: usize, told: &dyn Fn() -> String) {
        let [mut dst, mut by_port] = [(); 2].map(|()| vec![BEFORE_BYTE; room + SPARE]);
        let rules = model::write(numbers, &mut dst[..room]);
        let row = capi::row(|row| self.port.write(numbers, &mut by_port[..room], row));
        self.outcome.counted.answered(rules.number);
        let same = rules == row && dst == by_port;
        self.outcome.reports[WRITE].check(same, || {
            let at = dst.iter().zip(&by_port).position(|(a, b)| a != b);
            let many = numbers.len();
            format!(
                "{}, {many} numbers, room {room}: {rules}, port {row}, first differing byte {at:?}",
                told()
            )
        });
        if same && row.number == 0 {
            self.outcome.counted.counts[WRITTEN] += 1;
            self.read_back(numbers, &by_port[..row.value as usize], told);
        }
    }

    /// A directory that was written tells its keys as they were given, where their locations are such.
    fn read_back(&mut self, numbers: &[u16], written: &[u8], told: &dyn Fn() -> String) {
        let keys: Vec<Four> = numbers.as_chunks().0.to_vec();
        let file = small(written, Some(65_535), Some(65_535));
        let (doubles, text) = (227 + 54 + written.len() + 54, file.len() - 65_535);
        let mut told_by = [BEFORE; 5];
        let row = capi::row(|row| self.port.keys(&file, 3, &mut told_by, row));
        let fits = |[_, location, count, index]: Four| match location {
            0 => true,
            DOUBLES => (u64::from(count) + u64::from(index)) * 8 <= 65_535,
            TEXT => u64::from(count) + u64::from(index) <= 65_535,
            _ => false,
        };
        if !keys.iter().all(|&key| fits(key)) {
            let refused = row.number == 45 || row.number == 47;
            self.outcome.reports[BACK].check(refused, || format!("{}: port {row}", told()));
            return;
        }
        let mut same = row == Answer::result(keys.len() as u64);
        for (k, &[name, location, count, last]) in (0u16..).zip(&keys) {
            let [key, place, many, value] = [name, location, count, last].map(u64::from);
            let expected = match location {
                0 => [key, 0, value, 0, 0],
                DOUBLES => [key, place, 0, doubles as u64 + 8 * value, 8 * many],
                _ => [key, place, 0, text as u64 + value, many],
            };
            let mut told = [BEFORE; 5];
            same &= self.port.at(&file, &told_by, k, &mut told) == 1 && told == expected;
        }
        self.outcome.reports[BACK].check(same, || format!("{}: port {row}", told()));
    }
}

/// What `part` comes to over the numbers below `size`.
fn over<L: Library>(
    library: &L,
    size: u64,
    part: impl Fn(&mut Comparison<L>, u64) + Sync,
) -> Outcome {
    let outcomes = stretches(size, |stretch| {
        let mut comparison = Comparison::new(library);
        stretch.for_each(|i| part(&mut comparison, i));
        comparison.outcome
    });
    outcomes.into_iter().fold(Outcome::new(CALLS), Outcome::and)
}

/// Files of every version with every format, each asked everything.
fn whole<L: Library>(library: &L, lot: Lot) -> Outcome {
    over(library, lot.whole, |comparison, i| {
        let made = Made::new(i, false);
        let told = || format!("file {i} ({})", made.whole);
        everything(comparison, &made, &mut Lcg::new(!i), &told);
    })
}

/// Files as common programs write them, each asked everything.
fn reals<L: Library>(library: &L, lot: Lot) -> Outcome {
    over(library, lot.real, |comparison, i| {
        let made = real(i);
        let told = || format!("real file {i} ({})", made.whole);
        everything(comparison, &made, &mut Lcg::new(!i), &told);
    })
}

/// Of one file: its keys, each by its number and by itself, and those beside them.
fn everything<L: Library>(
    comparison: &mut Comparison<L>,
    made: &Made,
    random: &mut Lcg,
    told: &dyn Fn() -> String,
) {
    comparison.take(&made.whole.bytes);
    let allowances = made.whole.allowances();
    let allowance = allowances[3 + random.below(4) as usize];
    let few = allowances[random.below(4) as usize];
    let keys = comparison.keys(allowance, told);
    comparison.keys(few, told);
    count(comparison, made, keys);
    if let Some(keys) = keys {
        let many = keys[0] as u16;
        for k in (0..many).chain([many, many + 1, many + 256, 32_768, 65_535]) {
            let key = comparison.at(keys, k, told);
            assert!(key.is_some() == (k < many), "the rules are at odds");
        }
    }
    for wanted in made.wanted(random) {
        if let Some(keys) = keys {
            comparison.find(keys, wanted, told);
        }
        comparison.key(allowance, wanted, told);
    }
    comparison.key(few, random.below(2_000) as u16, told);
    comparison.leave(told);
}

/// What is told of a file.
fn count<L>(comparison: &mut Comparison<L>, made: &Made, keys: Option<Keys>) {
    let counts = &mut comparison.outcome.counted.counts;
    let three = [DIRECTORY, DOUBLES, TEXT];
    let of = |records: &[Record], id| records.iter().filter(|record| record.is(id)).count();
    let second = three.iter().any(|&id| of(&made.vlrs, id) > 1);
    counts[SECOND] += u64::from(second);
    counts[LATER] += u64::from(three.iter().any(|&id| of(&made.later, id) > 0));
    let Some(keys) = keys else { return };
    counts[WITH] += u64::from(keys[0] > 0);
    counts[NONE] += u64::from(keys[0] == 0);
    let ends: Vec<u64> = made
        .whole
        .vlrs
        .iter()
        .map(|&(at, n)| (at + 54 + n) as u64)
        .collect();
    for [_, location, _, start, length] in
        model::every(&mut comparison.found, &comparison.file, u64::MAX)
    {
        counts[KEYS] += 1;
        counts[match location as u16 {
            0 => NUMBER,
            DOUBLES => AS_DOUBLES,
            _ => AS_TEXT,
        }] += 1;
        counts[ENDS] += u64::from(location > 0 && ends.contains(&(start + length)));
    }
}

/// Files with thousands of keys, and records as long as their field allows: some of their keys.
fn long<L: Library>(library: &L, lot: Lot) -> Outcome {
    over(library, lot.long, |comparison, i| {
        let made = Made::new(i, true);
        let mut random = Lcg::new(!i);
        let told = || format!("long file {i} ({})", made.whole);
        comparison.take(&made.whole.bytes);
        let keys = comparison.keys(u64::MAX, &told);
        let many = made.keys.len() as u16;
        let last = made.keys.last().map_or(0, |four| four[0]);
        let first = made.keys.first().map_or(0, |four| four[0]);
        if let Some(keys) = keys {
            for k in (0..many).step_by(37).chain([many - 1, many, 8_190, 65_535]) {
                comparison.at(keys, k, &told);
            }
        }
        let mut wanted: Vec<u16> = (0..20).map(|_| one(&mut random, &made.keys)[0]).collect();
        wanted.extend([
            first,
            last,
            last.wrapping_add(1),
            first.wrapping_sub(1),
            0,
            65_535,
        ]);
        for wanted in wanted {
            if let Some(keys) = keys {
                comparison.find(keys, wanted, &told);
            }
            comparison.key(u64::MAX, wanted, &told);
        }
        comparison.leave(&told);
    })
}

/// Files of every version and format, damaged: each number that the file check looks at at its boundaries; bytes of heads
/// and directories changed, and any; cut off or not. Besides, numbers of keys that no call gives.
fn damaged<L: Library>(library: &L, lot: Lot) -> Outcome {
    over(library, lot.damaged, |comparison, i| {
        let mut random = Lcg::new(i ^ 0xdb << 40);
        let made = match random.one_in(4) {
            true => real(i + (1 << 32)),
            false => Made::new(i + (1 << 32), false),
        };
        let whole = &made.whole;
        let mut patches = Vec::new();
        whole.boundaries(&mut patches);
        let mut file = whole.bytes.clone();
        for k in 0..patches.len() as u64 + lot.random {
            let damage: Vec<Patch> = match patches.get(k as usize) {
                Some(&patch) => vec![patch],
                None => (0..1 + random.below(3))
                    .map(|_| Patch::byte(some_place(&made, &mut random), some_byte(&mut random)))
                    .collect(),
            };
            damage.iter().for_each(|patch| patch.apply(&mut file));
            let end = match random.one_in(8) {
                true => random.below(file.len() as u64 + 1) as usize,
                false => file.len(),
            };
            let allowance = whole.allowances()[random.below(7) as usize];
            let told = || {
                let shown: Vec<String> = damage.iter().map(Patch::to_string).collect();
                format!("damaged file {i} ({whole}), {}", shown.join(", "))
            };
            comparison.take(&file[..end]);
            let keys = comparison.keys(allowance, &told);
            let wanted = made.wanted(&mut random);
            for _ in 0..2 {
                let wanted = one(&mut random, &wanted);
                comparison.key(allowance, wanted, &told);
                if let Some(keys) = keys {
                    comparison.find(keys, wanted, &told);
                    comparison.at(keys, random.below(keys[0] + 2) as u16, &told);
                }
            }
            comparison.leave(&told);
            damage
                .iter()
                .for_each(|patch| patch.undo(&mut file, &whole.bytes));
        }
        comparison.take(&file);
        made_ups(comparison, &made, &mut random, lot.made_up);
    })
}

/// Numbers of keys that no call gives, shown to the file that was taken up; and those of the whole file, with less of it.
fn made_ups<L: Library>(comparison: &mut Comparison<L>, made: &Made, random: &mut Lcg, times: u64) {
    let told = || format!("file ({}), made up", made.whole);
    let size = comparison.file.len() as u64;
    let like = model::keys(&mut comparison.found, &comparison.file, u64::MAX);
    let like = like.map_or([3, size / 2, 32, size / 2 + 9, size / 3], |(_, keys)| keys);
    let wanted = made.wanted(random);
    for _ in 0..times {
        let keys = made_up(random, like, size);
        let last = keys[0].min(9) as u16;
        for k in [
            0,
            last / 2,
            last,
            keys[0] as u16,
            (keys[0] as u16).wrapping_sub(1),
        ] {
            comparison.at(keys, k, &told);
        }
        for _ in 0..3 {
            comparison.find(keys, one(random, &wanted), &told);
        }
    }
    let end = random.below(size + 1) as usize;
    comparison.file.truncate(end);
    comparison.shown.truncate(end);
    for k in 0..like[0].min(9) as u16 {
        comparison.at(like, k, &told);
    }
    for &wanted in &wanted {
        comparison.find(like, wanted, &told);
    }
}

/// Every location that a number can name, of a first key and of a last one, with both records, either or none.
fn every_location<L: Library>(library: &L, lot: Lot) -> Outcome {
    over(library, (1 << 16) / lot.step, |comparison, i| {
        let near = [0, 34_734, 34_735, 34_736, 34_737, 34_738, 65_535];
        let of = |location: u16, comparison: &mut Comparison<L>| {
            for records in 0..4 {
                let doubles = (records & 1 == 1).then_some(16);
                let text = (records & 2 == 2).then_some(5);
                let count = [0, 1, 2][usize::from(location) % 3];
                let keys = match records % 2 {
                    0 => [[7, location, count, 0], [8, 0, 1, 9]],
                    _ => [[7, 0, 1, 9], [8, location, count, 0]],
                };
                let file = small(&directory([9, 8, 7, 2], &keys), doubles, text);
                let told = || format!("location {location}, doubles {doubles:?}, text {text:?}");
                ask(comparison, &file, &[7, 8, 9], &told);
            }
        };
        of((i * lot.step) as u16, comparison);
        if i < near.len() as u64 {
            of(near[i as usize], comparison);
        }
    })
}

/// What is asked of a small file: its keys, each by its number, and some of them by themselves.
fn ask<L: Library>(
    comparison: &mut Comparison<L>,
    file: &[u8],
    wanted: &[u16],
    told: &dyn Fn() -> String,
) {
    comparison.take(file);
    let keys = comparison.keys(u64::MAX, told);
    for &wanted in wanted {
        comparison.key(3, wanted, told);
        if let Some(keys) = keys {
            comparison.find(keys, wanted, told);
        }
    }
    if let Some(keys) = keys {
        for k in 0..keys[0].min(20) as u16 + 1 {
            comparison.at(keys, k, told);
        }
    }
    comparison.leave(told);
}

/// Directories of every small count, at every length up to eight bytes more than their keys want, with every number of
/// keys stated around theirs; and with each pair of keys rising by one, equal, and falling.
fn every_length<L: Library>(library: &L) -> Outcome {
    over(library, 9, |comparison, many| {
        let many = many as usize;
        let plain: Vec<Four> = (0..many as u16)
            .map(|k| [10 + 2 * k, 0, 1, 900 + k])
            .collect();
        let wanted: Vec<u16> = (9..28).chain([0, 65_535]).collect();
        for stated in 0..=many as u16 + 2 {
            for length in 0..=8 * many + 24 {
                let mut data = directory([0, 65_535, 1, stated], &plain);
                data.resize(length, 0);
                let told = || format!("{many} keys, {stated} stated, {length} bytes");
                ask(comparison, &small(&data, Some(8), Some(1)), &wanted, &told);
            }
        }
        for stated in [256 + many as u16, 8_190, 8_191, 32_768, 65_535] {
            let told = || format!("{many} keys, {stated} stated");
            let data = directory([1, 1, 0, stated], &plain);
            ask(comparison, &small(&data, None, None), &wanted, &told);
        }
        for k in 1..many {
            for (key, location) in (0..40)
                .chain([65_534, 65_535])
                .flat_map(|n| [(n, 0), (n, 1)])
            {
                let mut keys = plain.clone();
                keys[k][0] = key;
                keys[many - 1][1] = location;
                let told = || format!("{many} keys, number {k} is {key}, location {location}");
                let data = directory([1, 1, 0, many as u16], &keys);
                ask(
                    comparison,
                    &small(&data, None, None),
                    &[key, 9, 10, 12],
                    &told,
                );
            }
        }
    })
}

/// Every index and every count around the end of doubles and text of every small length, and at the ends of 16 bits; and
/// of records as long as their field allows.
fn every_part<L: Library>(library: &L) -> Outcome {
    let lengths: Vec<usize> = (0..42)
        .chain([4_096, 32_768, 65_520, 65_528, 65_535])
        .collect();
    over(library, 2 * lengths.len() as u64, |comparison, i| {
        let length = lengths[i as usize / 2];
        let (location, unit) = [(DOUBLES, 8), (TEXT, 1)][i as usize % 2];
        let (doubles, text) = match location {
            DOUBLES => (Some(length), Some(3)),
            _ => (Some(3), Some(length)),
        };
        let end = (length / unit) as u64;
        let mut numbers: Vec<u16> = (0..7)
            .chain([8_191, 8_192, 32_767, 32_768, 65_534, 65_535])
            .collect();
        numbers.extend(
            [end / 2, end.saturating_sub(1), end, end + 1, length as u64].map(|n| n as u16),
        );
        numbers.sort_unstable();
        numbers.dedup();
        for &index in &numbers {
            for &count in &numbers {
                let keys = [[5, location, count, index], [6, 0, 0, 1]];
                let told = || format!("{length} bytes at {location}, count {count}, index {index}");
                let data = directory([1, 1, 0, 2], &keys);
                ask(comparison, &small(&data, doubles, text), &[5, 6], &told);
            }
        }
    })
}

/// Directories of four keys with any set of four faults, one on each key, in every order, whole and short: the earlier
/// refusal counts, wherever each stands.
fn every_order<L: Library>(library: &L) -> Outcome {
    // Not rising, an unknown location, an absent record, and beyond the end.
    over(library, 16 * 24 * 3, |comparison, i| {
        let (faults, i) = (i % 16, i / 16);
        let (mut left, mut order) = (vec![0, 1, 2, 3], Vec::new());
        let mut k = i % 24;
        for n in (1..=4).rev() {
            order.push(left.remove((k % n) as usize));
            k /= n;
        }
        let mut keys: Vec<Four> = Vec::new();
        for (k, fault) in (0..).zip(order) {
            let there = faults >> fault & 1 == 1;
            keys.push(match (fault, there) {
                (0, true) => [if k == 0 { 500 } else { 3 }, 0, 1, 1],
                (1, true) => [10 + k, 34_738, 1, 1],
                (2, true) => [10 + k, TEXT, 0, 0],
                (3, true) => [10 + k, DOUBLES, 1, 2],
                _ => [10 + k, 0, 1, 1],
            });
        }
        let more = (i / 24) as usize;
        let mut data = directory([1, 1, 0, 4], &keys);
        data.truncate(data.len() - [0, 1, 8][more]);
        let told = || format!("{keys:?}, short by {more}");
        ask(
            comparison,
            &small(&data, Some(16), None),
            &[3, 10, 11, 12, 13, 500],
            &told,
        );
    })
}

/// A directory of 32 keys, asked for every key and for every number that there can be.
fn every_key<L: Library>(library: &L, lot: Lot) -> Outcome {
    over(library, (1 << 16) / lot.step, |comparison, i| {
        let wanted = (i * lot.step) as u16;
        let keys: Vec<Four> = (0..32).map(|k| [k * 2_048 + k, 0, 1, k]).collect();
        let file = small(&directory([1, 1, 0, 32], &keys), None, None);
        let told = || "32 keys".to_string();
        comparison.take(&file);
        comparison.key(1, wanted, &told);
        let numbers = [32, 281, 264, 0, 0];
        comparison.find(numbers, wanted, &told);
        comparison.at(numbers, wanted, &told);
    })
}

/// Directories written: of 0 to some keys and of as many as a VLR holds, one less and more, with one to three numbers
/// behind them, rising or not, into room that is exact, one byte less, more, none, or any.
fn written<L: Library>(library: &L, lot: Lot) -> Outcome {
    over(library, lot.written, |comparison, i| {
        let mut random = Lcg::new(i ^ 0x3a << 50);
        let many = match i % 400 {
            0 => MOST as u64 - 1,
            1 | 2 => MOST as u64,
            3..6 => MOST as u64 + 1,
            6 => one(&mut random, &[8_192, 16_384, 20_000]),
            7 => 256 + random.below(2_000),
            k => k % 20,
        };
        let step = match many {
            0..30 => one(&mut random, &[1, 2, 200, 3_000]),
            ..9_000 => 7,
            _ => 3,
        };
        let mut key = random.below(3) as u16;
        let mut numbers: Vec<u16> = Vec::new();
        for _ in 0..many {
            let location = match random.below(8) {
                0..4 => 0,
                4 | 5 => DOUBLES,
                6 => TEXT,
                _ if random.one_in(9) => random.word() as u16,
                _ => 0,
            };
            let count = random.below(8) as u16;
            let value = (random.word() as u16) >> random.below(4);
            let value = if location == DOUBLES {
                value % 8_183
            } else {
                value
            };
            let value = if random.one_in(60) { 65_535 } else { value };
            numbers.extend([key, location, count, value]);
            key = key.wrapping_add(1 + random.below(step) as u16);
        }
        if many > 1 && random.one_in(6) {
            let k = 4 * (1 + random.below(many - 1) as usize);
            numbers[k] = match random.below(4) {
                0 | 1 => numbers[k - 4],
                2 => numbers[k - 4].wrapping_sub(1),
                _ => random.word() as u16,
            };
        }
        // A rest, of which the first number would be a key that does not rise.
        let rest = random.below(5).saturating_sub(1) as usize;
        numbers.extend(&[0, 1, 2][..rest]);
        let exact = 8 + 8 * many as usize;
        let room = match random.below(8) {
            0 | 1 => exact - 1,
            2 => exact + 1 + random.below(20) as usize,
            3 => random.below(exact as u64 + 2) as usize,
            4 => one(&mut random, &[0, 7, 8, exact - 8]),
            _ => exact,
        };
        let told = || format!("written {i}");
        comparison.write(&numbers, room, &told);
    })
}

/// Keys of numbers made by hand around and beyond 2^32, in a file too large to be made, in memory that nobody has touched.
fn far<L: Library>(library: &L) -> Report {
    const TWO_32: u64 = 1 << 32;
    const SIZE: u64 = TWO_32 + 70_000;
    let mut report = Report::new("keys beyond 2^32");
    let keys = [
        [7, 0, 1, 9],
        [8, TEXT, 5, 2],
        [9, DOUBLES, 2, 1],
        [10, 0, 0, 1],
    ];
    let data = directory([1, 1, 0, 4], &keys);
    let bytes = data.len() as u64;
    let mut memory = Sparse::new(SIZE as usize);
    for start in [
        9,
        TWO_32 - bytes,
        TWO_32 - 20,
        TWO_32,
        TWO_32 + 50,
        SIZE - bytes,
        SIZE - 30,
    ] {
        let end = SIZE.min(start + bytes);
        let there = (end - start) as usize;
        memory[start as usize..end as usize].copy_from_slice(&data[..there]);
        let places = [
            0,
            TWO_32 - 24,
            TWO_32 - 7,
            TWO_32,
            SIZE - 24,
            SIZE - 23,
            SIZE - 7,
            SIZE - 6,
        ];
        for [doubles, text] in places.into_iter().flat_map(|n| places.map(|m| [n, m])) {
            let numbers = [4, start, bytes, doubles, text];
            for k in 0..5 {
                let rules = there_by(model::at(&memory, numbers, k));
                let mut key = Lent::new();
                let by_port = library.at(&memory, &numbers, k, key.numbers());
                report.check(rules == (by_port, key.0), || {
                    format!(
                        "{numbers:?}, key {k}: {rules:?}, port {by_port} {:?}",
                        key.0
                    )
                });
            }
            for wanted in [0, 7, 8, 9, 10] {
                let rules = there_by(model::find(&memory, numbers, wanted));
                let mut key = Lent::new();
                let by_port = library.find(&memory, &numbers, wanted, key.numbers());
                report.check(rules == (by_port, key.0), || {
                    format!(
                        "{numbers:?}, wanted {wanted}: {rules:?}, port {by_port} {:?}",
                        key.0
                    )
                });
            }
        }
        memory[start as usize..end as usize].fill(0);
    }
    report
}

/// A small directory to work by hand on, in a file of 1.2: it begins at 281 with the keys below, has 40 bytes, and then
/// there are 16 bytes of doubles from 375 on and 5 of text from 445 on.
fn by_hand(besides: &[(usize, u8)]) -> Vec<u8> {
    let keys = [
        [1_024, 0, 1, 2],
        [1_026, TEXT, 2, 3],
        [2_057, DOUBLES, 1, 1],
        [3_072, 0, 9, 32_632],
    ];
    let mut file = small(&directory([1, 1, 0, 4], &keys), Some(16), Some(5));
    for &(at, byte) in besides {
        file[at] = byte;
    }
    file
}

/// Rows of las_keys that follow from document 02's text, with some bytes of the small file changed.
const REFUSED: [(&[(usize, u8)], Row); 31] = [
    (&[], [0, 4, 0]),
    // "no directory": the user id over all 16 bytes, the record id over both; "first VLRs"
    (&[(229, b'l')], [42, 0, 0]),
    (&[(244, 1)], [42, 0, 0]),
    (&[(245, 0xae)], [42, 0, 0]),
    (&[(246, 0x86)], [42, 0, 0]),
    (&[(100, 0)], [42, 0, 0]),
    (&[(339, 0xaf)], [46, 0, 0]),
    // "directory short": the number of keys is the fourth number; more is fine; what stands before it is any
    (&[(287, 5)], [43, 0, 0]),
    (&[(288, 1)], [43, 0, 0]),
    (&[(287, 3)], [0, 3, 0]),
    (&[(287, 0)], [0, 0, 0]),
    (
        &[(281, 9), (282, 9), (283, 9), (284, 9), (285, 9), (286, 9)],
        [0, 4, 0],
    ),
    // "keys not rising": equal is not
    (&[(297, 0)], [44, 0, 0]),
    (&[(297, 1)], [0, 4, 0]),
    (&[(313, 9), (314, 8)], [44, 0, 0]),
    (&[(313, 10), (314, 8)], [0, 4, 0]),
    // "unknown location"
    (&[(291, 1)], [45, 0, 0]),
    (&[(299, 0xaf)], [45, 0, 0]),
    (&[(299, 0xb2)], [45, 0, 0]),
    (&[(316, 1)], [45, 0, 0]),
    // "target record absent", whatever the count
    (&[(339, 0xb2)], [46, 0, 0]),
    (&[(339, 0xb2), (309, 0)], [46, 0, 0]),
    // "target beyond its end": the text has 5 bytes, the doubles are two
    (&[(303, 4)], [47, 0, 0]),
    (&[(303, 5), (301, 0)], [0, 4, 0]),
    (&[(303, 6), (301, 0)], [47, 0, 0]),
    (&[(309, 2)], [47, 0, 0]),
    (&[(311, 2)], [47, 0, 0]),
    // "Refusals, in order, each over the whole directory"
    (&[(99, 1), (244, 1)], [9, 16_777_666, 0]),
    (&[(287, 5), (297, 0), (291, 1)], [43, 0, 0]),
    (&[(313, 0), (314, 0), (291, 1), (303, 9)], [44, 0, 0]),
    (&[(315, 1), (303, 9), (339, 0xb2)], [45, 0, 0]),
];

/// What las_key tells of a key, in the same way.
const WANTED: [(&[(usize, u8)], u16, Row, Key); 10] = [
    (&[], 1_024, [0, 0, 0], [1_024, 0, 2, 0, 0]),
    (&[], 3_072, [0, 0, 0], [3_072, 0, 32_632, 0, 0]),
    (&[], 1_026, [0, 0, 0], [1_026, 34_737, 0, 448, 2]),
    (&[], 2_057, [0, 0, 0], [2_057, 34_736, 0, 383, 8]),
    (
        &[(311, 0), (309, 2)],
        2_057,
        [0, 0, 0],
        [2_057, 34_736, 0, 375, 16],
    ),
    (&[], 1_025, [48, 0, 0], [BEFORE; 5]),
    (&[], 0, [48, 0, 0], [BEFORE; 5]),
    // behind those that are counted
    (&[(287, 3)], 3_072, [48, 0, 0], [BEFORE; 5]),
    // "each over the whole directory": a key behind the one wanted is broken, and one before a key that isn't there
    (&[(315, 1)], 1_024, [45, 0, 0], [BEFORE; 5]),
    (&[(303, 9)], 9, [47, 0, 0], [BEFORE; 5]),
];

/// What las_keys_write writes into a room: the row, and the bytes.
const WRITTEN_BY_HAND: [(&[u16], usize, Row, &[u8]); 9] = [
    (&[], 8, [0, 8, 0], &[1, 0, 1, 0, 0, 0, 0, 0]),
    (&[], 9, [0, 8, 0], &[1, 0, 1, 0, 0, 0, 0, 0]),
    (&[5, 6, 7], 8, [0, 8, 0], &[1, 0, 1, 0, 0, 0, 0, 0]),
    (
        &[1_024, 0, 1, 0x8302],
        16,
        [0, 16, 0],
        &[1, 0, 1, 0, 0, 0, 1, 0, 0, 4, 0, 0, 1, 0, 2, 0x83],
    ),
    (
        &[7, 34_736, 0, 1, 6, 7, 8],
        17,
        [0, 16, 0],
        &[1, 0, 1, 0, 0, 0, 1, 0, 7, 0, 0xb0, 0x87, 0, 0, 1, 0],
    ),
    (&[7, 0, 0, 1], 15, [22, 16, 0], &[]),
    (&[], 7, [22, 8, 0], &[]),
    // "keys not rising [...] then no room"
    (&[7, 0, 0, 1, 7, 0, 0, 1], 3, [44, 0, 0], &[]),
    (&[7, 0, 0, 1, 6, 0, 0, 1], 99, [44, 0, 0], &[]),
];

fn answer([number, value, record]: Row) -> Answer {
    Answer {
        number,
        value,
        record,
    }
}

/// Both the rules and a library must answer what was worked by hand.
fn compare_described(library: &impl Library) -> Report {
    let mut report = Report::new("coordinate keys described");
    let mut found = Found::default();
    for (besides, stated) in REFUSED {
        let (file, stated) = (by_hand(besides), answer(stated));
        let (rules, _) = lent(model::keys(&mut found, &file, 9));
        let row = capi::row(|row| library.keys(&file, 9, &mut [0; 5], row));
        report.check([rules, row] == [stated; 2], || {
            format!("{besides:?}: {stated}, rules {rules}, port {row}")
        });
    }
    for (besides, wanted, stated, told) in WANTED {
        let (file, stated) = (by_hand(besides), (answer(stated), Lent::told(told)));
        let rules = lent(model::key(&mut found, &file, 9, wanted).map(|key| (0, key)));
        let mut key = Lent::new();
        let row = capi::row(|row| library.key(&file, 9, wanted, key.numbers(), row));
        report.check([rules, (row, key.0)] == [stated; 2], || {
            format!(
                "{besides:?}, {wanted}: {stated:?}, rules {rules:?}, port {row} {:?}",
                key.0
            )
        });
    }
    for (numbers, room, stated, bytes) in WRITTEN_BY_HAND {
        let stated = answer(stated);
        let mut expected = vec![BEFORE_BYTE; 100];
        expected[..bytes.len()].copy_from_slice(bytes);
        let mut dst = [(); 2].map(|()| vec![BEFORE_BYTE; 100]);
        let rules = model::write(numbers, &mut dst[0][..room]);
        let row = capi::row(|row| library.write(numbers, &mut dst[1][..room], row));
        let same = [rules, row] == [stated; 2] && dst.iter().all(|dst| *dst == expected);
        report.check(same, || {
            format!("{numbers:?}, room {room}: {stated}, rules {rules}, port {row}")
        });
    }
    // "over 8,190 keys": that many fit a VLR's length.
    let many: Vec<u16> = (0..8_191).flat_map(|key| [key, 0, 1, 0]).collect();
    for (numbers, room, stated) in [
        (&many[..4 * 8_190], 65_528, [0, 65_528, 0]),
        (&many[..4 * 8_190 + 3], 65_528, [0, 65_528, 0]),
        (&many[..4 * 8_190], 65_527, [22, 65_528, 0]),
        (&many[..], 65_536, [49, 0, 0]),
        (&many[..], 0, [49, 0, 0]),
    ] {
        let mut dst = vec![BEFORE_BYTE; 65_540];
        let rules = model::write(numbers, &mut dst[..room]);
        let row = capi::row(|row| library.write(numbers, &mut dst[..room], row));
        report.check([rules, row] == [answer(stated); 2], || {
            format!("{} numbers: rules {rules}, port {row}", numbers.len())
        });
    }
    report
}

/// The comparison itself is tested: a stand-in that follows the rules agrees with them, and one with an error put in
/// doesn't, whichever error it is.
pub fn compare_stand_ins() -> Report {
    let mut report = Report::new("keys with an error, told apart");
    let agrees = |error| {
        let library = &StandIn { error };
        whole(library, FEW).agrees()
            && reals(library, FEW).agrees()
            && every_order(library).agrees()
            && written(library, FEW).agrees()
            && damaged(library, FEW).agrees()
            && every_part(library).agrees()
            && every_length(library).agrees()
            && every_location(library, FEW).agrees()
            && every_key(library, FEW).agrees()
            && long(library, FEW).agrees()
            && far(library).agrees()
    };
    report.check(agrees(None), || "the one without an error differs".into());
    for &error in ERRORS {
        report.check(!agrees(Some(error)), || format!("{error:?} isn't seen"));
    }
    report
}

/// Compares a library and prints what came of it: the calls, and how often each number was answered.
pub fn compare_library(tally: &mut Tally, library: &impl Library) {
    tally.add(compare_described(library));
    let outcome = whole(library, FULL)
        .and(reals(library, FULL))
        .and(long(library, FULL))
        .and(damaged(library, FULL))
        .and(every_location(library, FULL))
        .and(every_length(library))
        .and(every_part(library))
        .and(every_order(library))
        .and(every_key(library, FULL))
        .and(written(library, FULL));
    for (k, report) in (0..).zip(outcome.reports) {
        match k {
            BACK.. => tally.aside(report),
            _ => tally.add(report),
        }
    }
    tally.add(far(library));
    tally.add(
        outcome
            .counted
            .tell("key answers, each many times", COUNTED, &NUMBERS, OFTEN),
    );
}

pub fn compare(tally: &mut Tally) {
    tally.add(compare_stand_ins());
    compare_library(tally, &Port);
}
