//! Runs of point records, asked about, converted strictly and upgraded: by the port and by the rules of
//! documents 01 and 02 as `convert_model` has them.

use crate::{
    answer::Answer,
    call::noise,
    capi::{self, Row},
    convert_model::{
        DOWN, FLAGS, SCALED, UP, ask_new, ask_old, nir, record_bytes, to_new, to_old,
    },
    convert_wrong::{ERRORS, StandIn},
    format,
    records::{self, Lcg},
    report::{self, Report, Tally, stretches},
};
use las::point::Format;

/// The calls on runs. The port has them, and so have the stand-ins that test the comparison itself. A
/// run is a format byte, a count of extra bytes and a count of records.
pub trait Library: Sync {
    fn ask_old(&self, src: &[u8], run: (u8, u16, u64), row: &mut Row);
    fn ask_new(&self, src: &[u8], run: (u8, u16, u64), row: &mut Row);
    fn to_old(&self, src: &[u8], run: (u8, u16, u64), dst: &mut [u8], row: &mut Row);
    fn to_new(&self, src: &[u8], run: (u8, u16, u64), dst: &mut [u8], row: &mut Row);
}

struct Port;

impl Library for Port {
    fn ask_old(&self, src: &[u8], run: (u8, u16, u64), row: &mut Row) {
        capi::las_convert_ask_old(src, run, row)
    }

    fn ask_new(&self, src: &[u8], run: (u8, u16, u64), row: &mut Row) {
        capi::las_convert_ask_new(src, run, row)
    }

    fn to_old(&self, src: &[u8], run: (u8, u16, u64), dst: &mut [u8], row: &mut Row) {
        capi::las_convert_to_old(src, run, dst, row)
    }

    fn to_new(&self, src: &[u8], run: (u8, u16, u64), dst: &mut [u8], row: &mut Row) {
        capi::las_convert_to_new(src, run, dst, row)
    }
}

/// What a destination holds before a call, so that what is written where nothing may be shows.
const BEFORE_BYTE: u8 = 0xa5;

/// What is looked at past a destination, and what one may have too much.
const SPARE: usize = 9;

/// Which of the two ways.
#[derive(Clone, Copy, Debug, PartialEq, Eq)]
pub(crate) enum Way {
    Down,
    Up,
}
use Way::*;

/// What a run is made of, besides its records: which way it goes, its format byte and its count of extra
/// bytes.
#[derive(Clone, Copy, Debug)]
pub(crate) struct Shape {
    pub way: Way,
    pub format: u8,
    pub extra: u16,
}

impl Shape {
    /// The bytes of a record before and after.
    pub fn lengths(self) -> [usize; 2] {
        let pairs: &[_] = if self.way == Down { &DOWN } else { &UP };
        let target = pairs.iter().find(|pair| pair.0 == self.format);
        let target = target.map_or(self.format, |pair| pair.1);
        [self.format, target].map(|format| record_bytes(format, self.extra) as usize)
    }

    /// The Rust's format word.
    pub fn word(format: u8, extra: u16) -> u32 {
        match Format::new(format) {
            Ok(format) => format::word(format) | u32::from(extra) << 16,
            Err(error) => panic!("the Rust has no format {format}: {error}"),
        }
    }

    /// Fills `bytes` with records, one after another. Floats are of every kind.
    pub fn fill(self, i: u64, bytes: &mut [u8]) {
        let word = Shape::word(self.format, self.extra);
        let [length, _] = self.lengths();
        for (k, record) in (0..).zip(bytes.chunks_mut(length)) {
            records::fill(word, i << 20 | k, record);
        }
    }
}

/// Every pair, down and then up, with a count of extra bytes.
fn shapes(extra: u16) -> impl Iterator<Item = Shape> {
    let down = DOWN.iter().map(|pair| (Down, pair.0));
    let up = UP.iter().map(|pair| (Up, pair.0));
    down.chain(up)
        .map(move |(way, format)| Shape { way, format, extra })
}

/// The `i`-th of them, and the `i`-th of those down, over and over.
pub(crate) fn nth_shape(extra: u16, i: u64) -> Shape {
    shapes(extra).nth((i % 9) as usize).expect("one of nine")
}

pub(crate) fn nth_down(extra: u16, i: u64) -> Shape {
    shapes(extra).nth((i % 5) as usize).expect("one of five")
}

/// How many three-byte flags fit: eight return numbers, eight numbers of returns, five flags and 31
/// classes, which say what the overlap is.
const FITTING: u64 = 8 * 8 * 32 * 31;

/// The `k`-th three-byte flags that fit.
fn fitting_flags(k: u64) -> [u8; 3] {
    let (k, class) = (k % FITTING / 31, (k % 31) as u8);
    let class = if class < 28 { class } else { class + 1 };
    let returns = (k & 7 | (k >> 3 & 7) << 4) as u8;
    let flags = ((k >> 6 & 7) | (k >> 9 & 3) << 6) as u8;
    [returns, flags | u8::from(class == 12) << 3, class]
}

/// The least and the greatest angle that fit: document 02, No. 2, names them and their neighbours.
pub(crate) const LEAST: i16 = -15_083;
pub(crate) const GREATEST: i16 = 15_083;

/// Angles around those that the documents name, and at the ends.
const ANGLES: [i16; 23] = [
    0, 83, 84, -83, -84, 249, 250, -249, -250, 15_083, 15_084, -15_083, -15_084, 21_249, 21_250,
    21_251, -21_415, -21_416, -21_417, 1, -500, 32_767, -32_768,
];

/// Near infrared: mostly none, for there would be little else.
const NIRS: [u16; 7] = [0, 0, 1, 0, 0x100, 0xffff, 0];

pub(crate) fn set_angle(record: &mut [u8], angle: i16) {
    record[SCALED..][..2].copy_from_slice(&angle.to_le_bytes());
}

pub(crate) fn set_nir(record: &mut [u8], format: u8, value: u16) {
    if let Some(at) = nir(format) {
        record[at..at + 2].copy_from_slice(&value.to_le_bytes());
    }
}

/// Makes an extended record fit.
pub(crate) fn fit(record: &mut [u8], format: u8, random: &mut Lcg) {
    record[FLAGS..][..3].copy_from_slice(&fitting_flags(random.below(FITTING)));
    set_nir(record, format, 0);
    let span = (i32::from(GREATEST) - i32::from(LEAST) + 1) as u64;
    set_angle(
        record,
        (i32::from(LEAST) + random.below(span) as i32) as i16,
    );
}

/// Makes a record that fits offend: alone, it is then refused with the number, if the format can be.
pub(crate) fn offend(record: &mut [u8], format: u8, number: u64, random: &mut Lcg) {
    let any = random.byte();
    match number {
        15 => record[FLAGS] |= 8 | any & 7,
        16 => record[FLAGS] |= 0x80 | any & 0x70,
        17 => record[FLAGS + 2] = 32 + any % 224,
        18 => record[FLAGS + 1] |= 0x10 << (any & 1) | (any & 2) << 4,
        19 if any < 64 => record[FLAGS + 2] = 28,
        19 => record[FLAGS + 1] ^= 8,
        20 => set_nir(record, format, 1 << (any & 15) | u16::from(any)),
        _ => {
            let outside = [GREATEST + 1, LEAST - 1, i16::MAX, i16::MIN];
            set_angle(record, outside[usize::from(any & 3)]);
        }
    }
}

/// How much is compared: of every so many values one, and how many runs at random for each shape.
#[derive(Clone, Copy)]
struct Lot {
    /// In blocks of 256.
    flags: u64,
    upgrades: u64,
    random: u64,
}

const FULL: Lot = Lot {
    flags: 1,
    upgrades: 1,
    random: 20_000,
};

/// Few enough for each stand-in to take a blink.
const FEW: Lot = Lot {
    flags: 509,
    upgrades: 251,
    random: 40,
};

/// Every number that the calls can answer with.
const NUMBERS: [usize; 12] = [0, 1, 8, 15, 16, 17, 18, 19, 20, 21, 22, 26];

/// How often each must have been answered, or else the run has not tested it.
const OFTEN: u64 = 500;

/// What comparing the calls came to, and how many records were converted and compared.
type Outcome = report::Outcome<6, 1>;

const CALLS: [&str; 6] = [
    "las_convert_to_old",
    "las_convert_to_new",
    "las_convert_ask_old",
    "las_convert_ask_new",
    "asked and converted alike",
    "upgraded and back",
];

/// The places of the others, behind the two conversions.
const ASK: usize = 2;
const ALIKE: usize = 4;
const BACK: usize = 5;

/// Compares a library with the rules on one run after another. Everything is used again.
struct Comparison<'a, L> {
    port: &'a L,
    outcome: Outcome,
    /// What the library is shown, what it should write and what it writes. Both destinations hold
    /// `BEFORE_BYTE` between calls.
    lent: Vec<u8>,
    rules: Vec<u8>,
    by_port: Vec<u8>,
}

impl<'a, L: Library> Comparison<'a, L> {
    fn new(port: &'a L) -> Comparison<'a, L> {
        Comparison {
            port,
            outcome: Outcome::new(CALLS),
            lent: Vec::new(),
            rules: Vec::new(),
            by_port: Vec::new(),
        }
    }

    /// Compares the row and the whole destination, which has `room`.
    fn run(&mut self, shape: Shape, src: &[u8], count: u64, room: usize) {
        self.run_into(shape, src, count, room, None);
    }

    /// The same, after the question about the run; and puts what the library wrote into `written`, if that
    /// is wanted. The answer of the library's conversion.
    fn run_into(
        &mut self,
        shape: Shape,
        src: &[u8],
        count: u64,
        room: usize,
        written: Option<&mut Vec<u8>>,
    ) -> Answer {
        let Shape { way, format, extra } = shape;
        let end = room + SPARE;
        if self.rules.len() < end {
            self.rules.resize(end, BEFORE_BYTE);
            self.by_port.resize(end, BEFORE_BYTE);
        }
        self.lent.clear();
        self.lent.extend_from_slice(src);
        let dst = &mut self.rules[..room];
        let (asks, rules) = match way {
            Down => (
                ask_old(src, format, extra, count),
                to_old(src, format, extra, count, dst),
            ),
            Up => (
                ask_new(src, format, extra, count),
                to_new(src, format, extra, count, dst),
            ),
        };
        let (lent, dst) = (&self.lent[..], &mut self.by_port[..room]);
        let run = (format, extra, count);
        let asked = capi::row(|row| match way {
            Down => self.port.ask_old(lent, run, row),
            Up => self.port.ask_new(lent, run, row),
        });
        let port = capi::row(|row| match way {
            Down => self.port.to_old(lent, run, dst, row),
            Up => self.port.to_new(lent, run, dst, row),
        });
        let kept = self.lent == src;
        let same = rules == port && self.rules[..end] == self.by_port[..end] && kept;
        let (expected, found) = (&self.rules, &self.by_port);
        self.outcome.reports[way as usize].check(same, || {
            let at = expected.iter().zip(found).position(|(a, b)| a != b);
            let (size, first) = (src.len(), &src[..src.len().min(100)]);
            format!(
                "{run:?}, {size} bytes {first:02x?}, room {room}: the rules {rules}, port {port}, \
                 first differing byte {at:?}, source kept {kept}"
            )
        });
        self.outcome.reports[ASK + way as usize].check(asks == asked && kept, || {
            let (size, first) = (src.len(), &src[..src.len().min(100)]);
            format!("{run:?}, {size} bytes {first:02x?}: the rules {asks}, port {asked}")
        });
        // "For the same source, 22 aside, they never disagree."
        let alike = match (asked.number, port.number) {
            (0, 22) => port == Answer::refusal(22, asked.value) && (room as u64) < asked.value,
            (0, _) => port == asked && asked.value <= room as u64,
            (number, _) => port == asked && number != 22,
        };
        self.outcome.reports[ALIKE].check(alike, || {
            let size = src.len();
            format!("{run:?}, {size} bytes, room {room}: asked {asked}, converted {port}")
        });
        self.outcome.counted.answered(rules.number);
        let filled = match rules.number {
            0 => rules.value as usize,
            _ => 0,
        };
        if rules.number == 0 {
            self.outcome.counted.counts[0] += count;
        }
        if let Some(written) = written {
            written.clear();
            written.extend_from_slice(&self.by_port[..filled]);
        }
        self.rules[..filled].fill(BEFORE_BYTE);
        self.by_port[..if same { filled } else { end }].fill(BEFORE_BYTE);
        port
    }

    /// A run with just the room that it wants.
    fn whole(&mut self, shape: Shape, src: &[u8], count: u64) {
        self.run(shape, src, count, shape.lengths()[1] * count as usize);
    }
}

/// Hands on one record after another that have all flags of the `block`-th 256, with telling angles and
/// near infrared in turn.
pub(crate) fn with_flags(
    shape: Shape,
    block: u64,
    record: &mut Vec<u8>,
    mut each: impl FnMut(&[u8]),
) {
    record.resize(shape.lengths()[0], 0);
    shape.fill(block, record);
    for k in block << 8..(block + 1) << 8 {
        let [a, b, c, ..] = k.to_le_bytes();
        record[FLAGS..][..3].copy_from_slice(&[a, b, c]);
        record[..4].copy_from_slice(&noise(k).to_le_bytes());
        set_angle(record, ANGLES[(k % 23) as usize]);
        set_nir(record, shape.format, NIRS[(k / 23 % 7) as usize]);
        each(record);
    }
}

/// What `part` comes to over the numbers below `size`.
fn over<L: Library>(
    library: &L,
    size: u64,
    part: impl Fn(&mut Comparison<L>, &mut Vec<u8>, u64) + Sync,
) -> Outcome {
    let outcomes = stretches(size, |stretch| {
        let (mut comparison, mut src) = (Comparison::new(library), Vec::new());
        stretch.for_each(|i| part(&mut comparison, &mut src, i));
        comparison.outcome
    });
    outcomes.into_iter().fold(Outcome::new(CALLS), Outcome::and)
}

/// All 2^24 flags, each alone, for each pair; and those that fit in long runs, and with each of the
/// telling angles.
fn all_flags<L: Library>(library: &L, lot: Lot) -> Outcome {
    const RUN: u64 = 248;
    let blocks = (1 << 16) / lot.flags;
    let alone = over(library, 5 * blocks, |comparison, record, i| {
        let block = i % blocks * lot.flags;
        let shape = nth_down((block % 3) as u16, i / blocks);
        with_flags(shape, block, record, |record| {
            comparison.whole(shape, record, 1)
        });
    });
    let runs = over(library, 5 * FITTING / RUN, |comparison, src, i| {
        let shape = nth_down((i % 2) as u16, i);
        let mut random = Lcg::new(i);
        let [length, _] = shape.lengths();
        src.resize(length * RUN as usize, 0);
        shape.fill(i, src);
        for (k, record) in (i / 5 * RUN..).zip(src.chunks_mut(length)) {
            fit(record, shape.format, &mut random);
            record[FLAGS..][..3].copy_from_slice(&fitting_flags(k));
        }
        comparison.whole(shape, src, RUN);
    });
    let angles = over(library, 5 * FITTING / lot.flags, |comparison, record, i| {
        let shape = nth_down(0, i);
        record.resize(shape.lengths()[0], 0);
        shape.fill(i, record);
        record[FLAGS..][..3].copy_from_slice(&fitting_flags(i / 5 * lot.flags));
        for (k, angle) in ANGLES.into_iter().enumerate() {
            set_angle(record, angle);
            set_nir(record, shape.format, NIRS[(k + i as usize) % NIRS.len()]);
            comparison.whole(shape, record, 1);
        }
    });
    alone.and(runs).and(angles)
}

/// All angles for each pair, with near infrared and without, alone and, where they fit, in runs; and
/// all near infrared of the formats that have it.
fn all_angles<L: Library>(library: &L, _: Lot) -> Outcome {
    over(library, 5 << 8, |comparison, src, i| {
        let shape = nth_down(0, i);
        let [length, _] = shape.lengths();
        let mut random = Lcg::new(i);
        let of_block = (0..256).map(|k| (i / 5 * 256 + k) as u16);
        src.resize(length, 0);
        shape.fill(i, src);
        for n in of_block.clone() {
            fit(src, shape.format, &mut random);
            set_angle(src, n as i16);
            comparison.whole(shape, src, 1);
            set_nir(src, shape.format, n.swap_bytes());
            comparison.whole(shape, src, 1);
            set_angle(src, LEAST);
            comparison.whole(shape, src, 1);
        }
        src.resize(length * 256, 0);
        shape.fill(!i, src);
        for (n, record) in of_block.zip(src.chunks_mut(length)) {
            fit(record, shape.format, &mut random);
            set_angle(record, n as i16);
        }
        comparison.whole(shape, src, 256);
    })
}

/// Records at random, and made to fit, in runs of several lengths, with extra bytes, into too little
/// room, enough, or more.
fn at_random<L: Library>(library: &L, lot: Lot) -> Outcome {
    let extras = [0, 1, 2, 255];
    let counts = [0, 1, 1, 2, 3, 17];
    over(library, lot.random * 9 * 4, |comparison, src, i| {
        let shape = nth_shape(extras[(i / 9 % 4) as usize], i);
        let [from, to] = shape.lengths();
        let mut random = Lcg::new(i);
        let count = counts[random.below(6) as usize];
        src.resize(from * count, 0);
        match random.below(3) {
            0 => random.fill(src),
            _ => shape.fill(i, src),
        }
        if shape.way == Down && random.below(4) != 0 {
            for record in src.chunks_mut(from) {
                fit(record, shape.format, &mut random);
            }
        }
        let room = match random.below(8) {
            0 => random.below((to * count) as u64 + 1) as usize,
            1 => to * count + SPARE,
            _ => to * count,
        };
        // Bytes after the run are none of its business.
        let past = random.below(3) as usize * 7;
        src.resize(from * count + past, 0x5a);
        comparison.run(shape, src, count as u64, room);
    })
}

/// Runs of twelve in which one record offends, at each place and in each way, alone, and with another
/// that offends after it; and records that offend in each set of ways at once.
fn offenders<L: Library>(library: &L, _: Lot) -> Outcome {
    const RUN: u64 = 12;
    let places = over(
        library,
        5 * 7 * RUN * (RUN + 1) * 2,
        |comparison, src, i| {
            let shape = nth_down((i / 5 % 2 * 2) as u16, i);
            let [length, _] = shape.lengths();
            let mut random = Lcg::new(i);
            let i = i / 10;
            let (number, place, second) = (15 + i % 7, i / 7 % RUN, i / 7 / RUN);
            src.resize(length * RUN as usize, 0);
            shape.fill(i, src);
            for record in src.chunks_mut(length) {
                fit(record, shape.format, &mut random);
            }
            let record = |k: u64| length * k as usize..length * (k as usize + 1);
            offend(&mut src[record(place)], shape.format, number, &mut random);
            if second < RUN && second != place {
                let number = 15 + random.below(7);
                offend(&mut src[record(second)], shape.format, number, &mut random);
            }
            // Whatever room there is, the record comes first.
            let whole = shape.lengths()[1] * RUN as usize;
            let room = [0, whole - 1, whole][random.below(3) as usize];
            comparison.run(shape, src, RUN, room);
        },
    );
    let sets = over(library, 5 * 128 * 64, |comparison, record, i| {
        let shape = nth_down(0, i);
        let mut random = Lcg::new(i);
        record.resize(shape.lengths()[0], 0);
        shape.fill(i, record);
        fit(record, shape.format, &mut random);
        for number in 15..=21 {
            if (i / 5) >> (number - 15) & 1 == 1 {
                offend(record, shape.format, number, &mut random);
            }
        }
        comparison.whole(shape, record, 1);
    });
    places.and(sets)
}

/// Runs of up to three records, the first of which may offend, with a source of every length and a
/// destination of every length, each against one that is enough or not.
fn short<L: Library>(library: &L, _: Lot) -> Outcome {
    over(library, 9 * 3 * 4 * 2, |comparison, src, i| {
        let shape = nth_shape([0, 1, 7][(i / 9 % 3) as usize], i);
        let count = i / 27 % 4;
        let offends = i / 108 == 1;
        let [source, target] = shape.lengths().map(|length| length * count as usize);
        let mut random = Lcg::new(i);
        src.resize(source + 2, 0);
        shape.fill(i, src);
        if shape.way == Down {
            for record in src[..source].chunks_mut(shape.lengths()[0]) {
                fit(record, shape.format, &mut random);
            }
            if offends && count > 0 {
                offend(src, shape.format, 15 + random.below(5), &mut random);
            }
        }
        let near = |n: usize| [0, n.saturating_sub(1), n, n + 1];
        for lent in 0..=source + 2 {
            for room in near(target) {
                comparison.run(shape, &src[..lent], count, room);
            }
        }
        for room in 0..=target + 2 {
            for lent in near(source) {
                comparison.run(shape, &src[..lent.min(src.len())], count, room);
            }
        }
    })
}

/// The count whose product with a length is `product` in 64 bits, or close below it: where a product
/// that wraps would say that all is there.
fn wrapping(length: u64, product: u64) -> u64 {
    // The inverse of the odd part, by Newton's rule; each step doubles the bits that are right.
    let twos = length.trailing_zeros();
    let odd = length >> twos;
    let inverse = (0..6).fold(odd, |x, _| {
        x.wrapping_mul(2u64.wrapping_sub(odd.wrapping_mul(x)))
    });
    // A higher bit that the product does not show.
    (product >> twos).wrapping_mul(inverse) & (u64::MAX >> twos)
        | if twos > 0 { 1 << 63 } else { 0 }
}

/// Every format byte in both calls; the longest extra bytes, those that fit, those that only the
/// source's record has room for, and more; counts that are too large, and those whose products wrap.
fn edges<L: Library>(library: &L, _: Lot) -> Outcome {
    const LENT: usize = 1000;
    let formats = over(library, 512, |comparison, src, i| {
        let (way, format) = (if i < 256 { Down } else { Up }, i as u8);
        src.resize(LENT, 0);
        Lcg::new(i).fill(src);
        for extra in [0, 1, 65_468, 65_507, 65_515, 65_535] {
            let shape = Shape { way, format, extra };
            for count in [0, 1, 2, 1 << 32, u64::MAX] {
                for lent in [0, LENT] {
                    for room in [0, LENT] {
                        comparison.run(shape, &src[..lent], count, room);
                    }
                }
            }
        }
    });
    let longest = over(library, 9 * 12, |comparison, src, i| {
        let bare = nth_shape(0, i);
        let most = 65_535 - bare.lengths()[0];
        let extra = (most - 8 + (i / 9) as usize).min(65_535) as u16;
        let shape = Shape { extra, ..bare };
        let [from, to] = shape.lengths();
        for count in [0, 1, 2, 3] {
            src.resize(from * count, 0);
            shape.fill(i, src);
            if shape.way == Down {
                for record in src.chunks_mut(from) {
                    fit(record, shape.format, &mut Lcg::new(i));
                }
            }
            for lent in [
                0,
                from.min(src.len()),
                src.len().saturating_sub(1),
                src.len(),
            ] {
                for room in [
                    0,
                    (to * count).saturating_sub(1),
                    to * count,
                    to * count + 1,
                ] {
                    comparison.run(shape, &src[..lent], count as u64, room);
                }
            }
        }
    });
    let counts = over(library, 9 * 8, |comparison, src, i| {
        let extra = [0, 1, 2, 3, 5, 7, 255, 1000][(i / 9) as usize];
        let shape = nth_shape(extra, i);
        let [from, to] = shape.lengths();
        let whole = 1000;
        src.resize(from * whole, 0);
        shape.fill(i, src);
        if shape.way == Down {
            let mut random = Lcg::new(i);
            for record in src.chunks_mut(from) {
                fit(record, shape.format, &mut random);
            }
        }
        let mut counts = vec![
            0,
            1,
            2,
            3,
            17,
            999,
            1000,
            1001,
            65_536,
            1 << 32,
            1 << 63,
            u64::MAX,
        ];
        for length in [from as u64, to as u64] {
            // The last product that a value shows, the first that it does not, and small ones that
            // would be left over.
            counts.extend([u64::MAX / length, u64::MAX / length + 1]);
            counts.extend([(1 << 32) / length, (1 << 32) / length + 1]);
            let left_over = [0, 1, 2, length - 1, length, length + 1, 3 * length];
            counts.extend(left_over.map(|product| wrapping(length, product)));
            counts.extend((1..=6).map(|k| 1 << (64 - k)));
        }
        for count in counts {
            for lent in [0, from, 17 * from, src.len()] {
                for room in [0, to, 17 * to, whole * to] {
                    comparison.run(shape, &src[..lent], count, room);
                }
            }
        }
    });
    formats.and(longest).and(counts)
}

/// All two-byte flags with all ranks, upgraded in runs of 256, and what came of it converted again. Of
/// the ranks within ±90, which stand first, the bytes must be those that there were; the whole run is
/// refused for the first of the others, each of which is the first in its turn; and class 28 is refused.
fn upgrades<L: Library>(library: &L, lot: Lot) -> Outcome {
    const ALL: usize = 256;
    const WITHIN: usize = 181;
    over(
        library,
        4 * (1 << 16) / lot.upgrades,
        |comparison, src, i| {
            let [one, two] = ((i / 4 * lot.upgrades) as u16).to_le_bytes();
            let (format, extended) = UP[(i % 4) as usize];
            let extra = (i / 4 % 3) as u16;
            let (way, back) = (Up, Down);
            let shape = Shape { way, format, extra };
            let [from, to] = shape.lengths();
            let mut ranks: Vec<i8> = (-90..=90).chain(-128..=-91).chain(91..=127).collect();
            ranks[WITHIN..].rotate_left(i as usize / 4 % (ALL - WITHIN));
            src.resize(from * ALL, 0);
            shape.fill(i, src);
            for (&rank, record) in ranks.iter().zip(src.chunks_mut(from)) {
                record[FLAGS..][..3].copy_from_slice(&[one, two, rank as u8]);
            }
            let mut upgraded = Vec::new();
            comparison.run_into(shape, src, ALL as u64, to * ALL, Some(&mut upgraded));
            let shape = Shape {
                way: back,
                format: extended,
                extra,
            };
            let mut again = |count: usize| {
                let (src, room) = (&upgraded[..upgraded.len().min(to * count)], from * count);
                let mut written = Vec::new();
                let answer =
                    comparison.run_into(shape, src, count as u64, room, Some(&mut written));
                (answer, written)
            };
            // "Rank r to scaled: 500r/3, fraction dropped"; 21 tells its 16 bits.
            let scaled = (500 * i32::from(ranks[WITHIN]) / 3) as i16 as u16;
            let refusal = |number, value, record| Answer {
                number,
                value,
                record,
            };
            let (beyond, none) = again(ALL);
            let (within, written) = again(WITHIN);
            let same = match two & 31 {
                28 => [beyond, within] == [refusal(19, 28, 1); 2] && written.is_empty(),
                _ => {
                    beyond == refusal(21, scaled.into(), WITHIN as u64 + 1)
                        && written == src[..from * WITHIN]
                }
            };
            comparison.outcome.reports[BACK].check(same && none.is_empty(), || {
                format!(
                    "format {format}, flags {one:#04x} {two:#04x}, {extra} extra bytes, all ranks, \
                     {} the first beyond: {beyond}, and of those within {within}",
                    ranks[WITHIN]
                )
            });
        },
    )
}

/// Records of zeros but for flags and angle, in format 6, that documents 01 and 02 describe one by one:
/// both the rules and a library must answer what stands there.
fn compare_described(library: &impl Library) -> Report {
    let mut report = Report::new("runs that the documents describe");
    let worked: Row = [0, 28, 0];
    let described: [(_, i16, Row, _); 19] = [
        ([0x21, 0x48, 2], 0, [19, 2, 1], None),
        ([0x11, 0, 2], 0, worked, Some(([0x09, 0x02], 0))),
        ([0x11, 0x08, 12], 0, worked, Some(([0x09, 0x0c], 0))),
        ([0x11, 0, 28], 0, [19, 28, 1], None),
        ([0x88, 0x10, 40], 0, [15, 8, 1], None),
        ([0x81, 0, 2], 0, [16, 8, 1], None),
        ([0x11, 0, 32], 0, [17, 32, 1], None),
        ([0x11, 0x10, 2], 0, [18, 1, 1], None),
        ([0x11, 0, 2], 249, worked, Some(([0x09, 0x02], 1))),
        ([0x11, 0, 2], 250, worked, Some(([0x09, 0x02], 2))),
        ([0x11, 0, 2], -250, worked, Some(([0x09, 0x02], -2))),
        // "So scaled 15,083 passes as 90 and 15,084 doesn't, and likewise below zero", and "01's
        // strict cases at 21,249 and −21,416 become refusals".
        ([0x11, 0, 2], 15_083, worked, Some(([0x09, 0x02], 90))),
        ([0x11, 0, 2], 15_084, [21, 15_084, 1], None),
        ([0x11, 0, 2], -15_083, worked, Some(([0x09, 0x02], -90))),
        ([0x11, 0, 2], -15_084, [21, 50_452, 1], None),
        ([0x11, 0, 2], 21_249, [21, 21_249, 1], None),
        ([0x11, 0, 2], 21_250, [21, 21_250, 1], None),
        ([0x11, 0, 2], -21_416, [21, 44_120, 1], None),
        ([0x11, 0, 2], -21_417, [21, 44_119, 1], None),
    ];
    for (flags, angle, stated, record) in described {
        let mut src = [0; 30];
        src[14..17].copy_from_slice(&flags);
        set_angle(&mut src, angle);
        let mut should = [BEFORE_BYTE; 28];
        if let Some((flags, rank)) = record {
            should.fill(0);
            should[14..16].copy_from_slice(&flags);
            should[16] = i8::to_le_bytes(rank)[0];
        }
        let (mut by_rules, mut by_port) = ([BEFORE_BYTE; 28], [BEFORE_BYTE; 28]);
        let rules = to_old(&src, 6, 0, 1, &mut by_rules);
        let port = capi::row(|row| library.to_old(&src, (6, 0, 1), &mut by_port, row));
        let [number, value, record] = stated;
        let stated = Answer {
            number,
            value,
            record,
        };
        let same = [rules, port] == [stated; 2] && [by_rules, by_port] == [should; 2];
        report.check(same, || {
            format!("{flags:02x?} {angle}: {stated}, rules {rules} {by_rules:02x?}, port {port} {by_port:02x?}")
        });
        // The question has the same answer, and "22 now comes after the record checks and only from the
        // writing call".
        let no_room = match stated.number {
            0 => Answer::refusal(22, stated.value),
            _ => stated,
        };
        let rules = [ask_old(&src, 6, 0, 1), to_old(&src, 6, 0, 1, &mut [])];
        let port = [
            capi::row(|row| library.ask_old(&src, (6, 0, 1), row)),
            capi::row(|row| library.to_old(&src, (6, 0, 1), &mut [], row)),
        ];
        report.check([rules, port] == [[stated, no_room]; 2], || {
            format!("{flags:02x?} {angle}, asked and without room: rules {rules:?}, port {port:?}")
        });
    }
    // "rank 1 to 166, 3 to 500, -128 to -21,333"; "old (0x51,0x22): [...] upgrade (0x21,0x41,0x02)".
    for (rank, scaled) in [(1i8, 166i16), (3, 500), (-128, -21_333)] {
        let mut src = [0; 28];
        src[14..17].copy_from_slice(&[0x51, 0x22, rank as u8]);
        let mut should = [0; 30];
        should[14..17].copy_from_slice(&[0x21, 0x41, 0x02]);
        set_angle(&mut should, scaled);
        let (mut by_rules, mut by_port) = ([BEFORE_BYTE; 30], [BEFORE_BYTE; 30]);
        let rules = to_new(&src, 1, 0, 1, &mut by_rules);
        let port = capi::row(|row| library.to_new(&src, (1, 0, 1), &mut by_port, row));
        let same = [rules, port] == [Answer::result(30u8); 2] && [by_rules, by_port] == [should; 2];
        report.check(same, || {
            format!("rank {rank}: rules {rules} {by_rules:02x?}, port {port} {by_port:02x?}")
        });
    }
    report
}

/// All that is compared, one part after another.
fn parts<L: Library>(library: &L, lot: Lot) -> impl Iterator<Item = Outcome> {
    let parts: [fn(&L, Lot) -> Outcome; 7] = [
        at_random, offenders, short, edges, all_flags, all_angles, upgrades,
    ];
    parts.into_iter().map(move |part| part(library, lot))
}

/// The comparison itself is tested: a stand-in that follows the rules agrees with them, and one with
/// an error put in doesn't, whichever error it is.
pub fn compare_stand_ins() -> Report {
    let mut report = Report::new("converters with an error, told apart");
    let agrees = |error| parts(&StandIn { error }, FEW).all(|outcome| outcome.agrees());
    report.check(agrees(None), || "the one without an error differs".into());
    for &error in ERRORS {
        report.check(!agrees(Some(error)), || format!("{error:?} isn't seen"));
    }
    report
}

/// Compares a library and prints what came of it: the calls, and how often each number was answered by the
/// conversions.
pub fn compare_library(tally: &mut Tally, library: &impl Library) {
    tally.add(compare_described(library));
    let outcome = parts(library, FULL).fold(Outcome::new(CALLS), Outcome::and);
    let [down, up, ask_down, ask_up, alike, back] = outcome.reports;
    tally.add(down);
    tally.add(up);
    tally.add(ask_down);
    tally.add(ask_up);
    tally.aside(alike);
    tally.aside(back);
    tally.add(outcome.counted.tell(
        "conversion answers, each many times",
        ["records converted"],
        &NUMBERS,
        OFTEN,
    ));
}

pub fn compare(tally: &mut Tally) {
    tally.add(compare_stand_ins());
    compare_library(tally, &Port);
}
