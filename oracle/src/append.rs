//! Records added to files, whole and store by store: by the port and by document 02's rules as
//! `append_model` has them.

use crate::{
    answer::Answer,
    append_model::{self, Offer, SECTOR},
    append_wrong::{ERRORS, StandIn},
    capi::{self, BoundsNumbers, Row, Span, Sweep},
    file_model::{Found, POINT_BYTES},
    files::{Patch, Whole},
    records::Lcg,
    report::{self, Report, Tally, stretches},
    sparse::Sparse,
};

/// The calls of the append. The port has them, and so have the stand-ins that test the comparison itself.
/// A store is of a sweep, with its records and bounds.
pub trait Library: Sync {
    fn append(&self, file: &mut [u8], offer: Offer, bounds: &BoundsNumbers, row: &mut Row);
    fn begin(&self, file: &[u8], offer: Offer, sweep: &mut Sweep, row: &mut Row);
    fn stores(&self, sweep: &Sweep) -> u64;
    fn store(
        &self,
        file: &mut [u8],
        of: (&Sweep, &[u8], &BoundsNumbers),
        k: u64,
        sector: &mut Span,
        row: &mut Row,
    );
}

struct Port;

impl Library for Port {
    fn append(&self, file: &mut [u8], offer: Offer, bounds: &BoundsNumbers, row: &mut Row) {
        let Offer {
            allowance,
            records,
            n,
            believed,
        } = offer;
        capi::las_append(file, allowance, (records, n, believed), bounds, row)
    }

    fn begin(&self, file: &[u8], offer: Offer, sweep: &mut Sweep, row: &mut Row) {
        let Offer {
            allowance,
            records,
            n,
            believed,
        } = offer;
        capi::las_append_begin(file, allowance, (records, n, believed), sweep, row)
    }

    fn stores(&self, sweep: &Sweep) -> u64 {
        capi::las_append_stores(sweep)
    }

    fn store(
        &self,
        file: &mut [u8],
        (sweep, records, bounds): (&Sweep, &[u8], &BoundsNumbers),
        k: u64,
        sector: &mut Span,
        row: &mut Row,
    ) {
        capi::las_append_store(file, sweep, records, bounds, k, sector, row)
    }
}

/// What lent numbers hold before a call, so that what is written where nothing may be shows.
const BEFORE: u64 = 0xa5a5_a5a5_a5a5_a5a5;

/// How many files are made, and how many sweeps by hand.
#[derive(Clone, Copy)]
struct Lot {
    /// Files of version 1.2, each with so many offers.
    scenes: u64,
    offers: u64,
    /// Files of every version, each with every number at its boundaries and with bytes changed at random.
    whole: u64,
    random: u64,
    sweeps: u64,
}

const FULL: Lot = Lot {
    scenes: 60_000,
    offers: 40,
    whole: 6_000,
    random: 100,
    sweeps: 2_000_000,
};

/// Few enough for each stand-in to take a blink.
const FEW: Lot = Lot {
    scenes: 600,
    whole: 50,
    sweeps: 10_000,
    ..FULL
};

/// Every number that the calls can answer with.
const NUMBERS: [usize; 21] = [
    0, 1, 2, 3, 4, 5, 6, 7, 8, 9, 10, 11, 12, 13, 14, 22, 28, 29, 30, 31, 35,
];

/// How often each must have been answered, or else the run has not tested it.
const OFTEN: u64 = 4_000;

/// What is counted.
const COUNTED: [&str; 6] = [
    "files with records offered",
    "offers",
    "offers added",
    "offers already in",
    "stores, cut after each and appended again",
    "point sectors stored in part, and appended again",
];
const FILES: usize = 0;
const OFFERS: usize = 1;
const ADDED: usize = 2;
const ALREADY_IN: usize = 3;
const STORES: usize = 4;
const SUBSETS: usize = 5;

/// What comparing all calls came to.
type Outcome = report::Outcome<4, 6>;

/// The calls, and the places of their reports.
const CALLS: [&str; 4] = [
    "las_append",
    "las_append_begin",
    "las_append_stores, _store",
    "las_append after a cut",
];
const APPEND: usize = 0;
const BEGIN: usize = 1;
const STORE: usize = 2;
const AGAIN: usize = 3;

/// Compares a library with the rules on one offer after another. Everything is used again.
struct Comparison<'a, L> {
    port: &'a L,
    outcome: Outcome,
    found: Found,
    random: Lcg,
    /// The file as it should be and as the library leaves it, store by store; as it should be in the end;
    /// and after a cut.
    rules: Vec<u8>,
    by_port: Vec<u8>,
    whole: Vec<u8>,
    cut: Vec<u8>,
    /// What the library is shown and has to leave.
    shown: Vec<u8>,
    offered: Vec<u8>,
}

impl<'a, L: Library> Comparison<'a, L> {
    fn new(port: &'a L) -> Comparison<'a, L> {
        Comparison {
            port,
            outcome: Outcome::new(CALLS),
            found: Found::default(),
            random: Lcg::new(0),
            rules: Vec::new(),
            by_port: Vec::new(),
            whole: Vec::new(),
            cut: Vec::new(),
            shown: Vec::new(),
            offered: Vec::new(),
        }
    }

    /// Compares all calls on one offer to a file: the rows, the sweep, each sector and the whole file.
    fn offer(
        &mut self,
        file: &[u8],
        offer: Offer,
        bounds: &BoundsNumbers,
        shown: &dyn Fn() -> String,
    ) {
        let told = || {
            let (size, lent) = (file.len(), offer.records.len());
            let (n, believed) = (offer.n, offer.believed);
            format!(
                "{}, {size} bytes, {n} in {lent} bytes offered, believed {believed}",
                shown()
            )
        };
        self.whole.clear();
        self.whole.extend_from_slice(file);
        let rules = append_model::append(&mut self.found, &mut self.whole, offer, bounds);
        self.by_port.clear();
        self.by_port.extend_from_slice(file);
        let port = capi::row(|row| self.port.append(&mut self.by_port, offer, bounds, row));
        let same = rules == port && self.whole == self.by_port;
        self.outcome.reports[APPEND].check(same, || {
            let at = first_difference(&self.whole, &self.by_port);
            format!(
                "{}: {rules}, port {port}, first differing byte {at:?}",
                told()
            )
        });
        let counted = &mut self.outcome.counted;
        counted.answered(rules.number);
        counted.counts[OFFERS] += 1;
        match (rules.number, rules.value) {
            (0, 0) => counted.counts[ADDED] += 1,
            (0, _) => counted.counts[ALREADY_IN] += 1,
            _ => {}
        }

        let judged = append_model::judge(&mut self.found, file, offer);
        let (mut expected, mut sweep) = ([BEFORE; 8], [BEFORE; 8]);
        if let Ok(Some(numbers)) = judged {
            expected = numbers;
        }
        for (copy, lent) in [(&mut self.shown, file), (&mut self.offered, offer.records)] {
            copy.clear();
            copy.extend_from_slice(lent);
        }
        let lent = Offer {
            records: &self.offered,
            ..offer
        };
        let row = capi::row(|row| self.port.begin(&self.shown, lent, &mut sweep, row));
        let kept = self.shown == file && self.offered == offer.records;
        let same = rules == row && expected == sweep && kept;
        self.outcome.reports[BEGIN].check(same, || {
            format!(
                "{}: {rules} {expected:?}, port {row} {sweep:?}, what was shown kept {kept}",
                told()
            )
        });
        if same && (rules.number, rules.value) == (0, 0) {
            self.stores(file, offer, &sweep, bounds, &told);
        }
    }

    /// All stores of a sweep, and past the last: each leaves the file as the rules do. "Cut after any
    /// store .. doing it again ends as if it had never been cut", and the file is accepted, "with exactly
    /// the old points or exactly the old and the new".
    fn stores(
        &mut self,
        file: &[u8],
        offer: Offer,
        sweep: &Sweep,
        bounds: &BoundsNumbers,
        told: &dyn Fn() -> String,
    ) {
        let check = self.found.check(file, offer.allowance);
        let old = points(file);
        let last = append_model::stores(sweep);
        let mut same = self.port.stores(sweep) == last;
        for buffer in [&mut self.rules, &mut self.by_port] {
            buffer.clear();
            buffer.extend_from_slice(file);
        }
        for k in 0..last + 2 {
            let records = offer.records;
            let (rules, sector) = append_model::store(&mut self.rules, sweep, records, bounds, k);
            let mut span = [BEFORE; 2];
            let of = (sweep, records, bounds);
            let port = capi::row(|row| self.port.store(&mut self.by_port, of, k, &mut span, row));
            same &= rules == port && sector == Some(span) && self.rules == self.by_port;
            self.outcome.reports[STORE].check(same, || {
                let at = first_difference(&self.rules, &self.by_port);
                format!(
                    "{}, store {k} of {last}: {rules} {sector:?}, port {port} {span:?}, \
                     first differing byte {at:?}",
                    told()
                )
            });
            if !same {
                return;
            }
            if k >= last {
                continue;
            }
            self.outcome.counted.counts[STORES] += 1;
            let done = k + 1 == last;
            let new = [old, &records[..sweep[1] as usize]];
            let as_stated = self.found.check(&self.rules, offer.allowance) == check
                && match done {
                    true => points(&self.rules) == new.concat(),
                    false => points(&self.rules) == old,
                };
            self.cut.clone_from(&self.rules);
            self.again(as_stated, offer, bounds, done, &|| {
                format!("{}, cut after {k}", told())
            });
        }
        self.outcome.reports[STORE].check(self.by_port == self.whole, || {
            format!("{}: all stores are not the append", told())
        });

        // What of the point sectors reached the card before the cut does no harm, whichever they were.
        self.outcome.counted.counts[SUBSETS] += 1;
        self.cut.clear();
        self.cut.extend_from_slice(file);
        for k in 0..last - 1 {
            if self.random.one_in(2) {
                append_model::store(&mut self.cut, sweep, offer.records, bounds, k);
            }
        }
        self.again(true, offer, bounds, false, &|| {
            format!("{}, some sectors", told())
        });
    }

    /// The same offer to the file after a cut.
    fn again(
        &mut self,
        as_stated: bool,
        offer: Offer,
        bounds: &BoundsNumbers,
        done: bool,
        told: &dyn Fn() -> String,
    ) {
        let port = capi::row(|row| self.port.append(&mut self.cut, offer, bounds, row));
        let same = as_stated && port == Answer::result(done) && self.cut == self.whole;
        self.outcome.reports[AGAIN].check(same, || {
            let at = first_difference(&self.whole, &self.cut);
            format!(
                "{}: accepted with the right points {as_stated}, port {port}, first differing byte {at:?}",
                told()
            )
        });
    }
}

fn first_difference(expected: &[u8], found: &[u8]) -> Option<usize> {
    expected.iter().zip(found).position(|(a, b)| a != b)
}

/// The header's numbers that say where the points are: offset, record length and legacy count.
fn outline(file: &[u8]) -> [usize; 3] {
    let number = |at: usize, width: usize| {
        let bytes = file[at..at + width].iter().rev();
        bytes.fold(0, |n, &b| n << 8 | usize::from(b))
    };
    [number(96, 4), number(105, 2), number(107, 4)]
}

/// The bytes of the points of an accepted 1.2 file.
fn points(file: &[u8]) -> &[u8] {
    let [offset, length, count] = outline(file);
    &file[offset..][..length * count]
}

/// A file of version 1.2 with room behind its points, and records to add to it.
#[derive(Default)]
struct Scene {
    file: Vec<u8>,
    records: Vec<u8>,
    length: u64,
    count: u64,
    n: u64,
    /// Where the VLRs end, and where the points do.
    vlr_end: u64,
    end: u64,
    bounds: BoundsNumbers,
}

impl Scene {
    /// Makes the `i`-th. Neighbours are of different formats. The points begin in sector 0 or after it,
    /// behind a header or VLRs of more than a sector too; where they end, and where the file does, is now
    /// and then beside the end of a sector. Of the counts by return one is often close to its end.
    fn make(&mut self, i: u64) {
        let mut random = Lcg::new(i);
        let format = i % 4;
        let pick = |random: &mut Lcg, list: &[u64]| list[random.below(list.len() as u64) as usize];
        let extra = pick(&mut random, &[0, 0, 0, 1, 2, 7, 31, 300]);
        self.length = POINT_BYTES[format as usize] as u64 + extra;
        let header_size = 227 + pick(&mut random, &[0, 0, 0, 1, 20, 148, 284, 285, 286, 900]);
        let data = pick(&mut random, &[0, 0, 4, 300]);
        let vlrs = pick(&mut random, &[0, 0, 1, 2, 3]);
        self.vlr_end = header_size + vlrs * (54 + data);
        self.count = pick(&mut random, &[0, 0, 1, 2, 3, 5, 17, 40]);
        self.n = pick(&mut random, &[1, 1, 2, 3, 5, 17, 40]);
        let bytes = self.count * self.length;
        let gap = match random.below(4) {
            0 => 0,
            1 => random.below(40),
            // The points end on a sector's end, or a byte before or after it.
            2 => (1023 + random.below(3) - (self.vlr_end + bytes) % 512) % 512,
            _ => random.below(600),
        };
        let offset = self.vlr_end + gap;
        self.end = offset + bytes;
        let wanted = self.end + self.n * self.length;
        let size = wanted
            + match random.below(4) {
                0 => 0,
                1 => random.below(3),
                2 => (1023 + random.below(3) - wanted % 512) % 512,
                _ => random.below(1_100),
            };

        self.file.clear();
        self.file.resize(size as usize, 0);
        random.fill(&mut self.file);
        let mut put = |at: u64, width: usize, value: u64| {
            self.file[at as usize..][..width].copy_from_slice(&value.to_le_bytes()[..width]);
        };
        put(0, 4, u32::from_le_bytes(*b"LASF").into());
        put(24, 2, 0x0201);
        put(94, 2, header_size);
        put(96, 4, offset);
        put(100, 4, vlrs);
        put(104, 1, format);
        put(105, 2, self.length);
        put(107, 4, self.count);
        for k in 0..5 {
            put(111 + 4 * k, 4, random.below(1 << 31));
        }
        for _ in 0..random.below(3) {
            let close = 0xffff_ffff - random.below(self.n / 2 + 2);
            put(111 + 4 * random.below(5), 4, close);
        }
        for k in 0..vlrs {
            put(header_size + k * (54 + data) + 20, 2, data);
        }
        // More records than are to be added, and whatever bounds.
        self.records.clear();
        self.records
            .resize(((self.n + 3) * self.length) as usize, 0);
        random.fill(&mut self.records);
        self.bounds = [(); 6].map(|()| random.f64_bits());
    }

    /// A count of records to offer: the scene's, around it, around the count that the file has, and where
    /// sums and products would wrap in 32 or 64 bits.
    fn some_n(&self, random: &mut Lcg) -> u64 {
        match random.below(16) {
            0 => 0,
            1 => self.n + 1,
            2 => self.n - 1,
            3 => self.count,
            4 => random.below(self.count + 2),
            5 => [1 << 32, (1 << 32) - 1, 1 << 63, u64::MAX][random.below(4) as usize],
            6 => u64::MAX / self.length + random.below(2),
            7 => wrapping(self.length, random.below(self.records.len() as u64 + 1)),
            8 => (1 << 32) / self.length + random.below(3),
            _ => self.n,
        }
    }

    /// A count that is believed: the file's, what it was before n records, and others.
    fn some_believed(&self, n: u64, random: &mut Lcg) -> u64 {
        let before = self.count.wrapping_sub(n);
        match random.below(20) {
            0 => 0,
            1 => self.count + 1,
            2 => self.count.wrapping_sub(1),
            3 => self.count.wrapping_add(n),
            4 => self.count + (1 << 32),
            5 => before & 0xffff_ffff,
            6 => before.wrapping_add(1),
            7 => before.wrapping_sub(1),
            8 => [1 << 32, (1 << 32) - 1, 1 << 63, u64::MAX][random.below(4) as usize],
            9 => random.long() >> random.below(64),
            10..14 => before,
            _ => self.count,
        }
    }
}

/// The count whose product with a length is, in 64 bits, close below `product`: where a product that wraps
/// would say that all is there.
fn wrapping(length: u64, product: u64) -> u64 {
    let beyond = (1 << 64) + u128::from(product);
    (beyond / u128::from(length)) as u64
}

/// Offers to files of version 1.2: what is offered, how much room there is, what is believed, each by
/// itself and all at once, so that the order of the refusals shows.
fn scenes<L: Library>(library: &L, lot: Lot) -> Outcome {
    over(library, lot.scenes, |comparison, i| {
        let mut scene = Scene::default();
        scene.make(i);
        let mut random = Lcg::new(!i);
        comparison.random = Lcg::new(i ^ 1 << 40);
        comparison.outcome.counted.counts[FILES] += 1;
        let mut file = scene.file.clone();
        for k in 0..lot.offers {
            let straight = k == 0;
            let n = match straight {
                true => scene.n,
                false => scene.some_n(&mut random),
            };
            let believed = match straight {
                true => scene.count,
                false => scene.some_believed(n, &mut random),
            };
            // The points end with the records, or with the records but for one bit, or they don't. Where there are
            // fewer points, the gap before them has the first.
            let bytes = n.wrapping_mul(scene.length);
            let most = (scene.end - scene.vlr_end).min(scene.records.len() as u64);
            let fits = u128::from(n) * u128::from(scene.length) <= most.into();
            file.clone_from(&scene.file);
            if fits && random.below(4) != 0 {
                let end = scene.end as usize;
                let last = &mut file[end - bytes as usize..end];
                last.copy_from_slice(&scene.records[..bytes as usize]);
                if bytes > 0 && random.one_in(3) {
                    let at = match random.below(3) {
                        0 => 0,
                        1 => bytes - 1,
                        _ => random.below(bytes),
                    };
                    last[at as usize] ^= 1 << random.below(8);
                }
            }
            // Another version, now and then.
            if !straight && random.one_in(12) {
                file[25] = random.below(6) as u8;
            }
            let lent = match random.below(8) {
                _ if straight => scene.n * scene.length,
                0 => random.below(scene.records.len() as u64 + 1),
                1 => bytes.wrapping_sub(1),
                2 => bytes.wrapping_add(1),
                3 => scene.records.len() as u64,
                4 => 0,
                _ => bytes,
            };
            let lent = lent.min(scene.records.len() as u64) as usize;
            let wanted = scene.end.wrapping_add(bytes);
            let size = match random.below(12) {
                _ if straight => file.len() as u64,
                0 => wanted.wrapping_sub(1),
                1 => wanted,
                2 => scene.end,
                3 => scene.end + random.below(scene.n * scene.length + 1),
                4 if random.one_in(4) => random.below(file.len() as u64 + 1),
                5 => bytes.max(scene.end),
                _ => file.len() as u64,
            };
            let size = size.min(file.len() as u64) as usize;
            let offer = Offer {
                allowance: if random.one_in(20) {
                    random.below(4)
                } else {
                    u64::MAX
                },
                records: &scene.records[..lent],
                n,
                believed,
            };
            comparison.offer(&file[..size], offer, &scene.bounds, &|| {
                format!("file {i}, offer {k}")
            });
        }
    })
}

/// Offers to files of every version, whole and damaged: each number that the file check looks at at its
/// boundaries, and bytes changed at random. There is room behind the last part.
fn damaged<L: Library>(library: &L, lot: Lot) -> Outcome {
    over(library, lot.whole, |comparison, i| {
        // Four times in five of version 1.2: those are the fourth to the seventh of the kinds.
        let index = match i % 5 {
            0 => i,
            _ => i / 5 * 25 + 4 + i % 4,
        };
        let mut random = Lcg::new(!i);
        comparison.random = Lcg::new(i ^ 1 << 41);
        let mut whole = Whole::default();
        whole.make(index, false);
        let size = whole.bytes.len() + random.below(300) as usize;
        whole.bytes.resize(size, 0x5a);
        let [_, length, count] = outline(&whole.bytes);
        let n = 1 + random.below(4);
        let mut records = vec![0; n as usize * length];
        random.fill(&mut records);
        let bounds = [(); 6].map(|()| random.f64_bits());
        let mut patches = Vec::new();
        whole.boundaries(&mut patches);
        let mut file = whole.bytes.clone();
        for k in 0..patches.len() as u64 + lot.random {
            comparison.outcome.counted.counts[FILES] += 1;
            let damage: Vec<Patch> = match patches.get(k as usize) {
                Some(&patch) => vec![patch],
                None => (0..=random.below(3))
                    .map(|_| Patch::byte(whole.any_place(&mut random), random.byte()))
                    .collect(),
            };
            damage.iter().for_each(|patch| patch.apply(&mut file));
            let end = match random.one_in(8) {
                true => random.below(file.len() as u64 + 1) as usize,
                false => file.len(),
            };
            let allowances = whole.allowances();
            let offer = Offer {
                allowance: allowances[random.below(7) as usize],
                records: &records,
                n: if random.one_in(16) { 0 } else { n },
                believed: [count as u64, count as u64, 0, 1][random.below(4) as usize],
            };
            comparison.offer(&file[..end], offer, &bounds, &|| {
                let shown: Vec<String> = damage.iter().map(Patch::to_string).collect();
                format!("file {index} ({whole}), {}", shown.join(", "))
            });
            damage
                .iter()
                .for_each(|patch| patch.undo(&mut file, &whole.bytes));
        }
    })
}

/// Stores of sweeps that no call gives, but that a caller can make, in bytes that are no file: numbers
/// beside one another's ends, wider than their fields, and any.
fn made_sweeps<L: Library>(library: &L, lot: Lot) -> Report {
    Report::over(
        "las_append_store of made sweeps",
        lot.sweeps,
        |report, stretch| {
            let (mut rules, mut by_port) = (Vec::new(), Vec::new());
            let mut records = vec![0; 2_000];
            for i in stretch {
                let mut random = Lcg::new(i);
                let size = match random.below(4) {
                    0 => random.below(230),
                    1 => 512 * random.below(5) + random.below(3),
                    _ => random.below(2_600),
                };
                let some = |random: &mut Lcg, near: u64| match random.below(10) {
                    0 => 0,
                    1 => near,
                    2 => near.wrapping_add(1),
                    3 => near.wrapping_sub(1),
                    4 => [1 << 32, 1 << 63, u64::MAX, u64::MAX - 511][random.below(4) as usize],
                    5 => random.long() >> random.below(64),
                    6 => 512 * random.below(5),
                    _ => random.below(near.max(1)),
                };
                let at = some(&mut random, size);
                let bytes = match random.below(4) {
                    0 => 0u64.wrapping_sub(at),
                    _ => some(&mut random, size.saturating_sub(at)),
                };
                let mut sweep = [at, bytes, 0, 0, 0, 0, 0, 0];
                sweep[2..].fill_with(|| random.long() >> random.below(64));
                let bounds = [(); 6].map(|()| random.f64_bits());
                let lent = match random.below(8) {
                    0 => some(&mut random, bytes),
                    _ => bytes.wrapping_add(random.below(3)),
                };
                let lent = &mut records[..lent.min(2_000) as usize];
                random.fill(lent);
                let last = append_model::stores(&sweep);
                let k = match random.below(6) {
                    0 => last - 1,
                    1 => last,
                    2 => [1 << 32, last.wrapping_add(1 << 55), u64::MAX][random.below(3) as usize],
                    _ => random.below(last.min(8) + 2),
                };

                rules.resize(size as usize, 0);
                random.fill(&mut rules);
                by_port.clone_from(&rules);
                let (answer, sector) = append_model::store(&mut rules, &sweep, lent, &bounds, k);
                let (sector, mut span) = (sector.unwrap_or([BEFORE; 2]), [BEFORE; 2]);
                let of = (&sweep, &*lent, &bounds);
                let port = capi::row(|row| library.store(&mut by_port, of, k, &mut span, row));
                let count = library.stores(&sweep);
                let same = answer == port && sector == span && rules == by_port && count == last;
                report.check(same, || {
                let at = first_difference(&rules, &by_port);
                format!(
                    "sweep {i}, {sweep:?} of {} bytes, store {k} of {last} into {size}: {answer} {sector:?}, \
                     port {port} {span:?} of {count}, first differing byte {at:?}",
                    lent.len()
                )
            });
            }
        },
    )
}

/// Files that have as many points as 32 bits can count, or up to two fewer: 86 GB of zeros that nobody has
/// touched. What is written is at both ends, and these are compared.
fn ends<L: Library>(library: &L) -> Report {
    const LENGTH: u64 = 20;
    const MOST: u64 = 0xffff_ffff;
    const OFFSET: u64 = 227;
    let mut report = Report::new("las_append at 2^32 - 1 points");
    let size = OFFSET + (MOST + 3) * LENGTH;
    let [mut rules, mut by_port] = [(); 2].map(|()| Sparse::new(size as usize));
    let mut records = vec![0; 5 * LENGTH as usize];
    let mut found = Found::default();
    let bounds = [1, 2, 3, 4, 5, 6];
    for count in MOST - 4..=MOST {
        for n in 1..=5 {
            for (believed, is_in) in [(count, false), (count - n, true), (count + n, false)] {
                let mut random = Lcg::new(count * 8 + n);
                random.fill(&mut records);
                let end = (OFFSET + count * LENGTH) as usize;
                let bytes = (n * LENGTH) as usize;
                for file in [&mut rules, &mut by_port] {
                    file[..OFFSET as usize].fill(0);
                    file[..4].copy_from_slice(b"LASF");
                    file[24..26].copy_from_slice(&[1, 2]);
                    file[94..96].copy_from_slice(&[227, 0]);
                    file[96..100].copy_from_slice(&[227, 0, 0, 0]);
                    file[105..107].copy_from_slice(&[20, 0]);
                    file[107..111].copy_from_slice(&(count as u32).to_le_bytes());
                    file[end - 2 * bytes..].fill(0);
                    if is_in {
                        file[end - bytes..end].copy_from_slice(&records[..bytes]);
                    }
                }
                let offer = Offer {
                    allowance: u64::MAX,
                    records: &records,
                    n,
                    believed,
                };
                let answer = append_model::append(&mut found, &mut rules, offer, &bounds);
                let port = capi::row(|row| library.append(&mut by_port, offer, &bounds, row));
                let (head, tail) = (SECTOR as usize, end - 2 * bytes);
                let same = answer == port
                    && rules[..head] == by_port[..head]
                    && rules[tail..] == by_port[tail..];
                report.check(same, || {
                    format!("{n} to {count}, believed {believed}: {answer}, port {port}")
                });
            }
        }
    }
    report
}

/// What `part` comes to over the numbers below `size`.
fn over<L: Library>(
    library: &L,
    size: u64,
    part: impl Fn(&mut Comparison<L>, u64) + Sync,
) -> Outcome {
    let outcomes = stretches(size, |stretch| {
        let mut comparison = Comparison::new(library);
        stretch.for_each(|i| part(&mut comparison, i));
        comparison.outcome
    });
    outcomes.into_iter().fold(Outcome::new(CALLS), Outcome::and)
}

/// The comparison itself is tested: a stand-in that follows the rules agrees with them, and one with an
/// error put in doesn't, whichever error it is.
pub fn compare_stand_ins() -> Report {
    let mut report = Report::new("appends with an error, told apart");
    let agrees = |error| {
        let library = &StandIn { error };
        scenes(library, FEW).agrees()
            && damaged(library, FEW).agrees()
            && made_sweeps(library, FEW).agrees()
            && ends(library).agrees()
    };
    report.check(agrees(None), || "the one without an error differs".into());
    for &error in ERRORS {
        report.check(!agrees(Some(error)), || format!("{error:?} isn't seen"));
    }
    report
}

/// Compares a library and prints what came of it: the calls, and how often each number was answered.
pub fn compare_library(tally: &mut Tally, library: &impl Library) {
    let outcome = scenes(library, FULL).and(damaged(library, FULL));
    let [append, begin, store, again] = outcome.reports;
    tally.add(append);
    tally.add(begin);
    tally.add(store);
    tally.add(again);
    tally.add(made_sweeps(library, FULL));
    tally.add(ends(library));
    tally.add(
        outcome
            .counted
            .tell("append answers, each many times", COUNTED, &NUMBERS, OFTEN),
    );
}

pub fn compare(tally: &mut Tally) {
    tally.add(compare_stand_ins());
    compare_library(tally, &Port);
}
