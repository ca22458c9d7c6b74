//! What is wrong with accepted files: by the port and by document 02's rules as `findings_model` has them; and what
//! is told, held against the order that it must have and against the file as the Rust reads it.

use crate::{
    answer::Answer,
    call::Call,
    capi::{self, Row},
    file_model::{Found, POINT_BYTES, Part},
    files::{KINDS, Patch, Plan, Whole},
    findings_model::{self, Finding},
    findings_wrong::{ERRORS, StandIn},
    flags,
    migrate::{plain, put_header},
    records::Lcg,
    report::{self, Report, Tally, stretches},
    sparse::Sparse,
};
use las::raw::{Header, Vlr};
use std::array;

/// The call that tells findings. The port has it, and so have the stand-ins that test the comparison itself.
pub trait Library: Sync {
    fn findings(&self, file: &[u8], allowance: u64, out: &mut [u64], row: &mut Row);
}

struct Port;

impl Library for Port {
    fn findings(&self, file: &[u8], allowance: u64, out: &mut [u64], row: &mut Row) {
        capi::las_findings(file, allowance, out, row)
    }
}

/// What lent numbers are before a call, and how many there are past a room, so that what is written where nothing
/// may be shows.
const BEFORE: u64 = 0xa5a5_a5a5_a5a5_a5a5;
const SPARE: usize = 6;

/// How many files are made.
#[derive(Clone, Copy)]
struct Lot {
    /// Files without findings, each with so many copies in which some things are wrong.
    sound: u64,
    copies: u64,
    /// Files of bytes without pattern, in which nearly everything is wrong.
    whole: u64,
    /// Files in which what a u16 states is at its end, or with hundreds of VLRs.
    long: u64,
    /// Files of every version, each with every number at its boundaries and with bytes changed at random.
    damaged: u64,
    random: u64,
    /// Of the bytes of text fields, and of flags, each so many-th.
    step: usize,
}

const FULL: Lot = Lot {
    sound: 50_000,
    copies: 40,
    whole: 25_000,
    long: 200,
    damaged: 2_500,
    random: 80,
    step: 1,
};

/// Few enough for each stand-in to take a blink.
const FEW: Lot = Lot {
    sound: 100,
    copies: 20,
    whole: 100,
    long: 2,
    damaged: 25,
    step: 3,
    ..FULL
};

/// Every number that the call can answer with.
const NUMBERS: [usize; 17] = [0, 1, 2, 3, 4, 5, 6, 7, 8, 9, 10, 11, 12, 13, 14, 22, 35];

/// How often each must have been answered, or else the run has not tested it.
const OFTEN: u64 = 1_000;

/// What is counted.
const COUNTED: [&str; 13] = [
    "files asked about",
    "files without findings",
    "findings of rule 1",
    "findings of rule 2",
    "findings of rule 3",
    "findings of rule 4",
    "findings of rule 5",
    "of these in the header",
    "of these in EVLRs",
    "of these in waveform packets",
    "files with two findings at byte 107",
    "findings behind a gap",
    "points looked at",
];
const FILES: usize = 0;
const NOTHING: usize = 1;
const RULE: usize = 1;
const TEXT_OF: [usize; 3] = [7, 8, 9];
const TIES: usize = 10;
const BEHIND_A_GAP: usize = 11;
const POINTS: usize = 12;

/// What comparing the call came to.
type Outcome = report::Outcome<3, 13>;

/// The call, what is seen of its findings, and the places of their reports.
const CALLS: [&str; 3] = [
    "las_findings",
    "findings in order, each once",
    "findings as the Rust reads files",
];
const TOLD: usize = 0;
const ORDER: usize = 1;
const RUST: usize = 2;

/// Compares a library with the rules on one file after another. Everything is used again.
struct Comparison<'a, L> {
    port: &'a L,
    outcome: Outcome,
    found: Found,
    parts: Vec<Part>,
    rules: Vec<u64>,
    by_port: Vec<u64>,
    shown: Vec<u8>,
}

impl<'a, L: Library> Comparison<'a, L> {
    fn new(port: &'a L) -> Comparison<'a, L> {
        Comparison {
            port,
            outcome: Outcome::new(CALLS),
            found: Found::default(),
            parts: Vec::new(),
            rules: Vec::new(),
            by_port: Vec::new(),
            shown: Vec::new(),
        }
    }

    /// Asks about a file with room for so many numbers: the row, all of the room and what lies past it, and the
    /// file, which must stay. It gives back what there is to tell, if the file is accepted.
    fn ask(
        &mut self,
        file: &[u8],
        allowance: u64,
        room: usize,
        shown: &dyn Fn() -> String,
    ) -> (Answer, Vec<Finding>) {
        self.shown.clear();
        self.shown.extend_from_slice(file);
        for out in [&mut self.rules, &mut self.by_port] {
            out.clear();
            out.resize(room + SPARE, BEFORE);
        }
        let out = &mut self.rules[..room];
        let (rules, findings) =
            findings_model::answer(&mut self.found, file, allowance, &mut self.parts, out);
        let out = &mut self.by_port[..room];
        let port = capi::row(|row| self.port.findings(&self.shown, allowance, out, row));
        let same = rules == port && self.rules == self.by_port && self.shown == file;
        self.outcome.reports[TOLD].check(same, || {
            let [rules_told, port_told] = [&self.rules, &self.by_port].map(|out| telling(out));
            let (size, shown) = (file.len(), shown());
            format!(
                "{shown}, {size} bytes, allowance {allowance}, room {room}: {rules} {rules_told}, \
                 port {port} {port_told}"
            )
        });
        self.outcome.counted.answered(rules.number);
        (rules, findings)
    }

    /// Asks about a file with just enough room and with another: too little by one, by one of four numbers or by
    /// one finding, none, or more than enough.
    fn file(&mut self, file: &[u8], allowance: u64, which: u64, shown: &dyn Fn() -> String) {
        let check = self.found.check(file, allowance);
        if check.number != 0 {
            self.ask(file, allowance, which as usize % 9, shown);
            return;
        }
        let exact = 4 * findings_model::findings(&self.found, file, &mut self.parts).len();
        let other = match which % 8 {
            0 => 0,
            1 => exact + 1,
            2 => exact + 9,
            3 => exact.saturating_sub(2),
            4 => exact / 4,
            5 => exact.saturating_sub(4),
            _ => exact.saturating_sub(1),
        };
        self.ask(file, allowance, other, shown);
        let (answer, findings) = self.ask(file, allowance, exact, shown);
        if answer.number == 0 {
            self.look(file, exact / 4, &findings, shown);
        }
    }

    /// What is to be seen of what was told.
    fn look(&mut self, file: &[u8], many: usize, findings: &[Finding], shown: &dyn Fn() -> String) {
        let counts = &mut self.outcome.counted.counts;
        counts[FILES] += 1;
        counts[NOTHING] += u64::from(findings.is_empty());
        counts[TIES] += u64::from(findings.iter().filter(|&&[.., at]| at == 107).count() == 2);
        for &[rule, part, _, _] in findings {
            counts[RULE + rule as usize] += 1;
            let (before, own) = self.parts.split_at(part as usize - 1);
            match (rule, own[0][0]) {
                (5, 0) => counts[TEXT_OF[0]] += 1,
                (5, 4) => counts[TEXT_OF[1]] += 1,
                (5, 5) => counts[TEXT_OF[2]] += 1,
                _ => {}
            }
            counts[BEHIND_A_GAP] += u64::from(before.iter().any(|part| part[0] == 2));
        }

        // "Each finding stands exactly once", "in file order", "and findings at the same place follow the order
        // of this list".
        let (told, _) = self.by_port[..4 * many].as_chunks::<4>();
        let ascending = told.is_sorted_by_key(|&[rule, _, _, at]| (at, rule))
            && told
                .windows(2)
                .all(|two| [two[0][3], two[0][0]] != [two[1][3], two[1][0]]);
        self.outcome.reports[ORDER].check(ascending, || format!("{}: {told:?}", shown()));

        let rust = self.as_the_rust_reads(file);
        self.outcome.counted.counts[POINTS] += self.found.points();
        self.outcome.reports[RUST].check(rust == told, || {
            format!("{}: Rust {rust:?}, port {told:?}", shown())
        });
    }

    /// The same of what the Rust reads: header, heads of records and points. Where they begin is the part table's.
    fn as_the_rust_reads(&self, file: &[u8]) -> Vec<Finding> {
        let header = Header::read_from(file).expect("an accepted header");
        let mut returns = [0; 16];
        let mut findings = Vec::new();
        let part = |of| {
            1 + self
                .parts
                .iter()
                .position(|part| part[0] == of)
                .unwrap_or(0) as u64
        };
        for k in 0..self.found.points() {
            let (numbers, _) = self.found.point(file, k);
            let of = |call: &Call| (call.rust)(numbers[FLAGS] as u32, 0).value;
            let own = of(&flags::RETURN_NUMBER);
            returns[own as usize] += 1;
            if own == 0 || own > of(&flags::NUMBER_OF_RETURNS) {
                findings.push([4, part(3), k + 1, self.found.point_span(k)[0]]);
            }
        }

        let legacy = [header.number_of_point_records]
            .into_iter()
            .chain(header.number_of_points_by_return);
        if header.point_data_record_format >= 6 {
            let counters = (107..).step_by(4).zip(legacy);
            let not_zero = counters.filter(|&(_, counter)| counter != 0);
            findings.extend(not_zero.map(|(at, _)| [1, 1, 0, at]));
        }
        let by_return: Vec<(u64, u64)> = match &header.large_file {
            Some(large) => {
                let count = u64::from(header.number_of_point_records);
                if count != 0 && count != large.number_of_point_records {
                    findings.push([2, 1, 0, 107]);
                }
                let counters = large.number_of_points_by_return.into_iter();
                (255..).step_by(8).zip(counters).collect()
            }
            None => {
                let counters = header.number_of_points_by_return.map(u64::from);
                (111..).step_by(4).zip(counters).collect()
            }
        };
        let unlike = by_return
            .into_iter()
            .zip(&returns[1..])
            .filter(|&((_, counter), &count)| counter != count);
        findings.extend(unlike.map(|((at, _), _)| [3, 1, 0, at]));

        for (part, &[kind, start, length]) in (1..).zip(&self.parts) {
            let texts = match kind {
                0 => [
                    (26, is_given_back(&header.system_identifier)),
                    (58, is_given_back(&header.generating_software)),
                ],
                1 | 4 | 5 => {
                    let bytes = &file[start as usize..][..length as usize];
                    let head = Vlr::read_from(bytes, kind != 1).expect("a whole record");
                    let description = if kind == 1 { 22 } else { 28 };
                    [
                        (2, is_given_back(&head.user_id)),
                        (description, is_given_back(&head.description)),
                    ]
                }
                _ => continue,
            };
            let changed = texts.into_iter().filter(|&(_, given_back)| !given_back);
            findings.extend(changed.map(|(at, _)| [5, part, 0, start + at]));
        }
        findings.sort_by_key(|&[rule, _, _, at]| (at, rule));
        findings
    }
}

/// Whether the Rust gives a text field back as it was, when it reads it as a text, up to its first zero, and writes
/// that. It replaces what isn't UTF-8, so that letters stand in for all that isn't zero.
fn is_given_back(text: &[u8]) -> bool {
    let letter = |k: usize| text.get(k).map_or(0, |&byte| byte.min(1) * b'a');
    let (user_id, description) = (array::from_fn(letter), array::from_fn(letter));
    let read = las::Vlr::new(Vlr {
        user_id,
        description,
        ..Vlr::default()
    });
    let given = read.into_raw(false).expect("letters");
    match text.len() {
        16 => given.user_id == user_id,
        _ => given.description == description,
    }
}

/// Where the numbers of a point have its flags.
const FLAGS: usize = 4;

/// The first findings in a room.
fn telling(out: &[u64]) -> String {
    let (findings, _) = out.as_chunks::<4>();
    let told = findings.iter().filter(|finding| finding[0] != BEFORE);
    let told: Vec<String> = told.take(12).map(|four| format!("{four:?}")).collect();
    told.join(" ")
}

/// Where a whole file has what findings speak of, so that it can be made right and wrong.
struct Subject {
    whole: Whole,
    /// The text fields: where they begin and how long they are.
    texts: Vec<(usize, usize)>,
    /// The first byte of each point's flags.
    points: Vec<usize>,
}

impl Subject {
    fn new(whole: Whole) -> Subject {
        let heads = |of: &[(usize, usize)], description| -> Vec<(usize, usize)> {
            of.iter()
                .flat_map(|&(at, _)| [(at + 2, 16), (at + description, 32)])
                .collect()
        };
        let mut texts = vec![(26, 32), (58, 32)];
        texts.extend(heads(&whole.vlrs, 22));
        texts.extend(heads(&whole.later, 28));
        let mut found = Found::default();
        let check = found.check(&whole.bytes, u64::MAX);
        assert!(check.number == 0, "a whole file is refused: {check}");
        let points = (0..found.points()).map(|k| found.point_span(k)[0] as usize + 14);
        Subject {
            points: points.collect(),
            whole,
            texts,
        }
    }

    fn is_old(&self) -> bool {
        self.whole.bytes[104] < 6
    }

    fn is_1_4(&self) -> bool {
        self.whole.bytes[25] == 4
    }

    /// Makes a file in which nothing is wrong: texts that zeros fill, return numbers within the number of
    /// returns, and counters that count.
    fn sound(&self, random: &mut Lcg) -> Vec<u8> {
        let mut file = self.whole.bytes.clone();
        for &(at, length) in &self.texts {
            let text = &mut file[at..at + length];
            let end = match random.below(4) {
                0 => length as u64,
                1 => length as u64 - 1,
                2 => 0,
                _ => random.below(length as u64),
            };
            for (k, byte) in text.iter_mut().enumerate() {
                *byte = match (k as u64) < end {
                    true => 1 + (random.word() % 255) as u8,
                    false => 0,
                };
            }
        }
        for &at in &self.points {
            let of = 1 + random.below(if self.is_old() { 7 } else { 15 }) as u8;
            let own = 1 + random.below(of.into()) as u8;
            self.set_returns(&mut file, at, own, of);
        }
        let count = self.points.len() as u64;
        if self.is_1_4() {
            let legacy = match self.is_old() && random.one_in(2) {
                true => count,
                false => 0,
            };
            put(&mut file, 107, 4, legacy);
            put(&mut file, 247, 8, count);
            if !self.is_old() {
                file[111..131].fill(0);
            }
        }
        self.count(&mut file);
        file
    }

    fn set_returns(&self, file: &mut [u8], at: usize, own: u8, of: u8) {
        file[at] = match self.is_old() {
            true => file[at] & 0xc0 | (of & 7) << 3 | own & 7,
            false => (of & 15) << 4 | own & 15,
        };
    }

    /// Makes the counters count the records.
    fn count(&self, file: &mut [u8]) {
        let mut returns = [0; 16];
        for &at in &self.points {
            returns[usize::from(file[at] & if self.is_old() { 7 } else { 15 })] += 1;
        }
        match self.is_1_4() {
            true => (1..16).for_each(|own| put(file, 247 + 8 * own, 8, returns[own])),
            false => (1..6).for_each(|own| put(file, 107 + 4 * own, 4, returns[own])),
        }
    }

    /// Makes one thing wrong, or right in another way.
    fn spoil(&self, random: &mut Lcg, file: &mut [u8]) {
        match random.below(8) {
            // A text with something behind a zero, often in its last byte or right behind the zero.
            0 | 1 => {
                let (at, length) = self.texts[random.below(self.texts.len() as u64) as usize];
                let zero = random.below(length as u64 - 1) as usize;
                let later = match random.below(4) {
                    0 => length - 1,
                    1 => zero + 1,
                    _ => zero + 1 + random.below((length - 1 - zero) as u64) as usize,
                };
                file[at + zero] = 0;
                file[at + later] = [1, 0x20, 0x80, 0xff][random.below(4) as usize];
            }
            // A point with any returns, and often such as are just right or just wrong.
            2 | 3 if !self.points.is_empty() => {
                let at = self.points[random.below(self.points.len() as u64) as usize];
                let of = random.below(16) as u8;
                let own = match random.below(5) {
                    0 => 0,
                    1 => of,
                    2 => of.wrapping_add(1),
                    3 => of.wrapping_sub(1),
                    _ => random.byte(),
                };
                self.set_returns(file, at, own, of);
                if random.one_in(2) {
                    self.count(file);
                }
            }
            // A legacy counter; that of the points only where it says how many there are in no other way.
            4 | 5 => {
                let at = 107 + 4 * random.below(6) as usize;
                let value = near(random, get(file, at, 4)) & 0xffff_ffff;
                let counted = self.points.len() as u64;
                match (at, self.is_1_4()) {
                    (107, true) => {
                        put(file, 107, 4, [0, counted][random.below(2) as usize]);
                        if get(file, 107, 4) == 0 {
                            put(file, 247, 8, counted);
                        }
                    }
                    (107, false) => {}
                    _ => put(file, at, 4, value),
                }
            }
            // A large counter; that of the points only beside a legacy one.
            _ if self.is_1_4() => {
                let at = 247 + 8 * random.below(16) as usize;
                if at > 247 || get(file, 107, 4) != 0 {
                    put(file, at, 8, near(random, get(file, at, 8)));
                }
            }
            _ => {
                let at = 111 + 4 * random.below(5) as usize;
                put(file, at, 4, near(random, get(file, at, 4)));
            }
        }
    }
}

/// A number beside another, or like it in its lower half.
fn near(random: &mut Lcg, n: u64) -> u64 {
    match random.below(8) {
        0 => n.wrapping_sub(1),
        1 | 2 => n + 1,
        3 => 0,
        4 => n + (1 << 32),
        5 => n | 1 << 63,
        6 => n + (1 << 16),
        _ => random.long(),
    }
}

fn put(file: &mut [u8], at: usize, width: usize, value: u64) {
    file[at..][..width].copy_from_slice(&value.to_le_bytes()[..width]);
}

fn get(file: &[u8], at: usize, width: usize) -> u64 {
    let mut bytes = [0; 8];
    bytes[..width].copy_from_slice(&file[at..][..width]);
    u64::from_le_bytes(bytes)
}

/// A file of some kind, with padding, VLRs, gaps, extra bytes and records after the points, or none.
fn some_file(random: &mut Lcg) -> Subject {
    let kind = KINDS[random.below(KINDS.len() as u64) as usize];
    let few = |random: &mut Lcg| [0, 0, 0, 1, 2, 9][random.below(6) as usize];
    let lengths = |random: &mut Lcg, most| -> Vec<usize> {
        (0..random.below(most)).map(|_| few(random)).collect()
    };
    let plan = Plan {
        kind,
        padding: few(random),
        vlrs: lengths(random, 4),
        before_points: few(random),
        extra: few(random),
        points: [0, 1, 1, 2, 3, 5, 8][random.below(7) as usize],
        after_points: few(random),
        later: match kind.0 {
            3 => lengths(random, 2),
            4 => lengths(random, 4),
            _ => Vec::new(),
        },
        after: few(random),
    };
    let mut whole = Whole::default();
    whole.make_as(&plan, random);
    Subject::new(whole)
}

/// Files of every version with every format in which nothing is wrong, and copies of them in which one to five
/// things are.
fn sound<L: Library>(library: &L, lot: Lot) -> Outcome {
    over(library, lot.sound, |comparison, i| {
        let mut random = Lcg::new(i);
        let subject = some_file(&mut random);
        let file = subject.sound(&mut random);
        let shown = |what: &str| format!("{what} {i} ({})", subject.whole);
        let allowances = subject.whole.allowances();
        comparison.file(&file, allowances[3], i, &|| shown("sound file"));
        let mut copy = file.clone();
        for k in 0..lot.copies {
            copy.copy_from_slice(&file);
            for _ in 0..1 + random.below(5) {
                subject.spoil(&mut random, &mut copy);
            }
            let allowance = allowances[[3, 4, 5, 6][k as usize % 4]];
            comparison.file(&copy, allowance, random.long(), &|| {
                shown(&format!("copy {k} of file"))
            });
        }
    })
}

/// Files of bytes without pattern, in which nearly everything is wrong, with all allowances.
fn whole<L: Library>(library: &L, lot: Lot) -> Outcome {
    over(library, lot.whole, |comparison, i| {
        let mut random = Lcg::new(!i);
        let mut whole = Whole::default();
        whole.make(i, false);
        for allowance in whole.allowances() {
            comparison.file(&whole.bytes, allowance, random.long(), &|| {
                format!("file {i} ({whole})")
            });
        }
    })
}

/// Files in which what a u16 states is often at its end, or with hundreds of VLRs.
fn long<L: Library>(library: &L, lot: Lot) -> Outcome {
    over(library, lot.long, |comparison, i| {
        let mut random = Lcg::new(i);
        let mut whole = Whole::default();
        whole.make(i, true);
        let subject = Subject::new(whole);
        let file = subject.sound(&mut random);
        let shown = || format!("long file {i} ({})", subject.whole);
        let allowances = subject.whole.allowances();
        comparison.file(&subject.whole.bytes, allowances[3], i, &shown);
        comparison.file(&file, allowances[5], i, &shown);
        let mut copy = file.clone();
        for k in 0..6 {
            subject.spoil(&mut random, &mut copy);
            comparison.file(&copy, allowances[2 + k % 5], random.long(), &shown);
        }
    })
}

/// Every byte of every text field, behind a zero at every place before it, of a file of each version with every
/// part that there can be; and every first byte of flags, in every format.
fn bytes<L: Library>(library: &L, lot: Lot) -> Outcome {
    let plan = |minor: u8, format: u8| Plan {
        kind: (minor, format),
        padding: usize::from(minor),
        vlrs: vec![0, 3],
        before_points: 1,
        extra: 2,
        points: 2,
        after_points: 5,
        later: match minor {
            3 => vec![2],
            4 => vec![0, 1],
            _ => Vec::new(),
        },
        after: 4,
    };
    let of_texts = over(library, 5, |comparison, minor| {
        let mut random = Lcg::new(minor);
        let mut whole = Whole::default();
        whole.make_as(&plan(minor as u8, 1), &mut random);
        let subject = Subject::new(whole);
        let file = subject.sound(&mut random);
        let mut copy = file.clone();
        for (k, &(at, length)) in subject.texts.iter().enumerate() {
            // Where few are asked about, the last byte is among them.
            let pairs = (0..length * length).step_by(lot.step);
            for pair in pairs.chain([length * length - 1, length - 1]) {
                let (zero, later) = (pair / length, pair % length);
                copy[at..at + length].fill(b'a');
                copy[at + zero] = 0;
                if later > zero {
                    copy[at + zero..at + length].fill(0);
                    copy[at + later] = [1, 0x20, 0x80, 0xff][pair % 4];
                }
                comparison.file(&copy, 9, pair as u64, &|| {
                    format!("text {k} of 1.{minor}, zero at {zero}, byte at {later}")
                });
                copy.copy_from_slice(&file);
            }
        }
    });
    let of_flags = over(library, 11, |comparison, format| {
        for byte in 0..=255u8 {
            for minor in 0..5u8 {
                let mut random = Lcg::new(u64::from(byte) << 8 | u64::from(minor));
                if !KINDS.contains(&(minor, format as u8)) {
                    continue;
                }
                let mut whole = Whole::default();
                whole.make_as(&plan(minor, format as u8), &mut random);
                let subject = Subject::new(whole);
                let mut file = subject.sound(&mut random);
                file[subject.points[usize::from(byte & 1)]] = byte;
                for counted in [false, true] {
                    if counted {
                        subject.count(&mut file);
                    }
                    comparison.file(&file, 9, byte.into(), &|| {
                        format!("1.{minor}, format {format}, byte {byte:#04x}")
                    });
                }
            }
        }
    });
    of_texts.and(of_flags)
}

/// Counters beside the counts in 1.4, each legacy count of points with each large one, in every format: one of them
/// says how many there are, and at byte 107 there may be two findings. And every other counter at its ends.
fn counters<L: Library>(library: &L) -> Outcome {
    over(library, 11, |comparison, format| {
        let length = POINT_BYTES[format as usize] as u64;
        let mut file = vec![0; (375 + 3 * length) as usize];
        put_header(&mut file, [4, 375, 375, format, length, 0]);
        for (k, of) in [(0, 0x21), (1, 0x32), (2, 0x31)] {
            let [of, own] = [of >> 4, of & 15];
            let at = (375 + k * length + 14) as usize;
            file[at] = if format < 6 {
                of << 3 | own
            } else {
                of << 4 | own
            };
        }
        let counts = [
            0,
            1,
            2,
            3,
            4,
            1 << 16,
            1 << 32,
            (1 << 32) + 1,
            (1 << 32) + 3,
            1 << 63,
            u64::MAX,
        ];
        for legacy in counts {
            for large in counts {
                put(&mut file, 107, 4, legacy & 0xffff_ffff);
                put(&mut file, 247, 8, large);
                for right in [0, 1, 2] {
                    put(&mut file, 255, 8, right);
                    let shown = || format!("format {format}, legacy {legacy}, large {large}");
                    comparison.file(&file, 0, legacy ^ large ^ right, &shown);
                }
            }
        }
        put(&mut file, 107, 4, 0);
        put(&mut file, 247, 8, 3);
        let sound = file.clone();
        let legacy = (0..5).map(|i| (111 + 4 * i, 4));
        for (at, width) in legacy.chain((0..15).map(|i| (255 + 8 * i, 8))) {
            for value in counts {
                put(&mut file, at, width, value);
                comparison.file(&file, 0, value, &|| {
                    format!("format {format}, {value} at {at}")
                });
                file.copy_from_slice(&sound);
            }
        }
    })
}

/// Files of every version and format, damaged: each number that the file check looks at at its boundaries, and bytes
/// changed at random.
fn damaged<L: Library>(library: &L, lot: Lot) -> Outcome {
    over(library, lot.damaged, |comparison, i| {
        let mut random = Lcg::new(!i);
        let mut whole = Whole::default();
        whole.make(i, false);
        let mut patches = Vec::new();
        whole.boundaries(&mut patches);
        let subject = Subject::new(whole);
        let whole = &subject.whole;
        let sound = match random.one_in(2) {
            true => subject.sound(&mut random),
            false => whole.bytes.clone(),
        };
        let mut file = sound.clone();
        for k in 0..patches.len() as u64 + lot.random {
            let damage: Vec<Patch> = match patches.get(k as usize) {
                Some(&patch) => vec![patch],
                None => (0..random.below(4))
                    .map(|_| Patch::byte(whole.any_place(&mut random), random.byte()))
                    .collect(),
            };
            damage.iter().for_each(|patch| patch.apply(&mut file));
            let end = match random.one_in(8) {
                true => random.below(file.len() as u64 + 1) as usize,
                false => file.len(),
            };
            let allowance = whole.allowances()[random.below(7) as usize];
            comparison.file(&file[..end], allowance, random.long(), &|| {
                let shown: Vec<String> = damage.iter().map(Patch::to_string).collect();
                format!("file {i} ({whole}), {}", shown.join(", "))
            });
            damage
                .iter()
                .for_each(|patch| patch.undo(&mut file, &sound));
        }
    })
}

/// What `part` comes to over the numbers below `size`.
fn over<L: Library>(
    library: &L,
    size: u64,
    part: impl Fn(&mut Comparison<L>, u64) + Sync,
) -> Outcome {
    let outcomes = stretches(size, |stretch| {
        let mut comparison = Comparison::new(library);
        stretch.for_each(|i| part(&mut comparison, i));
        comparison.outcome
    });
    outcomes.into_iter().fold(Outcome::new(CALLS), Outcome::and)
}

/// A file of more than 4 GB with records of 65,535 bytes, in memory that nobody has touched: zeros, whose every point
/// is a finding, but for some on both sides of 2^32; and behind them EVLRs, the text of one wrong.
fn gigabytes<L: Library>(library: &L) -> Report {
    const TWO_32: u64 = 1 << 32;
    const LENGTH: u64 = 65_535;
    const COUNT: u64 = TWO_32 / LENGTH + 9;
    const END: u64 = 375 + 7 + COUNT * LENGTH;
    let mut report = Report::new("findings in files of 4 GB");
    let mut found = Found::default();
    let mut parts = Vec::new();
    let mut file = Sparse::new((END + 3 + 120 + 5) as usize);
    for format in [0, 5, 6, 10] {
        put_header(&mut file, [4, 375, 382, format, LENGTH, COUNT]);
        put(&mut file, 235, 8, END + 3);
        put(&mut file, 243, 4, 2);
        let middle = TWO_32 / LENGTH;
        for k in [0, middle - 1, middle, middle + 1, COUNT - 2] {
            file[(382 + k * LENGTH + 14) as usize] = 0b0001_1001;
        }
        file[(END + 3 + 60 + 59) as usize] = 1;
        let numbers = 4 * (COUNT as usize + 9);
        let [mut rules, mut by_port] = [(); 2].map(|()| vec![BEFORE; numbers]);
        let (answer, findings) =
            findings_model::answer(&mut found, &file, 2, &mut parts, &mut rules);
        let port = capi::row(|row| library.findings(&file, 2, &mut by_port, row));
        let last = findings.last() == Some(&[5, 6, 0, END + 3 + 60 + 28]);
        report.check(answer == port && rules == by_port && last, || {
            format!(
                "format {format}: {answer}, port {port}, last {:?}",
                findings.last()
            )
        });
        let room = 4 * findings.len() - 1;
        by_port.fill(BEFORE);
        let port = capi::row(|row| library.findings(&file, 2, &mut by_port[..room], row));
        let left = by_port.iter().all(|&number| number == BEFORE);
        let refused = Answer::refusal(22, findings.len() as u64);
        report.check(port == refused && left, || {
            format!("format {format}: {refused}, port {port}, left {left}")
        });
    }
    report
}

/// Files with rows and findings that follow from document 02's text, worked by hand: both the rules and a library must
/// answer what stands here.
fn compare_described(library: &impl Library) -> Report {
    let mut report = Report::new("findings described");
    let none = [2, 227, 227, 0, 20, 0];
    let one = [2, 227, 227, 0, 20, 1];
    let new = [4, 375, 375, 6, 30, 1];
    // A first return of one, and the counter that says so.
    const OLD: &[(usize, u8)] = &[(111, 1), (241, 9)];
    const NEW: &[(usize, u8)] = &[(255, 1), (389, 0x11)];
    type Described<'a> = (
        usize,
        [u64; 6],
        [&'a [(usize, u8)]; 2],
        usize,
        Row,
        &'a [Finding],
    );
    let described: [Described; 44] = [
        // nothing is wrong
        (227, none, [&[], &[]], 0, [0, 0, 0], &[]),
        (247, one, [OLD, &[]], 4, [0, 0, 0], &[]),
        (405, new, [NEW, &[]], 4, [0, 0, 0], &[]),
        // "a return number of zero or above the number of returns", at its record
        (247, one, [&[], &[]], 4, [0, 1, 0], &[[4, 2, 1, 227]]),
        (
            247,
            one,
            [&[(112, 1)], &[]],
            8,
            [0, 2, 0],
            &[[3, 1, 0, 111], [4, 2, 1, 227]],
        ),
        (247, one, [&[(115, 1), (241, 0x12)], &[]], 4, [0, 0, 0], &[]),
        (
            247,
            one,
            [&[(115, 1), (241, 0x0a)], &[]],
            4,
            [0, 1, 0],
            &[[4, 2, 1, 227]],
        ),
        (247, one, [&[(115, 1), (241, 0xda)], &[]], 4, [0, 0, 0], &[]),
        (405, new, [&[(367, 1), (389, 0xff)], &[]], 4, [0, 0, 0], &[]),
        (
            405,
            new,
            [&[(367, 1), (389, 0xef)], &[]],
            4,
            [0, 1, 0],
            &[[4, 2, 1, 375]],
        ),
        // "counts by return unlike the records": of returns 1 to 5 alone in 1.0 to 1.3
        (247, one, [&[(241, 0x3f)], &[]], 4, [0, 0, 0], &[]),
        (247, one, [&[(241, 0x36)], &[]], 4, [0, 0, 0], &[]),
        (
            247,
            one,
            [&[(127, 1), (241, 0x36)], &[]],
            4,
            [0, 1, 0],
            &[[3, 1, 0, 127]],
        ),
        (
            227,
            none,
            [&[(111, 1), (130, 1)], &[]],
            8,
            [0, 2, 0],
            &[[3, 1, 0, 111], [3, 1, 0, 127]],
        ),
        // "in 1.4 the 15 large counters are compared", and no others
        (
            405,
            new,
            [&[(389, 0x11)], &[]],
            4,
            [0, 1, 0],
            &[[3, 1, 0, 255]],
        ),
        (
            405,
            new,
            [NEW, &[(374, 1)]],
            4,
            [0, 1, 0],
            &[[3, 1, 0, 367]],
        ),
        (
            395,
            [4, 375, 375, 0, 20, 1],
            [&[(255, 1), (389, 9)], &[(111, 7), (127, 1)]],
            0,
            [0, 0, 0],
            &[],
        ),
        // "nonzero legacy counts in formats 6 to 10"
        (
            405,
            new,
            [NEW, &[(107, 1)]],
            4,
            [0, 1, 0],
            &[[1, 1, 0, 107]],
        ),
        (
            405,
            new,
            [NEW, &[(111, 1), (130, 9)]],
            8,
            [0, 2, 0],
            &[[1, 1, 0, 111], [1, 1, 0, 127]],
        ),
        // "legacy count not zero and unlike the large one": "at the same place [...] the order of this list"
        (
            405,
            new,
            [NEW, &[(107, 1), (247, 2)]],
            8,
            [0, 2, 0],
            &[[1, 1, 0, 107], [2, 1, 0, 107]],
        ),
        (
            395,
            [4, 375, 375, 0, 20, 1],
            [&[(255, 1), (389, 9)], &[(107, 1)]],
            0,
            [0, 0, 0],
            &[],
        ),
        (
            395,
            [4, 375, 375, 0, 20, 1],
            [&[(255, 1), (389, 9)], &[(107, 1), (251, 1)]],
            4,
            [0, 1, 0],
            &[[2, 1, 0, 107]],
        ),
        // "text fields with bytes after their first zero that aren't zero"
        (227, none, [&[(57, 1)], &[]], 4, [0, 1, 0], &[[5, 1, 0, 26]]),
        (227, none, [&[(27, 1)], &[]], 4, [0, 1, 0], &[[5, 1, 0, 26]]),
        (227, none, [&[(26, 1)], &[]], 4, [0, 0, 0], &[]),
        (227, none, [&[(26, 1), (27, 1)], &[]], 4, [0, 0, 0], &[]),
        (
            227,
            none,
            [&[(89, 32)], &[(58, 1)]],
            4,
            [0, 1, 0],
            &[[5, 1, 0, 58]],
        ),
        (
            227,
            none,
            [&[(90, 1), (25, 2), (91, 1)], &[]],
            4,
            [0, 0, 0],
            &[],
        ),
        // of VLRs: those of the second, behind which is a gap before the points
        (
            340,
            [2, 227, 336, 0, 20, 0],
            [&[(100, 2)], &[(298, 1)]],
            4,
            [0, 1, 0],
            &[[5, 3, 0, 283]],
        ),
        (
            340,
            [2, 227, 336, 0, 20, 0],
            [&[(100, 2)], &[(304, 1), (334, 1), (249, 7), (280, 7)]],
            8,
            [0, 2, 0],
            &[[5, 2, 0, 249], [5, 3, 0, 303]],
        ),
        // parts from 1, gaps counted: of the points, behind a VLR and a gap
        (
            310,
            [2, 227, 290, 0, 20, 1],
            [&[(100, 1)], &[]],
            4,
            [0, 1, 0],
            &[[4, 4, 1, 290]],
        ),
        (
            301,
            [2, 227, 281, 0, 20, 1],
            [&[(100, 1)], &[]],
            4,
            [0, 1, 0],
            &[[4, 3, 1, 281]],
        ),
        // of EVLRs, whose description is at 28
        (
            435,
            [4, 375, 375, 6, 30, 0],
            [
                &[(235, 119), (236, 1), (243, 1)],
                &[(392, 1), (404, 1), (434, 1)],
            ],
            8,
            [0, 2, 0],
            &[[5, 3, 0, 377], [5, 3, 0, 403]],
        ),
        (
            438,
            [4, 375, 375, 6, 30, 0],
            [&[(235, 120), (236, 1), (243, 1)], &[(437, 1), (435, 1)]],
            4,
            [0, 1, 0],
            &[[5, 4, 0, 404]],
        ),
        // of waveform packets
        (
            297,
            [3, 235, 235, 4, 57, 0],
            [&[(6, 2), (227, 237)], &[(254, 1)]],
            4,
            [0, 1, 0],
            &[[5, 4, 0, 239]],
        ),
        (
            297,
            [3, 235, 235, 4, 57, 0],
            [&[(6, 2), (227, 237)], &[(296, 1)]],
            4,
            [0, 1, 0],
            &[[5, 4, 0, 265]],
        ),
        // a counter that is unlike and a text, in file order
        (
            247,
            one,
            [&[(57, 1), (89, 1)], &[(111, 1)]],
            16,
            [0, 4, 0],
            &[[5, 1, 0, 26], [5, 1, 0, 58], [3, 1, 0, 111], [4, 2, 1, 227]],
        ),
        // points from 1
        (
            287,
            [2, 227, 227, 0, 20, 3],
            [&[(111, 2)], &[(241, 9), (281, 9)]],
            4,
            [0, 1, 0],
            &[[4, 2, 2, 247]],
        ),
        // "no room for the findings, giving how many there are"
        (247, one, [&[], &[]], 0, [22, 1, 0], &[]),
        (247, one, [&[], &[]], 3, [22, 1, 0], &[]),
        (247, one, [&[(111, 1)], &[]], 7, [22, 2, 0], &[]),
        // "in order: the file's own"
        (246, one, [&[], &[]], 0, [12, 1, 0], &[]),
        (0, one, [&[], &[]], 9, [1, 4, 0], &[]),
        (247, one, [&[(100, 1)], &[]], 0, [11, 0, 1], &[]),
    ];
    for (size, numbers, besides, room, stated, findings) in described {
        let file = plain(size, numbers, &besides.concat());
        let [number, value, record] = stated;
        let stated = Answer {
            number,
            value,
            record,
        };
        let [mut expected, mut by_rules, mut by_port] = [(); 3].map(|()| vec![BEFORE; room]);
        expected[..4 * findings.len()].copy_from_slice(findings.as_flattened());
        let mut found = Found::default();
        let (rules, _) =
            findings_model::answer(&mut found, &file, 9, &mut Vec::new(), &mut by_rules);
        let port = capi::row(|row| library.findings(&file, 9, &mut by_port, row));
        let same = [rules, port] == [stated; 2] && [&by_rules, &by_port] == [&expected; 2];
        report.check(same, || {
            let told = [&by_rules, &by_port].map(|out| telling(out));
            format!(
                "{size} bytes, {numbers:?}, {besides:?}: {stated} {findings:?}, rules {rules} {}, \
                 port {port} {}",
                told[0], told[1]
            )
        });
    }
    report
}

/// The comparison itself is tested: a stand-in that follows the rules agrees with them, and one with an error put in
/// doesn't, whichever error it is.
pub fn compare_stand_ins() -> Report {
    let mut report = Report::new("findings with an error, told apart");
    let agrees = |error| {
        let library = &StandIn { error };
        sound(library, FEW).agrees()
            && whole(library, FEW).agrees()
            && bytes(library, FEW).agrees()
            && counters(library).agrees()
            && damaged(library, FEW).agrees()
            && long(library, FEW).agrees()
    };
    report.check(agrees(None), || "the one without an error differs".into());
    for &error in ERRORS {
        report.check(!agrees(Some(error)), || format!("{error:?} isn't seen"));
    }
    report
}

/// Compares a library and prints what came of it: the call, and how often each number was answered.
pub fn compare_library(tally: &mut Tally, library: &impl Library) {
    tally.add(compare_described(library));
    let outcome = sound(library, FULL)
        .and(whole(library, FULL))
        .and(long(library, FULL))
        .and(bytes(library, FULL))
        .and(counters(library))
        .and(damaged(library, FULL));
    let [told, order, rust] = outcome.reports;
    tally.add(told);
    tally.aside(order);
    tally.aside(rust);
    tally.add(gigabytes(library));
    let counts = outcome.counted.counts;
    let mut report =
        outcome
            .counted
            .tell("finding answers, each many times", COUNTED, &NUMBERS, OFTEN);
    for (name, count) in COUNTED.iter().zip(counts) {
        report.check(count >= OFTEN, || format!("only {count} {name}"));
    }
    tally.add(report);
}

pub fn compare(tally: &mut Tally) {
    tally.add(compare_stand_ins());
    compare_library(tally, &Port);
}
