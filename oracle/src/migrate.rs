//! Whole files, from 1.2 to 1.4 and back: by the port and by document 02's rules as `migrate_model` has them;
//! and what came of them, read by the Rust.

use crate::{
    angle,
    answer::Answer,
    capi::{self, Row},
    convert::{self, fit, offend},
    convert_model::RANKS,
    file_model::{Found, HEADER, POINT_BYTES, POINTS, Part},
    files::{Patch, Whole},
    flags, header,
    migrate_model::{self, Way},
    migrate_wrong::{ERRORS, StandIn},
    point,
    records::{self, Lcg},
    report::{self, Report, Tally, stretches},
    sparse::Sparse,
};
use Way::*;
use las::{
    Version,
    point::Format,
    raw::{Header, Point, header::LargeFile},
};

/// The calls on whole files. The port has them, and so have the stand-ins that test the comparison itself.
pub trait Library: Sync {
    fn ask(&self, way: Way, file: &[u8], allowance: u64, row: &mut Row);
    fn convert(&self, way: Way, file: &[u8], allowance: u64, dst: &mut [u8], row: &mut Row);
}

struct Port;

impl Library for Port {
    fn ask(&self, way: Way, file: &[u8], allowance: u64, row: &mut Row) {
        match way {
            Up => capi::las_file_ask_new(file, allowance, row),
            Down => capi::las_file_ask_old(file, allowance, row),
        }
    }

    fn convert(&self, way: Way, file: &[u8], allowance: u64, dst: &mut [u8], row: &mut Row) {
        match way {
            Up => capi::las_file_to_new(file, allowance, dst, row),
            Down => capi::las_file_to_old(file, allowance, dst, row),
        }
    }
}

/// What lent memory holds before a call, so that what is written where nothing may be shows.
const BEFORE: u64 = 0xa5a5_a5a5_a5a5_a5a5;
const BEFORE_BYTE: u8 = 0xa5;

/// What is looked at past a destination, and what one may have too much.
const SPARE: usize = 9;

/// How many files are made.
#[derive(Clone, Copy)]
struct Lot {
    /// Files that go up or down, each so often, whole and with what decides changed.
    scenes: u64,
    times: u64,
    /// Files whose header size, record length or VLRs are as long as their fields allow, each so often.
    long: u64,
    /// Files of every version, each with every number at its boundaries and with bytes changed at random.
    whole: u64,
    random: u64,
}

const FULL: Lot = Lot {
    scenes: 140_000,
    times: 40,
    long: 2_000,
    whole: 8_000,
    random: 100,
};

/// Few enough for each stand-in to take a blink.
const FEW: Lot = Lot {
    scenes: 800,
    long: 60,
    whole: 100,
    ..FULL
};

/// Every number that the calls can answer with: formats 6 and 7 have no near infrared.
const NUMBERS: [usize; 26] = [
    0, 1, 2, 3, 4, 5, 6, 7, 8, 9, 10, 11, 12, 13, 14, 15, 16, 17, 18, 19, 21, 22, 32, 33, 34, 35,
];

/// How often each must have been answered, or else the run has not tested it.
const OFTEN: u64 = 2_000;

/// What is counted.
const COUNTED: [&str; 10] = [
    "files",
    "files of version 1.2 with format 1 or 3",
    "files of version 1.4 with format 6 or 7",
    "files gone up",
    "files gone down",
    "points of these",
    "files up and down again, byte for byte",
    "files up that class 28 or a rank keeps from coming down",
    "files down, and up and down again, byte for byte",
    "header sizes that do not fit their field",
];
const FILES: usize = 0;
const OLD_FILES: usize = 1;
const NEW_FILES: usize = 2;
const GONE: usize = 3;
const GONE_POINTS: usize = 5;
const DOWN_AGAIN: usize = 6;
const KEPT_UP: usize = 7;
const UP_AND_DOWN: usize = 8;
const WIDE_HEADERS: usize = 9;

/// What comparing the calls came to.
type Outcome = report::Outcome<8, 10>;

/// The calls, and the places of their reports: of the first two pairs, by the way.
const CALLS: [&str; 8] = [
    "las_file_to_new",
    "las_file_to_old",
    "las_file_ask_new",
    "las_file_ask_old",
    "whole files asked and gone alike",
    "whole files accepted as they were",
    "whole files read by the Rust",
    "whole files there and back",
];
const ASK: usize = 2;
const ALIKE: usize = 4;
const ACCEPTED: usize = 5;
const READ: usize = 6;
const BACK: usize = 7;

/// Compares a library with the rules on one file after another. Everything is used again.
struct Comparison<'a, L> {
    port: &'a L,
    outcome: Outcome,
    found: Found,
    random: Lcg,
    /// What the library is shown and has to leave; what it should write and what it writes, which hold
    /// `BEFORE_BYTE` between calls; and the file that it wrote.
    shown: Vec<u8>,
    rules: Vec<u8>,
    by_port: Vec<u8>,
    gone: Vec<u8>,
    parts: Vec<Part>,
    table: Vec<u64>,
}

impl<'a, L: Library> Comparison<'a, L> {
    fn new(port: &'a L) -> Comparison<'a, L> {
        Comparison {
            port,
            outcome: Outcome::new(CALLS),
            found: Found::default(),
            random: Lcg::new(0),
            shown: Vec::new(),
            rules: Vec::new(),
            by_port: Vec::new(),
            gone: Vec::new(),
            parts: Vec::new(),
            table: Vec::new(),
        }
    }

    /// Compares all calls on one file.
    fn file(&mut self, file: &[u8], allowance: u64, shown: &dyn Fn() -> String) {
        let counts = &mut self.outcome.counted.counts;
        counts[FILES] += 1;
        match (file.get(24..26), file.get(104)) {
            (Some([1, 2]), Some(1 | 3)) => counts[OLD_FILES] += 1,
            (Some([1, 4]), Some(6 | 7)) => counts[NEW_FILES] += 1,
            _ => {}
        }
        for way in [Up, Down] {
            self.one_way(way, file, allowance, &|| {
                let size = file.len();
                format!("{}, {size} bytes, allowance {allowance}", shown())
            });
        }
    }

    /// Compares the question and the call of one way: the rows, and the whole destination, which may be too
    /// short, enough, or more.
    fn one_way(&mut self, way: Way, file: &[u8], allowance: u64, told: &dyn Fn() -> String) {
        let asks = migrate_model::ask(&mut self.found, file, allowance, way);
        let wanted = match asks.number {
            0 => asks.value as usize,
            _ => file.len(),
        };
        let room = match self.random.below(10) {
            0 => wanted.saturating_sub(1),
            1 => self.random.below(wanted as u64 + 1) as usize,
            2 => file.len(),
            3 => wanted + SPARE,
            _ => wanted,
        };
        let end = room + SPARE;
        if self.rules.len() < end {
            self.rules.resize(end, BEFORE_BYTE);
            self.by_port.resize(end, BEFORE_BYTE);
        }
        self.shown.clear();
        self.shown.extend_from_slice(file);
        let dst = &mut self.rules[..room];
        let rules = migrate_model::convert(&mut self.found, file, allowance, way, dst);
        let (lent, dst) = (&self.shown[..], &mut self.by_port[..room]);
        let asked = capi::row(|row| self.port.ask(way, lent, allowance, row));
        let port = capi::row(|row| self.port.convert(way, lent, allowance, dst, row));
        let kept = self.shown == file;
        let same = rules == port && self.rules[..end] == self.by_port[..end] && kept;
        let (expected, found) = (&self.rules, &self.by_port);
        self.outcome.reports[way as usize].check(same, || {
            let at = expected.iter().zip(found).position(|(a, b)| a != b);
            format!(
                "{}, room {room}: {rules}, port {port}, first differing byte {at:?}, file kept {kept}",
                told()
            )
        });
        self.outcome.reports[ASK + way as usize].check(asks == asked && kept, || {
            format!("{}: {asks}, port {asked}", told())
        });
        // "All callers, No. 3's among them, use the two": the question and the call that asks it itself.
        let alike = match (asked.number, port.number) {
            (0, 22) => port == Answer::refusal(22, asked.value) && (room as u64) < asked.value,
            (0, _) => port == asked && asked.value <= room as u64,
            (number, _) => port == asked && number != 22,
        };
        self.outcome.reports[ALIKE].check(alike, || {
            format!("{}, room {room}: asked {asked}, gone {port}", told())
        });
        let counted = &mut self.outcome.counted;
        counted.answered(rules.number);
        if rules.number == 4 && self.found.check(file, allowance).number == 0 {
            counted.counts[WIDE_HEADERS] += 1;
        }
        let filled = match rules.number {
            0 => rules.value as usize,
            _ => 0,
        };
        if rules.number == 0 && same {
            self.gone.clear();
            self.gone.extend_from_slice(&self.by_port[..filled]);
            self.outcome.counted.counts[GONE + way as usize] += 1;
            self.look(way, file, allowance, told);
        }
        self.rules[..filled].fill(BEFORE_BYTE);
        self.by_port[..if same { filled } else { end }].fill(BEFORE_BYTE);
    }

    /// What is to be seen of a file that went: it is accepted with the same records, the Rust reads the same of
    /// it, and it comes back.
    fn look(&mut self, way: Way, file: &[u8], allowance: u64, told: &dyn Fn() -> String) {
        let answer = self.found.check(file, allowance);
        let (row, count) = (self.found.row(answer), self.found.points());
        self.outcome.counted.counts[GONE_POINTS] += count;

        // The parts are those of the file, but for what the header and the points grew or shrank by.
        self.found.parts(file, &mut self.parts);
        let mut at = 0;
        for part in &mut self.parts {
            let by = match part[0] {
                HEADER => 148,
                POINTS => 2 * count,
                _ => 0,
            };
            part[1] = at;
            part[2] = match way {
                Up => part[2] + by,
                Down => part[2] - by,
            };
            at += part[2];
        }
        let wanted = 3 * self.parts.len();
        self.table.clear();
        self.table.resize(wanted, BEFORE);
        let mut check = [u64::MAX; 4];
        capi::las_file_check(&self.gone, allowance, &mut check);
        let listed =
            capi::row(|row| capi::las_file_parts(&self.gone, allowance, &mut self.table, row));
        let same = check == row
            && listed == Answer::result(self.parts.len() as u64)
            && self.table == self.parts.as_flattened();
        self.outcome.reports[ACCEPTED].check(same, || {
            let (parts, table) = (&self.parts, &self.table);
            format!(
                "{}: {row:?} {parts:?}, port {check:?} {listed} {table:?}",
                told()
            )
        });

        let difference = read_otherwise(way, file, &self.gone);
        self.outcome.reports[READ].check(difference.is_none(), || {
            format!("{}: {}", told(), difference.unwrap_or_default())
        });
        match way {
            Up => self.down_again(file, allowance, told),
            Down => self.up_and_down_again(allowance, told),
        }
    }

    /// What the library makes of bytes, `room` of it lent.
    fn library(&self, way: Way, file: &[u8], allowance: u64, room: usize) -> (Answer, Vec<u8>) {
        let mut dst = vec![BEFORE_BYTE; room];
        let answer = capi::row(|row| self.port.convert(way, file, allowance, &mut dst, row));
        (answer, dst)
    }

    /// "A 1.2 file whose way up none of the refusals below stops, with no class 28 and ranks within ±90, comes
    /// back byte for byte." Another is kept from it by the first record that has such a class or rank.
    fn down_again(&mut self, file: &[u8], allowance: u64, told: &dyn Fn() -> String) {
        let (answer, back) = self.library(Down, &self.gone, allowance, file.len());
        let stops = stopped(file);
        let same = match stops {
            None => answer == Answer::result(file.len() as u64) && back == file,
            Some(refusal) => answer == refusal && back.iter().all(|&byte| byte == BEFORE_BYTE),
        };
        let counted = match stops {
            None => DOWN_AGAIN,
            Some(_) => KEPT_UP,
        };
        self.outcome.counted.counts[counted] += 1;
        self.outcome.reports[BACK].check(same, || {
            let at = back.iter().zip(file).position(|(a, b)| a != b);
            format!(
                "{}: up, and down {answer}, first differing byte {at:?}",
                told()
            )
        });
    }

    /// What came down is such a 1.2 file.
    fn up_and_down_again(&mut self, allowance: u64, told: &dyn Fn() -> String) {
        let old = &self.gone[..];
        let count = self.found.points() as usize;
        let room = old.len() + 148 + 2 * count;
        let (up, new) = self.library(Up, old, allowance, room);
        let (down, back) = self.library(Down, &new, allowance, old.len());
        let wanted = [room, old.len()].map(|bytes| Answer::result(bytes as u64));
        let same = [up, down] == wanted && back == old;
        self.outcome.counted.counts[UP_AND_DOWN] += 1;
        self.outcome.reports[BACK].check(same, || {
            let at = back.iter().zip(old).position(|(a, b)| a != b);
            format!(
                "{}: down, up {up} and down {down}, first differing byte {at:?}",
                told()
            )
        });
    }
}

/// The little-endian number of `width` bytes at `at`.
fn number(file: &[u8], at: usize, width: usize) -> u64 {
    let bytes = &file[at..][..width];
    bytes.iter().rev().fold(0, |n, &b| n << 8 | u64::from(b))
}

/// The records of the points of an accepted 1.2 file.
fn old_records(file: &[u8]) -> impl Iterator<Item = &[u8]> {
    let [offset, length, count] =
        [(96, 4), (105, 2), (107, 4)].map(|(at, width)| number(file, at, width) as usize);
    file[offset..][..count * length].chunks(length)
}

/// What stops a 1.2 file that went up on its way down: its first record of class 28, or with a rank that is
/// not within ±90, which 21 tells as the 16 bits of its scaled angle.
fn stopped(file: &[u8]) -> Option<Answer> {
    (1..).zip(old_records(file)).find_map(|(record, bytes)| {
        let (class, rank) = (bytes[15] & 31, i32::from(bytes[16] as i8));
        let (number, value) = match class {
            28 => (19, 28),
            _ if !RANKS.contains(&rank) => (21, ((500 * rank / 3) as u16).into()),
            _ => return None,
        };
        Some(Answer {
            number,
            value,
            record,
        })
    })
}

/// What the Rust reads otherwise of a file that went than the documents say, if anything: of the header the
/// sizes, format and counts change and all else is kept; of every point the fields are the same, but that the
/// angle is the other kind's, and that the Rust reads overlap of class 28 from old flags alone.
fn read_otherwise(way: Way, file: &[u8], gone: &[u8]) -> Option<String> {
    let read = |bytes| Header::read_from(bytes).expect("a header that rule 1 accepts");
    let (from, to) = (read(file), read(gone));
    let large = from.large_file.unwrap_or_default();
    let legacy = from.number_of_point_records != 0;
    let expected = match way {
        Up => {
            let counts = from.number_of_points_by_return.map(u64::from);
            let mut by_return = [0; 15];
            by_return[..5].copy_from_slice(&counts);
            Header {
                version: Version::new(1, 4),
                header_size: from.header_size + 148,
                offset_to_point_data: from.offset_to_point_data + 148,
                point_data_record_format: match from.point_data_record_format {
                    1 => 6,
                    _ => 7,
                },
                point_data_record_length: from.point_data_record_length + 2,
                number_of_point_records: 0,
                number_of_points_by_return: [0; 5],
                large_file: Some(LargeFile {
                    number_of_point_records: from.number_of_point_records.into(),
                    number_of_points_by_return: by_return,
                }),
                ..from.clone()
            }
        }
        Down => Header {
            version: Version::new(1, 2),
            header_size: from.header_size - 148,
            offset_to_point_data: from.offset_to_point_data - 148,
            point_data_record_format: match from.point_data_record_format {
                6 => 1,
                _ => 3,
            },
            point_data_record_length: from.point_data_record_length - 2,
            number_of_point_records: match legacy {
                true => from.number_of_point_records,
                false => large.number_of_point_records as u32,
            },
            number_of_points_by_return: [0, 1, 2, 3, 4].map(|k| match legacy {
                true => from.number_of_points_by_return[k],
                false => large.number_of_points_by_return[k] as u32,
            }),
            large_file: None,
            ..from.clone()
        },
    };
    let same = header::numbers(&expected) == header::numbers(&to)
        && expected.file_signature == to.file_signature
        && expected.padding == to.padding;
    if !same {
        return Some(format!("header {expected:?}, the Rust reads {to:?}"));
    }

    let format = |header: &Header| {
        let format = Format::new(header.point_data_record_format).expect("one of four");
        let extra_bytes = header.point_data_record_length - format.len();
        Format {
            extra_bytes,
            ..format
        }
    };
    let formats = [&from, &to].map(format);
    let records = [(file, &from), (gone, &to)].map(|(bytes, header)| {
        let length = usize::from(header.point_data_record_length);
        let points = &bytes[header.offset_to_point_data as usize..];
        points.chunks_exact(length)
    });
    let count = match way {
        Up => from.number_of_point_records,
        Down => to.number_of_point_records,
    };
    let [before, after] = records;
    before
        .zip(after)
        .take(count as usize)
        .zip(1..)
        .find_map(|((before, after), k)| {
            let read = |bytes, format| Point::read_from(bytes, format).expect("a whole record");
            let (from, to) = (read(before, &formats[0]), read(after, &formats[1]));
            (!same_to_a_reader(way, &from, &to))
                .then(|| format!("point {k}: the Rust reads {from:?} and {to:?}"))
        })
}

/// Whether a point that went has the fields that it had.
fn same_to_a_reader(way: Way, from: &Point, to: &Point) -> bool {
    let (flags, kept) = (flags::word(from.flags), flags::word(to.flags));
    let alike = [
        &flags::RETURN_NUMBER,
        &flags::NUMBER_OF_RETURNS,
        &flags::SCAN_DIRECTION,
        &flags::IS_EDGE_OF_FLIGHT_LINE,
        &flags::IS_SYNTHETIC,
        &flags::IS_KEY_POINT,
        &flags::IS_WITHHELD,
        &flags::CLASS,
        &flags::SCANNER_CHANNEL,
    ]
    .iter()
    .all(|reading| (reading.rust)(flags, 0) == (reading.rust)(kept, 0));
    let class = (flags::CLASS.rust)(flags, 0).value;
    let overlap = match way {
        Up => to.flags.is_overlap() == (class == 12),
        Down => to.flags.is_overlap() == from.flags.is_overlap(),
    };
    let angle = match way {
        Up => angle::scaled(i16::from(from.scan_angle)),
        Down => angle::rank(i8::from(from.scan_angle)),
    };
    // The flags and the angle stand in the fifth and the sixth of the numbers.
    let mut expected = point::numbers(from);
    (expected[4], expected[5]) = (kept.into(), angle.into());
    alike && overlap && expected == point::numbers(to) && from.extra_bytes == to.extra_bytes
}

/// A file that goes up or down, unless something in it was changed, and where its parts are.
struct Scene {
    file: Vec<u8>,
    way: Way,
    format: u8,
    header_size: u64,
    vlrs: u64,
    vlr_end: u64,
    offset: u64,
    length: u64,
    count: u64,
    end: u64,
}

fn pick(random: &mut Lcg, list: &[u64]) -> u64 {
    list[random.below(list.len() as u64) as usize]
}

/// Numbers that counts are tried at: both ends of 32 bits, and what the low bits do not show.
const WIDE: [u64; 8] = [
    0xffff_ffff,
    1 << 32,
    (1 << 32) + 1,
    1 << 33,
    1 << 63,
    u64::MAX,
    0xffff_ffff << 32,
    0xffff_fffe,
];

impl Scene {
    /// Makes the `i`-th. Neighbours go other ways, or have other formats. There is padding, or VLRs, or a gap
    /// before the points and behind them, or nothing of that; extra bytes; half an EVLR pair; counts of every
    /// kind. In a long one the header size, the record length and the VLRs are at the ends of their fields.
    fn new(i: u64, long: bool) -> Scene {
        let mut random = Lcg::new(i | u64::from(long) << 62);
        let (way, format, standard) = match i % 4 {
            0 => (Up, 1, 227),
            1 => (Down, 6, 375),
            2 => (Up, 3, 227),
            _ => (Down, 7, 375),
        };
        let bare = POINT_BYTES[usize::from(format)] as u64;
        let some = |random: &mut Lcg, few: u64, edges: &[u64]| match long && random.one_in(2) {
            true => pick(random, edges),
            false => match random.one_in(2) {
                true => 0,
                false => random.below(few + 1),
            },
        };
        let header_size = match long && random.one_in(2) {
            // "header size [...] not fitting its field": 65,387 grows to 65,535.
            true => pick(
                &mut random,
                &[65_386, 65_387, 65_388, 65_389, 65_534, 65_535],
            ),
            false => standard + pick(&mut random, &[0, 0, 0, 1, 8, 20, 147, 148, 149, 300]),
        };
        let vlrs = pick(&mut random, &[0, 0, 0, 1, 2, 3, 5]);
        let data: Vec<u64> = (0..vlrs)
            .map(|_| some(&mut random, 30, &[0, 65_534, 65_535]))
            .collect();
        let vlr_end = header_size + data.iter().map(|data| 54 + data).sum::<u64>();
        let offset = vlr_end + some(&mut random, 40, &[0, 1, 65_536]);
        // A record of 65,533 bytes grows to 65,535.
        let extra = match long {
            true => some(
                &mut random,
                9,
                &[0, 65_532, 65_533, 65_534, 65_535].map(|n| n - bare.min(n)),
            ),
            false => pick(&mut random, &[0, 0, 0, 1, 2, 7, 8, 31, 300]),
        };
        let length = bare + extra;
        let count = match long {
            true => random.below(3),
            false => pick(&mut random, &[0, 0, 1, 1, 2, 3, 5, 17]),
        };
        let end = offset + count * length;
        let evlr = match way == Down && random.one_in(10) {
            true => Some(end + some(&mut random, 20, &[0])),
            false => None,
        };
        let size = match evlr {
            Some(start) => start + 60 + random.below(20),
            None => end + some(&mut random, 60, &[0, 1, 65_536]),
        };

        let mut file = vec![0; size as usize];
        random.fill(&mut file);
        let mut put = |at: u64, width: usize, value: u64| {
            file[at as usize..][..width].copy_from_slice(&value.to_le_bytes()[..width]);
        };
        put(0, 4, u32::from_le_bytes(*b"LASF").into());
        put(24, 1, 1);
        put(25, 1, if way == Up { 2 } else { 4 });
        put(94, 2, header_size);
        put(96, 4, offset);
        put(100, 4, vlrs);
        put(104, 1, format.into());
        put(105, 2, length);
        for float in 0..12 {
            put(131 + 8 * float, 8, random.f64_bits());
        }
        // Some VLRs are coordinate-system records, which are copied as all are.
        let mut at = header_size;
        for data in data {
            put(at + 20, 2, data);
            if random.one_in(3) {
                put(at + 2, 8, u64::from_le_bytes(*b"LASF_Pro"));
                put(at + 10, 8, u64::from_le_bytes(*b"jection\0"));
                put(
                    at + 18,
                    2,
                    pick(&mut random, &[34_735, 34_736, 34_737, 2_112]),
                );
            }
            at += 54 + data;
        }
        // A count by return: none, or few, or any, or the last of 32 bits.
        let counted = |random: &mut Lcg| match random.below(4) {
            0 => 0,
            1 => random.below(9),
            2 => random.word().into(),
            _ => 0xffff_ffff,
        };
        // The legacy count says it, or the large one does, or both do.
        let legacy = way == Up || count > 0 && random.one_in(3);
        put(107, 4, if legacy { count } else { 0 });
        for k in 1..=5 {
            put(107 + 4 * k, 4, counted(&mut random));
        }
        if way == Down {
            put(227, 8, 0);
            let (start, evlrs) = match (evlr, random.below(6)) {
                (Some(start), _) => {
                    let data = size - start - 60;
                    put(start + 20, 8, data);
                    (start, 1)
                }
                (None, 0) => (0, random.long()),
                (None, 1) => (random.long(), 0),
                (None, 2) => (size, 0),
                (None, _) => (0, 0),
            };
            put(235, 8, start);
            put(243, 4, evlrs);
            let any = legacy && random.one_in(2);
            put(247, 8, if any { random.long() } else { count });
            for k in 1..=15 {
                let value = match k {
                    6.. => 0,
                    _ if any => random.long(),
                    _ => counted(&mut random),
                };
                put(247 + 8 * k, 8, value);
            }
        }

        let word = convert::Shape::word(format, extra as u16);
        let tame = !random.one_in(4);
        for record in file[offset as usize..end as usize].chunks_mut(length as usize) {
            records::fill(word, random.long(), record);
            match way {
                Down => fit(record, format, &mut random),
                Up if tame => {
                    if record[15] & 31 == 28 {
                        record[15] ^= 1;
                    }
                    record[16] = (random.below(181) as i8 - 90) as u8;
                }
                Up => {}
            }
        }
        Scene {
            file,
            way,
            format,
            header_size,
            vlrs,
            vlr_end,
            offset,
            length,
            count,
            end,
        }
    }

    /// Changes one of the things that decide, in a copy of the file.
    fn change(&self, file: &mut [u8], random: &mut Lcg) {
        let size = file.len() as u64;
        let mut put = |at: u64, width: usize, value: u64| {
            let end = file.len().min(at as usize + width);
            let bytes = &value.to_le_bytes()[..end - at as usize];
            file[at as usize..end].copy_from_slice(bytes);
        };
        let count = match random.one_in(2) {
            true => self.count,
            false => pick(random, &[0, 1, self.count + 1, self.count.wrapping_sub(1)]),
        };
        let down = self.way == Down;
        match random.below(20) {
            // waveforms and EVLRs
            0 if down => put(227, 8, pick(random, &[1, 1 << 32, u64::MAX, size, 1 << 56])),
            1 if down => put(
                235,
                8,
                pick(random, &[1, size, self.end, u64::MAX, 1 << 56]),
            ),
            2 if down => put(243, 4, pick(random, &[1, 0xffff_ffff, 1 << 24])),
            3 if down => {
                put(235, 8, 0);
                put(243, 4, 0);
            }
            // counts: of all points, and by return
            4 => put(107, 4, pick(random, &[0, count, count, 0xffff_ffff])),
            5 if down => {
                let wide = pick(random, &WIDE);
                put(247, 8, pick(random, &[count, count, wide]));
            }
            6 if down => {
                put(107, 4, 0);
                put(247, 8, self.count);
            }
            7 => put(
                111 + 4 * random.below(5),
                4,
                pick(random, &[0, 1, 0xffff_ffff]),
            ),
            8 | 9 if down => put(255 + 8 * random.below(5), 8, pick(random, &WIDE)),
            10 if down => {
                let any = random.below(10);
                let k = pick(random, &[0, 9, any]);
                put(295 + 8 * k, 8, 1 << random.below(64));
            }
            // points
            11..=13 if self.count > 0 => {
                let any = random.below(self.count);
                let k = pick(random, &[0, self.count - 1, any]);
                let at = (self.offset + k * self.length) as usize;
                let record = &mut file[at..][..self.length as usize];
                match self.way {
                    Down => {
                        let number = pick(random, &[15, 16, 17, 18, 19, 21]);
                        offend(record, self.format, number, random);
                    }
                    Up if random.one_in(2) => record[15] = record[15] & !31 | 28,
                    Up => record[16] = pick(random, &[90, 91, 127, 128, 165, 166]) as u8,
                }
            }
            // version, format, and what the file check looks at
            14 => put(25, 1, random.below(6)),
            15 => put(104, 1, pick(random, &[0, 1, 2, 3, 6, 7, 8, 9, 10, 11, 128])),
            16 => {
                let edge = pick(random, &[65_532, 65_533, 65_534, 65_535]);
                put(
                    105,
                    2,
                    pick(random, &[edge, edge, self.length + 1, self.length - 1]),
                );
            }
            17 => {
                let near = [226, 227, 374, 375, self.header_size + 1, self.vlr_end];
                put(94, 2, pick(random, &near));
            }
            18 => {
                let near = [
                    self.header_size,
                    self.vlr_end,
                    self.offset + 1,
                    self.offset - 1,
                    size,
                ];
                put(96, 4, pick(random, &near));
            }
            19 => put(
                100,
                4,
                pick(random, &[self.vlrs + 1, self.vlrs.wrapping_sub(1), 0]),
            ),
            // global encoding
            _ => put(6, 2, pick(random, &[0, 2, 0xffff])),
        }
    }
}

/// Files that go up or down, and files in which up to four of the things that decide were changed, so that
/// the order of the refusals shows; with allowances and rooms around what they want.
fn scenes<L: Library>(library: &L, lot: Lot, long: bool) -> Outcome {
    let size = if long { lot.long } else { lot.scenes };
    over(library, size, |comparison, i| {
        let scene = Scene::new(i, long);
        let mut random = Lcg::new(!i);
        comparison.random = Lcg::new(i ^ 1 << 40);
        let mut file = scene.file.clone();
        for k in 0..if long { lot.times / 8 } else { lot.times } {
            file.clone_from(&scene.file);
            let changes = match k {
                0 => 0,
                _ => pick(&mut random, &[0, 1, 1, 1, 1, 2, 2, 3, 4]),
            };
            for _ in 0..changes {
                scene.change(&mut file, &mut random);
            }
            if k > 0 && random.one_in(20) {
                let at = random.below(file.len() as u64) as usize;
                file[at] = random.byte();
            }
            let end = match random.below(40) {
                0 => random.below(file.len() as u64 + 1),
                1 => scene.end,
                2 => scene.offset,
                _ => file.len() as u64,
            };
            let end = if k == 0 { file.len() as u64 } else { end };
            let allowance = match random.below(8) {
                0 => random.below(scene.vlrs + 2),
                1 => scene.vlrs,
                _ => u64::MAX,
            };
            comparison.file(&file[..end as usize], allowance, &|| {
                let long = if long { "long " } else { "" };
                format!("{long}file {i}, change {k}")
            });
        }
    })
}

/// Files of every version, most of them such as go up or down, whole and damaged: each number that the file
/// check looks at at its boundaries, and bytes changed at random.
fn damaged<L: Library>(library: &L, lot: Lot) -> Outcome {
    // The places among the kinds of files of 1.2 with formats 1 and 3, and of 1.4 with 6 and 7.
    const GO: [u64; 4] = [5, 20, 7, 21];
    over(library, lot.whole, |comparison, i| {
        let index = match i % 5 {
            0 => i,
            _ => i / 5 * 25 + GO[(i % 4) as usize],
        };
        let mut random = Lcg::new(!i);
        comparison.random = Lcg::new(i ^ 1 << 41);
        let mut whole = Whole::default();
        whole.make(index, false);
        let new = whole.bytes[25] == 4;
        // Nothing that would refuse most of them: a waveform start, wide counts, and points that do not fit.
        if new && !random.one_in(8) {
            whole.bytes[227..235].fill(0);
            for k in 0..5 {
                whole.bytes[255 + 8 * k + 4..][..4].fill(0);
            }
            whole.bytes[295..375].fill(0);
            if random.one_in(2) {
                whole.bytes[243..247].fill(0);
            }
            let mut found = Found::default();
            found.check(&whole.bytes, u64::MAX);
            for k in 0..found.points() {
                let [at, length] = found.point_span(k).map(|n| n as usize);
                let (format, record) = (whole.bytes[104], &mut whole.bytes[at..at + length]);
                if format >= 6 && !random.one_in(30) {
                    fit(record, format, &mut random);
                }
            }
        }
        let mut patches = Vec::new();
        whole.boundaries(&mut patches);
        let mut file = whole.bytes.clone();
        for k in 0..patches.len() as u64 + lot.random {
            let damage: Vec<Patch> = match patches.get(k as usize) {
                Some(&patch) => vec![patch],
                None => (0..random.below(4))
                    .map(|_| Patch::byte(whole.any_place(&mut random), random.byte()))
                    .collect(),
            };
            damage.iter().for_each(|patch| patch.apply(&mut file));
            let end = match random.one_in(8) {
                true => random.below(file.len() as u64 + 1) as usize,
                false => file.len(),
            };
            let allowance = whole.allowances()[random.below(7) as usize];
            comparison.file(&file[..end], allowance, &|| {
                let shown: Vec<String> = damage.iter().map(Patch::to_string).collect();
                format!("whole file {index} ({whole}), {}", shown.join(", "))
            });
            damage
                .iter()
                .for_each(|patch| patch.undo(&mut file, &whole.bytes));
        }
    })
}

/// What `part` comes to over the numbers below `size`.
fn over<L: Library>(
    library: &L,
    size: u64,
    part: impl Fn(&mut Comparison<L>, u64) + Sync,
) -> Outcome {
    let outcomes = stretches(size, |stretch| {
        let mut comparison = Comparison::new(library);
        stretch.for_each(|i| part(&mut comparison, i));
        comparison.outcome
    });
    outcomes.into_iter().fold(Outcome::new(CALLS), Outcome::and)
}

/// A header in memory that is zeros, of version 1.2 or 1.4, without VLRs.
pub(crate) fn put_header(file: &mut [u8], numbers: [u64; 6]) {
    let [minor, header_size, offset, format, length, count] = numbers;
    file[..375].fill(0);
    let mut put = |at: usize, width: usize, value: u64| {
        file[at..at + width].copy_from_slice(&value.to_le_bytes()[..width]);
    };
    put(0, 4, u32::from_le_bytes(*b"LASF").into());
    put(24, 1, 1);
    put(25, 1, minor);
    put(94, 2, header_size);
    put(96, 4, offset);
    put(104, 1, format);
    put(105, 2, length);
    match minor {
        4 => put(247, 8, count),
        _ => put(107, 4, count),
    }
}

/// Files too large to be made, in memory that nobody has touched: with point offsets on both sides of
/// 2^32 - 149, the last that fits its field when the header has grown, and with counts of points on both
/// sides of 2^32 - 1. They are asked about, and refused for want of room.
fn ends<L: Library>(library: &L) -> Report {
    const TWO_32: u64 = 1 << 32;
    let mut report = Report::new("whole files at the ends of 32 bits");
    let mut found = Found::default();
    let mut compare = |way, file: &[u8], told: &dyn Fn() -> String| {
        let rules = migrate_model::ask(&mut found, file, u64::MAX, way);
        let (mut none, mut dst) = ([BEFORE_BYTE; 0], [BEFORE_BYTE; 600]);
        let written = [
            migrate_model::convert(&mut found, file, u64::MAX, way, &mut none),
            migrate_model::convert(&mut found, file, u64::MAX, way, &mut dst),
        ];
        let asked = capi::row(|row| library.ask(way, file, u64::MAX, row));
        let port = [
            capi::row(|row| library.convert(way, file, u64::MAX, &mut none, row)),
            capi::row(|row| library.convert(way, file, u64::MAX, &mut dst, row)),
        ];
        let same = rules == asked && written == port && dst == [BEFORE_BYTE; 600];
        report.check(same, || {
            format!("{}: {rules} {written:?}, port {asked} {port:?}", told())
        });
    };

    let mut file = Sparse::new((TWO_32 + 3 * 65_535) as usize);
    for offset in (TWO_32 - 151..TWO_32 - 145).chain([TWO_32 - 1]) {
        for header_size in [227, 65_387, 65_388] {
            for (format, length) in [(1, 28), (3, 34), (1, 65_533), (3, 65_534)] {
                for count in 0..3 {
                    let numbers = [2, header_size, offset, format, length, count];
                    put_header(&mut file, numbers);
                    let size = offset + count * length + count;
                    for way in [Up, Down] {
                        compare(way, &file[..size as usize], &|| {
                            format!("{way:?}, {numbers:?}, {size} bytes")
                        });
                    }
                }
            }
        }
    }
    drop(file);

    // The first point does not fit, so that the others need not be looked at.
    let mut file = Sparse::new((375 + (TWO_32 + 2) * 30) as usize);
    file[375 + 14] = 8;
    for count in [TWO_32 - 2, TWO_32 - 1, TWO_32, TWO_32 + 1] {
        for legacy in [0, 1] {
            for by_return in [0, TWO_32 - 1, TWO_32] {
                for sixth in [0, 1] {
                    put_header(&mut file, [4, 375, 375, 6, 30, count]);
                    file[107] = legacy;
                    file[255..263].copy_from_slice(&by_return.to_le_bytes());
                    file[295] = sixth;
                    compare(Down, &file, &|| {
                        format!("{count} points, legacy {legacy}, first {by_return}, sixth {sixth}")
                    });
                }
            }
        }
    }
    report
}

/// A file whose point offset is the last that fits when the header has grown, written: 4 GB up, and down
/// again. All of it is looked at.
fn gigabytes<L: Library>(library: &L) -> Report {
    const OFFSET: usize = (1 << 32) - 149;
    const LENGTH: usize = 28 + 3;
    const COUNT: usize = 2;
    const TAIL: usize = 5;
    let mut report = Report::new("whole file of 4 GB, up and down");
    let mut file = Sparse::new(OFFSET + COUNT * LENGTH + TAIL);
    put_header(
        &mut file,
        [2, 300, OFFSET as u64, 1, LENGTH as u64, COUNT as u64],
    );
    let mut random = Lcg::new(0);
    random.fill(&mut file[111..131]);
    random.fill(&mut file[227..300]);
    random.fill(&mut file[OFFSET..]);
    for record in file[OFFSET..][..COUNT * LENGTH].chunks_mut(LENGTH) {
        record[15..17].fill(12);
    }
    let mut found = Found::default();
    let plan = match migrate_model::judge(&mut found, &file, 0, Up) {
        Ok(plan) => plan,
        Err(refusal) => panic!("a file that goes: {refusal}"),
    };
    let size = plan.bytes as usize;
    let mut new = Sparse::new(size + SPARE);
    let row = capi::row(|row| library.convert(Up, &file, 0, &mut new, row));
    let mut points = vec![0; COUNT * (LENGTH + 2)];
    plan.write_points(&file, &mut points);
    let (before, after) = (plan.before(), plan.points().end);
    let parts: [&[u8]; 4] = [&plan.header(&file), &file[before], &points, &file[after..]];
    let mut at = 0;
    let mut same = row == Answer::result(size as u64);
    for part in parts {
        same &= new[at..at + part.len()] == *part;
        at += part.len();
    }
    same &= at == size && new[at..] == [0; SPARE];
    report.check(same, || format!("up {row}"));

    let mut back = Sparse::new(file.len());
    let row = capi::row(|row| library.convert(Down, &new[..size], 0, &mut back, row));
    let same = row == Answer::result(file.len() as u64) && back[..] == file[..];
    report.check(same, || format!("down {row}"));
    report
}

/// A small file: zeros but for its header, with whatever is told besides.
pub(crate) fn plain(size: usize, numbers: [u64; 6], besides: &[(usize, u8)]) -> Vec<u8> {
    let mut file = vec![0; size.max(375)];
    put_header(&mut file, numbers);
    for &(at, byte) in besides {
        file[at] = byte;
    }
    file.truncate(size);
    file
}

/// Files with rows that follow from document 02's text, worked by hand: both the rules and a library must
/// answer what stands here.
fn compare_described(library: &impl Library) -> Report {
    let mut report = Report::new("whole files described");
    let old = [2, 227, 227, 1, 28, 0];
    let new = [4, 375, 375, 6, 30, 0];
    let with = |mut numbers: [u64; 6], k: usize, value| {
        numbers[k] = value;
        numbers
    };
    let point = [2, 227, 227, 1, 28, 1];
    let new_point = [4, 375, 375, 6, 30, 1];
    let none: &[(usize, u8)] = &[];
    type Described<'a> = (Way, usize, [u64; 6], &'a [(usize, u8)], Row);
    let described: [Described; 38] = [
        // the smallest, with and without a point
        (Up, 227, old, none, [0, 375, 0]),
        (Up, 255, point, none, [0, 405, 0]),
        (Up, 261, [2, 227, 227, 3, 34, 1], none, [0, 411, 0]),
        (Down, 375, new, none, [0, 227, 0]),
        (Down, 405, new_point, none, [0, 255, 0]),
        (Down, 411, [4, 375, 375, 7, 36, 1], none, [0, 261, 0]),
        // "after the file check"
        (Up, 0, old, none, [1, 4, 0]),
        (Up, 254, point, none, [12, 1, 0]),
        (Down, 404, new_point, none, [12, 1, 0]),
        // "other version or format"
        (Down, 227, old, none, [32, 0, 0]),
        (Up, 375, new, none, [32, 0, 0]),
        (Up, 227, with(old, 0, 1), none, [32, 0, 0]),
        (Up, 235, [3, 235, 235, 1, 28, 0], none, [32, 0, 0]),
        (Up, 227, [2, 227, 227, 0, 28, 0], none, [32, 0, 0]),
        (Up, 227, [2, 227, 227, 2, 28, 0], none, [32, 0, 0]),
        (Down, 375, with(new, 3, 1), none, [32, 0, 0]),
        (Down, 375, [4, 375, 375, 8, 38, 0], none, [32, 0, 0]),
        // "EVLRs or a waveform start present": half a pair reads as none
        (Down, 375, new, &[(227, 1)], [33, 0, 0]),
        (Down, 375, new, &[(234, 1), (295, 1)], [33, 0, 0]),
        (Down, 375, new, &[(235, 1)], [0, 227, 0]),
        (Down, 375, new, &[(243, 1)], [0, 227, 0]),
        (
            Down,
            435,
            new,
            &[(235, 0x77), (236, 1), (243, 1)],
            [33, 0, 0],
        ),
        // "one of the five counts by return over 2^32-1", which are the legacy ones if the legacy count isn't
        // zero; "any large count of returns 6 to 15 not zero"
        (Down, 375, new, &[(259, 1)], [34, 0, 0]),
        (Down, 375, new, &[(291, 1)], [34, 0, 0]),
        (
            Down,
            405,
            new_point,
            &[(107, 1), (259, 1), (291, 1)],
            [0, 255, 0],
        ),
        (Down, 405, new_point, &[(107, 1), (251, 1)], [0, 255, 0]),
        (Down, 405, new_point, &[(107, 1), (295, 1)], [34, 0, 0]),
        (Down, 375, new, &[(374, 1)], [34, 0, 0]),
        // "header size [...] not fitting its field"
        (
            Up,
            65_387,
            [2, 65_387, 65_387, 1, 28, 0],
            none,
            [0, 65_535, 0],
        ),
        (
            Up,
            65_388,
            [2, 65_388, 65_388, 1, 28, 0],
            none,
            [4, 65_388, 0],
        ),
        (
            Up,
            65_388,
            [2, 65_388, 65_388, 1, 65_534, 0],
            none,
            [4, 65_388, 0],
        ),
        // "then the conversion's"
        (Up, 227, with(old, 4, 65_533), none, [0, 375, 0]),
        (Up, 227, with(old, 4, 65_534), none, [8, 65_536, 0]),
        (Up, 227, with(old, 4, 65_535), none, [8, 65_537, 0]),
        (Down, 375, with(new, 4, 65_535), none, [0, 227, 0]),
        (
            Down,
            435,
            with(new_point, 5, 2),
            &[(405 + 14, 8)],
            [15, 8, 2],
        ),
        (Down, 405, new_point, &[(375 + 16, 28)], [19, 28, 1]),
        (
            Down,
            405,
            new_point,
            &[(375 + 19, 128), (374, 1)],
            [34, 0, 0],
        ),
    ];
    for (way, size, numbers, besides, stated) in described {
        let file = plain(size, numbers, besides);
        let [number, value, record] = stated;
        let stated = Answer {
            number,
            value,
            record,
        };
        // "no room last"
        let no_room = match number {
            0 => Answer::refusal(22, value),
            _ => stated,
        };
        let room = if number == 0 { value as usize } else { 600 };
        let [mut by_rules, mut by_port] = [(); 2].map(|()| vec![BEFORE_BYTE; room]);
        let mut found = Found::default();
        let rules = [
            migrate_model::ask(&mut found, &file, 9, way),
            migrate_model::convert(&mut found, &file, 9, way, &mut []),
            migrate_model::convert(&mut found, &file, 9, way, &mut by_rules),
        ];
        let port = [
            capi::row(|row| library.ask(way, &file, 9, row)),
            capi::row(|row| library.convert(way, &file, 9, &mut [], row)),
            capi::row(|row| library.convert(way, &file, 9, &mut by_port, row)),
        ];
        let same = [rules, port] == [[stated, no_room, stated]; 2] && by_rules == by_port;
        report.check(same, || {
            format!("{way:?}, {size} bytes, {numbers:?}, {besides:?}: {stated}, rules {rules:?}, port {port:?}")
        });
    }

    // Every byte of a file of each version, written by hand: header of 2 bytes more, a VLR without data, a gap
    // of 1, a point with an extra byte, 3 bytes after it.
    let [old, new] = both_by_hand();
    for (way, from, to) in [(Up, &old, &new), (Down, &new, &old)] {
        let [mut by_rules, mut by_port] = [(); 2].map(|()| vec![BEFORE_BYTE; to.len()]);
        let mut found = Found::default();
        let rules = migrate_model::convert(&mut found, from, 1, way, &mut by_rules);
        let port = capi::row(|row| library.convert(way, from, 1, &mut by_port, row));
        let stated = Answer::result(to.len() as u64);
        let same = [rules, port] == [stated; 2] && [&by_rules, &by_port] == [to; 2];
        report.check(same, || {
            format!("{way:?}, by hand: rules {rules} {by_rules:02x?}, port {port} {by_port:02x?}")
        });
    }
    report
}

/// The same file in both versions.
fn both_by_hand() -> [Vec<u8>; 2] {
    let mut old = Vec::new();
    let mut new = Vec::new();
    let mut both = |in_old: &[u8], in_new: &[u8]| {
        old.extend_from_slice(in_old);
        new.extend_from_slice(in_new);
    };
    let range = |from: u8, n: u8| (from..from + n).collect::<Vec<u8>>();
    let kept = |both: &mut dyn FnMut(&[u8], &[u8]), bytes: &[u8]| both(bytes, bytes);
    kept(&mut both, b"LASF");
    // source id, global encoding, GUID
    kept(&mut both, &range(1, 20));
    both(&[1, 2], &[1, 4]);
    // system identifier, generating software, day, year
    kept(&mut both, &range(30, 68));
    // header size, point offset: 229 and 377, 284 and 432
    both(&[0xe5, 0], &[0x79, 1]);
    both(&[0x1c, 1, 0, 0], &[0xb0, 1, 0, 0]);
    // one VLR; format, record length
    kept(&mut both, &[1, 0, 0, 0]);
    both(&[1, 29, 0], &[6, 31, 0]);
    // the legacy counts: one point, and by return 6, 7, 8, 9 and 2^32 - 1
    let counts = [1, 6, 7, 8, 9, 0xffff_ffff_u32];
    both(&counts.map(u32::to_le_bytes).concat(), &[0; 24]);
    // scales, offsets, bounds
    kept(&mut both, &range(100, 96));
    // what 1.4 has besides: waveform start, EVLR start and count, the large counts
    both(&[], &[0; 20]);
    let large = counts.map(|count| u64::from(count).to_le_bytes()).concat();
    both(&[], &large);
    both(&[], &[0; 80]);
    // padding; a VLR of 54 bytes whose length is 0; a gap
    kept(&mut both, &[201, 202]);
    kept(&mut both, &range(1, 20));
    kept(&mut both, &[0, 0]);
    kept(&mut both, &range(30, 32));
    kept(&mut both, &[203]);
    // X, Y, Z, intensity
    kept(&mut both, &range(60, 14));
    // third of five, direction; class 12, withheld: "overlap set exactly for class 12"
    both(&[0x6b, 0x8c], &[0x53, 0x4c, 12]);
    // rank -4, user data: scaled -666
    both(&[0xfc, 77], &[77, 0x66, 0xfd]);
    // source id, time, the extra byte
    kept(&mut both, &range(80, 11));
    // the gap behind the points
    kept(&mut both, &[204, 205, 206]);
    [old, new]
}

/// The comparison itself is tested: a stand-in that follows the rules agrees with them, and one with an
/// error put in doesn't, whichever error it is.
pub fn compare_stand_ins() -> Report {
    let mut report = Report::new("whole files with an error, told apart");
    let agrees = |error| {
        let library = &StandIn { error };
        scenes(library, FEW, false).agrees()
            && damaged(library, FEW).agrees()
            && scenes(library, FEW, true).agrees()
            && ends(library).agrees()
    };
    report.check(agrees(None), || "the one without an error differs".into());
    for &error in ERRORS {
        report.check(!agrees(Some(error)), || format!("{error:?} isn't seen"));
    }
    report
}

/// Compares a library and prints what came of it: the calls, and how often each number was answered by those
/// that write.
pub fn compare_library(tally: &mut Tally, library: &impl Library) {
    tally.add(compare_described(library));
    let outcome = scenes(library, FULL, false)
        .and(scenes(library, FULL, true))
        .and(damaged(library, FULL));
    let [up, down, ask_up, ask_down, alike, accepted, read, back] = outcome.reports;
    tally.add(up);
    tally.add(down);
    tally.add(ask_up);
    tally.add(ask_down);
    tally.aside(alike);
    tally.aside(accepted);
    tally.aside(read);
    tally.aside(back);
    tally.add(ends(library));
    tally.add(gigabytes(library));
    tally.add(outcome.counted.tell(
        "whole file answers, each many times",
        COUNTED,
        &NUMBERS,
        OFTEN,
    ));
}

pub fn compare(tally: &mut Tally) {
    tally.add(compare_stand_ins());
    compare_library(tally, &Port);
}
