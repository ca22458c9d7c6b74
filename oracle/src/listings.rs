//! The replay list of files, for the program of crates/listings: `stdin` has the files, each after its
//! length as a little-endian u32, and `stdout` what document 01's parts program prints for each.
//!
//! All lines are those of `file_model`, and what refuses each file is stated here besides. Files have
//! bytes without pattern wherever the rules don't look. Every refusal from 1 to 14, and 35, is among them
//! but 10, which no input of that program can cause: 65,536 bytes do not hold 1,300 records, since these
//! have 54 bytes or more.

use crate::{
    file::plain,
    file_model::{Found, POINT_BYTES, Part, standard_size},
    files::{HIGHEST, KINDS, MANY},
    records::Lcg,
    replay,
    report::Tally,
};
use std::{io, path::Path};

/// The most that the program reads.
const ROOM: usize = 65_536;

/// "Kinds are header, vlr, gap, points, evlr", in the order of their numbers, and then `waveform`.
const KIND_NAMES: [&str; 6] = ["header", "vlr", "gap", "points", "evlr", "waveform"];

/// Where a number of the header stands, and how many bytes it has.
type Field = (usize, usize);

const SIGNATURE: Field = (0, 4);
const GLOBAL_ENCODING: Field = (6, 2);
const MAJOR: Field = (24, 1);
const MINOR: Field = (25, 1);
const HEADER_SIZE: Field = (94, 2);
const POINT_OFFSET: Field = (96, 4);
const VLRS: Field = (100, 4);
const FORMAT: Field = (104, 1);
const RECORD_LENGTH: Field = (105, 2);
const LEGACY_POINTS: Field = (107, 4);
const WAVEFORM_START: Field = (227, 8);
const EVLR_START: Field = (235, 8);
const EVLRS: Field = (243, 4);
const POINTS: Field = (247, 8);

/// Overwrites a number.
fn put(file: &mut [u8], (at, width): Field, value: u64) {
    file[at..][..width].copy_from_slice(&value.to_le_bytes()[..width]);
}

/// What a whole file is made of; lengths are in bytes.
#[derive(Clone, Copy, Default)]
struct Make {
    minor: u8,
    format: u8,
    padding: usize,
    /// The lengths of the VLRs' data.
    vlrs: &'static [usize],
    gap_before_points: usize,
    extra: usize,
    points: usize,
    gap_after_points: usize,
    /// The same of the EVLRs, or in 1.3 of the waveform packets, which are one.
    later: &'static [usize],
    rest: usize,
}

impl Make {
    fn standard(&self) -> usize {
        standard_size(self.minor.into()) as usize
    }

    fn header_size(&self) -> usize {
        self.standard() + self.padding
    }

    /// Where the `k`-th VLR starts, counted from 0, or would if there were one more.
    fn vlr(&self, k: usize) -> usize {
        let before: usize = self.vlrs[..k].iter().map(|data| 54 + data).sum();
        self.header_size() + before
    }

    fn point_offset(&self) -> usize {
        self.vlr(self.vlrs.len()) + self.gap_before_points
    }

    fn record_length(&self) -> usize {
        POINT_BYTES[usize::from(self.format)] as usize + self.extra
    }

    fn point_end(&self) -> usize {
        self.point_offset() + self.points * self.record_length()
    }

    /// Where the `k`-th record after the points starts, likewise.
    fn later(&self, k: usize) -> usize {
        let before: usize = self.later[..k].iter().map(|data| 60 + data).sum();
        self.point_end() + self.gap_after_points + before
    }

    fn end(&self) -> usize {
        self.later(self.later.len()) + self.rest
    }

    fn vlr_length(&self, k: usize) -> Field {
        (self.vlr(k) + 20, 2)
    }

    fn later_length(&self, k: usize) -> Field {
        (self.later(k) + 20, 8)
    }

    /// The whole file.
    fn whole(&self) -> Vec<u8> {
        let mut file = vec![0; self.end()];
        Lcg::new(file.len() as u64).fill(&mut file);
        put(&mut file, SIGNATURE, u32::from_le_bytes(*b"LASF").into());
        put(&mut file, MAJOR, 1);
        put(&mut file, MINOR, self.minor.into());
        put(&mut file, HEADER_SIZE, self.header_size() as u64);
        put(&mut file, POINT_OFFSET, self.point_offset() as u64);
        put(&mut file, VLRS, self.vlrs.len() as u64);
        put(&mut file, FORMAT, self.format.into());
        put(&mut file, RECORD_LENGTH, self.record_length() as u64);
        put(&mut file, LEGACY_POINTS, self.points as u64);
        let start = match self.later {
            [] => 0,
            _ => self.later(0) as u64,
        };
        match self.minor {
            // bit 1 of global encoding says that packets are in the file; all else that stands there may stay
            3 if start == 0 => file[6] &= !2,
            3 => {
                file[6] |= 2;
                put(&mut file, WAVEFORM_START, start);
            }
            4 => {
                put(&mut file, EVLR_START, start);
                put(&mut file, EVLRS, self.later.len() as u64);
                put(&mut file, POINTS, self.points as u64);
            }
            _ => {}
        }
        for (k, &data) in self.vlrs.iter().enumerate() {
            put(&mut file, self.vlr_length(k), data as u64);
        }
        for (k, &data) in self.later.iter().enumerate() {
            put(&mut file, self.later_length(k), data as u64);
        }
        file
    }

    /// The file with other numbers at some places.
    fn with(&self, numbers: &[(Field, u64)]) -> Vec<u8> {
        let mut file = self.whole();
        for &(field, value) in numbers {
            put(&mut file, field, value);
        }
        file
    }

    /// The first `length` bytes of the file.
    fn cut(&self, length: usize) -> Vec<u8> {
        self.whole()[..length].to_vec()
    }
}

/// Files and lines, in their order.
#[derive(Default)]
struct List {
    files: u64,
    /// Which numbers were answered.
    answered: Vec<u64>,
    stdin: Vec<u8>,
    stdout: String,
    found: Found,
    parts: Vec<Part>,
}

impl List {
    /// Adds a file, and gives back what is printed for it.
    fn add(&mut self, file: &[u8]) -> String {
        self.files += 1;
        self.stdin.extend((file.len() as u32).to_le_bytes());
        self.stdin.extend(file);
        let answer = self.found.check(file, MANY);
        self.answered.push(answer.number);
        let text = match answer.number {
            0 => {
                self.found.parts(file, &mut self.parts);
                let lines = self.parts.iter().map(|&[kind, start, length]| {
                    format!("{} {start} {length}\n", KIND_NAMES[kind as usize])
                });
                "kind start length\n".to_owned() + &lines.collect::<String>()
            }
            _ => format!("refused {answer}\n"),
        };
        self.stdout += &text;
        text
    }

    /// Adds a file of which document 01 says what is printed.
    fn described(&mut self, file: &[u8], text: &str) {
        assert_eq!(self.add(file), text);
    }

    fn accepted(&mut self, file: &[u8]) {
        let text = self.add(file);
        assert!(text.starts_with("kind"), "{text}");
    }

    /// Adds a file that is refused with this number, value and record number.
    fn refused(&mut self, [number, value, record]: [u64; 3], file: &[u8]) {
        let text = self.add(file);
        assert_eq!(text, format!("refused {number} {value} {record}\n"));
    }
}

/// Makes the list afresh, and writes it into the folder or compares it with what the folder has.
pub fn compare(tally: &mut Tally, folder: &Path, write: bool) -> io::Result<()> {
    let mut list = List::default();
    described(&mut list);
    kinds(&mut list);
    parts(&mut list);
    counts(&mut list);
    none_of_evlrs(&mut list);
    headers(&mut list);
    formats(&mut list);
    offsets(&mut list);
    vlrs(&mut list);
    points(&mut list);
    evlrs(&mut list);
    packets(&mut list);
    order(&mut list);
    for number in (0..=14).chain([35]) {
        let answered = list.answered.contains(&number);
        assert_eq!(answered, number != 10, "refusal {number}");
    }
    assert!(
        list.stdin.len() < ROOM,
        "{} bytes are more than the program reads",
        list.stdin.len()
    );
    println!("replay list of files: {}", list.files);
    replay::keep(tally, folder, write, list.stdin, list.stdout)
}

/// The files that document 01 describes.
fn described(list: &mut List) {
    list.described(&[], "refused 1 4 0\n");
    list.described(
        &plain(327, 1, 287, 2),
        "kind start length\nheader 0 227\nvlr 227 58\ngap 285 2\npoints 287 40\n",
    );
    list.described(
        &plain(227, 0, 227, 0),
        "kind start length\nheader 0 227\npoints 227 0\n",
    );
    list.described(
        &plain(247, 0, 227, 1),
        "kind start length\nheader 0 227\npoints 227 20\n",
    );
    list.described(&plain(246, 0, 227, 1), "refused 12 1 0\n");
}

/// Every version with every format that it has: points up to the file's end, with extra bytes or none.
/// Where a version is the first to have the format, also a record length one below the format's. Each
/// version without points, and 1.0 with the two bytes that announce its points.
fn kinds(list: &mut List) {
    for (k, (minor, format)) in KINDS.into_iter().enumerate() {
        let make = Make {
            minor,
            format,
            extra: k % 3,
            points: 1 + k % 2,
            ..Make::default()
        };
        list.accepted(&make.whole());
        if KINDS[..k].iter().all(|&(_, before)| before != format) {
            let short = (make.record_length() - make.extra - 1) as u64;
            let header = &make.with(&[(RECORD_LENGTH, short)])[..make.header_size()];
            list.refused([8, short, 0], header);
        }
    }
    for minor in 0..5 {
        let make = Make {
            minor,
            ..Make::default()
        };
        list.accepted(&make.whole());
    }
    let make = Make {
        vlrs: &[5],
        gap_before_points: 2,
        points: 1,
        ..Make::default()
    };
    list.accepted(&make.with(&[((make.point_offset() - 2, 2), 0xccdd)]));
}

/// A file with everything that a file can have.
const ALL: Make = Make {
    minor: 4,
    format: 6,
    padding: 5,
    vlrs: &[3, 0, 1],
    gap_before_points: 2,
    extra: 4,
    points: 2,
    gap_after_points: 3,
    later: &[2, 0],
    rest: 4,
};

/// A file with everything; with everything but one part or gap; with nothing but that.
fn parts(list: &mut List) {
    list.accepted(&ALL.whole());
    let bare = Make {
        minor: ALL.minor,
        format: ALL.format,
        ..Make::default()
    };
    let things: [fn(&mut Make, &Make); 5] = [
        |to, from| to.vlrs = from.vlrs,
        |to, from| to.gap_before_points = from.gap_before_points,
        |to, from| to.points = from.points,
        |to, from| to.gap_after_points = from.gap_after_points,
        |to, from| to.later = from.later,
    ];
    for thing in things {
        let (mut without, mut alone) = (ALL, bare);
        thing(&mut without, &bare);
        thing(&mut alone, &ALL);
        list.accepted(&without.whole());
        list.accepted(&alone.whole());
    }
}

/// The effective count: which of both counts it is, and that only 1.4 has two.
fn counts(list: &mut List) {
    let make = Make {
        minor: 4,
        points: 2,
        ..Make::default()
    };
    list.accepted(&make.with(&[(POINTS, u64::MAX)]));
    list.accepted(&make.with(&[(POINTS, 0)]));
    list.accepted(&make.with(&[(LEGACY_POINTS, 0)]));
    list.accepted(&make.with(&[(LEGACY_POINTS, 0), (POINTS, 1)]));
    for minor in 0..4 {
        // padding up to where 1.4 has its counts and EVLRs, which are none here
        let mut make = Make { minor, ..make };
        make.padding = 375 - make.standard();
        list.accepted(&make.with(&[
            (LEGACY_POINTS, 0),
            (EVLR_START, 1),
            (EVLRS, 1),
            (POINTS, u64::MAX),
        ]));
    }
}

/// EVLR pairs of which either number is zero: there are none, whatever the other is.
fn none_of_evlrs(list: &mut List) {
    let make = Make {
        minor: 4,
        points: 1,
        rest: 1,
        ..Make::default()
    };
    for (start, count) in [
        (0, 1),
        (0, u32::MAX),
        (1, 0),
        (make.end() as u64, 0),
        (u64::MAX, 0),
    ] {
        list.accepted(&make.with(&[(EVLR_START, start), (EVLRS, count.into())]));
    }
}

/// Rules 1 and 2: refusal 1 at its four places, 2, 3 and 4.
fn headers(list: &mut List) {
    for short in [&b"L"[..], b"LAS", b"XYZ"] {
        list.refused([1, 4, 0], short);
    }
    for wrong in [*b"lASF", *b"LaSF", *b"LAsF", *b"LASf", [0; 4], [0xff; 4]] {
        list.refused([2, u32::from_le_bytes(wrong).into(), 0], &wrong);
    }
    let make = Make {
        minor: 2,
        ..Make::default()
    };
    for length in [4, 24, 25] {
        list.refused([1, 26, 0], &make.cut(length));
    }
    for (major, minor) in [(1, 5), (1, 255), (0, 4), (2, 0), (2, 2), (0, 0), (255, 255)] {
        let file = make.with(&[(MAJOR, major), (MINOR, minor)]);
        list.refused([3, major * 256 + minor, 0], &file[..26]);
    }
    for minor in 0..5 {
        let make = Make {
            minor,
            ..Make::default()
        };
        let standard = make.standard();
        list.refused([1, standard as u64, 0], &make.cut(26));
        list.refused([1, standard as u64, 0], &make.cut(standard - 1));
        let padded = Make { padding: 3, ..make };
        list.refused([1, standard as u64 + 3, 0], &padded.cut(standard + 2));
        let size = standard as u64 - 1;
        list.refused([4, size, 0], &make.with(&[(HEADER_SIZE, size)]));
    }
    list.refused([1, 65_535, 0], &make.with(&[(HEADER_SIZE, 65_535)]));
    for (minor, size) in [(0, 0), (3, 227), (4, 227), (4, 235)] {
        let make = Make {
            minor,
            ..Make::default()
        };
        list.refused([4, size, 0], &make.with(&[(HEADER_SIZE, size)]));
    }
}

/// Rules 3 and 4: refusals 5, 6 and 7, and of 8 the lengths far below. `kinds` has those just below.
fn formats(list: &mut List) {
    let make = Make {
        minor: 2,
        ..Make::default()
    };
    for (number, format) in [(5, 11), (5, 64), (5, 127), (6, 128), (6, 131), (6, 255)] {
        list.refused([number, format, 0], &make.with(&[(FORMAT, format)]));
    }
    for length in [0, 1] {
        list.refused([8, length, 0], &make.with(&[(RECORD_LENGTH, length)]));
    }
    for (minor, highest) in (0..4).zip(HIGHEST) {
        let make = Make { minor, ..make };
        let format = u64::from(highest) + 1;
        list.refused([7, format, 0], &make.with(&[(FORMAT, format)]));
    }
    let make = Make { minor: 4, ..make };
    list.refused([5, 11, 0], &make.with(&[(FORMAT, 11)]));
    list.refused([6, 138, 0], &make.with(&[(FORMAT, 138)]));
}

/// Rule 5, on both sides: 9 below the header's end and beyond the file's, and neither at them.
fn offsets(list: &mut List) {
    let make = Make {
        minor: 3,
        padding: 1,
        rest: 7,
        ..Make::default()
    };
    let (header_size, end) = (make.header_size() as u64, make.end() as u64);
    for offset in [header_size, end] {
        list.accepted(&make.with(&[(POINT_OFFSET, offset)]));
    }
    for offset in [0, header_size - 1, end + 1, u32::MAX.into()] {
        list.refused([9, offset, 0], &make.with(&[(POINT_OFFSET, offset)]));
    }
}

/// Rule 6: VLRs whose head, or whose data, end just at the point offset or after it, though in the file.
fn vlrs(list: &mut List) {
    let make = Make {
        minor: 2,
        vlrs: &[2, 0, 1],
        gap_before_points: 53,
        points: 1,
        ..Make::default()
    };
    let last = make.vlr_length(2);
    list.accepted(&make.with(&[(last, 54)]));
    for length in [55, 65_535] {
        list.refused([11, length, 3], &make.with(&[(last, length)]));
    }
    list.refused([11, 65_535, 1], &make.with(&[(make.vlr_length(0), 65_535)]));
    for count in [4, u32::MAX.into()] {
        list.refused([11, 0, 4], &make.with(&[(VLRS, count)]));
    }
    // just room for one more head, which states no data
    let room = Make {
        gap_before_points: 54,
        ..make
    };
    let next = (room.vlr(3) + 20, 2);
    list.accepted(&room.with(&[(VLRS, 4), (next, 0)]));
    list.refused([11, 1, 4], &room.with(&[(VLRS, 4), (next, 1)]));
    // the head of the second ends too late, whatever the length that stands there
    let offset = room.vlr(1) as u64 + 53;
    list.refused([11, 0, 2], &room.with(&[(POINT_OFFSET, offset)]));
    // points that begin at the header's end
    let offset = room.header_size() as u64;
    list.refused([11, 0, 1], &room.with(&[(POINT_OFFSET, offset)]));
    let many = Make {
        vlrs: &[0; 11],
        gap_before_points: 0,
        ..make
    };
    list.refused([11, 0, 12], &many.with(&[(VLRS, 12)]));
}

/// Rule 7: more points than the file holds, up to where products and sums wrap in 32 or 64 bits.
fn points(list: &mut List) {
    // records of 32 bytes, a power of two
    let make = Make {
        minor: 4,
        extra: 12,
        points: 2,
        rest: 31,
        ..Make::default()
    };
    list.accepted(&make.whole());
    for count in [3, 1 << 27, u32::MAX.into()] {
        list.refused([12, count, 0], &make.with(&[(LEGACY_POINTS, count)]));
    }
    for count in [3, 1 << 32, 1 << 59, u64::MAX] {
        let file = make.with(&[(LEGACY_POINTS, 0), (POINTS, count)]);
        list.refused([12, count, 0], &file);
    }
    // the longest records: the file has no room for two, and none is needed for none
    list.refused([12, 2, 0], &make.with(&[(RECORD_LENGTH, 65_535)]));
    let large = [(LEGACY_POINTS, 0), (POINTS, 0), (RECORD_LENGTH, 65_535)];
    list.accepted(&make.with(&large));
}

/// Rule 8: 14 on both sides, and EVLRs that end just at the file's end or after it. Their numbers go on
/// from those of the VLRs.
fn evlrs(list: &mut List) {
    let make = Make {
        minor: 4,
        vlrs: &[1],
        points: 1,
        later: &[3, 4],
        ..Make::default()
    };
    let (point_end, end) = (make.point_end() as u64, make.end() as u64);
    list.accepted(&make.whole());
    for start in [point_end - 1, end + 1, u64::MAX] {
        list.refused([14, start, 0], &make.with(&[(EVLR_START, start)]));
    }
    // at the file's length, and where the head doesn't end in the file, or just ends
    for start in [end, end - 59] {
        list.refused([13, 0, 2], &make.with(&[(EVLR_START, start)]));
    }
    let start = (EVLR_START, end - 60);
    let length = (make.end() - 40, 8);
    list.accepted(&make.with(&[start, (EVLRS, 1), (length, 0)]));
    list.refused([13, 1, 2], &make.with(&[start, (EVLRS, 1), (length, 1)]));
    // the last of them, also where its end would wrap to 0
    let wraps = u64::MAX - 59 - make.later(1) as u64;
    for data in [5, 1 << 32 | 4, wraps, u64::MAX] {
        list.refused([13, data, 3], &make.with(&[(make.later_length(1), data)]));
    }
    list.refused([13, 0, 4], &make.with(&[(EVLRS, 3)]));
    list.refused([13, 3, 2], &make.cut(make.later(1) - 1));
    // without VLRs an EVLR is the first record
    let alone = Make { vlrs: &[], ..make };
    list.refused([13, 4, 2], &alone.cut(alone.end() - 1));
}

/// Document 02, No. 11: a waveform start on both sides of where it may be, packets that end after the
/// file's end or begin at it, numbers after the VLRs'; and headers that say one thing of waveforms without
/// another, or say it in 1.4, where it is no part.
fn packets(list: &mut List) {
    let make = Make {
        minor: 3,
        points: 1,
        later: &[2],
        ..Make::default()
    };
    let (point_end, end) = (make.point_end() as u64, make.end() as u64);
    list.accepted(
        &Make {
            vlrs: &[1],
            gap_before_points: 1,
            gap_after_points: 2,
            rest: 4,
            ..make
        }
        .whole(),
    );
    for start in [point_end - 1, end + 1] {
        list.refused([35, 0, 0], &make.with(&[(WAVEFORM_START, start)]));
    }
    list.refused([13, 0, 1], &make.with(&[(WAVEFORM_START, end)]));
    list.refused([13, 2, 1], &make.cut(make.end() - 1));
    let wraps = u64::MAX - 59 - make.later(0) as u64;
    let after_vlr = Make { vlrs: &[0], ..make };
    let length = after_vlr.later_length(0);
    list.refused([13, wraps, 2], &after_vlr.with(&[(length, wraps)]));
    list.refused(
        [12, 99, 0],
        &make.with(&[(LEGACY_POINTS, 99), (WAVEFORM_START, 1)]),
    );
    for says in [(GLOBAL_ENCODING, 4), (WAVEFORM_START, 0)] {
        list.accepted(&make.with(&[says]));
    }
    let large = Make {
        minor: 4,
        ..Make::default()
    };
    list.accepted(&large.with(&[(GLOBAL_ENCODING, 2), (WAVEFORM_START, 1)]));
}

/// A file in which everything is wrong, and what is refused as one thing after another is mended.
fn order(list: &mut List) {
    let make = Make {
        minor: 4,
        vlrs: &[1],
        points: 1,
        later: &[2],
        ..Make::default()
    };
    let wrong = [
        (SIGNATURE, 0),
        (MINOR, 5),
        (HEADER_SIZE, 65_535),
        (FORMAT, 255),
        (RECORD_LENGTH, 0),
        (POINT_OFFSET, 0),
        (make.vlr_length(0), 65_535),
        (LEGACY_POINTS, 99),
        (EVLR_START, 1),
        (make.later_length(0), 1 << 40),
    ];
    let told = [
        [2, 0, 0],
        [3, 261, 0],
        [1, 65_535, 0],
        [6, 255, 0],
        [8, 0, 0],
        [9, 0, 0],
        [11, 65_535, 1],
        [12, 99, 0],
        [14, 1, 0],
        [13, 1 << 40, 2],
    ];
    for (k, told) in told.into_iter().enumerate() {
        list.refused(told, &make.with(&wrong[k..]));
    }
    // 4 before 5, and 7 before 8
    let make = Make {
        minor: 3,
        ..Make::default()
    };
    list.refused([4, 0, 0], &make.with(&[(HEADER_SIZE, 0), (FORMAT, 11)]));
    list.refused([7, 6, 0], &make.with(&[(FORMAT, 6), (RECORD_LENGTH, 19)]));
}
