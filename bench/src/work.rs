//! What is timed: records of one format, alone and as the points of a whole file, and each piece of work on them
//! done by the published Rust, by the port, and by memcpy of the same bytes.

use crate::by_hand;
use las::{
    PointData, PointDataBuilder,
    point::Format,
    raw::{Header, Point, Vlr, point::Flags},
};
use oracle::{
    capi::{self, PointNumbers},
    format, point,
    records::{self, Lcg},
};
use std::hint::black_box;

pub const HEADER: usize = 375;
const VLRS: usize = 3;
const VLR: usize = 54;
const EVLRS: usize = 3;
pub const EVLR: usize = 60;
pub const POINTS_AT: usize = HEADER + VLRS * VLR;

/// An allowance that the file does not use up.
pub const MANY: u64 = 1_300;

/// Points that are kept as such, for the writers, and records that differ: longer runs repeat them.
const KEPT: usize = 65_536;

/// The classes that records have, and the one that stands for overlap in an old format.
const CLASSES: [u8; 10] = [0, 1, 2, 3, 4, 5, 6, 9, OVERLAP, 17];
const OVERLAP: u8 = 12;

/// Calls of the file check in a pass: one alone is too short for the clock.
pub const CHECKS: usize = 1_000;

/// A 1.4 file with VLRs and EVLRs, what stands for its first points, and where the two sides leave what they
/// make. All of it has been written to before anything is timed.
pub struct Work {
    code: u8,
    format: Format,
    word: u32,
    record: usize,
    count: usize,
    file: Vec<u8>,
    points: Vec<Point>,
    numbers: Vec<PointNumbers>,
    columns: PointData,
    rust_made: Vec<u8>,
    rust_summed: [i64; 3],
    rust_counted: [u64; 281],
    port_made: Vec<u8>,
    port_summed: [i64; 3],
    port_counted: [u64; 281],
}

impl Work {
    pub fn new(code: u8, count: usize) -> Work {
        let format = Format::new(code).expect("a format from 0 to 10");
        let word = format::word(format);
        let record = records::record_len(word);
        let file = file(code, word, record, count);
        let kept = &file[POINTS_AT..][..count.min(KEPT) * record];
        let points: Vec<Point> = kept
            .chunks_exact(record)
            .map(|record| Point::read_from(record, &format).expect("a whole record"))
            .collect();
        let columns = PointDataBuilder::new().with_format(format);
        Work {
            code,
            format,
            word,
            record,
            count,
            numbers: points.iter().map(point::numbers).collect(),
            points,
            columns: columns.build_from_bytes(kept.to_vec()).expect("records"),
            // A format's pair has at most two bytes more.
            rust_made: vec![0xff; file.len() + 2 * count],
            rust_summed: [0; 3],
            rust_counted: [0; 281],
            port_made: vec![0xff; file.len() + 2 * count],
            port_summed: [0; 3],
            port_counted: [0; 281],
            file,
        }
    }

    pub fn record_bytes(&self) -> usize {
        self.record
    }

    fn records(&self) -> &[u8] {
        &self.file[POINTS_AT..][..self.count * self.record]
    }

    /// Both sides have made the same, by now.
    pub fn check_made(&self) {
        assert!(self.rust_made == self.port_made[..self.rust_made.len()]);
        assert_eq!(self.rust_summed, self.port_summed);
        assert_eq!(self.rust_counted, self.port_counted);
    }

    /// The port reads the Rust's numbers of every point that is kept, alone and walking over the file.
    pub fn check_numbers(&self) {
        let (mut place, mut row, mut numbers) = ([0; 7], [0; 3], [0; 24]);
        capi::las_file_walker(&self.file, MANY, &mut place);
        for (record, expected) in self.records().chunks_exact(self.record).zip(&self.numbers) {
            capi::las_point_read(record, self.word, &mut row, &mut numbers);
            assert_eq!((row, &numbers), ([0; 3], expected));
            capi::las_file_next(&self.file, &mut place, &mut row, &mut numbers);
            assert_eq!((row, &numbers), ([0; 3], expected));
        }
    }
}

/// What a 1.4 header says of the rest of its file: VLRs without data after it, then the points, and EVLRs.
pub struct Plan {
    pub code: u8,
    pub record: usize,
    pub vlrs: usize,
    pub count: usize,
    pub evlrs: usize,
    pub evlrs_at: usize,
}

impl Plan {
    pub fn points_at(&self) -> usize {
        HEADER + self.vlrs * VLR
    }

    /// Puts the header into a file of zeros.
    pub fn put(&self, file: &mut [u8]) {
        let mut put = |at: usize, number: &[u8]| file[at..][..number.len()].copy_from_slice(number);
        put(0, b"LASF");
        put(24, &[1, 4]);
        put(94, &(HEADER as u16).to_le_bytes());
        put(96, &(self.points_at() as u32).to_le_bytes());
        put(100, &(self.vlrs as u32).to_le_bytes());
        put(104, &[self.code]);
        put(105, &(self.record as u16).to_le_bytes());
        put(235, &(self.evlrs_at as u64).to_le_bytes());
        put(243, &(self.evlrs as u32).to_le_bytes());
        put(247, &(self.count as u64).to_le_bytes());
    }
}

/// A file of so many records, with VLRs after its header and EVLRs at its end, all of them without data.
pub fn file(code: u8, word: u32, record: usize, count: usize) -> Vec<u8> {
    let evlrs_at = POINTS_AT + count * record;
    let mut file = vec![0; evlrs_at + EVLRS * EVLR];
    let plan = Plan {
        code,
        record,
        vlrs: VLRS,
        count,
        evlrs: EVLRS,
        evlrs_at,
    };
    plan.put(&mut file);
    fill_points(word, record, &mut file[POINTS_AT..evlrs_at]);
    file
}

/// Fills the place of a file's points.
pub fn fill_points(word: u32, record: usize, points: &mut [u8]) {
    let (first, rest) = points.split_at_mut(points.len().min(KEPT * record));
    for (i, bytes) in (0..).zip(first.chunks_exact_mut(record)) {
        fill(word, i, bytes);
    }
    for more in rest.chunks_mut(first.len()) {
        more.copy_from_slice(&first[..more.len()]);
    }
}

/// A record as scanners write them: the time is a number, flags and angle of a new format go into the old one, and
/// those of an old format are some that the Rust keeps too when it writes them in the new one.
fn fill(word: u32, i: u64, bytes: &mut [u8]) {
    let format = format::format(word);
    let mut random = Lcg::new(i);
    random.fill(bytes);
    let class = CLASSES[random.below(CLASSES.len() as u64) as usize];
    if format.is_extended {
        let overlap = if class == OVERLAP { 8 } else { 0 };
        bytes[14] &= 0x77;
        bytes[15] = bytes[15] & 0xc7 | overlap;
        bytes[16] = class;
        let angle = random.below(30_001) as i16 - 15_000;
        bytes[18..20].copy_from_slice(&angle.to_le_bytes());
    } else {
        bytes[14] &= 0x3f;
        bytes[15] = if class == OVERLAP { 1 } else { class };
    }
    if format.has_gps_time {
        let at = if format.is_extended { 22 } else { 20 };
        let time = 2e8 + i as f64 * 1e-5;
        bytes[at..at + 8].copy_from_slice(&time.to_le_bytes());
    }
}

/// The limit: the same bytes moved and nothing else.
impl Work {
    pub fn copy_points(&mut self) {
        let points = &self.file[POINTS_AT..][..self.count * self.record];
        self.port_made[..points.len()].copy_from_slice(black_box(points));
        black_box(&mut self.port_made);
    }

    pub fn copy_file(&mut self) {
        self.port_made[..self.file.len()].copy_from_slice(black_box(&self.file));
        black_box(&mut self.port_made);
    }

    /// The bytes that the file check may look at, as often as it is called.
    pub fn copy_heads(&mut self) {
        for _ in 0..CHECKS {
            let (to, rest) = self.port_made.split_at_mut(POINTS_AT);
            let (heads, file) = black_box(&self.file).split_at(POINTS_AT);
            to.copy_from_slice(heads);
            rest[..EVLRS * EVLR].copy_from_slice(&file[file.len() - EVLRS * EVLR..]);
            black_box(&mut self.port_made);
        }
    }
}

/// The Rust, on slices and on a `Vec` with the room already there: what it is fastest with.
impl Work {
    pub fn rust_read(&mut self) {
        let mut from = self.records();
        for _ in 0..self.count {
            black_box(&Point::read_from(&mut from, &self.format).expect("a whole record"));
        }
    }

    pub fn rust_write(&mut self) {
        self.rust_made.clear();
        for point in &self.points {
            point
                .write_to(&mut self.rust_made, &self.format)
                .expect("a Vec has room");
        }
        black_box(&mut self.rust_made);
    }

    /// The points of the file, by its header.
    fn rust_points(&self, mut see: impl FnMut(Point)) {
        let mut from = &self.file[..];
        let header = Header::read_from(&mut from).expect("a header");
        let mut from = &self.file[header.offset_to_point_data as usize..];
        let count = header
            .large_file
            .expect("a 1.4 header")
            .number_of_point_records;
        for _ in 0..count {
            see(Point::read_from(&mut from, &self.format).expect("a whole record"));
        }
    }

    pub fn rust_walk(&mut self) {
        self.rust_points(|point| {
            black_box(&point);
        });
    }

    pub fn rust_sums(&mut self) {
        let mut sums = [0; 3];
        self.rust_points(|point| add(&mut sums, [point.x, point.y, point.z]));
        self.rust_summed = black_box(sums);
    }

    /// The site sheet of the one file, by its points.
    pub fn rust_sheet(&mut self) {
        let mut counted = [0; 281];
        counted[0] = 1;
        let mut bounds = [i32::MAX, i32::MIN].repeat(3);
        self.rust_points(|point| {
            let (number, class) = match point.flags {
                Flags::TwoByte(a, b) => (a & 0b111, b & 0b1_1111),
                Flags::ThreeByte(a, _, c) => (a & 0b1111, c),
            };
            counted[1] += 1;
            counted[9 + usize::from(class)] += 1;
            counted[265 + usize::from(number)] += 1;
            for (pair, stored) in bounds.chunks_exact_mut(2).zip([point.x, point.y, point.z]) {
                pair[0] = pair[0].min(stored);
                pair[1] = pair[1].max(stored);
            }
        });
        counted[2] = 1;
        for (number, bound) in counted[3..9].iter_mut().zip(bounds) {
            *number = u64::from(bound as u32);
        }
        self.rust_counted = black_box(counted);
    }

    /// The Rust's own columns, which do not read points at all.
    pub fn rust_columns(&mut self) {
        let columns = black_box(&self.columns);
        self.rust_summed = black_box([
            columns.x_raw().map(i64::from).sum(),
            columns.y_raw().map(i64::from).sum(),
            columns.z_raw().map(i64::from).sum(),
        ]);
    }

    /// Each part read and written; the records in between are the points.
    pub fn rust_rewrite(&mut self) {
        let mut from = &self.file[..];
        let to = &mut self.rust_made;
        to.clear();
        let header = Header::read_from(&mut from).expect("a header");
        header.write_to(&mut *to).expect("a Vec has room");
        for _ in 0..header.number_of_variable_length_records {
            let vlr = Vlr::read_from(&mut from, false).expect("a VLR");
            vlr.write_to(&mut *to).expect("a Vec has room");
        }
        for _ in 0..self.count {
            let point = Point::read_from(&mut from, &self.format).expect("a whole record");
            point.write_to(&mut *to, &self.format).expect("room");
        }
        for _ in 0..EVLRS {
            let evlr = Vlr::read_from(&mut from, true).expect("an EVLR");
            evlr.write_to(&mut *to).expect("a Vec has room");
        }
        black_box(&mut self.rust_made);
    }

    fn rust_convert(&mut self, target: u8) {
        let target = Format::new(target).expect("a format from 0 to 10");
        let mut from = &self.file[POINTS_AT..];
        self.rust_made.clear();
        for _ in 0..self.count {
            let point = Point::read_from(&mut from, &self.format).expect("a whole record");
            point
                .write_to(&mut self.rust_made, &target)
                .expect("flags that fit, and a Vec has room");
        }
        black_box(&mut self.rust_made);
    }

    pub fn rust_to_old(&mut self) {
        self.rust_convert(1);
    }

    pub fn rust_to_new(&mut self) {
        self.rust_convert(6);
    }

    /// The least that a check would do: every head is read.
    pub fn rust_check(&mut self) {
        for _ in 0..CHECKS {
            let file = &black_box(&self.file)[..];
            let mut from = file;
            let header = Header::read_from(&mut from).expect("a header");
            for _ in 0..header.number_of_variable_length_records {
                black_box(&Vlr::read_from(&mut from, false).expect("a VLR"));
            }
            let evlr = header.evlr.expect("EVLRs");
            let mut from = &file[evlr.start_of_first_evlr as usize..];
            for _ in 0..evlr.number_of_evlrs {
                black_box(&Vlr::read_from(&mut from, true).expect("an EVLR"));
            }
            black_box(&header);
        }
    }
}

/// Bytes moved by hand, in the Rust's place.
impl Work {
    fn hand_convert(&mut self, record: usize, convert: fn(&[u8], &mut [u8])) {
        self.rust_made.resize(self.count * record, 0);
        let records = &self.file[POINTS_AT..][..self.count * self.record];
        convert(black_box(records), &mut self.rust_made);
        black_box(&mut self.rust_made);
    }

    pub fn hand_to_old(&mut self) {
        self.hand_convert(by_hand::OLD, by_hand::to_old);
    }

    pub fn hand_to_new(&mut self) {
        self.hand_convert(by_hand::NEW, by_hand::to_new);
    }
}

/// A call that converts a run: format byte, extra bytes and count.
type Convert = fn(&[u8], (u8, u16, u64), &mut [u8], &mut capi::Row);

/// The port, through its boundary to C.
impl Work {
    pub fn port_read(&mut self) {
        let (mut row, mut numbers) = ([0; 3], [0; 24]);
        for record in self.records().chunks_exact(self.record) {
            capi::las_point_read(record, self.word, &mut row, &mut numbers);
            assert_eq!(row[0], 0);
            black_box(&mut numbers);
        }
    }

    pub fn port_write(&mut self) {
        let mut row = [0; 3];
        let places = self.port_made.chunks_exact_mut(self.record);
        for (numbers, place) in self.numbers.iter().zip(places) {
            capi::las_point_write(numbers, &[], self.word, place, &mut row);
            assert_eq!(row[0], 0);
        }
        black_box(&mut self.port_made);
    }

    fn port_points(&self, mut see: impl FnMut(&mut PointNumbers)) {
        let (mut place, mut row, mut numbers) = ([0; 7], [0; 3], [0; 24]);
        capi::las_file_walker(&self.file, MANY, &mut place);
        loop {
            capi::las_file_next(&self.file, &mut place, &mut row, &mut numbers);
            if row[0] != 0 {
                break;
            }
            see(&mut numbers);
        }
        assert_eq!(row, [27, self.count as u64, 0]);
    }

    pub fn port_walk(&mut self) {
        self.port_points(|numbers| {
            black_box(numbers);
        });
    }

    pub fn port_sums(&mut self) {
        let mut sums = [0; 3];
        self.port_points(|n| add(&mut sums, [n[0], n[1], n[2]].map(|bits| bits as i32)));
        self.port_summed = black_box(sums);
    }

    pub fn port_sheet(&mut self) {
        let (mut sheet, mut row) = ([0; 281], [0; 3]);
        capi::las_sheet_add(&self.file, MANY, &mut sheet, &mut row);
        assert_eq!(row[0], 0);
        self.port_counted = black_box(sheet);
    }

    pub fn port_rewrite(&mut self) {
        let mut row = [0; 3];
        capi::las_file_rewrite(&self.file, MANY, &mut self.port_made, &mut row);
        assert_eq!(row[0], 0);
        black_box(&mut self.port_made);
    }

    /// Records of format 6, which have 28 bytes each in format 1.
    pub fn port_ask_old(&mut self) {
        let mut row = [u64::MAX; 3];
        let run = (self.code, 0, self.count as u64);
        capi::las_convert_ask_old(black_box(self.records()), run, &mut row);
        assert_eq!(row, [0, (self.count * by_hand::OLD) as u64, 0]);
    }

    fn port_convert(&mut self, convert: Convert) {
        let mut row = [0; 3];
        let records = &self.file[POINTS_AT..][..self.count * self.record];
        let run = (self.code, 0, self.count as u64);
        convert(records, run, &mut self.port_made, &mut row);
        assert_eq!(row[0], 0);
        black_box(&mut self.port_made);
    }

    pub fn port_to_old(&mut self) {
        self.port_convert(capi::las_convert_to_old);
    }

    pub fn port_to_new(&mut self) {
        self.port_convert(capi::las_convert_to_new);
    }

    pub fn port_check(&mut self) {
        for _ in 0..CHECKS {
            let mut row = [u64::MAX; 4];
            capi::las_file_check(black_box(&self.file), MANY, &mut row);
            assert_eq!(row, [0, 0, 0, (VLRS + EVLRS) as u64]);
        }
    }
}

fn add(sums: &mut [i64; 3], xyz: [i32; 3]) {
    for (sum, n) in sums.iter_mut().zip(xyz) {
        *sum += i64::from(n);
    }
}
