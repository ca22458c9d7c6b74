//! Whole files, from LAS 1.2 to 1.4 and back, beside the conversion of their points alone: header and VLRs are to cost next to
//! nothing, and a point the same however many there are.

use crate::work;
use las::{
    Version,
    point::Format,
    raw::{Header, Point, Vlr, header::LargeFile},
};
use oracle::{capi, format, records};
use std::hint::black_box;

const VLRS: usize = 3;
const VLR: usize = 54;

/// A way to go: from a version and a format to the others.
#[derive(Clone, Copy)]
pub struct Way {
    pub name: &'static str,
    minor: u8,
    code: u8,
    target: u8,
    whole: fn(&[u8], u64, &mut [u8], &mut capi::Row),
    points: fn(&[u8], (u8, u16, u64), &mut [u8], &mut capi::Row),
}

pub const WAYS: [Way; 2] = [
    Way {
        name: "1.4, format 6, to 1.2, format 1",
        minor: 4,
        code: 6,
        target: 1,
        whole: capi::las_file_to_old,
        points: capi::las_convert_to_old,
    },
    Way {
        name: "1.2, format 1, to 1.4, format 6",
        minor: 2,
        code: 1,
        target: 6,
        whole: capi::las_file_to_new,
        points: capi::las_convert_to_new,
    },
];

/// A file with VLRs without data and so many points, and where each contender leaves what it makes. All of it has been written to
/// before anything is timed.
pub struct Work {
    way: Way,
    count: usize,
    points_at: usize,
    file: Vec<u8>,
    whole: Vec<u8>,
    points: Vec<u8>,
    rust: Vec<u8>,
    copied: Vec<u8>,
}

impl Work {
    pub fn new(way: Way, count: usize) -> Work {
        let word = format::word(Format::new(way.code).expect("a format from 0 to 10"));
        let record = records::record_len(word);
        let header = usize::from(Version::new(1, way.minor).header_size());
        let points_at = header + VLRS * VLR;
        let mut file = vec![0; points_at + count * record];
        let mut put = |at: usize, number: &[u8]| file[at..][..number.len()].copy_from_slice(number);
        put(0, b"LASF");
        put(24, &[1, way.minor]);
        put(94, &(header as u16).to_le_bytes());
        put(96, &(points_at as u32).to_le_bytes());
        put(100, &(VLRS as u32).to_le_bytes());
        put(104, &[way.code]);
        put(105, &(record as u16).to_le_bytes());
        match way.minor {
            4 => put(247, &(count as u64).to_le_bytes()),
            _ => put(107, &(count as u32).to_le_bytes()),
        }
        work::fill_points(word, record, &mut file[points_at..]);
        let mut row = [u64::MAX; 3];
        (way.whole)(&file, u64::MAX, &mut [], &mut row);
        let [22, made, 0] = row else {
            panic!("the file goes: {row:?}")
        };
        let made = made as usize;
        Work {
            way,
            count,
            points_at,
            whole: vec![0xff; made],
            points: vec![0xff; made],
            rust: vec![0xff; made],
            copied: vec![0xff; file.len()],
            file,
        }
    }

    /// All sides have made the same, by now.
    pub fn check_made(&self) {
        let header = usize::from(Version::new(1, 6 - self.way.minor).header_size());
        let points = self.whole.len() - (header + VLRS * VLR);
        assert!(self.whole == self.rust);
        assert!(self.whole[self.whole.len() - points..] == self.points[..points]);
    }

    /// The whole file, in one call.
    pub fn whole(&mut self) {
        let mut row = [u64::MAX; 3];
        (self.way.whole)(black_box(&self.file), u64::MAX, &mut self.whole, &mut row);
        assert_eq!(row, [0, self.whole.len() as u64, 0]);
        black_box(&mut self.whole);
    }

    /// Its points alone, in one call.
    pub fn points(&mut self) {
        let mut row = [u64::MAX; 3];
        let run = (self.way.code, 0, self.count as u64);
        let records = &black_box(&self.file)[self.points_at..];
        (self.way.points)(records, run, &mut self.points, &mut row);
        assert_eq!(row[0], 0);
        black_box(&mut self.points);
    }

    /// What one would write with las: header, VLRs and points read, changed and written.
    pub fn rust(&mut self) {
        let to = &mut self.rust;
        to.clear();
        let mut from = &black_box(&self.file)[..];
        let mut header = Header::read_from(&mut from).expect("a header");
        let format = Format::new(header.point_data_record_format).expect("a format from 0 to 10");
        let target = Format::new(self.way.target).expect("a format from 0 to 10");
        let version = Version::new(1, 6 - self.way.minor);
        let (was, is) = (header.header_size, version.header_size());
        header.version = version;
        header.header_size = is;
        header.offset_to_point_data = header.offset_to_point_data - u32::from(was) + u32::from(is);
        header.point_data_record_format = self.way.target;
        header.point_data_record_length = target.len();
        match header.large_file.take() {
            Some(large) => header.number_of_point_records = large.number_of_point_records as u32,
            None => {
                header.large_file = Some(LargeFile {
                    number_of_point_records: u64::from(header.number_of_point_records),
                    ..LargeFile::default()
                });
                header.number_of_point_records = 0;
            }
        }
        header.write_to(&mut *to).expect("a Vec has room");
        for _ in 0..header.number_of_variable_length_records {
            let vlr = Vlr::read_from(&mut from, false).expect("a VLR");
            vlr.write_to(&mut *to).expect("a Vec has room");
        }
        for _ in 0..self.count {
            let point = Point::read_from(&mut from, &format).expect("a whole record");
            point
                .write_to(&mut *to, &target)
                .expect("flags that fit, and a Vec has room");
        }
        black_box(&mut self.rust);
    }

    /// The limit: the file's bytes moved and nothing else.
    pub fn copy(&mut self) {
        self.copied.copy_from_slice(black_box(&self.file));
        black_box(&mut self.copied);
    }
}
