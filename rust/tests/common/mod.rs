//! What the tests share: files made by the library's own writers, chance that is the same in every run, and a folder for
//! each test.
#![allow(dead_code)] // each test uses some of it

use inscjarol::{Evlrs, Format, Header, LargeFile, Point, Version, Vlr};
use std::{
    env, fs,
    path::{Path, PathBuf},
    process,
};

/// Numbers that look like chance and are the same in every run.
pub struct Chance(pub u64);

impl Chance {
    pub fn next(&mut self) -> u64 {
        self.0 = self
            .0
            .wrapping_mul(6_364_136_223_846_793_005)
            .wrapping_add(1_442_695_040_888_963_407);
        self.0 >> 32
    }

    pub fn below(&mut self, end: usize) -> usize {
        (self.next() % end.max(1) as u64) as usize
    }
}

/// A file of LAS 1.2 in format 0 with this many points and nothing else.
pub fn plain(points: u32) -> Vec<u8> {
    let mut header = Header::new(Version { major: 1, minor: 2 }).unwrap();
    header.number_of_point_records = points;
    let mut bytes = header.to_vec(&[]).unwrap();
    for x in 0..points {
        let point = Point {
            x: x as i32,
            ..Point::default()
        };
        bytes.extend(point.to_vec(Format::default()).unwrap());
    }
    bytes
}

/// The file of 327 bytes whose parts are told as an example: one VLR with 4 bytes, a gap of 2 bytes, two points.
pub fn two_points() -> Vec<u8> {
    let mut header = Header::new(Version { major: 1, minor: 2 }).unwrap();
    header.offset_to_point_data = 287;
    header.number_of_variable_length_records = 1;
    header.number_of_point_records = 2;
    let mut bytes = header.to_vec(&[]).unwrap();
    bytes.extend(
        Vlr::new(false, "somebody", 1, "", b"data")
            .to_vec()
            .unwrap(),
    );
    bytes.extend(b"\xdd\xcc");
    for x in [3, -3] {
        let point = Point {
            x,
            ..Point::default()
        };
        bytes.extend(point.to_vec(Format::default()).unwrap());
    }
    bytes
}

/// Its parts, as they are listed.
pub const TWO_POINTS: &str =
    "kind start length\nheader 0 227\nvlr 227 58\ngap 285 2\npoints 287 40\n";

/// A file of LAS 1.4 with padding, VLRs, points of a format with extra bytes, EVLRs and gaps.
pub fn rich(code: u8, extra: u16) -> Vec<u8> {
    let format = Format::new(code).unwrap().with_extra_bytes(extra);
    let vlrs = [
        Vlr::new(false, "LASF_Spec", 3, "text", b"hello")
            .to_vec()
            .unwrap(),
        Vlr::new(false, "somebody", 7, "empty", b"")
            .to_vec()
            .unwrap(),
    ]
    .concat();
    let evlrs = [
        Vlr::new(true, "somebody", 8, "", b"abc").to_vec().unwrap(),
        Vlr::new(true, "somebody", 9, "", b"").to_vec().unwrap(),
    ]
    .concat();
    let mut chance = Chance(u64::from(code) + 1);
    let extra_bytes: Vec<u8> = (0..extra).map(|_| chance.next() as u8).collect();
    let mut points = Vec::new();
    for _ in 0..5 {
        let mut record = vec![0; usize::from(format.len().unwrap())];
        for byte in &mut record {
            *byte = chance.next() as u8;
        }
        let read = Point::read(&record, format).unwrap();
        let point = Point {
            extra_bytes: &extra_bytes,
            ..read
        };
        points.extend(point.to_vec(format).unwrap());
    }
    let mut header = Header::new(Version { major: 1, minor: 4 }).unwrap();
    header.header_size = 375 + 3;
    header.offset_to_point_data = 375 + 3 + vlrs.len() as u32 + 4;
    header.number_of_variable_length_records = 2;
    header.point_data_record_format = code;
    header.point_data_record_length = format.len().unwrap();
    header.large_file = Some(LargeFile {
        number_of_point_records: 5,
        ..LargeFile::default()
    });
    header.evlrs = Some(Evlrs {
        start_of_first_evlr: u64::from(header.offset_to_point_data) + points.len() as u64 + 6,
        number_of_evlrs: 2,
    });
    let mut bytes = header.to_vec(b"pad").unwrap();
    bytes.extend(vlrs);
    bytes.extend(b"gap.");
    bytes.extend(points);
    bytes.extend(b"a gap.");
    bytes.extend(evlrs);
    bytes.extend(b"and the rest");
    bytes
}

/// A file of LAS 1.2 in format 1 or 3 that goes to LAS 1.4 and comes back, by chance in all that is free: padding, VLRs, extra
/// bytes and gaps, any counts by return, and any points but for class 28 and for ranks that are not from -90 to 90.
pub fn old(code: u8, chance: &mut Chance) -> Vec<u8> {
    let some = |chance: &mut Chance, most: usize| -> Vec<u8> {
        let count = chance.below(most + 1);
        (0..count).map(|_| chance.next() as u8).collect()
    };
    let padding = some(chance, 9);
    let mut vlrs = Vec::new();
    let count = chance.below(4) as u32;
    for number in 0..count {
        let data = some(chance, 40);
        let vlr = Vlr::new(false, "somebody", number as u16, "by chance", &data);
        vlrs.extend(vlr.to_vec().unwrap());
    }
    vlrs.extend(some(chance, 9));
    let format = Format::new(code)
        .unwrap()
        .with_extra_bytes(chance.below(4) as u16);
    let length = usize::from(format.len().unwrap());
    let points = chance.below(7);

    let mut header = Header::new(Version { major: 1, minor: 2 }).unwrap();
    header.header_size = 227 + padding.len() as u16;
    header.offset_to_point_data = u32::from(header.header_size) + vlrs.len() as u32;
    header.number_of_variable_length_records = count;
    header.point_data_record_format = code;
    header.point_data_record_length = length as u16;
    header.number_of_point_records = points as u32;
    let mut bytes = header.to_vec(&padding).unwrap();
    for place in (4..24).chain(26..94).chain(111..227) {
        bytes[place] = chance.next() as u8;
    }
    bytes.extend(vlrs);
    for _ in 0..points {
        let mut record: Vec<u8> = (0..length).map(|_| chance.next() as u8).collect();
        if record[15] % 32 == 28 {
            record[15] -= 1;
        }
        record[16] = (chance.below(181) as i8).wrapping_sub(90) as u8;
        bytes.extend(record);
    }
    bytes.extend(some(chance, 9));
    bytes
}

/// A file of LAS 1.3 with a VLR, two points, and the waveform packets in it, with gaps around them.
pub fn waveforms() -> Vec<u8> {
    let format = Format::new(4).unwrap();
    let vlr = Vlr::new(false, "LASF_Spec", 100, "packet", &[8; 26]);
    let packets = Vlr::new(true, "LASF_Spec", 65_535, "waveforms", b"0123456789");
    let mut header = Header::new(Version { major: 1, minor: 3 }).unwrap();
    header.global_encoding = 2;
    header.offset_to_point_data = 235 + 80;
    header.number_of_variable_length_records = 1;
    header.point_data_record_format = 4;
    header.point_data_record_length = 57;
    header.number_of_point_records = 2;
    header.start_of_waveform_data_packet_record = Some(235 + 80 + 2 * 57 + 3);
    let mut bytes = header.to_vec(&[]).unwrap();
    bytes.extend(vlr.to_vec().unwrap());
    for x in [3, -3] {
        let point = Point {
            x,
            ..Point::default()
        };
        bytes.extend(point.to_vec(format).unwrap());
    }
    bytes.extend(b"gap");
    bytes.extend(packets.to_vec().unwrap());
    bytes.extend(b"rest");
    bytes
}

/// Its parts, as they are listed.
pub const WAVEFORMS: &str = "kind start length\nheader 0 235\nvlr 235 80\npoints 315 114\n\
    gap 429 3\nwaveform 432 70\ngap 502 4\n";

/// The folder of the repository, above the package that is tested.
pub fn repository() -> PathBuf {
    let here = Path::new(env!("CARGO_MANIFEST_DIR"));
    let above = here.ancestors().find(|path| path.join("samples").is_dir());
    above.unwrap().to_path_buf()
}

/// The sample that the repository ships.
pub fn sample() -> PathBuf {
    repository().join("samples/stockpile.las")
}

/// A folder for one test, removed when it ends.
pub struct Folder(PathBuf);

impl Folder {
    pub fn new(test: &str) -> Folder {
        let path = env::temp_dir().join(format!("inscjarol-{}-{test}", process::id()));
        let _ = fs::remove_dir_all(&path);
        fs::create_dir_all(&path).unwrap();
        Folder(path)
    }

    pub fn join(&self, name: &str) -> PathBuf {
        self.0.join(name)
    }

    /// Puts a file there.
    pub fn put(&self, name: &str, bytes: &[u8]) -> PathBuf {
        let path = self.join(name);
        fs::write(&path, bytes).unwrap();
        path
    }

    /// The names of all that is there, in order.
    pub fn names(&self) -> Vec<String> {
        let entries = fs::read_dir(&self.0).unwrap();
        let mut names: Vec<String> = entries
            .map(|entry| entry.unwrap().file_name().into_string().unwrap())
            .collect();
        names.sort();
        names
    }
}

impl Drop for Folder {
    fn drop(&mut self) {
        let _ = fs::remove_dir_all(&self.0);
    }
}
