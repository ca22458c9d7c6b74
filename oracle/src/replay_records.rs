//! The replay list of records: points, VLRs and headers that the Rust reads and writes, for the
//! program of crates/replay_records, which must write the lines of its `stdout`.
//!
//! A slot has 512 bytes: five words, little-endian, which are kind, x, y, room and count, then
//! `count` bytes, then zeros. A line begins with `read`, `end` or `write` and the number and the
//! value of the answer; if the number is 0 the numbers of the record follow in decimal, and its
//! bytes as an x and two hexadecimal digits each. What is refused is not written.
//!
//! Every line is the Rust's, but for these, of which the Rust says only that it fails, and must
//! fail: the value of 1, bytes wanted in all, and 22, no room. There document 01's rule is written
//! out in the modules `point`, `vlr` and `header`. And near infrared 0 is read as a number, by document
//! 02's No. 5, where the Rust has none. What the Rust can't be asked is not in the list:
//! versions outside 1.0 to 1.4, overlong formats, extra bytes or data of another count than stated,
//! lengths that no memory holds, ends of points of 2^64 or more.

use crate::{
    answer::Answer,
    format, header,
    point::{self, Writing},
    records::{self, FEW, Lcg, record_len},
    replay,
    report::Tally,
    vlr,
};
use las::{
    Error,
    raw::{Header, Vlr, vlr::RecordLength},
};
use std::{collections::HashSet, io, path::Path};

/// The bytes of a slot, of its words, and the most room that a slot may ask for.
const SLOT: usize = 512;
const WORDS: usize = 20;
const ROOM: usize = 512;

/// f64 patterns that a careless float would not keep: NaNs of both sorts and signs with payloads,
/// infinities, zeros, subnormals and the largest number.
const F64: [u64; 12] = [
    0x7ff8_0000_0000_0000,
    0xfff8_0000_0000_0000,
    0x7ff8_0123_4567_89ab,
    0x7ff0_0000_0000_0001,
    0xfff4_dead_beef_cafe,
    0x7fff_ffff_ffff_ffff,
    0x7ff0_0000_0000_0000,
    0xfff0_0000_0000_0000,
    0x8000_0000_0000_0000,
    0x0000_0000_0000_0001,
    0x800f_ffff_ffff_ffff,
    0x7fef_ffff_ffff_ffff,
];

/// f32 patterns of the same kinds.
const F32: [u32; 8] = [
    0x7fc0_0000,
    0xffc1_2345,
    0x7f80_0001,
    0xffbf_ffff,
    0x7f80_0000,
    0x8000_0000,
    0x0000_0001,
    0x7f7f_ffff,
];

/// Slots and lines, in the order asked. Asking twice adds nothing.
#[derive(Default)]
struct List {
    asked: HashSet<Vec<u8>>,
    /// Points whose near infrared is 0, which the Rust reads as none.
    zeros: u64,
    stdin: Vec<u8>,
    stdout: String,
}

impl List {
    /// Adds a slot, unless it is there.
    fn slot(&mut self, words: [u32; 3], room: usize, bytes: &[u8]) -> bool {
        assert!(WORDS + bytes.len() <= SLOT && room <= ROOM);
        let [kind, x, y] = words;
        let mut slot = Vec::with_capacity(SLOT);
        for word in [kind, x, y, room as u32, bytes.len() as u32] {
            slot.extend(word.to_le_bytes());
        }
        slot.extend(bytes);
        slot.resize(SLOT, 0);
        let fresh = self.asked.insert(slot.clone());
        if fresh {
            self.stdin.extend(slot);
        }
        fresh
    }

    /// Adds a line: numbers and bytes follow where nothing is refused.
    fn line(&mut self, name: &str, answer: Answer, numbers: &[u64], bytes: &[&[u8]]) {
        self.stdout += &format!("{name} {} {}", answer.number, answer.value);
        if answer.number == 0 {
            for n in numbers {
                self.stdout += &format!(" {n}");
            }
            for bytes in bytes {
                self.stdout += " x";
                for byte in *bytes {
                    self.stdout += &format!("{byte:02x}");
                }
            }
        }
        self.stdout += "\n";
    }

    /// Adds the line of a write of `bytes` into `room`, the Rust's unless there is too little.
    fn written(&mut self, bytes: &[u8], room: usize) {
        let len = bytes.len() as u64;
        let answer = if room < bytes.len() {
            Answer::refusal(22, len)
        } else {
            Answer::result(len)
        };
        self.line("write", answer, &[], &[bytes]);
    }

    /// Asks for a point, read in one format and written in another.
    fn point(&mut self, from: u32, to: u32, room: usize, bytes: &[u8]) {
        assert!(from >> 16 == to >> 16, "the Rust panics");
        if !self.slot([1, from, to], room, bytes) {
            return;
        }
        let point = match point::rust_read(from, bytes) {
            Ok(point) => point,
            Err(refusal) => return self.line("read", refusal, &[], &[]),
        };
        let (numbers, zero) = point::numbers_read(&format::format(from), &point);
        self.zeros += u64::from(zero);
        let read = Answer::result(0u8);
        self.line("read", read, &numbers, &[&point.extra_bytes]);
        // Of near infrared 0 the Rust writes what it read, which is none, and the port 0: the same bits.
        let writing = Writing {
            word: to,
            point: &point,
            numbers: &numbers,
            room,
        };
        let mut dst = Vec::new();
        let answer = writing.rust(&mut dst);
        dst.truncate(answer.value as usize);
        self.line("write", answer, &[], &[&dst]);
    }

    /// Asks for a point into just enough room.
    fn point_into(&mut self, from: u32, to: u32, bytes: &[u8]) {
        self.point(from, to, record_len(to), bytes);
    }

    /// Asks for a VLR or EVLR, written as either.
    fn vlr(&mut self, from: bool, to: bool, room: usize, bytes: &[u8]) {
        if !self.slot([2, from.into(), to.into()], room, bytes) {
            return;
        }
        let case = vlr::Case {
            bytes: bytes.to_vec(),
            extended: from,
        };
        assert!(case.stated().is_none_or(|n| n <= 1 << 16), "not asked");
        let mut rest = bytes;
        let Ok(mut vlr) = Vlr::read_from(&mut rest, from) else {
            return self.line("read", Answer::refusal(1, case.wanted()), &[], &[]);
        };
        let read = taken(bytes, rest);
        let head = vlr::head_of(&vlr);
        let texts: [&[u8]; 3] = [&head.user_id, &head.description, &vlr.data];
        self.line("read", read, &head.numbers, &texts);
        let length = vlr::length(&vlr);
        vlr.record_length_after_header = match to {
            true => RecordLength::Evlr(length),
            false => RecordLength::Vlr(length as u16),
        };
        let mut written = Vec::new();
        vlr.write_to(&mut written).expect("a Vec takes every byte");
        let fits = vlr.write_to(&mut vec![0; room][..]).is_ok();
        assert_eq!(fits, written.len() <= room);
        self.written(&written, room);
    }

    /// Asks for a header, written as one of version 1.`minor`.
    fn header(&mut self, minor: u8, room: usize, bytes: &[u8]) {
        if !self.slot([3, 0, minor.into()], room, bytes) {
            return;
        }
        let judged = header::judged(bytes);
        let mut rest = bytes;
        let mut header = match Header::read_from(&mut rest) {
            Ok(header) => header,
            Err(error) => {
                match error {
                    Error::InvalidFileSignature(found) => {
                        assert_eq!(judged, Answer::refusal(2, u32::from_le_bytes(found)));
                    }
                    _ => assert_eq!(judged.number, 1),
                }
                return self.line("read", judged, &[], &[]);
            }
        };
        let read = taken(bytes, rest);
        assert_eq!(judged, read, "the Rust reads what document 01 refuses");
        let of = header::numbers(&header);
        let texts: [&[u8]; 4] = [
            &of.guid,
            &of.system_identifier,
            &of.generating_software,
            &header.padding,
        ];
        self.line("read", read, &of.numbers, &texts);
        let end = header::end_of_points(&header);
        assert_eq!(end.number, 0, "the Rust's sum wraps");
        self.line("end", end, &[], &[]);
        header.version.minor = minor;
        let mut written = Vec::new();
        header
            .write_to(&mut written)
            .expect("a Vec takes every byte");
        let fits = header.write_to(&mut vec![0; room][..]).is_ok();
        assert_eq!(fits, written.len() <= room);
        self.written(&written, room);
    }
}

/// Makes the list afresh, and writes it into the folder or compares it with what the folder has.
pub fn compare(tally: &mut Tally, folder: &Path, write: bool) -> io::Result<()> {
    let mut list = List::default();
    points(&mut list);
    point_flags(&mut list);
    point_angles(&mut list);
    point_floats(&mut list);
    point_ends(&mut list);
    vlrs(&mut list);
    headers(&mut list);
    header_fields(&mut list);
    header_ends(&mut list);
    println!(
        "replay list of records: {}, {} of them points with near infrared 0, by rule",
        list.asked.len(),
        list.zeros
    );
    replay::keep(tally, folder, write, list.stdin, list.stdout)
}

/// How many bytes the Rust took of those that it was lent, if it left `rest`.
fn taken(bytes: &[u8], rest: &[u8]) -> Answer {
    Answer::result((bytes.len() - rest.len()) as u64)
}

/// The word of the format with a code and a count of extra bytes.
fn coded(code: usize, extra_bytes: u32) -> u32 {
    records::coded()[code * FEW.len()] | extra_bytes << 16
}

/// The `i`-th record of a format.
fn record(word: u32, i: u64) -> Vec<u8> {
    let mut bytes = vec![0; record_len(word)];
    records::fill(word, i, &mut bytes);
    bytes
}

/// A record of a format with some bytes at a place, all else the same in every run.
fn record_with(word: u32, at: usize, bytes: &[u8]) -> Vec<u8> {
    let mut of = record(word, 0);
    of[at..at + bytes.len()].copy_from_slice(bytes);
    if format::format(word).is_extended && !(14..17).contains(&at) {
        // flags that two bytes hold, so that what is tried at the place is written
        of[14..17].copy_from_slice(&[0x21, 0x45, 2]);
    }
    of
}

/// Every format with a code, and every attribute set, compressed too and with bits that mean nothing
/// in its word, back into itself; each code into each code; zeros and ones.
fn points(list: &mut List) {
    for (i, word) in (0u64..).zip(records::coded()) {
        let bytes = record(word, i);
        list.point_into(word, word, &bytes);
        // something after the record, and more room than it takes
        list.point(
            word,
            word,
            record_len(word) + 3,
            &[&bytes[..], b"past"].concat(),
        );
    }
    for code in 0..=10 {
        let word = coded(code, 1);
        for fill in [0x00, 0xff] {
            list.point_into(word, word, &vec![fill; record_len(word)]);
        }
    }
    for set in 0..=format::ATTRIBUTES {
        let word = records::with_ignored(set | FEW[set as usize % 4] << 16, 2 * u64::from(set) + 1);
        list.point_into(word, word, &record(word, u64::from(set) + 64));
    }
    for from in 0..=10 {
        for to in 0..=10 {
            let extra = FEW[(from + to) % 4];
            let (from, to) = (coded(from, extra), coded(to, extra));
            list.point_into(from, to, &record_with(from, 0, &[0x78, 0x56, 0x34, 0x92]));
        }
    }
}

/// Flags: each field at its ends, in both widths, written into both; what two bytes do not hold, in
/// the order in which it is told; too little room, which is told first.
fn point_flags(list: &mut List) {
    let (old, extended) = (coded(0, 0), coded(6, 0));
    let mut three: Vec<[u8; 3]> = vec![[0x21, 0x48, 2], [0x11, 0, 2], [0x81, 0, 2]];
    for returns in [0x00, 0x07, 0x08, 0x0f, 0x70, 0x77, 0x78, 0x80, 0x88, 0xf0] {
        three.push([returns, 0, 2]);
    }
    for class in [0, 1, 11, 12, 13, 27, 28, 29, 31, 32, 44, 255] {
        three.extend([[0x11, 0x00, class], [0x11, 0x08, class]]);
    }
    three.extend((0..8).map(|bit| [0x11, 1 << bit, 2]));
    three.extend([0xff, 0x88, 0x81, 0x11].map(|returns| [returns, 0x10, 40]));
    three.extend([[0x11, 0x30, 31], [0x11, 0x10, 32], [0x77, 0xcf, 12]]);
    for bytes in three {
        let record = record_with(extended, 14, &bytes);
        list.point_into(extended, old, &record);
        list.point_into(extended, extended, &record);
    }
    let mut two: Vec<[u8; 2]> = vec![[0, 0], [0x51, 0x22], [0xff, 0xff], [0x09, 0x1c]];
    two.extend((0..8).flat_map(|bit| [[1 << bit, 0], [0, 1 << bit]]));
    two.extend([11, 12, 13, 28, 31].map(|class| [0xd1, class]));
    for bytes in two {
        let record = record_with(old, 14, &bytes);
        list.point_into(old, old, &record);
        list.point_into(old, extended, &record);
    }
    for room in [0, 13, 14, 15, 19, 20] {
        let record = record_with(extended, 14, &[0x88, 0x10, 40]);
        list.point(extended, old, room, &record);
    }
}

/// Angles on both sides of what document 01 names, from each kind into each.
fn point_angles(list: &mut List) {
    let (old, extended) = (coded(1, 0), coded(6, 0));
    let scaled: [i16; 14] = [
        0, 83, 84, 249, 250, -249, -250, 500, 21_249, 21_250, -21_416, -21_417, 32_767, -32_768,
    ];
    for n in scaled {
        let record = record_with(extended, 18, &n.to_le_bytes());
        list.point_into(extended, old, &record);
        list.point_into(extended, extended, &record);
    }
    for rank in [0, 1, 3, -1, -3, 90, -90, 127, -128i8] {
        let record = record_with(old, 16, &rank.to_le_bytes());
        list.point_into(old, extended, &record);
        list.point_into(old, old, &record);
    }
}

/// Every float of a point with patterns of every kind, near infrared 0, and a waveform of zeros.
fn point_floats(list: &mut List) {
    for (old, extended) in [(coded(1, 0), coded(6, 0)), (coded(5, 1), coded(10, 1))] {
        for bits in F64 {
            let time = bits.to_le_bytes();
            list.point_into(old, extended, &record_with(old, 20, &time));
            list.point_into(extended, old, &record_with(extended, 22, &time));
        }
    }
    for (from, to) in [(4, 9), (10, 5)] {
        let (from, to) = (coded(from, 0), coded(to, 0));
        let end = record_len(from);
        for float in 1..=4 {
            for bits in F32 {
                let record = record_with(from, end - 4 * float, &bits.to_le_bytes());
                list.point_into(from, to, &record);
            }
        }
        list.point_into(from, to, &record_with(from, end - 29, &[0; 29]));
    }
    for (from, at) in [(coded(8, 0), 36), (coded(10, 0), 36)] {
        for nir in [0u16, 1, 0x100, 0xffff] {
            let record = record_with(from, at, &nir.to_le_bytes());
            for to in [3, 7, 8, 10] {
                list.point_into(from, coded(to, 0), &record);
            }
        }
    }
}

/// Records cut near their end, the longest everywhere; destinations likewise, the shortest.
fn point_ends(list: &mut List) {
    for code in 0..=10 {
        for extra in [0, 7] {
            let word = coded(code, extra);
            let len = record_len(word);
            let longer = [&record(word, 1_000)[..], &[0xee; 1]].concat();
            for n in 0..=len + 1 {
                let telling = n == 0 || n + 2 >= len;
                if telling || (code, extra) == (10, 7) {
                    list.point_into(word, word, &longer[..n]);
                }
                if telling || (code, extra) == (0, 0) {
                    list.point(word, word, n, &longer[..len]);
                }
            }
        }
    }
}

/// A VLR or EVLR with these texts that states `length` and has `data` bytes.
fn vlr_bytes(extended: bool, user_id: &[u8], length: u64, data: usize) -> Vec<u8> {
    let mut bytes = vec![0; vlr::head(extended) + data];
    Lcg::new(length).fill(&mut bytes);
    bytes[2..18].fill(0);
    bytes[2..2 + user_id.len()].copy_from_slice(user_id);
    let stated = length.to_le_bytes();
    let width = if extended { 8 } else { 2 };
    bytes[20..20 + width].copy_from_slice(&stated[..width]);
    bytes
}

/// VLRs and EVLRs: data of several lengths, whole, cut and with something after; every cut near the
/// ends of their fields; written as either kind, with room and without.
fn vlrs(list: &mut List) {
    for from in [false, true] {
        let head = vlr::head(from);
        for data in [0, 1, 256, 300, 432] {
            let bytes = vlr_bytes(from, b"LASF_Projection", data as u64, data);
            for to in [false, true] {
                list.vlr(from, to, vlr::head(to) + data, &bytes);
                list.vlr(from, to, ROOM, &bytes);
            }
            for cut in [1, 2].into_iter().filter(|&n| n <= data) {
                list.vlr(from, from, ROOM, &bytes[..head + data - cut]);
            }
            if data < 432 {
                list.vlr(from, from, ROOM, &[&bytes[..], b"+"].concat());
            }
        }
        let bytes = vlr_bytes(from, b"0123456789abcdef", 1, 1);
        for len in (0..=3).chain(17..=30).chain(head - 7..=head + 1) {
            list.vlr(from, from, ROOM, &bytes[..len]);
        }
        for stated in [1, 301, 65_535] {
            list.vlr(from, from, ROOM, &vlr_bytes(from, b"", stated, 0));
            list.vlr(from, from, ROOM, &vlr_bytes(from, b"", stated, 300));
        }
        list.vlr(from, from, ROOM, &vec![0; head]);
        list.vlr(from, from, ROOM, &[&[0xff; 20][..], &[0; 40]].concat());
        for data in [0, 1, 300] {
            let bytes = vlr_bytes(from, b"LASF_Spec", data as u64, data);
            for to in [false, true] {
                let len = vlr::head(to) + data;
                for room in [0, 53, 59, len - 1, len + 1] {
                    list.vlr(from, to, room, &bytes);
                }
            }
        }
    }
    // the length that only an EVLR states: one more than 16 bits hold
    list.vlr(true, true, ROOM, &vlr_bytes(true, b"", 65_536, 300));
}

/// A header of a version, with its size field, and `len` bytes: all fields without pattern, the
/// floats of every kind, and an end of points that 64 bits hold.
fn header_bytes(i: u64, minor: u8, field: usize, len: usize) -> Vec<u8> {
    let mut lcg = Lcg::new(i);
    let mut bytes = vec![0; 492];
    lcg.fill(&mut bytes);
    bytes[..4].copy_from_slice(b"LASF");
    bytes[24..26].copy_from_slice(&[1, minor]);
    bytes[94..96].copy_from_slice(&(field as u16).to_le_bytes());
    for float in bytes[131..227].chunks_exact_mut(8) {
        float.copy_from_slice(&lcg.f64_bits().to_le_bytes());
    }
    bytes[253..255].fill(0);
    bytes.truncate(len);
    bytes
}

fn standard(minor: u8) -> usize {
    header::standard(1, minor).expect("a version that there is")
}

/// A whole header of a version, with `past` bytes of padding, and something put at a place.
fn header_with(minor: u8, past: usize, puts: &[(usize, &[u8])]) -> Vec<u8> {
    let end = standard(minor) + past;
    let mut bytes = header_bytes(u64::from(minor), minor, end, end);
    for (at, put) in puts {
        bytes[*at..at + put.len()].copy_from_slice(put);
    }
    bytes
}

/// Headers of each version, with size fields below, at and above the standard, and written as
/// headers of each version.
fn headers(list: &mut List) {
    for minor in 0..=4 {
        let size = standard(minor);
        for (i, field) in [0, 1, 226, size - 1, size, size + 1, size + 20, size + 100]
            .into_iter()
            .enumerate()
        {
            let i = 100 * u64::from(minor) + i as u64;
            list.header(minor, ROOM, &header_bytes(i, minor, field, 492));
            list.header(minor, ROOM, &header_bytes(i, minor, field, size.max(field)));
        }
        for to in 0..=4 {
            for past in [0, 5] {
                list.header(to, standard(to) + past, &header_with(minor, past, &[]));
            }
        }
    }
}

/// Fields that are read in a way of their own: the signature, what may be missing, the counts, and
/// the floats.
fn header_fields(list: &mut List) {
    for at in 0..4 {
        for byte in [0, b'l', 0xff] {
            list.header(2, ROOM, &header_with(2, 0, &[(at, &[byte])]));
        }
    }
    for start in [0u64, 1, u64::MAX] {
        for minor in [3, 4] {
            let put = (227, &start.to_le_bytes()[..]);
            list.header(minor, ROOM, &header_with(minor, 0, &[put]));
        }
    }
    for start in [0u64, 7, u64::MAX] {
        for count in [0u32, 7, u32::MAX] {
            let pair = [&start.to_le_bytes()[..], &count.to_le_bytes()].concat();
            list.header(4, ROOM, &header_with(4, 0, &[(235, &pair)]));
        }
    }
    // the end of points: offset at 96, record length at 105, legacy count at 107, large at 247
    for legacy in [0u32, 1, u32::MAX] {
        for large in [0u64, 1, 1 << 32, u64::MAX / 65_535 - 65_537] {
            for (offset, length) in [(0u32, 1u16), (u32::MAX, u16::MAX)] {
                let puts: [(usize, &[u8]); 4] = [
                    (96, &offset.to_le_bytes()),
                    (105, &length.to_le_bytes()),
                    (107, &legacy.to_le_bytes()),
                    (247, &large.to_le_bytes()),
                ];
                list.header(4, ROOM, &header_with(4, 0, &puts));
            }
        }
        let puts: [(usize, &[u8]); 2] = [(107, &legacy.to_le_bytes()), (105, &[20, 0])];
        for minor in [0, 2, 3] {
            list.header(minor, ROOM, &header_with(minor, 0, &puts));
        }
    }
    // each float has each pattern once
    for turn in 0..F64.len() {
        let floats: Vec<u8> = (0..12)
            .flat_map(|k| F64[(k + turn) % F64.len()].to_le_bytes())
            .collect();
        let minor = (turn % 5) as u8;
        list.header(minor, ROOM, &header_with(minor, 0, &[(131, &floats)]));
    }
}

/// Headers cut near the ends that the rules name, and destinations likewise.
fn header_ends(list: &mut List) {
    for minor in 0..=4 {
        let size = standard(minor);
        let bytes = header_with(minor, 9, &[]);
        let ends = [0, 4, 24, 26, 94, 96, 227, 235, 375, size, size + 9];
        let near = |n: &usize| ends.iter().any(|&end| n + 1 >= end && *n <= end + 1);
        for n in (0..=bytes.len()).filter(near) {
            list.header(minor, ROOM, &bytes[..n]);
        }
        let rooms = [0, 4, 226, 227, 235, size, size + 8, size + 9, size + 10];
        for room in rooms {
            list.header(minor, room, &bytes);
        }
        // a size field that no slot holds
        list.header(minor, ROOM, &header_bytes(9, minor, 65_535, 492));
    }
}
