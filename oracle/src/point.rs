//! Points, read and written: `Point` of src/raw/point.rs.

use crate::{
    angle,
    answer::{Answer, unnumbered},
    call::noise,
    capi::{self, PointNumbers},
    flags,
    format::{self, LONGEST},
    records::{self, Lcg, record_len},
    report::{Report, Tally},
};
use las::{
    Color, Error,
    point::Format,
    raw::{Point, point::Waveform},
};
use std::io::ErrorKind;

/// What numbers and destinations hold before a call, and what it must leave where it answers
/// nothing. No number of a point has all these bits.
const BEFORE: u64 = 0xa5a5_a5a5_a5a5_a5a5;
const BEFORE_BYTE: u8 = 0xa5;

/// Where the numbers say whether near infrared is there, and what it is.
pub(crate) const HAS_NIR: usize = 14;
pub(crate) const NIR: usize = 15;

/// The 24 numbers that stand for a point. What is missing is zeros.
// Inlined, as is `point`, so that bench/ can time the Rust at its best.
#[inline]
pub fn numbers(point: &Point) -> PointNumbers {
    // Taken apart in full, so that a field of the Rust's can't be left out unnoticed. The extra
    // bytes have calls of their own.
    let &Point {
        x,
        y,
        z,
        intensity,
        flags,
        scan_angle,
        user_data,
        point_source_id,
        gps_time,
        color,
        waveform,
        nir,
        extra_bytes: _,
    } = point;
    let has = u64::from;
    let Color { red, green, blue } = color.unwrap_or(Color::new(0, 0, 0));
    let Waveform {
        wave_packet_descriptor_index,
        byte_offset_to_waveform_data,
        waveform_packet_size_in_bytes,
        return_point_waveform_location,
        x_t,
        y_t,
        z_t,
    } = waveform.unwrap_or_default();
    [
        u64::from(x as u32),
        u64::from(y as u32),
        u64::from(z as u32),
        u64::from(intensity),
        u64::from(flags::word(flags)),
        u64::from(angle::word(scan_angle)),
        u64::from(user_data),
        u64::from(point_source_id),
        has(gps_time.is_some()),
        gps_time.map_or(0, f64::to_bits),
        has(color.is_some()),
        u64::from(red),
        u64::from(green),
        u64::from(blue),
        has(nir.is_some()),
        u64::from(nir.unwrap_or(0)),
        has(waveform.is_some()),
        u64::from(wave_packet_descriptor_index),
        byte_offset_to_waveform_data,
        u64::from(waveform_packet_size_in_bytes),
        u64::from(return_point_waveform_location.to_bits()),
        u64::from(x_t.to_bits()),
        u64::from(y_t.to_bits()),
        u64::from(z_t.to_bits()),
    ]
}

/// The numbers that are to be read of a point of a format: those of what the Rust read, but that near
/// infrared is there where the format has it. The Rust reads 0 as none there, and document 02's No. 5
/// says: "Reading a format 8 or 10 record must give zero as a value; missing remains for formats
/// without the field." And whether that is what the point was held to.
pub(crate) fn numbers_read(format: &Format, point: &Point) -> (PointNumbers, bool) {
    let mut numbers = numbers(point);
    let zero = format.has_nir && point.nir.is_none();
    if zero {
        numbers[HAS_NIR] = 1;
    }
    (numbers, zero)
}

/// The point that 24 numbers stand for: of a number that is too wide the low bits count, and any
/// number but 0 says that a part is there.
#[inline]
pub fn point(n: &PointNumbers, extra: &[u8]) -> Point {
    let f32_at = |k: usize| f32::from_bits(n[k] as u32);
    Point {
        x: n[0] as i32,
        y: n[1] as i32,
        z: n[2] as i32,
        intensity: n[3] as u16,
        flags: flags::flags(n[4] as u32),
        scan_angle: angle::angle(n[5] as u32),
        user_data: n[6] as u8,
        point_source_id: n[7] as u16,
        gps_time: (n[8] != 0).then(|| f64::from_bits(n[9])),
        color: (n[10] != 0).then(|| Color::new(n[11] as u16, n[12] as u16, n[13] as u16)),
        nir: (n[HAS_NIR] != 0).then_some(n[NIR] as u16),
        waveform: (n[16] != 0).then(|| Waveform {
            wave_packet_descriptor_index: n[17] as u8,
            byte_offset_to_waveform_data: n[18],
            waveform_packet_size_in_bytes: n[19] as u32,
            return_point_waveform_location: f32_at(20),
            x_t: f32_at(21),
            y_t: f32_at(22),
            z_t: f32_at(23),
        }),
        extra_bytes: extra.to_vec(),
    }
}

/// Bytes as they are shown in a difference: the first of them, for a record may have 65,535.
fn shown(bytes: &[u8]) -> String {
    let first = &bytes[..bytes.len().min(128)];
    format!("{} bytes {first:02x?}", bytes.len())
}

/// The Rust's reading, with the refusals of document 01: 8 where the format is overlong, which the
/// Rust does not look at, and 1 where its bytes ran out.
pub(crate) fn rust_read(word: u32, bytes: &[u8]) -> Result<Point, Answer> {
    let len = record_len(word);
    if len > LONGEST {
        return Err(Answer::refusal(8, len as u64));
    }
    Point::read_from(bytes, &format::format(word)).map_err(|error| match error {
        Error::Io(e) if e.kind() == ErrorKind::UnexpectedEof => Answer::refusal(1, len as u64),
        error => unnumbered(error),
    })
}

/// Compares a call on one record of a format word.
type Compare = fn(&mut Report, u32, &[u8]);

/// Compares a read: the row and all 24 numbers, which a refusal leaves as they were. Near infrared 0,
/// which the Rust reads as none, is by rule.
fn read(report: &mut Report, word: u32, bytes: &[u8]) {
    let (rust, zero) = match rust_read(word, bytes) {
        Ok(point) => {
            let (numbers, zero) = numbers_read(&format::format(word), &point);
            ((Answer::result(0u8), numbers), zero)
        }
        Err(refusal) => ((refusal, [BEFORE; 24]), false),
    };
    let mut numbers = [BEFORE; 24];
    let row = capi::row(|row| capi::las_point_read(bytes, word, row, &mut numbers));
    report.check(rust == (row, numbers), || {
        let bytes = shown(bytes);
        format!("({word:#010x}, {bytes}): Rust {rust:x?}, port {row:x?} {numbers:x?}")
    });
    report.by_rule(rust.0.by_rule() || zero);
}

/// Compares the place and the count of the extra bytes, and so the bytes themselves. Where there are
/// none, as where the read is refused, both are 0.
fn extra(report: &mut Report, word: u32, bytes: &[u8]) {
    let start = record_len(word) - usize::from(format::format(word).extra_bytes);
    let extra = rust_read(word, bytes).map_or(Vec::new(), |point| point.extra_bytes);
    let [at, len] = capi::span(|part| capi::las_point_extra(bytes, word, part));
    let start = if extra.is_empty() { 0 } else { start };
    let part = at
        .checked_add(len)
        .and_then(|end| bytes.get(at as usize..end as usize));
    let same = at == start as u64 && part == Some(&extra[..]);
    report.check(same, || {
        let (bytes, extra) = (shown(bytes), shown(&extra));
        format!("({word:#010x}, {bytes}): Rust {start} {extra}, port {at} {len}")
    });
    report.by_rule(record_len(word) > LONGEST);
}

fn compare_default() -> Report {
    let mut report = Report::new("las_point_default");
    let rust = numbers(&Point::default());
    let mut port = [BEFORE; 24];
    capi::las_point_default(&mut port);
    report.check(rust == port, || format!("Rust {rust:x?}, port {port:x?}"));
    report
}

/// A point to write: the Rust's, and the numbers that stand for it. The destination has `room`.
pub(crate) struct Writing<'a> {
    pub word: u32,
    pub point: &'a Point,
    pub numbers: &'a PointNumbers,
    pub room: usize,
}

/// Destinations that are used again and again.
#[derive(Default)]
struct Scratch {
    rust: Vec<u8>,
    port: Vec<u8>,
}

impl Writing<'_> {
    /// The Rust's writing into `dst`, with the refusals of document 01 in their order. The Rust
    /// looks at neither 8 nor 23: it panics over the extra bytes, and so is not asked.
    pub fn rust(&self, dst: &mut Vec<u8>) -> Answer {
        let (format, len) = (format::format(self.word), record_len(self.word));
        dst.clear();
        let answer = if len > LONGEST {
            Answer::refusal(8, len as u64)
        } else if self.point.extra_bytes.len() != usize::from(format.extra_bytes) {
            Answer::refusal(23, format.extra_bytes)
        } else if self.room < len {
            // The Rust too fails in so little room, if perhaps over the flags, which come first.
            dst.resize(self.room, BEFORE_BYTE);
            let failed = self.point.write_to(&mut dst[..], &format).is_err();
            dst.clear();
            assert!(failed, "the Rust wrote {len} bytes into {}", self.room);
            Answer::refusal(22, len as u64)
        } else {
            match self.point.write_to(&mut *dst, &format) {
                Ok(()) => Answer::result(dst.len() as u64),
                Err(error) => {
                    // It has written the fields before the flags; the port has not.
                    dst.clear();
                    flags::refusal(self.point.flags, error)
                }
            }
        };
        dst.resize(self.room, BEFORE_BYTE);
        answer
    }

    /// Compares the row and the whole destination.
    fn compare(&self, report: &mut Report, scratch: &mut Scratch) {
        let rust = self.rust(&mut scratch.rust);
        let Writing { word, numbers, .. } = *self;
        scratch.port.clear();
        scratch.port.resize(self.room, BEFORE_BYTE);
        let extra = &self.point.extra_bytes;
        let dst = &mut scratch.port[..];
        let port = capi::row(|row| capi::las_point_write(numbers, extra, word, dst, row));
        report.check(rust == port && scratch.rust == scratch.port, || {
            let [extra, of_rust, of_port] = [extra, &scratch.rust, &scratch.port].map(|v| shown(v));
            format!(
                "({numbers:x?}, {extra}, {word:#010x}): Rust {rust} {of_rust}, port {port} {of_port}"
            )
        });
        report.by_rule(rust.by_rule());
    }
}

/// PointNumbers without pattern: parts missing or there, with junk in what is then ignored and in the
/// bits that are too many; flags and angles of every kind.
pub(crate) fn nth_numbers(i: u64) -> PointNumbers {
    let mut lcg = Lcg::new(i);
    let mut n = [0; 24];
    n.fill_with(|| lcg.long());
    let [a, b, c] = lcg.three_bytes();
    n[4] = match lcg.word() % 4 {
        0 => n[4],
        1 => n[4] & !0xffff_ffff | u64::from(flags::two(a, b)),
        _ => n[4] & !0xffff_ffff | u64::from(flags::three(a, b, c)),
    };
    n[5] = match lcg.word() % 4 {
        0 => n[5],
        1 => n[5] & !0xffff_ffff | u64::from(angle::rank(c as i8)),
        _ => n[5] & !0xffff_0000 | 1 << 16,
    };
    for has in [8, 10, HAS_NIR, 16] {
        n[has] = match lcg.word() % 4 {
            0 => n[has],
            1 => 1,
            _ => 0,
        };
    }
    n[9] = lcg.f64_bits();
    for float in &mut n[20..] {
        *float = *float & !0xffff_ffff | u64::from(lcg.f32_bits());
    }
    n
}

/// Compares a call on `times` fresh records of each shape: a format word and how many bytes are
/// lent.
fn on_records(
    name: &'static str,
    shapes: &[(u32, usize)],
    times: u64,
    call: impl Fn(&mut Report, u32, &[u8]) + Sync,
) -> Report {
    let count = shapes.len() as u64;
    Report::over(name, count * times, |report, stretch| {
        let mut bytes = Vec::new();
        for i in stretch {
            let (word, len) = shapes[(i % count) as usize];
            bytes.resize(len, 0);
            records::fill(word, i, &mut bytes);
            call(report, records::with_ignored(word, i / count), &bytes);
        }
    })
}

/// Compares writing `times` fresh numbers for each shape: a format word, how many extra bytes are
/// lent, and how much room there is.
fn writes(shapes: &[(u32, usize, usize)], times: u64) -> Report {
    let count = shapes.len() as u64;
    Report::over(WRITE, count * times, |report, stretch| {
        let mut scratch = Scratch::default();
        let mut extra = Vec::new();
        for i in stretch {
            let (word, len, room) = shapes[(i % count) as usize];
            extra.resize(len, 0);
            Lcg::new(!i).fill(&mut extra);
            let numbers = &nth_numbers(i);
            let writing = Writing {
                word: records::with_ignored(word, i / count),
                point: &point(numbers, &extra),
                numbers,
                room,
            };
            writing.compare(report, &mut scratch);
        }
    })
}

/// Compares writing back what the Rust read: `times` fresh records of each format, into every
/// attribute set in turn with the same extra bytes.
fn writes_back(formats: &[u32], times: u64) -> Report {
    const TARGETS: u64 = 32;
    let count = formats.len() as u64;
    Report::over(WRITE, count * TARGETS * times, |report, stretch| {
        let mut scratch = Scratch::default();
        let mut bytes = Vec::new();
        for i in stretch {
            let from = formats[(i % count) as usize];
            bytes.resize(record_len(from), 0);
            records::fill(from, i, &mut bytes);
            let point = match rust_read(from, &bytes) {
                Ok(point) => point,
                Err(refusal) => panic!("the Rust does not read a whole record: {refusal}"),
            };
            let word = from & 0xffff_0000 | (i / count % TARGETS) as u32;
            let writing = Writing {
                word,
                point: &point,
                numbers: &numbers(&point),
                room: record_len(word) + noise(i) as usize % 4,
            };
            writing.compare(report, &mut scratch);
        }
    })
}

/// Compares writing `size` points that differ in flags and angle into the narrowest old and the
/// narrowest extended format.
fn writes_of(size: u64, flags_and_angle: impl Fn(u64) -> (u32, u32) + Sync) -> Report {
    const EXTENDED: u32 = 4;
    Report::over(WRITE, 2 * size, |report, stretch| {
        let mut scratch = Scratch::default();
        for i in stretch {
            let (flags, angle) = flags_and_angle(i >> 1);
            let mut numbers = [0; 24];
            (numbers[4], numbers[5]) = (flags.into(), angle.into());
            let writing = Writing {
                word: (i & 1) as u32 * EXTENDED,
                point: &point(&numbers, &[]),
                numbers: &numbers,
                room: 22,
            };
            writing.compare(report, &mut scratch);
        }
    })
}

/// An angle of the kind that the highest bit of `noise` says.
pub(crate) fn any_angle(noise: u32) -> u32 {
    match noise >> 31 {
        0 => angle::rank(noise as i8),
        _ => angle::scaled(noise as i16),
    }
}

const READ: &str = "las_point_read";
const EXTRA: &str = "las_point_extra";
const WRITE: &str = "las_point_write";

/// What is lent to a read of each format: the record, and the record with something after it.
fn lent(formats: Vec<u32>) -> Vec<(u32, usize)> {
    let shapes = |word| [0, 9].map(|past| (word, record_len(word) + past));
    formats.into_iter().flat_map(shapes).collect()
}

/// What is lent to a write: the extra bytes that the format has, and room of `len`.
fn roomy((word, len): (u32, usize)) -> (u32, usize, usize) {
    (word, (word >> 16) as usize, len)
}

fn compare_writes(tally: &mut Tally) {
    let few = || records::formats(|_| records::FEW);
    let back = writes_back(&few(), 1_024).and(writes_back(&records::coded(), 2_048));
    let roomy_shapes = |formats| lent(formats).into_iter().map(roomy).collect::<Vec<_>>();
    let fresh = writes(&roomy_shapes(few()), 16_384);
    let long = writes(&roomy_shapes(records::formats(|_| [255])), 1_024);
    let longest = roomy_shapes(records::formats(|set| [records::most_extra(set)]));

    // Every destination that is too short.
    let cut = records::cut(records::formats(|_| [0, 1, 2, 7, 255]));
    let cut: Vec<_> = cut.into_iter().map(roomy).collect();
    // Extra bytes that are not as many as the format's, with room and without.
    let wrong = records::formats(|set| [0, 1, 2, 7, 255, records::most_extra(set)]);
    let wrong: Vec<_> = wrong
        .into_iter()
        .flat_map(|word| {
            let (_, right, len) = roomy((word, record_len(word)));
            let counts = [0, right.wrapping_sub(1), right + 1, 2 * right, 65_536];
            let counts = counts
                .into_iter()
                .filter(move |&n| n != right && n <= 65_536);
            counts.flat_map(move |n| [0, len - 1, len, len + 1].map(|room| (word, n, room)))
        })
        .collect();
    // An overlong format is told of before all else.
    let overlong: Vec<_> = records::overlong()
        .into_iter()
        .flat_map(|word| {
            let (_, right, len) = roomy((word, record_len(word)));
            [(word, right, len), (word, right, 0), (word, 0, len)]
        })
        .collect();

    // Every three-byte and every two-byte flags, every angle, into both widths.
    let three = writes_of(1 << 24, |i| {
        let [a, b, c, ..] = i.to_le_bytes();
        (flags::three(a, b, c), any_angle(noise(i)))
    });
    let two = writes_of(1 << 17, |i| {
        let [a, b, kind, ..] = i.to_le_bytes();
        (
            flags::two(a, b),
            any_angle(noise(i) << 1 >> 1 | u32::from(kind) << 31),
        )
    });
    let kinds = [flags::two(0x51, 0x22), flags::three(0x21, 0x48, 2)];
    let scaled = writes_of(1 << 17, |i| {
        (kinds[(i >> 16) as usize], angle::scaled(i as i16))
    });
    let ranks = writes_of(1 << 9, |i| (kinds[(i >> 8) as usize], angle::rank(i as i8)));

    tally.add(
        [
            fresh,
            long,
            writes(&longest, 16),
            writes(&cut, 16),
            writes(&wrong, 2),
            writes(&overlong, 2),
            three,
            two,
            scaled,
            ranks,
        ]
        .into_iter()
        .fold(back, Report::and),
    );
}

pub fn compare(tally: &mut Tally) {
    let few = lent(records::formats(|_| records::FEW));
    let coded = lent(records::coded());
    let long = lent(records::formats(|_| [255]));
    let longest = lent(records::formats(|set| [records::most_extra(set)]));
    let cut = records::cut(records::formats(|_| [0, 1, 2, 7, 255]));
    // An overlong format is told of before a short record: with all its bytes and with none.
    let overlong: Vec<_> = records::overlong()
        .into_iter()
        .flat_map(|word| [0, record_len(word)].map(|len| (word, len)))
        .collect();
    let calls: [(_, Compare); 2] = [(READ, read), (EXTRA, extra)];
    for (name, call) in calls {
        let lots: [(&[_], _); 6] = [
            (&few, 32_768),
            (&coded, 65_536),
            (&long, 2_048),
            (&longest, 32),
            (&cut, 16),
            (&overlong, 2),
        ];
        let reports = lots.map(|(shapes, times)| on_records(name, shapes, times, call));
        tally.add(reports.into_iter().fold(Report::new(name), Report::and));
    }
    compare_writes(tally);
    tally.add(compare_default());
}
