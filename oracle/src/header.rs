//! Headers: versions 1.0 to 1.4 and outside, header sizes below, at and above the standard, all cuts.

use crate::{
    answer::Answer,
    call::Call,
    capi::{self, HeaderNumbers},
    format,
    records::Lcg,
    report::{self, Report, Tally, stretches},
};
use las::{Version, point::Format, raw::Header};

/// How many headers are read and written.
const HEADERS: u64 = 2_000_000;

/// What lent memory holds before a call, so that what is written where nothing may be shows.
const FILL: u8 = 0xA5;
const BEFORE: HeaderNumbers = HeaderNumbers {
    numbers: [u64::MAX; 51],
    guid: [FILL; 16],
    system_identifier: [FILL; 32],
    generating_software: [FILL; 32],
};

/// The standard size of a version, if it is one of the five.
pub(crate) fn standard(major: u8, minor: u8) -> Option<usize> {
    match (major, minor) {
        (1, 0..=2) => Some(227),
        (1, 3) => Some(235),
        (1, 4) => Some(375),
        _ => None,
    }
}

/// Bytes that begin like a header, and perhaps end too early.
fn bytes(i: u64) -> Vec<u8> {
    let mut random = Lcg::new(i);
    let mut bytes: Vec<u8> = (0..375 + random.below(30)).map(|_| random.byte()).collect();
    bytes[..4].copy_from_slice(b"LASF");
    let (major, minor) = match random.below(16) {
        0 => (random.byte(), random.byte()),
        1 => (1, 5 + random.byte() % 3),
        _ => (1, random.below(5) as u8),
    };
    bytes[24] = major;
    bytes[25] = minor;
    let size = standard(major, minor).unwrap_or(227) as u64;
    let field = match random.below(4) {
        0 => random.below(65536),
        1 => size - random.below(3),
        2 => size,
        _ => size + random.below(20),
    };
    bytes[94..96].copy_from_slice(&(field as u16).to_le_bytes());
    // counts and EVLR pairs of which one or both are zero
    if random.below(2) == 0 {
        bytes[107..111].fill(0);
    }
    if random.below(3) == 0 {
        bytes[235..243].fill(0);
    }
    if random.below(3) == 0 {
        bytes[243..247].fill(0);
    }
    if random.below(3) == 0 {
        bytes[227..235].fill(0);
    }
    if random.below(2) == 0 {
        // small counts, so that the end of points is within 2^64
        bytes[250..255].fill(0);
    }
    match random.below(8) {
        0 => bytes.truncate(random.below(bytes.len() as u64 + 1) as usize),
        1 => {
            let at = random.below(4) as usize;
            bytes[at] = random.byte();
        }
        _ => {}
    }
    // a format that there is, and a record length around its own
    if bytes.len() > 106 && random.below(2) == 0 {
        bytes[104] = random.below(11) as u8;
        if random.below(2) == 0 {
            let length = Format::new(bytes[104]).map_or(0, |format| format.len());
            let length = length - 2 + random.below(5) as u16;
            bytes[105..107].copy_from_slice(&length.to_le_bytes());
        }
    }
    bytes
}

/// What document 01's rule 1 says of bytes: where the header ends with its padding, or the refusal.
pub(crate) fn judged(bytes: &[u8]) -> Answer {
    let short = |n: usize| Answer::refusal(1, n as u64);
    if bytes.len() < 4 {
        return short(4);
    }
    if &bytes[..4] != b"LASF" {
        let found = u32::from_le_bytes(bytes[..4].try_into().expect("four bytes"));
        return Answer::refusal(2, found);
    }
    if bytes.len() < 26 {
        return short(26);
    }
    let Some(size) = standard(bytes[24], bytes[25]) else {
        return Answer::refusal(3, u64::from(bytes[24]) * 256 + u64::from(bytes[25]));
    };
    if bytes.len() < size {
        return short(size);
    }
    let field = usize::from(u16::from_le_bytes([bytes[94], bytes[95]]));
    if bytes.len() < field {
        return short(field);
    }
    Answer::result(size.max(field) as u64)
}

/// The Rust's header as the port gives it.
pub(crate) fn numbers(h: &Header) -> HeaderNumbers {
    let mut n = vec![
        u64::from(h.file_source_id),
        u64::from(h.global_encoding),
        u64::from(h.version.major),
        u64::from(h.version.minor),
        u64::from(h.file_creation_day_of_year),
        u64::from(h.file_creation_year),
        u64::from(h.header_size),
        u64::from(h.offset_to_point_data),
        u64::from(h.number_of_variable_length_records),
        u64::from(h.point_data_record_format),
        u64::from(h.point_data_record_length),
        u64::from(h.number_of_point_records),
    ];
    n.extend(h.number_of_points_by_return.iter().map(|&x| u64::from(x)));
    n.extend(
        [
            h.x_scale_factor,
            h.y_scale_factor,
            h.z_scale_factor,
            h.x_offset,
            h.y_offset,
            h.z_offset,
            h.max_x,
            h.min_x,
            h.max_y,
            h.min_y,
            h.max_z,
            h.min_z,
        ]
        .map(f64::to_bits),
    );
    let start = h.start_of_waveform_data_packet_record;
    n.extend([u64::from(start.is_some()), start.unwrap_or(0)]);
    let evlr = h.evlr.unwrap_or_default();
    n.extend([
        u64::from(h.evlr.is_some()),
        evlr.start_of_first_evlr,
        u64::from(evlr.number_of_evlrs),
    ]);
    let large = h.large_file.unwrap_or_default();
    n.extend([
        u64::from(h.large_file.is_some()),
        large.number_of_point_records,
    ]);
    n.extend(large.number_of_points_by_return);
    HeaderNumbers {
        numbers: n.try_into().expect("51 numbers"),
        guid: h.guid,
        system_identifier: h.system_identifier,
        generating_software: h.generating_software,
    }
}

/// The effective count by document 01, which the Rust keeps private.
fn points(h: &Header) -> u64 {
    if h.number_of_point_records != 0 {
        u64::from(h.number_of_point_records)
    } else {
        h.large_file
            .map_or(0, |large| large.number_of_point_records)
    }
}

/// The end of points: the Rust's own, where it is below 2^64, and elsewhere refusal 12.
pub(crate) fn end_of_points(h: &Header) -> Answer {
    let count = points(h);
    let exact = u128::from(h.offset_to_point_data)
        + u128::from(count) * u128::from(h.point_data_record_length);
    if exact < 1 << 64 {
        Answer::result(h.offset_to_end_of_points())
    } else {
        Answer::refusal(12, count)
    }
}

/// The word of the format of the points, and whether the Rust gives no such answer. Where it has one it
/// is that of `Builder::new`, which can't be asked itself, since it leans on a file that is not
/// published: the Rust's format of the code, and what the record length has beyond its `len`. For a code
/// that there isn't it is format 0 without extra bytes, and there are none where the length is less.
fn point_format(code: u8, length: u16) -> (u32, bool) {
    let Ok(format) = Format::new(code) else {
        return (format::word(Format::default()), true);
    };
    let extra_bytes = length.saturating_sub(format.len());
    let word = format::word(Format {
        extra_bytes,
        ..format
    });
    (word, length < format.len())
}

/// The calls that look at a header.
type Outcome = report::Outcome<5, 0>;

const CALLS: [&str; 5] = [
    "las_header_read",
    "las_header_padding",
    "las_header_points",
    "las_header_end_of_points",
    "las_header_point_format",
];

/// Compares a read: every field, the padding, the counts, the format; on refusal, that nothing was
/// written, and that the others refuse in the same way.
fn compare_read(outcome: &mut Outcome, i: u64) {
    let bytes = bytes(i);
    let wanted = judged(&bytes);
    let mut found = BEFORE;
    let port = capi::row(|row| capi::las_header_read(&bytes, row, &mut found));
    let [start, length] = capi::span(|part| capi::las_header_padding(&bytes, part));
    let count = capi::row(|row| capi::las_header_points(&bytes, row));
    let end = capi::row(|row| capi::las_header_end_of_points(&bytes, row));
    let format = capi::row(|row| capi::las_header_point_format(&bytes, row));
    let told = |report: &mut Report, agrees, port: Answer, by_rule| {
        report.check(agrees, || {
            format!("header {i}: port {port}, document 01 {wanted}")
        });
        report.by_rule(by_rule);
    };
    let [read, padding, points_report, end_report, format_report] = &mut outcome.reports;
    if wanted.number != 0 {
        // below 1.0 and from 1.5 on the Rust reads on; the port refuses
        let by_rule = wanted.by_rule();
        let refused = by_rule || Header::read_from(&bytes[..]).is_err();
        let agrees = refused && port == wanted && found == BEFORE;
        told(read, agrees, port, by_rule);
        told(padding, [start, length] == [0, 0], wanted, by_rule);
        told(points_report, count == wanted, count, by_rule);
        told(end_report, end == wanted, end, by_rule);
        told(format_report, format == wanted, format, by_rule);
        return;
    }
    let h = Header::read_from(&bytes[..]).expect("a header that rule 1 accepts");
    told(read, port == wanted && found == numbers(&h), port, false);
    let bytes_told = bytes.get(start as usize..(start + length) as usize);
    told(padding, bytes_told == Some(&h.padding[..]), port, false);
    // the effective count is private in the Rust
    told(
        points_report,
        count == Answer::result(points(&h)),
        count,
        false,
    );
    // an end of points that the Rust can't tell is by rule
    told(end_report, end == end_of_points(&h), end, end.by_rule());
    let (word, by_rule) = point_format(h.point_data_record_format, h.point_data_record_length);
    told(
        format_report,
        format == Answer::result(word),
        format,
        by_rule,
    );
}

/// Compares the format of the points for every code with every record length, in a header of zeros.
fn compare_point_formats() -> Report {
    let bare = Header {
        version: Version::new(1, 4),
        header_size: 375,
        ..Header::default()
    };
    let mut whole = Vec::new();
    bare.write_to(&mut whole).expect("a Vec takes every byte");
    Report::over("las_header_point_format", 1 << 24, |report, stretch| {
        let mut bytes = whole.clone();
        for i in stretch {
            let [a, b, code, ..] = i.to_le_bytes();
            bytes[104..107].copy_from_slice(&[code, a, b]);
            let (word, by_rule) = point_format(code, u16::from_le_bytes([a, b]));
            let port = capi::row(|row| capi::las_header_point_format(&bytes, row));
            report.compare(Answer::result(word), port, || {
                format!("{:02x?}", &bytes[104..107])
            });
            report.by_rule(by_rule);
        }
    })
}

// The Rust has a size for every version; the port refuses all but the five.
static SIZE: Call = Call {
    name: "las_header_size",
    op: None,
    rust: |major, minor| match (major, minor) {
        (1, 0..=4) => Answer::result(Version::new(major as u8, minor as u8).header_size()),
        _ => Answer::refusal(3, major * 256 + minor),
    },
    port: |major, minor| capi::row(|row| capi::las_header_size(major as u8, minor as u8, row)),
};

fn compare_default() -> Report {
    let mut report = Report::new("las_header_default");
    let rust = numbers(&Header::default());
    let mut port = BEFORE;
    capi::las_header_default(&mut port);
    report.check(rust == port, || format!("Rust {rust:?}, port {port:?}"));
    report
}

/// Compares a write of what was read into enough room or too little.
fn compare_write(report: &mut Report, i: u64) {
    let bytes = bytes(i);
    if judged(&bytes).number != 0 {
        return;
    }
    let mut random = Lcg::new(!i);
    let mut h = Header::read_from(&bytes[..]).expect("a header that rule 1 accepts");
    let foreign = random.below(16) == 0;
    if foreign {
        h.version.minor = 5 + random.byte() % 3;
    }
    let mut written = Vec::new();
    h.write_to(&mut written).expect("a Vec takes every byte");
    let size = standard(1, h.version.minor).map_or(0, |size| size + h.padding.len());
    let short = if random.below(4) == 0 {
        random.below(size as u64 + 1) as usize
    } else {
        0
    };
    let mut dst = vec![FILL; size - short + 3 * usize::from(short == 0)];
    let untouched = dst.clone();
    let port = capi::row(|row| capi::las_header_write(&numbers(&h), &h.padding, &mut dst, row));
    let agrees = if foreign {
        port == Answer::refusal(3, 256 + u64::from(h.version.minor)) && dst == untouched
    } else if dst.len() < size {
        // the Rust too fails in so little room
        let failed = h.write_to(&mut untouched.clone()[..]).is_err();
        failed && port == Answer::refusal(22, written.len() as u64) && dst == untouched
    } else {
        port == Answer::result(size as u64)
            && dst[..size] == written[..]
            && dst[size..] == untouched[size..]
    };
    report.check(agrees, || format!("header {i}: port {port}"));
    report.by_rule(foreign);
}

pub fn compare(tally: &mut Tally) {
    let outcomes = stretches(HEADERS, |stretch| {
        let mut outcome = Outcome::new(CALLS);
        stretch.for_each(|i| compare_read(&mut outcome, i));
        outcome
    });
    let read = outcomes.into_iter().fold(Outcome::new(CALLS), Outcome::and);
    let [header, padding, points, end, format] = read.reports;
    tally.add(header);
    tally.add(padding);
    tally.add(points);
    tally.add(end);
    tally.add(format.and(compare_point_formats()));
    tally.add(SIZE.over(1 << 16, |i| (i as u32 >> 8, i as u32 & 0xff)));
    tally.add(compare_default());
    tally.add(Report::over("las_header_write", HEADERS, |report, part| {
        part.for_each(|i| compare_write(report, i));
    }));
}
