//! One point made old strictly, or made new: by the port and by the rules of documents 01 and 02, which
//! the Rust has no calls for. What a point holds is read by the Rust's own readers.

use crate::{
    angle,
    answer::Answer,
    call::noise,
    capi::{self, PointNumbers},
    convert_model::{self, RANKS},
    flags,
    point::{self, HAS_NIR, NIR, any_angle, nth_numbers},
    report::{Report, Tally},
};
use las::{
    point::ScanDirection,
    raw::{
        Point,
        point::{Flags, ScanAngle},
    },
};

/// How many points are made of numbers at random.
const RANDOM: u64 = 2_000_000;

/// The class, which the Rust has no number for where it is 12.
fn class(flags: Flags) -> u8 {
    (flags::CLASS.rust)(flags::word(flags), 0).value as u8
}

/// The first field that an old record can't show: "return number above 7; number of returns above 7;
/// class above 31; channel above 0; overlap set and class not 12, or clear and class 12 or 28; NIR not
/// 0; rank before holding outside" what document 02 has. A rank has no other limits, and its value is
/// that of the scaled angle which the Rust makes of it.
pub(crate) fn offence(point: &Point) -> Answer {
    let flags = point.flags;
    let (number, returns) = (flags.return_number(), flags.number_of_returns());
    let (class, channel) = (class(flags), flags.scanner_channel());
    let parts = match flags.is_overlap() {
        true => class != 12,
        false => class == 12 || class == 28,
    };
    let rank = match point.scan_angle {
        ScanAngle::Rank(n) => n.into(),
        ScanAngle::Scaled(n) => convert_model::rank(n),
    };
    let scaled = i16::from(point.scan_angle) as u16;
    let angle = (!RANKS.contains(&rank)).then_some(scaled);
    match (point.nir, angle) {
        _ if number > 7 => Answer::refusal(15, number),
        _ if returns > 7 => Answer::refusal(16, returns),
        _ if class > 31 => Answer::refusal(17, class),
        _ if channel > 0 => Answer::refusal(18, channel),
        _ if parts => Answer::refusal(19, class),
        (Some(nir @ 1..), _) => Answer::refusal(20, nir),
        (_, Some(scaled)) => Answer::refusal(21, scaled),
        _ => Answer::result(0u8),
    }
}

/// An old point made new: "class kept, overlap set exactly for class 12, channel and NIR 0, the other
/// flags moved". One with three-byte flags stays.
pub(crate) fn upgraded(mut point: Point) -> Point {
    let old = point.flags;
    if let Flags::TwoByte(..) = old {
        let class = class(old);
        let direction = old.scan_direction() == ScanDirection::LeftToRight;
        point.flags = Flags::ThreeByte(
            old.return_number() | old.number_of_returns() << 4,
            u8::from(old.is_synthetic())
                | u8::from(old.is_key_point()) << 1
                | u8::from(old.is_withheld()) << 2
                | u8::from(class == 12) << 3
                | u8::from(direction) << 6
                | u8::from(old.is_edge_of_flight_line()) << 7,
            class,
        );
        point.scan_angle = ScanAngle::Scaled(point.scan_angle.into());
        point.nir = None;
    }
    point
}

/// Compares a call on one point.
type Compare = fn(&mut Report, &PointNumbers);

fn check(report: &mut Report, numbers: &PointNumbers) {
    let rules = offence(&point::point(numbers, &[]));
    let port = capi::row(|row| capi::las_strict_check(numbers, row));
    report.check(rules == port, || {
        format!("{numbers:x?}: the rules {rules}, port {port}")
    });
    report.by_rule(true);
}

fn upgrade(report: &mut Report, numbers: &PointNumbers) {
    let rules = point::numbers(&upgraded(point::point(numbers, &[])));
    let mut port = *numbers;
    capi::las_strict_upgraded(&mut port);
    report.check(rules == port, || {
        format!("{numbers:x?}: document 01 {rules:x?}, port {port:x?}")
    });
    report.by_rule(true);
}

/// A point of zeros but for flags, angle and near infrared, which is there unless it is none.
fn with(flags: u32, angle: u32, nir: Option<u16>) -> PointNumbers {
    let mut numbers = [0; 24];
    (numbers[4], numbers[5]) = (flags.into(), angle.into());
    if let Some(nir) = nir {
        (numbers[HAS_NIR], numbers[NIR]) = (1, nir.into());
    }
    numbers
}

/// Compares a call on the `size` points that `nth` makes.
fn over(
    name: &'static str,
    size: u64,
    call: Compare,
    nth: impl Fn(u64) -> PointNumbers + Sync,
) -> Report {
    Report::over(name, size, |report, stretch| {
        stretch.for_each(|i| call(report, &nth(i)));
    })
}

/// Near infrared: none, or mostly 0, for there would be little else.
fn some_nir(i: u64) -> Option<u16> {
    [None, Some(0), None, Some(0), Some(1), None, Some(0xffff)][(i % 7) as usize]
}

/// Three-byte flags, with angles of both kinds and near infrared in turn.
fn three(i: u64) -> PointNumbers {
    let [a, b, c, ..] = i.to_le_bytes();
    with(flags::three(a, b, c), any_angle(noise(i)), some_nir(i))
}

/// Two-byte flags with ranks.
fn two_and_rank(i: u64) -> PointNumbers {
    let [a, b, rank, ..] = i.to_le_bytes();
    with(flags::two(a, b), angle::rank(rank as i8), some_nir(i))
}

/// Flags that fit, as three bytes; without the second they fit as two.
const FITTING: [[u8; 3]; 2] = [[0x11, 0, 2], [0x77, 0xcf, 12]];

fn fitting(i: u64) -> u32 {
    let [a, b, c] = FITTING[(i & 1) as usize];
    match i >> 1 & 1 {
        0 => flags::three(a, b, c),
        _ => flags::two(a, c),
    }
}

/// Flags that fit with angles of both kinds.
fn with_angle(i: u64) -> PointNumbers {
    let n = (i >> 2) as u16;
    let angle = match i >> 18 & 1 {
        0 => angle::scaled(n as i16),
        _ => angle::rank(n as i8),
    };
    with(fitting(i), angle, some_nir(i >> 19))
}

/// Flags that fit with each near infrared, and an angle that fits or not.
fn with_nir(i: u64) -> PointNumbers {
    let angle = angle::scaled([0, 15_084][(i >> 18) as usize]);
    with(fitting(i), angle, Some((i >> 2) as u16))
}

pub fn compare(tally: &mut Tally) {
    let calls: [(_, Compare); 2] = [
        ("las_strict_check", check),
        ("las_strict_upgraded", upgrade),
    ];
    for (name, call) in calls {
        let reports = [
            over(name, 1 << 24, call, three),
            over(name, 1 << 24, call, two_and_rank),
            over(name, 7 << 19, call, with_angle),
            over(name, 1 << 19, call, with_nir),
            over(name, RANDOM, call, nth_numbers),
        ];
        tally.add(reports.into_iter().fold(Report::new(name), Report::and));
    }
}
