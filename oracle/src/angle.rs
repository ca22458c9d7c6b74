//! Scan angles: `ScanAngle` of src/raw/point.rs.

use crate::{
    answer::Answer,
    call::{Call, noise},
    capi, convert_model,
    report::{Report, Tally},
};
use las::raw::point::ScanAngle;

/// The kind of an angle word, in its upper half. Every kind but 1 means a rank; 0 is the one that
/// is answered.
const SCALED: u32 = 1 << 16;

/// The word of a rank.
pub fn rank(n: i8) -> u32 {
    u32::from(n as u8)
}

/// The word of a scaled angle.
pub fn scaled(n: i16) -> u32 {
    SCALED | u32::from(n as u16)
}

/// The angle that a word stands for.
pub fn angle(word: u32) -> ScanAngle {
    match word >> 16 {
        1 => ScanAngle::Scaled(word as u16 as i16),
        _ => ScanAngle::Rank(word as u8 as i8),
    }
}

/// The word that stands for an angle.
pub fn word(angle: ScanAngle) -> u32 {
    match angle {
        ScanAngle::Rank(n) => rank(n),
        ScanAngle::Scaled(n) => scaled(n),
    }
}

static RANK: Call = Call {
    name: "las_angle_rank",
    op: None,
    rust: |x, _| Answer::result(word(ScanAngle::Rank(x as i8))),
    port: |x, _| Answer::result(capi::las_angle_rank(x as i8)),
};

static SCALED_ANGLE: Call = Call {
    name: "las_angle_scaled",
    op: None,
    rust: |x, _| Answer::result(word(ScanAngle::Scaled(x as i16))),
    port: |x, _| Answer::result(capi::las_angle_scaled(x as i16)),
};

pub static TO_RANK: Call = Call {
    name: "las_angle_to_rank",
    op: Some(30),
    rust: |x, _| Answer::result(i8::from(angle(x)) as u8),
    port: |x, _| Answer::result(capi::las_angle_to_rank(x) as u8),
};

pub static TO_SCALED: Call = Call {
    name: "las_angle_to_scaled",
    op: Some(31),
    rust: |x, _| Answer::result(i16::from(angle(x)) as u16),
    port: |x, _| Answer::result(capi::las_angle_to_scaled(x) as u16),
};

// Degrees are compared by their bits: 0.0 and -0.0 differ, and so would two NaNs.
pub static TO_DEGREES: Call = Call {
    name: "las_angle_to_degrees",
    op: Some(32),
    rust: |x, _| Answer::result(f32::from(angle(x)).to_bits()),
    port: |x, _| Answer::result(capi::las_angle_to_degrees(x).to_bits()),
};

pub static FROM_DEGREES: Call = Call {
    name: "las_angle_from_degrees",
    op: Some(33),
    rust: |x, _| Answer::result(word(ScanAngle::from(f32::from_bits(x)))),
    port: |x, _| Answer::result(capi::las_angle_from_degrees(f32::from_bits(x))),
};

pub static EQ: Call = Call {
    name: "las_angle_eq",
    op: Some(34),
    rust: |x, y| Answer::result(angle(x) == angle(y)),
    port: |x, y| Answer::result(capi::las_angle_eq(x, y)),
};

static DEFAULT: Call = Call {
    name: "las_angle_default",
    op: None,
    rust: |_, _| Answer::result(word(ScanAngle::default())),
    port: |_, _| Answer::result(capi::las_angle_default()),
};

/// Compares the nearest whole degree of a scaled number: the Rust's rank, and by rule where the Rust
/// holds it.
fn compare_nearest_rank(report: &mut Report, n: i16) {
    let rule = convert_model::rank(n);
    let held = i8::try_from(rule).is_err();
    let rust = match held {
        true => rule,
        false => i8::from(ScanAngle::Scaled(n)).into(),
    };
    let port = capi::las_angle_nearest_rank(n);
    report.compare(rust, port.into(), || n.to_string());
    report.by_rule(held);
}

/// The calls that take one angle word.
pub static READINGS: [&Call; 3] = [&TO_RANK, &TO_SCALED, &TO_DEGREES];

/// Every scaled angle.
fn nth_scaled(i: u64) -> u32 {
    SCALED | i as u32 & 0xffff
}

/// Every rank under every kind that means a rank: 65,535 kinds.
const RANKS: u64 = 65_535 << 8;

fn nth_rank(i: u64) -> u32 {
    let k = (i >> 8) as u32;
    let kind = if k < 1 { k } else { k + 1 };
    // The second byte is ignored. Under kind 0 it is 0, as the port itself answers it.
    let ignored = if kind == 0 { 0 } else { noise(i) & 0xff00 };
    kind << 16 | ignored | i as u32 & 0xff
}

pub fn compare(tally: &mut Tally) {
    tally.add(RANK.over(1 << 8, |i| (i as u32, 0)));
    tally.add(SCALED_ANGLE.over(1 << 16, |i| (i as u32, 0)));
    tally.add(Report::over(
        "las_angle_nearest_rank",
        1 << 16,
        |report, stretch| stretch.for_each(|i| compare_nearest_rank(report, i as i16)),
    ));
    for call in READINGS {
        let scaled = call.over(1 << 16, |i| (nth_scaled(i), 0));
        tally.add(scaled.and(call.over(RANKS, |i| (nth_rank(i), 0))));
    }
    tally.add(FROM_DEGREES.over(1 << 32, |i| (i as u32, 0)));

    // Every pair of angles: of ranks, of a rank and a scaled angle in both orders, of scaled ones.
    let ranks = EQ.over(1 << 16, |i| (nth_rank(i & 0xff), nth_rank(i >> 8)));
    let rank_first = EQ.over(1 << 24, |i| (nth_rank(i & 0xff), nth_scaled(i >> 8)));
    let scaled_first = EQ.over(1 << 24, |i| (nth_scaled(i >> 8), nth_rank(i & 0xff)));
    let scaled = EQ.over(1 << 32, |i| (nth_scaled(i), nth_scaled(i >> 16)));
    // Ranks of all kinds, the one that is equal and one that isn't.
    let kinds = EQ.over(2 * RANKS, |i| {
        let x = nth_rank(i >> 1);
        (x, nth_rank(u64::from(x as u8 ^ (i & 1) as u8)))
    });
    tally.add(
        ranks
            .and(rank_first)
            .and(scaled_first)
            .and(scaled)
            .and(kinds),
    );
    tally.add(DEFAULT.once());
}
