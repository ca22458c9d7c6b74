//! The flags of a point record: `Flags` of src/raw/point.rs.

use crate::{
    answer::{Answer, unnumbered},
    call::{Call, noise},
    capi,
    report::Tally,
};
use las::{Error, point::ScanDirection, raw::point::Flags};

/// The kind of a flags word, in its highest byte. Every kind but 3 means two bytes; 2 is the one
/// that is answered.
const TWO: u32 = 2 << 24;
const THREE: u32 = 3 << 24;

/// The word of two-byte flags.
pub fn two(a: u8, b: u8) -> u32 {
    TWO | u32::from_le_bytes([a, b, 0, 0])
}

/// The word of three-byte flags.
pub fn three(a: u8, b: u8, c: u8) -> u32 {
    THREE | u32::from_le_bytes([a, b, c, 0])
}

/// The flags that a word stands for.
pub fn flags(word: u32) -> Flags {
    match word.to_le_bytes() {
        [a, b, c, 3] => Flags::ThreeByte(a, b, c),
        [a, b, _, _] => Flags::TwoByte(a, b),
    }
}

/// The word that stands for flags. Words are compared, and not flags, since the Rust's own equality
/// looks past some bits.
pub fn word(flags: Flags) -> u32 {
    match flags {
        Flags::TwoByte(a, b) => two(a, b),
        Flags::ThreeByte(a, b, c) => three(a, b, c),
    }
}

/// The word of the three bytes that the Rust makes of flags.
fn image(flags: Flags) -> u32 {
    let (a, b, c) = flags.into();
    three(a, b, c)
}

static TWO_BYTES: Call = Call {
    name: "las_flags_two_bytes",
    op: None,
    rust: |x, _| {
        let [a, b, ..] = x.to_le_bytes();
        Answer::result(word(Flags::TwoByte(a, b)))
    },
    port: |x, _| {
        let [a, b, ..] = x.to_le_bytes();
        Answer::result(capi::las_flags_two_bytes(a, b))
    },
};

static THREE_BYTES: Call = Call {
    name: "las_flags_three_bytes",
    op: None,
    rust: |x, _| {
        let [a, b, c, _] = x.to_le_bytes();
        Answer::result(word(Flags::ThreeByte(a, b, c)))
    },
    port: |x, _| {
        let [a, b, c, _] = x.to_le_bytes();
        Answer::result(capi::las_flags_three_bytes(a, b, c))
    },
};

pub static RETURN_NUMBER: Call = Call {
    name: "las_flags_return_number",
    op: Some(10),
    rust: |x, _| Answer::result(flags(x).return_number()),
    port: |x, _| Answer::result(capi::las_flags_return_number(x)),
};

pub static NUMBER_OF_RETURNS: Call = Call {
    name: "las_flags_number_of_returns",
    op: Some(11),
    rust: |x, _| Answer::result(flags(x).number_of_returns()),
    port: |x, _| Answer::result(capi::las_flags_number_of_returns(x)),
};

pub static SCAN_DIRECTION: Call = Call {
    name: "las_flags_scan_direction",
    op: Some(12),
    rust: |x, _| match flags(x).scan_direction() {
        ScanDirection::RightToLeft => Answer::result(0u8),
        ScanDirection::LeftToRight => Answer::result(1u8),
    },
    port: |x, _| Answer::result(capi::las_flags_scan_direction(x)),
};

pub static IS_SYNTHETIC: Call = Call {
    name: "las_flags_is_synthetic",
    op: Some(13),
    rust: |x, _| Answer::result(flags(x).is_synthetic()),
    port: |x, _| Answer::result(capi::las_flags_is_synthetic(x)),
};

pub static IS_KEY_POINT: Call = Call {
    name: "las_flags_is_key_point",
    op: Some(14),
    rust: |x, _| Answer::result(flags(x).is_key_point()),
    port: |x, _| Answer::result(capi::las_flags_is_key_point(x)),
};

pub static IS_WITHHELD: Call = Call {
    name: "las_flags_is_withheld",
    op: Some(15),
    rust: |x, _| Answer::result(flags(x).is_withheld()),
    port: |x, _| Answer::result(capi::las_flags_is_withheld(x)),
};

pub static IS_OVERLAP: Call = Call {
    name: "las_flags_is_overlap",
    op: Some(16),
    rust: |x, _| Answer::result(flags(x).is_overlap()),
    port: |x, _| Answer::result(capi::las_flags_is_overlap(x)),
};

pub static SCANNER_CHANNEL: Call = Call {
    name: "las_flags_scanner_channel",
    op: Some(17),
    rust: |x, _| Answer::result(flags(x).scanner_channel()),
    port: |x, _| Answer::result(capi::las_flags_scanner_channel(x)),
};

pub static IS_EDGE_OF_FLIGHT_LINE: Call = Call {
    name: "las_flags_is_edge_of_flight_line",
    op: Some(18),
    rust: |x, _| Answer::result(flags(x).is_edge_of_flight_line()),
    port: |x, _| Answer::result(capi::las_flags_is_edge_of_flight_line(x)),
};

// The class stands in for `to_classification`, which document 01 leaves out: the number of the
// Rust's classification, and 12 where the Rust has no classification because the class is 12.
pub static CLASS: Call = Call {
    name: "las_flags_class",
    op: Some(19),
    rust: |x, _| match flags(x).to_classification() {
        Ok(classification) => Answer::result(u8::from(classification)),
        Err(Error::OverlapClassification) => Answer::result(12u8),
        Err(error) => unnumbered(error),
    },
    port: |x, _| Answer::result(capi::las_flags_class(x)),
};

/// The refusal that an error over flags has in document 01. The Rust has one error for both return
/// numbers, and tests the return number first.
pub fn refusal(flags: Flags, error: Error) -> Answer {
    match error {
        Error::ReturnNumber {
            return_number,
            version: None,
        } => {
            let number = if flags.return_number() > 7 { 15 } else { 16 };
            Answer::refusal(number, return_number)
        }
        Error::InvalidClassification(class) => Answer::refusal(17, class),
        Error::InvalidScannerChannel(channel) => Answer::refusal(18, channel),
        error => unnumbered(error),
    }
}

pub static TO_TWO_BYTES: Call = Call {
    name: "las_flags_to_two_bytes",
    op: Some(20),
    rust: |x, _| {
        let flags = flags(x);
        match flags.to_two_bytes() {
            Ok((a, b)) => Answer::result(u16::from_le_bytes([a, b])),
            Err(error) => refusal(flags, error),
        }
    },
    port: |x, _| capi::row(|row| capi::las_flags_to_two_bytes(x, row)),
};

pub static TO_THREE_BYTES: Call = Call {
    name: "las_flags_to_three_bytes",
    op: Some(21),
    rust: |x, _| Answer::result(image(flags(x))),
    port: |x, _| Answer::result(capi::las_flags_to_three_bytes(x)),
};

pub static CLEAR_OVERLAP_CLASS: Call = Call {
    name: "las_flags_clear_overlap_class",
    op: Some(22),
    rust: |x, _| {
        let mut flags = flags(x);
        flags.clear_overlap_class();
        Answer::result(word(flags))
    },
    port: |x, _| Answer::result(capi::las_flags_clear_overlap_class(x)),
};

pub static EQ: Call = Call {
    name: "las_flags_eq",
    op: Some(23),
    rust: |x, y| Answer::result(flags(x) == flags(y)),
    port: |x, y| Answer::result(capi::las_flags_eq(x, y)),
};

static DEFAULT: Call = Call {
    name: "las_flags_default",
    op: None,
    rust: |_, _| Answer::result(word(Flags::default())),
    port: |_, _| Answer::result(capi::las_flags_default()),
};

/// The calls that take one flags word, in the Rust's order.
pub static READINGS: [&Call; 13] = [
    &RETURN_NUMBER,
    &NUMBER_OF_RETURNS,
    &SCAN_DIRECTION,
    &IS_SYNTHETIC,
    &IS_KEY_POINT,
    &IS_WITHHELD,
    &IS_OVERLAP,
    &SCANNER_CHANNEL,
    &IS_EDGE_OF_FLIGHT_LINE,
    &CLASS,
    &TO_TWO_BYTES,
    &TO_THREE_BYTES,
    &CLEAR_OVERLAP_CLASS,
];

/// Every pair of bytes under every kind that means two bytes: 255 kinds.
const TWO_BYTE: u64 = 255 << 16;

fn nth_two_byte(i: u64) -> (u32, u32) {
    let [a, b, k, ..] = i.to_le_bytes();
    let kind = if k < 3 { k } else { k + 1 };
    // The third byte is ignored. Under kind 2 it is 0, as the port itself answers it.
    let c = if kind == 2 { 0 } else { noise(i) as u8 };
    (u32::from_le_bytes([a, b, c, kind]), 0)
}

/// Every three bytes.
const THREE_BYTE: u64 = 1 << 24;

fn nth_three_byte(i: u64) -> (u32, u32) {
    (THREE | i as u32, 0)
}

/// The words worth comparing with two-byte flags: themselves and their neighbours by one bit, the
/// three bytes that the Rust makes of them and those neighbours.
pub const TWO_BYTE_PARTNERS: u64 = 42;

pub fn two_byte_partner(x: u32, p: u64) -> u32 {
    match p {
        0..16 => x ^ 1 << p,
        16..40 => image(flags(x)) ^ 1 << (p - 16),
        40 => image(flags(x)),
        _ => x,
    }
}

/// The words worth comparing with three-byte flags: themselves and their neighbours by one bit, the
/// two-byte flags that have the same returns and class, with and without the bits of direction and
/// edge that the Rust's equality does not see, and two-byte flags that share bytes with them.
pub const THREE_BYTE_PARTNERS: u64 = 29;

pub fn three_byte_partner(x: u32, p: u64) -> u32 {
    let [a, b, c, _] = x.to_le_bytes();
    let returns = (a & 7) | ((a >> 4 & 7) << 3);
    match p {
        0..24 => x ^ 1 << p,
        24 => two(returns, c),
        25 => two(returns | 0xc0, c),
        26 => two(a, b),
        27 => two(a, c),
        _ => x,
    }
}

/// A pair, in the order that the lowest bit of `i` says.
fn ordered(i: u64, x: u32, y: u32) -> (u32, u32) {
    if i & 1 == 0 { (x, y) } else { (y, x) }
}

pub fn compare(tally: &mut Tally) {
    tally.add(TWO_BYTES.over(1 << 16, |i| (i as u32, 0)));
    tally.add(THREE_BYTES.over(1 << 24, |i| (i as u32, 0)));
    for call in READINGS {
        let two_byte = call.over(TWO_BYTE, nth_two_byte);
        tally.add(two_byte.and(call.over(THREE_BYTE, nth_three_byte)));
    }
    let two_byte = EQ.over((2 * TWO_BYTE_PARTNERS) << 16, |i| {
        let x = TWO | (i >> 1) as u32 & 0xffff;
        ordered(i, x, two_byte_partner(x, i >> 17))
    });
    // Two-byte flags of one class byte: every first byte against every other.
    let same_class = EQ.over(1 << 24, |i| {
        let [a, b, d, ..] = i.to_le_bytes();
        (two(a, b), two(d, b))
    });
    let three_byte = EQ.over((2 * THREE_BYTE_PARTNERS) << 24, |i| {
        let x = THREE | (i >> 1) as u32 & 0xff_ffff;
        ordered(i, x, three_byte_partner(x, i >> 25))
    });
    tally.add(two_byte.and(same_class).and(three_byte));
    tally.add(DEFAULT.once());
}
