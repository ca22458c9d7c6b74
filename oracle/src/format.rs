//! Point formats: src/point/format.rs.

use crate::{
    answer::{Answer, unnumbered},
    call::{Call, noise},
    capi,
    report::{Report, Tally},
};
use las::{Error, point::Format, raw::window};

/// The attribute bits of a format word: the five attributes and compressed.
pub const ATTRIBUTES: u32 = 0x3f;

/// The bits of a format word that mean nothing.
pub const IGNORED: u32 = 0xffc0;

/// The longest record that a length field can state.
pub const LONGEST: usize = 65_535;

/// The format that a word stands for.
pub fn format(word: u32) -> Format {
    let has = |bit: u32| word >> bit & 1 == 1;
    Format {
        has_gps_time: has(0),
        has_color: has(1),
        is_extended: has(2),
        has_waveform: has(3),
        has_nir: has(4),
        is_compressed: has(5),
        extra_bytes: (word >> 16) as u16,
    }
}

/// The word that stands for a format.
pub fn word(format: Format) -> u32 {
    // Taken apart in full, so that a field of the Rust's can't be left out unnoticed.
    let Format {
        has_gps_time,
        has_color,
        is_extended,
        has_waveform,
        has_nir,
        is_compressed,
        extra_bytes,
    } = format;
    u32::from(has_gps_time)
        | u32::from(has_color) << 1
        | u32::from(is_extended) << 2
        | u32::from(has_waveform) << 3
        | u32::from(has_nir) << 4
        | u32::from(is_compressed) << 5
        | u32::from(extra_bytes) << 16
}

pub static NEW: Call = Call {
    name: "las_format_new",
    op: Some(1),
    rust: |x, _| match Format::new(x as u8) {
        Ok(format) => Answer::result(word(format)),
        Err(Error::InvalidPointFormatNumber(n)) => Answer::refusal(5, n),
        Err(error) => unnumbered(error),
    },
    port: |x, _| capi::row(|row| capi::las_format_new(x as u8, row)),
};

pub static EXTEND: Call = Call {
    name: "las_format_extend",
    op: Some(2),
    rust: |x, _| {
        let mut format = format(x);
        format.extend();
        Answer::result(word(format))
    },
    port: |x, _| Answer::result(capi::las_format_extend(x)),
};

// The Rust's `len` is a u16 and wraps. Where the record is longer than that, the port must refuse
// with the length that the Rust's own layout has.
pub static LEN: Call = Call {
    name: "las_format_len",
    op: Some(3),
    rust: |x, _| {
        let format = format(x);
        match window::record_len(&format) {
            0..=LONGEST => Answer::result(format.len()),
            overlong => Answer::refusal(8, overlong as u64),
        }
    },
    port: |x, _| capi::row(|row| capi::las_format_len(x, row)),
};

pub static TO_U8: Call = Call {
    name: "las_format_to_u8",
    op: Some(4),
    rust: |x, _| match format(x).to_u8() {
        Ok(code) => Answer::result(code),
        Err(Error::InvalidPointFormat(_)) => Answer::refusal(25, 0u8),
        Err(error) => unnumbered(error),
    },
    port: |x, _| capi::row(|row| capi::las_format_to_u8(x, row)),
};

static DEFAULT: Call = Call {
    name: "las_format_default",
    op: None,
    rust: |_, _| Answer::result(word(Format::default())),
    port: |_, _| Answer::result(capi::las_format_default()),
};

/// Compares a layout: start and length of each field, as the Rust's own `fields` adds them up. Of a
/// field that the format lacks the Rust has neither: it has no bytes, and starts where the next does.
fn compare_layout(report: &mut Report, word: u32) {
    let spans = window::field_spans(&format(word));
    let mut next = 0;
    let mut rust = spans.map(|_| [0; 2]);
    for (span, rust) in spans.iter().zip(&mut rust).rev() {
        *rust = span.unwrap_or([next, 0]).map(|n| n as u64);
        next = rust[0] as usize;
    }
    let mut port = [u64::MAX; 26];
    capi::las_layout(word, &mut port);
    report.check(rust.as_flattened() == port, || {
        format!("{word:#010x}: Rust {rust:?}, port {port:?}")
    });
    report.by_rule(spans.contains(&None));
}

/// Every attribute set with every count of extra bytes, three times: with the ignored bits clear,
/// set, and mixed.
const WORDS: u64 = 3 << 22;

fn nth_word(i: u64) -> (u32, u32) {
    let attributes = i as u32 & ATTRIBUTES;
    let extra_bytes = (i >> 6) as u32 & 0xffff;
    let ignored = match i >> 22 {
        0 => 0,
        1 => IGNORED,
        _ => noise(i) & IGNORED,
    };
    (attributes | ignored | extra_bytes << 16, 0)
}

pub fn compare(tally: &mut Tally) {
    tally.add(NEW.over(1 << 8, |i| (i as u32, 0)));
    for call in [&EXTEND, &LEN, &TO_U8] {
        tally.add(call.over(WORDS, nth_word));
    }
    tally.add(Report::over("las_layout", WORDS, |report, stretch| {
        stretch.for_each(|i| compare_layout(report, nth_word(i).0));
    }));
    tally.add(DEFAULT.once());
}
