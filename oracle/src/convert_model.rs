//! Document 01's rules about strict conversion and upgrade, with document 02's on ranks and on asking
//! before converting, written from their text alone: which runs of point records are refused, with what,
//! how many bytes those need that are not, and what is written of them.
//!
//! The Rust has no such calls, so that the port is compared with this. It shares nothing with the
//! port but the text, and works on bytes, without the Rust's points too. Sums and products are
//! taken in 128 bits, in which none of them wraps.

use crate::{answer::Answer, file_model::POINT_BYTES};
use std::ops::RangeInclusive;

/// "Pairs down: 6 to 1, 7 to 3, 8 to 3, 9 to 4, 10 to 5."
pub const DOWN: [(u8, u8); 5] = [(6, 1), (7, 3), (8, 3), (9, 4), (10, 5)];

/// "Up: 1 to 6, 3 to 7, 4 to 9, 5 to 10."
pub const UP: [(u8, u8); 4] = [(1, 6), (3, 7), (4, 9), (5, 10)];

/// The longest record: "target record over 65,535 bytes 8".
const LONGEST: u128 = 65_535;

/// Where flags start, in both layouts: after X, Y, Z and intensity.
pub const FLAGS: usize = 14;

/// Where an extended record has its angle: three bytes of flags and the user data are before it.
pub const SCALED: usize = 18;

/// Where the time starts: "old: angle i8 first; extended: user data first, angle i16".
const OLD_TIME: usize = 20;
const EXTENDED_TIME: usize = 22;

/// The bytes of time and of what the format has of colour, which stand before NIR and waveform.
fn time_and_colour(format: u8) -> usize {
    match format {
        3 | 5 | 7 | 8 | 10 => 8 + 6,
        _ => 8,
    }
}

/// Where a record of a format has its NIR, if it has one.
pub fn nir(format: u8) -> Option<usize> {
    matches!(format, 8 | 10).then(|| EXTENDED_TIME + time_and_colour(format))
}

/// The bytes of a record of a format with extra bytes.
pub fn record_bytes(format: u8, extra: u16) -> u128 {
    POINT_BYTES[usize::from(format)] + u128::from(extra)
}

fn u16_at(record: &[u8], at: usize) -> u16 {
    u16::from_le_bytes([record[at], record[at + 1]])
}

/// The fields that both kinds of flags have: "byte one has return number (bits 0-2), number of
/// returns (3-5), direction (6), edge (7); byte two has class (0-4), synthetic (5), key point (6),
/// withheld (7)", and in the extended ones "return number (0-3), number of returns (4-7); byte two,
/// synthetic, key point, withheld, overlap (0-3), channel (4-5), direction (6), edge (7); byte
/// three, class".
struct Flags {
    return_number: u8,
    number_of_returns: u8,
    direction: bool,
    edge: bool,
    synthetic: bool,
    key_point: bool,
    withheld: bool,
    class: u8,
}

fn bit(byte: u8, k: u8) -> bool {
    byte >> k & 1 == 1
}

fn old_flags(record: &[u8]) -> Flags {
    let (one, two) = (record[FLAGS], record[FLAGS + 1]);
    Flags {
        return_number: one & 7,
        number_of_returns: one >> 3 & 7,
        direction: bit(one, 6),
        edge: bit(one, 7),
        synthetic: bit(two, 5),
        key_point: bit(two, 6),
        withheld: bit(two, 7),
        class: two & 31,
    }
}

fn extended_flags(record: &[u8]) -> Flags {
    let (one, two) = (record[FLAGS], record[FLAGS + 1]);
    Flags {
        return_number: one & 15,
        number_of_returns: one >> 4,
        direction: bit(two, 6),
        edge: bit(two, 7),
        synthetic: bit(two, 0),
        key_point: bit(two, 1),
        withheld: bit(two, 2),
        class: record[FLAGS + 2],
    }
}

fn overlap(record: &[u8]) -> bool {
    bit(record[FLAGS + 1], 3)
}

fn channel(record: &[u8]) -> u8 {
    record[FLAGS + 1] >> 4 & 3
}

/// "Scaled n to rank: the nearest whole number to 6n/1000, halves away from zero", before holding.
pub fn rank(scaled: i16) -> i32 {
    let n = i32::from(scaled);
    n.signum() * ((6 * n.abs() + 500) / 1000)
}

/// Document 02, No. 2: "the standard's rank runs from −90 to 90".
pub const RANKS: RangeInclusive<i32> = -90..=90;

/// What keeps an extended record from being converted, and its value.
fn offence(record: &[u8], format: u8) -> Option<(u64, u64)> {
    let flags = extended_flags(record);
    if flags.return_number > 7 {
        return Some((15, flags.return_number.into()));
    }
    if flags.number_of_returns > 7 {
        return Some((16, flags.number_of_returns.into()));
    }
    let class = flags.class;
    if class > 31 {
        return Some((17, class.into()));
    }
    if channel(record) > 0 {
        return Some((18, channel(record).into()));
    }
    // "overlap set and class not 12, or clear and class 12 or 28"
    let parts = match overlap(record) {
        true => class != 12,
        false => class == 12 || class == 28,
    };
    if parts {
        return Some((19, class.into()));
    }
    if let Some(at) = nir(format) {
        let nir = u16_at(record, at);
        if nir != 0 {
            return Some((20, nir.into()));
        }
    }
    let scaled = u16_at(record, SCALED);
    if !RANKS.contains(&rank(scaled as i16)) {
        return Some((21, scaled.into()));
    }
    None
}

/// Writes the old record of an extended one that has no offence.
fn down(from: &[u8], format: u8, to: &mut [u8]) {
    let flags = extended_flags(from);
    // X, Y, Z and intensity.
    to[..FLAGS].copy_from_slice(&from[..FLAGS]);
    to[FLAGS] = flags.return_number
        | flags.number_of_returns << 3
        | u8::from(flags.direction) << 6
        | u8::from(flags.edge) << 7;
    to[FLAGS + 1] = flags.class
        | u8::from(flags.synthetic) << 5
        | u8::from(flags.key_point) << 6
        | u8::from(flags.withheld) << 7;
    to[16] = rank(u16_at(from, SCALED) as i16) as i8 as u8;
    // User data and source id.
    to[17] = from[17];
    to[18..20].copy_from_slice(&from[20..22]);
    let both = time_and_colour(format);
    to[OLD_TIME..][..both].copy_from_slice(&from[EXTENDED_TIME..][..both]);
    // Waveform and extra bytes, which in an extended record stand after the NIR.
    let after = nir(format).map_or(EXTENDED_TIME + both, |at| at + 2);
    to[OLD_TIME + both..].copy_from_slice(&from[after..]);
}

/// Writes the extended record of an old one: "class kept, overlap set exactly for class 12, channel
/// and NIR 0, the other flags moved".
fn up(from: &[u8], format: u8, to: &mut [u8]) {
    let flags = old_flags(from);
    to[..FLAGS].copy_from_slice(&from[..FLAGS]);
    to[FLAGS] = flags.return_number | flags.number_of_returns << 4;
    to[FLAGS + 1] = u8::from(flags.synthetic)
        | u8::from(flags.key_point) << 1
        | u8::from(flags.withheld) << 2
        | u8::from(flags.class == 12) << 3
        | u8::from(flags.direction) << 6
        | u8::from(flags.edge) << 7;
    to[FLAGS + 2] = flags.class;
    to[17] = from[17];
    // "Rank r to scaled: 500r/3, fraction dropped."
    let scaled = 500 * i32::from(from[16] as i8) / 3;
    to[SCALED..][..2].copy_from_slice(&(scaled as i16).to_le_bytes());
    to[20..22].copy_from_slice(&from[18..20]);
    let both = time_and_colour(format);
    to[EXTENDED_TIME..][..both].copy_from_slice(&from[OLD_TIME..][..both]);
    let mut after = EXTENDED_TIME + both;
    // Of the formats that records are upgraded to, 10 alone has NIR.
    if format == 5 {
        to[after..after + 2].fill(0);
        after += 2;
    }
    to[after..].copy_from_slice(&from[OLD_TIME + both..]);
}

/// What keeps a record of a format from being converted, and its value.
type Offence = fn(&[u8], u8) -> Option<(u64, u64)>;

/// What the two directions do not share: the pairs, what keeps a record from being converted, and what
/// is written of one.
struct Direction {
    pairs: &'static [(u8, u8)],
    offence: Offence,
    record: fn(&[u8], u8, &mut [u8]),
}

/// Strict conversion of a run of extended records to the old format of their pair.
const TO_OLD: Direction = Direction {
    pairs: &DOWN,
    offence,
    record: down,
};

/// Upgrade of a run of old records, which "has none of these record checks".
const TO_NEW: Direction = Direction {
    pairs: &UP,
    offence: |_, _| None,
    record: up,
};

impl Direction {
    /// The bytes of a record before and after, if the format has a pair.
    fn lengths(&self, format: u8, extra: u16) -> Option<[u128; 2]> {
        let (_, target) = self.pairs.iter().find(|pair| pair.0 == format)?;
        Some([format, *target].map(|format| record_bytes(format, extra)))
    }

    /// Document 02, No. 10: "a question, with no destination, that gives the first refusal other than 22
    /// or the bytes needed".
    fn ask(&self, src: &[u8], format: u8, extra: u16, count: u64) -> Answer {
        let Some(lengths) = self.lengths(format, extra) else {
            return Answer::refusal(26, format);
        };
        for length in lengths {
            if length > LONGEST {
                return Answer::refusal(8, length as u64);
            }
        }
        let [source, target] = lengths.map(|length| length * u128::from(count));
        if (src.len() as u128) < source {
            // "bytes wanted in all, 0 if over 2^64-1"
            return Answer::refusal(1, u64::try_from(source).unwrap_or(0));
        }
        // The run is no longer than what is lent, so that its lengths are those of slices.
        let run = src[..source as usize].chunks_exact(lengths[0] as usize);
        for (record, bytes) in (1..).zip(run) {
            if let Some((number, value)) = (self.offence)(bytes, format) {
                return Answer {
                    number,
                    value,
                    record,
                };
            }
        }
        Answer::result(target as u64)
    }

    /// "and a writing call that asks it itself. [...] 22 now comes after the record checks and only from
    /// the writing call". What it writes is document 01's: "If all fit, each record goes into the rest of
    /// the destination and bytes past the run stay."
    fn convert(&self, src: &[u8], format: u8, extra: u16, count: u64, dst: &mut [u8]) -> Answer {
        let asked = self.ask(src, format, extra, count);
        let Some([from, to]) = self.lengths(format, extra).filter(|_| asked.number == 0) else {
            return asked;
        };
        if (dst.len() as u64) < asked.value {
            return Answer::refusal(22, asked.value);
        }
        let run = src.chunks_exact(from as usize).take(count as usize);
        for (bytes, dst) in run.zip(dst.chunks_exact_mut(to as usize)) {
            (self.record)(bytes, format, dst);
        }
        asked
    }
}

/// Whether a run goes down, and with how many bytes.
pub fn ask_old(src: &[u8], format: u8, extra: u16, count: u64) -> Answer {
    TO_OLD.ask(src, format, extra, count)
}

/// Whether a run goes up.
pub fn ask_new(src: &[u8], format: u8, extra: u16, count: u64) -> Answer {
    TO_NEW.ask(src, format, extra, count)
}

/// A run converted down, at the front of the destination.
pub fn to_old(src: &[u8], format: u8, extra: u16, count: u64, dst: &mut [u8]) -> Answer {
    TO_OLD.convert(src, format, extra, count, dst)
}

/// A run converted up.
pub fn to_new(src: &[u8], format: u8, extra: u16, count: u64, dst: &mut [u8]) -> Answer {
    TO_NEW.convert(src, format, extra, count, dst)
}
