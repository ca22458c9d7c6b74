//! Document 02's No. 6, one field of many points, written from its text and document 01's alone: which
//! stretches of which fields are refused, and which numbers the others hold; and No. 7's X, Y and Z in one pass.
//!
//! It shares nothing with the port but the text. The file check and the count of points are those of
//! `file_model`; where a record stands, and where a field stands in it, is added up here, in 128 bits, in
//! which no sum or product wraps.

use crate::{answer::Answer, file_model::Found};

/// "X, Y, Z, time, red, green, blue or NIR": the time as a number and by its bits.
#[derive(Clone, Copy, Debug, PartialEq, Eq)]
pub enum Column {
    X,
    Y,
    Z,
    Time,
    TimeBits,
    Red,
    Green,
    Blue,
    Nir,
}
use Column::*;

pub const COLUMNS: [Column; 9] = [X, Y, Z, Time, TimeBits, Red, Green, Blue, Nir];

/// What is asked for: a column of so many points from number `first` on, into so many entries.
#[derive(Clone, Copy, Debug)]
pub struct Stretch {
    pub column: Column,
    pub allowance: u64,
    pub first: u64,
    pub count: u64,
    pub room: usize,
}

/// What is asked for in one pass: X, Y and Z of so many points from number `first` on, into so many entries each.
#[derive(Clone, Copy, Debug)]
pub struct Pass {
    pub allowance: u64,
    pub first: u64,
    pub count: u64,
    pub rooms: [usize; 3],
}

impl Pass {
    /// The stretch of one of the three by itself.
    pub fn stretch(self, column: Column) -> Stretch {
        Stretch {
            column,
            allowance: self.allowance,
            first: self.first,
            count: self.count,
            room: self.rooms[column as usize],
        }
    }
}

/// Whether formats 0 to 10 have time, colour and near infrared, as the standard says. With the waveform of
/// formats 4, 5, 9 and 10 their records have the bytes that document 01 lists.
const HAS: [[bool; 3]; 11] = {
    const NONE: [bool; 3] = [false, false, false];
    const TIME: [bool; 3] = [true, false, false];
    const COLOUR: [bool; 3] = [false, true, false];
    const BOTH: [bool; 3] = [true, true, false];
    const ALL: [bool; 3] = [true, true, true];
    [
        NONE, TIME, COLOUR, BOTH, TIME, BOTH, TIME, BOTH, ALL, TIME, ALL,
    ]
};

/// Where a record of a format has a column's field, and how many bytes that takes, if it has it: "X, Y, Z
/// (i32), intensity (u16), flags, angle and user data (old: angle i8 first; extended: user data first, angle
/// i16), source id (u16), then what the format has of time (f64), colour (three u16), NIR (u16)".
fn place(format: u8, column: Column) -> Option<(u128, usize)> {
    let [has_time, has_colour, has_nir] = HAS[usize::from(format)];
    let flags_and_angle = if format < 6 { 2 + 1 } else { 3 + 2 };
    let user_data = 1;
    let time = 3 * 4 + 2 + flags_and_angle + user_data + 2;
    let colour = time + 8 * u128::from(has_time);
    let nir = colour + 3 * 2 * u128::from(has_colour);
    match column {
        X => Some((0, 4)),
        Y => Some((4, 4)),
        Z => Some((8, 4)),
        Time | TimeBits => has_time.then_some((time, 8)),
        Red => has_colour.then_some((colour, 2)),
        Green => has_colour.then_some((colour + 2, 2)),
        Blue => has_colour.then_some((colour + 4, 2)),
        Nir => has_nir.then_some((nir, 2)),
    }
}

/// The bits of an entry as they are compared: as an f64 any NaN is as good as another, and only the column of
/// bits tells which it is.
pub fn compared(column: Column, bits: u64) -> u64 {
    match column {
        Time if f64::from_bits(bits).is_nan() => f64::NAN.to_bits(),
        _ => bits,
    }
}

/// The little-endian number of `width` bytes at `at`.
fn number(file: &[u8], at: u128, width: usize) -> u64 {
    let bytes = &file[at as usize..][..width];
    bytes.iter().rev().fold(0, |n, &b| n << 8 | u64::from(b))
}

/// What is answered, and the entries that are filled, each by the bits that are compared; a refusal fills none.
pub fn column(found: &mut Found, file: &[u8], stretch: Stretch, entries: &mut Vec<u64>) -> Answer {
    entries.clear();
    // "Refusals, in order: file check; field lacking; stretch not within the points (27); no room."
    let check = found.check(file, stretch.allowance);
    if check.number != 0 {
        return check;
    }
    // "Where the format lacks a field the call is refused", points or not.
    let Some((field, width)) = place(file[104], stretch.column) else {
        return Answer::refusal(36, 0u8);
    };
    // "Record and point numbers start at 1"; "index: point count".
    let [first, count, points] = [stretch.first, stretch.count, found.points()].map(u128::from);
    if first < 1 || first - 1 + count > points {
        return Answer::refusal(27, found.points());
    }
    // "no room: bytes or entries wanted".
    if (stretch.room as u128) < count {
        return Answer::refusal(22, stretch.count);
    }
    let (offset, length) = (number(file, 96, 4), number(file, 105, 2));
    for point in first..first + count {
        let record = u128::from(offset) + (point - 1) * u128::from(length);
        let bits = number(file, record + field, width);
        entries.push(compared(stretch.column, bits));
    }
    Answer::result(stretch.count)
}

/// What is answered to a pass, and the entries of X, Y and Z that are filled: "The answers stay those of No. 6." It
/// is refused where any of the three has no room, which is where the shortest has none, and then fills none of them.
pub fn xyz(found: &mut Found, file: &[u8], pass: Pass, entries: &mut [Vec<u64>; 3]) -> Answer {
    entries.iter_mut().for_each(Vec::clear);
    let shortest = pass.rooms.into_iter().min().unwrap_or_default();
    for (one, entries) in [X, Y, Z].into_iter().zip(entries) {
        let stretch = Stretch {
            room: shortest,
            ..pass.stretch(one)
        };
        let answer = column(found, file, stretch, entries);
        if answer.number != 0 {
            return answer;
        }
    }
    Answer::result(pass.count)
}
