//! Document 02's No. 13, the class of one point set in place, written from its text and document 01's alone:
//! which classes which points can have, and what changes in the file.
//!
//! The Rust has no such call, so that the port is compared with this. It shares nothing with the port but the
//! text. The file check and the effective count are those of `file_model`; all else is taken from the bytes
//! here, in 128 bits, in which no sum or product wraps.

use crate::{answer::Answer, file_model::Found};

/// Where the header has the numbers that say where a point is and what its flags are.
const POINT_OFFSET: usize = 96;
const FORMAT: usize = 104;
const RECORD_LENGTH: usize = 105;

/// "Order: X, Y, Z (i32), intensity (u16), flags": where these begin in a record.
const FLAGS: u128 = 3 * 4 + 2;

/// What is asked for: a class for one point of a file.
#[derive(Clone, Copy)]
pub struct Wish {
    pub allowance: u64,
    pub point: u64,
    pub class: u8,
}

/// The place of a byte in a file, and what it becomes.
pub type Change = [u64; 2];

/// What is to change: the place of the byte that has the class, what it becomes, and the class that the point
/// had.
pub struct Judged {
    pub at: usize,
    pub byte: u8,
    pub had: u8,
}

/// The little-endian number of `width` bytes at `at`.
fn number(file: &[u8], at: usize, width: usize) -> u128 {
    let bytes = &file[at..][..width];
    bytes.iter().rev().fold(0, |n, &b| n << 8 | u128::from(b))
}

/// What a wish comes to, or the first refusal.
pub fn judge(found: &mut Found, file: &[u8], wish: Wish) -> Result<Judged, Answer> {
    let Wish {
        allowance,
        point,
        class,
    } = wish;
    // "Refusals, in order: file check; index; class above 31 in formats 0 to 5." "Record and point numbers
    // start at 1", and the value of 27 is the point count, that of 17 the class.
    let check = found.check(file, allowance);
    if check.number != 0 {
        return Err(check);
    }
    let count = found.points();
    if !(1..=count).contains(&point) {
        return Err(Answer::refusal(27, count));
    }
    let old = (0..=5).contains(&number(file, FORMAT, 1));
    if old && class > 31 {
        return Err(Answer::refusal(17, class));
    }

    // "Old flags: [...] byte two has class (0-4), synthetic (5), key point (6), withheld (7)." "Extended:
    // [...] byte three, class."
    let before = u128::from(point - 1) * number(file, RECORD_LENGTH, 2);
    let flags = number(file, POINT_OFFSET, 4) + before + FLAGS;
    let at = (flags + if old { 1 } else { 2 }) as usize;
    let had = if old { file[at] % 32 } else { file[at] };
    Ok(Judged {
        at,
        byte: file[at] - had + class,
        had,
    })
}

/// The question: the value is the class that the point had. A refusal tells no change.
pub fn ask(found: &mut Found, file: &[u8], wish: Wish) -> (Answer, Option<Change>) {
    match judge(found, file, wish) {
        Ok(Judged { at, byte, had }) => (Answer::result(had), Some([at as u64, byte.into()])),
        Err(refusal) => (refusal, None),
    }
}

/// The class set "in place", with the same answer: "every other byte" is the same.
pub fn reclassify(found: &mut Found, file: &mut [u8], wish: Wish) -> Answer {
    match judge(found, file, wish) {
        Ok(Judged { at, byte, had }) => {
            file[at] = byte;
            Answer::result(had)
        }
        Err(refusal) => refusal,
    }
}
