//! Document 02's No. 9, the site sheet, written from its text and document 01's alone: what a file adds to a
//! sheet, and when it adds nothing.
//!
//! The Rust has no such call, so that the port is compared with this. It shares nothing with the port but the
//! text, and the places of a sheet's numbers as `include/inscjarol.h` states them. The file check and the
//! effective count are those of `file_model`; all else is taken from the bytes here, in 128 bits, in which no
//! sum or product wraps.

use crate::{answer::Answer, capi::SheetNumbers, file_model::Found};
use std::ops::Range;

/// Where the header has the numbers that say where a point is and what its flags are.
const POINT_OFFSET: usize = 96;
const FORMAT: usize = 104;
const RECORD_LENGTH: usize = 105;

/// "Order: X, Y, Z (i32), intensity (u16), flags": where these begin in a record.
const AXES: [usize; 3] = [0, 4, 8];
const FLAGS: usize = 3 * 4 + 2;

/// The places of a sheet's numbers.
pub const FILES: usize = 0;
pub const POINTS: usize = 1;
pub const HAS_BOUNDS: usize = 2;
pub const BOUNDS: Range<usize> = 3..9;
pub const CLASSES: Range<usize> = 9..265;
pub const RETURNS: Range<usize> = 265..281;

/// The largest number that a total can be.
const MOST: u128 = (1 << 64) - 1;

/// "Points for each class, for each return number including zero, smallest and largest X, Y and Z as the
/// stored whole numbers, and totals."
#[derive(Clone)]
pub struct Sheet {
    pub files: u128,
    pub points: u128,
    pub classes: [u128; 256],
    pub returns: [u128; 16],
    /// Smallest and largest of each axis. "With no points at all there are no smallest and largest."
    pub bounds: Option<[[i32; 2]; 3]>,
}

/// The little-endian number of `width` bytes at `at`.
fn number(bytes: &[u8], at: usize, width: usize) -> u128 {
    let bytes = &bytes[at..][..width];
    bytes.iter().rev().fold(0, |n, &b| n << 8 | u128::from(b))
}

impl Sheet {
    /// The sheet of no files.
    pub fn empty() -> Sheet {
        Sheet {
            files: 0,
            points: 0,
            classes: [0; 256],
            returns: [0; 16],
            bounds: None,
        }
    }

    /// The sheet that numbers stand for: any number but 0 says that bounds are there, and of a number too
    /// wide for its field the low bits count.
    pub fn of(numbers: &SheetNumbers) -> Sheet {
        let mut sheet = Sheet::empty();
        sheet.files = numbers[FILES].into();
        sheet.points = numbers[POINTS].into();
        for (count, &number) in sheet.classes.iter_mut().zip(&numbers[CLASSES]) {
            *count = number.into();
        }
        for (count, &number) in sheet.returns.iter_mut().zip(&numbers[RETURNS]) {
            *count = number.into();
        }
        let [x, y, z] = [3, 5, 7].map(|at| [numbers[at] as i32, numbers[at + 1] as i32]);
        sheet.bounds = (numbers[HAS_BOUNDS] != 0).then_some([x, y, z]);
        sheet
    }

    /// The numbers that stand for a sheet: "what is missing is zeros", and a signed field "stands in two's
    /// complement of its own width".
    pub fn numbers(&self) -> SheetNumbers {
        let mut numbers = [0; 281];
        numbers[FILES] = self.files as u64;
        numbers[POINTS] = self.points as u64;
        for (number, &count) in numbers[CLASSES].iter_mut().zip(&self.classes) {
            *number = count as u64;
        }
        for (number, &count) in numbers[RETURNS].iter_mut().zip(&self.returns) {
            *number = count as u64;
        }
        if let Some(bounds) = self.bounds {
            numbers[HAS_BOUNDS] = 1;
            for (number, &bound) in numbers[BOUNDS].iter_mut().zip(bounds.as_flattened()) {
                *number = u64::from(bound as u32);
            }
        }
        numbers
    }

    /// Adds one point: "counted from the records".
    pub fn point(&mut self, class: u8, return_number: u8, xyz: [i32; 3]) {
        self.points += 1;
        self.classes[usize::from(class)] += 1;
        self.returns[usize::from(return_number)] += 1;
        self.stretch(xyz.map(|n| [n, n]));
    }

    /// Makes the bounds as wide as these are.
    fn stretch(&mut self, others: [[i32; 2]; 3]) {
        let bounds = self.bounds.get_or_insert(others);
        for ([smallest, largest], [low, high]) in bounds.iter_mut().zip(others) {
            *smallest = (*smallest).min(low);
            *largest = (*largest).max(high);
        }
    }

    /// Both together, whatever the totals come to.
    pub fn and(&self, other: &Sheet) -> Sheet {
        let mut both = self.clone();
        both.files += other.files;
        both.points += other.points;
        for (count, more) in both.classes.iter_mut().zip(other.classes) {
            *count += more;
        }
        for (count, more) in both.returns.iter_mut().zip(other.returns) {
            *count += more;
        }
        if let Some(bounds) = other.bounds {
            both.stretch(bounds);
        }
        both
    }

    /// The totals that are over 2^64 - 1, by their places.
    pub fn over(&self) -> Vec<usize> {
        let counts = [self.files, self.points];
        let places = [FILES, POINTS].into_iter().chain(CLASSES).chain(RETURNS);
        let counts = counts.iter().chain(&self.classes).chain(&self.returns);
        let over = places.zip(counts).filter(|&(_, &count)| count > MOST);
        over.map(|(place, _)| place).collect()
    }
}

/// What one accepted file is on a sheet by itself.
pub fn of_file(found: &Found, file: &[u8]) -> Sheet {
    let mut sheet = Sheet::empty();
    sheet.files = 1;
    let length = number(file, RECORD_LENGTH, 2);
    // "Old flags: byte one has return number (bits 0-2) [...]; byte two has class (0-4)." "Extended: byte one,
    // return number (0-3) [...]; byte three, class."
    let old = (0..=5).contains(&number(file, FORMAT, 1));
    for k in 0..u128::from(found.points()) {
        let at = number(file, POINT_OFFSET, 4) + k * length;
        let record = &file[at as usize..][..length as usize];
        let xyz = AXES.map(|axis| number(record, axis, 4) as u32 as i32);
        let (class, return_number) = match old {
            true => (record[FLAGS + 1] % 32, record[FLAGS] % 8),
            false => (record[FLAGS + 2], record[FLAGS] % 16),
        };
        sheet.point(class, return_number, xyz);
    }
    sheet
}

/// What adding a file to a sheet comes to: the row, the sheet after it, and the totals that would be too
/// large. "A refused file [...] adds nothing. [...] Refusals: the file's own, and a total over 2^64-1", which
/// is 50 with the value 0.
pub fn add(
    found: &mut Found,
    file: &[u8],
    allowance: u64,
    sheet: &SheetNumbers,
) -> (Answer, SheetNumbers, Vec<usize>) {
    let check = found.check(file, allowance);
    if check.number != 0 {
        return (check, *sheet, Vec::new());
    }
    let both = Sheet::of(sheet).and(&of_file(found, file));
    let over = both.over();
    match over.is_empty() {
        true => (Answer::result(0u8), both.numbers(), over),
        false => (Answer::refusal(50, 0u8), *sheet, over),
    }
}
