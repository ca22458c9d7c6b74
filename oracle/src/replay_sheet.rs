//! The list of sheets, which `c/replay_sheet.c` repeats with no Rust at hand: questions that say how two files and
//! a sheet are made, and the answers of document 02's rules as `sheet_model` has them.
//!
//! A line of questions has the 21 numbers of a `Question`. A line of answers has, for each of the two files, the row
//! of the call that adds it and a sum over the numbers of the sheet after it.

use crate::{
    capi::SheetNumbers,
    file_model::Found,
    replay_frame::{self, Frame, List, NOTHING, put, summed},
    report::Tally,
    sheet_model::{self, BOUNDS, FILES, HAS_BOUNDS, POINTS},
};
use std::{io, path::Path};

/// How two files and a sheet are made.
#[derive(Clone, Copy)]
struct Question {
    /// Where the bytes without pattern begin; those of the second file begin elsewhere.
    seed: u64,
    frame: Frame,
    /// A point, with X, Y and Z of it, and the three bytes from the 14th on of its record.
    point: u64,
    coordinate: u64,
    flags: u64,
    /// What the sheet has: whether there are bounds, all six of them, and one number at a place.
    has: u64,
    bound: u64,
    at: u64,
    number: u64,
}

/// How far the second file's bytes are from the first one's.
const SECOND: u64 = 1 << 32;

impl Question {
    /// A file.
    fn make(&self, seed: u64) -> Vec<u8> {
        let mut file = self.frame.make(seed);
        if (1..=self.frame.count()).contains(&self.point) {
            let at = self.frame.offset + (self.point - 1) * self.frame.length;
            for axis in 0..3 {
                put(&mut file, at + 4 * axis, 4, self.coordinate);
            }
            put(&mut file, at + 14, 3, self.flags);
        }
        file
    }

    /// The sheet before the first file.
    fn sheet(&self) -> SheetNumbers {
        let mut sheet = [0; 281];
        sheet[HAS_BOUNDS] = self.has;
        sheet[BOUNDS].fill(self.bound);
        sheet[self.at as usize] = self.number;
        sheet
    }
}

impl replay_frame::Question for Question {
    fn seeded(self, seed: u64) -> Question {
        Question { seed, ..self }
    }

    fn numbers(&self) -> Vec<u64> {
        let asked = [
            self.frame.size,
            self.frame.allowance,
            self.point,
            self.coordinate,
            self.flags,
            self.has,
            self.bound,
            self.at,
            self.number,
        ];
        [&[self.seed][..], &self.frame.numbers(), &asked].concat()
    }

    /// What the rules answer.
    fn answer(&self) -> String {
        let mut found = Found::default();
        let mut sheet = self.sheet();
        let lines = [self.seed, self.seed + SECOND].map(|seed| {
            let file = self.make(seed);
            let (row, after, _) = sheet_model::add(&mut found, &file, self.frame.allowance, &sheet);
            sheet = after;
            let sum = |sum, number: &u64| summed(sum, &number.to_le_bytes());
            format!("{row} {}", sheet.iter().fold(NOTHING, sum))
        });
        lines.join(" ") + "\n"
    }
}

/// Files of every version and format, and one without points: right behind one another, with padding, VLRs, a gap
/// before the points and one behind them, extra bytes, waveform packets; those of 1.4 with the legacy count, with
/// the large one, with both, and with EVLRs.
fn files() -> [Frame; 14] {
    [
        Frame::new((0, 0), (227, 0), (227, 20), [1, 0], 0),
        Frame::new((0, 1), (227, 1), (283, 28), [7, 0], 0),
        Frame::new((1, 0), (230, 0), (230, 21), [4, 0], 2),
        Frame::new((2, 2), (227, 2), (340, 26), [0, 0], 0),
        Frame::new((2, 3), (300, 1), (354, 41), [5, 0], 7),
        Frame {
            waveform: 406,
            ..Frame::new((3, 4), (235, 0), (235, 57), [3, 0], 70)
        },
        Frame::new((3, 5), (240, 1), (296, 64), [2, 0], 9),
        Frame::new((4, 0), (375, 0), (375, 20), [0, 3], 0),
        Frame::new((4, 5), (380, 1), (440, 66), [3, 9], 1),
        Frame::new((4, 6), (375, 0), (375, 30), [0, 40], 0),
        Frame::new((4, 7), (375, 0), (376, 36), [0, 3], 2),
        Frame {
            evlr_start: 560,
            evlrs: 2,
            ..Frame::new((4, 8), (375, 1), (429, 40), [3, 0], 140)
        },
        Frame::new((4, 9), (375, 0), (375, 59), [2, 1 << 33], 0),
        Frame::new((4, 10), (375, 0), (375, 67), [0, 3], 3),
    ]
}

/// Makes the list afresh, and writes it into the folder or compares it with what the folder has.
pub fn compare(tally: &mut Tally, folder: &Path, write: bool) -> io::Result<()> {
    let mut list = List::default();
    for (k, frame) in files().into_iter().enumerate() {
        let file = Question {
            seed: 0,
            frame,
            point: 1,
            coordinate: 5,
            flags: 0,
            has: 0,
            bound: 0,
            at: 0,
            number: 0,
        };
        points(&mut list, file);
        bounds(&mut list, file);
        totals(&mut list, file);
        // What the file check refuses, on a sheet that has no room either.
        let refused = frame.refused().into_iter().enumerate();
        for (_, frame) in refused.filter(|(i, _)| (i + k) % 2 == 0) {
            let number = u64::MAX;
            list.ask(Question {
                frame,
                number,
                ..file
            });
        }
    }
    let numbers = [0, 1, 3, 4, 5, 6, 7, 8, 9, 10, 11, 12, 13, 14, 35, 50];
    list.keep("sheets", &numbers, tally, folder, write)
}

/// From the empty sheet, with a point at the ends of what it can hold: no return and the last, classes with
/// every other bit set, coordinates at their ends.
fn points(list: &mut List, file: Question) {
    for (point, coordinate, flags) in [
        (0, 0, 0),
        (1, 1 << 31, 0x00_1f_00),
        (file.frame.count(), (1 << 31) - 1, 0xff_ff_ff),
        (1, 0xffff_ffff, 0x0c_8c_f8),
    ] {
        list.ask(Question {
            point,
            coordinate,
            flags,
            ..file
        });
    }
}

/// Onto bounds made by hand: there or not, by any number but 0, at their ends and wider than their fields.
fn bounds(list: &mut List, file: Question) {
    for (has, bound) in [
        (0, 7),
        (1, (1 << 31) - 1),
        (1 << 32, u64::MAX),
        (2, 1 << 40 | 1 << 31),
    ] {
        list.ask(Question { has, bound, ..file });
    }
}

/// Onto totals that have room for one file, for both, or for none: the files, the points, the point's class and
/// its return number, and those of the next.
fn totals(list: &mut List, file: Question) {
    let count = file.frame.count();
    // The bytes of a point with a class and a return number that few others have.
    let flags = 0x1d_1d_05;
    let one = |list: &mut List, at: usize, left: u64| {
        list.ask(Question {
            flags,
            at: at as u64,
            number: u64::MAX - left,
            ..file
        });
    };
    one(list, FILES, 1);
    one(list, FILES, 2);
    one(list, POINTS, count);
    one(list, POINTS, 2 * count);
    for place in [9 + 0x1d, 265 + 5] {
        one(list, place, 1);
        one(list, place, 0);
    }
    one(list, 10 + 0x1d, 0);
}
