//! The list of columns, which `c/replay_column.c` repeats with no Rust at hand: questions that say how a file is
//! made and which stretch of which column is asked for, and the answers of document 02's rules as
//! `column_model` has them.
//!
//! A line of questions has the 21 numbers of a `Question`. A line of answers has the row and a sum over the
//! bytes of all entries, of those that the call must leave too. Every NaN of an f64 is summed as the same.

use crate::{
    column_model::{
        self, COLUMNS,
        Column::{self, *},
        Stretch,
    },
    file_model::Found,
    replay_frame::{self, Frame, List, NOTHING, put, summed},
    report::Tally,
};
use std::{io, path::Path};

/// How a file is made, and what is asked of it.
#[derive(Clone, Copy)]
struct Question {
    /// Where the bytes without pattern begin.
    seed: u64,
    frame: Frame,
    /// A point from 1 on, or 0, and 64 bits at a place in its record.
    point: u64,
    place: u64,
    bits: u64,
    /// The column, by its number among all, and the stretch.
    column: u64,
    first: u64,
    count: u64,
    /// The entries of the destination.
    room: u64,
}

/// What the bytes of an entry are before a call, and how many entries there are past the room.
const BEFORE: u8 = 0xa5;
const SPARE: u64 = 2;

/// The bytes of an entry.
fn width(column: Column) -> usize {
    match column {
        X | Y | Z => 4,
        Time | TimeBits => 8,
        Red | Green | Blue | Nir => 2,
    }
}

impl Question {
    /// The file.
    fn make(&self) -> Vec<u8> {
        let mut file = self.frame.make(self.seed);
        if self.point > 0 {
            let at = self.frame.offset + (self.point - 1) * self.frame.length;
            put(&mut file, at + self.place, 8, self.bits);
        }
        file
    }
}

impl replay_frame::Question for Question {
    fn seeded(self, seed: u64) -> Question {
        Question { seed, ..self }
    }

    fn numbers(&self) -> Vec<u64> {
        let asked = [
            self.point,
            self.place,
            self.bits,
            self.frame.size,
            self.frame.allowance,
            self.column,
            self.first,
            self.count,
            self.room,
        ];
        [&[self.seed][..], &self.frame.numbers(), &asked].concat()
    }

    /// What the rules answer.
    fn answer(&self) -> String {
        let column = COLUMNS[self.column as usize];
        let stretch = Stretch {
            column,
            allowance: self.frame.allowance,
            first: self.first,
            count: self.count,
            room: self.room as usize,
        };
        let (mut found, mut entries) = (Found::default(), Vec::new());
        let row = column_model::column(&mut found, &self.make(), stretch, &mut entries);
        let width = width(column);
        let mut bytes = vec![BEFORE; (self.room + SPARE) as usize * width];
        for (entry, bits) in bytes.chunks_mut(width).zip(entries) {
            entry.copy_from_slice(&bits.to_le_bytes()[..width]);
        }
        format!("{row} {}\n", summed(NOTHING, &bytes))
    }
}

/// Asks for a column of so many points from a first one on, into so many entries.
fn ask(list: &mut List, file: Question, column: Column, [first, count, room]: [u64; 3]) {
    list.ask(Question {
        column: column as u64,
        first,
        count,
        room,
        ..file
    });
}

/// Files of every version and format: right behind one another, with padding, VLRs, a gap before the points
/// and one behind them, extra bytes, waveform packets; without points; those of 1.4 with the legacy count,
/// with the large one, with both, with EVLRs and with half a pair.
fn files() -> [Frame; 18] {
    [
        Frame::new((0, 0), (227, 0), (227, 20), [1, 0], 0),
        Frame::new((0, 1), (227, 1), (283, 28), [3, 0], 0),
        Frame::new((1, 0), (230, 0), (230, 21), [4, 0], 2),
        Frame::new((2, 0), (227, 0), (227, 20), [0, 0], 0),
        Frame::new((2, 2), (227, 2), (340, 26), [2, 0], 0),
        Frame::new((2, 2), (227, 0), (227, 27), [17, 0], 0),
        Frame::new((2, 3), (300, 1), (354, 41), [5, 0], 7),
        Frame {
            waveform: 406,
            ..Frame::new((3, 4), (235, 0), (235, 57), [3, 0], 70)
        },
        Frame::new((3, 5), (240, 1), (296, 64), [2, 0], 9),
        Frame::new((4, 3), (375, 0), (375, 34), [0, 40], 0),
        Frame {
            evlr_start: 700,
            ..Frame::new((4, 5), (380, 1), (440, 66), [3, 9], 1)
        },
        Frame::new((4, 6), (375, 0), (375, 30), [0, 1], 0),
        Frame::new((4, 6), (400, 2), (509, 33), [4, 4], 5),
        Frame {
            evlrs: 7,
            ..Frame::new((4, 7), (375, 0), (376, 36), [0, 3], 2)
        },
        Frame {
            evlr_start: 560,
            evlrs: 2,
            ..Frame::new((4, 8), (375, 1), (429, 40), [3, 0], 140)
        },
        Frame::new((4, 9), (375, 0), (375, 59), [2, 1 << 33], 0),
        Frame::new((4, 10), (375, 0), (375, 67), [0, 0], 3),
        Frame::new((4, 10), (375, 0), (375, 70), [0, 9], 0),
    ]
}

/// Makes the list afresh, and writes it into the folder or compares it with what the folder has.
pub fn compare(tally: &mut Tally, folder: &Path, write: bool) -> io::Result<()> {
    let mut list = List::default();
    for frame in files() {
        let file = Question {
            seed: 0,
            frame,
            point: 0,
            place: 0,
            bits: 0,
            column: 0,
            first: 1,
            count: 0,
            room: 0,
        };
        filled(&mut list, file);
        patterns(&mut list, file);
        index(&mut list, file);
        room(&mut list, file);
        order(&mut list, file);
        if frame.vlrs > 0 || frame.waveform > 0 {
            check(&mut list, file);
        }
    }
    let numbers = [
        0, 1, 3, 4, 5, 6, 7, 8, 9, 10, 11, 12, 13, 14, 22, 27, 35, 36,
    ];
    list.keep("columns", &numbers, tally, folder, write)
}

/// Every column, or its refusal: all points, and those from the second on into more room.
fn filled(list: &mut List, file: Question) {
    let points = file.frame.count();
    for column in COLUMNS {
        ask(list, file, column, [1, points, points]);
        if points > 0 {
            ask(list, file, column, [2, points - 1, points + 2]);
        }
    }
}

/// Patterns that do not stay where they are taken for numbers: coordinates at their ends, every sort of time,
/// near infrared 0.
fn patterns(list: &mut List, file: Question) {
    let points = file.frame.count();
    let time = if file.frame.format < 6 { 20 } else { 22 };
    let times = [
        0x7ff0_0000_0000_0001,
        0xfff8_0000_dead_beef,
        0xfff0 << 48,
        1 << 63,
        1,
    ];
    let coordinates = [(X, 0, 1 << 31), (Z, 8, 0x7fff_ffff)];
    let near_infrared = [(Nir, 36, 0), (Blue, 34, 0xff)];
    let times = times
        .into_iter()
        .flat_map(|bits| [(Time, time, bits), (TimeBits, time, bits)]);
    for (column, place, bits) in coordinates.into_iter().chain(near_infrared).chain(times) {
        let lacks = match column {
            Time | TimeBits => [0, 2].contains(&file.frame.format),
            Nir | Blue => file.frame.format < 7 || file.frame.format == 9,
            _ => false,
        };
        if points == 0 || lacks {
            continue;
        }
        let told = Question {
            point: points,
            place,
            bits,
            ..file
        };
        ask(list, told, column, [points, 1, 2]);
    }
}

/// Stretches on both sides of the points, and those that fewer bits or a sum that wraps would let in.
fn index(list: &mut List, file: Question) {
    let points = file.frame.count();
    for (first, count) in [
        (0, 0),
        (0, 1),
        (points + 1, 0),
        (points + 1, 1),
        (points + 2, 0),
        (1, points + 1),
        (points, 2),
        (2, u64::MAX),
        (u64::MAX, 2),
        (u64::MAX, 0),
        (1 + (1 << 32), 1),
        (1, 1 << 32),
        (u64::MAX / file.frame.length + 2, 1),
    ] {
        ask(list, file, Y, [first, count, points + 1]);
    }
}

/// One entry too few, and none.
fn room(list: &mut List, file: Question) {
    let points = file.frame.count();
    if points > 0 {
        ask(list, file, X, [1, points, points - 1]);
        ask(list, file, Z, [points, 1, 0]);
    }
}

/// Each refusal together with those that come later.
fn order(list: &mut List, file: Question) {
    let points = file.frame.count();
    for column in [X, Time, Nir] {
        ask(list, file, column, [0, u64::MAX, 0]);
        ask(list, file, column, [1, points + 1, points]);
        ask(list, file, column, [1, points, points / 2]);
    }
}

/// What the file check refuses, with what is refused later.
fn check(list: &mut List, file: Question) {
    let worst = Question {
        column: Nir as u64,
        first: 0,
        count: u64::MAX,
        room: 1,
        ..file
    };
    for frame in file.frame.refused() {
        list.ask(Question { frame, ..worst });
    }
}
