//! The list of classes set, which `c/replay_reclassify.c` repeats with no Rust at hand: questions that say
//! how a file is made and which class one of its points is to have, and the answers of document 02's rules as
//! `reclassify_model` has them.
//!
//! A line of questions has the 17 numbers of a `Question`. A line of answers has the row of the question and
//! the two numbers of its change, the row of the call that sets the class and a sum over the bytes of the
//! file after it; and where it was set, the row of the call that sets it back and a sum over the bytes after
//! that.

use crate::{
    file_model::Found,
    reclassify_model::{self, Wish},
    replay_frame::{self, Frame, List, NOTHING, put, summed},
    report::Tally,
};
use std::{io, path::Path};

/// How a file is made, and what is asked of it.
#[derive(Clone, Copy)]
struct Question {
    /// Where the bytes without pattern begin.
    seed: u64,
    frame: Frame,
    /// The three bytes from the 14th on of the point's record.
    flags: u64,
    /// The point, and the class that it is to have.
    point: u64,
    class: u64,
}

/// What a change holds before a call.
const BEFORE: u64 = 0xa5;

impl Question {
    /// The file.
    fn make(&self) -> Vec<u8> {
        let mut file = self.frame.make(self.seed);
        if (1..=self.frame.count()).contains(&self.point) {
            let at = self.frame.offset + (self.point - 1) * self.frame.length;
            put(&mut file, at + 14, 3, self.flags);
        }
        file
    }
}

impl replay_frame::Question for Question {
    fn seeded(self, seed: u64) -> Question {
        Question { seed, ..self }
    }

    fn numbers(&self) -> Vec<u64> {
        let asked = [
            self.flags,
            self.frame.size,
            self.frame.allowance,
            self.point,
            self.class,
        ];
        [&[self.seed][..], &self.frame.numbers(), &asked].concat()
    }

    /// What the rules answer.
    fn answer(&self) -> String {
        let mut file = self.make();
        let mut found = Found::default();
        let wish = Wish {
            allowance: self.frame.allowance,
            point: self.point,
            class: self.class as u8,
        };
        let (asked, change) = reclassify_model::ask(&mut found, &file, wish);
        let [at, byte] = change.unwrap_or([BEFORE; 2]);
        let row = reclassify_model::reclassify(&mut found, &mut file, wish);
        let mut line = format!("{asked} {at} {byte} {row} {}", summed(NOTHING, &file));
        if row.number == 0 {
            let back = Wish {
                class: row.value as u8,
                ..wish
            };
            let row = reclassify_model::reclassify(&mut found, &mut file, back);
            line += &format!(" {row} {}", summed(NOTHING, &file));
        }
        line + "\n"
    }
}

/// Files of every version and format: right behind one another, with padding, VLRs, a gap before the points
/// and one behind them, extra bytes, waveform packets; those of 1.4 with the legacy count, with the large
/// one, with both, with EVLRs and with half a pair.
fn files() -> [Frame; 15] {
    [
        Frame::new((0, 0), (227, 0), (227, 20), [1, 0], 0),
        Frame::new((0, 1), (227, 1), (283, 28), [3, 0], 0),
        Frame::new((1, 0), (230, 0), (230, 21), [4, 0], 2),
        Frame::new((2, 2), (227, 2), (340, 26), [2, 0], 0),
        Frame::new((2, 3), (300, 1), (354, 41), [5, 0], 7),
        Frame {
            waveform: 406,
            ..Frame::new((3, 4), (235, 0), (235, 57), [3, 0], 70)
        },
        Frame::new((3, 5), (240, 1), (296, 64), [2, 0], 9),
        Frame::new((4, 0), (375, 0), (375, 20), [0, 3], 0),
        Frame {
            evlr_start: 700,
            ..Frame::new((4, 5), (380, 1), (440, 66), [3, 9], 1)
        },
        Frame::new((4, 6), (375, 0), (375, 30), [0, 1], 0),
        Frame::new((4, 6), (400, 2), (509, 33), [4, 4], 5),
        Frame {
            evlrs: 7,
            ..Frame::new((4, 7), (375, 0), (376, 36), [0, 3], 2)
        },
        Frame {
            evlr_start: 560,
            evlrs: 2,
            ..Frame::new((4, 8), (375, 1), (429, 40), [3, 0], 140)
        },
        Frame::new((4, 9), (375, 0), (375, 59), [2, 1 << 33], 0),
        Frame::new((4, 10), (375, 0), (375, 67), [0, 3], 3),
    ]
}

/// Makes the list afresh, and writes it into the folder or compares it with what the folder has.
pub fn compare(tally: &mut Tally, folder: &Path, write: bool) -> io::Result<()> {
    let mut list = List::default();
    for frame in files() {
        let file = Question {
            seed: 0,
            frame,
            flags: 0,
            point: 1,
            class: 2,
        };
        set(&mut list, file);
        index(&mut list, file);
        class(&mut list, file);
        check(&mut list, file);
    }
    let numbers = [0, 1, 3, 4, 5, 6, 7, 8, 9, 10, 11, 12, 13, 14, 17, 27, 35];
    list.keep("classes", &numbers, tally, folder, write)
}

/// First, middle and last, with other bits set and clear; a class that was there; overlap, and what the Rust
/// takes for it.
fn set(list: &mut List, file: Question) {
    let count = file.frame.count();
    for (point, flags, class) in [
        (1, 0, 31),
        (1, 0xff_ffff, 0),
        (count, 0x12_e2_00, 12),
        (count / 2 + 1, 0x05_85_40, 5),
        (count, 0x0c_0c_ff, 28),
    ] {
        list.ask(Question {
            point,
            flags,
            class,
            ..file
        });
    }
}

/// No point, one past the last, and those that fewer bits or a product that wraps would say.
fn index(list: &mut List, file: Question) {
    let count = file.frame.count();
    for (point, class) in [
        (0, 2),
        (count + 1, 2),
        (count + 1, 32),
        (1 + (1 << 32), 2),
        (u64::MAX / file.frame.length + 2, 2),
        (u64::MAX, 255),
    ] {
        list.ask(Question {
            point,
            class,
            ..file
        });
    }
}

/// The least class that five bits do not hold, and others.
fn class(list: &mut List, file: Question) {
    for (flags, class) in [(0, 32), (0xe0_e0_e0, 33), (0x1f_1f_1f, 255)] {
        list.ask(Question {
            point: file.frame.count(),
            flags,
            class,
            ..file
        });
    }
}

/// What the file check refuses, with what is refused later.
fn check(list: &mut List, file: Question) {
    let worst = Question {
        point: 0,
        class: 255,
        ..file
    };
    for frame in file.frame.refused() {
        list.ask(Question { frame, ..worst });
    }
}
