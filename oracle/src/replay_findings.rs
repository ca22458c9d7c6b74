//! The list of findings, which `c/replay_findings.c` repeats with no Rust at hand: questions that say how a file is
//! made and what is right in it, and the answers of document 02's rules as `findings_model` has them.
//!
//! A line of questions has the 21 numbers of a `Question`. A line of answers has the row of the call and a sum over
//! the numbers of the room, those past it too.

use crate::{
    file_model::Found,
    findings_model,
    replay_frame::{self, Frame, List, NOTHING, put, summed},
    report::Tally,
};
use std::{io, path::Path};

/// How a file is made, and with how much room it is asked about.
#[derive(Clone, Copy)]
struct Question {
    /// Where the bytes without pattern begin.
    seed: u64,
    frame: Frame,
    /// What is right in the file, a bit each.
    right: u64,
    /// Where it is to be: the letters of each text, behind which are zeros, and byte 14 of every record.
    letters: u64,
    returns: u64,
    /// The bytes of a number at a place, which are put last.
    at: u64,
    width: u64,
    value: u64,
    /// The numbers of the room.
    room: u64,
}

/// What can be right: texts, returns, and the counters.
const TEXTS: u64 = 1;
const RETURNS: u64 = 2;
const COUNTERS: u64 = 4;
const ALL: u64 = TEXTS | RETURNS | COUNTERS;

/// What lent numbers are before a call, and how many there are past a room.
const BEFORE: u64 = 0xa5;
const SPARE: u64 = 5;

impl Question {
    fn put_text(&self, file: &mut [u8], at: u64, length: u64) {
        for k in 0..length {
            let byte = if k < self.letters { b'a' } else { 0 };
            put(file, at + k, 1, byte.into());
        }
    }

    fn put_texts(&self, file: &mut [u8]) {
        let frame = &self.frame;
        self.put_text(file, 26, 32);
        self.put_text(file, 58, 32);
        for k in 0..frame.vlrs {
            self.put_text(file, frame.header_size + 54 * k + 2, 16);
            self.put_text(file, frame.header_size + 54 * k + 22, 32);
        }
        let (start, later) = match frame.minor {
            3 if frame.waveform > 0 => (frame.waveform, 1),
            4 if frame.evlr_start > 0 => (frame.evlr_start, frame.evlrs.min(9)),
            _ => (0, 0),
        };
        for k in 0..later {
            self.put_text(file, start + 60 * k + 2, 16);
            self.put_text(file, start + 60 * k + 28, 32);
        }
    }

    fn put_returns(&self, file: &mut [u8]) {
        for k in 0..self.frame.count() {
            let at = self.frame.offset + k * self.frame.length + 14;
            put(file, at, 1, self.returns);
        }
    }

    fn put_counters(&self, file: &mut [u8]) {
        let frame = &self.frame;
        let mut counts = [0; 16];
        for k in 0..frame.count() {
            let at = frame.offset + k * frame.length + 14;
            let byte = file.get(at as usize).copied().unwrap_or(0);
            counts[usize::from(byte & if frame.format < 6 { 7 } else { 15 })] += 1;
        }
        for k in 1..6 {
            let count = if frame.minor < 4 { counts[k] } else { 0 };
            put(file, 107 + 4 * k as u64, 4, count);
        }
        if frame.minor == 4 {
            (1..16).for_each(|k| put(file, 247 + 8 * k as u64, 8, counts[k]));
        }
    }

    /// The file.
    fn make(&self) -> Vec<u8> {
        let mut file = self.frame.make(self.seed);
        if self.right & TEXTS != 0 {
            self.put_texts(&mut file);
        }
        if self.right & RETURNS != 0 {
            self.put_returns(&mut file);
        }
        if self.right & COUNTERS != 0 {
            self.put_counters(&mut file);
        }
        put(&mut file, self.at, self.width, self.value);
        file
    }

    /// How many findings there are.
    fn many(&self) -> u64 {
        let mut found = Found::default();
        let (file, allowance) = (self.make(), self.frame.allowance);
        let parts = &mut Vec::new();
        let (_, findings) = findings_model::answer(&mut found, &file, allowance, parts, &mut []);
        findings.len() as u64
    }
}

impl replay_frame::Question for Question {
    fn seeded(self, seed: u64) -> Question {
        Question { seed, ..self }
    }

    fn numbers(&self) -> Vec<u64> {
        let asked = [
            self.frame.size,
            self.frame.allowance,
            self.right,
            self.letters,
            self.returns,
            self.at,
            self.width,
            self.value,
            self.room,
        ];
        [&[self.seed][..], &self.frame.numbers(), &asked].concat()
    }

    /// What the rules answer.
    fn answer(&self) -> String {
        let mut found = Found::default();
        let (file, allowance) = (self.make(), self.frame.allowance);
        let mut out = vec![BEFORE; (self.room + SPARE) as usize];
        let room = &mut out[..self.room as usize];
        let (row, _) = findings_model::answer(&mut found, &file, allowance, &mut Vec::new(), room);
        let sum = |sum, number: &u64| summed(sum, &number.to_le_bytes());
        format!("{row} {}\n", out.iter().fold(NOTHING, sum))
    }
}

/// Files of every version and format, and one without points: right behind one another, with padding, VLRs, a gap before
/// the points and one behind them, extra bytes, waveform packets; those of 1.4 with the legacy count, with the large one,
/// with both, alike and unlike, and with EVLRs.
fn files() -> [Frame; 16] {
    [
        Frame::new((0, 0), (227, 0), (227, 20), [1, 0], 0),
        Frame::new((0, 1), (227, 1), (283, 28), [7, 0], 0),
        Frame::new((1, 0), (230, 0), (230, 21), [4, 0], 2),
        Frame::new((2, 2), (227, 2), (340, 26), [0, 0], 0),
        Frame::new((2, 3), (300, 1), (354, 41), [5, 0], 7),
        Frame {
            waveform: 408,
            ..Frame::new((3, 4), (235, 0), (235, 57), [3, 0], 70)
        },
        Frame::new((3, 5), (240, 1), (296, 64), [2, 0], 9),
        Frame::new((4, 0), (375, 0), (375, 20), [0, 3], 0),
        Frame::new((4, 5), (380, 1), (440, 66), [3, 9], 1),
        Frame::new((4, 3), (375, 0), (375, 34), [2, 2], 0),
        Frame::new((4, 6), (375, 0), (375, 30), [0, 20], 0),
        Frame::new((4, 6), (400, 2), (509, 33), [4, 4], 5),
        Frame::new((4, 7), (375, 0), (376, 36), [3, 1 << 32 | 3], 2),
        Frame {
            evlr_start: 560,
            evlrs: 2,
            ..Frame::new((4, 8), (375, 1), (429, 40), [3, 0], 140)
        },
        Frame {
            evlr_start: 493,
            evlrs: 1,
            ..Frame::new((4, 9), (375, 0), (375, 59), [0, 2], 60)
        },
        Frame::new((4, 10), (375, 0), (375, 67), [0, 3], 3),
    ]
}

/// Makes the list afresh, and writes it into the folder or compares it with what the folder has.
pub fn compare(tally: &mut Tally, folder: &Path, write: bool) -> io::Result<()> {
    let mut list = List::default();
    for (k, frame) in files().into_iter().enumerate() {
        let file = Question {
            seed: 0,
            frame,
            right: ALL,
            letters: 5,
            returns: if frame.format < 6 { 0o22 } else { 0x22 },
            at: 0,
            width: 0,
            value: 0,
            room: 200,
        };
        rooms(&mut list, file);
        returns(&mut list, file);
        numbers(&mut list, file);
        texts(&mut list, file);
        // What the file check refuses, with no room.
        let refused = frame.refused().into_iter().enumerate();
        for (_, frame) in refused.filter(|(i, _)| (i + k) % 2 == 0) {
            list.ask(Question {
                frame,
                room: 0,
                ..file
            });
        }
    }
    let numbers = [0, 1, 3, 4, 5, 6, 7, 8, 9, 10, 11, 12, 13, 14, 22, 35];
    list.keep("findings", &numbers, tally, folder, write)
}

/// With everything right, and with what bytes without pattern say: with just enough room, with one number less, and
/// with none.
fn rooms(list: &mut List, file: Question) {
    list.ask(Question { room: 0, ..file });
    for right in [0, TEXTS | COUNTERS, TEXTS | RETURNS, RETURNS | COUNTERS] {
        list.ask(Question { right, ..file });
    }
    // No point is right, so that how many findings there are does not hang on the seed.
    let wrong = Question { returns: 0, ..file };
    let exact = 4 * wrong.many();
    for room in [exact, exact.saturating_sub(1), exact / 4, 0] {
        list.ask(Question { room, ..wrong });
    }
}

/// A return number of zero, as the number of returns, above it, and at its end.
fn returns(list: &mut List, file: Question) {
    for returns in [0o01, 0o77, 0x32, 0x23, 0xff] {
        list.ask(Question { returns, ..file });
    }
}

/// Counters beside what they count: of points and of returns, legacy and large.
fn numbers(list: &mut List, file: Question) {
    let is_1_4 = file.frame.minor == 4;
    for at in [111, 115, 127] {
        list.ask(Question {
            at,
            width: 4,
            value: 1,
            ..file
        });
    }
    for at in [255, 263, 367] {
        list.ask(Question {
            at: if is_1_4 { at } else { 119 },
            width: if is_1_4 { 8 } else { 4 },
            value: 1 << 32 | file.frame.count(),
            ..file
        });
    }
    // A legacy count beside a large one that counts.
    if is_1_4 {
        list.ask(Question {
            at: 107,
            width: 4,
            value: file.frame.count().min(1),
            ..file
        });
    }
}

/// Something in the last byte of each text, and right behind its first zero; and texts without a zero, and of zeros.
fn texts(list: &mut List, file: Question) {
    let frame = file.frame;
    let mut fields = vec![(26, 32), (58, 32)];
    if frame.vlrs > 0 {
        let last = frame.header_size + 54 * (frame.vlrs - 1);
        fields.extend([(last + 2, 16), (last + 22, 32)]);
    }
    match frame.minor {
        3 if frame.waveform > 0 => {
            fields.extend([(frame.waveform + 2, 16), (frame.waveform + 28, 32)]);
        }
        4 if frame.evlr_start > 0 => {
            let last = frame.evlr_start + 60 * (frame.evlrs - 1);
            fields.extend([(last + 2, 16), (last + 28, 32)]);
        }
        _ => {}
    }
    for (at, length) in fields {
        for (place, value) in [(length - 1, 1), (file.letters + 1, 0x20)] {
            list.ask(Question {
                at: at + place,
                width: 1,
                value,
                ..file
            });
        }
    }
    for letters in [0, 32] {
        list.ask(Question { letters, ..file });
    }
}
