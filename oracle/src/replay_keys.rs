//! The list of coordinate keys, which `c/replay_keys.c` repeats with no Rust at hand: questions that say how a file with
//! keys is made and what is asked of it, and the answers of document 02's rules as `keys_model` has them.
//!
//! A line of questions has the 28 numbers of a `Question`. A line of answers has three rows, of the keys, of a key and of
//! a directory written; and a sum over what the calls wrote or left, in their order: the keys' numbers; the key; of each
//! of the first seven keys, of number 256 and of the one that is found whether it is there, and its numbers; the
//! destination.

use crate::{
    answer::Answer,
    file_model::{Found, POINT_BYTES},
    keys_model::{self as model, DOUBLES, MOST, TEXT, USER},
    replay_frame::{self, Frame, List, NOTHING, put, summed},
    report::Tally,
};
use std::{io, path::Path};

/// How a file is made, and what is asked of it.
#[derive(Clone, Copy)]
struct Question {
    /// Where the bytes without pattern begin.
    seed: u64,
    frame: Frame,
    /// The record ids of the last three VLRs and of all records after the points, four bits each, the lowest for the
    /// first: as much as they are above 34734, and 14 and 15 for the directory's with another bit. Above them is which of
    /// the three VLRs has the directory below, the first being 0.
    ids: u64,
    /// The last byte of their user id, and above it bits that are changed in the first.
    last: u64,
    /// The bytes of the data of the three. The other VLRs have none.
    bytes: [u64; 3],
    /// Two numbers of the directory, the first being 0, and what they are instead.
    changes: [[u64; 2]; 2],
    /// A key to find.
    wanted: u64,
    /// One of the keys' numbers, and what it is instead when keys are asked for; there is no number 5.
    hand: [u64; 2],
    /// How many numbers are written as keys, and the bytes of the destination.
    given: u64,
    space: u64,
}

/// The directory, before its changes.
const PLAIN: [u16; 24] = [
    1, 1, 0, 5, //
    1_024, 0, 1, 1, //
    1_026, TEXT, 7, 3, //
    2_057, DOUBLES, 2, 1, //
    2_059, DOUBLES, 0, 3, //
    3_072, 0, 9, 32_632,
];

/// What lent numbers and bytes are before a call, and how many bytes there are past a room.
const BEFORE: u64 = 0xa5;
const SPARE: u64 = 2;

/// The numbers of the keys that are asked for.
const ASKED: [u16; 8] = [0, 1, 2, 3, 4, 5, 6, 256];

/// A record id, by its four bits.
fn record_id(four: u64) -> u64 {
    match four {
        14 => 34_735 ^ 0x100,
        15 => 34_735 ^ 0x8000,
        _ => 34_734 + four,
    }
}

impl Question {
    /// The numbers of the directory.
    fn directory(&self) -> [u16; 24] {
        let mut numbers = PLAIN;
        for [at, number] in self.changes {
            numbers[at as usize] = number as u16;
        }
        numbers
    }

    /// The numbers that are written: those of the directory's keys, and of more of them.
    fn given(&self) -> Vec<u16> {
        let more = (0..).flat_map(|k: u16| [4_000 + k, 0, 1, k]);
        let numbers = self.directory().into_iter().skip(4).chain(more);
        numbers.take(self.given as usize).collect()
    }

    /// Where the heads of the last three VLRs are, and how many bytes are behind each.
    fn heads(&self) -> [[u64; 2]; 3] {
        let mut at = self.frame.header_size + 54 * self.frame.vlrs.saturating_sub(3);
        self.bytes.map(|bytes| {
            let head = [at, bytes];
            at += 54 + bytes;
            head
        })
    }

    /// The file.
    fn make(&self) -> Vec<u8> {
        let frame = &self.frame;
        let mut file = frame.make(self.seed);
        let mut ids = |at: u64, k: u64| {
            for (k, &letter) in (0..).zip(USER) {
                put(&mut file, at + 2 + k, 1, letter.into());
            }
            put(&mut file, at + 2, 1, u64::from(USER[0]) ^ self.last >> 8);
            put(&mut file, at + 17, 1, self.last);
            put(&mut file, at + 18, 2, record_id(self.ids >> (4 * k) & 15));
        };
        let heads = self.heads();
        for (k, [at, _]) in (0..).zip(heads) {
            ids(at, k);
        }
        match frame.minor {
            3 if frame.waveform > 0 => ids(frame.waveform, 3),
            4 => (0..frame.evlrs.min(9)).for_each(|k| ids(frame.evlr_start + 60 * k, 3)),
            _ => {}
        }
        for [at, bytes] in heads {
            put(&mut file, at + 20, 2, bytes);
        }
        let [at, bytes] = heads[(self.ids >> 16) as usize];
        for (k, number) in (0..).zip(self.directory()) {
            for (place, byte) in (2 * k..).zip(number.to_le_bytes()) {
                if place < bytes {
                    put(&mut file, at + 54 + place, 1, byte.into());
                }
            }
        }
        file
    }
}

/// The rows of a line, and the sum.
struct Line {
    rows: Vec<String>,
    sum: u64,
}

impl Line {
    /// A row, and the numbers that the call wrote, or left where it is refused.
    fn told(&mut self, result: Result<(u64, [u64; 5]), Answer>) -> [u64; 5] {
        let (row, told) = match result {
            Ok((value, told)) => (Answer::result(value), told),
            Err(refusal) => (refusal, [BEFORE; 5]),
        };
        self.rows.push(row.to_string());
        self.add(&told);
        told
    }

    /// Whether a key is there, and what the call wrote or left.
    fn there(&mut self, key: Option<[u64; 5]>) {
        self.add(&[u64::from(key.is_some())]);
        self.add(&key.unwrap_or([BEFORE; 5]));
    }

    /// Numbers are summed by their bytes.
    fn add(&mut self, numbers: &[u64]) {
        for number in numbers {
            self.sum = summed(self.sum, &number.to_le_bytes());
        }
    }
}

impl replay_frame::Question for Question {
    /// The row of the key tells.
    const NUMBER: usize = 3;

    fn seeded(self, seed: u64) -> Question {
        Question { seed, ..self }
    }

    fn numbers(&self) -> Vec<u64> {
        let [first, second] = self.changes;
        let asked = [
            &[self.frame.size, self.frame.allowance, self.ids, self.last][..],
            &self.bytes,
            &first,
            &second,
            &[self.wanted],
            &self.hand,
            &[self.given, self.space],
        ];
        [&[self.seed][..], &self.frame.numbers(), &asked.concat()].concat()
    }

    /// What the rules answer.
    fn answer(&self) -> String {
        let file = self.make();
        let (allowance, mut found) = (self.frame.allowance, Found::default());
        let mut line = Line {
            rows: Vec::new(),
            sum: NOTHING,
        };
        let mut keys = line.told(model::keys(&mut found, &file, allowance));
        let wanted = self.wanted as u16;
        let key = model::key(&mut found, &file, allowance, wanted);
        line.told(key.map(|key| (0, key)));
        if let Some(number) = keys.get_mut(self.hand[0] as usize) {
            *number = self.hand[1];
        }
        for k in ASKED {
            line.there(model::at(&file, keys, k));
        }
        line.there(model::find(&file, keys, wanted));
        let mut dst = vec![BEFORE as u8; (self.space + SPARE) as usize];
        let written = model::write(&self.given(), &mut dst[..self.space as usize]);
        line.rows.push(written.to_string());
        line.sum = summed(line.sum, &dst);
        format!("{} {}\n", line.rows.join(" "), line.sum)
    }
}

/// Files of every version: with padding, VLRs before the last three, points, waveform packets and EVLRs that have the
/// directory's ids too.
fn files() -> Vec<Question> {
    let file = |kind: (u64, u64), header_size: u64, vlrs: u64, points: u64| {
        let bytes = [48, 24, 10];
        let offset = header_size + 54 * vlrs + bytes.iter().sum::<u64>() + 40;
        let length = POINT_BYTES[kind.1 as usize] as u64;
        let counts = match kind.0 {
            4 => [0, points],
            _ => [points, 0],
        };
        let frame = Frame::new(kind, (header_size, vlrs), (offset, length), counts, 20);
        Question {
            seed: 0,
            frame: Frame {
                allowance: 99,
                ..frame
            },
            ids: 0x321,
            last: 0,
            bytes,
            changes: [[0, 1]; 2],
            wanted: 2_057,
            hand: [5, 0],
            given: 20,
            space: 48,
        }
    };
    let mut files = vec![
        file((2, 3), 227, 3, 0),
        file((4, 6), 375, 4, 1),
        file((0, 0), 227, 3, 1),
        file((1, 1), 230, 5, 0),
        file((3, 4), 235, 3, 1),
        file((4, 7), 376, 3, 0),
    ];
    let packets = &mut files[4].frame;
    packets.waveform = packets.end() + 3;
    packets.size = packets.waveform + 62;
    let evlrs = &mut files[5].frame;
    (evlrs.evlr_start, evlrs.evlrs) = (evlrs.end() + 2, 2);
    evlrs.size = evlrs.evlr_start + 121;
    for file in &mut files[4..] {
        file.ids |= 0x1000;
    }
    files
}

/// Makes the list afresh, and writes it into the folder or compares it with what the folder has.
pub fn compare(tally: &mut Tally, folder: &Path, write: bool) -> io::Result<()> {
    let mut list = List::default();
    let files = files();
    for &file in &files {
        for wanted in [1_024, 1_026, 2_057, 3_072, 0, 65_535] {
            list.ask(Question { wanted, ..file });
        }
        vlrs(&mut list, file);
        for frame in file.frame.refused() {
            let worst = Question {
                frame,
                ids: 0,
                bytes: [7, 0, 0],
                ..file
            };
            list.ask(worst);
        }
    }
    let file = files[0];
    for wanted in [
        1_023, 1_025, 1_027, 2_056, 2_058, 2_059, 2_060, 3_071, 3_073, 32_768,
    ] {
        list.ask(Question { wanted, ..file });
    }
    for &file in &files[3..] {
        other_vlrs(&mut list, file);
    }
    for &file in &files[..2] {
        shorts(&mut list, file);
        numbers(&mut list, file);
    }
    pointed(&mut list, file);
    together(&mut list, file);
    hands(&mut list, files[1]);
    directories(&mut list, file);
    let numbers = [
        0, 1, 3, 4, 5, 6, 7, 8, 9, 10, 11, 12, 13, 14, 35, 42, 43, 44, 45, 46, 47, 48,
    ];
    list.keep("coordinate keys", &numbers, tally, folder, write)
}

/// Which VLR counts: none, the first of two, one after the points, and ids that are nearly those.
fn vlrs(list: &mut List, file: Question) {
    let later = file.ids & 0xf000;
    for ids in [0x320, 0x322, 0x311, 0x301, 0x331, 0x021, 0x221, 0x111] {
        let ids = ids | later;
        list.ask(Question { ids, ..file });
    }
    list.ask(Question { last: 1, ..file });
}

/// Ids that are nearly those in other ways, doubles or text after the points only, and the directory behind them.
fn other_vlrs(list: &mut List, file: Question) {
    let last = 0x2000;
    list.ask(Question { last, ..file });
    for ids in [0x32e, 0x32f, 0x2301, 0x3021] {
        list.ask(Question { ids, ..file });
    }
    list.ask(Question {
        ids: 0x2_0132,
        bytes: [24, 10, 48],
        ..file
    });
}

/// Records that nothing points at, and keys that point at nothing of a record: other locations, no count, no data.
fn pointed(list: &mut List, file: Question) {
    let numbers = [[13, 0], [17, 0]];
    for (ids, bytes, changes) in [
        (0x301, file.bytes, numbers),
        (0x301, file.bytes, [[13, 0], [0, 1]]),
        (0x331, file.bytes, numbers),
        (0x221, file.bytes, [[9, 0], [0, 1]]),
        (0x221, file.bytes, [[9, 0], [14, 3]]),
        (0x321, [48, 24, 0], [[10, 0], [11, 0]]),
        (0x321, [48, 0, 10], numbers),
    ] {
        list.ask(Question {
            ids,
            bytes,
            changes,
            ..file
        });
    }
    for ids in [0x301, 0x021] {
        let wanted = 1_024;
        list.ask(Question {
            ids,
            wanted,
            ..file
        });
    }
    for (wanted, change) in [(9, [19, 4]), (1_024 + 32_768, [0, 1]), (1_024, [1, 0])] {
        list.ask(Question {
            wanted,
            changes: [change, [0, 1]],
            ..file
        });
    }
}

/// A directory that is short by a byte or more, as long as its keys want, and longer; and another number of keys.
fn shorts(list: &mut List, file: Question) {
    for bytes in [0, 7, 8, 9, 15, 16, 47, 49, 56, 60] {
        let bytes = [bytes, file.bytes[1], file.bytes[2]];
        list.ask(Question { bytes, ..file });
        let changes = [[3, bytes[0].saturating_sub(8) / 8], [0, 9]];
        list.ask(Question {
            bytes,
            changes,
            ..file
        });
    }
    for many in [0, 1, 4, 6, 5 + 256, 65_535] {
        let changes = [[3, many], [2, 8]];
        list.ask(Question { changes, ..file });
    }
}

/// Each number that is judged, on both sides of its edge: keys, locations, and the ends of doubles and text.
fn numbers(list: &mut List, file: Question) {
    let mut change = |at: u64, to: &[u64], more: [u64; 2]| {
        for &number in to {
            let changes = [[at, number], more];
            list.ask(Question { changes, ..file });
        }
    };
    let none = [0, 1];
    change(4, &[0, 1_025, 1_026, 65_535], none);
    change(8, &[1_023, 1_024, 1_025, 2_057], none);
    change(20, &[2_058, 2_059, 2_060, 0], none);
    for at in [5, 9, 21] {
        change(at, &[0, 1, 34_735, 34_736, 34_737, 34_738], none);
    }
    change(17, &[7, 176, 256, 1_968, 32_768], none);
    change(7, &[65_535], none);
    // the text has 10 bytes, the doubles are 3
    change(10, &[0, 6, 8, 65_535], none);
    change(11, &[0, 4, 65_535], none);
    change(11, &[10, 11], [10, 0]);
    change(14, &[1, 3, 8_191, 65_535], none);
    change(15, &[0, 2, 8_192], none);
    change(19, &[4, 65_535], none);
    for bytes in [0, 16, 23, 25] {
        let bytes = [file.bytes[0], bytes, file.bytes[2]];
        list.ask(Question { bytes, ..file });
    }
}

/// Two that are refused for at once, in either order of their places, so that the earlier reason counts; and for a key
/// that is not there.
fn together(list: &mut List, file: Question) {
    let falls = [[8, 1_024], [20, 2_059]];
    let unknown = [[5, 7], [21, 7]];
    let beyond = [[11, 9], [19, 4]];
    for (first, second) in [(0, 1), (1, 0), (0, 0), (1, 1)] {
        for [early, late] in [[falls, unknown], [unknown, beyond], [falls, beyond]] {
            let changes = [early[first], late[second]];
            list.ask(Question { changes, ..file });
            list.ask(Question {
                changes,
                ids: 0x301,
                wanted: 9,
                ..file
            });
            list.ask(Question {
                changes: [late[second], early[first]],
                bytes: [47, 24, 10],
                ..file
            });
        }
    }
}

/// Numbers of keys that are made by hand.
fn hands(list: &mut List, file: Question) {
    let size = file.frame.size;
    let ends = [0, size - 1, size, 1 << 32, 1 << 63, u64::MAX];
    for at in 0..5 {
        for number in ends {
            let hand = [at, number];
            list.ask(Question { hand, ..file });
        }
    }
    for hand in [
        [0, 6],
        [0, 65_536 + 4],
        [0, 256],
        [2, 30],
        [3, size - 24],
        [3, size - 23],
    ] {
        list.ask(Question { hand, ..file });
        let wanted = 0;
        list.ask(Question {
            hand,
            wanted,
            ..file
        });
    }
}

/// Directories written: of no key to more than a VLR holds, with a rest, into every telling room.
fn directories(list: &mut List, file: Question) {
    for given in [0, 1, 3, 4, 7, 8, 19, 20, 23, 27] {
        let exact = 8 + 8 * (given / 4);
        for space in [exact - 1, exact, exact + 3] {
            list.ask(Question {
                given,
                space,
                ..file
            });
        }
    }
    let falls = [[8, 1_024], [0, 1]];
    for space in [0, 47, 48] {
        list.ask(Question {
            changes: falls,
            space,
            ..file
        });
    }
    // A rest whose first number does not rise.
    list.ask(Question {
        changes: [[8, 3], [0, 1]],
        given: 5,
        ..file
    });
    let most = 4 * MOST as u64;
    for (given, space) in [
        (most, 65_528),
        (most + 3, 65_530),
        (most, 65_527),
        (most + 4, 65_536),
        (most + 4, 0),
    ] {
        for changes in [[[0, 1]; 2], falls] {
            list.ask(Question {
                given,
                space,
                changes,
                ..file
            });
        }
    }
}
