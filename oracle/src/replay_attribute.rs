//! The list of attributes, which `c/replay_attribute.c` repeats with no Rust at hand: questions that say how a file
//! with descriptors is made and what is asked of it, and the answers of document 02's rules as `attribute_model` has
//! them.
//!
//! A line of questions has the 28 numbers of a `Question`. A line of answers has seven rows: of the attributes, of the
//! name, of its value in a point, of its column, of the first VLR, of the bytes behind the heads of the VLRs, read as a
//! descriptor, and of that descriptor, written; and a sum over what the calls wrote or left, in their order: the place,
//! and place, attribute and descriptor of each attribute that follows; the attribute; where the value is; all entries,
//! those past the room too; where the data of the VLR are; the descriptor's numbers and texts; the destination.

use crate::{
    answer::Answer,
    attribute_model::{self as model, DESCRIPTOR, RECORD, Stretch, USER},
    capi::DescriptorNumbers,
    file_model::{Found, POINT_BYTES},
    replay_frame::{self, Frame, List, NOTHING, put, summed},
    report::Tally,
};
use std::{io, path::Path};

/// How a file is made, and what is asked of it.
#[derive(Clone, Copy)]
struct Question {
    /// Where the bytes without pattern begin.
    seed: u64,
    frame: Frame,
    /// The VLRs that have the user id and the record id, a bit each, the first being 1; 256 gives them to every record
    /// after the points.
    such: u64,
    /// The bytes of the data of the last VLR. The others have none.
    data: u64,
    /// The last byte of that user id, and that record id.
    last: u64,
    id: u64,
    /// Of eight descriptors a byte each: the data type, the options, and the name, which is a letter, from 1 on, in the
    /// low four bits, and its last byte in the high four.
    types: u64,
    options: u64,
    names: u64,
    /// A name to find, in the same way, and how many bytes of it.
    name: u64,
    name_len: u64,
    /// A point, and a stretch of them.
    point: u64,
    first: u64,
    count: u64,
    /// The entries of the destination of the column, and the bytes of that of the descriptor.
    room: u64,
    space: u64,
}

/// What lent numbers and bytes are before a call, and how many entries or bytes there are past a room.
const BEFORE: u64 = 0xa5;
const BEFORE_BYTE: u8 = 0xa5;
const SPARE: u64 = 2;

/// The bit that marks the records after the points.
const LATER: u64 = 256;

/// The 33 bytes of which a name is the front.
fn name(code: u64) -> [u8; 33] {
    let mut name = [0; 33];
    name[0] = match code as u8 % 16 {
        0 => 0,
        letter => b'a' + letter - 1,
    };
    name[31] = code as u8 / 16;
    name
}

fn byte(bytes: u64, k: u64) -> u64 {
    bytes >> (8 * k) & 0xff
}

/// The rows of a line, and the sum.
struct Line {
    rows: Vec<String>,
    sum: u64,
}

impl Line {
    /// A row, and what the call wrote, or left where it is refused.
    fn told<T>(&mut self, result: Result<(u64, T), Answer>, left: T) -> T {
        let (row, told) = match result {
            Ok((value, told)) => (Answer::result(value), told),
            Err(refusal) => (refusal, left),
        };
        self.rows.push(row.to_string());
        told
    }

    /// Numbers are summed by their bytes.
    fn add(&mut self, numbers: &[u64]) {
        for number in numbers {
            self.sum = summed(self.sum, &number.to_le_bytes());
        }
    }
}

impl Question {
    /// Where the data of the last VLR are.
    fn told_at(&self) -> u64 {
        self.frame.header_size + 54 * self.frame.vlrs
    }

    /// The file.
    fn make(&self) -> Vec<u8> {
        let frame = &self.frame;
        let mut file = frame.make(self.seed);
        let mut ids = |at: u64| {
            let (low, high) = USER.split_at(8);
            let eight = low.try_into().map_or(0, u64::from_le_bytes);
            put(&mut file, at + 2, 8, eight);
            put(&mut file, at + 10, 8, high[0].into());
            put(&mut file, at + 17, 1, self.last);
            put(&mut file, at + 18, 2, self.id);
        };
        for k in (0..frame.vlrs.min(8)).filter(|k| self.such >> k & 1 == 1) {
            ids(frame.header_size + 54 * k);
        }
        if self.such & LATER != 0 {
            match frame.minor {
                3 if frame.waveform > 0 => ids(frame.waveform),
                4 => (0..frame.evlrs.min(9)).for_each(|k| ids(frame.evlr_start + 60 * k)),
                _ => {}
            }
        }
        let at = self.told_at();
        if frame.vlrs > 0 {
            put(&mut file, at - 54 + 20, 2, self.data);
        }
        for k in 0..8.min(self.data / DESCRIPTOR as u64) {
            let at = at + DESCRIPTOR as u64 * k;
            put(&mut file, at + 2, 1, byte(self.types, k));
            put(&mut file, at + 3, 1, byte(self.options, k));
            for (at, letter) in (at + 4..).zip(&name(byte(self.names, k))[..32]) {
                put(&mut file, at, 1, u64::from(*letter));
            }
        }
        file
    }

    /// The attributes, one after the other.
    fn attributes(&self, line: &mut Line, file: &[u8]) {
        let begun = model::attributes(&mut Found::default(), file, self.frame.allowance);
        let mut place = line.told(begun, [BEFORE; 5]);
        line.add(&place);
        while let Some((attribute, span, after)) = model::next(file, place) {
            place = after;
            line.add(&place);
            line.add(&attribute);
            line.add(&span);
        }
    }

    /// The attribute of a name, its value and its column; where there is none, those of what is left of an attribute.
    fn by_name(&self, line: &mut Line, file: &[u8]) {
        let name = &name(self.name)[..self.name_len as usize];
        let named = model::find(&mut Found::default(), file, self.frame.allowance, name);
        let attribute = line.told(named.map(|attribute| (0, attribute)), [BEFORE; 5]);
        line.add(&attribute);
        let span = line.told(model::value(file, attribute, self.point), [BEFORE; 2]);
        line.add(&span);
        let stretch = Stretch {
            first: self.first,
            count: self.count,
            room: self.room as usize,
        };
        let mut entries = Vec::new();
        let column = model::column(file, attribute, stretch, &mut entries);
        entries.resize((self.room + SPARE) as usize, BEFORE);
        line.rows.push(column.to_string());
        line.add(&entries);
    }

    /// The first VLR.
    fn vlr(&self, line: &mut Line, file: &[u8]) {
        let (allowance, mut found) = (self.frame.allowance, Found::default());
        let first = model::vlr_first(&mut found, file, allowance, USER, RECORD);
        let first = first.map(|first| match first {
            Some(span) => (1, span),
            None => (0, [BEFORE; 2]),
        });
        let span = line.told(first, [BEFORE; 2]);
        line.add(&span);
    }

    /// The descriptor, read and written.
    fn descriptor(&self, line: &mut Line, file: &[u8]) {
        let from = self.told_at().min(file.len() as u64) as usize;
        let end = (from + self.data as usize).min(file.len());
        let left = DescriptorNumbers {
            numbers: [BEFORE; 9],
            name: [BEFORE_BYTE; 32],
            deprecated: [BEFORE_BYTE; 80],
            description: [BEFORE_BYTE; 32],
        };
        let read = model::read(&file[from..end]).map(|told| (DESCRIPTOR as u64, told));
        let told = line.told(read, left);
        line.add(&told.numbers);
        for text in [&told.name[..], &told.deprecated, &told.description] {
            line.sum = summed(line.sum, text);
        }
        let mut dst = vec![BEFORE_BYTE; (self.space + SPARE) as usize];
        let written = model::write(&told, &mut dst[..self.space as usize]);
        line.rows.push(written.to_string());
        line.sum = summed(line.sum, &dst);
    }
}

impl replay_frame::Question for Question {
    /// The row of the name tells.
    const NUMBER: usize = 3;

    fn seeded(self, seed: u64) -> Question {
        Question { seed, ..self }
    }

    fn numbers(&self) -> Vec<u64> {
        let asked = [
            self.frame.size,
            self.frame.allowance,
            self.such,
            self.data,
            self.last,
            self.id,
            self.types,
            self.options,
            self.names,
            self.name,
            self.name_len,
            self.point,
            self.first,
            self.count,
            self.room,
            self.space,
        ];
        [&[self.seed][..], &self.frame.numbers(), &asked].concat()
    }

    /// What the rules answer.
    fn answer(&self) -> String {
        let file = self.make();
        let mut line = Line {
            rows: Vec::new(),
            sum: NOTHING,
        };
        self.attributes(&mut line, &file);
        self.by_name(&mut line, &file);
        self.vlr(&mut line, &file);
        self.descriptor(&mut line, &file);
        format!("{} {}\n", line.rows.join(" "), line.sum)
    }
}

/// Eight bytes as a number, the first the lowest.
const fn eight(bytes: [u8; 8]) -> u64 {
    u64::from_le_bytes(bytes)
}

/// Types, options and names of some descriptors, and what the sizes add up to.
const TOLD: [(u64, u64, u64, u64, u64); 4] = [
    // a u16, five bytes, an f64 and an f32, of which two have the same name
    (
        4,
        eight([3, 0, 10, 9, 0, 0, 0, 0]),
        eight([255, 5, 0, 1, 0, 0, 0, 0]),
        eight([1, 2, 3, 1, 0, 0, 0, 0]),
        19,
    ),
    // one of each other type, without a name, with one, and with the same but for its last byte
    (
        6,
        eight([1, 2, 4, 5, 6, 7, 0, 0]),
        eight([0, 9, 8, 7, 6, 5, 0, 0]),
        eight([0, 4, 0x14, 0x24, 5, 0x10, 0, 0]),
        20,
    ),
    // no bytes, an i64, and eleven bytes
    (
        3,
        eight([0, 8, 0, 0, 0, 0, 0, 0]),
        eight([0, 3, 11, 0, 0, 0, 0, 0]),
        eight([6, 7, 8, 0, 0, 0, 0, 0]),
        19,
    ),
    (0, 0, 0, 0, 0),
];

/// Files of every version: right behind one another, with padding, VLRs before the last, a gap before the points and
/// one behind them, waveform packets and EVLRs that have the ids too; each with descriptors in the last VLR that leave
/// some extra bytes or none.
fn files() -> Vec<Question> {
    let file =
        |kind: (u64, u64), header_size: u64, vlrs: u64, gap: u64, told: usize, spare: u64| {
            let (many, types, options, names, sum) = TOLD[told];
            let data = DESCRIPTOR as u64 * many;
            let offset = header_size + 54 * vlrs + data + gap;
            let length = POINT_BYTES[kind.1 as usize] as u64 + sum + spare;
            let counts = match kind.0 {
                4 => [0, 3],
                _ => [2 + told as u64, 0],
            };
            Question {
                seed: 0,
                frame: Frame::new(kind, (header_size, vlrs), (offset, length), counts, 3 * gap),
                such: 1 << (vlrs - 1),
                data,
                last: 0,
                id: RECORD.into(),
                types,
                options,
                names,
                name: 1,
                name_len: 1,
                point: 1,
                first: 1,
                count: 1,
                room: 1,
                space: DESCRIPTOR as u64,
            }
        };
    let mut files = vec![
        file((0, 0), 227, 1, 0, 0, 0),
        file((1, 1), 230, 2, 1, 1, 1),
        file((2, 2), 227, 3, 0, 2, 0),
        file((2, 3), 228, 1, 5, 0, 7),
        file((3, 5), 235, 1, 0, 1, 0),
        file((3, 4), 235, 2, 30, 2, 2),
        file((4, 6), 375, 1, 0, 0, 0),
        file((4, 7), 376, 2, 50, 1, 3),
        file((4, 10), 375, 1, 0, 2, 0),
        file((4, 8), 375, 1, 0, 3, 4),
    ];
    let packets = &mut files[5];
    packets.frame.waveform = packets.frame.end() + 3;
    packets.such |= LATER;
    let evlrs = &mut files[7].frame;
    (evlrs.evlr_start, evlrs.evlrs) = (evlrs.end() + 2, 2);
    files
}

/// Makes the list afresh, and writes it into the folder or compares it with what the folder has.
pub fn compare(tally: &mut Tally, folder: &Path, write: bool) -> io::Result<()> {
    let mut list = List::default();
    for file in files() {
        values(&mut list, file);
        stretches(&mut list, file);
        if file.types == TOLD[1].1 {
            names(&mut list, file);
        }
        vlrs(&mut list, file);
        refused(&mut list, file);
        descriptors(&mut list, file);
        for frame in file.frame.refused() {
            let worst = Question {
                frame,
                types: u64::MAX,
                data: file.data | 1,
                name_len: 33,
                point: 0,
                ..file
            };
            list.ask(worst);
        }
    }
    let numbers = [
        0, 1, 3, 4, 5, 6, 7, 8, 9, 10, 11, 12, 13, 14, 35, 37, 38, 39, 40, 41,
    ];
    list.keep("attributes", &numbers, tally, folder, write)
}

/// Every attribute by its name, in the first point and the last, in none, past the last, and in one that a product
/// that wraps would say.
fn values(list: &mut List, file: Question) {
    let count = file.frame.count();
    let wraps = u64::MAX / file.frame.length + 2;
    for k in 0..file.data / DESCRIPTOR as u64 {
        let file = Question {
            name: byte(file.names, k),
            name_len: 32,
            ..file
        };
        for point in [0, 1, count, count + 1, wraps, u64::MAX] {
            list.ask(Question { point, ..file });
        }
    }
}

/// Stretches on both sides of the points and of the room, and those whose sum would wrap.
fn stretches(list: &mut List, file: Question) {
    let points = file.frame.count();
    for (first, count, room) in [
        (1, points, points),
        (1, points, points + 2),
        (2, points - 1, points),
        (points + 1, 0, 0),
        (0, 0, 1),
        (points + 2, 0, 1),
        (2, points, points),
        (2, u64::MAX, 1),
        (u64::MAX, 2, 1),
        (1, 1 << 32, 1),
        (1, points, points - 1),
        (points, 1, 0),
        (0, points, 0),
    ] {
        list.ask(Question {
            name: byte(file.names, 2),
            name_len: 32,
            first,
            count,
            room,
            ..file
        });
    }
}

/// Names of every telling length, with another last byte, and none.
fn names(list: &mut List, file: Question) {
    for name in [0, 1, 4, 0x14, 0x24, 0x34, 0x10, 9] {
        for name_len in [0, 1, 2, 31, 32, 33] {
            list.ask(Question {
                name,
                name_len,
                ..file
            });
        }
    }
}

/// Which VLR counts: none, the first of two, one after the points, and ids that are nearly those.
fn vlrs(list: &mut List, file: Question) {
    for such in [0, LATER, 1, 2, 3, 7, 255] {
        list.ask(Question { such, ..file });
    }
    for (last, id) in [(1, 4), (b' '.into(), 4), (0, 3), (0, 0x104), (0, 0x400)] {
        list.ask(Question { last, id, ..file });
    }
}

/// Each refusal on both sides of its edge, and together with those that come later.
fn refused(list: &mut List, file: Question) {
    let whole = file.data;
    for data in [0, 1, 96, 191, 192, 193, 384] {
        let types = if data % 2 == 0 { file.types } else { u64::MAX };
        if data <= whole {
            list.ask(Question {
                data,
                types,
                ..file
            });
        }
    }
    let extra = file.frame.length - POINT_BYTES[file.frame.format as usize] as u64;
    let sizes = |types: u64, options: u64| -> u64 {
        (0..whole / DESCRIPTOR as u64)
            .filter_map(|k| model::size(byte(types, k) as u8, byte(options, k) as u8))
            .sum()
    };
    for k in 0..whole / DESCRIPTOR as u64 {
        let with = |data_type: u64, options: u64| {
            let mask = !(0xff << (8 * k));
            Question {
                types: file.types & mask | data_type << (8 * k),
                options: file.options & mask | options << (8 * k),
                ..file
            }
        };
        for data_type in [10, 11, 255] {
            list.ask(with(data_type, 0));
        }
        // As many bytes as there are, and one more, which comes before the name.
        let without = with(0, 0);
        let fits = extra - sizes(without.types, without.options);
        list.ask(with(0, fits));
        list.ask(Question {
            name: 9,
            ..with(0, fits + 1)
        });
        list.ask(Question {
            options: u64::MAX,
            name: 9,
            ..with(11, 255)
        });
    }
}

/// A descriptor written into every telling room.
fn descriptors(list: &mut List, file: Question) {
    for (space, types) in [(191, 11), (192, 11), (0, 5), (191, 6), (193, 7), (200, 10)] {
        list.ask(Question {
            space,
            types,
            ..file
        });
    }
}
