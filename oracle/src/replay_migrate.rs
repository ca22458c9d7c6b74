//! The list of whole files that go up or down, which `c/replay_migrate.c` repeats with no Rust at hand: questions
//! that say how a file is made, and the answers of document 02's rules as `migrate_model` has them.
//!
//! A line of questions has the 21 numbers of a `Question`. A line of answers has the row of the question, the row
//! of the call that writes and a sum over the bytes of its destination; and where the file went, the row of the
//! call that brings it back and a sum over the bytes of that destination, which is as long as the file.

use crate::{
    file_model::{Found, POINT_BYTES},
    migrate_model::{self, Way},
    replay_frame::{self, Frame, List, NOTHING, put, summed},
    report::Tally,
};
use std::{io, path::Path};

/// How a file is made, and what is asked of it.
#[derive(Clone, Copy)]
struct Question {
    /// Where the bytes without pattern begin.
    seed: u64,
    /// 0 up, 1 down.
    way: u64,
    frame: Frame,
    /// A count by return, and what it is: 1 to 5 are the legacy ones, 6 to 20 the large ones, 0 is none.
    which: u64,
    counted: u64,
    /// A point from 1 on, or 0, and 16 bits at a place in its record.
    point: u64,
    place: u64,
    bits: u64,
    /// The bytes of the destination.
    room: u64,
}

/// What a destination holds before a call.
const BEFORE: u8 = 0xa5;

impl Question {
    /// The file: its points are first of one, of class 2 and straight down, but for those bits.
    fn make(&self) -> Vec<u8> {
        let frame = &self.frame;
        let mut file = frame.header(self.seed);
        let mut put = |at, width, value| put(&mut file, at, width, value);
        for k in 1..=5 {
            put(107 + 4 * k, 4, k);
        }
        if frame.minor == 4 {
            put(227, 8, frame.waveform);
            put(235, 8, frame.evlr_start);
            put(243, 4, frame.evlrs);
            put(247, 8, frame.large);
            for k in 1..=15 {
                put(247 + 8 * k, 8, if k <= 5 { 10 + k } else { 0 });
            }
        }
        match self.which {
            0 => {}
            k @ 1..=5 => put(107 + 4 * k, 4, self.counted),
            k => put(247 + 8 * (k - 5), 8, self.counted),
        }
        frame.put_vlrs(&mut file);
        self.put_points(&mut file);
        file
    }

    fn put_points(&self, file: &mut [u8]) {
        let frame = &self.frame;
        let mut put = |at, width, value| put(file, at, width, value);
        for k in 0..frame.count() {
            let at = frame.offset + k * frame.length;
            match frame.minor {
                4 => {
                    put(at + 14, 3, 0x02_00_11);
                    put(at + 18, 2, 0);
                }
                _ => put(at + 14, 3, 0x00_02_09),
            }
        }
        if self.point > 0 {
            let at = frame.offset + (self.point - 1) * frame.length;
            put(at + self.place, 2, self.bits);
        }
        if frame.evlr_start > 0 && frame.evlrs > 0 {
            put(frame.evlr_start + 20, 8, 0);
        }
    }

    /// The same of another file.
    fn of(self, frame: Frame) -> Question {
        Question { frame, ..self }
    }

    fn way(&self) -> Way {
        match self.way {
            0 => Way::Up,
            _ => Way::Down,
        }
    }

    /// The bytes that it becomes, where it goes.
    fn wanted(&self) -> u64 {
        match self.way() {
            Way::Up => self.frame.size + 148 + 2 * self.frame.count(),
            Way::Down => self.frame.size - 148 - 2 * self.frame.count(),
        }
    }
}

impl replay_frame::Question for Question {
    /// The call that writes tells.
    const NUMBER: usize = 3;

    fn seeded(self, seed: u64) -> Question {
        Question { seed, ..self }
    }

    fn numbers(&self) -> Vec<u64> {
        let frame = self.frame.numbers();
        let (before, after) = frame.split_at(8);
        let asked = [
            self.point,
            self.place,
            self.bits,
            self.frame.size,
            self.frame.allowance,
            self.room,
        ];
        let counted = [self.which, self.counted];
        [&[self.seed, self.way][..], before, &counted, after, &asked].concat()
    }

    /// What the rules answer.
    fn answer(&self) -> String {
        let allowance = self.frame.allowance;
        let (file, way) = (self.make(), self.way());
        let mut found = Found::default();
        let asked = migrate_model::ask(&mut found, &file, allowance, way);
        let mut gone = vec![BEFORE; self.room as usize];
        let row = migrate_model::convert(&mut found, &file, allowance, way, &mut gone);
        let mut line = format!("{asked} {row} {}", summed(NOTHING, &gone));
        if row.number == 0 {
            let gone = &gone[..row.value as usize];
            let back = if way == Way::Up { Way::Down } else { Way::Up };
            let mut again = vec![BEFORE; file.len()];
            let row = migrate_model::convert(&mut found, gone, allowance, back, &mut again);
            line += &format!(" {row} {}", summed(NOTHING, &again));
        }
        line + "\n"
    }
}

/// With just the room that it wants, if it goes, and with none.
fn both(list: &mut List, question: Question) {
    for room in [question.wanted(), 0] {
        list.ask(Question { room, ..question });
    }
}

/// Files that go: right behind one another, with padding, VLRs, a gap before the points and one behind them, extra
/// bytes; those of 1.4 with the large count, with the legacy count, with both, and with half an EVLR pair.
fn files() -> [Question; 12] {
    let of = |frame: Frame| Question {
        seed: 0,
        way: u64::from(frame.minor == 4),
        frame,
        which: 0,
        counted: 0,
        point: 0,
        place: 0,
        bits: 0,
        room: 0,
    };
    [
        Frame::new((2, 1), (227, 0), (227, 28), [0, 0], 0),
        Frame::new((2, 1), (227, 0), (227, 28), [3, 0], 0),
        Frame::new((2, 3), (230, 2), (341, 37), [4, 0], 5),
        Frame::new((2, 1), (375, 1), (430, 29), [2, 0], 1),
        Frame::new((2, 3), (600, 0), (600, 34), [0, 0], 9),
        Frame::new((4, 6), (375, 0), (375, 30), [0, 0], 0),
        Frame::new((4, 6), (375, 0), (375, 30), [0, 3], 0),
        Frame::new((4, 7), (378, 2), (490, 39), [4, 4], 5),
        Frame::new((4, 6), (375, 1), (431, 31), [2, 1 << 33], 1),
        Frame::new((4, 7), (523, 0), (530, 36), [0, 2], 9),
        Frame {
            evlrs: 7,
            ..Frame::new((4, 7), (375, 0), (375, 36), [0, 1], 2)
        },
        Frame {
            evlr_start: 400,
            ..Frame::new((4, 6), (375, 1), (429, 30), [1, 0], 80)
        },
    ]
    .map(of)
}

/// Makes the list afresh, and writes it into the folder or compares it with what the folder has.
pub fn compare(tally: &mut Tally, folder: &Path, write: bool) -> io::Result<()> {
    let mut list = List::default();
    for file in files() {
        gone(&mut list, file);
        if file.frame.vlrs > 0 {
            check(&mut list, file);
            versions(&mut list, file);
        }
        points(&mut list, file);
        match file.way() {
            Way::Up => fields(&mut list, file),
            Way::Down => counts(&mut list, file),
        }
    }
    let numbers = [
        0, 1, 3, 4, 5, 6, 7, 8, 9, 10, 11, 12, 13, 14, 15, 16, 17, 18, 19, 21, 22, 32, 33, 34,
    ];
    list.keep("whole files", &numbers, tally, folder, write)
}

/// Into enough room, into more, and into too little.
fn gone(list: &mut List, file: Question) {
    let wanted = file.wanted();
    for room in [
        wanted,
        wanted + 7,
        wanted - 1,
        0,
        file.frame.size.min(wanted - 1),
    ] {
        list.ask(Question { room, ..file });
    }
    let allowance = file.frame.vlrs;
    list.ask(Question {
        room: wanted,
        ..file.of(Frame {
            allowance,
            ..file.frame
        })
    });
}

/// What the file check refuses, with what later rules refuse.
fn check(list: &mut List, file: Question) {
    let Question { frame, .. } = file;
    let worst = Question {
        frame: Frame {
            format: 1,
            waveform: 1,
            ..frame
        },
        which: 20,
        counted: 1,
        point: 1,
        place: 14,
        bits: 0x88,
        room: frame.size,
        ..file
    };
    let shortest = frame.header_size - 1;
    for size in [3, 25, 226, shortest, frame.offset - 1, frame.end() - 1] {
        list.ask(worst.of(Frame {
            size,
            ..worst.frame
        }));
    }
    list.ask(worst.of(Frame {
        vlrs: frame.vlrs + 1,
        allowance: frame.vlrs,
        ..worst.frame
    }));
    list.ask(worst.of(Frame {
        vlrs: 90,
        ..worst.frame
    }));
    if frame.minor == 4 {
        let end = frame.end();
        for (evlr_start, evlrs) in [(end - 1, 1), (frame.size, 1), (end, u64::MAX)] {
            list.ask(file.of(Frame {
                evlr_start,
                evlrs,
                ..frame
            }));
        }
    }
}

/// Other versions and formats, and the other way.
fn versions(list: &mut List, file: Question) {
    let Question { frame, .. } = file;
    let file = Question {
        room: frame.size,
        ..file
    };
    list.ask(Question {
        way: 1 - file.way,
        ..file
    });
    for minor in [0, 1, 2, 3, 4, 5] {
        list.ask(file.of(Frame { minor, ..frame }));
    }
    for format in [0, 2, 3, 4, 8, 10, 11, 128] {
        list.ask(file.of(Frame {
            format,
            length: frame.length.max(70),
            legacy: 0,
            large: 0,
            waveform: 1,
            ..frame
        }));
    }
}

/// Points that do not fit, the last with room and the first without: each field on both sides of its edge.
fn points(list: &mut List, file: Question) {
    let fields: &[(u64, u64)] = match file.way() {
        // class 12 and 28, ranks of 90, 91, -90 and -91
        Way::Up => &[(15, 12), (15, 28), (16, 90), (16, 91), (16, 166), (16, 165)],
        // return number and number of returns 7 and 8, channel 1, overlap on class 2 and on class 12, class 12 without it, 28,
        // 31 and 32, scaled angles 15,083 and 15,084, -15,083 and -15,084
        Way::Down => &[
            (14, 0x17),
            (14, 0x18),
            (14, 0x71),
            (14, 0x81),
            (14, 0x1011),
            (14, 0x0811),
            (15, 0x0c08),
            (16, 12),
            (16, 28),
            (16, 31),
            (16, 32),
            (18, 15_083),
            (18, 15_084),
            (18, 50_453),
            (18, 50_452),
        ],
    };
    let count = file.frame.count();
    if count == 0 {
        return;
    }
    for &(place, bits) in fields {
        for (point, room) in [(count, file.wanted()), (1, 0)] {
            list.ask(Question {
                point,
                place,
                bits,
                room,
                ..file
            });
        }
    }
}

/// Going up: the header size, and the record length where there are no points, on both sides of what fits.
fn fields(list: &mut List, file: Question) {
    let Question { frame, .. } = file;
    let edges = [65_387, 65_388];
    for (header_size, length) in edges
        .map(|size| (size, frame.length))
        .into_iter()
        .chain([65_533, 65_534, 65_535].map(|length| (frame.header_size, length)))
        .chain([(65_388, 65_534)])
    {
        if frame.vlrs > 0 && header_size != frame.header_size {
            continue;
        }
        let offset = header_size + (frame.offset - frame.header_size);
        let moved = Frame {
            header_size,
            offset,
            length,
            legacy: 0,
            size: offset + 3,
            ..frame
        };
        both(list, file.of(moved));
    }
    let bare = POINT_BYTES[frame.format as usize] as u64;
    for length in [bare - 1, bare] {
        let without = Frame {
            length,
            legacy: 0,
            size: frame.offset + 3,
            ..frame
        };
        both(list, file.of(without));
    }
}

/// Going down: waveforms, EVLRs and counts, and a point that does not fit besides.
fn counts(list: &mut List, file: Question) {
    let Question { frame, .. } = file;
    let count = frame.count();
    let bad = Question {
        point: count.min(1),
        place: 14,
        bits: 0x18,
        ..file
    };
    for waveform in [1, 1 << 63] {
        both(list, file.of(Frame { waveform, ..frame }));
    }
    let with_evlr = bad.of(Frame {
        evlr_start: frame.end(),
        evlrs: 1,
        size: frame.end() + 70,
        ..frame
    });
    both(list, with_evlr);
    both(
        list,
        Question {
            which: 20,
            counted: 1,
            ..with_evlr
        },
    );
    for (evlr_start, evlrs) in [(0, 1), (0, 0xffff_ffff), (1, 0), (u64::MAX, 0)] {
        let half = Frame {
            evlr_start,
            evlrs,
            ..frame
        };
        both(list, file.of(half));
    }
    let room = file.wanted();
    for which in 1..=10 {
        for counted in [0xffff_ffff, 1 << 32] {
            list.ask(Question {
                which,
                counted,
                room,
                ..file
            });
        }
    }
    for which in 11..=20 {
        list.ask(Question {
            which,
            counted: 1 << (which & 1) * 32,
            room,
            ..bad
        });
    }
    // The legacy count alone says how many there are, where it isn't 0.
    if count > 0 {
        for large in [0, count + 1, 1 << 32] {
            let held = Question {
                room,
                ..file.of(Frame {
                    legacy: count,
                    large,
                    ..frame
                })
            };
            list.ask(held);
            list.ask(Question {
                which: 6,
                counted: 1 << 32,
                ..held
            });
        }
    }
}
