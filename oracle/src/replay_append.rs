//! The list of appends, which `c/replay.c` repeats with no Rust at hand: questions that say how a file and the
//! records offered to it are made, and the answers of document 02's rules as `append_model` has them.
//!
//! A line of questions has the 16 numbers of a `Question`. A line of answers has the row, a sum over the bytes
//! of the file after it and, where the records were added, how many stores that takes and a sum over the
//! sector and the file after each.

use crate::{
    append_model::{self, Offer},
    capi::BoundsNumbers,
    file_model::Found,
    replay_frame::{self, List, NOTHING, Stream, put, summed},
    report::Tally,
};
use std::{io, path::Path};

/// How a file and the records offered to it are made.
#[derive(Clone, Copy)]
struct Question {
    /// Where the bytes without pattern begin: those of the file, then of the records, then of the bounds.
    seed: u64,
    minor: u64,
    header_size: u64,
    /// VLRs without data.
    vlrs: u64,
    offset: u64,
    format: u64,
    length: u64,
    count: u64,
    /// A return from 1 to 5, or 0, and what the header counts of it.
    which: u64,
    counted: u64,
    /// The bytes of the file, and of the records.
    size: u64,
    allowance: u64,
    lent: u64,
    n: u64,
    believed: u64,
    /// 0, or 1 where the points end with the records that are offered, or 2 and more where they do but for a
    /// bit of the byte of that number, counted from 2.
    last: u64,
}

impl Question {
    /// The file, the records and the bounds.
    fn make(&self) -> (Vec<u8>, Vec<u8>, BoundsNumbers) {
        let mut stream = Stream(self.seed);
        let mut file = stream.bytes(self.size);
        let records = stream.bytes(self.lent);
        let bounds = [(); 6].map(|()| {
            let bytes = stream.bytes(8);
            bytes.iter().rev().fold(0, |n, &b| n << 8 | u64::from(b))
        });
        let mut put = |at, width, value| put(&mut file, at, width, value);
        put(0, 4, u32::from_le_bytes(*b"LASF").into());
        put(24, 1, 1);
        put(25, 1, self.minor);
        put(94, 2, self.header_size);
        put(96, 4, self.offset);
        put(100, 4, self.vlrs);
        put(104, 1, self.format);
        put(105, 2, self.length);
        put(107, 4, self.count);
        for k in 1..=5 {
            put(
                107 + 4 * k,
                4,
                if k == self.which { self.counted } else { k },
            );
        }
        if self.minor == 4 {
            put(235, 8, 0);
            put(243, 8, 0);
            put(251, 4, 0);
        }
        for k in 0..self.vlrs {
            put(self.header_size + 54 * k + 20, 2, 0);
        }
        if self.last > 0 {
            let end = self.end() as usize;
            let bytes = (self.n * self.length) as usize;
            let place = &mut file[end - bytes..end];
            place.copy_from_slice(&records[..bytes]);
            if self.last > 1 {
                place[self.last as usize - 2] ^= 1;
            }
        }
        (file, records, bounds)
    }

    fn end(&self) -> u64 {
        self.offset + self.count * self.length
    }
}

impl replay_frame::Question for Question {
    fn seeded(self, seed: u64) -> Question {
        Question { seed, ..self }
    }

    fn numbers(&self) -> Vec<u64> {
        vec![
            self.seed,
            self.minor,
            self.header_size,
            self.vlrs,
            self.offset,
            self.format,
            self.length,
            self.count,
            self.which,
            self.counted,
            self.size,
            self.allowance,
            self.lent,
            self.n,
            self.believed,
            self.last,
        ]
    }

    /// What the rules answer.
    fn answer(&self) -> String {
        let (file, records, bounds) = self.make();
        let offer = Offer {
            allowance: self.allowance,
            records: &records,
            n: self.n,
            believed: self.believed,
        };
        let mut found = Found::default();
        let mut after = file.clone();
        let row = append_model::append(&mut found, &mut after, offer, &bounds);
        let mut line = format!("{row} {}", summed(NOTHING, &after));
        if let Ok(Some(sweep)) = append_model::judge(&mut found, &file, offer) {
            let stores = append_model::stores(&sweep);
            let (mut file, mut sum) = (file, NOTHING);
            for k in 0..stores {
                let (_, sector) = append_model::store(&mut file, &sweep, &records, &bounds, k);
                for number in sector.expect("a store that is not refused") {
                    sum = summed(sum, &number.to_le_bytes());
                }
                sum = summed(sum, &file);
            }
            line += &format!(" {stores} {sum}");
        }
        line + "\n"
    }
}

/// Files of version 1.2: points right behind the header, behind padding, VLRs and a gap, behind a header of more
/// than a sector; points that end at a sector's end, before and after it; one that ends with a sector's first byte
/// once a record is added; records longer than a sector.
fn files() -> [Question; 10] {
    let plain = Question {
        seed: 0,
        minor: 2,
        header_size: 227,
        vlrs: 0,
        offset: 227,
        format: 0,
        length: 20,
        count: 0,
        which: 0,
        counted: 0,
        size: 0,
        allowance: u64::MAX,
        lent: 0,
        n: 0,
        believed: 0,
        last: 0,
    };
    let with = |header_size, vlrs, offset, format, length, count| Question {
        header_size,
        vlrs,
        offset,
        format,
        length,
        count,
        believed: count,
        ..plain
    };
    [
        plain,
        with(227, 0, 227, 1, 28, 3),
        with(230, 2, 340, 2, 31, 5),
        with(513, 1, 600, 3, 34, 7),
        with(227, 0, 312, 0, 20, 10),
        with(227, 0, 311, 0, 20, 10),
        with(227, 0, 313, 0, 20, 10),
        with(227, 0, 293, 0, 20, 10),
        with(227, 0, 227, 0, 600, 2),
        with(300, 0, 1_024, 1, 28, 4),
    ]
}

/// Makes the list afresh, and writes it into the folder or compares it with what the folder has.
pub fn compare(tally: &mut Tally, folder: &Path, write: bool) -> io::Result<()> {
    let mut list = List::default();
    for file in files() {
        added(&mut list, file);
        already_in(&mut list, file);
        counts(&mut list, file);
        refused(&mut list, file);
    }
    let numbers = [0, 1, 3, 4, 7, 9, 10, 11, 12, 22, 28, 29, 30, 31];
    list.keep("appends", &numbers, tally, folder, write)
}

/// A file to which n records can be added, with so much room behind them.
fn roomy(file: Question, n: u64, room: u64) -> Question {
    Question {
        n,
        lent: n * file.length,
        size: file.end() + n * file.length + room,
        ..file
    }
}

/// One record, a few, and many, with no room left, with some, and up to a sector's end.
fn added(list: &mut List, file: Question) {
    for n in [1, 3, 30] {
        let exact = roomy(file, n, 0);
        let up_to_the_end = (512 - exact.size % 512) % 512;
        for room in [0, 1, up_to_the_end, up_to_the_end + 1, 700] {
            list.ask(roomy(file, n, room));
        }
    }
    let more = roomy(file, 3, 0);
    list.ask(Question {
        lent: more.lent + 5,
        ..more
    });
}

/// The last records are those that are offered, or but for a bit; with room and without; all of them.
fn already_in(list: &mut List, file: Question) {
    for n in [1, 2, file.count] {
        if n == 0 || n > file.count {
            continue;
        }
        let bytes = n * file.length;
        let same = Question {
            believed: file.count - n,
            last: 1,
            ..roomy(file, n, 0)
        };
        let full = Question {
            size: file.end(),
            ..same
        };
        list.ask(same);
        list.ask(full);
        for which in 1..=5 {
            list.ask(Question {
                which,
                counted: 0xffff_ffff,
                ..full
            });
        }
        for turned in [0, bytes / 2, bytes - 1] {
            list.ask(Question {
                last: 2 + turned,
                ..same
            });
        }
        for believed in [same.believed + 1, same.believed.wrapping_sub(1)] {
            list.ask(Question { believed, ..same });
        }
        list.ask(Question { last: 0, ..same });
    }
    // More records than points, though the gap before the points has the first of them: a belief that would be
    // right in 64 bits isn't.
    let n = file.count + 3;
    if file.offset - file.header_size > 54 * file.vlrs + 3 * file.length {
        list.ask(Question {
            believed: file.count.wrapping_sub(n),
            last: 1,
            ..roomy(file, n, 0)
        });
    }
}

/// Counts by return at the end of 32 bits.
fn counts(list: &mut List, file: Question) {
    for which in 1..=5 {
        for less in [0, 1, 3] {
            list.ask(Question {
                which,
                counted: 0xffff_ffff - less,
                ..roomy(file, 12, 9)
            });
        }
    }
}

/// What is refused, on both sides of each edge, and each refusal with what later rules refuse.
fn refused(list: &mut List, file: Question) {
    let good = roomy(file, 3, 0);
    let worst = Question {
        believed: file.count + 7,
        size: file.end(),
        ..good
    };
    // the file check's
    for size in [3, 25, 226, file.offset - 1, file.end() - 1] {
        list.ask(Question { size, ..worst });
    }
    list.ask(Question {
        vlrs: 9,
        allowance: 0,
        ..worst
    });
    list.ask(Question { vlrs: 90, ..worst });
    // not 1.2, with n 0 or not
    for minor in [0, 1, 3, 4, 5] {
        let long = Question {
            minor,
            header_size: file.offset.min(375),
            ..worst
        };
        list.ask(long);
        list.ask(Question { n: 0, ..long });
    }
    // n is 0
    list.ask(Question { n: 0, ..good });
    list.ask(Question {
        n: 0,
        lent: 0,
        ..worst
    });
    // records short: by a byte, by all, and by products on both sides of 32 and 64 bits
    for lent in [good.lent - 1, 0] {
        list.ask(Question { lent, ..good });
        list.ask(Question { lent, ..worst });
    }
    let whole = u64::MAX / file.length;
    for n in [
        1 << 32,
        (1 << 32) / file.length + 1,
        whole,
        whole + 1,
        u64::MAX,
    ] {
        list.ask(Question { n, ..good });
    }
    // count neither: sums that would be right in 32 or 64 bits
    for believed in [
        file.count + 1,
        file.count + 3,
        file.count.wrapping_sub(3),
        file.count + (1 << 32),
        0xffff_ffff,
        u64::MAX,
    ] {
        list.ask(Question { believed, ..good });
        list.ask(Question { believed, ..worst });
    }
    // a count by return too large, and no room
    for which in 1..=5 {
        list.ask(Question {
            which,
            counted: 0xffff_ffff,
            size: file.end(),
            ..roomy(file, 30, 0)
        });
    }
    // no room: by a byte, and by all
    for size in [good.size - 1, file.end()] {
        list.ask(Question { size, ..good });
    }
}
