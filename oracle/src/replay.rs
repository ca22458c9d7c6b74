//! The replay list: a sample of the Rust's answers that the repository's own tests repeat without
//! any Rust at hand. The program of crates/replay reads the requests from its `stdin` and must
//! write the lines of its `stdout`.
//!
//! A request is three words, little-endian: the call's number, x and y. A line is the three words,
//! the answer's number and its value, in decimal.

use crate::{
    angle,
    call::{Call, noise},
    flags::{self, three, two},
    format,
    report::{Report, Tally},
};
use las::raw::window;
use std::{collections::HashSet, fs, io, path::Path};

/// Ranks under kinds other than 0, with something in the second byte, which means nothing.
const OTHER_KINDS: [u32; 3] = [0x0002_ab05, 0xffff_0080, 0x0100_ff7f];

/// Requests and answer lines, in the order asked. Asking twice adds nothing.
struct List {
    asked: HashSet<(u32, u32, u32)>,
    stdin: Vec<u8>,
    stdout: String,
    report: Report,
}

impl List {
    /// Adds a request with the Rust's answer. The port is asked too, but only to compare.
    fn ask(&mut self, call: &Call, x: u32, y: u32) {
        let Some(op) = call.op else {
            panic!("{} has no number in the replay list", call.name)
        };
        if !self.asked.insert((op, x, y)) {
            return;
        }
        let answer = (call.rust)(x, y);
        for word in [op, x, y] {
            self.stdin.extend(word.to_le_bytes());
        }
        self.stdout += &format!("{op} {x} {y} {} {}\n", answer.number, answer.value);
        self.report.compare(answer, (call.port)(x, y), || {
            format!("request {op} {x} {y}")
        });
    }

    /// Asks each call about each word.
    fn ask_all(&mut self, calls: &[&Call], words: &[u32]) {
        for call in calls {
            for &x in words {
                self.ask(call, x, 0);
            }
        }
    }
}

/// Makes the list afresh, and writes it into the folder or compares it with what the folder has.
pub fn compare(tally: &mut Tally, folder: &Path, write: bool) -> io::Result<()> {
    let mut list = List {
        asked: HashSet::new(),
        stdin: Vec::new(),
        stdout: String::new(),
        report: Report::new("replay list"),
    };
    formats(&mut list);
    flag_words(&mut list);
    flag_pairs(&mut list);
    angles(&mut list);
    degrees(&mut list);
    angle_pairs(&mut list);
    // A sample of what is asked above, and so no more inputs.
    tally.aside(list.report);
    keep(tally, folder, write, list.stdin, list.stdout)
}

/// Writes a list into its folder, or compares it with what the folder has.
pub(crate) fn keep(
    tally: &mut Tally,
    folder: &Path,
    write: bool,
    stdin: Vec<u8>,
    stdout: String,
) -> io::Result<()> {
    let files = [
        (folder.join("stdin"), stdin),
        (folder.join("stdout"), stdout.into_bytes()),
    ];
    if write {
        fs::create_dir_all(folder)?;
        for (path, fresh) in files {
            fs::write(&path, fresh)?;
            println!("wrote {}", path.display());
        }
    } else if files.iter().any(|(path, _)| path.exists()) {
        let mut report = Report::new("replay files");
        for (path, fresh) in files {
            let kept = fs::read(&path);
            report.check(kept.is_ok_and(|kept| kept == fresh), || {
                format!("{} is not what was made afresh", path.display())
            });
        }
        tally.aside(report);
    } else {
        println!("no list in {}: --write-replay makes it", folder.display());
    }
    Ok(())
}

/// Every code; every attribute set, bare and with the extra bytes on both sides of the length at
/// which the record becomes overlong.
fn formats(list: &mut List) {
    for code in 0..=255 {
        list.ask(&format::NEW, code, 0);
    }
    for attributes in 0..=format::ATTRIBUTES {
        let spare = (format::LONGEST - window::record_len(&format::format(attributes))) as u32;
        for extra_bytes in [0, 1, spare, spare + 1, 65_535] {
            list.ask(&format::LEN, attributes | extra_bytes << 16, 0);
        }
        let ignored = noise(attributes.into()) & format::IGNORED;
        for word in [attributes, attributes | ignored | 65_535 << 16] {
            list.ask(&format::EXTEND, word, 0);
            list.ask(&format::TO_U8, word, 0);
        }
    }
}

/// Every bit alone, each field at its ends and at the ends that the other kind has, the classes
/// around 12 and 28 with and without overlap, and the flags that document 01 names.
fn flag_words(list: &mut List) {
    let mut words = vec![two(0, 0), three(0, 0, 0), two(0x51, 0x22)];
    words.extend((0..16).map(|bit| two(0, 0) ^ 1 << bit));
    words.extend((0..24).map(|bit| three(0, 0, 0) ^ 1 << bit));
    for returns in [0, 1, 7] {
        words.extend([0, 1, 7].map(|number| two(returns << 3 | number, 2)));
    }
    for returns in [0, 7, 8, 15] {
        words.extend([0, 7, 8, 15].map(|number| three(returns << 4 | number, 0, 2)));
    }
    for class in [0, 1, 2, 11, 12, 13, 27, 28, 29, 31] {
        words.extend([two(0xd1, class), two(0x09, class | 0xe0)]);
    }
    for class in [0, 1, 2, 11, 12, 13, 27, 28, 29, 31, 32, 44, 255] {
        words.extend([three(0x11, 0x00, class), three(0x11, 0x08, class)]);
    }
    words.extend([2, 12, 28, 31].map(|class| three(0x77, 0xcf, class)));
    words.extend((0..4).map(|channel| three(0x11, channel << 4, 2)));
    words.extend([three(0x21, 0x48, 2), three(0x81, 0x00, 2)]);
    // More than one thing does not fit into two bytes: which is told first?
    words.extend([0xff, 0x88, 0x81, 0x11].map(|returns| three(returns, 0x10, 40)));
    // Two-byte flags under the other kinds, where the third byte means nothing.
    words.extend([0, 1, 4, 255].map(|kind| u32::from_le_bytes([0x51, 0x2c, 0xff, kind])));
    list.ask_all(&flags::READINGS, &words);
}

/// A few flags against all the partners that the full comparison gives them.
fn flag_pairs(list: &mut List) {
    for x in [two(0, 0), two(0x51, 0x22), two(0xff, 0x1c)] {
        for partner in 0..flags::TWO_BYTE_PARTNERS {
            list.ask(&flags::EQ, x, flags::two_byte_partner(x, partner));
        }
    }
    for x in [three(0, 0, 0), three(0x21, 0, 0x22), three(0x99, 0xff, 12)] {
        for partner in 0..flags::THREE_BYTE_PARTNERS {
            list.ask(&flags::EQ, flags::three_byte_partner(x, partner), x);
        }
    }
}

/// Every rank, and scaled angles around places where the nearest rank changes.
fn angles(list: &mut List) {
    let ranks: Vec<u32> = (i8::MIN..=i8::MAX).map(angle::rank).collect();
    list.ask_all(&angle::READINGS, &ranks);
    list.ask_all(&angle::READINGS, &OTHER_KINDS);

    // 6n/1000 reaches r + 1/2 where n reaches (2r + 1) * 250 / 3. That is whole for r = 1, 4, 7 and
    // so on: there a half is rounded. From r = 127 on the rank is held at 127, and below zero, from
    // r = 128 on, at -128.
    let mut scaled: Vec<i16> = vec![0, 1, -1, 32_766, 32_767, -32_767, -32_768];
    for r in (1..=127).step_by(18).chain((0..=128).step_by(16)) {
        let edge = ((2 * r + 1) * 250 + 2) / 3;
        scaled.extend((edge - 1..=edge + 1).flat_map(|n: i32| [n as i16, -n as i16]));
    }
    let words: Vec<u32> = scaled.into_iter().map(angle::scaled).collect();
    list.ask_all(&angle::READINGS, &words);
}

/// Degrees by their bits, of both signs: zeros, subnormals, infinities and NaNs; multiples of 0.006
/// and whole degrees with their neighbours; and a mixed lot over the exponents that matter.
fn degrees(list: &mut List) {
    let mut patterns: Vec<u32> = vec![0, 1, 0x007f_ffff, 0x0080_0000, 0x7f7f_ffff, 0x7f80_0000];
    patterns.extend([0x7f80_0001, 0x7fbf_ffff, 0x7fc0_0000, 0x7fff_ffff]);
    let steps = [
        1, 2, 3, 10, 100, 166, 167, 250, 499, 500, 501, 1_000, 15_000, 21_250, 30_000, 32_766,
        32_767, 32_768, 32_769,
    ]
    .map(|n| n as f32 * 0.006);
    let whole = [
        1.0, 2.0, 3.0, 45.0, 90.0, 127.0, 128.0, 180.0, 196.0, 197.0, 1e6,
    ];
    for near in steps.into_iter().chain(whole) {
        let bits = near.to_bits();
        patterns.extend([bits - 1, bits, bits + 1]);
    }
    patterns.extend((0..64).map(|i| (117 + i % 20) << 23 | noise(i.into()) >> 9));
    for bits in patterns {
        list.ask(&angle::FROM_DEGREES, bits, 0);
        list.ask(&angle::FROM_DEGREES, bits | 1 << 31, 0);
    }
}

/// Pairs that are equal, 500r = 3n, and pairs that only just are not.
fn angle_pairs(list: &mut List) {
    for r in (-126..=126).step_by(3) {
        let (rank, n) = (angle::rank(r), i16::from(r) / 3 * 500);
        list.ask(&angle::EQ, rank, angle::scaled(n));
        list.ask(&angle::EQ, angle::scaled(n), rank);
        list.ask(&angle::EQ, rank, angle::scaled(n - 1));
        list.ask(&angle::EQ, angle::scaled(n + 1), rank);
    }
    for r in (i8::MIN..=i8::MAX).step_by(7) {
        let n = (i32::from(r) * 500 / 3) as i16;
        list.ask(&angle::EQ, angle::rank(r), angle::scaled(n));
    }
    for r in [-128i8, -1, 0, 1, 127] {
        for other in [r, r.wrapping_add(1)] {
            list.ask(&angle::EQ, angle::rank(r), angle::rank(other));
        }
    }
    for n in [-32_768i16, -500, -1, 0, 1, 250, 500, 32_767] {
        for other in [n, n.wrapping_add(1)] {
            list.ask(&angle::EQ, angle::scaled(n), angle::scaled(other));
        }
    }
    for word in OTHER_KINDS {
        for other in [word, word & 0xff, word & 0xff ^ 1] {
            list.ask(&angle::EQ, word, other);
        }
    }
}
