//! The file check of files of 1 GiB, lent as one slice: it looks at header, VLRs and EVLRs alone.
//!
//! The files are zeros but for those. Zeros that nobody has touched take no memory, so that a page of points that the check
//! looked at would be one more that the system had to bring.

use crate::work::{EVLR, HEADER, Plan};
use oracle::{capi, format, records};
use std::{fs, hint::black_box};

/// The bytes of each file.
const SIZE: usize = 1 << 30;

/// The point format.
const CODE: u8 = 3;

/// How many points a file has.
#[derive(Clone, Copy, PartialEq, Eq)]
enum Points {
    None,
    AsManyAsFit,
}

/// A file: how many points, VLRs without data and EVLRs, and how many bytes of data each EVLR has.
#[derive(Clone, Copy)]
pub struct Large {
    pub name: &'static str,
    points: Points,
    vlrs: usize,
    evlrs: usize,
    data: usize,
}

const NO_POINTS: Large = Large {
    name: "no points, one gap",
    points: Points::None,
    vlrs: 3,
    evlrs: 3,
    data: 0,
};

const MANY_POINTS: Large = Large {
    name: "as many points as fit",
    points: Points::AsManyAsFit,
    ..NO_POINTS
};

const THOUSANDS: Large = Large {
    name: "the same, more records",
    vlrs: 1_000,
    evlrs: 1_000,
    ..MANY_POINTS
};

const HUNDRED_THOUSANDS: Large = Large {
    vlrs: 100_000,
    evlrs: 100_000,
    ..THOUSANDS
};

const LONG_RECORDS: Large = Large {
    name: "no points, EVLRs of 1 MB",
    vlrs: 0,
    evlrs: 1_000,
    data: 1_000_000,
    ..NO_POINTS
};

pub const FILES: [Large; 5] = [
    NO_POINTS,
    MANY_POINTS,
    THOUSANDS,
    HUNDRED_THOUSANDS,
    LONG_RECORDS,
];

/// A file to check, and where its header and the heads of its VLRs and EVLRs are copied to.
pub struct Work {
    pub plan: Plan,
    /// The bytes from an EVLR to the next.
    step: usize,
    file: Vec<u8>,
    heads: Vec<u8>,
}

impl Large {
    pub fn make(&self) -> Work {
        let word = format::word(las::point::Format::new(CODE).expect("a format from 0 to 10"));
        let step = EVLR + self.data;
        let mut plan = Plan {
            code: CODE,
            record: records::record_len(word),
            vlrs: self.vlrs,
            count: 0,
            evlrs: self.evlrs,
            evlrs_at: SIZE - self.evlrs * step,
        };
        if self.points == Points::AsManyAsFit {
            plan.count = (plan.evlrs_at - plan.points_at()) / plan.record;
        }
        let mut file = vec![0; SIZE];
        plan.put(&mut file);
        // The heads are touched all, as the bytes of a file would be that was read before.
        file[HEADER..plan.points_at()].fill(0);
        for evlr in file[plan.evlrs_at..].chunks_exact_mut(step) {
            evlr[..EVLR].fill(0);
            evlr[20..28].copy_from_slice(&(self.data as u64).to_le_bytes());
        }
        let heads = vec![0xff; plan.points_at() + self.evlrs * EVLR];
        Work {
            plan,
            step,
            file,
            heads,
        }
    }
}

impl Work {
    /// VLRs and EVLRs.
    pub fn records(&self) -> usize {
        self.plan.vlrs + self.plan.evlrs
    }

    pub fn check(&self) {
        let mut row = [u64::MAX; 4];
        capi::las_file_check(black_box(&self.file), u64::MAX, &mut row);
        assert_eq!(row, [0, 0, 0, self.records() as u64]);
    }

    /// The limit: header, VLRs and the heads of EVLRs moved and nothing else.
    pub fn copy_heads(&mut self) {
        let Work {
            plan, step, file, ..
        } = self;
        let (first, rest) = self.heads.split_at_mut(plan.points_at());
        let file = black_box(&file[..]);
        first.copy_from_slice(&file[..first.len()]);
        let evlrs = file[plan.evlrs_at..].chunks_exact(*step);
        for (to, evlr) in rest.chunks_exact_mut(EVLR).zip(evlrs) {
            to.copy_from_slice(&evlr[..EVLR]);
        }
        black_box(&mut self.heads);
    }

    /// How many pages a check touches that nobody has touched before.
    pub fn pages(&self) -> u64 {
        // The first count has pages of its own.
        faults();
        let before = faults();
        self.check();
        faults() - before
    }
}

/// How many pages the system has brought to this process so far, those aside that it had to read from a disk.
pub fn faults() -> u64 {
    let stat = fs::read_to_string("/proc/self/stat").expect("the system's account of this process");
    // The tenth word; the second is a name in brackets.
    let (_, after) = stat.rsplit_once(')').expect("a name in brackets");
    let faults = after.split_whitespace().nth(7).expect("ten words");
    faults.parse().expect("a number")
}
