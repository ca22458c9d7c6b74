//! The class of one point set in files of 1,000 to 10,000,000 points: it costs the same in all of them.
//!
//! The points are zeros that nobody has touched. Those take no memory, so that a page of points that a call looked at would be
//! one more that the system had to bring.

use crate::{large::faults, work::CHECKS};
use oracle::{capi, sparse::Sparse};
use std::hint::black_box;

/// The points of each file, of format 3.
pub const SIZES: [usize; 3] = [1_000, 100_000, 10_000_000];
const CODE: u8 = 3;
const LENGTH: usize = 34;

/// The header, and where a record has its class.
const HEADER: usize = 227;
const CLASS: usize = 15;

/// A 1.2 file.
pub struct Work {
    count: usize,
    file: Sparse,
}

impl Work {
    pub fn new(count: usize) -> Work {
        let mut file = Sparse::new(HEADER + count * LENGTH);
        let mut put = |at: usize, bytes: &[u8]| file[at..][..bytes.len()].copy_from_slice(bytes);
        put(0, b"LASF");
        put(24, &[1, 2]);
        put(94, &(HEADER as u16).to_le_bytes());
        put(96, &(HEADER as u32).to_le_bytes());
        put(104, &[CODE]);
        put(105, &(LENGTH as u16).to_le_bytes());
        put(107, &(count as u32).to_le_bytes());
        Work { count, file }
    }

    pub fn bytes(&self) -> usize {
        self.file.len()
    }

    /// The byte of a point's class.
    fn place(&self, point: usize) -> usize {
        HEADER + (point - 1) * LENGTH + CLASS
    }

    /// Gives a point, counted from 1, a class, and answers the one that it had.
    fn set(&mut self, point: usize, class: u8) -> u64 {
        let mut row = [u64::MAX; 3];
        capi::las_reclassify(&mut self.file, u64::MAX, point as u64, class, &mut row);
        assert_eq!((row[0], row[2]), (0, 0));
        row[1]
    }

    /// The question alone.
    fn ask(&self, point: usize, class: u8) -> [u64; 2] {
        let (mut change, mut row) = ([u64::MAX; 2], [u64::MAX; 3]);
        let file = black_box(&self.file);
        capi::las_reclassify_ask(file, u64::MAX, point as u64, class, &mut change, &mut row);
        assert_eq!((row[0], row[2]), (0, 0));
        change
    }

    /// Many classes for the first point, and for the last.
    pub fn set_first(&mut self) {
        (0..CHECKS).for_each(|call| _ = black_box(self.set(1, call as u8 % 32)));
    }

    pub fn set_last(&mut self) {
        (0..CHECKS).for_each(|call| _ = black_box(self.set(self.count, call as u8 % 32)));
    }

    /// Many questions about the last point.
    pub fn ask_last(&mut self) {
        (0..CHECKS).for_each(|call| _ = black_box(self.ask(self.count, call as u8 % 32)));
    }

    /// The file check, which comes first.
    pub fn check(&mut self) {
        for _ in 0..CHECKS {
            let mut row = [u64::MAX; 4];
            capi::las_file_check(black_box(&self.file), u64::MAX, &mut row);
            assert_eq!(row, [0; 4]);
        }
    }

    /// How many pages of the file the question and the write of the last point's class touch that nobody has touched before.
    /// Asked first of all. What is timed is right, too: the class goes to its place, and comes back.
    pub fn pages(&mut self) -> [u64; 2] {
        let (last, place) = (self.count, self.place(self.count));
        // The first count has pages of its own.
        faults();
        let start = faults();
        let change = self.ask(last, 31);
        let asked = faults();
        let was = self.set(last, 31);
        let set = faults();
        assert_eq!((change, was), ([place as u64, 31], 0));
        assert_eq!((self.file[place], self.set(last, 0)), (31, 31));
        [asked - start, set - asked]
    }
}
