//! An append of 1,000 records to files of 1,000 to 10,000,000 points: it costs by the records and not by the file.
//!
//! The points are zeros that nobody has touched. Those take no memory, so that a page of points that the append looked at
//! would be one more that the system had to bring.

use crate::large::faults;
use oracle::{
    capi::{self, Sweep},
    records::Lcg,
    sparse::Sparse,
};
use std::hint::black_box;

/// The points of each file.
pub const SIZES: [usize; 3] = [1_000, 100_000, 10_000_000];

/// What is added, of format 3.
pub const RECORDS: usize = 1_000;
const CODE: u8 = 3;
const LENGTH: usize = 34;
const BYTES: usize = RECORDS * LENGTH;

/// The header, and the bytes of a page.
const HEADER: usize = 227;
const PAGE: usize = 4_096;

const BOUNDS: [u64; 6] = [1, 2, 3, 4, 5, 6];

/// A 1.2 file with room for the records, its header as it was, and the records.
pub struct Work {
    count: u64,
    end: usize,
    file: Sparse,
    header: Vec<u8>,
    records: Vec<u8>,
    copied: Vec<u8>,
}

impl Work {
    pub fn new(count: usize) -> Work {
        let end = HEADER + count * LENGTH;
        let mut header = vec![0; HEADER];
        let mut put = |at: usize, bytes: &[u8]| header[at..][..bytes.len()].copy_from_slice(bytes);
        put(0, b"LASF");
        put(24, &[1, 2]);
        put(94, &(HEADER as u16).to_le_bytes());
        put(96, &(HEADER as u32).to_le_bytes());
        put(104, &[CODE]);
        put(105, &(LENGTH as u16).to_le_bytes());
        put(107, &(count as u32).to_le_bytes());
        let mut records = vec![0; BYTES];
        Lcg::new(0).fill(&mut records);
        let mut work = Work {
            count: count as u64,
            end,
            file: Sparse::new(end + BYTES),
            header,
            records,
            copied: vec![0xff; HEADER + BYTES],
        };
        work.restore();
        work
    }

    pub fn bytes(&self) -> usize {
        self.file.len()
    }

    /// The file as it was before an append, but for what stands behind its points, which is free.
    pub fn restore(&mut self) {
        self.file[..HEADER].copy_from_slice(&self.header);
    }

    fn offer(&self) -> (&[u8], u64, u64) {
        (&self.records, RECORDS as u64, self.count)
    }

    /// The whole append: 0 where the records are added, 1 where they are already in.
    pub fn append(&mut self, value: u64) {
        let mut row = [u64::MAX; 3];
        let offer = (&self.records[..], RECORDS as u64, self.count);
        capi::las_append(&mut self.file, u64::MAX, offer, &BOUNDS, &mut row);
        assert_eq!(row, [0, value, 0]);
    }

    /// The judgement alone.
    pub fn begin(&self) -> Sweep {
        let (mut sweep, mut row) = ([0; 8], [u64::MAX; 3]);
        let file = black_box(&self.file);
        capi::las_append_begin(file, u64::MAX, self.offer(), &mut sweep, &mut row);
        assert_eq!(row, [0; 3]);
        sweep
    }

    /// The stores alone: how many there are, and the bytes of their sectors, which is what goes to a card.
    pub fn stores(&mut self, sweep: &Sweep) -> [u64; 2] {
        let (mut sector, mut row) = ([0; 2], [u64::MAX; 3]);
        let mut bytes = 0;
        let stores = capi::las_append_stores(sweep);
        for k in 0..stores {
            let (file, records) = (&mut self.file, &self.records);
            capi::las_append_store(file, sweep, records, &BOUNDS, k, &mut sector, &mut row);
            assert_eq!(row[0], 0);
            bytes += row[1];
        }
        [stores, bytes]
    }

    /// What the stores have made is what the whole append makes, and the records are there. The file is as it was, then.
    pub fn check_made(&mut self) {
        let made = self.file[..HEADER].to_vec();
        assert!(self.file[self.end..] == self.records);
        self.restore();
        self.file[self.end..].fill(0);
        self.append(0);
        assert!(self.file[..HEADER] == made && self.file[self.end..] == self.records);
        self.restore();
    }

    /// The file check, which comes first.
    pub fn check(&self) {
        let mut row = [u64::MAX; 4];
        capi::las_file_check(black_box(&self.file), u64::MAX, &mut row);
        assert_eq!(row, [0; 4]);
    }

    /// The limit: header and records moved and nothing else.
    pub fn copy(&mut self) {
        let (header, records) = self.copied.split_at_mut(HEADER);
        header.copy_from_slice(black_box(&self.header));
        records.copy_from_slice(black_box(&self.records));
        black_box(&mut self.copied);
    }

    /// How many pages of the file judgement and stores touch that nobody has touched before, and how many the place of
    /// the records has of them. Asked first of all.
    pub fn pages(&mut self) -> [u64; 3] {
        // The first count has pages of its own.
        faults();
        let start = faults();
        let sweep = self.begin();
        let begun = faults();
        self.stores(&sweep);
        let stored = faults();
        self.restore();
        // A mapping starts with a page.
        let own = (self.end + BYTES).div_ceil(PAGE) - self.end / PAGE;
        [begun - start, stored - begun, own as u64]
    }
}
