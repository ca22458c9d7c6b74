//! Times the findings of whole files beside a walk over their points, which they may take twice as long as (document 02, No. 12), and memcpy
//! of the records, and prints the figures as a table in Markdown. The Rust has no such call.

use bench::times::{Times, rounds, timed};
use oracle::{capi, records::Lcg};
use std::hint::black_box;

/// The points of each file.
const SIZES: [usize; 5] = [1_000, 10_000, 100_000, 1_000_000, 10_000_000];

/// A kind of file: the minor version, the point format, its record and the header's size.
struct Kind {
    minor: u8,
    code: u8,
    record: usize,
    header: usize,
}

const KINDS: [Kind; 2] = [
    Kind {
        minor: 2,
        code: 3,
        record: 34,
        header: 227,
    },
    Kind {
        minor: 4,
        code: 6,
        record: 30,
        header: 375,
    },
];

/// Where a record has its return number and its number of returns, and how many bits each has.
const RETURNS: usize = 14;

impl Kind {
    fn bits(&self) -> u32 {
        if self.code < 6 { 3 } else { 4 }
    }

    /// A file of so many points, with nothing wrong, or with the return number and the number of returns 0 in each point and counted so.
    fn file(&self, count: usize, wrong: bool) -> Vec<u8> {
        let mut file = vec![0; self.header + count * self.record];
        let mut by_return = [0_u64; 16];
        let (header, points) = file.split_at_mut(self.header);
        Lcg::new(12).fill(points);
        for point in points.chunks_exact_mut(self.record) {
            let some = point[RETURNS];
            let of = 1 + some % 5;
            let number = 1 + some / 5 % of;
            point[RETURNS] = if wrong { 0 } else { of << self.bits() | number };
            by_return[usize::from(if wrong { 0 } else { number })] += 1;
        }
        let mut put = |at: usize, number: u64, bytes: usize| {
            header[at..][..bytes].copy_from_slice(&number.to_le_bytes()[..bytes]);
        };
        put(0, u64::from(u32::from_le_bytes(*b"LASF")), 4);
        put(24, 1, 1);
        put(25, self.minor.into(), 1);
        put(94, self.header as u64, 2);
        put(96, self.header as u64, 4);
        put(104, self.code.into(), 1);
        put(105, self.record as u64, 2);
        let (first, bytes) = if self.minor < 4 { (107, 4) } else { (247, 8) };
        put(first, count as u64, bytes);
        for (place, points) in
            by_return
                .iter()
                .enumerate()
                .skip(1)
                .take(if bytes == 4 { 5 } else { 15 })
        {
            put(first + place * bytes, *points, bytes);
        }
        file
    }
}

/// A file with nothing wrong, one whose points are all wrong, and where findings and copied records go.
struct Work {
    count: usize,
    header: usize,
    clean: Vec<u8>,
    wrong: Vec<u8>,
    out: Vec<u64>,
    copied: Vec<u8>,
}

impl Work {
    fn new(kind: &Kind, count: usize) -> Work {
        Work {
            count,
            header: kind.header,
            clean: kind.file(count, false),
            wrong: kind.file(count, true),
            out: vec![1; 4 * count],
            copied: vec![1; count * kind.record],
        }
    }

    /// What a walk over the points takes, each read whole.
    fn walk(&mut self) {
        let (mut place, mut row, mut numbers) = ([0; 7], [0; 3], [0; 24]);
        let file = black_box(&self.clean);
        capi::las_file_walker(file, u64::MAX, &mut place);
        for _ in 0..self.count {
            capi::las_file_next(file, &mut place, &mut row, &mut numbers);
            black_box(&numbers);
        }
        assert_eq!(row, [0; 3]);
    }

    fn copy(&mut self) {
        self.copied
            .copy_from_slice(black_box(&self.clean[self.header..]));
        black_box(&mut self.copied);
    }

    fn nothing_wrong(&mut self) {
        let mut row = [u64::MAX; 3];
        capi::las_findings(black_box(&self.clean), u64::MAX, &mut self.out, &mut row);
        assert_eq!(row, [0; 3]);
    }

    fn all_counted(&mut self) {
        let mut row = [u64::MAX; 3];
        capi::las_findings(black_box(&self.wrong), u64::MAX, &mut [], &mut row);
        assert_eq!(row, [22, self.count as u64, 0]);
    }

    fn all_told(&mut self) {
        let mut row = [u64::MAX; 3];
        capi::las_findings(black_box(&self.wrong), u64::MAX, &mut self.out, &mut row);
        assert_eq!(row, [0, self.count as u64, 0]);
    }

    /// What is timed is right: each point is told, at its record.
    fn check_made(&self, record: usize) {
        for (point, finding) in self.out.chunks_exact(4).enumerate() {
            let at = self.header + point * record;
            assert_eq!(finding, [4, 2, point as u64 + 1, at as u64]);
        }
    }
}

fn main() {
    println!(
        "| LAS | format | points | walk | nothing wrong | over the walk | all wrong, counted | over the walk | all wrong, told | over the walk | memcpy | shortest over the walk: nothing wrong | counted | told |"
    );
    println!("|---|---|---|---|---|---|---|---|---|---|---|---|---|---|");
    for kind in KINDS {
        for count in SIZES {
            let mut work = Work::new(&kind, count);
            let passes = [
                Work::walk,
                Work::nothing_wrong,
                Work::all_counted,
                Work::all_told,
                Work::copy,
            ];
            for pass in passes {
                pass(&mut work);
            }
            work.check_made(kind.record);
            let mut times = passes.map(|_| Times(Vec::new()));
            for _ in 0..rounds(count) {
                for (pass, times) in passes.iter().zip(&mut times) {
                    times.0.push(timed(count, || pass(&mut work)));
                }
            }
            let [walk, nothing, counted, told, memcpy] = times.each_mut().map(Times::median);
            let [least, shortest @ .., _] = times.each_ref().map(Times::shortest);
            let [least_nothing, least_counted, least_told] = shortest.map(|time| time / least);
            println!(
                "| 1.{} | {} | {count} | {walk:.2} | {nothing:.2} | {:.2} | {counted:.2} | {:.2} | {told:.2} | {:.2} | {memcpy:.2} | {least_nothing:.2} | {least_counted:.2} | {least_told:.2} |",
                kind.minor,
                kind.code,
                nothing / walk,
                counted / walk,
                told / walk,
            );
        }
    }
}
