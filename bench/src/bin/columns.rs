//! Times columns of points, the port's and those of the Rust's `PointData`, beside the port's walker and memcpy, then X, Y and Z in one pass,
//! beside a loop by hand, and how that grows, and prints the figures as tables in Markdown.
//!
//! It is a program of its own: where the Rust's iterators are used more often, the compiler leaves calls of them in the loops, which
//! take longer then. Here no call is left, which `bench/run` sees to.

use bench::{
    by_hand,
    times::{Times, rounds, timed},
    work::{MANY, POINTS_AT, file},
};
use las::{PointData, PointDataBuilder, point::Format};
use oracle::{
    capi::{self, PointNumbers, Row},
    format, records,
};
use std::hint::black_box;

/// The format of the records, which has a time and colours, and how many there are where no other number is said.
const CODE: u8 = 3;
const RECORDS: usize = 65_536;

/// How many records there are to see how the cost grows.
const GROWING: [usize; 5] = [1_000, 10_000, 100_000, 1_000_000, 10_000_000];

/// What is filled; all of it has been written to before anything is timed.
#[derive(PartialEq)]
struct Buffers {
    x: Vec<i32>,
    y: Vec<i32>,
    z: Vec<i32>,
    time: Vec<f64>,
    bits: Vec<u64>,
    red: Vec<u16>,
    green: Vec<u16>,
    blue: Vec<u16>,
}

impl Buffers {
    fn new(count: usize) -> Buffers {
        Buffers {
            x: vec![-1; count],
            y: vec![-1; count],
            z: vec![-1; count],
            time: vec![-1.0; count],
            bits: vec![1; count],
            red: vec![1; count],
            green: vec![1; count],
            blue: vec![1; count],
        }
    }
}

/// A file of the records, lent, and the same records as the Rust has them for its columns.
struct Work {
    count: usize,
    record: usize,
    file: Vec<u8>,
    data: PointData,
    copy: Vec<u8>,
    to: Buffers,
}

impl Work {
    /// So many records, each with so many extra bytes.
    fn new(count: usize, extra_bytes: u16) -> Work {
        let mut format = Format::new(CODE).expect("a format from 0 to 10");
        format.extra_bytes = extra_bytes;
        let word = format::word(format);
        let record = records::record_len(word);
        let file = file(CODE, word, record, count);
        let points = file[POINTS_AT..][..count * record].to_vec();
        Work {
            count,
            record,
            file,
            copy: vec![1; points.len()],
            data: PointDataBuilder::new()
                .with_format(format)
                .build_from_bytes(points)
                .expect("records"),
            to: Buffers::new(count),
        }
    }

    fn memcpy(&mut self) {
        let points = &self.file[POINTS_AT..][..self.copy.len()];
        self.copy.copy_from_slice(black_box(points));
        black_box(&mut self.copy);
    }

    /// X, Y and Z by the port's one pass.
    fn one_pass(&mut self) {
        let (count, to) = (self.count as u64, &mut self.to);
        let mut row = [u64::MAX; 3];
        let buffers = (&mut to.x[..], &mut to.y[..], &mut to.z[..]);
        capi::las_columns_xyz(black_box(&self.file), MANY, (1, count), buffers, &mut row);
        assert_eq!(row, [0, count, 0]);
        black_box(to);
    }

    /// X, Y and Z by a loop that checks nothing, not even the file.
    fn by_hand(&mut self) {
        let points = &self.file[POINTS_AT..][..self.copy.len()];
        let to = &mut self.to;
        by_hand::xyz(
            black_box(points),
            self.record,
            (&mut to.x, &mut to.y, &mut to.z),
        );
        black_box(to);
    }

    /// All of these leave the same in the buffers, and not what was there.
    fn check(&mut self, passes: &[fn(&mut Work)]) {
        let before = Buffers::new(self.count);
        let mut made = passes.iter().map(|pass| {
            self.to = Buffers::new(self.count);
            pass(self);
            std::mem::replace(&mut self.to, Buffers::new(self.count))
        });
        let first = made.next().expect("a pass");
        assert!(first != before && made.all(|other| other == first));
    }

    /// What each took, in turn, round by round.
    fn times<const N: usize>(&mut self, passes: [fn(&mut Work); N]) -> [Times; N] {
        let mut times = passes.map(|_| Times(Vec::new()));
        for _ in 0..rounds(self.count) {
            for (pass, times) in passes.iter().zip(&mut times) {
                times.0.push(timed(self.count, || pass(self)));
            }
        }
        times
    }
}

/// The same numbers read three ways.
struct Line {
    name: &'static str,
    rust: fn(&mut Work),
    port: fn(&mut Work),
    walk: fn(&mut Work),
}

/// The three that are asked for together.
const XYZ: Line = Line {
    name: "X, Y and Z",
    rust: |work| LINES[..3].iter().for_each(|line| (line.rust)(work)),
    port: |work| LINES[..3].iter().for_each(|line| (line.port)(work)),
    walk: |work| {
        walk(&work.file, work.count, |i, n| {
            work.to.x[i] = n[0] as i32;
            work.to.y[i] = n[1] as i32;
            work.to.z[i] = n[2] as i32;
        })
    },
};

const LINES: [Line; 8] = [
    Line {
        name: "X",
        rust: |work| put(work.data.x_raw(), &mut work.to.x),
        port: |work| port(capi::las_column_x, &work.file, &mut work.to.x),
        walk: |work| walk(&work.file, work.count, |i, n| work.to.x[i] = n[0] as i32),
    },
    Line {
        name: "Y",
        rust: |work| put(work.data.y_raw(), &mut work.to.y),
        port: |work| port(capi::las_column_y, &work.file, &mut work.to.y),
        walk: |work| walk(&work.file, work.count, |i, n| work.to.y[i] = n[1] as i32),
    },
    Line {
        name: "Z",
        rust: |work| put(work.data.z_raw(), &mut work.to.z),
        port: |work| port(capi::las_column_z, &work.file, &mut work.to.z),
        walk: |work| walk(&work.file, work.count, |i, n| work.to.z[i] = n[2] as i32),
    },
    XYZ,
    Line {
        name: "time",
        rust: |work| put(work.data.gps_time().expect("times"), &mut work.to.time),
        port: |work| port(capi::las_column_time, &work.file, &mut work.to.time),
        walk: |work| {
            walk(&work.file, work.count, |i, n| {
                work.to.time[i] = f64::from_bits(n[9])
            })
        },
    },
    Line {
        name: "time by its bits",
        rust: |work| {
            let times = work.data.gps_time().expect("times");
            put(times.map(f64::to_bits), &mut work.to.bits)
        },
        port: |work| port(capi::las_column_time_bits, &work.file, &mut work.to.bits),
        walk: |work| walk(&work.file, work.count, |i, n| work.to.bits[i] = n[9]),
    },
    Line {
        name: "red",
        rust: |work| {
            let colors = work.data.rgb().expect("colours");
            put(colors.map(|(red, _, _)| red), &mut work.to.red)
        },
        port: |work| port(capi::las_column_red, &work.file, &mut work.to.red),
        walk: |work| walk(&work.file, work.count, |i, n| work.to.red[i] = n[11] as u16),
    },
    Line {
        name: "red, green and blue",
        rust: |work| {
            let to = &mut work.to;
            let places = to.red.iter_mut().zip(&mut to.green).zip(&mut to.blue);
            let colors = work.data.rgb().expect("colours");
            for (((red, green), blue), color) in places.zip(colors) {
                (*red, *green, *blue) = color;
            }
            black_box(to);
        },
        port: |work| {
            port(capi::las_column_red, &work.file, &mut work.to.red);
            port(capi::las_column_green, &work.file, &mut work.to.green);
            port(capi::las_column_blue, &work.file, &mut work.to.blue);
        },
        walk: |work| {
            walk(&work.file, work.count, |i, n| {
                work.to.red[i] = n[11] as u16;
                work.to.green[i] = n[12] as u16;
                work.to.blue[i] = n[13] as u16;
            })
        },
    },
];

/// The Rust: its iterator into places that are there already, which takes less than a `Vec` that grows.
#[inline]
fn put<N>(column: impl Iterator<Item = N>, to: &mut [N]) {
    for (place, number) in to.iter_mut().zip(column) {
        *place = number;
    }
    black_box(to);
}

/// A column of the port.
fn port<N>(fill: fn(&[u8], u64, u64, u64, &mut [N], &mut Row), file: &[u8], to: &mut [N]) {
    let (count, mut row) = (to.len() as u64, [u64::MAX; 3]);
    fill(black_box(file), MANY, 1, count, to, &mut row);
    assert_eq!(row, [0, count, 0]);
    black_box(to);
}

/// The port's walker: each of so many points in turn, from 0, of which the numbers are taken.
#[inline]
fn walk(file: &[u8], count: usize, mut see: impl FnMut(usize, &PointNumbers)) {
    let (mut place, mut row, mut numbers) = ([0; 7], [0; 3], [0; 24]);
    capi::las_file_walker(black_box(file), MANY, &mut place);
    for i in 0..count {
        capi::las_file_next(file, &mut place, &mut row, &mut numbers);
        assert_eq!(row[0], 0);
        see(i, &numbers);
    }
}

impl Line {
    /// Prints medians and their ratios, and the ratio of the shortest times.
    fn time(&self, work: &mut Work) {
        work.check(&[self.rust, self.port, self.walk]);
        let mut times = work.times([self.port, self.rust, self.walk, Work::memcpy]);
        let [port, rust, walk, memcpy] = times.each_mut().map(Times::median);
        let [least_port, least_rust, ..] = times.each_ref().map(Times::shortest);
        println!(
            "| {} | {port:.2} | {rust:.2} | {:.2} | {walk:.2} | {:.2} | {memcpy:.2} | {:.1} | {:.2} |",
            self.name,
            port / rust,
            port / walk,
            port / memcpy,
            least_port / least_rust,
        );
    }
}

/// The ways to X, Y and Z. The first two are those that the others are divided by.
const WAYS: [(&str, fn(&mut Work)); 5] = [
    ("the Rust's `x_raw`, `y_raw`, `z_raw`", XYZ.rust),
    ("one pass by hand, unchecked", Work::by_hand),
    ("three columns", XYZ.port),
    ("one pass", Work::one_pass),
    ("memcpy of the records", Work::memcpy),
];

/// Prints what each way takes, and that over what the Rust and the loop by hand take.
fn time_ways(work: &mut Work) {
    let passes = WAYS.map(|(_, pass)| pass);
    work.check(&passes[..4]);
    let mut times = work.times(passes);
    let medians = times.each_mut().map(Times::median);
    let shortest = times.each_ref().map(Times::shortest);
    for (i, (name, _)) in WAYS.iter().enumerate() {
        print!("| {name} |");
        for times in [medians, shortest] {
            let (time, [rust, by_hand, ..]) = (times[i], times);
            print!(" {time:.2} | {:.2} | {:.2} |", time / rust, time / by_hand);
        }
        println!();
    }
}

/// Prints the medians of one pass and of three columns at each size, in brackets the Rust's.
fn time_growth(name: &str, extra_bytes: u16) {
    let mut lines = ["one pass", "three columns"].map(|way| format!("| {way}{name} |"));
    for count in GROWING {
        let mut work = Work::new(count, extra_bytes);
        let passes = [XYZ.rust, Work::one_pass, XYZ.port];
        work.check(&passes);
        let [rust, ports @ ..] = work.times(passes).each_mut().map(Times::median);
        for (line, port) in lines.iter_mut().zip(ports) {
            line.push_str(&format!(" {port:.2} ({rust:.2}) |"));
        }
    }
    lines.iter().for_each(|line| println!("{line}"));
}

fn main() {
    println!("Columns of {RECORDS} records of format {CODE}: nanoseconds a record, medians.\n");
    println!(
        "| | port | Rust | port/Rust | walking | port/walking | memcpy | port/memcpy | shortest: port/Rust |"
    );
    println!("|---|---|---|---|---|---|---|---|---|");
    let mut work = Work::new(RECORDS, 0);
    for line in LINES {
        line.time(&mut work);
    }

    println!("\nX, Y and Z of the same records: nanoseconds a record.\n");
    println!(
        "| | median | over the Rust | over by hand | shortest | over the Rust | over by hand |"
    );
    println!("|---|---|---|---|---|---|---|");
    time_ways(&mut work);

    println!("\nX, Y and Z of more and more records: medians, in brackets the Rust.\n");
    println!(
        "| points | {} |",
        GROWING.map(|n| n.to_string()).join(" | ")
    );
    println!("|---|{}", "---|".repeat(GROWING.len()));
    time_growth("", 0);
    time_growth(", two extra bytes", 2);
}
