//! Times the published Rust and the port side by side, in one run, with memcpy of the same bytes as the limit, and
//! prints the figures as tables in Markdown.
//!
//! Every round times each contender once, in turn, so that what slows the machine for a while slows them all.

use bench::{
    append, large, reclassify,
    times::{Times, rounds, timed},
    whole,
    work::{CHECKS, Work},
};
use std::hint::black_box;

/// The same work done three ways, over so many records of a format code.
struct Line {
    name: &'static str,
    code: u8,
    records: usize,
    memcpy: fn(&mut Work),
    rust: fn(&mut Work),
    port: fn(&mut Work),
}

const FEW: usize = 65_536;
const MANY: usize = 1_000_000;

const READ: Line = Line {
    name: "point read",
    code: 3,
    records: FEW,
    memcpy: Work::copy_points,
    rust: Work::rust_read,
    port: Work::port_read,
};

const WRITE: Line = Line {
    name: "point write",
    rust: Work::rust_write,
    port: Work::port_write,
    ..READ
};

const WALK: Line = Line {
    name: "walk over a file",
    rust: Work::rust_walk,
    port: Work::port_walk,
    ..READ
};

const SUMS: Line = Line {
    name: "X, Y, Z by walking",
    rust: Work::rust_sums,
    port: Work::port_sums,
    ..READ
};

const COLUMNS: Line = Line {
    name: "the same, the Rust by columns",
    rust: Work::rust_columns,
    ..SUMS
};

const SHEET: Line = Line {
    name: "site sheet",
    rust: Work::rust_sheet,
    port: Work::port_sheet,
    ..READ
};

const REWRITE: Line = Line {
    name: "rewriting",
    code: 6,
    records: MANY,
    memcpy: Work::copy_file,
    rust: Work::rust_rewrite,
    port: Work::port_rewrite,
};

/// Whether a run goes to the old format: what judging alone takes, beside the Rust reading the points.
const QUESTION: Line = Line {
    name: "question before strict conversion",
    memcpy: Work::copy_points,
    rust: Work::rust_read,
    port: Work::port_ask_old,
    ..REWRITE
};

const TO_OLD: Line = Line {
    name: "strict conversion",
    memcpy: Work::copy_points,
    rust: Work::rust_to_old,
    port: Work::port_to_old,
    ..REWRITE
};

/// What a loop in Rust for these two formats takes.
const TO_OLD_BY_HAND: Line = Line {
    name: "the same, in Rust bytes moved by hand",
    rust: Work::hand_to_old,
    ..TO_OLD
};

const TO_NEW: Line = Line {
    name: "upgrade",
    code: 1,
    rust: Work::rust_to_new,
    port: Work::port_to_new,
    ..TO_OLD
};

const TO_NEW_BY_HAND: Line = Line {
    name: "the same, in Rust bytes moved by hand",
    rust: Work::hand_to_new,
    ..TO_NEW
};

/// Its times are those of a call, whatever the file has of points.
const CHECK: Line = Line {
    name: "file check",
    memcpy: Work::copy_heads,
    rust: Work::rust_check,
    port: Work::port_check,
    ..READ
};

const LINES: [Line; 13] = [
    READ,
    WRITE,
    WALK,
    SUMS,
    COLUMNS,
    SHEET,
    REWRITE,
    QUESTION,
    TO_OLD,
    TO_OLD_BY_HAND,
    TO_NEW,
    TO_NEW_BY_HAND,
    CHECK,
];

/// Which of them are timed at several sizes, and at which.
const GROWING: [Line; 5] = [WALK, SHEET, REWRITE, TO_OLD, CHECK];
const SIZES: [usize; 5] = [1_000, 10_000, 100_000, 1_000_000, 10_000_000];

/// How many rounds a large file, or a class that is set, is timed for.
const LARGE_ROUNDS: usize = 401;

/// How many rounds an append is timed for.
const APPEND_ROUNDS: usize = 2_001;

impl Line {
    /// What is timed once, and so what its time is divided by.
    fn units(&self, records: usize) -> usize {
        if self.name == CHECK.name {
            CHECKS
        } else {
            records
        }
    }

    /// Times memcpy, the Rust and the port, in this order, after a check that what is timed is right.
    fn time(&self, work: &mut Work, records: usize) -> [Times; 3] {
        (self.rust)(work);
        (self.port)(work);
        work.check_made();
        let passes = [self.memcpy, self.rust, self.port];
        let mut times = passes.map(|_| Times(Vec::new()));
        for _ in 0..rounds(records) {
            for (pass, times) in passes.iter().zip(&mut times) {
                times.0.push(timed(self.units(records), || pass(work)));
            }
        }
        times
    }
}

/// A row for each line: medians, and their ratios; then the ratios of the shortest times.
fn compare() {
    println!(
        "| | format | records | bytes | port | Rust | port/Rust | memcpy | port/memcpy | shortest: port/Rust | port/memcpy |"
    );
    println!("|---|---|---|---|---|---|---|---|---|---|---|");
    for line in LINES {
        let Line {
            name,
            code,
            records,
            ..
        } = line;
        let mut work = Work::new(code, records);
        work.check_numbers();
        let mut times = line.time(&mut work, records);
        let [memcpy, rust, port] = times.each_mut().map(Times::median);
        let [least_memcpy, least_rust, least_port] = times.each_ref().map(Times::shortest);
        println!(
            "| {name} | {code} | {records} | {} | {port:.2} | {rust:.2} | {:.2} | {memcpy:.2} | {:.1} | {:.2} | {:.1} |",
            work.record_bytes(),
            port / rust,
            port / memcpy,
            least_port / least_rust,
            least_port / least_memcpy,
        );
    }
}

/// A row for each line that grows: the medians at each size, the port's and behind it the Rust's.
fn grow() {
    print!("| points |");
    for records in SIZES {
        print!(" {records} |");
    }
    println!("\n|---|{}", "---|".repeat(SIZES.len()));
    for line in GROWING {
        print!("| {} |", line.name);
        for records in SIZES {
            let mut work = Work::new(line.code, records);
            let [_, rust, port] = line.time(&mut work, records).each_mut().map(Times::median);
            print!(" {port:.1} ({rust:.1}) |");
        }
        println!();
    }
}

/// A row for each way that a whole file goes and each size: what the call takes, what converting the points alone takes, what the
/// Rust takes, and memcpy; medians.
fn convert_whole() {
    println!(
        "| whole file | points | port | its points alone | port/points alone | Rust | port/Rust | memcpy | port/memcpy | shortest: port/points alone |"
    );
    println!("|---|---|---|---|---|---|---|---|---|---|");
    for way in whole::WAYS {
        for count in SIZES {
            let mut work = whole::Work::new(way, count);
            let passes = [
                whole::Work::whole,
                whole::Work::points,
                whole::Work::rust,
                whole::Work::copy,
            ];
            for pass in passes {
                pass(&mut work);
            }
            work.check_made();
            let mut times = passes.map(|_| Times(Vec::new()));
            for _ in 0..rounds(count) {
                for (pass, times) in passes.iter().zip(&mut times) {
                    times.0.push(timed(count, || pass(&mut work)));
                }
            }
            let [port, points, rust, memcpy] = times.each_mut().map(Times::median);
            let [least_port, least_points, ..] = times.each_ref().map(Times::shortest);
            println!(
                "| {} | {count} | {port:.2} | {points:.2} | {:.2} | {rust:.2} | {:.2} | {memcpy:.2} | {:.1} | {:.2} |",
                way.name,
                port / points,
                port / rust,
                port / memcpy,
                least_port / least_points,
            );
        }
    }
}

/// A row for each large file: the shortest times of the check and of memcpy of what it looks at, and how many pages of the
/// file the check was the first to touch.
fn check_large() {
    println!(
        "| 1 GiB | points | VLRs | EVLRs | file check | a VLR or EVLR | memcpy of header and heads | pages |"
    );
    println!("|---|---|---|---|---|---|---|---|");
    for large in large::FILES {
        let mut work = large.make();
        let pages = work.pages();
        let records = work.records();
        // As much work in a round as in one of the first table.
        let calls = (6 * CHECKS / records).max(1);
        let [mut memcpy, mut check] = [Times(Vec::new()), Times(Vec::new())];
        for _ in 0..LARGE_ROUNDS {
            let copied = timed(calls, || (0..calls).for_each(|_| work.copy_heads()));
            memcpy.0.push(copied);
            let checked = timed(calls, || (0..calls).for_each(|_| work.check()));
            check.0.push(checked);
        }
        let [memcpy, check] = [memcpy, check].map(|times| times.shortest());
        println!(
            "| {} | {} | {} | {} | {check:.1} | {:.1} | {memcpy:.1} | {pages} |",
            large.name,
            work.plan.count,
            work.plan.vlrs,
            work.plan.evlrs,
            check / records as f64,
        );
    }
}

/// A row for each file that records are added to: medians in microseconds, and what was written and touched.
fn append() {
    println!(
        "| points | file bytes | append | file check | judgement | stores | already in | memcpy | sectors stored | their bytes | pages: judgement | stores | of the records' place |"
    );
    println!("|---|---|---|---|---|---|---|---|---|---|---|---|---|");
    for count in append::SIZES {
        let mut work = append::Work::new(count);
        let pages = work.pages();
        let sweep = work.begin();
        let [sectors, bytes] = work.stores(&sweep);
        work.check_made();
        let mut times = [(); 6].map(|()| Times(Vec::new()));
        for _ in 0..APPEND_ROUNDS {
            let [append, check, judgement, stores, already_in, memcpy] = &mut times;
            append.0.push(timed(1, || work.append(0)));
            already_in.0.push(timed(1, || work.append(1)));
            work.restore();
            let checks = || (0..CHECKS).for_each(|_| work.check());
            check.0.push(timed(CHECKS, checks));
            judgement.0.push(timed(1, || {
                black_box(work.begin());
            }));
            stores.0.push(timed(1, || {
                black_box(work.stores(&sweep));
            }));
            memcpy.0.push(timed(1, || work.copy()));
            work.restore();
        }
        let [append, check, judgement, stores, already_in, memcpy] =
            times.each_mut().map(|times| times.median() / 1_000.0);
        println!(
            "| {count} | {} | {append:.1} | {check:.3} | {judgement:.1} | {stores:.1} | {already_in:.1} | {memcpy:.1} | {sectors} | {bytes} | {} | {} | {} |",
            work.bytes(),
            pages[0],
            pages[1],
            pages[2],
        );
    }
}

/// A row for each file of which a point gets another class: medians in nanoseconds, and the pages that were touched.
fn reclassify() {
    println!(
        "| points | file bytes | class of the first point | of the last | question | file check | pages: question | write |"
    );
    println!("|---|---|---|---|---|---|---|---|");
    for count in reclassify::SIZES {
        let mut work = reclassify::Work::new(count);
        let pages = work.pages();
        let passes = [
            reclassify::Work::set_first,
            reclassify::Work::set_last,
            reclassify::Work::ask_last,
            reclassify::Work::check,
        ];
        let mut times = passes.map(|_| Times(Vec::new()));
        for _ in 0..LARGE_ROUNDS {
            for (pass, times) in passes.iter().zip(&mut times) {
                times.0.push(timed(CHECKS, || pass(&mut work)));
            }
        }
        let [first, last, question, check] = times.each_mut().map(Times::median);
        println!(
            "| {count} | {} | {first:.1} | {last:.1} | {question:.1} | {check:.1} | {} | {} |",
            work.bytes(),
            pages[0],
            pages[1],
        );
    }
}

fn main() {
    println!("Nanoseconds a record, of the file check nanoseconds a call; medians.\n");
    compare();
    println!(
        "\nThe same by the number of points in the file or run: the port's, and the Rust's in brackets.\n"
    );
    grow();
    println!("\nWhole files beside their points alone: nanoseconds a record, medians.\n");
    convert_whole();
    println!("\nThe file check of files of 1 GiB: nanoseconds a call; shortest times.\n");
    check_large();
    println!(
        "\nAn append of {} records: microseconds a call, medians; and the pages of the file that were touched for the first time.\n",
        append::RECORDS
    );
    append();
    println!(
        "\nThe class of one point set: nanoseconds a call, medians; and the pages of the file that were touched for the first time.\n"
    );
    reclassify();
}
