//! The plain conversion: a record read in one format and written in the other of its pair, by the port
//! and by the Rust; and where strict conversion and upgrade, of documents 01 and 02, part from it.

use crate::{
    answer::Answer,
    capi,
    convert::{Shape, Way, fit, nth_down, nth_shape, set_angle, set_nir, with_flags},
    convert_model::{DOWN, FLAGS, to_new, to_old},
    point::{self, Writing},
    records::Lcg,
    report::{Report, Tally, stretches},
};
use std::{fs, io, path::Path};

/// What a destination holds before a call.
const BEFORE_BYTE: u8 = 0xa5;

/// Destinations that are used again and again.
#[derive(Default)]
struct Scratch {
    rust: Vec<u8>,
    port: Vec<u8>,
    strict: Vec<u8>,
}

/// The format word of the other format of a shape's pair.
pub(crate) fn target(shape: Shape) -> u32 {
    let format = match (shape.way, shape.format) {
        (Way::Down, format) => DOWN[usize::from(format - 6)].1,
        (Way::Up, 1) => 6,
        (Way::Up, 3) => 7,
        (Way::Up, 4) => 9,
        (Way::Up, _) => 10,
    };
    Shape::word(format, shape.extra)
}

impl Scratch {
    /// The Rust's answer to the record written in the other format. What it wrote is in `rust`.
    fn by_rust(&mut self, shape: Shape, record: &[u8]) -> Answer {
        let point = match point::rust_read(Shape::word(shape.format, shape.extra), record) {
            Ok(point) => point,
            Err(refusal) => panic!("the Rust does not read a whole record: {refusal}"),
        };
        let writing = Writing {
            word: target(shape),
            point: &point,
            numbers: &[0; 24],
            room: shape.lengths()[1],
        };
        writing.rust(&mut self.rust)
    }

    /// The port's, in `port`.
    fn by_port(&mut self, shape: Shape, record: &[u8]) -> Answer {
        let word = Shape::word(shape.format, shape.extra);
        self.port.clear();
        self.port.resize(shape.lengths()[1], BEFORE_BYTE);
        let mut numbers = [0; 24];
        let read = capi::row(|row| capi::las_point_read(record, word, row, &mut numbers));
        let [at, len] = capi::span(|part| capi::las_point_extra(record, word, part));
        let extra = at.checked_add(len);
        let extra = extra.and_then(|end| record.get(at as usize..end as usize));
        match (read.number, extra) {
            (0, Some(extra)) => capi::row(|row| {
                capi::las_point_write(&numbers, extra, target(shape), &mut self.port, row)
            }),
            _ => read,
        }
    }

    /// The rules' for strict conversion or upgrade, in `strict`.
    fn strictly(&mut self, shape: Shape, record: &[u8]) -> Answer {
        let Shape { way, format, extra } = shape;
        self.strict.clear();
        self.strict.resize(shape.lengths()[1], BEFORE_BYTE);
        match way {
            Way::Down => to_old(record, format, extra, 1, &mut self.strict),
            Way::Up => to_new(record, format, extra, 1, &mut self.strict),
        }
    }

    /// Whether strict and plain part only as the documents let them: down, where plain goes on after a
    /// refusal with 19 to 21; up, in the flags.
    fn part_as_stated(&self, shape: Shape, strict: Answer, plain: Answer) -> bool {
        let apart_from_flags = |record: &[u8]| {
            let (head, rest) = record.split_at(FLAGS);
            [head, &rest[3..]].concat()
        };
        match (shape.way, strict.number) {
            (Way::Up, _) => {
                strict == plain && apart_from_flags(&self.strict) == apart_from_flags(&self.rust)
            }
            (Way::Down, 0) => strict == plain && self.strict == self.rust,
            (Way::Down, 15..=18) => strict == Answer { record: 1, ..plain },
            (Way::Down, _) => plain.number == 0,
        }
    }

    /// Strict and plain on one record, and whether they are the same.
    fn both(&mut self, shape: Shape, record: &[u8]) -> ([Answer; 2], bool) {
        let both = [self.strictly(shape, record), self.by_rust(shape, record)];
        let same = both[0].number == both[1].number && self.strict == self.rust;
        (both, same)
    }

    /// Both answers in words. Of what was written the flags are shown, which have `width` bytes.
    fn in_words(&self, both: [Answer; 2], width: usize) -> [String; 2] {
        let word = |answer: Answer, written: &[u8]| match answer.number {
            0 => hex(&written[FLAGS..][..width]),
            number => format!("refused, {number} with {}", thousands(answer.value)),
        };
        [word(both[0], &self.strict), word(both[1], &self.rust)]
    }

    fn compare(&mut self, [plainly, parting]: &mut [Report; 2], shape: Shape, record: &[u8]) {
        let (rust, port) = (self.by_rust(shape, record), self.by_port(shape, record));
        let strict = self.strictly(shape, record);
        let shown = || format!("{shape:?}, {:02x?}", &record[..record.len().min(100)]);
        plainly.check(rust == port && self.rust == self.port, || {
            let Scratch {
                rust: of_rust,
                port: of_port,
                ..
            } = self;
            format!(
                "{}: Rust {rust} {of_rust:02x?}, port {port} {of_port:02x?}",
                shown()
            )
        });
        let stated = self.part_as_stated(shape, strict, rust);
        parting.check(stated, || {
            format!("{}: strictly {strict}, plainly {rust}", shown())
        });
    }
}

fn reports() -> [Report; 2] {
    ["plain conversion", "strict against plain conversion"].map(Report::new)
}

/// Compares on `size` inputs, each of which may be several records.
fn over(
    size: u64,
    part: impl Fn(&mut Vec<u8>, u64, &mut dyn FnMut(Shape, &[u8])) + Sync,
) -> [Report; 2] {
    let both = stretches(size, |stretch| {
        let (mut both, mut scratch, mut record) = (reports(), Scratch::default(), Vec::new());
        for i in stretch {
            part(&mut record, i, &mut |shape, record| {
                scratch.compare(&mut both, shape, record)
            });
        }
        both
    });
    both.into_iter().fold(reports(), and)
}

fn and([a, b]: [Report; 2], [c, d]: [Report; 2]) -> [Report; 2] {
    [a.and(c), b.and(d)]
}

/// The inputs of the strict conversion, one record each: all flags and all angles for each pair down,
/// all two-byte flags for each pair up, and records at random.
fn compare_records() -> [Report; 2] {
    let flags = over(5 << 16, |record, i, each| {
        let shape = nth_down((i / 5 % 3) as u16, i);
        with_flags(shape, i / 5, record, |record| each(shape, record));
    });
    let angles = over(5 << 16, |record, i, each| {
        let shape = nth_down(0, i);
        record.resize(shape.lengths()[0], 0);
        shape.fill(i, record);
        fit(record, shape.format, &mut Lcg::new(i));
        set_angle(record, (i / 5) as i16);
        each(shape, record);
    });
    let upgrades = over(4 << 16, |record, i, each| {
        let shape = nth_shape((i / 4 % 3) as u16, 5 + i % 4);
        record.resize(shape.lengths()[0], 0);
        shape.fill(i, record);
        record[FLAGS..][..2].copy_from_slice(&((i / 4) as u16).to_le_bytes());
        each(shape, record);
    });
    let random = over(9 * 4 * 20_000, |record, i, each| {
        let shape = nth_shape([0, 1, 2, 255][(i / 9 % 4) as usize], i);
        record.resize(shape.lengths()[0], 0);
        shape.fill(i, record);
        if shape.way == Way::Down && i / 36 % 4 != 0 {
            fit(record, shape.format, &mut Lcg::new(i));
        }
        each(shape, record);
    });
    [angles, upgrades, random].into_iter().fold(flags, and)
}

/// A line of the table: inputs on which strict and plain answer in one way.
struct Line {
    inputs: &'static str,
    /// How many, of how many; the smallest, and both answers to it.
    count: u64,
    of: &'static str,
    smallest: Option<String>,
    strict: String,
    plain: String,
    remark: &'static str,
}

impl Line {
    fn new(inputs: &'static str, of: &'static str, remark: &'static str) -> Line {
        Line {
            inputs,
            count: 0,
            of,
            smallest: None,
            strict: String::new(),
            plain: String::new(),
            remark,
        }
    }

    /// Counts an input; the first is the smallest.
    fn count(&mut self, told: impl FnOnce() -> [String; 3]) {
        self.count += 1;
        if self.smallest.is_none() {
            let [input, strict, plain] = told();
            (self.smallest, self.strict, self.plain) = (Some(input), strict, plain);
        }
    }

    fn markdown(&self) -> String {
        let count = thousands(self.count);
        let Line {
            inputs,
            of,
            smallest,
            strict,
            plain,
            remark,
            ..
        } = self;
        let smallest = smallest.as_deref().unwrap_or("none");
        format!("| {inputs} | {count} {of} | {smallest} | {strict} | {plain}{remark} |\n")
    }
}

/// A number with commas between its thousands.
fn thousands(n: u64) -> String {
    match n {
        0..1_000 => n.to_string(),
        _ => format!("{},{:03}", thousands(n / 1_000), n % 1_000),
    }
}

fn signed(n: i16) -> String {
    let sign = if n < 0 { "-" } else { "" };
    format!("{sign}{}", thousands(n.unsigned_abs().into()))
}

fn hex(bytes: &[u8]) -> String {
    let shown: Vec<_> = bytes.iter().map(|byte| format!("0x{byte:02X}")).collect();
    format!("({})", shown.join(", "))
}

/// The table of where strict and plain part, worked from the rules and the Rust on a record of zeros
/// in format 10, and in format 5 for the upgrade, with other flags, near infrared or angle.
fn table() -> String {
    let down = nth_down(0, 4);
    let mut scratch = Scratch::default();
    const OF_FLAGS: &str = "of 2^24 flags";
    let mut quarry = Line::new(
        "ground with overlap, the quarry's case",
        OF_FLAGS,
        ": class 12",
    );
    let mut overlap = Line::new(
        "overlap set, class 0 to 31 but not 12",
        OF_FLAGS,
        ": class 12",
    );
    let mut class_12 = Line::new(
        "overlap clear, class 12",
        OF_FLAGS,
        ": reads back as overlap",
    );
    let mut class_28 = Line::new(
        "overlap clear, class 28",
        OF_FLAGS,
        ": the Rust reads it as overlap",
    );
    let mut refused = [
        "return number above 7",
        "number of returns above 7",
        "class above 31",
        "channel above 0",
    ]
    .map(|inputs| Line::new(inputs, OF_FLAGS, ""));
    let mut same_flags = Line::new("all other flags", OF_FLAGS, "");
    let mut record = vec![0; down.lengths()[0]];
    for k in 0..1u32 << 24 {
        let [a, b, c, _] = k.to_le_bytes();
        record[FLAGS..][..3].copy_from_slice(&[a, b, c]);
        let (both, same) = scratch.both(down, &record);
        let line = match both[0].number {
            0 if same => &mut same_flags,
            19 if b & 8 != 0 => &mut overlap,
            19 if c == 12 => &mut class_12,
            19 => &mut class_28,
            number @ 15..=18 if same => &mut refused[number as usize - 15],
            _ => panic!("{a} {b} {c}: strictly {}, plainly {}", both[0], both[1]),
        };
        let told = || {
            let [strictly, plainly] = scratch.in_words(both, 2);
            [hex(&[a, b, c]), strictly, plainly]
        };
        if [a, b, c] == [0x21, 0x48, 2] {
            quarry.count(told);
        }
        line.count(told);
    }
    record[FLAGS..][..3].fill(0);

    let mut nir = Line::new("NIR not 0", "of 2^16 NIR", ": NIR dropped");
    for value in 1..=u16::MAX {
        set_nir(&mut record, down.format, value);
        let (both, same) = scratch.both(down, &record);
        if !same {
            let [strictly, plainly] = scratch.in_words(both, 2);
            nir.count(|| [format!("NIR {value}"), strictly, plainly]);
        }
    }
    set_nir(&mut record, down.format, 0);

    const OF_ANGLES: &str = "of 2^16 angles";
    let mut above = Line::new("rank above 90", OF_ANGLES, ": up to 127, where it is held");
    let mut below = Line::new(
        "rank below -90",
        OF_ANGLES,
        ": down to -128, where it is held",
    );
    for n in (0..=i16::MAX).chain((i16::MIN..0).rev()) {
        set_angle(&mut record, n);
        let (both, same) = scratch.both(down, &record);
        if !same {
            let line = if n > 0 { &mut above } else { &mut below };
            let [strictly, _] = scratch.in_words(both, 2);
            let plain = scratch.rust[FLAGS + 2] as i8;
            line.count(|| {
                [
                    format!("angle {}", signed(n)),
                    strictly,
                    format!("rank {plain}"),
                ]
            });
        }
    }

    let up = nth_shape(0, 8);
    let mut upgraded = Line::new(
        "upgrade: direction, edge, synthetic, key point or withheld set, or class 12",
        "of 2^16 flags",
        ": direction and edge lost, byte two whole as the class",
    );
    let mut same_up = Line::new("upgrade: all other old flags", "of 2^16 flags", "");
    let mut record = vec![0; up.lengths()[0]];
    for k in 0..=u16::MAX {
        let [a, b] = k.to_le_bytes();
        record[FLAGS..][..2].copy_from_slice(&[a, b]);
        let (both, same) = scratch.both(up, &record);
        let line = if same { &mut same_up } else { &mut upgraded };
        let [strictly, plainly] = scratch.in_words(both, 3);
        line.count(|| [hex(&[a, b]), strictly, plainly]);
    }

    let [number, returns, class, channel] = refused;
    let lines = [
        quarry, overlap, class_12, class_28, nir, above, below, number, returns, class, channel,
        same_flags, upgraded, same_up,
    ];
    let head = "| records | how many | smallest | strict | plain |\n|---|---|---|---|---|\n";
    lines
        .iter()
        .fold(head.into(), |table, line| table + &line.markdown())
}

/// Compares the plain conversion, prints the table, and sees that `document` has it.
pub fn compare(tally: &mut Tally, document: &Path) -> io::Result<()> {
    let [plainly, parting] = compare_records();
    tally.add(plainly);
    tally.aside(parting);
    let table = table();
    print!("{table}");
    let mut report = Report::new("table of strict and plain");
    let stands = fs::read_to_string(document)?.contains(&table);
    report.check(stands, || format!("not in {}", document.display()));
    tally.aside(report);
    Ok(())
}
