//! Extra bytes by name: by the port and by document 02's rules as `attribute_model` has them; and the values, held
//! against the extra bytes that the Rust reads of each point.

use crate::{
    answer::Answer,
    attribute_files::{
        FAR, Made, is_such, made_up, one_told, points, put_far, some_byte, some_place, some_stretch,
    },
    attribute_model::{self as model, DESCRIPTOR, RECORD, Stretch, USER},
    attribute_wrong::{ERRORS, StandIn},
    capi::{
        self, AttributeNumbers as Attribute, AttributesPlace as Place,
        DescriptorNumbers as Descriptor, Row, Span,
    },
    file_model::{Found, POINT_BYTES},
    files::Patch,
    migrate::plain,
    records::Lcg,
    report::{self, Report, Tally, stretches},
    sparse::Sparse,
};
use las::{point::Format, raw::Point};

/// The calls on attributes. The port has them, and so have the stand-ins that test the comparison itself.
pub trait Library: Sync {
    fn attributes(&self, file: &[u8], allowance: u64, place: &mut Place, row: &mut Row);
    fn next(
        &self,
        file: &[u8],
        place: &mut Place,
        attribute: &mut Attribute,
        span: &mut Span,
    ) -> u8;
    fn find(
        &self,
        file: &[u8],
        allowance: u64,
        name: &[u8],
        attribute: &mut Attribute,
        row: &mut Row,
    );
    fn value(&self, file: &[u8], attribute: &Attribute, point: u64, span: &mut Span, row: &mut Row);
    fn column(
        &self,
        file: &[u8],
        attribute: &Attribute,
        stretch: (u64, u64),
        dst: &mut [u64],
        row: &mut Row,
    );
    fn vlr_first(
        &self,
        file: &[u8],
        allowance: u64,
        vlr: (&[u8], u16),
        span: &mut Span,
        row: &mut Row,
    );
    fn read(&self, bytes: &[u8], row: &mut Row, descriptor: &mut Descriptor);
    fn write(&self, descriptor: &Descriptor, dst: &mut [u8], row: &mut Row);
    fn size(&self, data_type: u8, options: u8) -> u64;
}

struct Port;

impl Library for Port {
    fn attributes(&self, file: &[u8], allowance: u64, place: &mut Place, row: &mut Row) {
        capi::las_attributes(file, allowance, place, row)
    }

    fn next(
        &self,
        file: &[u8],
        place: &mut Place,
        attribute: &mut Attribute,
        span: &mut Span,
    ) -> u8 {
        capi::las_attributes_next(file, place, attribute, span)
    }

    fn find(
        &self,
        file: &[u8],
        allowance: u64,
        name: &[u8],
        attribute: &mut Attribute,
        row: &mut Row,
    ) {
        capi::las_attribute_find(file, allowance, name, attribute, row)
    }

    fn value(
        &self,
        file: &[u8],
        attribute: &Attribute,
        point: u64,
        span: &mut Span,
        row: &mut Row,
    ) {
        capi::las_attribute_value(file, attribute, point, span, row)
    }

    fn column(
        &self,
        file: &[u8],
        attribute: &Attribute,
        stretch: (u64, u64),
        dst: &mut [u64],
        row: &mut Row,
    ) {
        capi::las_attribute_column(file, attribute, stretch, dst, row)
    }

    fn vlr_first(
        &self,
        file: &[u8],
        allowance: u64,
        vlr: (&[u8], u16),
        span: &mut Span,
        row: &mut Row,
    ) {
        let (user, record) = vlr;
        capi::las_vlr_first(file, allowance, user, record, span, row)
    }

    fn read(&self, bytes: &[u8], row: &mut Row, descriptor: &mut Descriptor) {
        capi::las_descriptor_read(bytes, row, descriptor)
    }

    fn write(&self, descriptor: &Descriptor, dst: &mut [u8], row: &mut Row) {
        capi::las_descriptor_write(descriptor, dst, row)
    }

    fn size(&self, data_type: u8, options: u8) -> u64 {
        capi::las_descriptor_size(data_type, options)
    }
}

/// What lent memory holds before a call, so that what is written where nothing may be shows.
const BEFORE: u64 = 0xa5a5_a5a5_a5a5_a5a5;
const BEFORE_BYTE: u8 = 0xa5;
const BLANK: Descriptor = Descriptor {
    numbers: [BEFORE; 9],
    name: [BEFORE_BYTE; 32],
    deprecated: [BEFORE_BYTE; 80],
    description: [BEFORE_BYTE; 32],
};

/// How many entries or bytes there are past a room.
const SPARE: usize = 3;

/// How many files are made.
#[derive(Clone, Copy)]
struct Lot {
    /// Files of every version and format, each asked everything.
    whole: u64,
    /// Files with hundreds of descriptors and records as long as their field allows.
    long: u64,
    /// Files, each with every number of the file check at its boundaries, with so much other damage, and shown
    /// attributes and places that no call gives so often.
    damaged: u64,
    random: u64,
    made_up: u64,
    /// Of the pairs of a type and options each so many-th, made so often.
    step: u64,
    times: u64,
}

const FULL: Lot = Lot {
    whole: 100_000,
    long: 1_000,
    damaged: 8_000,
    random: 200,
    made_up: 200,
    step: 1,
    times: 8,
};

/// Few enough for each stand-in to take a blink.
const FEW: Lot = Lot {
    whole: 400,
    long: 16,
    damaged: 25,
    step: 23,
    times: 2,
    ..FULL
};

/// Every number that the calls can answer with.
const NUMBERS: [usize; 23] = [
    0, 1, 2, 3, 4, 5, 6, 7, 8, 9, 10, 11, 12, 13, 14, 22, 27, 35, 37, 38, 39, 40, 41,
];

/// How often each must have been answered, or else the run has not tested it.
const OFTEN: u64 = 2_000;

/// What is counted.
const COUNTED: [&str; 12] = [
    "files",
    "files with attributes",
    "files that tell of no attribute",
    "files whose sizes add up to all their extra bytes",
    "files with such a VLR behind the first",
    "files with such a record after the points only",
    "attributes",
    "attributes of a name that another has",
    "attributes found",
    "values",
    "values of more than eight bytes",
    "values that the Rust reads",
];
const FILES: usize = 0;
const WITH: usize = 1;
const NONE: usize = 2;
const ALL: usize = 3;
const SECOND: usize = 4;
const LATER: usize = 5;
const ATTRIBUTES: usize = 6;
const EQUAL: usize = 7;
const FOUND: usize = 8;
const VALUES: usize = 9;
const WIDE: usize = 10;
const BY_RUST: usize = 11;

/// What comparing the calls came to.
type Outcome = report::Outcome<12, 12>;

/// The calls, and the places of their reports.
const CALLS: [&str; 12] = [
    "las_attributes",
    "las_attributes_next",
    "las_attribute_find",
    "las_attribute_value",
    "las_attribute_column",
    "las_vlr_first",
    "las_descriptor_read",
    "las_descriptor_write",
    "las_descriptor_size",
    "attributes as las_attribute_find",
    "values as the Rust's extra bytes",
    "files that the calls leave",
];
const BEGIN: usize = 0;
const NEXT: usize = 1;
const FIND: usize = 2;
const VALUE: usize = 3;
const COLUMN: usize = 4;
const FIRST: usize = 5;
const READ: usize = 6;
const WRITE: usize = 7;
const SIZE: usize = 8;
const SAME: usize = 9;
const RUST: usize = 10;
const LEFT: usize = 11;

/// What a result is, with what is lent: it is filled where the call is answered and stays where it is refused.
fn lent<T>(result: Result<(u64, T), Answer>, before: T) -> (Answer, T) {
    match result {
        Ok((value, told)) => (Answer::result(value), told),
        Err(refusal) => (refusal, before),
    }
}

/// Compares a library with the rules on one input after another. Everything is used again.
struct Comparison<'a, L> {
    port: &'a L,
    outcome: Outcome,
    found: Found,
    /// The file that is asked about, and what the library is shown of it and has to leave.
    file: Vec<u8>,
    shown: Vec<u8>,
    entries: Vec<u64>,
    held: Vec<u64>,
}

impl<'a, L: Library> Comparison<'a, L> {
    fn new(port: &'a L) -> Comparison<'a, L> {
        Comparison {
            port,
            outcome: Outcome::new(CALLS),
            found: Found::default(),
            file: Vec::new(),
            shown: Vec::new(),
            entries: Vec::new(),
            held: Vec::new(),
        }
    }

    /// Takes up a file, of which is asked from then on.
    fn take(&mut self, file: &[u8]) {
        for copy in [&mut self.file, &mut self.shown] {
            copy.clear();
            copy.extend_from_slice(file);
        }
        self.outcome.counted.counts[FILES] += 1;
    }

    /// What was taken up is as it was.
    fn leave(&mut self, told: &dyn Fn() -> String) {
        let kept = self.file == self.shown;
        self.outcome.reports[LEFT].check(kept, told);
    }

    fn check<T: PartialEq + std::fmt::Debug>(
        &mut self,
        call: usize,
        rules: T,
        port: T,
        asked: impl FnOnce() -> String,
    ) {
        self.outcome.reports[call].check(rules == port, || {
            let size = self.file.len();
            format!("{}, {size} bytes: {rules:?}, port {port:?}", asked())
        });
    }

    /// The attributes of the file, one after the other, and twice none behind the last: row, place, attribute and
    /// span of each. All attributes, by the rules.
    fn attributes(&mut self, allowance: u64, told: &dyn Fn() -> String) -> Vec<(Attribute, Span)> {
        let rules = model::attributes(&mut self.found, &self.file, allowance);
        let every = model::every(&mut self.found, &self.file, allowance);
        let (answer, mut place) = lent(rules, [BEFORE; 5]);
        let mut by_port = [BEFORE; 5];
        let row = capi::row(|row| {
            self.port
                .attributes(&self.shown, allowance, &mut by_port, row)
        });
        self.outcome.counted.answered(answer.number);
        self.check(BEGIN, (answer, place), (row, by_port), || {
            format!("{}, allowance {allowance}", told())
        });
        if answer.number != 0 {
            return every;
        }
        assert!(answer.value == every.len() as u64, "the rules are at odds");
        for told_of in &every {
            let stepped = self.next(place, told);
            let Some((attribute, span, after)) = stepped else {
                panic!("the rules are at odds");
            };
            assert!((attribute, span) == *told_of, "the rules are at odds");
            place = after;
        }
        for _ in 0..2 {
            assert!(self.next(place, told).is_none(), "the rules are at odds");
        }
        every
    }

    /// One attribute from a place on: what the rules tell of it.
    fn next(
        &mut self,
        place: Place,
        told: &dyn Fn() -> String,
    ) -> Option<(Attribute, Span, Place)> {
        let rules = model::next(&self.file, place);
        let (mut attribute, mut span, mut after) = ([BEFORE; 5], [BEFORE; 2], place);
        let there = self
            .port
            .next(&self.shown, &mut after, &mut attribute, &mut span);
        let stays = ([BEFORE; 5], [BEFORE; 2], place);
        let expected = (u8::from(rules.is_some()), rules.unwrap_or(stays));
        self.check(NEXT, expected, (there, (attribute, span, after)), || {
            format!("{}, place {place:?}", told())
        });
        rules
    }

    /// The attribute of a name, if there is one.
    fn find(
        &mut self,
        allowance: u64,
        name: &[u8],
        told: &dyn Fn() -> String,
    ) -> Option<Attribute> {
        let rules = model::find(&mut self.found, &self.file, allowance, name);
        let expected = lent(rules.map(|attribute| (0, attribute)), [BEFORE; 5]);
        let mut attribute = [BEFORE; 5];
        let row = capi::row(|row| {
            self.port
                .find(&self.shown, allowance, name, &mut attribute, row)
        });
        self.outcome.counted.answered(expected.0.number);
        self.outcome.counted.counts[FOUND] += u64::from(rules.is_ok());
        self.check(FIND, expected, (row, attribute), || {
            format!("{}, allowance {allowance}, name {name:?}", told())
        });
        rules.ok()
    }

    /// The value of a point: the row, and where it is.
    fn value(&mut self, attribute: Attribute, point: u64, told: &dyn Fn() -> String) {
        let rules = lent(model::value(&self.file, attribute, point), [BEFORE; 2]);
        let mut span = [BEFORE; 2];
        let row = capi::row(|row| {
            self.port
                .value(&self.shown, &attribute, point, &mut span, row)
        });
        self.outcome.counted.answered(rules.0.number);
        let there = rules.0.number == 0;
        let counts = &mut self.outcome.counted.counts;
        counts[VALUES] += u64::from(there);
        counts[WIDE] += u64::from(there && rules.1[1] > 8);
        self.check(VALUE, rules, (row, span), || {
            format!("{}, {attribute:?}, point {point}", told())
        });
    }

    /// The values of a stretch: the row, every entry, and what is past them.
    fn column(&mut self, attribute: Attribute, stretch: Stretch, told: &dyn Fn() -> String) {
        let Stretch { first, count, room } = stretch;
        let rules = model::column(&self.file, attribute, stretch, &mut self.entries);
        self.held.clear();
        self.held.resize(room + SPARE, BEFORE);
        let dst = &mut self.held[..room];
        let row = capi::row(|row| {
            self.port
                .column(&self.shown, &attribute, (first, count), dst, row)
        });
        self.outcome.counted.answered(rules.number);
        let filled = self.entries.len();
        let same = rules == row
            && self.held[..filled] == self.entries
            && self.held[filled..].iter().all(|&entry| entry == BEFORE);
        self.outcome.reports[COLUMN].check(same, || {
            let (size, at) = (self.file.len(), self.entries.iter().zip(&self.held));
            let at = at.clone().position(|(a, b)| a != b);
            format!(
                "{}, {size} bytes, {attribute:?}, {stretch:?}: {rules}, port {row}, first differing entry {at:?}",
                told()
            )
        });
    }

    /// The first VLR of a user id and a record id.
    fn vlr_first(&mut self, allowance: u64, user: &[u8], record: u16, told: &dyn Fn() -> String) {
        let first = model::vlr_first(&mut self.found, &self.file, allowance, user, record);
        let rules = first.map(|first| match first {
            Some(span) => (1, span),
            None => (0, [BEFORE; 2]),
        });
        let rules = lent(rules, [BEFORE; 2]);
        let mut span = [BEFORE; 2];
        let row = capi::row(|row| {
            self.port
                .vlr_first(&self.shown, allowance, (user, record), &mut span, row)
        });
        self.outcome.counted.answered(rules.0.number);
        self.check(FIRST, rules, (row, span), || {
            format!(
                "{}, allowance {allowance}, user {user:?}, record {record}",
                told()
            )
        });
    }

    /// A second reading of an accepted file, in other words: the extra bytes that the Rust reads of each point, cut
    /// one after the other by the descriptors' types, each number read as its own type.
    fn as_the_rust_reads(&mut self, attributes: &[(Attribute, Span)], told: &dyn Fn() -> String) {
        let format = format_of(&self.file);
        for k in 1..=self.found.points() {
            let [at, length] = self.found.point_span(k - 1).map(|n| n as usize);
            let record = &self.file[at..at + length];
            let point = Point::read_from(record, &format).expect("a whole record");
            let mut rest = &point.extra_bytes[..];
            for &(attribute, [descriptor, _]) in attributes {
                let [_, _, data_type, options] =
                    *self.file[descriptor as usize..].first_chunk().expect("192");
                let (number, behind) = typed(data_type, options, rest);
                let cut = &rest[..rest.len() - behind.len()];
                rest = behind;
                let (mut span, mut row) = ([BEFORE; 2], [BEFORE; 3]);
                self.port
                    .value(&self.shown, &attribute, k, &mut span, &mut row);
                let [start, length] = span.map(|n| n as usize);
                let same = row == [0, number, 0]
                    && self.shown.get(start..start.wrapping_add(length)) == Some(cut);
                self.outcome.reports[RUST].check(same, || {
                    format!("{}, {attribute:?}, point {k}: {row:?} {span:?}", told())
                });
                self.outcome.counted.counts[BY_RUST] += 1;
            }
        }
    }

    /// A descriptor read: the row, and what is told of it.
    fn read(&mut self, bytes: &[u8]) {
        let rules = model::read(bytes).map(|told| (DESCRIPTOR as u64, told));
        let rules = lent(rules, BLANK);
        let mut descriptor = BLANK;
        let row = capi::row(|row| self.port.read(bytes, row, &mut descriptor));
        self.outcome.counted.answered(rules.0.number);
        let same = rules == (row, descriptor.clone());
        self.outcome.reports[READ].check(same, || {
            let (size, front) = (bytes.len(), &bytes[..bytes.len().min(4)]);
            format!("{size} bytes, {front:?}: {rules:?}, port {row} {descriptor:?}")
        });
        if let (true, Some(front)) = (same && row.number == 0, bytes.get(..DESCRIPTOR)) {
            // What is read is written back as it was.
            let mut dst = [BEFORE_BYTE; DESCRIPTOR];
            let row = capi::row(|row| self.port.write(&descriptor, &mut dst, row));
            let same = row == Answer::result(DESCRIPTOR as u64) && dst == front;
            self.outcome.reports[WRITE].check(same, || format!("{front:?} comes back as {dst:?}"));
        }
    }

    /// A descriptor written: the row, and every byte of the destination and of what is past it.
    fn write(&mut self, descriptor: &Descriptor, room: usize) {
        let [mut dst, mut by_port] = [(); 2].map(|()| vec![BEFORE_BYTE; room + SPARE]);
        let rules = model::write(descriptor, &mut dst[..room]);
        let row = capi::row(|row| self.port.write(descriptor, &mut by_port[..room], row));
        self.outcome.counted.answered(rules.number);
        let same = rules == row && dst == by_port;
        self.outcome.reports[WRITE].check(same, || {
            let at = dst.iter().zip(&by_port).position(|(a, b)| a != b);
            format!("{descriptor:?}, room {room}: {rules}, port {row}, first differing byte {at:?}")
        });
    }
}

/// The Rust's format of an accepted file, with the record length's extra bytes.
fn format_of(file: &[u8]) -> Format {
    let format = Format::new(file[104]).expect("a format from 0 to 10");
    Format {
        extra_bytes: u16::from_le_bytes([file[105], file[106]]) - format.len(),
        ..format
    }
}

/// The bits of a value of this type at the front of some bytes, and the bytes behind it.
fn typed(data_type: u8, options: u8, bytes: &[u8]) -> (u64, &[u8]) {
    fn front<const WIDTH: usize>(
        bytes: &[u8],
        bits: impl FnOnce([u8; WIDTH]) -> u64,
    ) -> (u64, &[u8]) {
        let (front, behind) = bytes.split_first_chunk().expect("within the extra bytes");
        (bits(*front), behind)
    }
    match data_type {
        1 => front(bytes, |b| u8::from_le_bytes(b).into()),
        2 => front(bytes, |b| i8::from_le_bytes(b).cast_unsigned().into()),
        3 => front(bytes, |b| u16::from_le_bytes(b).into()),
        4 => front(bytes, |b| i16::from_le_bytes(b).cast_unsigned().into()),
        5 => front(bytes, |b| u32::from_le_bytes(b).into()),
        6 => front(bytes, |b| i32::from_le_bytes(b).cast_unsigned().into()),
        7 => front(bytes, u64::from_le_bytes),
        8 => front(bytes, |b| i64::from_le_bytes(b).cast_unsigned()),
        9 => front(bytes, |b| f32::from_le_bytes(b).to_bits().into()),
        10 => front(bytes, |b| f64::from_le_bytes(b).to_bits()),
        _ => {
            let (value, behind) = bytes.split_at(options.into());
            let mut eight = [0; 8];
            for (to, from) in eight.iter_mut().zip(value) {
                *to = *from;
            }
            (u64::from_le_bytes(eight), behind)
        }
    }
}

/// Files of every version with every format, each asked everything.
fn whole<L: Library>(library: &L, lot: Lot) -> Outcome {
    over(library, lot.whole, |comparison, i| {
        everything(comparison, i, false)
    })
}

/// Files with hundreds of descriptors, and records as long as their field allows.
fn long<L: Library>(library: &L, lot: Lot) -> Outcome {
    over(library, lot.long, |comparison, i| {
        everything(comparison, i, true)
    })
}

/// Of one file: its attributes, names, values, columns and VLRs, and what the Rust reads.
fn everything<L: Library>(comparison: &mut Comparison<L>, i: u64, long: bool) {
    let mut random = Lcg::new(!i);
    let made = Made::new(i, long);
    let told = || format!("file {i}, long {long} ({})", made.whole);
    comparison.take(&made.whole.bytes);
    let allowances = made.whole.allowances();
    let allowance = allowances[3 + random.below(4) as usize];
    let attributes = comparison.attributes(allowance, &told);
    let few = allowances[random.below(4) as usize];
    comparison.attributes(few, &told);
    count(comparison, &made, &attributes);

    for name in made.sought(&mut random) {
        comparison.find(allowance, &name, &told);
    }
    comparison.find(few, &made.names[0], &told);
    for (user, id) in made.heads(&mut random) {
        comparison.vlr_first(allowance, &user, id, &told);
    }
    comparison.vlr_first(few, USER, RECORD, &told);

    same_by_name(comparison, &attributes, allowance, &told);
    let some = 1 + random.below(40);
    for (attribute, _) in attributes
        .iter()
        .step_by(if long { some as usize } else { 1 })
    {
        for point in points(attribute[4], attribute[3]) {
            comparison.value(*attribute, point, &told);
        }
        for _ in 0..8 {
            let stretch = some_stretch(&mut random, attribute[4]);
            comparison.column(*attribute, stretch, &told);
        }
    }
    if !attributes.is_empty() {
        comparison.found.check(&made.whole.bytes, u64::MAX);
        comparison.as_the_rust_reads(&attributes, &told);
    }
    comparison.leave(&told);
}

/// What is told of a file.
fn count<L>(comparison: &mut Comparison<L>, made: &Made, attributes: &[(Attribute, Span)]) {
    let file = &comparison.file;
    let counts = &mut comparison.outcome.counted.counts;
    let mut such = made.vlrs.iter().filter(|vlr| is_such(vlr));
    let first = such.next();
    counts[WITH] += u64::from(!attributes.is_empty());
    counts[NONE] += u64::from(first.is_some_and(|vlr| vlr.data.is_empty()));
    counts[SECOND] += u64::from(such.next().is_some());
    counts[LATER] += u64::from(first.is_none() && made.later.iter().any(is_such));
    counts[ATTRIBUTES] += attributes.len() as u64;
    if let Some(&([_, size, at, stride, _], _)) = attributes.last() {
        let offset = u32::from_le_bytes([file[96], file[97], file[98], file[99]]);
        counts[ALL] += u64::from(at + size == u64::from(offset) + stride);
    }
    let name = |&(_, [at, _]): &(Attribute, Span)| &file[at as usize..][4..36];
    for (k, attribute) in attributes.iter().enumerate() {
        let mut before = attributes[..k].iter();
        counts[EQUAL] += u64::from(before.any(|other| name(other) == name(attribute)));
    }
}

/// Each attribute is the one that its name finds, if it is the first of that name.
fn same_by_name<L: Library>(
    comparison: &mut Comparison<L>,
    attributes: &[(Attribute, Span)],
    allowance: u64,
    told: &dyn Fn() -> String,
) {
    let mut names: Vec<Vec<u8>> = Vec::new();
    for &(attribute, [at, _]) in attributes {
        let name = comparison.file[at as usize..][4..36].to_vec();
        if names.contains(&name) {
            continue;
        }
        let mut told_by_port = [BEFORE; 5];
        let row = capi::row(|row| {
            let shown = &comparison.shown;
            comparison
                .port
                .find(shown, allowance, &name, &mut told_by_port, row)
        });
        comparison.outcome.reports[SAME].check(
            row.number == 0 && told_by_port == attribute,
            || {
                format!(
                    "{}, {name:?}: {attribute:?}, port {row} {told_by_port:?}",
                    told()
                )
            },
        );
        names.push(name);
    }
}

/// Files of every version and format, damaged: each number that the file check looks at at its boundaries; bytes of
/// heads and descriptors changed, and any; cut off or not. Besides, attributes and places that no call gives.
fn damaged<L: Library>(library: &L, lot: Lot) -> Outcome {
    over(library, lot.damaged, |comparison, i| {
        let mut random = Lcg::new(i ^ 0xda << 40);
        let made = Made::new(i + (1 << 32), false);
        let whole = &made.whole;
        let like = model::every(&mut comparison.found, &whole.bytes, u64::MAX);
        let like = like.first().map(|(attribute, _)| *attribute);
        let like = like.unwrap_or([7, 8, whole.bytes.len() as u64 / 2, 30, 3]);
        let mut patches = Vec::new();
        whole.boundaries(&mut patches);
        let mut file = whole.bytes.clone();
        for k in 0..patches.len() as u64 + lot.random {
            let damage: Vec<Patch> = match patches.get(k as usize) {
                Some(&patch) => vec![patch],
                None => (0..1 + random.below(3))
                    .map(|_| Patch::byte(some_place(whole, &mut random), some_byte(&mut random)))
                    .collect(),
            };
            damage.iter().for_each(|patch| patch.apply(&mut file));
            let end = match random.one_in(8) {
                true => random.below(file.len() as u64 + 1) as usize,
                false => file.len(),
            };
            let allowance = whole.allowances()[random.below(7) as usize];
            let told = || {
                let shown: Vec<String> = damage.iter().map(Patch::to_string).collect();
                format!("damaged file {i} ({whole}), {}", shown.join(", "))
            };
            comparison.take(&file[..end]);
            ask_once(comparison, &made, &mut random, allowance, like, &told);
            comparison.leave(&told);
            damage
                .iter()
                .for_each(|patch| patch.undo(&mut file, &whole.bytes));
        }
        comparison.take(&file);
        let told = || format!("file {i} ({whole}), made up");
        made_ups(comparison, &mut random, like, lot.made_up, &told);
    })
}

/// Attributes and places that no call gives, shown to the file that was taken up.
fn made_ups<L: Library>(
    comparison: &mut Comparison<L>,
    random: &mut Lcg,
    like: Attribute,
    times: u64,
    told: &dyn Fn() -> String,
) {
    let size = comparison.file.len() as u64;
    for _ in 0..times {
        let attribute = made_up(random, like, size);
        let [_, _, _, stride, count] = attribute;
        for point in points(count, stride) {
            comparison.value(attribute, point, told);
        }
        let stretch = some_stretch(random, count);
        comparison.column(attribute, stretch, told);
        let descriptor = random.below(size + 1);
        let place = [descriptor, 1 + random.below(3), like[2], like[3], like[4]];
        let place = made_up(random, place, size);
        comparison.next(place, told);
    }
}

/// One question of each kind about the file that was taken up.
fn ask_once<L: Library>(
    comparison: &mut Comparison<L>,
    made: &Made,
    random: &mut Lcg,
    allowance: u64,
    like: Attribute,
    told: &dyn Fn() -> String,
) {
    let attributes = comparison.attributes(allowance, told);
    let names = made.sought(random);
    let name = &names[random.below(names.len() as u64) as usize];
    let found = comparison.find(allowance, name, told);
    let heads = made.heads(random);
    let (user, id) = &heads[random.below(heads.len() as u64) as usize];
    comparison.vlr_first(allowance, user, *id, told);
    let last = attributes.last().map(|(attribute, _)| *attribute);
    let attribute = found.or(last).unwrap_or(like);
    let point = points(attribute[4], attribute[3])[random.below(12) as usize];
    comparison.value(attribute, point, told);
    let stretch = some_stretch(random, attribute[4]);
    comparison.column(attribute, stretch, told);
}

/// Every data type with every options, in a file with one extra byte less than the value has, as many, and one more.
fn every_type<L: Library>(library: &L, lot: Lot) -> Outcome {
    over(library, (1 << 16) / lot.step, |comparison, i| {
        let [data_type, options] = ((i * lot.step) as u16).to_le_bytes();
        let size = model::size(data_type, options).unwrap_or(0);
        for extra in [size.saturating_sub(1), size, size + 1] {
            let file = one_told(data_type, options, b"a", extra);
            let told = || format!("type {data_type}, options {options}, {extra} extra bytes");
            comparison.take(&file);
            comparison.attributes(1, &told);
            if let Some(attribute) = comparison.find(1, b"a", &told) {
                comparison.value(attribute, 1, &told);
                comparison.value(attribute, 2, &told);
            }
            comparison.leave(&told);
        }
    })
}

/// Names of every length from 0 to 32, looked for by every length from 0 to 33, with zeros behind it, with one byte
/// changed to 0, and with the byte changed that only one of them has.
fn every_length<L: Library>(library: &L) -> Outcome {
    over(library, 33, |comparison, length| {
        let letters = [b'n'; 33];
        let length = length as usize;
        let told = || format!("a name of {length} bytes");
        let mut lookup = |stored: &[u8], asked: &[u8]| {
            comparison.take(&one_told(1, 0, stored, 1));
            comparison.find(u64::MAX, asked, &told);
        };
        for asked in 0..=33 {
            lookup(&letters[..length], &letters[..asked]);
            let zeros = [&letters[..length], &vec![0; asked]].concat();
            lookup(&letters[..length], &zeros);
            if let Some(at) = asked.checked_sub(1).filter(|&at| at < length) {
                let mut holed = letters;
                holed[at] = 0;
                lookup(&holed[..length], &holed[..length]);
                lookup(&holed[..length], &letters[..length]);
                lookup(&letters[..length], &holed[..length]);
                lookup(&holed[..length], &holed[..at]);
            }
        }
    })
}

/// Every data type with every options: read of 192 bytes, of fewer and of more, and written into enough room, too
/// little and more, with numbers wider than their fields.
fn descriptors<L: Library>(library: &L, lot: Lot) -> Outcome {
    over(library, (1 << 16) / lot.step, |comparison, i| {
        let [data_type, options] = ((i * lot.step) as u16).to_le_bytes();
        let mut random = Lcg::new(i ^ 0xde << 40);
        let rules = model::size(data_type, options).unwrap_or(0);
        let port = comparison.port.size(data_type, options);
        comparison.outcome.reports[SIZE].check(rules == port, || {
            format!("type {data_type}, options {options}: {rules}, port {port}")
        });
        for _ in 0..lot.times {
            let mut bytes = vec![0; DESCRIPTOR + random.below(5) as usize];
            random.fill(&mut bytes);
            bytes[2] = data_type;
            bytes[3] = options;
            let end = match random.below(4) {
                0 => random.below(DESCRIPTOR as u64) as usize,
                1 => DESCRIPTOR - random.below(2) as usize,
                _ => bytes.len(),
            };
            comparison.read(&bytes[..end]);

            let mut descriptor = BLANK;
            for number in &mut descriptor.numbers {
                *number = random.long();
            }
            let wide = if random.one_in(2) {
                random.long() << 8
            } else {
                0
            };
            descriptor.numbers[1] = wide | u64::from(data_type);
            descriptor.numbers[2] = random.long() << 8 | u64::from(options);
            random.fill(&mut descriptor.name);
            random.fill(&mut descriptor.deprecated);
            random.fill(&mut descriptor.description);
            let room = match random.below(4) {
                0 => random.below(DESCRIPTOR as u64) as usize,
                1 => DESCRIPTOR - random.below(2) as usize,
                _ => DESCRIPTOR + random.below(5) as usize,
            };
            comparison.write(&descriptor, room);
        }
    })
}

/// What `part` comes to over the numbers below `size`.
fn over<L: Library>(
    library: &L,
    size: u64,
    part: impl Fn(&mut Comparison<L>, u64) + Sync,
) -> Outcome {
    let outcomes = stretches(size, |stretch| {
        let mut comparison = Comparison::new(library);
        stretch.for_each(|i| part(&mut comparison, i));
        comparison.outcome
    });
    outcomes.into_iter().fold(Outcome::new(CALLS), Outcome::and)
}

const TWO_32: u64 = 1 << 32;

/// Values and columns at places beyond 2^32.
fn far<L: Library>(library: &L) -> Report {
    let mut report = Report::new("attributes beyond 2^32");
    let files = [
        (0, 20 + 9, TWO_32 - 1),
        (6, 30 + 9, TWO_32 + 3),
        (1, 28 + 11, TWO_32 + 300),
        (10, 65_535, 1 << 20),
    ];
    let size = |length: u64, count: u64| FAR + length * count + 5;
    let most = files.iter().map(|&(_, length, count)| size(length, count));
    let mut memory = Sparse::new(most.max().unwrap_or_default() as usize);
    for (format, length, count) in files {
        let bare = POINT_BYTES[format as usize] as u64;
        put_far(&mut memory, format, length, count);
        let beyond = TWO_32.div_ceil(length);
        let near = [1, 2, beyond - 1, beyond, beyond + 1, 1 << 16, 1 << 31];
        let ends = [TWO_32 - 1, TWO_32, TWO_32 + 1, count - 1, count];
        let there: Vec<u64> = near
            .into_iter()
            .chain(ends)
            .filter(|&k| k <= count)
            .collect();
        for &point in &there {
            let at = (FAR + (point - 1) * length + bare) as usize;
            Lcg::new(point).fill(&mut memory[at..][..9]);
        }
        let file = &memory[..size(length, count) as usize];
        let mut found = Found::default();
        for name in [b"a", b"b", b"c"] {
            let rules = model::find(&mut found, file, u64::MAX, name);
            let expected = lent(rules.map(|attribute| (0, attribute)), [BEFORE; 5]);
            let mut attribute = [BEFORE; 5];
            let row = capi::row(|row| library.find(file, u64::MAX, name, &mut attribute, row));
            report.check(expected == (row, attribute), || {
                format!("{count} points of {length}: {expected:?}, port {row} {attribute:?}")
            });
            let Ok(attribute) = rules else { continue };
            let more = points(count, length);
            for &point in there.iter().chain(&more) {
                let rules = lent(model::value(file, attribute, point), [BEFORE; 2]);
                let mut span = [BEFORE; 2];
                let row = capi::row(|row| library.value(file, &attribute, point, &mut span, row));
                report.check(rules == (row, span), || {
                    format!("{attribute:?}, point {point}: {rules:?}, port {row} {span:?}")
                });
                for (many, room) in [(0, 0), (1, 1), (2, 2), (3, 2), (count, 2), (TWO_32, 2)] {
                    let stretch = Stretch {
                        first: point,
                        count: many,
                        room,
                    };
                    let mut entries = Vec::new();
                    let rules = model::column(file, attribute, stretch, &mut entries);
                    entries.resize(room + SPARE, BEFORE);
                    let mut held = vec![BEFORE; room + SPARE];
                    let dst = &mut held[..room];
                    let row =
                        capi::row(|row| library.column(file, &attribute, (point, many), dst, row));
                    report.check(rules == row && entries == held, || {
                        format!("{attribute:?}, {stretch:?}: {rules}, port {row}")
                    });
                }
            }
        }
        for &point in &there {
            let at = (FAR + (point - 1) * length + bare) as usize;
            memory[at..][..9].fill(0);
        }
    }
    report
}

/// A small file to work by hand on: a header of 1.2, a VLR with the descriptors of a u16 "a", of two bytes "b" and of
/// an f32 "a", and two points of format 0 with eight extra bytes, whose bytes are 1, 2, 3 and so on.
fn small(besides: &[(usize, u8)]) -> Vec<u8> {
    let mut file = plain(857 + 2 * 28, [2, 227, 857, 0, 28, 2], &[]);
    file[100] = 1;
    file[229..238].copy_from_slice(USER);
    file[245..249].copy_from_slice(&[4, 0, 0x40, 2]);
    file[283..286].copy_from_slice(&[3, 9, b'a']);
    file[475..478].copy_from_slice(&[0, 2, b'b']);
    file[667..670].copy_from_slice(&[9, 255, b'a']);
    for (k, byte) in (1..).zip(&mut file[857..]) {
        *byte = k;
    }
    for &(at, byte) in besides {
        file[at] = byte;
    }
    file
}

/// Rows of las_attributes that follow from document 02's text, with some bytes of the small file changed.
const REFUSED: [(&[(usize, u8)], Row); 21] = [
    (&[], [0, 3, 0]),
    // "no such VLR": the user id over all 16 bytes, the record id over both
    (&[(229, b'l')], [37, 0, 0]),
    (&[(238, b' ')], [37, 0, 0]),
    (&[(244, 1)], [37, 0, 0]),
    (&[(245, 3)], [37, 0, 0]),
    (&[(246, 1)], [37, 0, 0]),
    (&[(100, 0)], [37, 0, 0]),
    // "data not a multiple of 192", of which 0 is one
    (&[(247, 0x3f)], [38, 0, 0]),
    (&[(247, 0), (248, 1)], [38, 0, 0]),
    (&[(247, 0), (248, 0)], [0, 0, 0]),
    (&[(247, 0xc0), (248, 0)], [0, 1, 0]),
    // "a type above 10", whichever descriptor has it
    (&[(283, 11)], [39, 0, 0]),
    (&[(667, 255)], [39, 0, 0]),
    // "sizes adding up to more than the extra bytes": 2 and 2 and 4 are as many
    (&[(667, 10)], [40, 0, 0]),
    (&[(476, 3)], [40, 0, 0]),
    (&[(476, 1)], [0, 3, 0]),
    (&[(105, 27)], [40, 0, 0]),
    // "Refusals, in order"
    (&[(99, 1), (244, 1)], [9, 16_778_073, 0]),
    (&[(244, 1), (247, 0x3e), (283, 11), (476, 255)], [37, 0, 0]),
    (&[(247, 0x3e), (283, 11), (476, 255)], [38, 0, 0]),
    (&[(283, 11), (476, 255)], [39, 0, 0]),
];

/// What las_attribute_find tells of a name, in the same way.
const NAMED: [(&[(usize, u8)], &[u8], Row, Attribute); 12] = [
    (&[], b"a", [0, 0, 0], [3, 2, 877, 28, 2]),
    (&[], b"a\0\0", [0, 0, 0], [3, 2, 877, 28, 2]),
    (&[], b"b", [0, 0, 0], [0, 2, 879, 28, 2]),
    (&[(285, b'c')], b"a", [0, 0, 0], [9, 4, 881, 28, 2]),
    (&[], b"c", [41, 0, 0], [BEFORE; 5]),
    (&[], b"A", [41, 0, 0], [BEFORE; 5]),
    (&[], b"", [41, 0, 0], [BEFORE; 5]),
    (&[(477, 0)], b"", [0, 0, 0], [0, 2, 879, 28, 2]),
    // "zeros filling it to 32 bytes": the last is the 508th, and a 33rd there is not
    (&[(508, 1)], b"b", [41, 0, 0], [BEFORE; 5]),
    (&[(509, 1)], b"b", [0, 0, 0], [0, 2, 879, 28, 2]),
    (&[], &[0; 33], [41, 0, 0], [BEFORE; 5]),
    // "sizes adding up to more than the extra bytes; name not found"
    (&[(667, 10)], b"c", [40, 0, 0], [BEFORE; 5]),
];

/// What las_attribute_value tells of the values of the small file.
const VALUED: [(Attribute, u64, Row, Span); 17] = [
    ([3, 2, 877, 28, 2], 1, [0, 0x1615, 0], [877, 2]),
    ([3, 2, 877, 28, 2], 2, [0, 0x3231, 0], [905, 2]),
    ([0, 2, 879, 28, 2], 2, [0, 0x3433, 0], [907, 2]),
    ([9, 4, 881, 28, 2], 2, [0, 0x3837_3635, 0], [909, 4]),
    // "index (27)", and its value is the point count
    ([3, 2, 877, 28, 2], 0, [27, 2, 0], [BEFORE; 2]),
    ([3, 2, 877, 28, 2], 3, [27, 2, 0], [BEFORE; 2]),
    ([3, 2, 877, 28, 2], u64::MAX, [27, 2, 0], [BEFORE; 2]),
    // made up: nine bytes, of which eight are the number; none; up to the file's end, and past it
    (
        [0, 9, 877, 28, 2],
        1,
        [0, 0x1c1b_1a19_1817_1615, 0],
        [877, 9],
    ),
    ([1, 1, 832, 20, 5], 5, [0, 56, 0], [912, 1]),
    ([1, 1, 833, 20, 5], 5, [27, 5, 0], [BEFORE; 2]),
    ([1, 0, 833, 20, 5], 5, [0, 0, 0], [913, 0]),
    ([1, 0, 834, 20, 5], 5, [27, 5, 0], [BEFORE; 2]),
    // no record has fewer than 20 bytes, or more than 65,535
    ([1, 1, 877, 19, 2], 1, [27, 2, 0], [BEFORE; 2]),
    ([1, 1, 877, 65_535, 2], 1, [0, 21, 0], [877, 1]),
    ([1, 1, 877, 65_536, 2], 1, [27, 2, 0], [BEFORE; 2]),
    (
        [1, 1, 877, u64::MAX, u64::MAX],
        3,
        [27, u64::MAX, 0],
        [BEFORE; 2],
    ),
    ([1, 1, 877, 1 << 63, 9], 3, [27, 9, 0], [BEFORE; 2]),
];

/// What las_attribute_column tells of the u16: first point, count and room, and what is filled.
const COLUMNS: [(u64, u64, usize, Row, &[u64]); 12] = [
    (1, 2, 2, [0, 2, 0], &[0x1615, 0x3231]),
    (1, 2, 5, [0, 2, 0], &[0x1615, 0x3231]),
    (2, 1, 1, [0, 1, 0], &[0x3231]),
    (3, 0, 0, [0, 0, 0], &[]),
    (1, 0, 2, [0, 0, 0], &[]),
    (0, 0, 2, [27, 2, 0], &[]),
    (4, 0, 2, [27, 2, 0], &[]),
    (2, 2, 2, [27, 2, 0], &[]),
    (2, u64::MAX, 2, [27, 2, 0], &[]),
    // 27, then 22 with the entries wanted
    (1, 3, 1, [27, 2, 0], &[]),
    (1, 2, 1, [22, 2, 0], &[]),
    (2, 1, 0, [22, 1, 0], &[]),
];

fn answer([number, value, record]: Row) -> Answer {
    Answer {
        number,
        value,
        record,
    }
}

/// Both the rules and a library must answer what was worked by hand.
fn compare_described(library: &impl Library) -> Report {
    let mut report = Report::new("attributes described");
    let mut found = Found::default();
    for (besides, stated) in REFUSED {
        let (file, stated) = (small(besides), answer(stated));
        let (rules, _) = lent(model::attributes(&mut found, &file, 9), [0; 5]);
        let row = capi::row(|row| library.attributes(&file, 9, &mut [0; 5], row));
        report.check([rules, row] == [stated; 2], || {
            format!("{besides:?}: {stated}, rules {rules}, port {row}")
        });
    }
    for (besides, name, stated, told) in NAMED {
        let (file, stated) = (small(besides), (answer(stated), told));
        let rules = model::find(&mut found, &file, 9, name);
        let rules = lent(rules.map(|attribute| (0, attribute)), [BEFORE; 5]);
        let mut attribute = [BEFORE; 5];
        let row = capi::row(|row| library.find(&file, 9, name, &mut attribute, row));
        report.check([rules, (row, attribute)] == [stated; 2], || {
            format!("{besides:?}, {name:?}: {stated:?}, rules {rules:?}, port {row} {attribute:?}")
        });
    }
    let file = small(&[]);
    for (attribute, point, stated, told) in VALUED {
        let stated = (answer(stated), told);
        let rules = lent(model::value(&file, attribute, point), [BEFORE; 2]);
        let mut span = [BEFORE; 2];
        let row = capi::row(|row| library.value(&file, &attribute, point, &mut span, row));
        report.check([rules, (row, span)] == [stated; 2], || {
            format!("{attribute:?}, {point}: {stated:?}, rules {rules:?}, port {row} {span:?}")
        });
    }
    for (first, count, room, stated, filled) in COLUMNS {
        let stated = answer(stated);
        let attribute = [3, 2, 877, 28, 2];
        let stretch = Stretch { first, count, room };
        let mut entries = Vec::new();
        let rules = model::column(&file, attribute, stretch, &mut entries);
        let mut held = [BEFORE; 9];
        let dst = &mut held[..room];
        let row = capi::row(|row| library.column(&file, &attribute, (first, count), dst, row));
        let kept = held[filled.len()..].iter().all(|&entry| entry == BEFORE);
        let same = [rules, row] == [stated; 2] && entries == filled && held.starts_with(filled);
        report.check(same && kept, || {
            format!("{stretch:?}: {stated}, rules {rules} {entries:x?}, port {row} {held:x?}")
        });
    }
    report.and(described_descriptor(library))
}

/// The descriptor whose bytes are 0, 1, 2 and so on: of type 2, with options 3.
fn described_descriptor(library: &impl Library) -> Report {
    let mut report = Report::new("attributes described");
    let mut bytes = [0; DESCRIPTOR];
    bytes.iter_mut().zip(0..).for_each(|(byte, k)| *byte = k);
    let mut deprecated = [0; 80];
    for (k, at) in [48, 72, 96, 120, 144].into_iter().enumerate() {
        deprecated[16 * k..][..16].copy_from_slice(&bytes[at..at + 16]);
    }
    let stated = Descriptor {
        numbers: [
            0x0100,
            2,
            3,
            0x2726_2524,
            0x2f2e_2d2c_2b2a_2928,
            0x4746_4544_4342_4140,
            0x5f5e_5d5c_5b5a_5958,
            0x7776_7574_7372_7170,
            0x8f8e_8d8c_8b8a_8988,
        ],
        name: bytes[4..36].try_into().expect("32 bytes"),
        deprecated,
        description: bytes[160..].try_into().expect("32 bytes"),
    };
    let mut told = BLANK;
    let row = capi::row(|row| library.read(&bytes, row, &mut told));
    let rules = model::read(&bytes);
    report.check(rules == Ok(stated) && told == stated, || {
        format!("rules {rules:?}, port {row} {told:?}")
    });
    let mut written = [[BEFORE_BYTE; DESCRIPTOR]; 2];
    let rules = model::write(&stated, &mut written[0]);
    let row = capi::row(|row| library.write(&stated, &mut written[1], row));
    report.check(
        [rules, row] == [Answer::result(192u64); 2] && written == [bytes; 2],
        || format!("rules {rules}, port {row} {written:?}"),
    );
    report
}

/// The comparison itself is tested: a stand-in that follows the rules agrees with them, and one with an error put in
/// doesn't, whichever error it is.
pub fn compare_stand_ins() -> Report {
    let mut report = Report::new("attributes with an error, told apart");
    let agrees = |error| {
        let library = &StandIn { error };
        whole(library, FEW).agrees()
            && damaged(library, FEW).agrees()
            && long(library, FEW).agrees()
            && every_type(library, FEW).agrees()
            && every_length(library).agrees()
            && descriptors(library, FEW).agrees()
            && far(library).agrees()
    };
    report.check(agrees(None), || "the one without an error differs".into());
    for &error in ERRORS {
        report.check(!agrees(Some(error)), || format!("{error:?} isn't seen"));
    }
    report
}

/// Compares a library and prints what came of it: the calls, and how often each number was answered.
pub fn compare_library(tally: &mut Tally, library: &impl Library) {
    tally.add(compare_described(library));
    let outcome = whole(library, FULL)
        .and(long(library, FULL))
        .and(damaged(library, FULL))
        .and(every_type(library, FULL))
        .and(every_length(library))
        .and(descriptors(library, FULL));
    for (k, report) in (0..).zip(outcome.reports) {
        match k {
            SAME.. => tally.aside(report),
            _ => tally.add(report),
        }
    }
    tally.add(far(library));
    tally.add(outcome.counted.tell(
        "attribute answers, each many times",
        COUNTED,
        &NUMBERS,
        OFTEN,
    ));
}

pub fn compare(tally: &mut Tally) {
    tally.add(compare_stand_ins());
    compare_library(tally, &Port);
}
