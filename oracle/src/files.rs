//! Files to compare with, the same in every run: made whole, and what can be damaged in them.

use crate::{
    file_model::{POINT_BYTES, standard_size},
    format,
    records::{self, Lcg},
};
use las::point::Format;
use std::fmt;

/// Minor version and format, all that go together.
pub const KINDS: [(u8, u8); 25] = {
    let mut kinds = [(0, 0); 25];
    let (mut k, mut minor) = (0, 0);
    while minor < HIGHEST.len() {
        let mut format = 0;
        while format <= HIGHEST[minor] {
            kinds[k] = (minor as u8, format);
            k += 1;
            format += 1;
        }
        minor += 1;
    }
    kinds
};

/// Those of version 1.3.
pub const OF_1_3: std::ops::Range<usize> = 8..14;

/// The highest format of versions 1.0 to 1.4.
pub const HIGHEST: [u8; 5] = [1, 1, 3, 5, 10];

/// An allowance that none of these files uses up.
pub const MANY: u64 = 1_300;

/// The bytes of a file at one place, and what they are overwritten with.
#[derive(Clone, Copy)]
pub struct Patch {
    at: usize,
    width: usize,
    value: u64,
}

impl Patch {
    pub fn byte(at: usize, value: u8) -> Patch {
        Patch {
            at,
            width: 1,
            value: value.into(),
        }
    }

    pub fn apply(&self, file: &mut [u8]) {
        file[self.at..][..self.width].copy_from_slice(&self.value.to_le_bytes()[..self.width]);
    }

    pub fn undo(&self, file: &mut [u8], whole: &[u8]) {
        file[self.at..][..self.width].copy_from_slice(&whole[self.at..][..self.width]);
    }

    fn changes(&self, file: &[u8]) -> bool {
        file[self.at..][..self.width] != self.value.to_le_bytes()[..self.width]
    }
}

impl fmt::Display for Patch {
    fn fmt(&self, f: &mut fmt::Formatter<'_>) -> fmt::Result {
        let value = self.value << (64 - 8 * self.width) >> (64 - 8 * self.width);
        write!(f, "u{} at {} is {value:#x}", 8 * self.width, self.at)
    }
}

/// What a file is to be of: lengths in bytes, and those of the data of each record before and after the points.
pub struct Plan {
    /// Minor version and format.
    pub kind: (u8, u8),
    pub padding: usize,
    pub vlrs: Vec<usize>,
    pub before_points: usize,
    pub extra: usize,
    pub points: u64,
    pub after_points: usize,
    pub later: Vec<usize>,
    pub after: usize,
}

impl Plan {
    /// Any plan for a file of a kind, a small one or a long one.
    fn some(random: &mut Lcg, kind: (u8, u8), long: bool) -> Plan {
        let (minor, format) = kind;
        let standard = standard_size(minor.into()) as usize;
        let format_length = POINT_BYTES[usize::from(format)] as usize;
        let hundreds = long && random.one_in(2);
        let most: usize = if long && !hundreds { 65_535 } else { 0 };
        // The fields are drawn in their order.
        Plan {
            kind,
            padding: some(random, 20, most.saturating_sub(standard)),
            vlrs: {
                let vlrs = match hundreds {
                    true => random.below(1_250),
                    false => [0, 0, 0, 1, 1, 2, 3, 4, 5][random.below(9) as usize],
                };
                (0..vlrs).map(|_| some(random, 16, most)).collect()
            },
            before_points: some(random, 6, most),
            extra: some(random, 5, most.saturating_sub(format_length)),
            points: random.below(6),
            after_points: some(random, 6, most),
            later: {
                let later = match minor {
                    3 => random.below(2),
                    4 => random.below(4),
                    _ => 0,
                };
                (0..later).map(|_| some(random, 16, 2 * most)).collect()
            },
            after: some(random, 9, most),
        }
    }
}

/// A whole file, and where its parts are, so that damage can be aimed.
#[derive(Default)]
pub struct Whole {
    pub bytes: Vec<u8>,
    minor: u8,
    format: u8,
    header_size: usize,
    /// Where each VLR starts, and how long its data are.
    pub vlrs: Vec<(usize, usize)>,
    vlr_end: usize,
    point_offset: usize,
    record_length: usize,
    points: u64,
    point_end: usize,
    /// The same of the records after the points: the EVLRs, or in 1.3 the waveform packets.
    pub later: Vec<(usize, usize)>,
}

impl Whole {
    /// Makes the `i`-th file. Neighbours are of different versions or formats. Files are small, a few
    /// hundred bytes, or as long as their fields allow: in half of those what a u16 states is often at
    /// its end, and half have hundreds of VLRs.
    pub fn make(&mut self, i: u64, long: bool) {
        self.make_of(i, long, &KINDS)
    }

    /// The same of some versions and formats.
    pub fn make_of(&mut self, i: u64, long: bool, kinds: &[(u8, u8)]) {
        let mut random = Lcg::new(i | u64::from(long) << 63);
        let kind = kinds[(i % kinds.len() as u64) as usize];
        let plan = Plan::some(&mut random, kind, long);
        self.make_as(&plan, &mut random);
    }

    /// Makes a file as it is planned. What the plan doesn't say is without pattern.
    pub fn make_as(&mut self, plan: &Plan, random: &mut Lcg) {
        // Where everything stands.
        (self.minor, self.format) = plan.kind;
        self.header_size = standard_size(self.minor.into()) as usize + plan.padding;
        self.vlr_end = self.header_size;
        self.vlrs.clear();
        for &length in &plan.vlrs {
            self.vlrs.push((self.vlr_end, length));
            self.vlr_end += 54 + length;
        }
        self.point_offset = self.vlr_end + plan.before_points;
        self.record_length = POINT_BYTES[usize::from(self.format)] as usize + plan.extra;
        self.points = plan.points;
        self.point_end = self.point_offset + self.points as usize * self.record_length;
        let mut at = self.point_end + plan.after_points;
        self.later.clear();
        for &length in &plan.later {
            self.later.push((at, length));
            at += 60 + length;
        }
        at += plan.after;

        // What is in it.
        self.bytes.resize(at, 0);
        random.fill(&mut self.bytes);
        self.put(0, 4, u32::from_le_bytes(*b"LASF"));
        self.put(24, 1, 1u8);
        self.put(25, 1, self.minor);
        self.put(94, 2, self.header_size as u64);
        self.put(96, 4, self.point_offset as u64);
        self.put(100, 4, self.vlrs.len() as u64);
        self.put(104, 1, self.format);
        self.put(105, 2, self.record_length as u64);
        self.put(107, 4, self.points);
        for float in 0..12 {
            self.put(131 + 8 * float, 8, random.f64_bits());
        }
        match self.minor {
            3 => self.fill_packets(random),
            4 => self.fill_large(random),
            _ => {}
        }
        for k in 0..self.vlrs.len() {
            let (at, length) = self.vlrs[k];
            self.put(at + 20, 2, length as u64);
        }
        for k in 0..self.later.len() {
            let (at, length) = self.later[k];
            self.put(at + 20, 8, length as u64);
        }
        let format = Format {
            extra_bytes: plan.extra as u16,
            ..Format::new(self.format).expect("a format from 0 to 10")
        };
        let points = &mut self.bytes[self.point_offset..self.point_end];
        for record in points.chunks_exact_mut(self.record_length) {
            records::fill(format::word(format), random.long(), record);
        }
    }

    /// What 1.3 says of waveform packets: bit 1 of global encoding and a start where they are in the file,
    /// else one without the other. In 1.4 either is anything, and in older versions the bit is.
    fn fill_packets(&mut self, random: &mut Lcg) {
        let encoding = u64::from(random.word() as u16);
        let (encoding, start) = match (self.later.first(), random.below(4)) {
            (Some(&(start, _)), _) => (encoding | 2, start as u64),
            (None, 0 | 1) => (encoding | 2, 0),
            (None, 2) => (encoding & !2, self.bytes.len() as u64),
            (None, _) => (encoding & !2, random.long()),
        };
        self.put(6, 2, encoding);
        self.put(227, 8, start);
    }

    /// What only 1.4 has: the large count, which counts where the legacy count is zero, and the EVLR
    /// pair, of which either is zero where there are none.
    fn fill_large(&mut self, random: &mut Lcg) {
        match random.below(4) {
            0 if self.points != 0 => {} // a legacy count, beside which the other means nothing
            1 => self.put(247, 8, self.points),
            _ => {
                self.put(107, 4, 0u8);
                self.put(247, 8, self.points);
            }
        }
        let (start, count) = match (self.later.first(), random.below(4)) {
            (Some(&(start, _)), _) => (start as u64, self.later.len() as u64),
            (None, 0) => (0, random.long()),
            (None, 1) => (random.long(), 0),
            (None, 2) => (self.bytes.len() as u64, 0),
            (None, _) => (0, 0),
        };
        self.put(235, 8, start);
        self.put(243, 4, count);
    }

    fn put(&mut self, at: usize, width: usize, value: impl Into<u64>) {
        let value = value.into();
        Patch { at, width, value }.apply(&mut self.bytes);
    }

    /// The records of the points, one after the other.
    pub fn records(&mut self) -> impl Iterator<Item = &mut [u8]> {
        self.bytes[self.point_offset..self.point_end].chunks_exact_mut(self.record_length)
    }

    /// Allowances on both sides of what the file has of records, and at the ends.
    pub fn allowances(&self) -> [u64; 7] {
        let exact = (self.vlrs.len() + self.later.len()) as u64;
        [
            0,
            1,
            exact.saturating_sub(1),
            exact,
            exact + 1,
            MANY,
            u64::MAX,
        ]
    }

    /// Every number that the rules look at, at its boundaries: at the ends of its width, on both
    /// sides of what it is and of what it is compared with, and where sums and products of it would
    /// wrap in 32 or 64 bits. What leaves the file as it is isn't among them.
    pub fn boundaries(&self, patches: &mut Vec<Patch>) {
        patches.clear();
        let mut field = |at: usize, width: usize, near: &[u64], values: &[u64]| {
            let near = near
                .iter()
                .flat_map(|&n| [n.wrapping_sub(1), n, n.wrapping_add(1)]);
            let top = u64::MAX >> (64 - 8 * width);
            for value in near
                .chain([0, 1, top / 2, top / 2 + 1, top])
                .chain(values.iter().copied())
            {
                let patch = Patch { at, width, value };
                if value <= top && patch.changes(&self.bytes) {
                    patches.push(patch);
                }
            }
        };
        let end = self.bytes.len() as u64;
        let [header_size, vlr_end, offset, point_end, length] = [
            self.header_size,
            self.vlr_end,
            self.point_offset,
            self.point_end,
            self.record_length,
        ]
        .map(|n| n as u64);
        let vlrs = self.vlrs.len() as u64;
        let later = self.later.len() as u64;
        // As many points as fit, and record lengths with which they do.
        let fit = (end - offset) / length;
        let fitting = (end - offset) / self.points.max(1);
        const TWO_32: u64 = 1 << 32;

        let signature = u64::from(u32::from_le_bytes(*b"LASF"));
        let others = [8, 16, 31].map(|bit| signature ^ 1 << bit);
        field(0, 4, &[signature], &others);
        field(24, 1, &[1], &[]);
        field(25, 1, &[1, 4], &[3]);
        field(
            94,
            2,
            &[227, 235, 375, header_size, vlr_end, offset, end],
            &[],
        );
        let fitted = end - self.points * length;
        field(
            96,
            4,
            &[header_size, vlr_end, offset, fitted, end],
            &[1 << 16 | offset],
        );
        field(100, 4, &[vlrs, vlrs + 1], &[1 << 16 | vlrs]);
        field(
            104,
            1,
            &[],
            &[2, 3, 4, 5, 6, 7, 8, 9, 10, 11, 128 | u64::from(self.format)],
        );
        let standard = POINT_BYTES[usize::from(self.format)] as u64;
        field(105, 2, &[standard, length, fitting], &[]);
        field(
            107,
            4,
            &[self.points, fit, TWO_32 / length, TWO_32 / length + fit],
            &[1 << 16 | self.points],
        );
        field(6, 2, &[], &[2, 4, 6, 0xfffd]);
        let first = self.later.first().map_or(end, |&(at, _)| at as u64);
        let starts = [point_end, first, end, end - 60, 0u64.wrapping_sub(60)];
        let wrapping = [1 << 32, 1 << 63].map(|n| n + first);
        if self.minor >= 3 {
            field(227, 8, &starts, &wrapping);
        }
        if self.minor == 4 {
            field(235, 8, &starts, &wrapping);
            field(243, 4, &[later], &[1 << 16 | later]);
            let wraps = u64::MAX / length + 1;
            field(
                247,
                8,
                &[
                    self.points,
                    fit,
                    wraps,
                    wraps - offset / length,
                    wraps + fit,
                    TWO_32,
                ],
                &[1u64 << 32, 1 << 61, 1 << 62, 1 << 63].map(|n| n + self.points),
            );
        }
        // The first few and the last.
        for &(at, length) in self
            .vlrs
            .iter()
            .take(5)
            .chain(self.vlrs.iter().skip(5).last())
        {
            let head_end = at as u64 + 54;
            field(
                at + 20,
                2,
                &[length as u64, offset - head_end],
                &[end - head_end],
            );
        }
        for &(at, length) in &self.later {
            let (head_end, length) = (at as u64 + 60, length as u64);
            let (wraps, wraps_here) = (0u64.wrapping_sub(60), 0u64.wrapping_sub(head_end));
            field(
                at + 20,
                8,
                &[length, end - head_end, wraps, wraps_here, TWO_32],
                &[1 << 16 | length, TWO_32 | length, 1 << 63 | length],
            );
        }
    }

    /// What the rules look at of waveform packets, on both sides of every edge, each beside each: the global
    /// encoding, with bit 1 and without; the start; and in the head of a record that starts there the
    /// length, with which the record ends beside the file's end, or a sum of it wraps.
    pub fn packets(&self, random: &mut Lcg, patches: &mut Vec<[Patch; 3]>) {
        patches.clear();
        let patch = |at, width, value| Patch { at, width, value };
        let near = |n: u64| [n.wrapping_sub(1), n, n.wrapping_add(1)];
        let (point_end, end) = (self.point_end as u64, self.bytes.len() as u64);
        let first = self.later.first().map_or(end, |&(at, _)| at as u64);
        let anywhere = point_end + random.below(end - point_end + 1);
        let wraps = 0u64.wrapping_sub(60);
        let far = [0, 1, 227, 1 << 32 | first, 1 << 63 | first, u64::MAX];
        for start in [point_end, first, anywhere, end - 60, end, wraps]
            .into_iter()
            .flat_map(near)
            .chain(far)
        {
            let fitting = end.wrapping_sub(start).wrapping_sub(60);
            let [below, fits, above] = near(fitting);
            let lengths = [
                fits,
                below,
                above,
                0,
                1,
                1 << 32 | fits,
                1 << 63 | fits,
                wraps,
                wraps.wrapping_sub(start),
                u64::MAX,
            ];
            // Outside of what follows the points there is no room for a length, and the start is all.
            let starts = patch(227, 8, start);
            let room = start >= point_end && start <= end - 28;
            for length in lengths
                .into_iter()
                .take(if room { lengths.len() } else { 1 })
            {
                let states = match room {
                    true => patch(start as usize + 20, 8, length),
                    false => starts,
                };
                for encoding in [2, 3, 0xffff, 0, 4, 0xfffd] {
                    patches.push([patch(6, 2, encoding), starts, states]);
                }
            }
        }
    }

    /// A place for random damage: every third one where the rules look.
    pub fn any_place(&self, random: &mut Lcg) -> usize {
        let end = self.bytes.len() as u64;
        let length = |of: &[(usize, usize)], random: &mut Lcg, width| match of.len() as u64 {
            0 => None,
            n => Some(of[random.below(n) as usize].0 as u64 + 20 + random.below(width)),
        };
        let place = match random.below(18) {
            0..=2 => Some(94 + random.below(17)),
            3 if self.minor == 3 => Some([6, 227 + random.below(8)][random.below(2) as usize]),
            3 if self.minor == 4 => Some(235 + random.below(20)),
            4 => length(&self.vlrs, random, 2),
            5 => length(&self.later, random, 8),
            _ => None,
        };
        place.unwrap_or_else(|| random.below(end)) as usize
    }
}

/// A length: 0 half the time, and else at most `few`; or, where `most` isn't 0, now and then that or
/// something below.
fn some(random: &mut Lcg, few: u64, most: usize) -> usize {
    match random.below(8) {
        0 if most > 0 => most,
        1 if most > 0 => random.below(most as u64) as usize,
        0..4 => random.below(few + 1) as usize,
        _ => 0,
    }
}

impl fmt::Display for Whole {
    fn fmt(&self, f: &mut fmt::Formatter<'_>) -> fmt::Result {
        let Whole { minor, format, .. } = self;
        write!(f, "1.{minor}, format {format}, {} bytes", self.bytes.len())
    }
}
