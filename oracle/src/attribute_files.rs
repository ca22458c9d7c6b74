//! Files with descriptors of extra bytes to compare with, the same in every run, what can be damaged in them, and what
//! is asked of them.

use crate::{
    attribute_model::{self as model, DESCRIPTOR, RECORD, Stretch, USER},
    file_model::{Found, POINT_BYTES},
    files::{KINDS, Plan, Whole},
    migrate::{plain, put_header},
    records::Lcg,
};

/// A record before or after the points: user id, record id and data.
pub struct Record {
    user: [u8; 16],
    id: u16,
    pub data: Vec<u8>,
}

/// The user id with zeros behind it.
pub fn user_id(user: &[u8]) -> [u8; 16] {
    let mut filled = [0; 16];
    filled[..user.len()].copy_from_slice(user);
    filled
}

/// Whether a record would be the one, were it a VLR and the first.
pub fn is_such(record: &Record) -> bool {
    record.user == user_id(USER) && record.id == RECORD
}

/// Names of 32 bytes, of which many are nearly the same: of every length, with zeros inside, and alike up to the
/// last byte.
fn some_names(random: &mut Lcg) -> Vec<[u8; 32]> {
    let mut full = [0; 32];
    full.fill_with(|| b'a' + random.byte() % 26);
    let cut = |length: usize| {
        let mut name = full;
        name[length..].fill(0);
        name
    };
    let with = |at: usize, byte: u8| {
        let mut name = full;
        name[at] = byte;
        name
    };
    let any = random.below(33) as usize;
    let mut short = cut(1 + random.below(12) as usize);
    let first = short;
    short[31] = random.byte();
    vec![
        full,
        with(31, b'A'),
        with(31, 0),
        with(random.below(32) as usize, 0),
        with(0, 0),
        cut(any),
        cut(0),
        first,
        short,
    ]
}

/// A data type, of those that there are, and options: more often bytes of which nothing is said, few of them or, of
/// hundreds of descriptors, many.
fn some_type(random: &mut Lcg, long: bool) -> [u8; 2] {
    let options = random.byte();
    match (long, random.below(14)) {
        (false, data_type @ 0..=10) => [data_type as u8, options],
        (false, 11) => [0, [0, 1, 7, 8, 9, 255][usize::from(options) % 6]],
        (false, _) => [0, options % 13],
        (true, 0..=2) => [options % 11, random.byte()],
        (true, _) => [0, [255, 254, options][usize::from(options) % 3]],
    }
}

/// The data of a record with descriptors: now and then not a multiple of 192 bytes, with a type above 10, or both.
fn some_data(random: &mut Lcg, names: &[[u8; 32]], long: bool) -> Vec<u8> {
    // 257 of the longest values are as many bytes as 16 bits count.
    let longest = long && random.one_in(3);
    let descriptors = match long {
        true if longest => 256 + random.below(86),
        true => 200 + random.below(142),
        false => [0, 1, 1, 2, 2, 3, 4, 5][random.below(8) as usize],
    } as usize;
    let mut data = vec![0; descriptors * DESCRIPTOR];
    random.fill(&mut data);
    for descriptor in data.chunks_mut(DESCRIPTOR) {
        let kind = match longest {
            true => [0, 255],
            false => some_type(random, long),
        };
        descriptor[2..4].copy_from_slice(&kind);
        let name = names[random.below(names.len() as u64) as usize];
        descriptor[4..36].copy_from_slice(&name);
    }
    if descriptors > 0 && random.one_in(12) {
        let which = random.below(descriptors as u64) as usize;
        let byte = random.byte();
        data[which * DESCRIPTOR + 2] = [11, 11, 12, 127, 128, 255, byte][byte as usize % 7];
    }
    let length = data.len();
    if random.one_in(16) {
        let other = [1, 4, 95, 96, 191, 192 + 96][random.below(6) as usize];
        data.resize((length + other).min(65_535), 0xa5);
    } else if length > 0 && random.one_in(16) {
        data.truncate(length - [1, 2, 96, 191][random.below(4) as usize]);
    }
    data
}

/// A record, more often such a one; else one that is nearly it, or another.
fn some_record(random: &mut Lcg, names: &[[u8; 32]], long: bool) -> Record {
    let data = some_data(random, names, long);
    let mut user = user_id(USER);
    let mut id = RECORD;
    match random.below(24) {
        0 => user[15] = random.byte() | 1,
        1 => user[9 + random.below(7) as usize] = [b' ', 1, b'4', 0x80][random.below(4) as usize],
        2 => user[random.below(9) as usize] ^= 0x20,
        3 => user[8..].fill(0),
        4 => user = user_id(b"LASF_Projection"),
        5 => random.fill(&mut user),
        6 => user = [0; 16],
        7 => id = [0, 3, 5, 0x104, 0x400, 0x8004, 65_535][random.below(7) as usize],
        8 => id = random.word() as u16,
        _ => {}
    }
    Record { user, id, data }
}

/// The bytes of all values of a point, as a record tells of them, where its descriptors are whole.
fn sizes(record: &Record) -> usize {
    let descriptors = record.data.chunks_exact(DESCRIPTOR);
    let sizes = descriptors.map(|d| model::size(d[2], d[3]).unwrap_or(0) as usize);
    sizes.sum()
}

/// A file and what it was made of.
pub struct Made {
    pub whole: Whole,
    pub names: Vec<[u8; 32]>,
    pub vlrs: Vec<Record>,
    pub later: Vec<Record>,
}

impl Made {
    /// The `i`-th file. Neighbours are of different versions or formats. Its extra bytes are as many as the sizes of
    /// its values add up to, one less, one more, or some more.
    pub fn new(i: u64, long: bool) -> Made {
        let mut random = Lcg::new(i ^ 0xa77 << 44 | u64::from(long) << 63);
        let kind = KINDS[(i % KINDS.len() as u64) as usize];
        let names = some_names(&mut random);
        let vlrs = match long {
            true => 1 + random.below(2),
            false => [0, 1, 1, 1, 2, 2, 3, 4][random.below(8) as usize],
        };
        let vlrs: Vec<Record> = (0..vlrs)
            .map(|_| some_record(&mut random, &names, long))
            .collect();
        let later = match kind.0 {
            3 => random.below(2),
            4 => random.below(4),
            _ => 0,
        };
        let later: Vec<Record> = (0..later)
            .map(|_| some_record(&mut random, &names, false))
            .collect();

        let wanted = vlrs.iter().find(|vlr| is_such(vlr)).map_or(0, sizes);
        let most = 65_535 - POINT_BYTES[usize::from(kind.1)] as usize;
        let extra = match random.below(8) {
            0 => wanted.saturating_sub(1),
            1..4 => wanted,
            4 => wanted + 1,
            5 if long => most,
            5 => 0,
            6 => random.below(40) as usize,
            _ => wanted + random.below(20) as usize,
        };
        let length = |record: &Record| record.data.len();
        let few = |random: &mut Lcg| [0, 0, 0, 1, 7][random.below(5) as usize];
        let plan = Plan {
            kind,
            padding: few(&mut random),
            vlrs: vlrs.iter().map(length).collect(),
            before_points: few(&mut random),
            extra: extra.min(most),
            points: if long {
                1 + random.below(3)
            } else {
                random.below(6)
            },
            after_points: few(&mut random),
            later: later.iter().map(length).collect(),
            after: few(&mut random),
        };
        let mut whole = Whole::default();
        whole.make_as(&plan, &mut random);
        let heads = whole.vlrs.iter().zip(&vlrs).map(|head| (head, 54));
        let later_heads = whole.later.iter().zip(&later).map(|head| (head, 60));
        for ((&(at, length), record), head) in heads.chain(later_heads) {
            whole.bytes[at + 2..at + 18].copy_from_slice(&record.user);
            whole.bytes[at + 18..at + 20].copy_from_slice(&record.id.to_le_bytes());
            whole.bytes[at + head..][..length].copy_from_slice(&record.data);
        }
        let mut made = Made {
            whole,
            names,
            vlrs,
            later,
        };
        made.put_floats(&mut random);
        made
    }

    /// Floats of every kind for the values that are floats, NaNs that signal among them.
    fn put_floats(&mut self, random: &mut Lcg) {
        let file = &mut self.whole.bytes;
        for (attribute, _) in model::every(&mut Found::default(), file, u64::MAX) {
            let [data_type, size, at, stride, count] = attribute.map(|n| n as usize);
            for k in 0..count {
                let bits = match data_type {
                    9 => random.f32_bits().into(),
                    10 => random.f64_bits(),
                    _ => continue,
                };
                file[at + k * stride..][..size].copy_from_slice(&bits.to_le_bytes()[..size]);
            }
        }
    }

    /// Names to look for: each of its own with all zeros, with none and with some, cut at the first zero, with a byte
    /// more or less or changed; and others.
    pub fn sought(&self, random: &mut Lcg) -> Vec<Vec<u8>> {
        let mut sought = vec![Vec::new(), vec![0; 32], vec![0; 33], vec![b'x'; 33]];
        for name in &self.names {
            let end = name.iter().rposition(|&b| b != 0).map_or(0, |at| at + 1);
            let zero = name.iter().position(|&b| b == 0).unwrap_or(32);
            let some = end + random.below(33 - end as u64) as usize;
            let longer = [&name[..], &[0]].concat();
            let mut other = *name;
            other[random.below(32) as usize] ^= 1 << random.below(8);
            let all = [
                &name[..],
                &name[..end],
                &name[..zero],
                &name[..some],
                &name[..end.saturating_sub(1)],
                &name[..31],
                &longer,
                &other,
            ];
            let one = all[random.below(8) as usize];
            sought.extend([name[..end].to_vec(), one.to_vec()]);
        }
        sought
    }

    /// Some user ids and record ids: those of the records, nearly those, and others.
    pub fn heads(&self, random: &mut Lcg) -> Vec<(Vec<u8>, u16)> {
        let mut heads = vec![(USER.to_vec(), RECORD), (user_id(USER).to_vec(), RECORD)];
        for record in self.vlrs.iter().chain(&self.later) {
            let Record { user, id, .. } = record;
            let end = user.iter().rposition(|&b| b != 0).map_or(0, |at| at + 1);
            let longer = [&user[..], &[0]].concat();
            let mut other = *user;
            other[15] ^= 1;
            let all = [&user[..], &user[..end.saturating_sub(1)], &longer, &other];
            let one = all[random.below(4) as usize];
            heads.push((user[..end].to_vec(), *id));
            heads.push((one.to_vec(), *id));
            heads.push((
                user.to_vec(),
                id ^ [1, 0x100, 0x8000][random.below(3) as usize],
            ));
        }
        heads.extend([
            (Vec::new(), 0),
            (USER.to_vec(), 3),
            (b"LASF_Sp".to_vec(), 4),
        ]);
        heads
    }
}

/// Points on both sides of every edge, and those of which 8, 16 or 32 bits, or the place in 64, would be there.
pub fn points(count: u64, stride: u64) -> [u64; 12] {
    let wraps = (u64::MAX / stride.max(1)).saturating_add(2);
    [
        1,
        count / 2 + 1,
        count,
        0,
        count.wrapping_add(1),
        u64::MAX,
        count.wrapping_add(1 << 8),
        1 + (1 << 16),
        1 + (1 << 32),
        1 + (1 << 63),
        wraps,
        wraps.saturating_sub(1),
    ]
}

/// Stretches on both sides of every edge, into every room around it.
pub fn some_stretch(random: &mut Lcg, count: u64) -> Stretch {
    let near = |n: u64, random: &mut Lcg| {
        n.wrapping_add(random.below(3))
            .wrapping_sub(1 + random.below(2))
    };
    let (first, many) = match random.below(12) {
        0 => (0, random.below(3)),
        1 => (count.wrapping_add(1), random.below(2)),
        2 => (u64::MAX, random.below(4)),
        3 => (2, u64::MAX - random.below(2)),
        4 => (1 + (1 << [8, 16, 32, 63][random.below(4) as usize]), 1),
        5 => (1, near(count, random)),
        6 => {
            let first = near(count, random);
            (first, count.wrapping_sub(first).wrapping_add(1))
        }
        7 => (1, random.long()),
        _ => {
            let first = 1 + random.below(count.clamp(1, 9));
            (first, random.below(count.min(9) + 1))
        }
    };
    let room = match random.below(6) {
        0 => many.saturating_sub(1),
        1 => 0,
        2 => many.saturating_add(2),
        3 => random.below(9),
        _ => many,
    };
    Stretch {
        first,
        count: many,
        room: room.min(12) as usize,
    }
}

/// An attribute or a place that no call gave: numbers around the file's own, at the ends, where sums and products
/// would wrap, and any.
pub fn made_up(random: &mut Lcg, like: [u64; 5], file: u64) -> [u64; 5] {
    let mut numbers = like;
    for k in 0..5 {
        if !random.one_in(3) {
            continue;
        }
        let [_, _, at, stride, count] = numbers;
        let last = at.wrapping_add(count.wrapping_sub(1).wrapping_mul(stride));
        numbers[k] = match random.below(14) {
            _ if k == 3 && random.one_in(3) => {
                [19, 20, 21, 65_534, 65_535, 65_536][random.below(6) as usize]
            }
            0 => 0,
            1 => 1,
            2 => u64::MAX,
            3 => u64::MAX - random.below(300),
            4 => (1 << 63) - random.below(2),
            5 => 1 << 32,
            6 => file.wrapping_sub(random.below(200)),
            7 => file.wrapping_add(random.below(3)),
            8 => random.long(),
            9 => random.below(300),
            10 => random.below(file + 1),
            11 => file.wrapping_sub(last),
            12 => like[k].wrapping_add(random.below(3)).wrapping_sub(1),
            _ => like[k] | 1 << (32 + random.below(32)),
        };
    }
    numbers
}

/// A place for damage: half of them in the head or in a descriptor of a record.
pub fn some_place(whole: &Whole, random: &mut Lcg) -> usize {
    let records = (whole.vlrs.len() + whole.later.len()) as u64;
    if records == 0 || random.one_in(2) {
        return whole.any_place(random);
    }
    let which = random.below(records) as usize;
    let (at, length, head) = match whole.vlrs.get(which) {
        Some(&(at, length)) => (at, length, 54),
        None => {
            let (at, length) = whole.later[which - whole.vlrs.len()];
            (at, length, 60)
        }
    };
    let descriptors = (length / DESCRIPTOR) as u64;
    match random.below(6) {
        0 => at + 2 + random.below(16) as usize,
        1 => at + 18 + random.below(2) as usize,
        _ if descriptors == 0 => at + 20,
        k => {
            let descriptor = at + head + DESCRIPTOR * random.below(descriptors) as usize;
            let byte = match k {
                2 | 3 => 2,
                4 => 3,
                _ => 4 + random.below(32),
            };
            descriptor + byte as usize
        }
    }
}

/// A byte to put there: any, and more often a type.
pub fn some_byte(random: &mut Lcg) -> u8 {
    match random.below(3) {
        0 => random.byte(),
        1 => random.byte() % 12,
        _ => [0, 1, 4, 10, 11, 12, 255][random.below(7) as usize],
    }
}

/// A file of 1.4 with one descriptor, and one point of format 6 with so many extra bytes.
pub fn one_told(data_type: u8, options: u8, name: &[u8], extra: u64) -> Vec<u8> {
    const OFFSET: u64 = 375 + 54 + DESCRIPTOR as u64;
    let length = 30 + extra;
    let mut file = plain(
        (OFFSET + length) as usize,
        [4, 375, OFFSET, 6, length, 1],
        &[],
    );
    file[100] = 1;
    file[375 + 2..][..9].copy_from_slice(USER);
    file[375 + 18..][..4].copy_from_slice(&[4, 0, DESCRIPTOR as u8, 0]);
    file[375 + 54 + 2..][..2].copy_from_slice(&[data_type, options]);
    file[375 + 54 + 4..][..name.len()].copy_from_slice(name);
    Lcg::new(extra).fill(&mut file[OFFSET as usize + 30..]);
    file
}

/// The first byte of the points of a file too large to be made: behind a header of 1.4 and the VLR.
pub const FAR: u64 = 375 + 54 + 2 * DESCRIPTOR as u64;

/// A file of 1.4 too large to be made, in memory that nobody has touched: with a VLR of two descriptors, of one
/// byte and of a u64, with counts on both sides of what 32 bits can count.
pub fn put_far(file: &mut [u8], format: u64, length: u64, count: u64) {
    put_header(file, [4, 375, FAR, format, length, count]);
    file[100] = 1;
    let vlr = &mut file[375..FAR as usize];
    vlr.fill(0);
    vlr[2..18].copy_from_slice(&user_id(USER));
    vlr[18..22].copy_from_slice(&[4, 0, 0x80, 1]);
    vlr[54 + 2..][..4].copy_from_slice(&[1, 0, b'a', 0]);
    vlr[54 + 192 + 2..][..4].copy_from_slice(&[7, 0, b'b', 0]);
}
