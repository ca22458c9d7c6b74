//! Files with coordinate keys to compare with, the same in every run, what can be damaged in them, and what is asked of
//! them.

use crate::{
    attribute_files::user_id,
    files::{KINDS, Plan, Whole},
    keys_model::{DIRECTORY, DOUBLES, TEXT, USER},
    migrate::plain,
    records::Lcg,
};

/// A key: key, location, count, value or index.
pub type Four = [u16; 4];

/// A record before or after the points: user id, record id and data.
#[derive(Clone)]
pub struct Record {
    user: [u8; 16],
    id: u16,
    data: Vec<u8>,
}

impl Record {
    pub fn new(id: u16, data: Vec<u8>) -> Record {
        let user = user_id(USER);
        Record { user, id, data }
    }

    /// Whether it would be one of the three, were it a VLR and the first.
    pub fn is(&self, id: u16) -> bool {
        self.user == user_id(USER) && self.id == id
    }
}

/// One of some numbers.
pub fn one<T: Copy>(random: &mut Lcg, of: &[T]) -> T {
    of[random.below(of.len() as u64) as usize]
}

/// The bytes of a directory.
pub fn directory(front: Four, keys: &[Four]) -> Vec<u8> {
    let numbers = [front].into_iter().chain(keys.iter().copied()).flatten();
    numbers.flat_map(u16::to_le_bytes).collect()
}

/// An index and a count into so many entries: up to their end, one past it, beside it, at the ends of 16 bits, and such
/// that 16 bits would hold their sum or its bytes.
fn some_part(random: &mut Lcg, entries: u16) -> [u16; 2] {
    let count = random.below(u64::from(entries) + 1) as u16;
    let rest = entries - count;
    match random.below(24) {
        0..10 => [count, random.below(u64::from(rest) + 1) as u16],
        10..15 => [count, rest],
        15 => [count, rest.saturating_add(1)],
        16 => [count.saturating_add(1), rest],
        17 => [0, entries],
        18 => [0, entries.saturating_add(1)],
        19 => [65_535, one(random, &[0, 1, 65_535])],
        20 => [one(random, &[0, 1]), 65_535],
        21 => [count, rest.wrapping_add(8_192)],
        22 => [count.wrapping_add(32_768), rest.wrapping_add(32_768)],
        _ => [random.word() as u16, random.word() as u16],
    }
}

/// A location that there isn't: beside one that there is, in either byte, or any.
fn other_location(random: &mut Lcg) -> u16 {
    let near = [
        1, 2, 255, 256, 34_734, 34_735, 34_738, 34_739, 34_480, 34_992, 1_968, 32_767, 32_768,
        65_535,
    ];
    match random.below(3) {
        0 => (random.word() as u16).max(1),
        _ => one(random, &near),
    }
}

/// The keys of a directory, most of them rising and pointing into so many doubles and so much text. Now and then one is
/// not above the one before it, at a location that there isn't, or points beyond.
fn some_keys(random: &mut Lcg, many: u64, doubles: u16, text: u16) -> Vec<Four> {
    let step = one(random, &[1, 2, 3, 700, 5_000]);
    let spread = u64::from(u16::MAX) / (many + 1);
    let mut key = match random.below(4) {
        0 => 0,
        1 => one(random, &[255, 1_023, 1_024, 32_767]),
        _ => random.below(1_000) as u16,
    };
    let careless = random.one_in(3);
    let mut keys = Vec::new();
    for _ in 0..many {
        let location = match random.below(7) {
            0..3 => 0,
            3 | 4 => DOUBLES,
            _ => TEXT,
        };
        let [count, index] = match location {
            0 => [one(random, &[1, 1, 0, 65_535]), random.word() as u16],
            _ => {
                let entries = if location == DOUBLES { doubles } else { text };
                let [count, index] = some_part(random, entries);
                let within = u32::from(count) + u32::from(index) <= entries.into();
                match within || careless {
                    true => [count, index],
                    false => [entries.min(1), entries.saturating_sub(1)],
                }
            }
        };
        keys.push([key, location, count, index]);
        key = key.wrapping_add(1 + random.below(step.min(spread).max(1)) as u16);
    }
    if many > 0 && random.one_in(10) {
        let k = random.below(many) as usize;
        keys[k][1] = other_location(random);
    }
    if many > 1 && random.one_in(10) {
        let k = 1 + random.below(many - 1) as usize;
        keys[k][0] = match random.below(5) {
            0 | 1 => keys[k - 1][0],
            2 => keys[k - 1][0].wrapping_sub(1),
            3 => 0,
            _ => keys[0][0],
        };
    }
    keys
}

/// The data of a directory: what stands in front is any, the number of keys now and then another, and there are bytes
/// missing or more behind.
fn some_directory(random: &mut Lcg, keys: &[Four]) -> Vec<u8> {
    let many = keys.len() as u16;
    let mut front = [1, 1, 0, many];
    if random.one_in(2) {
        let any = random.long();
        front[..3].copy_from_slice(&[any as u16, (any >> 16) as u16, (any >> 32) as u16]);
    }
    if random.one_in(14) {
        front[3] = match random.below(6) {
            0 => many.wrapping_add(1),
            1 => many.saturating_sub(1),
            2 => many + 256,
            3 => 65_535,
            4 => 8_190 + random.below(3) as u16,
            _ => 0,
        };
    }
    let mut data = directory(front, keys);
    let length = data.len();
    match random.below(16) {
        0 => data.truncate(length - 1 - random.below(length.min(17) as u64) as usize),
        1 => data.truncate(random.below(10) as usize),
        2..5 => data.resize(length + 1 + random.below(17) as usize, random.byte()),
        _ => {}
    }
    data
}

/// A record that is none of the three, but nearly.
fn nearly(random: &mut Lcg, record: &Record) -> Record {
    let mut other = record.clone();
    match random.below(9) {
        0 => other.user[15] = random.byte() | 1,
        1 => other.user[14] = one(random, &[0, b'N', b' ', b'm']),
        2 => other.user[random.below(14) as usize] ^= 0x20,
        3 => other.user = user_id(b"LASF_Spec"),
        4 => other.user = [0; 16],
        5 => random.fill(&mut other.user),
        6 => other.id ^= 1 << random.below(16),
        7 => other.id = one(random, &[2_111, 2_112, 34_734, 34_738, 0]),
        _ => other.id = random.word() as u16,
    }
    other
}

/// A file and what it was made of.
pub struct Made {
    pub whole: Whole,
    pub vlrs: Vec<Record>,
    pub later: Vec<Record>,
    /// Its keys, as its first directory has them.
    pub keys: Vec<Four>,
}

impl Made {
    /// The `i`-th file. Neighbours are of different versions or formats. Most have the three records, in any order,
    /// some of them twice, and others; some have one of them after the points, or not at all.
    pub fn new(i: u64, long: bool) -> Made {
        let mut random = Lcg::new(i ^ 0x6e7 << 44 | u64::from(long) << 63);
        let kind = KINDS[(i % KINDS.len() as u64) as usize];
        let doubles = match random.below(3) {
            0 => 0,
            _ if long => 65_535 - random.below(20) as usize,
            _ => random.below(50) as usize,
        };
        let text = match random.below(3) {
            0 => random.below(3) as usize,
            _ if long => 65_535 - random.below(20) as usize,
            _ => random.below(30) as usize,
        };
        let many = match long {
            true => one(&mut random, &[100, 255, 256, 4_000, 8_189, 8_190]),
            false => one(&mut random, &[0, 1, 1, 2, 2, 3, 4, 5, 6, 12]),
        };
        let keys = some_keys(&mut random, many, (doubles / 8) as u16, text as u16);
        let mut data = some_directory(&mut random, &keys);
        data.truncate(65_535);
        let mut values = |length: usize| {
            let mut data = vec![0; length];
            random.fill(&mut data);
            data
        };
        let three = [
            Record::new(DIRECTORY, data),
            Record::new(DOUBLES, values(doubles)),
            Record::new(TEXT, values(text)),
        ];
        let (vlrs, later) = some_records(&mut random, &three, kind.0);
        let made = Made::of(kind, vlrs, later, &mut random);
        Made { keys, ..made }
    }

    /// A file with these records.
    pub fn of(kind: (u8, u8), vlrs: Vec<Record>, later: Vec<Record>, random: &mut Lcg) -> Made {
        let length = |record: &Record| record.data.len();
        let few = |random: &mut Lcg| one(random, &[0, 0, 0, 1, 7]);
        let plan = Plan {
            kind,
            padding: few(random),
            vlrs: vlrs.iter().map(length).collect(),
            before_points: few(random),
            extra: few(random),
            points: random.below(3),
            after_points: few(random),
            later: later.iter().map(length).collect(),
            after: few(random),
        };
        let mut whole = Whole::default();
        whole.make_as(&plan, random);
        let heads = whole.vlrs.iter().zip(&vlrs).map(|head| (head, 54));
        let later_heads = whole.later.iter().zip(&later).map(|head| (head, 60));
        for ((&(at, length), record), head) in heads.chain(later_heads) {
            whole.bytes[at + 2..at + 18].copy_from_slice(&record.user);
            whole.bytes[at + 18..at + 20].copy_from_slice(&record.id.to_le_bytes());
            whole.bytes[at + head..][..length].copy_from_slice(&record.data);
        }
        Made {
            whole,
            vlrs,
            later,
            keys: Vec::new(),
        }
    }

    /// Keys to look for: each of its own and both beside it, the ends, and others.
    pub fn wanted(&self, random: &mut Lcg) -> Vec<u16> {
        let own = self.keys.iter().map(|four| four[0]);
        let mut wanted: Vec<u16> = own
            .flat_map(|key| [key.wrapping_sub(1), key, key.wrapping_add(1)])
            .collect();
        wanted.extend([0, 65_535, random.word() as u16]);
        wanted.sort_unstable();
        wanted.dedup();
        wanted
    }
}

/// The records of a file, before its points and after them.
fn some_records(random: &mut Lcg, three: &[Record; 3], minor: u8) -> (Vec<Record>, Vec<Record>) {
    let mut vlrs = Vec::new();
    let mut later = Vec::new();
    for record in three {
        // Now and then it is not there, nearly there, or behind the points.
        match random.below(14) {
            0 => {}
            1 => vlrs.push(nearly(random, record)),
            2 => later.push(record.clone()),
            _ => vlrs.push(record.clone()),
        }
    }
    for _ in 0..random.below(3) {
        let which = random.below(3) as usize;
        vlrs.push(nearly(random, &three[which]));
    }
    // In any order.
    for k in (1..vlrs.len()).rev() {
        vlrs.swap(k, random.below(k as u64 + 1) as usize);
    }
    // Second ones, behind the first: shorter, longer, or of other bytes.
    if random.one_in(3) {
        let mut second = three[random.below(3) as usize].clone();
        let length = second.data.len();
        match random.below(4) {
            0 => second.data.truncate(length / 2),
            1 => second.data.resize((length + 64).min(65_535), 0),
            2 => second.data.iter_mut().for_each(|byte| *byte ^= 1),
            _ => second.data.clear(),
        }
        vlrs.push(second);
    }
    for _ in 0..random.below(3) {
        later.push(three[random.below(3) as usize].clone());
    }
    later.truncate(match minor {
        3 => 1,
        4 => 3,
        _ => 0,
    });
    (vlrs, later)
}

/// A directory as common programs write it: the keys of GeoTIFF for a projected or a geographic system, with texts that
/// end with a bar, and with doubles where the system is not one of the register's.
pub fn real(i: u64) -> Made {
    let mut random = Lcg::new(i ^ 0x9e0 << 40);
    let kind = KINDS[(i % KINDS.len() as u64) as usize];
    let mut text = String::new();
    let mut doubles: Vec<f64> = Vec::new();
    let mut keys: Vec<Four> = Vec::new();
    let mut cite = |keys: &mut Vec<Four>, key: u16, words: &str| {
        let at = text.len() as u16;
        text.push_str(words);
        text.push('|');
        keys.push([key, TEXT, words.len() as u16 + 1, at]);
    };
    let short = |keys: &mut Vec<Four>, key: u16, value: u16| keys.push([key, 0, 1, value]);
    let projected = !random.one_in(3);
    let own = random.one_in(3);
    short(&mut keys, 1024, if projected { 1 } else { 2 });
    short(&mut keys, 1025, 1);
    let name = one(&mut random, &["WGS 84 / UTM zone 32N", "ETRS89", ""]);
    cite(&mut keys, 1026, name);
    short(&mut keys, 2048, if own { 32_767 } else { 4_326 });
    cite(&mut keys, 2049, "WGS 84");
    short(&mut keys, 2054, 9_102);
    if own {
        for (key, value) in [(2_057, 6_378_137.0), (2_059, 298.257_223_563)] {
            keys.push([key, DOUBLES, 1, doubles.len() as u16]);
            doubles.push(value);
        }
    }
    if projected {
        short(&mut keys, 3072, if own { 32_767 } else { 32_632 });
        cite(&mut keys, 3073, "UTM zone 32N");
        short(&mut keys, 3076, 9_001);
        if own {
            keys.push([3_080, DOUBLES, 5, doubles.len() as u16]);
            doubles.extend([9.0, 0.0, 0.9996, 500_000.0, f64::NAN]);
        }
    }
    if random.one_in(2) {
        short(&mut keys, 4096, 5_773);
        cite(&mut keys, 4097, "EGM96");
        short(&mut keys, 4099, 9_001);
    }
    if random.one_in(2) {
        text.push('\0');
    }
    let mut vlrs = vec![Record::new(
        DIRECTORY,
        directory([1, 1, random.below(2) as u16, keys.len() as u16], &keys),
    )];
    if !doubles.is_empty() || random.one_in(2) {
        let bits = doubles.iter().flat_map(|value| value.to_le_bytes());
        vlrs.push(Record::new(DOUBLES, bits.collect()));
    }
    vlrs.push(Record::new(TEXT, text.into_bytes()));
    let made = Made::of(kind, vlrs, Vec::new(), &mut random);
    Made { keys, ..made }
}

/// A file of 1.2 without points: a directory, and doubles and text of so many bytes, where they are.
pub fn small(data: &[u8], doubles: Option<usize>, text: Option<usize>) -> Vec<u8> {
    let lengths = [(DOUBLES, doubles), (TEXT, text)];
    let there = lengths.into_iter().filter_map(|(id, n)| n.map(|n| (id, n)));
    let mut vlrs = vec![(DIRECTORY, data.to_vec())];
    vlrs.extend(there.map(|(id, length)| (id, vec![b'x'; length])));
    let size = 227 + vlrs.iter().map(|(_, data)| 54 + data.len()).sum::<usize>();
    let mut file = plain(size, [2, 227, size as u64, 0, 20, 0], &[]);
    file[100] = vlrs.len() as u8;
    let mut at = 227;
    for (id, data) in vlrs {
        file[at + 2..at + 18].copy_from_slice(&user_id(USER));
        file[at + 18..at + 20].copy_from_slice(&id.to_le_bytes());
        file[at + 20..at + 22].copy_from_slice(&(data.len() as u16).to_le_bytes());
        file[at + 54..][..data.len()].copy_from_slice(&data);
        at += 54 + data.len();
    }
    file
}

/// Numbers of keys that no call gave: around the file's own, at the ends, and where sums would wrap.
pub fn made_up(random: &mut Lcg, like: [u64; 5], file: u64) -> [u64; 5] {
    let mut numbers = like;
    for k in 0..5 {
        if !random.one_in(3) {
            continue;
        }
        numbers[k] = match random.below(14) {
            0 => 0,
            1 => random.below(20),
            2 => u64::MAX,
            3 => u64::MAX - random.below(600_000),
            4 => (1 << 63) - random.below(2),
            5 => 1 << 32,
            6 => file.wrapping_sub(random.below(100)),
            7 => file.wrapping_add(random.below(3)),
            8 => random.long(),
            9 => random.below(file + 1),
            10 => 65_535 + random.below(3),
            11 => like[k].wrapping_add(random.below(17)).wrapping_sub(8),
            12 => file
                .wrapping_sub(like[1])
                .wrapping_add(random.below(3))
                .wrapping_sub(1),
            _ => like[k] | 1 << (16 + random.below(48)),
        };
    }
    numbers
}

/// A place for damage: most of them in the head of a record or in a directory's numbers.
pub fn some_place(made: &Made, random: &mut Lcg) -> usize {
    let whole = &made.whole;
    let records = (whole.vlrs.len() + whole.later.len()) as u64;
    if records == 0 || random.one_in(3) {
        return whole.any_place(random);
    }
    let which = random.below(records) as usize;
    let (at, length, head) = match whole.vlrs.get(which) {
        Some(&(at, length)) => (at, length, 54),
        None => {
            let (at, length) = whole.later[which - whole.vlrs.len()];
            (at, length, 60)
        }
    };
    match random.below(8) {
        0 => at + 2 + random.below(16) as usize,
        1 => at + 18 + random.below(2) as usize,
        2 => at + 20 + random.below(2) as usize,
        _ if length == 0 => at + 20,
        3 => at + head + 6 % length,
        _ => at + head + random.below(length as u64) as usize,
    }
}

/// A byte to put there: any, and more often one that tells.
pub fn some_byte(random: &mut Lcg) -> u8 {
    match random.below(3) {
        0 => random.byte(),
        1 => one(random, &[0, 1, 2, 3, 7, 8, 9, 16]),
        _ => one(random, &[0xaf, 0xb0, 0xb1, 0xb2, 0x87, 0xff, 0x80]),
    }
}
