//! Document 02's No. 14, coordinate keys, written from its text and document 01's alone: which files have a directory
//! that can be followed, which keys stand in it and where the value of each is, and what a directory is written as.
//!
//! The Rust has no such calls, so that the port is compared with this. It shares nothing with the port but the text.
//! The file check and the parts are those of `file_model`, the first VLR is that of `attribute_model`; all else is
//! taken from the bytes here, in 128 bits, in which no sum or product wraps.

use crate::{answer::Answer, attribute_model::vlr_first, capi::Span, file_model::Found};

/// "User id LASF_Projection, first VLRs 34735 (u16 directory), 34736 (doubles) and 34737 (text)".
pub const USER: &[u8] = b"LASF_Projection";
pub const DIRECTORY: u16 = 34_735;
pub const DOUBLES: u16 = 34_736;
pub const TEXT: u16 = 34_737;

/// "Over 8,190 keys".
pub const MOST: usize = 8_190;

/// The numbers of a file's keys, and those of a key, as the port lists them.
pub type Keys = [u64; 5];
pub type Key = [u64; 5];

/// "Four numbers in front [...] and four for each key: key, location, count, value or index".
type Four = [u16; 4];

/// Each four numbers of some bytes; a rest is none.
fn fours(bytes: &[u8]) -> impl Iterator<Item = Four> {
    let two = |four: &[u8], k: usize| u16::from_le_bytes([four[2 * k], four[2 * k + 1]]);
    bytes
        .chunks_exact(8)
        .map(move |four| [0, 1, 2, 3].map(|k| two(four, k)))
}

/// A refusal, whose value is 0.
fn refused<T>(number: u64) -> Result<T, Answer> {
    Err(Answer::refusal(number, 0u8))
}

/// "Keys in rising order".
fn rising(keys: &[Four]) -> bool {
    keys.windows(2).all(|pair| pair[0][0] < pair[1][0])
}

/// What a key points at: first byte and bytes, from the first byte of its record on. None where it holds its value
/// itself. Doubles have eight bytes each.
fn part([_, location, count, index]: Four) -> Option<[u128; 2]> {
    let unit = match location {
        0 => return None,
        DOUBLES => 8,
        _ => 1,
    };
    Some([index, count].map(|n| unit * u128::from(n)))
}

/// What a file tells of its keys: where the three records are, and every key.
struct All {
    directory: Span,
    doubles: Option<Span>,
    text: Option<Span>,
    keys: Vec<Four>,
}

/// "Refusals, in order, each over the whole directory".
fn all(found: &mut Found, file: &[u8], allowance: u64) -> Result<All, Answer> {
    // "File check; no directory".
    let mut first = |record| vlr_first(found, file, allowance, USER, record);
    let [directory, doubles, text] = [first(DIRECTORY)?, first(DOUBLES)?, first(TEXT)?];
    let Some(directory) = directory else {
        return refused(42);
    };
    // "Directory short": more is fine.
    let [start, length] = directory.map(|n| n as usize);
    let mut fours = fours(&file[start..][..length]);
    let Some([_, _, _, many]) = fours.next() else {
        return refused(43);
    };
    let keys: Vec<Four> = fours.take(many.into()).collect();
    if keys.len() < usize::from(many) {
        return refused(43);
    }
    // "Keys not rising".
    if !rising(&keys) {
        return refused(44);
    }
    // "Unknown location".
    if keys.iter().any(|key| ![0, DOUBLES, TEXT].contains(&key[1])) {
        return refused(45);
    }
    // "Target record absent", whatever the count.
    let target = |key: &Four| match key[1] {
        DOUBLES => doubles,
        _ => text,
    };
    let pointing = || keys.iter().filter(|key| part(**key).is_some());
    if pointing().any(|key| target(key).is_none()) {
        return refused(46);
    }
    // "Target beyond its end".
    let beyond = |key: &Four| {
        let [first, bytes] = part(*key).unwrap_or_default();
        target(key).is_some_and(|[_, length]| first + bytes > length.into())
    };
    if pointing().any(beyond) {
        return refused(47);
    }
    Ok(All {
        directory,
        doubles,
        text,
        keys,
    })
}

/// A key: "its value, or its part of the doubles or text", which begin at these places. A part that would end beyond
/// the file is none, to which no call leads, and neither to another location, which is taken for text.
fn told(file: &[u8], [doubles, text]: [u64; 2], four: Four) -> Option<Key> {
    let [key, location, _, value] = four.map(u64::from);
    let Some([first, bytes]) = part(four) else {
        return Some([key, location, value, 0, 0]);
    };
    let (record, from) = match four[1] {
        DOUBLES => (DOUBLES, doubles),
        _ => (TEXT, text),
    };
    let start = u128::from(from) + first;
    let within = start + bytes <= file.len() as u128;
    within.then_some([key, record.into(), 0, start as u64, bytes as u64])
}

/// The numbers of a file's keys; the value is how many there are.
pub fn keys(found: &mut Found, file: &[u8], allowance: u64) -> Result<(u64, Keys), Answer> {
    let all = all(found, file, allowance)?;
    let many = all.keys.len() as u64;
    let [start, bytes] = all.directory;
    let [doubles, text] = all.starts();
    Ok((many, [many, start, bytes, doubles, text]))
}

/// Every key of a file, in the order of the directory; none where it is refused.
pub fn every(found: &mut Found, file: &[u8], allowance: u64) -> Vec<Key> {
    let Ok(all) = all(found, file, allowance) else {
        return Vec::new();
    };
    let told = all.keys.iter().map(|&four| told(file, all.starts(), four));
    told.map(|key| key.expect("within its record")).collect()
}

impl All {
    /// Where the doubles and the text begin; 0 where there are none.
    fn starts(&self) -> [u64; 2] {
        [self.doubles, self.text].map(|record| record.map_or(0, |[start, _]| start))
    }
}

/// "Give a key's value or its part": "key not found".
pub fn key(found: &mut Found, file: &[u8], allowance: u64, wanted: u16) -> Result<Key, Answer> {
    let all = all(found, file, allowance)?;
    match all.keys.iter().find(|four| four[0] == wanted) {
        Some(&four) => Ok(told(file, all.starts(), four).expect("within its record")),
        None => refused(48),
    }
}

/// The directory that numbers tell of, whatever they are: what of it is in the file.
fn shown(file: &[u8], [_, start, bytes, _, _]: Keys) -> &[u8] {
    let place = |at: u64| usize::try_from(at).map_or(file.len(), |at| at.min(file.len()));
    &file[place(start)..place(start.saturating_add(bytes))]
}

/// The key with this number in a directory; what it has no bytes for is 0.
fn entry(directory: &[u8], k: u16) -> Four {
    let byte = |at: usize| directory.get(at).copied().unwrap_or(0);
    let from = 8 + 8 * usize::from(k);
    [0, 2, 4, 6].map(|at| u16::from_le_bytes([byte(from + at), byte(from + at + 1)]))
}

/// The key with this number, the first being 0, of those that numbers tell of, whatever they are. Of the count the low
/// 16 bits count.
pub fn at(file: &[u8], numbers: Keys, k: u16) -> Option<Key> {
    let [many, _, _, doubles, text] = numbers;
    if k >= many as u16 {
        return None;
    }
    told(file, [doubles, text], entry(shown(file, numbers), k))
}

/// The first of them that is wanted.
pub fn find(file: &[u8], numbers: Keys, wanted: u16) -> Option<Key> {
    let directory = shown(file, numbers);
    // Behind the directory's last byte all keys are 0, and the first of them is enough.
    let telling = (directory.len() / 8 + 1).min(usize::from(numbers[0] as u16)) as u16;
    let k = (0..telling).find(|&k| entry(directory, k)[0] == wanted)?;
    at(file, numbers, k)
}

/// "Write a directory from keys in rising order": "refuses keys not rising, over 8,190 keys, then no room". One to
/// three numbers at the end are no key. "The last one the number of keys".
pub fn write(numbers: &[u16], dst: &mut [u8]) -> Answer {
    let keys: Vec<Four> = numbers.as_chunks().0.to_vec();
    if !rising(&keys) {
        return Answer::refusal(44, 0u8);
    }
    if keys.len() > MOST {
        return Answer::refusal(49, 0u8);
    }
    let front = [[1, 1, 0, keys.len() as u16]];
    let directory = front.iter().chain(&keys).flatten();
    let bytes: Vec<u8> = directory.flat_map(|number| number.to_le_bytes()).collect();
    match dst.get_mut(..bytes.len()) {
        Some(front) => {
            front.copy_from_slice(&bytes);
            Answer::result(bytes.len() as u64)
        }
        None => Answer::refusal(22, bytes.len() as u64),
    }
}
