//! Document 02's No. 8, extra bytes by name, written from its text, document 01's and the standard's table of the
//! descriptor alone: which files tell of attributes, which have one of a name, and where the value of each stands
//! in each point.
//!
//! The Rust has no such calls, so that the port is compared with this. It shares nothing with the port but the
//! text. The file check, the parts and the effective count are those of `file_model`; all else is taken from the
//! bytes here, in 128 bits, in which no sum or product wraps.

use crate::{
    answer::Answer,
    capi::{AttributeNumbers, AttributesPlace, DescriptorNumbers, Span},
    file_model::{Found, POINT_BYTES, Part, VLR},
};

/// "Descriptors of 192 bytes".
pub const DESCRIPTOR: usize = 192;

/// "User id LASF_Spec and record 4".
pub const USER: &[u8] = b"LASF_Spec";
pub const RECORD: u16 = 4;

/// "VLR head: 54 bytes".
const HEAD: u64 = 54;

/// The little-endian number of some bytes.
fn number(bytes: &[u8]) -> u128 {
    bytes.iter().rev().fold(0, |n, &b| n << 8 | u128::from(b))
}

/// A refusal whose value is 0.
fn refused<T>(number: u64) -> Result<T, Answer> {
    Err(Answer::refusal(number, 0u8))
}

/// "Types 1 to 10 are u8, i8, u16, i16, u32, i32, u64, i64, f32, f64; type 0 takes its byte count from options."
/// There are no others.
pub fn size(data_type: u8, options: u8) -> Option<u64> {
    let bits = match data_type {
        0 => return Some(options.into()),
        1 | 2 => 8,
        3 | 4 => 16,
        5 | 6 | 9 => 32,
        7 | 8 | 10 => 64,
        11.. => return None,
    };
    Some(bits / 8)
}

/// What is written into a field of so many bytes, "zeros filling it"; more does not go into it.
fn filled(text: &[u8], width: usize) -> Option<Vec<u8>> {
    let zeros = width.checked_sub(text.len())?;
    Some([text, &vec![0; zeros]].concat())
}

/// Where the data is of the first VLR that has this user id and this record id, if one has.
pub fn vlr_first(
    found: &mut Found,
    file: &[u8],
    allowance: u64,
    user: &[u8],
    record: u16,
) -> Result<Option<Span>, Answer> {
    let check = found.check(file, allowance);
    if check.number != 0 {
        return Err(check);
    }
    let mut parts: Vec<Part> = Vec::new();
    found.parts(file, &mut parts);
    let Some(user) = filled(user, 16) else {
        return Ok(None);
    };
    let sought = |&[kind, start, _]: &Part| {
        let head = &file[start as usize..];
        kind == VLR && head[2..18] == user && number(&head[18..20]) == record.into()
    };
    let first = parts.into_iter().find(sought);
    Ok(first.map(|[_, start, length]| [start + HEAD, length - HEAD]))
}

/// One of the descriptors of a file.
struct Told {
    at: u64,
    name: Vec<u8>,
    data_type: u8,
    size: u64,
    /// The sizes of those before it.
    before: u64,
}

/// What a file tells of its extra bytes: all its descriptors, where they are, and where the first point's extra
/// bytes are; or the first refusal, "each test over all descriptors before the next".
struct All {
    start: u64,
    told: Vec<Told>,
    extra: u64,
    stride: u64,
    count: u64,
}

fn all(found: &mut Found, file: &[u8], allowance: u64) -> Result<All, Answer> {
    // "File check; no such VLR; data not a multiple of 192; a type above 10; sizes adding up to more than the
    // extra bytes".
    let Some([start, length]) = vlr_first(found, file, allowance, USER, RECORD)? else {
        return refused(37);
    };
    let data = &file[start as usize..][..length as usize];
    let descriptors = data.chunks_exact(DESCRIPTOR);
    if !descriptors.remainder().is_empty() {
        return refused(38);
    }
    // "Type at byte 2, options at byte 3".
    let sizes: Option<Vec<u64>> = descriptors.clone().map(|d| size(d[2], d[3])).collect();
    let Some(sizes) = sizes else {
        return refused(39);
    };
    let stride = number(&file[105..107]) as u64;
    let bare = POINT_BYTES[usize::from(file[104])] as u64;
    if sizes.iter().sum::<u64>() > stride - bare {
        return refused(40);
    }
    // "Name in 32 bytes from byte 4".
    let told = descriptors.enumerate().map(|(k, descriptor)| Told {
        at: start + (k * DESCRIPTOR) as u64,
        name: descriptor[4..36].to_vec(),
        data_type: descriptor[2],
        size: sizes[k],
        before: sizes[..k].iter().sum(),
    });
    Ok(All {
        start,
        told: told.collect(),
        extra: number(&file[96..100]) as u64 + bare,
        stride,
        count: found.points(),
    })
}

/// The place before the first attribute; the value is how many there are.
pub fn attributes(
    found: &mut Found,
    file: &[u8],
    allowance: u64,
) -> Result<(u64, AttributesPlace), Answer> {
    let all = all(found, file, allowance)?;
    let many = all.told.len() as u64;
    Ok((many, [all.start, many, all.extra, all.stride, all.count]))
}

/// Every attribute of a file with its descriptor, in the order of the descriptors; none where it is refused.
pub fn every(found: &mut Found, file: &[u8], allowance: u64) -> Vec<(AttributeNumbers, Span)> {
    let Ok(all) = all(found, file, allowance) else {
        return Vec::new();
    };
    let told = all.told.iter();
    told.map(|told| (all.attribute(told), [told.at, DESCRIPTOR as u64]))
        .collect()
}

impl All {
    fn attribute(&self, told: &Told) -> AttributeNumbers {
        let at = self.extra + told.before;
        [
            told.data_type.into(),
            told.size,
            at,
            self.stride,
            self.count,
        ]
    }
}

/// "Find an attribute by its name, zeros filling it to 32 bytes": "of equal names, the first".
pub fn find(
    found: &mut Found,
    file: &[u8],
    allowance: u64,
    name: &[u8],
) -> Result<AttributeNumbers, Answer> {
    let all = all(found, file, allowance)?;
    let name = filled(name, 32);
    let named = |told: &&Told| Some(&told.name) == name.as_ref();
    match all.told.iter().find(named) {
        Some(told) => Ok(all.attribute(told)),
        None => refused(41),
    }
}

/// No value of a file is further: no lent memory has more bytes.
const FURTHEST: u64 = i64::MAX as u64;

/// The attribute at a place, its descriptor, and the place after it, whatever the place holds. None where none is
/// left, and at one that no file has: its descriptor is not all there, or its first value is further than any
/// file's. A type above 10, which no call leads to, has no bytes.
pub fn next(
    file: &[u8],
    place: AttributesPlace,
) -> Option<(AttributeNumbers, Span, AttributesPlace)> {
    let [at, left, first, stride, count] = place;
    let left = left.checked_sub(1)?;
    let from = usize::try_from(at).ok()?;
    let descriptor = file.get(from..)?.get(..DESCRIPTOR)?;
    let size = size(descriptor[2], descriptor[3]).unwrap_or(0);
    (first <= FURTHEST).then_some((
        [descriptor[2].into(), size, first, stride, count],
        [at, DESCRIPTOR as u64],
        [at + DESCRIPTOR as u64, left, first + size, stride, count],
    ))
}

/// Where the value of a point is, the first being 1, if it is in the file: "index", 27 with the point count. From one
/// point's to the next one's is a record, of 20 to 65,535 bytes.
fn span(file: &[u8], attribute: AttributeNumbers, point: u64) -> Result<Span, Answer> {
    let [_, size, at, stride, count] = attribute;
    let index = Err(Answer::refusal(27, count));
    let least = POINT_BYTES[0] as u64;
    if !(1..=count).contains(&point) || !(least..=u16::MAX.into()).contains(&stride) {
        return index;
    }
    let start = u128::from(at) + u128::from(point - 1) * u128::from(stride);
    match start + u128::from(size) <= file.len() as u128 {
        true => Ok([start as u64, size]),
        false => index,
    }
}

/// "Its first eight bytes as a number", "with the bits as stored".
fn bits(file: &[u8], [start, size]: Span) -> u64 {
    let value = &file[start as usize..][..size as usize];
    number(&value[..value.len().min(8)]) as u64
}

/// "Its value in any point": where it is, and its first eight bytes as a number.
pub fn value(file: &[u8], attribute: AttributeNumbers, point: u64) -> Result<(u64, Span), Answer> {
    let span = span(file, attribute, point)?;
    Ok((bits(file, span), span))
}

/// What is asked for: the values of so many points from number `first` on, into so many entries.
#[derive(Clone, Copy, Debug)]
pub struct Stretch {
    pub first: u64,
    pub count: u64,
    pub room: usize,
}

/// The same of a stretch of points: 27 where one of them has none, then 22 with the entries wanted. An empty
/// stretch may begin right behind the last point.
pub fn column(
    file: &[u8],
    attribute: AttributeNumbers,
    stretch: Stretch,
    entries: &mut Vec<u64>,
) -> Answer {
    let Stretch { first, count, room } = stretch;
    entries.clear();
    let points = attribute[4];
    let [from, to] = [u128::from(first), u128::from(first) + u128::from(count)];
    if from == 0 || to > u128::from(points) + 1 {
        return Answer::refusal(27, points);
    }
    // The last is the furthest, and where it is in the file, all are.
    if count > 0
        && let Err(index) = span(file, attribute, (to - 1) as u64)
    {
        return index;
    }
    if (room as u64) < count {
        return Answer::refusal(22, count);
    }
    entries.extend((first..).take(count as usize).map(|point| {
        let (bits, _) = value(file, attribute, point).expect("not further than the last");
        bits
    }));
    Answer::result(count)
}

/// What the bytes of a descriptor are, in the order of the standard's table, LAS 1.4 R15: of numbers and deprecated
/// fields which, as the port lists them.
enum Field {
    Number(usize, usize),
    Name,
    Deprecated(usize),
    Description,
}
use Field::*;

const TABLE: [Field; 16] = [
    Number(0, 2),
    Number(1, 1),
    Number(2, 1),
    Name,
    Number(3, 4),
    Number(4, 8),
    Deprecated(0),
    Number(5, 8),
    Deprecated(1),
    Number(6, 8),
    Deprecated(2),
    Number(7, 8),
    Deprecated(3),
    Number(8, 8),
    Deprecated(4),
    Description,
];

/// "Read [...] the descriptors": 1 with 192 where they are not all there, then 39; else the value is 192.
pub fn read(bytes: &[u8]) -> Result<DescriptorNumbers, Answer> {
    if bytes.len() < DESCRIPTOR {
        return Err(Answer::refusal(1, DESCRIPTOR as u64));
    }
    if size(bytes[2], bytes[3]).is_none() {
        return refused(39);
    }
    let mut told = DescriptorNumbers {
        numbers: [0; 9],
        name: [0; 32],
        deprecated: [0; 80],
        description: [0; 32],
    };
    let mut rest = bytes;
    let mut take = |width| {
        let (front, back) = rest.split_at(width);
        rest = back;
        front
    };
    for field in TABLE {
        match field {
            Number(k, width) => told.numbers[k] = number(take(width)) as u64,
            Name => told.name.copy_from_slice(take(32)),
            Deprecated(k) => told.deprecated[16 * k..][..16].copy_from_slice(take(16)),
            Description => told.description.copy_from_slice(take(32)),
        }
    }
    Ok(told)
}

/// "When writing descriptors, a type above 10, then no room". Of another number too wide for its field the low bits
/// count.
pub fn write(told: &DescriptorNumbers, dst: &mut [u8]) -> Answer {
    let mut bytes = Vec::new();
    for field in TABLE {
        match field {
            Number(k, width) => bytes.extend(&told.numbers[k].to_le_bytes()[..width]),
            Name => bytes.extend(told.name),
            Deprecated(k) => bytes.extend(&told.deprecated[16 * k..][..16]),
            Description => bytes.extend(told.description),
        }
    }
    if told.numbers[1] > 10 {
        return Answer::refusal(39, 0u8);
    }
    match dst.get_mut(..bytes.len()) {
        Some(front) => {
            front.copy_from_slice(&bytes);
            Answer::result(bytes.len() as u64)
        }
        None => Answer::refusal(22, bytes.len() as u64),
    }
}
