//! A stand-in for the port's calls on runs of records, questions and conversions, into which an error can
//! be put. The comparison is tested with it: each error must be seen.
//!
//! It is written apart from `convert_model` and otherwise: each record becomes a list of fields, the
//! flags are words, angles are f64, and products are checked in 64 bits.

use crate::{capi::Row, convert::Library};

errors! {
    RefusesEveryRun,
    SameBytesEachTime,
    DestinationLeftAsFound,
    FirstRecordCopiedOnward,
    OverlapOnClass2Convertible,
    Class12WithoutOverlapConvertible,
    Class28LetThrough,
    Class28WithOverlapLetThrough,
    ChannelIgnored,
    NirDroppedSilently,
    NirZeroRefused,
    NirOfBluesPlace,
    RankHeld,
    RankHeldAt90,
    Rank91LetThrough,
    NinetyAboveZeroOnly,
    EveryRankOfAnI8,
    RankHalvesTowardZero,
    RankFractionDropped,
    AngleValueSigned,
    RecordNumberFrom0,
    LastRecordNotJudged,
    AnotherOrderOfFields,
    AnotherOrderOfRefusals,
    AngleBeforeNir,
    WritesBeforeJudging,
    RestOfDestinationCleared,
    AsksOfFirstRecordOnly,
    LastRecordNotAskedOf,
    AskedBytesOfSourceFormat,
    AskedByWritingIntoNoRoom,
    AskedWithoutLookAtSource,
    AskedUpRefusesClass28,
    RoomForTheSource,
    RoomBeforeRecords,
    RoomOfOneLessIsEnough,
    NoRoomTellsWhatIsThere,
    NoRoomTellsTheLastRecord,
    RunOfNoneAlwaysGoes,
    ProductIn64Bits,
    ProductIn32Bits,
    ValueOver64BitsWraps,
    ExtraBytesDropped,
    ExtraBytesOfFirstRecord,
    NanBitsChanged,
    WaveformNanBitsChanged,
    LengthOfFormatForRecordLength,
    SourceLengthNotSeen,
    TargetLengthNotSeen,
    RoomBeforeSource,
    LengthBeforePair,
    FormatByteMasked,
    UpgradeAngleRounded,
    UpgradeOverlapAtClass28,
    UpgradeAsTheRustDoes,
    UpgradeLosesEdge,
    UpgradeNirOfColour,
}

pub struct StandIn {
    pub error: Option<Error>,
}

/// What a format has, by its code: whether it is extended, and the bytes of time, colour, near
/// infrared and waveform.
type Layout = (bool, [usize; 4]);

fn layout(code: u8) -> Layout {
    let widths = match code {
        1 | 6 => [8, 0, 0, 0],
        3 | 7 => [8, 6, 0, 0],
        8 => [8, 6, 2, 0],
        4 | 9 => [8, 0, 0, 29],
        5 => [8, 6, 0, 29],
        _ => [8, 6, 2, 29],
    };
    (code >= 6, widths)
}

fn length((extended, widths): Layout) -> u64 {
    let head = if extended { 22 } else { 20 };
    head + widths.iter().sum::<usize>() as u64
}

/// A record's fields, as slices of it.
struct Fields<'a> {
    place: &'a [u8],
    flags: &'a [u8],
    angle: &'a [u8],
    user: &'a [u8],
    source: &'a [u8],
    parts: [&'a [u8]; 4],
    extra: &'a [u8],
}

fn fields((extended, widths): Layout, record: &[u8]) -> Fields<'_> {
    let mut rest = record;
    let mut take = |n| {
        let (field, after) = rest.split_at(n);
        rest = after;
        field
    };
    let place = take(14);
    let (flags, angle, user) = if extended {
        let (flags, user) = (take(3), take(1));
        (flags, take(2), user)
    } else {
        let (flags, angle) = (take(2), take(1));
        (flags, angle, take(1))
    };
    Fields {
        place,
        flags,
        angle,
        user,
        source: take(2),
        parts: widths.map(take),
        extra: rest,
    }
}

/// A float's bytes with the bit set that makes a NaN a quiet one.
fn quieted(bytes: &[u8]) -> Vec<u8> {
    let mut bytes = bytes.to_vec();
    match bytes.len() {
        8 if f64::from_le_bytes(bytes[..].try_into().expect("eight")).is_nan() => bytes[6] |= 8,
        4 if f32::from_le_bytes(bytes[..].try_into().expect("four")).is_nan() => bytes[2] |= 0x40,
        _ => {}
    }
    bytes
}

impl StandIn {
    fn has(&self, error: Error) -> bool {
        self.error == Some(error)
    }

    /// The flags and the angle of the old record, or why there is none.
    fn fitted(&self, from: &Fields) -> Result<(u16, i8), [u64; 2]> {
        let [a, b, c] = [0, 1, 2].map(|k| u64::from(from.flags[k]));
        let (number, returns) = (a % 16, a / 16);
        let (overlap, channel) = (b & 8 != 0, b / 16 % 4);
        let returned = match () {
            () if number > 7 => Err([15, number]),
            () if returns > 7 => Err([16, returns]),
            () => Ok(()),
        };
        if !self.has(AnotherOrderOfRefusals) {
            returned?;
        }
        if c > 31 {
            return Err([17, c]);
        }
        returned?;
        if channel != 0 && !self.has(ChannelIgnored) {
            return Err([18, channel]);
        }
        let fits = match (overlap, c) {
            (true, 2) if self.has(OverlapOnClass2Convertible) => true,
            (true, 28) if self.has(Class28WithOverlapLetThrough) => true,
            (false, 12) if self.has(Class12WithoutOverlapConvertible) => true,
            (false, 28) if self.has(Class28LetThrough) => true,
            (true, _) => c == 12,
            (false, _) => c != 12 && c != 28,
        };
        if !fits {
            return Err([19, c]);
        }
        let bits = u16::from_le_bytes([from.angle[0], from.angle[1]]);
        let degrees = f64::from(bits as i16) * 6.0 / 1000.0;
        let rank = match degrees.fract().abs() == 0.5 {
            true if self.has(RankHalvesTowardZero) => degrees.trunc(),
            _ if self.has(RankFractionDropped) => degrees.trunc(),
            _ => degrees.round(),
        };
        let angle = match rank {
            -90.0..=90.0 => Ok(rank as i8),
            91.0 if self.has(Rank91LetThrough) => Ok(rank as i8),
            -128.0..=0.0 if self.has(NinetyAboveZeroOnly) => Ok(rank as i8),
            -128.0..=127.0 if self.has(EveryRankOfAnI8) => Ok(rank as i8),
            _ if self.has(RankHeld) => Ok(rank as i8),
            _ if self.has(RankHeldAt90) => Ok(rank.clamp(-90.0, 90.0) as i8),
            _ if self.has(AngleValueSigned) => Err([21, bits as i16 as u64]),
            _ => Err([21, bits.into()]),
        };
        if self.has(AngleBeforeNir) {
            angle?;
        }
        let [_, colour, nir, _] = from.parts;
        let bytes = match self.has(NirOfBluesPlace) && !nir.is_empty() {
            true => &colour[4..],
            false => nir,
        };
        let found = bytes.iter().rev();
        let found = found.fold(0, |n, &byte| n * 256 + u64::from(byte));
        let offends = match self.has(NirZeroRefused) {
            true => !nir.is_empty(),
            false => found != 0,
        };
        if offends && !self.has(NirDroppedSilently) {
            return Err([20, found]);
        }
        let one = number + returns * 8 + (b & 0xc0);
        let two = (c + (b & 7) * 32) & 0xff;
        Ok(((one | two << 8) as u16, angle?))
    }

    /// The flags and the angle of the extended record.
    fn upgraded(&self, from: &Fields) -> ([u8; 3], i16) {
        let (a, b) = (from.flags[0], from.flags[1]);
        let class = b % 32;
        let one = a % 8 + a / 8 % 8 * 16;
        let overlap = class == 12 || class == 28 && self.has(UpgradeOverlapAtClass28);
        let moved = if self.has(UpgradeLosesEdge) {
            0x40
        } else {
            0xc0
        };
        let two = b / 32 + 8 * u8::from(overlap) + (a & moved);
        let scaled = f64::from(from.angle[0] as i8) * 500.0 / 3.0;
        let scaled = match self.has(UpgradeAngleRounded) {
            true => scaled.round(),
            false => scaled.trunc(),
        };
        match self.has(UpgradeAsTheRustDoes) {
            true => ([one, 0, b], scaled as i16),
            false => ([one, two, class], scaled as i16),
        }
    }

    /// The record of the other format, or why there is none.
    fn record(&self, from: Layout, to: Layout, record: &[u8]) -> Result<Vec<u8>, [u64; 2]> {
        let it = fields(from, record);
        let mut made = it.place.to_vec();
        let (flags, mut angle, mut user) = if to.0 {
            let (flags, angle) = self.upgraded(&it);
            (
                flags.to_vec(),
                angle.to_le_bytes().to_vec(),
                it.user.to_vec(),
            )
        } else {
            let (flags, angle) = self.fitted(&it)?;
            (
                flags.to_le_bytes().to_vec(),
                vec![angle as u8],
                it.user.to_vec(),
            )
        };
        if to.0 != self.has(AnotherOrderOfFields) {
            std::mem::swap(&mut angle, &mut user);
        }
        made.extend([flags, angle, user].concat());
        made.extend(it.source);
        for (part, &width) in it.parts.into_iter().zip(&to.1) {
            match (part.len(), width) {
                (8, 8) if self.has(NanBitsChanged) => made.extend(quieted(part)),
                (29, 29) if self.has(WaveformNanBitsChanged) => {
                    made.extend(&part[..13]);
                    made.extend(part[13..].chunks(4).flat_map(quieted));
                }
                (0, 2) if self.has(UpgradeNirOfColour) => made.extend(&it.parts[1][..2]),
                (0, 2) => made.extend([0, 0]),
                (_, 0) => {}
                _ => made.extend(part),
            }
        }
        if !self.has(ExtraBytesDropped) {
            made.extend(it.extra);
        }
        Ok(made)
    }

    /// The bytes that are wanted but not there, if so.
    fn short(&self, number: u64, there: usize, length: u64, count: u64) -> Result<(), Row> {
        let wraps = length.wrapping_mul(count);
        let (bytes, value) = match length.checked_mul(count) {
            _ if self.has(ProductIn64Bits) => (wraps, wraps),
            _ if self.has(ProductIn32Bits) => (wraps & 0xffff_ffff, wraps & 0xffff_ffff),
            Some(bytes) => (bytes, bytes),
            None if self.has(ValueOver64BitsWraps) => (u64::MAX, wraps),
            None => (u64::MAX, 0),
        };
        if (there as u64) < bytes {
            return Err([number, value, 0]);
        }
        Ok(())
    }

    /// The room that is wanted but not there, if so; a question has none and wants none.
    fn no_room(&self, dst: &Option<&mut [u8]>, lengths: [u64; 2], count: u64) -> Result<(), Row> {
        let [source, target] = lengths;
        let length = if self.has(RoomForTheSource) {
            source
        } else {
            target
        };
        let Some(mut there) = dst.as_ref().map(|dst| dst.len()) else {
            return Ok(());
        };
        if self.has(RoomOfOneLessIsEnough) {
            there += 1;
        }
        self.short(22, there, length, count)
            .map_err(|[number, value, _]| match () {
                () if self.has(NoRoomTellsWhatIsThere) => [number, there as u64, 0],
                () if self.has(NoRoomTellsTheLastRecord) => [number, value, count],
                () => [number, value, 0],
            })
    }

    /// A run in either direction, or the question about it, which has no destination. What is written goes
    /// into `dst` record by record where the error says so, and all at once otherwise.
    fn run(
        &self,
        pairs: &[[u8; 2]],
        src: &[u8],
        (code, extra, count): (u8, u16, u64),
        mut dst: Option<&mut [u8]>,
    ) -> Result<u64, Row> {
        let asks = dst.is_none();
        if asks && self.has(AskedByWritingIntoNoRoom) {
            return self.run(pairs, src, (code, extra, count), Some(&mut []));
        }
        if count == 0 && self.has(RunOfNoneAlwaysGoes) {
            return Ok(0);
        }
        let extra = u64::from(extra);
        if self.has(LengthBeforePair) && extra > 65_515 {
            return Err([8, 20 + extra, 0]);
        }
        let code = match self.has(FormatByteMasked) {
            true => code & 0x3f,
            false => code,
        };
        let Some(&[_, target]) = pairs.iter().find(|pair| pair[0] == code) else {
            return Err([26, code.into(), 0]);
        };
        let (from, to) = (layout(code), layout(target));
        let mut step = length(from) + extra;
        if step > 65_535 && !self.has(SourceLengthNotSeen) {
            return Err([8, step, 0]);
        }
        let room = length(to) + extra;
        if room > 65_535 && !self.has(TargetLengthNotSeen) {
            return Err([8, room, 0]);
        }
        let lengths = [step, room];
        if self.has(RoomBeforeSource) {
            self.no_room(&dst, lengths, count)?;
        }
        if !(asks && self.has(AskedWithoutLookAtSource)) {
            self.short(1, src.len(), step, count)?;
        }
        if self.has(RoomBeforeRecords) {
            self.no_room(&dst, lengths, count)?;
        }
        if self.has(RefusesEveryRun) {
            return Err([15, 8, 1]);
        }
        if self.has(LengthOfFormatForRecordLength) {
            step = length(from);
        }
        let mut made = Vec::new();
        let mut first: Option<Vec<u8>> = None;
        let whole = (src.len() as u64 / step).min(count);
        for k in 0..whole {
            if asks && k > 0 && self.has(AsksOfFirstRecordOnly) {
                break;
            }
            if asks && k + 1 == whole && self.has(LastRecordNotAskedOf) {
                break;
            }
            let bytes = &src[(k * step) as usize..][..step as usize];
            if asks && to.0 && bytes[15] & 31 == 28 && self.has(AskedUpRefusesClass28) {
                return Err([19, 28, k + 1]);
            }
            let number = if self.has(RecordNumberFrom0) {
                k
            } else {
                k + 1
            };
            let record = match self.record(from, to, bytes) {
                Err(_) if self.has(LastRecordNotJudged) && k + 1 == whole => vec![0; room as usize],
                Err([refusal, value]) => return Err([refusal, value, number]),
                Ok(record) => record,
            };
            let record = match &first {
                Some(first) if self.has(FirstRecordCopiedOnward) => first.clone(),
                Some(first) if self.has(ExtraBytesOfFirstRecord) => {
                    let own = &record[..length(to) as usize];
                    [own, &first[length(to) as usize..]].concat()
                }
                _ => record,
            };
            if first.is_none() {
                first = Some(record.clone());
            }
            if self.has(WritesBeforeJudging) {
                let rest = dst.as_mut().and_then(|dst| dst.get_mut(made.len()..));
                if let Some(to) = rest.and_then(|rest| rest.get_mut(..record.len())) {
                    to.copy_from_slice(&record);
                }
            }
            made.extend(record);
        }
        self.no_room(&dst, lengths, count)?;
        if self.has(SameBytesEachTime) {
            made.fill(0);
        }
        if let Some(dst) = dst {
            if self.has(RestOfDestinationCleared) {
                dst.fill(0);
            }
            if !self.has(DestinationLeftAsFound) {
                let fits = made.len().min(dst.len());
                dst[..fits].copy_from_slice(&made[..fits]);
            }
        }
        let length = match asks && self.has(AskedBytesOfSourceFormat) {
            true => lengths[0],
            false => room,
        };
        Ok(length.wrapping_mul(count))
    }
}

fn told(answer: Result<u64, Row>, row: &mut Row) {
    *row = answer.map_or_else(|refusal| refusal, |bytes| [0, bytes, 0]);
}

const DOWN: [[u8; 2]; 5] = [[6, 1], [7, 3], [8, 3], [9, 4], [10, 5]];
const UP: [[u8; 2]; 4] = [[1, 6], [3, 7], [4, 9], [5, 10]];

impl Library for StandIn {
    fn ask_old(&self, src: &[u8], run: (u8, u16, u64), row: &mut Row) {
        told(self.run(&DOWN, src, run, None), row);
    }

    fn ask_new(&self, src: &[u8], run: (u8, u16, u64), row: &mut Row) {
        told(self.run(&UP, src, run, None), row);
    }

    fn to_old(&self, src: &[u8], run: (u8, u16, u64), dst: &mut [u8], row: &mut Row) {
        told(self.run(&DOWN, src, run, Some(dst)), row);
    }

    fn to_new(&self, src: &[u8], run: (u8, u16, u64), dst: &mut [u8], row: &mut Row) {
        told(self.run(&UP, src, run, Some(dst)), row);
    }
}
