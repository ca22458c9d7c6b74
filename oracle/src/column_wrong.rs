//! A stand-in for the port's columns, into which an error can be put. The comparison is tested with it: each
//! error must be seen.
//!
//! It is written apart from `column_model` and otherwise: in 64 bits, with a table of places, over the bytes of
//! each field. Its file check is the stand-in of `file_wrong` without an error.

use crate::{
    capi::Row,
    column::{Dst, Library},
    column_model::{
        Column::{self, *},
        Pass, Stretch,
    },
    file::Library as _,
    file_wrong,
};

errors! {
    CheckOnlyUpToThePoints,
    CheckAllowanceIgnored,
    CheckRecordNumberLost,
    RecordsAfterThePointsNotLookedAt,
    LackingBeforeCheck,
    IndexBeforeCheck,
    RoomBeforeCheck,
    IndexBeforeLacking,
    RoomBeforeLacking,
    RoomBeforeIndex,
    LackingToldAsIndex,
    LackingToldAsAttributes,
    LackingToldAsNoRoom,
    LackingWithTheFormat,
    LackingWithTheCountOfPoints,
    LackingWithRecordNumber,
    LackingFilledWithZeros,
    LackingFilledWithNone,
    LackingOnlyWithPoints,
    LackingOnlyWithACount,
    Format0HasTime,
    Format2HasTime,
    Format4HasColour,
    Format5LacksColour,
    Format6LacksTime,
    Format6HasColour,
    Format7HasNir,
    Format8LacksNir,
    Format9HasColour,
    Format9HasNir,
    Format10LacksNir,
    GreenWhereTheBlueIs,
    RedAndBlueExchanged,
    XWhereTheYIs,
    YAndZExchanged,
    ZOneByteOn,
    NirWhereTheBlueIs,
    NirBehindTheWaveform,
    ColourBehindTheWaveform,
    ColourBeforeTime,
    ColourBehindATimeThatIsNotThere,
    NewTimeAtTheOldPlace,
    NewColourAtTheOldPlace,
    SecondByteFirst,
    CoordinateLastByteFirst,
    TimeLastByteFirst,
    CoordinateOf16Bits,
    CoordinateWithoutSign,
    ColourOf8Bits,
    TimeOf32Bits,
    NanPayloadLost,
    NanQuieted,
    NanSignLost,
    NanTakenForZero,
    NanTakenForInfinity,
    InfinityHeld,
    MinusZeroLost,
    SubnormalFlushed,
    BitsOfTheWholeNumber,
    NirZeroToldAsLacking,
    LengthOfFormatForRecordLength,
    PointsCountedFromZero,
    FirstPointAlways,
    NextPoint,
    EveryEntryTheFirst,
    StretchBackwards,
    PointsBehindTheHeader,
    IndexOf16Bits,
    ProductOf32Bits,
    PlaceOf32Bits,
    EmptyStretchBehindTheLastRefused,
    EmptyStretchTakenAnywhere,
    EmptyStretchAtZeroTaken,
    ZeroTakenForTheFirst,
    OnePastTheLastTaken,
    LastPointRefused,
    SumOf64Bits,
    SumOf32Bits,
    FirstOf8Bits,
    FirstOf16Bits,
    FirstOf32Bits,
    CountOf8Bits,
    CountOf32Bits,
    StretchCutAtTheLast,
    IndexByTheBytesThatAreThere,
    IndexValueOfTheFirst,
    IndexValueOfTheEnd,
    IndexValueZero,
    IndexWithRecordNumber,
    LegacyCountAlone,
    LargeCountAlone,
    LargeCountFirst,
    LargeCountOf32Bits,
    RoomForOneLessIsEnough,
    RoomForOneMoreWanted,
    RoomForAllPointsWanted,
    RoomNoMoreThanTheCount,
    RoomOfBytesWanted,
    RoomForTheCountOf32Bits,
    RoomValueOfTheRoom,
    RoomValueOfBytes,
    RoomValueOfThePoints,
    RoomValueZero,
    AnswerZero,
    AnswerOfThePoints,
    AnswerOfTheLastPoint,
    AnswerOfBytes,
    AnswerOfTheRoom,
    AnswerWithRecordNumber,
    FirstEntryLeftOut,
    LastEntryLeftOut,
    EntriesPastTheCountZeroed,
    EntryPastTheCountFilled,
    AllTheRoomFilled,
    EntriesOneOn,
    EntriesAtTheirPoint,
    RefusalClears,
    NoRoomFillsWhatFits,
    IndexFillsWhatIsThere,
    PassYWhereTheZStands,
    PassThirdRoomNotLookedAt,
    PassWrittenBeforeNoRoomIsKnown,
    PassShortestRoomLeftUnfilled,
    PassXOfTheNextPoint,
}

pub struct StandIn {
    pub error: Option<Error>,
}

/// What is to be filled: so many entries, the first from a point that is counted from 0.
#[derive(Clone, Copy)]
struct Fill {
    field: u64,
    index: u64,
    count: u64,
    points: u64,
}

/// The steps of a judgement.
#[derive(Clone, Copy)]
enum Step {
    Check,
    Lacking,
    Index,
    Room,
}
use Step::*;

fn u16_at(file: &[u8], at: usize) -> u64 {
    u16::from_le_bytes([file[at], file[at + 1]]).into()
}

fn u32_at(file: &[u8], at: usize) -> u64 {
    u16_at(file, at) | u16_at(file, at + 2) << 16
}

fn u64_at(file: &[u8], at: usize) -> u64 {
    u32_at(file, at) | u32_at(file, at + 4) << 32
}

const MOST: u64 = 0xffff_ffff;

/// The bytes of a record of formats 0 to 10.
const LEAST: [u64; 11] = [20, 28, 26, 34, 57, 63, 30, 36, 38, 59, 67];

/// Where they have time, red and near infrared, or 0.
const PLACES: [[u64; 3]; 11] = [
    [0, 0, 0],
    [20, 0, 0],
    [0, 20, 0],
    [20, 28, 0],
    [20, 0, 0],
    [20, 28, 0],
    [22, 0, 0],
    [22, 30, 0],
    [22, 30, 36],
    [22, 0, 0],
    [22, 30, 36],
];

impl StandIn {
    fn has(&self, error: Error) -> bool {
        self.error == Some(error)
    }

    fn check(&self, file: &[u8], allowance: u64) -> Result<(), Row> {
        let seen = match self.has(CheckOnlyUpToThePoints) && file.len() >= 111 {
            true => {
                let end = u32_at(file, 96) + u32_at(file, 107) * u16_at(file, 105);
                &file[..file.len().min(end as usize)]
            }
            false => file,
        };
        let allowance = match self.has(CheckAllowanceIgnored) {
            true => u64::MAX,
            false => allowance,
        };
        let mut check = [0; 4];
        file_wrong::StandIn { error: None }.check(seen, allowance, &mut check);
        let [number, value, record, _] = check;
        match number {
            0 => Ok(()),
            13 | 14 | 35 if self.has(RecordsAfterThePointsNotLookedAt) => Ok(()),
            _ if self.has(CheckRecordNumberLost) => Err([number, value, 0]),
            _ => Err([number, value, record]),
        }
    }

    /// How many points a file with a whole header has.
    fn points(&self, file: &[u8]) -> u64 {
        let legacy = u32_at(file, 107);
        let room = (file.len() as u64).saturating_sub(u32_at(file, 96));
        if self.has(IndexByTheBytesThatAreThere) {
            return room / u16_at(file, 105).max(1);
        }
        if file[25] < 4 || self.has(LegacyCountAlone) {
            return legacy;
        }
        let large = u64_at(file, 247);
        match (legacy, large) {
            _ if self.has(LargeCountAlone) => large,
            (_, 1..) if self.has(LargeCountFirst) => large,
            (0, large) if self.has(LargeCountOf32Bits) => large & MOST,
            (0, large) => large,
            (legacy, _) => legacy,
        }
    }

    /// Where the format has the column, if it has it.
    fn place(&self, format: u8, column: Column) -> Option<u64> {
        let [mut time, mut red, mut nir] = PLACES[usize::from(format)];
        match format {
            0 if self.has(Format0HasTime) => time = 12,
            2 if self.has(Format2HasTime) => time = 18,
            4 if self.has(Format4HasColour) => red = 28,
            5 if self.has(Format5LacksColour) => red = 0,
            6 if self.has(Format6LacksTime) => time = 0,
            6 if self.has(Format6HasColour) => red = 24,
            7 if self.has(Format7HasNir) => nir = 34,
            8 if self.has(Format8LacksNir) => nir = 0,
            9 if self.has(Format9HasColour) => red = 30,
            9 if self.has(Format9HasNir) => nir = 36,
            10 if self.has(Format10LacksNir) => nir = 0,
            _ => {}
        }
        if red > 0 {
            match format {
                2 if self.has(ColourBehindATimeThatIsNotThere) => red = 28,
                3 | 5 | 7 | 8 | 10 if self.has(ColourBeforeTime) => (time, red) = (time + 6, time),
                5 | 10 if self.has(ColourBehindTheWaveform) => red += 29,
                6.. if self.has(NewColourAtTheOldPlace) => red -= 2,
                _ => {}
            }
        }
        if format >= 6 && self.has(NewTimeAtTheOldPlace) {
            time = 20;
        }
        match format {
            8 | 10 if self.has(NirWhereTheBlueIs) => nir = 34,
            10 if self.has(NirBehindTheWaveform) => nir = 65,
            _ => {}
        }
        let there = |place: u64, on: u64| (place > 0).then_some(place + on);
        match column {
            X if self.has(XWhereTheYIs) => Some(4),
            X => Some(0),
            Y if self.has(YAndZExchanged) => Some(8),
            Y => Some(4),
            Z if self.has(YAndZExchanged) => Some(4),
            Z if self.has(ZOneByteOn) => Some(9),
            Z => Some(8),
            Time | TimeBits => there(time, 0),
            Red if self.has(RedAndBlueExchanged) => there(red, 4),
            Red => there(red, 0),
            Green if self.has(GreenWhereTheBlueIs) => there(red, 4),
            Green => there(red, 2),
            Blue if self.has(RedAndBlueExchanged) => there(red, 0),
            Blue => there(red, 4),
            Nir => there(nir, 0),
        }
    }

    /// Where the field is, or a refusal. A field that is lacking and yet filled is nowhere.
    fn field(&self, file: &[u8], stretch: Stretch) -> Result<u64, Row> {
        let format = file[104];
        if let Some(place) = self.place(format, stretch.column) {
            return Ok(place);
        }
        let points = self.points(file);
        match () {
            () if self.has(LackingFilledWithZeros) => Ok(u64::MAX),
            () if self.has(LackingOnlyWithPoints) && points == 0 => Ok(u64::MAX),
            () if self.has(LackingOnlyWithACount) && stretch.count == 0 => Ok(u64::MAX),
            () if self.has(LackingToldAsIndex) => Err([27, points, 0]),
            () if self.has(LackingToldAsAttributes) => Err([25, 0, 0]),
            () if self.has(LackingToldAsNoRoom) => Err([22, 0, 0]),
            () if self.has(LackingWithTheFormat) => Err([36, format.into(), 0]),
            () if self.has(LackingWithTheCountOfPoints) => Err([36, points, 0]),
            () if self.has(LackingWithRecordNumber) => Err([36, 0, stretch.first]),
            () if self.has(LackingFilledWithNone) => Err([0, 0, 0]),
            () => Err([36, 0, 0]),
        }
    }

    /// The first point of the stretch, counted from 0, and how many there are; or a refusal.
    fn within(&self, stretch: Stretch, points: u64) -> Result<(u64, u64), Row> {
        let first = match stretch.first {
            first if self.has(FirstOf8Bits) => first & 0xff,
            first if self.has(FirstOf16Bits) => first & 0xffff,
            first if self.has(FirstOf32Bits) => first & MOST,
            0 if self.has(ZeroTakenForTheFirst) => 1,
            0 if self.has(EmptyStretchAtZeroTaken) && stretch.count == 0 => 1,
            first if self.has(PointsCountedFromZero) => first.wrapping_add(1),
            first => first,
        };
        let count = match stretch.count {
            count if self.has(CountOf8Bits) => count & 0xff,
            count if self.has(CountOf32Bits) => count & MOST,
            count => count,
        };
        let index = first.wrapping_sub(1);
        let end = match index.checked_add(count) {
            None if self.has(SumOf64Bits) => Some(index.wrapping_add(count)),
            _ if self.has(SumOf32Bits) => Some(index.wrapping_add(count) & MOST),
            end => end,
        };
        let most = match () {
            () if self.has(OnePastTheLastTaken) => points.saturating_add(1),
            () if self.has(LastPointRefused) && count > 0 => points.saturating_sub(1),
            () => points,
        };
        let sums = self.has(SumOf64Bits) || self.has(SumOf32Bits);
        let inside = end.is_some_and(|end| end <= most) && (first > 0 || sums);
        let value = match () {
            () if self.has(IndexValueOfTheFirst) => stretch.first,
            () if self.has(IndexValueOfTheEnd) => index.wrapping_add(count),
            () if self.has(IndexValueZero) => 0,
            () => points,
        };
        let record = if self.has(IndexWithRecordNumber) {
            stretch.first
        } else {
            0
        };
        match () {
            () if count == 0 && self.has(EmptyStretchTakenAnywhere) => Ok((0, 0)),
            () if count == 0 && index == points && self.has(EmptyStretchBehindTheLastRefused) => {
                Err([27, value, record])
            }
            () if !inside && index < points && self.has(StretchCutAtTheLast) => {
                Ok((index, points - index))
            }
            () if inside => Ok((index, count)),
            () => Err([27, value, record]),
        }
    }

    /// Whether there is room, or a refusal.
    fn room(&self, stretch: Stretch, count: u64, points: u64) -> Result<(), Row> {
        let room = stretch.room as u64;
        let width = width(stretch.column) as u64;
        let wanted = match () {
            () if self.has(RoomForOneLessIsEnough) => count.saturating_sub(1),
            () if self.has(RoomForOneMoreWanted) => count.saturating_add(1),
            () if self.has(RoomForAllPointsWanted) => points.max(count),
            () if self.has(RoomOfBytesWanted) => count.wrapping_mul(width),
            () if self.has(RoomForTheCountOf32Bits) => count & MOST,
            () => count,
        };
        let value = match () {
            () if self.has(RoomValueOfTheRoom) => room,
            () if self.has(RoomValueOfBytes) => count.wrapping_mul(width),
            () if self.has(RoomValueOfThePoints) => points,
            () if self.has(RoomValueZero) => 0,
            () => count,
        };
        match room < wanted || room > count && self.has(RoomNoMoreThanTheCount) {
            true => Err([22, value, 0]),
            false => Ok(()),
        }
    }

    /// The steps, one after another.
    fn steps(&self) -> [Step; 4] {
        match self.error {
            Some(LackingBeforeCheck) => [Lacking, Check, Index, Room],
            Some(IndexBeforeCheck) => [Index, Check, Lacking, Room],
            Some(RoomBeforeCheck) => [Room, Check, Lacking, Index],
            Some(IndexBeforeLacking) => [Check, Index, Lacking, Room],
            Some(RoomBeforeLacking) => [Check, Room, Lacking, Index],
            Some(RoomBeforeIndex) => [Check, Lacking, Room, Index],
            _ => [Check, Lacking, Index, Room],
        }
    }

    fn judge(&self, file: &[u8], stretch: Stretch) -> Result<Fill, Row> {
        // What comes before the check looks at whole headers of a format that there is.
        let looks = file.len() >= 375 && file[104] <= 10;
        let mut checked = false;
        let mut fill = Fill {
            field: 0,
            index: 0,
            count: stretch.count,
            points: 0,
        };
        for step in self.steps() {
            if let Check = step {
                self.check(file, stretch.allowance)?;
                (checked, fill.points) = (true, self.points(file));
                fill.field = self.field(file, stretch).unwrap_or(0);
            }
            if !checked && !looks {
                continue;
            }
            match step {
                Check => {}
                Lacking => fill.field = self.field(file, stretch)?,
                Index => (fill.index, fill.count) = self.within(stretch, self.points(file))?,
                Room => self.room(stretch, fill.count, self.points(file))?,
            }
        }
        Ok(fill)
    }

    /// The bits of a field's bytes.
    fn bits(&self, column: Column, mut bytes: [u8; 8]) -> u64 {
        let width = width(column);
        match column {
            X | Y | Z if self.has(CoordinateLastByteFirst) => bytes[..width].reverse(),
            Time | TimeBits if self.has(TimeLastByteFirst) => bytes.reverse(),
            _ if self.has(SecondByteFirst) => bytes.swap(0, 1),
            _ => {}
        }
        let bits = u64::from_le_bytes(bytes);
        let number = f64::from_bits(bits);
        match column {
            X | Y | Z if self.has(CoordinateOf16Bits) => {
                u64::from(i32::from(bits as u16 as i16) as u32)
            }
            X | Y | Z if self.has(CoordinateWithoutSign) => bits & 0x7fff_ffff,
            Red | Green | Blue | Nir if self.has(ColourOf8Bits) => bits & 0xff,
            Time if self.has(TimeOf32Bits) && !number.is_nan() => {
                f64::from(number as f32).to_bits()
            }
            TimeBits if number.is_nan() && self.has(NanPayloadLost) => 0x7ff8 << 48,
            TimeBits if number.is_nan() && self.has(NanQuieted) => bits | 1 << 51,
            TimeBits if number.is_nan() && self.has(NanSignLost) => bits & !(1 << 63),
            Time if number.is_nan() && self.has(NanTakenForZero) => 0,
            Time if number.is_nan() && self.has(NanTakenForInfinity) => 0x7ff0 << 48,
            Time if number.is_infinite() && self.has(InfinityHeld) => {
                number.clamp(f64::MIN, f64::MAX).to_bits()
            }
            Time if number == 0.0 && self.has(MinusZeroLost) => 0,
            Time if number.is_subnormal() && self.has(SubnormalFlushed) => 0,
            TimeBits if self.has(BitsOfTheWholeNumber) => number as u64,
            _ => bits,
        }
    }

    /// The bits of the field of a point that is counted from 0; zeros where there is nothing.
    fn entry(&self, file: &[u8], column: Column, fill: Fill, index: u64) -> u64 {
        let stride = match self.has(LengthOfFormatForRecordLength) {
            true => LEAST[usize::from(file[104])],
            false => u16_at(file, 105),
        };
        let index = match self.has(IndexOf16Bits) {
            true => index & 0xffff,
            false => index,
        };
        let product = match self.has(ProductOf32Bits) {
            true => index.wrapping_mul(stride) & MOST,
            false => index.wrapping_mul(stride),
        };
        let first = match self.has(PointsBehindTheHeader) {
            true => u16_at(file, 94),
            false => u32_at(file, 96),
        };
        let record = match self.has(PlaceOf32Bits) {
            true => first.wrapping_add(product) & MOST,
            false => first.wrapping_add(product),
        };
        let mut bytes = [0; 8];
        if fill.field < u64::MAX {
            for (k, byte) in (0..).zip(&mut bytes[..width(column)]) {
                let at = record.wrapping_add(fill.field + k);
                *byte = file.get(at as usize).copied().unwrap_or(0);
            }
        }
        self.bits(column, bytes)
    }

    /// Fills the entries, and answers.
    fn fill<T: Copy>(
        &self,
        file: &[u8],
        stretch: Stretch,
        dst: &mut [T],
        made: fn(u64) -> T,
        row: &mut Row,
    ) {
        let column = stretch.column;
        let fill = match self.judge(file, stretch) {
            Ok(fill) => fill,
            Err(refusal) => {
                *row = refusal;
                match refusal[0] {
                    1.. if self.has(RefusalClears) => dst.fill(made(0)),
                    22 if self.has(NoRoomFillsWhatFits) => {
                        let within = Stretch {
                            count: stretch.room as u64,
                            ..stretch
                        };
                        self.fill(file, within, dst, made, &mut [0; 3]);
                    }
                    27 if self.has(IndexFillsWhatIsThere) => {
                        let points = refusal[1];
                        let left = points.wrapping_sub(stretch.first.wrapping_sub(1));
                        let within = Stretch {
                            count: left.min(stretch.room as u64),
                            ..stretch
                        };
                        if (1..=points).contains(&stretch.first) {
                            self.fill(file, within, dst, made, &mut [0; 3]);
                        }
                    }
                    _ => {}
                }
                return;
            }
        };
        let Fill {
            index,
            count,
            points,
            ..
        } = fill;
        let room = dst.len() as u64;
        if self.has(EntriesPastTheCountZeroed) {
            dst.fill(made(0));
        }
        let on = match () {
            () if self.has(EntriesOneOn) => 1,
            () if self.has(EntriesAtTheirPoint) => index,
            () => 0,
        };
        let filled = match () {
            () if self.has(FirstEntryLeftOut) => 1..count,
            () if self.has(LastEntryLeftOut) => 0..count.saturating_sub(1),
            () if self.has(EntryPastTheCountFilled) => 0..count.saturating_add(1),
            () if self.has(AllTheRoomFilled) => 0..points.saturating_sub(index).max(count),
            () => 0..count,
        };
        for i in filled.start..filled.end.min(room.saturating_sub(on)) {
            let k = match () {
                () if self.has(FirstPointAlways) => i,
                () if self.has(NextPoint) && index + count < points => index + i + 1,
                () if self.has(EveryEntryTheFirst) => index,
                () if self.has(StretchBackwards) => (index + count).wrapping_sub(1 + i),
                () => index.wrapping_add(i),
            };
            let bits = self.entry(file, column, fill, k);
            if column == Nir && bits == 0 && self.has(NirZeroToldAsLacking) {
                *row = [36, 0, 0];
                return;
            }
            dst[(i + on) as usize] = made(bits);
        }
        let value = match () {
            () if self.has(AnswerZero) => 0,
            () if self.has(AnswerOfThePoints) => points,
            () if self.has(AnswerOfTheLastPoint) => index + count,
            () if self.has(AnswerOfBytes) => count * width(column) as u64,
            () if self.has(AnswerOfTheRoom) => room,
            () => count,
        };
        let record = if self.has(AnswerWithRecordNumber) {
            stretch.first
        } else {
            0
        };
        *row = [0, value, record];
    }
}

/// X, Y and Z in one pass.
impl StandIn {
    /// What is asked for of one of the three.
    fn part(&self, pass: Pass, column: Column) -> Stretch {
        let stretch = pass.stretch(column);
        match column {
            Z if self.has(PassThirdRoomNotLookedAt) => Stretch {
                room: usize::MAX,
                ..stretch
            },
            _ => stretch,
        }
    }

    /// The error with which one of the three is filled, if with any: some are those of the column by itself.
    fn error_of(&self, column: Column) -> Option<Error> {
        match (self.error, column) {
            (Some(PassYWhereTheZStands), Z) => Some(YAndZExchanged),
            (Some(PassXOfTheNextPoint), X) => Some(NextPoint),
            (error, _) => error,
        }
    }

    /// Judges all three, then fills one after another.
    fn pass(&self, file: &[u8], pass: Pass, to: [&mut [i32]; 3], row: &mut Row) {
        let parts = [X, Y, Z].map(|column| self.part(pass, column));
        let judged = parts.map(|part| self.judge(file, part).err());
        if let [Some(refusal), _, _] | [_, Some(refusal), _] | [_, _, Some(refusal)] = judged
            && !self.has(PassWrittenBeforeNoRoomIsKnown)
        {
            *row = refusal;
            return;
        }
        let shortest = pass.rooms.into_iter().min();
        for (part, dst) in parts.into_iter().zip(to) {
            if self.has(PassShortestRoomLeftUnfilled) && Some(dst.len()) == shortest {
                continue;
            }
            let error = self.error_of(part.column);
            StandIn { error }.fill(file, part, dst, |bits| bits as i32, row);
            if row[0] != 0 {
                return;
            }
        }
    }
}

/// The bytes of a field.
fn width(column: Column) -> usize {
    match column {
        X | Y | Z => 4,
        Time | TimeBits => 8,
        Red | Green | Blue | Nir => 2,
    }
}

impl Library for StandIn {
    fn column(&self, file: &[u8], stretch: Stretch, dst: Dst, row: &mut Row) {
        match dst {
            Dst::Coordinate(dst) => self.fill(file, stretch, dst, |bits| bits as i32, row),
            Dst::Time(dst) => self.fill(file, stretch, dst, f64::from_bits, row),
            Dst::TimeBits(dst) => self.fill(file, stretch, dst, |bits| bits, row),
            Dst::Colour(dst) => self.fill(file, stretch, dst, |bits| bits as u16, row),
        }
    }

    fn xyz(&self, file: &[u8], pass: Pass, to: [&mut [i32]; 3], row: &mut Row) {
        self.pass(file, pass, to, row);
    }
}
