//! A stand-in for the port's calls on attributes, into which an error can be put. The comparison is tested with it:
//! each error must be seen.
//!
//! It is written apart from `attribute_model` and otherwise: in 64 bits, one descriptor after the other, with what is
//! in a file at numbered places. Its file check is the stand-in of `file_wrong` without an error.

use crate::{
    attribute::Library,
    capi::{
        AttributeNumbers as Attribute, AttributesPlace as Place, DescriptorNumbers as Descriptor,
        Row, Span,
    },
    file::Library as _,
    file_wrong,
};

errors! {
    CheckAllowanceIgnored,
    CheckRecordNumberLost,
    RecordsAfterThePointsNotLookedAt,
    LastSuchVlrCounts,
    SecondSuchVlrCounts,
    FirstVlrAlone,
    EmptySuchVlrPassedOver,
    EvlrCountsToo,
    EvlrCountsBeforeVlrs,
    PacketsCountToo,
    UserOfTheBytesAsked,
    UserOf15Bytes,
    UserUpToItsFirstZero,
    UserOfAnyCase,
    UserLongerThan16Cut,
    UserNotLookedAt,
    RecordIdOf8Bits,
    RecordIdOf15Bits,
    RecordIdNotLookedAt,
    VlrFromItsHead,
    VlrFromItsHeadAsAnEvlr,
    VlrLengthWithHead,
    VlrValueOfTheLength,
    VlrValueOfItsNumber,
    VlrMissingIs37,
    VlrMissingClearsSpan,
    VlrRefusalClearsSpan,
    RestOfDescriptorsIgnored,
    RestByHalves,
    NoDataRefused,
    NoDataTakenForNoVlr,
    TypeOfTheFirstOnly,
    TypeUpToTheName,
    TypeValueTold,
    TypesBeforeTheRest,
    SizesBeforeTypes,
    Type11Taken,
    Type10Refused,
    Type0Refused,
    TypeOf7Bits,
    TypeAtByte3,
    OptionsForEveryType,
    OptionsForNone,
    OptionsOf7Bits,
    FloatOfEightBytes,
    DoubleOfFourBytes,
    ShortOfOneByte,
    LongOfFourBytes,
    SizesOverByOneTaken,
    ExactSizesRefused,
    SizesNotLookedAt,
    SizesOfTheRecord,
    SizesUpToTheName,
    SizesOf8Bits,
    SizesOf16Bits,
    AttributesValueZero,
    PlaceOfTheVlr,
    PlaceOneLess,
    PlaceClearedByRefusal,
    LastOfEqualNames,
    NameOf31Bytes,
    NameOfTheBytesAsked,
    NameUpToItsFirstZero,
    NameOfAnyCase,
    NameFromByte5,
    NameLongerThan32Cut,
    ZerosBeyond32Taken,
    EmptyNameNotFound,
    EmptyNameIsTheFirst,
    NameBeforeSizes,
    NameBeforeTypes,
    NotFoundWithTheCount,
    FoundWithItsNumber,
    AttributeClearedByRefusal,
    PlaceWithoutTheSizesBefore,
    PlaceBehindItself,
    PlaceFromTheRecord,
    PlaceFromThePoints,
    PlaceBehindTheHeader,
    StrideOfTheFormat,
    StrideOfTheExtraBytes,
    CountLegacyAlone,
    CountLargeFirst,
    CountOf32Bits,
    TypeOfTheDescriptorBefore,
    NextStays,
    NextCountsNothing,
    NextWithNoneLeft,
    NextNotOfType11,
    NextOfOneByteAbove10,
    NextWithoutItsEnd,
    NextNotAtTheVeryEnd,
    NextPlacesWrap,
    NextBeyondEveryFile,
    NextWithinFourGigabytes,
    NextSpanOfTheName,
    NextSpanFromTheVlr,
    NextClearsAtTheEnd,
    PointsFromZero,
    PointZeroTakenAsFirst,
    OnePastTheLastTaken,
    LastRefused,
    NextPointsValue,
    PointOf16Bits,
    PointOf32Bits,
    ProductOf32Bits,
    ProductOf64Bits,
    SumOf64Bits,
    PlaceOf32Bits,
    IndexValueOfThePoint,
    IndexValueZero,
    IndexWithRecordNumber,
    CountAloneLookedAt,
    OutsideIsShort,
    OutsideWithNoCount,
    StartInsideIsEnough,
    VeryEndRefused,
    MadeUpTypeRefused,
    StrideOf19Taken,
    StrideOf20Refused,
    StrideOf65535Refused,
    StrideOf65536Taken,
    BitsOfEightBytes,
    BitsOfFourBytes,
    BitsOfTheLastEight,
    BitsOfNothingBeyondEight,
    BitsBigEndian,
    BitsSigned,
    BitsOfQuietNans,
    SpanOfEightBytes,
    SpanFromTheRecord,
    SpanClearedByRefusal,
    StretchFromZero,
    StretchOneMore,
    StretchBehindTheLastRefused,
    StretchSumWraps,
    StretchCountOf32Bits,
    StretchFirstAloneLookedAt,
    StretchOfNothingLookedAt,
    RoomBeforeIndex,
    RoomValueZero,
    RoomOneLessTaken,
    BegunBeforeRoom,
    FilledWithOneMore,
    FilledBehind,
    FilledByTheSize,
    ColumnValueZero,
    ReadOf191Bytes,
    ReadShortWithTheLength,
    ReadTypeBeforeShort,
    ReadType11,
    ReadClearsOnRefusal,
    ReadReservedLost,
    ReadUnusedLost,
    ReadNoDataOfFourBytes,
    ReadMinForMax,
    ReadScaleForOffset,
    ReadNameUpToItsZero,
    ReadDeprecatedOtherwise,
    ReadDeprecatedLost,
    ReadDescriptionLost,
    ReadValueZero,
    WriteType11,
    WriteWideTypeCut,
    WriteWideNumbersRefused,
    WriteRoomBeforeType,
    WriteBegunBeforeRoom,
    WriteRoomOneLess,
    WriteRoomValueZero,
    WriteValueZero,
    WriteBehindCleared,
    WriteReservedZero,
    WriteUnusedZero,
    WriteDeprecatedZero,
    WriteNameUpToItsZero,
    WriteOptionsByType,
    WriteMinForMax,
    SizeOf11,
    SizeWithoutOptions,
}

pub struct StandIn {
    pub error: Option<Error>,
}

fn u16_at(file: &[u8], at: usize) -> u64 {
    u16::from_le_bytes([file[at], file[at + 1]]).into()
}

fn u32_at(file: &[u8], at: usize) -> u64 {
    u16_at(file, at) | u16_at(file, at + 2) << 16
}

fn u64_at(file: &[u8], at: usize) -> u64 {
    u32_at(file, at) | u32_at(file, at + 4) << 32
}

const MOST: u64 = 0xffff_ffff;
const HEAD: usize = 54;

/// The bytes of a record of formats 0 to 10.
const LEAST: [u64; 11] = [20, 28, 26, 34, 57, 63, 30, 36, 38, 59, 67];

/// What a file tells of its attributes, all of them added up.
struct Told {
    start: usize,
    many: usize,
    first: u64,
    stride: u64,
    count: u64,
}

impl StandIn {
    fn has(&self, error: Error) -> bool {
        self.error == Some(error)
    }

    fn check(&self, file: &[u8], allowance: u64) -> Result<(), Row> {
        let allowance = match self.has(CheckAllowanceIgnored) {
            true => u64::MAX,
            false => allowance,
        };
        let mut check = [0; 4];
        file_wrong::StandIn { error: None }.check(file, allowance, &mut check);
        let [number, value, record, _] = check;
        match number {
            0 => Ok(()),
            13 | 14 | 35 if self.has(RecordsAfterThePointsNotLookedAt) => Ok(()),
            _ if self.has(CheckRecordNumberLost) => Err([number, value, 0]),
            _ => Err([number, value, record]),
        }
    }

    /// How many points an accepted file has.
    fn count(&self, file: &[u8]) -> u64 {
        let legacy = u32_at(file, 107);
        if file[25] < 4 || self.has(CountLegacyAlone) {
            return legacy;
        }
        let large = u64_at(file, 247);
        match (legacy, large) {
            (_, 1..) if self.has(CountLargeFirst) => large,
            (0, large) if self.has(CountOf32Bits) => large & MOST,
            (0, large) => large,
            (legacy, _) => legacy,
        }
    }

    /// Whether a stored text is the one that is asked for, zeros filling it.
    fn same(&self, stored: &[u8], asked: &[u8], by: [Error; 4]) -> bool {
        let [as_asked, one_less, first_zero, any_case] = by;
        let mut filled = vec![0; stored.len()];
        filled[..asked.len()].copy_from_slice(asked);
        let end = match () {
            () if self.has(as_asked) => asked.len(),
            () if self.has(one_less) => stored.len() - 1,
            () if self.has(first_zero) => {
                let zero = |text: &[u8]| text.iter().position(|&b| b == 0).unwrap_or(text.len());
                return stored[..zero(stored)] == filled[..zero(&filled)];
            }
            () => stored.len(),
        };
        match self.has(any_case) {
            true => stored[..end].eq_ignore_ascii_case(&filled[..end]),
            false => stored[..end] == filled[..end],
        }
    }

    /// Whether the record whose head begins here is the one that is asked for.
    fn is_such(&self, head: &[u8], user: &[u8], record: u16) -> bool {
        let ids = [
            UserOfTheBytesAsked,
            UserOf15Bytes,
            UserUpToItsFirstZero,
            UserOfAnyCase,
        ];
        let id = u16_at(head, 18) ^ u64::from(record);
        let id = match () {
            () if self.has(RecordIdOf8Bits) => id & 0xff,
            () if self.has(RecordIdOf15Bits) => id & 0x7fff,
            () if self.has(RecordIdNotLookedAt) => 0,
            () => id,
        };
        id == 0 && (self.has(UserNotLookedAt) || self.same(&head[2..18], user, ids))
    }

    /// The data of the first such VLR, and its number among all.
    fn first(&self, file: &[u8], user: &[u8], record: u16) -> Option<([usize; 2], u64)> {
        let user = match user.len() {
            17.. if self.has(UserLongerThan16Cut) => &user[..16],
            17.. => return None,
            _ => user,
        };
        let mut at = u16_at(file, 94) as usize;
        let mut such = Vec::new();
        for k in 0..u32_at(file, 100) {
            let length = u16_at(file, at + 20) as usize;
            let passed = self.has(EmptySuchVlrPassedOver) && length == 0;
            if self.is_such(&file[at..], user, record) && !passed {
                such.push(([at + HEAD, length], k + 1));
            }
            at += HEAD + length;
            if self.has(FirstVlrAlone) {
                break;
            }
        }
        let [start, later] = match file[25] {
            3 if self.has(PacketsCountToo) && file[6] & 2 == 2 => {
                let start = u64_at(file, 227);
                [start as usize, usize::from(start > 0)]
            }
            4 if self.has(EvlrCountsToo) || self.has(EvlrCountsBeforeVlrs) => {
                [u64_at(file, 235) as usize, u32_at(file, 243) as usize]
            }
            _ => [0, 0],
        };
        let mut at = start;
        for k in 0..later {
            if start == 0 {
                break;
            }
            let length = u64_at(file, at + 20) as usize;
            let such_one = ([at + 60, length], 1 + k as u64);
            if self.is_such(&file[at..], user, record) {
                match self.has(EvlrCountsBeforeVlrs) {
                    true => such.insert(0, such_one),
                    false => such.push(such_one),
                }
            }
            at += 60 + length;
        }
        match such.len() {
            2.. if self.has(LastSuchVlrCounts) => such.pop(),
            2.. if self.has(SecondSuchVlrCounts) => Some(such[1]),
            _ => such.first().copied(),
        }
    }

    fn width(&self, data_type: u8, options: u8) -> Option<u64> {
        let data_type = match self.has(TypeOf7Bits) {
            true => data_type & 0x7f,
            false => data_type,
        };
        if self.has(OptionsForEveryType) && (1..=10).contains(&data_type) && options > 0 {
            return Some(options.into());
        }
        match data_type {
            0 if self.has(Type0Refused) => None,
            0 if self.has(OptionsForNone) => Some(1),
            0 if self.has(OptionsOf7Bits) => Some((options & 0x7f).into()),
            0 => Some(options.into()),
            3 if self.has(ShortOfOneByte) => Some(1),
            8 if self.has(LongOfFourBytes) => Some(4),
            9 if self.has(FloatOfEightBytes) => Some(8),
            10 if self.has(DoubleOfFourBytes) => Some(4),
            10 if self.has(Type10Refused) => None,
            11 if self.has(Type11Taken) => Some(1),
            1..=10 => Some([1, 1, 2, 2, 4, 4, 8, 8, 4, 8][usize::from(data_type) - 1]),
            _ => None,
        }
    }

    fn kind(&self, descriptor: &[u8]) -> (u8, u8) {
        match self.has(TypeAtByte3) {
            true => (descriptor[3], descriptor[2]),
            false => (descriptor[2], descriptor[3]),
        }
    }

    /// The sizes of all descriptors, of which those of a wrong type are 0.
    fn sum(&self, descriptors: &[u8]) -> u64 {
        let mut sum = 0;
        for descriptor in descriptors.chunks_exact(192) {
            let (data_type, options) = self.kind(descriptor);
            sum += self.width(data_type, options).unwrap_or(0);
            sum &= match () {
                () if self.has(SizesOf8Bits) => 0xff,
                () if self.has(SizesOf16Bits) => 0xffff,
                () => u64::MAX,
            };
        }
        sum
    }

    fn types(&self, descriptors: &[u8]) -> Result<(), Row> {
        for (k, descriptor) in descriptors.chunks_exact(192).enumerate() {
            let (data_type, options) = self.kind(descriptor);
            let value = if self.has(TypeValueTold) {
                data_type
            } else {
                0
            };
            if self.width(data_type, options).is_none() {
                return Err([39, value.into(), 0]);
            }
            if k == 0 && self.has(TypeOfTheFirstOnly) {
                break;
            }
        }
        Ok(())
    }

    fn sizes(&self, file: &[u8], descriptors: &[u8]) -> Result<(), Row> {
        let sum = self.sum(descriptors);
        let length = u16_at(file, 105);
        let extra = length - LEAST[usize::from(file[104])];
        let over = match () {
            () if self.has(SizesOverByOneTaken) => sum > extra + 1,
            () if self.has(ExactSizesRefused) => sum >= extra && sum > 0,
            () if self.has(SizesNotLookedAt) => false,
            () if self.has(SizesOfTheRecord) => sum > length,
            () => sum > extra,
        };
        if over { Err([40, 0, 0]) } else { Ok(()) }
    }

    /// What a file tells, or the first refusal. Where a name is looked for, some errors look no further.
    fn judge(&self, file: &[u8], allowance: u64, name: Option<&[u8]>) -> Result<Told, Row> {
        self.check(file, allowance)?;
        let Some(([start, length], _)) = self.first(file, b"LASF_Spec", 4) else {
            return Err([37, 0, 0]);
        };
        if length == 0 && self.has(NoDataTakenForNoVlr) {
            return Err([37, 0, 0]);
        }
        let data = &file[start..start + length];
        if self.has(TypesBeforeTheRest) {
            self.types(data)?;
        }
        let unit = if self.has(RestByHalves) { 96 } else { 192 };
        let rest = length % unit != 0 && !self.has(RestOfDescriptorsIgnored);
        if rest || length == 0 && self.has(NoDataRefused) {
            return Err([38, 0, 0]);
        }
        let many = length / 192;
        let told = Told {
            start,
            many,
            first: self.first_value(file),
            stride: match () {
                () if self.has(StrideOfTheFormat) => LEAST[usize::from(file[104])],
                () if self.has(StrideOfTheExtraBytes) => {
                    u16_at(file, 105) - LEAST[usize::from(file[104])]
                }
                () => u16_at(file, 105),
            },
            count: self.count(file),
        };
        let at = name.and_then(|name| self.named(data, name));
        let missing = name.is_some() && at.is_none();
        let up_to = |error| match at {
            Some(k) if self.has(error) => &data[..192 * (k + 1)],
            _ => data,
        };
        if missing && self.has(NameBeforeTypes) {
            return Err([41, 0, 0]);
        }
        if self.has(SizesBeforeTypes) {
            self.sizes(file, data)?;
        }
        self.types(up_to(TypeUpToTheName))?;
        if missing && self.has(NameBeforeSizes) {
            return Err([41, 0, 0]);
        }
        self.sizes(file, up_to(SizesUpToTheName))?;
        Ok(told)
    }

    /// Where the first point's first value is.
    fn first_value(&self, file: &[u8]) -> u64 {
        let offset = match self.has(PlaceBehindTheHeader) {
            true => u16_at(file, 94),
            false => u32_at(file, 96),
        };
        match () {
            () if self.has(PlaceFromThePoints) => LEAST[usize::from(file[104])],
            () if self.has(PlaceFromTheRecord) => offset,
            () => offset + LEAST[usize::from(file[104])],
        }
    }

    /// The number of the descriptor with a name, from 0 on.
    fn named(&self, data: &[u8], name: &[u8]) -> Option<usize> {
        let name = match name {
            [] if self.has(EmptyNameNotFound) => return None,
            [] if self.has(EmptyNameIsTheFirst) && data.len() >= 192 => return Some(0),
            _ if name.len() <= 32 => name,
            _ if self.has(NameLongerThan32Cut) => &name[..32],
            _ if self.has(ZerosBeyond32Taken) && name[32..].iter().all(|&b| b == 0) => &name[..32],
            _ => return None,
        };
        let ids = [
            NameOfTheBytesAsked,
            NameOf31Bytes,
            NameUpToItsFirstZero,
            NameOfAnyCase,
        ];
        let from = if self.has(NameFromByte5) { 5 } else { 4 };
        let mut named = data
            .chunks_exact(192)
            .enumerate()
            .filter(|(_, d)| self.same(&d[from..from + 32], name, ids))
            .map(|(k, _)| k);
        match self.has(LastOfEqualNames) {
            true => named.last(),
            false => named.next(),
        }
    }

    /// The value of a point, if it is in the file.
    fn place(&self, file: &[u8], attribute: &Attribute, point: u64) -> Result<Span, Row> {
        let &[data_type, size, at, stride, count] = attribute;
        let asked = point;
        let point = match point {
            _ if self.has(PointOf16Bits) => point & 0xffff,
            _ if self.has(PointOf32Bits) => point & MOST,
            0 if self.has(PointZeroTakenAsFirst) => 1,
            _ if self.has(PointsFromZero) => point.wrapping_add(1),
            _ => point,
        };
        let value = match () {
            () if self.has(IndexValueOfThePoint) => asked,
            () if self.has(IndexValueZero) => 0,
            () => count,
        };
        let record = match self.has(IndexWithRecordNumber) {
            true => asked,
            false => 0,
        };
        let most = match () {
            () if self.has(OnePastTheLastTaken) => count.saturating_add(1),
            () if self.has(LastRefused) => count.saturating_sub(1),
            () => count,
        };
        let index = point.wrapping_sub(1);
        let strides = match () {
            () if self.has(StrideOf19Taken) => 19..=0xffff,
            () if self.has(StrideOf20Refused) => 21..=0xffff,
            () if self.has(StrideOf65535Refused) => 20..=0xfffe,
            () if self.has(StrideOf65536Taken) => 20..=0x1_0000,
            () => 20..=0xffff,
        };
        if index >= most || data_type > 10 && self.has(MadeUpTypeRefused) {
            return Err([27, value, record]);
        }
        if !strides.contains(&stride) {
            return Err([27, value, record]);
        }
        let index = match self.has(NextPointsValue) && point < count {
            true => point,
            false => index,
        };
        let product = match () {
            () if self.has(ProductOf32Bits) => Some(index.wrapping_mul(stride) & MOST),
            () if self.has(ProductOf64Bits) => Some(index.wrapping_mul(stride)),
            () => index.checked_mul(stride),
        };
        let sum = |a: u64, b: u64| match self.has(SumOf64Bits) {
            true => Some(a.wrapping_add(b)),
            false => a.checked_add(b),
        };
        let start = product.and_then(|product| sum(at, product));
        let start = start.map(|start| match self.has(PlaceOf32Bits) {
            true => start & MOST,
            false => start,
        });
        let end = start.and_then(|start| sum(start, size));
        let length = file.len() as u64;
        let inside = match (start, end) {
            (Some(start), _) if self.has(StartInsideIsEnough) => start < length,
            (Some(_), Some(end)) if self.has(VeryEndRefused) => end < length,
            (Some(_), Some(end)) => end <= length,
            _ => self.has(CountAloneLookedAt),
        };
        match start {
            Some(start) if inside => Ok([start, size]),
            _ if self.has(OutsideIsShort) => Err([1, size, 0]),
            _ if self.has(OutsideWithNoCount) => Err([27, 0, 0]),
            _ => Err([27, value, record]),
        }
    }

    /// The number of a value. What would lie outside the file is 0.
    fn bits(&self, file: &[u8], data_type: u64, [start, size]: Span) -> u64 {
        let byte = |k: u64| -> u8 {
            let at = start.checked_add(k).and_then(|at| usize::try_from(at).ok());
            at.and_then(|at| file.get(at).copied()).unwrap_or(0)
        };
        let width = match () {
            () if self.has(BitsOfEightBytes) => 8,
            () if self.has(BitsOfFourBytes) => size.min(4),
            () if self.has(BitsOfNothingBeyondEight) && size > 8 => 0,
            () => size.min(8),
        };
        let from = match self.has(BitsOfTheLastEight) {
            true => size - width,
            false => 0,
        };
        let mut bits = 0;
        for k in 0..width {
            let place = match self.has(BitsBigEndian) {
                true => width - 1 - k,
                false => k,
            };
            bits |= u64::from(byte(from + k)) << (8 * place);
        }
        let signed = matches!(data_type, 2 | 4 | 6) && width > 0;
        match () {
            () if self.has(BitsSigned) && signed => {
                let above = 64 - 8 * width as u32;
                ((bits << above) as i64 >> above) as u64
            }
            () if self.has(BitsOfQuietNans) && data_type == 10 && f64::from_bits(bits).is_nan() => {
                bits | 1 << 51
            }
            () if self.has(BitsOfQuietNans)
                && data_type == 9
                && f32::from_bits(bits as u32).is_nan() =>
            {
                bits | 1 << 22
            }
            () => bits,
        }
    }

    /// Whether a stretch is within the points of an attribute.
    fn within(&self, file: &[u8], attribute: &Attribute, first: u64, count: u64) -> bool {
        let points = attribute[4];
        let first = match self.has(StretchFromZero) {
            true => first.wrapping_add(1),
            false => first,
        };
        let most = match self.has(StretchOneMore) {
            true => points.saturating_add(1),
            false => points,
        };
        if first == 0 {
            return false;
        }
        let before = first - 1;
        if self.has(StretchSumWraps) {
            if before.wrapping_add(count) > most {
                return false;
            }
        } else if before > most || count > most - before {
            return false;
        }
        if self.has(StretchBehindTheLastRefused) && before == points {
            return false;
        }
        if count == 0 {
            let nothing = self.has(StretchOfNothingLookedAt) && first <= points;
            return !nothing || self.place(file, attribute, first).is_ok();
        }
        let furthest = match self.has(StretchFirstAloneLookedAt) {
            true => first,
            false => before.wrapping_add(count),
        };
        self.place(file, attribute, furthest).is_ok()
    }
}

impl Library for StandIn {
    fn attributes(&self, file: &[u8], allowance: u64, place: &mut Place, row: &mut Row) {
        match self.judge(file, allowance, None) {
            Ok(told) => {
                let many = told.many as u64;
                let left = match self.has(PlaceOneLess) {
                    true => many.saturating_sub(1),
                    false => many,
                };
                let start = match self.has(PlaceOfTheVlr) {
                    true => told.start - HEAD,
                    false => told.start,
                };
                *place = [start as u64, left, told.first, told.stride, told.count];
                *row = [
                    0,
                    if self.has(AttributesValueZero) {
                        0
                    } else {
                        many
                    },
                    0,
                ];
            }
            Err(refusal) => {
                *row = refusal;
                if self.has(PlaceClearedByRefusal) {
                    *place = [0; 5];
                }
            }
        }
    }

    fn next(
        &self,
        file: &[u8],
        place: &mut Place,
        attribute: &mut Attribute,
        span: &mut Span,
    ) -> u8 {
        let &mut [at, left, first, stride, count] = place;
        let end = match self.has(NextPlacesWrap) {
            true => Some(at.wrapping_add(192)),
            false => at.checked_add(192),
        };
        let length = file.len() as u64;
        let there = match end {
            _ if self.has(NextWithoutItsEnd) => at < length,
            Some(end) if self.has(NextNotAtTheVeryEnd) => end < length,
            Some(end) => end <= length,
            None => false,
        };
        let byte = |k: u64| {
            let at = usize::try_from(at.wrapping_add(k)).unwrap_or(usize::MAX);
            file.get(at).copied().unwrap_or(0)
        };
        let (data_type, options) = self.kind(&[0, 0, byte(2), byte(3)]);
        let size = match self.width(data_type, options) {
            None if self.has(NextNotOfType11) => None,
            None if self.has(NextOfOneByteAbove10) => Some(1),
            None => Some(0),
            size => size,
        };
        let furthest = match () {
            () if self.has(NextBeyondEveryFile) => u64::MAX,
            () if self.has(NextWithinFourGigabytes) => MOST,
            () => u64::MAX / 2,
        };
        let behind = size.and_then(|size| first.checked_add(size));
        let behind = behind.filter(|_| first <= furthest);
        let none_left = left == 0 && !self.has(NextWithNoneLeft);
        let (Some(size), Some(behind), true, false) = (size, behind, there, none_left) else {
            if self.has(NextClearsAtTheEnd) {
                *attribute = [0; 5];
            }
            return 0;
        };
        let shown_at = match () {
            () if self.has(PlaceWithoutTheSizesBefore) => self.first_or(file, first),
            () if self.has(PlaceBehindItself) => behind,
            () => first,
        };
        *attribute = [data_type.into(), size, shown_at, stride, count];
        *span = match () {
            () if self.has(NextSpanOfTheName) => [at.wrapping_add(4), 32],
            () if self.has(NextSpanFromTheVlr) => [at.wrapping_sub(HEAD as u64), 192],
            () => [at, 192],
        };
        *place = match () {
            () if self.has(NextStays) => [at, left, first, stride, count],
            () if self.has(NextCountsNothing) => {
                [at.wrapping_add(192), left, behind, stride, count]
            }
            () => [
                at.wrapping_add(192),
                left.wrapping_sub(1),
                behind,
                stride,
                count,
            ],
        };
        1
    }

    fn find(
        &self,
        file: &[u8],
        allowance: u64,
        name: &[u8],
        attribute: &mut Attribute,
        row: &mut Row,
    ) {
        let told = match self.judge(file, allowance, Some(name)) {
            Ok(told) => told,
            Err(refusal) => {
                *row = refusal;
                if self.has(AttributeClearedByRefusal) {
                    *attribute = [0; 5];
                }
                return;
            }
        };
        let data = &file[told.start..][..192 * told.many];
        let Some(k) = self.named(data, name) else {
            let value = match self.has(NotFoundWithTheCount) {
                true => told.many as u64,
                false => 0,
            };
            *row = [41, value, 0];
            if self.has(AttributeClearedByRefusal) {
                *attribute = [0; 5];
            }
            return;
        };
        let before = self.sum(&data[..192 * k]);
        let (data_type, options) = self.kind(&data[192 * k..]);
        let size = self.width(data_type, options).unwrap_or(0);
        let at = told.first
            + match () {
                () if self.has(PlaceWithoutTheSizesBefore) => 0,
                () if self.has(PlaceBehindItself) => before + size,
                () => before,
            };
        let data_type = match k {
            1.. if self.has(TypeOfTheDescriptorBefore) => self.kind(&data[192 * (k - 1)..]).0,
            _ => data_type,
        };
        *attribute = [data_type.into(), size, at, told.stride, told.count];
        let value = if self.has(FoundWithItsNumber) {
            k + 1
        } else {
            0
        };
        *row = [0, value as u64, 0];
    }

    fn value(
        &self,
        file: &[u8],
        attribute: &Attribute,
        point: u64,
        span: &mut Span,
        row: &mut Row,
    ) {
        match self.place(file, attribute, point) {
            Ok(part @ [start, size]) => {
                *row = [0, self.bits(file, attribute[0], part), 0];
                *span = match () {
                    () if self.has(SpanOfEightBytes) => [start, size.min(8)],
                    () if self.has(SpanFromTheRecord) => [start.wrapping_sub(attribute[2]), size],
                    () => part,
                };
            }
            Err(refusal) => {
                *row = refusal;
                if self.has(SpanClearedByRefusal) {
                    *span = [0; 2];
                }
            }
        }
    }

    fn column(
        &self,
        file: &[u8],
        attribute: &Attribute,
        stretch: (u64, u64),
        dst: &mut [u64],
        row: &mut Row,
    ) {
        let (first, count) = stretch;
        let count = match self.has(StretchCountOf32Bits) {
            true => count & MOST,
            false => count,
        };
        let room = dst.len() as u64;
        let room = match self.has(RoomOneLessTaken) && room > 0 {
            true => room + 1,
            false => room,
        };
        let value = if self.has(RoomValueZero) { 0 } else { count };
        if self.has(RoomBeforeIndex) && room < count {
            *row = [22, value, 0];
            return;
        }
        if !self.within(file, attribute, first, count) {
            *row = [27, attribute[4], 0];
            return;
        }
        if room < count && !self.has(BegunBeforeRoom) {
            *row = [22, value, 0];
            return;
        }
        let more = u64::from(self.has(FilledWithOneMore));
        for k in 0..(count + more).min(dst.len() as u64) {
            let point = first.wrapping_add(k);
            let by_size = [
                attribute[0],
                attribute[1],
                attribute[2],
                attribute[1],
                attribute[4],
            ];
            let of = match self.has(FilledByTheSize) {
                true => &by_size,
                false => attribute,
            };
            let value = self.place(file, of, point);
            dst[k as usize] = value.map_or(0, |part| self.bits(file, attribute[0], part));
        }
        if room < count {
            *row = [22, value, 0];
            return;
        }
        if self.has(FilledBehind)
            && let Some(entry) = dst.get_mut(count as usize)
        {
            *entry = 0;
        }
        *row = [0, if self.has(ColumnValueZero) { 0 } else { count }, 0];
    }

    fn vlr_first(
        &self,
        file: &[u8],
        allowance: u64,
        vlr: (&[u8], u16),
        span: &mut Span,
        row: &mut Row,
    ) {
        if let Err(refusal) = self.check(file, allowance) {
            *row = refusal;
            if self.has(VlrRefusalClearsSpan) {
                *span = [0; 2];
            }
            return;
        }
        let (user, record) = vlr;
        match self.first(file, user, record) {
            Some(([start, length], k)) => {
                let value = match () {
                    () if self.has(VlrValueOfTheLength) => length as u64,
                    () if self.has(VlrValueOfItsNumber) => k,
                    () => 1,
                };
                *row = [0, value, 0];
                let [start, length] = [start as u64, length as u64];
                *span = match () {
                    () if self.has(VlrFromItsHead) => [start - 54, length],
                    () if self.has(VlrFromItsHeadAsAnEvlr) => [start + 6, length],
                    () if self.has(VlrLengthWithHead) => [start, length + 54],
                    () => [start, length],
                };
            }
            None => {
                *row = match self.has(VlrMissingIs37) {
                    true => [37, 0, 0],
                    false => [0, 0, 0],
                };
                if self.has(VlrMissingClearsSpan) {
                    *span = [0; 2];
                }
            }
        }
    }

    fn read(&self, bytes: &[u8], row: &mut Row, descriptor: &mut Descriptor) {
        let wrong = |bytes: &[u8]| match bytes.get(2) {
            Some(11) if self.has(ReadType11) => false,
            Some(&data_type) => data_type > 10,
            None => false,
        };
        let refusal = match bytes.len() {
            191 if self.has(ReadOf191Bytes) => None,
            3..192 if self.has(ReadTypeBeforeShort) && wrong(bytes) => Some([39, 0, 0]),
            length @ 0..192 if self.has(ReadShortWithTheLength) => Some([1, length as u64, 0]),
            0..192 => Some([1, 192, 0]),
            _ if wrong(bytes) => Some([39, 0, 0]),
            _ => None,
        };
        if let Some(refusal) = refusal {
            *row = refusal;
            if self.has(ReadClearsOnRefusal) {
                descriptor.name = [0; 32];
            }
            return;
        }
        let mut all = [0; 192];
        let end = bytes.len().min(192);
        all[..end].copy_from_slice(&bytes[..end]);
        let long = |at| u64_at(&all, at);
        descriptor.numbers = [
            u16_at(&all, 0),
            all[2].into(),
            all[3].into(),
            u32_at(&all, 36),
            long(40),
            long(64),
            long(88),
            long(112),
            long(136),
        ];
        descriptor.name.copy_from_slice(&all[4..36]);
        for (k, at) in [48, 72, 96, 120, 144].into_iter().enumerate() {
            let to = if self.has(ReadDeprecatedOtherwise) {
                4 - k
            } else {
                k
            };
            descriptor.deprecated[16 * to..][..16].copy_from_slice(&all[at..at + 16]);
        }
        descriptor.description.copy_from_slice(&all[160..]);
        let numbers = &mut descriptor.numbers;
        match self.error {
            Some(ReadReservedLost) => numbers[0] = 0,
            Some(ReadUnusedLost) => numbers[3] = 0,
            Some(ReadNoDataOfFourBytes) => numbers[4] &= MOST,
            Some(ReadMinForMax) => numbers.swap(5, 6),
            Some(ReadScaleForOffset) => numbers.swap(7, 8),
            Some(ReadNameUpToItsZero) => up_to_its_zero(&mut descriptor.name),
            Some(ReadDeprecatedLost) => descriptor.deprecated = [0; 80],
            Some(ReadDescriptionLost) => descriptor.description = [0; 32],
            _ => {}
        }
        *row = [0, if self.has(ReadValueZero) { 0 } else { 192 }, 0];
    }

    fn write(&self, descriptor: &Descriptor, dst: &mut [u8], row: &mut Row) {
        let Descriptor {
            mut numbers,
            mut name,
            mut deprecated,
            description,
        } = *descriptor;
        let no_room = [22, if self.has(WriteRoomValueZero) { 0 } else { 192 }, 0];
        let least = if self.has(WriteRoomOneLess) { 191 } else { 192 };
        let short = dst.len() < least;
        let wrong = match numbers[1] {
            n if self.has(WriteWideTypeCut) => n & 0xff > 10,
            n if self.has(WriteType11) => n > 11,
            _ if self.has(WriteWideNumbersRefused) && numbers[0] > 0xffff => true,
            n => n > 10,
        };
        if self.has(WriteRoomBeforeType) && short {
            *row = no_room;
            return;
        }
        if wrong {
            *row = [39, 0, 0];
            return;
        }
        if short && !self.has(WriteBegunBeforeRoom) {
            *row = no_room;
            return;
        }
        match self.error {
            Some(WriteReservedZero) => numbers[0] = 0,
            Some(WriteUnusedZero) => numbers[3] = 0,
            Some(WriteDeprecatedZero) => deprecated = [0; 80],
            Some(WriteNameUpToItsZero) => up_to_its_zero(&mut name),
            Some(WriteOptionsByType) if numbers[1] & 0xff != 0 => numbers[2] = 0,
            Some(WriteMinForMax) => numbers.swap(5, 6),
            _ => {}
        }
        let mut all = [0; 192];
        let mut put = |at: usize, width: usize, number: u64| {
            all[at..at + width].copy_from_slice(&number.to_le_bytes()[..width]);
        };
        put(0, 2, numbers[0]);
        put(2, 1, numbers[1]);
        put(3, 1, numbers[2]);
        put(36, 4, numbers[3]);
        for (k, at) in [40, 64, 88, 112, 136].into_iter().enumerate() {
            put(at, 8, numbers[4 + k]);
        }
        all[4..36].copy_from_slice(&name);
        for (k, at) in [48, 72, 96, 120, 144].into_iter().enumerate() {
            all[at..at + 16].copy_from_slice(&deprecated[16 * k..][..16]);
        }
        all[160..].copy_from_slice(&description);
        let end = dst.len().min(192);
        dst[..end].copy_from_slice(&all[..end]);
        if short {
            *row = no_room;
            return;
        }
        if self.has(WriteBehindCleared) {
            dst[end..].fill(0);
        }
        *row = [0, if self.has(WriteValueZero) { 0 } else { 192 }, 0];
    }

    fn size(&self, data_type: u8, options: u8) -> u64 {
        match data_type {
            0 if self.has(SizeWithoutOptions) => 1,
            11 if self.has(SizeOf11) => 1,
            _ => self.width(data_type, options).unwrap_or(0),
        }
    }
}

impl StandIn {
    /// Where the first value of a file is, or what stands for it where the file has no whole header.
    fn first_or(&self, file: &[u8], first: u64) -> u64 {
        match file.get(104) {
            Some(&format) if file.len() > 255 && format < 11 => self.first_value(file),
            _ => first,
        }
    }
}

fn up_to_its_zero(text: &mut [u8; 32]) {
    let zero = text.iter().position(|&b| b == 0).unwrap_or(32);
    text[zero..].fill(0);
}
