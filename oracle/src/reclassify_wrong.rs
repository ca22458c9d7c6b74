//! A stand-in for the port's calls that set a class, into which an error can be put. The comparison is tested
//! with it: each error must be seen.
//!
//! It is written apart from `reclassify_model` and otherwise: in 64 bits, with masks, on the record as a part
//! of the file. Its file check is the stand-in of `file_wrong` without an error.

use crate::{
    capi::Row,
    file::Library as _,
    file_wrong,
    reclassify::Library,
    reclassify_model::{Change, Wish},
};

errors! {
    CheckOnlyUpToThePoints,
    CheckAllowanceIgnored,
    CheckRecordNumberLost,
    RecordsAfterThePointsNotLookedAt,
    PointsFromZero,
    PointZeroTakenAsFirst,
    OnePastTheLastTaken,
    PastTheLastTakenAsLast,
    LastRefused,
    IndexByTheBytesThatAreThere,
    IndexByPlacesIn64Bits,
    IndexValueOfThePoint,
    IndexValueZero,
    IndexWithRecordNumber,
    PointOf8Bits,
    PointOf16Bits,
    PointOf32Bits,
    LegacyCountAlone,
    LargeCountAlone,
    LargeCountFirst,
    LargeCountOf32Bits,
    ClassBeforeIndex,
    ClassBeforeCheck,
    Class32LetThrough,
    Class31Refused,
    ClassAbove31Masked,
    ClassAbove31OverTheFlags,
    ClassAbove31TakenInFormats4And5,
    ClassAbove31RefusedInFormat6,
    ClassAbove31RefusedInAllFormats,
    Class12Refused,
    ClassValueZero,
    ClassValueMasked,
    ClassWithRecordNumber,
    ThreeFlagsLost,
    WithheldLost,
    OldClassLeftBeside,
    ClassAddedToTheOldOne,
    ClassOfFourBits,
    ExtendedClassOfFiveBits,
    ClassInTheFirstFlagByte,
    ClassInTheSecondFlagByte,
    OldClassInTheThirdByte,
    Format6TakenForOld,
    Format5TakenForExtended,
    OverlapSetForClass12,
    OverlapClearedForOthers,
    OverlapForClass12AsTheRustClearsIt,
    NextPointReclassified,
    PointBeforeReclassified,
    EveryPointReclassified,
    EveryPointOfThatClassReclassified,
    LengthOfFormatForRecordLength,
    PlaceBehindTheHeader,
    PlaceOf32Bits,
    ProductOf32Bits,
    ByteBehindCleared,
    HalfPairCleared,
    LegacyCountCleared,
    SetThoughRefused,
    ValueOfTheNewClass,
    ValueWithTheFlags,
    ValueOfFourBits,
    ValueZero,
    ValueWithRecordNumber,
    SameClassRefused,
    QuestionOfAnyClass,
    QuestionWithoutIndex,
    ChangeClearedByRefusal,
    ChangeFromTheRecord,
    ChangeFromThePoints,
    ChangeCountedFromOne,
    ChangeToTheClassAlone,
    ChangeToTheByteThatIsThere,
    ChangeTheOtherWayRound,
}

pub struct StandIn {
    pub error: Option<Error>,
}

/// A point's record in a file, and the class in it.
struct Place {
    record: usize,
    at: usize,
    mask: u8,
    count: u64,
    length: usize,
    first: usize,
}

fn u16_at(file: &[u8], at: usize) -> u64 {
    u16::from_le_bytes([file[at], file[at + 1]]).into()
}

fn u32_at(file: &[u8], at: usize) -> u64 {
    u16_at(file, at) | u16_at(file, at + 2) << 16
}

fn u64_at(file: &[u8], at: usize) -> u64 {
    u32_at(file, at) | u32_at(file, at + 4) << 32
}

const MOST: u64 = 0xffff_ffff;

/// The bytes of a record of formats 0 to 10.
const LEAST: [u64; 11] = [20, 28, 26, 34, 57, 63, 30, 36, 38, 59, 67];

impl StandIn {
    fn has(&self, error: Error) -> bool {
        self.error == Some(error)
    }

    fn check(&self, file: &[u8], allowance: u64) -> Result<(), Row> {
        let seen = match self.has(CheckOnlyUpToThePoints) && file.len() >= 111 {
            true => {
                let end = u32_at(file, 96) + u32_at(file, 107) * u16_at(file, 105);
                &file[..file.len().min(end as usize)]
            }
            false => file,
        };
        let allowance = match self.has(CheckAllowanceIgnored) {
            true => u64::MAX,
            false => allowance,
        };
        let mut check = [0; 4];
        file_wrong::StandIn { error: None }.check(seen, allowance, &mut check);
        let [number, value, record, _] = check;
        match number {
            0 => Ok(()),
            13 | 14 | 35 if self.has(RecordsAfterThePointsNotLookedAt) => Ok(()),
            _ if self.has(CheckRecordNumberLost) => Err([number, value, 0]),
            _ => Err([number, value, record]),
        }
    }

    /// How many points an accepted file has.
    fn count(&self, file: &[u8]) -> u64 {
        let legacy = u32_at(file, 107);
        if file[25] < 4 || self.has(LegacyCountAlone) {
            return legacy;
        }
        let large = u64_at(file, 247);
        match (legacy, large) {
            _ if self.has(LargeCountAlone) => large,
            (_, 1..) if self.has(LargeCountFirst) => large,
            (0, large) if self.has(LargeCountOf32Bits) => large & MOST,
            (0, large) => large,
            (legacy, _) => legacy,
        }
    }

    /// The point from 0 on, or a refusal.
    fn index(&self, file: &[u8], point: u64, count: u64, length: u64) -> Result<u64, Row> {
        let point = match point {
            _ if self.has(PointOf8Bits) => point & 0xff,
            _ if self.has(PointOf16Bits) => point & 0xffff,
            _ if self.has(PointOf32Bits) => point & MOST,
            0 if self.has(PointZeroTakenAsFirst) => 1,
            _ if self.has(PointsFromZero) => point.wrapping_add(1),
            _ => point,
        };
        let room = file.len() as u64 - u32_at(file, 96);
        let most = match () {
            () if self.has(OnePastTheLastTaken) && count < room / length => count + 1,
            () if self.has(IndexByTheBytesThatAreThere) => room / length,
            () if self.has(LastRefused) => count.saturating_sub(1),
            () => count,
        };
        if point > count && count > 0 && self.has(PastTheLastTakenAsLast) {
            return Ok(count - 1);
        }
        let index = point.wrapping_sub(1);
        let end = index.wrapping_mul(length).wrapping_add(length);
        if self.has(IndexByPlacesIn64Bits) && count > 0 && (length..=room).contains(&end) {
            return Ok((end / length - 1).min(count - 1));
        }
        let value = match () {
            () if self.has(IndexValueOfThePoint) => point,
            () if self.has(IndexValueZero) => 0,
            () => count,
        };
        let record = if self.has(IndexWithRecordNumber) {
            point
        } else {
            0
        };
        match index < most {
            true => Ok(index),
            false => Err([27, value, record]),
        }
    }

    /// Whether flags of two bytes hold a class, or a refusal.
    fn class(&self, old: bool, format: u8, wish: Wish) -> Result<(), Row> {
        let class = wish.class;
        let most = match () {
            () if self.has(Class32LetThrough) => 32,
            () if self.has(Class31Refused) => 30,
            () if self.has(ClassAbove31Masked) || self.has(ClassAbove31OverTheFlags) => 255,
            () if self.has(ClassAbove31TakenInFormats4And5) && format > 3 => 255,
            () => 31,
        };
        let limited = old
            || format == 6 && self.has(ClassAbove31RefusedInFormat6)
            || self.has(ClassAbove31RefusedInAllFormats);
        let value = match () {
            () if self.has(ClassValueZero) => 0,
            () if self.has(ClassValueMasked) => class & 31,
            () => class,
        };
        let record = if self.has(ClassWithRecordNumber) {
            wish.point
        } else {
            0
        };
        match limited && class > most || class == 12 && self.has(Class12Refused) {
            true => Err([17, value.into(), record]),
            false => Ok(()),
        }
    }

    /// Where the class of the point is, or a refusal. The question and the call that writes may judge
    /// otherwise.
    fn judge(&self, file: &[u8], wish: Wish, question: bool) -> Result<Place, Row> {
        if self.has(ClassBeforeCheck) && file.len() > 104 {
            self.class(file[104] < 6, file[104], wish)?;
        }
        self.check(file, wish.allowance)?;
        let format = file[104];
        let old = match format {
            5 if self.has(Format5TakenForExtended) => false,
            6 if self.has(Format6TakenForOld) => true,
            _ => format < 6,
        };
        if self.has(ClassBeforeIndex) {
            self.class(old, format, wish)?;
        }
        let length = u16_at(file, 105);
        let count = self.count(file);
        let index = match self.index(file, wish.point, count, length) {
            Err(_) if question && count > 0 && self.has(QuestionWithoutIndex) => 0,
            index => index?,
        };
        if !(question && self.has(QuestionOfAnyClass)) {
            self.class(old, format, wish)?;
        }

        let stride = match self.has(LengthOfFormatForRecordLength) {
            true => LEAST[usize::from(format)],
            false => length,
        };
        let index = match index {
            _ if self.has(NextPointReclassified) && index + 1 < count => index + 1,
            1.. if self.has(PointBeforeReclassified) => index - 1,
            _ => index,
        };
        let product = match self.has(ProductOf32Bits) {
            true => index.wrapping_mul(stride) & MOST,
            false => index.wrapping_mul(stride),
        };
        let first = match self.has(PlaceBehindTheHeader) {
            true => u16_at(file, 94),
            false => u32_at(file, 96),
        };
        let record = match self.has(PlaceOf32Bits) {
            true => first.wrapping_add(product) & MOST,
            false => first.wrapping_add(product),
        } as usize;
        let (byte, mask) = match old {
            true if self.has(ClassInTheFirstFlagByte) => (14, 31),
            true if self.has(OldClassInTheThirdByte) => (16, 255),
            true if self.has(ClassOfFourBits) => (15, 15),
            true => (15, 31),
            false if self.has(ClassInTheSecondFlagByte) => (15, 255),
            false if self.has(ExtendedClassOfFiveBits) => (16, 31),
            false => (16, 255),
        };
        let place = Place {
            record,
            at: record.wrapping_add(byte),
            mask,
            count,
            length: length as usize,
            first: first as usize,
        };
        // A count that is not the file's may lead beyond it.
        match place.at < file.len() {
            true if file[place.at] & mask == wish.class && self.has(SameClassRefused) => {
                Err([17, wish.class.into(), 0])
            }
            true => Ok(place),
            false => Err([27, count, 0]),
        }
    }

    /// What the byte becomes.
    fn byte(&self, place: &Place, byte: u8, class: u8) -> u8 {
        let (kept, class) = match () {
            () if self.has(ThreeFlagsLost) => (0, class),
            () if self.has(WithheldLost) && place.mask == 31 => (byte & 0x60, class),
            () if self.has(OldClassLeftBeside) => (byte, class),
            () if self.has(ClassAddedToTheOldOne) => (0, byte.wrapping_add(class)),
            () if self.has(ClassAbove31Masked) => (byte & !place.mask, class & place.mask),
            () => (byte & !place.mask, class),
        };
        kept | class
    }

    fn value(&self, place: &Place, byte: u8, wish: Wish) -> Row {
        let value = match () {
            () if self.has(ValueOfTheNewClass) => wish.class,
            () if self.has(ValueWithTheFlags) => byte,
            () if self.has(ValueOfFourBits) => byte & 15,
            () if self.has(ValueZero) => 0,
            () => byte & place.mask,
        };
        let record = if self.has(ValueWithRecordNumber) {
            wish.point
        } else {
            0
        };
        [0, value.into(), record]
    }
}

impl Library for StandIn {
    fn reclassify(&self, file: &mut [u8], wish: Wish, row: &mut Row) {
        let place = match self.judge(file, wish, false) {
            Ok(place) => place,
            Err(refusal) => {
                *row = refusal;
                if refusal[0] == 17 && self.has(SetThoughRefused) {
                    let class = wish.class & 31;
                    self.reclassify(file, Wish { class, ..wish }, &mut [0; 3]);
                }
                return;
            }
        };
        let (at, had) = (place.at, file[place.at]);
        *row = self.value(&place, had, wish);
        file[at] = self.byte(&place, had, wish.class);

        let overlap = &mut file[place.record + 15];
        if place.mask == 255 {
            match wish.class {
                12 if self.has(OverlapSetForClass12) => *overlap |= 8,
                12 if self.has(OverlapForClass12AsTheRustClearsIt) => {
                    *overlap |= 8;
                    file[at] = 1;
                }
                0..12 | 13.. if self.has(OverlapClearedForOthers) => *overlap &= !8,
                _ => {}
            }
        }
        if self.has(EveryPointReclassified) || self.has(EveryPointOfThatClassReclassified) {
            let offset = at - place.record;
            for k in 0..place.count.min(9) as usize {
                let at = place.first + k * place.length + offset;
                let alike = (file[at] ^ had) & place.mask == 0;
                if alike || self.has(EveryPointReclassified) {
                    file[at] = self.byte(&place, file[at], wish.class);
                }
            }
        }
        if self.has(ByteBehindCleared) {
            file[at + 1] = 0;
        }
        let half = |file: &[u8]| (u64_at(file, 235) == 0) != (u32_at(file, 243) == 0);
        if self.has(HalfPairCleared) && file[25] == 4 && half(file) {
            file[235..247].fill(0);
        }
        if self.has(LegacyCountCleared) && file[25] == 4 && u64_at(file, 247) == place.count {
            file[107..111].fill(0);
        }
    }

    fn ask(&self, file: &[u8], wish: Wish, change: &mut Change, row: &mut Row) {
        match self.judge(file, wish, true) {
            Ok(place) => {
                let had = file[place.at];
                let at = match () {
                    () if self.has(ChangeFromTheRecord) => place.at - place.record,
                    () if self.has(ChangeFromThePoints) => place.at - place.first,
                    () if self.has(ChangeCountedFromOne) => place.at + 1,
                    () => place.at,
                };
                let byte = match () {
                    () if self.has(ChangeToTheClassAlone) => wish.class,
                    () if self.has(ChangeToTheByteThatIsThere) => had,
                    () => self.byte(&place, had, wish.class),
                };
                *row = self.value(&place, had, wish);
                *change = [at as u64, byte.into()];
                if self.has(ChangeTheOtherWayRound) {
                    change.swap(0, 1);
                }
            }
            Err(refusal) => {
                *row = refusal;
                if self.has(ChangeClearedByRefusal) {
                    *change = [0; 2];
                }
            }
        }
    }
}
