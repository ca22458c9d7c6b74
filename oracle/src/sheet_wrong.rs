//! A stand-in for the port's call that adds a file to a sheet, into which an error can be put. The comparison is
//! tested with it: each error must be seen.
//!
//! It is written apart from `sheet_model` and otherwise: in 64 bits, with masks, on the sheet's numbers
//! themselves. Its file check is the stand-in of `file_wrong` without an error.

use crate::{
    capi::{Row, SheetNumbers},
    file::Library as _,
    file_wrong,
    sheet::Library,
};

errors! {
    CheckAllowanceIgnored,
    CheckRecordNumberLost,
    RecordsAfterThePointsNotLookedAt,
    LegacyCountAlone,
    LargeCountAlone,
    LargeCountFirst,
    PointsFromTheHeaderSums,
    WholeClassByteInOldFormats,
    FourBitsOfTheClassInOldFormats,
    FiveBitsOfTheClassInNewFormats,
    SevenBitsOfTheClassInNewFormats,
    NewClassInTheSecondByte,
    OldClassInTheThirdByte,
    Format5TakenForNew,
    Format6TakenForOld,
    OverlapCountedAsClass1,
    Class255LeftOut,
    ClassesAbove31AsClass0,
    ClassesFromTheNextPlaceOn,
    ReturnZeroLeftOut,
    ReturnZeroCountedAsFirst,
    ReturnFifteenLeftOut,
    ThreeBitsOfANewReturnNumber,
    FourBitsOfAnOldReturnNumber,
    NumberOfReturnsForTheReturnNumber,
    ReturnsFromTheHeader,
    ReturnAboveTheNumberOfReturnsLeftOut,
    WithheldLeftOut,
    SyntheticLeftOut,
    KeyPointsLeftOut,
    FirstPointLeftOut,
    LastPointLeftOut,
    PointsOf8Bits,
    LengthOfTheFormatForTheRecordLength,
    PointsRightBehindTheHeader,
    SmallestFrom0,
    LargestFrom0,
    CoordinatesWithoutSign,
    CoordinatesOf16Bits,
    BoundsInSixtyFourBits,
    SmallestAndLargestSwapped,
    YForX,
    ZForY,
    BoundsOfTheFirstPointAlone,
    BoundsOfTheLastPointAlone,
    BoundsOfTheFirstFileAlone,
    BoundsOfTheLastFileAlone,
    BoundsOfAFileWithoutPoints,
    BoundsLostByAFileWithoutPoints,
    BoundsOfWithheldPointsLeftOut,
    BoundsByTheSignBeforeTheyAreThere,
    BoundsThereOnlyWhereTheNumberIs1,
    BoundsNumberKept,
    BoundsThatAreNotThereKept,
    WideBoundsKept,
    FileWithoutPointsNotCounted,
    FileWithoutPointsRefused,
    RefusedFileCounted,
    RefusedFileClearsTheSheet,
    FilesBySumOfPoints,
    AddedBeforeAllAreTested,
    FilesNotTested,
    PointsNotTested,
    ClassesNotTested,
    LastClassNotTested,
    ReturnsNotTested,
    LastReturnNotTested,
    LastTotalRefused,
    FullTotalsRefusedThoughNothingIsAdded,
    TotalsStayAtTheEnd,
    TotalsOf32Bits,
    TotalsOf63Bits,
    SumOfClassesTested,
    TooLargeBeforeTheCheck,
    TooLargeNumber22,
    TooLargeWithTheTotal,
    TooLargeWithAFileNumber,
    ValueOfThePoints,
    RecordOfTheFiles,
    SheetBegunAnew,
}

pub struct StandIn {
    pub error: Option<Error>,
}

fn u16_at(file: &[u8], at: usize) -> u64 {
    u16::from_le_bytes([file[at], file[at + 1]]).into()
}

fn u32_at(file: &[u8], at: usize) -> u64 {
    u16_at(file, at) | u16_at(file, at + 2) << 16
}

fn u64_at(file: &[u8], at: usize) -> u64 {
    u32_at(file, at) | u32_at(file, at + 4) << 32
}

/// The bytes of a record of formats 0 to 10.
const LEAST: [u64; 11] = [20, 28, 26, 34, 57, 63, 30, 36, 38, 59, 67];

/// The places of the counts.
fn counts() -> impl Iterator<Item = usize> {
    (0..2).chain(9..281)
}

impl StandIn {
    fn has(&self, error: Error) -> bool {
        self.error == Some(error)
    }

    fn check(&self, file: &[u8], allowance: u64) -> Result<(), Row> {
        let allowance = match self.has(CheckAllowanceIgnored) {
            true => u64::MAX,
            false => allowance,
        };
        let mut check = [0; 4];
        file_wrong::StandIn { error: None }.check(file, allowance, &mut check);
        let [number, value, record, _] = check;
        match number {
            0 => Ok(()),
            13 | 14 | 35 if self.has(RecordsAfterThePointsNotLookedAt) => Ok(()),
            _ if self.has(CheckRecordNumberLost) => Err([number, value, 0]),
            _ => Err([number, value, record]),
        }
    }

    /// How many points an accepted file has.
    fn count(&self, file: &[u8]) -> u64 {
        let legacy = u32_at(file, 107);
        if self.has(PointsFromTheHeaderSums) {
            return (0..5).map(|k| u32_at(file, 111 + 4 * k)).sum();
        }
        if file[25] < 4 || self.has(LegacyCountAlone) {
            return legacy;
        }
        let large = u64_at(file, 247);
        match (legacy, large) {
            _ if self.has(LargeCountAlone) => large,
            (_, 1..) if self.has(LargeCountFirst) => large,
            (0, large) => large,
            (legacy, _) => legacy,
        }
    }

    /// Return number, class, and whether the point counts.
    fn flags(&self, format: u8, record: &[u8]) -> (u8, u8, bool) {
        let old = match format {
            5 if self.has(Format5TakenForNew) => false,
            6 if self.has(Format6TakenForOld) => true,
            _ => format < 6,
        };
        let [a, b, c] = [record[14], record[15], record[16]];
        let (own, number) = match old {
            true if self.has(FourBitsOfAnOldReturnNumber) => (a & 15, a >> 3 & 7),
            true => (a & 7, a >> 3 & 7),
            false if self.has(ThreeBitsOfANewReturnNumber) => (a & 7, a >> 4),
            false => (a & 15, a >> 4),
        };
        let class = match old {
            true if self.has(WholeClassByteInOldFormats) => b,
            true if self.has(FourBitsOfTheClassInOldFormats) => b & 15,
            true if self.has(OldClassInTheThirdByte) => c,
            true => b & 31,
            false if self.has(FiveBitsOfTheClassInNewFormats) => c & 31,
            false if self.has(SevenBitsOfTheClassInNewFormats) => c & 127,
            false if self.has(NewClassInTheSecondByte) => b,
            false => c,
        };
        let class = match class {
            12 if self.has(OverlapCountedAsClass1) => 1,
            32.. if self.has(ClassesAbove31AsClass0) => 0,
            _ => class,
        };
        let shift = if old { 5 } else { 0 };
        let [synthetic, key, withheld] = [0, 1, 2].map(|bit| b >> shift >> bit & 1 == 1);
        let counts = !(synthetic && self.has(SyntheticLeftOut)
            || key && self.has(KeyPointsLeftOut)
            || withheld && self.has(WithheldLeftOut)
            || own > number && self.has(ReturnAboveTheNumberOfReturnsLeftOut));
        let own = match own {
            _ if self.has(NumberOfReturnsForTheReturnNumber) => number,
            0 if self.has(ReturnZeroCountedAsFirst) => 1,
            _ => own,
        };
        (own, class, counts)
    }

    /// What a file adds: its counts by their places, and its bounds, if any.
    fn of_file(&self, file: &[u8]) -> (SheetNumbers, Option<[i64; 6]>) {
        let mut sheet = [0; 281];
        sheet[0] = 1;
        let format = file[104];
        let length = match self.has(LengthOfTheFormatForTheRecordLength) {
            true => LEAST[usize::from(format)],
            false => u16_at(file, 105),
        };
        let first = match self.has(PointsRightBehindTheHeader) {
            true => u16_at(file, 94),
            false => u32_at(file, 96),
        };
        let mut count = self.count(file);
        if self.has(PointsOf8Bits) {
            count &= 255;
        }
        let mut bounds = match () {
            () if self.has(BoundsOfAFileWithoutPoints) => Some([0; 6]),
            () if self.has(SmallestFrom0) && count > 0 => {
                Some([0, -1 << 31, 0, -1 << 31, 0, -1 << 31])
            }
            () if self.has(LargestFrom0) && count > 0 => Some([1 << 31, 0, 1 << 31, 0, 1 << 31, 0]),
            () => None,
        };
        // A count that is not the file's may lead beyond it.
        let room = (file.len() as u64 - first) / length;
        for k in 0..count.min(room) {
            let at = (first + k * length) as usize;
            let record = &file[at..(at + length as usize).max(at + 17).min(file.len())];
            let (own, class, counted) = self.flags(format, record);
            let left_out = k == 0 && self.has(FirstPointLeftOut)
                || k + 1 == count && self.has(LastPointLeftOut);
            if left_out || !counted {
                continue;
            }
            sheet[1] += 1;
            let place = match class {
                255 if self.has(Class255LeftOut) => None,
                _ if self.has(ClassesFromTheNextPlaceOn) => Some(9 + (class as usize + 1) % 256),
                _ => Some(9 + class as usize),
            };
            place.into_iter().for_each(|place| sheet[place] += 1);
            match own {
                0 if self.has(ReturnZeroLeftOut) => {}
                15 if self.has(ReturnFifteenLeftOut) => {}
                _ => sheet[265 + usize::from(own)] += 1,
            }
            let withheld = record[15] >> (if format < 6 { 7 } else { 2 }) & 1 == 1;
            if withheld && self.has(BoundsOfWithheldPointsLeftOut)
                || k > 0 && self.has(BoundsOfTheFirstPointAlone)
            {
                continue;
            }
            let axes = match () {
                () if self.has(YForX) => [4, 4, 8],
                () if self.has(ZForY) => [0, 8, 8],
                () => [0, 4, 8],
            };
            let [x, y, z] = axes.map(|axis| {
                let bits = u32_at(record, axis) as u32;
                match () {
                    () if self.has(CoordinatesWithoutSign) => i64::from(bits),
                    () if self.has(CoordinatesOf16Bits) => i64::from(bits as i16),
                    () => i64::from(bits as i32),
                }
            });
            let own = [x, x, y, y, z, z];
            bounds = match bounds {
                Some(bounds) if !self.has(BoundsOfTheLastPointAlone) => {
                    Some(self.wider(bounds, own))
                }
                _ => Some(own),
            };
        }
        if self.has(ReturnsFromTheHeader) {
            sheet[265..].fill(0);
            for k in 0..5 {
                sheet[266 + k] = u32_at(file, 111 + 4 * k);
            }
        }
        (sheet, bounds)
    }

    fn wider(&self, a: [i64; 6], b: [i64; 6]) -> [i64; 6] {
        let mut both = a;
        for axis in 0..3 {
            let [low, high] = [2 * axis, 2 * axis + 1];
            both[low] = a[low].min(b[low]);
            both[high] = a[high].max(b[high]);
        }
        both
    }

    /// The bounds that a sheet has.
    fn bounds(&self, sheet: &SheetNumbers) -> Option<[i64; 6]> {
        let there = match self.has(BoundsThereOnlyWhereTheNumberIs1) {
            true => sheet[2] == 1,
            false => sheet[2] != 0,
        };
        let mut bounds = [0; 6];
        for (bound, &number) in bounds.iter_mut().zip(&sheet[3..9]) {
            *bound = match () {
                () if self.has(WideBoundsKept) => number as i64,
                () if self.has(CoordinatesWithoutSign) => i64::from(number as u32),
                () => i64::from(number as i32),
            };
        }
        let signed = self.has(BoundsByTheSignBeforeTheyAreThere);
        (there || signed && bounds != [0; 6]).then_some(bounds)
    }

    /// Whether the totals of a sheet and a file are all small enough.
    fn tested(&self, sheet: &SheetNumbers, own: &SheetNumbers) -> bool {
        let most = match () {
            () if self.has(LastTotalRefused) => u64::MAX - 1,
            () if self.has(TotalsOf63Bits) => u64::MAX >> 1,
            () => u64::MAX,
        };
        let untested = |place: usize| match place {
            0 => self.has(FilesNotTested),
            1 => self.has(PointsNotTested),
            264 if self.has(LastClassNotTested) => true,
            9..=264 => self.has(ClassesNotTested),
            280 if self.has(LastReturnNotTested) => true,
            _ => self.has(ReturnsNotTested),
        };
        let fits = |place: usize| {
            let sum = sheet[place].checked_add(own[place]);
            let full = sheet[place] == u64::MAX && own[place] == 0;
            untested(place)
                || self.has(TotalsStayAtTheEnd)
                || sum.is_some_and(|sum| own[place] == 0 || sum <= most)
                    && !(full && self.has(FullTotalsRefusedThoughNothingIsAdded))
        };
        let all = sheet[9..265]
            .iter()
            .try_fold(own[1], |sum, &n| sum.checked_add(n));
        counts().all(fits) && (all.is_some() || !self.has(SumOfClassesTested))
    }

    fn too_large(&self, sheet: &SheetNumbers, own: &SheetNumbers) -> Row {
        let over = counts().find(|&place| sheet[place].checked_add(own[place]).is_none());
        let value = over.map_or(0, |place| sheet[place]);
        match () {
            () if self.has(TooLargeNumber22) => [22, 0, 0],
            () if self.has(TooLargeWithTheTotal) => [50, value, 0],
            () if self.has(TooLargeWithAFileNumber) => [50, 0, sheet[0].wrapping_add(1)],
            () => [50, 0, 0],
        }
    }
}

impl Library for StandIn {
    fn add(&self, file: &[u8], allowance: u64, sheet: &mut SheetNumbers, row: &mut Row) {
        let full = counts().any(|place| sheet[place] == u64::MAX);
        if full && self.has(TooLargeBeforeTheCheck) && sheet[0] == u64::MAX {
            *row = [50, 0, 0];
            return;
        }
        if let Err(refusal) = self.check(file, allowance) {
            *row = refusal;
            if self.has(RefusedFileCounted) {
                sheet[0] = sheet[0].wrapping_add(1);
            }
            if self.has(RefusedFileClearsTheSheet) {
                *sheet = [0; 281];
            }
            return;
        }
        let (own, bounds) = self.of_file(file);
        let mut own = own;
        match own[1] {
            0 if self.has(FileWithoutPointsRefused) => {
                *row = [29, 0, 0];
                return;
            }
            0 if self.has(FileWithoutPointsNotCounted) => own[0] = 0,
            points if self.has(FilesBySumOfPoints) => own[0] = points,
            _ => {}
        }
        if self.has(AddedBeforeAllAreTested) {
            // Files and points, and then the classes until one is too large.
            for place in counts() {
                let Some(sum) = sheet[place].checked_add(own[place]) else {
                    *row = [50, 0, 0];
                    return;
                };
                sheet[place] = sum;
            }
            own = [0; 281];
        }
        if !self.tested(sheet, &own) {
            *row = self.too_large(sheet, &own);
            return;
        }
        let before = self.bounds(sheet);
        for place in counts() {
            let sum = match self.has(TotalsStayAtTheEnd) {
                true => sheet[place].saturating_add(own[place]),
                false => sheet[place].wrapping_add(own[place]),
            };
            sheet[place] = match () {
                () if self.has(TotalsOf32Bits) => sum & 0xffff_ffff,
                () if self.has(SheetBegunAnew) => own[place],
                () => sum,
            };
        }
        let both = match (before, bounds) {
            (Some(before), Some(_)) if self.has(BoundsOfTheFirstFileAlone) => Some(before),
            (Some(_), Some(own)) if self.has(BoundsOfTheLastFileAlone) => Some(own),
            (Some(before), Some(own)) => Some(self.wider(before, own)),
            (Some(_), None) if self.has(BoundsLostByAFileWithoutPoints) => None,
            (before, own) => before.or(own),
        };
        let has = sheet[2];
        match both {
            None if self.has(BoundsThatAreNotThereKept) => {}
            None => sheet[2..9].fill(0),
            Some(bounds) => {
                sheet[2] = 1;
                if self.has(BoundsNumberKept) && has != 0 {
                    sheet[2] = has;
                }
                for (number, bound) in sheet[3..9].iter_mut().zip(bounds) {
                    *number = match self.has(BoundsInSixtyFourBits) || self.has(WideBoundsKept) {
                        true => bound as u64,
                        false => u64::from(bound as u32),
                    };
                }
                if self.has(SmallestAndLargestSwapped) {
                    sheet[3..9].chunks_mut(2).for_each(<[u64]>::reverse);
                }
            }
        }
        *row = match () {
            () if self.has(ValueOfThePoints) => [0, sheet[1], 0],
            () if self.has(RecordOfTheFiles) => [0, 0, sheet[0]],
            () => [0, 0, 0],
        };
    }
}
