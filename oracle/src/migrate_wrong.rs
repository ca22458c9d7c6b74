//! A stand-in for the port's calls on whole files, into which an error can be put. The comparison is tested
//! with it: each error must be seen.
//!
//! It is written apart from `migrate_model` and otherwise: the file is taken apart into pieces, in 64 bits, and
//! the new one put together of pieces one after another. Its file check is the stand-in of `file_wrong` without
//! an error, and its points go by that of `convert_wrong`.

use crate::{
    capi::Row,
    convert::Library as _,
    convert_wrong,
    file::Library as _,
    file_wrong,
    migrate::Library,
    migrate_model::Way::{self, *},
};

errors! {
    CheckRecordNumberLost,
    CheckAllowanceIgnored,
    CheckUpToThePointsOnly,
    Version10And11Taken,
    Version13Taken,
    VersionToldAs28,
    VersionToldAs3,
    FormatToldAs26,
    FormatToldAs7,
    Formats0And2Taken,
    Formats1And3OfNewTaken,
    Formats8To10Taken,
    VersionValueTold,
    EvlrHalfPairRefused,
    EvlrStartAloneRefused,
    EvlrCountAloneRefused,
    EvlrsIgnored,
    WaveformStartIgnored,
    WaveformStartOnlyByGlobalEncoding,
    EvlrsAfterCounts,
    EvlrsAfterPoints,
    CountNotLooked,
    CountOneMoreTaken,
    CountAllOnesRefused,
    LargeCountJudgedThoughNotUsed,
    LargeReturnsJudgedThoughNotUsed,
    FiveCountsNotLooked,
    FifthCountNotLooked,
    FiveCountsOneMoreTaken,
    FiveCountsAllOnesRefused,
    Returns6To15Dropped,
    Returns6To15Where32BitsHoldThem,
    Returns6To15OnlyWhereLargeOnesAreUsed,
    SixthNotLooked,
    FifteenthNotLooked,
    CountsAfterPoints,
    HeaderSizeOneMoreTaken,
    HeaderSizeOneLessRefused,
    HeaderSizeWraps,
    HeaderSizeValueMoved,
    HeaderSizeAfterPoints,
    OffsetOneMoreTaken,
    OffsetOneLessRefused,
    OffsetWraps,
    OffsetValueMoved,
    OffsetBeforeHeaderSize,
    OffsetAfterPoints,
    RecordLengthWraps,
    RecordLengthValueOfFile,
    RecordLengthOnlyWherePointsAre,
    PointNumberLost,
    PointNumberFrom0,
    FirstPointAloneJudged,
    PointsOfLegacyCountAlone,
    PointsOfLargeCountFirst,
    RoomBeforePoints,
    RoomBeforeCounts,
    RoomBeforeHeaderSize,
    RoomBeforeVersion,
    RoomOfOneLessIsEnough,
    RoomOfTheSource,
    RoomToldOfTheSource,
    RoomToldIsWhatIsThere,
    AskedTellsBytesOfTheSource,
    AskedTellsBytesOfThePoints,
    AskedWithoutLookAtPoints,
    WritesBeforeItRefuses,
    RestOfDestinationCleared,
    DestinationLeftAsFound,
    VersionStays,
    HeaderSizeStays,
    OffsetStays,
    FormatStays,
    RecordLengthStays,
    LegacyCountsLeft,
    LegacyCountsByReturnLeft,
    LargeCountNotWritten,
    LargeCountsByReturnNotWritten,
    CountsByReturnAlwaysLarge,
    CountsByReturnAlwaysLegacy,
    CountsByReturnTheLarger,
    CountsByReturnOfThePoints,
    FifthCountLost,
    NewFieldsLeftAsFound,
    EvlrStartAtTheEnd,
    GlobalEncodingWktSet,
    GlobalEncodingWaveformsCleared,
    SourceIdLost,
    GuidLost,
    SystemIdentifierCleaned,
    SoftwareNamed,
    DayAndYearLost,
    VlrsLost,
    ScaleLost,
    BoundsExchanged,
    NanBitsChanged,
    PaddingDropped,
    PaddingBeforeTheNewFields,
    VlrsLeftOut,
    CoordinateSystemLeftOut,
    GapBeforePointsDropped,
    GapAfterPointsDropped,
    LastByteDropped,
    PointsCopied,
    FirstPointCopiedOnward,
    LastPointLeftOut,
    ExtraBytesOfPointsDropped,
    PlainConversion,
}

pub struct StandIn {
    pub error: Option<Error>,
}

fn number(file: &[u8], at: usize, width: usize) -> u64 {
    let mut bytes = [0; 8];
    bytes[..width].copy_from_slice(&file[at..at + width]);
    u64::from_le_bytes(bytes)
}

const MOST: u64 = 0xffff_ffff;

/// The bytes of a record of formats 0 to 10.
const LEAST: [u64; 11] = [20, 28, 26, 34, 57, 63, 30, 36, 38, 59, 67];

/// What a file that goes becomes: its length, and how it is written.
struct Gone {
    bytes: u64,
    format: u8,
    extra: u16,
    size: u64,
    offset: u64,
    count: u64,
    points: [usize; 2],
}

impl StandIn {
    fn has(&self, error: Error) -> bool {
        self.error == Some(error)
    }

    /// The format that the other version has, if the file goes this way.
    fn target(&self, way: Way, file: &[u8]) -> Result<u8, Row> {
        let (minor, format) = (file[25], file[104]);
        let version = match (way, minor) {
            (Up, 2) | (Down, 4) => true,
            (Up, 0 | 1) => self.has(Version10And11Taken),
            (Up, 3) => self.has(Version13Taken),
            _ => false,
        };
        let target = match (way, format) {
            (Up, 1) => Some(6),
            (Up, 3) => Some(7),
            (Down, 6) => Some(1),
            (Down, 7) => Some(3),
            (Up, 0 | 2) if self.has(Formats0And2Taken) => Some(6 + format / 2),
            (Down, 1 | 3) if self.has(Formats1And3OfNewTaken) => Some(format),
            (Down, 8..=10) if self.has(Formats8To10Taken) => {
                Some([3, 4, 5][usize::from(format) - 8])
            }
            _ => None,
        };
        match target {
            _ if !version && self.has(VersionToldAs28) => Err([28, 0, 0]),
            _ if !version && self.has(VersionToldAs3) => Err([3, 256 + u64::from(minor), 0]),
            None if version && self.has(FormatToldAs26) => Err([26, format.into(), 0]),
            None if version && self.has(FormatToldAs7) => Err([7, format.into(), 0]),
            Some(target) if version => Ok(target),
            _ if self.has(VersionValueTold) => Err([32, 256 + u64::from(minor), 0]),
            _ => Err([32, 0, 0]),
        }
    }

    fn evlrs(&self, way: Way, file: &[u8]) -> Result<(), Row> {
        if way == Up {
            return Ok(());
        }
        let waveforms = number(file, 227, 8) != 0;
        let waveforms = match () {
            () if self.has(WaveformStartIgnored) => false,
            () if self.has(WaveformStartOnlyByGlobalEncoding) => waveforms && file[6] & 2 != 0,
            () => waveforms,
        };
        let (start, count) = (number(file, 235, 8) != 0, number(file, 243, 4) != 0);
        let evlrs = match () {
            () if self.has(EvlrsIgnored) => false,
            () if self.has(EvlrHalfPairRefused) => start || count,
            () if self.has(EvlrStartAloneRefused) => start,
            () if self.has(EvlrCountAloneRefused) => count,
            () => start && count,
        };
        match waveforms || evlrs {
            true => Err([33, 0, 0]),
            false => Ok(()),
        }
    }

    /// The six counts that the new file has, in the places of the other version.
    fn counts(&self, way: Way, file: &[u8]) -> [u64; 6] {
        let legacy = [0, 1, 2, 3, 4, 5].map(|k| number(file, 107 + 4 * k, 4));
        if way == Up {
            return legacy;
        }
        let large = [0, 1, 2, 3, 4, 5].map(|k| number(file, 247 + 8 * k, 8));
        let used = legacy[0] != 0;
        let mut counts = if used { legacy } else { large };
        if self.has(PointsOfLegacyCountAlone) {
            counts[0] = legacy[0];
        }
        if self.has(PointsOfLargeCountFirst) && large[0] != 0 {
            counts[0] = large[0];
        }
        for k in 1..6 {
            counts[k] = match () {
                () if self.has(CountsByReturnAlwaysLarge) => large[k],
                () if self.has(CountsByReturnAlwaysLegacy) => legacy[k],
                () if self.has(CountsByReturnTheLarger) => legacy[k].max(large[k]),
                () => counts[k],
            };
        }
        counts
    }

    fn judge_counts(&self, way: Way, file: &[u8]) -> Result<(), Row> {
        if way == Up {
            return Ok(());
        }
        let counts = self.counts(way, file);
        let most = match () {
            () if self.has(CountOneMoreTaken) => MOST + 1,
            () if self.has(CountAllOnesRefused) => MOST - 1,
            () => MOST,
        };
        let mut over = counts[0] > most && !self.has(CountNotLooked);
        over |= self.has(LargeCountJudgedThoughNotUsed) && number(file, 247, 8) > MOST;
        let most = match () {
            () if self.has(FiveCountsOneMoreTaken) => MOST + 1,
            () if self.has(FiveCountsAllOnesRefused) => MOST - 1,
            () => MOST,
        };
        for (k, &count) in counts.iter().enumerate().skip(1) {
            let looked =
                !self.has(FiveCountsNotLooked) && !(k == 5 && self.has(FifthCountNotLooked));
            over |= looked && count > most;
            let large = number(file, 247 + 8 * k, 8);
            over |= self.has(LargeReturnsJudgedThoughNotUsed) && large > MOST;
        }
        for k in 6..=15 {
            let large = number(file, 247 + 8 * k, 8);
            let looked = match k {
                6 if self.has(SixthNotLooked) => false,
                15 if self.has(FifteenthNotLooked) => false,
                _ if self.has(Returns6To15Dropped) => false,
                _ if self.has(Returns6To15Where32BitsHoldThem) => large > MOST,
                _ if self.has(Returns6To15OnlyWhereLargeOnesAreUsed) => number(file, 107, 4) == 0,
                _ => true,
            };
            over |= looked && large != 0;
        }
        match over {
            true => Err([34, 0, 0]),
            false => Ok(()),
        }
    }

    fn moved(way: Way, field: u64) -> u64 {
        match way {
            Up => field + 148,
            Down => field - 148,
        }
    }

    fn header_size(&self, way: Way, file: &[u8]) -> Result<u64, Row> {
        let field = number(file, 94, 2);
        let size = Self::moved(way, field);
        let most = match () {
            () if self.has(HeaderSizeOneMoreTaken) => 0x1_0000,
            () if self.has(HeaderSizeOneLessRefused) => 0xfffe,
            () if self.has(HeaderSizeWraps) => u64::MAX,
            () => 0xffff,
        };
        match size > most {
            true if self.has(HeaderSizeValueMoved) => Err([4, size, 0]),
            true => Err([4, field, 0]),
            false => Ok(size),
        }
    }

    fn offset(&self, way: Way, file: &[u8]) -> Result<u64, Row> {
        let field = number(file, 96, 4);
        let offset = Self::moved(way, field);
        let most = match () {
            () if self.has(OffsetOneMoreTaken) => MOST + 1,
            () if self.has(OffsetOneLessRefused) => MOST - 1,
            () if self.has(OffsetWraps) => u64::MAX,
            () => MOST,
        };
        match offset > most {
            true if self.has(OffsetValueMoved) => Err([9, offset, 0]),
            true => Err([9, field, 0]),
            false => Ok(offset),
        }
    }

    /// The question about the points: the bytes that they become.
    fn ask_points(&self, way: Way, run: (u8, u16, u64), points: &[u8]) -> Result<u64, Row> {
        let (format, extra, count) = run;
        let source = LEAST[usize::from(format)] + u64::from(extra);
        let of_run = convert_wrong::StandIn { error: None };
        let mut row = [0; 3];
        let run = match self.has(FirstPointAloneJudged) {
            true => (format, extra, count.min(1)),
            false => run,
        };
        match way {
            Up => of_run.ask_new(points, run, &mut row),
            Down => of_run.ask_old(points, run, &mut row),
        }
        let step = match (way, format) {
            (Up, 0) => source + 10,
            (Up, _) => source + 2,
            (Down, 1 | 3) => source,
            (Down, 8 | 10) => source - 4,
            (Down, _) => source - 2,
        };
        match row {
            [0, ..] => Ok(step * count),
            [26, ..] => Ok(step * count),
            [8, ..] if self.has(RecordLengthWraps) => Ok(step * count),
            [8, ..] if count == 0 && self.has(RecordLengthOnlyWherePointsAre) => Ok(0),
            [8, ..] if self.has(RecordLengthValueOfFile) => Err([8, source, 0]),
            [number, value, _] if self.has(PointNumberLost) => Err([number, value, 0]),
            [number @ 15..=21, value, k] if self.has(PointNumberFrom0) => {
                Err([number, value, k - 1])
            }
            refusal => Err(refusal),
        }
    }

    /// What a file becomes, or the first refusal; the room is that of a call which writes.
    fn judge(&self, way: Way, file: &[u8], allowance: u64, room: Option<u64>) -> Result<Gone, Row> {
        let mut check = [0; 4];
        let allowance = match self.has(CheckAllowanceIgnored) {
            true => u64::MAX,
            false => allowance,
        };
        let of_file = file_wrong::StandIn { error: None };
        of_file.check(file, allowance, &mut check);
        match check {
            [0, ..] => {}
            [13 | 14, ..] if self.has(CheckUpToThePointsOnly) => {}
            [number, value, ..] if self.has(CheckRecordNumberLost) => {
                return Err([number, value, 0]);
            }
            [number, value, record, _] => return Err([number, value, record]),
        }
        let own = file[104];
        let extra = number(file, 105, 2) - LEAST[usize::from(own)];
        // A guess at the new file's length, for those who look at the room too early.
        let early = |error| match room {
            Some(room) if self.has(error) => {
                let size = file.len() as u64;
                let count = match (way, number(file, 107, 4)) {
                    (Down, 0) if file[25] == 4 => number(file, 247, 8),
                    (_, legacy) => legacy,
                };
                let wanted = match way {
                    Up => size + 148 + 2 * count,
                    Down => size.saturating_sub(148 + count.saturating_mul(2)),
                };
                match room < wanted {
                    true => Err([22, wanted, 0]),
                    false => Ok(()),
                }
            }
            _ => Ok(()),
        };
        early(RoomBeforeVersion)?;
        let format = self.target(way, file)?;
        if self.has(EvlrsAfterCounts) {
            self.judge_counts(way, file)?;
        }
        if !self.has(EvlrsAfterPoints) {
            self.evlrs(way, file)?;
        }
        early(RoomBeforeCounts)?;
        if !self.has(CountsAfterPoints) {
            self.judge_counts(way, file)?;
        }
        early(RoomBeforeHeaderSize)?;
        let (size, offset) = (self.header_size(way, file), self.offset(way, file));
        let late = [HeaderSizeAfterPoints, OffsetAfterPoints];
        if self.has(OffsetBeforeHeaderSize) {
            offset?;
        }
        if !self.has(late[0]) {
            size?;
        }
        if !self.has(late[1]) {
            offset?;
        }
        early(RoomBeforePoints)?;
        let counts = self.counts(way, file);
        let (at, length) = (number(file, 96, 4), number(file, 105, 2));
        // What lies past the end of the file is none of its points.
        let there = (file.len() as u64 - at) / length;
        let count = counts[0].min(there);
        let points = [at, at + count * length].map(|n| n as usize);
        let bytes = match room {
            None if self.has(AskedWithoutLookAtPoints) => match way {
                Up => (length + 2) * count,
                Down => (length - 2) * count,
            },
            _ => {
                let run = (own, extra as u16, count);
                self.ask_points(way, run, &file[points[0]..points[1]])?
            }
        };
        if self.has(EvlrsAfterPoints) {
            self.evlrs(way, file)?;
        }
        if self.has(CountsAfterPoints) {
            self.judge_counts(way, file)?;
        }
        let gone = Gone {
            bytes: Self::moved(way, file.len() as u64 - count * length) + bytes,
            format,
            extra: extra as u16,
            size: size?,
            offset: offset?,
            count,
            points,
        };
        if let Some(room) = room {
            let source = file.len() as u64;
            let wanted = match self.has(RoomOfTheSource) {
                true => source,
                false => gone.bytes - u64::from(self.has(RoomOfOneLessIsEnough)),
            };
            let told = match () {
                () if self.has(RoomToldOfTheSource) => source,
                () if self.has(RoomToldIsWhatIsThere) => room,
                () => gone.bytes,
            };
            if room < wanted {
                return Err([22, told, 0]);
            }
        }
        Ok(gone)
    }

    /// The header of the new file, its padding too.
    fn header(&self, way: Way, file: &[u8], gone: &Gone, found: &[u8]) -> Vec<u8> {
        let [standard, other] = match way {
            Up => [227, 375],
            Down => [375, 227],
        };
        let mut head = file[..24].to_vec();
        if self.has(SourceIdLost) {
            head[4..6].fill(0);
        }
        if self.has(GlobalEncodingWktSet) && way == Up {
            head[6] |= 16;
        }
        if self.has(GlobalEncodingWaveformsCleared) {
            head[6] &= !6;
        }
        if self.has(GuidLost) {
            head[8..24].fill(0);
        }
        let minor = match way {
            _ if self.has(VersionStays) => file[25],
            Up => 4,
            Down => 2,
        };
        head.extend([1, minor]);
        let mut texts = file[26..94].to_vec();
        if self.has(SystemIdentifierCleaned) {
            let end = texts[..32].iter().position(|&b| b == 0).unwrap_or(32);
            texts[end..32].fill(0);
        }
        if self.has(SoftwareNamed) {
            texts[32..41].copy_from_slice(b"inscjarol");
        }
        if self.has(DayAndYearLost) {
            texts[64..].fill(0);
        }
        head.extend(texts);
        let size = match self.has(HeaderSizeStays) {
            true => number(file, 94, 2),
            false => gone.size,
        };
        let offset = match self.has(OffsetStays) {
            true => number(file, 96, 4),
            false => gone.offset,
        };
        head.extend(&size.to_le_bytes()[..2]);
        head.extend(&offset.to_le_bytes()[..4]);
        match self.has(VlrsLost) {
            true => head.extend([0; 4]),
            false => head.extend(&file[100..104]),
        }
        head.push(if self.has(FormatStays) {
            file[104]
        } else {
            gone.format
        });
        let length = match (way, file[104]) {
            _ if self.has(RecordLengthStays) => number(file, 105, 2),
            (Down, 1 | 3) => number(file, 105, 2),
            _ => LEAST[usize::from(gone.format)] + u64::from(gone.extra),
        };
        head.extend(&length.to_le_bytes()[..2]);
        let mut counts = self.counts(way, file);
        counts[0] = gone.count;
        if self.has(CountsByReturnOfThePoints) {
            counts[1..].fill(0);
            let each = number(file, 105, 2) as usize;
            for record in file[gone.points[0]..gone.points[1]].chunks(each) {
                let k = usize::from(record[14] & if way == Up { 7 } else { 15 });
                if (1..=5).contains(&k) {
                    counts[k] += 1;
                }
            }
        }
        if self.has(FifthCountLost) {
            counts[5] = 0;
        }
        for (k, count) in counts.into_iter().enumerate() {
            let count = match way {
                Down => count,
                Up if self.has(LegacyCountsLeft) => count,
                Up if self.has(LegacyCountsByReturnLeft) && k > 0 => count,
                Up => 0,
            };
            head.extend(&count.to_le_bytes()[..4]);
        }
        let mut floats = file[131..227].to_vec();
        if self.has(ScaleLost) {
            floats[..24].fill(0);
        }
        if self.has(BoundsExchanged) {
            floats[48..64].rotate_left(8);
        }
        for float in floats.chunks_mut(8) {
            let bits: [u8; 8] = float.try_into().expect("eight");
            if self.has(NanBitsChanged) && f64::from_le_bytes(bits).is_nan() {
                float[6] |= 8;
            }
        }
        head.extend(floats);
        let padding = &file[standard..number(file, 94, 2) as usize];
        let padding = match self.has(PaddingDropped) {
            true => &[],
            false => padding,
        };
        if self.has(PaddingBeforeTheNewFields) {
            head.extend(padding);
        }
        if way == Up {
            match self.has(NewFieldsLeftAsFound) {
                true => head.extend(&found[227..247]),
                false => head.extend([0; 20]),
            }
            if self.has(EvlrStartAtTheEnd) {
                head[235..243].copy_from_slice(&gone.bytes.to_le_bytes());
            }
            for (k, count) in counts.into_iter().enumerate() {
                let count = match k {
                    0 if self.has(LargeCountNotWritten) => 0,
                    1.. if self.has(LargeCountsByReturnNotWritten) => 0,
                    _ => count,
                };
                head.extend(count.to_le_bytes());
            }
            match self.has(NewFieldsLeftAsFound) {
                true => head.extend(&found[295..375]),
                false => head.extend([0; 80]),
            }
        }
        if !self.has(PaddingBeforeTheNewFields) {
            head.extend(padding);
        }
        debug_assert!(head.len() >= other);
        head
    }

    /// The points of the new file.
    fn points(&self, way: Way, file: &[u8], gone: &Gone) -> Vec<u8> {
        let own = &file[gone.points[0]..gone.points[1]];
        let length = LEAST[usize::from(gone.format)] as usize + usize::from(gone.extra);
        let mut points = vec![0; length * gone.count as usize];
        let mut row = [0; 3];
        let run = (file[104], gone.extra, gone.count);
        let of_run = match self.has(PlainConversion) {
            true => Some(convert_wrong::Error::UpgradeAsTheRustDoes),
            false => None,
        };
        let of_run = convert_wrong::StandIn { error: of_run };
        match way {
            Up => of_run.to_new(own, run, &mut points, &mut row),
            Down => of_run.to_old(own, run, &mut points, &mut row),
        }
        if self.has(PointsCopied) || row[0] == 26 {
            let n = points.len().min(own.len());
            points[..n].copy_from_slice(&own[..n]);
        }
        if self.has(FirstPointCopiedOnward) && gone.count > 1 {
            let first = points[..length].to_vec();
            points
                .chunks_mut(length)
                .for_each(|to| to.copy_from_slice(&first));
        }
        if self.has(LastPointLeftOut) && gone.count > 0 {
            let end = points.len();
            points[end - length..].fill(0);
        }
        if self.has(ExtraBytesOfPointsDropped) {
            let bare = LEAST[usize::from(gone.format)] as usize;
            points.chunks_mut(length).for_each(|to| to[bare..].fill(0));
        }
        points
    }

    /// What lies between header and points.
    fn before(&self, file: &[u8], gone: &Gone) -> Vec<u8> {
        let mut at = number(file, 94, 2) as usize;
        let mut before = Vec::new();
        for _ in 0..number(file, 100, 4) {
            let end = at + 54 + number(file, at + 20, 2) as usize;
            let coordinates = file[at + 2..at + 18] == *b"LASF_Projection\0";
            let left_out =
                self.has(VlrsLeftOut) || coordinates && self.has(CoordinateSystemLeftOut);
            if !left_out {
                before.extend(&file[at..end]);
            }
            at = end;
        }
        if !self.has(GapBeforePointsDropped) {
            before.extend(&file[at..gone.points[0]]);
        }
        before
    }
}

impl Library for StandIn {
    fn ask(&self, way: Way, file: &[u8], allowance: u64, row: &mut Row) {
        *row = match self.judge(way, file, allowance, None) {
            Ok(_) if self.has(AskedTellsBytesOfTheSource) => [0, file.len() as u64, 0],
            Ok(gone) if self.has(AskedTellsBytesOfThePoints) => [0, gone.bytes - gone.offset, 0],
            Ok(gone) => [0, gone.bytes, 0],
            Err(refusal) => refusal,
        };
    }

    fn convert(&self, way: Way, file: &[u8], allowance: u64, dst: &mut [u8], row: &mut Row) {
        let gone = match self.judge(way, file, allowance, Some(dst.len() as u64)) {
            Ok(gone) => gone,
            Err(refusal) => {
                if self.has(WritesBeforeItRefuses) && refusal[0] > 14 && dst.len() > 24 {
                    dst[..24].copy_from_slice(&file[..24]);
                }
                *row = refusal;
                return;
            }
        };
        let mut found = dst.to_vec();
        found.resize(found.len().max(375), 0);
        let mut parts = [
            self.header(way, file, &gone, &found),
            self.before(file, &gone),
            self.points(way, file, &gone),
            file[gone.points[1]..].to_vec(),
        ];
        if self.has(GapAfterPointsDropped) {
            parts[3].clear();
        }
        if self.has(LastByteDropped) {
            parts[3].pop();
        }
        let new = parts.concat();
        if self.has(RestOfDestinationCleared) {
            dst.fill(0);
        }
        if !self.has(DestinationLeftAsFound) {
            let n = new.len().min(dst.len());
            dst[..n].copy_from_slice(&new[..n]);
        }
        *row = [0, gone.bytes, 0];
    }
}
