//! A stand-in for the port's calls on coordinate keys, into which an error can be put. The comparison is tested with it:
//! each error must be seen.
//!
//! It is written apart from `keys_model` and otherwise: in 64 bits, with what is in a file at numbered places, each test
//! in a loop of its own. Its file check is the stand-in of `file_wrong` without an error.

use crate::{
    capi::Row,
    file::Library as _,
    file_wrong,
    keys::Library,
    keys_model::{Key, Keys},
};

errors! {
    CheckAllowanceIgnored,
    CheckRecordNumberLost,
    RecordsAfterThePointsNotLookedAt,
    LastDirectoryCounts,
    SecondDirectoryCounts,
    LastDoublesCount,
    LastTextCounts,
    EmptyDirectoryPassedOver,
    EmptyDoublesTakenForNone,
    EmptyTextTakenForNone,
    EvlrDirectoryCounts,
    EvlrDoublesCount,
    EvlrTextCounts,
    EvlrsCountBeforeVlrs,
    PacketsCountToo,
    FirstVlrAlone,
    LastVlrNotLookedAt,
    DoublesBehindTheDirectoryOnly,
    TextBehindTheDirectoryOnly,
    DoublesBeforeTheDirectoryOnly,
    UserOf15Bytes,
    UserOf9Bytes,
    UserUpToItsFirstZero,
    UserOfAnyCase,
    UserNotLookedAt,
    RecordIdOf8Bits,
    RecordIdOf15Bits,
    NoDirectoryIsNoKeys,
    NoDirectoryIs37,
    ShortFrontIsNoKeys,
    ShortFrontIs42,
    SevenBytesTaken,
    EightBytesRefused,
    ShortByOneTaken,
    ShortByAKeyTaken,
    FrontForgotten,
    ExactRefused,
    LongerRefused,
    RestOfBytesRefused,
    ShortCutsTheKeys,
    ShortWithTheBytes,
    CountIsTheFirstNumber,
    CountIsTheThirdNumber,
    CountOf8Bits,
    CountByTheLength,
    CountOfTheNumbers,
    VersionLookedAt,
    RevisionLookedAt,
    NoKeysRefused,
    EqualKeysTaken,
    FallingKeysTaken,
    RisingByMoreThanOne,
    FirstPairAlone,
    LastPairNotLookedAt,
    RisingOfTheEnds,
    KeysSigned,
    KeysOf8Bits,
    KeyZeroRefused,
    RisingWithItsNumber,
    RisingAfterLocations,
    RisingAfterAll,
    KeyAfterKey,
    Location34735Taken,
    Location34738Taken,
    Location1Taken,
    LocationOf8Bits,
    LocationOf15Bits,
    UnknownTakenAsNumber,
    UnknownOfNothingTaken,
    LocationOfTheFirstOnly,
    LocationOfTheLastNot,
    LocationTold,
    UnknownIs46,
    UnknownAfterAbsent,
    UnknownAfterBeyond,
    AbsentOfNothingTaken,
    AbsentDoublesTaken,
    AbsentTextTaken,
    AbsentIsBeyond,
    AbsentAfterBeyond,
    AbsentUnlessAsked,
    AbsentOfTheFirstOnly,
    AbsentWithTheLocation,
    EndOneMoreTaken,
    EndOneEntryMoreTaken,
    ExactEndRefused,
    IndexInBytes,
    CountInBytes,
    DoublesOfFourBytes,
    DoublesInBytes,
    TextByEights,
    SumOf16Bits,
    ProductOf16Bits,
    NothingBeyondTaken,
    NothingAtTheEndRefused,
    IndexAlone,
    CountAlone,
    RestOfADoubleCounts,
    BeyondTheFileOnly,
    LengthsChanged,
    CountOfANumberLookedAt,
    ValueOfANumberLookedAt,
    BeyondOfTheFirstOnly,
    BeyondOfTheLastNot,
    BeyondWithItsKey,
    EarlierKeyInSpiteOfALaterLocation,
    EarlierKeyInSpiteOfALaterAbsence,
    EarlierKeyInSpiteOfALaterEnd,
    EarlierKeyInSpiteOfALaterFall,
    NotFoundBeforeShort,
    NotFoundBeforeRising,
    NotFoundBeforeLocations,
    NotFoundBeforeBeyond,
    NotFoundWithTheKey,
    NotFoundWithTheCount,
    NotFoundIsResult,
    KeysValueZero,
    KeysValueOfTheBytes,
    CountOneLess,
    PlaceOfTheHead,
    PlaceBehindTheFront,
    BytesOfTheKeys,
    BytesWithTheHead,
    DoublesOfTheHead,
    TextOfTheHead,
    PlacesChanged,
    PlaceOfEmptyDoublesZero,
    PlacesOfTheUsedOnly,
    KeysClearedByRefusal,
    KeyClearedByRefusal,
    KeyClearedWhereNone,
    FoundWithItsNumber,
    FoundWithItsValue,
    AtFromOne,
    AtOnePastTheLast,
    AtNotTheLast,
    AtCountOf8Bits,
    AtCountOf64Bits,
    AtOf8Bits,
    AtBeyondTheDirectoryNone,
    AtBeyondTheFileNone,
    AtDirectoryWraps,
    AtOtherLocationNone,
    AtOtherLocationNumber,
    AtOtherLocationTold,
    AtPartNotLookedAt,
    AtPartAtTheVeryEndNone,
    AtPartStartAlone,
    AtPartSumWraps,
    AtPlaceOf32Bits,
    FindLast,
    FindNextAbove,
    FindNotTheFirst,
    FindNotTheLast,
    FindKeyOf8Bits,
    FindKeyOf15Bits,
    FindByHalves,
    FindStopsAbove,
    FindZeroNone,
    ValueIsTheCount,
    ValueOf8Bits,
    ValueOf15Bits,
    ValueOfAPartTold,
    ValueBigEndian,
    NumberWithItsPlace,
    NumberWithItsLength,
    StartWithoutIndex,
    StartInEntries,
    StartOfTheRecord,
    StartOneLess,
    LengthInEntries,
    LengthOfTheRest,
    LengthOneLess,
    LengthUpToTheBar,
    TextAsDoubles,
    LocationAsACode,
    WriteEqualTaken,
    WriteFallingTaken,
    WriteFirstPairAlone,
    WriteSigned,
    WriteSorted,
    Write8191,
    Write8190Refused,
    WriteManyOf16Bits,
    WriteManyByTheNumbers,
    WriteManyBeforeRising,
    WriteManyWithTheCount,
    WriteRoomBeforeRising,
    WriteRoomBeforeMany,
    WriteRoomOneLess,
    WriteRoomExactRefused,
    WriteRoomWithoutFront,
    WriteRoomValueZero,
    WriteRoomValueOfTheKeys,
    WriteRestRefused,
    WriteRestAKey,
    WriteRestRises,
    WriteRestCounted,
    WriteLocationsJudged,
    WriteFrontZero,
    WriteFrontMinorOne,
    WriteCountFirst,
    WriteCountOf8Bits,
    WriteBigEndian,
    WriteBegunBeforeRoom,
    WriteBegunBeforeRising,
    WriteBehindCleared,
    WriteValueZero,
    WriteValueOfTheKeys,
    WriteNumberCountsOne,
}

pub struct StandIn {
    pub error: Option<Error>,
}

/// A number of two bytes; those that are not there are zeros.
fn u16_at(bytes: &[u8], at: usize) -> u64 {
    let byte = |at: usize| u64::from(bytes.get(at).copied().unwrap_or(0));
    byte(at) | byte(at + 1) << 8
}

fn u32_at(bytes: &[u8], at: usize) -> u64 {
    u16_at(bytes, at) | u16_at(bytes, at + 2) << 16
}

fn u64_at(bytes: &[u8], at: usize) -> u64 {
    u32_at(bytes, at) | u32_at(bytes, at + 4) << 32
}

const USER: &[u8; 16] = b"LASF_Projection\0";

/// Where a record's data are, and how many bytes.
type Data = Option<[usize; 2]>;

/// A key: key, location, count, value or index.
#[derive(Clone, Copy)]
struct Entry {
    key: u64,
    location: u64,
    count: u64,
    index: u64,
}

/// What a file tells of its keys.
struct Told {
    directory: [usize; 2],
    doubles: Data,
    text: Data,
    entries: Vec<Entry>,
}

impl Told {
    fn target(&self, location: u64) -> Data {
        match location {
            34_736 => self.doubles,
            _ => self.text,
        }
    }
}

impl StandIn {
    fn has(&self, error: Error) -> bool {
        self.error == Some(error)
    }

    fn check(&self, file: &[u8], allowance: u64) -> Result<(), Row> {
        let allowance = match self.has(CheckAllowanceIgnored) {
            true => u64::MAX,
            false => allowance,
        };
        let mut check = [0; 4];
        file_wrong::StandIn { error: None }.check(file, allowance, &mut check);
        let [number, value, record, _] = check;
        match number {
            0 => Ok(()),
            13 | 14 | 35 if self.has(RecordsAfterThePointsNotLookedAt) => Ok(()),
            _ if self.has(CheckRecordNumberLost) => Err([number, value, 0]),
            _ => Err([number, value, record]),
        }
    }

    fn is_such(&self, head: &[u8], record: u64) -> bool {
        let user = &head[2..18];
        let same = match self.error {
            Some(UserOf15Bytes) => user[..15] == USER[..15],
            Some(UserOf9Bytes) => user[..9] == USER[..9],
            Some(UserUpToItsFirstZero) => {
                let end = user.iter().position(|&b| b == 0).unwrap_or(16);
                user[..end] == USER[..end] && end >= 14
            }
            Some(UserOfAnyCase) => user.eq_ignore_ascii_case(USER),
            Some(UserNotLookedAt) => true,
            _ => user == USER,
        };
        let id = u16_at(head, 18) ^ record;
        let id = match self.error {
            Some(RecordIdOf8Bits) => id & 0xff,
            Some(RecordIdOf15Bits) => id & 0x7fff,
            _ => id,
        };
        same && id == 0
    }

    /// The data of the record that counts.
    fn first(&self, file: &[u8], record: u64) -> Data {
        let mut at = u16_at(file, 94) as usize;
        let mut such = Vec::new();
        let many = u32_at(file, 100);
        for k in 0..many {
            let length = u16_at(file, at + 20) as usize;
            let looked_at = match self.error {
                Some(FirstVlrAlone) => k == 0,
                Some(LastVlrNotLookedAt) => k + 1 < many,
                _ => true,
            };
            if looked_at && self.is_such(&file[at..], record) {
                such.push([at + 54, length]);
            }
            at += 54 + length;
        }
        let evlrs = match record {
            34_735 => EvlrDirectoryCounts,
            34_736 => EvlrDoublesCount,
            _ => EvlrTextCounts,
        };
        let first = self.has(EvlrsCountBeforeVlrs);
        let [start, later] = match file[25] {
            3 if self.has(PacketsCountToo) && file[6] & 2 == 2 => {
                let start = u64_at(file, 227);
                [start as usize, usize::from(start > 0)]
            }
            4 if self.has(evlrs) || first => {
                [u64_at(file, 235) as usize, u32_at(file, 243) as usize]
            }
            _ => [0, 0],
        };
        let mut at = start;
        let mut behind = Vec::new();
        for _ in 0..if start == 0 { 0 } else { later } {
            let length = u64_at(file, at + 20) as usize;
            if self.is_such(&file[at..], record) {
                behind.push([at + 60, length]);
            }
            at += 60 + length;
        }
        such = match first {
            true => [behind, such].concat(),
            false => [such, behind].concat(),
        };
        let empty = match record {
            34_735 => EmptyDirectoryPassedOver,
            34_736 => EmptyDoublesTakenForNone,
            _ => EmptyTextTakenForNone,
        };
        if self.has(empty) {
            such.retain(|data| data[1] > 0);
        }
        match (record, such.len()) {
            (34_735, 2..) if self.has(LastDirectoryCounts) => such.pop(),
            (34_735, 2..) if self.has(SecondDirectoryCounts) => Some(such[1]),
            (34_736, 2..) if self.has(LastDoublesCount) => such.pop(),
            (34_737, 2..) if self.has(LastTextCounts) => such.pop(),
            _ => such.first().copied(),
        }
    }

    /// How many keys a directory has, if it has the bytes of them.
    fn count(&self, data: &[u8]) -> Result<u64, Row> {
        let length = data.len() as u64;
        let short = |wanted: u64| match self.has(ShortWithTheBytes) {
            true => Err([43, wanted, 0]),
            false => Err([43, 0, 0]),
        };
        match length {
            0..8 if self.has(ShortFrontIsNoKeys) => return Ok(0),
            0..8 if self.has(ShortFrontIs42) => return Err([42, 0, 0]),
            7 if self.has(SevenBytesTaken) => {}
            8 if self.has(EightBytesRefused) => return short(16),
            0..8 => return short(8),
            _ => {}
        }
        let count = match self.error {
            Some(CountIsTheFirstNumber) => u16_at(data, 0),
            Some(CountIsTheThirdNumber) => u16_at(data, 4),
            Some(CountOf8Bits) => u16_at(data, 6) & 0xff,
            Some(CountByTheLength) => (length - 8) / 8,
            Some(CountOfTheNumbers) => u16_at(data, 6) / 4,
            _ => u16_at(data, 6),
        };
        let wanted = 8 + 8 * count;
        let enough = match self.error {
            Some(ShortByOneTaken) => length + 1 >= wanted,
            Some(ShortByAKeyTaken) => length + 8 >= wanted,
            Some(FrontForgotten) => length >= 8 * count,
            Some(ExactRefused) => length > wanted,
            Some(LongerRefused) => length == wanted,
            Some(RestOfBytesRefused) => length >= wanted && length.is_multiple_of(8),
            Some(VersionLookedAt) => length >= wanted && u16_at(data, 0) == 1,
            Some(RevisionLookedAt) => length >= wanted && u16_at(data, 2) == 1,
            Some(NoKeysRefused) => length >= wanted && count > 0,
            Some(ShortCutsTheKeys) if length < wanted => return Ok((length - 8) / 8),
            Some(SevenBytesTaken) if length == 7 => count == 0,
            _ => length >= wanted,
        };
        if enough { Ok(count) } else { short(wanted) }
    }

    fn rises(&self, told: &Told, k: usize) -> bool {
        let entries = &told.entries;
        if k == 0 {
            return !(self.has(KeyZeroRefused) && entries[0].key == 0);
        }
        let [before, key] = [entries[k - 1].key, entries[k].key];
        match self.error {
            Some(EqualKeysTaken) => before <= key,
            Some(FallingKeysTaken) => before != key,
            Some(RisingByMoreThanOne) => before + 1 < key,
            Some(FirstPairAlone) => k > 1 || before < key,
            Some(LastPairNotLookedAt) => (k > 1 && k + 1 == entries.len()) || before < key,
            Some(RisingOfTheEnds) => entries[0].key < key,
            Some(KeysSigned) => (before as i16) < key as i16,
            Some(KeysOf8Bits) => before & 0xff < key & 0xff || before >> 8 < key >> 8,
            _ => before < key,
        }
    }

    /// Whether a location is one that there is.
    fn known(&self, told: &Told, k: usize) -> bool {
        let Entry {
            location, count, ..
        } = told.entries[k];
        match self.error {
            Some(Location34735Taken) if location == 34_735 => true,
            Some(Location34738Taken) if location == 34_738 => true,
            Some(Location1Taken) if location == 1 => true,
            Some(LocationOf8Bits) => matches!(location & 0xff, 0 | 0xb0 | 0xb1),
            Some(LocationOf15Bits) => matches!(location & 0x7fff, 0 | 0x07b0 | 0x07b1),
            Some(UnknownTakenAsNumber) => true,
            Some(UnknownOfNothingTaken) if count == 0 => true,
            Some(LocationOfTheFirstOnly) if k > 0 => true,
            Some(LocationOfTheLastNot) if k > 0 && k + 1 == told.entries.len() => true,
            _ => matches!(location, 0 | 34_736 | 34_737),
        }
    }

    fn there(&self, told: &Told, k: usize) -> bool {
        let Entry {
            location, count, ..
        } = told.entries[k];
        if self.has(AbsentUnlessAsked) && (told.doubles.is_none() || told.text.is_none()) {
            return false;
        }
        match location {
            34_736 | 34_737 => match self.error {
                Some(AbsentOfNothingTaken) if count == 0 => true,
                Some(AbsentDoublesTaken) if location == 34_736 => true,
                Some(AbsentTextTaken) if location == 34_737 => true,
                Some(AbsentOfTheFirstOnly) if k > 0 => true,
                _ => told.target(location).is_some(),
            },
            _ => true,
        }
    }

    /// Whether a part ends within its record; one of a record that is not there does.
    fn within(&self, file: &[u8], told: &Told, k: usize) -> bool {
        let Entry {
            location,
            count,
            index,
            ..
        } = told.entries[k];
        if location == 0 {
            return match self.error {
                Some(CountOfANumberLookedAt) => count == 1,
                Some(ValueOfANumberLookedAt) => index < 65_535,
                _ => true,
            };
        }
        let data = match self.has(LengthsChanged) {
            true => told.target(location ^ 1),
            false => told.target(location),
        };
        let Some([start, length]) = data else {
            return !(self.has(AbsentAfterBeyond) && index + count > 0);
        };
        let length = length as u64;
        let unit = match (location, self.error) {
            (34_736, Some(DoublesOfFourBytes)) => 4,
            (34_736, Some(DoublesInBytes)) => 1,
            (34_736, _) | (34_737, Some(TextByEights)) => 8,
            _ => 1,
        };
        match self.error {
            Some(EndOneMoreTaken) => unit * (index + count) <= length + 1,
            Some(EndOneEntryMoreTaken) => unit * (index + count) <= length + unit,
            Some(ExactEndRefused) => unit * (index + count) < length,
            Some(IndexInBytes) => index + unit * count <= length,
            Some(CountInBytes) => unit * index + count <= length,
            Some(SumOf16Bits) => unit * ((index + count) & 0xffff) <= length,
            Some(ProductOf16Bits) => (unit * (index + count)) & 0xffff <= length,
            Some(NothingBeyondTaken) if count == 0 => true,
            Some(NothingAtTheEndRefused) => {
                unit * (index + count) <= length && (count > 0 || unit * index < length)
            }
            Some(IndexAlone) => unit * index <= length,
            Some(CountAlone) => unit * count <= length,
            Some(RestOfADoubleCounts) => index + count <= length.div_ceil(unit),
            Some(BeyondTheFileOnly) => start as u64 + unit * (index + count) <= file.len() as u64,
            Some(BeyondOfTheFirstOnly) if k > 0 => true,
            Some(BeyondOfTheLastNot) if k > 0 && k + 1 == told.entries.len() => true,
            _ => unit * (index + count) <= length,
        }
    }

    /// What a file tells, or the first refusal. Where a key is looked for, some errors look no further.
    fn judge(&self, file: &[u8], allowance: u64, wanted: Option<u64>) -> Result<Told, Row> {
        self.check(file, allowance)?;
        let Some(directory @ [start, length]) = self.first(file, 34_735) else {
            return match self.error {
                Some(NoDirectoryIs37) => Err([37, 0, 0]),
                Some(NoDirectoryIsNoKeys) => Ok(Told {
                    directory: [0, 0],
                    doubles: None,
                    text: None,
                    entries: Vec::new(),
                }),
                _ => Err([42, 0, 0]),
            };
        };
        let behind = |data: Data, error| match self.has(error) {
            true => data.filter(|data| data[0] > start),
            false => data,
        };
        let before = |data: Data, error| match self.has(error) {
            true => data.filter(|data| data[0] < start),
            false => data,
        };
        let data = &file[start..start + length];
        let doubles = behind(self.first(file, 34_736), DoublesBehindTheDirectoryOnly);
        let mut told = Told {
            directory,
            doubles: before(doubles, DoublesBeforeTheDirectoryOnly),
            text: behind(self.first(file, 34_737), TextBehindTheDirectoryOnly),
            entries: Vec::new(),
        };
        let count = self.count(data);
        if self.has(NotFoundBeforeShort) && count.is_err() {
            let keys = (0..length / 8).map(|k| u16_at(data, 8 + 8 * k));
            if let Some(wanted) = wanted
                && !keys.into_iter().any(|key| key == wanted)
            {
                return Err([48, 0, 0]);
            }
        }
        told.entries = (0..count? as usize).map(|k| entry(data, k)).collect();
        self.judge_entries(file, &told, wanted)?;
        Ok(told)
    }

    fn judge_entries(&self, file: &[u8], told: &Told, wanted: Option<u64>) -> Result<(), Row> {
        let n = told.entries.len();
        let at = wanted.map(|wanted| told.entries.iter().position(|entry| entry.key == wanted));
        let missing = at == Some(None);
        // How many entries a test looks at, where an error lets the one that is found be enough.
        let up_to = |error| match at {
            Some(Some(k)) if self.has(error) => k + 1,
            _ => n,
        };
        let failing = |end: usize, test: &dyn Fn(usize) -> bool| (0..end).find(|&k| !test(k));
        let rising = || match failing(up_to(EarlierKeyInSpiteOfALaterFall), &|k| {
            self.rises(told, k)
        }) {
            Some(k) if self.has(RisingWithItsNumber) => Err([44, 0, k as u64 + 1]),
            Some(_) => Err([44, 0, 0]),
            None => Ok(()),
        };
        let known = || match failing(up_to(EarlierKeyInSpiteOfALaterLocation), &|k| {
            self.known(told, k)
        }) {
            Some(_) if self.has(UnknownIs46) => Err([46, 0, 0]),
            Some(k) if self.has(LocationTold) => Err([45, told.entries[k].location, 0]),
            Some(_) => Err([45, 0, 0]),
            None => Ok(()),
        };
        let there = || match failing(up_to(EarlierKeyInSpiteOfALaterAbsence), &|k| {
            self.there(told, k)
        }) {
            Some(_) if self.has(AbsentIsBeyond) => Err([47, 0, 0]),
            Some(k) if self.has(AbsentWithTheLocation) => Err([46, told.entries[k].location, 0]),
            Some(_) => Err([46, 0, 0]),
            None => Ok(()),
        };
        let within = || match failing(up_to(EarlierKeyInSpiteOfALaterEnd), &|k| {
            self.within(file, told, k)
        }) {
            Some(k) if self.has(BeyondWithItsKey) => Err([47, told.entries[k].key, 0]),
            Some(_) => Err([47, 0, 0]),
            None => Ok(()),
        };
        let not_found = |error| match missing && self.has(error) {
            true => Err([48, 0, 0]),
            false => Ok(()),
        };
        match self.error {
            Some(RisingAfterLocations) => {
                known()?;
                rising()?;
                there()?;
                within()
            }
            Some(RisingAfterAll) => {
                known()?;
                there()?;
                within()?;
                rising()
            }
            Some(UnknownAfterAbsent) => {
                rising()?;
                there()?;
                known()?;
                within()
            }
            Some(UnknownAfterBeyond) => {
                rising()?;
                there()?;
                let in_time = |k: usize| !self.known(told, k) || self.within(file, told, k);
                if failing(n, &in_time).is_some() {
                    return Err([47, 0, 0]);
                }
                known()
            }
            Some(AbsentAfterBeyond) => {
                rising()?;
                known()?;
                within()?;
                there()
            }
            Some(KeyAfterKey) => {
                for k in 0..n {
                    let tests = [
                        (44, self.rises(told, k)),
                        (45, self.known(told, k)),
                        (46, self.there(told, k)),
                        (47, self.within(file, told, k)),
                    ];
                    if let Some((number, _)) = tests.iter().find(|(_, passed)| !passed) {
                        return Err([*number, 0, 0]);
                    }
                }
                Ok(())
            }
            _ => {
                not_found(NotFoundBeforeRising)?;
                rising()?;
                not_found(NotFoundBeforeLocations)?;
                known()?;
                there()?;
                not_found(NotFoundBeforeBeyond)?;
                within()
            }
        }
    }

    /// A key's numbers, whose doubles and text begin at these places; none where they would end beyond the file.
    fn told(&self, file: &[u8], base: [u64; 2], entry: Entry) -> Option<Key> {
        let Entry {
            key,
            location,
            count,
            index,
        } = entry;
        let value = match self.error {
            Some(ValueIsTheCount) => count,
            Some(ValueOf8Bits) => index & 0xff,
            Some(ValueOf15Bits) => index & 0x7fff,
            Some(ValueBigEndian) => (index as u16).swap_bytes().into(),
            _ => index,
        };
        match location {
            0 if self.has(NumberWithItsPlace) => return Some([key, 0, value, base[0], 0]),
            0 if self.has(NumberWithItsLength) => return Some([key, 0, value, 0, 2]),
            0 => return Some([key, 0, value, 0, 0]),
            34_736 | 34_737 => {}
            _ if self.has(AtOtherLocationNone) => return None,
            _ if self.has(AtOtherLocationNumber) || self.has(UnknownTakenAsNumber) => {
                return Some([key, location, value, 0, 0]);
            }
            _ => {}
        }
        let (from, unit) = match location {
            34_736 => (base[0], 8),
            _ => (base[1], 1),
        };
        let from = match self.has(AtPlaceOf32Bits) {
            true => from & 0xffff_ffff,
            false => from,
        };
        let end = match self.has(AtPartSumWraps) {
            true => Some(from.wrapping_add(unit * (index + count))),
            false => from.checked_add(unit * (index + count)),
        };
        let size = file.len() as u64;
        let fits = match end {
            _ if self.has(AtPartNotLookedAt) => true,
            Some(end) if self.has(AtPartAtTheVeryEndNone) => end < size,
            Some(_) if self.has(AtPartStartAlone) => from <= size,
            Some(end) => end <= size,
            None => false,
        };
        if !fits {
            return None;
        }
        let start = match self.error {
            Some(StartWithoutIndex) => from,
            Some(StartInEntries) => from + index,
            Some(StartOfTheRecord) => unit * index,
            Some(StartOneLess) => from + unit * index.saturating_sub(1),
            _ => from.wrapping_add(unit * index),
        };
        let length = match self.error {
            Some(LengthInEntries) => count,
            Some(LengthOfTheRest) => size.wrapping_sub(start),
            Some(LengthOneLess) => (unit * count).saturating_sub(1),
            Some(LengthUpToTheBar) => {
                let part = &file[(start as usize).min(file.len())..];
                let part = &part[..((unit * count) as usize).min(part.len())];
                match part.last() {
                    Some(b'|') => unit * count - 1,
                    _ => unit * count,
                }
            }
            _ => unit * count,
        };
        let shown = match location {
            34_736 => 34_736,
            34_737 if self.has(TextAsDoubles) => 34_736,
            _ if self.has(AtOtherLocationTold) => location,
            _ => 34_737,
        };
        let shown = match self.has(LocationAsACode) {
            true => shown - 34_735,
            false => shown,
        };
        let value = if self.has(ValueOfAPartTold) { index } else { 0 };
        Some([key, shown, value, start, length])
    }

    /// The key with this number of some numbers' keys.
    fn at_place(&self, file: &[u8], keys: &Keys, k: u64) -> Option<Key> {
        let &[many, _, _, doubles, text] = keys;
        let many = match self.error {
            Some(AtCountOf8Bits) => many & 0xff,
            Some(AtCountOf64Bits) => many,
            _ => many & 0xffff,
        };
        let there = match self.error {
            Some(AtOnePastTheLast) => k <= many,
            Some(AtNotTheLast) => k + 1 < many,
            _ => k < many,
        };
        if !there {
            return None;
        }
        let directory = self.directory(file, keys);
        let end = 16 + 8 * k as usize;
        if self.has(AtBeyondTheDirectoryNone) && end > directory.len() {
            return None;
        }
        let all = keys[1]
            .checked_add(keys[2])
            .is_some_and(|end| end <= file.len() as u64);
        if self.has(AtBeyondTheFileNone) && !all {
            return None;
        }
        self.told(file, [doubles, text], entry(directory, k as usize))
    }

    /// The bytes of a directory that are in the file.
    fn directory<'f>(&self, file: &'f [u8], keys: &Keys) -> &'f [u8] {
        let size = file.len() as u64;
        let start = keys[1].min(size);
        let end = match self.has(AtDirectoryWraps) {
            true => keys[1].wrapping_add(keys[2]).clamp(start, size),
            false => keys[1].saturating_add(keys[2]).clamp(start, size),
        };
        &file[start as usize..end as usize]
    }

    /// The number of the key that is wanted.
    fn place(&self, file: &[u8], keys: &Keys, wanted: u64) -> Option<u64> {
        let directory = self.directory(file, keys);
        // Behind the last byte all keys are 0.
        let many = (keys[0] & 0xffff).min(directory.len() as u64 / 8 + 1);
        let key = |k: u64| entry(directory, k as usize).key;
        let mut all = 0..many;
        match self.error {
            Some(FindLast) => all.rfind(|&k| key(k) == wanted),
            Some(FindNextAbove) => all.find(|&k| key(k) >= wanted),
            Some(FindNotTheFirst) => (1..many).find(|&k| key(k) == wanted),
            Some(FindNotTheLast) => (0..many.saturating_sub(1)).find(|&k| key(k) == wanted),
            Some(FindKeyOf8Bits) => all.find(|&k| key(k) & 0xff == wanted & 0xff),
            Some(FindKeyOf15Bits) => all.find(|&k| key(k) & 0x7fff == wanted & 0x7fff),
            Some(FindStopsAbove) => {
                let k = all.find(|&k| key(k) >= wanted)?;
                (key(k) == wanted).then_some(k)
            }
            Some(FindByHalves) => {
                let (mut low, mut high) = (0, many);
                while low < high {
                    let middle = (low + high) / 2;
                    match key(middle).cmp(&wanted) {
                        std::cmp::Ordering::Equal => return Some(middle),
                        std::cmp::Ordering::Less => low = middle + 1,
                        std::cmp::Ordering::Greater => high = middle,
                    }
                }
                None
            }
            Some(FindZeroNone) if wanted == 0 => None,
            _ => all.find(|&k| key(k) == wanted),
        }
    }

    fn answer(&self, found: Option<Key>, key: &mut Key) -> u8 {
        match found {
            Some(found) => {
                *key = found;
                1
            }
            None => {
                if self.has(KeyClearedWhereNone) {
                    *key = [0; 5];
                }
                0
            }
        }
    }

    /// The numbers of what a file tells.
    fn numbers(&self, told: &Told) -> Keys {
        let many = told.entries.len() as u64;
        let [start, length] = told.directory.map(|n| n as u64);
        let used = |location: u64| told.entries.iter().any(|entry| entry.location == location);
        let place = |data: Data, location: u64| match data {
            Some([_, 0]) if self.has(PlaceOfEmptyDoublesZero) && location == 34_736 => 0,
            Some(_) if self.has(PlacesOfTheUsedOnly) && !used(location) => 0,
            Some([start, _]) => start as u64,
            None => 0,
        };
        let head = |place: u64, error| match self.has(error) && place > 0 {
            true => place - 54,
            false => place,
        };
        let doubles = head(place(told.doubles, 34_736), DoublesOfTheHead);
        let text = head(place(told.text, 34_737), TextOfTheHead);
        let mut numbers = [many, start, length, doubles, text];
        match self.error {
            Some(CountOneLess) => numbers[0] = many.saturating_sub(1),
            Some(PlaceOfTheHead) => numbers[1] = start.saturating_sub(54),
            Some(PlaceBehindTheFront) => numbers[1] = start + 8,
            Some(BytesOfTheKeys) => numbers[2] = 8 + 8 * many,
            Some(BytesWithTheHead) => numbers[2] = length + 54,
            Some(PlacesChanged) => numbers.swap(3, 4),
            _ => {}
        }
        numbers
    }
}

/// An entry of a directory.
fn entry(directory: &[u8], k: usize) -> Entry {
    let number = |place: usize| u16_at(directory, 8 + 8 * k + 2 * place);
    Entry {
        key: number(0),
        location: number(1),
        count: number(2),
        index: number(3),
    }
}

impl Library for StandIn {
    fn keys(&self, file: &[u8], allowance: u64, keys: &mut Keys, row: &mut Row) {
        match self.judge(file, allowance, None) {
            Ok(told) => {
                *keys = self.numbers(&told);
                let value = match self.error {
                    Some(KeysValueZero) => 0,
                    Some(KeysValueOfTheBytes) => told.directory[1],
                    _ => told.entries.len(),
                };
                *row = [0, value as u64, 0];
            }
            Err(refusal) => {
                *row = refusal;
                if self.has(KeysClearedByRefusal) {
                    *keys = [0; 5];
                }
            }
        }
    }

    fn at(&self, file: &[u8], keys: &Keys, k: u16, key: &mut Key) -> u8 {
        let k = match self.error {
            Some(AtFromOne) => u64::from(k).wrapping_sub(1),
            Some(AtOf8Bits) => u64::from(k) & 0xff,
            _ => k.into(),
        };
        let found = match k {
            u64::MAX => None,
            k => self.at_place(file, keys, k),
        };
        self.answer(found, key)
    }

    fn find(&self, file: &[u8], keys: &Keys, wanted: u16, key: &mut Key) -> u8 {
        let k = self.place(file, keys, wanted.into());
        let found = k.and_then(|k| self.at_place(file, keys, k));
        self.answer(found, key)
    }

    fn key(&self, file: &[u8], allowance: u64, wanted: u16, key: &mut Key, row: &mut Row) {
        let found = match self.judge(file, allowance, Some(wanted.into())) {
            Ok(told) => {
                let keys = self.numbers(&told);
                let place = self.place(file, &keys, wanted.into());
                let found = place.and_then(|k| self.at_place(file, &keys, k));
                found.zip(place).ok_or(match self.error {
                    Some(NotFoundWithTheKey) => [48, wanted.into(), 0],
                    Some(NotFoundWithTheCount) => [48, keys[0], 0],
                    Some(NotFoundIsResult) => [0, 0, 0],
                    _ => [48, 0, 0],
                })
            }
            Err(refusal) => Err(refusal),
        };
        match found {
            Ok((found, k)) => {
                *key = found;
                let value = match self.error {
                    Some(FoundWithItsNumber) => k,
                    Some(FoundWithItsValue) => found[2],
                    _ => 0,
                };
                *row = [0, value, 0];
            }
            Err(refusal) => {
                *row = refusal;
                if self.has(KeyClearedByRefusal) {
                    *key = [0; 5];
                }
            }
        }
    }

    fn write(&self, numbers: &[u16], dst: &mut [u8], row: &mut Row) {
        let mut numbers = numbers.to_vec();
        let rest = numbers.len() % 4;
        if self.has(WriteRestAKey) && rest > 0 {
            numbers.resize(numbers.len() + 4 - rest, 0);
        }
        let many = numbers.len() / 4;
        let mut keys: Vec<[u16; 4]> = numbers.as_chunks().0.to_vec();
        if self.has(WriteSorted) {
            keys.sort_by_key(|key| key[0]);
        }
        let falls = |[before, key]: [u16; 2]| match self.error {
            Some(WriteEqualTaken) => before > key,
            Some(WriteFallingTaken) => before == key,
            Some(WriteSigned) => before as i16 >= key as i16,
            _ => before >= key,
        };
        let pairs = match self.has(WriteFirstPairAlone) {
            true => many.min(2),
            false => many,
        };
        let mut names: Vec<u16> = keys[..pairs].iter().map(|key| key[0]).collect();
        if self.has(WriteRestRises) && rest > 0 {
            names.push(numbers[4 * many]);
        }
        let falling = names.windows(2).any(|pair| falls([pair[0], pair[1]]));
        let too_many = match self.error {
            Some(Write8191) => many > 8_191,
            Some(Write8190Refused) => many > 8_189,
            Some(WriteManyOf16Bits) => many > 65_535,
            Some(WriteManyByTheNumbers) => numbers.len() > 4 * 8_190,
            _ => many > 8_190,
        };
        let wanted = match self.error {
            Some(WriteRestCounted) => 8 + 2 * numbers.len(),
            _ => 8 + 8 * many,
        };
        let room = match self.error {
            Some(WriteRoomOneLess) => dst.len() + 1 < wanted,
            Some(WriteRoomExactRefused) => dst.len() <= wanted,
            Some(WriteRoomWithoutFront) => dst.len() < 8 * many,
            _ => dst.len() < wanted,
        };
        let no_room = match self.error {
            Some(WriteRoomValueZero) => [22, 0, 0],
            Some(WriteRoomValueOfTheKeys) => [22, many as u64, 0],
            _ => [22, wanted as u64, 0],
        };
        let over = match self.has(WriteManyWithTheCount) {
            true => [49, many as u64, 0],
            false => [49, 0, 0],
        };
        let judged = self.has(WriteLocationsJudged)
            && keys
                .iter()
                .any(|key| !matches!(key[1], 0 | 34_736 | 34_737));
        let mut tests = vec![
            (falling, [44, 0, 0]),
            (too_many, over),
            (self.has(WriteRestRefused) && rest > 0, [44, 0, 0]),
            (judged, [45, 0, 0]),
            (room, no_room),
        ];
        match self.error {
            Some(WriteManyBeforeRising) => tests.swap(0, 1),
            Some(WriteRoomBeforeRising) => tests.swap(0, 4),
            Some(WriteRoomBeforeMany) => tests.swap(1, 4),
            _ => {}
        }
        let mut front = [1, 1, 0, many as u16];
        match self.error {
            Some(WriteFrontZero) => front[1] = 0,
            Some(WriteFrontMinorOne) => front[2] = 1,
            Some(WriteCountFirst) => front.rotate_right(1),
            Some(WriteCountOf8Bits) => front[3] &= 0xff,
            _ => {}
        }
        let mut bytes = Vec::new();
        for mut four in [front].into_iter().chain(keys) {
            if self.has(WriteNumberCountsOne) && !bytes.is_empty() && four[1] == 0 {
                four[2] = 1;
            }
            for number in four {
                bytes.extend(match self.has(WriteBigEndian) {
                    true => number.to_be_bytes(),
                    false => number.to_le_bytes(),
                });
            }
        }
        let end = dst.len().min(bytes.len());
        let refused = tests.into_iter().find(|(refused, _)| *refused);
        let begun = match refused {
            Some((_, [22, ..])) => self.has(WriteBegunBeforeRoom),
            Some((_, [44, ..])) => self.has(WriteBegunBeforeRising),
            Some(_) => false,
            None => true,
        };
        if begun {
            dst[..end].copy_from_slice(&bytes[..end]);
        }
        if let Some((_, refusal)) = refused {
            *row = refusal;
            return;
        }
        if self.has(WriteBehindCleared) {
            dst[end..].fill(0);
        }
        let value = match self.error {
            Some(WriteValueZero) => 0,
            Some(WriteValueOfTheKeys) => many,
            _ => wanted,
        };
        *row = [0, value as u64, 0];
    }
}
