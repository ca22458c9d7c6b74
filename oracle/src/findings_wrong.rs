//! A stand-in for the port's call that tells findings, into which an error can be put. The comparison is tested with
//! it: each error must be seen.
//!
//! It is written apart from `findings_model` and otherwise: in 64 bits, with masks, in one go from the file's first
//! byte to its last. Its file check is the stand-in of `file_wrong` without an error.

use crate::{capi::Row, file::Library as _, file_wrong, findings::Library};

errors! {
    CheckAllowanceIgnored,
    CheckRecordNumberLost,
    RecordsAfterThePointsNotLookedAt,
    LegacyCountAlone,
    LegacyCountOfPointsNotLookedAt,
    LegacyCountsByReturnNotLookedAt,
    LastLegacyCounterNotLookedAt,
    LegacyCountersAreOneFinding,
    LegacyCountersInFormat5,
    LegacyCountersNotInFormat6,
    LegacyCountersNotInFormat10,
    LegacyCounterOf16Bits,
    LegacyCountOnlyWhereUnlike,
    LegacyCountOnlyWhereNotUnlike,
    UnlikeInFormats0To5Only,
    UnlikeInFormats6To10Only,
    UnlikeInOlderVersions,
    UnlikeThoughZero,
    UnlikeInTheLow32Bits,
    UnlikeOnlyWhereSmaller,
    UnlikeOnlyWhereGreater,
    UnlikeAtTheLargeOne,
    UnlikeNotWhereTheLargeOneIsZero,
    LegacyCountersComparedIn14Too,
    LegacyCountersComparedIn14Instead,
    FourOldCounters,
    FourteenLargeCounters,
    FiveLargeCounters,
    LargeCountersOf32Bits,
    LargeCountersOnlyInNewFormats,
    ReturnZeroCountedAsFirst,
    LaterReturnsCountedAsFifth,
    ReturnOneCounterOff,
    ThreeBitsOfANewReturnNumber,
    FourBitsOfAnOldReturnNumber,
    ThreeBitsOfANewNumberOfReturns,
    CounterTooSmallTaken,
    CounterTooLargeTaken,
    CounterZeroTaken,
    CountersAreOneFinding,
    ImpossibleReturnsNotCounted,
    WithheldNotCounted,
    FirstPointNotCounted,
    LastPointNotCounted,
    CountersAtTheirSecondByte,
    AboveOrEqual,
    AboveTaken,
    ZeroTaken,
    ZeroTakenWhereNumberIsZero,
    NumberOfReturnsZeroTaken,
    PointsFromZero,
    PointAtItsFlags,
    PointWithoutItsNumber,
    CounterWithAPointNumber,
    WithheldPointsTaken,
    FirstBadPointAlone,
    LastPointNotLookedAt,
    LengthOfTheFormatForTheRecordLength,
    Format5TakenForNew,
    Format6TakenForOld,
    LastByteOfATextUnseen,
    ByteBehindTheZeroUnseen,
    OnlyTheByteBehindTheZeroSeen,
    OnlyTheLastByteSeen,
    TextWithoutAZeroFound,
    BlanksTakenForZeros,
    HighBytesUnseen,
    TextsFromTheirLastZero,
    TextAtItsFirstZero,
    TextAtItsFirstWrongByte,
    TextFoundForEachByte,
    SystemIdentifierUnseen,
    GeneratingSoftwareUnseen,
    GuidTakenForText,
    UserIdUnseen,
    DescriptionUnseen,
    UserIdOf15Bytes,
    UserIdOf18Bytes,
    EvlrDescriptionAsInAVlr,
    VlrDescriptionAsInAnEvlr,
    EvlrsUnseen,
    LastEvlrUnseen,
    PacketsUnseen,
    OneTextOfARecord,
    LastVlrUnseen,
    PaddingTakenForText,
    GapsNotNumbered,
    EmptyGapsNumbered,
    GapBeforeThePointsNotNumbered,
    PartsFromZero,
    PartOfItsKind,
    TextsOfTheHeaderInPartZero,
    PointsNumberedAsParts,
    TiesTheOtherWayRound,
    ByRule,
    TextsBehindCounters,
    EvlrsBeforeThePoints,
    LastFindingTwice,
    LastFindingLost,
    WrittenBeforeRoomIsKnown,
    WrittenAsFarAsItGoes,
    RoomInFindings,
    RoomForOneMore,
    RoomRoundedUp,
    RoomBeforeTheCheck,
    NoRoomWithTheNumbers,
    NoRoomWithZero,
    NoRoomWithWhatIsMissing,
    NoRoomWithARecordNumber,
    NoRoomForNothing,
    RestOfTheRoomCleared,
    ClearedByRefusal,
    ValueZero,
    ValueOfTheNumbers,
    ValueWithARecordNumber,
    PointAndPartSwapped,
    ByteFromThePart,
    ByteFromOne,
    RulesFromZero,
}

pub struct StandIn {
    pub error: Option<Error>,
}

fn u16_at(file: &[u8], at: usize) -> u64 {
    u16::from_le_bytes([file[at], file[at + 1]]).into()
}

fn u32_at(file: &[u8], at: usize) -> u64 {
    u16_at(file, at) | u16_at(file, at + 2) << 16
}

fn u64_at(file: &[u8], at: usize) -> u64 {
    u32_at(file, at) | u32_at(file, at + 4) << 32
}

/// The bytes of a record of formats 0 to 10.
const LEAST: [usize; 11] = [20, 28, 26, 34, 57, 63, 30, 36, 38, 59, 67];

/// What is told, and in which part.
#[derive(Default)]
struct Told {
    findings: Vec<[u64; 4]>,
    part: u64,
}

impl Told {
    fn tell(&mut self, rule: u64, point: u64, at: usize) {
        self.findings.push([rule, self.part, point, at as u64]);
    }
}

impl StandIn {
    fn has(&self, error: Error) -> bool {
        self.error == Some(error)
    }

    fn check(&self, file: &[u8], allowance: u64) -> Result<(), Row> {
        let allowance = match self.has(CheckAllowanceIgnored) {
            true => u64::MAX,
            false => allowance,
        };
        let mut check = [0; 4];
        file_wrong::StandIn { error: None }.check(file, allowance, &mut check);
        let [number, value, record, _] = check;
        match number {
            0 => Ok(()),
            13 | 14 | 35 if self.has(RecordsAfterThePointsNotLookedAt) => Ok(()),
            _ if self.has(CheckRecordNumberLost) => Err([number, value, 0]),
            _ => Err([number, value, record]),
        }
    }

    fn is_old(&self, format: u8) -> bool {
        match format {
            5 if self.has(Format5TakenForNew) => false,
            6 if self.has(Format6TakenForOld) => true,
            _ => format < 6,
        }
    }

    /// The return number and the number of returns of a record.
    fn returns(&self, format: u8, record: &[u8]) -> (u8, u8) {
        let byte = record[14];
        match self.is_old(format) {
            true if self.has(FourBitsOfAnOldReturnNumber) => (byte & 15, byte >> 3 & 7),
            true => (byte & 7, byte >> 3 & 7),
            false if self.has(ThreeBitsOfANewReturnNumber) => (byte & 7, byte >> 4),
            false if self.has(ThreeBitsOfANewNumberOfReturns) => (byte & 15, byte >> 4 & 7),
            false => (byte & 15, byte >> 4),
        }
    }

    /// Whether a text has something behind its first zero, and where.
    fn text(&self, text: &[u8]) -> Option<(usize, usize)> {
        let text = match self.has(LastByteOfATextUnseen) {
            true => &text[..text.len() - 1],
            false => text,
        };
        let zero = match self.has(TextsFromTheirLastZero) {
            true => text.iter().rposition(|&byte| byte == 0),
            false => text.iter().position(|&byte| byte == 0),
        };
        let Some(zero) = zero else {
            return self.has(TextWithoutAZeroFound).then_some((0, 0));
        };
        let wrong = |&(k, &byte): &(usize, &u8)| {
            k > zero
                && byte != 0
                && !(byte == b' ' && self.has(BlanksTakenForZeros))
                && !(byte > 127 && self.has(HighBytesUnseen))
                && !(k == zero + 1 && self.has(ByteBehindTheZeroUnseen))
                && !(k != zero + 1 && self.has(OnlyTheByteBehindTheZeroSeen))
                && !(k + 1 != text.len() && self.has(OnlyTheLastByteSeen))
        };
        let found = text.iter().enumerate().find(wrong);
        found.map(|(k, _)| (zero, k))
    }

    fn tell_text(&self, told: &mut Told, file: &[u8], at: usize, length: usize) -> bool {
        let Some(text) = file.get(at..at + length) else {
            return false;
        };
        let Some((zero, wrong)) = self.text(text) else {
            return false;
        };
        let first = match () {
            () if self.has(TextAtItsFirstZero) => at + zero,
            () if self.has(TextAtItsFirstWrongByte) => at + wrong,
            () => at,
        };
        told.tell(5, 0, first);
        if self.has(TextFoundForEachByte) {
            let more = text[wrong + 1..].iter().filter(|&&byte| byte != 0);
            (0..more.count()).for_each(|_| told.tell(5, 0, first));
        }
        true
    }

    /// The texts of a record's head.
    fn tell_head(&self, told: &mut Told, file: &[u8], at: usize, is_vlr: bool) {
        let user = match () {
            () if self.has(UserIdOf15Bytes) => 15,
            () if self.has(UserIdOf18Bytes) => 18,
            () => 16,
        };
        let mut found = false;
        if !self.has(UserIdUnseen) {
            found = self.tell_text(told, file, at + 2, user);
        }
        let description = match is_vlr {
            true if self.has(VlrDescriptionAsInAnEvlr) => 28,
            false if self.has(EvlrDescriptionAsInAVlr) => 22,
            true => 22,
            false => 28,
        };
        if !self.has(DescriptionUnseen) && !(found && self.has(OneTextOfARecord)) {
            self.tell_text(told, file, at + description, 32);
        }
    }

    /// What is wrong with the header.
    fn tell_header(&self, told: &mut Told, file: &[u8], returns: &[u64; 16]) {
        let (minor, format) = (file[25], file[104]);
        let part = told.part;
        if self.has(TextsOfTheHeaderInPartZero) {
            told.part = 0;
        }
        if self.has(GuidTakenForText) {
            self.tell_text(told, file, 8, 16);
        }
        if !self.has(SystemIdentifierUnseen) {
            self.tell_text(told, file, 26, 32);
        }
        if !self.has(GeneratingSoftwareUnseen) {
            self.tell_text(told, file, 58, 32);
        }
        told.part = part;

        let ruled = match format {
            5 => self.has(LegacyCountersInFormat5),
            6 => !self.has(LegacyCountersNotInFormat6),
            10 => !self.has(LegacyCountersNotInFormat10),
            _ => format > 5,
        };
        let legacy = |k: usize| match self.has(LegacyCounterOf16Bits) {
            true => u16_at(file, 107 + 4 * k),
            false => u32_at(file, 107 + 4 * k),
        };
        let count = u32_at(file, 107);
        let large = if minor == 4 { u64_at(file, 247) } else { count };
        let is_unlike = match () {
            () if self.has(UnlikeInTheLow32Bits) => count != large & 0xffff_ffff,
            () if self.has(UnlikeOnlyWhereSmaller) => count < large,
            () if self.has(UnlikeOnlyWhereGreater) => count > large,
            () if self.has(UnlikeNotWhereTheLargeOneIsZero) => count != large && large != 0,
            () => count != large,
        };
        let unlike = is_unlike && (count != 0 || self.has(UnlikeThoughZero));
        let mut one = false;
        let first = !self.has(LegacyCountOfPointsNotLookedAt)
            && !(self.has(LegacyCountOnlyWhereUnlike) && !unlike)
            && !(self.has(LegacyCountOnlyWhereNotUnlike) && unlike);
        if ruled && legacy(0) != 0 && first {
            told.tell(1, 0, 107);
            one = true;
        }
        let in_format = match format {
            0..=5 => !self.has(UnlikeInFormats6To10Only),
            _ => !self.has(UnlikeInFormats0To5Only),
        };
        let older = minor < 4 && self.has(UnlikeInOlderVersions) && count != sum(&returns[1..6]);
        if unlike && in_format || older {
            let at = if self.has(UnlikeAtTheLargeOne) {
                247
            } else {
                107
            };
            told.tell(2, 0, at);
        }

        let mut counters = false;
        let mut compare = |told: &mut Told, at: usize, number: u64, counted: u64| {
            let unlike = match () {
                () if self.has(CounterTooSmallTaken) => number > counted,
                () if self.has(CounterTooLargeTaken) => number < counted,
                () if self.has(CounterZeroTaken) => number != counted && number != 0,
                () => number != counted,
            };
            if unlike && !(counters && self.has(CountersAreOneFinding)) {
                let point = u64::from(self.has(CounterWithAPointNumber));
                let at = at + usize::from(self.has(CountersAtTheirSecondByte));
                told.tell(3, point, at);
                counters = true;
            }
        };
        for k in 1..6 {
            let last = k == 5 && self.has(LastLegacyCounterNotLookedAt);
            let only = one && self.has(LegacyCountersAreOneFinding);
            let seen = !self.has(LegacyCountsByReturnNotLookedAt) && !last && !only;
            if ruled && legacy(k) != 0 && seen {
                told.tell(1, 0, 107 + 4 * k);
                one = true;
            }
            let instead = minor == 4
                && (self.has(LegacyCountersComparedIn14Too)
                    || self.has(LegacyCountersComparedIn14Instead));
            let fifth = k == 5 && self.has(FourOldCounters);
            if (minor < 4 || instead) && !fifth {
                compare(told, 107 + 4 * k, u32_at(file, 107 + 4 * k), returns[k]);
            }
        }
        let most = match () {
            () if self.has(FourteenLargeCounters) => 15,
            () if self.has(FiveLargeCounters) => 6,
            () if self.has(LegacyCountersComparedIn14Instead) => 1,
            () if self.has(LargeCountersOnlyInNewFormats) && format < 6 => 1,
            () => 16,
        };
        for k in 1..most {
            if minor == 4 {
                let number = match self.has(LargeCountersOf32Bits) {
                    true => u32_at(file, 247 + 8 * k),
                    false => u64_at(file, 247 + 8 * k),
                };
                compare(told, 247 + 8 * k, number, returns[k]);
            }
        }
        if self.has(PaddingTakenForText) && u16_at(file, 94) > 375 {
            self.tell_text(told, file, 375, u16_at(file, 94) as usize - 375);
        }
    }

    /// Everything that is wrong with an accepted file.
    fn list(&self, file: &[u8]) -> Vec<[u64; 4]> {
        let (minor, format) = (file[25], file[104]);
        let [header, offset] = [u16_at(file, 94) as usize, u32_at(file, 96) as usize];
        let stride = match self.has(LengthOfTheFormatForTheRecordLength) {
            true => LEAST[usize::from(format)],
            false => u16_at(file, 105) as usize,
        };
        let legacy = u32_at(file, 107);
        let large = minor == 4 && legacy == 0 && !self.has(LegacyCountAlone);
        let count = if large { u64_at(file, 247) } else { legacy } as usize;
        let end = offset + count * u16_at(file, 105) as usize;

        // The returns of the records.
        let mut returns = [0; 16];
        for k in 0..count {
            let record = &file[offset + k * stride..];
            let (own, of) = self.returns(format, record);
            let is_withheld = record[15] >> (if self.is_old(format) { 7 } else { 2 }) & 1 == 1;
            let left_out = k == 0 && self.has(FirstPointNotCounted)
                || k + 1 == count && self.has(LastPointNotCounted)
                || is_withheld && self.has(WithheldNotCounted)
                || (own == 0 || own > of) && self.has(ImpossibleReturnsNotCounted);
            let own = match own {
                0 if self.has(ReturnZeroCountedAsFirst) => 1,
                6.. if self.has(LaterReturnsCountedAsFifth) && minor < 4 => 5,
                _ if self.has(ReturnOneCounterOff) => (own + 1) & 15,
                _ => own,
            };
            if !left_out {
                returns[usize::from(own)] += 1;
            }
        }

        let mut told = Told {
            part: 1,
            ..Told::default()
        };
        self.tell_header(&mut told, file, &returns);
        let mut at = header;
        let vlrs = u32_at(file, 100);
        for k in 0..vlrs {
            told.part += 1;
            if !(k + 1 == vlrs && self.has(LastVlrUnseen)) {
                self.tell_head(&mut told, file, at, true);
            }
            at += 54 + u16_at(file, at + 20) as usize;
        }
        if (offset > at || self.has(EmptyGapsNumbered)) && !self.has(GapBeforeThePointsNotNumbered)
        {
            self.gap(&mut told);
        }
        told.part += 1;
        let mut bad = false;
        for k in 0..count {
            let record = offset + k * stride;
            let (own, of) = self.returns(format, &file[record..]);
            let bits = file[record + 15] >> (if self.is_old(format) { 7 } else { 2 });
            let wrong = match own {
                0 if self.has(ZeroTaken) => false,
                0 if self.has(ZeroTakenWhereNumberIsZero) => of != 0,
                0 => true,
                _ if self.has(AboveTaken) => false,
                _ if self.has(AboveOrEqual) => own >= of,
                _ if self.has(NumberOfReturnsZeroTaken) => own > of && of != 0,
                _ => own > of,
            };
            let skipped = bits & 1 == 1 && self.has(WithheldPointsTaken)
                || bad && self.has(FirstBadPointAlone)
                || k + 1 == count && self.has(LastPointNotLookedAt);
            if wrong && !skipped {
                bad = true;
                let point = match () {
                    () if self.has(PointsFromZero) => k,
                    () if self.has(PointWithoutItsNumber) => 0,
                    () => k + 1,
                };
                let part = told.part;
                if self.has(PointsNumberedAsParts) {
                    told.part += k as u64;
                }
                let flags = if self.has(PointAtItsFlags) { 14 } else { 0 };
                told.tell(4, point as u64, record + flags);
                told.part = part;
            }
        }
        self.tell_later(&mut told, file, end);
        self.arrange(told, file)
    }

    /// What is wrong with the records after the points.
    fn tell_later(&self, told: &mut Told, file: &[u8], end: usize) {
        let packets = file[25] == 3 && file[6] & 2 == 2 && u64_at(file, 227) != 0;
        let pair = file[25] == 4 && u64_at(file, 235) != 0 && u32_at(file, 243) != 0;
        let (mut at, later) = match () {
            () if packets => (u64_at(file, 227) as usize, 1),
            () if pair => (u64_at(file, 235) as usize, u32_at(file, 243)),
            () => return,
        };
        if at > end || self.has(EmptyGapsNumbered) {
            self.gap(told);
        }
        for k in 0..later {
            if at.checked_add(60).is_none_or(|head| head > file.len()) {
                return;
            }
            told.part += 1;
            let unseen = packets && self.has(PacketsUnseen)
                || pair && self.has(EvlrsUnseen)
                || k + 1 == later && self.has(LastEvlrUnseen);
            if !unseen {
                self.tell_head(told, file, at, false);
            }
            at = at.saturating_add(60 + u64_at(file, at + 20).min(1 << 62) as usize);
        }
    }

    fn gap(&self, told: &mut Told) {
        if !self.has(GapsNotNumbered) {
            told.part += 1;
        }
    }

    /// What was told, in the order and with the numbers that an error gives it.
    fn arrange(&self, told: Told, file: &[u8]) -> Vec<[u64; 4]> {
        let mut findings = told.findings;
        let offset = u32_at(file, 96);
        match () {
            () if self.has(TiesTheOtherWayRound) => {
                findings.sort_by_key(|&[rule, _, _, at]| (at, 9 - rule));
            }
            () if self.has(ByRule) => findings.sort_by_key(|&[rule, ..]| rule),
            () if self.has(TextsBehindCounters) => {
                findings.sort_by_key(|&[rule, part, _, at]| (part, rule, at));
            }
            () if self.has(EvlrsBeforeThePoints) => {
                findings.sort_by_key(|&[rule, _, _, at]| (rule == 4, at, rule));
            }
            () => {}
        }
        if let Some(&last) = findings.last() {
            if self.has(LastFindingTwice) {
                findings.push(last);
            }
            if self.has(LastFindingLost) {
                findings.pop();
            }
        }
        for finding in &mut findings {
            let [rule, part, point, at] = finding;
            match () {
                () if self.has(PartsFromZero) => *part -= 1,
                () if self.has(PartOfItsKind) && *at >= offset && *rule == 5 => {
                    *part = 1 + (*at - offset) / 60;
                }
                () if self.has(PointAndPartSwapped) => std::mem::swap(part, point),
                () if self.has(ByteFromThePart) && *rule == 4 => *at -= offset,
                () if self.has(ByteFromOne) => *at += 1,
                () if self.has(RulesFromZero) => *rule -= 1,
                () => {}
            }
        }
        findings
    }

    fn no_room(&self, many: u64, room: u64) -> Row {
        match () {
            () if self.has(NoRoomWithTheNumbers) => [22, 4 * many, 0],
            () if self.has(NoRoomWithZero) => [22, 0, 0],
            () if self.has(NoRoomWithWhatIsMissing) => [22, many - room / 4, 0],
            () if self.has(NoRoomWithARecordNumber) => [22, many, many],
            () => [22, many, 0],
        }
    }
}

fn sum(counts: &[u64]) -> u64 {
    counts.iter().sum()
}

impl Library for StandIn {
    fn findings(&self, file: &[u8], allowance: u64, out: &mut [u64], row: &mut Row) {
        if self.has(RoomBeforeTheCheck) && out.is_empty() {
            *row = [22, 0, 0];
            return;
        }
        if let Err(refusal) = self.check(file, allowance) {
            if self.has(ClearedByRefusal) {
                out.fill(0);
            }
            *row = refusal;
            return;
        }
        let findings = self.list(file);
        let numbers = findings.as_flattened();
        let (many, room) = (findings.len(), out.len());
        let fits = match () {
            () if self.has(RoomInFindings) => many <= room,
            () if self.has(RoomForOneMore) => 4 * many < room || many == 0,
            () if self.has(RoomRoundedUp) => many <= room.div_ceil(4),
            () if self.has(NoRoomForNothing) => 4 * many <= room && room > 0,
            () => 4 * many <= room,
        };
        if !fits {
            *row = self.no_room(many as u64, room as u64);
            if self.has(WrittenBeforeRoomIsKnown) && room >= 4 {
                out[..4].copy_from_slice(&numbers[..4]);
            }
            if self.has(WrittenAsFarAsItGoes) {
                out.copy_from_slice(&numbers[..room]);
            }
            return;
        }
        let told = (4 * many).min(room);
        out[..told].copy_from_slice(&numbers[..told]);
        if self.has(RestOfTheRoomCleared) {
            out[told..].fill(0);
        }
        let many = many as u64;
        *row = match () {
            () if self.has(ValueZero) => [0, 0, 0],
            () if self.has(ValueOfTheNumbers) => [0, 4 * many, 0],
            () if self.has(ValueWithARecordNumber) => [0, many, many],
            () => [0, many, 0],
        };
    }
}
