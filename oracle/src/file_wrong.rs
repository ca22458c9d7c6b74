//! A stand-in for the port's calls on files, into which an error can be put. The comparison is tested
//! with it: each error must be seen.
//!
//! It is written apart from `file_model` and otherwise: in 64 bits, one part after another.

use crate::{
    capi::{Cursor, Place, PointNumbers, Row, Span},
    file::Library,
    file_model::{EVLR, GAP, HEADER, POINTS, Part, VLR, WAVEFORM},
    format::{self, LONGEST},
    point::{self, HAS_NIR, NIR},
    records::record_len,
};
use las::{point::Format, raw::Point};

errors! {
    SignatureAfterVersion,
    PaddingNotRead,
    FormatForVersionFirst,
    LengthOfFormatForRecordLength,
    PointOffsetAtEndRefused,
    VlrsAfterStandardSize,
    VlrsUpToEndOfFile,
    ExtentBeforeAllowance,
    AllowanceForVlrsOnly,
    AllowanceForEachKind,
    LengthThoughHeadEndsTooLate,
    RecordNumbersAfresh,
    CountNotAnsweredOnRefusal,
    LargeCountFirst,
    LargeCountIn32Bits,
    ProductIn64Bits,
    EvlrsBeforePoints,
    EvlrStartAtEndRefused,
    EvlrStartOnlyInFile,
    EvlrLengthIn32Bits,
    EvlrSumIn64Bits,
    EvlrCountAlone,
    PacketsByBit2,
    PacketsWithoutTheBit,
    PacketsInVersion14,
    PacketsFrom12On,
    PacketsAtZero,
    PacketsBeforePoints,
    PacketsStartAs14,
    PacketsStartWithItsField,
    PacketsStartNamesTheRecord,
    PacketsStartAtEndRefused,
    PacketsStartOnlyInFile,
    PacketsNotCounted,
    PacketsAllowedForNothing,
    PacketsNumberedAfresh,
    PacketsWithAVlrsHead,
    PacketsToldAsEvlr,
    PacketsAGap,
    LastGapDropped,
    MiddleGapDropped,
    EmptyGapsKept,
    EmptyPointsOmitted,
    TableFilledAsFarAsItGoes,
    RestOfTableCleared,
    RoomBeforeCheck,
    CursorClearedOnRefusal,
    CursorStartsAgain,
    CursorStopsAtEmptyGap,
    CursorTellsEmptyGaps,
    CursorVlrsUpToEndOfFile,
    CursorCountsIn64Bits,
    CursorPointsInPlace,
    CursorPacketsByOneAlone,
    CursorForgetsPackets,
    PartClearedAtEnd,
    WalkerWithoutExtraBytes,
    WalkerStartsAgain,
    WalkerAnswersHowManyItGave,
    WalkerReadsPastWhatItIsShown,
    WalkerLengthIn16Bits,
    WalkerSumIn64Bits,
    WalkerRefusalForgotten,
    RecordWithoutExtraBytes,
    RecordAfterTheLast,
    RecordThoughNotShown,
    RecordThoughRefused,
    NumbersClearedAtEnd,
    NirZeroMissing,
    NirInEveryFormat,
    NirOfBluesPlace,
    HalfEvlrPairKept,
    WholeEvlrPairCleared,
    TrailingBytesNotCopied,
    WritesBeforeItRefuses,
}

pub struct StandIn {
    pub error: Option<Error>,
}

/// What a check finds.
#[derive(Default)]
struct Sight {
    whole: u64,
    parts: Vec<Part>,
    at: u64,
    offset: u64,
    points: u64,
    length: u64,
    format: u8,
    evlrs: bool,
    /// Where the waveform packets start, if they are in the file.
    packets: Option<u64>,
}

fn u16_at(file: &[u8], at: u64) -> u64 {
    let at = at as usize;
    u16::from_le_bytes([file[at], file[at + 1]]).into()
}

fn u32_at(file: &[u8], at: u64) -> u64 {
    u16_at(file, at) | u16_at(file, at + 2) << 16
}

fn u64_at(file: &[u8], at: u64) -> u64 {
    u32_at(file, at) | u32_at(file, at + 4) << 32
}

impl StandIn {
    fn has(&self, error: Error) -> bool {
        self.error == Some(error)
    }

    fn judge(&self, file: &[u8], allowance: u64, sight: &mut Sight) -> Result<(), Row> {
        let end = file.len() as u64;
        let short = |wanted| {
            if end < wanted {
                Err([1, wanted, 0])
            } else {
                Ok(())
            }
        };
        let signed = || match u32_at(file, 0) {
            0x4653_414c => Ok(()),
            other => Err([2, other, 0]),
        };
        short(4)?;
        if !self.has(SignatureAfterVersion) {
            signed()?;
        }
        short(26)?;
        let (standard, highest) = match (file[24], file[25]) {
            (1, 0 | 1) => (227, 1),
            (1, 2) => (227, 3),
            (1, 3) => (235, 5),
            (1, 4) => (375, 10),
            (major, minor) => return Err([3, u64::from(major) << 8 | u64::from(minor), 0]),
        };
        signed()?;
        let large = file[25] == 4;
        short(standard)?;
        let size = u16_at(file, 94);
        if !self.has(PaddingNotRead) {
            short(size)?;
        }
        if size < standard {
            return Err([4, size, 0]);
        }
        sight.format = file[104];
        let code = u64::from(sight.format);
        if self.has(FormatForVersionFirst) && code > highest {
            return Err([7, code, 0]);
        }
        match sight.format {
            0..=10 if code > highest => return Err([7, code, 0]),
            0..=10 => {}
            11..=127 => return Err([5, code, 0]),
            _ => return Err([6, code, 0]),
        }
        let least = record_len(format::word(format_of(sight.format))) as u64;
        sight.length = u16_at(file, 105);
        if sight.length < least {
            return Err([8, sight.length, 0]);
        }
        if self.has(LengthOfFormatForRecordLength) {
            sight.length = least;
        }
        sight.offset = u32_at(file, 96);
        let offset = sight.offset;
        let beyond = offset > end || self.has(PointOffsetAtEndRefused) && offset == end;
        if offset < size || beyond {
            return Err([9, offset, 0]);
        }
        sight.part(HEADER, 0, size);
        if self.has(VlrsAfterStandardSize) {
            sight.at = standard;
        }
        let until = if self.has(VlrsUpToEndOfFile) {
            end
        } else {
            offset
        };
        for _ in 0..u32_at(file, 100) {
            self.record(file, VLR, until, allowance, sight)?;
        }
        sight.gap(offset);
        sight.points = match u32_at(file, 107) {
            0 if large && self.has(LargeCountIn32Bits) => u32_at(file, 247),
            0 if large => u64_at(file, 247),
            _ if large && self.has(LargeCountFirst) => u64_at(file, 247),
            legacy => legacy,
        };
        let (start, count) = match large {
            true => (u64_at(file, 235), u32_at(file, 243)),
            false => (0, 0),
        };
        let fits = |sight: &Sight| match self.has(ProductIn64Bits) {
            true => offset.wrapping_add(sight.points.wrapping_mul(sight.length)) <= end,
            false => sight.points <= (end - offset) / sight.length,
        };
        let no_points = [12, sight.points, 0];
        sight.packets = self.packets(file);
        let later_first = match sight.packets {
            Some(_) => self.has(PacketsBeforePoints),
            None => self.has(EvlrsBeforePoints),
        };
        if !fits(sight) && !later_first {
            return Err(no_points);
        }
        let bytes = sight.points.wrapping_mul(sight.length);
        let point_end = offset.wrapping_add(bytes);
        sight.part(POINTS, offset, bytes);
        sight.evlrs = count != 0 && (start != 0 || self.has(EvlrCountAlone));
        if sight.evlrs {
            let late = start > end || self.has(EvlrStartAtEndRefused) && start == end;
            let early = start < point_end && !self.has(EvlrStartOnlyInFile);
            if early || late {
                return Err([14, start, 0]);
            }
            sight.gap(start);
            sight.at = start;
            for _ in 0..count {
                self.record(file, EVLR, end, allowance, sight)?;
            }
        }
        if let Some(start) = sight.packets {
            let late = start > end || self.has(PacketsStartAtEndRefused) && start == end;
            let early = start < point_end && !self.has(PacketsStartOnlyInFile);
            if early || late {
                let number = if self.has(PacketsStartAs14) { 14 } else { 35 };
                let field = self.has(PacketsStartWithItsField) || number == 14;
                let record = match self.has(PacketsStartNamesTheRecord) {
                    true => sight.whole + 1,
                    false => 0,
                };
                return Err([number, if field { start } else { 0 }, record]);
            }
            sight.gap(start);
            sight.at = start;
            self.record(file, WAVEFORM, end, allowance, sight)?;
        }
        if !fits(sight) {
            return Err(no_points);
        }
        sight.gap(end);
        Ok(())
    }

    /// Where the waveform packets of a file start that has them in it.
    fn packets(&self, file: &[u8]) -> Option<u64> {
        let bit = if self.has(PacketsByBit2) { 4 } else { 2 };
        let set = file[6] & bit != 0 || self.has(PacketsWithoutTheBit);
        let known = match file[25] {
            3 => true,
            4 => self.has(PacketsInVersion14),
            2 => self.has(PacketsFrom12On),
            _ => false,
        };
        // Where 1.2 has no such field, its bytes are padding or a VLR's, or the file may be too short.
        let start = (known && set && file.len() >= 235).then(|| u64_at(file, 227));
        start.filter(|&start| start != 0 || self.has(PacketsAtZero))
    }

    /// The record at the place that the check has come to.
    fn record(
        &self,
        file: &[u8],
        kind: u64,
        end: u64,
        allowance: u64,
        sight: &mut Sight,
    ) -> Result<(), Row> {
        let at = sight.at;
        let (head, extent) = match kind {
            VLR => (54, 11),
            WAVEFORM if self.has(PacketsWithAVlrsHead) => (54, 13),
            _ => (60, 13),
        };
        let vlrs = sight.parts.iter().filter(|part| part[0] == VLR).count() as u64;
        let afresh = match kind {
            EVLR => self.has(RecordNumbersAfresh),
            WAVEFORM => self.has(PacketsNumberedAfresh),
            _ => false,
        };
        let record = 1 + if afresh {
            sight.whole - vlrs
        } else {
            sight.whole
        };
        let spent = match kind {
            EVLR if self.has(AllowanceForVlrsOnly) => false,
            EVLR if self.has(AllowanceForEachKind) => sight.whole - vlrs == allowance,
            WAVEFORM if self.has(PacketsAllowedForNothing) => false,
            _ => sight.whole == allowance,
        };
        if spent && !self.has(ExtentBeforeAllowance) {
            return Err([10, allowance, record]);
        }
        let length = |at| match kind {
            VLR => u16_at(file, at),
            _ if self.has(EvlrLengthIn32Bits) => u32_at(file, at),
            _ => u64_at(file, at),
        };
        if end - at.min(end) < head {
            let told = self.has(LengthThoughHeadEndsTooLate) && at + 28 <= file.len() as u64;
            let value = if told { length(at + 20) } else { 0 };
            return Err([extent, value, record]);
        }
        let length = length(at + 20);
        let beyond = match self.has(EvlrSumIn64Bits) {
            true => (at + head).wrapping_add(length) > end,
            false => length > end - at - head,
        };
        if beyond {
            return Err([extent, length, record]);
        }
        if spent {
            return Err([10, allowance, record]);
        }
        let counts = kind != WAVEFORM || !self.has(PacketsNotCounted);
        sight.whole += u64::from(counts);
        let kind = match kind {
            WAVEFORM if self.has(PacketsToldAsEvlr) => EVLR,
            WAVEFORM if self.has(PacketsAGap) => GAP,
            kind => kind,
        };
        sight.part(kind, at, head.wrapping_add(length));
        Ok(())
    }

    fn judged(&self, file: &[u8], allowance: u64) -> (Sight, Result<(), Row>) {
        let mut sight = Sight::default();
        let answer = self.judge(file, allowance, &mut sight);
        (sight, answer)
    }

    /// Whether a part belongs into the table.
    fn listed(&self, part: &Part, k: usize, count: usize) -> bool {
        match *part {
            [GAP, _, 0] => self.has(EmptyGapsKept),
            [GAP, _, _] if k + 1 == count => !self.has(LastGapDropped),
            [GAP, _, _] => !self.has(MiddleGapDropped),
            [POINTS, _, 0] => !self.has(EmptyPointsOmitted),
            _ => true,
        }
    }
}

impl Sight {
    fn part(&mut self, kind: u64, start: u64, length: u64) {
        self.parts.push([kind, start, length]);
        self.at = start.wrapping_add(length);
    }

    /// The bytes up to the next part, perhaps none.
    fn gap(&mut self, next: u64) {
        self.parts.push([GAP, self.at, next.wrapping_sub(self.at)]);
    }
}

fn format_of(code: u8) -> Format {
    Format::new(code).expect("a format from 0 to 10")
}

impl Library for StandIn {
    fn check(&self, file: &[u8], allowance: u64, row: &mut [u64; 4]) {
        let (sight, answer) = self.judged(file, allowance);
        *row = match answer {
            Ok(()) => [0, 0, 0, sight.whole],
            Err([number, value, record]) if self.has(CountNotAnsweredOnRefusal) => {
                [number, value, record, 0]
            }
            Err([number, value, record]) => [number, value, record, sight.whole],
        };
    }

    fn parts(&self, file: &[u8], allowance: u64, table: &mut [u64], row: &mut Row) {
        let (sight, answer) = self.judged(file, allowance);
        if self.has(RoomBeforeCheck) && table.len() < 9 {
            *row = [22, 3, 0];
            return;
        }
        if let Err(refusal) = answer {
            *row = refusal;
            return;
        }
        let count = sight.parts.len();
        let parts = sight.parts.iter().enumerate();
        let listed = parts.filter(|(k, part)| self.listed(part, *k, count));
        let parts: Vec<Part> = listed.map(|(_, part)| *part).collect();
        let wanted = parts.as_flattened();
        *row = [0, parts.len() as u64, 0];
        if table.len() < wanted.len() {
            row[0] = 22;
            if self.has(TableFilledAsFarAsItGoes) {
                table.copy_from_slice(&wanted[..table.len()]);
            }
            return;
        }
        table[..wanted.len()].copy_from_slice(wanted);
        if self.has(RestOfTableCleared) {
            table[wanted.len()..].fill(0);
        }
    }

    fn cursor(&self, file: &[u8], allowance: u64, cursor: &mut Cursor, row: &mut Row) {
        let (sight, answer) = self.judged(file, allowance);
        if let Err(refusal) = answer {
            *row = refusal;
            if self.has(CursorClearedOnRefusal) {
                *cursor = [0; 10];
            }
            return;
        }
        *row = [0; 3];
        let bytes = sight.points.wrapping_mul(sight.length);
        let point_end = sight.offset.wrapping_add(bytes);
        let (start, later) = match sight.packets {
            Some(start) => (start, 1),
            None if sight.evlrs => (u64_at(file, 235), u32_at(file, 243)),
            None => (point_end, 0),
        };
        *cursor = [
            0,
            0,
            0,
            u16_at(file, 94),
            u32_at(file, 100),
            sight.offset,
            point_end,
            start,
            later,
            u64::from(sight.packets.is_some()),
        ];
    }

    /// Goes on past empty gaps.
    fn tell(&self, file: &[u8], cursor: &mut Cursor, part: &mut Part) -> u8 {
        let end = file.len() as u64;
        let mut now = *cursor;
        now[0] = now[0].min(4);
        now[9] = match self.has(CursorPacketsByOneAlone) {
            true => u64::from(now[9] == 1),
            false => now[9].min(1),
        };
        if !self.has(CursorCountsIn64Bits) {
            for k in [2, 4, 8] {
                now[k] &= 0xffff_ffff;
            }
        }
        loop {
            let [
                stage,
                at,
                left,
                size,
                vlrs,
                offset,
                point_end,
                start,
                later,
                packets,
            ] = now;
            let (told, next) = match stage {
                0 => ([HEADER, 0, size], [1, size, vlrs]),
                1 | 4 if left > 0 => {
                    let (kind, head, until) = match stage {
                        1 if self.has(CursorVlrsUpToEndOfFile) => (VLR, 54, end),
                        1 => (VLR, 54, offset.min(end)),
                        _ if packets == 1 => (WAVEFORM, 60, end),
                        _ => (EVLR, 60, end),
                    };
                    let room = until.saturating_sub(at);
                    let length = match kind {
                        _ if room < head => u64::MAX,
                        VLR => u16_at(file, at + 20),
                        _ => u64_at(file, at + 20),
                    };
                    if length > room.saturating_sub(head) {
                        return 0;
                    }
                    let length = head + length;
                    ([kind, at, length], [stage, at + length, left - 1])
                }
                1 => ([GAP, at, offset.saturating_sub(at)], [2, offset, 0]),
                2 if self.has(CursorPointsInPlace) => (
                    [POINTS, at, point_end.saturating_sub(at)],
                    [3, point_end, 0],
                ),
                2 => (
                    [POINTS, offset, point_end.saturating_sub(offset)],
                    [3, point_end, 0],
                ),
                3 => ([GAP, at, start.saturating_sub(at)], [4, start, later]),
                _ if at < end => ([GAP, at, end - at], [4, end, 0]),
                _ => {
                    if self.has(PartClearedAtEnd) {
                        *part = [0; 3];
                    }
                    if self.has(CursorStartsAgain) {
                        cursor[..3].fill(0);
                    }
                    return 0;
                }
            };
            now[..3].copy_from_slice(&next);
            if self.has(CursorForgetsPackets) {
                now[9] = 0;
            }
            match told {
                [GAP, _, 0] if self.has(CursorStopsAtEmptyGap) => return 0,
                [GAP, _, 0] if !self.has(CursorTellsEmptyGaps) => continue,
                _ => {}
            }
            (*cursor, *part) = (now, told);
            return 1;
        }
    }

    fn walker(&self, file: &[u8], allowance: u64, place: &mut Place) {
        let (sight, answer) = self.judged(file, allowance);
        *place = match answer {
            Ok(()) => {
                let code = format::word(format_of(sight.format));
                let extra = sight.length - record_len(code) as u64;
                let word = u64::from(code) | extra << 16;
                [word, sight.offset, sight.points, sight.points, 0, 0, 0]
            }
            Err([number, value, record]) => [0, 0, 0, 0, number, value, record],
        };
    }

    fn next(&self, file: &[u8], place: &mut Place, row: &mut Row, numbers: &mut PointNumbers) {
        let [word, at, left, points, number, value, record] = *place;
        if number != 0 && !self.has(WalkerRefusalForgotten) {
            *row = [number, value, record];
            return;
        }
        let format = format::format(word as u32);
        let bare = Format {
            extra_bytes: 0,
            ..format
        };
        let short = record_len(format::word(bare)) as u64;
        let length = match short + u64::from(format.extra_bytes) {
            wraps if self.has(WalkerLengthIn16Bits) => wraps & 0xffff,
            length => length,
        };
        let end = match at.checked_add(length) {
            None if self.has(WalkerSumIn64Bits) => 0,
            None => u64::MAX,
            Some(end) => end,
        };
        let shown = end <= file.len() as u64 || self.has(WalkerReadsPastWhatItIsShown);
        if left == 0 || length > LONGEST as u64 || !shown {
            *row = [27, points, 0];
            if self.has(NumbersClearedAtEnd) {
                numbers.fill(0);
            }
            let given = points.wrapping_sub(left);
            if self.has(WalkerStartsAgain) {
                place[1] = at.wrapping_sub(given.wrapping_mul(length));
                place[2] = points;
            }
            if self.has(WalkerAnswersHowManyItGave) {
                *row = [27, given, 0];
            }
            return;
        }
        let step = match self.has(WalkerWithoutExtraBytes) {
            true => short,
            false => length,
        };
        let start = file.len().min(at as usize);
        let mut bytes = file[start..].to_vec();
        bytes.resize(bytes.len().max(short as usize), 0);
        let point = Point::read_from(&bytes[..], &bare).expect("a whole record");
        *numbers = point::numbers(&point);
        let missing = match point.nir {
            None => !format.has_nir || self.has(NirZeroMissing),
            Some(_) => false,
        };
        numbers[HAS_NIR] = u64::from(!missing || self.has(NirInEveryFormat));
        if format.has_nir && self.has(NirOfBluesPlace) {
            numbers[NIR] = numbers[NIR - 2];
        }
        *row = [0; 3];
        place[0] = format::word(format).into();
        place[1] = at.wrapping_add(step);
        place[2] -= 1;
    }

    fn record(&self, file: &[u8], place: &Place, part: &mut Span) {
        let [word, at, left, _, number, _, _] = *place;
        let format = format::format(word as u32);
        let length = record_len(format::word(format)) as u64;
        let shown = at
            .checked_add(length)
            .is_some_and(|end| end <= file.len() as u64);
        let there = (number == 0 || self.has(RecordThoughRefused))
            && (left > 0 || self.has(RecordAfterTheLast))
            && (shown || self.has(RecordThoughNotShown))
            && length <= LONGEST as u64;
        let length = match self.has(RecordWithoutExtraBytes) {
            true => length - u64::from(format.extra_bytes),
            false => length,
        };
        *part = if there { [at, length] } else { [0, 0] };
    }

    fn rewrite(&self, file: &[u8], allowance: u64, dst: &mut [u8], row: &mut Row) {
        let (sight, answer) = self.judged(file, allowance);
        if self.has(WritesBeforeItRefuses) && file.len() >= 4 && dst.len() >= 4 {
            dst[..4].copy_from_slice(&file[..4]);
        }
        if let Err(refusal) = answer {
            *row = refusal;
            return;
        }
        *row = [0, file.len() as u64, 0];
        if dst.len() < file.len() {
            row[0] = 22;
            return;
        }
        let copied = match sight.parts.last() {
            Some([GAP, start, _]) if self.has(TrailingBytesNotCopied) => *start as usize,
            _ => file.len(),
        };
        dst[..copied].copy_from_slice(&file[..copied]);
        let cleared = match sight.evlrs {
            true => self.has(WholeEvlrPairCleared),
            false => !self.has(HalfEvlrPairKept),
        };
        if file[25] == 4 && cleared {
            dst[235..247].fill(0);
        }
    }
}
