//! A stand-in for the port's append, into which an error can be put. The comparison is tested with it:
//! each error must be seen.
//!
//! It is written apart from `append_model` and otherwise: in 64 bits, with the records cut into the pieces
//! that go into each sector. Its file check is the stand-in of `file_wrong` without an error.

use crate::{
    append::Library,
    append_model::Offer,
    capi::{BoundsNumbers, Row, Span, Sweep},
    file::Library as _,
    file_wrong,
};

errors! {
    CheckOnlyUpToThePoints,
    CheckRecordNumberLost,
    CheckAllowanceIgnored,
    Version10And11Taken,
    Version13Taken,
    VersionToldAs3,
    NoRecordsAdded,
    NoRecordsAlreadyIn,
    NoRecordsBeforeVersion,
    ShortBeforeNoRecords,
    ShortAfterCount,
    ProductIn64Bits,
    ProductIn32Bits,
    ShortValueWraps,
    ShortByOneTaken,
    LengthOfFormatForRecordLength,
    AlreadyInByCountAlone,
    AlreadyInByFirstRecord,
    AlreadyInByLastByteLeftOut,
    AlreadyInByFirstPoints,
    AlreadyInByAllThatIsLent,
    AlreadyInAfterRoom,
    AlreadyInAfterTooLarge,
    AlreadyInUnlessBoundsDiffer,
    AlreadyInCountedAgain,
    AddedWhateverTheCount,
    AddedTwiceWhereTheCountIsHigher,
    BelievedIn32Bits,
    BelievedAndRecordsIn64Bits,
    BelievedAndRecordsIn32Bits,
    CountHigherByAnyNumber,
    CountWraps,
    CountByReturnWraps,
    CountByReturnNotLooked,
    OneMoreThan32BitsTaken,
    AllOnesRefused,
    RoomBeforeTooLarge,
    RoomForTheRecordsAlone,
    RoomForOneByteLess,
    RoomValueOfTheRecordsAlone,
    RoomBeforeCount,
    Return0CountedAsFirst,
    Returns6And7CountedAsFifth,
    ReturnOfFourBits,
    ReturnsOfAllThatIsLent,
    FifthNotCounted,
    BytesPastTheNthAdded,
    RestOfRoomCleared,
    RecordsNotWritten,
    MaxXWhereMinXStands,
    YAndZExchanged,
    NanBitsChanged,
    BoundsWidenedOnly,
    HeaderInFirstStore,
    HeaderWithEveryStore,
    LastPointSectorLeftOut,
    SectorZeroStoredOnce,
    SectorsDescending,
    StoresAllRecordsAtOnce,
    SectorOfRecordsAlone,
    LastSectorOfWholeLength,
    LastStoreRepeated,
    DoneLeavesSector,
    RefusalClearsSector,
    AlreadyInClearsSweep,
    StoresWithoutSectorZero,
    EmptySweepTouchesNothing,
    StoreRoomBeforeRecords,
    StoreEndIn64Bits,
    StoreCountsHeld,
    ShortFileKeepsItsCounts,
    StoreWritesBeforeItRefuses,
}

pub struct StandIn {
    pub error: Option<Error>,
}

fn u16_at(file: &[u8], at: usize) -> u64 {
    u16::from_le_bytes([file[at], file[at + 1]]).into()
}

fn u32_at(file: &[u8], at: usize) -> u64 {
    u16_at(file, at) | u16_at(file, at + 2) << 16
}

/// Puts what there is room for at a place.
fn put(file: &mut [u8], at: usize, bytes: &[u8]) {
    let size = file.len();
    if at < size {
        let count = bytes.len().min(size - at);
        file[at..at + count].copy_from_slice(&bytes[..count]);
    }
}

const MOST: u64 = 0xffff_ffff;

/// The bytes of a record of formats 0 to 3.
const LEAST: [u64; 4] = [20, 28, 26, 34];

impl StandIn {
    fn has(&self, error: Error) -> bool {
        self.error == Some(error)
    }

    /// The sweep that is to be added, or none where the records are already in, or a refusal.
    fn judge(
        &self,
        file: &[u8],
        offer: Offer,
        bounds: &BoundsNumbers,
    ) -> Result<Option<Sweep>, Row> {
        let Offer {
            allowance,
            records,
            n,
            believed,
        } = offer;
        let mut check = [0; 4];
        let seen = match self.has(CheckOnlyUpToThePoints) && file.len() >= 111 {
            true => {
                let end = u32_at(file, 96) + u32_at(file, 107) * u16_at(file, 105);
                &file[..file.len().min(end as usize)]
            }
            false => file,
        };
        let allowance = match self.has(CheckAllowanceIgnored) {
            true => u64::MAX,
            false => allowance,
        };
        file_wrong::StandIn { error: None }.check(seen, allowance, &mut check);
        let [number, value, record, _] = check;
        match number {
            0 => {}
            _ if self.has(CheckRecordNumberLost) => return Err([number, value, 0]),
            _ => return Err([number, value, record]),
        }
        let none = || match n {
            0 if self.has(NoRecordsAdded) => Ok(()),
            0 => Err([29, 0, 0]),
            _ => Ok(()),
        };
        if self.has(NoRecordsBeforeVersion) {
            none()?;
        }
        match file[25] {
            2 => {}
            0 | 1 if self.has(Version10And11Taken) => {}
            3 if self.has(Version13Taken) => {}
            minor if self.has(VersionToldAs3) => return Err([3, 256 + u64::from(minor), 0]),
            _ => return Err([28, 0, 0]),
        }
        if n == 0 && self.has(NoRecordsAlreadyIn) {
            return Ok(None);
        }
        let length = match self.has(LengthOfFormatForRecordLength) {
            true => LEAST[usize::from(file[104] & 3)],
            false => u16_at(file, 105),
        };
        let product = match n.checked_mul(length) {
            _ if self.has(ProductIn32Bits) => Some(n.wrapping_mul(length) & MOST),
            None if self.has(ProductIn64Bits) => Some(n.wrapping_mul(length)),
            product => product,
        };
        let lent = records.len() as u64 + u64::from(self.has(ShortByOneTaken));
        let short = || match product {
            None if self.has(ShortValueWraps) => Err([1, n.wrapping_mul(length), 0]),
            None => Err([1, 0, 0]),
            Some(bytes) if bytes > lent => Err([1, bytes, 0]),
            Some(bytes) => Ok(bytes),
        };
        if self.has(ShortBeforeNoRecords) && n == 0 && records.is_empty() {
            return Err([1, 0, 0]);
        }
        none()?;
        let count = u32_at(file, 107);
        let believed = match self.has(BelievedIn32Bits) {
            true => believed & MOST,
            false => believed,
        };
        let end = u32_at(file, 96) + count * u16_at(file, 105);
        let higher = match believed.checked_add(n) {
            _ if self.has(CountHigherByAnyNumber) => count > believed,
            _ if self.has(BelievedAndRecordsIn32Bits) => believed.wrapping_add(n) & MOST == count,
            None if self.has(BelievedAndRecordsIn64Bits) => believed.wrapping_add(n) == count,
            sum => sum == Some(count),
        };
        if self.has(ShortAfterCount) && count != believed && !higher {
            return Err([30, 0, 0]);
        }
        let bytes = short()?;
        let (from, to) = (end - bytes.min(end), end);
        let records = match self.has(AlreadyInByAllThatIsLent) {
            true => records,
            false => &records[..records.len().min(bytes as usize)],
        };
        let last = &file[from as usize..to as usize];
        let same = match length as usize {
            _ if self.has(AlreadyInByCountAlone) => true,
            each if self.has(AlreadyInByFirstRecord) => {
                last.get(..each) == records.get(..each) && last.len() == records.len()
            }
            _ if self.has(AlreadyInByLastByteLeftOut) => {
                let but = |bytes: &[u8]| bytes[..bytes.len() - 1].to_vec();
                last.len() == records.len() && but(last) == but(records)
            }
            _ if self.has(AlreadyInByFirstPoints) => {
                file[u32_at(file, 96) as usize..].starts_with(records)
            }
            _ => last == records,
        };
        let bounded = file[179..227]
            .chunks(8)
            .zip(bounds)
            .all(|(old, new)| *old == new.to_le_bytes());
        let differ = self.has(AlreadyInUnlessBoundsDiffer) && !bounded;
        let is_in = count != believed && higher && same && !differ;
        let late = self.has(AlreadyInAfterRoom) || self.has(AlreadyInAfterTooLarge);
        if is_in && !late {
            return Ok(None);
        }

        let wanted = match self.has(RoomForTheRecordsAlone) {
            true => bytes,
            false => end + bytes - u64::from(self.has(RoomForOneByteLess)),
        };
        let told = match self.has(RoomValueOfTheRecordsAlone) {
            true => bytes,
            false => end + bytes,
        };
        let room = || match (file.len() as u64) < wanted {
            true => Err([22, told, 0]),
            false => Ok(()),
        };
        if self.has(RoomBeforeCount) {
            room()?;
        }
        let goes_on = count == believed
            || is_in
            || self.has(AddedWhateverTheCount)
            || self.has(AddedTwiceWhereTheCountIsHigher) && higher;
        if !goes_on {
            return Err([30, 0, 0]);
        }
        if self.has(RoomBeforeTooLarge) || self.has(AlreadyInAfterRoom) && is_in {
            room()?;
        }
        let mut counts = [count + n, 0, 0, 0, 0, 0];
        for (k, count) in counts.iter_mut().enumerate().skip(1) {
            *count = u32_at(file, 107 + 4 * k);
        }
        let counted = match self.has(ReturnsOfAllThatIsLent) {
            true => offer.records,
            false => records,
        };
        for record in counted.chunks_exact(length as usize) {
            let mask = if self.has(ReturnOfFourBits) { 15 } else { 7 };
            match record[14] & mask {
                0 if self.has(Return0CountedAsFirst) => counts[1] += 1,
                6 | 7 if self.has(Returns6And7CountedAsFifth) => counts[5] += 1,
                5 if self.has(FifthNotCounted) => {}
                k @ 1..=5 => counts[usize::from(k)] += 1,
                _ => {}
            }
        }
        let most = match () {
            () if self.has(OneMoreThan32BitsTaken) => MOST + 1,
            () if self.has(AllOnesRefused) => MOST - 1,
            () => MOST,
        };
        let over = counts.iter().enumerate().any(|(k, &count)| match k {
            0 if self.has(CountWraps) => false,
            1.. if self.has(CountByReturnWraps) => false,
            5 if self.has(CountByReturnNotLooked) => false,
            _ => count > most,
        });
        if over {
            return Err([31, 0, 0]);
        }
        if is_in {
            return Ok(None);
        }
        room()?;
        let mut sweep = [end, bytes, 0, 0, 0, 0, 0, 0];
        for (number, count) in sweep[2..].iter_mut().zip(counts) {
            *number = count & MOST;
        }
        Ok(Some(sweep))
    }

    /// The pieces of the records, each with the sector that it goes into: its first byte.
    fn pieces<'a>(&self, sweep: &Sweep, records: &'a [u8]) -> Vec<(u64, u64, &'a [u8])> {
        let (mut at, mut rest) = (sweep[0], &records[..sweep[1] as usize]);
        let mut pieces = Vec::new();
        if rest.is_empty() && at % 512 != 0 && !self.has(EmptySweepTouchesNothing) {
            pieces.push((at - at % 512, at, rest));
        }
        while !rest.is_empty() {
            let (piece, after) = rest.split_at(rest.len().min((512 - at % 512) as usize));
            pieces.push((at - at % 512, at, piece));
            (at, rest) = (at + piece.len() as u64, after);
        }
        if self.has(SectorsDescending) {
            pieces.reverse();
        }
        if self.has(SectorZeroStoredOnce) {
            pieces.retain(|piece| piece.0 != 0);
        }
        if self.has(LastPointSectorLeftOut) {
            pieces.pop();
        }
        pieces
    }

    fn header(&self, file: &mut [u8], sweep: &Sweep, bounds: &BoundsNumbers) {
        if self.has(ShortFileKeepsItsCounts) && file.len() < 227 {
            return;
        }
        for (k, count) in sweep[2..].iter().enumerate() {
            let count = match self.has(StoreCountsHeld) {
                true => (*count).min(MOST),
                false => *count & MOST,
            };
            put(file, 107 + 4 * k, &(count as u32).to_le_bytes());
        }
        let mut bounds = *bounds;
        if self.has(MaxXWhereMinXStands) {
            bounds.swap(0, 1);
        }
        if self.has(YAndZExchanged) {
            bounds.swap(2, 4);
        }
        for (k, bits) in bounds.into_iter().enumerate() {
            let new = f64::from_bits(bits);
            let bits = match new.is_nan() && self.has(NanBitsChanged) {
                true => bits | 1 << 51,
                false => bits,
            };
            let at = 179 + 8 * k;
            if self.has(BoundsWidenedOnly) && file.len() >= at + 8 {
                let old: [u8; 8] = file[at..at + 8].try_into().expect("eight");
                let old = f64::from_le_bytes(old);
                let narrower = if k % 2 == 0 { new < old } else { new > old };
                if narrower {
                    continue;
                }
            }
            put(file, at, &bits.to_le_bytes());
        }
    }
}

impl Library for StandIn {
    fn append(&self, file: &mut [u8], offer: Offer, bounds: &BoundsNumbers, row: &mut Row) {
        match self.judge(file, offer, bounds) {
            Err(refusal) => *row = refusal,
            Ok(None) => {
                *row = [0, 1, 0];
                if self.has(AlreadyInCountedAgain) {
                    let count = u32_at(file, 107) + offer.n;
                    put(file, 107, &(count as u32).to_le_bytes());
                }
            }
            Ok(Some(sweep)) => {
                let end = (sweep[0] + sweep[1]) as usize;
                let last = self.stores(&sweep);
                let mut sector = [0; 2];
                for k in 0..last {
                    self.store(file, (&sweep, offer.records, bounds), k, &mut sector, row);
                }
                if self.has(BytesPastTheNthAdded) {
                    put(file, sweep[0] as usize, offer.records);
                }
                if self.has(RestOfRoomCleared) && end < file.len() {
                    file[end..].fill(0);
                }
                *row = [0; 3];
            }
        }
    }

    fn begin(&self, file: &[u8], offer: Offer, sweep: &mut Sweep, row: &mut Row) {
        // The bounds are not offered here.
        match self.judge(file, offer, &[0; 6]) {
            Err(refusal) => *row = refusal,
            Ok(None) => {
                *row = [0, 1, 0];
                if self.has(AlreadyInClearsSweep) {
                    *sweep = [0; 8];
                }
            }
            Ok(Some(judged)) => (*sweep, *row) = (judged, [0; 3]),
        }
    }

    fn stores(&self, sweep: &Sweep) -> u64 {
        // The sectors that are begun from the start of the first one on.
        let inside = sweep[0] % 512;
        let last = match inside + sweep[1] % 512 {
            0 => 0,
            1..=512 => 1,
            _ => 2,
        };
        let empty = sweep[1] == 0 && self.has(EmptySweepTouchesNothing);
        let points = if empty { 0 } else { sweep[1] / 512 + last };
        points + u64::from(!self.has(StoresWithoutSectorZero))
    }

    fn store(
        &self,
        file: &mut [u8],
        (sweep, records, bounds): (&Sweep, &[u8], &BoundsNumbers),
        k: u64,
        sector: &mut Span,
        row: &mut Row,
    ) {
        let size = file.len() as u64;
        let end = match sweep[0].checked_add(sweep[1]) {
            None if self.has(StoreEndIn64Bits) => Some(sweep[0].wrapping_add(sweep[1])),
            end => end,
        };
        let refusals = [
            ((records.len() as u64) < sweep[1]).then_some([1, sweep[1], 0]),
            match end {
                None => Some([22, 0, 0]),
                Some(end) => (end > size || sweep[0] > size).then_some([22, end, 0]),
            },
        ];
        let first = usize::from(self.has(StoreRoomBeforeRecords));
        if let Some(refusal) = refusals[first].or(refusals[1 - first]) {
            *row = refusal;
            if self.has(RefusalClearsSector) {
                *sector = [0, 0];
            }
            if self.has(StoreWritesBeforeItRefuses) {
                self.header(file, sweep, bounds);
            }
            return;
        }
        let pieces = self.pieces(sweep, records);
        let whole = |start: u64| match self.has(LastSectorOfWholeLength) {
            true => [start, 512],
            false => [start, (size - start).min(512)],
        };
        let header = self.has(HeaderWithEveryStore) || self.has(HeaderInFirstStore) && k == 0;
        let last = pieces.len() as u64;
        if k < last {
            let (start, at, piece) = pieces[k as usize];
            match self.has(StoresAllRecordsAtOnce) {
                true => put(file, sweep[0] as usize, &records[..sweep[1] as usize]),
                false if self.has(RecordsNotWritten) => {}
                false => put(file, at as usize, piece),
            }
            if header {
                self.header(file, sweep, bounds);
            }
            *sector = match self.has(SectorOfRecordsAlone) {
                true => [at, piece.len() as u64],
                false => whole(start),
            };
        } else if k == last || self.has(LastStoreRepeated) {
            self.header(file, sweep, bounds);
            *sector = whole(0);
        } else {
            if !self.has(DoneLeavesSector) {
                *sector = [0, 0];
            }
            *row = [0; 3];
            return;
        }
        *row = [0, sector[1], 0];
    }
}
