//! A stand-in for the port's calls that see near infrared, into which an error can be put. The comparison
//! is tested with it: each error must be seen.
//!
//! What it reads is the Rust's but for near infrared, which it finds from the record's end; what it writes
//! is the Rust's, and what it converts is document 01's.

use crate::{
    capi::{Place, PointNumbers, Row},
    convert_model, flags, format,
    nir::Library,
    point::{self, HAS_NIR, NIR},
    records::record_len,
    strict,
};
use las::raw::Point;

errors! {
    ZeroMissing,
    ZeroMissingInTheReader,
    ZeroMissingInTheWalker,
    ZeroOnlyInFormatsWithACode,
    ThereInEveryFormat,
    PlaceBefore,
    PlaceAfter,
    MissingWrittenAsOnes,
    ZeroLeftAsFound,
    StrictRefusesZero,
    StrictLetsAllThrough,
    CheckRefusesZero,
    CheckLetsAllThrough,
    UpgradedHasZero,
    UpgradeWritesOnes,
}

pub struct StandIn {
    pub error: Option<Error>,
}

impl StandIn {
    fn has(&self, error: Error) -> bool {
        self.error == Some(error)
    }

    /// The numbers of a record; `missing` says that a zero is missing whatever the error.
    fn numbers(&self, record: &[u8], word: u32, missing: bool) -> PointNumbers {
        let format = format::format(word);
        let point = Point::read_from(record, &format).expect("a whole record");
        let mut numbers = point::numbers(&point);
        (numbers[HAS_NIR], numbers[NIR]) = (u64::from(self.has(ThereInEveryFormat)), 0);
        if !format.has_nir {
            return numbers;
        }
        let after = usize::from(format.extra_bytes) + if format.has_waveform { 29 } else { 0 };
        let end = record_len(word) - after;
        let end = match () {
            () if self.has(PlaceBefore) => end - 2,
            () if self.has(PlaceAfter) => record_len(word).min(end + 2),
            () => end,
        };
        let nir = u16::from_le_bytes([record[end - 2], record[end - 1]]);
        let coded = format.to_u8().is_ok();
        let missing =
            missing || self.has(ZeroMissing) || self.has(ZeroOnlyInFormatsWithACode) && !coded;
        numbers[HAS_NIR] = u64::from(nir != 0 || !missing);
        numbers[NIR] = nir.into();
        numbers
    }
}

impl Library for StandIn {
    fn read(&self, record: &[u8], word: u32, row: &mut Row, numbers: &mut PointNumbers) {
        *numbers = self.numbers(record, word, self.has(ZeroMissingInTheReader));
        *row = [0; 3];
    }

    fn next(&self, file: &[u8], place: &mut Place, row: &mut Row, numbers: &mut PointNumbers) {
        let (word, at) = (place[0] as u32, place[1] as usize);
        *numbers = self.numbers(&file[at..], word, self.has(ZeroMissingInTheWalker));
        *row = [0; 3];
        place[0] = format::word(format::format(word)).into();
        place[1] += record_len(word) as u64;
        place[2] -= 1;
    }

    fn write(
        &self,
        numbers: &PointNumbers,
        extra: &[u8],
        word: u32,
        dst: &mut [u8],
        row: &mut Row,
    ) {
        let mut point = point::point(numbers, extra);
        if self.has(MissingWrittenAsOnes) {
            point.nir = point.nir.or(Some(0xffff));
        }
        if self.has(ZeroLeftAsFound) && point.nir == Some(0) {
            point.nir = Some(0xa5a5);
        }
        let mut made = Vec::new();
        *row = match point.write_to(&mut made, &format::format(word)) {
            Ok(()) => {
                dst[..made.len()].copy_from_slice(&made);
                [0, made.len() as u64, 0]
            }
            Err(error) => {
                let refusal = flags::refusal(point.flags, error);
                [refusal.number, refusal.value, 0]
            }
        };
    }

    /// Each point read and written.
    fn rewrite(&self, file: &[u8], dst: &mut [u8], row: &mut Row) {
        let length = usize::from(u16::from_le_bytes([file[105], file[106]]));
        let code = las::point::Format::new(file[104]).expect("a format from 0 to 10");
        let bare = format::word(code);
        let word = bare | ((length - record_len(bare)) as u32) << 16;
        dst.copy_from_slice(file);
        let points = file[375..].chunks_exact(length);
        for (record, dst) in points.zip(dst[375..].chunks_exact_mut(length)) {
            let numbers = self.numbers(record, word, false);
            let extra = &record[record_len(bare)..];
            self.write(&numbers, extra, word, dst, row);
        }
        *row = [0, file.len() as u64, 0];
    }

    fn check(&self, numbers: &PointNumbers, row: &mut Row) {
        let answer = strict::offence(&point::point(numbers, &[]));
        *row = match (answer.number, numbers[HAS_NIR], numbers[NIR]) {
            (20, _, _) if self.has(CheckLetsAllThrough) => [0; 3],
            (0, 1, 0) if self.has(CheckRefusesZero) => [20, 0, 0],
            (number, _, _) => [number, answer.value, 0],
        };
    }

    fn upgraded(&self, numbers: &mut PointNumbers) {
        *numbers = point::numbers(&strict::upgraded(point::point(numbers, &[])));
        if self.has(UpgradedHasZero) {
            numbers[HAS_NIR] = 1;
        }
    }

    fn to_old(&self, src: &[u8], run: (u8, u16, u64), dst: &mut [u8], row: &mut Row) {
        let (format, extra, count) = run;
        let mut src = src.to_vec();
        let length = src.len() / count as usize;
        if let Some(at) = convert_model::nir(format) {
            for record in src.chunks_exact_mut(length) {
                let nir = &mut record[at..at + 2];
                match nir == [0, 0] {
                    true if self.has(StrictRefusesZero) => nir.fill(0xff),
                    false if self.has(StrictLetsAllThrough) => nir.fill(0),
                    _ => {}
                }
            }
        }
        let answer = convert_model::to_old(&src, format, extra, count, dst);
        *row = [answer.number, answer.value, answer.record];
    }

    fn to_new(&self, src: &[u8], run: (u8, u16, u64), dst: &mut [u8], row: &mut Row) {
        let (format, extra, count) = run;
        let answer = convert_model::to_new(src, format, extra, count, dst);
        if format == 5 && self.has(UpgradeWritesOnes) {
            dst[36..38].fill(0xff);
        }
        *row = [answer.number, answer.value, answer.record];
    }
}
