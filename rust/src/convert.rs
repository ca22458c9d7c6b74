//! Runs of point records, converted strictly to their old formats, or upgraded; and whether they can be.

use crate::{refusal::Refusal, sys};

/// Point records one after the other, all of one format.
///
/// The pairs of formats are, down: 6 to 1, 7 to 3, 8 to 3, 9 to 4, 10 to 5; and up: 1 to 6, 3 to 7, 4 to 9, 5 to 10. Extra
/// bytes are kept.
#[derive(Clone, Copy, Debug, PartialEq, Eq, Hash)]
pub struct Run<'a> {
    /// The format's code, as in a header.
    pub format: u8,
    /// The extra bytes of a record.
    pub extra_bytes: u16,
    /// How many records there are.
    pub count: u64,
    /// Their bytes; what lies past the last record is not looked at.
    pub records: &'a [u8],
}

impl Run<'_> {
    /// Whether the run can be converted strictly to the old format of its pair, and how many bytes it has then. Nothing is
    /// written, and no memory is needed: what a file can become is known before there is room for it.
    ///
    /// It can where an old reader would find in every record the same value in every field, the scan angle to the nearest
    /// whole degree, which is from -90 to 90 as the standard has it. Else the first record and its first field that does not
    /// fit are named (15 to 21). Before any record is looked at, it is refused with 26 where the format has no pair, with 8
    /// where a record would be overlong, and with 1 where the records are not all there. It is never refused with 22.
    ///
    /// ```
    /// use inscjarol::{Flags, Format, Point, Run, ScanAngle};
    ///
    /// // Three points of ground (class 2), the third of them flagged as overlap.
    /// let mut records = Vec::new();
    /// for flags in [0, 0, 0x08] {
    ///     let point = Point {
    ///         flags: Flags::ThreeByte(0x11, flags, 2),
    ///         scan_angle: ScanAngle::Scaled(250),
    ///         ..Point::default()
    ///     };
    ///     records.extend(point.to_vec(Format::new(6)?)?);
    /// }
    /// let all = Run { format: 6, extra_bytes: 0, count: 3, records: &records };
    /// let refusal = all.ask_old().unwrap_err();
    /// assert_eq!((refusal.number(), refusal.value(), refusal.record()), (19, 2, 3));
    ///
    /// // Without it they can go, and need as many bytes as was answered.
    /// let two = Run { count: 2, ..all };
    /// assert_eq!((two.old_format(), two.ask_old()?), (Some(1), 2 * 28));
    /// assert_eq!(two.to_old()?.len(), 2 * 28);
    /// # Ok::<(), inscjarol::Refusal>(())
    /// ```
    pub fn ask_old(&self) -> Result<usize, Refusal> {
        sys::convert_ask_old(self.records, self.kind())
    }

    /// Whether the run can be upgraded to the new format of its pair, and how many bytes it has then. No record is refused;
    /// else it is as [`Run::ask_old`].
    pub fn ask_new(&self) -> Result<usize, Refusal> {
        sys::convert_ask_new(self.records, self.kind())
    }

    /// The code of the old format of the pair; none where the format has none, which [`Run::ask_old`] refuses with 26.
    pub fn old_format(&self) -> Option<u8> {
        match self.format {
            6 => Some(1),
            7 | 8 => Some(3),
            9 => Some(4),
            10 => Some(5),
            _ => None,
        }
    }

    /// The code of the new format of the pair; none where the format has none, which [`Run::ask_new`] refuses with 26.
    pub fn new_format(&self) -> Option<u8> {
        match self.format {
            1 => Some(6),
            3 => Some(7),
            4 => Some(9),
            5 => Some(10),
            _ => None,
        }
    }

    /// Converts the run strictly to the old format of its pair, at the front of `dst`, and answers how many bytes that is.
    ///
    /// It asks [`Run::ask_old`] itself, and refuses what that refuses, whatever room there is. Then, and only then, it is
    /// refused with 22 where `dst` is shorter than the bytes that were answered. A refused `dst` is left as it was.
    pub fn to_old_into(&self, dst: &mut [u8]) -> Result<usize, Refusal> {
        sys::convert_to_old(self.records, self.kind(), dst)
    }

    /// Upgrades the run to the new format of its pair, at the front of `dst`, and answers how many bytes that is. It refuses
    /// what [`Run::ask_new`] refuses; else it is as [`Run::to_old_into`].
    pub fn to_new_into(&self, dst: &mut [u8]) -> Result<usize, Refusal> {
        sys::convert_to_new(self.records, self.kind(), dst)
    }

    /// The run in the old format of its pair, as [`Run::to_old_into`] converts it, in as many bytes as [`Run::ask_old`]
    /// answers; where that refuses, nothing is allocated.
    ///
    /// ```
    /// use inscjarol::{Flags, Format, Point, Run, ScanAngle};
    ///
    /// let point = Point {
    ///     flags: Flags::ThreeByte(0x11, 0, 2),
    ///     scan_angle: ScanAngle::Scaled(250),
    ///     ..Point::default()
    /// };
    /// let records = point.to_vec(Format::new(6)?)?;
    /// let run = Run { format: 6, extra_bytes: 0, count: 1, records: &records };
    ///
    /// let old = run.to_old()?;
    /// let shown = Point::read(&old, Format::new(1)?)?;
    /// assert_eq!(shown.flags.class(), 2);
    /// assert_eq!(shown.scan_angle, ScanAngle::Rank(2));
    /// # Ok::<(), inscjarol::Refusal>(())
    /// ```
    pub fn to_old(&self) -> Result<Vec<u8>, Refusal> {
        let mut old = vec![0; self.ask_old()?];
        self.to_old_into(&mut old)?;
        Ok(old)
    }

    /// The run in the new format of its pair, as [`Run::to_new_into`] converts it, in as many bytes as [`Run::ask_new`]
    /// answers.
    pub fn to_new(&self) -> Result<Vec<u8>, Refusal> {
        let mut new = vec![0; self.ask_new()?];
        self.to_new_into(&mut new)?;
        Ok(new)
    }

    /// Format, extra bytes and count, as the library takes them.
    fn kind(&self) -> (u8, u16, u64) {
        (self.format, self.extra_bytes, self.count)
    }
}

#[cfg(test)]
mod tests {
    use crate::{
        Flags::{self, ThreeByte, TwoByte},
        Format, Point, Refusal, Run, ScanAngle,
    };

    /// One record of a format.
    fn record(format: u8, flags: Flags, scan_angle: ScanAngle, nir: Option<u16>) -> Vec<u8> {
        let point = Point {
            flags,
            scan_angle,
            nir,
            extra_bytes: b"z",
            ..Point::default()
        };
        point
            .to_vec(Format::new(format).unwrap().with_extra_bytes(1))
            .unwrap()
    }

    fn run(format: u8, records: &[u8], count: u64) -> Run<'_> {
        Run {
            format,
            extra_bytes: 1,
            count,
            records,
        }
    }

    /// The old flags of three bytes of flags at angle 0, or number and value of the refusal.
    fn strict(flags: Flags) -> Result<[u8; 2], (u64, u64)> {
        let records = record(6, flags, ScanAngle::Scaled(0), None);
        match run(6, &records, 1).to_old() {
            Ok(old) => Ok([old[14], old[15]]),
            Err(refusal) => {
                assert_eq!(refusal.record(), 1);
                Err((refusal.number(), refusal.value()))
            }
        }
    }

    #[test]
    fn flags_on_each_side() {
        assert_eq!(strict(ThreeByte(0x11, 0, 2)), Ok([0x09, 0x02]));
        assert_eq!(strict(ThreeByte(0x21, 0x48, 2)), Err((19, 2)));
        assert_eq!(strict(ThreeByte(0x11, 0x08, 12)), Ok([0x09, 0x0c]));
        assert_eq!(strict(ThreeByte(0x11, 0, 12)), Err((19, 12)));
        assert_eq!(strict(ThreeByte(0x11, 0, 28)), Err((19, 28)));
        assert_eq!(strict(ThreeByte(0x88, 0x10, 40)), Err((15, 8)));
        assert_eq!(strict(ThreeByte(0x81, 0, 2)), Err((16, 8)));
        assert_eq!(strict(ThreeByte(0x11, 0, 32)), Err((17, 32)));
        assert_eq!(strict(ThreeByte(0x11, 0x10, 2)), Err((18, 1)));
    }

    #[test]
    fn angles_on_each_side() {
        let converted = |scaled: i16| {
            let records = record(6, ThreeByte(0x11, 0, 2), ScanAngle::Scaled(scaled), None);
            let old = run(6, &records, 1).to_old();
            old.map(|old| old[16] as i8)
                .map_err(|refusal| (refusal.number(), refusal.value()))
        };
        assert_eq!(converted(249), Ok(1));
        assert_eq!(converted(250), Ok(2));
        assert_eq!(converted(-250), Ok(-2));
        assert_eq!(converted(15_083), Ok(90));
        assert_eq!(converted(15_084), Err((21, 15_084)));
        assert_eq!(converted(-15_083), Ok(-90));
        assert_eq!(converted(-15_084), Err((21, 50_452)));
        assert_eq!(converted(21_249), Err((21, 21_249)));
        assert_eq!(converted(-21_416), Err((21, 44_120)));
    }

    #[test]
    fn up_and_down_again() {
        let mut records = record(1, TwoByte(0x51, 0x22), ScanAngle::Rank(-90), None);
        records.extend(record(1, TwoByte(0xc9, 0x0c), ScanAngle::Rank(90), None));
        let new = run(1, &records, 2).to_new().unwrap();
        assert_eq!(new.len(), 2 * 31);
        assert_eq!(new[14..17], [0x21, 0x41, 0x02]);
        assert_eq!(run(6, &new, 2).to_old(), Ok(records));
    }

    #[test]
    fn near_infrared_0_goes_and_is_there_again() {
        let [missing, zero] =
            [None, Some(0)].map(|nir| record(10, ThreeByte(0x11, 0, 2), ScanAngle::Scaled(0), nir));
        assert_eq!(missing, zero);
        let old = run(10, &zero, 1).to_old().unwrap();
        let [five, ten] = [5, 10].map(|code| Format::new(code).unwrap().with_extra_bytes(1));
        assert_eq!(Point::read(&old, five).unwrap().nir, None);
        let new = run(5, &old, 1).to_new().unwrap();
        assert_eq!(new, zero);
        assert_eq!(Point::read(&new, ten).unwrap().nir, Some(0));
    }

    #[test]
    fn what_does_not_come_down_again() {
        let again = |class, rank| {
            let records = record(1, TwoByte(0x09, class), ScanAngle::Rank(rank), None);
            let new = run(1, &records, 1).to_new().unwrap();
            let refusal = run(6, &new, 1).to_old().unwrap_err();
            (refusal.number(), refusal.value(), refusal.record())
        };
        assert_eq!(again(2, 91), (21, 15_166, 1));
        assert_eq!(again(2, -91), (21, 50_370, 1));
        assert_eq!(again(2, 104), (21, 17_333, 1));
        assert_eq!(again(28, 0), (19, 28, 1));
    }

    #[test]
    fn the_first_record_that_does_not_fit_is_named() {
        let mut records = record(8, ThreeByte(0x11, 0, 2), ScanAngle::Scaled(0), Some(0));
        records.extend(record(
            8,
            ThreeByte(0x11, 0, 2),
            ScanAngle::Scaled(0),
            Some(7),
        ));
        let refusal = run(8, &records, 2).to_old().unwrap_err();
        assert_eq!(
            (refusal.number(), refusal.value(), refusal.record()),
            (20, 7, 2)
        );
        let mut dst = [0xa5; 100];
        assert!(run(8, &records, 2).to_old_into(&mut dst).is_err());
        assert_eq!(dst, [0xa5; 100]);
    }

    #[test]
    fn refusals_before_any_record() {
        let told = |run: Run<'_>| {
            run.to_old()
                .map_err(|refusal| (refusal.number(), refusal.value()))
        };
        assert_eq!(told(run(0, b"", 1)), Err((26, 0)));
        assert_eq!(told(run(6, b"", 2)), Err((1, 62)));
        assert_eq!(told(run(6, b"", u64::MAX)), Err((1, 0)));
        assert_eq!(told(run(6, b"", 0)), Ok(vec![]));
        let overlong = Run {
            extra_bytes: 65_535,
            ..run(6, b"", 1)
        };
        assert_eq!(told(overlong), Err((8, 65_565)));
    }

    /// What the question answers, after a look whether the call that writes answers the same into room of every size up to
    /// `most`, but 22 and the bytes asked for exactly where there are fewer; and what it leaves.
    fn asked(run: Run<'_>, old: bool, most: usize) -> Result<usize, (u64, u64, u64)> {
        let told = |answer: Result<usize, Refusal>| {
            answer.map_err(|refusal| (refusal.number(), refusal.value(), refusal.record()))
        };
        let asked = told(if old { run.ask_old() } else { run.ask_new() });
        for room in 0..=most {
            let mut dst = vec![0xa5; most];
            let into = &mut dst[..room];
            let written = told(match old {
                true => run.to_old_into(into),
                false => run.to_new_into(into),
            });
            let short = asked.ok().filter(|bytes| *bytes > room);
            assert_eq!(
                written,
                short.map_or(asked, |bytes| Err((22, bytes as u64, 0)))
            );
            let left = written.unwrap_or(0);
            assert!(dst[left..].iter().all(|byte| *byte == 0xa5));
        }
        let whole = if old { run.to_old() } else { run.to_new() };
        assert_eq!(told(whole.map(|bytes| bytes.len())), asked);
        asked
    }

    #[test]
    fn what_was_asked_is_what_is_written() {
        let fits = record(6, ThreeByte(0x11, 0, 2), ScanAngle::Scaled(0), None);
        let offends = record(6, ThreeByte(0x11, 0x08, 2), ScanAngle::Scaled(0), None);
        let records = [&fits[..], &fits, &offends, &offends].concat();
        assert_eq!(asked(run(6, &records, 0), true, 70), Ok(0));
        assert_eq!(asked(run(6, &records, 2), true, 70), Ok(2 * 29));
        assert_eq!(asked(run(6, &records, 3), true, 100), Err((19, 2, 3)));
        assert_eq!(asked(run(6, &records, 4), true, 200), Err((19, 2, 3)));
        assert_eq!(asked(run(6, &records, 5), true, 200), Err((1, 155, 0)));
        assert_eq!(asked(run(6, &records, 2), false, 70), Err((26, 6, 0)));

        let old = run(6, &records, 2).to_old().unwrap();
        assert_eq!(asked(run(1, &old, 2), false, 70), Ok(2 * 31));
        assert_eq!(asked(run(1, &old, 3), false, 100), Err((1, 87, 0)));
        // No record of an old format is refused, whatever it holds.
        assert_eq!(asked(run(5, &[0xff; 128], 2), false, 150), Ok(2 * 68));
        // The old record fits 65,535 bytes, and the new one would not.
        let extra_bytes = 65_535 - 28;
        let longest = Run {
            extra_bytes,
            ..run(1, &[], 0)
        };
        assert_eq!(asked(longest, false, 1), Err((8, 65_537, 0)));
    }

    #[test]
    fn pairs_are_those_of_the_library() {
        for code in 0..=255 {
            let one = run(code, &[0; 70], 1);
            // The lengths of formats that have a pair are all different.
            let of = |pair: Option<u8>| {
                let format = Format::new(pair?).ok()?.with_extra_bytes(1);
                format.len().ok().map(usize::from)
            };
            let none = (26, u64::from(code), 0);
            assert_eq!(asked(one, true, 70), of(one.old_format()).ok_or(none));
            assert_eq!(asked(one, false, 70), of(one.new_format()).ok_or(none));
        }
    }
}
