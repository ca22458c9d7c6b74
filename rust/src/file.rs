//! Whole files.

use crate::{
    convert::Run,
    format::Format,
    header::Header,
    point::Point,
    refusal::Refusal,
    sys::{self, Cursor, Place},
    vlr::Vlr,
};
use std::{fmt, iter::FusedIterator};

/// An allowance of records, as VLRs and EVLRs are, that no file of this many bytes can spend: each takes 54 bytes or more.
pub fn allowance_for(bytes: usize) -> u64 {
    bytes as u64 / 54
}

/// What the file check found.
#[derive(Clone, Copy, Debug, PartialEq, Eq, Hash)]
pub struct Checked {
    /// Why the file is no LAS file, if it is none.
    pub answer: Result<(), Refusal>,
    /// How many records, VLRs, EVLRs and waveform packets, were found whole, up to the refusal if there is one.
    pub records: u64,
}

/// Bytes that were found to be a LAS file.
#[derive(Clone, Copy, Debug)]
pub struct File<'a> {
    bytes: &'a [u8],
    pub(crate) allowance: u64,
    header: Header,
    format: Format,
    /// Before the first point.
    place: Place,
}

impl<'a> File<'a> {
    /// The file that these bytes are, or the first of the rules that they break.
    ///
    /// This looks at the header and at the head of each record, not at the points: it takes as long for a large file as for
    /// a small one.
    ///
    /// ```
    /// # let header = inscjarol::Header::new(inscjarol::Version { major: 1, minor: 2 })?;
    /// # let mut bytes = header.to_vec(&[])?;
    /// let file = inscjarol::File::check(&bytes)?;
    /// assert_eq!(file.points().len(), 0);
    ///
    /// // The header counts a point, and the file ends before it.
    /// bytes[107] = 1;
    /// let refusal = inscjarol::File::check(&bytes).unwrap_err();
    /// assert_eq!((refusal.number(), refusal.value()), (12, 1));
    /// # Ok::<(), inscjarol::Refusal>(())
    /// ```
    pub fn check(bytes: &'a [u8]) -> Result<File<'a>, Refusal> {
        File::check_within(bytes, allowance_for(bytes.len()))
    }

    /// The same with an allowance of records: one more than that is refused with 10, so that the time is bounded.
    pub fn check_within(bytes: &'a [u8], allowance: u64) -> Result<File<'a>, Refusal> {
        // The one check, whose refusal the place holds; so the points need no other.
        let place = sys::file_walker(bytes, allowance)?;
        Ok(File {
            bytes,
            allowance,
            header: Header::read(bytes)?,
            format: sys::header_point_format(bytes).map(Format::from_word)?,
            place,
        })
    }

    /// What the file check finds, with the number of records found whole beside a refusal.
    pub fn judge(bytes: &[u8], allowance: u64) -> Checked {
        let (answer, records) = sys::file_check(bytes, allowance);
        Checked { answer, records }
    }

    /// The file's bytes.
    pub fn bytes(&self) -> &'a [u8] {
        self.bytes
    }

    /// The header.
    pub fn header(&self) -> &Header {
        &self.header
    }

    /// The header's padding.
    pub fn padding(&self) -> &'a [u8] {
        sys::header_padding(self.bytes)
    }

    /// The format of the points, with their extra bytes: what the header's record length has beyond the format's own.
    pub fn format(&self) -> Format {
        self.format
    }

    /// How many records there are: VLRs, EVLRs and waveform packets together.
    pub fn records(&self) -> u64 {
        let parts = self.parts();
        let kinds = [PartKind::Vlr, PartKind::Evlr, PartKind::Waveform];
        kinds.iter().map(|kind| parts.records_of(*kind)).sum()
    }

    /// How many points there are: the legacy count if it isn't 0, else the large count.
    pub fn point_count(&self) -> u64 {
        sys::header_points(self.bytes).unwrap_or(0)
    }

    /// The parts of the file in their order: header, VLRs, points, EVLRs or waveform packets, and the gaps between and after
    /// them. They cover the file, byte after byte.
    pub fn parts(&self) -> Parts<'a> {
        Parts {
            file: self.bytes,
            cursor: sys::cursor_start(self.bytes, self.allowance).ok(),
        }
    }

    /// The bytes of a part.
    pub fn part(&self, part: Part) -> &'a [u8] {
        sys::part_of(self.bytes, part.start, part.len)
    }

    /// The VLRs, which stand between the header and the points.
    ///
    /// ```
    /// # let bytes = std::fs::read("../samples/stockpile.las")?;
    /// let file = inscjarol::File::check(&bytes)?;
    /// let users: Vec<_> = file.vlrs().map(|vlr| vlr.user().into_owned()).collect();
    /// assert_eq!(users, ["LASF_Projection", "LASF_Spec"]);
    /// # Ok::<(), Box<dyn std::error::Error>>(())
    /// ```
    pub fn vlrs(&self) -> Vlrs<'a> {
        self.records_of(PartKind::Vlr)
    }

    /// The data of the first VLR with this user id, of which all 16 bytes are compared, zeros filling this one, and this record id.
    ///
    /// ```
    /// # let bytes = std::fs::read("../samples/stockpile.las")?;
    /// let file = inscjarol::File::check(&bytes)?;
    /// assert_eq!(file.vlr_data("LASF_Spec", 4).map(<[u8]>::len), Some(192));
    /// assert_eq!(file.vlr_data("LASF_Spec", 5), None);
    /// # Ok::<(), Box<dyn std::error::Error>>(())
    /// ```
    pub fn vlr_data(&self, user: impl AsRef<[u8]>, record_id: u16) -> Option<&'a [u8]> {
        let found = sys::vlr_first(self.bytes, self.allowance, user.as_ref(), record_id);
        // The file was checked, and is not refused now.
        found.ok().flatten()
    }

    /// The EVLRs, which stand after the points.
    pub fn evlrs(&self) -> Vlrs<'a> {
        self.records_of(PartKind::Evlr)
    }

    /// The waveform packets, which stand after the points as one record with the head of an EVLR: in LAS 1.3, where bit 1 of
    /// the global encoding is set and the header has a waveform start that isn't 0. In any other file the header's word on
    /// waveforms is not looked at, and what it speaks of is a gap or lies elsewhere.
    pub fn waveform_packets(&self) -> Option<Vlr<'a>> {
        self.records_of(PartKind::Waveform).next()
    }

    /// The records of a kind.
    fn records_of(&self, kind: PartKind) -> Vlrs<'a> {
        let parts = self.parts();
        Vlrs {
            file: self.bytes,
            left: sys::in_memory(parts.records_of(kind)),
            parts,
            kind,
        }
    }

    /// The points, each in turn. `len` and `count` say how many are left, and `nth` and `last` go there, without reading what
    /// lies between. Asking for the points costs nothing: the file was checked when it was made a [`File`]. Who wants one field
    /// of many points, or their places or colours, has them faster by [`columns`](crate::columns).
    ///
    /// ```
    /// # let bytes = std::fs::read("../samples/stockpile.las")?;
    /// let file = inscjarol::File::check(&bytes)?;
    /// assert_eq!(file.points().count(), 2_998);
    /// assert_eq!(file.points().last(), file.points().nth(2_997));
    /// # Ok::<(), Box<dyn std::error::Error>>(())
    /// ```
    pub fn points(&self) -> Points<'a> {
        Points {
            file: self.bytes,
            place: self.place,
            record_length: u64::from(self.header.point_data_record_length),
            extra: sys::layout_extra(self.format.word()),
        }
    }

    /// The points as a run of records, to be asked about and converted.
    pub fn run(&self) -> Run<'a> {
        let points = self.parts().find(|part| part.kind == PartKind::Points);
        Run {
            format: self.header.point_data_record_format,
            extra_bytes: self.format.extra_bytes,
            count: self.point_count(),
            records: points.map_or(&[], |points| self.part(points)),
        }
    }

    /// Writes the file anew from what its readers answer to the front of `dst`, and answers its length; what lies past that
    /// stays. The bytes are those that there were, except that an EVLR start and count of which one is zero become two
    /// zeros. Refused with 22 where `dst` is shorter than the file.
    pub fn rewrite(&self, dst: &mut [u8]) -> Result<usize, Refusal> {
        sys::file_rewrite(self.bytes, self.allowance, dst)
    }

    /// The file written anew, as [`File::rewrite`] does.
    pub fn rewritten(&self) -> Result<Vec<u8>, Refusal> {
        let mut bytes = vec![0; self.bytes.len()];
        self.rewrite(&mut bytes)?;
        Ok(bytes)
    }

    /// Whether the whole file, of LAS 1.4 with points of format 6 or 7, can be made one of LAS 1.2 with points of format 1 or
    /// 3, and how many bytes it has then. Nothing is written, and no memory is needed.
    ///
    /// Refused with 32 where the file is of another version or format; with 33 where it has EVLRs or a waveform start, which
    /// LAS 1.2 does not have; with 34 where LAS 1.2 cannot count its points, of all returns or of one; and then as
    /// [`Run::ask_old`] refuses its points, with the number of the first that does not fit. It is never refused with 22.
    ///
    /// ```
    /// # let bytes = std::fs::read("../samples/stockpile.las")?;
    /// let file = inscjarol::File::check(&bytes)?;
    /// let refusal = file.ask_old().unwrap_err();
    /// assert_eq!((refusal.number(), refusal.name()), (33, "EVLRs or waveforms"));
    /// # Ok::<(), Box<dyn std::error::Error>>(())
    /// ```
    pub fn ask_old(&self) -> Result<usize, Refusal> {
        sys::file_ask_old(self.bytes, self.allowance)
    }

    /// Whether the whole file, of LAS 1.2 with points of format 1 or 3, can be made one of LAS 1.4 with points of format 6 or
    /// 7, and how many bytes it has then. Nothing is written, and no memory is needed.
    ///
    /// Refused with 32 where the file is of another version or format; with 4, then 9, where the header size or the offset to
    /// the points would not fit its field with 148 more; and with 8 where a point record would not with 2 more. No point is
    /// refused.
    pub fn ask_new(&self) -> Result<usize, Refusal> {
        sys::file_ask_new(self.bytes, self.allowance)
    }

    /// Makes the whole file one of LAS 1.2, at the front of `dst`, and answers its length; what lies past that stays.
    ///
    /// VLRs, padding, gaps and all of the header that both versions have are the file's own bytes, the points what
    /// [`Run::to_old`] makes of them. The counts by return are the legacy ones where the legacy count isn't 0, else the large
    /// ones. It asks [`File::ask_old`] itself, and refuses what that refuses, whatever room there is; then, and only then, it
    /// is refused with 22 where `dst` is shorter than the bytes that were answered. A refused `dst` is left as it was.
    pub fn to_old_into(&self, dst: &mut [u8]) -> Result<usize, Refusal> {
        sys::file_to_old(self.bytes, self.allowance, dst)
    }

    /// Makes the whole file one of LAS 1.4, at the front of `dst`, and answers its length; what lies past that stays.
    ///
    /// The legacy counts become 0, and the large ones hold them. Coordinate-system records are copied as every VLR is, though
    /// the standard wants WKT for formats 6 to 10. It refuses what [`File::ask_new`] refuses; else it is as
    /// [`File::to_old_into`].
    pub fn to_new_into(&self, dst: &mut [u8]) -> Result<usize, Refusal> {
        sys::file_to_new(self.bytes, self.allowance, dst)
    }

    /// The whole file as one of LAS 1.2, as [`File::to_old_into`] makes it, in as many bytes as [`File::ask_old`] answers;
    /// where that refuses, nothing is allocated.
    pub fn to_old(&self) -> Result<Vec<u8>, Refusal> {
        let mut old = vec![0; self.ask_old()?];
        self.to_old_into(&mut old)?;
        Ok(old)
    }

    /// The whole file as one of LAS 1.4, as [`File::to_new_into`] makes it, in as many bytes as [`File::ask_new`] answers.
    ///
    /// It comes back byte for byte, unless a point of it has class 28 or a rank that is not from -90 to 90: such a file goes
    /// up, and is refused on the way down.
    ///
    /// ```
    /// use inscjarol::{File, Flags, Format, Header, Point, ScanAngle, Version};
    ///
    /// let mut header = Header::new(Version { major: 1, minor: 2 })?;
    /// header.point_data_record_format = 1;
    /// header.point_data_record_length = 28;
    /// header.number_of_point_records = 1;
    /// header.number_of_points_by_return = [1, 0, 0, 0, 0];
    /// let point = Point {
    ///     flags: Flags::TwoByte(0b001_001, 2),
    ///     scan_angle: ScanAngle::Rank(-7),
    ///     gps_time: Some(4.5),
    ///     ..Point::default()
    /// };
    /// let mut bytes = header.to_vec(&[])?;
    /// bytes.extend(point.to_vec(Format::new(1)?)?);
    ///
    /// let old = File::check(&bytes)?;
    /// assert_eq!(old.ask_new()?, 375 + 30);
    /// let new = old.to_new()?;
    /// let new = File::check(&new)?;
    /// assert_eq!(new.header().version, Version { major: 1, minor: 4 });
    /// assert_eq!(new.points().next().map(|point| point.flags.class()), Some(2));
    /// assert_eq!(new.to_old()?, bytes);
    /// # Ok::<(), inscjarol::Refusal>(())
    /// ```
    pub fn to_new(&self) -> Result<Vec<u8>, Refusal> {
        let mut new = vec![0; self.ask_new()?];
        self.to_new_into(&mut new)?;
        Ok(new)
    }
}

/// What a part of a file is. A later version may know more kinds.
///
/// ```
/// # let bytes = std::fs::read("../samples/stockpile.las")?;
/// use inscjarol::{File, PartKind};
///
/// let file = File::check(&bytes)?;
/// let mut of_records = 0;
/// for part in file.parts() {
///     match part.kind {
///         PartKind::Vlr | PartKind::Evlr | PartKind::Waveform => of_records += part.len,
///         _ => {}
///     }
/// }
/// assert_eq!(of_records, 867);
/// # Ok::<(), Box<dyn std::error::Error>>(())
/// ```
#[derive(Clone, Copy, Debug, PartialEq, Eq, Hash)]
#[non_exhaustive]
pub enum PartKind {
    /// The header with its padding.
    Header,
    /// A VLR, head and data.
    Vlr,
    /// Bytes that belong to no other part.
    Gap,
    /// The points; always there, if empty.
    Points,
    /// An EVLR, head and data.
    Evlr,
    /// The waveform packets, head and data.
    Waveform,
}

impl PartKind {
    /// The kind with this number in the library's table.
    fn from_number(number: u64) -> Option<PartKind> {
        match number {
            0 => Some(PartKind::Header),
            1 => Some(PartKind::Vlr),
            2 => Some(PartKind::Gap),
            3 => Some(PartKind::Points),
            4 => Some(PartKind::Evlr),
            5 => Some(PartKind::Waveform),
            _ => None,
        }
    }
}

impl fmt::Display for PartKind {
    fn fmt(&self, f: &mut fmt::Formatter<'_>) -> fmt::Result {
        f.pad(match self {
            PartKind::Header => "header",
            PartKind::Vlr => "vlr",
            PartKind::Gap => "gap",
            PartKind::Points => "points",
            PartKind::Evlr => "evlr",
            PartKind::Waveform => "waveform",
        })
    }
}

/// A part of a file.
#[derive(Clone, Copy, Debug, PartialEq, Eq, Hash)]
pub struct Part {
    /// What it is.
    pub kind: PartKind,
    /// Its first byte.
    pub start: u64,
    /// Its bytes.
    pub len: u64,
}

/// The parts of a file in their order; from [`File::parts`].
#[derive(Clone, Debug)]
pub struct Parts<'a> {
    file: &'a [u8],
    cursor: Option<Cursor>,
}

impl Parts<'_> {
    /// How many records of a kind the file has, by the cursor's own numbers.
    fn records_of(&self, kind: PartKind) -> u64 {
        let Some([_, _, _, _, vlrs, _, _, _, later, is_waveform]) = self.cursor else {
            return 0;
        };
        match (kind, is_waveform) {
            (PartKind::Vlr, _) => vlrs,
            (PartKind::Evlr, 0) => later,
            (PartKind::Waveform, 1) => later,
            _ => 0,
        }
    }
}

impl Iterator for Parts<'_> {
    type Item = Part;

    fn next(&mut self) -> Option<Part> {
        let [kind, start, len] = sys::cursor_next(self.file, self.cursor.as_mut()?)?;
        let kind = PartKind::from_number(kind)?;
        Some(Part { kind, start, len })
    }
}

impl FusedIterator for Parts<'_> {}

/// VLRs or EVLRs in their order; from [`File::vlrs`] and [`File::evlrs`].
#[derive(Clone, Debug)]
pub struct Vlrs<'a> {
    file: &'a [u8],
    parts: Parts<'a>,
    kind: PartKind,
    left: usize,
}

impl<'a> Iterator for Vlrs<'a> {
    type Item = Vlr<'a>;

    fn next(&mut self) -> Option<Vlr<'a>> {
        let kind = self.kind;
        let part = self.parts.find(|part| part.kind == kind)?;
        self.left = self.left.saturating_sub(1);
        let bytes = sys::part_of(self.file, part.start, part.len);
        Vlr::read(bytes, kind != PartKind::Vlr).ok()
    }

    fn size_hint(&self) -> (usize, Option<usize>) {
        (self.left, Some(self.left))
    }
}

impl ExactSizeIterator for Vlrs<'_> {}

impl FusedIterator for Vlrs<'_> {}

/// The points of a file, each in turn; from [`File::points`].
#[derive(Clone, Debug)]
pub struct Points<'a> {
    file: &'a [u8],
    place: Place,
    record_length: u64,
    /// Start and length of the extra bytes in a record.
    extra: (u64, u64),
}

impl Points<'_> {
    /// How many points are left.
    fn left(&self) -> u64 {
        let [_, _, left, ..] = self.place;
        left
    }
}

impl<'a> Iterator for Points<'a> {
    type Item = Point<'a>;

    fn next(&mut self) -> Option<Point<'a>> {
        let (start, len) = self.extra;
        let extra_bytes = match len {
            0 => &[],
            _ => sys::part_of(sys::file_record(self.file, &self.place), start, len),
        };
        let numbers = sys::file_next(self.file, &mut self.place).ok()?;
        Some(Point::from_numbers(&numbers, extra_bytes))
    }

    fn size_hint(&self) -> (usize, Option<usize>) {
        let left = sys::in_memory(self.left());
        (left, Some(left))
    }

    fn nth(&mut self, n: usize) -> Option<Point<'a>> {
        let [_, at, left, ..] = &mut self.place;
        let skipped = (n as u64).min(*left);
        *left = left.saturating_sub(skipped);
        *at = at.saturating_add(skipped.saturating_mul(self.record_length));
        self.next()
    }

    fn count(self) -> usize {
        self.len()
    }

    fn last(mut self) -> Option<Point<'a>> {
        self.nth(self.len().checked_sub(1)?)
    }
}

impl ExactSizeIterator for Points<'_> {}

impl FusedIterator for Points<'_> {}
