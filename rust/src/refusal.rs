//! Refusals: why a call did not answer, with the numbers of the library's table and in words.

use std::{error, fmt};

/// Which of the table's rows a refusal is of.
///
/// The numbers are those of every face of the library; a later version may add some at the end.
#[derive(Clone, Copy, Debug, PartialEq, Eq, Hash)]
#[non_exhaustive]
pub enum Kind {
    /// 1: there are fewer bytes than are needed.
    Short,
    /// 2: the file does not begin with `LASF`.
    Signature,
    /// 3: the version is none of 1.0 to 1.4.
    Version,
    /// 4: the header-size field is below the version's header.
    HeaderSize,
    /// 5: there is no such point format.
    Format,
    /// 6: the points are compressed.
    Compressed,
    /// 7: the version does not have this point format.
    FormatForVersion,
    /// 8: the record length is below the format's, or over 65,535.
    RecordLength,
    /// 9: the points start inside the header or beyond the file.
    PointOffset,
    /// 10: there are more records, VLRs, EVLRs and waveform packets, than the caller allows.
    Allowance,
    /// 11: a VLR does not end where the points begin, or before.
    VlrExtent,
    /// 12: the points do not end in the file.
    PointExtent,
    /// 13: an EVLR, or the waveform packets, do not end in the file.
    EvlrExtent,
    /// 14: the EVLRs start before the end of the points or beyond the file.
    EvlrStart,
    /// 15: a return number that the old formats do not hold.
    ReturnNumber,
    /// 16: a number of returns that the old formats do not hold.
    NumberOfReturns,
    /// 17: a class that the old formats do not hold.
    Class,
    /// 18: a scanner channel, which the old formats do not have.
    Channel,
    /// 19: an overlap flag that no old class shows.
    Overlap,
    /// 20: near infrared, which the old format does not have.
    Nir,
    /// 21: a scan angle that, rounded, is not from -90 to 90, as the ranks of the old formats are.
    Angle,
    /// 22: the destination or the table is too small.
    NoRoom,
    /// 23: a point has another number of extra bytes than its format.
    ExtraBytes,
    /// 24: the data of a VLR are not of the length that it states.
    VlrDataLength,
    /// 25: no format code has these fields.
    Attributes,
    /// 26: the format has no pair to be converted to.
    NoPair,
    /// 27: there is no point with this number, or there are no more.
    Index,
    /// 28: records are to be appended to a file that is not of version 1.2.
    NotVersion12,
    /// 29: no records were offered.
    NoRecords,
    /// 30: the file counts neither the points that were believed to be there, nor these and the offered records as the last.
    CountNeither,
    /// 31: with the offered records a count would be over 2^32 - 1.
    CountTooLarge,
    /// 32: the whole file is not of a version and a point format that go to the other version.
    OtherVersionOrFormat,
    /// 33: the whole file has EVLRs or a waveform start, which LAS 1.2 does not have.
    EvlrsOrWaveforms,
    /// 34: the whole file has counts that the header of LAS 1.2 does not hold.
    CountsTooLargeForOld,
    /// 35: the waveform packets start before the end of the points or beyond the file.
    WaveformStart,
    /// 36: the points' format does not have the field.
    FieldLacking,
    /// 37: no VLR describes the extra bytes.
    NoDescriptors,
    /// 38: the data of the VLR that describes the extra bytes is not a multiple of 192 bytes.
    DescriptorBytes,
    /// 39: a descriptor of extra bytes has a data type above 10.
    DataType,
    /// 40: the descriptors speak of more extra bytes than a record has.
    AttributeSizes,
    /// 41: no descriptor of extra bytes has the name.
    NameNotFound,
    /// 42: no VLR holds a directory of coordinate keys.
    NoDirectory,
    /// 43: the directory of coordinate keys is shorter than it says.
    DirectoryShort,
    /// 44: the coordinate keys are not in rising order.
    KeysNotRising,
    /// 45: a coordinate key points to a record that cannot hold its value.
    UnknownLocation,
    /// 46: a coordinate key points to a record that the file does not have.
    TargetAbsent,
    /// 47: a coordinate key's value ends beyond the record that it stands in.
    TargetBeyond,
    /// 48: the directory does not have the coordinate key.
    KeyNotFound,
    /// 49: there are more coordinate keys than a VLR holds.
    TooManyKeys,
    /// 50: with this file a total of the sheet would be over 2^64 - 1.
    TotalTooLarge,
    /// A number that this version of the crate does not know.
    Unknown(u64),
}

impl Kind {
    /// Every kind that has a number, in the table's order.
    const ALL: [Kind; 50] = [
        Kind::Short,
        Kind::Signature,
        Kind::Version,
        Kind::HeaderSize,
        Kind::Format,
        Kind::Compressed,
        Kind::FormatForVersion,
        Kind::RecordLength,
        Kind::PointOffset,
        Kind::Allowance,
        Kind::VlrExtent,
        Kind::PointExtent,
        Kind::EvlrExtent,
        Kind::EvlrStart,
        Kind::ReturnNumber,
        Kind::NumberOfReturns,
        Kind::Class,
        Kind::Channel,
        Kind::Overlap,
        Kind::Nir,
        Kind::Angle,
        Kind::NoRoom,
        Kind::ExtraBytes,
        Kind::VlrDataLength,
        Kind::Attributes,
        Kind::NoPair,
        Kind::Index,
        Kind::NotVersion12,
        Kind::NoRecords,
        Kind::CountNeither,
        Kind::CountTooLarge,
        Kind::OtherVersionOrFormat,
        Kind::EvlrsOrWaveforms,
        Kind::CountsTooLargeForOld,
        Kind::WaveformStart,
        Kind::FieldLacking,
        Kind::NoDescriptors,
        Kind::DescriptorBytes,
        Kind::DataType,
        Kind::AttributeSizes,
        Kind::NameNotFound,
        Kind::NoDirectory,
        Kind::DirectoryShort,
        Kind::KeysNotRising,
        Kind::UnknownLocation,
        Kind::TargetAbsent,
        Kind::TargetBeyond,
        Kind::KeyNotFound,
        Kind::TooManyKeys,
        Kind::TotalTooLarge,
    ];

    /// The kind with this number.
    pub fn from_number(number: u64) -> Kind {
        let known = number
            .checked_sub(1)
            .and_then(|place| usize::try_from(place).ok())
            .and_then(|place| Kind::ALL.get(place));
        known.copied().unwrap_or(Kind::Unknown(number))
    }

    /// The number in the library's table.
    pub fn number(self) -> u64 {
        match self {
            Kind::Short => 1,
            Kind::Signature => 2,
            Kind::Version => 3,
            Kind::HeaderSize => 4,
            Kind::Format => 5,
            Kind::Compressed => 6,
            Kind::FormatForVersion => 7,
            Kind::RecordLength => 8,
            Kind::PointOffset => 9,
            Kind::Allowance => 10,
            Kind::VlrExtent => 11,
            Kind::PointExtent => 12,
            Kind::EvlrExtent => 13,
            Kind::EvlrStart => 14,
            Kind::ReturnNumber => 15,
            Kind::NumberOfReturns => 16,
            Kind::Class => 17,
            Kind::Channel => 18,
            Kind::Overlap => 19,
            Kind::Nir => 20,
            Kind::Angle => 21,
            Kind::NoRoom => 22,
            Kind::ExtraBytes => 23,
            Kind::VlrDataLength => 24,
            Kind::Attributes => 25,
            Kind::NoPair => 26,
            Kind::Index => 27,
            Kind::NotVersion12 => 28,
            Kind::NoRecords => 29,
            Kind::CountNeither => 30,
            Kind::CountTooLarge => 31,
            Kind::OtherVersionOrFormat => 32,
            Kind::EvlrsOrWaveforms => 33,
            Kind::CountsTooLargeForOld => 34,
            Kind::WaveformStart => 35,
            Kind::FieldLacking => 36,
            Kind::NoDescriptors => 37,
            Kind::DescriptorBytes => 38,
            Kind::DataType => 39,
            Kind::AttributeSizes => 40,
            Kind::NameNotFound => 41,
            Kind::NoDirectory => 42,
            Kind::DirectoryShort => 43,
            Kind::KeysNotRising => 44,
            Kind::UnknownLocation => 45,
            Kind::TargetAbsent => 46,
            Kind::TargetBeyond => 47,
            Kind::KeyNotFound => 48,
            Kind::TooManyKeys => 49,
            Kind::TotalTooLarge => 50,
            Kind::Unknown(number) => number,
        }
    }

    /// The name in the library's table.
    pub fn name(self) -> &'static str {
        match self {
            Kind::Short => "short",
            Kind::Signature => "signature",
            Kind::Version => "version",
            Kind::HeaderSize => "header size",
            Kind::Format => "format",
            Kind::Compressed => "compressed",
            Kind::FormatForVersion => "format for version",
            Kind::RecordLength => "record length",
            Kind::PointOffset => "point offset",
            Kind::Allowance => "allowance",
            Kind::VlrExtent => "VLR extent",
            Kind::PointExtent => "point extent",
            Kind::EvlrExtent => "EVLR extent",
            Kind::EvlrStart => "EVLR start",
            Kind::ReturnNumber => "return number",
            Kind::NumberOfReturns => "number of returns",
            Kind::Class => "class",
            Kind::Channel => "channel",
            Kind::Overlap => "overlap",
            Kind::Nir => "NIR",
            Kind::Angle => "angle",
            Kind::NoRoom => "no room",
            Kind::ExtraBytes => "extra bytes",
            Kind::VlrDataLength => "VLR data length",
            Kind::Attributes => "attributes",
            Kind::NoPair => "no pair",
            Kind::Index => "index",
            Kind::NotVersion12 => "not version 1.2",
            Kind::NoRecords => "no records",
            Kind::CountNeither => "count neither",
            Kind::CountTooLarge => "count too large",
            Kind::OtherVersionOrFormat => "other version or format",
            Kind::EvlrsOrWaveforms => "EVLRs or waveforms",
            Kind::CountsTooLargeForOld => "counts too large for old",
            Kind::WaveformStart => "waveform start",
            Kind::FieldLacking => "field lacking",
            Kind::NoDescriptors => "no descriptors",
            Kind::DescriptorBytes => "descriptor bytes",
            Kind::DataType => "data type",
            Kind::AttributeSizes => "attribute sizes",
            Kind::NameNotFound => "name not found",
            Kind::NoDirectory => "no directory",
            Kind::DirectoryShort => "directory short",
            Kind::KeysNotRising => "keys not rising",
            Kind::UnknownLocation => "unknown location",
            Kind::TargetAbsent => "target absent",
            Kind::TargetBeyond => "target beyond its end",
            Kind::KeyNotFound => "key not found",
            Kind::TooManyKeys => "too many keys",
            Kind::TotalTooLarge => "total too large",
            Kind::Unknown(_) => "unknown",
        }
    }
}

/// How many bytes more than a header of LAS 1.2 one of LAS 1.4 has.
const GROWN: u64 = 148;

/// Why a call refused: the kind, the value that the table has for it, and the number of the record.
///
/// A refused call has left all memory that it was lent as it was. Shown with `{}`, a refusal is a sentence that names the
/// field and what was expected there.
///
/// ```
/// let refusal = inscjarol::File::check(b"").unwrap_err();
/// assert_eq!((refusal.number(), refusal.name(), refusal.value(), refusal.record()), (1, "short", 4, 0));
/// assert_eq!(refusal.to_string(), "too short: 4 bytes are needed to begin with");
/// ```
///
/// Shown with `{:?}`, as a `main` does that ends with one, it has its numbers before the sentence:
///
/// ```
/// # let refusal = inscjarol::File::check(b"").unwrap_err();
/// assert_eq!(format!("{refusal:?}"), "refused 1 4 0 (short): too short: 4 bytes are needed to begin with");
/// ```
#[derive(Clone, Copy, PartialEq, Eq, Hash)]
pub struct Refusal {
    kind: Kind,
    value: u64,
    record: u64,
}

impl Refusal {
    /// The refusal of a row of the library's answers.
    pub(crate) fn from_row(number: u64, value: u64, record: u64) -> Refusal {
        Refusal {
            kind: Kind::from_number(number),
            value,
            record,
        }
    }

    /// Which row of the table it is.
    pub fn kind(&self) -> Kind {
        self.kind
    }

    /// The number in the library's table, 1 to 50.
    pub fn number(&self) -> u64 {
        self.kind.number()
    }

    /// The name in the library's table.
    pub fn name(&self) -> &'static str {
        self.kind.name()
    }

    /// The value that the table has for this number: mostly the field that was found, or the bytes that are needed.
    pub fn value(&self) -> u64 {
        self.value
    }

    /// The record that was refused, counted from 1: a VLR, an EVLR or the waveform packets, counted through all kinds, or a point of
    /// a run. Else 0.
    pub fn record(&self) -> u64 {
        self.record
    }

    /// "point 7: ", or nothing where no point was counted.
    fn point(&self) -> String {
        match self.record {
            0 => String::new(),
            record => format!("point {record}: "),
        }
    }
}

impl error::Error for Refusal {}

impl fmt::Debug for Refusal {
    fn fmt(&self, f: &mut fmt::Formatter<'_>) -> fmt::Result {
        let (number, value, record) = (self.number(), self.value, self.record);
        write!(
            f,
            "refused {number} {value} {record} ({}): {self}",
            self.name()
        )
    }
}

impl fmt::Display for Refusal {
    fn fmt(&self, f: &mut fmt::Formatter<'_>) -> fmt::Result {
        let (value, record, point) = (self.value, self.record, self.point());
        match self.kind {
            Kind::Short => match value {
                0 => f.write_str("too short: more than 2^64 - 1 bytes would be needed"),
                4 => f.write_str("too short: 4 bytes are needed to begin with"),
                _ => write!(f, "too short: {value} bytes are needed"),
            },
            Kind::Signature => {
                let found = (value as u32).to_le_bytes();
                write!(
                    f,
                    "not a LAS file: it must begin with \"LASF\", and begins with \"{}\"",
                    found.escape_ascii()
                )
            }
            Kind::Version => write!(
                f,
                "the version (header bytes 24 and 25) is {}.{}: LAS 1.0 to 1.4 are known",
                value / 256,
                value % 256
            ),
            // The file check refuses what is less than a header; above this it is a whole file that is to grow.
            Kind::HeaderSize if value > 65_535 - GROWN => write!(
                f,
                "the header size (header byte 94) is {value}: LAS 1.4 needs {GROWN} bytes more, and 65535 are the most"
            ),
            Kind::HeaderSize => write!(
                f,
                "the header size (header byte 94) is {value}, less than the header itself: 227 bytes in LAS 1.0 to 1.2, \
                 235 in 1.3, 375 in 1.4"
            ),
            Kind::Format => write!(
                f,
                "the point format (header byte 104) is {value}: formats 0 to 10 are known"
            ),
            Kind::Compressed => write!(
                f,
                "the point format (header byte 104) is {value}: the points are compressed (LAZ), and have to be \
                 decompressed first"
            ),
            Kind::FormatForVersion => write!(
                f,
                "the point format (header byte 104) is {value}, which this version does not have: LAS 1.0 and 1.1 have \
                 formats 0 and 1, 1.2 has 0 to 3, 1.3 has 0 to 5, 1.4 has 0 to 10"
            ),
            Kind::RecordLength if value > 65_535 => write!(
                f,
                "a point record of this format would have {value} bytes: 65535 are the most"
            ),
            Kind::RecordLength => write!(
                f,
                "the point record length (header byte 105) is {value}, less than a point of the file's format has"
            ),
            Kind::PointOffset if value > 4_294_967_295 - GROWN => write!(
                f,
                "the offset to the point data (header byte 96) is {value}: it must be at least the header size, and \
                 not beyond the end of the file; and since LAS 1.4 needs {GROWN} bytes more, and 4294967295 are the most, \
                 a file with this offset cannot go there"
            ),
            Kind::PointOffset => write!(
                f,
                "the offset to the point data (header byte 96) is {value}: it must be at least the header size, and \
                 not beyond the end of the file"
            ),
            Kind::Allowance => write!(
                f,
                "there are more than the {value} records, VLRs, EVLRs and waveform packets, that were allowed"
            ),
            Kind::VlrExtent if value == 0 => write!(
                f,
                "VLR {record}: its head of 54 bytes runs past the offset to the point data; the number of VLRs (header \
                 byte 100) or that offset (header byte 96) may be wrong"
            ),
            Kind::VlrExtent => write!(
                f,
                "VLR {record}: its {value} bytes of data run past the offset to the point data (header byte 96)"
            ),
            Kind::PointExtent => write!(
                f,
                "the points run past the end of the file: the header counts {value} of them; the file may have been cut \
                 off"
            ),
            Kind::EvlrExtent if value == 0 => write!(
                f,
                "record {record}, an EVLR, or in LAS 1.3 the waveform packets: its head of 60 bytes runs past the end of \
                 the file; the file may have been cut off"
            ),
            Kind::EvlrExtent => write!(
                f,
                "record {record}, an EVLR, or in LAS 1.3 the waveform packets: its {value} bytes of data run past the end \
                 of the file; the file may have been cut off"
            ),
            Kind::EvlrStart => write!(
                f,
                "the start of the first EVLR (header byte 235) is {value}: it must not be before the end of the points, \
                 and not beyond the end of the file"
            ),
            Kind::ReturnNumber => write!(
                f,
                "{point}the return number is {value}: the old point formats hold 0 to 7"
            ),
            Kind::NumberOfReturns => write!(
                f,
                "{point}the number of returns is {value}: the old point formats hold 0 to 7"
            ),
            Kind::Class => write!(
                f,
                "{point}the class is {value}: the old point formats hold 0 to 31"
            ),
            Kind::Channel => write!(
                f,
                "{point}the scanner channel is {value}: the old point formats have none, which is 0"
            ),
            Kind::Overlap if value == 12 => write!(
                f,
                "{point}class 12 without the overlap flag: in the old point formats class 12 says overlap"
            ),
            Kind::Overlap if value == 28 => write!(
                f,
                "{point}class 28: some readers of the old point formats take it for overlap and some do not"
            ),
            Kind::Overlap => write!(
                f,
                "{point}the overlap flag on class {value}: the old point formats say overlap by class 12 alone, and \
                 class {value} would be lost"
            ),
            Kind::Nir => write!(
                f,
                "{point}near infrared is {value}: the old point format has none, which is 0"
            ),
            Kind::Angle => {
                let scaled = i64::from(value as u16 as i16);
                let thousandths = scaled * 6;
                let sign = if thousandths < 0 { "-" } else { "" };
                let (whole, rest) = (thousandths.abs() / 1000, thousandths.abs() % 1000);
                write!(
                    f,
                    "{point}the scan angle is {sign}{whole}.{rest:03} degrees: rounded, it must be -90 to 90 in the \
                     old point formats"
                )
            }
            Kind::NoRoom => match value {
                0 => f.write_str("no room: more than 2^64 - 1 bytes would be needed"),
                _ => write!(f, "no room: {value} bytes or entries are needed"),
            },
            Kind::ExtraBytes => write!(
                f,
                "a point of this format has {value} extra bytes, and another number was given"
            ),
            Kind::VlrDataLength => write!(
                f,
                "the record states {value} bytes of data, and another number was given; a VLR holds at most 65535"
            ),
            Kind::Attributes => {
                f.write_str("no point format has just these fields; formats 0 to 10 are known")
            }
            Kind::NoPair => write!(
                f,
                "point format {value} has no pair to be converted to: 6 to 10 have old ones (1, 3, 3, 4, 5), and 1, 3, 4 \
                 and 5 new ones (6, 7, 9, 10)"
            ),
            Kind::Index => write!(
                f,
                "there is no such point, or no more: the file has {value}, counted from 1"
            ),
            Kind::NotVersion12 => f.write_str(
                "records can be appended to LAS 1.2 alone, and the file is of another version (header bytes 24 and 25)",
            ),
            Kind::NoRecords => {
                f.write_str("no records were offered; an empty sweep needs no append")
            }
            Kind::CountNeither => f.write_str(
                "the file has neither as many points as were believed to be there, nor these and then the offered records \
                 as its last; another program may have appended meanwhile, or the count that was believed, or the records, \
                 are of another sweep",
            ),
            Kind::CountTooLarge => f.write_str(
                "with the offered records the count of points (header byte 107) or of a return (header bytes 111 to 130) \
                 would be over 4294967295, which is the most that LAS 1.2 can count; another file has to be begun",
            ),
            Kind::OtherVersionOrFormat => f.write_str(
                "a whole file goes to LAS 1.4 from LAS 1.2 with points of format 1 or 3, and to LAS 1.2 from LAS 1.4 with \
                 points of format 6 or 7: this one is of another version (header bytes 24 and 25) or point format (header \
                 byte 104), and may be where it is to go already",
            ),
            Kind::EvlrsOrWaveforms => f.write_str(
                "the file has EVLRs (header byte 235) or waveform packets (header byte 227), for which LAS 1.2 has no place; \
                 they have to be taken out first, by a program that knows what they are for",
            ),
            Kind::CountsTooLargeForOld => f.write_str(
                "the counts of the header (header bytes 247 to 374) have no place in LAS 1.2, which counts at most 4294967295 \
                 points, in all and of each of the returns 1 to 5, and none of returns 6 to 15; the file has to be cut into \
                 smaller ones, or these returns left out, first",
            ),
            Kind::WaveformStart => f.write_str(
                "the start of the waveform packets (header byte 227) is before the end of the points or beyond the end of the \
                 file; where they are in another file, bit 1 of the global encoding (header byte 6) must not be set",
            ),
            Kind::FieldLacking => f.write_str(
                "the point format (header byte 104) does not have this field: 1 and 3 to 10 have the time, 2, 3, 5, 7, 8 and 10 \
                 colours, 8 and 10 near infrared",
            ),
            Kind::NoDescriptors => f.write_str(
                "no VLR describes the extra bytes: none has the user id \"LASF_Spec\" and the record id 4",
            ),
            Kind::DescriptorBytes => f.write_str(
                "the VLR that describes the extra bytes (\"LASF_Spec\", 4) is damaged: its data is not a multiple of 192 bytes, which \
                 each of its descriptors has",
            ),
            Kind::DataType => f.write_str(
                "a descriptor of extra bytes has a data type above 10 (its byte 2): 0 to 10 are known; files of before LAS 1.4 R15 may \
                 have arrays, types 11 to 30, which the standard no longer has",
            ),
            Kind::AttributeSizes => f.write_str(
                "the descriptors of the extra bytes speak of more bytes than a point record has behind its format (record length, header \
                 byte 105)",
            ),
            Kind::NameNotFound => f.write_str(
                "no descriptor of extra bytes has this name, which is compared byte by byte, capitals and blanks too",
            ),
            Kind::NoDirectory => f.write_str(
                "the file has no coordinate keys: no VLR has the user id \"LASF_Projection\" and the record id 34735",
            ),
            Kind::DirectoryShort => f.write_str(
                "the directory of coordinate keys (\"LASF_Projection\", 34735) is damaged: it has fewer bytes than 8, or than 8 more for \
                 each of the keys that it counts",
            ),
            Kind::KeysNotRising => f.write_str(
                "the coordinate keys are not in rising order: one is not above the one before it",
            ),
            Kind::UnknownLocation => f.write_str(
                "a coordinate key points to a record that holds no values: the location of a value is 0, 34736 or 34737",
            ),
            Kind::TargetAbsent => f.write_str(
                "a coordinate key points to a record that the file does not have: no VLR has the user id \"LASF_Projection\" and the \
                 record id 34736 (numbers) or 34737 (text) that it names",
            ),
            Kind::TargetBeyond => f.write_str(
                "a coordinate key points beyond the end of the record (\"LASF_Projection\", 34736 or 34737) that its value stands in",
            ),
            Kind::KeyNotFound => f.write_str(
                "the file does not have this coordinate key",
            ),
            Kind::TooManyKeys => f.write_str(
                "a directory has at most 8190 coordinate keys, which is what a VLR holds",
            ),
            Kind::TotalTooLarge => f.write_str(
                "with this file a total of the sheet would be over 18446744073709551615, which is the most that it counts",
            ),
            Kind::Unknown(number) => write!(
                f,
                "refusal {number} with value {value}, which this version of the crate does not know"
            ),
        }
    }
}

#[cfg(test)]
mod tests {
    use super::*;

    #[test]
    fn numbers_and_kinds_go_both_ways() {
        for number in 0..=40 {
            assert_eq!(Kind::from_number(number).number(), number);
        }
        assert_eq!(Kind::from_number(0), Kind::Unknown(0));
        assert_eq!(Kind::from_number(27), Kind::Index);
        assert_eq!(Kind::from_number(31), Kind::CountTooLarge);
        assert_eq!(Kind::from_number(34), Kind::CountsTooLargeForOld);
        assert_eq!(Kind::from_number(35), Kind::WaveformStart);
        assert_eq!(Kind::from_number(36), Kind::FieldLacking);
        assert_eq!(Kind::from_number(41), Kind::NameNotFound);
        assert_eq!(Kind::from_number(49), Kind::TooManyKeys);
        assert_eq!(Kind::from_number(50), Kind::TotalTooLarge);
        assert_eq!(Kind::from_number(51), Kind::Unknown(51));
        assert_eq!(Kind::from_number(u64::MAX), Kind::Unknown(u64::MAX));
    }

    #[test]
    fn every_kind_has_a_name_and_a_sentence_of_its_own() {
        let mut names = Vec::new();
        let mut sentences = Vec::new();
        for number in 1..=50 {
            let refusal = Refusal::from_row(number, 7, 3);
            names.push(refusal.name());
            sentences.push(refusal.to_string());
        }
        names.sort_unstable();
        names.dedup();
        sentences.sort_unstable();
        sentences.dedup();
        assert_eq!((names.len(), sentences.len()), (50, 50));
        assert!(sentences.iter().all(|words| !words.ends_with('.')));
    }

    #[test]
    fn who_prints_it_for_debugging_sees_the_sentence_too() {
        let refusal = Refusal::from_row(12, 2_998, 0);
        assert_eq!(
            format!("Error: {refusal:?}"),
            format!("Error: refused 12 2998 0 (point extent): {refusal}")
        );
        assert!(
            format!("{:?}", Refusal::from_row(99, 7, 3)).starts_with("refused 99 7 3 (unknown)")
        );
    }

    fn words(number: u64, value: u64, record: u64) -> String {
        Refusal::from_row(number, value, record).to_string()
    }

    #[test]
    fn the_sentence_says_what_was_found() {
        assert_eq!(
            words(2, u64::from(u32::from_le_bytes(*b"L\0\"\xff")), 0),
            r#"not a LAS file: it must begin with "LASF", and begins with "L\x00\"\xff""#
        );
        assert!(words(3, 256 + 5, 0).contains("is 1.5: LAS 1.0 to 1.4"));
        assert!(words(11, 0, 2).starts_with("VLR 2: its head of 54 bytes"));
        assert!(words(11, 90, 2).starts_with("VLR 2: its 90 bytes of data"));
        assert!(words(13, 0, 5)
            .starts_with("record 5, an EVLR, or in LAS 1.3 the waveform packets: its head of 60"));
        assert!(words(19, 2, 41).starts_with("point 41: the overlap flag on class 2"));
        assert!(words(19, 12, 1).contains("class 12 without the overlap flag"));
        assert!(words(19, 28, 1).contains("class 28"));
        assert_eq!(
            words(21, 15_084, 9),
            "point 9: the scan angle is 90.504 degrees: rounded, it must be -90 to 90 in the old point formats"
        );
        assert!(words(21, 65_536 - 15_084, 9).contains("is -90.504 degrees"));
        assert!(words(21, 65_535, 9).contains("is -0.006 degrees"));
        assert!(words(8, 70_000, 0).contains("would have 70000 bytes"));
        assert!(words(8, 19, 0).contains("record length (header byte 105) is 19"));
        assert!(words(15, 8, 0).starts_with("the return number is 8"));
        assert!(words(4, 65_387, 0).contains("is 65387, less than the header itself"));
        assert!(words(4, 65_388, 0).contains("is 65388: LAS 1.4 needs 148 bytes more"));
        assert!(words(9, 4_294_967_147, 0).ends_with("not beyond the end of the file"));
        assert!(words(9, 4_294_967_148, 0).ends_with("a file with this offset cannot go there"));
    }
}
