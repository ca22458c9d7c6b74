//! The header of a file.

use crate::{
    refusal::Refusal,
    sys::{self, BoundsNumbers, HeaderNumbers},
    text,
};
use std::{borrow::Cow, fmt};

/// A version of LAS.
#[derive(Clone, Copy, Debug, PartialEq, Eq, PartialOrd, Ord, Hash)]
pub struct Version {
    /// The number before the point.
    pub major: u8,
    /// The number after the point.
    pub minor: u8,
}

impl Version {
    /// The size of a header of this version without padding; refused with 3 where it is none of 1.0 to 1.4.
    pub fn header_size(self) -> Result<u16, Refusal> {
        sys::header_size(self.major, self.minor)
    }
}

impl fmt::Display for Version {
    fn fmt(&self, f: &mut fmt::Formatter<'_>) -> fmt::Result {
        write!(f, "{}.{}", self.major, self.minor)
    }
}

/// Where the EVLRs start and how many there are. Neither is 0 in what was read.
#[derive(Clone, Copy, Debug, PartialEq, Eq, Hash)]
pub struct Evlrs {
    /// The first byte of the first.
    pub start_of_first_evlr: u64,
    /// How many there are.
    pub number_of_evlrs: u32,
}

/// The counts of 64 bits that LAS 1.4 has.
#[derive(Clone, Copy, Debug, Default, PartialEq, Eq, Hash)]
pub struct LargeFile {
    /// The count of points.
    pub number_of_point_records: u64,
    /// The counts of points by return, the first return first.
    pub number_of_points_by_return: [u64; 15],
}

/// The box that all points of a file lie in, as its header says.
#[derive(Clone, Copy, Debug, PartialEq)]
pub struct Bounds {
    /// The smallest x, y and z.
    pub min: [f64; 3],
    /// The largest x, y and z.
    pub max: [f64; 3],
}

impl Bounds {
    /// The bits of the bounds in the library's order.
    pub(crate) fn numbers(&self) -> BoundsNumbers {
        let ([min_x, min_y, min_z], [max_x, max_y, max_z]) = (self.min, self.max);
        [max_x, min_x, max_y, min_y, max_z, min_z].map(f64::to_bits)
    }
}

/// A header, field by field in the standard's order.
///
/// Floats keep every bit, a NaN's too. Two headers are equal when all their bits are.
#[derive(Clone, Copy, Debug)]
pub struct Header {
    /// The file source id.
    pub file_source_id: u16,
    /// The bits of global encoding.
    pub global_encoding: u16,
    /// The project id.
    pub guid: [u8; 16],
    /// The version.
    pub version: Version,
    /// The system identifier; [`Header::system`] is its text.
    pub system_identifier: [u8; 32],
    /// The generating software; [`Header::software`] is its text.
    pub generating_software: [u8; 32],
    /// The day of the year on which the file was made, 1 for the first of January.
    pub file_creation_day_of_year: u16,
    /// The year in which the file was made.
    pub file_creation_year: u16,
    /// The bytes of the header, with its padding.
    pub header_size: u16,
    /// The first byte of the points.
    pub offset_to_point_data: u32,
    /// How many VLRs there are.
    pub number_of_variable_length_records: u32,
    /// The point format's code.
    pub point_data_record_format: u8,
    /// The bytes of a point record, with its extra bytes.
    pub point_data_record_length: u16,
    /// The legacy count of points: 0 where it has to be looked up in [`Header::large_file`].
    pub number_of_point_records: u32,
    /// The legacy counts of points by return.
    pub number_of_points_by_return: [u32; 5],
    /// What a step of x is.
    pub x_scale_factor: f64,
    /// What a step of y is.
    pub y_scale_factor: f64,
    /// What a step of z is.
    pub z_scale_factor: f64,
    /// Where x counts from.
    pub x_offset: f64,
    /// Where y counts from.
    pub y_offset: f64,
    /// Where z counts from.
    pub z_offset: f64,
    /// The largest x.
    pub max_x: f64,
    /// The smallest x.
    pub min_x: f64,
    /// The largest y.
    pub max_y: f64,
    /// The smallest y.
    pub min_y: f64,
    /// The largest z.
    pub max_z: f64,
    /// The smallest z.
    pub min_z: f64,
    /// The first byte of the waveform data, in LAS 1.3 and 1.4.
    pub start_of_waveform_data_packet_record: Option<u64>,
    /// The EVLRs, in LAS 1.4: none where their start or their count is 0.
    pub evlrs: Option<Evlrs>,
    /// The large counts, in LAS 1.4.
    pub large_file: Option<LargeFile>,
}

impl Header {
    /// A header of this version with no points and no records, of point format 0, whose points would follow it directly:
    /// scales are 1, and all that is not said here is zero. Refused with 3 where there is no such version.
    ///
    /// ```
    /// use inscjarol::{File, Header, Version};
    ///
    /// let mut header = Header::new(Version { major: 1, minor: 2 })?;
    /// header.set_software("somebody's");
    /// let bytes = header.to_vec(&[])?;
    /// assert_eq!(File::check(&bytes)?.header(), &header);
    /// # Ok::<(), inscjarol::Refusal>(())
    /// ```
    pub fn new(version: Version) -> Result<Header, Refusal> {
        let header_size = version.header_size()?;
        Ok(Header {
            file_source_id: 0,
            global_encoding: 0,
            guid: [0; 16],
            version,
            system_identifier: [0; 32],
            generating_software: [0; 32],
            file_creation_day_of_year: 0,
            file_creation_year: 0,
            header_size,
            offset_to_point_data: u32::from(header_size),
            number_of_variable_length_records: 0,
            point_data_record_format: 0,
            point_data_record_length: 20,
            number_of_point_records: 0,
            number_of_points_by_return: [0; 5],
            x_scale_factor: 1.0,
            y_scale_factor: 1.0,
            z_scale_factor: 1.0,
            x_offset: 0.0,
            y_offset: 0.0,
            z_offset: 0.0,
            max_x: 0.0,
            min_x: 0.0,
            max_y: 0.0,
            min_y: 0.0,
            max_z: 0.0,
            min_z: 0.0,
            start_of_waveform_data_packet_record: None,
            evlrs: None,
            large_file: None,
        })
    }

    /// The header at the front of these bytes: refused with 1, 2 or 3 where there is none.
    pub fn read(bytes: &[u8]) -> Result<Header, Refusal> {
        sys::header_read(bytes).map(|numbers| Header::from_numbers(&numbers))
    }

    /// The padding of the header at the front of these bytes: what its size has beyond the version's fields.
    pub fn padding(bytes: &[u8]) -> &[u8] {
        sys::header_padding(bytes)
    }

    /// The first byte after the points, by the header at the front of these bytes: refused as [`Header::read`] does, and
    /// with 12 from 2^64 on.
    pub fn end_of_points(bytes: &[u8]) -> Result<u64, Refusal> {
        sys::header_end_of_points(bytes)
    }

    /// Writes the header and then its padding to the front of `dst`, and answers how many bytes that is; what lies past
    /// them stays. Refused with 3 where there is no such version, and with 22 where `dst` is too small.
    pub fn write(&self, padding: &[u8], dst: &mut [u8]) -> Result<usize, Refusal> {
        sys::header_write(&self.numbers(), padding, dst)
    }

    /// The bytes of the header and of its padding.
    pub fn to_vec(&self, padding: &[u8]) -> Result<Vec<u8>, Refusal> {
        let fields = usize::from(self.version.header_size()?);
        let mut bytes = vec![0; fields.saturating_add(padding.len())];
        self.write(padding, &mut bytes)?;
        Ok(bytes)
    }

    /// The text of the system identifier.
    pub fn system(&self) -> Cow<'_, str> {
        text::text(&self.system_identifier)
    }

    /// The text of the generating software.
    pub fn software(&self) -> Cow<'_, str> {
        text::text(&self.generating_software)
    }

    /// Sets the system identifier to this text, as far as it fits.
    pub fn set_system(&mut self, system: &str) {
        self.system_identifier = text::field(system);
    }

    /// Sets the generating software to this text, as far as it fits.
    pub fn set_software(&mut self, software: &str) {
        self.generating_software = text::field(software);
    }

    /// The coordinate of an x as it is stored.
    pub fn x(&self, stored: i32) -> f64 {
        f64::from(stored) * self.x_scale_factor + self.x_offset
    }

    /// The coordinate of a y as it is stored.
    pub fn y(&self, stored: i32) -> f64 {
        f64::from(stored) * self.y_scale_factor + self.y_offset
    }

    /// The coordinate of a z as it is stored.
    pub fn z(&self, stored: i32) -> f64 {
        f64::from(stored) * self.z_scale_factor + self.z_offset
    }

    /// The smallest and the largest coordinates, which are the header's word and not worked out from the points.
    ///
    /// ```
    /// # let bytes = std::fs::read("../samples/stockpile.las")?;
    /// let file = inscjarol::File::check(&bytes)?;
    /// let bounds = file.header().bounds();
    /// let [_, _, low] = bounds.min;
    /// let [_, _, high] = bounds.max;
    /// assert_eq!(format!("from {low} to {high}"), "from 109.236 to 116.762");
    /// # Ok::<(), Box<dyn std::error::Error>>(())
    /// ```
    pub fn bounds(&self) -> Bounds {
        Bounds {
            min: [self.min_x, self.min_y, self.min_z],
            max: [self.max_x, self.max_y, self.max_z],
        }
    }

    /// The counts of points by return that go with the effective count: the legacy ones where the legacy count isn't 0.
    pub fn points_by_return(&self) -> [u64; 15] {
        match self.large_file {
            Some(large) if self.number_of_point_records == 0 => large.number_of_points_by_return,
            _ => {
                let mut counts = [0; 15];
                for (to, from) in counts.iter_mut().zip(self.number_of_points_by_return) {
                    *to = u64::from(from);
                }
                counts
            }
        }
    }

    /// The header's numbers in the library's order.
    fn numbers(&self) -> HeaderNumbers {
        let waveform = self.start_of_waveform_data_packet_record;
        let (evlr_start, evlr_count) = match self.evlrs {
            Some(evlrs) => (evlrs.start_of_first_evlr, evlrs.number_of_evlrs),
            None => (0, 0),
        };
        let large = self.large_file.unwrap_or_default();
        let [r1, r2, r3, r4, r5] = self.number_of_points_by_return.map(u64::from);
        let [l1, l2, l3, l4, l5, l6, l7, l8, l9, l10, l11, l12, l13, l14, l15] =
            large.number_of_points_by_return;
        HeaderNumbers {
            numbers: [
                u64::from(self.file_source_id),
                u64::from(self.global_encoding),
                u64::from(self.version.major),
                u64::from(self.version.minor),
                u64::from(self.file_creation_day_of_year),
                u64::from(self.file_creation_year),
                u64::from(self.header_size),
                u64::from(self.offset_to_point_data),
                u64::from(self.number_of_variable_length_records),
                u64::from(self.point_data_record_format),
                u64::from(self.point_data_record_length),
                u64::from(self.number_of_point_records),
                r1,
                r2,
                r3,
                r4,
                r5,
                self.x_scale_factor.to_bits(),
                self.y_scale_factor.to_bits(),
                self.z_scale_factor.to_bits(),
                self.x_offset.to_bits(),
                self.y_offset.to_bits(),
                self.z_offset.to_bits(),
                self.max_x.to_bits(),
                self.min_x.to_bits(),
                self.max_y.to_bits(),
                self.min_y.to_bits(),
                self.max_z.to_bits(),
                self.min_z.to_bits(),
                u64::from(waveform.is_some()),
                waveform.unwrap_or(0),
                u64::from(self.evlrs.is_some()),
                evlr_start,
                u64::from(evlr_count),
                u64::from(self.large_file.is_some()),
                large.number_of_point_records,
                l1,
                l2,
                l3,
                l4,
                l5,
                l6,
                l7,
                l8,
                l9,
                l10,
                l11,
                l12,
                l13,
                l14,
                l15,
            ],
            guid: self.guid,
            system_identifier: self.system_identifier,
            generating_software: self.generating_software,
        }
    }

    /// The header of numbers in the library's order.
    fn from_numbers(header: &HeaderNumbers) -> Header {
        let [file_source_id, global_encoding, major, minor, day, year, header_size, offset, vlrs, format, length, count, r1, r2, r3, r4, r5, x_scale, y_scale, z_scale, x_offset, y_offset, z_offset, max_x, min_x, max_y, min_y, max_z, min_z, has_waveform, waveform, has_evlrs, evlr_start, evlr_count, has_large, large_count, by_return @ ..] =
            header.numbers;
        Header {
            file_source_id: file_source_id as u16,
            global_encoding: global_encoding as u16,
            guid: header.guid,
            version: Version {
                major: major as u8,
                minor: minor as u8,
            },
            system_identifier: header.system_identifier,
            generating_software: header.generating_software,
            file_creation_day_of_year: day as u16,
            file_creation_year: year as u16,
            header_size: header_size as u16,
            offset_to_point_data: offset as u32,
            number_of_variable_length_records: vlrs as u32,
            point_data_record_format: format as u8,
            point_data_record_length: length as u16,
            number_of_point_records: count as u32,
            number_of_points_by_return: [r1, r2, r3, r4, r5].map(|count| count as u32),
            x_scale_factor: f64::from_bits(x_scale),
            y_scale_factor: f64::from_bits(y_scale),
            z_scale_factor: f64::from_bits(z_scale),
            x_offset: f64::from_bits(x_offset),
            y_offset: f64::from_bits(y_offset),
            z_offset: f64::from_bits(z_offset),
            max_x: f64::from_bits(max_x),
            min_x: f64::from_bits(min_x),
            max_y: f64::from_bits(max_y),
            min_y: f64::from_bits(min_y),
            max_z: f64::from_bits(max_z),
            min_z: f64::from_bits(min_z),
            start_of_waveform_data_packet_record: (has_waveform != 0).then_some(waveform),
            evlrs: (has_evlrs != 0).then_some(Evlrs {
                start_of_first_evlr: evlr_start,
                number_of_evlrs: evlr_count as u32,
            }),
            large_file: (has_large != 0).then_some(LargeFile {
                number_of_point_records: large_count,
                number_of_points_by_return: by_return,
            }),
        }
    }
}

/// The default header of the Rust crate las.
impl Default for Header {
    fn default() -> Header {
        Header::from_numbers(&sys::header_default())
    }
}

impl PartialEq for Header {
    fn eq(&self, other: &Header) -> bool {
        self.numbers() == other.numbers()
    }
}

impl Eq for Header {}

#[cfg(test)]
mod tests {
    use super::*;

    const V14: Version = Version { major: 1, minor: 4 };

    /// A header whose every field is another number.
    fn telling() -> Header {
        let mut header = Header::new(V14).unwrap();
        let mut next = 0x0102_0304_0506_0708_u64;
        let mut more = || {
            next = next
                .wrapping_mul(6_364_136_223_846_793_005)
                .wrapping_add(1_442_695_040_888_963_407);
            next
        };
        header.file_source_id = more() as u16;
        header.global_encoding = more() as u16;
        header.guid = [more() as u8; 16];
        header.set_system("system");
        header.set_software("software");
        header.file_creation_day_of_year = more() as u16;
        header.file_creation_year = more() as u16;
        header.offset_to_point_data = more() as u32;
        header.number_of_variable_length_records = more() as u32;
        header.point_data_record_format = 7;
        header.point_data_record_length = 40;
        header.number_of_point_records = more() as u32;
        header.number_of_points_by_return = [(); 5].map(|()| more() as u32);
        for float in [
            &mut header.x_scale_factor,
            &mut header.y_scale_factor,
            &mut header.z_scale_factor,
            &mut header.x_offset,
            &mut header.y_offset,
            &mut header.z_offset,
            &mut header.max_x,
            &mut header.min_x,
            &mut header.max_y,
            &mut header.min_y,
            &mut header.max_z,
            &mut header.min_z,
        ] {
            *float = f64::from_bits(more());
        }
        header.start_of_waveform_data_packet_record = Some(more());
        header.evlrs = Some(Evlrs {
            start_of_first_evlr: more(),
            number_of_evlrs: more() as u32,
        });
        header.large_file = Some(LargeFile {
            number_of_point_records: more(),
            number_of_points_by_return: [(); 15].map(|()| more()),
        });
        header
    }

    #[test]
    fn every_field_is_written_and_read_again() {
        let header = telling();
        let bytes = header.to_vec(&[]).unwrap();
        assert_eq!(bytes.len(), 375);
        assert_eq!(Header::read(&bytes), Ok(header));
        assert_eq!(header.system(), "system");
        assert_eq!(header.software(), "software");
    }

    #[test]
    fn a_signalling_nan_keeps_its_bits() {
        let mut header = telling();
        let bits = 0x7ff0_0000_0000_0001;
        header.min_z = f64::from_bits(bits);
        let bytes = header.to_vec(&[]).unwrap();
        let again = Header::read(&bytes).unwrap();
        assert_eq!(again.min_z.to_bits(), bits);
        assert_eq!(again, header);
        header.min_z = f64::from_bits(bits + 1);
        assert_ne!(again, header);
    }

    #[test]
    fn padding_follows_the_fields() {
        let mut header = telling();
        header.header_size = 378;
        let bytes = header.to_vec(b"pad").unwrap();
        assert_eq!(Header::padding(&bytes), b"pad");
        assert_eq!(Header::padding(&bytes[..377]), b"");
    }

    #[test]
    fn sizes_of_the_versions() {
        for (minor, size) in [(0, 227), (1, 227), (2, 227), (3, 235), (4, 375)] {
            let header = Header::new(Version { major: 1, minor }).unwrap();
            let bytes = header.to_vec(&[]).unwrap();
            assert_eq!(bytes.len(), size);
            let again = Header::read(&bytes).unwrap();
            assert_eq!(usize::from(again.header_size), size);
        }
        let refusal = Header::new(Version { major: 2, minor: 0 }).unwrap_err();
        assert_eq!((refusal.number(), refusal.value()), (3, 512));
        let mut unknown = telling();
        unknown.version.minor = 5;
        let refusal = unknown.write(&[], &mut [0; 400]).unwrap_err();
        assert_eq!((refusal.number(), refusal.value()), (3, 261));
    }

    #[test]
    fn no_room_leaves_the_destination() {
        let mut dst = [0xa5; 374];
        let refusal = telling().write(&[], &mut dst).unwrap_err();
        assert_eq!((refusal.number(), refusal.value()), (22, 375));
        assert_eq!(dst, [0xa5; 374]);
    }

    #[test]
    fn which_counts_by_return() {
        let mut header = telling();
        assert_eq!(
            header.points_by_return()[4],
            u64::from(header.number_of_points_by_return[4])
        );
        assert_eq!(header.points_by_return()[5], 0);
        header.number_of_point_records = 0;
        assert_eq!(
            Some(header.points_by_return()),
            header
                .large_file
                .map(|large| large.number_of_points_by_return)
        );
    }

    #[test]
    fn bounds_are_six_fields() {
        let mut header = Header::new(V14).unwrap();
        (header.min_x, header.min_y, header.min_z) = (1.0, 2.0, 3.0);
        (header.max_x, header.max_y, header.max_z) = (4.0, 5.0, 6.0);
        let Bounds { min, max } = header.bounds();
        assert_eq!((min, max), ([1.0, 2.0, 3.0], [4.0, 5.0, 6.0]));
    }

    #[test]
    fn the_default_is_of_las() {
        let header = Header::default();
        assert_eq!(header.version, Version { major: 1, minor: 2 });
        assert_eq!(
            (header.header_size, header.point_data_record_length),
            (227, 20)
        );
        assert_eq!(Header::read(&header.to_vec(&[]).unwrap()), Ok(header));
    }
}
