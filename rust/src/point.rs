//! Points.

use crate::{
    angle::ScanAngle,
    flags::Flags,
    format::Format,
    refusal::Refusal,
    sys::{self, PointNumbers},
};

/// A point's colour.
#[derive(Clone, Copy, Debug, Default, PartialEq, Eq, Hash)]
pub struct Color {
    /// Red.
    pub red: u16,
    /// Green.
    pub green: u16,
    /// Blue.
    pub blue: u16,
}

/// Where a point's waveform is, and where in it the point.
///
/// Floats keep every bit, a NaN's too.
#[derive(Clone, Copy, Debug, Default)]
pub struct Waveform {
    /// Which of the wave packet descriptors is meant, 0 for none.
    pub wave_packet_descriptor_index: u8,
    /// The first byte of the wave packet, from the start of the waveform data.
    pub byte_offset_to_waveform_data: u64,
    /// The bytes of the wave packet.
    pub waveform_packet_size_in_bytes: u32,
    /// Where in the waveform the point is, in picoseconds.
    pub return_point_waveform_location: f32,
    /// The change of x a picosecond.
    pub x_t: f32,
    /// The change of y a picosecond.
    pub y_t: f32,
    /// The change of z a picosecond.
    pub z_t: f32,
}

/// A point, as it is stored: coordinates are steps of the header's scale ([`Header::x`] and its neighbours make them
/// coordinates).
///
/// Floats keep every bit, a NaN's too. Two points are equal when all their bits are.
///
/// [`Header::x`]: crate::Header::x
#[derive(Clone, Copy, Debug, Default)]
pub struct Point<'a> {
    /// X, in steps of the header's scale.
    pub x: i32,
    /// Y, in steps of the header's scale.
    pub y: i32,
    /// Z, in steps of the header's scale.
    pub z: i32,
    /// How strong the return was.
    pub intensity: u16,
    /// Return numbers, class, overlap and the rest.
    pub flags: Flags,
    /// The angle at which it was scanned.
    pub scan_angle: ScanAngle,
    /// What the user keeps with it.
    pub user_data: u8,
    /// Where it comes from, as the flight line.
    pub point_source_id: u16,
    /// When it was scanned, where the format has that.
    pub gps_time: Option<f64>,
    /// Its colour, where the format has that.
    pub color: Option<Color>,
    /// Its waveform, where the format has that.
    pub waveform: Option<Waveform>,
    /// Near infrared, where the format has that: 0 is a number like any other, and none is written as 0.
    pub nir: Option<u16>,
    /// The record's extra bytes, as that part of the bytes that were read.
    pub extra_bytes: &'a [u8],
}

impl<'a> Point<'a> {
    /// The point in the first bytes of a record: refused with 8 where the format is overlong, and with 1 where the record
    /// is not all there.
    ///
    /// ```
    /// use inscjarol::{Format, Point};
    ///
    /// let format = Format::new(0)?;
    /// let point = Point { x: 150, intensity: 7, ..Point::default() };
    /// let record = point.to_vec(format)?;
    /// assert_eq!(Point::read(&record, format)?, point);
    /// assert_eq!(Point::read(&record[..19], format).unwrap_err().value(), 20);
    /// # Ok::<(), inscjarol::Refusal>(())
    /// ```
    pub fn read(record: &'a [u8], format: Format) -> Result<Point<'a>, Refusal> {
        let numbers = sys::point_read(record, format.word())?;
        Ok(Point::from_numbers(
            &numbers,
            sys::point_extra(record, format.word()),
        ))
    }

    /// Writes the point to the front of `dst`, and answers how many bytes that is; what lies past them stays. What the
    /// format has and the point has not is written as zeros. Refused with 8 where the format is overlong, with 23 where it
    /// has another number of extra bytes, with 22 where `dst` is too small, and with 15 to 18 where the flags do not fit an
    /// old format.
    pub fn write(&self, format: Format, dst: &mut [u8]) -> Result<usize, Refusal> {
        sys::point_write(&self.numbers(), self.extra_bytes, format.word(), dst)
    }

    /// The bytes of the point's record.
    pub fn to_vec(&self, format: Format) -> Result<Vec<u8>, Refusal> {
        let mut bytes = vec![0; usize::from(format.len()?)];
        self.write(format, &mut bytes)?;
        Ok(bytes)
    }

    /// That the point goes into an old format with every field the same for an old reader; else the first field that does
    /// not, as [`Run::to_old`] judges each record. A rank is judged as the scaled angle that it is upgraded to.
    ///
    /// [`Run::to_old`]: crate::Run::to_old
    pub fn check_old(&self) -> Result<(), Refusal> {
        sys::strict_check(&self.numbers())
    }

    /// The point with the flags and the angle of the new formats, as [`Run::to_new`] makes each record; one that has them
    /// stays as it is.
    ///
    /// [`Run::to_new`]: crate::Run::to_new
    #[must_use]
    pub fn upgraded(&self) -> Point<'a> {
        let mut numbers = self.numbers();
        sys::strict_upgraded(&mut numbers);
        Point::from_numbers(&numbers, self.extra_bytes)
    }

    /// The point's numbers in the library's order.
    fn numbers(&self) -> PointNumbers {
        let color = self.color.unwrap_or_default();
        let waveform = self.waveform.unwrap_or_default();
        [
            u64::from(self.x as u32),
            u64::from(self.y as u32),
            u64::from(self.z as u32),
            u64::from(self.intensity),
            u64::from(self.flags.word()),
            u64::from(self.scan_angle.word()),
            u64::from(self.user_data),
            u64::from(self.point_source_id),
            u64::from(self.gps_time.is_some()),
            self.gps_time.unwrap_or(0.0).to_bits(),
            u64::from(self.color.is_some()),
            u64::from(color.red),
            u64::from(color.green),
            u64::from(color.blue),
            u64::from(self.nir.is_some()),
            u64::from(self.nir.unwrap_or(0)),
            u64::from(self.waveform.is_some()),
            u64::from(waveform.wave_packet_descriptor_index),
            waveform.byte_offset_to_waveform_data,
            u64::from(waveform.waveform_packet_size_in_bytes),
            u64::from(waveform.return_point_waveform_location.to_bits()),
            u64::from(waveform.x_t.to_bits()),
            u64::from(waveform.y_t.to_bits()),
            u64::from(waveform.z_t.to_bits()),
        ]
    }

    /// The point of numbers in the library's order, and its extra bytes.
    pub(crate) fn from_numbers(numbers: &PointNumbers, extra_bytes: &'a [u8]) -> Point<'a> {
        let [x, y, z, intensity, flags, angle, user_data, source, has_time, time, has_color, red, green, blue, has_nir, nir, has_waveform, index, offset, size, location, x_t, y_t, z_t] =
            *numbers;
        Point {
            x: x as u32 as i32,
            y: y as u32 as i32,
            z: z as u32 as i32,
            intensity: intensity as u16,
            flags: Flags::from_word(flags as u32),
            scan_angle: ScanAngle::from_word(angle as u32),
            user_data: user_data as u8,
            point_source_id: source as u16,
            gps_time: (has_time != 0).then_some(f64::from_bits(time)),
            color: (has_color != 0).then_some(Color {
                red: red as u16,
                green: green as u16,
                blue: blue as u16,
            }),
            waveform: (has_waveform != 0).then_some(Waveform {
                wave_packet_descriptor_index: index as u8,
                byte_offset_to_waveform_data: offset,
                waveform_packet_size_in_bytes: size as u32,
                return_point_waveform_location: f32::from_bits(location as u32),
                x_t: f32::from_bits(x_t as u32),
                y_t: f32::from_bits(y_t as u32),
                z_t: f32::from_bits(z_t as u32),
            }),
            nir: (has_nir != 0).then_some(nir as u16),
            extra_bytes,
        }
    }
}

impl PartialEq for Point<'_> {
    fn eq(&self, other: &Point<'_>) -> bool {
        self.numbers() == other.numbers() && self.extra_bytes == other.extra_bytes
    }
}

impl Eq for Point<'_> {}

#[cfg(test)]
mod tests {
    use super::*;

    /// A point of format 10 whose every field is another number.
    fn telling() -> Point<'static> {
        Point {
            x: -1_000_000,
            y: 2_000_001,
            z: i32::MIN,
            intensity: 0x1234,
            flags: Flags::ThreeByte(0x21, 0xc0, 5),
            scan_angle: ScanAngle::Scaled(-4_321),
            user_data: 0x56,
            point_source_id: 0x789a,
            gps_time: Some(f64::from_bits(0x7ff0_0000_0000_0001)),
            color: Some(Color {
                red: 1,
                green: 2,
                blue: 3,
            }),
            waveform: Some(Waveform {
                wave_packet_descriptor_index: 9,
                byte_offset_to_waveform_data: 0x0102_0304_0506_0708,
                waveform_packet_size_in_bytes: 0x1112_1314,
                return_point_waveform_location: f32::from_bits(0x7f80_0001),
                x_t: -1.5,
                y_t: f32::from_bits(0xffc0_1234),
                z_t: 1e-40,
            }),
            nir: Some(77),
            extra_bytes: b"xy",
        }
    }

    #[test]
    fn every_field_is_written_and_read_again() {
        let format = Format::new(10).unwrap().with_extra_bytes(2);
        let point = telling();
        let record = point.to_vec(format).unwrap();
        assert_eq!(record.len(), 69);
        assert_eq!(Point::read(&record, format), Ok(point));
        assert_eq!(Point::read(&record, format).unwrap().extra_bytes, b"xy");
    }

    #[test]
    fn a_nan_is_told_from_another() {
        let mut other = telling();
        assert_eq!(other, telling());
        other.gps_time = Some(f64::from_bits(0x7ff0_0000_0000_0002));
        assert_ne!(other, telling());
    }

    #[test]
    fn refusals_of_a_write() {
        let format = Format::new(10).unwrap();
        let refusal = telling().to_vec(format).unwrap_err();
        assert_eq!((refusal.number(), refusal.value()), (23, 0));
        let mut dst = [0xa5; 68];
        let refusal = telling()
            .write(format.with_extra_bytes(2), &mut dst)
            .unwrap_err();
        assert_eq!((refusal.number(), refusal.value()), (22, 69));
        assert_eq!(dst, [0xa5; 68]);
        let eighth = Point {
            flags: Flags::ThreeByte(0x88, 0, 2),
            ..Point::default()
        };
        assert_eq!(eighth.to_vec(Format::default()).unwrap_err().number(), 15);
    }

    #[test]
    fn near_infrared_0_is_a_number() {
        for code in 0..=10 {
            let format = Format::new(code).unwrap();
            let point = Point {
                extra_bytes: b"",
                ..telling()
            };
            for nir in [None, Some(0), Some(1), Some(u16::MAX)] {
                let record = Point { nir, ..point }.to_vec(format).unwrap();
                let read = Point::read(&record, format).unwrap();
                let stored = nir.unwrap_or(0);
                assert_eq!(read.nir, format.has_nir.then_some(stored), "{code}");
                assert_eq!(read.to_vec(format).unwrap(), record);
                // Only a number that isn't 0 is too much for an old reader.
                let lost = read.check_old().err().map(|refusal| refusal.value());
                assert_eq!(lost, read.nir.filter(|&nir| nir != 0).map(u64::from));
            }
        }
    }

    #[test]
    fn one_point_down_and_up() {
        let refusal = telling().check_old().unwrap_err();
        assert_eq!(
            (refusal.number(), refusal.value(), refusal.record()),
            (20, 77, 0)
        );
        let ground = Point {
            nir: None,
            ..telling()
        };
        assert_eq!(ground.check_old(), Ok(()));
        let old = Point {
            flags: Flags::TwoByte(0x51, 0x22),
            scan_angle: ScanAngle::Rank(3),
            nir: Some(0),
            ..ground
        };
        let new = old.upgraded();
        assert_eq!(new.nir, None);
        assert!(matches!(new.flags, Flags::ThreeByte(0x21, 0x41, 0x02)));
        assert!(matches!(new.scan_angle, ScanAngle::Scaled(500)));
        assert_eq!(new.extra_bytes, b"xy");
        assert_eq!(new.upgraded(), new);
        assert_eq!(new.check_old(), Ok(()));
    }

    #[test]
    fn a_rank_is_judged_as_what_it_is_upgraded_to() {
        for rank in i8::MIN..=i8::MAX {
            let old = Point {
                scan_angle: ScanAngle::Rank(rank),
                ..Point::default()
            };
            assert_eq!(old.check_old().is_ok(), (-90..=90).contains(&rank));
            assert_eq!(old.check_old(), old.upgraded().check_old());
        }
    }
}
