//! Point formats.

use crate::{refusal::Refusal, sys};

/// Which fields a point record has.
#[derive(Clone, Copy, Debug, Default, PartialEq, Eq, Hash)]
pub struct Format {
    /// Whether it has a GPS time.
    pub has_gps_time: bool,
    /// Whether it has red, green and blue.
    pub has_color: bool,
    /// Whether it is of the extended kind: three bytes of flags and an angle of 16 bits.
    pub is_extended: bool,
    /// Whether it has a waveform.
    pub has_waveform: bool,
    /// Whether it has near infrared.
    pub has_nir: bool,
    /// How many extra bytes a record has at its end.
    pub extra_bytes: u16,
    /// Whether the points are compressed.
    pub is_compressed: bool,
}

impl Format {
    /// The format with this code. Codes 0 to 10 are known; one of 128 or more is masked and marked as compressed; the others
    /// are refused with 5.
    ///
    /// ```
    /// use inscjarol::Format;
    ///
    /// let format = Format::new(6)?.with_extra_bytes(2);
    /// assert!(format.is_extended && format.has_gps_time);
    /// assert_eq!(format.len()?, 32);
    /// assert_eq!(Format::new(11).unwrap_err().number(), 5);
    /// # Ok::<(), inscjarol::Refusal>(())
    /// ```
    pub fn new(code: u8) -> Result<Format, Refusal> {
        sys::format_new(code).map(Format::from_word)
    }

    /// The format with this many extra bytes.
    #[must_use]
    pub fn with_extra_bytes(self, extra_bytes: u16) -> Format {
        Format {
            extra_bytes,
            ..self
        }
    }

    /// The format with a GPS time and the extended fields.
    #[must_use]
    pub fn extend(self) -> Format {
        Format::from_word(sys::format_extend(self.word()))
    }

    /// The bytes of a record; refused with 8 where there are more than 65,535.
    #[allow(clippy::len_without_is_empty)] // no record has no bytes
    pub fn len(self) -> Result<u16, Refusal> {
        sys::format_len(self.word())
    }

    /// The format's code; refused with 25 where it is compressed or no code has these fields.
    pub fn to_u8(self) -> Result<u8, Refusal> {
        sys::format_to_u8(self.word())
    }

    /// The format in the library's words: a bit for each field, and the extra bytes from bit 16 up.
    pub(crate) fn word(self) -> u32 {
        u32::from(self.has_gps_time)
            | u32::from(self.has_color) << 1
            | u32::from(self.is_extended) << 2
            | u32::from(self.has_waveform) << 3
            | u32::from(self.has_nir) << 4
            | u32::from(self.is_compressed) << 5
            | u32::from(self.extra_bytes) << 16
    }

    /// The format of a word.
    pub(crate) fn from_word(word: u32) -> Format {
        let bit = |place: u32| word >> place & 1 == 1;
        Format {
            has_gps_time: bit(0),
            has_color: bit(1),
            is_extended: bit(2),
            has_waveform: bit(3),
            has_nir: bit(4),
            is_compressed: bit(5),
            extra_bytes: (word >> 16) as u16,
        }
    }
}

#[cfg(test)]
mod tests {
    use super::Format;

    #[test]
    fn sizes_and_codes() {
        let sizes: Vec<u16> = (0..=10)
            .map(|code| Format::new(code).unwrap().len().unwrap())
            .collect();
        assert_eq!(sizes, [20, 28, 26, 34, 57, 63, 30, 36, 38, 59, 67]);
        for code in 0..=10 {
            assert_eq!(Format::new(code).unwrap().to_u8(), Ok(code));
        }
        let refusal = Format::new(11).unwrap_err();
        assert_eq!((refusal.number(), refusal.value()), (5, 11));
    }

    #[test]
    fn compressed_and_overlong() {
        let compressed = Format::new(128 + 3).unwrap();
        assert!(compressed.is_compressed);
        assert_eq!(compressed.to_u8().unwrap_err().number(), 25);
        let overlong = Format::new(6).unwrap().with_extra_bytes(65_535);
        let refusal = overlong.len().unwrap_err();
        assert_eq!((refusal.number(), refusal.value()), (8, 65_565));
    }

    #[test]
    fn words_go_both_ways() {
        for attributes in 0..64 {
            for extra in [0, 1, 2, 65_535] {
                let word = attributes | extra << 16;
                assert_eq!(Format::from_word(word).word(), word);
            }
        }
    }

    #[test]
    fn extended() {
        let format = Format::new(3).unwrap().extend();
        assert_eq!(format.to_u8(), Ok(7));
    }
}
