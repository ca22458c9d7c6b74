//! Scan angles.

use crate::sys;

/// The angle at which a point was scanned.
///
/// Two angles are equal when they are the same angle, whichever way it is held: rank `r` and scaled `n` exactly when
/// 500 r = 3 n.
#[derive(Clone, Copy, Debug)]
pub enum ScanAngle {
    /// Whole degrees, as formats 0 to 5 have it.
    Rank(i8),
    /// Steps of 0.006 degrees, as formats 6 to 10 have it.
    Scaled(i16),
}

impl ScanAngle {
    /// The angle in the library's words: its kind from bit 16 up, its two's complement below.
    pub(crate) fn word(self) -> u32 {
        match self {
            ScanAngle::Rank(rank) => u32::from(rank as u8),
            ScanAngle::Scaled(scaled) => 0x1_0000 | u32::from(scaled as u16),
        }
    }

    /// The angle of a word.
    pub(crate) fn from_word(word: u32) -> ScanAngle {
        match word >> 16 {
            1 => ScanAngle::Scaled(word as u16 as i16),
            _ => ScanAngle::Rank(word as u8 as i8),
        }
    }

    /// The nearest whole degree, halves away from zero, held at -128 and 127.
    ///
    /// ```
    /// use inscjarol::ScanAngle::Scaled;
    /// assert_eq!([249, 250, -250, 21_250].map(|n| Scaled(n).to_rank()), [1, 2, -2, 127]);
    /// ```
    pub fn to_rank(self) -> i8 {
        sys::angle_to_rank(self.word())
    }

    /// Steps of 0.006 degrees; of a rank 500 r / 3, its fraction dropped.
    pub fn to_scaled(self) -> i16 {
        sys::angle_to_scaled(self.word())
    }

    /// The angle in degrees.
    pub fn to_degrees(self) -> f32 {
        sys::angle_to_degrees(self.word())
    }

    /// The scaled angle of an angle in degrees, its fraction dropped, held at the ends of its 16 bits; 0 for a NaN.
    pub fn from_degrees(degrees: f32) -> ScanAngle {
        ScanAngle::from_word(sys::angle_from_degrees(degrees))
    }
}

/// Rank 0.
impl Default for ScanAngle {
    fn default() -> ScanAngle {
        ScanAngle::Rank(0)
    }
}

impl PartialEq for ScanAngle {
    fn eq(&self, other: &ScanAngle) -> bool {
        sys::angle_eq(self.word(), other.word())
    }
}

impl Eq for ScanAngle {}

#[cfg(test)]
mod tests {
    use super::ScanAngle::{self, Rank, Scaled};

    #[test]
    fn words_go_both_ways() {
        for rank in i8::MIN..=i8::MAX {
            assert!(matches!(ScanAngle::from_word(Rank(rank).word()), Rank(r) if r == rank));
        }
        for scaled in i16::MIN..=i16::MAX {
            assert!(
                matches!(ScanAngle::from_word(Scaled(scaled).word()), Scaled(n) if n == scaled)
            );
        }
    }

    #[test]
    fn numbers_on_each_side() {
        let ranks = [249, 250, -250, 21_249, 21_250, -21_416].map(|n| Scaled(n).to_rank());
        assert_eq!(ranks, [1, 2, -2, 127, 127, -128]);
        let scaled = [1, 3, -128].map(|r| Rank(r).to_scaled());
        assert_eq!(scaled, [166, 500, -21_333]);
    }

    #[test]
    fn degrees() {
        assert_eq!(Rank(-7).to_degrees(), -7.0);
        assert_eq!(Scaled(1).to_degrees().to_bits(), 0x3BC4_9BA6);
        assert!(matches!(ScanAngle::from_degrees(f32::NAN), Scaled(0)));
        assert!(matches!(ScanAngle::from_degrees(1e9), Scaled(i16::MAX)));
        assert!(matches!(ScanAngle::from_degrees(-1e9), Scaled(i16::MIN)));
    }

    #[test]
    fn equal_angles() {
        assert_eq!(Rank(3), Scaled(500));
        assert_eq!(Scaled(500), Rank(3));
        assert_ne!(Rank(1), Scaled(166));
        assert_ne!(Rank(1), Rank(2));
    }
}
