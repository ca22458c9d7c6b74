//! The flags of a point record: return numbers, class, overlap and the rest.

use crate::{refusal::Refusal, sys};
use std::fmt;

/// The direction in which the scanner's mirror moved when the pulse left.
#[derive(Clone, Copy, Debug, PartialEq, Eq, Hash)]
pub enum ScanDirection {
    /// From right to left: the bit is 0.
    RightToLeft,
    /// From left to right: the bit is 1.
    LeftToRight,
}

/// A point's flags, as they are stored.
///
/// Two flags are equal when their three bytes ([`Flags::to_three_bytes`]) are.
///
/// ```
/// use inscjarol::Flags;
///
/// // The first of two returns, of class 2, where flight lines overlap.
/// let flags = Flags::ThreeByte(0x21, 0x08, 2);
/// assert_eq!((flags.return_number(), flags.number_of_returns()), (1, 2));
/// assert!(flags.is_overlap() && flags.class() == 2);
/// ```
#[derive(Clone, Copy)]
pub enum Flags {
    /// The two bytes of formats 0 to 5.
    TwoByte(u8, u8),
    /// The three bytes of formats 6 to 10.
    ThreeByte(u8, u8, u8),
}

impl Flags {
    /// The flags in the library's words: the bytes from bit 0 up, and how many there are in bits 24 to 31.
    pub(crate) fn word(self) -> u32 {
        match self {
            Flags::TwoByte(a, b) => u32::from_le_bytes([a, b, 0, 2]),
            Flags::ThreeByte(a, b, c) => u32::from_le_bytes([a, b, c, 3]),
        }
    }

    /// The flags of a word.
    pub(crate) fn from_word(word: u32) -> Flags {
        match word.to_le_bytes() {
            [a, b, c, 3] => Flags::ThreeByte(a, b, c),
            [a, b, _, _] => Flags::TwoByte(a, b),
        }
    }

    /// Which of the pulse's returns this is.
    pub fn return_number(self) -> u8 {
        sys::flags_return_number(self.word())
    }

    /// How many returns the pulse had.
    pub fn number_of_returns(self) -> u8 {
        sys::flags_number_of_returns(self.word())
    }

    /// The direction of the scanner's mirror.
    pub fn scan_direction(self) -> ScanDirection {
        match sys::flags_scan_direction(self.word()) {
            true => ScanDirection::LeftToRight,
            false => ScanDirection::RightToLeft,
        }
    }

    /// Whether the point was made by other means than scanning.
    pub fn is_synthetic(self) -> bool {
        sys::flags_is_synthetic(self.word())
    }

    /// Whether the point is a model key point.
    pub fn is_key_point(self) -> bool {
        sys::flags_is_key_point(self.word())
    }

    /// Whether the point is to be left out, as if deleted.
    pub fn is_withheld(self) -> bool {
        sys::flags_is_withheld(self.word())
    }

    /// Whether the point lies where flight lines overlap. Of two bytes this is the reading of the Rust crate las: the low
    /// four bits of the class are 12, so at class 28 too, where the standard says no.
    pub fn is_overlap(self) -> bool {
        sys::flags_is_overlap(self.word())
    }

    /// The channel of a scanner with several; 0 in two bytes.
    pub fn scanner_channel(self) -> u8 {
        sys::flags_scanner_channel(self.word())
    }

    /// Whether the point is at the end of a scan.
    pub fn is_edge_of_flight_line(self) -> bool {
        sys::flags_is_edge_of_flight_line(self.word())
    }

    /// The class, as it is stored.
    pub fn class(self) -> u8 {
        sys::flags_class(self.word())
    }

    /// The two bytes that the Rust crate las makes of these flags, overlap as class 12, which loses the class of the point:
    /// ground flagged as overlap is no longer ground. Refused 15 to 18 where they do not fit. [`Run::to_old`] loses nothing.
    ///
    /// [`Run::to_old`]: crate::Run::to_old
    pub fn to_two_bytes(self) -> Result<[u8; 2], Refusal> {
        sys::flags_to_two_bytes(self.word())
    }

    /// The three bytes that the Rust crate las makes of these flags; two bytes lose direction and edge.
    /// [`Run::to_new`] loses nothing.
    ///
    /// [`Run::to_new`]: crate::Run::to_new
    pub fn to_three_bytes(self) -> [u8; 3] {
        let [a, b, c, _] = sys::flags_to_three_bytes(self.word()).to_le_bytes();
        [a, b, c]
    }

    /// The flags with class 12 turned into 1, in three bytes with the overlap bit set.
    #[must_use]
    pub fn clear_overlap_class(self) -> Flags {
        Flags::from_word(sys::flags_clear_overlap_class(self.word()))
    }
}

/// Two zero bytes.
impl Default for Flags {
    fn default() -> Flags {
        Flags::TwoByte(0, 0)
    }
}

impl PartialEq for Flags {
    fn eq(&self, other: &Flags) -> bool {
        sys::flags_eq(self.word(), other.word())
    }
}

impl Eq for Flags {}

impl fmt::Debug for Flags {
    fn fmt(&self, f: &mut fmt::Formatter<'_>) -> fmt::Result {
        match self {
            Flags::TwoByte(a, b) => write!(f, "TwoByte({a:#04x}, {b:#04x})"),
            Flags::ThreeByte(a, b, c) => write!(f, "ThreeByte({a:#04x}, {b:#04x}, {c})"),
        }
    }
}

#[cfg(test)]
mod tests {
    use super::{
        Flags::{self, ThreeByte, TwoByte},
        ScanDirection,
    };

    #[test]
    fn words_go_both_ways() {
        for bytes in 0..=u16::MAX {
            let [a, b] = bytes.to_le_bytes();
            assert!(
                matches!(Flags::from_word(TwoByte(a, b).word()), TwoByte(x, y) if (x, y) == (a, b))
            );
            let three = ThreeByte(b, a, b ^ 0x5a);
            assert!(matches!(
                Flags::from_word(three.word()),
                ThreeByte(x, y, z) if (x, y, z) == (b, a, b ^ 0x5a)
            ));
        }
    }

    #[test]
    fn every_reading_of_three_bytes() {
        let flags = ThreeByte(0x32, 0b1110_1101, 40);
        assert_eq!((flags.return_number(), flags.number_of_returns()), (2, 3));
        assert!(flags.is_synthetic() && !flags.is_key_point());
        assert!(flags.is_withheld() && flags.is_overlap());
        assert_eq!(flags.scanner_channel(), 2);
        assert_eq!(flags.scan_direction(), ScanDirection::LeftToRight);
        assert!(flags.is_edge_of_flight_line());
        assert_eq!(flags.class(), 40);
    }

    #[test]
    fn every_reading_of_two_bytes() {
        let flags = TwoByte(0b1001_1010, 0b0101_1100);
        assert_eq!((flags.return_number(), flags.number_of_returns()), (2, 3));
        assert_eq!(flags.scan_direction(), ScanDirection::RightToLeft);
        assert!(flags.is_edge_of_flight_line());
        assert_eq!((flags.class(), flags.scanner_channel()), (28, 0));
        assert!(!flags.is_synthetic() && flags.is_key_point() && !flags.is_withheld());
        assert!(flags.is_overlap());
    }

    #[test]
    fn numbers_on_each_side() {
        assert_eq!(ThreeByte(0x11, 0, 2).to_two_bytes(), Ok([0x09, 0x02]));
        assert_eq!(ThreeByte(0x21, 0x48, 2).to_two_bytes(), Ok([0x51, 0x0c]));
        assert_eq!(ThreeByte(0x11, 0, 28).to_two_bytes(), Ok([0x09, 0x1c]));
        assert_eq!(TwoByte(0x51, 0x22).to_three_bytes(), [0x21, 0, 0x22]);
        let refused = |flags: Flags| {
            let refusal = flags.to_two_bytes().unwrap_err();
            (refusal.number(), refusal.value())
        };
        assert_eq!(refused(ThreeByte(0x88, 0x10, 40)), (15, 8));
        assert_eq!(refused(ThreeByte(0x81, 0, 2)), (16, 8));
        assert_eq!(refused(ThreeByte(0x11, 0, 32)), (17, 32));
        assert_eq!(refused(ThreeByte(0x11, 0x10, 2)), (18, 1));
    }

    #[test]
    fn overlap_cleared() {
        assert!(matches!(
            TwoByte(9, 12).clear_overlap_class(),
            TwoByte(9, 1)
        ));
        assert!(matches!(
            ThreeByte(9, 0, 12).clear_overlap_class(),
            ThreeByte(9, 8, 1)
        ));
        assert!(matches!(
            TwoByte(9, 28).clear_overlap_class(),
            TwoByte(9, 28)
        ));
    }

    #[test]
    fn equal_flags() {
        assert_eq!(TwoByte(0x11, 2), TwoByte(0x11, 2));
        assert_eq!(TwoByte(0x09, 2), ThreeByte(0x11, 0, 2));
        assert_ne!(TwoByte(0x09, 2), ThreeByte(0x11, 8, 2));
    }
}
