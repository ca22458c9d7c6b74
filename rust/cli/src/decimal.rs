//! Numbers as text, put at the end of what is there: nothing is made anew for a number.
//!
//! A header's scale and offset are floats that stand for short decimals, as 0.001 and 500000. A coordinate is worked out
//! from those decimals in whole numbers, so that it shows neither rounding nor digits that nobody measured.

use std::io::Write;

/// A number that is `digits` divided by ten to the power of `places`.
#[derive(Clone, Copy, Debug, PartialEq, Eq)]
struct Decimal {
    digits: i128,
    places: u32,
}

/// The most places after the point.
const PLACES: u32 = 30;

impl Decimal {
    /// The shortest decimal that is read as this float; none for infinities and NaNs, and for numbers too far from 1.
    fn shortest(value: f64) -> Option<Decimal> {
        if !value.is_finite() {
            return None;
        }
        let shown = format!("{value:e}");
        let (mantissa, exponent) = shown.split_once('e')?;
        let exponent: i32 = exponent.parse().ok()?;
        let (whole, fraction) = mantissa.split_once('.').unwrap_or((mantissa, ""));
        let digits: i128 = format!("{whole}{fraction}").parse().ok()?;
        let places = i32::try_from(fraction.len()).ok()?.checked_sub(exponent)?;
        if places >= 0 {
            let places = places.unsigned_abs();
            return (places <= PLACES).then_some(Decimal { digits, places });
        }
        let power = 10_i128.checked_pow(places.unsigned_abs())?;
        let digits = digits.checked_mul(power)?;
        Some(Decimal { digits, places: 0 })
    }

    /// The digits with more places after the point.
    fn with_places(self, places: u32) -> Option<i128> {
        let more = 10_i128.checked_pow(places.checked_sub(self.places)?)?;
        self.digits.checked_mul(more)
    }
}

/// What makes the numbers of a column of stored ones, by a scale and an offset, all in one form: exact decimals, with as many
/// places as scale and offset have; or, where no decimals are exact for all of them, floats.
pub(crate) enum Scaled {
    /// In steps of the last place, where 64 bits hold all that comes of it.
    Narrow {
        scale: i64,
        offset: i64,
        places: u32,
    },
    /// The same where they do not.
    Wide {
        scale: i128,
        offset: i128,
        places: u32,
    },
    Float {
        scale: f64,
        offset: f64,
    },
}

impl Scaled {
    /// The form for stored numbers between these two.
    pub(crate) fn new(scale: f64, offset: f64, (least, most): (i128, i128)) -> Scaled {
        let exact = || {
            let (by, from) = (Decimal::shortest(scale)?, Decimal::shortest(offset)?);
            let places = by.places.max(from.places);
            let (by, from) = (by.with_places(places)?, from.with_places(places)?);
            // What comes of all others lies between.
            let narrow = |number: i128| i64::try_from(number).ok();
            let mut fits = narrow(by).is_some() && narrow(from).is_some();
            for end in [least, most] {
                let scaled = end.checked_mul(by)?;
                let steps = scaled.checked_add(from)?;
                fits &= [end, scaled, steps]
                    .into_iter()
                    .all(|n| narrow(n).is_some());
            }
            Some(match (narrow(by), narrow(from)) {
                (Some(scale), Some(offset)) if fits => Scaled::Narrow {
                    scale,
                    offset,
                    places,
                },
                _ => Scaled::Wide {
                    scale: by,
                    offset: from,
                    places,
                },
            })
        };
        exact().unwrap_or(Scaled::Float { scale, offset })
    }

    /// Writes what comes of a stored number, and answers whether that is a number.
    pub(crate) fn write(&self, stored: i128, to: &mut Vec<u8>) -> bool {
        match *self {
            Scaled::Narrow {
                scale,
                offset,
                places,
            } => {
                // Of all numbers between the two ends neither step leaves 64 bits.
                let steps = (stored as i64).wrapping_mul(scale).wrapping_add(offset);
                decimal(steps, places, to);
                true
            }
            Scaled::Wide {
                scale,
                offset,
                places,
            } => {
                wide_decimal(stored.wrapping_mul(scale).wrapping_add(offset), places, to);
                true
            }
            Scaled::Float { scale, offset } => {
                let nearest = stored as f64 * scale + offset;
                if nearest.is_finite() {
                    float(nearest, to);
                }
                nearest.is_finite()
            }
        }
    }
}

/// The two digits of each number below 100.
#[rustfmt::skip]
static PAIRS: [[u8; 2]; 100] = [
    *b"00", *b"01", *b"02", *b"03", *b"04", *b"05", *b"06", *b"07", *b"08", *b"09",
    *b"10", *b"11", *b"12", *b"13", *b"14", *b"15", *b"16", *b"17", *b"18", *b"19",
    *b"20", *b"21", *b"22", *b"23", *b"24", *b"25", *b"26", *b"27", *b"28", *b"29",
    *b"30", *b"31", *b"32", *b"33", *b"34", *b"35", *b"36", *b"37", *b"38", *b"39",
    *b"40", *b"41", *b"42", *b"43", *b"44", *b"45", *b"46", *b"47", *b"48", *b"49",
    *b"50", *b"51", *b"52", *b"53", *b"54", *b"55", *b"56", *b"57", *b"58", *b"59",
    *b"60", *b"61", *b"62", *b"63", *b"64", *b"65", *b"66", *b"67", *b"68", *b"69",
    *b"70", *b"71", *b"72", *b"73", *b"74", *b"75", *b"76", *b"77", *b"78", *b"79",
    *b"80", *b"81", *b"82", *b"83", *b"84", *b"85", *b"86", *b"87", *b"88", *b"89",
    *b"90", *b"91", *b"92", *b"93", *b"94", *b"95", *b"96", *b"97", *b"98", *b"99",
];

/// Room for the longest number: 39 digits, a point and a sign.
const ROOM: usize = 48;

/// A number's text, whose last digits are written first.
struct Backwards {
    bytes: [u8; ROOM],
    begin: usize,
}

impl Backwards {
    fn new() -> Backwards {
        Backwards {
            bytes: [0; ROOM],
            begin: ROOM,
        }
    }

    /// Puts a character before the others; there is room for all that a number has.
    fn push(&mut self, byte: u8) {
        self.begin = self.begin.saturating_sub(1);
        if let Some(place) = self.bytes.get_mut(self.begin) {
            *place = byte;
        }
    }

    /// Puts one digit before the others.
    fn digit(&mut self, digit: u64) {
        self.push(b'0'.wrapping_add((digit % 10) as u8));
    }

    /// Puts two digits before the others.
    fn pair(&mut self, number: u64) {
        let end = self.begin;
        self.begin = end.saturating_sub(2);
        let places = self.bytes.get_mut(self.begin..end);
        let pair = PAIRS.get((number % 100) as usize);
        if let (Some([tens, ones]), Some(pair)) = (places, pair) {
            [*tens, *ones] = *pair;
        }
    }

    fn finish(mut self, negative: bool, to: &mut Vec<u8>) {
        if negative {
            self.push(b'-');
        }
        to.extend_from_slice(self.bytes.get(self.begin..).unwrap_or_default());
    }
}

/// Writes a number of steps of the last of so many places after the point.
#[inline]
pub(crate) fn decimal(steps: i64, places: u32, to: &mut Vec<u8>) {
    let mut text = Backwards::new();
    let mut left = steps.unsigned_abs();
    let mut after = places;
    if after % 2 == 1 {
        text.digit(left);
        left /= 10;
        after = after.saturating_sub(1);
    }
    while after > 0 {
        text.pair(left);
        left /= 100;
        after = after.saturating_sub(2);
    }
    if places > 0 {
        text.push(b'.');
    }
    before_the_point(left, &mut text);
    text.finish(steps < 0, to);
}

/// Puts a number before what there is, at least one digit of it.
fn before_the_point(mut left: u64, text: &mut Backwards) {
    while left >= 100 {
        text.pair(left);
        left /= 100;
    }
    match left {
        0..=9 => text.digit(left),
        _ => text.pair(left),
    }
}

/// The same where 64 bits do not hold the steps.
fn wide_decimal(steps: i128, places: u32, to: &mut Vec<u8>) {
    let mut text = Backwards::new();
    let mut left = steps.unsigned_abs();
    for _ in 0..places {
        text.digit((left % 10) as u64);
        left /= 10;
    }
    if places > 0 {
        text.push(b'.');
    }
    while left > u128::from(u64::MAX) {
        text.digit((left % 10) as u64);
        left /= 10;
    }
    before_the_point(left as u64, &mut text);
    text.finish(steps < 0, to);
}

/// Writes a whole number.
pub(crate) fn whole(number: i64, to: &mut Vec<u8>) {
    decimal(number, 0, to);
}

/// Writes a whole number without a sign.
pub(crate) fn unsigned(number: u64, to: &mut Vec<u8>) {
    let mut text = Backwards::new();
    before_the_point(number, &mut text);
    text.finish(false, to);
}

/// Writes a float as the shortest decimal that it is read from: always with a point or with an exponent, so that a column of
/// floats looks like one.
pub(crate) fn float(number: f64, to: &mut Vec<u8>) {
    // Nothing fails on its way into a vector.
    let _ = write!(to, "{number:?}");
}

/// The same of a float of 32 bits.
pub(crate) fn float_of_32(number: f32, to: &mut Vec<u8>) {
    let _ = write!(to, "{number:?}");
}

/// The float of 64 bits that is read from the shortest decimal of one of 32, with `scratch` for the text.
pub(crate) fn widened(number: f32, scratch: &mut Vec<u8>) -> f64 {
    scratch.clear();
    float_of_32(number, scratch);
    let read = std::str::from_utf8(scratch)
        .ok()
        .and_then(|text| text.parse().ok());
    read.unwrap_or_else(|| f64::from(number))
}

#[cfg(test)]
mod tests {
    use super::*;

    const I32: (i128, i128) = (i32::MIN as i128, i32::MAX as i128);
    const U64: (i128, i128) = (0, u64::MAX as i128);

    fn text(write: impl FnOnce(&mut Vec<u8>)) -> String {
        let mut to = Vec::new();
        write(&mut to);
        String::from_utf8(to).unwrap()
    }

    fn shown(scale: f64, offset: f64, stored: i32) -> Option<String> {
        let scaled = Scaled::new(scale, offset, I32);
        let mut to = Vec::new();
        let is_number = scaled.write(stored.into(), &mut to);
        is_number.then(|| String::from_utf8(to).unwrap())
    }

    #[test]
    fn shortest_decimals() {
        let shortest = |value| Decimal::shortest(value).map(|d| (d.digits, d.places));
        assert_eq!(shortest(0.001), Some((1, 3)));
        assert_eq!(shortest(-2.5e-4), Some((-25, 5)));
        assert_eq!(shortest(500_000.0), Some((500_000, 0)));
        assert_eq!(shortest(0.0), Some((0, 0)));
        assert_eq!(shortest(f64::NAN), None);
        assert_eq!(shortest(f64::INFINITY), None);
        assert_eq!(shortest(5e-324), None);
        assert_eq!(shortest(1e300), None);
    }

    #[test]
    fn as_many_decimals_as_the_scale_has() {
        assert_eq!(shown(0.001, 500_000.0, 1), Some("500000.001".into()));
        assert_eq!(shown(0.001, 0.0, -1), Some("-0.001".into()));
        assert_eq!(shown(0.001, 0.0, 0), Some("0.000".into()));
        assert_eq!(shown(0.01, 0.0, 100), Some("1.00".into()));
        assert_eq!(shown(1.0, -3.0, 3), Some("0".into()));
        assert_eq!(shown(0.00025, 0.5, i32::MIN), Some("-536870.41200".into()));
        assert_eq!(shown(0.01, 0.125, 1), Some("0.135".into()));
        assert_eq!(shown(0.125, 4_000_000.0, 800), Some("4000100.000".into()));
    }

    #[test]
    fn digits() {
        for number in [
            0,
            1,
            9,
            10,
            99,
            100,
            101,
            12_345,
            999_999,
            i64::MAX,
            -1,
            -100,
            i64::MIN,
        ] {
            assert_eq!(text(|to| whole(number, to)), number.to_string());
        }
        for number in (0..=10_100).chain([u64::MAX]) {
            assert_eq!(text(|to| unsigned(number, to)), number.to_string());
        }
        assert_eq!(text(|to| decimal(-5, 4, to)), "-0.0005");
        assert_eq!(text(|to| decimal(123_456, 3, to)), "123.456");
        assert_eq!(
            text(|to| decimal(i64::MIN, 18, to)),
            "-9.223372036854775808"
        );
        assert_eq!(text(|to| wide_decimal(-5, 4, to)), "-0.0005");
        assert_eq!(text(|to| wide_decimal(-123_456, 3, to)), "-123.456");
        for number in [i128::MIN, i128::MAX, 1 << 64, -(1 << 64), 0] {
            assert_eq!(text(|to| wide_decimal(number, 0, to)), number.to_string());
        }
    }

    #[test]
    fn a_column_has_one_form() {
        // 64 bits hold the small ones and not the large: all are exact.
        let wide = Scaled::new(0.001, 0.0, U64);
        assert!(matches!(wide, Scaled::Wide { .. }));
        assert_eq!(text(|to| assert!(wide.write(5, to))), "0.005");
        let most = text(|to| assert!(wide.write(U64.1, to)));
        assert_eq!(most, "18446744073709551.615");
        assert!(matches!(
            Scaled::new(0.001, 4e6, I32),
            Scaled::Narrow { places: 3, .. }
        ));
        // Some would be exact and some not: none are.
        let scale = 1.234_567_890_123_456_7e15;
        let floats = Scaled::new(scale, 1e-14, U64);
        assert!(matches!(floats, Scaled::Float { .. }));
    }

    #[test]
    fn what_has_no_decimals_is_a_float() {
        assert_eq!(shown(1e300, 0.0, 2), Some("2e300".into()));
        assert_eq!(shown(f64::NAN, 0.0, 2), None);
        assert_eq!(shown(f64::MAX, 0.0, 2), None);
        let shown = [0.1, 4_000_100.0, 1e300, -1e-7].map(|n| text(|to| float(n, to)));
        assert_eq!(shown, ["0.1", "4000100.0", "1e300", "-1e-7"]);
        assert_eq!(text(|to| float_of_32(0.1, to)), "0.1");
        assert_eq!(widened(0.1, &mut Vec::new()), 0.1);
        assert!(widened(f32::NAN, &mut Vec::new()).is_nan());
    }

    #[test]
    fn never_farther_from_the_float_than_rounding() {
        let mut random = 1_u64;
        for _ in 0..10_000 {
            random = random
                .wrapping_mul(6_364_136_223_846_793_005)
                .wrapping_add(1);
            let stored = (random >> 32) as i32;
            let scale = [0.001, 0.01, 0.0001, 0.000_3][(random >> 30 & 3) as usize];
            let shown: f64 = shown(scale, 12_345.25, stored)
                .and_then(|text| text.parse().ok())
                .unwrap_or(f64::NAN);
            let float = f64::from(stored) * scale + 12_345.25;
            assert!((shown - float).abs() <= 1e-8, "{stored} {scale}");
        }
    }
}
