//! Texts in fields of fixed length.

use std::borrow::Cow;

/// A field's text: its bytes up to the first that is 0, as the standard has texts. Bytes that are no UTF-8 become
/// replacement characters.
///
/// ```
/// assert_eq!(inscjarol::text(b"LASF_Spec\0\0\0\0\0\0\0"), "LASF_Spec");
/// ```
pub fn text(field: &[u8]) -> Cow<'_, str> {
    let until = field.iter().position(|&byte| byte == 0);
    let shown = until.and_then(|end| field.get(..end)).unwrap_or(field);
    String::from_utf8_lossy(shown)
}

/// A field of `N` bytes with this text at its front and zeros after it; of a longer text the bytes that fit.
pub(crate) fn field<const N: usize>(text: &str) -> [u8; N] {
    let mut field = [0; N];
    for (to, &from) in field.iter_mut().zip(text.as_bytes()) {
        *to = from;
    }
    field
}

#[cfg(test)]
mod tests {
    use super::*;

    #[test]
    fn a_text_ends_at_its_zero_or_its_field() {
        assert_eq!(text(b""), "");
        assert_eq!(text(b"\0abc"), "");
        assert_eq!(text(b"abc"), "abc");
        assert_eq!(text(b"ab\xff"), "ab\u{fffd}");
        assert_eq!(field::<4>("ab"), *b"ab\0\0");
        assert_eq!(field::<2>("abc"), *b"ab");
    }
}
