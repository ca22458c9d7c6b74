//! The attributes of a file, which its extra bytes hold: found and read by the library, and here put into words.

use super::show::float;
use inscjarol::{Attribute, DataType, File, Kind, Refusal, Value};

/// The attributes that a file's points have; or, where its descriptors are refused, none and why.
pub(crate) struct Extras<'a> {
    pub(crate) attributes: Vec<Attribute<'a>>,
    /// Why there are none, where that is news: a file without extra bytes need not describe any.
    pub(crate) refusal: Option<Refusal>,
}

impl<'a> Extras<'a> {
    /// For whoever asks for none of them.
    pub(crate) fn none() -> Extras<'a> {
        Extras {
            attributes: Vec::new(),
            refusal: None,
        }
    }

    pub(crate) fn of(file: &File<'a>) -> Extras<'a> {
        let (attributes, refusal) = match file.attributes() {
            Ok(attributes) => (attributes.iter().collect(), None),
            Err(refusal) => (Vec::new(), Some(refusal)),
        };
        let is_news = |refusal: &Refusal| {
            refusal.kind() != Kind::NoDescriptors || file.format().extra_bytes > 0
        };
        Extras {
            attributes,
            refusal: refusal.filter(is_news),
        }
    }
}

/// The least and the largest number of a type, where its numbers are whole.
pub(crate) fn range(data_type: DataType) -> Option<(i128, i128)> {
    match data_type {
        DataType::U8 => Some((0, u8::MAX.into())),
        DataType::I8 => Some((i8::MIN.into(), i8::MAX.into())),
        DataType::U16 => Some((0, u16::MAX.into())),
        DataType::I16 => Some((i16::MIN.into(), i16::MAX.into())),
        DataType::U32 => Some((0, u32::MAX.into())),
        DataType::I32 => Some((i32::MIN.into(), i32::MAX.into())),
        DataType::U64 => Some((0, u64::MAX.into())),
        DataType::I64 => Some((i64::MIN.into(), i64::MAX.into())),
        DataType::Bytes(_) | DataType::F32 | DataType::F64 => None,
    }
}

/// The whole number that a value is, if it is one.
pub(crate) fn whole(value: Value<'_>) -> Option<i128> {
    match value.widened() {
        Value::U64(n) => Some(n.into()),
        Value::I64(n) => Some(n.into()),
        _ => None,
    }
}

/// Type, scale and offset of an attribute in words, as `i16, scale 0.01`.
pub(crate) fn words(attribute: &Attribute<'_>) -> String {
    let descriptor = attribute.descriptor();
    let mut words = attribute.data_type().to_string();
    if let Some(scale) = descriptor.scale() {
        words.push_str(&format!(", scale {}", float(scale)));
    }
    if let Some(offset) = descriptor.offset() {
        words.push_str(&format!(", offset {}", float(offset)));
    }
    words
}
