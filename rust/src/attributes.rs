//! Attributes: values that the extra bytes of every point hold, as a reflectance, by the names that the file gives them.
//!
//! ```
//! use inscjarol::{DataType, File, Value};
//! # let bytes = std::fs::read("../samples/stockpile.las")?;
//!
//! let file = File::check(&bytes)?;
//! let attributes = file.attributes()?;
//! for attribute in &attributes {
//!     println!("{}: {}", attribute.name(), attribute.data_type());
//! }
//!
//! let reflectance = attributes.find("reflectance")?;
//! assert_eq!(reflectance.data_type(), DataType::I16);
//! // In point 1 as it is stored, and by the scale that the descriptor says.
//! assert_eq!(reflectance.value(1)?, Value::I16(-1_208));
//! assert_eq!(reflectance.scaled(1)?, Some(-12.08));
//!
//! // Of all points, into a Vec, and of some at the front of a buffer that is there already.
//! assert_eq!(reflectance.to_vec(..)?.len(), 2_998);
//! let mut bits = [0; 100];
//! assert_eq!(reflectance.bits(25..=28, &mut bits)?, 4);
//!
//! let refusal = attributes.find("Reflectance").unwrap_err();
//! assert_eq!((refusal.number(), refusal.name()), (41, "name not found"));
//! # Ok::<(), Box<dyn std::error::Error>>(())
//! ```
//!
//! Which attributes there are and which bytes of which point are a value is the library's to say, and proved. What a number means by scale
//! and offset, and which number stands for none, is worked out in this crate ([`Descriptor::scaled`]), by the standard, and is outside
//! the proof.
//!
//! A file that is made anew gets its attributes by [`NewFile::attributes`](crate::NewFile::attributes); for any other the VLR that describes
//! them is made of [`to_vlr_data`].

use crate::{
    columns::Stretch,
    error::Error,
    file::File,
    refusal::{Kind, Refusal},
    sys::{self, AttributeNumbers, AttributesPlace, DescriptorNumbers},
    text,
};
use std::{borrow::Cow, fmt, iter::FusedIterator};

/// The user id of the VLR that describes extra bytes.
pub const USER_ID: &str = "LASF_Spec";

/// The record id of the VLR that describes extra bytes.
pub const RECORD_ID: u16 = 4;

/// What the values of an attribute are. The standard calls each by a number, 0 to 10.
#[derive(Clone, Copy, Debug, PartialEq, Eq, Hash)]
pub enum DataType {
    /// 0: this many bytes, of which nothing is said.
    Bytes(u8),
    /// 1: whole numbers of one byte.
    U8,
    /// 2: whole numbers of one byte, with a sign.
    I8,
    /// 3: whole numbers of two bytes.
    U16,
    /// 4: whole numbers of two bytes, with a sign.
    I16,
    /// 5: whole numbers of four bytes.
    U32,
    /// 6: whole numbers of four bytes, with a sign.
    I32,
    /// 7: whole numbers of eight bytes.
    U64,
    /// 8: whole numbers of eight bytes, with a sign.
    I64,
    /// 9: floats of four bytes.
    F32,
    /// 10: floats of eight bytes.
    F64,
}

impl DataType {
    /// The type with this number; bytes are this many.
    fn of(number: u64, bytes: u64) -> DataType {
        match number {
            1 => DataType::U8,
            2 => DataType::I8,
            3 => DataType::U16,
            4 => DataType::I16,
            5 => DataType::U32,
            6 => DataType::I32,
            7 => DataType::U64,
            8 => DataType::I64,
            9 => DataType::F32,
            10 => DataType::F64,
            _ => DataType::Bytes(bytes as u8),
        }
    }

    /// The standard's number.
    pub fn number(self) -> u8 {
        match self {
            DataType::Bytes(_) => 0,
            DataType::U8 => 1,
            DataType::I8 => 2,
            DataType::U16 => 3,
            DataType::I16 => 4,
            DataType::U32 => 5,
            DataType::I32 => 6,
            DataType::U64 => 7,
            DataType::I64 => 8,
            DataType::F32 => 9,
            DataType::F64 => 10,
        }
    }

    /// The bytes of a value.
    pub fn size(self) -> usize {
        let options = match self {
            DataType::Bytes(count) => count,
            _ => 0,
        };
        sys::descriptor_size(self.number(), options)
    }
}

/// `i16`, or `3 bytes`.
impl fmt::Display for DataType {
    fn fmt(&self, f: &mut fmt::Formatter<'_>) -> fmt::Result {
        f.pad(match self {
            DataType::Bytes(1) => "1 byte",
            DataType::Bytes(count) => return f.pad(&format!("{count} bytes")),
            DataType::U8 => "u8",
            DataType::I8 => "i8",
            DataType::U16 => "u16",
            DataType::I16 => "i16",
            DataType::U32 => "u32",
            DataType::I32 => "i32",
            DataType::U64 => "u64",
            DataType::I64 => "i64",
            DataType::F32 => "f32",
            DataType::F64 => "f64",
        })
    }
}

/// An attribute's value in a point, as it is stored: without scale and offset.
///
/// Of a float that is a NaN it is promised that it is one, and not which: every bit is in [`Attribute::bits`] and [`Attribute::bytes`].
#[derive(Clone, Copy, Debug, PartialEq)]
pub enum Value<'a> {
    /// Of [`DataType::Bytes`]: that part of the file.
    Bytes(&'a [u8]),
    /// Of [`DataType::U8`].
    U8(u8),
    /// Of [`DataType::I8`].
    I8(i8),
    /// Of [`DataType::U16`].
    U16(u16),
    /// Of [`DataType::I16`].
    I16(i16),
    /// Of [`DataType::U32`].
    U32(u32),
    /// Of [`DataType::I32`].
    I32(i32),
    /// Of [`DataType::U64`].
    U64(u64),
    /// Of [`DataType::I64`].
    I64(i64),
    /// Of [`DataType::F32`].
    F32(f32),
    /// Of [`DataType::F64`].
    F64(f64),
}

impl<'a> Value<'a> {
    /// The value of a type whose bits, or bytes, are these.
    fn of(data_type: DataType, bits: u64, bytes: &'a [u8]) -> Value<'a> {
        match data_type {
            DataType::Bytes(_) => Value::Bytes(bytes),
            DataType::U8 => Value::U8(bits as u8),
            DataType::I8 => Value::I8(bits as i8),
            DataType::U16 => Value::U16(bits as u16),
            DataType::I16 => Value::I16(bits as i16),
            DataType::U32 => Value::U32(bits as u32),
            DataType::I32 => Value::I32(bits as i32),
            DataType::U64 => Value::U64(bits),
            DataType::I64 => Value::I64(bits as i64),
            DataType::F32 => Value::F32(f32::from_bits(bits as u32)),
            DataType::F64 => Value::F64(f64::from_bits(bits)),
        }
    }

    /// Its type.
    pub fn data_type(self) -> DataType {
        match self {
            // No attribute has more bytes than that.
            Value::Bytes(bytes) => DataType::Bytes(u8::try_from(bytes.len()).unwrap_or(u8::MAX)),
            Value::U8(_) => DataType::U8,
            Value::I8(_) => DataType::I8,
            Value::U16(_) => DataType::U16,
            Value::I16(_) => DataType::I16,
            Value::U32(_) => DataType::U32,
            Value::I32(_) => DataType::I32,
            Value::U64(_) => DataType::U64,
            Value::I64(_) => DataType::I64,
            Value::F32(_) => DataType::F32,
            Value::F64(_) => DataType::F64,
        }
    }

    /// The number, or the nearest f64 to it; none of bytes.
    pub fn to_f64(self) -> Option<f64> {
        match self.widened() {
            Value::U64(n) => Some(n as f64),
            Value::I64(n) => Some(n as f64),
            Value::F64(number) => Some(number),
            _ => None,
        }
    }

    /// The same number in eight bytes, as a descriptor holds those that it speaks of: a u64, an i64 or an f64. Bytes stay as they are.
    pub fn widened(self) -> Value<'a> {
        match self {
            Value::U8(n) => Value::U64(n.into()),
            Value::U16(n) => Value::U64(n.into()),
            Value::U32(n) => Value::U64(n.into()),
            Value::I8(n) => Value::I64(n.into()),
            Value::I16(n) => Value::I64(n.into()),
            Value::I32(n) => Value::I64(n.into()),
            Value::F32(number) => Value::F64(number.into()),
            eight @ (Value::Bytes(_) | Value::U64(_) | Value::I64(_) | Value::F64(_)) => eight,
        }
    }

    /// The bits of the widened number; none of bytes.
    fn wide_bits(self) -> Option<u64> {
        match self.widened() {
            Value::U64(n) => Some(n),
            Value::I64(n) => Some(n as u64),
            Value::F64(number) => Some(number.to_bits()),
            _ => None,
        }
    }

    /// Whether it is this number, of which a NaN is one.
    fn is(self, other: Value<'_>) -> bool {
        match (self.widened(), other.widened()) {
            (Value::F64(a), Value::F64(b)) => a == b || (a.is_nan() && b.is_nan()),
            (a, b) => a == b,
        }
    }
}

/// A descriptor: 192 bytes that say what an attribute is.
///
/// ```
/// use inscjarol::{DataType, Descriptor};
///
/// let reflectance = Descriptor::new("reflectance", DataType::I16)
///     .with_about("dB")
///     .with_scale(0.01);
/// assert_eq!(Descriptor::read(&reflectance.to_bytes())?, reflectance);
/// assert_eq!((reflectance.scale(), reflectance.offset()), (Some(0.01), None));
///
/// // Types 11 to 30 were arrays before LAS 1.4 R15, and are refused.
/// let mut array = reflectance.to_bytes();
/// array[2] = 11;
/// assert_eq!(Descriptor::read(&array).unwrap_err().number(), 39);
/// # Ok::<(), inscjarol::Refusal>(())
/// ```
///
/// Two are equal when all their bits are.
#[derive(Clone, Copy, Debug, PartialEq, Eq, Hash)]
pub struct Descriptor {
    stored: DescriptorNumbers,
}

/// The places of a descriptor's numbers, as the library lists them.
const DATA_TYPE: usize = 1;
const OPTIONS: usize = 2;
const NO_DATA: usize = 4;
const MIN: usize = 5;
const MAX: usize = 6;
const SCALE: usize = 7;
const OFFSET: usize = 8;

/// Which bit of the options says that a number counts.
fn option(place: usize) -> u64 {
    match place {
        NO_DATA => 1,
        MIN => 1 << 1,
        MAX => 1 << 2,
        SCALE => 1 << 3,
        OFFSET => 1 << 4,
        _ => 0,
    }
}

impl Descriptor {
    /// The bytes of a descriptor.
    pub const SIZE: usize = 192;

    /// The descriptor of an attribute of this name, of a longer one the first 32 bytes, and of this type; nothing else is said.
    pub fn new(name: &str, data_type: DataType) -> Descriptor {
        let options = match data_type {
            DataType::Bytes(count) => u64::from(count),
            _ => 0,
        };
        let mut numbers = [0; 9];
        let [_, of, how, ..] = &mut numbers;
        (*of, *how) = (u64::from(data_type.number()), options);
        Descriptor {
            stored: DescriptorNumbers {
                numbers,
                name: text::field(name),
                deprecated: [0; 80],
                description: [0; 32],
            },
        }
    }

    /// The descriptor at the front of these bytes. Refused with 1 below 192 bytes, then with 39 where its type is above 10.
    pub fn read(bytes: &[u8]) -> Result<Descriptor, Refusal> {
        sys::descriptor_read(bytes).map(|stored| Descriptor { stored })
    }

    /// Writes its 192 bytes to the front of `dst`, and answers how many that is; what lies past them stays. Refused with 22 where `dst`
    /// is too small.
    pub fn write(&self, dst: &mut [u8]) -> Result<usize, Refusal> {
        sys::descriptor_write(&self.stored, dst)
    }

    /// Its 192 bytes.
    pub fn to_bytes(&self) -> [u8; Descriptor::SIZE] {
        let mut bytes = [0; Descriptor::SIZE];
        // Its type is one of the eleven and there is room, so that nothing is refused.
        let _ = self.write(&mut bytes);
        bytes
    }

    /// The text of the name: its bytes up to the first that is 0.
    pub fn name(&self) -> Cow<'_, str> {
        text::text(&self.stored.name)
    }

    /// All bytes of the name, which are what [`Attributes::find`] compares.
    pub fn name_bytes(&self) -> &[u8; 32] {
        &self.stored.name
    }

    /// The text of the description.
    pub fn about(&self) -> Cow<'_, str> {
        text::text(&self.stored.description)
    }

    /// What the values are.
    pub fn data_type(&self) -> DataType {
        DataType::of(self.number(DATA_TYPE), self.number(OPTIONS))
    }

    /// The options as they are stored: of bytes how many there are, of numbers the bits that say what of the descriptor counts.
    pub fn options(&self) -> u8 {
        self.number(OPTIONS) as u8
    }

    /// What a step of the stored number is, where the options say that this counts.
    pub fn scale(&self) -> Option<f64> {
        self.counting(SCALE).map(f64::from_bits)
    }

    /// What is added to the scaled number, where the options say that this counts.
    pub fn offset(&self) -> Option<f64> {
        self.counting(OFFSET).map(f64::from_bits)
    }

    /// The number that stands for none, as it is stored, where the options say that this counts; in eight bytes, as
    /// [`Value::widened`] has it.
    pub fn no_data(&self) -> Option<Value<'static>> {
        self.wide(NO_DATA)
    }

    /// The least number, in eight bytes, where the options say that this counts. It is the file's word, and nobody looked at the points.
    pub fn min(&self) -> Option<Value<'static>> {
        self.wide(MIN)
    }

    /// The largest number, likewise.
    pub fn max(&self) -> Option<Value<'static>> {
        self.wide(MAX)
    }

    /// What a stored value means: `value * scale + offset` in f64, with the scale and the offset that count. None where it is the number
    /// that stands for none, and of bytes.
    ///
    /// This is the standard's rule, worked out here and outside the proof.
    ///
    /// ```
    /// use inscjarol::{DataType, Descriptor, Value};
    ///
    /// let depth = Descriptor::new("depth", DataType::U16).with_scale(0.5).with_offset(-10.0);
    /// let depth = depth.with_no_data(Value::U16(65_535))?;
    /// assert_eq!(depth.scaled(Value::U16(30)), Some(5.0));
    /// assert_eq!(depth.scaled(Value::U16(65_535)), None);
    /// # Ok::<(), inscjarol::Error>(())
    /// ```
    pub fn scaled(&self, value: Value<'_>) -> Option<f64> {
        let number = value.to_f64()?;
        match self.no_data() {
            Some(none) if value.is(none) => None,
            _ => Some(number * self.scale().unwrap_or(1.0) + self.offset().unwrap_or(0.0)),
        }
    }

    /// The same with this description, of a longer one the first 32 bytes.
    pub fn with_about(mut self, about: &str) -> Descriptor {
        self.stored.description = text::field(about);
        self
    }

    /// The same with a scale. Bytes of which nothing is said have none, and stay as they are.
    pub fn with_scale(self, scale: f64) -> Descriptor {
        self.with(SCALE, scale.to_bits())
    }

    /// The same with an offset. Bytes of which nothing is said have none, and stay as they are.
    pub fn with_offset(self, offset: f64) -> Descriptor {
        self.with(OFFSET, offset.to_bits())
    }

    /// The same with a number that stands for none, which has to be of the attribute's type.
    pub fn with_no_data(self, none: Value<'_>) -> Result<Descriptor, Error> {
        Ok(self.with(NO_DATA, self.bits_of(none)?))
    }

    /// The same with the least and the largest number that the points have, as they are stored, which have to be of the attribute's
    /// type.
    pub fn with_range(self, min: Value<'_>, max: Value<'_>) -> Result<Descriptor, Error> {
        let (min, max) = (self.bits_of(min)?, self.bits_of(max)?);
        Ok(self.with(MIN, min).with(MAX, max))
    }

    /// A number, by its place.
    fn number(&self, place: usize) -> u64 {
        self.stored.numbers.get(place).copied().unwrap_or(0)
    }

    /// A number, where the options say that it counts; of bytes they are the count of these.
    fn counting(&self, place: usize) -> Option<u64> {
        let counts = match self.data_type() {
            DataType::Bytes(_) => false,
            _ => self.number(OPTIONS) & option(place) != 0,
        };
        counts.then(|| self.number(place))
    }

    /// The same as the kind of number that it is.
    fn wide(&self, place: usize) -> Option<Value<'static>> {
        let of = Value::of(self.data_type(), 0, &[]).widened().data_type();
        Some(Value::of(of, self.counting(place)?, &[]))
    }

    /// The bits that stand for a value in a descriptor, where it is one of the attribute's.
    fn bits_of(&self, value: Value<'_>) -> Result<u64, Error> {
        let bits = value
            .wide_bits()
            .filter(|_| value.data_type() == self.data_type());
        bits.ok_or_else(|| {
            Error::Setting(format!(
                "{value:?} is no number of the attribute {:?}, which has values of type {}",
                self.name(),
                self.data_type()
            ))
        })
    }

    /// The same with a number that counts.
    fn with(mut self, place: usize, bits: u64) -> Descriptor {
        if let DataType::Bytes(_) = self.data_type() {
            return self;
        }
        if let Some(number) = self.stored.numbers.get_mut(place) {
            *number = bits;
        }
        let [_, _, options, ..] = &mut self.stored.numbers;
        *options |= option(place);
        self
    }
}

/// The data of the VLR that describes these attributes, in the order in which their values stand in a point. A VLR holds 341 of them.
///
/// ```
/// use inscjarol::{attributes, DataType, Descriptor, Vlr};
///
/// let descriptors = [
///     Descriptor::new("reflectance", DataType::I16).with_scale(0.01),
///     Descriptor::new("pulse width", DataType::U16),
/// ];
/// let data = attributes::to_vlr_data(&descriptors);
/// let vlr = Vlr::new(false, attributes::USER_ID, attributes::RECORD_ID, "extra bytes", &data);
/// assert_eq!(vlr.to_vec()?.len(), 54 + 2 * 192);
/// # Ok::<(), inscjarol::Refusal>(())
/// ```
pub fn to_vlr_data(descriptors: &[Descriptor]) -> Vec<u8> {
    descriptors.iter().flat_map(Descriptor::to_bytes).collect()
}

/// The attributes of a file's points; from [`File::attributes`].
#[derive(Clone, Copy, Debug)]
pub struct Attributes<'a> {
    file: &'a [u8],
    allowance: u64,
    /// Where points begin in the file.
    points: u64,
    /// Before the first.
    place: AttributesPlace,
    len: usize,
}

impl<'a> File<'a> {
    /// The attributes that the points' extra bytes hold, as the file describes them; the module [`attributes`](self) has an example.
    ///
    /// Refused with 37 where no VLR describes them; with 38 where its data is not a multiple of 192 bytes; with 39 where a type is above
    /// 10; and with 40 where all together have more bytes than a point has extra ones. One broken descriptor refuses all. Of several
    /// such VLRs the first counts, and an EVLR is none.
    pub fn attributes(&self) -> Result<Attributes<'a>, Refusal> {
        let (place, len) = sys::attributes(self.bytes(), self.allowance)?;
        Ok(Attributes {
            file: self.bytes(),
            allowance: self.allowance,
            points: u64::from(self.header().offset_to_point_data),
            place,
            len,
        })
    }
}

impl<'a> Attributes<'a> {
    /// How many there are.
    pub fn len(&self) -> usize {
        self.len
    }

    /// Whether there are none, as by descriptors of 0 bytes.
    pub fn is_empty(&self) -> bool {
        self.len == 0
    }

    /// Each in turn, as they stand in a point.
    pub fn iter(&self) -> Iter<'a> {
        Iter {
            attributes: *self,
            left: self.len,
        }
    }

    /// The attribute with this name, of equal ones the first. All 32 bytes of a name are compared, zeros filling this one: capitals and
    /// blanks count. Refused with 41 where there is none.
    ///
    /// It does the file check again, and looks at every descriptor; so keep what it answers.
    pub fn find(&self, name: impl AsRef<[u8]>) -> Result<Attribute<'a>, Refusal> {
        let name = name.as_ref();
        let numbers = sys::attribute_find(self.file, self.allowance, name)?;
        // Where its values are is told; its descriptor is the first that has the name.
        let filled = name.iter().copied().chain(std::iter::repeat(0)).take(32);
        let mut named = self.iter().filter(|attribute| {
            let bytes = attribute.descriptor.name_bytes().iter().copied();
            attribute.numbers == numbers && bytes.eq(filled.clone())
        });
        let none = || Refusal::from_row(Kind::NameNotFound.number(), 0, 0);
        named.next().ok_or_else(none)
    }
}

impl<'a> IntoIterator for Attributes<'a> {
    type Item = Attribute<'a>;
    type IntoIter = Iter<'a>;

    fn into_iter(self) -> Iter<'a> {
        self.iter()
    }
}

impl<'a> IntoIterator for &Attributes<'a> {
    type Item = Attribute<'a>;
    type IntoIter = Iter<'a>;

    fn into_iter(self) -> Iter<'a> {
        self.iter()
    }
}

/// Attributes in their order; from [`Attributes::iter`].
#[derive(Clone, Debug)]
pub struct Iter<'a> {
    /// With the place of the next.
    attributes: Attributes<'a>,
    left: usize,
}

impl<'a> Iterator for Iter<'a> {
    type Item = Attribute<'a>;

    fn next(&mut self) -> Option<Attribute<'a>> {
        let Attributes { file, points, .. } = self.attributes;
        let (numbers, descriptor) = sys::attributes_next(file, &mut self.attributes.place)?;
        self.left = self.left.saturating_sub(1);
        Some(Attribute {
            file,
            points,
            numbers,
            descriptor: Descriptor::read(descriptor).ok()?,
        })
    }

    fn size_hint(&self) -> (usize, Option<usize>) {
        (self.left, Some(self.left))
    }
}

impl ExactSizeIterator for Iter<'_> {}

impl FusedIterator for Iter<'_> {}

/// An attribute: a value that the extra bytes of every point hold; from [`Attributes::find`] and [`Attributes::iter`].
#[derive(Clone, Copy, Debug)]
pub struct Attribute<'a> {
    file: &'a [u8],
    points: u64,
    numbers: AttributeNumbers,
    descriptor: Descriptor,
}

impl<'a> Attribute<'a> {
    /// The text of its name.
    pub fn name(&self) -> Cow<'_, str> {
        self.descriptor.name()
    }

    /// What its values are.
    pub fn data_type(&self) -> DataType {
        let [data_type, size, ..] = self.numbers;
        DataType::of(data_type, size)
    }

    /// All that the file says of it.
    pub fn descriptor(&self) -> &Descriptor {
        &self.descriptor
    }

    /// Its first byte in a point record, counted from 0.
    pub fn start(&self) -> usize {
        let [_, _, at, ..] = self.numbers;
        sys::in_memory(at.saturating_sub(self.points))
    }

    /// How many points have it: all of the file.
    pub fn point_count(&self) -> u64 {
        let [.., count] = self.numbers;
        count
    }

    /// Its value in a point, counted from 1, as it is stored. Refused with 27 where there is no such point. The file is not checked again,
    /// so that it takes as long in a large file as in a small one.
    pub fn value(&self, point: u64) -> Result<Value<'a>, Refusal> {
        let (bytes, bits) = sys::attribute_value(self.file, &self.numbers, point)?;
        Ok(Value::of(self.data_type(), bits, bytes))
    }

    /// The bytes of its value in a point, counted from 1, as that part of the file; refused as [`Attribute::value`] is.
    pub fn bytes(&self, point: u64) -> Result<&'a [u8], Refusal> {
        sys::attribute_value(self.file, &self.numbers, point).map(|(bytes, _)| bytes)
    }

    /// What its value in a point means, by the descriptor's scale, offset and number that stands for none ([`Descriptor::scaled`]); refused
    /// as [`Attribute::value`] is. What is worked out of the value is outside the proof.
    pub fn scaled(&self, point: u64) -> Result<Option<f64>, Refusal> {
        self.value(point).map(|value| self.descriptor.scaled(value))
    }

    /// Fills the front of `dst` with the bits of its values in these points, of more than eight bytes the first eight, and answers how
    /// many they are; what lies past them stays. A number with a sign stands in two's complement of its own width, zeros above it.
    ///
    /// Refused with 27 where the points are not all there, then with 22 where `dst` has fewer entries. A refused `dst` is left as it was.
    pub fn bits(&self, points: impl Into<Stretch>, dst: &mut [u64]) -> Result<usize, Refusal> {
        let stretch = points.into().in_file(self.point_count());
        sys::attribute_column(self.file, &self.numbers, stretch, dst)
    }

    /// The bits of its values in these points, as [`Attribute::bits`] has them; where that is refused, nothing is allocated.
    pub fn bits_to_vec(&self, points: impl Into<Stretch>) -> Result<Vec<u64>, Refusal> {
        let points = points.into();
        // What is refused where there is room for none says how many they are.
        let count = match self.bits(points, &mut []) {
            Err(refusal) if refusal.kind() == Kind::NoRoom => sys::in_memory(refusal.value()),
            answer => answer?,
        };
        let mut bits = vec![0; count];
        self.bits(points, &mut bits)?;
        Ok(bits)
    }

    /// Its values in these points, as they are stored; refused with 27 where they are not all there.
    pub fn to_vec(&self, points: impl Into<Stretch>) -> Result<Vec<Value<'a>>, Refusal> {
        let points = points.into();
        let (first, _) = points.in_file(self.point_count());
        let stored = self.bits_to_vec(points)?;
        let values = (first..)
            .zip(stored)
            .map(|(point, bits)| match self.data_type() {
                DataType::Bytes(_) => self.value(point),
                number => Ok(Value::of(number, bits, &[])),
            });
        values.collect()
    }

    /// What its values in these points mean, as [`Attribute::scaled`] has it; refused with 27 where the points are not all there.
    pub fn scaled_to_vec(&self, points: impl Into<Stretch>) -> Result<Vec<Option<f64>>, Refusal> {
        let values = self.to_vec(points)?.into_iter();
        Ok(values.map(|value| self.descriptor.scaled(value)).collect())
    }
}
