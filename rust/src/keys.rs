//! Coordinate keys, which say the grid that the points of a file are in.
//!
//! ```
//! use inscjarol::{keys, keys::Value, File};
//! # use inscjarol::{keys::NewKeys, NewFile};
//! # fn main() -> Result<(), inscjarol::Error> {
//! # let made = NewKeys::new()
//! #     .number(keys::MODEL_TYPE, 1)
//! #     .number(keys::PROJECTED_CRS, 25_832)
//! #     .text(keys::PROJECTED_CITATION, "ETRS89 / UTM zone 32N")
//! #     .number(keys::PROJECTED_UNITS, 9_001)
//! #     .finish()?;
//! # let bytes = made.vlrs().fold(NewFile::new(1), NewFile::vlr).to_vec()?;
//!
//! let file = File::check(&bytes)?;
//! // Refused where the file has no keys, or where its directory of them is damaged.
//! let keys = file.keys()?;
//! // The code of the registry EPSG, for ETRS89 / UTM zone 32N.
//! assert_eq!(keys.get(keys::PROJECTED_CRS)?, Value::Number(25_832));
//! for key in &keys {
//!     match key.value {
//!         Value::Number(number) => println!("{}: {number}", key.id),
//!         Value::Doubles(doubles) => println!("{}: {:?}", key.id, doubles.to_vec()),
//!         Value::Text(text) => println!("{}: {}", key.id, inscjarol::text(text)),
//!     }
//! }
//!
//! let refusal = keys.get(keys::VERTICAL_CRS).unwrap_err();
//! assert_eq!((refusal.number(), refusal.name()), (48, "key not found"));
//! # Ok(())
//! # }
//! ```
//!
//! Their directory is the data of the first VLR with user id [`USER_ID`] and record id [`DIRECTORY`], and holds their numbers; doubles and
//! text stand in the first such VLRs with record ids [`DOUBLES`] and [`TEXT`]. An EVLR is not looked at. Which keys there are and what each
//! has is the library's to say, and proved. What a key or a code means, as that 3072 is the projected system and 25832 a code of EPSG,
//! is the standard GeoTIFF's, and outside the proof: the constants here only name keys.
//!
//! Points of formats 6 to 10 should say their grid in WKT, in a VLR with record id 2112, and bit 4 of the header's `global_encoding` says
//! that this counts.
//!
//! A new file gets its keys by [`NewKeys`].

use crate::{file::File, refusal::Refusal, sys, vlr::Vlr};
use std::{borrow::Cow, iter::FusedIterator};

/// The user id of the VLRs that hold keys and their values.
pub const USER_ID: &str = "LASF_Projection";

/// The record id of the VLR that is the directory of keys.
pub const DIRECTORY: u16 = 34_735;

/// The record id of the VLR that holds the keys' doubles.
pub const DOUBLES: u16 = 34_736;

/// The record id of the VLR that holds the keys' text.
pub const TEXT: u16 = 34_737;

/// The key that says whether coordinates are projected (1), angles (2) or from the middle of the earth (3).
pub const MODEL_TYPE: u16 = 1024;

/// The key whose text says what the coordinate system is, in all.
pub const CITATION: u16 = 1026;

/// The key of the EPSG code of a geographic system, whose coordinates are angles.
pub const GEOGRAPHIC_CRS: u16 = 2048;

/// The key whose text says what the geographic system is.
pub const GEOGRAPHIC_CITATION: u16 = 2049;

/// The key of the EPSG code of the unit of angles, as 9102 for degrees.
pub const ANGULAR_UNITS: u16 = 2054;

/// The key of the EPSG code of the projected system.
pub const PROJECTED_CRS: u16 = 3072;

/// The key whose text says what the projected system is.
pub const PROJECTED_CITATION: u16 = 3073;

/// The key of the EPSG code of the unit of X and Y, as 9001 for metres.
pub const PROJECTED_UNITS: u16 = 3076;

/// The key of the EPSG code of the system of heights.
pub const VERTICAL_CRS: u16 = 4096;

/// The key whose text says what the system of heights is.
pub const VERTICAL_CITATION: u16 = 4097;

/// The key of the EPSG code of the unit of heights.
pub const VERTICAL_UNITS: u16 = 4099;

/// The coordinate keys of a file; from [`File::keys`].
#[derive(Clone, Copy, Debug)]
pub struct Keys<'a> {
    file: &'a [u8],
    allowance: u64,
    /// Where they are, as the library has it.
    place: [u64; 5],
    count: usize,
}

/// A coordinate key with its value.
#[derive(Clone, Copy, Debug, PartialEq, Eq, Hash)]
pub struct Key<'a> {
    /// Which key it is.
    pub id: u16,
    /// What it has.
    pub value: Value<'a>,
}

/// What a coordinate key has. Two are equal when all their bits are.
#[derive(Clone, Copy, Debug, PartialEq, Eq, Hash)]
pub enum Value<'a> {
    /// A number, which stands in the directory itself.
    Number(u16),
    /// Doubles, which are a part of the record that holds them.
    Doubles(Doubles<'a>),
    /// Text, which is a part of the record that holds it, byte for byte; [`Value::to_text`] makes words of it.
    Text(&'a [u8]),
}

/// The doubles of a key, with the bits that the file has. Two are equal when all their bits are.
#[derive(Clone, Copy, Debug, PartialEq, Eq, Hash)]
pub struct Doubles<'a> {
    bytes: &'a [u8],
}

/// Coordinate keys.
impl<'a> File<'a> {
    /// The coordinate keys of the file, once their directory was found to be sound.
    ///
    /// Refused with 42 where the file has no directory; 43 where it has fewer bytes than it says; 44 where its keys do not rise; 45 where
    /// the location of a value is not 0, 34736 or 34737; 46 where the record of a location is not there; and 47 where a value ends beyond
    /// its record. Each is asked of the whole directory before the next, so that a broken key refuses all.
    ///
    /// ```
    /// # let bytes = std::fs::read("../samples/stockpile.las")?;
    /// let file = inscjarol::File::check(&bytes)?;
    /// // It says its grid in WKT.
    /// assert_eq!(file.keys().unwrap_err().number(), 42);
    /// # Ok::<(), Box<dyn std::error::Error>>(())
    /// ```
    pub fn keys(&self) -> Result<Keys<'a>, Refusal> {
        let (place, count) = sys::keys(self.bytes(), self.allowance)?;
        Ok(Keys {
            file: self.bytes(),
            allowance: self.allowance,
            place,
            count,
        })
    }
}

impl<'a> Keys<'a> {
    /// How many there are.
    pub fn len(&self) -> usize {
        self.count
    }

    /// Whether there are none.
    pub fn is_empty(&self) -> bool {
        self.count == 0
    }

    /// What this key has; refused with 48 where the file does not have it.
    pub fn get(&self, id: u16) -> Result<Value<'a>, Refusal> {
        let found = match sys::keys_find(self.file, &self.place, id) {
            Some(found) => found,
            // The library's own refusal.
            None => sys::key(self.file, self.allowance, id)?,
        };
        Ok(Key::of(self.file, found).value)
    }

    /// The keys in rising order.
    pub fn iter(&self) -> Iter<'a> {
        Iter {
            keys: *self,
            next: 0,
        }
    }
}

impl<'a> IntoIterator for Keys<'a> {
    type Item = Key<'a>;
    type IntoIter = Iter<'a>;

    fn into_iter(self) -> Iter<'a> {
        self.iter()
    }
}

impl<'a> IntoIterator for &Keys<'a> {
    type Item = Key<'a>;
    type IntoIter = Iter<'a>;

    fn into_iter(self) -> Iter<'a> {
        self.iter()
    }
}

/// Coordinate keys in rising order; from [`Keys::iter`].
#[derive(Clone, Debug)]
pub struct Iter<'a> {
    keys: Keys<'a>,
    next: usize,
}

impl<'a> Iterator for Iter<'a> {
    type Item = Key<'a>;

    fn next(&mut self) -> Option<Key<'a>> {
        let Keys { file, place, .. } = self.keys;
        let found = sys::keys_at(file, &place, u16::try_from(self.next).ok()?)?;
        self.next = self.next.saturating_add(1);
        Some(Key::of(file, found))
    }

    fn size_hint(&self) -> (usize, Option<usize>) {
        let left = self.keys.count.saturating_sub(self.next);
        (left, Some(left))
    }
}

impl ExactSizeIterator for Iter<'_> {}

impl FusedIterator for Iter<'_> {}

impl<'a> Key<'a> {
    /// The key that the library tells of.
    fn of(file: &'a [u8], [id, location, number, start, len]: [u64; 5]) -> Key<'a> {
        let part = sys::part_of(file, start, len);
        let value = match u16::try_from(location) {
            Ok(DOUBLES) => Value::Doubles(Doubles { bytes: part }),
            Ok(TEXT) => Value::Text(part),
            _ => Value::Number(number as u16),
        };
        Key {
            id: id as u16,
            value,
        }
    }
}

impl<'a> Value<'a> {
    /// The number, if it is one.
    pub fn to_number(self) -> Option<u16> {
        match self {
            Value::Number(number) => Some(number),
            _ => None,
        }
    }

    /// The words of a text, if it is one: up to its first zero, and without the bar `|` by which GeoTIFF ends each text. Bytes that are no
    /// UTF-8 become replacement characters.
    ///
    /// ```
    /// use inscjarol::keys::Value;
    ///
    /// assert_eq!(Value::Text(b"NAVD88 height (ftUS)|").to_text().as_deref(), Some("NAVD88 height (ftUS)"));
    /// assert_eq!(Value::Number(5703).to_text(), None);
    /// ```
    pub fn to_text(self) -> Option<Cow<'a, str>> {
        match self {
            Value::Text(bytes) => {
                let words = bytes.split(|byte| *byte == 0).next().unwrap_or_default();
                let words = words.strip_suffix(b"|").unwrap_or(words);
                Some(String::from_utf8_lossy(words))
            }
            _ => None,
        }
    }
}

impl<'a> Doubles<'a> {
    /// How many there are.
    pub fn len(&self) -> usize {
        self.bytes.len() / 8
    }

    /// Whether there are none.
    pub fn is_empty(&self) -> bool {
        self.bytes.is_empty()
    }

    /// Their bits in their order.
    pub fn bits(&self) -> impl Iterator<Item = u64> + 'a {
        let double = |eight: &[u8]| <[u8; 8]>::try_from(eight).ok();
        let doubles = self.bytes.chunks_exact(8).filter_map(double);
        doubles.map(u64::from_le_bytes)
    }

    /// The doubles in their order. Of one that is a NaN it is promised that it is one, and not which; [`Doubles::bits`] has every bit.
    pub fn iter(&self) -> impl Iterator<Item = f64> + 'a {
        self.bits().map(f64::from_bits)
    }

    /// All of them.
    pub fn to_vec(&self) -> Vec<f64> {
        self.iter().collect()
    }

    /// Their bytes, eight for each, as a part of the file.
    pub fn bytes(&self) -> &'a [u8] {
        self.bytes
    }
}

/// Coordinate keys for a file that is made anew.
///
/// ```
/// use inscjarol::{keys, keys::{NewKeys, Value}, File, NewFile};
/// # fn main() -> Result<(), inscjarol::Error> {
///
/// let made = NewKeys::new()
///     .number(keys::MODEL_TYPE, 1)
///     .text(keys::CITATION, "NAD83(2011) / UTM zone 15N + NAVD88 height (ftUS)")
///     .number(keys::PROJECTED_CRS, 6_344)
///     .number(keys::PROJECTED_UNITS, 9_001)
///     .number(keys::VERTICAL_CRS, 6_360)
///     .number(keys::VERTICAL_UNITS, 9_003)
///     .finish()?;
/// // Each record becomes a VLR of the file.
/// let bytes = made.vlrs().fold(NewFile::new(1), NewFile::vlr).to_vec()?;
///
/// let file = File::check(&bytes)?;
/// let keys = file.keys()?;
/// assert_eq!(keys.len(), 6);
/// assert_eq!(keys.get(keys::PROJECTED_CRS)?, Value::Number(6_344));
///
/// // Keys come in rising order.
/// let refusal = NewKeys::new().number(3072, 25_832).number(1024, 1).finish().unwrap_err();
/// assert_eq!(refusal.number(), 44);
/// # Ok(())
/// # }
/// ```
#[derive(Clone, Debug, Default, PartialEq, Eq, Hash)]
pub struct NewKeys {
    entries: Vec<[u16; 4]>,
    doubles: Vec<u8>,
    text: Vec<u8>,
}

impl NewKeys {
    /// No keys as yet.
    pub fn new() -> NewKeys {
        NewKeys::default()
    }

    /// One key more, with a number.
    pub fn number(mut self, id: u16, number: u16) -> Self {
        self.entries.push([id, 0, 1, number]);
        self
    }

    /// One key more, with doubles, whose bits are kept.
    pub fn doubles(mut self, id: u16, doubles: &[f64]) -> Self {
        let index = self.doubles.len() / 8;
        let bytes = doubles
            .iter()
            .flat_map(|double| double.to_bits().to_le_bytes());
        self.doubles.extend(bytes);
        self.part(id, DOUBLES, doubles.len(), index)
    }

    /// One key more, with a text, which is given the bar `|` at its end by which GeoTIFF ends each.
    pub fn text(mut self, id: u16, text: &str) -> Self {
        let index = self.text.len();
        self.text.extend(text.bytes());
        self.text.push(b'|');
        self.part(id, TEXT, text.len().saturating_add(1), index)
    }

    /// A key whose value is a part of a record. What has no place in 16 bits lies beyond what a VLR holds, so that its VLR is refused.
    fn part(mut self, id: u16, location: u16, count: usize, index: usize) -> Self {
        let [count, index] = [count, index].map(|n| u16::try_from(n).unwrap_or(u16::MAX));
        self.entries.push([id, location, count, index]);
        self
    }

    /// The records of these keys. Refused with 44 where a key is not above the one before it, then with 49 where there are more than
    /// 8,190, as many as a VLR holds. More than 65,535 bytes of doubles or of text are refused with 24 when their VLR is written.
    pub fn finish(self) -> Result<Records, Refusal> {
        Ok(Records {
            directory: directory(&self.entries)?,
            doubles: self.doubles,
            text: self.text,
        })
    }
}

/// The data of the VLRs that hold coordinate keys; from [`NewKeys::finish`].
#[derive(Clone, Debug, PartialEq, Eq, Hash)]
pub struct Records {
    directory: Vec<u8>,
    doubles: Vec<u8>,
    text: Vec<u8>,
}

impl Records {
    /// The VLRs: the directory, and those of doubles and of text where there are any. A file should have no others of these ids before
    /// them, since the first counts.
    pub fn vlrs(&self) -> impl Iterator<Item = Vlr<'_>> {
        let values = [
            (DOUBLES, "doubles of coordinate keys", &self.doubles),
            (TEXT, "text of coordinate keys", &self.text),
        ];
        let values = values.into_iter().filter(|(_, _, data)| !data.is_empty());
        [(DIRECTORY, "coordinate keys", &self.directory)]
            .into_iter()
            .chain(values)
            .map(|(id, about, data)| Vlr::new(false, USER_ID, id, about, data))
    }
}

/// Writes a directory to the front of `dst`, from four numbers for each key: the key, the location, the count, and the value or index.
/// Answers how many bytes that is; what lies past them stays. Locations are not judged: [`File::keys`] does that.
///
/// Refused with 44 where a key is not above the one before it, then with 49 where there are more than 8,190, then with 22 where `dst` is too
/// small. A refused `dst` is left as it was.
pub fn write_directory(entries: &[[u16; 4]], dst: &mut [u8]) -> Result<usize, Refusal> {
    sys::keys_write(&entries.concat(), dst)
}

/// The data of a directory, as [`write_directory`] writes it.
///
/// ```
/// use inscjarol::{keys, Vlr};
///
/// let data = keys::directory(&[[1024, 0, 1, 1], [3072, 0, 1, 25_832]])?;
/// assert_eq!(data.len(), 8 + 2 * 8);
/// let vlr = Vlr::new(false, keys::USER_ID, keys::DIRECTORY, "coordinate keys", &data);
/// # assert_eq!(vlr.size(), 54 + 24);
/// # Ok::<(), inscjarol::Refusal>(())
/// ```
pub fn directory(entries: &[[u16; 4]]) -> Result<Vec<u8>, Refusal> {
    let mut data = vec![0; entries.len().saturating_add(1).saturating_mul(8)];
    write_directory(entries, &mut data)?;
    Ok(data)
}
