//! Columns: one field of many points, each number taken straight from its place in its record. They say what [`File::points`] says
//! of these points, and are faster, since no point is read whole.
//!
//! ```
//! use inscjarol::columns::{GpsTime, Red, Z};
//! # let bytes = std::fs::read("../samples/stockpile.las")?;
//!
//! let file = inscjarol::File::check(&bytes)?;
//! let heights = file.column_to_vec(Z, ..)?;
//! assert_eq!(heights.len(), 2_998);
//!
//! // Points 25 to 28, at the front of a buffer that is there already; the rest of it stays.
//! let mut times = [0.0; 100];
//! assert_eq!(file.column(GpsTime, 25..=28, &mut times)?, 4);
//! let walked = file.points().skip(24).map(|point| point.gps_time);
//! assert!(walked.take(4).eq(times[..4].iter().copied().map(Some)));
//!
//! // What the format does not have is refused, and `file.format()` says it before.
//! assert!(!file.format().has_color);
//! let refusal = file.column(Red, .., &mut []).unwrap_err();
//! assert_eq!((refusal.number(), refusal.name()), (36, "field lacking"));
//! # Ok::<(), Box<dyn std::error::Error>>(())
//! ```

use crate::{
    file::File,
    point::Color,
    refusal::{Kind, Refusal},
    sys,
};
use std::{
    fmt,
    ops::{RangeFrom, RangeFull, RangeInclusive, RangeToInclusive},
};

mod sealed {
    pub trait Sealed {}
}

/// A field that there are columns of: one of the types of [`columns`](self).
pub trait Column: Copy + fmt::Debug + sealed::Sealed {
    /// What its numbers are.
    type Entry: Copy + Default + fmt::Debug;

    /// So many points from the first on, into these entries.
    #[doc(hidden)]
    fn fill(
        self,
        file: &File<'_>,
        stretch: (u64, u64),
        dst: &mut [Self::Entry],
    ) -> Result<usize, Refusal>;
}

/// Makes a column of each call that fills one.
macro_rules! columns {
    ($($(#[$says:meta])* $name:ident: $entry:ty = $fill:ident;)*) => {
        $(
            $(#[$says])*
            #[derive(Clone, Copy, Debug, Default, PartialEq, Eq, Hash)]
            pub struct $name;

            impl sealed::Sealed for $name {}

            impl Column for $name {
                type Entry = $entry;

                fn fill(
                    self,
                    file: &File<'_>,
                    stretch: (u64, u64),
                    dst: &mut [$entry],
                ) -> Result<usize, Refusal> {
                    sys::column(sys::$fill, file.bytes(), file.allowance, stretch, dst)
                }
            }
        )*
    };
}

columns! {
    /// X, in steps of the header's scale; every format has it.
    X: i32 = las_column_x;
    /// Y, in steps of the header's scale; every format has it.
    Y: i32 = las_column_y;
    /// Z, in steps of the header's scale; every format has it.
    Z: i32 = las_column_z;
    /// When the point was scanned, in formats 1 and 3 to 10. Of a NaN it is promised that it is one, and not which: that is what
    /// [`GpsTimeBits`] keeps.
    GpsTime: f64 = las_column_time;
    /// The bits of [`GpsTime`], every pattern kept.
    GpsTimeBits: u64 = las_column_time_bits;
    /// Red, in formats 2, 3, 5, 7, 8 and 10.
    Red: u16 = las_column_red;
    /// Green, in formats 2, 3, 5, 7, 8 and 10.
    Green: u16 = las_column_green;
    /// Blue, in formats 2, 3, 5, 7, 8 and 10.
    Blue: u16 = las_column_blue;
    /// Near infrared, in formats 8 and 10.
    Nir: u16 = las_column_nir;
}

/// Which points, by their numbers, which are counted from 1 everywhere: whoever is told of point 25 by a refusal passes 25 on.
///
/// It is made from a range with its last point in it: `..` has all points of a file, `25..` point 25 and all after it, `..=10` the
/// first ten, and `25..=28` four. A range that ends before its end, as `1..10`, is not taken: counted from 1, `..10` would be nine.
///
/// ```
/// # let bytes = std::fs::read("../samples/stockpile.las")?;
/// # let file = inscjarol::File::check(&bytes)?;
/// use inscjarol::{columns::X, Stretch};
///
/// let four = Stretch::from(25..=28);
/// assert_eq!(file.column_to_vec(X, four)?, file.column_to_vec(X, ..)?[24..28]);
/// // There is no point 0, and none past the last; but right behind the last there may be none.
/// assert_eq!(file.column_to_vec(X, 0..=9).unwrap_err().number(), 27);
/// assert_eq!(file.column_to_vec(X, 2_998..=2_999).unwrap_err().number(), 27);
/// assert_eq!(file.column_to_vec(X, 2_999..)?, []);
/// # Ok::<(), Box<dyn std::error::Error>>(())
/// ```
#[derive(Clone, Copy, Debug, PartialEq, Eq, Hash)]
pub struct Stretch {
    first: u64,
    /// The file's last point, where none is said.
    last: Option<u64>,
}

impl Stretch {
    /// The first point and how many they are, in a file of so many points. A stretch that ends before it begins has the first
    /// point 0, which the library refuses as it refuses any that is not there.
    pub(crate) fn in_file(self, points: u64) -> (u64, u64) {
        // No file has so many points that this would be one of them.
        let end = self.last.unwrap_or(points).saturating_add(1);
        end.checked_sub(self.first)
            .map_or((0, 0), |count| (self.first, count))
    }
}

impl From<RangeFull> for Stretch {
    fn from(_: RangeFull) -> Stretch {
        Stretch::from(1..)
    }
}

impl From<RangeFrom<u64>> for Stretch {
    fn from(range: RangeFrom<u64>) -> Stretch {
        Stretch {
            first: range.start,
            last: None,
        }
    }
}

impl From<RangeToInclusive<u64>> for Stretch {
    fn from(range: RangeToInclusive<u64>) -> Stretch {
        Stretch::from(1..=range.end)
    }
}

impl From<RangeInclusive<u64>> for Stretch {
    fn from(range: RangeInclusive<u64>) -> Stretch {
        Stretch {
            first: *range.start(),
            last: Some(*range.end()),
        }
    }
}

/// Columns; the module [`columns`](crate::columns) has an example.
impl File<'_> {
    /// Fills the front of `dst` with one field of these points, and answers how many they are; what lies past them stays. Nothing is
    /// allocated.
    ///
    /// Refused with 36 where the points' format does not have the field, whether there are points or not; with 27 where the points are
    /// not all there; and with 22 where `dst` has fewer entries. A refused `dst` is left as it was. Each call does the file check
    /// again, which takes as long as the file has records; so ask for some thousand points at once.
    pub fn column<C: Column>(
        &self,
        column: C,
        points: impl Into<Stretch>,
        dst: &mut [C::Entry],
    ) -> Result<usize, Refusal> {
        let stretch = points.into().in_file(self.point_count());
        column.fill(self, stretch, dst)
    }

    /// One field of these points, as [`File::column`] has it; where that is refused, nothing is allocated.
    pub fn column_to_vec<C: Column>(
        &self,
        column: C,
        points: impl Into<Stretch>,
    ) -> Result<Vec<C::Entry>, Refusal> {
        let points = points.into();
        let mut entries = vec![C::Entry::default(); self.entries(column, points)?];
        self.column(column, points, &mut entries)?;
        Ok(entries)
    }

    /// Fills the fronts of three buffers with X, Y and Z of these points, in one pass over their records, and answers how many they are; what
    /// lies past them stays. It leaves what [`File::column`] leaves of each, and is faster than three calls of that.
    ///
    /// Refused as they are; with 22 where any of the three has fewer entries, and then all are left as they were.
    ///
    /// ```
    /// # let bytes = std::fs::read("../samples/stockpile.las")?;
    /// let file = inscjarol::File::check(&bytes)?;
    /// let [mut xs, mut ys, mut zs] = [(); 3].map(|()| vec![0; file.points().len()]);
    /// file.xyz(.., &mut xs, &mut ys, &mut zs)?;
    /// assert_eq!(zs, file.column_to_vec(inscjarol::columns::Z, ..)?);
    /// # Ok::<(), Box<dyn std::error::Error>>(())
    /// ```
    pub fn xyz(
        &self,
        points: impl Into<Stretch>,
        xs: &mut [i32],
        ys: &mut [i32],
        zs: &mut [i32],
    ) -> Result<usize, Refusal> {
        let stretch = points.into().in_file(self.point_count());
        sys::columns_xyz(self.bytes(), self.allowance, stretch, (xs, ys, zs))
    }

    /// The coordinates of these points, by the header's scale and offset, as [`Header::x`] and its neighbours have them.
    ///
    /// ```
    /// # let bytes = std::fs::read("../samples/stockpile.las")?;
    /// let file = inscjarol::File::check(&bytes)?;
    /// let highest = file.xyz_to_vec(..)?.into_iter().map(|[_, _, z]| z).fold(f64::MIN, f64::max);
    /// assert_eq!(highest, file.header().max_z);
    /// # Ok::<(), Box<dyn std::error::Error>>(())
    /// ```
    ///
    /// [`Header::x`]: crate::Header::x
    pub fn xyz_to_vec(&self, points: impl Into<Stretch>) -> Result<Vec<[f64; 3]>, Refusal> {
        let (points, header) = (points.into(), self.header());
        let count = self.entries(X, points)?;
        let [mut xs, mut ys, mut zs] = [(); 3].map(|()| vec![0; count]);
        self.xyz(points, &mut xs, &mut ys, &mut zs)?;
        let stored = xs.iter().zip(&ys).zip(&zs);
        Ok(stored
            .map(|((x, y), z)| [header.x(*x), header.y(*y), header.z(*z)])
            .collect())
    }

    /// The colours of these points; refused with 36 where the points' format has none.
    pub fn rgb_to_vec(&self, points: impl Into<Stretch>) -> Result<Vec<Color>, Refusal> {
        let points = points.into();
        let mut colors = vec![Color::default(); self.entries(Red, points)?];
        let mut stored = vec![0; colors.len()];
        self.column(Red, points, &mut stored)?;
        put(&stored, &mut colors, |color, n| color.red = n);
        self.column(Green, points, &mut stored)?;
        put(&stored, &mut colors, |color, n| color.green = n);
        self.column(Blue, points, &mut stored)?;
        put(&stored, &mut colors, |color, n| color.blue = n);
        Ok(colors)
    }

    /// How many entries a column of these points has: what it is refused with where there is room for none says that.
    fn entries<C: Column>(&self, column: C, points: Stretch) -> Result<usize, Refusal> {
        match self.column(column, points, &mut []) {
            Err(refusal) if refusal.kind() == Kind::NoRoom => Ok(sys::in_memory(refusal.value())),
            answer => answer,
        }
    }
}

/// Puts each number of a column into its place.
fn put<N: Copy, T>(column: &[N], places: &mut [T], put: impl Fn(&mut T, N)) {
    for (place, number) in places.iter_mut().zip(column) {
        put(place, *number);
    }
}
