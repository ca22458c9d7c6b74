//! Points of which only such fields are wanted as the library has columns of: they are read column by column, a stretch at a time.

use super::fields::Row;
use inscjarol::{
    columns::{Blue, GpsTimeBits, Green, Nir, Red, X, Y, Z},
    Color, Column, File, Point, Refusal, Stretch,
};

/// How many points are read at a time: few enough that their numbers are still at hand when they are written.
pub(crate) const STRETCH: usize = 4_096;

/// The fields, as they are called in a row.
const FIELDS: [&str; 8] = ["x", "y", "z", "gps_time", "red", "green", "blue", "nir"];

/// The numbers of a column for one stretch; none where it is not wanted.
struct Numbers<C: Column> {
    column: C,
    numbers: Vec<C::Entry>,
}

impl<C: Column> Numbers<C> {
    fn new(column: C, wanted: bool) -> Numbers<C> {
        let room = if wanted { STRETCH } else { 0 };
        Numbers {
            column,
            numbers: vec![C::Entry::default(); room],
        }
    }

    fn fill(&mut self, file: &File<'_>, points: Stretch) -> Result<(), Refusal> {
        if !self.numbers.is_empty() {
            file.column(self.column, points, &mut self.numbers)?;
        }
        Ok(())
    }

    #[inline]
    fn at(&self, place: usize) -> Option<C::Entry> {
        self.numbers.get(place).copied()
    }
}

/// The columns that a row wants.
pub(crate) struct Columns {
    x: Numbers<X>,
    y: Numbers<Y>,
    z: Numbers<Z>,
    /// By its bits, so that it is the walker's, whatever it is.
    gps_time: Numbers<GpsTimeBits>,
    red: Numbers<Red>,
    green: Numbers<Green>,
    blue: Numbers<Blue>,
    nir: Numbers<Nir>,
}

impl Columns {
    /// The columns of a row, as far as the file's points have them; none where the row has other fields of the standard too. Attributes need
    /// no point to be read. Each stretch costs the file check once more, which looks at every record; so a file with many of them is
    /// walked over.
    pub(crate) fn of(row: &Row<'_>, file: &File<'_>) -> Option<Columns> {
        let format = file.format();
        let only_these = row.standard_names().all(|name| FIELDS.contains(&name));
        let wants = |name: &str, has: bool| has && row.names().any(|own| own == name);
        (only_these && file.records() <= STRETCH as u64).then(|| Columns {
            x: Numbers::new(X, wants("x", true)),
            y: Numbers::new(Y, wants("y", true)),
            z: Numbers::new(Z, wants("z", true)),
            gps_time: Numbers::new(GpsTimeBits, wants("gps_time", format.has_gps_time)),
            red: Numbers::new(Red, wants("red", format.has_color)),
            green: Numbers::new(Green, wants("green", format.has_color)),
            blue: Numbers::new(Blue, wants("blue", format.has_color)),
            nir: Numbers::new(Nir, wants("nir", format.has_nir)),
        })
    }

    /// Reads these points, a stretch at most.
    pub(crate) fn fill(
        &mut self,
        file: &File<'_>,
        points: impl Into<Stretch>,
    ) -> Result<(), Refusal> {
        let points = points.into();
        self.x.fill(file, points)?;
        self.y.fill(file, points)?;
        self.z.fill(file, points)?;
        self.gps_time.fill(file, points)?;
        self.red.fill(file, points)?;
        self.green.fill(file, points)?;
        self.blue.fill(file, points)?;
        self.nir.fill(file, points)
    }

    /// The point at a place of the stretch, counted from 0, with what the row wants of it.
    #[inline]
    pub(crate) fn point(&self, place: usize) -> Point<'static> {
        let color = match (
            self.red.at(place),
            self.green.at(place),
            self.blue.at(place),
        ) {
            (None, None, None) => None,
            (red, green, blue) => Some(Color {
                red: red.unwrap_or_default(),
                green: green.unwrap_or_default(),
                blue: blue.unwrap_or_default(),
            }),
        };
        Point {
            x: self.x.at(place).unwrap_or_default(),
            y: self.y.at(place).unwrap_or_default(),
            z: self.z.at(place).unwrap_or_default(),
            gps_time: self.gps_time.at(place).map(f64::from_bits),
            color,
            nir: self.nir.at(place),
            ..Point::default()
        }
    }
}
