//! The class of one point set in a file, in place: one byte changes.

use crate::{file::allowance_for, refusal::Refusal, sys};

/// Another class for one point of a file, of any version and point format.
///
/// One byte of the file changes. Every other point, every part, and the other flags of this point stay as they are: in formats
/// 0 to 5 synthetic, key point and withheld share the byte with the class, and are kept. Nothing is read of the points but that
/// byte, so that it takes as long in a large file as in a small one.
///
/// Overlap is said by class 12 in formats 0 to 5: a point that is given this class is overlap from then on, and one that loses
/// it is none. Formats 6 to 10 have a flag for it, which stays whatever the class is.
///
/// ```
/// use inscjarol::{File, Reclassify};
/// # let mut bytes = std::fs::read("../samples/stockpile.las")?;
/// # let before = bytes.clone();
///
/// // Point 25 is ground.
/// let ground = Reclassify { point: 25, class: 2 };
/// let was = ground.apply(&mut bytes)?;
/// let point = File::check(&bytes)?.points().nth(24);
/// assert_eq!(point.map(|point| point.flags.class()), Some(2));
///
/// // It was none: the class that it had gives every byte back.
/// Reclassify { class: was, ..ground }.apply(&mut bytes)?;
/// # assert_eq!(bytes, before);
/// # Ok::<(), Box<dyn std::error::Error>>(())
/// ```
///
/// For a file on the disk there is [`Writer::reclassify`].
///
/// [`Writer::reclassify`]: crate::Writer::reclassify
#[derive(Clone, Copy, Debug, PartialEq, Eq, Hash)]
pub struct Reclassify {
    /// Which point it is, counted from 1, as refusals count.
    pub point: u64,
    /// The class that it is to have: 0 to 31 in formats 0 to 5, and 0 to 255 in formats 6 to 10.
    pub class: u8,
}

/// The byte of a file that another class changes; from [`Reclassify::ask`].
#[derive(Clone, Copy, Debug, PartialEq, Eq, Hash)]
pub struct Change {
    /// Its place in the file, counted from 0.
    pub at: u64,
    /// What it becomes.
    pub byte: u8,
    /// The class that the point has as long as nobody changes it.
    pub was: u8,
}

impl Reclassify {
    /// Gives the point its class in a file in lent memory, and answers the class that it had.
    ///
    /// Refused as [`File::check`] does; with 27 where there is no such point; and with 17 where the class is above 31 and the
    /// points are of format 0 to 5. Then nothing was written.
    ///
    /// [`File::check`]: crate::File::check
    pub fn apply(&self, file: &mut [u8]) -> Result<u8, Refusal> {
        sys::reclassify(file, allowance_for(file.len()), self.point, self.class)
    }

    /// Which byte of the file would change and what it would become, for whoever writes it to a disk himself; nothing is
    /// written. It is refused as [`Reclassify::apply`] is.
    ///
    /// ```
    /// use inscjarol::{Change, NewFile, Point, Append, File, Flags, Reclassify};
    /// # fn main() -> Result<(), inscjarol::Error> {
    /// # let mut bytes = NewFile::new(0).room(1).to_vec()?;
    /// # let point = Point { flags: Flags::TwoByte(0, 0b101_00001), ..Point::default() };
    /// # let records = point.to_vec(File::check(&bytes)?.format())?;
    /// # Append::of(&File::check(&bytes)?, &records, 0).apply(&mut bytes)?;
    /// // A point of format 0, of class 1, synthetic and withheld.
    /// let change = Reclassify { point: 1, class: 2 }.ask(&bytes)?;
    /// assert_eq!(change, Change { at: 227 + 15, byte: 0b101_00010, was: 1 });
    /// # Ok(())
    /// # }
    /// ```
    pub fn ask(&self, file: &[u8]) -> Result<Change, Refusal> {
        let asked = sys::reclassify_ask(file, allowance_for(file.len()), self.point, self.class);
        asked.map(|(at, byte, was)| Change { at, byte, was })
    }
}
