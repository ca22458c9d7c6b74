//! One sheet for many files: how many points there are of each class and of each return number, and their bounds.

use crate::{file::allowance_for, refusal::Refusal, sys};

/// The smallest and the largest of the stored whole numbers, in steps of the files' scales.
#[derive(Clone, Copy, Debug, PartialEq, Eq, Hash)]
pub struct StoredBounds {
    /// The smallest X, Y and Z.
    pub min: [i32; 3],
    /// The largest X, Y and Z.
    pub max: [i32; 3],
}

/// What many files come to: files, points, points of each class and of each return number, and the bounds of the stored numbers.
///
/// It begins empty, and each file is added by itself. The points are counted from their records, and never taken from what a header
/// says: so the classes add up to the points, and so do the return numbers, over all files together. Every record counts, withheld
/// ones too. A file that is refused adds nothing.
///
/// ```
/// use inscjarol::Sheet;
/// # let survey = std::fs::read("../samples/stockpile.las")?;
/// # let cut = &survey[..50_000];
///
/// let mut sheet = Sheet::default();
/// sheet.add(&survey)?;
/// sheet.add(&survey)?;
/// assert_eq!((sheet.files(), sheet.points()), (2, 2 * 2_998));
/// assert_eq!(sheet.classes().iter().sum::<u64>(), sheet.points());
/// assert_eq!(sheet.returns().iter().sum::<u64>(), sheet.points());
///
/// // A file that was cut off is refused, and the sheet is what it was.
/// let before = sheet.clone();
/// assert_eq!(sheet.add(cut).unwrap_err().name(), "point extent");
/// assert_eq!(sheet, before);
/// # Ok::<(), Box<dyn std::error::Error>>(())
/// ```
#[derive(Clone, Debug, PartialEq, Eq, Hash)]
pub struct Sheet {
    files: u64,
    points: u64,
    bounds: Option<StoredBounds>,
    classes: [u64; 256],
    returns: [u64; 16],
}

impl Default for Sheet {
    /// The sheet of no files.
    fn default() -> Sheet {
        Sheet {
            files: 0,
            points: 0,
            bounds: None,
            classes: [0; 256],
            returns: [0; 16],
        }
    }
}

impl Sheet {
    /// Adds the file that these bytes are.
    ///
    /// Refused as [`File::check`] does; and with 50 where one of the sheet's counts, whichever it is, would be over 2^64 - 1. Then the
    /// sheet stays as it was. It takes one pass over the points.
    ///
    /// [`File::check`]: crate::File::check
    pub fn add(&mut self, file: &[u8]) -> Result<(), Refusal> {
        self.add_within(file, allowance_for(file.len()))
    }

    /// The same with an allowance of records, as [`File::check_within`] has it.
    ///
    /// [`File::check_within`]: crate::File::check_within
    pub fn add_within(&mut self, file: &[u8], allowance: u64) -> Result<(), Refusal> {
        let mut numbers = self.to_numbers();
        sys::sheet_add(file, allowance, &mut numbers)?;
        *self = Sheet::from_numbers(&numbers);
        Ok(())
    }

    /// How many files were added, those without points too.
    pub fn files(&self) -> u64 {
        self.files
    }

    /// How many points they have.
    pub fn points(&self) -> u64 {
        self.points
    }

    /// How many points there are of each class. That is five bits of its byte in formats 0 to 5, and the whole byte in 6 to 10.
    pub fn classes(&self) -> &[u64; 256] {
        &self.classes
    }

    /// How many points there are of each return number, 0 first: it has three bits in formats 0 to 5, and four in 6 to 10.
    pub fn returns(&self) -> &[u64; 16] {
        &self.returns
    }

    /// The smallest and the largest of the stored numbers; none as long as there are no points. They are stored numbers, whatever
    /// the scales and offsets of the files: they say something of the ground where all files have the same.
    ///
    /// ```
    /// # let survey = std::fs::read("../samples/stockpile.las")?;
    /// let mut sheet = inscjarol::Sheet::default();
    /// assert_eq!(sheet.bounds(), None);
    ///
    /// sheet.add(&survey)?;
    /// let highest = sheet.bounds().map(|bounds| bounds.max[2]);
    /// let file = inscjarol::File::check(&survey)?;
    /// assert_eq!(highest, file.points().map(|point| point.z).max());
    /// # Ok::<(), Box<dyn std::error::Error>>(())
    /// ```
    pub fn bounds(&self) -> Option<StoredBounds> {
        self.bounds
    }

    /// The sheet as 281 numbers, to be kept: files, points, 1 where it has bounds and else 0, smallest and largest X, Y and Z in turn, the 256
    /// classes, and the 16 return numbers. C has them in the same order.
    ///
    /// ```
    /// # let survey = std::fs::read("../samples/stockpile.las")?;
    /// # let mut sheet = inscjarol::Sheet::default();
    /// # sheet.add(&survey)?;
    /// assert_eq!(inscjarol::Sheet::from_numbers(&sheet.to_numbers()), sheet);
    /// # Ok::<(), Box<dyn std::error::Error>>(())
    /// ```
    pub fn to_numbers(&self) -> [u64; 281] {
        let mut numbers = [0; 281];
        let head = [self.files, self.points, u64::from(self.bounds.is_some())];
        let bounds = self.bounds.map_or([0; 6], |bounds| {
            let ([x, y, z], [to_x, to_y, to_z]) = (bounds.min, bounds.max);
            // The 32 bits of each, as the library has them.
            [x, to_x, y, to_y, z, to_z].map(|n| u64::from(n as u32))
        });
        let counts = self.classes.iter().chain(&self.returns);
        let all = head.iter().chain(&bounds).chain(counts);
        for (number, of) in numbers.iter_mut().zip(all) {
            *number = *of;
        }
        numbers
    }

    /// The sheet that these numbers are, as [`Sheet::to_numbers`] gives them. Others are taken as they are: whether they add up is not
    /// looked at. Of a bound the low 32 bits count.
    pub fn from_numbers(numbers: &[u64; 281]) -> Sheet {
        let mut sheet = Sheet::default();
        let [files, points, has, min_x, max_x, min_y, max_y, min_z, max_z, counts @ ..] = numbers;
        (sheet.files, sheet.points) = (*files, *points);
        sheet.bounds = (*has != 0).then(|| StoredBounds {
            min: [min_x, min_y, min_z].map(|n| *n as i32),
            max: [max_x, max_y, max_z].map(|n| *n as i32),
        });
        let places = sheet.classes.iter_mut().chain(&mut sheet.returns);
        for (place, count) in places.zip(counts) {
            *place = *count;
        }
        sheet
    }
}
