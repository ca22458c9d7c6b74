//! Records appended to a file in a way that can be cut short anywhere, and repeated.

use crate::{
    error::Error,
    file::{allowance_for, File},
    header::Bounds,
    point::Point,
    refusal::Refusal,
    sys,
};
use std::io;

/// Records that are offered to a file of LAS 1.2, to be added behind its points.
///
/// An offer can be made again and again: after a cut of the power, or where nobody knows how far the last try came. Records
/// that are in are found to be in, and nothing is written; so they are in the file once. The file is accepted all the time,
/// with exactly the points that it had, or exactly these and then the new ones.
///
/// All of this stands on [`Append::believed`], the count of points **before** these records. It is taken once, before the first
/// try, and kept with the records, where a cut of the power does not reach them, until they are in. Who reads it again from the
/// header after a cut, and offers the same records, may add them twice: **no check can see that**, since a scanner that stands
/// still does give the same bytes twice.
///
/// ```
/// use inscjarol::{Append, Appended, File, NewFile, Point};
/// # fn main() -> Result<(), inscjarol::Error> {
///
/// // A file in memory, with room behind its points.
/// let mut bytes = NewFile::new(0).room(100).to_vec()?;
///
/// let file = File::check(&bytes)?;
/// let records = Point { x: 150, ..Point::default() }.to_vec(file.format())?;
/// let append = Append::of(&file, &records, 0);
/// assert_eq!(append.apply(&mut bytes)?, Appended::Added);
/// assert_eq!(append.apply(&mut bytes)?, Appended::AlreadyIn);
/// assert_eq!(File::check(&bytes)?.points().len(), 1);
/// # Ok(())
/// # }
/// ```
#[derive(Clone, Copy, Debug, PartialEq)]
pub struct Append<'a> {
    /// The records, one after the other, each as long as the file's header says. What lies past the last is ignored.
    pub records: &'a [u8],
    /// How many records there are.
    pub count: u64,
    /// How many points the file had before these records were offered for the first time.
    pub believed: u64,
    /// The bounds that the header is to have with them, whatever their bits. They are not looked at where the records are
    /// already in.
    pub bounds: Bounds,
}

/// What an append that was not refused found or did.
#[derive(Clone, Copy, Debug, PartialEq, Eq, Hash)]
pub enum Appended {
    /// The records are the file's last now.
    Added,
    /// They were already, and nothing was written.
    AlreadyIn,
}

/// What an offer comes to; from [`Append::begin`].
#[derive(Clone, Copy, Debug, PartialEq, Eq)]
pub enum Offer<'a> {
    /// The records are to be added, by the stores of this sweep.
    Add(Sweep<'a>),
    /// They are in already.
    AlreadyIn,
}

impl<'a> Append<'a> {
    /// The offer of as many whole records as there are to a file of which this count of points is believed. The bounds are the
    /// file's, made so large that the new points lie in them too.
    pub fn of(file: &File<'_>, records: &'a [u8], believed: u64) -> Append<'a> {
        let each = usize::from(file.header().point_data_record_length).max(1);
        Append {
            records,
            count: records.chunks_exact(each).len() as u64,
            believed,
            bounds: grown(file, records.chunks_exact(each)),
        }
    }

    /// Appends the records to a file in lent memory, which is longer than its points: the room behind them is the file's last
    /// gap, whatever stands there. All stores are made, one after the other.
    ///
    /// Refused as [`File::check`] does; with 28 where the file is not of LAS 1.2; 29 where there are no records; 1 where they
    /// are fewer bytes than that many records have; 30 where the file counts neither the believed points, nor these and then
    /// these very records; 31 where a count would be over 2^32 - 1; and 22 where there is no room. Then nothing was written.
    pub fn apply(&self, file: &mut [u8]) -> Result<Appended, Refusal> {
        let allowance = allowance_for(file.len());
        let already = sys::append(file, allowance, self.offer(), &self.bounds.numbers())?;
        Ok(match already {
            true => Appended::AlreadyIn,
            false => Appended::Added,
        })
    }

    /// Judges the offer, for whoever makes the stores one by one; nothing is written. It is refused as [`Append::apply`] is. Of
    /// the points it looks at the last alone, as many as there are records: it takes as long for a large file as for a small
    /// one.
    pub fn begin(&self, file: &[u8]) -> Result<Offer<'a>, Refusal> {
        let numbers = sys::append_begin(file, allowance_for(file.len()), self.offer())?;
        Ok(numbers.map_or(Offer::AlreadyIn, |numbers| {
            Offer::Add(Sweep {
                numbers,
                records: self.records,
                bounds: self.bounds.numbers(),
            })
        }))
    }

    /// Appends the records to a file on a disk or a card of which lent memory shows the bytes, by writing whole sectors: tells
    /// what is to be written and when it has to be there, step by step, and goes on where the step went well. Where one did
    /// not, the memory is no longer what the disk has, and the append is to be repeated on what is read of the disk.
    ///
    /// [`Writer`] does this for a file of the operating system; here is how it is done by hand, for the card of a scanner:
    ///
    /// ```
    /// # use inscjarol::{Append, Appended, Bounds, NewFile, Step};
    /// # use std::io;
    /// # struct Card(Vec<u8>);
    /// # impl Card {
    /// #     fn read(&self) -> Vec<u8> { self.0.clone() }
    /// #     fn write_sector(&mut self, start: u64, bytes: &[u8]) -> io::Result<()> {
    /// #         self.0[start as usize..][..bytes.len()].copy_from_slice(bytes);
    /// #         Ok(())
    /// #     }
    /// #     fn wait(&mut self) -> io::Result<()> { Ok(()) }
    /// # }
    /// # fn main() -> Result<(), inscjarol::Error> {
    /// # let mut card = Card(NewFile::new(0).room(100).to_vec()?);
    /// # let bounds = Bounds { min: [0.0; 3], max: [0.0; 3] };
    /// # let append = Append { records: &[0; 60], count: 3, believed: 0, bounds };
    /// let mut bytes = card.read();
    /// let appended = append.by_steps(&mut bytes, |step| match step {
    ///     Step::Write { start, bytes } => card.write_sector(start, bytes),
    ///     Step::Sync => card.wait(),
    /// })?;
    /// # assert_eq!((appended, &bytes), (Appended::Added, &card.0));
    /// # Ok(())
    /// # }
    /// ```
    ///
    /// [`Writer`]: crate::Writer
    pub fn by_steps(
        &self,
        file: &mut [u8],
        disk: impl FnMut(Step<'_>) -> io::Result<()>,
    ) -> Result<Appended, Error> {
        self.begin(file)?.by_steps(file, disk)
    }

    /// The offer without its bounds.
    fn offer(&self) -> (&'a [u8], u64, u64) {
        (self.records, self.count, self.believed)
    }
}

/// The bounds of a file, made so large that these records' points lie in them too. A coordinate that is no number is left out;
/// where no other is there, the header's word stays.
fn grown<'r>(file: &File<'_>, records: impl Iterator<Item = &'r [u8]>) -> Bounds {
    let header = file.header();
    let old = header.bounds();
    let mut new = match file.point_count() {
        0 => Bounds {
            min: [f64::INFINITY; 3],
            max: [f64::NEG_INFINITY; 3],
        },
        _ => old,
    };
    for point in records.filter_map(|record| Point::read(record, file.format()).ok()) {
        let place = [header.x(point.x), header.y(point.y), header.z(point.z)];
        for ((min, max), at) in new.min.iter_mut().zip(&mut new.max).zip(place) {
            *min = min.min(at);
            *max = max.max(at);
        }
    }
    for ((min, max), (old_min, old_max)) in
        (new.min.iter_mut().zip(&mut new.max)).zip(old.min.into_iter().zip(old.max))
    {
        if *min > *max {
            (*min, *max) = (old_min, old_max);
        }
    }
    new
}

/// A step of an append that writes sectors; from [`Append::by_steps`].
#[derive(Clone, Copy, Debug, PartialEq, Eq)]
pub enum Step<'s> {
    /// These bytes, a whole sector, are to be written at this place in the file. The disk is trusted to write them all or none.
    Write {
        /// The sector's first byte, a multiple of 512.
        start: u64,
        /// Its bytes: 512, or less where the file ends in it.
        bytes: &'s [u8],
    },
    /// All that was written before has to be on the disk when this step ends. It comes before sector 0 is written with the new
    /// header, and at the end; and where the records are already in, since whoever wrote them may not have come to it.
    Sync,
}

impl Offer<'_> {
    /// [`Append::by_steps`] of an offer that was judged.
    pub(crate) fn by_steps(
        &self,
        file: &mut [u8],
        mut disk: impl FnMut(Step<'_>) -> io::Result<()>,
    ) -> Result<Appended, Error> {
        let sweep = match self {
            Offer::Add(sweep) => sweep,
            Offer::AlreadyIn => {
                disk(Step::Sync)?;
                return Ok(Appended::AlreadyIn);
            }
        };
        let last = sweep.stores().saturating_sub(1);
        for k in 0..=last {
            if k == last {
                disk(Step::Sync)?;
            }
            if let Some(sector) = sweep.store(file, k)? {
                let (start, bytes) = (sector.start, sector.of(file));
                disk(Step::Write { start, bytes })?;
            }
        }
        disk(Step::Sync)?;
        Ok(Appended::Added)
    }
}

/// Records that are to be added to the file of which this was judged: a list of stores, to be made in their order.
///
/// A store changes one sector of 512 bytes in the lent file, and names it. First come the sectors that the new records touch,
/// ascending, each with the header as it was; then, as the last store, sector 0 with the new header. Where the records begin in
/// sector 0, that one is stored twice. Whoever writes the sectors to a card writes each before the next is made, and sees to it
/// that all others are on the card before the last is written.
///
/// ```
/// use inscjarol::{Append, Bounds, File, NewFile, Offer};
/// # fn main() -> Result<(), inscjarol::Error> {
/// let mut bytes = NewFile::new(0).room(100).to_vec()?;
/// let bounds = Bounds { min: [0.0; 3], max: [0.0; 3] };
/// let append = Append { records: &[0; 2_000], count: 100, believed: 0, bounds };
/// if let Offer::Add(sweep) = append.begin(&bytes)? {
///     let mut starts = Vec::new();
///     for k in 0..sweep.stores() {
///         // Until the last store the file has the points that it had.
///         assert_eq!(File::check(&bytes)?.points().len(), 0);
///         starts.extend(sweep.store(&mut bytes, k)?.map(|sector| sector.start));
///     }
///     assert_eq!(starts, [0, 512, 1_024, 1_536, 2_048, 0]);
/// }
/// assert_eq!(File::check(&bytes)?.points().len(), 100);
/// # Ok(())
/// # }
/// ```
#[derive(Clone, Copy, Debug, PartialEq, Eq)]
pub struct Sweep<'a> {
    numbers: sys::Sweep,
    records: &'a [u8],
    bounds: sys::BoundsNumbers,
}

impl Sweep<'_> {
    /// Where the first record goes: the end of the points that the file had.
    pub fn start(&self) -> u64 {
        let [start, ..] = self.numbers;
        start
    }

    /// How many points the file has with them.
    pub fn points(&self) -> u64 {
        let [_, _, points, ..] = self.numbers;
        points
    }

    /// How many stores there are.
    pub fn stores(&self) -> u64 {
        sys::append_stores(&self.numbers)
    }

    /// Makes a store in the file, counted from 0, and answers its sector, which is to be written to the card as it is then.
    /// There is none past the last store, and then nothing changes. Refused with 22 where the file is another, which ends
    /// before the records do.
    pub fn store(&self, file: &mut [u8], k: u64) -> Result<Option<Sector>, Refusal> {
        let stored = sys::append_store(file, &self.numbers, self.records, &self.bounds, k)?;
        Ok(stored.map(|(start, len)| Sector { start, len }))
    }
}

/// A sector of a file: 512 bytes, or less where the file ends in it.
#[derive(Clone, Copy, Debug, PartialEq, Eq, Hash)]
pub struct Sector {
    /// Its first byte, a multiple of 512.
    pub start: u64,
    /// Its bytes.
    pub len: u64,
}

impl Sector {
    /// Its bytes in a file.
    pub fn of<'f>(&self, file: &'f [u8]) -> &'f [u8] {
        sys::part_of(file, self.start, self.len)
    }
}
