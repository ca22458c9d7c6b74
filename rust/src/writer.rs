//! Files on the disk that are changed in place: records are appended to them, and points get another class.

use crate::{
    append::{Append, Appended, Step},
    error::Error,
    file::{allowance_for, File},
    map::Held,
    reclassify::{Change, Reclassify},
    refusal::{Kind, Refusal},
    sys,
};
use std::{
    env, fs, io,
    os::unix::fs::{FileExt, MetadataExt},
    path::{Path, PathBuf},
};

/// A file on the disk that is changed in place. To one of LAS 1.2 records are appended, sweep after sweep: whatever ends the
/// program or the power meanwhile, the file is accepted, with the points of all sweeps that were answered for, and of the last
/// one all or none. In a file of any version points get another class, each by one byte that is written: see
/// [`Writer::reclassify`].
///
/// What this rests on is that the disk writes a sector of 512 bytes whole or not at all, and that what it says to be written
/// is: `docs/TRUST.md` has it all.
///
/// The file is locked against other writers of this kind until it is dropped or the program ends, whatever ends it.
///
/// ```
/// use inscjarol::{Append, Appended, NewFile, Point, Writer};
/// # fn main() -> Result<(), inscjarol::Error> {
/// # let path = std::env::temp_dir().join(format!("inscjarol-doc-{}.las", std::process::id()));
///
/// NewFile::new(0).scale([0.01; 3]).create(&path)?;
/// // SAFETY: nothing else writes to this file or makes it shorter.
/// let mut writer = unsafe { Writer::open(&path)? };
///
/// let format = writer.look(|file| file.format())?;
/// let records = Point { x: 150, ..Point::default() }.to_vec(format)?;
/// // Made before the first try, and kept to repeat it.
/// let append = writer.look(|file| Append::of(file, &records, file.point_count()))?;
/// assert_eq!(writer.append(&append)?, Appended::Added);
/// assert_eq!(writer.append(&append)?, Appended::AlreadyIn);
/// # std::fs::remove_file(path)?;
/// # Ok(())
/// # }
/// ```
#[derive(Debug)]
pub struct Writer {
    held: Held,
    /// The name that it was opened by, from the root on.
    path: PathBuf,
}

impl Writer {
    /// Opens a file that is there, to be changed, and locks it; [`NewFile::create`] makes one. Whether it is a LAS file, and of
    /// LAS 1.2, is seen when it is changed. An error is the system's, or that somebody else is writing to it
    /// ([`io::ErrorKind::WouldBlock`]).
    ///
    /// # Safety
    ///
    /// As for [`Mapped::open`]: nobody else writes to the file or makes it shorter while this is there. Other writers of this
    /// kind are kept out by the lock; of others no call can know.
    ///
    /// [`NewFile::create`]: crate::NewFile::create
    /// [`Mapped::open`]: crate::Mapped::open
    #[allow(unsafe_code)] // the condition is handed on to the caller
    pub unsafe fn open(path: impl AsRef<Path>) -> io::Result<Writer> {
        // To open a device or a pipe may do something: what it is is asked first.
        if !fs::metadata(&path)?.is_file() {
            return Err(io::Error::new(
                io::ErrorKind::InvalidInput,
                "it is no regular file",
            ));
        }
        let file = fs::File::options().read(true).write(true).open(&path)?;
        // SAFETY: the caller vouches for it.
        let held = unsafe { Held::new(file)? };
        let path = match path.as_ref() {
            path if path.is_absolute() => path.to_path_buf(),
            path => env::current_dir()?.join(path),
        };
        Ok(Writer { held, path })
    }

    /// Looks at the file as it is.
    pub fn look<T>(&self, look: impl FnOnce(&File<'_>) -> T) -> Result<T, Error> {
        let bytes = self.held.copy()?;
        Ok(look(&File::check(&bytes)?))
    }

    /// Appends records, and answers when they are on the disk: added, or found to be in already.
    ///
    /// The offer is judged on the file's heads and last records, whatever its size. Then each sector that changes is written
    /// by itself, sector 0 with the new header last, when all others are on the disk. A file that ends before the records
    /// would is made longer before, by zeros, to just that length; [`Writer::room`] does so for many sweeps at once.
    ///
    /// Where it is refused, nothing was written. After an error of the system, as of a full disk, the same offer is to be made
    /// again.
    pub fn append(&mut self, append: &Append<'_>) -> Result<Appended, Error> {
        self.append_watched(append, |_| Ok(()))
    }

    /// The same, where `watch` is shown each step before it is made. Its error ends the append there, as a cut of the power
    /// would: so a scanner's software can be tried on cuts.
    pub fn append_watched(
        &mut self,
        append: &Append<'_>,
        mut watch: impl FnMut(&Step<'_>) -> io::Result<()>,
    ) -> Result<Appended, Error> {
        let mut bytes = self.held.copy()?;
        let offer = match append.begin(&bytes) {
            Err(refusal) if refusal.kind() == Kind::NoRoom => {
                self.grow(refusal.value())?;
                bytes = self.held.copy()?;
                append.begin(&bytes)
            }
            judged => judged,
        }?;
        let file = self.held.file();
        offer.by_steps(&mut bytes, |step| {
            watch(&step)?;
            match step {
                Step::Write { start, bytes } => file.write_all_at(bytes, start),
                Step::Sync => file.sync_data(),
            }
        })
    }

    /// Gives points another class, and answers the class that each had, in their order, when all of it is on the disk. These
    /// are what gives every byte back.
    ///
    /// All are judged on the file as it is, and where one is refused, nothing was written: [`Reclassify::apply`] tells what is
    /// refused, and [`Reclassify::ask`] on what [`Writer::look`] shows tells it of each. Then of each point one byte is written.
    /// Whatever ends the program or the power meanwhile, each point has the class that it had or the new one, and nothing else
    /// has changed. Of a point that is there twice the last class counts.
    ///
    /// The lock keeps other writers of this kind out. Whether somebody who does not ask for it has changed the file since it was
    /// judged is looked for right before the first write, by the file's name, length and times, and by the bytes that are to
    /// be changed; then it is [`Error::Changed`], and nothing was written. After an error of the system the same call is to be
    /// made again.
    ///
    /// ```
    /// use inscjarol::{Reclassify, Writer};
    /// # fn main() -> Result<(), inscjarol::Error> {
    /// # let path = std::env::temp_dir().join(format!("inscjarol-doc-class-{}.las", std::process::id()));
    /// # std::fs::copy("../samples/stockpile.las", &path)?;
    ///
    /// // SAFETY: nothing else writes to this file or makes it shorter.
    /// let mut writer = unsafe { Writer::open(&path)? };
    /// let had = writer.reclassify(&[
    ///     Reclassify { point: 25, class: 7 },
    ///     Reclassify { point: 26, class: 7 },
    /// ])?;
    /// assert_eq!(had, [2, 2]);
    /// # std::fs::remove_file(path)?;
    /// # Ok(())
    /// # }
    /// ```
    pub fn reclassify(&mut self, points: &[Reclassify]) -> Result<Vec<u8>, Error> {
        self.reclassify_after(points, || ())
    }

    /// The same, where something else happens between the judgement and the write.
    fn reclassify_after(
        &mut self,
        points: &[Reclassify],
        meanwhile: impl FnOnce(),
    ) -> Result<Vec<u8>, Error> {
        let file = self.held.file();
        let seen = Seen::of(&file.metadata()?);
        let changes = self.judged(points)?;
        meanwhile();
        let named = fs::metadata(&self.path).map_or(false, |about| Seen::of(&about) == seen);
        let same = |(change, byte): &(Change, _)| self.byte(change.at) == *byte;
        if !named || !changes.iter().all(same) {
            return Err(Error::Changed);
        }
        for (change, _) in &changes {
            file.write_all_at(&[change.byte], change.at)?;
        }
        file.sync_data()?;
        Ok(changes.iter().map(|(change, _)| change.was).collect())
    }

    /// The byte that gives each point its class, and what is in its place now; or the first refusal.
    fn judged(&self, points: &[Reclassify]) -> Result<Vec<(Change, Option<u8>)>, Error> {
        let bytes = self.held.copy()?;
        let judge = |point: &Reclassify| {
            let change = point.ask(&bytes)?;
            Ok((change, bytes.get(sys::in_memory(change.at)).copied()))
        };
        points.iter().map(judge).collect()
    }

    /// The byte at a place of the file, if it can be read.
    fn byte(&self, at: u64) -> Option<u8> {
        let mut byte = [0];
        self.held.file().read_exact_at(&mut byte, at).ok()?;
        let [byte] = byte;
        Some(byte)
    }

    /// Sees to it that there is room for this many records behind the points: where there is less, the file is made longer, by
    /// zeros, which are its last gap and change nothing of what it says. So later appends need not do that, each for itself.
    /// Answers the file's length. Refused as [`File::check`] does, and with 28 where the file is not of LAS 1.2.
    pub fn room(&mut self, records: u64) -> Result<u64, Error> {
        let bytes = self.held.copy()?;
        // An offer of nothing is refused with 29 where the file would take records.
        match sys::append_begin(&bytes, allowance_for(bytes.len()), (&[], 0, 0)) {
            Err(refusal) if refusal.kind() != Kind::NoRecords => return Err(refusal.into()),
            _ => {}
        }
        let file = File::check(&bytes)?;
        let end = sys::header_end_of_points(&bytes)?;
        let each = u64::from(file.header().point_data_record_length);
        let wanted = records
            .checked_mul(each)
            .and_then(|len| end.checked_add(len));
        // More bytes than can be counted are refused as no room, by the library's table with value 0.
        let wanted = wanted.ok_or_else(|| Refusal::from_row(Kind::NoRoom.number(), 0, 0))?;
        self.grow(wanted)?;
        Ok(self.held.file().metadata()?.len())
    }

    /// Makes the file this long where it is shorter, and waits until it is on the disk that it is. A cut on the way leaves the
    /// file as it was, or longer: what is behind its points no rule forbids, and the append does not read.
    fn grow(&self, len: u64) -> io::Result<()> {
        let file = self.held.file();
        if file.metadata()?.len() < len {
            file.set_len(len)?;
            file.sync_all()?;
        }
        Ok(())
    }
}

/// What tells a file from another, and from what it was before: which one it is, its length, and when it was last written to or
/// changed otherwise.
#[derive(PartialEq)]
struct Seen {
    id: (u64, u64),
    len: u64,
    written: (i64, i64),
    changed: (i64, i64),
}

impl Seen {
    fn of(about: &fs::Metadata) -> Seen {
        Seen {
            id: (about.dev(), about.ino()),
            len: about.len(),
            written: (about.mtime(), about.mtime_nsec()),
            changed: (about.ctime(), about.ctime_nsec()),
        }
    }
}

#[cfg(test)]
mod tests {
    use super::*;
    use crate::{Format, Header, Point, Version};
    use std::{process, thread, time::Duration};

    /// A file of format 0 with three points, whose name is told.
    fn three(name: &str) -> PathBuf {
        let mut header = Header::new(Version { major: 1, minor: 2 }).unwrap();
        header.number_of_point_records = 3;
        let mut bytes = header.to_vec(&[]).unwrap();
        let record = Point::default().to_vec(Format::default()).unwrap();
        bytes.extend(record.repeat(3));
        let path = env::temp_dir().join(format!("inscjarol-writer-{}-{name}", process::id()));
        fs::write(&path, bytes).unwrap();
        // The system tells times in steps of some milliseconds.
        thread::sleep(Duration::from_millis(20));
        path
    }

    #[allow(unsafe_code)] // nobody else knows the file, and what is done to it meanwhile is done after it was looked at
    fn writer(path: &Path) -> Writer {
        // SAFETY: as above.
        unsafe { Writer::open(path) }.unwrap()
    }

    /// What is done to a file behind the lock's back.
    type Meanwhile = fn(&Path);

    fn put(path: &Path, byte: u8, at: u64) {
        let file = fs::File::options().write(true).open(path).unwrap();
        file.write_all_at(&[byte], at).unwrap();
    }

    #[test]
    fn a_file_that_changes_meanwhile_is_left() {
        let changed: [(&str, Meanwhile); 6] = [
            ("class", |path| put(path, 7, 227 + 20 + 15)),
            ("elsewhere", |path| put(path, 7, 227)),
            ("as it was", |path| put(path, 0, 227)),
            ("longer", |path| put(path, 0, 300)),
            ("shorter", |path| {
                let file = fs::File::options().write(true).open(path).unwrap();
                file.set_len(240).unwrap();
            }),
            ("another", |path| {
                let other = path.with_extension("other");
                fs::copy(path, &other).unwrap();
                fs::rename(other, path).unwrap();
            }),
        ];
        let point = [Reclassify { point: 2, class: 2 }];
        for (name, meanwhile) in changed {
            let path = three(name);
            let changed = writer(&path).reclassify_after(&point, || meanwhile(&path));
            let error = changed.unwrap_err();
            assert!(matches!(error, Error::Changed), "{name}: {error}");
            // What was done meanwhile is all that was done.
            let left = fs::read(&path).unwrap();
            meanwhile(&path);
            assert_eq!(fs::read(&path).unwrap(), left, "{name}");
            fs::remove_file(path).unwrap();
        }
    }

    #[test]
    fn a_file_that_nobody_changes_is_changed() {
        let path = three("nobody");
        // Who reads it, meanwhile too, is in nobody's way.
        let read = || drop(fs::read(&path).unwrap());
        let points = [3, 1].map(|point| Reclassify { point, class: 9 });
        let had = writer(&path).reclassify_after(&points, read);
        assert_eq!(had.unwrap(), [0, 0]);
        let bytes = fs::read(&path).unwrap();
        assert_eq!([bytes[242], bytes[262], bytes[282]], [9, 0, 9]);
        fs::remove_file(path).unwrap();
    }
}
