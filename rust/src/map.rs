//! Files as memory, and the lock of a file that is written to. The only file of this crate with `unsafe`, but for the call that
//! hands the condition on: the standard library has neither, and a dependency for three calls would be one for everybody who
//! only wants the library.
//!
//! The declarations are those of the C library on Linux for x86-64, which is what the proved library is made for.
#![allow(unsafe_code)]

use std::{
    ffi::c_void,
    fs, io,
    ops::{Deref, DerefMut},
    os::{raw::c_int, unix::io::AsRawFd},
    path::Path,
    ptr::{self, NonNull},
    slice,
};

extern "C" {
    fn mmap(
        at: *mut c_void,
        len: usize,
        protection: c_int,
        flags: c_int,
        fd: c_int,
        offset: i64,
    ) -> *mut c_void;
    fn munmap(at: *mut c_void, len: usize) -> c_int;
    fn flock(fd: c_int, operation: c_int) -> c_int;
}

const PROT_READ: c_int = 1;
const PROT_WRITE: c_int = 2;
const MAP_SHARED: c_int = 1;
const MAP_PRIVATE: c_int = 2;
const MAP_NORESERVE: c_int = 0x4000;
const MAP_FAILED: usize = usize::MAX;
const LOCK_EX: c_int = 2;
const LOCK_NB: c_int = 4;
const LOCK_UN: c_int = 8;

/// Memory that shows a file until it is dropped.
#[derive(Debug)]
struct Map {
    /// The first byte; of an empty file, which has no map, some place that is not looked at.
    at: NonNull<u8>,
    len: usize,
}

// SAFETY: a map belongs to the process and not to a thread, and is read and written as Rust's references allow; so it may be
// handed to another thread, and several may read it.
unsafe impl Send for Map {}
unsafe impl Sync for Map {}

impl Map {
    /// A new map of all of a file.
    fn new(file: &fs::File, protection: c_int, flags: c_int) -> io::Result<Map> {
        let len = usize::try_from(file.metadata()?.len())
            .map_err(|_| io::Error::from(io::ErrorKind::OutOfMemory))?;
        // There is no map of no bytes. What only looks empty, as a pipe does, is told from it by its kind.
        if len == 0 && file.metadata()?.is_file() {
            let at = NonNull::dangling();
            return Ok(Map { at, len });
        }
        let fd = file.as_raw_fd();
        // SAFETY: a new map at a place of the system's choice touches no memory that Rust knows of.
        let at = unsafe { mmap(ptr::null_mut(), len, protection, flags, fd, 0) };
        match NonNull::new(at.cast()) {
            Some(at) if at.as_ptr() as usize != MAP_FAILED => Ok(Map { at, len }),
            _ => Err(io::Error::last_os_error()),
        }
    }

    /// Its bytes.
    ///
    /// # Safety
    ///
    /// Nobody changes the file or makes it shorter, but where the map is private and the bytes are its own.
    unsafe fn bytes(&self) -> &[u8] {
        // SAFETY: the map has that many bytes, readable and initialised until it is dropped, and of no bytes any place will
        // do. That they stay what they are is the caller's to see to.
        unsafe { slice::from_raw_parts(self.at.as_ptr(), self.len) }
    }
}

impl Drop for Map {
    fn drop(&mut self) {
        if self.len > 0 {
            // SAFETY: place and length are those of the map, and nothing borrows from it any more.
            unsafe { munmap(self.at.as_ptr().cast(), self.len) };
        }
    }
}

/// A file's bytes without reading them: memory that shows the file until it is dropped, for files of any size.
///
/// It stands for its bytes, as a `Vec` does, so that [`File::check`] takes it.
///
/// ```
/// use inscjarol::{File, Mapped};
/// # fn main() -> Result<(), Box<dyn std::error::Error>> {
/// # let path = "../samples/stockpile.las";
///
/// // SAFETY: nothing writes to this file while the program runs.
/// let bytes = unsafe { Mapped::open(path)? };
/// let file = File::check(&bytes)?;
/// assert_eq!(file.points().len(), 2_998);
/// # Ok(())
/// # }
/// ```
///
/// [`File::check`]: crate::File::check
#[derive(Debug)]
pub struct Mapped {
    map: Map,
}

impl Mapped {
    /// Maps the file of this name. An error is the system's: no such file, no permission, or what cannot be mapped, as a
    /// pipe or a folder.
    ///
    /// # Safety
    ///
    /// There is one condition: **nobody writes to the file or makes it shorter while it is mapped**, neither this program nor
    /// another. The map is the file itself. Rust takes for granted that bytes which are borrowed stay what they are, and so
    /// do the promises of the library: of bytes that change meanwhile nothing is promised at all. To read past the end of a
    /// file that became shorter is the signal SIGBUS, which ends the program.
    ///
    /// No call can see to this, and so it is asked of whoever calls. Where it cannot be vouched for, [`std::fs::read`] makes
    /// a copy that nobody else has.
    pub unsafe fn open(path: impl AsRef<Path>) -> io::Result<Mapped> {
        let file = fs::File::open(path)?;
        // SAFETY: the caller vouches for the same condition.
        unsafe { Mapped::of(&file) }
    }

    /// Maps a file that is already open, from its first byte on, wherever it was read to. The file may be closed then.
    ///
    /// # Safety
    ///
    /// As for [`Mapped::open`]: nobody writes to the file or makes it shorter while it is mapped.
    pub unsafe fn of(file: &fs::File) -> io::Result<Mapped> {
        let map = Map::new(file, PROT_READ, MAP_SHARED)?;
        Ok(Mapped { map })
    }
}

impl Deref for Mapped {
    type Target = [u8];

    fn deref(&self) -> &[u8] {
        // SAFETY: whoever mapped the file vouched for it.
        unsafe { self.map.bytes() }
    }
}

impl AsRef<[u8]> for Mapped {
    fn as_ref(&self) -> &[u8] {
        self
    }
}

/// A file that is read and written, and locked against everybody else who asks for the lock, until it is dropped.
#[derive(Debug)]
pub(crate) struct Held {
    file: fs::File,
}

impl Held {
    /// Locks a file that is open for reading and writing. Where another has the lock, that is an error.
    ///
    /// # Safety
    ///
    /// Nobody else writes to the file or makes it shorter while it is held: the lock stops only those who ask for it.
    pub(crate) unsafe fn new(file: fs::File) -> io::Result<Held> {
        // SAFETY: a call on an open file and a number.
        match unsafe { flock(file.as_raw_fd(), LOCK_EX | LOCK_NB) } {
            0 => Ok(Held { file }),
            _ => Err(match io::Error::last_os_error() {
                error if error.kind() == io::ErrorKind::WouldBlock => {
                    io::Error::new(error.kind(), "another program is writing to it")
                }
                error => error,
            }),
        }
    }

    /// The file. What is written to it while there is a copy has to be what the copy has in that place.
    pub(crate) fn file(&self) -> &fs::File {
        &self.file
    }

    /// The file's bytes, to be changed without a change of the file: what is changed is copied first, page by page, and
    /// nothing else is read. The system is not asked for memory for all of it, since only few pages will be.
    pub(crate) fn copy(&self) -> io::Result<Copied<'_>> {
        let flags = MAP_PRIVATE | MAP_NORESERVE;
        let map = Map::new(&self.file, PROT_READ | PROT_WRITE, flags)?;
        Ok(Copied { map, _of: self })
    }
}

impl Drop for Held {
    fn drop(&mut self) {
        // Closed alone, the file would stay locked for as long as a process that was started meanwhile has it open too.
        // SAFETY: a call on an open file and a number.
        unsafe { flock(self.file.as_raw_fd(), LOCK_UN) };
    }
}

/// A file's bytes, to be changed without a change of the file.
#[derive(Debug)]
pub(crate) struct Copied<'h> {
    map: Map,
    _of: &'h Held,
}

impl Deref for Copied<'_> {
    type Target = [u8];

    fn deref(&self) -> &[u8] {
        // SAFETY: whoever holds the file vouched for it, and what is written to it by `Held::file` are these bytes.
        unsafe { self.map.bytes() }
    }
}

impl DerefMut for Copied<'_> {
    fn deref_mut(&mut self) -> &mut [u8] {
        // SAFETY: as above, and the map is this value's own, which is borrowed alone; what is written to it is seen nowhere
        // else.
        unsafe { slice::from_raw_parts_mut(self.map.at.as_ptr(), self.map.len) }
    }
}

#[cfg(test)]
mod tests {
    use super::*;
    use std::{env, process};

    /// A map of a file with these bytes, whose name is gone again.
    fn mapped(name: &str, bytes: &[u8]) -> Mapped {
        let path = env::temp_dir().join(format!("inscjarol-map-{}-{name}", process::id()));
        fs::write(&path, bytes).unwrap();
        // SAFETY: nobody else knows the file.
        let mapped = unsafe { Mapped::open(&path) }.unwrap();
        fs::remove_file(path).unwrap();
        mapped
    }

    #[test]
    fn the_bytes_of_a_file() {
        assert_eq!(&mapped("some", b"some bytes")[..], b"some bytes");
        assert_eq!(mapped("none", b"").as_ref(), b"");
        let long = vec![7; 100_000];
        let there = mapped("long", &long);
        let counted = std::thread::spawn(move || there.iter().filter(|&&b| b == 7).count());
        assert_eq!(counted.join().unwrap(), 100_000);
    }

    #[test]
    fn a_copy_is_changed_and_the_file_is_not() {
        let path = env::temp_dir().join(format!("inscjarol-held-{}", process::id()));
        fs::write(&path, vec![7; 10_000]).unwrap();
        let open = || {
            let mut options = fs::File::options();
            options.read(true).write(true).open(&path).unwrap()
        };
        // SAFETY: nobody else knows the file.
        let held = unsafe { Held::new(open()) }.unwrap();
        let mut copy = held.copy().unwrap();
        copy[5_000] = 8;
        assert_eq!((copy.len(), copy[4_999], copy[5_000]), (10_000, 7, 8));
        assert_eq!(fs::read(&path).unwrap(), vec![7; 10_000]);
        assert_eq!(held.copy().unwrap()[5_000], 7);
        // SAFETY: as above.
        let error = unsafe { Held::new(open()) }.unwrap_err();
        assert_eq!(error.kind(), io::ErrorKind::WouldBlock);
        // The file that another process would have open too.
        let too = held.file().try_clone().unwrap();
        drop(copy);
        drop(held);
        // SAFETY: as above.
        assert!(unsafe { Held::new(open()) }.is_ok());
        drop(too);
        fs::remove_file(path).unwrap();
    }

    #[test]
    fn what_cannot_be_mapped() {
        for name in ["/nowhere/at/all", "/", "/dev/null"] {
            // SAFETY: nothing is mapped.
            assert!(unsafe { Mapped::open(name) }.is_err(), "{name}");
        }
    }
}
