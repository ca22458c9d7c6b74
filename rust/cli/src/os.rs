//! What the tool asks of the operating system and the standard library does not have: memory maps, room on the disk, names
//! for unnamed files, owners, what a terminal is like, and what happens when a signal ends the tool. The only file of the
//! tool with `unsafe`.
#![allow(unsafe_code)]

use inscjarol::{Mapped, Writer};
use libc::{c_char, c_int};
use memmap2::{MmapMut, MmapOptions};
use std::{
    ffi::CString,
    fs::File,
    io,
    mem::MaybeUninit,
    os::unix::{ffi::OsStrExt, io::AsRawFd},
    path::Path,
    ptr,
    sync::atomic::{AtomicPtr, Ordering},
};

/// What a call answers that says by -1 that it failed.
fn done(answer: c_int) -> io::Result<()> {
    match answer {
        -1 => Err(io::Error::last_os_error()),
        _ => Ok(()),
    }
}

/// Maps a file to be read.
pub(crate) fn map(file: &File) -> io::Result<Mapped> {
    // SAFETY: that no other program changes the file while it is mapped is asked of the user, by the README and by
    // docs/TRUST.md, which says what else may happen; the tool itself writes to no file that it reads so.
    unsafe { Mapped::of(file) }
}

/// Opens a file to be changed in place, and locks it.
pub(crate) fn writer(path: &Path) -> io::Result<Writer> {
    // SAFETY: as above; others who change it so are kept out by the lock.
    unsafe { Writer::open(path) }
}

/// Maps the first bytes of a file to be written.
pub(crate) fn map_mut(file: &File, len: usize) -> io::Result<MmapMut> {
    // SAFETY: the file is the tool's own, and has no name yet, or one that nobody else knows.
    unsafe { MmapOptions::new().len(len).map_mut(file) }
}

/// Takes room on the disk for a file of this length, so that writing to its map cannot run out of it.
pub(crate) fn allocate(file: &File, len: u64) -> io::Result<()> {
    let wanted = i64::try_from(len).unwrap_or(i64::MAX);
    // SAFETY: a call on an open file and numbers.
    match unsafe { libc::posix_fallocate(file.as_raw_fd(), 0, wanted) } {
        0 => Ok(()),
        // The file system cannot promise room; the length is all that can be had.
        libc::EINVAL | libc::EOPNOTSUPP => file.set_len(len),
        error => Err(io::Error::from_raw_os_error(error)),
    }
}

/// The name that the system has for an open file.
pub(crate) fn name_of_open(file: &File) -> String {
    format!("/proc/self/fd/{}", file.as_raw_fd())
}

/// Gives a file that was opened without one a name, which nothing may have yet.
pub(crate) fn link(file: &File, name: &Path) -> io::Result<()> {
    let from = CString::new(name_of_open(file))?;
    let to = CString::new(name.as_os_str().as_bytes())?;
    // SAFETY: both are C strings that live until the call ends.
    done(unsafe {
        libc::linkat(
            libc::AT_FDCWD,
            from.as_ptr(),
            libc::AT_FDCWD,
            to.as_ptr(),
            libc::AT_SYMLINK_FOLLOW,
        )
    })
}

/// Gives a file to this user, where that is said, and to this group.
pub(crate) fn give(file: &File, user: Option<u32>, group: u32) -> io::Result<()> {
    // SAFETY: a call on an open file and numbers, of which the largest says that the user stays.
    done(unsafe { libc::fchown(file.as_raw_fd(), user.unwrap_or(u32::MAX), group) })
}

/// Whether what is written there appears on a terminal.
pub(crate) fn is_terminal(stream: &impl AsRawFd) -> bool {
    // SAFETY: a call on the number of an open file.
    unsafe { libc::isatty(stream.as_raw_fd()) == 1 }
}

/// How many characters a line of a terminal has, where it says so.
pub(crate) fn width(stream: &impl AsRawFd) -> Option<usize> {
    let mut size = MaybeUninit::<libc::winsize>::uninit();
    // SAFETY: the call writes a size where it is lent the room for one, or fails.
    let size = unsafe {
        done(libc::ioctl(
            stream.as_raw_fd(),
            libc::TIOCGWINSZ,
            size.as_mut_ptr(),
        ))
        .ok()?;
        size.assume_init()
    };
    Some(usize::from(size.ws_col)).filter(|width| *width > 0)
}

/// Does what is not to be cut in two: every signal that can wait waits. There has to be no other thread to take it.
pub(crate) fn uninterrupted<T>(work: impl FnOnce() -> T) -> T {
    let mut all = MaybeUninit::<libc::sigset_t>::uninit();
    let mut before = MaybeUninit::<libc::sigset_t>::uninit();
    // SAFETY: the sets are lent for the calls to write, and read only after that.
    unsafe {
        libc::sigfillset(all.as_mut_ptr());
        libc::pthread_sigmask(libc::SIG_SETMASK, all.as_ptr(), before.as_mut_ptr());
    }
    let answer = work();
    // SAFETY: as above; the set is the one that the first call wrote.
    unsafe { libc::pthread_sigmask(libc::SIG_SETMASK, before.as_ptr(), ptr::null_mut()) };
    answer
}

/// The file to be removed when a signal ends the tool; null for none.
static UNFINISHED: AtomicPtr<c_char> = AtomicPtr::new(ptr::null_mut());

/// Removes the unfinished file. Only async-signal-safe calls are made here and in what calls it.
fn remove_unfinished() {
    let path = UNFINISHED.swap(ptr::null_mut(), Ordering::SeqCst);
    if !path.is_null() {
        // SAFETY: what is not null in there is a C string that was made for it and is freed by nobody.
        unsafe { libc::unlink(path) };
    }
}

/// A signal that ends the tool: the unfinished file goes first.
extern "C" fn on_end(number: c_int) {
    remove_unfinished();
    // SAFETY: both may be called in a handler; the signal then does what it does without one.
    unsafe {
        libc::signal(number, libc::SIG_DFL);
        libc::raise(number);
    }
}

/// A map that could not be read.
extern "C" fn on_bus_error(_: c_int) {
    const WORDS: &[u8] = b"inscjarol: a file could not be read on: it became shorter meanwhile, or its disk failed\n";
    remove_unfinished();
    // SAFETY: both may be called in a handler; pointer and length are those of a constant.
    unsafe {
        libc::write(libc::STDERR_FILENO, WORDS.as_ptr().cast(), WORDS.len());
        libc::_exit(2)
    }
}

/// A handler as the system takes it.
fn handler(function: extern "C" fn(c_int)) -> libc::sighandler_t {
    function as libc::sighandler_t
}

/// Makes two signals sentences: a file that becomes shorter while it is read ends the tool with one and status 2, and a file
/// that may not become as long as it has to is an error of the call that writes it.
pub(crate) fn say_instead_of_signals() {
    // SAFETY: the handler is a function of the kind that is asked for, and makes only calls that are allowed in one.
    unsafe {
        libc::signal(libc::SIGBUS, handler(on_bus_error));
        libc::signal(libc::SIGXFSZ, libc::SIG_IGN);
    }
}

/// The signals that end a program which does nothing about them, but for those that tell of an error in it, and for SIGKILL.
fn ending() -> impl Iterator<Item = c_int> {
    let named = [
        libc::SIGHUP,
        libc::SIGINT,
        libc::SIGQUIT,
        libc::SIGTRAP,
        libc::SIGABRT,
        libc::SIGUSR1,
        libc::SIGUSR2,
        libc::SIGALRM,
        libc::SIGTERM,
        libc::SIGSTKFLT,
        libc::SIGXCPU,
        libc::SIGVTALRM,
        libc::SIGPROF,
        libc::SIGIO,
        libc::SIGPWR,
        libc::SIGSYS,
    ];
    named.into_iter().chain(libc::SIGRTMIN()..=libc::SIGRTMAX())
}

/// While it is there, a signal that ends the tool removes the file first.
pub(crate) struct Unfinished;

impl Unfinished {
    /// Of this file, which need not be there yet; where its name holds a zero byte, which no name does, of none.
    pub(crate) fn new(path: &Path) -> Unfinished {
        if let Ok(name) = CString::new(path.as_os_str().as_bytes()) {
            UNFINISHED.store(name.into_raw(), Ordering::SeqCst);
        }
        for number in ending() {
            // SAFETY: as above. A signal that is ignored, as under nohup, stays so.
            unsafe {
                if libc::signal(number, handler(on_end)) == libc::SIG_IGN {
                    libc::signal(number, libc::SIG_IGN);
                }
            }
        }
        Unfinished
    }
}

impl Drop for Unfinished {
    fn drop(&mut self) {
        let path = UNFINISHED.swap(ptr::null_mut(), Ordering::SeqCst);
        if !path.is_null() {
            // SAFETY: it came from `CString::into_raw` and was taken out above, so nobody else has it.
            drop(unsafe { CString::from_raw(path) });
        }
    }
}
