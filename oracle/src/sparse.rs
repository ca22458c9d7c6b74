//! Memory that is zeros until somebody touches it: so much of it can be lent that a file in it has as many
//! points as 32 bits can count.

use std::{
    ffi::{c_int, c_long, c_void},
    ops::{Deref, DerefMut},
    ptr, slice,
};

unsafe extern "C" {
    fn mmap(
        at: *mut c_void,
        size: usize,
        prot: c_int,
        flags: c_int,
        fd: c_int,
        from: c_long,
    ) -> *mut c_void;
    fn munmap(at: *mut c_void, size: usize) -> c_int;
}

/// Linux's numbers: to be read and written; private, of no file, and nothing set aside for it.
const READ_WRITE: c_int = 1 | 2;
const PRIVATE_ANONYMOUS_NORESERVE: c_int = 0x02 | 0x20 | 0x4000;

/// So many zeros.
pub struct Sparse {
    at: *mut u8,
    size: usize,
}

impl Sparse {
    pub fn new(size: usize) -> Sparse {
        // SAFETY: a new mapping, of which nobody else knows.
        let at = unsafe {
            mmap(
                ptr::null_mut(),
                size,
                READ_WRITE,
                PRIVATE_ANONYMOUS_NORESERVE,
                -1,
                0,
            )
        };
        assert!(at.addr() != usize::MAX, "the system maps no {size} bytes");
        Sparse {
            at: at.cast(),
            size,
        }
    }
}

impl Deref for Sparse {
    type Target = [u8];

    fn deref(&self) -> &[u8] {
        // SAFETY: the mapping is there until this is dropped, and zeros are bytes.
        unsafe { slice::from_raw_parts(self.at, self.size) }
    }
}

impl DerefMut for Sparse {
    fn deref_mut(&mut self) -> &mut [u8] {
        // SAFETY: as above, and it is borrowed alone.
        unsafe { slice::from_raw_parts_mut(self.at, self.size) }
    }
}

impl Drop for Sparse {
    fn drop(&mut self) {
        // SAFETY: its own mapping, of its own size, which nobody borrows any more.
        unsafe { munmap(self.at.cast(), self.size) };
    }
}
