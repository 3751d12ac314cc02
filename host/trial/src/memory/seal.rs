//! Bytes that can be read and nothing else, with nothing readable behind them: who writes to them,
//! or reads past their end, ends the process.
//!
//! For tests on Linux, where the static library runs.

use std::ffi::c_void;
use std::{ptr, slice};

/// No processor that the library is built for has larger pages.
const PAGE: usize = 4096;

const PROT_NONE: i32 = 0;
const PROT_READ: i32 = 1;
const PROT_WRITE: i32 = 2;
const MAP_PRIVATE: i32 = 2;
const MAP_ANONYMOUS: i32 = 32;

extern "C" {
    fn mmap(
        at: *mut c_void,
        len: usize,
        prot: i32,
        flags: i32,
        file: i32,
        from: i64,
    ) -> *mut c_void;
    fn mprotect(at: *mut c_void, len: usize, prot: i32) -> i32;
    fn munmap(at: *mut c_void, len: usize) -> i32;
}

/// A copy of some bytes, sealed.
#[derive(Debug)]
pub struct Sealed {
    pages: *mut c_void,
    mapped: usize,
    first: *const u8,
    length: usize,
}

impl Sealed {
    /// Copies the bytes to the end of pages of their own, and seals these.
    ///
    /// # Panics
    ///
    /// If the system has no such pages to give.
    ///
    /// ```
    /// use chronicle::raw::check;
    /// use chronicle_trial::{sample, seal::Sealed};
    ///
    /// let record = Sealed::new(sample::WORKED);
    /// assert_eq!(record.bytes(), sample::WORKED);
    /// assert_eq!(check(record.bytes()), Ok(()));
    /// ```
    pub fn new(bytes: &[u8]) -> Sealed {
        let room = bytes.len().next_multiple_of(PAGE);
        let mapped = room + PAGE;
        // SAFETY: new pages of the system's choice, which nobody else knows; the bytes are copied
        // within the first `room` of them, which are written before they are sealed.
        unsafe {
            let flags = MAP_PRIVATE | MAP_ANONYMOUS;
            let pages = mmap(ptr::null_mut(), mapped, PROT_READ | PROT_WRITE, flags, -1, 0);
            assert!(pages as isize != -1, "the system gives {mapped} bytes");
            let first = pages.cast::<u8>().add(room - bytes.len());
            ptr::copy_nonoverlapping(bytes.as_ptr(), first, bytes.len());
            let behind = pages.cast::<u8>().add(room).cast();
            let sealed = (room == 0 || mprotect(pages, room, PROT_READ) == 0)
                && mprotect(behind, PAGE, PROT_NONE) == 0;
            assert!(sealed, "the pages can be sealed");
            Sealed { pages, mapped, first, length: bytes.len() }
        }
    }

    /// The bytes.
    ///
    /// ```
    /// use chronicle_trial::seal::Sealed;
    ///
    /// assert_eq!(Sealed::new(&[]).bytes(), []);
    /// ```
    pub fn bytes(&self) -> &[u8] {
        // SAFETY: so many bytes were copied there, and nobody can write to them.
        unsafe { slice::from_raw_parts(self.first, self.length) }
    }
}

impl Drop for Sealed {
    fn drop(&mut self) {
        // SAFETY: these pages were mapped by `new`, and no borrow of them outlives this value.
        unsafe { munmap(self.pages, self.mapped) };
    }
}
