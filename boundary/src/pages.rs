//! Memory between two pages that may not be touched.

use std::ffi::c_void;
use std::ptr;

/// A page of x86-64, the only machine that the library is built for.
pub const PAGE: usize = 4096;

// Linux's numbers.
const PROT_NONE: i32 = 0;
const PROT_READ_WRITE: i32 = 1 | 2;
const MAP_PRIVATE_ANONYMOUS: i32 = 0x02 | 0x20;

extern "C" {
    // Of the C library, which the standard library links anyway.
    fn mmap(at: *mut c_void, bytes: usize, access: i32, flags: i32, file: i32, offset: i64) -> *mut c_void;
    fn mprotect(at: *mut c_void, bytes: usize, access: i32) -> i32;
    fn munmap(at: *mut c_void, bytes: usize) -> i32;
}

/// Whole pages of zeros; the page before them and the page behind them may not be touched.
pub struct Pages {
    first: *mut u8,
    bytes: usize,
}

impl Pages {
    /// As many pages as hold so many bytes, at least one.
    pub fn holding(bytes: usize) -> Pages {
        let bytes = bytes.max(1).next_multiple_of(PAGE);
        unsafe {
            let all = mmap(ptr::null_mut(), bytes + 2 * PAGE, PROT_NONE, MAP_PRIVATE_ANONYMOUS, -1, 0);
            assert_ne!(all as isize, -1, "the machine gives no pages");
            let first = all.cast::<u8>().add(PAGE);
            assert_eq!(mprotect(first.cast(), bytes, PROT_READ_WRITE), 0, "the machine opens no pages");
            Pages { first, bytes }
        }
    }

    /// The first byte that may be touched.
    pub fn first(&self) -> *mut u8 {
        self.first
    }

    pub fn bytes(&self) -> usize {
        self.bytes
    }
}

impl Drop for Pages {
    fn drop(&mut self) {
        unsafe {
            munmap(self.first.sub(PAGE).cast(), self.bytes + 2 * PAGE);
        }
    }
}
