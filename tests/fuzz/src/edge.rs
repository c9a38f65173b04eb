//! Memory for a file whose last byte is the last of a page, with a page behind it that nobody may read: a call that reads past the end of the file crashes.

use std::ffi::c_void;
use std::ptr::null_mut;

const PAGE: usize = 4096;
/// Pages for the longest file that is made, and the one behind.
const PAGES: usize = 4;

// of the C library, which every program of the standard library has
extern "C" {
    fn mmap(at: *mut c_void, length: usize, rights: i32, flags: i32, file: i32, offset: i64) -> *mut c_void;
    fn mprotect(at: *mut c_void, length: usize, rights: i32) -> i32;
}

// as Linux on x86-64 numbers them
const NOTHING: i32 = 0;
const READ_AND_WRITE: i32 = 3;
const OWN_AND_NO_FILE: i32 = 0x22;

pub struct Edge(*mut u8);

impl Edge {
    pub fn new() -> Edge {
        // SAFETY: new memory is asked for, and the rights are those of its last page alone.
        let start = unsafe { mmap(null_mut(), PAGES * PAGE, READ_AND_WRITE, OWN_AND_NO_FILE, -1, 0) };
        assert!(start as isize != -1, "no memory for a file");
        let edge = start as usize + (PAGES - 1) * PAGE;
        // SAFETY: the last of the pages above.
        let taken = unsafe { mprotect(edge as *mut c_void, PAGE, NOTHING) };
        assert!(taken == 0, "the page behind a file can still be read");
        Edge(edge as *mut u8)
    }

    /// The bytes put right before the edge.
    pub fn put(&mut self, bytes: &[u8]) -> &[u8] {
        assert!(bytes.len() <= (PAGES - 1) * PAGE, "a file of {} bytes is longer than any that is made", bytes.len());
        // SAFETY: so many bytes before the edge are memory of this alone, which may be written.
        let file = unsafe { std::slice::from_raw_parts_mut(self.0.sub(bytes.len()), bytes.len()) };
        file.copy_from_slice(bytes);
        file
    }
}
