//! A stream past 4 GiB. Its bodies are pages that nothing ever writes, so it takes some 270 MB.

use crate::generate::{plain, segment_of_size, END};
use std::ffi::{c_int, c_long, c_void};

extern "C" {
    fn mmap(at: *mut c_void, len: usize, prot: c_int, flags: c_int, fd: c_int, off: c_long) -> *mut c_void;
    fn madvise(at: *mut c_void, len: usize, advice: c_int) -> c_int;
    fn munmap(at: *mut c_void, len: usize) -> c_int;
}

/// PROT_READ and PROT_WRITE.
const READ_WRITE: c_int = 3;
/// MAP_PRIVATE, MAP_ANONYMOUS and MAP_NORESERVE.
const UNRESERVED: c_int = 0x02 | 0x20 | 0x4000;
/// MADV_NOHUGEPAGE: a head must not bring in 2 MB.
const SMALL_PAGES: c_int = 15;

const BODY: usize = 65_535;
const SEGMENTS: usize = (1 << 32) / (13 + BODY) + 2;

pub struct Vast {
    start: *mut u8,
    len: usize,
}

impl Vast {
    /// Segments of an unknown kind with the largest body, and an END; none where the memory is not to be had.
    pub fn new() -> Option<Self> {
        let end = plain(END, &[]);
        let len = SEGMENTS * (13 + BODY) + end.len();
        let start = unsafe { mmap(std::ptr::null_mut(), len, READ_WRITE, UNRESERVED, -1, 0) };
        if start as isize == -1 {
            return None;
        }
        unsafe { madvise(start, len, SMALL_PAGES) };
        let mut vast = Vast { start: start.cast(), len };
        for i in 0..SEGMENTS {
            let head = segment_of_size(0x99, i as u32, !(i as u32), BODY as u16, &[]);
            vast.put(i * (13 + BODY), &head);
        }
        vast.put(len - end.len(), &end);
        Some(vast)
    }

    fn put(&mut self, at: usize, bytes: &[u8]) {
        let all = unsafe { std::slice::from_raw_parts_mut(self.start, self.len) };
        all[at..at + bytes.len()].copy_from_slice(bytes);
    }

    pub fn stream(&self) -> &[u8] {
        unsafe { std::slice::from_raw_parts(self.start, self.len) }
    }
}

impl Drop for Vast {
    fn drop(&mut self) {
        unsafe { munmap(self.start.cast(), self.len) };
    }
}
