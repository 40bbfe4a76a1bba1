//! An array of any length in little memory: one block of it, mapped again and again, one behind the other.

use std::ffi::{c_char, c_int, c_void};
use std::io;
use std::ptr;

unsafe extern "C" {
    fn memfd_create(name: *const c_char, flags: u32) -> c_int;
    fn ftruncate(file: c_int, length: i64) -> c_int;
    fn mmap(at: *mut c_void, length: usize, protection: c_int, flags: c_int, file: c_int, offset: i64) -> *mut c_void;
    fn munmap(at: *mut c_void, length: usize) -> c_int;
    fn close(file: c_int) -> c_int;
}

const READ_WRITE: c_int = 1 | 2;
const SHARED: c_int = 1;
const FIXED: c_int = 0x10;
/// Addresses alone: private, anonymous, and nothing reserved for them.
const ADDRESSES: c_int = 2 | 0x20 | 0x4000;

/// The bytes that repeat.
const BLOCK: usize = 1 << 26;

pub struct Repeated {
    start: *mut c_void,
    length: usize,
}

impl Repeated {
    pub fn new(bytes: usize) -> io::Result<Self> {
        let length = bytes.div_ceil(BLOCK).max(1) * BLOCK;
        // SAFETY: a file of its own, whose only mappings lie in addresses of its own.
        unsafe {
            let file = memfd_create(c"repeated".as_ptr(), 0);
            let start = mmap(ptr::null_mut(), length, 0, ADDRESSES, -1, 0);
            let mut well = file >= 0 && start.addr() != usize::MAX && ftruncate(file, BLOCK as i64) == 0;
            for offset in (0..length).step_by(BLOCK) {
                well = well && mmap(start.byte_add(offset), BLOCK, READ_WRITE, SHARED | FIXED, file, 0).addr() != usize::MAX;
            }
            let error = io::Error::last_os_error();
            close(file);
            if well { Ok(Repeated { start, length }) } else { Err(error) }
        }
    }

    pub fn entries<T>(&self) -> *mut [T] {
        ptr::slice_from_raw_parts_mut(self.start.cast(), self.length / size_of::<T>())
    }

    /// The row end at an index: what was written last there, or a whole number of blocks behind it.
    pub fn end(&self, index: usize) -> u64 {
        assert!(index < self.length / size_of::<u64>(), "the array is as long");
        // SAFETY: the index lies within the mapping, and any eight bytes are a number.
        unsafe { self.start.cast::<u64>().add(index).read() }
    }
}

impl Drop for Repeated {
    fn drop(&mut self) {
        // SAFETY: no entry of it is lent any more.
        unsafe { munmap(self.start, self.length) };
    }
}
