//! Words and pair records as the system gives them: newly mapped, all zeros, no page touched
//! yet. An allocator would soon lend the same pages again.

// It calls what is not Rust.
#![allow(unsafe_code)]

use std::ffi::c_void;
use std::mem::size_of;
use std::ptr;
use std::slice;

use ivs::Pair;

extern "C" {
    /// POSIX.
    fn mmap(
        at: *mut c_void,
        bytes: usize,
        protection: i32,
        flags: i32,
        file: i32,
        offset: i64,
    ) -> *mut c_void;

    /// POSIX.
    fn munmap(at: *mut c_void, bytes: usize) -> i32;
}

/// Linux's `PROT_READ | PROT_WRITE`.
const READ_AND_WRITE: i32 = 1 | 2;

/// Linux's `MAP_PRIVATE | MAP_ANONYMOUS`.
const PRIVATE_AND_ANONYMOUS: i32 = 0x02 | 0x20;

/// Words or records that are mapped for this alone, and given back when it is dropped.
pub struct Fresh<T> {
    at: *mut T,
    count: usize,
}

impl Fresh<u32> {
    /// So many words, at least one.
    pub fn words(count: usize) -> Fresh<u32> {
        Fresh::zeros(count)
    }
}

impl Fresh<Pair> {
    /// So many pair records, at least one.
    pub fn pairs(count: usize) -> Fresh<Pair> {
        Fresh::zeros(count)
    }
}

impl<T> Fresh<T> {
    /// So many of a type of which zeros are one: the two above.
    fn zeros(count: usize) -> Fresh<T> {
        let bytes = size_of::<T>() * count;
        // SAFETY: the system chooses where, so nothing that is there already is mapped over.
        let at = unsafe {
            mmap(
                ptr::null_mut(),
                bytes,
                READ_AND_WRITE,
                PRIVATE_AND_ANONYMOUS,
                -1,
                0,
            )
        };
        assert!(at as isize != -1, "{bytes} bytes can be mapped");
        Fresh {
            at: at.cast(),
            count,
        }
    }

    /// All of them.
    pub fn all(&mut self) -> &mut [T] {
        // SAFETY: as many are mapped, zeros or what was written to them, at the start of a
        // page; they are this one's alone until it is dropped.
        unsafe { slice::from_raw_parts_mut(self.at, self.count) }
    }
}

impl<T> Drop for Fresh<T> {
    fn drop(&mut self) {
        // SAFETY: it was mapped with this length, and no borrow of it is left.
        let status = unsafe { munmap(self.at.cast(), size_of::<T>() * self.count) };
        debug_assert_eq!(status, 0, "what was mapped is given back");
    }
}
