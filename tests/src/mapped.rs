//! Columns and lists that are longer than memory: anonymous mappings of zeros, of which only what is written takes space. Linux alone.
use std::ffi::{c_int, c_void};
use std::ops::{Deref, DerefMut};

extern "C" {
    fn mmap(at: *mut c_void, bytes: usize, protection: c_int, flags: c_int, file: c_int, offset: i64) -> *mut c_void;
    fn munmap(at: *mut c_void, bytes: usize) -> c_int;
}

const READ: c_int = 1;
const WRITE: c_int = 2;
/// MAP_PRIVATE, MAP_ANONYMOUS and MAP_NORESERVE, on x86-64 and Arm alike.
const FLAGS: c_int = 0x2 | 0x20 | 0x4000;

/// A type of which zero bytes are a value.
pub trait Zero: Copy {}
impl Zero for i32 {}
impl Zero for u32 {}
impl Zero for u64 {}

fn map<T: Zero>(length: usize, protection: c_int) -> *mut T {
    // SAFETY: a new mapping, which touches no other.
    let at = unsafe { mmap(std::ptr::null_mut(), length * size_of::<T>(), protection, FLAGS, -1, 0) };
    assert!(at as isize != -1, "no mapping of {length} words: {}", std::io::Error::last_os_error());
    at.cast()
}

/// Zeros that can't be changed: whoever writes there is stopped.
pub struct Zeros<T: Zero> {
    at: *const T,
    length: usize,
}

impl<T: Zero> Zeros<T> {
    /// At least one.
    pub fn of(length: usize) -> Zeros<T> {
        Zeros { at: map(length, READ), length }
    }
}

impl<T: Zero> Deref for Zeros<T> {
    type Target = [T];

    fn deref(&self) -> &[T] {
        // SAFETY: the mapping has this length, and zeros are values of the type.
        unsafe { std::slice::from_raw_parts(self.at, self.length) }
    }
}

impl<T: Zero> Drop for Zeros<T> {
    fn drop(&mut self) {
        // SAFETY: the mapping is this one's alone.
        unsafe { munmap(self.at as *mut c_void, self.length * size_of::<T>()) };
    }
}

/// Zeros of which some are to be changed.
pub struct Sparse<T: Zero>(Zeros<T>);

impl<T: Zero> Sparse<T> {
    /// At least one.
    pub fn of(length: usize) -> Sparse<T> {
        Sparse(Zeros { at: map(length, READ | WRITE), length })
    }
}

impl<T: Zero> Deref for Sparse<T> {
    type Target = [T];

    fn deref(&self) -> &[T] {
        &self.0
    }
}

impl<T: Zero> DerefMut for Sparse<T> {
    fn deref_mut(&mut self) -> &mut [T] {
        // SAFETY: as above, and it is borrowed mutably.
        unsafe { std::slice::from_raw_parts_mut(self.0.at as *mut T, self.0.length) }
    }
}
