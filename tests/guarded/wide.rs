//! Memory of more elements than a test can hold: a front that is held, and as much as is wished behind it that reads as 0, cannot
//! be written, and takes no room in the machine.

use std::ffi::c_void;
use std::mem::{size_of, size_of_val};

/// The size of a page of memory, or of some of them.
const PAGE: usize = 4096;

/// Memory that may be read.
const READABLE: i32 = 1;

/// Memory that may be read and written.
const WRITABLE: i32 = 3;

/// Memory of this process only, from no file, for which no room is set aside.
const LENT_LAZILY: i32 = 0x4022;

extern "C" {
    fn mmap(
        wish: *mut c_void,
        bytes: usize,
        use_of_it: i32,
        sort: i32,
        file: i32,
        offset: i64,
    ) -> *mut c_void;
    fn mprotect(start: *mut c_void, bytes: usize, use_of_it: i32) -> i32;
    fn munmap(start: *mut c_void, bytes: usize) -> i32;
}

/// Such memory: where it begins, how many bytes it has, and how many elements of its front may be written.
pub struct Wide<T> {
    start: *mut T,
    bytes: usize,
    front: usize,
}

/// A number of bytes as whole pages.
fn whole_pages(bytes: usize) -> usize {
    (bytes + PAGE - 1) / PAGE * PAGE
}

impl<T: Copy> Wide<T> {
    /// Memory with these elements at its front and so many of 0 behind them.
    pub fn new(elements: &[T], behind: usize) -> Wide<T> {
        let front_bytes = whole_pages(size_of_val(elements));
        let bytes = front_bytes + whole_pages(behind * size_of::<T>());
        // SAFETY: the kernel chooses where; the front is as long as the elements, and only the front is made writable.
        let start = unsafe {
            let start = mmap(std::ptr::null_mut(), bytes, READABLE, LENT_LAZILY, -1, 0);
            assert!(start as isize != -1, "{bytes} bytes could not be lent");
            assert!(mprotect(start, front_bytes, WRITABLE) == 0);
            std::ptr::copy_nonoverlapping(elements.as_ptr(), start as *mut T, elements.len());
            start as *mut T
        };
        let front = front_bytes / size_of::<T>();
        Wide {
            start,
            bytes,
            front,
        }
    }

    /// The front: the elements, and what of the memory behind them may be written.
    pub fn front(&self) -> &[T] {
        // SAFETY: so many elements are held from the start on, and all bytes of them are set.
        unsafe { std::slice::from_raw_parts(self.start, self.front) }
    }

    /// Where the memory begins.
    pub fn start(&mut self) -> *mut T {
        self.start
    }
}

impl<T> Drop for Wide<T> {
    /// Gives the memory back.
    fn drop(&mut self) {
        // SAFETY: these are the start and the bytes that were lent, and nobody uses them any more.
        unsafe { munmap(self.start as *mut c_void, self.bytes) };
    }
}
