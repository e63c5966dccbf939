//! Memory with nothing before and behind it: a read or a write past either end stops the process, and
//! where it is lent for reading only, so does any write. For the linked library, on x86-64 Linux; the
//! far end of the pipe has pages of its own.

use std::ffi::c_void;
use std::mem::size_of;
use std::slice::{from_raw_parts, from_raw_parts_mut};

use crate::pipe::Place;

const PAGE: usize = 4096;
const PROT_NONE: i32 = 0;
const PROT_READ: i32 = 1;
const PROT_WRITE: i32 = 2;
const MAP_PRIVATE_ANONYMOUS: i32 = 0x22;

extern "C" {
    fn mmap(
        at: *mut c_void,
        len: usize,
        prot: i32,
        flags: i32,
        file: i32,
        from: i64,
    ) -> *mut c_void;
    fn mprotect(at: *mut c_void, len: usize, prot: i32) -> i32;
    fn munmap(at: *mut c_void, len: usize) -> i32;
}

/// Lends words to a call at a place and takes back what it leaves there.
pub fn lent<R>(place: Place, words: &mut [u32], call: impl FnOnce(&mut [u32]) -> R) -> R {
    if place == Place::Middle {
        return call(words);
    }
    let mut pages = Pages::new(4 * words.len());
    let lent = pages.lend(words, place);
    let answer = call(lent);
    words.copy_from_slice(lent);
    answer
}

/// Lends numbers for reading only.
pub fn shown<T: Copy, R>(place: Place, items: &[T], call: impl FnOnce(&[T]) -> R) -> R {
    if place == Place::Middle {
        return call(items);
    }
    call(Pages::new(size_of::<T>() * items.len()).show(items, place))
}

struct Pages {
    /// The first page that can be used; a forbidden one lies before it and one behind the last.
    first: *mut u8,
    bytes: usize,
}

impl Pages {
    /// Pages for so many bytes.
    fn new(bytes: usize) -> Pages {
        let bytes = bytes.max(1).next_multiple_of(PAGE);
        // SAFETY: a new mapping at an address that the system chooses touches no other memory.
        unsafe {
            let whole = bytes + 2 * PAGE;
            let at = mmap(std::ptr::null_mut(), whole, PROT_NONE, MAP_PRIVATE_ANONYMOUS, -1, 0);
            assert!(at as isize != -1, "no pages");
            let first = (at as *mut u8).add(PAGE);
            let pages = Pages { first, bytes };
            pages.protect(PROT_READ | PROT_WRITE);
            pages
        }
    }

    fn protect(&self, prot: i32) {
        // SAFETY: these pages are our own, and each use of them says first what it needs.
        let failed = unsafe { mprotect(self.first.cast(), self.bytes, prot) };
        assert_eq!(failed, 0, "no protection");
    }

    fn start<T: Copy>(&self, count: usize, place: Place) -> *mut T {
        let bytes = count * size_of::<T>();
        assert!(bytes <= self.bytes);
        let offset = if place == Place::Front { 0 } else { self.bytes - bytes };
        // SAFETY: the offset lies inside the pages.
        unsafe { self.first.add(offset).cast() }
    }

    /// A copy of these items at one end, for reading and writing. Numbers only.
    fn lend<T: Copy>(&mut self, items: &[T], place: Place) -> &mut [T] {
        self.protect(PROT_READ | PROT_WRITE);
        // SAFETY: the place has room for them, pages are aligned for numbers of any size, and the
        // borrow of the pages keeps a second copy from being made meanwhile.
        let lent = unsafe { from_raw_parts_mut(self.start(items.len(), place), items.len()) };
        lent.copy_from_slice(items);
        lent
    }

    /// The same, for reading only.
    fn show<T: Copy>(&mut self, items: &[T], place: Place) -> &[T] {
        self.lend(items, place);
        self.protect(PROT_READ);
        // SAFETY: as above; the items were just copied there.
        unsafe { from_raw_parts(self.start(items.len(), place), items.len()) }
    }
}

impl Drop for Pages {
    fn drop(&mut self) {
        // SAFETY: the mapping made in `new`, with the two forbidden pages.
        unsafe { munmap(self.first.sub(PAGE).cast(), self.bytes + 2 * PAGE) };
    }
}
