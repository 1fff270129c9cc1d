//! Lent memory that shows what is touched outside it: a known stretch on both sides, and, for every other call, a page
//! that cannot be read just past it.

use std::ffi::c_void;
use std::fmt::Display;
use std::{ptr, slice};

extern "C" {
    fn mmap(
        at: *mut c_void,
        size: usize,
        allowed: i32,
        kind: i32,
        file: i32,
        from: i64,
    ) -> *mut c_void;
    fn mprotect(at: *mut c_void, size: usize, allowed: i32) -> i32;
}

const PAGE: usize = 4096;
const READ_WRITE: i32 = 3;
const NOTHING: i32 = 0;
const PRIVATE_ANONYMOUS: i32 = 0x22;
const FAILED: usize = usize::MAX;

/// The known stretch before and after, in elements. Odd, so that bytes lent with it lie at an odd address.
const BEFORE: usize = 64;
const AFTER: usize = 63;

/// A stretch of memory with a page after it that cannot be read or written.
pub struct Lent<T> {
    /// Just past the last element.
    end: *mut T,
    room: usize,
    pattern: T,
    /// Of what is lent now.
    length: usize,
    after: usize,
}

impl<T: Copy + PartialEq + Display> Lent<T> {
    /// Room for so many elements.
    pub fn new(room: usize, pattern: T) -> Lent<T> {
        let size = ((room + BEFORE + AFTER) * size_of::<T>()).next_multiple_of(PAGE);
        // A fresh mapping, of which the last page is closed.
        let end = unsafe {
            let start = mmap(
                ptr::null_mut(),
                size + PAGE,
                READ_WRITE,
                PRIVATE_ANONYMOUS,
                -1,
                0,
            );
            assert!(start as usize != FAILED, "no memory for {size} bytes");
            let end = start.cast::<u8>().add(size);
            assert!(
                mprotect(end.cast(), PAGE, NOTHING) == 0,
                "a page cannot be closed"
            );
            end.cast()
        };
        Lent {
            end,
            room,
            pattern,
            length: 0,
            after: 0,
        }
    }

    /// Puts elements there, up to the closed page or not, and gives the pointer and length to hand over. "An empty
    /// slice may have any pointer": here none, or an odd one into the closed page.
    pub fn lend(&mut self, elements: &[T], closed: bool) -> (*mut T, usize) {
        assert!(elements.len() <= self.room, "more than there is room for");
        self.length = elements.len();
        self.after = if closed { 0 } else { AFTER };
        let (pattern, length) = (self.pattern, self.length);
        let whole = self.whole();
        whole[..BEFORE].fill(pattern);
        whole[BEFORE..BEFORE + length].copy_from_slice(elements);
        whole[BEFORE + length..].fill(pattern);
        match (length, closed) {
            (0, true) => (self.end.wrapping_byte_add(1), 0),
            (0, false) => (ptr::null_mut(), 0),
            _ => (self.whole()[BEFORE..].as_mut_ptr(), length),
        }
    }

    /// What is lent, with the known stretches.
    fn whole(&mut self) -> &mut [T] {
        let count = BEFORE + self.length + self.after;
        // It lies within the mapping, which lives as long as the process.
        unsafe { slice::from_raw_parts_mut(self.end.sub(count), count) }
    }

    /// What is other than it should be after the call.
    pub fn difference(&mut self, name: &str, due: &[T]) -> Option<String> {
        let (pattern, length) = (self.pattern, self.length);
        let whole = self.whole();
        let inside = &whole[BEFORE..BEFORE + length];
        if inside != due {
            let at = (0..length.min(due.len())).find(|&at| inside[at] != due[at])?;
            return Some(format!(
                "{name}, place {at}: the library left {}, due is {}",
                inside[at], due[at]
            ));
        }
        let outside = whole[..BEFORE].iter().chain(&whole[BEFORE + length..]);
        outside
            .into_iter()
            .any(|element| *element != pattern)
            .then(|| format!("{name}: the library wrote outside it"))
    }
}

/// `out`, full of other numbers before the call.
pub struct Out {
    whole: [u64; 16],
}

const OLD: u64 = 0xC7C7_C7C7_C7C7_C7C7;

impl Out {
    pub fn new() -> Out {
        Out { whole: [OLD; 16] }
    }

    pub fn lend(&mut self) -> *mut u64 {
        self.whole[4..].as_mut_ptr()
    }

    /// The numbers written: the first so many.
    pub fn numbers(&self, length: usize) -> &[u64] {
        &self.whole[4..4 + length]
    }

    /// It wrote nothing but the first so many.
    pub fn kept_inside(&self, length: usize) -> bool {
        let outside = |numbers: &[u64]| numbers.iter().any(|number| *number != OLD);
        !outside(&self.whole[..4]) && !outside(&self.whole[4 + length..])
    }
}

impl Default for Out {
    fn default() -> Out {
        Out::new()
    }
}
