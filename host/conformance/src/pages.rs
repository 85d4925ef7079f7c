//! What is lent to a call, as a copy right beside a page of memory that may not be touched:
//! a call that reads or writes there ends the program.

use std::ffi::{c_int, c_long, c_void};
use std::ptr::{copy_nonoverlapping, null_mut};
use std::slice::from_raw_parts_mut;

/// The bytes of a page on x86-64.
const PAGE: usize = 4_096;

/// On which side of the copy such a page begins at once.
#[derive(Clone, Copy, Debug, PartialEq, Eq)]
pub enum Side {
    /// Before its first number.
    Before,
    /// After its last.
    After,
}

/// Both.
pub const SIDES: [Side; 2] = [Side::Before, Side::After];

/// As the C library of Linux has them.
const NOTHING: c_int = 0;
const READ_AND_WRITE: c_int = 3;
const PRIVATE_AND_ANONYMOUS: c_int = 0x22;

#[allow(unsafe_code)]
unsafe extern "C" {
    fn mmap(
        at: *mut c_void,
        bytes: usize,
        may: c_int,
        how: c_int,
        file: c_int,
        from: c_long,
    ) -> *mut c_void;
    fn mprotect(at: *mut c_void, bytes: usize, may: c_int) -> c_int;
    fn munmap(at: *mut c_void, bytes: usize) -> c_int;
}

/// Pages with one before and one after them that may not be touched.
struct Pages {
    all: *mut u8,
    bytes: usize,
}

impl Pages {
    /// At least so many bytes between the two.
    #[allow(unsafe_code)]
    fn of(bytes: usize) -> Pages {
        let bytes = bytes.next_multiple_of(PAGE) + 2 * PAGE;
        // Safe: these are fresh pages, which overlap nothing.
        let all = unsafe { mmap(null_mut(), bytes, NOTHING, PRIVATE_AND_ANONYMOUS, -1, 0) };
        assert_ne!(all.addr(), usize::MAX, "no memory");
        let all: *mut u8 = all.cast();
        // Safe: the pages between the first and the last are among them.
        let set = unsafe { mprotect(all.add(PAGE).cast(), bytes - 2 * PAGE, READ_AND_WRITE) };
        assert_eq!(set, 0);
        Pages { all, bytes }
    }
}

impl Drop for Pages {
    #[allow(unsafe_code)]
    fn drop(&mut self) {
        // Safe: they are these, and nothing of them is in use any more.
        unsafe { munmap(self.all.cast(), self.bytes) };
    }
}

/// What a call answers on such a copy of these numbers, and the copy then.
#[allow(unsafe_code)]
pub fn beside<T: Copy, A>(
    side: Side,
    numbers: &[T],
    call: impl FnOnce(&mut [T]) -> A,
) -> (A, Vec<T>) {
    let bytes = size_of_val(numbers);
    let pages = Pages::of(bytes);
    let offset = match side {
        Side::Before => PAGE,
        Side::After => pages.bytes - PAGE - bytes,
    };
    // Safe: so many bytes from there on may be read and written and are no one else's; a
    // page's ends are aligned for all numbers, whose size is a multiple of their alignment.
    let copy = unsafe {
        let at: *mut T = pages.all.add(offset).cast();
        copy_nonoverlapping(numbers.as_ptr(), at, numbers.len());
        from_raw_parts_mut(at, numbers.len())
    };
    let answer = call(copy);
    (answer, copy.to_vec())
}
