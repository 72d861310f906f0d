//! Memory between two pages that may not be touched: a read or write past a lent slice ends
//! the process there and then, and one short of it meets canary bytes.
use std::ffi::c_void;

extern "C" {
    fn mmap(
        at: *mut c_void,
        length: usize,
        prot: i32,
        flags: i32,
        fd: i32,
        offset: i64,
    ) -> *mut c_void;
    fn mprotect(at: *mut c_void, length: usize, prot: i32) -> i32;
}

const PAGE: usize = 4096;
const CANARY: usize = 64;

/// A region of `CAPACITY` bytes with a guard page on either side.
pub struct Guarded {
    start: *mut u8,
}

/// Above the largest input or output that a case lends.
pub const CAPACITY: usize = 256 * PAGE;

impl Guarded {
    pub fn new() -> Self {
        const NONE: i32 = 0;
        const READ_WRITE: i32 = 3;
        const PRIVATE_ANONYMOUS: i32 = 0x22;
        unsafe {
            let base =
                mmap(std::ptr::null_mut(), CAPACITY + 2 * PAGE, NONE, PRIVATE_ANONYMOUS, -1, 0);
            assert!(base as isize != -1, "no memory");
            let start = base.cast::<u8>().add(PAGE);
            assert_eq!(mprotect(start.cast(), CAPACITY, READ_WRITE), 0);
            Guarded { start }
        }
    }

    fn place(&self, length: usize, at_end: bool) -> *mut u8 {
        assert!(length + CANARY <= CAPACITY, "{length} bytes are too many");
        let at = if at_end { CAPACITY - length } else { 0 };
        unsafe { self.start.add(at) }
    }

    fn canary(&self, length: usize, at_end: bool) -> &mut [u8] {
        let at = if at_end { CAPACITY - length - CANARY } else { length };
        unsafe { std::slice::from_raw_parts_mut(self.start.add(at), CANARY) }
    }

    /// Puts the values there, against the guard page after them or the one before them.
    pub fn put<T: Copy>(&self, values: &[T], at_end: bool) -> *mut T {
        let length = std::mem::size_of_val(values);
        self.canary(length, at_end).fill(0x5c);
        let at = self.place(length, at_end).cast::<T>();
        unsafe { std::ptr::copy_nonoverlapping(values.as_ptr(), at, values.len()) };
        at
    }

    /// What stands there now, and whether the canaries are whole.
    pub fn take<T: Copy>(&self, count: usize, at_end: bool) -> (Vec<T>, bool) {
        let length = count * std::mem::size_of::<T>();
        let whole = self.canary(length, at_end).iter().all(|&b| b == 0x5c);
        let at = self.place(length, at_end).cast::<T>();
        (unsafe { std::slice::from_raw_parts(at, count) }.to_vec(), whole)
    }
}
