//! Memory that is lent to the product: each buffer lies against a page that may not be touched, so that a byte outside it is a fault of
//! the run.

use std::ffi::c_void;
use std::ptr;

const PAGE: usize = 4096;

/// Room for the longest buffer, in pages.
const PAGES: usize = 32;

const READ_AND_WRITE: i32 = 3;
const PRIVATE_AND_ANONYMOUS: i32 = 0x22;

extern "C" {
    fn mmap(
        at: *mut c_void,
        size: usize,
        access: i32,
        flags: i32,
        file: i32,
        from: i64,
    ) -> *mut c_void;
    fn mprotect(at: *mut c_void, size: usize, access: i32) -> i32;
}

/// The end of an area that a buffer lies against.
#[derive(Clone, Copy, Debug, PartialEq)]
pub enum Side {
    Start,
    End,
}

/// Pages between two that may not be touched.
pub struct Area(*mut u8);

impl Area {
    pub fn new() -> Area {
        // SAFETY: new memory, of which the pages between the first and the last are made accessible.
        unsafe {
            let all = mmap(
                ptr::null_mut(),
                (PAGES + 2) * PAGE,
                0,
                PRIVATE_AND_ANONYMOUS,
                -1,
                0,
            );
            assert!(all as isize != -1, "no memory");
            let start = all.add(PAGE);
            assert_eq!(mprotect(start, PAGES * PAGE, READ_AND_WRITE), 0);
            Area(start.cast())
        }
    }

    /// A copy of a buffer at one side of the area.
    pub fn lend<T: Copy>(&mut self, buffer: &[T], side: Side) -> &mut [T] {
        let size = size_of_val(buffer);
        assert!(size <= PAGES * PAGE, "a buffer of {size} bytes");
        let before = match side {
            Side::Start => 0,
            Side::End => PAGES * PAGE - size,
        };
        // SAFETY: the bytes lie in the area, which is borrowed as long as they are. Pages begin at multiples of every alignment, and a
        // size is one of its type's.
        unsafe {
            let start = self.0.add(before).cast::<T>();
            ptr::copy_nonoverlapping(buffer.as_ptr(), start, buffer.len());
            std::slice::from_raw_parts_mut(start, buffer.len())
        }
    }
}

/// One area for each buffer of a call.
pub struct Memory {
    pub areas: [Area; 5],
    pub side: Side,
}

impl Memory {
    pub fn new() -> Memory {
        Memory {
            areas: [(); 5].map(|()| Area::new()),
            side: Side::End,
        }
    }
}

#[cfg(test)]
mod tests {
    use super::*;
    use std::os::unix::process::ExitStatusExt;
    use std::process::{Command, Stdio};

    /// Touches the byte so far behind the start of a lent buffer that an environment variable names. Run by the test below alone.
    #[test]
    #[ignore]
    fn touches() {
        let (side, offset) = match std::env::var("TOUCHED").as_deref() {
            Ok("before") => (Side::Start, -1),
            Ok("first") => (Side::Start, 0),
            Ok("last") => (Side::End, 8),
            Ok("behind") => (Side::End, 9),
            _ => return,
        };
        let mut area = Area::new();
        let buffer = area.lend(&[7u8; 9], side);
        let byte = unsafe { buffer.as_ptr().offset(offset).read_volatile() };
        assert_eq!(byte, 7);
    }

    fn signal_of(touched: &str) -> Option<i32> {
        let mut own = Command::new(std::env::current_exe().unwrap());
        own.args(["--exact", "guarded::tests::touches", "--ignored"]);
        let status = own.env("TOUCHED", touched).stdout(Stdio::null()).status();
        status.unwrap().signal()
    }

    #[test]
    fn a_byte_outside_is_a_fault() {
        for inside in ["first", "last"] {
            assert_eq!(signal_of(inside), None);
        }
        for outside in ["before", "behind"] {
            assert_eq!(signal_of(outside), Some(11));
        }
    }

    #[test]
    fn words_lie_at_both_sides() {
        let mut area = Area::new();
        for side in [Side::Start, Side::End] {
            let words = area.lend(&[1u32, 2, 3], side);
            assert_eq!(words, [1, 2, 3]);
            let empty = area.lend::<u32>(&[], side);
            assert!(empty.is_empty());
        }
    }
}
