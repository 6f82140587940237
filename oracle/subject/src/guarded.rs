//! Buffers lent beside a page that can't be touched, so that a byte read or written out of bounds ends the run.

use core::ffi::{c_int, c_void};
use core::ptr::{NonNull, null_mut};

/// A multiple of every page size that Linux has.
const PAGE: usize = 1 << 16;

/// Of the C library: the numbers are Linux's, the same on every processor.
mod raw {
    use super::{c_int, c_void};

    pub const NONE: c_int = 0;
    pub const READ_WRITE: c_int = 3;
    pub const PRIVATE_ANONYMOUS: c_int = 0x22;

    unsafe extern "C" {
        pub fn mmap(
            place: *mut c_void,
            length: usize,
            protection: c_int,
            flags: c_int,
            file: c_int,
            offset: i64,
        ) -> *mut c_void;
        pub fn mprotect(place: *mut c_void, length: usize, protection: c_int) -> c_int;
        pub fn munmap(place: *mut c_void, length: usize) -> c_int;
    }
}

/// Where the untouchable page stands that a lent buffer touches.
#[derive(Clone, Copy, Debug, PartialEq, Eq)]
pub enum Side {
    Before,
    Behind,
}

/// Room for one buffer at a time, between two untouchable pages.
#[derive(Default)]
pub struct Room {
    /// The room's first byte, and how many there are; none before the first buffer.
    held: Option<(NonNull<u8>, usize)>,
}

impl Room {
    /// A copy of the values that touches the page on the given side; an empty one too.
    pub fn lend<T: Copy>(&mut self, side: Side, values: &[T]) -> &mut [T] {
        let bytes = size_of_val(values);
        let (start, length) = self.of_at_least(bytes);
        let skipped = match side {
            Side::Before => 0,
            Side::Behind => length - bytes,
        };
        // SAFETY: the room has `length` bytes, of which the last `bytes` are aligned: it begins and ends at a page, and a value's size is a multiple
        // of its alignment. The values are copied in before they are lent, and the room is borrowed as long as they are.
        unsafe {
            let lent = start.add(skipped).cast::<T>();
            lent.copy_from_nonoverlapping(NonNull::from(values).cast(), values.len());
            core::slice::from_raw_parts_mut(lent.as_ptr(), values.len())
        }
    }

    /// The room, made again where it is too small.
    fn of_at_least(&mut self, bytes: usize) -> (NonNull<u8>, usize) {
        match self.held {
            Some(held) if held.1 >= bytes => held,
            _ => {
                self.free();
                *self
                    .held
                    .insert(made(bytes.next_multiple_of(PAGE).max(PAGE)))
            }
        }
    }

    fn free(&mut self) {
        if let Some((start, length)) = self.held.take() {
            // SAFETY: the mapping is the one that `made` made, and nothing lent from it is left.
            unsafe { raw::munmap(start.sub(PAGE).as_ptr().cast(), length + 2 * PAGE) };
        }
    }
}

impl Drop for Room {
    fn drop(&mut self) {
        self.free();
    }
}

/// Whole pages, with an untouchable one before and one behind.
fn made(length: usize) -> (NonNull<u8>, usize) {
    // SAFETY: a new mapping touches no other, and only its own inner pages are opened.
    let start = unsafe {
        let whole = raw::mmap(
            null_mut(),
            length + 2 * PAGE,
            raw::NONE,
            raw::PRIVATE_ANONYMOUS,
            -1,
            0,
        );
        assert_ne!(whole.addr(), usize::MAX, "no memory for a lent buffer");
        let inner = whole.byte_add(PAGE);
        let opened = raw::mprotect(inner, length, raw::READ_WRITE);
        assert_eq!(opened, 0, "no memory for a lent buffer");
        inner
    };
    let start = NonNull::new(start.cast());
    (start.expect("no mapping begins at 0"), length)
}
