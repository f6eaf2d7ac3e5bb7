//! Memory that ends at a page which nobody may touch: whoever runs past its end
//! faults.

use std::ffi::c_void;
use std::slice;

const PAGE: usize = 4096;
const NOTHING: i32 = 0;
const READ: i32 = 1;
const WRITE: i32 = 2;
const PRIVATE_ANONYMOUS: i32 = 0x22;

// Of the C library, with its constants on Linux for x86-64.
extern "C" {
    fn mmap(
        place: *mut c_void,
        length: usize,
        protection: i32,
        flags: i32,
        file: i32,
        offset: i64,
    ) -> *mut c_void;
    fn mprotect(place: *mut c_void, length: usize, protection: i32) -> i32;
}

pub struct Guarded {
    start: *mut u8,
    room: usize,
}

impl Guarded {
    /// As many pages as hold `room` bytes, and the guard page. They stay until the
    /// program ends.
    pub fn new(room: usize) -> Guarded {
        let room = room.next_multiple_of(PAGE);
        let (place, length) = (std::ptr::null_mut(), room + PAGE);
        // A fresh mapping overlaps nothing that Rust knows of.
        let start = unsafe { mmap(place, length, NOTHING, PRIVATE_ANONYMOUS, -1, 0) };
        assert_ne!(start as isize, -1, "no memory");
        let guarded = Guarded {
            start: start.cast(),
            room,
        };
        guarded.protect(READ | WRITE);
        guarded
    }

    /// All but the guard page.
    fn protect(&self, protection: i32) {
        // These pages are this mapping's own, and whoever borrows from it is done.
        let status = unsafe { mprotect(self.start.cast(), self.room, protection) };
        assert_eq!(status, 0, "no protection");
    }

    /// The last bytes before the guard page.
    pub fn last(&mut self, length: usize) -> &mut [u8] {
        assert!(length <= self.room, "{length} bytes in {}", self.room);
        // Within the mapping, which `&mut self` lends to one borrower at a time.
        unsafe { slice::from_raw_parts_mut(self.start.add(self.room - length), length) }
    }

    /// The last numbers before the guard page, which are aligned, as it is.
    pub fn last_numbers(&mut self, count: usize) -> &mut [u64] {
        let bytes = self.last(count * size_of::<u64>());
        // As many bytes as so many numbers have, of which any are a number.
        unsafe { slice::from_raw_parts_mut(bytes.as_mut_ptr().cast(), count) }
    }

    /// These bytes before the guard page, where they can only be read.
    pub fn lend(&mut self, bytes: &[u8]) -> &[u8] {
        self.protect(READ | WRITE);
        self.last(bytes.len()).copy_from_slice(bytes);
        self.protect(READ);
        self.last(bytes.len())
    }
}
