//! Memory between pages that cannot be read, so that a call that reads past its input is stopped.

use crate::system::{
    mmap, mprotect, MAP_ANONYMOUS, MAP_PRIVATE, PAGE, PROT_NONE, PROT_READ, PROT_WRITE,
};
use std::slice::{from_raw_parts, from_raw_parts_mut};
use std::sync::OnceLock;

pub struct Guarded {
    start: usize,
    length: usize,
}

impl Guarded {
    /// The memory of the process, of at least this length.
    pub fn new(length: usize) -> &'static Guarded {
        static MEMORY: OnceLock<Guarded> = OnceLock::new();
        MEMORY.get_or_init(|| {
            let length = length.next_multiple_of(PAGE);
            // SAFETY: new pages, of which all but the first and the last are made readable.
            let start = unsafe {
                let at = mmap(
                    std::ptr::null_mut(),
                    length + 2 * PAGE,
                    PROT_NONE,
                    MAP_PRIVATE | MAP_ANONYMOUS,
                    -1,
                    0,
                );
                let start = at.wrapping_add(PAGE);
                assert_eq!(mprotect(start, length, PROT_READ | PROT_WRITE), 0);
                start as usize
            };
            Guarded { start, length }
        })
    }

    /// The bytes right behind the first page.
    pub fn at_start(&self, bytes: &[u8]) -> &[u8] {
        self.copy(bytes, 0)
    }

    /// The bytes right before the last page.
    pub fn at_end(&self, bytes: &[u8]) -> &[u8] {
        self.copy(bytes, self.length - bytes.len())
    }

    fn copy(&self, bytes: &[u8], offset: usize) -> &[u8] {
        assert!(bytes.len() <= self.length);
        let at = (self.start + offset) as *mut u8;
        // SAFETY: so many bytes lie there, and libFuzzer tests one input at a time.
        unsafe {
            from_raw_parts_mut(at, bytes.len()).copy_from_slice(bytes);
            from_raw_parts(at, bytes.len())
        }
    }
}
