//! A bump arena: text is copied to the end of the current chunk.

use std::cell::{Cell, RefCell};

const CHUNK: usize = 64 * 1024;

pub struct Allocator {
    chunks: RefCell<Vec<Box<[u8]>>>,
    free: Cell<*mut u8>,
    left: Cell<usize>,
}

impl Default for Allocator {
    fn default() -> Self {
        Allocator {
            chunks: RefCell::new(Vec::new()),
            free: Cell::new(std::ptr::null_mut()),
            left: Cell::new(0),
        }
    }
}

impl Allocator {
    /// A copy of `text` that lives as long as the arena.
    #[inline]
    pub fn alloc_str(&self, text: &str) -> &str {
        let len = text.len();
        if len > self.left.get() {
            self.grow(len);
        }
        let start = self.free.get();
        // SAFETY: `left` bytes from `free` on belong to the newest chunk and to nobody else;
        // chunks are boxed and never dropped before the arena.
        unsafe {
            std::ptr::copy_nonoverlapping(text.as_ptr(), start, len);
            self.free.set(start.add(len));
            self.left.set(self.left.get() - len);
            std::str::from_utf8_unchecked(std::slice::from_raw_parts(start, len))
        }
    }

    #[cold]
    fn grow(&self, len: usize) {
        let mut chunk = vec![0u8; len.max(CHUNK)].into_boxed_slice();
        self.free.set(chunk.as_mut_ptr());
        self.left.set(chunk.len());
        self.chunks.borrow_mut().push(chunk);
    }
}

/// What can hand out an arena.
pub trait GetAllocator<'a> {
    fn allocator(&self) -> &'a Allocator;
}

impl<'a> GetAllocator<'a> for &'a Allocator {
    #[inline]
    fn allocator(&self) -> &'a Allocator {
        self
    }
}
