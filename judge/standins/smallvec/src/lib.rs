//! Stand-in for smallvec: a list of `Copy` items that keeps the first few inline.

use std::mem::{ManuallyDrop, MaybeUninit};
use std::ptr::NonNull;

/// The inline array of a `SmallVec`.
pub trait Array {
    type Item: Copy;
    const LENGTH: usize;
}

impl<T: Copy, const N: usize> Array for [T; N] {
    type Item = T;
    const LENGTH: usize = N;
}

/// Either the items themselves, or where they are and how many.
union Data<A: Array> {
    inline: ManuallyDrop<MaybeUninit<A>>,
    heap: (NonNull<A::Item>, usize),
}

/// While inline, `capacity` is the number of items; on the heap it is greater than the array's
/// length.
pub struct SmallVec<A: Array> {
    capacity: usize,
    data: Data<A>,
}

impl<A: Array> SmallVec<A> {
    #[inline]
    pub fn new() -> Self {
        SmallVec { capacity: 0, data: Data { inline: ManuallyDrop::new(MaybeUninit::uninit()) } }
    }

    #[inline]
    fn is_inline(&self) -> bool {
        self.capacity <= A::LENGTH
    }

    #[inline]
    pub fn len(&self) -> usize {
        // SAFETY: beyond the array's length the heap form is in use.
        if self.is_inline() { self.capacity } else { unsafe { self.data.heap.1 } }
    }

    #[inline]
    pub fn is_empty(&self) -> bool {
        self.len() == 0
    }

    #[inline]
    fn first(&self) -> *const A::Item {
        // SAFETY: the form in use is known by the capacity; an array starts with its first item.
        unsafe {
            if self.is_inline() {
                (&raw const self.data.inline).cast()
            } else {
                self.data.heap.0.as_ptr()
            }
        }
    }

    #[inline]
    pub fn push(&mut self, item: A::Item) {
        if self.capacity < A::LENGTH {
            // SAFETY: there is room for one more item inline.
            unsafe {
                let inline = &raw mut self.data.inline;
                let first: *mut A::Item = inline.cast();
                first.add(self.capacity).write(item);
            }
            self.capacity += 1;
        } else {
            self.push_heap(item);
        }
    }

    /// Appends on the heap, after a move there or a growth where needed.
    fn push_heap(&mut self, item: A::Item) {
        let len = self.len();
        if self.is_inline() || len == self.capacity {
            let mut grown = Vec::with_capacity((2 * len).max(A::LENGTH + 1));
            // SAFETY: `len` items lie at `first`.
            grown.extend_from_slice(unsafe { std::slice::from_raw_parts(self.first(), len) });
            self.free();
            let mut grown = ManuallyDrop::new(grown);
            self.capacity = grown.capacity();
            // SAFETY: a vector's pointer is not null.
            self.data.heap = (unsafe { NonNull::new_unchecked(grown.as_mut_ptr()) }, len);
        }
        // SAFETY: on the heap with room for one more item.
        unsafe {
            self.data.heap.0.as_ptr().add(len).write(item);
            self.data.heap.1 = len + 1;
        }
    }

    /// Gives the heap's memory back.
    #[inline]
    fn free(&mut self) {
        if !self.is_inline() {
            // SAFETY: the memory came from a vector of this capacity; items need no drop.
            drop(unsafe { Vec::from_raw_parts(self.data.heap.0.as_ptr(), 0, self.capacity) });
        }
    }
}

impl<A: Array> Drop for SmallVec<A> {
    #[inline]
    fn drop(&mut self) {
        self.free();
    }
}

impl<A: Array> Default for SmallVec<A> {
    fn default() -> Self {
        Self::new()
    }
}

impl<A: Array> Extend<A::Item> for SmallVec<A> {
    #[inline]
    fn extend<I: IntoIterator<Item = A::Item>>(&mut self, items: I) {
        for item in items {
            self.push(item);
        }
    }
}

pub struct IntoIter<A: Array> {
    list: SmallVec<A>,
    at: usize,
    end: usize,
}

impl<A: Array> Iterator for IntoIter<A> {
    type Item = A::Item;

    #[inline]
    fn next(&mut self) -> Option<A::Item> {
        if self.at == self.end {
            return None;
        }
        self.at += 1;
        // SAFETY: `at` was below the number of items.
        Some(unsafe { *self.list.first().add(self.at - 1) })
    }
}

impl<A: Array> IntoIterator for SmallVec<A> {
    type Item = A::Item;
    type IntoIter = IntoIter<A>;

    #[inline]
    fn into_iter(self) -> IntoIter<A> {
        let end = self.len();
        IntoIter { list: self, at: 0, end }
    }
}
