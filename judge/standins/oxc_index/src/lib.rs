//! Stand-in for oxc_index: vectors and slices indexed by a number type of their own.

use std::marker::PhantomData;
use std::ops::{Deref, DerefMut, Index, IndexMut};

#[cfg(feature = "trace")]
pub mod trace;

/// A number type that indexes one kind of table.
pub trait Idx: Copy + Eq {
    fn from_usize(index: usize) -> Self;
    fn index(self) -> usize;
}

/// Defines an index type whose `Option` is no larger than itself.
#[macro_export]
macro_rules! define_nonmax_u32_index_type {
    ($(#[$attribute:meta])* $visibility:vis struct $name:ident;) => {
        $(#[$attribute])*
        #[derive(Clone, Copy, PartialEq, Eq, Hash)]
        $visibility struct $name(::std::num::NonZeroU32);

        impl $name {
            pub const MAX_INDEX: usize = (u32::MAX - 1) as usize;

            #[inline]
            pub const fn from_usize(index: usize) -> Self {
                assert!(index <= Self::MAX_INDEX);
                match ::std::num::NonZeroU32::new(index as u32 ^ u32::MAX) {
                    Some(stored) => Self(stored),
                    None => panic!("index out of range"),
                }
            }

            #[inline]
            pub const fn index(self) -> usize {
                (self.0.get() ^ u32::MAX) as usize
            }
        }

        impl $crate::Idx for $name {
            #[inline]
            fn from_usize(index: usize) -> Self {
                Self::from_usize(index)
            }

            #[inline]
            fn index(self) -> usize {
                self.index()
            }
        }

        impl PartialOrd for $name {
            fn partial_cmp(&self, other: &Self) -> Option<::std::cmp::Ordering> {
                Some(self.cmp(other))
            }
        }

        impl Ord for $name {
            fn cmp(&self, other: &Self) -> ::std::cmp::Ordering {
                self.index().cmp(&other.index())
            }
        }

        impl ::std::fmt::Debug for $name {
            fn fmt(&self, f: &mut ::std::fmt::Formatter<'_>) -> ::std::fmt::Result {
                write!(f, "{}({})", stringify!($name), self.index())
            }
        }
    };
}

/// A slice indexed by `I`; the crate writes it as `IndexSlice<I, [T]>`.
#[repr(transparent)]
pub struct IndexSlice<I, T: ?Sized> {
    marker: PhantomData<fn(I)>,
    raw: T,
}

impl<I: Idx, T> IndexSlice<I, [T]> {
    #[inline]
    pub fn len(&self) -> usize {
        self.raw.len()
    }

    #[inline]
    pub fn is_empty(&self) -> bool {
        self.raw.is_empty()
    }

    #[inline]
    pub fn next_idx(&self) -> I {
        I::from_usize(self.raw.len())
    }

    #[inline]
    pub fn iter(&self) -> std::slice::Iter<'_, T> {
        self.raw.iter()
    }

    #[inline]
    pub fn iter_mut(&mut self) -> std::slice::IterMut<'_, T> {
        self.raw.iter_mut()
    }
}

impl<I: Idx, T> Index<I> for IndexSlice<I, [T]> {
    type Output = T;

    #[inline]
    #[cfg_attr(feature = "trace", track_caller)]
    fn index(&self, index: I) -> &T {
        #[cfg(feature = "trace")]
        trace::read();
        &self.raw[index.index()]
    }
}

impl<I: Idx, T> IndexMut<I> for IndexSlice<I, [T]> {
    #[inline]
    #[cfg_attr(feature = "trace", track_caller)]
    fn index_mut(&mut self, index: I) -> &mut T {
        #[cfg(feature = "trace")]
        trace::write(index.index());
        &mut self.raw[index.index()]
    }
}

pub struct IndexVec<I, T> {
    raw: Vec<T>,
    marker: PhantomData<fn(I)>,
}

impl<I: Idx, T> IndexVec<I, T> {
    pub const fn new() -> Self {
        IndexVec { raw: Vec::new(), marker: PhantomData }
    }

    #[inline]
    pub fn from_vec(raw: Vec<T>) -> Self {
        IndexVec { raw, marker: PhantomData }
    }

    #[inline]
    pub fn push(&mut self, item: T) -> I {
        let index = I::from_usize(self.raw.len());
        self.raw.push(item);
        index
    }
}

impl<I: Idx, T> Deref for IndexVec<I, T> {
    type Target = IndexSlice<I, [T]>;

    #[inline]
    fn deref(&self) -> &Self::Target {
        // SAFETY: IndexSlice is transparent over its slice.
        unsafe { &*(self.raw.as_slice() as *const [T] as *const IndexSlice<I, [T]>) }
    }
}

impl<I: Idx, T> DerefMut for IndexVec<I, T> {
    #[inline]
    fn deref_mut(&mut self) -> &mut Self::Target {
        // SAFETY: IndexSlice is transparent over its slice.
        unsafe { &mut *(self.raw.as_mut_slice() as *mut [T] as *mut IndexSlice<I, [T]>) }
    }
}

impl<I: Idx, T> Index<I> for IndexVec<I, T> {
    type Output = T;

    #[inline]
    #[cfg_attr(feature = "trace", track_caller)]
    fn index(&self, index: I) -> &T {
        #[cfg(feature = "trace")]
        trace::read();
        &self.raw[index.index()]
    }
}

impl<I: Idx, T> IndexMut<I> for IndexVec<I, T> {
    #[inline]
    #[cfg_attr(feature = "trace", track_caller)]
    fn index_mut(&mut self, index: I) -> &mut T {
        #[cfg(feature = "trace")]
        trace::write(index.index());
        &mut self.raw[index.index()]
    }
}

impl<'a, I: Idx, T> IntoIterator for &'a IndexVec<I, T> {
    type Item = &'a T;
    type IntoIter = std::slice::Iter<'a, T>;

    fn into_iter(self) -> Self::IntoIter {
        self.raw.iter()
    }
}
