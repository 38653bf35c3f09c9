//! Vectors and boxes. They own their memory, so that a finished value gives it back.

use std::fmt::{Debug, Formatter, Result};
use std::marker::PhantomData;
use std::ops::{Deref, DerefMut};

use crate::GetAllocator;

pub struct Vec<'a, T> {
    items: std::vec::Vec<T>,
    marker: PhantomData<&'a ()>,
}

impl<'a, T> Vec<'a, T> {
    pub fn new_in<A: GetAllocator<'a>>(_: &A) -> Self {
        Vec { items: std::vec::Vec::new(), marker: PhantomData }
    }

    pub fn from_iter_in<I: IntoIterator<Item = T>, A: GetAllocator<'a>>(items: I, _: &A) -> Self {
        Vec { items: items.into_iter().collect(), marker: PhantomData }
    }

    pub fn push(&mut self, item: T) {
        self.items.push(item);
    }
}

impl<T> Deref for Vec<'_, T> {
    type Target = [T];

    #[inline]
    fn deref(&self) -> &[T] {
        &self.items
    }
}

impl<T> DerefMut for Vec<'_, T> {
    #[inline]
    fn deref_mut(&mut self) -> &mut [T] {
        &mut self.items
    }
}

impl<'v, T> IntoIterator for &'v Vec<'_, T> {
    type Item = &'v T;
    type IntoIter = std::slice::Iter<'v, T>;

    #[inline]
    fn into_iter(self) -> Self::IntoIter {
        self.items.iter()
    }
}

impl<T: Debug> Debug for Vec<'_, T> {
    fn fmt(&self, f: &mut Formatter<'_>) -> Result {
        self.items.fmt(f)
    }
}

pub struct Box<'a, T> {
    item: std::boxed::Box<T>,
    marker: PhantomData<&'a ()>,
}

impl<'a, T> Box<'a, T> {
    pub fn new_in<A: GetAllocator<'a>>(item: T, _: &A) -> Self {
        Box { item: std::boxed::Box::new(item), marker: PhantomData }
    }
}

impl<T> Deref for Box<'_, T> {
    type Target = T;

    #[inline]
    fn deref(&self) -> &T {
        &self.item
    }
}

impl<T> AsRef<T> for Box<'_, T> {
    fn as_ref(&self) -> &T {
        &self.item
    }
}

impl<T: Debug> Debug for Box<'_, T> {
    fn fmt(&self, f: &mut Formatter<'_>) -> Result {
        self.item.fmt(f)
    }
}
