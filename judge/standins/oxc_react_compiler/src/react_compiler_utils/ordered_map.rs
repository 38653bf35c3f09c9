//! Stub: maps and sets that keep the order of insertion, as lists of entries.

use std::marker::PhantomData;

use oxc_allocator::{Allocator, CloneIn, CloneInSemanticIds};

#[derive(Debug)]
pub struct OrderedMap<K, V> {
    entries: Vec<(K, V)>,
}

impl<K, V> Default for OrderedMap<K, V> {
    fn default() -> Self {
        OrderedMap { entries: Vec::new() }
    }
}

impl<K: PartialEq, V> OrderedMap<K, V> {
    /// Keys are new at every call here, so no older entry is looked for.
    pub fn insert(&mut self, key: K, value: V) {
        self.entries.push((key, value));
    }

    pub fn iter(&self) -> Iter<'_, K, V> {
        Iter { entries: self.entries.iter() }
    }
}

pub struct Iter<'m, K, V> {
    entries: std::slice::Iter<'m, (K, V)>,
}

impl<'m, K, V> Iterator for Iter<'m, K, V> {
    type Item = (&'m K, &'m V);

    #[inline]
    fn next(&mut self) -> Option<Self::Item> {
        self.entries.next().map(|(key, value)| (key, value))
    }
}

impl<'m, K: PartialEq, V> IntoIterator for &'m OrderedMap<K, V> {
    type Item = (&'m K, &'m V);
    type IntoIter = Iter<'m, K, V>;

    #[inline]
    fn into_iter(self) -> Self::IntoIter {
        self.iter()
    }
}

/// Never filled: the pass reads no phi.
#[derive(Debug)]
pub struct ArenaOrderedMap<'a, K, V>(PhantomData<(&'a (), K, V)>);

/// Never filled: the pass reads no predecessor.
#[derive(Debug)]
pub struct ArenaOrderedSet<'a, K>(PhantomData<(&'a (), K)>);

impl<K> Default for ArenaOrderedSet<'_, K> {
    fn default() -> Self {
        ArenaOrderedSet(PhantomData)
    }
}

impl<'a, K, V> CloneIn<'a> for ArenaOrderedMap<'a, K, V> {
    type Cloned = Self;
    fn clone_in_impl(&self, _: CloneInSemanticIds, _: &'a Allocator) -> Self {
        ArenaOrderedMap(PhantomData)
    }
}

impl<'a, K> CloneIn<'a> for ArenaOrderedSet<'a, K> {
    type Cloned = Self;
    fn clone_in_impl(&self, _: CloneInSemanticIds, _: &'a Allocator) -> Self {
        ArenaOrderedSet(PhantomData)
    }
}
